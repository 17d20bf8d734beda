"""Random tables, value rows and payloads for gen.py, right ones and broken ones.

A payload in the making is a level: a list of members. A member is a `Member`, or bytes that are
taken as they are. A struct's member has a level as its content.
"""
from dataclasses import dataclass, replace

import sip
from sip import ARRAY, BOOLEAN, FLOAT32, FLOAT64, NUMBER_KINDS, SIGNED_KINDS, STRING, STRUCT

# ---- Type tables

SMALL_IDS = tuple(range(10)) + (255, 256, 4094, 4095)  # few, so that one ID stands at several levels


def random_table(rng, width=None, rows=None):
    """A valid table."""
    if rows is None:
        rows = rng.choice(range(2, 6)) if rng.random() < 0.5 else rng.choice(range(6, 13))
        if rng.random() < 0.25:
            rows = rng.choice((1, 1, 2, 20, rng.randint(13, 40), 63, 64))
    made = []
    used = [set()]  # the Data IDs of each level that is open
    for _ in range(rows):
        level = len(used) if rng.random() < 0.7 else rng.randint(1, len(used))
        del used[level:]
        row = random_type_row(rng, level, free_id(rng, used[-1]))
        used[-1].add(row.data_id)
        if row.kind == STRUCT:
            used.append(set())
        made.append(row)
    return sip.Table(tuple(made), width or rng.choice((1, 2, 4)), rng.random() < 0.5)


def random_type_row(rng, level, data_id):
    if level < 4 and rng.random() < 0.22:
        kind = STRUCT
    else:
        kind = rng.choice(list(range(1, 12)) + [STRING, STRING, ARRAY, ARRAY, ARRAY])
    element_kind = rng.randint(1, 11) if kind == ARRAY else 0
    return sip.TypeRow(level, data_id, kind, element_kind, rng.random() < 0.5)


def free_id(rng, used):
    for _ in range(20):
        data_id = rng.choice(SMALL_IDS)
        if data_id not in used:
            return data_id
    while True:
        data_id = rng.randint(0, 4095)
        if data_id not in used:
            return data_id


def table_with(rng, test, width=None):
    """A valid table with a row that passes the test."""
    while True:
        table = random_table(rng, width)
        if any(test(row) for row in table.rows):
            return table


def is_byte_array(row):
    return row.kind == ARRAY and NUMBER_KINDS[row.element_kind][0] == 1


def changed(table, number, **fields):
    rows = list(table.rows)
    rows[number] = replace(rows[number], **fields)
    return replace(table, rows=tuple(rows))


def other_table(rng, table):
    """A table that agrees with this one in what both know: rows in another order, some gone, some new."""
    above = sip.parents(table.rows)

    def rows_below(parent):
        depth = 1 if parent is None else table.rows[parent].level + 1
        ids = known_ids(table, parent)
        groups = []  # a direct member and what stands below it
        for number, row in enumerate(table.rows):
            if above[number] == parent and rng.random() < 0.85:
                below = rows_below(number) if row.kind == STRUCT else []
                groups.append([replace(row, required=rng.random() < 0.3)] + below)
        for _ in range(rng.choice((0, 0, 1, 2))):
            new = random_type_row(rng, depth, free_id(rng, ids))
            ids.add(new.data_id)
            groups.append([replace(new, required=rng.random() < 0.1)])
        rng.shuffle(groups)
        return [row for group in groups for row in group]

    while True:
        made = replace(table, rows=tuple(rows_below(None)), static=rng.random() < 0.5)
        if sip.check_table(made):  # not if there are no rows, or too many
            return made


# ---- Tables that break a rule

TABLE_BREAKS = (
    "no rows", "65 rows", "claims 65 rows or more", "width 0", "width 3", "width over 4",
    "level 0", "level 5", "level over 5", "first row below level 1",
    "level rises behind no struct", "level rises by two", "struct at level 4",
    "Data ID 4096", "Data ID over 4096", "kind 0", "kind 15", "kind over 15",
    "array of kind 0", "array of string", "array of array or struct", "array of kind over 14", "element kind of no array",
    "equal IDs side by side", "equal IDs with rows between", "equal IDs at level 1", "equal IDs in a struct",
)
WRONG_WIDTHS = {"width 0": (0,), "width 3": (3,), "width over 4": (5, 6, 7, 8, 16, 255)}
WRONG_LEVELS = {"level 0": (0,), "level 5": (5,), "level over 5": (6, 7, 129, 255)}
WRONG_IDS = {"Data ID 4096": (4096,), "Data ID over 4096": (4097, 8191, 32768, 65535)}
WRONG_KINDS = {"kind 0": (0,), "kind 15": (15,), "kind over 15": (16, 128, 255)}
WRONG_ELEMENT_KINDS = {
    "array of kind 0": (0,), "array of string": (12,), "array of array or struct": (13, 14), "array of kind over 14": (15, 16, 255),
}


def broken_table(rng, how):
    while True:
        table = try_to_break(rng, how, random_table(rng))
        if table is not None and not sip.check_table(table):
            return table


def try_to_break(rng, how, table):
    rows = table.rows
    at = rng.randrange(len(rows))
    if how == "no rows":
        return replace(table, rows=())
    if how == "65 rows":
        full = random_table(rng, rows=64)
        used = {row.data_id for row in full.rows if row.level == 1}
        return replace(full, rows=full.rows + (sip.TypeRow(1, free_id(rng, used), sip.UINT8),))
    if how == "claims 65 rows or more":
        return replace(random_table(rng, rows=64), count=rng.choice((65, 66, 128, 254, 255)))
    if how in WRONG_WIDTHS:
        return replace(table, width=rng.choice(WRONG_WIDTHS[how]))
    if how in WRONG_LEVELS:
        return changed(table, at, level=rng.choice(WRONG_LEVELS[how]))
    if how in WRONG_IDS:
        return changed(table, at, data_id=rng.choice(WRONG_IDS[how]))
    if how in WRONG_KINDS:
        return changed(table, at, kind=rng.choice(WRONG_KINDS[how]), element_kind=0)
    if how in WRONG_ELEMENT_KINDS:
        places = [i for i, row in enumerate(rows) if row.kind == ARRAY]
        return changed(table, rng.choice(places), element_kind=rng.choice(WRONG_ELEMENT_KINDS[how])) if places else None
    if how == "first row below level 1":
        return changed(table, 0, level=rng.randint(2, 4))
    if how == "level rises behind no struct":
        places = [i for i in range(1, len(rows)) if rows[i - 1].kind != STRUCT and rows[i - 1].level < 4]
        number = one_of(rng, places)
        return None if number is None else changed(table, number, level=rows[number - 1].level + 1)
    if how == "level rises by two":
        places = [i for i in range(1, len(rows)) if rows[i - 1].kind == STRUCT and rows[i - 1].level < 3]
        number = one_of(rng, places)
        return None if number is None else changed(table, number, level=rows[number - 1].level + 2)
    if how == "struct at level 4":
        places = [i for i, row in enumerate(rows) if row.level == 4]
        return changed(table, rng.choice(places), kind=STRUCT, element_kind=0) if places else None
    if how == "element kind of no array":
        places = [i for i, row in enumerate(rows) if row.kind != ARRAY]
        return changed(table, rng.choice(places), element_kind=rng.randint(1, 14)) if places else None
    return with_equal_ids(rng, how, table)


def with_equal_ids(rng, how, table):
    above = sip.parents(table.rows)
    pairs = []
    for first in range(len(table.rows)):
        for second in range(first + 1, len(table.rows)):
            fits = {
                "equal IDs side by side": second == first + 1,
                "equal IDs with rows between": second > first + 1,
                "equal IDs at level 1": above[first] is None,
                "equal IDs in a struct": above[first] is not None,
            }[how]
            if above[first] == above[second] and fits:
                pairs.append((first, second))
    if not pairs:
        return None
    first, second = rng.choice(pairs)
    return changed(table, second, data_id=table.rows[first].data_id)


# ---- Value rows

TAIL = range(0x80, 0xC0)


def random_character(rng):
    lead = rng.choice((rng.randint(1, 0x7F), rng.randint(0xC2, 0xDF), rng.randint(0xE0, 0xEF), rng.randint(0xF0, 0xF4)))
    return bytes([lead] + [rng.choice(TAIL) for _ in range(sip.bytes_that_follow(lead))])


def random_text(rng):
    characters = rng.choice((0, 1, 1, 2, 3)) if rng.random() < 0.95 else rng.randint(10, 30)
    return b"".join(random_character(rng) for _ in range(characters))


def bad_text(rng):
    """Text that is not well formed."""
    wrong = rng.choice((
        bytes([rng.choice((0x80, 0xBF, 0xC0, 0xC1, 0xF5, 0xF8, 0xFF))]),
        b"\x00",
        random_character(rng)[:1] if rng.random() < 0.2 else bytes([rng.randint(0xC2, 0xF4)]),
        bytes([rng.randint(0xC2, 0xF4), rng.choice((0x00, 0x41, 0x7F, 0xC0, 0xFF))]),
        bytes([rng.randint(0xE0, 0xF4), rng.choice(TAIL)]),
        bytes([rng.randint(0xF0, 0xF4), rng.choice(TAIL), rng.choice(TAIL)]),
        bytes([rng.randint(0xC2, 0xDF), rng.choice(TAIL), rng.choice(TAIL)]),
    ))
    text = random_text(rng) + wrong + (random_text(rng) if rng.random() < 0.5 else b"")
    return text if not sip.text_is_well_formed(text) else b"\xc0" + text


class Content:
    """A content buffer that grows. Runs may overlap and have gaps between them."""

    def __init__(self, rng):
        self.rng = rng
        self.bytes = bytearray()
        self.texts = []

    def run(self, data):
        if self.rng.random() < 0.3:
            self.bytes += self.rng.randbytes(self.rng.randint(1, 3))
        self.bytes += data
        return sip.run_of_bytes(len(self.bytes) - len(data), len(data))

    def text_run(self):
        if self.texts and self.rng.random() < 0.2:
            return self.rng.choice(self.texts)
        self.texts.append(self.run(random_text(self.rng)))
        return self.texts[-1]

    def array_run(self, element_bytes):
        count = self.rng.choice((0, 1, 1, 2, 3)) if self.rng.random() < 0.95 else self.rng.randint(4, 12)
        size = count * element_bytes
        if size <= len(self.bytes) and self.rng.random() < 0.3:
            return sip.run_of_bytes(self.rng.randint(0, len(self.bytes) - size), size)
        return self.run(self.rng.randbytes(size))


def largest(kind):
    return 1 if kind == BOOLEAN else 2 ** sip.number_bits(kind) - 1


def random_value(rng, row, content):
    kind = row.kind
    if kind == STRUCT:
        return sip.MEMBERS
    if kind == STRING:
        return content.text_run()
    if kind == ARRAY:
        return content.array_run(NUMBER_KINDS[row.element_kind][0])
    if kind == FLOAT32:
        return sip.float32(rng.choice((0, 1, 0x3F800000, 0x7F800000, 0x7F800001, 0x7FC00000, 0x80000000, 0xFF800001, 0xFFFFFFFF, rng.randrange(2**32))))
    if kind == FLOAT64:
        return sip.float64(rng.choice((0, 1, 0x3FF0000000000000, 0x7FF0000000000001, 0x7FF8000000000000, 2**63, 2**64 - 1, rng.randrange(2**64))))
    if kind in SIGNED_KINDS:
        half = 2 ** (sip.number_bits(kind) - 1)
        return sip.signed(rng.choice((0, -1, 1, -half, half - 1, rng.randrange(-half, half))))
    return sip.unsigned(rng.choice((0, 1, largest(kind), rng.randint(0, largest(kind)), rng.randint(0, largest(kind)))))


def random_rows(rng, table, presence=0.6):
    """Value rows that the writer takes, sizes apart, and their content."""
    content = Content(rng)
    rows = []
    for type_row, parent in zip(table.rows, sip.parents(table.rows)):
        level_is_present = parent is None or rows[parent].case == "members"
        if level_is_present and (type_row.required or rng.random() < presence):
            rows.append(random_value(rng, type_row, content))
        else:
            rows.append(sip.ABSENT)
    if rng.random() < 0.3:
        content.bytes += rng.randbytes(rng.randint(1, 4))
    return rows, content


def random_written(rng, table=None, presence=0.6):
    """A table, rows and content that the writer takes, and the payload that it makes of them."""
    while True:
        chosen = table or random_table(rng)
        for tried in range(8):
            rows, content = random_rows(rng, chosen, presence / (1 + tried))
            writing = sip.write_payload(chosen, rows, content.bytes, bytes(sip.MOST_PAYLOAD_BYTES))
            if writing.verdict == 0:
                return chosen, rows, content, writing.output[: writing.length]
        if table is not None:
            table = replace(table, width=4)


# ---- Rows that break a writer's rule

VALUE_BREAKS = (
    "case", "case", "range", "boolean", "float32 bits", "text", "array length",
    "required absent", "required absent in a struct", "under an absent struct", "struct taken away",
)
RUN_BREAKS = (
    "one past the end", "length one too many", "place at 2^64-1", "length at 2^64-1", "sum at 2^64",
    "empty run past the end", "in a row of another kind", "under an absent struct",
)


def random_case(rng, content):
    """Any value of any case."""
    size = len(content.bytes)
    place = rng.randint(0, size)
    return rng.choice((
        sip.unsigned(rng.choice((0, 1, 2, 255, 2**64 - 1))),
        sip.signed(rng.choice((0, 1, -1, -(2**63), 2**63 - 1))),
        sip.float32(rng.choice((0, 0x3F800000, 2**32 - 1))),
        sip.float64(rng.choice((0, 1, 2**64 - 1))),
        sip.run_of_bytes(place, rng.randint(0, size - place)),
        sip.MEMBERS,
    ))


def break_value(rng, how, table, rows, content):
    """Makes one row break rule 30, if it can. Answers whether it did."""
    above = sip.parents(table.rows)
    here = [i for i in range(len(rows)) if above[i] is None or rows[above[i]].case == "members"]
    hidden = [i for i in range(len(rows)) if i not in here]
    kinds = {i: table.rows[i].kind for i in range(len(rows))}
    if how == "case":
        i = rng.choice(here)
        rows[i] = random_case(rng, content)
    elif how == "range":
        i = one_of(rng, [i for i in here if kinds[i] <= sip.SINT32 and kinds[i] != sip.UINT64])
        if i is None:
            return False
        if kinds[i] in SIGNED_KINDS:
            half = 2 ** (sip.number_bits(kinds[i]) - 1)
            rows[i] = sip.signed(rng.choice((half, half, -half - 1, -half - 1, 2 * half, 2**63 - 1, -(2**63))))
        else:
            over = largest(kinds[i]) + 1
            rows[i] = sip.unsigned(rng.choice((over, over, over, 2 * over - 1, 2**64 - 1)))
    elif how == "boolean":
        i = one_of(rng, [i for i in here if kinds[i] == BOOLEAN])
        if i is None:
            return False
        rows[i] = sip.unsigned(rng.choice((2, 2, 3, 255)))
    elif how == "float32 bits":
        i = one_of(rng, [i for i in here if kinds[i] == FLOAT32])
        if i is None:
            return False
        rows[i] = sip.float32(rng.choice((2**32, 2**32 + 1, 2**63, 2**64 - 1)))
    elif how == "text":
        i = one_of(rng, [i for i in here if kinds[i] == STRING])
        if i is None:
            return False
        rows[i] = content.run(bad_text(rng))
    elif how == "array length":
        i = one_of(rng, [i for i in here if kinds[i] == ARRAY and NUMBER_KINDS[table.rows[i].element_kind][0] > 1])
        if i is None:
            return False
        element_bytes = NUMBER_KINDS[table.rows[i].element_kind][0]
        rows[i] = content.run(rng.randbytes(rng.choice((1, element_bytes - 1, element_bytes + 1, 2 * element_bytes - 1))))
    elif how == "required absent":
        i = one_of(rng, [i for i in here if table.rows[i].required])
        if i is None:
            return False
        rows[i] = sip.ABSENT
    elif how == "required absent in a struct":
        i = one_of(rng, [i for i in here if table.rows[i].required and above[i] is not None])
        if i is None:
            return False
        rows[i] = sip.ABSENT
    elif how == "under an absent struct":
        i = one_of(rng, hidden)
        if i is None:
            return False
        rows[i] = random_value(rng, table.rows[i], content)
    else:
        i = one_of(rng, [i for i in here if above[i] is not None and rows[i].case != "absent"])
        if i is None:
            return False
        rows[above[i]] = sip.ABSENT
    return True


def break_run(rng, how, table, rows, content):
    """Makes one row break rule 31, if it can. Answers whether it did. The content grows no more."""
    above = sip.parents(table.rows)
    here = [i for i in range(len(rows)) if above[i] is None or rows[above[i]].case == "members"]
    runs = [i for i in here if table.rows[i].kind in (STRING, ARRAY)]
    size = len(content.bytes)
    if how == "in a row of another kind":
        runs = [i for i in here if i not in runs]
    if how == "under an absent struct":
        runs = [i for i in range(len(rows)) if i not in here]
    i = one_of(rng, runs)
    if i is None:
        return False
    step = NUMBER_KINDS[table.rows[i].element_kind][0] if table.rows[i].kind == ARRAY else 1
    length = step * rng.randint(1, 3)
    rows[i] = run_past_the_end(rng, how, size, length)
    return True


def run_past_the_end(rng, how, size, length):
    """A run past a buffer of this size; `length` is what the row's kind would take."""
    if how == "one past the end" and length <= size:
        return sip.run_of_bytes(size + 1 - length, length)
    if how == "length one too many":
        return sip.run_of_bytes(rng.randint(0, size), size + 1)
    if how == "place at 2^64-1":
        return sip.run_of_bytes(2**64 - 1, rng.choice((0, 1, 2, length)))
    if how == "length at 2^64-1":
        return sip.run_of_bytes(rng.choice((0, 1, 2)), 2**64 - 1)
    if how == "sum at 2^64":
        return sip.run_of_bytes(2**64 - length, length)
    if how == "empty run past the end":
        return sip.run_of_bytes(size + rng.choice((1, 1, 2, 1000)), 0)
    return sip.run_of_bytes(size, length)


def one_of(rng, choices):
    return rng.choice(choices) if choices else None


# ---- Payloads in the making


@dataclass
class Member:
    wire_type: int
    data_id: int
    content: object  # bytes, or the level of a struct
    row: object = None  # the row number of a known member
    reserved: int = 0
    longer: int = 0  # what the length field says too much


def level_of(table, payload, parent=None):
    """A payload of the writer as a level."""
    above = sip.parents(table.rows)
    known = {row.data_id: i for i, row in enumerate(table.rows) if above[i] == parent}
    level, at = [], 0
    while at < len(payload):
        tag = int.from_bytes(payload[at : at + 2], "big")
        wire_type, data_id = tag >> 12, tag & 0xFFF
        at += 2
        if wire_type < 4:
            size = (1, 2, 4, 8)[wire_type]
        else:
            field_bytes = field_bytes_of(wire_type, table.width)
            size = int.from_bytes(payload[at : at + field_bytes], "big")
            at += field_bytes
        content = payload[at : at + size]
        at += size
        row = known[data_id]
        if table.rows[row].kind == STRUCT:
            content = level_of(table, content, row)
        level.append(Member(wire_type, data_id, content, row))
    return level


def field_bytes_of(wire_type, width):
    return {4: width, 5: 1, 6: 2, 7: 4}[wire_type]


def flat(level, width):
    """The bytes of a level. A length field that is too small is replaced by one of four bytes."""
    return b"".join(member if isinstance(member, bytes) else flat_member(member, width) for member in level)


def flat_member(member, width):
    content = flat(member.content, width) if isinstance(member.content, list) else member.content
    wire_type, field = member.wire_type, b""
    if wire_type >= 4:
        size = len(content) + member.longer
        if size >= 256 ** field_bytes_of(wire_type, width):
            wire_type = 7
        field = max(0, size).to_bytes(field_bytes_of(wire_type, width), "big")
    tag = member.reserved * 0x8000 + wire_type * 0x1000 + member.data_id
    return tag.to_bytes(2, "big") + field + content


def levels(level, parent=None):
    """All levels of a payload that a reader walks, with the row of their struct."""
    found = [(parent, level)]
    for member in level:
        if isinstance(member, Member) and isinstance(member.content, list):
            found += levels(member.content, member.row)
    return found


def known_ids(table, parent):
    return {row.data_id for row, above in zip(table.rows, sip.parents(table.rows)) if above == parent}


def unknown_id(rng, table, parent):
    """A Data ID that is unknown at this level; known elsewhere, if it can be."""
    here = known_ids(table, parent)
    elsewhere = sorted({row.data_id for row in table.rows} - here)
    if elsewhere and rng.random() < 0.4:
        return rng.choice(elsewhere)
    return free_id(rng, here)


def unknown_member(rng, table, parent):
    wire_type = rng.randint(0, 7)
    if wire_type < 4:
        content = rng.randbytes((1, 2, 4, 8)[wire_type])
    else:
        content = rng.choice((b"", rng.randbytes(1), rng.randbytes(3), b"\x50\x01\x00", rng.randbytes(rng.randint(0, 20))))
    return Member(wire_type, unknown_id(rng, table, parent), content, reserved=rng.random() < 0.2)


def put_in_unknown(rng, table, level):
    for parent, members in levels(level):
        for _ in range(rng.choice((0, 0, 1, 1, 2))):
            new = unknown_member(rng, table, parent)
            for _ in range(rng.choice((1, 1, 1, 2, 3))):
                members.insert(rng.randint(0, len(members)), replace(new))


def shuffle_members(rng, level):
    for _, members in levels(level):
        rng.shuffle(members)


def change_wire_types(rng, level):
    """Length fields of any width, and the reserved bit here and there."""
    for _, members in levels(level):
        for member in members:
            if member.wire_type >= 4 and rng.random() < 0.5:
                member.wire_type = rng.randint(4, 7)
            if rng.random() < 0.15:
                member.reserved = 1


def change_booleans(rng, table, level):
    """Bytes of booleans that no writer makes: only the lowest bit counts."""
    for _, members in levels(level):
        for member in members:
            if table.rows[member.row].kind == BOOLEAN and rng.random() < 0.5:
                member.content = bytes([rng.choice((2, 3, 0x80, 0xFE, 0xFF, rng.randrange(256)))])


def random_level(rng, table=None):
    """A table and a payload in the making that its reader takes: shuffled, with unknown members."""
    table, _, _, payload = random_written(rng, table)
    level = level_of(table, payload)
    change_booleans(rng, table, level)
    if rng.random() < 0.8:
        shuffle_members(rng, level)
    if rng.random() < 0.7:
        change_wire_types(rng, level)
    if rng.random() < 0.6:
        put_in_unknown(rng, table, level)
    return table, level


def padded(rng, table, level, size):
    """The level's bytes with an unknown member that makes them as many as said; None if it can't be."""
    payload = flat(level, table.width)
    missing = size - len(payload) - 4
    if missing < 0:
        return None
    pad = Member(6, free_id(rng, known_ids(table, None)), rng.randbytes(missing))
    return flat([pad] + level if rng.random() < 0.5 else level + [pad], table.width)


# ---- Faults of a payload


def put_fault(rng, verdict, table, level):
    """Puts a fault for this verdict at one level, if it can. Answers whether it did."""
    parent, members = rng.choice(levels(level))
    if verdict == 20:
        members.append(rng.randbytes(1))
        return True
    if verdict == 21:
        return put_wrong_wire_type(rng, table, members)
    if verdict == 22:
        return put_twice(rng, table, members)
    if verdict in (23, 24):
        tag_of = cut_member(rng, table, parent, members)
        members.append(cut_field(rng, tag_of, table.width) if verdict == 23 else cut_content(rng, tag_of, table.width))
        return True
    if verdict == 25:
        return put_odd_array(rng, table, members)
    if verdict == 26:
        return put_bad_string(rng, table, members)
    required = [m for m in known_members(members) if table.rows[m.row].required]
    if required:
        members.remove(rng.choice(required))
    return bool(required)


def known_members(members):
    return [m for m in members if isinstance(m, Member) and m.row is not None]


def put_wrong_wire_type(rng, table, members):
    member = one_of(rng, known_members(members))
    if member is None:
        return False
    kind = table.rows[member.row].kind
    if rng.random() < 0.3:  # a second one, which is wrong in its wire type too
        member = replace(member)
        members.append(member)
    member.wire_type = rng.choice([w for w in range(8) if not sip.wire_type_is_of_kind(w, kind)])
    if rng.random() < 0.7 and member.wire_type < 4:
        member.content = rng.randbytes((1, 2, 4, 8)[member.wire_type])
    return True


def put_twice(rng, table, members):
    member = one_of(rng, known_members(members))
    if member is None:
        return False
    if rng.random() < 0.3:  # the second one is also cut
        tag_of = member.data_id, table.rows[member.row].kind
        members.append(cut_content(rng, tag_of, table.width))
        return True
    again = replace(member, reserved=rng.randint(0, 1))
    if rng.random() < 0.4 and member.wire_type >= 4:
        again.content = rng.choice((b"", rng.randbytes(3)))
    members.insert(rng.randint(members.index(member) + 1, len(members)), again)
    return True


def cut_member(rng, table, parent, members):
    """A tag's Data ID and the row's kind, for a member that is cut at the level's end."""
    member = one_of(rng, known_members(members))
    if member is None or rng.random() < 0.4:
        return unknown_id(rng, table, parent), None
    members.remove(member)
    return member.data_id, table.rows[member.row].kind


def cut_field(rng, tag_of, width):
    data_id, kind = tag_of
    wire_type = rng.randint(4, 7)
    return (wire_type * 4096 + data_id).to_bytes(2, "big") + rng.randbytes(rng.randrange(field_bytes_of(wire_type, width)))


def cut_content(rng, tag_of, width):
    data_id, kind = tag_of
    wire_type = rng.randint(0, 7)
    if kind is not None:
        wire_type = rng.randint(4, 7) if kind in sip.LENGTH_FIELD_KINDS else NUMBER_KINDS[kind][1]
    tag = (wire_type * 4096 + data_id).to_bytes(2, "big")
    if wire_type < 4:
        return tag + rng.randbytes(rng.randrange((1, 2, 4, 8)[wire_type]))
    field_bytes = field_bytes_of(wire_type, width)
    there = rng.choice((0, 1, 2, 5))
    most = 256**field_bytes - 1
    said = min(most, rng.choice((there + 1, there + 1, there + 2, most, most // 2 + 1, rng.randint(there + 1, most))))
    return tag + said.to_bytes(field_bytes, "big") + rng.randbytes(there)


def put_odd_array(rng, table, members):
    arrays = [m for m in known_members(members) if table.rows[m.row].kind == ARRAY]
    arrays = [m for m in arrays if NUMBER_KINDS[table.rows[m.row].element_kind][0] > 1]
    member = one_of(rng, arrays)
    if member is None:
        return False
    element_bytes = NUMBER_KINDS[table.rows[member.row].element_kind][0]
    member.content = rng.randbytes(rng.choice((1, element_bytes - 1, element_bytes + 1, 2 * element_bytes + 1)))
    return True


def put_bad_string(rng, table, members):
    member = one_of(rng, [m for m in known_members(members) if table.rows[m.row].kind == STRING])
    if member is None:
        return False
    right = member.content
    member.content = rng.choice((
        sip.TEXT_MARK + bad_text(rng) + b"\x00",
        sip.TEXT_MARK + bad_text(rng) + b"\x00",
        right[:-1],
        right + b"\x00",
        right[:-1] + b"\x41",
        b"",
        b"\x00",
        right[:3],
        right[3:],
        b"\xef\xbb\xbe" + right[3:],
        b"\xef\xba\xbf" + right[3:],
        b"\xee\xbb\xbf" + right[3:],
        b"\xfe\xff\x00\x00",
        right[:1],
    ))
    return True


def damaged(rng, payload):
    """Bytes flipped, cut, lengthened, moved."""
    for _ in range(rng.choice((1, 1, 1, 2, 3))):
        at = rng.randint(0, len(payload))
        end = min(len(payload), at + rng.randint(1, 6))
        near = bytes([(payload[at] + rng.choice((-1, 1))) % 256]) if at < len(payload) else b""
        bit = bytes([payload[at] ^ 1 << rng.randrange(8)]) if at < len(payload) else b""
        payload = rng.choice((
            payload[:at] + bit + payload[at + 1 :],
            payload[:at] + bit + payload[at + 1 :],
            payload[:at] + near + payload[at + 1 :],
            payload[:at] + near + payload[at + 1 :],
            payload[:at] + rng.randbytes(1) + payload[at + 1 :],
            payload[:at],
            payload[:-1],
            payload + rng.randbytes(rng.randint(1, 3)),
            payload[:at] + rng.randbytes(1) + payload[at:],
            payload[:at] + payload[end:],
            payload[:end] + payload[at:],
        ))
    return payload
