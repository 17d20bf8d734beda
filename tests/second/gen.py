#!/usr/bin/env python3
"""Makes cases in the form of docs/CASES.md, with the answers of the second program.

    python3 tests/second/gen.py SEED COUNT DIR

writes DIR/stdin (the cases) and DIR/stdout (the answers) and prints how often each verdict came up.
The same seed and count give the same files. Each family of cases below is called again and again;
`turn` counts its calls, so that a family with a list of things to try goes through it in order.
"""
import collections
import itertools
import os
import random
import sys
from dataclasses import replace

import answer
import shapes
import sip
from shapes import Member, flat
from sip import ARRAY, MESSAGE_TYPES, MOST_PAYLOAD_BYTES, NUMBER_KINDS, STRING, STRUCT


MOST_LABEL, MOST_DATA, MOST_LENT_ROWS = 64, 2048, 72  # as docs/CASES.md promises


class Cases:
    """The lines of the cases. A table, or whatever else is set, is given again only if it changes."""

    def __init__(self):
        self.lines = []
        self.last = {}
        self.count = 0

    def set(self, label, groups):
        digits = " ".join(group.hex().upper() for group in groups)
        if self.last.get(label) != digits:
            self.last[label] = digits
            self.lines.append(f"{label}: {digits}".rstrip())

    def add(self, operation, name, data):
        self.count += 1
        label = f"{operation} {self.count} {name}" if operation else f"{self.count} {name}"
        assert len(label) <= MOST_LABEL and len(data) <= MOST_DATA
        self.lines.append(f"{label}: {data.hex().upper()}".rstrip())

    def read_payload(self, name, table, room, payload):
        assert room <= MOST_LENT_ROWS
        self.set("table", answer.table_bytes(table, room))
        self.add("", name, payload)

    def read_message(self, name, table, room, expected, datagram):
        assert room <= MOST_LENT_ROWS
        self.set("table", answer.table_bytes(table, room))
        self.set("expect", [answer.expected_bytes(expected)])
        self.add("read-message", name, datagram)

    def write(self, rng, name, table, rows, content, output_bytes, header=None):
        """Writes a message under this header; without one, a payload."""
        assert len(rows) <= MOST_LENT_ROWS and len(content) <= MOST_DATA and output_bytes <= MOST_DATA
        self.set("table", answer.table_bytes(table, len(table.rows)))
        self.set("rows", [answer.record_of(row, rng.randrange(4)) for row in rows])
        self.set("content", [bytes(content)])
        if header is None:
            self.add("write-payload", name, output_bytes.to_bytes(2, "big"))
        else:
            self.set("header", [answer.header_bytes(header)])
            self.add("write-message", name, output_bytes.to_bytes(2, "big"))

    def check_table(self, name, table):
        self.set("table", answer.table_bytes(table, len(table.rows)))
        self.add("check-table", name, b"")


# ---- Headers and datagrams


def random_id(rng):
    return rng.choice((0, 1, 0x00FF, 0x0100, 0x4A01, 0x8001, 0xFFFF, rng.randrange(65536), rng.randrange(65536)))


def random_expected(rng):
    return sip.Expected(random_id(rng), random_id(rng), rng.choice((0, 1, 1, 2, 255, rng.randrange(256))), rng.choice(MESSAGE_TYPES))


def random_header(rng):
    expected = random_expected(rng)
    return sip.Header(
        expected.service, expected.method, random_id(rng), random_id(rng),
        expected.interface, expected.message_type, rng.choice((0, 0, 1, 9, 255, rng.randrange(256))),
    )


def none_of_the_five(rng):
    return rng.choice([t for t in (3, 4, 0x20, 0x22, 0x40, 0x42, 0x7F, 0x82, 0xA0, 0xA1, 0xFF, rng.randrange(256)) if t not in MESSAGE_TYPES])


class Fields:
    """The fields of a datagram that a reader accepts so far; each may be made wrong."""

    def __init__(self, rng, expected, payload):
        self.service, self.method = expected.service, expected.method
        self.length = 8 + len(payload)
        self.client, self.session = random_id(rng), random_id(rng)
        self.protocol, self.interface, self.message_type = 1, expected.interface, expected.message_type
        self.return_code = rng.choice((0, 0, 1, 5, 10, 255))
        self.payload = payload
        self.rest = rng.choice((b"", b"", rng.randbytes(1), rng.randbytes(rng.randint(1, 20))))

    def datagram(self):
        return (
            self.service.to_bytes(2, "big") + self.method.to_bytes(2, "big") + self.length.to_bytes(4, "big")
            + self.client.to_bytes(2, "big") + self.session.to_bytes(2, "big")
            + bytes([self.protocol, self.interface, self.message_type, self.return_code])
            + self.payload + self.rest
        )


def room_for(rng, table):
    return len(table.rows) + rng.choice((0, 0, 0, 0, 1, 2, 7))


def add_reading(cases, rng, name, table, payload, room=None):
    """Reads the payload, alone or as a message."""
    if room is None:
        room = room_for(rng, table)
    if rng.random() < 0.4:
        cases.read_payload(name, table, room, payload)
    else:
        expected = random_expected(rng)
        cases.read_message(name, table, room, expected, Fields(rng, expected, payload).datagram())


# ---- Families: reading


def reading_accepted(cases, rng, turn):
    """Messages of the writer; members shuffled at each level, unknown ones put in, other length fields."""
    table, level = shapes.random_level(rng)
    add_reading(cases, rng, "shuffled", table, flat(level, table.width))


def reading_as_written(cases, rng, turn):
    table, _, _, payload = shapes.random_written(rng)
    add_reading(cases, rng, "as written", table, payload)


def reading_by_other_table(cases, rng, turn):
    """Written under one table, read under another that agrees with it."""
    table, level = shapes.random_level(rng)
    add_reading(cases, rng, "other table", shapes.other_table(rng, table), flat(level, table.width))


def reading_damaged(cases, rng, turn):
    table, level = shapes.random_level(rng)
    add_reading(cases, rng, "damaged", table, shapes.damaged(rng, flat(level, table.width)))


def reading_with_fault(cases, rng, turn):
    """One fault, for the verdicts 20 to 27 in turn."""
    verdict = 20 + turn % 8
    while True:
        table, level = shapes.random_level(rng)
        if not shapes.put_fault(rng, verdict, table, level):
            continue
        payload = flat(level, table.width)
        if sip.read_payload(payload, table, [sip.ABSENT] * len(table.rows)).verdict == verdict:
            return add_reading(cases, rng, f"fault {verdict}", table, payload)


def reading_with_two_faults(cases, rng, turn):
    """Two faults, for all pairs of 20 to 27 in turn, at the same level or at two."""
    pairs = list(itertools.combinations_with_replacement(range(20, 28), 2))
    first, second = pairs[turn % len(pairs)]
    while True:
        table, level = shapes.random_level(rng)
        if shapes.put_fault(rng, second, table, level) and shapes.put_fault(rng, first, table, level):
            return add_reading(cases, rng, f"faults {first} {second}", table, flat(level, table.width))


def reading_of_wrong_length(cases, rng, turn):
    """A struct, string or array whose length field is a little off."""
    while True:
        table, level = shapes.random_level(rng)
        members = [m for _, found in shapes.levels(level) for m in found if m.wire_type >= 4]
        if members:
            rng.choice(members).longer = rng.choice((-2, -1, -1, 1, 1, 2, 3))
            return add_reading(cases, rng, "length off", table, flat(level, table.width))


LEADS_AT_LIMITS = (0xC0, 0xC1, 0xC2, 0xDF, 0xE0, 0xEF, 0xF0, 0xF4, 0xF5, 0x80, 0xBF, 0x7F)


def lead_text(rng, turn):
    """Text with the lead bytes C0 to FF in turn, followed well or badly; each third one at a limit of the rule."""
    lead = 0xC0 + (turn - turn // 3) % 64
    if turn % 3 == 2:
        lead = LEADS_AT_LIMITS[turn // 3 % len(LEADS_AT_LIMITS)]
    following = sip.bytes_that_follow(lead)
    if following is None:  # what a reader that takes it for a lead byte would want
        following = 0 if lead < 0xC0 else 1 if lead < 0xE0 else 3
    if rng.random() < 0.4:
        following = rng.randint(0, 4)
    tail = bytearray(rng.choice((0x80, 0xBF, rng.randint(0x80, 0xBF))) for _ in range(following))
    if tail and rng.random() < 0.25:
        tail[rng.randrange(len(tail))] = rng.choice((0x7F, 0x7F, 0xC0, 0xC0, 0x00, 0x41, 0xFF))
    before, after = rng.choice((b"", b"A", b"\xc3\xa4")), rng.choice((b"", b"", b"B", b"\xe2\x82\xac"))
    return before + bytes([lead]) + bytes(tail) + after


def text_table(rng):
    rows = [sip.TypeRow(1, rng.choice(shapes.SMALL_IDS), STRING, 0, rng.random() < 0.5)]
    if rng.random() < 0.4:
        rows = [sip.TypeRow(1, rng.choice(shapes.SMALL_IDS), STRUCT, 0, True), replace(rows[0], level=2)]
    return sip.Table(tuple(rows), rng.choice((1, 2, 4)), rng.random() < 0.5)


def reading_text(cases, rng, turn):
    table = text_table(rng)
    level = [Member(rng.randint(4, 7), table.rows[-1].data_id, sip.TEXT_MARK + lead_text(rng, turn) + sip.TEXT_END, 0)]
    if len(table.rows) == 2:
        level = [Member(rng.randint(4, 7), table.rows[0].data_id, level, 0)]
    add_reading(cases, rng, "text", table, flat(level, table.width))


def broken_table_case(cases, rng, turn):
    """A table that breaks a rule, all rules in turn, under each operation."""
    how = shapes.TABLE_BREAKS[turn % len(shapes.TABLE_BREAKS)]
    table = shapes.broken_table(rng, how)
    name = f"table, {how}"
    room = max(0, len(table.rows) + rng.choice((-1, 0, 0, 0, 2)))
    operation = rng.randrange(5)
    if operation == 0:
        cases.check_table(name, table)
    elif operation in (1, 2):
        _, _, _, payload = shapes.random_written(rng)
        add_reading(cases, rng, name, table, payload, room)
    else:
        rows = [sip.ABSENT] * room
        header = random_header(rng) if operation == 3 else None
        cases.write(rng, name, table, rows, b"", rng.choice((0, 16, 20)), header)


def valid_table_case(cases, rng, turn):
    """Tables of all sizes that keep the rules, 1 to 64 rows in turn."""
    cases.check_table("valid table", shapes.random_table(rng, rows=1 + turn % 64))


READ_WRONGS = (
    "table", "expected type", "room", "short", "length below 8", "length past", "protocol",
    "service", "interface", "method", "type", "large", "walk",
)


def wrongs_in_turn(wrongs, turn):
    """Each alone and each two, the ones alone as often as the pairs together; neighbours are the first pairs."""
    pairs = sorted(itertools.combinations(wrongs, 2), key=lambda pair: wrongs.index(pair[1]) - wrongs.index(pair[0]))
    if turn % 2 == 0:
        return (wrongs[turn // 2 % len(wrongs)],)
    return pairs[turn // 2 % len(pairs)]


def reading_with_wrongs(cases, rng, turn):
    """A message wrong in one thing or in two."""
    wrongs = wrongs_in_turn(READ_WRONGS, turn)
    table, level = shapes.random_level(rng)
    while "walk" in wrongs and not shapes.put_fault(rng, rng.randint(20, 27), table, level):
        pass
    payload = flat(level, table.width)
    if "large" in wrongs:
        payload = shapes.padded(rng, table, level, rng.choice((1401, 1401, 1402, 1420))) or payload
    expected = random_expected(rng)
    fields = Fields(rng, expected, payload)
    for wrong in wrongs:
        make_field_wrong(rng, wrong, fields, expected)
    if "expected type" in wrongs:
        expected = replace(expected, message_type=none_of_the_five(rng))
        if rng.random() < 0.5:
            fields.message_type = expected.message_type
    room = room_for(rng, table)
    if "room" in wrongs:
        room = rng.choice((len(table.rows) - 1, len(table.rows) - 1, 0))
    if "table" in wrongs:
        table = shapes.broken_table(rng, rng.choice(shapes.TABLE_BREAKS))
    datagram = fields.datagram()
    if "short" in wrongs:
        datagram = datagram[: rng.randint(0, 15)]
    cases.read_message("wrong " + " and ".join(wrongs), table, room, expected, datagram)


def make_field_wrong(rng, wrong, fields, expected):
    if wrong == "length below 8":
        fields.length = rng.choice((7, 7, 0, rng.randint(0, 7)))
    elif wrong == "length past":
        there = 8 + len(fields.payload) + len(fields.rest)
        fields.length = rng.choice((there + 1, there + 1, there + 8, there + 256, 0xFFFFFFF8, 0xFFFFFFFF, 0x80000000 + there))
    elif wrong == "protocol":
        fields.protocol = rng.choice((0, 2, 2, 3, 0x81, 255))
    elif wrong == "service":
        fields.service = wrong_id(rng, expected.service, expected.method)
    elif wrong == "method":
        fields.method = wrong_id(rng, expected.method, expected.service)
    elif wrong == "interface":
        fields.interface = (expected.interface + rng.choice((1, 255, 128))) % 256
    elif wrong == "type":
        fields.message_type = rng.choice([t for t in MESSAGE_TYPES + (none_of_the_five(rng),) if t != expected.message_type])


def wrong_id(rng, right, other):
    """Another ID: one off, one bit off, its bytes exchanged, or the other ID."""
    swapped = right % 256 * 256 + right // 256
    found = [i for i in ((right + 1) % 65536, right ^ 1 << rng.randrange(16), swapped, other) if i != right]
    return rng.choice(found)


def reading_of_datagram(cases, rng, turn):
    """Datagrams of 0 to 16 bytes and Lengths at their limits, in turn."""
    table, level = shapes.random_level(rng)
    expected = random_expected(rng)
    fields = Fields(rng, expected, flat(level, table.width))
    there = 8 + len(fields.payload) + len(fields.rest)
    lengths = (0, 7, 8, 9, there - 1, there, there + 1, 0xFF, 0x100, 0x7FFFFFFF, 0x80000000, 0xFFFFFFF7, 0xFFFFFFF8, 0xFFFFFFF9, 0xFFFFFFFF)
    what = turn % (17 + len(lengths))
    if what < 17:
        datagram = fields.datagram()[:what]
        if rng.random() < 0.3:
            datagram = rng.randbytes(what)
        return cases.read_message(f"{what} bytes", table, room_for(rng, table), expected, datagram)
    fields.length = lengths[what - 17]
    if rng.random() < 0.3:
        fields.payload, fields.rest = rng.randbytes(4), b""
    cases.read_message("a Length", table, room_for(rng, table), expected, fields.datagram())


def reading_damaged_message(cases, rng, turn):
    """Any byte of the datagram."""
    table, level = shapes.random_level(rng)
    expected = random_expected(rng)
    datagram = Fields(rng, expected, flat(level, table.width)).datagram()
    cases.read_message("damaged message", table, room_for(rng, table), expected, shapes.damaged(rng, datagram))


def reading_room(cases, rng, turn):
    """One row too few, just enough, one more."""
    table, level = shapes.random_level(rng)
    payload = flat(level, table.width)
    if rng.random() < 0.2:
        payload = shapes.damaged(rng, payload)
    add_reading(cases, rng, "room", table, payload, len(table.rows) + (-1, 0, 1)[turn % 3])


def reading_at_limits(cases, rng, turn):
    what = turn % 12
    if what < 6:
        size = (1399, 1400, 1401, 1402, 1400, 1401)[what]
        payload = None
        while payload is None:
            table, level = shapes.random_level(rng)
            payload = shapes.padded(rng, table, level, size)
        return add_reading(cases, rng, f"payload of {size}", table, payload)
    width, static = rng.choice((1, 2, 4)), rng.random() < 0.5
    data_id = rng.choice(shapes.SMALL_IDS)
    optional = sip.Table((sip.TypeRow(1, data_id, rng.randint(1, 12)),), width, static)
    if what == 6:  # Length 1,409 with 1,400 payload bytes there
        expected = random_expected(rng)
        fields = Fields(rng, expected, rng.randbytes(1400))
        fields.rest, fields.length = b"", 1409
        return cases.read_message("Length 1409, cut", optional, 1, expected, fields.datagram())
    if what == 7:  # one array that fills the payload
        table = sip.Table((sip.TypeRow(1, data_id, ARRAY, rng.choice((1, 2, 6, 3)), True),), width, static)
        wire_type = rng.choice((6, 7))
        size = rng.choice((1400, 1401, 1402)) - 2 - shapes.field_bytes_of(wire_type, width)
        return add_reading(cases, rng, "array to the limit", table, flat([Member(wire_type, data_id, rng.randbytes(size))], width))
    if what == 8:  # a struct with 255 bytes behind a length field of one byte
        table = sip.Table((sip.TypeRow(1, data_id, STRUCT, 0, True), sip.TypeRow(2, 1, ARRAY, 2, True)), 1, static)
        wire_type = rng.choice((4, 5))
        inner = [Member(wire_type, 1, rng.randbytes(252))]
        return add_reading(cases, rng, "struct of 255", table, flat([Member(wire_type, data_id, inner)], 1))
    if what == 9:  # the most members that a payload can skip
        unknown = shapes.free_id(rng, {data_id}).to_bytes(2, "big")
        end = rng.choice((b"", unknown[:1], unknown))
        return add_reading(cases, rng, "466 skipped", optional, (unknown + b"\x2a") * 466 + end)
    if what == 10:  # text of 251 bytes behind a length field of one byte
        table = sip.Table((sip.TypeRow(1, data_id, STRING, 0, True),), 1, static)
        text = b"\x41" * rng.choice((250, 251))
        return add_reading(cases, rng, "long text", table, flat([Member(rng.choice((4, 5)), data_id, sip.TEXT_MARK + text + b"\0")], 1))
    rows = tuple(sip.TypeRow(1, 63 - i, 2, 0, True) for i in range(64))
    members = [Member(0, i, rng.randbytes(1)) for i in range(64)]
    rng.shuffle(members)
    del members[: rng.choice((0, 0, 1))]
    add_reading(cases, rng, "64 required rows", sip.Table(rows, width, static), flat(members, width))


# ---- Families: writing


def random_output(rng, needed):
    return rng.choice((needed, needed, needed + 1, needed + rng.randint(1, 8), max(0, needed - 1), rng.randint(0, needed)))


def add_writing(cases, rng, name, table, rows, content, output=None):
    """Writes the rows as a message, or as a payload alone. `output` is counted from what is needed."""
    header = random_header(rng) if rng.random() < 0.7 else None
    rows = [with_unused_bits(rng, row) for row in rows]
    if len(rows) == len(table.rows):
        rows = rows + [sip.unsigned(2**64 - 1), sip.run_of_bytes(2**64 - 1, 1)][: rng.choice((0, 0, 0, 1, 2))]
    needed = needed_output(rng, table, rows, content, header)
    size = random_output(rng, needed) if output is None else max(0, needed + output)
    cases.write(rng, name, table, rows, content, size, header)


def needed_output(rng, table, rows, content, header):
    """What the message needs; for a refused one some length, also such that it would find room."""
    verdict, payload = sip.payload_to_write(table, rows, content)
    if verdict == 0:
        return (16 if header else 0) + len(payload)
    if verdict in (32, 33):
        return rng.choice((0, 16, 24, 300, 1500))
    return rng.choice((0, 16, 24, 40, 120))


def with_unused_bits(rng, row):
    """Writing ignores what a value doesn't use: bits beside a value that is no float."""
    if row.case in ("float32", "float64") or rng.random() < 0.8:
        return row
    return replace(row, bits=rng.choice((1, 7, 2**32, 2**64 - 1)))


def writing_accepted(cases, rng, turn):
    table, rows, content, _ = shapes.random_written(rng)
    add_writing(cases, rng, "written", table, rows, content.bytes, rng.choice((0, 0, 1, 5)))


def writing_output(cases, rng, turn):
    """Output one too short, exact, one longer, none, just the header, one less, any."""
    table, rows, content, payload = shapes.random_written(rng)
    output = (-1, 0, 1, -100000, -len(payload), -len(payload) - 1, None)[turn % 7]
    add_writing(cases, rng, "output", table, rows, content.bytes, output)


def writing_again(cases, rng, turn):
    """What was read, written again with the payload as content."""
    table, level = shapes.random_level(rng)
    payload = flat(level, table.width)
    reading = sip.read_payload(payload, table, [sip.ABSENT] * len(table.rows))
    add_writing(cases, rng, "written again", table, reading.rows, payload, 0)


def writing_with_broken_row(cases, rng, turn):
    """One row that breaks 30 or 31, all ways in turn."""
    ways = [("value", how) for how in shapes.VALUE_BREAKS] + [("run", how) for how in shapes.RUN_BREAKS]
    what, how = ways[turn % len(ways)]
    while True:
        table, rows, content, _ = shapes.random_written(rng, presence=0.5)
        if broken_row(rng, what, how, table, rows, content):
            return add_writing(cases, rng, f"{what}, {how}", table, rows, content.bytes)


def broken_row(rng, what, how, table, rows, content):
    if what == "value":
        return shapes.break_value(rng, how, table, rows, content)
    return shapes.break_run(rng, how, table, rows, content)


def writing_with_two_broken_rows(cases, rng, turn):
    """30 and 31 in two rows, in both orders, or in the same row."""
    while True:
        table, rows, content, _ = shapes.random_written(rng, presence=0.7)
        value_broken = shapes.break_value(rng, rng.choice(shapes.VALUE_BREAKS), table, rows, content)
        if value_broken and shapes.break_run(rng, rng.choice(shapes.RUN_BREAKS), table, rows, content):
            return add_writing(cases, rng, "30 and 31", table, rows, content.bytes)


def writing_random_rows(cases, rng, turn):
    """Rows with anything in them."""
    table = shapes.random_table(rng, rows=rng.randint(1, 3))
    content = shapes.Content(rng)
    content.bytes += rng.choice((b"", b"ab", b"\x00", b"abcdefgh", b"\xc3\xa4"))
    rows = [rng.choice((sip.ABSENT, shapes.random_case(rng, content), shapes.random_value(rng, row, content))) for row in table.rows]
    add_writing(cases, rng, "any rows", table, rows, content.bytes)


def writing_text(cases, rng, turn):
    """Texts with every lead byte, handed in for writing."""
    table = text_table(rng)
    text = lead_text(rng, turn + 48)
    gap = rng.randbytes(rng.randint(0, 3))
    # What stands behind the run could make a cut text whole, but isn't part of it.
    content = gap + text + rng.choice((b"", b"\x80\x80\x80", b"\x00"))
    rows = [sip.MEMBERS] * (len(table.rows) - 1) + [sip.run_of_bytes(len(gap), len(text))]
    add_writing(cases, rng, "text", table, rows, content, rng.choice((0, 1)))


WRITE_WRONGS = ("table", "type", "room", "31", "30", "32", "33", "output")


def writing_with_wrongs(cases, rng, turn):
    """A write wrong in one thing or in two."""
    wrongs = wrongs_in_turn(WRITE_WRONGS, turn)
    width = 1 if "32" in wrongs else rng.choice((2, 4)) if "33" in wrongs else None
    while True:
        table = shapes.table_with(rng, shapes.is_byte_array, width)
        table, rows, content, _ = shapes.random_written(rng, table, presence=0.9)
        if make_run_wrong(rng, wrongs, table, rows, content) and all(
            broken_row(rng, what, rng.choice(ways), table, rows, content)
            for wrong, what, ways in (("30", "value", shapes.VALUE_BREAKS), ("31", "run", shapes.RUN_BREAKS))
            if wrong in wrongs
        ):
            break
    header = random_header(rng)
    if "type" in wrongs:
        header = replace(header, message_type=none_of_the_five(rng))
    elif rng.random() < 0.3:
        header = None
    if "room" in wrongs:
        rows = rows[: rng.choice((len(rows) - 1, len(rows) - 1, 0))]
    if "table" in wrongs:
        table = shapes.broken_table(rng, rng.choice(shapes.TABLE_BREAKS))
    output = rng.choice((-1, -1, -5, -100000)) if "output" in wrongs else rng.choice((0, 0, 3))
    needed = needed_output(rng, table, rows, content.bytes, header)
    cases.write(rng, "wrong " + " and ".join(wrongs), table, rows, content.bytes, max(0, needed + output), header)


def make_run_wrong(rng, wrongs, table, rows, content):
    """32: a run that its length field can't hold. 33: one that makes the payload too large."""
    if "32" not in wrongs and "33" not in wrongs:
        return True
    arrays = [i for i in range(len(rows)) if shapes.is_byte_array(table.rows[i]) and rows[i].case == "bytes"]
    if not arrays or ("33" in wrongs and "32" not in wrongs and table.width == 1):
        return False
    if "33" not in wrongs:
        size = rng.choice((256, 256, 257, 300))
    else:
        size = rng.choice((1401, 1450))
    content.bytes += rng.randbytes(max(0, size - len(content.bytes)))
    rows[rng.choice(arrays)] = sip.run_of_bytes(rng.randint(0, len(content.bytes) - size), size)
    return True


def writing_at_limits(cases, rng, turn):
    """Contents of 255 and 256 bytes at width 1, of 65,535 and 65,536 at width 2; payloads of 1,400 and 1,401."""
    one_more = turn % 2
    what = turn // 2 % 8
    static = rng.random() < 0.5
    ids = rng.sample(range(4096), 64)
    output = rng.choice((0, 0, 1, -1))
    if what == 0:  # text of 251 or 252 bytes
        table = sip.Table((sip.TypeRow(1, ids[0], STRING),), 1, static)
        text = b"\xc3\xa4" * 125 + b"A" * (1 + one_more)
        return add_writing(cases, rng, f"text of {len(text)}", table, [sip.run_of_bytes(0, len(text))], text, output)
    if what == 1:  # an array of 255 or 256 bytes, or the element size's last that fits
        element_kind = rng.choice((1, 2, 6, 3, 4, 5))
        element_bytes = NUMBER_KINDS[element_kind][0]
        size = (255 // element_bytes + one_more) * element_bytes
        table = sip.Table((sip.TypeRow(1, ids[0], ARRAY, element_kind),), 1, static)
        return add_writing(cases, rng, f"array of {size}", table, [sip.run_of_bytes(0, size)], rng.randbytes(size), output)
    if what in (2, 3):  # a struct of 255 or 256 bytes at level 1, 2 or 3
        return writing_of_struct(cases, rng, 1, static, ids, 255 + one_more, output)
    if what == 4:  # a struct of 65,535 or 65,536 bytes, its runs one over the other
        rows = tuple([sip.TypeRow(1, ids[0], STRUCT)] + [sip.TypeRow(2, i, ARRAY, 2) for i in ids[1:61]])
        size = 65535 + one_more - 60 * 4
        values = [sip.MEMBERS] + [sip.run_of_bytes(i, 1088) for i in range(59)]
        values.append(sip.run_of_bytes(0, size - 59 * 1088))
        return add_writing(cases, rng, f"struct of {65535 + one_more}", sip.Table(rows, 2, static), values, rng.randbytes(1148), output)
    if what == 5:  # at width 1 it takes six arrays to fill a payload
        rows = tuple(sip.TypeRow(1, i, ARRAY, 2) for i in ids[:6])
        values = [sip.run_of_bytes(0, 255)] * 5 + [sip.run_of_bytes(1, 1400 + one_more - 5 * 258 - 3)]
        return add_writing(cases, rng, f"six arrays, {1400 + one_more}", sip.Table(rows, 1, static), values, rng.randbytes(255), output)
    while True:  # a payload of 1,400 or 1,401 bytes by one run
        table = shapes.table_with(rng, shapes.is_byte_array, rng.choice((2, 4)))
        table, rows, content, payload = shapes.random_written(rng, table, presence=0.9)
        arrays = [i for i in range(len(rows)) if shapes.is_byte_array(table.rows[i]) and rows[i].case == "bytes"]
        if arrays and table.width != 1:
            break
    number = rng.choice(arrays)
    size = MOST_PAYLOAD_BYTES + one_more - len(payload) + rows[number].length
    content.bytes += rng.randbytes(max(0, size - len(content.bytes)))
    rows[number] = sip.run_of_bytes(rng.randint(0, len(content.bytes) - size), size)
    add_writing(cases, rng, f"payload of {1400 + one_more}", table, rows, content.bytes, output)


def writing_of_struct(cases, rng, width, static, ids, size, output):
    """A struct of this size that holds two arrays; above it none, one or two structs, told with room or not."""
    above = rng.randint(0, 2)
    rows = [sip.TypeRow(level, ids[level], STRUCT) for level in range(1, above + 2)]
    rows += [sip.TypeRow(above + 2, ids[10], ARRAY, 2), sip.TypeRow(above + 2, ids[11], ARRAY, 6)]
    inner = size - above * 3  # the outermost one has the size
    first = rng.randint(0, inner - 6)
    values = [sip.MEMBERS] * (above + 1) + [sip.run_of_bytes(1, first), sip.run_of_bytes(0, inner - 6 - first)]
    add_writing(cases, rng, f"struct of {size}", sip.Table(tuple(rows), width, static), values, rng.randbytes(size), output)


# ---- All of them

FAMILIES = (  # of each hundred cases
    (8, reading_accepted), (2, reading_as_written), (5, reading_by_other_table), (7, reading_damaged),
    (9, reading_with_fault), (5, reading_with_two_faults), (2, reading_of_wrong_length), (6, reading_text),
    (7, broken_table_case), (1, valid_table_case), (13, reading_with_wrongs), (4, reading_of_datagram),
    (1, reading_damaged_message), (2, reading_room), (3, reading_at_limits),
    (3, writing_accepted), (2, writing_output), (2, writing_again), (5, writing_with_broken_row),
    (2, writing_with_two_broken_rows), (1, writing_random_rows), (3, writing_text),
    (4, writing_with_wrongs), (3, writing_at_limits),
)


def make_cases(seed, count):
    """The lines of the cases, so many of them."""
    rng = random.Random(seed)
    cases = Cases()
    turns = collections.Counter()
    round_of_families = []
    while cases.count < count:
        if not round_of_families:
            round_of_families = [family for weight, family in FAMILIES for _ in range(weight)]
            rng.shuffle(round_of_families)
        family = round_of_families.pop()
        family(cases, rng, turns[family])
        turns[family] += 1
    return cases.lines


def main(make):
    """Writes the cases that `make` makes by the arguments SEED COUNT DIR, and the second program's answers."""
    seed, count, folder = int(sys.argv[1]), int(sys.argv[2]), sys.argv[3]
    lines = make(seed, count)
    answerer = answer.Answerer()
    answers = [shown for line in lines for shown in answerer.answer(line)]
    os.makedirs(folder, exist_ok=True)
    for name, content in (("stdin", lines), ("stdout", answers)):
        with open(os.path.join(folder, name), "w") as file:
            file.write("\n".join(content) + "\n")
    print_counts(answers)


def print_counts(answers):
    """How often each verdict came up, by operation."""
    counts = collections.Counter()
    for label, first in zip(answers, answers[1:]):
        if first.startswith("verdict "):
            word = label.split(" ")[0]
            operation = "read-payload" if word.isdigit() else word
            counts[int(first.split(" ")[1]), operation] += 1
    operations = ("read-payload", "read-message", "write-payload", "write-message", "check-table")
    print("verdict     all " + " ".join(f"{o:>13}" for o in operations))
    for verdict in sorted({verdict for verdict, _ in counts}):
        each = [counts[verdict, o] for o in operations]
        print(f"{verdict:7} {sum(each):7} " + " ".join(f"{n:13}" for n in each))
    print(f"{sum(counts.values())} cases")


if __name__ == "__main__":
    main(make_cases)
