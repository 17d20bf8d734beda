#!/usr/bin/env python3
"""A second program for document 01, "Rules and scope of the tagged payload build".

Written from the papers alone: document 01, source document 001 (R25-11) where 01 points at it,
and the decisions for what 01 leaves open. It shares no code, table or text with the library.
It is meant to be held against the paper, so it is slow and plain.

    read_message(datagram, expected, table, lent_rows)      -> Reading
    write_message(header, table, rows, content, output)     -> Writing
    read_payload(payload, table, lent_rows)                 -> PayloadReading
    write_payload(table, rows, content, output)             -> Writing
    check_table(table)                                      -> True or False

Nothing is changed in place: an answer holds the lent rows, or the output, as they are afterwards.

Decisions where 01 is silent:
 1. Verdict 31 looks at any run of bytes, whatever the row's kind and whether its level is present.
 2. Rows are judged one by one, each first by 31 and then by 30.
 3. Place + length is a sum of whole numbers; an empty run beyond the buffer is 31.
 4. 17 belongs to the payload: after 1 and 2 for payloads, after 16 for messages.
 5. A Message Type handed in that is none of the five is 1, before 2, as a broken table is.
 6. Floats are their bits alone. Bits of 2^32 or more in a float32 row are 30.
 7. An empty part after a refusal is (0, 0); after acceptance it shows where it is.
 8. The bytes of an array's elements are never judged and never changed.
"""
from dataclasses import dataclass

# ---- Numbers of the paper

HEADER_BYTES = 16
LENGTH_COUNTS_FROM = 8  # Length counts from the Client ID, which stands at byte 8.
PROTOCOL_VERSION = 1
MOST_TYPE_ROWS = 64
MOST_PAYLOAD_BYTES = 1400

REQUEST, REQUEST_NO_RETURN, NOTIFICATION, RESPONSE, ERROR = 0x00, 0x01, 0x02, 0x80, 0x81
MESSAGE_TYPES = (REQUEST, REQUEST_NO_RETURN, NOTIFICATION, RESPONSE, ERROR)

BOOLEAN, UINT8, UINT16, UINT32, UINT64 = 1, 2, 3, 4, 5
SINT8, SINT16, SINT32, SINT64 = 6, 7, 8, 9
FLOAT32, FLOAT64 = 10, 11
STRING, ARRAY, STRUCT = 12, 13, 14

# Kind: bytes, wire type. String, array and struct go by a length field, wire types 4 to 7.
NUMBER_KINDS = {
    BOOLEAN: (1, 0), UINT8: (1, 0), SINT8: (1, 0),
    UINT16: (2, 1), SINT16: (2, 1),
    UINT32: (4, 2), SINT32: (4, 2), FLOAT32: (4, 2),
    UINT64: (8, 3), SINT64: (8, 3), FLOAT64: (8, 3),
}
UNSIGNED_KINDS = (UINT8, UINT16, UINT32, UINT64)
SIGNED_KINDS = (SINT8, SINT16, SINT32, SINT64)
LENGTH_FIELD_KINDS = (STRING, ARRAY, STRUCT)

TEXT_MARK = b"\xef\xbb\xbf"
TEXT_END = b"\x00"

RETURN_CODES = {
    0: 0x00, 10: 0x09, 11: 0x09, 12: 0x07, 13: 0x02, 14: 0x08, 15: 0x03, 16: 0x0A, 17: 0x09,
    20: 0x09, 21: 0x09, 22: 0x09, 23: 0x09, 24: 0x09, 25: 0x09, 26: 0x09, 27: 0x09,
}


def return_code(verdict):
    """The verdict's return code; None where the paper says "none"."""
    return RETURN_CODES.get(verdict)


# ---- What is handed in and back


@dataclass(frozen=True)
class TypeRow:
    level: int
    data_id: int
    kind: int
    element_kind: int = 0
    required: bool = False


@dataclass(frozen=True)
class Table:
    rows: tuple
    width: int = 1
    static: bool = False  # True: the writer uses wire type 4. False: it tells the width in the tag.
    count: int = -1  # The number of rows that the table claims to have; -1: as many as there are.

    def claimed_rows(self):
        return len(self.rows) if self.count == -1 else self.count


@dataclass(frozen=True)
class Row:
    """A value row. What a value doesn't use is 0."""

    case: str = "absent"  # absent, unsigned, signed, float32, float64, bytes or members
    number: int = 0  # of unsigned and signed; of bytes the place
    length: int = 0  # of bytes
    bits: int = 0  # of float32 and float64


ABSENT = Row()
MEMBERS = Row("members")


def unsigned(number):
    return Row("unsigned", number)


def signed(number):
    return Row("signed", number)


def float32(bits):
    return Row("float32", bits=bits)


def float64(bits):
    return Row("float64", bits=bits)


def run_of_bytes(place, length):
    return Row("bytes", place, length)


@dataclass(frozen=True)
class Expected:
    """What the caller of the reader expects."""

    service: int
    method: int
    interface: int
    message_type: int


@dataclass(frozen=True)
class Header:
    """What the caller of the writer hands in: all header fields but Length and Protocol Version."""

    service: int
    method: int
    client: int
    session: int
    interface: int
    message_type: int
    return_code: int


@dataclass(frozen=True)
class PayloadReading:
    verdict: int
    place: int
    skipped: int
    rows: list  # every lent row as it is after the call


@dataclass(frozen=True)
class Reading:
    verdict: int
    place: int
    skipped: int
    client: int
    session: int
    return_code: int  # the header's, as found; not the verdict's
    payload: tuple  # place in the datagram, length
    rest: tuple  # place in the datagram, length; the bytes after the message
    rows: list


@dataclass(frozen=True)
class Writing:
    verdict: int
    length: int
    output: bytes  # the whole output as it is after the call


# ---- Type table


def check_table(table):
    """Whether the type table keeps all of its rules."""
    return (
        has_1_to_64_rows(table)
        and table.width in (1, 2, 4)
        and all(row_fields_are_in_range(row) for row in table.rows)
        and all(element_kind_fits(row) for row in table.rows)
        and first_row_has_level_1(table.rows)
        and levels_follow_each_other(table.rows)
        and structs_stand_at_level_1_to_3(table.rows)
        and data_ids_differ(table.rows)
    )


def has_1_to_64_rows(table):
    return 1 <= table.claimed_rows() <= MOST_TYPE_ROWS and table.claimed_rows() == len(table.rows)


def row_fields_are_in_range(row):
    return 1 <= row.level <= 4 and 0 <= row.data_id <= 4095 and 1 <= row.kind <= 14


def element_kind_fits(row):
    """An array's element kind is 1 to 11; every other row has element kind 0."""
    if row.kind == ARRAY:
        return 1 <= row.element_kind <= 11
    return row.element_kind == 0


def first_row_has_level_1(rows):
    return rows[0].level == 1


def levels_follow_each_other(rows):
    """A row's level is at most the level before it, or one more if the row before is a struct."""
    for before, row in zip(rows, rows[1:]):
        most = before.level + 1 if before.kind == STRUCT else before.level
        if row.level > most:
            return False
    return True


def structs_stand_at_level_1_to_3(rows):
    return all(row.level <= 3 for row in rows if row.kind == STRUCT)


def data_ids_differ(rows):
    """Data IDs differ among the direct members of one struct and among the rows of level 1."""
    seen = set()
    for row, parent in zip(rows, parents(rows)):
        if (parent, row.data_id) in seen:
            return False
        seen.add((parent, row.data_id))
    return True


def parents(rows):
    """For each row the number of the struct whose direct member it is; None at level 1.

    The rows stand depth first, so this is the last row above with a level less by one.
    """
    last_of_level = {}
    found = []
    for number, row in enumerate(rows):
        found.append(last_of_level.get(row.level - 1))
        last_of_level[row.level] = number
    return found


# ---- Numbers and text


def number_of(content):
    return int.from_bytes(content, "big")


def text_is_well_formed(text):
    at = 0
    while at < len(text):
        following = bytes_that_follow(text[at])
        if following is None:
            return False
        tail = text[at + 1 : at + 1 + following]
        if len(tail) < following or not all(0x80 <= byte <= 0xBF for byte in tail):
            return False
        at += 1 + following
    return True


def bytes_that_follow(lead):
    """How many bytes 0x80 to 0xBF follow this one; None if it may not stand here."""
    if 0x01 <= lead <= 0x7F:
        return 0
    if 0xC2 <= lead <= 0xDF:
        return 1
    if 0xE0 <= lead <= 0xEF:
        return 2
    if 0xF0 <= lead <= 0xF4:
        return 3
    return None


# ---- Reading a payload


class Refused(Exception):
    def __init__(self, verdict, place):
        super().__init__(verdict, place)
        self.verdict = verdict
        self.place = place


def read_payload(payload, table, lent_rows):
    """Order: 1, 2, 17, then the walk."""
    if not check_table(table):
        return PayloadReading(1, 0, 0, list(lent_rows))
    if len(lent_rows) < len(table.rows):
        return PayloadReading(2, 0, 0, list(lent_rows))
    if len(payload) > MOST_PAYLOAD_BYTES:
        return PayloadReading(17, 0, 0, first_rows_absent(table, lent_rows))
    walk = Walk(payload, table)
    try:
        walk.read_level(None, 0, len(payload))
    except Refused as refused:
        return PayloadReading(refused.verdict, refused.place, 0, first_rows_absent(table, lent_rows))
    return PayloadReading(0, 0, walk.skipped, walk.rows + list(lent_rows)[len(table.rows) :])


def first_rows_absent(table, lent_rows):
    """As many rows as the type table has are absent; rows beyond stay as they were."""
    return [ABSENT] * len(table.rows) + list(lent_rows)[len(table.rows) :]


class Walk:
    """One walk over a payload. All places count from the payload's first byte."""

    def __init__(self, payload, table):
        self.payload = payload
        self.width = table.width
        self.type_rows = table.rows
        self.rows = [ABSENT] * len(table.rows)
        self.skipped = 0
        self.known = {None: {}}  # struct's row, or None for level 1: Data ID to row number
        for number, parent in enumerate(parents(table.rows)):
            self.known.setdefault(number, {})
            self.known[parent][table.rows[number].data_id] = number

    def read_level(self, parent, at, end):
        """The members from `at` to the level's end, then 27."""
        met = set()
        while at < end:
            at = self.read_member(parent, met, at, end)
        for number in self.known[parent].values():
            if self.type_rows[number].required and number not in met:
                raise Refused(27, end)

    def read_member(self, parent, met, tag_at, end):
        """One member; answers where it ends. Order: 20; 21, 22; 23, 24; 25, 26 or the struct."""
        if end - tag_at == 1:
            raise Refused(20, tag_at)
        tag = number_of(self.payload[tag_at : tag_at + 2])
        wire_type = tag >> 12 & 0b111  # bit 15 is reserved and ignored
        data_id = tag & 0xFFF
        number = self.known[parent].get(data_id)
        if number is not None:
            if not wire_type_is_of_kind(wire_type, self.type_rows[number].kind):
                raise Refused(21, tag_at)
            if number in met:
                raise Refused(22, tag_at)
            met.add(number)
        content_at, length = self.read_extent(wire_type, tag_at + 2, end)
        if content_at + length > end:
            raise Refused(24, content_at)
        if number is None:
            self.skipped += 1
        else:
            self.read_content(number, content_at, length)
        return content_at + length

    def read_extent(self, wire_type, at, end):
        """Where the content starts and how long it is, by wire type and length field."""
        if wire_type <= 3:
            return at, (1, 2, 4, 8)[wire_type]
        field_bytes = {4: self.width, 5: 1, 6: 2, 7: 4}[wire_type]
        if at + field_bytes > end:
            raise Refused(23, at)
        return at + field_bytes, number_of(self.payload[at : at + field_bytes])

    def read_content(self, number, at, length):
        type_row = self.type_rows[number]
        content = self.payload[at : at + length]
        if type_row.kind == STRUCT:
            self.rows[number] = MEMBERS
            self.read_level(number, at, at + length)
        elif type_row.kind == ARRAY:
            if length % NUMBER_KINDS[type_row.element_kind][0] != 0:
                raise Refused(25, at)
            self.rows[number] = run_of_bytes(at, length)
        elif type_row.kind == STRING:
            if not string_content_is_well_formed(content):
                raise Refused(26, at)
            self.rows[number] = run_of_bytes(at + len(TEXT_MARK), length - len(TEXT_MARK + TEXT_END))
        else:
            self.rows[number] = number_row(type_row.kind, content)


def wire_type_is_of_kind(wire_type, kind):
    if kind in LENGTH_FIELD_KINDS:
        return 4 <= wire_type <= 7
    return wire_type == NUMBER_KINDS[kind][1]


def string_content_is_well_formed(content):
    """EF BB BF, then text, then one 00."""
    if len(content) < len(TEXT_MARK + TEXT_END):
        return False
    mark, text, end = content[:3], content[3:-1], content[-1:]
    return mark == TEXT_MARK and end == TEXT_END and text_is_well_formed(text)


def number_row(kind, content):
    number = number_of(content)
    if kind == BOOLEAN:
        return unsigned(number & 1)
    if kind in UNSIGNED_KINDS:
        return unsigned(number)
    if kind in SIGNED_KINDS:
        return signed(int.from_bytes(content, "big", signed=True))
    if kind == FLOAT32:
        return float32(number)
    return float64(number)


# ---- Reading a message


def read_message(datagram, expected, table, lent_rows):
    """Order: 1, 2, 10 to 17 by number, then the walk."""
    if not check_table(table) or expected.message_type not in MESSAGE_TYPES:
        return reading_without_parts(1, list(lent_rows))
    if len(lent_rows) < len(table.rows):
        return reading_without_parts(2, list(lent_rows))
    if len(datagram) < HEADER_BYTES:
        return reading_without_parts(10, first_rows_absent(table, lent_rows))
    length = number_of(datagram[4:8])
    message_end = LENGTH_COUNTS_FROM + length
    if length < 8 or message_end > len(datagram):
        return reading_without_parts(11, first_rows_absent(table, lent_rows))

    verdict = header_verdict(datagram, expected)
    if verdict == 0:
        payload = read_payload(datagram[HEADER_BYTES:message_end], table, lent_rows)
    else:
        payload = PayloadReading(verdict, 0, 0, first_rows_absent(table, lent_rows))
    payload_is_given = payload.verdict == 0 or 20 <= payload.verdict <= 27
    return Reading(
        payload.verdict,
        payload.place,
        payload.skipped,
        client=number_of(datagram[8:10]),
        session=number_of(datagram[10:12]),
        return_code=datagram[15],
        payload=part(payload.verdict, HEADER_BYTES, message_end) if payload_is_given else (0, 0),
        rest=part(payload.verdict, message_end, len(datagram)),
        rows=payload.rows,
    )


def header_verdict(datagram, expected):
    """12 to 16 by number; note 14 (interface) before 15 (method)."""
    if datagram[12] != PROTOCOL_VERSION:
        return 12
    if number_of(datagram[0:2]) != expected.service:
        return 13
    if datagram[13] != expected.interface:
        return 14
    if number_of(datagram[2:4]) != expected.method:
        return 15
    if datagram[14] != expected.message_type:
        return 16
    return 0


def reading_without_parts(verdict, rows):
    """After 1, 2, 10 and 11: both parts empty, and Client, Session and Return Code 0."""
    return Reading(verdict, 0, 0, 0, 0, 0, (0, 0), (0, 0), rows)


def part(verdict, start, end):
    """A part of the datagram as place and length (decision 7)."""
    if verdict != 0 and start == end:
        return (0, 0)
    return (start, end - start)


# ---- Writing a payload


def write_payload(table, rows, content, output):
    verdict, payload = payload_to_write(table, rows, content)
    if verdict == 0 and len(output) < len(payload):
        verdict = 2
    return written(verdict, payload, output)


def written(verdict, message, output):
    """A refused write changes no output byte; an accepted one the message's bytes only."""
    if verdict != 0:
        return Writing(verdict, 0, bytes(output))
    return Writing(0, len(message), message + bytes(output)[len(message) :])


def payload_to_write(table, rows, content):
    """Order: 1, 2 for value rows, then row by row 31 before 30, then 32, 33."""
    if not check_table(table):
        return 1, b""
    if len(rows) < len(table.rows):
        return 2, b""
    verdict = rows_verdict(table.rows, rows, content)
    if verdict != 0:
        return verdict, b""
    writer = Writer(table, rows, content)
    if writer.some_content_is_over_its_length_field():
        return 32, b""
    if writer.level_bytes(None) > MOST_PAYLOAD_BYTES:
        return 33, b""
    return 0, writer.write_level(None)


def rows_verdict(type_rows, rows, content):
    """31 and 30, row by row."""
    for number, parent in enumerate(parents(type_rows)):
        level_is_present = parent is None or rows[parent].case == "members"
        if run_is_past_the_buffer(rows[number], content):
            return 31
        if not row_is_right(type_rows[number], rows[number], level_is_present, content):
            return 30
    return 0


def run_is_past_the_buffer(row, content):
    return row.case == "bytes" and row.number + row.length > len(content)


def row_is_right(type_row, row, level_is_present, content):
    if row.case == "absent":
        return not (type_row.required and level_is_present)
    return level_is_present and value_is_of_kind_and_range(type_row, row, content)


def value_is_of_kind_and_range(type_row, row, content):
    kind = type_row.kind
    if kind == BOOLEAN:
        return row.case == "unsigned" and row.number in (0, 1)
    if kind in UNSIGNED_KINDS:
        return row.case == "unsigned" and 0 <= row.number < 2 ** number_bits(kind)
    if kind in SIGNED_KINDS:
        half = 2 ** (number_bits(kind) - 1)
        return row.case == "signed" and -half <= row.number < half
    if kind == FLOAT32:
        return row.case == "float32" and 0 <= row.bits < 2**32
    if kind == FLOAT64:
        return row.case == "float64" and 0 <= row.bits < 2**64
    if kind == STRING:
        return row.case == "bytes" and text_is_well_formed(bytes_of_run(row, content))
    if kind == ARRAY:
        return row.case == "bytes" and row.length % NUMBER_KINDS[type_row.element_kind][0] == 0
    return row.case == "members"


def number_bits(kind):
    return 8 * NUMBER_KINDS[kind][0]


def bytes_of_run(row, content):
    return bytes(content[row.number : row.number + row.length])


class Writer:
    """Writes rows that 31 and 30 have passed. Sizes are found before any byte is written."""

    def __init__(self, table, rows, content):
        self.type_rows = table.rows
        self.rows = rows
        self.content = content
        self.width = table.width
        self.wire_type = 4 if table.static else {1: 5, 2: 6, 4: 7}[table.width]
        self.present_members = {}  # struct's row, or None for level 1: its present rows in order
        for number, parent in enumerate(parents(table.rows)):
            if rows[number].case != "absent":
                self.present_members.setdefault(parent, []).append(number)

    def some_content_is_over_its_length_field(self):
        most = 256**self.width - 1
        for number, type_row in enumerate(self.type_rows):
            present = self.rows[number].case != "absent"
            if present and type_row.kind in LENGTH_FIELD_KINDS and self.content_bytes(number) > most:
                return True
        return False

    def level_bytes(self, parent):
        return sum(self.member_bytes(number) for number in self.present_members.get(parent, []))

    def member_bytes(self, number):
        has_length_field = self.type_rows[number].kind in LENGTH_FIELD_KINDS
        return 2 + (self.width if has_length_field else 0) + self.content_bytes(number)

    def content_bytes(self, number):
        kind = self.type_rows[number].kind
        if kind == STRUCT:
            return self.level_bytes(number)
        if kind == ARRAY:
            return self.rows[number].length
        if kind == STRING:
            return len(TEXT_MARK) + self.rows[number].length + len(TEXT_END)
        return NUMBER_KINDS[kind][0]

    def write_level(self, parent):
        return b"".join(self.write_member(number) for number in self.present_members.get(parent, []))

    def write_member(self, number):
        type_row = self.type_rows[number]
        content = self.write_content(number)
        if type_row.kind in LENGTH_FIELD_KINDS:
            tag = self.wire_type * 4096 + type_row.data_id
            return tag.to_bytes(2, "big") + len(content).to_bytes(self.width, "big") + content
        tag = NUMBER_KINDS[type_row.kind][1] * 4096 + type_row.data_id
        return tag.to_bytes(2, "big") + content

    def write_content(self, number):
        kind = self.type_rows[number].kind
        row = self.rows[number]
        if kind == STRUCT:
            return self.write_level(number)
        if kind == ARRAY:
            return bytes_of_run(row, self.content)
        if kind == STRING:
            return TEXT_MARK + bytes_of_run(row, self.content) + TEXT_END
        if kind in (FLOAT32, FLOAT64):
            return row.bits.to_bytes(NUMBER_KINDS[kind][0], "big")
        return row.number.to_bytes(NUMBER_KINDS[kind][0], "big", signed=kind in SIGNED_KINDS)


# ---- Writing a message


def write_message(header, table, rows, content, output):
    """Order: 1, 2 for value rows, then row by row 31 before 30, then 32, 33, then 2 for the output."""
    if header.message_type not in MESSAGE_TYPES:
        return written(1, b"", output)
    verdict, payload = payload_to_write(table, rows, content)
    message = header_bytes(header, len(payload)) + payload
    if verdict == 0 and len(output) < len(message):
        verdict = 2
    return written(verdict, message, output)


def header_bytes(header, payload_bytes):
    return (
        header.service.to_bytes(2, "big")
        + header.method.to_bytes(2, "big")
        + (8 + payload_bytes).to_bytes(4, "big")
        + header.client.to_bytes(2, "big")
        + header.session.to_bytes(2, "big")
        + bytes([PROTOCOL_VERSION, header.interface, header.message_type, header.return_code])
    )


# ---- Showing answers


def value_words(row):
    """A value as the paper's program prints it; a float is shown by its bits."""
    if row.case in ("unsigned", "signed"):
        return f"{row.case} {row.number}"
    if row.case == "bytes":
        return f"bytes {row.number} {row.length}"
    if row.case == "float32":
        return f"float32 {row.bits:08x}"
    if row.case == "float64":
        return f"float64 {row.bits:016x}"
    return row.case


def verdict_words(verdict):
    code = return_code(verdict)
    return f"verdict {verdict} code {'none' if code is None else code}"


TABLE_W = Table(
    (
        TypeRow(1, 1, UINT32),
        TypeRow(1, 2, SINT16, required=True),
        TypeRow(1, 5, STRUCT),
        TypeRow(2, 1, UINT16, required=True),
        TypeRow(1, 7, STRING),
    ),
    width=1,
    static=False,
)
EXPECTED_W = Expected(0x4A01, 0x8001, 1, NOTIFICATION)


def showw(datagram):
    """What the paper's program prints for a datagram under table W."""
    reading = read_message(datagram, EXPECTED_W, TABLE_W, [ABSENT] * 5)
    lines = [f"{verdict_words(reading.verdict)} place {reading.place} skipped {reading.skipped}"]
    for number, row in enumerate(reading.rows):
        lines.append(f"{number + 1} {TABLE_W.rows[number].data_id} {value_words(row)}")
    return "\n".join(lines) + "\n"


if __name__ == "__main__":
    import sys

    sys.stdout.write(showw(sys.stdin.buffer.read()))
