"""What the library is asked to write: two tables, the values for them, and the cases for the program `vectors`, which runs the library.

The form of cases and answers is that of docs/CASES.md; nothing else of the second program is used. A value is None where the row
is absent, PRESENT for a struct, a whole number (a float's bits), the bytes of a text, or a tuple of an array's elements.
"""
import random
import subprocess
from collections import namedtuple
from itertools import product

# Kind: name, bytes, case of its value in a row (1 unsigned, 2 signed, 3 float32, 4 float64).
NUMBERS = {
    1: ("boolean", 1, 1), 2: ("uint8", 1, 1), 3: ("uint16", 2, 1), 4: ("uint32", 4, 1), 5: ("uint64", 8, 1),
    6: ("sint8", 1, 2), 7: ("sint16", 2, 2), 8: ("sint32", 4, 2), 9: ("sint64", 8, 2), 10: ("float32", 4, 3), 11: ("float64", 8, 4),
}
STRING, ARRAY, STRUCT = 12, 13, 14
MESSAGE_TYPES = (0x02, 0x00, 0x01, 0x80, 0x81)
PRESENT = object()

Row = namedtuple("Row", "level data_id kind element required", defaults=(0, False))
# A table's interface is its length width, so that a reader that is configured by the interface knows the width of wire type 4.
Table = namedtuple("Table", "name service method rows width static", defaults=(1, False))
Message = namedtuple("Message", "table message_type client session return_code values")

TABLE_W = Table("w", 0x4A01, 0x8001, (
    Row(1, 1, 4), Row(1, 2, 7, required=True), Row(1, 5, STRUCT), Row(2, 1, 3, required=True), Row(1, 7, STRING)))
# All kinds, arrays of each, structs down to level 4, the Data IDs 0 and 4095, a struct without members and one with optional ones only.
TABLE_R = Table("r", 0x1F2E, 0x0123, (
    *(Row(1, kind, kind) for kind in NUMBERS), Row(1, 0, STRING), *(Row(1, 100 + kind, ARRAY, kind) for kind in NUMBERS),
    Row(1, 200, STRUCT), Row(2, 1, 3, required=True), Row(2, 4095, ARRAY, 8), Row(2, 2, STRUCT), Row(3, 1, 11), Row(3, 0, STRUCT),
    Row(4, 4095, 1), Row(4, 1, STRING), Row(4, 2, ARRAY, 3, required=True), Row(4, 3, 10), Row(3, 2, STRING, required=True), Row(2, 3, 1),
    Row(1, 300, STRUCT), Row(1, 4095, STRUCT), Row(2, 1, 6), Row(2, 2, STRUCT), Row(3, 1, 2), Row(1, 4094, 5, required=True)))

# Texts with characters of one to four bytes, those on both sides of a change of length among them.
TEXTS = tuple(text.encode() for text in (
    "", "salt", "Räumgerät", "−12 °C, 3 €", "🚛", "aé€🚛 ~\u0080\u07ff\u0800\ufffd\U00010000\U0010ffff", "x" * 60))
FLOATS32 = (0, 1 << 31, 0x3F9E064B, 0x7F800000, 0xFF800000, 0x7FC00001, 0xFFC00000, 0x7F800001, 1, 0x7F7FFFFF, 0xC2F6E979)
FLOATS64 = (0, 1 << 63, 0x3FF3C0CA428C59FB, 0x7FF0 << 48, 0xFFF0 << 48, (0x7FF8 << 48) + 1, 0xFFF8 << 48, (0x7FF0 << 48) + 1, 1, (0x7FF0 << 48) - 1)


def parents(table):
    """For each row the row of the struct that it is in, counted from 0; -1 at level 1."""
    path, found = [-1], []
    for n, row in enumerate(table.rows):
        del path[row.level:]
        found.append(path[-1])
        path.append(n)
    return found


def members(table, parent):
    return [n for n, above in enumerate(parents(table)) if above == parent]


def choices(kind):
    """The values that a kind is tried with: limits above all."""
    if kind == STRING:
        return TEXTS
    top = 2 if kind == 1 else 1 << 8 * NUMBERS[kind][1]
    unsigned, signed = (0, 1, top // 2 - 1, top // 2, top - 1), (-top // 2, -125, -1, 0, top // 2 - 1)
    return (unsigned, signed, FLOATS32, FLOATS64)[NUMBERS[kind][2] - 1]


def value(row, turn):
    """The row's value in a turn. An array has three elements, none or one."""
    if row.kind == STRUCT:
        return PRESENT
    several = choices(row.element or row.kind)
    some = tuple(several[(turn + i) % len(several)] for i in range(3))
    return some[:(3, 0, 1)[turn % 3]] if row.kind == ARRAY else some[0]


def values(table, is_present, turn_of):
    """Values of all rows: of the required ones and of those that `is_present` names, where their struct is present."""
    made = []
    for n, (row, above) in enumerate(zip(table.rows, parents(table))):
        reached = above < 0 or made[above] is not None
        made.append(value(row, turn_of(n)) if reached and (row.required or is_present(n)) else None)
    return tuple(made)


def values_of_w(table):
    """Every presence of the optional rows, in seven turns of the values each; then the longest text."""
    for present, turn in product(product((False, True), repeat=3), range(7)):
        yield values(table, lambda n: present[n // 2], lambda n: turn)
    # 255 bytes of content, or what a payload of 1,400 leaves beside the sint16, the tag and the length field; less mark and terminator.
    yield (None, -125, None, None, b"x" * ((255 if table.width == 1 else 1400 - 4 - 2 - table.width) - 4))


def values_of_r(table, rng):
    """All rows, none, each alone in its structs, all but each, and any."""
    for turn in range(11):
        yield values(table, lambda n: True, lambda n: turn)
    yield values(table, lambda n: False, lambda n: 0)
    for one in range(len(table.rows)):
        path = [one]
        while path[-1] >= 0:
            path.append(parents(table)[path[-1]])
        yield values(table, lambda n: n in path, lambda n: one)
        yield values(table, lambda n: n != one, lambda n: n + one)
    for _ in range(40):
        yield values(table, lambda n: rng.random() < 0.6, lambda n: rng.randrange(330))


def messages(seed):
    """The messages to write: both tables, each with the widths 1, 2 and 4, told in the tag and static."""
    rng, made = random.Random(seed), []
    for width, static in product((1, 2, 4), (False, True)):
        w, r = (table._replace(width=width, static=static) for table in (TABLE_W, TABLE_R))
        for table, several in ((w, values_of_w(w)), (r, values_of_r(r, rng))):
            for n, some in enumerate(several, len(made)):
                made.append(Message(table, MESSAGE_TYPES[n % 5], 0xFFFF - 257 * n & 0xFFFF, 259 * n & 0xFFFF, n % 11, some))
    return made


# ---- Through the library


def table_line(table):
    rows = "".join("%02X%04X%02X%02X%02X" % row for row in table.rows)
    return "table: %02X%02X%02X%02X%s" % (len(table.rows), len(table.rows), table.width, table.static, rows)


def number_bytes(kind, number):
    size = NUMBERS[kind][1]
    return (number & (1 << 8 * size) - 1).to_bytes(size, "big")


def record(row, some, content):
    """A value row in the form of the cases; the bytes of a run are put behind `content`."""
    case = number = length = bits = 0
    if some is PRESENT:
        case = 6
    elif row.kind in (STRING, ARRAY) and some is not None:
        run = some if row.kind == STRING else b"".join(number_bytes(row.element, element) for element in some)
        case, number, length = 5, len(content), len(run)
        content += run
    elif some is not None:
        case = NUMBERS[row.kind][2]
        number, bits = (0, some) if case > 2 else (some, 0)
    return "%02X%016X%016X%016X00" % (case, number & (1 << 64) - 1, length, bits)


def writing_case(message):
    table, content = message.table, bytearray()
    rows = "".join(record(row, some, content) for row, some in zip(table.rows, message.values))
    ids = (table.service, table.method, message.client, message.session, table.width, message.message_type, message.return_code)
    header = "%04X%04X%04X%04X%02X%02X%02X" % ids
    return "%s\nheader: %s\nrows: %s\ncontent: %s\nwrite-message: %04X\n" % (table_line(table), header, rows, content.hex().upper(), 16 + 1400)


def reading_case(table, datagram):
    expect = "%04X%04X%02X02" % (table.service, table.method, table.width)
    return "%s\nexpect: %s\nread-message: %s\n" % (table_line(table), expect, datagram.hex().upper())


def answers(command, operation, cases):
    """The lines of each answer, without its label, which is the operation."""
    said = subprocess.run(command, input="".join(cases).encode(), stdout=subprocess.PIPE, check=True).stdout.decode()
    found = [answer.splitlines() for answer in said.split(operation + "\n")[1:]]
    if len(found) != len(cases):
        raise SystemExit("vectors answered %d of %d cases" % (len(found), len(cases)))
    return found


def write(command, made):
    """The datagrams that the library writes."""
    datagrams = []
    for message, (verdict, output) in zip(made, answers(command, "write-message", [writing_case(message) for message in made])):
        if not verdict.startswith("verdict 0 "):
            raise SystemExit("the library doesn't write %a: %s" % (message, verdict))
        datagrams.append(bytes.fromhex(output.split()[1])[:int(verdict.split()[5])])
    return datagrams
