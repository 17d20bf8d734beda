#!/usr/bin/env python3
"""Payloads by hand and some random ones, and the answers that they must get.

Writes `stdin` (tables and payloads) and `stdout` (the answers) to the folder that it is run in.
`expected.py SEED DIR` writes random ones only, of another seed, to DIR/stdin and DIR/stdout.
The reader below is written from document 01 alone. It shares nothing with the library, and nothing with `sip.py`:
the first part of what crates/vectors is held to has two readers that agree.

A line of `stdin` is a label, a colon and bytes in hexadecimal. The label `table` sets the type
table for the lines that follow: number of value rows lent, number of type rows, length width,
static mark, then six bytes for each row: level, Data ID (2), kind, element kind, required.
Any other line is a payload, read under the table above it.
"""
import collections
import os
import random
import sys

# Kind: bytes, wire type. Kinds 12 to 14 have a length field.
FIXED = {1: 1, 2: 1, 6: 1, 3: 2, 7: 2, 4: 4, 8: 4, 10: 4, 5: 8, 9: 8, 11: 8}
WIRE = {1: 0, 2: 1, 4: 2, 8: 3}
STRING, ARRAY, STRUCT = 12, 13, 14
CODES = {0: "0", 1: "none", 2: "none"}  # The others of a payload's reading have 9.


class Refused(Exception):
    def __init__(self, verdict, place):
        self.verdict, self.place = verdict, place


class Member:
    """A row of the type table, with the members below it."""

    def __init__(self, number, kind, elem, required):
        self.number, self.kind, self.elem, self.required = number, kind, elem, required
        self.members = {}


def tree(rows):
    """The rows as a tree: Data ID to member. None if the table breaks its rules."""
    if not 1 <= len(rows) <= 64:
        return None
    top = Member(-1, STRUCT, 0, True)
    path = [top]  # path[l] takes the rows of level l + 1.
    for number, (level, data_id, kind, elem, required) in enumerate(rows):
        if level < 1 or level > 4 or level > len(path):
            return None
        if data_id > 4095 or not 1 <= kind <= 14:
            return None
        if kind == ARRAY and not 1 <= elem <= 11 or kind != ARRAY and elem != 0:
            return None
        if kind == STRUCT and level == 4:
            return None
        del path[level:]
        if data_id in path[-1].members:
            return None
        member = Member(number, kind, elem, required)
        path[-1].members[data_id] = member
        if kind == STRUCT:
            path.append(member)
    return top


def text_ok(text):
    at = 0
    while at < len(text):
        lead = text[at]
        if 0x01 <= lead <= 0x7F:
            follow = 0
        elif 0xC2 <= lead <= 0xDF:
            follow = 1
        elif 0xE0 <= lead <= 0xEF:
            follow = 2
        elif 0xF0 <= lead <= 0xF4:
            follow = 3
        else:
            return False
        tail = text[at + 1 : at + 1 + follow]
        if len(tail) < follow or any(b < 0x80 or b > 0xBF for b in tail):
            return False
        at += 1 + follow
    return True


class Reader:
    def __init__(self, payload, width, count):
        self.p, self.width = payload, width
        self.values = ["absent"] * count
        self.skipped = 0

    def level(self, owner, at, end):
        met = set()
        while at < end:
            at = self.member(owner, met, at, end)
        for member in owner.members.values():
            if member.required and member.number not in met:
                raise Refused(27, end)

    def member(self, owner, met, at, end):
        if end - at == 1:
            raise Refused(20, at)
        tag = int.from_bytes(self.p[at : at + 2], "big")
        wire, data_id = tag // 4096 % 8, tag % 4096
        known = owner.members.get(data_id)
        if known:
            size = FIXED.get(known.kind)
            if wire != WIRE[size] if size else wire < 4:
                raise Refused(21, at)
            if known.number in met:
                raise Refused(22, at)
            met.add(known.number)
        content, size = self.extent(wire, at + 2, end)
        if size > end - content:
            raise Refused(24, content)
        if known:
            self.content(known, content, size)
        else:
            self.skipped += 1
        return content + size

    def extent(self, wire, at, end):
        """Where a member's content starts, and its size."""
        if wire < 4:
            return at, 2**wire
        field = self.width if wire == 4 else 2 ** (wire - 5)
        if field > end - at:
            raise Refused(23, at)
        return at + field, int.from_bytes(self.p[at : at + field], "big")

    def content(self, member, at, size):
        c = self.p[at : at + size]
        number = int.from_bytes(c, "big")
        if member.kind == STRUCT:
            self.values[member.number] = "members"
            self.level(member, at, at + size)
            return
        if member.kind == STRING:
            if size < 4 or c[:3] != b"\xef\xbb\xbf" or c[-1] != 0 or not text_ok(c[3:-1]):
                raise Refused(26, at)
            shown = f"bytes {at + 3} {size - 4}"
        elif member.kind == ARRAY:
            if size % FIXED[member.elem]:
                raise Refused(25, at)
            shown = f"bytes {at} {size}"
        elif member.kind == 1:
            shown = f"unsigned {number % 2}"
        elif member.kind <= 5:
            shown = f"unsigned {number}"
        elif member.kind <= 9:
            shown = f"signed {int.from_bytes(c, 'big', signed=True)}"
        else:
            shown = f"float{8 * size} {number:0{2 * size}x}"
        self.values[member.number] = shown


def answer(table, payload):
    """Verdict, place, skipped and the values, or no values where no row is changed."""
    room, count, width, _, rows = table
    top = tree(rows) if count == len(rows) else None
    if top is None or width not in (1, 2, 4):
        return 1, 0, 0, []
    if room < count:
        return 2, 0, 0, []
    if len(payload) > 1400:
        return 17, 0, 0, ["absent"] * count
    reader = Reader(payload, width, count)
    try:
        reader.level(top, 0, len(payload))
    except Refused as r:
        return r.verdict, r.place, 0, ["absent"] * count
    return 0, 0, reader.skipped, reader.values


def shown(table, payload):
    verdict, place, skipped, values = answer(table, payload)
    lines = [f"verdict {verdict} code {CODES.get(verdict, '9')} place {place} skipped {skipped}"]
    for i, value in enumerate(values):
        lines.append(f"{i + 1} {table[4][i][1]} {value}")
    return lines + [f"filled {len(values)}"]


# The vectors. Each has the verdict, place and count that document 01 gives, found by hand; the reader above must give the same.

BOOL, U8, U16, U32, U64, S8, S16, S32, S64, F32, F64 = range(1, 12)
out_in, out_out = [], []
current = None


def hexes(b):
    return (b.hex(" ") if len(b) <= 400 else b.hex()).upper()


def table(rows, width=1, static=0, room=None, count=None):
    """Sets the table. A row: level, Data ID, kind, 'r' or 'o', and an array's element kind."""
    global current
    rows = [(r[0], r[1], r[2], r[4] if len(r) > 4 else 0, r[3] == "r") for r in rows]
    count = len(rows) if count is None else count
    room = count if room is None else room
    current = (room, count, width, static, rows)
    head = bytes([room, count, width, static])
    body = [bytes([l]) + i.to_bytes(2, "big") + bytes([k, e, q]) for l, i, k, e, q in rows]
    out_in.append("table: " + "  ".join(hexes(b) for b in [head] + body))


def vector(label, payload, verdict=None, place=0, skipped=0, **values):
    """A payload under the table set last, with its hand-found answer; row values as r1='..'."""
    assert ":" not in label and "\n" not in label and label != "table"
    p = bytes.fromhex(payload) if isinstance(payload, str) else bytes(payload)
    v, q, s, rows = answer(current, p)
    if verdict is not None:
        assert (v, q, s) == (verdict, place, skipped), (label, (v, q, s))
        for row, want in values.items():
            assert rows[int(row[1:]) - 1] == want, (label, row, rows)
    out_in.append((label + ": " + hexes(p)).rstrip())
    out_out.append(label)
    out_out.extend(shown(current, p))


W = [(1, 1, U32, "o"), (1, 2, S16, "r"), (1, 5, STRUCT, "o"), (2, 1, U16, "r"), (1, 7, STRING, "o")]


def cases_of_the_paper():
    table(W)
    a = dict(r1="absent", r2="signed -125", r3="members", r4="unsigned 2900", r5="absent")
    c = dict(r1="absent", r2="signed -125", r3="absent", r4="absent", r5="absent")
    vector("case a", "1002FF83 5005041001 0B54 00092A", 0, 0, 1, **a)
    vector("case b", "", 27, 0)
    vector("case c", "1002FF83", 0, **c)
    vector("case d", "1002FF83 1002FF83", 22, 4)
    vector("case e", "200200000001", 21, 0)
    vector("case f", "1002FF", 24, 2)
    vector("case g", "1002FF83 50", 20, 4)
    vector("case h", "1002FF83 500500", 27, 7)
    vector("case i", "1002FF83 500505 10010B54", 24, 7)
    vector("case j", "500504 10010B54 00092A 1002FF83", 0, 0, 1, **a)
    vector("case k", "1002FF83 70090000", 23, 6)
    vector("case l", "1002FF83 60050004 10010B54", 0, **a)
    vector("case m", "1002FF83 500704 EFBBBF00", 0, r5="bytes 10 0")
    vector("case n", "1002FF83 500703 EFBBBF", 26, 7)
    vector("reserved bit of a known tag", "9002FF83", 0, **c)


def order_and_places():
    table(W, room=8)
    vector("21 before 22", "1002FF83 200200000001", 21, 4)
    vector("22 before 23", "1002FF83 500504 10010B54 5005", 22, 11)
    vector("22 before 24", "1002FF83 1002FF", 22, 4)
    vector("21 before 24", "0002", 21, 0)
    vector("struct twice, second empty", "1002FF83 500504 10010B54 500500", 22, 11)
    vector("27 of the inner level before 20", "500500 10", 27, 3)
    vector("27 only at the end", "500704 EFBBBF00 50", 20, 7)
    vector("24 at the end", "1002", 24, 2)
    vector("23 at the end", "5007", 23, 2)
    vector("24 behind a field at the end", "1002FF83 7009FFFFFFFF", 24, 10)
    vector("20 in a struct", "1002FF83 500505 10010B54 00", 20, 11)
    vector("struct ends early, rest is outer", "1002FF83 500504 10010B54 0001", 21, 11)
    vector("member past its struct", "1002FF83 500503 10010B54", 24, 9)
    vector("field past its struct", "1002FF83 500506 10010B54 5009 01AA", 23, 13)
    vector("struct ends in a tag", "1002FF83 500501 10010B54", 20, 7)
    vector("inner length over the payload", "1002FF83 5005FF 10010B54", 24, 7)
    vector("unknown content past its struct", "1002FF83 500507 10010B54 500901 AA", 24, 14)
    vector("sint16 lowest", "10028000", 0, r2="signed -32768")
    vector("sint16 largest", "10027FFF", 0, r2="signed 32767")
    vector("one byte", "10", 20, 0)


def known_and_skipped():
    table(W)
    vector("ID 2 unknown in struct 5", "1002FF83 500508 10010B54 10020001", 0, 0, 1, r2="signed -125", r4="unsigned 2900")
    vector("ID 1 at level 1 is uint32", "500504 10010B54 10010007 1002FF83", 21, 7)
    vector("unknown twice", "1002FF83 00092A 00092B", 0, 0, 2)
    vector("nothing in an unknown struct counts", "1002FF83 500903 FFFFFF", 0, 0, 1)
    vector("unknown in a known struct counts", "1002FF83 500508 10010B54 10090000 00092A", 0, 0, 2)
    vector("count is 0 on refusal", "00092A 10", 20, 3)
    vector("reserved bit of an unknown tag", "D00903 FFFFFF 1002FF83", 0, 0, 1)
    vector("unknown ID 4095", "0FFF2A 1002FF83", 0, 0, 1)
    vector("unknown ID 0", "00002A 1002FF83", 0, 0, 1)
    table([(1, 0, U8, "r")])
    vector("Data ID 0", "000007", 0, r1="unsigned 7")
    vector("Data ID 0 twice", "000007 000008", 22, 3)
    vector("Data ID 0 with the reserved bit", "800007", 0, r1="unsigned 7")
    table(W, width=4)
    vector("width 4, wire 5", "1002FF83 500901 AA", 0, 0, 1)
    vector("width 4, wire 4", "1002FF83 400900000001 AA", 0, 0, 1)
    vector("width 4, wire 4 cut", "1002FF83 400901 AA", 23, 6)
    table(W, width=2, static=1)
    vector("width 2 static, wire 4", "1002FF83 40050004 10010B54", 0, r3="members", r4="unsigned 2900")
    vector("width 2 static, wire 5", "1002FF83 500504 10010B54", 0, r3="members", r4="unsigned 2900")


def lengths(field, size):
    return size.to_bytes(field, "big")


def wire_types():
    """Wire types 4 to 7, known and unknown, under each width: read, field cut, content cut."""
    for width in (1, 2, 4):
        table([(1, 1, ARRAY, "o", U8)], width)
        for wire, field in ((4, width), (5, 1), (6, 2), (7, 4)):
            for name, data_id in (("known", 1), ("unknown", 9)):
                tag = bytes([wire * 16, data_id])
                whole = tag + lengths(field, 2) + b"\xaa\xbb"
                label = f"width {width} wire {wire} {name}"
                met = dict(r1=f"bytes {2 + field} 2" if data_id == 1 else "absent")
                vector(label, whole, 0, 0, int(data_id == 9), **met)
                vector(label + ", field cut", whole[: 1 + field], 23, 2)
                vector(label + ", content cut", whole[:-1], 24, 2 + field)
                vector(label + ", largest length", tag + b"\xff" * field + b"\x00", 24, 2 + field)
    table([(1, 1, U8, "o")])
    for wire in range(4):
        whole = bytes([wire * 16, 9]) + bytes(2**wire)
        vector(f"unknown wire {wire}", whole, 0, 0, 1)
        vector(f"unknown wire {wire} cut", whole[:-1], 24, 2)


def kinds():
    """Each kind under each wire type: 21 unless it is the kind's."""
    of_kind = [None, 0, 0, 1, 2, 3, 0, 1, 2, 3, 2, 3]
    for kind in range(1, 15):
        table([(1, 3, kind, "r", U16) if kind == ARRAY else (1, 3, kind, "r")], 2)
        content = b"\xef\xbb\xbf\x00" if kind == STRING else b""
        for wire in range(8):
            if wire < 4:
                body, right = bytes(2**wire), kind < 12 and of_kind[kind] == wire
            else:
                body, right = lengths((2, 1, 2, 4)[wire - 4], len(content)) + content, kind >= 12
            vector(f"kind {kind} wire {wire}", bytes([wire * 16, 3]) + body, 0 if right else 21)


def numbers():
    fixed = [(1, 10 + k, k, "o") for k in range(1, 12)]
    table(fixed)
    largest = "FFFFFFFFFFFFFFFF"
    vector("all ones", f"000BFF 000CFF 100DFFFF 200EFFFFFFFF 300F{largest} 0010FF 1011FFFF 2012FFFFFFFF 3013{largest} 2014FFFFFFFF 3015{largest}",
           0, r1="unsigned 1", r2="unsigned 255", r3="unsigned 65535", r4="unsigned 4294967295", r5="unsigned 18446744073709551615",
           r6="signed -1", r7="signed -1", r8="signed -1", r9="signed -1", r10="float32 ffffffff", r11="float64 ffffffffffffffff")
    vector("top bits", "000B80 000C80 100D8000 200E80000000 300F8000000000000000 001080 10118000 201280000000 30138000000000000000 201480000000 30158000000000000000",
           0, r1="unsigned 0", r2="unsigned 128", r3="unsigned 32768", r4="unsigned 2147483648", r5="unsigned 9223372036854775808",
           r6="signed -128", r7="signed -32768", r8="signed -2147483648", r9="signed -9223372036854775808", r10="float32 80000000", r11="float64 8000000000000000")
    vector("byte order", "100D0102 200E01020304 300F0102030405060708 10110102 201201020304 30130102030405060708", 0,
           r3="unsigned 258", r4="unsigned 16909060", r5="unsigned 72623859790382856", r7="signed 258", r8="signed 16909060", r9="signed 72623859790382856")
    vector("largest signed", "00107F 10117FFF 20127FFFFFFF 30137FFFFFFFFFFFFFFF", 0,
           r6="signed 127", r7="signed 32767", r8="signed 2147483647", r9="signed 9223372036854775807")
    vector("nothing", "", 0)
    table([(1, 1, BOOL, "r")])
    for byte in (0x00, 0x01, 0x02, 0x03, 0xFE, 0xFF):
        vector(f"boolean {byte:02X}", bytes([0, 1, byte]), 0, r1=f"unsigned {byte & 1}")
    table([(1, 1, F32, "r")])
    for bits in ("00000000", "00000001", "3F800000", "7F7FFFFF", "7F800000", "7F800001", "7FBFFFFF", "7FC00000", "7FFFFFFF", "80000000", "FF800000", "FF800001", "FFC00000", "FFFFFFFF"):
        vector("float32 " + bits, "2001" + bits, 0, r1="float32 " + bits.lower())
    table([(1, 1, F64, "r")])
    for bits in ("0000000000000000", "0000000000000001", "3FF0000000000000", "7FEFFFFFFFFFFFFF", "7FF0000000000000", "7FF0000000000001", "7FF8000000000000", "7FFFFFFFFFFFFFFF", "8000000000000000", "FFF0000000000000", "FFF0000000000001", "FFF8000000000000"):
        vector("float64 " + bits, "3001" + bits, 0, r1="float64 " + bits.lower())


def texts():
    table([(1, 1, STRING, "r")])

    def text(label, body, ok):
        b = bytes.fromhex(body) if isinstance(body, str) else body
        c = b"\xef\xbb\xbf" + b + b"\x00"
        p = b"\x50\x01" + bytes([len(c)]) + c
        if ok:
            vector(label, p, 0, r1=f"bytes 6 {len(b)}")
        else:
            vector(label, p, 26, 3)

    follow = {0x01: 0, 0x7F: 0, 0x80: None, 0xBF: None, 0xC0: None, 0xC1: None, 0xC2: 1, 0xDF: 1, 0xE0: 2, 0xEF: 2, 0xF0: 3, 0xF4: 3, 0xF5: None, 0xF8: None, 0xFF: None}
    for lead, n in follow.items():
        for k in range(5):
            text(f"lead {lead:02X}, {k} behind", bytes([lead] + [0x80] * k), n == k)
        if n:
            for i in range(n):
                for bad in (0x7F, 0xC0, 0x00, 0x41):
                    tail = [0xBF] * n
                    tail[i] = bad
                    text(f"lead {lead:02X}, {bad:02X} at {i + 1}", bytes([lead] + tail), False)
            text(f"lead {lead:02X}, BF behind", bytes([lead] + [0xBF] * n), True)
            text(f"lead {lead:02X} between letters", bytes([0x41, lead] + [0xBF] * n + [0x42]), True)
            text(f"lead {lead:02X} with a letter too early", bytes([0x41, lead] + [0xBF] * (n - 1) + [0x42]), False)
    text("looser than Unicode, E0 80 AF", "E080AF", True)
    text("looser than Unicode, ED A0 80", "EDA080", True)
    text("looser than Unicode, F0 80 80 80", "F0808080", True)
    text("looser than Unicode, F4 90 80 80", "F4908080", True)
    text("second mark is text", "EFBBBF", True)
    text("zero in the text", "410042", False)
    text("two terminators", "00", False)
    text("a lead byte does not borrow the terminator", "C3", False)
    text("empty", "", True)
    vector("no content", "500100", 26, 3)
    vector("terminator alone", "500101 00", 26, 3)
    vector("mark without terminator", "500103 EFBBBF", 26, 3)
    vector("letter instead of terminator", "500104 EFBBBF41", 26, 3)
    vector("mark wrong at 1", "500104 EEBBBF00", 26, 3)
    vector("mark wrong at 2", "500104 EFBABF00", 26, 3)
    vector("mark wrong at 3", "500104 EFBBBE00", 26, 3)
    vector("no mark", "500103 414200", 26, 3)
    vector("terminator behind the content", "500104 EFBBBF41 00", 26, 3)
    vector("text, then a cut tag", "500105 EFBBBF4100 00", 20, 8)
    vector("required string is absent", "", 27, 0)
    vector("mark other way round", "500104 FEFF0000", 26, 3)


def arrays():
    for elem in range(1, 12):
        size = FIXED[elem]
        table([(1, 1, ARRAY, "r", elem)])
        vector(f"array of {elem}, empty", "500100", 0, r1="bytes 3 0")
        for n in (size, 3 * size, size + 1, 2 * size - 1, 1, 12):
            p = b"\x50\x01" + bytes([n]) + bytes(range(2, 2 + n))
            if n % size == 0:
                vector(f"array of {elem}, {n} bytes", p, 0, r1=f"bytes 3 {n}")
            else:
                vector(f"array of {elem}, {n} bytes", p, 25, 3)
    table([(1, 1, ARRAY, "r", U16)])
    vector("24 before 25", "500103 0001", 24, 3)
    vector("array missing", "", 27, 0)


def nested():
    table([(1, 1, STRUCT, "r"), (2, 1, STRUCT, "r"), (3, 1, STRUCT, "r"), (4, 1, U8, "r")])
    vector("four levels", "500109 500106 500103 00012A", 0, r4="unsigned 42")
    vector("27 at the innermost", "500109 500106 500103 00022A", 27, 12)
    vector("27 at the innermost, more behind", "500109 500106 500103 00022A 000900", 27, 12)
    vector("24 at the innermost", "500108 500105 500102 0001 2A", 24, 11)
    vector("24 at the innermost, bytes outside", "500109 500106 500102 0001 2A", 24, 11)
    vector("20 at the innermost", "500107 500104 500101 00 012A", 20, 9)
    vector("21 at the innermost", "50010A 500107 500104 1001002A", 21, 9)
    vector("22 at the innermost", "50010C 500109 500106 00012A 00012A", 22, 12)
    vector("23 at the innermost", "50010B 500108 500105 00012A 5009", 23, 14)
    vector("innermost empty", "500106 500103 500100", 27, 9)
    vector("third level empty", "500103 500100", 27, 6)
    vector("second level empty", "500100", 27, 3)
    vector("second level too long", "50010A 500106 500103 00012A", 24, 3)
    vector("third level too long", "500109 500107 500103 00012A", 24, 6)
    vector("fourth level too long", "500109 500106 500104 00012A", 24, 9)
    vector("skipped at each level", "00092A 500115 00092A 50010F 00092A 500109 00092A 00012A 00092A 00092A", 0, 0, 6, r4="unsigned 42")
    vector("second level twice", "500112 500106 500103 00012A 500106 500103 00012A", 22, 12)
    table([(1, 1, STRUCT, "o"), (1, 2, U8, "r")])
    vector("struct with no members", "500100 000207", 0, r1="members", r2="unsigned 7")
    vector("struct with no members, unknown inside", "500106 000207 000309 000207", 0, 0, 2, r1="members", r2="unsigned 7")
    vector("struct with no members, absent", "000207", 0, r1="absent")
    vector("only the struct", "500106 000207 000309", 27, 9)
    table([(1, 5, STRUCT, "o"), (2, 1, STRING, "o"), (2, 2, STRUCT, "o"), (3, 1, U8, "r"), (2, 3, U8, "o"), (1, 6, STRUCT, "r"), (2, 1, U8, "r")])
    vector("absent struct's members are not missing", "500603 000109", 0, r1="absent", r7="unsigned 9")
    vector("text in a struct", "500508 500105 EFBBBF4100 500603 000109", 0, r2="bytes 9 1", r7="unsigned 9")
    vector("a row behind a nested struct", "500509 500203 000107 000308 500603 000109", 0, r3="members", r4="unsigned 7", r5="unsigned 8", r7="unsigned 9")
    vector("ID of the outer level inside", "500503 500600 500603 000109", 0, 0, 1, r1="members", r6="members", r7="unsigned 9")
    vector("inner optional struct lacks its member", "500503 500200 500603 000109", 27, 6)
    table([(1, 5, STRUCT, "o"), (2, 1, U8, "o"), (1, 6, STRUCT, "o"), (2, 2, U8, "r")])
    vector("ID of a later struct is unknown", "500503 00022A", 0, 0, 1, r1="members", r4="absent")
    vector("member of a later struct is not missing", "500500", 0, r1="members")
    vector("wire type of a later struct's member", "500504 1002002A", 0, 0, 1)


def tables():
    u = (1, 1, U8, "o")

    def broken(label, rows, **more):
        table(rows, **more)
        vector("table, " + label, "00012A", 1)

    def fine(label, rows, payload="", verdict=0, place=0, skipped=0, **more):
        table(rows, **more)
        vector("table, " + label, payload, verdict, place, skipped)

    broken("no rows", [])
    broken("65 rows", [(1, i, U8, "o") for i in range(65)])
    broken("255 rows", [(1, i, U8, "o") for i in range(64)], count=255)
    fine("64 rows", [(1, 4032 + i, U8, "o") for i in range(64)], "0FFF2A 0FC02B")
    fine("64 required rows", [(1, i, U8, "r") for i in range(64)], b"".join(bytes([0, i, i]) for i in range(63, -1, -1)))
    fine("64 required rows, the last missing", [(1, i, U8, "r") for i in range(64)], b"".join(bytes([0, i, i]) for i in range(63)), 27, 189)
    for w in (0, 3, 5, 8, 255):
        broken(f"width {w}", [u], width=w)
    for w in (1, 2, 4):
        fine(f"width {w}", [u], width=w)
    for k in (0, 15, 16, 255):
        broken(f"kind {k}", [(1, 1, k, "o")])
    broken("kind 15 with an element kind", [(1, 1, 15, "o", U8)])
    broken("ID 4096", [(1, 4096, U8, "o")])
    broken("ID 65535", [(1, 65535, U8, "o")])
    fine("ID 4095", [(1, 4095, U8, "o")], "0FFF2A")
    for e in (0, 12, 13, 14, 15, 255):
        broken(f"array of {e}", [(1, 1, ARRAY, "o", e)])
    for k in range(1, 15):
        if k != ARRAY:
            broken(f"kind {k} with an element kind", [(1, 1, k, "o", U8)])
    broken("level 0", [(0, 1, U8, "o")])
    broken("first row at level 2", [(2, 1, U8, "o")])
    broken("first row at level 255", [(255, 1, U8, "o")])
    broken("later row at level 0", [u, (0, 2, U8, "o")])
    s1, s2, s3 = (1, 1, STRUCT, "o"), (2, 1, STRUCT, "o"), (3, 1, STRUCT, "o")
    broken("struct at level 4", [s1, s2, s3, (4, 1, STRUCT, "o")])
    broken("level 5", [s1, s2, s3, (4, 1, U8, "o"), (5, 1, U8, "o")])
    fine("struct at level 3", [s1, s2, s3, (4, 1, U8, "r")], "500103 500100")
    broken("level 2 behind no struct", [u, (2, 1, U8, "o")])
    broken("level 2 behind a string", [(1, 1, STRING, "o"), (2, 1, U8, "o")])
    broken("level 2 behind an array", [(1, 1, ARRAY, "o", U8), (2, 1, U8, "o")])
    broken("level jumps from 1 to 3", [s1, (3, 1, U8, "o")])
    broken("level jumps from 2 to 4", [s1, s2, (4, 1, U8, "o")])
    broken("level rises behind a member", [s1, (2, 1, U8, "o"), (3, 1, U8, "o")])
    broken("level rises behind an ended struct", [s1, s2, (1, 2, U8, "o"), (2, 2, U8, "o")])
    fine("level falls from 4 to 1", [s1, s2, s3, (4, 1, U8, "o"), (1, 2, U8, "o")], "00022A")
    fine("level falls from 4 to 2", [s1, s2, s3, (4, 1, U8, "o"), (2, 2, U8, "o")], "500103 00022A")
    fine("empty struct, then level 1", [s1, (1, 2, U8, "o")], "500100 00022A")
    fine("two empty structs", [s1, (1, 2, STRUCT, "o")], "500200 500100")
    fine("a struct in the last row", [u, (1, 2, STRUCT, "o")], "500200")
    broken("equal IDs, nested row between", [(1, 5, STRUCT, "o"), s2, (3, 9, U8, "o"), (2, 1, U8, "o")])
    broken("equal IDs at level 1, struct between", [(1, 7, U8, "o"), (1, 5, STRUCT, "o"), (2, 8, U8, "o"), (1, 7, U16, "o")])
    broken("equal IDs side by side", [u, u])
    broken("equal IDs at level 4", [s1, s2, s3, (4, 1, U8, "o"), (4, 2, U8, "o"), (4, 1, U8, "o")])
    broken("equal IDs in the last struct", [u, (1, 2, STRUCT, "o"), (2, 3, U8, "o"), (2, 3, U8, "o")])
    broken("equal IDs, falling between", [(1, 3, U8, "o"), (1, 1, U8, "o"), (1, 3, U8, "o")])
    broken("equal IDs at rows 1 and 64", [(1, 63 - i if i < 63 else 63, U8, "o") for i in range(64)])
    fine("equal IDs in two structs", [(1, 5, STRUCT, "o"), (2, 1, U8, "o"), (1, 6, STRUCT, "o"), (2, 1, U8, "o")], "500603 00012A")
    fine("equal IDs in struct and member", [(1, 5, STRUCT, "o"), (2, 5, U8, "o")], "500503 00052A")
    fine("falling IDs", [(1, 9, U8, "o"), (1, 8, U8, "o"), (1, 7, U8, "o")], "00072A 00092B")
    fine("equal IDs in structs of two structs", [s1, s2, (3, 4, U8, "o"), (1, 2, STRUCT, "o"), s2, (3, 4, U8, "o")], "500206 500103 00042A")
    fine("falling IDs in the second struct", [s1, (2, 9, U8, "o"), (1, 2, STRUCT, "o"), (2, 8, U8, "o"), (2, 7, U8, "o")], "500206 000701 000802")


def room_and_size():
    table(W, room=4)
    vector("room one too few", "1002FF83", 2)
    vector("2 before 17", bytes(1401), 2)
    table(W, room=0)
    vector("no room", "1002FF83", 2)
    table([(1, 1, 15, "o")], room=0)
    vector("1 before 2", "00012A", 1)
    vector("1 before 17", bytes(1401), 1)
    table(W, room=64)
    vector("room for 64", "1002FF83", 0)
    table([(1, 1, ARRAY, "r", U8)], 2)
    vector("payload of 1400", b"\x60\x01\x05\x74" + bytes(1396), 0, r1="bytes 4 1396")
    vector("payload of 1401", b"\x60\x01\x05\x75" + bytes(1397), 17)
    vector("17 before the walk", b"\x00\x01" + bytes(1399), 17)
    table([(1, 1, U8, "o")])
    vector("350 skipped", b"\x10\x09\x00\x00" * 350, 0, 0, 350)
    vector("466 skipped, then a cut member", b"\x00\x09\x2a" * 466 + b"\x00\x09", 24, 1400)
    vector("466 skipped, then a cut tag", b"\x00\x09\x2a" * 466 + b"\x00", 20, 1398)


# Random tables and payloads, valid and damaged. Their answers are the reader's above.


def random_rows(rng):
    rows, used = [], [set()]
    for _ in range(rng.randint(1, rng.choice((3, 8, 12)))):
        level = rng.randint(max(1, len(used) - rng.randint(0, 3)), len(used))
        del used[level:]
        data_id = rng.choice([i for i in list(range(12)) + [4095] if i not in used[-1]] or [100 + len(rows)])
        used[-1].add(data_id)
        kind = rng.choice(list(range(1, 15)) + [STRUCT] * 5 + [STRING])
        if kind == STRUCT and level == 4:
            kind = U16
        row = (level, data_id, kind, rng.choice("roo"))
        rows.append(row + (rng.randint(1, 11),) if kind == ARRAY else row)
        if kind == STRUCT:
            used.append(set())
    return rows


def random_text(rng):
    leads = ((1, 0x7F, 0), (0xC2, 0xDF, 1), (0xE0, 0xEF, 2), (0xF0, 0xF4, 3))
    text = b""
    for _ in range(rng.randint(0, 3)):
        low, high, n = rng.choice(leads)
        text += bytes([rng.randint(low, high)] + [rng.randint(0x80, 0xBF) for _ in range(n)])
    return b"\xef\xbb\xbf" + text + b"\0"


def with_length(rng, width, data_id, content):
    wire, field = rng.choice(((4, width), (5, 1), (6, 2), (7, 4)))
    if len(content) >= 256**field:
        wire, field = 7, 4
    return bytes([16 * wire + data_id // 256, data_id % 256]) + lengths(field, len(content)) + content


def random_level(rng, owner, width):
    parts = []
    for data_id, m in owner.members.items():
        if not m.required and rng.random() < 0.4:
            continue
        if m.kind in FIXED:
            size = FIXED[m.kind]
            parts.append(bytes([16 * WIRE[size] + data_id // 256, data_id % 256]) + rng.randbytes(size))
        elif m.kind == STRING:
            parts.append(with_length(rng, width, data_id, random_text(rng)))
        elif m.kind == ARRAY:
            parts.append(with_length(rng, width, data_id, rng.randbytes(FIXED[m.elem] * rng.randint(0, 2))))
        else:
            parts.append(with_length(rng, width, data_id, random_level(rng, m, width)))
    if parts and rng.random() < 0.08:
        parts.append(rng.choice(parts))
    for _ in range(rng.choice((0, 0, 1, 2))):
        data_id = rng.choice([i for i in range(40) if i not in owner.members])
        wire = rng.randint(0, 4)
        fixed = bytes([16 * (wire % 4), data_id]) + rng.randbytes(2 ** (wire % 4))
        parts.append(fixed if wire < 4 else with_length(rng, width, data_id, rng.randbytes(rng.randint(0, 3))))
    rng.shuffle(parts)
    parts = [bytes([p[0] | 0x80]) + p[1:] if rng.random() < 0.1 else p for p in parts]
    return b"".join(parts)


def damaged(rng, p):
    for _ in range(rng.choice((1, 1, 2))):
        at = rng.randint(0, len(p))
        end = min(len(p), at + rng.randint(1, 6))
        changes = (p[:at], p[:at] + p[end:], p[:at] + p[at:end] + p[at:],
                   p[:at] + rng.randbytes(1) + p[at + 1 :], p[:at] + rng.randbytes(1) + p[at:])
        near = bytes([(p[at] + rng.choice((-1, 1))) % 256]) if at < len(p) else b""
        p = rng.choice(changes + (p[:at] + near + p[at + 1 :],) * 4)
    return p


def random_vectors(seed, how_many, each):
    rng = random.Random(seed)
    for i in range(how_many):
        width = rng.choice((1, 1, 2, 4))
        rows = random_rows(rng)
        top = tree([(r[0], r[1], r[2], r[4] if len(r) > 4 else 0, r[3] == "r") for r in rows])
        if rng.random() < 0.1:
            j = rng.randrange(len(rows))
            r = list(rows[j])
            field = rng.randrange(3)
            r[field] = rng.randint(0, 5) if field == 0 else rng.randint(0, 15)
            rows[j] = tuple(r)
        table(rows, width, rng.randint(0, 1), room=len(rows) + rng.choice((0,) * 15 + (1, 1, 5, 5, -1)))
        for j in range(each):
            p = random_level(rng, top, width)
            vector(f"random {i + 1} {j + 1}", damaged(rng, p) if j % 4 else p)


def by_hand():
    cases_of_the_paper()
    order_and_places()
    known_and_skipped()
    wire_types()
    kinds()
    numbers()
    texts()
    arrays()
    nested()
    tables()
    room_and_size()


def main():
    if len(sys.argv) == 1:
        by_hand()
        hand = sum(not line.startswith("table:") for line in out_in)
        random_vectors(1, 30, 8)
        folder = "."
    else:
        hand = 0
        random_vectors(int(sys.argv[1]), 120, 8)
        folder = sys.argv[2]
    for name, lines in (("stdin", out_in), ("stdout", out_out)):
        with open(os.path.join(folder, name), "w") as f:
            f.write("\n".join(lines) + "\n")
    verdicts = collections.Counter(int(line.split()[1]) for line in out_out if line.startswith("verdict "))
    total = sum(verdicts.values())
    print(f"{hand} vectors by hand, {total - hand} random; verdicts {dict(sorted(verdicts.items()))}")


if __name__ == "__main__":
    main()
