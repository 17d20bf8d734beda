#!/usr/bin/env python3
"""Hand-found answers for the second program: document 01's own examples and the vectors of the notes.

    python3 tests/second/test_sip.py
"""
import random
import sys
from dataclasses import replace

import shapes
import sip
from sip import (
    ABSENT, ARRAY, BOOLEAN, EXPECTED_W, FLOAT32, FLOAT64, MEMBERS, STRING, STRUCT, TABLE_W, UINT8, UINT16,
    UINT32, UINT64, Expected, Header, PayloadReading, Reading, Row, Table, TypeRow, Writing, check_table, float32,
    float64, read_message, read_payload, run_of_bytes, signed, unsigned, write_message, write_payload,
)

passed, failed = 0, 0


def check(name, got, want):
    global passed, failed
    if got == want:
        passed += 1
    else:
        failed += 1
        print(f"{name}:\n  got  {got}\n  want {want}")


# ---- Tables. W is in sip.py; the others have the names of the notes.

W = TABLE_W
W4 = replace(W, width=4)
W2s = replace(W, width=2, static=True)
B = Table((TypeRow(1, 1, BOOLEAN, 0, True),))
S = Table((TypeRow(1, 1, STRING, 0, True),))
A = Table((TypeRow(1, 1, ARRAY, UINT16, True),))
A1 = Table((TypeRow(1, 1, ARRAY, UINT8, True),))
A2 = replace(A1, width=2)
BA = Table((TypeRow(1, 1, ARRAY, BOOLEAN, True),))
Z = Table((TypeRow(1, 0, UINT8, 0, True),))
F = Table((TypeRow(1, 1, FLOAT32, 0, True),))
F64 = Table((TypeRow(1, 1, FLOAT64, 0, True),))
D = Table((TypeRow(1, 1, STRUCT, 0, True), TypeRow(2, 1, STRUCT, 0, True), TypeRow(3, 1, STRUCT, 0, True), TypeRow(4, 1, UINT8, 0, True)))
E = Table((TypeRow(1, 1, STRUCT), TypeRow(1, 2, UINT8, 0, True)))
X = Table((TypeRow(1, 5, STRUCT), TypeRow(2, 1, STRING)))
Q = Table((TypeRow(1, 1, STRUCT, 0, True), TypeRow(2, 1, ARRAY, UINT8, True), TypeRow(2, 2, ARRAY, UINT8, True)))
U = Table((TypeRow(1, 1, STRUCT, 0, True),) + tuple(TypeRow(2, i, UINT64, 0, True) for i in range(30)))

OLD = Row("signed", -9, 0, 7)  # what a lent row holds before, with bits 7


def lent(rows):
    return [OLD] * rows


def w_message(payload, length=None, protocol=1, service=0x4A01, method=0x8001, interface=1, message_type=2, client=0, session=1, code=0):
    length = 8 + len(payload) if length is None else length
    head = service.to_bytes(2, "big") + method.to_bytes(2, "big") + length.to_bytes(4, "big")
    return head + client.to_bytes(2, "big") + session.to_bytes(2, "big") + bytes([protocol, interface, message_type, code]) + payload


def payload_of(digits):
    return bytes.fromhex(digits)


def reads(name, table, digits, verdict, place=0, skipped=0, rows=None):
    """The whole answer for a payload, with two rows more than the table has. `rows` only if accepted."""
    n = len(table.rows)
    got = read_payload(payload_of(digits), table, lent(n + 2))
    check(name, got, PayloadReading(verdict, place, skipped, (rows if verdict == 0 else [ABSENT] * n) + lent(2)))


# ---- Document 01: cases a to n, with whole answers, as payloads and as messages

ROWS_A = [ABSENT, signed(-125), MEMBERS, unsigned(2900), ABSENT]
ROWS_C = [ABSENT, signed(-125), ABSENT, ABSENT, ABSENT]
ROWS_M = [ABSENT, signed(-125), ABSENT, ABSENT, run_of_bytes(10, 0)]
CASES = (
    ("a", "10 02 FF 83 50 05 04 10 01 0B 54 00 09 2A", 0, 0, 1, ROWS_A),
    ("b", "", 27, 0, 0, None),
    ("c", "10 02 FF 83", 0, 0, 0, ROWS_C),
    ("d", "10 02 FF 83 10 02 FF 83", 22, 4, 0, None),
    ("e", "20 02 00 00 00 01", 21, 0, 0, None),
    ("f", "10 02 FF", 24, 2, 0, None),
    ("g", "10 02 FF 83 50", 20, 4, 0, None),
    ("h", "10 02 FF 83 50 05 00", 27, 7, 0, None),
    ("i", "10 02 FF 83 50 05 05 10 01 0B 54", 24, 7, 0, None),
    ("j", "50 05 04 10 01 0B 54 00 09 2A 10 02 FF 83", 0, 0, 1, ROWS_A),
    ("k", "10 02 FF 83 70 09 00 00", 23, 6, 0, None),
    ("l", "10 02 FF 83 60 05 00 04 10 01 0B 54", 0, 0, 0, ROWS_A),
    ("m", "10 02 FF 83 50 07 04 EF BB BF 00", 0, 0, 0, ROWS_M),
    ("n", "10 02 FF 83 50 07 03 EF BB BF", 26, 7, 0, None),
    ("reserved bit", "90 02 FF 83", 0, 0, 0, ROWS_C),
)


def cases_of_the_paper():
    for name, digits, verdict, place, skipped, rows in CASES:
        reads(f"case {name}", W, digits, verdict, place, skipped, rows)
        payload = payload_of(digits)
        got = read_message(w_message(payload) + b"xyz", EXPECTED_W, W, lent(7))
        after = (rows if verdict == 0 else [ABSENT] * 5) + lent(2)
        payload_part = (16, len(payload)) if payload else (0, 0)
        want = Reading(verdict, place, skipped, 0, 1, 0, payload_part, (16 + len(payload), 3), after)
        check(f"case {name} as a message", got, want)
    check("Length 7", read_message(w_message(b"", length=7), EXPECTED_W, W, lent(5)).verdict, 11)
    for size, verdict in ((1400, 0), (1401, 17)):
        got = read_message(w_message(filled_payload(size)), EXPECTED_W, W, lent(5))
        check(f"Length {8 + size}", got.verdict, verdict)


def filled_payload(size):
    """Case c and an unknown member, of so many bytes together."""
    return payload_of("10 02 FF 83 60 09") + (size - 8).to_bytes(2, "big") + bytes(size - 8)


def showw_of_the_paper():
    datagram = payload_of("4A 01 80 01 00 00 00 16 00 00 00 01 01 01 02 00 10 02 FF 83 50 05 04 10 01 0B 54 00 09 2A")
    want = (
        "verdict 0 code 0 place 0 skipped 1\n1 1 absent\n2 2 signed -125\n3 5 members\n4 1 unsigned 2900\n5 7 absent\n"
    )
    check("showw", sip.showw(datagram), want)
    refused = "1 1 absent\n2 2 absent\n3 5 absent\n4 1 absent\n5 7 absent\n"
    check("showw, nothing", sip.showw(b""), "verdict 10 code 9 place 0 skipped 0\n" + refused)
    check("showw, case k", sip.showw(w_message(payload_of(CASES[10][1]))), "verdict 23 code 9 place 6 skipped 0\n" + refused)
    check("showw, case m", sip.showw(w_message(payload_of(CASES[12][1]))).split("\n")[5], "5 7 bytes 10 0")


def return_codes_of_the_paper():
    want = {0: 0, 1: None, 2: None, 10: 9, 11: 9, 12: 7, 13: 2, 14: 8, 15: 3, 16: 10, 17: 9}
    want.update({v: 9 for v in range(20, 28)})
    want.update({v: None for v in range(30, 34)})
    check("return codes", {v: sip.return_code(v) for v in want}, want)


# ---- Notes, A1: order of the verdicts

HEADER_W = Header(0x4A01, 0x8001, 0, 1, 1, 2, 0)


def writes(name, table, rows, verdict, content=b"", output=2000, payload=None, header=HEADER_W):
    """Writes a payload and a message. `payload` in digits, if it is to be compared."""
    out = bytes(range(256)) * 8
    if payload is None:
        check(name, write_payload(table, rows, content, out[:output]).verdict, verdict)
        check(name + ", message", write_message(header, table, rows, content, out[:output]).verdict, verdict)
        return
    made = payload_of(payload)
    check(name, write_payload(table, rows, content, out[:output]), Writing(0, len(made), made + out[len(made) : output]))
    message = w_message(made)
    got = write_message(header, table, rows, content, out[:output])
    check(name + ", message", got, Writing(0, len(message), message + out[len(message) : output]))


def a1_order():
    wrong_type = replace(EXPECTED_W, message_type=0x22)
    untouched = Reading(1, 0, 0, 0, 0, 0, (0, 0), (0, 0), lent(4))
    check("A1.1 reading", read_message(b"", wrong_type, W, lent(4)), untouched)
    got = write_message(replace(HEADER_W, message_type=0x22), W, [], b"", b"old")
    check("A1.1 writing", got, Writing(1, 0, b"old"))
    check("A1.2", read_message(b"", EXPECTED_W, W, lent(4)), replace(untouched, verdict=2))
    c = payload_of("10 02 FF 83")
    for name, datagram, verdict in (
        ("A1.3 14 before 15", w_message(c, interface=2, method=0x8002), 14),
        ("A1.3 12 before 13", w_message(c, protocol=2, service=1), 12),
        ("A1.4 16 before 17", w_message(filled_payload(1401), message_type=0), 16),
        ("A1.4 11 before 17", w_message(filled_payload(1400), length=1409), 11),
        ("A1.4 17", w_message(filled_payload(1401)), 17),
        ("A1.5", w_message(c, length=0xFFFFFFF8), 11),
        ("13", w_message(c, service=0x014A), 13),
        ("14", w_message(c, interface=0), 14),
        ("15", w_message(c, method=0x0180), 15),
        ("16", w_message(c, message_type=0x80), 16),
        ("12", w_message(c, protocol=0), 12),
    ):
        check(name, read_message(datagram, EXPECTED_W, W, lent(5)).verdict, verdict)
    reads("A1.6 21 before 22", W, "10 02 FF 83 20 02 00 00 00 01", 21, 4)
    reads("A1.6 22 before 23", W, "10 02 FF 83 50 05 04 10 01 0B 54 50 05", 22, 11)
    reads("A1.6 21 before 24", W, "00 02", 21, 0)
    reads("A1.7 24 before 25", A, "50 01 03 00 01", 24, 3)
    reads("A1.8 second struct empty", W, "10 02 FF 83 50 05 04 10 01 0B 54 50 05 00", 22, 11)
    reads("A1.9 27 of the inner level", W, "50 05 00 10", 27, 3)
    reads("A1.10 27 at the end only", W, "50 07 04 EF BB BF 00 50", 20, 7)
    writes("A1.11 30 in an earlier row", W, [ABSENT, unsigned(5), ABSENT, ABSENT, run_of_bytes(9, 9)], 30)
    writes("A1.11 31 in an earlier row", W, [run_of_bytes(9, 9), ABSENT, ABSENT, ABSENT, ABSENT], 31)
    writes("A1.12 run in a number", W, [run_of_bytes(99, 5)] + ROWS_C[1:], 31, b"abcd")
    writes("A1.12 run inside in a number", W, [run_of_bytes(0, 4)] + ROWS_C[1:], 30, b"abcd")
    writes("A1.12 under an absent struct", X, [ABSENT, run_of_bytes(10, 1)], 31, b"abcd")
    writes("A1.12 inside, under an absent struct", X, [ABSENT, run_of_bytes(0, 1)], 30, b"abcd")
    writes("A1.12 run in a struct row", X, [run_of_bytes(4, 1), ABSENT], 31, b"abcd")
    writes("A1.13 32 before 33", A1, [run_of_bytes(0, 1500)], 32, bytes(1500))
    writes("A1.13 33", A2, [run_of_bytes(0, 1500)], 33, bytes(1500))
    writes("A1.13 33 before 2", A2, [run_of_bytes(0, 1397)], 33, bytes(1500), output=0)
    writes("A1.14 text of 251", S, [run_of_bytes(0, 251)], 0, b"A" * 252)
    writes("A1.14 text of 252", S, [run_of_bytes(0, 252)], 32, b"A" * 252)
    writes("A1.14 struct of 255", Q, [MEMBERS, run_of_bytes(0, 124), run_of_bytes(0, 125)], 0, bytes(125))
    writes("A1.14 struct of 256", Q, [MEMBERS, run_of_bytes(0, 125), run_of_bytes(0, 125)], 32, bytes(125))
    writes("A1.14 struct of 300", U, [MEMBERS] + [unsigned(0)] * 30, 32)
    wide_then_wrong = [MEMBERS, run_of_bytes(0, 500), ABSENT]
    writes("A1.15 30 before 32", Q, wide_then_wrong, 30, bytes(500))


# ---- Notes, A2: places


def a2_places():
    reads("A2.1 24 at the end", W, "10 02", 24, 2)
    reads("A2.1 23 at the end", W, "50 07", 23, 2)
    reads("A2.1 24 behind the field", W, "10 02 FF 83 70 09 FF FF FF FF", 24, 10)
    reads("A2.2 innermost level", D, "50 01 09 50 01 06 50 01 03 00 02 2A", 27, 12)
    reads("A2.2 more behind", D, "50 01 09 50 01 06 50 01 03 00 02 2A 00 09 00", 27, 12)
    reads("A2.3 width of the field used", W4, "10 02 FF 83 60 09 00 05", 24, 8)
    reads("A2.4", S, "50 01 05 EF BB BF C3 00", 26, 3)
    reads("A2.5", W, "10 02 FF 83 50 05 05 10 01 0B 54 00", 20, 11)
    reads("A2.6 text in a struct", X, "50 05 08 50 01 05 EF BB BF 41 00", 0, 0, 0, [MEMBERS, run_of_bytes(9, 1)])


# ---- Notes, A3: known, unknown, skipped


def a3_known():
    reads("A3.1 unknown in the struct", W, "10 02 FF 83 50 05 08 10 01 0B 54 10 02 00 01", 0, 0, 1, ROWS_A)
    reads("A3.1 level 1", W, "50 05 04 10 01 0B 54 10 01 00 07 10 02 FF 83", 21, 7)
    reads("A3.2", W, "10 02 FF 83 00 09 2A 00 09 2B", 0, 0, 2, ROWS_C)
    reads("A3.3", W, "10 02 FF 83 50 09 03 FF FF FF", 0, 0, 1, ROWS_C)
    reads("A3.4 wire type 5", W4, "10 02 FF 83 50 09 01 AA", 0, 0, 1, ROWS_C)
    reads("A3.4 wire type 4", W4, "10 02 FF 83 40 09 00 00 00 01 AA", 0, 0, 1, ROWS_C)
    reads("A3.4 wire type 4 cut", W4, "10 02 FF 83 40 09 01 AA", 23, 6)
    for wire, field in (("4", "00 04"), ("5", "04"), ("6", "00 04"), ("7", "00 00 00 04")):
        reads(f"A3.5 wire type {wire}", W2s, f"10 02 FF 83 {wire}0 05 {field} 10 01 0B 54", 0, 0, 0, ROWS_A)
    reads("A3.6", W, "00 09 2A 10", 20, 3)
    reads("A3.7", Z, "00 00 07", 0, 0, 0, [unsigned(7)])
    reads("A3.7 twice", Z, "00 00 07 00 00 08", 22, 3)
    reads("A3.8", W, "D0 09 03 FF FF FF 10 02 FF 83", 0, 0, 1, ROWS_C)


# ---- Notes, A4: values and rows


def a4_values():
    for byte in (0x00, 0x01, 0x02, 0x03, 0xFE, 0xFF):
        reads(f"A4.1 boolean {byte:02X}", B, f"00 01 {byte:02X}", 0, 0, 0, [unsigned(byte & 1)])
    reads("A4.2 reading", BA, "50 01 02 02 03", 0, 0, 0, [run_of_bytes(3, 2)])
    writes("A4.2 writing", BA, [run_of_bytes(0, 2)], 0, b"\x02\x03", payload="50 01 02 02 03")
    reads("A4.3 empty array", A, "50 01 00", 0, 0, 0, [run_of_bytes(3, 0)])
    reads("A4.3 empty string", S, "50 01 00", 26, 3)
    writes("A4.3 empty array", A, [run_of_bytes(0, 0)], 0, payload="50 01 00")
    writes("A4.3 empty text", S, [run_of_bytes(0, 0)], 0, payload="50 01 04 EF BB BF 00")
    for text in ("E0 80 AF", "ED A0 80", "F0 80 80 80", "F4 90 80 80", "EF BB BF", "C2 80", "DF BF", "7F", "01"):
        a4_text(text, True)
    for text in ("C0 80", "C1 BF", "F5 80 80 80", "FF", "80", "BF", "C3", "00", "41 00", "E0 80", "F4 80 80", "C3 41", "C2 80 80"):
        a4_text(text, False)
    reads("A4.4 no terminator", S, "50 01 04 EF BB BF 41", 26, 3)
    reads("A4.4 two terminators", S, "50 01 05 EF BB BF 00 00", 26, 3)

    for verdict, got in (
        (10, read_message(b"", EXPECTED_W, W, lent(6))),
        (27, read_message(w_message(b""), EXPECTED_W, W, lent(6))),
        (13, read_message(w_message(b"", service=1), EXPECTED_W, W, lent(6))),
        (11, read_message(w_message(b"", length=0), EXPECTED_W, W, lent(6))),
    ):
        check(f"A4.5 A4.14 A4.15 bits are 0 after {verdict}", (got.verdict, got.rows), (verdict, [ABSENT] * 5 + lent(1)))
    got = read_message(b"", EXPECTED_W, W, lent(4))
    check("A4.5 2 leaves bits", (got.verdict, got.rows), (2, lent(4)))
    got = read_message(b"", EXPECTED_W, replace(W, width=3), lent(6))
    check("A4.5 1 leaves bits", (got.verdict, got.rows), (1, lent(6)))

    reads("A4.6 NaN is read", F, "20 01 7F 80 00 01", 0, 0, 0, [float32(0x7F800001)])
    writes("A4.6 NaN is written", F, [float32(0x7F800001)], 0, payload="20 01 7F 80 00 01")
    writes("A4.6 bits of 2^32", F, [float32(2**32)], 30)
    writes("A4.6 float64 in a float32 row", F, [float64(0x7F800001)], 30)
    writes("A4.6 float32 in a float64 row", F64, [float32(0)], 30)
    writes("A4.6 float64", F64, [float64(0xFFF0000000000001)], 0, payload="30 01 FF F0 00 00 00 00 00 01")
    writes("A4.8 unsigned in a signed row", W, [ABSENT, unsigned(5), ABSENT, ABSENT, ABSENT], 30)
    writes("A4.8 signed in an unsigned row", Z, [signed(5)], 30)
    writes("A4.8 boolean 2", B, [unsigned(2)], 30)
    writes("A4.8 sint16 32768", W, [ABSENT, signed(32768), ABSENT, ABSENT, ABSENT], 30)
    writes("A4.8 sint16 -32768", W, [ABSENT, signed(-32768), ABSENT, ABSENT, ABSENT], 0, payload="10 02 80 00")
    writes("A4.9 number in a struct row", X, [unsigned(1), ABSENT], 30)
    writes("A4.9 members in a number row", Z, [MEMBERS], 30)
    writes("A4.10 required in a present struct", W, [ABSENT, signed(-125), MEMBERS, ABSENT, ABSENT], 30)
    writes("A4.10 present under an absent struct", W, [ABSENT, signed(-125), ABSENT, unsigned(1), ABSENT], 30)
    writes("A4.10 absent under an absent struct", W, ROWS_C, 0, payload="10 02 FF 83")
    writes("A4.11 the sum doesn't wrap", A1, [run_of_bytes(2**64 - 1, 2)], 31, b"abcd")
    writes("A4.12 empty run past the end", A1, [run_of_bytes(5, 0)], 31, b"abcd")
    writes("A4.12 empty run at the end", A1, [run_of_bytes(4, 0)], 0, b"abcd", payload="50 01 00")
    many = Table(tuple(TypeRow(1, i, ARRAY, UINT8) for i in range(64)), 4)
    writes("A4.13 runs over each other", many, [run_of_bytes(0, 1000)] * 64, 33, bytes(1000))
    reads("A4.16 and A6.11", W, "10 02 FF 83", 0, 0, 0, ROWS_C)


def a4_text(text, is_right):
    data = payload_of(text)
    content = b"\xef\xbb\xbf" + data + b"\x00"
    whole = f"50 01 {len(content):02X} " + content.hex(" ")
    if is_right:
        reads(f"A4.4 {text}", S, whole, 0, 0, 0, [run_of_bytes(6, len(data))])
        writes(f"A4.4 writing {text}", S, [run_of_bytes(0, len(data))], 0, data, payload=whole)
    else:
        reads(f"A4.4 {text}", S, whole, 26, 3)
        writes(f"A4.4 writing {text}", S, [run_of_bytes(0, len(data))], 30, data)


# ---- Notes, A5: the type table


def a5_table():
    def row(text):
        """level/ID/kind, as the paper writes it; an array as array:element kind."""
        level, data_id, kind = text.split("/")
        kind, _, element_kind = kind.partition(":")
        names = {"uint8": UINT8, "uint16": UINT16, "struct": STRUCT, "array": ARRAY, "string": STRING}
        return TypeRow(int(level), int(data_id), names[kind] if kind in names else int(kind), int(element_kind or 0))

    def table(text, width=1):
        return Table(tuple(row(r) for r in text.split(", ")), width)

    flat_rows = [f"1/{i}/uint8" for i in range(65)]
    for text, valid in (
        (", ".join(flat_rows), False),
        (", ".join(flat_rows[:64]), True),
        ("1/1/uint8, 2/2/uint8", False),
        ("1/1/struct, 3/2/uint8", False),
        ("1/1/struct, 1/2/uint8", True),
        ("1/1/struct", True),
        ("2/1/uint8", False),
        ("0/1/uint8", False),
        ("1/1/struct, 2/1/struct, 3/1/struct, 4/1/struct", False),
        ("1/1/struct, 2/1/struct, 3/1/struct, 4/1/uint8", True),
        ("1/1/struct, 2/1/struct, 3/1/struct, 4/1/uint8, 5/1/uint8", False),
        ("1/5/struct, 2/1/struct, 3/9/uint8, 2/1/uint8", False),
        ("1/7/uint8, 1/5/struct, 2/8/uint8, 1/7/uint16", False),
        ("1/5/struct, 2/1/uint8, 1/6/struct, 2/1/uint8", True),
        ("1/5/struct, 2/5/uint8", True),
        ("1/4095/uint8", True),
        ("1/4096/uint8", False),
        ("1/1/array:0", False),
        ("1/1/array:12", False),
        ("1/1/array:13", False),
        ("1/1/array:14", False),
        ("1/1/array:11", True),
        ("1/1/array:1", True),
        ("1/1/uint8:2", False),
        ("1/1/struct:2", False),
        ("1/1/0", False),
        ("1/1/15", False),
    ):
        check(f"A5 {text[:60]}", check_table(table(text)), valid)
    for width, valid in ((0, False), (1, True), (2, True), (3, False), (4, True), (8, False)):
        check(f"A5.7 width {width}", check_table(table("1/1/uint8", width)), valid)
    check("A5.1 no rows", check_table(Table(())), False)
    check("A5.1 no rows, read", read_payload(b"", Table(()), lent(1)), PayloadReading(1, 0, 0, lent(1)))
    writes("A5.1 no rows, written", Table(()), [], 1)


# ---- Notes, A6: header, parts, message


def a6_message():
    c = payload_of("10 02 FF 83")
    datagram = w_message(c, protocol=2, service=1, client=0x1122, session=0x3344, code=5) + b"xyz"
    want = Reading(12, 0, 0, 0x1122, 0x3344, 5, (0, 0), (20, 3), [ABSENT] * 5)
    check("A6.1", read_message(datagram, EXPECTED_W, W, lent(5)), want)
    datagram = w_message(c, length=13, client=0x1122, session=0x3344, code=5)
    want = Reading(11, 0, 0, 0, 0, 0, (0, 0), (0, 0), [ABSENT] * 5)
    check("A6.1 zeros after 11", read_message(datagram, EXPECTED_W, W, lent(5)), want)
    a = payload_of(CASES[0][1])
    check("A6.2 the verdict's code is shown", sip.showw(w_message(a, code=5)).split("\n")[0], "verdict 0 code 0 place 0 skipped 1")
    check("A6.2 the header's is handed on", read_message(w_message(a, code=5), EXPECTED_W, W, lent(5)).return_code, 5)
    shown = sip.showw(w_message(a, message_type=0)).split("\n")[0]
    check("A6.2 16 has code 10", shown, "verdict 16 code 10 place 0 skipped 0")
    all_optional = Table((TypeRow(1, 1, UINT32),))
    got = read_message(w_message(b""), EXPECTED_W, all_optional, lent(1))
    check("A6.3 A6.11 empty payload accepted", got, Reading(0, 0, 0, 0, 1, 0, (16, 0), (16, 0), [ABSENT]))
    got = read_message(w_message(b""), EXPECTED_W, W, lent(5))
    check("A6.3 empty payload refused", got, Reading(27, 0, 0, 0, 1, 0, (0, 0), (0, 0), [ABSENT] * 5))
    got = read_message(w_message(filled_payload(1401)) + b"r", EXPECTED_W, W, lent(5))
    check("A6.4 17", got, Reading(17, 0, 0, 0, 1, 0, (0, 0), (1417, 1), [ABSENT] * 5))
    for payload, verdict in ((bytes(1401), 17), (b"", 27)):
        check(f"A6.6 payload {verdict}", read_payload(payload, W, lent(5)).verdict, verdict)
    check("A6.6 2 before 17", read_payload(bytes(1401), W, lent(4)).verdict, 2)
    check("A6.6 1 before 17", read_payload(bytes(1401), replace(W, width=0), lent(5)).verdict, 1)
    for size, output, verdict, length in ((1396, 1416, 0, 1416), (1396, 1415, 2, 0), (1397, 1500, 33, 0)):
        got = write_message(HEADER_W, A2, [run_of_bytes(0, size)], bytes(1397), bytes(output))
        check(f"A6.7 {size} {output}", (got.verdict, got.length), (verdict, length))
    for message_type in (0, 1, 2, 0x80, 0x81):
        header = Header(0x4A01, 0x8001, 0x0102, 0x0304, 7, message_type, 0xEE)
        want = payload_of(f"4A 01 80 01 00 00 00 0C 01 02 03 04 01 07 {message_type:02X} EE 10 02 FF 83")
        check(f"A6.8 type {message_type}", write_message(header, W, ROWS_C, b"", bytes(20)), Writing(0, 20, want))
        expected = Expected(0x4A01, 0x8001, 7, message_type)
        got = read_message(want, expected, W, lent(5))
        check(f"A6.8 type {message_type} read", got, Reading(0, 0, 0, 0x0102, 0x0304, 0xEE, (16, 4), (20, 0), ROWS_C))
    want = payload_of("4A 01 80 01 00 00 00 13 00 00 00 01 01 01 02 00 10 02 FF 83 50 05 04 10 01 0B 54")
    check("A6.9", write_message(HEADER_W, W, ROWS_A, b"", bytes(27)), Writing(0, 27, want))


# ---- Further things that the paper says


def further():
    writes("room", W, ROWS_C[:4], 2)
    writes("1 before 2", replace(W, width=5), [], 1)
    writes("2 before 31", W, [run_of_bytes(9, 9)] * 4, 2)
    writes("rows beyond are not looked at", W, ROWS_C + [run_of_bytes(9, 9)], 0, payload="10 02 FF 83")
    for width, static, tag in ((1, False, "50 05 04"), (2, False, "60 05 00 04"), (4, False, "70 05 00 00 00 04"),
                               (1, True, "40 05 04"), (2, True, "40 05 00 04"), (4, True, "40 05 00 00 00 04")):
        table = replace(W, width=width, static=static)
        writes(f"width {width} static {static}", table, ROWS_A, 0, payload=f"10 02 FF 83 {tag} 10 01 0B 54")
    four_levels = [MEMBERS, MEMBERS, MEMBERS, unsigned(42)]
    writes("four levels", D, four_levels, 0, payload="50 01 09 50 01 06 50 01 03 00 01 2A")
    reads("four levels", D, "50 01 09 50 01 06 50 01 03 00 01 2A", 0, 0, 0, four_levels)
    writes("empty struct", E, [MEMBERS, unsigned(7)], 0, payload="50 01 00 00 02 07")
    reads("empty struct", E, "50 01 00 00 02 07", 0, 0, 0, [MEMBERS, unsigned(7)])
    reads("unknown in an empty struct", E, "50 01 03 00 02 07 00 02 07", 0, 0, 1, [MEMBERS, unsigned(7)])
    old = b"\x11" * 40
    check("a refused write changes nothing", write_message(HEADER_W, W, [ABSENT] * 5, b"", old), Writing(30, 0, old))
    check("output one too short", write_message(HEADER_W, W, ROWS_C, b"", old[:19]), Writing(2, 0, old[:19]))
    check("payload, output one too short", write_payload(W, ROWS_C, b"", old[:3]), Writing(2, 0, old[:3]))
    unused = [replace(row, bits=99) for row in ROWS_A]
    writes("unused fields are ignored", W, unused, 0, payload="10 02 FF 83 50 05 04 10 01 0B 54")
    numbers = Table(tuple(TypeRow(1, kind, kind) for kind in range(1, 12)))
    rows = [unsigned(1), unsigned(255), unsigned(0x0102), unsigned(0x01020304), unsigned(0x0102030405060708),
            signed(-1), signed(-2), signed(-3), signed(-(2**63)), float32(0x3F800000), float64(0x3FF0000000000000)]
    digits = ("00 01 01 00 02 FF 10 03 01 02 20 04 01 02 03 04 30 05 01 02 03 04 05 06 07 08 00 06 FF 10 07 FF FE "
              "20 08 FF FF FF FD 30 09 80 00 00 00 00 00 00 00 20 0A 3F 80 00 00 30 0B 3F F0 00 00 00 00 00 00")
    writes("all numbers", numbers, rows, 0, payload=digits)
    reads("all numbers", numbers, digits, 0, 0, 0, rows)


# ---- Laws of the paper, over random tables and rows


def values_of(rows, content):
    """Values as they are compared: runs by their bytes."""
    return [(row.case, sip.bytes_of_run(row, content) if row.case == "bytes" else (row.number, row.bits)) for row in rows]


def written_is_read_back():
    """Demand 2: what is written is read back the same, and written again it gives the same bytes."""
    rng = random.Random(2)
    for turn in range(500):
        table, rows, content, payload = shapes.random_written(rng)
        header = Header(1, 2, 3, 4, 5, sip.RESPONSE, 6)
        message = write_message(header, table, rows, content.bytes, bytes(1416)).output[: 16 + len(payload)]
        got = read_message(message + b"rest", Expected(1, 2, 5, sip.RESPONSE), table, lent(len(rows)))
        parts = ((16, len(payload)), (len(message), 4))
        shown = (got.verdict, got.place, got.skipped, got.client, got.session, got.return_code, got.payload, got.rest)
        check(f"round trip {turn}", shown, (0, 0, 0, 3, 4, 6) + parts)
        check(f"round trip {turn}, values", values_of(got.rows, payload), values_of(rows, content.bytes))
        again = write_message(header, table, got.rows, payload, bytes(len(message)))
        check(f"round trip {turn}, bytes", again, Writing(0, len(message), message))


def written_is_read_by_another_table():
    """Demand 3: shuffled and read by a table that agrees, it gives 0 or 27, and each common member as written."""
    rng = random.Random(3)
    for turn in range(500):
        table, rows, content, payload = shapes.random_written(rng)
        other = shapes.other_table(rng, table)
        level = shapes.level_of(table, payload)
        shapes.shuffle_members(rng, level)
        moved = shapes.flat(level, table.width)
        want = by_path(table, values_of(rows, content.bytes))
        got = read_payload(moved, other, lent(len(other.rows)))
        wanted = [want.get(path, ("absent", (0, 0))) for path in paths(other.rows)]
        above = sip.parents(other.rows)
        missing = any(
            row.required and wanted[i][0] == "absent" and (above[i] is None or wanted[above[i]][0] == "members")
            for i, row in enumerate(other.rows)
        )
        if missing:
            check(f"other table {turn}", (got.verdict, got.rows), (27, [ABSENT] * len(other.rows)))
        else:
            check(f"other table {turn}", (got.verdict, values_of(got.rows, moved)), (0, wanted))


def paths(type_rows):
    """For each row the Data IDs from level 1 down to it."""
    found = []
    for row, parent in zip(type_rows, sip.parents(type_rows)):
        found.append((() if parent is None else found[parent]) + (row.data_id,))
    return found


def by_path(table, values):
    return dict(zip(paths(table.rows), values))


def main():
    cases_of_the_paper()
    showw_of_the_paper()
    return_codes_of_the_paper()
    a1_order()
    a2_places()
    a3_known()
    a4_values()
    a5_table()
    a6_message()
    further()
    written_is_read_back()
    written_is_read_by_another_table()
    print(f"{passed} passed, {failed} failed")
    sys.exit(failed != 0)


if __name__ == "__main__":
    main()
