#!/usr/bin/env python3
"""Makes small cases at random: few rows, few Data IDs, few bytes, so that things meet by chance.

    python3 tests/second/small.py SEED COUNT DIR

writes DIR/stdin and DIR/stdout as `gen.py` does, whose cases are built with a purpose instead.
"""
import random

import answer
import gen
import sip
from sip import ARRAY, STRING, STRUCT

IDS = (0, 1, 2, 4095)
EDGES = [n + d for n in (0, 1 << 7, 1 << 8, 1 << 15, 1 << 16, 1 << 31, 1 << 32, 1 << 63, 1 << 64) for d in (-1, 0, 1) if 0 <= n + d < 1 << 64]
BYTES = (b"\0", b"\0", b"\1", b"\2", b"\x7f", b"\x80", b"\xff", b"A", sip.TEXT_MARK, sip.TEXT_MARK, b"\xc3\xa4", b"\xe2\x82\xac", b"\xf0\x9f\x98\x80")


def table_of(rng):
    rows, most = [], 1
    for _ in range(rng.choice((1, 1, 2, 3, 4, 5, 6))):
        level = rng.choice((most, most, rng.randint(1, most)))
        kind = rng.choice((STRUCT, STRUCT, STRING, ARRAY, rng.randint(1, 11), rng.randint(1, 11)))
        if kind == STRUCT and level == 4:
            kind = 2
        rows.append(sip.TypeRow(level, rng.choice(IDS), kind, rng.randint(1, 11) if kind == ARRAY else 0, rng.random() < 0.3))
        most = level + (kind == STRUCT)
    if rng.random() < 0.03:
        at = rng.randrange(len(rows))
        row = rows[at]
        rows[at] = rng.choice((
            sip.TypeRow(rng.randint(0, 5), row.data_id, row.kind, row.element_kind, row.required),
            sip.TypeRow(row.level, rng.choice((4096, 8193, 65535)), row.kind, row.element_kind, row.required),
            sip.TypeRow(row.level, row.data_id, rng.randint(0, 16), row.element_kind, row.required),
            sip.TypeRow(row.level, row.data_id, row.kind, rng.randint(0, 13), row.required),
        ))
    return sip.Table(tuple(rows), rng.choice((1, 1, 1, 2, 4)) if rng.random() < 0.99 else rng.choice((0, 3, 5, 8)), rng.random() < 0.5)


def valid_table(rng):
    while True:
        table = table_of(rng)
        if sip.check_table(table) or rng.random() < 0.05:
            return table


def content_of(rng, pieces):
    return b"".join(rng.choice(BYTES) for _ in range(rng.randint(0, pieces)))


def text_of(rng):
    return sip.TEXT_MARK + content_of(rng, 2) + b"\0"


def member(rng, table, depth):
    row = rng.choice(table.rows)
    kind = row.kind if rng.random() < 0.9 else rng.randint(1, 14)
    if kind < STRING:
        wire = sip.NUMBER_KINDS[kind][1] if kind in sip.NUMBER_KINDS and rng.random() < 0.9 else rng.randint(0, 3)
        size = 1 << wire
        content = rng.choice((rng.choice(EDGES).to_bytes(8, "big")[-size:], rng.randbytes(size)))
    else:
        wire = rng.randint(4, 7)
        content = members(rng, table, depth + 1) if kind == STRUCT and depth < 4 else rng.choice((text_of(rng), content_of(rng, 3)))
    data_id = row.data_id if rng.random() < 0.85 else rng.choice(IDS)
    tag = (rng.random() < 0.1) << 15 | wire << 12 | data_id % 4096
    out = tag.to_bytes(2, "big")
    if wire >= 4:
        width = {4: table.width, 5: 1, 6: 2, 7: 4}[wire]
        length = len(content) + rng.choice((0,) * 12 + (1, -1, 2, 200))
        out += (max(0, length) % 256 ** max(1, width)).to_bytes(max(1, width), "big")
    return out + content


def members(rng, table, depth=1):
    return b"".join(member(rng, table, depth) for _ in range(rng.choice((0, 1, 1, 2, 3))))


def payload_of(rng, table):
    payload = members(rng, table)[:400]
    if rng.random() < 0.15:
        payload = payload[: rng.randint(0, len(payload))]
    if rng.random() < 0.15 and payload:
        at = rng.randrange(len(payload))
        payload = payload[:at] + bytes([rng.choice((0, 1, 2, 5, 0x10, 0x50, 0xFF, payload[at] ^ 1))]) + payload[at + 1 :]
    return payload


def value_of(rng, content):
    case = rng.choice(answer.CASES)
    number = rng.choice(EDGES)
    if case == "unsigned":
        return sip.Row(case, number, 0, rng.choice((0, 0, 9)))
    if case == "signed":
        return sip.Row(case, number - (1 << 64) if number >= 1 << 63 else number, 0, 0)
    if case in ("float32", "float64"):
        return sip.Row(case, 0, 0, number)
    if case == "bytes":
        near = rng.randint(0, len(content) + 1)
        return sip.Row(case, rng.choice((near, near, near, number)), rng.choice((rng.randint(0, 4), len(content) - near if near <= len(content) else 0, number, 8)), 0)
    return sip.Row(case, 0, 0, 0)


def fitting_value(rng, row, content):
    """A value that often fits; any, where the row's kind is none."""
    if not 1 <= row.kind <= 14:
        return value_of(rng, content)
    if row.kind == 1:
        return sip.unsigned(rng.choice((0, 1, 2)))
    if row.kind <= 5:
        return sip.unsigned(rng.choice(EDGES) % (1 << 8 * sip.NUMBER_KINDS[row.kind][0]))
    if row.kind <= 9:
        half = 1 << 8 * sip.NUMBER_KINDS[row.kind][0] - 1
        return sip.Row("signed", rng.choice((0, -1, 1, half - 1, -half, half if half < 1 << 63 else 0, -half - 1 if half < 1 << 63 else 0)), 0, 0)
    if row.kind <= 11:
        return sip.Row("float32" if row.kind == 10 else "float64", 0, 0, rng.choice(EDGES) % (1 << (32 if row.kind == 10 else 64)))
    if row.kind == STRUCT:
        return sip.MEMBERS
    place = rng.randint(0, len(content))
    return sip.run_of_bytes(place, rng.choice((0, rng.randint(0, len(content) - place))))


def write(cases, rng, table):
    content = content_of(rng, 6)
    rows = []
    for row in table.rows:
        way = rng.random()
        rows.append(sip.ABSENT if way < 0.25 else fitting_value(rng, row, content) if way < 0.93 else value_of(rng, content))
    if rng.random() < 0.1:
        rows = rows[:-1] if rng.random() < 0.5 else rows + [value_of(rng, content)]
    verdict, payload = sip.payload_to_write(table, rows, content)
    headed = rng.random() < 0.5
    needed = (16 if headed else 0) + (len(payload) if verdict == 0 else rng.randint(0, 20))
    size = max(0, needed + rng.choice((0, 0, 0, 1, 3, -1, -17)))
    header = None
    if headed:
        kind = rng.choice(sip.MESSAGE_TYPES) if rng.random() < 0.97 else rng.randrange(256)
        header = sip.Header(*(rng.randrange(65536) for _ in range(4)), rng.randrange(256), kind, rng.randrange(256))
    cases.write(rng, "small", table, rows, content, size, header)


def read_message(cases, rng, table, payload, room):
    few = [rng.choice((0, 1, 0x0100, 0xFFFF)) for _ in range(4)]
    expected = sip.Expected(few[0], few[1], rng.choice((0, 1, 255)), rng.choice(sip.MESSAGE_TYPES + (3,)[: rng.random() < 0.03]))
    fields = gen.Fields(rng, expected, payload)
    if rng.random() < 0.2:
        name = rng.choice(("service", "method", "protocol", "interface", "message_type", "length"))
        old = getattr(fields, name)
        most = {"service": 65536, "method": 65536, "length": 1 << 32}.get(name, 256)
        setattr(fields, name, (old + rng.choice((1, -1, 8, 16, 256, 1 << 31))) % most)
    datagram = fields.datagram()
    if rng.random() < 0.1:
        datagram = datagram[: rng.randint(0, len(datagram))]
    cases.read_message("small", table, room, expected, datagram)


def make_cases(seed, count):
    rng = random.Random(f"small {seed}")
    cases = gen.Cases()
    while cases.count < count:
        table = valid_table(rng)
        room = max(0, len(table.rows) + rng.choice((0,) * 12 + (1, 2, 66, -1)))
        for _ in range(min(rng.randint(1, 12), count - cases.count)):
            what = rng.random()
            if what < 0.4:
                cases.read_payload("small", table, min(room, 72), payload_of(rng, table))
            elif what < 0.6:
                read_message(cases, rng, table, payload_of(rng, table), min(room, 72))
            elif what < 0.98:
                write(cases, rng, table)
            else:
                cases.check_table("small", table_of(rng))
    return cases.lines


if __name__ == "__main__":
    gen.main(make_cases)
