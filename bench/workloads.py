#!/usr/bin/env python3
"""The workloads of the benchmark.  workloads.py FOLDER writes a file NN for each, and prints a line for each: the file, its group and its words.

A file is the input of both programs, 4,096 bytes, numbers big-endian:
    0 'r' or 'w'   1 type rows   2 length width   3 static mark
    4 Service ID, 6 Method ID, 8 Client ID, 10 Session ID   12 Interface Version   13 Message Type   14 Return Code
    16 how often   18 bytes of the datagram or of the content   20 bytes of the output
    24 64 type rows of 6: level, Data ID (2), kind, element kind, required
    408 64 value rows of 17: what it shows (0 absent, 1 unsigned, 2 signed, 3 float32, 4 float64, 5 bytes, 6 members),
        its number, float bits or place (8), a run's length (8)
    2048 the datagram or the content
"""
import struct
import sys

SIZE = {1: 1, 2: 1, 6: 1, 3: 2, 7: 2, 4: 4, 8: 4, 10: 4, 5: 8, 9: 8, 11: 8}
WIRE = {1: 0, 2: 1, 4: 2, 8: 3}  # by size
ABSENT, MEMBERS = (0, 0, 0), (6, 0, 0)
STRING, ARRAY, STRUCT = 12, 13, 14


class Numbers:
    """Pseudo-random numbers of our own, so that the workloads are the same under every Python."""

    def __init__(self, seed):
        self.x = (seed * 2654435769 + 88172645463325252) % 2**64

    def next(self):
        x = self.x
        x ^= x << 13 & 2**64 - 1
        x ^= x >> 7
        x ^= x << 17 & 2**64 - 1
        self.x = x
        return x * 2685821657736338717 % 2**64

    def below(self, n):
        return (self.next() >> 11) % n

    def bytes(self, n):
        return bytes(self.below(256) for _ in range(n))


class Table:
    """rows: (level, Data ID, kind, element kind, required)"""

    def __init__(self, rows, width, static, service):
        self.rows, self.width, self.static, self.service = rows, width, static, service

    def tag(self, wire, ident):
        return struct.pack('>H', wire << 12 | ident)

    def number(self, kind, ident, x):
        n = SIZE[kind]
        return self.tag(WIRE[n], ident) + (x % 256**n).to_bytes(n, 'big')

    def run(self, ident, content):
        wire = 4 if self.static else {1: 5, 2: 6, 4: 7}[self.width]
        return self.tag(wire, ident) + len(content).to_bytes(self.width, 'big') + content


def text(t):
    return b'\xef\xbb\xbf' + t + b'\0'


def message(t, payload, client=0, session=1, service=None):
    ids = (t.service if service is None else service, 0x8001, 8 + len(payload), client, session)
    return struct.pack('>HHIHHBBBB', *ids, 1, 1, 2, 0) + payload


def form(op, t, data, values=(), client=0, session=1, room=1416):
    b = struct.pack('>cBBBHHHHBBBxHHHxx', op, len(t.rows), t.width, t.static, t.service, 0x8001, client, session, 1, 2, 0, 1, len(data), room)
    b += b''.join(struct.pack('>BHBBB', *r) for r in t.rows)
    b = b.ljust(408, b'\0') + b''.join(struct.pack('>BQQ', *v) for v in values)
    return (b.ljust(2048, b'\0') + data).ljust(4096, b'\0')


def read(t, payload, **ids):
    """The lent rows hold something before, so that a row left alone shows."""
    return form(b'r', t, message(t, payload, **ids), [(1, 7, 0)] * 64)


def write(t, values, content, **more):
    return form(b'w', t, content, values, **more)


def values_of(t, payload):
    """The rows of an accepted payload whose members stand in table order, none unknown."""
    out, at = [], 0
    for level, ident, kind, elem, required in t.rows:
        if payload[at:at + 2] == b'' or int.from_bytes(payload[at:at + 2], 'big') % 4096 != ident:
            out.append(ABSENT)
            continue
        at += 2
        if kind < STRING:
            n = SIZE[kind]
            x = int.from_bytes(payload[at:at + n], 'big', signed=6 <= kind <= 9) % 2**64
            out.append((1 if kind < 6 else 2 if kind < 10 else kind - 7, x, 0))
            at += n
            continue
        n = int.from_bytes(payload[at:at + t.width], 'big')
        at += t.width
        if kind == STRUCT:
            out.append(MEMBERS)
            continue
        out.append((5, at + 3, n - 4) if kind == STRING else (5, at, n))
        at += n
    return out


# ---- the tables and payloads

def case_a():
    t = Table([(1, 1, 4, 0, 0), (1, 2, 7, 0, 1), (1, 5, STRUCT, 0, 0), (2, 1, 3, 0, 1), (1, 7, STRING, 0, 0)], 1, 0, 0x4A01)
    return t, bytes.fromhex('1002FF83 500504 10010B54 00092A'), [ABSENT, (2, 2**64 - 125, 0), MEMBERS, (1, 2900, 0), ABSENT]


LOG = [(1, 1, 5, 0, 1), (1, 2, 4, 0, 1), (1, 3, 2, 0, 1), (1, 4, STRUCT, 0, 0), (2, 1, 3, 0, 1), (2, 2, 7, 0, 1),
       (2, 3, 10, 0, 0), (2, 4, 1, 0, 0), (1, 5, STRING, 0, 0), (1, 6, 8, 0, 0), (1, 7, 1, 0, 0), (1, 8, 11, 0, 0)]


def logger():
    r, t = Numbers(2), Table(LOG, 2, 1, 0x4A02)
    n = t.number
    inner = n(3, 1, 2900) + n(7, 2, -125) + n(10, 3, 0x41C80000) + n(1, 4, 1)
    p = n(5, 1, r.next()) + n(4, 2, r.below(2**32)) + n(2, 3, 4) + t.run(4, inner)
    p += t.run(5, text('Kühlwasser über 95 °C, Lüfter an'.encode()))
    return t, p + n(8, 6, -40000) + n(1, 7, 0) + n(11, 8, 0x4056C00000000000)


def rows64():
    """64 rows side by side; eight arrays fill the payload nearly to 1,400 bytes."""
    r = Numbers(3)
    kinds = [4, 5, 3, 11, 8, 2, 9, 10, ARRAY, 7, 4, 5, 1, 11, 6, ARRAY] * 4
    t = Table([(1, 3 * i + 1, k, 2 + i % 4 if k == ARRAY else 0, int(i % 3 != 2)) for i, k in enumerate(kinds)], 2, 0, 0x4A03)
    left = 1400 - sum(4 if k == ARRAY else 2 + SIZE[k] for k in kinds)
    share = left // kinds.count(ARRAY) // 8 * 8
    p = b''
    for (level, ident, k, elem, required) in t.rows:
        p += t.run(ident, r.bytes(share)) if k == ARRAY else t.number(k, ident, r.below(2) if k == 1 else r.next())
    return t, p


def levels4():
    """Two structs in two structs in two structs, with three numbers in each innermost one and one beside the inner structs."""
    r, rows = Numbers(4), []
    t = Table(rows, 2, 1, 0x4A04)

    def structs(level):
        out = b''
        for ident in (1, 2):
            rows.append((level, ident, STRUCT, 0, 1))
            inner = structs(level + 1) if level < 3 else b''
            for i, kind in ((9, 3),) if level < 3 else ((1, 3), (2, 8), (3, 2)):
                rows.append((level + 1, i, kind, 0, 1))
                inner += t.number(kind, i, r.next())
            out += t.run(ident, inner)
        return out

    return t, structs(1)


def unknown():
    """1,400 bytes of members that the table of the logger message, with nothing required, does not know."""
    r, t = Numbers(5), Table([row[:4] + (0,) for row in LOG], 2, 1, 0x4A05)
    p = b''
    while len(p) < 1400:
        ident, wire = 100 + r.below(3900), r.below(8)
        if wire < 4:
            q = t.tag(wire, ident) + r.bytes(2**wire)
        else:
            n = r.below(33)
            q = t.tag(wire, ident) + n.to_bytes({4: 2, 5: 1, 6: 2, 7: 4}[wire], 'big') + r.bytes(n)
        if len(q) == 1400 - len(p) or len(q) + 3 <= 1400 - len(p):
            p += q
    return t, p


def log_text(r, n):
    """A German log text of n bytes, in which about one character in twelve has several bytes."""
    words = 'Motor Drehzahl Kühlwasser über Grenze Türen zu Öldruck 25°C ok Straße Gang → Diagnose Steuergerät'.split()
    out = ''
    while len(out.encode()) < n:
        out += words[r.below(len(words))] + ' '
    while len(out.encode()) > n:
        out = out[:-1]
    return out.encode().ljust(n, b'.')


def long_text(ascii_only=False):
    r = Numbers(66 if ascii_only else 6)
    t = Table([(1, 1, 4, 0, 1), (1, 2, ARRAY, 3, 1), (1, 3, STRING, 0, 1)], 2, 1, 0x4A06)
    array = r.bytes(700)
    words = bytes(32 + r.below(95) for _ in range(670)) if ascii_only else log_text(r, 670)
    return t, t.number(4, 1, 77) + t.run(2, array) + t.run(3, text(words))


def all_workloads():
    """(group, words, form) of each"""
    a, pa, va = case_a()
    log, pl = logger()
    many, pm = rows64()
    deep, pd = levels4()
    none, pn = unknown()
    long, pt = long_text()
    plain, pp = long_text(True)
    ids = dict(client=0x11, session=0x222)
    twice = Table(LOG[:-1] + [(1, 7, 11, 0, 0)], 2, 1, 0x4A02)
    yield 'reading', 'case a: 5 rows, 14 bytes', read(a, pa)
    yield 'reading', 'a logger message: 12 members, {} bytes'.format(len(pl)), read(log, pl, **ids)
    yield 'reading', '64 rows, {:,} bytes'.format(len(pm)), read(many, pm)
    yield 'reading', 'four levels: {} rows, {} bytes'.format(len(deep.rows), len(pd)), read(deep, pd)
    yield 'reading', 'unknown members only: 12 rows, 1,400 bytes', read(none, pn)
    yield 'reading', 'long text and array: 3 rows, 1,388 bytes', read(long, pt)
    yield 'reading', 'the same, ASCII text only', read(plain, pp)
    yield 'refused', 'reading: another Service ID (13), the logger message', read(log, pl, service=0x4A03)
    yield 'refused', 'reading: text ill formed at its end (26), the long payload', read(long, pt[:-2] + b'\xc3\0')
    yield 'refused', 'reading: a required member missing (27), 64 rows', read(many, pm[:pm.rindex(many.tag(6, 190))])
    yield 'refused', 'reading: a Data ID twice in the table (1), the logger message', read(twice, pl)
    yield 'writing', 'case a: 5 rows, 11 bytes', write(a, va, b'')
    yield 'writing', 'a logger message: 12 members, {} bytes'.format(len(pl)), write(log, values_of(log, pl), pl, **ids)
    yield 'writing', '64 rows, {:,} bytes'.format(len(pm)), write(many, values_of(many, pm), pm)
    yield 'writing', 'four levels: {} rows, {} bytes'.format(len(deep.rows), len(pd)), write(deep, values_of(deep, pd), pd)
    yield 'writing', 'nothing present: 12 rows, 0 bytes', write(none, [ABSENT] * 12, b'')
    yield 'writing', 'long text and array: 3 rows, 1,388 bytes', write(long, values_of(long, pt), pt)
    yield 'writing', 'the same, ASCII text only', write(plain, values_of(plain, pp), pp)
    vl = values_of(log, pl)
    yield 'refused', 'writing: a number out of its range (30), the logger message', write(log, vl[:10] + [(1, 2, 0)] + vl[11:], pl)
    yield 'refused', 'writing: output a byte too short (2), the long message', write(long, values_of(long, pt), pt, room=1403)
    yield 'refused', 'writing: a Data ID twice in the table (1), the logger message', write(twice, vl, pl)


if __name__ == '__main__':
    for i, (group, words, data) in enumerate(all_workloads()):
        name = '%02d' % i
        with open('%s/%s' % (sys.argv[1], name), 'wb') as f:
            f.write(data)
        print(name, group, words)
