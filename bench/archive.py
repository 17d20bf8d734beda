#!/usr/bin/env python3
"""Counts the instructions of an archive's operations, the library's beside those of archive.c, and prints a table.

    tools/built archive_vectors && python3 bench/archive.py

Needs gcc and valgrind, on x86-64. A figure is what a call takes over a call of the same operation on the same bytes that is refused at once
(another form, or a told size past the file), so that reading the case and writing the answer do not count. Both programs answer the same,
byte for byte, or nothing is printed.
"""
import os
import re
import struct
import subprocess
import sys
import tempfile

HERE = os.path.dirname(os.path.abspath(__file__))
LIBRARY = os.path.join(HERE, "..", "crates", "archive_vectors", "out", "archive_vectors")
ADD, CLOSE, OPEN, READ, FIND = 1, 2, 3, 4, 5


def message(session, size):
    return struct.pack(">HHIHHBBBB", 0x4A01, 0x8001, size - 8, 0, session, 1, 1, 2, 0) + bytes(size - 16)


def archive(count, size):
    """The records of so many messages, and what closes them."""
    records = b"".join(struct.pack(">H", size) + message(i + 1, size) for i in range(count))
    index = b"".join(struct.pack(">HH", i * (size + 2), i + 1) for i in range(count))
    return records, index + struct.pack(">IHH", len(records), count, 1)


def case(op, file, number, added=b""):
    return struct.pack(">BI", op, len(file)) + file + struct.pack(">QI", number, len(added)) + added


def workloads(count, size):
    """Each operation: its name, the case, and the same refused at once."""
    records, end = archive(count, size)
    file, other = records + end, records + end[:-1] + b"\x09"
    room = records + bytes(65535 - len(records))
    new = message(0x7777, size)
    yield "add", case(ADD, room, len(records), new), case(ADD, room, 65536, new)
    yield "close", case(CLOSE, room, len(records)), case(CLOSE, room, 65536)
    yield "open", case(OPEN, file, 0), case(OPEN, other, 0)
    yield "read the last", case(READ, file, count), case(READ, other, count)
    yield "find the last", case(FIND, file, count), case(FIND, other, count)


def run(program, cases, folder):
    """The answers, and how many instructions they took. Files and no pipes, which may hand over a case in pieces."""
    asked, given = os.path.join(folder, "cases"), os.path.join(folder, "answers")
    with open(asked, "wb") as file:
        file.write(cases)
    with open(asked, "rb") as source, open(given, "wb") as target:
        done = subprocess.run(["valgrind", "--tool=callgrind", "--callgrind-out-file=" + os.path.join(folder, "calls"), program],
                              stdin=source, stdout=target, stderr=subprocess.PIPE, check=True)
    with open(given, "rb") as file:
        return file.read(), int(re.search(rb"Collected : *(\d+)", done.stderr).group(1))


def each(program, one, folder):
    """What a second call takes, and its answer."""
    (first, a), (both, b) = run(program, one, folder), run(program, one + one, folder)
    if both != first + first:
        sys.exit("archive.py: %s answers otherwise when it is asked again" % program)
    return first, b - a


def main():
    with tempfile.TemporaryDirectory() as folder:
        base = os.path.join(folder, "base")
        subprocess.run(["gcc", "-O2", "-o", base, os.path.join(HERE, "archive.c")], check=True)
        print("| archive | operation | C | library | ratio |\n|---|---|---|---|---|")
        for count, size in ((2, 30), (60, 48), (2900, 16), (45, 1416)):
            for name, asked, refused in workloads(count, size):
                cost = {}
                for program in base, LIBRARY:
                    answer, taken = each(program, asked, folder)
                    cost[program] = answer, taken - each(program, refused, folder)[1]
                if cost[base][0] != cost[LIBRARY][0]:
                    sys.exit("archive.py: the answers differ: %s, %d messages of %d bytes" % (name, count, size))
                c, library = cost[base][1], cost[LIBRARY][1]
                print("| {:,} messages of {:,} bytes | {} | {:,} | {:,} | {:.2f} |".format(count, size, name, c, library, library / c))


if __name__ == "__main__":
    main()
