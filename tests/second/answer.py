#!/usr/bin/env python3
"""Answers cases in the form of docs/CASES.md by the second program.

    python3 tests/second/answer.py < stdin > stdout
"""
import sys

import sip

FILL = 0xA5  # every output byte before a write
CASES = ("absent", "unsigned", "signed", "float32", "float64", "bytes", "members")
RECORD_BYTES = 26


class Answerer:
    """Takes the lines one by one; holds what the lines without an answer have set."""

    def __init__(self):
        self.room = 0
        self.table = sip.Table(())
        self.expected = sip.Expected(0, 0, 0, 0)
        self.header = sip.Header(0, 0, 0, 0, 0, 0, 0)
        self.rows = []
        self.content = b""

    def answer(self, line):
        """The lines of the answer; none for a line that only sets something."""
        label, _, digits = line.partition(":")
        data = bytes.fromhex(digits)
        if label == "table":
            self.room, self.table = table_of(data)
        elif label == "expect":
            self.expected = expected_of(data)
        elif label == "header":
            self.header = header_of(data)
        elif label == "rows":
            self.rows = rows_of(data)
        elif label == "content":
            self.content = data
        else:
            operation = label.split(" ")[0]
            if operation == "read-message":
                return [label] + self.read_message(data)
            if operation == "write-message":
                return [label] + self.write_message(data)
            if operation == "write-payload":
                return [label] + self.write_payload(data)
            if operation == "check-table":
                return [label] + self.check_table()
            return [label] + self.read_payload(data)
        return []

    def read_payload(self, payload):
        reading = sip.read_payload(payload, self.table, lent_rows(self.room))
        lines = [f"{sip.verdict_words(reading.verdict)} place {reading.place} skipped {reading.skipped}"]
        filled = 0 if reading.verdict in (1, 2) else len(self.table.rows)
        for number in range(filled):
            data_id = self.table.rows[number].data_id
            lines.append(f"{number + 1} {data_id} {sip.value_words(reading.rows[number])}")
        return lines + [f"filled {filled}"]

    def read_message(self, datagram):
        reading = sip.read_message(datagram, self.expected, self.table, lent_rows(self.room))
        lines = [
            f"{sip.verdict_words(reading.verdict)} place {reading.place} skipped {reading.skipped}",
            f"client {reading.client} session {reading.session} return {reading.return_code}",
            f"payload {reading.payload[0]} {reading.payload[1]} rest {reading.rest[0]} {reading.rest[1]}",
        ]
        return lines + [f"{number + 1} {row_words(row)}" for number, row in enumerate(reading.rows)]

    def write_message(self, data):
        output = bytes([FILL]) * int.from_bytes(data, "big")
        return writing_lines(sip.write_message(self.header, self.table, self.rows, self.content, output))

    def write_payload(self, data):
        output = bytes([FILL]) * int.from_bytes(data, "big")
        return writing_lines(sip.write_payload(self.table, self.rows, self.content, output))

    def check_table(self):
        return [sip.verdict_words(0 if sip.check_table(self.table) else 1)]


# ---- From bytes, and back


def number(data):
    return int.from_bytes(data, "big")


def table_of(data):
    """Rows lent, rows claimed, width, mark; then six bytes for each row."""
    rows = []
    for at in range(4, len(data), 6):
        row = data[at : at + 6]
        rows.append(sip.TypeRow(row[0], number(row[1:3]), row[3], row[4], row[5] == 1))
    return data[0], sip.Table(tuple(rows), width=data[2], static=data[3] == 1, count=data[1])


def table_bytes(table, room):
    head = bytes([room, table.claimed_rows(), table.width, table.static])
    return [head] + [
        bytes([row.level]) + row.data_id.to_bytes(2, "big") + bytes([row.kind, row.element_kind, row.required])
        for row in table.rows
    ]


def expected_of(data):
    return sip.Expected(number(data[0:2]), number(data[2:4]), data[4], data[5])


def expected_bytes(expected):
    ids = expected.service.to_bytes(2, "big") + expected.method.to_bytes(2, "big")
    return ids + bytes([expected.interface, expected.message_type])


def header_of(data):
    ids = [number(data[at : at + 2]) for at in (0, 2, 4, 6)]
    return sip.Header(*ids, data[8], data[9], data[10])


def header_bytes(header):
    ids = (header.service, header.method, header.client, header.session)
    return b"".join(i.to_bytes(2, "big") for i in ids) + bytes(
        [header.interface, header.message_type, header.return_code]
    )


def rows_of(data):
    return [row_of(data[at : at + RECORD_BYTES]) for at in range(0, len(data), RECORD_BYTES)]


def row_of(record):
    case = CASES[record[0]]
    return sip.Row(
        case,
        int.from_bytes(record[1:9], "big", signed=case == "signed"),
        number(record[9:17]),
        number(record[17:25]),
    )


def record_of(row, spare):
    return (
        bytes([CASES.index(row.case)])
        + row.number.to_bytes(8, "big", signed=row.case == "signed")
        + row.length.to_bytes(8, "big")
        + row.bits.to_bytes(8, "big")
        + bytes([spare])
    )


# ---- Rows before and after a reading


def lent_rows(room):
    """What the lent rows hold before each reading: row i, from 1, has case i modulo 7."""
    return [lent_row(i) for i in range(1, room + 1)]


def lent_row(i):
    case = CASES[i % 7]
    numbers = {"unsigned": (i, 0), "signed": (-i, 0), "bytes": (i, i)}
    return sip.Row(case, *numbers.get(case, (0, 0)), bits=100 + i)


def row_words(row):
    """The value; then the bits, if they are not 0 and the value doesn't use them."""
    words = sip.value_words(row)
    if row.bits != 0 and row.case not in ("float32", "float64"):
        words += f" bits {row.bits}"
    return words


def writing_lines(writing):
    return [
        f"{sip.verdict_words(writing.verdict)} length {writing.length}",
        f"output {writing.output.hex().upper()}".rstrip(),
    ]


def main():
    answerer = Answerer()
    for line in sys.stdin:
        for answer in answerer.answer(line.rstrip("\n")):
            print(answer)


if __name__ == "__main__":
    main()
