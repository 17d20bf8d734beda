#!/usr/bin/env python3
"""The form of archive cases and of their answers, as docs/CASES.md has it. All numbers are big-endian.

    case:   operation (1), file length (4), file, number (8), message length (4), message
    answer: verdict (1), a (8), b (8), c (8), file length (4), the file after the call
"""
from dataclasses import dataclass

ADD, CLOSE, OPEN, READ, FIND = 1, 2, 3, 4, 5
OPERATIONS = {ADD: "add", CLOSE: "close", OPEN: "open", READ: "read", FIND: "find"}


@dataclass(frozen=True)
class Case:
    operation: int
    file: bytes
    number: int = 0  # told size for adding and closing, n for reading, Session ID for finding
    message: bytes = b""  # for adding alone


@dataclass(frozen=True)
class Answer:
    verdict: int
    a: int
    b: int
    c: int
    file: bytes  # as it is after the call


class Cut(Exception):
    """The stream ends within a case or an answer."""


def with_length(data):
    return len(data).to_bytes(4, "big") + data


def case_bytes(case):
    return bytes([case.operation]) + with_length(case.file) + case.number.to_bytes(8, "big") + with_length(case.message)


def answer_bytes(answer):
    numbers = b"".join(number.to_bytes(8, "big") for number in (answer.a, answer.b, answer.c))
    return bytes([answer.verdict]) + numbers + with_length(answer.file)


class Stream:
    """Takes fields from the front of the bytes."""

    def __init__(self, data):
        self.data = data
        self.at = 0

    def ended(self):
        return self.at == len(self.data)

    def field(self, size):
        if size > len(self.data) - self.at:
            raise Cut
        self.at += size
        return self.data[self.at - size : self.at]

    def number(self, size):
        return int.from_bytes(self.field(size), "big")

    def run(self):
        return self.field(self.number(4))

    def case(self):
        return Case(self.number(1), self.run(), self.number(8), self.run())

    def answer(self):
        return Answer(self.number(1), self.number(8), self.number(8), self.number(8), self.run())


def cases_of(data):
    """All cases of the stream."""
    stream = Stream(data)
    cases = []
    while not stream.ended():
        cases.append(stream.case())
    return cases


def answers_of(data):
    """All whole answers of the stream, and how many bytes are left behind them."""
    stream = Stream(data)
    answers, end = [], 0
    try:
        while not stream.ended():
            answers.append(stream.answer())
            end = stream.at
    except Cut:
        pass
    return answers, len(data) - end


def counts_lines(cases, answers):
    """How often each verdict came up, by operation."""
    counts = {}
    for case, answer in zip(cases, answers):
        key = answer.verdict, case.operation
        counts[key] = counts.get(key, 0) + 1
    lines = ["verdict     all " + " ".join(f"{name:>7}" for name in OPERATIONS.values())]
    for verdict in sorted({verdict for verdict, _ in counts}):
        each = [counts.get((verdict, operation), 0) for operation in OPERATIONS]
        lines.append(f"{verdict:7} {sum(each):7} " + " ".join(f"{count:7}" for count in each))
    return lines
