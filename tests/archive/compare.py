#!/usr/bin/env python3
"""Compares a program's answers to archive cases with the second program's, case by case.

    python3 tests/archive/compare.py CASES EXPECTED GOT

says the first case that differs, with both answers, and ends with status 1. If none does, it prints how often
each verdict came up and how many cases agree.
"""
import sys

import form

MOST_SHOWN = 160  # bytes of a file or message that are shown in full
NUMBER_NAMES = {form.ADD: "told size", form.CLOSE: "told size", form.READ: "n", form.FIND: "Session ID"}
ANSWER_NAMES = {
    form.ADD: ("records' size",), form.CLOSE: ("whole size",), form.OPEN: ("records' size", "entries"),
    form.READ: ("number", "place", "length"), form.FIND: ("number", "place", "length"),
}


def run_words(data):
    """A run of bytes by its size and its digits; of a long one the first and the last."""
    if len(data) <= MOST_SHOWN:
        digits = data.hex(" ").upper()
    else:
        digits = data[: MOST_SHOWN // 2].hex(" ").upper() + " ... " + data[-MOST_SHOWN // 2 :].hex(" ").upper()
    return f"{len(data)} bytes {digits}".rstrip()


def case_lines(number, case):
    words = f"case {number}: {form.OPERATIONS[case.operation]}"
    if case.operation in NUMBER_NAMES:
        words += f", {NUMBER_NAMES[case.operation]} {case.number}"
    lines = [words, "file: " + run_words(case.file)]
    if case.operation == form.ADD:
        lines.append("message: " + run_words(case.message))
    return lines


def answer_words(case, answer):
    if answer is None:
        return "no whole answer"
    values = (answer.a, answer.b, answer.c)
    names = ANSWER_NAMES[case.operation]
    words = [f"verdict {answer.verdict}"] + [f"{name} {value}" for name, value in zip(names, values)]
    if any(values[len(names) :]):
        words.append(f"and {values[len(names) :]} where 0 is due")
    return ", ".join(words + [file_words(case.file, answer.file)])


def file_words(before, after):
    if after == before:
        return "file as it was"
    if len(after) != len(before):
        return f"file of {len(after)} bytes"
    changed = [at for at in range(len(before)) if before[at] != after[at]]
    first, end = changed[0], changed[-1] + 1
    return f"file changed from {first} to {end}: {run_words(after[first:end])}"


def contents_of(name):
    with open(name, "rb") as file:
        return file.read()


def main():
    cases = form.cases_of(contents_of(sys.argv[1]))
    (expected, _), (got, left) = (form.answers_of(contents_of(name)) for name in sys.argv[2:4])
    if len(expected) != len(cases):
        sys.exit(f"{len(expected)} answers expected to {len(cases)} cases")
    for number, case in enumerate(cases):
        found = got[number] if number < len(got) else None
        if found != expected[number]:
            print("\n".join(case_lines(number + 1, case)))
            print("expected:", answer_words(case, expected[number]))
            print("got:", answer_words(case, found))
            sys.exit(1)
    if len(got) != len(cases) or left:
        print(f"{len(cases)} cases agree, but the answers go on behind them")
        sys.exit(1)
    print("\n".join(form.counts_lines(cases, expected)))
    print(f"{len(cases)} of {len(cases)} cases agree")


if __name__ == "__main__":
    main()
