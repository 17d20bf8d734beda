#!/usr/bin/env python3
"""Answers archive cases in the form of docs/CASES.md by the second program.

    python3 tests/archive/answer.py < CASES > ANSWERS
"""
import sys

import archive
import form


def answer(case):
    """The case's answer. Reading operations leave the file as it was."""
    if case.operation == form.ADD:
        return of_changed(archive.add(case.file, case.number, case.message))
    if case.operation == form.CLOSE:
        return of_changed(archive.close(case.file, case.number))
    if case.operation == form.OPEN:
        opened = archive.open_archive(case.file)
        return form.Answer(opened.verdict, opened.records_size, opened.entries, 0, case.file)
    if case.operation == form.READ:
        return of_found(archive.read(case.file, case.number), case.file)
    if case.operation == form.FIND:
        return of_found(archive.find(case.file, case.number), case.file)
    sys.exit(f"{case.operation} is no operation")


def of_changed(changed):
    return form.Answer(changed.verdict, changed.size, 0, 0, changed.file)


def of_found(found, file):
    return form.Answer(found.verdict, found.number, found.place, found.length, file)


def main():
    try:
        cases = form.cases_of(sys.stdin.buffer.read())
    except form.Cut:
        sys.exit("the last case is cut")
    for case in cases:
        sys.stdout.buffer.write(form.answer_bytes(answer(case)))


if __name__ == "__main__":
    main()
