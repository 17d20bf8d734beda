#!/usr/bin/env python3
"""Compares a program's answers with the second program's, case by case.

    python3 tests/second/compare.py STDIN EXPECTED GOT

prints how many cases agree and, for the first ones that don't, the lines that set the case up and both
answers. Status 1 if a case differs or the number of answers does.
"""
import sys

SETTINGS = ("table", "expect", "header", "rows", "content")
MOST_SHOWN = 5


def cases_of(lines):
    """Of each case its label, with the lines that are set for it."""
    settings = {}
    for line in lines:
        label = line.partition(":")[0]
        if label in SETTINGS:
            settings[label] = line
        else:
            yield label, list(settings.values()) + [line]


def answers_of(lines, labels):
    """The lines of each answer. An answer begins with its case's label; what comes before the first is one more."""
    answers, at = [[]], 0
    for line in lines:
        if at < len(labels) and line == labels[at]:
            answers.append([])
            at += 1
        answers[-1].append(line)
    return answers[1:] if not answers[0] else answers


def lines_of(name):
    with open(name, errors="replace") as file:
        return file.read().split("\n")[:-1]


def main():
    cases = list(cases_of(lines_of(sys.argv[1])))
    labels = [label for label, _ in cases]
    expected, got = (answers_of(lines_of(name), labels) for name in sys.argv[2:4])
    differing = 0
    for number, (label, lines) in enumerate(cases):
        found = got[number] if number < len(got) else ["no answer"]
        if found == expected[number]:
            continue
        differing += 1
        if differing <= MOST_SHOWN:
            print("\n".join(lines + ["expected:"] + expected[number] + ["got:"] + found))
    same_end = len(got) == len(cases) and open(sys.argv[2], "rb").read() == open(sys.argv[3], "rb").read()
    print(f"{len(cases) - differing} of {len(cases)} cases agree")
    if not differing and not same_end:
        print("but the outputs differ")
    sys.exit(0 if differing == 0 and same_end else 1)


if __name__ == "__main__":
    main()
