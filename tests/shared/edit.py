#!/usr/bin/env python3
"""Applies a must-fail edit to a crate: edit.py EDIT [TO].

EDIT is crates/NAME/must-fail/FILE.edit. Each `old:` text has to stand once in its file of that crate; where one does not, that is printed
and the status is 1. With TO, a copy of the crate, the changed files are written there.
"""
import os
import sys


def changed(edit):
    """The files that the edit changes, and what is wrong with it."""
    crate = os.path.dirname(os.path.dirname(edit))
    path, old, texts = None, None, {}
    with open(edit, encoding="utf-8") as file:
        lines = file.read().split("\n")
    for line in lines:
        if line.startswith("file: "):
            path = line[len("file: "):].strip()
            with open(os.path.join(crate, path), encoding="utf-8") as file:
                texts.setdefault(path, file.read())
        elif line.startswith("old: "):
            old = line[len("old: "):]
        elif line.startswith("new:") and path and old:
            count = texts[path].count(old)
            if count != 1:
                return texts, f"this stands {count} times in {path}, and not once: {old}"
            texts[path] = texts[path].replace(old, line[len("new:"):].removeprefix(" "))
            old = None
        elif line and not line.startswith("#"):
            return texts, f"this line is none of an edit: {line}"
    return texts, None if texts else "it changes nothing"


def main(edit, to=None):
    texts, fault = changed(edit)
    if fault:
        print(f"{edit}: {fault}")
        return 1
    for path, text in texts.items() if to else ():
        with open(os.path.join(to, path), "w", encoding="utf-8") as file:
            file.write(text)
    return 0


if __name__ == "__main__":
    if len(sys.argv) not in (2, 3):
        sys.exit("usage: tests/shared/edit.py EDIT [TO]")
    sys.exit(main(*sys.argv[1:]))
