#!/usr/bin/env python3
"""Brings the repository's own definitions and lemmas to the spelling of today's Rattle: words in snake case.

usage: python3 tools/spelling.py      once, at the top of the repository, after port.py
       python3 tools/spelling.py -n   says what it would do, and which names fall together

A name that specs/ or a lemma file of proofs/ declares is respelled wherever it stands: in specs/, proofs/, clauses, edits and pages. What
begins with a capital (types, modules), what the code declares, and what a file imports from the toolchain keeps its name.
"""

import os
import re
import sys

DECLARED = re.compile(r"^(?:(?:abbrev|unfoldable|pub|axiom)\s+)*([^\s:(){}]+)(?:\s+\{[^}]*\})*\s*:(?!=)")
SHAPE = re.compile(r"^(?:pub )?(data|record) ([^\s:(){}]+)")
FIELD = re.compile(r"^ +(?:(?:abbrev|unfoldable|pub)\s+)*([^\s:(){}]+)\s*:(?!=)")
TOKEN = re.compile(r"[^\s(){}\[\].;,\"`:]+")
IMPORT = re.compile(r"use ([^\s{}]+?)\.\{([^}]*)\}", re.S)
STEP = re.compile(r"(?:(?<![\w'])c|before)\.$")


def files(*ends):
    for top in ("crates", "docs", "README.md"):
        if os.path.isfile(top):
            yield top
        for folder, dirs, names in os.walk(top):
            dirs[:] = sorted(d for d in dirs if d != "out")
            for name in sorted(names):
                if name.endswith(ends):
                    yield os.path.join(folder, name)


def declared():
    found = {}
    for path in files(".antt"):
        if not path.endswith(".antt") or path.endswith("/Proof.antt"):
            continue
        with open(path, encoding="utf-8") as f:
            for line in f:
                it = SHAPE.match(line) or DECLARED.match(line) or FIELD.match(line)
                if it:
                    found.setdefault(it.group(it.lastindex), set()).add(path)
    return found


def plain(name):
    if not name[0].islower():
        return name
    parts = re.sub(r"(?<=[a-z0-9])([A-Z])", lambda m: "_" + m.group(1).lower(), name)
    return re.sub(r"([A-Z])", lambda m: m.group(1).lower(), parts.replace("-", "_"))


def spelled(names):
    """Old and new spelling. Where a lemma would get its function's name, it gets _lem behind it."""
    turned = {}
    camel = {plain(n) for n in names if plain(n) != n and "-" not in n}
    for n in sorted(names):
        new = plain(n)
        if n in camel or ("-" in n and (new in camel or new in names)):
            new = plain(n) + "_lem"
        if new != n:
            turned[n] = new
    return turned


def outside(text, crates):
    """What a file imports from the toolchain: those names stay."""
    kept = set()
    for it in IMPORT.finditer(text):
        head = it.group(1).split(".")
        if head[0] == "Rattle" and len(head) > 1 and head[1] in crates:
            continue
        kept |= {w.split(" as ")[0].strip() for w in it.group(2).split(",")}
    return kept


def main(say):
    crates = set(os.listdir("crates"))
    names = declared()
    turned = spelled(names)
    # in code and pages only what no word of the code can be: a dash or a capital inside
    turned_in_code = {n for n in turned if plain(n) != n}
    back = {}
    for old in list(turned) + [n for n in names if n not in turned]:
        back.setdefault(turned.get(old, old), set()).add(old)
    for new, olds in sorted(back.items()):
        if len(olds) > 1:
            print("fall together:", new, {o: sorted(names[o]) for o in sorted(olds)})
    for path in files(".antt", ".rt", ".edit", ".md"):
        with open(path, encoding="utf-8") as f:
            text = f.read()
        kept = outside(text, crates)
        for w in sorted(kept):
            if w in back and back[w] != {w} and path.endswith((".antt", ".rt")) and any(re.search(r"(?<![\w-])" + re.escape(o) + r"(?![\w-])", text) for o in back[w]):
                print("meets the toolchain's:", path, w, sorted(back[w]))
        def turn(m, t=text):
            w = m.group(0)
            if w in kept or (path.endswith("/Proof.antt") and STEP.search(t[max(0, m.start() - 8) : m.start()])):
                return w
            if not path.endswith(".antt") and w not in turned_in_code:
                return w
            return turned.get(w, w)

        if path.endswith(".md"):
            new = re.sub(r"`[^`\n]*`", lambda q: TOKEN.sub(lambda m: turned.get(m.group(0), m.group(0)) if m.group(0) in turned_in_code else m.group(0), q.group(0)), text)
        elif path.endswith(".rt"):
            new = "".join(l if '"' in l and "ensures" not in l and "requires" not in l else TOKEN.sub(turn, l) for l in text.splitlines(keepends=True))
        else:
            new = TOKEN.sub(turn, text)
        if new != text and not say:
            with open(path, "w", encoding="utf-8") as f:
                f.write(new)
    print(len(turned), "names respelled")


if __name__ == "__main__":
    main("-n" in sys.argv[1:])
