#!/usr/bin/env python3
"""Brings the names of this repository's own definitions and lemmas to the spelling of today's Rattle, after port.py: words in snake case.

usage: python3 tools/respell.py        at the top of the repository; rewrites the .antt and .rt files of crates/ in place, and says which names fell together

A part of a name, between its dashes, that is in camel case with a small first letter (cutQuote) is put in snake case (cut_quote). So are the two fields
of a record whose words a dash joined. Types, modules, functions of src/, strings and comments' plain words stay. It may be run again: then it finds nothing.
"""
import os
import re
import sys

CAMEL = re.compile(r"^[a-z][a-z0-9]*(?:[A-Z][a-z0-9]*)+'*$")
NAME = re.compile(r"[A-Za-z_][A-Za-z0-9_'₀-₉]*(?:-[A-Za-z0-9_'₀-₉]+)*")
FIELDS = {"party-low": "party_low", "party-high": "party_high"}
DECLARED = re.compile(r"^ *(?:(?:pub|abbrev|unfoldable) )*([A-Za-z_][A-Za-z0-9_'₀-₉-]*) :", re.M)


def snake(part):
    return re.sub(r"([A-Z])", lambda m: "_" + m.group(1).lower(), part) if CAMEL.match(part) else part


def respelled(name):
    return FIELDS.get(name) or "-".join(snake(p) for p in name.split("-"))


def files(root):
    for folder, dirs, names in os.walk(os.path.join(root, "crates")):
        dirs[:] = sorted(d for d in dirs if d not in ("out", "data"))
        for n in sorted(names):
            if n.endswith((".antt", ".rt")):
                yield os.path.join(folder, n)


def turned(text, rust):
    """The text with its names in the new spelling. Strings stay."""
    pieces = re.split(r'("(?:[^"\\\n]|\\.)*")', text) if rust else [text]
    for i in range(0, len(pieces), 2):
        pieces[i] = NAME.sub(lambda m: respelled(m.group(0)), pieces[i])
    return "".join(pieces)


def main():
    root = sys.argv[1] if len(sys.argv) > 1 else "."
    together, changed = [], 0
    for path in files(root):
        with open(path, encoding="utf-8") as f:
            text = f.read()
        declared = DECLARED.findall(text) if path.endswith(".antt") else []
        for old in sorted(set(declared)):
            new = respelled(old)
            if new != old and new in declared:
                together.append(f"{path}: {old} and {new}")
        new = turned(text, path.endswith(".rt"))
        if new != text:
            changed += 1
            with open(path, "w", encoding="utf-8") as f:
                f.write(new)
    print(f"respell: {changed} files changed")
    for line in together:
        print("respell: fall together: " + line)
    return 1 if together else 0


if __name__ == "__main__":
    sys.exit(main())
