#!/usr/bin/env python3
"""How the tree is laid out: what docs/CHANGING.md asks and no prover does.

    python3 tests/layout.py      names each place that is not so, and fails if there is one

- In crates/ no line is longer than 160 columns; no file of it, no script and no program in C is longer than 400 lines.
- No proof counts its steps back (`.before`): it names the places that it reads.
- A kind is told by the table of crate kinds: no code compares a kind with a number of its own (0, the kind of an
  unused place, is none of the table's), and nothing but worked examples opens the table's rows.
"""

import re
import sys
from pathlib import Path

ROOT = Path(__file__).resolve().parent.parent
WIDTH, LENGTH = 160, 400
NUMBERED = re.compile(r"\bkind(?:_of\(\w+\))?\s*(?:==|!=|<=|>=|<|>)\s*[1-9]|[1-9]\d*\s*(?:<=|>=|<|>|==|!=)\s*\w+\.kind\b")
OPENED = {"crates/handler/proofs/Examples.antt", "crates/handler/proofs/Worked.antt"}


def faults_of(name, line):
    """What is wrong with a line of a file."""
    if len(line) > WIDTH:
        yield "%d columns" % len(line)
    if name.endswith(".antt") and re.search(r"\.before\b(?!-)", line):
        yield "counts steps by .before"
    if name.startswith("crates/kinds/") or name.startswith("crates/test_"):
        return
    if name.endswith(".rt") and NUMBERED.search(line):
        yield "a kind by its number"
    if name.endswith(".antt") and re.search(r"\brow_of\b", line) and name not in OPENED:
        yield "opens the table of kinds"


def files():
    """Rattle and its proofs; the scripts, and the programs in C."""
    yield from (path for path in ROOT.glob("crates/*/*/**/*") if path.suffix in (".rt", ".antt") and path.relative_to(ROOT).parts[2] != "out")
    for folder in ("tests", "teach", "c", "bench", ".ci"):
        yield from (path for path in ROOT.glob(folder + "/*") if path.is_file() and path.suffix in ("", ".py", ".sh", ".awk", ".c", ".h"))
    yield ROOT / "waxglimmer"


def faults():
    for path in sorted(files()):
        name, lines = str(path.relative_to(ROOT)), path.read_text().splitlines()
        if len(lines) > LENGTH:
            yield "%s: %d lines" % (name, len(lines))
        if name.startswith("crates/"):
            yield from ("%s:%d: %s" % (name, number, fault) for number, line in enumerate(lines, 1) for fault in faults_of(name, line))


def main():
    found = list(faults())
    print("\n".join(found) if found else "layout: the tree is laid out as it should be")
    sys.exit(bool(found))


if __name__ == "__main__":
    main()
