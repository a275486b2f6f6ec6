#!/usr/bin/env python3
"""Books worked out by hand from document 01 and the steps of document 02, 2, against what the model shows.

    python3 tests/book_cases.py

Under each message stands, indented, a line for each entry that then rests, oldest first:
side, place, entry, party, kind, limit, display, working price, quantity.  They were written
from the document's text, before the model was asked.  Then, on generated sessions: the entry
that no other of its side trades before is the one that the model's own taker meets first.
"""

import sys

from generate import FLAVOURS, generate
from model import Series, books, messages_of, open_series
from shown_book import place_of
from words import message_bytes, setup_bytes

CASES = {
    "sells: price, then displayed before dark, then rank; a part traded keeps its rank": """
        call exempt M 1 K 10 strike 200
        open
        dark sell 50 221 x 10
            1 0 1 50 6 221 0 221 10
        order sell 51 222 x 5
            1 0 1 50 6 221 0 221 10
            1 1 2 51 5 222 222 222 5
        order sell 52 221 x 7
            1 1 1 50 6 221 0 221 10
            1 2 2 51 5 222 222 222 5
            1 0 3 52 5 221 221 221 7
        plain sell 3 221 x 1
            1 2 1 50 6 221 0 221 10
            1 3 2 51 5 222 222 222 5
            1 0 3 52 5 221 221 221 7
            1 1 4 3 1 221 221 221 1
        order buy 64 221 x 5
            1 2 1 50 6 221 0 221 10
            1 3 2 51 5 222 222 222 5
            1 0 3 52 5 221 221 221 2
            1 1 4 3 1 221 221 221 1
        cancel 3 #4
            1 1 1 50 6 221 0 221 10
            1 2 2 51 5 222 222 222 5
            1 0 3 52 5 221 221 221 2
        order sell 53 0 x 1
            1 1 1 50 6 221 0 221 10
            1 2 2 51 5 222 222 222 5
            1 0 3 52 5 221 221 221 2
        bytes 50
            1 1 1 50 6 221 0 221 10
            1 2 2 51 5 222 222 222 5
            1 0 3 52 5 221 221 221 2""",
    "buys: the highest first; both sides counted each by itself; an empty book says nothing": """
        call exempt M 1 K 10 strike 200
        order buy 60 199 x 3
        open
        order buy 60 199 x 3
            0 0 1 60 5 199 199 199 3
        dark buy 61 200 x 4
            0 1 1 60 5 199 199 199 3
            0 0 2 61 6 200 0 200 4
        order sell 62 201 x 9
            0 1 1 60 5 199 199 199 3
            0 0 2 61 6 200 0 200 4
            1 0 3 62 5 201 201 201 9
        order buy 62 200 x 2
            0 2 1 60 5 199 199 199 3
            0 1 2 61 6 200 0 200 4
            1 0 3 62 5 201 201 201 9
            0 0 4 62 5 200 200 200 2
        dark buy 63 200 x 1
            0 3 1 60 5 199 199 199 3
            0 1 2 61 6 200 0 200 4
            1 0 3 62 5 201 201 201 9
            0 0 4 62 5 200 200 200 2
            0 2 5 63 6 200 0 200 1
        close
        open""",
    "buys that slide: half displayed; eased and moved, each time last in rank": """
        call exempt M 1 K 10 strike 200
        open
        away 200 220
        mmrp buy 3 225 x 50
            0 0 1 3 4 225 219 220 50
        order buy 50 219 x 2
            0 0 1 3 4 225 219 220 50
            0 1 2 50 5 219 219 219 2
        away 200 219
            0 0 2 50 5 219 219 219 2
            0 1 1 3 4 225 219 219 50
        mmlo buy 4 218 x 3
            0 0 2 50 5 219 219 219 2
            0 1 1 3 4 225 219 219 50
            0 2 3 4 2 218 218 218 3
        mmalo buy 5 226 x 1
            0 0 2 50 5 219 219 219 2
            0 1 1 3 4 225 219 219 50
            0 3 3 4 2 218 218 218 3
            0 2 4 5 3 226 218 219 1
        away 200 221
            0 2 2 50 5 219 219 219 2
            0 3 3 4 2 218 218 218 3
            0 0 1 3 4 225 220 221 50
            0 1 4 5 3 226 220 221 1""",
    "sells that slide: dark and half displayed by rank, behind the displayed one at that price": """
        call exempt M 1 K 10 strike 200
        open
        dark sell 51 200 x 2
            1 0 1 51 6 200 0 200 2
        order sell 50 200 x 1
            1 1 1 51 6 200 0 200 2
            1 0 2 50 5 200 200 200 1
        away 200 none
            1 1 1 51 6 200 0 200 2
            1 0 2 50 5 200 200 200 1
        mmrp sell 3 195 x 5
            1 1 1 51 6 200 0 200 2
            1 0 2 50 5 200 200 200 1
            1 2 3 3 4 195 201 200 5
        order sell 52 201 x 4
            1 1 1 51 6 200 0 200 2
            1 0 2 50 5 200 200 200 1
            1 2 3 3 4 195 201 200 5
            1 3 4 52 5 201 201 201 4
        away 201 none
            1 1 1 51 6 200 0 200 2
            1 0 2 50 5 200 200 200 1
            1 2 4 52 5 201 201 201 4
            1 3 3 3 4 195 201 201 5
        order sell 52 201 x 0
            1 1 1 51 6 200 0 200 2
            1 0 2 50 5 200 200 200 1
            1 2 4 52 5 201 201 201 4
            1 3 3 3 4 195 201 201 5
        away none none
            1 2 1 51 6 200 0 200 2
            1 1 2 50 5 200 200 200 1
            1 3 4 52 5 201 201 201 4
            1 0 3 3 4 195 195 195 5""",
    "across 300: a step below the away offer, a step above the best buy": """
        call exempt M 1 K 10 strike 200
        open
        away none 300
        mmrp buy 3 305 x 5
            0 0 1 3 4 305 299 300 5
        order buy 50 299 x 2
            0 0 1 3 4 305 299 300 5
            0 1 2 50 5 299 299 299 2
        mmalo sell 4 299 x 1
            0 0 1 3 4 305 299 300 5
            0 1 2 50 5 299 299 299 2
            1 0 3 4 3 299 305 305 1
        away none 305
            0 1 2 50 5 299 299 299 2
            0 0 1 3 4 305 300 305 4
        away none 299
            0 1 2 50 5 299 299 299 2
            0 0 1 3 4 305 300 300 4""",
}


def read_case(text):
    """The bytes that a case says, and the lines written out below its messages."""
    data, expected, number = b"", [], -1
    for line in text.strip("\n").split("\n"):
        if line.startswith(" " * 12):
            expected.append("%d %s" % (number, line.strip()))
            continue
        data += message_bytes(line) if data else setup_bytes(line)
        number += 1
    return data, expected


def by_hand():
    """What differs from the books that were worked out by hand."""
    cases = [(name, *read_case(text)) for name, text in CASES.items()]
    cases.append(("a refused setup", bytes(4), ["0 refused 1"]))
    for name, data, expected in cases:
        lines = books(data)
        for wanted, line in zip(expected + [""] * len(lines), lines + [""] * len(expected)):
            if wanted != line:
                yield "%s: '%s' in place of '%s'" % (name, line, wanted)
                break


def met_first(seed, flavour):
    """Where the first place of a side is not who the model's own taker meets first."""
    data = generate(seed, 200, flavour)
    series = open_series(data[:4])
    for number, message in enumerate(messages_of(data), 1):
        series.handle(message)
        for side in (0, 1):
            first = [entry for entry in series.resting(side) if place_of(entry, series.book) == 0]
            met = series.best_contra(1 - side, float("inf"), False)
            if first != ([] if met is None else [met]):
                yield "generate.py %d 200 %s: side %d after message %d" % (seed, flavour, side, number)


def main():
    Series.checks = False
    faults = list(by_hand())
    flavours = [flavour for flavour in FLAVOURS if flavour != "setup"]      # of which few open a series
    for seed, flavour in enumerate(flavours, 1):
        faults += met_first(seed, flavour)
    print("\n".join(faults) if faults else
          "book_cases: %d books by hand and %d sessions are as they should be" % (len(CASES), len(flavours)))
    sys.exit(bool(faults))


if __name__ == "__main__":
    main()
