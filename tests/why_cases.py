#!/usr/bin/env python3
"""Reasons worked out by hand from document 01 and document 02, 1 and 2, against what the model tells.

    python3 tests/why_cases.py

Under each message stands, indented, a line for each of its reports: its place, and the rule with
its two figures or `none`; or the refusal.  They were written from the document's text, before the
model was asked.  So were the answers on one report alone, with their refusals.  Then:

- on generated sessions, at every test that the model puts to an entry by its own rules, the first
  of the tests with figures that holds is the one that the model stops at, or neither stops it;
- the recorded lessons tell all that reasons_met.py wants, so that they try the program with it.
"""

import tools
import sys
from collections import Counter

from cases import every_lesson, read
from generate import FLAVOURS, generate
from model import Series, open_series, session
from packed import *
from reasons_met import amiss, why_session
from told_why import first_that_holds, posting_tests, protection_tests, why
from why_sessions import why_messages
from words import message_bytes, setup_bytes

CASES = {
    "bids of a call: 25, both halves of 24, then 20 and 22; the underlying lies off the grid": """
        call tested M 5 K 3 strike 200
        open
            0 none
        underlying 233
            0 none
        away none 100
            0 none
        plain buy 3 235 x 1
            0 25 235 233
        plain buy 4 230 x 1
            0 24 230 200
        plain buy 4 195 x 1
            0 20 195 100
        away none 105
            0 none
        mmrp buy 4 160 x 1
            0 24 110 105
        mmrp buy 4 155 x 1
            0 22 11 3
        mmrp buy 4 115 x 1
            0 none
        mmalo buy 4 120 x 1
            0 22 4 3
            1 30 0 0
        plain buy 3 50 x 1
            refused 6
        enable 3
            0 none""",
    "offers on a put: 24 above 100 and not up to it, 20 and 22; a display is the NBO that a bid meets": """
        put tested M 5 K 3 strike 300
        open
            0 none
        away 110 none
            0 none
        plain sell 3 50 x 1
            0 24 120 110
        plain sell 3 60 x 1
            0 20 60 110
        mmrp sell 3 100 x 1
            0 none
        mmrp sell 4 95 x 1
            0 22 4 3
        plain buy 5 300 x 1
            0 26 300 300
        mmlo buy 6 290 x 1
            0 24 350 115
        away 100 none
            0 none
            1 none
        plain sell 4 10 x 1
            0 20 10 100
        dark sell 50 100 x 1
            0 20 100 100
        plain sell 3 90 x 1
            0 20 90 100
            1 30 0 0""",
    "21: the best of those that nobody sees, after a trade and without; 20 before it": """
        call exempt M 1 K 10 strike 200
        open
            0 none
        dark sell 50 205 x 1
            0 none
        dark sell 51 203 x 1
            0 none
        order sell 52 204 x 2
            0 none
        plain sell 3 210 x 1
            0 none
        mmlo buy 3 206 x 5
            0 none
            1 21 206 203
            2 29 0 0
        mmlo buy 3 202 x 5
            0 none
        mmlo buy 3 203 x 5
            0 21 203 203
            1 30 0 0
        away none 204
            0 none
        mmlo buy 4 204 x 1
            0 20 204 204
        order buy 60 205 x 9
            0 none
            1 20 205 204
        away none 190
            0 none
        mmrp buy 5 192 x 4
            0 none
        dark buy 50 188 x 1
            0 none
        mmlo sell 6 188 x 3
            0 21 188 190
        away 191 none
            0 none
            1 none
        mmlo sell 6 191 x 6
            0 none
            1 20 191 191
        mmlo sell 6 188 x 3
            0 20 188 191
        away none none
            0 none
        mmlo sell 6 188 x 3
            0 21 188 188""",
    "23 and 22 at the ends, after a trade and without": """
        call exempt M 5 K 1 strike 200
        open
            0 none
        order sell 50 5 x 2
            0 none
        mmalo buy 3 10 x 1
            0 23 0 5
        away none 5
            0 none
        mmrp buy 3 5 x 5
            0 none
            1 23 0 5
        away none 10
            0 none
        mmrp buy 3 15 x 1
            0 22 2 1
        mmrp buy 3 10 x 1
            0 none
        away 100000 none
            0 none
            1 none
        mmrp sell 4 100000 x 1
            0 23 100010 100000
        mmalo sell 4 49990 x 1
            0 24 100020 100000
        mmalo sell 4 50010 x 1
            0 23 100010 100000""",
    "M 1: K counts small steps under 300 and large ones above, of a bid and of an offer": """
        call exempt M 1 K 3 strike 200
        open
            0 none
        away 297 300
            0 none
        mmrp buy 3 305 x 1
            0 none
        mmrp buy 4 310 x 1
            0 none
        mmrp buy 5 315 x 1
            0 22 4 3
        mmalo buy 5 301 x 1
            refused 3
        close
            0 none
            1 31 0 0
            2 31 0 0
        open
            0 none
        away 300 none
            0 none
        mmrp sell 3 299 x 1
            0 none
        mmrp sell 4 298 x 1
            0 none
        mmrp sell 5 297 x 1
            0 22 4 3
        mmalo buy 6 300 x 1
            0 none
        mmalo buy 6 310 x 1
            0 27 0 0
            1 none
        mmalo buy 6 315 x 1
            0 22 4 3
            1 30 0 0""",
    "M 5: the same, and off the large grid": """
        call exempt M 5 K 3 strike 200
        open
            0 none
        away 290 300
            0 none
        mmrp buy 3 320 x 1
            0 none
        mmrp buy 4 330 x 1
            0 22 4 3
        mmrp buy 4 305 x 1
            refused 3
        close
            0 none
            1 31 0 0
        open
            0 none
        away 300 none
            0 none
        mmrp sell 3 290 x 1
            0 none
        mmrp sell 4 285 x 1
            0 22 4 3
        mmrp sell 4 299 x 1
            refused 3
        away 300 315
            refused 3""",
    "27 to 31 compare nothing; a reason stands behind trades; refusals": """
        call exempt M 1 K 10 strike 200
        open
            0 none
        plain buy 3 90 x 1
            0 none
        plain sell 3 99 x 1
            0 none
        order sell 50 95 x 1
            0 none
        away none 97
            0 none
        plain buy 3 98 x 4
            0 27 0 0
            1 none
            2 20 98 97
            3 29 0 0
        plain buy 3 90 x 1
            0 none
        cancel 3 #5
            0 28 0 0
        plain buy 3 90 x 1
            0 none
        withdraw 3 buy
            0 28 0 0
        plain buy 3 90 x 1
            0 none
        order buy 50 91 x 1
            0 none
        halt
            0 none
            1 31 0 0
        order buy 50 91 x 1
            refused 5
        close
            0 none
            1 31 0 0
        bytes B0
            refused 1""",
    "24 is put to the book that a bid finds: behind its trade 134 would be at least 103": """
        call exempt M 1 K 10 strike 200
        open
            0 none
        order sell 50 98 x 1
            0 none
        away none 103
            0 none
        mmlo buy 3 170 x 3
            0 none
            1 20 170 103
        mmlo buy 3 170 x 3
            0 24 134 103""",
}

# One report of the last message alone: its place, the room, and what is answered.
BEFORE = "call exempt M 1 K 10 strike 200|open|away none 110|order sell 50 108 x 2"
TRADES = "plain buy 3 110 x 5"              # trades 2, and its rest is cancelled: two reports
ONE_REPORT = (
    (TRADES, 0, ROOM_NEEDED, (0, None)),
    (TRADES, 1, ROOM_NEEDED, (0, (20, 110, 110))),
    (TRADES, 2, ROOM_NEEDED, (12, None)),
    (TRADES, 4_294_967_295, ROOM_NEEDED, (12, None)),
    (TRADES, 1, ROOM_NEEDED - 1, (10, None)),
    (TRADES, 2, 0, (10, None)),
    ("plain buy 17 110 x 5", 0, ROOM_NEEDED, (2, None)),
    ("plain buy 3 0 x 5", 99, ROOM_NEEDED, (3, None)),
    ("withdraw 3 buy", 1, ROOM_NEEDED, (8, None)),
    ("bytes B0 00", 99, ROOM_NEEDED, (1, None)),
    ("enable 3", 0, ROOM_NEEDED, (0, None)),
    ("enable 3", 1, ROOM_NEEDED, (12, None)),
    ("halt", 0, ROOM_NEEDED, (0, None)),
)


def read_case(text):
    """The bytes that a case says, and the lines written out below its messages."""
    data, expected, number = b"", [], -1
    for line in text.strip("\n").split("\n"):
        if line.startswith(" " * 12):
            expected.append("%d %s" % (number, line.strip()))
            continue
        data += message_bytes(line) if data else setup_bytes(line)
        number += 1
    return data, expected


def by_hand():
    """What differs from the reasons that were worked out by hand."""
    cases = [(name, *read_case(text)) for name, text in CASES.items()]
    cases.append(("a refused setup", bytes(4), ["0 refused 1"]))
    for name, data, expected in cases:
        lines = session(data, "why")
        for wanted, line in zip(expected + [""] * len(lines), lines + [""] * len(expected)):
            if wanted != line:
                yield "%s: '%s' in place of '%s'" % (name, line, wanted)
                break


def picture(series):
    """All that a series holds but what it keeps of its last message."""
    held = {name: value for name, value in vars(series).items() if name not in ("reports", "tests", "steps")}
    return {**held, "book": [vars(entry) for entry in series.book], "blocked": sorted(series.blocked)}


def one_report():
    """What differs where one report alone is asked for; the series must stay as it is."""
    setup, *messages = BEFORE.split("|")
    for line, place, room, wanted in ONE_REPORT + ((TRADES, 99, ROOM_NEEDED, (11, None)),):
        series = open_series(setup_bytes(setup))
        for message in messages:
            series.handle(message_bytes(message))
        if wanted[0] == 11:
            series.phase = 3
        before = picture(series)
        told = why(series, message_bytes(line), place, room)
        if told != wanted or picture(series) != before:
            yield "%s, place %d, room %d: %s in place of %s, or another series" % (line, place, room, told, wanted)


class Asked(Series):
    """The model; at each test that it puts to an entry, the tests with figures are put too."""
    asked, faults = Counter(), []

    def told(self, entry, reason, tests):
        first = first_that_holds(tests)
        self.asked[reason] += 1
        if (first.rule if first else 0) != reason:
            self.faults.append("#%d: %s, and the model says %d" % (entry.number, first, reason))
        return reason

    def protection(self, quote):
        return self.told(quote, super().protection(quote), protection_tests(self, quote))

    def stopped(self, entry):
        return self.told(entry, super().stopped(entry), posting_tests(self, entry))


def asked_beside():
    """Where the first test that holds is not what the model decides by."""
    sessions = [generate(seed, 200, flavour) for seed, flavour in enumerate(FLAVOURS, 1)]
    for data in sessions + [why_messages(seed, 200) for seed in range(1, 13)]:
        if unpack_setup(data[:4]) is not None:
            series = Asked(*unpack_setup(data[:4]))
            for message in messages_of(data):
                series.handle(message)
    for reason in (0, *range(20, 27)):
        if Asked.asked[reason] == 0:
            Asked.faults.append("no session's entry was told %d" % reason)
    return Asked.faults


def lessons_tell():
    """What must be told and is in no lesson, or is told and cannot be."""
    met = Counter()
    for path in every_lesson("lessons"):
        why_session(read(path, "rb"), met)
    return ["the lessons: " + what for what in amiss(met)]


def main():
    Series.checks = False
    faults = [*by_hand(), *one_report(), *asked_beside(), *lessons_tell()]
    print("\n".join(faults[:40]) if faults else
          "why_cases: %d sessions and %d reports by hand, %d tests of generated sessions and the lessons are as they"
          " should be" % (len(CASES), len(ONE_REPORT) + 1, sum(Asked.asked.values())))
    sys.exit(bool(faults))


if __name__ == "__main__":
    main()
