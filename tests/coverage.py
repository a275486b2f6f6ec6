#!/usr/bin/env python3
"""Counts what generated sessions reach.

    python3 tests/coverage.py [SESSIONS [MESSAGES [SEED]]]

plays generated sessions, in all flavours by turns, and says how often each
message kind, report kind, reason and refusal, each kind of settling step and a
few rare circumstances occur.  The last line names what never occurred.
"""

import tools
import sys
import time
from collections import Counter

from generate import FLAVOURS, generate
from model import open_series
from packed import *
from steps import THREE_DOLLARS, down, small, step_at, up

WANTED = (["kind %d" % kind for kind in range(1, 13)]
          + ["report %d" % kind for kind in range(1, 7)]
          + ["rejected %d" % reason for reason in range(20, 27)]
          + ["cancelled %d" % reason for reason in (*range(20, 24), *range(27, 32))]
          + ["order cancelled 20"]
          + ["refused %d" % number for number in range(1, 12)]
          + ["step easing", "step trade", "step move"]
          + ["refused setup", "short last message", "away missing", "away locked or crossed",
             "replaced in a full book", "refused 7: new quote", "refused 7: order",
             "traded with own quote", "maker's own opposite quote cancelled 29",
             "both quotes cancelled 30", "a quote filled at once", "blocked maker refused",
             "displayed before undisplayed at one price", "dark and sliding apart at one price",
             "sliding display apart from working", "display at the small step", "display at 100,000",
             "working at limit, display not", "move frees another", "settling of 10 steps",
             "settling of 100 steps", "taker held back by the away price",
             "cancel of another's entry", "two or more trades at arrival",
             "MMLO passes over undisplayed", "easing and move in one message",
             "sell side settles", "buy side settles"]
          + ["%s M %d, %s" % (side, m, what) for m in (1, 5) for side in ("buy", "sell")
             for what in ("working at 300 and display one step behind", "display at 300 and working one step past", "22 across 300")]
          + ["refused 3: on the small step alone"])


def look(counts, series, before, data, answer):
    """Count what one message did. `before` is {number: (side, quantity, ...)} beforehand."""
    refusal, reports = answer
    message = unpack_message(data)
    if len(data) < 11:
        counts["short last message"] += 1
    if refusal != 0:
        look_at_refusal(counts, series, before, message, refusal)
        return
    counts["kind %d" % message.kind] += 1
    look_at_reports(counts, series, before, message, reports)
    look_at_arrival(counts, series, before, message, reports)
    look_at_settling(counts, series, reports)
    look_at_book(counts, series)


def look_at_refusal(counts, series, before, message, refusal):
    counts["refused %d" % refusal] += 1
    if refusal == 3:
        counts["refused 3: on the small step alone"] += any(
            THREE_DOLLARS < price <= TOP_PRICE and price % small(series.m) == 0 and price % step_at(series.m, price) != 0
            for price in (message.price, message.second))
    if refusal == 7:
        counts["refused 7: %s" % ("new quote" if message.kind in QUOTES else "order")] += 1
    if refusal == 6:
        counts["blocked maker refused"] += 1
    if refusal == 8 and message.kind == CANCEL_ENTRY and message.entry in before:
        counts["cancel of another's entry"] += 1


def look_at_reports(counts, series, before, message, reports):
    for kind, reason, side, party, number, other, price, second, quantity in reports:
        counts["report %d" % kind] += 1
        if kind == REJECTED:
            counts["rejected %d" % reason] += 1
        if kind == CANCELLED:
            counts["cancelled %d" % reason] += 1
            if reason == 20 and message.kind in ORDERS:
                counts["order cancelled 20"] += 1
        if kind == TRADED and other in before and before[other].party == party \
                and before[other].kind in QUOTES and party <= TOP_MAKER:
            counts["traded with own quote"] += 1
        if kind == REPRICED:
            counts["%s side settles" % ("buy", "sell")[side]] += 1
        if kind in (RESTED, REPRICED) and price != 0:
            counts["sliding display apart from working"] += price != second
            counts["display at the small step"] += price == small(series.m) and price != second
            counts["display at 100,000"] += price == TOP_PRICE and price != second
            look_at_300(counts, series.m, side, price, second)
        if reason == 22:
            display = next(test.first for test in series.tests if test.rule == 23)
            counts["%s M %d, 22 across 300" % (("buy", "sell")[side], series.m)] += \
                min(price, display) < THREE_DOLLARS < max(price, display)


def look_at_300(counts, m, side, display, working):
    """Prices one step apart where the step changes."""
    back, on = (down, up) if side == BUY else (up, down)
    name = "%s M %d, " % (("buy", "sell")[side], m)
    counts[name + "working at 300 and display one step behind"] += (display, working) == (back(m, THREE_DOLLARS), THREE_DOLLARS)
    counts[name + "display at 300 and working one step past"] += (display, working) == (THREE_DOLLARS, on(m, THREE_DOLLARS))


def look_at_arrival(counts, series, before, message, reports):
    kinds = [fields[0] for fields in reports]
    reasons = [fields[1] for fields in reports]
    counts["replaced in a full book"] += len(before) == BOOK_SIZE and 27 in reasons
    counts["maker's own opposite quote cancelled 29"] += 29 in reasons
    counts["both quotes cancelled 30"] += reasons.count(30) == 2
    if message.kind in ENTERING:
        own = [fields for fields in reports if fields[0] == TRADED and fields[4] == series.given]
        counts["two or more trades at arrival"] += len(own) > 1
        counts["a quote filled at once"] += message.kind in QUOTES and bool(own) \
            and RESTED not in kinds and CANCELLED not in kinds
        if message.kind == MMLO and own and 21 in reasons:
            counts["MMLO passes over undisplayed"] += 1
        counts["taker held back by the away price"] += bool(own) and 20 in reasons
    if message.kind == AWAY:
        bid, offer = message.price, message.second
        counts["away missing"] += bid == 0 or offer == 0
        counts["away locked or crossed"] += bid != 0 and offer != 0 and bid >= offer


def look_at_settling(counts, series, reports):
    for name, number in series.steps.items():
        counts["step " + name] += number
    steps = sum(series.steps.values())
    counts["settling of 10 steps"] += steps >= 10
    counts["settling of 100 steps"] += steps >= 100
    counts["easing and move in one message"] += \
        series.steps["easing"] > 0 and series.steps["move"] > 0
    moved = [fields[4] for fields in reports if fields[0] == REPRICED]
    counts["move frees another"] += len(moved) != len(set(moved))


def look_at_book(counts, series):
    for entry in series.book:
        counts["working at limit, display not"] += entry.kind in SLIDING \
            and entry.working == entry.limit != entry.display
    places = {}
    for entry in series.book:
        places.setdefault((entry.side, entry.working), set()).add(
            "displayed" if entry.displayed() else entry.kind)
    counts["displayed before undisplayed at one price"] += any(
        "displayed" in place and len(place) > 1 for place in places.values())
    counts["dark and sliding apart at one price"] += any(
        DARK in place and place & {MMALO, MMRP} for place in places.values())


def main(arguments):
    sessions, messages, seed = ([int(word) for word in arguments] + [66, 200, 1][len(arguments):])
    counts, flavours, played, started = Counter(), list(FLAVOURS), 0, time.time()
    most_steps = most_reports = 0
    for number in range(sessions):
        data = generate(seed + number, messages, flavours[number % len(flavours)])
        series = open_series(data[:4])
        if series is None:
            counts["refused setup"] += 1
            continue
        for message in messages_of(data):
            before = {entry.number: entry for entry in series.book}
            answer = series.handle(message)
            look(counts, series, before, message, answer)
            played += 1
            most_reports = max(most_reports, len(answer[1]))
            most_steps = max(most_steps, sum(series.steps.values()))
    for name in WANTED:
        print("%-48s %7d" % (name, counts[name]))
    print("%d sessions, %d messages, %.1f seconds; most reports to a message %d, most steps %d"
          % (sessions, played, time.time() - started, most_reports, most_steps))
    print("never:", ", ".join(name for name in WANTED if counts[name] == 0))


if __name__ == "__main__":
    main(sys.argv[1:])
