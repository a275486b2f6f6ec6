"""Why a quote was rejected, or what was left of an entry cancelled: the rule and the two figures that it compares.

    m place rule first second       of a report that is a rejection or a cancellation
    m place none                    of every other report: there is no reason to give

Document 02, first request.  The first figure is the entry's own, the second what it is held
against.  Every test that is put to an entry stands here with its figures, in document 01's
order, so that the true reason is the first of them that holds.  `protection_tests` are put to
the book that a quote finds; `posting_tests` to the book that the entry's trades have left, with
the quote that it replaces gone.  27 to 31 compare no prices and give two zeros.

The rules are worded for a buy and again for a sell, by price_rules.py; the model, which decides
by itself, has them once and mirrored.  So a slip in one of them shows against the other.
"""

import tools
import copy
from collections import namedtuple
from operator import ge, gt, le, lt

from packed import *
from price_rules import apart, best_bid, best_offer, buy_aims, lowest, sell_aims

# When a rule's comparison holds: of a buy, of a sell.  25 and 26 are for bids alone.
HOLDS = {25: (ge, None), 26: (ge, None), 24: (ge, ge), 20: (ge, le), 21: (ge, le), 23: (lt, gt), 22: (gt, gt)}


class Test(namedtuple("Test", "rule side first second")):
    """A rule put to an entry: the figure of its own, and what that is held against."""

    def holds(self):
        return HOLDS[self.rule][self.side](self.first, self.second)


# ---- what the tests ask of the book; 0 is no price

def shown(series, side):
    """The display prices of a side; a dark entry has none."""
    return [entry.display for entry in series.book if entry.side == side and entry.kind != DARK]


def undisplayed(series, side):
    """The working prices of a side's entries that are no displayed interest."""
    return [entry.working for entry in series.book if entry.side == side and entry.display != entry.working]


def working(series, side):
    return [entry.working for entry in series.book if entry.side == side]


# ---- price protection: "for quotes only, in the order here"

def bid_tests(series, bid):
    if not series.exempt and not series.put and series.underlying != 0:
        yield Test(25, BUY, bid, series.underlying)
    if not series.exempt and series.put:
        yield Test(26, BUY, bid, series.strike)
    nbo = best_offer(series.away_offer, min(shown(series, SELL), default=0))
    if 0 < nbo <= 100:
        yield Test(24, BUY, bid, nbo + 100)
    elif nbo > 100:
        yield Test(24, BUY, 2 * (bid - nbo), nbo)


def offer_tests(series, offer):
    nbb = best_bid(series.away_bid, max(shown(series, BUY), default=0))
    if nbb > 100:
        yield Test(24, SELL, 2 * (nbb - offer), nbb)


def protection_tests(series, entry):
    """The tests of price protection that are put to an entry: 25, 26, 24."""
    if entry.kind not in QUOTES:
        return []
    return list((bid_tests if entry.side == BUY else offer_tests)(series, entry.limit))


# ---- "What is left posts, unless, first that applies"

def buy_posting_tests(series, kind, limit):
    if kind not in SLIDING:
        if series.away_offer != 0:
            yield Test(20, BUY, limit, series.away_offer)
        if kind == MMLO and undisplayed(series, SELL):
            yield Test(21, BUY, limit, min(undisplayed(series, SELL)))
        return
    lowest_sell = min(working(series, SELL), default=0)
    display, _ = buy_aims(series.m, kind, limit, series.away_offer, lowest_sell)
    yield Test(23, BUY, display, lowest(series.m))
    yield Test(22, BUY, apart(series.m, display, limit), series.k)


def sell_posting_tests(series, kind, limit):
    if kind not in SLIDING:
        if series.away_bid != 0:
            yield Test(20, SELL, limit, series.away_bid)
        if kind == MMLO and undisplayed(series, BUY):
            yield Test(21, SELL, limit, max(undisplayed(series, BUY)))
        return
    highest_buy = max(working(series, BUY), default=0)
    display, _ = sell_aims(series.m, kind, limit, series.away_bid, highest_buy)
    yield Test(23, SELL, display, TOP_PRICE)
    yield Test(22, SELL, apart(series.m, limit, display), series.k)


def posting_tests(series, entry):
    """The tests that are put to what is left of an entry: 20, 21, 23, 22."""
    tests = buy_posting_tests if entry.side == BUY else sell_posting_tests
    return list(tests(series, entry.kind, entry.limit))


# ---- the reason, and the lines of the view

def all_tests(series, entry):
    """The tests put to a quote that is rejected with nothing traded: all of them to the book that it finds."""
    return protection_tests(series, entry) + posting_tests(series, entry)


def first_that_holds(tests):
    """The test that stops the entry, or None."""
    return next((test for test in tests if test.holds()), None)


def reason_of(report, tests):
    """(rule, first, second) of a report, or None: no reason to give.  `tests` are those put to the arriving entry."""
    kind, reason = report[:2]
    if kind not in (REJECTED, CANCELLED):
        return None
    if reason >= REPLACED:
        return reason, 0, 0
    test = first_that_holds(tests)
    assert test is not None and test.rule == reason, "the tests tell %s, the model %d" % (test, reason)
    return test.rule, test.first, test.second


def why(series, data, place, room=ROOM_NEEDED):
    """(refusal, reason) of one report of a message, its place counted from 0; the series stays as it is."""
    series = copy.deepcopy(series)
    refusal, reports = series.handle(data, room)
    if refusal != 0:
        return refusal, None
    if place >= len(reports):
        return 12, None
    return 0, reason_of(reports[place], series.tests)


def why_lines(number, refusal, reports, tests):
    """What is printed for message `number`: a line for each of its reports."""
    if refusal != 0:
        return ["%d refused %d" % (number, refusal)]
    lines = []
    for place, report in enumerate(reports):
        reason = reason_of(report, tests)
        lines.append("%d %d %s" % (number, place, "none" if reason is None else "%d %d %d" % reason))
    return lines


def why_words(line):
    """What a line says (the line itself if it is none of this view)."""
    words = line.split()
    if len(words) == 3 and words[2] == "none":
        return "report %s: no reason to give" % words[1]
    if len(words) != 5 or not all(word.isascii() and word.isdigit() for word in words):
        return line
    _, place, rule, first, second = words
    return "report %s: rule %s, %s against %s" % (place, rule, first, second)
