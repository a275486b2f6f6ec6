"""What the reasons of a comparison were: which rules, for which kinds and sides, by which figures.

`WANTED` names what must have been told.  A comparison that has not met one of these has not
tried the program with it, and fails.  Each name says the rule that was told and what was so.
"""

import tools
import copy
from collections import namedtuple

from entries import Entry, behind, seen
from model import open_series
from packed import *
from printed import view_lines
from steps import THREE_DOLLARS
from told_why import all_tests, first_that_holds, posting_tests, protection_tests
from words import KIND_WORDS, SIDE_WORDS

FIXED = (PLAIN, MMLO, ORDER, DARK)
PUT_TO = {20: FIXED, 21: (MMLO,), 22: SLIDING, 23: SLIDING, 24: QUOTES, 25: QUOTES, 26: QUOTES}
AFTER_TRADES = {20: FIXED, 21: (MMLO,), 22: (MMRP,), 23: (MMRP,)}
SIDES = {rule: (BUY,) if rule in (25, 26) else (BUY, SELL) for rule in PUT_TO}
# Which tests can hold at once for one entry: tests/README.md says which cannot.
PAIRS = {BUY: ((25, 24), (25, 20), (25, 21), (25, 23), (25, 22), (26, 24), (26, 20), (26, 21), (26, 23), (26, 22),
               (24, 20), (24, 21), (24, 23), (24, 22), (20, 21), (23, 22)),
         SELL: ((24, 20), (24, 21), (24, 23), (24, 22), (20, 21), (23, 22))}
PAIRS_AFTER_TRADES = ((20, 21), (23, 22))
HALVES = ("24 buy, NBO at most 100", "24 buy, NBO above 100", "24 sell, NBB above 100")
AT_100 = ("24 buy, NBO just 100", "24 buy, NBO a step above 100", "24 sell, NBB a step above 100")
BESTS = ("by the away price", "by a display", "by a display apart from its working price", "a dark entry before it")
IN_WAY = ("the best is dark", "the best is half displayed", "several prices in the way", "one beyond the limit too",
          "the best is neither first by number nor by rank", "the best is the maker's own")
AWAY_THERE = ("away price there", "no away price")
BOUND = ("bound by the contra price before the away price", "bound by the away price before the contra price",
         "the contra price is a half displayed one's")
# The limit lies on the one side of 300 and the display on the other: steps of both sizes are counted.
ACROSS = {1: "across 300 by steps of 1 and 5", 5: "across 300 by steps of 5 and 10"}
NO_TEST = ("an offer far below an NBB under 100", "an offer far below an NBB of just 100", "a bid with no NBO",
           "an offer with no NBB")
# Figures that would hold for another entry, setup or series: a rule that is not put is not told.
NOT_PUT = ("not 25: exempt", "not 25: a put", "not 25: an offer", "not 25: an order", "not 26: exempt", "not 26: a call",
           "not 24: an order", "not 21: no MMLO")

# One entry that was stopped: the test that stopped it and all that were put to it, the book that it
# found, the series that was left, and whether it had traded.
Stop = namedtuple("Stop", "entry test tests found series traded")


def wanted():
    """The name of everything that a comparison must have met."""
    for rule, kinds in PUT_TO.items():
        for side in SIDES[rule]:
            yield "%d %s alone" % (rule, SIDE_WORDS[side])
            yield from ("%d %s %s" % (rule, KIND_WORDS[kind], SIDE_WORDS[side]) for kind in kinds)
            yield from ("%d %s %s after trades" % (rule, KIND_WORDS[kind], SIDE_WORDS[side])
                        for kind in AFTER_TRADES.get(rule, ()))
            if rule not in (23, 24):
                yield "%d %s, at its edge" % (rule, SIDE_WORDS[side])
    yield from HALVES + AT_100
    yield from (half + ", at its edge" for half in HALVES)
    for side, word in enumerate(SIDE_WORDS):
        yield from ("%d %s before %d" % (first, word, later) for first, later in PAIRS[side])
        yield from ("%d %s before %d after trades" % (first, word, later) for first, later in PAIRS_AFTER_TRADES)
        yield from ("24 %s, %s" % (word, what) for what in BESTS)
        yield from ("21 %s, %s" % (word, what) for what in IN_WAY)
        yield from ("%d %s, %s" % (rule, word, what) for rule in (21, 22, 23, 24) for what in AWAY_THERE)
        yield from ("%d %s, the book left tells otherwise" % (rule, word) for rule in (21, 22, 24))
        yield from ("22 %s, %s" % (word, what) for what in BOUND)
        yield from ("22 %s, %s%s" % (word, what, at) for what in ACROSS.values() for at in ("", ", at its edge"))
        yield from ("%d %s" % (reason, word) for reason in range(REPLACED, PHASE_ENDED + 1))
    yield "a buy's rest, 24 holds only after its trades"
    yield "a rule's reason at place 10 or behind"
    yield from ("none: report %d" % kind for kind in (NOTED, TRADED, RESTED, REPRICED))
    yield from ("no test 24: %s" % what for what in NO_TEST)
    yield from NOT_PUT
    yield "refused"


# ---- what is so of one stop, as the entry sees prices: a higher one is keener for both sides

def contra(stop):
    return [entry for entry in stop.found if entry.side != stop.entry.side]


def away(stop):
    return stop.series.away_offer if stop.entry.side == BUY else stop.series.away_bid


def rule_names(stop):
    rule, side = stop.test.rule, SIDE_WORDS[stop.entry.side]
    yield "%d %s %s%s" % (rule, KIND_WORDS[stop.entry.kind], side, " after trades" if stop.traded else "")
    also = [test.rule for test in stop.tests if test.holds() and test != stop.test]
    if not also:
        yield "%d %s alone" % (rule, side)
    yield from ("%d %s before %d%s" % (rule, side, later, " after trades" if stop.traded else "") for later in also)
    if rule in (21, 22, 23, 24):
        yield "%d %s, %s" % (rule, side, AWAY_THERE[away(stop) == 0])
    if rule in (20, 21, 25, 26) and stop.test.first == stop.test.second \
            or rule == 22 and stop.test.first == stop.test.second + 1:
        yield "%d %s, at its edge" % (rule, side)


def names_of_24(stop):
    side = stop.entry.side
    sees = lambda price: seen(side, price)
    shown = [entry for entry in contra(stop) if entry.kind != DARK]
    best = min([sees(entry.display) for entry in shown], default=None)
    lit = best is not None and (away(stop) == 0 or best < sees(away(stop)))
    national = sees(best) if lit else away(stop)
    half = HALVES[2] if side == SELL else HALVES[national > 100]
    yield half
    if national in (100, 100 + stop.series.m):
        yield AT_100[HALVES.index(half)]
    step = sees(stop.entry.limit) - behind(stop.series.m, side, sees(stop.entry.limit))
    if stop.test.first - stop.test.second < (step if half == HALVES[0] else 2 * step):
        yield half + ", at its edge"
    yield "24 %s, %s" % (SIDE_WORDS[side], BESTS[lit])
    if lit and all(entry.display != entry.working for entry in shown if sees(entry.display) == best):
        yield "24 %s, %s" % (SIDE_WORDS[side], BESTS[2])
    if any(entry.kind == DARK and sees(entry.working) < sees(national) for entry in contra(stop)):
        yield "24 %s, %s" % (SIDE_WORDS[side], BESTS[3])


def names_of_21(stop):
    side, limit = stop.entry.side, seen(stop.entry.side, stop.entry.limit)
    hidden = [entry for entry in contra(stop) if entry.display != entry.working]
    prices = {seen(side, entry.working) for entry in hidden}
    best = [entry for entry in hidden if seen(side, entry.working) == min(prices)]
    way = [entry for entry in hidden if seen(side, entry.working) <= limit]
    told = (all(entry.kind == DARK for entry in best), all(entry.kind != DARK for entry in best),
            len([price for price in prices if price <= limit]) > 1, max(prices) > limit,
            min(way, key=lambda entry: entry.number) not in best and min(way, key=lambda entry: entry.rank) not in best,
            [entry.party for entry in best if entry.kind in QUOTES] == [stop.entry.party])
    yield from ("21 %s, %s" % (SIDE_WORDS[side], what) for what, so in zip(IN_WAY, told) if so)


def names_of_22(stop):
    side, entries, limit = stop.entry.side, contra(stop), stop.entry.limit
    display = next(test.first for test in stop.tests if test.rule == 23)
    if min(limit, display) < THREE_DOLLARS < max(limit, display):
        yield "22 %s, %s" % (SIDE_WORDS[side], ACROSS[stop.series.m])
        if stop.test.first == stop.test.second + 1:
            yield "22 %s, %s, at its edge" % (SIDE_WORDS[side], ACROSS[stop.series.m])
    if stop.entry.kind != MMALO or not entries:
        return
    c = min(seen(side, entry.working) for entry in entries)
    a = seen(side, away(stop)) if away(stop) != 0 else None
    if a is not None and a != c:
        yield "22 %s, %s" % (SIDE_WORDS[side], BOUND[a < c])
    best = [entry for entry in entries if seen(side, entry.working) == c]
    if (a is None or c < a) and all(entry.kind != DARK and entry.display != entry.working for entry in best):
        yield "22 %s, %s" % (SIDE_WORDS[side], BOUND[2])


def names_of_book_left(stop):
    """Where the series that is left would tell something else than the book that the test was put to."""
    left = (posting_tests if stop.traded else all_tests)(stop.series, stop.entry)
    if stop.test.rule in (21, 22, 24) and first_that_holds(left) != stop.test:
        yield "%d %s, the book left tells otherwise" % (stop.test.rule, SIDE_WORDS[stop.entry.side])
    if stop.traded and first_that_holds(protection_tests(stop.series, stop.entry)) and stop.entry.kind in QUOTES:
        yield "a buy's rest, 24 holds only after its trades"


def names_of_not_put(stop):
    """Which rules were not put to the entry, though their figures hold."""
    entry, series = stop.entry, stop.series
    quote = Entry(entry.number, MMLO, entry.party, entry.side, entry.limit, entry.quantity)
    above = series.underlying != 0 and entry.limit >= series.underlying
    tested_call = not series.exempt and not series.put
    bid = entry.side == BUY and entry.kind in QUOTES
    so = (bid and above and series.exempt and not series.put, bid and above and series.put and not series.exempt,
          entry.side == SELL and entry.kind in QUOTES and above and tested_call,
          entry.side == BUY and entry.kind in ORDERS and above and tested_call,
          bid and series.put and series.exempt and entry.limit >= series.strike,
          bid and not series.put and not series.exempt and entry.limit >= series.strike and stop.test.rule != 25,
          entry.kind in ORDERS and any(test.rule == 24 and test.holds() for test in protection_tests(series, quote)),
          entry.kind == PLAIN and any(test.rule == 21 and test.holds() for test in posting_tests(series, quote)))
    yield from (name for name, is_so in zip(NOT_PUT, so) if is_so)


def stop_names(stop):
    yield from rule_names(stop)
    yield from names_of_not_put(stop)
    yield from {21: names_of_21, 22: names_of_22, 24: names_of_24}.get(stop.test.rule, lambda stop: ())(stop)
    yield from names_of_book_left(stop)


# ---- a message, and a session

def entry_of(message, number):
    return Entry(number, message.kind, message.party, message.side, message.price, message.quantity)


def untested(series, found, message):
    """Where 24 is not put to a quote."""
    tests = protection_tests(found, entry_of(message, 0)) if message.kind in QUOTES else []
    if message.kind not in QUOTES or any(test.rule == 24 for test in tests):
        return
    bids = [entry.display for entry in found.book if entry.side == BUY and entry.kind != DARK]
    nbb = max(bids + [series.away_bid])
    if message.side == BUY:
        yield "no test 24: " + NO_TEST[2]
    elif nbb == 0:
        yield "no test 24: " + NO_TEST[3]
    elif 2 * (nbb - message.price) >= nbb:
        yield "no test 24: " + NO_TEST[nbb == 100]


def names(series, found, message, reports):
    """What one accepted message told; `found` is the series as it found it."""
    if message.kind in ENTERING:
        yield from untested(series, found, message)
    for place, (kind, reason, side, *_) in enumerate(reports):
        if kind not in (REJECTED, CANCELLED):
            yield "none: report %d" % kind
            continue
        if place >= 10 and reason < REPLACED:
            yield "a rule's reason at place 10 or behind"
        if reason >= REPLACED:
            yield "%d %s" % (reason, SIDE_WORDS[side])
        else:
            traded = any(fields[0] == TRADED for fields in reports[:place])
            yield from stop_names(Stop(entry_of(message, series.given), first_that_holds(series.tests), series.tests,
                                       found.book, series, traded))


def why_session(data, met):
    """The lines of view why for a session; `met` counts what they told."""
    series, lines = open_series(data[:4]), []
    if series is None:
        return ["0 refused 1"]
    for number, message in enumerate(messages_of(data), 1):
        found = copy.copy(series)
        found.book = [copy.copy(entry) for entry in series.book]
        answer = series.handle(message)
        lines += view_lines("why", number, answer, series)
        met.update(["refused"] if answer[0] != 0 else names(series, found, unpack_message(message), answer[1]))
    return lines


WANTED = tuple(wanted())


def amiss(met):
    """What was never told and had to be, and what was told that cannot be, such as a pair that cannot hold at once."""
    return ["never told: " + name for name in WANTED if met[name] == 0] \
        + ["told, though it cannot be: " + name for name in met if name not in WANTED]
