#!/usr/bin/env python3
"""A plain model of document 01, with the steps of document 02, 2: one option series on one exchange.

    python3 tests/model.py [--no-checks] [--book | --why] [FILE]

prints what the session program must print for FILE (standard input without
FILE); with --book the book after each message (shown_book.py), with --why the
reason of each report (told_why.py).  The model is written from document 01
(what a reason tells: from document 02, 1; steps: from document 02, 2, in steps.py) and is meant to be read
beside it.  It favours the document's own words over speed.

The document words its rules for a buy and calls a sell the mirror image.  Here
the mirror is the function `seen`: a buy sees prices as they are, a sell sees
them negated.  Seen so, "higher" means more aggressive on both sides and each
rule is written once, for a buy.  Only rules that differ between the sides, or
name a fixed price, are spelled out as a pair.  One step is such a rule, since it
changes at 300: `behind` is one step down for a buy and one step up for a sell.
"""

import tools
import sys

from entries import Entry, behind, least, report, seen
from packed import *
from printed import view_lines
from soundness import promises_kept, unsound
from steps import legal, small, steps_between
from told_why import all_tests, posting_tests


# ---------------------------------------------------------------- the series

class Series:
    checks = True       # assert the document's promises at every message

    def __init__(self, put, exempt, m, k, strike):
        self.put, self.exempt, self.m, self.k, self.strike = put, exempt, m, k, strike
        self.phase = CLOSED
        self.away_bid = self.away_offer = self.underlying = 0
        self.blocked = set()
        self.book = []          # resting entries, in entry order
        self.given = 0          # the last entry number given
        self.last_rank = 0
        self.reports = []       # of the message being handled
        self.tests = []         # of that message: put to the entry that was stopped
        self.steps = {}         # of the message being handled: kind of step -> count

    # ---- what the rules ask of the book

    def resting(self, side):
        return [entry for entry in self.book if entry.side == side]

    def quote_of(self, maker, side):
        for entry in self.book:
            if entry.kind in QUOTES and entry.party == maker and entry.side == side:
                return entry
        return None

    def a(self, side):
        """A: for a buy the away offer, for a sell the away bid, as it sees it."""
        price = self.away_offer if side == BUY else self.away_bid
        return seen(side, price) if price != 0 else None

    def c(self, side):
        """C: for a buy the lowest working price of any sell, dark included."""
        return least(*[seen(side, entry.working) for entry in self.resting(1 - side)])

    def nbo(self, side):
        """NBO for a buy, NBB for a sell, as plain cents; None if there is none."""
        shown = [seen(side, entry.display) for entry in self.resting(1 - side)
                 if entry.kind != DARK]
        return seen(side, least(self.a(side), *shown))

    def aims(self, kind, side, limit):
        """Display and working aim of a sliding kind, as it sees prices."""
        l, a, c = seen(side, limit), self.a(side), self.c(side)
        behind_a, behind_c = behind(self.m, side, a), behind(self.m, side, c)
        if kind == MMALO:
            return least(l, behind_a, behind_c), least(l, a, behind_c)
        return least(l, behind_a), least(l, a)

    def marketable(self, entry):
        if entry.kind != MMRP:
            return False
        c = self.c(entry.side)
        return c is not None and self.aims(MMRP, entry.side, entry.limit)[1] >= c

    def resting_prices(self, entry):
        """Display and working price that a resting sliding entry should have."""
        display_aim, working_aim = self.aims(entry.kind, entry.side, entry.limit)
        display = max(seen(entry.side, entry.display), display_aim)
        working = max(display, working_aim)
        return seen(entry.side, display), seen(entry.side, working)

    # ---- what happens to entries

    def last_in_rank(self, entry):
        self.last_rank += 1
        entry.rank = self.last_rank

    def reprice(self, entry, display, working):
        entry.display, entry.working = display, working
        self.last_in_rank(entry)
        self.reports.append(report(REPRICED, 0, entry, 0, display, working, entry.quantity))

    def cancel(self, entry, reason):
        self.book.remove(entry)
        self.reports.append(report(CANCELLED, reason, entry, 0, entry.limit, 0, entry.quantity))

    def cancel_quote(self, maker, side, reason):
        quote = self.quote_of(maker, side)
        if quote is not None:
            self.cancel(quote, reason)

    def best_contra(self, side, worst, only_displayed):
        """The entry a taker trades with first, working at `worst` or better."""
        fitting = [entry for entry in self.resting(1 - side)
                   if seen(side, entry.working) <= worst
                   and (entry.displayed() or not only_displayed)]
        if not fitting:
            return None
        return min(fitting, key=lambda entry: (seen(side, entry.working),
                                               not entry.displayed(), entry.rank))

    def trade(self, taker, contra):
        """One trade, at the resting working price."""
        quantity = min(taker.quantity, contra.quantity)
        taker.quantity -= quantity
        contra.quantity -= quantity
        if contra.quantity == 0:
            self.book.remove(contra)
        if taker.quantity == 0 and taker in self.book:
            self.book.remove(taker)
        self.reports.append(report(TRADED, 0, taker, contra.number, contra.working, 0, quantity))

    # ---- a message

    def handle(self, data, room=ROOM_NEEDED):
        """(refusal, reports): refusal 0 and the reports, or a refusal and none."""
        if room < ROOM_NEEDED:
            return 10, []
        if unsound(self):
            return 11, []
        message = unpack_message(data)
        if message is None:
            return 1, []
        refusal = self.refusal(message)
        if refusal != 0:
            return refusal, []
        self.reports, self.tests, self.steps = [], [], {"easing": 0, "trade": 0, "move": 0}
        if message.kind in ENTERING:
            self.arrive(message)
        elif message.kind == CANCEL_ENTRY:
            self.cancel(self.own_entry(message), OWNER_ASKED)
        elif message.kind == CANCEL_QUOTE:
            self.cancel_quote(message.party, message.side, OWNER_ASKED)
        else:
            self.note(message)
        resting = len(self.book)
        if self.phase == OPEN:
            self.settle()
        if self.checks:
            assert promises_kept(self, resting) == "", promises_kept(self, resting)
        return 0, self.reports

    def own_entry(self, message):
        for entry in self.book:
            if entry.number == message.entry and entry.party == message.party:
                return entry
        return None

    def refusal(self, msg):
        """The first refusal that applies to an unpacked message, or 0."""
        kind, quote, entering = msg.kind, msg.kind in QUOTES, msg.kind in ENTERING
        if "party" in CARRIES[kind]:
            makers_only = quote or kind in (CANCEL_QUOTE, ENABLE)
            if not 1 <= msg.party <= (TOP_MAKER if makers_only else TOP_PARTY):
                return 2
        if entering and not legal(self.m, msg.price):
            return 3
        if kind == AWAY and not all(price == 0 or legal(self.m, price)
                                    for price in (msg.price, msg.second)):
            return 3
        if kind == UNDERLYING and msg.price > TOP_PRICE:
            return 3
        if entering and not 1 <= msg.quantity <= TOP_QUANTITY:
            return 4
        if kind == PHASE and msg.quantity > 2:
            return 4
        if entering:
            if self.phase != OPEN:
                return 5
            if quote and msg.party in self.blocked:
                return 6
            replaces = quote and self.quote_of(msg.party, msg.side) is not None
            if len(self.book) - (1 if replaces else 0) >= BOOK_SIZE:
                return 7
            if self.given >= TOP_ENTRY:
                return 9
        if kind == CANCEL_ENTRY and self.own_entry(msg) is None:
            return 8
        if kind == CANCEL_QUOTE and self.quote_of(msg.party, msg.side) is None:
            return 8
        return 0

    def note(self, msg):
        """Away prices, underlying, phase, enabling."""
        self.reports.append(report(NOTED))
        if msg.kind == AWAY:
            self.away_bid, self.away_offer = msg.price, msg.second
        elif msg.kind == UNDERLYING:
            self.underlying = msg.price
        elif msg.kind == ENABLE:
            self.blocked.discard(msg.party)
        else:
            self.phase = msg.quantity
            for entry in list(self.book):
                if self.phase == CLOSED or (self.phase == HALTED and entry.kind in QUOTES):
                    self.cancel(entry, PHASE_ENDED)

    # ---- arrival

    def arrive(self, msg):
        self.given += 1
        entry = Entry(self.given, msg.kind, msg.party, msg.side, msg.price, msg.quantity)
        quote = entry.kind in QUOTES
        if quote:
            reason = self.protection(entry)
            if reason != 0:
                self.reject(entry, reason)
                return

        # Trading is played on a list of reports of its own: whether a quote is
        # rejected, or replaces its forerunner first, shows only afterwards.
        before, self.reports = self.reports, []
        if entry.kind != MMALO:
            self.take(entry)
        trades, self.reports = self.reports, before
        reason = self.stopped(entry) if entry.quantity > 0 else 0

        if quote and reason != 0 and not trades:
            self.reject(entry, reason)
            return
        if quote:
            self.cancel_quote(entry.party, entry.side, REPLACED)
        self.reports += trades
        if entry.quantity == 0:
            return
        if reason != 0:
            self.tests = posting_tests(self, entry)
            self.book.append(entry)
            self.cancel(entry, reason)
            if quote:
                self.cancel_quote(entry.party, 1 - entry.side, OPPOSITE_SIDE)
            return
        if entry.kind in SLIDING:
            display, working = self.aims(entry.kind, entry.side, entry.limit)
            entry.display, entry.working = seen(entry.side, display), seen(entry.side, working)
        self.book.append(entry)
        self.last_in_rank(entry)
        self.reports.append(report(RESTED, 0, entry, 0, entry.display, entry.working,
                                   entry.quantity))

    def protection(self, quote):
        """The price protection that stops a quote: 25, 26, 24, or 0."""
        price, national = quote.limit, self.nbo(quote.side)
        if quote.side == BUY and not self.exempt:
            if not self.put and self.underlying != 0 and price >= self.underlying:
                return 25
            if self.put and price >= self.strike:
                return 26
        if national is None:
            return 0
        if quote.side == BUY:
            if national <= 100:
                return 24 if price >= national + 100 else 0
            return 24 if 2 * (price - national) >= national else 0
        if national <= 100:
            return 0
        return 24 if 2 * (national - price) >= national else 0

    def reject(self, quote, reason):
        self.tests = all_tests(self, quote)
        self.reports.append(report(REJECTED, reason, quote, 0, quote.limit, 0, quote.quantity))
        if reason in (25, 26):
            self.cancel_quote(quote.party, BUY, OWN_QUOTE_REJECTED)
            self.cancel_quote(quote.party, SELL, OWN_QUOTE_REJECTED)
            self.blocked.add(quote.party)
        else:
            self.cancel_quote(quote.party, quote.side, OWN_QUOTE_REJECTED)

    def take(self, entry):
        """Trade with contra entries at or below the lesser of L and A."""
        worst = least(seen(entry.side, entry.limit), self.a(entry.side))
        while entry.quantity > 0:
            contra = self.best_contra(entry.side, worst, entry.kind == MMLO)
            if contra is None:
                return
            self.trade(entry, contra)

    def stopped(self, entry):
        """Why what is left may not post: 20, 21, 23, 22, or 0."""
        side, l, a = entry.side, seen(entry.side, entry.limit), self.a(entry.side)
        if entry.kind not in SLIDING:
            if a is not None and l >= a:
                return 20
            if entry.kind == MMLO and any(seen(side, contra.working) <= l
                                          for contra in self.resting(1 - side)
                                          if not contra.displayed()):
                return 21
            return 0
        display = seen(side, self.aims(entry.kind, side, entry.limit)[0])
        if display < small(self.m) if side == BUY else display > TOP_PRICE:
            return 23
        return 22 if steps_between(self.m, entry.limit, display) > self.k else 0

    # ---- settling

    def settle(self):
        for entry in list(self.book):
            self.ease(entry)
        while True:
            entry = self.first_to_settle()
            if entry is None:
                return
            if self.marketable(entry):
                self.trade(entry, self.best_contra(entry.side, self.c(entry.side), False))
                self.steps["trade"] += 1
            else:
                self.reprice(entry, *self.resting_prices(entry))
                self.steps["move"] += 1

    def ease(self, entry):
        """A sliding buy working above A drops to the higher of its display and A."""
        a = self.a(entry.side)
        if entry.kind in SLIDING and a is not None and seen(entry.side, entry.working) > a:
            eased = seen(entry.side, max(seen(entry.side, entry.display), a))
            if eased != entry.working:
                self.reprice(entry, entry.display, eased)
                self.steps["easing"] += 1

    def first_to_settle(self):
        """The first sliding entry by entry number that has something to do."""
        for entry in self.book:
            if entry.kind in SLIDING:
                if self.marketable(entry):
                    return entry
                if (entry.display, entry.working) != self.resting_prices(entry):
                    return entry
        return None


# ---------------------------------------------------------------- the session program

def open_series(data):
    """The new series that setup bytes ask for, or None: no series."""
    setup = unpack_setup(data)
    return None if setup is None else Series(*setup)


def session(data, view="reports"):
    """Every line the session program prints for these bytes in a view: reports, book or why."""
    series = open_series(data[:4])
    if series is None:
        return ["0 refused 1"]
    lines = []
    for number, message in enumerate(messages_of(data), 1):
        answer = series.handle(message)
        lines += view_lines(view, number, answer, series)
    return lines


def books(data):
    return session(data, "book")


def main(arguments):
    Series.checks = "--no-checks" not in arguments
    view = "book" if "--book" in arguments else "why" if "--why" in arguments else "reports"
    paths = [word for word in arguments if word not in ("--no-checks", "--book", "--why")]
    if len(paths) > 1 or paths and paths[0].startswith("--"):
        sys.exit("usage: model.py [--no-checks] [--book | --why] [FILE]")
    if paths:
        with open(paths[0], "rb") as file:
            data = file.read()
    else:
        data = sys.stdin.buffer.read()
    for line in session(data, view):
        print(line)


if __name__ == "__main__":
    main(sys.argv[1:])
