#!/usr/bin/env python3
"""Makes sessions in which most entries are stopped, by every rule and at every edge.

    python3 tests/why_sessions.py SEED COUNT

writes one session, a setup and COUNT messages, to standard output; the same seed and count give
the same bytes.  A session is a row of scenes, each on a new book: away prices, an underlying, a
few entries on a side or both, dark and half displayed ones among them, and then quotes and orders
that are to be stopped.  Where nothing else is said, many such entries are at hand at prices where
a rule begins to hold or just does not, and the one is sent whose rules were sent least: the tests
with their figures (told_why.py) say which hold.

Scenes are told for a buy that is stopped by sells; for a sell `seen` turns the prices round.
"""

import tools
import sys
from collections import Counter

from entries import Entry, least, seen
from generate import Generator
from model import Series
from packed import *
from steps import THREE_DOLLARS, climbed, small, step_at
from told_why import all_tests

CHOICES = 16            # entries at hand, of which one is sent


class WhySession(Generator):
    def __init__(self, seed, count):
        super().__init__("why %s" % seed, count, "mixed")
        self.tried = Counter()

    def setup(self):
        """A setup, and where the scenes play: about 100, where 24 changes, about 300, where the step does, at the ends or anywhere."""
        rng = self.rng
        m, k = rng.choice((1, 5)), rng.choice((0, 1, 2, 3, 3, 5, 5, 10, 20))
        self.places = [small(m), 50, 95, 100, climbed(m, 100, 1), 150, 200, 300, 400, climbed(m, TOP_PRICE, -1)]
        self.anchor, self.band = 100, rng.choice((2, 4, 8))
        strike = rng.choice((3, 120, 160, 205, 300, 1_000))
        return pack_setup(rng.randrange(2), int(rng.random() < 0.3), m, k, strike)

    def play(self):
        self.send(Message(PHASE, quantity=OPEN).pack())
        scenes = [self.anywhere, self.anywhere, self.at_an_end, self.priced_off, self.about_100, self.hidden,
                  self.own_hidden, self.protected, self.half_displayed, self.through, self.behind_many_trades, self.across_300]
        while True:
            for scene in self.rng.sample(scenes, len(scenes)):
                self.cleared()
                scene(self.rng.randrange(2))

    def cleared(self):
        """A new book, mostly, at another place; another underlying, also where nobody asks for it."""
        rng = self.rng
        self.anchor = self.legal(rng.choice(self.places))
        if rng.random() < 0.8:
            self.send(Message(PHASE, quantity=rng.choice((CLOSED, CLOSED, HALTED))).pack())
        self.send(Message(PHASE, quantity=OPEN).pack())
        if not self.series.put and not self.series.exempt or rng.random() < 0.3:
            price = rng.choice((0, TOP_PRICE, TOP_PRICE, self.anchor, self.anchor * 3 // 2, self.anchor + 100))
            self.send(Message(UNDERLYING, price=min(price, TOP_PRICE)).pack())

    # ---- what scenes are made of

    def near(self):
        return self.higher(self.anchor, self.rng.randint(-self.band, self.band))

    def away(self):
        """Away prices, each perhaps missing, now and then crossed."""
        rng = self.rng
        bid, offer = sorted((self.near(), self.near()))
        if rng.random() < 0.1:
            bid, offer = offer, bid
        self.send(Message(AWAY, price=rng.choice((0, bid, bid)), second=rng.choice((0, offer, offer))).pack())

    def away_for(self, side, price, other=0):
        """The away price that binds a side, and the other's, which is none if it is not named."""
        bid, offer = (other, price) if side == BUY else (price, other)
        self.send(Message(AWAY, price=bid, second=offer).pack())

    def enter_at(self, kind, side, price, quantity=2, party=None):
        """An entry; a maker that is blocked is mostly enabled first."""
        party = party or self.rng.choice(self.makers if kind in QUOTES else self.parties)
        if kind in QUOTES and party in self.series.blocked and self.rng.random() < 0.9:
            self.send(Message(ENABLE, party).pack())
        self.send(Message(kind, party, side, price, quantity).pack())

    def to_rest(self, kind, side):
        """A limit at which an entry rests, a sliding one apart from it where something binds."""
        bound = self.series.a(side) is not None or kind == MMALO and self.series.c(side) is not None
        return self.edge_of_k(kind, side) if kind in SLIDING and bound else self.passive(side)

    # ---- scenes

    def anywhere(self, _):
        """Away prices, entries of all kinds on both sides, and half the time other away prices."""
        rng, kinds = self.rng, [MMRP, MMRP, MMALO, MMALO, PLAIN, MMLO, ORDER, ORDER, DARK, DARK, DARK]
        self.away()
        for kind in rng.sample(kinds, rng.randint(4, len(kinds))):
            side = rng.randrange(2)
            self.enter_at(kind, side, self.to_rest(kind, side), rng.choice((1, 2, 3)))
        if rng.random() < 0.5:
            self.away()
        for _ in range(rng.randint(4, 8)):
            self.stopped()
        rng.choice((self.cancel, self.withdraw))()

    def at_an_end(self, side):
        """Sells rest at the small step, the lowest price, and the away offer comes onto it: no display fits before them."""
        rng = self.rng
        end = self.anchor = small(self.series.m) if side == BUY else TOP_PRICE
        self.away_for(side, 0)
        for kind in rng.sample((ORDER, DARK, PLAIN, MMRP), rng.randint(1, 3)):
            self.enter_at(kind, 1 - side, end)
        self.stopped(side)
        self.away_for(side, end)
        limits = [self.keener(side, end, steps) for steps in (0, self.series.k, self.series.k, 30)]
        self.enter_at(MMRP, side, rng.choice(limits), 500)
        asked = self.series.strike if self.series.put else self.series.underlying
        if side == BUY and asked:
            self.enter_at(rng.choice(SLIDING), BUY, self.higher(asked, 1), 500)
        self.stopped(side)

    def priced_off(self, side):
        """A maker's quote is the best bid, and an MMALO sell is priced off it.  The maker's next bid is rejected: with
        the first gone the MMALO slides, and the book that is left has other figures."""
        rng, k = self.rng, self.series.k
        maker, other = rng.sample(self.makers, 2)
        best = self.anchor
        self.away_for(1 - side, rng.choice((0, self.keener(side, best, -rng.randint(0, 3)))))
        self.enter_at(PLAIN, side, best, 5, maker)
        self.enter_at(MMALO, 1 - side, self.keener(side, best, -rng.randint(0, max(0, k - 1))), 5, other)
        draw, national = rng.random(), self.series.nbo(side)
        if draw < 0.4:
            self.enter_at(MMALO, side, self.keener(side, best, k + 1), 5, maker)
        elif draw < 0.8 and national is not None:
            self.enter_at(rng.choice(QUOTES), side, self.where_24_begins(side, national), 5, maker)
        else:
            self.stopped(side, maker)
        self.stopped(side)

    def about_100(self, _):
        """A sell up to 100, the others above: a bid that is tested by the one meets 24's other half behind it."""
        rng = self.rng
        self.away_for(BUY, 0)
        self.enter_at(rng.choice((ORDER, PLAIN, MMLO)), SELL, self.legal(rng.choice((100, rng.randint(60, 100)))))
        self.away_for(BUY, rng.choice((self.higher(100, 1), self.legal(rng.randint(110, 120)), 0)))
        for _ in range(rng.randint(0, 2)):
            self.enter_at(rng.choice((ORDER, DARK)), SELL, self.legal(rng.randint(101, 140)))
        self.enter_at(rng.choice(QUOTES), BUY, self.legal(rng.randint(155, 205)), 500)
        self.stopped(BUY)

    def hide(self, side):
        """Dark and half displayed sells at different prices, displayed ones between."""
        rng, best = self.rng, self.anchor
        self.away_for(1 - side, best)
        for kind in rng.sample((DARK, DARK, DARK, MMRP, MMRP, MMALO, ORDER, PLAIN), rng.randint(3, 8)):
            price = self.to_rest(kind, 1 - side) if kind in SLIDING else self.keener(side, best, rng.randint(0, 5))
            self.enter_at(kind, 1 - side, price)

    def hidden(self, side):
        """MMLO bids pass over what is not displayed; half the time below an away offer, or at it."""
        rng, best = self.rng, self.anchor
        self.hide(side)
        if rng.random() < 0.5:
            self.away_for(side, self.keener(side, best, rng.randint(2, 7)), best)
        for _ in range(rng.randint(1, 3)):
            self.enter_at(MMLO, side, self.keener(side, best, rng.randint(0, 5)), rng.choice((1, 9, 50)))

    def protected(self, side):
        """Bids at the edge of 24 by what is shown, where others are dark or work before their display."""
        rng = self.rng
        if side == SELL:
            self.anchor = self.legal(rng.choice((self.higher(100, 1), self.higher(100, 2), 120, 200, 400)))
        self.hide(side)
        for _ in range(2):
            national = self.series.nbo(side)
            if national is not None:
                self.enter_at(rng.choice(QUOTES), side, self.where_24_begins(side, national), 3)

    def own_hidden(self, side):
        """The same for a maker whose own half displayed sell is in the way: it goes with the rest of the bid."""
        rng, best, maker = self.rng, self.anchor, self.rng.choice(self.makers)
        self.away_for(1 - side, best)
        self.enter_at(MMRP, 1 - side, self.keener(side, best, -rng.randint(0, max(0, self.series.k - 1))), 5, maker)
        self.enter_at(ORDER, 1 - side, self.keener(side, best, rng.randint(1, 2)))
        if rng.random() < 0.5:
            self.enter_at(DARK, 1 - side, self.keener(side, best, rng.randint(2, 4)))
        self.enter_at(MMLO, side, self.keener(side, best, rng.randint(2, 3)), 50, maker)

    def half_displayed(self, side):
        """A sell that works before its display, and MMALO bids that are priced off it or off an away offer before it."""
        rng, k, best = self.rng, self.series.k, self.anchor
        self.away_for(1 - side, best)
        self.enter_at(rng.choice(SLIDING), 1 - side, self.keener(side, best, -rng.randint(0, max(0, k - 1))), 5)
        self.enter_at(MMALO, side, self.keener(side, best, rng.choice((k - 1, k, k + 1))), 5)
        before = self.keener(side, best, -rng.randint(0, 2))
        self.away_for(side, before, best)
        self.enter_at(MMALO, side, self.keener(side, before, rng.choice((k - 1, k, k + 1))), 5)

    def behind_many_trades(self, side):
        """The same as the next, with so many sells that the reason stands far behind."""
        for _ in range(self.rng.randint(10, 14)):
            self.enter_at(ORDER, 1 - side, self.keener(side, self.anchor, -self.rng.randint(0, 2)), 1, 50)
        self.away_for(side, self.anchor)
        self.enter_at(self.rng.choice((PLAIN, ORDER, MMLO)), side, self.keener(side, self.anchor, 1), 500)

    def across_300(self, side):
        """An away offer at 300 or before it, and sliding bids from beyond 300: K steps from their display, and one more."""
        rng, k = self.rng, self.series.k
        if self.series.put and not self.series.exempt and self.series.strike <= THREE_DOLLARS:
            side = SELL
        self.send(Message(UNDERLYING).pack())
        before = max(0, k - rng.randint(1, 3))
        self.away_for(side, self.keener(side, THREE_DOLLARS, -before))
        for steps in (k, k + 1, k + 1):
            self.enter_at(rng.choice(SLIDING), side, self.keener(side, THREE_DOLLARS, steps - before - 1), 5)

    def through(self, side):
        """Sells rest at the away offer and before it, and bids through it take them: what is left may not post."""
        rng, k = self.rng, self.series.k
        self.away_for(side, self.anchor)
        for kind in rng.sample((MMRP, MMRP, PLAIN, MMLO, MMLO, ORDER, DARK), 3):
            for contra in rng.sample((ORDER, PLAIN, DARK, MMLO), 2):
                self.enter_at(contra, 1 - side, self.keener(side, self.anchor, -rng.randint(0, 2)))
            steps = rng.choice((k, k, k + 1, k + 2)) if kind == MMRP else rng.randint(0, 3)
            self.enter_at(kind, side, self.keener(side, self.anchor, steps), 500)

    # ---- an entry that is to be stopped

    def stopped(self, side=None, maker=None):
        """The entry whose sort was sent least; of a side and a maker, if one is named."""
        rng = self.rng
        at_hand = [self.at_hand(side, QUOTES if maker else ENTERING + QUOTES) for _ in range(CHOICES)]
        kind, side, limit, sort = min(at_hand, key=lambda choice: self.tried[choice[-1]] + (0 if choice[-1][-1] else 5))
        self.tried[sort] += 1
        if kind in QUOTES and not maker:
            maker = rng.choice([entry.party for entry in self.series.book if entry.kind in QUOTES] + self.makers)
        self.enter_at(kind, side, limit, rng.choice((1, 5, 50)) if rng.random() < 0.3 else 500, maker)

    def at_hand(self, side, kinds):
        """Kind, side and limit of an entry, and its sort: the rules that hold for it, and whether it takes."""
        rng, series = self.rng, self.series
        kind, side = rng.choice(kinds), rng.randrange(2) if side is None else side
        limit = self.higher(rng.choice(self.edges(kind, side)), rng.choice((-1, 0, 0, 1)))
        worst = least(seen(side, limit), series.a(side))
        takes = kind != MMALO and series.best_contra(side, worst, kind == MMLO) is not None
        tests = all_tests(series, Entry(0, kind, 0, side, limit, 1))
        return kind, side, limit, (kind, side, takes, tuple(test.rule for test in tests if test.holds()))

    def edges(self, kind, side):
        """The prices at which some rule begins to hold."""
        series, contra = self.series, self.series.resting(1 - side)
        prices = [entry.working for entry in contra] + [entry.display for entry in contra if entry.display]
        away = series.away_offer if side == BUY else series.away_bid
        nationals = [price for price in (away, *prices) if price]
        protected = [self.where_24_begins(side, price) for price in nationals]
        asked = [series.strike if series.put else series.underlying] if side == BUY else []
        slid = [self.edge_of_k(kind, side)] * 3 if kind in SLIDING else []
        return nationals + protected + asked + slid + [self.near(), small(series.m), TOP_PRICE]

    def where_24_begins(self, side, national):
        if side == SELL:
            return self.legal(national // 2)
        edge = national + 100 if national <= 100 else national + (national + 1) // 2
        return self.legal(edge + step_at(self.series.m, edge) - 1)


def why_messages(seed, count):
    return WhySession(seed, count).session()


def main(arguments):
    if len(arguments) != 2 or not arguments[1].isdigit():
        sys.exit("usage: why_sessions.py SEED COUNT")
    Series.checks = False
    sys.stdout.buffer.write(why_messages(arguments[0], int(arguments[1])))


if __name__ == "__main__":
    main(sys.argv[1:])
