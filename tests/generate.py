#!/usr/bin/env python3
"""Makes hard sessions.

    python3 tests/generate.py SEED COUNT [FLAVOUR]

writes one session, a setup and COUNT messages, to standard output.  The same
seed, count and flavour give the same bytes.  Without FLAVOUR the seed chooses
one.  The generator plays the model along, so that it can aim at the prices that
matter just now: best prices, away prices, displays, the limits of K and of the
protections, all give or take a step; and half of the sessions play about 300,
where the step changes.
"""

import tools
import random
import sys

from aiming import Aiming
from model import Series, open_series, seen
from packed import *
from steps import climbed, large, small

# How often each kind of message is sent, by flavour; and what else sets it apart.
COMMON = {"quote": 40, "order": 12, "dark": 6, "cancel": 6, "withdraw": 4, "away": 20,
          "underlying": 1, "phase": 1, "enable": 1, "overreach": 3, "faulty": 6}
FLAVOURS = {
    "mixed": {},                                            # a bit of everything
    "slide": {"quote": 40, "order": 5, "dark": 3, "cancel": 1, "withdraw": 1, "away": 40,
              "phase": 0.3, "overreach": 1, "faulty": 1},   # many sliding quotes, moving prices
    "crowd": {},                                            # one side slides, rank shows
    "lock": {"quote": 50, "order": 20, "away": 15},         # a band of a few steps
    "step": {"away": 30, "overreach": 6},                   # a narrow band about 300
    "dark": {"quote": 40, "dark": 30, "away": 15, "overreach": 8},  # MMLO quotes among dark orders
    "low": {"away": 25},                                    # prices near the small step
    "high": {"away": 25},                                   # prices near 100,000
    "protect": {"quote": 55, "underlying": 12, "enable": 5, "away": 15,
                "dark": 10, "phase": 5},                    # reasons 24, 25, 26 and blocks
    "full": {"quote": 60, "order": 10, "cancel": 3, "withdraw": 2, "phase": 0.2, "underlying": 3},
    "ladder": {},                                           # long settlings
    "broken": {"faulty": 60, "phase": 8, "quote": 25, "away": 10},
    "setup": {},                                            # setups, most of them refused
}


class Generator(Aiming):
    def __init__(self, seed, count, flavour=None):
        self.rng = random.Random("%s/%s/%s" % (seed, count, flavour))
        self.flavour = flavour or self.rng.choice(sorted(FLAVOURS))
        self.count = count
        self.weights = {**COMMON, **FLAVOURS[self.flavour]}
        self.sent = []

    # ---- the session

    def session(self):
        rng, data = self.rng, self.setup()
        self.series = open_series(data)
        if self.series is None:
            return data + bytes(rng.randrange(256) for _ in range(rng.choice((0, 5, 22))))
        self.makers = sorted(rng.sample(range(1, 17), rng.choice((2, 3, 4, 6, 10, 16))))
        self.parties = rng.sample(range(17, 100), rng.choice((1, 2, 4))) + [rng.choice(self.makers)]
        if self.flavour in ("full", "slide", "crowd"):
            self.makers = list(range(1, 17))
        try:
            self.play()
        except StopIteration:
            pass
        return data + b"".join(self.sent)

    def setup(self):
        rng, flavour = self.rng, self.flavour
        m = rng.choice((1, 5))
        k = rng.choice((0, 1, 1, 2, 2, 3, 4, 5, 8, 10, 20, 50, 100))
        if flavour in ("slide", "crowd"):
            k = rng.choice((3, 5, 8, 20))
        elif flavour in ("ladder", "full"):
            k = rng.choice((5, 50, 100, 100))
        self.choose_band(m)
        strike = climbed(m, self.anchor, rng.choice((self.band, 2 * self.band, 0, 1))) + rng.randrange(2)
        exempt = rng.random() < {"protect": 0.1, "full": 0.4, "ladder": 1, "crowd": 1}.get(flavour, 0.7)
        setup = [rng.randrange(2), int(exempt), m, k, min(max(strike, 1), TOP_PRICE), 0]
        if flavour == "setup":
            spoilt = rng.choice((2, 3, 4, 5, None, None))
            if spoilt is None:
                setup[rng.choice((2, 3, 4))] = rng.choice((1, 5, 10, 100))
                setup[2] = rng.choice((1, 5, 5, setup[2] % 16))
                setup[3] = min(setup[3], 127)
            else:
                setup[spoilt] = rng.choice({2: (0, 2, 3, 4, 6, 9, 11, 15), 3: (101, 127),
                                            4: (0, 100_001, 131_071), 5: (1, 2, 3)}[spoilt])
            if rng.random() < 0.3:
                setup[2] = 10                               # legal once, by document 01 alone
            return join(setup, SETUP_WIDTHS)[:rng.choice((0, 1, 3, 4, 4, 4, 4, 4))]
        return join(setup, SETUP_WIDTHS)

    def send(self, data):
        """One more message; StopIteration when the session has its COUNT."""
        if len(self.sent) >= self.count:
            raise StopIteration
        if len(self.sent) == self.count - 1 and self.rng.random() < 0.3:
            data = data[:self.rng.randrange(1, 11)]         # a short last message
        self.sent.append(data)
        return self.series.handle(data)

    def play(self):
        rng = self.rng
        if rng.random() < 0.1:
            self.act()                                      # something before the opening
        self.send(Message(PHASE, quantity=OPEN).pack())
        if self.flavour != "ladder" and rng.random() < 0.8:
            self.away()
        while True:
            left = self.count - len(self.sent)
            if self.series.phase != OPEN and rng.random() < 0.8:
                if rng.random() < 0.3:
                    self.faulty()
                self.send(Message(PHASE, quantity=OPEN).pack())
            elif left == 6 and rng.random() < 0.7:
                self.sweep()
            elif self.flavour == "full" and len(self.series.book) < BOOK_SIZE:
                self.fill()
            elif self.flavour == "crowd" and rng.random() < 0.9:
                self.crowd(len(self.sent) // 100 % 2)
            elif self.flavour == "ladder" and (len(self.sent) < 3 or rng.random() < 0.2):
                self.ladder()
            else:
                self.act()

    def act(self):
        names = list(self.weights)
        name = self.rng.choices(names, [self.weights[name] for name in names])[0]
        getattr(self, name)()

    # ---- one message of each kind

    def enter(self, kind, party):
        side = self.rng.randrange(2)
        limit = self.limit(kind, side)
        quantity = self.quantity(side, limit)
        if kind in SLIDING:
            quantity = max(quantity, 200 if self.flavour == "slide" else self.rng.choice((1, 50)))
        elif self.flavour == "slide":
            quantity = min(quantity, 50)
        self.send(Message(kind, party, side, limit, quantity).pack())

    def quote(self):
        kinds = {"dark": (MMLO, MMLO, MMLO, MMALO, MMRP, PLAIN), "slide": SLIDING,
                 "protect": (PLAIN, MMLO, MMALO, MMRP)}
        kind = self.rng.choice(kinds.get(self.flavour, QUOTES + SLIDING + SLIDING))
        if self.series.blocked and self.rng.random() < 0.25:
            self.enable()
        self.enter(kind, self.rng.choice(self.makers))

    def order(self):
        self.enter(ORDER, self.rng.choice(self.parties))

    def dark(self):
        """A dark order, mostly inside the spread."""
        rng, bid, offer = self.rng, self.best(BUY), self.best(SELL)
        side = rng.randrange(2)
        if bid and offer and self.apart(bid, offer) > 1 and rng.random() < 0.6:
            price = self.higher(bid, rng.randrange(1, self.apart(bid, offer)))
        else:
            price = self.limit(DARK, side)
        self.send(Message(DARK, rng.choice(self.parties), side, price, self.quantity()).pack())

    def cancel(self):
        rng, book = self.rng, self.series.book
        if book and rng.random() < 0.8:
            entry = rng.choice(book)
            party = entry.party if rng.random() < 0.8 else rng.choice(self.makers + self.parties)
            number = entry.number
        else:
            party = rng.choice(self.makers + self.parties)
            number = rng.choice((0, 1, max(1, self.series.given), self.series.given + 1,
                                 1_000_000, 1_048_575, rng.randint(0, self.series.given)))
        self.send(Message(CANCEL_ENTRY, party, entry=number).pack())

    def withdraw(self):
        rng = self.rng
        quotes = [entry for entry in self.series.book if entry.kind in QUOTES]
        if quotes and rng.random() < 0.8:
            quote = rng.choice(quotes)
            self.send(Message(CANCEL_QUOTE, quote.party, quote.side).pack())
        else:
            self.send(Message(CANCEL_QUOTE, rng.choice(self.makers), rng.randrange(2)).pack())

    def away(self):
        """Move one away price or both: onto displays, through, off, crossed, missing."""
        rng, series = self.rng, self.series
        bid, offer = series.away_bid, series.away_offer
        draw = rng.random()
        sliding = [entry for entry in series.book if entry.kind in SLIDING]
        if bid and offer and draw < (0.4 if self.flavour in ("slide", "ladder") else 0.15):
            shift, squeeze = rng.choice((-2, -1, 1, 2)), rng.choice((1, 1, -1))
            bid, offer = self.higher(bid, shift), self.higher(offer, shift * squeeze)
            self.send(Message(AWAY, price=bid, second=offer).pack())        # both the same way, or to each other
            return
        if sliding and draw < 0.6:                          # about a sliding entry's prices
            entry = rng.choice(sliding)
            onto = rng.choice((entry.display, entry.display, entry.working, entry.limit))
            onto = self.keener(entry.side, onto, rng.choice((-1, 0, 0, 1, 2)))
            bid, offer = (bid, onto) if entry.side == BUY else (onto, offer)
        elif draw < 0.7:
            offer = self.near()
        elif draw < 0.85:
            bid = self.near()
        else:
            bid, offer = self.near(), self.near()
        if self.flavour == "low" and rng.random() < 0.3:
            bid, offer = 0, self.higher(0, rng.choice((1, 1, 2)))
        if self.flavour == "high" and rng.random() < 0.3:
            bid, offer = self.higher(TOP_PRICE, -rng.choice((0, 0, 1))), 0
        missing = 0.2 if self.flavour == "slide" else 0.1
        if rng.random() < missing:
            bid = 0
        if rng.random() < missing:
            offer = 0
        if bid and offer and bid >= offer and rng.random() < 0.6:
            bid, offer = offer, max(bid, self.higher(offer, 1))
        self.send(Message(AWAY, price=bid, second=offer).pack())

    def underlying(self):
        rng, m = self.rng, self.series.m
        top = self.best(BUY) or self.anchor
        price = rng.choice((0, top + rng.randint(-1, 2 * m), self.higher(self.anchor, self.band),
                            self.higher(self.anchor, 3 * self.band), TOP_PRICE))
        self.send(Message(UNDERLYING, price=min(max(price, 0), TOP_PRICE)).pack())

    def phase(self):
        self.send(Message(PHASE, quantity=self.rng.choice((0, 1, 1, 2, 2))).pack())

    def enable(self):
        blocked = sorted(self.series.blocked)
        self.send(Message(ENABLE, self.rng.choice(blocked or self.makers)).pack())

    def faulty(self):
        """A message with one, two or three faults, or bytes of no sense."""
        rng, series = self.rng, self.series
        if rng.random() < 0.1:
            self.send(bytes(rng.randrange(256) for _ in range(11)))
            return
        kind, side = rng.randint(1, 12), rng.randrange(2)
        fit = {"kind": kind, "party": rng.choice(self.makers), "side": side, "price": self.near(),
               "quantity": rng.choice((0, 1, 2)) if kind == PHASE else self.quantity(),
               "second": self.near(), "entry": rng.randint(0, series.given + 1)}
        fields = {name: fit[name] if name in CARRIES[kind] else 0 for name in fit if name != "kind"}
        filling = 0
        for _ in range(rng.choice((1, 1, 1, 2, 3))):
            fault = rng.choice(("kind", "party", "price", "price", "quantity", "quantity",
                                "second", "unused", "filling"))
            if fault == "kind" and rng.random() < 0.3:
                kind = rng.choice((0, 13, 14, 15))
            elif fault == "filling" and rng.random() < 0.5:
                filling = rng.randint(1, 31)
            elif fault == "unused" and rng.random() < 0.5:
                name = rng.choice(sorted(fields))
                fields[name] = max(fields[name], 1)
            elif fault in fields and fields[fault] != 0:
                fields[fault] = self.fault(fault)
            elif fault == "quantity" and kind == PHASE:
                fields["quantity"] = rng.choice((3, 4, 99_999, 131_071))
        values = [kind] + [fields[name] for name in MESSAGE_FIELDS[1:]] + [filling]
        self.send(join(values, MESSAGE_WIDTHS))

    def fault(self, name):
        rng, m = self.rng, self.series.m
        if name == "party":
            return rng.choice((0, 17, 99, 100, 127))
        if name == "quantity":
            return rng.choice((0, 100_000, 131_071))
        near = self.near()                                  # one small step on is no fault under 300
        return rng.choice((0, near + rng.randint(1, 9), near + small(m), near + small(m), small(m) - 1, 301, 305,
                           TOP_PRICE + large(m), 131_071))

    # ---- runs of messages

    def overreach(self):
        """The away price comes onto the best contra entry, or goes for an MMLO; a quote trades
        for more than there is and may not post its rest, by a maker who quotes the other side."""
        rng, series = self.rng, self.series
        quotes = [entry for entry in series.book if entry.kind in QUOTES]
        held = rng.choice(quotes) if quotes else None
        side, maker = (1 - held.side, held.party) if held else (BUY, rng.choice(self.makers))
        contra = self.best(1 - side)
        if contra is None:
            self.quote()
            return
        kind = rng.choice((PLAIN, MMLO, MMLO, MMRP, MMRP))
        other = rng.choice((0, self.passive(side)))
        if rng.random() < 0.8:
            onto = 0 if kind == MMLO else contra            # so that 21 has its turn
            bid, offer = (other, onto) if side == BUY else (onto, other)
            self.send(Message(AWAY, price=bid, second=offer).pack())
        through = rng.choice((0, 1, 2)) if kind != MMRP else rng.choice((0, series.k, series.k + 1))
        limit = self.keener(side, contra, through)
        here = sum(entry.quantity for entry in series.resting(1 - side)
                   if seen(side, entry.working) <= seen(side, limit))
        self.send(Message(kind, maker, side, limit, min(here + 5, TOP_QUANTITY)).pack())

    def fill(self):
        """One more entry that rests, far or near, until the book holds 64."""
        rng, series = self.rng, self.series
        if series.phase != OPEN:
            self.send(Message(PHASE, quantity=OPEN).pack())
            return
        if rng.random() < 0.15:
            self.act()
            return
        side = rng.randrange(2)
        kind = rng.choice(QUOTES + SLIDING + SLIDING + (ORDER, ORDER, DARK))
        party = rng.choice(self.makers if kind in QUOTES else self.parties)
        if kind in QUOTES and series.quote_of(party, side) is not None:
            kind = ORDER
        price = self.edge_of_k(kind, side) if kind in SLIDING and rng.random() < 0.5 \
            else self.passive(side)
        self.send(Message(kind, party, side, price, self.quantity()).pack())

    def crowd(self, side):
        """Many sliding quotes of one side, one away price that walks, small orders that hit."""
        rng, series, best = self.rng, self.series, self.best(side)
        draw, kind, limit, most = rng.random(), rng.choice(SLIDING), 0, 20
        if draw < 0.3 or best is None:
            party, limit = rng.choice(self.makers), self.edge_of_k(kind, side)
        elif draw < 0.4:
            party, kind, limit = rng.choice(self.parties), rng.choice(ORDERS), best
        elif draw < 0.6:
            party, kind, limit, side, most = rng.choice(self.parties), ORDER, best, 1 - side, 3
        if limit:
            self.send(Message(kind, party, side, limit, rng.randint(1, most)).pack())
            return
        away = seen(side, series.a(side) or seen(side, self.anchor))
        if self.apart(away, self.anchor) > self.band or rng.random() < 0.1:
            away = self.anchor
        away = self.higher(away, rng.choice((-2, -1, -1, 1, 1, 2)))
        self.send(Message(AWAY, price=away if side == SELL else 0,
                          second=away if side == BUY else 0).pack())

    def ladder(self):
        """Sliding quotes held apart by crossed away prices, orders behind; let go at once."""
        rng, k = self.rng, self.series.k
        gap, mirror = rng.randint(3, 20), rng.randrange(2)
        low, high = self.anchor, self.higher(self.anchor, gap)
        self.send(Message(PHASE, quantity=CLOSED).pack())
        self.send(Message(PHASE, quantity=OPEN).pack())
        self.send(Message(AWAY, price=high, second=low).pack())
        makers = [(maker, side) for side in (1 - mirror, mirror) for maker in range(1, 17)]
        if rng.random() < 0.3:
            rng.shuffle(makers)
        makers = makers[:rng.choice((32, 32, 32, 24, 10))]
        steep = rng.random() < 0.5      # the last quote, an MMRP, is to take rung after rung
        for maker, side in makers:
            through = rng.choice((k, rng.randint(1, 20), maker))
            kind, quantity = rng.choice((MMALO, MMALO, MMRP)), rng.choice((1, 1, 1, 2, 99_999))
            if steep and side == mirror:
                through = k
                kind, quantity = (MMALO, 1) if (maker, side) != makers[-1] else (MMRP, 99_999)
            elif steep:
                through, quantity = max(gap + 1 - maker, 0), 1
            display = self.higher(low, -1) if side == BUY else self.higher(high, 1)
            limit = self.keener(side, display, min(through, k))
            limit = min(limit, self.legal(low + (low - 1) // 2)) if side == BUY else max(limit, self.higher(high // 2, 1))    # short of 24
            self.send(Message(kind, maker, side, limit, quantity).pack())
        for rung in range(rng.choice((0, 10, 20, 32, 32))):
            side = mirror if rng.random() < 0.1 and not steep else 1 - mirror
            price = self.higher(low, -2 - rung) if side == BUY else self.higher(high, 2 + rung)
            self.send(Message(rng.choice(ORDERS), rng.choice(self.parties), side, price, rng.choice((1, 1, 3))).pack())
        for _ in range(rng.choice((0, 0, 0, 1, 2, 3))):
            self.away()
        self.send(Message(AWAY).pack())
        for _ in range(rng.randrange(12)):
            self.act()

    def sweep(self):
        """Show the book that is left, in the order it trades: sweep both sides, then close."""
        party = self.parties[0]
        self.send(Message(AWAY).pack())
        for side, price in ((SELL, small(self.series.m)), (BUY, TOP_PRICE)):
            self.send(Message(ORDER, party, side, price, TOP_QUANTITY).pack())
            self.send(Message(CANCEL_ENTRY, party, entry=self.series.given).pack())
        self.send(Message(PHASE, quantity=CLOSED).pack())


def generate(seed, count, flavour=None):
    return Generator(seed, count, flavour).session()


def main(arguments):
    if len(arguments) not in (2, 3) or (len(arguments) == 3 and arguments[2] not in FLAVOURS):
        sys.exit("usage: generate.py SEED COUNT [%s]" % "|".join(FLAVOURS))
    Series.checks = False
    sys.stdout.buffer.write(generate(arguments[0], int(arguments[1]), *arguments[2:]))


if __name__ == "__main__":
    main(sys.argv[1:])
