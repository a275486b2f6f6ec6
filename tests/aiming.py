"""The prices and quantities a generated session aims at.

Aiming knows the series being played (self.series), the generator's random
numbers (self.rng), its flavour, and a band of prices round an anchor: as many
steps to each side.
"""

import tools
from entries import behind, seen
from packed import *
from steps import THREE_DOLLARS, climbed, small, step_at, steps_between

QUANTITIES = (1, 1, 1, 2, 2, 3, 5, 7, 10, 20, 50, 100, 5_000, 99_998, 99_999)
OFFSETS = (-3, -2, -2, -1, -1, -1, 0, 0, 0, 0, 1, 1, 1, 2, 2, 3)


def moved(m, price, steps):
    """So many steps from a price, or from the one on the grid below it, as far as legal prices go."""
    on_grid = price - price % step_at(m, price)
    return min(max(climbed(m, on_grid, steps), small(m)), TOP_PRICE)


class Aiming:
    def choose_band(self, m):
        """The anchor and the band: every other session plays where the step changes."""
        rng, flavour = self.rng, self.flavour
        self.band = rng.choice((2, 3)) if flavour == "lock" else rng.choice((3, 5, 8, 12))
        self.anchor = moved(m, rng.choice((20, 40, 60, 99, 101, 150, 200, 500, 2_000)) * small(m), 0)
        about_300 = climbed(m, THREE_DOLLARS, rng.randint(-3, 3))
        if flavour == "low":
            self.anchor, self.band = climbed(m, 0, rng.choice((1, 2, 3, 5))), rng.choice((2, 3, 5))
        elif flavour == "high":
            self.anchor, self.band = climbed(m, TOP_PRICE, -rng.choice((0, 1, 2, 4))), rng.choice((2, 3, 5))
        elif flavour == "protect":
            self.anchor = moved(m, rng.choice((90, 100 + small(m), 200, 400, about_300)), 0)
        elif flavour == "ladder":
            self.anchor = climbed(m, THREE_DOLLARS, rng.choice((-20, -5, 0, 5, 200, 200, 200, 200)))
        elif flavour == "step":
            self.anchor, self.band = about_300, rng.choice((2, 3, 5))
        elif rng.random() < 0.5:
            self.anchor = about_300

    def legal(self, price):
        """The nearest legal price."""
        return moved(self.series.m, price, 0)

    def higher(self, price, steps):
        """A legal price so many steps higher; lower, where they are fewer than 0."""
        return moved(self.series.m, price, steps)

    def keener(self, side, price, steps):
        """A legal price so many steps more aggressive; less, where they are fewer than 0."""
        return self.higher(price, seen(side, steps))

    def apart(self, one, other):
        return steps_between(self.series.m, one, other)

    def best(self, side):
        prices = [seen(side, entry.working) for entry in self.series.resting(side)]
        return seen(side, max(prices)) if prices else None

    def near(self):
        """A price near one that matters now, in the band."""
        rng, series = self.rng, self.series
        points = [self.best(BUY), self.best(SELL), series.away_bid, series.away_offer]
        if series.book:
            entry = rng.choice(series.book)
            points += [entry.display or entry.working, entry.working]
        points = [point for point in points if point] + [self.anchor]
        price = self.higher(rng.choice(points), rng.choice(OFFSETS))
        if self.apart(price, self.anchor) > self.band and rng.random() < 0.8:
            price = self.higher(self.anchor, rng.randint(-self.band, self.band))
        return price

    def passive(self, side):
        """A price that does not trade: behind the own side's best."""
        series = self.series
        front = [behind(series.m, side, price) for price in (series.c(side), series.a(side)) if price is not None]
        top = min(front + [seen(side, self.anchor)])
        return self.keener(side, seen(side, top), -self.rng.randrange(self.band))

    def edge_of_k(self, kind, side):
        """A limit whose way to its display is up to K steps, or one more."""
        series = self.series
        farthest = TOP_PRICE if side == BUY else small(series.m)
        display = series.aims(kind, side, farthest)[0]
        inside = self.rng.randint(0, series.k)
        through = self.rng.choice((inside, inside, inside, series.k, series.k, series.k + 1))
        return self.keener(side, seen(side, display), through)

    def edge_of_protection(self, side):
        """A price where a protection begins or just does not."""
        rng, series = self.rng, self.series
        contra, edges = series.resting(1 - side), []
        nationals = [series.nbo(side), series.nbo(side)]
        if contra:                                          # what some take for it
            entry = rng.choice(contra)
            nationals += [entry.working, entry.display or None]
        national = rng.choice(nationals)
        if side == BUY:
            edges += [series.strike] if series.put else [series.underlying]
        if national is not None:
            half = national + national // 2 if side == BUY else national - national // 2
            edges += [half, half, national + 100 if side == BUY else half]
        if not edges:
            return self.near()
        return self.higher(rng.choice(edges), rng.choice((-1, 0, 0, 1)))

    def limit(self, kind, side):
        rng = self.rng
        draw = rng.random()
        if kind in SLIDING and draw < 0.5:
            return self.edge_of_k(kind, side)
        if kind in QUOTES and draw > {"protect": 0.6, "full": 0.9}.get(self.flavour, 0.97):
            return self.edge_of_protection(side)
        if draw < 0.5:
            return self.passive(side)
        contra = self.best(1 - side)
        if draw < 0.62 and contra:                           # through the book
            return self.keener(side, contra, rng.randint(0, 4))
        if draw > 0.985:
            return self.higher(0, rng.choice((1, 2))) if rng.random() < 0.67 else TOP_PRICE
        return self.near()

    def quantity(self, side=None, limit=0):
        """Any quantity; given a limit, now and then about what can be taken up to it."""
        rng, series = self.rng, self.series
        if side is not None and rng.random() < 0.2:
            here = sum(entry.quantity for entry in series.resting(1 - side)
                       if seen(side, entry.working) <= seen(side, limit))
            return min(max(here + rng.choice((-1, 0, 1, 10)), 1), TOP_QUANTITY)
        if rng.random() < 0.5:
            return rng.choice((1, 2, 3))
        return rng.choice(QUANTITIES + (rng.randint(1, TOP_QUANTITY),))
