"""Small words the model is written in: the mirror, binding prices, one step, entries, reports."""

import tools
from packed import *
from steps import down, up


def seen(side, price):
    """`price` as `side` sees it; also the way back. None, no price, stays."""
    return price if side == BUY or price is None else -price


def least(*prices):
    """The least of the prices that bind; None if none does."""
    binding = [price for price in prices if price is not None]
    return min(binding) if binding else None


def behind(m, side, price):
    """One step less aggressive than `price`, both as `side` sees them: a buy's step leads down, a sell's up. None stays."""
    if price is None:
        return None
    return seen(side, down(m, seen(side, price)) if side == BUY else up(m, seen(side, price)))


class Entry:
    """A quote or order: a dark one displays 0."""

    def __init__(self, number, kind, party, side, limit, quantity):
        self.number, self.kind, self.party, self.side = number, kind, party, side
        self.limit, self.quantity = limit, quantity
        self.display = 0 if kind == DARK else limit
        self.working = limit
        self.rank = 0

    def displayed(self):
        return self.display == self.working


def report(kind, reason=0, entry=None, other=0, price=0, second=0, quantity=0):
    """A report's nine fields in order."""
    if entry is None:
        return (kind, reason, 0, 0, 0, other, price, second, quantity)
    return (kind, reason, entry.side, entry.party, entry.number, other, price, second, quantity)
