"""Books to be damaged: entries, sound books of every kind at the places that matter, and a book in bytes.

Prices and steps are those of the ladder in price_rules.py (document 02, 2).  A picture is the count and 64 entries of 24 bytes:
number, limit, quantity, working price and display, then a byte each for party, kind, side and pricing (0 fixed, 1 dark, 2 sliding).
"""
import struct

from price_rules import LADDERS, MPVS, RUNGS, climbed

FIXED, DARK, SLIDING = 0, 1, 2
ZERO = dict(number=0, limit=0, quantity=0, working=0, display=0, party=0, kind=0, sell=0, pricing=FIXED)
BIG = 2 ** 32 - 1


def entry(kind, party, sell, limit, number, quantity=10, display=None, working=None):
    pricing = {5: FIXED, 1: FIXED, 2: FIXED, 6: DARK}.get(kind, SLIDING)
    display = (limit if display is None else display) if pricing == SLIDING else 0
    return dict(number=number, limit=limit, quantity=quantity, working=limit if working is None else working, display=display,
                party=party, kind=kind, sell=int(sell), pricing=pricing)


def book_of(m, given, resting):
    return dict(m=m, given=given, count=len(resting), entries=[dict(e) for e in resting] + [dict(ZERO) for _ in range(64 - len(resting))])


# Where the best bid of a book stands: by small steps, by large ones, and so that what slides stands across 300, a buy or a sell.
HOME = {1: 200, 5: 2000}
ACROSS = ((1, 305), (5, 195))


def steps_from(m, bid):
    """The price so many steps from the best bid; the best offer is 20 steps above it."""
    return lambda steps: climbed(m, bid, steps)


def base(m, bid=None):
    """A sound book with every kind on both sides, in an order of numbers that is not rising."""
    at = steps_from(m, bid or HOME[m])
    return book_of(m, 40, [
        entry(1, 1, 0, at(-3), 7), entry(2, 2, 1, at(22), 3), entry(3, 3, 0, at(4), 21, display=at(-2), working=at(-1)),
        entry(4, 4, 1, at(16), 12, display=at(22), working=at(21)), entry(5, 50, 0, at(-4), 13), entry(6, 60, 1, at(20), 14),
        entry(6, 61, 0, at(0), 15), entry(3, 5, 1, at(21), 1, display=at(23), working=at(23)),
        entry(4, 3, 1, at(25), 30, display=at(25)), entry(4, 16, 0, at(-5), 31), entry(5, 3, 1, at(26), 32)])


def random_book(rng, size=None):
    """A sound book; every other one has 300 between its prices."""
    m = rng.choice(MPVS)
    size = rng.randrange(0, 65) if size is None else size
    middle = LADDERS[m][rng.choice((RUNGS[m][300] + rng.randrange(10, 50), rng.randrange(200, 9000)))]
    numbers = rng.sample(range(1, 2000), size)
    if rng.random() < 0.5:
        numbers.sort()
    taken, resting = set(), []
    for number in numbers:
        sell, kind = rng.randrange(2), rng.choice((1, 2, 3, 4, 5, 5, 6))
        party = rng.randrange(1, 17)
        if kind <= 4 and (party, sell) in taken:
            kind = rng.choice((5, 6))
        if kind <= 4:
            taken.add((party, sell))
        else:
            party = rng.randrange(1, 100)
        away = 1 if sell else -1
        price = climbed(m, middle, away * rng.randrange(1, 60))
        if kind in (3, 4):
            limit = climbed(m, price, -away * rng.randrange(0, 5))
            resting.append(entry(kind, party, sell, limit, number, display=climbed(m, price, away * rng.choice((0, 1))), working=price))
        else:
            resting.append(entry(kind, party, sell, price, number))
        resting[-1]["quantity"] = rng.randrange(1, 100000)
    return book_of(m, max(numbers, default=0) + rng.randrange(0, 3), resting)


def picture(book):
    """The count and the 64 entries in bytes."""
    return struct.pack(">I", book["count"]) + b"".join(
        struct.pack(">IIIIIBBBB", e["number"], e["limit"], e["quantity"], e["working"], e["display"], e["party"], e["kind"], e["sell"], e["pricing"])
        for e in book["entries"])
