"""The steps that prices move by: document 02, 2, "MPV changes at three dollars".

    "Under 3.00 a series moves by the small step and from 3.00 up by the large one: 1 and 5 cents, or 5 and 10."
    "One step below 300 is 299 or 295; one step above is 305 or 310."
    "Every 'minus M' becomes one step, K counts steps across the change"
    "Setup M 10 is refused; 1 and 5 name the pairs."

So of M 1 the prices are 1, 2, 3 .. 298, 299, 300, 305, 310 .. 100,000, and of M 5 they are 5, 10, 15 .. 290, 295, 300, 310, 320 .. 100,000.
A step down from the lowest leads to 0, and a step up from 100,000 to one large step above: these are no prices, but an aim may fall there.
"""

import tools
from packed import TOP_PRICE

THREE_DOLLARS = 300
PAIRS = {1: (1, 5), 5: (5, 10)}         # M -> the small step and the large one


def small(m):
    return PAIRS[m][0]


def large(m):
    return PAIRS[m][1]


def step_at(m, price):
    """The small step under 3.00, the large one from 3.00 up."""
    return small(m) if price < THREE_DOLLARS else large(m)


def legal(m, price):
    """From the small step to 100,000; under 3.00 a multiple of the small step, from 3.00 up one of the large."""
    return small(m) <= price <= TOP_PRICE and price % step_at(m, price) == 0


def up(m, price):
    """One step up: from below 300 by the small step, from 300 by the large one."""
    return price + step_at(m, price)


def down(m, price):
    """One step down: from 300 by the small step, from above by the large one."""
    return price - (small(m) if price <= THREE_DOLLARS else large(m))


def climbed(m, price, steps):
    """So many steps up, one after the other; down, where they are fewer than 0."""
    for _ in range(abs(steps)):
        price = up(m, price) if steps > 0 else down(m, price)
    return price


def steps_between(m, one, other):
    """How many steps lead from the lower of two prices to the higher: small ones as far as 300, large ones from there."""
    low, high = min(one, other), max(one, other)
    under = min(high, THREE_DOLLARS) - min(low, THREE_DOLLARS)
    above = max(high, THREE_DOLLARS) - max(low, THREE_DOLLARS)
    return under // small(m) + above // large(m)
