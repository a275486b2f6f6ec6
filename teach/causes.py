"""What is wrong with a price or a setup that is refused, and what would have been right.

    limit 304 is off the grid, between 300 and 305
    M 10 names no pair of steps: M is 1 or 5

That something is refused, and for which number, is what the session program prints; here only the cause is looked up.
"""

from packed import *

CHANGE = 300                            # in cents: below it prices move by the small step, from it on by the large one
TOP_K = 100
STEPS = {1: (1, 5), 5: (5, 10)}         # M -> the small step and the large one


def no_underlying(price):
    """What is wrong with an underlying: it may be any cent, or none."""
    return "is above %d" % TOP_PRICE if price > TOP_PRICE else ""


def no_price(m, price):
    """What is wrong with a limit or an away price by the grid of M; nothing where it is on it."""
    small, large = STEPS[m]
    if not small <= price <= TOP_PRICE:
        return "is out of range, which is %d to %d" % (small, TOP_PRICE)
    step = small if price < CHANGE else large
    low = price - price % step
    return "is off the grid, between %d and %d" % (low, low + step) if low != price else ""


def price_cause(setup, data):
    """What is wrong with the first price that is wrong in a message; nothing where none is, or M names no grid."""
    setup, message = unpack_setup(setup), unpack_message(data)
    if setup is None or message is None:
        return ""
    prices = []
    if message.kind == UNDERLYING:
        prices = [("underlying", message.price, no_underlying(message.price))]
    elif message.kind == AWAY:
        prices = [(name, price, no_price(setup[2], price) if price != 0 else "")
                  for name, price in (("away bid", message.price), ("away offer", message.second))]
    elif message.kind in ENTERING:
        prices = [("limit", message.price, no_price(setup[2], message.price))]
    return next(("%s %d %s" % (name, price, wrong) for name, price, wrong in prices if wrong), "")


def setup_cause(data):
    """What is wrong with a setup's bytes, all of it; nothing where they open a series."""
    if len(data) != 4:
        return "%d byte%s, and a setup has 4" % (len(data), "" if len(data) == 1 else "s")
    put, exempt, m, k, strike, filling = cut(data, SETUP_WIDTHS)
    wrong = []
    if m not in STEPS:
        wrong.append("M %d names no pair of steps: M is 1 or 5" % m)
    if k > TOP_K:
        wrong.append("K %d is above %d" % (k, TOP_K))
    if not 1 <= strike <= TOP_PRICE:
        wrong.append("strike %d is out of range, which is 1 to %d" % (strike, TOP_PRICE))
    if filling != 0:
        wrong.append("one of the last two bits is not 0")
    return "; ".join(wrong)
