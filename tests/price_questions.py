"""The table of questions about prices as it is made: each is asked of price_rules.py, and kept with its answer."""

from price_rules import ASK, BUY, NONE, SELL, lowest, request

TABLE = {}      # the questions with their answers, in the order in which they were first asked, each once


def add(what, *figures, says=None):
    """One question. `says` is the answer written out by hand, as the document states it: the model must give the same."""
    number, rule = ASK[what]
    got = rule(*figures)
    assert got is None or min(got) >= 0, f"{what} {figures}: no document says a figure below 0"
    line = "-" if got is None else " ".join(str(x) for x in got)
    assert says is None or line == says, f"{what} {figures}: expected {says}, the model says {line}"
    TABLE[what, number, figures, line] = None
    return line


def mirror(m, prices):
    """What two prices that face each other make together, or None: no mirror. The prices under 3.00 are their own mirror image, one small step facing one
    short of 300, and so are those from 3.00 up, 300 facing 100,000. Across 300 there is no mirror: a step down from it is small, one up from it large."""
    if all(lowest(m) <= price <= 300 - lowest(m) for price in prices):
        return 300
    return 100300 if all(300 < price <= 100000 for price in prices) else None


def add_both(kind, limit, away, contra, m, says=None):
    """The aims of a buy, and of the sell that is its mirror image: the answers must mirror each other. Without a mirror, of the sell at the same prices."""
    both = mirror(m, [price for price in (limit, away, contra) if price != NONE])
    prices = [price if both is None or price == NONE else both - price for price in (limit, away, contra)]
    buy, sell = request(kind, BUY, limit, away, contra, m), request(kind, SELL, *prices, m)
    assert buy[0] == 0 and sell[0] == 0, (kind, limit, away, contra, m, buy, sell)
    assert both is None or sell == (0, both - buy[1], both - buy[2]), (kind, limit, away, contra, m, buy, sell)
    add("aims", kind, BUY, limit, away, contra, m, says=says)
    add("aims", kind, SELL, *prices, m)
