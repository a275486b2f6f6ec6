"""When a state is sound, and what every accepted message must leave behind.

Both answer with a word for the first thing wrong, "" when nothing is.
"""

import tools
from packed import *
from steps import legal, steps_between


def unsound(series):
    """The first reason why the state is not sound, or ""."""
    return unsound_numbers(series) or unsound_entries(series) or crossed(series.book)


def unsound_numbers(series):
    phase, book = series.phase, series.book
    if not legal_setup(series.m, series.k, series.strike):
        return "setup"
    if phase not in (CLOSED, OPEN, HALTED):
        return "phase"
    if any(price != 0 and not legal(series.m, price) for price in (series.away_bid, series.away_offer)):
        return "away price"
    if not 0 <= series.underlying <= TOP_PRICE:
        return "underlying price"
    if not series.blocked <= set(range(1, TOP_MAKER + 1)):
        return "blocked parties"
    if len(book) > BOOK_SIZE:
        return "too many entries"
    if not 0 <= series.given <= TOP_ENTRY:
        return "entry numbers given"
    if len({entry.number for entry in book}) != len(book):
        return "entry numbers not distinct"
    if len({entry.rank for entry in book}) != len(book):
        return "ranks not distinct"
    if phase == CLOSED and book:
        return "something rests in a closed series"
    return ""


def unsound_entries(series):
    quotes = set()
    for entry in series.book:
        if not 1 <= entry.number <= series.given:
            return "entry number not among those given"
        if entry.kind not in ENTERING or entry.side not in (BUY, SELL):
            return "kind or side"
        if not legal(series.m, entry.limit):
            return "limit"
        if not 1 <= entry.quantity <= TOP_QUANTITY:
            return "quantity"
        if not 1 <= entry.party <= (TOP_MAKER if entry.kind in QUOTES else TOP_PARTY):
            return "party"
        if entry.kind in QUOTES:
            if series.phase == HALTED:
                return "a quote rests in a halted series"
            if (entry.party, entry.side) in quotes:
                return "two quotes of one maker and side"
            quotes.add((entry.party, entry.side))
        wrong = unsound_prices(entry, series.m)
        if wrong:
            return wrong
    return ""


def crossed(book):
    buys = [entry.working for entry in book if entry.side == BUY]
    sells = [entry.working for entry in book if entry.side == SELL]
    if buys and sells and max(buys) >= min(sells):
        return "a buy works at a sell's working price or above"
    return ""


def unsound_prices(entry, m):
    if entry.kind == DARK:
        return "" if (entry.display, entry.working) == (0, entry.limit) else "dark prices"
    if entry.kind not in SLIDING:
        same = entry.display == entry.working == entry.limit
        return "" if same else "prices apart from the limit"
    if not legal(m, entry.display) or not legal(m, entry.working):
        return "a sliding entry's prices"
    # Less aggressive first: display, working, limit.
    if entry.side == BUY:
        ordered = entry.display <= entry.working <= entry.limit
    else:
        ordered = entry.display >= entry.working >= entry.limit
    if not ordered or steps_between(m, entry.display, entry.working) > 1:
        return "a sliding entry's prices to each other"
    return ""


def promises_kept(series, resting):
    """The first promise an accepted message broke, or "".

    `resting` is N, the number of entries after the message's own part.
    """
    wrong = unsound(series)
    if wrong:
        return "an accepted message left an unsound state: " + wrong
    if sum(series.steps.values()) > resting * (resting + 5) // 2:
        return "settling took more than N(N+5)/2 steps"
    if len(series.reports) > MOST_REPORTS:
        return "more reports than fit in the room"
    if series.phase == OPEN:
        for entry in series.book:
            if entry.kind in SLIDING and series.marketable(entry):
                return "settling left a marketable entry"
            if entry.kind in SLIDING \
                    and (entry.display, entry.working) != series.resting_prices(entry):
                return "settling left an entry off its resting prices"
    return ""
