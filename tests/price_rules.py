"""The price rules, from the words of document 01 and the steps of document 02, 2, once for a buy and once for a sell, so that a slip in one shows against the
other; and the figures that they compare, from those of document 02's first request, which must hold just where the rule does (figure_vectors.py).

Steps are told here by a ladder, on which every price of a series stands in its order: one step leads to the next rung. steps.py, by which the model goes,
reckons them.

price_vectors.py puts its questions to `ASK`, by name; a rule answers None for a question outside what it is for.
"""

PLAIN, MMLO, MMALO, MMRP, DISPLAYED, DARK = 1, 2, 3, 4, 5, 6
BUY, SELL = 0, 1
MOST = 4294967295
NONE = 0


# ---- document 02, 2: "Under 3.00 a series moves by the small step and from 3.00 up by the large one: 1 and 5 cents, or 5 and 10." ----

# The prices of each pair, from the lowest to the highest, between the two to which one step may lead: 0, and one large step above 100,000.
LADDERS = {
    1: [0, *range(1, 300), *range(300, 100000 + 1, 5), 100005],
    5: [0, *range(5, 300, 5), *range(300, 100000 + 1, 10), 100010],
}
RUNGS = {m: {price: rung for rung, price in enumerate(ladder)} for m, ladder in LADDERS.items()}
MPVS = tuple(LADDERS)


def legal(m, price):
    """On the ladder, but at neither end."""
    return price in RUNGS[m] and price not in (LADDERS[m][0], LADDERS[m][-1])


def lowest(m):
    """The lowest price, which is the small step."""
    return LADDERS[m][1]


def climbed(m, price, steps):
    """So many steps up; down, where they are fewer than 0."""
    return LADDERS[m][RUNGS[m][price] + steps]


def next_below(m, price):
    return climbed(m, price, -1)


def next_above(m, price):
    return climbed(m, price, 1)


def apart(m, low, high):
    """How many steps lead up from one to the other."""
    return RUNGS[m][high] - RUNGS[m][low]


def none_or_legal(m, price):
    """An away bid or away offer of 0 means none."""
    return price == NONE or legal(m, price)


# ---- document 01, "Prices an entry has", for a buy: L the limit, A the away offer, C the lowest working price of any sell ----

def buy_aims(m, kind, limit, away_offer, lowest_sell):
    display, working = [limit], [limit]
    if away_offer != NONE:
        display.append(next_below(m, away_offer))
        working.append(away_offer)
    if kind == MMALO and lowest_sell != NONE:
        display.append(next_below(m, lowest_sell))
        working.append(next_below(m, lowest_sell))
    return min(display), min(working)


def buy_marketable(kind, working_aim, lowest_sell):
    return kind == MMRP and lowest_sell != NONE and working_aim >= lowest_sell


def buy_resting(display, display_aim, working_aim):
    shown = max(display, display_aim)
    return shown, max(shown, working_aim)


def buy_eased(away_offer, display, working):
    if away_offer != NONE and working > away_offer:
        return max(display, away_offer)
    return working


def buy_sound(m, limit, display, working):
    return legal(m, display) and legal(m, working) and working in (display, next_above(m, display)) and working <= limit


# ---- the same for a sell, the mirror image: L the limit, B the away bid, C the highest working price of any buy ----

def sell_aims(m, kind, limit, away_bid, highest_buy):
    display, working = [limit], [limit]
    if away_bid != NONE:
        display.append(next_above(m, away_bid))
        working.append(away_bid)
    if kind == MMALO and highest_buy != NONE:
        display.append(next_above(m, highest_buy))
        working.append(next_above(m, highest_buy))
    return max(display), max(working)


def sell_marketable(kind, working_aim, highest_buy):
    return kind == MMRP and highest_buy != NONE and working_aim <= highest_buy


def sell_resting(display, display_aim, working_aim):
    shown = min(display, display_aim)
    return shown, min(shown, working_aim)


def sell_eased(away_bid, display, working):
    if away_bid != NONE and working < away_bid:
        return min(display, away_bid)
    return working


def sell_sound(m, limit, display, working):
    return legal(m, display) and legal(m, working) and working in (display, next_below(m, display)) and working >= limit


# ---- document 01, "Arrival": price protection. Offers are no mirror image of bids here ----

def best_offer(away_offer, lowest_displayed_sell):
    offers = [p for p in (away_offer, lowest_displayed_sell) if p != NONE]
    return min(offers) if offers else NONE


def best_bid(away_bid, highest_displayed_buy):
    bids = [p for p in (away_bid, highest_displayed_buy) if p != NONE]
    return max(bids) if bids else NONE


def bid_protection(put, exempt, strike, underlying, nbo, bid):
    if not put and not exempt and underlying != NONE and bid >= underlying:
        return 25
    if put and not exempt and bid >= strike:
        return 26
    if nbo != NONE and nbo <= 100 and bid >= nbo + 100:
        return 24
    if nbo != NONE and nbo > 100 and 2 * (bid - nbo) >= nbo:
        return 24
    return 0


def offer_protection(nbb, offer):
    if nbb != NONE and nbb > 100 and 2 * (nbb - offer) >= nbb:
        return 24
    return 0


# ---- document 01, "Arrival": what is left posts, unless. `hidden_sell` is the lowest price at which an undisplayed sell works ----

def buy_stop(m, k, kind, limit, away_offer, hidden_sell, display):
    slides = kind in (MMALO, MMRP)
    if not slides and away_offer != NONE and limit >= away_offer:
        return 20
    if kind == MMLO and hidden_sell != NONE and hidden_sell <= limit:
        return 21
    if slides and display < lowest(m):
        return 23
    if slides and apart(m, display, limit) > k:
        return 22
    return 0


def sell_stop(m, k, kind, limit, away_bid, hidden_buy, display):
    slides = kind in (MMALO, MMRP)
    if not slides and away_bid != NONE and limit <= away_bid:
        return 20
    if kind == MMLO and hidden_buy != NONE and hidden_buy >= limit:
        return 21
    if slides and display > 100000:
        return 23
    if slides and apart(m, limit, display) > k:
        return 22
    return 0


# ---- document 02, 1: the two figures that a rule compares, the entry's own first, and when it holds of them ----

def stop_figures(rule, m, k, side, limit, away, hidden, display):
    if rule == 20:
        return limit, away
    if rule == 21:
        return limit, hidden
    if rule == 22:
        return apart(m, display, limit) if side == BUY else apart(m, limit, display), k
    if rule == 23:
        return display, lowest(m) if side == BUY else 100000
    return 0, 0


def bid_figures(rule, strike, underlying, nbo, bid):
    if rule == 24:
        return (bid, nbo + 100) if nbo <= 100 else (2 * (bid - nbo), nbo)
    if rule == 25:
        return bid, underlying
    if rule == 26:
        return bid, strike
    return 0, 0


def offer_figures(rule, nbb, offer):
    if rule == 24:
        return 2 * (nbb - offer), nbb
    return 0, 0


def compared(rule, side, first, second):
    """Whether a rule holds of its two figures."""
    if rule in (20, 21):
        return first >= second if side == BUY else first <= second
    if rule == 22:
        return first > second
    if rule == 23:
        return first < second if side == BUY else first > second
    return first >= second


# ---- document 01, "Reports": the request for aims ----

def request(kind, side, limit, away, contra, m):
    if kind not in (MMALO, MMRP) or side > 1 or m not in MPVS:
        return 1, 0, 0
    if not legal(m, limit) or not none_or_legal(m, away) or not none_or_legal(m, contra):
        return 3, 0, 0
    if side == BUY:
        return (0, *buy_aims(m, kind, limit, away, contra))
    return (0, *sell_aims(m, kind, limit, away, contra))


# ---- the twelve kinds of question ----

def answer_aims(kind, side, limit, away, contra, m):
    return request(kind, side, limit, away, contra, m)


def answer_protection(put, exempt, strike, underlying, side, best, limit):
    if best > 100000 or limit > 100000:
        return None
    if side == BUY:
        return (bid_protection(put, exempt, strike, underlying, best, limit),)
    return (offer_protection(best, limit),)


def answer_stop(m, k, kind, side, limit, away, hidden, display):
    if m not in MPVS or k > 100:
        return None
    rule = buy_stop if side == BUY else sell_stop
    return (rule(m, k, kind, limit, away, hidden, display),)


def answer_resting(side, display, display_aim, working_aim):
    return (buy_resting if side == BUY else sell_resting)(display, display_aim, working_aim)


def answer_eased(side, away, display, working):
    return ((buy_eased if side == BUY else sell_eased)(away, display, working),)


def answer_legal(m, price):
    if m not in MPVS:
        return None
    return (int(legal(m, price)),)


def answer_stirring(m, kind, side, limit, away, contra, display, working):
    if m not in MPVS or not none_or_legal(m, away) or not none_or_legal(m, contra):
        return None
    if side == BUY:
        aims = buy_aims(m, kind, limit, away, contra)
        return (int(buy_marketable(kind, aims[1], contra) or (display, working) != buy_resting(display, *aims)),)
    aims = sell_aims(m, kind, limit, away, contra)
    return (int(sell_marketable(kind, aims[1], contra) or (display, working) != sell_resting(display, *aims)),)


def answer_slide(m, side, limit, display, working):
    if m not in MPVS:
        return None
    return (int((buy_sound if side == BUY else sell_sound)(m, limit, display, working)),)


def answer_best(side, away, shown):
    return ((best_offer if side == BUY else best_bid)(away, shown),)


def answer_away(side, bid, offer):
    """A is the away offer; for a sell, its mirror image, the away bid."""
    return (offer if side == BUY else bid,)


def answer_stop_figures(rule, m, k, side, limit, away, hidden, display):
    if m not in MPVS or k > 100:
        return None
    return stop_figures(rule, m, k, side, limit, away, hidden, display)


def answer_bar_figures(rule, put, exempt, strike, underlying, side, best, limit):
    if best > 100000 or limit > 100000:
        return None
    return bid_figures(rule, strike, underlying, best, limit) if side == BUY else offer_figures(rule, best, limit)


ASK = {
    "aims": (1, answer_aims),
    "protection": (2, answer_protection),
    "stop": (3, answer_stop),
    "resting": (4, answer_resting),
    "eased": (5, answer_eased),
    "legal": (6, answer_legal),
    "stirring": (7, answer_stirring),
    "slide": (8, answer_slide),
    "best": (9, answer_best),
    "away": (10, answer_away),
    "stop_figures": (11, answer_stop_figures),
    "bar_figures": (12, answer_bar_figures),
}
