#!/usr/bin/env python3
"""The table of questions about prices, and the answers that documents 01 and 02 give.

    python3 tests/price_vectors.py            writes crates/test_prices/stdin and crates/test_prices/stdout
    python3 tests/price_vectors.py --check    says whether the two files are what it would write
    python3 tests/price_vectors.py --list     prints each question and its answer, as text

Run it from anywhere. It needs nothing but Python 3, and it runs no program of this repository: the answers are worked out in price_rules.py, from the words of
document 01 and the steps of document 02, 2, once for a buy and once for a sell, and for the figures of a rule from those of document 02, 1. The gate runs the
crate test_prices on the one file and compares what it prints with the other.

A question is nine numbers of four bytes, most significant first: what is asked, and eight figures, zero where there are fewer.
Its answer is one line. `-` stands for a question outside what the rule asked is for. M is 1 or 5 and names its pair of steps. Whoever asks for a stop or its
figures of a sliding kind names a limit that is legal and a display that is legal or one step outside, not beyond the limit: there are no steps to any other.

    1 aims           kind side limit away contra M                      refusal, display aim, working aim
    2 protection     put exempt strike underlying side best limit       25, 26, 24 or 0
    3 stop           M K kind side limit away hidden display            20, 21, 23, 22 or 0; hidden: the best undisplayed contra price
    4 resting        side display aim-display aim-working               display, working price
    5 eased          side away display working                          working price
    6 legal          M price                                            1 or 0
    7 stirring       M kind side limit away contra display working      1 or 0: marketable, or not at its resting prices
    8 slide          M side limit display working                       1 or 0: sound prices of a sliding quote
    9 best           side away shown                                    NBO for a bid, NBB for an offer; shown: the best displayed contra price
    10 away          side bid offer                                     the away price that A stands for: the offer for a buy, the bid for a sell
    11 stop_figures  rule M K side limit away hidden display            the two figures that 20, 21, 22 or 23 compares; 0 0 for 27 to 31
    12 bar_figures   rule put exempt strike underlying side best limit  the two figures that 24, 25 or 26 compares; 0 0 for 27 to 31
"""
import random
import struct
import sys

from figure_vectors import figures_at_edges, figures_told
from price_questions import TABLE, add, add_both
from price_rules import ASK, BUY, DARK, DISPLAYED, LADDERS, MMALO, MMLO, MMRP, MOST, MPVS, NONE, PLAIN, RUNGS, SELL, buy_aims, climbed, lowest, sell_aims
from step_vectors import about_three_dollars
from tables import keep

# ---- the class examples, as far as they are about prices ----

def class_examples():
    # a, b. K 3, sell 99 in book, A 100: MMALO buy 101 rests 98/98; 102 rejected 22.
    add_both(MMALO, 101, 100, 99, 1, says="0 98 98")
    add("stop", 1, 3, MMALO, BUY, 101, 100, 0, 98, says="0")
    add_both(MMALO, 102, 100, 99, 1, says="0 98 98")
    add("stop", 1, 3, MMALO, BUY, 102, 100, 0, 98, says="22")
    add("stop_figures", 22, 1, 3, BUY, 102, 100, 0, 98, says="4 3")
    # c, d. One contract at 99, which trades: MMRP buy at 102 rests 99/100; at 103 the rest is cancelled 22.
    add_both(MMRP, 102, 100, 99, 1, says="0 99 100")
    add_both(MMRP, 102, 100, NONE, 1, says="0 99 100")
    add("stop", 1, 3, MMRP, BUY, 102, 100, 0, 99, says="0")
    add_both(MMRP, 103, 100, NONE, 1, says="0 99 100")
    add("stop", 1, 3, MMRP, BUY, 103, 100, 0, 99, says="22")
    add("stop_figures", 22, 1, 3, BUY, 103, 100, 0, 99, says="4 3")
    # e. Book 198 x 222, away 197 x 223: MMALO buy 225 rests 221/221.
    add_both(MMALO, 225, 223, 222, 1, says="0 221 221")
    add("stop", 1, 10, MMALO, BUY, 225, 223, 0, 221, says="0")
    # f, g. A 220, empty book: plain buy 220 rejected 20; 219 rests.
    add("stop", 1, 10, PLAIN, BUY, 220, 220, 0, 220, says="20")
    add("stop_figures", 20, 1, 10, BUY, 220, 220, 0, 220, says="220 220")
    add("stop", 1, 10, PLAIN, BUY, 219, 220, 0, 219, says="0")
    # h. A 1: MMRP buy 1 rejected 23.
    add_both(MMRP, 1, 1, NONE, 1, says="0 0 1")
    add("stop", 1, 10, MMRP, BUY, 1, 1, 0, 0, says="23")
    add("stop_figures", 23, 1, 10, BUY, 1, 1, 0, 0, says="0 1")
    # i. NBO 100: bid 200 rejected 24, 199 passes. j. NBO 101: 152 rejected, 151 passes.
    add("protection", 0, 1, 200, NONE, BUY, 100, 200, says="24")
    add("bar_figures", 24, 0, 1, 200, NONE, BUY, 100, 200, says="200 200")
    add("protection", 0, 1, 200, NONE, BUY, 100, 199, says="0")
    add("protection", 0, 1, 200, NONE, BUY, 101, 152, says="24")
    add("bar_figures", 24, 0, 1, 200, NONE, BUY, 101, 152, says="102 101")
    add("protection", 0, 1, 200, NONE, BUY, 101, 151, says="0")
    # k. Put, strike 200, not exempt: bid 200 rejected 26, 199 passes.
    add("protection", 1, 0, 200, NONE, BUY, NONE, 200, says="26")
    add("bar_figures", 26, 1, 0, 200, NONE, BUY, NONE, 200, says="200 200")
    add("protection", 1, 0, 200, NONE, BUY, NONE, 199, says="0")
    # l. The dark sell at 221 is in the way of what is left of MMLO buy 222: rest cancelled 21.
    add("stop", 1, 10, MMLO, BUY, 222, NONE, 221, 222, says="21")
    add("stop_figures", 21, 1, 10, BUY, 222, NONE, 221, 222, says="222 221")
    worked_session()


def worked_session():
    # Away 200/220, sell 222 in book: MMRP buy 225 rests 219/220.
    add_both(MMRP, 225, 220, 222, 1, says="0 219 220")
    add("stop", 1, 10, MMRP, BUY, 225, 220, 0, 219, says="0")
    # Away offer 219: it drops to 219, stays displayed at 219 ("leaves it there"), and has then nothing to do.
    add("eased", BUY, 219, 219, 220, says="219")
    add_both(MMRP, 225, 219, 222, 1, says="0 218 219")
    add("resting", BUY, 219, 218, 219, says="219 219")
    add("stirring", 1, MMRP, BUY, 225, 219, 222, 219, 219, says="0")
    # Away offer gone: marketable against 222.
    add("stirring", 1, MMRP, BUY, 225, NONE, 222, 219, 219, says="1")


# ---- the request for aims at its edges ----

# a limit, an away price and a contra price that are legal whatever the pair
MIDDLING = (50000, 49990, 49970)


def refusals():
    # kinds, sides and MPVs, one and two wrong at a time
    for kind in (0, 1, 2, 3, 4, 5, 6, 7, MOST):
        for side in (0, 1, 2, MOST):
            for m in (1, 2, 5, 10):
                add("aims", kind, side, *MIDDLING, m)
    for m in [*range(13), 15, 100, MOST]:
        for kind in (MMALO, MMRP):
            for side in (BUY, SELL):
                add("aims", kind, side, *MIDDLING, m)
    # each price at its edges, the others legal; the limit must be there, the other two may be 0
    for m in MPVS:
        edges = sorted({0, 1, m - 1, m, m + 1, 295, 299, 300, 301, 305, 310, 49990 + m, 99999, 99995, 100000, 100001, climbed(m, 100000, 1), MOST})
        for kind in (MMALO, MMRP):
            for side in (BUY, SELL):
                for place in range(3):
                    for edge in edges:
                        prices = list(MIDDLING)
                        prices[place] = edge
                        add("aims", kind, side, *prices, m)
    # 1 comes before 3
    for prices in ((0, 0, 0), (100001, 100, 100), (100, MOST, 100), (100, 100, MOST)):
        add("aims", 2, 0, *prices, 1, says="1 0 0")
        add("aims", 3, 2, *prices, 1, says="1 0 0")
        add("aims", 3, 0, *prices, 4, says="1 0 0")
        add("aims", 3, 0, *prices, 1, says="3 0 0")


def outside():
    # an aim may fall one step outside the legal prices: 0 for a buy, 100,000 and one large step for a sell
    for m in MPVS:
        for kind in (MMALO, MMRP):
            for limit in (lowest(m), 100000):
                for away in (0, 1, 2):
                    for contra in (0, 1, 2):
                        add("aims", kind, BUY, limit, climbed(m, 0, away), climbed(m, 0, contra), m)
                        add("aims", kind, SELL, limit, *(climbed(m, 100000, 1 - steps) if steps else NONE for steps in (away, contra)), m)
    # a missing A or C does not bind, whether by small steps, by large ones or across
    for m in MPVS:
        for kind in (MMALO, MMRP):
            for low, middle, high, top in ((90, 100, 110, 120), (295, 300, 310, 320), (490, 500, 510, 520)):
                for away, contra in ((NONE, NONE), (middle, NONE), (NONE, middle), (middle, high), (high, middle), (middle, middle)):
                    for limit in (low, middle, top):
                        add_both(kind, limit, away, contra, m)


# ---- the other rules at their edges ----

def protections():
    for side in (BUY, SELL):
        for away in (NONE, 100, 101, 100000):
            for shown in (NONE, 100, 101, 100000):
                add("best", side, away, shown)
        for bid, offer in ((200, 220), (NONE, 220), (200, NONE), (220, 200)):
            add("away", side, bid, offer)
    for put in (0, 1):
        for exempt in (0, 1):
            for side in (BUY, SELL):
                for underlying in (NONE, 300):
                    for limit in (199, 200, 299, 300):
                        add("protection", put, exempt, 200, underlying, side, NONE, limit)
    # 24, an exempt call: every kind of best price with the limits about its edge
    for best in (NONE, 1, 50, 99, 100, 101, 102, 103, 1000, 100000):
        bids = {best + 99, best + 100, best + 101, best + best // 2 - 1, best + best // 2, best + best // 2 + 1, best}
        offers = {best, best // 2 - 1, best // 2, best // 2 + 1, 1}
        for limit in sorted(x for x in bids | offers if 1 <= x <= 100000):
            add("protection", 0, 1, 200, NONE, BUY, best, limit)
            add("protection", 0, 1, 200, NONE, SELL, best, limit)
    # the first that applies, in the order 25, 26, 24
    add("protection", 0, 0, 200, 300, BUY, 100, 300, says="25")
    add("protection", 1, 0, 200, 300, BUY, 100, 300, says="26")
    add("protection", 0, 1, 200, 300, BUY, 100, 300, says="24")
    # outside what the rule is for
    add("protection", 0, 0, 200, 300, BUY, 100001, 300, says="-")
    add("protection", 0, 0, 200, 300, BUY, 100, 100001, says="-")
    add("protection", 0, 0, 200, 300, SELL, MOST, MOST, says="-")


def stops():
    for kind in (PLAIN, MMLO, MMALO, MMRP, DISPLAYED, DARK):
        for side in (BUY, SELL):
            for limit in (495, 500, 505):
                add("stop", 1, 10, kind, side, limit, 500, 0, limit)
                add("stop", 1, 10, kind, side, limit, NONE, 0, limit)
    # 22 at its edge, by pair and K
    for m in MPVS:
        for k in (0, 3, 100):
            for kind in (MMALO, MMRP, PLAIN):
                for steps in sorted({0, k, k + 1}):
                    add("stop", m, k, kind, BUY, 5000, NONE, 0, climbed(m, 5000, -steps))
                    add("stop", m, k, kind, SELL, 5000, NONE, 0, climbed(m, 5000, steps))
    # 23 at its edge, and before 22
    for m in MPVS:
        for kind in (MMALO, MMRP, PLAIN):
            for k in (0, 100):
                for steps in (0, 1, 2):
                    add("stop", m, k, kind, BUY, climbed(m, 0, 2), NONE, 0, climbed(m, 0, steps))
                    add("stop", m, k, kind, SELL, climbed(m, 100000, -1), NONE, 0, climbed(m, 100000, 1 - steps))
    # 20 before 21; 21 of itself
    add("stop", 1, 10, MMLO, BUY, 500, 500, 500, 500, says="20")
    add("stop", 1, 10, MMLO, BUY, 500, 505, 500, 500, says="21")
    add("stop", 1, 10, MMLO, SELL, 500, 500, 500, 500, says="20")
    add("stop", 1, 10, MMLO, SELL, 500, 495, 500, 500, says="21")
    # 21 at its edge, and of no other kind; no undisplayed price is no price of 0
    for kind in (PLAIN, MMLO, MMALO, MMRP, DISPLAYED, DARK):
        for side in (BUY, SELL):
            for hidden in (NONE, 1, 495, 500, 505, 100000):
                add("stop", 1, 10, kind, side, 500, NONE, hidden, 500)
    # outside what the rule is for
    add("stop", 1, 101, MMALO, BUY, 500, 500, 0, 495, says="-")
    for m in (0, 2, 4, 6, 10):
        add("stop", m, 10, MMALO, BUY, 500, 500, 0, 490, says="-")


def slides():
    for m in MPVS:
        for p in (15, 102, 105, 110, 1001, 1002, 1005, 1010, 50001, 50005, 50010, MOST):
            add("legal", m, p)
    for m in (0, 2, 10, 11, MOST):
        add("legal", m, 100, says="-")
    # a display never slides back, whatever the aims; the working price follows
    for side in (BUY, SELL):
        for display in (99, 100, 101):
            for shown, works in ((98, 98), (98, 99), (99, 100), (100, 100), (101, 101), (100, 99), (101, 100)):
                add("resting", side, display, shown, works)
    # easing: short of the away price, at it, and past it; displayed there or not
    for side in (BUY, SELL):
        for away in (NONE, 98, 99, 100, 101, 102):
            for display in (99, 100, 101):
                for working in (99, 100, 101):
                    add("eased", side, away, display, working)
    # sound prices: legal, in order, at most one step apart, within the limit
    for m in MPVS:
        for side in (BUY, SELL):
            for display in (*(climbed(m, 500, steps) for steps in range(-2, 3)), 500 + m // 2, 500 + m):
                for limit in (climbed(m, 500, steps) for steps in (-1, 0, 1)):
                    add("slide", m, side, limit, display, 500)
    for m in (3, 10):
        add("slide", m, BUY, 500, 500, 500, says="-")
    add("slide", 1, BUY, 100005, 100000, 100005, says="0")
    add("slide", 1, SELL, 1, 1, 0, says="0")


# ---- outside figures, by a fixed seed ----

def somewhere(r, m, room=1):
    """A legal price, every other one about 300; so many steps from either end."""
    return climbed(m, 300, r.randint(-5, 5)) if r.random() < 0.5 else r.choice(LADDERS[m][room:-room])


def near(r, m, middle):
    """A legal price a few steps from another."""
    return LADDERS[m][min(max(RUNGS[m][middle] + r.randint(-4, 4), 1), len(LADDERS[m]) - 2)]


def maybe(r, price):
    return NONE if r.random() < 0.2 else price


def by_chance():
    r = random.Random(20637)
    for _ in range(150):
        m, kind = r.choice(MPVS), r.choice((MMALO, MMRP))
        middle = somewhere(r, m)
        add_both(kind, near(r, m, middle), maybe(r, near(r, m, middle)), maybe(r, near(r, m, middle)), m)
    for _ in range(42):
        prices = (r.choice((r.randint(0, 330), r.randint(0, 100020), 5 * r.randint(0, 20004))) for _ in range(3))
        add("aims", r.randint(2, 5), r.randint(0, 2), *prices, r.choice((1, 1, 5, 5, 10, 3)))
    for _ in range(100):
        best = maybe(r, r.choice((r.randint(1, 120), r.randint(100, 66000))))
        limit = max(1, min(100000, r.choice((best + 100, best + best // 2, best // 2, best)) + r.randint(-3, 3)))
        add("protection", r.randint(0, 1), r.randint(0, 1), max(1, limit + r.randint(-2, 2)), max(0, limit + r.randint(-2, 2)), r.randint(0, 1), best, limit)
    for _ in range(120):
        m, k, kind, side = r.choice(MPVS), r.randint(0, 6), r.randint(1, 6), r.randint(0, 1)
        middle = somewhere(r, m)
        limit, display = sorted((near(r, m, middle), near(r, m, middle)), reverse=side == BUY)
        add("stop", m, k, kind, side, limit, maybe(r, near(r, m, middle)), maybe(r, near(r, m, middle)), display)
    for _ in range(80):
        middle = r.randint(10, 99990)
        add("resting", r.randint(0, 1), *(middle + r.randint(-3, 3) for _ in range(3)))
        add("eased", r.randint(0, 1), maybe(r, middle + r.randint(-3, 3)), middle + r.randint(-3, 3), middle + r.randint(-3, 3))
    for _ in range(120):
        m, kind, side = r.choice(MPVS), r.choice((MMALO, MMRP)), r.randint(0, 1)
        middle = somewhere(r, m, room=10)
        prices = near(r, m, middle), maybe(r, near(r, m, middle)), maybe(r, near(r, m, middle))
        aims = (buy_aims if side == BUY else sell_aims)(m, kind, *prices)
        step = 1 if side == BUY else -1
        # at the aims, as a rule: a quote that has just moved
        moved = r.choice(((0, 0), (0, 0), (-step, 0), (step, 0), (0, -step)))
        shown, works = (climbed(m, aim, steps) for aim, steps in zip(aims, moved))
        add("stirring", m, kind, side, *prices, shown, works)
        add("slide", m, side, prices[0], shown, works)


def table():
    class_examples()
    refusals()
    outside()
    protections()
    stops()
    slides()
    about_three_dollars()
    figures_at_edges()
    by_chance()
    figures_told()
    # a question that no rule answers
    ASK["nothing"] = (13, lambda: None)
    add("nothing", says="-")


def main():
    table()
    words = sys.argv[1:]
    if words == ["--list"]:
        for what, _, figures, line in TABLE:
            print(what, *figures, "->", line)
    elif words in ([], ["--check"]):
        stdin = b"".join(struct.pack(">9I", number, *figures, *([0] * (8 - len(figures)))) for _, number, figures, _ in TABLE)
        keep("test_prices", {"stdin": stdin, "stdout": "".join(line + "\n" for *_, line in TABLE).encode()})
        print(f"price_vectors: {len(TABLE)} questions, both files as written")
    else:
        sys.exit(__doc__)


if __name__ == "__main__":
    main()
