"""Questions about the steps of document 02, 2: which prices are legal, and the rules where the step changes, at 300, and where the prices end."""

import steps as reckoned
from figure_vectors import agrees
from price_questions import add
from price_rules import BUY, LADDERS, MMALO, MMRP, MPVS, NONE, RUNGS, SELL, apart, climbed, legal


def about_three_dollars():
    reckoned_and_told()
    legal_prices()
    aims_by_hand()
    aims_about_300()
    slides_by_hand()
    slides_about_300()
    stops_by_hand()
    stops_across_300()


def reckoned_and_told():
    """The steps that the model reckons are those that the ladder tells, of every price."""
    for m in MPVS:
        assert all(reckoned.legal(m, price) == legal(m, price) for price in range(100021))
        for low, high in zip(LADDERS[m], LADDERS[m][1:]):
            assert (reckoned.up(m, low), reckoned.down(m, high)) == (high, low), (m, low, high)
            assert reckoned.steps_between(m, low, 300) == abs(apart(m, low, 300)), (m, low)


def legal_prices():
    """Every price about 300 and about both ends."""
    for m in MPVS:
        for price in (*range(0, 13), *range(280, 331), *range(99980, 100021)):
            add("legal", m, price)


def aims_by_hand():
    """"One step below 300 is 299 or 295; one step above is 305 or 310." """
    # M 1, a buy at 310: the away offer, then the lowest sell, about 300
    for away, says in ((298, "297 298"), (299, "298 299"), (300, "299 300"), (305, "300 305"), (310, "305 310"), (315, "310 310")):
        add("aims", MMRP, BUY, 310, away, NONE, 1, says="0 " + says)
    for contra, says in ((299, "298 298"), (300, "299 299"), (305, "300 300"), (310, "305 305"), (315, "310 310")):
        add("aims", MMALO, BUY, 310, NONE, contra, 1, says="0 " + says)
    for away, contra, says in ((300, 305, "299 300"), (305, 305, "300 300"), (305, 300, "299 299"), (305, 310, "300 305"), (310, 305, "300 300")):
        add("aims", MMALO, BUY, 310, away, contra, 1, says="0 " + says)
    # M 1, a sell at 290: the away bid, then the highest buy
    for away, says in ((310, "315 310"), (305, "310 305"), (300, "305 300"), (299, "300 299"), (298, "299 298"), (289, "290 290")):
        add("aims", MMRP, SELL, 290, away, NONE, 1, says="0 " + says)
    for contra, says in ((305, "310 310"), (300, "305 305"), (299, "300 300"), (298, "299 299"), (289, "290 290")):
        add("aims", MMALO, SELL, 290, NONE, contra, 1, says="0 " + says)
    for away, contra, says in ((300, 299, "305 300"), (299, 299, "300 300"), (299, 300, "305 305"), (299, 298, "300 299"), (298, 299, "300 300")):
        add("aims", MMALO, SELL, 290, away, contra, 1, says="0 " + says)
    # M 5, a buy at 330 and a sell at 280
    for away, says in ((290, "285 290"), (295, "290 295"), (300, "295 300"), (310, "300 310"), (320, "310 320"), (330, "320 330"), (340, "330 330")):
        add("aims", MMRP, BUY, 330, away, NONE, 5, says="0 " + says)
    for away, says in ((320, "330 320"), (310, "320 310"), (300, "310 300"), (295, "300 295"), (290, "295 290"), (280, "285 280"), (275, "280 280")):
        add("aims", MMRP, SELL, 280, away, NONE, 5, says="0 " + says)
    # at the ends
    for m, side, price, says in ((1, BUY, 1, "0 1"), (5, BUY, 5, "0 5"), (1, SELL, 100000, "100005 100000"), (5, SELL, 100000, "100010 100000")):
        add("aims", MMRP, side, 300, price, NONE, m, says="0 " + says)
    # on no grid: 3, whichever price it is; a series of M 10 is none
    for m, wrong in ((1, 301), (1, 304), (1, 99999), (5, 294), (5, 299), (5, 305), (5, 315), (5, 99995)):
        for prices in ((wrong, 300, 300), (300, wrong, 300), (300, 300, wrong)):
            for side in (BUY, SELL):
                add("aims", MMALO, side, *prices, m, says="3 0 0")
    add("aims", MMRP, BUY, 310, 300, NONE, 10, says="1 0 0")


def aims_about_300():
    for m in MPVS:
        about = [climbed(m, 300, steps) for steps in range(-2, 3)]
        for kind in (MMALO, MMRP):
            for side in (BUY, SELL):
                for limit in (climbed(m, 300, -1), climbed(m, 300, 1)):
                    for away in (NONE, *about):
                        for contra in (NONE, *about):
                            add("aims", kind, side, limit, away, contra, m)


def slides_by_hand():
    """"a working price is at most one step past its display": one step past, two steps, by the other pair's or the other side's step, off the grid."""
    for m, side, limit, cases in (
            (1, BUY, 310, ((299, 300, "1"), (299, 305, "0"), (300, 305, "1"), (295, 300, "0"), (300, 301, "0"))),
            (1, SELL, 290, ((305, 300, "1"), (305, 299, "0"), (300, 299, "1"), (300, 295, "0"), (304, 300, "0"))),
            (5, BUY, 330, ((295, 300, "1"), (295, 310, "0"), (300, 310, "1"), (290, 300, "0"), (300, 305, "0"))),
            (5, SELL, 280, ((310, 300, "1"), (310, 295, "0"), (300, 295, "1"), (300, 290, "0"), (305, 300, "0")))):
        for display, working, says in cases:
            add("slide", m, side, limit, display, working, says=says)


def slides_about_300():
    for m in MPVS:
        for display in (climbed(m, 300, steps) for steps in range(-2, 3)):
            for working in (climbed(m, display, steps) for steps in range(-2, 3)):
                for side in (BUY, SELL):
                    for limit in (climbed(m, working, steps) for steps in (-1, 0, 1)):
                        add("slide", m, side, limit, display, working)


def stops_by_hand():
    """"K counts steps across the change": 297, 298, 299, 300, 305, 310 are five steps of M 1; 285, 290, 295, 300, 310, 320 five of M 5."""
    for m, low, high in ((1, 297, 310), (5, 285, 320)):
        for k, says in ((4, "22"), (5, "0")):
            add("stop", m, k, MMRP, BUY, high, NONE, 0, low, says=says)
            add("stop", m, k, MMRP, SELL, low, NONE, 0, high, says=says)
        add("stop_figures", 22, m, 4, BUY, high, NONE, 0, low, says="5 4")
        add("stop_figures", 22, m, 4, SELL, low, NONE, 0, high, says="5 4")
    for m in MPVS:
        add("stop_figures", 23, m, 4, BUY, 300, NONE, 0, 0, says="0 %d" % m)
    add("stop_figures", 23, 1, 4, SELL, 300, NONE, 0, 100005, says="100005 100000")
    add("stop_figures", 23, 5, 4, SELL, 300, NONE, 0, 100010, says="100010 100000")


def stops_across_300():
    """Just within K and just beyond, with so many of the steps small ones."""
    for m in MPVS:
        for k in (0, 1, 3, 10, 100):
            for small in sorted({0, 1, k // 2, k, k + 1}):
                low = climbed(m, 300, -min(small, RUNGS[m][300] - 1))
                for steps in (k, k + 1):
                    high = climbed(m, low, steps)
                    for kind in (MMALO, MMRP):
                        add("stop", m, k, kind, BUY, high, NONE, 0, low)
                        add("stop", m, k, kind, SELL, low, NONE, 0, high)
                    agrees("stop", 22, m, k, MMRP, BUY, high, NONE, NONE, low)
                    agrees("stop", 22, m, k, MMRP, SELL, low, NONE, NONE, high)
