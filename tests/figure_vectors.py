"""Questions for the two figures that a rule compares (document 02, 1): at the rule's edges, and of every reason that the table tells."""

from price_questions import TABLE, add
from price_rules import ASK, BUY, MMALO, MMLO, MMRP, MPVS, NONE, SELL, climbed, compared, lowest


def figures_at_edges():
    """Each rule's figures at its edge and about it: it must hold of them just where document 01 says that it does."""
    # 20 and 21, of an MMLO
    for side in (BUY, SELL):
        for limit in (1, 495, 500, 505, 100000):
            agrees("stop", 20, 1, 10, MMLO, side, limit, 500, NONE, limit)
            agrees("stop", 21, 1, 10, MMLO, side, limit, NONE, 500, limit)
    # 22 in steps, whatever the pair; 23
    for m in MPVS:
        for kind in (MMALO, MMRP):
            for k in (0, 3, 100):
                for steps in sorted({0, k, k + 1}):
                    agrees("stop", 22, m, k, kind, BUY, 5000, NONE, NONE, climbed(m, 5000, -steps))
                    agrees("stop", 22, m, k, kind, SELL, 5000, NONE, NONE, climbed(m, 5000, steps))
            for steps in (0, 1, 2):
                agrees("stop", 23, m, 100, kind, BUY, 2 * lowest(m), NONE, NONE, climbed(m, 0, steps))
                agrees("stop", 23, m, 100, kind, SELL, climbed(m, 100000, -1), NONE, NONE, climbed(m, 100000, 1 - steps))
    # 25 of a call and 26 of a put, underlying and strike apart
    for limit in (1, 299, 300, 301, 100000):
        agrees("protection", 25, 0, 0, 200, 300, BUY, NONE, limit)
        agrees("protection", 26, 1, 0, 300, 200, BUY, NONE, limit)
    # 24, an exempt call: both halves of a bid, and an offer; NBB at most 100 sets no limit
    for best in (1, 99, 100):
        for limit in (best, best + 99, best + 100, best + 101, 100000):
            agrees("protection", 24, 0, 1, 200, NONE, BUY, best, limit)
    for best in (101, 102, 103, 1000, 66666, 100000):
        for limit in sorted(x for x in {best, best + best // 2 - 1, best + best // 2, best + best // 2 + 1, 100000} if x <= 100000):
            agrees("protection", 24, 0, 1, 200, NONE, BUY, best, limit)
        for limit in sorted({1, best // 2 - 1, best // 2, best // 2 + 1, best}):
            agrees("protection", 24, 0, 1, 200, NONE, SELL, best, limit)
    # 27 to 31 compare no prices
    for rule in range(27, 32):
        for side in (BUY, SELL):
            add("stop_figures", rule, 1, 10, side, 500, 500, 500, 495, says="0 0")
            add("bar_figures", rule, 0, 0, 200, 300, side, 100, 300, says="0 0")
    # outside what the rules are for
    add("stop_figures", 22, 1, 101, BUY, 500, 500, 0, 495, says="-")
    for m in (0, 2, 4, 6, 10):
        add("stop_figures", 22, m, 10, BUY, 500, 500, 0, 490, says="-")
    add("bar_figures", 24, 0, 1, 200, NONE, BUY, 100001, 300, says="-")
    add("bar_figures", 24, 0, 1, 200, NONE, BUY, 100, 100001, says="-")


def asked_for_figures(what, rule, figures):
    """The question for a rule's figures, where a reason was asked for: the same, less the kind; and the side."""
    if what == "stop":
        m, k, _, side, *prices = figures
        return side, ("stop_figures", rule, m, k, side, *prices)
    return figures[4], ("bar_figures", rule, *figures)


def agrees(what, rule, *figures):
    """Where no other rule can be told."""
    side, asked = asked_for_figures(what, rule, figures)
    holds = compared(rule, side, *map(int, add(*asked).split()))
    assert ASK[what][1](*figures) == (rule if holds else 0,), (what, rule, figures)


def figures_told():
    """The figures of every reason that is told above: it must hold of them."""
    asked = {}
    for what, _, figures, line in TABLE:
        if what in ("stop", "protection") and line not in ("0", "-"):
            asked[asked_for_figures(what, int(line), figures)] = None
    for side, question in asked:
        assert compared(question[1], side, *map(int, add(*question).split())), question
