#!/usr/bin/env python3
"""The vectors of crates/test_soundness: what it reads (stdin) and what it must print (stdout).

Run it again from the repository's root: python3 tests/soundness_vectors.py
It writes crates/test_soundness/stdin and crates/test_soundness/stdout.

`is_sound` and `summary` are written from the text of document 01 ("A state is sound if: ..", "Numbers", "Prices an entry has",
"Arrival") and from nothing else; prices and steps are those of the ladder in price_rules.py (document 02, 2). Each clause is broken
alone, by one and at its edges, on books that are sound otherwise, under 300, above it and across; every such case says whether the
book ought to be sound, and the model has to agree before anything is written.

A book is 1,548 bytes: M and the last number given, then its picture (sound_books.py).
"""
import copy
import random
import struct

from price_rules import MPVS, climbed, legal, next_above, next_below
from sound_books import ACROSS, BIG, DARK, FIXED, HOME, SLIDING, ZERO, base, book_of, entry, picture, random_book, steps_from


# ---- the model ----

def is_quote(e):
    return e["kind"] in (1, 2, 3, 4)


def is_entry(m, given, e):
    # entry numbers are among those given; entries are quotes or orders
    if not 1 <= e["number"] <= given or e["kind"] not in (1, 2, 3, 4, 5, 6):
        return False
    # limits, quantities and parties are legal
    if not legal(m, e["limit"]) or not 1 <= e["quantity"] <= 99999 or not 1 <= e["party"] <= 99:
        return False
    if is_quote(e) and not 1 <= e["party"] <= 16:
        return False
    # plain, MMLO and displayed orders display and work at the limit
    if e["kind"] in (1, 2, 5):
        return e["pricing"] == FIXED and e["working"] == e["limit"]
    # dark ones work at the limit
    if e["kind"] == 6:
        return e["pricing"] == DARK and e["working"] == e["limit"]
    # MMALO and MMRP: "a working price is at most one step past its display"
    if e["pricing"] != SLIDING or not legal(m, e["display"]) or not legal(m, e["working"]):
        return False
    past = next_below(m, e["display"]) if e["sell"] else next_above(m, e["display"])
    beyond = e["limit"] - e["working"] if e["sell"] else e["working"] - e["limit"]
    return e["working"] in (e["display"], past) and beyond <= 0


def is_sound(book):
    m, given, count, entries = book["m"], book["given"], book["count"], book["entries"]
    if m not in MPVS or count > 64:
        return False
    resting, unused = entries[:count], entries[count:]
    if not all(is_entry(m, given, e) for e in resting):
        return False
    if len({e["number"] for e in resting}) != count:
        return False
    quotes = [(e["party"], e["sell"]) for e in resting if is_quote(e)]
    if len(set(quotes)) != len(quotes):
        return False
    for buy in resting:
        for sell in resting:
            if not buy["sell"] and sell["sell"] and buy["working"] >= sell["working"]:
                return False
    return all(e == ZERO for e in unused)


def shown(e):
    """The display price; None for a dark entry."""
    return {FIXED: e["limit"], DARK: None, SLIDING: e["display"]}[e["pricing"]]


def summary(book):
    if not is_sound(book):
        return "unsound 0 0 0 0 0 " + "0" * 16 + " " + "0" * 16
    resting = book["entries"][:book["count"]]
    buys, sells = [e for e in resting if not e["sell"]], [e for e in resting if e["sell"]]
    best = [max([e["working"] for e in buys], default=0), min([e["working"] for e in sells], default=0),
            max([shown(e) for e in buys if shown(e) is not None], default=0),
            min([shown(e) for e in sells if shown(e) is not None], default=0),
            int(any(is_quote(e) for e in resting))]
    makers = ["".join("1" if any(is_quote(e) and e["party"] == party for e in side) else "0" for party in range(1, 17))
              for side in (buys, sells)]
    return "sound " + " ".join(map(str, best)) + " " + " ".join(makers)


# ---- the table ----

def write_table(program, data, told, what):
    """What the test program reads, and what it must print."""
    with open(f"crates/{program}/stdin", "wb") as f:
        f.write(b"".join(data))
    with open(f"crates/{program}/stdout", "w") as f:
        f.write("".join(line + "\n" for line in told))
    print(len(told), what + ",", sum(line.startswith("sound") for line in told), "of them sound")


# ---- cases ----

cases = []


def case(book, ought=None):
    verdict = is_sound(book)
    assert ought is None or verdict == ought, (len(cases), ought, book)
    cases.append(book)


def changed(book, place, ought, **fields):
    """The book with other values in one entry."""
    other = copy.deepcopy(book)
    other["entries"][place].update(fields)
    case(other, ought)


def each_entry(m, bid):
    b = base(m, bid)
    numbers_and_sizes(b)
    parties(b)
    kinds_and_pricing(b, steps_from(m, bid))
    each_price(m, bid)


def each_price(m, bid):
    b, at = base(m, bid), steps_from(m, bid)
    case(b, True)
    prices(b, m, at)
    sides(b, at)


def numbers_and_sizes(b):
    for place in (0, 5, 10):
        changed(b, place, False, number=0)
        changed(b, place, True, number=40)
        changed(b, place, False, number=41)
        changed(b, place, False, number=BIG)
        changed(b, place, False, quantity=0)
        changed(b, place, True, quantity=1)
        changed(b, place, True, quantity=99999)
        changed(b, place, False, quantity=100000)
        changed(b, place, False, party=0)
        changed(b, place, False, party=100)
        changed(b, place, False, kind=0)
        changed(b, place, False, kind=7)
        changed(b, place, False, kind=255)
        changed(b, place, False, limit=0)
    # numbers: of two entries, next to each other, first and last, and above all others
    for one, other in ((0, 1), (0, 10), (9, 10), (7, 1), (3, 2)):
        changed(b, one, False, number=b["entries"][other]["number"])


def parties(b):
    # parties: makers are 1 to 16, others 1 to 99
    for place in (0, 1, 2, 3):
        changed(b, place, True, party=15)
        changed(b, place, False, party=17)
        changed(b, place, False, party=99)
    changed(b, 0, False, party=16)
    changed(b, 1, True, party=16)
    for party, ought in ((1, True), (16, True), (17, True), (99, True), (100, False)):
        changed(b, 4, ought, party=party)
        changed(b, 5, ought, party=party)
    # one quote a maker and side, whatever its kind; an order of the maker is none, nor is a quote of the other side
    changed(b, 0, False, party=3)
    changed(b, 1, False, party=3)
    changed(b, 8, False, party=5)
    changed(b, 8, True, party=1)
    changed(b, 9, False, party=1)
    changed(b, 4, True, party=4)


def kinds_and_pricing(b, at):
    # the kind and how the entry is priced
    changed(b, 0, True, kind=2)
    changed(b, 0, True, kind=5)
    changed(b, 4, True, kind=1, party=14)
    changed(b, 4, False, kind=1, party=16)
    changed(b, 2, True, kind=4)
    for kind in (3, 4, 6):
        changed(b, 0, False, kind=kind)
    for kind in (1, 2, 3, 4, 5):
        changed(b, 6, False, kind=kind, party=14)
    for kind in (1, 2, 5, 6):
        changed(b, 2, False, kind=kind)
    changed(b, 0, False, pricing=DARK)
    changed(b, 0, False, pricing=SLIDING, display=at(-3))
    changed(b, 6, False, pricing=FIXED)
    changed(b, 6, False, pricing=SLIDING, display=at(0))
    changed(b, 2, False, pricing=FIXED, display=0)
    changed(b, 2, False, pricing=DARK, display=0)


def prices(b, m, at):
    # what is fixed or dark works at the limit
    for place in (0, 1, 4, 5, 6):
        limit = b["entries"][place]["limit"]
        changed(b, place, False, working=next_above(m, limit))
        changed(b, place, False, working=next_below(m, limit))
        changed(b, place, False, limit=next_below(m, limit))
    # what slides: the working price against display and limit, a buy and a sell
    for ahead, ought in ((-1, False), (0, True), (1, True), (2, False), (3, False)):
        changed(b, 2, ought, display=at(-2), working=at(-2 + ahead))
        changed(b, 3, ought, display=at(23), working=at(23 - ahead))
    for limit, ought in ((-2, False), (-1, True), (0, True)):
        changed(b, 2, ought, limit=at(limit))
        changed(b, 3, ought, limit=at(20 - limit))
    changed(b, 2, False, display=0)
    changed(b, 2, False, working=0)
    changed(b, 3, False, working=0)
    changed(b, 3, False, display=next_above(m, 100000), working=100000)


def sides(b, at):
    # every buy below every sell, dark ones too: the dark sell at the offer, the dark buy at the bid
    for apart, ought in ((1, True), (0, False), (-1, False)):
        changed(b, 5, ought, limit=at(apart), working=at(apart))
        changed(b, 6, ought, limit=at(20 - apart), working=at(20 - apart))
        changed(b, 3, ought, limit=at(apart), working=at(apart), display=at(apart))
        changed(b, 10, ought, limit=at(apart), working=at(apart))


# Prices of one entry, and whether they are legal; and of what slides at 300, a buy with limit 400 and a sell with limit 200, display and working
# price: one step apart, two, by the other step, and off the grid.
ALONE = {1: ((0, False), (1, True), (2, True), (299, True), (300, True), (301, False), (304, False), (305, True), (99995, True), (99999, False),
             (100000, True), (100001, False), (100005, False), (BIG, False)),
         5: ((0, False), (4, False), (5, True), (6, False), (10, True), (294, False), (295, True), (299, False), (300, True), (301, False), (305, False),
             (310, True), (99990, True), (99995, False), (100000, True), (100005, False), (100010, False), (BIG, False))}
SLID = {1: (((299, 300, True), (300, 305, True), (299, 305, False), (298, 300, False), (300, 310, False), (295, 300, False), (300, 301, False)),
            ((305, 300, True), (300, 299, True), (305, 299, False), (300, 298, False), (310, 300, False), (300, 295, False), (301, 300, False))),
        5: (((295, 300, True), (300, 310, True), (295, 310, False), (290, 300, False), (300, 320, False), (300, 305, False), (299, 300, False)),
            ((310, 300, True), (300, 295, True), (310, 295, False), (300, 290, False), (320, 300, False), (305, 300, False), (300, 299, False)))}


def grid(m):
    """The grid, where it changes and where it ends."""
    for p, ought in ALONE[m]:
        case(book_of(m, 1, [entry(5, 1, 0, p, 1)]), ought)
        case(book_of(m, 1, [entry(6, 1, 1, p, 1)]), ought)
        case(book_of(m, 1, [entry(4, 1, 1, p, 1, display=100000, working=100000)]), ought)
    for kind in (3, 4):
        for sell, limit in ((0, 400), (1, 200)):
            for display, working, ought in SLID[m][sell]:
                case(book_of(m, 1, [entry(kind, 1, sell, limit, 1, display=display, working=working)]), ought)
    low, high = climbed(m, 0, 2), next_below(m, 100000)
    case(book_of(m, 2, [entry(4, 1, 0, low, 1, display=m, working=low), entry(3, 1, 1, high, 2, display=100000, working=high)]), True)
    case(book_of(m, 1, [entry(4, 1, 0, low, 1, display=0, working=m)]), False)


def places(m):
    """Places that are not used, and the count."""
    b = base(m)
    for place in (11, 40, 63):
        for field in ("number", "limit", "quantity", "working", "party", "kind", "sell"):
            changed(b, place, False, **{field: 1})
        changed(b, place, False, pricing=DARK)
        changed(b, place, False, pricing=SLIDING)
        changed(b, place, False, **entry(5, 50, 0, 100, 33))
    for count in (0, 5, 10, 12, 64, 65, 66, BIG):
        other = copy.deepcopy(b)
        other["count"] = count
        case(other, False)


def series():
    # the prices of M 5 from 300 up are prices of M 1 too, but what slides by one step of M 5 slides by two of M 1
    b = base(5)
    for m, ought in ((0, False), (1, False), (2, False), (4, False), (5, True), (6, False), (10, False), (15, False), (20, False), (BIG, False)):
        other = copy.deepcopy(b)
        other["m"] = m
        case(other, ought)
    for m, ought in ((0, False), (1, True), (2, False), (3, False), (4, False), (5, True), (6, False), (10, False), (100, False)):
        case(book_of(m, 3, [entry(5, 1, 0, 600, 3), entry(6, 1, 1, 610, 2)]), ought)
        case(book_of(m, 3, [entry(5, 1, 0, 600, 3), entry(6, 1, 1, 605, 2)]), m == 1)
        case(book_of(m, 3, [entry(5, 1, 0, 290, 3), entry(6, 1, 1, 295, 2)]), ought)
    for given, ought in ((0, False), (31, False), (32, True), (33, True), (1000000, True)):
        other = copy.deepcopy(b)
        other["given"] = given
        case(other, ought)
    for m in (0, 1, 3, 5, 10):
        case(book_of(m, 0, []), m in (1, 5))


def each_clause():
    for m, bid in HOME.items():
        each_entry(m, bid)
    for m, bid in ACROSS:
        each_price(m, bid)
    for m in MPVS:
        grid(m)
    places(5)


def main():
    rng = random.Random(37)
    each_clause()
    series()
    for size in (0, 1, 2, 63, 64, 64):
        case(random_book(rng, size), True)
    full = random_book(rng, 64)
    for count in (63, 65):
        other = copy.deepcopy(full)
        other["count"] = count
        case(other, False)
    for _ in range(40):
        case(random_book(rng), True)
    # a number of one entry taken over by another, wherever they stand
    for _ in range(30):
        b = random_book(rng, rng.randrange(2, 65))
        one, other = rng.sample(range(b["count"]), 2)
        changed(b, one, False, number=b["entries"][other]["number"])
    # any field of any entry, one off or at random
    for _ in range(80):
        b = random_book(rng, rng.randrange(1, 65))
        place, field = rng.randrange(64), rng.choice(("number", "limit", "quantity", "working", "display", "party", "kind"))
        e = b["entries"][place]
        if field == "display" and e["pricing"] != SLIDING:
            field = "working"
        top = 255 if field in ("party", "kind") else 100000
        value = rng.choice((e[field] + 1, max(e[field] - 1, 0), e[field] + b["m"], e[field] + 2 * b["m"], rng.randrange(0, top)))
        changed(b, place, None, **{field: min(value, 255) if top == 255 else value})

    write_table("test_soundness", [struct.pack(">II", b["m"], b["given"]) + picture(b) for b in cases], [summary(b) for b in cases], "books")


if __name__ == "__main__":
    main()
