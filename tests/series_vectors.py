#!/usr/bin/env python3
"""The vectors of crates/test_series: what it reads (stdin) and what it must print (stdout).

Run it again from the repository's root: python3 tests/series_vectors.py
It writes crates/test_series/stdin and crates/test_series/stdout.

`is_sound_series` is written from the text of document 01 ("A state is sound if: ..", "Numbers") and from nothing else; what it says
of the book is `is_sound` of soundness_vectors.py, and of a price the ladder of price_rules.py (document 02, 2). Each clause beyond
the book is broken alone, by one and at its edges, on series that are sound otherwise, and some clauses of the book are broken through
the series; every such case says whether the series ought to be sound, and the model has to agree before anything is written.

A series is 1,590 bytes: M, K, strike, phase, away bid, away offer, underlying price and the last number given in 4 bytes each, a
byte each for put and exempt, 16 bytes for the makers (1 is blocked), and then the picture of its book (sound_books.py).
"""
import copy
import random
import struct

from price_rules import LADDERS, MPVS, legal
from sound_books import ACROSS, BIG, HOME, base, book_of, entry, picture, random_book, steps_from
from soundness_vectors import ALONE, SLID, is_quote, is_sound, write_table

CLOSED, OPEN, HALTED = 0, 1, 2
NUMBERS = ("m", "k", "strike", "phase", "bid", "offer", "underlying", "given")


# ---- the model ----

def is_sound_series(s):
    m, resting = s["m"], s["entries"][:s["count"]]
    # setup, phase and prices are legal
    if m not in MPVS or not 0 <= s["k"] <= 100 or not 1 <= s["strike"] <= 100000:
        return False
    if s["phase"] not in (CLOSED, OPEN, HALTED):
        return False
    if any(away != 0 and not legal(m, away) for away in (s["bid"], s["offer"])) or not 0 <= s["underlying"] <= 100000:
        return False
    # entry numbers are among those given, at most 1,000,000
    if s["given"] > 1000000:
        return False
    # closed means nothing rests, halted means no quote rests
    if s["phase"] == CLOSED and resting or s["phase"] == HALTED and any(is_quote(e) for e in resting):
        return False
    return is_sound(s)


# ---- series ----

def series(book, **numbers):
    """An open series with legal numbers, but for those that are named."""
    s = dict(k=10, strike=20000, phase=OPEN, bid=0, offer=0, underlying=0, put=0, exempt=0, blocked=[0] * 16, **copy.deepcopy(book))
    s.update(numbers)
    return s


def full(pair, home=None, **numbers):
    """A series with every kind on both sides of its book, away prices and an underlying price; the pair of steps is named by its M."""
    at = steps_from(pair, home or HOME[pair])
    return series(base(pair, home), **dict(dict(bid=at(-5), offer=at(25), underlying=20013), **numbers))


def orders(pair, **numbers):
    """A series whose book has no quote."""
    at = steps_from(pair, HOME[pair])
    return series(book_of(pair, 9, [entry(5, 1, 0, at(0), 3), entry(6, 99, 1, at(10), 9), entry(6, 16, 0, at(-10), 1)]), **numbers)


def empty(pair, **numbers):
    return series(book_of(pair, 0, []), **numbers)


def series_picture(s):
    """The series in bytes."""
    return struct.pack(">8I", *(s[name] for name in NUMBERS)) + bytes((s["put"], s["exempt"])) + bytes(s["blocked"]) + picture(s)


cases = []


def case(s, ought=None):
    assert ought is None or is_sound_series(s) == ought, (len(cases), ought, s)
    cases.append(s)


def each(make, field, values):
    """The series with each of these values in one field, and whether it is sound then."""
    for value, ought in values:
        case(make(**{field: value}), ought)


# ---- clause by clause ----

def setup():
    for m in (0, 1, 2, 3, 4, 5, 6, 9, 10, 11, 15, 20, 100, 256, BIG):
        case(empty(m, phase=CLOSED), m in (1, 5))
        case(empty(m), m in (1, 5))
    # another M with the same book, whose prices are multiples of 10; but what slides by 10, one step of M 5, slides by two steps of M 1
    each(lambda **n: full(5, **n), "m", ((5, True), (1, False), (2, False), (10, False)))
    each(lambda **n: orders(5, **n), "m", ((5, True), (1, True), (2, False), (10, False), (20, False), (100, False)))
    for make in (lambda **n: full(5, **n), lambda **n: empty(1, **n)):
        each(make, "k", ((0, True), (1, True), (99, True), (100, True), (101, False), (102, False), (127, False), (256, False), (BIG, False)))
        each(make, "strike", ((0, False), (1, True), (7, True), (99999, True), (100000, True), (100001, False), (131071, False), (BIG, False)))
    for put in (0, 1):
        for exempt in (0, 1):
            case(full(1, put=put, exempt=exempt), True)


def phases():
    for make in (lambda **n: empty(1, **n), lambda **n: orders(5, **n), lambda **n: full(5, **n)):
        s = make()
        for phase in (0, 1, 2, 3, 4, 255, 256, 257, BIG):
            quoted = any(is_quote(e) for e in s["entries"][:s["count"]])
            case(make(phase=phase), phase == OPEN or phase == CLOSED and s["count"] == 0 or phase == HALTED and not quoted)
    # one entry of each kind and side
    for kind in (1, 2, 3, 4, 5, 6):
        for sell in (0, 1):
            for phase, ought in ((CLOSED, False), (OPEN, True), (HALTED, kind > 4), (3, False)):
                case(series(book_of(1, 1, [entry(kind, 7, sell, 100, 1)]), phase=phase), ought)
    # a quote among orders, wherever it stands
    for place in (0, 31, 63):
        rest = [entry(5, 50, 0, 100 + i, i + 1) for i in range(64)]
        case(series(book_of(1, 64, rest), phase=HALTED), True)
        rest[place] = entry(1 + place % 4, 16, 0, 100 + place, place + 1)
        case(series(book_of(1, 64, rest), phase=HALTED), False)
        case(series(book_of(1, 64, rest)), True)


def prices():
    for m in MPVS:
        # 0 means none
        each(lambda **n: full(m, **n), "bid", ((0, True), (131071, False), *ALONE[m][1:]))
        each(lambda **n: empty(m, phase=CLOSED, **n), "offer", ((0, True), (131071, False), *ALONE[m][1:]))
    # crossed or locked away prices are accepted, among themselves and with the book
    for bid, offer in ((220, 220), (225, 215), (100000, 1), (230, 0), (0, 190)):
        case(full(1, bid=bid, offer=offer), True)
    for make in (lambda **n: full(5, **n), lambda **n: empty(5, phase=CLOSED, **n)):
        each(make, "underlying", ((0, True), (1, True), (7, True), (99999, True), (100000, True), (100001, False), (131071, False), (BIG, False)))


def numbers():
    each(lambda **n: full(5, **n), "given",
         ((0, False), (31, False), (32, True), (33, True), (999999, True), (1000000, True), (1000001, False), (BIG, False)))
    for phase in (CLOSED, OPEN, HALTED):
        each(lambda **n: empty(1, phase=phase, **n), "given", ((0, True), (1, True), (1000000, True), (1000001, False), (BIG, False)))
    for number, given, ought in ((1, 1, True), (1, 0, False), (2, 1, False), (1000000, 1000000, True), (1000000, 999999, False), (1000001, 1000001, False),
                                 (1000001, 1000000, False), (0, 1000000, False), (BIG, BIG, False)):
        case(series(book_of(1, given, [entry(5, 1, 0, 100, number)])), ought)


def places():
    for make, phase in ((empty, CLOSED), (empty, OPEN), (orders, HALTED), (full, OPEN)):
        held = make(5)["count"]
        for count in (held, held + 1, 64, 65, 66, 128, 256, BIG):
            case(make(5, phase=phase, count=count), count == held)
    # nothing rests in a closed series, and nothing stands in the places that are not used
    for phase in (CLOSED, OPEN, HALTED):
        case(orders(1, phase=phase, count=0), False)
        for place in (0, 63):
            s = empty(1, phase=phase)
            s["entries"][place]["kind"] = 5
            case(s, False)
    rng = random.Random(5)
    many = random_book(rng, 64)
    for count, ought in ((63, False), (64, True), (65, False), (BIG, False)):
        case(series(dict(many, count=count)), ought)


def blocked():
    """Blocked makers are no part of soundness, with a quote at rest or without."""
    for maker in range(16):
        case(full(1, blocked=[int(i == maker) for i in range(16)]), True)
    for phase in (CLOSED, OPEN, HALTED):
        case(empty(5, phase=phase, blocked=[1] * 16), True)
    case(orders(5, phase=HALTED, blocked=[1, 0] * 8), True)
    case(full(5, blocked=[1] * 16), True)
    case(full(5, blocked=[1] * 16, k=101), False)


def books():
    """The book's own clauses, through the series."""
    def damaged(make, place, ought, phase=OPEN, **fields):
        s = make(1, phase=phase)
        s["entries"][place].update(fields)
        case(s, ought)

    damaged(full, 0, False, number=3)
    damaged(full, 0, False, party=3)
    damaged(full, 1, False, party=17)
    damaged(full, 5, False, limit=200, working=200)
    damaged(full, 2, False, working=200)
    damaged(full, 3, False, display=223)
    damaged(full, 63, False, quantity=1)
    for phase in (OPEN, HALTED):
        damaged(orders, 0, True, phase, quantity=99999)
        damaged(orders, 0, False, phase, quantity=0)
        damaged(orders, 1, False, phase, party=100)
        damaged(orders, 1, False, phase, number=3)
        damaged(orders, 2, False, phase, working=191)
        damaged(orders, 2, False, phase, kind=7)
        damaged(orders, 1, False, phase, limit=200, working=200)
    # across 300, by each pair
    for m, home in ACROSS:
        case(full(m, home), True)
        case(full(m, home, m=6 - m), False)
        case(full(m, home, m=10), False)
    for m in MPVS:
        for sell, limit in ((0, 400), (1, 200)):
            for display, working, ought in SLID[m][sell]:
                case(series(book_of(m, 1, [entry(4, 7, sell, limit, 1, display=display, working=working)])), ought)
    # sound, though settling would move them: settled is no part of sound
    case(series(book_of(1, 2, [entry(4, 1, 0, 230, 1, display=200, working=200), entry(5, 9, 1, 220, 2)]), offer=300), True)
    case(series(book_of(1, 1, [entry(3, 2, 1, 150, 1, display=180, working=179)]), bid=190), True)


def mixed():
    """Random books under random numbers, and then any number off by one or at random."""
    rng = random.Random(41)
    for turn in range(30):
        b = random_book(rng)
        m = b["m"]
        away = lambda: rng.choice((0, rng.choice(LADDERS[m][1:-1])))
        s = series(b, k=rng.randrange(101), strike=rng.randrange(1, 100001), bid=away(), offer=away(), underlying=rng.randrange(100001),
                   put=rng.randrange(2), exempt=rng.randrange(2), blocked=[rng.randrange(2) for _ in range(16)])
        case(s, True)
        other = copy.deepcopy(s)
        field = rng.choice(NUMBERS)
        other[field] = rng.choice((other[field] + 1, max(other[field] - 1, 0), rng.randrange(200000)))
        case(other)


def every_case():
    for part in (setup, phases, prices, numbers, places, blocked, books, mixed):
        part()
    return cases


def main():
    every_case()
    write_table("test_series", [series_picture(s) for s in cases], ["sound" if is_sound_series(s) else "unsound" for s in cases], "series")


if __name__ == "__main__":
    main()
