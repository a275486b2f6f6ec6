#!/usr/bin/env python3
"""Tries teach/reasons.py without the session program: what `tell` says of a report by the reason that stands beside it,
and teach/causes.py: what it says of a price or a setup that is refused.

    python3 tests/reason_cases.py

Exit status 1, with a line for each case that failed, if any did.  tests/front_door.py puts the same lessons to the program.
"""

import tools
import os
import random
import re
import tempfile
from collections import Counter

from board import drawn
from cases import HERE, every_lesson, expect, finish, read
from lesson_cases import made_up, reason_told, told
from model import Series, books, open_series, session
from packed import *
from reason_lessons import LESSONS, read_lesson
from reasons import SENTENCES, Offers, Reasons
from sentences import Teller
from source import one_lesson
from words import Mistake


def kept(data):
    """The file of a recorded lesson."""
    with open("mine.bin", "wb") as file:
        file.write(data)
    return "mine.bin"


def try_lessons():
    rules = set()
    for name, text in LESSONS.items():
        data, whys, said = read_lesson(text)
        lines = session(data)
        expect(name, session(data, "why"), whys)
        status, out, err = told(kept(data), lines, whys, books(data))
        expect(name, (status, err), (0, ""))
        expect(name, [reason_told(line) for line in out.splitlines()], said)
        rules |= {tuple(line.split()[2:4]) for line in lines if line.split()[1] in ("2", "6")}
    wanted = {(str(rule), str(side)) for rule, forms in SENTENCES.items() for side in (BUY, SELL) if forms[side]}
    expect("every rule and side has its case", wanted - rules, set())


def try_recorded():
    """Every lesson whose reasons stand beside it: each is said, with its two figures and no others."""
    count = 0
    for path in every_lesson():
        if os.path.exists(path[:-4] + ".why"):
            data, whys = read(path, "rb"), read(path[:-4] + ".why").splitlines()
            status, out, err = told(path, read(path[:-4] + ".out").splitlines(), whys, books(data))
            expect("tell " + path, (status, err), (0, ""))
            figures = [[] if why.endswith(" 0 0") else why.split()[3:] for why in whys]
            expect("figures of " + path, [re.findall(r"\d+", reason_told(line)) for line in out.splitlines()], figures)
            count += 1
    expect("there are such lessons", count > 0, True)


# ---------------------------------------------------------------- which half of 24

def random_lesson(dice):
    """Away offers, sells and bids round a dollar, among them bids of which the figures tell no half."""
    lines = ["setup call exempt M 1 K 100 strike 200", "open"]
    for _ in range(60):
        price, bid = dice.choice((1, 50, 99, 100, 101, 150, 199, 200)), dice.choice((150, 199, 200, 202, 300, 395, 400))
        lines.append(dice.choice((
            "away %s %s" % (dice.choice(("none", 40, 99, 100)), dice.choice(("none", price, 131071))),
            "%s sell %d %d x 1" % (dice.choice(("order", "dark")), dice.randint(20, 22), price),
            "%s sell %d %d x 1" % (dice.choice(("plain", "mmrp", "mmalo")), dice.randint(1, 5), price),
            "cancel %d #%d" % (dice.randint(20, 22), dice.randint(1, 40)), "withdraw %d sell" % dice.randint(1, 5),
            "plain buy %d %d x 1" % (dice.randint(1, 5), bid))))
    return bytes(one_lesson("\n".join(lines).encode(), "a lesson").data)


def nbos_of(data):
    """NBO as each message comes, by the model."""
    series, nbos = open_series(data[:4]), []
    for message in messages_of(data):
        nbos.append(series.nbo(BUY))
        series.handle(message)
    return nbos


def try_halves():
    """Whatever rests: a bid stopped by 24 is told by the half that the model's own NBO is in."""
    dice, met = random.Random(1), Counter()
    for _ in range(60):
        data = random_lesson(dice)
        lines, nbos, wanted = session(data), nbos_of(data), {}
        whys = made_up(lines)
        for at, line in enumerate(lines):
            if not re.match(r"\d+ 2 24 0 ", line):
                continue
            number, bid = int(line.split()[0]), int(line.split()[7])
            nbo = nbos[number - 1]
            figures = (bid, nbo + 100) if nbo <= 100 else (2 * (bid - nbo), nbo)
            whys[at] = "%d 0 24 %d %d" % (number, *figures)
            wanted[at] = ("bid %d is not below %d, a dollar above NBO" if nbo <= 100 else
                          "twice what the bid is above NBO comes to %d, not less than NBO itself, %d") % figures
            met[nbo <= 100, bid == 2 * figures[1]] += 1
        out = told(kept(data), lines, whys, books(data))[1].split("\n")
        expect("24 in %s" % data.hex(), {at: reason_told(out[at]) for at in wanted}, wanted)
    often = [met[is_small, is_open] >= 5 for is_small in (0, 1) for is_open in (0, 1)]
    expect("both halves, where the figures tell them and where not", often, [True] * 4)


# ---------------------------------------------------------------- reasons of other reports

LINES = ["1 1 0 0 0 0 0 0 0 0", "2 2 20 0 3 1 0 225 0 1", "2 6 30 0 3 2 0 219 0 1", "3 refused 8", "4 4 0 1 3 3 0 230 230 1",
         "5 2 24 1 3 4 0 50 0 1", "5 6 22 0 3 4 0 50 0 1", "5 2 23 0 3 4 0 50 0 1", "5 2 23 1 3 4 0 50 0 1", "5 2 21 1 3 4 0 50 0 1"]
WHYS = ["1 0 none", "2 0 20 225 220", "2 1 30 0 0", "3 refused 8", "4 0 none", "5 0 24 102 101", "5 1 22 4 3", "5 2 23 0 1",
        "5 3 23 100005 100000", "5 4 21 199 200"]
# The place of a line above, and what may not stand beside it.
OTHERS = [
    (0, ""), (0, "1 0 none "), (0, "1  0 none"), (0, "1 1 none"), (0, "2 0 none"), (0, "1 0 20 5 5"), (0, "1 refused 1"),
    (0, "1 0 none 0 0"), (1, "2 0 none"), (1, "2 0 21 225 220"), (1, "2 0 20 225"), (1, "2 0 20 225 220 0"), (1, "2 0 20 225 x"),
    (1, "2 0 20 219 220"), (1, "2 0 20 -1 -2"), (1, "2 1 20 225 220"), (1, "3 0 20 225 220"), (2, "2 1 30 1 0"), (2, "2 1 30 0 1"),
    (2, "2 0 30 0 0"), (2, "2 1 30"), (3, "3 refused 1"), (3, "3 0 none"), (3, "4 refused 8"), (4, "4 0 20 5 5"),
    (5, "5 0 24 100 101"), (5, "5 0 20 102 101"), (6, "5 1 22 3 3"), (6, "5 1 22 2 3"), (7, "5 2 23 1 1"), (7, "5 2 23 2 1"),
    (8, "5 3 23 100000 100000"), (9, "5 4 21 201 200"),
]


def teller():
    return Teller(None, Reasons(Offers([Message(PHASE, quantity=1).pack()], [])))


def try_others():
    """A reason that is not of its report, or does not hold of its figures, is not said."""
    for place, other in [(len(LINES), None)] + OTHERS:
        one = teller()
        for line, why in list(zip(LINES, WHYS))[:place]:
            expect("beside %s: %s" % (line, why), one.sentence(line, why) != "", True)
        if other is None:
            continue
        try:
            expect("beside %s: %r" % (LINES[place], other), one.sentence(LINES[place], other), "a mistake")
        except Mistake as mistake:
            expect("beside %s: %r" % (LINES[place], other), "; expected: " in str(mistake), True)
    data, whys, _ = read_lesson(LESSONS["20: at the away price and through it, quotes and orders, with and without a trade"])
    lines, book = session(data), books(data)
    for wrong in (whys[:-1], whys + whys[-1:], whys[:4] + whys[5:]):
        status, out, err = told(kept(data), lines, wrong, book)
        expect("%d reasons for %d lines" % (len(wrong), len(lines)), (status, err[:5], "; expected: " in err), (1, "line ", True))
    for rule in (25, 26):
        for side, said in ((BUY, True), (SELL, False)):
            try:
                one = teller().sentence("1 2 %d %d 3 1 0 200 0 1" % (rule, side), "1 0 %d 200 200" % rule)
            except Mistake:
                one = ""
            expect("%d on side %d" % (rule, side), one != "", said)


# ---------------------------------------------------------------- refused prices and setups

M_1, M_5 = "setup call exempt M 1 K 3 strike 200", "setup put tested M 5 K 0 strike 100000"
# Setup, message, and what `tell` says of its price; worked out from document 01's ranges and document 02, 2's steps.
REFUSED = [
    (M_1, "order buy 50 304 x 1", "limit 304 is off the grid, between 300 and 305"),
    (M_1, "mmrp sell 4 301 x 10", "limit 301 is off the grid, between 300 and 305"),
    (M_1, "mmalo buy 4 306 x 10", "limit 306 is off the grid, between 305 and 310"),
    (M_1, "mmlo buy 4 99999 x 10", "limit 99999 is off the grid, between 99995 and 100000"),
    (M_1, "plain sell 4 0 x 10", "limit 0 is out of range, which is 1 to 100000"),
    (M_1, "dark sell 50 100001 x 1", "limit 100001 is out of range, which is 1 to 100000"),
    (M_1, "away 299 303", "away offer 303 is off the grid, between 300 and 305"),
    (M_1, "away 302 303", "away bid 302 is off the grid, between 300 and 305"),
    (M_1, "away none 131071", "away offer 131071 is out of range, which is 1 to 100000"),
    (M_1, "away 100005 none", "away bid 100005 is out of range, which is 1 to 100000"),
    (M_1, "underlying 100001", "underlying 100001 is above 100000"),
    (M_5, "order sell 50 297 x 1", "limit 297 is off the grid, between 295 and 300"),
    (M_5, "dark buy 50 299 x 1", "limit 299 is off the grid, between 295 and 300"),
    (M_5, "plain buy 3 305 x 1", "limit 305 is off the grid, between 300 and 310"),
    (M_5, "mmlo sell 3 6 x 1", "limit 6 is off the grid, between 5 and 10"),
    (M_5, "mmalo sell 3 4 x 1", "limit 4 is out of range, which is 5 to 100000"),
    (M_5, "mmrp sell 3 99995 x 1", "limit 99995 is off the grid, between 99990 and 100000"),
    (M_5, "away 3 none", "away bid 3 is out of range, which is 5 to 100000"),
    (M_5, "away 295 305", "away offer 305 is off the grid, between 300 and 310"),
    (M_5, "underlying 131071", "underlying 131071 is above 100000"),
]
# Such are refused for something else, or for nothing.
NOT_FOR_3 = [(M_1, "away none none"), (M_1, "away 299 305"), (M_5, "away 5 100000"), (M_5, "away 295 310"), (M_5, "underlying 303"),
             (M_1, "underlying none"), (M_5, "underlying 100000"), (M_1, "order buy 50 1 x 0"), (M_5, "dark buy 50 300 x 0"),
             (M_1, "cancel 50 #304"), (M_1, "withdraw 3 buy"), (M_1, "enable 0"), (M_1, "phase 304"), (M_1, "bytes 40 60 07")]


def try_refused_prices():
    for setup, words, wrong in REFUSED:
        data = bytes(one_lesson(("%s\n%s\n" % (setup, words)).encode(), "a lesson").data)
        expect(words, session(data), ["1 refused 3"])
        said = "%-34s  message 1 is refused for 3 (price: %s): %s\n" % ("1 refused 3", wrong, words)
        expect(words, told(kept(data), session(data)), (0, said, ""))
    for setup, words in NOT_FOR_3:
        data = bytes(one_lesson(("%s\n%s\n" % (setup, words)).encode(), "a lesson").data)
        expect(words, session(data)[0] != "1 refused 3", True)
        out = told(kept(data), ["1 refused 3"])[1]
        expect("another's refusal of " + words, "(price out of range or off the grid): " + words in out, True)


NO_PAIR = "M %d names no pair of steps: M is 1 or 5"
# Setups that are refused, and all that is wrong with each.
NO_SETUPS = [
    ("call exempt M 10 K 3 strike 200", NO_PAIR % 10), ("put tested M 0 K 100 strike 100000", NO_PAIR % 0), ("call tested M 2 K 0 strike 1", NO_PAIR % 2),
    ("call exempt M 1 K 101 strike 200", "K 101 is above 100"), ("put exempt M 5 K 127 strike 200", "K 127 is above 100"),
    ("call exempt M 1 K 3 strike 0", "strike 0 is out of range, which is 1 to 100000"),
    ("call exempt M 5 K 3 strike 100001", "strike 100001 is out of range, which is 1 to 100000"),
    ("call exempt M 15 K 101 strike 131071", NO_PAIR % 15 + "; K 101 is above 100; strike 131071 is out of range, which is 1 to 100000"),
    ("bytes", "0 bytes, and a setup has 4"), ("bytes 44", "1 byte, and a setup has 4"), ("bytes 44 50 03", "3 bytes, and a setup has 4"),
    # 0 1 0001 0001010 00000000011001000 and two bits: call exempt M 1 K 10 strike 200
    ("bytes 44 50 03 21", "one of the last two bits is not 0"), ("bytes 44 50 03 22", "one of the last two bits is not 0"),
    ("bytes 68 50 03 23", NO_PAIR % 10 + "; one of the last two bits is not 0"),
]


def try_refused_setups():
    for words, wrong in NO_SETUPS:
        data = bytes(one_lesson(("setup %s\n" % words).encode(), "a lesson").data)
        data += Message(PHASE, quantity=OPEN).pack() if len(data) == 4 else b""
        expect(words, session(data), ["0 refused 1"])
        sentence = "the setup is refused for 1 (%s): no series" % wrong
        expect(words, told(kept(data), session(data)), (0, "%-34s  %s\n" % ("0 refused 1", sentence), ""))
        expect("book of " + words, " ".join(" ".join(drawn(data, session(data), books(data))).split()), sentence)


if __name__ == "__main__":
    Series.checks = False
    with tempfile.TemporaryDirectory() as folder:
        os.chdir(folder)
        for part in (try_lessons, try_recorded, try_halves, try_others, try_refused_prices, try_refused_setups):
            part()
        os.chdir(HERE)
    finish("reason_cases", "%d lessons, %d refused prices and %d refused setups are told why as by hand, %d reasons of other reports are not said"
           % (len(LESSONS), len(REFUSED), len(NO_SETUPS), len(OTHERS)))
