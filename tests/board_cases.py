#!/usr/bin/env python3
"""Tries teach/board.py without the session program: what it draws of given lines.

    python3 tests/board_cases.py

Exit status 1, with a line for each case that failed, if any did.
"""

import tools
import random

from board import Board, KINDS, Report, Resting, drawn, in_drawn_order, mark_of
from cases import expect, finish
from model import books, session
from packed import *
from source import one_lesson
from words import Mistake

# The pictures are drawn by hand.  Each lesson: what is sent, the lines that are printed for it, those of the view
# `book` (by rank, so not in the order of the drawing), and the picture.
PICTURES = {"a cancel reveals nothing": ("""\
setup call exempt M 5 K 4 strike 200
open
away 180 210
order sell 50 215 x 10
dark sell 51 215 x 4
mmrp buy 4 220 x 30
cancel 50 #1
away 180 none
""", """\
1 1 0 0 0 0 0 0 0 0
2 1 0 0 0 0 0 0 0 0
3 4 0 1 50 1 0 215 215 10
4 4 0 1 51 2 0 0 215 4
5 4 0 0 4 3 0 205 210 30
6 6 28 1 50 1 0 215 0 10
7 1 0 0 0 0 0 0 0 0
7 3 0 0 4 3 2 215 0 4
7 5 0 0 4 3 0 220 220 26
""", """\
3 1 0 1 50 5 215 215 215 10
4 1 0 1 50 5 215 215 215 10
4 1 1 2 51 6 215 0 215 4
5 1 0 1 50 5 215 215 215 10
5 1 1 2 51 6 215 0 215 4
5 0 0 3 4 4 220 205 210 30
6 1 0 2 51 6 215 0 215 4
6 0 0 3 4 4 220 205 210 30
7 0 0 3 4 4 220 220 220 26
""", """\
0 setup call exempt M 5 K 4 strike 200

1 open
  -- sells above -- away bid none, offer none -- open -- buys below --
  the book is empty

2 away 180 210
  -- sells above -- away bid 180, offer 210 -- open -- buys below --
  the book is empty

3 order sell 50 215 x 10
  entry party  kind          limit  shown  works contracts
      1    50  order           215    215    215        10  new
  -- sells above -- away bid 180, offer 210 -- open -- buys below --
  no buys

4 dark sell 51 215 x 4
  entry party  kind          limit  shown  works contracts
      2    51  dark order      215      -    215         4  new
      1    50  order           215    215    215        10
  -- sells above -- away bid 180, offer 210 -- open -- buys below --
  no buys

5 mmrp buy 4 220 x 30
  entry party  kind          limit  shown  works contracts
      2    51  dark order      215      -    215         4
      1    50  order           215    215    215        10
  -- sells above -- away bid 180, offer 210 -- open -- buys below --
      3     4  MMRP quote      220    205    210        30  new

6 cancel 50 #1
  entry party  kind          limit  shown  works contracts
      2    51  dark order      215      -    215         4
  -- sells above -- away bid 180, offer 210 -- open -- buys below --
      3     4  MMRP quote      220    205    210        30
  gone: entry 1, cancelled for 28 (owner asked)

7 away 180 none
  entry party  kind          limit  shown  works contracts
  no sells
  -- sells above -- away bid 180, offer none -- open -- buys below --
      3     4  MMRP quote      220    220    220        26  was 205/210 x 30
  gone: entry 2, traded away
"""), "refusals, easing, a rejection, a rest that is cancelled, a halt": ("""\
setup call exempt M 1 K 3 strike 200
away none 5
plain buy 3 98 x 5
open
bytes ff ff ff ff ff ff ff ff ff ff ff
away 90 100
away 90 131071
order sell 50 99 x 100
plain buy 3 98 x 5
plain sell 3 105 x 5
mmalo buy 5 101 x 1
mmrp buy 3 103 x 101
mmlo buy 6 100 x 1
away 90 98
halt
phase 3
""", """\
1 1 0 0 0 0 0 0 0 0
2 refused 5
3 1 0 0 0 0 0 0 0 0
4 refused 1
5 1 0 0 0 0 0 0 0 0
6 refused 3
7 4 0 1 50 1 0 99 99 100
8 4 0 0 3 2 0 98 98 5
9 4 0 1 3 3 0 105 105 5
10 4 0 0 5 4 0 98 98 1
11 6 27 0 3 2 0 98 0 5
11 3 0 0 3 5 1 99 0 100
11 6 22 0 3 5 0 103 0 1
11 6 29 1 3 3 0 105 0 5
11 5 0 0 5 4 0 99 100 1
12 2 20 0 6 6 0 100 0 1
13 1 0 0 0 0 0 0 0 0
13 5 0 0 5 4 0 99 99 1
14 1 0 0 0 0 0 0 0 0
14 6 31 0 5 4 0 101 0 1
15 refused 4
""", """\
7 1 0 1 50 5 99 99 99 100
8 1 0 1 50 5 99 99 99 100
8 0 0 2 3 1 98 98 98 5
9 1 0 1 50 5 99 99 99 100
9 0 0 2 3 1 98 98 98 5
9 1 1 3 3 1 105 105 105 5
10 1 0 1 50 5 99 99 99 100
10 0 0 2 3 1 98 98 98 5
10 1 1 3 3 1 105 105 105 5
10 0 1 4 5 3 101 98 98 1
11 0 0 4 5 3 101 99 100 1
12 0 0 4 5 3 101 99 100 1
13 0 0 4 5 3 101 99 99 1
""", """\
0 setup call exempt M 1 K 3 strike 200

1 away none 5
  -- sells above -- away bid none, offer 5 -- closed -- buys below --
  the book is empty

2 plain buy 3 98 x 5
  refused for 5 (the series is not open)
  -- sells above -- away bid none, offer 5 -- closed -- buys below --
  the book is empty

3 open
  -- sells above -- away bid none, offer 5 -- open -- buys below --
  the book is empty

4 bytes ff ff ff ff ff ff ff ff ff ff ff
  refused for 1 (no message: length, kind, an unused bit or field that is not 0)
  -- sells above -- away bid none, offer 5 -- open -- buys below --
  the book is empty

5 away 90 100
  -- sells above -- away bid 90, offer 100 -- open -- buys below --
  the book is empty

6 away 90 131071
  refused for 3 (price out of range or off the grid)
  -- sells above -- away bid 90, offer 100 -- open -- buys below --
  the book is empty

7 order sell 50 99 x 100
  entry party  kind          limit  shown  works contracts
      1    50  order            99     99     99       100  new
  -- sells above -- away bid 90, offer 100 -- open -- buys below --
  no buys

8 plain buy 3 98 x 5
  entry party  kind          limit  shown  works contracts
      1    50  order            99     99     99       100
  -- sells above -- away bid 90, offer 100 -- open -- buys below --
      2     3  plain quote      98     98     98         5  new

9 plain sell 3 105 x 5
  entry party  kind          limit  shown  works contracts
      3     3  plain quote     105    105    105         5  new
      1    50  order            99     99     99       100
  -- sells above -- away bid 90, offer 100 -- open -- buys below --
      2     3  plain quote      98     98     98         5

10 mmalo buy 5 101 x 1
  entry party  kind          limit  shown  works contracts
      3     3  plain quote     105    105    105         5
      1    50  order            99     99     99       100
  -- sells above -- away bid 90, offer 100 -- open -- buys below --
      2     3  plain quote      98     98     98         5
      4     5  MMALO quote     101     98     98         1  new

11 mmrp buy 3 103 x 101
  entry party  kind          limit  shown  works contracts
  no sells
  -- sells above -- away bid 90, offer 100 -- open -- buys below --
      4     5  MMALO quote     101     99    100         1  was 98/98
  gone: entry 2, cancelled for 27 (replaced)
  never rested: entry 5, 100 contracts traded, the rest cancelled for 22 (would
    be shown more than K steps from its limit)
  gone: entry 1, traded away
  gone: entry 3, cancelled for 29 (the rest of the maker's quote on the opposite
    side was cancelled)

12 mmlo buy 6 100 x 1
  entry party  kind          limit  shown  works contracts
  no sells
  -- sells above -- away bid 90, offer 100 -- open -- buys below --
      4     5  MMALO quote     101     99    100         1
  never rested: entry 6, rejected for 20 (at or through the away price)

13 away 90 98
  entry party  kind          limit  shown  works contracts
  no sells
  -- sells above -- away bid 90, offer 98 -- open -- buys below --
      4     5  MMALO quote     101     99     99         1  was 99/100

14 halt
  -- sells above -- away bid 90, offer 98 -- halted -- buys below --
  the book is empty
  gone: entry 4, cancelled for 31 (phase)

15 phase 3
  refused for 4 (quantity or phase out of range)
  -- sells above -- away bid 90, offer 98 -- halted -- buys below --
  the book is empty
"""), "no message at all": ("setup put tested M 1 K 10 strike 200\n", "", "", """\
0 setup put tested M 1 K 10 strike 200
"""), "a setup that is refused": ("setup bytes 44 50\n", "0 refused 1\n", "0 refused 1\n", """\
the setup is refused for 1 (2 bytes, and a setup has 4): no series
"""), "a setup that is refused before messages": (
    "setup call exempt M 10 K 10 strike 200\nopen\n", "0 refused 1\n", "0 refused 1\n", """\
the setup is refused for 1 (M 10 names no pair of steps: M is 1 or 5): no series
""")}

# An entry before and after a message: display, working price and quantity; and the mark at its right.
MARKS = [
    ((205, 210, 30), (205, 210, 30), ""), ((205, 210, 30), (210, 210, 30), "was 205/210"),
    ((205, 210, 30), (205, 205, 30), "was 205/210"), ((205, 210, 40), (205, 210, 39), "was 40 contracts"),
    ((205, 210, 1), (205, 210, 2), "was 1 contract"), ((205, 210, 30), (220, 220, 26), "was 205/210 x 30"),
    ((0, 210, 40), (0, 210, 39), "was 40 contracts"), (None, (205, 210, 30), "new"),
]
# The largest numbers that there are: a mark that is too long for its line stands below.
LARGEST = """\
1000000 away 100000 100000
  entry party  kind          limit  shown  works contracts
  no sells
  -- sells above -- away bid 100000, offer 100000 -- closed -- buys below --
  1000000    16  MMALO quote  100000 100000 100000         1
                                                        was 99999/100000 x 99999
"""
# What no program prints for the view `book`.
NO_LINES = ["", "open", "1 1 0 0 0 0 0 0 0 0", "3 4 0 1 50 1 0 215 215 10", "3 1 0 1 50 5 215 215 215",
            "3 1 0 1 50 5 215 215 215 10 0", "3 2 0 1 50 5 215 215 215 10", "3 1 0 1 50 7 215 215 215 10",
            "3 1 0 1 50 5 215 -1 215 10", "3  1 0 1 50 5 215 215 215 10", "1 refused 1"]


def data_of(text):
    return bytes(one_lesson(text.encode(), "a picture").data)


def try_pictures():
    for name, (text, lines, book, picture) in PICTURES.items():
        data = data_of(text)
        expect(name + ": its lines", session(data), lines.splitlines())
        expect(name + ": its books", books(data), book.splitlines())
        expect(name, drawn(data, lines.splitlines(), book.splitlines()), picture.splitlines())


def resting(side=BUY, place=0, entry=1, party=16, kind=MMALO, limit=100000, display=100000, working=100000, quantity=1):
    return Resting(side, place, entry, party, kind, limit, display, working, quantity)


def try_marks():
    for before, after, mark in MARKS:
        old, new = (fields and resting(display=fields[0], working=fields[1], quantity=fields[2])
                    for fields in (before, after))
        expect("a mark: %s %s" % (before, after), mark_of(new, old), mark)
    board = Board()
    board.book = {1000000: resting(entry=1000000, display=99999, quantity=99999)}
    message = Message(AWAY, price=100000, second=100000).pack()
    told = board.after(1000000, message, [Report(NOTED, *[0] * 8)], [resting(entry=1000000)])
    expect("the largest numbers", told, LARGEST.splitlines())


def try_no_lines():
    text, lines, book, _ = PICTURES["a cancel reveals nothing"]
    data, lines, book = data_of(text), lines.splitlines(), book.splitlines()
    for case in [(lines, book + [line]) for line in NO_LINES] + [
            (lines[:-3], book), (lines, book + ["8" + book[0][1:]]), (lines, ["0" + book[0][1:]])]:
        try:
            drawn(data, *case)
            expect("a drawing of %r" % (case,), "a picture", "a mistake")
        except Mistake as mistake:
            expect("a drawing of %r" % (case,), "; expected: " in str(mistake), True)


def try_lines():
    """The lines of `book --lines` stand in the order of the drawing."""
    expect("--lines of no series", in_drawn_order(["0 refused 1"]), ["0 refused 1"])
    expect("--lines of nothing", in_drawn_order([]), [])
    wanted = ["5 1 1 2 51 6 215 0 215 4", "5 1 0 1 50 5 215 215 215 10", "5 0 0 3 4 4 220 205 210 30",
              "5 0 1 4 50 5 200 200 200 1", "6 0 0 3 4 4 220 205 210 30"]
    for order in ((3, 0, 2, 1, 4), (0, 1, 2, 3, 4), (1, 3, 0, 2, 4)):
        expect("--lines of %s" % (order,), in_drawn_order([wanted[place] for place in order]), wanted)


def first_of(side):
    return str(min(side, key=lambda entry: entry.place).entry) if side else "no"


def try_any_book():
    """Whatever rests: at most 80 columns, every entry once, who trades first nearest to the middle."""
    dice = random.Random(1)
    for number in range(300):
        top = dice.choice((100, 1000000))
        book = [resting(side, place, 0, dice.randint(1, 99), dice.choice(list(KINDS)), *dice.choices(range(top // 10 + 1), k=4))
                for side in (BUY, SELL) for place in range(dice.randint(0, 9))]
        book = [entry._replace(entry=given) for entry, given in zip(book, dice.sample(range(1, top + 1), len(book)))]
        dice.shuffle(book)
        ordered = in_drawn_order(["1 " + " ".join(map(str, entry)) for entry in book])
        picture = Board().picture([Resting(*map(int, line.split()[1:])) for line in ordered])
        rows = [line.split() for line in picture if line[:9].strip().isdigit()]
        expect("entries of a picture", [row[0] for row in rows], [line.split()[3] for line in ordered])
        middle = [place for place, line in enumerate(picture) if line.startswith("  -- ")]
        sells = [entry for entry in book if entry.side == SELL]
        expect("columns", max(map(len, picture)) <= 80, True)
        if book:
            expect("the middle of a picture", middle, [1 + (len(sells) or 1)])
            nearest = picture[middle[0] - 1].split()[0]
            expect("who sells first", nearest, first_of(sells))
            nearest = picture[middle[0] + 1].split()[0]
            expect("who buys first", nearest, first_of([entry for entry in book if entry.side == BUY]))


if __name__ == "__main__":
    for part in (try_pictures, try_marks, try_no_lines, try_lines, try_any_book):
        part()
    finish("board_cases", "%d lessons are drawn as by hand, %d marks are right, and any book fits the board"
           % (len(PICTURES), len(MARKS)))
