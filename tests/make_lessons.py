#!/usr/bin/env python3
"""Makes tests/lessons/NAME.bin, NAME.out and NAME.why.

    python3 tests/make_lessons.py           writes the lessons
    python3 tests/make_lessons.py --check   only says whether they are up to date

The short lessons stand in tests/lesson_sources/*.txt, in the form that source.py
reads.  The indented lines below a message are the reports it must give, worked
out by hand from document 01 and the steps of document 02, 2; below `setup` stands
what a refused setup prints.
Below a report of 20 to 26 stand the two figures that the rule compares, worked
out by hand too, as in `# why: 220 against 219`.  With these the reports say what
view why prints.  A lesson is written only if the model agrees with every line.

The long lessons stand below, as programs.  Their output is the model's.
"""

import tools
import glob
import os
import re
import sys
from itertools import zip_longest

from model import session
from source import read_lessons
from words import Mistake, message_bytes, setup_bytes

HERE = os.path.dirname(os.path.abspath(__file__))
FIGURES = re.compile(r"\s+# why: (\d+) against (\d+)\s*$")


# ---------------------------------------------------------------- the long lessons

SETUP = "call exempt M 1 K 100 strike 200"


def from_300(steps, small=1, large=5):
    """The price that many steps above 300, or below it."""
    return 300 + steps * (small if steps < 0 else large)


def full_book():
    """64 entries rest: what is refused, what replaces, what a sweep takes, how it closes."""
    lines = ["open", "away none 500"]
    lines += ["mmrp sell %d %d x 2" % (maker, 200 + maker) for maker in range(1, 9)]
    lines += ["mmalo buy %d 210 x 3" % maker for maker in range(1, 9)]
    lines += ["order sell 50 %d x 1" % (230 + i % 7) for i in range(24)]
    lines += ["dark buy 51 %d x 1" % (150 + i % 5) for i in range(24)]
    lines += ["plain sell 9 300 x 1", "order buy 52 1 x 1", "dark sell 52 100000 x 1",
              "order buy 52 201 x 1"]                       # it would only trade: refused
    lines += ["plain sell 3 290 x 1", "mmrp sell 3 203 x 4", "mmalo buy 4 205 x 9"]
    lines += ["cancel 50 #17", "plain sell 9 300 x 1", "plain sell 10 300 x 1"]
    lines += ["cancel 51 #60", "away none none", "order buy 53 240 x 500", "away 1 2", "close"]
    return SETUP, lines


def blocked_in_a_full_book():
    """A blocked maker in a full book: 6 is tested before 7."""
    lines = ["open", "underlying 100", "plain buy 3 90 x 1", "mmrp buy 3 100 x 1"]
    lines += ["order buy 50 %d x 1" % (10 + i) for i in range(64)]
    lines += ["plain buy 3 9 x 1", "plain buy 4 9 x 1", "order buy 50 9 x 1", "cancel 50 #1",
              "enable 3", "plain buy 3 9 x 1", "cancel 50 #5", "plain buy 3 9 x 1",
              "plain buy 3 100 x 1", "plain buy 4 9 x 1"]
    return "call tested M 1 K 10 strike 200", lines


def long_settling_of_sells():
    """64 entries, and one away move that settles in hundreds of steps: MMALO sells follow
    an MMRP sell that takes buy after buy, first above 300 and then below."""
    lines = ["open", "away %d %d" % (from_300(30), from_300(10))]
    lines += ["%s buy %d %d x 1" % (("mmrp", "mmalo")[i % 2], i + 1, from_300(29 - i)) for i in range(16)]
    lines += ["mmalo sell %d %d x 1" % (maker, from_300(-69)) for maker in range(1, 16)]
    lines += ["mmrp sell 16 %d x 99999" % from_300(-69)]
    lines += ["%s buy 50 %d x 1" % (("dark", "order")[i % 2], from_300(8 - i)) for i in range(32)]
    return SETUP, lines + ["away none none", "close"]


def one_order_takes_64():
    """64 entries rest on one side: an order is refused by 7, then takes the other 63."""
    lines = ["open"] + ["order sell 50 %d x %d" % (200 + i // 4, i + 1) for i in range(60)]
    lines += ["dark sell 50 %d x 1" % (200 + i) for i in range(3)]
    lines += ["mmrp sell 3 190 x 5", "mmrp sell 3 205 x 5", "order buy 51 300 x 99999",
              "withdraw 3 sell", "order buy 51 300 x 99999", "close"]
    return SETUP, lines


def both_sides_climb():
    """Sliding quotes on both sides at M 5, far above 300: away prices walk up and down, by steps of 10."""
    lines = ["open", "away 2000 2100"]
    lines += ["mmrp buy %d %d x 5" % (maker, 2090 + 10 * maker) for maker in range(1, 7)]
    lines += ["mmalo sell %d %d x 5" % (maker, 2150 - 10 * maker) for maker in range(7, 13)]
    lines += ["dark sell 50 2130 x 4", "dark buy 50 2060 x 4"]
    for offer in (2090, 2080, 2110, 2130, 2070, 2150):
        lines += ["away %d %d" % (offer - 90, offer), "away %d %d" % (offer + 20, offer)]
    return SETUP.replace("M 1", "M 5"), lines + ["away none none", "close"]


def both_sides_cross_300(m, pair):
    """Sliding quotes on both sides: the away offer climbs across 300 and falls, then the away bid falls across it and climbs."""
    at = lambda steps: from_300(steps, *pair)
    lines = ["open", "away %d %d" % (at(6), at(-3))]
    lines += ["%s buy %d %d x 5" % (("mmrp", "mmalo")[maker % 2], maker, at(maker - 3)) for maker in range(1, 7)]
    lines += ["%s sell %d %d x 12" % (("mmalo", "mmrp")[maker % 2], maker, at(3 - maker)) for maker in range(1, 7)]
    lines += ["away %d %d" % (at(6), at(offer)) for offer in (-2, -1, 0, 1, 2, 3, 1, 0, -3)]
    lines += ["away %d %d" % (at(bid), at(-3)) for bid in (5, 4, 3, 2, 1, 0, -1, -2, 0, 2)]
    return SETUP.replace("M 1", "M %d" % m), lines + ["away none none", "close"]


def reason_behind_many_trades():
    """A quote that takes twelve orders: the reason for its rest stands at place 12, and 29 behind it."""
    lines = ["open"] + ["order sell 50 %d x 1" % (100 + i) for i in range(12)]
    lines += ["plain sell 3 200 x 1", "away none 111", "plain buy 3 112 x 20", "away none none"]
    lines += ["order buy 50 %d x 1" % (111 - i) for i in range(12)]
    lines += ["plain buy 3 50 x 1", "away 100 none", "mmrp sell 3 90 x 20", "close"]
    return SETUP.replace("K 100", "K 10"), lines


LONG = {"full-book-of-64": full_book, "blocked-maker-in-a-full-book": blocked_in_a_full_book,
        "long-settling-of-sells-in-a-full-book": long_settling_of_sells,
        "one-order-against-64-entries": one_order_takes_64,
        "away-prices-walk-with-m-5": both_sides_climb,
        "away-prices-walk-across-300-with-m-1": lambda: both_sides_cross_300(1, (1, 5)),
        "away-prices-walk-across-300-with-m-5": lambda: both_sides_cross_300(5, (5, 10)),
        "why-a-reason-behind-many-trades": reason_behind_many_trades}


# ---------------------------------------------------------------- the short lessons

def figures_of(path):
    """{lesson: {report: its figures}}: what stands below reports, which are counted through the lesson."""
    figures, name, reports = {}, None, 0
    with open(path) as file:
        for line in file:
            if line.startswith("lesson "):
                name, reports = line.split()[1], 0
                figures[name] = {}
            elif FIGURES.match(line):
                figures[name][reports - 1] = tuple(map(int, FIGURES.match(line).groups()))
            elif line[0].isspace() and line.strip() and not line.lstrip().startswith("#"):
                reports += 1
    return figures


def why_by_hand(name, expected, figures):
    """The lines of view why that a source says by its reports and the figures below them."""
    lines, last, place = [], None, 0
    for report, line in enumerate(expected):
        number, kind, reason = line.split()[:3]
        last, place = number, place + 1 if number == last else 0
        stopped = kind in ("2", "6") and int(reason) < 27
        if stopped != (report in figures):
            sys.exit("%s: %r has %s" % (name, line, "no figures" if stopped else "figures, and compares nothing"))
        told = "%s %d %d" % (reason, *figures.get(report, (0, 0))) if kind in ("2", "6") else "none"
        lines.append(line if kind == "refused" else "%s %d %s" % (number, place, told))
    return lines


def agree(name, by_hand, lines):
    if lines != by_hand:
        pairs = zip_longest(by_hand, lines, fillvalue="(nothing)")
        wrong = next(pair for pair in pairs if pair[0] != pair[1])
        sys.exit("%s: the source says %r, the model says %r" % (name, *wrong))


def all_lessons():
    """{name: bytes}, of the short lessons those that the model agrees with."""
    lessons = {}
    for path in sorted(glob.glob(os.path.join(HERE, "lesson_sources", "*.txt"))):
        figures = figures_of(path)
        for lesson in read_lessons(path):
            assert lesson.name, "a lesson of %s has no name" % path
            assert lesson.name not in lessons, "two lessons are named " + lesson.name
            data = lessons[lesson.name] = bytes(lesson.data)
            agree(lesson.name, lesson.expected, session(data))
            agree(lesson.name, why_by_hand(lesson.name, lesson.expected, figures[lesson.name]), session(data, "why"))
    for name, program in LONG.items():
        setup, messages = program()
        lessons[name] = setup_bytes(setup) + b"".join(message_bytes(line) for line in messages)
    return lessons


def files_of(data):
    """What is written of a lesson: its bytes, and what must be printed in view reports and in view why."""
    texts = {suffix: "".join(line + "\n" for line in session(data, view)).encode()
             for suffix, view in ((".out", "reports"), (".why", "why"))}
    return {".bin": data, **texts}


def main(arguments):
    folder, stale = os.path.join(HERE, "lessons"), []
    os.makedirs(folder, exist_ok=True)
    lessons = all_lessons()
    for name, data in lessons.items():
        for suffix, content in files_of(data).items():
            path = os.path.join(folder, name + suffix)
            if arguments == ["--check"]:
                if not os.path.exists(path) or open(path, "rb").read() != content:
                    stale.append(name + suffix)
            else:
                with open(path, "wb") as file:
                    file.write(content)
    if stale:
        sys.exit("not up to date: " + " ".join(stale))
    print("%d lessons, %d of them worked out by hand" % (len(lessons), len(lessons) - len(LONG)))


if __name__ == "__main__":
    try:
        main(sys.argv[1:])
    except Mistake as mistake:
        sys.exit(str(mistake))
