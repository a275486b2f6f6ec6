#!/usr/bin/env python3
"""Runs a program under test beside the model and stops at the first difference.

    python3 tests/compare.py [--sessions N] [--messages M] [--seed S] [--seconds T]
                             [--lessons DIR]... [--keep FILE] [--view reports|book|why]
                             PROGRAM [ARGS..]

PROGRAM reads a session on standard input and prints its lines: in view reports (the
default) those of its reports, in view book those of the book after each message, in view
why the reason of each report.  First come the lessons: every DIR/NAME.bin must give
NAME.out, in view why NAME.why where there is one, from the model too; of the book
there is no such file, and the model alone says what must be printed.  Then N
generated sessions of M messages, in all flavours by turns; in view why two of three are
of why_sessions.py.  After T seconds no new session is begun; a program that takes 30
seconds over one session is stopped and counts as differing.

At a difference it shows the session, the message in words and both outputs
round it, and writes the session's bytes to FILE.  The last line says how many
sessions and messages agreed.  The exit status is 0 only if every session begun
agreed, every lesson was run and, if N is not 0, at least one session was; in view why
the generated sessions, if N is not 0, must also have told all that reasons_met.py wants.
Some 40 sessions of 200 messages do.
"""

import tools
import argparse
import glob
import os
import subprocess
import sys
import time
from collections import Counter

from generate import FLAVOURS, generate
from model import Series, session
from printed import VIEWS
from reasons_met import WANTED, amiss, why_session
from shown_book import book_words, field_words
from told_why import why_words
from why_sessions import why_messages
from words import message_words, messages_of, report_words, setup_words


PATIENCE = 30       # seconds for one session
WORDS = {"reports": report_words, "book": book_words, "why": why_words}     # what a line says
RECORDED = {"reports": ".out", "why": ".why"}                               # where a lesson's lines stand


class Difference(Exception):
    """What differs: shown at the end, with exit status 1."""


class TimeUp(Exception):
    pass


class Comparison:
    def __init__(self, command, seconds, keep, view="reports"):
        self.command, self.keep, self.view = command, keep, view
        self.met = Counter()        # in view why: what the generated sessions told
        self.deadline = time.monotonic() + seconds
        self.sessions = self.messages = 0

    def run(self, data):
        """The lines the program prints for a session."""
        if time.monotonic() >= self.deadline:
            raise TimeUp
        try:
            done = subprocess.run(self.command, input=data, stdout=subprocess.PIPE,
                                  stderr=subprocess.PIPE, timeout=PATIENCE)
        except subprocess.TimeoutExpired:
            return ["(the program did not end within %d seconds)" % PATIENCE]
        except OSError as error:
            sys.exit("compare: cannot run %s: %s" % (self.command[0], error.strerror))
        text = done.stdout.decode("ascii", "replace")
        lines = text.split("\n")
        if lines.pop() != "":
            lines.append("(the output does not end with a line's end)")
        if done.returncode != 0:
            word = done.stderr.decode("utf-8", "replace").strip()
            lines.append("(the program ended with status %d: %s)" % (done.returncode, word))
        return lines

    def judge(self, name, data, expected, program="the program", lines=None):
        """Compare one session's lines with what was expected of it."""
        lines = self.run(data) if lines is None else lines
        if lines != expected:
            with open(self.keep, "wb") as file:
                file.write(data)
            raise Difference(describe(name, data, expected, lines, program, self.view)
                             + "\nThe session's bytes are in %s." % self.keep)

    def agreed(self, data):
        self.sessions += 1
        self.messages += len(messages_of(data))

    def recorded(self, path):
        """The lines that stand beside a lesson, or None."""
        beside = path[:-len(".bin")] + RECORDED.get(self.view, "")
        if self.view == "book" or self.view == "why" and not os.path.exists(beside):
            return None
        with open(beside) as file:
            return file.read().split("\n")[:-1]

    def lesson(self, path):
        with open(path, "rb") as file:
            data = file.read()
        expected, recorded = session(data, self.view), self.recorded(path)
        name = "lesson " + os.path.basename(path)[:-len(".bin")]
        if recorded is not None:
            self.judge(name, data, recorded, "the model", expected)
        self.judge(name, data, expected)
        self.agreed(data)

    def generated(self, seed, messages, number):
        """The session of this number: what makes it, and whether the program agrees."""
        flavours = list(FLAVOURS)
        if self.view == "why" and number % 3 != 0:
            name, data = "why_sessions.py %s %s" % (seed, messages), why_messages(seed, messages)
        else:
            flavour = flavours[(number // 3 if self.view == "why" else number) % len(flavours)]
            name, data = "generate.py %s %s %s" % (seed, messages, flavour), generate(seed, messages, flavour)
        self.judge(name, data, why_session(data, self.met) if self.view == "why" else session(data, self.view))
        self.agreed(data)

    def amiss(self):
        """In view why: what the generated sessions have not told and had to, or have told and could not."""
        return amiss(self.met) if self.view == "why" else []


def message_of(line):
    """The message that a line is of; None if the line does not say."""
    word = (line.split() or [""])[0]
    return int(word) if word.isascii() and word.isdigit() else None


def near(side, place, number, view):
    """Which lines are shown beside line `place`: some round it, or the whole book of a message."""
    if view == "book":
        return [at for at, line in enumerate(side) if at == place or message_of(line) == number]
    return range(max(0, place - 4), min(len(side), place + 5))


def told(title, side, place, number, view):
    """One output round the first difference, each line with what it says."""
    text = [title]
    for at in near(side, place, number, view):
        text.append("  %s %-44s %s" % (">" if at == place else " ", side[at], WORDS[view](side[at])))
    if place >= len(side):
        text.append("  > (no more lines)")
    return text


def describe(name, data, expected, lines, program, view="reports"):
    """The first difference, in words."""
    place = 0
    while place < min(len(expected), len(lines)) and expected[place] == lines[place]:
        place += 1
    differing = [side[place] for side in (expected, lines) if place < len(side)]
    number = min([n for n in map(message_of, differing) if n is not None], default=0)
    messages = messages_of(data)
    text = ["DIFFERENCE in %s" % name, "setup: %s" % setup_words(data[:4])]
    for earlier in range(max(1, number - 5), number + 1):
        if earlier <= len(messages):
            text.append("message %d: %s" % (earlier, message_words(messages[earlier - 1])))
    fields = field_words(*differing) if view == "book" and len(differing) == 2 else ""
    text.append("output line %d, of message %d, differs%s"
                % (place + 1, number, ": " + fields if fields else ""))
    for title, side in (("expected:", expected), (program + ":", lines)):
        text += told(title, side, place, number, view)
    return "\n".join(text)


def options_given():
    parser = argparse.ArgumentParser(description="Compare a session program with the model.")
    parser.add_argument("--sessions", type=int, default=330)
    parser.add_argument("--messages", type=int, default=200)
    parser.add_argument("--seed", type=int, default=1)
    parser.add_argument("--seconds", type=float, default=180)
    parser.add_argument("--lessons", action="append", default=[], metavar="DIR")
    parser.add_argument("--keep", default="difference.bin", metavar="FILE")
    parser.add_argument("--view", choices=VIEWS, default="reports")
    parser.add_argument("--no-checks", action="store_true", help="skip the model's own assertions")
    parser.add_argument("command", nargs=argparse.REMAINDER, metavar="PROGRAM [ARGS..]")
    options = parser.parse_args()
    if not options.command:
        parser.error("no PROGRAM given")
    options.paths = [path for folder in options.lessons
                     for path in sorted(glob.glob(os.path.join(folder, "*.bin")))]
    if options.lessons and not options.paths:
        parser.error("no lessons in " + " ".join(options.lessons))
    return options


def compare(comparison, options):
    """Whether all is as it should be, and a word on the clock."""
    try:
        for path in options.paths:
            comparison.lesson(path)
        for number in range(options.sessions):
            comparison.generated(options.seed + number, options.messages, number)
    except TimeUp:
        return comparison.sessions >= len(options.paths) + min(options.sessions, 1), "; stopped by the clock"
    except Difference as difference:
        print(difference)
        return False, ""
    return True, ""


def main():
    options = options_given()
    Series.checks = not options.no_checks
    comparison = Comparison(options.command, options.seconds, options.keep, options.view)
    good, note = compare(comparison, options)
    if good and options.sessions > 0 and comparison.amiss():
        print("of %d things that generated sessions must tell:\n%s" % (len(WANTED), "\n".join(comparison.amiss())))
        good = False
    lessons = min(comparison.sessions, len(options.paths))
    where = {"reports": "", "book": " in the book", "why": " in why"}[options.view]
    print("%s: %d lessons and %d generated sessions, %d messages, agree%s%s"
          % ("agreed" if good else "NOT agreed", lessons, comparison.sessions - lessons,
             comparison.messages, where, note))
    sys.exit(0 if good else 1)


if __name__ == "__main__":
    main()
