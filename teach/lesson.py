#!/usr/bin/env python3
"""What ./waxglimmer does with a lesson, and with what the session program prints for it.

    lesson.py make NAME GIVEN LESSON     records the lesson in words of file GIVEN; a mistake names it NAME
    lesson.py record NAME GIVEN LESSON   the same; a lesson that is recorded already stays as it is
    lesson.py show LESSON                its setup and messages, numbered, in words; `make` takes them
    lesson.py tell LESSON LINES WHY BOOK the lines that were printed for it, each with what happened beside it
    lesson.py book LESSON LINES BOOK     the book after each message, drawn of the lines of the view `book`
    lesson.py book-lines BOOK            the same lines, in the order of the drawing

LESSON is a recorded lesson; docs/TEACHER.md lists the words of one.  LINES, WHY and BOOK are what the session program
prints for it: the reports, and the views `why` and `book`.  Where a line is wrong, NAME:LINE says how, the status is 1
and nothing is written.
"""

import os
import signal
import sys
from itertools import zip_longest

from board import drawn, in_drawn_order
from packed import messages_of
from reasons import Offers, Reasons
from sentences import Teller
from source import is_recorded, one_lesson
from words import Mistake, message_words, setup_words


def read(path):
    with open(path, "rb") as file:
        return file.read()


def lines_of(path):
    """The lines of a file that a program has printed."""
    return read(path).decode("ascii", "backslashreplace").splitlines()


def write(path, data):
    with open(path, "wb") as file:
        file.write(data)


def make(name, given, path):
    data = read(given)
    if len(data) >= 4 and is_recorded(data):        # what is shorter is no lesson of either sort: the words say why
        raise Mistake("%s: a recorded lesson, or no text at all; expected: a lesson in words" % name)
    write(path, one_lesson(data, name).data)


def record(name, given, path):
    data = read(given)
    write(path, data if is_recorded(data) else one_lesson(data, name).data)


def show(path):
    data = read(path)
    print("0 setup", setup_words(data[:4]))
    for number, message in enumerate(messages_of(data), 1):
        print(number, message_words(message))


def tell(path, printed, reasons, resting):
    data = read(path)
    messages = messages_of(data)
    both = zip_longest(lines_of(printed), lines_of(reasons), fillvalue="")      # a line of each for every report and refusal
    with open(resting, encoding="ascii", errors="backslashreplace") as book:
        teller = Teller(messages, Reasons(Offers(messages, book)), data[:4])
        for number, (line, why) in enumerate(both, 1):
            try:
                print("%-34s  %s" % (line, teller.sentence(line, why)))
            except Mistake as mistake:
                raise Mistake("line %d: %s" % (number, mistake)) from None


def book(path, printed, resting):
    for line in drawn(read(path), lines_of(printed), lines_of(resting)):
        print(line)


def book_lines(resting):
    for line in in_drawn_order(lines_of(resting)):
        print(line)


COMMANDS = {("make", 3): make, ("record", 3): record, ("show", 1): show, ("tell", 4): tell,
            ("book", 3): book, ("book-lines", 1): book_lines}


def main(arguments):
    """The exit status of a command; 1 where it could not be done, with a line that says why."""
    if arguments in ([], ["--help"]):
        print(__doc__.strip())
        return 0
    command = COMMANDS.get((arguments[0], len(arguments) - 1))
    if command is None:
        print(__doc__.strip(), file=sys.stderr)
        return 1
    try:
        command(*arguments[1:])
        sys.stdout.flush()
    except Mistake as mistake:
        print(mistake, file=sys.stderr)
        return 1
    except OSError as error:
        print("waxglimmer: %s: %s" % (error.filename or "standard output", error.strerror), file=sys.stderr)
        return 1
    return 0


def leave(status):
    """Ends the program; what could not be written is not tried again, so that nothing more is said of it."""
    try:
        sys.stdout.flush()
    except OSError:
        os.dup2(os.open(os.devnull, os.O_WRONLY), sys.stdout.fileno())
    sys.exit(status)


if __name__ == "__main__":
    signal.signal(signal.SIGPIPE, signal.SIG_DFL)       # a reader that has seen enough ends this quietly
    signal.signal(signal.SIGINT, signal.SIG_DFL)        # and so does Ctrl-C
    sys.stdout.reconfigure(errors="backslashreplace")
    leave(main(sys.argv[1:]))
