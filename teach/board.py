"""The book after each message, as the class draws it on the board.

Sells stand above, buys below; on each side who trades first stands nearest to the middle.  Between them are the
away prices and the phase.  A word at the right marks what the message moved, and below the book stands what is gone:

    7 away 180 none
      entry party  kind          limit  shown  works contracts
      no sells
      -- sells above -- away bid 180, offer none -- open -- buys below --
          3     4  MMRP quote      220    220    220        26  was 205/210 x 30
      gone: entry 2, traded away

The entries come from the session program's view `book`, ten numbers a line; what became of those that are gone, and
which messages are refused, from the lines that it prints for the lesson; away prices and phase from the messages.
"""

import textwrap
from collections import namedtuple

from packed import *
from sentences import NAMES, REASONS, REFUSALS, Teller, numbers_of
from words import Mistake, message_words, quoted, setup_words

WIDTH = 80
PHASES = ("closed", "open", "halted")
KINDS = {kind: NAMES[kind] + " quote" for kind in QUOTES}
KINDS.update({ORDER: "order", DARK: "dark order"})
ROW = "  %5s %5s  %-11s  %6s %6s %6s %9s"
HEADING = ROW % ("entry", "party", "kind", "limit", "shown", "works", "contracts")
NO_SERIES = ["0 refused 1"]      # what is printed for a setup that is refused

Resting = namedtuple("Resting", "side place entry party kind limit display working quantity")
Report = namedtuple("Report", "kind reason side party entry other price second quantity")


# ---------------------------------------------------------------- what the program has printed

def book_line(line):
    """(message, Resting) of a line of the view `book`."""
    words = line.split(" ")
    numbers = [int(word) for word in words if word.isascii() and word.isdigit() and len(word) < 20]
    if len(words) == len(numbers) == 10 and numbers[1] <= 1 and numbers[5] in KINDS:
        return numbers[0], Resting(*numbers[1:])
    raise Mistake("%s is no line of the book; expected: a message's number, side, place, entry, party, kind,"
                  " limit, display, working price and quantity" % quoted(line))


def books_of(lines):
    """{message: what rests after it, from top to bottom of the drawing}."""
    books = {}
    for line in lines:
        number, resting = book_line(line)
        books.setdefault(number, []).append(resting)
    for resting in books.values():
        resting.sort(key=lambda entry: (0, -entry.place) if entry.side == SELL else (1, entry.place))
    return books


def answers_of(lines):
    """{message: its refusal, or its reports}."""
    answers = {}
    for line in lines:
        number, answer = numbers_of(line)
        if isinstance(answer, int):
            answers[number] = answer
        else:
            answers.setdefault(number, []).append(Report(*answer))
    return answers


# ---------------------------------------------------------------- the drawing

def contracts(count):
    return "%d contract%s" % (count, "" if count == 1 else "s")


def mark_of(resting, before):
    """What the message has done to an entry that rests: a word, or none."""
    if before is None:
        return "new"
    moved = (before.display, before.working) != (resting.display, resting.working)
    filled = before.quantity != resting.quantity
    if moved:
        prices = "was %d/%d" % (before.display, before.working)
        return prices + " x %d" % before.quantity if filled else prices
    return "was " + contracts(before.quantity) if filled else ""


def row_of(resting, mark):
    """An entry's line; a mark that is too long for it stands below."""
    row = ROW % (resting.entry, resting.party, KINDS[resting.kind], resting.limit, resting.display or "-",
                 resting.working, resting.quantity)
    if len(row) + 2 + len(mark) > WIDTH:
        return [row, mark.rjust(WIDTH)]
    return [(row + "  " + mark).rstrip()]


def fate_of(entry, reports):
    """What became of an entry that does not rest, by the reports that name it."""
    traded = sum(report.quantity for report in reports if report.kind == TRADED and report.entry == entry)
    for report in reports:
        if report.entry == entry and report.kind in (REJECTED, CANCELLED):
            done = "rejected" if report.kind == REJECTED else "cancelled"
            end = "%s for %d (%s)" % (done, report.reason, REASONS[report.reason])
            return "%s traded, the rest %s" % (contracts(traded), end) if traded else end
    return "traded away"


def wrapped(text):
    return textwrap.wrap(text, WIDTH, initial_indent="  ", subsequent_indent="    ")


class Board:
    """What stands on the board: the book, the away prices and the phase that the messages so far have left."""

    def __init__(self):
        self.book = {}          # entry -> Resting
        self.bid = self.offer = 0
        self.phase = CLOSED

    def note(self, message):
        """An accepted message, for what no entry shows."""
        if message is not None and message.kind == AWAY:
            self.bid, self.offer = message.price, message.second
        if message is not None and message.kind == PHASE:
            self.phase = message.quantity

    def middle(self):
        return "  -- sells above -- away bid %s, offer %s -- %s -- buys below --" % (
            self.bid or "none", self.offer or "none", PHASES[self.phase])

    def picture(self, resting):
        """The book as it is now, marked by what it was."""
        if not resting:
            return [self.middle(), "  the book is empty"]
        lines = [HEADING]
        for side, missing in ((SELL, "  no sells"), (BUY, "  no buys")):
            rows = [row for entry in resting if entry.side == side
                    for row in row_of(entry, mark_of(entry, self.book.get(entry.entry)))]
            lines += rows or [missing]
            if side == SELL:
                lines.append(self.middle())
        return lines

    def gone(self, resting, reports):
        """Whoever the reports name and who does not rest now, once each."""
        rests, lines = {entry.entry for entry in resting} | {0}, []
        for report in reports:
            for entry in (report.entry, report.other):
                if entry not in rests:
                    rests.add(entry)
                    title = "gone" if entry in self.book else "never rested"
                    lines += wrapped("%s: entry %d, %s" % (title, entry, fate_of(entry, reports)))
        return lines

    def after(self, number, data, answer, resting):
        """The lines for one message; `answer` is its refusal or its reports."""
        lines, reports = ["%d %s" % (number, message_words(data))], []
        if isinstance(answer, int):
            lines += wrapped("refused for %d (%s)" % (answer, REFUSALS[answer]))
        else:
            reports = answer
            self.note(unpack_message(data))
        lines += self.picture(resting) + self.gone(resting, reports)
        self.book = {entry.entry: entry for entry in resting}
        return lines


def drawn(data, lines, book):
    """The drawing of a whole lesson: its bytes, the lines that are printed for it, and those of the view `book`."""
    if lines == NO_SERIES:
        return textwrap.wrap(Teller(setup=data[:4]).sentence(*NO_SERIES), WIDTH, subsequent_indent="  ")
    answers, books, messages, board = answers_of(lines), books_of(book), messages_of(data), Board()
    if set(answers) != set(range(1, len(messages) + 1)) or not set(books) <= set(answers):
        raise Mistake("what was printed is of another lesson; expected: lines of its %d messages" % len(messages))
    picture = ["0 setup " + setup_words(data[:4])]
    for number, message in enumerate(messages, 1):
        picture += [""] + board.after(number, message, answers[number], books.get(number, []))
    return picture


def in_drawn_order(lines):
    """The lines of the view `book`, those of each message from top to bottom of the drawing."""
    if lines == NO_SERIES:
        return lines
    return [" ".join(str(field) for field in (number, *entry))
            for number, resting in books_of(lines).items() for entry in resting]
