"""Why an entry was rejected, or cancelled by a price rule: the rule's two figures in a sentence.

    4 0 20 225 220      bid 225 is not below the away offer 220

The figures are those that the session program prints in its view `why`, a line for each report: the message, the
report's place counted from 0, the rule and its figures; or `4 0 none`, or `4 refused 8`.  None is worked out here.

One thing the figures do not tell.  Of a bid, 24 compares the bid with NBO+100 where NBO is at most 100, and twice
(bid-NBO) with NBO where it is above.  A bid of 202 gives 202 and 101 with NBO 1, and with NBO 101 too; so does every bid
that is twice the second figure, where that is from 101 to 200.  So it is looked up whether anything was offered at 100
or less as the bid came: in the lesson's messages the away offer, in the program's view `book` what the sells show.
"""

from functools import cached_property

from board import book_line
from packed import *
from words import SIDE_WORDS, Mistake, quoted

HIDDEN = "%d, the best price at which undisplayed interest works on the other side"
TOO_FAR = "the display would stand %s from the limit, more than K, which is %d"        # some steps, and K

# Of a buy, and of a sell.
SENTENCES = {
    20: ("bid %d is not below the away offer %d", "offer %d is not above the away bid %d"),
    21: ("bid %d is not below " + HIDDEN, "offer %d is not above " + HIDDEN),
    22: (TOO_FAR, TOO_FAR),
    23: ("the display would be %d, below the lowest legal price %d",
         "the display would be %d, above the highest legal price %d"),
    24: ("twice what the bid is above NBO comes to %d, not less than NBO itself, %d",
         "twice what the offer is below NBB comes to %d, not less than NBB itself, %d"),
    25: ("bid %d is not below the underlying %d", None),
    26: ("bid %d is not below the strike %d", None),
}
SMALL_NBO = "bid %d is not below %d, a dollar above NBO"        # 24 of a bid, where NBO is at most 100


def holds(rule, side, first, second):
    """Whether the rule's comparison holds of its two figures: a reason that does not is not said."""
    if rule == 22 or rule == 23 and side == SELL:
        return first > second
    if rule == 23:
        return first < second
    return first <= second if rule in (20, 21) and side == SELL else first >= second


class Offers:
    """What is offered as a bid comes in: `messages` are the lesson's, `book` the lines of the view `book`."""

    def __init__(self, messages, book):
        self.messages, self.book, self.away = messages, book, 0

    def note(self, number):
        """Message `number` is noted: it may bring the away offer."""
        message = unpack_message(self.messages[number - 1])
        if message is not None and message.kind == AWAY:
            self.away = message.second

    @cached_property
    def lowest(self):
        """{message: the lowest price that a sell shows after it}.  Few lessons ask: the lines are read once one does."""
        lowest = {}
        for line in self.book:
            number, entry = book_line(line.rstrip("\n"))
            if entry.side == SELL and entry.display != 0:       # a dark one shows nothing
                lowest[number] = min(entry.display, lowest.get(number, entry.display))
        return lowest

    def is_nbo_small(self, number):
        """Whether NBO is at most 100 as message `number` comes: something is offered at 100 or less."""
        return 0 < self.away <= 100 or 0 < self.lowest.get(number - 1, 0) <= 100


class Reasons:
    """Says one report's reason after the other."""

    def __init__(self, offers):
        self.offers, self.number, self.place = offers, 0, 0

    def words(self, number, answer, why):
        """What a line of the view `why` says of the line beside it; nothing where that compares no prices."""
        if isinstance(answer, int):
            self.figures(why, (number, "refused", answer), 0)
            return ""
        self.place = self.place + 1 if number == self.number else 0
        self.number = number
        kind, rule, side = answer[:3]
        if kind == NOTED:
            self.offers.note(number)
        if kind not in (REJECTED, CANCELLED):
            self.figures(why, (number, self.place, "none"), 0)
            return ""
        first, second = self.figures(why, (number, self.place, rule), 2)
        if rule in SENTENCES:
            return self.sentence(rule, side, first, second)
        if (first, second) != (0, 0):
            raise Mistake("%s compares prices; expected: 0 0 for reason %d" % (quoted(why), rule))
        return ""

    def figures(self, why, begin, count):
        """The figures behind what a line must begin with."""
        begin, words = [str(word) for word in begin], why.split(" ")
        figures = [int(word) for word in words[3:] if word.isascii() and word.isdigit() and len(word) < 20]
        if words[:3] != begin or not len(words) - 3 == len(figures) == count:
            raise Mistake("%s is not the reason of this report; expected: %s%s"
                          % (quoted(why), " ".join(begin), " and two figures" if count else ""))
        return figures

    def sentence(self, rule, side, first, second):
        form = SENTENCES[rule][side]
        if rule == 24 and side == BUY and self.offers.is_nbo_small(self.number):
            form = SMALL_NBO
        if form is None or not holds(rule, side, first, second):
            raise Mistake("%d and %d are no reason for %d of a %s; expected: figures of which its comparison holds"
                          % (first, second, rule, SIDE_WORDS[side]))
        return form % ("%d step%s" % (first, "" if first == 1 else "s") if rule == 22 else first, second)
