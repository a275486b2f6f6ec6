"""What the lines that the session program prints say, in document 01's words.

    1 1 0 0 0 0 0 0 0 0         message 1 is noted: open
    3 4 0 0 3 2 0 219 220 50    maker 3's MMRP buy quote, entry 2, rests: shown 219, works 220, 50 contracts

Prices are in cents, as in the line.  A report does not carry what kind of entry it is of, nor what a price rule compared:
that is told where the lesson's messages and the reports' reasons (reasons.py) are at hand, and is left out where they
are not.
"""

from causes import price_cause, setup_cause
from packed import *
from words import SIDE_WORDS, Mistake, message_words, quoted

NAMES = {PLAIN: "plain", MMLO: "MMLO", MMALO: "MMALO", MMRP: "MMRP",
         ORDER: "displayed", DARK: "dark"}
REASONS = {20: "at or through the away price", 21: "undisplayed interest in an MMLO's way",
           22: "would be shown more than K steps from its limit", 23: "no legal price to show",
           24: "too far through NBO or NBB", 25: "a call's bid at or above the underlying",
           26: "a put's bid at or above the strike", 27: "replaced", 28: "owner asked",
           29: "the rest of the maker's quote on the opposite side was cancelled",
           30: "own quote rejected", 31: "phase"}
REFUSALS = {1: "no message: length, kind, an unused bit or field that is not 0",
            2: "party out of range; makers are 1 to 16", 3: "price out of range or off the grid",
            4: "quantity or phase out of range", 5: "the series is not open",
            6: "the maker is blocked",
            7: "64 entries rest, besides the quote that this one replaces",
            8: "no such entry of that party, or no such quote",
            9: "the last entry number, 1,000,000, has been given"}

NO_SERIES = "the setup is refused for 1 (%s): no series"
NO_SETUP = "length, an unused bit, or M, K or strike out of range; M is 1 or 5"     # where the setup is not known


def numbers_of(line):
    """(message, refusal) or (message, nine fields); a Mistake if the line is neither."""
    words = line.split()
    refused = len(words) == 3 and words[1] == "refused"
    number, *values = [int(word) for word in words
                       if word.isascii() and word.isdigit() and len(word) < 20] or [0]
    if refused and len(values) == 1 and values[0] in REFUSALS and (number > 0 or values == [1]):
        return number, values[0]
    if len(words) == 10 and len(values) == 9 and number > 0 and 1 <= values[0] <= 6 and values[2] <= 1:
        if values[0] not in (REJECTED, CANCELLED) or values[1] in REASONS:
            return number, values
    raise Mistake("%s is no line that a lesson prints; expected: a message's number and nine"
                  " numbers, or its number, refused and a refusal" % quoted(line.strip()))


class Teller:
    """Says one line after the other.  `messages` are the packed messages of the lesson, or None; `reasons` is who says
    what the lines of the view `why` tell, or None; `setup` are the bytes of the lesson's setup, or None."""

    def __init__(self, messages=None, reasons=None, setup=None):
        self.messages, self.reasons, self.setup, self.last = messages, reasons, setup, 0
        self.entered = {}       # entry number -> the message that entered it
        self.traded = set()     # who has been a taker

    def sentence(self, line, why=""):
        """What a line says; `why` is the line of the view `why` beside it."""
        number, answer = numbers_of(line)
        sent = self.sent(number, answer) if self.messages is not None and number > 0 else ""
        reason = self.reasons.words(number, answer, why) if self.reasons is not None else ""
        if number == 0:
            return NO_SERIES % (self.setup is not None and setup_cause(self.setup) or NO_SETUP)
        if isinstance(answer, int):
            return "message %d is refused for %d (%s)%s" % (number, answer, self.cause(number, answer), sent)
        if answer[0] == NOTED:
            return "message %d is noted%s" % (number, sent)
        return self.told(reason, *answer)

    def cause(self, number, refusal):
        """Why a message is refused: for a price, which one, where setup and message are known."""
        known = refusal == 3 and self.messages is not None and self.setup is not None
        wrong = price_cause(self.setup, self.messages[number - 1]) if known else ""
        return "price: " + wrong if wrong else REFUSALS[refusal]

    def sent(self, number, answer):
        """The message that a line is of, in words; the entry that it enters is kept."""
        if number not in (self.last, self.last + 1) or number > len(self.messages):
            raise Mistake("of message %d; expected: of the next of the lesson's %d messages, so"
                          " this is another lesson's line" % (number, len(self.messages)))
        data = self.messages[number - 1]
        message = unpack_message(data)
        kind = message.kind if message else 0
        if isinstance(answer, list) and number > self.last:
            if kind == 0 or (answer[0] == NOTED) != (kind in (AWAY, UNDERLYING, PHASE, ENABLE)):
                raise Mistake("message %d is %s in this lesson; expected: lines of the lesson that"
                              " is named" % (number, message_words(data)))
            if kind in ENTERING:
                self.entered[len(self.entered) + 1] = message
        self.last = number
        return ": " + message_words(data)

    def told(self, words, kind, reason, side, party, entry, other, price, second, quantity):
        """A report; `words` stand for those of its reason, where there are any."""
        who = self.who(entry, side, party)
        count = "%d contract%s" % (quantity, "" if quantity == 1 else "s")
        if kind == TRADED:
            self.traded.add(entry)
            return "%s, trades as taker with %s: at %d, %s" % (who, self.who(other, 1 - side), price, count)
        if kind in (RESTED, REPRICED):
            done = "rests" if kind == RESTED else "is repriced"
            shown = "shown %d" % price if price != 0 else "not shown"
            return "%s, %s: %s, works %d, %s" % (who, done, shown, second, count)
        done = "rejected" if kind == REJECTED else "cancelled"
        rest = "the rest of " if kind == CANCELLED and reason <= 23 and entry in self.traded else ""
        return "%s%s, is %s for %d (%s): limit %d, %s" % (
            rest, who, done, reason, words or REASONS[reason], price, count)

    def who(self, entry, side, party=None):
        """An entry, by what is known of it."""
        message = self.entered.get(entry)
        if message is None:
            owner = "" if party is None else "party %d's %s, " % (party, SIDE_WORDS[side])
            return "%sentry %d" % (owner, entry)
        if message.side != side or party not in (None, message.party):
            raise Mistake("entry %d is not %s's %s in this lesson; expected: lines of the lesson that"
                          " is named" % (entry, party, SIDE_WORDS[side]))
        is_quote = message.kind in QUOTES
        return "%s %d's %s %s %s, entry %d" % (
            "maker" if is_quote else "party", message.party, NAMES[message.kind], SIDE_WORDS[side],
            "quote" if is_quote else "order", entry)
