"""Setup, messages and reports in words, for lessons and for showing differences.

A message a line:

    open | close | halt | phase 3
    away 200 220              (none for no price)
    underlying 150            (none for no price)
    enable 3
    mmrp buy 3 225 x 50       plain, mmlo, mmalo, mmrp, order, dark: side, party, limit, quantity
    cancel 50 #3              party 50 cancels its entry 3
    withdraw 3 buy            maker 3 cancels its buy quote
    bytes 40 60 07            bytes as they are, 11 of them, or fewer for a short last message

A report a line, as the session program would say it in words:

    noted
    rejected 22 buy 3 #2 102 x 5            reason, side, party, entry, limit, quantity
    traded buy 3 #2 with #1 at 222 x 40
    rested buy 3 #2 219/220 x 50            display/working
    repriced buy 3 #2 219/219 x 40
    cancelled 27 buy 3 #2 225 x 40
    refused 8                               the message is refused

A number need only fit its field: what the handler then refuses can be said too, such as a setup with M 10.  Words may
stand in capitals.
"""

import re

from packed import *

KIND_WORDS = {PLAIN: "plain", MMLO: "mmlo", MMALO: "mmalo", MMRP: "mmrp",
              ORDER: "order", DARK: "dark"}
SIDE_WORDS = ("buy", "sell")
PHASE_WORDS = ("close", "open", "halt")

# What stands after a word: a value's name, in capitals; a choice; any other word is itself.
SETUP = "call|put tested|exempt M PAIR K STEPS strike STRIKE"
MESSAGES = {word: (PHASE, "") for word in PHASE_WORDS}
MESSAGES.update({"phase": (PHASE, "PHASE"), "away": (AWAY, "BID OFFER"),
                 "underlying": (UNDERLYING, "PRICE"), "enable": (ENABLE, "MAKER"),
                 "cancel": (CANCEL_ENTRY, "PARTY #ENTRY"),
                 "withdraw": (CANCEL_QUOTE, "MAKER buy|sell")})
MESSAGES.update({KIND_WORDS[kind]: (kind, "buy|sell MAKER LIMIT x QUANTITY") for kind in QUOTES})
MESSAGES.update({KIND_WORDS[kind]: (kind, "buy|sell PARTY LIMIT x QUANTITY") for kind in ORDERS})
REPORTS = {"noted": (NOTED, ""), "refused": (0, "REFUSAL"),
           "rejected": (REJECTED, "REASON buy|sell PARTY #ENTRY LIMIT x QUANTITY"),
           "traded": (TRADED, "buy|sell PARTY #ENTRY with #OTHER at CENTS x QUANTITY"),
           "rested": (RESTED, "buy|sell PARTY #ENTRY DISPLAY / WORKING x QUANTITY"),
           "repriced": (REPRICED, "buy|sell PARTY #ENTRY DISPLAY / WORKING x QUANTITY"),
           "cancelled": (CANCELLED, "REASON buy|sell PARTY #ENTRY LIMIT x QUANTITY")}
REPORT_FIELDS = ("reason", "side", "party", "entry", "other", "price", "second", "quantity")

# The field that a value goes to, and the field's width in bits.
CHOICES = {"call|put": "put", "tested|exempt": "exempt", "buy|sell": "side"}
VALUES = {"PAIR": ("m", 4), "STEPS": ("k", 7), "STRIKE": ("strike", 17),
          "PARTY": ("party", 7), "MAKER": ("party", 7), "#ENTRY": ("entry", 20),
          "#OTHER": ("other", 20), "LIMIT": ("price", 17), "BID": ("price", 17),
          "OFFER": ("second", 17), "PRICE": ("price", 17), "CENTS": ("price", 17),
          "DISPLAY": ("price", 17), "WORKING": ("second", 17), "QUANTITY": ("quantity", 17),
          "PHASE": ("quantity", 17), "REASON": ("reason", 5), "REFUSAL": ("refusal", 4)}
MAY_BE_NONE = ("BID", "OFFER", "PRICE")
PAIRS = "M is 1 (steps of 1 cent below 300 and 5 from there on) or 5 (5 and 10)"


class Mistake(Exception):
    """What is wrong with a line, and what was expected."""


def quoted(word):
    """A word of the line, fit to be shown whatever it holds."""
    return repr(word if len(word) <= 30 else word[:30] + "..")


def value_of(name, word):
    """The number that a word says for a value or a choice."""
    if name in CHOICES:
        if word.lower() not in name.split("|"):
            raise Mistake("%s is neither %s" % (quoted(word), name.replace("|", " nor ")))
        return name.split("|").index(word.lower())
    if word.lower() == "none" and name in MAY_BE_NONE:
        return 0
    if VALUES[name][0] in ("price", "second") and re.fullmatch(r"[0-9]{1,6}[.,][0-9]{2}", word):
        raise Mistake("%s is no %s: prices are whole cents, as %d" % (quoted(word), name, int(word[:-3] + word[-2:])))
    digits = word[1:] if name[0] == word[0] == "#" else word
    top = (1 << VALUES[name][1]) - 1
    if not (digits.isascii() and digits.isdigit() and len(digits) < 10 and int(digits) <= top):
        if name == "PAIR":
            raise Mistake("%s is no PAIR: %s; any other whole number up to %d fits, and is refused" % (quoted(word), PAIRS, top))
        raise Mistake("%s is no %s, which is a whole number from 0 to %d%s"
                      % (quoted(word), name, top, ", or none" if name in MAY_BE_NONE else ""))
    return int(digits)


def fields_of(words, form):
    """The fields that the words say by a form, which begins with the same word."""
    names, fields = form.split(), {}
    try:
        for name, word in zip(names[1:], words[1:]):
            if name in CHOICES or name in VALUES:
                fields[CHOICES.get(name) or VALUES[name][0]] = value_of(name, word)
            elif name.lower() != word.lower():
                raise Mistake("%s stands in the place of %s" % (quoted(word), name))
        if len(words) < len(names):
            raise Mistake("%s is missing" % " ".join(names[len(words):]))
        if len(words) > len(names):
            raise Mistake("%s is too much" % quoted(" ".join(words[len(names):])))
    except Mistake as mistake:
        shown = form.strip().replace(" / ", "/")
        raise Mistake("%s; expected: %s" % (mistake, shown)) from None
    return fields


def hex_bytes(words, least, most):
    """The bytes of a line that says them as they are."""
    data = bytearray()
    for word in words:
        try:
            data += bytes.fromhex(word)
        except ValueError:
            raise Mistake("%s is no byte; expected: pairs of digits 0 to 9 and a to f"
                          % quoted(word)) from None
    if not least <= len(data) <= most:
        raise Mistake("%d bytes; expected: from %d to %d" % (len(data), least, most))
    return bytes(data)


def setup_bytes(line):
    """`call exempt M 1 K 10 strike 200`, or `put tested M ...`; or `bytes ..`."""
    words = line.split()
    if words and words[0].lower() == "bytes":
        return hex_bytes(words[1:], 0, 4)
    return pack_setup(**fields_of(["setup"] + words, "setup " + SETUP))


def message_bytes(line):
    """The packed bytes of a message in words."""
    words = line.split()
    first = words[0].lower()
    if first == "bytes":
        return hex_bytes(words[1:], 1, 11)
    if first not in MESSAGES:
        raise Mistake("%s is no word for a message; expected: %s or bytes"
                      % (quoted(words[0]), ", ".join(MESSAGES)))
    kind, form = MESSAGES[first]
    fields = fields_of(words, first + " " + form)
    if first in PHASE_WORDS:
        fields["quantity"] = PHASE_WORDS.index(first)
    return Message(kind, **fields).pack()


def message_words(data):
    """The other way: what these bytes say."""
    msg = unpack_message(data)
    if msg is None:
        return "bytes " + data.hex(" ")
    if msg.kind == PHASE:
        return PHASE_WORDS[msg.quantity] if msg.quantity < 3 else "phase %d" % msg.quantity
    if msg.kind == AWAY:
        return "away %s %s" % (msg.price or "none", msg.second or "none")
    if msg.kind == UNDERLYING:
        return "underlying %s" % (msg.price or "none")
    if msg.kind == ENABLE:
        return "enable %d" % msg.party
    if msg.kind == CANCEL_ENTRY:
        return "cancel %d #%d" % (msg.party, msg.entry)
    if msg.kind == CANCEL_QUOTE:
        return "withdraw %d %s" % (msg.party, SIDE_WORDS[msg.side])
    return "%s %s %d %d x %d" % (KIND_WORDS[msg.kind], SIDE_WORDS[msg.side], msg.party,
                                 msg.price, msg.quantity)


def setup_words(data):
    """What the bytes of a setup say, also where it is refused; bytes where a length or a filling bit is wrong."""
    *fields, filling = cut(data, SETUP_WIDTHS)
    if len(data) != 4 or filling != 0:
        return ("bytes " + data.hex(" ")).rstrip()
    put, exempt, m, k, strike = fields
    return "%s %s M %d K %d strike %d" % (("call", "put")[put], ("tested", "exempt")[exempt],
                                          m, k, strike)


def report_line(number, line):
    """The line the session program prints for a report in words."""
    words = line.replace("/", " / ").split()
    first = words[0].lower()
    if first not in REPORTS:
        raise Mistake("%s is no word for a report; expected: %s"
                      % (quoted(words[0]), ", ".join(REPORTS)))
    kind, form = REPORTS[first]
    fields = fields_of(words, first + " " + form)
    if kind == 0:
        return "%d refused %d" % (number, fields["refusal"])
    values = (number, kind) + tuple(fields.get(name, 0) for name in REPORT_FIELDS)
    return " ".join(str(value) for value in values)


def report_words(line):
    """The other way: what a printed line says (the line itself if it is no report)."""
    words = line.split()
    if len(words) != 10 or words[1] not in ("1", "2", "3", "4", "5", "6"):
        return line
    kind, reason, side, party, entry, other, price, second, quantity = words[1:]
    who = "%s %s #%s" % (SIDE_WORDS[side == "1"], party, entry)
    return {"1": "noted",
            "2": "rejected %s %s %s x %s" % (reason, who, price, quantity),
            "3": "traded %s with #%s at %s x %s" % (who, other, price, quantity),
            "4": "rested %s %s/%s x %s" % (who, price, second, quantity),
            "5": "repriced %s %s/%s x %s" % (who, price, second, quantity),
            "6": "cancelled %s %s %s x %s" % (reason, who, price, quantity)}[kind]
