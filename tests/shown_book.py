"""The book as it is shown after a message: a line for each entry that rests, the oldest first.

    m side place entry party kind limit display working quantity

The place says how many on its side trade before it; document 01, "Who trades first": "A taker
buy trades at the resting working price, with the lowest first; at one price displayed before
undisplayed; then by rank."  It is counted here by that sentence, entry against entry, and
apart from the search that the model's own trades are made with.
"""

from entries import seen

FIELDS = ("message", "side", "place", "entry", "party", "kind", "limit", "display", "working",
          "quantity")
KINDS = ("", "plain", "mmlo", "mmalo", "mmrp", "order", "dark")


def trades_before(one, other):
    """Whether a taker of the other side meets `one` before `other`, of the same side."""
    taker = 1 - one.side
    if one.working != other.working:
        return seen(taker, one.working) < seen(taker, other.working)
    if one.displayed() != other.displayed():
        return one.displayed()
    return one.rank < other.rank


def place_of(entry, book):
    return sum(1 for other in book if other.side == entry.side and trades_before(other, entry))


def book_lines(number, book):
    """What is printed for the book that message `number` leaves."""
    lines = []
    for entry in sorted(book, key=lambda entry: entry.rank):
        values = (number, entry.side, place_of(entry, book), entry.number, entry.party, entry.kind,
                  entry.limit, entry.display, entry.working, entry.quantity)
        lines.append(" ".join(str(value) for value in values))
    return lines


def book_words(line):
    """What a line says (the line itself if it is none of a book)."""
    words = line.split()
    if len(words) != len(FIELDS) or not all(word.isascii() and word.isdigit() for word in words):
        return line
    _, side, place, entry, party, kind, limit, display, working, quantity = map(int, words)
    if side > 1 or not 1 <= kind <= 6:
        return line
    shown = "shown %d" % display if display != 0 else "not shown"
    return "%s #%d of %d, %s %d x %d: %s, works %d, %d before it" % (
        ("buy", "sell")[side], entry, party, KINDS[kind], limit, quantity, shown, working, place)


def field_words(expected, line):
    """Which fields differ where both lines are of one entry after one message, in words; else ""."""
    wanted, given = expected.split(), line.split()
    if not len(wanted) == len(given) == len(FIELDS) or (wanted[0], wanted[3]) != (given[0], given[3]):
        return ""
    return "; ".join("%s %s in place of %s" % (name, got, want)
                     for name, want, got in zip(FIELDS, wanted, given) if want != got)
