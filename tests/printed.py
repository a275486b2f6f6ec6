"""What the session program prints for a message, by view: its reports, the book that it leaves, or why."""

from shown_book import book_lines
from told_why import why_lines

VIEWS = ("reports", "book", "why")


def message_lines(number, refusal, reports):
    if refusal != 0:
        return ["%d refused %d" % (number, refusal)]
    return [" ".join(str(field) for field in (number, *fields)) for fields in reports]


def view_lines(view, number, answer, series):
    """The lines of message `number`; `answer` is what it was answered, `series` what it has left."""
    if view == "book":
        return book_lines(number, series.book)
    if view == "why":
        return why_lines(number, *answer, series.tests)
    return message_lines(number, *answer)
