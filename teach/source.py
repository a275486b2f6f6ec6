"""Reads lessons in words, as teach/lesson.py and tests/make_lessons.py have them, and tells them from recorded ones.

A lesson is one setup and then a message a line, in the words of words.py.  An indented line is a
report that the message above it must give.  Where a file has more than one lesson, `lesson NAME`
begins each.  Lines that begin with # are remarks.  A line may begin with its number, as
`./waxglimmer show` prints it; the number is passed over.
"""

import io

from packed import messages_of
from words import MESSAGES, SETUP, Mistake, message_bytes, quoted, report_line, setup_bytes

BEGIN = "expected first: setup " + SETUP
UTF_16 = (b"\xff\xfe", b"\xfe\xff")      # the marks that some editors begin a text with
NO_TEXT = bytes(byte for byte in range(32) if byte not in b"\t\n\f\r") + b"\x7f"


def is_recorded(data):
    """Whether these bytes, or their first 15, begin a recorded lesson and not one in words.  A setup and one message
    have 15 bytes, and every message has a byte 0, which no text has.  The words of a setup take more than 3 bytes, and
    no setup that opens a series begins as UTF-16 does.  ./waxglimmer tells it by the same rule."""
    if len(data) < 4:
        return True
    return data[:2] not in UTF_16 and any(byte in NO_TEXT for byte in data[:15])


class Lesson:
    """What is read of one lesson: where it begins, its bytes, the lines that must be printed."""

    def __init__(self, name, place):
        self.name, self.place = name, place
        self.data, self.expected = None, []
        self.short = ""         # why nothing may follow the last bytes, or nothing

    def add(self, line):
        """The setup, or a message."""
        words = line.split()
        if words[0].isdigit() and len(words) > 1:
            words = words[1:]
        first = words[0].lower()
        if first == "setup":
            if self.data is not None:
                raise Mistake("a second setup; expected: one lesson in a file, which begins with its setup")
            self.data = bytearray(setup_bytes(" ".join(words[1:])))
            self.short = "the setup has fewer than 4 bytes" if len(self.data) < 4 else ""
            return
        if self.data is None and first not in MESSAGES and first != "bytes":
            raise Mistake("%s begins no lesson; %s" % (quoted(words[0]), BEGIN))
        message = message_bytes(" ".join(words))
        if self.data is None:
            raise Mistake("a message before the setup; " + BEGIN)
        if self.short:
            raise Mistake("a message where none can be told; %s; expected: the end of the lesson"
                          % self.short)
        self.data += message
        self.short = "the message above has fewer than 11 bytes" if len(message) < 11 else ""

    def due(self, line):
        """A report that the last message, or the setup, must give."""
        try:
            report = report_line(len(messages_of(self.data or b"")), line)
        except Mistake as mistake:
            raise Mistake("an indented line is a report; %s; a setup or message begins at the left"
                          % mistake) from None
        if self.data is None:
            raise Mistake("a report before the setup; " + BEGIN)
        self.expected.append(report)

    def end(self):
        if self.data is None:
            raise Mistake("no setup in %s; %s"
                          % ("lesson " + self.name if self.name else "the file", BEGIN))


def read_line(lessons, number, line):
    """Adds one line to the lessons read so far."""
    words = line.split()
    if not words or words[0].startswith("#"):
        return
    if words[0] == "lesson" and not line[0].isspace():
        if len(words) != 2:
            raise Mistake("%d words after `lesson`; expected: lesson NAME, and no blank in the name"
                          % (len(words) - 1))
        if lessons:
            lessons[-1].end()
        if words[1] in [lesson.name for lesson in lessons]:
            raise Mistake("a second lesson is named %s; expected: another name" % quoted(words[1]))
        lessons.append(Lesson(words[1], number))
        return
    if not lessons:
        lessons.append(Lesson(None, number))
    if line[0].isspace():
        lessons[-1].due(line)
    else:
        lessons[-1].add(line)


def text_lines(data):
    """The lines of a text in UTF-8, or in UTF-16 with its mark; whatever ends them."""
    encoding = "utf-16" if data[:2] in UTF_16 else "utf-8-sig"
    return io.TextIOWrapper(io.BytesIO(data), encoding=encoding, errors="backslashreplace").readlines()


def lessons_of(data, name):
    """The lessons of a text, or a Mistake that names the text and the line."""
    lessons, number = [], 0
    try:
        for number, line in enumerate(text_lines(data), 1):
            read_line(lessons, number, line)
        (lessons[-1] if lessons else Lesson(None, 1)).end()
    except Mistake as mistake:
        raise Mistake("%s:%d: %s" % (name, max(number, 1), mistake)) from None
    return lessons


def read_lessons(path):
    """The lessons of a file."""
    with open(path, "rb") as file:
        return lessons_of(file.read(), path)


def one_lesson(data, name):
    """The only lesson of a text."""
    lessons = lessons_of(data, name)
    if len(lessons) > 1:
        raise Mistake("%s:%d: a second lesson; expected: one, so copy the one that is wanted to a"
                      " file of its own" % (name, lessons[1].place))
    return lessons[0]
