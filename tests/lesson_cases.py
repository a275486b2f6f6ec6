#!/usr/bin/env python3
"""Tries teach/lesson.py without the session program: what it says of mistakes, how it tells a recorded lesson from
one in words, that `make` gives back what `show` was given, and that `tell` says what the lines say.

    python3 tests/lesson_cases.py

Exit status 1, with a line for each case that failed, if any did.
"""

import tools
import contextlib
import io
import os
import random
import re
import subprocess
import sys
import tempfile

import lesson
from cases import DOCUMENTS, HERE, ROOT, every_lesson, expect, finish, lessons_to_copy, read
from model import Series, session
from packed import *
from sentences import NAMES, REASONS, REFUSALS, Teller
from source import is_recorded
from words import SIDE_WORDS, message_bytes, message_words, setup_bytes, setup_words

SETUP = "setup call exempt M 1 K 10 strike 200"
TOP = "whole number from 0 to %d"

# Whole files, the line of the mistake, and what is wrong with it.
FILES = [
    ("", 1, "no setup in the file"),
    ("\n# a remark\n\n", 3, "no setup in the file"),
    ("  " + SETUP + "\n  open\n", 1, "an indented line is a report; 'setup' is no word for a report"),
    (SETUP + "\n\topen\n", 2, "an indented line is a report; 'open' is no word for a report"),
    (SETUP + "\nopen\n  rested buy 3 #1 99 x 5\n", 3, "an indented line is a report; 'x' stands in"),
    ("open\n" + SETUP + "\n", 1, "a message before the setup"),
    ("  noted\n" + SETUP + "\n", 1, "a report before the setup"),
    (SETUP + "\nopen\n" + SETUP + "\n", 3, "a second setup"),
    ("lesson a\n%s\nlesson b\n%s\n" % (SETUP, SETUP), 3, "a second lesson"),
    ("lesson a\n%s\nlesson a\n%s\n" % (SETUP, SETUP), 3, "a second lesson is named 'a'"),
    ("lesson a\nlesson b\n", 2, "no setup in lesson a"),
    ("lesson\n" + SETUP + "\n", 1, "0 words after `lesson`"),
    ("setup\n", 1, "call|put tested|exempt M PAIR K STEPS strike STRIKE is missing"),
    ("setup cal exempt M 1 K 10 strike 200\n", 1, "'cal' is neither call nor put"),
    ("setup call exempt M 16 K 10 strike 200\n", 1, "'16' is no PAIR: M is 1 (steps of 1 cent below 300 and 5 from there on)"
     " or 5 (5 and 10); any other whole number up to 15 fits, and is refused; expected: setup call|put"),
    ("setup call exempt M five K 10 strike 200\n", 1, "'five' is no PAIR: M is 1 (steps of 1 cent below 300 and 5"),
    ("setup call exempt M 1 K 128 strike 200\n", 1, "'128' is no STEPS, which is a " + TOP % 127),
    ("setup call exempt M 1 K 10 strike 131072\n", 1, "'131072' is no STRIKE"),
    ("setup call exempt N 1 K 10 strike 200\n", 1, "'N' stands in the place of M"),
    ("%PDF-1.4 and more of it\n", 1, "'%PDF-1.4' begins no lesson; expected first: setup call|put"),
    (SETUP + " now\n", 1, "'now' is too much"),
    ("setup bytes 44 50 03 20 00\n", 1, "5 bytes"),
    ("setup bytes 44 50 03 2\n", 1, "'2' is no byte"),
    ("setup bytes 44 50\nopen\n", 2, "a message where none can be told; the setup has fewer than 4"),
    (SETUP + "\nbytes B0 00\nopen\n", 3, "a message where none can be told; the message above has"),
    ("\x00\udcff\n", 1, "'\\x00\\\\xff' begins no lesson; expected first: setup"),
]
# Messages, and what is wrong with them.
MESSAGES = [
    ("opne", "'opne' is no word for a message"), ("MM-RP buy 3 225 x 50", "'MM-RP' is no word"),
    ("3", "'3' is no word for a message"), ("3 225 x 50", "'225' is no word for a message"),
    ("open now", "'now' is too much"), ("phase", "PHASE is missing"),
    ("phase 131072", "'131072' is no PHASE"), ("away 200", "OFFER is missing"),
    ("away", "BID OFFER is missing"), ("away 200 220 240", "'240' is too much"),
    ("away 200 2.20", "'2.20' is no OFFER: prices are whole cents, as 220; expected"),
    ("mmrp buy 3 10,05 x 50", "'10,05' is no LIMIT: prices are whole cents, as 1005; expected"),
    ("away 200 2.2", "'2.2' is no OFFER, which is a " + TOP % 131071 + ", or none"),
    ("order buy 50 100 x 2.20", "'2.20' is no QUANTITY, which is a"),
    ("away -1 none", "'-1' is no BID"), ("away 131072 none", "'131072' is no BID"),
    ("underlying", "PRICE is missing"), ("underlying no", "'no' is no PRICE"),
    ("enable", "MAKER is missing"), ("enable 128", "'128' is no MAKER, which is a " + TOP % 127),
    ("mmrp buy 3 225 50", "'50' stands in the place of x"), ("mmrp buy 3 225 x", "QUANTITY is missing"),
    ("mmrp 3 225 x 50", "'3' is neither buy nor sell"), ("mmrp buy 128 225 x 50", "'128' is no MAKER"),
    ("mmrp buy 3 none x 50", "'none' is no LIMIT"), ("order buy 50 1_0 x 5", "'1_0' is no LIMIT"),
    ("order buy 50 10 x 131072", "'131072' is no QUANTITY"), ("order buy 50 10 x 5 6", "'6' is too much"),
    ("order buy 128 10 x 5", "'128' is no PARTY"), ("order buy 50 \u0663 x 5", "'\u0663' is no LIMIT"),
    ("order buy 50 %s x 5" % ("9" * 5000), "'%s..' is no LIMIT" % ("9" * 30)),
    ("cancel 50", "#ENTRY is missing"), ("cancel 50 ##3", "'##3' is no #ENTRY"),
    ("cancel 50 #1048576", "'#1048576' is no #ENTRY, which is a " + TOP % 1048575),
    ("withdraw 3", "buy|sell is missing"), ("withdraw buy 3", "'buy' is no MAKER"),
    ("bytes", "0 bytes"), ("bytes 4 6", "'4' is no byte"), ("bytes" + " 00" * 12, "12 bytes"),
]
# What fits its field can be said, and the handler refuses it: message, refusal.
REFUSED = [
    ("mmrp buy 17 100 x 1", 2), ("order sell 127 131071 x 131071", 2), ("withdraw 127 sell", 2),
    ("enable 0", 2), ("plain buy 3 0 x 1", 3), ("away 131071 none", 3), ("underlying 131071", 3),
    ("dark buy 50 100 x 0", 4), ("phase 131071", 4), ("cancel 50 #1048575", 8), ("cancel 50 3", 8),
    ("bytes FF" + " ff" * 10, 1), ("bytes b000", 1),
]
# What is said of teach/lessons/cancel-reveals-nothing.txt, which docs/LESSONS.md works out.
SAID = """\
message 1 is noted: open
message 2 is noted: away 180 210
party 50's displayed sell order, entry 1, rests: shown 215, works 215, 10 contracts
party 51's dark sell order, entry 2, rests: not shown, works 215, 4 contracts
maker 4's MMRP buy quote, entry 3, rests: shown 205, works 210, 30 contracts
party 50's displayed sell order, entry 1, is cancelled for 28 (owner asked): limit 215, 10 contracts
message 7 is noted: away 180 none
maker 4's MMRP buy quote, entry 3, trades as taker with party 51's dark sell order, entry 2: at 215, 4 contracts
maker 4's MMRP buy quote, entry 3, is repriced: shown 220, works 220, 26 contracts
"""
SAID_ALONE = {
    "5 refused 6": "message 5 is refused for 6 (the maker is blocked)",
    "0 refused 1": "the setup is refused for 1 (length, an unused bit, or M, K or strike out of range; M is 1 or 5): no series",
    "4 2 26 0 3 3 0 200 0 1": "party 3's buy, entry 3, is rejected for 26 (a put's bid at or above the"
                              " strike): limit 200, 1 contract",
    "7 3 0 1 4 3 2 215 0 4": "party 4's sell, entry 3, trades as taker with entry 2: at 215, 4 contracts",
    "7 6 22 0 3 4 0 103 0 1": "party 3's buy, entry 4, is cancelled for 22 (would be shown more than K steps"
                              " from its limit): limit 103, 1 contract",
}
NO_LINES = ["", "open", "1 1 0 0 0 0 0 0 0", "1 7 0 0 0 0 0 0 0 0", "1 refused 12", "0 refused 2",
            "0 1 0 0 0 0 0 0 0 0", "1 6 9 0 3 1 0 5 0 1", "1 4 0 2 3 1 0 5 5 1"]

def run(*arguments):
    """(status, what is printed, what is said on standard error) of one command."""
    out, err = io.StringIO(), io.StringIO()
    with contextlib.redirect_stdout(out), contextlib.redirect_stderr(err):
        status = lesson.main(list(arguments))
    return status, out.getvalue(), err.getvalue()


def made_up(lines):
    """Lines of the view `why` for these reports, in which the price rules have figures that nobody worked out: whatever
    the program gives is said."""
    whys, last = [], (None, 0)
    for at, line in enumerate(lines):
        number, kind, rule, side = (line.split() + [""] * 4)[:4]
        last = number, last[1] + 1 if number == last[0] else 0
        is_low_first = rule in ("20", "21") and side == "1" or rule == "23" and side == "0"
        figures = (600000 + at, 700000 + at) if is_low_first else (700000 + at, 600000 + at)
        reason = "%s %d %d" % (rule, *(figures if rule < "27" else (0, 0))) if kind in ("2", "6") else "none"
        whys.append(line if kind == "refused" else "%s %d %s" % (*last, reason))
    return whys


def told(path, lines, whys=None, book=()):
    """What `tell` says of lines, for the lesson of a file, with the reasons beside them and the lines of the books."""
    for name, given in (("mine.out", lines), ("mine.why", made_up(lines) if whys is None else whys), ("mine.book", book)):
        with open(name, "w", encoding="utf-8") as file:
            file.write("".join(line + "\n" for line in given))
    return run("tell", path, "mine.out", "mine.why", "mine.book")


def made(text, encoding="utf-8"):
    """The lesson that `make` makes of a text, and what was said."""
    with open("mine.txt", "wb") as file:
        file.write(text.encode(encoding, "surrogateescape"))
    with open("mine.bin", "wb") as file:
        file.write(b"as before")
    said = run("make", "mine.txt", "mine.txt", "mine.bin")
    return read("mine.bin", "rb"), said


def try_mistakes():
    cases = FILES + [("%s\n\n%s\nopen\n" % (SETUP, words), 3, wrong) for words, wrong in MESSAGES]
    for text, line, wrong in cases:
        data, (status, out, err) = made(text)
        expect(repr(text[:90]), (data, status, out), (b"as before", 1, ""))
        start = "mine.txt:%d: %s" % (line, wrong)
        expect(repr(text[:90]), (err[:len(start)], "; expected" in err, err.count("\n")), (start, True, 1))
    small = "%s\nopen\naway none 220\nmmrp buy 3 225 x 50\nbytes b0 00\n" % SETUP
    for text in (small, small.upper(), small.title()):
        expect("in capitals", made(text), (made(small)[0], (0, "", "")))
    for words, refusal in REFUSED:
        data, said = made("\ufeff%s\r\n1 open\n  noted\n# a remark\n%s\n" % (SETUP, words))
        expect(words, (said, session(data)[1:]), ((0, "", ""), ["2 refused %d" % refusal]))
    made(SETUP + "\n")
    for arguments in (("show", "nothing.bin"), ("make", "it", "nothing.txt", "mine.bin"), ("show", "."),
                      ("make", "it", "mine.txt", "no/mine.bin"), ("make", "it", "mine.bin", "other.bin"),
                      ("tell", "nothing.bin", "mine.txt", "mine.txt", "mine.txt"), ("tell", "mine.bin", "mine.txt"),
                      ("tell", "mine.bin", "mine.txt", "mine.txt", "no.book"), ("book", "mine.bin", "no.out", "no.book"),
                      ("book-lines", "no.book"), ("make", "it", "mine.txt"), ("sing", "mine.bin")):
        status, out, err = run(*arguments)
        expect(" ".join(arguments), (status, out, err != ""), (1, "", True))


# How lessons begin, and whether such a beginning is that of a recorded one.
BEGINNINGS = [
    (b"", True), (b"DP", True), (b"\xff\xfe", True), (b"DP\x03\x20", True), (b"\xd4PND", False),
    (b"\xd4PND\xb0\x00", True), (b"\xd4PND" + b"\xb0" * 10 + b"\x00", True),
    (b"\xd4PND" + b"\xb0" * 11 + b"\x00", False), (b"setup call exempt", False), (b"\n\t\f\r # \xc3\xbc ~", False),
    (b"0 setup\x7f", True), (b"\xef\xbb\xbfsetup", False), (b"\xff\xfes\x00e\x00", False),
    (b"\xfe\xff\x00s\x00e", False), (b"\xff\xfd\x00s\x00e", True),
]


def try_recorded_or_words():
    for data, recorded in BEGINNINGS:
        expect("recorded or in words: %r" % data, is_recorded(data), recorded)
    for byte in range(256):
        for place in (0, 3, 4, 14):
            data = b"setup call exempt"[:place] + bytes([byte]) + b"setup call exempt"[place + 1:]
            expect("recorded or in words: %r" % data, is_recorded(data), byte in (*range(9), 11, *range(14, 32), 127))
    for path in every_lesson():
        data = read(path, "rb")
        expect("recorded: " + path, is_recorded(data), True)
        expect("in words: " + path, is_recorded(run("show", path)[1].encode()), False)
        with open("same.bin", "wb") as file:
            file.write(b"as before")
        expect("record " + path, (run("record", "it", path, "same.bin"), read("same.bin", "rb")), ((0, "", ""), data))
    text = "%s\r\nopen\r  noted\n# \u00fc\f\norder buy 50 10 x 5" % SETUP
    wanted = made(text)[0]
    expect("a text in bytes", wanted.hex(" ", -11), made(SETUP + "\nopen\norder buy 50 10 x 5\n")[0].hex(" ", -11))
    for encoding in ("utf-8-sig", "utf-16", "latin-1"):
        expect("a text in " + encoding, made(text, encoding), (wanted, (0, "", "")))
    expect("a text in utf-16-be", made("\ufeff" + text, "utf-16-be"), (wanted, (0, "", "")))


# Bytes of a setup, cut by hand into 1, 1, 4, 7, 17 and 2 bits, and what is shown of them.
SETUPS = [
    ("68180320", "call exempt M 10 K 3 strike 200"), ("44500320", "call exempt M 1 K 10 strike 200"),
    ("47280320", "call exempt M 1 K 101 strike 200"), ("44500000", "call exempt M 1 K 10 strike 0"),
    ("00000000", "call tested M 0 K 0 strike 0"), ("fffffffc", "put exempt M 15 K 127 strike 131071"),
    ("44500321", "bytes 44 50 03 21"), ("44500322", "bytes 44 50 03 22"), ("445003", "bytes 44 50 03"), ("", "bytes"),
]


def try_round_trips():
    for data, words in SETUPS:
        expect("setup " + data, (setup_words(bytes.fromhex(data)), setup_bytes(words).hex()), (words, data))
    for path in every_lesson():
        status, shown, err = run("show", path)
        data, said = made(shown)
        expect("show and make of " + path, (status, err, said), (0, "", (0, "", "")))
        expect("show and make of " + path, data, read(path, "rb"))
    dice = random.Random(1)
    for number in range(3000):
        kind = dice.choice(list(CARRIES))
        top = {"party": 127, "side": 1, "entry": 1048575}
        fields = {name: dice.choice((0, top.get(name, 131071), dice.randint(0, top.get(name, 131071))))
                  for name in CARRIES[kind]}
        data = Message(kind, **fields).pack()
        expect("message %s" % data.hex(), message_bytes(message_words(data)), data)
        data = dice.randbytes(dice.randint(1, 11))
        expect("message %s" % data.hex(), message_bytes(message_words(data)), data)
        data = dice.randbytes(dice.randint(0, 4))
        expect("setup %s" % data.hex(), setup_bytes(setup_words(data)), data)


def try_standard_output():
    """A reader that is gone ends it quietly; a disk that is full is named, once."""
    tool = [sys.executable, os.path.join(ROOT, "teach", "lesson.py")]
    env = {name: value for name, value in os.environ.items() if name != "PYTHONUNBUFFERED"}
    for path in (os.path.join(HERE, "recorded", "mixed-01"), os.path.join(HERE, "lessons", "example-e")):
        told(path + ".bin", read(path + ".out").splitlines())
        for command in (["show", path + ".bin"], ["tell", path + ".bin", "mine.out", "mine.why", "mine.book"]):
            reading, writing = os.pipe()
            os.close(reading)
            done = subprocess.run(tool + command, stdout=writing, stderr=subprocess.PIPE, env=env)
            os.close(writing)
            expect(command[0] + " to a reader that is gone", done.stderr, b"")
            with open("/dev/full", "w") as full:
                done = subprocess.run(tool + command, stdout=full, stderr=subprocess.PIPE, env=env)
            expect(command[0] + " to a full disk", (done.returncode, done.stderr),
                   (1, b"waxglimmer: standard output: No space left on device\n"))


# ---------------------------------------------------------------- sentences

ENTRY = r"(?:maker|party) (\d+)'s (plain|MMLO|MMALO|MMRP|displayed|dark) (buy|sell) (?:quote|order), entry (\d+)"
TOLD = re.compile(r"(?:the rest of )?%s, (rests|is repriced|is rejected|is cancelled|trades)(?: for (\d+) \([^)]*\)"
                  r"| as taker with %s)?: (?:shown (\d+), |not shown, )?(?:works|limit|at) (\d+), (\d+) contracts?$"
                  % (ENTRY, ENTRY))
KINDS = {"is rejected": 2, "trades": 3, "rests": 4, "is repriced": 5, "is cancelled": 6}


def line_told(sentence, takers):
    """The nine fields that a sentence tells, and {entry: kind's name}; read back by itself.  `takers` are the entries that
    have taken: what is then cancelled on arrival is a rest."""
    match = TOLD.match(sentence)
    if match is None:
        return sentence, {}
    party, name, side, entry, done, reason, _, other_name, _, other, shown, price, quantity = match.groups()
    if sentence.startswith("the rest of ") != (done == "is cancelled" and int(reason) <= 23 and entry in takers):
        return sentence, {}
    both = (shown or 0, price) if done in ("rests", "is repriced") else (price, 0)
    fields = (KINDS[done], reason or 0, SIDE_WORDS.index(side), party, entry, other or 0, *both, quantity)
    names = {int(entry): name}
    if other:
        names[int(other)] = other_name
    return " ".join(str(field) for field in fields), names


def kinds_of(data):
    """{entry: kind's name} of a lesson, by the model's own count of entries."""
    series, kinds = Series(*unpack_setup(data[:4])), {}
    for message in messages_of(data):
        before = series.given
        series.handle(message)
        if series.given > before:
            kinds[series.given] = NAMES[unpack_message(message).kind]
    return kinds


def reason_told(sentence):
    """What stands in brackets behind the number of a reason; nothing in a sentence that has none."""
    told = re.search(r" is (?:rejected|cancelled) for \d+ \(([^)]*)\): limit ", sentence)
    return told.group(1) if told else ""


def try_sentences():
    for path in every_lesson():
        data, lines = read(path, "rb"), read(path[:-4] + ".out").splitlines()
        status, out, err = told(path, lines)
        expect("tell " + path, (status, err, out.count("\n")), (0, "", len(lines)))
        played = "/lessons/" in path and unpack_setup(data[:4]) is not None
        kinds, takers = kinds_of(data) if played else None, set()
        for line, why, both in zip(lines, made_up(lines), out.split("\n")):
            sentence = both[len(line):].strip()
            expect("tell " + path, both[:len(line)], line)
            number, _, rest = line.partition(" ")
            if rest.startswith("refused") or rest.startswith("1 0 "):
                sent = message_words(messages_of(data)[int(number) - 1]) if number != "0" else "no series"
                expect("tell %s: %s" % (path, line), sentence.endswith(": " + sent), True)
                continue
            figures = re.findall(r"\d+", reason_told(sentence))
            expect("figures in %s: %s" % (path, line), figures, [word for word in why.split()[3:] if word != "0"])
            fields, names = line_told(sentence, takers)
            takers |= {rest.split()[4]} if rest.startswith("3 ") else set()
            expect("tell %s: %s" % (path, line), fields, rest)
            if kinds is not None:
                expect("kinds in %s: %s" % (path, line), names, {entry: kinds[entry] for entry in names})


def try_lines_alone():
    for line, sentence in SAID_ALONE.items():
        expect("tell: " + line, Teller().sentence(line), sentence)
    path = os.path.join(HERE, "lessons", "31-phases.bin")
    for line in NO_LINES:
        status, out, err = told(path, ["1 refused 1", line])
        expect("tell: " + line, (status, out.count("\n"), err[:8], "; expected" in err), (1, 1, "line 2: ", True))
    for name in ("full-book-of-64", "refusal-1-bytes-that-hold-no-message", "examples-a-b-c"):
        status, out, err = told(path, read(os.path.join(HERE, "lessons", name + ".out")).splitlines())
        expect("tell of another lesson than " + name, (status, err[:5]), (1, "line "))


# ---------------------------------------------------------------- lessons to copy, and the documents

def blocks_of(text):
    """The blocks of a document that stand indented or between fences, as they are without that."""
    fenced = re.findall(r"^```\w*\n(.*?)^```$", text, re.M | re.S)
    indented = re.findall(r"(?:^    .*\n|^\n(?=    ))+", text, re.M)
    return fenced + [re.sub(r"^    ", "", block, flags=re.M).strip("\n") + "\n" for block in indented]


def try_lessons_to_copy():
    """Those of teach/lessons are lessons that are known, and a lesson that a document shows can be made."""
    known = {"puts-by-the-strike": read(os.path.join(HERE, "lessons", "26-example-k-puts-by-the-strike.bin"), "rb"),
             "one-away-move": read(os.path.join(HERE, "recorded", "worked-session.bin"), "rb")}
    names = {os.path.basename(path)[:-4]: path for path in lessons_to_copy()}
    expect("teach/lessons", set(names) >= {*known, "cancel-reveals-nothing"}, True)
    for name, path in names.items():
        data, said = made(read(path))
        expect(path, (said, data), ((0, "", ""), known.get(name, data)))
        expect(path, read(path).startswith("# "), True)
    data = made(read(names["cancel-reveals-nothing"]))[0]
    out = told("mine.bin", session(data))[1]
    expect("cancel-reveals-nothing", [line[36:] for line in out.split("\n")], SAID.split("\n"))
    for path in DOCUMENTS:
        for block in blocks_of(read(path)):
            if re.match(r"(#.*\n|\n)*setup ", block):
                expect("a lesson in " + path, made(block)[1], (0, "", ""))


def try_tables():
    """The reasons and refusals of the teacher's tables are in the words that are said of them."""
    tables, found = {**REASONS, **REFUSALS}, set()
    text = read(os.path.join(ROOT, "docs", "TEACHER.md"))
    for numbers, cell in re.findall(r"^\| ([\d, ]+) \| ([^|]*) \|$", text, re.M):
        meanings = cell.split(": ")[-1].split("; ") if "," in numbers else [cell]
        for number, meaning in zip(numbers.split(", "), meanings):
            if int(number) in tables:
                found.add(int(number))
                expect("docs/TEACHER.md's %s" % number, set(meaning.split()) - set(tables[int(number)].split()), set())
    expect("the reasons and refusals of docs/TEACHER.md", found, set(tables))


if __name__ == "__main__":
    with tempfile.TemporaryDirectory() as folder:
        os.chdir(folder)
        for part in (try_mistakes, try_recorded_or_words, try_round_trips, try_standard_output, try_sentences,
                     try_lines_alone, try_lessons_to_copy, try_tables):
            part()
        os.chdir(HERE)
    finish("lesson_cases", "%d mistakes are named, %d lessons come back from their words, and each of their lines is told"
           % (len(FILES) + len(MESSAGES), len(every_lesson())))
