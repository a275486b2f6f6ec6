#!/usr/bin/env python3
"""Tries ./waxglimmer as a teacher would, with the program that is built (tests/first_run.py tries how it gets built).

    python3 tests/front_door.py

Exit status 1, with a line for each case that failed, if any did.
"""

import tools
import concurrent.futures
import os
import re
import select
import shlex
import subprocess
import tempfile

from cases import DOCUMENTS, HERE, ROOT, every_lesson, expect, finish, lessons_to_copy, read
from lesson_cases import BEGINNINGS, reason_told
from reason_lessons import LESSONS, read_lesson

DOOR = os.path.join(ROOT, "waxglimmer")
PLAYING = ("run", "why", "show", "tell", "book")
LESSON = os.path.join(HERE, "recorded", "worked-session.bin")
LINES = read(LESSON[:-4] + ".out")
WORDS = read(os.path.join(ROOT, "teach", "lessons", "one-away-move.txt"))
PATIENCE = 120
# The lessons whose setup is refused, and why.
NO_PAIR, NO_STRIKE = "M %d names no pair of steps: M is 1 or 5", "strike %d is out of range, which is 1 to 100000"
NO_SETUPS = {"refused-setup-m-2": NO_PAIR % 2, "refused-setup-m-10": NO_PAIR % 10, "refused-setup-k-101": "K 101 is above 100",
             "refused-setup-strike-0": NO_STRIKE % 0, "refused-setup-strike-100001": NO_STRIKE % 100001,
             "refused-setup-nonzero-filling": "one of the last two bits is not 0"}


def door(*arguments, stdin=b"", script=DOOR, **how):
    """(status, standard output, standard error) of one command."""
    stdin = stdin.encode() if isinstance(stdin, str) else stdin
    done = subprocess.run([script, *arguments], input=stdin, capture_output=True, timeout=PATIENCE, **how)
    out, err = done.stdout.decode("utf-8", "replace"), done.stderr.decode("utf-8", "replace")
    expect("%s: status 0 or 1, and no traceback" % (arguments,), (done.returncode in (0, 1), "Traceback" in err), (True, False))
    return done.returncode, out, err


def shell(line, **how):
    """The same of a line that is typed, in which $door is the command."""
    done = subprocess.run(["bash", "-c", line], env={**os.environ, "door": DOOR}, capture_output=True,
                          stdin=subprocess.DEVNULL, timeout=PATIENCE, **how)
    return done.returncode, done.stdout.decode(), done.stderr.decode()


def not_done(reason, *arguments, **how):
    """It is not done, and one line says why."""
    status, out, err = door(*arguments, **how)
    expect("%s: not done" % (arguments,), (status, out, err.count("\n")), (1, "", 1))
    expect("%s: why" % (arguments,), err if reason not in err else reason, reason)


def shown(path):
    """A recorded lesson in words."""
    return door("show", path)[1]


def path_without(folder, *names):
    """A PATH on which everything is found but some programs."""
    os.makedirs(folder)
    for place in os.environ["PATH"].split(":"):
        for name in os.listdir(place) if os.path.isdir(place) else ():
            if not name.startswith(names) and not os.path.lexists(os.path.join(folder, name)):
                os.symlink(os.path.join(place, name), os.path.join(folder, name))
    return {**os.environ, "PATH": folder}


# ---------------------------------------------------------------- what there is

def try_help():
    wanted = door("help")
    expect("help", (wanted[0], wanted[2], wanted[1].count("\n") <= 25), (0, "", True))
    for arguments in ((), ("--help",), ("-h",)):
        expect("help by %s" % (arguments,), door(*arguments), wanted)
    for command in PLAYING + ("make", "test"):
        expect("help names " + command, "./waxglimmer %s " % command in wanted[1], True)
    steps = "M 1: steps of 1 cent below 300 and 5 from there on; M 5: 5 and 10; K counts steps"
    expect("help says what M and K are", steps in wanted[1].replace("\n", " "), True)
    example = "".join(re.findall(r"^    (\w.*\n)", wanted[1], re.M))
    expect("help's example is played", door("run", stdin=example)[1].split("\n")[0], "1 1 0 0 0 0 0 0 0 0")
    for typed, right in (("rnu", "run"), ("runn", "run"), ("ru", "run"), ("fun", "run"), ("shwo", "show"), ("tel", "tell"), ("wy", "why"),
                         ("bok", "book"), ("mske", "make"), ("tets", "test"), ("helpp", "help"), ("sing", ""), ("", "")):
        status, out, err = door(typed)
        listed, _, last = err.rstrip("\n").rpartition("\n")
        hint = "; did you mean %s?" % right if right else ""
        expect("typed " + typed, (status, out, last), (1, "", "waxglimmer: there is no command '%s'%s" % (typed, hint)))
        expect("typed " + typed, listed.strip(), wanted[1].strip())


# ---------------------------------------------------------------- lessons

def try_lesson(path):
    """One lesson in words and recorded: run prints its lines, why their reasons, tell keeps both, book draws each message."""
    text, wanted, name = shown(path), read(path[:-4] + ".out"), os.path.basename(path)
    expect("run in words " + name, door("run", stdin=text), (0, wanted, ""))
    expect("run " + name, door("run", path), (0, wanted, ""))
    reasons = door("session", "why", stdin=read(path, "rb"))[1]
    expect("why in words " + name, door("why", stdin=text), (0, reasons, ""))
    expect("why " + name, door("why", path), (0, reasons, ""))
    status, out, err = door("tell", stdin=text)
    kept = ["%-34s  " % line for line in wanted.splitlines()]
    expect("tell " + name, (status, [line[:len(begin)] for line, begin in zip(out.splitlines(), kept)], err), (0, kept, ""))
    figures = [line.split()[3:] for line in reasons.replace(" 0 0\n", "\n").splitlines()]
    expect("the figures of tell " + name, [re.findall(r"\d+", reason_told(line)) for line in out.splitlines()], figures)
    try_book(path, text, name)


def try_book(path, text, name):
    """Every entry that the program says rests is drawn, and at most 80 columns are used."""
    status, picture, err = door("book", path)
    expect("book " + name, (status, err, [line for line in picture.splitlines() if len(line) > 80]), (0, "", []))
    status, lines, err = door("book", "--lines", stdin=text)
    said = door("session", "book", stdin=read(path, "rb"))[1]
    expect("book --lines " + name, (status, sorted(lines.splitlines()), err), (0, sorted(said.splitlines()), ""))
    if said == "0 refused 1\n":
        sentence = "the setup is refused for 1 (%s): no series" % NO_SETUPS[os.path.basename(path)[:-4]]
        expect("book " + name, " ".join(picture.split()), sentence)
        expect("tell " + name, door("tell", path), (0, "%-34s  %s\n" % ("0 refused 1", sentence), ""))
        return
    told = [line for line in picture.splitlines() if re.match(r"\d+ ", line)]
    expect("book's messages of " + name, told, text.splitlines())
    number, drawn = None, []
    for line in picture.splitlines():
        number = re.match(r"(\d+) |", line).group(1) or number
        drawn += [(number, line.split()[0])] if line[:9].strip().isdigit() else []
    expect("book's entries of " + name, drawn, [(line.split()[0], line.split()[3]) for line in lines.splitlines()])


def try_recorded(path):
    """A recorded lesson on a pipe, and in words; and why, where its reasons stand beside it."""
    for data in (read(path, "rb"), shown(path)):
        expect("run " + path, door("run", stdin=data), (0, read(path[:-4] + ".out"), ""))
    if os.path.exists(path[:-4] + ".why"):
        expect("why " + path, door("why", path), (0, read(path[:-4] + ".why"), ""))


def try_lessons():
    with concurrent.futures.ThreadPoolExecutor(os.cpu_count()) as pool:
        list(pool.map(try_lesson, every_lesson("lessons")))
        list(pool.map(try_recorded, every_lesson("recorded")))
    for data, recorded in BEGINNINGS:       # of those that are in words none is a whole lesson
        expect("run of %r" % data, door("run", stdin=data)[0], 0 if recorded else 1)
    for path in lessons_to_copy():
        for command in PLAYING:
            expect("%s %s" % (command, path), door(command, path)[::2], (0, ""))
    for command in (("book", "--lines"), ("why",)):
        expect("%s of a setup that is refused" % command[0], door(*command, os.path.join(HERE, "recorded", "short-setup.bin")),
               (0, "0 refused 1\n", ""))


def try_why():
    """The reasons that were written out by hand, and what is said of them."""
    for name, text in LESSONS.items():
        data, whys, said = read_lesson(text)
        expect("why: " + name, door("why", stdin=data), (0, "".join(line + "\n" for line in whys), ""))
        expect("told why: " + name, [reason_told(line) for line in door("tell", stdin=data)[1].splitlines()], said)


# ---------------------------------------------------------------- places and pipes

def try_places():
    """From another folder, by names with blanks and dashes, through a link; each in words and recorded."""
    os.makedirs("a folder")
    for name, data in (("my lesson.txt", WORDS.encode()), ("my lesson.bin", read(LESSON, "rb")), ("-x", WORDS.encode()),
                       ("with mark.txt", WORDS.encode("utf-16"))):
        with open(os.path.join("a folder", name), "wb") as file:
            file.write(data)
    os.symlink(DOOR, "a link")
    os.symlink("a link", "another")
    for name in ("my lesson.txt", "my lesson.bin", "./-x", "with mark.txt"):
        expect("run " + name, door("run", name, cwd="a folder"), (0, LINES, ""))
        expect("run by its path", door("run", os.path.abspath(os.path.join("a folder", name))), (0, LINES, ""))
        expect("through a link", door("run", name, cwd="a folder", script=os.path.abspath("another")), (0, LINES, ""))
        wanted = {command: door(command, LESSON) for command in PLAYING}
        for command in PLAYING:
            expect("%s %s" % (command, name), door(command, name, cwd="a folder"), wanted[command])
            for rest in ((), ("-",)):
                given = read(os.path.join("a folder", name), "rb")
                expect("%s %s on a pipe" % (command, name), door(command, *rest, stdin=given), wanted[command])
    expect("--lines behind", door("book", LESSON, "--lines"), door("book", "--lines", LESSON))
    not_done("book has no option --line ", "book", LESSON, "--line")
    not_done("the session program has no view 'sing': it is book or why, or nothing for the reports", "session", "sing")
    expect("a name in a pipe", shell('"$door" run <("$door" show %s)' % shlex.quote(LESSON)), (0, LINES, ""))
    expect("a file's name alone", door("my lesson.txt", cwd="a folder")[2].split("\n")[-2],
           "waxglimmer: there is no command 'my lesson.txt'; to play that file: ./waxglimmer run 'my lesson.txt'")


def answered(process):
    """The next line that a program prints while its input stays open."""
    ready = select.select([process.stdout], [], [], 30)[0]
    return process.stdout.readline().decode() if ready else "(nothing in 30 seconds)"


def try_live():
    """What a message gives is printed before more input is waited for; after a refused setup nothing is waited for."""
    data = read(LESSON, "rb")
    for command, setup in (("run", data[:4]), ("run", bytes.fromhex("d4504e44")), ("why", data[:4])):
        process = subprocess.Popen([DOOR, command], stdin=subprocess.PIPE, stdout=subprocess.PIPE, bufsize=0)
        for number, part in enumerate((setup + data[4:15], data[15:26], data[26:30], data[30:37]), 1):
            process.stdin.write(part)
            if number != 3:     # the third message comes in two parts
                expect("message by message", answered(process)[:2], "%d " % min(number, 3))
        process.stdin.close()
        expect("message by message, the end", (process.stdout.read(), process.wait(30)), (b"", 0))
    process = subprocess.Popen([DOOR, "run"], stdin=subprocess.PIPE, stdout=subprocess.PIPE, bufsize=0)
    process.stdin.write(bytes(4))
    expect("a refused setup, the input open", (answered(process), process.wait(30)), ("0 refused 1\n", 0))
    try:
        process.stdin.write(bytes(11))
        expect("a refused setup", "something reads on", "nothing reads on")
    except BrokenPipeError:
        pass


def try_closed_readers():
    long = os.path.join(HERE, "recorded", "longest-settling.bin")
    with open("long.txt", "w") as file:
        file.write(shown(long))
    for arguments in [(command, path) for command in PLAYING for path in (long, "long.txt")] + [("help",), ("book", "--lines", long)]:
        reading, writing = os.pipe()
        os.close(reading)
        done = subprocess.run([DOOR, *arguments], stdout=writing, stderr=subprocess.PIPE, timeout=PATIENCE)
        os.close(writing)
        expect("%s to a reader that is gone" % (arguments,), (done.returncode, done.stderr), (0, b""))
    first = read(long[:-4] + ".out").split("\n")[0] + "\n"
    expect("| head -1", shell('"$door" run %s | head -1' % shlex.quote(long)), (0, first, ""))


# ---------------------------------------------------------------- what is not done, and why

def try_reasons():
    with open("bad words.txt", "w") as file:
        file.write("# a lesson\nsetup call exempt M 1 K 10 strike 200\nopne\n")
    for command in PLAYING:
        not_done("waxglimmer: there is no file 'nothing.txt'", command, "nothing.txt")
        not_done("waxglimmer: there is no file ''", command, "")
        not_done("waxglimmer: %s is a folder, not a lesson" % HERE, command, HERE)
        not_done("waxglimmer: %s takes one FILE, and 2 were given" % command, command, "my", "lesson.txt")
        not_done("waxglimmer: %s has no option --sing" % command, command, "--sing")
        not_done("bad words.txt:3: 'opne' is no word for a message; expected: ", command, "bad words.txt")
        not_done("standard input:2: 'opne' is no word", command, stdin="setup call exempt M 1 K 10 strike 200\nopne\n")
        not_done("no room for files in /nowhere", command, LESSON, env={**os.environ, "TMPDIR": "/nowhere"})
        not_done("waxglimmer: /proc/self/mem cannot be read", command, "/proc/self/mem")
        for line, reason in (('<&-', "standard input cannot be read"), ("<.", "standard input cannot be read"),
                             ('%s >&-' % shlex.quote(LESSON), "waxglimmer: standard output is closed"),
                             ('%s >/dev/full' % shlex.quote(LESSON), "standard output")):
            status, out, err = shell('"$door" %s %s' % (command, line))
            expect("%s %s" % (command, line), (status, out, err.count("\n"), reason in err), (1, "", 1, True))
        if os.getuid() != 0:
            with open("locked.bin", "wb") as file:
                os.fchmod(file.fileno(), 0)
            not_done("waxglimmer: locked.bin may not be read", command, "locked.bin")


def try_make():
    for name, text in (("words.txt", WORDS), ("other.txt", WORDS), ("teach it.txt", WORDS + "close\n"), ("made it.bin.new", "mine")):
        with open(name, "w") as file:
            file.write(text)
    with open("wide.txt", "w", encoding="utf-16") as file:
        file.write(WORDS)
    os.symlink("piped.bin", "link.bin")
    expect("make", (door("make", "words.txt", "made it.bin"), read("made it.bin", "rb")), ((0, "", ""), read(LESSON, "rb")))
    expect("make of a pipe", (door("make", "-", "piped.bin", stdin=WORDS), read("piped.bin", "rb")), ((0, "", ""), read(LESSON, "rb")))
    for reason, arguments in (("make takes two names", ("words.txt",)), ("make takes two names", ()),
                              ("make takes two names", ("words.txt", "made", "it.bin")), ("no option -x", ("words.txt", "-x")),
                              ("words.txt and ./words.txt are one file", ("words.txt", "./words.txt")),
                              ("no/mine.bin cannot be written", ("words.txt", "no/mine.bin")), (". cannot be written", ("words.txt", ".")),
                              ("/dev/full cannot be written", ("words.txt", "/dev/full")),
                              ("made it.bin: a recorded lesson, or no text at all", ("made it.bin", "other.bin")),
                              ("other.txt is a text, and would be lost", ("words.txt", "other.txt")),
                              ("wide.txt is a text, and would be lost", ("words.txt", "wide.txt")),
                              ("bad words.txt:3: 'opne' is no word", ("bad words.txt", "made it.bin")),
                              ("there is no file 'nothing.txt'", ("nothing.txt", "made it.bin"))):
        not_done(reason, "make", *arguments)
    expect("what was made stays", read("made it.bin", "rb"), read(LESSON, "rb"))
    expect("texts stay", (read("other.txt"), read("wide.txt", "rb").decode("utf-16"), read("made it.bin.new")), (WORDS, WORDS, "mine"))
    expect("made through a link", (door("make", "teach it.txt", "link.bin"), os.path.islink("link.bin"), read("piped.bin", "rb")[:-11]),
           ((0, "", ""), True, read(LESSON, "rb")))
    expect("made again", (door("make", "teach it.txt", "made it.bin"), read("made it.bin", "rb") != read(LESSON, "rb")), ((0, "", ""), True))
    expect("nothing else is made", os.path.exists("other.bin"), False)


def try_without():
    """Without python3 a recorded lesson is played and nothing else; without rt the program that is there is tried."""
    env = path_without("no python", "python", "pypy")
    expect("run without python3", door("run", LESSON, env=env), (0, LINES, ""))
    expect("run of a pipe without python3", door("run", stdin=read(LESSON, "rb"), env=env), (0, LINES, ""))
    expect("why without python3", door("why", LESSON, env=env), door("why", LESSON))
    expect("help without python3", door("help", env=env), door("help"))
    for command in ("run", "why"):
        not_done("waxglimmer: python3 is needed to read a lesson in words", command, stdin=WORDS, env=env)
    for command in ("show", "tell", "book", "make"):
        not_done("waxglimmer: python3 is needed for %s" % command, command, LESSON, env=env)
    env = path_without("no rt", "rt")
    status, out, err = door("run", LESSON, env=env)
    if status == 0:
        expect("run without rt", (out, err), (LINES, ""))
    else:       # a machine of another make, or without the C library that the program wants
        expect("run without rt", (out, err.count("\n"), "Rattle's kit is needed" in err), ("", 1, True))
    expect("show without rt", door("show", LESSON, env=env), door("show", LESSON))


# ---------------------------------------------------------------- documents

def shown_commands(text):
    """(command line, what a document says it prints): indented blocks that begin with `$ ./waxglimmer`."""
    for block in re.findall(r"(?:^    .*\n|^\n(?=(?:\n)*    ))+", text, re.M):
        lines = [line[4:].rstrip() for line in block.split("\n")]
        starts = [place for place, line in enumerate(lines) if line.startswith("$ ")] + [len(lines)]
        for start, end in zip(starts, starts[1:]):
            if lines[start].startswith("$ ./waxglimmer "):
                yield lines[start][2:], "\n".join(lines[start + 1:end]).rstrip().split("\n")


def try_documents():
    """What the documents show of a command is what it prints: all of it, or its beginning if the block ends with `..`."""
    count = 0
    for path in DOCUMENTS:
        for line, block in shown_commands(read(path)):
            arguments = shlex.split(line)[1:]
            if arguments[0] not in PLAYING:
                continue
            status, out, err = door(*arguments, cwd=ROOT)
            told, count = [printed.rstrip() for printed in out.rstrip().split("\n")], count + 1
            if block[-1] == "..":
                block.pop()
                told = told[:len(block)]
            expect("%s: %s" % (os.path.basename(path), line), (status, err, told), (0, "", block))
    expect("the documents show lessons as they are played", count > 0, True)


if __name__ == "__main__":
    subprocess.run([DOOR, "run", LESSON], stdout=subprocess.DEVNULL)       # builds the program where it is not built
    with tempfile.TemporaryDirectory() as folder:
        os.chdir(folder)
        for part in (try_help, try_lessons, try_why, try_places, try_live, try_closed_readers, try_reasons, try_make, try_without,
                     try_documents):
            part()
        os.chdir(HERE)
    finish("front_door", "the front door opens: every command, in words and recorded, and %d lessons" % len(every_lesson()))
