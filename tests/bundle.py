#!/usr/bin/env python3
"""Makes the bundle of the crate `test_lessons`: every lesson of tests/lessons and of
tests/recorded in its reports, then every lesson of tests/lessons in the books it leaves, then
every one in the reasons of its reports, the recorded ones that have them too, and what must be
printed for each.

    python3 tests/bundle.py           writes crates/test_lessons/stdin and stdout
    python3 tests/bundle.py --check   only says whether they are up to date

Of each lesson the bundle has the length of its name and the name, one byte for the view
(0 reports, 1 book, 2 why), the length of its bytes and the bytes; a length is four bytes, most
significant first.  What must be printed is `== ` and the name, and below it in view 0 the
lesson's .out file and in view 2 its .why file, which no program of this project has written (see
tests/README.md), and in view 1 what the independent model says of the book after each message.
The name of a lesson in view 1 ends in `, the book`, in view 2 in `, why`.
"""

import glob
import os
import sys

from model import books
from tables import keep

HERE = os.path.dirname(os.path.abspath(__file__))
REPORTS, BOOK, WHY = 0, 1, 2
MOST = 262_144          # bytes that the program reads


def part(data):
    return len(data).to_bytes(4, "big") + data


def read(path):
    with open(path, "rb") as file:
        return file.read()


def lessons_of(folder):
    """The path without its end, the name and the bytes of each lesson."""
    for path in sorted(glob.glob(os.path.join(HERE, folder, "*.bin"))):
        yield path[:-4], folder + "/" + os.path.basename(path)[:-4], read(path)


def parts():
    """(name, view, bytes, what must be printed) of each part of the bundle."""
    for folder in ("lessons", "recorded"):
        for path, name, data in lessons_of(folder):
            yield name, REPORTS, data, read(path + ".out")
    for _, name, data in lessons_of("lessons"):
        yield name + ", the book", BOOK, data, "".join(line + "\n" for line in books(data)).encode()
    for folder in ("lessons", "recorded"):
        for path, name, data in lessons_of(folder):
            if os.path.exists(path + ".why"):
                yield name + ", why", WHY, data, read(path + ".why")


def bundled():
    stdin, stdout = bytearray(), bytearray()
    for name, view, data, out in parts():
        stdin += part(name.encode()) + bytes([view]) + part(data)
        stdout += b"== " + name.encode() + b"\n" + out
    if len(stdin) >= MOST:
        sys.exit("bundle: %d bytes, of which the program reads %d" % (len(stdin), MOST))
    return {"stdin": bytes(stdin), "stdout": bytes(stdout)}


if __name__ == "__main__":
    keep("test_lessons", bundled())
