"""What the scripts that try the teacher's tools share: cases that failed, and the lessons that they try."""

import glob
import os
import sys

HERE = os.path.dirname(os.path.abspath(__file__))
ROOT = os.path.dirname(HERE)
DOCUMENTS = [os.path.join(ROOT, "README.md"), os.path.join(ROOT, "docs", "TEACHER.md"),
             os.path.join(ROOT, "docs", "LESSONS.md")]

failures = []


def expect(case, told, wanted):
    if told != wanted:
        failures.append("%s\n    wanted: %r\n    told:   %r" % (case, wanted, told))


def read(path, mode="r"):
    with open(path, mode, encoding=None if "b" in mode else "utf-8") as file:
        return file.read()


def every_lesson(*folders):
    """The recorded lessons of the tree."""
    return sorted(path for folder in folders or ("lessons", "recorded")
                  for path in glob.glob(os.path.join(HERE, folder, "*.bin")))


def lessons_to_copy():
    """The lessons in words that stand ready for the teacher."""
    return sorted(glob.glob(os.path.join(ROOT, "teach", "lessons", "*.txt")))


def finish(name, summary):
    """The last line, and the exit status: 1, with a line for each case that failed, if any did."""
    if failures:
        print("\n".join(failures[:40]))
        sys.exit("%s: %d cases failed" % (name, len(failures)))
    print(summary)
