#!/usr/bin/env python3
"""Whether what the documents name is there, and whether every public function has its promise.

    python3 tests/names.py      names each miss as FILE:LINE, and fails if there is one

1. Every name in backticks in README.md, docs/ and the README of a folder is a file or folder, a
   crate, something defined in crates/, tests/, teach/, c/ or bench/, an edit, a lesson, a word of
   lessons, an option, a command, a line that a lesson prints, a piece of code, or one of OTHER
   below.  A name that stands beside its file or crate (`File`: `name`, `name` of `crate/File`)
   must be defined there.
   The tables of RULES and PROMISES name much without backticks: files, theorems, functions,
   edits and lessons there must exist too; and so must, in every document, the paths in the text
   and the commands in blocks of code.
2. Every public function of crates/*/src has its row in docs/PROMISES.md under its crate, and
   every function of a row there exists.

Left out are docs/changes, docs/PORT.md, docs/DESIGN-PASS.md and docs/LOOK-BACK.md: a note of a past change names what stood there then,
and is not written again when that moves.
"""

import fnmatch
import re
import sys
from functools import lru_cache

from known_names import ROOT, Known

OTHER = {
    "how a definition is read: Rattle's words and signs, which no file imports": """
        abbrev|unfoldable|pub|use|let x = .. in|record { limit = .. }|λ (e : Entry). ..|Type 0|
        e.limit|cond b x y|suc n|some x|(x, y)|.0|.1|x - y|l ++ k|x ∷ l|×|:|=|A → B|A → ⊥""",
    "how contracts and proofs are written: Rattle's words": """
        requires|ensures|declared|pub|let .. else|if|match|result ≡ definition|proofs/MODULE/FUNCTION/Answers.antt""",
    "the kit's own: its command, its library, its names": """
        rt|std|axioms=|rattle-kit-5b|rattle-kit-13f logic dac8208d650f15bf""",
    "what a machine has: the C compiler and library, an environment": """
        cc|memmove|read|write|NATIVE=1 bench/run""",
    "words that a document gives a meaning of its own": """
        through|In both arms|vectors|edit|lesson|X/Name|{ok, series}""",
}
EXPLAINED = {word.strip() for group in OTHER.values() for word in group.split("|")}
THEOREM = 3             # the column of RULES that names theorems
RT_COMMANDS = "check ci doc fmt lib must-fail run tidy version".split()

RUN = r"`[^`]+`(?:(?:, | and )`[^`]+`)*"
SPAN = re.compile(r"`([^`\n]+)`")
BEHIND = re.compile(r"`([^`]+)`(?:: | \()(%s)" % RUN)
BESIDE = re.compile(r"`(\w+)` ([A-Z]\w+) (%s)" % RUN)
BEFORE = re.compile(r"(%s) of `([^`]+)`" % RUN)
PATH = re.compile(r"(?<![\w/.-])((?:docs|tests|teach|crates|bench|c)/[\w./*-]*\w)")
COMMAND = re.compile(r"(?:\$ )?((?:python3|rt|cc|bash|\./waxglimmer) .*)")
MADE = re.compile(r"crates/(\w+)/out/[\w.]+")       # what rt makes of a crate: it is there once that is built
PLACEHOLDER = re.compile(r"\b(?:CRATE|FILE|LABEL|NAME|STEP|X)\b")
LABEL = re.compile(r"(?<![\w/:.-])[a-z0-9]+(?:_[a-z0-9]+)+(?![\w/:.])")
FILE_NAMES = re.compile(r"((?:[a-z_]+/)?[A-Z]\w+) (.+)")
LESSONS = re.compile(r"\blessons? ((?:[\w]+(?:-[\w]+)+(?: \([^)]*\))?(?:, )?)+)")


# ---------------------------------------------------------------- one name

def is_path(known, name):
    """A file or folder, from the root, from crates/ or by its own name; CRATE and the like stand for any."""
    wanted = PLACEHOLDER.sub("*", name.rstrip("/")).removeprefix("./")
    if MADE.fullmatch(wanted):
        return MADE.fullmatch(wanted).group(1) in known.crates
    if "/" not in wanted:
        return any(fnmatch.fnmatchcase(file, wanted) for file in known.files) \
            or name.startswith(".") and any(file.endswith(name) for file in known.files)
    return bool(known.sources(name)) or any(
        fnmatch.fnmatchcase(path, front + wanted) for path in known.paths
        for front in ("", "crates/", "crates/*/"))


def is_qualified(known, name):
    """crate::module::function, module::function or crate::function; or a module of a crate."""
    *front, last = name.split("::")
    for crate, module, function in known.functions:
        whole = [crate] + [part for part in module.split("::") if part]
        if fnmatch.fnmatchcase(function, last) and front in (whole, whole[1:]):
            return True
    crate, _, module = name.partition("::")
    return "crates/%s/src/%s.rt" % (crate, module.replace("::", "/")) in known.paths


def is_command(known, command):
    """The script or the word behind it, its options and the paths that it is given are there."""
    words = command.lstrip("| ").split()
    if words[0] == "python3":
        script = words[1]
        good = script in known.paths and known.options_of(script).issuperset(
            word for word in words if word.startswith("--"))
    elif words[0] == "./waxglimmer":
        good = words[1] in known.inside["waxglimmer"]
    elif words[0] == "rt":
        good = words[1] in RT_COMMANDS
    else:
        good = words[0] in ("cc", "bash") or is_path(known, words[0])
    return good and all(is_path(known, path) for path in PATH.findall(command))


def is_code(known, name):
    """A piece of code, word for word; .. at its end stands for more."""
    piece = re.escape(re.sub(r" \.\.$", "", name))
    return re.search(r"(?<![\w.-])%s(?![\w-])" % piece, known.code) is not None


def sort_of(name):
    """What a name that is not at hand is looked for as, and by what."""
    if re.match(r"(python3|rt|cc|bash|\./\S+|\S+\.(py|sh)|\|) ", name):
        return "a command", lambda known: all(is_command(known, part) for part in name.lstrip("| ").split(" | "))
    if re.match(r"\d+ (refused|\d+) \d", name):
        return "a line that a lesson prints", lambda known: name in known.lines
    if re.search(r"[^\w./*'-]", name.replace("::", "")):
        return "a piece of code", lambda known: is_code(known, name)
    if name.startswith("--"):
        return "an option", lambda known: any(name in options for options in known.options.values())
    if "::" in name:
        return "crate::module::function", lambda known: is_qualified(known, name)
    if ".." in name or name.startswith("_") or name.endswith("_") or PLACEHOLDER.search(name) and "/" not in name:
        wanted = PLACEHOLDER.sub("*", name.replace("..", "*"))
        wanted = ("*" if name[0] == "_" else "") + wanted + ("*" if name[-1] == "_" else "")
        return "a part of names", lambda known: bool(fnmatch.filter(known.names, wanted))
    if re.fullmatch(r"[A-Z]\w*\.\w+", name):
        file, member = name.split(".")
        return "File.name", lambda known: any(member in known.inside[path] for path in known.sources(file))
    if "/" in name or "." in name:
        return "a path", lambda known: is_path(known, name)
    return "a name", lambda known: False


@lru_cache(None)
def missed_as(known, name):
    """What a name was looked for as, where it is not there; else None."""
    if name in known.names or name in EXPLAINED:
        return None
    sort, is_there = sort_of(name)
    return None if is_there(known) else sort


# ---------------------------------------------------------------- text

def is_inside(known, file, name):
    """Whether a name that stands beside a file or crate is defined there."""
    paths = known.sources(file)
    if not paths or re.search(r"[/. ]", name) or name in known.crates or known.sources(name) or name in EXPLAINED:
        return True
    return name in known.labels[file] or any(name.split("::")[-1] in known.inside[path] for path in paths)


def ties(line):
    """(file, name) where a name stands beside the file that it is of."""
    for file, run in BEHIND.findall(line):
        yield from ((file, name) for name in SPAN.findall(run))
    for crate, file, run in BESIDE.findall(line):
        yield from ((crate + "/" + file, name) for name in SPAN.findall(run))
    for run, file in BEFORE.findall(line):
        yield from ((file, name) for name in SPAN.findall(run))


def text_faults(known, line):
    """(name, what it was looked for as) for each miss in a line of any document."""
    for name in SPAN.findall(line):
        if missed_as(known, name):
            yield name, missed_as(known, name)
    for file, name in ties(line):
        if not missed_as(known, name) and not is_inside(known, file, name):
            yield name, "a name in " + file
    for path in PATH.findall(SPAN.sub(" ", line)):
        if not is_path(known, path):
            yield path, "a path"
    block = COMMAND.match(line.strip()) if line.startswith("    ") else None
    for command in re.split(r"\s{2,}", block.group(1))[0].split(" | ") if block else []:
        if not is_command(known, command):
            yield command, "a command"


# ---------------------------------------------------------------- the tables of RULES and PROMISES

def cells_of(line):
    return [cell.strip() for cell in line.strip().strip("|").split(" | ")] if line.startswith("| ") else []


def without_remarks(cell):
    return re.sub(r" \([^)]*\)", "", cell)


def cell_faults(known, cell):
    """Names without backticks: edits and the like by their underscores, functions by their path."""
    for name in LABEL.findall(SPAN.sub(" ", cell)):
        if missed_as(known, name):
            yield name, "an edit, a crate or a function"
    for path, rest in re.findall(r"(?<![`\w])(\w+(?:::\w+)+)((?:, \w+(?![\w:/ -]))*)", SPAN.sub(" ", cell)):
        front = path.rpartition("::")[0]
        for name in [path] + [front + "::" + word for word in rest.split(", ")[1:]]:
            if not is_qualified(known, name):
                yield name, "crate::module::function"
    for run in LESSONS.findall(cell):
        for name in without_remarks(run).split(", "):
            if name and name not in known.lessons:
                yield name, "a lesson"


def part_faults(known, part, is_theorem):
    """A part of a cell of RULES that begins with a file: the names behind it are defined there."""
    begins = FILE_NAMES.fullmatch(without_remarks(part))
    if begins is None:
        return
    file, rest = begins.groups()
    if not known.sources(file):
        if "/" in file or is_theorem:
            yield file, "a file of definitions or laws"
        return
    for name in re.split(r", | and ", rest.split(":")[0]):
        name = name.strip("`")
        if " " not in name and not is_inside(known, file, name):
            yield name, "a name in " + file


def edit_faults(known, crate, cell):
    """The edits of a row of PROMISES stand in its crate, or in the one that is named."""
    for part in cell.split(";"):
        named = re.search(r" of `(\w+)`", part)
        home = named.group(1) if named and named.group(1) in known.crates else crate
        for label in LABEL.findall(SPAN.sub(" ", part)):
            if home in known.crates and label not in known.labels[home]:
                yield label, "an edit of crate " + home


def rules_faults(known, line):
    for column, cell in list(enumerate(cells_of(line)))[1:]:
        yield from cell_faults(known, cell)
        for part in cell.split("; "):
            yield from part_faults(known, part, column == THEOREM)


# ---------------------------------------------------------------- the functions of PROMISES

def row_functions(crates, cell):
    """(crate, module, name) of each function in a row's first cell; a later one is of the same module."""
    module = []
    for name in SPAN.findall(cell):
        *front, last = name.split("::")
        module = front or module
        if len(crates) == 1:
            yield crates[0], "::".join(module), last
        elif module:
            yield module[0], "::".join(module[1:]), last


def shown(function):
    return "::".join(part for part in function if part)


class Promises:
    """Reads docs/PROMISES.md line by line: which crate it is at, which table, which rows."""

    def __init__(self, known):
        self.known, self.crates, self.columns, self.promised = known, [], [], set()

    def faults(self, line):
        if line.startswith("## "):
            self.crates = SPAN.findall(line)
        cells = cells_of(line)
        if not line.startswith("|"):
            self.columns = []
        elif not self.columns:
            self.columns = cells
        elif cells:
            yield from self.row_faults(cells)

    def row_faults(self, cells):
        if self.columns[0] == "Function":
            for function in row_functions(self.crates, cells[0]):
                if not any(fnmatch.fnmatchcase("/".join(there), "/".join(function)) for there in self.known.functions):
                    yield shown(function), "crate::module::function, as a row"
                if self.columns[1] == "Promise":
                    self.promised.add(function)
            if self.columns[-1] == "Edits" and len(self.crates) == 1:
                yield from edit_faults(self.known, self.crates[0], cells[-1])
                cells = cells[:-1]
        for cell in cells:
            yield from cell_faults(self.known, cell)

    def missing(self):
        """Public functions without a row."""
        public = {function for function, visibility in self.known.functions.items() if visibility == "pub"}
        return sorted(public - self.promised), len(public)


# ---------------------------------------------------------------- everything

def documents():
    return [ROOT / "README.md"] + sorted(ROOT.glob("*/README.md")) + sorted(path for path in ROOT.glob("docs/*.md") if path.name not in ("PORT.md", "DESIGN-PASS.md", "LOOK-BACK.md"))


def main():
    known = Known()
    promises, found, count = Promises(known), [], 0
    for path in documents():
        for number, line in enumerate(path.read_text().splitlines(), 1):
            count += len(SPAN.findall(line))
            faults = list(text_faults(known, line))
            if path.name == "RULES.md":
                faults += rules_faults(known, line)
            if path.name == "PROMISES.md":
                faults += promises.faults(line)
            found += ["%s:%d: `%s`: looked for as %s" % (path.relative_to(ROOT), number, *fault)
                      for fault in dict.fromkeys(faults)]
    missing, public = promises.missing()
    found += ["docs/PROMISES.md: `%s`: a public function without a row" % shown(function) for function in missing]
    print("\n".join(found + ["names: %d names in backticks and %d public functions, %d not as they should be"
                             % (count, public, len(found))]))
    sys.exit(bool(found))


if __name__ == "__main__":
    main()
