"""The edits of tests/wrong/ and of must-fail/: what they change, and in which functions of which crates.

tests/wrong_answers.py, which tries them, says what they look like.
"""

import collections
import re
from pathlib import Path

HERE = Path(__file__).resolve().parent
ROOT = HERE.parent
# texts: a file, a function or None, and an old and a new text of the function's code, or of the file.
Edit = collections.namedtuple("Edit", "name functions texts")
HEAD = re.compile(r'^( *)((?:pub(?:\(crate\))? )?(?:extern "C" )?fn|const(?= \w+: .* = .*;$)) (\w+)', re.M)
BLOCK = re.compile(r"^impl\b(?:<.*?>)? (?:(\S.*) for )?(\w+).*\{$", re.M)


class Failure(Exception):
    pass


def sources(crate):
    return ROOT / "crates" / crate


def listed():
    """Each crate of crates.txt, and the crates of the repository that it uses, itself left out."""
    lines = (line.partition("#")[0].partition(":") for line in (ROOT / "crates.txt").read_text().splitlines())
    uses = {head.split()[0]: tail.split() for head, mark, tail in lines if mark}
    return {crate: [dep for dep in deps if dep in uses] for crate, deps in uses.items()}


def below(crate, uses):
    found = []
    for dep in uses[crate]:
        found += [it for it in (*below(dep, uses), dep) if it not in found]
    return found


def named(path, function):
    return function if path.stem in ("lib", "main") else path.stem + "::" + function


def block_of(text, at):
    """What the prover calls the `impl` that has this place of a file in it: the type, and the trait without its marks."""
    found = [it for it in BLOCK.finditer(text, 0, at) if at < text.index("\n}\n", it.end())]
    return found[-1][2] + re.sub(r"\W", "", found[-1][1] or "") if found else ""


def functions_in(text):
    """The functions of a file that have code, in order: the name, whether it is public, where the code begins, behind its contract, and where
    it ends. To the prover a constant of an `impl` is one of them."""
    for head in HEAD.finditer(text):
        margin, word, name = head.groups()
        block = block_of(text, head.start()) if margin else ""
        if margin and not block or word == "const" and not margin:
            continue
        if word == "const":
            start, end = head.end(), text.index("\n", head.end())
        else:
            start = re.compile(r"^%s(\S.*)?\{$" % margin, re.M).search(text, head.start()).end()
            end = text.index("\n%s}\n" % margin, start)
        yield block + "::" * bool(block) + name, word.startswith("pub "), start, end


def body_of(text, function):
    """Where the code of a function, be it named with its file or not, begins and ends."""
    for name, _, start, end in functions_in(text):
        if function == name or function.endswith("::" + name):
            return start, end
    return 0, 0


def edits_of(crate):
    """The edits of tests/wrong/."""
    edits, held = [], {}
    path = HERE / "wrong" / (crate + ".edits")
    for line in path.read_text().splitlines() if path.exists() else []:
        said = re.fullmatch("(file|function|edit|old|new): ?(.*)", line)
        word, text = said.groups() if said else ("", line)
        if word in ("file", "function"):
            held[word] = text
        elif word == "edit":
            edits.append(Edit(text, [held["function"]], []))
        elif word == "old":
            edits[-1].texts.append((held["file"], held["function"], text))
        elif word == "new":
            edits[-1].texts[-1] += (text,)
        elif text and not text.startswith("#"):
            raise Failure("a line that says nothing: " + text)
    for edit in edits:
        if [other.name for other in edits].count(edit.name) > 1 or {len(text) for text in edit.texts} != {4}:
            raise Failure(edit.name + " is listed twice, or is not whole")
    return edits


def must_fail_edits_of(crate):
    """The edits of must-fail/ that change code, and the names of those that change a definition."""
    edits, others = [], []
    for path in sorted(sources(crate).glob("must-fail/*.edit")):
        edit, texts, file, old = Edit("must-fail/" + path.stem, [], []), {}, "", ""
        for word, text in re.findall("^(file|old|new): ?(.*)$", path.read_text(), re.M):
            if word == "file":
                file = text
                texts.setdefault(file, (sources(crate) / file).read_text())
            elif word == "old":
                old = text
            else:
                if texts[file].count(old) != 1:
                    raise Failure("%s: its old text does not stand once in %s" % (edit.name, file))
                functions, is_code = functions_at(crate, Path(file), texts[file], texts[file].index(old)) if file.startswith("src/") else ([], False)
                texts[file] = texts[file].replace(old, text)
                edit.texts.append((file, functions[0] if is_code else None, old, text))
                edit.functions.extend(function for function in functions if function not in edit.functions)
        if edit.functions:
            edits.append(edit)
        else:
            others.append(edit.name)
    return edits, others


def bodies_of(crate):
    """The code of each function of a crate."""
    found = {}
    for path in sorted(sources(crate).glob("src/*.rt")):
        text = path.read_text()
        found.update({named(path, name): text[start:end] for name, _, start, end in functions_in(text)})
    return found


def functions_at(crate, path, text, at):
    """The function that has this place of a file in its code, or those that use the constant that is there, and whether it is code."""
    found = [named(path, name) for name, _, start, end in functions_in(text) if start <= at < end]
    if found:
        return found, True
    constant = re.search(r"^(?:pub )?const (\w+)", text[text.rindex("\n", 0, at) + 1 :])
    found = [function for function, body in bodies_of(crate).items() if constant and re.search(r"\b%s\b" % constant[1], body)]
    if not found:
        raise Failure("%s: an edit of what is neither code nor a constant" % path)
    return found, False


def apply(edit, folder):
    for file, function, old, new in edit.texts:
        text = (folder / file).read_text()
        start, end = body_of(text, function) if function else (0, len(text))
        if text.count(old, start, end) != 1:
            raise Failure("%s: its old text does not stand once in %s" % (edit.name, function or file))
        at = text.index(old, start)
        (folder / file).write_text(text[:at] + new + text[at + len(old):])


def too_few(crate, edits):
    """The public functions that have not two edits."""
    counts = collections.Counter(function for edit in edits for function in edit.functions)
    for path in sorted(sources(crate).glob("src/*.rt")):
        for function, is_public, *_ in functions_in(path.read_text()):
            if is_public and counts[named(path, function)] < 2:
                yield "%s has %d edits" % (named(path, function), counts[named(path, function)])


def calls_of(crate):
    """What each function of a crate calls, itself or by others, as far as its text tells: at least what it does."""
    bodies = bodies_of(crate)
    by_name = collections.defaultdict(set)
    for function in bodies:
        by_name[function.split("::")[-1]].add(function)
    calls = {function: set().union(*(by_name[word] for word in set(re.findall(r"\w+", body)) if word in by_name)) for function, body in bodies.items()}
    grown = True
    while grown:
        grown = False
        for function, found in calls.items():
            more = set().union(found, *(calls[callee] for callee in found))
            if more != found:
                calls[function], grown = more, True
    return calls
