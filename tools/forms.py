#!/usr/bin/env python3
"""Lists the places in crates/*/src that are written in an older form, by points, so that docs/DESIGN-PASS.md can count them and count them again.

usage: python3 tools/forms.py [-l] [POINT..]        at the top of the repository; -l lists each place

What a point looks for is said in front of it. It goes by text: a place it names is a place to look at, not a fault.
"""
import collections
import glob
import re
import sys

CODES = r"kind|why|rule|reason|refusal|phase|side|ask|sort|letter"
FN = re.compile(r"^\s*(?:pub(?:\(crate\))? )?(?:extern \"C\" )?fn (\w+)(<[^(]*>)?\(([^)]*)\)(?:\s*->\s*([^\n{]+?))?\s*(?:\n|\{)", re.M)


def sources():
    for path in sorted(glob.glob("crates/*/src/**/*.rt", recursive=True)):
        text = open(path, encoding="utf-8").read()
        yield path, re.sub(r"//[^\n]*", "", text)


SOURCES = list(sources())


def line(text, at):
    return text.count("\n", 0, at) + 1


def found(pattern, flags=re.M):
    for path, text in SOURCES:
        for m in re.finditer(pattern, text, flags):
            yield f"{path}:{line(text, m.start())} {' '.join(m.group(0).split())[:90]}"


def functions():
    for path, text in SOURCES:
        for m in FN.finditer(text):
            params = [re.sub(r"^mut ", "", " ".join(p.split())) for p in m.group(3).split(",") if p.strip()]
            yield f"{path}:{line(text, m.start(1))}", m.group(1), params, (m.group(4) or "").strip()


def bodies(kind):
    for path, text in SOURCES:
        for m in re.finditer(r"^(?:pub(?:\(crate\))? )?" + kind + r" (\w+)[^{;]*\{(.*?)^\}", text, re.M | re.S):
            yield f"{path}:{line(text, m.start())}", m.group(1), m.group(2)


def option_like():
    """enums of one or two cases, one of them without a value"""
    for place, name, body in bodies("enum"):
        cases = [c.strip() for c in re.sub(r"\{[^}]*\}|\([^)]*\)", "()", body).split(",") if c.strip()]
        if len(cases) <= 2 and any(not c.endswith(")") for c in cases):
            yield f"{place} enum {name}"


def flagged():
    """structs with a field that says whether the others mean anything"""
    for place, name, body in bodies("struct"):
        if re.search(r"\b(ok|refusal|failed|key)\s*:", body):
            yield f"{place} struct {name}"


def coded():
    """functions that answer a reason or a refusal as a number"""
    for place, name, params, result in functions():
        if result == "u32" and re.search(r"refus|reason|stop|protection|rejection|fault|check_read|first_of|number_of|waxglimmer", name):
            yield f"{place} fn {name}"


def numbered():
    """functions that are handed, and structs that hold, a number for a kind, a reason, a refusal, a phase or a question"""
    for place, name, params, result in functions():
        if any(re.match(rf"({CODES}): (u32|u8)$", p) for p in params):
            yield f"{place} fn {name}"
    for sort in ("struct", "enum"):
        for place, name, body in bodies(sort):
            if re.search(rf"\b({CODES}): (u32|u8)\b", body):
                yield f"{place} {sort} {name}"


def twice():
    """functions of one name that stand in several places"""
    names = collections.defaultdict(list)
    for place, name, params, result in functions():
        names[name].append(place)
    for name, places in sorted(names.items()):
        if len(places) > 1 and name not in ("main", "turn", "tell", "from", "fmt"):
            yield f"{name}: {', '.join(places)}"


def loops():
    """`while` and `loop`, and `for` over the numbers of places"""
    yield from found(r"^\s*(while .*|loop) \{|^\s*while is_next\(|^\s*for \w+ in 0\.\.(16|64)\w* \{")


def by_hand():
    """casts, the lesser and the greater of two, equality byte by byte or field by field, fields copied one by one"""
    yield from found(r"\b[\w.\[\]()]+ as (u8|u32|u64|usize)\b")
    yield from found(r"if \w+ (<|==) [\w()]+ \{\s*(return )?(\w+|0|\w+ - \w+);?\s*\}( else \{ [\w -]+ \}|\s*(\w+|0)\s*\})")
    yield from found(r"\(\w+(\[0\]|\.number) == [^)]*\)")
    yield from found(r"\bnumber: \w+\.number,")


def repeated():
    """facts that three contracts or more ask for, and neighbours that three signatures or more have"""
    facts = collections.Counter()
    for path, text in SOURCES:
        for m in re.finditer(r"requires (?:\w+ )?\{ \(?([A-Z]\w+|mpv|bad_party)\b", text):
            facts[m.group(1)] += 1
    pairs = collections.Counter()
    for place, name, params, result in functions():
        for one, two in zip(params, params[1:]):
            pairs[f"{one}, {two}"] += 1
    for what, n in sorted(list(facts.items()) + list(pairs.items()), key=lambda p: (-p[1], p[0])):
        if n >= 3:
            yield f"{n} times: {what}"


def buffers():
    """arrays with a count beside them, buffers with the place where they end"""
    for place, name, body in bodies("struct"):
        if re.search(r"\[\w+; \w+\]", body) and re.search(r"\bcount\s*:", body):
            yield f"{place} struct {name}"
    for place, name, params, result in functions():
        text = ", ".join(params)
        if re.search(r"\w+: &mut \[u8\], (n: &mut usize|at: usize|used: usize|held: usize|count: usize)|numbers: &\[u32; 64\], n: usize", text):
            yield f"{place} fn {name}"


def switches():
    """a number or a letter that chooses what runs"""
    yield from found(r"^\s*match (ask|letter|kind) \{|^\s*if (a\.kind|rule|phase|ask) == \w+ \{")


def answers():
    """answers in proofs/"""
    for path in sorted(glob.glob("crates/*/proofs/**/Answers.antt", recursive=True)):
        for m in re.finditer(r"^pub ([\w'-]+) :", open(path, encoding="utf-8").read(), re.M):
            yield f"{path} {m.group(1)}"


POINTS = {
    "1": [option_like, flagged, coded, numbered],
    "2": [twice],
    "3": [loops],
    "4": [by_hand],
    "5": [repeated],
    "6": [buffers],
    "7": [switches],
    "8": [answers],
}

if __name__ == "__main__":
    asked = [a for a in sys.argv[1:] if a != "-l"]
    for point in asked or sorted(POINTS):
        for look in POINTS[point]:
            places = list(look())
            print(f"{point} {look.__name__}: {len(places)} ({look.__doc__})")
            if "-l" in sys.argv:
                print("".join(f"    {p}\n" for p in places), end="")
