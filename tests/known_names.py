"""What the documents may name: files, functions, definitions, edits, lessons, options.

Every name is collected where it is defined, by the syntax of its language.  That a word stands
somewhere in a comment makes it no name.
"""

import ast
import fnmatch
import os
import re
from collections import defaultdict
from pathlib import Path

ROOT = Path(__file__).resolve().parent.parent
LEFT_OUT = {".git", "target", "out", "__pycache__"}

RT_ITEM = re.compile(r"^\s*(?:pub(?:\(crate\))? )?(?:struct|enum|const|mod) (\w+)", re.M)
RT_FUNCTION = re.compile(r'^\s*(pub |pub\(crate\) |)(?:extern "C" )?fn (\w+)', re.M)
RT_BLOCK = re.compile(r"^(?:pub(?:\(crate\))? )?(struct|enum) \w+ \{\n(.*?)^\}", re.M | re.S)
RT_FIELD = {"struct": re.compile(r"^    (?:pub(?:\(crate\))? )?(\w+):", re.M),
            "enum": re.compile(r"^    (\w+)", re.M)}
ANTT_HELD = re.compile(r"(?:(?:pub|abbrev|unfoldable) )*(module|record|data) (\S+)")
ANTT_SIGNED = re.compile(r"(?:(?:pub|abbrev|unfoldable) )*([^\s:(){}]+(?: [^\s:(){}]+)*) :(?:\s|$)")
ANTT_USE = re.compile(r"^(?:ghost )?use ([\w.-]+)\.\{([^}]*)\}", re.M)
OWN_MODULE = re.compile(r"Rattle\.(?:%s)\." % "|".join(sorted(path.name for path in (ROOT / "crates").iterdir())))
GOAL_USE = re.compile(r"\b(goal)\.([\w'-]+)|(?<=[\w)'])(\.[a-z][\w'-]*)")      # goals of a proof, and what is read of a step
STEP_USE = re.compile(r"\bc\.[\w'-]+")                                             # the steps themselves
C_DEFINED = re.compile(r"^#define (\w+)|^(?!return|else)[A-Za-z_][\w \t*]*?\b(\w+)\(|^(?:typedef )?struct (\w+)", re.M)
SHELL_COMMAND = re.compile(r"^  (\w+)(?: \| \S+)*\)", re.M)


def walked():
    """Every file and folder of the tree, by its path from the root."""
    for folder, folders, files in os.walk(ROOT):
        folders[:] = [name for name in folders if name not in LEFT_OUT]
        for name in folders + files:
            yield os.path.relpath(os.path.join(folder, name), ROOT)


def callings(path):
    """How documents call a file that defines names: by its path, its own name, its crate."""
    short = path[len("crates/"):] if path.startswith("crates/") else path
    parts, stem = short.split("/"), Path(path).stem
    calls = {path, short, parts[0], parts[-1]}
    if path.endswith(".antt"):
        calls |= {stem, short[:-5], "/".join(parts[1:])[:-5], parts[0] + "/" + stem}
    return calls


def rt_names(text):
    """Functions, as (visibility, name), and every other name that Rattle's code defines."""
    text = re.sub(r"//.*", "", text)
    names = set(RT_ITEM.findall(text))
    for kind, body in RT_BLOCK.findall(text):
        names.update(RT_FIELD[kind].findall(body))
    return RT_FUNCTION.findall(text), names


def antt_names(text):
    """Definitions, theorems, records and data with their parts, also in modules.  What a proof has
    for itself below a `where` stands further in, and is no name for others."""
    names, holders = set(), []          # how far in the open modules, records and data stand
    for line in text.split("\n"):
        depth = len(line) - len(line.lstrip())
        if line.strip() == "":
            continue
        while holders and depth <= holders[-1]:
            holders.pop()
        if depth != (holders[-1] + 2 if holders else 0):
            continue
        held, signed = ANTT_HELD.match(line[depth:]), ANTT_SIGNED.match(line[depth:])
        if held:
            holders.append(depth)
            names.add(held.group(2))
        elif signed:
            names.update(signed.group(1).split())
    return names - {"_"}


def kit_names(text):
    """What a file takes from the kit: the prover has seen that it is there."""
    taken = [names for module, names in ANTT_USE.findall(text) if not OWN_MODULE.match(module)]
    names = {name.strip().strip("◌") for names in taken for name in names.split(",")}
    for goal, place, part in GOAL_USE.findall(text):
        names |= {goal, place, part, part[1:]}
    return (names | {"c"} | set(STEP_USE.findall(text))) - {""}


def python_names(text):
    """Functions, classes, constants and options of a script."""
    names = set()
    for node in ast.walk(ast.parse(text)):
        if isinstance(node, (ast.FunctionDef, ast.ClassDef)):
            names.add(node.name)
        elif isinstance(node, ast.Assign):
            names.update(name.id for target in node.targets for name in ast.walk(target)
                         if isinstance(name, ast.Name) and name.id.isupper())
        elif isinstance(node, ast.Constant) and re.fullmatch(r"--[\w-]+", str(node.value)):
            names.add(node.value)
    return names


class Known:
    """`paths`; `functions`: (crate, module, name) -> visibility; `inside`: file -> its names;
    `labels`: crate -> its edits; `names`: everything that has a name of its own."""

    def __init__(self):
        self.paths = set(walked())
        self.files = defaultdict(list)          # a file's own name -> its paths
        self.functions, self.inside = {}, defaultdict(set)
        self.labels, self.options, self.imports = defaultdict(set), defaultdict(set), defaultdict(list)
        self.names, self.kit, self.lines, self.words = set(), set(), set(), set()
        pieces = self.pieces = []               # code without remarks, for what is quoted of it
        for path in sorted(self.paths):
            self.files[os.path.basename(path)].append(path)
            self.read(path)
        self.called = defaultdict(list)         # how a file is called -> the files
        for path in self.inside:
            for name in callings(path):
                self.called[name].append(path)
        self.crates = {path.split("/")[1] for path in self.paths if fnmatch.fnmatch(path, "crates/*")}
        self.lessons = {Path(path).stem for path in self.paths if path.endswith(".bin")}
        self.stems = {Path(path).stem for path in self.paths if path.endswith((".antt", ".rt", ".py"))}
        self.code = " ".join(" ".join(pieces).split())
        self.names |= self.crates | self.lessons | self.stems | self.words | self.kit | set(self.files)
        self.names.update(*self.inside.values(), *self.labels.values())

    def read(self, path):
        suffix, place = Path(path).suffix, ROOT / path
        readers = {".rt": self.read_rt, ".antt": self.read_antt, ".py": self.read_python,
                   ".c": self.read_c, ".h": self.read_c, ".edits": self.read_edits, ".txt": self.read_words}
        if place.is_dir():
            return
        if suffix in readers:
            readers[suffix](path, place.read_text())
        elif suffix == ".edit":
            self.labels[path.split("/")[1]].add(Path(path).stem)
        elif path == "waxglimmer":
            self.inside[path] |= set(SHELL_COMMAND.findall(place.read_text()))
        elif path == "crates/test_lessons/stdout":
            self.lines = set(place.read_text().split("\n"))

    def read_rt(self, path, text):
        functions, names = rt_names(text)
        parts = path.split("/")
        crate, module = parts[1], "::".join(parts[3:])[:-3]
        for visibility, name in functions:
            self.functions[crate, "" if module in ("lib", "main") else module, name] = visibility.strip()
            names.add(name)
        self.inside[path] |= names
        self.pieces.append(re.sub(r"//.*", "", text))

    def read_antt(self, path, text):
        text = re.sub(r"(?m)(^|[ \t])--.*", "", text)
        self.inside[path] |= antt_names(text)
        self.kit |= kit_names(text)
        if not path.endswith("Lib.antt"):
            self.pieces.append(text)

    def read_python(self, path, text):
        names = python_names(text)
        self.inside[path] |= names
        self.options[path] = {name for name in names if name.startswith("--")}
        self.imports[path] = re.findall(r"^(?:from|import) (\w+)", text, re.M)

    def options_of(self, script):
        """The options that a script reads, by itself or by a module of this tree that it imports."""
        paths = [path for module in self.imports[script] for path in self.files.get(module + ".py", ())]
        return self.options[script].union(*(self.options[path] for path in paths))

    def read_c(self, path, text):
        text = re.sub(r"/\*.*?\*/", "", text, flags=re.S)
        self.inside[path].update(name for found in C_DEFINED.findall(text) for name in found if name)

    def read_edits(self, path, text):
        self.labels[Path(path).stem].update(re.findall(r"^edit: (\w+)", text, re.M))

    def read_words(self, path, text):
        """The words that lessons are written in."""
        if "lesson_sources" in path:
            for line in text.split("\n"):
                if not line.startswith("#"):
                    self.words.update(word for word in line.split() if word.isalpha())

    def sources(self, name):
        """The files of definitions, proofs or code that a name such as crate/File, look.rt or a crate means."""
        return self.called.get(name, [])
