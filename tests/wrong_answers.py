#!/usr/bin/env python3
"""Tries the wrong answers of tests/wrong/ and of must-fail/: the prover must refuse each of them, at the fact that it breaks.

    python3 tests/wrong_answers.py [--jobs N] [--must-fail] [--goals] [CRATE..]

--must-fail tries those of crates/*/must-fail/ alone. --goals says of each at which goals it is refused.

tests/wrong/CRATE.edits lists edits. Each changes the code of one function, so that it gives a
wrong answer:

    file: src/side.rt               holds until the next `file:`
    function: side::nearer_of       holds until the next `function:`
    edit: farther_offer_is_nearer   a name that says the wrong answer; a line with # may say more
    old: meeker(sell, p, q)         must stand just once in the code of that function
    new: meeker(!sell, p, q)

The prover has a verdict for each function, and of a callee it uses the contract alone. So one
check of a crate tries an edit in each function at once. An edit is refused where the edited
function's own proof fails. A function that failed nowhere of itself, but waits for a callee that
was edited too, decides nothing: its edit is tried again without edits in what it calls. It is an
error where an edit is not refused or does not fit the code, where a check gives no verdict, where
a function fails that was not edited, and where a public function has fewer than two edits,
must-fail/ edits of it included.

A refusal counts only where it is of a fact. A proof names the steps of the code, so that it
fails on code of another shape too, be that right or wrong; this shows nothing, and is an error:
- The edited function must take the same steps in the same order as before: calls, branches,
  loops, returns, and operations that could go wrong (sums, casts, indices). An edit may change
  operands, constants and comparisons, and which value is given back. An edit of must-fail/ that
  takes other steps must change the proof too, so that it fits.
- Goals, and the steps that an answer cites, are named by the words of the code (`if-p-lt5`). Where
  an edit changes such words, they are changed in the function's answers and invariants too.
- Nothing in its proof may fail since a goal or a step is gone or out of reach, an invariant or a measure does not fit the loop any more, or a
  file of it can't be read (SHAPE).
- Something must fail at a fact (FACT): the promise on the result, `returns`, `returns-then-..`
  and so on; or what a loop keeps up, `LOOP-init`, `LOOP-preserved`, `LOOP-smaller`, where the
  wrong answer is made in a loop and the promise rests on that. Where no `returns` fails, this is
  said. A lemma in the function's own files counts where one of these rests on it. What a callee
  asks, and that a sum or an index is in range, may fail too, and do not count: they say that a
  step cannot be taken, and not that the answer is wrong.
That its answer is wrong one sees by reading an edit: a proof can fail on the right answer too.

An edit of must-fail/ may be in several functions: one of them must be refused so. One of a definition, in
specs/ or proofs/, is left to `rt must-fail`.

target/wrong/ keeps what the prover said.
"""

import argparse
import collections
import concurrent.futures
import hashlib
import os
import re
import shutil
import subprocess
import sys
import tempfile
from pathlib import Path

from wrong_edits import HERE, ROOT, Failure, apply, below, calls_of, edits_of, functions_in, listed, must_fail_edits_of, named, sources, too_few

LOGS = ROOT / "target/wrong"
# The same folder in each run, since `rt` notes where crates were checked.
PLACES = Path(tempfile.gettempdir()) / ("wrong_answers-" + hashlib.sha256(str(ROOT).encode()).hexdigest()[:12])

FACT = re.compile(r"returns(-.+)?|loop\S*-(init|preserved|smaller)(-\S+)?")
SHAPE = re.compile(r"has no field|has no `|is not in scope|^(?:invariant|decreases)-\S+: |^None: (?!\d+ declarations? that depend)")
STEP = re.compile(r"Syntax\.(?:call ([\w.']+)|(?:add|sub|mul|div|rem|shl|shr|cast|offset|cond|loop|block|switch|arm|exit|return|skip)\b)")
# What the prover calls a step or a goal, and what a proof calls it, by the words of the code.
NAME = re.compile(
    r"\bpub (?P<step>\S+) : (?:Own-|Step-|(?=Arm-))(?P<of_step>\S+)|abbrev pub (?:the-fitted-)?(?P<goal>\S+?)(?P<clause>-clause-\S+)? : Type 0 \S+ = "
    r"(?:\(c : Past\.Binder \()?Lts\.(?P<of_goal>\S+)"
)


# ---- workplaces ----


def link(source, target):
    try:
        os.link(source, target)
    except OSError:
        shutil.copy2(source, target)


def linked(source, target):
    """A copy of a folder that was made by `rt`, which replaces such files and changes none."""
    shutil.rmtree(target, ignore_errors=True)
    if source.is_dir():
        shutil.copytree(source, target, copy_function=link)


def new_name(names, mark, name):
    """What stands for a name of a proof file. A step is cited as a field; a goal may also be declared."""
    return mark and names.get((True, name)) or names.get((False, name), name)


class Place:
    """A copy of a crate and of the proved libraries below it."""

    def __init__(self, crate, uses):
        self.crate, self.top = crate, PLACES / crate
        self.folder = self.top / "crates" / crate
        self.checks = 0
        shutil.rmtree(self.top, ignore_errors=True)
        self.top.mkdir(parents=True)
        for name in below(crate, uses):
            shutil.copytree(sources(name), self.top / "crates" / name, ignore=shutil.ignore_patterns("out"))
            linked(sources(name) / "out/rlib", self.top / "crates" / name / "out/rlib")
        # Of crates.txt the lines of the crates that are there.
        lines = [line for line in (ROOT / "crates.txt").read_text().splitlines() if re.match(r"\w+", line) and re.match(r"\w+", line)[0] in (crate, *below(crate, uses))]
        (self.top / "crates.txt").write_text("\n".join(lines) + "\n")
        linked(sources(crate) / "out/incremental", self.top / "seed")

    def lay(self, edits=(), renamed=()):
        """The crate as it stands, with these edits, and the names in the proofs of functions changed."""
        shutil.rmtree(self.folder, ignore_errors=True)
        shutil.copytree(sources(self.crate), self.folder, ignore=shutil.ignore_patterns("out"))
        linked(self.top / "seed", self.folder / "out/incremental")
        for edit in edits:
            apply(edit, self.folder)
        for function, names in dict(renamed).items():
            for path in (self.folder / "proofs" / function.replace("::", "/")).glob("*.antt"):
                path.write_text(re.sub(r"(\.?)(?<![\w'-])([\w'-]+)", lambda found: found[1] + new_name(names, found[1], found[2]), path.read_text()))

    def run(self, *flags):
        """Answers the status of `rt check` with these flags, and what it said."""
        self.checks += 1
        log = LOGS / ("%s.%d.log" % (self.crate, self.checks))
        with log.open("w") as file:
            status = subprocess.run(["rt", "check", "--jobs", "1", *flags], cwd=self.folder, stdin=subprocess.DEVNULL, stdout=file, stderr=file).returncode
        return status, log.read_text()

    def code_of(self, functions):
        """The steps of each of these functions as it is laid, and how its proof calls them and its goals."""
        printed = self.top / "printed"
        shutil.rmtree(printed, ignore_errors=True)
        starts = [word for function in functions for word in ("--start", "%s::%s" % (self.crate, function))]
        self.run("--generated", str(printed), *starts)
        found = {}
        for function in functions:
            folder = printed / ("Rattle-%s-proofs" % self.crate) / function.replace("::", "/")
            if not (folder / "Goals.antt").exists():
                raise Failure("%s.%d.log: no code of %s was printed" % (self.crate, self.checks, function))
            code, *others = ((folder / part).read_text() for part in ("Code/Mir.antt", "Lts.antt", "Goals.antt"))
            # A callee is printed by the last word of its module, or by what the module is brought in as.
            modules = {other or module.rpartition(".")[2]: module for module, _, other in re.findall(r"^use (\S+)( as (\S+))?$", code, re.M)}
            steps = [(step[0].split()[0], modules.get((step[1] or "").partition(".")[0])) for step in STEP.finditer(" ".join(code.split()))]
            names = {}
            for name in NAME.finditer(" ".join(" ".join(others).split())):
                names[bool(name["step"]), name["of_step"] or name["of_goal"]] = name["step"] or name["goal"]
                if name["clause"]:
                    names[False, name["of_goal"] + name["clause"]] = name["goal"] + name["clause"]
            found[function] = steps, names
        return found


# ---- what the prover says ----


def heard(place, said):
    """The verdict on each function, and the errors of its own proof, each `GOAL: ..`."""
    verdicts = dict(re.findall(r"^fn %s::(\S+): (.*)$" % place.crate, said, re.M))
    errors = collections.defaultdict(list)
    for proof, error in re.findall(r"^(?:\./)?proofs/(\S+)/(?:Answers|Invariants)\.antt:\d+:\d+: error: (.*)$", said, re.M):
        function = proof.replace("/", "::")
        goal, text = re.fullmatch(r"(?:`([^`]*)`: )?(.*)", error).groups()
        cited = re.match("`(.*)` was not admitted", text)
        rests = cited and any(other.startswith(cited[1] + ":") for other in errors[function])
        if not cited or rests and FACT.fullmatch(goal or ""):
            errors[function].append("%s: %s" % (goal, text))
    # A goal that has no answer, and that the prover's own search does not prove, is told by its line.
    for file, line, goal in re.findall(r"^note: src/(\S+):(\d+):\d+: it is not proved .*?\(`([^`]*)`\)", said, re.M):
        # The line is of the function's code, or its first.
        text = (place.folder / "src" / file).read_text()
        functions = [name for name, *_, end in functions_in(text) if text.count("\n", 0, end) + 1 >= int(line)]
        if not functions:
            raise Failure("a note on src/%s:%s, which is of no function" % (file, line))
        errors[named(Path(file), functions[0])].append("%s: not proved" % goal)
    for function, verdict in verdicts.items():
        for goal in re.findall("`([^`]+)`", verdict.partition("`search` did not prove")[2].partition(";")[0]):
            errors[function].append("%s: not proved" % goal)
    return verdicts, {function: found for function, found in errors.items() if found}


def goals_of(errors):
    return list(dict.fromkeys(error.partition(":")[0] for error in errors))


def facts_of(errors):
    return [goal for goal in goals_of(errors) if FACT.fullmatch(goal)]


def judged(edit, function, errors, is_fitted):
    """Whether the refusal of an edit is wrong, and what there is to say of it, if anything."""
    place = "%s of %s" % (", ".join(goals_of(errors)), function)
    if not is_fitted:
        return True, "ANOTHER SHAPE: %s changes the steps; refused at %s" % (edit.name, place)
    gone = list(filter(SHAPE.search, errors))
    if gone:
        return True, "ANOTHER SHAPE: the proof does not fit %s; refused at %s; %s" % (edit.name, place, gone[0][:200])
    if not facts_of(errors):
        return True, "NO FACT: %s is refused at %s" % (edit.name, place)
    return False, "" if any(fact.startswith("returns") for fact in facts_of(errors)) else "%s is refused at %s" % (edit.name, place)


def batch_of(waiting, lonely, calls):
    """Edits to try at once: one in a function, and none in what an edited function calls that decided nothing before."""
    batch, taken = [], set()
    for edit in waiting:
        mine = set(edit.functions)
        meets = lambda some, others: any(calls[one] & others for one in some if one in lonely)
        if not mine & taken and not meets(mine, taken) and not meets(taken, mine):
            batch.append(edit)
            taken |= mine
    return batch


def tried(crate, edits, place):
    """Tries every edit. Answers what is wrong, what else there is to say, where each is refused, and how that was found."""
    wrong, notes, goals, checks = [], [], [], 0
    place.lay()
    status, said = place.run()
    if status != 0:
        raise Failure("the crate itself is not proved: %s.%d.log" % (crate, place.checks))
    # What was proved of the crate as it stands is where each later check begins.
    linked(place.folder / "out/incremental", place.top / "seed")
    before = place.code_of(sorted({function for edit in edits for function in edit.functions}))
    after, calls, lonely = {}, calls_of(crate), set()
    waiting = list(edits)
    while waiting:
        batch = batch_of(waiting, lonely, calls)
        edited = {function: edit for edit in batch for function in edit.functions}
        new = [edit for edit in batch if edit.name not in after]
        if new:
            place.lay(new)
            found = place.code_of(sorted(function for edit in new for function in edit.functions))
            after.update({edit.name: {function: found[function] for function in edit.functions} for edit in new})
        renamed = {}
        for function, edit in edited.items():
            (_, olds), (_, news) = before[function], after[edit.name][function]
            changed = {(it[0], old): news[it] for it, old in olds.items() if it in news and news[it] != old}
            renamed.update({function: changed} if changed else {})
        place.lay(batch, renamed)
        checks += 1
        verdicts, errors = heard(place, place.run()[1])
        log = "%s.%d.log" % (crate, place.checks)
        if not set(edited) <= set(verdicts) or any("could not tell" in verdict for verdict in verdicts.values()):
            raise Failure("%s has no verdict on an edit" % log)
        if not set(errors) <= set(edited):
            raise Failure("%s has a failure of what was not edited: %s" % (log, set(errors) - set(edited)))
        if any(verdicts[function] == "proved" for function in errors):
            raise Failure("%s has an error of what is proved" % log)
        undecided = []
        for edit in batch:
            refused = {function: errors[function] for function in edit.functions if function in errors}
            waits = [function for function in edit.functions if "it calls" in verdicts[function] and not facts_of(errors.get(function, []))]
            if waits and not any(facts_of(found) for found in refused.values()):
                if lonely.issuperset(waits) and not any(calls[function] & set(edited) - {function} for function in waits):
                    raise Failure("%s decides nothing of %s" % (log, edit.name))
                undecided.append(edit)
                lonely.update(waits)
            elif not refused:
                wrong.append((edit.name, "NOT REFUSED: %s, in %s (%s)" % (edit.name, ", ".join(edit.functions), log)))
            else:
                for function, found in refused.items():
                    is_fitted = any(file.startswith("proofs/") for file, *_ in edit.texts) or before[function][0] == after[edit.name][function][0]
                    bad, line = judged(edit, function, found, is_fitted)
                    if bad:
                        wrong.append((edit.name, "%s (%s)" % (line, log)))
                    elif line:
                        notes.append(line)
                    goals.append("%s is refused at %s of %s" % (edit.name, ", ".join(goals_of(found)), function))
        waiting = undecided + [edit for edit in waiting if edit not in batch]
    return wrong, notes, goals, "in %d checks" % checks


def report(crate, uses, only_must_fail, with_goals):
    """Prints what came of a crate, and answers how many edits were refused, and how much is wrong."""
    try:
        edits, others = must_fail_edits_of(crate)
        edits = edits if only_must_fail else edits_of(crate) + edits
        wrong, notes, goals, how = tried(crate, edits, Place(crate, uses)) if edits else ([], [], [], "in no check")
    except Failure as failure:
        print("%s: BROKEN: %s" % (crate, failure), flush=True)
        return 0, 1
    finally:
        shutil.rmtree(PLACES / crate, ignore_errors=True)
    refused = len(edits) - len(dict(wrong))
    wrong = [line for _, line in wrong] + ([] if only_must_fail else list(too_few(crate, edits)))
    for told in (notes, goals):
        told += ["%s is of a definition, and not of code" % name for name in others]
    for line in (goals if with_goals else notes) + wrong + ["%d wrong answers refused %s" % (refused, how)]:
        print("%s: %s" % (crate, line), flush=True)
    return refused, len(wrong)


def main():
    arguments = argparse.ArgumentParser(description=__doc__.splitlines()[0])
    arguments.add_argument("--jobs", type=int, default=1)
    arguments.add_argument("--must-fail", action="store_true")
    arguments.add_argument("--goals", action="store_true")
    arguments.add_argument("crates", nargs="*")
    asked = arguments.parse_args()
    uses = listed()
    with_edits = {path.parts[-3] for path in ROOT.glob("crates/*/must-fail/*.edit")}
    if not asked.must_fail:
        with_edits |= {path.stem for path in HERE.glob("wrong/*.edits")}
    crates = asked.crates or [crate for crate in uses if crate in with_edits]
    # Before an edit of a crate says anything, all below it must be proved.
    for crate in [crate for crate in uses if any(crate in below(other, uses) for other in crates)]:
        if subprocess.run(["rt", "lib", "--jobs", str(min(asked.jobs, 4))], cwd=sources(crate), stdout=subprocess.DEVNULL).returncode != 0:
            sys.exit("wrong answers: %s is not proved" % crate)
    LOGS.mkdir(parents=True, exist_ok=True)
    # Those that take longest go first: crates with many edits, and that stand on much.
    crates = sorted(crates, key=lambda crate: -(len(edits_of(crate)) + len(list(sources(crate).glob("must-fail/*")))) * (3 + len(below(crate, uses))))
    with concurrent.futures.ThreadPoolExecutor(asked.jobs) as pool:
        results = list(pool.map(lambda crate: report(crate, uses, asked.must_fail, asked.goals), crates))
    refused, wrong = (sum(column) for column in zip(*results))
    print("wrong answers: %d refused, %d failed" % (refused, wrong))
    sys.exit(wrong != 0)


if __name__ == "__main__":
    main()
