#!/usr/bin/env python3
"""Tries how ./waxglimmer gets its program: in a copy of its own, with a small kit that proves nothing.

    python3 tests/first_run.py

Exit status 1, with a line for each case that failed, if any did.
"""

import tools
import os
import pty
import re
import shutil
import subprocess
import tempfile

from cases import ROOT, expect, finish, read
from front_door import WORDS, door, not_done, path_without

CRATES = "# three crates are proved for the program\nfirst:\nsecond: first\nother: first\nsession: first second csv clap\n"
PROVING = "waxglimmer: proving and building the session program; the first time this takes some minutes"
# A kit that notes what it is asked and where, takes its time, says a line in two parts (on standard error where it also runs
# the program), and would eat what it is given to read.
KIT = """#!/bin/sh
crate=$(basename "$PWD")
echo "$1 $crate" >>"$0.calls"
case $1 in lib) exec 3>&1 ;; run) exec 3>&1 >&2 ;; *) exit 1 ;; esac
cat
printf 'rt: chose --jobs 2 for %%s\\nfn %%s' $crate $crate
[ $crate != second ] || sleep %s
printf '::all: proved\\nlogic=proved functions=1\\n'
case $1 in
lib)
%s
;;
run)
%s
;;
esac
"""
# How it ends: with a program that says how it was called and counts what it reads (and stays as it is where it is
# there already), which is also run, without one, with crates that fail.
BUILT = """mkdir -p out
if [ ! -x out/session ]; then
  printf '#!/bin/sh\\necho "played $*" $(wc -c)\\n' >out/session.$$
  chmod +x out/session.$$ && mv out/session.$$ out/session
fi
echo 'rt: running out/session'
out/session >&3"""
NOT_WHOLE = "true"
BROKEN = """for line in $(seq 30); do echo "wrong $line"; done
exit 1"""
PROGRAM = "crates/session/out/session"
DATA = bytes(4) + b"a message.." * 3


class Copy:
    """A copy of what ./waxglimmer needs, in a folder with a blank in its name, and a kit beside it."""

    def __init__(self, name, end=BUILT, pause="0.1", below="true"):
        self.root = os.path.join(os.getcwd(), name)
        os.makedirs(os.path.join(self.root, ".ci"))
        for crate in ("first", "second", "session"):
            os.makedirs(os.path.join(self.root, "crates", crate))
        for place in ("waxglimmer", ".ci/kit"):
            shutil.copy(os.path.join(ROOT, place), os.path.join(self.root, place))
        shutil.copytree(os.path.join(ROOT, "teach"), os.path.join(self.root, "teach"))
        self.write("crates.txt", CRATES)
        self.write("crates/session/main.rt", "")
        os.makedirs(os.path.join(self.root, "kit"))
        self.write("kit/rt", KIT % (pause, below, end))
        os.chmod(self.path("kit/rt"), 0o755)
        self.script = self.path("waxglimmer")
        self.env = {**os.environ, "PATH": self.path("kit") + ":" + os.environ["PATH"]}

    def path(self, place):
        return os.path.join(self.root, place)

    def write(self, place, text):
        with open(self.path(place), "w") as file:
            file.write(text)

    def run(self, *arguments, **how):
        return door(*arguments, script=self.script, **{"env": self.env, "stdin": DATA, **how})

    def calls(self):
        """What the kit was asked to prove and to build, in order."""
        calls = read(self.path("kit/rt.calls")) if os.path.exists(self.path("kit/rt.calls")) else ""
        return [call for call in calls.splitlines() if call.split()[0] != "doc"]

    def checks(self):
        """How often it was built."""
        return self.calls().count("run session")


def try_progress():
    """A line for each crate as it is done, and what rt does not read is played; later runs start at once."""
    copy = Copy("first run")
    not_done("waxglimmer: the session program is not built", "session", script=copy.script, stdin=DATA, env=copy.env)
    expect("a mistake is named before anything is proved", copy.run("run", stdin="setup\n")[0], 1)
    expect("a mistake is named before anything is proved", copy.checks(), 0)
    status, out, err = copy.run("run")
    expect("the first run", (status, out, copy.checks()), (0, "played  37\n", 1))
    first, *lines = re.sub(r", \d+ min \d+ s$", ", so long", err, flags=re.M).splitlines()
    expect("how far it is", (first, lines), (PROVING, ["waxglimmer: %d of 3 crates proved, so long" % done for done in (1, 2, 3)]))
    expect("what is proved for it, lowest first", copy.calls(), ["lib first", "lib second", "run session"])
    os.makedirs(copy.path("crates/first/out"))
    copy.write("crates/first/out/kept", "what rt keeps of a crate is nothing that the program is made of")
    os.utime(copy.path("crates/first/out/kept"), (2e9, 2e9))
    expect("the second run", (copy.run("run"), copy.checks()), ((0, "played  37\n", ""), 1))
    for view in ("book", "why"):
        expect("a view of the program", copy.run("session", view), (0, "played %s 37\n" % view, ""))
    expect("why", copy.run("why"), (0, "played why 37\n", ""))
    expect("nothing is left behind", sorted(os.listdir(copy.root)), [".ci", "crates", "crates.txt", "kit", "teach", "waxglimmer"])
    os.utime(copy.path(PROGRAM), (1e9, 1e9))
    for case in ("a run after a change", "a run after that"):
        expect(case, (copy.run("run")[:2], copy.checks()), ((0, "played  37\n"), 2))


def try_terminal():
    """On a terminal one line is written again, also while nothing is done."""
    copy = Copy("terminal", pause="2.5")
    master, slave = pty.openpty()
    process = subprocess.Popen([copy.script, "run"], env=copy.env, stdin=subprocess.DEVNULL, stdout=subprocess.PIPE, stderr=slave)
    os.close(slave)
    text = b""
    while True:
        try:
            text += os.read(master, 1000)
        except OSError:             # nobody has the terminal any more
            break
    expect("the program on a terminal", process.communicate(timeout=30)[0], b"played  0\n")
    os.close(master)
    lines = text.decode().replace("\r\n", "\n").split("\n")
    expect("lines on a terminal", (lines[0], len(lines), lines[-1]), (PROVING, 3, ""))
    times = re.findall(r"\rwaxglimmer: (\d) of 3 crates proved, 0 min (\d+) s ", lines[1])
    expect("what is written again", "".join("\rwaxglimmer: %s of 3 crates proved, 0 min %s s " % each for each in times), lines[1])
    expect("crates on a terminal", sorted({done for done, _ in times}), ["1", "2", "3"])
    expect("seconds on a terminal", len({second for done, second in times if done == "1"}) >= 2, True)


def try_failures():
    copy = Copy("broken", BROKEN)
    status, out, err = copy.run("run")
    lines = err.splitlines()
    expect("a build that fails", (status, out, lines[-21:-1]), (1, "", ["wrong %d" % line for line in range(11, 31)]))
    expect("a build that fails, why", lines[-1], "waxglimmer: the session program was not built; all that the build said"
           " is in " + copy.path("target-build.log"))
    expect("what the build said", read(copy.path("target-build.log")).splitlines()[:5],
           ["rt: chose --jobs 2 for first", "fn first::all: proved", "logic=proved functions=1", "== first proved",
            "rt: chose --jobs 2 for second"])
    copy = Copy("broken below", below=BROKEN)
    status, out, err = copy.run("run")
    expect("a crate below that fails", (status, out, err.splitlines()[-21:-1], copy.calls()),
           (1, "", ["wrong %d" % line for line in range(11, 31)], ["lib first"]))
    copy = Copy("not whole", NOT_WHOLE)
    status, out, err = copy.run("run")
    expect("a folder that is not whole", (status, out, err.splitlines()[-1]),
           (1, "", "waxglimmer: the folder %s is not whole; remove it and run this again" % copy.path("crates/session/out")))


def try_no_kit():
    copy = Copy("no kit")
    kit = read(copy.path(".ci/kit")).strip()
    env = path_without("no rt", "rt")
    for command, given in (("run", DATA), ("run", WORDS), ("why", DATA), ("why", WORDS), ("tell", WORDS), ("book", WORDS)):
        not_done("waxglimmer: the session program is not built, and there is no 'rt' to build it: Rattle's kit is needed (%s)" % kit,
                 command, script=copy.script, stdin=given, env=env)
    expect("show without a program", copy.run("show", stdin=WORDS, env=env)[::2], (0, ""))
    copy.run("run")
    expect("a program without a kit", copy.run("run", env=env), (0, "played  37\n", ""))
    os.utime(copy.path("crates/session/main.rt"), (2e9, 2e9))
    expect("an old program without a kit", copy.run("run", env=env),
           (0, "played  37\n", "waxglimmer: the program is older than its source, and there is no rt to build it again\n"))


def try_endings():
    """How the program ends is not passed on as it is."""
    copy = Copy("endings")
    copy.run("run")
    for ending, reason in (("exit 3", "waxglimmer: the session program ended with status 3"), ("kill -9 $$", "ended with status 137"),
                           ("echo session: standard input >&2; exit 0", "session: standard input")):
        copy.write(PROGRAM, "#!/bin/sh\n%s\n" % ending)
        for command in ("run", "why", "tell"):
            not_done(reason, command, script=copy.script, stdin=DATA, env=copy.env)
    copy.write(PROGRAM, "#!/bin/sh\necho 'session: standard output: Broken pipe (os error 32)' >&2\n")
    expect("a reader that is gone is no mistake", copy.run("run"), (0, "", ""))


def try_two_at_once():
    copy = Copy("two at once", pause="1")
    both = [subprocess.Popen([copy.script, "run"], env=copy.env, stdin=subprocess.DEVNULL, stdout=subprocess.PIPE, stderr=subprocess.PIPE)
            for _ in range(2)]
    expect("two at once", [(process.communicate(timeout=30)[0], process.returncode) for process in both], [(b"played  0\n", 0)] * 2)


if __name__ == "__main__":
    with tempfile.TemporaryDirectory() as folder:
        os.chdir(folder)
        for part in (try_progress, try_terminal, try_failures, try_no_kit, try_endings, try_two_at_once):
            part()
        os.chdir(ROOT)
    finish("first_run", "the program is built at the first run, and how far it is can be seen")
