"""Builds the program with no proof, by `./px86 --unproved` in a copy of the repository, as a newcomer does: it is kept, says each
time that it is not proved, answers as the examples say, is built anew where a source is newer, is not taken for the proved
program, and is installed where that is asked for. What can't be compiled is refused, and what was begun leaves nothing. It takes a
minute or two of one processor. What the examples say was not taken from the program (tests/program.py).
"""

from __future__ import annotations

import os
import re
import shlex
import shutil
import sys
import time
from collections.abc import Iterator

from tests.harness import TOP, Case, Checks, Done, Px86, read, run, unlike

AT_LEAST = {"": 80}
NEEDS_PROGRAM = False
COPIED = "px86 tools look crates crates.txt HANDLES examples docs README.md CHANGELOG.md".split()
TOLD = "px86: NOT PROVED: this program was built with no proof\n"
BUILDING = "px86: building the program with no proof first, which takes a minute or two\n"
WITHOUT = "px86: not built: the command rt of the Rattle kit is not on PATH\n"
# What is asked of an example, its status and the file of its report.
EXAMPLES = [
    ("trace --steps write-behind-flush.steps write-behind-flush.litmus", 2, "write-behind-flush.trace"),
    ("law --steps early-flush.steps early-flush.litmus", 1, "early-flush.law"),
    ("dis write-behind-flush.obj", 0, "write-behind-flush.dis"),
    ("debug --steps unflushed-commit.script unflushed-commit.litmus", 0, "unflushed-commit.debug"),
    ("images --all 'persisted flag = 0 or persisted item = 7' --steps queue.steps queue.litmus", 1, "queue.images"),
]
# Examples whose first line is a command, and their status.
COMMANDS = {"lock.outcomes": 0, "queue.replay": 0, "queue.hunt": 1, "store-buffering.tally": 0}
INSTALLED = [("run", "write-behind-flush", 2, "report"), ("law", "early-flush", 1, "law")]
SOURCES = "crates/outcomes/src/lib.rt", "crates.txt", "crates/commands/specs/Serving.antt"


class Newcomer:
    """A copy of the repository, the folders of what it makes, and the commands that a call needs where it builds nothing: the Rattle
    kit is not among them."""

    def __init__(self, folder: str) -> None:
        self.folder, self.copy, self.rooms, self.prefix = folder, f"{folder}/a copy", f"{folder}/rooms", f"{folder}/prefix"
        self.kept, self.proved = f"{self.copy}/crates/px86/out/px86.unproved", f"{self.copy}/crates/px86/out/px86"
        self.commands = f"{folder}/commands"
        for path in self.copy, self.rooms, self.commands:
            os.mkdir(path)
        for name in COPIED:
            copy = shutil.copytree if os.path.isdir(f"{TOP}/{name}") else shutil.copy2
            copy(f"{TOP}/{name}", f"{self.copy}/{name}", **({"ignore": shutil.ignore_patterns("out")} if copy is shutil.copytree else {}))
        for name in "sh", "dirname", "readlink", "find":
            os.symlink(shutil.which(name) or name, f"{self.commands}/{name}")
        os.symlink(os.path.realpath(sys.executable), f"{self.commands}/python3")

    def call(self, *words: str, kit: bool = False, given: str = "", most: float = 7200) -> Done:
        """Calls ./px86 with these words, with the Rattle kit or without."""
        variables = os.environ | {"TMPDIR": self.rooms} | ({} if kit else {"PATH": self.commands})
        return run([f"{self.copy}/px86", *words], given, most, env=variables, cwd=f"{self.copy}/examples")

    def left(self, name: str, kept: list[str]) -> Checks:
        """Nothing is left of a build but these files."""
        out = os.path.dirname(self.kept)
        yield f"{name}: what is kept", unlike(sorted(os.listdir(out)) if os.path.isdir(out) else [], kept)
        yield f"{name}: what is left of the build", unlike(os.listdir(self.rooms), [])


def ended(name: str, done: Done, status: int, out: str, err: str) -> Checks:
    """A call ended so."""
    yield f"{name}: status", unlike(done.status, status)
    yield f"{name}: standard output", unlike(done.out, out)
    yield f"{name}: standard error", unlike(done.err, err)


def wrong_source(it: Newcomer) -> Checks:
    """A program that can't be compiled."""
    source = f"{it.copy}/crates/px86/src/main.rt"
    text = re.sub(r"^fn main\(", "fn main((", read(source), flags=re.M)
    with open(source, "w", encoding="utf-8") as file:
        file.write(text)
    done = it.call("--unproved", "--version", kit=True)
    yield "a wrong source: status", unlike(done.status, 125)
    yield "a wrong source: standard output", unlike(done.out, "")
    yield "a wrong source: what is said first", unlike(done.err.splitlines()[:1], BUILDING.splitlines())
    yield "a wrong source: what is said last", unlike(done.err.splitlines()[-1:], ["px86: not built"])
    line = text.splitlines().index(next(it for it in text.splitlines() if it.startswith("fn main(("))) + 1
    places = re.findall(r"^(src/main\.rt:\d+):\d+: error", done.err, re.M)
    yield "a wrong source: that its place is said", unlike(places[:1], [f"src/main.rt:{line}"])
    yield from it.left("a wrong source", [])
    shutil.copy2(f"{TOP}/crates/px86/src/main.rt", source)


def stopped(it: Newcomer) -> Checks:
    """A build that is stopped: what was begun is removed once rt has ended."""
    words = ["timeout", "-s", "TERM", "4", f"{it.copy}/px86", "--unproved", "--version"]
    done = run(words, env=os.environ | {"TMPDIR": it.rooms}, cwd=f"{it.copy}/examples")
    yield "a build that is stopped: status", unlike(done.status, 124)
    until = time.monotonic() + 60
    while os.listdir(it.rooms) and time.monotonic() < until:
        time.sleep(1)
    yield from it.left("a build that is stopped", [])


def built(it: Newcomer) -> Checks:
    """The first call builds, and the next ones do not."""
    steps, report = read("examples/write-behind-flush.steps"), read("examples/write-behind-flush.report")
    words = ["--unproved", "run", "write-behind-flush.litmus"]
    yield from ended("the first call", it.call(*words, kit=True, given=steps), 2, report, BUILDING + TOLD)
    yield from it.left("the first call", ["px86.unproved"])
    yield from ended("the second call", it.call(*words, given=steps), 2, report, TOLD)
    for command, status, name in EXAMPLES:
        yield from ended(command.split()[0], it.call("--unproved", *shlex.split(command)), status, read(f"examples/{name}"), TOLD)
    yield from ended("a fault", it.call("--unproved", "run", "no-such-file"), 3, "", f"{TOLD}px86: F1 ReadFailed\n")
    for name, status in COMMANDS.items():
        command, _, report = read(f"examples/{name}").partition("\n")
        yield from ended(name, it.call("--unproved", *shlex.split(command)[1:]), status, report, TOLD)


def never_the_proved(it: Newcomer) -> Checks:
    """It is never taken for the proved one."""
    yield from ended("the proved program", it.call("--version"), 125, "", WITHOUT)
    yield from ended("an install", it.call("--install", it.prefix), 125, "", WITHOUT)
    shutil.copy2(it.kept, it.proved)
    done = it.call("--install", it.prefix, kit=True)
    yield from ended("an install of the unproved program", done, 2, "", f"px86: not installed: {it.proved} was built with no proof\n")
    yield "what is installed", unlike(os.path.exists(it.prefix), False)
    os.remove(it.proved)


def installed(it: Newcomer) -> Checks:
    """It is installed where that is asked for, and says then what it is. The repository is not needed."""
    done = it.call("--unproved", "--install", it.prefix)
    yield "an install that is asked for: status", unlike(done.status, 0)
    yield "an install that is asked for: standard error", unlike(done.err, "")
    os.rename(it.copy, f"{it.folder}/away")
    names = os.environ | {"PATH": f"{it.prefix}/bin:{it.commands}"}
    for command, name, status, kind in INSTALLED:
        words = ["px86", command, "--steps", f"{name}.steps", f"{name}.litmus"]
        done = run(words, env=names, cwd=f"{it.prefix}/share/px86/examples")
        yield from ended(f"the installed px86 {command}", done, status, read(f"examples/{name}.{kind}"), TOLD)
    done = run([f"{it.prefix}/bin/px86", "--version"], env=names)
    yield "the version of the installed px86", unlike(done.out + done.err, f"px86 0.1.0 NOT PROVED\n{TOLD}")
    os.rename(f"{it.folder}/away", it.copy)
    yield from ended("the removal", it.call("--uninstall", it.prefix), 0, "", "")
    yield "the removal: what is left", unlike(os.path.exists(it.prefix), False)


def never_older(it: Newcomer) -> Checks:
    """It is never older than a source."""
    for source in SOURCES:
        path, later = f"{it.copy}/{source}", time.time() + 60
        was = os.stat(path)
        os.utime(path, (later, later))
        yield from ended(f"{source} is newer", it.call("--unproved", "--version"), 125, "", WITHOUT)
        os.utime(path, ns=(was.st_atime_ns, was.st_mtime_ns))
    yield from ended("no source is newer", it.call("--unproved", "--version"), 0, "px86 0.1.0\n", TOLD)


def newcomer(px86: Px86) -> Checks:
    """What a newcomer does, one after another."""
    it = Newcomer(px86.folder)
    for part in wrong_source, stopped, built, never_the_proved, installed, never_older:
        yield from part(it)


def cases() -> Iterator[Case]:
    """The one case."""
    yield Case("what a newcomer does", newcomer)
