"""Asks the questions of several files at once: of random sheets, whole and damaged, and of litmus texts, objects and what cannot be read.
The part questions has these cases.

Of each file is told what the rule makes of the report of `check` of this file alone, which tests/questions.py compares with the second
model; and the second model is asked of the same files. What was worked out by hand stands in tests/cases/program.calls.
"""

from __future__ import annotations

import dataclasses
import json
import random
import re
import resource
import signal
from collections.abc import Iterator, Sequence

from model.sheets import program_of
from tests.harness import Case, Checks, Done, Px86, model, run, unlike, wrong_end
from tests.questions import DAMAGES, MOST_STATES, OF_A_CASE, SHEETS, Maker, damaged, kind_of, sheet_of, text_of

# How many files a call has at most, and of how many states.
MOST_FILES, MOST_TOLD_APART = 6, "500"

# --- what is told of each file

COUNTED = re.compile(r"px86: [1-9]\d* states were found and \d+ explored, ")


@dataclasses.dataclass(frozen=True)
class Told:
    """What is told of a file that is one of several: the kind of this, its status, and what is written and said, as lines."""

    kind: str
    status: int
    out: str
    said: list[object]


def told_of(done: Done, path: str, is_json: bool) -> Told:
    """What is told of a file, by the report or the fault of a `check` of it alone."""
    said = named_fault(done.err, path, is_json)
    if done.err and not done.out:
        return Told("a fault", done.status, "", said)
    if is_json:
        return Told("an object", done.status, done.out.replace('{"command":"check",', f'{{"command":"check","file":{json.dumps(path)},', 1), said)
    kind, lines = judged(done.out.splitlines())
    return Told(kind, done.status, "".join(f"{line}\n" for line in [f"{path}: {lines[0]}", *lines[1:]]), said)


def named_fault(said: str, path: str, is_json: bool) -> list[object]:
    """The lines that are said of a fault, or of a report, with the name of the file in the line of the fault, or in its object."""
    lines = lines_said(said)
    place = next((at for at, line in enumerate(lines) if not COUNTED.match(str(line))), len(lines))
    if is_json:
        return lines[:place] + [{"file": path} | it for it in lines[place:] if isinstance(it, dict)]
    return [str(it).replace("px86: ", f"px86: {path}: ", 1) if at == place else it for at, it in enumerate(lines)]


def lines_said(said: str) -> list[object]:
    """The lines on standard error, without what is of no contract; an object as what it has."""
    lines = (re.sub(rf"^{COUNTED.pattern}", "px86: 1 states were found and 1 explored, ", line) for line in said.splitlines())
    return [json.loads(line) if line.startswith("{") else line for line in lines]


def judged(lines: list[str]) -> tuple[str, list[str]]:
    """What is told of a report of questions: how many are asked, where all answers are good; else the first whose answer is not, with
    what is behind its line."""
    if lines == ["nothing asked"]:
        return lines[0], lines
    heads = [at for at, line in enumerate(lines) if re.match(r"q\d+ ", line)]
    for at, end in zip(heads, [*heads[1:], len(lines)]):
        if kind_of(lines[at]) not in ("holds", "found", "not asked"):
            return "a bad answer", lines[at:end]
    return "N hold", [f"{sum(kind_of(lines[at]) != 'not asked' for at in heads)} hold"]


# --- random files

OPTIONS: list[list[str]] = [
    [],
    ["--before-crash"],
    ["--show"],
    ["--only", "q2"],
    ["--explain-image"],
    ["--json"],
    ["--explain"],
    ["--show", "--explain-image", "--before-crash"],
    ["--json", "--show", "--explain-image", "--only", "q0"],
    ["--json", "--explain", "--only", "q1"],
    ["--states", "40"],
    ["--no-steps", "--only=q3"],
    ["--steps", "STEPS"],
    ["--steps", "STEPS", "--before-crash", "--explain"],
]


# Questions of which mostly all are good: those of every third sheet.
ALL_GOOD = [["every", place, f"q{at}", ":", "1", "=", "1"] for at, place in enumerate(("crash", "recovery", "crash"))]


def files_of(px86: Px86, first: int) -> list[str]:
    """The paths of files: of each number a sheet with questions, and the same damaged; and others."""
    paths = []
    for number in range(first, first + OF_A_CASE):
        lines, chance = sheet_of(number), random.Random(f"files {number}")
        items = Maker(number, program_of("".join(f"{line}\n" for line in lines))).made(4) if number % 3 else ALL_GOOD
        paths.append(px86.keep(f"sheet-{number}", text_of(lines, items, chance)))
        if number % 4 == 0:
            paths.append(px86.keep(f"damaged-{number}", text_of(lines, damaged(items, random.Random(DAMAGES * number)), chance)))
    paths.append(px86.keep("silent", text_of(sheet_of(first), [["let", "q", "=", "1"]], random.Random(first))))
    paths.append(px86.keep("litmus", "litmus 1\nline x\n"))
    paths.append(px86.keep("object", px86("asm", paths[0]).written))
    paths.append(px86.keep("a text: of nothing", "frob\n"))
    return [*paths, f"{px86.folder}/absent", px86.folder]


def random_files(px86: Px86, first: int) -> Checks:
    """Calls of several files, of which each is asked alone, too. The options stand anywhere."""
    paths, chance, group = files_of(px86, first), random.Random(first), first // OF_A_CASE
    steps = px86.keep("steps", "exec 0\n" * (group % 2) + "crash\n" * (group % 3 == 0))
    for at in range(len(OPTIONS) // 2):
        options = [steps if word == "STEPS" else word for word in OPTIONS[(at * 2 + group) % len(OPTIONS)]]
        options += [] if "--states" in options else ["--states", MOST_TOLD_APART]
        chosen = [chance.choice(paths) for _ in range(2 + chance.randrange(MOST_FILES - 1))]
        before = chance.randrange(len(chosen) + 1)
        told = [told_of(px86("check", *options, path), path, "--json" in options) for path in chosen]
        done = px86("check", *chosen[:before], *options, *chosen[before:], given="no step is read here")
        wanted = max(it.status for it in told), "".join(it.out for it in told), [line for it in told for line in it.said]
        wrong = unlike((done.status, done.out, lines_said(done.err)), wanted)
        wrong = wrong and f"{wrong}, of {chosen}, {options}"
        yield "all of them", wrong
        yield from ((it.kind, wrong) for it in told)
        if options[0] in ("--before-crash", "--only") or options == ["--states", MOST_TOLD_APART]:
            yield from by_the_model(px86, options[:-2], chosen, done)


def by_the_model(px86: Px86, options: Sequence[str], paths: Sequence[str], done: Done) -> Checks:
    """What the second model tells of the same files: of each one of the lines that may be. Of an object it tells nothing."""
    if any(path.endswith("/object") for path in paths):
        return
    wanted = model("check", *options, "--states", str(MOST_STATES), *paths)
    if "R1" in wanted.err:
        yield "too many states", ""
        return
    may_be: dict[str, list[str]] = {}
    for line in wanted.out.splitlines():
        may_be.setdefault(line.rpartition(": ")[0], []).append(line)
    answered = [path for path in paths if path in may_be]
    lines = done.out.splitlines()
    others = [f"{line!r} is none of {may_be[path][:4]}" for path, line in zip(answered, lines) if line not in may_be[path]]
    wrong = wrong_end(done, wanted.status, wanted.err) or unlike([line.rpartition(": ")[0] for line in lines], answered)
    yield "by the model", wrong or "; ".join(others)


# --- an output that holds so many bytes


def sheet_of_all(px86: Px86, name: str, count: int) -> tuple[str, str]:
    """A sheet with so many questions of which each holds: its path, and the object that is told of it."""
    lines = ["sheet 1", "line x", "cpu", "nop", "end", *(f"every crash q{at}: persisted x = 0" for at in range(count))]
    path = px86.keep(name, "".join(f"{line}\n" for line in lines))
    answer = '{"answer":"holds","every":true,"explained":null,"lines":null,"name":"q%d","place":"crash","steps":null,"values":null}'
    answers = ",".join(answer % at for at in range(count))
    return path, f'{{"command":"check","file":"{path}","format":1,"holds":true,"questions":[{answers}],"words":["x"]}}\n'


def of_so_many_bytes(px86: Px86, which: int) -> Checks:
    """The report of this file of three finds room for a part of it. Nothing is written behind that, and the files behind it are left."""
    told = [sheet_of_all(px86, f"sheet-{count}", count) for count in (1, 5, 2)]
    size = sum(len(report) for _, report in told[:which]) + 90

    def limited() -> None:
        signal.signal(signal.SIGXFSZ, signal.SIG_IGN)
        resource.setrlimit(resource.RLIMIT_FSIZE, (size, size))

    with open(px86.keep("written", ""), "wb") as out:
        done = run([px86.path, "check", "--json", *(path for path, _ in told), f"{px86.folder}/absent"], stdout=out, preexec_fn=limited)
    with open(f"{px86.folder}/written", encoding="ascii") as file:
        written = file.read()
    fault = json.loads(done.err)
    wanted = 3, told[which][0], "F2", "".join(report for _, report in told)[:size]
    yield "", unlike((done.status, fault["file"], fault["fault"]["number"], written), wanted)


def object_of_a_fault(px86: Px86) -> Checks:
    """Its names stand in the order of their letters, as those of a report do."""
    done = px86("check", "--json", "one", "other", cwd=px86.folder)
    yield "", unlike([[*json.loads(line)] for line in done.err.splitlines()], [["fault", "file"]] * 2)


# --- cases


def cases() -> Iterator[Case]:
    """All cases."""
    for first in range(0, SHEETS, OF_A_CASE):
        yield Case(f"files {first} to {first + OF_A_CASE - 1}", random_files, first)
    yield Case("the object of a fault of one of several files", object_of_a_fault)
    for which, name in enumerate(["first", "second", "third"]):
        yield Case(f"the output is full in the report of the {name} file", of_so_many_bytes, which)
