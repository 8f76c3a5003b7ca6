"""Asks what every run of a program does: examples whose `.check`, `.outcomes`, `.fences` and `.mend` the second model made, which
makes every list of steps; programs in which a hunt finds something; data structures in sizes (bench/programs); and small random
programs, of which the model says what every run shows.

Beside NAME.litmus in examples/, examples/guide, examples/every-run and examples/sheets (of the gallery see tests/gallery.py) stand

  NAME.check      a command, and its report without the line `states`. Where a condition fails there is a line for each state
                  that may be told: the program has one of them, and steps that lead there
  NAME.outcomes   a command and its report
  NAME.fences     the same, as a `.check` where a condition fails
  NAME.mend       the same without the line `states`
"""

from __future__ import annotations

import glob
import os
import re
from collections.abc import Iterator

from tests.examples import Example, wrong_check
from tests.harness import TOP, Case, Checks, Px86, differs, model, read, run, unlike, wrong_end, wrong_run

# How many seconds the longest cases may take, where other parts have the processors too.
LONG = 1800
# Of hunts that find something each has two checks.
AT_LEAST = {"": 391, "hunts of ": 128}
NEEDS_PROGRAM = True
FOLDERS = "examples", "examples/guide", "examples/every-run", "examples/sheets"
GALLERY = "examples/x86-tso", "examples/persistency", "examples/idioms"


def files_of(folders: tuple[str, ...], kind: str) -> list[str]:
    """The examples of a kind in these folders, by their paths."""
    return [path for folder in folders for path in sorted(glob.glob(f"{folder}/*.{kind}", root_dir=TOP))]


# --- examples


def check_example(px86: Px86, path: str) -> Checks:
    it = Example(path)
    yield "", wrong_check(px86, it)
    yield "by the model", wrong_run(model(*it.words), it.status, it.report)
    # In these texts the first line says whether the program is right.
    said = re.search(r": (right|broken)\.$", read(it.litmus).partition("\n")[0])
    if said and unlike(said[1], ("right", "broken")[it.status]):
        yield "the text", f"it says that it is {said[1]}"
    elif not said and path.startswith(("examples/every-run/", "examples/sheets/")):
        yield "the text", "it does not say whether it is right"


def outcomes_example(px86: Px86, path: str) -> Checks:
    it = Example(path)
    yield "", wrong_run(px86(*it.words), 0, it.report)
    yield "by the model", wrong_run(model(*it.words), 0, it.report)


def needs_example(px86: Px86, path: str) -> Checks:
    """An example of `fences` or `mend`."""
    it = Example(path)
    status = int(bool(re.search(r"^[a-z]* fails|^mend none$|^mend not known$", it.report, re.M)))
    done = px86(*it.words)
    if re.search(r"^[a-z]* fails", it.report, re.M):
        line, _, rest = done.out.partition("\n")
        wrong = "" if line in it.report.splitlines() else f"nothing that may be told: {line}"
        wrong = wrong or ("" if re.fullmatch(r"steps [0-9]+\n", rest) else "there is no count of steps in its place")
    else:
        wrong = differs(re.sub(r"^states [1-9][0-9]*\n", "", done.out, flags=re.M), it.report)
    yield "", wrong_end(done, status) or wrong
    yield "by the model", wrong_run(model(*it.words), status, it.report)


def index(_: Px86) -> Checks:
    """Of each text some run is asked, and it has a row in the index; and each row has a text."""
    texts = [path.removesuffix(".litmus") for path in files_of(FOLDERS[2:], "litmus")]
    names = {f"{path.removeprefix('examples/')}.litmus" for path in texts}
    rows = set(re.findall(r"^\| `((?:every-run|sheets)/[^`]*)` \|", read("examples/README.md"), re.M))
    unasked = [path for path in texts if not any(os.path.exists(f"{path}.{kind}") for kind in ("check", "asked"))]
    yield "", unlike(sorted(names), sorted(rows)) or unlike(unasked, [])


# --- where a hunt finds something, check does, and behind the steps of the hunt too

PLANS = "--runs 100", "--seed 7 --runs 100 --crash-after 9", "--seed 8 --runs 50 --crash-after 20"
TURNS = 5, 12, 18, 27, 40


def hunted_steps(px86: Px86, head: int, words: list[str]) -> str | None:
    """The steps that a hunt shows behind so many lines; none where it finds nothing."""
    done = px86("hunt", "--no-steps", "--show", *words)
    if done.status not in (0, 1):
        raise AssertionError(f"hunt {words}: status {done.status}")
    return "".join(done.out.splitlines(keepends=True)[head:]) if done.status else None


def failing(px86: Px86, question: str, words: list[str], steps: str | None) -> str:
    """What is wrong with a check, which has to fail in a question."""
    done = px86("check", question, *words, *([] if steps else ["--no-steps"]), given=steps or "")
    is_told = re.search(rf"^{question.removeprefix('--')} fails", done.out, re.M)
    return "" if done.status == 1 and is_told else f"status {done.status}, {done.out[:80]!r}"


def hunt_images(px86: Px86, it: Example) -> Checks:
    """Where a hunt of crashes finds one, no check of every run may hold."""
    condition = it.option("--all")
    for plan in PLANS if condition else ():
        steps = hunted_steps(px86, 3, ["--all", condition, *plan.split(), it.litmus])
        if steps is not None:
            yield f"{plan}: a hunt finds something, and check", failing(px86, "--all", [condition, it.litmus], None)
            yield f"{plan}: check behind the steps of a hunt", failing(px86, "--all", [condition, it.litmus], steps)


def hunt_end(px86: Px86, it: Example, question: str, plan: str) -> Checks:
    """The same of an end, before a crash or after one."""
    condition = it.option(question)
    steps = hunted_steps(px86, 1, ["--cond", condition, *plan.split(), it.litmus]) if condition else None
    if steps is None:
        return
    # A schedule may end before its program does, and a program before the crash.
    state = px86("run", it.litmus, given=steps).out
    uncrashed = state.splitlines()[1:2] == ["crashes 0"]
    if re.search(r"^cpu .* ready |^  buf|^pend ", state, re.M) or uncrashed == (question == "--recovered"):
        return
    yield f"{plan}: a hunt finds an end, and check", failing(px86, question, [condition, it.litmus], None)
    yield f"{plan}: check behind the steps to an end", failing(px86, question, [condition, it.litmus], steps)


def hunts(px86: Px86, path: str) -> Checks:
    """All hunts of an example."""
    it = Example(path)
    yield from hunt_images(px86, it)
    yield from hunt_end(px86, it, "--ends", "--seed 1 --runs 2000")
    for turn in TURNS:
        yield from hunt_end(px86, it, "--recovered", f"--seed 1 --runs 300 --length 150 --crash-after {turn}")


# --- many candidates over all lines, and few over those that a condition asks

# A word on each of 20 lines. Where `a` has drained, each w may have persisted or not: over all lines there are more than 2^17
# candidates. If `a` has persisted, the markers of `c` and of `b` have gone: so `b` is 1, and `c` is 5 or 3.
WIDE = "\n".join(
    [
        "litmus 1",
        *(f"line {word}" for word in ["a", "b", "c", *(f"w{number}" for number in range(17))]),
        *["cpu", "mov [c], 5", "clwb [c]", "sfence", "mov [c], 3", *(f"mov [w{number}], 1" for number in range(17))],
        *["mov [b], 1", "clwb [b]", "sfence", "mov [a], 1", "end", ""],
    ]
)
ZEROS = " 0" * 16
ALL_LINES = "".join(f" or persisted w{number} = 2" for number in range(17))
# The name, the status, the first line and the words of a check of every image.
ASKED = [
    ("few lines are asked: it holds", 0, "all holds", ["--before-crash", "--all", "persisted a = 0 or persisted b = 1"]),
    ("few lines are asked: the least image of all lines", 1, f"all fails 1 1 3 0{ZEROS}", ["--before-crash", "--all", "persisted a = 0"]),
    ("the last line is asked: the least image of all lines", 1, f"all fails 0 0 3{ZEROS} 1", ["--before-crash", "--all", "persisted w16 = 0"]),
    ("all lines are asked", 5, "px86: I1 TooMany", ["--before-crash", "--all", f"persisted a < 2{ALL_LINES}"]),
    ("runs crash: all lines count", 5, "px86: I1 TooMany", ["--all", "persisted a = 0 or persisted b = 1"]),
    (
        *("the images are asked for: all lines count", 5, "px86: I1 TooMany"),
        ["--before-crash", "--images", "--all", "persisted a = 0 or persisted b = 1"],
    ),
]


def wide(px86: Px86, status: int, line: str, words: list[str]) -> Checks:
    done = px86("check", *words, "--no-steps", px86.keep("wide.litmus", WIDE))
    yield "", unlike((done.status, (done.out + done.err).splitlines()[:1]), (status, [line]))


# --- persistent data structures in sizes


def structure(px86: Px86, name: str, most: int) -> Checks:
    """A data structure, all runs of which come to so many states at most."""
    run([f"{TOP}/bench/programs", px86.folder])
    condition = read(f"{px86.folder}/{name}.cond").rstrip("\n")
    done = px86("check", "--no-steps", "--all", condition, f"{px86.folder}/{name}.litmus", most=LONG)
    found = re.match(r"all holds\nstates (\d+)\n", done.out)
    wrong = "" if found and 1 <= int(found[1]) <= most else f"{most} states at most, and it says {done.out[:80]!r}"
    yield "", wrong_end(done, 0) or wrong


def states_by_coherent(px86: Px86) -> Checks:
    """A condition that tests no persisted value tells as many states apart as one that tests nothing else."""
    reports = [px86("check", "--no-steps", "--all", f"{kind} top >= 0", "examples/stack.litmus").out for kind in ("persisted", "coherent")]
    persisted, coherent = (re.findall(r"^states .*", report, re.M) for report in reports)
    yield "", unlike(coherent, persisted) if persisted else f"no count of states: {reports[0]}"


# --- random programs


def random_programs(px86: Px86) -> Checks:
    """The model tries many sets of each program that lacks something."""
    done = run(["tools/schedules-model", "every-run", px86.path], most=LONG)
    print(done.out, end="")
    yield "", wrong_end(done, 0)


def cases() -> Iterator[Case]:
    """All cases."""
    yield Case("what every run of small programs shows is what the model says", random_programs)
    yield from (Case(path, check_example, path) for path in files_of(FOLDERS, "check"))
    yield from (Case(path, outcomes_example, path) for path in files_of(FOLDERS, "outcomes"))
    yield from (Case(path, needs_example, path) for kind in ("fences", "mend") for path in files_of(FOLDERS[:1], kind))
    yield Case("the index", index)
    yield from (Case(f"hunts of {path}", hunts, path) for path in files_of(FOLDERS + GALLERY, "check"))
    yield from (Case(name, wide, *row) for name, *row in ASKED)
    for line in read("tests/cases/family.states").partition("\n\n")[2].splitlines():
        name, most = line.split()
        yield Case(f"data structure {name}", structure, name, int(most))
    yield Case("states by coherent values", states_by_coherent)
