"""Runs the gallery, which are the folders of examples/, and asks the second model what every schedule of each of its programs does.
The lists of jobs of examples/many-machines, of a million schedules each, are run by processes, and their reports put together.

Each example is a file NAME.litmus, with a row in examples/README.md, and beside it

  NAME.hunt     a command of px86, and behind this line its report
  NAME.images   the report of `px86 images` with the options NAME.options and the steps NAME.steps
  NAME.ends     a command of the second model, and behind this line its report. Its condition is that of the hunt. For
                a hunt that finds nothing, it shows that there is nothing to be found
  NAME.check    a command of px86 that asks of every run, and its report without the line `states`. Where a condition fails
                there is a line for each state that may be told: the program has one of them, and steps that lead there
  NAME.outcomes a command of px86 and its report: each end of a program without a recovery
  NAME.asked    of a sheet: its questions, and their answers (tests/questions.py)

No expected text was taken from the program: reports of `images`, `check`, `outcomes` and of hunts that find a schedule were
made by the second model. That hunts of the others answer `none` follows from NAME.ends. What the literature allows is in an
outcome, and what it forbids in none.
"""

from __future__ import annotations

import glob
import os
import re
import shlex
from collections.abc import Iterator

from tests.examples import Example, row_of, wrong_check
from tests.harness import TOP, Case, Checks, Done, NotRun, Px86, model, read, run, with_parallel, wrong_end, wrong_run

AT_LEAST = {"": 1313}
NEEDS_PROGRAM = True
FOLDERS = "x86-tso", "persistency", "idioms"


def exists(path: str) -> bool:
    return os.path.exists(f"{TOP}/{path}")


# --- examples


def wrong_row(path: str, found: int) -> str:
    """What the row of this name in the index says that is not so, or that it is no one row; the answer in its last cell is
    `allowed` or `broken` where the condition fails in some schedule, and otherwise `forbidden` or `right`. The text's head has
    the answer and the source too."""
    name = os.path.basename(path)
    rows = row_of(name)
    if len(rows) != 1:
        return f"{len(rows)} rows in the index"
    answer, source = rows[0][-1], rows[0][1].strip()
    if not answer.startswith(("allowed", "broken") if found else ("forbidden", "right")):
        return f"the index answers {answer!r}"
    word = re.match(r"[a-z]*", answer)
    head = f"# {name}: {word and word[0]}.\n# Source: {source}.\n"
    return "" if read(f"{path}.litmus").startswith(head) else "the text's first two lines are not its answer and its source"


def unknown_outcomes(px86: Px86, path: str, options: list[str], report: str) -> str:
    """The outcomes of 1,000 schedules of the program that the model's report does not have, if any; with these options of
    `tally`. Persisted values are left out: recovery's own writes may persist in a schedule, and do not in the model."""
    done = px86("tally", "--seed", "2", "--runs", "1000", *options, f"{path}.litmus")
    plain = lambda text: re.sub(r"/[0-9]+", "", text)
    found = {plain(line[1]) for line in re.finditer(r"^outcome [0-9]+(.*)$", done.out, re.M)}
    known = {plain(line[1]) for line in re.finditer(r"^outcome(.*)$", report, re.M)}
    return ", ".join(sorted(found - known)) if found else "no tally"


def wrong_outcomes(it: Example, found: int, asked: str) -> str:
    """What is wrong with outcomes: some is what this condition forbids, or where it may be none is."""
    told = model(*it.words, "--breaking", asked)
    breaking = {line for line in told.out.splitlines() if line.startswith("outcome ")}
    if unknown := breaking - set(it.report.splitlines()):
        return f"of which the file knows nothing: {sorted(unknown)}"
    return wrong_end(told, 0) or ("" if bool(breaking) == bool(found) else f"these break it: {sorted(breaking)}")


def ask_hunt(px86: Px86, path: str) -> Iterator[tuple[str, str]]:
    it = Example(f"{path}.hunt")
    yield "hunt", wrong_run(px86(*it.words), it.status, it.report)
    # A schedule that is found is the second model's too.
    if it.status:
        yield "hunt, by the model", wrong_run(model(*it.words), 1, it.report)


def ask_images(px86: Px86, path: str) -> Iterator[tuple[str, str]]:
    steps, report = read(f"{path}.steps"), read(f"{path}.images")
    words = ["images", *shlex.split(read(f"{path}.options")), f"{path}.litmus"]
    yield "images", wrong_run(px86(*words, given=steps), 0, report)
    yield "images, by the model", wrong_run(model(*words, given=steps), 0, report)


def ask_ends(px86: Px86, path: str, found: int, asked: str) -> Iterator[tuple[str, str]]:
    it = Example(f"{path}.ends")
    yield "ends, by the model", wrong_run(model(*it.words), found, it.report)
    if asked:
        yield "one condition", "" if it.option("--cond") == asked else "the hunt and the model are asked for different ones"
    # The turn of the crash: each program makes as many turns but those of which recovery is all that matters.
    turn = "1" if os.path.basename(path).startswith("recovery-twice") else "5"
    options = ["--crash-after", turn] if "--crash" in it.words else []
    yield "its tally", unknown_outcomes(px86, path, options, it.report)


def ask_check(px86: Px86, path: str) -> Iterator[tuple[str, str]]:
    it = Example(f"{path}.check")
    yield "check", wrong_check(px86, it)
    yield "check, by the model", wrong_run(model(*it.words), it.status, it.report)
    yield "check, its row", wrong_row(path, it.status)


def ask_outcomes(px86: Px86, path: str, found: int, asked: str) -> Iterator[tuple[str, str]]:
    it = Example(f"{path}.outcomes")
    yield "outcomes", wrong_run(px86(*it.words), 0, it.report)
    yield "outcomes, by the model", wrong_run(model(*it.words), 0, it.report)
    if "/x86-tso/" in path:
        yield "outcomes, its row", wrong_outcomes(it, found, asked)


def example(px86: Px86, path: str) -> Checks:
    """An example, by its path without an ending."""
    found, asked, condition = 0, "", ""
    if exists(f"{path}.hunt"):
        hunt = Example(f"{path}.hunt")
        found, asked = hunt.status, hunt.option("--cond")
        yield from ask_hunt(px86, path)
    if exists(f"{path}.images"):
        found = int(bool(re.search(r"^some found", read(f"{path}.images"), re.M)))
        yield from ask_images(px86, path)
    if exists(f"{path}.ends"):
        yield from ask_ends(px86, path, found, asked)
    yield "its row", wrong_row(path, found)
    if exists(f"{path}.check"):
        check = Example(f"{path}.check")
        found, condition = check.status, check.words[2]
        yield from ask_check(px86, path)
    if exists(f"{path}.outcomes"):
        yield from ask_outcomes(px86, path, found, condition)
    else:
        yield "outcomes", "" if re.search(r"^recover", read(f"{path}.litmus"), re.M) else "no outcome is told"
    if not exists(f"{path}.check") or not (exists(f"{path}.hunt") or exists(f"{path}.images")):
        yield "what is asked", "nothing, or of no run"


def files(_: Px86) -> Checks:
    """Each file stands beside a text, and each row of the index, from the first folder's heading on, is an example's."""
    beside = [path for folder in FOLDERS for path in glob.glob(f"examples/{folder}/*")]
    alone = [path for path in beside if not exists(f"{os.path.splitext(path)[0]}.litmus")]
    names = {os.path.basename(path).removesuffix(".litmus") for path in glob.glob("examples/**/*.litmus", recursive=True)}
    rows = re.findall(r"^\| `([^`]*)` \|", read("examples/README.md").partition("\n## x86-tso")[2], re.M)
    unknown = [name for name in rows if os.path.basename(name).removesuffix(".litmus") not in names]
    if alone or unknown:
        yield "", f"no text stands beside {alone}, and no example is {unknown}"


# --- lists of jobs

RANGE = re.compile(r"--first [0-9]* --runs [0-9]*")
BOTH = "persisted x = 0 or persisted y = 0 or reg 0 rax = 1 or reg 1 rax = 1"
QUEUE = [("--cond .* --seed", '--cond "persisted flag = 0 or persisted item = 7" --seed'), ("[^ ]*litmus$", "examples/queue.litmus")]
# What stands in for parallel and runs one job after another, and writes its report's name.
ONE_BY_ONE = 'while IFS= read -r job; do report=$(mktemp); bash -c "$job" >"$report" </dev/null; echo "$report"; done'


def after(turn: int) -> tuple[str, str]:
    """An edit of a list: another turn of the crash."""
    return "--crash-after [0-9]+", f"--crash-after {turn}"


def jobs_of(name: str) -> str:
    return read(f"examples/many-machines/{name}.jobs")


def small(name: str, *edits: tuple[str, str]) -> str:
    """A list like that of a million, of as many ranges and a hundred schedules, after these edits of its lines."""
    lines = jobs_of(name).replace("00000", "0").splitlines()
    for old, new in edits:
        lines = [re.sub(old, new, line, count=1) for line in lines]
    return "".join(f"{line}\n" for line in lines)


SMALL = small("hunt", *QUEUE, after(11))
# Lists of so many schedules, and more options of parallel. A shell stands in the place of ssh: the machines of these names are this one.
LISTS = [
    ("a million schedules, a tally", jobs_of("tally"), 1000000, ""),
    ("a million schedules, a hunt", jobs_of("hunt"), 1000000, ""),
    ("a count of losses", small("tally", ("tally", f"tally --all '{BOTH}'")), 100, ""),
    ("a hunt", small("hunt", *QUEUE, after(9)), 100, ""),
    ("a hunt by machines that have names", small("hunt", *QUEUE, after(9)), 100, "--sshlogin :,one,two --workdir TOP --joblog FOLDER/log"),
    ("a hunt that finds nothing", SMALL, 100, ""),
    ("a hunt of crashes", small("hunt", *QUEUE, ("--cond", "--all"), ("--crash-after [0-9]+", "")), 100, ""),
]


def run_jobs(px86: Px86, jobs: str, options: str = "", **variables: str) -> tuple[Done, str]:
    """Runs the jobs of a list, spread among processes by these options, and puts their reports together: how that ended, and which
    jobs were run. The program in a job writes down which job it is, by the words of its range."""
    ran = px86.keep("jobs", "")
    words = "grep -o -e '--first [0-9]* --runs [0-9]*'"
    started = px86.keep("px86-in-a-job", f"#!/bin/bash\necho \"$*\" | {words} >>'{ran}'\nexec '{px86.path}' \"$@\"\n")
    ssh = px86.keep("ssh", '#!/bin/sh\nshift\n[ "$1" != -- ] || shift\nexec sh -c "$*"\n')
    for path in started, ssh:
        os.chmod(path, 0o755)
    names = with_parallel(px86)[0] | {"PX86": started, "PARALLEL_SSH": ssh} | variables
    asked = options.replace("TOP", TOP).replace("FOLDER", px86.folder).split()
    reports = run(["parallel", "-k", "-j", "2", "--files", *asked], jobs, 600, env=names)
    joined = run(["examples/many-machines/join", str(len(jobs.splitlines())), *reports.out.split()])
    return Done(joined.status, joined.written, reports.said + joined.said), read(ran)


def unrun(jobs: str, ran: str) -> str:
    """That not each job of a list was run, or one twice, or nothing."""
    return "" if sorted(ran.splitlines()) == sorted(RANGE.findall(jobs)) else "not each job was run once"


def job_list(px86: Px86, jobs: str, runs: int, options: str) -> Checks:
    """The jobs of a list, and their reports put together: it is the report of one command for so many schedules, and the status
    is its own."""
    one = re.sub("--runs [0-9]+", f"--runs {runs}", jobs.splitlines()[0])
    wanted = run(["bash", "-c", one], most=600, env=os.environ | {"PX86": px86.path})
    done, ran = run_jobs(px86, jobs, options)
    wrong = wrong_end(wanted, wanted.status) or wrong_run(done, wanted.status, wanted.out) or unrun(jobs, ran)
    yield "", wrong or (NotRun("there is no GNU parallel") if with_parallel(px86)[1] else "")


# Each report of a hunt that finds nothing is as any other: which jobs were run is not seen by them.
BROKEN = {
    "no job is run": "cat >/dev/null",
    "the last job is not run": f"head -n -1 | {{ {ONE_BY_ONE}; }}",
    "a job is not run, and has the report of another": f'head -n -1 | {{ {ONE_BY_ONE}; echo "$report"; }}',
    "a job is run in the place of another": f"sed '1p; 2d' | {{ {ONE_BY_ONE}; }}",
    "a job is run twice": f"sed 1p | {{ {ONE_BY_ONE}; }}",
}


def broken_parallel(px86: Px86, name: str) -> Checks:
    """It is seen where a parallel, given as a script of bash, does not run the jobs of a list as it is asked to."""
    os.mkdir(f"{px86.folder}/broken")
    os.chmod(px86.keep("broken/parallel", f"#!/bin/bash\n{BROKEN[name]}\n"), 0o755)
    _, ran = run_jobs(px86, SMALL, PATH=f"{px86.folder}/broken:{os.environ['PATH']}")
    yield "", "" if unrun(SMALL, ran) else "it is not"


# What is no report of a range is not put together with others; it is said why.
NOT_JOINED = [
    ("a report of fences is not put together", "no report in fences", "2 none fences"),
    ("a job of a hunt that wrote nothing is seen", "no report in killed", "2 none killed"),
    ("a job of a tally that wrote nothing is seen", "no report in killed", "2 tally killed"),
    ("a report that is not there is seen", "2 reports of 3 ranges", "3 none none"),
    ("a range without an end is seen", "no report in unasked", "2 none unasked"),
]


# Reports of ends, and what they are together.
JOINED = [
    ("counts of ends", "tally-1 tally-2 tally-1", 0, "broken 2 of 23\nended 15 of 23\nfirst 14\n"),
    ("ends that keep a condition", "hunt-1 hunt-2", 0, "none\nended 9 of 15\n"),
    ("an end that breaks it", "hunt-1 least", 1, "least 16\n"),
]
ENDS = {
    "tally-1": "broken 0 of 8\nended 5 of 8\n",
    "tally-2": "broken 2 of 7\nended 5 of 7\nfirst 14\n",
    "hunt-1": "none\nended 8 of 8\n",
    "hunt-2": "none\nended 1 of 7\n",
    "least": "least 16\n",
}


def joined_ends(px86: Px86, names: str, status: int, report: str) -> Checks:
    for name, text in ENDS.items():
        px86.keep(name, text)
    done = run([f"{TOP}/examples/many-machines/join", str(len(names.split())), *names.split()], cwd=px86.folder)
    yield "", wrong_run(done, status, report)


def not_joined(px86: Px86, said: str, words: str) -> Checks:
    for name, text in {"fences": "all holds\n", "none": "none\n", "killed": "", "tally": "outcome 3 x=1/1\n", "unasked": "ends asked of no state\n"}.items():
        px86.keep(name, text)
    done = run([f"{TOP}/examples/many-machines/join", *words.split()], cwd=px86.folder)
    yield "", wrong_run(done, 2, "", f"join: {said}\n")


def cases() -> Iterator[Case]:
    """All cases."""
    yield from (Case(name, job_list, *row) for name, *row in LISTS)
    for folder in FOLDERS:
        for path in sorted(glob.glob(f"examples/{folder}/*.litmus", root_dir=TOP)):
            yield Case(path, example, path.removesuffix(".litmus"))
    yield Case("files and rows", files)
    yield from (Case(f"it is seen that {name}", broken_parallel, name) for name in BROKEN)
    yield from (Case(name, not_joined, *row) for name, *row in NOT_JOINED)
    yield from (Case(f"reports are put together: {name}", joined_ends, *row) for name, *row in JOINED)
