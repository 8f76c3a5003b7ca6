"""Tests the program as it is built, on files and pipes: its standard output, its standard error and its exit status, for every kind of
end that docs/FORMATS.md names, out of memory excepted (that is tests/refused-memory).

Most cases stand in tests/cases/program.calls, the others here. What is expected follows from docs/FORMATS.md and docs/MODEL.md, and
none was taken from the program. Examples and numbered schedules are asked for in tests/schedules.py, objects, `asm` and `dis` in
tests/objects.py.

In program.calls a case begins with a line `== NAME`. Then it has

  $ COMMAND       what is typed in bash. `./px86` is the program, and there are `FILES` and the folder `a-folder`. Standard input is
                  empty, if nothing else is said
  LINE            each line on standard output. `@report` is the worked report, and of `states N` any number is wanted
  px86: LINE      what is on standard error
  (status N)      the exit status, if it is not 0
  .. TEXT         a text that stands somewhere on standard output, of which no more is asked. Behind a fault it stands behind its
                  line on standard error, where the last line begins with the fault's number

What begins so holds for the cases below it:

  -- NAME         a file of this name, with the lines below
  each A | B      a case is one for each of these words, which stands in place of `*`. There may be more on lines that begin with `|`.
                  `each` alone ends it
  # COMMENT
"""

from __future__ import annotations

import dataclasses
import json
import os
import re
import subprocess
from collections.abc import Callable, Iterable, Iterator, Mapping, Sequence

from tests.harness import TOP, Case, Checks, Done, NotRun, Px86, commands_of, differs, read, run, unlike, with_needs, wrong_end, wrong_run
from tests.texts import COUNT

AT_LEAST = {"": 1138}
NEEDS_PROGRAM = True
REPORT, USAGE, LIMIT = read("crates/px86/stdout"), "px86: usage\n", 2**26

# --- files, and what is typed


def object_of(code: str, has_name: bool = True) -> bytes:
    """The object of one word and these bytes: in version 2, where the word has its name x, or in version 1, where it is w0."""
    head = b"PX86OBJ2\x01\x01\x01x" if has_name else b"PX86OBJ1\x01\x01"
    return head + bytes(8) + bytes([1, len(code) // 2, 0, 0, 0]) + bytes.fromhex(code) + bytes(4)


def text_of(*lines: str) -> str:
    return "".join(f"{line}\n" for line in lines)


def stores(count: int) -> str:
    """A store to each of so many words, each on a line of its own."""
    words = [f"w{number}" for number in range(count)]
    return text_of("litmus 1", *(f"line {it}" for it in words), "cpu", *(f"mov [{it}], 1" for it in words), "end")


STORE = "48C704250010000001000000"
WORKED = f"{STORE}0FAE3C25001000000FAEF8"
FILES: dict[str, bytes | str] = {
    "first.litmus": read("crates/px86/data/first.litmus"),
    "first.steps": read("crates/px86/stdin"),
    "first.obj": object_of(WORKED),
    "nameless.obj": object_of(WORKED, False),
    "store.obj": object_of(STORE),
    "nameless-store.obj": object_of(STORE, False),
}


def typed(px86: Px86, command: str) -> Done:
    """What comes of a command that is typed in the folder."""
    return run(["bash", "-c", command], None, 300, stdin=subprocess.DEVNULL, cwd=px86.folder)


def with_files(px86: Px86, files: Mapping[str, bytes | str], test: Callable[..., Checks], *given: object) -> Checks:
    """A test in a folder that has the files, and these."""
    os.symlink(px86.path, f"{px86.folder}/px86")
    os.mkdir(f"{px86.folder}/a-folder")
    for name, data in (FILES | files).items():
        px86.keep(name, data)
    yield from test(px86, *given)


# --- cases of program.calls


@dataclasses.dataclass(frozen=True)
class Call:
    """What is typed, and how it ends: the status, what is on standard output and on standard error, and the texts of these parts."""

    command: str
    status: int
    out: str
    err: str
    parts: Sequence[str]


def call_of(lines: Iterable[str]) -> Call:
    """The call that the lines of a case say."""
    kinds: dict[str, list[str]] = {"$ ": [], ".. ": [], "px86: ": [], "(status ": [], "": []}
    for line in lines:
        kinds[next(kind for kind in kinds if line.startswith(kind))].append(line)
    [command], [status] = kinds["$ "], kinds["(status "] or ["(status 0)"]
    out = REPORT if kinds[""] == ["@report"] else text_of(*kinds[""])
    parts = [line.removeprefix(".. ") for line in kinds[".. "]]
    return Call(command.removeprefix("$ "), int(status[8:-1]), out, text_of(*kinds["px86: "]), parts)


def calls() -> Iterator[tuple[str, Call, dict[str, str]]]:
    """The names of all cases, with their calls and their files."""
    files: dict[str, str] = {}
    words = ["*"]
    for block in re.split(r"^(?=(?:==|--|#) |each\b)", read("tests/cases/program.calls"), flags=re.M)[1:]:
        head, *lines = block.removesuffix("\n").split("\n")
        if head.startswith("-- "):
            files = files | {head.removeprefix("-- "): text_of(*lines)}
        elif head.startswith("each"):
            words = [it.strip() for it in " ".join([head, *lines]).removeprefix("each").split("|")] if head != "each" else ["*"]
        elif head.startswith("== "):
            for word in words:
                yield head[3:].replace("*", word).strip(), call_of(line.replace("*", word) for line in lines), files


def call_ends(px86: Px86, call: Call) -> Checks:
    """A call ends as is wanted."""
    done = typed(px86, call.command)
    if call.parts:
        yield "", wrong_fault(done, call) if call.err else wrong_end(done, 0) or missing(done.out, call.parts)
    else:
        out = re.sub(r"^states [1-9]\d*$", "states N", done.out, flags=re.M) if "states N\n" in call.out else done.out
        yield "", wrong_end(done, call.status, call.err) or differs(out, call.out)


def missing(text: str, parts: Iterable[str]) -> str:
    """Which of these parts is not in a text, or nothing."""
    return "".join(f"there is no {part!r} in {text!r}" for part in parts if part not in text)


def wrong_fault(done: Done, call: Call) -> str:
    """What is wrong with a fault that is explained."""
    line, _, more = re.sub(COUNT, b"", done.said).decode().partition("\n")
    number, last = call.err.split()[1], more.rstrip("\n").rpartition("\n")[2]
    wrong = unlike((done.status, done.out, f"{line}\n"), (call.status, "", call.err))
    return wrong or ("" if number == "usage" or re.match(rf"{number}[ :]", last) else f"the last line is {last!r}") or missing(more, call.parts)


# --- states that are too many


FOUND = r"px86: ([1-9]\d*) states were found and (\d+) explored, the last one \d+ steps from the start: .*\n"
# As the program is, the three stores have left before a load: there are some 100 states. Without the fence, or with an sfence, each
# load may be before each of them: some 300.
LOADS = [f"mov {register}, [y]" for register in ("rax", "rbx", "rcx")]
FENCED = text_of(
    *("litmus 1", "line x", "line y", "cpu", *(f"mov [x], {value}" for value in (1, 2, 3)), "mfence", *LOADS, "end"),
    *("cpu", *(f"mov [y], {value}" for value in (1, 2, 3)), "end"),
)


def not_known(px86: Px86, only: str) -> Checks:
    """Of both it is said how many were found, and in the report that it is not known."""
    line = "cpu 0 main 3 mfence: not known R1, sfence not known R1\n"
    done = typed(px86, f"./px86 fences --states 170 --all 'persisted x < 4' {only} fenced.litmus <a-folder")
    found = [int(it) > 170 for it in re.findall(r"^px86: ([1-9]\d*) states were found .*$", done.err, re.M)]
    others = re.sub(r"^px86: [1-9]\d* states were found .*\n", "", done.err, flags=re.M)
    wrong = unlike((done.status, found, others), (0, [True, True], ""))
    yield "", wrong or differs(done.out, line if only else f"all holds\n{line}keep 1 of 1\n")


def too_many(px86: Px86, words: str) -> Checks:
    """Too many states, and how far the exploration came: more were found than may be, and some of them explored."""
    done = typed(px86, f"./px86 {words} --states 2")
    told = re.match(FOUND, done.err)
    found, explored = (int(told[1]), int(told[2])) if told else (0, 0)
    rest = re.sub(COUNT, b"", done.said).decode()
    if "--json" in words:
        wrong = unlike(json.loads(rest.removeprefix(told[0] if told else ""))["fault"]["number"], "R1")
    else:
        wrong = differs(rest, "px86: R1 TooManyStates\n")
    wrong = wrong or unlike((done.status, done.out), (5, ""))
    yield "", wrong or ("" if found > 2 and 1 <= explored < found else f"{found} states were found and {explored} explored")


def part_fails(px86: Px86) -> Checks:
    """A part with too many states hides no failure of the other part. In the opening state x is 0, so `coherent x = 1` is false there,
    before any step. For the persisted part there are more than two states: the store is buffered, then pending, then persisted."""
    done = typed(px86, "./px86 check --states 2 --all 'persisted x < 9 and coherent x = 1' first.obj")
    told = re.fullmatch(r"px86: [1-9]\d* states were found and \d* explored, .*\n", done.err)
    yield "", unlike((done.status, done.out, told is not None), (1, "all fails 0\nsteps 0\n", True))


def wide_fails(px86: Px86) -> Checks:
    """The same, where the other part has too many candidates: seventeen stores to as many lines, and no flush. Once the first store has
    left its buffer, `coherent w0 = 0` is false, whatever a crash leaves: the least image has 0 in each word."""
    done = typed(px86, "./px86 check --no-steps --all '( persisted w0 < 9 ) and coherent w0 = 0' wide.litmus")
    yield "", wrong_end(done, 1) or unlike(done.out.partition("\n")[0], "all fails" + " 0" * 17)


def wider_fails(px86: Px86) -> Checks:
    """A state whose images are left to later ones is looked at before a fault of a later one is told. 22 stores are buffered, and drain
    one after another. After 10 of these 32 steps w10 has not drained. After one more it may have persisted: then w10 is 1 and all else
    0. At the end there are 2^22 candidates."""
    done = typed(px86, "./px86 check --no-steps --all 'persisted w10 = 0' wider.litmus")
    yield "", wrong_run(done, 1, f"all fails{' 0' * 10} 1{' 0' * 11}\nsteps 33\n")


COUNTING = text_of(
    *("litmus 1", "line b", "cpu", "again:", "mov rax, 1", "lock xadd [b], rax", "jmp again", "recover", "mov rcx, [b]", "end"),
    *("cpu", "more:", "mov rdx, 1", "lock xadd [b], rdx", "jmp more", "recover", "end"),
)


def without_end(px86: Px86, question: str, condition: str) -> Checks:
    """Images are left to later states for a few steps only. Two processors count for ever, so there is no end of states. Once each has
    counted, or one twice, a crash may leave 2, and recovery may read it."""
    done = typed(px86, f"./px86 check --no-steps --states 2000 --{question} '{condition}' counting.litmus")
    told = re.fullmatch(rf"{question} fails (\d+)", done.out.partition("\n")[0])
    yield "", wrong_end(done, 1) or ("" if told and int(told[1]) >= 2 else f"another report: {done.out!r}")


def shown_steps(px86: Px86, question: str) -> Checks:
    """The steps that are shown, behind those that were given, lead to the state that is told."""
    shown = typed(px86, f"./px86 check --{question} 'persisted x = 0' --show first.obj <<<'exec 0'")
    px86.keep("behind", "exec 0\n" + "".join(shown.out.splitlines(True)[2:]))
    images = typed(px86, "./px86 images --count --all 'persisted x = 0' first.obj <behind")
    yield "images of the steps", unlike(images.out.splitlines()[-1:], ["all fails 1"])
    yield "run of the steps", wrong_end(typed(px86, "./px86 run first.obj <behind"), 0)


# --- what explains an image

PASSED = text_of("litmus 1", "line x", "line y", "cpu", "mov [x], 1", "clwb [x]", "mov [y], 1", "end")


def explained_as_json(px86: Px86, command: str, enough: str) -> Checks:
    """What explains an image in an object of JSON, in which it is null if it is not asked for."""
    at = [f'{{"cpu":0,"line":null,"place":{place},"program":"main"}}' for place in range(3)]
    why = f'{{"behind":null,"flush":{at[1]},"passed":{at[2]},"reason":"flush buffered"}}'
    explained = f'{{"missing":[{{{enough}"site":{at[0]},"value":1,"why":{why},"word":"x"}}]}}'
    typed(px86, "./px86 asm passed.litmus >passed.obj")
    asked = f"./px86 {command} passed.obj --json --all 'persisted y = 0 or persisted x = 1'"
    wanted = typed(px86, asked).out.replace('"explained":null', f'"explained":{explained}', 1)
    yield "", wrong_run(typed(px86, f"{asked} --explain-image"), 1, wanted)


def missing_writes(px86: Px86, count: int) -> Checks:
    """Of 64 missing writes each is tried alone, of 65 none is. (JSON says no more than that none is told as enough.)"""
    px86.keep("many.litmus", text_of("litmus 1", "line x", "cpu", *(f"mov [x], {value}" for value in range(1, count + 1)), "end"))
    px86.keep("many.steps", "exec 0\n" * count)
    told = [f"missing x {value} line {value + 3}: in the store buffer" for value in range(1, count + 1)]
    if count > 64:
        told = [*told, "none of these was tried alone: they are too many"]
    else:
        told = [told[-1], "with this: held", f"missing too {count - 1}"]
    done = typed(px86, f"./px86 check many.litmus --steps many.steps --explain-image --all 'persisted x = {64}'")
    yield "", wrong_run(done, 1, text_of("all fails 0", "steps 0", "image x 0", *told))


def explains_nothing(px86: Px86) -> Checks:
    yield "", wrong_end(typed(px86, "./px86 run --explain --no-steps first.litmus"), 0)


def untold_option(px86: Px86) -> Checks:
    """`outcomes` is not told of an option that it does not take."""
    done = typed(px86, "./px86 outcomes --explain --no-steps --states 2 first.litmus")
    more = re.sub(COUNT, b"", done.said).decode().partition("\n")[2]
    yield "", "there is '--before-crash'" if not more or "before-crash" in more else ""


# --- options of other commands, steps, and inputs that are long

# Options, by that which the help of a command has that takes them.
OPTIONS = {
    "--only": ['--only "0 main 1"'],
    "--explain-image": ["--explain-image"],
    "--states": ["--states 1", "--before-crash", "--recovered", "--images"],
    "--ends": ["--ends a"],
}
# Where steps come from: not from two places.
TWO_PLACES = "--steps | --no-steps=1 | --steps a --steps a | --no-steps --no-steps | --steps a --no-steps | --no-steps --steps a".split(" | ")


def usage(px86: Px86, words: str) -> tuple[str, str]:
    """Words that are not understood."""
    return words, wrong_run(typed(px86, f"./px86 {words}"), 2, "", USAGE)


def others(px86: Px86, option: str) -> list[str]:
    """The names of the commands whose help does not have this option."""
    have = commands_of(px86, option)
    return [name for name in commands_of(px86) if name not in have]


def not_taken(px86: Px86, option: str) -> Checks:
    """Options of some commands, for each other one."""
    for name in others(px86, option):
        yield from (usage(px86, f"{with_needs(name)} first.obj {words}") for words in OPTIONS[option])


def steps_of_commands(px86: Px86) -> Checks:
    """Steps come from one place, and not to a command that reads none."""
    reading = [with_needs(name) for name in commands_of(px86, " --no-steps  ")]
    for command in [*reading, "tally --all a", "hunt --cond a", "check --recovered a", "outcomes --recovered"]:
        yield from (usage(px86, f"{command} first.obj {words}") for words in TWO_PLACES)
        name = command.split()[0]
        done = typed(px86, f"./px86 {name} --help")
        yield f"help of {command}", wrong_end(done, 0) or missing(done.out, ["FILE", "--steps <STEPS>", "--no-steps", "Example", f"px86 {name} "])
    for name in others(px86, " --no-steps  "):
        yield usage(px86, f"{name} first.obj --steps first.steps")
        yield usage(px86, f"{name} first.obj --no-steps")


def no_steps(px86: Px86) -> Checks:
    """Without steps a run ends as with none on standard input."""
    wanted = typed(px86, "./px86 run first.litmus").out
    yield "no steps", wrong_run(typed(px86, "./px86 run --no-steps first.litmus <first.steps"), 0, wanted)
    yield "no steps, and no standard input", wrong_run(typed(px86, "./px86 run first.litmus --no-steps <&-"), 0, wanted)


def turns_of_replays(px86: Px86) -> Checks:
    """Of a program that runs in a circle, a schedule ends where it has all its turns: 100, if no length is given, as where the end alone
    is asked about. A number of `hunt --all` is of 1,000 turns, which `replay` is told."""
    turns = "exec 0\n" * 100
    yield "a replay without a length", wrong_run(typed(px86, "./px86 replay --number 3 --no-steps circle.litmus"), 0, turns)
    hunt = "./px86 hunt --cond 'coherent x = 1' --first 3 --show --no-steps circle.litmus"
    yield "a hunt of ends without a length", wrong_run(typed(px86, hunt), 1, f"least 3\n{turns}")
    replay = "./px86 replay --number 3 --length 1000 --no-steps circle.litmus"
    yield "a replay of 1,000 turns", wrong_run(typed(px86, replay), 0, "exec 0\n" * 1000)


def many_names(px86: Px86) -> Checks:
    """Sixteen million names of a line, for which there is no memory, need none: nine are too many. A build that reserves more addresses
    than this cannot be asked."""
    px86.keep("long.litmus", "litmus 1\nline" + " a" * 2**24 + "\n")
    if typed(px86, "ulimit -v 262144; exec ./px86 --version").status:
        yield "", NotRun("the program reserves more addresses")
    else:
        done = typed(px86, "ulimit -v 262144; exec ./px86 run --no-steps long.litmus")
        yield "", wrong_run(done, 2, "", "px86: X8 L2 LineTooLong line 2\n")


# F3: 2^26 bytes are accepted, one more is not. What is read, and whether that may be of so many bytes.
LONG = {
    "a program": ("first.litmus", "run long <first.steps"),
    "steps": ("first.steps", "run first.litmus <long"),
    "steps from a pipe": ("first.steps", "run first.litmus < <(cat long)"),
}


def long_input(px86: Px86, name: str, command: str) -> Checks:
    """The file, and comments behind it: as many bytes as may be, and one more."""
    text = read(f"{px86.folder}/{name}")
    for size, wanted in (LIMIT, (0, REPORT, "")), (LIMIT + 1, (2, "", "px86: F3 InputTooLong\n")):
        px86.keep("long", text + "#" * (size - len(text)))
        yield f"{size} bytes", wrong_run(typed(px86, f"./px86 {command}"), *wanted)


def long_before_steps(px86: Px86) -> Checks:
    px86.keep("long", "#" * (LIMIT + 1))
    yield "", wrong_run(typed(px86, "./px86 run long <a-folder"), 2, "", "px86: F3 InputTooLong\n")


# --- lines of progress

PACE = r", [1-9]\d* a second, about \d+ s to go$"
SIXTEENTHS = list(range(100, 1700, 100))
SCHEDULES = {
    "tally --runs 1600 --length 5": (1600, SIXTEENTHS),
    "tally --first 7 --runs 1600 --length 5": (1600, SIXTEENTHS),
    "tally --all 'persisted x = 9' --runs 1600 --length 5": (1600, SIXTEENTHS),
    "hunt --cond 'persisted x != 9' --runs 1600 --length 5": (1600, SIXTEENTHS),
    "hunt --workers 4 --all 'persisted x != 9' --runs 1600 --length 5": (1600, SIXTEENTHS),
    # The first schedule is it.
    "hunt --workers 1 --cond 'persisted x = 9' --runs 1600 --length 5": (1600, []),
    # The second number is claimed and skipped: it has no end.
    "hunt --workers 1 --cond 'persisted x = 9' --runs 16 --length 5": (16, [1]),
    "tally --runs 5": (5, range(1, 6)),
    "tally --runs 17": (17, range(2, 18)),
    "tally --runs 0": (0, []),
}
STACK = f"{TOP}/examples/stack.litmus"
# What explores every run, and how many states there may be. Where it is not one program's, there is no such number.
EXPLORES = {
    "check --no-steps --all 'persisted x = 0' line.litmus": 16,
    "check --all 'persisted x = 0' --no-steps line.litmus": 32,
    f"check --no-steps --all 'persisted a_item < 6' {STACK}": 1600,
    "check --no-steps --all 'persisted x != 1' --show first.litmus": 160,
    f"outcomes --no-steps {STACK}": 1600,
    f"outcomes --recovered --no-steps {STACK}": 1600,
}
EXPLORE_MANY = ["", "--only '0 main 1' "]
# A search, and how many lines of explorations there are at least and at most.
SEARCHES = {
    "mend --states 32 --all 'persisted y = 0 or persisted x = 1' lacks.litmus": (1, 16),
    "mend --moves --ends 'persisted x = 2' lacks.litmus": (2, 24),
    "mend --all 'persisted x < 2' lacks.litmus": (0, 0),
}
EXPLORED = rf"px86: [1-9]\d* of at most [1-9]\d* states are explored{PACE}"


def with_progress(px86: Px86, words: str) -> tuple[str, str, list[str]]:
    """A command with --progress: whether its status and its report are others than those without, its report, and its lines."""
    plain, told = typed(px86, f"./px86 {words}"), typed(px86, f"./px86 {words} --progress")
    return wrong_run(Done(told.status, told.written, b""), plain.status, plain.out), told.out, told.err.splitlines()


def paces(lines: Iterable[str]) -> list[str]:
    """Lines without their paces, which is said of them."""
    return [re.sub(PACE, ", and a pace", line) for line in lines]


def schedules_done(px86: Px86, words: str, total: int, counts: Iterable[int]) -> Checks:
    """A line for each of these counts of so many, in any order, each with a pace; and where all are done no second to go."""
    wrong, _, lines = with_progress(px86, f"{words} --no-steps first.litmus")
    ordered = sorted(lines, key=lambda line: int(line.split()[1]))
    wanted = [f"px86: {count} of {total} schedules are done, and a pace" for count in counts]
    last = [line for line in lines if line.startswith(f"px86: {total} of {total} ") and not line.endswith(", about 0 s to go")]
    yield "", wrong or unlike(paces(ordered), wanted) or unlike(last, [])


def states_explored(px86: Px86, words: str, most: int) -> Checks:
    """A line comes each time a sixteenth of the states that may be told apart is explored: as many as the report says were told apart,
    where it does."""
    wrong, report, lines = with_progress(px86, f"{words} --states {most}")
    states = re.search(r"^states (\d+)$", report, re.M)
    counts = range(most // 16, int(states[1]) + 1, most // 16) if states else []
    wanted = [f"px86: {count} of at most {most} states are explored, and a pace" for count in counts]
    wrong = wrong or (unlike(paces(lines), wanted) if states else "")
    yield "", wrong or unlike([line for line in lines if f" of at most {most} " not in line or not re.fullmatch(EXPLORED, line)], [])


def many_explored(px86: Px86, only: str) -> Checks:
    """Of many programs there is a line each time a sixteenth of the states of one program is explored: of all that there may be."""
    wrong, _, lines = with_progress(px86, f"fences --states 32 --all 'persisted x < 2' {only}first.litmus")
    yield "", wrong or unlike([line for line in lines if not re.fullmatch(EXPLORED, line)] if lines else "no line", [])


def search(px86: Px86, words: str, least: int, most: int) -> Checks:
    """Of a search there is also a line when an exploration begins whose number is a digit and noughts, from the second on."""
    wrong, _, lines = with_progress(px86, words)
    begun = [re.sub(r", after \d+ s$", ", after a time", line) for line in lines if " explorations are begun, " in line]
    numbers = [*range(2, 10), *range(10, 100, 10), *range(100, 1000, 100)]
    wrong = wrong or unlike(begun, [f"px86: {number} explorations are begun, after a time" for number in numbers[: len(begun)]])
    others = [line for line in lines if " explorations are begun, " not in line and not re.fullmatch(EXPLORED, line)]
    yield "", wrong or ("" if least <= len(begun) <= most else f"there are {len(begun)} lines of explorations") or unlike(others, [])


# --- all cases

Tests = Iterator[tuple[str, dict[str, bytes | str], Callable[..., Checks], tuple[object, ...]]]


def tests_of_states() -> Tests:
    """Cases of too many states, and of explorations."""
    for name, only in ("", ""), (", of one alone", "--only '0 main 3'"):
        yield f"fences where it is not known{name}", {"fenced.litmus": FENCED}, not_known, (only,)
    holds = "check --all 'persisted x <= 1"
    yield "too many states", {}, too_many, (f"{holds}' first.obj",)
    yield "too many states, as JSON", {}, too_many, (f"{holds}' --json first.obj",)
    yield "too many states of outcomes", {}, too_many, ("outcomes --recovered first.obj",)
    yield "too many states for both parts of a condition", {}, too_many, (f"{holds} and coherent x <= 1' first.obj",)
    yield "a part fails, and the other part has too many states", {}, part_fails, ()
    yield "a part fails, and the other part has too many candidates", {"wide.litmus": stores(17)}, wide_fails, ()
    yield "a store breaks the condition, and later there are too many candidates", {"wider.litmus": stores(22)}, wider_fails, ()
    for question, condition in ("all", "persisted b < 2"), ("recovered", "reg 0 rcx < 2"):
        yield f"runs without an end: --{question}", {"counting.litmus": COUNTING}, without_end, (question, condition)
    for question in "all", "ends", "recovered":
        yield f"the steps that check shows, --{question}", {}, shown_steps, (question,)


def tests_of_explanations() -> Tests:
    for command, enough in ("check", '"enough":true,'), ("hunt", ""):
        yield f"what explains an image, in an object of JSON: {command}", {"passed.litmus": PASSED}, explained_as_json, (command, enough)
    for count in 64, 65:
        yield f"what explains an image in which {count} writes are missing", {}, missing_writes, (count,)
    yield "nothing is explained where nothing is wrong", {}, explains_nothing, ()
    yield "outcomes is not told of an option that it does not take", {}, untold_option, ()


def tests_of_words() -> Tests:
    for option in OPTIONS:
        yield f"options that other commands do not take: {option}", {}, not_taken, (option,)
    yield "where the steps of each command come from", {}, steps_of_commands, ()
    yield "no steps", {}, no_steps, ()
    circle = text_of("litmus 1", "line x", "cpu", "again:", "jmp again", "end")
    yield "turns of replays", {"circle.litmus": circle}, turns_of_replays, ()
    yield "a line of sixteen million names", {}, many_names, ()
    yield from ((f"{what} of 2^26 bytes, and one more", {}, long_input, given) for what, given in LONG.items())
    yield "a program too long, before the steps are read", {}, long_before_steps, ()


def tests_of_progress() -> Tests:
    lacks = text_of("litmus 1", "line x", "line y", "cpu", "mov [x], 1", "mov [y], 1", "end")
    files: dict[str, bytes | str] = {"line.litmus": "litmus 1\nline x\n", "lacks.litmus": lacks}
    yield from ((f"progress: {words}", {}, schedules_done, (words, *given)) for words, given in SCHEDULES.items())
    yield from ((f"progress: {words}", files, states_explored, (words, most)) for words, most in EXPLORES.items())
    yield from ((f"progress: fences {only}", {}, many_explored, (only,)) for only in EXPLORE_MANY)
    yield from ((f"progress: {words}", files, search, (words, *given)) for words, given in SEARCHES.items())


def cases() -> Iterator[Case]:
    """All cases."""
    yield from (Case(name, with_files, files, call_ends, call) for name, call, files in calls())
    for tests in tests_of_states, tests_of_explanations, tests_of_words, tests_of_progress:
        yield from (Case(name, with_files, files, test, *given) for name, files, test, given in tests())
