"""Asks conditions of options of sheets: random ones, which may name all that the items of a random sheet name, by `check`, `images`,
`hunt`, `tally`, `fences` and `mend`; what comes of them where tokens are dropped, doubled, replaced or exchanged; the limits; and of
examples the conditions of their questions, by their names. The part questions has these cases.

What may be answered, and each fault with its token, the second model tells (model/questions.py). In
tests/cases/sheet-conditions.lines and sheet-conditions.rows stands what was worked out by hand.
"""

from __future__ import annotations

import glob
import random
import re
from collections.abc import Iterator, Sequence

from model.conditions import condition_of
from model.machine import Machine
from model.programs import is_append
from model.questions import Question
from model.reading import Fault
from model.sheets import program_of
from model.texts import Program
from tests.examples import Example, wrong_check
from tests.harness import TOP, Case, Checks, Px86, differs, model, read, wrong_end, wrong_run
from tests.questions import MOST, MOST_STATES, OF_A_CASE, OPENED, PROGRAM, SHEETS, Maker, damaged, sheet_of, text_of, values_of, wrong_json
from tests.texts import ASKS, Row

# How often each condition is damaged; how many sets of what a program lacks the model tries at most, of how many states.
DAMAGES, MOST_SETS, MOST_STATES_TO_MEND = 10, 60, 600

# --- random conditions


class Asking:
    """A random sheet, and conditions that may be asked of it."""

    def __init__(self, number: int) -> None:
        self.number, self.chance = number, random.Random(f"conditions of {number}")
        self.lines = sheet_of(number)
        self.words = [*program_of("".join(f"{line}\n" for line in self.lines)).words]
        self.maker = Maker(number, program_of("".join(f"{line}\n" for line in self.lines)))
        self.items = self.maker.made(1 + number % 4)
        if is_append(number):
            # The last word says that the others are there.
            self.items += [
                ["let", "told", "=", "persisted", self.words[-1], "!=", "0"],
                ["let", "first", "=", "persisted", self.words[0]],
                ["every", "crash", "kept", ":", "told", "->", "first", "!=", "0"],
            ]
        self.text = text_of(self.lines, self.items, random.Random(number))

    def condition(self) -> list[str]:
        """The tokens of a condition: mostly it names an item."""
        tokens = self.maker.condition(2)
        if self.chance.randrange(3):
            tokens = [self.chance.choice(self.maker.conditions), self.chance.choice(["and", "or", "or", "->"]), "(", *tokens, ")"]
        # A word that begins with `-` would be an option.
        return ["(", *tokens, ")"] if tokens[0].startswith("-") else tokens

    def kept(self) -> list[str]:
        """That what the last word says is so, in one of the ways in which it may be said."""
        ways = "kept", "told -> first != 0", "not told or 0 < first", "first > 0 or not (told)", "kept and (told -> kept)"
        return self.chance.choice(ways).replace("(", "( ").replace(")", " )").split()

    def said(self, tokens: Sequence[str]) -> str:
        """A condition as a text: beside a mark there may be no blank, and behind it there may be a comment."""
        blanks = [self.chance.choice([" ", " ", "  ", "\t", "\r "]) for _ in tokens]
        marked = [{*pair} & {*"()[]"} and self.chance.randrange(2) for pair in zip(tokens, [*tokens[1:], ""])]
        text = "".join(f"{it}{'' if bare else blank}" for it, bare, blank in zip(tokens, marked, blanks))
        return text + self.chance.choice(["", "", "", "# more", "#) and ("])


# --- check


class Conditions(Example):
    """A `check` of conditions, by the names of their options, with the report of the model."""

    def __init__(self, words: Sequence[str], asked: dict[str, str], litmus: str, report: str) -> None:
        self.asked, self.litmus, self.report = asked, litmus, report
        self.words = ["check", *words, *(f"{name}={text}" for name, text in asked.items()), litmus]

    def option(self, name: str) -> str:
        return self.asked.get(name, "")

    def wrong(self, px86: Px86) -> str:
        """What is wrong with what the program says."""
        if self.status or " asked of no state" not in self.report:
            return wrong_check(px86, self)
        done = px86(*self.words)
        return wrong_end(done, 1) or differs(re.sub(r"^states [1-9][0-9]*\n", "", done.out, flags=re.M), self.report)

    def kind(self) -> str:
        return "fails" if self.status else "asked of no state" if " asked of no state" in self.report else "holds"


# Which conditions a check asks, and whether its runs may crash.
CHECKS = [
    (["--all"], []),
    (["--ends"], []),
    (["--recovered"], []),
    (["--all"], ["--before-crash"]),
    (["--all", "--ends", "--recovered"], []),
    (["--ends", "--all"], ["--before-crash"]),
]


def checked(px86: Px86, it: Asking, path: str) -> Checks:
    names, words = CHECKS[it.number % len(CHECKS)]
    asked = {name: it.said(it.condition()) for name in names}
    options = [f"{name}={text}" for name, text in asked.items()]
    wanted = model("check", *words, *options, "--states", str(MOST_STATES), path)
    if "R1" in wanted.err:
        yield "check of too many states", ""
        return
    one = Conditions(words, asked, path, wanted.out)
    wrong = wrong_end(wanted, one.kind() != "holds") or one.wrong(px86)
    yield f"check {one.kind()}", wrong and f"{wrong}, of {it.text!r}, {options}"
    yield "check as JSON", wrong_json(px86, ["check", *words, *(word for pair in asked.items() for word in pair), "--explain-image"], it.text, "")


# --- the other commands


def same(px86: Px86, it: Asking, path: str, kind: str, command: str, words: list[str], given: str = "", more: Sequence[str] = ()) -> Checks:
    """A command whose report is that of the model, but for a count of states. Where the model tells too many states, nothing is asked."""
    wanted = model(command, *words, *more, path, given=given)
    if re.search(r"\bR[12]\b|^more sets$", wanted.out + wanted.err, re.M):
        yield f"{command} of too many states", ""
        return
    done = px86(command, *words, path, given=given)
    out = re.sub(r"^states [1-9][0-9]*\n", "", done.out, flags=re.M)
    if command == "fences" and re.search(r"^[a-z]+ fails ", wanted.out, re.M):
        # Any of the lines may be told, and then how many steps lead there.
        line, _, rest = out.partition("\n")
        wrong = wrong_end(done, wanted.status, wanted.err) or ("" if line in wanted.out.splitlines() else f"{line!r} is none of {wanted.out!r}")
        wrong = wrong or ("" if re.fullmatch(r"steps \d+\n", rest) else f"{rest!r} behind {line!r}")
    else:
        wrong = wrong_end(done, wanted.status, wanted.err) or differs(out, wanted.out)
    yield kind or f"{command} {told_kind(wanted.out)}", wrong and f"{wrong}, of {it.text!r}, {words}, {given!r}"


def told_kind(report: str) -> str:
    """What a report of `mend` tells."""
    return "puts" if report.startswith("put ") else report.partition("\n")[0].removeprefix("mend ")


def steps_of(it: Asking, path: str) -> str:
    """The steps of a schedule of few turns, and perhaps a crash behind them."""
    steps = model("replay", "--number", str(it.number), "--length", str(it.number % 9), path).out
    return steps + "crash\n" * (it.number % 5 == 4)


HUNTS = ["all", "ends", "recovered", "cond"]


def by_schedules(px86: Px86, it: Asking, path: str) -> Checks:
    """What may be asked of the schedules of a plan, once of each."""
    plan = ["--seed", str(it.number), "--runs", "7", "--length", "16"]
    for command, names in ("hunt", HUNTS), ("tally", HUNTS[:3]):
        name = names[it.number % len(names)]
        crash = ["--crash-after", str(it.number % 6)] if name == "recovered" else []
        yield from same(px86, it, path, command, command, [f"--{name}={it.said(it.condition())}", *plan, *crash], steps_of(it, path))


def by_changes(px86: Px86, it: Asking, path: str) -> Checks:
    """Which flushes and fences are needed, and what is lacking."""
    fenced, mended = ["--states", str(MOST_STATES)], ["--states", str(MOST_STATES_TO_MEND), "--sets", str(MOST_SETS)]
    if is_append(it.number):
        condition = it.said(it.kept())
        yield from same(px86, it, path, "fences", "fences", [f"--all={condition}"], more=fenced)
        yield from same(px86, it, path, "", "mend", [f"--all={condition}"], more=mended)
    elif it.number % 3 == 0:
        yield from same(px86, it, path, "fences", "fences", [f"--all={it.said(it.condition())}"], more=fenced)
    else:
        words = ["--before-crash"] if it.number % 2 else []
        yield from same(px86, it, path, "", "mend", [f"--all={it.said(it.condition())}", *words], more=mended)


def random_conditions(px86: Px86, first: int) -> Checks:
    """Conditions of sheets of some numbers, and what comes of damage."""
    for number in range(first, first + OF_A_CASE):
        it = Asking(number)
        path = px86.keep(f"sheet-{number}.litmus", it.text)
        yield from checked(px86, it, path)
        both = [f"--all={it.said(it.condition())}", f"--some={it.said(it.condition())}"]
        yield from same(px86, it, path, "images", "images", [*both, *["--count"] * (number % 2)], steps_of(it, path))
        yield from by_schedules(px86, it, path)
        yield from by_changes(px86, it, path)
        for at in range(DAMAGES):
            yield from damaged_condition(px86, it, path, at)


# --- damage

# Each command, and each of its options that has a condition.
FAULTS = [
    *((command, name) for command in ("check", "fences", "mend", "tally") for name in ("all", "ends", "recovered")),
    *(("images", name) for name in ("all", "some")),
    *(("hunt", name) for name in ("all", "cond", "ends", "recovered")),
]


def told_of_opening(program: Program, text: str) -> tuple[int, str, str]:
    """What `images --count --all` says of a condition in the opening state, of which there is one image."""
    try:
        condition = condition_of(text, program)
    except Fault as fault:
        return fault.status, "", f"px86: {fault}\n"
    machine = Machine(program)
    if condition.holds(machine):
        return 0, "candidates 1\nall holds\n", ""
    return 1, f"candidates 1\nall fails {' '.join(map(str, machine.persisted.values()))}\n", ""


def damaged_condition(px86: Px86, it: Asking, path: str, at: int) -> Checks:
    """A condition that is damaged has its fault, by each command. If it has none, what it says of the opening state is asked."""
    [tokens] = damaged([it.condition()], random.Random(f"{it.number} {at}"))
    text = it.said(tokens)
    wanted = told_of_opening(program_of(it.text.decode()), text)
    command, option = FAULTS[(DAMAGES * it.number + at) % len(FAULTS)] if wanted[2] else ("images --count --no-steps", "all")
    wrong = wrong_run(px86(*command.split(), f"--{option}={text}", path), *wanted)
    yield wanted[2][6:8] or "damaged, and no fault", wrong and f"{wrong}, of {it.text!r}, {text!r}"


# --- what is made

FORMS = [
    r"(^| )c\d( |$)", r"(^| )q\d( |$)", r"(^| )v\d( |$)", r" -> ", r"\( .* -> .* \)", r"\[ ", r"coherent", r"persisted", r"\breg ", r"ONE", r"&",
    r"not ", r" \+ ", r" - ", r"kept", r"first", r"told",
]


def what_is_made(_: Px86) -> Checks:
    """Each form is made; and damage comes to each fault, at many tokens."""
    said, faults = [], set()
    for number in range(SHEETS):
        it = Asking(number)
        program = program_of(it.text.decode())
        said += [" ".join(it.condition()) for _ in range(4)] + [" ".join(it.kept())] * is_append(number)
        for at in range(DAMAGES):
            faults.add(told_of_opening(program, it.said(damaged([it.condition()], random.Random(f"{number} {at}"))[0]))[2])
    for pattern in FORMS:
        yield pattern, "" if any(re.search(pattern, text) for text in said) else "is nowhere"
    for fault in ("E1 BadCond", "E2 UnknownName"):
        yield from ((f"{fault} {token}", "" if f"px86: {fault} {token}\n" in faults else "is nowhere") for token in range(7))


# --- limits

TOO_LONG = "E1 BadCond"
SIZED = "".join(f"let a{at + 1} = a{at} + a{at}\n" for at in range(11))
# a11 has a size of 2,048, and is 2,048 times x; all is a condition of a size of 4,096.
NAMED = f"{PROGRAM}let a0 = persisted x\n{SIZED}let all = a11 = a11\nlet rest = {' + '.join(f'a{at}' for at in range(11, 0, -1))}\n"


def asked(name: str, text: str, condition: str, said: str) -> Row:
    """A condition of the one image of a sheet's opening state: whether it is true, or its fault."""
    command = "images", "--count", "--no-steps", f"--all={condition}"
    if said in ("holds", "fails"):
        status, out = (0, "all holds") if said == "holds" else (1, "all fails 0")
        return Row(name, text.encode(), command=command, status=status, out=f"candidates 1\n{out}\n".encode())
    return Row(name, text.encode(), command=command, status=2, err=f"px86: {said}\n".encode())


# Numbers, words, registers, `not`s and `[` of a condition, with those of what its names stand for: at most 4,096.
SIZES = [
    ("a11 = a11", "holds"),
    ("all", "holds"),
    ("( all )", "holds"),
    ("a11 < a11", "fails"),
    ("not 1 = rest", "holds"),
    ("persisted [ 1 ] = rest", "fails"),
    ("a11 = a11 + 1", f"{TOO_LONG} 4"),
    ("1 = a11 + a11", f"{TOO_LONG} 4"),
    ("1 + a11 = a11", f"{TOO_LONG} 4"),
    ("a11 + a11 = reg 0 rax", f"{TOO_LONG} 6"),
    ("a11 + a11 - persisted x = 0", f"{TOO_LONG} 5"),
    ("a11 + a11 + persisted [ &x ] = 1", f"{TOO_LONG} 5"),
    ("a11 = a11 + later", "E2 UnknownName 4"),
    ("all and 1 = 1", f"{TOO_LONG} 2"),
    ("1 = 1 -> all", f"{TOO_LONG} 4"),
    ("all or all", f"{TOO_LONG} 2"),
    ("not all", f"{TOO_LONG} 1"),
    ("( not all )", f"{TOO_LONG} 2"),
    ("not not 1 = rest", f"{TOO_LONG} 4"),
    ("persisted [ persisted [ 1 ] ] = rest", f"{TOO_LONG} 8"),
    ("a11 = persisted [ a11 ]", f"{TOO_LONG} 4"),
]


def rows_of_limits() -> Iterator[Row]:
    """A size of 4,096; and 64 brackets and `not`s that are open, of all kinds together."""
    for condition, said in SIZES:
        yield asked(f"a size of {'4,096' if said in ('holds', 'fails') else '4,097'}, by an option: {condition}", NAMED, condition, said)
    for name, opens, inner, closes in OPENED:
        right = "" if name != "pointers" else " = 1"
        deep = lambda count: f"{opens * count}{inner}{closes * count}{right}"
        yield asked(f"64 {name}, by an option", PROGRAM, deep(MOST), "fails" if name == "pointers" else "holds")
        # A pointer has two tokens.
        yield asked(f"65 {name}, by an option", PROGRAM, deep(MOST + 1), f"{TOO_LONG} {MOST * len(opens.split()) + len(opens.split()) - 1}")
    mixed = lambda count: f"{'( not ' * 20}{'( ' * 20}persisted [ {'persisted [ ' * count}&x{' ]' * (count + 1)} = 1{' )' * 40}"
    yield asked("64 of all kinds, by an option", PROGRAM, mixed(3), "fails")
    yield asked("65 of all kinds, by an option", PROGRAM, mixed(4), f"{TOO_LONG} 69")
    closed = f"not not ( 1 = 1 ) and {'( ' * MOST}persisted x = 0{' )' * MOST} and persisted [ &x ] = 0"
    yield asked("64 brackets behind others that were closed, by an option", PROGRAM, closed, "holds")
    ended = f"{'not not 1 = 1 and ' * 50}{'( ' * MOST}1 = 1{' )' * MOST}"
    yield asked("a `not` ends with its factor, by an option", PROGRAM, ended, "holds")
    # What is open in an item is not open in a condition that names it.
    nested = f"{PROGRAM}let deep = {'( ' * MOST}1 = 1{' )' * MOST}\n"
    yield asked("64 brackets in what has a name, by an option", nested, f"{'not ' * MOST}deep", "holds")


# --- examples

PLACES = {"crash": "all", "end": "ends", "recovery": "recovered"}


def first_lines(question: Question, answers: list[str], words: dict[str, int]) -> list[str]:
    """The first lines that a `check` of the condition of a question may have, where these are the answers that may be: it holds, or a run
    breaks it."""
    name = PLACES[question.place]
    return [f"{name} holds" if line == f"{question.name} holds" else f"{name} fails {values_of(line, words)}" for line in answers]


def names_of_questions(px86: Px86, path: str) -> Checks:
    """Where a question asks its condition of every state, an option that names it asks the same: a run breaks it, or none does."""
    it = Example(path)
    _, *words, litmus = it.words
    program = program_of(read(litmus))
    for question in program.questions:
        answers = [line for line in it.report.splitlines() if line.split()[0] == question.name]
        if not question.every or not answers:
            continue
        done = px86("check", *words, "--no-steps", f"--{PLACES[question.place]}", question.name, litmus, most=900)
        may_be = first_lines(question, answers, program.words)
        line = done.out.partition("\n")[0]
        wrong = wrong_end(done, int(not may_be[0].endswith(" holds")))
        yield question.name, wrong or ("" if line in may_be else f"{line!r} is none of {may_be[:4]}")


def cases() -> Iterator[Case]:
    """All cases."""
    yield from (Case(row.name, ASKS[row.asks], row) for row in rows_of_limits())
    for path in sorted(glob.glob("examples/**/*.asked", recursive=True, root_dir=TOP)):
        yield Case(f"names of questions: {path}", names_of_questions, path)
    for first in range(0, SHEETS, OF_A_CASE):
        yield Case(f"conditions of sheets {first} to {first + OF_A_CASE - 1}", random_conditions, first)
    yield Case("conditions that are made", what_is_made)
