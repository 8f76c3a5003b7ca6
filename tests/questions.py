"""Asks the questions of sheets: random ones of small random programs, and those of examples; and what is left of random ones where
tokens are dropped, doubled, replaced or exchanged. The conditions of options that are asked of sheets stand in tests/sheet_conditions.py,
and the questions of several files at once in tests/several_files.py.

What may be answered, and each fault, the second model tells (model/questions.py), which reads questions by docs/FORMATS.md alone, and
makes every list of steps. Where an answer has a run, its steps lead the model to the values that are told. In tests/cases/questions.lines
and questions.rows stands what was worked out by hand; here are the limits.

Beside NAME.litmus in examples/ stands

  NAME.asked   a command that asks its questions, and its report. Of a question that fails, or is found, there is a line for each state that may
               be told: the program has one of them
"""

from __future__ import annotations

import glob
import random
import re
from collections.abc import Iterator, Sequence
from typing import Any

from model.programs import small_lines
from model.questions import COMPARISONS
from model.rules import FIRST_ADDRESS, REGISTERS
from model.sheets import program_of
from model.texts import Program
from tests.examples import Example
from tests.harness import TOP, Case, Checks, Px86, model, read, read_bytes, unlike, wrong_end, wrong_run
from tests.json_reports import asked as reported_as_json
from tests.sheets import told
from tests.texts import ASKS, Row

NEEDS_PROGRAM = True
# How many random sheets there are, how many a case has, how often each is damaged; and how many states the model tells apart at most.
SHEETS, OF_A_CASE, DAMAGES, MOST_STATES = 144, 12, 8, 700
AT_LEAST = {
    "": 5790,
    "sheets *: fails": 250,
    "sheets *: found": 110,
    "sheets *: holds": 200,
    "sheets *: none": 60,
    "sheets *: asked of no state": 60,
    "sheets *: not asked": 50,
    "sheets *: as JSON": 105,
    "sheets *: damaged": 1152,
    "examples/*: by the model": 49,
    "what is made": 38,
    "conditions of sheets *: check holds": 50,
    "conditions of sheets *: check fails": 60,
    "conditions of sheets *: check asked of no state": 2,
    "conditions of sheets *: check as JSON": 110,
    "conditions of sheets *: images": 144,
    "conditions of sheets *: hunt": 144,
    "conditions of sheets *: tally": 144,
    "conditions of sheets *: fences": 58,
    "conditions of sheets *: mend none": 45,
    "conditions of sheets *: mend puts": 10,
    "conditions of sheets *: E1": 1200,
    "conditions of sheets *: E2": 130,
    "conditions of sheets *: damaged, and no fault": 85,
    "names of questions: *": 118,
    "conditions that are made": 31,
    "files *: N hold": 58,
    "files *: a bad answer": 95,
    "files *: nothing asked": 33,
    "files *: a fault": 120,
    "files *: an object": 48,
    "files *: all of them": 84,
    "files *: by the model": 10,
}

Lines = list[list[str]]


# --- random questions


class Maker:
    """Makes the questions of one program, by choices of a generator of numbers."""

    def __init__(self, number: int, program: Program) -> None:
        self.chance = random.Random(number)
        self.words, self.processors = [*program.words], len(program.processors)
        self.conditions: list[str] = []
        self.values: list[str] = []
        # Values that take something away.
        self.takers: set[str] = set()

    def pick(self, things: Sequence[Any]) -> Any:
        return self.chance.choice(things)

    def made(self, count: int) -> Lines:
        """Items of which so many are questions, each as its tokens."""
        items: Lines = []
        for at in range(count):
            if self.chance.randrange(3) == 0:
                items.append(self.named_value(f"v{at}") if self.chance.randrange(2) else self.named_condition(f"c{at}"))
            items.append(self.question(f"q{at}"))
        return items

    def named_value(self, name: str) -> list[str]:
        # The name of a word may be that of a value too.
        name = self.pick([name, *(it for it in self.words if it not in self.values + self.conditions)])
        value = self.value(3)
        self.values.append(name)
        if "-" in value or self.takers & {*value}:
            self.takers.add(name)
        return ["let", name, "=", *value]

    def named_condition(self, name: str) -> list[str]:
        condition = self.condition(3)
        self.conditions.append(name)
        return ["let", name, "=", *condition]

    def question(self, name: str) -> list[str]:
        condition = self.condition(3)
        self.conditions.append(name)
        return [self.pick(["every", "every", "every", "some"]), self.pick(["crash", "crash", "end", "recovery"]), name, ":", *condition]

    def condition(self, deep: int) -> list[str]:
        side = self.side(deep)
        return [*side, "->", *self.side(deep)] if self.chance.randrange(3) == 0 else side

    def side(self, deep: int) -> list[str]:
        tokens = self.factor(deep)
        for _ in range(self.pick([0, 0, 0, 1, 1, 2])):
            tokens += [self.pick(["and", "or", "or"]), *self.factor(deep)]
        return tokens

    def factor(self, deep: int) -> list[str]:
        how = self.chance.randrange(10) if deep else 9
        if how == 0:
            return ["not", *self.factor(deep - 1)]
        if how == 1:
            return ["(", *self.condition(deep - 1), ")"]
        if how == 2 and self.conditions:
            return [self.pick(self.conditions)]
        if how < 7:
            # A value that a word or a register may well have.
            return [*self.read_part(deep), self.pick([*COMPARISONS]), self.pick(["0", "1", "1", "2", "-1"])]
        return [*self.value(2), self.pick([*COMPARISONS]), *self.value(2)]

    def value(self, most: int, deep: int = 2, is_address: bool = False) -> list[str]:
        tokens = self.part(deep, is_address)
        for _ in range(self.chance.randrange(most)):
            tokens += ["+" if is_address else self.pick("+-"), *self.part(deep, is_address)]
        return tokens

    def part(self, deep: int, is_address: bool) -> list[str]:
        names = [it for it in self.values if not (is_address and it in self.takers)]
        numbers = [f"&{self.pick(self.words)}"] * (5 if is_address else 1) + ["8"]
        numbers += [] if is_address else ["0", "1", "1", "2", "0x3", "-1", "ONE"]
        return self.pick([[self.pick(numbers)], [self.pick(names)] if names else ["8"], self.read_part(deep), self.read_part(deep)])

    def read_part(self, deep: int) -> list[str]:
        """What is read of a state: of a word, or of that to which a value leads, or a register."""
        how = self.chance.randrange(8)
        if how == 0 and deep:
            return [self.pick(["persisted", "coherent"]), "[", *self.value(2, deep - 1, True), "]"]
        if how == 1 and self.processors:
            return ["reg", str(self.chance.randrange(self.processors)), self.pick([*REGISTERS[:2], "rsi", "r9"])]
        return [self.pick(["persisted", "persisted", "coherent"]), self.pick(self.words)]


def sheet_of(number: int) -> list[str]:
    """The lines of a small random program, as a sheet."""
    first, *lines = small_lines(number)
    return ["sheet 1", "const ONE 1", *lines]


def text_of(program: Sequence[str], items: Lines, chance: random.Random) -> bytes:
    """The text of a sheet and its questions, which stand on one line or on several."""
    rows = []
    for tokens in items:
        ends = [chance.choice(["\n", " # more\n"]) if chance.randrange(12) == 0 else " " for _ in tokens]
        # A line that began with one of these would be the next item.
        rows.append("".join(f"{it}{' ' if then in ('let', 'every', 'some') else end}" for it, end, then in zip(tokens, ends, [*tokens[1:], ""])))
    return "".join(f"{line}\n" for line in [*program, *rows]).encode()


# --- what is answered


def is_answered(report: list[str], may_be: list[str]) -> str:
    """What is wrong with the lines of a report: of each question one of the lines that may be, in their order."""
    names = [*dict.fromkeys(line.split()[0] for line in may_be)]
    if [line.split()[0] for line in report] != names:
        return f"{report} in place of one each of {names}"
    return "; ".join(f"{line!r} is none of {[it for it in may_be if it.split()[0] == line.split()[0]][:4]}" for line in report if line not in may_be)


def kind_of(line: str) -> str:
    """What a line answers, without values."""
    return re.sub(r"^(fails|found) .*", r"\1", line.partition(" ")[2])


def values_of(line: str, words: dict[str, int]) -> str:
    """The values that a line tells, as `--set` has them."""
    told = [it.partition("=")[2] for it in line.split()[2:]]
    return " ".join(str(FIRST_ADDRESS + 8 * words[it[1:]]) if it.startswith("&") else it for it in told)


def wrong_run_shown(px86: Px86, path: str, words: list[str], given: str, line: str, is_crash: bool) -> str:
    """What is wrong with the run that an answer has: its steps lead to the state that is told, and it is explained as the model does."""
    name = line.split()[0]
    more = [*(["--steps", px86.keep("given", given)] if given else []), *words, "--only", name, path]
    shown = px86("check", "--show", *more).out.splitlines(keepends=True)
    if shown[:1] != [f"{line}\n"] or shown[1:2] != [f"steps {len(shown) - 2}\n"]:
        return f"with --show {shown[:3]}"
    steps = "".join(shown[2:])
    if wrong := wrong_run(model("answer", "--only", name, path, given=given + steps), 0, f"{line}\n"):
        return f"in the state that is shown: {wrong}"
    if given:
        return ""
    counted = px86("check", "--explain-image", *more).out
    explained = px86("check", "--show", "--explain-image", *more).out
    if not explained.startswith("".join(shown)) or counted != explained.replace(steps, "", 1):
        return "with --explain-image another report"
    because = px86.keep("because", explained.removeprefix("".join(shown)))
    image = ["--image", values_of(line, program_of(read(path)).words)] if is_crash else []
    told_so = model("explain", "--report", because, "--only", name, *image, path, given=steps)
    return told_so.out or wrong_end(told_so, 0)


def answered(px86: Px86, path: str, words: list[str], given: str, asked: Sequence[Any]) -> Checks:
    """A call, and the runs that it shows."""
    wanted = model("check", *words, "--states", str(MOST_STATES), path, given=given)
    if wanted.status == 5 and "R1" in wanted.err:
        yield "too many states", ""
        return
    steps = ["--steps", px86.keep("given", given)] if given else []
    done = px86("check", *words, *steps, path, given="no step is read here")
    lines = done.out.splitlines()
    wrong = wrong_end(done, wanted.status, wanted.err) or is_answered(lines, wanted.out.splitlines())
    yield "the whole report", wrong and f"{wrong}, of {read(path)!r}, {words}, {given!r}"
    if wrong:
        return
    yield "as JSON", wrong_json(px86, ["check", *words, *steps, "--show", "--explain-image"], read_bytes(path), given)
    places = {it.name: it.place for it in asked}
    for line in lines:
        kind = kind_of(line)
        wrong = wrong_run_shown(px86, path, words, given, line, places[line.split()[0]] == "crash") if kind in ("fails", "found") else ""
        yield kind, wrong and f"{wrong}, of {read(path)!r}, {words}, {given!r}"


def wrong_json(px86: Px86, words: list[str], text: bytes, steps: str) -> str:
    """What is wrong with the report as JSON: the text is made of it again."""
    return "; ".join(wrong for _, wrong in reported_as_json(px86, words, text, steps.encode()) if wrong)


def random_sheets(px86: Px86, first: int) -> Checks:
    """Sheets of some numbers: their answers, and what comes of damage."""
    for number in range(first, first + OF_A_CASE):
        chance = random.Random(number)
        lines = sheet_of(number)
        program = program_of("".join(f"{line}\n" for line in lines))
        items = Maker(number, program).made(8)
        data = text_of(lines, items, chance)
        path = px86.keep(f"sheet-{number}.litmus", data)
        yield "no fault", wrong_run(px86("dis", path), *told(data)) or unlike(told(data)[0], 0)
        words = ["--before-crash"] if number % 4 == 1 else []
        given = ""
        if number % 4 == 2:
            given = px86("replay", "--number", str(number), "--length", str(2 + number % 7), "--no-steps", path).out
            given += "crash\n" * (number % 8 == 2)
        yield from answered(px86, path, words, given, program_of(data.decode()).questions)
        for at in range(DAMAGES):
            broken = text_of(lines, damaged(items, random.Random(DAMAGES * number + at)), chance)
            status, out, said = told(broken)
            wrong = wrong_run(px86("dis", px86.keep("damaged.litmus", broken)), status, out, said)
            yield "damaged" if status else "damaged, and no fault", wrong and f"{wrong}, of {broken!r}"


# --- damage

# What a token may become.
SPOILED = (
    "0 1x -1 ( ) [ ] : , + - -> = <= == & &a &later ONE LATER a x later rax r10 crash every let some $ q0 v0 c0 not and or persisted "
    "coherent reg trapped 15 16 _ a-b"
).split()


def damaged(items: Lines, chance: random.Random) -> Lines:
    """The items with one token less, one there twice, one that is another, or two exchanged; in one place, or in two. Where nothing is left
    of an item its line is empty."""
    changed = [[*item] for item in items]
    for _ in range(chance.choice([1, 1, 1, 2])):
        item = chance.choice([it for it in changed if it])
        place = chance.randrange(len(item))
        # The heads are short, and so they are mostly chosen by themselves.
        place = chance.randrange(min(4, len(item))) if chance.randrange(3) == 0 else place
        how = chance.randrange(4)
        if how == 0:
            del item[place]
        elif how == 1:
            item.insert(place, item[place])
        elif how == 2:
            item[place] = chance.choice(SPOILED)
        else:
            other = chance.choice([it for it in changed if it])
            at = chance.randrange(len(other))
            item[place], other[at] = other[at], item[place]
    return changed


def what_is_made(_: Px86) -> Checks:
    """Each form is made; and damage comes to each fault that it may come to."""
    tokens, faults = [], set()
    for number in range(SHEETS):
        lines = sheet_of(number)
        items = Maker(number, program_of("".join(f"{line}\n" for line in lines))).made(8)
        tokens += [" ".join(item) for item in items]
        broken = (text_of(lines, damaged(items, random.Random(DAMAGES * number + at)), random.Random(number)) for at in range(DAMAGES))
        faults |= {told(it)[2].split()[1] for it in broken if told(it)[0]}
    for pattern in FORMS:
        yield pattern, "" if any(re.search(pattern, line) for line in tokens) else "is nowhere"
    yield "faults", unlike({"X1", "X2", "X3", "X10", "X11"} - faults, set())


FORMS = [
    *(rf" {re.escape(it)} " for it in [*COMPARISONS, "+", "-", "->", "and", "or", "not", "(", ")", "[", "]", "reg"]),
    *(rf"^{kind} {place} " for kind in ("every", "some") for place in ("crash", "end", "recovery")),
    r"^let [a-z0-9]+ = (?!.*[<=>])", r"^let [a-z0-9]+ = .*[<=>]", r"persisted \[ .*persisted \[", r"coherent \[", r"\[ [^]]*\+ ", r"- v[0-9]",
    r"\[ v[0-9]", r"[:(] c[0-9]", r"[:(] q[0-9]", r"\( .* -> .* \)", r"&", r"ONE", r"not not", r"not \(",
]

# --- limits

PROGRAM = "sheet 1\nline x\ncpu\nmov [x], 1\nend\n"
MOST, TOO_LONG, WRONG = 64, "X5 TooLong", "X11 BadCond"


def fault(name: str, text: str, said: str, *command: str) -> Row:
    status = 5 if said[:2] in ("R1", "R2", "I1") else 2
    return Row(name, text.encode(), command=command or ("check",), status=status, err=f"px86: {said}\n".encode())


def report(name: str, text: str, out: str, status: int, *command: str) -> Row:
    return Row(name, text.encode(), command=command or ("check",), status=status, out=out.encode())


def rows_of_counts() -> Iterator[Row]:
    """64 questions, and names that are none; 4,096 numbers, words, registers, `not`s and `[`."""
    many = "".join(f"every crash q{at}: persisted x <= 1\n" for at in range(MOST))
    yield report("64 questions", PROGRAM + many, "".join(f"q{at} holds\n" for at in range(MOST)), 0)
    lets = "".join(f"let c{at} = persisted x = {at}\n" for at in range(100))
    yield report("64 questions, and a hundred names", PROGRAM + lets + many, "".join(f"q{at} holds\n" for at in range(MOST)), 0)
    for more in ("some end more: 1 = 1", "every", "some foo", "every crash 1: later", "every crash q0: 1 = 1"):
        yield fault(f"a 65th question: {more}", f"{PROGRAM}{many}\n{more}\n", f"{TOO_LONG} line {7 + MOST}")
    yield fault("a 65th question behind a fault", f"{PROGRAM}{many}let a\nsome end more: 1 = 1\n", f"X1 BadWord line {6 + MOST}")
    doubled = "".join(f"let a{at + 1} = a{at} + a{at}\n" for at in range(11))
    names = f"{PROGRAM}let a0 = persisted x\n{doubled}"
    yield report("a size of 4,096", f"{names}every end all: a11 =\na11\n", "all holds\n", 0)
    yield report("a size of 4,096 in a condition's name", f"{names}let c = a11 = a11\nevery end all: c\n", "all holds\n", 0)
    yield report("a size of 4,096 of two items each", f"{names}let c = a11 = a11\nlet d = a11 != a11\nevery end all: c\nsome end n: d\n", "all holds\nn none\n", 1)
    for more in ("a11 = a11 + 1", "1 = a11 + a11", "1 + a11 =\na11", "a11 + a11 = reg 0 rax", "a11 + a11 -\npersisted x = 0", "a11 + a11 + persisted [1] = 0"):
        yield fault(f"a size of 4,097: {more}", f"{names}every end all: {more}\n", f"{TOO_LONG} line 18")
    yield fault("a size of 4,097, and a name of nothing", f"{names}every end all: a11 = a11 + later\n", "X2 UnknownName line 18")
    yield fault("a size of 4,097 in a condition's name", f"{names}let c = a11 = a11\nevery end all: c and\n\n1 = 1\n", f"{TOO_LONG} line 19")
    yield fault("a size of 4,097 in a value's name", f"{names}let v = a11 + a11 +\n\n1\n", f"{TOO_LONG} line 18")
    rest = " + ".join(f"a{at}" for at in range(11, 0, -1))  # of 4,094 numbers
    yield report("a size of 4,096 with a `not`", f"{names}every end all: not 1 = {rest}\n", "all holds\n", 0)
    yield report("a size of 4,096 with a `[`", f"{names}some end n: persisted [ 1 ] = {rest}\n", "n none\n", 1)
    for more in (f"not not 1 = {rest}", f"persisted [ persisted [ 1 ] ] = {rest}"):
        yield fault(f"a size of 4,097: {more.split(' a')[0]}", f"{names}every end all: {more}\n", f"{TOO_LONG} line 18")
    nots = "".join(f"let n{at + 1} = n{at} and n{at}\n" for at in range(10))  # n10 has a size of 3,072, of which 1,024 are `not`s
    yield fault("a size of 4,608 by `not`s of names", f"{PROGRAM}let n0 = not 1 = 2\n{nots}every end all: n10 and n9\n", f"{TOO_LONG} line 17")


OPENED = [("brackets", "( ", "1 = 1", " )"), ("nots", "not ", "1 = 1", ""), ("pointers", "persisted [ ", "1", " ]")]


def rows_of_brackets() -> Iterator[Row]:
    """64 brackets and `not`s that are open, of all kinds together."""
    for name, opens, inner, closes in OPENED:
        right = "" if name != "pointers" else " = 1"
        deep = lambda count: f"{PROGRAM}every end deep:\n{opens * count}\n{inner}{closes * count}{right}\n"
        status, out = (0, "deep holds\n") if name != "pointers" else (1, "deep fails x=1\n")
        yield report(f"64 {name}", deep(MOST), out, status)
        yield fault(f"65 {name}", deep(MOST + 1), f"{WRONG} line 7")
    mixed = lambda count: f"{PROGRAM}every end deep: {'( not ' * 20}{'( ' * 20}persisted [\n{'persisted [ ' * count}&x{' ]' * (count + 1)} = 1{' )' * 40}\n"
    yield report("64 of all kinds", mixed(3), "deep fails x=1\n", 1)
    yield fault("65 of all kinds", mixed(4), f"{WRONG} line 7")
    closed = f"{PROGRAM}every end deep: not not ( 1 = 1 ) and {'( ' * MOST}persisted x = 1{' )' * MOST} and persisted [ &x ] = 1\n"
    yield report("64 brackets behind others that were closed", closed, "deep holds\n", 0)
    yield report("a `not` ends with its factor", f"{PROGRAM}every end deep: {'not not 1 = 1 and ' * 50}{'( ' * MOST}1 = 1{' )' * MOST}\n", "deep holds\n", 0)


def rows_of_runs() -> Iterator[Row]:
    """What an exploration cannot tell. The first question that it is of decides."""
    lines = "".join(f"line x{at}\n" for at in range(17))
    wide = f"sheet 1\n{lines}cpu\n" + "".join(f"mov [x{at}], 1\n" for at in range(17)) + "end\n"
    asked = "every crash all: " + " and ".join(f"persisted x{at} <= 1" for at in range(17)) + "\n"
    yield fault("too many candidates", wide + asked, "I1 TooMany", "check", "--before-crash")
    ones = "".join(f" x{at}=1" for at in range(17))
    yield report("an end looks at no image", f"{wide}some end all: persisted x0 = 1\n", f"all found{ones}\n", 0, "check", "--before-crash")
    yield report("one line of 17", f"{wide}every crash all: persisted x0 <= 1\n", "all holds\n", 0, "check", "--before-crash")
    yield report("only the other question", f"{wide}{asked}some end one: persisted x0 = 1\n", f"one found{ones}\n", 0, "check", "--before-crash", "--only", "one")
    filled = "sheet 1\nline x\ncpu\n" + "mov [x], 1\n" * 257 + "end\ncpu\nnop\nend\n"
    yield fault("no room", f"{filled}every end all: persisted x = 1\n", "R2 NoRoom", "check", "--before-crash")
    both = f"{PROGRAM}every crash all: persisted x <= 1\nevery end too: persisted x = 1\n"
    yield fault("a state too many", both, "R1 TooManyStates", "check", "--states", "1")


LIMITS = rows_of_counts, rows_of_brackets, rows_of_runs


def of_an_object(px86: Px86) -> Checks:
    """An object asks nothing, also where it was made of a sheet with questions."""
    path = px86.keep("sheet.litmus", f"{PROGRAM}every crash all: persisted x <= 1\n")
    code = px86("asm", path)
    yield "its object", wrong_end(code, 0) or unlike(code.written == px86("asm", px86.keep("bare.litmus", PROGRAM)).written, True)
    yield "asked", wrong_run(px86("check", px86.keep("object", code.written)), 1, "nothing asked\n")


def says_once(px86: Px86) -> Checks:
    """Where there are too many states, it is said once how many were found, also if questions were asked together before."""
    text = f"{PROGRAM}every crash one: persisted x <= 1\nevery crash two: persisted x <= 2\nevery recovery three: persisted x <= 3\n"
    done = px86("check", "--states", "1", px86.keep("three.litmus", text))
    found = re.findall(r"^px86: [1-9]\d* states were found and .*\n", done.err, re.M)
    yield "", unlike((done.status, done.out, done.err), (5, "", "".join(found) + "px86: R1 TooManyStates\n"))
    yield "how often", unlike(len(found), 1)


# --- examples


def example(px86: Px86, path: str) -> Checks:
    it = Example(path)
    *words, litmus = it.words[1:]
    text = read(litmus)
    wanted = it.report.splitlines()
    asked = program_of(text).questions
    done = px86("check", *words, litmus, most=900)
    lines = done.out.splitlines()
    bad = any(kind_of(line) not in ("holds", "found", "not asked") for line in wanted)
    yield "", wrong_end(done, int(bad)) or is_answered(lines, wanted)
    yield "by the model", wrong_run(model("check", *words, litmus), int(bad), it.report)
    yield "the text", unlike(re.findall(r": (right|broken)\.$", text.partition("\n")[0]), [("right", "broken")[bad]])
    places = {one.name: one.place for one in asked}
    for line in lines:
        if kind_of(line) in ("fails", "found"):
            yield f"{kind_of(line)}, its run", wrong_run_shown(px86, litmus, words, "", line, places[line.split()[0]] == "crash")


def cases() -> Iterator[Case]:
    """All cases."""
    from tests.several_files import cases as of_files
    from tests.sheet_conditions import cases as of_options

    for path in sorted(glob.glob("examples/**/*.asked", recursive=True, root_dir=TOP)):
        yield Case(path, example, path)
    for rows in LIMITS:
        yield from (Case(row.name, ASKS[row.asks], row) for row in rows())
    yield from of_options()
    yield from of_files()
    yield Case("an object", of_an_object)
    yield Case("too many states, of several questions", says_once)
    for first in range(0, SHEETS, OF_A_CASE):
        yield Case(f"sheets {first} to {first + OF_A_CASE - 1}", random_sheets, first)
    yield Case("what is made", what_is_made)
