"""Asks what sheets say: random ones, made of every abbreviation, and what is left of them where tokens are dropped, doubled,
replaced or exchanged; and the texts of examples/, as sheets.

Of each the second model (model/sheets.py), which reads sheets by docs/FORMATS.md alone, tells the written form or the fault. A sheet and
its written form have the same object and the same reports, but for the lines on which instructions stand: those of a sheet the
model tells too. In tests/cases/sheets.lines and sheets.rows stands what was worked out by hand.
"""

from __future__ import annotations

import glob
import json
import os
import random
import re
from collections.abc import Iterator, Sequence
from typing import Any

from model.reading import Fault
from model.sheets import litmus_of, program_of
from tests.examples import Example
from tests.harness import TOP, Case, Checks, Px86, differs, read, unlike, wrong_end, wrong_run

NEEDS_PROGRAM = True
# How many random sheets there are, how many a case has, and how often each is damaged.
SHEETS, OF_A_CASE, DAMAGES = 240, 12, 3
AT_LEAST = {
    "": 1310,
    "sheets *: object": 240,
    "sheets *: damaged": 720,
    "sheets *: reports": 60,
    "examples/*: its object": 150,
    "examples/*: its check": 121,
    "what is made": 23,
}

Lines = list[list[str]]


# --- random sheets


class Maker:
    """Makes the lines of one sheet. Each is made of choices of a generator of numbers, and most have no fault."""

    def __init__(self, number: int) -> None:
        self.chance = random.Random(number)
        self.lines: Lines = [["sheet", "1"]]
        self.constants: list[str] = []
        # The words of each cache line.
        self.words: list[list[str]] = []
        # Words with the number of a copy: what stands before and behind it, and how many copies there are.
        self.families: list[tuple[str, str, int]] = []
        # How many processors each `cpu` has: as many copies, or none, which is one.
        self.blocks = self.chance.choices([None, 1, 2, 3], k=self.chance.choice([1, 1, 2, 3]))

    def pick(self, things: Sequence[Any]) -> Any:
        return self.chance.choice(things)

    def some(self, most: int) -> range:
        return range(1 + self.chance.randrange(most))

    def made(self) -> Lines:
        for p in range(sum(count or 1 for count in self.blocks)):
            self.constant(f"V{p}")
        for number in sorted({count for count in self.blocks if count}):
            self.small_constant(f"CPUS_{number}", number)
        self.cache_line("a")
        for letter in "bcde"[: self.chance.randrange(5)]:
            self.cache_line(letter)
            self.pick([self.constant, self.values, lambda: None])()
        first = 0
        for count in self.blocks:
            self.processors(first, count)
            first += count or 1
        return self.lines

    def number(self) -> str:
        """A number of any size."""
        names = [f"&{name}" for line in self.words for name in line]
        return self.pick(["0", "7", "0x1f", "-1", "18446744073709551615", *self.constants, *names[-2:]])

    def constant(self, name: str = "") -> None:
        name = name or f"K_{len(self.constants)}"
        self.lines.append(["const", name, self.number()])
        self.constants.append(name)

    def small_constant(self, name: str, number: int) -> str:
        self.lines.append(["const", name, self.spelled(number)])
        self.constants.append(name)
        return name

    def spelled(self, number: int) -> str:
        return self.pick([str(number), f"0{number}", hex(number)])

    def count(self, number: int) -> str:
        """A small number, as one, or as a new constant of this value."""
        return self.spelled(number) if self.chance.randrange(3) else self.small_constant(f"N{len(self.constants)}", number)

    def cache_line(self, letter: str) -> None:
        """`line`, perhaps so many, of words whose names begin with this letter."""
        copies = self.pick([None, None, 1, 2, 3, 4])
        tokens, names = [], []
        for last in "xyz"[: len(self.some(3))]:
            name = f"{letter}_{last}" if copies is None else f"{letter}${self.pick(['_', '_$', '_$_'])}{last}"
            many = self.pick([None, None, 1, 2])
            tokens += [name] if many is None else [name, "[", self.count(many), "]"]
            names += [name] if many is None else [f"{name}{it}" for it in range(many)]
        times = [] if copies is None else ["*", self.count(copies)]
        self.lines.append(["line", *times, *tokens])
        self.words += [[name.replace("$", str(it)) for name in names] for it in range(copies or 1)]
        if copies is not None:
            self.families += [(*name.split("$", 1), copies) for name in names]

    def values(self) -> None:
        """`init` of some words of a line, which is mostly the last one."""
        line = self.pick([self.words[-1], self.pick(self.words)])
        place = self.chance.randrange(len(line))
        count = self.pick([1, len(line) - place])
        self.lines.append(["init", line[place], *(self.number() for _ in range(count))])

    def processors(self, first: int, count: int | None) -> None:
        """`cpu`, perhaps so many, with its lines."""
        self.lines.append(["cpu"] if count is None else ["cpu", "*", self.pick([self.spelled(count), f"CPUS_{count}"])])
        self.program(first, count, 6)
        recover = self.pick([[], ["recover"], ["recover", str(first + self.chance.randrange(count or 1))]])
        if recover:
            self.lines.append(recover)
            self.program(first, count, 3)
        self.lines.append(["end"])

    def program(self, first: int, count: int | None, most: int) -> None:
        """The lines of a main or a recovery program. Most jumps lead forward."""
        label, length = "l$_" if count is not None and self.chance.randrange(2) else "l", len(self.some(most))
        numbered = [f"{a}${b}" for a, b, copies in self.families if count is not None and first + count <= copies]
        words = [name for line in self.words for name in line]
        parts = {
            "R": lambda _: self.pick("rax rcx rdx rbx rsi rdi r8 r9".split()),
            "W": lambda _: self.pick([*numbered, *numbered, *words, "rsi"]),
            "A": lambda _: f"&{self.pick([*numbered, *words])}",
            "N": lambda _: self.pick(["0", "1", "-1", *([] if count is None else ["$", "1$", "V$"])]),
            "F": lambda place: f"{label}{place + 1 + self.chance.randrange(length - place)}",
            "L": lambda _: f"{label}{self.chance.randrange(length + 1)}",
        }
        for place in range(length):
            self.lines.append([f"{label}{place}", ":"])
            self.lines.append([parts[it](place) if it in parts else it for it in self.pick(SHAPES)])
        self.lines.append([f"{label}{length}", ":"])


INSTRUCTIONS = """mov R , N; mov rsi , A; mov R , A; mov R , R; mov R , [ W ]; mov R , [ W ]; mov [ W ] , R; mov [ W ] , N; mov [ W ] , N
mov [ W ] , A; add R , N; add R , A; cmp R , N; xchg [ W ] , R; lock xadd [ W ] , R; lock cmpxchg [ W ] , R; mfence; sfence; clflush [ W ]
clflushopt [ W ]; clwb [ W ]; jz F; jnz F; jmp F; jnz L; nop"""
SHAPES = [line.split() for line in re.split(r"; |\n", INSTRUCTIONS)]


def text_of(lines: Lines) -> bytes:
    """The text of lines of tokens, each of which is one at least."""
    return "".join(f"{' '.join(line)}\n" for line in lines if line).encode()


# --- damage


# What a token may become.
SPOILED = "0 65 17 18446744073709551616 1z x rsi K LATER &later $ * [ ] , :".split()


def damaged(lines: Lines, chance: random.Random) -> Lines:
    """The lines with one token less, one there twice, one that is another, or two exchanged; in one place, or in two."""
    changed = [[*line] for line in lines]
    for _ in range(chance.choice([1, 1, 1, 2])):
        line = chance.choice([it for it in changed if it])
        place = chance.randrange(len(line))
        chance.choice([drop, double, spoil, exchange])(line, place, chance.choice([line, chance.choice(changed)]), chance)
    return changed


def drop(line: list[str], place: int, *_: object) -> None:
    del line[place]


def double(line: list[str], place: int, *_: object) -> None:
    line.insert(place, line[place])


def spoil(line: list[str], place: int, _: object, chance: random.Random) -> None:
    line[place] = chance.choice(SPOILED)


def exchange(line: list[str], place: int, other: list[str], chance: random.Random) -> None:
    """Exchanges a token with one of the same or of another line."""
    if other:
        at = chance.randrange(len(other))
        line[place], other[at] = other[at], line[place]


# --- what is asked of them


def told(data: bytes) -> tuple[int, str, str]:
    """What `dis` answers, by the model: its status, and what it writes on standard output and on standard error."""
    try:
        return 0, litmus_of(data).written().decode(), ""
    except Fault as fault:
        return 2, "", f"px86: {fault}\n"


def same_object(px86: Px86, data: bytes) -> str:
    """What is wrong with the written form of a sheet, or with its object, which is that of this form; or with its fault."""
    status, out, said = told(data)
    sheet = px86.keep("sheet", data)
    wrong = wrong_run(px86("dis", sheet), status, out, said)
    if wrong or status:
        return wrong and f"{wrong}, of {data!r}"
    objects = px86("asm", sheet), px86("asm", px86.keep("written", out))
    return wrong_end(objects[0], 0) or unlike(objects[0].written == objects[1].written, True)


def without_lines(report: Any) -> Any:
    """A report of JSON without the lines on which instructions stand."""
    if isinstance(report, dict):
        return {name: without_lines(it) for name, it in report.items() if name not in ("line", "lines", "states")}
    return [without_lines(it) for it in report] if isinstance(report, list) else report


def sites_in(report: Any) -> Iterator[dict[str, Any]]:
    """What has the processor, the program, the place and the line of an instruction, in a report of JSON."""
    if isinstance(report, dict):
        if {"cpu", "program", "place", "line"} <= report.keys():
            yield report
        report = list(report.values())
    for it in report if isinstance(report, list) else []:
        yield from sites_in(it)


def wrong_lines(report: Any, lines: list[dict[str, list[int]]]) -> str:
    """What is wrong with the lines of a report: those of the model are told."""
    for it in sites_in(report):
        own = lines[it["cpu"]][it["program"]]
        wanted = own[it["place"]] if it["place"] < len(own) else None
        if it["line"] != wanted:
            return f"line {it['line']}, not {wanted}, of {it['program']} {it['place']} of processor {it['cpu']}"
    return ""


ASKED = [
    ["run", "--json"],
    ["trace", "--json", "--states"],
    ["next", "--json"],
    ["images", "--json"],
    ["outcomes", "--states", "3000"],
    ["check", "--json", "--before-crash", "--images", "--states", "3000"],
]


def same_reports(px86: Px86, data: bytes, written: str, number: int) -> Checks:
    """A sheet and its written form behind the steps of a schedule."""
    sheet, text = px86.keep("sheet", data), px86.keep("written", written)
    lines = program_of(data.decode()).told_lines or []
    steps = px86("replay", "--number", str(number), "--length", str(4 + number % 9), text, given="").written
    for words in ASKED:
        one, other = px86(*words, sheet, given=steps), px86(*words, text, given=steps)
        wrong = unlike((one.status, plain_faults(one.err)), (other.status, plain_faults(other.err)))
        if "--json" in words and one.written:
            found, wanted = json.loads(one.written), json.loads(other.written)
            wrong = wrong or unlike(without_lines(found), without_lines(wanted)) or wrong_lines(found, lines)
        yield f"reports of {words[0]}", wrong or ("" if "--json" in words else differs(one.out, other.out))


def plain_faults(said: str) -> list[str]:
    """The faults, without the lines that say how far an exploration came."""
    return [re.sub(r'"line":[0-9]+', "", line) for line in said.splitlines() if " states were found " not in line]


def random_sheets(px86: Px86, first: int) -> Checks:
    """Sheets of some numbers: their objects, what comes of damage, and of some their reports."""
    for number in range(first, first + OF_A_CASE):
        lines = Maker(number).made()
        data = text_of(lines)
        status, written, _ = told(data)
        yield "object" if not status else "fault", same_object(px86, data)
        if not status and number % 24 == 0:
            yield from same_reports(px86, data, written, number)
        for at in range(DAMAGES):
            broken = text_of(damaged(lines, random.Random(DAMAGES * number + at)))
            yield "damaged", same_object(px86, broken)


# What is made somewhere in the random sheets, as a pattern of a line.
ABBREVIATIONS = [
    r"const [A-Z0-9_]+ &", r"const [A-Z0-9_]+ [A-Z]", r"line \* [0-9]", r"line \* N", r"line .*\[ [0-9]", r"line .*\[ N", r"line \* .*\$.*\$",
    r"init [a-z0-9_]+( [^ ]+){2}", r"init .*&", r"init .* [A-Z]", r"cpu$", r"cpu \* [0-9]", r"cpu \* C", r"recover$", r"recover [1-9]",
    r"l\$_[0-9] :", r"mov .* V\$$", r"mov .* &[a-z]+\$", r"mov .* 1\$$", r"(add|mov \[) .*&", r"mov \[ [a-z]\$", r"j.* l\$_",
]


def what_is_made(_: Px86) -> Checks:
    """Each abbreviation is made; and damage comes to each fault that it may come to."""
    sheets = [Maker(number).made() for number in range(SHEETS)]
    lines = [" ".join(line) for sheet in sheets for line in sheet]
    for pattern in ABBREVIATIONS:
        yield pattern, "" if any(re.match(pattern, line) for line in lines) else "is nowhere"
    damages = ((sheet, random.Random(DAMAGES * number + at)) for number, sheet in enumerate(sheets) for at in range(DAMAGES))
    faults = {word for sheet, chance in damages for word in told(text_of(damaged(sheet, chance)))[2].split()[1:2]}
    yield "faults", unlike({"X1", "X2", "X3", "X4", "X6", "X8", "X10"} - faults, set())


# --- examples as sheets


def as_sheet(px86: Px86, path: str) -> tuple[str, int]:
    """A text of examples/ as a sheet, and how many lines that changed."""
    with open(f"{TOP}/{path}", "rb") as file:
        text, count = re.subn(rb"(?m)^litmus 1\b", b"sheet 1", file.read())
    return px86.keep("sheet.litmus", text), count


def example(px86: Px86, path: str) -> Checks:
    """A text of examples/ says the same as a sheet."""
    sheet, count = as_sheet(px86, path)
    one, other = px86("dis", sheet), px86("dis", path)
    yield "its object", unlike(count, 1) or wrong_end(one, 0) or differs(one.out, other.out)
    check = f"{path.removesuffix('.litmus')}.check"
    if os.path.exists(f"{TOP}/{check}"):
        it = Example(check)
        one, other = (px86(*it.words[:-1], file, given=b"", most=600) for file in (sheet, path))
        yield "its check", wrong_run(one, it.status, other.out)


def cases() -> Iterator[Case]:
    """All cases."""
    texts = sorted(glob.glob("examples/**/*.litmus", recursive=True, root_dir=TOP))
    yield from (Case(path, example, path) for path in texts if re.search(r"(?m)^litmus 1\b", read(path)))
    for first in range(0, SHEETS, OF_A_CASE):
        yield Case(f"sheets {first} to {first + OF_A_CASE - 1}", random_sheets, first)
    yield Case("what is made", what_is_made)
