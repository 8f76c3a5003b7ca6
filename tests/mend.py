"""Asks the program what flushes and fences examples need, and what they lack: `fences` and `mend`.

Each answer is compared with what `check` says of the text changed here, which is another way to the same program: a line that
is a `nop`, or lines more. What `mend` puts in is put into the text here, and into no other place; and of the sets of any size
that come before it each breaks a condition: all of them are tried where these are few, otherwise those without one of its
instructions, those with another in place of one, and some at random. Where there is none, all that may be put in is put in
together, and sets at random. Of 1, 2 and 4 workers the reports of `mend` are to be the same, and of 1, 2 and all processors those
of `fences`. Examples that need many instructions are asked too; `tests/every_run.py` asks for such, beside the second model. A
`mend` that takes more than a minute counts as not run.

Whether the number that stays is said to be the least is asked here of larger sets, in lines and as JSON; also where each flush and each
fence stands twice.

And bugs are planted: of each right example each flush and each fence is left out in turn (a `nop` is in its place). Where some run then
breaks a condition, `mend` is to find a set that costs no more than what was left out, and the second model is asked of the mended text,
where that has few states.
"""

from __future__ import annotations

import dataclasses
import glob
import itertools
import json
import math
import os
import random
import re
from collections.abc import Callable, Iterable, Iterator

from tests.examples import QUESTIONS, Example
from tests.harness import TIMED_OUT, TOP, Case, Checks, Done, NotRun, Px86, model, read, run

# What is to be said of a number at least so often; and how many bugs are planted at least, of which so many break a condition and are
# mended, and so many are asked of the second model.
AT_LEAST = {
    "": 744,
    "examples/*: fences, least": 60,
    "twice: *, least": 20,
    "bugs: ": 156,
    "bugs: *: mended": 123,
    "bugs: *, asked of the second model": 92,
}
NEEDS_PROGRAM = True
FENCES = ("clflush", "clflushopt", "clwb", "sfence", "mfence")
COSTS = {"clwb": 1, "clflushopt": 1, "sfence": 1, "clflush": 2, "mfence": 2}
WEAKER = {"clflush": "clwb", "mfence": "sfence"}
REGISTERS = {"rax", "rcx", "rdx", "rbx", "rsi", "rdi", "r8", "r9"}
# How many sets that `mend` passes over are tried of a program at most; how many seconds a `mend` may take; how many states the second
# model goes through at most; and how many flushes and fences a text has at most of which each stands twice.
MOST_SETS, SECONDS, MODEL_STATES, MOST_TWICE = 60, 60, 2000, 4


class TooLong(Exception):
    """A `mend` takes more time than it may."""


# --- texts


@dataclasses.dataclass(frozen=True)
class Site:
    """Where an instruction stands, and its words."""

    cpu: int
    program: str
    place: int
    line: int
    text: str

    def __str__(self) -> str:
        return f"cpu {self.cpu} {self.program} {self.place}"

    @property
    def operation(self) -> str:
        return self.text.split()[0]

    @property
    def is_fence(self) -> bool:
        return self.operation in FENCES

    @property
    def operand(self) -> str | None:
        """What stands between brackets, None where nothing does."""
        found = re.search(r"\[(\w+)\]", self.text)
        return found[1] if found else None

    @property
    def target(self) -> str | None:
        """What an instruction with a memory operand writes by its name."""
        words = self.text.replace(",", " ").split()
        registers = {"mov": words[1], "xchg": words[-1], "lock": "rax" if words[1:2] == ["cmpxchg"] else words[-1]}
        return registers.get(words[0])

    def behind(self) -> list[str]:
        """What may be put in behind it, by the words of docs/FORMATS.md."""
        if self.operand is None:
            return []
        flushes = [] if self.is_fence or self.operand == self.target else ["clwb", "clflush"]
        return [f"{name} [{self.operand}]" for name in flushes] + ["sfence", "mfence"]

    def weaker(self) -> str | None:
        """The weaker one of a flush or a fence, if there is one."""
        return self.text.replace(self.operation, WEAKER[self.operation], 1) if self.operation in WEAKER else None


def text_of(lines: Iterable[str]) -> str:
    return "".join(f"{line}\n" for line in lines)


class Text:
    """A litmus text by its lines."""

    def __init__(self, path: str) -> None:
        self.path = path
        self.lines = read(path).splitlines()
        self.sites = list(self.read_sites())
        self.fences = [site for site in self.sites if site.is_fence]

    def read_sites(self) -> Iterator[Site]:
        cpu, program, place = -1, "", 0
        for number, line in enumerate(self.lines, 1):
            line = line.split("#")[0].strip()
            if line == "cpu":
                cpu, program, place = cpu + 1, "main", 0
            elif line == "recover":
                program, place = "recover", 0
            elif line == "end":
                program = ""
            elif line and program and not line.endswith(":"):
                yield Site(cpu, program, place, number, " ".join(line.split()))
                place += 1

    def without(self, sites: Iterable[Site], instead: dict[Site, str] | None = None) -> str:
        """Without what is at these sites, and with another instruction in place of what is at some."""
        others = {site.line: text for site, text in (instead or {}).items()} | {site.line: "nop" for site in sites}
        return text_of(others.get(number, line) for number, line in enumerate(self.lines, 1))

    def with_more(self, puts: Iterable[tuple[int, str]]) -> str:
        """With each instruction behind its line; of two behind one line the first stands first."""
        behind = list(puts)
        rows = ([line, *(it for at, it in behind if at == number)] for number, line in enumerate(self.lines, 1))
        return text_of(itertools.chain.from_iterable(rows))

    def twice(self) -> str:
        """The text in which each flush and each fence stands twice."""
        return self.with_more((site.line, site.text) for site in self.fences)


@dataclasses.dataclass(frozen=True)
class Asked:
    """The program, and what is asked of texts."""

    px86: Px86
    conditions: list[str]
    number: Iterator[int] = dataclasses.field(default_factory=itertools.count)

    def written(self, text: str) -> str:
        return self.px86.keep(f"{next(self.number)}.litmus", text)

    def fences(self, *words: str) -> Done:
        return self.px86("fences", *self.conditions, *words, most=300)

    def mend(self, *words: str) -> Done:
        """What `mend` says in its time."""
        done = self.px86("mend", *self.conditions, *words, most=SECONDS)
        if done.status == TIMED_OUT:
            raise TooLong
        return done

    def holds(self, text: str) -> bool | None:
        """Whether every run of a text keeps what is asked; None where it is not told."""
        path = self.px86.keep("tried.litmus", text)
        return {0: True, 1: False}.get(self.px86("check", *self.conditions, "--no-steps", path, most=300).status)

    def model_holds(self, text: str) -> bool | None:
        """The same as the second model says; None where that takes too many states."""
        path = self.px86.keep("tried.litmus", text)
        return {0: True, 1: False}.get(model("check", *self.conditions, "--states", str(MODEL_STATES), path).status)

    def kinds(self) -> list[str]:
        return [word for word in self.conditions if word in QUESTIONS]


def conditions_of(path: str) -> tuple[list[str], str]:
    """The questions of an example, which stand between `check` and the text in the first line of NAME.check; and the text."""
    example, keep = Example(path), list[str]()
    words = iter(example.words[:-1])
    for word in words:
        if word in (*QUESTIONS, "--states"):
            keep += [word, next(words)]
        elif word == "--before-crash":
            keep.append(word)
    return keep, example.litmus


# --- what is wrong with the answer of `fences` about a right program

# An operand that names its word by a register, and not by its name, which may begin with an r too.
BY_A_REGISTER = re.compile(r"\[r(?:[abcd]x|[sd]i|[sb]p|8|9|1[0-5])\]")
# So many sets are tried at most where it is asked whether a larger one does; and all larger ones are tried here where they are so few.
MOST_CHOICES, FEW_SETS = 100, 60


@dataclasses.dataclass(frozen=True)
class Need:
    """What is said of a flush or a fence: whether it is needed, the name of a weaker one, and what is said of that."""

    site: Site
    need: str
    weaker: str | None
    told: str | None


LEFT_OUT = "not needed, left out"


def larger_sets(fences: list[Site], spare: list[Site], gone: int) -> Iterable[tuple[Site, ...]]:
    """Sets that are larger than what is left out: all of them, or where these are many, those of one more of what can go alone."""
    sizes = range(gone + 1, len(fences) + 1)
    if sum(math.comb(len(fences), size) for size in sizes) <= FEW_SETS:
        return [some for size in sizes for some in itertools.combinations(fences, size)]
    return itertools.combinations(spare, gone + 1)


def is_least(it: Asked, text: Text, needs: list[Need]) -> bool:
    """Whether without each larger set of flushes and fences than is left out some run breaks a condition, and the choices are not too
    many to say so."""
    spare = [need.site for need in needs if need.need.startswith("not needed")]
    gone = sum(need.need == LEFT_OUT for need in needs)
    if math.comb(len(spare), gone + 1) > MOST_CHOICES:
        return False
    return all(it.holds(text.without(some)) is False for some in larger_sets(text.fences, spare, gone))


def wrong_needs(it: Asked, text: Text, needs: list[Need]) -> str:
    """What is wrong with which are needed."""
    left: list[Site] = []
    for site, need in ((it.site, it.need) for it in needs):
        alone = it.holds(text.without([site]))
        if need == "needed" and alone is not False:
            return f"{site} is needed, and without it all holds"
        if need.startswith("not needed") and alone is not True:
            return f"{site} is not needed, and without it it does not hold"
        if need == "not needed, kept" and it.holds(text.without([*left, site])) is not False:
            return f"{site} is kept, and without those before it too all holds"
        if need == LEFT_OUT:
            left.append(site)
        elif need not in ("needed", "not needed, kept") and not need.startswith("not known "):
            return f"{site}: {need}"
    return "without all that are left out it does not hold" if left and it.holds(text.without(left)) is not True else ""


def wrong_weaker(it: Asked, text: Text, needs: list[Need]) -> str:
    """What is wrong with what is said of weaker instructions, of each that stays."""
    left, instead = [need.site for need in needs if need.need == LEFT_OUT], dict[Site, str]()
    for need in needs:
        weaker = need.site.weaker()
        if need.weaker and (need.site in left or weaker is None or need.weaker != weaker.split()[0]):
            return f"{need.site}: {need.weaker} {need.told}"
        if need.site in left or weaker is None:
            continue
        held = it.holds(text.without(left, instead | {need.site: weaker}))
        if held is not {"does": True, None: False}.get(need.told):
            return f"{need.site}: {weaker} holds is {held}, and it is said: {need.told}"
        if held:
            instead[need.site] = weaker
    return "" if it.holds(text.without(left, instead)) is True else "with all the weaker ones it does not hold"


def wrong_only(it: Asked, text: Text, first: Need) -> str:
    """What is wrong with what is said where only the first is asked about."""
    done, site, weaker = it.fences("--only", str(first.site), text.path), first.site, first.site.weaker()
    short = "not needed" if first.need.startswith("not needed") else first.need
    held = False if short == "not needed" or weaker is None else it.holds(text.without([], {site: weaker}))
    if held is not False and weaker:
        short += f", {weaker.split()[0]} " + ("does" if held else "not known R1")
    return "" if done.out == f"{site} {site.text}: {short}\n" else f"--only {site}: {done.out!r}{done.err}"


def wrong_count(it: Asked, text: Text, needs: list[Need], last: str) -> tuple[str, str]:
    """What is to be said of how many stay, and what is wrong with what is said of them, in the last line and as JSON."""
    settled = not any(BY_A_REGISTER.search(need.site.text) or need.need.startswith("not known") for need in needs)
    least = settled and is_least(it, text, needs)
    stay, said = sum(need.need != LEFT_OUT for need in needs), ", least" if least else ", no more can go" * settled
    wanted = f"keep {stay} of {len(needs)}{said}"
    told = json.loads(it.fences("--json", text.path).out)
    wrong = [told[name] for name in ("keep", "of", "least", "no_more_can_go")] != [stay, len(needs), least, settled]
    return said, f"{last}, and as JSON {told}, in place of {wanted}" if wrong or last != wanted else ""


def fences_check(it: Asked, text: Text) -> tuple[str, str]:
    """The check of `fences` of a right program: in its name stands what is to be said of the number that stays."""
    done = it.fences(text.path)
    said = [line.rsplit(": ", 1) for line in done.out.splitlines() if line.startswith("cpu ")]
    wanted = [f"{site} {site.text}" for site in text.fences]
    if done.status or [head for head, _ in said] != wanted:
        return "fences", f"status {done.status}: {done.out}{done.err}, and the sites are {wanted}"
    parts = (re.findall(r"^(.*?)(?:, (\w+) (does|not known \w+))?$", need)[0] for _, need in said)
    needs = [Need(site, need, weaker or None, told or None) for site, (need, weaker, told) in zip(text.fences, parts)]
    if wrong := wrong_needs(it, text, needs):
        return "fences", wrong
    kind, wrong = wrong_count(it, text, needs, done.out.splitlines()[-1])
    return f"fences{kind}", wrong or wrong_weaker(it, text, needs) or (wrong_only(it, text, needs[0]) if needs else "")


def wrong_processors(it: Asked, text: Text) -> str:
    """What is wrong with the reports of `fences` on one processor and on two, which are to be those on all that there are."""
    there = sorted(os.sched_getaffinity(0))
    for more in [], ["--json"]:
        words = [it.px86.path, "fences", *more, *it.conditions, text.path]
        told = [run(["taskset", "-c", ",".join(map(str, there[:count])), *words], most=300) for count in (1, 2, len(there))]
        if told[1:] != told[:1] * 2 or not told[0].out:
            return f"{more}: {told}"
    return ""


# --- what is wrong with the answer of `mend` about a broken program


class Sets:
    """Sets of what may be put into a text. A set is the numbers of what it has, which ascend."""

    def __init__(self, text: Text) -> None:
        self.single = [(site.line, instr) for site in text.sites for instr in site.behind()]
        self.costs = [COSTS[instr.split()[0]] for _, instr in self.single]

    def order(self, some: tuple[int, ...]) -> tuple[int, int, tuple[int, ...]]:
        """What decides in which order sets are tried: their cost, how many they are, their places."""
        return sum(self.costs[at] for at in some), len(some), some

    def puts(self, some: tuple[int, ...]) -> tuple[tuple[int, str], ...]:
        return tuple(self.single[at] for at in some)

    def in_order(self) -> Iterator[tuple[int, ...]]:
        """All sets, of any size."""
        cheap, dear = ([at for at, cost in enumerate(self.costs) if cost == price] for price in (1, 2))
        for cost in range(1, sum(self.costs) + 1):
            for count in range((cost + 1) // 2, cost + 1):
                many = itertools.product(itertools.combinations(dear, cost - count), itertools.combinations(cheap, 2 * count - cost))
                yield from sorted(tuple(sorted(some + others)) for some, others in many)

    def at_random(self, most: int) -> Iterator[tuple[int, ...]]:
        """So many sets, of all sizes, always the same."""
        chance = random.Random(len(self.single))
        for _ in range(most if self.single else 0):
            yield tuple(sorted(chance.sample(range(len(self.single)), chance.randint(1, len(self.single)))))

    def before(self, some: tuple[int, ...], most: int) -> list[tuple[int, ...]]:
        """Sets that come before this one: all of them, or where these are many, so many of those that are like it, and of others."""
        first = list(itertools.islice(itertools.takewhile(lambda other: other != some, self.in_order()), most + 1))
        if len(first) <= most:
            return first
        without = [tuple(at for at in some if at != gone) for gone in some]
        like = [tuple(sorted({*less, at})) for less in without for at in range(len(self.single)) if at not in less]
        like = [other for other in like if self.order(other) < self.order(some)]
        size = self.order(some)[0]
        others = (tuple(sorted(random.Random(at).sample(range(len(self.single)), min(size, len(self.single))))) for at in range(20 * most))
        cheaper = (next((other[:n] for n in range(size, 0, -1) if self.order(other[:n]) < self.order(some)), ()) for other in others)
        return [*without, *like[:: max(1, len(like) // most)], *itertools.islice(filter(None, cheaper), most)]


# What is on standard error of an exploration that has too many states.
TOO_MANY = re.compile(
    r"px86: [1-9]\d* states were found and \d+ explored, the last one \d+ steps from the start: none was seen to break what was asked of it"
)
Placed = tuple[int, ...]


def read_mend(report: str, sets: Sets) -> tuple[Placed, list[Placed], list[str]]:
    """What a report of `mend` says: the set that is put in, the sets that are open, and all other lines. A ValueError or an IndexError
    where it names what may not be put in, or not in order."""
    lines = report.splitlines()
    put = [line.removeprefix("put ") for line in lines if line.startswith("put ")]
    still_open = [re.findall(r"^open (.+): (?:R1|R2|I1)$", line)[0].split(", ") for line in lines if line.startswith("open ")]
    found = []
    for said in [put, *still_open]:
        placed = (it.rpartition(" behind line ") for it in said)
        found.append(tuple(sets.single.index((int(line), instr)) for instr, _, line in placed))
    if any(list(some) != sorted(set(some)) for some in found):
        raise ValueError("a set that is not in order")
    return found[0], found[1:], [line for line in lines if not line.startswith(("put ", "open "))]


def wrong_put(it: Asked, text: Text, sets: Sets, put: Placed, lines: list[str]) -> str:
    """What is wrong with a set that is put in."""
    puts, mended = sets.puts(put), text.with_more(sets.puts(put))
    if f"cost {sets.order(put)[0]}" not in lines:
        return f"the cost of {puts} is {sets.order(put)[0]}"
    if it.holds(mended) is not True:
        return f"with {puts} it does not hold"
    written = it.px86("mend", "--as-text", *it.conditions, text.path, most=300).out
    objects = [it.px86("asm", it.written(made)).written for made in (mended, written)]
    return "" if objects[0] == objects[1] and objects[0] else f"--as-text is another program:\n{written}"


def wrong_open(it: Asked, text: Text, sets: Sets, put: Placed, still_open: list[Placed]) -> str:
    """What is wrong with the sets that are open, and whether a set that comes before the one that is put in, or the last that is open,
    keeps what is asked."""
    if any(it.holds(text.with_more(sets.puts(some))) is not None for some in still_open):
        return "of an open set it is told"
    if still_open != sorted(still_open, key=sets.order) or put and still_open and sets.order(put) < sets.order(still_open[-1]):
        return "open sets in another order"
    if put or still_open:
        before = sets.before(put or still_open[-1], MOST_SETS)
    else:
        before = [tuple(range(len(sets.single))), *sets.at_random(MOST_SETS)]
    tried = [some for some in before if some and not any(set(some) <= set(other) for other in still_open)]
    better = next((sets.puts(some) for some in tried if it.holds(text.with_more(sets.puts(some)))), None)
    return f"with {better} it holds, which comes before it" if better else ""


def wrong_mend(it: Asked, text: Text) -> str:
    """What is wrong with the answer of `mend` about a broken program."""
    done, sets = it.mend(text.path), Sets(text)
    if done.status not in (0, 1) or any(not TOO_MANY.fullmatch(line) for line in done.err.splitlines()):
        return f"status {done.status}: {done.err or done.out}"
    try:
        put, still_open, lines = read_mend(done.out, sets)
    except (ValueError, IndexError):
        return f"no set of what may be put in: {done.out}"
    wanted = [] if put else ["mend not known" if still_open else "mend none"]
    if done.status != (not put) or lines[:1] != wanted and not put or len(lines) != (len(wanted) or 2 + len(it.kinds())):
        return f"status {done.status}: {done.out}"
    return put and wrong_put(it, text, sets, put, lines) or wrong_open(it, text, sets, put, still_open)


def wrong_workers(it: Asked, text: Text) -> str:
    """What is wrong with the reports of several workers, which are to be those of one, in each form."""
    for more in [], ["--json"], ["--moves"]:
        ended = [it.mend(*more, "--workers", count, text.path) for count in ("1", "2", "4")]
        told = [(it.out, it.status, TOO_MANY.sub("", it.err).strip()) for it in ended]
        if told[1:] != told[:1] * 2 or not told[0][0]:
            return f"{more}: {told}"
    return ""


# --- moves


def passes(store: Site, other: Site) -> bool:
    """Whether a store may pass another instruction, by the words of docs/FORMATS.md."""
    passed = other.text.replace(",", " ").split()
    if passed[0] in ("jmp", "jz", "jnz"):
        return False
    if passed[0] in ("nop", "cmp", *FENCES):
        return True
    is_plain = other.operand is None or passed[0] == "mov" and not passed[1].startswith("[")
    written = passed[1] if is_plain else other.target if passed[0] != "mov" else None
    if written in {store.text.replace(",", " ").split()[-1], store.operand}:
        return False
    return other.operand is None or store.operand != other.operand and not {store.operand, other.operand} & REGISTERS


def moves_of(text: Text) -> Iterator[tuple[int, str, int]]:
    """All moves of one store, as a line of text, a side, and another line: in their order."""
    for store in text.sites:
        if not re.match(r"mov \[", store.text):
            continue
        own = [it for it in text.sites if (it.cpu, it.program) == (store.cpu, store.program)]
        labelled = led_to(text, own)
        for side, others in (("behind", own[store.place + 1 :]), ("before", own[store.place - 1 :: -1] if store.place else [])):
            for other in others:
                if not passes(store, other) or other.place + (side == "before") in labelled:
                    break
                yield store.line, side, other.line


def led_to(text: Text, own: list[Site]) -> set[int]:
    """The places of a program to which its jumps lead."""
    first, last = (own[0].line, own[-1].line) if own else (0, 0)
    while first > 1 and text.lines[first - 2].split("#")[0].strip() not in ("cpu", "recover"):
        first -= 1
    while last < len(text.lines) and text.lines[last].split("#")[0].strip() not in ("recover", "end"):
        last += 1
    labels = {}
    for number in range(first, last + 1):
        found = re.match(r"\s*(\w+)\s*:", text.lines[number - 1])
        if found:
            labels[found[1]] = sum(it.line < number for it in own)
    return {labels[it.text.split()[1]] for it in own if it.operation in ("jmp", "jz", "jnz")}


def with_move(text: Text, line: int, side: str, other: int) -> tuple[str, list[int]]:
    """The text with a store on a side of another line, and a `nop` where it stood; and of each of its lines the number in the text as it
    is."""
    lines, numbers = list(text.lines), list(range(1, len(text.lines) + 1))
    store, lines[line - 1] = lines[line - 1], "nop"
    at = other - (side == "before")
    lines.insert(at, store)
    numbers.insert(at, line)
    return text_of(lines), numbers


def wrong_moves(it: Asked, text: Text) -> str:
    """What is wrong with the answer of `mend --moves` about a program that no set mends. Of the moved texts `mend` is asked."""
    plain, done = it.mend(text.path), it.mend("--moves", text.path)
    if plain.out != "mend none\n":
        return "" if (done.out, done.status) == (plain.out, plain.status) else f"{done.out} in place of {plain.out}"
    count = 0
    for count, move in enumerate(moves_of(text), 1):
        moved, numbers = with_move(text, *move)
        mended = it.mend(it.written(moved)).out
        if mended.startswith(("put ", "mend none needed")):
            return wrong_move(it, text, done.out.splitlines(), move, mended, numbers)
    return "" if (done.out, done.status) == (f"mend none\nmoves {count}, none helps\n", 1) else done.out


def wrong_move(it: Asked, text: Text, lines: list[str], move: tuple[int, str, int], mended: str, numbers: list[int]) -> str:
    """What is wrong with these lines about the first move that helps, where `mend` says so of the moved text."""
    line, side, other = move
    if lines[:1] != [f"move line {line} {side} line {other}"]:
        return f"{lines[:1]}, and the first that helps is {move}"
    old = [re.sub(r"line (\d+)", lambda it: f"line {numbers[int(it[1]) - 1]}", it) for it in mended.splitlines()]
    if mended.startswith("put ") and lines[1:] != old:
        return f"{lines[1:]}, and the moved text needs {old}"
    if not mended.startswith("put ") and (any(it.startswith("put ") for it in lines) or "cost 0" not in lines):
        return f"{lines[1:]}, and the moved text needs nothing"
    written = it.mend("--moves", "--as-text", text.path).out
    return "" if it.holds(written) is True else "the text that is written does not hold"


# --- examples


def in_time(asks: Callable[..., str], *given: object) -> str:
    """What is wrong, by calls of `mend` that may take too long."""
    try:
        return asks(*given)
    except TooLong:
        return NotRun(f"more than {SECONDS} seconds")


def example(px86: Px86, conditions: list[str], litmus: str) -> Checks:
    """What `fences` and `mend` say of an example. None where it is not told whether it is right."""
    it, text = Asked(px86, conditions), Text(litmus)
    right = it.holds(read(litmus))
    if right:
        yield fences_check(it, text)
        yield "fences on each number of processors", wrong_processors(it, text)
        none = px86("mend", *conditions, text.path, most=300)
        yield "mend", "" if none.out.startswith("mend none needed\n") and none.status == 0 else none.out
    elif right is False:
        yield "mend", in_time(wrong_mend, it, text)
        yield "mend --moves", in_time(wrong_moves, it, text)
        yield "mend --workers", in_time(wrong_workers, it, text)
        broken, failing = it.fences(text.path), px86("check", *conditions, "--no-steps", text.path, most=300)
        yield "fences", "" if (broken.out, broken.status) == (failing.out, 1) else broken.out


def bugs(px86: Px86, conditions: list[str], litmus: str) -> Checks:
    """Leaves each flush and each fence of a right example out."""
    it, text = Asked(px86, conditions), Text(litmus)
    for site in text.fences if it.holds(read(litmus)) else []:
        try:
            kind, wrong = planted(it, text, site)
        except TooLong:
            kind, wrong = "mended, asked of the second model", NotRun(f"more than {SECONDS} seconds")
        # The kind stands first.
        yield f"{kind}, without {site} {site.text}", wrong


def planted(it: Asked, text: Text, site: Site) -> tuple[str, str]:
    """What comes of a right text without what is at a site, and what is wrong with the answer of `mend`."""
    if it.holds(text.without([site])) is not False:
        return "not needed", ""
    bug = Text(it.written(text.without([site])))
    report, sets, cost = it.mend(bug.path).out, Sets(bug), COSTS[site.operation]
    put, _, lines = read_mend(report, sets)
    if not put or sets.order(put)[0] > cost:
        return "not mended", f"what was left out costs {cost}, and the answer is {report}"
    wrong = wrong_put(it, bug, sets, put, lines)
    held = it.model_holds(bug.with_more(sets.puts(put)))
    kind = "mended" if held is None else "mended, asked of the second model"
    return kind, wrong or ("the second model has a run that breaks a condition" if held is False else "")


def twice(px86: Px86, conditions: list[str], litmus: str) -> Checks:
    """Asks `fences` of a right example where each flush and each fence stands twice, if there are few."""
    it, text = Asked(px86, conditions), Text(litmus)
    if 0 < len(text.fences) <= MOST_TWICE and it.holds(read(litmus)):
        yield fences_check(it, Text(it.written(text.twice())))


# --- programs of which the answer is known


def record_of(words: int) -> tuple[list[str], list[str]]:
    """A text that stores so many words, each on a line of its own, and then one that says that they are there; and what is asked."""
    return flushes_of([0] * words)[:2]


def flushes_of(counts: list[int]) -> tuple[list[str], list[str], list[str]]:
    """A text that stores a word for each of these counts, and flushes it so often, and then one that says that they are there; and what
    is asked, and the report of `fences` but for its last words: the last flush of each word stays."""
    names = [f"w{at}" for at in range(len(counts))]
    lines = ["litmus 1", *(f"line {it}" for it in names), "line tail", "cpu"]
    report, place = ["all holds"], 0
    for name, count in zip(names, counts):
        lines += [f"mov [{name}], 1", *[f"clflush [{name}]"] * count]
        for at in range(1, count + 1):
            report.append(f"cpu 0 main {place + at} clflush [{name}]: not needed, {'left out' if at < count else 'kept'}")
        place += 1 + count
    asked = ["--all", " and ".join(f"(persisted tail = 0 or persisted {it} = 1)" for it in names)]
    return [*lines, "mov [tail], 1", "end"], asked, [*report, f"keep {len(counts)} of {sum(counts)}"]


def choices(px86: Px86, counts: list[int], said: str) -> Checks:
    """The report of such a text ends so."""
    lines, conditions, report = flushes_of(counts)
    it = Asked(px86, conditions)
    told = it.fences(it.written(text_of(lines))).out
    yield "", "" if told == text_of([*report[:-1], report[-1] + said]) else told


def ring_of(processors: int) -> tuple[list[str], list[str]]:
    """A text of so many processors: each stores a word, and then loads that of the next. It is asked that not all of them read 0."""
    lines = ["litmus 1", *(f"line w{at}" for at in range(processors))]
    for at in range(processors):
        lines += ["cpu", f"mov [w{at}], 1", f"mov rax, [w{(at + 1) % processors}]", "end"]
    return lines, ["--ends", " or ".join(f"reg {at} rax = 1" for at in range(processors)), "--before-crash"]


# The one fence keeps the record in order: an sfence, or the store's clflush, or an mfence. If both processors load before the
# other's store is seen, the first adds for ever: then there are states without end. Only an mfence between its store and its
# load keeps it from that, as the second has one.
ADDS_FOR_EVER = """litmus 1
line a
line b
line y
line s
cpu
mov [a], 1
clwb [a]
mov [b], 1
mov rax, [y]
cmp rax, 0
jnz done
wait:
mov rcx, [s]
cmp rcx, 0
jz wait
count:
add rdx, 1
jmp count
done:
end
cpu
mov [y], 1
mfence
mov rbx, [a]
cmp rbx, 0
jnz done
mov [s], 1
done:
end
""".splitlines()
# With two sets that come before it no run breaks what is asked, and with each there are states without end. So it is not told. With
# the other sets before it some run breaks what is asked, after a few steps.
OPEN = ["open sfence behind line 8: R1", "open clflush [a] behind line 7: R1"]
ADDS_FOR_EVER_REPORT = ["put mfence behind line 8", "all held", "states", "cost 2", *OPEN]
# With the stores in order the program adds for ever, so there are states without end: with no set that is tried is it told.
IS_NOT_KNOWN = ["litmus 1", "line a", "line b", "cpu", "mov [a], 1", "mov [b], 1", "count:", "add rdx, 1", "jmp count", "end"]
ADDED = ["--all", "persisted b = 0 or persisted a = 1", "--states", "200"]


def wrong_report(it: Asked, text: Text, wanted: list[str]) -> str:
    """What is wrong with a report of `mend`, but for the number of states."""
    report = it.mend(text.path).out
    return "" if [re.sub(r"^(states) [1-9]\d*$", r"\1", line) for line in report.splitlines()] == wanted else report


def unasked(it: Asked, text: Text) -> str:
    """What is wrong with the answer of `mend --moves` where it is not known whether a set holds: no move is tried."""
    plain, done = it.mend(text.path), it.mend("--moves", text.path)
    return "" if plain == done and plain.out.startswith("mend not known\n") and plain.status == 1 else f"{plain} {done}"


def known(px86: Px86, lines: list[str], conditions: list[str], wanted: list[str]) -> Checks:
    """A text of which the report of `mend` is known by hand; none if it is not known which set holds."""
    it = Asked(px86, conditions)
    text = Text(it.written(text_of(lines)))
    yield "mend --workers", in_time(wrong_workers, it, text)
    if wanted:
        yield "its report", in_time(wrong_report, it, text, wanted)
        yield "its sets", in_time(wrong_mend, it, text)
    else:
        yield "mend --moves", in_time(unasked, it, text)


def known_cases() -> Iterator[Case]:
    """A record needs a flush of each word, and the tail may pass a clwb but for a fence behind the last of them. Two clflush cost more
    than two clwb and an sfence, and one alone keeps no clwb of another line. A ring needs an mfence between each store and load: nothing
    else keeps these two in order."""
    for words in 2, 3, 4:
        puts = [f"put clwb [w{at}] behind line {at + words + 4}" for at in range(words)] + [f"put sfence behind line {2 * words + 3}"]
        yield Case(f"a record of {words} words", known, *record_of(words), [*puts, "all held", "states", f"cost {words + 1}"])
    for processors in 2, 3:
        puts = [f"put mfence behind line {processors + 3 + 4 * at}" for at in range(processors)]
        yield Case(f"a ring of {processors}", known, *ring_of(processors), [*puts, "ends held", "states", f"cost {2 * processors}"])
    yield Case("a program that adds for ever", known, ADDS_FOR_EVER, ADDED, ADDS_FOR_EVER_REPORT)
    yield Case("no set is told", known, IS_NOT_KNOWN, ADDED, [])
    # Of 14 flushes 12 can be chosen in 91 ways, and of 15 13 in 105.
    yield Case("least, by 91 sets", choices, [5, 5, 4], ", least")
    yield Case("not least, as 105 sets are too many", choices, [5, 5, 5], ", no more can go")


def cases() -> Iterator[Case]:
    """All cases. In a sheet a line may be there for several processors: no line of one is left out or put in."""
    yield from known_cases()
    for path in sorted(set(glob.glob(f"{TOP}/examples/**/*.check", recursive=True)) - set(glob.glob(f"{TOP}/examples/sheets/*"))):
        conditions, litmus = conditions_of(path)
        if set(QUESTIONS) & set(conditions):
            name = f"{os.path.relpath(litmus, TOP)} {' '.join(conditions)}"
            yield Case(name, example, conditions, litmus)
            yield Case(f"bugs: {name}", bugs, conditions, litmus)
            yield Case(f"twice: {name}", twice, conditions, litmus)
