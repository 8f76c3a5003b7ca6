"""Texts of programs that are made by the words of a generator, and conditions of them."""

from __future__ import annotations

import re
from collections.abc import Callable, Iterable, Iterator, Sequence
from typing import Any

from model.conditions import Condition
from model.fences import FENCES
from model.rules import FIRST_ADDRESS, REGISTERS, Image
from model.schedules import words_of
from model.texts import Program

# What chooses one of some things.
Pick = Callable[[Sequence[Any]], Any]
SHAPES = """mov R, N; mov R, R; mov R, [W]; mov R, [W]; mov [W], R; mov [W], N; mov [W], N; add R, N; cmp R, N; xchg [W], R
lock xadd [W], R; lock cmpxchg [W], R; mfence; sfence; clflush [W]; clflushopt [W]; clwb [W]; jmp L; jz L; jnz L; nop
mov P, A; add P, O"""

# Registers that hold addresses at first, what is added to them, and addresses that are no word's.
POINTERS = "rsi rdi r8".split()
OFFSETS = "8 64 -8 4".split()
NO_WORDS = "0 4095 4100 4112 4608 4294971392".split()


def program_lines(number: int, shapes: list[str], prefix: Iterable[str] = ()) -> Iterator[str]:
    """Litmus text `number` of these shapes, with a prefix of the first processor's main program."""
    words = words_of(number, 0)
    pick = lambda items: items[next(words) % len(items)]
    lines = "ab" if prefix else "abc"
    letters = lines[: 1 + next(words) % len(lines)]
    names = [f"{letter}{place}" for letter in letters for place in range(1 + next(words) % 2)]
    yield "litmus 1"
    for letter in sorted({name[0] for name in names}):
        yield " ".join(["line", *(name for name in names if name[0] == letter)])
    addresses = [str(FIRST_ADDRESS + 64 * "abc".index(name[0]) + 8 * int(name[1:])) for name in names]
    parts = {"R": lambda: pick(REGISTERS), "N": lambda: pick("0 1 2 -1".split()), "W": lambda: pick(names + POINTERS)}
    parts |= {"P": lambda: pick(POINTERS), "O": lambda: pick(OFFSETS), "A": lambda: pick(4 * addresses + NO_WORDS)}
    yield f"init {pick(names)} {pick([0, 1, 7])}"
    for _ in range(1 + next(words) % 3):
        lengths = {"cpu": 2 + next(words) % 8, "recover": next(words) % 4}
        for block, length in lengths.items():
            yield block
            yield from prefix
            prefix = ()
            for register in POINTERS:
                yield f"mov {register} , {parts['A']()}"
            for place in range(length):
                yield f"l{place}:"
                shape = pick(shapes).split(" ")
                parts["L"] = lambda: f"l{next(words) % (length + 1)}"
                yield " ".join(re.sub(r"[RNPAOWL]", lambda it: parts[it[0]](), word) for word in shape)
            yield f"l{length}:"
        yield "end"


def random_condition(program: Program, words: Iterator[int], parts: int = 4) -> str:
    """The text of a condition, of which some ask for a processor that is not there."""
    pick = lambda items: items[next(words) % len(items)]
    what = next(words) % 4 if parts > 1 else 0
    if what == 1:
        return f"not {random_condition(program, words, parts - 1)}"
    if what > 1:
        joined = " and " if what == 2 else " or "
        text = joined.join(random_condition(program, words, parts // 2) for _ in range(2))
        return pick([text, f"( {text} )"])
    operand = pick(["persisted", "persisted", "coherent", "reg"])
    place = f"{next(words) % 3} {pick(REGISTERS)}" if operand == "reg" else pick(list(program.words))
    return f"{operand} {place} {pick(list(Condition.TESTS))} {pick('0 1 2 7 -1'.split())}"


# What small programs are made of, and of which words and registers.
SMALL = """mov [W], N; mov [W], N; mov [W], N; mov [W], N; mov [W], R; mov R, [W]; mov R, [W]; xchg [W], R; lock xadd [W], R
lock cmpxchg [W], R; mfence; sfence; sfence; clflush [W]; clflushopt [W]; clwb [W]; mov R, N; add R, N; cmp R, N
jz F; jnz F; jmp F; jz L; jmp L; nop"""
# Of one in three programs also these, of which some trap.
SMALL_POINTERS = "mov R, A; mov rsi, A; mov R, [rsi]; mov [rsi], N; lock xadd [rsi], R; clwb [rsi]; mov rsi, [R]"
SMALL_REGISTERS = "rax rcx rsi r9".split()
SMALL_LAYOUTS = ["a|b", "a|b", "a b", "a|b c", "a b|c", "a"]
# How many instructions a main and a recovery program have at most, by the count of processors.
SMALL_LENGTHS = {1: (10, 6), 2: (4, 3), 3: (3, 1)}


def small_lines(number: int) -> Iterator[str]:
    """Small litmus text of this number: one to three processors, of which some recover; of one in three a processor has two
    ways to one place, which leave nearly the same there; one in four stores, flushes and stores again."""
    if is_append(number):
        yield from append_lines(number)
        return
    words = words_of(number, 6)
    pick = lambda items: items[next(words) % len(items)]
    parts = {"R": lambda: pick(SMALL_REGISTERS), "N": lambda: pick("0 1 2 -1".split())}
    fill = lambda shape: " ".join(re.sub(r"[RNAWFL]", lambda it: parts[it[0]](), word) for word in shape.split(" "))
    if number % 3 == 2:
        yield from twin_lines(words, pick, parts, fill)
        return
    lines = [line.split() for line in pick(SMALL_LAYOUTS).split("|")]
    names = [name for line in lines for name in line]
    addresses = [FIRST_ADDRESS + 64 * g + 8 * k for g, line in enumerate(lines) for k, _ in enumerate(line)]
    shapes = re.split(r"; |\n", SMALL) + SMALL_POINTERS.split("; ") * (next(words) % 3 == 0)
    parts |= {"W": lambda: pick(names), "A": lambda: str(pick(3 * addresses + [0, 4100]))}
    yield "litmus 1"
    yield from (" ".join(["line", *line]) for line in lines)
    if next(words) % 3 == 0:
        yield f"init {pick(names)} {pick([1, 2])}"
    count = pick([1, 1, 2, 2, 2, 3])
    recovers = next(words) % 2
    for p in range(count):
        main, recovery = SMALL_LENGTHS[count]
        lengths = {"cpu": 1 + max(next(words) % main, next(words) % main)}
        lengths |= {"recover": next(words) % (recovery + 1) if recovers else 0}
        if p == 0 and count > 1 and next(words) % 2:
            lengths["cpu"] += 1
        for block, length in lengths.items():
            if block == "recover" and not length:
                continue
            yield block
            for place in range(length):
                yield f"l{place}:"
                # Most jumps lead forward: they end.
                parts["F"] = lambda: f"l{place + 1 + next(words) % (length - place)}"
                parts["L"] = lambda: f"l{next(words) % (length + 1)}"
                yield fill(pick(shapes))
            yield f"l{length}:"
        yield "end"


def is_append(number: int) -> bool:
    """Whether the small text of this number stores, flushes and stores again."""
    return number % 4 == 3


# What such a program stores to: the last word says that the others are there.
APPEND_LAYOUTS = ["a|b", "a b|c", "a|b|c", "a|b|c", "a|b|c", "a|b c"]
# Between the stores: how the first ones are flushed, and what fences them.
APPEND_FLUSHES = ["", "clwb", "clwb", "clwb", "clflushopt", "clflush"]
APPEND_FENCES = [[], [], [], [], [], [], ["sfence"], ["mfence"]]


def append_lines(number: int) -> Iterator[str]:
    """A program that stores, flushes and stores again, and mostly lacks a flush or a fence: in a row, in a loop or with jumps; in a
    main or a recovery program."""
    words = words_of(number, 6)
    pick = lambda items: items[next(words) % len(items)]
    lines = [line.split() for line in pick(APPEND_LAYOUTS).split("|")]
    yield "litmus 1"
    yield from (" ".join(["line", *line]) for line in lines)
    recovers = pick([False, False, True])
    yield "cpu"
    if recovers:
        yield pick(["nop", f"mov [{lines[0][0]}], 2"])
        yield "recover"
    yield from jumping(append_body(lines, pick), lines[-1][-1], pick)
    if not recovers and pick([False, False, True]):
        yield "recover"
        yield from pick([["mov rax, [a]"], ["mov [a], 2"], ["mov [a], 0", "clwb [a]"]])
    yield "end"
    if pick([False, False, False, True]):
        yield from ["cpu", pick(["mov rax, [b]", "mov [a], 2", "clwb [a]"]), "end"]


def append_body(lines: list[list[str]], pick: Pick) -> list[str]:
    """The stores, the flushes and the fence."""
    *firsts, last = [name for line in lines for name in line]
    flushes, body = [], []
    for name in firsts if pick([0, 1, 1]) else [pick(firsts)]:
        store = [f"mov [{name}], {pick(['1', '1', '2', 'rcx'])}"]
        if pick([0, 0, 0, 1]):
            place = next((g, line.index(name)) for g, line in enumerate(lines) if name in line)
            store = [f"mov rsi, {FIRST_ADDRESS + 64 * place[0] + 8 * place[1]}", "mov [rsi], 1"]
        flush = [f"{pick(APPEND_FLUSHES)} [{name}]"]
        flush = flush if not flush[0].startswith(" ") else []
        body += pick([[*store, *flush], [*store, *flush], store, [*flush, *store]])
        flushes += flush
    body += flushes if not any(it in body for it in flushes) else []
    store = pick([f"mov [{last}], 1"] * 5 + [f"lock xadd [{last}], rcx"])
    return [*body, *pick(APPEND_FENCES), store, *pick([[], [], [f"clwb [{last}]"]])]


def jumping(body: list[str], last: str, pick: Pick) -> Iterator[str]:
    """The same in a row, twice in a loop, or with a jump, mostly to the last store; there is a label at each place."""
    # A longer loop has too many states.
    how = pick(["row", "loop", "loop", "jump", "jump", "jump"] if len(body) < 5 else ["row", "jump"])
    rows = ["mov rcx, 1", *body]
    if how == "loop":
        rows = ["mov rcx, 2", *body, "add rcx, -1", f"jnz l{1 + pick([0, 0, 1, 2]) % len(body)}"]
    elif how == "jump":
        stored = next(place for place, row in enumerate(rows) if f" [{last}]" in row)
        place = pick(range(stored + 1))
        ends = [stored + 1] * 3 + [*range(place + 1, len(rows) + 2)]
        rows.insert(place, f"{pick(['jmp', 'jz', 'jz', 'jnz'])} l{pick(ends)}")
    for place, row in enumerate(rows):
        yield f"l{place}:"
        yield row
    yield f"l{len(rows)}:"


def order_condition(program: Program, words: Iterator[int]) -> str:
    """That the last word was not stored, or others were, of those that the first processor names."""
    pick = lambda items: items[next(words) % len(items)]
    named = str(program.processors[0])
    *firsts, last = [name for name, word in program.words.items() if str(FIRST_ADDRESS + 8 * word) in named]
    asked = firsts if not firsts or next(words) % 3 == 0 else [pick(firsts)]
    tests = [f"persisted {name} {pick(['!= 0', '!= 0', '= 1'])}" for name in asked]
    return " or ".join([f"persisted {last} = 0", *([" and ".join(tests)] if tests else [])])


# What the two ways of a processor may leave, by themes: writes of few words, a write and flushes, flags and registers, and all of
# these; and what stands behind the place where they meet.
TWINS = [
    "mov [W], 1; mov [W], 2; mov [W], 1; mov [W], N",
    "mov [W], 1; clwb [W]; clflush [W]; clwb [W]; mov [W], 2",
    "cmp rcx, 0; cmp rcx, 1; mov rcx, N; add rcx, N",
    "mov [W], N; mov [W], N; clwb [W]; clflush [W]; sfence; mov rcx, N; cmp rcx, N; lock xadd [W], r9; nop",
]
BEHIND = """mov [W], N; mov [V], 1; mov [V], 1; clwb [W]; sfence; mov rsi, [W]; mfence; lock cmpxchg [W], rsi; jz l0; jnz l0
mov [W], rcx"""


def twin_lines(words: Iterator[int], pick: Pick, parts: dict[str, Callable[[], str]], fill: Callable[[str], str]) -> Iterator[str]:
    """A program of two processors. The first does one of two things that are alike, as it finds a word or does not, which the
    second stores; what it found is forgotten then."""
    lines = [line.split() for line in pick(["a|b", "a b|c", "a b|c", "a b", "a"]).split("|")]
    names = [name for line in lines for name in line]
    theme, behind = next(words) % len(TWINS), re.split(r"; |\n", BEHIND)
    # The twins are mostly of the first line, and what comes behind them is of the last.
    parts["W"] = lambda: pick(lines[0] if next(words) % 4 and theme < 2 else names)
    fills = lambda shapes, count: [fill(pick(shapes).replace("[V]", f"[{lines[-1][-1]}]")) for _ in range(count)]
    yield "litmus 1"
    yield from (" ".join(["line", *line]) for line in lines)
    yield "line r"
    shapes = TWINS[theme].split("; ")
    one = fills(shapes, 1 + (theme != 2) + next(words) % 2)
    twins = [one, pick([one[::-1], one[1:], one[:-1], [*one[1:], one[0]], [*fills(shapes, 1), *one[1:]]])]
    one, other = twins[:: pick([1, -1])]
    parts["W"] = lambda: pick(names)
    yield from ["cpu", "mov rax, [r]", "cmp rax, 0", "jz other", *one, "jmp join", "other:", *other, "join:", "mov rax, 0"]
    yield from ["cmp rax, 0"] * (theme != 2) + pick([["mfence"], [], [f"lock xadd [{names[-1]}], rax"]])
    yield from ["jz l0"] * (theme == 2) + fills(["mov [V], 1", *behind], 1 + next(words) % 2) + ["l0:"]
    if next(words) % 2 == 0:
        yield from ["recover", f"mov rcx, [{pick(names)}]", f"mov rsi, [{pick(names)}]"]
        yield from ["cmp rcx, 1", "jz l0", fill("mov [W], N"), "l0:"] * (next(words) % 2)
    yield "end"
    yield from ["cpu", "mov [r], 1", *fills(behind, next(words) % 2), "l0:", "end"]


# Two ways to one place, each pair of which leaves what is to be told apart there, though all the rest is the same: the words of
# lines, the two ways, what the first processor does then, and what the second does behind its store.
MEETINGS = [
    # The order of two writes of one line.
    ("x y|z", "mov [x], 1; mov [y], 1", "mov [y], 1; mov [x], 1", "mfence; mov [z], 1", ""),
    # A write that another one of the same word covers.
    ("x|z", "mov [x], 1; mov [x], 2", "mov [x], 2", "mfence; mov [z], 1", ""),
    ("x y|z", "mov [x], 1; mov [y], 1; mov [x], 1", "mov [y], 1; mov [x], 1", "mfence; mov [z], 1", ""),
    # A marker that holds something back, and one that does not.
    ("x|z", "mov [x], 1; clwb [x]", "clwb [x]; mov [x], 1", "mfence; mov [z], 1", ""),
    ("x|z", "mov [x], 1; clflush [x]", "mov [x], 1; clflush [z]", "mfence; mov [z], 1", ""),
    ("x|y|z", "mov [x], 1; clwb [x]; sfence; mov [y], 1", "mov [x], 1; mov [y], 1; sfence; clwb [x]", "mfence; mov [z], 1", ""),
    ("x|y|z", "mov [x], 1; clflush [x]; mov [y], 1", "mov [y], 1; clflush [y]; mov [x], 1", "mfence; mov [z], 1", ""),
    # What is buffered: its order, its count, a flush, a fence, and who sees it.
    ("x|y|z", "mov [x], 1; mov [y], 1", "mov [y], 1; mov [x], 1", "mov rdx, 0", "mov rcx, [y]; mov rbx, [x]"),
    ("x|y", "mov [x], 1; clwb [x]", "clwb [x]; mov [x], 1", "mov [y], 1", "mov rcx, [y]"),
    ("x|y", "mov [x], 1; sfence", "sfence; mov [x], 1", "clwb [x]; mov [y], 1", ""),
    ("x|y", "mov [x], 1; mov [x], 1", "mov [x], 1; nop", "mov [y], 1", "mov rcx, [y]; mov [x], 2"),
    # The flag, a register, and an address at which a processor traps.
    ("x", "cmp rcx, 0", "cmp rcx, 1", "jz l0; mov [x], 1", ""),
    ("x", "mov rcx, 1; cmp rcx, 1", "mov rcx, 2; cmp rcx, 2", "mov [x], 1; mov rcx, 0", "mov rdx, [x]"),
    ("x", "mov rcx, 4100; cmp rcx, 4100", "mov rcx, 4096; cmp rcx, 4096", "mov rdx, [rcx]; mov rcx, 0", ""),
]


def meeting_lines(place: int) -> list[str]:
    """The text of a meeting, by one order of its ways and by the other."""
    layout, one, other, tail, second = MEETINGS[place // 2]
    one, other = [one, other][:: 1 - 2 * (place % 2)]
    lines = [f"line {line}" for line in layout.split("|")]
    first = ["mov rax, [r]", "cmp rax, 0", "jz other", *one.split("; "), "jmp join", "other:", *other.split("; "), "join:"]
    first += ["mov rax, 0", *["cmp rax, 0"] * ("jz" not in tail), *tail.split("; "), "l0:"]
    seconds = ["mov [r], 1", *(it for it in second.split("; ") if it)]
    return ["litmus 1", *lines, "line r", "cpu", *first, "end", "cpu", *seconds, "end"]


def values_condition(program: Program, values: Image) -> str:
    """That persisted values are others than these."""
    tests = [f"persisted {program.names[word]} = {value}" for word, value in zip(sorted(program.names), values)]
    return f"not ( {' and '.join(tests)} )"


def doubled(lines: Iterable[str]) -> list[str]:
    """The lines of a text, each flush and each fence twice."""
    return [line for line in lines for _ in range(2 if line.split()[:1] and line.split()[0] in FENCES else 1)]


def behind_a_clflush(lines: Iterable[str]) -> list[str]:
    """The lines of a text, before each other flush a `clflush` of the same word: it needs no fence, and it is the first that may go."""
    return [more for line in lines for more in ([re.sub("^(clwb|clflushopt) ", "clflush ", line)] * bool(re.match("clwb |clflushopt ", line)) + [line])]


def lacking_lines(number: int) -> Iterator[str]:
    """A program that stores some words, and then one that says that they are there, with few flushes and fences; every fourth has two
    processors that store a word each, and then load the other's."""
    words = words_of(number, 13)
    pick = lambda items: items[next(words) % len(items)]
    yield "litmus 1"
    if number % 4 == 0:
        yield from ["line x", "line y"]
        for mine, other in ("xy", "yx"):
            yield from ["cpu", f"mov [{mine}], 1", *pick([[], [], ["sfence"], ["mfence"]]), f"mov rax, [{other}]", "end"]
        return
    firsts = pick(["a b", "a b c", "a b c"]).split()
    yield from pick([["line " + " ".join(firsts)], *[[f"line {it}" for it in firsts]] * 3])
    yield from ["line f", "cpu"]
    for name in firsts:
        yield from [f"mov [{name}], 1", *pick([[], [], [], [f"clwb [{name}]"]])]
    yield from [*pick([[], [], [], ["sfence"]]), "mov [f], 1", "end"]


def misplaced_lines(number: int) -> Iterator[str]:
    """A program that stores one or two words, and before one of them the word that says that they are there."""
    words = words_of(number, 17)
    pick = lambda items: items[next(words) % len(items)]
    firsts = pick(["a", "a", "a b"]).split()
    yield "litmus 1"
    yield from pick([["line " + " ".join([*firsts, "f"])], [f"line {it}" for it in [*firsts, "f"]], ["line " + " ".join(firsts), "line f"]])
    yield "cpu"
    yield from pick([[], [], ["recover"]])
    value = pick(["1", "1", "rcx"])
    yield from ["mov rcx, 1"] * (value == "rcx")
    stores = [f"mov [{name}], {value}" for name in firsts]
    stores.insert(next(words) % len(firsts), f"mov [f], {value}")
    between = [[], [], [], [], ["nop"], ["sfence"], [f"clwb [{firsts[0]}]"], ["mov rcx, 1"], ["mov rax, [f]"], ["cmp rcx, 1", "jz past", "past:"]]
    labelled = False
    for store in stores:
        more = pick(between)
        yield from more if not (labelled and "past:" in more) else []
        labelled = labelled or "past:" in more
        yield store
    yield "end"
