"""Every run with flushes and fences more, or with a store elsewhere."""

from __future__ import annotations

import collections
import copy
import itertools
from argparse import Namespace
from collections.abc import Iterable, Iterator, Sequence

from model.explanations import line_told, text_lines_of, told_lines_of
from model.fences import FENCES, answer_in
from model.rules import JUMPS, REGISTERS, Instruction, Operand
from model.texts import Program

# What may be put in, and what it costs.
COSTS = {"clwb": 1, "clflush": 2, "sfence": 1, "mfence": 2}
# An instruction that is not there, behind that at a place of a program.
Put = collections.namedtuple("Put", "instruction p block place")
# With so many sets that have no answer the search ends.
MOST_OPEN = 8


def written_register(instruction: Instruction) -> int | None:
    """The register that an instruction which accesses memory writes, if it does."""
    operation, *operands = instruction
    if operation == "cmpxchg":
        return REGISTERS.index("rax")
    registers = [value for kind, value in operands if kind == "register"]
    is_load = operation == "mov" and operands[0][0] == "register"
    return registers[0] if operation in ("xchg", "xadd") or is_load else None


def put_behind(program: Program, instruction: Instruction) -> list[str]:
    """What may be put in behind an instruction: flushes of what it accesses, where that is still known, and fences."""
    memory = next((it for it in instruction[1:] if it[0] == "memory"), None)
    if memory is None:
        return []
    is_known = memory[1][0] != "register" or memory[1][1] != written_register(instruction)
    flushes = [f"{flush} {program.operand_text(memory)}" for flush in ("clwb", "clflush")]
    return [*(flushes if is_known and instruction[0] not in FENCES else []), "sfence", "mfence"]


def candidates_to_put(program: Program) -> Iterator[Put]:
    for p, blocks in enumerate(program.processors):
        for block in ("main", "recover"):
            for place, instruction in enumerate(blocks[block]):
                yield from (Put(it, p, block, place) for it in put_behind(program, instruction))


def cost_of(parts: Iterable[Put]) -> int:
    return sum(COSTS[it.instruction.split()[0]] for it in parts)


def sets_of_cost(costs: list[int], cost: int) -> Iterator[tuple[int, ...]]:
    """All sets of things that cost 1 or 2, by their numbers, which together cost so much: fewer before more, then by place."""
    cheap, dear = ([at for at, it in enumerate(costs) if it == price] for price in (1, 2))
    for count in range((cost + 1) // 2, cost + 1):
        twos = cost - count
        many = itertools.product(itertools.combinations(dear, twos), itertools.combinations(cheap, count - twos))
        yield from sorted(tuple(sorted(some + others)) for some, others in many)


def sets_to_put(program: Program) -> Iterator[tuple[Put, ...]]:
    """All sets of any size of what may be put in: in the order of their costs, fewer before more, and by place."""
    candidates = list(candidates_to_put(program))
    costs = [cost_of([it]) for it in candidates]
    for cost in range(1, sum(costs) + 1):
        yield from (tuple(candidates[at] for at in some) for some in sets_of_cost(costs, cost))


def with_put_in(program: Program, parts: Sequence[Put]) -> Program:
    """The program of the text with these instructions, each directly below its line. The last is put in first: the lines before it
    stay."""
    rows, lines = program.text.split("\n"), text_lines_of(program.text)
    for part in reversed(parts):
        rows.insert(lines[part.p][part.block][part.place], part.instruction)
    return program.with_text("\n".join(rows))


def put_told(program: Program, parts: Iterable[Put]) -> list[str]:
    return [f"{it.instruction} behind {line_told(program, it)}" for it in parts]


def held_told(options: Namespace) -> list[str]:
    return [f"{it} held" for it in ("all", "ends", "recovered") if getattr(options, it) is not None]


def mend_told(program: Program, options: Namespace, most: int | None = None) -> tuple[list[str], int] | None:
    """The report of `mend` without the count of states, and its status. Each set is tried, one after another, up to the first that
    holds. Nothing where these are more than so many."""
    if answer_in(program, options) == "holds":
        return ["mend none needed"], 0
    still_open = []
    for tried, parts in enumerate(sets_to_put(program)):
        if tried == most:
            return None
        told = answer_in(with_put_in(program, parts), options)
        if told == "holds":
            lines = [f"put {it}" for it in put_told(program, parts)]
            return [*lines, *held_told(options), f"cost {cost_of(parts)}", *still_open], 0
        if told != "fails":
            still_open.append(f"open {', '.join(put_told(program, parts))}: {told}")
            if len(still_open) == MOST_OPEN:
                break
    return ["mend not known" if still_open else "mend none", *still_open], 1


def wrong_dear_mend(program: Program, options: Namespace, most: int, lines: list[str]) -> str:
    """What is wrong with a report of `mend` of a program of which so many sets were tried, and none held, or nothing. A set that is
    put in comes behind those, and holds, but not without one of its instructions. If there is none, all that may be put in,
    together, is not seen to be enough."""
    candidates = list(candidates_to_put(program))
    if lines == ["mend none"]:
        together = answer_in(with_put_in(program, candidates), options)
        return "with all that may be put in it holds" if together == "holds" else ""
    said = [line.removeprefix("put ") for line in lines if line.startswith("put ")]
    names = put_told(program, candidates)
    if not said or any(it not in names for it in said):
        return "no set of what may be put in"
    parts = tuple(candidates[at] for at in sorted(map(names.index, said)))
    last = next(itertools.islice(sets_to_put(program), most - 1, None))
    order = lambda some: (cost_of(some), len(some), [candidates.index(it) for it in some])
    if put_told(program, parts) != said or order(parts) <= order(last):
        return "a set that was tried, or in another order"
    if answer_in(with_put_in(program, parts), options) != "holds":
        return "with it some run breaks a condition"
    for spared in parts:
        if answer_in(with_put_in(program, [it for it in parts if it is not spared]), options) != "fails":
            return f"it holds without {spared.instruction} too"
    return "" if lines == [*(f"put {it}" for it in said), *held_told(options), f"cost {cost_of(parts)}"] else "other lines"


# A store that is put on a side of the instruction at another place of its program.
Moved = collections.namedtuple("Moved", "p block place side to")


def is_store(instruction: Instruction) -> bool:
    return instruction[0] == "mov" and instruction[1][0] == "memory"


def register_set(instruction: Instruction) -> int | None:
    """The register that an instruction sets, if it does."""
    if instruction[0] in ("mov", "add") and instruction[1][0] == "register":
        return instruction[1][1]
    return written_register(instruction)


def address_of_word(instruction: Instruction) -> Operand | None:
    """The address of the word that an instruction names, nothing where it names none."""
    memory = next((it[1] for it in instruction[1:] if it[0] == "memory"), None)
    return None if memory is None or memory[0] == "register" else memory


def is_passed(store: Instruction, other: Instruction) -> bool:
    """Whether a store may pass another instruction."""
    if other[0] in JUMPS:
        return False
    read = [value for kind, value in store[1:] if kind == "register"] + [value[1] for kind, value in store[1:] if kind == "memory" and value[0] == "register"]
    if register_set(other) in read:
        return False
    if other[0] in FENCES or all(kind != "memory" for kind, _ in other[1:]):
        return True
    words = [address_of_word(it) for it in (store, other)]
    return None not in words and words[0] != words[1]


def moves_told(program: Program) -> Iterator[Moved]:
    """All moves of one store, in their order: behind each later instruction of its stretch, and then before each earlier one."""
    for p, blocks in enumerate(program.processors):
        for block in ("main", "recover"):
            code = blocks[block]
            led_to = {it[1][1] for it in code if it[0] in JUMPS}
            for place, store in enumerate(code):
                if not is_store(store):
                    continue
                for side, places, gap in (("behind", range(place + 1, len(code)), 0), ("before", range(place - 1, -1, -1), 1)):
                    for to in places:
                        if not is_passed(store, code[to]) or to + gap in led_to:
                            break
                        yield Moved(p, block, place, side, to)


def with_move(program: Program, move: Moved) -> Program:
    """The program of the text with a store put elsewhere, and a `nop` where it stood. It is told on the lines of the text as it is."""
    rows, lines = program.text.split("\n"), text_lines_of(program.text)[move.p][move.block]
    store, rows[lines[move.place] - 1] = rows[lines[move.place] - 1], "nop"
    rows.insert(lines[move.to] - (move.side == "before"), store)
    moved = program.with_text("\n".join(rows))
    moved.told_lines = copy.deepcopy(told_lines_of(program))
    told = moved.told_lines[move.p][move.block]
    told.insert(move.to + (move.side == "behind"), told[move.place])
    return moved


def told_of_move(program: Program, move: Moved, lines: list[str]) -> list[str]:
    """What is told of a move, with the lines that are told of the moved program."""
    own = told_lines_of(program)[move.p][move.block]
    return [f"move line {own[move.place]} {move.side} line {own[move.to]}", *lines]


def mend_or_none(program: Program, options: Namespace, most: int | None) -> tuple[list[str], int] | None:
    """The same as `mend_told`, but `mend none` is told where some run breaks a condition with all that may be put in together: what is
    put in only takes runs away."""
    fails = [answer_in(it, options) == "fails" for it in (program, with_put_in(program, list(candidates_to_put(program))))]
    return (["mend none"], 1) if all(fails) else mend_told(program, options, most)


def moved_told(program: Program, options: Namespace, most: int | None = None) -> tuple[list[str], int] | None:
    """The report of `mend --moves`, and its status: as that of `mend`, but where that is `mend none` each move is tried, one after
    another, up to the first with which a mend is found. Nothing where more sets than so many are to be tried."""
    told = mend_or_none(program, options, most)
    if told is None or told[0] != ["mend none"]:
        return told
    count = 0
    for move in moves_told(program):
        count += 1
        told = mend_or_none(with_move(program, move), options, most)
        if told is None:
            return None
        lines, status = told
        if status == 0:
            lines = [*held_told(options), "cost 0"] if lines == ["mend none needed"] else lines
            return told_of_move(program, move, lines), 0
    return ["mend none", f"moves {count}, none helps"], 1
