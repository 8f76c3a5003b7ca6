"""The order in which what was executed takes effect."""

from __future__ import annotations

import collections
from collections.abc import Iterator

from model.machine import Machine, Refused
from model.rules import KIND, Step, kept
from model.texts import Program


class LooseMachine(Machine):
    """One that makes steps without waiting."""

    waits = False


def shown_by(machine: Machine, steps: list[Step]) -> tuple[list[list[str]], str | None]:
    """What these steps show one after another, as words, up to the first that is refused; and its refusal."""
    shown = []
    for step in steps:
        try:
            shown.append(machine.step(step).split())
        except Refused as refused:
            return shown, str(refused)
    return shown, None


def operation_of(program: Program, act: list[str]) -> tuple[str, int | None] | None:
    """The kind and the line of the operation that an executed instruction is, or none where it is none."""
    if act[0] in ("local", "trap"):
        return None
    if act[0] == "fence":
        return "mfence", None
    if act[0] == "delay":
        line = program.words[act[2]] // 8 if act[1] == "W" else int(act[2]) if act[2:] else None
        return KIND[act[1]], line
    return {"read": "Read", "locked": "RMW"}[act[0]], program.words[act[1]] // 8


def broken_pairs(program: Program, shown: list[list[str]]) -> Iterator[tuple[int, int, int, int]]:
    """All broken pairs of a run that shows this, as (AT, FIRST, SECOND, CPU)."""
    operations, effects, crashes = {}, {}, set()
    buffers = collections.defaultdict(list)
    for at, (what, *words) in enumerate(shown):
        if what == "ran":
            operation = operation_of(program, words[2:])
            if operation is not None:
                operations[at] = int(words[0]), operation
                if words[2] == "delay":
                    buffers[int(words[0])].append(at)
                else:
                    effects[at] = at
        elif what == "left":
            effects[buffers[int(words[0])].pop(int(words[1]))] = at
        elif what == "crashed":
            crashes.add(at)
            buffers.clear()
    for first, (p, earlier) in operations.items():
        for second, (q, later) in operations.items():
            if p != q or not first < second or not kept(earlier, later):
                continue
            if any(first < crash < second for crash in crashes):
                continue
            at = effects.get(second)
            if at is not None and not (first in effects and effects[first] <= at):
                yield at, first, second, p


def law_of(program: Program, steps: list[Step]) -> str:
    """What is told of the order in which these steps take effect."""
    return told_of(program, shown_by(LooseMachine(program), steps)[0])


def told_of(program: Program, shown: list[list[str]]) -> str:
    """The same of a loose run that shows this."""
    pairs = list(broken_pairs(program, shown))
    if not pairs:
        return "none"
    at, first, second, p = min(pairs)
    return f"broken {p} {first} {second} {at}"
