"""Every run: all lists of steps of all kinds, crashes too."""

from __future__ import annotations

import collections
from argparse import Namespace
from collections.abc import Iterator
from typing import Any

from model.conditions import Condition, condition_of
from model.enumerated import key_of
from model.images import changed, image_lines, words_line
from model.machine import Machine
from model.reading import Fault
from model.rules import LINE_WRITES, MARKERS, REGISTERS, Entry, Image
from model.schedules import enabled_of


class TooManyStates(Exception):
    """There are more states than were to be looked at."""


class NoRoom(Exception):
    """A processor waits for room in the pending list."""


def fallen_since(machine: Machine, opening: Machine) -> bool:
    """Whether there was a crash on the way from one to the other."""
    return machine.crashes > opening.crashes


class Runs:
    """What every run from a state shows; or every run without a crash."""

    def __init__(self, opening: Machine, crashes: bool = True, most: int | None = None) -> None:
        self.opening = opening
        self.crashes = crashes
        # Each state once, but for the count of turns; of crashes it is told whether there was one since the opening.
        self.states = []
        # What runs: a processor, its program and the place of an instruction.
        self.ran = set()
        # The machine in the end of each outcome, before any crash and after one.
        self.ends = {False: {}, True: {}}
        self.memories = {}
        found, left = {self.key(opening)}, collections.deque([opening])
        while left:
            machine = left.popleft()
            self.states.append(machine)
            if most is not None and len(found) > most:
                raise TooManyStates
            for other in self.next_of(machine):
                key = self.key(other)
                if key not in found:
                    found.add(key)
                    left.append(other)

    def key(self, machine: Machine) -> tuple[Any, ...]:
        return key_of(machine), fallen_since(machine, self.opening)

    def next_of(self, machine: Machine) -> Iterator[Machine]:
        """The state behind each step that may come next. What the state itself shows is noted."""
        steps = enabled_of(machine)
        for p, it in enumerate(machine.processors):
            if ("exec", p) in steps:
                self.ran.add((p, it.runs, it.place))
        self.look_for_room(machine)
        if not steps:
            self.ends[machine.crashes > 0].setdefault(outcome_of(machine), machine)
        for step in [*steps, ("crash",)] if self.crashes else steps:
            other = machine.copy()
            other.step(step)
            yield other

    def look_for_room(self, machine: Machine) -> None:
        if len(machine.pending) < min(LINE_WRITES, MARKERS):
            return
        for p, it in enumerate(machine.processors):
            for step in [("exec", p), *(("drain", p, i) for i in range(len(it.buffer)))]:
                if (machine.refusal(step) or "")[:2] in ("M8", "M9"):
                    raise NoRoom

    def images(self, machine: Machine) -> list[Image]:
        """Each image of a state, ascending."""
        return sorted(self.images_of_memory(tuple(machine.pending), tuple(machine.persisted.items())))

    def images_of_memory(self, pending: tuple[Entry, ...], persisted: tuple[tuple[int, int], ...]) -> set[Image]:
        """What is persisted, and what each change leads to."""
        images = self.memories.get((pending, persisted))
        if images is None:
            images = {tuple(value for _, value in persisted)}
            for memory in changed(self.opening.program, pending, persisted):
                images |= self.images_of_memory(*memory)
            self.memories[pending, persisted] = images
        return images

    def all_images(self) -> set[Image]:
        """Every image that a crash may leave in some state."""
        return set().union(*(self.images(machine) for machine in self.states))

    def broken_images(self, condition: Condition) -> list[Image]:
        """Of each state that has an image which makes the condition false, the least of these; each once, ascending."""
        least = {}
        for machine in self.states:
            registers = tuple(tuple(it.registers) for it in machine.processors)
            shown = registers, tuple(machine.pending), tuple(machine.persisted.values())
            if shown not in least:
                least[shown] = next((it for it in self.images(machine) if not condition.holds(machine, it)), None)
        return sorted({image for image in least.values() if image is not None})

    def false_ends(self, condition: Condition, after: bool) -> list[Image]:
        """The values of the words in each end that makes the condition false; each once, ascending."""
        return sorted({tuple(it.persisted.values()) for it in self.ends[after].values() if not condition.holds(it)})

    def never_ran(self) -> Iterator[str]:
        program = self.opening.program
        for p, blocks in enumerate(program.processors):
            for block in ("main", "recover") if self.crashes else ("main",):
                for place, instruction in enumerate(blocks[block]):
                    if (p, block, place) not in self.ran:
                        yield f"never ran cpu {p} {block} {place} {program.instruction_text(instruction)}"


def outcome_of(machine: Machine) -> tuple[int, ...]:
    """What an end comes to, as numbers: of each processor whether and where it is trapped, and its registers; and the words."""
    numbers = []
    for it in machine.processors:
        numbers += [0, 0] if it.trap is None else [1, it.trap]
        numbers += it.registers
    return (*numbers, *machine.persisted.values())


def outcome_line(machine: Machine) -> str:
    told = ["outcome"]
    for p, it in enumerate(machine.processors):
        told += [f"{p}:trap={it.trap}"] if it.trap is not None else []
        told += [f"{p}:{name}={value}" for name, value in zip(REGISTERS, it.registers) if value]
    return " ".join(told + [f"{machine.program.names[word]}={value}" for word, value in machine.persisted.items()])


def verdict_of(runs: Runs, options: Namespace) -> tuple[list[str], int]:
    """The report of `check`, and its status: that of what holds, but for the count of states; or each line of a state that
    makes a condition false."""
    program = runs.opening.program
    fails, lines = [], []
    for question in ("all", "ends", "recovered"):
        text = getattr(options, question)
        if text is None:
            continue
        condition = condition_of(text, program)
        if question == "all":
            values, asked = runs.broken_images(condition), True
        else:
            after = question == "recovered"
            values, asked = runs.false_ends(condition, after), bool(runs.ends[after])
        fails += [" ".join(map(str, (question, "fails", *it))) for it in values]
        lines.append(f"{question} holds" if asked else f"{question} asked of no state")
    if fails:
        return [words_line(runs.opening)] * bool(options.names) + fails, 1
    asked_of_none = any(line.endswith("no state") for line in lines)
    lines.append(f"ends {len(runs.ends[False])}")
    if runs.crashes:
        lines.append(f"recovered ends {len(runs.ends[True])}")
    lines += runs.never_ran()
    if options.images:
        lines += image_lines(runs.opening, sorted(runs.all_images()), options.names)
    return lines, int(asked_of_none)


def outcomes_of(runs: Runs, after: bool, breaking: str | None = None) -> list[str]:
    """The report of `outcomes`; with a condition of the outcomes that make it false."""
    ends = runs.ends[after]
    if breaking is not None:
        condition = condition_of(breaking, runs.opening.program)
        ends = {numbers: machine for numbers, machine in ends.items() if not condition.holds(machine)}
    return [*(outcome_line(ends[numbers]) for numbers in sorted(ends)), f"outcomes {len(ends)}"]


def runs_told(machine: Machine, crashes: bool, most: int | None) -> Runs:
    """Every run from this state; or a fault."""
    try:
        return Runs(machine, crashes, most)
    except TooManyStates:
        fault = "R1 TooManyStates"
    except NoRoom:
        fault = "R2 NoRoom"
    raise Fault(fault, 5)
