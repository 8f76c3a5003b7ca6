"""Schedules, which the words of a generator choose."""

from __future__ import annotations

from argparse import Namespace
from collections.abc import Iterator

from model.conditions import Condition, condition_of
from model.images import candidates_of, images_of
from model.machine import Machine
from model.rules import CANDIDATES, REGISTERS, Step


def words_of(seed: int, stream: int) -> Iterator[int]:
    """The words of the generator PCG32 (XSH RR)."""
    multiplier = 6364136223846793005
    increment = (2 * stream + 1) % 2**64
    state = ((seed + increment) * multiplier + increment) % 2**64
    while True:
        mixed = ((state >> 18) ^ state) >> 27 & 0xFFFFFFFF
        turn = state >> 59
        yield (mixed >> turn | mixed << (32 - turn)) & 0xFFFFFFFF
        state = (state * multiplier + increment) % 2**64


def possible_of(machine: Machine) -> list[Step]:
    """The steps that name what is there, crashes apart."""
    count = len(machine.processors)
    steps = [("exec", p) for p in range(count)]
    steps += [("drain", p, i) for p in range(count) for i in range(len(machine.processors[p].buffer))]
    steps += [("persist", line) for line in range(machine.program.lines)]
    return steps + [("settle",)]


def enabled_of(machine: Machine) -> list[Step]:
    return [step for step in possible_of(machine) if machine.accepts(step)]


def choices_of(machine: Machine, lazy: bool) -> list[Step]:
    """The enabled steps from which a turn chooses. A lazy schedule leaves out those that persist or settle."""
    left_out = ("persist", "settle") if lazy else ()
    return [step for step in enabled_of(machine) if step[0] not in left_out]


def schedule_of(opening: Machine, options: Namespace, number: int) -> tuple[Machine, list[Step]]:
    """Schedule `number` of a plan: the machine at its end, and its steps."""
    machine, steps = opening.copy(), []
    words = words_of(options.seed, number)
    for turn in range(options.length):
        word = next(words)
        if turn == options.crash_after:
            step = ("crash",)
        else:
            choices = choices_of(machine, options.lazy)
            if not choices:
                break
            step = choices[word % len(choices)]
        machine.step(step)
        steps.append(step)
    return machine, steps


def is_end(machine: Machine, after: bool) -> bool:
    """Whether a state is an end, after a crash or before the first one: it accepts no step but a crash. The one end of a machine without
    processors counts as both."""
    return not enabled_of(machine) and (not machine.processors or (machine.crashes > 0) == after)


def ends_of(opening: Machine, options: Namespace) -> Iterator[tuple[int, bool, list[Step]]]:
    """The schedules that come to an end of which a condition is asked: their numbers, whether it is true there, and their steps."""
    after = options.recovered is not None
    condition = condition_of(options.recovered if after else options.ends, opening.program)
    for number in range(options.first, options.first + options.runs):
        ended, steps = schedule_of(opening, options, number)
        if is_end(ended, after):
            yield number, condition.holds(ended), steps


def loss_of(opening: Machine, options: Namespace, condition: Condition, number: int) -> tuple[str, list[Step]] | None:
    """The first state of schedule `number` in which a crash may leave what breaks a condition: what does, and the steps
    to the state; or nothing. Every image of every state is looked at."""
    machine, steps = opening.copy(), schedule_of(opening, options, number)[1]
    for turn in range(len(steps) + 1):
        for step in steps[turn - 1 : turn] if turn else []:
            machine.step(step)
        if candidates_of(machine) > CANDIDATES:
            return "candidates more", steps[:turn]
        for image in images_of(machine):
            if not condition.holds(machine, image):
                return " ".join(["image", *map(str, image)]), steps[:turn]
    return None


def outcome_text(machine: Machine) -> str:
    text = ""
    for p, it in enumerate(machine.processors):
        text += "".join(f" {p}:{name}={value}" for name, value in zip(REGISTERS, it.registers) if value)
    for word, value in machine.persisted.items():
        text += f" {machine.program.names[word]}={machine.coherent(word)}/{value}"
    return text
