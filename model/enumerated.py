"""Every schedule of a small program."""

from __future__ import annotations

import re
from collections.abc import Iterator
from typing import Any

from model.images import images_of
from model.machine import Machine
from model.rules import Image
from model.schedules import enabled_of, outcome_text
from model.texts import Program


def key_of(machine: Machine) -> tuple[Any, ...]:
    """A state as a value; counts are left out."""
    processors = [
        (it.runs, it.place, tuple(it.registers), it.zero, tuple(it.buffer), it.trap) for it in machine.processors
    ]
    return tuple(processors), tuple(machine.pending), tuple(machine.persisted.items())


def next_states(machine: Machine) -> Iterator[Machine]:
    """What each Exec and each Drain that may come next leads to."""
    for step in enabled_of(machine):
        if step[0] in ("exec", "drain"):
            other = machine.copy()
            other.step(step)
            yield other


def reached_from(opening: Machine, forget: bool) -> Iterator[tuple[Machine, bool]]:
    """Each state that Exec and Drain steps reach, once, and whether it is an end: no such step is enabled in it. Where
    pending writes are forgotten they persist at once, which tells apart fewer states and changes no coherent value."""
    found, left = {key_of(opening)}, [opening]
    while left:
        machine = left.pop()
        nexts = list(next_states(machine))
        yield machine, not nexts
        for other in nexts:
            if forget:
                other.persisted = {word: other.coherent(word) for word in other.persisted}
                other.pending = []
            if key_of(other) not in found:
                found.add(key_of(other))
                left.append(other)


def crashed_with(program: Program, image: Image) -> Machine:
    """The machine behind a crash that left this image."""
    machine = Machine(program)
    machine.persisted = dict(zip(machine.persisted, image))
    machine.step(("crash",))
    return machine


def ends_of(opening: Machine) -> list[Machine]:
    """The machine in each end of every schedule."""
    return [machine for machine, ended in reached_from(opening, True) if ended]


def images_from(opening: Machine, asked: set[Any]) -> set[Image]:
    """The images that crashes in the schedules from this state may leave. Of a list of pending writes and a memory that were
    asked before they are known. What persists in such a schedule may as well persist behind it, so no Persist step is
    made."""
    found = set()
    for machine, _ in reached_from(opening, False):
        memory = tuple(machine.pending), tuple(machine.persisted.items())
        if memory not in asked:
            asked.add(memory)
            found.update(images_of(machine))
    return found


def crashes_of(opening: Machine) -> tuple[list[Image], list[Machine]]:
    """Every image that a crash may leave, in a schedule or in recovery, and the ends of recovery from each."""
    asked, images, ends = set(), set(), []
    left = [opening]
    while left:
        for image in images_from(left.pop(), asked) - images:
            images.add(image)
            recovery = crashed_with(opening.program, image)
            left.append(recovery)
            ends += [machine for machine, ended in reached_from(recovery, False) if ended]
    return sorted(images), ends


def end_text(machine: Machine) -> str:
    """The outcome of an end; a word's coherent value alone."""
    return re.sub(r"/\d+", "", outcome_text(machine))
