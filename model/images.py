"""What a crash may leave, and the least closed set of an image, by trying every set."""

from __future__ import annotations

import collections
import itertools
from collections.abc import Collection, Iterator

from model.machine import Machine
from model.rules import Entry, Image, line_of_entry
from model.texts import Program


def changed(
    program: Program, pending: tuple[Entry, ...], persisted: tuple[tuple[int, int], ...]
) -> Iterator[tuple[tuple[Entry, ...], tuple[tuple[int, int], ...]]]:
    """The memories that one change leads to."""
    memory = Machine(program)
    for step in [("persist", line) for line in range(program.lines)] + [("settle",)]:
        memory.pending, memory.persisted = list(pending), dict(persisted)
        if memory.accepts(step):
            memory.step(step)
            yield tuple(memory.pending), tuple(memory.persisted.items())


def images_of(machine: Machine) -> list[Image]:
    """Every image, ascending: found by making changes until none gives a new memory."""
    first = tuple(machine.pending), tuple(machine.persisted.items())
    found, left = {first}, [first]
    while left:
        for memory in changed(machine.program, *left.pop()):
            if memory not in found:
                found.add(memory)
                left.append(memory)
    return sorted({tuple(value for _, value in persisted) for _, persisted in found})


def values_of(images: list[dict[int, int]], word: int, given: list[tuple[int, int]]) -> list[int]:
    """The values of a word, by its number, in those of these images in which each given word has the value beside it."""
    return sorted({image[word] for image in images if all(image[other] == value for other, value in given)})


def named_images_of(machine: Machine) -> list[dict[int, int]]:
    """Every image as a value for each word, by its number."""
    return [dict(zip(machine.persisted, image)) for image in images_of(machine)]


def values_lines(values: list[int]) -> list[str]:
    """What a script writes of the values of a word."""
    return [*(f"value {value}" for value in values), f"values {len(values)}"]


def candidates_of(machine: Machine) -> int:
    markers = [place for place, it in enumerate(machine.pending) if it[0] == "PER"]
    total = 0
    for gone in range(len(markers) + 1):
        before_next = markers[gone] if gone < len(markers) else len(machine.pending)
        product = 1
        for line in range(machine.program.lines):
            places = [k for k, it in enumerate(machine.pending) if it[0] == "W" and line_of_entry(it) == line]
            own = [place for place in markers[:gone] if machine.pending[place][1] == line]
            product *= sum(k < before_next for k in places) - sum(k < max(own, default=-1) for k in places) + 1
        total += product
    return total


def leaves_first(entry: Entry, later: Entry) -> bool:
    """Whether an entry must leave the pending list before a later one: it is a marker, or a write of the same line."""
    return entry[0] == "PER" or line_of_entry(entry) == line_of_entry(later)


def is_closed(pending: list[Entry], places: Collection[int]) -> bool:
    """Whether a set of places holds, with each of them, all that must leave before it."""
    return all(i in places for j in places for i in range(j) if leaves_first(pending[i], pending[j]))


def left_by(machine: Machine, places: Collection[int]) -> Image:
    """The values of the words once the writes at these places were applied, in their order."""
    values = dict(machine.persisted)
    for place in sorted(places):
        if machine.pending[place][0] == "W":
            _, word, value = machine.pending[place]
            values[word] = value
    return tuple(values.values())


def closed_sets_of(machine: Machine) -> dict[Image, list[frozenset[int]]]:
    """All closed sets of places of the pending list, by the values that each leaves."""
    found = collections.defaultdict(list)
    count = len(machine.pending)
    for size in range(count + 1):
        for places in map(frozenset, itertools.combinations(range(count), size)):
            if is_closed(machine.pending, places):
                found[left_by(machine, places)].append(places)
    return found


def size_of(machine: Machine, places: Collection[int]) -> list[int]:
    """How much a set of places holds: how many markers, and then how many writes of each line, from line 0."""
    entries = [machine.pending[place] for place in places]
    writes = [line_of_entry(entry) for entry in entries if entry[0] == "W"]
    return [len(entries) - len(writes), *(writes.count(line) for line in range(machine.program.lines))]


def set_text(machine: Machine, sets: list[frozenset[int]]) -> str:
    """What is told of an image that these sets leave: the one with the fewest markers, and then the fewest writes line by
    line, or that there is none. That it is one alone, and that all others hold it, is seen here."""
    if not sets:
        return "no set"
    least = min(sets, key=lambda places: size_of(machine, places))
    assert [size_of(machine, places) for places in sets].count(size_of(machine, least)) == 1, sets
    assert all(least <= other for other in sets), sets
    return " ".join(["set", *map(str, sorted(least))])


def words_line(machine: Machine) -> str:
    """The names of the words, in the order of an image."""
    return " ".join(["words", *(machine.program.names[word] for word in machine.persisted)])


def image_lines(machine: Machine, images: list[Image], names: bool) -> list[str]:
    """A line for each image, and how many there are; before them the names of the words, where they are asked for."""
    lines = [" ".join(map(str, ("image", *image))) for image in images]
    return [words_line(machine)] * bool(names) + lines + [f"images {len(images)}"]
