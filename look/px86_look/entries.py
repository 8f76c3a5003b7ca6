"""Which entry of a list is the same as one of the list before.

The lists of a state are the store buffers and the pending list. px86 shows them before and after a step; here they are compared.
Of a list that a step changed, one entry came to its end, one left, or all are gone. Where equal entries stand side by side, the
oldest of them is taken for the one that left, unless px86 says the place.
"""

from __future__ import annotations

from collections.abc import Sequence
from typing import Any, NamedTuple

# A state and an entry, by the names of px86's JSON.
State = dict[str, Any]
Entry = dict[str, Any]
PENDING = "pending"


def lists_of(state: State) -> dict[str, list[Entry]]:
    """The lists of a state by name: `buffer P` of each processor, and `pending`."""
    buffers = {f"buffer {cpu['cpu']}": cpu["buffer"] for cpu in state["cpus"]}
    return buffers | {PENDING: state["pending"]}


class Change(NamedTuple):
    """What became of one list: the places, in the list before, of what is gone, and whether an entry came."""

    gone: list[int]
    came: bool


def place_that_left(before: Sequence[Entry], after: Sequence[Entry]) -> int:
    """The place of the one entry that the second list lacks."""
    place = 0
    while place < len(after) and before[place] == after[place]:
        place += 1
    while place > 0 and before[place - 1] == before[place]:
        place -= 1
    return place


def change_of(before: Sequence[Entry], after: Sequence[Entry], said: int | None = None) -> Change:
    """What became of a list; `said` is the place that left, if px86 names it."""
    if len(after) == len(before) - 1:
        return Change([place_that_left(before, after) if said is None else said], False)
    gone = list(range(len(before))) if before and not after else []
    return Change(gone, len(after) == len(before) + 1)


def changes_of(before: State, after: State, seen: dict[str, Any] | None) -> dict[str, Change]:
    """What became of each list by a step that showed this."""
    old, new = lists_of(before), lists_of(after)
    left = f"buffer {seen['cpu']}" if seen and seen["kind"] == "left" else None
    return {name: change_of(old[name], new[name], seen["place"] if seen and name == left else None) for name in old}


class Origin:
    """Where an entry comes from: the line of the text whose instruction executed it, if there is one; and where the entry is now:
    `buffered`, `pending`, `persisted`, `settled`, `lost`, or `left`, if the store buffer handed it on and nothing is pending of it."""

    def __init__(self, line: int | None, where: str) -> None:
        self.line = line
        self.where = where


# What became of an entry of the pending list, by what the step showed.
ENDS = {"persisted": "persisted", "settled": "settled", "crashed": "lost"}


class Origins:
    """The origin of each entry of each list, and of each line of the text that of its newest entry."""

    def __init__(self, state: State) -> None:
        self.lists = {name: [Origin(None, "") for _ in entries] for name, entries in lists_of(state).items()}
        self.newest: dict[int, Origin] = {}

    def follow(self, before: State, after: State, moment: dict[str, Any]) -> None:
        """Goes on to the state after a step. An entry that comes to the pending list by a Drain is the one that left."""
        changes = changes_of(before, after, moment["seen"])
        kind = moment["seen"]["kind"]
        moved: Origin | None = None
        for name, change in changes.items():
            for place in change.gone:
                origin = self.lists[name][place]
                origin.where = ENDS.get(kind, "left")
                moved = origin
            self.lists[name] = [it for place, it in enumerate(self.lists[name]) if place not in change.gone]
        for name, change in changes.items():
            if change.came:
                self.add(name, moved or Origin(moment["line"], ""))

    def add(self, name: str, origin: Origin) -> None:
        origin.where = "pending" if name == PENDING else "buffered"
        self.lists[name].append(origin)
        if origin.line is not None:
            self.newest[origin.line] = origin

    @property
    def lines(self) -> dict[str, list[int | None]]:
        """Of each list the lines of its entries."""
        return {name: [it.line for it in origins] for name, origins in self.lists.items()}

    @property
    def tags(self) -> dict[str, str]:
        """Of each line of the text where its newest entry is, unless nothing is pending of it."""
        return {str(line): it.where for line, it in self.newest.items() if it.where != "left"}


def origins_of(states: Sequence[State], moments: Sequence[dict[str, Any]]) -> Origins:
    """The origins at the last of these states, to which the steps of these moments lead, one after another."""
    origins = Origins(states[0])
    for before, after, moment in zip(states, states[1:], moments):
        origins.follow(before, after, moment)
    return origins
