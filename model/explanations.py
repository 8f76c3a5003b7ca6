"""Why writes are missing in an image, and which of them would be enough alone."""

from __future__ import annotations

import itertools
from argparse import Namespace
from collections.abc import Callable, Collection, Iterable, Iterator
from typing import Any

from model.conditions import condition_of
from model.images import closed_sets_of, leaves_first, size_of
from model.machine import Machine, make_all
from model.questions import kept_by
from model.rules import Entry, Image, Step, keeps, line_of_entry
from model.runs import NoRoom, Runs, TooManyStates
from model.texts import Program, lines_of


def text_lines_of(text: str) -> list[dict[str, list[int]]]:
    """Of each processor, and each of its two programs, the lines of the litmus text on which its instructions stand."""
    processors, block = [], None
    for number, row in enumerate(text.split("\n"), 1):
        tokens = next(lines_of(row), None)
        if tokens is None or block is None and tokens != ["cpu"]:
            continue
        if block is None:
            block, into = {"main": [], "recover": []}, "main"
        elif tokens == ["recover"]:
            into = "recover"
        elif tokens == ["end"]:
            processors.append(block)
            block = None
        elif tokens[1:2] != [":"]:
            block[into].append(number)
    return processors


class Operation:
    """An instruction that a step executed: which step of the run, of which processor, in which program and where."""

    def __init__(self, step: int, p: int, block: str, place: int) -> None:
        self.step, self.p, self.block, self.place = step, p, block, place
        # the step in which what it delayed left its store buffer, or it wrote at once
        self.left = None


class Origins:
    """A run that is made again, with the operations of what is buffered and pending, and of the flushes since the last crash."""

    def __init__(self, program: Program, steps: list[Step]) -> None:
        self.machine = Machine(program)
        self.forget()
        for at, step in enumerate(steps):
            self.make(at, step)

    def forget(self) -> None:
        self.buffers = [[] for _ in self.machine.processors]
        self.pending, self.flushes = [], []
        # the stores that have persisted since the last crash, each with its line, in the order in which they did
        self.persisted = []

    def make(self, at: int, step: Step) -> None:
        machine, (kind, *numbers) = self.machine, step
        buffered = [len(it.buffer) for it in machine.processors]
        pending = len(machine.pending)
        if kind == "exec":
            it = machine.processors[numbers[0]]
            operation = Operation(at, numbers[0], it.runs, it.place)
        elif kind == "drain":
            operation = self.buffers[numbers[0]].pop(numbers[1])
            operation.left = at
        elif kind == "persist":
            gone = [place for place, it in enumerate(machine.pending) if it[0] == "W" and line_of_entry(it) == numbers[0]]
        elif kind == "settle":
            gone = [place for place, it in enumerate(machine.pending) if it[0] == "PER"]
        machine.step(step)
        if kind == "crash":
            self.forget()
        elif kind in ("persist", "settle"):
            operation = self.pending.pop(gone[0])
            if kind == "persist":
                self.persisted.append((numbers[0], operation))
        else:
            buffer = machine.processors[numbers[0]].buffer
            if len(buffer) > buffered[numbers[0]]:
                self.buffers[numbers[0]].append(operation)
                if buffer[-1][0] in ("FL", "FO"):
                    self.flushes.append((buffer[-1][1], operation))
            if len(machine.pending) > pending:
                operation.left = at
                self.pending.append(operation)

    def least_set(self, image: Image) -> frozenset[int]:
        """The places of the least closed set that leaves an image."""
        return min(closed_sets_of(self.machine)[image], key=lambda places: size_of(self.machine, places))

    def missing(self, image: Image) -> Iterator[tuple[int, int, Operation, int | None]]:
        """Of each missing write its word, its value, its operation, and its place in the pending list, if it is there."""
        least = self.least_set(image)
        left = dict(zip(self.machine.persisted, image))
        for place, entry in enumerate(self.machine.pending):
            if entry[0] == "W" and place not in least and left[entry[1]] != entry[2]:
                yield entry[1], entry[2], self.pending[place], place
        for operations, it in zip(self.buffers, self.machine.processors):
            for operation, entry in zip(operations, it.buffer):
                if entry[0] == "W" and left[entry[1]] != entry[2]:
                    yield entry[1], entry[2], operation, None

    def stores(self, places: Collection[int]) -> list[tuple[int, Operation]]:
        """The stores that have persisted, and then those that are pending at these places, each with its line."""
        pending = enumerate(zip(self.machine.pending, self.pending))
        return self.persisted + [(line_of_entry(it), operation) for at, (it, operation) in pending if it[0] == "W" and at in places]

    def is_buffered(self, operation: Operation) -> bool:
        return any(operation is it for operations in self.buffers for it in operations)

    def reason(
        self, line: int, write: Operation, place: int | None, kept: list[tuple[int, Operation]], told: Callable[[Operation], str]
    ) -> str:
        """Why a write of a line may be missing: docs/FORMATS.md, `--explain-image`. These stores are kept; `told` says where an
        instruction is."""
        if place is None:
            before = [it for its, it in kept if its == line and it.p == write.p and it.step < write.step]
            return f"stored after {told(before[-1])}, on the same cache line" if before else "in the store buffer"
        for entry, it in list(zip(self.machine.pending, self.pending))[place + 1 :]:
            if entry == ("PER", line):
                return f"flushed on {told(it)}; the flush has left the store buffer, and nothing after it has persisted"
        flushes = [it for its, it in self.flushes if its == line]
        behind = [it for it in flushes if self.is_buffered(it) and it.step > write.step]
        for stores in (kept, self.stores(range(len(self.pending)))):
            for flush in behind:
                passed = [it for _, it in stores if it.p == flush.p and it.step > flush.step]
                if passed:
                    return f"flushed on {told(flush)}; that flush is buffered, and the store on {told(passed[0])} has passed it"
        for flush in behind:
            between = [it for _, it in kept if it.p == flush.p and write.step < it.step < flush.step]
            if between:
                return f"flushed on {told(flush)}, behind the store on {told(between[0])} that has persisted"
        if behind:
            return f"flushed on {told(behind[0])}; that flush is buffered"
        before = [it for it in flushes if it.step < write.step or it.left is not None and it.left < write.left]
        return f"flushed on {told(before[-1])}, before it" if before else "never flushed"


def explained_image(program: Program, steps: list[Step], image: Image) -> list[str]:
    """What `check --explain-image` says of an image that a crash may leave after these steps."""
    origins = Origins(program, steps)
    kept = origins.stores(origins.least_set(image))
    named = [f"{program.names[word]} {value}" for word, value in zip(sorted(program.names), image)]
    lines = []
    for word, value, operation, place in origins.missing(image):
        why = origins.reason(word // 8, operation, place, kept, lambda it: line_told(program, it))
        lines.append(f"missing {program.names[word]} {value} {line_told(program, operation)}: {why}")
    return [" ".join(["image", *named]), *(lines or ["missing none"])]


def crashes_explained(program: Program, steps: list[Step], run: list[Step]) -> Iterator[list[str]]:
    """What `check --explain-image` says of each crash of a run after these steps: its place in the run, and what it left."""
    for at, step in enumerate(run):
        if step == ("crash",):
            made = [*steps, *run[:at]]
            left = make_all(Machine(program), made).persisted
            yield [f"crash {at}", *explained_image(program, made, tuple(left[word] for word in sorted(program.names)))]


def told_lines_of(program: Program) -> list[dict[str, list[int]]]:
    """Of each processor, and each of its two programs, the lines on which its instructions are told."""
    return program.told_lines or text_lines_of(program.text)


def line_told(program: Program, spot: Any) -> str:
    """On which line an instruction of a program is told."""
    return f"line {told_lines_of(program)[spot.p][spot.block][spot.place]}"


# Of how many missing writes it is asked at most, and of how many states what is explored for one.
TRIED_ALONE = 64
STATES_BEHIND_A_WRITE = 3000


def must_leave(entries: list[Entry], place: int, goes_first: Callable[[Entry, Entry], bool]) -> set[int]:
    """The places of all that has to leave a list up to the entry at this one, with it."""
    places = {place}
    for at in reversed(range(place)):
        if any(goes_first(entries[at], entries[later]) for later in places if later > at):
            places.add(at)
    return places


def persist_places(machine: Machine, places: Collection[int]) -> None:
    """The entries at these places of the pending list leave it, in their order."""
    for kind, *numbers in [machine.pending[place] for place in sorted(places)]:
        machine.step(("settle",) if kind == "PER" else ("persist", numbers[0] // 8))


def without_buffered(machine: Machine, p: int, place: int) -> int | None:
    """The entry at a place of a processor's store buffer leaves it, and before it all that it waits for there: its place in the pending
    list. None where that has no room."""
    for gone, at in enumerate(sorted(must_leave(machine.processors[p].buffer, place, keeps))):
        if machine.refusal(("drain", p, at - gone)) is not None:
            return None
        machine.step(("drain", p, at - gone))
    return len(machine.pending) - 1


def with_write(machine: Machine, p: int, buffered: bool, place: int) -> Machine | None:
    """The machine once a missing write of a processor has persisted, and nothing that it does not wait for; it is at this place of the
    store buffer or of the pending list. None where it finds no room."""
    machine = machine.copy()
    if buffered:
        place = without_buffered(machine, p, place)
        if place is None:
            return None
    persist_places(machine, must_leave(machine.pending, place, leaves_first))
    return machine


def asked_by(program: Program, options: Namespace) -> dict[str, Any]:
    """What is asked of each state of a kind: by conditions, or by the question of this name."""
    only = getattr(options, "only", None)
    if only is None:
        texts = {kind: getattr(options, kind) for kind in ("all", "ends", "recovered")}
        return {kind: condition_of(text, program) for kind, text in texts.items() if text is not None}
    kinds = {"crash": "all", "end": "ends", "recovery": "recovered"}
    return {kinds[it.place]: kept_by(it) for it in program.questions if it.name == only}


def keeps_behind(machine: Machine, asked: dict[str, Any], most: int | None) -> bool | None:
    """Whether every run from a crash of this machine keeps what is asked; None where that takes too many states, or room is
    missing."""
    machine.step(("crash",))
    try:
        runs = Runs(machine, True, most)
    except (TooManyStates, NoRoom):
        return None
    if "all" in asked and runs.broken_images(asked["all"]):
        return False
    return not any(kind in asked and runs.false_ends(asked[kind], kind == "recovered") for kind in ("ends", "recovered"))


def told_alone(
    program: Program, steps: list[Step], image: Image, asked: dict[str, Any], crashed: bool, most: int | None
) -> list[bool | None]:
    """Of each write that is missing in an image whether it alone is enough: had it persisted too, what is asked would hold from there.
    None where that is not known."""
    origins = Origins(program, steps)
    missing = list(origins.missing(image))
    if len(missing) > TRIED_ALONE:
        return [False] * len(missing)
    start, least = origins.machine.copy(), origins.least_set(image)
    persist_places(start, least)
    told, writers = [], {}
    for word, value, operation, pending in missing:
        writers.setdefault((word, value), []).append(operation)
    for word, value, operation, pending in missing:
        same = writers[word, value]
        if same[0] is not operation or any(it.p != operation.p for it in same):
            # That the word has the value then says nothing of this write: another one may have persisted.
            told.append(False)
            continue
        if pending is None:
            place = next(at for at, it in enumerate(origins.buffers[operation.p]) if it is operation)
        else:
            place = pending - sum(it < pending for it in least)
        machine = with_write(start, operation.p, pending is None, place)
        if machine is None:
            told.append(False)
        elif crashed:
            told.append(keeps_behind(machine, asked, most))
        else:
            told.append(asked["all"].holds(machine))
    return told


def lines_with(lines: list[str], enough: Iterable[bool]) -> list[str]:
    """The report of an image: those of its missing writes that are enough alone, and how many others there are."""
    image, *missing = lines
    if missing == ["missing none"]:
        return lines
    alone = [line for line, is_enough in zip(missing, enough) if is_enough]
    others = len(missing) - len(alone)
    if not alone:
        tried = len(missing) <= TRIED_ALONE
        return [*lines, "none of these was found to be enough alone" if tried else "none of these was tried alone: they are too many"]
    held = "with this: held" if len(alone) == 1 else "with each of these: held"
    return [image, *alone, held, *([f"missing too {others}"] if others else [])]


def explanations_of(
    program: Program, steps: list[Step], run: list[Step], image: Image | None, options: Namespace
) -> Iterator[list[list[str]]]:
    """What `check --explain-image` may say of a run behind these steps: of each of its crashes, and of the image, if it is one. Each is a
    list of reports that may be."""
    most = STATES_BEHIND_A_WRITE
    if options.states is not None:
        most = min(most, options.states)
    asked = asked_by(program, options)
    for at, step in enumerate(run):
        if step == ("crash",):
            made = [*steps, *run[:at]]
            left = make_all(Machine(program), made).persisted
            values = tuple(left[word] for word in sorted(program.names))
            told = told_alone(program, made, values, asked, True, most)
            yield [[f"crash {at}", *lines] for lines in may_be_told(explained_image(program, made, values), told)]
    if image is not None:
        made = [*steps, *run]
        yield may_be_told(explained_image(program, made, image), told_alone(program, made, image, asked, False, most))


def may_be_told(lines: list[str], told: list[bool | None]) -> list[list[str]]:
    """The reports of an image, where of some of its missing writes it is not known whether they are enough alone."""
    choices = [[False, True] if it is None else [it] for it in told]
    return [lines_with(lines, enough) for enough in itertools.product(*choices)]


def wrong_explanations(reports: Iterable[list[list[str]]], lines: list[str]) -> str:
    """What is wrong with these lines, where each report in turn may be one of some; or nothing."""
    for may_be in reports:
        fits = [it for it in may_be if lines[: len(it)] == it]
        if not fits:
            return f"none of {may_be[:4]}: {lines[:12]}"
        lines = lines[len(max(fits, key=len)) :]
    return f"more lines: {lines[:12]}" if lines else ""


# The end of each line that explains an image, and how it is counted.
EXPLAINED = {
    "missing none": "nothing missing",
    "in the store buffer": "missing, as it is buffered",
    "on the same cache line": "missing, as it is buffered behind a store of its line",
    "nothing after it has persisted": "missing, as its flush is pending",
    "has passed it": "missing, as a store has passed its flush",
    "that flush is buffered": "missing, as its flush is buffered",
    "that has persisted": "missing, as its flush is behind a store",
    ", before it": "missing, as its flush was before it",
    "never flushed": "missing, as it was never flushed",
}


def kinds_explained(lines: list[str]) -> list[str]:
    """How each of these lines is counted, but for that of the image."""
    return [next(kind for ending, kind in EXPLAINED.items() if line.endswith(ending)) for line in lines[1:]]
