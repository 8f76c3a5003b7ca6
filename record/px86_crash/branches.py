"""Asks px86 of each point where cases part: the values of the word that is read there have to be those that were tried.

At a point some words were read, each with a value, and then one more. `values` of px86 tells which values that word has in the
images in which the others have these. So by the points of a state each image of it comes to a case, and each case has an image.

What a crash may leave of some lines does not depend on the others (docs/MODEL.md), so a point is asked of the lines that were read
up to there; and where no marker stands between stores, of the word's own line alone. All are asked of one px86 for the whole run
(conversation.py), and by texts what is too large for its lines and store buffers.

A sector or a page of a disk is a word of a text that counts its changes. Its points are asked of by the counts that it may have."""

from __future__ import annotations

import itertools
import os
import threading
from collections.abc import Callable, Collection, Iterable, Iterator, Sequence
from dataclasses import dataclass, replace

from .conversation import Changes, Numbered
from .explore import Leaf
from .faults import Failed, TooLarge
from .memories import up_to_last_store
from .narrow import Narrow
from .one_thread import MOST_PENDING
from .recording import ACKNOWLEDGED, LINE, Kind, Operation
from .states import Cuts, State
from .text import MOST_INSTRUCTIONS, MOST_LINES, Names, Text, instructions

# What was read before a point, as words with their values.
Given = tuple[tuple[int, int], ...]


@dataclass(frozen=True)
class Point:
    """A word that is read where others have these values."""

    word: int
    given: Given

    @property
    def words(self) -> list[int]:
        return [self.word, *(word for word, _ in self.given)]

    def command(self, name: Callable[[int], str]) -> str:
        return " ".join(["values", name(self.word), *(f"{name(word)}={value}" for word, value in self.given)])

    def told(self, names: Names) -> str:
        given = ", ".join(f"{names.of(word)} = {value}" for word, value in self.given)
        return f"{names.of(self.word)}, where {given}" if given else names.of(self.word)


class Points:
    """The points of a state, each with the values that were tried."""

    def __init__(self, state: State, names: Names) -> None:
        self.state, self.names = state, names
        self.binds = len(state.epochs) > 1
        self.tried: dict[Point, frozenset[int]] = {}
        # What one text has to hold: the lines of a case, or those of one point.
        self.units: dict[frozenset[int], list[Point]] = {}

    def add(self, point: Point, values: frozenset[int], lines: frozenset[int]) -> None:
        before = self.tried.setdefault(point, values)
        if before != values:
            raise self.differ(point, before, values)
        self.units.setdefault(lines, []).append(point)

    def add_leaves(self, leaves: Sequence[Leaf]) -> None:
        """All points of a tree of cases."""
        for leaf, places in followed(leaves):
            read = [word for word in leaf.path.words if word in self.state.lines]
            lines = frozenset(self.state.lines[word] for word in read)
            given: dict[int, Given] = {}
            for place, (word, value) in enumerate(zip(leaf.path.words, leaf.path.values)):
                if word not in self.state.lines:
                    continue
                line = 0 if self.binds else self.state.lines[word]
                before = given.get(line, ())
                if place in places:
                    self.add(Point(word, before), places[place], lines if self.binds else frozenset([line]))
                given[line] = (*before, (word, value))

    def add_cuts(self, cuts: Cuts, word: int, values: Iterable[int]) -> None:
        """The point at which a word is read of some cuts, with the values that they have."""
        lines = self.state.lines
        given = tuple((other, value) for other, value in cuts.taken if self.binds or lines[other] == lines[word])
        point = Point(word, given)
        self.add(point, frozenset(values), frozenset(lines[other] for other in point.words))

    def differ(self, point: Point, tried: Iterable[int], found: Iterable[int]) -> Failed:
        said = [", ".join(map(str, sorted(values))) or "none" for values in (tried, found)]
        return Failed(f"px86 has other values than were tried of {point.told(self.names)}: {said[1]}, and not {said[0]}")

    def compare(self, point: Point, found: Sequence[int]) -> None:
        # Of what was acknowledged only the greatest number is taken if nothing orders it.
        if point.word == ACKNOWLEDGED and not self.binds:
            found = found[-1:]
        if set(found) != self.tried[point]:
            raise self.differ(point, self.tried[point], found)


def followed(leaves: Sequence[Leaf]) -> Iterator[tuple[Leaf, dict[int, frozenset[int]]]]:
    """Each case with the places of its own points, and the values that were tried there. A case has its own points from where it took
    another value than the case before it."""
    branches: dict[object, set[int]] = {}
    for leaf in leaves:
        turns = leaf.rank[3]
        if turns:
            place = turns[-1][0]
            branches.setdefault((turns[:-1], place), set()).add(leaf.path.values[place])
    for leaf in leaves:
        turns, values = leaf.rank[3], leaf.path.values
        places = range(leaf.first, len(values))
        yield leaf, {place: frozenset({values[place], *branches.get((turns, place), ())}) for place in places}


@dataclass
class Sizes:
    """What a text of some lines has."""

    operations: Sequence[Operation]
    # Each line has a text of its own.
    are_counted: bool = False

    def __post_init__(self) -> None:
        self.stores: dict[int, int] = {}
        self.markers: dict[int, int] = {}
        self.size: dict[int, int] = {}
        for operation in self.operations:
            counted = self.stores if operation.stores else self.markers
            counted[operation.line] = counted.get(operation.line, 0) + 1
            self.size[operation.line] = self.size.get(operation.line, 0) + instructions(operation)

    def fit(self, lines: Iterable[int]) -> bool:
        lines = list(lines)
        return (
            len(lines) <= (1 if self.are_counted else MOST_LINES)
            and sum(self.size.get(line, 0) for line in lines) <= MOST_INSTRUCTIONS
            and sum(self.markers.get(line, 0) for line in lines) <= MOST_PENDING
            and all(self.stores.get(line, 0) <= MOST_PENDING for line in lines)
        )


class Branches:
    """Asks px86 of the points of states: in a conversation, and by texts of what is too large for that."""

    def __init__(self, narrow: Narrow) -> None:
        self.narrow = narrow
        self.counts = narrow.case.recording.grain != LINE
        self.lock = threading.Lock()
        self.files = itertools.count()

    def confirm(self, state: State, leaves: Sequence[Leaf]) -> int:
        """Answers how many points there are. Where px86 has other values it fails; where it cannot be asked that is too large."""
        points = Points(state, self.narrow.case.names)
        points.add_leaves(leaves)
        return self.ask(points)

    def ask(self, points: Points) -> int:
        """Asks of these points; answers how many they are."""
        operations = pending_of(points.state)
        left = self.left_to_texts(points, operations)
        for lines, units in grouped(left, Sizes(operations, self.counts).fit):
            self.ask_some(points, on(operations, lines), points_of(units))
        return len(points.tried)

    def left_to_texts(self, points: Points, operations: Sequence[Operation]) -> dict[frozenset[int], list[Point]]:
        """Asks of all in the conversation. It answers what could not be asked there."""
        left: dict[frozenset[int], list[Point]] = {}
        by_line: dict[int, list[Operation]] = {}
        for operation in operations:
            by_line.setdefault(operation.line, []).append(operation)
        if points.binds:
            groups = grouped(points.units, lambda lines: numbers_of(points.state, on(operations, lines)).can_be_asked())
        else:
            groups = ((lines, {lines: asked}) for lines, asked in points.units.items())
        for lines, units in groups:
            some = on(operations, lines) if points.binds else by_line[min(lines)]
            if not self.ask_by_numbers(points, some, points_of(units)):
                left.update(units)
        return left

    def ask_by_numbers(self, points: Points, pending: Sequence[Operation], asked: Sequence[Point]) -> bool:
        """Whether these points could be asked of in the conversation."""
        if self.counts and points.binds:
            return False
        numbered = numbers_of(points.state, pending, self.counts)
        if not numbered.can_be_asked():
            return False
        questions = [numbered.question(point.word, point.given) for point in asked]
        case = self.narrow.case
        answers = case.px86.conversation.answers(numbered.entries, questions, case.write)
        if answers is None:
            return False
        for point, answer in zip(asked, answers):
            points.compare(point, numbered.values(point.word, point.given, answer))
        return True

    def ask_some(self, points: Points, operations: Sequence[Operation], asked: Sequence[Point]) -> None:
        """Asks of points of one state on some lines."""
        text = self.text(points, operations, asked)
        counts = text.contents is not None
        names = self.narrow.case.names
        answers = self.answers(
            text, [f"values {text.name(word)}" for word in text.words] if counts else [point.command(names.of) for point in asked]
        )
        for point, found in zip(asked, by_counts(text, asked, answers) if counts else answers):
            points.compare(point, found)

    def answers(self, text: Text, commands: Sequence[str]) -> list[list[int]]:
        case = self.narrow.case
        with self.lock:
            name = f"state{next(self.files)}"
        file = case.write(f"{name}.litmus", text.litmus(case.places))
        script = case.write(f"{name}.script", "".join(line + "\n" for line in [*text.steps_to(0), "go", *commands]))
        answers = case.px86.values(file, script, len(commands))
        os.remove(file)
        os.remove(script)
        return answers

    def text(self, points: Points, operations: Sequence[Operation], asked: Sequence[Point]) -> Text:
        """The text of these operations. If it is too large, without the stores to words that were not read: of the others a line
        has the same contents, one after another."""
        if self.counts and points.binds:
            raise TooLarge(f"px86 cannot be asked of {asked[0].told(points.names)}: flushes stand between the changes that it counts")
        try:
            return self.narrow.text_of(points.state, operations)
        except TooLarge:
            words = {word for point in asked for word in point.words}
        try:
            of_words = [done for done in operations if not done.stores or not words.isdisjoint(dict(done.stored))]
            return self.narrow.text_of(points.state, of_words)
        except TooLarge as large:
            raise TooLarge(f"px86 cannot be asked of {asked[0].told(points.names)}: {large}") from large


def by_counts(text: Text, asked: Sequence[Point], answers: Sequence[list[int]]) -> Iterator[list[int]]:
    """The values of each point, by the counts that the words of a text may have: each count has its contents."""
    contents = [text.stored([count]) for count in answers[0]]
    for point in asked:
        agree = [words for words in contents if all(words[word] == value for word, value in point.given)]
        yield sorted({words[point.word] for words in agree})


def numbers_of(state: State, pending: Sequence[Operation], counts: bool = False) -> Numbered:
    """Some of what is pending at a state, by numbers."""
    return (Changes if counts else Numbered)(pending, lambda word: state.history.value(word, state.number))


def points_of(units: dict[frozenset[int], list[Point]]) -> list[Point]:
    return list(dict.fromkeys(point for points in units.values() for point in points))


def pending_of(state: State) -> list[Operation]:
    """What is pending, as operations of one thread: whichever flush left a marker, it is the same."""
    operations = [
        operation if operation.stores else replace(operation, kind=Kind.FLUSH, name="clflush") for operation in state.pending
    ]
    return up_to_last_store(operations)


def on(operations: Sequence[Operation], lines: Collection[int]) -> list[Operation]:
    return [operation for operation in operations if operation.line in lines]


def grouped(
    units: dict[frozenset[int], list[Point]], fit: Callable[[frozenset[int]], bool]
) -> Iterator[tuple[frozenset[int], dict[frozenset[int], list[Point]]]]:
    """As few lists of lines as it takes, each with its units."""
    lines: frozenset[int] = frozenset()
    some: dict[frozenset[int], list[Point]] = {}
    for more, points in units.items():
        if some and not more <= lines and not fit(lines | more):
            yield lines, some
            lines, some = frozenset(), {}
        lines |= more
        some[more] = points
    if some:
        yield lines, some
