"""What a crash may leave of a run, point by point, without a list of all memories.

A state is a pending list beside what has persisted. A cut of it says what has persisted of the list: some first markers, and of each
line some first stores. A cut is free to take any number of stores of a line that the markers allow, whatever it takes of the other
lines. So the values that a word may have, given those of other words, are known without a look at all cuts."""

from __future__ import annotations

import bisect
import itertools
import random
from collections import Counter, defaultdict
from collections.abc import Collection, Iterator, Sequence
from functools import cached_property

from .memories import Part, parts_of, windows_of
from .recording import ACKNOWLEDGED, FILE_ROOM, Operation, Recording
from .threads import MOST_CHOICES, MOST_CHOICES_READ, late_runs, with_flushes_of, without_repeated_flushes


class History:
    """What each word has persisted with, state by state."""

    def __init__(self, recording: Recording) -> None:
        self.recording = recording
        self.places: dict[int, list[int]] = defaultdict(list)
        self.kept: dict[int, list[int]] = defaultdict(list)
        # All changes in a row: the first state that has them, the word, the value.
        self.changes: list[tuple[int, int, int]] = []

    def persist(self, number: int, word: int, value: int) -> None:
        """From the state with this number on the word has persisted with this value."""
        self.places[word].append(number)
        self.kept[word].append(value)
        self.changes.append((number, word, value))

    def value(self, word: int, number: int) -> int:
        place = bisect.bisect_right(self.places[word], number) if word in self.places else 0
        return self.kept[word][place - 1] if place else self.recording.first_value(word)


class Epoch:
    """Between two markers: of each line how many stores have persisted at least, and how many may have."""

    def __init__(self, least: Counter[int], most: Counter[int]) -> None:
        self.least, self.most = dict(least), dict(most)
        self.total = sum(most.values())


class State:
    """A memory of the run (memories.py). Its number is its place among all."""

    def __init__(self, number: int, pending: Sequence[Operation], history: History, part: Part | None = None) -> None:
        self.number, self.pending, self.history, self.part = number, pending, history, part
        # What ends the part before: a fence, a locked operation or a clflush.
        self.begin: Operation | None = None

    @cached_property
    def epochs(self) -> list[Epoch]:
        return epochs_of(self.pending)

    @property
    def total(self) -> int:
        """How many stores are pending."""
        return self.epochs[-1].total

    @property
    def words(self) -> list[int]:
        """The words of the first file that a crash may leave with more than one value."""
        return sorted(word for word in self.after if 0 <= word < FILE_ROOM)

    @cached_property
    def lines(self) -> dict[int, int]:
        """The line of each word of the list."""
        return {word: store.line for store in self.pending if store.stores for word, _ in store.stored}

    @cached_property
    def after(self) -> dict[int, list[int]]:
        """Of each word of the list its value after 0, 1, 2 .. stores of its line."""
        lines: dict[int, list[Operation]] = defaultdict(list)
        for operation in self.pending:
            if operation.stores:
                lines[operation.line].append(operation)
        after: dict[int, list[int]] = {}
        for stores in lines.values():
            stored = [dict(store.stored) for store in stores]
            for word in dict.fromkeys(word for words in stored for word in words):
                values = after[word] = [self.history.value(word, self.number)]
                for words in stored:
                    values.append(words.get(word, values[-1]))
        return after

    def cuts(self) -> Cuts:
        """All its cuts."""
        return Cuts(self)

    def forget(self) -> None:
        """Takes no room for what can be found again."""
        self.__dict__.pop("after", None)
        self.__dict__.pop("epochs", None)
        self.__dict__.pop("lines", None)

    def value(self, word: int, words: dict[int, int]) -> int:
        """What a word has in a memory in which the pending words have these values."""
        return words[word] if word in words else self.history.value(word, self.number)


def epochs_of(pending: Sequence[Operation]) -> list[Epoch]:
    """Where a marker has gone, and no store comes before the next, there is nothing new: what its line then has at least, it may have
    had before."""
    epochs: list[Epoch] = []
    least: Counter[int] = Counter()
    most: Counter[int] = Counter()
    has_more = True
    for operation in pending:
        if operation.stores:
            most[operation.line] += 1
            has_more = True
            continue
        if has_more:
            epochs.append(Epoch(least, most))
        has_more = False
        least[operation.line] = most[operation.line]
    return epochs + [Epoch(least, most)] if has_more else epochs


class Cuts:
    """The cuts of a state that agree with what was read of it."""

    def __init__(self, state: State) -> None:
        self.state = state
        # The words that were read, with their values.
        self.taken: list[tuple[int, int]] = []
        # Of a line that was read: how many of its stores may have persisted.
        self.counts: dict[int, list[int]] = {}
        # The epochs that are left: how many stores may have persisted in all, and of lines that were read how many of theirs.
        self.kept = {number: epoch.total for number, epoch in enumerate(state.epochs)}
        self.most: dict[tuple[int, int], int] = {}

    def copy(self) -> Cuts:
        made = Cuts.__new__(Cuts)
        made.state, made.taken, made.counts = self.state, list(self.taken), dict(self.counts)
        made.kept, made.most = dict(self.kept), dict(self.most)
        return made

    def counts_of(self, line: int, word: int) -> Sequence[int]:
        return self.counts.get(line) or range(len(self.state.after[word]))

    def is_within(self, epoch: int, line: int, count: int) -> bool:
        bounds = self.state.epochs[epoch]
        return bounds.least.get(line, 0) <= count <= bounds.most.get(line, 0)

    def values(self, word: int) -> list[int]:
        """The values that a word may have, that with the most stores first. Of what was acknowledged only the greatest counts if
        nothing orders it: of equal memories it promises most."""
        line, after = self.state.lines[word], self.state.after[word]
        counts = [n for n in self.counts_of(line, word) if any(self.is_within(epoch, line, n) for epoch in self.kept)]
        values = list(dict.fromkeys(after[count] for count in reversed(counts)))
        return values[:1] if word == ACKNOWLEDGED and len(self.state.epochs) == 1 else values

    def most_with(self, word: int, value: int) -> tuple[list[int], dict[int, int]]:
        """The counts of the word's line with which it has a value, and for each epoch that has some the greatest."""
        line, after = self.state.lines[word], self.state.after[word]
        counts = [count for count in self.counts_of(line, word) if after[count] == value]
        most = {}
        for epoch in self.kept:
            within = [count for count in counts if self.is_within(epoch, line, count)]
            if within:
                most[epoch] = within[-1]
        return counts, most

    def gain(self, epoch: int, line: int, most: int) -> int:
        """How many stores more persist at most if it is so many of this line."""
        return most - self.most.get((epoch, line), self.state.epochs[epoch].most.get(line, 0))

    def lost_with(self, word: int, value: int) -> int:
        """How many stores are lost at least if a word has this value."""
        _, most = self.most_with(word, value)
        line = self.state.lines[word]
        return self.state.total - max(self.kept[epoch] + self.gain(epoch, line, count) for epoch, count in most.items())

    def lost(self) -> int:
        """How many stores are lost at least."""
        return self.state.total - max(self.kept.values())

    def take(self, word: int, value: int) -> None:
        """A word was read with this value."""
        self.taken.append((word, value))
        line = self.state.lines[word]
        self.counts[line], most = self.most_with(word, value)
        self.kept = {epoch: self.kept[epoch] + self.gain(epoch, line, count) for epoch, count in most.items()}
        for epoch, count in most.items():
            self.most[epoch, line] = count

    def memory(self) -> dict[int, int]:
        """The memory of the cut that loses the fewest stores, as the values of the pending words."""
        epoch = max(self.kept, key=lambda number: self.kept[number])
        most = self.state.epochs[epoch].most
        return self.with_counts({line: self.most.get((epoch, line), count) for line, count in most.items()})

    def random_memory(self, generator: random.Random) -> dict[int, int]:
        """The memory of any of the cuts."""
        epoch = generator.choice(sorted(self.kept))
        bounds = self.state.epochs[epoch]
        counts = {}
        for line in set(self.state.lines.values()):
            least, most = bounds.least.get(line, 0), bounds.most.get(line, 0)
            counts[line] = generator.choice([n for n in self.counts.get(line, range(least, most + 1)) if least <= n <= most])
        return self.with_counts(counts)

    def with_counts(self, counts: dict[int, int]) -> dict[int, int]:
        return {word: after[counts.get(self.state.lines[word], 0)] for word, after in self.state.after.items()}


def states_of_threads(recording: Recording, lines: Collection[int] | None = None) -> Iterator[State]:
    """The memory of each list of choices (threads.py). With some lines the choices of these lines alone: the memories are then all
    that there are, and some more, of which what they have on these lines is what a crash may leave there."""
    operations, most = recording.operations, MOST_CHOICES
    if lines is not None:
        operations, most = with_flushes_of(operations, lines), MOST_CHOICES_READ
    history = History(recording)
    for number, run in enumerate(late_runs(without_repeated_flushes(operations), recording.threads, most)):
        yield State(number, run.pending, history)


def states_of(recording: Recording) -> Iterator[State]:
    """Each memory of a run: of one thread at each fence and the end, and at each clflush that stores follow, where one that stores
    nothing new leaves nothing new."""
    if len(recording.threads) > 1:
        yield from states_of_threads(recording)
        return
    history = History(recording)
    number, begin = 0, None
    for part in itertools.chain.from_iterable(map(parts_of, windows_of(recording.operations))):
        if number == 0 or part.is_new:
            state = State(number, part.pending, history, part)
            state.begin = begin
            yield state
            number += 1
        for store in part.persisted:
            for word, value in store.stored:
                history.persist(number, word, value)
        begin = part.end
