"""What would do where a crash may leave a memory that is not accepted: flushes and fences, told by the lines of the source.

A text has the words of that memory that were lost, and the last one that was kept, with all flushes and fences, up to the fence behind
them. `px86 mend` finds the flushes and fences with which no run of it leaves them so. These are put into the recording, wherever it
came to their lines of the source, and all that it may leave is asked about again. Where another memory is refused `px86 mend` is asked
for what does for both."""

from __future__ import annotations

import contextlib
import os
import time
from collections import Counter
from collections.abc import Callable, Collection, Iterable, Iterator, Mapping, Sequence
from copy import copy
from dataclasses import dataclass, replace
from itertools import groupby

from .answer import Case
from .faults import Failed, Late, Refused
from .memories import windows_of
from .places import Places
from .recording import ACKNOWLEDGED, LINE, Kind, Operation, Recording, first_word_of, is_of_file, matters, order_of
from .report import Report
from .states import State, states_of
from .text import MOST_INSTRUCTIONS, MOST_LINES, TICK, Text, Tick, instructions, printable
from .threads import ordered

# How many memories are excluded by one repair.
MOST_REFUSED = 4
# So many states are told apart at most.
MOST_STATES = 100_000
KINDS = {"clwb": Kind.OPTIMIZED_FLUSH, "clflush": Kind.FLUSH, "sfence": Kind.STORE_FENCE, "mfence": Kind.FULL_FENCE}
MSYNC = "msync"


@dataclass(frozen=True)
class Memory:
    """A memory that is not accepted: what its words have, and the operations of which they were lost."""

    values: dict[int, int]
    pending: Sequence[Operation]

    def telling(self) -> dict[int, int]:
        """The words of which something is lost, and that of the last store that is kept."""
        newest = {word: value for store in self.pending if store.stores for word, value in store.stored}
        lost = {word: value for word, value in self.values.items() if newest.get(word, value) != value}
        kept = [word for store in self.pending if store.stores for word, value in store.stored if self.values.get(word) == value]
        kept = [word for word in kept if word not in lost]
        return {**lost, **{word: self.values[word] for word in kept[-1:]}}


@dataclass(frozen=True)
class Put:
    """An instruction that is put in behind an operation."""

    instruction: str
    behind: Operation

    @property
    def flushes(self) -> bool:
        return KINDS[self.instruction] in (Kind.FLUSH, Kind.OPTIMIZED_FLUSH)


@dataclass(frozen=True)
class Repair:
    """What is put in, and whether all that a crash may then leave is accepted; none if that is not known."""

    puts: Sequence[Put]
    is_accepted: bool | None
    file: str


# --- putting in


class PutIn:
    """Puts instructions in behind each row of operations of one thread that one line of the source has made."""

    def __init__(self, puts: Iterable[Put], places: Places, by_msync: bool) -> None:
        self.places, self.by_msync = places, by_msync
        self.by_line: dict[str, list[Put]] = {}
        for put in puts:
            self.by_line.setdefault(places.of(put.behind.place), []).append(put)

    def into(self, recording: Recording) -> Recording:
        made = copy(recording)
        made.operations = list(self.added_to(recording.operations))
        made.with_locks = list(self.added_to(recording.with_locks))
        return made

    def added_to(self, operations: Sequence[Operation]) -> Iterator[Operation]:
        following: dict[int, str] = {}
        ends = []
        for operation in reversed(operations):
            line = self.places.of(operation.place)
            ends.append(following.get(operation.thread) != line)
            following[operation.thread] = line
        rows: dict[int, list[Operation]] = {}
        for operation, is_last in zip(operations, reversed(ends)):
            row = rows.setdefault(operation.thread, [])
            row.append(operation)
            yield operation
            if is_last:
                yield from self.behind(row)
                row.clear()

    def behind(self, row: Sequence[Operation]) -> Iterator[Operation]:
        last = row[-1]
        for put in self.by_line.get(self.places.of(last.place), ()):
            name = put.instruction
            if put.flushes:
                for line in dict.fromkeys(store.line for store in row if store.stores and store.word >= 0):
                    kind = Kind.FLUSH if self.by_msync else KINDS[name]
                    yield Operation(kind, last.thread, last.place, first_word_of(line, LINE), name=kind.value)
            if self.by_msync or not put.flushes:
                kind = Kind.FULL_FENCE if self.by_msync else KINDS[name]
                yield Operation(kind, last.thread, last.place, name=kind.value)


def is_synced(recording: Recording) -> bool:
    """Whether msync alone makes durable what this program stores."""
    return any(operation.note == MSYNC for operation in recording.operations) and all(
        operation.note == MSYNC or operation.word == ACKNOWLEDGED for operation in recording.operations if operation.flushes
    )


def is_left(recording: Recording, values: Mapping[int, int]) -> bool:
    """Whether a crash of a recording may leave these values."""
    return any(is_left_by(state, values) for state in states_of(recording))


def is_left_by(state: State, values: Mapping[int, int]) -> bool:
    cuts = state.cuts()
    for word, value in values.items():
        if word not in state.lines:
            if state.history.value(word, state.number) != value:
                return False
            continue
        if value not in cuts.values(word):
            return False
        cuts.take(word, value)
    return True


# --- the text


def window_of(recording: Recording, store: Operation) -> Sequence[Operation]:
    """The operations of the window that has this store, with those that it carries."""
    return next((window.operations for window in windows_of(recording.operations) if any(store is done for done in window.added)), [])


def stretch(operations: Sequence[Operation], pending: Iterable[Operation], words: Collection[int]) -> tuple[int, int]:
    """From behind the fence before the first of the pending stores to these words, up to the fence behind the last."""
    ours = {id(store) for store in pending if store.stores and any(word in words for word, _ in store.stored)}
    places = [place for place, operation in enumerate(operations) if id(operation) in ours]
    if not places:
        return 0, 0
    begin, end = places[0], places[-1] + 1
    while begin > 0 and not operations[begin - 1].fences:
        begin -= 1
    while end < len(operations) and not operations[end - 1].fences:
        end += 1
    return begin, end


def on_words(recording: Recording, operations: Iterable[Operation], words: Collection[int]) -> list[Operation]:
    """The operations on some words, with the flushes of their lines. Of the others the order is left."""
    operations = list(operations)
    lines = {operation.line for operation in operations if operation.stores and operation.word in words}

    def is_left_out(operation: Operation) -> bool:
        return operation.flushes and operation.line not in lines or operation.stores and operation.word not in words

    left = [order_of(operation) if is_left_out(operation) else operation for operation in operations]
    return matters([operation for operation in left if operation is not None and recording.is_used(operation)], keeps_locks=True)


Asks = Callable[[Recording, "Repairs"], Memory | None]


class Repairs:
    """Looks for a repair of a recording, for some seconds. Of a checker `asks` tells which memory of another recording it does not
    accept, or none; it is late if that is not known in time. A condition is asked of texts."""

    def __init__(self, case: Case, seconds: float, asks: Asks, condition: str = "", asked: Iterable[int] = ()) -> None:
        self.case, self.asks, self.condition, self.asked = case, asks, condition, frozenset(asked)
        self.until = time.monotonic() + seconds
        self.by_msync = is_synced(case.recording)

    @property
    def seconds(self) -> float:
        """How many are left."""
        left = self.until - time.monotonic()
        if left <= 0:
            raise Late("the time is over")
        return left

    def look(self, first: Memory) -> Repair | None:
        """The repair for a memory. What is found when the time is over counts."""
        self.found: Repair | None = None
        with contextlib.suppress(Failed, Refused):
            self.look_for(first)
        return self.found

    def look_for(self, first: Memory) -> None:
        refused = [first]
        while len(refused) <= MOST_REFUSED:
            more = self.mend(refused)
            if more is None or self.found is not None and more.puts == self.found.puts:
                return
            mended = PutIn(more.puts, self.case.places, self.by_msync).into(self.case.recording)
            if not self.condition and any(is_left(mended, memory.telling()) for memory in refused):
                return
            self.found = more
            memory = self.asks(mended, self)
            self.found = replace(more, is_accepted=memory is None)
            if memory is None:
                return
            if self.condition:
                self.found = None
                return
            refused.append(memory)

    def mend(self, refused: Sequence[Memory]) -> Repair | None:
        """What px86 would put in, so that no run of a text leaves one of these memories, or makes the condition false."""
        telling = [memory.telling() for memory in refused]
        words = self.asked.union(*([] if self.condition else telling))
        text = self.text_of(self.case.recording, refused, words)
        if text is None or not self.condition and not all(telling):
            return None
        asked = text.ask(self.condition) if self.condition else text.ask_for_none(telling)
        numbered = list(text.numbered(self.case.places))
        file = self.case.write("mend.litmus", "".join(line + "\n" for line, _ in numbered))
        puts = []
        for instruction, number in self.case.px86.mend(file, asked, MOST_STATES, self.seconds):
            behind = numbered[number - 1][1]
            # What marks the order of threads, or an acknowledgement, is none of the program's own.
            if not isinstance(behind, Operation) or instruction.startswith("cl") and behind.word < 0:
                return None
            puts.append(Put(instruction, behind))
        is_none = not puts or self.by_msync and not any(put.flushes for put in puts)
        return None if is_none else Repair(tuple(puts), None, file)

    def text_of(self, recording: Recording, refused: Sequence[Memory], words: Collection[int]) -> Text | None:
        """The text of a run on these words: of all of it for a condition, or if it has several threads; otherwise, or if that is too
        large, of the windows of these memories."""
        if self.condition or len(recording.threads) > 1:
            text = self.text(recording, 0, len(recording.with_locks), words)
            if text is not None or len(recording.threads) > 1:
                return text
        pending = [operation for memory in refused for operation in memory.pending]
        return self.text(recording, *stretch(recording.with_locks, pending, words), words)

    def text(self, recording: Recording, begin: int, end: int, words: Collection[int]) -> Text | None:
        """The text of some operations in a row, if it is not too large."""
        kept = on_words(recording, recording.with_locks[begin:end], words)
        is_ordered = len(recording.threads) > 1
        operations: Sequence[Operation | Tick] = kept
        if is_ordered:
            operations = ordered(kept)
        asked = self.asked | (frozenset([TICK]) if is_ordered else frozenset())
        head = f"recorded: {printable(os.path.basename(recording.name))}, as px86 mend is asked of it"
        text = Text(operations, recording.threads, {}, {}, self.case.names, asked=asked, head=head)
        for word in text.words:
            text.initial[word] = recording.first_value(word) if is_of_file(word) else 0
        for operation in recording.with_locks[:begin]:
            if operation.stores:
                text.initial.update((word, value) for word, value in operation.stored if word in text.initial)
        sizes = Counter({thread: 0 for thread in recording.threads})
        for operation in kept:
            sizes[operation.thread] += instructions(operation)
        return text if 0 < max(sizes.values()) <= MOST_INSTRUCTIONS and len(text.lines) <= MOST_LINES else None

    def refuses(self, recording: Recording) -> Memory | None:
        """Asks px86 of all runs of a recording whether the condition holds; a memory of nothing, if it does not."""
        text = self.text(recording, 0, len(recording.with_locks), self.asked)
        if text is None:
            raise Late("the text of all of it is too large")
        asked = text.ask(self.condition)
        file = self.case.write("mended.litmus", text.litmus(self.case.places))
        words = ("check", "--before-crash", "--all", asked, file, "--no-steps")
        status = self.case.px86.report(*words, seconds=self.seconds)[0]
        if status not in (0, 1):
            raise Late("it is not known")
        return Memory({}, ()) if status else None


# --- in words


def say_repair(report: Report, case: Case, repair: Repair, by_msync: bool, has_condition: bool) -> None:
    """Says what is put in, and what is known of that."""
    everything = "the condition holds in" if has_condition else "the checker accepts"
    known = {
        True: f"{everything} all that a crash may leave of this run",
        False: "no crash leaves this memory, but another one is not accepted",
        None: "no crash leaves this memory",
    }[repair.is_accepted]
    report.say(f"  repair: {' and '.join(told(case, repair.puts, by_msync))}: with it {known}")
    puts = [
        {"instruction": MSYNC if by_msync else put.instruction, "word": word_of(case, put), "behind": case.places.of(put.behind.place)}
        for put in puts_to_tell(repair.puts, by_msync)
    ]
    report.note(repair={"put": puts, "accepted": repair.is_accepted, "text": repair.file})


def puts_to_tell(puts: Sequence[Put], by_msync: bool) -> list[Put]:
    return [put for put in puts if put.flushes or not by_msync]


def word_of(case: Case, put: Put) -> str | None:
    """The name of the word of which the line is flushed."""
    return case.names.of(put.behind.word) if put.flushes else None


def told(case: Case, puts: Sequence[Put], by_msync: bool) -> Iterator[str]:
    """What is put in behind each line of the source."""
    for line, some in groupby(puts_to_tell(puts, by_msync), lambda put: case.places.of(put.behind.place)):
        what = []
        for put in some:
            name = MSYNC if by_msync else put.instruction
            field = case.places.fields.of(put.behind.word) if put.flushes else None
            word = f"{field} ({word_of(case, put)})" if field else word_of(case, put)
            what.append(f"{'a' if name.startswith('cl') else 'an'} {name}{f' of {word}' if word else ''}")
        yield f"{' and '.join(what)} behind {line}"
