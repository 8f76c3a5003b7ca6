"""The text of a run of several threads: one processor a thread, and looks at the memories of the recorded order.

Each store is visible at once, in the recorded order, and each flush takes effect as late as it may. Where a flush waits and a
store of its line comes, there is a choice: it takes effect before that store or not. So there is a look for each list of choices.
That these looks have all images of the order is tested (tools/recording-model windows)."""

from __future__ import annotations

import math
import os
from collections import Counter
from collections.abc import Collection, Sequence
from dataclasses import dataclass, field

from .faults import Refused
from .memories import MOST_CANDIDATES, candidates
from .one_thread import MOST_PENDING
from .recording import ACKNOWLEDGED, Kind, Operation, Recording
from .text import MOST_LINES, TICK, Look, Names, Text, Tick, instructions, printable

# How many lists of choices there may be: of all lines, and of those alone that the checker reads.
MOST_CHOICES, MOST_CHOICES_READ = 256, 4096
MOST_BUFFERED = 128


def holds(earlier: Operation, later: Operation) -> bool:
    """Whether an entry of a store buffer waits for an earlier one: the table of kept order (docs/MODEL.md)."""
    if earlier.kind is Kind.STORE_FENCE:
        return True
    if earlier.kind is Kind.OPTIMIZED_FLUSH:
        return later.kind is Kind.STORE_FENCE or later.kind is Kind.FLUSH and earlier.line == later.line
    return later.kind is not Kind.OPTIMIZED_FLUSH or earlier.line == later.line


class TooManyWays(Refused):
    """There are too many lists of choices."""


class OneChoiceMore(Exception):
    """A run came to a choice for which its list has none."""


class LateRun:
    """Makes the steps of a run by this list of choices."""

    def __init__(self, threads: Sequence[int], choices: Sequence[bool]) -> None:
        self.number = {thread: number for number, thread in enumerate(threads)}
        self.buffers: dict[int, list[Operation]] = {thread: [] for thread in threads}
        self.choices = list(choices)
        self.steps: list[str] = []
        self.pending: list[Operation] = []

    def leave(self, thread: int, entry: Operation) -> None:
        """Has an entry leave its store buffer, and before it what holds it."""
        buffer = self.buffers[thread]
        for holder in [earlier for earlier in buffer[: buffer.index(entry)] if holds(earlier, entry)]:
            if holder in buffer:
                self.leave(thread, holder)
        self.steps.append(f"drain {self.number[thread]} {buffer.index(entry)}")
        buffer.remove(entry)
        if entry.kind is not Kind.STORE_FENCE:
            self.pending.append(entry)

    def leave_all(self, thread: int) -> None:
        while self.buffers[thread]:
            self.leave(thread, self.buffers[thread][0])

    def choose(self, store: Operation) -> None:
        """Asks of each flush of the line that waits whether it takes effect before the store."""
        for thread, buffer in self.buffers.items():
            for entry in list(buffer):
                own = thread == store.thread and entry.kind is Kind.FLUSH
                if entry in buffer and entry.flushes and entry.line == store.line and not own:
                    if not self.choices:
                        raise OneChoiceMore
                    if self.choices.pop(0):
                        self.leave(thread, entry)

    def run(self, operation: Operation) -> None:
        thread = operation.thread
        buffer = self.buffers[thread]
        if operation.kind is Kind.ELSEWHERE:
            # A store to other memory waits for the fences before it.
            for entry in list(buffer):
                if entry in buffer and entry.kind in (Kind.STORE_FENCE, Kind.FLUSH):
                    self.leave(thread, entry)
            return
        if operation.kind in (Kind.LOCKED, Kind.FULL_FENCE):
            self.leave_all(thread)
        if operation.stores:
            self.choose(operation)
        self.steps += [f"exec {self.number[thread]}"] * instructions(operation)
        if operation.kind is Kind.LOCKED:
            self.pending.append(operation)
        elif operation.kind is not Kind.FULL_FENCE:
            buffer.append(operation)
            if len(buffer) > MOST_BUFFERED:
                raise Refused(f"more than {MOST_BUFFERED} flushes and fences of a thread wait, the limit of px86")
            if operation.kind is Kind.STORE:
                self.leave(thread, operation)


def late_run(operations: Sequence[Operation], threads: Sequence[int], choices: Sequence[bool]) -> LateRun:
    run = LateRun(threads, choices)
    for operation in operations:
        run.run(operation)
    return run


@dataclass
class Behind:
    """What stands behind a place in what a thread does, as the numbers of operations; those that are not there are infinite."""

    # The next store, or operation elsewhere: fences and flushes that are ordered before it take effect at last there.
    store: float = math.inf
    # The next operation that everything before it waits for at last.
    all_before: float = math.inf
    # Where the next fence takes effect at last, and so all optimized flushes before it.
    fence: float = math.inf
    # Of each line, where the next flush that optimized flushes of it wait for takes effect at last.
    flushes: dict[int, float] = field(default_factory=dict)
    # Of each line, where its next flush takes effect at last.
    last: dict[int, float] = field(default_factory=dict)
    is_fence: bool = False

    def at_last(self, flush: Operation) -> float:
        """Where a flush takes effect at last."""
        if flush.kind is Kind.FLUSH:
            return min(self.store, self.all_before)
        return min(self.fence, self.all_before, self.flushes.get(flush.line, math.inf))


def without_repeated_flushes(operations: Sequence[Operation]) -> list[Operation]:
    """Without each optimized flush behind which another one of its line stands, by the same thread, that takes effect at last at the
    same place. It may wait for that one, and then changes nothing. So of a loop that flushes lines and fences while it waits for another
    thread one turn is left. Of fences with nothing between them one is left."""
    threads: dict[int, Behind] = {}
    left: list[Operation] = []
    for number, operation in zip(range(len(operations) - 1, -1, -1), reversed(operations)):
        behind = threads.setdefault(operation.thread, Behind())
        if operation.flushes:
            place = behind.at_last(operation)
            if operation.kind is Kind.OPTIMIZED_FLUSH and behind.last.get(operation.line) == place:
                continue
            behind.last[operation.line] = place
            if operation.kind is Kind.FLUSH:
                behind.flushes[operation.line] = place
        elif operation.kind is Kind.STORE_FENCE:
            if behind.is_fence:
                continue
            behind.fence = min(behind.store, behind.all_before)
        elif operation.kind in (Kind.LOCKED, Kind.FULL_FENCE):
            behind.all_before = number
        else:
            behind.store = number
        behind.is_fence = operation.kind is Kind.STORE_FENCE
        left.append(operation)
    return left[::-1]


def with_flushes_of(operations: Sequence[Operation], lines: Collection[int]) -> list[Operation]:
    """The operations without the flushes of other lines. Of these lines a crash may leave the same, and of the others more."""
    return [operation for operation in operations if not operation.flushes or operation.line in lines]


def late_runs(operations: Sequence[Operation], threads: Sequence[int], most: int = MOST_CHOICES) -> list[LateRun]:
    """The run of each list of choices."""
    todo: list[tuple[bool, ...]] = [()]
    runs: list[LateRun] = []
    while todo:
        choices = todo.pop()
        try:
            runs.append(late_run(operations, threads, choices))
        except OneChoiceMore:
            todo += [choices + (True,), choices + (False,)]
        if len(todo) + len(runs) > most:
            raise TooManyWays(f"flushes may pass stores of their own line in more than {most:,} ways (several threads)")
    return runs


def text_of_threads(recording: Recording, names: Names, most_instructions: int, asked: frozenset[int] = frozenset()) -> Text:
    """The text of all threads, with a look for each list of choices."""
    operations, threads = without_repeated_flushes(recording.operations), recording.threads
    head = f"recorded: {printable(os.path.basename(recording.name))}, {len(threads)} threads"
    text = Text(operations, threads, {}, {}, names, asked=asked, head=head)
    refuse_if_too_large(text, operations, most_instructions)
    text.initial = {word: recording.first_value(word) for word in text.words if word != ACKNOWLEDGED}
    for run in late_runs(operations, threads):
        number = candidates(run.pending)
        if number > MOST_CANDIDATES:
            lines = {store.line for store in run.pending if store.stores}
            raise Refused(
                f"the run of several threads stores to {len(lines)} lines; a crash may leave this in more than "
                f"{MOST_CANDIDATES:,} ways, the limit of px86"
            )
        text.looks.append(Look([], list(run.steps), list(run.pending), number))
        for thread in threads:
            run.leave_all(thread)
        text.ending = run.steps
    return text


def refuse_if_too_large(text: Text, operations: Sequence[Operation], most_instructions: int) -> None:
    sizes: Counter[int] = Counter()
    for operation in operations:
        sizes[operation.thread] += instructions(operation)
    size = max(sizes.values(), default=0)
    stores = Counter(operation.line for operation in operations if operation.stores)
    flushes = sum(operation.flushes for operation in operations)
    if size > most_instructions or len(text.lines) > MOST_LINES:
        raise Refused(
            f"a run of several threads is not cut: a thread has {size} instructions, and the run {len(text.lines)} lines "
            f"(at most {most_instructions} and {MOST_LINES})"
        )
    if max(stores.values(), default=0) > MOST_PENDING or flushes > MOST_PENDING:
        raise Refused(f"a run of several threads is not cut: more than {MOST_PENDING} stores of a line, or flushes")


def ordered(operations: Sequence[Operation]) -> list[Operation | Tick]:
    """The operations, with marks of their order. Where the thread changes between two operations that others see, the first
    thread stores a tick behind its own, and the second waits for it."""
    marked: list[Operation | Tick] = []
    last: Operation | None = None
    number = 0
    for operation in operations:
        if operation.stores or operation.kind is Kind.ELSEWHERE or operation.kind is Kind.FULL_FENCE and operation.note:
            if last is not None and last.thread != operation.thread:
                number += 1
                marked.insert(marked.index(last) + 1, Tick(last.thread, number, False))
                marked.append(Tick(operation.thread, number, True))
            last = operation
        marked.append(operation)
    return marked


def ordered_text(text: Text, operations: Sequence[Operation]) -> Text:
    """The text of these operations with the order of threads in it, for `px86 check`."""
    return Text(
        ordered(operations),
        text.threads,
        {},
        text.initial,
        text.names,
        asked=text.asked | {TICK},
        head=f"{text.head}, in the order in which their stores were recorded",
    )
