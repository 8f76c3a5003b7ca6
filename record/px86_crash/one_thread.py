"""The texts of a run of one thread: windows in a row, as many as a text holds, each with a look at its memory."""

from __future__ import annotations

import os
from collections import Counter
from collections.abc import Callable, Collection, Iterable, Iterator, Mapping, Sequence
from dataclasses import replace

from .faults import TooLarge, plural
from .memories import MOST_CANDIDATES, Part, Window, candidates, flushed, parts_of, windows_of
from .places import Places
from .recording import LINE, WORD, Kind, Operation, Recording
from .text import MOST_LINES, Look, Names, Text, instructions, printable

# How many stores of one line, and how many markers of flushes, may be pending in px86.
MOST_PENDING = 256
AGAIN = "from before: no flush and fence came behind it yet"


def without_repeated_flushes(operations: Sequence[Operation]) -> list[Operation]:
    """Without each optimized flush that another flush of its line follows before the next fence: it changes neither what is
    pending nor what the fence has persist."""
    again: set[int] = set()
    left: list[Operation] = []
    for operation in reversed(operations):
        if operation.kind is Kind.OPTIMIZED_FLUSH and operation.line in again:
            continue
        if operation.flushes:
            again.add(operation.line)
        left.append(operation)
    return left[::-1]


def without_idle_flushes(operations: Sequence[Operation]) -> list[Operation]:
    """Without each clflush of a line that is not stored behind the clflush before it. Each marker makes candidates, and this one no
    memory: what it has persist has persisted for that other one, or before the window."""
    stored: set[int] = set()
    left: list[Operation] = []
    for operation in operations:
        if operation.kind is Kind.FLUSH:
            if operation.line not in stored:
                continue
            stored.remove(operation.line)
        elif operation.stores:
            stored.add(operation.line)
        left.append(operation)
    return left


def lines_of(operations: Iterable[Operation]) -> set[int]:
    return {operation.line for operation in operations if operation.stores}


class Planner:
    """Goes through the windows of a run, and makes texts of them."""

    def __init__(
        self,
        recording: Recording,
        names: Names,
        places: Places,
        most_instructions: int,
        asked: frozenset[int] = frozenset(),
        parts: Callable[[Window], Iterable[Part]] = parts_of,
    ) -> None:
        self.recording, self.names, self.places = recording, names, places
        self.most_instructions = most_instructions
        self.asked = asked
        # The memories of a window.
        self.parts = parts
        # A sector or a page has too many words for a line of a text, so its changes are counted.
        self.counts = recording.grain != LINE
        self.persisted: dict[int, int] = {}
        # The windows of the next text, how many instructions they are, and their lines.
        self.group: list[Window] = []
        self.size = 0
        self.lines: set[int] = set()
        self.texts: list[Text] = []
        self.number = 0
        self.last_end: Operation | None = None
        self.looked = False

    def plan(self) -> list[Text]:
        for window in windows_of(self.recording.operations):
            window = self.usable(window)
            if self.counts or self.is_too_large(window) or self.candidates(window) > MOST_CANDIDATES:
                self.close()
                self.texts.append(self.counted(window))
                self.persist(window)
            else:
                self.gather(window)
            self.last_end = window.end
        self.close()
        return self.texts

    def usable(self, window: Window) -> Window:
        """The window as a text has it: what it carries is stored again, and flushes that order nothing are left out."""
        carried = [replace(store, kind=Kind.STORE, note=store.note or AGAIN) for store in window.operations[: window.carried]]
        lines = lines_of(window.operations)
        added = [operation for operation in window.added if operation.stores or operation.line in lines]
        return Window(without_idle_flushes(carried + without_repeated_flushes(added)), window.carried, window.end)

    def candidates(self, window: Window) -> int:
        """How many candidates the memory of a window has that has most."""
        return max(candidates(part.pending) for part in self.parts(window))

    def fits(self, size: int, lines: Collection[int]) -> bool:
        asked = set(map(self.recording.line_of, self.asked))
        return size <= self.most_instructions and len(asked.union(lines)) <= MOST_LINES

    def is_too_large(self, window: Window) -> bool:
        """Whether a window is too large for a text of its own."""
        stores = Counter(operation.line for operation in window.operations if operation.stores)
        if max(stores.values(), default=0) > MOST_PENDING or flush_count(window) > MOST_PENDING:
            return True
        return not self.fits(size_of(window.operations, window.fence), set(stores))

    def gather(self, window: Window) -> None:
        """Takes a window into the next text, or into one more if that is full."""
        size, lines = size_of(window.added, window.fence), lines_of(window.added)
        if self.group and not self.fits(self.size + size, self.lines | lines):
            self.close()
        if not self.group:
            size, lines = size_of(window.operations, window.fence), lines_of(window.operations)
        self.group.append(window)
        self.size += size
        self.lines |= lines

    def close(self) -> None:
        """Makes a text of the windows that were gathered."""
        if not self.group:
            return
        before = dict(self.persisted)
        for window in self.group:
            self.persist(window)
        self.texts.append(self.text(self.group, before, self.asked))
        self.group, self.size, self.lines = [], 0, set()

    def persist(self, window: Window) -> None:
        for store in flushed(window.operations):
            self.persisted.update(store.stored)

    def text(
        self,
        windows: Sequence[Window],
        persisted: dict[int, int],
        asked: frozenset[int],
        contents: dict[int, list[dict[int, int]]] | None = None,
    ) -> Text:
        text = Text(
            operations_of(windows),
            self.recording.threads,
            persisted,
            {},
            self.names,
            contents=contents,
            asked=asked,
            grain=self.recording.grain,
            head=f"recorded: {printable(os.path.basename(self.recording.name))}, {self.number_windows(len(windows))}",
        )
        text.initial = {word: self.value(persisted, word) for word in text.words if not (contents and word in contents)}
        numbers = {line: number for number, line in enumerate(text.lines)}
        lead: list[str] = []
        for place, window in enumerate(windows):
            # The first window of a text begins with what it carries. The others find it pending.
            new = window.added if place else window.operations
            for part, steps in steps_to_parts(self.parts(window), window.carried if place else 0, numbers):
                if not self.looked or part.is_new:
                    self.looked = True
                    text.looks.append(Look(lead, steps, part.pending, candidates(part.pending)))
                    lead = []
            text.ending = lead + run_early(new, window.fence)
            lead = text.ending + persist_flushed(window.operations, numbers)
        return text

    def number_windows(self, count: int) -> str:
        """Which windows a text has. A window ends with a fence."""
        first, self.number = self.number + 1, self.number + count
        return f"window {first}" if count == 1 else f"windows {first} to {self.number}"

    def value(self, persisted: Mapping[int, int], word: int) -> int:
        return persisted[word] if word in persisted else self.recording.first_value(word)

    def counted(self, window: Window) -> Text:
        """A text of this window alone, in which each line is one word that counts the changes of the line. A line persists in
        order, so these counts say all."""
        contents, operations = self.first_contents(window), []
        for operation in window.operations:
            first = self.recording.first_word_of(operation.line)
            if operation.word < 0:
                counted = operation
            elif operation.flushes:
                counted = replace(operation, word=first)
            else:
                changes = contents[first]
                changes.append({**changes[-1], **dict(operation.stored)})
                counted = self.change(operation, len(changes) - 1)
            operations.append(counted)
        small = Window(operations, window.carried, window.end)
        self.refuse_if_too_large(window, small)
        asked = frozenset(word for word in self.asked if self.first_of(word) not in contents)
        if asked != self.asked:
            raise TooLarge(f"{self.where(window)} the changes of lines are counted, and --all asks for a word of such a line")
        return self.text([small], dict(self.persisted), asked, contents)

    def first_contents(self, window: Window) -> dict[int, list[dict[int, int]]]:
        """Of each line that a window stores what the words that it stores have at first."""
        contents: dict[int, list[dict[int, int]]] = {}
        for operation in window.operations:
            if operation.stores and operation.word >= 0:
                first = contents.setdefault(self.first_of(operation.word), [{}])[0]
                first.update((word, self.value(self.persisted, word)) for word, _ in operation.stored)
        return contents

    def first_of(self, word: int) -> int:
        """The first word of a word's line."""
        return self.recording.first_word_of(self.recording.line_of(word))

    def change(self, store: Operation, number: int) -> Operation:
        """A store as the change of its line with this number."""
        note = f"{self.names.of(store.word)} = {store.value:#x}" + (f" and {plural(len(store.more), 'word')} more" if store.more else "")
        return replace(store, word=self.first_of(store.word), value=number, more=(), note=", ".join(filter(None, [note, store.note])))

    def refuse_if_too_large(self, window: Window, small: Window) -> None:
        """Says of a window, and of what it comes to where changes are counted, what is too large."""
        changes = Counter(operation.line for operation in small.operations if operation.stores)
        words = {word for operation in window.operations if operation.stores for word, _ in operation.stored}
        stored = f"{plural(WORD * len(words), 'byte')} on {plural(len(changes), self.recording.unit)}"
        where = self.where(window)
        if window.carried:
            stored += ", with what was stored before and is not flushed yet"
        if self.candidates(small) > MOST_CANDIDATES:
            lines = answered_lines(small)
            answered = WORD * len({word for word in words if self.recording.line_of(word) in lines})
            raise TooLarge(
                f"{where} the run stores {stored}; a crash may leave this in more than {MOST_CANDIDATES:,} ways, the limit "
                f"of px86; of the first {plural(len(lines), self.recording.unit)}, {plural(answered, 'byte')}, there would be an answer"
            )
        if max(changes.values(), default=0) > MOST_PENDING:
            unit = self.recording.unit
            raise TooLarge(f"{where} a {unit} is stored more than {MOST_PENDING} times, the limit of px86 (stored: {stored})")
        if flush_count(small) > MOST_PENDING:
            raise TooLarge(f"{where} there are more than {MOST_PENDING} flushes, the limit of px86 (stored: {stored})")
        if self.is_too_large(small):
            limit = f"at most {MOST_LINES} lines and {self.most_instructions:,} instructions"
            raise TooLarge(f"{where} the run stores {stored}; a text has {limit}")

    def where(self, window: Window) -> str:
        begin, end = (
            f"the {operation.name} at {self.places.of(operation.place)}" if operation else of_the_run
            for operation, of_the_run in ((self.last_end, "the beginning"), (window.end, "the end"))
        )
        return f"between {begin} and {end}:"


def operations_of(windows: Sequence[Window]) -> list[Operation]:
    """The operations of windows in a row, of which the first brings what it carries."""
    operations = list(windows[0].operations[: windows[0].carried])
    for window in windows:
        operations += window.added + ([window.fence] if window.fence else [])
    return operations


def size_of(operations: Sequence[Operation], fence: Operation | None) -> int:
    """How many instructions these are."""
    return sum(map(instructions, operations)) + (fence is not None)


def answered_lines(window: Window) -> list[int]:
    """The first lines of a window that would be answered, if it had no others."""
    lines: list[int] = []
    for line in dict.fromkeys(operation.line for operation in window.operations if operation.stores):
        alone = [operation for operation in window.operations if operation.line in (*lines, line)]
        if max(candidates(part.pending) for part in parts_of(Window(alone, 0, None))) > MOST_CANDIDATES:
            break
        lines.append(line)
    return lines


def flush_count(window: Window) -> int:
    return sum(operation.flushes for operation in window.operations)


def steps_to_parts(parts: Iterable[Part], carried: int, numbers: Mapping[int, int]) -> Iterator[tuple[Part, list[str]]]:
    """Each part of a window, with the steps from the window's beginning to its memory. So many of its stores are pending already."""
    steps: list[str] = []
    waiting = 0
    for part in parts:
        steps += run_late(part.operations[carried:], waiting)
        yield part, list(steps)
        waiting += optimized_count(part.operations)
        steps += run_late(part.behind, waiting)
        waiting += optimized_count(part.behind)
        steps += persist_flushed([*part.pending, *(flush for flush in part.behind if flush.kind is Kind.FLUSH)], numbers)
        carried = 0


def optimized_count(operations: Sequence[Operation]) -> int:
    return sum(operation.kind is Kind.OPTIMIZED_FLUSH for operation in operations)


def run_late(operations: Sequence[Operation], waiting: int) -> list[str]:
    """Steps by which stores and clflush leave the store buffer at once, and optimized flushes wait in it, as so many do before."""
    steps: list[str] = []
    for operation in operations:
        steps += ["exec 0"] * instructions(operation)
        if operation.kind is Kind.OPTIMIZED_FLUSH:
            waiting += 1
        elif operation.kind is not Kind.LOCKED:
            steps.append(f"drain 0 {waiting}")
    return steps


def run_early(operations: Sequence[Operation], fence: Operation | None) -> list[str]:
    """Steps by which everything leaves the store buffer at once, up to behind the fence."""
    steps: list[str] = []
    for operation in [*operations, *([fence] if fence else [])]:
        steps += ["exec 0"] * instructions(operation)
        if operation.kind not in (Kind.LOCKED, Kind.FULL_FENCE):
            steps.append("drain 0 0")
    return steps


def persist_flushed(operations: Sequence[Operation], numbers: Mapping[int, int]) -> list[str]:
    """Steps that have persist what stands before a flush of its line, marker by marker."""
    steps: list[str] = []
    stores: Counter[int] = Counter()
    for operation in operations:
        if operation.stores:
            stores[operation.line] += 1
        elif operation.flushes:
            steps += [f"persist {numbers[operation.line]}"] * stores.pop(operation.line, 0) + ["settle"]
    return steps
