"""Texts of one state on some of its lines, for px86: what a crash may leave of a line does not depend on the others."""

from __future__ import annotations

import contextlib
from collections import Counter
from collections.abc import Iterable, Mapping, Sequence
from dataclasses import dataclass, replace

from .answer import Case
from .conversation import Numbered
from .emulator import Left
from .explore import Leaf
from .faults import Failed, TooLarge, plural
from .memories import Window, whole
from .one_thread import AGAIN, MOST_PENDING, Planner
from .recording import Kind, Operation
from .report import Shown
from .states import State
from .text import MOST_INSTRUCTIONS, MOST_LINES, Names, Text, instructions
from .threads import text_of_threads


@dataclass(frozen=True)
class Narrow:
    """Makes such texts, as files of a folder."""

    case: Case

    def text(self, state: State, lines: Iterable[int]) -> Text:
        """The text of a state on some lines, with one look."""
        kept = frozenset(lines)
        return self.text_of(state, [operation for operation in state.pending if operation.line in kept])

    def text_of(self, state: State, pending: Sequence[Operation]) -> Text:
        """The text of some operations that are pending at a state, in their order. It may be too large for a text."""
        carried = set(state.pending[: state.part.carried] if state.part else ())
        noted = [replace(store, note=store.note or AGAIN) if store in carried else store for store in pending]
        words = (word for store in pending if store.stores for word, _ in store.stored)
        persisted = {word: state.history.value(word, state.number) for word in words}
        return self.text_on(noted, persisted, self.case.names)

    def text_on(self, pending: Sequence[Operation], persisted: dict[int, int], names: Names) -> Text:
        """The text of operations that are pending where these words have persisted with these values."""
        thread = self.case.recording.threads[:1]
        operations = [
            replace(done, kind=Kind.STORE, thread=thread[0]) if done.stores else replace(done, thread=thread[0]) for done in pending
        ]
        window = Window(operations, 0, None)
        planner = Planner(self.case.recording, names, self.case.places, MOST_INSTRUCTIONS, parts=lambda window: [whole(window)])
        planner.persisted = persisted
        text = self.planned(planner, window)
        text.threads = thread
        return text

    def planned(self, planner: Planner, window: Window) -> Text:
        too_large = f"what the checker has read there is too large for a text of px86 ({limits(window.operations)})"
        if planner.counts:
            try:
                return planner.counted(window)
            except TooLarge as large:
                raise TooLarge(too_large) from large
        if planner.is_too_large(window):
            raise TooLarge(too_large)
        return planner.text([window], dict(planner.persisted), frozenset())

    # --- a memory that is not accepted

    def shown(self, leaf: Leaf, memory: dict[int, int]) -> Shown:
        """A memory of a leaf, on the lines that the checker has read, as an image of a text."""
        if leaf.state.part is None:
            return self.shown_of_threads(leaf, memory)
        text = self.text(leaf.state, self.shown_lines(leaf, memory))
        values = text.values_of(lambda word: leaf.state.value(word, memory))
        text.ask_for(values)
        text.file = self.case.write("bad.litmus", text.litmus(self.case.places))
        steps = self.case.write("bad.steps", "".join(step + "\n" for step in text.steps_to(0)))
        counted = text.contents or {}
        persisted = {word: 0 if word in counted else leaf.state.history.value(word, leaf.state.number) for word in text.words}
        shown = self.shown_by_numbers(text, 0, values, steps, persisted)
        if shown is None:
            raise no_memory_of(text)
        return shown

    def shown_lines(self, leaf: Leaf, memory: dict[int, int]) -> list[int]:
        """The lines that were read, those first of which something is lost; so many of them as px86 takes."""
        after = leaf.state.after
        lost = {leaf.state.lines[word] for word, values in after.items() if memory[word] != values[-1]}
        lines = sorted(leaf.lines, key=lambda line: (line not in lost, line))
        while len(lines) > 1 and not self.is_taken(leaf.state, lines):
            del lines[-1]
        return lines

    def is_taken(self, state: State, lines: Iterable[int]) -> bool:
        try:
            self.text(state, lines)
        except TooLarge:
            return False
        return True

    def shown_of_threads(self, leaf: Leaf, memory: dict[int, int]) -> Shown:
        """The same of several threads: of the list of choices that leaves this image."""
        text = text_of_threads(self.case.recording.only(leaf.lines), self.case.names, MOST_INSTRUCTIONS)
        values = [leaf.state.value(word, memory) for word in text.words]
        text.ask_for(values)
        text.file = self.case.write("bad.litmus", text.litmus(self.case.places))
        persisted = {word: text.initial.get(word, 0) for word in text.words}
        for look in range(len(text.looks)):
            steps = self.case.write("bad.steps", "".join(step + "\n" for step in text.steps_to(look)))
            shown = self.shown_by_numbers(text, look, values, steps, persisted)
            if shown is not None:
                return shown
        raise no_memory_of(text)

    def shown_by_numbers(
        self, text: Text, look: int, values: Sequence[int], steps: str, persisted: Mapping[int, int]
    ) -> Shown | None:
        """An image of a look, by the conversation, where these words have persisted so; or by the text, if it cannot be asked there.
        None if it is no image."""
        numbered, px86 = Numbered(text.looks[look].pending, lambda word: persisted[word]), self.case.px86
        memory = dict(zip(text.words, values))
        if any(value != persisted[word] for word, value in memory.items() if word not in numbered.words):
            return None
        image = numbered.image(memory)
        if image is not None and numbered.can_be_asked():
            with contextlib.suppress(Failed):
                kept = px86.conversation.least_set(numbered.entries, image, self.case.write)
                return None if kept is None else Shown(text, look, values, steps, Left(kept, persisted))
        kept = px86.least_set(text.file, steps, values)
        return None if kept is None else Shown(text, look, values, steps, Left(kept, persisted))


def no_memory_of(text: Text) -> Failed:
    return Failed(f"px86 has not the memory of {text.file} that the checker refuses")


def limits(operations: Sequence[Operation]) -> str:
    """How large a text of these is, beside its limits."""
    stores = Counter(operation.line for operation in operations if operation.stores)
    size, markers = sum(map(instructions, operations)), sum(operation.flushes for operation in operations)
    return (
        f"it has {plural(len(stores), 'line')} of at most {MOST_LINES}, {size:,} instructions of at most {MOST_INSTRUCTIONS:,}, "
        f"and of a line {max(stores.values(), default=0):,} stores, of flushes {markers:,}, of at most {MOST_PENDING} each"
    )
