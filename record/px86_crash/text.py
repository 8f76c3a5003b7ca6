"""A text of recorded operations, and a script by which px86 lists the images of its memories. It is a litmus text, or a sheet where it ends
with what is asked of it, or has lists of values."""

from __future__ import annotations

from collections.abc import Callable, Iterator, Mapping, Sequence
from dataclasses import dataclass, field
from functools import cached_property
from typing import TYPE_CHECKING

from .items import ASKED, every_crash, is_question, is_short_enough, some_crash
from .recording import ACKNOWLEDGED, FILE_ROOM, FILE_SIZE, LINE, Kind, Operation, first_word_of, is_of_file, line_of

if TYPE_CHECKING:
    from .places import Places

# The limits of a litmus text.
MOST_LINES, MOST_INSTRUCTIONS = 64, 1024
# The word `tick` is no memory of the program: it keeps threads in order.
TICK = ACKNOWLEDGED - LINE


def is_short(value: int) -> bool:
    return value < 1 << 31 or value >= (1 << 64) - (1 << 31)


def instructions(operation: Operation) -> int:
    """How many instructions an operation is in a text."""
    if operation.kind is Kind.ELSEWHERE:
        return 0
    if operation.kind is Kind.LOCKED or operation.kind is Kind.STORE and not is_short(operation.value):
        return 2
    return 1


def numbered(letter: str, word: int) -> str:
    """The name of a word or line by its offset, `w40`; of the second file `w40_2`, and of its size `filesize_2`."""
    if word < 0:
        return f"filesize_{(FILE_SIZE - word) // LINE + 1}"
    number, place = divmod(word, FILE_ROOM)
    return f"{letter}{place:x}" + (f"_{number + 1}" if number else "")


class Names:
    """The names of words: by their offset, or as a file has them, with an offset and a name in each line."""

    def __init__(self, named: Mapping[int, str] | None = None) -> None:
        self.named = {ACKNOWLEDGED: "ack", TICK: "tick", FILE_SIZE: "filesize", **(named or {})}

    def of(self, word: int) -> str:
        return self.named.get(word) or numbered("w", word)


@dataclass(frozen=True, eq=False)
class Tick:
    """A mark of the order of threads: a number that is stored to the word `tick`, or waited for there."""

    thread: int
    number: int
    waits: bool
    stores = flushes = fences = False

    def instructions(self) -> list[str]:
        if self.waits:
            return [f"wait{self.number}:", "mov rax, [tick]", f"cmp rax, {self.number}", f"jnz wait{self.number}"]
        return [f"mov [tick], {self.number}"]


@dataclass
class Look:
    """A memory of a text: the steps from the look before to where this one begins, and from there those to the memory. Then come
    what is pending there, and how many candidates that has."""

    lead: list[str]
    steps: list[str]
    pending: list[Operation]
    candidates: int

    @cached_property
    def newest(self) -> dict[int, int]:
        """What the words of the pending list have if all of it persists."""
        return {store.word: store.value for store in self.pending if store.stores}


@dataclass
class Text:
    """Operations as a text. `persisted` has the words that are not as they were before the recording, at the text's beginning; `contents`
    what a line has after each of its changes, where a word of the text counts these."""

    operations: Sequence[Operation | Tick]
    threads: list[int]
    persisted: dict[int, int]
    initial: dict[int, int]
    names: Names
    looks: list[Look] = field(default_factory=list)
    ending: list[str] = field(default_factory=list)
    contents: dict[int, list[dict[int, int]]] | None = None
    asked: frozenset[int] = frozenset()
    head: str = ""
    grain: int = LINE
    # Its place among the texts of an answer, and its file.
    number: int = 0
    file: str = ""
    # What is asked of it, as items behind its last processor. `is_plain`: it is to be a litmus text in any case.
    items: list[str] = field(default_factory=list)
    is_plain: bool = False

    def __post_init__(self) -> None:
        stored = {operation.word for operation in self.operations if isinstance(operation, Operation) and operation.stores}
        self.words = sorted(stored | self.asked)
        self.lines: dict[int, list[int]] = {}
        for word in self.words:
            self.lines.setdefault(line_of(word, self.grain), []).append(word)

    def steps_to(self, number: int) -> list[str]:
        """All steps to a look."""
        steps = [step for look in self.looks[: number + 1] for step in look.lead]
        return steps + self.looks[number].steps

    def script(self) -> str:
        """All looks, one after another, and then the end."""
        lines = []
        for look in self.looks:
            lines += look.lead + look.steps + ["go", "images"]
            lines += [f"back {len(look.steps)}"] if look.steps else []
        return "".join(line + "\n" for line in lines + self.ending + ["go", "show"])

    def stored(self, values: Sequence[int]) -> dict[int, int]:
        """The words of the region and their values in an image."""
        if self.contents is None:
            return dict(zip(self.words, values))
        stored: dict[int, int] = {}
        for word, value in zip(self.words, values):
            stored.update(self.contents[word][value] if word in self.contents else {word: value})
        return stored

    def values_of(self, value: Callable[[int], int]) -> list[int]:
        """The values of the text's words where those of the region have these. Of a line whose changes are counted it is the last of
        them behind which it has these words."""

        def count(word: int) -> int:
            changes = self.contents[word] if self.contents else []
            return max(place for place, stored in enumerate(changes) if all(value(at) == stored[at] for at in stored))

        return [count(word) if self.contents and word in self.contents else value(word) for word in self.words]

    @property
    def persisted_words(self) -> dict[int, int]:
        """The words of the file that persisted before the text."""
        return {word: value for word, value in self.persisted.items() if is_of_file(word)}

    def acknowledged(self, values: Sequence[int]) -> int:
        """The number that was acknowledged before the crash that leaves an image."""
        if ACKNOWLEDGED in self.words:
            return values[self.words.index(ACKNOWLEDGED)]
        return self.persisted.get(ACKNOWLEDGED, 0)

    def name(self, word: int) -> str:
        return numbered("l", word) if self.contents and word in self.contents else self.names.of(word)

    # --- what is asked of it

    def ask(self, condition: str) -> str:
        """Has it end with the question whether a condition holds in each memory that a crash may leave. Answers by which condition px86
        is asked this: by the name of the question. If the condition may be none it is asked as it is, of a litmus text: a sheet's
        conditions have more forms, so px86 would not say the same of one that is wrong. A question stands behind a processor; of a run
        that does nothing there is none."""
        counted = self.contents or {}
        names = [self.name(word) for word in self.words if word not in counted]
        if not self.threads or not is_question(condition, names):
            self.is_plain = True
            return condition
        self.items = [every_crash(condition)]
        return ASKED

    def ask_for_none(self, memories: Sequence[Mapping[int, int]]) -> str:
        """The same of the condition that no crash leaves one of these memories, of which each has a name."""
        left = [self.conjunction(values) for values in memories]
        if not all(map(is_short_enough, left)):
            # So many words are too many for any condition, of an option too.
            return " and ".join(f"not ({values})" for values in left)
        names = [f"left{number}" for number in range(1, len(left) + 1)]
        self.items = [f"let {name} = {values}" for name, values in zip(names, left)]
        self.items.append(every_crash(" and ".join(f"not {name}" for name in names)))
        return ASKED

    def ask_for(self, values: Sequence[int]) -> None:
        """Has it end with the question whether a crash may leave this image; with none if the image has too many words for an item."""
        left = self.conjunction(dict(zip(self.words, values)))
        self.items = [some_crash(left)] if is_short_enough(left) else []

    def conjunction(self, values: Mapping[int, int]) -> str:
        """The condition that words have these values."""
        return " and ".join(f"persisted {self.name(word)} = {value}" for word, value in values.items())

    # --- its lines

    def litmus(self, places: Places) -> str:
        return "".join(line + "\n" for line, _ in self.numbered(places))

    def initial_lists(self) -> list[list[int]]:
        """The words of each line that are not 0 at first, with those between them."""
        lists = []
        for words in self.lines.values():
            places = [place for place, word in enumerate(words) if self.initial.get(word)]
            if places:
                lists.append(words[places[0] : places[-1] + 1])
        return lists

    def numbered(self, places: Places) -> Iterator[tuple[str, Operation | Tick | None]]:
        """Its lines, each with the operation that it is of. One that says nothing which only a sheet may say is a litmus text."""
        lists = self.initial_lists()
        is_sheet = not self.is_plain and (bool(self.items) or any(len(words) > 1 for words in lists))
        if not is_sheet:
            lists = [[word] for words in lists for word in words if self.initial.get(word)]
        yield f"{'sheet' if is_sheet else 'litmus'} 1", None
        yield f"# {self.head}", None
        for line, words in self.lines.items():
            comment = "" if line < 0 else f"   # offset {first_word_of(line, self.grain):#x}"
            if self.contents and words[0] in self.contents:
                comment += ": how many changes of the line have persisted"
            yield f"line {' '.join(map(self.name, words))}{comment}", None
        for words in lists:
            yield f"init {self.name(words[0])} {' '.join(str(self.initial.get(word, 0)) for word in words)}", None
        for thread in self.threads:
            yield "cpu", None
            for operation in self.operations:
                if operation.thread == thread:
                    for line_of_it in self.instruction(operation, places):
                        yield line_of_it, operation
            yield "end", None
        for item in self.items:
            yield item, None

    def instruction(self, operation: Operation | Tick, places: Places) -> list[str]:
        """The lines of an operation, with its place in the source."""
        if isinstance(operation, Tick):
            return operation.instructions()
        if operation.kind is Kind.ELSEWHERE:
            return []
        comment = "   # " + ", ".join(filter(None, [places.of(operation.place), operation.note]))
        if operation.fences:
            return [operation.name + comment]
        name = self.name(operation.word)
        if operation.flushes:
            return [f"{operation.name} [{self.name(self.lines[operation.line][0])}]{comment}"]
        if operation.kind is Kind.LOCKED:
            return [f"mov rax, {operation.value:#x}", f"xchg [{name}], rax{comment}"]
        if not is_short(operation.value):
            return [f"mov rax, {operation.value:#x}", f"mov [{name}], rax{comment}"]
        value = operation.value if operation.value < 1 << 31 else operation.value - (1 << 64)
        return [f"mov [{name}], {value}{comment}"]


def printable(text: str) -> str:
    """A text without the bytes that a litmus text may not have."""
    return "".join(letter if " " <= letter <= "~" else "?" for letter in text)
