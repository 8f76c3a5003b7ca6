"""One px86 for a whole run: a conversation (`px86 debug --interactive`) on one text, by whose steps any list can be made pending.

What a crash may leave does not depend on what values are stored, but on which are equal. So the values of each word have numbers: 0 is
what has persisted before, and 1, 2, 3 .. are others in the order in which they are stored first. `values` answers numbers, and each is
a value. Lines and words have numbers too, so lists that are alike are one, and a question that was answered is not asked again.

The text has 63 lines of eight words, and one with the words `a` and `v`. Some of its processors set these: `a` to the address of a word,
and `v` to a number. Others store `v` to the word at `a`, or flush its line, and all that waits in their store buffers at first. Then it
leaves them in the order of the list: stores of one processor go in their order, and optimized flushes in any.

`set` tells which of the list have to persist for an image, or that it is none: so a memory that is refused is asked about too.

If there is no conversation, or if it breaks off, there are no answers: then px86 is asked by a text of its own."""

from __future__ import annotations

import threading
from array import array
from collections import Counter
from collections.abc import Callable, Iterable, Iterator, Mapping, Sequence
from functools import lru_cache
from typing import NamedTuple

from .faults import Failed
from .recording import Operation
from .talk import Talk

# A line has so many words, a text so many lines of them beside one of its own.
MOST_WORDS, MOST_LINES = 8, 63
# How many entries a store buffer has, and how many stores of a line, and flushes, may be pending.
MOST_BUFFERED, MOST_PENDING = 128, 256
# The processors of the text. To set a word they add to it what they are named by, or have it begin anew.
FIRST_ADDRESS = 0x1000
ADDRESS_STEPS = {64: 0, 8: 1, 1: 2}
NUMBER_STEPS = {16: 4, 1: 5}
ADDRESS_ANEW, NUMBER_ANEW = 3, 6
FLUSHING, STORING = (7, 8), (9, 10, 11, 12, 13, 14, 15)
# A conversation hears 2^26 bytes, and then another one begins.
MOST_SAID = 1 << 25
# So many seconds are waited for more of an answer, and then a text is asked.
SECONDS = 60.0


class Entry(NamedTuple):
    """A store of a number to a word, or a flush of the word's line. Words are those of the text, line by line."""

    word: int
    number: int | None


class Numbered:
    """A pending list by the numbers of its lines, words and values."""

    def __init__(self, pending: Sequence[Operation], persisted: Callable[[int], int]) -> None:
        self.lines: dict[int, int] = {}
        self.words: dict[int, int] = {}
        self.numbers: dict[int, dict[int, int]] = {}
        self.entries = tuple(entry for operation in pending for entry in self.entries_of(operation, persisted))

    def entries_of(self, operation: Operation, persisted: Callable[[int], int]) -> Iterator[Entry]:
        line = self.lines.setdefault(operation.line, len(self.lines))
        if not operation.stores:
            yield Entry(MOST_WORDS * line, None)
            return
        for word, value in operation.stored:
            if word not in self.words:
                self.words[word] = MOST_WORDS * line + sum(other // MOST_WORDS == line for other in self.words.values())
                self.numbers[word] = {persisted(word): 0}
            numbers = self.numbers[word]
            yield Entry(self.words[word], numbers.setdefault(value, len(numbers)))

    def can_be_asked(self) -> bool:
        stores = [entry.word for entry in self.entries if entry.number is not None]
        flushes = len(self.entries) - len(stores)
        return (
            len(self.lines) <= MOST_LINES
            and len(stores) <= MOST_BUFFERED * len(STORING)
            and flushes <= MOST_BUFFERED * len(FLUSHING)
            and max(Counter(word // MOST_WORDS for word in stores).values(), default=0) <= MOST_PENDING
        )

    def question(self, word: int, given: Iterable[tuple[int, int]]) -> str:
        """The command by which a word is asked for where others have these values."""
        others = [f"{name_of(self.words[other])}={self.numbers[other][value]}" for other, value in given]
        return " ".join([f"values {name_of(self.words[word])}", *others])

    def values(self, word: int, given: Iterable[tuple[int, int]], answer: Iterable[int]) -> list[int]:
        """The values of the word, by the numbers that were answered."""
        values = list(self.numbers[word])
        return sorted(values[number] for number in answer)

    def image(self, values: Mapping[int, int]) -> dict[int, int] | None:
        """Which number each word of the text has where those of the list have these values; none if one is no value of its word."""
        if any(values.get(word) not in numbers for word, numbers in self.numbers.items()):
            return None
        return {self.words[word]: numbers[values[word]] for word, numbers in self.numbers.items()}


class Changes(Numbered):
    """The same of one sector or page of a disk, which has too many words for a line: a word counts how many of its changes have
    persisted, and each count has its contents."""

    def __init__(self, pending: Sequence[Operation], persisted: Callable[[int], int]) -> None:
        words = {word for store in pending for word, _ in store.stored}
        self.contents = [{word: persisted(word) for word in words}]
        for store in pending:
            self.contents.append({**self.contents[-1], **dict(store.stored)})
        self.lines = {store.line: 0 for store in pending}
        self.entries = tuple(Entry(0, number) for number in range(1, len(self.contents)))

    def question(self, word: int, given: Iterable[tuple[int, int]]) -> str:
        return f"values {name_of(0)}"

    def values(self, word: int, given: Iterable[tuple[int, int]], answer: Iterable[int]) -> list[int]:
        given = list(given)
        contents = [self.contents[count] for count in answer]
        return sorted({words[word] for words in contents if all(words[other] == value for other, value in given)})


# --- the text


def name_of(word: int) -> str:
    """A word by the number of its line, and of its place there."""
    return f"w{word // MOST_WORDS}{word % MOST_WORDS}"


def text_of_lines() -> str:
    """The text, as a sheet: what is there several times stands in it once."""
    first = f"&{name_of(0)}"
    lines = ["sheet 1", "# lines of which any list is made pending, by the numbers `v` that are stored where `a` says"]
    lines += [f"line * {MOST_LINES} w$[{MOST_WORDS}]", "line a v", f"init a {first}"]
    for words in ADDRESS_STEPS:
        lines += looped(1, f"mov rcx, {8 * words}", "lock xadd [a], rcx")
    lines += looped(1, f"mov rcx, {first}", "xchg [a], rcx")
    for number in NUMBER_STEPS:
        lines += looped(1, f"mov rcx, {number}", "lock xadd [v], rcx")
    lines += looped(1, "mov rcx, 0", "xchg [v], rcx")
    lines += looped(len(FLUSHING), "mov rbx, [a]", "clflushopt [rbx]")
    lines += looped(len(STORING), "mov rbx, [a]", "mov rax, [v]", "mov [rbx], rax")
    return "".join(line + "\n" for line in lines)


def looped(count: int, *instructions: str) -> list[str]:
    """So many processors, each of which does the same again and again."""
    return [f"cpu * {count}" if count > 1 else "cpu", "next:", *instructions, "jmp next", "end"]


# --- its steps


class Filling:
    """The steps by which stores and flushes come to wait in store buffers."""

    def __init__(self, stores: Sequence[Entry], flushed: Sequence[int]) -> None:
        self.steps: list[str] = []
        self.address = self.number = 0
        # The words, in order, of what each processor has in its store buffer.
        self.buffers: dict[int, list[int]] = {processor: [] for processor in (*FLUSHING, *STORING)}
        for place, store in enumerate(stores):
            self.set_number(store.number or 0)
            self.fill(STORING[place // MOST_BUFFERED], store.word, 4)
        for place, word in enumerate(flushed):
            self.fill(FLUSHING[place // MOST_BUFFERED], word, 3)

    def fill(self, processor: int, word: int, instructions: int) -> None:
        """A store or a flush of this word waits in a store buffer."""
        self.set_address(word)
        self.steps += [f"exec {processor}"] * instructions
        self.buffers[processor].append(word)

    def set_address(self, word: int) -> None:
        if word < self.address:
            self.change(ADDRESS_ANEW)
            self.address = 0
        self.add(word - self.address, ADDRESS_STEPS)
        self.address = word

    def set_number(self, number: int) -> None:
        if number < self.number:
            self.change(NUMBER_ANEW)
            self.number = 0
        self.add(number - self.number, NUMBER_STEPS)
        self.number = number

    def add(self, distance: int, steps: dict[int, int]) -> None:
        for step, processor in steps.items():
            for _ in range(distance // step):
                self.change(processor)
            distance %= step

    def change(self, processor: int) -> None:
        """A processor sets `a` or `v`, and that persists: nothing else is pending yet."""
        self.steps += [f"exec {processor}"] * 3 + [f"persist {MOST_LINES}"]


@lru_cache(maxsize=1)
def filling_of(stores: tuple[Entry, ...], flushed: tuple[int, ...]) -> Filling:
    """Lists of which only the order of flushes among the stores differs have one filling."""
    return Filling(stores, flushed)


def filled_by(entries: Sequence[Entry]) -> tuple[tuple[Entry, ...], tuple[int, ...]]:
    """The stores of a list, and the words of its flushes in order."""
    stores = tuple(entry for entry in entries if entry.number is not None)
    return stores, tuple(sorted(entry.word for entry in entries if entry.number is None))


def steps_of(entries: Sequence[Entry]) -> tuple[list[str], list[str]]:
    """The steps by which a list is made pending: those that fill store buffers, and those by which they are emptied."""
    filling, leaving = filling_of(*filled_by(entries)), list[str]()
    buffers = {processor: list(words) for processor, words in filling.buffers.items()}
    for entry in entries:
        of_kind = FLUSHING if entry.number is None else STORING
        processor = next(number for number in of_kind if entry.word in buffers[number])
        place = buffers[processor].index(entry.word)
        leaving.append(f"drain {processor} {place}")
        del buffers[processor][place]
    return filling.steps, leaving


class Conversation:
    """What px86 answers of lists. It is started with the first question."""

    def __init__(self, path: str, environment: dict[str, str]) -> None:
        self.path, self.environment = path, environment
        self.lock = threading.Lock()
        self.known: dict[tuple[bytes, str], list[int]] = {}
        self.talk: Talk | None = None
        self.is_over = False
        # The steps that it has made, in two parts.
        self.made: tuple[list[str], list[str]] = ([], [])

    def answers(self, entries: Sequence[Entry], questions: Sequence[str], write: Callable[[str, str], str]) -> list[list[int]] | None:
        """What px86 answers to each question of a list that is pending; none if there is no conversation."""
        key = array("h", [-1 if at is None else at for entry in entries for at in entry]).tobytes()
        with self.lock:
            new = list(dict.fromkeys(question for question in questions if (key, question) not in self.known))
            if new and not self.is_over:
                try:
                    talk = self.with_pending(entries, write)
                    self.known.update(zip([(key, question) for question in new], talk.values(new)))
                except Failed:
                    self.end()
            if any((key, question) not in self.known for question in questions):
                return None
            return [self.known[key, question] for question in questions]

    def least_set(self, entries: Sequence[Entry], image: Mapping[int, int], write: Callable[[str, str], str]) -> set[int] | None:
        """The places in a list of what has to persist for an image, by the numbers of its words. None if it is no image; it fails if
        there is no conversation."""
        with self.lock:
            if self.is_over:
                raise Failed("there is no conversation")
            try:
                return self.with_pending(entries, write).least_set(values_of(entries, image))
            except Failed:
                self.end()
                raise

    def with_pending(self, entries: Sequence[Entry], write: Callable[[str, str], str]) -> Talk:
        """The talk, in which this list is pending."""
        if self.talk is not None and self.talk.said > MOST_SAID:
            self.close()
        if self.talk is None:
            self.talk = Talk(self.path, write("lines.litmus", text_of_lines()), self.environment, SECONDS)
        self.go_to(self.talk, *steps_of(entries))
        return self.talk

    def go_to(self, talk: Talk, filling: list[str], leaving: list[str]) -> None:
        """Has just these steps made: those that it has made at first may be the same."""
        filled, left = self.made
        same = len(filling) if filling is filled else same_at_first(filled, filling)
        if same == len(filling) == len(filled):
            same += same_at_first(left, leaving)
        talk.back(len(filled) + len(left) - same)
        talk.make([*filling, *leaving][same:])
        self.made = filling, leaving

    def end(self) -> None:
        """There are no answers from now on."""
        self.is_over = True
        self.close()

    def close(self) -> None:
        """The next question begins anew."""
        if self.talk is not None:
            self.talk.close()
        self.talk, self.made = None, ([], [])


def values_of(entries: Sequence[Entry], image: Mapping[int, int]) -> list[int]:
    """The values of an image: each word of the text has a number, the last two those of `a` and `v`."""
    filling = filling_of(*filled_by(entries))
    values = [image.get(word, 0) for word in range(MOST_WORDS * MOST_LINES)]
    return [*values, FIRST_ADDRESS + 8 * filling.address, filling.number]


def same_at_first(some: Sequence[str], others: Sequence[str]) -> int:
    """How many of these are the same, up to the first that differs."""
    shorter = min(len(some), len(others))
    return next((place for place in range(shorter) if some[place] != others[place]), shorter)
