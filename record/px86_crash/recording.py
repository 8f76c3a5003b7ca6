"""A recording: what px86-record wrote, as operations of px86. record/LOG.md has the form of a log."""

from __future__ import annotations

import hashlib
import mmap
import os
from collections import Counter
from collections.abc import Callable, Collection, Iterable, Sequence
from copy import copy
from dataclasses import dataclass, replace
from enum import Enum
from functools import cached_property

from .faults import Failed
from .promises import Promises

WORD, LINE = 8, 64
# What persists as a prefix of its stores: a cache line; on a disk a sector, or a page.
GRAINS = {"line": LINE, "sector": 512, "page": 4096}
# The word `ack` stands for what the program told the world. It has a line of its own, before the region.
ACKNOWLEDGED = -LINE
# So has the size of the first file, and before it that of each other. (At -2 * LINE is the word `tick` of a text.)
FILE_SIZE = -3 * LINE
# The offsets of the second file begin here, those of the third at twice this ..
FILE_ROOM = 1 << 44
# The word of an operation that has none: a fence, or a store to other memory.
NOWHERE = -(1 << 62)
NEVER_FLUSHED = "never flushed"
STORES_THE_SAME = "a locked operation that stores what is there"
LEFT_OUT = "a locked operation on what is left out"
NONTEMPORAL = (
    "a non-temporal store is taken as a store and a clwb: two of one line persist in order here, and on the machine they need not "
    "(--nt refuse)"
)


class Kind(Enum):
    """What an operation is to px86. A store to other memory orders, and is nothing else."""

    STORE = "mov"
    LOCKED = "xchg"
    FLUSH = "clflush"
    OPTIMIZED_FLUSH = "clwb"
    STORE_FENCE = "sfence"
    FULL_FENCE = "mfence"
    ELSEWHERE = "elsewhere"


STORES = (Kind.STORE, Kind.LOCKED)
FLUSHES = (Kind.FLUSH, Kind.OPTIMIZED_FLUSH)
FENCES = (Kind.STORE_FENCE, Kind.FULL_FENCE)


@dataclass(frozen=True, eq=False)
class Operation:
    """A store of a word (of several, to a disk), a flush of a line, or a fence. A word is named by its offset, and a line by that
    of its first word."""

    kind: Kind
    thread: int
    place: str
    word: int = NOWHERE
    value: int = 0
    name: str = ""
    note: str = ""
    grain: int = LINE
    # Further words of the same line that are stored at once, by what is written to a disk, with their values.
    more: tuple[tuple[int, int], ...] = ()

    @property
    def stored(self) -> tuple[tuple[int, int], ...]:
        """The words that a store stores, with their values."""
        return ((self.word, self.value), *self.more)

    @property
    def line(self) -> int:
        return line_of(self.word, self.grain)

    @property
    def stores(self) -> bool:
        return self.kind in STORES

    @property
    def flushes(self) -> bool:
        return self.kind in FLUSHES

    @property
    def fences(self) -> bool:
        return self.kind in FENCES


def line_of(word: int, grain: int) -> int:
    """The number of the line that has a word. Words before the region have lines of a cache line's size."""
    return word // (LINE if word < 0 else grain)


def first_word_of(line: int, grain: int) -> int:
    return line * (LINE if line < 0 else grain)


def is_of_file(word: int) -> bool:
    """Whether a word is what a file has: its bytes, or its size."""
    return word >= 0 or word <= FILE_SIZE


def size_word(number: int) -> int:
    """The word for the size of a file."""
    return FILE_SIZE - number * LINE


def unit_of(grain: int) -> str:
    """What a line of this size is called."""
    return {size: name for name, size in GRAINS.items()}[grain]


class Files:
    """The bytes of several files, each at its offsets. A slice is of one of them; the length is that of the first."""

    def __init__(self, files: Sequence[bytes | mmap.mmap]) -> None:
        self.files = files

    def __len__(self) -> int:
        return len(self.files[0])

    def __getitem__(self, part: slice) -> bytes:
        number = part.start // FILE_ROOM
        begin = number * FILE_ROOM
        return bytes(self.files[number][part.start - begin : part.stop - begin])


# The bytes of a file, read at once or where they are asked for; or of several.
Contents = bytes | mmap.mmap | Files


def files_of(data: Contents) -> Sequence[bytes | mmap.mmap]:
    return data.files if isinstance(data, Files) else [data]


def sizes_of(data: Contents) -> list[int]:
    """The size of each file."""
    return [len(file) for file in files_of(data)]


def hash_of(data: Contents) -> str:
    """A hash of files, which their sizes part."""
    found = hashlib.sha256(f"{sizes_of(data)}".encode())
    for file in files_of(data):
        found.update(file)
    return found.hexdigest()


def word_of(data: Contents, offset: int) -> int:
    """The word at an offset. Behind the end of the bytes are zeros."""
    return int.from_bytes(data[offset : offset + WORD].ljust(WORD, b"\0"), "little")


def value_in(data: Contents, word: int) -> int:
    """What a word of a text has in these files; `ack` and the like are 0."""
    if word >= 0:
        return word_of(data, word)
    return sizes_of(data)[(FILE_SIZE - word) // LINE] if word <= FILE_SIZE else 0


class Region:
    """The bytes of the region as a log goes on. Words that were stored stand beside the bytes of the beginning."""

    def __init__(self, before: Contents) -> None:
        self.before = before
        self.sizes = sizes_of(before)
        self.words: dict[int, int] = {}
        # Words of which some bytes alone were stored.
        self.stored_in_part: set[int] = set()

    def word(self, offset: int) -> int:
        return self.words[offset] if offset in self.words else word_of(self.before, offset)

    def store(self, offset: int, data: bytes) -> list[tuple[int, int]]:
        """Stores bytes. It returns each word of which there are some, with its new value."""
        changed = []
        for word in range(offset - offset % WORD, offset + len(data), WORD):
            value = bytearray(self.word(word).to_bytes(WORD, "little"))
            first, last = max(offset, word), min(offset + len(data), word + WORD)
            value[first - word : last - word] = data[first - offset : last - offset]
            if last - first < WORD:
                self.stored_in_part.add(word)
            self.words[word] = int.from_bytes(value, "little")
            changed.append((word, self.words[word]))
        return changed

    def end_of(self, offset: int) -> int:
        """Where the file ends that has an offset."""
        number = offset // FILE_ROOM
        return number * FILE_ROOM + self.sizes[number]

    def left_of(self, word: int, value: int) -> int:
        """What is left of a word where its file ends now: what is cut off counts as 0."""
        left = self.end_of(word) - word if word >= 0 else WORD
        return value & (1 << 8 * min(max(left, 0), WORD)) - 1

    def resize(self, number: int, size: int) -> list[tuple[int, int]]:
        """A file gets another size. It returns each word that changes by this, with its new value: where the file was cut off, and grows
        again, it has zeros. What is behind its end is kept up to then, as a crash may leave the file with its old size."""
        changed: list[tuple[int, int]] = []
        begin, end = number * FILE_ROOM + self.sizes[number], number * FILE_ROOM + size
        for word in sorted(self.words_within(begin, end)):
            first, last = max(word, begin), min(word + WORD, end)
            if self.word(word).to_bytes(WORD, "little")[first - word : last - word].strip(b"\0"):
                changed += self.store(first, bytes(last - first))
        self.sizes[number] = size
        return changed

    def words_within(self, begin: int, end: int) -> set[int]:
        """All words with bytes from here to there that may have other than zeros."""
        first, step = begin - begin % WORD, 4096
        found = {word for word in self.words if first <= word < end}
        for place in range(first, end, step):
            block = self.before[place : min(place + step, end)]
            if block.count(0) != len(block):
                found.update(range(place, place + len(block), WORD))
        return found

    def first_difference(self, after: Contents) -> int | None:
        """The first word in which these bytes are others, or none."""
        for number, (size, wanted) in enumerate(zip(sizes_of(after), self.sizes)):
            if size != wanted:
                return number * FILE_ROOM + min(size, wanted)
        wrong = [word for word in self.words if self.left_of(word, self.word(word)) != word_of(after, word)]
        for number, size in enumerate(self.sizes):
            wrong += self.differing(after, number * FILE_ROOM, number * FILE_ROOM + size)
        return min(wrong, default=None)

    def differing(self, after: Contents, first: int, end: int, steps: Sequence[int] = (1 << 20, 4096)) -> list[int]:
        """The words of a file that were not stored, and are others now. Large blocks are compared first, of those that differ small
        ones, and of these the words."""
        if not steps:
            return [word for word in range(first, end, WORD) if self.left_of(word, self.word(word)) != word_of(after, word)]
        wrong: list[int] = []
        for begin in range(first, end, steps[0]):
            block = after[begin : min(begin + steps[0], end)]
            if self.before[begin : begin + steps[0]][: len(block)].ljust(len(block), b"\0") != block:
                wrong += self.differing(after, begin, begin + len(block), steps[1:])
        return wrong


class Repeated:
    """Repetitions of one string instruction that store neighbouring bytes, one after another: upward, or downward."""

    def __init__(self, words: Sequence[str], offset: int, data: bytes) -> None:
        self.words, self.pieces, self.begin, self.end, self.direction = words, [data], offset, offset + len(data), 0

    def takes(self, words: Sequence[str], offset: int, data: bytes) -> bool:
        """Takes one repetition more, if it is one of these."""
        direction = {self.end: 1, self.begin - len(data): -1}.get(offset, 0)
        if words[:3] != self.words[:3] or not direction or self.direction not in (0, direction):
            return False
        self.direction = direction
        self.pieces.append(data)
        self.begin, self.end = min(self.begin, offset), max(self.end, offset + len(data))
        return True

    @property
    def goes_down(self) -> bool:
        return self.direction < 0

    @property
    def data(self) -> bytes:
        return b"".join(reversed(self.pieces) if self.goes_down else self.pieces)


class Written:
    """What one call writes to one sector or page of a disk."""

    def __init__(self, words: Sequence[str], line: int) -> None:
        self.words, self.line = words, line
        self.changed: dict[int, int] = {}


def contents(path: str) -> Contents:
    """The bytes of a file, which are read where they are asked for."""
    try:
        with open(path, "rb") as file:
            if file.seek(0, os.SEEK_END) == 0:
                return b""
            return mmap.mmap(file.fileno(), 0, access=mmap.ACCESS_READ)
    except OSError as error:
        raise Failed(f"{path}: {error.strerror}") from error


def contents_of_files(path: str, count: int) -> Contents:
    """The bytes of so many files of a log: those of PATH, PATH2 .."""
    files = [contents(path if number == 1 else f"{path}{number}") for number in range(1, count + 1)]
    return files[0] if count == 1 else Files([file for file in files if not isinstance(file, Files)])


def lines_of_log(path: str) -> list[str]:
    try:
        with open(path, encoding="utf-8", errors="replace") as log:
            lines = log.read().splitlines()
    except OSError as error:
        raise Failed(f"{path}: {error.strerror}") from error
    if not lines or lines[0] != "px86-recording 1":
        raise Failed(f"{path} is no recording: its first line is not `px86-recording 1`")
    if lines[-1].split(" ")[0] not in ("end", "refused"):
        raise Failed(f"{path} ends with neither `end` nor `refused`: the recording was broken off, and nothing is told of it")
    return lines


class Log:
    """Reads the lines of a log."""

    def __init__(self, path: str, map_nontemporal: bool, grain: int = LINE) -> None:
        self.path, self.map_nontemporal, self.grain = path, map_nontemporal, grain
        # What stores of the processor order and flush is nothing to a disk.
        self.is_on_disk = grain != LINE
        # Of each file its name, its size at the beginning, and the greatest that it had.
        self.names: list[str] = []
        self.sizes: list[int] = []
        self.most_sizes: list[int] = []
        self.status: int | None = None
        self.maps: list[tuple[int, int, int, str]] = []
        self.notes: Counter[str] = Counter()
        self.refusals: list[tuple[str, str]] = []
        # Variables of the program, and where in the region they point to.
        self.pointers: list[tuple[int, int]] = []
        # Where threads are that wait for each other without end.
        self.waiting: list[tuple[str, int, str]] = []
        self.acknowledgements, self.acknowledged = 0, 0
        # Those with no number, each of which is one more: how many of each thread.
        self.unnumbered: Counter[int] = Counter()
        # Each acknowledgement: the thread, and the number.
        self.promised: list[tuple[int, int]] = []
        self.operations: list[Operation] = []
        # Lines that were stored since the last msync of them.
        self.unsynced: set[int] = set()
        # What one call has written to one sector of a disk, up to now.
        self.written: Written | None = None
        lines = lines_of_log(path)
        # A recording that was refused before the region was there has no memory.
        is_there = os.path.exists(path + ".before") or not lines[-1].startswith("refused ")
        self.count = 1 + sum(line.startswith("file ") for line in lines)
        self.region = Region(contents_of_files(path + ".before", self.count) if is_there else b"")
        self.repeated: Repeated | None = None
        self.readers = self.readers_of_lines()
        for number, line in enumerate(lines[1:], 2):
            try:
                self.read_line(line.split(" "))
            except (ValueError, IndexError, KeyError) as error:
                raise Failed(f"{path}: line {number} is no line of a recording: {line}") from error
        for size, wanted in zip(sizes_of(self.region.before), self.sizes):
            if self.status is not None and size != wanted:
                raise Failed(f"{path}.before has {size} bytes, and the region {wanted}")

    def readers_of_lines(self) -> dict[str, Callable[[list[str]], object]]:
        """What reads a line, by its first word."""
        return {
            "region": self.read_region,
            "file": lambda words: self.read_file(int(words[2], 0), " ".join(words[3:])),
            "map": self.read_map,
            "thread": lambda words: int(words[1]),
            "store": self.read_store,
            "locked": self.read_locked,
            "nontemporal": self.read_nontemporal,
            "write": self.read_write,
            "size": self.read_size,
            "beside": self.read_beside,
            "flush": self.read_flush,
            "fence": self.read_fence,
            "msync": self.read_msync,
            "acknowledge": self.read_acknowledgement,
            "elsewhere": lambda words: self.add(Kind.ELSEWHERE, words),
            "pointer": lambda words: self.pointers.append((int(words[1], 16), int(words[2], 16))),
            "waits": lambda words: self.waiting.append((words[0], int(words[1]), words[2])),
            "spins": lambda words: self.waiting.append((words[0], int(words[1]), words[2])),
            "refused": lambda words: self.refuse(words, f"{' '.join(words[4:])} ({words[3]})"),
            "end": self.read_end,
        }

    def read_line(self, words: list[str]) -> None:
        if words[0] != "store" or words[5:] != ["rep"]:
            self.store_repeated()
        if words[0] != "write":
            self.store_written()
        self.readers[words[0]](words)

    def add(
        self,
        kind: Kind,
        words: Sequence[str],
        word: int = NOWHERE,
        value: int = 0,
        name: str = "",
        note: str = "",
        more: tuple[tuple[int, int], ...] = (),
    ) -> None:
        # To a disk all threads are one: what is written to it is what they have stored by then.
        thread = 0 if self.is_on_disk else int(words[1])
        self.operations.append(Operation(kind, thread, words[2], word, value, name or kind.value, note, self.grain, more))

    def refuse(self, words: Sequence[str], why: str) -> None:
        self.refusals.append((words[2], why))

    def read_region(self, words: list[str]) -> None:
        self.read_file(int(words[1], 0), " ".join(words[2:]))

    def read_file(self, size: int, name: str) -> None:
        self.sizes.append(size)
        self.most_sizes.append(size)
        self.names.append(name)

    def read_map(self, words: list[str]) -> None:
        self.maps.append((int(words[1], 0), int(words[2], 0), int(words[3], 0), " ".join(words[4:])))

    def read_end(self, words: list[str]) -> None:
        self.status = int(words[1])

    def data_of(self, words: Sequence[str]) -> tuple[int, bytes]:
        """The offset that an event stores to, and the bytes."""
        offset, data = int(words[3], 0), bytes.fromhex(words[4])
        if offset < 0 or offset + len(data) > self.region.end_of(offset) or not data:
            raise ValueError
        return offset, data

    def stored(self, words: Sequence[str]) -> list[tuple[int, int]]:
        """The words that an event stores, each with its new value."""
        offset, data = self.data_of(words)
        changed = self.region.store(offset, data)
        self.changed(changed)
        if len(data) > WORD:
            self.notes[f"a store of {len(data)} bytes: its words are taken in ascending order"] += 1
        elif len(changed) > 1:
            self.notes["a store over two words: the lower word is taken first"] += 1
        return changed

    def changed(self, words: Iterable[tuple[int, int]]) -> None:
        """Words were stored, of which the next msync of their lines is."""
        self.unsynced |= {line_of(word, self.grain) for word, _ in words}

    def read_store(self, words: list[str]) -> None:
        if words[5:] == ["rep"]:
            offset, data = self.data_of(words)
            if self.repeated is None or not self.repeated.takes(words, offset, data):
                self.store_repeated()
                self.repeated = Repeated(words, offset, data)
            return
        for word, value in self.stored(words):
            self.add(Kind.STORE, words, word=word, value=value)

    def store_repeated(self) -> None:
        """Stores what repetitions have gathered, word by word."""
        repeated, self.repeated = self.repeated, None
        if repeated is None:
            return
        self.notes["a repeated string store: its words are taken in order, each as one store"] += 1
        changed = self.region.store(repeated.begin, repeated.data)
        self.changed(changed)
        for word, value in reversed(changed) if repeated.goes_down else changed:
            self.add(Kind.STORE, repeated.words, word=word, value=value)

    def read_write(self, words: list[str]) -> None:
        """Bytes of one line that a system call has written."""
        offset, data = self.data_of(words)
        changed = self.region.store(offset, data)
        self.changed(changed)
        if self.is_on_disk:
            line = line_of(offset, self.grain)
            if self.written is None or words[5:] != ["more"] or self.written.line != line:
                self.store_written()
                self.written = Written(words, line)
            self.written.changed.update(changed)
            return
        self.notes["a write to the file is taken as a store of each word, in ascending order"] += 1
        for word, value in changed:
            self.add(Kind.STORE, words, word=word, value=value, note="written")

    def store_written(self) -> None:
        """Stores at once what one call has written to one sector."""
        written, self.written = self.written, None
        if written is None:
            return
        self.notes[f"what one write changes of a {unit_of(self.grain)} is taken as one store"] += 1
        (word, value), *more = written.changed.items()
        self.add(Kind.STORE, written.words, word=word, value=value, note="written", more=tuple(more))

    def read_beside(self, words: list[str]) -> None:
        name = os.path.basename(self.names[0]) + " ".join(words[3:])
        self.notes[f"the program writes to {name} too, which is not recorded: a checker that needs it finds none"] += 1

    def read_size(self, words: list[str]) -> None:
        size, number = int(words[3], 0), int(words[4], 0) // FILE_ROOM if words[4:] else 0
        cut = self.region.resize(number, size)
        self.most_sizes[number] = max(self.most_sizes[number], size)
        self.changed([*cut, (size_word(number), size)])
        self.notes["the size of the file is a word, filesize, that persists on its own"] += 1
        self.add(Kind.STORE, words, word=size_word(number), value=size)
        if cut:
            self.notes["a file grows again where it was cut off: the zeros there are taken as stores, which may be lost"] += 1
        for word, value in cut:
            self.add(Kind.STORE, words, word=word, value=value, note="cut off before")

    def read_locked(self, words: list[str]) -> None:
        if len(words) == 3:
            if not self.is_on_disk:
                self.add(Kind.FULL_FENCE, words, note="a locked operation that stores nothing here")
            return
        offset, data = self.data_of(words)
        changed = self.region.store(offset, data)
        self.changed(changed)
        is_of_two_words = len(data) == 2 * WORD and offset % len(data) == 0
        if is_of_two_words:
            self.notes["a locked operation of 16 bytes is taken as one of each word, the lower first"] += 1
        elif len(changed) > 1:
            self.refuse(words, "a locked operation over two words")
        for word, value in changed:
            self.add(Kind.STORE if self.is_on_disk else Kind.LOCKED, words, word=word, value=value)

    def read_nontemporal(self, words: list[str]) -> None:
        changed = self.stored(words)
        if self.is_on_disk:
            pass
        elif self.map_nontemporal:
            self.notes[NONTEMPORAL] += 1
        else:
            self.refuse(words, "a non-temporal store, which px86 has not: --nt map takes it as a store and a clwb")
        for word, value in changed:
            self.add(Kind.STORE, words, word=word, value=value, note="non-temporal")
        for line in sorted({word // LINE for word, _ in changed} if not self.is_on_disk else ()):
            self.add(Kind.OPTIMIZED_FLUSH, words, word=line * LINE, note="non-temporal")

    def read_flush(self, words: list[str]) -> None:
        offset = int(words[4], 0)
        kind = {"clflush": Kind.FLUSH, "clflushopt": Kind.OPTIMIZED_FLUSH, "clwb": Kind.OPTIMIZED_FLUSH}[words[3]]
        if self.is_on_disk:
            self.notes["a flush by the processor is none of a disk (--grain)"] += 1
        else:
            self.add(kind, words, word=offset - offset % LINE, name=words[3])

    def read_fence(self, words: list[str]) -> None:
        kind = {"sfence": Kind.STORE_FENCE, "mfence": Kind.FULL_FENCE}[words[3]]
        if not self.is_on_disk:
            self.add(kind, words)

    def read_msync(self, words: list[str]) -> None:
        unit = unit_of(self.grain)
        self.notes[f"msync is taken as a clflush of each {unit} that was stored since the last, and an mfence"] += 1
        offset, end = int(words[3], 0), int(words[3], 0) + int(words[4], 0)
        for line in sorted(self.unsynced):
            begin = first_word_of(line, self.grain)
            is_size_of = begin == size_word(offset // FILE_ROOM)
            if is_size_of if line < 0 else offset < begin + self.grain and begin < end:
                self.add(Kind.FLUSH, words, word=begin, note="msync")
                self.unsynced.remove(line)
        self.add(Kind.FULL_FENCE, words, note="msync")

    def read_acknowledgement(self, words: list[str]) -> None:
        self.acknowledgements += 1
        thread = int(words[1])
        if words[3] == "-":
            self.unnumbered[thread] += 1
            number, of_thread = sum(self.unnumbered.values()), self.unnumbered[thread]
        else:
            number = of_thread = int(words[3])
        if not 0 <= number < 1 << 64:
            raise ValueError
        # A smaller number takes nothing back.
        self.promised.append((thread, of_thread))
        self.acknowledged = number = max(self.acknowledged, number)
        self.add(Kind.STORE, words, word=ACKNOWLEDGED, value=number, note=f"acknowledged {number}")
        self.add(Kind.OPTIMIZED_FLUSH, words, word=ACKNOWLEDGED, note="what the world was told is not taken back")


class Recording:
    """The operations of a run that matter to px86, in the order in which they took effect; the memory before and behind it."""

    def __init__(
        self, path: str, map_nontemporal: bool = False, ignored: Iterable[tuple[int, int]] = (), grain: int = LINE
    ) -> None:
        log = Log(path, map_nontemporal, grain)
        self.ignored, self.grain = list(ignored), grain
        self.path, self.names, self.sizes = path, log.names, log.most_sizes
        # Those of the first file.
        self.name, self.size = next(iter(log.names), ""), next(iter(log.most_sizes), 0)
        self.region, self.before = log.region, log.region.before
        # What was refused has no end.
        self.status = log.status
        self.after = b"" if log.status is None else contents_of_files(path + ".after", log.count)
        self.maps, self.notes, self.refusals = log.maps, log.notes, log.refusals
        self.waiting, self.pointers = log.waiting, log.pointers
        self.acknowledgements = log.acknowledgements
        self.count = len(log.operations)
        self.acknowledges_last = acknowledges_last(log.operations)
        self.promises = Promises(log.promised)
        counted = self.promises.counted(log.operations, ACKNOWLEDGED)
        taken = list(filter(None, map(self.without_ignored, counted)))
        changing = without_same(noted_never_flushed(taken), self.first_value)
        operations = matters(changing)
        self.threads = sorted({operation.thread for operation in operations if operation.stores or operation.flushes})
        self.operations = [operation for operation in operations if operation.thread in self.threads and self.is_used(operation)]
        self.words = sorted({word for operation in self.operations if operation.stores for word, _ in operation.stored})
        # With the locked operations by which a thread takes a lock, whose order others see.
        with_locks = matters(changing, keeps_locks=True)
        self.with_locks = [operation for operation in with_locks if operation.thread in self.threads and self.is_used(operation)]
        self.is_whole = True

    def is_ignored(self, word: int) -> bool:
        """Whether stores of a word count as none, so that each memory has there what was there before."""
        return any(begin <= word < end for begin, end in self.ignored)

    def without_ignored(self, operation: Operation) -> Operation | None:
        """An operation without the words that it stores and that are ignored. If there are no others its order is left."""
        if not operation.stores:
            return operation
        kept = [(word, value) for word, value in operation.stored if not self.is_ignored(word)]
        if len(kept) == len(operation.stored) or not kept:
            return operation if kept else order_of(operation)
        return replace(operation, word=kept[0][0], value=kept[0][1], more=tuple(kept[1:]))

    def is_used(self, operation: Operation) -> bool:
        """Flushes of the word `ack` keep the windows of one thread small. A run of several is not cut. A store to other memory
        orders the operations of several threads alone."""
        if len(self.threads) < 2:
            return operation.kind is not Kind.ELSEWHERE
        return not operation.flushes or operation.word != ACKNOWLEDGED

    @property
    def endings(self) -> list[str]:
        """What the name of each file has behind that of the first. (One that does not begin so is called by its number.)"""
        return [name.removeprefix(self.name) if name.startswith(self.name) else f".{number}" for number, name in enumerate(self.names, 1)]

    def end_of(self, offset: int) -> int:
        """Where the file that has an offset ended, when it was greatest."""
        number = offset // FILE_ROOM
        return number * FILE_ROOM + self.sizes[number]

    @property
    def unit(self) -> str:
        """What its lines are called."""
        return unit_of(self.grain)

    def line_of(self, word: int) -> int:
        return line_of(word, self.grain)

    def first_word_of(self, line: int) -> int:
        return first_word_of(line, self.grain)

    def only(self, lines: Collection[int]) -> Recording:
        """The recording of these lines alone. What a crash may leave of them does not depend on what the others have. But a store to
        another line orders what its thread has delayed: its order stays."""
        recording = copy(self)
        recording.operations = matters(self.without(lambda operation: operation.word != NOWHERE and operation.line not in lines))
        recording.words = [word for word in self.words if self.line_of(word) in lines]
        recording.is_whole = False
        return recording

    def without(self, is_left_out: Callable[[Operation], bool]) -> list[Operation]:
        """The operations without some, of which the order is left."""
        left = [order_of(operation) if is_left_out(operation) else operation for operation in self.operations]
        return [operation for operation in left if operation is not None and self.is_used(operation)]

    @cached_property
    def first_hash(self) -> str:
        """A hash of the files before the recording."""
        return hash_of(self.before)

    def first_value(self, word: int) -> int:
        """What a word had before the recording."""
        return value_in(self.before, word)

    def last_value(self, word: int) -> int:
        """What a word had at the end."""
        return value_in(self.after, word)


def order_of(operation: Operation) -> Operation | None:
    """What an operation that is left out does to the others. A store orders as one to other memory does, and a locked operation
    as a full fence does. A flush has nothing of another line wait that would not wait without it."""
    if operation.flushes:
        return None
    kind, note = (Kind.FULL_FENCE, LEFT_OUT) if operation.kind is Kind.LOCKED else (Kind.ELSEWHERE, "")
    return Operation(kind, operation.thread, operation.place, name=kind.value, note=note)


def noted_never_flushed(operations: Sequence[Operation]) -> list[Operation]:
    """The operations. A store behind which no flush of its line comes says so."""
    flushed: set[int] = set()
    noted: list[Operation] = []
    for operation in reversed(operations):
        if operation.flushes:
            flushed.add(operation.line)
        elif operation.stores and operation.line not in flushed:
            operation = replace(operation, note=", ".join(filter(None, [operation.note, NEVER_FLUSHED])))
        noted.append(operation)
    return noted[::-1]


def without_same(operations: Iterable[Operation], first_value: Callable[[int], int]) -> list[Operation]:
    """Without the stores that change nothing of their word: the same memories are left. Such a store still orders what stands
    before it, as one to other memory does, and a locked operation as a full fence does."""
    values: dict[int, int] = {}
    changing: list[Operation] = []
    for operation in operations:
        if operation.stores:
            if all(values.setdefault(word, first_value(word)) == value for word, value in operation.stored):
                locks = operation.kind is Kind.LOCKED
                kind, note = (Kind.FULL_FENCE, STORES_THE_SAME) if locks else (Kind.ELSEWHERE, "")
                operation = Operation(kind, operation.thread, operation.place, name=kind.value, note=note)
            else:
                values.update(operation.stored)
        changing.append(operation)
    return changing


def acknowledges_last(operations: Iterable[Operation]) -> bool:
    """Whether nothing is stored to the region behind the first acknowledgement."""
    words = [operation.word for operation in operations if operation.stores]
    return ACKNOWLEDGED in words and set(words[words.index(ACKNOWLEDGED) :]) == {ACKNOWLEDGED}


def matters(operations: Sequence[Operation], keeps_locks: bool = False) -> list[Operation]:
    """Without what orders nothing: flushes of lines that the run never stores, fences of a thread that has delayed nothing since
    its last full fence, and locked operations elsewhere behind all stores. With `keeps_locks` a locked operation elsewhere stays,
    though its thread has delayed nothing."""
    lines = {operation.line for operation in operations if operation.stores}
    delayed: set[int] = set()
    left: list[Operation] = []
    for operation in operations:
        if operation.flushes and operation.line not in lines:
            continue
        is_lock = keeps_locks and operation.kind is Kind.FULL_FENCE and operation.note != ""
        if operation.fences and operation.thread not in delayed and not is_lock:
            continue
        if operation.kind in (Kind.FULL_FENCE, Kind.LOCKED):
            delayed.discard(operation.thread)
        elif operation.kind is not Kind.ELSEWHERE:
            delayed.add(operation.thread)
        left.append(operation)
    while left and left[-1].kind is Kind.FULL_FENCE and left[-1].note:
        left.pop()
    return left
