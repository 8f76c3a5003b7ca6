"""Files of memories: what has persisted at a state, and values of the words that are pending there."""

from __future__ import annotations

import contextlib
import mmap
import os
from collections.abc import Iterator, Mapping

from .faults import Failed
from .recording import FILE_ROOM, WORD, Recording, size_word
from .states import History
from .stepper import data_of

BLOCK = 4096
# How many pieces one call writes.
MOST_PIECES = 512


class MemoryFile:
    """Writes one memory after another. It keeps the blocks of what has persisted at the last state, and goes on from there."""

    def __init__(self, history: History) -> None:
        self.history = history
        self.recording = history.recording
        self.first = first_blocks(self.recording)
        self.begin_again()

    def begin_again(self) -> None:
        self.number, self.place = 0, 0
        self.blocks = {begin: bytearray(block) for begin, block in self.first.items()}

    def go_to(self, number: int) -> None:
        """Has what has persisted at the state of this number."""
        if number < self.number:
            self.begin_again()
        changes = self.history.changes
        while self.place < len(changes) and changes[self.place][0] <= number:
            _, word, value = changes[self.place]
            if word >= 0:
                self.put(self.blocks, word, value)
            self.place += 1
        self.number = number

    def block_at(self, begin: int) -> bytearray:
        return bytearray(min(BLOCK, self.recording.end_of(begin) - begin))

    def put(self, blocks: dict[int, bytearray], word: int, value: int) -> None:
        begin = word - word % BLOCK
        block = blocks.get(begin)
        if block is None:
            block = blocks[begin] = self.block_at(begin)
        data = value.to_bytes(WORD, "little")[: self.recording.end_of(word) - word]
        block[word - begin : word - begin + len(data)] = data

    def write(self, path: str, number: int, words: Mapping[int, int]) -> None:
        """Makes the files anew: what a checker did to them is gone. Of one state all have the same blocks, and the same holes."""
        self.go_to(number)
        blocks = dict(self.blocks)
        stored = {word: value for word, value in words.items() if word >= 0}
        for begin in {word - word % BLOCK for word in stored}:
            blocks[begin] = bytearray(blocks.get(begin) or self.block_at(begin))
        for word, value in stored.items():
            self.put(blocks, word, value)
        for file, ending in enumerate(self.recording.endings):
            word = size_word(file)
            size = words[word] if word in words else self.history.value(word, number)
            write_file(path + ending, file, size, blocks_of_file(blocks, file) if len(self.recording.endings) > 1 else blocks)


def first_blocks(recording: Recording) -> dict[int, bytes]:
    """The blocks that are not all zeros at the beginning, as long as the greatest size of their file asks."""
    found: dict[int, bytes] = {}
    for number, size in enumerate(recording.sizes):
        first = number * FILE_ROOM
        for begin in range(first, first + size, BLOCK):
            block = bytes(recording.before[begin : begin + BLOCK])
            if block.count(0) != len(block):
                found[begin] = block.ljust(min(BLOCK, first + size - begin), b"\0")
    return found


def blocks_of_file(blocks: Mapping[int, bytearray], number: int) -> dict[int, bytearray]:
    """The blocks of one file, by their places in it."""
    begin = number * FILE_ROOM
    return {offset - begin: block for offset, block in blocks.items() if begin <= offset < begin + FILE_ROOM}


def write_file(path: str, number: int, size: int, blocks: Mapping[int, bytearray]) -> None:
    """Makes a file. One behind the first that has no bytes is not there. A file that is there is written over, as it mostly has the same
    blocks: where a file is made empty and written again, a disk is waited for."""
    try:
        if number > 0 and size == 0:
            with contextlib.suppress(FileNotFoundError):
                os.remove(path)
            return
        file = os.open(path, os.O_RDWR | os.O_CREAT, 0o666)
        try:
            if not tells_of_stores(path) or has_others(file, size, blocks):
                os.ftruncate(file, 0)
            for begin, pieces in pieces_of(blocks):
                os.pwritev(file, pieces, begin)
            os.ftruncate(file, size)
        finally:
            os.close(file)
    except OSError as error:
        raise Failed(f"{path}: {error.strerror}") from error


# Of each folder whether a file of it tells where it has data, also by a store to a mapping.
TELLS: dict[str, bool] = {}


def tells_of_stores(path: str) -> bool:
    """Whether that is so of the folder of this file. It is tried, as not each file system need know of it at once."""
    folder = os.path.dirname(path)
    if folder not in TELLS:
        trial = os.open(f"{path}.trial", os.O_RDWR | os.O_CREAT | os.O_TRUNC, 0o600)
        try:
            os.remove(f"{path}.trial")
            os.ftruncate(trial, 3 * BLOCK)
            with mmap.mmap(trial, 3 * BLOCK) as mapping:
                mapping[BLOCK] = 1
                TELLS[folder] = any(begin <= BLOCK < end for begin, end in data_of(trial, 3 * BLOCK))
        finally:
            os.close(trial)
    return TELLS[folder]


def has_others(file: int, size: int, blocks: Mapping[int, bytearray]) -> bool:
    """Whether a file has data where there are no blocks."""
    for begin, end in data_of(file, size):
        if any(block not in blocks for block in range(begin - begin % BLOCK, end, BLOCK)):
            return True
    return False


def pieces_of(blocks: Mapping[int, bytearray]) -> Iterator[tuple[int, list[bytearray]]]:
    """Neighbouring blocks together."""
    pieces: list[bytearray] = []
    start = end = 0
    for begin in sorted(blocks):
        if pieces and (begin != end or len(pieces) == MOST_PIECES):
            yield start, pieces
            pieces = []
        if not pieces:
            start = begin
        pieces.append(blocks[begin])
        end = begin + BLOCK
    if pieces:
        yield start, pieces
