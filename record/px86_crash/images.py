"""The images of a run: each different memory once, and files of them."""

from __future__ import annotations

import hashlib
import struct
from collections.abc import Iterable, Iterator, Mapping, Sequence
from dataclasses import dataclass

from .memories import size_rank
from .memory_files import blocks_of_file, first_blocks, write_file
from .recording import ACKNOWLEDGED, FILE_ROOM, WORD, Recording, is_of_file, size_word
from .text import Text


@dataclass(frozen=True)
class Image:
    """A memory that a crash may leave, by the look of a text that found it: the values of the text's words."""

    text: Text
    look: int
    values: tuple[int, ...]

    @property
    def acknowledged(self) -> int:
        return self.text.acknowledged(self.values)

    @property
    def stored(self) -> dict[int, int]:
        """The words of the file that the text stores, with their values."""
        return {word: value for word, value in self.text.stored(self.values).items() if is_of_file(word)}

    @property
    def lost(self) -> int:
        """How many words of the text have not what they would have if all stores persisted."""
        newest = self.text.looks[self.look].newest
        return sum(value != newest[word] for word, value in zip(self.text.words, self.values) if word in newest)

    @property
    def changes(self) -> dict[int, int]:
        """All words that may be others than before the recording, with their values."""
        return {**self.text.persisted_words, **self.stored}


class Images:
    """Each different memory of a recording. Of equal ones the one with the greatest acknowledgement is kept: it promises most."""

    def __init__(self, recording: Recording) -> None:
        self.recording = recording
        words = [word for word in recording.words if word != ACKNOWLEDGED]
        self.place = {word: number * WORD for number, word in enumerate(words)}
        self.by_sum: dict[bytes, Image] = {}

    def __iter__(self) -> Iterator[Image]:
        return iter(self.by_sum.values())

    def __len__(self) -> int:
        return len(self.by_sum)

    def add(self, text: Text, looks: Sequence[Sequence[tuple[int, ...]]]) -> None:
        """Adds the images of all looks of a text."""
        words = bytearray(len(self.place) * WORD)
        for word, place in self.place.items():
            value = text.persisted.get(word)
            struct.pack_into("<Q", words, place, self.recording.first_value(word) if value is None else value)
        for look, images in enumerate(looks):
            for values in images:
                image = Image(text, look, values)
                for word, value in image.stored.items():
                    if word in self.place:
                        struct.pack_into("<Q", words, self.place[word], value)
                key = hashlib.sha256(words).digest()
                if key not in self.by_sum or self.by_sum[key].acknowledged < image.acknowledged:
                    self.by_sum[key] = image


def in_order(images: Iterable[Image]) -> list[Image]:
    """Images of small states first, and of one state those first in which the fewest words have lost something."""
    ranks: dict[tuple[int, int], int] = {}

    def key(image: Image) -> tuple[int, int, int, int]:
        state = image.text.number, image.look
        if state not in ranks:
            ranks[state] = size_rank(image.text.looks[image.look].pending)
        return ranks[state], *state, image.lost

    return sorted(images, key=key)


class Pool:
    """Writes images as files. Only blocks that are not zero are written, so that a large and sparse pool costs little."""

    BLOCK = 4096

    def __init__(self, recording: Recording) -> None:
        self.recording = recording
        self.blocks = {begin: bytearray(block) for begin, block in first_blocks(recording).items()}
        self.persisted: dict[int, int] = {}
        self.base = self.blocks

    def write(self, path: str, image: Image) -> None:
        """Makes the files anew: what a checker did to them is gone."""
        blocks = self.blocks_of(image)
        for number, ending in enumerate(self.recording.endings):
            write_file(path + ending, number, self.size_of(number, image), blocks_of_file(blocks, number))

    def sum(self, image: Image) -> bytes:
        """A hash of all bytes of the files of an image."""
        sizes = [self.size_of(number, image) for number in range(len(self.recording.sizes))]
        hashed = hashlib.sha256(repr(sizes).encode())
        for begin, block in sorted(self.blocks_of(image).items()):
            number, place = divmod(begin, FILE_ROOM)
            kept = block[: max(sizes[number] - place, 0)]
            if any(kept):
                hashed.update(begin.to_bytes(WORD, "little") + kept)
        return hashed.digest()

    def size_of(self, number: int, image: Image) -> int:
        """The size of a file of it."""
        word = size_word(number)
        return image.changes.get(word, self.recording.first_value(word))

    def blocks_of(self, image: Image) -> dict[int, bytearray]:
        if image.text.persisted is not self.persisted:
            self.persisted = image.text.persisted
            self.base = self.with_words(self.blocks, image.text.persisted_words)
        return self.with_words(self.base, image.stored)

    def with_words(self, blocks: Mapping[int, bytearray], words: Mapping[int, int]) -> dict[int, bytearray]:
        """These blocks, with these values of words."""
        made, copied = dict(blocks), set()
        for word, value in words.items():
            if word < 0:
                continue
            begin = word - word % self.BLOCK
            if begin not in copied:
                copied.add(begin)
                made[begin] = bytearray(made.get(begin) or bytes(min(self.BLOCK, self.recording.end_of(begin) - begin)))
            data = value.to_bytes(WORD, "little")[: self.recording.end_of(word) - word]
            made[begin][word - begin : word - begin + len(data)] = data
        return made
