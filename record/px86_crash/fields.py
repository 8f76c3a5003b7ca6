"""Which field of which variable a word of the region is: `pool->slots[1].key`. Types come from `readelf --debug-dump=info` (of
binutils, as addr2line), of a program that was compiled with -g. What is not known has no name: its offset is all that is said."""

from __future__ import annotations

import os
import re
import subprocess
from collections.abc import Iterator, Sequence
from dataclasses import dataclass, field
from functools import cached_property

from .elf import address_of
from .recording import FILE_ROOM, WORD, Recording

# Types that only say more of another one, and those that have members.
WRAPPERS = {"typedef", "const_type", "volatile_type", "restrict_type", "atomic_type"}
STRUCTURES = {"structure_type", "class_type", "union_type"}
KEPT = WRAPPERS | STRUCTURES | {"base_type", "enumeration_type", "pointer_type", "array_type", "subrange_type", "member", "variable"}
# A program with more of it is not looked at.
MOST_BYTES = 64 << 20
MOST_DEPTH = 32


@dataclass
class Entry:
    """An entry of the debugging information: a type, a member of one, or a variable."""

    tag: str
    name: str = ""
    type: int | None = None
    size: int = 0
    place: int = 0
    count: int | None = None
    address: int | None = None
    parts: list[Entry] = field(default_factory=list)


def read_entries(lines: Iterator[str]) -> dict[int, Entry]:
    """The entries that readelf writes, by their offsets."""
    entries: dict[int, Entry] = {}
    parents: list[Entry | None] = []
    entry: Entry | None = None
    for line in lines:
        head = re.match(r" <([0-9a-f]+)><([0-9a-f]+)>: .*\(DW_TAG_(\w+)\)", line)
        if head:
            depth, tag = int(head[1], 16), head[3]
            entry = Entry(tag) if tag in KEPT else None
            parents[depth:] = [entry]
            parent = parents[depth - 1] if 0 < depth <= len(parents) else None
            if entry is not None:
                entries[int(head[2], 16)] = entry
                if parent is not None:
                    parent.parts.append(entry)
        elif entry is not None:
            read_attribute(entry, line)
    return entries


def read_attribute(entry: Entry, line: str) -> None:
    found = re.match(r"    <[0-9a-f]+>\s+DW_AT_(\w+)\s*: (.*)", line)
    if not found:
        return
    # Some readelf write the form of a value before it.
    name, value = found[1], re.sub(r"^\(\w+\) ", "", found[2].strip())
    if name == "name":
        entry.name = value.rpartition("): ")[2] if value.startswith("(") else value
    elif name == "type":
        type = re.search("<0x([0-9a-f]+)>", value)
        entry.type = int(type[1], 16) if type else None
    elif name == "byte_size":
        entry.size = number(value)
    elif name == "data_member_location":
        entry.place = number(value)
    elif name == "upper_bound":
        entry.count = number(value) + 1 if re.match("(0x)?[0-9a-f]+", value) else None
    elif name == "count":
        entry.count = number(value)
    elif name == "location":
        place = re.search(r"\(DW_OP_addr: ([0-9a-f]+)\)", value)
        entry.address = int(place[1], 16) if place else None


def number(text: str) -> int:
    found = re.match("0x[0-9a-f]+|[0-9]+", text)
    return int(found[0], 0) if found else 0


class Types:
    """The types and the variables of a program."""

    def __init__(self, path: str) -> None:
        self.entries: dict[int, Entry] = {}
        try:
            if os.path.getsize(path) > MOST_BYTES:
                return
            words = ["readelf", "--debug-dump=info", path]
            pipe, nothing = subprocess.PIPE, subprocess.DEVNULL
            with subprocess.Popen(words, stdout=pipe, stderr=nothing, text=True, errors="replace") as started:
                assert started.stdout is not None
                self.entries = read_entries(started.stdout)
        except OSError:
            return

    @cached_property
    def variables(self) -> dict[int, Entry]:
        return {it.address: it for it in self.entries.values() if it.tag == "variable" and it.address is not None}

    def plain(self, type: int | None) -> Entry | None:
        """A type without what only says more of it."""
        for _ in range(MOST_DEPTH):
            entry = self.entries.get(type) if type is not None else None
            if entry is None or entry.tag not in WRAPPERS:
                return entry
            type = entry.type
        return None

    def named(self, name: str) -> Entry | None:
        """The type with this name, as `struct pool` or `pool`, that has a size."""
        wanted = name.removeprefix("struct ").removeprefix("union ").strip()
        for entry in self.entries.values():
            if entry.name == wanted and entry.tag in STRUCTURES | {"typedef", "base_type"}:
                plain = self.plain(entry.type) if entry.tag == "typedef" else entry
                if plain is not None and plain.size:
                    return plain
        return None

    def size_of(self, type: Entry | None) -> int | None:
        """None if it has no end: an array whose length is not told."""
        if type is None or type.tag != "array_type":
            return type.size if type else 0
        size = self.size_of(self.plain(type.type))
        for part in type.parts:
            if size is None or part.count is None:
                return None
            size *= part.count
        return size

    def inside(self, type: Entry | None, offset: int, depth: int = 0) -> str | None:
        """What stands at an offset of a type, as it is written behind a variable; None if nothing does."""
        size = self.size_of(type)
        if type is None or depth > MOST_DEPTH or size is not None and not 0 <= offset < size and not self.has_open_end(type):
            return None
        if type.tag in STRUCTURES:
            return self.inside_members(type, offset, depth)
        if type.tag == "array_type":
            return self.inside_array(type, [part.count for part in type.parts], offset, depth)
        return ""

    def has_open_end(self, type: Entry) -> bool:
        """Whether its last member is an array whose length is not told."""
        last = self.plain(type.parts[-1].type) if type.tag in STRUCTURES and type.parts else None
        return last is not None and (self.size_of(last) is None or self.has_open_end(last))

    def inside_members(self, type: Entry, offset: int, depth: int) -> str | None:
        for member in type.parts:
            if member.tag == "member" and member.type is not None and member.place <= offset:
                found = self.inside(self.plain(member.type), offset - member.place, depth + 1)
                if found is not None:
                    return f".{member.name}{found}" if member.name else found
        return None

    def inside_array(self, type: Entry, counts: Sequence[int | None], offset: int, depth: int) -> str | None:
        element = self.plain(type.type)
        size = self.size_of(element)
        for count in counts[1:]:
            size = size * count if size and count else None
        if not size or counts and counts[0] is not None and offset >= size * counts[0]:
            return None
        rest = offset % size
        found = self.inside_array(type, counts[1:], rest, depth) if len(counts) > 1 else self.inside(element, rest, depth + 1)
        return None if found is None else f"[{offset // size}]{found}"


@dataclass(frozen=True)
class Root:
    """What lies at an offset of the region: a variable or type, its name, and what stands between it and a member."""

    offset: int
    name: str
    type: Entry
    is_pointer: bool = False


class Fields:
    """The names of the words of a recording."""

    def __init__(self, recording: Recording, symbol: str | None = None, type_name: str | None = None) -> None:
        self.found: dict[int, str] = {}
        saved = recording.path + ".fields"
        if os.path.exists(saved):
            with open(saved, encoding="utf-8") as file:
                pairs = (line.rstrip("\n").split(" ", 1) for line in file)
                self.found = {int(offset, 16): name for offset, name in pairs}
        elif recording.maps and (symbol or type_name or recording.pointers):
            self.types = Types(recording.maps[0][3])
            self.roots = list(self.find_roots(recording, symbol, type_name))
            self.found = {word: name for word in recording.words if word >= 0 for name in [self.name(word)] if name}

    def of(self, word: int) -> str | None:
        return self.found.get(word)

    def save(self, path: str) -> None:
        if self.found:
            with open(path, "w", encoding="utf-8") as file:
                file.writelines(f"{word:#x} {name}\n" for word, name in self.found.items())

    def find_roots(self, recording: Recording, symbol: str | None, type_name: str | None) -> Iterator[Root]:
        types = self.types
        if type_name is not None:
            named = types.named(type_name)
            if named is not None:
                yield Root(0, type_name.split(" ")[-1], named)
            return
        for variable in types.variables.values():
            if symbol is not None and variable.name == symbol:
                plain = types.plain(variable.type)
                if plain is not None:
                    yield Root(0, symbol, plain)
        begin, _, offset, path = recording.maps[0]
        bias = begin - address_of(path, offset)
        for address, target in recording.pointers:
            pointer = types.variables.get(address - bias)
            plain = types.plain(pointer.type) if pointer else None
            to = types.plain(plain.type) if plain and plain.tag == "pointer_type" else None
            if pointer is not None and to is not None and (to.size > 1 or to.tag in STRUCTURES):
                yield Root(target, pointer.name, to, True)

    def name(self, word: int) -> str | None:
        """The name of a word by the largest root that it is in."""
        named = ((root.type.size, -number, self.names(root, word)) for number, root in enumerate(self.roots))
        return max((it for it in named if it[2]), default=(0, 0, None))[2]

    def names(self, root: Root, word: int) -> str | None:
        """The fields of a word in the order of its bytes."""
        named = (self.field(root, byte) for byte in range(word, word + WORD))
        names = list(dict.fromkeys(name for name in named if name is not None))
        if len(names) > 1:
            first, last = (re.fullmatch(r"(.*)\[(\d+)\]", name) for name in (names[0], names[-1]))
            if first and last and first[1] == last[1]:
                return f"{first[1]}[{first[2]}..{last[2]}]"
        return "/".join(names[:3]) + ("/.." if len(names) > 3 else "") or None

    def field(self, root: Root, byte: int) -> str | None:
        offset = byte - root.offset
        if offset < 0 or byte // FILE_ROOM != root.offset // FILE_ROOM:
            return None
        if root.is_pointer and root.type.tag not in STRUCTURES:
            return f"{root.name}[{offset // root.type.size}]"
        inside = self.types.inside(root.type, offset)
        if inside is None:
            return None
        if root.is_pointer and inside.startswith("."):
            return f"{root.name}->{inside[1:]}"
        return root.name + inside
