"""Source places of recorded instructions."""

from __future__ import annotations

import os
import re
import struct
import subprocess
from collections.abc import Mapping, Sequence

from .elf import address_of, function_at
from .fields import Fields
from .recording import Recording
from .text import printable

# What is not the author's own: headers of the system and of compilers, what distributions built under /build (Debian: in a
# folder of the package, NAME-RANDOM/NAME-VERSION), and Rust's library. A project may lie under /build or /usr/src.
NOT_OWN = re.compile(
    r"^/usr/((local/)?(include|lib\w*)|share|src/debug)/|^/build/(reproducible-path|(?P<package>[^/]+)-\w{6}/(?P=package)-[^/]+)/"
    r"|^/rustc/|/(rustlib|\.cargo)/|^\./|^\.\./sysdeps/"
)


class Places:
    """The source place of each place of a log, `file:line`. Of a library's code it is that of the call in the program's own."""

    def __init__(self, recording: Recording, symbol: str | None = None, type_name: str | None = None) -> None:
        self.recording = recording
        self.fields = Fields(recording, symbol, type_name)
        self.found: dict[str, str] = {}
        saved = recording.path + ".places"
        if os.path.exists(saved):
            with open(saved, encoding="utf-8") as file:
                self.found = {place: text for place, _, text in (line.rstrip("\n").partition(" ") for line in file)}
        else:
            self.find(recording)

    def of(self, place: str) -> str:
        return self.found.get(place, place)

    def function(self, place: str) -> str | None:
        """The function of a library that a place is in, or the library alone, where the line is that of the program's own call."""
        number, _, caller = place.partition("/")
        address = int(number, 16)
        for begin, end, offset, path in self.recording.maps if caller else []:
            if begin <= address < end:
                name, library = function_at(path, address - begin + offset), os.path.basename(path)
                return f"{name} of {library}" if name else library
        return None

    def save(self, path: str) -> None:
        with open(path, "w", encoding="utf-8") as file:
            file.writelines(f"{place} {text}\n" for place, text in self.found.items())

    def find(self, recording: Recording) -> None:
        places = [operation.place for operation in recording.operations] + [place for place, _ in recording.refusals]
        places += [place for _, _, place in recording.waiting]
        places = list(dict.fromkeys(places))
        wanted: dict[str, dict[str, int]] = {}
        for place in places:
            number, _, caller = place.partition("/")
            # A call returns to the instruction behind it.
            address = int(caller, 16) - 1 if caller else int(number, 16)
            for begin, end, offset, path in recording.maps:
                if begin <= address < end:
                    wanted.setdefault(path, {})[place] = address - begin + offset
        for path, offsets in wanted.items():
            self.found.update(places_in(path, offsets))
        self.found = {place: self.found[place] for place in places if place in self.found}


def places_in(path: str, offsets: Mapping[str, int]) -> dict[str, str]:
    """The source places of these offsets in a file, by addr2line."""
    try:
        addresses = {place: address_of(path, offset) for place, offset in offsets.items()}
        words = ["addr2line", "-i", "-a", "-e", path, *map(hex, addresses.values())]
        written = subprocess.run(words, capture_output=True, text=True, errors="replace", check=False).stdout
    except (OSError, struct.error):
        return {place: f"{os.path.basename(path)}+{offset:#x}" for place, offset in offsets.items()}
    found = {}
    for block in re.split(r"^0x", written, flags=re.M)[1:]:
        number, *frames = block.splitlines()
        found[int(number, 16)] = place_text(frames)
    unknown = {place: f"{os.path.basename(path)}+{address:#x}" for place, address in addresses.items()}
    return {place: printable(found.get(address) or unknown[place]) for place, address in addresses.items()}


def place_text(frames: Sequence[str]) -> str:
    """The author's own frames, the innermost first; the outermost, if none is the author's; nothing, if none is known."""
    named = [frame.split(" (")[0] for frame in frames]
    named = [frame for frame in named if re.search(":[1-9][0-9]*$", frame) and not frame.startswith("?")]
    own = [frame for frame in named if not NOT_OWN.search(frame)] or named[-1:]
    return ", from ".join(dict.fromkeys(os.path.basename(frame) for frame in own))
