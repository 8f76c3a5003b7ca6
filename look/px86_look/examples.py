"""Litmus texts with the steps and the conditions that lie beside them: the examples of this repository, or what a person names."""

from __future__ import annotations

import os
import re
from typing import Any, NamedTuple

from .emulator import TOP, Px86
from .faults import Refused
from .steps import read_list

# Where examples are: in the repository, or below the folder of an installation.
PLACES = (os.path.join(TOP, "examples"), os.path.join(TOP, "..", "..", "share", "px86", "examples"))
FOLDERS = ("guide", "sheets", "", "every-run", "x86-tso", "persistency", "idioms")
# A condition, as the command of a `.check`, or a `.options`, has it.
CONDITION = re.compile(r'--(all|ends|recovered) "([^"]*)"')
EMPTY: dict[str, Any] = {"name": "new.litmus", "text": "litmus 1\n", "steps": [], "conditions": {}}


def read(path: str) -> bytes:
    with open(path, "rb") as file:
        return file.read()


def read_beside(path: str, ending: str) -> str:
    """The file of the same name with another ending, or nothing if there is none."""
    beside = path.removesuffix(".litmus") + ending
    return read(beside).decode() if os.path.isfile(beside) else ""


class Example(NamedTuple):
    """An example, by its name in the folder of all, with what its text says first of itself."""

    name: str
    title: str
    path: str

    @property
    def about(self) -> dict[str, str]:
        return {"name": self.name, "title": self.title}

    def read(self) -> dict[str, Any]:
        asked = CONDITION.findall(read_beside(self.path, ".check") or read_beside(self.path, ".options"))
        return {
            "name": os.path.basename(self.path),
            "text": read(self.path).decode(),
            "steps": read_list(read_beside(self.path, ".steps")),
            "conditions": dict(reversed(asked)),
        }


def title_of(text: str) -> str:
    first = text.partition("\n")[0]
    return first[1:].strip() if first.startswith("#") else ""


def find_examples() -> list[Example]:
    top = next((it for it in PLACES if os.path.isdir(it)), "")
    found = []
    for folder in FOLDERS:
        within = os.path.join(top, folder)
        names = sorted(os.listdir(within)) if top and os.path.isdir(within) else []
        for name in (it for it in names if it.endswith(".litmus")):
            path = os.path.join(within, name)
            found.append(Example(os.path.join(folder, name), title_of(read(path).decode()), path))
    return found


def open_file(px86: Px86, path: str, steps_path: str | None, condition: str | None) -> dict[str, Any]:
    """What a person names. Of an object file the text is that of `dis`; a fault of it is Refused."""
    content = read(path)
    if content.startswith(b"PX86OBJ"):
        answer = px86.ask("dis", text=content)
        if answer.status:
            raise Refused(answer.err.strip().removeprefix("px86: "))
        content = answer.out.encode()
    return {
        "name": re.sub(r"[^ -~]", "?", os.path.basename(path)),
        "text": content.decode("utf-8", "replace"),
        "steps": read_list(read(steps_path).decode("utf-8", "replace")) if steps_path else [],
        "conditions": {"all": condition} if condition else {},
    }
