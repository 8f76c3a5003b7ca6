"""Asks px86."""

from __future__ import annotations

import json
import os
import subprocess
from collections.abc import Collection, Mapping, Sequence
from typing import Any, NamedTuple

from .conversation import Conversation
from .faults import Failed
from .recording import ACKNOWLEDGED, Recording
from .talk import Talk
from .text import Text

TOP = os.path.dirname(os.path.dirname(os.path.dirname(os.path.abspath(__file__))))
# A check in the code of a program without a proof ends it by a signal where it fails, as its statuses are reports.
ENVIRONMENT = {"ASAN_OPTIONS": "abort_on_error=1:allocator_may_return_null=1"} | os.environ


def find_px86() -> str:
    """The program: that of the variable PX86, or the one that was built here."""
    named = os.environ.get("PX86")
    path = named or os.path.join(TOP, "crates", "px86", "out", "px86")
    if os.path.isfile(path) and os.access(path, os.X_OK):
        return path
    if named:
        raise Failed(f"the variable PX86 names {named}, which is no program")
    script = os.path.join(os.path.relpath(TOP), "px86")
    raise Failed(
        f"px86 is not built: run {script} --version, which proves and builds it, once."
        f" Until then run {script} --unproved --version, and export PX86={path}.unproved"
    )


class Left(NamedTuple):
    """What is known of an image: the places in the pending list of what has to persist for it, by px86, and what each word has persisted
    with before."""

    kept: Collection[int]
    persisted: Mapping[int, int]


class Px86:
    def __init__(self, path: str) -> None:
        self.path = path
        self.conversation = Conversation(path, ENVIRONMENT)

    def ask(self, *words: str, seconds: float | None = None) -> tuple[int | None, str, str]:
        """How it ends, what it writes, and what it says of a fault. If it does not end in time the status is None."""
        try:
            done = subprocess.run(
                [self.path, *words],
                stdin=subprocess.DEVNULL,
                capture_output=True,
                text=True,
                timeout=seconds,
                env=ENVIRONMENT,
                check=False,
            )
        except OSError as error:
            raise Failed(f"{self.path}: {error.strerror}") from error
        except subprocess.TimeoutExpired:
            return None, "", f"it does not end in {seconds} seconds"
        return done.returncode, done.stdout, done.stderr.strip().removeprefix("px86: ")

    def report(
        self, command: str, *words: str, seconds: float | None = None, explains: bool = False
    ) -> tuple[int | None, dict[str, Any], str]:
        """The same of a command that takes --json: its report is an object, which is empty where there is a fault. With `explains` more is
        said of a fault."""
        status, written, said = self.ask(*["--explain"] * explains, command, "--json", *words, seconds=seconds)
        told: dict[str, Any] = {}
        try:
            told = json.loads(written)
        except ValueError as error:
            if status in (0, 1):
                raise Failed(f"px86 {command} --json writes what is no JSON: {error}") from error
        return status, told, fault_in(said)

    def talk(self, file: str) -> Talk:
        """A conversation about a file."""
        return Talk(self.path, file, ENVIRONMENT)

    def left(self, text: Text, look: int, values: Sequence[int]) -> Left:
        """What is said of an image of a look."""
        with self.talk(text.file) as talk:
            talk.make(text.steps_to(look))
            return left_of(talk, text, values)

    def values(self, file: str, script: str, count: int) -> list[list[int]]:
        """What so many commands `values` answer, at the end of a script."""
        status, written, said = self.ask("debug", file, "--steps", script)
        lines = iter(written.splitlines())
        if status or next(lines, "") != "end":
            raise Failed(f"px86 debug {file} --steps {script} ended with status {status}: {said or 'a step of it is refused'}")
        answers: list[list[int]] = []
        values: list[int] = []
        for line in lines:
            kind, _, number = line.partition(" ")
            if kind == "value":
                values.append(int(number))
            elif kind == "values" and int(number) == len(values):
                answers.append(values)
                values = []
        if len(answers) != count or values:
            raise Failed(f"px86 debug {file} --steps {script} gives {len(answers)} answers, and not {count}")
        return answers

    def least_set(self, file: str, steps: str, values: Sequence[int]) -> set[int] | None:
        """The places in the pending list of what has to persist for an image; none if a crash behind these steps may not leave it."""
        status, told, said = self.report("images", file, "--steps", steps, "--set", " ".join(map(str, values)))
        if status not in (0, 1):
            raise Failed(f"px86 images {file} --steps {steps} --set ended with status {status}: {said}")
        return None if told["set"] is None else set(told["set"])

    def mend(self, file: str, condition: str, states: int, seconds: float) -> list[tuple[str, int]]:
        """The instructions with which the condition holds in each memory that a run of a text may leave, each with the line of the text
        behind which it is put; none if it is not told in time that there are some."""
        words = ("--before-crash", "--states", str(states), "--all", condition, file)
        status, told, _ = self.report("mend", *words, seconds=seconds)
        return [(put["instruction"].split(" ")[0], put["site"]["line"]) for put in told["put"]] if status == 0 and told["put"] else []


def left_of(talk: Talk, text: Text, values: Sequence[int]) -> Left:
    """What is said of an image where the steps to its memory are made."""
    kept = talk.least_set(values)
    if kept is None:
        raise Failed(f"px86 has not the memory of {text.file} that was refused")
    words = talk.words([text.name(word) for word in text.words])
    return Left(kept, {word: there.persisted for word, there in zip(text.words, words)})


def fault_in(said: str) -> str:
    """The text of a fault, of which --json writes an object on the last line, and behind it its explanation, if it has one; or what is
    said as it is."""
    try:
        fault = json.loads(said.splitlines()[-1])["fault"]
        text = " ".join(fault[part] for part in ("number", "name", "place") if fault[part] is not None)
    except (IndexError, KeyError, TypeError, ValueError):
        return said
    return f"{text}\n{fault.get('explanation') or ''}".rstrip()


def replay(recording: Recording, texts: Sequence[Text], finals: Sequence[Sequence[int]]) -> int | None:
    """Compares what px86 comes to with the memory that the program left: the first word in which they differ, or none."""
    memory = {word: recording.first_value(word) for word in recording.words}
    for text, final in zip(texts, finals):
        memory.update(text.stored(final))
    for word in recording.words:
        if word != ACKNOWLEDGED and recording.region.left_of(word, memory[word]) != recording.last_value(word):
            return word
    return None
