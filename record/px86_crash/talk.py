"""A px86 with which one talks about a file (`px86 debug --interactive`): lines are said to it, and it answers each.

What is said is written as px86 takes it, and meanwhile is read what it answers: so neither waits for the other, however much that is and
however little a pipe takes. If px86 ends, or for a while neither takes nor answers anything, that is a fault, with what it says of it."""

from __future__ import annotations

import contextlib
import os
import re
import select
import subprocess
from collections import deque
from collections.abc import Iterator, Sequence
from typing import NamedTuple

from .faults import Failed

PROMPT = b"px86> "
NUMBER = r"[0-9]{1,20}"
# So many seconds are waited for more of an answer, and for the end of a px86 that answers no more.
SECONDS, LAST_SECONDS = 600.0, 5.0
# So much is read at once, and so much is told of a fault.
MOST_HEARD, MOST_TOLD = 1 << 16, 1 << 12


class Values(NamedTuple):
    """Of a word: what each processor reads, and what has persisted."""

    coherent: int
    persisted: int


class NoCondition(Failed):
    """px86 does not take a condition: its fault."""


class Talk:
    """What is said, and what is heard. It fails if nothing is taken or answered for so many seconds."""

    def __init__(self, path: str, file: str, environment: dict[str, str], seconds: float = SECONDS) -> None:
        self.name, self.seconds = f"{path} debug --interactive {file}", seconds
        words = [path, "debug", "--interactive", file]
        with contextlib.ExitStack() as opened:
            try:
                # What px86 says of a fault. It is no pipe, which would be full one day.
                self.told = opened.enter_context(os.fdopen(os.memfd_create("told"), "rb", buffering=0))
                self.process = subprocess.Popen(
                    words, bufsize=0, stdin=subprocess.PIPE, stdout=subprocess.PIPE, stderr=self.told, env=environment
                )
            except OSError as error:
                raise Failed(f"{path}: {error.strerror}") from error
            opened.pop_all()
        # How many bytes were said, those of them that px86 has not taken yet, and what was heard: whole lines, and the rest.
        self.said = 0
        self.unsaid = bytearray()
        self.lines: deque[bytes] = deque()
        self.rest = b""

    def __enter__(self) -> Talk:
        return self

    def __exit__(self, *fault: object) -> None:
        self.close()

    def close(self) -> None:
        self.process.kill()
        self.process.wait()
        for file in (self.process.stdin, self.process.stdout, self.told):
            assert file is not None
            file.close()

    # --- lines

    def say(self, lines: Sequence[str]) -> None:
        """It is written when an answer is waited for."""
        said = "".join(line + "\n" for line in lines).encode()
        self.said += len(said)
        self.unsaid += said

    def hear(self) -> str:
        """The next line of an answer, without the prompts before it."""
        while not self.lines:
            self.exchange()
        return self.lines.popleft().rpartition(PROMPT)[2].decode(errors="replace")

    def exchange(self) -> None:
        """Writes and reads as much as can be at once, when something can be."""
        assert self.process.stdin is not None and self.process.stdout is not None
        stdin, stdout, waited = self.process.stdin.fileno(), self.process.stdout.fileno(), select.poll()
        waited.register(stdout, select.POLLIN)
        if self.unsaid:
            waited.register(stdin, select.POLLOUT)
        ready = {file for file, _ in waited.poll(1000 * self.seconds)}
        if not ready:
            self.process.kill()
            raise self.fault(f"answers nothing in {self.seconds:g} seconds")
        if stdin in ready:
            self.write(stdin)
        if stdout in ready:
            self.read(stdout)

    def write(self, stdin: int) -> None:
        """Writes what a pipe takes that is not full. If px86 takes nothing more, its end is heard."""
        count = len(self.unsaid)
        with contextlib.suppress(BrokenPipeError):
            count = os.write(stdin, self.unsaid[: select.PIPE_BUF])
        del self.unsaid[:count]

    def read(self, stdout: int) -> None:
        heard = os.read(stdout, MOST_HEARD)
        if not heard:
            raise self.fault("breaks off")
        *lines, self.rest = (self.rest + heard).split(b"\n")
        self.lines += lines

    def fault(self, what: str) -> Failed:
        """That it answers no more, and what it has said of that. What it has started may live on, and is not waited for."""
        with contextlib.suppress(subprocess.TimeoutExpired):
            self.process.wait(LAST_SECONDS)
        self.process.kill()
        told = os.pread(self.told.fileno(), MOST_TOLD, 0).decode(errors="replace").strip().removeprefix("px86: ")
        return Failed(f"{self.name} {what}{': ' if told else ''}{told}")

    def want(self, form: str, what: str = "") -> re.Match[str]:
        """The next line of an answer, which is to have this form."""
        heard = self.hear()
        found = re.fullmatch(form, heard)
        if found is None:
            raise Failed(f"px86 answers {heard}, and not {what or form}")
        return found

    # --- what is asked

    def make(self, steps: Sequence[str]) -> None:
        """Has these steps made, of which none is to be refused."""
        if steps:
            self.say([*steps, "go"])
            self.want("end")

    def back(self, count: int) -> None:
        """Has so many of the last steps undone."""
        if count:
            self.say([f"back {count}"])
            self.want(f"back {count}")

    def values(self, questions: Sequence[str]) -> Iterator[list[int]]:
        """The values that words may have: of each command `values` what is answered."""
        self.say(questions)
        for _ in questions:
            yield [value for (value,) in self.listed("value", f" {NUMBER}")]

    def least_set(self, values: Sequence[int]) -> set[int] | None:
        """The places in the pending list of what has to persist for an image; none if it is no image."""
        self.say([f"set {' '.join(map(str, values))}"])
        found = self.want(f"no set|set((?: {NUMBER})*)", "a set")
        return None if found[1] is None else set(numbers_in(found[1]))

    def images(self, candidates: int) -> list[tuple[int, ...]]:
        """All images, of so many candidates."""
        self.say(["images"])
        heard = self.hear()
        if heard != f"candidates {candidates}":
            raise Failed(f"px86 finds another memory than was meant ({self.name}): it says {heard}, and not {candidates}")
        return list(self.listed("image", f"(?: {NUMBER})*"))

    def listed(self, kind: str, numbers: str) -> Iterator[tuple[int, ...]]:
        """The numbers in each line of this kind, behind which stands how many lines these are."""
        count = 0
        while (found := self.want(f"{kind}({numbers})|{kind}s ({NUMBER})", f"{kind}s"))[2] is None:
            yield numbers_in(found[1])
            count += 1
        if int(found[2]) != count:
            raise Failed(f"px86 answers {found[0]}, and not {kind}s {count}")

    def false_image(self, condition: str) -> tuple[int, ...] | None:
        """The first image that makes a condition false, or none."""
        if not can_be_said(condition):
            raise NoCondition("--all: E1 BadCond")
        self.say([f"all {condition}"])
        found = self.want(f"(E[0-9] .*)|all holds|all fails((?: {NUMBER})*)", "whether a condition holds")
        if found[1] is not None:
            raise NoCondition(f"--all: {found[1]}")
        return None if found[2] is None else numbers_in(found[2])

    def words(self, names: Sequence[str]) -> list[Values]:
        """What these words have."""
        self.say([f"print {name}" for name in names])
        return [self.word(name) for name in names]

    def word(self, name: str) -> Values:
        found = self.want(rf"word (\S+) coherent ({NUMBER}) persisted ({NUMBER})", f"the word {name}")
        if found[1] != name:
            raise Failed(f"px86 answers {found[0]}, and not the word {name}")
        return Values(int(found[2]), int(found[3]))


def numbers_in(text: str) -> tuple[int, ...]:
    return tuple(map(int, text.split()))


def can_be_said(condition: str) -> bool:
    """Whether it is one line, of which nothing is a comment. Of others px86 has none that it takes."""
    return "#" not in condition and all(" " <= letter <= "~" or letter in "\t\r" for letter in condition)
