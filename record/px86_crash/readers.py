"""Runs checkers under px86-reads, which says what they read of a file (record/reads)."""

from __future__ import annotations

import os
import subprocess
from collections.abc import Sequence
from dataclasses import dataclass
from types import TracebackType

from . import checker
from .checker import Verdict
from .faults import Failed

READS = os.path.join(os.path.dirname(os.path.dirname(os.path.abspath(__file__))), "out", "px86-reads")


@dataclass(frozen=True)
class Seen:
    """A run of a checker: what it said, and the words that it read, in the order of first reading. Where it did what is not
    followed, all words are taken as read, and `why` says what it did."""

    verdict: Verdict
    reads: list[int]
    why: str | None
    traps: int


class Reader:
    """A px86-reads, and the file on which it runs the checker."""

    def __init__(
        self, file: str, seconds: float, processor: int | None = None, options: Sequence[str] = (), endings: Sequence[str] = ("",)
    ) -> None:
        self.file, self.seconds, self.endings = file, seconds, endings
        self.words: list[int] = []
        words = [READS, "--time", str(seconds), *options]
        if processor is not None:
            words += ["--processor", str(processor)]
        try:
            self.server = subprocess.Popen(words, stdin=subprocess.PIPE, stdout=subprocess.PIPE, stderr=subprocess.PIPE, text=True)
        except OSError as error:
            raise Failed(f"{READS}: {error.strerror}: make it by record/build") from error

    def __enter__(self) -> Reader:
        return self

    def __exit__(self, kind: type[BaseException] | None, error: BaseException | None, trace: TracebackType | None) -> None:
        self.server.kill()
        self.server.communicate()

    def ask(self, words: list[int]) -> None:
        """The words of which reads are wanted, ascending."""
        if words != self.words:
            self.words = words
            self.send(f"words {' '.join(f'{word:x}' for word in words)}")

    def send(self, line: str) -> None:
        assert self.server.stdin is not None
        try:
            self.server.stdin.write(line + "\n")
            self.server.stdin.flush()
        except OSError:
            self.fail()

    def fail(self) -> None:
        _, said = self.server.communicate()
        raise Failed(said.strip() or f"px86-reads ended with status {self.server.returncode}")

    def run(self, command: str, acknowledged: int | None) -> Seen:
        """Runs the checker on the file, as it is there; of what was acknowledged it is told, if it is not a recovery."""
        words = [self.file, *checker.words_of(checker.command_on(command, self.file, self.endings))]
        told = "-" if acknowledged is None else str(acknowledged)
        self.send(" ".join(["run", told, *(os.fsencode(word).hex() for word in words)]))
        reads: list[int] = []
        why = None
        assert self.server.stdout is not None
        for line in self.server.stdout:
            kind, _, rest = line.rstrip("\n").partition(" ")
            if kind == "read":
                reads.append(int(rest, 16))
            elif kind == "all":
                why = rest
            else:
                status, traps, said = rest.split(" ")
                verdict = self.verdict(status, bytes.fromhex(said[1:]).decode(errors="replace"), command)
                return Seen(verdict, self.all_of(reads) if why else reads, why, int(traps))
        self.fail()
        raise AssertionError

    def all_of(self, reads: list[int]) -> list[int]:
        known = set(reads)
        return reads + [word for word in self.words if word not in known]

    def verdict(self, status: str, said: str, command: str) -> Verdict:
        if status == "late":
            return Verdict("late", f"the checker did not end in {self.seconds:g} seconds")
        checker.fail_if_not_run(int(status), command)
        return checker.verdict(int(status), said)


def why_not() -> str | None:
    """Why it cannot be seen here what a checker reads; nothing if it can."""
    if not os.access(READS, os.X_OK):
        return f"{os.path.relpath(READS)} is not there: make it by record/build"
    try:
        with Reader(os.devnull, 10) as reader:
            seen = reader.run("true", 0)
            return None if seen.verdict.kind == "good" else f"px86-reads does not work here: {seen.verdict.said}"
    except Failed as failed:
        return str(failed)
