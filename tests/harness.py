"""What the parts of the tests are made of: cases, and runs of programs that have bytes, a status and a time limit.

A part is a module with `cases()`, which gives its cases, and `AT_LEAST`, which says how many checks they make at least: in all
(``""``), or those whose name, behind that of the case, begins with a word, in which `*` is anything. A case has a name, and a
function that gives, one after another, what it checks, and what is wrong there: nothing where the check passes. Each check is
counted.
"""

from __future__ import annotations

import atexit
import collections
import concurrent.futures
import dataclasses
import fnmatch
import functools
import multiprocessing
import os
import re
import select
import shutil
import signal
import subprocess
import tempfile
import time
import unittest
from collections.abc import Callable, Iterable, Iterator, Mapping, Sequence
from typing import Any

TOP = os.path.dirname(os.path.dirname(os.path.abspath(__file__)))
CORES = len(os.sched_getaffinity(0))
# The status of a command that did not end in its time, and how many seconds a question to the second model may take.
TIMED_OUT, MODEL_MOST = 124, 900.0


class NotRun(str):
    """Why this machine can't make a check as it is meant."""


Checks = Iterator[tuple[str, str]]


def absent(name: str, checks: Iterable[object]) -> Checks:
    """As many checks, which need what is absent here."""
    for _ in checks:
        yield "", NotRun(f"{name} is absent")


# --- runs


@dataclasses.dataclass(frozen=True)
class Done:
    """How a command ended: its status, and what it wrote."""

    status: int
    written: bytes
    said: bytes

    @functools.cached_property
    def out(self) -> str:
        """What it wrote on standard output, as a text."""
        return self.written.decode(errors="replace")

    @functools.cached_property
    def err(self) -> str:
        """What it wrote on standard error, as a text."""
        return self.said.decode(errors="replace")


def run(words: Sequence[str], given: bytes | str | None = b"", most: float = 120, **how: Any) -> Done:
    """Runs a command on what is given on its standard input. What it started and did not end in so many seconds is ended."""
    data = given.encode() if isinstance(given, str) else given
    pipes = dict.fromkeys(("stdin", "stdout", "stderr"), subprocess.PIPE) | how
    with subprocess.Popen(words, start_new_session=True, **pipes) as ran:
        try:
            out, err = ran.communicate(data, most)
        except subprocess.TimeoutExpired:
            os.killpg(ran.pid, signal.SIGKILL)
            out, err = ran.communicate()
            return Done(TIMED_OUT, out or b"", err or b"")
    return Done(ran.returncode, out or b"", err or b"")


@dataclasses.dataclass(frozen=True)
class Px86:
    """The program as it is built, and a folder for the files of one case."""

    path: str
    folder: str

    def __call__(self, *words: str, given: bytes | str = b"", most: float = 120, **how: Any) -> Done:
        return run([self.path, *words], given, most, **how)

    def keep(self, name: str, text: bytes | str) -> str:
        """Writes a file in the folder, and gives its path."""
        path = os.path.join(self.folder, name)
        with open(path, "wb") as file:
            file.write(text.encode() if isinstance(text, str) else text)
        return path


def read(path: str) -> str:
    """The text of a file, below the top of the repository if it begins with no slash."""
    with open(os.path.join(TOP, path), encoding="utf-8") as file:
        return file.read()


def read_bytes(path: str) -> bytes:
    """The bytes of a file, in the same way."""
    with open(os.path.join(TOP, path), "rb") as file:
        return file.read()


def write(path: str, content: bytes, mode: int = 0o644) -> None:
    """Writes a file with this mode."""
    with open(path, "wb") as file:
        file.write(content)
    os.chmod(path, mode)


def commands_of(px86: Px86, option: str = "") -> list[str]:
    """The names of the commands, as the help of all lists them; of those alone whose help has this option."""
    listed = px86("--help").out.partition("\nCommands:\n")[2].partition("\n\n")[0]
    names = re.findall(r"^  ([a-z]+)  ", listed, re.M)
    return [name for name in names if not option or option in px86(name, "--help").out]


def with_needs(command: str) -> str:
    """A command with what it needs beside FILE."""
    return {"replay": "replay --number 1"}.get(command, f"{command} --all a" if command in ("hunt", "fences", "mend", "check") else command)


@functools.cache
def library(name: str) -> str:
    """Builds the library tests/NAME.c, which stands between a program and the C library, and gives its path."""
    folder = tempfile.mkdtemp(prefix="px86-tests-")
    atexit.register(shutil.rmtree, folder)
    path = f"{folder}/{name}.so"
    done = run(["cc", "-shared", "-fPIC", "-O1", "-o", path, f"{TOP}/tests/{name}.c", "-ldl"])
    if done.status:
        raise AssertionError(f"cc did not build tests/{name}.c: {done.err[:200]}")
    return path


def with_parallel(px86: Px86) -> tuple[dict[str, str], bool]:
    """The variables by which GNU parallel keeps its files in the folder and has this program in place of ./px86, and whether
    tests/without-parallel stands in for it here."""
    names = dict.fromkeys(("TMPDIR", "PARALLEL_HOME"), px86.folder)
    variables = os.environ | names | {"PX86": px86.path, "PARALLEL_SHELL": "/bin/bash"}
    stands_in = not shutil.which("parallel") or not run(["parallel", "--version"]).out.startswith("GNU parallel")
    if stands_in:
        variables["PATH"] = f"{TOP}/tests/without-parallel:{variables['PATH']}"
    return variables, stands_in


class Terminal:
    """A pseudo-terminal, set as these words of `stty` say, with a command behind it."""

    def __init__(self, words: Sequence[str], settings: str, **how: Any) -> None:
        self.file, other = os.openpty()
        whole = ["setsid", "--ctty", "sh", "-c", f'stty {settings}; exec "$@"', "sh", *words]
        self.process = subprocess.Popen(whole, **dict.fromkeys(("stdin", "stdout", "stderr"), other), **how)
        os.close(other)

    def __enter__(self) -> Terminal:
        return self

    def __exit__(self, *_: object) -> None:
        """Ends the command, if it has not ended."""
        self.hang_up()
        self.process.kill()
        self.process.wait()

    def types(self, keys: str) -> None:
        os.write(self.file, keys.encode())

    def reads(self, came: Callable[[str], bool], most: float = 60) -> str:
        """All that is written until this is true of it, or up to the end. It may take so many seconds."""
        read, until = b"", time.monotonic() + most
        while not came(read.decode(errors="replace")):
            if not select.select([self.file], [], [], max(0, until - time.monotonic()))[0]:
                raise AssertionError(f"nothing more came in {most} seconds behind {read[-300:]!r}")
            try:
                piece = os.read(self.file, 65536)
            except OSError:
                piece = b""
            if not piece:
                break
            read += piece
        return read.decode(errors="replace")

    def status(self, most: float = 60) -> int:
        """How the command ends, in so many seconds: its status, or the signal that ended it as a negative number."""
        try:
            return self.process.wait(most)
        except subprocess.TimeoutExpired:
            return TIMED_OUT

    def hang_up(self) -> None:
        """Closes the window."""
        if self.file >= 0:
            os.close(self.file)
        self.file = -1


# --- the second model, asked in processes of its own


@functools.cache
def model_processes() -> concurrent.futures.ProcessPoolExecutor:
    """The processes that answer as the second model."""
    return concurrent.futures.ProcessPoolExecutor(CORES, multiprocessing.get_context("spawn"))


def model(*words: str, given: str = "") -> Done:
    """What the second model answers to a command, on these steps."""
    from model.command_line import told_by

    try:
        status, out, err = model_processes().submit(told_by, words, given).result(MODEL_MOST)
    except concurrent.futures.TimeoutError:
        return Done(TIMED_OUT, b"", b"the second model gave no answer in its time\n")
    return Done(status, out.encode(), err.encode())


# --- what is wrong


def differs(found: str, wanted: str) -> str:
    """Where a text is not what is wanted, or nothing."""
    if found == wanted:
        return ""
    texts = found.splitlines(), wanted.splitlines()
    place = next((at for at, (a, b) in enumerate(zip(*texts)) if a != b), min(map(len, texts)))
    one, other = (lines[place] if place < len(lines) else "no more" for lines in texts)
    return f"line {place + 1} is {one!r}, not {other!r}"


def unlike(found: object, wanted: object) -> str:
    """That a value is not what is wanted, or nothing."""
    return "" if found == wanted else f"{found!r:.1000}, not {wanted!r:.1000}"


def wrong_end(done: Done, status: int, said: str = "") -> str:
    """What is wrong with how a call ended: its status, and all that is on standard error."""
    if done.status != status:
        return f"status {done.status}, not {status}: {done.err[:300]}"
    return differs(done.err, said)


def wrong_run(done: Done, status: int, out: str, said: str = "") -> str:
    """The same, and what is on standard output."""
    return wrong_end(done, status, said) or differs(done.out, out)


# --- cases


class Case(unittest.TestCase):
    """A case of a part. What it checks is given by a function of the program and what else is given here."""

    part = ""
    program = ""

    def __init__(self, name: str, asks: Callable[..., Iterable[tuple[str, str]]], *given: object) -> None:
        super().__init__("ask")
        self.name, self.asks, self.given = name, asks, given

    def id(self) -> str:
        return f"{self.part}: {self.name}"

    def ask(self) -> None:
        """Makes all checks of the case."""
        with tempfile.TemporaryDirectory(prefix="px86-tests-") as folder:
            for name, wrong in self.asks(Px86(self.program, folder), *self.given):
                self.check(name, wrong)

    def check(self, name: str, wrong: object) -> None:
        """Counts a check, which passes where nothing is wrong."""
        with self.subTest(check=name):
            if isinstance(wrong, NotRun):
                self.skipTest(wrong)
            if wrong:
                self.fail(wrong)


class Tally(unittest.TestResult):
    """How many checks passed, failed and were not run, by their names, and what is said of those that did not pass."""

    def __init__(self) -> None:
        super().__init__()
        self.passed = self.failed = self.not_run = 0
        self.counts: collections.Counter[str] = collections.Counter()
        self.lines: list[str] = []

    def addSubTest(self, test: Any, subtest: Any, err: Any) -> None:
        self.made(subtest)
        if err is None:
            self.passed += 1
        else:
            self.fails(subtest, err)

    def addSkip(self, test: Any, reason: str) -> None:
        self.made(test)
        self.not_run += 1
        self.lines.append(f"not run: {told(test)}: {reason}")

    def made(self, test: Any) -> None:
        """Counts a check by the names of its case and its own."""
        self.counts[f"{getattr(test, 'test_case', test).name}: {getattr(test, 'params', {}).get('check', '')}"] += 1

    def addFailure(self, test: Any, err: Any) -> None:
        self.fails(test, err)

    def addError(self, test: Any, err: Any) -> None:
        self.fails(test, err)

    def fails(self, test: Any, err: Any) -> None:
        """Counts a check that failed, or a case that broke off."""
        kind, wrong, trace = err
        while trace.tb_next:
            trace = trace.tb_next
        where = f"{os.path.basename(trace.tb_frame.f_code.co_filename)}:{trace.tb_lineno}"
        self.failed += 1
        self.lines.append(f"FAILED: {told(test)}: {wrong if issubclass(kind, AssertionError) else f'{where}: {wrong!r}'}")

    def add(self, other: Tally) -> None:
        """Adds what another tally counted."""
        self.passed += other.passed
        self.failed += other.failed
        self.not_run += other.not_run
        self.counts += other.counts

    def want(self, part: str, at_least: Mapping[str, int]) -> None:
        """Counts as failed where a part made fewer checks than it has at least, since a loop ran over nothing."""
        for word, least in at_least.items():
            made = sum(count for name, count in self.counts.items() if fnmatch.fnmatchcase(name, f"{word}*"))
            if made < least:
                self.failed += 1
                print(f"FAILED: {part}: there are {made} checks{f' whose name begins with {word}' if word else ''}, and at least {least}")

    def verdict(self) -> int:
        """Says the sum, and gives the exit status."""
        if self.not_run:
            print(f"{self.not_run} not run")
        print(f"{self.passed} passed, {self.failed} failed", flush=True)
        return int(self.failed > 0)


def told(test: Any) -> str:
    """The name of a case, or of one of its checks."""
    name = getattr(test, "params", {}).get("check", "")
    case = getattr(test, "test_case", test)
    return f"{case.id()}: {name}" if name else case.id()


def tally_of(case: Case) -> Tally:
    """What comes of a case alone."""
    tally = Tally()
    case.run(tally)
    return tally


def run_parts(parts: Mapping[str, Sequence[Case]], at_least: Mapping[str, Mapping[str, int]], jobs: int) -> Tally:
    """Runs the cases of parts side by side, and says what comes of them in their order. A part makes so many checks at least, if that
    is said of it."""
    total = Tally()
    with concurrent.futures.ThreadPoolExecutor(jobs) as pool:
        running = {part: pool.map(tally_of, cases) for part, cases in parts.items()}
        for part, tallies in running.items():
            tally = sum_of(tallies)
            tally.want(part, at_least.get(part, {}))
            print(f"{part}: {tally.passed} passed, {tally.failed} failed", flush=True)
            total.add(tally)
    return total


def sum_of(tallies: Iterable[Tally]) -> Tally:
    """The sum of tallies, of which is said what they say."""
    total = Tally()
    for tally in tallies:
        for line, count in collections.Counter(tally.lines).items():
            print(line if count == 1 else f"{line} ({count} times)", flush=True)
        total.add(tally)
    return total
