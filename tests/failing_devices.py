"""Has one read or write of a run of each command fail, each in turn, and wants that the run ends with it: no call is made a
second time, and no device is asked again after its end. A library (failing_devices.c) stands between the program and the C library:
it gives reads by at most 7 bytes, takes writes to standard output by one byte, and writes down each of these calls.

  read K fails       F1, with nothing written, after K + 1 reads: of the program, and once they are to be read, of the steps
  write K fails      F2, after all reads, K + 1 writes, and the first K bytes of the report
  write K is idle    the same, where it takes no byte

A call fails once, and all calls after it work again: it is interrupted (EINTR), since a program that makes a failed call
again makes this one again. Or it fails for ever, as a device that is broken (EIO). The reads that find the end of what
they read fail too. The run that no failure meets, with its calls, is checked too. It needs a C compiler (cc).
"""

from __future__ import annotations

import dataclasses
import os
import shlex
from collections.abc import Iterable, Iterator

from tests.harness import Case, Checks, Px86, commands_of, library, unlike

AT_LEAST = {"": 4977}
NEEDS_PROGRAM = True
# How many bytes the library gives at most.
LARGEST_READ = 7

# --- what is swept, and what is reported there

# A store, a flush of its line and a fence, which run and leave the store buffer.
FLUSHED = "litmus 1\nline x\ncpu\nmov [x], 1\nclflush [x]\nsfence\nend\n"
FLUSHED_OBJECT = (
    b"PX86OBJ2\x01\x01\x01x" + bytes(8) + b"\x01\x17\0\0\0"
    b"\x48\xc7\x04\x25\0\x10\0\0\x01\0\0\0\x0f\xae\x3c\x25\0\x10\0\0\x0f\xae\xf8" + bytes(4)
)
STEPS = "exec 0\n" * 3 + "drain 0 0\n" * 3
STATE = "turns 6\ncrashes 0\ncpu 0 main 3 halted zf 0\nword x coherent 1 persisted 0\npend 0 W x 1\npend 1 PER 0\n"
# Before the marker the write is persisted or not, behind it it is: three candidates, of which two are the same image.
IMAGES = "candidates 3\nimage 0\nimage 1\nimages 2\n"
DEBUG = f"end\n{STATE}value 0\nvalue 1\nvalues 2\n"
# One thread makes the steps: its journal is known.
LIVE = (
    "journal 1\n0 0 exec 0: ran 0 0 delay W x 1\nturns 1\ncrashes 0\ncpu 0 main 1 ready zf 0\n  buf 0 W x 1\n"
    "word x coherent 0 persisted 0\n"
)
NEXT = "exec 0: clflush [x]: delay FL 0\ndrain 0 0: left 0 0 W x 1\ncrash: crashed 1\n"
# Without steps: nothing is needed for what every memory meets, and nothing is missing.
FENCES = (
    "all holds\ncpu 0 main 1 clflush [x]: not needed, left out\ncpu 0 main 2 sfence: not needed, left out\n"
    "keep 0 of 2, least\n"
)
# All schedules end in one way, which keeps the condition.
WRITE = "litmus 1\nline x\ncpu\nmov [x], 1\nend\n"
STEP = "exec 0\n"
IDLE = "litmus 1\nline x\n"
IDLE_REPORT = "all holds\nstates 1\nends 1\nrecovered ends 1\n"
# The words of a command, its litmus text, what it reads from standard input (nothing if it reads none), its report and its status.
SWEEPS: list[tuple[str, str, str | None, str | bytes, int]] = [
    ("run", FLUSHED, STEPS, STATE, 0),
    ("dis", FLUSHED, None, FLUSHED, 0),
    ("asm", FLUSHED, None, FLUSHED_OBJECT, 0),
    ("images", FLUSHED, STEPS, IMAGES, 0),
    ("images --set 1", FLUSHED, STEPS, "set 0\n", 0),
    ("law", FLUSHED, STEPS, "none\n", 0),
    ("debug", FLUSHED, STEPS + "go\nshow\nvalues x\n", DEBUG, 0),
    ("debug", FLUSHED, STEPS + "go\nback 1\n", "end\nback 1\n", 0),
    ("live --threads 1", FLUSHED, STEP, LIVE, 0),
    ("tally --length 2 --runs 5", WRITE, STEP, "outcome 5 x=1/1\n", 0),
    ("hunt --workers 1 --length 2 --runs 5 --cond 'persisted x = 1'", WRITE, STEP, "none\n", 0),
    ("hunt --workers 1 --length 4 --runs 2 --all 'persisted x < 2'", WRITE, STEP, "none\n", 0),
    ("tally --length 4 --runs 2 --all 'persisted x < 2'", WRITE, STEP, "broken 0 of 2\n", 0),
    ("fences --all 'persisted x < 2'", FLUSHED, None, FENCES, 0),
    ("mend --all 'persisted x < 2'", FLUSHED, None, "mend none needed\n", 0),
    # Every run: of no processor there is one state. One write fails the condition once it leaves the store buffer; it persists in
    # the end.
    ("check --all 'persisted x < 2'", IDLE, "# none\n", IDLE_REPORT, 0),
    ("check --show --all 'persisted x = 0'", WRITE, STEP, "all fails 1\nsteps 1\ndrain 0 0\n", 1),
    ("outcomes", WRITE, STEP, "outcome x=1\noutcomes 1\n", 0),
    ("outcomes --recovered", WRITE, STEP, "outcome x=0\noutcome x=1\noutcomes 2\n", 0),
    ("trace", FLUSHED, STEP, "0 exec 0: mov [x], 1: delay W x 1\n", 0),
    ("next", FLUSHED, STEP, NEXT, 0),
    # Of one write that is buffered only one step is enabled, and then one.
    ("replay --number 7", WRITE, STEP, "drain 0 0\npersist 0\n", 0),
]


# --- runs in which a call fails


@dataclasses.dataclass(frozen=True)
class Swept:
    """A command that is run again and again: the program, the library, its words, the file of its standard input, and its report."""

    px86: Px86
    library: str
    words: list[str]
    given: str
    report: bytes

    def ends(self, failing: str, number: str, wanted: tuple[int, bytes, bytes, str]) -> tuple[str, str]:
        """A run in which the variable (FAILING_READ, FAILING_WRITE, IDLE_WRITE) names this call, or, as `K+`, all from it on. Its
        exit status, what is written and said, and its calls are to be these."""
        calls = self.px86.keep("calls", "")
        variables = os.environ | {"CALLS": calls, "LD_PRELOAD": self.library, failing: number}
        with open(self.given, "rb") as given:
            done = self.px86(*self.words, given=None, stdin=given, env=variables)
        with open(calls, encoding="ascii") as file:
            found = done.status, done.written, done.said, file.read()
        return f"{failing} {number}", unlike(found, wanted)

    def reads(self, count: int) -> Checks:
        """Each read fails."""
        for number in range(count):
            wanted = 3, b"", b"px86: F1 ReadFailed\n", "r" * (number + 1)
            yield self.ends("FAILING_READ", f"{number}", wanted)
            yield self.ends("FAILING_READ", f"{number}+", wanted)

    def writes(self, numbers: Iterable[int], reads: int, status: int, failing: Iterable[tuple[str, str]]) -> Checks:
        """Writes of these numbers fail, in each of these ways; and then one fails that is not made."""
        size = len(self.report)
        for number in numbers:
            wanted = 3, self.report[:number], b"px86: F2 WriteFailed\n", "r" * reads + "w" * (number + 1)
            yield from (self.ends(name, f"{number}{on}", wanted) for name, on in failing)
        yield self.ends("FAILING_WRITE", f"{size}", (status, self.report, b"", "r" * reads + "w" * size))


def reads_of(text: str | None) -> int:
    """How many reads a file takes, with the one that finds its end."""
    return 0 if text is None else -(-len(text) // LARGEST_READ) + 1


EACH_WAY = [("FAILING_WRITE", ""), ("FAILING_WRITE", "+"), ("IDLE_WRITE", ""), ("IDLE_WRITE", "+")]


def sweep(px86: Px86, words: str, text: str, given: str | None, report: str | bytes, status: int) -> Checks:
    """Each failure of a command."""
    whole = [*shlex.split(words), px86.keep("text", text)]
    path = "/dev/null" if given is None else px86.keep("given", given)
    swept = Swept(px86, library("failing_devices"), whole, path, report.encode() if isinstance(report, str) else report)
    reads = reads_of(text) + reads_of(given)
    yield from swept.reads(reads)
    yield from swept.writes(range(len(swept.report)), reads, status, EACH_WAY)


# Of several files each is asked: its text, and its report behind its name. The first one is bad.
ASKED = [
    ("one", "sheet 1\nline x\ncpu\nmov [x], 1\nend\nevery end e: persisted x = 0\n", ": e fails x=1\n"),
    ("two", "sheet 1\nline x\ncpu\nend\nsome crash c: persisted x = 0\n", ": 1 hold\n"),
]


def several(px86: Px86) -> Checks:
    """Each failure of `check` of two files. After one of a read the next file is asked, and after one of a write none is."""
    paths = [px86.keep(name, text) for name, text, _ in ASKED]
    reads = [reads_of(text) for _, text, _ in ASKED]
    told = [f"{path}{report}".encode() for path, (_, _, report) in zip(paths, ASKED)]
    swept = Swept(px86, library("failing_devices"), ["check", *paths], "/dev/null", b"".join(told))
    calls = ["r" * count + "w" * len(report) for count, report in zip(reads, told)]
    unread = [f"px86: {path}: F1 ReadFailed\n".encode() for path in paths]
    unwritten = [f"px86: {path}: F2 WriteFailed\n".encode() for path in paths]
    for number in range(reads[0]):
        yield swept.ends("FAILING_READ", f"{number}", (3, told[1], unread[0], "r" * (number + 1) + calls[1]))
        yield swept.ends("FAILING_READ", f"{number}+", (3, b"", b"".join(unread), "r" * (number + 2)))
    for number in range(reads[1]):
        for on in "", "+":
            wanted = 3, told[0], unread[1], calls[0] + "r" * (number + 1)
            yield swept.ends("FAILING_READ", f"{reads[0] + number}{on}", wanted)
    for which, before in (0, ""), (1, calls[0]):
        for number in range(len(told[which])):
            place = len(told[0]) * which + number
            wanted = 3, swept.report[:place], unwritten[which], before + "r" * reads[which] + "w" * (number + 1)
            yield from (swept.ends(name, f"{place}{on}", wanted) for name, on in EACH_WAY)
    yield swept.ends("FAILING_WRITE", f"{len(swept.report)}", (1, swept.report, b"", "".join(calls)))


def written(px86: Px86, words: list[str], report: bytes, numbers: Iterable[int]) -> Checks:
    """What no command writes: the status is 3 where a write fails for ever or is interrupted once, or takes no byte, and 0 where
    each takes its bytes."""
    swept = Swept(px86, library("failing_devices"), words, "/dev/null", report)
    yield from swept.writes(numbers, 0, 0, [("FAILING_WRITE", "+"), ("IDLE_WRITE", ""), ("FAILING_WRITE", "")])


def helps(px86: Px86) -> Checks:
    """What a help says is asked in tests/program.py."""
    for words in [[], *([name] for name in commands_of(px86))]:
        for name in "--help", "-h":
            made = written(px86, [*words, name], px86(*words, name).written, [0, 200])
            yield from ((f"{' '.join([*words, name])}: {said}", wrong) for said, wrong in made)


def cases() -> Iterator[Case]:
    """All cases."""
    yield from (Case(words, sweep, words, *row) for words, *row in SWEEPS)
    yield Case("check of two files", several)
    yield Case("--version", written, ["--version"], b"px86 0.1.0\n", range(11))
    yield Case("-V", written, ["-V"], b"px86 0.1.0\n", range(1))
    yield Case("each help", helps)
