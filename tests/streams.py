"""Runs each command with files and standard streams that are closed, full, absent, folders, pipes, too long or one and the same, and
wants the one answer that docs/FORMATS.md says. What each command reports of its program and steps was worked out by hand.

A shell opens the streams, as its redirections say it, in a folder that has the files by the names of `files`.
"""

from __future__ import annotations

import dataclasses
import os
import select
import shlex
import socket
from collections.abc import Iterator
from typing import Any

from tests.failing_devices import FENCES, FLUSHED, FLUSHED_OBJECT, IMAGES, LIVE, NEXT, STATE, STEPS
from tests.harness import Case, Checks, Px86, commands_of, run, unlike

AT_LEAST = {"": 1625}
NEEDS_PROGRAM = True
LIMIT = 2**26

# --- what each command says of the program and its steps

# How a call ends: its status, and what it writes and says.
Ended = tuple[int, bytes, bytes]


@dataclasses.dataclass(frozen=True)
class Command:
    """A command: its words, what it reads from standard input, its report of that, its report of no steps, and the status of
    both. One that reads no steps has the same report whatever its standard input is."""

    words: str
    steps: str | None
    report: str | bytes
    no_steps: str = ""
    status: int = 0

    def done(self) -> Ended:
        report = self.report.encode() if isinstance(self.report, str) else self.report
        return self.status, report, b""

    def idle(self) -> Ended:
        return self.done() if self.steps is None else (self.status, self.no_steps.encode(), b"")


UNCHANGED = "turns 0\ncrashes 0\ncpu 0 main 0 ready zf 0\nword x coherent 0 persisted 0\n"
BOTH_ENDS = "outcome x=0\noutcome x=1\noutcomes 2\n"
COMMANDS = [
    Command("run", STEPS, STATE, UNCHANGED),
    Command("images", STEPS, IMAGES, "candidates 1\nimage 0\nimages 1\n"),
    Command("images --count --all 'persisted x < 2'", STEPS, "candidates 3\nall holds\n", "candidates 1\nall holds\n"),
    Command("images --set 0", STEPS, "set\n", "set\n"),
    Command("law", STEPS, "none\n", "none\n"),
    Command("debug", STEPS + "go\nshow\n", "end\n" + STATE),
    Command("tally --runs 5", STEPS, "outcome 5 x=1/1\n", "outcome 5 x=1/1\n"),
    Command("hunt --runs 5 --cond 'persisted x < 2'", STEPS, "none\n", "none\n"),
    Command("hunt --runs 5 --all 'persisted x < 2'", STEPS, "none\n", "none\n"),
    Command("tally --runs 5 --all 'persisted x < 2'", STEPS, "broken 0 of 5\n", "broken 0 of 5\n"),
    Command("replay --number 1 --length 1", STEPS, "persist 0\n", "exec 0\n"),
    Command("next", "exec 0\n", NEXT, "exec 0: mov [x], 1: delay W x 1\ncrash: crashed 1\n"),
    Command("trace", "exec 0\n", "0 exec 0: mov [x], 1: delay W x 1\n"),
    Command("live --threads 1", "exec 0\n", LIVE, "journal 0\n" + UNCHANGED),
    # The store persists, and the flush settles; without steps all three instructions run, and their entries leave, before that.
    Command("check --ends 'persisted x = 0'", STEPS, "ends fails 1\nsteps 2\n", "ends fails 1\nsteps 8\n", status=1),
    Command("outcomes", STEPS, "outcome x=1\noutcomes 1\n", "outcome x=1\noutcomes 1\n"),
    Command("outcomes --recovered", STEPS, BOTH_ENDS, BOTH_ENDS),
    # No flush and no fence is needed for a condition that every memory meets.
    Command("fences --all 'persisted x < 2'", None, FENCES),
    Command("mend --all 'persisted x < 2'", None, "mend none needed\n"),
    Command("asm", None, FLUSHED_OBJECT),
    Command("dis", None, FLUSHED),
]

FAULT = 3, b"", b""
READ_FAILED = 3, b"", b"px86: F1 ReadFailed\n"
WRITE_FAILED = 3, b"", b"px86: F2 WriteFailed\n"
TOO_LONG = 2, b"", b"px86: F3 InputTooLong\n"
USAGE = 2, b"", b"px86: usage\n"
BAD_LINE = 2, b"", b"px86: S1 BadLine 1\n"

# --- runs

# What cannot be read, by its name in the folder.
UNREADABLE = "absent", "text/below", "folder", "loop", "socket"


def files(px86: Px86, command: Command) -> None:
    """What FILE may be, and what a standard stream may be."""
    for name, data in ("text", FLUSHED), ("object", FLUSHED_OBJECT), ("steps", command.steps or ""), ("none", ""):
        px86.keep(name, data)
    # A file of 2^26 + 1 bytes, and one that is far longer. No byte of them is kept anywhere.
    for name, size in ("long", LIMIT + 1), ("longer", 64 * LIMIT):
        os.truncate(px86.keep(name, ""), size)
    os.mkdir(f"{px86.folder}/folder")
    os.mkfifo(f"{px86.folder}/fifo")
    os.symlink("loop", f"{px86.folder}/loop")
    with socket.socket(socket.AF_UNIX) as it:
        it.bind(f"{px86.folder}/socket")


@dataclasses.dataclass(frozen=True)
class Asked:
    """The program and a command of it."""

    px86: Px86
    command: Command

    def ends(self, name: str, wanted: Ended, *words: str, streams: str = "<steps", before: str = "", **how: Any) -> tuple[str, str]:
        """A run of the command with these words behind its own, and with these streams: its status, and what it writes and says."""
        whole = [self.px86.path, *shlex.split(self.command.words), *words]
        done = run(["sh", "-c", f'{before} exec "$@" {streams}', "sh", *whole], most=60, cwd=self.px86.folder, **how)
        return name, unlike((done.status, done.written, done.said), wanted)

    def if_read(self, wanted: Ended) -> Ended:
        """How a call ends where standard input is so: that is of no matter to a command that reads no steps."""
        return self.command.done() if self.command.steps is None else wanted


def read_from(it: Asked) -> Checks:
    """FILE is an object, or nothing that can be read; and standard input is nothing that can be read."""
    yield it.ends("a text", it.command.done(), "text")
    yield it.ends("an object", it.command.done(), "object")
    yield from (it.ends(f"FILE: {what}", READ_FAILED, what) for what in UNREADABLE)
    yield it.ends("FILE: a name without bytes", READ_FAILED, "")
    yield it.ends("standard input: a folder", it.if_read(READ_FAILED), "text", streams="<folder")
    yield it.ends("standard input: only to be written", it.if_read(READ_FAILED), "text", streams="0>/dev/null")


def outputs(it: Asked) -> Checks:
    """Nothing can be written."""
    yield it.ends("a full device", WRITE_FAILED, "text", streams="<steps >/dev/full")
    yield it.ends("an output that is only to be read", WRITE_FAILED, "text", streams="<steps 1</dev/null")
    reader, writer = os.pipe()
    os.close(reader)
    # A process that another case begins has the reader, too, until its program starts.
    poll = select.poll()
    poll.register(writer, 0)
    poll.poll(60_000)
    yield it.ends("a closed pipe", WRITE_FAILED, "text", stdout=writer)
    os.close(writer)
    yield it.ends("standard error is full", FAULT, "absent", streams="<steps 2>/dev/full")


def closed(it: Asked) -> Checks:
    """Standard streams that are closed: before any file is opened, so a pipe without a writer is not waited for."""
    reads, done = it.command.steps is not None, it.command.done()
    for what in "text", "object", "absent", "folder", "fifo", "long":
        yield it.ends(f"standard output, FILE: {what}", READ_FAILED, what, streams="<steps >&-")
        yield it.ends(f"input and output, FILE: {what}", READ_FAILED, what, streams="<&- >&-")
        if reads:
            yield it.ends(f"standard input, FILE: {what}", READ_FAILED, what, streams="<&-")
    for what in "text", "object":
        yield it.ends(f"standard error, FILE: {what}", done, what, streams="<steps 2>&-")
        if not reads:
            yield it.ends(f"standard input, FILE: {what}", done, what, streams="<&-")
            yield it.ends(f"input and error, FILE: {what}", done, what, streams="<&- 2>&-")
    yield it.ends("output and error", FAULT, "text", streams="<steps >&- 2>&-")
    yield it.ends("all", FAULT, "text", streams="<&- >&- 2>&-")
    yield it.ends("standard error, of nothing", FAULT, "absent", streams="<steps 2>&-")
    # The command line is tested first.
    yield it.ends("input and output, without FILE", USAGE, streams="<&- >&-")


def same(it: Asked) -> Checks:
    """FILE is the standard input, or the file that is read or written as a standard stream."""
    for name, data in ("text", FLUSHED.encode()), ("object", FLUSHED_OBJECT):
        # Two descriptors, each from the file's beginning: a program is no list of steps, and no script.
        for path in name, "/dev/stdin":
            yield it.ends(f"{name} as standard input, by the name {path}", it.if_read(BAD_LINE), path, streams=f"<{name}")
        # All bytes of a pipe are the program's: no steps are left.
        yield it.ends(f"{name} by a pipe as standard input", it.command.idle(), "/dev/stdin", streams="", given=data)
        # Everything is read before anything is written.
        path = it.px86.keep("same", data)
        yield it.ends(f"{name} as standard output", (it.command.status, b"", b""), "same", streams="<steps >>same")
        with open(path, "rb") as file:
            yield f"the report behind {name}", unlike(file.read(), data + it.command.done()[1])
    # A pipe by its name, whose bytes come in parts.
    parts = "{ head -c 14 text; sleep 0.02; tail -c +15 text; } >fifo &"
    yield it.ends("FILE is a pipe", it.command.done(), "fifo", before=parts)


def too_long(it: Asked) -> Checks:
    """More bytes than an input may have, and inputs without an end."""
    wanted = it.if_read(TOO_LONG)
    yield it.ends("of 2^26 + 1 bytes", TOO_LONG, "long")
    yield it.ends("of a file without an end", TOO_LONG, "/dev/zero")
    yield it.ends("2^26 + 1 bytes on standard input", wanted, "text", streams="<long")
    with open(f"{it.px86.folder}/longer", "rb", 0) as given:
        yield it.ends("far more bytes on standard input", wanted, "text", streams="", given=None, stdin=given)
        most = 1 if it.command.steps is None else 2 * LIMIT
        yield "it is not read on behind the limit", unlike(given.tell() < most, True)
    yield it.ends("a standard input without an end", wanted, "text", streams="</dev/zero")
    # The program is told first, and its steps are not read behind a fault of it.
    with open(f"{it.px86.folder}/text", "rb", 0) as given:
        yield it.ends("the program's fault first", TOO_LONG, "long", streams="", given=None, stdin=given)
        yield "nothing of the steps is read", unlike(given.tell(), 0)


def steps(it: Asked) -> Checks:
    """Steps, or a script, from a file or from nowhere: standard input is not read then, and may be closed or anything else."""
    done, idle = it.command.done(), it.command.idle()
    if it.command.steps is None:
        for more in ["--steps", "steps"], ["--no-steps"]:
            yield it.ends(more[0], USAGE, "text", *more, streams="<none")
        return
    yield it.ends("--steps --no-steps", USAGE, "text", "--steps", "steps", "--no-steps", streams="<&- >&-")
    inputs = {"empty": "<none", "other bytes": "<other", "closed": "<&-", "a folder": "<folder", "without an end": "</dev/zero"}
    it.px86.keep("other", "?")
    for what, streams in inputs.items():
        yield it.ends(f"--steps, standard input: {what}", done, "--steps", "steps", "text", streams=streams)
        yield it.ends(f"--no-steps, standard input: {what}", idle, "object", "--no-steps", streams=streams)
    yield from (it.ends(f"STEPS: {what}", READ_FAILED, "--steps", what, "text") for what in UNREADABLE)
    yield it.ends("STEPS: 2^26 + 1 bytes", TOO_LONG, "--steps", "long", "text", streams="<none")
    yield it.ends("STEPS: FILE", BAD_LINE, "--steps", "text", "text")
    yield it.ends("STEPS: standard input", done, "--steps", "/dev/stdin", "text")
    # FILE is opened first, and nothing before it is known that standard output is open: no pipe without a writer is waited for.
    yield it.ends("no FILE, STEPS: a pipe", READ_FAILED, "--steps", "fifo", "absent", streams="<none")
    yield it.ends("STEPS: a pipe, output closed", READ_FAILED, "--steps", "fifo", "text", streams="<none >&-")
    yield it.ends("--no-steps, output closed", READ_FAILED, "--no-steps", "fifo", streams="<none >&-")
    yield it.ends("STEPS: a pipe", done, "--steps", "fifo", "text", streams="<&-", before="cat steps >fifo &")


# --- cases


def each_command(px86: Px86) -> Checks:
    """Each command that the help lists has a row."""
    yield "each has a row", unlike(set(commands_of(px86)), {it.words.split()[0] for it in COMMANDS})


def helps(px86: Px86) -> Checks:
    """Texts that no command makes."""
    for words in "--help", "run --help", "--version":
        it = Asked(px86, Command(words, None, ""))
        yield it.ends(f"{words}, standard output closed", WRITE_FAILED, streams=">&-")
        yield it.ends(f"{words}, a full device", WRITE_FAILED, streams=">/dev/full")
    version, nothing = Command("--version", None, "px86 0.1.0\n"), Command("", None, "")
    yield Asked(px86, version).ends("--version, standard input closed", version.done(), streams="<&-")
    yield Asked(px86, nothing).ends("no words, all closed", (2, b"", b""), streams="<&- >&- 2>&-")


QUESTIONED = "sheet 1\nline x\ncpu\nmov [x], 1\nend\nevery crash kept: persisted x <= 1\n"


def several(px86: Px86) -> Checks:
    """`check` of several FILEs: each in turn is read, and told, before the next one is read."""
    it = Asked(px86, Command("check", None, ""))
    files(px86, it.command)
    for name in "good", "other":
        px86.keep(name, QUESTIONED)
    good, other = b"good: 1 hold\n", b"other: 1 hold\n"
    all_told = good + b"text: nothing asked\nobject: nothing asked\n" + other
    yield it.ends("a sheet, a text, an object and a sheet", (1, all_told, b""), *"good text object other".split())
    for what in UNREADABLE:
        yield it.ends(f"one FILE: {what}", (3, good + other, f"px86: {what}: F1 ReadFailed\n".encode()), "good", what, "other")
    said = b"".join(b"px86: %s: F1 ReadFailed\n" % what.encode() for what in UNREADABLE)
    yield it.ends("all that cannot be read", (3, b"", said), *UNREADABLE)
    yield it.ends("too many bytes", (2, good + other, b"px86: long: F3 InputTooLong\n"), "good", "long", "other")
    for streams in ["<folder", "0>/dev/null", "<&-", "</dev/zero"]:
        yield it.ends(f"standard input: {streams}", (0, good + other, b""), "good", "other", streams=streams)
    # What cannot be written ends the call.
    reader, writer = os.pipe()
    os.close(reader)
    poll = select.poll()
    poll.register(writer, 0)
    poll.poll(60_000)
    yield it.ends("a closed pipe", (3, b"", b"px86: good: F2 WriteFailed\n"), "good", "absent", stdout=writer)
    os.close(writer)
    unwritten = 3, b"", b"px86: absent: F1 ReadFailed\npx86: good: F2 WriteFailed\n"
    for what in ">/dev/full", "1</dev/null":
        yield it.ends(f"an output {what}", unwritten, *"absent good absent other".split(), streams=what)
    # What cannot be read does not, nor what cannot be said.
    said = b"".join(b"px86: %s: F1 ReadFailed\n" % what.encode() for what in ("good", "long", "fifo"))
    yield it.ends("standard output is closed: no file is opened", (3, b"", said), "good", "long", "fifo", streams=">&-")
    for what in "2>/dev/full", "2>&-":
        yield it.ends(f"standard error {what}", (3, good + other, b""), "absent", "good", "folder", "other", streams=what)
    yield it.ends("all are closed", (3, b"", b""), "good", "other", streams="<&- >&- 2>&-")
    # FILE is a stream.
    yield it.ends("two FILEs are a file as standard input", (0, b"/dev/stdin: 1 hold\n" * 2, b""), "/dev/stdin", "/dev/stdin", streams="<good")
    ended = 2, b"/dev/stdin: 1 hold\n" + good, b"px86: /dev/stdin: X6 MissingEnd line 1\n"
    yield it.ends("two FILEs are a pipe as standard input", ended, "/dev/stdin", "/dev/stdin", "good", streams="", given=QUESTIONED)
    yield it.ends("FILE is a pipe", (0, good + b"fifo: 1 hold\n" + other, b""), "good", "fifo", "other", before="cat good >fifo &")
    # The report of the first one goes on in the last line's question.
    path = px86.keep("same", QUESTIONED)
    yield it.ends("a FILE is standard output", (2, b"", b"px86: same: X11 BadCond line 7\n"), "good", "same", "other", streams=">>same")
    with open(path, "rb") as file:
        yield "the reports behind it", unlike(file.read(), QUESTIONED.encode() + good + other)
    # STEPS are read anew.
    px86.keep("crash", "crash\n")
    done = 0, good + other, b""
    yield it.ends("STEPS: a file", done, "--steps", "crash", "good", "other")
    yield it.ends("STEPS: a file as standard input", done, "good", "other", "--steps", "/dev/stdin", streams="<crash")
    bad = 2, b"", b"px86: good: S1 BadLine 1\npx86: other: S1 BadLine 1\n"
    yield it.ends("STEPS: a FILE", bad, "good", "--steps", "good", "other")
    unread = 3, b"", b"px86: good: F1 ReadFailed\npx86: other: F1 ReadFailed\n"
    yield it.ends("STEPS: absent", unread, "good", "--steps", "absent", "other")


TESTS = {
    "what FILE may be": read_from,
    "outputs that fail": outputs,
    "closed streams": closed,
    "FILE is a stream": same,
    "too many bytes": too_long,
    "steps from a file, or none": steps,
}


def with_files(px86: Px86, command: Command, what: str) -> Checks:
    """One of these tests, of one command."""
    files(px86, command)
    yield from TESTS[what](Asked(px86, command))


def cases() -> Iterator[Case]:
    """All cases."""
    yield from (Case(f"{command.words}: {what}", with_files, command, what) for command in COMMANDS for what in TESTS)
    yield Case("check of several FILEs", several)
    yield Case("texts that no command makes", helps)
    yield Case("commands", each_command)
