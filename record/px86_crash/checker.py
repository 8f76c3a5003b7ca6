"""Runs the user's checker on an image."""

from __future__ import annotations

import os
import re
import shlex
import signal
import subprocess
from collections.abc import Callable, Sequence
from dataclasses import dataclass

from .faults import Failed

# What a shell takes as it is: blanks between words, of which the first is no assignment.
PLAIN = re.compile(r" *[\w./,:+%@-]+( +[\w./,:+%@=-]+)* *", re.ASCII)
MOST_WORDS = 100
# What a shell says by these statuses.
NOT_RUN = {126: "it, or a program of it, cannot be run", 127: "it, or a program of it, is not there"}


@dataclass(frozen=True)
class Verdict:
    """How the checker ended, and what is to be said of it. Its kind is `good`, `bad`, `strange` (it ended otherwise), `late` (it did
    not end in time) or `unsteady` (of one memory it said two things)."""

    kind: str
    said: str


def command_on(command: str, path: str, endings: Sequence[str] = ("",)) -> str:
    """The command on files: the first in the place of {}, the second in that of {2}, if it is asked for."""
    for number, ending in enumerate(endings[1:], 2):
        command = command.replace(f"{{{number}}}", shlex.quote(path + ending))
    return command.replace("{}", shlex.quote(path))


def words_of(command: str) -> list[str]:
    """The words of a program that is named by its path, if a shell would do nothing else than run it: that spares a shell for each run.
    Otherwise the command itself, for a shell."""
    words = command.split()
    if PLAIN.fullmatch(command) and "/" in words[0] and 1 < len(words) <= MOST_WORDS:
        return words
    return [command]


def steady(run: Callable[[], Verdict]) -> Verdict:
    """What a checker says of one memory, on which `run` runs it. What is not good is asked again before it is believed: a checker
    that was only slow is not late, and a NO is said twice."""
    verdict = run()
    if verdict.kind == "late":
        verdict = run()
        if verdict.kind == "late":
            return Verdict("late", f"{verdict.said}, twice")
    if verdict.kind == "good":
        return verdict
    again = run()
    if again.kind == verdict.kind:
        return verdict
    return Verdict("unsteady", f"not the same twice: {verdict.said}, and then {again.said or 'it ended with 0'}")


def check(command: str, path: str, acknowledged: int, seconds: float, endings: Sequence[str] = ("",)) -> Verdict:
    """The checker gets the files in the place of {}, {2} .., and PX86_ACK. Status 0 is good, and 1 bad."""
    environment = {**os.environ, "PX86_ACK": str(acknowledged)}
    started = subprocess.Popen(
        command_on(command, path, endings),
        shell=True,
        env=environment,
        stdin=subprocess.DEVNULL,
        stdout=subprocess.PIPE,
        stderr=subprocess.STDOUT,
        text=True,
        errors="replace",
        start_new_session=True,
    )
    try:
        written, _ = started.communicate(timeout=seconds)
    except subprocess.TimeoutExpired:
        kill_group(started)
        return Verdict("late", f"the checker did not end in {seconds:g} seconds")
    except BaseException:
        kill_group(started)
        raise
    fail_if_not_run(started.returncode, command)
    return verdict(started.returncode, written)


def fail_if_not_run(status: int, command: str) -> None:
    if status in NOT_RUN:
        raise Failed(f"the checker ended with {status}: {NOT_RUN[status]}: {command}")


def kill_group(started: subprocess.Popen[str]) -> None:
    os.killpg(started.pid, signal.SIGKILL)
    started.communicate()


def signal_of(status: int) -> int:
    """The signal that an exit status tells of, as a shell does: 128 and its number; or 0."""
    return status - 128 if 128 < status < 128 + signal.NSIG else 0


def verdict(status: int, written: str) -> Verdict:
    lines = [line for line in written.splitlines() if line.strip()]
    said = f": {lines[-1].strip()}" if lines else ""
    if status == 0:
        return Verdict("good", "")
    if status == 1:
        return Verdict("bad", f"the checker ended with 1{said}")
    # The shell tells of a signal by 128 and its number, or ends by it.
    number = -status if status < 0 else signal_of(status)
    if number:
        return Verdict("strange", f"the checker ended by signal {number} ({signal.strsignal(number)}){said}")
    return Verdict("strange", f"the checker ended with {status}, which is neither 0 (good) nor 1 (bad){said}")


def how_ended(status: int) -> str:
    number = signal_of(status)
    if number:
        return f"ended by signal {number} ({signal.strsignal(number)})"
    return f"ended with status {status}"
