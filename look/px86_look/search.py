"""Has px86 search for a run that breaks a condition, or for what the text lacks to keep it, and reads what it found."""

from __future__ import annotations

import re
import time
from collections.abc import Sequence

from .emulator import Answer, Running
from .faults import Gone
from .steps import is_step
from .view import Data, View

KINDS = ("all", "ends", "recovered")
# How long a search may take, in seconds; and what is asked of a run that it found, so long again.
SECONDS = 120.0
VALUES = re.compile(r"(?:(?:all|ends|recovered) fails|image)((?: \d+)*)")
# What --explain-image adds: a crash of the run, the words and values of what it or the last state left, and lines of what is missing.
CRASH = re.compile(r"crash (\d+)")
IMAGE = re.compile(r"image((?: \S+ \d+)*)")
SAID = re.compile(r"missing |with |none of these |nor is any set |of sets of these ")
# A missing write, and not that none is, nor how many others are.
IS_MISSING = re.compile(r"missing (?!none$|too \d+$)")
PUT = re.compile(r"put (.+) behind line (\d+)")


def check(view: View, kind: str, condition: str, steps: Sequence[str], states: int, running: Running) -> Data:
    """A run that breaks the condition, of all that begin behind these steps, among so many states; and which writes were missing."""
    words = ["check", f"--{kind}={condition}", "--states", str(states)]
    found = search(view, words, steps, running)
    if found.get("values") is None:
        return found
    try:
        return search(view, [*words, "--explain-image"], steps, running)
    except Gone as gone:
        if running.is_stopped:
            raise
        return found | {"unexplained": str(gone)}


def hunt(view: View, condition: str, steps: Sequence[str], plan: Sequence[str], running: Running) -> Data:
    """A run that breaks the condition, of the numbered schedules of a plan that begin behind these steps."""
    return search(view, ["hunt", f"--all={condition}", "--explain-image", *plan], steps, running)


def mend(view: View, kind: str, condition: str, states: int, running: Running) -> Data:
    """The least flushes and fences with which every run of the text, from its first state, keeps the condition."""
    begun = time.monotonic()
    answer = view.ask("mend", f"--{kind}={condition}", "--states", str(states), seconds=SECONDS, running=running)
    return mended_of(answer) | {"seconds": round(time.monotonic() - begun, 3)}


def search(view: View, words: Sequence[str], steps: Sequence[str], running: Running) -> Data:
    begun = time.monotonic()
    answer = view.ask(*words, "--show", given=steps, seconds=SECONDS, running=running)
    return found_of(answer) | {"seconds": round(time.monotonic() - begun, 3)}


def fault_of(answer: Answer) -> Data:
    first, _, told = answer.err.partition("\n")
    return {"fault": {"sentence": first, "told": told.rstrip("\n")}}


def found_of(answer: Answer) -> Data:
    """The report's lines, and apart from them the steps, the memory and the reasons."""
    if not answer.is_report:
        return fault_of(answer)
    lines = [line for line in answer.out.splitlines() if not is_step(line)]
    values = next((found[1] for line in lines if (found := VALUES.fullmatch(line))), None)
    told = [line for line in lines if not is_explaining(line)]
    return {
        "holds": answer.status == 0,
        "lines": lines if answer.status == 0 else told,
        "steps": [line for line in answer.out.splitlines() if is_step(line)],
        "values": None if values is None else list(map(int, values.split())),
        "explained": explained_in(lines),
    }


def is_explaining(line: str) -> bool:
    """Whether a line is one of those that explain a run that breaks the condition."""
    is_of_image = IMAGE.fullmatch(line) is not None and VALUES.fullmatch(line) is None
    return is_of_image or CRASH.fullmatch(line) is not None or SAID.match(line) is not None


def explained_in(lines: Sequence[str]) -> list[Data]:
    """Of each crash of the run, by its place among the steps, and of the last state (None), what it left, the writes that are told
    as missing, and what else is said of them."""
    parts: list[Data] = []
    crash: int | None = None
    for line in filter(is_explaining, lines):
        if found := CRASH.fullmatch(line):
            crash = int(found[1])
        elif found := IMAGE.fullmatch(line):
            parts.append({"crash": crash, "values": list(map(int, found[1].split()[1::2])), "missing": [], "said": []})
            crash = None
        elif parts:
            parts[-1]["missing" if IS_MISSING.match(line) else "said"].append(line)
    return parts


def mended_of(answer: Answer) -> Data:
    """The report's lines, and apart from them each instruction that is to be put in, with the line behind which it belongs."""
    if not answer.is_report:
        return fault_of(answer)
    lines = answer.out.splitlines()
    put = [{"instruction": found[1], "line": int(found[2])} for line in lines if (found := PUT.fullmatch(line))]
    return {"lines": lines, "put": put}
