"""Lists of steps in their written form."""

from __future__ import annotations

import re
from collections.abc import Iterable

from .faults import Refused

# A step in its written form. (Whether a state accepts it, px86 says.)
STEP = re.compile(r"exec \d{1,10}|drain \d{1,10} \d{1,10}|persist \d{1,10}|settle|crash", re.ASCII)
MOST_STEPS = 2000


def is_step(given: object) -> bool:
    return isinstance(given, str) and STEP.fullmatch(given) is not None


def lines_of(steps: Iterable[str]) -> str:
    """The list as px86 reads it."""
    return "".join(f"{step}\n" for step in steps)


def read_list(content: str) -> list[str]:
    """The steps of a list, whose lines may have comments and blanks. A line that is none is Refused."""
    steps = []
    for number, line in enumerate(content.split("\n"), 1):
        step = " ".join(line.partition("#")[0].split())
        if step and not is_step(step):
            raise Refused(f"S1 BadLine {number}: {step}")
        if step:
            steps.append(step)
    return steps


def checked(given: object) -> list[str]:
    """A list of steps of a request; Refused if it is none."""
    if not isinstance(given, list) or len(given) > MOST_STEPS:
        raise Refused(f"steps: a list of at most {MOST_STEPS}")
    if not all(is_step(step) for step in given):
        raise Refused("steps: one is none")
    return given
