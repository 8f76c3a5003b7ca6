"""Compares the program with the second model, in one process a core: broken pairs of random lists of steps, and of lists behind full
lines, markers and store buffers; the closed set of each image of random states, and of those of the worked rows in tests/cases;
whole reports of `images` of random programs; the values of words in the images in which others have given values; what hunts say of
an image that is explained. What was compared, and that none of it came too seldom, the model says itself (model/compare.py).
"""

from __future__ import annotations

from collections.abc import Iterator

from tests.harness import Case, Checks, Px86, run, wrong_end

AT_LEAST = {"": 2}
NEEDS_PROGRAM = True
ROWS = [f"tests/cases/{name}.rows" for name in "images model operands reading runs sets".split()]


def agrees(px86: Px86, command: str, words: list[str]) -> Checks:
    """The model has to end with status 0 and to say nothing on standard error."""
    done = run(["tools/schedules-model", command, px86.path, *words], most=3600)
    wrong = wrong_end(done, 0)
    yield "", f"{wrong}: {done.out[:2000]}" if wrong else ""


def cases() -> Iterator[Case]:
    """All cases."""
    counts = "--lists 10000 --full 300 --states 300".split()
    yield Case("broken pairs, closed sets and reports of images are those of the model", agrees, "compare", counts)
    yield Case("the sets of listed images leave them", agrees, "sets", ROWS)
