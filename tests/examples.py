"""What the parts gallery and every-run ask of examples: files whose first line is a command, behind which its report stands."""

from __future__ import annotations

import os
import re
import shlex
from collections.abc import Iterator

from tests.harness import Done, Px86, differs, model, read, unlike, wrong_end

QUESTIONS = "--all", "--ends", "--recovered"


class Example:
    """A command, its words behind its name, of which the last is the path of its litmus text, and its report."""

    def __init__(self, path: str) -> None:
        first, _, self.report = read(path).partition("\n")
        _, *words, text = shlex.split(first)
        self.path, self.litmus = path, os.path.join(os.path.dirname(path), text)
        self.words = [*words, self.litmus]

    @property
    def status(self) -> int:
        """The status of a command with this report."""
        return int(bool(re.search(r"^least |^[a-z]* fails|^some none|^fails", self.report, re.M)))

    def option(self, name: str) -> str:
        """The word behind an option, of which there is one; nothing where it is not among the words."""
        return self.words[self.words.index(name) + 1] if name in self.words else ""


def row_of(name: str) -> list[list[str]]:
    """The cells of each row of the index, examples/README.md, that has this name."""
    return [line.strip("| \n").split(" | ") for line in read("examples/README.md").splitlines() if f"| `{name}` |" in line]


# --- reports of `check`


def wrong_check(px86: Px86, it: Example) -> str:
    """What is wrong with the report of a `check`. A count of states stands behind the lines of what is asked. Where a condition
    fails, the steps that `--show` adds lead `run` and `images` to the state that is told."""
    done = px86(*it.words)
    wrongs = wrong_failure(px86, it, done) if it.status else wrong_success(px86, it, done)
    return wrong_end(done, it.status) or "; ".join(filter(None, wrongs))


def wrong_success(px86: Px86, it: Example, done: Done) -> Iterator[str]:
    lines = done.out.splitlines(keepends=True)
    place = sum(it.option(name) != "" for name in QUESTIONS)
    states = "".join(lines[place : place + 1])
    yield "" if re.fullmatch(r"states [1-9][0-9]*\n", states) else "there is no count of states in its place"
    yield differs("".join([*lines[:place], *lines[place + 1 :]]), it.report)
    alone = px86(*it.words, "--as-steps")
    yield "another status with --as-steps" if alone.status else ""
    yield "steps where there are none" if alone.written else ""


def wrong_failure(px86: Px86, it: Example, done: Done) -> Iterator[str]:
    line, _, rest = done.out.partition("\n")
    if line not in it.report.splitlines():
        yield f"nothing that may be told: {line}"
        return
    shown = px86(*it.words, "--show").out.splitlines(keepends=True)
    steps = "".join(shown[2:])
    yield unlike(rest, f"steps {len(shown) - 2}\n")
    yield "" if "".join(shown[:2]) == done.out else "with --show another report"
    alone = px86(*it.words, "--as-steps")
    yield "another status with --as-steps" if alone.status != 1 else ""
    yield "" if alone.out == steps else "not the steps alone with --as-steps"
    yield wrong_explanation(px86, it, line, "".join(shown), steps)
    yield from wrong_state(px86, it, line, steps)


def wrong_state(px86: Px86, it: Example, line: str, steps: str) -> Iterator[str]:
    """What is wrong with the state to which steps lead, where this line tells it."""
    question, _, told = line.partition(" ")
    ran = px86("run", it.litmus, given=steps)
    yield "run refuses one of the steps" if ran.status else ""
    is_end = not re.search(r"^cpu .* ready |^  buf|^pend ", ran.out, re.M)
    yield "" if question == "all" or is_end else "the steps lead to no end"
    crashed = not ran.out.splitlines()[1:2] == ["crashes 0"]
    is_of_its_kind = question == "all" or crashed == (question == "recovered")
    yield "" if is_of_its_kind else "the steps lead to an end of another kind"
    images = px86("images", "--count", f"--all={it.option(f'--{question}')}", it.litmus, given=steps)
    yield "" if images.out.splitlines()[-1:] == [f"all {told}"] else "the images of that state are others"


def wrong_explanation(px86: Px86, it: Example, line: str, shown: str, steps: str) -> str:
    """What is wrong with the same report where the run is to be explained: behind the steps comes what the model says of its crashes,
    and of the image, if an image breaks the condition."""
    explained = px86(*it.words, "--show", "--explain-image").out
    if not explained.startswith(shown):
        return "with --explain-image another report"
    asked = [f"{name}={it.option(name)}" for name in (*QUESTIONS, "--states") if it.option(name)]
    image = ["--image", line.removeprefix("all fails")] if line.startswith("all fails") else []
    because = px86.keep("because", explained.removeprefix(shown))
    told = model("explain", "--report", because, *asked, *image, it.litmus, given=steps)
    return told.out or wrong_end(told, 0)
