"""Parts of one question, for many machines: each asks of some windows, or memories, of the same recording; and their answers joined.

A part writes a JSON object. Its `stages` are what was asked, one after another: a condition, the checker, the recovery. Each has its
status, the lines that were said, and facts: of what is good the numbers that are added up, and of what is not its rank among all."""

from __future__ import annotations

import hashlib
import json
import re
from argparse import Namespace
from collections import Counter
from collections.abc import Sequence
from dataclasses import dataclass
from typing import Any

from .faults import Failed
from .recording import Recording, files_of
from .report import Report, say_cases, say_crashes, say_memories, say_yes

# What is asked has to be the same in all parts.
ASKED = ("check", "all", "recovery", "reads", "nt", "grain", "window", "names", "ignore")
# What a part knows of the image that is not accepted.
SHOWN = ("image", "acknowledged", "said", "text", "steps", "values", "lost", "kept", "commands", "repair")


@dataclass(frozen=True)
class Part:
    """One of so many parts; by itself it is all."""

    number: int = 1
    count: int = 1

    def takes(self, place: int) -> bool:
        """Whether it has the window, or the memory, at this place."""
        return place % self.count == self.number - 1

    @property
    def is_first(self) -> bool:
        return self.number == 1

    def __str__(self) -> str:
        return f"{self.number}/{self.count}"


def part_of(text: str) -> Part:
    """K/N: the part K of N."""
    if not re.fullmatch("[0-9]{1,6}/[0-9]{1,6}", text):
        raise ValueError
    part = Part(*map(int, text.split("/")))
    if not 1 <= part.number <= part.count:
        raise ValueError
    return part


def note_part(report: Report, options: Namespace, recording: Recording) -> None:
    """What the answer of a part says of itself."""
    asked = {name: getattr(options, name) for name in ASKED}
    report.note(part=str(options.part), asked={**asked, "recording": sum_of(recording)})


def sum_of(recording: Recording) -> str:
    hashed = hashlib.sha256()
    for file in files_of(recording.before):
        hashed.update(file)
    with open(recording.path, "rb") as log:
        hashed.update(log.read())
    return hashed.hexdigest()


# --- joined

Answer = dict[str, Any]


def join(files: Sequence[str], report: Report) -> int:
    """Says what all parts say together, as one command would have; answers the status."""
    answers = read_answers(files)
    for line in answers[0]["head"]:
        report.say(line)
    for name in ("condition", "checker", "recovery"):
        stages = [(answer, stage) for answer in answers for stage in answer["stages"] if stage["name"] == name]
        wrong = [(answer, stage) for answer, stage in stages if stage["status"]]
        if wrong:
            return say_wrong(report, *min(wrong, key=lambda found: order_of(found[1])))
        if stages:
            say_good(report, name, [stage for _, stage in stages])
    ends = [stage for answer in answers for stage in answer["stages"] if stage["name"] == "end"]
    names = ("threads", "delays", "recovery_threads", "has_check", "ignored", "unit")
    say_yes(report, {name: max(stage[name] for stage in ends) for name in names})
    return 0


def read_answers(files: Sequence[str]) -> list[Answer]:
    """The answers of all parts, in order."""
    by_part: dict[Part, Answer] = {}
    for file in files:
        answer = read_answer(file)
        part = part_of(answer["part"])
        if part in by_part:
            raise Failed(f"--join: {file} is part {part} again")
        by_part[part] = answer
    count = min(by_part, key=lambda part: part.count).count
    missing = [part for part in (Part(number, count) for number in range(1, count + 1)) if part not in by_part]
    if missing:
        raise Failed(f"--join: there is no part {missing[0]}")
    if len(by_part) > count:
        raise Failed(f"--join: there are parts of {count}, and of another number")
    answers = [by_part[Part(number, count)] for number in range(1, count + 1)]
    for part, answer in zip(sorted(by_part, key=lambda part: part.number), answers):
        different = [name for name, value in answer["asked"].items() if value != answers[0]["asked"].get(name)]
        if different:
            raise Failed(f"--join: part {part} is of another question than part {Part(1, count)}: {', '.join(different)}")
    return answers


def read_answer(file: str) -> Answer:
    try:
        with open(file, encoding="utf-8") as text:
            answer = json.load(text)
    except OSError as error:
        raise Failed(f"{file}: {error.strerror}") from error
    except ValueError:
        answer = None
    if not isinstance(answer, dict) or "part" not in answer or not answer["stages"]:
        said = answer["lines"][-1:] if isinstance(answer, dict) and answer.get("lines") else []
        raise Failed(": ".join([f"--join: {file} is no answer of --part", *said]))
    return answer


def order_of(stage: Answer) -> tuple[int, Any]:
    """What is not accepted comes first, by its rank; then what is no answer; and then what is too large."""
    if "rank" in stage:
        return 0, stage["rank"]
    return (2, stage["refused"]) if "refused" in stage else (1, [])


def say_wrong(report: Report, answer: Answer, stage: Answer) -> int:
    for line in stage["lines"]:
        report.say(line)
    report.note(**{key: answer[key] for key in SHOWN if key in answer})
    return int(stage["status"])


def say_good(report: Report, name: str, stages: Sequence[Answer]) -> None:
    """What is said of a stage in which all is good: its numbers are added up."""
    facts: Counter[str] = Counter()
    for stage in stages:
        facts.update(stage.get("facts", {}))
    if name == "condition":
        for line in stages[0]["lines"]:
            report.say(line)
    elif name == "recovery":
        say_crashes(report, facts, any(stage["has_condition"] for stage in stages))
    elif "memories" in facts:
        for line in stages[0]["lines"][:-1]:
            report.say(line)
        say_memories(report, facts)
    else:
        say_cases(report, facts, set.intersection(*(set(stage["unread"]) for stage in stages)))
