"""The sets of the images of worked rows."""

from __future__ import annotations

import os
import re
import subprocess
import tempfile
from argparse import Namespace
from collections.abc import Iterator

from model.images import closed_sets_of, images_of, is_closed, left_by, set_text
from model.machine import Machine, make_all
from model.rules import Image
from model.texts import Program, steps_of

# How many sets the worked rows have at least.
SETS_AT_LEAST = 140


def cases_of(rows: str) -> Iterator[tuple[str, str, str]]:
    """The name, the text and the steps of each case of a file of worked rows, as the head of tests/texts.py says."""
    text, steps = "", ""
    for case in re.split(r"^== ", rows, flags=re.M)[1:]:
        name, _, rest = case.partition("\n")
        parts = re.split(r"^-- (.*)\n", rest, flags=re.M)
        sections = dict(zip(parts[1::2], parts[2::2]))
        text, steps = sections.get("text", text), sections.get("steps", steps)
        yield name, text, steps


def answered(program: str, words: list[str], steps: str) -> tuple[str, int]:
    """What the built program writes, and its status."""
    ran = subprocess.run([program, *words], input=steps, capture_output=True, encoding="ascii", timeout=60, check=False)
    return ran.stdout, ran.returncode


def wrong_set(machine: Machine, closed: dict[Image, list[frozenset[int]]], image: Image, report: str) -> str | None:
    """What is wrong with what the program tells of an image, beside all closed sets, or nothing."""
    what, *places = report.split() or [""]
    if what != "set" or not all(place.isdigit() and int(place) < len(machine.pending) for place in places):
        return "no set of places"
    places = list(map(int, places))
    if places != sorted(set(places)):
        return "places that do not ascend"
    if not is_closed(machine.pending, places):
        return "not closed"
    if left_by(machine, places) != image:
        return "leaves another image"
    return None if report == set_text(machine, closed.get(image, [])) + "\n" else "not the least"


def sets(options: Namespace) -> int:
    asked, seen, wrong = 0, set(), 0
    cases = []
    for rows in options.rows:
        with open(rows, encoding="ascii") as file:
            cases += cases_of(file.read())
    with tempfile.TemporaryDirectory() as folder:
        path = os.path.join(folder, "text.litmus")
        for name, text, steps in cases:
            with open(path, "w", encoding="ascii") as file:
                file.write(text)
            report, status = answered(options.built, ["images", path], steps)
            if (text, steps) in seen or status != 0:
                continue
            seen.add((text, steps))
            machine = make_all(Machine(Program(text)), steps_of(steps))
            closed = closed_sets_of(machine)
            lines = [line.split() for line in report.splitlines()]
            images = [tuple(map(int, values)) for what, *values in lines if what == "image"]
            if images != images_of(machine):
                wrong += 1
                print(f"{name}: other images")
            for image in images:
                asked += 1
                told = answered(options.built, ["images", "--set", " ".join(map(str, image)), path], steps)[0]
                why = wrong_set(machine, closed, image, told)
                if why is not None:
                    wrong += 1
                    print(f"{name}: of {image}: {told!r}: {why}")
    print(f"{asked} sets in {len(seen)} states, {wrong} wrong")
    return int(wrong > 0 or asked < SETS_AT_LEAST)
