"""The command line of tools/schedules-model."""

from __future__ import annotations

import argparse
import contextlib
import io
import sys
from collections.abc import Iterator

from model.commands import (
    answer, check, dis, enumerate_, explain, fences, hunt, images, law, live, mend, next_, outcomes, program, replay, run, small, tally, trace, words,
)
from model.compare import COMMANDS, HUNTS, LISTINGS, LISTS, LISTS_BEHIND_FULL, STATES, compare
from model.conditions import condition_of
from model.every_run import SMALL_PROGRAMS, every_run
from model.machine import Machine
from model.reading import Fault
from model.sets import sets
from model.sheets import litmus_of, program_of
from model.texts import Program, steps_of

# What an argument is: a text, texts, a whole number with this value if it is left out, or a word alone.
TEXT, TEXTS, WORD, NUMBER = {}, {"nargs": "+"}, {"action": "store_true"}, {"type": int}
PLAN = {"--seed": {"type": int, "default": 0}, "--length": NUMBER, "--crash-after": NUMBER}
RUNS = {"--first": {"type": int, "default": 0}, "--runs": {"type": int, "default": 100}, "--all": TEXT, "--ends": TEXT, "--recovered": TEXT}
QUESTIONS = {"--all": TEXT, "--ends": TEXT, "--recovered": TEXT, "--before-crash": WORD, "--states": NUMBER}
# The commands of a program and its steps, with their options.
OF_A_FILE = {
    run: {},
    trace: {},
    next_: {"--refused": WORD},
    images: {"--count": WORD, "--names": WORD, "--all": TEXT, "--some": TEXT, "--set": TEXT},
    explain: {"--image": TEXT, "--report": TEXT, "--only": TEXT} | QUESTIONS,
    law: {},
    replay: PLAN | {"--lazy": WORD, "--number": {"type": int, "required": True}},
    tally: PLAN | RUNS,
    hunt: PLAN | RUNS | {"--lazy": WORD, "--cond": TEXT, "--workers": TEXT, "--show": WORD, "--explain-image": WORD},
    live: {"--threads": {"type": int, "default": 2}, "--check": TEXT},
    check: {"file": TEXTS} | QUESTIONS | {"--images": WORD, "--names": WORD, "--only": TEXT},
    answer: {"--only": TEXT},
    fences: QUESTIONS | {"--only": TEXT},
    mend: QUESTIONS | {"--moves": WORD, "--sets": NUMBER},
    outcomes: {"--states": NUMBER, "--recovered": WORD, "--breaking": TEXT},
    enumerate_: {"--crash": WORD, "--cond": TEXT},
}
# The others, with their arguments.
COUNTS = {"lists": LISTS, "full": LISTS_BEHIND_FULL, "states": STATES, "listings": LISTINGS, "commands": COMMANDS, "hunts": HUNTS}
OTHERS = {
    dis: {"file": TEXT},
    program: {"number": NUMBER},
    words: {"seed": NUMBER, "number": NUMBER},
    compare: {"built": TEXT} | {f"--{name}": {"type": int, "default": count} for name, count in COUNTS.items()},
    every_run: {"built": TEXT, "--programs": {"type": int, "default": SMALL_PROGRAMS}, "--first": {"type": int, "default": 0}},
    small: {"number": NUMBER},
    sets: {"built": TEXT, "rows": TEXTS},
}
# The options that have a condition, in the order in which they are read.
CONDITIONS = "all cond some ends recovered breaking".split()


def parser_of() -> argparse.ArgumentParser:
    """What reads the words of a command."""
    parser = argparse.ArgumentParser(prog="schedules-model")
    commands = parser.add_subparsers(required=True)
    for command, arguments in (OF_A_FILE | OTHERS).items():
        options_of = commands.add_parser(command.__name__.rstrip("_").replace("_", "-"))
        options_of.set_defaults(command=command, lazy=False)
        for name, kind in ({"file": TEXT} | arguments if command in OF_A_FILE else arguments).items():
            options_of.add_argument(name, **kind)
    return parser


def main(words: list[str] | None = None, given: str | None = None) -> int:
    """Does what these words say on these steps: those of the call, and those on standard input, if none are given."""
    options = parser_of().parse_args(words)
    if options.command in OTHERS:
        return options.command(options)
    if options.command in (replay, tally, hunt) and options.length is None:
        # A schedule that is asked about all of its turns or the end to which it comes, or any other.
        asked = options.command is not replay and (options.all, options.ends, options.recovered) != (None, None, None)
        options.length = 1000 if asked else 100
    reads_no_steps = options.command in (fences, mend)
    steps = "" if reads_no_steps else sys.stdin.read() if given is None else given
    files = options.file if isinstance(options.file, list) else [options.file]
    return max(status_of(options, path, path if len(files) > 1 else None, steps) for path in files)


def status_of(options: argparse.Namespace, path: str, named: str | None, steps: str) -> int:
    """Does a command on a file, which has a name where it is one of several: its status. A fault is told."""
    try:
        return done(options, path, named, steps)
    except Fault as fault:
        print(f"px86: {fault}" if named is None else f"px86: {named}: {fault}", file=sys.stderr)
        return fault.status


def done(options: argparse.Namespace, path: str, named: str | None, steps: str) -> int:
    """Does a command on a file, and gives its status; or its first fault. Of one file its litmus text has none."""
    try:
        with open(path, "rb") as file:
            data = file.read()
    except OSError:
        raise Fault("F1 ReadFailed", 3) from None
    if named is not None:
        litmus_of(data)
    program = program_of(data.decode("ascii"))
    for text in conditions_in(options):
        condition_of(text, program)
    options.named = named
    return options.command(Machine(program), steps_of(steps), options)


def conditions_in(options: argparse.Namespace) -> Iterator[str]:
    """The conditions that are asked, in their order. (What is no text is a flag of the same name.)"""
    yield from (text for name in CONDITIONS if isinstance(text := getattr(options, name, None), str))


def told_by(words: list[str] | tuple[str, ...], given: str) -> tuple[int, str, str]:
    """What a command answers to these words and steps: its status, and what it writes on standard output and on standard error."""
    with contextlib.redirect_stdout(io.StringIO()) as out, contextlib.redirect_stderr(io.StringIO()) as err:
        try:
            status = main(words, given)
        except SystemExit as end:
            status = end.code
    return status or 0, out.getvalue(), err.getvalue()
