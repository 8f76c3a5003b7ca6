"""Runs the tests of the program as it is built, side by side.

  python3 -m tests                          all parts that are below
  python3 -m tests picture                  one part (or several)
  python3 -m tests -k "a text with an image"    the case of this name; or each whose name has this word
  python3 -m tests --list [PART..] [-k WORD]    their names, and no run

`--program PROGRAM` names the program: that of crates/px86/out if left out, proved and built first. `--jobs N` runs so many cases at
a time: as many as there are processors if left out. The last line is `N passed, M failed`; in the line before it stands how many
checks this machine can't make as they are meant, as `N not run`. The status is 1 if anything failed.
"""

import argparse
import importlib
import os
import subprocess
import sys
from types import ModuleType

from tests.harness import CORES, TOP, Case, run_parts

# In the order in which they begin: those that take long come first.
PARTS = """
model every-run mend look json-reports release install schedules gallery failing-devices streams conversation sheets questions texts broken-bytes program
objects picture documents editors from-help view-changes-nothing unproved wrong-bodies
""".split()


def module_of(part: str) -> ModuleType:
    """The module of a part."""
    return importlib.import_module(f"tests.{part.replace('-', '_')}")


def has_word(case: Case, word: str, names: set[str]) -> bool:
    """Whether a case is asked for by a word: its name, or where that is no case's name, a part of it."""
    return word in (case.name, case.id()) if word in names else word in case.id()


def cases_of(part: str, words: list[str]) -> list[Case]:
    """The cases of a part for which one of these words asks; all if there are no words."""
    cases = list(module_of(part).cases())
    for case in cases:
        case.part = part
    names = {name for case in cases for name in (case.name, case.id())}
    return [case for case in cases if not words or any(has_word(case, word, names) for word in words)]


def built(path: str | None) -> str:
    """The path of the program, which is proved and built first if none is named."""
    if path is None:
        subprocess.run([f"{TOP}/px86", "--version"], stdout=subprocess.DEVNULL, check=True)
        path = f"{TOP}/crates/px86/out/px86"
    if not os.access(path, os.X_OK):
        raise FileNotFoundError(f"there is no program {path}")
    return os.path.realpath(path)


def main() -> int:
    words = argparse.ArgumentParser(prog="python3 -m tests", description=__doc__, formatter_class=argparse.RawDescriptionHelpFormatter)
    words.add_argument("parts", nargs="*", metavar="PART", help=", ".join(PARTS))
    words.add_argument("-k", dest="words", action="append", default=[], metavar="WORD")
    words.add_argument("--list", action="store_true")
    words.add_argument("--program")
    words.add_argument("--jobs", type=int, default=CORES)
    asked = words.parse_args()
    if unknown := set(asked.parts) - set(PARTS):
        words.error(f"there is no part {', '.join(sorted(unknown))}")
    chosen = {part: cases_of(part, asked.words) for part in asked.parts or PARTS}
    if asked.list:
        print(*(case.id() for cases in chosen.values() for case in cases), sep="\n")
        return 0
    try:
        if any(module_of(part).NEEDS_PROGRAM for part in chosen):
            Case.program = built(asked.program)
    except (OSError, subprocess.CalledProcessError) as wrong:
        print(f"tests: {wrong}\n0 passed, 1 failed")
        return 1
    os.chdir(TOP)
    at_least = {} if asked.words else {part: module_of(part).AT_LEAST for part in chosen}
    return run_parts(chosen, at_least, asked.jobs).verdict()


if __name__ == "__main__":
    sys.exit(main())
