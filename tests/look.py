"""Tests look/px86-look: what its server refuses, what it answers, and what it exports; and, by look/test-page, what its page shows in
Chromium. Where Chromium is absent those checks count as not run.

What is expected is what px86 says where it is called apart from px86-look, or is known of the guide's append. The tests are those of
look/tests; each case has a server of its own, as there is one search at a time.
"""

from __future__ import annotations

import functools
import os
import re
import shutil
import sys
from collections.abc import Callable, Iterator
from typing import Any

from tests.harness import TOP, Case, Checks, Done, Px86, absent, run, unlike

sys.dont_write_bytecode = True
sys.path += [f"{TOP}/look/tests", f"{TOP}/look"]

import answers
import exports
import refusals
from support import NOT_STARTED, Program, Server, started

NEEDS_PROGRAM = True
# How many checks of the page there are at least; and of the examples each so many-th is asked about, and walked on. (look/test-page walks
# on all.)
OF_PAGE, EACH = 1100, 4
AT_LEAST = {"": 1969, "the page ": OF_PAGE}
Test = Callable[[Any, Server, Program, str], None]


class Found:
    """What the tests find: a name, and what is wrong there."""

    def __init__(self) -> None:
        self.checks: list[tuple[str, str]] = []

    def holds(self, name: str, held: bool, told: object = "") -> None:
        self.checks.append((name, "" if held else f"it does not hold: {str(told)[:600]}"))

    def equal(self, name: str, found: object, wanted: object) -> None:
        self.checks.append((name, "" if found == wanted else f"{str(found)[:600]}, not {str(wanted)[:600]}"))


def asked(px86: Px86, test: Test) -> Checks:
    """What a test finds of a server of its own, also where it breaks off."""
    found = Found()
    with started(px86.path, refusals.STORE) as server:
        try:
            test(found, server, Program(px86.path), px86.folder)
        finally:
            yield from found.checks


def of_folder(folder: str, found: Any, server: Server, px86: Program, _: str) -> None:
    """What is asked of the examples of a folder, each so many-th of all."""
    for example in list(answers.examples())[::EACH]:
        if os.path.dirname(example.name) == folder:
            answers.test_example(found, server, px86, example)


def has_selenium(python: str) -> bool:
    return os.access(python, os.X_OK) and not run([python, "-c", "import selenium"]).status


def of_page(px86: Px86) -> Done | None:
    """What look/test-page says; nothing where its browser is absent, or does not start."""
    python = next((it for it in (sys.executable, "/usr/bin/python3") if has_selenium(it)), "")
    if not python or not all(map(shutil.which, ("chromium", "chromedriver"))):
        return None
    done = run([python, f"{TOP}/look/test-page", px86.path, "--each", str(EACH)], most=7200)
    return None if done.status == NOT_STARTED else done


def page(px86: Px86) -> Checks:
    """The page in Chromium."""
    done = of_page(px86)
    if done is None:
        yield from absent("Chromium", range(OF_PAGE))
        return
    ended = re.search(r"^(\d+) passed, (\d+) failed\n\Z", done.out, re.M)
    yield "look/test-page ends as it should", "" if ended else f"{done.out[-600:]}{done.err[-600:]}"
    if ended:
        failed = re.split(r"^FAILED: ", done.out[: ended.start()], flags=re.M)[1:]
        yield from (("", "") for _ in range(int(ended[1])))
        yield from (it.partition("\n")[::2] for it in failed)
        yield "those that failed are told", unlike(len(failed), int(ended[2]))


# The tests by the names of their cases. Those of look/test-mutants have a word of these.
TESTS: dict[str, Test] = {
    "requests that are refused": lambda found, server, px86, _: refusals.test_requests(found, server, px86.path),
    "words of the command line": lambda found, server, px86, _: refusals.test_words(found, px86.path),
    "the guide's append": lambda found, server, px86, _: answers.test_append(found, server, px86),
    "faults of texts and conditions": lambda found, server, px86, _: answers.test_faults(found, server),
    "files and the program": lambda found, server, px86, _: answers.test_files(found, server, px86),
    "what a search finds": lambda found, server, px86, _: answers.test_search(found, server, px86),
    "how runs are explained": lambda found, server, px86, _: answers.test_explained(found, server, px86),
    "runs without reasons": lambda found, server, px86, folder: answers.test_reasons(found, px86.path, folder),
    "a search that is stopped": lambda found, server, px86, _: answers.test_stop(found, server),
    "texts at the edge": lambda found, server, px86, _: answers.test_edges(found, server, px86),
    "what an export has": lambda found, server, px86, folder: exports.test_exports(found, px86, folder),
}


def cases() -> Iterator[Case]:
    """All cases."""
    yield Case("the page in Chromium", page)
    yield from (Case(f"examples/{folder}", asked, functools.partial(of_folder, folder)) for folder in answers.FOLDERS)
    yield from (Case(name, asked, test) for name, test in TESTS.items())
