"""In which order the lost stores of a memory stand, what is said of names that are none, and what is read of px86's JSON. Run by
tests/recording. A script answers in place of px86."""

from __future__ import annotations

import contextlib
import io
import json
import os
import re
import shlex
import sys
import tempfile
import unittest
from types import SimpleNamespace
from typing import Any
from unittest import mock

sys.dont_write_bytecode = True
sys.path.insert(0, os.path.dirname(os.path.dirname(os.path.abspath(__file__))))

from px86_crash.checker import Verdict
from px86_crash.command import parser
from px86_crash.emulator import Left, Px86, fault_in
from px86_crash.faults import Failed
from px86_crash.questions import Acceptance, asked_words, meant_by_name
from px86_crash.recording import Kind, Operation
from px86_crash.report import Progress, Report, Shown, draw, say_image, stored_by
from px86_crash.text import Look, Names, Text

PLACES: Any = SimpleNamespace(of=lambda place: f"a.c:{place}", function=lambda place: None, fields=SimpleNamespace(of=lambda word: None))


def stored(word: int, value: int, place: int) -> Operation:
    return Operation(Kind.STORE, 0, str(place), word, value)


class Answers:
    """What px86 says of the image that is shown: nothing has persisted but what is kept."""

    path = "px86"

    def __init__(self, kept: set[int]) -> None:
        self.kept = kept

    def left(self, text: Text, look: int, values: Any) -> Left:
        return Left(self.kept, dict.fromkeys(text.words, 0))


class LostStores(unittest.TestCase):
    """Four words are stored; that of 0x80, which is stored last, is kept."""

    def setUp(self) -> None:
        operations = [stored(0x0, 1, 1), stored(0x8, 1, 2), stored(0x40, 1, 3), stored(0x80, 1, 4)]
        self.text = Text(operations, [0], {}, {}, Names(), [Look([], [], operations, 0)])

    def lost(self, **how: Any) -> list[tuple[str, bool, bool | None]]:
        """The names of the lost stores in order, whether they were read, and whether they matter."""
        report, px86 = Report(is_quiet=True), Answers({3})
        say_image(report, px86, PLACES, Shown(self.text, 0, [0, 0, 0, 1], "steps"), **how)  # type: ignore[arg-type]
        facts = [(store["name"], store["read"], store["matters"]) for store in report.facts["lost"]]
        said = [line.split()[1] for line in report.lines if line.startswith("  lost ")]
        self.assertEqual(said, [name for name, _, _ in facts])
        self.assertEqual([store["name"] for store in report.facts["kept"]], ["w80"])
        return facts

    def test_as_they_are_stored(self) -> None:
        self.assertEqual(self.lost(), [("w0", False, None), ("w8", False, None), ("w40", False, None)])

    def test_as_they_are_read(self) -> None:
        lost = self.lost(read=[0x80, 0x40, 0x0])
        self.assertEqual(lost, [("w40", True, None), ("w0", True, None), ("w8", False, None)])

    def test_as_a_condition_asks(self) -> None:
        lost = self.lost(asked=[0x80, 0x8])
        self.assertEqual(lost, [("w8", False, None), ("w0", False, None), ("w40", False, None)])

    def test_what_the_checker_would_accept_stands_first(self) -> None:
        lost = self.lost(read=[0x40, 0x0, 0x8], accepts=lambda store: store.word == 0x8)
        self.assertEqual(lost, [("w8", True, True), ("w40", True, False), ("w0", True, False)])

    def test_if_it_would_accept_none(self) -> None:
        lost = self.lost(read=[0x8], accepts=lambda store: False)
        self.assertEqual(lost, [("w8", True, False), ("w0", False, False), ("w40", False, False)])

    def test_after_a_checker_that_does_not_end_nothing_is_asked(self) -> None:
        kinds = {0x40: "bad", 0x0: "late", 0x8: "good"}
        accepts = Acceptance(lambda store: Verdict(kinds[store.word], ""))
        lost = self.lost(read=[0x40, 0x0, 0x8], accepts=accepts)
        self.assertEqual(lost, [("w40", True, False), ("w0", True, False), ("w8", True, False)])

    def test_of_one_lost_store_nothing_is_asked(self) -> None:
        self.text.looks[0].pending = [stored(0x40, 1, 3), stored(0x80, 1, 4)]
        report = Report(is_quiet=True)
        px86: Any = Answers({1})
        say_image(report, px86, PLACES, Shown(self.text, 0, [0, 0, 0, 1], "steps"), accepts=lambda store: self.fail("it is asked"))
        self.assertEqual([(store["name"], store["matters"]) for store in report.facts["lost"]], [("w40", None)])

    def test_as_many_are_asked_as_are_said(self) -> None:
        operations = [stored(8 * number, 1, number) for number in range(20)] + [stored(0x200, 1, 99)]
        self.text = Text(operations, [0], {}, {}, Names(), [Look([], [], operations, 0)])
        px86: Any = Answers({20})
        asked: list[int] = []

        def accepts(store: Operation) -> bool:
            asked.append(store.word)
            return False

        report = Report(is_quiet=True)
        shown = Shown(self.text, 0, [0] * 20 + [1], "steps")
        say_image(report, px86, PLACES, shown, read=[0x98, 0x90], accepts=accepts)
        self.assertEqual(asked, [0x98, 0x90, 0x0, 0x8, 0x10, 0x18, 0x20, 0x28])

    def test_a_count_of_changes_has_the_line_behind_it(self) -> None:
        self.text.contents = {0x0: [{0x0: 5, 0x8: 6}, {0x0: 1, 0x8: 6}, {0x0: 1, 0x8: 2}]}
        self.assertEqual(stored_by(stored(0x0, 2, 1), self.text), {0x0: 1, 0x8: 2})
        self.assertEqual(stored_by(stored(0x40, 7, 1), self.text), {0x40: 7})


class Lines(unittest.TestCase):
    """How far it is, where standard error is no terminal."""

    def told(self, by_lines: bool, seconds: float = 0.0) -> str:
        said = io.StringIO()
        with mock.patch.multiple(Progress, by_lines=by_lines, within="order 3 of 17", SECONDS_OF_LINES=seconds):
            with contextlib.redirect_stderr(said):
                progress = Progress("windows are done", 1200)
                progress.at(1000, "12 runs")
                progress.goes_on("5 bytes")
                progress.done()
        return re.sub("[0-9,]+ a second", "N a second", said.getvalue())

    def test_if_they_are_asked_for(self) -> None:
        lines = ["1,000 of 1,200 windows are done, 12 runs, N a second, order 3 of 17", "windows are done, 0 s, 5 bytes, order 3 of 17"]
        self.assertEqual(self.told(True).splitlines(), [f"px86-crash: {line}" for line in lines])
        self.assertEqual(self.told(False), "")

    def test_they_come_now_and_then(self) -> None:
        self.assertEqual(self.told(True, 60.0), "")


class Conditions(unittest.TestCase):
    def test_words_in_order(self) -> None:
        condition = "persisted w40 = 1 or not (persisted tail = 0 and persisted w40 = 2) or persisted w7 = 1 or persisted w1000 = 1"
        self.assertEqual(asked_words(condition, Names({0x8: "tail"}), 0x80), [0x40, 0x8])
        self.assertEqual(asked_words(None, Names(), 0x80), [])


class Hints(unittest.TestCase):
    """What may have been meant by a name or an option that is none."""

    def test_names(self) -> None:
        names = Names({0x8: "tail", 0x40: "record"})
        self.assertEqual(meant_by_name("tial", names), "\ndid you mean tail?")
        self.assertEqual(meant_by_name("nothing", names), "\na word is named by its offset, as w40, or by --names")
        self.assertEqual(meant_by_name("w44", names), "\na word begins at a multiple of 8: record")
        self.assertEqual(meant_by_name("w17", names), "\na word begins at a multiple of 8: w10")
        self.assertEqual(meant_by_name("w8000", names), "\nthe file has no word there")

    def test_options(self) -> None:
        for wrong, meant in ("--schedles", "did you mean --schedules?\n"), ("--recoverry=x", "did you mean --recovery?\n"), ("--wrong", ""):
            with self.assertRaises(Failed) as failed:
                parser().parse_args(["--log", "log", wrong])
            self.assertTrue(str(failed.exception).startswith(f"unrecognized arguments: {wrong}\n{meant}usage: "), failed.exception)


class Json(unittest.TestCase):
    """A script writes what px86 would."""

    def px86(self, written: Any, status: int = 0, said: str = "") -> Px86:
        folder = tempfile.TemporaryDirectory()
        self.addCleanup(folder.cleanup)
        path = os.path.join(folder.name, "px86")
        text = written if isinstance(written, str) else json.dumps(written)
        with open(path, "w", encoding="ascii") as file:
            file.write('#!/bin/sh\n[ "$2" = --json ] || exit 9\n')
            file.write(f"printf %s {shlex.quote(text)}\nprintf %s {shlex.quote(said)} >&2\nexit {status}\n")
        os.chmod(path, 0o755)
        return Px86(path)

    def test_images(self) -> None:
        self.assertEqual(self.px86({"set": [0, 2]}).least_set("file", "steps", [1, 2]), {0, 2})
        self.assertEqual(self.px86({"set": []}).least_set("file", "steps", [1]), set())
        self.assertIsNone(self.px86({"set": None}, 1).least_set("file", "steps", [1]))

    def test_faults(self) -> None:
        fault = json.dumps({"fault": {"name": "BadCond", "number": "E1", "place": "4", "sentence": "E1: a token."}})
        self.assertEqual(fault_in(fault), "E1 BadCond 4")
        explained = fault.replace('"sentence"', '"explanation": "--all | x y\\n      | ^\\nE1: a token.\\n", "sentence"')
        self.assertEqual(fault_in(explained), "E1 BadCond 4\n--all | x y\n      | ^\nE1: a token.")
        no_place = fault.replace('"4"', "null")
        self.assertEqual(fault_in(f"px86: 11 states were found and 7 explored\n{no_place}"), "E1 BadCond")
        for said in "", "X1 BadWord line 4", "[1]", '{"other": 1}':
            self.assertEqual(fault_in(said), said)
        with self.assertRaisesRegex(Failed, "status 2: E1 BadCond 4"):
            self.px86("", 2, fault).least_set("file", "steps", [1])

    def test_pictures(self) -> None:
        """A run of more steps than are drawn has no picture, and nothing is said of it. (Here none can be drawn.)"""
        px86: Any = SimpleNamespace(path="px86")
        for steps, most, said in (64, 64, 1), (65, 64, 0), (65, None, 1):
            report = Report(is_quiet=True)
            with tempfile.TemporaryDirectory() as folder, mock.patch("px86_crash.report.PICTURE", "/nowhere/picture"):
                path = os.path.join(folder, "steps")
                with open(path, "w", encoding="utf-8") as file:
                    file.write("exec 0\n" * steps)
                report.note(values=[1], text="text", steps=path)
                draw(report, px86, os.path.join(folder, "svg"), most)
            self.assertEqual(len(report.lines), said, report.lines)

    def test_what_is_no_json(self) -> None:
        with self.assertRaisesRegex(Failed, "no JSON"):
            self.px86("turns 0").report("run", "file")


if __name__ == "__main__":
    unittest.main()
