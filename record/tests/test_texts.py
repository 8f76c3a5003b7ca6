"""What is asked of a text, and which texts are sheets. Run by tests/recording. What px86 takes as an item stands in docs/FORMATS.md."""

from __future__ import annotations

import os
import sys
import unittest
from types import SimpleNamespace
from typing import Any

sys.dont_write_bytecode = True
sys.path.insert(0, os.path.dirname(os.path.dirname(os.path.abspath(__file__))))

from px86_crash.items import is_question
from px86_crash.recording import ACKNOWLEDGED, Kind, Operation
from px86_crash.text import Names, Text

PLACES: Any = SimpleNamespace(of=lambda place: place)
NAMES = {"w0", "w40", "tail", "and"}


def text_of(*words: int, initial: dict[int, int] | None = None, contents: dict[int, list[dict[int, int]]] | None = None) -> Text:
    """The text of stores of 1 to these words."""
    operations = [Operation(Kind.STORE, 0, "a.c:1", word, 1) for word in words]
    return Text(operations, [0], {}, initial or {}, Names({0x40: "tail"}), contents=contents, head="recorded: pool")


def lines_of(text: Text) -> list[str]:
    return text.litmus(PLACES).splitlines()


class Texts(unittest.TestCase):
    def test_one_of_which_nothing_is_asked(self) -> None:
        lines = ["litmus 1", "# recorded: pool", "line w0   # offset 0x0", "line tail   # offset 0x40", "init tail 7"]
        lines += ["cpu", "mov [w0], 1   # a.c:1", "mov [tail], 1   # a.c:1", "end"]
        self.assertEqual(lines_of(text_of(0x0, 0x40, initial={0x0: 0, 0x40: 7})), lines)

    def test_a_condition(self) -> None:
        text = text_of(0x0, 0x40)
        self.assertEqual(text.ask("persisted tail = 0 or persisted w0 = 1"), "asked")
        self.assertEqual(lines_of(text)[0], "sheet 1")
        self.assertEqual(lines_of(text)[-2:], ["end", "every crash asked: persisted tail = 0 or persisted w0 = 1"])

    def test_a_condition_that_is_none(self) -> None:
        """px86 is asked what is wrong with it, of a litmus text: a sheet's conditions have more forms."""
        for condition in "persisted tail = 0 -> persisted w0 = 1", "persisted w80 = 0", "persisted w0 =":
            text = text_of(0x0, 0x8, initial={0x0: 1, 0x8: 2})
            self.assertEqual(text.ask(condition), condition)
            self.assertEqual(lines_of(text)[:5], ["litmus 1", "# recorded: pool", "line w0 w8   # offset 0x0", "init w0 1", "init w8 2"])
            self.assertEqual(lines_of(text)[-1], "end")

    def test_a_run_that_does_nothing(self) -> None:
        text = Text([], [], {}, {}, Names(), asked=frozenset([0x0]), head="recorded: pool")
        self.assertEqual(text.ask("persisted w0 = 0"), "persisted w0 = 0")
        self.assertEqual(lines_of(text), ["litmus 1", "# recorded: pool", "line w0   # offset 0x0"])

    def test_memories_that_no_crash_is_to_leave(self) -> None:
        text = text_of(0x0, 0x40)
        self.assertEqual(text.ask_for_none([{0x0: 0, 0x40: 1}, {0x40: 7}]), "asked")
        items = ["let left1 = persisted w0 = 0 and persisted tail = 1", "let left2 = persisted tail = 7"]
        self.assertEqual(lines_of(text)[-4:], ["end", *items, "every crash asked: not left1 and not left2"])

    def test_a_memory_that_was_refused(self) -> None:
        text = text_of(0x0, ACKNOWLEDGED, 0x40)
        text.ask_for([3, 0, 1])
        self.assertEqual(lines_of(text)[0], "sheet 1")
        self.assertEqual(lines_of(text)[-1], "some crash refused: persisted ack = 3 and persisted w0 = 0 and persisted tail = 1")

    def test_changes_that_are_counted(self) -> None:
        """`l0` has no value of the region: so no condition asks for it, and a memory is one of counts."""
        text = text_of(0x0, contents={0x0: [{0x0: 0, 0x8: 0}, {0x0: 5, 0x8: 0}]})
        self.assertEqual(text.ask("persisted l0 = 1"), "persisted l0 = 1")
        text = text_of(0x0, contents={0x0: [{0x0: 0, 0x8: 0}, {0x0: 5, 0x8: 0}]})
        text.ask_for([1])
        self.assertEqual(lines_of(text)[-1], "some crash refused: persisted l0 = 1")

    def test_a_memory_with_too_many_words(self) -> None:
        """`every crash asked :` are four tokens, a test is four, and between two of these is one: so 204 words are 1,023 tokens."""
        for count, is_asked in (204, True), (205, False):
            words = [8 * number for number in range(count)]
            text = text_of(*words)
            text.ask_for([1] * count)
            self.assertEqual(lines_of(text)[0], "sheet 1" if is_asked else "litmus 1")
            self.assertEqual(len(text.items), is_asked)
            self.assertEqual(text_of(*words).ask_for_none([dict.fromkeys(words, 1)]) == "asked", is_asked)

    def test_lists_of_values(self) -> None:
        """From the first word of a line that is not 0 to the last; and of a line that has one such word nothing more."""
        words = [0x0, 0x8, 0x10, 0x20, 0x28, 0x40, 0x48]
        lists = text_of(*words, initial={0x8: 5, 0x20: 1 << 63, 0x48: 2})
        self.assertEqual(lines_of(lists)[:3], ["sheet 1", "# recorded: pool", "line w0 w8 w10 w20 w28   # offset 0x0"])
        self.assertEqual(lines_of(lists)[4:7], ["init w8 5 0 9223372036854775808", "init w48 2", "cpu"])
        alone = text_of(*words, initial={0x8: 5, 0x48: 2})
        self.assertEqual((lines_of(alone)[0], lines_of(alone)[4:7]), ("litmus 1", ["init w8 5", "init w48 2", "cpu"]))


class Questions(unittest.TestCase):
    def test_conditions(self) -> None:
        for condition in (
            "persisted w0 = 0",
            "(persisted w0 = 0)",
            "not(persisted w0 <= 1)",
            "not not persisted w0 != 0x1F and ((persisted tail < -1 or not persisted w40 >= 0)) or persisted w0 > 18446744073709551615",
            "\tpersisted and = 0\r",
            " and ".join(["persisted w0 = 0"] * 204),
            "not " * 64 + "persisted w0 = 0",
            "not " * 64 + "persisted w0 = 0 and " + "(" * 64 + "persisted w0 = 0" + ")" * 64,
        ):
            self.assertTrue(is_question(condition, NAMES), condition)

    def test_what_is_none(self) -> None:
        for condition in (
            "",
            "()",
            "not",
            "persisted w0",
            "persisted w0 = 0 and",
            "persisted w0 = 0 0",
            "persisted w0 = 0 persisted w0 = 0",
            "persisted w0 = 0)",
            "(persisted w0 = 0",
            "persisted w0 == 0",
            "persisted w0=0",
            "persisted w8 = 0",
            "persisted w0 = w40",
            "persisted w0 = 18446744073709551616",
            "persisted w0 = -9223372036854775809",
            "persisted w0 = 0x",
            "persisted w0 = +1",
            "persisted w0 = 1_0",
            "coherent w0 = 0",
            "reg 0 rax = 0",
            "persisted [w0] = 0",
            "persisted w0 + persisted w40 = 0",
            "persisted w0 = 0 -> persisted w0 = 0",
            "persisted w0 = 0 # and persisted w0 = 0",
            "persisted w0 = 0\nor persisted w0 = 1",
            "persisted w0\v= 0",
            " and ".join(["persisted w0 = 0"] * 205),
            "not " * 65 + "persisted w0 = 0",
            "(" * 65 + "persisted w0 = 0" + ")" * 65,
        ):
            self.assertFalse(is_question(condition, NAMES), condition)


if __name__ == "__main__":
    unittest.main()
