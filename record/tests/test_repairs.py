"""Where flushes and fences are put into a recording, and how a repair is looked for. Run by tests/recording. What px86 and the checker
would say is written here."""

from __future__ import annotations

import os
import sys
import unittest
from collections.abc import Sequence
from types import SimpleNamespace
from typing import Any

sys.dont_write_bytecode = True
sys.path.insert(0, os.path.dirname(os.path.dirname(os.path.abspath(__file__))))

from px86_crash.faults import Failed
from px86_crash.recording import ACKNOWLEDGED, LINE, NOWHERE, Kind, Operation, Recording
from px86_crash.repairs import Memory, Put, PutIn, Repairs, is_synced, on_words, say_repair, stretch
from px86_crash.report import Report
from px86_crash.text import Names

# A place is the line of the source, and behind a dot the instruction.
PLACES: Any = SimpleNamespace(of=lambda place: f"a.c:{place.partition('.')[0]}", fields=SimpleNamespace(of=lambda word: None))


def store(word: int, value: int, place: str, thread: int = 0, kind: Kind = Kind.STORE) -> Operation:
    return Operation(kind, thread, place, word, value, kind.value)


def flush(word: int, place: str, thread: int = 0, note: str = "") -> Operation:
    return Operation(Kind.OPTIMIZED_FLUSH, thread, place, word, name="clwb", note=note)


def fence(place: str, thread: int = 0) -> Operation:
    return Operation(Kind.STORE_FENCE, thread, place, name="sfence")


def recording_of(operations: Sequence[Operation]) -> Recording:
    """A recording of these operations, of words that are 0 before."""
    made = Recording.__new__(Recording)
    made.operations = made.with_locks = list(operations)
    made.threads = sorted({operation.thread for operation in operations})
    made.before, made.name, made.grain, made.ignored = bytes(4096), "pool", LINE, []
    return made


def told(operations: Sequence[Operation]) -> list[str]:
    return [f"{done.name} {done.word:x}" if done.word != NOWHERE else done.name for done in operations]


class PuttingIn(unittest.TestCase):
    def put(self, operations: Sequence[Operation], *puts: tuple[str, int], by_msync: bool = False) -> list[str]:
        wanted = [Put(instruction, operations[place]) for instruction, place in puts]
        made = PutIn(wanted, PLACES, by_msync).into(recording_of(operations))
        self.assertEqual(told(made.operations), told(made.with_locks))
        return told(made.operations)

    def test_behind_all_that_a_line_of_the_source_does(self) -> None:
        # The second instruction of the line stores to another line of the cache.
        operations = [store(0x0, 1, "1.1"), store(0x40, 1, "1.2"), store(0x80, 1, "2")]
        self.assertEqual(self.put(operations, ("clwb", 0)), ["mov 0", "mov 40", "clwb 0", "clwb 40", "mov 80"])
        self.assertEqual(self.put(operations, ("sfence", 0)), ["mov 0", "mov 40", "sfence", "mov 80"])

    def test_each_time(self) -> None:
        operations = [store(0x0, 1, "1"), fence("2"), store(0x40, 1, "1"), fence("2")]
        self.assertEqual(self.put(operations, ("clwb", 0)), ["mov 0", "clwb 0", "sfence", "mov 40", "clwb 40", "sfence"])

    def test_two_in_their_order(self) -> None:
        operations = [store(0x8, 1, "1"), store(0x40, 1, "2")]
        self.assertEqual(self.put(operations, ("clflush", 0), ("mfence", 0)), ["mov 8", "clflush 0", "mfence", "mov 40"])
        self.assertEqual(self.put(operations, ("clwb", 0), ("sfence", 1)), ["mov 8", "clwb 0", "mov 40", "sfence"])

    def test_of_each_thread(self) -> None:
        operations = [store(0x0, 1, "1", 0), store(0x40, 1, "1", 1), store(0x80, 1, "1", 0), store(0xC0, 1, "2", 1)]
        made = PutIn([Put("clwb", operations[0])], PLACES, False).into(recording_of(operations))
        self.assertEqual(told(made.operations), ["mov 0", "mov 40", "clwb 40", "mov 80", "clwb 0", "clwb 80", "mov c0"])
        self.assertEqual([done.thread for done in made.operations], [0, 1, 1, 0, 0, 0, 1])

    def test_an_acknowledgement_is_not_flushed(self) -> None:
        self.assertEqual(self.put([store(0x0, 1, "1"), store(ACKNOWLEDGED, 1, "1")], ("clwb", 0)), ["mov 0", "mov -40", "clwb 0"])

    def test_by_msync(self) -> None:
        self.assertEqual(self.put([store(0x0, 1, "1")], ("clwb", 0), ("sfence", 0), by_msync=True)[:3], ["mov 0", "clflush 0", "mfence"])
        synced = [store(0x0, 1, "1"), flush(0x0, "2", note="msync"), flush(ACKNOWLEDGED, "3")]
        self.assertTrue(is_synced(recording_of(synced)))
        self.assertFalse(is_synced(recording_of([*synced, flush(0x0, "4")])))
        self.assertFalse(is_synced(recording_of(synced[:1])))


class Texts(unittest.TestCase):
    def test_from_a_fence_to_a_fence(self) -> None:
        kept = [store(0x0, 1, "3"), store(0x40, 1, "4"), store(0x80, 1, "6")]
        operations = [store(0x0, 2, "1"), fence("2"), *kept[:2], fence("5"), kept[2], fence("7"), store(0x0, 3, "8")]
        self.assertEqual(stretch(operations, kept, {0x40, 0x80}), (2, 7))
        self.assertEqual(stretch(operations, kept[:2], {0x40, 0x80}), (2, 5))
        self.assertEqual(stretch(operations, kept, {0xC0}), (0, 0))

    def test_what_is_not_of_these_words_leaves_its_order(self) -> None:
        operations = [store(0x0, 1, "1"), flush(0x40, "2"), store(0x40, 1, "3", kind=Kind.LOCKED), flush(0x0, "4"), fence("5")]
        self.assertEqual(told(on_words(recording_of(operations), operations, {0x0})), ["mov 0", "mfence", "clwb 0", "sfence"])

    def test_what_tells(self) -> None:
        pending = [store(0x0, 1, "1"), store(0x8, 1, "2"), store(0x40, 1, "3"), store(0x80, 1, "4")]
        memory = Memory({0x0: 0, 0x8: 1, 0x40: 1, 0x80: 0}, pending)
        self.assertEqual(memory.telling(), {0x0: 0, 0x80: 0, 0x40: 1})
        # A word that is stored again later has its first value.
        again = Memory({0x0: 1, 0x40: 1}, [store(0x0, 1, "1"), store(0x0, 2, "2"), store(0x40, 1, "3")])
        self.assertEqual(again.telling(), {0x0: 1, 0x40: 1})


class Looking(unittest.TestCase):
    """A record is stored and flushed, and then a tail, without a fence between."""

    def setUp(self) -> None:
        self.operations = [store(0x0, 1, "1"), flush(0x0, "2"), store(0x40, 1, "3"), flush(0x40, "4"), fence("5")]
        self.bad = Memory({0x0: 0, 0x40: 1}, self.operations)
        # The items of each text of which px86 mend is asked, and what is recorded with what it puts in.
        self.asked: list[tuple[list[str], list[str]]] = []
        self.items: list[str] = []

    def look(self, mends: Sequence[list[tuple[str, int]]], said: Sequence[Memory | None | Failed], condition: str = "") -> Report:
        """Looks for a repair: what px86 mend says, and then which memory the checker refuses, one after another."""
        mend, verdicts = iter(mends), iter(said)

        def asks(recording: Recording, repairs: Repairs) -> Memory | None:
            self.asked[-1][1].extend(told(recording.operations))
            verdict = next(verdicts)
            if isinstance(verdict, Failed):
                raise verdict
            return verdict

        def mend_by_px86(file: str, condition: str, states: int, seconds: float) -> list[tuple[str, int]]:
            self.assertEqual(condition, "asked")
            self.asked.append((self.items, []))
            return next(mend)

        case: Any = SimpleNamespace(
            recording=recording_of(self.operations),
            places=PLACES,
            names=Names(),
            write=lambda name, text: self.text_is(text),
            px86=SimpleNamespace(mend=mend_by_px86),
        )
        report, repairs = Report(is_quiet=True), Repairs(case, 60, asks, condition, {0x0, 0x40} if condition else ())
        found = repairs.look(self.bad)
        if found is not None:
            say_repair(report, case, found, repairs.by_msync, bool(condition))
        return report

    def text_is(self, text: str) -> str:
        lines = [line.partition("#")[0].strip() for line in text.splitlines()]
        self.assertEqual(lines[:5], ["sheet 1", "", "line w0", "line w40", "cpu"])
        self.assertEqual(lines[5:11], ["mov [w0], 1", "clwb [w0]", "mov [w40], 1", "clwb [w40]", "sfence", "end"])
        self.items = lines[11:]
        return "mend.litmus"

    def test_what_is_accepted(self) -> None:
        report = self.look([[("sfence", 7)]], [None])
        accepted = "  repair: an sfence behind a.c:2: with it the checker accepts all that a crash may leave of this run"
        self.assertEqual(report.lines, [accepted])
        self.assertEqual(self.asked[0][0], ["let left1 = persisted w0 = 0 and persisted w40 = 1", "every crash asked: not left1"])
        self.assertEqual(self.asked[0][1], ["mov 0", "clwb 0", "sfence", "mov 40", "clwb 40", "sfence"])
        self.assertEqual(
            report.facts["repair"],
            {"put": [{"instruction": "sfence", "word": None, "behind": "a.c:2"}], "accepted": True, "text": "mend.litmus"},
        )

    def test_two_behind_one_line(self) -> None:
        report = self.look([[("clwb", 6), ("sfence", 6)]], [None])
        self.assertIn("  repair: a clwb of w0 and an sfence behind a.c:1: with it", report.lines[0])

    def test_another_memory_is_excluded_too(self) -> None:
        # No store leaves w40 = 7: so it is excluded by what is put in then.
        other = Memory({0x0: 1, 0x40: 7}, self.operations)
        report = self.look([[("sfence", 7)], [("clwb", 6), ("sfence", 6)]], [other, None])
        self.assertIn("a clwb of w0 and an sfence behind a.c:1: with it the checker accepts", report.lines[0])
        first, second = "let left1 = persisted w0 = 0 and persisted w40 = 1", "let left2 = persisted w40 = 7 and persisted w0 = 1"
        self.assertEqual(self.asked[1][0], [first, second, "every crash asked: not left1 and not left2"])

    def test_another_memory_is_not(self) -> None:
        report = self.look([[("sfence", 7)], []], [Memory({0x0: 2, 0x40: 1}, [])])
        self.assertIn("with it no crash leaves this memory, but another one is not accepted", report.lines[0])
        self.assertIs(report.facts["repair"]["accepted"], False)

    def test_what_does_not_help_is_not_told(self) -> None:
        self.assertEqual(self.look([[("sfence", 6)]], []).lines, [])
        self.assertEqual(self.asked[0][1], [])

    def test_when_the_time_is_over(self) -> None:
        report = self.look([[("sfence", 7)]], [Failed("the time is over")])
        self.assertEqual(report.lines, ["  repair: an sfence behind a.c:2: with it no crash leaves this memory"])
        self.assertIsNone(report.facts["repair"]["accepted"])

    def test_none(self) -> None:
        self.assertEqual(self.look([[]], []).lines, [])

    def test_a_condition(self) -> None:
        report = self.look([[("sfence", 7)]], [None], "persisted w40 = 0 or persisted w0 = 1")
        self.assertEqual(self.asked[0][0], ["every crash asked: persisted w40 = 0 or persisted w0 = 1"])
        self.assertIn("with it the condition holds in all that a crash may leave of this run", report.lines[0])
        self.assertEqual(self.look([[("sfence", 7)]], [Memory({}, ())], "persisted w0 = 1").lines, [])


if __name__ == "__main__":
    unittest.main()
