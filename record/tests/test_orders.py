"""Which recordings are taken as the same, of several orders of threads. Run by tests/recording, as test_states.py is."""

from __future__ import annotations

import contextlib
import io
import os
import sys
import unittest
from dataclasses import replace
from types import SimpleNamespace
from typing import Any
from unittest import mock

sys.dont_write_bytecode = True
sys.path.insert(0, os.path.dirname(os.path.dirname(os.path.abspath(__file__))))

from px86_crash.command import (
    BOUND_BY_DEFAULT,
    ONE_ORDER,
    First,
    Orders,
    Run,
    answer_by_default,
    answer_orders,
    key_of,
    say_all_orders,
)
from px86_crash.explore import Bound, Cut
from px86_crash.faults import Failed, Refused
from px86_crash.promises import Promises
from px86_crash.recording import Kind, Operation, hash_of
from px86_crash.report import LATER, Report
from px86_crash.schedules import ORDERS_BY_DEFAULT, Search, Turn
from px86_crash.stepper import NotPlayed, NotRecorded, is_input_there_again, place_of_input
from px86_crash.threads import TooManyWays


AT_ONCE = "where each store is visible before the next instruction of any thread"


def recorded(*operations: Operation, **more: Any) -> Any:
    """What a recording has of which the same is asked."""
    facts: dict[str, Any] = {"before": bytes(64), "promises": Promises(), "status": 0, "waiting": []}
    facts |= more
    return SimpleNamespace(operations=operations, with_locks=operations, first_hash=hash_of(facts["before"]), **facts)


class KeyTest(unittest.TestCase):
    def test_what_differs_is_asked_again(self) -> None:
        """A recording is passed over only if another one has the same operations, of the same memory."""
        store, flush = Operation(Kind.STORE, 0, "0x1", 8, 1), Operation(Kind.OPTIMIZED_FLUSH, 0, "0x2", 0)
        others: list[dict[str, Any]] = [{"kind": Kind.LOCKED}, {"thread": 1}, {"word": 16}, {"value": 2}]
        recordings = [
            recorded(store, flush),
            recorded(flush, store),
            recorded(store),
            *(recorded(replace(store, **other), flush) for other in others),
            recorded(replace(store, more=((16, 1),)), flush),
            recorded(store, replace(flush, kind=Kind.FLUSH)),
            recorded(store, flush, before=bytes(63) + b"x"),
            recorded(store, flush, promises=Promises([(0, 1), (1, 2)])),
            recorded(store, flush, promises=Promises([(0, 2), (1, 1)])),
            recorded(store, flush, status=1),
            recorded(store, flush, waiting=[("waits", 0, "0x3")]),
        ]
        self.assertEqual(len({key_of(recording, False) for recording in recordings}), len(recordings))

    def test_what_is_the_same(self) -> None:
        """Where a store stands in the source says nothing of what a crash may leave."""
        stores = [Operation(Kind.STORE, 0, place, 8, 1) for place in ("0x1", "0x2")]
        self.assertEqual(*(key_of(recorded(store), False) for store in stores))

    def test_locks_count_for_a_condition(self) -> None:
        """A condition is asked of delays, which locks elsewhere bound."""
        store, lock = Operation(Kind.STORE, 0, "0x1", 8, 1), Operation(Kind.FULL_FENCE, 0, "0x2", note="a locked operation")
        without, one = recorded(store), recorded(store)
        one.with_locks = (store, lock)
        self.assertEqual(key_of(without, False), key_of(one, False))
        self.assertNotEqual(key_of(without, True), key_of(one, True))


def reporting(run: Any, report: Report) -> Any:
    run.report = report
    return run


def accept(report: Report, note: str = "", **facts: Any) -> None:
    """Says YES of a run of two threads."""
    report.begin("end")
    report.found(**{"threads": 2, "delays": False, "recovery_threads": False, "has_check": True, "ignored": [], "unit": "", **facts})
    if note:
        report.say(note)
    report.say("YES: of this run")


class RefusedOrdersTest(unittest.TestCase):
    """Three orders of two turns, of which some are refused as flushes may wait in too many ways."""

    def status_of(self, *statuses: int | None) -> int:
        left = list(statuses)

        def ask(log: str, words: str, seen: set[bytes]) -> int:
            seen.add(bytes([len(left)]))
            status = left.pop(0)
            if status is None:
                raise TooManyWays("too many ways")
            accept(run.report)
            return status

        options: Any = SimpleNamespace(schedules=3, seed=1)
        run: Any = SimpleNamespace(record=lambda number, words: "log", ask_order=ask, report=Report(is_quiet=True))
        turn = Turn("here", 1, 1, (1, 2))
        with mock.patch("px86_crash.command.read_turns", lambda path: [turn, turn]):
            status = answer_orders(options, Report(is_quiet=True), lambda quiet, bound=None: reporting(run, quiet))
        self.assertEqual(left, [])
        return status

    def test_one_that_is_bad_behind_one_that_is_refused(self) -> None:
        self.assertEqual(self.status_of(0, 0, 0), 0)
        self.assertEqual(self.status_of(None, 1), 1)

    def test_no_yes_beside_one_that_is_refused(self) -> None:
        with self.assertRaises(Refused) as refused:
            self.status_of(None, 0, 0)
        said = "too many ways\nthat is so of 1 recording; what is asked holds in 2 other recordings\norders of threads that were recorded: "
        self.assertEqual(str(refused.exception), said + "the one with no forced switch, all 2 with one, 0 of 1 with two")


class DefaultTest(unittest.TestCase):
    """A program of which nothing says in which order its threads run: the order that chance gives, and then others."""

    def answer(self, threads: int, first: int | Exception, *others: Any, turns: int = 30) -> tuple[int, list[str]]:
        """The status, and what is said, where this is the answer of each order: a status, or what is raised."""
        left, report = list(others), Report(is_quiet=True)
        made: list[Any] = []
        bounds: list[Bound | None] = []

        def make_run(of: Report, bound: Any = None) -> Any:
            bounds.append(bound)
            made.append(SimpleNamespace(record=record, ask=ask, ask_order=ask_order, path=str, report=of))
            return made[-1]

        def record(number: int, words: str | None) -> str:
            fault = left[0] if left and words is not None else None
            if isinstance(fault, NotRecorded):
                left.pop(0)
                raise fault
            return "log"

        def ask(log: str, seen: set[bytes] | None = None) -> int:
            if seen is not None:
                seen.add(b"by chance")
            made[-1].report.say("recorded")
            if threads > 1:
                made[-1].report.say(ONE_ORDER)
            if isinstance(first, Exception):
                raise first
            if first:
                made[-1].report.say("NO: a bad one")
            else:
                accept(made[-1].report, delays=True)
            return first

        def ask_order(log: str, words: str, seen: set[bytes]) -> int:
            found = left.pop(0) if left else 0
            seen.add(f"{len(made)}".encode())
            if isinstance(found, Exception):
                raise found
            if found == 0:
                accept(made[-1].report, "note: of another order (2 times)", delays=self.delays.pop(0) if self.delays else True)
                return 0
            made[-1].report.say(f"{['', 'NO: a worse one', '', 'no answer: waiting'][found]}")
            if found == 3:
                made[-1].report.note(deadlock=False)
            return int(found)

        options: Any = SimpleNamespace(schedules=None, seed=None, out="out")
        turn = Turn("here", 1, 1, (1, 2))
        patched: dict[str, Any] = {"threads_of": lambda log: threads, "read_turns": lambda path: [turn] * turns}
        with mock.patch.multiple("px86_crash.command", **patched):
            with mock.patch("px86_crash.command.stepper.is_input_there_again", lambda: self.is_input_there_again):
                self.report = report
                status = answer_by_default(options, report, make_run)
        self.facts = report.facts
        self.assertEqual(bounds, [None, *([BOUND_BY_DEFAULT] * (len(bounds) - 1))])
        self.made = len(made)
        return status, report.lines

    def setUp(self) -> None:
        # Of each other order whether delays were asked.
        self.delays: list[bool] = []
        self.is_input_there_again = True

    def test_one_thread(self) -> None:
        self.assertEqual(self.answer(1, 0), (0, ["recorded", "YES: of this run"]))
        self.assertEqual(self.made, 1)

    def test_a_bad_first_one(self) -> None:
        self.assertEqual(self.answer(2, 1), (1, ["recorded", ONE_ORDER, "NO: a bad one"]))
        self.assertEqual(self.made, 1)

    def test_all_are_accepted(self) -> None:
        """The notes of all orders are said, and YES says what it says of each."""
        rows: list[tuple[list[bool], str]] = [([True, False], AT_ONCE), ([], f"by the checker, {AT_ONCE}; by the condition, {LATER}")]
        for delays, scope in rows:
            self.delays = list(delays)
            status, lines = self.answer(2, 0)
            self.assertEqual(self.made, 1 + ORDERS_BY_DEFAULT)
            covered = "the one by chance, the one with no forced switch, 15 of 30 with one"
            self.assertEqual((status, lines[:2]), (0, ["recorded", "note: of another order (2 times)"]))
            self.assertTrue(lines[2].startswith(f"orders of threads: {covered}"), lines)
            self.assertTrue(lines[2].endswith(f"; {1 + ORDERS_BY_DEFAULT} different recordings"), lines)
            yes = f"YES: every memory that a crash may leave of these orders is accepted (several threads: {scope})"
            self.assertEqual(lines[3:], [yes])

    def test_each_note_is_said_once(self) -> None:
        """On standard output too, where what was said is not kept."""
        first, other = Report(is_quiet=True), Report(is_quiet=True)
        accept(first, "note: of each (2 times)")
        accept(other, "note: of each (3 times)")
        other.say("note: of one alone")
        orders = Orders(Search(2, 1), {b"1", b"2"}, [first, other], 2)
        with contextlib.redirect_stdout(io.StringIO()) as said:
            say_all_orders(Report(), First(first), orders)
        lines = [line for line in said.getvalue().splitlines() if line.startswith("note: ")]
        self.assertEqual(lines, ["note: of each (2 times)", "note: of one alone"])

    def test_an_input_that_is_read_off(self) -> None:
        self.is_input_there_again = False
        self.assertEqual(self.answer(2, 0), (0, ["recorded", ONE_ORDER, "YES: of this run"]))
        self.assertEqual(self.made, 1)

    def test_another_one_is_bad(self) -> None:
        status, lines = self.answer(2, 0, 0, 0, 1)
        self.assertEqual((status, lines[0]), (1, "NO: a worse one"))
        after = "order: recorded after the one by chance, the one with no forced switch, 2 of 30 with one"
        self.assertTrue(lines[1].startswith(after), lines)

    def test_others_that_are_not_answered(self) -> None:
        """What is not recorded, waits in a loop, or is refused: YES speaks of the first one, and a note says so. A NO counts."""
        for fault, said in (
            (NotPlayed("x"), "note: 1 order could not be played"),
            (NotRecorded("it hangs"), "note: 1 recording in other orders could not be asked of: it hangs"),
            (3, "note: 1 recording in other orders could not be asked of: each thread waits in a loop"),
            (Refused("too much\nof it"), "note: 1 recording in other orders could not be asked of: too much"),
            (TooManyWays("too many"), "note: 1 recording in other orders could not be asked of: too many"),
            (Cut(), "note: of 1 recording in other orders some memories alone were asked, and are accepted (--schedules 16 asks of all)"),
        ):
            status, lines = self.answer(2, 0, 0, fault, 0)
            self.assertEqual((status, lines[:2], lines[-1]), (0, ["recorded", ONE_ORDER], "YES: of this run"))
            self.assertEqual(len(lines), 4)
            self.assertTrue(lines[2].startswith(said), lines)
            counts = [isinstance(fault, Cut), not isinstance(fault, (Cut, NotPlayed)), isinstance(fault, NotPlayed)]
            self.assertEqual(self.facts["other_orders"], dict(zip(("in_part", "refused", "not_played"), map(int, counts))))
            self.assertNotIn("orders", self.facts)
            # Behind one that hangs no other is recorded.
            is_last = isinstance(fault, NotRecorded) and not isinstance(fault, NotPlayed)
            self.assertEqual(self.answer(2, 0, 0, fault, 1)[0], 0 if is_last else 1)

    def test_a_first_one_that_is_refused(self) -> None:
        """The others are asked all the same. A NO of one counts; otherwise it is refused, and it is said which orders are accepted."""
        status, lines = self.answer(2, TooManyWays("too many"), 0, 1)
        self.assertEqual((status, lines[0], lines[-1]), (1, "NO: a worse one", "note: the order that chance gave is refused: too many"))
        for others, said in (
            ((), "that is so of 1 recording; what is asked holds in 16 other recordings"),
            ((0, Cut("x")), "that is so of 1 recording; what is asked holds in 15 other recordings, and in some memories of 1 more"),
            ((Refused("y"),), "that is so of 2 recordings; what is asked holds in 15 other recordings"),
        ):
            with self.assertRaises(Refused) as refused:
                self.answer(2, TooManyWays("too many\nof them"), *others)
            covered = "the one by chance, the one with no forced switch, 15 of 30 with one"
            wanted = ["too many", "of them", said, f"orders of threads that were recorded: {covered}"]
            self.assertEqual(str(refused.exception).split(", 0 of ")[0].splitlines(), wanted)
            self.assertEqual(self.report.lines, ["recorded"])
            counts = {"in_part": "some" in said, "refused": 1 + (len(others) == 1), "not_played": 0}
            self.assertEqual(self.report.facts["other_orders"], counts)

    def test_all_are_refused(self) -> None:
        with self.assertRaises(Refused) as refused:
            self.answer(2, Refused("no"), *(Refused("no") for _ in range(ORDERS_BY_DEFAULT)))
        self.assertTrue(str(refused.exception).startswith("no\nthat is so of each order that was recorded: the one by chance, "))

    def test_the_order_of_what_is_refused_is_said(self) -> None:
        """Of what is asked in part too: that is no fault of px86-crash itself."""
        for fault in (Cut(), Refused("x"), TooManyWays("x"), Failed("x")):
            run = Run.__new__(Run)
            with mock.patch.object(Run, "ask", side_effect=fault), self.assertRaises((Refused, Failed)) as raised:
                run.ask_order("log", "1:2", set())
            self.assertEqual(isinstance(raised.exception, Cut), isinstance(fault, Cut))
            self.assertEqual(str(raised.exception), f"{fault}\nin the order --schedule 1:2")

    def test_a_fault_of_another_one(self) -> None:
        with self.assertRaises(Failed):
            self.answer(2, 0, 0, Failed("the program ended by a signal"))

    def test_the_input_of_each_recording(self) -> None:
        """A pipe that has something, or may have, is read off by the first recording. Of a file the place is set back."""
        first, last = os.pipe()
        self.assertFalse(is_input_there_again(first))
        os.write(last, b"x")
        os.close(last)
        self.assertFalse(is_input_there_again(first))
        os.read(first, 1)
        self.assertTrue(is_input_there_again(first))
        self.assertIsNone(place_of_input(first))
        os.close(first)
        self.assertTrue(is_input_there_again(first))
        with open(__file__, "rb", buffering=0) as file:
            file.read(7)
            self.assertEqual((is_input_there_again(file.fileno()), place_of_input(file.fileno())), (True, 7))


if __name__ == "__main__":
    unittest.main()
