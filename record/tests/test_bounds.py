"""Runs that recordings share, and bounds of how much of one is asked, against a list of all cases in order. Run by tests/recording."""

from __future__ import annotations

import os
import random
import sys
import time
import unittest
from collections.abc import Sequence
from types import SimpleNamespace
from typing import Any

sys.dont_write_bytecode = True
sys.path.insert(0, os.path.dirname(os.path.dirname(os.path.abspath(__file__))))
sys.path.insert(0, os.path.dirname(os.path.abspath(__file__)))

from test_states import draw_pending, history_of_zeros

from px86_crash.checker import Verdict
from px86_crash.explore import Bound, Cut, Explorer, Known, Leaf, Worker
from px86_crash.faults import Failed
from px86_crash.promises import Promises
from px86_crash.readers import Seen
from px86_crash.recording import Kind, Operation
from px86_crash.report import Progress
from px86_crash.states import History, State


class RandomChecker(Worker):
    """Reads words at random, and then refuses one memory of `odds`; both depend on what was read. It keeps the memories that it saw."""

    def __init__(self, number: int, odds: int) -> None:
        self.number, self.odds = number, odds
        self.memories: list[bytes] = []

    def key_of(self, state: State, memory: dict[int, int]) -> bytes:
        return repr(sorted(memory.items())).encode()

    def run(self, state: State, memory: dict[int, int]) -> Seen:
        self.memories.append(self.key_of(state, memory))
        words = [word for word in sorted(memory) if word >= 0]
        reads: list[int] = []
        while True:
            generator = random.Random(f"{self.number} {[(word, memory[word]) for word in reads]}")
            left = [word for word in words if word not in reads]
            if not left or generator.randrange(5) == 0:
                kind = "bad" if generator.randrange(self.odds) == 0 else "good"
                return Seen(Verdict(kind, ""), reads, None, 0)
            reads.append(generator.choice(left))


def draw_states(number: int) -> list[State]:
    """States that differ in what is pending alone: the last of it is missing."""
    generator, history = random.Random(number), history_of_zeros()
    pending = draw_pending(generator)
    return [State(place, pending[: len(pending) - place], history) for place in range(generator.randint(1, 3))]


def explored(states: list[State], workers: Sequence[Worker], known: Known | None, stops: bool = True) -> Explorer:
    """Explores states. Whether it was cut stands in `is_cut`, and it says so."""
    explorer = Explorer(states, workers, Progress("", 0, False), stops=stops, known=known)
    try:
        explorer.explore()
        assert not explorer.is_cut
    except Cut:
        assert explorer.is_cut
    return explorer


def lost(memory: dict[int, int]) -> int:
    return sum(value == 0 for value in memory.values())


class SlowChecker(Worker):
    """Reads all, and is slow where one store is lost: so several workers come to what loses two before one that is alone would. That it
    does not accept, or the checker fails there."""

    def __init__(self, fails: bool) -> None:
        self.fails = fails

    def key_of(self, state: State, memory: dict[int, int]) -> bytes:
        return repr(sorted(memory.items())).encode()

    def run(self, state: State, memory: dict[int, int]) -> Seen:
        time.sleep(0.05 if lost(memory) == 1 else 0)
        if lost(memory) > 1 and self.fails:
            raise Failed("the checker ended with 127")
        return Seen(Verdict("bad" if lost(memory) > 1 else "good", ""), sorted(memory), None, 0)


def leaves_of(explorer: Explorer) -> list[Leaf]:
    return sorted((leaf for found in explorer.found.values() for leaf in found.leaves), key=lambda leaf: leaf.rank)


def counted(leaves: list[Leaf], bound: Bound, before: set[bytes]) -> tuple[list[Leaf], set[bytes]]:
    """The leaves that count, one after another in order, and their memories that are new."""
    counting: list[Leaf] = []
    new: set[bytes] = set()
    for leaf in leaves:
        if len(counting) == bound.cases or len(new) == bound.new:
            break
        counting.append(leaf)
        key = repr(sorted(leaf.cuts().memory().items())).encode()
        if key not in before:
            new.add(key)
    return counting, new


class BoundsTest(unittest.TestCase):
    def test_what_counts(self) -> None:
        """With one worker and with four, the first cases in order count: the first bad one of these, or that there are more."""
        cut = bad = 0
        for number in range(120):
            odds, states = random.Random(number).choice((4, 12, 1 << 30)), draw_states(number)
            leaves = leaves_of(explored(states, [RandomChecker(number, odds)], None, stops=False))
            for bound in (Bound(1 << 20, 1 << 20), Bound(1, 9), Bound(5, 1 << 20), Bound(1 << 20, 3), Bound(20, 8)):
                counting, new = counted(leaves, bound, set())
                first = next((leaf for leaf in counting if leaf.verdict.kind == "bad"), None)
                for workers in (1, 4):
                    known = Known(bound=bound)
                    explorer = explored(draw_states(number), [RandomChecker(number, odds) for _ in range(workers)], known)
                    found = explorer.bad
                    self.assertEqual(found and (found.rank, found.path), first and (first.rank, first.path), (number, bound, workers))
                    self.assertEqual(explorer.is_cut, first is None and len(counting) < len(leaves), (number, bound, workers))
                    if first is None:
                        self.assertEqual(known.counted, new, (number, bound, workers))
                cut += first is None and len(counting) < len(leaves)
                bad += first is not None
        self.assertGreater(min(cut, bad), 50)

    def test_runs_are_shared(self) -> None:
        """One run for each memory, in one recording and in the next. What was new before is not new again."""
        shared = 0
        for number in range(200):
            known, checker = Known(), RandomChecker(number, 1 << 30)
            first = explored(draw_states(number), [checker], known)
            self.assertEqual(len(checker.memories), len(set(checker.memories)))
            self.assertEqual(set(checker.memories), known.counted)
            again = RandomChecker(number, 1 << 30)
            second = explored(draw_states(number), [again], Known(known.seen, known.counted, Bound(1 << 20, 1)))
            self.assertEqual((again.memories, second.is_cut, second.runs), ([], False, first.runs))
            self.assertEqual([leaf.path for leaf in leaves_of(first)], [leaf.path for leaf in leaves_of(second)])
            shared += first.runs > len(checker.memories)
        self.assertGreater(shared, 20)

    def test_what_several_workers_come_to(self) -> None:
        """What one worker would not have come to counts as little: that it is not accepted, or fails, and which memories were asked."""
        for workers in 1, 4:
            for fails in False, True:
                state = State(0, [Operation(Kind.STORE, 0, "0x1", 64 * line, 1) for line in range(5)], history_of_zeros())
                known = Known(bound=Bound(1024, 6))
                explorer = explored([state], [SlowChecker(fails) for _ in range(workers)], known)
                self.assertEqual((explorer.bad, explorer.is_cut, len(known.counted)), (None, True, 6), (workers, fails))
            state = State(0, [Operation(Kind.STORE, 0, "0x1", 64 * line, 1) for line in range(5)], history_of_zeros())
            known = Known()
            found = explored([state], [SlowChecker(False) for _ in range(workers)], known).bad
            self.assertEqual((found is not None and lost(found.cuts().memory()), len(known.counted)), (2, 7), workers)
            with self.assertRaisesRegex(Failed, "127"):
                explored([state], [SlowChecker(True) for _ in range(workers)], Known())

    def test_no_states(self) -> None:
        """A part of a recording may have none."""
        for known in None, Known(), Known(bound=Bound(1, 1)):
            self.assertFalse(explored([], [RandomChecker(0, 2)], known).is_cut)

    def test_what_a_checker_can_tell_apart(self) -> None:
        def key(first: str = "a", command: str = "check {}", found: Any = (), word: int = 8, value: int = 1, told: int = 0) -> bytes:
            promises = Promises(found)
            recording: Any = SimpleNamespace(first_hash=first, promises=promises, first_value=lambda word: told)
            worker = Worker(SimpleNamespace(), SimpleNamespace(), command)  # type: ignore[arg-type]
            return worker.key_of(State(0, [], History(recording)), {word: value})

        of_threads = key(found=[(1, 1), (2, 1)])
        keys = [key(), key("b"), key(command="other {}"), key(word=16), key(value=2), key(told=1), of_threads]
        self.assertEqual(len(set(keys)), len(keys))
        self.assertEqual(key(), key())


if __name__ == "__main__":
    unittest.main()
