"""The cuts of a state, against a list of all of them. Run by tests/recording: python3 -m unittest discover -s record/tests."""

from __future__ import annotations

import itertools
import os
import random
import sys
import time
import unittest
from types import SimpleNamespace
from typing import Any

sys.dont_write_bytecode = True
sys.path.insert(0, os.path.dirname(os.path.dirname(os.path.abspath(__file__))))

from px86_crash.checker import Verdict, steady
from px86_crash.explore import NotDeterministic, refuse_other_reads
from px86_crash.memories import Part, candidates, flushed, parts_of, plain, shown, windows_of
from px86_crash.one_thread import without_idle_flushes
from px86_crash.recording import ACKNOWLEDGED, Kind, Operation, Recording, Region, Repeated, noted_never_flushed, without_same
from px86_crash.states import Cuts, History, State

WORDS = (0, 8, 64, 128, ACKNOWLEDGED)


def history_of_zeros() -> History:
    nothing: Any = SimpleNamespace(first_value=lambda word: 0)
    return History(nothing)


def draw_pending(generator: random.Random) -> list[Operation]:
    pending = []
    for _ in range(generator.randint(1, 7)):
        if generator.randrange(3):
            pending.append(Operation(Kind.STORE, 0, "", generator.choice(WORDS), generator.randrange(3)))
        else:
            pending.append(Operation(Kind.FLUSH, 0, "", generator.choice((0, 64, 128)), name="clflush"))
    return pending


def all_cuts(pending: list[Operation]) -> list[tuple[dict[int, int], int]]:
    """Each memory that may be left, with how many stores it has lost: straight from what a marker and a line are."""
    stores = [place for place, operation in enumerate(pending) if operation.stores]
    found = []
    for taken in itertools.product((False, True), repeat=len(pending)):
        if all(is_allowed(pending, taken, place) for place in range(len(pending)) if taken[place]):
            memory = dict.fromkeys((pending[place].word for place in stores), 0)
            memory.update((pending[place].word, pending[place].value) for place in stores if taken[place])
            found.append((memory, sum(not taken[place] for place in stores)))
    return found


def is_allowed(pending: list[Operation], taken: tuple[bool, ...], place: int) -> bool:
    """A store goes behind those of its line and all markers before it; a marker behind those of its line and the markers before it."""
    before = [earlier for earlier in range(place) if not pending[earlier].stores or pending[earlier].line == pending[place].line]
    return all(taken[earlier] for earlier in before)


def draw_program(generator: random.Random) -> list[Operation]:
    """Of one thread, each store of another value."""
    kinds = (*4 * [Kind.STORE], *2 * [Kind.FLUSH], *2 * [Kind.OPTIMIZED_FLUSH], Kind.STORE_FENCE, Kind.LOCKED)
    drawn = ((generator.choice(kinds), generator.choice(WORDS)) for _ in range(generator.randint(1, 9)))
    return [Operation(kind, 0, "", word, value, kind.value) for value, (kind, word) in enumerate(drawn, 1)]


def memories_on(persisted: dict[int, int], pending: list[Operation]) -> set[tuple[tuple[int, int], ...]]:
    """Each memory that may be left of a pending list, where these words have persisted."""
    found = set()
    for taken in itertools.product((False, True), repeat=len(pending)):
        if all(is_allowed(pending, taken, place) for place in range(len(pending)) if taken[place]):
            memory = {**persisted, **{it.word: it.value for it, is_taken in zip(pending, taken) if is_taken and it.stores}}
            found.add(tuple(sorted(memory.items())))
    return found


def memories_of_parts(persisted: dict[int, int], parts: list[Part]) -> set[tuple[tuple[int, int], ...]]:
    found, before = set(), dict(persisted)
    for part in parts:
        found |= memories_on(before, part.pending)
        before.update((store.word, store.value) for store in part.persisted)
    return found


class CutsTest(unittest.TestCase):
    def test_values_given_others(self) -> None:
        """Of random pending lists the words are read in random order, each with a random one of its values."""
        for number in range(1500):
            generator = random.Random(number)
            pending = draw_pending(generator)
            state = State(0, pending, history_of_zeros())
            if not any(operation.stores for operation in pending):
                continue
            cuts, left = Cuts(state), all_cuts(pending)
            words = [word for word in dict.fromkeys(operation.word for operation in pending if operation.stores) if word >= 0]
            generator.shuffle(words)
            for word in words:
                self.assertEqual(cuts.lost(), min(lost for _, lost in left), number)
                wanted = {memory[word] for memory, _ in left}
                self.assertEqual(set(cuts.values(word)), wanted, number)
                for value in wanted:
                    self.assertEqual(cuts.lost_with(word, value), min(lost for memory, lost in left if memory[word] == value), number)
                value = generator.choice(sorted(wanted))
                cuts.take(word, value)
                left = [(memory, lost) for memory, lost in left if memory[word] == value]
            memories = [memory for memory, _ in left]
            self.assertIn(cuts.memory(), [memory for memory, lost in left if lost == cuts.lost()], number)
            for again in range(3):
                self.assertIn(cuts.random_memory(random.Random(again)), memories, number)

    def test_the_last_markers_add_no_memory(self) -> None:
        for number in range(500):
            pending = draw_pending(random.Random(number))
            stores = [operation.word for operation in pending if operation.stores]
            with_all = {tuple(sorted(memory.items())) for memory, _ in all_cuts(pending)}
            without = {tuple(sorted(memory.items())) for memory, _ in all_cuts(shown(pending))}
            self.assertEqual(with_all if stores else set(), without if stores else set(), number)

    def test_idle_flushes_add_no_memory(self) -> None:
        """A clflush of a line that is not stored behind the clflush before it; each other one is kept."""
        fewer = 0
        for number in range(500):
            pending = draw_pending(random.Random(number))
            left = without_idle_flushes(pending)
            with_all = {tuple(sorted(memory.items())) for memory, _ in all_cuts(pending)}
            self.assertEqual(with_all, {tuple(sorted(memory.items())) for memory, _ in all_cuts(left)}, number)
            self.assertLessEqual(candidates(left), candidates(pending), number)
            fewer += candidates(left) < candidates(pending)
            for place, operation in enumerate(pending):
                line = [earlier for earlier in pending[:place] if earlier.line == operation.line]
                is_idle = not operation.stores and (not line or not line[-1].stores)
                self.assertEqual(operation in left, not is_idle, number)
        self.assertGreater(fewer, 100)

    def test_the_parts_of_a_window(self) -> None:
        """Of random programs: the parts of a window have no flush pending, and leave just what the window leaves."""
        parted = 0
        for number in range(600):
            generator = random.Random(number)
            persisted = dict.fromkeys(WORDS, 0)
            for window in windows_of(draw_program(generator)):
                wanted = memories_on(persisted, plain(window.operations))
                parts = list(parts_of(window))
                parted += len(parts) - 1
                self.assertEqual(memories_of_parts(persisted, parts), wanted, number)
                self.assertEqual([operation for part in parts for operation in (*part.operations, *part.behind)], window.operations)
                for part, following in zip(parts, parts[1:]):
                    self.assertTrue(following.is_new, number)
                    self.assertEqual(following.pending[: following.carried], [it for it in part.pending if it not in part.persisted])
                self.assertEqual({id(store) for part in parts for store in part.persisted}, set(map(id, flushed(window.operations))))
                persisted.update((store.word, store.value) for part in parts for store in part.persisted)
        self.assertGreater(parted, 50)

    def test_a_large_window(self) -> None:
        """A copy of 160 kB, beside flushes of another line, is gone through once: once for each store it would take a minute."""
        stores = [Operation(Kind.STORE, 0, "", 64 + 8 * number, 1) for number in range(20000)]
        flush = Operation(Kind.FLUSH, 0, "", 0, name="clflush")
        begun = time.process_time()
        for operations in (stores, [operation for store in stores for operation in (store, flush)]):
            (window,) = windows_of(operations)
            (part,) = parts_of(window)
            self.assertEqual((len(part.pending), part.is_new, part.persisted), (20000, True, []))
        self.assertLess(time.process_time() - begun, 10)

    def test_flushes_in_a_row_make_no_more_candidates(self) -> None:
        """Three lines are stored and flushed, and a fourth is stored: in one memory the first three, in the other the fourth."""
        stores = [Operation(Kind.STORE, 0, "", 64 * line, 1) for line in range(4)]
        flushes = [Operation(Kind.FLUSH, 0, "", 64 * line, name="clflush") for line in range(3)]
        window = next(windows_of([*stores[:3], *flushes, stores[3]]))
        self.assertEqual([candidates(part.pending) for part in parts_of(window)], [8, 2])
        self.assertEqual(candidates(shown(window.operations)), 8 + 4 + 2 + 2)

    def test_what_was_acknowledged(self) -> None:
        """Nothing orders it, so only the greatest number counts."""
        pending = [Operation(Kind.STORE, 0, "", ACKNOWLEDGED, 1), Operation(Kind.STORE, 0, "", ACKNOWLEDGED, 2)]
        self.assertEqual(Cuts(State(0, pending, history_of_zeros())).values(ACKNOWLEDGED), [2])


class RecordingTest(unittest.TestCase):
    def test_stores_that_change_nothing(self) -> None:
        def store(word: int, value: int, kind: Kind = Kind.STORE) -> Operation:
            return Operation(kind, 0, "", word, value)

        first = {0: 7, 8: 0}
        stored = [store(0, 7), store(8, 1), store(8, 1, Kind.LOCKED), store(0, 1), store(8, 0), store(0, 1)]
        left = without_same(stored, first.__getitem__)
        wanted = [Kind.ELSEWHERE, Kind.STORE, Kind.FULL_FENCE, Kind.STORE, Kind.STORE, Kind.ELSEWHERE]
        self.assertEqual([operation.kind for operation in left], wanted)

    def test_never_flushed(self) -> None:
        flush = Operation(Kind.OPTIMIZED_FLUSH, 0, "", 64)
        stores = [Operation(Kind.STORE, 0, "", word, 1) for word in (64, 0, 72)]
        noted = noted_never_flushed([stores[0], stores[1], flush, stores[2]])
        self.assertEqual([operation.note for operation in noted], ["", "never flushed", "", "never flushed"])

    def test_repetitions(self) -> None:
        event = ["store", "0", "0x1"]
        up = Repeated(event, 8, b"ab")
        self.assertTrue(up.takes(event, 10, b"cd"))
        self.assertFalse(up.takes(event, 6, b"no"))
        self.assertFalse(up.takes(["store", "1", "0x1"], 12, b"no"))
        self.assertEqual((up.begin, up.data, up.goes_down), (8, b"abcd", False))
        down = Repeated(event, 8, b"cd")
        self.assertTrue(down.takes(event, 6, b"ab"))
        self.assertFalse(down.takes(event, 10, b"no"))
        self.assertEqual((down.begin, down.data, down.goes_down), (6, b"abcd", True))

    def test_differences(self) -> None:
        """Of what was not stored the first word that is another one is found, wherever it stands."""
        for number in range(60):
            generator = random.Random(number)
            size = generator.choice((64, 4096, 4104, 3 * 4096, (1 << 20) + 2 * 4096))
            before = generator.randbytes(size)
            region, after = Region(before), bytearray(before)
            for _ in range(generator.randrange(4)):
                word, data = 8 * generator.randrange(size // 8), generator.randbytes(8)
                region.store(word, data)
                after[word : word + 8] = data
            self.assertIsNone(region.first_difference(bytes(after)), number)
            others = {8 * generator.randrange(size // 8) for _ in range(generator.randint(1, 3))}
            for word in others:
                after[word] ^= 1
            self.assertEqual(region.first_difference(bytes(after)), min(others), number)

    def test_ignored(self) -> None:
        recording = Recording.__new__(Recording)
        recording.ignored = [(8, 24)]
        self.assertEqual([recording.is_ignored(word) for word in (0, 8, 16, 24)], [False, True, True, False])


class CheckerTest(unittest.TestCase):
    def said_of(self, *kinds: str) -> str:
        left = [Verdict(kind, kind) for kind in kinds]
        said = steady(lambda: left.pop(0))
        self.assertEqual(left, [])
        return said.kind

    def test_what_is_not_good_is_asked_twice(self) -> None:
        self.assertEqual(self.said_of("good"), "good")
        self.assertEqual(self.said_of("bad", "bad"), "bad")
        self.assertEqual(self.said_of("bad", "good"), "unsteady")
        self.assertEqual(self.said_of("strange", "bad"), "unsteady")
        self.assertEqual(self.said_of("late", "late"), "late")
        self.assertEqual(self.said_of("late", "good"), "good")
        self.assertEqual(self.said_of("late", "bad", "bad"), "bad")
        self.assertEqual(self.said_of("late", "bad", "late"), "unsteady")

    def test_reads_that_differ(self) -> None:
        refuse_other_reads([8, 16], [8, 16])
        for before, now in (([8, 16], [8, 24]), ([8], [8, 16]), ([8, 16], [8])):
            with self.assertRaises(NotDeterministic):
                refuse_other_reads(before, now)


if __name__ == "__main__":
    unittest.main()
