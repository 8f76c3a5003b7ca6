"""What a crash of a recovery leaves, against a list of all such memories. Run by tests/recording, as test_states.py is."""

from __future__ import annotations

import itertools
import os
import random
import sys
import unittest
from types import SimpleNamespace
from typing import Any

sys.dont_write_bytecode = True
sys.path.insert(0, os.path.dirname(os.path.dirname(os.path.abspath(__file__))))
sys.path.insert(0, os.path.dirname(os.path.abspath(__file__)))

from test_states import all_cuts, draw_pending, history_of_zeros, is_allowed

from px86_crash.branches import Points, followed
from px86_crash.checker import Verdict
from px86_crash.explore import Explorer, Worker
from px86_crash.readers import Seen
from px86_crash.recording import ACKNOWLEDGED, Operation
from px86_crash.recoveries import CrashState, add_points
from px86_crash.report import Progress
from px86_crash.states import History, State
from px86_crash.text import Names

UNKNOWN = 1 << 62


def crashes(memory: dict[int, int], pending: list[Operation]) -> list[tuple[dict[int, int], int]]:
    """What a crash leaves of a memory when these operations of a recovery are pending, with how many stores are lost."""
    found = []
    stores = [place for place, operation in enumerate(pending) if operation.stores]
    for taken in itertools.product((False, True), repeat=len(pending)):
        if all(is_allowed(pending, taken, place) for place in range(len(pending)) if taken[place]):
            left = memory | {pending[place].word: pending[place].value for place in stores if taken[place]}
            found.append((left, sum(not taken[place] for place in stores)))
    return found


class Crash:
    """A random state of a run, of which a recovery has read some words; and a random state of that recovery."""

    def __init__(self, number: int) -> None:
        self.generator = generator = random.Random(number)
        of_run = draw_pending(generator)[:5]
        of_recovery = [operation for operation in draw_pending(generator)[:5] if operation.word != ACKNOWLEDGED]
        self.run_state = State(0, of_run, history_of_zeros())
        self.run = self.run_state.cuts()
        memories = [(memory, lost) for memory, lost in all_cuts(of_run)]
        for word in self.run_state.words:
            if generator.randrange(3) == 0:
                value = generator.choice(sorted({memory[word] for memory, _ in memories}))
                self.run.take(word, value)
                memories = [(memory, lost) for memory, lost in memories if memory[word] == value]
        read = dict(self.run.taken)
        self.unknown = frozenset(word for word in self.run_state.words if word not in read and len(self.run.values(word)) > 1)
        known = {word: memories[0][0].get(word, 0) for word in (0, 8, 64, 128)}
        history: Any = SimpleNamespace(first_value=lambda word: UNKNOWN if word in self.unknown else known[word])
        recording: Any = SimpleNamespace(unknown=self.unknown, unknown_value=UNKNOWN)
        self.state = CrashState(State(0, of_recovery, History(history)), self.run, recording)
        zeros = dict.fromkeys((0, 8, 64, 128), 0)
        self.left = [
            (left, lost + more) for memory, lost in memories for left, more in crashes(zeros | memory, of_recovery)
        ]


class RandomReader(Worker):
    def __init__(self, number: int) -> None:
        self.number = number

    def run(self, state: State, memory: dict[int, int]) -> Seen:
        words = list(state.words)
        random.Random(self.number).shuffle(words)
        return Seen(Verdict("good", ""), words[: 1 + sum(memory[word] for word in words[:1])], None, 0)


class CrashTest(unittest.TestCase):
    def test_values_of_both(self) -> None:
        several = 0
        for number in range(800):
            crash = Crash(number)
            cuts, left = crash.state.cuts(), crash.left
            words = crash.state.words
            crash.generator.shuffle(words)
            for word in words:
                wanted = {memory[word] for memory, _ in left}
                self.assertEqual(set(cuts.values(word)), wanted, number)
                self.assertEqual(cuts.lost(), min(lost for _, lost in left), number)
                for value in wanted:
                    self.assertEqual(cuts.lost_with(word, value), min(lost for memory, lost in left if memory[word] == value), number)
                value = crash.generator.choice(sorted(wanted))
                cuts.take(word, value)
                left = [(memory, lost) for memory, lost in left if memory[word] == value]
                several += len(getattr(cuts, "terms", ())) > 1
            for memory in (cuts.memory(), cuts.random_memory(crash.generator)):
                self.assertTrue(any(all(other[word] == memory[word] for word in words) for other, _ in left), number)
        self.assertGreater(several, 20)

    def test_points_of_both(self) -> None:
        """Each point is asked of the run or of the recovery, and the values are those that there are."""
        asked = 0
        for number in range(400):
            crash = Crash(number)
            explorer = Explorer([crash.state], [RandomReader(number)], Progress("", 0, False), stops=False)
            explorer.explore()
            of_run, of_recovery = Points(crash.run_state, Names()), Points(crash.state, Names())
            add_points(crash.state, explorer.found[0].leaves, of_run, of_recovery)
            memories = [memory for memory, _ in all_cuts(list(crash.run_state.pending))]
            for point, tried in of_run.tried.items():
                asked += 1
                there_are = {memory[point.word] for memory in memories if all(memory[word] == value for word, value in point.given)}
                self.assertEqual(there_are, tried, number)
            unknown = {word: UNKNOWN if word in crash.unknown else crash.state.history.value(word, 0) for word in (0, 8, 64, 128)}
            stored = [memory for memory, _ in crashes(unknown, list(crash.state.pending))]
            for point, tried in of_recovery.tried.items():
                asked += 1
                there_are = {memory[point.word] for memory in stored if all(memory[word] == value for word, value in point.given)}
                self.assertEqual(there_are, tried, number)
            for leaf, places in followed(explorer.found[0].leaves):
                for place, values in places.items():
                    given = list(zip(leaf.path.words, leaf.path.values))[:place]
                    agree = [memory for memory, _ in crash.left if all(memory[word] == value for word, value in given)]
                    left = {memory[leaf.path.words[place]] for memory in agree}
                    self.assertEqual(left, set(values), number)
        self.assertGreater(asked, 400)


if __name__ == "__main__":
    unittest.main()
