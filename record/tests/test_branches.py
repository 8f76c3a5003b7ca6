"""The points at which cases part, against a list of all memories. Run by tests/recording, as test_states.py is."""

from __future__ import annotations

import os
import random
import sys
import unittest
from collections.abc import Iterable, Iterator, Sequence
from dataclasses import replace
from typing import Any
from unittest import mock

sys.dont_write_bytecode = True
sys.path.insert(0, os.path.dirname(os.path.dirname(os.path.abspath(__file__))))
sys.path.insert(0, os.path.dirname(os.path.abspath(__file__)))

from test_states import all_cuts, draw_pending, history_of_zeros

from px86_crash.branches import Points, grouped, pending_of
from px86_crash.checker import Verdict
from px86_crash.conversation import MOST_LINES, Changes, Conversation, Entry, Numbered, steps_of, text_of_lines
from px86_crash.explore import Explorer, Worker
from px86_crash.faults import Failed
from px86_crash.readers import Seen
from px86_crash.recording import ACKNOWLEDGED, Kind, Operation
from px86_crash.report import Progress
from px86_crash.states import Cuts, State
from px86_crash.talk import Talk
from px86_crash.text import Names


class RandomChecker(Worker):
    """Reads words at random; what comes next depends on what was read."""

    def __init__(self, number: int) -> None:
        self.number = number

    def run(self, state: State, memory: dict[int, int]) -> Seen:
        reads = [ACKNOWLEDGED] if ACKNOWLEDGED in memory else []
        generator = random.Random(self.number)
        while True:
            left = [word for word in state.words if word not in reads]
            if not left or generator.randrange(5) == 0:
                return Seen(Verdict("good", ""), reads, None, 0)
            reads.append(generator.choice(left))
            generator = random.Random(f"{self.number} {[memory[word] for word in reads]}")


def with_rising_acknowledgements(pending: list[Operation]) -> list[Operation]:
    numbers = iter(sorted(operation.value for operation in pending if operation.word == ACKNOWLEDGED))
    return [replace(done, value=next(numbers)) if done.word == ACKNOWLEDGED else done for done in pending]


def points_of(number: int) -> tuple[Points, Explorer]:
    state = State(0, with_rising_acknowledgements(draw_pending(random.Random(number))), history_of_zeros())
    explorer = Explorer([state], [RandomChecker(number)], Progress("", 0, False), stops=False)
    explorer.explore()
    points = Points(state, Names())
    points.add_leaves(explorer.found[0].leaves)
    return points, explorer


def memories_of(pending: list[Operation], has_markers: bool) -> list[dict[int, int]]:
    """All memories; of what was acknowledged the greatest number alone, if nothing orders it."""
    memories = [memory for memory, _ in all_cuts(pending)]
    greatest = max((memory.get(ACKNOWLEDGED, 0) for memory in memories), default=0)
    return [memory for memory in memories if has_markers or memory.get(ACKNOWLEDGED, greatest) == greatest]


class BranchesTest(unittest.TestCase):
    def test_points_have_all_values(self) -> None:
        asked = 0
        for number in range(600):
            points, explorer = points_of(number)
            memories = memories_of(list(points.state.pending), points.binds)
            asked += len(points.tried)
            for point, tried in points.tried.items():
                there_are = {memory[point.word] for memory in memories if all(memory[word] == value for word, value in point.given)}
                self.assertEqual(there_are, tried, number)
                points.compare(point, sorted(there_are))
            for memory in memories:
                paths = [leaf.path for leaf in explorer.found[0].leaves]
                agree = [path for path in paths if all(memory[word] == value for word, value in zip(path.words, path.values))]
                self.assertEqual(len(agree), 1, number)
        self.assertGreater(asked, 600)

    def test_a_value_that_was_not_tried(self) -> None:
        def values(cuts: Cuts, word: int) -> list[int]:
            found = all_values(cuts, word)
            return found[:-1] if len(found) > 1 and word != ACKNOWLEDGED else found

        all_values = Cuts.values
        wrong = 0
        for number in range(200):
            with mock.patch.object(Cuts, "values", values):
                points, explorer = points_of(number)
            memories = memories_of(list(points.state.pending), points.binds)
            said: Any = None
            for point in points.tried:
                there_are = {memory[point.word] for memory in memories if all(memory[word] == value for word, value in point.given)}
                try:
                    points.compare(point, sorted(there_are))
                except Failed as failed:
                    said = str(failed)
                    self.assertIn(f"px86 has other values than were tried of {Names().of(point.word)}", said)
            runs = explorer.runs
            is_all = runs == points_of(number)[1].runs
            self.assertEqual(said is None, is_all, number)
            wrong += said is not None
        self.assertGreater(wrong, 50)

    def test_lists_by_numbers(self) -> None:
        """Of random pending lists: what a list of numbers leaves is what the list leaves, at each point of a search."""
        asked = 0
        for number in range(400):
            points, _ = points_of(number)
            pending = pending_of(points.state)
            numbered = Numbered(pending, lambda word: 0)
            self.assertTrue(numbered.can_be_asked())
            memories = [memory for memory, _ in all_cuts(operations_of(numbered.entries))]
            for point, tried in points.tried.items():
                if points.binds or point.word != ACKNOWLEDGED:
                    answer = answered(memories, numbered.question(point.word, point.given))
                    self.assertEqual(numbered.values(point.word, point.given, answer), sorted(tried), number)
                    asked += 1
        self.assertGreater(asked, 400)

    def test_the_steps_make_the_list_pending(self) -> None:
        """Random lists of numbers, one after another, by the processors of the text."""
        for number in range(24):
            generator = random.Random(number)
            count = (3, 20, 300, 900)[number % 4]
            entries = [drawn_entry(generator) for _ in range(count)]
            steps = [step for some in steps_of(entries) for step in some]
            self.assertEqual(Played(text_of_lines(), steps).pending, entries, number)

    def test_the_steps_from_one_list_to_the_next(self) -> None:
        """Lists of which the flushes stand elsewhere have the same filling; the steps of others are made anew from where they differ."""
        said: list[str] = []
        conversation, talk = Conversation("", {}), Talk.__new__(Talk)
        for name, instead in {"want": lambda form: None, "say": said.extend}.items():
            setattr(talk, name, instead)
        made: list[str] = []
        for number, entries in enumerate(lists_in_a_row()):
            said.clear()
            conversation.go_to(talk, *steps_of(entries))
            for line in said:
                if line.startswith("back "):
                    del made[len(made) - int(line[5:]) :]
                elif line != "go":
                    made.append(line)
            self.assertEqual(made, [step for some in steps_of(entries) for step in some], number)
            if number < 40 and number % 4:
                self.assertLessEqual(len(said), 2 * 12 + 2, number)

    def test_what_is_too_large_for_the_conversation(self) -> None:
        def can_be_asked(*pending: tuple[Kind, int, int]) -> bool:
            return Numbered([Operation(kind, 0, "", word, value) for kind, word, value in pending], lambda word: 0).can_be_asked()

        self.assertTrue(can_be_asked(*((Kind.STORE, 0, value) for value in range(256))))
        self.assertFalse(can_be_asked(*((Kind.STORE, 0, value) for value in range(257))))
        self.assertTrue(can_be_asked(*((Kind.STORE, 64 * line, 1) for line in range(63))))
        self.assertFalse(can_be_asked(*((Kind.STORE, 64 * line, 1) for line in range(64))))
        self.assertTrue(can_be_asked(*((Kind.STORE, 64 * (n % 4), 1) for n in range(896))))
        self.assertFalse(can_be_asked(*((Kind.STORE, 64 * (n % 4), 1) for n in range(897))))
        self.assertTrue(can_be_asked(*((Kind.FLUSH, 64 * (n % 60), 0) for n in range(256))))
        self.assertFalse(can_be_asked(*((Kind.FLUSH, 64 * (n % 60), 0) for n in range(257))))

    def test_the_changes_of_a_sector(self) -> None:
        """Two words in three changes, of which the second is of both."""
        stores = [
            Operation(Kind.STORE, 0, "", 8, 1, grain=512),
            Operation(Kind.STORE, 0, "", 8, 2, grain=512, more=((16, 1),)),
            Operation(Kind.STORE, 0, "", 8, 1, grain=512),
        ]
        changes = Changes(stores, lambda word: 0)
        self.assertEqual(changes.entries, (Entry(0, 1), Entry(0, 2), Entry(0, 3)))
        self.assertEqual(changes.values(16, [(8, 1)], [0, 1, 2, 3]), [0, 1])
        self.assertEqual(changes.values(16, [(8, 2)], [0, 1, 2, 3]), [1])
        self.assertEqual(changes.values(8, [], [0, 1]), [0, 1])

    def test_lines_in_groups(self) -> None:
        units: Any = {frozenset([0]): ["a"], frozenset([0, 1]): ["b"], frozenset([2]): ["c"], frozenset([2, 3]): ["d"]}
        found = list(grouped(units, lambda lines: len(lines) <= 2))
        self.assertEqual([sorted(lines) for lines, _ in found], [[0, 1], [2, 3]])
        self.assertEqual([[points for (points,) in some.values()] for _, some in found], [["a", "b"], ["c", "d"]])


def operations_of(entries: Sequence[Entry]) -> list[Operation]:
    """What is pending of a text, as operations."""
    return [Operation(Kind.FLUSH if number is None else Kind.STORE, 0, "", 8 * word, number or 0) for word, number in entries]


def answered(memories: Sequence[dict[int, int]], question: str) -> list[int]:
    """The values of a word in the memories in which others have theirs."""
    _, word, *given = question.split(" ")
    wanted = [(offset_of(name), int(number)) for name, number in (equation.split("=") for equation in given)]
    found = {memory[offset_of(word)] for memory in memories if all(memory[other] == number for other, number in wanted)}
    return sorted(found)


def offset_of(name: str) -> int:
    """Where the word of a name stands: the last digit is its place on its line, and the digits before that are its line's number."""
    return 64 * int(name[1:-1]) + 8 * int(name[-1])


def drawn_entry(generator: random.Random) -> Entry:
    word = generator.randrange(8 * MOST_LINES)
    return Entry(word, generator.randrange(40)) if generator.randrange(5) else Entry(word - word % 8, None)


def lists_in_a_row() -> list[list[Entry]]:
    """Four lists at a time of which only the flushes stand elsewhere; and then lists of the same first stores."""
    lists = []
    for number in range(40):
        generator = random.Random(number // 4)
        entries = [drawn_entry(generator) for _ in range(12)]
        flushes = [entry for entry in entries if entry.number is None]
        random.Random(number).shuffle(flushes)
        lists.append([entry if entry.number is not None else flushes.pop() for entry in entries])
    return lists + [[Entry(word, 1) for word in range(count)] for count in (5, 3, 5, 0, 4)]


class Played:
    """The processors of the text, as docs/MODEL.md has them: what is pending behind some steps."""

    def __init__(self, text: str, steps: Sequence[str]) -> None:
        lines = list(each_copy(line.split("#")[0].replace(",", " ").split() for line in text.splitlines()))
        words = [word for line in lines if line[:1] == ["line"] for word in line[1:]]
        self.address = {f"[{word}]": 0x1000 + 8 * (8 * row + place) for row, place, word in self.placed(lines)}
        self.memory = dict.fromkeys(self.address.values(), 0)
        self.programs: list[list[list[str]]] = []
        for line in lines:
            if line[:1] == ["init"]:
                self.memory[self.address[f"[{line[1]}]"]] = self.number(line[2])
            elif line[:1] == ["cpu"]:
                self.programs.append([])
            elif line and self.programs and line != ["end"] and line[0] != "next:":
                self.programs[-1].append(line)
        self.at, self.registers = [0] * len(self.programs), [dict[str, int]() for _ in self.programs]
        self.buffers: list[list[tuple[int, int | None]]] = [[] for _ in self.programs]
        self.waiting: list[tuple[int, int | None]] = []
        assert len(words) == 8 * MOST_LINES + 2 and len(self.programs) == 16
        for step in steps:
            self.step(*step.split(" "))

    @staticmethod
    def placed(lines: Sequence[Sequence[str]]) -> list[tuple[int, int, str]]:
        rows = [line[1:] for line in lines if line[:1] == ["line"]]
        return [(row, place, word) for row, words in enumerate(rows) for place, word in enumerate(words)]

    @property
    def pending(self) -> list[Entry]:
        return [Entry((address - 0x1000) // 8, value) for address, value in self.waiting]

    def coherent(self, address: int) -> int:
        values = [value for at, value in self.waiting if at == address and value is not None]
        return values[-1] if values else self.memory[address]

    def step(self, kind: str, *numbers: str) -> None:
        first, *others = map(int, numbers)
        if kind == "exec":
            self.execute(first)
        elif kind == "drain":
            # All but optimized flushes leave in their order.
            entry = self.buffers[first][others[0]]
            assert others[0] == 0 or entry[1] is None and all(value is None for _, value in self.buffers[first])
            self.waiting.append(self.buffers[first].pop(others[0]))
        else:
            assert kind == "persist" and not any(value is None for _, value in self.waiting)
            place = next(n for n, (address, _) in enumerate(self.waiting) if (address - 0x1000) // 64 == first)
            address, value = self.waiting.pop(place)
            self.memory[address] = value or 0

    def execute(self, processor: int) -> None:
        program, registers = self.programs[processor], self.registers[processor]
        name, *operands = program[self.at[processor]]
        self.at[processor] = 0 if name == "jmp" else self.at[processor] + 1
        if name == "lock":
            name, *operands = operands
        if name == "mov" and operands[0].startswith("["):
            self.buffers[processor].append((self.meant(registers, operands[0]), registers[operands[1]]))
        elif name == "mov":
            is_load = operands[1].startswith("[")
            registers[operands[0]] = self.coherent(self.meant(registers, operands[1])) if is_load else self.number(operands[1])
        elif name == "clflushopt":
            self.buffers[processor].append((self.meant(registers, operands[0]), None))
        elif name in ("xadd", "xchg"):
            assert not self.buffers[processor]
            address = self.meant(registers, operands[0])
            old, new = self.coherent(address), registers[operands[1]]
            self.waiting.append((address, old + new if name == "xadd" else new))
            registers[operands[1]] = old
        else:
            assert name == "jmp"
        assert len(self.buffers[processor]) <= 128

    def meant(self, registers: dict[str, int], operand: str) -> int:
        return registers[operand.strip("[]")] if operand not in self.address else self.address[operand]

    def number(self, token: str) -> int:
        """A number, or the address of a word."""
        return self.address[f"[{token[1:]}]"] if token.startswith("&") else int(token)


def each_copy(lines: Iterable[list[str]]) -> Iterator[list[str]]:
    """The lines of a litmus text that a sheet says, as docs/FORMATS.md has it: those of `line * N NAME$[K]` and of `cpu * N` N times."""
    block: list[list[str]] = []
    for line in lines:
        if line[:2] == ["line", "*"]:
            name, count = line[3].rstrip("]").split("[")
            for copy in range(int(line[2])):
                yield ["line", *(f"{name.replace('$', str(copy))}{place}" for place in range(int(count)))]
        elif line[:1] == ["cpu"] or block:
            block.append(line)
            if line == ["end"]:
                for _ in range(int(block[0][2]) if len(block[0]) > 1 else 1):
                    yield ["cpu"]
                    yield from block[1:]
                block = []
        else:
            yield line


if __name__ == "__main__":
    unittest.main()
