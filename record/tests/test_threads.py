"""Orders of threads, and what a crash may leave of several threads. Run by tests/recording."""

from __future__ import annotations

import os
import random
import sys
import unittest
from collections.abc import Sequence

sys.dont_write_bytecode = True
sys.path.insert(0, os.path.dirname(os.path.dirname(os.path.abspath(__file__))))

from px86_crash.recording import Kind, Operation
from px86_crash.schedules import Level, Order, Search, Turn, behind, spread, words_of_turns
from px86_crash.threads import late_runs, with_flushes_of, without_repeated_flushes

LINES = (0, 64, 128)
KINDS = (Kind.STORE, Kind.STORE, Kind.LOCKED, Kind.FLUSH, Kind.OPTIMIZED_FLUSH, Kind.OPTIMIZED_FLUSH, Kind.STORE_FENCE, Kind.FULL_FENCE)
# What a thread does that flushes and fences while it waits for another one.
WAITING = (Kind.STORE, Kind.STORE, *3 * [Kind.OPTIMIZED_FLUSH], *3 * [Kind.STORE_FENCE], Kind.FLUSH, Kind.ELSEWHERE)


def draw(generator: random.Random, kinds: Sequence[Kind] = KINDS) -> list[Operation]:
    """Operations of two threads, each store with a value of its own."""
    drawn = []
    for number in range(generator.randint(2, 9)):
        kind, thread = generator.choice(kinds), generator.randrange(2)
        if kind in (Kind.STORE_FENCE, Kind.FULL_FENCE, Kind.ELSEWHERE):
            drawn.append(Operation(kind, thread, ""))
        else:
            drawn.append(Operation(kind, thread, "", generator.choice(LINES), number + 1))
    return drawn


def draw_loop(generator: random.Random) -> list[Operation]:
    """Two turns of a thread that flushes two lines and fences, and what both do besides."""
    lines, drawn = generator.sample(LINES, 2), list[Operation]()

    def draw_other() -> None:
        kind, thread = generator.choice([*4 * [Kind.STORE], Kind.OPTIMIZED_FLUSH, Kind.STORE_FENCE]), generator.choice([0, 1, 1, 1])
        if kind is Kind.STORE_FENCE:
            drawn.append(Operation(kind, thread, ""))
        else:
            drawn.append(Operation(kind, thread, "", generator.choice(LINES), len(drawn) + 1))

    for _ in range(generator.randint(0, 2)):
        draw_other()
    for line in (*lines, None, *lines, None):
        if generator.random() < 0.15:
            draw_other()
        fence = Operation(Kind.STORE_FENCE, 0, "")
        drawn.append(fence if line is None else Operation(Kind.OPTIMIZED_FLUSH, 0, "", line))
    for _ in range(generator.randint(0, 3)):
        draw_other()
    return drawn


def images(pending: list[Operation]) -> set[tuple[int, ...]]:
    """What a crash may leave: some first markers are gone, with all stores of their lines before them; of each line some first
    stores have persisted, and none that stands behind the next marker."""
    markers = [place for place, operation in enumerate(pending) if operation.flushes]
    found: set[tuple[int, ...]] = set()
    for gone in range(len(markers) + 1):
        end = markers[gone] if gone < len(markers) else len(pending)
        choices = []
        for word in LINES:
            of_line = [place for place, it in enumerate(pending) if it.stores and it.word == word]
            least = [place for place in of_line if any(place < m and pending[m].word == word for m in markers[:gone])]
            may = [place for place in of_line if place < end]
            values = [0, *(pending[place].value for place in may)]
            choices.append(values[len(least) :])
        found |= {(first, second, third) for first in choices[0] for second in choices[1] for third in choices[2]}
    return found


def all_images(operations: list[Operation]) -> set[tuple[int, ...]]:
    found: set[tuple[int, ...]] = set()
    for run in late_runs(operations, [0, 1]):
        found |= images(run.pending)
    return found


class Choices(unittest.TestCase):
    def test_repeated_flushes_add_nothing(self) -> None:
        generator = random.Random(1)
        dropped = 0
        for _ in range(3000):
            operations = draw(generator)
            fewer = without_repeated_flushes(operations)
            dropped += len(fewer) < len(operations)
            self.assertEqual(all_images(fewer), all_images(operations))
        self.assertGreater(dropped, 200)

    def test_flushes_of_loops_add_nothing(self) -> None:
        generator = random.Random(3)
        dropped = 0
        for _ in range(3000):
            operations = draw(generator, WAITING)
            fewer = without_repeated_flushes(operations)
            dropped += len(fewer) < len(operations)
            self.assertEqual(all_images(fewer), all_images(operations))
        self.assertGreater(dropped, 1000)

    def test_flushes_of_loops_over_two_lines_add_nothing(self) -> None:
        """A thread flushes two lines and fences, twice; between these, before and behind them both do something."""
        generator = random.Random(4)
        dropped = 0
        for _ in range(2000):
            operations = draw_loop(generator)
            fewer = without_repeated_flushes(operations)
            dropped += len(fewer) < len(operations)
            self.assertEqual(all_images(fewer), all_images(operations))
        self.assertGreater(dropped, 1500)

    def test_a_loop_of_flushes_is_one_turn(self) -> None:
        fence, store = Operation(Kind.STORE_FENCE, 1, ""), Operation(Kind.STORE, 0, "", 64, 1)
        for lines in ([64], [64, 128], [128, 64, 0]):
            turn = [*(Operation(Kind.OPTIMIZED_FLUSH, 1, "", line, 0) for line in lines), fence]
            for loop in (100 * turn, [*50 * turn, Operation(Kind.STORE, 0, "", 0, 1), *50 * turn]):
                # The last flush of the line takes effect before the store to it, or behind it.
                self.assertEqual(len(late_runs(without_repeated_flushes([*loop, store]), [0, 1])), 2)

    def test_a_flush_that_a_fence_has_done_is_kept(self) -> None:
        """What is stored behind a fence is stored behind the flush before it, whether the line is flushed again or not."""
        store, flush, fence, again = first = [
            Operation(Kind.STORE, 0, "", 0, 1),
            Operation(Kind.OPTIMIZED_FLUSH, 0, "", 0),
            Operation(Kind.STORE_FENCE, 0, ""),
            Operation(Kind.OPTIMIZED_FLUSH, 0, "", 0),
        ]
        last = Operation(Kind.STORE, 0, "", 64, 2)
        self.assertEqual(without_repeated_flushes([*first, last]), [*first, last])
        self.assertEqual(all_images([*first, last]), {(0, 0, 0), (1, 0, 0), (1, 2, 0)})
        # With a fence behind it too the first one adds nothing.
        fenced = [store, flush, fence, again, fence, last]
        self.assertEqual(without_repeated_flushes(fenced), [store, fence, again, fence, last])
        self.assertEqual(all_images(fenced), {(0, 0, 0), (1, 0, 0), (1, 2, 0)})

    def test_choices_of_some_lines(self) -> None:
        generator = random.Random(2)
        more = 0
        for _ in range(3000):
            operations = draw(generator)
            lines = {line // 64 for line in LINES if generator.randrange(2)}
            places = [place for place, line in enumerate(LINES) if line // 64 in lines]
            whole, some = all_images(operations), all_images(with_flushes_of(operations, lines))
            self.assertLessEqual(whole, some)
            more += whole != some
            self.assertEqual({tuple(it[place] for place in places) for it in whole}, {tuple(it[place] for place in places) for it in some})
        self.assertGreater(more, 50)


def turns_of(program: list[int], changes: dict[int, int]) -> tuple[list[Turn], list[int]]:
    """The turns of threads that have so many points each, and the order in which these are passed."""
    left, last = list(program), -1
    turns: list[Turn] = []
    passed: list[int] = []
    while any(left):
        able = tuple(number for number, points in enumerate(left) if points)
        can_go_on = last >= 0 and left[last] > 0
        by_itself = last if can_go_on else next((it for it in able if it > last), able[0])
        chosen = by_itself
        if len(able) > 1:
            chosen = changes.get(len(turns), by_itself)
            turns.append(Turn("here" if can_go_on else "free", chosen, by_itself, able))
        left[chosen] -= 1
        passed.append(chosen)
        last = chosen
    return turns, passed


LOOP = [("lock", "elsewhere"), ("store", "here"), ("flush", "here"), ("fence", "here"), ("unlock", "elsewhere"), ("count", "here")]


def program_with_lock() -> list[tuple[str, str]]:
    rare = [*LOOP[:5], ("rare", "here"), *LOOP[5:]]
    return [point for number in range(14) for point in (rare if number in (2, 8) else LOOP)]


def turns_with_lock(changes: dict[int, int]) -> tuple[list[Turn], tuple[str, ...]]:
    """The turns of two threads that take a lock, and what they do in the file."""
    programs = [program_with_lock(), program_with_lock()]
    place, last, owner = [0, 0], -1, -1
    turns: list[Turn] = []
    done: list[str] = []
    waits = [False, False]
    while True:
        able = tuple(n for n in (0, 1) if place[n] < len(programs[n]) and not (waits[n] and owner != -1))
        if not able:
            return turns, tuple(done)
        can_go_on = last in able
        by_itself = last if can_go_on else next((n for n in able if n > last), able[0])
        chosen = by_itself
        if len(able) > 1:
            chosen = changes.get(len(turns), by_itself)
            name, where = programs[by_itself][place[by_itself]] if can_go_on else ("", "free")
            turns.append(Turn(where, chosen, by_itself, able, name))
        last = chosen
        name, where = programs[chosen][place[chosen]]
        if name == "lock" and owner not in (-1, chosen):
            waits[chosen] = True
            continue
        waits[chosen] = False
        owner = chosen if name == "lock" else -1 if name == "unlock" else owner
        done += [f"{chosen} {name}"] if where == "here" else []
        place[chosen] += 1


def switches(passed: list[int], program: list[int]) -> int:
    """How often another thread comes where the one before could go on."""
    left, found = list(program), 0
    for here, there in zip(passed, passed[1:]):
        left[here] -= 1
        found += here != there and left[here] > 0
    return found


class Orders(unittest.TestCase):
    def test_each_order_once(self) -> None:
        """Of two threads of three points, and of three of two, each order of few forced switches is made, and each once."""
        for program in ([3, 3], [2, 2, 2]):
            search, seen = Search(10000, 1), []
            for order in search:
                if order.level is Level.RANDOM:
                    break
                turns, passed = turns_of(program, dict(order.changes))
                search.note(order, turns)
                seen.append((order.level, tuple(passed)))
            every: set[tuple[int, ...]] = {()}
            for _ in range(sum(program)):
                every = {(*it, n) for it in every for n in range(len(program)) if it.count(n) < program[n]}
            wanted = {it: switches(list(it), program) for it in every}
            levels = {Level.NONE: 0, Level.ONE: 1, Level.TWO: 2}
            self.assertEqual(len(seen), len({passed for _, passed in seen}))
            self.assertEqual({passed: levels[level] for level, passed in seen}, {it: n for it, n in wanted.items() if n <= 2})
            self.assertEqual(search.unlike, 0)

    def test_few_recordings(self) -> None:
        search, count = Search(7, 1), 0
        for order in search:
            turns, _ = turns_of([9, 9], dict(order.changes))
            search.note(order, turns)
            count += 1
        self.assertEqual((count, search.left), (7, 0))

    def test_kinds_of_switches(self) -> None:
        """Two threads take a lock 14 times each. In the third turn and the ninth something is done behind the unlock that is done nowhere
        else. Where another thread waits for the lock the recording is that of the order without the switch, as it has its turn too
        late. So of 16 orders most would be the same if they were spread over the run; but some stop a thread at that place."""
        search, seen, stopped_at = Search(16, 1), set[tuple[str, ...]](), set[str]()
        search.add_by_chance()
        alike = 0
        for order in search:
            turns, done = turns_with_lock(dict(order.changes))
            search.note(order, turns)
            search.note_made(order, done not in seen)
            alike += done in seen
            seen.add(done)
            stopped_at |= {turns[number].place for number, _ in order.changes}
        self.assertEqual(search.unlike, 0)
        self.assertLessEqual(alike, 24)
        self.assertGreaterEqual(len(seen), 11)
        self.assertIn("rare", stopped_at)

    def test_where_another_thread_begins_to_go_on(self) -> None:
        """A thread stores 200 times, each time at another place; from one of these on another thread does something. That is found
        exactly: switches that are vain stand before it, and others behind it. (At the very end it may be missed.)"""
        for begin in (3, 77, 150, 180):
            points = [(f"p{number}", "here") for number in range(200)]
            search, seen, last = Search(16, 1), set[tuple[int, ...]](), -1
            search.add_by_chance()
            for order in search:
                turn = order.changes[-1][0] if order.changes else 200
                turns = [Turn(where, 2 if number == turn else 1, 1, (1, 2), place) for number, (place, where) in enumerate(points)]
                # What the other thread does is seen at the place where it comes in, if that is not before it can.
                done = (turn,) if begin <= turn < 200 else ()
                search.note(order, turns[: turn + 1] if order.changes else turns)
                search.note_made(order, done not in seen)
                seen.add(done)
                last = turn if turn == begin else last
            self.assertEqual(last, begin)

    def test_recordings_that_are_all_alike(self) -> None:
        """Then there are no more of them than that."""
        search, count = Search(16, 1), 0
        search.add_by_chance()
        for order in search:
            turns, _ = turns_with_lock(dict(order.changes))
            search.note(order, turns)
            search.note_made(order, False)
            count += 1
        self.assertEqual(count, 24)

    def test_what_is_not_the_same(self) -> None:
        search = Search(10, 1)
        turns, _ = turns_of([2, 2], {})
        order = next(behind(Order(Level.NONE), turns))
        search.note(order, turns)
        self.assertEqual(search.unlike, 0)
        last = list(behind(Order(Level.NONE), turns))[-1]
        search.note(last, [Turn("free", 1, 0, (0, 1)), *turns[1:]])
        self.assertEqual(search.unlike, 1)

    def test_words(self) -> None:
        turns, _ = turns_of([3, 3], {0: 1, 2: 0})
        self.assertEqual(words_of_turns(turns), "0:1 2:0")

    def test_spread(self) -> None:
        self.assertEqual([8 * spread(number) for number in range(8)], [0, 4, 2, 6, 1, 5, 3, 7])


if __name__ == "__main__":
    unittest.main()
