"""Runs a checker on as many memories as it tells apart: it is run once for all memories that agree on what it reads.

Of a state (states.py) the runs make a tree. A run begins with one memory of some cuts; whatever word it reads that may have other
values in these cuts makes a branch for each, and each branch is a task: a run on a memory with that value, and with those that were
read before it. A run ends as a leaf: the cuts that agree on all that it has read. So the leaves of a state are disjoint, and each of
its memories is of one of them. A checker that does the same wherever it reads the same says of all memories of a leaf what it says
of one.

Tasks are done by several workers. What is found does not depend on how many: the order of tasks, small states first, and in one
state those first that lose the fewest stores, is that of what they are. Of all that is bad the first in this order is taken."""

from __future__ import annotations

import bisect
import hashlib
import heapq
import math
import random
import threading
import time
import zlib
from array import array
from collections import Counter
from collections.abc import Callable, Iterator, Sequence
from dataclasses import dataclass, field

from . import checker
from .checker import Verdict
from .faults import Failed, Late, Refused
from .memories import size_rank
from .memory_files import MemoryFile
from .readers import Reader, Seen
from .recording import ACKNOWLEDGED, FILE_ROOM
from .report import Progress
from .states import Cuts, State

# How many leaves a state may have. Of one that has more so many runs are made, as one may be bad, and so many tasks are kept.
MOST_LEAVES = 65536
MOST_RUNS_BEYOND, MOST_TASKS_BEYOND = 256, 2 * MOST_LEAVES
# Leaves that are run again on another memory: of the first states so many in all, if they have them; and of all one of so many.
OF_FIRST_AGAIN, ONE_OF_AGAIN = 16, 50


@dataclass(frozen=True)
class Bound:
    """How many cases count at most, and how many memories on which the checker was not run in a recording before."""

    cases: int
    new: int


@dataclass(frozen=True)
class Known:
    """What was seen of each memory on which the checker was run, by a hash of all that it can tell apart: what the files had at first,
    and the memory. So states share runs if none has persisted more than another: those of a run of several threads, and those of its
    other orders. The memories that counted in a recording before are told apart, as runs by several workers may have come farther."""

    seen: dict[bytes, Seen] = field(default_factory=dict)
    counted: set[bytes] = field(default_factory=set)
    bound: Bound | None = None


class Cut(Refused):
    """As much was asked as counts, and nothing of it is bad; but there is more."""

    def __init__(self, said: str = "not each memory is asked of") -> None:
        super().__init__(said)


class NotDeterministic(Failed):
    """The checker does not always do the same where it reads the same: status 3."""

    def __init__(self, before: str, now: str) -> None:
        super().__init__(f"the checker does not do the same where it reads the same: {before}, and another time {now}")


@dataclass(frozen=True)
class Path:
    """The words that a run has read, in order, and their values."""

    words: Sequence[int] = ()
    values: Sequence[int] = ()

    def cuts(self, state: State, count: int) -> Cuts:
        """The cuts that agree with the first words."""
        cuts = state.cuts()
        for word, value in zip(self.words[:count], self.values[:count]):
            cuts.take(word, value)
        return cuts


@dataclass(frozen=True)
class Task:
    """A run that is to be made: with the first words of a path that was run, but another value of the last of them. Its turns are
    the places at which it and the runs before it took another value, each with the number of that value."""

    state: State
    path: Path = Path()
    count: int = 0
    value: int = 0
    turns: tuple[tuple[int, int], ...] = ()

    def cuts(self) -> Cuts:
        if self.count == 0:
            return self.state.cuts()
        cuts = self.path.cuts(self.state, self.count - 1)
        cuts.take(self.path.words[self.count - 1], self.value)
        return cuts


# What comes first: states of few stores, in the order of the run; then tasks that lose few stores; then by their turns. So what stands
# behind a task has a greater rank.
Rank = tuple[int, int, int, tuple[tuple[int, int], ...]]


@dataclass(frozen=True)
class Leaf:
    """A run, and the cuts that agree with all that it has read."""

    rank: Rank
    state: State
    path: Path
    verdict: Verdict

    def cuts(self) -> Cuts:
        return self.path.cuts(self.state, len(self.path.words))

    @property
    def first(self) -> int:
        """The place of the first word in which it does not go on with a run before it."""
        turns = self.rank[3]
        return turns[-1][0] + 1 if turns else 0

    @property
    def lines(self) -> frozenset[int]:
        return frozenset(self.state.lines[word] for word in self.path.words if word in self.state.lines)


@dataclass
class Found:
    """What was found of a state."""

    leaves: list[Leaf] = field(default_factory=list)
    waiting: int = 0
    runs: int = 0
    is_too_large: bool = False
    has_bad: bool = False
    lines: set[int] = field(default_factory=set)


class Worker:
    """A reader, with the file that it is run on."""

    def __init__(self, reader: Reader, files: MemoryFile, command: str) -> None:
        self.reader, self.files, self.command = reader, files, command

    def run(self, state: State, memory: dict[int, int]) -> Seen:
        """Runs the checker on a memory of a state; again, if it is late. What was acknowledged counts as read, and the size of the file."""
        self.reader.ask(state.words)
        seen = self.run_once(state, memory)
        if seen.verdict.kind == "late":
            seen = self.run_once(state, memory)
        # Of files behind the first what is read is not seen: all counts.
        told = sorted(word for word in memory if word < 0 or word >= FILE_ROOM)
        reads = [*told[::-1], *seen.reads]
        return Seen(seen.verdict, reads, seen.why, seen.traps)

    def key_of(self, state: State, memory: dict[int, int]) -> bytes:
        """A hash of what the checker can tell apart, where nothing has persisted before a state."""
        acknowledged = state.value(ACKNOWLEDGED, memory)
        told = f"{acknowledged} {self.command_with(state, acknowledged)} {sorted(memory.items())}"
        return hashlib.sha256(f"{state.history.recording.first_hash} {told}".encode()).digest()

    def run_once(self, state: State, memory: dict[int, int]) -> Seen:
        self.files.write(self.reader.file, state.number, memory)
        acknowledged = state.value(ACKNOWLEDGED, memory)
        return self.reader.run(self.command_with(state, acknowledged), acknowledged)

    def command_with(self, state: State, acknowledged: int) -> str:
        """The checker, which is told what each thread has acknowledged."""
        return state.history.recording.promises.before(self.command, acknowledged)

    def run_unseen(self, state: State, memory: dict[int, int]) -> Verdict:
        """Runs the checker as it is, with nothing that looks on. What is not good is asked twice."""

        def run() -> Verdict:
            self.files.write(self.reader.file, state.number, memory)
            acknowledged = state.value(ACKNOWLEDGED, memory)
            command = self.command_with(state, acknowledged)
            return checker.check(command, self.reader.file, acknowledged, self.reader.seconds, self.reader.endings)

        return checker.steady(run)

    def run_again(self, leaf: Leaf, memory: dict[int, int], is_watched: bool) -> None:
        """Runs the checker on another memory of a leaf: it has to read the same, if it is watched, and to end the same."""
        if is_watched:
            seen = self.run(leaf.state, memory)
            refuse_other_reads(leaf.path.words, seen.reads)
            verdict = seen.verdict
        else:
            verdict = self.run_unseen(leaf.state, memory)
        if verdict.kind != leaf.verdict.kind:
            raise NotDeterministic(told(leaf.verdict), told(verdict))


class Explorer:
    """Explores all states; with `stops` up to the first leaf that is not good. It is late if it is not done at some time. If there is a
    bound the first cases in order count, and what is behind them is cut. What fails behind something bad, or is cut, counts as little:
    one worker would not have come to it."""

    def __init__(
        self,
        states: Sequence[State],
        workers: Sequence[Worker],
        progress: Progress,
        stops: bool = True,
        until: float = math.inf,
        known: Known | None = None,
    ) -> None:
        self.states, self.workers, self.stops, self.progress, self.until = states, workers, stops, progress, until
        self.known = known
        # The ranks of all leaves, ascending; of each memory that is new that of its first leaf, and these, ascending.
        self.ranks: list[Rank] = []
        self.new: dict[bytes, Rank] = {}
        self.new_ranks: list[Rank] = []
        self.found = {state.number: Found() for state in states}
        self.sizes = {state.number: size_rank(state.pending) for state in states}
        self.tasks: list[tuple[Rank, int, Task]] = []
        self.changed = threading.Condition()
        self.running = self.runs = self.done = self.added = 0
        self.failure: BaseException | None = None
        self.bad: Leaf | None = None
        # The first run in order that failed.
        self.failed: tuple[Rank, Exception] | None = None
        # What it did that is not followed, and how often.
        self.why: Counter[str] = Counter()
        # Called, by a worker, with a state of which all leaves are known.
        self.is_explored: Callable[[State, Found], None] = lambda state, found: None
        for state in states:
            self.add(Task(state), 0)

    # --- the order of tasks

    def add(self, task: Task, lost: int) -> None:
        state = task.state.number
        self.added += 1
        heapq.heappush(self.tasks, ((self.sizes[state], state, lost, task.turns), self.added, task))
        self.found[state].waiting += 1

    def is_behind(self, rank: Rank) -> bool:
        """Whether something bad, or that failed, comes before all of this rank, and of those behind it; or as much as counts."""
        if self.failed is not None and rank > self.failed[0]:
            return True
        return self.is_behind_bad(rank) or self.is_cut_before(rank)

    def is_cut_before(self, rank: Rank) -> bool:
        """Whether as much as counts comes before all of this rank."""
        bound = self.known.bound if self.known is not None else None
        if bound is None:
            return False
        return bisect.bisect_left(self.ranks, rank) >= bound.cases or bisect.bisect_left(self.new_ranks, rank) >= bound.new

    @property
    def is_cut(self) -> bool:
        """Whether nothing that counts is bad, and there is more than counts."""
        ranks = [rank for rank, _, _ in self.tasks] + self.ranks[-1:]
        return self.bad is None and any(map(self.is_cut_before, ranks))

    def next_task(self) -> tuple[Rank, Task] | None:
        """The next task, or none if all is done. It waits for those that run, as they may add some."""
        while self.failure is None:
            if time.monotonic() > self.until:
                raise Late("not all is explored")
            if self.tasks and not self.is_behind(self.tasks[0][0]):
                rank, _, task = heapq.heappop(self.tasks)
                found = self.found[task.state.number]
                if found.is_too_large and found.runs >= MOST_RUNS_BEYOND:
                    found.waiting -= 1
                    continue
                found.runs += 1
                self.running += 1
                return rank, task
            if not self.running:
                return None
            self.changed.wait()
        return None

    # --- runs

    def explore(self) -> None:
        self.run_all(self.work)
        # Several workers may have come farther than one.
        if self.bad is not None and self.is_cut_before(self.bad.rank):
            self.bad = None
        if self.failed is not None and not self.is_behind_bad(self.failed[0]) and not self.is_cut_before(self.failed[0]):
            raise self.failed[1]
        if self.known is not None:
            counting = (key for key, rank in self.new.items() if not self.is_behind_bad(rank) and not self.is_cut_before(rank))
            self.known.counted.update(counting)
        if self.is_cut:
            raise Cut

    def is_behind_bad(self, rank: Rank) -> bool:
        return self.stops and self.bad is not None and rank > self.bad.rank

    def run_all(self, work: Callable[[Worker], None]) -> None:
        """Has all workers do this, up to a failure of one."""

        def guarded(worker: Worker) -> None:
            try:
                work(worker)
            except BaseException as failure:
                with self.changed:
                    self.failure = self.failure or failure
                    self.changed.notify_all()

        threads = [threading.Thread(target=guarded, args=(worker,), daemon=True) for worker in self.workers]
        for thread in threads:
            thread.start()
        for thread in threads:
            thread.join()
        self.progress.done()
        if self.failure is not None:
            raise self.failure

    def work(self, worker: Worker) -> None:
        while True:
            with self.changed:
                taken = self.next_task()
                if taken is None:
                    self.changed.notify_all()
                    return
            rank, task = taken
            try:
                self.make_run(worker, rank, task)
            except Exception as failure:
                self.note_failed(rank, failure)

    def note_failed(self, rank: Rank, failure: Exception) -> None:
        with self.changed:
            self.running -= 1
            if self.failed is None or rank < self.failed[0]:
                self.failed = rank, failure
            self.changed.notify_all()

    def make_run(self, worker: Worker, rank: Rank, task: Task) -> None:
        cuts = task.cuts()
        memory = cuts.memory()
        seen = self.seen_of(worker, rank, task.state, memory)
        refuse_other_reads(task.path.words[: task.count], seen.reads[: task.count])
        path = Path(array("q", seen.reads), array("Q", [memory[word] for word in seen.reads]))
        leaf = Leaf(rank, task.state, path, seen.verdict)
        has_room = self.found[task.state.number].waiting < MOST_TASKS_BEYOND
        branches = list(branches_of(task, path, cuts)) if has_room else []
        with self.changed:
            self.runs += 1
            if seen.why:
                self.why[seen.why] += 1
            found = self.enter(leaf, branches)
            is_done = not found.waiting
        if is_done and not found.is_too_large:
            self.is_explored(task.state, found)
        with self.changed:
            self.running -= 1
            if is_done:
                self.done += 1
                task.state.forget()
            self.progress.at(self.done, f"{self.runs:,} runs", self.runs)
            self.changed.notify_all()

    def seen_of(self, worker: Worker, rank: Rank, state: State, memory: dict[int, int]) -> Seen:
        """Runs the checker on a memory. States that share runs have one for all where their memories are equal."""
        if self.known is None:
            return worker.run(state, memory)
        key, seen = worker.key_of(state, memory), self.known.seen
        if key not in seen:
            seen[key] = worker.run(state, memory)
        with self.changed:
            self.note_new(key, rank)
        return seen[key]

    def note_new(self, key: bytes, rank: Rank) -> None:
        """A memory has a leaf of this rank."""
        assert self.known is not None
        before = self.new.get(key)
        if key in self.known.counted or before is not None and before < rank:
            return
        if before is not None:
            del self.new_ranks[bisect.bisect_left(self.new_ranks, before)]
        self.new[key] = rank
        bisect.insort(self.new_ranks, rank)

    def enter(self, leaf: Leaf, branches: list[tuple[int, Task]]) -> Found:
        """Enters a leaf, and the tasks behind it."""
        found = self.found[leaf.state.number]
        found.leaves.append(leaf)
        bisect.insort(self.ranks, leaf.rank)
        found.lines |= leaf.lines
        found.has_bad |= leaf.verdict.kind != "good"
        if leaf.verdict.kind != "good" and (self.bad is None or leaf.rank < self.bad.rank):
            self.bad = leaf
        for lost, task in branches:
            self.add(task, lost)
        found.waiting -= 1
        if len(found.leaves) + found.waiting > MOST_LEAVES:
            found.is_too_large = True
        return found

    def read_words(self) -> set[int]:
        """All words that were read where they are pending."""
        return {word for found in self.found.values() for leaf in found.leaves for word in leaf.path.words}

    # --- what guards

    def chosen_again(self, states: int, of_first: int) -> Iterator[tuple[int, Leaf]]:
        """Of so many states, some leaves of the first ones, and one of fifty by chance, each with a number. Which these are of a state
        does not depend on the others: so it is the same by parts."""
        of_each = -(-of_first // min(states, of_first))
        for state in self.states:
            for place, leaf in enumerate(sorted(self.found[state.number].leaves, key=lambda leaf: leaf.rank)):
                drawn = zlib.crc32(repr((state.number, leaf.rank[3])).encode())
                if place < of_each and state.number < of_first or drawn % ONE_OF_AGAIN == 0:
                    yield state.number + place, leaf

    def ask_again(self, states: int, of_first: int = OF_FIRST_AGAIN) -> int:
        """Runs some leaves again, each on another of its memories at random: half of them watched, for what is read, and half as
        they are, for what the checker says. Answers how many."""
        # The first are taken first, as files of memories go on from one state to a later one.
        left = list(self.chosen_again(states, of_first))[::-1]
        count = len(left)

        def work(worker: Worker) -> None:
            while self.failure is None:
                with self.changed:
                    if not left:
                        return
                    number, leaf = left.pop()
                worker.run_again(leaf, leaf.cuts().random_memory(random.Random(number)), number % 2 == 0)

        self.run_all(work)
        return count


def branches_of(task: Task, path: Path, cuts: Cuts) -> Iterator[tuple[int, Task]]:
    """The tasks behind a run, each with how many stores it loses: the other values of each word that was read behind the task's own.
    The cuts become those of the leaf."""
    for place in range(task.count, len(path.words)):
        word, own = path.words[place], path.values[place]
        for order, value in enumerate(cuts.values(word)):
            if value != own:
                turns = (*task.turns, (place, order))
                yield cuts.lost_with(word, value), Task(task.state, path, place + 1, value, turns)
        cuts.take(word, own)


def refuse_other_reads(before: Sequence[int], now: Sequence[int]) -> None:
    """Where a run has the values of another one up to some word, it has to read the same words up to there."""

    def read_at(words: Sequence[int], place: int) -> str:
        return f"it read w{words[place]:x}" if place < len(words) else "it read nothing more"

    if list(before) != list(now):
        shorter = min(len(before), len(now))
        place = next((n for n in range(shorter) if before[n] != now[n]), shorter)
        raise NotDeterministic(read_at(before, place), read_at(now, place))


def told(verdict: Verdict) -> str:
    return verdict.said or "the checker ended with 0"
