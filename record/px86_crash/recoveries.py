"""A crash in recovery, by what is read.

Of a memory of the run the recovery is a checker of its own: memories that it reads alike make a case, and all of a case have one
recording. What a crash of the recovery leaves of such a memory has two parts: its own stores, as far as they persisted, and below
them what the memory had. A word that the recovery has not read may have several values there, and those are as unknown as what has
persisted of its stores. So a second search begins for each state of each recording, by what the checker reads: each word that it
reads has a value of the recovery's stores, or one that the run may have left beside those that the recovery has read."""

from __future__ import annotations

import hashlib
import itertools
import os
import random
import shlex
import threading
from collections import Counter
from collections.abc import Callable, Iterator, Sequence
from dataclasses import dataclass, field

from . import checker, folders, stepper
from .answer import Case, refuse_what_is_not_recorded
from .branches import Branches, Point, Points, followed
from .checker import Verdict
from .explore import MOST_LEAVES, Explorer, Leaf, Worker, refuse_other_reads
from .faults import Failed, Refused, TooLarge
from .memory_files import MemoryFile
from .places import Places
from .readers import Reader, Seen
from .recording import ACKNOWLEDGED, Recording
from .report import Progress
from .states import Cuts, History, State, states_of
from .text import MOST_INSTRUCTIONS

# Of the first states of each recovery so many cases are run again on another memory.
OF_FIRST_AGAIN = 2


class UnknownRecording(Recording):
    """The recording of a recovery, of all memories of a case. Words that it has not read may have several values before it. They have
    a number for all of these, which no store has: so no store of such a word is taken as one that changes nothing."""

    def __init__(
        self, path: str, map_nontemporal: bool, of_run: Recording, unknown_of: Callable[[set[int]], frozenset[int]]
    ) -> None:
        self.unknown_of, self.found_unknown = unknown_of, False
        self.unknown: frozenset[int] = frozenset()
        self.known: dict[int, int] = {}
        self.unknown_value = -1
        super().__init__(path, map_nontemporal, of_run.ignored, of_run.grain)
        # What a recovery acknowledges is no promise of the run.
        self.promises = of_run.promises
        self.operations = self.without(lambda operation: operation.word == ACKNOWLEDGED)
        self.words = [word for word in self.words if word != ACKNOWLEDGED]
        self.first_value(0)
        taken = {value for operation in self.operations if operation.stores for _, value in operation.stored}
        taken.update(map(super().first_value, self.words))
        self.unknown_value = next(number for number in itertools.count(1 << 62) if number not in taken)

    def first_value(self, word: int) -> int:
        if not self.found_unknown:
            self.found_unknown, self.unknown = True, self.unknown_of(self.region.stored_in_part)
        if word in self.unknown:
            return self.known.get(word, self.unknown_value)
        return super().first_value(word)

    @property
    def sum(self) -> str:
        """A hash of what it does. In which order several threads do it is by chance."""
        done = [(operation.kind.value, operation.stored) for operation in self.operations]
        return hashlib.sha256(repr(done if len(self.threads) < 2 else "").encode()).hexdigest()


class CrashState(State):
    """A state of a recovery, for all memories of a case of the run: `run` has the cuts of these."""

    def __init__(self, state: State, run: Cuts, recording: UnknownRecording) -> None:
        super().__init__(state.number, state.pending, state.history, state.part)
        self.begin, self.run, self.unknown_value = state.begin, run, recording.unknown_value
        stored = {word for store in state.pending if store.stores for word, _ in store.stored}
        # What the run left, where the recovery has stored nothing yet.
        self.left = {
            word for word in recording.unknown if word not in stored and self.history.value(word, self.number) == self.unknown_value
        }

    @property
    def words(self) -> list[int]:
        return sorted({word for word in self.after if word >= 0} | self.left)

    def value(self, word: int, words: dict[int, int]) -> int:
        return self.run.state.value(word, words) if word == ACKNOWLEDGED else super().value(word, words)

    def cuts(self) -> Cuts:
        return CrashCuts(self, [Term(self.run.copy(), Cuts(self))])


@dataclass
class Term:
    """Cuts of the run, and beside them cuts of the recovery: any of these with any of those."""

    run: Cuts
    recovery: Cuts

    def copy(self) -> Term:
        return Term(self.run.copy(), self.recovery.copy())

    def lost(self) -> int:
        return self.run.lost() + self.recovery.lost()


class CrashCuts(Cuts):
    """The cuts of the run and of the recovery that agree with what was read. A value may come from either, so there are several terms."""

    def __init__(self, state: CrashState, terms: list[Term]) -> None:
        self.crash, self.terms = state, terms

    def is_unknown(self, value: int) -> bool:
        return value == self.crash.unknown_value

    def values_of(self, term: Term, word: int) -> list[int]:
        if word not in self.crash.after:
            return term.run.values(word)
        values: list[int] = []
        for value in term.recovery.values(word):
            values += term.run.values(word) if self.is_unknown(value) else [value]
        return values

    def values(self, word: int) -> list[int]:
        return list(dict.fromkeys(value for term in self.terms for value in self.values_of(term, word)))

    def ways(self, term: Term, word: int, value: int) -> Iterator[tuple[int | None, int | None]]:
        """How a term has this value: by a value of the recovery's stores, one that the run left, or both."""
        if word not in self.crash.after:
            if value in term.run.values(word):
                yield None, value
            return
        for stored in term.recovery.values(word):
            if not self.is_unknown(stored):
                if stored == value:
                    yield stored, None
            elif value in term.run.values(word):
                yield stored, value

    def lost_with(self, word: int, value: int) -> int:
        return min(
            (term.recovery.lost() if stored is None else term.recovery.lost_with(word, stored))
            + (term.run.lost() if left is None else term.run.lost_with(word, left))
            for term in self.terms
            for stored, left in self.ways(term, word, value)
        )

    def lost(self) -> int:
        return min(term.lost() for term in self.terms)

    def take(self, word: int, value: int) -> None:
        terms = []
        for term in self.terms:
            ways = list(self.ways(term, word, value))
            copies = [term.copy() for _ in ways[1:]]
            for (stored, left), taken in zip(ways, [*copies, term]):
                if stored is not None:
                    taken.recovery.take(word, stored)
                if left is not None:
                    taken.run.take(word, left)
                terms.append(taken)
        self.terms = terms

    def least(self) -> Term:
        return min(self.terms, key=Term.lost)

    def joined(self, left: dict[int, int], stored: dict[int, int]) -> dict[int, int]:
        """A memory, by one of the run and one of the recovery."""
        memory = {word: value for word, value in left.items() if word == ACKNOWLEDGED or word in self.crash.left}
        for word, value in stored.items():
            memory[word] = left[word] if self.is_unknown(value) else value
        return memory

    def memory(self) -> dict[int, int]:
        term = self.least()
        return self.joined(term.run.memory(), term.recovery.memory())

    def random_memory(self, generator: random.Random) -> dict[int, int]:
        term = generator.choice(self.terms)
        return self.joined(term.run.random_memory(generator), term.recovery.random_memory(generator))


def add_points(state: CrashState, leaves: Sequence[Leaf], of_run: Points, of_recovery: Points) -> None:
    """The points of a search, as points of the run and of the recovery: of each term that is left there."""
    for leaf, places in followed(leaves):
        cuts = state.cuts()
        assert isinstance(cuts, CrashCuts)
        for place, (word, value) in enumerate(zip(leaf.path.words, leaf.path.values)):
            if place in places:
                found: set[int] = set()
                for term in cuts.terms:
                    values = [state.unknown_value]
                    if word in state.after:
                        values = term.recovery.values(word)
                        of_recovery.add_cuts(term.recovery, word, values)
                    if state.unknown_value in values:
                        of_run.add_cuts(term.run, word, term.run.values(word))
                    found.update(cuts.values_of(term, word))
                if found != places[place]:
                    raise of_recovery.differ(Point(word, ()), places[place], found)
            cuts.take(word, value)


@dataclass
class Crashed:
    """What was found of a recovery: the case of a crash of it that is not good, if there is one. It is none of a condition."""

    sum: str
    bad: Leaf | None = None
    makes_false: bool = False


# A case of the run: its state, and the words that the recovery has read, with their values.
Key = tuple[int, tuple[int, ...], tuple[int, ...]]


def key_of(leaf: Leaf) -> Key:
    return leaf.state.number, tuple(leaf.path.words), tuple(leaf.path.values)


@dataclass
class Recoveries:
    """What all workers know: what is asked, and what was found."""

    command: str
    check: str
    seconds_to_record: int
    step: bool
    case: Case
    folder: str
    # What is to hold in each image of a recovery, if something is.
    condition: str | None
    branches: Branches
    found: dict[Key, Crashed] = field(default_factory=dict)
    too_large: dict[Key, Refused] = field(default_factory=dict)
    lock: threading.Lock = field(default_factory=threading.Lock)
    cases: int = 0
    again: int = 0
    points: int = 0
    has_threads: bool = False
    why: Counter[str] = field(default_factory=Counter)

    def path(self, name: str) -> str:
        return os.path.join(self.folder, name)

    def record(self, log: str, pool: str, output: str, unknown_of: Callable[[set[int]], frozenset[int]]) -> UnknownRecording:
        """Records the recovery of a file."""
        how = ["--file", pool, "--time", str(self.seconds_to_record)] + (["--step"] if self.step else [])
        stepper.record(log, shlex.split(checker.command_on(self.command, pool)), how, output)
        # Non-temporal stores are taken as in the run, which was not refused.
        recording = UnknownRecording(log, self.case.map_nontemporal, self.case.recording, unknown_of)
        if recording.status:
            raise Failed(f"the recovery of {log}.before {checker.how_ended(recording.status)}")
        refuse_what_is_not_recorded(recording, Places(recording) if recording.refusals else self.case.places)
        return recording

    def case_of(self, recording: Recording, folder: str, places: Places) -> Case:
        case, most, condition = self.case, MOST_INSTRUCTIONS, self.condition
        return Case(recording, places, folder, case.px86, case.names, most, case.asked, True, case.jobs, condition=condition)


class RecoveryWorker(Worker):
    """Runs the recovery on memories of the run, records it, and runs the checker on what a crash of it may leave."""

    # The files of a worker, with its number in the place of the star.
    FILES = ("pool*", "image*", "log*", "log*.before", "log*.after", "output*")

    def __init__(self, number: int, readers: tuple[Reader, Reader], history: History, recoveries: Recoveries) -> None:
        super().__init__(readers[0], MemoryFile(history), recoveries.command)
        self.name, self.of_checker, self.all = f"{number:03}", readers[1], recoveries

    # --- the recovery

    def run(self, state: State, memory: dict[int, int]) -> Seen:
        seen, recording, cuts = self.recover(state, memory)
        key: Key = (state.number, tuple(seen.reads), tuple(memory[word] for word in seen.reads))
        crashed = Crashed(recording.sum)
        verdict = self.verdict_of(recording, cuts, key, crashed)
        with self.all.lock:
            self.all.found[key] = crashed
            self.all.has_threads |= len(recording.threads) > 1
        return Seen(verdict, seen.reads, seen.why, seen.traps)

    def watched(self, state: State, memory: dict[int, int]) -> Seen:
        self.reader.ask(state.words)
        self.files.write(self.reader.file, state.number, memory)
        return self.reader.run(self.command, None)

    def recover(self, state: State, memory: dict[int, int], log: str | None = None) -> tuple[Seen, UnknownRecording, Cuts]:
        """What the recovery of a memory reads; its recording; and the cuts of the run that agree with what was read. What it stores in
        part counts as read, and what a condition asks for."""
        seen, cuts = self.watched(state, memory), state.cuts()
        if seen.verdict.kind == "late":
            seen = self.watched(state, memory)
        if seen.verdict.kind == "late":
            raise Failed(f"the recovery did not end in {self.reader.seconds:g} seconds, twice")
        reads = [*sorted((word for word in memory if word < 0 and word != ACKNOWLEDGED), reverse=True), *seen.reads]

        def unknown_of(stored_in_part: set[int]) -> frozenset[int]:
            more = (stored_in_part | self.all.case.asked).difference(reads, [ACKNOWLEDGED])
            reads.extend(sorted(more.intersection(state.lines)))
            for word in reads:
                cuts.take(word, memory[word])
            return frozenset(word for word in set(state.words).difference(reads) if len(cuts.values(word)) > 1)

        self.files.write(self.reader.file, state.number, memory)
        log, output = log or self.all.path(f"log{self.name}"), self.all.path(f"output{self.name}")
        recording = self.all.record(log, self.reader.file, output, unknown_of)
        return Seen(seen.verdict, reads, seen.why, seen.traps), recording, cuts

    def run_again(self, leaf: Leaf, memory: dict[int, int], is_watched: bool) -> None:
        """The recovery of another memory of a case has to read the same, and to do the same."""
        seen, recording, _ = self.recover(leaf.state, memory)
        refuse_other_reads(leaf.path.words, seen.reads)
        self.refuse_another(leaf, recording)

    def refuse_another(self, leaf: Leaf, recording: UnknownRecording) -> None:
        if recording.sum != self.all.found[key_of(leaf)].sum:
            raise Failed("the recovery does not do the same where it reads the same: it stores something else")

    # --- a crash of it

    def verdict_of(self, recording: UnknownRecording, cuts: Cuts, key: Key, crashed: Crashed) -> Verdict:
        if self.all.condition is not None:
            folder = self.all.path(f"condition{self.name}")
            folders.make(folder)
            plain = Recording(recording.path, self.all.case.map_nontemporal, recording.ignored, recording.grain)
            if self.all.case_of(plain, folder, self.all.case.places).answer.false is not None:
                crashed.makes_false = True
                return Verdict("bad", "")
        states = [CrashState(state, cuts, recording) for state in states_of(recording)]
        crash = Worker(self.of_checker, MemoryFile(states[0].history), self.all.check)
        explorer = Explorer(states, [crash], Progress("", 0, False))
        explorer.explore()
        crashed.bad = explorer.bad
        if explorer.bad is not None:
            return explorer.bad.verdict
        try:
            self.confirm(explorer, cuts)
        except Refused as large:
            with self.all.lock:
                self.all.too_large[key] = large
        return Verdict("good", "")

    def confirm(self, explorer: Explorer, cuts: Cuts) -> None:
        """Asks px86 of each point of the search, and runs some cases again."""
        if any(found.is_too_large for found in explorer.found.values()):
            raise TooLarge(f"of a memory that a crash of a recovery leaves the checker may behave in more than {MOST_LEAVES:,} ways")
        names, points = self.all.case.names, 0
        of_run = Points(cuts.state, names)
        for state in explorer.states:
            assert isinstance(state, CrashState)
            of_recovery = Points(state, names)
            add_points(state, explorer.found[state.number].leaves, of_run, of_recovery)
            points += self.all.branches.ask(of_recovery)
        points += self.all.branches.ask(of_run)
        again = explorer.ask_again(len(explorer.states), OF_FIRST_AGAIN)
        with self.all.lock:
            self.all.cases += explorer.runs
            self.all.again += again
            self.all.points += points
            self.all.why.update(explorer.why)
