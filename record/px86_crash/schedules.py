"""In which orders the threads of a program are recorded: with few forced switches first, and then by random priorities.

A turn is a choice of px86-record between threads that can run (record/LOG.md). By itself a thread goes on as long as it can, and then
the one whose number is next comes. An order is a list of turns at which another thread is chosen. What stands before the first of
them is as in the order without it. So each order that is recorded tells those with one turn more: few switches find most faults of
this kind (Musuvathi and Qadeer, PLDI 2007). Random priorities find each fault of few switches with a known chance (Burckhardt et al.,
ASPLOS 2010).

Where the orders of a level are too many they are taken by the kinds of their switches: where in the program the thread is stopped, and
behind which locked operation of its own. So a switch behind an unlock is of another kind than one behind a lock. Where another thread
waits for that lock the recording is one that was made before: then fewer orders of this kind follow. Between a switch that is vain and
one that is not there is the place from which the other thread goes on; it is looked for by halving."""

from __future__ import annotations

import itertools
from collections import defaultdict
from collections.abc import Iterator, Sequence
from dataclasses import dataclass, field
from enum import Enum

from .faults import Failed, plural

# How many orders are recorded of a program of several threads, besides the one that chance gives, if nothing says how many.
ORDERS_BY_DEFAULT = 16
# Behind so many recordings that were made before no more are made; and what one costs, beside one that is new.
MOST_ALIKE, COST_OF_ALIKE = 24, 4
# What choosing a place costs more, elsewhere, if it is the only one of its kind.
RARE = 8
# The changes of priorities in random orders, in turn.
MOST_CHANGES = 3
# How many orders of a level are kept.
MOST_WAITING = 1 << 18


@dataclass(frozen=True)
class Turn:
    """A line of LOG.turns. `where` is `here` at an instruction of the region, `elsewhere` at another locked operation, and `free`
    where the thread that ran cannot go on."""

    where: str
    chosen: int
    by_itself: int
    able: tuple[int, ...]
    place: str = ""

    @property
    def is_forced(self) -> bool:
        return self.where != "free" and self.chosen != self.by_itself


def read_turns(path: str) -> list[Turn]:
    turns = []
    try:
        with open(path, encoding="ascii") as file:
            for line in file:
                words = line.split()
                able = tuple(map(int, words[5].split(",")))
                turns.append(Turn(words[2], int(words[3]), int(words[4]), able, " ".join(words[6:7])))
    except (OSError, IndexError, ValueError) as error:
        raise Failed(f"{path} has no turns: {error}") from error
    return turns


class Level(Enum):
    """How many forced switches an order has, and where: the sum of those of its turns. The one that comes by chance is not chosen."""

    CHANCE = "by chance"
    NONE = "with no forced switch"
    ONE = "with one"
    TWO = "with two"
    ELSEWHERE = "with one at a locked operation elsewhere"
    RANDOM = "by random priorities"


# The level of an order with one turn more, by where it is forced.
BEHIND = {(Level.NONE, "here"): Level.ONE, (Level.NONE, "elsewhere"): Level.ELSEWHERE, (Level.ONE, "here"): Level.TWO}

# The kind of a switch: behind which locked operation of its own, and where, the thread stands that is stopped.
Kind = tuple[str, str]


@dataclass(frozen=True)
class Order:
    """Which thread is chosen at some turns; or, of a random one, its words for px86-record. `before` is a hash of the turns up to the
    last of its own, as they were in the order that it comes from."""

    level: Level
    changes: tuple[tuple[int, int], ...] = ()
    random: str = ""
    before: int = 0
    # Of its last forced switch.
    kind: Kind = ("", "")

    @property
    def own(self) -> int:
        """How many turns stand before the last of its own."""
        return self.changes[-1][0] if self.changes else 0

    @property
    def comes_in(self) -> int:
        """The thread that is chosen at the last of its own."""
        return self.changes[-1][1] if self.changes else -1

    @property
    def row(self) -> tuple[tuple[tuple[int, int], ...], int]:
        """What it has in common with those that differ in the place of the last switch alone."""
        return self.changes[:-1], self.comes_in

    @property
    def words(self) -> str:
        return self.random or words_of(self.changes)


def threads_of(log: str) -> int:
    """How many threads a log has, whatever they do."""
    try:
        with open(log, encoding="utf-8", errors="replace") as file:
            return sum(line.startswith("thread ") for line in file)
    except OSError as error:
        raise Failed(f"{log}: {error.strerror}") from error


def words_of(changes: Sequence[tuple[int, int]]) -> str:
    return " ".join(f"{turn}:{thread}" for turn, thread in changes)


def words_of_turns(turns: Sequence[Turn]) -> str:
    """The words that play these turns again, of whatever order they are."""
    return words_of([(number, turn.chosen) for number, turn in enumerate(turns) if turn.chosen != turn.by_itself])


def hash_of(turns: Sequence[Turn]) -> int:
    """A hash of turns in a row, which can be made of that of the turns before the last."""
    found = 0
    for turn in turns:
        found = hash((found, turn))
    return found


def behind(order: Order, turns: Sequence[Turn]) -> Iterator[Order]:
    """The orders with one turn more, behind those of this one."""
    first = order.own + 1 if order.changes else 0
    before = hash_of(turns[:first])
    locked: dict[int, str] = {}
    for number, turn in enumerate(turns):
        level = order.level if turn.where == "free" else BEHIND.get((order.level, turn.where))
        if level is not None and number >= first:
            kind = order.kind if turn.where == "free" else (locked.get(turn.by_itself, ""), turn.place)
            for thread in turn.able:
                if thread != turn.chosen:
                    yield Order(level, (*order.changes, (number, thread)), before=before, kind=kind)
        if turn.where == "elsewhere":
            locked[turn.chosen] = turn.place
        if number >= first:
            before = hash((before, turn))


def spread(number: int) -> float:
    """A number from 0 to 1. The first ones, of 0, 1, 2 .., are spread over all of it."""
    bits = f"{number:b}"[::-1]
    return int(bits, 2) / (1 << len(bits))


# Orders that differ in the place of their last switch alone.
Row = tuple[tuple[tuple[int, int], ...], int]


class Kinds:
    """Orders by the kinds of their switches. Those behind one locked operation are a group. In turn each group has one chosen, and of a
    group each place; of a place a first one, as many faults are of small numbers, and then one from any part of the run. But after a
    recording that was made before others come first. With `rare` a place that few orders have, as where threads begin, comes late.

    Every second time, if there is one, it is an order between two of which one made a new recording and the other did not: so where
    another thread begins to go on is found by halving."""

    def __init__(self, rare: int = 0) -> None:
        self.rare = rare
        # Those that wait; each with its number.
        self.waiting: dict[Kind, list[tuple[int, Order]]] = {}
        self.rows: defaultdict[Row, dict[int, tuple[int, Order]]] = defaultdict(dict)
        self.count = self.added = 0
        # What was chosen has cost so much: of a group, of a kind, and of a thread that comes in. How often a group was chosen.
        self.cost: defaultdict[object, int] = defaultdict(int)
        self.chosen: defaultdict[object, int] = defaultdict(int)
        # Of each row whether the orders that were recorded made a new recording, by the turn of their last switch.
        self.made_new: defaultdict[Row, dict[int, bool]] = defaultdict(dict)
        self.choices = 0

    def __len__(self) -> int:
        return self.count

    def add(self, order: Order) -> None:
        self.waiting.setdefault(order.kind, []).append((self.added, order))
        self.rows[order.row][order.own] = self.added, order
        self.added += 1
        self.count += 1

    def take_all(self) -> list[Order]:
        """All that wait, in the order in which they came."""
        orders = sorted((it for orders in self.waiting.values() for it in orders), key=lambda it: it[0])
        self.waiting.clear()
        self.rows.clear()
        self.count = 0
        return [order for _, order in orders]

    def choose(self) -> Order:
        """The next one of those that wait."""
        self.choices += 1
        chosen = (self.between() if self.choices % 2 == 0 else None) or self.of_kind()
        _, order = chosen
        self.waiting[order.kind].remove(chosen)
        del self.rows[order.row][order.own]
        self.count -= 1
        self.chosen[order.kind[0]] += 1
        self.add_cost(order, 1)
        return order

    def between(self) -> tuple[int, Order] | None:
        """The one in the middle between two neighbours that differ, of the nearest ones; none if there are no such."""
        found: tuple[int, tuple[int, Order]] | None = None
        for row, made_new in self.made_new.items():
            turns = sorted(made_new)
            for first, last in zip(turns, turns[1:]):
                if made_new[first] == made_new[last]:
                    continue
                some = sorted(turn for turn in self.rows[row] if first < turn < last)
                if some and (found is None or len(some) < found[0]):
                    found = len(some), self.rows[row][some[len(some) // 2]]
        return found[1] if found else None

    def of_kind(self) -> tuple[int, Order]:
        """One of the kind that has cost least, of the group that has."""

        def rank(kind: Kind) -> tuple[float, float]:
            late = self.rare / (self.chosen[kind[0]] + len(self.waiting[kind]))
            return self.cost[kind[0]] + late, self.cost[kind] + late

        kinds = [kind for kind, orders in self.waiting.items() if orders]
        least = min(map(rank, kinds))
        kinds = [kind for kind in kinds if rank(kind) == least]
        before = self.chosen[kinds[0][0]]
        part = spread(before)
        orders = self.waiting[kinds[int(part * len(kinds))]]
        thread = min((order.comes_in for _, order in orders), key=lambda thread: (self.cost[thread], -thread))
        some = [it for it in orders if it[1].comes_in == thread]
        return some[int(part * len(some)) if before % 2 else 0]

    def add_cost(self, order: Order, cost: int) -> None:
        for what in (order.kind[0], order.kind, order.comes_in):
            self.cost[what] += cost

    def note(self, order: Order, is_new: bool) -> None:
        """What was recorded of one of these was new, or was made before."""
        self.made_new[order.row][order.own] = is_new
        if not is_new:
            self.add_cost(order, COST_OF_ALIKE)


@dataclass
class Done:
    """Of a level: how many orders are known, and how many were recorded."""

    known: int = 0
    recorded: int = 0


@dataclass
class Search:
    """The orders to be recorded, `most` at most."""

    most: int
    seed: int
    waiting: dict[Level, Kinds] = field(default_factory=lambda: {level: Kinds(RARE * (level is Level.ELSEWHERE)) for level in Level})
    done: dict[Level, Done] = field(default_factory=lambda: {level: Done() for level in Level})
    most_turns: int = 0
    # Orders in which the program did otherwise before their own turns.
    unlike: int = 0
    # If nobody said how many: for each recording that was made before another one is made, up to so many of these.
    most_alike: int = 0
    # Of the levels with one switch, what was chosen has cost so much.
    cost: dict[Level, int] = field(default_factory=lambda: {Level.ONE: 0, Level.ELSEWHERE: COST_OF_ALIKE})

    def __iter__(self) -> Iterator[Order]:
        """Each order in its turn. What was recorded of it is noted before the next one is asked for."""
        self.add(Order(Level.NONE))
        yield from self.of_level(Level.NONE, max(self.left // 2, 1) if self.most_alike else self.left)
        if len(self.waiting[Level.ONE]) > self.left:
            yield from self.of_one_switch()
        yield from self.of_level(Level.ONE, self.left)
        if self.most_turns == 0:
            return
        quarter = self.left // 4
        yield from self.of_level(Level.TWO, self.left - quarter - min(quarter, len(self.waiting[Level.ELSEWHERE])))
        yield from self.of_level(Level.ELSEWHERE, self.left - quarter)
        for number in itertools.count():
            if self.left <= 0:
                return
            changes = number % MOST_CHANGES + 1
            self.done[Level.RANDOM].known += 1
            yield Order(Level.RANDOM, random=f"random:{self.seed + number}:{changes}:{self.most_turns}")

    @property
    def recorded(self) -> int:
        return sum(done.recorded for done in self.done.values())

    @property
    def left(self) -> int:
        return self.most - self.recorded

    def add_by_chance(self) -> None:
        """The order that chance gives was recorded. It is one more; and of the others those count that make a new recording."""
        self.done[Level.CHANCE] = Done(1, 1)
        self.most += 1
        self.most_alike = MOST_ALIKE

    def add(self, order: Order) -> None:
        """An order that is known is kept, if there is room for it."""
        if len(self.waiting[order.level]) < MOST_WAITING:
            self.waiting[order.level].add(order)
        self.done[order.level].known += 1

    def of_level(self, level: Level, most: int) -> Iterator[Order]:
        """Those of a level, with those that come of its free choices. If they are too many some of each kind are chosen."""
        orders = self.waiting[level]
        while most > 0 and orders:
            some = orders.take_all() if len(orders) <= most else [orders.choose()]
            most -= len(some)
            for order in some:
                if self.left <= 0:
                    return
                yield order

    def of_one_switch(self) -> Iterator[Order]:
        """Some orders of those with one forced switch, which are too many: of those at a locked operation elsewhere one for two others."""
        share = {Level.ONE: 1, Level.ELSEWHERE: 2}
        while self.left > 0:
            levels = [level for level in share if self.waiting[level]]
            if not levels:
                return
            level = min(levels, key=lambda level: self.cost[level])
            self.cost[level] += share[level]
            yield self.waiting[level].choose()

    def note(self, order: Order, turns: Sequence[Turn]) -> None:
        """An order was recorded, with these turns."""
        self.done[order.level].recorded += 1
        self.most_turns = max(self.most_turns, len(turns))
        if hash_of(turns[: order.own]) != order.before:
            self.unlike += 1
        elif order.level is not Level.RANDOM:
            for more in behind(order, turns):
                self.add(more)

    def note_unlike(self, order: Order) -> None:
        """An order could not be recorded: a thread could not run at its turn."""
        self.done[order.level].recorded += 1
        self.unlike += 1

    def note_made(self, order: Order, is_new: bool) -> None:
        """The recording of an order is new, or was made before, in another one."""
        self.waiting[order.level].note(order, is_new)
        if is_new:
            return
        if order.level in self.cost:
            self.cost[order.level] += COST_OF_ALIKE
        if self.most_alike:
            self.most_alike -= 1
            self.most = self.most + 1 if self.most_alike else self.recorded

    def covered(self) -> str:
        """Which orders were recorded."""
        said = []
        for level, done in self.done.items():
            if level is Level.RANDOM and done.recorded:
                said.append(f"{done.recorded} {level.value}")
            elif done.recorded == done.known and done.known:
                said.append(f"all {done.known} {level.value}" if done.known > 1 else f"the one {level.value}")
            elif done.known:
                said.append(f"{done.recorded} of {done.known} {level.value}")
        return ", ".join(said)

    def say_unlike(self) -> str | None:
        if not self.unlike:
            return None
        return (
            f"note: {plural(self.unlike, 'order')} could not be played: the program did otherwise where the order was the same "
            "(by the time, random numbers, or what comes from outside)"
        )
