"""The memories that a run of one processor may leave: one for each fence and one for its end.

A crash may leave an image at some point of some order of the run exactly when it is an image of one of these memories: a law of the
model, proved (docs/MODEL.md, "One processor"). That these functions are its definitions in crates/explore/specs is tested
(tools/recording-model windows)."""

from __future__ import annotations

from collections.abc import Iterable, Iterator, Sequence
from dataclasses import dataclass

from .recording import Kind, Operation


def split(window: Sequence[Operation]) -> tuple[list[Operation], list[Operation]]:
    """The stores of a window behind which a flush of their line is, and the others."""
    flushed: set[int] = set()
    with_flush: list[Operation] = []
    without: list[Operation] = []
    for operation in reversed(window):
        if operation.flushes:
            flushed.add(operation.line)
        elif operation.stores:
            (with_flush if operation.line in flushed else without).append(operation)
    return with_flush[::-1], without[::-1]


def unflushed(window: Sequence[Operation]) -> list[Operation]:
    """The stores behind which no flush of their line is: the next window begins with them."""
    return split(window)[1]


def flushed(window: Sequence[Operation]) -> list[Operation]:
    """The other stores: a fence has them persist before all that is stored later."""
    return split(window)[0]


def plain(window: Sequence[Operation]) -> list[Operation]:
    """What is pending when a crash comes before the next fence: an optimized flush orders nothing yet."""
    return [operation for operation in window if operation.stores or operation.kind is Kind.FLUSH]


def up_to_last_store(operations: list[Operation]) -> list[Operation]:
    """Without what stands behind the last store. A clflush there adds no image to those of the memory before it: it has stores
    of its line persist that may have persisted there too."""
    last = max((place for place, operation in enumerate(operations) if operation.stores), default=-1)
    return operations[: last + 1]


def shown(window: Sequence[Operation]) -> list[Operation]:
    """The pending list of which px86 lists the images: `plain`, up to its last store."""
    return up_to_last_store(plain(window))


@dataclass(frozen=True)
class Window:
    """What stands between two fences, behind the stores of earlier windows that no fence has had persist. The memory: pending is
    `plain` of the operations, and persisted is what the earlier windows `flushed`."""

    operations: list[Operation]
    carried: int
    # The fence or the locked operation behind it, if the run has not ended.
    end: Operation | None

    @property
    def added(self) -> list[Operation]:
        return self.operations[self.carried :]

    @property
    def fence(self) -> Operation | None:
        return self.end if self.end and self.end.fences else None


def windows_of(operations: Iterable[Operation]) -> Iterator[Window]:
    """Each window of the operations of one processor. A locked operation cuts too: it stands at the head of the next window."""
    window: list[Operation] = []
    carried = 0
    for operation in operations:
        if operation.fences or operation.kind is Kind.LOCKED:
            yield Window(window, carried, operation)
            window = unflushed(window)
            carried = len(window)
        if operation.stores or operation.flushes:
            window.append(operation)
    yield Window(window, carried, None)


@dataclass(frozen=True)
class Part:
    """What stands of a window between two places at which a store follows a clflush: a memory of its own, in which no flush is pending."""

    # Since the part before, up to the last store; and the flushes behind that.
    operations: list[Operation]
    behind: list[Operation]
    # The stores that are pending, of which so many were stored before this part.
    pending: list[Operation]
    carried: int
    # What has persisted of these where the next part begins, or behind the fence.
    persisted: list[Operation]
    # The last flush behind it, or what ends the window.
    end: Operation | None

    @property
    def is_new(self) -> bool:
        """Whether it stores something."""
        return len(self.pending) > self.carried


def parts_of(window: Window) -> Iterator[Part]:
    """The parts of a window. A clflush has persist what stands before it of its line before all that is stored behind it, as a fence has
    of all lines that are flushed. So what a crash may leave of a window is what it may leave of these parts (tests/test_states.py)."""
    operations: list[Operation] = []
    behind: list[Operation] = []
    pending: list[Operation] = []
    # The lines of these.
    stored: set[int] = set()
    carried = window.carried
    for operation in window.operations:
        if not operation.stores:
            behind.append(operation)
            continue
        flushes = [flush for flush in behind if flush.kind is Kind.FLUSH]
        lines = stored.intersection(flush.line for flush in flushes)
        if lines:
            persisted = [store for store in pending if store.line in lines]
            yield Part(operations, behind, pending, carried, persisted, flushes[-1])
            pending = [store for store in pending if store.line not in lines]
            operations, behind, carried, stored = [], [], len(pending), stored - lines
        operations += [*behind, operation]
        pending.append(operation)
        stored.add(operation.line)
        behind = []
    left = set(pending)
    yield Part(operations, behind, pending, carried, [store for store in flushed(window.operations) if store in left], window.end)


def whole(window: Window) -> Part:
    """A window as one memory, in which a clflush is pending that stores follow."""
    pending = shown(window.operations)
    operations = up_to_last_store(window.operations)
    behind = window.operations[len(operations) :]
    return Part(operations, behind, pending, window.carried, flushed(window.operations), window.end)


MOST_CANDIDATES = 65536


def candidates(pending: Sequence[Operation]) -> int:
    """How many ways there are to choose what has persisted of a pending list: some first markers, and of each line some first
    stores (docs/MODEL.md, "Candidates"). It stops above MOST_CANDIDATES."""
    stores: dict[int, int] = {}
    behind_marker: dict[int, int] = {}
    total = 0
    for operation in [*pending, None]:
        if operation is not None and operation.stores:
            stores[operation.line] = stores.get(operation.line, 0) + 1
            continue
        product = 1
        for line, count in stores.items():
            product *= count - behind_marker.get(line, 0) + 1
        total += product
        if total > MOST_CANDIDATES:
            return total
        if operation is not None:
            behind_marker[operation.line] = stores.get(operation.line, 0)
    return total


def size_rank(pending: Sequence[Operation]) -> int:
    """Memories of few stores come first: it counts their doublings."""
    return sum(operation.stores for operation in pending).bit_length()
