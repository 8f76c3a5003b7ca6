"""What several threads have acknowledged. The word `ack` then counts their acknowledgements, and each count says what was promised."""

from __future__ import annotations

from collections.abc import Mapping, Sequence
from dataclasses import dataclass, replace
from typing import TYPE_CHECKING

if TYPE_CHECKING:
    from .recording import Operation


@dataclass(frozen=True)
class Promise:
    """The greatest number that was acknowledged, and the greatest of each thread."""

    greatest: int
    by_thread: Mapping[int, int]

    @property
    def variables(self) -> dict[str, str]:
        """What a checker is told."""
        return {"PX86_ACK": str(self.greatest)} | {f"PX86_ACK_{thread}": str(number) for thread, number in self.by_thread.items()}

    def __str__(self) -> str:
        threads = ", ".join(f"thread {thread}: {number}" for thread, number in sorted(self.by_thread.items()))
        return f"{self.greatest} ({threads})"


class Promises:
    """What was promised by each value of `ack`. If one thread has acknowledged that is the value itself."""

    def __init__(self, acknowledged: Sequence[tuple[int, int]] = ()) -> None:
        threads = sorted({thread for thread, _ in acknowledged})
        self.found: list[Promise] = []
        if len(threads) < 2:
            return
        self.found.append(Promise(0, dict.fromkeys(threads, 0)))
        for thread, number in acknowledged:
            last = self.found[-1]
            by_thread = {**last.by_thread, thread: max(number, last.by_thread[thread])}
            self.found.append(Promise(max(last.greatest, number), by_thread))

    def counted(self, operations: Sequence[Operation], word: int) -> list[Operation]:
        """The operations, with the count of acknowledgements in the place of their numbers. `word` is that of `ack`."""
        changed, count = [], 0
        for operation in operations:
            if self.found and operation.stores and operation.word == word:
                count += 1
                operation = replace(operation, value=count, note=f"acknowledged {self.found[count]}")
            changed.append(operation)
        return changed

    def said(self, value: int) -> str:
        return str(self.found[value]) if self.found else str(value)

    def before(self, command: str, value: int) -> str:
        """A shell command, with what it is told of the promises of threads before it."""
        if not self.found:
            return command
        told = " ".join(f"{name}={number}" for name, number in self.found[value].variables.items())
        return f"export {told}; {command}"
