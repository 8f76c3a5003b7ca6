"""Keeps the last answers, by what was asked."""

from __future__ import annotations

import threading
from collections import OrderedDict
from collections.abc import Callable, Hashable
from typing import Generic, TypeVar

Answer = TypeVar("Answer")


class Kept(Generic[Answer]):
    """At most so many answers: the one that was asked longest ago goes first."""

    def __init__(self, most: int) -> None:
        self.most = most
        self.rows: OrderedDict[Hashable, Answer] = OrderedDict()
        self.lock = threading.Lock()

    def of(self, key: Hashable, make: Callable[[], Answer]) -> Answer:
        """The answer of this key, made if it is not there."""
        with self.lock:
            if key in self.rows:
                self.rows.move_to_end(key)
                return self.rows[key]
        made = make()
        with self.lock:
            self.rows[key] = made
            while len(self.rows) > self.most:
                self.rows.popitem(last=False)
        return made
