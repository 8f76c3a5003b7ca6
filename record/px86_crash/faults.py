"""How px86-crash ends when there is no answer, and how it counts what it names."""

from __future__ import annotations

from collections.abc import Iterable


class Refused(Exception):
    """The run has something of which px86 cannot answer: status 2."""


class TooLarge(Refused):
    """The run has nothing that px86 has not, but too much of it."""


class Failed(Exception):
    """Something else went wrong: status 3."""


class Late(Failed):
    """The time in which something was to be told is over."""


def nearest(word: str, words: Iterable[str]) -> str | None:
    """The one of some words that is most like this one, if one is alike."""
    # It is seldom needed, and takes a while.
    from difflib import get_close_matches

    return next(iter(get_close_matches(word, list(words), 1)), None)


def plural(number: int, noun: str) -> str:
    return f"{number:,} {noun}" if number == 1 else f"{number:,} {noun[:-1] + 'ies' if noun.endswith('y') else noun + 's'}"
