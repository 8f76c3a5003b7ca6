"""What is asked of a text, as items of a sheet (docs/FORMATS.md, "Questions"). px86 is asked by the name of an item, and `px86 check` of
the text alone asks it again."""

from __future__ import annotations

import re
from collections.abc import Collection, Sequence

# What is to hold in each memory that a crash may leave; and a memory that was refused, which one leaves.
ASKED, REFUSED = "asked", "refused"
# An item has at most so many tokens, and four of a question stand before its condition; so many brackets and `not`s are open at once.
MOST_TOKENS, MOST_OPEN = 1024, 64
BEFORE_CONDITION = 4
COMPARISONS = ("=", "!=", "<", "<=", ">", ">=")
NUMBER = re.compile("[0-9]{1,20}|-[0-9]{1,20}|0x[0-9A-Fa-f]{1,16}")


def every_crash(condition: str) -> str:
    return f"every crash {ASKED}: {condition}"


def some_crash(condition: str) -> str:
    return f"some crash {REFUSED}: {condition}"


def tokens_of(condition: str) -> list[str]:
    return re.findall(r"[()]|[^ \t\r()]+", condition)


def is_short_enough(condition: str) -> bool:
    """Whether an item has room for all tokens of a condition."""
    return len(tokens_of(condition)) + BEFORE_CONDITION <= MOST_TOKENS


def is_question(condition: str, names: Collection[str]) -> bool:
    """Whether a condition of `--all` may be that of a question. Then both are true of the same memories, as it tests persisted words of
    these names alone: no register, of which one may not be there. What is no condition is no question either: px86 has to tell what is
    wrong with it. Nor is one that has room for itself, and not for what stands before it in an item."""
    tokens = tokens_of(condition)
    # The brackets that are open, and each `not` whose factor has not ended.
    opened: list[str] = []
    place, is_factor_next = 0, True
    while place < len(tokens):
        token = tokens[place]
        place += 1
        if is_factor_next and token in ("not", "("):
            opened.append(token)
            if len(opened) > MOST_OPEN:
                return False
            continue
        if is_factor_next:
            if not is_test(tokens[place - 1 : place + 3], names):
                return False
            place += 3
        elif token == ")" and opened:
            opened.pop()
        elif token not in ("and", "or"):
            return False
        is_factor_next = token in ("and", "or")
        while not is_factor_next and opened and opened[-1] == "not":
            opened.pop()
    return not is_factor_next and not opened and is_short_enough(condition)


def is_test(tokens: Sequence[str], names: Collection[str]) -> bool:
    if len(tokens) != 4:
        return False
    place, name, comparison, number = tokens
    return place == "persisted" and name in names and comparison in COMPARISONS and is_number(number)


def is_number(token: str) -> bool:
    return bool(NUMBER.fullmatch(token)) and -(1 << 63) <= int(token, 16 if token.startswith("0x") else 10) < 1 << 64
