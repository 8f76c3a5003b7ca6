"""The questions of a sheet, with their faults, and what may be answered to them: by every run, and by the truth of a condition as
docs/FORMATS.md says it, which is true, false, or neither. And the conditions of options that are asked of a sheet: they are written as
those of its questions."""

from __future__ import annotations

import copy
import dataclasses
import operator
import re
from collections.abc import Callable, Iterable
from typing import Any, NoReturn

from model.images import images_of
from model.machine import Machine
from model.reading import (
    DIGITS, LETTERS, MARKS, MOST_PROCESSORS, Fault, is_meant_as_number, is_name, is_text, number_of, small_number_of, tokens_of,
)
from model.rules import FIRST_ADDRESS, REGISTERS, Image
from model.runs import Runs
from model.schedules import enabled_of

BEGINS, PLACES = ("let", "every", "some"), ("crash", "end", "recovery")
KEYWORDS = "not and or persisted coherent reg trapped let every some".split()
MOST_QUESTIONS, MOST_TOKENS, MOST_SIZE, MOST_OPEN = 64, 1024, 4096, 64
COMPARISONS: dict[str, Callable[[int, int], bool]] = {
    "=": operator.eq, "!=": operator.ne, "<": operator.lt, "<=": operator.le, ">": operator.gt, ">=": operator.ge,
}

# What a condition or a value is made of, by the name of its kind.
Tree = tuple[Any, ...]


def is_identifier(token: str) -> bool:
    """Whether a token is meant as a name."""
    return token[0] in LETTERS and token not in KEYWORDS


@dataclasses.dataclass(frozen=True)
class Named:
    """What an item named: a condition or a value, how large it is, and whether it takes something away."""

    is_condition: bool
    tree: Tree
    size: int
    takes: bool = False


@dataclasses.dataclass(frozen=True)
class Question:
    """A question: whether it asks of every state, of which ones, its condition, and what stands left of its outer `->`."""

    name: str
    every: bool
    place: str
    condition: Tree
    left: Tree | None


class Tokens:
    """The tokens of lines of questions, up to the end of the item that is read."""

    def __init__(self, rows: list[tuple[int, bytes]]) -> None:
        self.rows = rows
        # Those of the line that is read: each with its line, and whether an item begins with it.
        self.ahead: list[tuple[str, int, bool]] = []
        # The line of the last token, that of the item's first, and how many tokens it has so far.
        self.line = self.first = self.count = 0

    def fill(self) -> None:
        while not self.ahead and self.rows:
            number, row = self.rows.pop(0)
            if not is_text(row):
                raise Fault(f"X7 NotAscii line {number}")
            tokens = tokens_of(row, f"{MARKS}()")
            self.ahead = [(it, number, place == 0 and it in BEGINS) for place, it in enumerate(tokens)]

    def begin(self) -> str:
        """The first token of the next item, or none where there is no more."""
        self.fill()
        self.count = 0
        if not self.ahead:
            return ""
        self.first = self.ahead[0][1]
        return self.take()

    def take(self) -> str:
        token, self.line, _ = self.ahead.pop(0)
        self.count += 1
        return token

    def peek(self) -> str:
        """The next token, or none where the item ends."""
        self.fill()
        if not self.ahead or self.ahead[0][2]:
            return ""
        if self.count == MOST_TOKENS:
            self.too_many()
        return self.ahead[0][0]

    def too_many(self) -> NoReturn:
        """The next token is one too many."""
        self.too_long()

    def too_long(self) -> NoReturn:
        """With the last token the item is too large."""
        raise Fault(f"X5 TooLong line {self.first}")

    def fault(self, text: str) -> NoReturn:
        """A fault of the last token."""
        raise Fault(f"{text} line {self.line}")

    def wrong(self) -> NoReturn:
        """The next token may not be there, or there is none."""
        if self.peek():
            self.take()
        self.fault("X11 BadCond")

    def next(self) -> str:
        return self.take() if self.peek() else self.wrong()

    def takes(self, token: str) -> None:
        """This token comes next."""
        if self.peek() != token:
            self.wrong()
        self.take()

    def of_head(self) -> str:
        """The next token of an item's head."""
        return self.take() if self.peek() else self.fault("X1 BadWord")


class OptionTokens(Tokens):
    """The tokens of the condition of an option, which has no lines: a fault is told with the number of its token, from 0."""

    def __init__(self, text: str) -> None:
        super().__init__([])
        # A comment goes on to the end, and no token begins an item.
        tokens = re.findall(r"[,\[\]:()]|[^ \t\r,\[\]:()]+", text.partition("#")[0])
        self.ahead = [(it, 0, False) for it in tokens]

    def told(self, text: str, number: int) -> NoReturn:
        raise Fault(f"{'E2 UnknownName' if text == 'X2 UnknownName' else 'E1 BadCond'} {number}")

    def fault(self, text: str) -> NoReturn:
        self.told(text, self.count - 1)

    def wrong(self) -> NoReturn:
        self.told("X11 BadCond", self.count)

    def too_many(self) -> NoReturn:
        self.told("X5 TooLong", self.count)

    def too_long(self) -> NoReturn:
        self.told("X5 TooLong", self.count - 1)


class QuestionsReader:
    """Reads items: of each the head, and then what stands behind it, from left to right. Behind the last one it reads conditions of
    options, which may name what one more item might."""

    def __init__(self, rows: list[tuple[int, bytes]], words: dict[str, int], constants: dict[str, int], processors: int) -> None:
        self.tokens = Tokens(rows)
        self.words, self.constants, self.processors = words, constants, processors
        self.named: dict[str, Named] = {}
        # Of the item that is read: how many brackets and `not`s are open, how large it is, and what it takes away.
        self.open = self.size = 0
        self.has_taken = False

    def read_all(self) -> list[Question]:
        """The questions; or the first fault."""
        questions: list[Question] = []
        while kind := self.tokens.begin():
            self.begin()
            if kind == "let":
                self.read_let()
                continue
            if len(questions) == MOST_QUESTIONS:
                self.tokens.too_long()
            questions.append(self.read_question(kind == "every"))
        return questions

    def begin(self) -> None:
        """Nothing of an item is read."""
        self.open = self.size = 0
        self.has_taken = False

    def asked(self, text: str) -> Kept:
        """What the condition of an option asks: that it is true."""
        reader = copy.copy(self)
        reader.tokens = OptionTokens(text)
        reader.begin()
        condition, _ = reader.condition()
        reader.ends()
        return Kept(condition, True)

    def read_let(self) -> None:
        name = self.read_name("=")
        begun = None
        if self.begins_value():
            begun = self.value()
            if not self.tokens.peek():
                self.named[name] = Named(False, begun, self.size, self.has_taken)
                return
        condition, _ = self.condition(begun)
        self.ends()
        self.named[name] = Named(True, condition, self.size)

    def read_question(self, every: bool) -> Question:
        place = self.tokens.of_head()
        if place not in PLACES:
            self.tokens.fault("X1 BadWord")
        name = self.read_name(":")
        condition, left = self.condition()
        self.ends()
        self.named[name] = Named(True, condition, self.size)
        return Question(name, every, place, condition, left)

    def read_name(self, mark: str) -> str:
        """The name of an item, and the mark behind it."""
        name = self.tokens.of_head()
        if not is_name(name) or name in KEYWORDS or name in self.named:
            self.tokens.fault("X10 BadName")
        if self.tokens.of_head() != mark:
            self.tokens.fault("X1 BadWord")
        return name

    def ends(self) -> None:
        if self.tokens.peek():
            self.tokens.wrong()

    # --- conditions. What is begun is a value with which one begins.

    def condition(self, begun: Tree | None = None) -> tuple[Tree, Tree | None]:
        """A condition, and what is left of its `->`."""
        left = self.side(begun)
        if self.tokens.peek() != "->":
            return left, None
        self.tokens.take()
        return ("or", ("not", left), self.side()), left

    def side(self, begun: Tree | None = None) -> Tree:
        tree = self.term(begun)
        while self.tokens.peek() == "or":
            self.tokens.take()
            tree = "or", tree, self.term()
        return tree

    def term(self, begun: Tree | None = None) -> Tree:
        tree = self.factor(begun)
        while self.tokens.peek() == "and":
            self.tokens.take()
            tree = "and", tree, self.factor()
        return tree

    def factor(self, begun: Tree | None = None) -> Tree:
        if begun is not None or self.begins_value():
            left = begun or self.value()
            if self.tokens.peek() not in COMPARISONS:
                self.tokens.wrong()
            return "compared", self.tokens.take(), left, self.value()
        token = self.tokens.next()
        if token in self.named:
            return self.leaf(self.named[token].tree, self.named[token].size)
        self.opens()
        if token == "not":
            self.grows()
            tree: Tree = "not", self.factor()
        else:
            tree, _ = self.condition()
            self.tokens.takes(")")
        self.open -= 1
        return tree

    def begins_value(self) -> bool:
        """Whether a factor begins as a test does, or with what may not be there."""
        token = self.tokens.peek()
        return token not in ("not", "(") and not (token in self.named and self.named[token].is_condition)

    def opens(self) -> None:
        """The last token opens a bracket, or is `not`."""
        if self.open == MOST_OPEN:
            self.tokens.fault("X11 BadCond")
        self.open += 1

    # --- values

    def leaf(self, tree: Tree, size: int = 1) -> Tree:
        """The last token is so large."""
        self.grows(size)
        return tree

    def grows(self, more: int = 1) -> None:
        """With the last token the item gets so much larger."""
        self.size += more
        if self.size > MOST_SIZE:
            self.tokens.too_long()

    def value(self, is_address: bool = False) -> Tree:
        tree = self.part(is_address)
        while (sign := self.tokens.peek()) in ("+", "-"):
            if sign == "-" and is_address:
                self.tokens.wrong()
            self.tokens.take()
            self.has_taken |= sign == "-"
            tree = sign, tree, self.part(is_address)
        return tree

    def part(self, is_address: bool) -> Tree:
        token = self.tokens.next()
        if token in ("persisted", "coherent"):
            return token, self.word()
        if token == "reg":
            return self.register()
        if is_identifier(token):
            return self.named_value(token, is_address)
        return self.leaf(("number", self.number(token)))

    def named_value(self, name: str, is_address: bool) -> Tree:
        if name not in self.named:
            self.tokens.fault("X2 UnknownName")
        named = self.named[name]
        if named.is_condition or is_address and named.takes:
            self.tokens.fault("X11 BadCond")
        self.has_taken |= named.takes
        return self.leaf(named.tree, named.size)

    def number(self, token: str) -> int:
        """The number that a token is, or for which it stands."""
        if token[0] == "&" or token[0].isupper():
            value = self.constants.get(token, self.address(token))
            return self.tokens.fault("X2 UnknownName") if value is None else value
        if not is_meant_as_number(token) or token in ("-", "->"):
            self.tokens.fault("X11 BadCond")
        value = number_of(token)
        return self.tokens.fault("X3 BadNumber") if value is None else value

    def address(self, token: str) -> int | None:
        word = self.words.get(token[1:]) if token[0] == "&" else None
        return None if word is None else FIRST_ADDRESS + 8 * word

    def word(self) -> Tree:
        """Which word is meant: the value that is its address."""
        token = self.tokens.next()
        if token == "[":
            self.opens()
            self.grows()
            tree = self.value(True)
            self.tokens.takes("]")
            self.open -= 1
            return tree
        if token not in self.words:
            self.tokens.fault("X2 UnknownName" if is_identifier(token) else "X11 BadCond")
        return self.leaf(("number", FIRST_ADDRESS + 8 * self.words[token]))

    def register(self) -> Tree:
        p = small_number_of(self.tokens.next())
        if p is None or p >= MOST_PROCESSORS:
            self.tokens.fault("X11 BadCond")
        if p >= self.processors:
            self.tokens.fault("X2 UnknownName")
        token = self.tokens.next()
        return self.leaf(("reg", p, REGISTERS.index(token))) if token in REGISTERS else self.tokens.fault("X11 BadCond")


# --- truth


def value_of(tree: Tree, machine: Machine, image: dict[int, int]) -> int | None:
    """A value over a machine and an image; nothing where it reads what is not there."""
    kind, *parts = tree
    if kind == "number":
        return parts[0]
    if kind == "reg":
        return machine.processors[parts[0]].registers[parts[1]]
    if kind in ("persisted", "coherent"):
        address = value_of(parts[0], machine, image)
        word = None if address is None else machine.program.word_at(address)
        return None if word is None else image[word] if kind == "persisted" else machine.coherent(word)
    left, right = (value_of(it, machine, image) for it in parts)
    if left is None or right is None:
        return None
    return left + right if kind == "+" else left - right


def truth_of(tree: Tree, machine: Machine, image: dict[int, int]) -> bool | None:
    """Whether a condition is true, false, or neither. Of `and` and `or` one side may say it."""
    kind, *parts = tree
    if kind == "compared":
        left, right = (value_of(it, machine, image) for it in parts[1:])
        return None if left is None or right is None else COMPARISONS[parts[0]](left, right)
    truths = [truth_of(it, machine, image) for it in parts]
    if kind == "not":
        return None if truths[0] is None else not truths[0]
    decides = kind == "or"
    return decides if decides in truths else None if None in truths else not decides


# --- answers


class Kept:
    """What a question asks of each state and image: that its condition is true, or, of `some`, that it is not."""

    def __init__(self, condition: Tree, wanted: bool) -> None:
        self.condition, self.wanted = condition, wanted

    def holds(self, machine: Machine, image: Image | None = None) -> bool:
        values = dict(zip(machine.persisted, image)) if image is not None else machine.persisted
        return (truth_of(self.condition, machine, values) is True) == self.wanted


def kept_by(question: Question) -> Kept:
    return Kept(question.condition, question.every)


def breaking(runs: Runs, place: str, kept: Kept) -> list[Image]:
    """What may be told where this is not so: of each state of a crash the least image, or what has persisted at an end."""
    return runs.broken_images(kept) if place == "crash" else runs.false_ends(kept, place == "recovery")


def is_asked(runs: Runs, question: Question) -> bool:
    """Whether it is asked of some state; where a condition of every state has a left side, of one in which that is true."""
    if question.every and question.left is not None:
        return bool(breaking(runs, question.place, Kept(question.left, False)))
    return question.place == "crash" or bool(runs.ends[question.place == "recovery"])


def answers_to(runs: Runs, question: Question) -> list[str]:
    """What may be answered: a line for each state that may be told."""
    if question.place == "recovery" and not runs.crashes:
        return ["not asked"]
    if told := breaking(runs, question.place, kept_by(question)):
        return [answer_told(runs.opening, question, it) for it in told]
    return ["asked of no state" if not is_asked(runs, question) else "holds" if question.every else "none"]


def answer_told(machine: Machine, question: Question, image: Image) -> str:
    """The answer where this image is told: the address of a word by its name."""
    addresses = {FIRST_ADDRESS + 8 * word: f"&{name}" for word, name in machine.program.names.items()}
    values = zip((machine.program.names[word] for word in machine.persisted), image)
    told = [f"{name}={addresses.get(value, value)}" for name, value in values]
    return " ".join(["fails" if question.every else "found", *told])


def is_good(answer: str) -> bool:
    return answer.split()[0] in ("holds", "found", "not")


def answers_told(runs: Runs, questions: Iterable[Question]) -> tuple[list[str], int]:
    """The report, with a line for each answer that may be, and the status."""
    lines, status = [], 0
    for it in questions:
        answers = answers_to(runs, it)
        lines += [f"{it.name} {answer}" for answer in answers]
        status |= not is_good(answers[0])
    return (lines, int(status)) if lines else (["nothing asked"], 1)


def hold_told(runs: Runs, questions: list[Question]) -> tuple[list[str], int]:
    """The report of a file that is one of several, without its name, and the status: how many questions are asked, where all answers are
    good; else a line for each answer that may be to the first question of which none is."""
    asked = 0
    for it in questions:
        answers = answers_to(runs, it)
        if not is_good(answers[0]):
            return [f"{it.name} {answer}" for answer in answers], 1
        asked += answers != ["not asked"]
    return ([f"{asked} hold"], 0) if questions else (["nothing asked"], 1)


def answer_of_state(machine: Machine, question: Question) -> str:
    """What the answer is where a run leads to this state; nothing where it is none of the question's place, or breaks nothing."""
    if question.place == "crash":
        images = images_of(machine)
    else:
        is_its_end = not enabled_of(machine) and (machine.crashes > 0) == (question.place == "recovery")
        images = [tuple(machine.persisted.values())] * is_its_end
    told = next((it for it in images if not kept_by(question).holds(machine, it)), None)
    return "" if told is None else f"{question.name} {answer_told(machine, question, told)}"
