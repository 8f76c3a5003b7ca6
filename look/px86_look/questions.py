"""What the page may ask: each question is an object of JSON, is tested here, and has an object as its answer."""

from __future__ import annotations

from collections.abc import Callable, Sequence
from typing import Any

from . import search, steps
from .emulator import Px86, Running
from .examples import Example
from .faults import Gone, Refused
from .kept import Kept
from .view import Data, View

MOST_BYTES = 2_000_000
MOST_CONDITION = 20_000
MOST_LISTS = 64
# How many states a check explores, unless the page says another number.
STATES = 200_000
# The plan of a hunt: of each number its name, the most that it may be, and what it is if the page says none.
PLAN = (("seed", 2**32 - 1, 0), ("runs", 10**7, 1_000), ("length", 100_000, 200))


def text_in(asked: Data, name: str, most: int = MOST_BYTES) -> str:
    value = asked.get(name)
    if not isinstance(value, str) or len(value) > most or "\0" in value:
        raise Refused(f"{name}: a text")
    return value


def number_in(asked: Data, name: str, most: int, default: int | None = None) -> int:
    value = asked.get(name, default)
    if not isinstance(value, int) or isinstance(value, bool) or not 0 <= value <= most:
        raise Refused(f"{name}: a number up to {most}")
    return value


def values_in(asked: Data) -> list[int]:
    """The values of a memory. The page has a large one as a text."""
    values = asked.get("values")
    if not isinstance(values, list) or not all(str(it).isascii() and str(it).isdecimal() and len(str(it)) <= 20 for it in values):
        raise Refused("values: a list of numbers")
    return list(map(int, values))


def condition_in(asked: Data) -> str:
    return text_in(asked, "condition", MOST_CONDITION)


def kind_in(asked: Data) -> str:
    kind = asked.get("kind")
    if kind not in search.KINDS:
        raise Refused("kind: all, ends or recovered")
    return str(kind)


class Questions:
    """Answers what is asked of any text. What a person opened first is `begin`."""

    def __init__(self, px86: Px86, begin: Data, examples: Sequence[Example]) -> None:
        self.px86 = px86
        self.begin = begin
        self.examples = examples
        self.views: Kept[View] = Kept(50)
        self.looks: Kept[Data] = Kept(200)
        self.images: Kept[Data] = Kept(1000)
        self.marks: Kept[str] = Kept(5000)
        self.running = Running()
        self.by_name: dict[str, Callable[[Data], Data]] = {
            "begin": self.of_begin,
            "example": self.of_example,
            "look": self.of_look,
            "broken": self.of_broken,
            "marks": self.of_marks,
            "image": self.of_image,
            "why": self.of_why,
            "check": self.of_check,
            "hunt": self.of_hunt,
            "mend": self.of_mend,
            "stop": self.of_stop,
        }

    def view(self, asked: Data) -> View:
        text = text_in(asked, "text")
        return self.views.of(text, lambda: View(self.px86, text))

    def of_begin(self, _: Data) -> Data:
        return self.begin | {"examples": [it.about for it in self.examples]}

    def of_example(self, asked: Data) -> Data:
        return self.examples[number_in(asked, "number", len(self.examples) - 1)].read()

    def of_look(self, asked: Data) -> Data:
        view, given = self.view(asked), steps.checked(asked.get("steps"))
        at = number_in(asked, "at", len(given))
        return self.looks.of((view.text, tuple(given), at), lambda: view.look(given, at))

    def of_broken(self, asked: Data) -> Data:
        view, given, condition = self.view(asked), steps.checked(asked.get("steps")), condition_in(asked)
        return self.looks.of((view.text, tuple(given), condition), lambda: view.broken(given, condition))

    def of_marks(self, asked: Data) -> Data:
        """Of each list of steps whether a crash behind it may break the condition."""
        view, condition, lists = self.view(asked), condition_in(asked), asked.get("lists")
        if not isinstance(lists, list) or len(lists) > MOST_LISTS:
            raise Refused(f"lists: at most {MOST_LISTS}")
        given = [steps.checked(it) for it in lists]
        return {"marks": [self.mark(view, it, condition) for it in given]}

    def mark(self, view: View, given: list[str], condition: str) -> str:
        return self.marks.of((view.text, tuple(given), condition), lambda: view.mark(given, condition))

    def of_image(self, asked: Data) -> Data:
        view, given, values = self.view(asked), steps.checked(asked.get("steps")), values_in(asked)
        return self.images.of((view.text, tuple(given), tuple(values)), lambda: view.image(given, values))

    def of_why(self, asked: Data) -> Data:
        """What refuses the last of these steps."""
        given = steps.checked(asked.get("steps"))
        if not given:
            raise Refused("steps: none")
        return self.view(asked).refusal(given)

    def run_long(self, make: Callable[[Running], Data]) -> Data:
        """What runs for long, of which there is one: the one before is stopped."""
        self.running.stop()
        self.running = running = Running()
        try:
            return make(running)
        except Gone as gone:
            return {"fault": {"sentence": str(gone), "told": ""}}

    def of_check(self, asked: Data) -> Data:
        view, given, condition, kind = self.view(asked), steps.checked(asked.get("steps")), condition_in(asked), kind_in(asked)
        states = number_in(asked, "states", 10**7, STATES)
        return self.run_long(lambda running: search.check(view, kind, condition, given, states, running))

    def of_hunt(self, asked: Data) -> Data:
        view, given, condition = self.view(asked), steps.checked(asked.get("steps")), condition_in(asked)
        plan: list[str] = []
        for name, most, default in PLAN:
            plan += [f"--{name}", str(number_in(asked, name, most, default))]
        return self.run_long(lambda running: search.hunt(view, condition, given, plan, running))

    def of_mend(self, asked: Data) -> Data:
        """What a text lacks. Its runs begin in its first state, so no steps are read."""
        view, condition, kind = self.view(asked), condition_in(asked), kind_in(asked)
        states = number_in(asked, "states", 10**7, STATES)
        return self.run_long(lambda running: search.mend(view, kind, condition, states, running))

    def of_stop(self, _: Data) -> Data:
        self.running.stop()
        return {}


def answer_to(questions: Questions, name: str, asked: Any) -> Data:
    """The answer to a question, of which there is one of this name; Refused if it is not understood."""
    if not isinstance(asked, dict):
        raise Refused("an object is wanted")
    return questions.by_name[name](asked)
