"""Conditions."""

from __future__ import annotations

import re
from collections.abc import Callable
from typing import Any

from model.machine import Machine
from model.rules import REGISTERS, Image
from model.texts import Program, number_of


class Condition:
    """The truth of a condition over a machine, and perhaps an image in place of the persisted values."""

    TESTS = {
        "=": lambda a, b: a == b,
        "!=": lambda a, b: a != b,
        "<": lambda a, b: a < b,
        "<=": lambda a, b: a <= b,
        ">": lambda a, b: a > b,
        ">=": lambda a, b: a >= b,
    }

    def __init__(self, text: str, program: Program) -> None:
        self.tokens = re.findall(r"[()]|[^\s()]+", text)
        self.program = program

    def holds(self, machine: Machine, image: Image | None = None) -> bool:
        self.place = 0
        self.machine = machine
        self.values = dict(zip(machine.persisted, image)) if image is not None else machine.persisted
        truth = self.any_of("or", lambda: self.any_of("and", self.factor, all), any)
        assert self.place == len(self.tokens)
        return truth

    def next(self) -> str:
        self.place += 1
        return self.tokens[self.place - 1]

    def any_of(self, word: str, part: Callable[[], bool], joined: Callable[[list[bool]], bool]) -> bool:
        truths = [part()]
        while self.tokens[self.place : self.place + 1] == [word]:
            self.next()
            truths.append(part())
        return joined(truths)

    def factor(self) -> bool:
        token = self.next()
        if token == "not":
            return not self.factor()
        if token == "(":
            truth = self.any_of("or", lambda: self.any_of("and", self.factor, all), any)
            assert self.next() == ")"
            return truth
        if token == "persisted":
            found = self.values[self.program.words[self.next()]]
        elif token == "coherent":
            found = self.machine.coherent(self.program.words[self.next()])
        else:
            assert token == "reg"
            p, register = int(self.next()), REGISTERS.index(self.next())
            there = p < len(self.machine.processors)
            found = self.machine.processors[p].registers[register] if there else None
        test, number = self.TESTS[self.next()], number_of(self.next())
        return found is not None and test(found, number)


def condition_of(text: str, program: Program) -> Any:
    """What the condition of an option asks of a program: of a sheet it is written as those of its questions, and may name what one more
    item of it might."""
    return Condition(text, program) if program.items is None else program.items.asked(text)
