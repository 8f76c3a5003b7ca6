"""Litmus texts and lists of steps."""

from __future__ import annotations

import copy
import re
from collections.abc import Iterator, Sequence
from typing import Any

from model.rules import FIRST_ADDRESS, JUMPS, REGISTERS, Instruction, Operand, Step


def lines_of(text: str) -> Iterator[list[str]]:
    """The tokens of each line that has some."""
    for line in text.split("\n"):
        tokens = re.findall(r"[,\[\]:]|[^\s,\[\]:]+", line.split("#")[0])
        if tokens:
            yield tokens


def number_of(token: str) -> int:
    if token.startswith("0x"):
        return int(token[2:], 16)
    return int(token) % 2**64


class Program:
    """Words, initial values, and of each processor the main and the recovery program."""

    # Of each processor, and each of its two programs, the lines on which its instructions are told, where these are not those of its
    # text: those of a sheet that says it, or of the text before a store was moved.
    told_lines: list[dict[str, list[int]]] | None = None
    # What the sheet asks, and what reads the condition of an option by its items; nothing of a litmus text.
    questions: Sequence[Any] = ()
    items: Any = None

    def __init__(self, text: str) -> None:
        self.text = text
        self.lines = 0
        self.words = {}
        self.initial = {}
        self.processors = []
        block = None
        for tokens in lines_of(text):
            if tokens[0] == "litmus":
                pass
            elif tokens[0] == "line" and block is None:
                for place, name in enumerate(tokens[1:]):
                    self.words[name] = 8 * self.lines + place
                self.lines += 1
            elif tokens[0] == "init" and block is None:
                self.initial[self.words[tokens[1]]] = number_of(tokens[2])
            elif tokens == ["cpu"]:
                block = {"main": [], "recover": []}
                into, labels, spots = "main", {}, {"main": {}, "recover": {}}
            elif tokens == ["recover"]:
                into = "recover"
            elif tokens == ["end"]:
                self.processors.append({name: self.resolved(block[name], spots[name]) for name in block})
                block = None
            elif tokens[1:2] == [":"]:
                spots[into][tokens[0]] = len(block[into])
            else:
                block[into].append(tokens)
        self.names = {word: name for name, word in self.words.items()}

    def resolved(self, instructions: list[list[str]], spots: dict[str, int]) -> list[Instruction]:
        """The instructions with words and places in place of names: an operation and its operands."""
        return [self.instruction(tokens, spots) for tokens in instructions]

    def instruction(self, tokens: list[str], spots: dict[str, int]) -> Instruction:
        operation = tokens[0]
        if operation == "lock":
            operation, tokens = tokens[1], tokens[1:]
        if operation in JUMPS:
            return operation, ("place", spots[tokens[1]])
        operands = []
        rest = tokens[1:]
        while rest:
            if rest[0] == "[":
                operands.append(("memory", self.address(rest[1])))
                rest = rest[3:]
            elif rest[0] == ",":
                rest = rest[1:]
            elif rest[0] in REGISTERS:
                operands.append(("register", REGISTERS.index(rest[0])))
                rest = rest[1:]
            else:
                operands.append(("number", number_of(rest[0])))
                rest = rest[1:]
        return (operation, *operands)

    def instruction_text(self, instruction: Instruction) -> str:
        """An instruction in its written form: a jump leads to the label of its place, numbers are decimal."""
        operation, *operands = instruction
        told = ", ".join(map(self.operand_text, operands))
        return " ".join([*(["lock"] if operation in ("xadd", "cmpxchg") else []), operation, *([told] if told else [])])

    def operand_text(self, operand: Operand) -> str:
        kind, value = operand
        if kind == "memory":
            name = REGISTERS[value[1]] if value[0] == "register" else self.names[self.word_at(value[1])]
            return f"[{name}]"
        return {"register": lambda: REGISTERS[value], "place": lambda: f"l{value}", "number": lambda: str(value)}[kind]()

    def replaced(self, p: int, block: str, place: int, instruction: Instruction) -> Program:
        """The same program, but for this one instruction, which is another."""
        other = copy.copy(self)
        other.processors = copy.deepcopy(self.processors)
        other.processors[p][block][place] = instruction
        return other

    def with_text(self, text: str) -> Program:
        """The program of another text, with the same words. Conditions name the same in it."""
        other = Program(text)
        other.items = self.items
        return other

    def without(self, p: int, block: str, place: int) -> Program:
        """The same program, but for this one instruction, which is a nop."""
        return self.replaced(p, block, place, ("nop",))

    def address(self, token: str) -> Operand:
        """What gives the address that stands between brackets: a register, or the number of a word's address."""
        if token in REGISTERS:
            return "register", REGISTERS.index(token)
        return "number", FIRST_ADDRESS + 8 * self.words[token]

    def word_at(self, address: int) -> int | None:
        """The word of an address, or none where there is no such word."""
        word, rest = divmod(address - FIRST_ADDRESS, 8)
        return word if rest == 0 and word in self.names else None


def steps_of(text: str) -> list[Step]:
    return [(tokens[0], *map(int, tokens[1:])) for tokens in lines_of(text)]


def step_text(step: Step) -> str:
    return " ".join(map(str, step))
