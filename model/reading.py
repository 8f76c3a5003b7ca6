"""Litmus texts read token by token, with their faults, as docs/FORMATS.md says them: what a text says, or the first fault of its lowest
line."""

from __future__ import annotations

from collections.abc import Iterator
from typing import NoReturn

from model.rules import JUMPS, REGISTERS

MARKS = ",[]:"
DIGITS = "0123456789"
LETTERS = "abcdefghijklmnopqrstuvwxyz"
OPERATIONS = "mov add cmp xchg lock mfence sfence clflush clflushopt clwb jmp jz jnz nop".split()
MOST_LINES, MOST_WORDS, MOST_PROCESSORS, MOST_INSTRUCTIONS = 64, 8, 16, 1024

# An instruction as it is written; of a jump its name, and a label or a place.
Said = str | tuple[str, str | int]


class Fault(Exception):
    """What the program says of an input that it refuses, or in place of an answer; and its exit status then."""

    def __init__(self, text: str, status: int = 2) -> None:
        super().__init__(text)
        self.status = status


def lines_of(data: bytes) -> list[bytes]:
    """The lines, without the line feeds that end them."""
    lines = data.split(b"\n")
    return lines[:-1] if lines[-1] == b"" else lines


def is_text(line: bytes) -> bool:
    """Whether all bytes of a line may stand in a text."""
    return all(byte in b" \t\r" or 0x21 <= byte <= 0x7E for byte in line)


def tokens_of(line: bytes, marks: str = MARKS) -> list[str]:
    """The tokens of a line: each of these marks, and each run of other characters."""
    tokens = []
    for word in line.decode("ascii").split("#")[0].split():
        run = ""
        for character in word:
            if character in marks:
                tokens += [run, character] if run else [character]
                run = ""
            else:
                run += character
        tokens += [run] if run else []
    return tokens


def is_name(token: str) -> bool:
    is_spelled = token[0] in LETTERS and len(token) <= 16 and all(it in LETTERS + DIGITS + "_" for it in token)
    return is_spelled and token not in REGISTERS


def is_meant_as_number(token: str) -> bool:
    return token[0] in DIGITS + "-"


def number_of(token: str) -> int | None:
    """The value of a number of 64 bits, or nothing."""
    digits, base, most, bound = token, DIGITS, 20, 2**64 - 1
    if token.startswith("0x"):
        digits, base, most = token[2:], DIGITS + "abcdefABCDEF", 16
    elif token.startswith("-"):
        digits, most, bound = token[1:], len(token), 2**63
    if not digits or len(digits) > most or any(it not in base for it in digits):
        return None
    value = int(digits, 16 if token.startswith("0x") else 10)
    if value > bound:
        return None
    return (-value if token.startswith("-") else value) % 2**64


def small_number_of(token: str) -> int | None:
    """The value of a number of a step, or nothing."""
    if not 1 <= len(token) <= 10 or any(it not in DIGITS for it in token):
        return None
    return int(token) if int(token) < 2**32 else None


class Litmus:
    """What a text says: the words of its lines, their initial values, and of each processor two lists of instructions, each as the
    text that it is written as, or as a jump and a place."""

    def __init__(self) -> None:
        self.lines: list[list[str]] = []
        self.initial: dict[int, int] = {}
        self.processors: list[tuple[list[Said], list[Said]]] = []

    def words(self) -> dict[int, str]:
        """Each word's number, in order, and its name."""
        return {8 * g + k: name for g, names in enumerate(self.lines) for k, name in enumerate(names)}

    def written(self) -> bytes:
        said = ["litmus 1"]
        said += [" ".join(["line", *names]) for names in self.lines]
        said += [f"init {name} {self.initial[it]}" for it, name in self.words().items() if self.initial.get(it)]
        for main, recovery in self.processors:
            said += ["cpu", *self.program(main)]
            said += ["recover", *self.program(recovery)] if recovery else []
            said += ["end"]
        return "".join(f"{line}\n" for line in said).encode("ascii")

    def program(self, instructions: list[Said]) -> Iterator[str]:
        places = {it[1] for it in instructions if isinstance(it, tuple)}
        for place, it in enumerate(instructions):
            if place in places:
                yield f"l{place}:"
            yield f"{it[0]} l{it[1]}" if isinstance(it, tuple) else it
        if len(instructions) in places:
            yield f"l{len(instructions)}:"


class LineReader:
    """Reads the tokens of one line of a litmus text, from left to right."""

    def __init__(self, tokens: list[str], names: dict[str, int], line: int) -> None:
        self.tokens = tokens
        self.names = names
        self.line = line

    def fault(self, text: str) -> NoReturn:
        raise Fault(f"{text} line {self.line}")

    def bad_word(self) -> NoReturn:
        self.fault("X1 BadWord")

    def next(self) -> str:
        if not self.tokens:
            self.bad_word()
        return self.tokens.pop(0)

    def takes(self, *tokens: str) -> None:
        """These tokens come next."""
        for token in tokens:
            if self.next() != token:
                self.bad_word()

    def ends(self) -> None:
        if self.tokens:
            self.bad_word()

    def register(self) -> str:
        token = self.next()
        return token if token in REGISTERS else self.bad_word()

    def name(self) -> str:
        token = self.next()
        if token in MARKS:
            self.bad_word()
        return token if token in self.names else self.fault("X2 UnknownName")

    def number(self) -> int:
        token = self.next()
        if not is_meant_as_number(token):
            self.bad_word()
        value = number_of(token)
        return self.fault("X3 BadNumber") if value is None else value

    def short_number(self) -> int:
        value = self.number()
        return self.fault("X3 BadNumber") if 2**31 <= value < 2**64 - 2**31 else value

    def memory(self) -> str:
        """A memory operand, with its brackets."""
        self.takes("[")
        token = self.next()
        if token in MARKS:
            self.bad_word()
        if token not in REGISTERS and token not in self.names:
            self.fault("X2 UnknownName")
        self.takes("]")
        return f"[{token}]"

    def is_register(self) -> bool:
        return self.tokens[:1] != [] and self.tokens[0] in REGISTERS

    def instruction(self) -> Said:
        """An instruction as it is written; of a jump its name and its label."""
        said = self.operation()
        self.ends()
        return said

    def operation(self) -> Said:
        operation = self.next()
        if operation in ("mfence", "sfence", "nop"):
            return operation
        if operation in ("clflush", "clflushopt", "clwb"):
            return f"{operation} {self.memory()}"
        if operation in JUMPS:
            label = self.next()
            return self.bad_word() if label in MARKS else (operation, label)
        if operation == "lock":
            locked = self.next()
            return f"lock {locked} {self.memory_and_register()}" if locked in ("xadd", "cmpxchg") else self.bad_word()
        if operation == "xchg":
            return f"xchg {self.memory_and_register()}"
        if operation in ("add", "cmp"):
            register = self.register()
            self.takes(",")
            return f"{operation} {register}, {self.short_number()}"
        return f"mov {self.moved()}" if operation == "mov" else self.bad_word()

    def memory_and_register(self) -> str:
        memory = self.memory()
        self.takes(",")
        return f"{memory}, {self.register()}"

    def moved(self) -> str:
        if self.tokens[:1] == ["["]:
            memory = self.memory()
            self.takes(",")
            return f"{memory}, {self.register() if self.is_register() else self.short_number()}"
        register = self.register()
        self.takes(",")
        if self.tokens[:1] == ["["]:
            return f"{register}, {self.memory()}"
        return f"{register}, {self.register() if self.is_register() else self.number()}"


class Block:
    """One program of a processor, while it is read."""

    def __init__(self) -> None:
        self.instructions: list[Said] = []
        self.labels: dict[str, int] = {}
        self.lines: list[int] = []


class LitmusReader:
    """Reads a litmus text, line by line."""

    def __init__(self) -> None:
        self.litmus = Litmus()
        self.names: dict[str, int] = {}
        self.begun = False
        # The main and the recovery program that are read, and all that were.
        self.blocks: list[Block] = []
        self.all: list[list[Block]] = []

    def read_all(self, data: bytes) -> Litmus:
        """What the text says."""
        lines = lines_of(data)
        for number, line in enumerate(lines, 1):
            if self.keeps(number, line):
                continue
            if not is_text(line):
                raise Fault(f"X7 NotAscii line {number}")
            tokens = tokens_of(line)
            if tokens:
                self.read_line(number, tokens)
        if self.blocks or not self.begun:
            raise Fault(f"X6 MissingEnd line {max(len(lines), 1)}")
        self.litmus.processors = [(self.resolved(main), self.resolved(recovery)) for main, recovery in self.all]
        return self.litmus

    def keeps(self, _number: int, _line: bytes) -> bool:
        """Whether a line is kept, to be read behind the others."""
        return False

    def read_line(self, number: int, tokens: list[str]) -> None:
        """Reads a line that has tokens."""
        self.read(LineReader(tokens, self.names, number))

    def read(self, line: LineReader) -> None:
        if not self.begun:
            line.takes("litmus", "1")
            line.ends()
            self.begun = True
        elif self.blocks:
            self.read_in_program(line)
        elif line.tokens[0] == "cpu":
            if len(self.all) == MOST_PROCESSORS:
                line.fault("X5 TooLong")
            line.takes("cpu")
            line.ends()
            self.blocks = [Block()]
        elif line.tokens[0] == "line" and not self.all:
            self.read_names(line)
        elif line.tokens[0] == "init" and not self.all:
            line.takes("init")
            word = self.names[line.name()]
            self.litmus.initial[word] = line.number()
            line.ends()
        else:
            line.bad_word()

    def read_names(self, line: LineReader) -> None:
        names = line.tokens[1:]
        if len(self.litmus.lines) == MOST_LINES:
            line.fault("X8 L1 TooManyLines")
        if len(names) > MOST_WORDS:
            line.fault("X8 L2 LineTooLong")
        for place, name in enumerate(names):
            if not is_name(name):
                line.fault("X8 L4 BadName")
            if name in self.names:
                line.fault("X8 L3 DoubleName")
            self.names[name] = 8 * len(self.litmus.lines) + place
        self.litmus.lines.append(names)

    def read_in_program(self, line: LineReader) -> None:
        block = self.blocks[-1]
        if line.tokens[1:2] == [":"]:
            label = line.next()
            if label in MARKS:
                line.bad_word()
            if not is_name(label) or label in block.labels:
                line.fault("X4 BadLabel")
            block.labels[label] = len(block.instructions)
            line.takes(":")
            line.ends()
        elif line.tokens[0] == "end":
            line.takes("end")
            line.ends()
            self.all.append(self.blocks if len(self.blocks) == 2 else [*self.blocks, Block()])
            self.blocks = []
        elif line.tokens[0] == "recover" and len(self.blocks) == 1:
            line.takes("recover")
            line.ends()
            self.blocks.append(Block())
        else:
            self.read_instruction(line, block)

    def read_instruction(self, line: LineReader, block: Block) -> None:
        if len(block.instructions) == MOST_INSTRUCTIONS and line.tokens[0] in OPERATIONS:
            line.fault("X5 TooLong")
        block.instructions.append(line.instruction())
        block.lines.append(line.line)

    def resolved(self, block: Block) -> list[Said]:
        """The instructions with places in place of labels."""
        said: list[Said] = []
        for it, line in zip(block.instructions, block.lines):
            if isinstance(it, tuple):
                if it[1] not in block.labels:
                    raise Fault(f"X4 BadLabel line {line}")
                it = it[0], block.labels[str(it[1])]
            said.append(it)
        return said
