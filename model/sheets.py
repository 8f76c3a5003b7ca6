"""Sheets, with their faults: litmus texts with abbreviations, of which each line says lines of a litmus text; and their questions."""

from __future__ import annotations

import re

from model.questions import BEGINS, Question, QuestionsReader
from model.reading import (
    DIGITS, MOST_PROCESSORS, LineReader, Litmus, LitmusReader, is_meant_as_number, is_text, lines_of, number_of, small_number_of, tokens_of,
)
from model.rules import FIRST_ADDRESS
from model.texts import Program

UPPER, MOST_COPIES, MOST_NUMBERED = "ABCDEFGHIJKLMNOPQRSTUVWXYZ", 64, 8


def is_constant(token: str) -> bool:
    """Whether this is spelled as a constant."""
    return token[0] in UPPER and len(token) <= 16 and all(it in UPPER + DIGITS + "_" for it in token)


def first_token(line: bytes) -> str:
    """The first token of a line, of which not all bytes may be allowed; nothing where it has none, or a mark."""
    token = re.match(rb"[ \t\r]*([^ \t\r,\[\]:#]*)", line)
    return token[1].decode("latin-1") if token else ""


def is_label_line(tokens: list[str]) -> bool:
    return tokens[1:2] == [":"]


class Cpu:
    """The processors of one `cpu`, while their lines are read: which is the first, how many there are, whether `$` is their number,
    and the lines from the first on."""

    def __init__(self, line: int, first: int, count: int, is_numbered: bool) -> None:
        self.line, self.first, self.count, self.is_numbered = line, first, count, is_numbered
        self.lines: list[tuple[int, list[str]]] = []
        # Whether the recovery program that is read is another processor's.
        self.passes_over = False

    def copy(self, tokens: list[str], p: int) -> list[str]:
        """The tokens of a line as processor `p` has them."""
        return copy_of(tokens, p) if self.is_numbered else tokens


def copy_of(tokens: list[str], number: int) -> list[str]:
    return [it.replace("$", str(number)) for it in tokens]


class SheetReader(LitmusReader):
    """Reads a sheet: of each line what is an abbreviation in it, from left to right, and then as a litmus text what it says."""

    def __init__(self) -> None:
        super().__init__()
        self.constants: dict[str, int] = {}
        self.cpu: Cpu | None = None
        # The lines from the first question on, what reads them, and what they ask.
        self.kept: list[tuple[int, bytes]] = []
        self.items: QuestionsReader | None = None
        self.questions: list[Question] = []

    def read_all(self, data: bytes) -> Litmus:
        """What the sheet says. The faults of its questions come behind those of its program."""
        litmus = super().read_all(data)
        self.items = QuestionsReader(self.kept, self.names, self.constants, len(self.all))
        self.questions = self.items.read_all()
        return litmus

    def keeps(self, number: int, line: bytes) -> bool:
        """Behind a block questions may begin; all that follows is of them."""
        if not self.kept and (self.cpu or not self.all or first_token(line) not in BEGINS):
            return False
        self.kept.append((number, line))
        return True

    def says(self, number: int, *tokens: str) -> None:
        """This line of a litmus text is what is said."""
        self.read(LineReader(list(tokens), self.names, number))

    def read_line(self, number: int, tokens: list[str]) -> None:
        if not self.begun:
            self.says(number, "litmus", "1")
        elif self.cpu:
            self.read_in_cpu(self.cpu, number, tokens)
        else:
            line = LineReader(tokens[1:], self.names, number)
            reads = {"const": self.read_constant, "line": self.read_words, "init": self.read_values} if not self.all else {}
            reads["cpu"] = self.read_cpu
            # Any other line has no abbreviation, and is refused.
            reads.get(tokens[0], lambda line: self.says(number, tokens[0], *line.tokens))(line)

    # --- tokens

    def next_plain(self, line: LineReader) -> str:
        """The next token, in place of a constant its number, and in place of `&` and a word's name its address."""
        token = line.next()
        if token[0] == "&":
            word = self.names.get(token[1:])
            return line.fault("X2 UnknownName") if word is None else str(FIRST_ADDRESS + 8 * word)
        if token[0] in UPPER:
            return str(self.constants[token]) if token in self.constants else line.fault("X2 UnknownName")
        return token

    def plain(self, line: LineReader) -> list[str]:
        """All tokens that are left."""
        return [self.next_plain(line) for _ in range(len(line.tokens))]

    def next_number(self, line: LineReader) -> int:
        token = self.next_plain(line)
        if not is_meant_as_number(token):
            line.bad_word()
        value = number_of(token)
        return line.fault("X3 BadNumber") if value is None else value

    def next_count(self, line: LineReader, most: int) -> int:
        count = self.next_number(line)
        return count if 1 <= count <= most else line.fault("X3 BadNumber")

    def next_copies(self, line: LineReader, most: int) -> int | None:
        """How many copies `* N` asks for, if that comes next."""
        if line.tokens[:1] != ["*"]:
            return None
        line.takes("*")
        return self.next_count(line, most)

    # --- lines before the first processor

    def read_constant(self, line: LineReader) -> None:
        name = line.next()
        if not is_constant(name) or name in self.constants:
            line.fault("X10 BadName")
        value = self.next_number(line)
        line.ends()
        self.constants[name] = value

    def read_words(self, line: LineReader) -> None:
        copies = self.next_copies(line, MOST_COPIES)
        numbered = [line.tokens] if copies is None else [copy_of(line.tokens, it) for it in range(copies)]
        for names in [self.names_of(LineReader(list(tokens), self.names, line.line)) for tokens in numbered]:
            self.says(line.line, "line", *names)

    def names_of(self, line: LineReader) -> list[str]:
        """The names that are said: `NAME [ K ]` says K."""
        names = []
        while line.tokens:
            name = self.next_plain(line)
            if line.tokens[:1] == ["["]:
                line.takes("[")
                count = self.next_count(line, MOST_NUMBERED)
                line.takes("]")
                names += [f"{name}{it}" for it in range(count)]
            else:
                names.append(name)
        return names

    def read_values(self, line: LineReader) -> None:
        if len(line.tokens) < 2 or line.tokens[0] not in self.names:
            self.says(line.line, "init", *line.tokens)
            return
        name = line.next()
        word, words = self.names[name], {word: name for name, word in self.names.items()}
        values = []
        while line.tokens:
            value = self.next_plain(line)
            values.append((words.get(word + len(values)) or line.bad_word(), value))
        for name, value in values:
            self.says(line.line, "init", name, value)

    # --- processors

    def read_cpu(self, line: LineReader) -> None:
        copies = self.next_copies(line, MOST_PROCESSORS)
        if copies is not None and len(self.all) + copies > MOST_PROCESSORS:
            line.fault("X5 TooLong")
        self.says(line.line, "cpu", *self.plain(line))
        self.cpu = Cpu(line.line, len(self.all), copies or 1, copies is not None)

    def read_in_cpu(self, cpu: Cpu, number: int, tokens: list[str]) -> None:
        """A line is read for the first processor, and at `end` all are for the others, one after another."""
        cpu.lines.append((number, tokens))
        self.read_of(cpu, cpu.first, number, tokens)
        if tokens[0] != "end" or is_label_line(tokens):
            return
        for p in range(cpu.first + 1, cpu.first + cpu.count):
            cpu.passes_over = False
            self.says(cpu.line, "cpu")
            for copied, row in cpu.lines:
                self.read_of(cpu, p, copied, row)
        self.cpu = None

    def read_of(self, cpu: Cpu, p: int, number: int, tokens: list[str]) -> None:
        """Reads a line for a processor."""
        first, *rest = cpu.copy(tokens, p)
        is_label = is_label_line([first, *rest])
        if cpu.passes_over and (first != "end" or is_label):
            return
        line = LineReader(rest, self.names, number)
        if first == "recover" and rest and not is_label and len(self.blocks) == 1:
            self.read_recover(cpu, p, line)
        else:
            self.says(number, first, *self.plain(line))

    def read_recover(self, cpu: Cpu, p: int, line: LineReader) -> None:
        """`recover P`: the recovery program is that of one processor alone. Its number is spelled as in steps."""
        one = small_number_of(line.next())
        if one is None:
            line.bad_word()
        if not cpu.first <= one < cpu.first + cpu.count:
            line.fault("X3 BadNumber")
        line.ends()
        if one == p:
            self.says(line.line, "recover")
        else:
            cpu.passes_over = True


def is_sheet(data: bytes) -> bool:
    """Whether the first line that has tokens is `sheet 1`."""
    lines = (tokens_of(line) for line in lines_of(data) if is_text(line))
    return next(filter(None, lines), []) == ["sheet", "1"]


def reader_of(data: bytes) -> LitmusReader:
    """What reads a litmus text, or a sheet."""
    return SheetReader() if is_sheet(data) else LitmusReader()


def litmus_of(data: bytes) -> Litmus:
    """What a litmus text or a sheet says; or its fault."""
    return reader_of(data).read_all(data)


def program_of(text: str) -> Program:
    """The program of a litmus text or a sheet that has no fault."""
    data = text.encode("ascii")
    if not is_sheet(data):
        return Program(text)
    reader = SheetReader()
    program = Program(reader.read_all(data).written().decode("ascii"))
    program.told_lines = [{"main": main.lines, "recover": recovery.lines} for main, recovery in reader.all]
    program.questions, program.items = reader.questions, reader.items
    return program
