"""The machine: what each step does, and when it is refused."""

from __future__ import annotations

from collections.abc import Callable, Iterator

from model.reading import Fault
from model.rules import (
    BUFFER_ENTRIES, LINE_WRITES, MARKERS, MASK, REGISTERS, Entry, Instruction, Operand, Step, keeps, line_of_entry,
)
from model.texts import Program


# What makes a step that is accepted: it tells what was seen of it.
Act = Callable[[], str]


class Refused(Exception):
    """A step is refused; the text says why."""


class Processor:
    def __init__(self, programs: dict[str, list[Instruction]]) -> None:
        self.programs = programs
        self.runs = "main"
        self.reset()

    def reset(self) -> None:
        self.place = 0
        self.registers = [0] * 8
        self.zero = 0
        self.buffer = []
        self.trap = None

    def stands(self) -> Instruction | None:
        """The instruction at its place, or none at its program's end."""
        program = self.programs[self.runs]
        return program[self.place] if self.place < len(program) else None

    def instruction(self) -> Instruction | None:
        """The instruction that it runs next, or none where it is trapped or at its program's end."""
        return self.stands() if self.trap is None else None

    def value(self, operand: Operand) -> int:
        """The value of a register, or a number."""
        return self.registers[operand[1]] if operand[0] == "register" else operand[1]


class Machine:
    # Whether a step waits where the order of the table asks it to (M4 and M7).
    waits = True

    def __init__(self, program: Program) -> None:
        self.program = program
        self.turns = 0
        self.crashes = 0
        self.processors = [Processor(programs) for programs in program.processors]
        self.pending = []
        self.persisted = {word: program.initial.get(word, 0) for word in sorted(program.names)}

    def copy(self) -> Machine:
        other = Machine(self.program)
        other.turns, other.crashes = self.turns, self.crashes
        other.pending = list(self.pending)
        other.persisted = dict(self.persisted)
        for mine, its in zip(self.processors, other.processors):
            its.runs, its.place, its.zero, its.trap = mine.runs, mine.place, mine.zero, mine.trap
            its.registers, its.buffer = list(mine.registers), list(mine.buffer)
        return other

    def coherent(self, word: int) -> int:
        for entry in reversed(self.pending):
            if entry[0] == "W" and entry[1] == word:
                return entry[2]
        return self.persisted[word]

    def seen_by(self, processor: Processor, word: int) -> int:
        for entry in reversed(processor.buffer):
            if entry[0] == "W" and entry[1] == word:
                return entry[2]
        return self.coherent(word)

    def step(self, step: Step) -> str:
        """Makes a step: what was seen of it. A step that is refused changes nothing."""
        action = getattr(self, step[0] + "_")(*step[1:])
        seen = action()
        self.turns += 1
        return seen

    def accepts(self, step: Step) -> bool:
        return self.refusal(step) is None

    def refusal(self, step: Step) -> str | None:
        """Why a step would be refused, or nothing."""
        try:
            getattr(self, step[0] + "_")(*step[1:])
        except Refused as refused:
            return str(refused)
        return None

    # Each of these tests a step, and answers what does it.

    def exec_(self, p: int) -> Act:
        if p >= len(self.processors):
            raise Refused("M2 NoCpu")
        processor = self.processors[p]
        instruction = processor.instruction()
        if instruction is None:
            raise Refused("M3 Halted")
        operation, *operands = instruction
        value = processor.value
        address = next((value(operand[1]) for operand in operands if operand[0] == "memory"), None)
        word = self.program.word_at(address) if address is not None else None
        if address is not None and word is None:
            return self.trapping(p, address)
        locked = operation in ("xchg", "xadd", "cmpxchg")
        entry = None
        if self.waits and (locked or operation == "mfence") and processor.buffer:
            raise Refused("M4 BufferNotEmpty")
        if operation == "mov" and operands[0][0] == "memory":
            entry = ("W", word, value(operands[1]))
        elif operation == "clflush":
            entry = ("FL", word // 8)
        elif operation in ("clflushopt", "clwb"):
            entry = ("FO", word // 8)
        elif operation == "sfence":
            entry = ("SF",)
        if entry and len(processor.buffer) >= BUFFER_ENTRIES:
            raise Refused("M5 BufferFull")
        if locked:
            register = operands[1][1]
            old = self.coherent(word)
            new = {
                "xchg": processor.registers[register],
                "xadd": (old + processor.registers[register]) & MASK,
                "cmpxchg": processor.registers[register] if processor.registers[0] == old else None,
            }[operation]
            if new is not None and self.writes_of(word // 8) >= LINE_WRITES:
                raise Refused("M8 LineFull")

        def act() -> str:
            place = processor.place
            processor.place += 1
            if locked:
                if new is not None:
                    self.pending.append(("W", word, new))
                if operation == "xchg":
                    processor.registers[register] = old
                elif operation == "xadd":
                    processor.registers[register] = old
                    processor.zero = int(new == 0)
                else:
                    processor.zero = int(new is not None)
                    if new is None:
                        processor.registers[0] = old
                told = f"locked {self.program.names[word]} {old} {'-' if new is None else new}"
            elif entry:
                processor.buffer.append(entry)
                told = f"delay {self.entry_text(entry)}"
            elif operation == "mov" and operands[1][0] == "memory":
                found = self.seen_by(processor, word)
                processor.registers[operands[0][1]] = found
                told = f"read {self.program.names[word]} {found}"
            elif operation == "mfence":
                told = "fence"
            else:
                self.local(processor, operation, operands, value)
                told = "local"
            return f"ran {p} {place} {told}"

        return act

    def trapping(self, p: int, address: int) -> Act:
        """An instruction whose address is no word's: all else of the processor stays."""

        def act() -> str:
            self.processors[p].trap = address
            return f"ran {p} {self.processors[p].place} trap {address}"

        return act

    def local(self, processor: Processor, operation: str, operands: list[Operand], value: Callable[[Operand], int]) -> None:
        """An instruction without memory, behind whose place the processor stands already."""
        if operation == "mov":
            processor.registers[operands[0][1]] = value(operands[1])
        elif operation == "add":
            total = (value(operands[0]) + value(operands[1])) & MASK
            processor.registers[operands[0][1]] = total
            processor.zero = int(total == 0)
        elif operation == "cmp":
            processor.zero = int(value(operands[0]) == value(operands[1]))
        elif operation == "jmp" or operation == "jz" and processor.zero or operation == "jnz" and not processor.zero:
            processor.place = operands[0][1]
        else:
            assert operation in ("jz", "jnz", "nop"), operation

    def drain_(self, p: int, i: int) -> Act:
        if p >= len(self.processors):
            raise Refused("M2 NoCpu")
        buffer = self.processors[p].buffer
        if i >= len(buffer):
            raise Refused("M6 NoEntry")
        for j in range(i):
            if self.waits and keeps(buffer[j], buffer[i]):
                raise Refused(f"M7 Held {j}")
        entry = buffer[i]
        if entry[0] == "W" and self.writes_of(line_of_entry(entry)) >= LINE_WRITES:
            raise Refused("M8 LineFull")
        if entry[0] in ("FL", "FO") and sum(it[0] == "PER" for it in self.pending) >= MARKERS:
            raise Refused("M9 MarkersFull")

        def act() -> str:
            del buffer[i]
            if entry[0] == "W":
                self.pending.append(entry)
            elif entry[0] != "SF":
                self.pending.append(("PER", entry[1]))
            return f"left {p} {i} {self.entry_text(entry)}"

        return act

    def persist_(self, line: int) -> Act:
        if line >= self.program.lines:
            raise Refused("M10 NoLine")
        if not self.writes_of(line):
            raise Refused("M11 NoPending")
        place = next(k for k, it in enumerate(self.pending) if it[0] == "W" and line_of_entry(it) == line)
        if any(it[0] == "PER" for it in self.pending[:place]):
            raise Refused("M12 BehindMarker")

        def act() -> str:
            _, word, value = self.pending.pop(place)
            self.persisted[word] = value
            return f"persisted {self.program.names[word]} {value}"

        return act

    def settle_(self) -> Act:
        place = next((k for k, it in enumerate(self.pending) if it[0] == "PER"), None)
        if place is None:
            raise Refused("M13 NoMarker")
        line = self.pending[place][1]
        if any(line_of_entry(it) == line for it in self.pending[:place]):
            raise Refused("M14 MarkerWaits")

        def act() -> str:
            del self.pending[place]
            return f"settled {line}"

        return act

    def crash_(self) -> Act:
        def act() -> str:
            self.pending = []
            self.crashes += 1
            for processor in self.processors:
                processor.reset()
                processor.runs = "recover"
            return f"crashed {self.crashes}"

        return act

    def writes_of(self, line: int) -> int:
        return sum(it[0] == "W" and line_of_entry(it) == line for it in self.pending)

    # What is told of a state.

    def entry_text(self, entry: Entry) -> str:
        if entry[0] == "W":
            return f"W {self.program.names[entry[1]]} {entry[2]}"
        return " ".join(map(str, entry))

    def state_text(self) -> Iterator[str]:
        yield f"turns {self.turns}"
        yield f"crashes {self.crashes}"
        for p, it in enumerate(self.processors):
            ready = "trapped" if it.trap is not None else "halted" if it.instruction() is None else "ready"
            yield f"cpu {p} {it.runs} {it.place} {ready} zf {it.zero}"
            if it.trap is not None:
                yield f"  trap {it.trap}"
            for name, value in zip(REGISTERS, it.registers):
                if value:
                    yield f"  reg {name} {value}"
            for i, entry in enumerate(it.buffer):
                yield f"  buf {i} {self.entry_text(entry)}"
        for word, value in self.persisted.items():
            yield f"word {self.program.names[word]} coherent {self.coherent(word)} persisted {value}"
        for i, entry in enumerate(self.pending):
            yield f"pend {i} {self.entry_text(entry)}"


def make_all(machine: Machine, steps: list[Step]) -> Machine:
    """Makes steps; the first one that is refused is a fault."""
    for at, step in enumerate(steps):
        try:
            machine.step(step)
        except Refused as refused:
            raise Fault(f"{refused} at {at}") from None
    return machine
