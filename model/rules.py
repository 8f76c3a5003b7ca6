"""The numbers and names of the machine, and the table of kept order."""

from __future__ import annotations

from typing import Any

# What stands in a store buffer or in the pending list, by its kind: W, its word and its value; FL, FO or PER, and its line; SF. A step
# by its name and its numbers. Where an instruction is: its processor, `main` or `recover`, its place.
Entry = tuple[Any, ...]
Step = tuple[Any, ...]
Image = tuple[int, ...]
Site = tuple[int, str, int]
Operand = tuple[str, Any]
Instruction = tuple[Any, ...]

MASK = 2**64 - 1
REGISTERS = "rax rcx rdx rbx rsi rdi r8 r9".split()
FIRST_ADDRESS = 0x1000
BUFFER_ENTRIES = 128
LINE_WRITES = 256
MARKERS = 256
CANDIDATES = 65536
JUMPS = ("jmp", "jz", "jnz")

COLUMNS = "Read Write RMW mfence sfence flushopt flush".split()
TABLE = {
    "Read": "Y Y Y Y Y Y Y",
    "Write": "N Y Y Y Y CL Y",
    "RMW": "Y Y Y Y Y Y Y",
    "mfence": "Y Y Y Y Y Y Y",
    "sfence": "N Y Y Y Y Y Y",
    "flushopt": "N N Y Y Y N CL",
    "flush": "N Y Y Y Y CL Y",
}
CELLS = {(row, column): cell for row, cells in TABLE.items() for column, cell in zip(COLUMNS, cells.split())}
KIND = {"W": "Write", "FL": "flush", "FO": "flushopt", "SF": "sfence"}


def kept(earlier: tuple[str, int | None], later: tuple[str, int | None]) -> bool:
    """Whether the table keeps the order of these two operations, of which each is told by its kind and its line."""
    cell = CELLS[earlier[0], later[0]]
    return cell == "Y" or cell == "CL" and earlier[1] == later[1]


def keeps(earlier: Entry, later: Entry) -> bool:
    """The same of two entries of a store buffer."""
    return kept((KIND[earlier[0]], line_of_entry(earlier)), (KIND[later[0]], line_of_entry(later)))


def line_of_entry(entry: Entry) -> int | None:
    """The cache line of an entry: of a write that of its word."""
    if entry[0] == "W":
        return entry[1] // 8
    return entry[1] if len(entry) > 1 else None
