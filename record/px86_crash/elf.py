"""What is asked of an ELF file: where the bytes at an offset are in memory, and which function has an address."""

from __future__ import annotations

import bisect
import struct
from functools import lru_cache

SYMBOLS, DYNAMIC_SYMBOLS = 2, 11
FUNCTION, CHOSEN_FUNCTION = 2, 10


def address_of(path: str, offset: int) -> int:
    """The address that the file gives to what stands at an offset of it."""
    with open(path, "rb") as file:
        head = file.read(64)
        if head[:5] != b"\x7fELF\x02":
            raise OSError
        table, size, count = struct.unpack_from("<Q", head, 32)[0], *struct.unpack_from("<HH", head, 54)
        file.seek(table)
        rows = file.read(size * count)
    for number in range(count):
        kind, _, begin, address, _, length = struct.unpack_from("<IIQQQQ", rows, size * number)
        if kind == 1 and begin <= offset < begin + length:
            return int(offset - begin + address)
    return offset


@lru_cache(maxsize=64)
def functions_of(path: str) -> list[tuple[int, int, str]]:
    """The functions of a file that have a name and a length: the address, the end, and the name, ascending."""
    try:
        with open(path, "rb") as file:
            data = file.read()
        table = struct.unpack_from("<Q", data, 40)[0]
        size, count = struct.unpack_from("<HH", data, 58)
        sections = [struct.unpack_from("<IIQQQQII", data, table + size * number) for number in range(count)]
        found = set()
        for _, kind, _, _, place, length, link, _ in sections:
            if kind in (SYMBOLS, DYNAMIC_SYMBOLS):
                names = sections[link][4]
                for name, info, _, section, value, extent in struct.iter_unpack("<IBBHQQ", data[place : place + length // 24 * 24]):
                    if info & 15 in (FUNCTION, CHOSEN_FUNCTION) and section and extent:
                        text = data[names + name : data.index(b"\0", names + name)].decode(errors="replace")
                        found.add((value, value + extent, text))
        return sorted(found)
    except (OSError, struct.error, IndexError, ValueError):
        return []


def function_at(path: str, offset: int) -> str | None:
    """The function that the bytes at an offset of a file are of, if a table of symbols tells it."""
    try:
        address = address_of(path, offset)
    except (OSError, struct.error):
        return None
    functions = functions_of(path)
    place = bisect.bisect_right(functions, (address, 1 << 64, ""))
    if place == 0 or not functions[place - 1][0] <= address < functions[place - 1][1]:
        return None
    return functions[place - 1][2]
