"""Files of memories, and how a checker is started on them. Run by tests/recording, as test_states.py is."""

from __future__ import annotations

import os
import subprocess
import sys
import tempfile
import unittest
from collections.abc import Callable
from unittest import mock

sys.dont_write_bytecode = True
sys.path.insert(0, os.path.dirname(os.path.dirname(os.path.abspath(__file__))))

from px86_crash import memory_files
from px86_crash.checker import words_of
from px86_crash.memory_files import MemoryFile
from px86_crash.recording import Recording
from px86_crash.states import History
from px86_crash.stepper import data_of

BLOCK = 4096
SIZE = 5 * BLOCK + 72


def change(path: str, offset: int, data: bytes) -> None:
    with open(path, "r+b") as file:
        file.seek(offset)
        file.write(data)


# What a checker may do to its file.
DEEDS: dict[str, Callable[[str], None]] = {
    "nothing": lambda path: None,
    "a store to what is there": lambda path: change(path, BLOCK + 8, b"x" * 100),
    "a store to a hole": lambda path: change(path, 4 * BLOCK + 8, b"x"),
    "a store to the last bytes": lambda path: change(path, SIZE - 1, b"x"),
    "a store behind the end": lambda path: change(path, SIZE + 3 * BLOCK, b"x"),
    "a store behind the end, in the last block": lambda path: change(path, SIZE, b"x" * 8),
    "cut off": lambda path: os.truncate(path, BLOCK + 20),
    "emptied": lambda path: os.truncate(path, 0),
    "removed": os.remove,
}


def history_of(folder: str) -> tuple[History, bytes]:
    """A region of six blocks, of which the second alone is not zero, and a word of the fourth is stored; and the bytes then."""
    log = os.path.join(folder, "log")
    before = bytearray(SIZE)
    before[BLOCK : BLOCK + 200] = b"b" * 200
    after = bytearray(before)
    after[3 * BLOCK + 16] = 1
    events = ["px86-recording 1", f"region {SIZE:#x} pool", f"store 0 0x1 {3 * BLOCK + 16:#x} 0100000000000000", "end 0 0"]
    with open(log, "w", encoding="ascii") as file:
        file.write("".join(event + "\n" for event in events))
    for name, data in (("before", before), ("after", after)):
        with open(f"{log}.{name}", "wb") as written:
            written.write(data)
    return History(Recording(log)), bytes(after)


def data_within(path: str) -> list[tuple[int, int]]:
    with open(path, "rb") as file:
        return list(data_of(file.fileno(), os.fstat(file.fileno()).st_size))


class MemoryFileTest(unittest.TestCase):
    def test_what_a_checker_did_is_gone(self) -> None:
        self.do_all_deeds()

    def test_where_a_file_does_not_tell_of_its_data(self) -> None:
        with mock.patch.object(memory_files, "data_of", lambda file, size: iter(())):
            self.do_all_deeds()

    def do_all_deeds(self) -> None:
        with tempfile.TemporaryDirectory() as folder:
            history, wanted = history_of(folder)
            files, path, new = MemoryFile(history), os.path.join(folder, "image"), os.path.join(folder, "new")
            memory = {3 * BLOCK + 16: 1}
            files.write(path, 0, memory)
            for name, deed in DEEDS.items():
                deed(path)
                files.write(path, 0, memory)
                with open(path, "rb") as file:
                    self.assertEqual(file.read(), wanted, name)
                files.write(new, 0, memory)
                self.assertEqual(data_within(path), data_within(new), name)
                os.remove(new)

    def test_the_memory_before_is_gone(self) -> None:
        with tempfile.TemporaryDirectory() as folder:
            history, wanted = history_of(folder)
            files, path = MemoryFile(history), os.path.join(folder, "image")
            for value in (1, 5, 0, 1):
                files.write(path, 0, {3 * BLOCK + 16: value})
            with open(path, "rb") as file:
                self.assertEqual(file.read(), wanted)


class CommandTest(unittest.TestCase):
    def test_what_needs_no_shell(self) -> None:
        """The words are those that a shell gives to the program."""
        for command in ("./prog check /a/image000", "  /bin/prog  a=b,c:d +x -v --all=1 @y 50%  ", "../x_1.py image"):
            with_shell = subprocess.run(["sh", "-c", f"printf '%s\\n' {command}"], capture_output=True, text=True, check=True)
            self.assertEqual(words_of(command), with_shell.stdout.splitlines(), command)

    def test_what_is_for_a_shell(self) -> None:
        commands = [
            *("prog check image", "true image", "a=b ./prog image", "a=/b ./prog image", "/a=b image", "./prog", ""),
            *(f"./prog {mark} image" for mark in ("'a b'", '"a"', "$a", "`a`", "\\a", ";", "&", "|", "<", ">", "(", ")", "*", "?", "[a]")),
            *(f"./prog {mark}image" for mark in ("~/", "#", "!", "{a,b}", "^", "\n", "\t", "é")),
            "./prog " + "a " * 100,
        ]
        for command in commands:
            self.assertEqual(words_of(command), [command], command)


if __name__ == "__main__":
    unittest.main()
