"""Names of words by the debugging information of a program, and functions by its symbols. Run by tests/recording. Where there is no C
compiler or no readelf nothing is tested."""

from __future__ import annotations

import os
import shutil
import subprocess
import sys
import tempfile
import unittest
from types import SimpleNamespace
from typing import Any

sys.dont_write_bytecode = True
sys.path.insert(0, os.path.dirname(os.path.dirname(os.path.abspath(__file__))))

from px86_crash.elf import function_at
from px86_crash.fields import Fields, Types

SOURCE = """
#include <stdint.h>
typedef uint64_t number;
struct inner { uint32_t low, high; const number key; };
union either { uint64_t whole; struct { uint32_t left, right; }; };
struct pool {
    _Alignas(64) number tail;         // 0x0
    _Atomic uint64_t heads[2];        // 0x8, 0x10
    struct inner slots[3];            // 0x18 .. 0x48
    char text[13];                    // 0x48
    uint8_t flag, more;               // 0x55, 0x56
    union either either;              // 0x58
    struct { uint64_t x, y; };        // 0x60, 0x68
    uint64_t table[2][3];             // 0x70 .. 0xa0
    struct inner *next;               // 0xa0
    uint64_t rest[];                  // 0xa8 ..
};
typedef struct pool named;
struct pool *pool;
static uint64_t *words;
volatile named *volatile again;
void *any;
int bytes(void) { return 7; }
int main(void) { return pool != 0 && words && again && any && bytes(); }
"""
# By hand, of the comments above.
WANTED = {
    0x0: ".tail", 0x8: ".heads[0]", 0x10: ".heads[1]", 0x18: ".slots[0].low", 0x1c: ".slots[0].high", 0x20: ".slots[0].key",
    0x38: ".slots[2].low", 0x44: ".slots[2].key", 0x48: ".text[0]", 0x54: ".text[12]", 0x55: ".flag", 0x56: ".more", 0x57: None,
    0x60: ".x", 0x68: ".y", 0x70: ".table[0][0]", 0x88: ".table[1][0]", 0x98: ".table[1][2]", 0xa0: ".next", 0xa8: ".rest[0]",
    0xf8: ".rest[10]",
}  # fmt: skip


@unittest.skipUnless(shutil.which("cc") and shutil.which("readelf"), "there is no C compiler, or no readelf")
class FieldsTest(unittest.TestCase):
    def setUp(self) -> None:
        self.folder = tempfile.TemporaryDirectory()
        self.program = os.path.join(self.folder.name, "program")
        source = os.path.join(self.folder.name, "program.c")
        with open(source, "w", encoding="ascii") as file:
            file.write(SOURCE)
        subprocess.run(["cc", "-g", "-O0", "-w", "-no-pie", source, "-o", self.program], check=True)
        self.types = Types(self.program)

    def tearDown(self) -> None:
        self.folder.cleanup()

    def symbol(self, name: str) -> int:
        listed = subprocess.run(["nm", self.program], capture_output=True, text=True, check=True).stdout
        return next(int(line.split()[0], 16) for line in listed.splitlines() if line.split()[-1] == name)

    def recording(self, words: list[int], pointers: list[tuple[int, int]]) -> Any:
        """A recording of this program, whose code is where its file says."""
        header = subprocess.run(["readelf", "-lW", self.program], capture_output=True, text=True, check=True).stdout
        load = next(line.split() for line in header.splitlines() if line.split()[:1] == ["LOAD"] and " R E " in line)
        begin, offset = int(load[2], 16), int(load[1], 16)
        maps = [(begin, begin + int(load[4], 16), offset, self.program)]
        return SimpleNamespace(path=os.path.join(self.folder.name, "log"), maps=maps, pointers=pointers, words=words)

    def test_inside(self) -> None:
        for name in ("struct pool", "pool", "named"):
            pool = self.types.named(name)
            assert pool is not None
            self.assertEqual({offset: self.types.inside(pool, offset) for offset in WANTED}, WANTED)
        self.assertIn(self.types.inside(pool, 0x5c), (".either.whole", ".either.right"))
        self.assertIsNone(self.types.named("struct none"))
        inner = self.types.named("struct inner")
        self.assertIsNone(self.types.inside(inner, 16))

    def test_words_by_pointers(self) -> None:
        pool, words, again = (self.symbol(name) for name in ("pool", "words", "again"))
        recording = self.recording([0, 0x10, 0x18, 0x48, 0x50, 0x58, 0xb0, 0x1000], [(self.symbol("any"), 0), (pool, 0)])
        wanted = {
            0x0: "pool->tail", 0x10: "pool->heads[1]", 0x18: "pool->slots[0].low/pool->slots[0].high", 0x48: "pool->text[0..7]",
            0x50: "pool->text[8]/pool->text[9]/pool->text[10]/..", 0x58: "pool->either.whole", 0xb0: "pool->rest[1]",
            0x1000: "pool->rest[491]",
        }  # fmt: skip
        self.assertEqual(Fields(recording).found, wanted)
        # Of an array of words all behind its beginning; and of two that have a word the larger type.
        self.assertEqual(Fields(self.recording([0, 0x40, 0x48], [(words, 0x40)])).found, {0x40: "words[0]", 0x48: "words[1]"})
        both = self.recording([0x40, 0x48], [(words, 0), (again, 0x40)])
        self.assertEqual(Fields(both).found, {0x40: "again->tail", 0x48: "again->heads[0]"})
        # What points to one file names nothing of another one.
        second = 0x100000000000
        files = self.recording([8, second + 8, 2 * second + 8], [(words, 0), (again, second)])
        self.assertEqual(Fields(files).found, {8: "words[1]", second + 8: "again->heads[0]"})

    def test_words_by_type(self) -> None:
        recording = self.recording([0x68, 0x20], [])
        self.assertEqual(Fields(recording).found, {})
        self.assertEqual(Fields(recording, type_name="struct pool").found, {0x68: "pool.y", 0x20: "pool.slots[0].key"})
        self.assertEqual(Fields(recording, symbol="words").found, {})

    def test_saved_names(self) -> None:
        recording = self.recording([0x68], [])
        Fields(recording, type_name="pool").save(recording.path + ".fields")
        recording.maps = []
        self.assertEqual(Fields(recording).found, {0x68: "pool.y"})

    def test_function(self) -> None:
        begin, _, offset, path = self.recording([], []).maps[0]
        place = self.symbol("bytes") - begin + offset
        self.assertEqual(function_at(path, place), "bytes")
        self.assertEqual(function_at(path, place + 4), "bytes")
        self.assertEqual(function_at(path, self.symbol("main") - begin + offset), "main")
        self.assertIsNone(function_at(path, offset))
        self.assertIsNone(function_at(self.folder.name, 0))


if __name__ == "__main__":
    unittest.main()
