"""Objects and codes, cut and changed, and what `asm` and `dis` make of programs.

What is wanted follows from docs/FORMATS.md; none of it was taken from the program. objdump (binutils) reads the code that `asm` wrote.
"""

from __future__ import annotations

import os
import re
from collections.abc import Iterator

from tests.harness import TOP, Case, Checks, Px86, differs, read, run, unlike, wrong_end, wrong_run
from tests.texts import ASKS, Row

AT_LEAST = {"": 889}
NEEDS_PROGRAM = True
Rows = Iterator[Row]
FIRST, FIRST_STEPS, FIRST_REPORT = "crates/px86/data/first.litmus", "crates/px86/stdin", "crates/px86/stdout"


def parts_of(text: str) -> list[str]:
    """The parts of a text, between which a semicolon stands or a line ends; of a line that begins with `#` none."""
    return [part for line in text.split("\n") if not line.startswith("#") for part in line.split("; ")]


def lines_of(text: str) -> str:
    """The same as lines."""
    return "".join(f"{part}\n" for part in parts_of(text))


def bytes_of(digits: str) -> bytes:
    """The bytes of pairs of hexadecimal digits."""
    return bytes.fromhex(digits)


def shown(data: bytes, most: int) -> str:
    """The digits of some bytes, at most so many characters."""
    return data.hex(" ").upper()[:most].rstrip()


def row(name: str, words: str, data: bytes | str, out: bytes | str = b"", steps: str = "", status: int = 0, fault: str = "") -> Row:
    """What is asked of a program by these words, and what is wanted."""
    plain = lambda it: it.encode() if isinstance(it, str) else it
    err = f"px86: {fault}\n".encode() if fault else b""
    return Row(name, plain(data), steps.encode(), tuple(words.split()), status, plain(out), err, "plain")


def no_object(fault: str, data: bytes, words: str = "run") -> Row:
    """This fault, with status 2, of an object."""
    return row(f"{fault} of the object {shown(data, 90)}", words, data, status=2, fault=fault)


def same_object(data: bytes) -> Row:
    """asm of an object writes it again."""
    return row(f"asm of the object {shown(data, 90)}", "asm", data, data)


# --- objects that are good

MAGIC1, MAGIC2 = bytes_of("50 58 38 36 4F 42 4A 31"), bytes_of("50 58 38 36 4F 42 4A 32")
# The object of the worked text, in version 2, which has the name of its word, and in version 1, where that is w0; and in version 2
# what the latter says.
WORKED = bytes_of("48 C7 04 25 00 10 00 00 01 00 00 00 0F AE 3C 25 00 10 00 00 0F AE F8")
WORKED_BEHIND = bytes(8) + bytes_of("01 17 00 00 00") + WORKED + bytes(4)
FIRST_OBJECT = MAGIC2 + bytes_of("01 01 01 78") + WORKED_BEHIND
NAMELESS_OBJECT = MAGIC1 + bytes_of("01 01") + WORKED_BEHIND
NUMBERED_OBJECT = MAGIC2 + bytes_of("01 01 02 77 30") + WORKED_BEHIND
# The same of one word and of one processor with an `sfence`.
SFENCE_BEHIND = bytes(8) + bytes_of("01 03 00 00 00 0F AE F8") + bytes(4)
NAMED, NAMELESS = MAGIC2 + bytes_of("01 01 01 78") + SFENCE_BEHIND, MAGIC1 + bytes_of("01 01") + SFENCE_BEHIND
NUMBERED = MAGIC2 + bytes_of("01 01 02 77 30") + SFENCE_BEHIND
TEXT_OF_NAMED = "litmus 1\nline x\ncpu\nsfence\nend\n"
IDLE = "turns 0\ncrashes 0\ncpu 0 main 0 ready zf 0\nword {} coherent 0 persisted 0\n"


def rows_of_runs() -> Rows:
    steps = read(FIRST_STEPS)
    yield row("run of an object", "run", FIRST_OBJECT, read(FIRST_REPORT), steps)
    out = "turns 6\ncrashes 0\ncpu 0 main 3 halted zf 0\nword w0 coherent 1 persisted 0\npend 0 W w0 1\npend 1 PER 0\n"
    yield row("run of an object of version 1", "run", NAMELESS_OBJECT, out, steps)
    yield row("an object of one sfence", "run", NAMED, IDLE.format("x"))
    yield row("an object of one sfence, of version 1", "run", NAMELESS, IDLE.format("w0"))
    yield row("asm of a named word", "asm", TEXT_OF_NAMED, NAMED)
    yield row("asm of an object of version 2 is that object", "asm", NAMED, NAMED)
    yield row("asm of an object of version 1 has the names of the numbers", "asm", NAMELESS, NUMBERED)
    yield row("dis of an object has its name", "dis", NAMED, TEXT_OF_NAMED)
    yield row("dis of an object of version 1", "dis", NAMELESS, TEXT_OF_NAMED.replace(" x", " w0"))


# --- faults of objects

# A byte that is made another, and the fault: of version 2; and of version 1, where the ninth processor is one too many, and no lines
# leave bytes behind. With the digit of version 2 the value's first byte is the length of a name.
SPOILED = {
    NAMED: """O1 BadMagic|7 33; O4 BadCount|8 41; O4 BadCount|9 09; O4 BadCount|20 11; O7 BadName 0|10 00; O7 BadName 0|10 11
O7 BadName 0|11 58; O5 BadCode cpu 0 main C1 Unknown 0|27 E8; O5 BadCode cpu 0 main C2 Truncated 0|21 02; O3 Trailing|20 00
O2 Short|20 02; O2 Short|21 83; O2 Short|28 01""",
    NAMELESS: """O1 BadMagic|7 33; O7 BadName 0|7 32; O4 BadCount|8 41; O4 BadCount|9 09; O4 BadCount|18 09
O5 BadCode cpu 0 main C1 Unknown 0|25 E8; O5 BadCode cpu 0 main C2 Truncated 0|19 02; O3 Trailing|8 00; O3 Trailing|18 00
O2 Short|18 02; O2 Short|19 83; O2 Short|26 01""",
}


def rows_of_spoiled() -> Rows:
    for data, lines in SPOILED.items():
        for line in parts_of(lines):
            fault, _, where = line.partition("|")
            place, digits = where.split()
            yield no_object(fault, data[: int(place)] + bytes_of(digits) + data[int(place) + 1 :])


def rows_of_beginnings() -> Rows:
    """Every beginning: of less than seven bytes it is a text."""
    for data in NAMED, NAMELESS:
        yield row("no byte of an object is a text", "run", b"", status=2, fault="X6 MissingEnd line 1")
        yield from (no_object("X1 BadWord line 1" if count < 7 else "O2 Short", data[:count]) for count in range(1, len(data)))
        yield no_object("O3 Trailing", data + b"\0")


# Names behind the magic of version 2, where `V` stands for a value of 8 bytes and `X` for 16 bytes of a name, each with a fault, or
# `same`: of 16 bytes; of 17, which is told before these are missed; of none; that of a register; misspelled, at the first byte or
# at the last; that of an earlier word of the line, or of an earlier line, whose word has the number 8.
NAMES = """same|01 01 10 X V 00; O7 BadName 0|01 01 11 X 78 V 00; O7 BadName 0|01 01 11; O7 BadName 0|01 01 FF; O7 BadName 0|01 01 00
O2 Short|01 01 10 78 78 78 78 78 78 78 78 78 78 78 78 78 78 78; O7 BadName 0|01 01 03 72 61 78 V 00; O7 BadName 0|01 01 02 72 39
same|01 01 03 72 31 30 V 00; O7 BadName 0|01 01 01 5F; O7 BadName 0|01 01 02 30 78; O7 BadName 0|01 01 02 78 2D
O7 BadName 0|01 01 02 78 0A; same|01 02 02 78 5F 02 78 39 V V 00; O7 BadName 1|01 02 01 78 01 78 V V 00
O7 BadName 8|02 01 01 01 78 01 78 V V 00; O7 BadName 17|03 01 00 02 01 78 01 79 01 78 V V V 00; O2 Short|02 01 01 01 78 01
# A length is told where it stands: before the next name's, and not before the name that stands before it.
O7 BadName 1|01 03 01 78 00 00; O7 BadName 0|01 03 01 58 00 00
# A count that is too high before a name; a name before a value that is missing, and before a processor too many.
O4 BadCount|02 01 09 00; O7 BadName 0|01 01 01 20; O7 BadName 0|01 01 01 7B V 11"""


def rows_of_names() -> Rows:
    for what, digits in (it.split("|") for it in parts_of(NAMES)):
        data = MAGIC2 + bytes_of(digits.replace("V", "00 " * 8).replace("X", "78 " * 16))
        yield same_object(data) if what == "same" else no_object(what, data)


def rows_of_processors() -> Rows:
    """Processors without programs: 16, and one more; in version 1 eight, and one more."""
    yield same_object(MAGIC2 + b"\0\x10" + bytes(128))
    yield no_object("O4 BadCount", MAGIC2 + b"\0\x11" + bytes(136))
    data, out = MAGIC1 + b"\0\x08" + bytes(64), MAGIC2 + b"\0\x08" + bytes(64)
    yield row("asm of an object of version 1 with eight processors", "asm", data, out)
    yield no_object("O4 BadCount", MAGIC1 + b"\0\x09" + bytes(72))
    text = "litmus 1\n" + "cpu\nend\n" * 16
    yield row("asm of a text with sixteen processors", "asm", text, MAGIC2 + b"\0\x10" + bytes(128))
    for magic in MAGIC1, MAGIC2:
        # A wrong count is told before a missing byte.
        yield no_object("O4 BadCount", magic + bytes_of("03 08 09"))
        # A jump out of the code, in a recovery program; a byte of no instruction, in the second recovery program.
        data = magic + bytes_of("00 01 00 00 00 00 07 00 00 00 0F 84 02 00 00 00 90")
        yield no_object("O5 BadCode cpu 0 recover C4 BadTarget 0", data)
        data = magic + b"\0\2" + bytes(12) + bytes_of("02 00 00 00 90 06")
        yield no_object("O5 BadCode cpu 1 recover C1 Unknown 1", data)


# What comes of each changed bit: from which byte to which, of which bits, or of `others`, a fault or an `object`. What is read has no
# other spelling: a changed bit is a fault, or gives another object. That is so of the word's value, of four bits of its name x (y, z,
# p and h), and of the bit that makes `sfence` an `mfence`. A changed magic is a text, in which a byte may not stand; with a line feed
# in it the first line is a wrong word.
CHANGED = {
    NAMED: """0 6 others X7 NotAscii line 1; 6 6 64 X1 BadWord line 1; 7 7 others O1 BadMagic; 8 9 1 O2 Short; 8 9 others O4 BadCount
9 9 2,4 O7 BadName 1; 10 11 others O7 BadName 0; 11 11 1,2,8,16 object; 12 19 others object; 20 20 1 O3 Trailing
20 20 2,4,8 O2 Short; 20 20 others O4 BadCount; 21 31 others O2 Short; 21 21 1,2 O5 BadCode cpu 0 main C2 Truncated 0
21 21 4 O5 BadCode cpu 0 main C1 Unknown 3; 25 27 others O5 BadCode cpu 0 main C1 Unknown 0; 27 27 8 object""",
    # In version 1 the bytes behind the counts are those of values, where more lines or words are told.
    NAMELESS: """0 6 others X7 NotAscii line 1; 6 6 64 X1 BadWord line 1; 7 7 others O1 BadMagic; 8 9 others O4 BadCount
8 8 1,2,4,8 O3 Trailing; 9 9 1 O3 Trailing; 9 9 2,4 O2 Short; 10 17 others object; 18 18 1 O3 Trailing; 18 18 2,4 O2 Short
18 18 others O4 BadCount; 19 29 others O2 Short; 19 19 1,2 O5 BadCode cpu 0 main C2 Truncated 0
19 19 4 O5 BadCode cpu 0 main C1 Unknown 3; 23 25 others O5 BadCode cpu 0 main C1 Unknown 0; 25 25 8 object""",
}


def wanted_of(lines: str) -> dict[tuple[int, str], str]:
    """What comes of each bit of each byte, or of the others of that byte."""
    wanted = {}
    for line in parts_of(lines):
        first, last, bits, told = line.split(" ", 3)
        wanted |= {(place, bit): told for place in range(int(first), int(last) + 1) for bit in bits.split(",")}
    return wanted


def rows_of_changed_bits() -> Rows:
    for data, lines in CHANGED.items():
        name, wanted = "named" if data is NAMED else "nameless", wanted_of(lines)
        for place, bit in [(place, 1 << at) for place in range(len(data)) for at in range(8)]:
            changed = data[:place] + bytes([data[place] ^ bit]) + data[place + 1 :]
            what = wanted.get((place, str(bit))) or wanted[place, "others"]
            named = f"{name} object: its byte {place} has bit {bit} changed"
            if what == "object":
                yield row(named, "asm", changed, changed if data is NAMED else MAGIC2 + bytes_of("01 01 02 77 30") + changed[10:])
            else:
                yield row(f"no {named}", "asm", changed, status=2, fault=what)


# --- faults of codes, in the object of one processor and of two words, a and b, on one line


def code(fault: str, digits: str) -> Row:
    """This fault of a code."""
    data = bytes_of(digits)
    before = MAGIC2 + bytes_of("01 02 01 61 01 62") + bytes(16) + b"\1" + len(data).to_bytes(2, "little") + bytes(2)
    name = f"{fault} of the code {shown(data, 60)}"
    return row(name, "run", before + data + bytes(4), status=2, fault=f"O5 BadCode cpu 0 main {fault}")


# Other spellings: the short form of cmp rax; registers 4 and 5 in add and cmp, as the source and the target of mov,
# and in its opcode; registers 10 and on; lfence; mov between registers by the other opcode; REX with W alone missing,
# with X, and with bits that name nothing; lock before what takes none, and without REX; a jump of 8 bits, and another
# SIB byte. Then addresses in registers, in other spellings: registers 4, 5 and 10; a distance of 8 or 32 bits, and from the next
# instruction; B with an absolute operand; 41 behind 0F AE or before 66, at a fence, with an absolute operand, and at
# what has a REX; 40, 49 or 66 where none is; other reg fields of the flushes and of mov; REX that is left out.
UNKNOWN = """48 3D 05 00 00 00; 48 81 C4 00 00 00 00; 48 81 C5 00 00 00 00; 48 81 FC 00 00 00 00; 48 81 FD 00 00 00 00; 48 89 E0; 48 89 C5
48 BC 00 00 00 00 00 00 00 00; 49 89 C2; 0F AE E8; 48 8B C3; 40 89 C3; 4A 89 C3; 4C B8 00 00 00 00 00 00 00 00; 4C 81 C0 00 00 00 00
4D 8B 04 25 00 10 00 00; 49 89 04 25 00 10 00 00; 4C C7 04 25 00 10 00 00 00 00 00 00; F0 48 87 04 25 00 10 00 00
F0 0F C1 04 25 00 10 00 00; EB FE; 48 8B 04 24 00 00 00 00
48 8B 20; 48 89 28; 49 8B 02; 49 8B 05; 4C 89 05 00 10 00 00; 48 8B 05 00 10 00 00; 48 8B 40 08; 48 8B 80 00 00 00 00; 48 89 41 00
0F AE 7B 00; 0F AE 3D 00 10 00 00; 66 0F AE 35 00 10 00 00; 4D 87 04 25 00 10 00 00; 49 C7 04 25 00 10 00 00 01 00 00 00
F0 49 0F C1 04 25 00 10 00 00; 0F AE 41 38; 66 0F 41 AE 31; 66 0F AE 41 31; 41 66 0F AE 31; 41 0F AE F0; 41 0F AE F8
41 0F AE 3C 25 00 10 00 00; 66 41 0F AE 34 25 00 10 00 00; 41 0F AE 3A; 41 48 8B 01; 41 0F 84 00 00 00 00; 40 0F AE 39; 49 0F AE 39
66 40 0F AE 31; 66 49 0F AE 31; 66 41 0F AE 29; 66 0F AE 28; 0F AE 30; 41 0F AE 31; 48 C7 08 01 00 00 00; 4C C7 00 01 00 00 00
C7 00 01 00 00 00; F0 4A 0F C1 0E; F0 48 87 0E; F0 0F C1 0E; 0F C1 0E; 8B 01"""
# Each beginning of these is truncated. The address of the fourth is no word's, which is not said before all bytes are there.
WHOLE = """48 89 04 25 00 10 00 00; 66 0F AE 3C 25 00 10 00 00; F0 48 0F C1 0C 25 00 10 00 00; 48 8B 04 25 04 10 00 00; 48 8B 01; 48 89 07
49 C7 00 01 00 00 00; F0 4C 0F C1 0E; 4D 87 01; 0F AE 3B; 66 0F AE 38; 66 41 0F AE 31; 41 0F AE 39; 49 B9 01 02 03 04 05 06 07 08
0F 84 FF FF FF 7F"""
CODES = """C2 Truncated 3|48 89 C3 0F AE
# An address between words, behind the last word, before the first, far above, and behind two instructions.
C3 BadAddress 0|48 8B 04 25 04 10 00 00; C3 BadAddress 0|48 8B 04 25 10 10 00 00; C3 BadAddress 0|66 0F AE 3C 25 00 00 00 00
C3 BadAddress 0|F0 48 0F C1 0C 25 00 10 00 80; C3 BadAddress 2|90 90 0F AE 3C 25 10 10 00 00
# An address in a register is none of the code's: the fault is that of the instruction behind.
C3 BadAddress 3|48 8B 01 48 8B 04 25 10 10 00 00; C1 Unknown 4|41 0F AE 39 41 0F AE 3A
# A jump behind the end, before the front, into its own bytes, and into the middle of another instruction.
C4 BadTarget 0|E9 01 00 00 00; C4 BadTarget 0|E9 FA FF FF FF; C4 BadTarget 0|E9 FC FF FF FF
C4 BadTarget 1|90 0F 84 01 00 00 00 48 89 C3
# The first of two, and not the good one before them. A bad target is told after all else.
C4 BadTarget 5|E9 00 00 00 00 0F 85 09 00 00 00 E9 09 00 00 00; C1 Unknown 5|E9 01 00 00 00 FF; C2 Truncated 5|E9 09 00 00 00 0F
C3 BadAddress 5|E9 09 00 00 00 0F AE 3C 25 10 10 00 00"""


def rows_of_codes() -> Rows:
    yield from (code("C1 Unknown 0", digits) for digits in parts_of(UNKNOWN))
    for digits in map(str.split, parts_of(WHOLE)):
        yield from (code("C2 Truncated 0", " ".join(digits[:count])) for count in range(1, len(digits)))
    yield from (code(*it.split("|")) for it in parts_of(CODES))
    # An instruction too many is told before what it is.
    nops = "90 " * 1024
    yield code("C5 TooLong", nops + "90")
    yield code("C5 TooLong", nops + "FF")
    yield code("C1 Unknown 1023", "90 " * 1023 + "FF")
    yield same_object(MAGIC2 + bytes_of("00 01 00 04 00 00") + b"\x90" * 1024 + bytes(4))


# --- asm and dis

WORKED_TEXT = "litmus 1\nline {0}\ncpu\nmov [{0}], 1\nclflush [{0}]\nsfence\nend\n"
# Every instruction, jumps forward and back, initial values, and a recovery program; and how `dis` writes it.
EVERY = """litmus 1; line data more # two words; line flag; init flag 0x2; init more -1; cpu; top:; mov rax, 0xff; mov r9, -2; mov rcx, r8
mov rdx, [more]; mov [data], rsi; mov [flag], 3; add rbx, 1; cmp r8, -5; xchg [data], r8; lock xadd [flag], rax
lock cmpxchg [flag], rcx; mfence; sfence; clflush [data]; clflushopt [flag]; clwb [more]; nop; jz top; jnz on; on: # the last place
jmp top; recover; mov rax, [flag]; end; cpu; end"""
EVERY_WRITTEN = """litmus 1; line data more; line flag; init more 18446744073709551615; init flag 2; cpu; l0:; mov rax, 255
mov r9, 18446744073709551614; mov rcx, r8; mov rdx, [more]; mov [data], rsi; mov [flag], 3; add rbx, 1; cmp r8, 18446744073709551611
xchg [data], r8; lock xadd [flag], rax; lock cmpxchg [flag], rcx; mfence; sfence; clflush [data]; clflushopt [flag]; clwb [more]
nop; jz l0; jnz l19; l19:; jmp l0; recover; mov rax, [flag]; end; cpu; end"""
# What binutils says of the code that asm wrote.
EVERY_READ = """movabs rax,0xff; movabs r9,0xfffffffffffffffe; mov rcx,r8; mov rdx,QWORD PTR ds:0x1008; mov QWORD PTR ds:0x1000,rsi
mov QWORD PTR ds:0x1040,0x3; add rbx,0x1; cmp r8,0xfffffffffffffffb; xchg QWORD PTR ds:0x1000,r8; lock xadd QWORD PTR ds:0x1040,rax
lock cmpxchg QWORD PTR ds:0x1040,rcx; mfence; sfence; clflush BYTE PTR ds:0x1000; clflushopt BYTE PTR ds:0x1040
clwb BYTE PTR ds:0x1008; nop; je 0x0; jne 0x8a; jmp 0x0"""
# The same of addresses in registers: each register between brackets, and each instruction, beside what binutils says.
BY_REGISTERS = """mov rax, [rax]|mov rax,QWORD PTR [rax]; mov rdx, [rcx]|mov rdx,QWORD PTR [rcx]; mov [rdx], r9|mov QWORD PTR [rdx],r9
mov [rbx], 5|mov QWORD PTR [rbx],0x5; xchg [rsi], rdi|xchg QWORD PTR [rsi],rdi; lock xadd [rdi], rcx|lock xadd QWORD PTR [rdi],rcx
lock cmpxchg [r8], rsi|lock cmpxchg QWORD PTR [r8],rsi; mov r8, [r9]|mov r8,QWORD PTR [r9]; mov [r8], r9|mov QWORD PTR [r8],r9
mov [r9], -1|mov QWORD PTR [r9],0xffffffffffffffff; xchg [r9], r8|xchg QWORD PTR [r9],r8
lock xadd [r8], rbx|lock xadd QWORD PTR [r8],rbx; lock cmpxchg [rax], r9|lock cmpxchg QWORD PTR [rax],r9
clflush [rcx]|clflush BYTE PTR [rcx]; clflush [r8]|clflush BYTE PTR [r8]; clflushopt [rdi]|clflushopt BYTE PTR [rdi]
clflushopt [r9]|clflushopt BYTE PTR [r9]; clwb [rsi]|clwb BYTE PTR [rsi]; clwb [r8]|clwb BYTE PTR [r8]"""
# Addresses in registers, both ways, worked out by hand. Nothing of an address is asked of the shape, which has no word here.
BOTH_WAYS = """mov rax, [rcx]|48 8B 01; mov [rdi], rax|48 89 07; mov [r8], 1|49 C7 00 01 00 00 00; lock xadd [rsi], r9|F0 4C 0F C1 0E
clflush [rbx]|0F AE 3B; clflushopt [rax]|66 0F AE 38; clwb [r9]|66 41 0F AE 31; mov rax, [rax]|48 8B 00; mov r9, [r8]|4D 8B 08
mov rdi, [r9]|49 8B 39; mov r8, [rdi]|4C 8B 07; mov [rax], rax|48 89 00; mov [r9], r8|4D 89 01; mov [r8], rsi|49 89 30
mov [rdx], r8|4C 89 02; mov [rsi], 18446744073709551615|48 C7 06 FF FF FF FF; mov [r9], 18446744071562067968|49 C7 01 00 00 00 80
xchg [rcx], rdx|48 87 11; xchg [r8], r8|4D 87 00; xchg [r9], rbx|49 87 19; xchg [rax], r9|4C 87 08
lock xadd [rax], rax|F0 48 0F C1 00; lock xadd [r8], rax|F0 49 0F C1 00; lock xadd [r9], r8|F0 4D 0F C1 01
lock cmpxchg [rbx], rcx|F0 48 0F B1 0B; lock cmpxchg [r9], rdi|F0 49 0F B1 39; lock cmpxchg [rdi], r8|F0 4C 0F B1 07
lock cmpxchg [r8], r9|F0 4D 0F B1 08; clflush [rdi]|0F AE 3F; clflush [r8]|41 0F AE 38; clflush [r9]|41 0F AE 39
clflushopt [rsi]|66 0F AE 3E; clflushopt [r8]|66 41 0F AE 38; clwb [rcx]|66 0F AE 31; clwb [r8]|66 41 0F AE 30"""


def rows_of_both_ways() -> Rows:
    for line, digits in (it.split("|") for it in parts_of(BOTH_WAYS)):
        text, data = f"litmus 1\ncpu\n{line}\nend\n", bytes_of(digits)
        whole = MAGIC2 + b"\0\1" + len(data).to_bytes(2, "little") + bytes(2) + data + bytes(4)
        yield row(f"asm of {line}", "asm", text, whole)
        yield row(f"dis of the bytes of {line}", "dis", whole, text)


def from_a_folder(px86: Px86, words: str, data: bytes, out: bytes) -> Checks:
    """Neither `asm` nor `dis` reads standard input, which is a folder here."""
    folder = os.open(px86.folder, os.O_RDONLY)
    done = px86(words, px86.keep("file", data), given=None, stdin=folder)
    os.close(folder)
    yield "", wrong_end(done, 0) or unlike(done.written, out)


def both_ways(px86: Px86) -> Checks:
    """What `dis` writes of the program of every instruction, and that again; and `asm` of that."""
    made = px86("asm", px86.keep("text", lines_of(EVERY))).written
    yield "dis of a program of every instruction", wrong_run(px86("dis", px86.keep("object", made)), 0, lines_of(EVERY_WRITTEN))
    written = px86.keep("written", lines_of(EVERY_WRITTEN))
    yield "dis of its text is the same", wrong_run(px86("dis", px86.keep("text", lines_of(EVERY))), 0, lines_of(EVERY_WRITTEN))
    again = px86("asm", written)
    yield "asm of that text is the same object", wrong_end(again, 0) or unlike(again.written, made)
    # 143 bytes behind the 55 before it.
    yield "binutils reads the same instructions", differs(read_by_objdump(px86, made[55:198]), lines_of(EVERY_READ))


def by_registers(px86: Px86) -> Checks:
    pairs = [it.split("|") for it in parts_of(BY_REGISTERS)]
    text = px86.keep("text", "litmus 1\ncpu\n" + "".join(f"{line}\n" for line, _ in pairs) + "end\n")
    code = px86("asm", text).written[14:-4]
    yield "", differs(read_by_objdump(px86, code), "".join(f"{told}\n" for _, told in pairs))


def read_by_objdump(px86: Px86, code: bytes) -> str:
    """The instructions that objdump reads of a code."""
    words = "objdump --wide -D -b binary -m i386:x86-64 -M intel".split()
    told = re.findall(r"^ *[0-9a-f]*:\t[0-9a-f ]*\t(.*)$", run([*words, px86.keep("code", code)]).out, re.M)
    return "".join(f"{' '.join(it.split())}\n" for it in told)


def example_object(px86: Px86) -> Checks:
    """The example that is there as an object too; through a pipe, and as a file."""
    path = "examples/write-behind-flush"
    steps, report, text = read(f"{path}.steps"), read(f"{path}.report"), read(f"{path}.dis")
    with open(f"{path}.obj", "rb") as file:
        wanted = file.read()
    yield "run", wrong_run(px86("run", f"{path}.obj", given=steps), 2, report)
    made = px86("asm", f"{path}.litmus")
    yield "asm", wrong_end(made, 0) or unlike(made.written, wanted)
    yield "dis", wrong_run(px86("dis", f"{path}.obj"), 0, text)
    yield "asm, through a pipe, and dis", wrong_run(px86("dis", "/dev/stdin", given=made.written), 0, text)
    yield "run of what asm wrote", wrong_run(px86("run", px86.keep("made", made.written), given=steps), 2, report)


# --- what goes wrong

FAULTS = [
    ("a faulty text", "text", 2, "X2 UnknownName line 4"),
    ("a file that is not there", "no-such-file", 3, "F1 ReadFailed"),
    ("a folder", ".", 3, "F1 ReadFailed"),
    ("a file without an end", "/dev/zero", 2, "F3 InputTooLong"),
    ("no FILE", "", 2, "usage"),
    ("two FILEs", "object object", 2, "usage"),
    ("an unknown option", "--walk object", 2, "usage"),
]


def fault(px86: Px86, command: str, words: str, status: int, told: str) -> Checks:
    px86.keep("text", "litmus 1\nline x\ncpu\nmov [y], 1\nend\n")
    px86.keep("object", FIRST_OBJECT)
    yield "", wrong_run(px86(command, *words.split(), cwd=px86.folder), status, "", f"px86: {told}\n")


def full_device(px86: Px86, command: str) -> Checks:
    with open("/dev/full", "wb") as full:
        yield "", wrong_end(px86(command, px86.keep("object", FIRST_OBJECT), stdout=full), 3, "px86: F2 WriteFailed\n")


GROUPS = [
    *(rows_of_runs, rows_of_spoiled, rows_of_beginnings, rows_of_names, rows_of_processors, rows_of_changed_bits, rows_of_codes),
    rows_of_both_ways,
]


def from_folders() -> Iterator[tuple[str, str, bytes, bytes]]:
    """The name, the command, the program and what is written."""
    with open(f"{TOP}/{FIRST}", "rb") as file:
        text = file.read()
    written, numbered = (WORKED_TEXT.format(name).encode() for name in ("x", "w0"))
    yield "asm of the worked text", "asm", text, FIRST_OBJECT
    yield "asm of an object is the object", "asm", FIRST_OBJECT, FIRST_OBJECT
    yield "dis of the worked object of version 1", "dis", NAMELESS_OBJECT, numbered
    yield "asm of an object of version 1 is of version 2", "asm", NAMELESS_OBJECT, NUMBERED_OBJECT
    yield "asm of what dis wrote of it is the same", "asm", numbered, NUMBERED_OBJECT
    yield "dis of the worked object", "dis", FIRST_OBJECT, written
    yield "dis of a text keeps its names", "dis", text, written
    yield "dis of what it wrote is the same", "dis", written, written


def cases() -> Iterator[Case]:
    """All cases."""
    yield from (Case(it.name, ASKS[it.asks], it) for rows in GROUPS for it in rows())
    yield from (Case(name, from_a_folder, *asked) for name, *asked in from_folders())
    yield Case("every instruction", both_ways)
    yield Case("binutils reads the same addresses in registers", by_registers)
    yield Case("the example write-behind-flush", example_object)
    for command in "asm", "dis":
        yield from (Case(f"{command} of {name}", fault, command, *asked) for name, *asked in FAULTS)
        yield Case(f"a full device behind {command}", full_device, command)
