"""Gives the program as it is built broken bytes, and wants the very answer that docs/FORMATS.md says of them:

  objects     cut at each byte, and with each bit changed
  programs    litmus texts and sheets, cut at each byte, and with each byte replaced by each of `\\0`, space, `(`, `9`, `z` and
              `\\x80`; of a sheet also by each of `$`, `&`, `*` and `K`, and of one with questions by `&`, `a`, `[` and `-`
  steps, scripts and conditions, the same (no word of a command line holds `\\0`); a condition of a sheet also by `#`, `&`, `[`, `-`, `K` and `c`

What is wanted is told by readers that stand here and in model/, which were written from docs/FORMATS.md alone, and by the machine
of model/, the second model: of bytes that have a fault that fault, alone, with status 2; of a program without one its written form
by `dis`, and of an object the bytes that say it by `asm`; of steps the reports of `run` and `outcomes`, of a script that of
`debug`, and of a condition whether it holds, by `images` and by `check`. Of all 240 changes of a bit of one object what is wanted
stands in a table too, which was worked out by hand; the readers have to say the same.
"""

from __future__ import annotations

import functools
import types
from collections.abc import Callable, Iterator

from model.commands import listing_of
from model.conditions import Condition, condition_of
from model.enumerated import key_of
from model.images import candidates_of, named_images_of, values_lines, values_of
from model.machine import Machine, Refused, make_all
from model.reading import Fault, Litmus, is_name, is_text, lines_of, number_of, small_number_of, tokens_of
from model.rules import CANDIDATES, REGISTERS
from model.runs import Runs, outcomes_of
from model.sheets import litmus_of
from model.sheets import program_of as sheet_of
from model.texts import Program
from tests.harness import Case, Checks, Px86, unlike

AT_LEAST = {"": 12119, "the sheet, ": 2208, "the questions, ": 1882, "condition of a sheet, ": 743}
NEEDS_PROGRAM = True
REPLACED = b"\0 (9z\x80"

NUMBERS = dict(zip(REGISTERS, [0, 1, 2, 3, 6, 7, 8, 9]))


# --- codes

# A form: its bytes, where None is any byte; what it is written as, with {} for what these say; and what they are.


def modrm(mode, reg, rm):
    return 64 * mode + 8 * (reg % 8) + rm % 8


def rex(reg=0, base=0):
    return 0x48 + 4 * (reg >= 8) + (base >= 8)


def memories(reg, wide=True):
    """Each memory operand: the REX byte or that of a flush, MEMORY(reg), the operand, and whether it has an address."""
    yield [rex(reg)] if wide else [], [modrm(0, reg, 4), 0x25, None, None, None, None], "[{}]", ["address"]
    for base, b in NUMBERS.items():
        prefix = [rex(reg, b)] if wide else [0x41] if b >= 8 else []
        yield prefix, [modrm(0, reg, b)], f"[{base}]", []


def forms():
    four = [None] * 4
    for name, r in NUMBERS.items():
        yield [rex(0, r), 0xB8 + r % 8] + [None] * 8, f"mov {name}, {{}}", ["imm64"]
        for other, s in NUMBERS.items():
            yield [rex(s, r), 0x89, modrm(3, s, r)], f"mov {name}, {other}", []
        yield [rex(0, r), 0x81, modrm(3, 0, r)] + four, f"add {name}, {{}}", ["imm32"]
        yield [rex(0, r), 0x81, modrm(3, 7, r)] + four, f"cmp {name}, {{}}", ["imm32"]
        for prefix, operand, text, free in memories(r):
            yield [*prefix, 0x8B, *operand], f"mov {name}, {text}", free
            yield [*prefix, 0x89, *operand], f"mov {text}, {name}", free
            yield [*prefix, 0x87, *operand], f"xchg {text}, {name}", free
            yield [0xF0, *prefix, 0x0F, 0xC1, *operand], f"lock xadd {text}, {name}", free
            yield [0xF0, *prefix, 0x0F, 0xB1, *operand], f"lock cmpxchg {text}, {name}", free
    for prefix, operand, text, free in memories(0):
        yield [*prefix, 0xC7, *operand, *four], f"mov {text}, {{}}", [*free, "imm32"]
    for prefix, operand, text, free in memories(7, False):
        yield [*prefix, 0x0F, 0xAE, *operand], f"clflush {text}", free
        yield [0x66, *prefix, 0x0F, 0xAE, *operand], f"clflushopt {text}", free
    for prefix, operand, text, free in memories(6, False):
        yield [0x66, *prefix, 0x0F, 0xAE, *operand], f"clwb {text}", free
    yield [0x0F, 0xAE, 0xF0], "mfence", []
    yield [0x0F, 0xAE, 0xF8], "sfence", []
    yield [0xE9, *four], "jmp", ["rel32"]
    yield [0x0F, 0x84, *four], "jz", ["rel32"]
    yield [0x0F, 0x85, *four], "jnz", ["rel32"]
    yield [0x90], "nop", []


FORMS = list(forms())
FORMS_FROM = {byte: [it for it in FORMS if it[0][0] == byte] for byte in range(256)}
SIZES = {"address": 4, "imm32": 4, "imm64": 8, "rel32": 4}


def agrees(form, code):
    """Whether the bytes, up to the shorter's end, are those of the form."""
    return all(wanted in (None, byte) for wanted, byte in zip(form, code))


def instructions_of(code, names):
    """The instructions of a code, as of a litmus text, where the names are those of addresses."""
    offset, starts, said, jumps = 0, [], [], []
    while offset < len(code):
        rest = code[offset:]
        if len(said) == 1024:
            raise Fault("C5 TooLong")
        found = [it for it in FORMS_FROM[rest[0]] if agrees(it[0], rest)]
        whole = [it for it in found if len(it[0]) <= len(rest)]
        if not whole:
            raise Fault(f"C2 Truncated {offset}" if found else f"C1 Unknown {offset}")
        [(form, text, free)] = whole
        values, at = [], form.index(None) if free else 0
        for kind in free:
            value = int.from_bytes(rest[at : at + SIZES[kind]], "little", signed=kind in ("imm32", "rel32"))
            at += SIZES[kind]
            if kind == "address":
                if value not in names:
                    raise Fault(f"C3 BadAddress {offset}")
                value = names[value]
            elif kind == "rel32":
                jumps.append((len(said), offset, offset + len(form) + value))
            values.append(value % 2**64 if isinstance(value, int) else value)
        starts.append(offset)
        said.append(text.format(*values))
        offset += len(form)
    starts.append(len(code))
    for place, at, target in jumps:
        if target not in starts:
            raise Fault(f"C4 BadTarget {at}")
        said[place] = said[place], starts.index(target)
    return said


# --- object files


class ObjectReader:
    """Reads an object file, from its first byte on."""

    def __init__(self, data):
        self.rest = data[7:]
        self.litmus = Litmus()
        self.codes = []
        version = self.take(1)
        if version not in (b"1", b"2"):
            raise Fault("O1 BadMagic")
        self.version = int(version)
        counts = [self.count(8) for _ in range(self.count(64))]
        self.litmus.lines = [[None] * it for it in counts]
        for word in self.litmus.words():
            self.litmus.lines[word // 8][word % 8] = self.name(word) if self.version == 2 else f"w{word}"
        for word in self.litmus.words():
            self.litmus.initial[word] = int.from_bytes(self.take(8), "little")
        for p in range(self.count(8 if self.version == 1 else 16)):
            self.litmus.processors.append((self.code(f"cpu {p} main"), self.code(f"cpu {p} recover")))
        if self.rest:
            raise Fault("O3 Trailing")

    def take(self, size):
        if len(self.rest) < size:
            raise Fault("O2 Short")
        taken, self.rest = self.rest[:size], self.rest[size:]
        return taken

    def count(self, most):
        count = self.take(1)[0]
        if count > most:
            raise Fault("O4 BadCount")
        return count

    def name(self, word):
        size = self.take(1)[0]
        if not 1 <= size <= 16:
            raise Fault(f"O7 BadName {word}")
        name = self.take(size).decode("latin-1")
        if not is_name(name) or name in self.litmus.words().values():
            raise Fault(f"O7 BadName {word}")
        return name

    def code(self, where):
        code = self.take(int.from_bytes(self.take(4), "little"))
        self.codes.append(code)
        try:
            return instructions_of(code, {4096 + 8 * word: name for word, name in self.litmus.words().items()})
        except Fault as fault:
            raise Fault(f"O5 BadCode {where} {fault}") from None

    def spelled(self):
        """The object's bytes in version 2."""
        counts = [len(names) for names in self.litmus.lines]
        words = self.litmus.words()
        said = b"PX86OBJ2" + bytes([len(counts), *counts])
        said += b"".join(bytes([len(name)]) + name.encode("ascii") for name in words.values())
        said += b"".join(self.litmus.initial[word].to_bytes(8, "little") for word in words)
        said += bytes([len(self.litmus.processors)])
        return said + b"".join(len(code).to_bytes(4, "little") + code for code in self.codes)


def is_object(data):
    return data.startswith(b"PX86OBJ")


# --- steps, conditions and scripts

STEPS = {"exec": 1, "drain": 2, "persist": 1, "settle": 0, "crash": 0}


def step_of(tokens):
    """The step that a line says, or nothing."""
    numbers = [small_number_of(it) for it in tokens[1:]]
    if STEPS.get(tokens[0]) != len(numbers) or None in numbers:
        return None
    return (tokens[0], *numbers)


def steps_of(data):
    steps = []
    for number, line in enumerate(lines_of(data), 1):
        tokens = tokens_of(line) if is_text(line) else ["?"]
        if tokens:
            step = step_of(tokens)
            if step is None:
                raise Fault(f"S1 BadLine {number}")
            steps.append(step)
    return steps


class ConditionReader:
    """Reads a condition, from left to right."""

    def __init__(self, text, names):
        self.tokens = text.replace("(", " ( ").replace(")", " ) ").split()
        self.names = names
        self.place = 0
        self.condition()
        if self.place < len(self.tokens):
            self.fault()

    def fault(self):
        raise Fault(f"E1 BadCond {self.place}")

    def is_next(self, *tokens):
        if self.tokens[self.place : self.place + 1] and self.tokens[self.place] in tokens:
            self.place += 1
            return True
        return False

    def condition(self):
        self.term()
        while self.is_next("or"):
            self.term()

    def term(self):
        self.factor()
        while self.is_next("and"):
            self.factor()

    def factor(self):
        if self.is_next("not"):
            self.factor()
        elif self.is_next("("):
            self.condition()
            self.wants(self.is_next(")"))
        elif self.is_next("reg"):
            self.wants(self.is_next_as(lambda it: small_number_of(it) in range(16)))
            self.wants(self.is_next(*REGISTERS))
            self.compared()
        else:
            self.wants(self.is_next("persisted", "coherent"))
            self.wants(self.tokens[self.place :] and self.tokens[self.place] not in ("(", ")"))
            if not self.is_next(*self.names):
                raise Fault(f"E2 UnknownName {self.place}")
            self.compared()

    def compared(self):
        self.wants(self.is_next("=", "!=", "<", "<=", ">", ">="))
        self.wants(self.is_next_as(lambda it: number_of(it) is not None))

    def is_next_as(self, test):
        if self.place < len(self.tokens) and test(self.tokens[self.place]):
            self.place += 1
            return True
        return False

    def wants(self, truth):
        if not truth:
            self.fault()


class Script:
    """Reads a script, and plays it."""

    def __init__(self, data, program):
        self.program = program
        self.stops = {}
        self.watches = {}
        self.commands = []
        for number, line in enumerate(lines_of(data), 1):
            self.line = number
            if not is_text(line):
                self.bad_line()
            words = line.decode("ascii").split("#")[0].split()
            if words[:1] == ["stop"]:
                self.read_stop(words)
            elif words:
                self.read(tokens_of(line))

    def bad_line(self):
        raise Fault(f"S1 BadLine {self.line}")

    def number(self, token):
        value = small_number_of(token)
        return self.bad_line() if value is None else value

    def declare(self, it, declared, what):
        if it in declared:
            raise Fault("G1 DoubleId")
        declared[it] = what

    def read_stop(self, words):
        if self.commands or len(words) < 2:
            self.bad_line()
        it = self.number(words[1])
        condition = " ".join(words[2:])
        ConditionReader(condition, self.program.words)
        self.declare(it, self.stops, Condition(condition, self.program))

    def given(self, token):
        name, _, number = token.partition("=")
        value = number_of(number)
        if name not in self.program.words or value is None:
            self.bad_line()
        return self.program.words[name], value

    def read(self, tokens):
        if tokens[0] == "watch":
            if self.commands or len(tokens) != 3:
                self.bad_line()
            it = self.number(tokens[1])
            if tokens[2] not in self.program.words:
                self.bad_line()
            self.declare(it, self.watches, (tokens[2], []))
        elif tokens in (["go"], ["continue"], ["show"], ["images"]):
            self.commands.append(["go_on" if tokens == ["continue"] else tokens[0]])
        elif tokens[0] == "values" and tokens[1:2] and tokens[1] in self.program.words:
            self.commands.append(["values", self.program.words[tokens[1]], [self.given(token) for token in tokens[2:]]])
        elif tokens[0] in ("back", "disarm", "detach") and len(tokens) == 2:
            self.commands.append([tokens[0], self.number(tokens[1])])
        else:
            step = step_of(tokens)
            self.commands.append(["step", step] if step else self.bad_line())

    def played(self):
        """The report."""
        self.states = [Machine(self.program)]
        self.gathered = []
        self.rest = []
        for name, *given in self.commands:
            yield from getattr(self, name)(*given)
        for it, (_, notes) in self.watches.items():
            yield f"watch {it} {len(notes)}"
            yield from (f"  {note}" for note in notes)

    def step(self, step):
        self.gathered.append(step)
        return []

    def go(self):
        self.rest = []
        return self.go_on()

    def go_on(self):
        steps, self.gathered = self.rest + self.gathered, []
        for at, step in enumerate(steps):
            self.rest = steps[at + 1 :]
            machine = self.states[-1].copy()
            try:
                seen = machine.step(step)
            except Refused as refused:
                return [f"refused {at} {refused}"]
            self.states.append(machine)
            for name, notes in self.watches.values():
                parts = seen.split()
                left = parts[0] == "left" and parts[3:5] == ["W", name]
                locked = parts[3:5] == ["locked", name] and parts[6] != "-"
                if left or locked:
                    notes.append(f"{machine.turns} {seen}")
            held = [it for it, condition in self.stops.items() if condition.holds(machine)]
            if held:
                return [f"stop {min(held)} {at + 1}"]
        return ["end"]

    def show(self):
        return self.states[-1].state_text()

    def images(self):
        machine = self.states[-1]
        is_listed = candidates_of(machine) <= CANDIDATES
        return listing_of(machine, types.SimpleNamespace(count=not is_listed, all=None, some=None))[0]

    def values(self, word, given):
        return values_lines(values_of(named_images_of(self.states[-1]), word, given))

    def back(self, count):
        if count >= len(self.states):
            return ["G3 TooFar"]
        del self.states[len(self.states) - count :]
        return [f"back {count}"]

    def disarm(self, it):
        return ["ok" if self.stops.pop(it, None) else "G2 NoId"]

    def detach(self, it):
        return ["ok" if self.watches.pop(it, None) else "G2 NoId"]


# --- what is wanted: the exit status, standard output and standard error


def refused(fault):
    return 2, b"", f"px86: {fault}\n".encode("ascii")


def report(lines, status=0):
    return status, "".join(line + "\n" for line in lines).encode("ascii"), b""


def program_of(data):
    """What a program file says."""
    return ObjectReader(data).litmus if is_object(data) else litmus_of(data)


def written(data):
    """What `dis` writes."""
    try:
        return 0, program_of(data).written(), b""
    except Fault as fault:
        return refused(fault)


def assembled(data):
    """What `asm` writes of an object."""
    try:
        return 0, ObjectReader(data).spelled(), b""
    except Fault as fault:
        return refused(fault)


def ran(program, data):
    """What `run` writes."""
    try:
        steps = steps_of(data)
    except Fault as fault:
        return refused(fault)
    machine = Machine(program)
    for at, step in enumerate(steps):
        try:
            machine.step(step)
        except Refused as why:
            return report([*machine.state_text(), f"refused {at} {why}"], 2)
    return report(machine.state_text())


def ended(program, data, outcomes={}):
    """What `outcomes --recovered` writes; the ends of a state are looked for once."""
    try:
        steps = steps_of(data)
    except Fault as fault:
        return refused(fault)
    machine = Machine(program)
    for at, step in enumerate(steps):
        try:
            machine.step(step)
        except Refused as why:
            return refused(f"{why} at {at}")
    key = key_of(machine), machine.crashes > 0
    if key not in outcomes:
        outcomes[key] = report(outcomes_of(Runs(machine), True))
    return outcomes[key]


def debugged(program, data):
    """What `debug` writes."""
    try:
        return report(Script(data, program).played())
    except Fault as fault:
        return refused(fault)


def held(program, steps, text):
    """What `images --count --all --some` writes of a condition, in a state that has one candidate."""
    try:
        condition = text.decode("utf-8")
    except UnicodeDecodeError:
        return refused("usage")
    try:
        ConditionReader(condition, program.words)
    except Fault as fault:
        return refused(fault)
    machine = make_all(Machine(program), steps)
    image = " ".join(map(str, machine.persisted.values()))
    if Condition(condition, program).holds(machine, list(machine.persisted.values())):
        return report(["candidates 1", "all holds", f"some found {image}"])
    return report(["candidates 1", f"all fails {image}", "some none"], 1)


def checked(program, question, text):
    """What `check` writes of a condition on a program without processors, of which there is one state."""
    try:
        condition = text.decode("utf-8")
    except UnicodeDecodeError:
        return refused("usage")
    try:
        ConditionReader(condition, program.words)
    except Fault as fault:
        return refused(fault)
    machine = Machine(program)
    if Condition(condition, program).holds(machine, list(machine.persisted.values())):
        return report([f"{question} holds", "states 1", "ends 1", "recovered ends 1"])
    return report([" ".join(map(str, [question, "fails", *machine.persisted.values()])), "steps 0"], 1)


def stated(program, text):
    """What `images --count --all --some` writes of a condition that is asked of a sheet, in its opening state."""
    try:
        condition = condition_of(text.decode("utf-8"), program)
    except UnicodeDecodeError:
        return refused("usage")
    except Fault as fault:
        return refused(fault)
    machine = Machine(program)
    image = " ".join(map(str, machine.persisted.values()))
    if condition.holds(machine):
        return report(["candidates 1", "all holds", f"some found {image}"])
    return report(["candidates 1", f"all fails {image}", "some none"], 1)


# --- what is changed


def cuts_of(data):
    """The proper beginnings, and the whole."""
    for size in range(len(data) + 1):
        yield f"its first {size} bytes", data[:size]


def replacements_of(data, by=REPLACED):
    for place, byte in enumerate(data):
        for other in by:
            if byte != other:
                yield f"byte {place} is {other:#04x}", data[:place] + bytes([other]) + data[place + 1 :]


def flips_of(data):
    for place in range(len(data)):
        for bit in range(8):
            yield f"byte {place}, bit {bit}", data[:place] + bytes([data[place] ^ 1 << bit]) + data[place + 1 :]


# The object of version 1 of a word and of a processor that runs one `sfence`: 30 bytes.
SMALL = b"PX86OBJ1\x01\x01" + bytes(8) + b"\x01\x03\0\0\0\x0f\xae\xf8" + bytes(4)

# What each change of one bit of it makes: its bytes, the bits (0 is the lowest), and the fault, or `value` and `mfence` where it
# is the object with that bit in the initial value, or with that instruction. In the first seven bytes the file is no object but
# a text, with a byte 01 on its only line, unless J becomes a line feed.
SMALL_TABLE = """
0-5    01234567  X7 NotAscii line 1
6      0123457   X7 NotAscii line 1
6      6         X1 BadWord line 1
7      01234567  O1 BadMagic
8      0123      O3 Trailing
8      4567      O4 BadCount
9      0         O3 Trailing
9      12        O2 Short
9      34567     O4 BadCount
10-17  01234567  value
18     0         O3 Trailing
18     12        O2 Short
18     34567     O4 BadCount
19     01        O5 BadCode cpu 0 main C2 Truncated 0
19     2         O5 BadCode cpu 0 main C1 Unknown 3
19     34567     O2 Short
20-22  01234567  O2 Short
23-24  01234567  O5 BadCode cpu 0 main C1 Unknown 0
25     0124567   O5 BadCode cpu 0 main C1 Unknown 0
25     3         mfence
26-29  01234567  O2 Short
"""


def small_table():
    """What `dis` writes of each change of a bit of the small object, by the table."""
    wanted = {}
    for row in SMALL_TABLE.strip().split("\n"):
        places, bits, what = row.split(maxsplit=2)
        first, last = (places.split("-") * 2)[:2]
        for place in range(int(first), int(last) + 1):
            for bit in map(int, bits):
                wanted[place, bit] = refused(what)
                if what in ("value", "mfence"):
                    value = 1 << 8 * (place - 10) + bit if what == "value" else 0
                    said = ["litmus 1", "line w0", *([f"init w0 {value}"] if value else []), "cpu"]
                    wanted[place, bit] = report([*said, "mfence" if what == "mfence" else "sfence", "end"])
    return wanted


# Two processors, of which one has a recovery program; operands of each kind, and jumps to the front and to the end.
RICH = b"""litmus 1 # a text
line x y9
line
init y9 -1
cpu
t:
mov r8, 0x1F
mov [r8], 7
cmp rax, -3
jnz t
recover
mov rbx, [y9]
jz over
over :
end
cpu
lock xadd [x], r9
clwb [r9]
end
"""

# Each abbreviation of a sheet, and a jump in a copy.
SHEET = b"""sheet 1 # a sheet
const K 3
const V1 -1
line * 2 n$ m$[2]
line x
const AT &x
init x AT
init n1 K 7 0x8
cpu
mov rdi, &m10
end
cpu * 2
mov rsi, AT
a$:
mov [n0], V1
add rax, $
jnz a$
recover 2
cmp rcx, K
end
"""

# Each form of a question.
ASKED = b"""sheet 1
line x y
cpu
end
let a = &x + 8
let b = persisted [a] - 3
every crash c: not (b < 0 or reg 0 rax = 0x1) -> coherent y != 1
some end d: c and b + 3 >= persisted [a] # d
"""

FIRST = b"litmus 1\nline x\ncpu\nmov [x], 1\nclflush [x]\nsfence\nend\n"

# What steps, scripts and conditions are of.
SHARED = b"""litmus 1
line x
line y
init x 1
init y 2
cpu
mov rax, 3
mov [x], rax
clflush [x]
end
cpu
lock xadd [y], rax
recover
mov rbx, [x]
end
"""

SHARED_STEPS = b"exec 0\nexec 0 # x\nexec 0\n\ndrain 0 0\ndrain 0 0\nexec 1\npersist 0\nsettle\ncrash\nexec 1"

SCRIPT = b"""stop 7 coherent x = 3 and not persisted x = 3 # it
watch 3 x
watch 9 y
exec 0
exec 0
drain 0 0
exec 1
go
images
values y x=3
values x y=0x5 x=1
back 1
drain 0 0
go
disarm 7
continue
exec 1
persist 1
go
show
detach 3
back 19
"""

# The same words without processors.
STILL = b"litmus 1\nline x\nline y\ninit x 1\ninit y 2\n"

CONDITION = b"persisted x = 1 and not ( coherent y > 0x2 or reg 0 rax != 3 )"


# Names of a value, a condition and a question, a constant, a pointer and each part of a condition, in which each word is one of
# the other kinds too.
STATED_OF = b"sheet 1\nconst K 3\nline x y\ninit x 1\ncpu\nend\nlet v = &x + 8\nlet c = persisted y = 0\nevery crash d: c\n"
STATED = b"persisted [v] + K >= 0x3 -> not (c and reg 0 rax != -1) or d # c"


def objects():
    """Objects by their names: the small one, in both versions; the text of the first example; and one of all operands."""
    yield "the small object", SMALL
    small = ObjectReader(SMALL).spelled()
    yield "the small object in version 2", small
    yield "the rich object", rich_object()


def rich_object():
    """The object of the rich text, of which each instruction's bytes are made by the forms."""
    litmus = litmus_of(RICH)
    counts = [len(names) for names in litmus.lines]
    addresses = {name: 4096 + 8 * word for word, name in litmus.words().items()}
    said = b"PX86OBJ2" + bytes([len(counts), *counts])
    said += b"".join(bytes([len(name)]) + name.encode("ascii") for name in addresses)
    said += b"".join(litmus.initial.get(word, 0).to_bytes(8, "little") for word in litmus.words())
    said += bytes([len(litmus.processors)])
    for code in (code for both in litmus.processors for code in both):
        spelled = code_of(code, addresses)
        said += len(spelled).to_bytes(4, "little") + spelled
    return said


def code_of(instructions, addresses):
    """The bytes of instructions, as of a litmus text."""
    rows = [form_of(it[0] if isinstance(it, tuple) else it, addresses) for it in instructions]
    starts = [sum(len(form) for form, _ in rows[:place]) for place in range(len(rows) + 1)]
    said = b""
    for place, (form, values) in enumerate(rows):
        it = instructions[place]
        if isinstance(it, tuple):
            values = (starts[it[1]] - starts[place + 1]).to_bytes(4, "little", signed=True)
        rest = iter(values)
        said += bytes(next(rest) if byte is None else byte for byte in form)
    return said


def form_of(text, addresses):
    """The form of an instruction's text, and the bytes that are free in it."""
    for form, pattern, free in FORMS:
        if free in ([], ["rel32"]) and pattern == text:
            return form, b""
        for name, address in addresses.items() if "address" in free else [(None, 0)]:
            head = pattern.replace("[{}]", f"[{name}]", 1)
            if "imm32" not in free and "imm64" not in free:
                if head == text:
                    return form, address.to_bytes(4, "little")
            elif "{}" in head and text.startswith(head[: head.index("{}")]):
                tail = text[head.index("{}") :]
                if tail.isdigit():
                    values = address.to_bytes(4, "little") if "address" in free else b""
                    size = SIZES[free[-1]]
                    return form, values + (int(tail) % 2 ** (8 * size)).to_bytes(size, "little")
    raise ValueError(text)


# --- cases

Wanted = tuple[int, bytes, bytes]


def answered(px86: Px86, wanted: Callable[[], Wanted], words: list[str | bytes], text: bytes, steps: bytes = b"") -> Checks:
    """What comes of a command on a file with this text, and with these steps."""
    px86.keep("text", text)
    done = px86(*words, "text", given=steps, cwd=px86.folder)  # type: ignore[arg-type]
    yield "", unlike((done.status, done.written, done.said), wanted())


def told_by_readers(_: Px86, data: bytes, wanted: Wanted) -> Checks:
    """The readers say what stands in the table."""
    yield "", unlike(written(data), wanted)


def cases_of_readers() -> Iterator[Case]:
    """What the readers say of the small object."""
    table = small_table()
    for (name, data), place in zip(flips_of(SMALL), [(place, bit) for place in range(len(SMALL)) for bit in range(8)]):
        yield Case(f"the small object, {name}, by the readers", told_by_readers, data, table[place])
    faults = ["X6 MissingEnd line 1", *["X1 BadWord line 1"] * 6, *["O2 Short"] * 23]
    wanted = [*map(refused, faults), report(["litmus 1", "line w0", "cpu", "sfence", "end"])]
    for (name, data), it in zip(cuts_of(SMALL), wanted, strict=True):
        yield Case(f"the small object, {name}, by the readers", told_by_readers, data, it)


def cases_of_objects() -> Iterator[Case]:
    for title, data in objects():
        for name, changed in [*cuts_of(data), *flips_of(data)]:
            yield Case(f"{title}, {name}", answered, functools.partial(written, changed), ["dis"], changed)
            if data == SMALL and is_object(changed):
                yield Case(f"{title}, {name}, assembled", answered, functools.partial(assembled, changed), ["asm"], changed)


def cases_of_texts() -> Iterator[Case]:
    for title, data in ("the first text", FIRST), ("the rich text", RICH):
        for name, changed in [*cuts_of(data), *replacements_of(data)]:
            yield Case(f"{title}, {name}", answered, functools.partial(written, changed), ["dis"], changed)
    for name, changed in [*cuts_of(SHEET), *replacements_of(SHEET, REPLACED + b"$&*K")]:
        yield Case(f"the sheet, {name}", answered, functools.partial(written, changed), ["dis"], changed)
    for name, changed in [*cuts_of(ASKED), *replacements_of(ASKED, REPLACED + b"&a[-")]:
        yield Case(f"the questions, {name}", answered, functools.partial(written, changed), ["dis"], changed)


def cases_of_steps() -> Iterator[Case]:
    program = Program(SHARED.decode("ascii"))
    for name, changed in [*cuts_of(SHARED_STEPS), *replacements_of(SHARED_STEPS)]:
        yield Case(f"steps, {name}", answered, functools.partial(ran, program, changed), ["run"], SHARED, changed)
        wanted = functools.partial(ended, program, changed)
        yield Case(f"steps of outcomes, {name}", answered, wanted, ["outcomes", "--recovered"], SHARED, changed)
    for name, changed in [*cuts_of(SCRIPT), *replacements_of(SCRIPT)]:
        yield Case(f"script, {name}", answered, functools.partial(debugged, program, changed), ["debug"], SHARED, changed)


def cases_of_conditions() -> Iterator[Case]:
    program, still = Program(SHARED.decode("ascii")), Program(STILL.decode("ascii"))
    for name, changed in [*cuts_of(CONDITION), *replacements_of(CONDITION, REPLACED.replace(b"\0", b""))]:
        words = ["images", "--count", b"--all=" + changed, b"--some=" + changed]
        wanted = functools.partial(held, program, [("exec", 0)], changed)
        yield Case(f"condition, {name}", answered, wanted, words, SHARED, b"exec 0\n")
        for question in "all", "ends":
            wanted = functools.partial(checked, still, question, changed)
            words = ["check", f"--{question}=".encode() + changed]
            yield Case(f"condition of check, {question}, {name}", answered, wanted, words, STILL)
    sheet = sheet_of(STATED_OF.decode("ascii"))
    for name, changed in [*cuts_of(STATED), *replacements_of(STATED, REPLACED.replace(b"\0", b"") + b"#&[-Kc")]:
        wanted = functools.partial(stated, sheet, changed)
        words = ["images", "--count", b"--all=" + changed, b"--some=" + changed]
        yield Case(f"condition of a sheet, {name}", answered, wanted, words, STATED_OF)


def cases() -> Iterator[Case]:
    """All cases."""
    for part in cases_of_readers, cases_of_objects, cases_of_texts, cases_of_steps, cases_of_conditions:
        yield from part()
