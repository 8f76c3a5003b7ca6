"""The limits of what docs/FORMATS.md and docs/MODEL.md say, and a text that is cut at each byte: rows of tests/texts.py that are too
long to write down."""

from __future__ import annotations

from collections.abc import Iterator

from tests.texts import Row

Rows = Iterator[Row]
DRAINED, STEP = "exec 0\ndrain 0 0\n", "exec 0\n"
X_LOST, Y_LOST = "word x coherent 0 persisted 0\n", "word y coherent 0 persisted 0\n"


def row(name: str, text: str, steps: str, words: list[str], out: str, status: int = 0) -> Row:
    """A row with a report."""
    return Row(name, text.encode(), steps.encode(), tuple(words), status, out.encode())


def fault(name: str, text: str, steps: str, words: list[str], told: str) -> Row:
    """A row with a fault: 5 where it cannot be told of every run, and otherwise 2."""
    status = 5 if words[0] in ("check", "outcomes") else 2
    return Row(name, text.encode(), steps.encode(), tuple(words), status, err=f"px86: {told}\n".encode())


def text_of(lines: str, *code: str) -> str:
    """The text of words, each on a line of its own, and of one processor."""
    return "".join(f"{it}\n" for it in ["litmus 1", *(f"line {word}" for word in lines.split()), "cpu", *code, "end"])


def numbered(count: int, line: str, first: int = 0) -> str:
    """So many lines of a report, with the number of each in place of `I`."""
    return "".join(line.replace("I", str(number)) + "\n" for number in range(first, count))


def report(turns: int, processor: str, *rest: str) -> str:
    """The report of a run before any crash: of the first processor, and the lines of the rest."""
    return f"turns {turns}\ncrashes 0\ncpu 0 main {processor} zf 0\n" + "".join(rest)


# --- a text cut at each byte

# Its last line is a line too, or a part of one; and where it is a line, the text may still end in a processor. Of the bytes that are
# left, from and to, what must come.
UNCUT = "litmus 1\nline x\ncpu\nmov [x], 1\nclflush [x]\nsfence\nend\n"
CUTS = """0 0 X6 MissingEnd line 1
1 7 X1 BadWord line 1
8 9 accepted
10 12 X1 BadWord line 2
13 16 accepted
17 18 X1 BadWord line 3
19 20 X6 MissingEnd line 3
21 29 X1 BadWord line 4
30 31 X6 MissingEnd line 4
32 41 X1 BadWord line 5
42 43 X6 MissingEnd line 5
44 48 X1 BadWord line 6
49 50 X6 MissingEnd line 6
51 52 X1 BadWord line 7
53 54 accepted"""


def rows_of_cuts() -> Rows:
    """A row for each byte."""
    told = {}
    for line in CUTS.splitlines():
        first, last, what = line.split(" ", 2)
        told |= dict.fromkeys(range(int(first), int(last) + 1), what)
    for left in range(len(UNCUT) + 1):
        name, text = f"the text cut after byte {left}", UNCUT[:left]
        yield Row(name, text.encode(), asks="accepted") if told[left] == "accepted" else fault(name, text, "", ["run"], told[left])


# --- limits of listings and of conditions


def lines_text(count: int, writes: int, *code: str) -> str:
    """A text of so many lines, with a write of 1 to a word on each of the first ones, and this code behind them."""
    return text_of(" ".join(f"x{at}" for at in range(count)), *(f"mov [x{at}], 1" for at in range(writes)), *code)


def sixteen_bits() -> str:
    """An image for each number below 2^16 in binary, a digit a word."""
    return "".join(f"image {' '.join(f'{number:016b}')}\n" for number in range(65536))


def rows_of_listings() -> Rows:
    text, steps = lines_text(16, 16), DRAINED * 16
    listed = f"candidates 65536\n{sixteen_bits()}images 65536\n"
    yield row("as many candidates as are told", text, steps, ["images"], listed)
    yield row("as many in a script", text, steps + "go\nimages\n", ["debug"], f"end\n{listed}")
    text, steps, more = lines_text(17, 17), DRAINED * 17, "candidates more\n"
    either = "persisted x0 = 0 or persisted x0 = 1"
    yield fault("one line more", text, steps, ["images"], "I1 TooMany")
    yield fault("more candidates than are told, and a condition", text, steps, ["images", "--count", "--all", either], "I1 TooMany")
    yield row("more candidates than are told are counted", text, steps, ["images", "--count"], more)
    script = steps + "go\nimages\nexec 0\ngo\n"
    yield row("more candidates than are told, in a script", text, script, ["debug"], f"end\n{more}refused 0 M3 Halted\n")
    # The set of one image is told all the same: that of the last line's write alone, and that of all.
    words = ["images", "--set", "0 " * 16 + "1"]
    yield row("the set of an image among more candidates than are told", text, steps, words, "set 16\n")
    words, all_places = ["images", "--set", "1 " * 17], " ".join(map(str, range(17)))
    yield row("the set of all among more candidates than are told", text, steps, words, f"set {all_places}\n")
    text = lines_text(17, 16, "clflush [x16]")
    yield fault("markers may double the candidates", text, steps, ["images"], "I1 TooMany")
    yield row("markers may double the candidates, counted", text, steps, ["images", "--count"], more)


def rows_of_conditions() -> Rows:
    text, holds, factor = text_of("x"), "candidates 1\nall holds\n", "persisted x = 0"
    asked = lambda condition: ["images", "--count", "--all", condition]
    for opened, closed in ("( ", " )" * 64), ("not ", ""):
        yield row(f"64 open: {opened}", text, "", asked(opened * 64 + factor + closed), holds)
        yield fault(f"65 open: {opened}", text, "", asked(opened * 65 + factor), "E1 BadCond 64")
    both = "not ( " * 32 + factor + " )" * 32
    yield row("64 open, of both kinds", text, "", asked(both), holds)
    yield fault("65 open, of both kinds", text, "", asked(f"not {both}"), "E1 BadCond 64")
    long = factor + f" and {factor}" * 204
    yield row("1,024 words", text, "", asked(long), holds)
    yield fault("1,025 words", text, "", asked(f"{long} and"), "E1 BadCond 1024")


# --- limits of a run: the first step too many is refused


def rows_of_room() -> Rows:
    run = ["run"]
    out = report(128, "128 ready", numbered(128, "  buf I W x 1"), X_LOST, "refused 128 M5 BufferFull\n")
    yield row("a store buffer has room for 128 entries", text_of("x", *["mov [x], 1"] * 129), STEP * 129, run, out, 2)
    state = "  buf 0 W x 1\nword x coherent 1 persisted 0\n" + numbered(256, "pend I W x 1")
    out = report(513, "257 halted", state, "refused 513 M8 LineFull\n")
    yield row("a line has room for 256 pending writes", text_of("x", *["mov [x], 1"] * 257), DRAINED * 257, run, out, 2)
    out = report(513, "257 halted", "  buf 0 FL 0\n", X_LOST, numbered(256, "pend I PER 0"), "refused 513 M9 MarkersFull\n")
    yield row("the pending list has room for 256 markers", text_of("x", *["clflush [x]"] * 257), DRAINED * 257, run, out, 2)
    # The zero flag stays 0, though the sum would be 0.
    text = text_of("x", *["xchg [x], rax"] * 256, "lock xadd [x], rcx")
    out = report(256, "256 ready", X_LOST, numbered(256, "pend I W x 0"), "refused 256 M8 LineFull\n")
    yield row("a locked operation needs room for its write", text, STEP * 257, run, out, 2)
    # The newest of 128 writes is read, and not the one before it.
    text = text_of("x", *["mov [x], 1"] * 127, "mov [x], 2", "mov rax, [x]")
    out = report(129, "129 halted", "  reg rax 2\n", numbered(127, "  buf I W x 1"), "  buf 127 W x 2\n", X_LOST)
    yield row("the write at the last of 128 places is read", text, STEP * 129, run, out)


def full_row(name: str, turns: int, refusal: str, code: list[str], drains: list[str], buffered: str, pending: str = "") -> Row:
    """A program that fills its store buffer: a store to x, flushes of y, of which none holds another, and then this code. Of these
    128 instructions, and of the drains, the last drain is refused: behind so many steps, by this refusal, and in a state with this
    behind the first place of the store buffer, and this pending."""
    text = text_of("x y", "mov [x], 1", *["clflushopt [y]"] * (127 - len(code)), *code)
    steps = STEP * 128 + "".join(f"{drain}\n" for drain in drains)
    state = "  buf 0 W x 1\n" + buffered + X_LOST + Y_LOST + pending
    return row(name, text, steps, ["run"], report(turns, "128 halted", state, f"refused {turns} {refusal}\n"), 2)


def rows_of_full_buffers() -> Rows:
    """The last place may leave, and one in the middle, and then there are 126 places. The first place holds a store at the last one.
    A store or a flush at the last place but one holds a flush of its line."""
    flushes, last = numbered(126, "  buf I FO 1", 1), ["drain 0 127"]
    drains = [*last, "drain 0 64", "drain 0 126"]
    name, pending = "the last of 128 places leaves, and one before it", "pend 0 PER 1\npend 1 PER 1\n"
    yield full_row(name, 130, "M6 NoEntry", [], drains, flushes, pending)
    held = numbered(127, "  buf I FO 1", 1) + "  buf 127 W y 2\n"
    yield full_row("the first place holds the last", 128, "M7 Held 0", ["mov [y], 2"], last, held)
    code, held = ["mov [y], 2", "clflushopt [y]"], flushes + "  buf 126 W y 2\n  buf 127 FO 1\n"
    yield full_row("the last place but one holds the last", 128, "M7 Held 126", code, last, held)
    code, held = ["clflush [y]", "clflushopt [y]"], flushes + "  buf 126 FL 1\n  buf 127 FO 1\n"
    yield full_row("a flush at the last place but one holds the last", 128, "M7 Held 126", code, last, held)


def sixteen(*code: str) -> str:
    """A text of sixteen processors, with their number in place of `P`."""
    blocks = "".join("cpu\n" + "".join(f"{it.replace('P', str(p))}\n" for it in code) + "end\n" for p in range(16))
    return f"litmus 1\nline x\n{blocks}"


def rows_of_processors() -> Rows:
    """Sixteen processors, and no seventeenth: the last one runs and drains, a condition can ask for it, and for no further."""
    text, steps = sixteen("mov rax, P", "mov [x], rax"), "exec 15\nexec 15\ndrain 15 0\n"
    last = "cpu 15 main 2 halted zf 0\n  reg rax 15\nword x coherent 15 persisted 0\npend 0 W x 15\nrefused 3 M2 NoCpu\n"
    out = "turns 3\ncrashes 0\n" + numbered(15, "cpu I main 0 ready zf 0") + last
    yield row("the sixteenth processor runs, and there is no seventeenth", text, f"{steps}exec 16\n", ["run"], out, 2)
    words = ["images", "--count", "--all", "reg 15 rax = 15 and not reg 14 rax = 14"]
    yield row("a condition asks for the sixteenth processor", text, steps, words, "candidates 2\nall holds\n")
    words = ["images", "--count", "--all", "reg 16 rax = 15"]
    yield fault("a condition may not ask for a seventeenth", text, steps, words, "E1 BadCond 1")
    words = ["tally", "--runs", "1", "--length", "0"]
    yield row("an outcome has the sixteenth processor", text, steps, words, "outcome 1 15:rax=15 x=15/0\n")
    # What 16 processors of one instruction each come to, and that none of them hides another.
    text, told = sixteen("mov rax, P"), "".join(f" {p}:rax={p}" for p in range(1, 16))
    yield row("the outcome of sixteen processors", text, "", ["outcomes"], f"outcome{told} x=0\noutcomes 1\n")
    words = ["check", "--ends", "reg 15 rax = 15 and reg 14 rax = 14"]
    yield row("the end of sixteen processors", text, "", words, "ends holds\nstates ..\nends 1\nrecovered ends 1\n")
    words = ["check", "--ends", "reg 15 rax = 14", "--show"]
    yield row("each of sixteen processors makes a step to the end", text, "", words, "ends fails 0\nsteps 16\n" + "exec ..\n" * 16, 1)


LOCKED = "xchg [rdx], rcx", "lock xadd [rdx], rcx", "lock cmpxchg [rdx], rcx"


def rows_of_traps() -> Rows:
    """A register's address is looked up before room is asked for: where it is no word's, that is a trap, which needs none."""
    buffered, pending = numbered(128, "  buf I W x 1") + X_LOST, X_LOST + numbered(256, "pend I W x 0")
    accesses = "mov [rax], 1", "mov [rax], rcx", "clflush [rax]", "clflushopt [rax]", "clwb [rax]", "xchg [rax], rcx"
    full = [("buffer", "mov [x], 1", 128, it, buffered) for it in accesses] + [("line", "xchg [x], rax", 256, it, pending) for it in LOCKED]
    for kind, filling, count, code, state in full:
        name = f"a full {'store buffer' if kind == 'buffer' else 'line'}, and {code}"
        out = report(count + 1, f"{count} trapped", "  trap 0\n", state)
        yield row(name, text_of("x", *[filling] * count, code), STEP * (count + 1), ["run"], out)
    # The same with the address of a word.
    full = [("buffer", "mov [x], 1", 128, it, buffered) for it in ("mov [rdx], 1", "clflush [rdx]", "clwb [rdx]")]
    for kind, filling, count, code, state in [*full, *(("line", "xchg [x], rax", 256, it, pending) for it in LOCKED)]:
        name = f"a full {'store buffer' if kind == 'buffer' else 'line'}, and {code} with a word's address"
        refusal = f"refused {count + 1} {'M5 BufferFull' if kind == 'buffer' else 'M8 LineFull'}\n"
        text = text_of("x", *[filling] * count, "mov rdx, 4096", code)
        yield row(name, text, STEP * (count + 2), ["run"], report(count + 1, f"{count + 1} ready", "  reg rdx 4096\n", state, refusal), 2)


def rows_of_addresses() -> Rows:
    """The last address that any word may have, 0x1FF8, with 64 lines of 8 words, and the one behind it."""
    lines = "".join("line" + "".join(f" x{at}" for at in range(8 * line, 8 * line + 8)) + "\n" for line in range(64))
    blocks = "".join(f"cpu\nmov rax, {address}\nmov [rax], 1\nend\n" for address in (8184, 8192))
    first = report(6, "2 halted", "  reg rax 8184\ncpu 1 main 1 trapped zf 0\n  trap 8192\n  reg rax 8192\n")
    out = first + numbered(511, "word xI coherent 0 persisted 0") + "word x511 coherent 1 persisted 1\n"
    steps = "exec 0\nexec 0\nexec 1\nexec 1\ndrain 0 0\npersist 63\n"
    yield row("the address of the last word of all, and the one behind it", f"litmus 1\n{lines}{blocks}", steps, ["run"], out)
    # 65 cache lines, and the 1,025 instructions of an object.
    yield fault("65 lines of a text", "litmus 1\n" + "line\n" * 65, "", ["run"], "X8 L1 TooManyLines line 66")
    code = b"PX86OBJ2\0\1\1\4\0\0" + b"\x90" * 1025 + bytes(4)
    told = b"px86: O5 BadCode cpu 0 main C5 TooLong\n"
    yield Row("1,025 instructions of an object", code, status=2, err=told)


# --- every run at the limits


def beside(*code: str) -> str:
    """A text of one word x, with a second processor, so that there are two."""
    return text_of("x", *code, "end", "cpu", "nop")


def rows_of_every_run() -> Rows:
    """The pending list has room for 256 writes of a line, and for 256 markers."""
    no_room, before, all_low = "R2 NoRoom", ["check", "--before-crash"], ["--all", "persisted x <= 1"]
    text = beside(*["mov [x], 1"] * 257)
    yield fault("a 257th write finds no room", text, "", [*before, *all_low], no_room)
    yield fault("a 257th write finds no room, with crashes", text, "", ["check", "--ends", "persisted x = 1"], no_room)
    yield fault("a 257th write finds no room, and outcomes", text, "", ["outcomes"], no_room)
    words = [*before, "--states", "5", *all_low]
    yield fault("more states than may be come before the want of room", text, "", words, "R1 TooManyStates")
    words = [*before, *all_low]
    yield Row("what is said where there is no room", text.encode(), b"", tuple(words), 5, err=b"R2: pending room M8 M9", asks="words")
    # They fill the line, and what persists makes room for the next one, which no run without persisting steps sees.
    steps, ends = DRAINED * 256 + "persist 0\n", "all holds\nstates ..\nends 1\nrecovered ends 1\n"
    out = ends + numbered(256, "never ran cpu 0 main I mov [x], 1")
    yield row("a 257th write behind one that has persisted finds room", text, steps, ["check", "--all", "persisted x = 1"], out)
    out = "all holds\nstates ..\nends 1\nrecovered ends 2\n"
    yield row("256 writes find room", beside(*["mov [x], 1"] * 256), "", ["check", *all_low], out)
    still = ["--all", "persisted x = 0"]
    yield fault("a 257th marker finds no room", beside(*["clflush [x]"] * 257), "", [*before, *still], no_room)
    yield row("256 markers find room", beside(*["clflush [x]"] * 256), "", ["check", *still], ends)
    yield fault("a 257th locked write finds no room", beside(*["xchg [x], rax"] * 257), "", [*before, *still], no_room)


def rows_of_candidates() -> Rows:
    """A write of each of 17 lines has more candidates than are told; of 16 it has as many as may be."""
    text, before, too_many = lines_text(17, 17), ["check", "--before-crash"], "I1 TooMany"
    all_ones = lambda count: ["--all", " and ".join(f"persisted x{at} <= 1" for at in range(count))]
    yield fault("every run to a state with too many candidates", text, "", [*before, *all_ones(17)], too_many)
    # Where the images are asked for, all lines count, also those that no condition names.
    yield fault("images of a state with too many candidates", text, "", [*before, "--images"], too_many)
    words = [*before, "--images", *all_ones(1)]
    yield fault("images of a state with too many candidates, beside a question of one line", text, "", words, too_many)
    out = "all holds\nstates ..\nends 1\n"
    yield row("a question of one line where all lines have too many candidates", text, "", [*before, *all_ones(1)], out)
    # No image is asked for where no crash is, and no condition of one.
    told = "".join(f" x{at}=1" for at in range(17))
    yield row("outcomes of a program with too many candidates", text, "", ["outcomes"], f"outcome{told}\noutcomes 1\n")
    text = lines_text(16, 16)
    yield row("every run to a state with as many candidates as may be", text, "", [*before, *all_ones(16)], out)
    # Each of 16 words is 0 or 1, and each memory is listed once.
    listed = f"states ..\nends 1\n{sixteen_bits()}images 65536\n"
    yield row("as many images as one state may have", text, "", [*before, "--images"], listed)


# --- the order of effect, cell by cell of the table of kept order

# Two instructions are executed. Where the second is delayed it leaves first, in step 2, from the place behind the first
# one's entry. In the cells of a second line (CL) an entry of the other line may pass. Of each earlier instruction the place of the
# store buffer at which the later one's entry stands, the later ones that break their order at once (`now`), those that break it once
# they have left (`left`), and those that break none.
AT_ONCE = "xchg [x], rax; xchg [y], rax; lock xadd [y], rax; lock cmpxchg [y], rcx; mfence"
CELLS = {
    "mov [x], 1": (
        *(1, AT_ONCE, "mov [x], 2; mov [y], 2; mov [x], rcx; sfence; clflushopt [x]; clwb [x]; clflush [x]; clflush [y]"),
        "mov rax, [x]; mov rax, [y]; clflushopt [y]; clwb [y]",
    ),
    "sfence": (
        *(1, "xchg [x], rax; lock xadd [x], rax; lock cmpxchg [x], rcx; mfence"),
        *("mov [x], 2; sfence; clflushopt [x]; clwb [x]; clflush [x]", "mov rax, [x]"),
    ),
    **dict.fromkeys(
        ("clflushopt [x]", "clwb [x]"),
        (
            *(1, "xchg [x], rax; lock xadd [y], rax; lock cmpxchg [y], rcx; mfence", "sfence; clflush [x]"),
            "mov rax, [x]; mov [x], 2; mov [y], 2; clflushopt [x]; clwb [x]; clflushopt [y]; clflush [y]",
        ),
    ),
    "clflush [x]": (
        *(1, "xchg [x], rax; lock xadd [y], rax; lock cmpxchg [y], rcx; mfence"),
        *("mov [x], 2; mov [y], 2; sfence; clflushopt [x]; clwb [x]; clflush [x]; clflush [y]", "mov rax, [x]; clflushopt [y]; clwb [y]"),
    ),
    # These take effect where they are executed, so nothing can come before them.
    **dict.fromkeys(
        ("mov rax, [x]", "xchg [x], rax", "lock xadd [x], rax", "lock cmpxchg [x], rcx", "mfence"),
        (0, "", "", "mov rcx, [x]; mov [x], 2; xchg [x], rax; mfence; sfence; clflushopt [x]; clwb [x]; clflush [x]"),
    ),
}
NOT_DELAYED = "mov r", "xchg", "lock", "mfence"


def rows_of_cells() -> Rows:
    """The cells of the table."""
    for earlier, (place, now, left, none) in CELLS.items():
        told = [("broken 0 0 1 1", now), ("broken 0 0 1 2", left), ("none", none)]
        for answer, later in [(answer, it) for answer, code in told for it in code.split("; ") if it]:
            steps = STEP * 2 + ("" if later.startswith(NOT_DELAYED) else f"drain 0 {place}\n")
            yield law(f"law of {earlier} and then {later}", text_of("x y", earlier, later), steps, answer)


def law(name: str, text: str, steps: str, told: str) -> Row:
    return row(name, text, steps, ["law"], f"{told}\n", int(told != "none"))


# --- the order of effect at the limits: where the memory has no room, the loose run ends

# An answer, the code behind 256 pending writes of x, and the steps behind its execution, which begins with step 512.
ON_FULL_LINE = [
    ("none", "mov [y], 1; xchg [x], rax", ""),
    ("broken 0 512 513 513", "mov [y], 1; xchg [y], rax", ""),
    ("none", "mov [y], 1; lock xadd [x], rax", ""),
    ("none", "sfence; mov [x], 2", "drain 0 1\n"),
    ("broken 0 512 513 514", "sfence; mov [y], 2", "drain 0 1\n"),
    ("broken 0 512 513 513", "mov [x], 2; mfence", ""),
    ("none", "mov [y], 1; mov [x], 2; clflush [y]", "drain 0 1\ndrain 0 2\n"),
    # The comparison is with the coherent value 1, not with the 2 that is buffered: it fails, so nothing is written and no
    # room is asked for; then it is met, and there is none.
    ("broken 0 513 514 514", "mov rax, 2; mov [x], 2; lock cmpxchg [x], rbx", ""),
    ("none", "mov rax, 1; mov [x], 2; lock cmpxchg [x], rbx", ""),
]
# The same behind 256 pending markers.
BEHIND_MARKERS = [
    ("none", "mov [x], 1; clflushopt [x]", "drain 0 1\n"),
    ("none", "sfence; clflush [y]", "drain 0 1\n"),
    ("broken 0 512 513 514", "sfence; mov [x], 1", "drain 0 1\n"),
    ("broken 0 512 513 514", "mov [x], 1; sfence", "drain 0 1\n"),
    ("broken 0 512 513 513", "clwb [x]; xchg [y], rax", ""),
]


def rows_of_full_memory() -> Rows:
    """The law behind 256 pending writes of x, or behind as many markers."""
    kinds = ("on a full line", "mov [x], 1", ON_FULL_LINE), ("with all markers pending", "clflushopt [x]", BEHIND_MARKERS)
    for where, filling, answers in kinds:
        for told, code, drains in answers:
            instructions = code.split("; ")
            text = text_of("x y", *[filling] * 256, *instructions)
            yield law(f"law {where}: {code}", text, DRAINED * 256 + STEP * len(instructions) + drains, told)


def rows_of_law() -> Rows:
    """A full store buffer: the write of y at place 0 and the flush of y at place 127, with flushes of x between."""
    text, full = text_of("x y", "mov [y], 1", *["clflushopt [x]"] * 126, "clwb [y]", "mov [x], 1", "mfence"), STEP * 128
    yield law("law of the last of 128 places", text, f"{full}drain 0 127\n", "broken 0 0 127 128")
    # The flush of x at place 1 may pass the write of y; the write then leaves, and the flush at the last place breaks nothing.
    yield law("law of the last of 128 places, in its order", text, f"{full}drain 0 1\ndrain 0 0\ndrain 0 125\n", "none")
    # One entry more has no room, which ends the loose run; with room for it, the fence behind it breaks a pair with the oldest
    # entry that is left.
    yield law("a full store buffer ends the loose run", text, f"{full}exec 0\ndrain 0 127\n", "none")
    yield law("law of a fence behind a full store buffer", text, f"{full}drain 0 0\nexec 0\nexec 0\n", "broken 0 1 130 130")
    # A hundred thousand steps, of which the last two break the order.
    text, steps = text_of("x", "again:", "mov [x], 1", "jmp again"), "exec 0\ndrain 0 0\npersist 0\nexec 0\n" * 24999
    yield law("law of a hundred thousand steps", text, steps, "none")
    steps += "exec 0\nexec 0\nexec 0\ndrain 0 1\n"
    yield law("law of a hundred thousand steps, the last of which breaks a pair", text, steps, "broken 0 99996 99998 99999")


GROUPS = [
    *(rows_of_listings, rows_of_conditions, rows_of_room, rows_of_full_buffers, rows_of_processors, rows_of_traps, rows_of_every_run),
    *(rows_of_candidates, rows_of_cells, rows_of_full_memory, rows_of_law, rows_of_addresses),
]


def rows_of_limits() -> Rows:
    """All of them."""
    for rows in GROUPS:
        yield from rows()
