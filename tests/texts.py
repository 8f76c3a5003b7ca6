"""Asks the program for what docs/FORMATS.md and docs/MODEL.md say of texts: the fault of each faulty litmus text, step list and
condition, when conditions hold, the report and the exit status of each worked row, the limits, and a text that is cut at each byte;
and for the bytes that GNU as gives instructions.

The cases stand in tests/cases, in three kinds of files; limits and cuts stand in tests/limits.py. What is expected was worked out
by hand from the rules, or is told by binutils, and none was taken from the program. A text of a line or a row may
have the escapes of bash's `printf %b`: `\\n`, `\\r`, `\\t`, `\\xHH`, and `\\c`, at which it ends.

NAME.lines has a case a line, `WHAT TAB TEXT`. WHAT is `accepted` (status 0), or the fault that must be all of
standard error, with status 2 and nothing on standard output. Empty lines and those that begin with `#` say nothing.
The others hold for the cases below them:

  program          the texts are litmus texts, run without steps (so at a file's beginning)
  steps            the texts are lists of steps of the program `litmus 1`
  conditions       the texts are conditions, of which WHAT may be `holds` or `fails` too. They are asked for where all
                   that is there has one value: words x and y of one line, and register rax of processor 0
  sheet TEXT       the same, but they are asked of this sheet, behind one step of its processor 0. `%` is as below
  at N             that value, as the report writes it; of a sheet the values of its words
  many N TEXT      `%` stands for this text, written N times
  frame N TEXT     the cases' texts stand in place of `@` in this one, on line N, which faults leave out
  whole            they are whole texts, and faults have their line (so at a file's beginning)
  names A | B      a case with `*` is one for each name, which stands in place of `*` (up to `frame` or `whole`); elsewhere a `*`
                   is itself

NAME.rows has worked rows, in sections that begin with these lines. Empty lines say nothing:

  == NAME            a case; what stands between this and its first section is a comment
  -- text            the litmus text; that of the row before if left out
  -- steps           the steps; those of the row before if left out
  -- command WORDS   the command and its options, as a shell reads them; `run` if left out
  -- report STATUS   the whole report on standard output, and the exit status; standard error must be empty. Of a line that
                     ends with ` ..` the beginning is wanted
  -- fault STATUS    what the line on standard error has behind `px86: `, and the exit status; there is no report
  -- explained STATUS   what is on standard error with `--explain`, and the exit status. Of a line that ends with ` ..`
                     the beginning is wanted
  -- written         in place of steps and report: what `dis` writes of the text, and of that again

Each case that ends with a fault or a refused step is run again with `--explain`. Its status and its report have to be the
same. Standard error has the same line, and then more, of which the last line begins with the number.

NAME.codes has programs, each below a line `== NAME`, with a line `INSTRUCTION TAB BYTES` for each instruction. BYTES
are in hexadecimal digits. Words are w0 and on, eight on each of 64 lines, and the label of place N is lN. `asm` must
write these bytes of these instructions, and `dis` the instructions of the bytes. Empty lines and those that begin
with `#` say nothing.
"""

from __future__ import annotations

import dataclasses
import glob
import json
import os
import re
import shlex
from collections.abc import Iterator

from tests.harness import TOP, Case, Checks, Done, Px86, read, run, unlike

NEEDS_PROGRAM = True
FILES = sorted(os.path.basename(path) for kind in ("lines", "rows", "codes") for path in glob.glob(f"{TOP}/tests/cases/*.{kind}"))
# Each file has a case, and the documents so many numbers.
AT_LEAST = {"": 4622, "number ": 41} | {f"{name}: ": 1 for name in FILES}


@dataclasses.dataclass(frozen=True)
class Row:
    """What is asked of a text and steps, and what is wanted: the status, and what is on standard output and on standard error; or, in
    place of these, that the text has no fault (`accepted`), its explanation (`explained`), its written form (`written`), or words
    that the last line of its explanation has (`words`). Of what is `plain` no explanation is asked."""

    name: str
    text: bytes
    steps: bytes = b""
    command: tuple[str, ...] = ("run",)
    status: int | None = 0
    out: bytes = b""
    err: bytes = b""
    asks: str = "report"


# --- what is wrong with an answer

COUNT = (
    rb"(?m)^px86: [1-9]\d* states were found and \d+ explored, the last one \d+ steps from the start: none was seen to break what was "
    rb"asked of it\n(?=px86: (?:R1 TooManyStates$|[1-9]\d* states were found ))"
)
LAST_NUMBER = re.compile(rb"^([A-Z]\d+)\b")


def answer(px86: Px86, row: Row, *more: str) -> Done:
    """What the program answers, but for the lines on standard error that say how far explorations came, where the fault R1 is on the
    next line. The numbers are of no contract."""
    px86.keep("text", row.text)
    with open(px86.keep("steps", row.steps), "rb") as steps:
        done = px86(*row.command, *more, "text", given=None, most=300, stdin=steps, cwd=px86.folder)
    return Done(done.status, done.written, re.sub(COUNT, b"", done.said))


def are_lines(found: bytes, wanted: bytes) -> bool:
    """Whether lines are those that are wanted, or begin as those do that end with ` ..`."""
    lines, others = found.split(b"\n"), wanted.split(b"\n")
    is_line = lambda one, other: one.startswith(other[:-3]) if other.endswith(b" ..") else one == other
    return len(lines) == len(others) and all(map(is_line, lines, others))


def wrong_answer(done: Done, status: int | None, out: bytes, err: bytes) -> str:
    """What is wrong with an answer that should be this."""
    if done.status == status and are_lines(done.written, out) and done.said == err:
        return ""
    return f"status {done.status}, wanted {status}; {done.said[:200]!r}, wanted {err[:200]!r}; {done.written[:500]!r}, wanted {out[:500]!r}"


def explanation_in(said: bytes) -> bytes:
    """What stands on standard error with `--explain`. That of a refused step of a report as JSON is an object."""
    return json.loads(said)["explanation"].encode() if said.startswith(b'{"explanation":') else said


def wrong_more(done: Done, explained: Done) -> str:
    """What is wrong with an answer with `--explain`: the status and the report are the same, and more is on standard error."""
    last = explanation_in(explained.said).rstrip(b"\n").rpartition(b"\n")[2]
    number = done.said.removeprefix(b"px86: ").partition(b" ")[0].strip()
    # Of a command line the parser says what it likes.
    says = last.startswith(b"M") if not done.said else number == b"usage" or re.match(re.escape(number) + rb"[ :]", last)
    if explained.status == done.status and explained.written == done.written and explained.said.startswith(done.said) and says:
        return ""
    return f"status {explained.status}, not {done.status}, or not the same and more: {explained.said[:300]!r}"


def reported(px86: Px86, row: Row) -> Checks:
    done = answer(px86, row)
    yield "", wrong_answer(done, row.status, row.out, row.err)
    if done.status >= 2:
        yield "explained", wrong_more(done, answer(px86, row, "--explain"))


def plain(px86: Px86, row: Row) -> Checks:
    """The same, and nothing is asked of its explanation."""
    yield "", wrong_answer(answer(px86, row), row.status, row.out, row.err)


def accepted(px86: Px86, row: Row) -> Checks:
    """What was read is not of the case."""
    done = answer(px86, row)
    yield "", unlike((done.status, done.said, done.written.split(b"\n")[:2]), (0, b"", [b"turns 0", b"crashes 0"]))


def explained(px86: Px86, row: Row) -> Checks:
    done = answer(px86, row, "--explain")
    is_told = done.status == row.status and are_lines(done.said, row.err)
    yield "", "" if is_told else f"status {done.status}, not {row.status}, or {done.said!r}, not {row.err!r}"


def has_words(px86: Px86, row: Row) -> Checks:
    done = answer(px86, row, "--explain")
    last = done.said.rstrip(b"\n").rpartition(b"\n")[2]
    missing = [word for word in row.err.split() if word not in last]
    yield "", unlike((done.status, missing), (row.status, []))


def written(px86: Px86, row: Row) -> Checks:
    """The text is written as is wanted, and that as itself."""
    for name, text in ("", row.text), ("again", row.out):
        done = answer(px86, dataclasses.replace(row, text=text, command=("dis",)))
        yield name, wrong_answer(done, 0, row.out, b"")


ASKS = {"report": reported, "plain": plain, "accepted": accepted, "explained": explained, "words": has_words, "written": written}

# --- escapes

ESCAPE = re.compile(rb"\\(?:x([0-9a-fA-F]{1,2})|0([0-7]{0,3})|([nrt\\]))")


def unescaped(text: str) -> bytes:
    """A text with escapes as bash's `printf %b` writes it."""
    plain = text.encode("utf-8", "surrogateescape").partition(b"\\c")[0]
    number = lambda it: int(it[1], 16) if it[1] else int(it[2] or b"0", 8)
    return ESCAPE.sub(lambda it: {b"n": b"\n", b"r": b"\r", b"t": b"\t", b"\\": b"\\"}[it[3]] if it[3] else bytes([number(it)]), plain)


def lines_of(name: str) -> list[str]:
    """The lines of a file of cases."""
    with open(f"{TOP}/tests/cases/{name}", encoding="utf-8", errors="surrogateescape", newline="\n") as file:
        return file.read().removesuffix("\n").split("\n")


def words_of(text: str) -> tuple[str, ...]:
    """The words of a command as a shell reads them."""
    if "$'" not in text:
        return tuple(shlex.split(text))
    return tuple(run(["bash", "-c", f"printf '%s\\0' {text}"]).out.split("\0")[:-1])


# --- files of lines


@dataclasses.dataclass
class Lines:
    """What holds for the lines of a file below it."""

    kind: str = "text"
    frame: str = "@"
    number: str = ""
    much: str = ""
    value: str = ""
    sheet: str = ""
    names: tuple[str, ...] = ("*",)

    def hear(self, line: str) -> None:
        """Takes a line that is no case."""
        word, _, rest = line.partition(" ")
        if word in ("program", "steps", "conditions"):
            self.kind = {"program": "text", "steps": "steps", "conditions": "condition"}[word]
        elif word == "sheet":
            self.kind, self.sheet = "condition", rest
            self.names = ("*",)
        elif word == "at":
            self.value = rest
        elif word == "many":
            count, text = rest.split(None, 1)
            self.much = text.strip() * int(count)
        elif word == "frame":
            self.number, self.frame = map(str.strip, rest.split(None, 1))
            self.names = ("*",)
        elif word == "whole":
            self.frame, self.number, self.names = "@", "", ("*",)
        elif word == "names":
            self.names = tuple(re.split(r" *\| *", rest.strip()))
        else:
            raise ValueError(f"this is no line: {line}")

    def row(self, what: str, text: str) -> Row:
        """What must come of a text."""
        if self.kind == "condition":
            return self.condition(what, text)
        name = f"{what}, {text}, in {self.frame}"
        whole = unescaped(self.frame.replace("@", text).replace("%", self.much))
        given = {"text": b"litmus 1\n", "steps": b""} | {self.kind: whole}
        if what == "accepted":
            return Row(name, **given, asks="accepted")
        fault = what + (f" {'' if what.startswith('S') else 'line '}{self.number}" if self.number else "")
        return Row(name, **given, status=2, err=f"px86: {fault}\n".encode())

    def condition(self, what: str, text: str) -> Row:
        """That a condition holds, that it fails, or its fault."""
        value, condition = self.value, unescaped(text.replace("%", self.much)).decode("utf-8", "surrogateescape")
        # A word that begins with `-` would be an option.
        options = [[f"--{it}={condition}"] if condition.startswith("-") else [f"--{it}", condition] for it in ("all", "some")]
        command = "images", "--count", *options[0], *options[1]
        state, image = unescaped(self.sheet), value
        if not self.sheet:
            image = f"{value} {value}"
            state = f"litmus 1\nline x y\ninit x {value}\ninit y {value}\ncpu\nmov rax, {value}\nend\n".encode()
        told = {"holds": f"all holds\nsome found {image}\n", "fails": f"all fails {image}\nsome none\n"}.get(what)
        name = f"{what}, {text}, {'of a sheet' if self.sheet else f'at {value}'}"
        if told is None:
            return Row(name, state, b"exec 0\n", command, 2, err=f"px86: {what}\n".encode())
        return Row(name, state, b"exec 0\n", command, int(what == "fails"), f"candidates 1\n{told}".encode())


def rows_of_lines(name: str) -> Iterator[Row]:
    """The cases of a file of lines."""
    holds = Lines()
    for line in lines_of(name):
        what, tab, text = line.partition("\t")
        if not line or line.startswith("#"):
            continue
        if tab:
            yield from (holds.row(what, text.replace("*", it)) for it in holds.names)
        else:
            holds.hear(line)


# --- files of rows


def sections_of(name: str) -> Iterator[tuple[str, list[tuple[str, str, list[str]]]]]:
    """Each case of a file of rows: its name, and its sections, each with the word and the rest of its first line, and its lines."""
    sections: list[tuple[str, str, list[str]]] = []
    case = ""
    for line in lines_of(name):
        if line.startswith("== "):
            if case:
                yield case, sections
            case, sections = line.removeprefix("== "), []
        elif re.match(r"-- (text|steps|written)$|-- (command|report|fault|explained) ", line):
            word, _, rest = line.removeprefix("-- ").partition(" ")
            sections.append((word, rest, []))
        elif line and sections:
            sections[-1][2].append(line)
    yield case, sections


def rows_of_rows(name: str) -> Iterator[Row]:
    """The cases of a file of rows."""
    given = {"text": b"", "steps": b""}
    for case, sections in sections_of(name):
        wanted: dict[str, object] = {"status": None}
        for word, rest, lines in sections:
            told = b"".join(unescaped(f"{line}\\n") for line in lines)
            if word in given:
                given[word] = told
            elif word == "command":
                wanted["command"] = words_of(rest)
            elif word == "report":
                wanted |= {"status": int(rest), "out": told}
            elif word == "fault":
                wanted |= {"status": int(rest), "err": b"".join(b"px86: " + unescaped(f"{line}\\n") for line in lines)}
            elif word == "explained":
                wanted |= {"status": int(rest), "err": "".join(f"{line}\n" for line in lines).encode(), "asks": word}
            else:
                wanted |= {"status": 0, "out": told, "asks": word}
        yield Row(case, **given, **wanted)  # type: ignore[arg-type]


# --- files of codes

WORDS = [f"w{number}" for number in range(512)]


def object_of(code: bytes) -> bytes:
    """The object of 64 lines of eight words, w0 and on, and of one processor that runs this code."""
    names = b"".join(bytes([len(word)]) + word.encode() for word in WORDS)
    length = len(code).to_bytes(2, "little")
    return b"PX86OBJ2\x40" + b"\x08" * 64 + names + bytes(8 * 512) + b"\x01" + length + bytes(2) + code + bytes(4)


def text_of(instructions: list[str]) -> bytes:
    """The text of the same, with a label at each place to which a jump leads."""
    labels = {it.partition(" l")[2] for it in instructions if it.startswith("j")}
    rows = [(f"l{place}:\n" if str(place) in labels else "") + f"{it}\n" for place, it in enumerate([*instructions, "end"])]
    lines = "".join(f"line {' '.join(WORDS[at : at + 8])}\n" for at in range(0, 512, 8))
    return f"litmus 1\n{lines}cpu\n{''.join(rows)}".encode()


def rows_of_codes(name: str) -> Iterator[Row]:
    """The programs of a file of codes: the instructions have their bytes, and these the instructions."""
    for case in re.split(r"^== ", "\n".join(lines_of(name)), flags=re.M)[1:]:
        title, *lines = case.split("\n")
        pairs = [line.split("\t") for line in lines if line and not line.startswith("#")]
        text, code = text_of([one for one, _ in pairs]), object_of(bytes.fromhex("".join(digits for _, digits in pairs)))
        yield Row(f"asm of {title}", text, command=("asm",), out=code)
        yield Row(f"dis of {title}", code, command=("dis",), out=text)


# --- all rows, and the numbers of the documents

READS = {"lines": rows_of_lines, "rows": rows_of_rows, "codes": rows_of_codes}
# Out of memory and threads that do not start are asked for in tests/refused-memory, devices in tests/program.py. A script's
# report has G2 and G3, and they are no faults. M1 would need 2^62 steps, and V2 was not seen to come.
ELSEWHERE = set("X9 O6 C6 E3 S2 I2 K2 K3 V1 R3 G4 M15 F1 F2 F3 G2 G3 M1 V2".split())


def numbers_of(row: Row) -> set[str]:
    """The numbers of the fault or of the refused step with which a row ends, which it explains. As X8 has L4, one may have another."""
    if row.asks == "explained":
        told = row.err.decode().rstrip("\n").rpartition("\n")[2].partition(":")[0]
    else:
        told = row.err.decode().removeprefix("px86: ") or row.out.decode(errors="replace").rstrip("\n").rpartition("\n")[2]
    is_asked = row.asks in ("report", "explained") and (row.status or 0) >= 2
    return set(re.findall(r"\b[XLOCESIGKVRFM][0-9]+\b", told)) if is_asked else set()


def number_asked(_: Px86, number: str, asked: set[str]) -> Checks:
    """Each number of the documents has a sentence, which a case is answered."""
    yield "", "" if number in asked else "no case ends with it"


def cases() -> Iterator[Case]:
    """All cases."""
    from tests.limits import rows_of_cuts, rows_of_limits

    rows = [(f"{name}: ", row) for name in FILES for row in READS[name.rpartition(".")[2]](name)]
    rows += [("", row) for row in [*rows_of_cuts(), *rows_of_limits()]]
    yield from (Case(before + row.name, ASKS[row.asks], row) for before, row in rows)
    asked = {number for _, row in rows for number in numbers_of(row)}
    told = re.findall(r"\b([XLOCESIGKVRFM][0-9]+) (?:\| )?[A-Z][a-z]", read("docs/FORMATS.md") + read("docs/MODEL.md"))
    yield from (Case(f"number {number}", number_asked, number, asked) for number in sorted({*told} - ELSEWHERE))
