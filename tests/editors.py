"""Compares how the syntax files of tools/editors color litmus texts and sheets, the one of Vim as vim itself applies it, and the TextMate
grammar as a reader of its rules here applies them: with a text whose tokens were sorted by hand, with docs/FORMATS.md, which has
the instructions and registers, and with one another on all texts of examples/. Where vim is absent, what needs it counts as not run.
"""

from __future__ import annotations

import functools
import glob
import json
import os
import re
import shutil
from collections.abc import Iterable, Iterator
from typing import Any

from tests.harness import TOP, Case, Checks, Px86, absent, read, run, unlike

AT_LEAST = {"": 526}
NEEDS_PROGRAM = False
GRAMMAR = f"{TOP}/tools/editors/px86.tmLanguage.json"
VIM_SYNTAX = f"{TOP}/tools/editors/syntax.vim"
# What a token is, by the last part but one of a scope of the TextMate grammar.
SCOPES = {
    "comment.line.number-sign": "Comment",
    "entity.name.label": "Label",
    "entity.name.label.target": "Target",
    "keyword.other.header": "Header",
    "storage.type.memory": "Memory",
    "keyword.control.section": "Section",
    "keyword.control.jump": "Jump",
    "keyword.operator.locked": "Locked",
    "keyword.operator.order": "Order",
    "keyword.operator.instruction": "Instruction",
    "variable.language.register": "Register",
    "constant.numeric": "Number",
    "constant.other.named": "Constant",
    "constant.other.address": "Address",
    "keyword.operator.copies": "Copies",
    "keyword.operator.comparison": "Operation",
    "keyword.control.question": "Question",
    "storage.type.place": "Place",
    "keyword.other.asked": "Asked",
    "variable.other.word": "Word",
}
# Each line, and what its tokens are, as docs/FORMATS.md says. Marks are nothing.
SORTED = [
    ("litmus 1", "Header Header"),
    ("# mov rax, 1", "Comment Comment Comment Comment"),
    ("line a tail # two", "Memory Word Word Comment Comment"),
    ("\tline mov r10", "Memory Word Word"),
    ("init tail -3", "Memory Word Number"),
    ("init a 0xFFffAA09", "Memory Word Number"),
    ("cpu", "Section"),
    ("mov rax, 18446744073709551615", "Instruction Register Number"),
    ("  mov rcx, rdx", "Instruction Register Register"),
    ("mov rbx, [a]", "Instruction Register Word"),
    ("mov [mov], rsi", "Instruction Word Register"),
    ("mov [rdi], -0", "Instruction Register Number"),
    ("add r8, 1", "Instruction Register Number"),
    ("cmp r9, 0x0", "Instruction Register Number"),
    ("xchg [ a ] , rax#", "Instruction Word Register Comment"),
    ("lock xadd [a], rcx", "Locked Locked Word Register"),
    ("lock\tcmpxchg [r8], r9", "Locked Locked Register Register"),
    ("mfence", "Order"),
    ("sfence", "Order"),
    ("clflush [a]", "Order Word"),
    ("clflushopt [r10]", "Order Word"),
    ("clwb [tail]", "Order Word"),
    ("again:", "Label"),
    ("  mov : # a label", "Label Comment Comment Comment"),
    ("end :", "Label"),
    ("l2:", "Label"),
    ("jmp again", "Jump Target"),
    ("jz mov", "Jump Target"),
    ("jnz end", "Jump Target"),
    ("nop", "Instruction"),
    ("recover", "Section"),
    ("mov rax, [tail_2]", "Instruction Register Word"),
    ("moved rax, 1", "Word Register Number"),
    ("mov2 rax, 1", "Word Register Number"),
    ("end", "Section"),
    # Lines of sheets.
    (" sheet 1 # one", "Header Header Comment Comment"),
    ("const ITEM0 -5", "Memory Constant Number"),
    ("const AT_NODE &node", "Memory Constant Address"),
    ("constant K", "Word Constant"),
    ("line a_k[4] b[N]", "Memory Word Number Word Constant"),
    ("line * 2 n$_item n$_$", "Memory Copies Number Word Word"),
    ("line * LINES line$ rax$", "Memory Copies Constant Word Word"),
    ("init a 1 &n0_item ITEM0", "Memory Word Number Address Constant"),
    ("cpu * 0x2", "Section Copies Number"),
    ("mov rsi, &n$_item", "Instruction Register Address"),
    ("mov [n$_item], ITEM$", "Instruction Word Constant"),
    ("mov rax, $", "Instruction Register Number"),
    ("cmp rax, 1$2", "Instruction Register Number"),
    ("add rax, -$", "Instruction Register Number"),
    ("again$ :", "Label"),
    ("l$_$:", "Label"),
    ("jnz l$_$", "Jump Target"),
    ("recover 1", "Section Number"),
    # Lines of questions. Round brackets are marks too.
    ("every crash kept: persisted tail = 1 -> persisted a != 11", "Question Place Word Asked Word Operation Number Operation Asked Word Operation Number"),
    ("some end other_order: coherent [&node + 8] = &n0_val # one", "Question Place Word Asked Address Operation Number Operation Address Comment Comment"),
    ("  every recovery end : (reg 0 rax <= K)", "Question Place Word Asked Number Register Operation Constant"),
    ("let less = persisted b - persisted a - -5", "Question Word Operation Asked Word Operation Asked Word Operation Number"),
    ("    not (kept or old) and persisted [first + NEXT] >= 0x5", "Asked Word Asked Word Asked Asked Word Operation Constant Operation Number"),
    ("every", "Question"),
    ("lets = somewhat", "Word Operation Word"),
    ("let : # a label", "Label Comment Comment Comment"),
]

# --- tokens


def at_tokens(line: str, kinds: list[str]) -> list[str]:
    """What the tokens of a line are, but for the marks, where `kinds` says it of each place. One that is more than one thing is
    `mixed`."""
    sets = [set(kinds[it.start() : it.end()]) for it in re.finditer(r"#|[^\s,\[\]:#()]+", line)]
    return [it.pop() if len(it) == 1 else "mixed" for it in sets]


@functools.cache
def rules() -> list[Any]:
    """The rules of the TextMate grammar."""
    return list(json.loads(read(GRAMMAR))["patterns"])


def named_by(rule: Any) -> Any:
    """What a rule names, by the number of a group."""
    return {"0": rule} if "name" in rule else rule["captures"]


def kind_of(named: Any) -> str:
    return SCOPES[named["name"].removesuffix(".px86")]


def grammar_tokens(line: str) -> list[str]:
    """What the tokens of a line are by the TextMate grammar: of the rules that match, the one that matches first, and of these the first
    in the list."""
    kinds, at = [""] * len(line), 0
    while at < len(line):
        found = [(match.start(), number, match) for number, it in enumerate(rules()) if (match := re.compile(it["match"]).search(line, at))]
        if not found:
            break
        _, number, match = min(found, key=lambda it: it[:2])
        for group, named in named_by(rules()[number]).items():
            begin, end = match.span(int(group))
            kinds[begin:end] = [kind_of(named)] * (end - begin)
        at = max(match.end(), at + 1)
    return at_tokens(line, kinds)


# --- vim

VIM_ASKS = """
set nocompatible
filetype plugin on
syntax on
let g:told = {}
for path in readfile($PX86_PATHS)
  execute 'edit ' . fnameescape(path)
  let lines = []
  for number in range(1, line('$'))
    let row = []
    for place in range(1, col([number, '$']) - 1)
      call add(row, synIDattr(synID(number, place, 1), 'name'))
    endfor
    call add(lines, row)
  endfor
  let g:told[path] = [&filetype, lines]
endfor
call writefile([json_encode(g:told)], $PX86_TOLD)
qall!
"""


Told = dict[str, tuple[str, list[list[str]]]]


def asked_of_vim(px86: Px86, paths: list[str]) -> Told:
    """Of each file its type and the kind of each place, as vim tells it with the two files installed."""
    for part, file in ("syntax", "syntax.vim"), ("ftdetect", "detect.vim"):
        os.makedirs(f"{px86.folder}/vimfiles/{part}")
        shutil.copy(f"{TOP}/tools/editors/{file}", f"{px86.folder}/vimfiles/{part}/px86.vim")
    told, asks = f"{px86.folder}/told", px86.keep("asks.vim", VIM_ASKS)
    names = {"PX86_PATHS": px86.keep("paths", "\n".join(paths) + "\n"), "PX86_TOLD": told, "HOME": px86.folder}
    words = ["vim", "-es", "-u", "NONE", "-i", "NONE", "-n", "--cmd", f"set runtimepath^={px86.folder}/vimfiles", "-S", asks]
    done = run(words, most=300, env=os.environ | names)
    if not os.path.exists(told):
        raise AssertionError(f"vim ended with status {done.status} and told nothing: {(done.out + done.err)[:300]}")
    rows = json.loads(read(told)).items()
    return {path: (kind, [[it.removeprefix("px86") for it in row] for row in lines]) for path, (kind, lines) in rows}


# --- the cases


def examples() -> list[str]:
    return sorted(glob.glob(f"{TOP}/examples/**/*.litmus", recursive=True))


def documented() -> tuple[set[str], set[str]]:
    """The words of instructions and the registers, as docs/FORMATS.md has them."""
    text = read("docs/FORMATS.md")
    rows = re.findall(r"^\| (`.*?) \|", text.partition("| `LABEL :` |")[2].partition("\n\n")[0], re.M)
    instructions = {it for row in rows for it in re.findall(r"`((?:lock )?[a-z]+)", row)}
    registers = re.findall(r"^R is (.*?)\. M is", text, re.M)[0]
    return instructions, set(re.findall(r"`([a-z0-9]+)`", registers))


def alternatives(patterns: Iterable[str]) -> set[str]:
    """The words between which patterns choose."""
    return {it for pattern in patterns for found in re.findall(r"\(\??:?([a-z0-9|]+)\)", pattern) for it in found.split("|")}


def words(_: Px86) -> Checks:
    """Both files have the words of docs/FORMATS.md, and no others."""
    instructions, registers = documented()
    yield "docs/FORMATS.md: instructions that were found", unlike(len(instructions) > 14 and len(registers) > 7, True)
    plain = {it.removeprefix("lock ") for it in instructions}
    kinds = "Instruction", "Locked", "Order", "Jump"
    firsts = [(kind_of(next(iter(named_by(it).values()))), it["match"]) for it in rules()]
    yield "TextMate: instructions", unlike(alternatives(match for kind, match in firsts if kind in kinds), plain)
    yield "TextMate: registers", unlike(alternatives(match for kind, match in firsts if kind == "Register"), registers)
    syntax = read(VIM_SYNTAX).replace("\\%(", "(").replace("\\|", "|").replace("\\)", ")")
    rows = re.findall(rf"^syntax match px86(?:{'|'.join(kinds)})\b.*$", syntax, re.M)
    yield "Vim: instructions", unlike(alternatives(rows), plain)
    yield "Vim: registers", unlike(set(re.findall(r"^syntax keyword px86Register (.*)$", syntax, re.M)[0].split()), registers)


def by_hand(_: Px86) -> Checks:
    """The tokens that were sorted by hand."""
    yield from ((repr(line), unlike(grammar_tokens(line), wanted.split())) for line, wanted in SORTED)


def of_examples(_: Px86) -> Checks:
    """Each token of an example is something, and no more than one thing."""
    for path in examples():
        odd = [it for it in read(path).splitlines() if {"", "mixed"} & set(grammar_tokens(it))]
        yield os.path.relpath(path, TOP), unlike(odd[:1], [])


def by_vim(px86: Px86) -> Checks:
    """Vim tells the tokens that were sorted by hand, which texts are of its type, and of each example what TextMate tells."""
    if not shutil.which("vim"):
        yield from absent("vim", range(len(SORTED) + 3 + len(examples())))
        return
    by_hand = px86.keep("sorted.litmus", "".join(f"{line}\n" for line, _ in SORTED))
    other = px86.keep("other.litmus", 'X86 SB\n"litmus 1"\n{ x=0; }\n P0 ;\n')
    late = px86.keep("late.litmus", "# one\n\n litmus 1 # two\n")
    sheet = px86.keep("sheet.litmus", "# one\nsheet 1\n")
    told = asked_of_vim(px86, [by_hand, other, late, sheet, *examples()])
    for (line, wanted), kinds in zip(SORTED, told[by_hand][1], strict=True):
        yield repr(line), unlike(at_tokens(line, kinds), wanted.split())
    yield "the type of a text of another tool", unlike(told[other][0] == "px86", False)
    yield "the type of a text behind comments", unlike(told[late][0], "px86")
    yield "the type of a sheet", unlike(told[sheet][0], "px86")
    for path in examples():
        (kind, rows), lines = told[path], read(path).splitlines()
        differ = [line for line, row in zip(lines, rows) if at_tokens(line, row) != grammar_tokens(line)]
        yield f"as TextMate: {os.path.relpath(path, TOP)}", unlike((kind, len(rows), differ[:1]), ("px86", len(lines), []))


def cases() -> Iterator[Case]:
    """All cases."""
    yield Case("words of docs/FORMATS.md", words)
    yield Case("TextMate: tokens sorted by hand", by_hand)
    yield Case("TextMate: examples", of_examples)
    yield Case("Vim", by_vim)
