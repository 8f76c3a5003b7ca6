"""Runs the commands that the documents show, and compares what they write with what the documents say; sees that code which a
document shows stands in the file that it names, that links lead to files, and that tables are shown as tables.

In a block of a document a line that begins with `$ ` is a command, which goes on in the next line where it ends with `\\`.
Up to the next command or the block's end stands what it writes on standard output, then what it writes on standard error,
and then `(status N)` where its exit status is not 0. `./px86` in it is the program. It is run at the top of the
repository. A block behind the line `<!-- new command -->` is passed over. Where there is no GNU parallel, the commands that
call it have tests/without-parallel in its place, and count as not run, unless they fail.

Behind a line `<!-- from FILE -->` a block shows lines of this file.
"""

from __future__ import annotations

import glob
import os
import re
from collections.abc import Iterator

from tests.harness import TIMED_OUT, TOP, Case, Checks, NotRun, Px86, differs, read, run, with_parallel

AT_LEAST = {"command ": 69, "block ": 15, "link ": 50, "table ": 55}
NEEDS_PROGRAM = True
FOLDERS = "*.md", "docs/*.md", "record/*.md", "look/*.md", "examples/**/*.md"
PASSED_OVER = "<!-- new command -->"
FROM = re.compile(r"<!-- from (\S+) -->")
# Of a link its text is not asked; one with a scheme leads elsewhere.
LINK = re.compile(r"\[[^]]*\]\((?![a-z]+:)([^)#]*)(?:#([^)]*))?\)")


def blocks_of(page: str) -> Iterator[tuple[int, list[str], str]]:
    """Each block between two fences: its first line's number, its lines without their indentation, and the last line with
    text before it."""
    before, fence, number = "", None, 0
    lines: list[str] = []
    for at, line in enumerate(read(page).splitlines(), 1):
        if fence is None and line.lstrip().startswith("```"):
            fence, lines, number = line[: len(line) - len(line.lstrip())], [], at + 1
        elif fence is not None and line.strip() == "```":
            yield number, lines, before
            before, fence = "", None
        elif fence is not None:
            lines.append(line.removeprefix(fence))
        elif line.strip():
            before = line.strip()


def tables_of(page: str) -> Iterator[tuple[int, list[str]]]:
    """Each run of lines that begin with `|`, outside of blocks: its first line's number, and its lines."""
    is_in_block = False
    lines: list[str] = []
    for at, line in enumerate([*read(page).splitlines(), ""], 1):
        is_in_block ^= line.lstrip().startswith("```")
        if line.lstrip().startswith("|") and not is_in_block:
            lines.append(line.strip())
        elif lines:
            yield at - len(lines), lines
            lines = []


def commands_of(lines: list[str]) -> Iterator[tuple[int, str, list[str]]]:
    """Each command of a block: its place in the block, its text, and the lines that it is said to write."""
    begins = [at for at, line in enumerate(lines) if line.startswith("$ ")]
    for begin, end in zip(begins, [*begins[1:], len(lines)]):
        last = next((at for at in range(begin, end - 1) if not lines[at].endswith("\\")), end - 1)
        yield begin, "\n".join(lines[begin : last + 1]).removeprefix("$ "), lines[last + 1 : end]


def command(px86: Px86, text: str, wanted: list[str]) -> Checks:
    variables, stands_in = with_parallel(px86)
    done = run(["bash", "-c", text.replace("./px86", '"$PX86"')], most=900, env=variables)
    wrong = "it does not end" if done.status == TIMED_OUT else ""
    written = done.out + done.err + (f"(status {done.status})\n" if done.status else "")
    wrong = wrong or differs("\n".join(written.splitlines()), "\n".join(wanted))
    yield "", wrong or (NotRun("there is no GNU parallel") if stands_in and re.search(r"\bparallel ", text) else "")


def block(_: Px86, lines: list[str], source: str) -> Checks:
    whole = os.path.exists(source) and "\n".join(lines) + "\n" in read(source)
    yield "", "" if lines and whole else f"it does not stand in {source}"


def table(_: Px86, lines: list[str]) -> Checks:
    """A table that is none would be shown as a text with bars."""
    if len(lines) < 3 or not re.fullmatch(r"\|(---\|)+", lines[1]):
        yield "", "its first row has no row of `---` below it"
    else:
        columns = {line.replace("\\|", "").count("|") for line in lines}
        yield "", "" if len(columns) == 1 else "not all its rows have the same columns"


def anchors_of(page: str) -> Iterator[str]:
    """The names by which a link may lead to a heading."""
    for heading in re.findall(r"^#+ (.*)$", read(page), re.M):
        yield re.sub(r"[^\w\- ]", "", heading.lower()).replace(" ", "-")


def link(_: Px86, page: str, path: str, anchor: str) -> Checks:
    target = os.path.normpath(os.path.join(os.path.dirname(page), path)) if path else page
    if not os.path.exists(target):
        yield "", "there is no such file"
    else:
        yield "", "there is no such heading" if anchor and anchor not in anchors_of(target) else ""


def cases_of(page: str) -> Iterator[Case]:
    """What a page says."""
    for number, lines, before in blocks_of(page):
        if source := FROM.fullmatch(before):
            yield Case(f"block {page}:{number}", block, lines, source[1])
        if before != PASSED_OVER:
            for place, text, wanted in commands_of(lines):
                name = " ".join(text.replace("\\\n", " ").split())
                yield Case(f"command {page}:{number + place}: {name}", command, text, wanted)
    yield from (Case(f"table {page}:{number}", table, lines) for number, lines in tables_of(page))
    yield from (Case(f"link {page}: {path}#{anchor}", link, page, path, anchor) for path, anchor in LINK.findall(read(page)))


def cases() -> Iterator[Case]:
    """All cases."""
    for page in sorted({page for pages in FOLDERS for page in glob.glob(pages, root_dir=TOP, recursive=True)}):
        yield from cases_of(page)
