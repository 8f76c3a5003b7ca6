"""Draws runs and graphs with tools/picture.

No expected text or mark was taken from the tool or the program. The texts, the marks of three examples and the graph of one
program were worked out by hand from docs/MODEL.md. What is buffered, pending and persisted in each row of a picture, and how
many states a graph has, is asked of the second model. Each picture is parsed as XML, and its parts do not lie over one
another. rsvg-convert and dot read what was written; where one of them is absent, its checks count as not run. That a picture
is easy to read is not tested: someone has to look at it.
"""

from __future__ import annotations

import glob
import os
import re
import shutil
import struct
import sys
import zlib
from collections.abc import Iterator
from xml.etree import ElementTree

from tests.harness import TOP, Case, Checks, Done, NotRun, Px86, differs, model, read, run, unlike, wrong_end, wrong_run

AT_LEAST = {"": 318}
NEEDS_PROGRAM = True
SVG = "{http://www.w3.org/2000/svg}"


def draw(px86: Px86, *words: str, given: str = "") -> Done:
    """What tools/picture makes of these words and steps."""
    return run(["tools/picture", "--program", px86.path, *words], given, 300)


def read_svg(text: str) -> ElementTree.Element:
    return ElementTree.fromstring(text)


# --- texts of 80 columns, each written by hand from docs/MODEL.md

# A store that passes a flush, and another processor that reads it. After `drain 0 0` the store of x is pending, and the buffer
# is FO 0, W y 2. The table lets the write pass the flush (flushopt before Write: N). The least closed set of x=0 y=2 is the write
# of y alone: it is on another line than that of x, and no marker is pending. Before step 4 this write was not pending.
PASSED = """litmus 1
line x
line y
cpu
mov [x], 1
clwb [x]
mov [y], 2
end
cpu
mov rax, [y]
end
"""
PASSED_STEPS = "exec 0\nexec 0\nexec 0\ndrain 0 0\ndrain 0 1\nexec 1\n"
PASSED_TEXT = """passed.litmus: 6 steps, and the image x=0 y=2

step              cpu 0   cpu 1
                    persisted  x 0, y 0
   0 exec 0       mov [x], 1
                    buffer 0   W x 1
   1 exec 0       clwb [x]
                    buffer 0   W x 1, FO 0
   2 exec 0       mov [y], 2
                    buffer 0   W x 1, FO 0, W y 2
   3 drain 0 0    W x 1 leaves
                    buffer 0   FO 0, W y 2
                    pending    W x 1
   4 drain 0 1    W y 2 leaves, past FO 0
                    buffer 0   FO 0
                    pending    W x 1, W y 2
     ^ since this step a crash may leave x=0 y=2
   5 exec 1               mov rax, [y]  reads 2

               x 0                    lost (coherent 1, persisted 0)
               y 2                    kept (coherent 2, persisted 0)

A crash after the last step may leave x=0 y=2. Step 4, drain 0 1, made it
possible: W y 2.
Kept: W y 2.
Lost: W x 1; in buffer 0 FO 0.
Missing x 1 line 5: flushed on line 6; that flush is buffered, and the store on
line 7 has passed it.
"""

# A write and its flush, of which each leaves the pending list; a crash that loses a buffered write; a recovery that follows a
# number which is no address, and traps; a locked operation; and a step that is refused, as nothing of line 1 is pending then.
CRASHED = """litmus 1
line x
line y
init y 7
cpu
mov [x], 1
clflush [x]
mov [y], 5
recover
mov rax, [x]
lock xadd [x], rax
mov rbx, [rax]
end
"""
CRASHED_STEPS = """exec 0
drain 0 0
exec 0
drain 0 0
persist 0
settle
exec 0
crash
exec 0
exec 0
exec 0
persist 1
"""
CRASHED_TEXT = """crashed.litmus: 12 steps

step              cpu 0
                    persisted  x 0, y 7
   0 exec 0       mov [x], 1
                    buffer 0   W x 1
   1 drain 0 0    W x 1 leaves
                    buffer 0   -
                    pending    W x 1
   2 exec 0       clflush [x]
                    buffer 0   FL 0
   3 drain 0 0    FL 0 leaves
                    buffer 0   -
                    pending    W x 1, PER 0
   4 persist 0    W x 1 persists
                    pending    PER 0
                    persisted  x 1
   5 settle       PER 0 is settled
                    pending    -
   6 exec 0       mov [y], 5
                    buffer 0   W y 5
   7 crash        recovery starts
                    buffer 0   lost: W y 5
   8 exec 0       mov rax, [x]  reads 1
   9 exec 0       lock xadd [x], rax  reads 1, writes 2
                    pending    W x 2
  10 exec 0       mov rbx, [rax]  traps at 1
  11 persist 1    refused: M11 NoPending
"""

# The head of the text without an image, and its first line of a state.
PLAIN = [PASSED_TEXT.splitlines()[0].split(",")[0], *PASSED_TEXT.splitlines()[1:16], PASSED_TEXT.splitlines()[17]]
NO_CPU = ["passed.litmus: 1 step", *PASSED_TEXT.splitlines()[1:4], "   0 exec 2                       refused: M2 NoCpu"]
MISSING = "missing x 1 line 5: flushed on line 6; that flush is buffered, and the store on line 7 has passed it\n"
# The text up to the reasons.
UNEXPLAINED = PASSED_TEXT[: PASSED_TEXT.index("Missing")]
IMAGE = ["--set", "0 2"]
LEFT = "image x 0 y 2\n"
# The name, the options, the steps and what stands before them, the status and the text of each drawing of PASSED. A report of
# `check --show` or of `hunt --show` names an image before its steps; --set names another.
TEXTS = [
    ("a text with an image", IMAGE, PASSED_STEPS, 0, PASSED_TEXT),
    ("a processor that is not there", [], "exec 2\n", 2, "\n".join([*NO_CPU, ""])),
    ("another image than that of the report", IMAGE, "all fails 1 2\nsteps 6\n" + PASSED_STEPS, 0, PASSED_TEXT),
    ("with what is said of another", IMAGE, f"all fails 1 2\nsteps 6\n{PASSED_STEPS}image x 1 y 2\nmissing none\n", 0, PASSED_TEXT),
    # Without an image the text is the same but for the title, the line behind step 4, and what is said at the end.
    ("a report without an image", [], "least 7\nturn 6\ncandidates more\n" + PASSED_STEPS, 0, "\n".join([*PLAIN, ""])),
    *(
        (f"behind {head!r}{it and f' and before {it!r}'}", [], head + PASSED_STEPS + (it and LEFT + it), 0, wanted)
        for head, behind in (
            ("all fails 0 2\nsteps 6\n", (("", PASSED_TEXT), (MISSING, PASSED_TEXT), ("missing none\n", UNEXPLAINED))),
            ("words x y\nall fails 0 2\nsteps 6\n", (("", PASSED_TEXT),)),
            ("least 7\nturn 6\nimage 0 2\n", (("", PASSED_TEXT), (MISSING, PASSED_TEXT))),
            (
                "all fails 0 2\nsteps 6\n",
                (
                    (f"{MISSING}with this: held\n", f"{PASSED_TEXT}With this: held.\n"),
                    (
                        f"{MISSING}none of these was found to be enough alone\n",
                        f"{PASSED_TEXT}None of these was found to be enough alone.\n",
                    ),
                ),
            ),
        )
        for it, wanted in behind
    ),
]
# The first steps of CRASHED, as a report has them of an end after the crash, with what it says of that crash: the image that it left,
# and that the write of y was missing. Of the end itself nothing is missing. The write of x, drained by step 1, makes it possible.
LOST_Y = "missing y 5 line 8: in the store buffer\nwith this: held\n"
RECOVERED = f"recovered fails 1 7\nsteps 9\n{''.join(CRASHED_STEPS.splitlines(True)[:9])}crash 7\nimage x 1 y 7\n{LOST_Y}"
RECOVERED_TEXT = "\n".join(
    [
        "crashed.litmus: 9 steps, and the image x=1 y=7",
        *CRASHED_TEXT.splitlines()[1:9],
        "     ^ since this step a crash may leave x=1 y=7",
        *CRASHED_TEXT.splitlines()[9:24],
        "",
        "Step 7, crash, left x=1 y=7. Missing y 5 line 8: in the store buffer. With this:",
        "held.",
        "Nothing is pending after the last step, and a crash leaves x=1 y=7. Step 1,",
        "drain 0 0, made it possible: W x 1.",
        "",
    ]
)


def recovered_text(px86: Px86) -> Checks:
    crashed = px86.keep("crashed.litmus", CRASHED)
    yield "its text", wrong_run(draw(px86, "--text", crashed, given=RECOVERED), 0, RECOVERED_TEXT)
    root = ElementTree.fromstring(draw(px86, crashed, given=RECOVERED).out)
    yield "the write that was missing", unlike(marked(root, "buffer-0")["W y 5"], "lost would-hold")
    yield "a crash, before an image that is asked", unlike(
        marked(ElementTree.fromstring(draw(px86, "--set", "1 7", crashed, given=RECOVERED).out), "buffer-0")["W y 5"], "lost would-hold"
    )


# What is said of the append, whose writes of a and b are lost, and which of them are marked: those above a line `held`.
LOST_AB = ("missing a 11 line 6: one\n", "missing b 12 line 7: two\n")
HELD = [
    (LOST_AB[1] + "with this: held\nmissing too 1\n", ["W b 12"]),
    (LOST_AB[0] + LOST_AB[1] + "with each of these: held\n", ["W a 11", "W b 12"]),
    (LOST_AB[0] + LOST_AB[1] + "with these: held\n", ["W a 11", "W b 12"]),
    (LOST_AB[0] + LOST_AB[1] + "none of these was found to be enough alone\n", []),
    (LOST_AB[0] + LOST_AB[1], []),
]


def held(px86: Px86, said: str, wanted: list[str]) -> Checks:
    path = "examples/guide/append-unfenced"
    given = f"all fails 0 0 1\nsteps 8\n{read(f'{path}.steps')}image a 0 b 0 tail 1\n{said}"
    done = draw(px86, f"{path}.litmus", given=given)
    yield "its end", wrong_end(done, 0) or wrong_picture(done.out)
    root = ElementTree.fromstring(done.out)
    yield "the dashed ones", unlike([text for text, kinds in marked(root, "pending").items() if "would-hold" in kinds], wanted)
    signs = " ".join(it.text or "" for it in root.iter(f"{SVG}text") if it.get("class") == "small")
    yield "what the sign means", unlike("dashed:" in signs, bool(wanted))


def passed_text(px86: Px86, options: list[str], given: str, status: int, wanted: str) -> Checks:
    done = draw(px86, "--text", *options, px86.keep("passed.litmus", PASSED), given=given)
    yield "", wrong_run(done, status, wanted)


def crashed_text(px86: Px86) -> Checks:
    done = draw(px86, "--text", px86.keep("crashed.litmus", CRASHED), given=CRASHED_STEPS)
    yield "", wrong_run(done, 2, CRASHED_TEXT)


def opening_text(px86: Px86) -> Checks:
    """Without steps the image is that of the opening state, which is possible from the beginning."""
    done = draw(px86, "--text", "--set", "0 7", px86.keep("crashed.litmus", CRASHED))
    said = "Nothing is pending after the last step, and a crash leaves x=0 y=7. It is\npossible from the beginning.\n"
    yield "", wrong_end(done, 0) or ("" if done.out.endswith("\n\n" + said) else done.out)


# --- marks, each worked out by hand

# The schedule of docs/GUIDE.md, "What is too large".
SCHEDULE = "exec 0\ndrain 0 0\npersist 0\nexec 0\nexec 0\nexec 0\ndrain 0 0\ndrain 0 1\n"

# Of each example and image, with these steps or those of its file: the texts of entries with their marks, those of the pending
# list first; what stands in the black bands; and the sentence of the step that made it possible.
MARKS = {
    # The steps leave W a 11, W b 12, W tail 1 pending, and FO 0, FO 1 buffered. The write of tail is of another line than the
    # others, and no marker is pending: the least closed set of 0 0 1 is place 2 alone. Step 7 put this write there.
    ("guide/append-unfenced", "0 0 1", None): (
        {"W a 11": "lost", "W b 12": "lost", "W tail 1": "kept made-possible"},
        {"W a 11": "", "W b 12": "", "FO 0": "lost", "W tail 1": "", "FO 1": "lost"},
        "a crash now, may leave, lost, lost, lost, lost, kept, 0, lost, 0, lost, 1, kept",
        "Step 7, drain 0 1, made it possible: W tail 1.",
    ),
    # 11 has persisted: this word is neither kept nor lost. Of the others it is as above.
    ("guide/append-unfenced", "11 0 1", SCHEDULE): (
        {"W a 11": "", "W b 12": "lost", "W tail 1": "kept made-possible"},
        {"W a 11": "", "W b 12": "", "FO 0": "lost", "W tail 1": ""},
        "a crash now, may leave, lost, lost, kept, 11, 0, lost, 1, kept",
        "Step 7, drain 0 1, made it possible: W tail 1.",
    ),
    # docs/GUIDE.md, "Checking by hand", works it out: the set is 0 1 2 3. Step 12 is the fifth drain, of the write of value.
    ("undo-log", "4 3 1", None): (
        {
            "W saved 3": "kept",
            "W valid 1": "kept",
            "PER 1": "settled",
            "W value 4": "kept made-possible",
            "PER 0": "lost",
            "W valid 0": "lost",
        },
        dict.fromkeys(["W saved 3", "W valid 1", "FO 1", "SF", "W value 4", "FO 0", "W valid 0"], ""),
        "a crash now, may leave, kept, kept, settled, kept, lost, lost, 4, kept, 3, kept, 1, lost",
        "Step 12, drain 0 0, made it possible: W value 4.",
    ),
    # The root persists, and the crash loses the node. In the end nothing is pending, and the memory is what the root left. A
    # crash could leave this from step 4 on, in which the root was put into the pending list.
    ("trapped-recovery", "4160 0 7", None): (
        {"W node 4224": "lost", "W root 4160": "made-possible"},
        {"W node 4224": "", "W root 4160": ""},
        "6 crash, lost, recovers, 4160, 0, 7",
        "Step 4, drain 0 0, made it possible: W root 4160.",
    ),
}

def entries_of(root: ElementTree.Element) -> Iterator[tuple[list[str], ElementTree.Element, range, ElementTree.Element]]:
    """Each bar of an entry: its classes, its text, its rows, and where it is."""
    for group in root.iter(f"{SVG}g"):
        box = next(it for it in group.iter(f"{SVG}rect") if it.get("class") == "bar")
        first, last = map(int, group.attrib["data-rows"].split())
        text = group.find(f"{SVG}text")
        assert text is not None
        yield group.attrib["class"].split(), text, range(first, last + 1), box


def marked(root: ElementTree.Element, listing: str) -> dict[str, str]:
    """The texts of the entries of a list, with their marks."""
    found: dict[str, set[str]] = {}
    for kinds, text, _, _ in entries_of(root):
        if listing in kinds:
            found.setdefault(text.text or "", set()).add(" ".join(kinds[3:]))
    return {text: ", ".join(sorted(marks)) for text, marks in found.items()}


def marks(px86: Px86, name: str, values: str, steps: str | None) -> Checks:
    pending, buffered, bands, sentence = MARKS[name, values, steps]
    done = draw(px86, "--set", values, f"examples/{name}.litmus", given=steps or read(f"examples/{name}.steps"))
    yield "its end", wrong_end(done, 0)
    root = ElementTree.fromstring(done.out)
    texts = [(it.get("class", ""), it.text or "") for it in root.iter(f"{SVG}text")]
    of_kind = lambda name: [text for kind, text in texts if kind == name]
    yield "what is pending", unlike(marked(root, "pending"), pending)
    yield "what is buffered", unlike(marked(root, "buffer-0"), buffered)
    yield "the bands", differs(", ".join(text for kind, text in texts if kind.startswith("band-text") and text), bands)
    wrong = [(kind, text) for kind, text in texts if text in ("kept", "lost", "settled") and text not in kind.split()]
    yield "a mark has its class", unlike(wrong, [])
    said = " ".join(of_kind("sentence"))
    yield "the sentences", "" if sentence in said else said
    yield "the line behind that step", unlike(of_kind("since-text"), ["since this step a crash may leave the image"])


# Three writes of a word, of which two are equal, and two flushes of its line, of which the second leaves first: none keeps the
# other in the buffer. Then the oldest write persists, and every processor reads the newest. Each bar with its rows, from the
# state before the steps on: where an older entry leaves, those behind it go on at the place before.
EQUAL = "litmus 1\nline x\ncpu\nmov [x], 1\nmov [x], 1\nmov [x], 2\nclwb [x]\nclwb [x]\nend\n"
EQUAL_STEPS = "exec 0\n" * 3 + "drain 0 0\n" * 3 + "exec 0\nexec 0\ndrain 0 1\npersist 0\n"
EQUAL_BARS = {
    ("buffer-0", "W x 1"): [(1, 3), (2, 3), (4, 4)],
    ("buffer-0", "W x 2"): [(3, 3), (4, 4), (5, 5)],
    ("buffer-0", "FO 0"): [(7, 10), (8, 8)],
    ("pending", "W x 1"): [(4, 9), (5, 9), (10, 10)],
    ("pending", "W x 2"): [(6, 9), (10, 10)],
    ("pending", "PER 0"): [(9, 9), (10, 10)],
}


def bars(px86: Px86) -> Checks:
    done = draw(px86, px86.keep("equal.litmus", EQUAL), given=EQUAL_STEPS)
    yield "their end", wrong_end(done, 0)
    root = ElementTree.fromstring(done.out)
    found: dict[tuple[str, str], list[tuple[int, int]]] = {}
    for kinds, text, rows, _ in entries_of(root):
        found.setdefault((kinds[2], text.text or ""), []).append((rows[0], rows[-1]))
    yield "their bars", unlike({name: sorted(spans) for name, spans in found.items()}, EQUAL_BARS)
    persisted = [text.text for text in root.iter(f"{SVG}text") if text.get("class") == "persisted"]
    yield "what is persisted", unlike(persisted, ["0", "1"])


# --- every example with steps: well-formed, readable, and what the second model says


def number(element: ElementTree.Element, name: str) -> float:
    return float(element.get(name) or 0)


def led_elsewhere(root: ElementTree.Element) -> Iterator[str]:
    """What of a picture needs another file."""
    for element in root.iter():
        if element.tag.removeprefix(SVG) in ("script", "image", "use", "a", "foreignObject"):
            yield f"it has an element {element.tag}"
        if any("href" in key or "://" in value for key, value in element.attrib.items()):
            yield f"it leads elsewhere: {element.attrib}"
    if re.search(r"@import|url\((?!#hatch\))", "".join(root.itertext())):
        yield "its style leads elsewhere"


def wrong_bars(root: ElementTree.Element) -> Iterator[str]:
    """Which bars lie over one another or outside, or do not hold their texts."""
    width, height = number(root, "width"), number(root, "height")
    boxes = [(text, *(number(box, it) for it in ("x", "y", "width", "height"))) for _, text, _, box in entries_of(root)]
    for place, (text, x, y, wide, high) in enumerate(boxes):
        # Numbers are written with one digit.
        if len(text.text or "") * 7.25 > wide or abs(number(text, "x") - x - wide / 2) > 0.2 or not y < number(text, "y") <= y + high:
            yield f"the text {text.text} is not within its bar"
        if x < 0 or y < 0 or x + wide > width or y + high > height:
            yield f"the bar of {text.text} is not within the picture"
        over = [other.text for other, a, b, c, d in boxes[:place] if x < a + c and a < x + wide and y < b + d and b < y + high]
        yield from (f"the bars of {text.text} and {other} lie over one another" for other in over)


def wrong_texts(root: ElementTree.Element) -> Iterator[str]:
    """Which texts are not within the picture."""
    width, height = number(root, "width"), number(root, "height")
    for text in root.iter(f"{SVG}text"):
        room = len(text.text or "") * {"title": 9.1, "small": 6.1}.get(text.get("class", ""), 7.25)
        begin = number(text, "x") - (room / 2 if text.get("text-anchor") == "middle" else 0)
        if begin < 0 or begin + room > width + 1 or not 0 < number(text, "y") < height:
            yield f"the text {text.text} is not within the picture"


def wrong_picture(svg: str) -> str:
    """What is wrong with a picture by itself."""
    root = ElementTree.fromstring(svg)
    return "; ".join([*led_elsewhere(root), *wrong_bars(root), *wrong_texts(root)])


def lists_in_row(root: ElementTree.Element, row: int) -> dict[str, list[str | None]]:
    """The entries that a picture has in a row, by the name of their list, from left to right."""
    found: dict[str, list[tuple[float, str | None]]] = {}
    for kinds, text, rows, box in entries_of(root):
        if row in rows:
            found.setdefault(kinds[2], []).append((number(box, "x"), text.text))
    return {name: [text for _, text in sorted(entries)] for name, entries in found.items()}


def lists_of_model(litmus: str, steps: list[str]) -> dict[str, list[str]]:
    """The same of the state behind steps, as the second model shows it."""
    found: dict[str, list[str]] = {}
    buffer = ""
    for line in model("run", litmus, given="\n".join(steps)).out.splitlines():
        kind, *rest = line.split()
        if kind == "cpu":
            buffer = f"buffer-{rest[0]}"
        elif kind == "buf":
            found.setdefault(buffer, []).append(" ".join(rest[1:]))
        elif kind == "pend":
            found.setdefault("pending", []).append(" ".join(rest[1:]))
    return found


def values_in_picture(root: ElementTree.Element) -> list[str | None]:
    """The last persisted value of each word in a picture, from left to right."""
    found: dict[float, list[tuple[float, str | None]]] = {}
    for text in root.iter(f"{SVG}text"):
        if text.get("class") == "persisted":
            found.setdefault(number(text, "x"), []).append((number(text, "y"), text.text))
    return [max(values)[1] for _, values in sorted(found.items())]


def wrong_drawing(px86: Px86, svg: str) -> str:
    """What is wrong with a picture as rsvg-convert draws it: it has to be as large as it says, and neither white nor black alone."""
    if not shutil.which("rsvg-convert"):
        return NotRun("there is no rsvg-convert")
    path = os.path.join(px86.folder, "picture.png")
    done = run(["rsvg-convert", "--output", path, px86.keep("picture.svg", svg)])
    return wrong_end(done, 0) or wrong_png(path, ElementTree.fromstring(svg))


def wrong_png(path: str, root: ElementTree.Element) -> str:
    with open(path, "rb") as file:
        data = file.read()
    size = struct.unpack(">II", data[16:24])
    if size != (number(root, "width"), number(root, "height")):
        return f"it has the size {size}"
    pixels, place = b"", 8
    while place < len(data):
        (length,) = struct.unpack(">I", data[place : place + 4])
        if data[place + 4 : place + 8] == b"IDAT":
            pixels += data[place + 8 : place + 8 + length]
        place += 12 + length
    return "" if len(set(zlib.decompress(pixels))) > 2 else "it has one colour"


def example(px86: Px86, path: str) -> Checks:
    litmus, given = path.removesuffix(".steps") + ".litmus", read(path)
    asked = model("run", litmus, given=given)
    done = draw(px86, litmus, given=given)
    yield "its picture", wrong_end(done, asked.status)
    root = ElementTree.fromstring(done.out)
    yield "its parts", wrong_picture(done.out)
    yield "its last values", unlike(values_in_picture(root), re.findall(r"^word .* persisted (\d+)$", asked.out, re.M))
    steps = [it for line in given.splitlines() if (it := line.split("#")[0].strip())]
    # The picture ends with a step that is refused.
    refused = re.search(r"^refused (\d+)", asked.out, re.M)
    steps = steps[: int(refused[1]) + 1] if refused else steps
    # Each row of the shorter ones, and the last row of the others.
    for row in range(len(steps) + 1) if len(steps) < 9 else [len(steps)]:
        yield f"row {row}", unlike(lists_in_row(root, row), lists_of_model(litmus, steps[:row]))
    text = draw(px86, "--text", litmus, given=given)
    yield "its text", wrong_end(text, asked.status) or too_wide(text)
    yield "rendered", wrong_drawing(px86, done.out)


def too_wide(done: Done) -> str:
    """The lines of a text that have more than 80 columns."""
    return "; ".join(it for it in done.out.splitlines() if len(it) > 80)


# --- graphs of states

# Of one write: it is buffered, then pending, then persisted, and a crash from each of these states leaves one of two memories.
# After a crash nothing is left but to crash again. By hand from docs/MODEL.md.
ONE_WRITE = "litmus 1\nline x\ncpu\nmov [x], 1\nend\n"
ONE_GRAPH = {
    ("begin cpu 0 main 0 persisted x=0", "exec 0: mov [x], 1", "cpu 0 main halted [W x 1] persisted x=0"),
    ("cpu 0 main halted [W x 1] persisted x=0", "drain 0 0", "cpu 0 main halted pending [W x 1] persisted x=0"),
    ("cpu 0 main halted pending [W x 1] persisted x=0", "persist 0", "cpu 0 main halted persisted x=1 end"),
    ("begin cpu 0 main 0 persisted x=0", "crash", "cpu 0 recover halted persisted x=0 end"),
    ("cpu 0 main halted [W x 1] persisted x=0", "crash", "cpu 0 recover halted persisted x=0 end"),
    ("cpu 0 main halted pending [W x 1] persisted x=0", "crash", "cpu 0 recover halted persisted x=0 end"),
    ("cpu 0 main halted persisted x=1 end", "crash", "cpu 0 recover halted persisted x=1 end"),
    ("cpu 0 recover halted persisted x=0 end", "crash", "cpu 0 recover halted persisted x=0 end"),
    ("cpu 0 recover halted persisted x=1 end", "crash", "cpu 0 recover halted persisted x=1 end"),
}

# One processor comes to the same place with the same registers, and with ZF 0 or 1.
FLAGS = "litmus 1\nline x\ncpu\nmov [x], 1\nend\ncpu\nmov rax, [x]\ncmp rax, 1\nmov rax, 5\nend\n"

# Programs of which the second model says how many states there are, with crashes and without, and the limit that holds them.
COUNTED = [
    ("examples/persistency/clwb.litmus", True, 40),
    ("examples/persistency/two-lines.litmus", False, 60),
    ("examples/persistency/clflush.litmus", True, 60),
    ("examples/x86-tso/CoRW1.litmus", True, 60),
    ("examples/guide/store.litmus", False, 100),
    ("flags.litmus", True, 100),
]


def graph_of(dot: str) -> tuple[dict[str, str], list[tuple[str, str, str]]]:
    """The labels of the states of a graph, and its edges."""
    labels = {it[1]: it[2].replace("\\l", " ").strip() for it in re.finditer(r'^(s\d+) \[label="(.*?)"', dot, re.M)}
    edges = re.findall(r'^(s\d+) -> (s\d+) \[label="(.*?)"', dot, re.M)
    return labels, [(labels[start], step, labels[end]) for start, end, step in edges]


def one_graph(px86: Px86) -> Checks:
    one = px86.keep("one.litmus", ONE_WRITE)
    done = draw(px86, "--states", one)
    labels, edges = graph_of(done.out)
    yield "its edges", wrong_end(done, 0) or unlike(sorted(edges), sorted(ONE_GRAPH))
    yield "its states", unlike(len(labels), 6)
    done = draw(px86, "--states", "--before-crash", one)
    labels, edges = graph_of(done.out)
    yield "before a crash", wrong_end(done, 0) or unlike(sorted(edges), sorted(it for it in ONE_GRAPH if it[1] != "crash")) or unlike(len(labels), 4)
    # Behind the steps of standard input only what follows is there: the write is pending.
    done = draw(px86, "--states", "--before-crash", one, given="exec 0\ndrain 0 0\n")
    wanted = ["begin cpu 0 main halted pending [W x 1] persisted x=0", "cpu 0 main halted persisted x=1 end"]
    yield "behind steps", wrong_end(done, 0) or unlike(list(graph_of(done.out)[0].values()), wanted)


def breaking_states(px86: Px86) -> Checks:
    """The store of y passed the flush of x, and x has not persisted: whatever else may then happen, up to the persist of x."""
    condition = "persisted y = 0 or persisted x = 1"
    done = draw(px86, "--states", "--before-crash", "--all", condition, "examples/persistency/clwb.litmus")
    found = sorted(it for it in graph_of(done.out)[0].values() if "fails" in it)
    wanted = sorted(
        f"cpu 0 main halted{rest} all fails 0 1"
        for rest in (
            " [FO 0] pending [W x 1] [W y 1] persisted x=0 y=0",
            " [FO 0] pending [W x 1] persisted x=0 y=1",
            " pending [W x 1] [W y 1] [PER 0] persisted x=0 y=0",
            " pending [W x 1] [PER 0] persisted x=0 y=1",
        )
    )
    yield "", wrong_end(done, 0) or unlike(found, wanted)


def counted_graph(px86: Px86, path: str, options: list[str], limit: int) -> Checks:
    """A graph has as many states as the second model goes through: with a limit of one less that model gives up."""
    path = px86.keep("flags.litmus", FLAGS) if path == "flags.litmus" else path
    done = draw(px86, "--states", "--limit", str(limit), *options, path)
    labels, _ = graph_of(done.out)
    states = len(labels)
    yield "its labels", wrong_end(done, 0) or ("" if len(set(labels.values())) == states else "two states have one label")
    for most, wrong in ((states, False), (states - 1, True)):
        told = model("check", "--all", "reg 15 rax = 0 or not reg 15 rax = 0", *options, path, "--states", str(most))
        yield f"{most} states", "" if ("R1" in told.err) == wrong else f"{states} states, and {told.out}{told.err}"
    short = draw(px86, "--states", "--limit", str(states - 1), *options, path)
    yield "a limit", wrong_run(short, 2, "", f"picture: more than {states - 1} states (--limit)\n")
    yield "dot", wrong_dot(done.out, states)


def wrong_dot(graph: str, states: int) -> str:
    """What is wrong with a graph of so many states as dot draws it."""
    if not shutil.which("dot"):
        return NotRun("there is no dot")
    drawn = run(["dot", "-Tsvg"], graph)
    return wrong_end(drawn, 0) or unlike(len(ElementTree.fromstring(drawn.out).findall(f".//{SVG}g[@class='node']")), states)


# --- what goes wrong: a line, a status, and no picture

NO_FILE = "No such file or directory"
# Each with its words behind the program, its steps, its status and its line: of one that ends with ` ..` the beginning. PASSED and
# BAD stand for files.
FAULTS = [
    ([], "", 2, "picture: usage: the following arguments are required: FILE"),
    (["--frob", "PASSED"], "", 2, "picture: usage: unrecognized arguments: --frob"),
    (["--states", "--text", "PASSED"], "", 2, "picture: usage: --set and --text are for a run, .."),
    (["--limit", "3", "PASSED"], "", 2, "picture: usage: --set and --text are for a run, .."),
    (["--states", "--limit", "x", "PASSED"], "", 2, "picture: usage: argument --limit: .."),
    (["nowhere.litmus"], "", 3, f"picture: nowhere.litmus: {NO_FILE}"),
    (["--program", "nowhere", "PASSED"], "", 3, f"picture: nowhere: {NO_FILE}"),
    (["--program", "false", "PASSED"], "", 3, "picture: false debug ended with status 1"),
    (["--program", "true", "PASSED"], "", 3, "picture: true debug ended with status 0"),
    (["BAD"], "", 2, "px86: X1 BadWord line 4"),
    (["PASSED"], "exec 0\nfrob\n", 2, "px86: S1 BadLine 2"),
    (["PASSED"], "all fails 0 2\nsteps 1\nexec\n", 2, "px86: S1 BadLine 3"),
    (["PASSED"], "all holds\nstates 9\n", 2, "picture: `all holds`: nothing was found, so there are no steps"),
    (["PASSED"], "none\n", 2, "picture: `none`: nothing was found, so there are no steps"),
    (["--set", "1 1", "PASSED"], "exec 0\n", 1, "picture: 1 1: this is no image of the state after these steps"),
    (["--set", "1", "PASSED"], "exec 0\n", 2, "px86: usage"),
    (["--set", "0 0", "PASSED"], "exec 2\n", 2, "px86: M2 NoCpu at 0"),
    (["--states", "PASSED"], "exec 2\n", 2, "picture: refused 0 M2 NoCpu"),
    (["--states", "--all", "x = 1", "PASSED"], "", 2, "px86: E1 BadCond 0"),
]


def fault(px86: Px86, words: list[str], given: str, status: int, said: str) -> Checks:
    files = {"PASSED": PASSED, "BAD": "litmus 1\nline x\ncpu\nmov [x] 1\nend\n"}
    done = draw(px86, *(px86.keep(word, files[word]) if word in files else word for word in words), given=given)
    begins = done.err.startswith(said[:-2]) if said.endswith(" ..") else done.err == said + "\n"
    wrong = "" if begins and done.err.count("\n") == 1 else f"it said {done.err!r}"
    yield "", unlike(done.out, "") or unlike(done.status, status) or wrong


# How the standard streams are redirected, and what is said.
STREAMS = {
    "<&-": "picture: a standard stream is closed",
    ">&- </dev/null": "picture: a standard stream is closed",
    ">/dev/full </dev/null": "picture: standard output: No space left on device",
}


def stream(px86: Px86, redirected: str) -> Checks:
    done = shell(f'tools/picture --program "$1" "$2" {redirected}', px86.path, px86.keep("passed.litmus", PASSED))
    yield "", wrong_end(done, 3, STREAMS[redirected] + "\n")


# What is no px86, but answers each line, or reads none; and what is said of it.
OTHERS = {
    """sh -c 'sed -u "s/^back 0/px86> &/"'""": "debug answers `show`: show",
    """sh -c 'sed -u "s/^show/turns 0/; s/^back 0/px86> &/"'""": "debug answers `next`: next",
    "sh -c 'echo turns 0; kill -KILL $$'": "debug ended with status -9",
    "sh -c 'exec sleep 1000'": "debug answers nothing in 0.2 seconds",
}


def another(px86: Px86, program: str, said: str) -> Checks:
    """None of these is waited for without an end: the tool waits for 600 seconds, and here for less."""
    tool = read("tools/picture")
    if tool.count("\nSECONDS = 600\n") != 1:
        yield "", "tools/picture does not wait for 600 seconds"
        return
    seconds = 0.2 if "sleep" in program else 60
    shorter = px86.keep("shorter", tool.replace("\nSECONDS = 600\n", f"\nSECONDS = {seconds}\n"))
    done = run([sys.executable, "-B", shorter, "--program", program, px86.keep("passed.litmus", PASSED)], "exec 0\n", 100)
    yield "", wrong_run(done, 3, "", f"picture: {program} {said}\n")


def shell(command: str, *words: str) -> Done:
    return run(["bash", "-c", command, "bash", *words])


# --- other programs


def of_object(px86: Px86) -> Checks:
    steps = read("examples/write-behind-flush.steps")
    one, other = (draw(px86, "--text", f"examples/write-behind-flush.{kind}", given=steps) for kind in ("litmus", "obj"))
    yield "", wrong_end(other, 2) or differs(other.out.split("\n", 1)[1], one.out.split("\n", 1)[1])


def of_pipe(px86: Px86) -> Checks:
    done = shell('tools/picture --text --program "$1" <(cat "$2") </dev/null', px86.path, px86.keep("p", PASSED))
    yield "", wrong_end(done, 0) or ("" if "0 steps" in done.out else done.out)


def by_variable(px86: Px86) -> Checks:
    """px86 by its name, or by words."""
    path, named = px86.keep("p", PASSED), f"{px86.folder}/a folder/px86"
    os.mkdir(f"{px86.folder}/a folder")
    os.symlink(px86.path, named)
    for words in named, f"env '{named}'":
        done = run(["tools/picture", "--text", path], env={**os.environ, "PX86": words})
        yield words.replace(px86.folder, ""), wrong_run(done, 0, draw(px86, "--text", path).out)


def without_words(px86: Px86) -> Checks:
    done = draw(px86, "--set", "", px86.keep("empty.litmus", "litmus 1\n"))
    yield "", wrong_end(done, 0) or wrong_picture(done.out)


def many_processors(px86: Px86) -> Checks:
    """As many processors as there may be."""
    name = "a" * 16
    cpu = f"cpu\nmov rax, -1\nlock xadd [{name}], rax\nmov [rsi], rax\nend\n"
    many = px86.keep("many.litmus", f"litmus 1\nline {name}\n" + cpu * 16)
    given = "".join(f"exec {p}\nexec {p}\nexec {p}\n" for p in range(16))
    done = draw(px86, "--text", many, given=given)
    yield "as a text", wrong_end(done, 0) or too_wide(done)
    done = draw(px86, many, given=given)
    yield "", wrong_end(done, 0) or wrong_picture(done.out)


def shown(px86: Px86, path: str) -> Checks:
    """The pictures that documents show are those that the commands beside them draw."""
    page = read("README.md") + read("docs/GUIDE.md")
    yield "is shown", "" if f"({path})" in page or f"(../{path})" in page else "no page shows it"
    commands = [it for it in re.findall(r"^ {4}((?:.*\\\n)*.*)$", page, re.M) if path in it]
    if len(commands) != 1:
        yield "its command", f"{len(commands)} commands draw it"
        return
    done = run(["bash", "-c", commands[0].replace("./px86", '"$PX86"').replace(f"> {path}", "")], env={**os.environ, "PX86": px86.path})
    yield "its command", wrong_run(done, 0, read(path))


def cases() -> Iterator[Case]:
    """All cases."""
    yield from (Case(name, passed_text, *row) for name, *row in TEXTS)
    yield Case("a text with a crash and a refused step", crashed_text)
    yield Case("a report with a crash that is explained", recovered_text)
    yield from (Case(f"behind {said!r}", held, said, wanted) for said, wanted in HELD)
    yield Case("a text without steps", opening_text)
    yield from (Case(f"marks of {name}, {values}", marks, name, values, steps) for name, values, steps in MARKS)
    yield Case("equal entries", bars)
    paths = sorted(glob.glob("examples/*.steps", root_dir=TOP) + glob.glob("examples/guide/*.steps", root_dir=TOP))
    yield from (Case(path, example, path) for path in paths)
    yield Case("the graph of one write", one_graph)
    yield Case("the states that break a condition", breaking_states)
    for path, before, limit in COUNTED:
        options = ["--before-crash"] * before
        yield Case(" ".join(["the graph of", os.path.basename(path), *options]), counted_graph, path, options, limit)
    yield from (Case(f"fault {words} {given!r}", fault, words, given, status, said) for words, given, status, said in FAULTS)
    yield from (Case(f"another program: {program}", another, program, said) for program, said in OTHERS.items())
    yield from (Case(f"a stream: {redirected}", stream, redirected) for redirected in STREAMS)
    yield Case("an object", of_object)
    yield Case("a program from a pipe", of_pipe)
    yield Case("the variable PX86", by_variable)
    yield Case("a program without words", without_words)
    yield Case("16 processors", many_processors)
    yield from (Case(path, shown, path) for path in sorted(glob.glob("examples/pictures/*.svg", root_dir=TOP)))
