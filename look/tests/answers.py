"""What px86-look answers, beside px86 called apart from it: on each example, at the end of its steps, and on texts at the edge."""

from __future__ import annotations

import glob
import os
import re
import subprocess
import time
from collections.abc import Iterable, Iterator
from concurrent.futures import ThreadPoolExecutor
from typing import Any, NamedTuple

from support import CONDITION, EXAMPLES, Cases, Program, Server, entry_text, read, started, steps_in

FOLDERS = ("guide", "sheets", "", "every-run", "x86-tso", "persistency", "idioms")
BASE = os.path.join(EXAMPLES, "guide", "append-unfenced")
# What recovery of the append has to find: a tail only with its record.
RECOVERED = "reg 0 rax = 0 or reg 0 rbx = 11 and reg 0 rcx = 12"


class Example(NamedTuple):
    name: str
    text: str
    steps: list[str]
    condition: str | None


def files() -> list[str]:
    return sorted(path for folder in FOLDERS for path in glob.glob(os.path.join(EXAMPLES, folder, "*.litmus")))


def examples() -> Iterator[Example]:
    for path in files():
        base = path.removesuffix(".litmus")
        steps = steps_in(read(f"{base}.steps")) if os.path.exists(f"{base}.steps") else []
        asked = read(f"{base}.check") if os.path.exists(f"{base}.check") else ""
        found = re.search(r'--all "([^"]*)"', asked)
        yield Example(os.path.relpath(path, EXAMPLES), read(path), steps, found[1] if found else None)


def edges() -> Iterator[Example]:
    yield Example("no words", "litmus 1\n", [], None)
    yield Example("no words, and a condition", "litmus 1\ncpu\nnop\nend\n", ["exec 0", "crash"], "reg 0 rax = 0")
    yield Example("no words, and it is broken", "litmus 1\ncpu\nnop\nend\n", ["exec 0"], "reg 0 rax = 1")
    large = "litmus 1\nline x\ninit x 18446744073709551615\ncpu\nmov rax, [x]\nmov rbx, [rax]\nmov [x], -2\nend\n"
    yield Example("a value of 64 bits, and a trap", large, ["exec 0", "exec 0"], "persisted x < 5")
    yield Example("a step that is refused", "litmus 1\nline x\ncpu\nmov [x], 1\nend\n", ["exec 0", "persist 0", "drain 0 0"], None)
    body = "cpu\nmov [x], 1\nmfence\nlock xadd [y], rax\nend\n"
    sixteen = [f"exec {cpu}" for cpu in range(16)] + [f"drain {cpu} 0" for cpu in range(3)]
    yield Example("16 processors", f"litmus 1\nline x y z\n{body * 16}", sixteen, "persisted x = 0")
    stores = "".join(f"mov [w{n}], 1\n" for n in range(64))
    lines = "".join(f"line w{n}\n" for n in range(64))
    yield Example("64 lines", f"litmus 1\n{lines}cpu\n{stores}end\n", ["exec 0"] * 12 + ["drain 0 0"] * 5, "persisted w0 = 0")


def equal_entries() -> Example:
    """Some of the entries of a list are the same."""
    text = "litmus 1\nline x\nline y\ncpu\nmov [x], 1\nmov [x], 1\nmov [y], 1\nmov [x], 1\nend\n"
    return Example("equal entries", text, ["exec 0"] * 4 + ["drain 0 0"] * 4 + ["persist 0"], "persisted x = 0 or persisted y = 1")


def as_text(data: Any) -> Any:
    """The same data, with numbers as texts: the server has the large ones so."""
    if isinstance(data, dict):
        return {name: as_text(it) for name, it in data.items()}
    if isinstance(data, list):
        return [as_text(it) for it in data]
    return str(data) if isinstance(data, int) and not isinstance(data, bool) else data


def lists_of(state: Any) -> dict[str, list[str]]:
    buffers = {f"buffer {cpu['cpu']}": list(map(entry_text, cpu["buffer"])) for cpu in state["cpus"]}
    return buffers | {"pending": list(map(entry_text, state["pending"]))}


def after_change(entries: list[str], change: Any, newest: list[str]) -> list[str]:
    """A list after what is said of it: without what is gone, and with the newest entry if one came."""
    kept = [it for place, it in enumerate(entries) if place not in change["gone"]]
    return [*kept, newest[-1]] if change["came"] else kept


def accepted_part(px86: Program, example: Example) -> list[str]:
    """The steps before the one that is refused, as `run` says it."""
    refused = px86.data("run", text=example.text, steps=example.steps)["refused"]
    return example.steps if refused is None else example.steps[: refused["at"]]


def test_state(cases: Cases, server: Server, px86: Program, example: Example) -> None:
    """The state, those that may come next, and how the lists come to be those."""
    steps = accepted_part(px86, example)
    shown = server.ask("look", text=example.text, steps=example.steps, at=len(steps))
    state = px86.state(example.text, steps)
    cases.equal(f"{example.name}: the steps", shown["steps"], steps)
    cases.equal(f"{example.name}: the state", as_text(shown["state"]), as_text(state))
    if steps:
        before = px86.state(example.text, steps[:-1])
        cases.equal(f"{example.name}: the state before", as_text(shown["before"]), as_text(before))
    after = px86.states_after(example.text, steps)
    accepted = {next["step"]: as_text(next["state"]) for next in shown["next"] if next["seen"]}
    cases.equal(f"{example.name}: the next steps", accepted, as_text(after))
    refused = [next["step"] for next in shown["next"] if next["refused"]]
    cases.equal(f"{example.name}: the refused steps", refused, [step for step in px86.tried(example.text, state) if step not in after])
    lists = lists_of(shown["state"])
    for next in shown["next"]:
        if next["seen"]:
            changed = lists_of(next["state"])
            told = {name: after_change(lists[name], change, changed[name]) for name, change in next["changes"].items()}
            cases.equal(f"{example.name}: the lists after {next['step']}", lists | told, changed)
    images = px86.images(example.text, steps)
    cases.equal(f"{example.name}: the memories", as_text(shown["images"]["images"]), as_text(images))
    if images is None:
        cases.equal(f"{example.name}: why there are none", shown["images"]["fault"]["number"], "I1")


def sites_of(px86: Program, example: Example, state: Any) -> list[list[Any]] | None:
    """Of the writes that the memory of no further persisting lacks, where px86 says that they were executed; None, where it does not,
    as there are too many memories."""
    lost = " and ".join(f"persisted {it['word']} = {it['persisted']}" for it in state["words"])
    plan = ("--all", f"not ( {lost} )", "--length", "0", "--runs", "1", "--explain-image")
    told = px86.data("hunt", *plan, text=example.text, steps=accepted_part(px86, example))
    explained = told["explained"]
    if explained is None and told.get("candidates") == "more":
        return None
    return [[f"W {it['word']} {it['value']}", it["site"]["line"]] for it in explained["missing"]]


def test_lines(cases: Cases, server: Server, px86: Program, example: Example) -> None:
    """The line of each entry, beside the sites that px86 names of the writes that are missing if nothing more persists."""
    steps = accepted_part(px86, example)
    state, shown = px86.state(example.text, steps), server.ask("look", text=example.text, steps=steps, at=len(steps))
    persisted = {it["word"]: str(it["persisted"]) for it in state["words"]}
    lists = lists_of(state)
    found = []
    for name in ["pending", *(name for name in lists if name != "pending")]:
        for entry, line in zip(lists[name], shown["origins"][name]):
            kind, *rest = entry.split()
            if kind == "W" and persisted[rest[0]] != rest[1]:
                found.append([entry, line])
    cases.equal(f"{example.name}: the lines of the entries", found, sites_of(px86, example, state))


def test_broken(cases: Cases, server: Server, px86: Program, example: Example) -> None:
    """Which memories break the condition: each is asked apart, whether one that breaks it or this very one may be left."""
    steps, condition = accepted_part(px86, example), example.condition or ""
    told = server.ask("broken", text=example.text, steps=steps, condition=condition)
    images, words = px86.images(example.text, steps), px86.state(example.text, steps)["words"]
    wanted = []
    for values in images or [] if words else []:
        same = " and ".join(f"persisted {it['word']} = {value}" for it, value in zip(words, values))
        if px86.may_break(example.text, steps, f"( {condition} ) or not ( {same} )"):
            wanted.append(values)
    if not words and px86.may_break(example.text, steps, condition):
        wanted = images
    cases.equal(f"{example.name}: the memories that break it", as_text([it["values"] for it in told["broken"]]), as_text(wanted))
    cases.equal(f"{example.name}: how many break it", told["count"], len(wanted))
    for bad, values in zip(told["broken"], wanted):
        cases.equal(f"{example.name}: why {values} may be left", bad["missing"], px86.missing(example.text, steps, values))
    mark = server.ask("marks", text=example.text, condition=condition, lists=[steps, []])["marks"]
    wanted_marks = ["broken" if px86.may_break(example.text, it, condition) else "none" for it in (steps, [])]
    cases.equal(f"{example.name}: the marks", mark, wanted_marks)


def test_example(cases: Cases, server: Server, px86: Program, example: Example) -> None:
    test_state(cases, server, px86, example)
    state, images = (ask(example.text, accepted_part(px86, example)) for ask in (px86.state, px86.images))
    if images is not None and any(it["coherent"] != it["persisted"] for it in state["words"]):
        test_lines(cases, server, px86, example)
    if example.condition and images is not None and len(images) <= 24:
        test_broken(cases, server, px86, example)


def test_edges(cases: Cases, server: Server, px86: Program) -> None:
    """All texts at the edge."""
    for example in edges():
        test_example(cases, server, px86, example)


def test_examples(cases: Cases, server: Server, px86: Program, each: int) -> None:
    """Each so many-th example."""
    for example in list(examples())[::each]:
        test_example(cases, server, px86, example)


# --- the guide's append, whose answers are known


def append() -> Example:
    return Example("append-unfenced", read(f"{BASE}.litmus"), steps_in(read(f"{BASE}.steps")), CONDITION)


def test_append(cases: Cases, server: Server, px86: Program) -> None:
    """The README has these memories, and the guide these reasons."""
    example = append()
    for it in (example, equal_entries()):
        test_example(cases, server, px86, it)
    asked = {"text": example.text, "steps": example.steps}
    broken = server.ask("broken", condition=CONDITION, **asked)["broken"]
    cases.equal("append: the memories that break it", [it["values"] for it in broken], [[0, 0, 1], [11, 0, 1]])
    why = "line 6: flushed on line 8; that flush is buffered, and the store on line 9 has passed it"
    cases.equal("append: why", broken[0]["missing"][0], f"missing a 11 {why}")
    # Of the pending list a = 11, b = 12, tail = 1 the last alone has to persist; it came there by the last of eight steps.
    into, start = (server.ask("image", values=values, **asked) for values in ([0, 0, 1], [0, 0, 0]))
    cases.equal("append: the way into it", (into["set"], into["since"]), ([2], 8))
    cases.equal("append: from the start", (start["set"], start["since"]), ([], 0))
    passed = "flushed on line 8; that flush is buffered, and the store on line 9 has passed it"
    cases.equal("append: what is missing in it", into["missing"], [f"missing a 11 line 6: {passed}", f"missing b 12 line 7: {passed}"])
    cases.equal("append: what is missing from the start", [it.split()[1] for it in start["missing"]], ["a", "b", "tail"])
    cases.equal("append: a memory that cannot be", server.ask("image", values=[0, 12, 0], **asked)["set"], None)
    cases.equal("append: nothing is missing in it", server.ask("image", values=[0, 12, 0], **asked)["missing"], [])
    lists = [example.steps[:count] for count in range(9)]
    marks = server.ask("marks", condition=CONDITION, text=example.text, lists=lists)["marks"]
    cases.equal("append: since when", marks, ["none"] * 8 + ["broken"])
    shown = server.ask("look", at=8, **asked)
    cases.equal("append: the lines", shown["origins"], {"buffer 0": [8, 10], "pending": [6, 7, 9]})
    tags = {"6": "pending", "7": "pending", "8": "buffered", "9": "pending", "10": "buffered"}
    cases.equal("append: where the newest entry of each line is", shown["tags"], tags)
    told = server.ask("why", text=example.text, steps=["exec 0", "exec 0", "drain 0 1"])["told"]
    cases.equal("append: why not", told, "M7: the write of b may not leave before the write of a at place 0 of the store buffer.")


def test_search(cases: Cases, server: Server, px86: Program) -> None:
    """What `check` and `hunt` find leads to the memory that they name; with what `mend` puts in all holds."""
    example = append()
    asked = {"text": example.text, "condition": CONDITION}
    for question, more in (("check", {"kind": "all"}), ("hunt", {"runs": 1000})):
        found = server.ask(question, steps=[], **asked, **more)
        cases.equal(f"{question}: it is found", found["holds"], False)
        images = px86.images(example.text, found["steps"])
        tail = dict(zip(("a", "b", "tail"), found["values"]))
        cases.equal(f"{question}: a crash may leave it", found["values"] in images, True)
        cases.equal(f"{question}: it breaks the condition", tail["tail"] != 0 and (tail["a"], tail["b"]) != (11, 12), True)
    begun = server.ask("check", steps=example.steps[:4], kind="all", **asked)
    cases.equal("check: from here", px86.data("run", text=example.text, steps=[*example.steps[:4], *begun["steps"]])["refused"], None)
    ended = server.ask("check", steps=[], kind="recovered", text=example.text, condition=RECOVERED)
    cases.equal("check: after a crash", (ended["holds"], ended["lines"][0].startswith("recovered fails")), (False, True))
    cases.equal("check: after a crash, it is explained", [it["values"] for it in ended["explained"]], [[0, 0, 1]])
    test_mend(cases, server, example.text, (("all", CONDITION), ("recovered", RECOVERED)))


# Two stores of one line, and no flush: each crash of a run is explained apart. The condition is false of all that ends.
TWICE = "litmus 1\nline x y\ncpu\nmov [x], 1\nmov [y], 2\nrecover\nmov rax, [y]\nmov [x], 3\nend\n"
# Texts with what is asked of them, and steps before: one question of each kind, with no crash, one, and more.
EXPLAINED = (
    ("guide/append-unfenced", "all", CONDITION, ()),
    ("guide/append-unfenced", "recovered", RECOVERED, ()),
    ("guide/append-unfenced", "all", "not coherent tail = 1 or coherent a = 11 and coherent b = 12", ()),
    ("guide/append-unfenced", "ends", "persisted a = 12", ()),
    ("guide/append-unfenced", "recovered", RECOVERED, ("exec 0", "drain 0 0")),
    ("every-run/flag-cleared-early", "recovered", "coherent a = 3 and coherent b = 3 or coherent a = 4 and coherent b = 4", ()),
    (TWICE, "recovered", "coherent y = 2 and coherent x = 0", ()),
    (TWICE, "all", "coherent x < 3 or persisted y = 2", ("exec 0", "exec 0", "crash")),
)


def lines_of_parts(names: list[str], parts: Iterable[Any]) -> list[str]:
    """The lines that the parts of what explains a run were made of."""
    lines: list[str] = []
    for part in parts:
        lines += [] if part["crash"] is None else [f"crash {part['crash']}"]
        lines.append(" ".join(["image", *(f"{name} {value}" for name, value in zip(names, part["values"]))]))
        lines += part["missing"] + part["said"]
    return lines


def test_explained(cases: Cases, server: Server, px86: Program) -> None:
    """Of each question, what explains the run is what px86 says behind it; and of the append it is known."""
    for name, kind, condition, steps in EXPLAINED:
        text = read(os.path.join(EXAMPLES, f"{name}.litmus")) if "\n" not in name else name
        found = server.ask("check", text=text, steps=list(steps), kind=kind, condition=condition)
        asked = [f"--{kind}", condition, "--states", "200000", "--explain-image"]
        told = px86.call("check", *asked, text=text, steps=steps).stdout.splitlines()
        names = [it["word"] for it in px86.state(text, [])["words"]]
        said = f"explained: {name.splitlines()[0]} {kind} {condition}"
        cases.equal(f"{said}: the report", found["lines"], told[: len(found["lines"])])
        cases.equal(f"{said}: what is behind it", lines_of_parts(names, found["explained"]), told[len(found["lines"]) :])
        cases.equal(f"{said}: the report ends with the steps", found["lines"][-1], f"steps {len(found['steps'])}")
        crashes = [place for place, step in enumerate(found["steps"]) if step == "crash"]
        cases.equal(f"{said}: its crashes", [it["crash"] for it in found["explained"]], crashes + [None] * (kind == "all"))
    asked = {"text": append().text, "steps": [], "kind": "recovered", "condition": RECOVERED}
    part = server.ask("check", **asked)["explained"][0]
    why = "line 7: flushed on line 8; that flush is buffered, and the store on line 9 has passed it"
    cases.equal("explained: of the append", part["missing"], [f"missing b 12 {why}"])
    cases.equal("explained: what else is said of it", part["said"], ["with this: held", "missing too 1"])


def test_mend(cases: Cases, server: Server, text: str, questions: Iterable[tuple[str, str]]) -> None:
    """The append lacks a fence between the record's flush and the tail's store. Before it a flush and a fence behind line 6, and
    the same behind line 7, cost as much: with none of these four it holds."""
    lines = text.split("\n")
    lines.insert(8, "sfence")
    for kind, condition in questions:
        found = server.ask("mend", text=text, kind=kind, condition=condition)
        cases.equal(f"mend {kind}: what is put in", found["put"], [{"instruction": "sfence", "line": 8}])
        told = [line for line in found["lines"] if not line.startswith("states ")]
        cases.equal(f"mend {kind}: its report", told, ["put sfence behind line 8", f"{kind} held", "cost 1"])
        with_it = server.ask("check", text="\n".join(lines), condition=condition, steps=[], kind=kind)
        cases.equal(f"mend {kind}: with it", (with_it["holds"], with_it["lines"][0]), (True, f"{kind} holds"))
        again = server.ask("mend", text="\n".join(lines), kind=kind, condition=condition)
        cases.equal(f"mend {kind}: then nothing is needed", (again["put"], again["lines"]), ([], ["mend none needed"]))
    fault = server.ask("mend", text=text, kind="all", condition="persisted tial = 0")["fault"]
    cases.holds("mend: a fault of the condition", "E2 UnknownName" in fault["sentence"], fault)


def test_faults(cases: Cases, server: Server) -> None:
    """Faults of texts and conditions, of which no word is taken for an option."""
    text = append().text
    fault = server.ask("look", text=text.replace("mov [b], 12", "mov [b] 12"), steps=[], at=0)["fault"]
    cases.equal("a fault of the text", (fault["number"], fault["name"], fault["line"]), ("X1", "BadWord", 7))
    cases.equal("a fault of the text: where", fault["told"].split("\n")[0], "7 | mov [b] 12")
    for condition, part in (
        ("persisted tail == 0", "E1 BadCond 2"),
        ("persisted tail = 0 ) or ( persisted a = 11", "E1 BadCond"),
        ("persisted tial = 0", "E2 UnknownName"),
        ("--help", "E1 BadCond 0"),
        ("-h", "E1 BadCond 0"),
        ("'; true", "E1 BadCond 0"),
        ("", "E1 BadCond 0"),
    ):
        fault = server.ask("broken", text=text, steps=[], condition=condition).get("fault", {})
        named = " ".join(fault.get(name) or "" for name in ("number", "name", "place"))
        cases.equal(f"a fault of the condition {condition!r}", (named.startswith(part), bool(fault.get("told"))), (True, True))
        mark = server.ask("marks", text=text, lists=[[]], condition=condition)["marks"]
        cases.equal(f"a mark of the condition {condition!r}", mark, ["unknown"])
    refused = server.ask("look", text=text, steps=["exec 0", "exec 0", "drain 0 1", "exec 0"], at=4)
    cases.equal("a refused step: what is left", (refused["steps"], refused["at"]), (["exec 0", "exec 0"], 2))
    cases.equal("a refused step: which", (refused["refused"]["step"], refused["refused"]["number"]), ("drain 0 1", "M7"))


def test_files(cases: Cases, server: Server, px86: Program) -> None:
    """The examples, the program that answers, and an object file."""
    test_object(cases, px86.path)
    begin = server.ask("begin")
    names = [it["name"] for it in begin["examples"]]
    cases.equal("the examples", sorted(names), sorted(os.path.relpath(path, EXAMPLES) for path in files()))
    number = names.index("guide/append-unfenced.litmus")
    example = server.ask("example", number=number)
    cases.equal("an example", (example["text"], example["steps"]), (append().text, append().steps))
    version = subprocess.run([px86.path, "--version"], capture_output=True, text=True, check=True).stdout.strip()
    cases.equal("the program's version", begin["program"]["version"], version)
    # `./px86 --unproved` builds a program of another name.
    cases.equal("whether it was proved", begin["program"]["proved"], os.path.basename(px86.path) == "px86")


def long_text() -> str:
    """A text with very many states, of which a crash may leave few memories each."""
    bodies = ["".join(f"mov [x{n % 2}], {16 * cpu + n}\n" for n in range(16)) for cpu in range(4)]
    return "litmus 1\nline x0\nline x1\n" + "".join(f"cpu\n{body}end\n" for body in bodies)


def test_stop(cases: Cases, server: Server) -> None:
    """There is one search at a time: the next stops it, and so does `stop`."""
    asked = {"text": long_text(), "steps": [], "condition": "persisted x0 < 99", "kind": "all", "states": 10**7}
    with ThreadPoolExecutor(2) as pool:
        first = pool.submit(server.ask, "check", **asked)
        time.sleep(1)
        second = pool.submit(server.ask, "check", **asked)
        told = first.result()
        time.sleep(1)
        cases.equal("stop: it goes on until then", second.done(), False)
        server.ask("stop")
        stopped = {"fault": {"sentence": "it was stopped", "told": ""}}
        cases.equal("stop: by the next search", told, stopped)
        cases.equal("stop: by itself", second.result(), stopped)


# px86, but for what it does where it is asked for reasons.
WITHOUT_REASONS = """#!/bin/sh
case " $* " in *" --explain-image "*) {instead};; esac
exec '{program}' "$@"
"""


def test_reasons(cases: Cases, program: str, folder: str) -> None:
    """A run that was found is told, where there is no answer to what was missing; unless it is stopped."""
    path, asked = os.path.join(folder, "px86"), {"text": append().text, "steps": [], "condition": CONDITION, "kind": "all"}
    for name, instead in (("ended", "kill -9 $$"), ("stopped", "exec sleep 60")):
        with open(path, "w", encoding="ascii") as file:
            file.write(WITHOUT_REASONS.format(instead=instead, program=program))
        os.chmod(path, 0o755)
        with started(path, f"{BASE}.litmus") as server, ThreadPoolExecutor(1) as pool:
            told = pool.submit(server.ask, "check", **asked)
            if name == "stopped":
                time.sleep(2)
                server.ask("stop")
                cases.equal("reasons: it is stopped", told.result(), {"fault": {"sentence": "it was stopped", "told": ""}})
                continue
            found = told.result()
            cases.equal("reasons: what was found without them", (found["holds"], found["lines"][0]), (False, "all fails 0 0 1"))
            cases.equal("reasons: there are none", (found["explained"], "check ended" in found["unexplained"]), ([], True))


def test_object(cases: Cases, program: str) -> None:
    """An object file is shown as the text that `dis` makes of it."""
    base = os.path.join(EXAMPLES, "write-behind-flush")
    with started(program, f"{base}.obj", "--steps", f"{base}.steps", "--all", "persisted x = 1") as server:
        begin = server.ask("begin")
    cases.equal("an object file: its text", begin["text"], read(f"{base}.dis"))
    cases.equal("an object file: the steps", begin["steps"], steps_in(read(f"{base}.steps")))
    cases.equal("an object file: the condition", begin["conditions"], {"all": "persisted x = 1"})
