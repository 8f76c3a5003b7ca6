"""The text report of an object of JSON, for tests/json_reports.py: what stands in the one is what the other says. And where the instructions
stand that an object names."""

from __future__ import annotations

import json
from collections.abc import Iterable, Iterator, Sequence
from typing import Any

from model.sheets import is_sheet, program_of

Lines = Iterator[str]

REGISTERS = ("rax", "rcx", "rdx", "rbx", "rsi", "rdi", "r8", "r9")


def values(numbers: Iterable[int]) -> str:
    return "".join(f" {n}" for n in numbers)


def entry(e: Any) -> str:
    kind = e["kind"]
    if kind == "W":
        return f"W {e['word']} {e['value']}"
    return kind if kind == "SF" else f"{kind} {e['cache_line']}"


def refusal(r: Any) -> str:
    if not r["sentence"].startswith(f"{r['number']}: ") or not r["sentence"].endswith("."):
        raise ValueError(f"no sentence of {r['number']}")
    return f"{r['number']} {r['name']}" + ("" if r["place"] is None else f" {r['place']}")


def state(s: Any) -> Lines:
    yield f"turns {s['turns']}"
    yield f"crashes {s['crashes']}"
    for c in s["cpus"]:
        yield f"cpu {c['cpu']} {c['program']} {c['place']} {c['progress']} zf {c['zf']}"
        if c["trap"] is not None:
            yield f"  trap {c['trap']}"
        for r in REGISTERS:
            if r in c["registers"]:
                yield f"  reg {r} {c['registers'][r]}"
        for i, e in enumerate(c["buffer"]):
            yield f"  buf {i} {entry(e)}"
    for w in s["words"]:
        yield f"word {w['word']} coherent {w['coherent']} persisted {w['persisted']}"
    for i, e in enumerate(s["pending"]):
        yield f"pend {i} {entry(e)}"


def run(o: Any, options: Sequence[str]) -> Lines:
    yield from state(o["state"])
    if o["refused"] is not None:
        yield f"refused {o['refused']['at']} {refusal(o['refused'])}"


def set_asked(options: Sequence[str]) -> list[str]:
    """The values of `--set`."""
    return next(word.removeprefix("--set=") for option, word in zip(["", *options], options) if option == "--set" or word.startswith("--set=")).split()


def named_told(o: Any, image: Iterable[object]) -> Lines:
    """The image that `images` names, if it is explained."""
    if o["explained"] is not None:
        yield from image_told(o, [int(value) for value in image], o["explained"]["missing"])


def images(o: Any, options: Sequence[str]) -> Lines:
    if "set" in o:
        yield "no set" if o["set"] is None else "set" + values(o["set"])
        yield from named_told(o, set_asked(options))
        return
    yield f"candidates {o['candidates']}"
    if o["images"] is not None:
        if "--names" in options:
            yield "words" + "".join(f" {n}" for n in o["words"])
        for i in o["images"]:
            yield "image" + values(i)
        yield f"images {len(o['images'])}"
    if o["all"] is not None:
        check_broken(o)
        yield "all holds" if o["all"]["holds"] else "all fails" + values(o["all"]["image"])
    if o["some"] is not None:
        yield "some found" + values(o["some"]["image"]) if o["some"]["found"] else "some none"
    yield from named_told(o, None if o["all"] is None else o["all"]["image"])


def check_broken(o: Any) -> None:
    """Where images are listed, the places of those that break the condition ascend, and the first of them is the one that is named."""
    broken = o["all"]["broken"]
    if (broken is None) != (o["images"] is None):
        raise ValueError("places in no list, or none in a list")
    if broken is not None:
        if broken != sorted({*broken}) or not all(0 <= place < len(o["images"]) for place in broken):
            raise ValueError(f"places {broken}")
        if o["all"]["image"] != (o["images"][broken[0]] if broken else None):
            raise ValueError("the first of them is another one")


def law(o: Any, options: Sequence[str]) -> Lines:
    b = o["broken"]
    yield "none" if b is None else f"broken {b['cpu']} {b['first']} {b['second']} {b['at']}"


def replay(o: Any, options: Sequence[str]) -> Lines:
    yield from o["steps"]


def act(a: Any) -> str:
    kind = a["kind"]
    if kind == "read":
        return f"read {a['word']} {a['value']}"
    if kind == "delay":
        return f"delay {entry(a['entry'])}"
    if kind == "locked":
        return f"locked {a['word']} {a['old']} {'-' if a['new'] is None else a['new']}"
    return f"trap {a['address']}" if kind == "trap" else kind


def seen(s: Any) -> str:
    kind = s["kind"]
    if kind == "ran":
        return act(s["act"])
    if kind == "left":
        return f"left {s['cpu']} {s['place']} {entry(s['entry'])}"
    if kind == "persisted":
        return f"persisted {s['word']} {s['value']}"
    return f"settled {s['cache_line']}" if kind == "settled" else f"crashed {s['crashes']}"


def trace(o: Any, options: Sequence[str]) -> Lines:
    for a in o["steps"]:
        tried = f"{a['at']} {a['step']}" + ("" if a["instruction"] is None else f": {a['instruction']}")
        if a["refused"] is not None and a["refused"]["at"] != a["at"]:
            raise ValueError("refused at another place")
        yield f"{tried}: {seen(a['seen']) if a['refused'] is None else refusal(a['refused'])}"


def next_(o: Any, options: Sequence[str]) -> Lines:
    for a in o["steps"]:
        tried = a["step"] + ("" if a["instruction"] is None else f": {a['instruction']}")
        yield f"{tried}: {seen(a['seen']) if a['refused'] is None else refusal(a['refused'])}"


def live(o: Any, options: Sequence[str]) -> Lines:
    yield f"journal {len(o['journal'])}"
    for i, e in enumerate(o["journal"]):
        if e["refused"] is not None and e["refused"]["at"] != i:
            raise ValueError("refused at another entry")
        yield f"{i} {e['seat']} {e['step']}: {noted(e['seen']) if e['refused'] is None else refusal(e['refused'])}"
    yield from state(o["state"])


def noted(s: Any) -> str:
    """A SEEN, as a journal has it: of an instruction its processor and its place, too."""
    return f"ran {s['cpu']} {s['place']} {act(s['act'])}" if s["kind"] == "ran" else seen(s)


def halted(r: Any) -> Lines:
    """Where a go, or a continue, halted. A step that is refused is the one behind those that were made."""
    if (r["stop"] is None) == (r["halt"] == "stop") or (r["refused"] is None) == (r["halt"] == "refused"):
        raise ValueError("a part of a halt")
    if r["halt"] == "stop":
        yield f"stop {r['stop']} {r['made']}"
    elif r["halt"] == "refused":
        if r["refused"]["at"] != r["made"]:
            raise ValueError("refused at another place")
        yield f"refused {r['made']} {refusal(r['refused'])}"
    elif r["halt"] == "end":
        yield "end"
    else:
        raise ValueError(f"halted at {r['halt']}")


def session_fault(fault: Any) -> str:
    return f"{fault['number']} {fault['name']}"


def taken_back(r: Any) -> Lines:
    yield f"back {r['steps']}" if r["fault"] is None else session_fault(r["fault"])


def taken_out(r: Any) -> Lines:
    yield "ok" if r["fault"] is None else session_fault(r["fault"])


def listed(r: Any) -> Lines:
    if (r["candidates"] == "more") != (r["images"] is None):
        raise ValueError("images that are not counted, or none that are")
    yield f"candidates {r['candidates']}"
    if r["images"] is not None:
        for i in r["images"]:
            yield "image" + values(i)
        yield f"images {len(r['images'])}"


def valued(r: Any) -> Lines:
    for value in r["values"]:
        yield f"value {value}"
    yield f"values {len(r['values'])}"


def watched(r: Any) -> Lines:
    yield f"watch {r['id']} {len(r['notes'])}"
    for note in r["notes"]:
        yield f"  {note['number']} {noted(note['seen'])}"


REPLIES = {
    "go": halted,
    "continue": halted,
    "back": taken_back,
    "show": lambda r: state(r["state"]),
    "images": listed,
    "values": valued,
    "disarm": taken_out,
    "detach": taken_out,
    "watch": watched,
}


def debug(o: Any, options: Sequence[str]) -> Lines:
    for r in o["replies"]:
        yield from REPLIES[r["kind"]](r)


def where(site: Any) -> str:
    return f"cpu {site['cpu']} {site['program']} {site['place']}" if site["line"] is None else f"line {site['line']}"


def there(site: Any) -> str:
    return f" {'at' if site['line'] is None else 'on'} {where(site)}"


def why(w: Any) -> str:
    if (w["flush"] is None) != (w["reason"] in ("in the store buffer", "stored after", "never flushed")):
        raise ValueError("a flush that is missing, or none is meant")
    if (w["behind"] is None) == (w["reason"] in ("stored after", "flush behind")):
        raise ValueError("a store that is missing, or none is meant")
    if w["passed"] is not None and w["reason"] != "flush buffered":
        raise ValueError("a store has passed no flush that is buffered")
    if w["reason"] == "stored after":
        return f"stored after {where(w['behind'])}, on the same cache line"
    if w["flush"] is None:
        return w["reason"]
    flushed = f"flushed{there(w['flush'])}"
    if w["reason"] == "flush pending":
        return f"{flushed}; the flush has left the store buffer, and nothing after it has persisted"
    if w["reason"] == "flush behind":
        return f"{flushed}, behind the store{there(w['behind'])} that has persisted"
    if w["reason"] == "flushed before":
        return f"{flushed}, before it"
    if w["reason"] != "flush buffered":
        raise ValueError("another reason")
    passed = "" if w["passed"] is None else f", and the store{there(w['passed'])} has passed it"
    return f"{flushed}; that flush is buffered{passed}"


def image_told(o: Any, image: Iterable[object], missing: Any) -> Lines:
    """An image by names, and the writes that are missing in it, if it is one of the state."""
    yield "image" + "".join(f" {name} {value}" for name, value in zip(o["words"], image, strict=True))
    if missing is None:
        return
    told = [f"missing {m['word']} {m['value']} {where(m['site'])}: {why(m['why'])}" for m in missing]
    if not missing:
        yield "missing none"
    elif o["command"] != "check":
        # A hunt does not ask which are enough alone.
        yield from told
    else:
        yield from alone_told(told, [m["enough"] for m in missing])


def alone_told(lines: list[str], enough: list[bool]) -> Lines:
    """Of the lines of missing writes those that are enough alone, and how many others there are; or all."""
    alone = [line for line, is_enough in zip(lines, enough, strict=True) if is_enough]
    if not alone:
        yield from lines
        tried = len(lines) <= 64
        yield "none of these was found to be enough alone" if tried else "none of these was tried alone: they are too many"
        return
    yield from alone
    yield "with this: held" if len(alone) == 1 else "with each of these: held"
    if len(alone) < len(lines):
        yield f"missing too {len(lines) - len(alone)}"


def explained(o: Any, image: Any) -> Lines:
    """What explains each crash of a run, and an image, if it is asked for. Of an end there is no image."""
    e = o["explained"]
    if e is None:
        return
    for c in e.get("crashes", []):
        if c["step"] >= len(o["steps"]) or o["steps"][c["step"]] != "crash":
            raise ValueError("no crash")
        yield f"crash {c['step']}"
        yield from image_told(o, c["image"], c["missing"])
    if image is not None:
        yield from image_told(o, image, e["missing"])
    elif e["missing"] is not None:
        raise ValueError("writes that are missing in no image")


def question(o: Any, q: Any, options: Sequence[str]) -> Lines:
    """The answer to a question of a sheet. `addresses` has the names of words by their addresses."""
    is_run, is_told = q["answer"] in ("fails", "found"), {(part in q and q[part] is not None) for part in ("values", "steps", "lines")}
    if is_told != {is_run} or q["answer"] in (("found", "none") if q["every"] else ("holds", "fails")):
        raise ValueError(f"a part of an answer: {q}")
    if q["explained"] is not None and not (is_run and "--explain-image" in options):
        raise ValueError("an explanation that is not asked for")
    named = zip(o["words"], q["values"] or [], strict=is_run)
    told = [f"{name}={o['addresses'].get(value, value)}" for name, value in named]
    yield " ".join([q["name"], q["answer"], *told])
    if is_run and {"--show", "--explain-image"} & {*options}:
        yield f"steps {len(q['steps'])}"
        yield from q["steps"] if "--show" in options else []
        yield from explained({**o, **q}, q["values"] if q["place"] == "crash" else None)


def questions(o: Any, options: Sequence[str]) -> Lines:
    """The answers to the questions of a sheet."""
    good = [q["answer"] in ("holds", "found", "not asked") for q in o["questions"]]
    if o["holds"] != (bool(good) and all(good)):
        raise ValueError("whether all is good")
    if not o["questions"]:
        yield "nothing asked"
    for q in o["questions"]:
        yield from question(o, q, options)


def check(o: Any, options: Sequence[str]) -> Lines:
    if "questions" in o:
        yield from questions(o, options)
        return
    if not o["holds"]:
        if "--as-steps" not in options:
            if "--names" in options:
                yield "words" + "".join(f" {n}" for n in o["words"])
            yield f"{o['condition']} fails" + values(o["values"])
            yield f"steps {len(o['steps'])}"
        if "--show" in options or "--as-steps" in options:
            yield from o["steps"]
        yield from explained(o, o["values"] if o["condition"] == "all" else None)
        return
    if "--as-steps" in options:
        return
    for name in ("all", "ends", "recovered"):
        if o["conditions"][name] is not None:
            yield f"{name} {o['conditions'][name]}"
    yield f"states {o['states']}"
    yield f"ends {o['ends']}"
    if o["recovered_ends"] is not None:
        yield f"recovered ends {o['recovered_ends']}"
    for n in o["never_ran"]:
        yield f"never ran cpu {n['cpu']} {n['program']} {n['place']} {n['instruction']}"
    if o["images"] is not None:
        if "--names" in options:
            yield "words" + "".join(f" {n}" for n in o["words"])
        for i in o["images"]:
            yield "image" + values(i)
        yield f"images {len(o['images'])}"


def outcomes(o: Any, options: Sequence[str]) -> Lines:
    for e in o["outcomes"]:
        line = "outcome"
        for c in e["cpus"]:
            if c["trap"] is not None:
                line += f" {c['cpu']}:trap={c['trap']}"
            for r in REGISTERS:
                if r in c["registers"]:
                    line += f" {c['cpu']}:{r}={c['registers'][r]}"
        yield line + "".join(f" {name}={value}" for name, value in zip(o["words"], e["values"], strict=True))
    yield f"outcomes {len(o['outcomes'])}"


def tally(o: Any, options: Sequence[str]) -> Lines:
    if "--all" in options:
        yield f"broken {o['broken']} of {o['of']}"
        if o["first"] is not None:
            yield f"first {o['first']['number']} {o['first']['turn']}"
        return
    if {"--ends", "--recovered"} & set(options):
        yield f"broken {o['broken']} of {o['of']}"
        yield f"ended {o['ended']} of {o['of']}"
        if o["first"] is not None:
            if o["first"]["turn"] is not None:
                raise ValueError("a turn of an end")
            yield f"first {o['first']['number']}"
        return
    for e in o["outcomes"]:
        line = f"outcome {e['count']}"
        for c in e["cpus"]:
            for r in REGISTERS:
                if r in c["registers"]:
                    line += f" {c['cpu']}:{r}={c['registers'][r]}"
        yield line + "".join(f" {w['word']}={w['coherent']}/{w['persisted']}" for w in e["words"])


def hunt(o: Any, options: Sequence[str]) -> Lines:
    if (o["least"] is None) != (o["steps"] is None) or (o["turn"] is None) != (o["image"] is None and o["candidates"] is None):
        raise ValueError("a part of what was found")
    asked = [it for it in ("ends", "recovered") if f"--{it}" in options]
    if [o["ended"] is not None, o["of"] is not None] != [bool(asked) and o["least"] is None] * 2:
        raise ValueError("a count of ends")
    if "--as-steps" not in options:
        if o["ended"] == 0:
            yield f"{asked[0]} asked of no state"
        else:
            yield "none" if o["least"] is None else f"least {o['least']}"
        if o["ended"]:
            yield f"ended {o['ended']} of {o['of']}"
        if o["turn"] is not None:
            yield f"turn {o['turn']}"
        if o["image"] is not None:
            if "--names" in options:
                yield "words" + "".join(f" {n}" for n in o["words"])
            yield "image" + values(o["image"])
        if o["candidates"] is not None:
            yield f"candidates {o['candidates']}"
    if o["steps"] is not None and ("--show" in options or "--as-steps" in options):
        yield from o["steps"]
    yield from explained(o, o["image"])


NEEDS = {"needed": "needed", "left out": "not needed, left out", "kept": "not needed, kept", "not needed": "not needed"}


def need(e: Any) -> str:
    """What is said of a flush or a fence: with the run that shows it, if one does, or with the fault that is there in its place."""
    told = [e["condition"] is not None, e["values"] is not None, e["steps"] is not None]
    if told != [e["need"] in ("needed", "kept")] * 3 or (e["fault"] is None) != (e["need"] in NEEDS):
        raise ValueError("a part of what is told")
    return (NEEDS.get(e["need"]) or f"not known {e['fault']}") + weaker(e)


WEAKER = {"clflush": "clwb", "mfence": "sfence"}


def weaker(e: Any) -> str:
    """What is said of the weaker instruction in place of one that stays, if there is one: it has the operand of that one. That it does
    not is shown by a run, and not said in the text."""
    operation, *operand = e["instruction"].split(" ", 1)
    tried = operation in WEAKER and e["need"] not in ("left out", "not needed")
    told = e["weaker"]
    if told is None or not tried:
        if tried or told is not None:
            raise ValueError(f"{told} in place of {e['instruction']}")
        return ""
    shown = [told["condition"] is not None, told["values"] is not None, told["steps"] is not None]
    if told["instruction"] != " ".join([WEAKER[operation], *operand]) or shown != [told["said"] == "does not"] * 3:
        raise ValueError(f"{told} in place of {e['instruction']}")
    if (told["fault"] is None) == (told["said"] == "not known"):
        raise ValueError("a part of what is told of a weaker one")
    return {"does": f", {WEAKER[operation]} does", "does not": "", "not known": f", {WEAKER[operation]} not known {told['fault']}"}[told["said"]]


def no_more_can_go(o: Any) -> bool:
    """Whether it is told of each if it is needed, and each flush names its word by its address."""
    named = all(e["instruction"].split(" ", 1)[1][1:-1] in o["words"] for e in o["fences"] if " " in e["instruction"])
    return named and all(e["need"] != "not known" for e in o["fences"])


def fences(o: Any, options: Sequence[str]) -> Lines:
    if not o["holds"]:
        yield f"{o['condition']} fails" + values(o["values"])
        yield f"steps {len(o['steps'])}"
        return
    is_one = "--only" in options
    if (o["keep"] is None) != is_one or (o["of"] is None) != is_one:
        raise ValueError("it is told how many stay, or is not")
    for name in () if is_one else ("all", "ends", "recovered"):
        if o["conditions"][name] is not None:
            yield f"{name} {o['conditions'][name]}"
    for e in o["fences"]:
        site = e["site"]
        yield f"cpu {site['cpu']} {site['program']} {site['place']} {e['instruction']}: {need(e)}"
    if o["no_more_can_go"] != (None if is_one else no_more_can_go(o)):
        raise ValueError("it is told that no more can go, or is not")
    if o["least"] not in ([None] if is_one else [False, True] if o["no_more_can_go"] else [False]):
        raise ValueError(f"it is told of the least number: {o['least']}")
    if not is_one:
        yield f"keep {o['keep']} of {o['of']}" + (", least" if o["least"] else ", no more can go" if o["no_more_can_go"] else "")


def placed(r: Any) -> str:
    """An instruction that is put in, and where."""
    return f"{r['instruction']} {r['side']} {where(r['site'])}"


def moved(m: Any) -> str:
    """A store that is put elsewhere, and where."""
    return f"{where(m['store'])} {m['side']} {where(m['place'])}"


def mend(o: Any, options: Sequence[str]) -> Lines:
    kind = o["mend"]
    if kind != "moved" and (kind == "put") != bool(o["put"]) or (o["states"] is None) != (kind in ("none", "not known")):
        raise ValueError("a part of what is put in")
    if (kind == "moved") != (o["move"] is not None):
        raise ValueError("a part of a move")
    if kind == "moved":
        yield f"move {moved(o['move'])}"
    elif kind != "put":
        yield f"mend {kind}"
    for r in o["put"]:
        yield f"put {placed(r)}"
    for name in ("all", "ends", "recovered") if o["conditions"] is not None else ():
        if o["conditions"][name] is not None and (kind in ("put", "moved") or o["conditions"][name] == "asked of no state"):
            yield f"{name} {o['conditions'][name]}"
    if kind in ("put", "moved"):
        yield f"states {o['states']}"
        yield f"cost {o['cost']}"
    for e in o["open"]:
        yield f"open {', '.join(map(placed, e['put']))}: {e['fault']}"


def lines_of(text: bytes) -> list[dict[str, list[int]]]:
    """The lines of a text on which its instructions stand, of each processor those of its two programs."""
    if is_sheet(text):
        return program_of(text.decode()).told_lines or []
    processors, program = [], None
    for number, line in enumerate(text.decode("latin-1").split("\n"), 1):
        tokens = line.partition("#")[0].replace(":", " : ").split()
        if program is None and tokens[:1] == ["cpu"]:
            processors.append({"main": [], "recover": []})
            program = "main"
        elif tokens == ["recover"]:
            program = "recover"
        elif tokens == ["end"]:
            program = None
        elif program is not None and tokens and tokens[1:2] != [":"]:
            processors[-1][program].append(number)
    return processors


def line_at(lines: list[dict[str, list[int]]], site: Any) -> int | None:
    """The line of the instruction at a site, if there is one. An object file has no lines."""
    if not lines:
        return None
    of_program = lines[site["cpu"]][site["program"]]
    return of_program[site["place"]] if site["place"] < len(of_program) else None


def explained_sites(e: Any) -> Iterator[Any]:
    """Where the instructions are of what explains an image, if it is there."""
    if e is not None:
        told = [e["missing"], *(c["missing"] for c in e.get("crashes", []))]
        for m in (m for missing in told for m in missing or []):
            yield m["site"]
            yield from (it for it in (m["why"]["flush"], m["why"]["passed"], m["why"]["behind"]) if it is not None)


def sites(o: Any, state: Any) -> Iterator[tuple[Any, Any]]:
    """What names an instruction in an object, and where the instruction is. `state` is the one in which a run of the same
    steps ends."""
    for c in (c for it in (o, *o.get("replies", [])) for c in (it.get("state") or {}).get("cpus", [])):
        yield c, c
    for n in [*o.get("never_ran", []), *(it for part in (o, *o.get("questions", [])) for it in explained_sites(part.get("explained")))]:
        yield n, n
    for r in [*o.get("put", []), *(r for e in o.get("open", []) for r in e["put"])]:
        yield r["site"], r["site"]
    for e in o.get("fences", []):
        yield {**e["site"], "instruction": e["instruction"]}, e["site"]
    program = "main"
    for a in o["steps"] if o["command"] == "next" else []:
        kind, *numbers = a["step"].split()
        yield a, state["cpus"][int(numbers[0])] if kind == "exec" else None
    for a in o.get("steps", []) if o["command"] == "trace" else []:
        kind, *numbers = a["step"].split()
        if kind != "exec":
            yield a, None
        elif a["seen"] is not None:
            yield a, {"cpu": int(numbers[0]), "program": program, "place": a["seen"]["place"]}
        else:
            yield a, state["cpus"][int(numbers[0])] if int(numbers[0]) < len(state["cpus"]) else None
        if kind == "crash" and a["refused"] is None:
            program = "recover"


def cache_lines_of(text: bytes) -> dict[str, int]:
    """The number of the cache line of each word of a text."""
    if is_sheet(text):
        return {name: word // 8 for name, word in program_of(text.decode()).words.items()}
    rows = [line.partition("#")[0].split() for line in text.decode("latin-1").split("\n")]
    return {name: number for number, row in enumerate(row for row in rows if row[:1] == ["line"]) for name in row[1:]}


def states_in(o: Any) -> list[Any]:
    """The states of an object."""
    parts = [*(o.get("steps") or []), *o.get("replies", [])]
    return [it["state"] for it in (o, *(it for it in parts if isinstance(it, dict))) if it.get("state") is not None]


def check_lines(o: Any, text: bytes, state: Any) -> None:
    """The line of each instruction that an object names is that of the text; where it names none, there is no line. Each word of a
    state has the number of its cache line."""
    lines, written = lines_of(text), text.decode("latin-1").split("\n")
    numbers = cache_lines_of(text)
    for words in (it["words"] for it in states_in(o)):
        if numbers and {it["word"]: it["cache_line"] for it in words} != numbers:
            raise ValueError("a word on another cache line")
    for said, site in sites(o, state):
        line = None if site is None else line_at(lines, site)
        if said["line"] != line:
            raise ValueError(f"line {said['line']}, not {line}")
        instruction = said.get("instruction")
        if instruction is not None and lines and written[line - 1].split()[0] != instruction.split()[0]:
            raise ValueError(f"line {line} is not {instruction}")


REPORTS = {
    "run": run,
    "images": images,
    "law": law,
    "replay": replay,
    "trace": trace,
    "next": next_,
    "check": check,
    "outcomes": outcomes,
    "tally": tally,
    "hunt": hunt,
    "fences": fences,
    "mend": mend,
    "live": live,
    "debug": debug,
}


def object_of(line: str, command: str) -> Any:
    """The object of a line."""
    if not line.endswith("\n") or line.count("\n") != 1:
        raise ValueError("not one line")
    o = json.loads(line)
    if o["format"] != 1 or o["command"] != command:
        raise ValueError("another format or command")
    return o


def text_of(o: Any, options: Sequence[str]) -> str:
    """The text report of an object."""
    return "".join(part + "\n" for part in REPORTS[o["command"]](o, options))
