"""Asks the program as it is built for reports as JSON, for each worked row of tests/cases (their form is at the head of
tests/texts.py) and each report of examples/, with the guide and the gallery, whose command takes `--json`. The object has to be
read by Python, which knows nothing of the program, and to be the only line; the text report is made of it again (json_texts.py), and
compared to the byte with the one that the program writes without `--json`. So what is in one form is in the other.

The line of each instruction that an object names is looked for in the text, and the lines of the steps of a run that was found are
compared with those of `trace`. The states of `trace` are compared with those in which `run` ends, the sites of their entries with the
steps that executed them, and what `next` lists with what `run` and `trace` say of each step that there is, tried behind the given
ones. Of a script the steps are followed that were made, and its states and images compared with those of `run` and `images`. Of
three threads of `live` each made its steps, and `run` ends as their journal does. Of a fault the object on standard error
has its number, its name, its place and its sentence, and a refusal with which a run ends has the sentence of this fault.
"""

from __future__ import annotations

import glob
import json
import os
import re
import shlex
from collections.abc import Callable, Iterator, Sequence
from typing import Any

from model.rules import FIRST_ADDRESS
from model.sheets import program_of
from tests import json_texts as texts
from tests.harness import TOP, Case, Checks, Done, Px86, commands_of, read, unlike, with_needs, wrong_end
from tests.texts import FILES, rows_of_rows

AT_LEAST = {"": 7600}
NEEDS_PROGRAM = True
# The commands whose report may be JSON: each has to take `--json`, and each other one refuses it.
COMMANDS = "run trace next law debug images replay check outcomes tally hunt fences mend live".split()
# The lines that say how far explorations came.
COUNTS = re.compile(
    rb"\A(?:px86: [1-9]\d* states were found and \d+ explored, the last one \d+ steps from the start: none was seen to break what was "
    rb"asked of it\n)+"
)
STEP_WORDS = ("exec", "drain", "persist", "settle", "crash")


class Wrong(ValueError):
    """What is wrong with an object."""


class Asked:
    """A command on a text and steps."""

    def __init__(self, px86: Px86, words: Sequence[str], text: bytes, steps: bytes) -> None:
        self.px86, self.words, self.text, self.steps = px86, list(words), text, steps

    def ends(self, words: Sequence[str], steps: bytes, text: bytes | None = None) -> Done:
        """Runs the program with these words on the text, or on another one, and these steps; or a file of them, if it is called `steps`."""
        path = self.px86.keep("text", self.text if text is None else text)
        named = [self.px86.keep("steps", steps) if before == "--steps" else word for before, word in zip(["", *words], words)]
        return self.px86(*named, path, given=steps, most=300)

    def told(self, words: str, steps: bytes) -> Any:
        """The object of these words and `--json`."""
        command, *options = words.split()
        return texts.object_of(self.ends([command, *options, "--json"], steps).out, command)

    def state_after(self, steps: bytes) -> Any:
        """The state in which a run ends."""
        return self.told("run", steps)["state"]

    def behind(self, *steps: str) -> bytes:
        """The given steps, and these behind them."""
        return self.steps + b"\n" + "".join(f"{step}\n" for step in steps).encode()


# --- traces


def check_sites(told: Any) -> None:
    """Each entry of a state has the site of the instruction that executed it: it is followed step by step."""
    cache_lines = {it["word"]: it["cache_line"] for it in told["state"]["words"]}
    buffers: list[list[Any]] = [[] for _ in told["state"]["cpus"]]
    pending: list[Any] = []
    program = "main"
    for a in (it for it in told["steps"] if it["refused"] is None):
        seen = a["seen"]
        kind = seen["kind"]
        if kind == "ran":
            site = {"cpu": seen["cpu"], "program": program, "place": seen["place"], "line": a["line"]}
            act = seen["act"]
            if act["kind"] == "delay":
                buffers[seen["cpu"]].append({**act["entry"], "site": site})
            elif act["kind"] == "locked" and act["new"] is not None:
                pending.append({"kind": "W", "word": act["word"], "value": act["new"], "site": site})
        elif kind == "left":
            left = buffers[seen["cpu"]].pop(seen["place"])
            if left["kind"] != "SF":
                pending.append(left if left["kind"] == "W" else {**left, "kind": "PER"})
        elif kind == "persisted":
            written = cache_lines[seen["word"]]
            del pending[next(i for i, e in enumerate(pending) if e["kind"] == "W" and cache_lines[e["word"]] == written)]
        elif kind == "settled":
            del pending[next(i for i, e in enumerate(pending) if e["kind"] == "PER")]
        else:
            buffers, pending, program = [[] for _ in buffers], [], "recover"
        if [it["buffer"] for it in a["state"]["cpus"]] != buffers or a["state"]["pending"] != pending:
            raise Wrong("an entry of another instruction")


def check_trace(it: Asked, said: Any) -> None:
    """With `--states` `trace` has the state before the first step, and after each that is accepted another, the last of which is that in
    which `run` ends. (Each beginning of the steps of an example is asked about.) Without them it has the same."""
    told = it.told("trace --states", it.steps)
    if {**told, "state": None, "steps": [{**step, "state": None} for step in told["steps"]]} != said:
        raise Wrong("other steps without states")
    last = it.state_after(it.steps)
    texts.check_lines(told, it.text, last)
    check_sites(told)
    if any((step["state"] is None) != (step["refused"] is not None) for step in told["steps"]):
        raise Wrong("a state that is missing, or none is meant")
    states = [told["state"], *(step["state"] for step in told["steps"] if step["refused"] is None)]
    turns = [state["turns"] for state in states]
    if states[0] != it.state_after(b"") or states[-1] != last or turns != list(range(len(states))):
        raise Wrong("not the states of `run`")


# --- what may come next


def traced_behind(it: Asked, step: str) -> Any:
    """What `trace` has of a step behind given ones that are accepted: without its place."""
    attempt = it.told("trace", it.behind(step))["steps"][-1]
    del attempt["at"]
    return attempt


def possible_steps(it: Asked) -> Iterator[tuple[str, Any]]:
    """The steps that name what is there, in their order, each with how a run ends that makes it behind the given ones. How many
    cache lines there are, the runs say."""
    state = it.state_after(it.steps)
    steps = [f"exec {c['cpu']}" for c in state["cpus"]]
    steps += [f"drain {c['cpu']} {i}" for c in state["cpus"] for i in range(len(c["buffer"]))]
    for step in steps:
        yield step, it.told("run", it.behind(step))
    for line in range(65):
        ended = it.told("run", it.behind(f"persist {line}"))
        if ended["refused"] is not None and ended["refused"]["name"] == "NoLine":
            break
        yield f"persist {line}", ended
    for step in "settle", "crash":
        yield step, it.told("run", it.behind(step))


def check_next(it: Asked, said: Any) -> None:
    """With `--refused` and `--states` `next` has each step that there is: what `trace` says of it, and the state in which `run`
    ends, or that it is refused. Without either it has the same, or the accepted ones."""
    done = it.ends(["next", "--refused", "--states", "--json"], it.steps)
    steps = texts.object_of(done.out, "next")["steps"]
    is_end = all(step["step"] == "crash" for step in steps if step["refused"] is None)
    if done.status != int(is_end):
        raise Wrong(f"status {done.status}")
    listed = [step for step in steps if step["refused"] is None or "--refused" in it.words]
    if [{**step, "state": None} for step in listed] != said["steps"]:
        raise Wrong("other steps without the refused ones, or without states")
    # Once for the two cases of a state.
    if "--refused" in it.words:
        wanted = [
            {**traced_behind(it, step), "state": ended["state"] if ended["refused"] is None else None} for step, ended in possible_steps(it)
        ]
        if steps != wanted:
            raise Wrong("not the steps that `run` accepts or refuses")


# --- scripts


class Script:
    """A script that is followed: the steps that were made, those that a halt left, those since the last go, and the watches."""

    def __init__(self, it: Asked) -> None:
        self.it = it
        self.history: list[str] = []
        self.rest: list[str] = []
        self.gathered: list[str] = []
        self.watches: list[int] = []

    def hear(self, row: list[str]) -> bool:
        """Takes a row that has no reply; whether it is one."""
        if row[0] == "watch":
            self.watches.append(int(row[1]))
        elif row[0] in STEP_WORDS:
            self.gathered.append(" ".join(row))
        return row[0] in ("stop", "watch", *STEP_WORDS)

    def check(self, row: list[str], told: Any) -> None:
        """The reply of a row."""
        if told["kind"] != row[0]:
            raise Wrong(f"{told['kind']} for {row[0]}")
        if row[0] in ("go", "continue"):
            self.goes(row[0], told)
        elif row[0] == "back":
            self.goes_back(int(row[1]), told)
        elif row[0] in ("show", "images"):
            self.shows(row[0], told)
        elif row[0] == "values":
            given = [(name, int(value, 0) % 2**64) for name, value in (word.split("=") for word in row[2:])]
            if told["word"] != row[1] or [(value["word"], value["value"]) for value in told["given"]] != given:
                raise Wrong(f"values of {told['word']}, {told['given']}")
        elif row[0] in ("disarm", "detach") and told["id"] != int(row[1]):
            raise Wrong("another id")
        if row[0] == "detach" and told["fault"] is None:
            self.watches.remove(told["id"])

    def goes(self, word: str, told: Any) -> None:
        steps = self.gathered if word == "go" else self.rest + self.gathered
        if told["halt"] == "end" and told["made"] != len(steps):
            raise Wrong("an end before the last step")
        self.history += steps[: told["made"]]
        self.rest, self.gathered = steps[told["made"] + (told["halt"] == "refused") :], []

    def goes_back(self, count: int, told: Any) -> None:
        if told["steps"] != count or (told["fault"] is None) != (count <= len(self.history)):
            raise Wrong("back by another number of steps")
        if told["fault"] is None:
            self.history = self.history[: len(self.history) - count]

    def shows(self, word: str, told: Any) -> None:
        given = "".join(f"{step}\n" for step in self.history).encode()
        if word == "show" and told["state"] != self.it.state_after(given):
            raise Wrong("not the state of `run`")
        if word == "images" and told["images"] is not None:
            listed = self.it.told("images", given)
            if any(told[part] != listed[part] for part in ("candidates", "words", "images")):
                raise Wrong("not the images of `images`")


def check_replies(it: Asked, said: Any) -> None:
    """There is a reply for each command of the script but for its steps, in order, and then one for each watch that is attached. What
    is told of halts says which steps were made; a state is that in which `run` ends behind them, and images are those of `images`."""
    replies, script = iter(said["replies"]), Script(it)
    for row in (line.partition(b"#")[0].decode("latin-1").split() for line in it.steps.split(b"\n")):
        if row and not script.hear(row):
            script.check(row, next(replies))
    if [(reply["kind"], reply["id"]) for reply in replies] != [("watch", number) for number in script.watches]:
        raise Wrong("other watches")


# --- runs, images and steps


def check_sentence(it: Asked, said: Any) -> None:
    """The refusal with which a run ends has the sentence that it has as the fault of a command that ends with it."""
    refused = said["refused"]
    if refused is not None:
        fault = json.loads(it.ends(["images", "--count", "--json"], it.steps).said)["fault"]
        if [refused[part] for part in ("number", "sentence")] != [fault[part] for part in ("number", "sentence")]:
            raise Wrong(f"{refused['number']} has another sentence as a fault")


def condition_of(words: Sequence[str], name: str) -> str:
    """The text of a condition."""
    return next(word for option, word in zip(words, words[1:]) if option == f"--{name}")


def check_each_image(it: Asked, said: Any) -> None:
    """Of each image the condition is asked alone: `--some` finds it, if it keeps the condition. (Of more than 8 it is not asked.)"""
    if said.get("all") is None or said["images"] is None or len(said["images"]) > 8:
        return
    for place, image in enumerate(said["images"]):
        is_it = "".join(f" and persisted {name} = {value}" for name, value in zip(said["words"], image, strict=True))
        found = it.ends(["images", "--count", "--some", f"( {condition_of(it.words, 'all')} ){is_it}"], it.steps)
        if found.status != int(place in said["all"]["broken"]):
            raise Wrong(f"image {place} breaks the condition or not: {found.out} {found.err}")


def lines_traced(it: Asked, steps: list[str], given: bytes) -> list[int | None]:
    """The lines of the steps of a report, behind the given ones: `trace` has them too."""
    traced = it.told("trace", given + b"".join(b"\n" + step.encode() for step in steps) + b"\n")
    texts.check_lines(traced, it.text, None)
    tried = [step for step in traced["steps"] if step["refused"] is None]
    last = tried[len(tried) - len(steps) :]
    if [step["step"] for step in last] != steps:
        raise Wrong("the steps are refused")
    return [step["line"] for step in last]


def check_steps(it: Asked, said: Any) -> None:
    """Each step of a run that was found has the line of its instruction. `fences` reads no steps."""
    steps = said.get("steps")
    lines = None if steps is None else lines_traced(it, steps, b"" if said["command"] == "fences" else it.steps)
    if said["lines"] != lines:
        raise Wrong(f"lines {said['lines']} of steps, not {lines}")


def has_found(said: Any) -> bool:
    """Whether an object is of a hunt, or of a check that fails, also that of `fences`."""
    return said["command"] == "hunt" or said["command"] in ("check", "fences") and not said["holds"]


# --- flushes and fences that are needed


def replaced(text: bytes, site: Any, instruction: str) -> bytes:
    """A text in which this instruction stands in the place of that at a site."""
    lines = text.split(b"\n")
    lines[site["line"] - 1] = instruction.encode()
    return b"\n".join(lines)


def without(text: bytes, sites: Sequence[Any]) -> bytes:
    """A text in which a `nop` stands in the place of each of these instructions."""
    for site in sites:
        text = replaced(text, site, "nop")
    return text


def check_shown(it: Asked, shown: Any, site: Any, changed: bytes) -> None:
    """The steps that show what is said of a changed program are accepted in it, and in the state behind them the condition is false
    for the values that are told."""
    steps = "".join(f"{step}\n" for step in shown["steps"]).encode()
    told = it.ends(["images", "--count", "--all", condition_of(it.words, shown["condition"])], steps, changed)
    if told.status != 1 or told.out.splitlines()[-1] != "all fails" + texts.values(shown["values"]):
        raise Wrong(f"the steps of {site} show {told.out} {told.err}")


def check_needs(it: Asked, said: Any) -> None:
    """What the steps show that are told of flushes and fences: of each without it, and without those before it that are left out, if
    it is kept; and of each with its weaker one, without all that are left out, and with those before it that do."""
    left_out = []
    for e in said["fences"]:
        if e["need"] == "left out":
            left_out.append(e["site"])
        if e["steps"] is not None:
            check_shown(it, e, e["site"], without(it.text, [*(left_out if e["need"] == "kept" else []), e["site"]]))
    text = it.text if "--only" in it.words else without(it.text, left_out)
    for e in said["fences"]:
        weaker = e["weaker"]
        if weaker is not None:
            changed = replaced(text, e["site"], weaker["instruction"])
            if weaker["steps"] is not None:
                check_shown(it, weaker, e["site"], changed)
            if weaker["said"] == "does":
                text = changed


def addresses_of(text: bytes) -> dict[int, str]:
    """What is told in the place of each address of a word of a sheet."""
    return {FIRST_ADDRESS + 8 * word: f"&{name}" for name, word in program_of(text.decode()).words.items()}


# --- what is asked of each case

# What is asked of a command's object, beside its text.
CHECKS: dict[str, Callable[[Asked, Any], None]] = {
    "run": check_sentence,
    "debug": check_replies,
    "images": check_each_image,
    "next": check_next,
    "trace": check_trace,
}


def rebuilt(it: Asked, line: str) -> str:
    """The text of the object in this line, of which all else is asked."""
    command = it.words[0]
    said = texts.object_of(line, command)
    if "questions" in said:
        given = it.steps if "--steps" in it.words else b""
        said["addresses"] = addresses_of(it.text) if said["questions"] else {}
        for q in (q for q in said["questions"] if q["steps"] is not None):
            if q["lines"] != lines_traced(it, q["steps"], given):
                raise Wrong(f"lines {q['lines']} of the steps of {q['name']}")
    if "set" in said:
        # The object of a set has no words: whoever asks has them.
        said["words"] = [word["word"] for word in it.state_after(it.steps)["words"]]
    text = texts.text_of(said, it.words)
    texts.check_lines(said, it.text, it.state_after(it.steps) if command in ("next", "trace") else None)
    if command in CHECKS:
        CHECKS[command](it, said)
    if has_found(said) and "questions" not in said:
        check_steps(it, said)
    if command == "fences" and said["holds"]:
        check_needs(it, said)
    return text


def wrong_object(it: Asked, plain: Done, told: Done) -> str:
    """What is wrong with an object, beside the report without `--json`."""
    try:
        text = rebuilt(it, told.out)
    except Exception as error:  # whatever is wrong with it, it is no such object
        return f"{type(error).__name__} {error}"
    # How many moves were tried of which none helps, the text alone says.
    return unlike(text.encode(), re.sub(rb"^moves \d+, none helps\n", b"", plain.written, flags=re.M))


def fault_told(said: bytes) -> tuple[bool, bytes]:
    """Whether standard error begins with lines that say how far explorations came, and what is behind them."""
    rest = COUNTS.sub(b"", said)
    return rest != said, rest


def wrong_fault(plain: Done, told: Done) -> str:
    """What is wrong with the object of a fault, beside its line."""
    (is_counted, line), (is_counted_too, line_of_object) = fault_told(plain.said), fault_told(told.said)
    try:
        fault = json.loads(line_of_object)["fault"]
        said = " ".join(fault[part] for part in ("number", "name", "place") if fault[part] is not None)
    except Exception as error:  # the same
        return f"{type(error).__name__} {error}"
    wrong = unlike(f"px86: {said}\n".encode(), line) or unlike([is_counted, is_counted_too], [fault["number"] == "R1"] * 2)
    is_sentence = re.match(re.escape(fault["number"]) + "[ :]", fault["sentence"]) and fault["sentence"].endswith(".")
    return wrong or ("" if is_sentence else f"no sentence of {fault['number']}: {fault['sentence']}")


def asked(px86: Px86, words: Sequence[str], text: bytes, steps: bytes) -> Checks:
    """A report as JSON says what the report says."""
    it = Asked(px86, words, text, steps)
    plain, told = it.ends(words, steps), it.ends([*words, "--json"], steps)
    wrong = unlike(told.status, plain.status)
    if plain.said:
        yield "", wrong or unlike(told.out, "") or wrong_fault(plain, told)
    else:
        yield "", wrong or unlike(told.err, "") or wrong_object(it, plain, told)


def of_object(px86: Px86, path: str, steps: bytes) -> Checks:
    """The reports on an object file: but for the lines they are those on its text."""
    assembled = px86.keep("object", px86("asm", path).written)
    wrong = ""
    for command in "run", "trace":
        told = [px86(command, "--json", file, given=steps).written for file in (path, assembled)]
        of_text, of_object = (re.sub(rb'"line":(null|[0-9]+)', b'"line":null', line) for line in told)
        if of_text != of_object or of_object != told[1] or b'"line":' not in of_object:
            wrong += f"{command} of its object "
    yield "", wrong


def unsited(state: Any) -> Any:
    """A state of which no instruction is kept that an entry is of."""
    for entry in [*state["pending"], *(entry for c in state["cpus"] for entry in c["buffer"])]:
        entry["site"] = None
    return state


def of_threads(px86: Px86, path: str, given: bytes) -> Checks:
    """The journal of three threads: each made its steps in their order, and those that were accepted lead `run` to the state that it
    left."""
    rows = [" ".join(line.partition("#")[0].split()) for line in given.decode().split("\n")]
    steps = [step for step in rows if step]
    done = px86("live", "--json", "--threads", "3", path, given="".join(f"{step}\n" for step in steps))
    said = texts.object_of(done.out, "live")
    journal = said["journal"]
    seats = [[e["step"] for e in journal if e["seat"] == seat] for seat in range(3)]
    accepted = "".join(e["step"] + "\n" for e in journal if e["refused"] is None)
    ran = texts.object_of(px86("run", "--json", path, given=accepted).out, "run")
    wrong = wrong_end(done, 0) or unlike(len(journal), len(steps)) or unlike(seats, [steps[seat::3] for seat in range(3)])
    yield "", wrong or ("" if ran["refused"] is None and unsited(ran["state"]) == said["state"] else "another state")


# --- faults of words, and explanations


def is_fault(px86: Px86, status: int, number: str, *words: str) -> Checks:
    """Words that are not understood, or a file that is not there."""
    done = px86(*words, cwd=px86.folder)
    fault = json.loads(done.said)["fault"]
    yield "", unlike((done.status, done.out, fault["number"], fault["sentence"].startswith(f"{number}:")), (status, "", number, True))


def explained(px86: Px86, *words: str) -> Checks:
    """What --explain adds with --json is what it adds without, and stands in the object: nothing is behind that."""
    px86.keep("asked.litmus", "litmus 1\nline x\ncpu\nmov [x], 1\nend\n")
    px86.keep("broken.litmus", "litmus 1\nline x\ncpu\nmvo [x], 1\nend\n")
    lines, told = (px86(*words, "--explain", *more, given="drain 0 0\n", cwd=px86.folder) for more in ([], ["--json"]))
    said = json.loads(told.said)
    found, wanted = (said["fault"]["explanation"], lines.err.partition("\n")[2]) if "fault" in said else (said["explanation"], lines.err)
    yield "", unlike(found, wanted) if wanted else "nothing is explained"


SHEET = "sheet 1\nline x y\ncpu\nmov [x], 1\nend\nevery crash ok: persisted x = 0 -> persisted y = 0\n"
# The line that is changed, how, and `line`, `column`, `length` and `hint`; all counted here by hand.
POSITIONS = {
    "a word of a litmus text": ("litmus 1\nline x\ncpu\nmvo [x], 1\nend\n", (4, 1, 3, "perhaps `mov` is meant.")),
    "a comma that is missing at the end": ("litmus 1\nline x\ncpu\n  mov [x]\nend\n", (4, 10, 0, "a word is out of place, missing or extra, or no instruction, register or line has this name.")),
    "a word of a sheet": (SHEET.replace("mov [x]", "mov [z]"), (4, 6, 1, "no line before this one gives a word or a constant of this name, and no register has it; in a question, no `let` or question before it has it, or the program has no processor of this number.")),
    "a token of a question": (SHEET.replace("= 0 ->", "== 0 ->"), (6, 29, 2, "equality is `=`.")),
    "a question that ends too soon": (SHEET.replace("-> persisted y = 0", "->"), (6, 35, 0, "the condition ends too soon: each side of a test has its value, each `and`, `or`, `not` and `->` a condition behind it, and each `(` and `[` its end.")),
    "an abbreviation of which no token is known": (SHEET.replace("line x y", "line x y\ninit y 1 2"), (3, 1, 10, "a value is given to a word, or one to each of several in order: no word is left for one of these.")),
}


def has_position(px86: Px86, text: str, wanted: tuple[int, int, int, str]) -> Checks:
    """With --explain the object of a fault of a text says where it is, and without not."""
    px86.keep("wrong.litmus", text)
    for words in ["run", "--no-steps"], ["check"]:
        plain, told = (json.loads(px86(*words, "--json", *more, "wrong.litmus", cwd=px86.folder).said)["fault"] for more in ([], ["--explain"]))
        yield words[0], unlike(tuple(told[it] for it in ("line", "column", "length", "hint")), wanted)
        yield f"{words[0]}, not explained", unlike({*told} - {*plain}, {"line", "column", "length", "hint"})


def has_no_position(px86: Px86) -> Checks:
    """A fault of a condition is in no text of a program."""
    px86.keep("asked.litmus", "litmus 1\nline x\ncpu\nmov [x], 1\nend\n")
    fault = json.loads(px86("check", "--all", "persisted x == 1", "--json", "--explain", "asked.litmus", cwd=px86.folder).said)["fault"]
    yield "", unlike("line" in fault or fault["explanation"] is None, False)


NO_WORD = "a word is out of place, missing or extra, or no instruction, register or line has this name."
NO_NAME = "no line before this one gives a word of this name, and no register has it."
NO_LABEL = "this program has no such label: main and recovery have labels of their own."
# A text, and of each of its faults that is told the line, the column, the length, the fault and the hint; all counted here by hand.
SEVERAL = {
    "instructions, a jump, and an initial value": (
        "litmus 1\nline x y\ninit q 5\ncpu\n  mvo [y], 2\n  mov [z], 3\n  l:\n  mov rax [y]\n  jmp nowhere\nend\n",
        [(3, 6, 1, "X2 UnknownName", NO_NAME), (5, 3, 3, "X1 BadWord", "perhaps `mov` is meant."), (6, 8, 1, "X2 UnknownName", NO_NAME),
         (8, 11, 1, "X1 BadWord", NO_WORD), (9, 7, 7, "X4 BadLabel", NO_LABEL)],
    ),
    "one alone": ("litmus 1\nline x\ncpu\nmvo [x], 1\nend\n", [(4, 1, 3, "X1 BadWord", "perhaps `mov` is meant.")]),
    "none behind a line that names words": ("litmus 1\nline x 9y\ncpu\nmvo [x], 1\nend\n", [(2, 8, 2, "X8 L4 BadName", "a name begins with a lower case letter.")]),
    "none behind the end of a processor, by a slip": (
        "litmus 1\nline x\ncpu\nedn\ncpu\nmvo [x], 1\nend\n", [(4, 1, 3, "X1 BadWord", "perhaps `end` is meant.")]
    ),
    "an instruction of a sheet, and then a question": (
        SHEET.replace("mov [x]", "mvo [x]").replace("= 0 ->", "== 0 ->"),
        [(4, 1, 3, "X1 BadWord", "perhaps `mov` is meant."), (6, 29, 2, "X11 BadCond", "equality is `=`.")],
    ),
    "at most 20": ("litmus 1\nline x\ncpu\n" + "mvo [x], 1\n" * 30 + "end\n", [(4 + at, 1, 3, "X1 BadWord", "perhaps `mov` is meant.") for at in range(20)]),
}


def has_several(px86: Px86, text: str, wanted: list[tuple[int, int, int, str, str]]) -> Checks:
    """What is told of the faults of a text, as JSON and as compilers do."""
    px86.keep("several.litmus", text)
    fault = json.loads(px86("run", "--no-steps", "--json", "--explain", "several.litmus", cwd=px86.folder).said)["fault"]
    told = [fault, *fault.get("further", [])]
    found = [(it["line"], it["column"], it["length"], it["hint"]) for it in told]
    yield "as JSON", unlike(found, [(line, column, length, hint) for line, column, length, _, hint in wanted])
    named = [f"{it['number']} {it['name']}" for it in told]
    # The name of X8 is that of its fault of a line, without the word for this.
    yield "their names", unlike(named, [" ".join(what.split()[:2]) for *_, what, _ in wanted])
    yield "those behind it are there where there are some", unlike("further" in fault, 1 < len(wanted))
    lines = "".join(f"several.litmus:{line}:{column}: error: {what}: {hint}\n" for line, column, _, what, hint in wanted)
    for more in [], ["--explain"]:
        done = px86("run", "--no-steps", "--format", "gcc", *more, "several.litmus", cwd=px86.folder)
        yield f"as compilers do {more}", unlike((done.status, done.out, done.err), (2, "", lines))
    plain = json.loads(px86("run", "--no-steps", "--json", "several.litmus", cwd=px86.folder).said)["fault"]
    yield "not explained", unlike("further" in plain, False)


def takes_format(px86: Px86) -> Checks:
    """The form of compilers is taken by each command; of what is no fault of the text it changes nothing, and no other form is taken."""
    px86.keep("good.litmus", "litmus 1\nline x\ncpu\nmov [x], 1\nend\n")
    for name in sorted(commands_of(px86)):
        for given in ["--format", "gcc"], ["--format=gcc"]:
            words = [*with_needs(name).split(), *given]
            done = px86(*words, "nothing.litmus", cwd=px86.folder)
            yield f"{name} {given[0]}", unlike((done.status, done.out, done.err), (3, "", "px86: F1 ReadFailed\n"))
        for wrong in ["--format", "cc"], ["--format", ""], ["--format", "gcc", "--format", "gcc"]:
            done = px86(*with_needs(name).split(), *wrong, "good.litmus", given="", cwd=px86.folder)
            yield f"{name} {wrong}", unlike((done.status, done.out, done.err), (2, "", "px86: usage\n"))
    both = px86("run", "--json", "--format", "gcc", "good.litmus", given="", cwd=px86.folder)
    yield "beside JSON", unlike((both.status, both.out, json.loads(both.said)["fault"]["number"]), (2, "", "usage"))
    steps = "exec 0\ndrain 0 1\n"
    plain, told = (px86("run", *more, "good.litmus", given=steps, cwd=px86.folder) for more in ([], ["--format", "gcc"]))
    yield "a report", unlike((told.status, told.out, told.err), (plain.status, plain.out, plain.err))
    plain, told = (px86("images", *more, "--explain", "good.litmus", given=steps, cwd=px86.folder) for more in ([], ["--format", "gcc"]))
    yield "a refused step", unlike((told.status, told.out, told.err), (plain.status, plain.out, plain.err))


def commands_have_it(px86: Px86) -> Checks:
    """Each command that takes `--json` is asked here, and each other one refuses it."""
    yield "the commands that take it", unlike(sorted(commands_of(px86, " --json ")), sorted(COMMANDS))
    for name in sorted(set(commands_of(px86)) - set(COMMANDS)):
        [(_, wrong)] = is_fault(px86, 2, "usage", *with_needs(name).split(), "--json", "nothing.litmus")
        yield f"{name} has no JSON", wrong


FAULTS = {
    "no file": (3, "F1", "run", "--json", "nothing.litmus"),
    "words that are not understood": (2, "usage", "run", "--json", "--steps"),
    "no command": (2, "usage", "frob", "--json"),
    "a flag with a value": (2, "usage", "next", "--json", "--states=1", "nothing.litmus"),
    "twice": (2, "usage", "run", "--json", "--json", "nothing.litmus"),
    "a conversation": (2, "usage", "debug", "--interactive", "--json", "asked.litmus"),
}
EXPLAINED = {
    "no file": ("run", "nothing.litmus"),
    "a word of a text": ("run", "broken.litmus"),
    "a condition": ("check", "--no-steps", "--all", "persisted x == 1", "asked.litmus"),
    "a step that ends a command": ("images", "asked.litmus"),
    "a step that ends a run": ("run", "asked.litmus"),
    "a processor that is not there": ("check", "--no-steps", "--all", "not reg 1 rax = 1", "asked.litmus"),
}

# --- cases

Given = Iterator[tuple[str, list[str], bytes, bytes]]


def worked_rows() -> Given:
    """The commands of the rows, with their text and their steps. What is put in is written as a text beside an object that names it."""
    for name in (it for it in FILES if it.endswith(".rows")):
        for row in rows_of_rows(name):
            words = list(row.command)
            if row.asks != "written" and words[0] in COMMANDS and not {"--json", "--as-text"} & set(words):
                yield f"{name}: {row.name}", words, row.text, row.steps


def example_files(kind: str) -> Iterator[tuple[str, str]]:
    """The files of a kind in examples/ and the folders of the guide and of the gallery, by their names in examples/."""
    for path in sorted(glob.glob(f"{TOP}/examples/**/*.{kind}", recursive=True)):
        name = os.path.relpath(path, f"{TOP}/examples")
        if not name.startswith(("recorded/", "many-machines/")):
            yield name, path


def bytes_of(path: str) -> bytes:
    """The bytes of a file; none where there is no such file."""
    if not os.path.exists(path):
        return b""
    with open(path, "rb") as file:
        return file.read()


def shows_of(name: str, words: list[str]) -> list[list[str]]:
    """What else is asked for beside these words. The gallery is large: there it is all at once."""
    if words[0] not in ("check", "hunt"):
        return [[]]
    if not {"--all", "--ends", "--recovered", "--cond"} & {*words}:
        return [[], ["--show", "--explain-image"], ["--explain-image"]]
    if "/" in name:
        return [[it for it in ("--show", "--names") if it not in words]]
    return [it for it in ([], ["--show"], ["--names"], ["--as-steps"]) if not set(it) & set(words)]


def example_words() -> Given:
    """The commands of the examples that explore every run, or run schedules: at most 1,000 of these."""
    for kind in "check", "asked", "outcomes", "replay", "tally", "hunt", "fences", "mend":
        for name, path in example_files(kind):
            words = shlex.split(read(path).partition("\n")[0])[1:]
            if words[0] not in COMMANDS:
                continue
            text = bytes_of(f"{os.path.dirname(path)}/{words.pop()}")
            if "--runs" in words:
                runs = words.index("--runs") + 1
                words[runs] = str(min(1000, int(words[runs])))
            for option in shows_of(name, words):
                yield f"{name} {option}", [*words, *option], text, b""


def examples() -> Given:
    """`run`, `images`, `next`, `trace` and `law` of the examples, after each beginning of their steps; `images` with its options, too."""
    more = {"next": ("refused", "--refused"), "images": ("names", "--names")}
    for name, path in example_files("litmus"):
        stem = path.removesuffix(".litmus")
        text, steps = bytes_of(path), bytes_of(f"{stem}.steps")
        lists = [b""] + [b"".join(steps.splitlines(True)[: n + 1]) for n in range(steps.count(b"\n"))]
        for command in "images", "law", "next", "run", "trace":
            for number, given in enumerate(lists):
                yield f"{name}: {command} {number}", [command], text, given
                if command in more:
                    yield f"{name}: {more[command][0]} {number}", [command, more[command][1]], text, given
        if os.path.exists(f"{stem}.script"):
            yield f"{name}: debug", ["debug"], text, bytes_of(f"{stem}.script")
        # With one thread there is one journal.
        yield f"{name}: live", ["live", "--threads", "1"], text, steps
        if os.path.exists(f"{stem}.options"):
            yield f"{name}: its options", ["images", *shlex.split(read(f"{stem}.options"))], text, steps


def cases() -> Iterator[Case]:
    """All cases."""
    for given in worked_rows, examples, example_words:
        yield from (Case(name, asked, *it) for name, *it in given())
    for name, path in example_files("litmus"):
        steps = path.removesuffix(".litmus") + ".steps"
        if os.path.exists(steps):
            yield Case(f"{name}: its object", of_object, path, bytes_of(steps))
            yield Case(f"{name}: three threads", of_threads, path, bytes_of(steps))
    yield from (Case(f"{name}, explained", explained, *words) for name, words in EXPLAINED.items())
    yield from (Case(name, is_fault, *given) for name, given in FAULTS.items())
    yield from (Case(f"where a fault is: {name}", has_position, *given) for name, given in POSITIONS.items())
    yield Case("where the fault of a condition is", has_no_position)
    yield from (Case(f"several faults: {name}", has_several, *given) for name, given in SEVERAL.items())
    yield Case("the form of compilers", takes_format)
    yield Case("commands", commands_have_it)
