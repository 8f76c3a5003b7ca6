"""The built program beside the model, on random programs."""

from __future__ import annotations

import argparse
import collections
import contextlib
import io
import multiprocessing
import os
import re
import subprocess
import sys
import tempfile
from argparse import Namespace
from collections.abc import Callable, Collection, Iterable, Iterator, Mapping

from model.commands import hunt, hunt_report, images, listing_of, next_, replay, tally, trace
from model.conditions import Condition
from model.effects import LooseMachine, shown_by, told_of
from model.explanations import explained_image, kinds_explained, lines_with, told_alone
from model.images import candidates_of, closed_sets_of, images_of, named_images_of, set_text, values_lines, values_of
from model.machine import Machine, make_all
from model.programs import SHAPES, append_lines, order_condition, program_lines, random_condition, values_condition
from model.rules import Image, Step
from model.schedules import words_of
from model.texts import Program, step_text, steps_of

ACTING = [shape for shape in re.split(r"; |\n", SHAPES) if "W" in shape or "fence" in shape]

# The same with more stores.
STORING = ACTING + ["mov [W], N"] * 6

# What stands in front of some programs, and the steps that make it: a line's writes, the markers and the store buffer
# are full, or have room for few.
FULL = [
    (["mov [a0] , 1"] * 256, [("exec", 0), ("drain", 0, 0)] * 256),
    (["mov [a0] , 1"] * 254, [("exec", 0), ("drain", 0, 0)] * 254),
    (["clflushopt [a0]"] * 256, [("exec", 0), ("drain", 0, 0)] * 256),
    (["clflush [a0]"] * 254, [("exec", 0), ("drain", 0, 0)] * 254),
    (["clwb [a0]"] * 120, [("exec", 0)] * 120),
    (["mov [a0] , 1"] * 120, [("exec", 0)] * 120),
    # Behind a full line, and full markers, an entry is held that would find no room.
    (["mov [a0] , 1"] * 256 + ["sfence", "mov [a0] , 2"], [("exec", 0), ("drain", 0, 0)] * 256 + [("exec", 0)] * 2),
    (["clwb [a0]"] * 256 + ["sfence", "clwb [a0]"], [("exec", 0), ("drain", 0, 0)] * 256 + [("exec", 0)] * 2),
]

# How many lists, states and listings are asked for where no option says so, and how often each kind of answer has to come
# of them.
LISTS, LISTS_BEHIND_FULL, STATES, LISTINGS, COMMANDS, HUNTS = 10000, 300, 300, 300, 150, 300
AT_LEAST = {
    "broken, M4": 1000,
    "broken, M7": 500,
    "none, M4 and then M8": 2,
    "none, M7 and then M8": 3,
    "none, M7 and then M9": 3,
    "none, accepted": 1000,
    "none, refused otherwise": 1000,
    "set": 400,
    "no set": 400,
    "explained": 250,
    "nothing missing": 100,
    "missing, as it is buffered": 20,
    "missing, as it is buffered behind a store of its line": 2,
    "missing, as its flush is pending": 10,
    "missing, as its flush is buffered": 2,
    "missing, as its flush was before it": 10,
    "missing, as it was never flushed": 10,
    "values": 500,
    "values, none": 300,
    "values, one": 300,
    "values, more": 300,
    "images, met": 60,
    "images, not met": 60,
    "images, one candidate": 20,
    "images, refused": 20,
    "trace": 20,
    "trace, refused": 20,
    "next": 40,
    "next, refused": 40,
    "hunt of crashes, 0": 20,
    "hunt of crashes, 1": 20,
    "lazy hunt, 0": 20,
    "lazy hunt, 1": 20,
    "hunt that explains": 20,
    "hunt that explains, behind steps": 10,
    "hunt that explains nothing": 50,
}

LISTS_OF_A_PROGRAM = 10
PENDING_OF_A_STATE = 9
PENDING_OF_A_LISTING = 14


def random_step(machine: Machine, words: Iterator[int], drains: int, kinds: int = 16) -> Step:
    """A step that may be refused. Of 16 so many are drains, 13 with them are of a processor; of 13 kinds no others are."""
    p = next(words) % len(machine.processors)
    what = next(words) % kinds
    if what < drains:
        return "drain", p, next(words) % (len(machine.processors[p].buffer) + 1)
    if what < 13:
        return "exec", p
    if what < 15:
        return "persist", next(words) % (machine.program.lines + 1)
    return ("settle",) if next(words) % 4 else ("crash",)


def is_for_order(refusal: str | None) -> bool:
    """Whether a step is refused for the order of effect alone."""
    return refusal is not None and refusal[:2] in ("M4", "M7")


def random_list(program: Program, words: Iterator[int], before: list[Step]) -> list[Step]:
    """Steps behind these, of which few are refused but for their order; which share of them may be is random too."""
    machine, steps = Machine(program), list(before)
    make_all(machine, steps)
    waiting, drains, kinds = next(words) % 9, 2 + next(words) % 4, (13, 16)[next(words) % 2]
    for _ in range(8 + next(words) % 48):
        keeps_order = next(words) % 8 < waiting
        for _ in range(24):
            step = random_step(machine, words, drains, kinds)
            refusal = machine.refusal(step)
            if refusal is None or is_for_order(refusal) and not keeps_order:
                break
        machine.waits = False
        if machine.accepts(step):
            machine.step(step)
        machine.waits = True
        steps.append(step)
    return steps


def random_state(
    program: Program, words: Iterator[int], most: int = PENDING_OF_A_STATE, tries: int = 80, kinds: int = 16
) -> tuple[Machine, list[Step]]:
    """A machine with few pending entries, and the steps that lead to it, which are all accepted."""
    machine, steps = Machine(program), []
    for _ in range(tries):
        step = random_step(machine, words, 6, kinds)
        if machine.accepts(step) and (step[0] in ("exec", "drain") or next(words) % 4 == 0):
            machine.step(step)
            steps.append(step)
        if len(machine.pending) == most:
            break
    return machine, steps


def no_images(machine: Machine, images: Collection[Image], words: Iterator[int]) -> list[Image]:
    """Some values of the words that are none of these images, made of values that the words may have."""
    values = {word: [value, 5] for word, value in machine.persisted.items()}
    for entry in machine.pending:
        if entry[0] == "W":
            values[entry[1]].append(entry[2])
    tried = [tuple(each[next(words) % len(each)] for each in values.values()) for _ in range(4)]
    return [image for image in dict.fromkeys(tried) if image not in images]


def end_of_list(program: Program, steps: list[Step]) -> tuple[str, str]:
    """What is told of the order of a list of steps, and how the list ends; that it breaks a pair where the order alone
    refuses a step, and there, is seen here."""
    accepted, refusal = shown_by(Machine(program), steps)
    loose, ended = shown_by(LooseMachine(program), steps)
    told = told_of(program, loose)
    if told != "none":
        assert is_for_order(refusal) and told.split()[-1] == str(len(accepted)), (told, refusal)
        return told, f"broken, {refusal[:2]}"
    if is_for_order(refusal):
        assert len(loose) == len(accepted) and ended[:2] in ("M8", "M9"), (refusal, ended)
        return told, f"none, {refusal[:2]} and then {ended[:2]}"
    return told, "none, accepted" if refusal is None else "none, refused otherwise"


# The lines before R1, which say how far explorations came. Their numbers are of no contract.
FAR = re.compile(
    r"(?:px86: [1-9][0-9]* states were found and [0-9]+ explored, the last one [0-9]+ steps from the start: none was seen to break what was asked of it\n)+(?=px86: R1 )"
)


class Comparison:
    """What the built program answers, beside what it is to answer, and how often which kind of answer came."""

    def __init__(self, program: str, folder: str) -> None:
        self.program = program
        self.file = os.path.join(folder, "text.litmus")
        self.counts = collections.Counter()
        self.different = 0

    def load(self, lines: Iterable[str]) -> Program:
        text = "".join(line + "\n" for line in lines)
        with open(self.file, "w", encoding="ascii") as file:
            file.write(text)
        self.text = text
        return Program(text)

    def answers(
        self, command: str, options: list[str], steps: list[Step], text: str | None = None
    ) -> subprocess.CompletedProcess[str]:
        """What the program writes, without a question asked of it; of this text or of another one."""
        words = [self.program, command, *options, self.file]
        if text is not None:
            words[-1] = self.file + ".other"
            with open(words[-1], "w", encoding="ascii") as file:
                file.write(text)
        steps = "".join(step_text(step) + "\n" for step in steps)
        return subprocess.run(words, input=steps, capture_output=True, encoding="ascii", timeout=60, check=False)

    def ask(
        self, kind: str, command: str, options: list[str], steps: list[Step], told: str, status: int, is_fault: bool | None = None
    ) -> None:
        """Asks one question; told is its report without the last line feed, or its fault, where the status is 2 or 5."""
        self.counts[kind] += 1
        ran = self.answers(command, options, steps)
        is_fault = status in (2, 5) if is_fault is None else is_fault
        report, fault = ("", f"px86: {told}\n") if is_fault else (told + "\n" * bool(told), "")
        if (ran.stdout, FAR.sub("", ran.stderr, count=1), ran.returncode) != (report, fault, status):
            self.different += 1
            if self.different <= 5:
                said = f"{ran.stdout!r}, {ran.stderr!r}, status {ran.returncode}"
                print(f"{' '.join([command, *options])}: {said}, not {told!r}, status {status}, of")
                print(self.text + "with the steps\n" + "".join(step_text(step) + "\n" for step in steps), end="")


def compare_lists(comparison: Comparison, numbers: Iterable[int], prefixed: bool = False) -> None:
    """Broken pairs of random lists of these numbers, of programs with or without a prefix."""
    for number in numbers:
        if prefixed or number % LISTS_OF_A_PROGRAM == 0:
            shapes = ACTING if prefixed or number // LISTS_OF_A_PROGRAM % 2 else re.split(r"; |\n", SHAPES)
            prefix, before = FULL[number % len(FULL)] if prefixed else ([], [])
            program = comparison.load(program_lines(number, shapes, prefix))
        steps = random_list(program, words_of(number, 1 + prefixed), before)
        told, kind = end_of_list(program, steps)
        comparison.ask(kind, "law", [], steps, told, int(told != "none"))


def compare_full(comparison: Comparison, numbers: Iterable[int]) -> None:
    """The same of lists behind a prefix."""
    compare_lists(comparison, numbers, prefixed=True)


def compare_states(comparison: Comparison, numbers: Iterable[int]) -> None:
    """The least closed set of each image of random states of these numbers, and that other values have none."""
    for number in numbers:
        program = comparison.load(program_lines(number, ACTING))
        words = words_of(number, 3)
        machine, steps = random_state(program, words)
        sets = closed_sets_of(machine)
        assert sorted(sets) == images_of(machine)
        for image in [*sorted(sets), *no_images(machine, sets, words)]:
            told = set_text(machine, sets.get(image, []))
            kind = "set" if image in sets else "no set"
            values = " ".join(map(str, image))
            comparison.ask(kind, "images", ["--set", values], steps, told, int(image not in sets))
        compare_values(comparison, machine, steps, words_of(number, 6))
        images = sorted(sets)
        compare_explained(comparison, program, steps, images[next(words) % len(images)])


def compare_explained(comparison: Comparison, program: Program, steps: list[Step], image: Image) -> None:
    """What `check` says of an image of a random state, or of a state that a run leads to from there: behind the steps that it
    shows."""
    asked = ["--before-crash", "--states=300", f"--all={values_condition(program, image)}"]
    ran = comparison.answers("check", [*asked, "--show"], steps)
    shown = steps_of("".join(line + "\n" for line in ran.stdout.split("\n")[2:-1]))
    if ran.returncode != 1 or len(make_all(Machine(program), [*steps, *shown]).pending) > PENDING_OF_A_LISTING:
        # More states are told apart before one is found, or there are too many sets to be tried.
        comparison.counts["not explained"] += 1
        return
    lines = explained_image(program, [*steps, *shown], image)
    for kind in kinds_explained(lines):
        comparison.counts[kind] += 1
    asked_of_all = {"all": Condition(values_condition(program, image), program)}
    lines = lines_with(lines, told_alone(program, [*steps, *shown], image, asked_of_all, False, None))
    comparison.ask("explained", "check", [*asked, "--show", "--explain-image"], steps, ran.stdout + "\n".join(lines), 1)


def compare_values(comparison: Comparison, machine: Machine, steps: list[Step], words: Iterator[int]) -> None:
    """The values of words of a random state in the images in which others have given values: those of an image, or any."""
    pick = lambda items: items[next(words) % len(items)]
    program, images = machine.program, named_images_of(machine)
    told, asked = ["end"], []
    for _ in range(8):
        one = pick(images)
        given = []
        for _ in range(next(words) % 5):
            other = pick(sorted(program.names))
            given.append((other, one[other] if next(words) % 5 else (pick(images)[other] + next(words) % 2) % 2**64))
        word = pick(sorted(program.names))
        values = values_of(images, word, given)
        comparison.counts["values, " + ("none" if not values else "one" if len(values) == 1 else "more")] += 1
        told += values_lines(values)
        asked.append(("values", program.names[word], *(f"{program.names[other]}={value}" for other, value in given)))
    comparison.ask("values", "debug", [], [*steps, ("go",), *asked], "\n".join(told), 0)


def compare_listings(comparison: Comparison, numbers: Iterable[int]) -> None:
    """The report of `images` on random states of these numbers, and behind a step that is refused."""
    for number in numbers:
        program = comparison.load(program_lines(number, STORING))
        words = words_of(number, 4)
        # In two of three lists nothing persists before the images are asked for.
        machine, steps = random_state(program, words, PENDING_OF_A_LISTING, 120, 13 if number % 3 else 16)
        options = argparse.Namespace(count=next(words) % 4 == 0, all=None, some=None)
        asked = ["--count"] * options.count
        for name in ("all", "some"):
            if next(words) % 3:
                setattr(options, name, random_condition(program, words))
                asked += [f"--{name}", getattr(options, name)]
        others = [random_step(machine, words, 6) for _ in range(4)] if next(words) % 6 == 0 else []
        refused = next((step for step in others if not machine.accepts(step)), None)
        if refused is not None:
            told = f"{machine.refusal(refused)} at {len(steps)}"
            comparison.ask("images, refused", "images", asked, [*steps, refused, ("crash",)], told, 2)
            continue
        compare_values(comparison, machine, steps, words_of(number, 7))
        lines, status = listing_of(machine, options)
        kind = "one candidate" if candidates_of(machine) == 1 else "not met" if status else "met"
        comparison.ask(f"images, {kind}", "images", asked, steps, "\n".join(lines), status)


def said_by(command: Callable[..., int], machine: Machine, steps: list[Step], options: Namespace | None) -> tuple[str, int]:
    """What a command of the model says, without the last line feed, and its status."""
    with contextlib.redirect_stdout(io.StringIO()) as said:
        status = command(machine, steps, options)
    return said.getvalue().removesuffix("\n"), status


def compare_commands(comparison: Comparison, numbers: Iterable[int]) -> None:
    """Traces of random lists, some of which end with a step that is refused; and in random states the steps that may come next,
    the names of images, the steps of a schedule, and what hunts and tallies say of what crashes may leave."""
    for number in numbers:
        program = comparison.load(program_lines(number, STORING))
        words = words_of(number, 5)
        pick = lambda items: items[next(words) % len(items)]
        steps = random_list(program, words, [])
        told, status = said_by(trace, Machine(program), steps, None)
        comparison.ask("trace, refused" if status else "trace", "trace", [], steps, told, status, is_fault=False)
        steps = random_state(program, words, 5, pick([0, 0, 12]))[1]
        for refused in (False, True):
            told, status = said_by(next_, Machine(program), steps, argparse.Namespace(refused=refused))
            comparison.ask("next, refused" if refused else "next", "next", ["--refused"] * refused, steps, told, status, is_fault=False)
        plan = {"seed": number, "length": pick([0, 5, 9, 14, 20]), "crash_after": pick([None, None, 4])}
        asked = [f"--{name.replace('_', '-')}={value}" for name, value in plan.items() if value is not None]
        condition = random_condition(program, words)
        runs = pick([0, 1, 2, 4])
        first = pick([0, 0, 1, 3, 7, 65_536, 4_294_967_292])
        plan |= {"all": condition, "first": first, "runs": runs, "number": next(words), "show": True, "lazy": False}
        options = argparse.Namespace(**plan, names=True, count=False, some=None, set=None, explain_image=False)
        hunted = [*asked, *([f"--first={first}"] if first else []), f"--runs={runs}", f"--all={condition}"]
        for command, given in (
            (images, ["--names", f"--all={condition}"]),
            (replay, [*asked, f"--number={options.number}"]),
            (hunt, [*hunted, "--show", f"--workers={pick([1, 2, 3])}"]),
            (tally, hunted),
        ):
            name = command.__name__
            told, status = said_by(command, Machine(program), steps, options)
            comparison.ask(f"{name} of crashes, {status}", name, given, steps, told, status, is_fault=False)
        compare_lazily(comparison, program, steps, options, hunted)


def compare_hunts(comparison: Comparison, numbers: Iterable[int]) -> None:
    """What hunts say of an image that breaks a condition, of programs that store, flush and store again."""
    for number in numbers:
        program = comparison.load(append_lines(number))
        words = words_of(number, 9)
        pick = lambda items: items[next(words) % len(items)]
        steps = random_state(program, words, 2, pick([0, 0, 4]))[1]
        steps += [("crash",)] * (next(words) % 4 == 0)
        plan = {"seed": number, "first": pick([0, 0, 2]), "runs": pick([3, 30, 30]), "length": pick([12, 30, 30])}
        plan |= {"all": order_condition(program, words), "crash_after": pick([None, None, None, 3])}
        asked = [f"--{name.replace('_', '-')}={value}" for name, value in plan.items() if value is not None]
        plan |= {"lazy": plan["crash_after"] is None and pick([False, True]), "show": pick([False, True]), "explain_image": True}
        asked += [f"--{name.replace('_', '-')}" for name in ("lazy", "show", "explain_image") if plan[name]]
        lines, explains = hunt_report(make_all(Machine(program), steps), steps, argparse.Namespace(**plan))
        kind = f"hunt that explains{', behind steps' * bool(steps)}" if explains else "hunt that explains nothing"
        asked.append(f"--workers={pick([1, 2, 3])}")
        comparison.ask(kind, "hunt", asked, steps, "\n".join(lines), int(lines != ["none"]), is_fault=False)


def compare_lazily(comparison: Comparison, program: Program, steps: list[Step], options: Namespace, hunted: list[str]) -> None:
    """What a hunt says of lazy schedules, and the steps of one."""
    options.lazy, options.crash_after = True, None
    asked = [word for word in hunted if not word.startswith("--crash-after")]
    planned = [word for word in asked if word.startswith(("--seed", "--length"))]
    for command, given in ((hunt, [*asked, "--lazy", "--show"]), (replay, [*planned, "--lazy", f"--number={options.number}"])):
        name = command.__name__
        told, status = said_by(command, Machine(program), steps, options)
        comparison.ask(f"lazy {name}, {status}", name, given, steps, told, status, is_fault=False)


def compared(
    built: str, compares: Callable[..., None], numbers: Iterable[int], kind: type[Comparison] = Comparison
) -> tuple[collections.Counter[str], int]:
    """The answers of these numbers: how often which kind came, and how many differ."""
    with tempfile.TemporaryDirectory() as folder:
        comparison = kind(os.path.abspath(built), folder)
        compares(comparison, numbers)
    sys.stdout.flush()
    return comparison.counts, comparison.different


def counted(answers: list[tuple[collections.Counter[str], int]], at_least: Mapping[str, int], whole: bool) -> int:
    """Says what was answered, and answers the status: how many answers differ, and where the whole is asked, which kinds came
    too seldom."""
    counts = sum((counted for counted, _ in answers), collections.Counter())
    different = sum(differ for _, differ in answers)
    print("; ".join(f"{kind}: {count}" for kind, count in sorted(counts.items())))
    print(f"{different} answers differ")
    seldom = [kind for kind, least in at_least.items() if whole and counts[kind] < least]
    if seldom:
        print("too seldom:", "; ".join(seldom))
    return int(different > 0 or bool(seldom))


def compare(options: Namespace) -> int:
    parts = [
        (compare_full, options.full, 20),
        (compare_states, options.states, 20),
        (compare_listings, options.listings, 20),
        (compare_commands, options.commands, 5),
        (compare_hunts, options.hunts, 10),
        (compare_lists, options.lists, 500),
    ]
    tasks = [
        (options.built, compares, range(first, min(first + step, count)))
        for compares, count, step in parts
        for first in range(0, count, step)
    ]
    # One process for each core that this one may use.
    with multiprocessing.get_context("fork").Pool(len(os.sched_getaffinity(0))) as pool:
        answers = pool.starmap(compared, tasks, chunksize=1)
    asked = (options.lists, options.full, options.states, options.listings, options.commands, options.hunts)
    wanted = (LISTS, LISTS_BEHIND_FULL, STATES, LISTINGS, COMMANDS, HUNTS)
    return counted(answers, AT_LEAST, all(count >= least for count, least in zip(asked, wanted)))
