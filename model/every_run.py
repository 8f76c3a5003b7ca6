"""The built program beside every run of small programs."""

from __future__ import annotations

import argparse
import itertools
import multiprocessing
import os
import re
from argparse import Namespace
from collections.abc import Iterable, Iterator

from model.compare import Comparison, compared, counted, random_state, random_step
from model.conditions import Condition
from model.explanations import crashes_explained, explained_image, explanations_of, kinds_explained, wrong_explanations
from model.fences import fences_of, fences_told, one_fence_told
from model.machine import Machine
from model.mends import mend_told, moved_told, wrong_dear_mend
from model.programs import (
    MEETINGS, SMALL_REGISTERS, append_lines, behind_a_clflush, doubled, is_append, lacking_lines, meeting_lines, misplaced_lines, order_condition,
    random_condition, small_lines, values_condition,
)
from model.rules import MASK, REGISTERS, Image, Site, Step
from model.runs import NoRoom, Runs, TooManyStates, outcomes_of, verdict_of
from model.schedules import enabled_of, words_of
from model.texts import Program, step_text, steps_of

# A program with more states than these is left out, and how many of these programs may be.
MOST_STATES, SMALL_PROGRAMS = 700, 1000
# The same without a flush or a fence: where one of these is left out, so are the fences of the program.
MOST_STATES_WITHOUT = 2000
# A program with more states is not asked for what it lacks; and so many sets of one are tried at most. Of a program that lacks much
# there are more.
MOST_STATES_TO_MEND, MOST_SETS = 80, 200
MOST_STATES_THAT_LACK, MOST_SETS_OF_MANY = 400, 600
# How often each kind of answer has to come where so many programs are asked about.
RUNS_AT_LEAST = {
    "all holds": 30,
    "all fails": 30,
    "ends holds": 30,
    "ends fails": 30,
    "ends asked of no state": 10,
    "recovered holds": 30,
    "recovered fails": 30,
    "before any crash": 30,
    "behind steps": 30,
    "behind a crash": 10,
    "never ran": 30,
    "images alone": 100,
    "images beside a question": 50,
    "images and the names of the words": 10,
    "images of states between the opening and the ends": 30,
    "trapped in an end": 20,
    "no end, and no more states": 10,
    "nothing missing": 30,
    "missing, as it is buffered": 30,
    "missing, as it was never flushed": 10,
    "missing, as its flush was before it": 2,
    "missing, as a store has passed its flush": 15,
    "explained behind a crash": 10,
    "a crash explained": 40,
    "a crash explained, and writes that are missing": 20,
    "one is enough alone": 20,
    "several are each enough alone": 10,
    "none is enough alone": 10,
    "others are missing": 10,
    "a crash in the run that is shown": 30,
    "persisting steps in the run that is shown": 30,
    "as many states as may be": 30,
    "a state too many": 30,
    "fences of a program that holds": 100,
    "fences of a program that fails": 150,
    "fences, needed": 25,
    "fences, not needed, left out": 200,
    "fences, not needed, kept": 8,
    "fences, least": 40,
    "fences, least, some are kept": 4,
    "fences, no more can go, some are kept": 1,
    "one fence, needed": 10,
    "one fence, not needed": 60,
    "mend, put 1": 10,
    "mend, put 2": 2,
    "mend, put 3": 2,
    "mend, put 4": 4,
    "mend none": 10,
    "mend none needed": 30,
    "moves: a move behind, put 0": 20,
    "moves: a move behind, put 1": 20,
    "moves: a move before, put 1": 2,
    "moves: none helps": 8,
    "one processor": 100,
    "two processors": 200,
    "three processors": 50,
}
COUNTED = ["no processor", "one processor", "two processors", "three processors"]


def compare_meetings(comparison: RunComparison, numbers: Iterable[int]) -> None:
    """Whether what differs where two ways meet is told apart: by the outcomes, before a crash and after one."""
    for number in numbers:
        program = comparison.load(meeting_lines(number))
        runs = Runs(Machine(program))
        for after in (False, True):
            told = "\n".join(outcomes_of(runs, after))
            comparison.ask("outcomes of meetings", "outcomes", ["--recovered"] * after, [], told, 0)
        for place in range(6):
            options, asked = small_question(runs, words_of(number, 8 + place), False)
            comparison.ask_check(runs, [], options, asked)


def registers_of(machine: Machine) -> list[tuple[str, int]]:
    """How a condition says the registers of small programs, and their values."""
    places = [(name, REGISTERS.index(name)) for name in SMALL_REGISTERS]
    return [(f"reg {p} {name}", it.registers[at]) for p, it in enumerate(machine.processors) for name, at in places]


def end_condition(program: Program, machine: Machine) -> str:
    """That an end is another than this one, as far as registers and words tell."""
    tests = [f"{what} = {value}" for what, value in registers_of(machine)]
    tests += [f"coherent {program.names[word]} = {value}" for word, value in machine.persisted.items()]
    return f"not ( {' and '.join(tests)} )"


def holds_in_all(runs: Runs, question: str, text: str) -> bool:
    """Whether a condition holds in all that is asked."""
    condition = Condition(text, runs.opening.program)
    return not (runs.broken_images(condition) if question == "all" else runs.false_ends(condition, question == "recovered"))


def state_condition(program: Program, machine: Machine, image: Image, words: Iterator[int]) -> str:
    """That a state and an image of it do not come together; or that what is near them does not."""
    shown = registers_of(machine)
    shown += [(f"coherent {program.names[word]}", machine.coherent(word)) for word in machine.persisted]
    shown += [(f"persisted {program.names[word]}", value) for word, value in zip(machine.persisted, image)]
    place = next(words) % (2 * len(shown))
    tests = [f"{what} = {(value + (at == place)) & MASK}" for at, (what, value) in enumerate(shown)]
    return f"not ( {' and '.join(tests)} )"


def small_condition(runs: Runs, question: str, words: Iterator[int]) -> str:
    """A condition: a random one, mostly one that holds; or that something does not come which does, or which is near it."""
    program = runs.opening.program
    pick = lambda items: items[next(words) % len(items)]
    how = next(words) % 10
    texts = [random_condition(program, words) for _ in range(5)]
    if how < 4:
        return next((text for text in texts[how % 2 :] if holds_in_all(runs, question, text)), texts[0])
    images = sorted(runs.all_images())
    if how == 4:
        return values_condition(program, pick(images))
    if how == 5:
        others = sorted(set(itertools.product((0, 1, 2, MASK), repeat=len(images[0]))) - set(images))
        return values_condition(program, pick(others)) if others else texts[0]
    if question == "all":
        machine = pick(runs.states)
        return state_condition(program, machine, pick(runs.images(machine)), words)
    ends = runs.ends[question == "recovered"]
    return end_condition(program, ends[pick(sorted(ends))]) if ends else texts[0]


class RunComparison(Comparison):
    """What the built program says of every run of small programs."""

    def count(self, kind: str, wrong: object, told: str, steps: list[Step]) -> None:
        """Counts an answer, which is right where nothing is said against it."""
        self.counts[kind] += 1
        if wrong:
            self.different += 1
            if self.different <= 5:
                print(f"{kind}: {wrong}; {told!r}, of")
                print(self.text + "with the steps\n" + "".join(step_text(step) + "\n" for step in steps), end="")

    def ask_check(self, runs: Runs, steps: list[Step], options: Namespace, asked: list[str]) -> tuple[int, str, int] | None:
        """Asks for `check`, and compares it with what every run shows."""
        told, status = verdict_of(runs, options)
        ran = self.answers("check", [*asked, "--show"], steps)
        lines = ran.stdout.split("\n")[:-1]
        fails = [line for line in told if " fails" in line]
        kind = " ".join((fails or told)[0].split()[:2]) if not told[0].startswith("words") else "words and what fails"
        if ran.returncode != status or ran.stderr or (ran.stdout and not ran.stdout.endswith("\n")):
            self.count("check", f"status {ran.returncode}, {ran.stderr!r}, not {status}: {told}", ran.stdout, steps)
            return None
        if fails:
            wrong = self.wrong_failure(runs, steps, options, told, lines)
            wrong = wrong or self.wrong_explanation(runs, steps, options, asked, ran.stdout)
            self.count("check, fails", wrong, ran.stdout, steps)
            return None
        states = [line for line in lines if line.startswith("states ")]
        count = int(states[0].split()[1]) if len(states) == 1 and re.fullmatch(r"states [1-9]\d*", states[0]) else None
        place = sum(getattr(options, it) is not None for it in ("all", "ends", "recovered"))
        wrong = ""
        if count is None or lines.index(states[0]) != place:
            wrong = "there is no count of states in its place"
        elif count > len(runs.states):
            wrong = f"more states than {len(runs.states)}"
        elif [*lines[:place], *lines[place + 1 :]] != told:
            wrong = f"not {told}"
        self.count("check, holds" if status == 0 else "check, asked of no state", wrong, ran.stdout, steps)
        for line in lines[:place]:
            self.counts[line] += 1
        self.counts["never ran"] += any(line.startswith("never ran") for line in lines)
        self.counts["images beside a question"] += options.images and place > 0
        self.counts["images and the names of the words"] += options.images and options.names
        return None if wrong else (count, ran.stdout, status)

    def wrong_failure(self, runs: Runs, steps: list[Step], options: Namespace, told: list[str], lines: list[str]) -> str:
        """What is wrong with a report that a condition fails, or nothing: it names a state that may be told, and the steps are
        made, here and by the program, and lead to that state."""
        if options.names:
            if lines[:1] != told[:1]:
                return "the names of the words are others"
            lines = lines[1:]
        if not lines or lines[0] not in told:
            return f"none of {told}"
        question, _, *values = lines[0].split()
        self.counts[f"{question} fails"] += 1
        if len(lines) < 2 or lines[1] != f"steps {len(lines) - 2}":
            return "the count of steps is another"
        shown = steps_of("".join(line + "\n" for line in lines[2:]))
        if list(map(step_text, shown)) != lines[2:]:
            return "steps in another form than the written one"
        if not runs.crashes and ("crash",) in shown:
            return "a crash in a run without crashes"
        machine = runs.opening.copy()
        text = getattr(options, question)
        condition = Condition(text, machine.program)
        for at, step in enumerate(shown):
            if not machine.accepts(step):
                return f"step {at} of those that are shown is refused"
            if question == "all" and not all(condition.holds(machine, it) for it in runs.images(machine)):
                return f"a beginning of {at} steps leads to a state that breaks it too"
            machine.step(step)
        least = next((it for it in runs.images(machine) if not condition.holds(machine, it)), None)
        if least != tuple(map(int, values)):
            return f"the steps lead to a state whose first image is {least}"
        if question != "all" and (enabled_of(machine) or (machine.crashes > 0) != (question == "recovered")):
            return "the steps lead to no such end"
        self.counts["a crash in the run that is shown"] += ("crash",) in shown
        self.counts["two crashes in the run that is shown"] += shown.count(("crash",)) > 1
        self.counts["persisting steps in the run that is shown"] += any(step[0] == "persist" for step in shown)
        return self.wrong_replay([*steps, *shown], question, text, lines[0])

    def wrong_explanation(self, runs: Runs, steps: list[Step], options: Namespace, asked: list[str], report: str) -> str:
        """What is wrong with the report of a run that breaks a condition, once it is to be explained: behind the report with its
        steps come the lines that each crash of the run has here, and of an image that breaks a condition those of the image."""
        first, _, *shown = report.split("\n")[options.names : -1]
        program = runs.opening.program
        ran = self.answers("check", [*asked, "--show", "--explain-image"], steps)
        run = steps_of("".join(line + "\n" for line in shown))
        for lines in crashes_explained(program, steps, run):
            self.counts["a crash explained"] += 1
            self.counts["a crash explained, and writes that are missing"] += lines[-1] != "missing none"
        image = None
        if first.startswith("all fails"):
            made, image = [*steps, *run], tuple(map(int, first.split()[2:]))
            for kind in kinds_explained(explained_image(program, made, image)):
                self.counts[kind] += 1
            self.counts["explained behind a crash"] += ("crash",) in made
        reports = list(explanations_of(program, steps, run, image, options))
        for may_be in reports:
            for line in may_be[0]:
                self.counts["one is enough alone"] += line == "with this: held"
                self.counts["several are each enough alone"] += line == "with each of these: held"
                self.counts["none is enough alone"] += line.startswith("none of these")
                self.counts["others are missing"] += line.startswith("missing too ")
        if not ran.stdout.startswith(report):
            return f"explained {ran.stdout!r}"
        return wrong_explanations(reports, ran.stdout[len(report) :].splitlines())

    def wrong_replay(self, steps: list[Step], question: str, condition: str, line: str) -> str:
        """The same of the program's own `run` and `images`."""
        ran = self.answers("run", [], steps)
        if ran.returncode != 0:
            return f"run of these steps: status {ran.returncode}"
        if question != "all" and re.search(r"^(cpu .* ready .*|  buf .*|pend .*)$", ran.stdout, re.M):
            return "run of these steps does not lead to an end"
        listed = self.answers("images", ["--count", "--all", condition], steps)
        if listed.returncode != 1 or listed.stdout.split("\n")[1] != re.sub(r"^\w+", "all", line):
            return f"images of these steps: {listed.stdout!r}"
        return ""

    def ask_fences(self, runs: Runs, options: Namespace, site: Site) -> None:
        """Asks which flushes and fences are needed for the conditions of these options, of the program of these runs, which begin in
        its opening state; and whether the one at a site is. Where a changed program has too many states, nothing is asked."""
        program = runs.opening.program
        options, asked = asked_of_runs(runs, options)
        told, status = fences_told(runs, options)
        only = ["--only", "cpu {} {} {}".format(*site)]
        one = "" if " fails" in told[0] else one_fence_told(program, site, options)
        if any(" not known " in line for line in [*told, one]):
            self.counts["fences, not asked"] += 1
        elif " fails" in told[0]:
            for more in ([], only):
                ran = self.answers("fences", [*asked, *more], [])
                first, _, rest = ran.stdout.partition("\n")
                is_so = first in told and re.fullmatch(r"steps \d+\n", rest) and (ran.returncode, ran.stderr) == (status, "")
                self.count("fences of a program that fails", "" if is_so else f"none of {told}", ran.stdout, [])
        else:
            self.ask("fences of a program that holds", "fences", asked, [], "\n".join(told), status, is_fault=False)
            for line in told:
                self.counts[f"fences, {line.partition(': ')[2]}"] += line.startswith("cpu ")
            kept = ", some are kept" * any(line.endswith(", kept") for line in told)
            self.counts[f"fences, {told[-1].partition(', ')[2]}{kept}"] += 1
            self.ask(f"one fence, {one.partition(': ')[2]}", "fences", [*asked, *only], [], one, status, is_fault=False)

    def ask_mend(self, runs: Runs, options: Namespace, states: int = MOST_STATES_TO_MEND, most: int = MOST_SETS) -> None:
        """Asks what the program of these runs lacks for the conditions of these options. Where more than so many sets cost less than
        what is put in, what is said of it is looked at. Where the program has more than so many states, nothing is asked."""
        program = runs.opening.program
        options, asked = asked_of_runs(runs, options)
        told = None if len(runs.states) > states else mend_told(program, options, most)
        if len(runs.states) > states or told is not None and any(line.startswith("open") for line in told[0]):
            self.counts["mend, not asked"] += 1
            return
        ran = self.answers("mend", asked, [])
        lines = ran.stdout.splitlines()
        counts = [line for line in lines if re.fullmatch(r"states [1-9]\d*", line)]
        rest = [line for line in lines if line not in counts]
        put = sum(line.startswith("put ") for line in lines)
        wrong = wrong_dear_mend(program, options, most, rest) if told is None else "" if rest == told[0] else f"not {told[0]}"
        status = int(not put and rest[:1] != ["mend none needed"])
        if not wrong and (len(counts), ran.returncode, ran.stderr) != (min(put, 1), status, ""):
            wrong = f"status {ran.returncode}, or no count of states"
        self.counts["mend, more sets than are tried"] += told is None
        self.count(f"mend, put {put}" if put else rest[0] if rest else "mend", wrong, ran.stdout, [])

    def ask_moves(self, runs: Runs, options: Namespace, most: int = MOST_SETS) -> None:
        """Asks the same where a store may be moved. Where more than so many sets of some program are to be tried, nothing is asked."""
        program = runs.opening.program
        options, asked = asked_of_runs(runs, options)
        told = moved_told(program, options, most)
        if told is None or any(line.startswith("open") for line in told[0]):
            self.counts["moves, not asked"] += 1
            return
        lines, status = told
        ran = self.answers("mend", [*asked, "--moves"], [])
        rest = [line for line in ran.stdout.splitlines() if not re.fullmatch(r"states [1-9]\d*", line)]
        wrong = "" if (rest, ran.returncode, ran.stderr) == (lines, status, "") else f"not {lines}"
        kind = lines[-1].split(", ")[-1]
        if lines[0].startswith("move"):
            kind = f"a move {lines[0].split()[3]}, put {sum(line.startswith('put ') for line in lines)}"
        self.count(f"moves: {kind}", wrong, ran.stdout, [])

    def ask_limit(self, asked: list[str], steps: list[Step], count: int, report: str, status: int) -> None:
        """Asks once more where just so many states may be told apart, and where it is one too many."""
        self.counts["as many states as may be"] += 1
        ran = self.answers("check", [*asked, "--states", str(count)], steps)
        wrong = "" if (ran.stdout, ran.returncode) == (report, status) else f"status {ran.returncode}, {ran.stderr!r}"
        self.count("check, its states within the limit", wrong, ran.stdout, steps)
        if count > 1:
            self.ask("a state too many", "check", [*asked, "--states", str(count - 1)], steps, "R1 TooManyStates", 5)


def asked_of_runs(runs: Runs, options: Namespace) -> tuple[Namespace, list[str]]:
    """The options of `fences` and `mend` that ask the conditions of these options of such runs, and the words that say them."""
    conditions = {it: getattr(options, it) for it in ("all", "ends", "recovered")}
    asked = [word for it, text in conditions.items() if text is not None for word in (f"--{it}", text)]
    before = not runs.crashes
    options = argparse.Namespace(**conditions, names=False, images=False, before_crash=before, states=MOST_STATES_WITHOUT, only=None)
    return options, [*asked, *["--before-crash"] * before]


def small_question(runs: Runs, words: Iterator[int], before: bool) -> tuple[Namespace, list[str]]:
    """The options of `check`, and the words that say them."""
    named = next(words) % 4 == 0
    options = argparse.Namespace(all=None, ends=None, recovered=None, images=False, before_crash=before, states=None, names=named)
    questions = ["all", "ends"] if before else ["all", "ends", "recovered"]
    asked = ["--before-crash"] * before + ["--names"] * options.names
    first = next(words) % len(questions)
    for place, question in enumerate(questions):
        if place == first or next(words) % 3 == 0:
            setattr(options, question, small_condition(runs, question, words))
            asked += [f"--{question}", getattr(options, question)]
    return options, asked


def no_question(before: bool) -> Namespace:
    """The options of `check` that ask for the images alone."""
    return argparse.Namespace(all=None, ends=None, recovered=None, images=True, before_crash=before, states=None, names=False)


def has_images_between(runs: Runs) -> bool:
    """Whether there is an image that neither the opening nor an end has."""
    ends = [machine for ends in runs.ends.values() for machine in ends.values()]
    return bool(runs.all_images().difference(*map(runs.images, [runs.opening, *ends])))


def compare_runs(comparison: RunComparison, numbers: Iterable[int]) -> None:
    """What the program says of every run of the small programs of these numbers."""
    for number in numbers:
        program = comparison.load(small_lines(number))
        words = words_of(number, 7)
        machine, steps = Machine(program), []
        if next(words) % 4 == 0:
            machine, steps = random_state(program, words, 3, 2 + next(words) % 8)
            for step in [("crash",), random_step(machine, words, 6, 13)] if next(words) % 3 == 0 else []:
                if machine.accepts(step):
                    machine.step(step)
                    steps.append(step)
        try:
            runs = Runs(machine, True, MOST_STATES)
        except (TooManyStates, NoRoom):
            comparison.counts["left out"] += 1
            continue
        comparison.counts[COUNTED[len(program.processors)]] += 1
        comparison.counts["behind steps"] += bool(steps)
        comparison.counts["behind a crash"] += machine.crashes > 0
        ended = [it for ends in runs.ends.values() for end in ends.values() for it in end.processors]
        comparison.counts["trapped in an end"] += any(it.trap is not None for it in ended)
        comparison.counts["no end, and no more states"] += not runs.ends[False] and machine.crashes == 0
        before = next(words) % 3 == 0
        comparison.counts["before any crash"] += before
        asked_of = Runs(machine, False) if before else runs
        options, asked = small_question(asked_of, words, before)
        if is_append(number) and next(words) % 8:
            options = argparse.Namespace(**{**vars(no_question(before)), "images": False, "all": order_condition(program, words)})
            asked = ["--before-crash"] * before + ["--all", options.all]
        if number % 3 == 1:
            options.images = True
            asked.append("--images")
        found = comparison.ask_check(asked_of, steps, options, asked)
        sites = [site for site, _ in fences_of(program)]
        if sites and not steps and number % 2:
            comparison.ask_fences(asked_of, options, sites[next(words) % len(sites)])
        if found and number % 4 == 0:
            comparison.ask_limit(asked, steps, *found)
        if number % 5 == 0:
            early = asked_of if before else Runs(machine, False)
            comparison.counts["images alone"] += 1
            comparison.counts["images of states between the opening and the ends"] += has_images_between(early)
            comparison.ask_check(runs, steps, no_question(False), ["--images"])
            comparison.ask_check(early, steps, no_question(True), ["--images", "--before-crash"])
        for after in (False, True):
            told = "\n".join(outcomes_of(runs, after))
            comparison.ask("outcomes", "outcomes", ["--recovered"] * after, steps, told, 0)


def compare_fences(comparison: RunComparison, numbers: Iterable[int]) -> None:
    """Which flushes and fences are needed of programs that store, flush and store again; of every second one each stands twice, and every
    fourth one is asked about once more, with each flush behind a `clflush`."""
    for number in numbers:
        for changed in ([list, behind_a_clflush], [doubled], [list], [doubled])[number % 4]:
            compare_needs(comparison, number, comparison.load(changed(append_lines(number))))


def compare_needs(comparison: RunComparison, number: int, program: Program) -> None:
    """Which flushes and fences of a program are needed, and what it lacks."""
    words = words_of(number, 11)
    options = argparse.Namespace(all=order_condition(program, words), ends=None, recovered=None)
    sites = [site for site, _ in fences_of(program)]
    try:
        runs = Runs(Machine(program), next(words) % 2 == 0, MOST_STATES)
    except (TooManyStates, NoRoom):
        comparison.counts["left out"] += 1
        return
    if sites:
        comparison.ask_fences(runs, options, sites[next(words) % len(sites)])
    comparison.ask_mend(runs, options)


def compare_mends(comparison: RunComparison, numbers: Iterable[int]) -> None:
    """What programs lack that lack much."""
    for number in numbers:
        program = comparison.load(lacking_lines(number))
        options = argparse.Namespace(all=None, ends=None, recovered=None)
        if number % 4 == 0:
            options.ends = "reg 0 rax = 1 or reg 1 rax = 1"
        else:
            options.all = "persisted f = 0 or " + " and ".join(f"persisted {name} = 1" for name in program.words if name != "f")
        runs = Runs(Machine(program), options.all is not None, MOST_STATES_WITHOUT)
        comparison.ask_mend(runs, options, MOST_STATES_THAT_LACK, MOST_SETS_OF_MANY)


def compare_moves(comparison: RunComparison, numbers: Iterable[int]) -> None:
    """Which store is to be moved of programs in which one stands in the wrong place."""
    for number in numbers:
        program = comparison.load(misplaced_lines(number))
        told = " and ".join(f"persisted {name} = 1" for name in program.words if name != "f")
        options = argparse.Namespace(all=f"persisted f = 0 or {told}", ends=None, recovered=None)
        comparison.ask_moves(Runs(Machine(program), True, MOST_STATES_WITHOUT), options)


def every_run(options: Namespace) -> int:
    numbers = range(options.first, options.first + options.programs)
    tasks = [(options.built, compare_meetings, range(2 * at, 2 * at + 2), RunComparison) for at in range(len(MEETINGS))]
    tasks += [(options.built, compare_runs, numbers[at : at + 10], RunComparison) for at in range(0, len(numbers), 10)]
    fenced = numbers[: len(numbers) // 5]
    tasks += [(options.built, compare_fences, fenced[at : at + 10], RunComparison) for at in range(0, len(fenced), 10)]
    lacking = numbers[: len(numbers) // 40]
    tasks += [(options.built, compare_mends, [number], RunComparison) for number in lacking]
    misplaced = numbers[: len(numbers) // 10]
    tasks += [(options.built, compare_moves, misplaced[at : at + 5], RunComparison) for at in range(0, len(misplaced), 5)]
    with multiprocessing.get_context("fork").Pool(len(os.sched_getaffinity(0))) as pool:
        answers = pool.starmap(compared, tasks, chunksize=1)
    return counted(answers, RUNS_AT_LEAST, options.programs >= SMALL_PROGRAMS)
