"""The commands: each writes its report, and answers its exit status."""

from __future__ import annotations

import re
import sys
from argparse import Namespace

from model.conditions import condition_of
from model.effects import law_of
from model.enumerated import crashes_of, end_text, ends_of
from model.explanations import explained_image, explanations_of, wrong_explanations
from model.fences import fences_told
from model.images import candidates_of, closed_sets_of, image_lines, images_of, set_text
from model.machine import Machine, Refused, make_all
from model.mends import mend_or_none, mend_told, moved_told
from model.programs import SHAPES, program_lines, small_lines
from model.questions import Question, answer_of_state, answers_told, hold_told
from model.reading import Fault
from model.rules import CANDIDATES, Step
from model.runs import outcomes_of, runs_told, verdict_of
from model.schedules import ends_of as ends_of_schedules
from model.schedules import enabled_of, loss_of, outcome_text, possible_of, schedule_of, words_of
from model.sheets import litmus_of
from model.texts import Program, step_text


def run(machine: Machine, steps: list[Step], _: object) -> int:
    refused = []
    for at, step in enumerate(steps):
        try:
            machine.step(step)
        except Refused as it:
            refused = [f"refused {at} {it}"]
            break
    print(*machine.state_text(), *refused, sep="\n")
    return 2 if refused else 0


def attempt(machine: Machine, step: Step) -> tuple[str, bool]:
    """Tries a step: what is told of it, and whether it is accepted."""
    told = step_text(step)
    if step[0] == "exec" and step[1] < len(machine.processors):
        instruction = machine.processors[step[1]].stands()
        if instruction is not None:
            told += f": {machine.program.instruction_text(instruction)}"
    try:
        seen = machine.step(step)
    except Refused as it:
        return f"{told}: {it}", False
    # What an instruction did is told without its processor and its place.
    return f"{told}: {seen.split(' ', 3)[3] if step[0] == 'exec' else seen}", True


def trace(machine: Machine, steps: list[Step], _: object) -> int:
    for at, step in enumerate(steps):
        told, accepted = attempt(machine, step)
        print(f"{at} {told}")
        if not accepted:
            return 2
    return 0


def next_(machine: Machine, steps: list[Step], options: Namespace) -> int:
    make_all(machine, steps)
    for step in possible_of(machine) + [("crash",)]:
        told, accepted = attempt(machine.copy(), step)
        if accepted or options.refused:
            print(told)
    return int(not enabled_of(machine))


def law(machine: Machine, steps: list[Step], _: object) -> int:
    told = law_of(machine.program, steps)
    print(told)
    return int(told != "none")


def images(machine: Machine, steps: list[Step], options: Namespace) -> int:
    make_all(machine, steps)
    if options.set is not None:
        told = set_text(machine, closed_sets_of(machine).get(tuple(map(int, options.set.split())), []))
        print(told)
        return int(told == "no set")
    lines, status = listing_of(machine, options)
    print(*lines, sep="\n")
    return status


def listing_of(machine: Machine, options: Namespace) -> tuple[list[str], int]:
    """The lines that are told of the images of a state, and the status."""
    candidates = candidates_of(machine)
    lines = [f"candidates {candidates if candidates <= CANDIDATES else 'more'}"]
    listed = images_of(machine) if candidates <= CANDIDATES else None
    status = 0
    if not options.count:
        lines += image_lines(machine, listed, getattr(options, "names", False))
    if options.all is not None:
        condition = condition_of(options.all, machine.program)
        fails = [image for image in listed if not condition.holds(machine, image)]
        lines.append(" ".join(map(str, ("all fails", *fails[0]))) if fails else "all holds")
        status |= bool(fails)
    if options.some is not None:
        condition = condition_of(options.some, machine.program)
        found = [image for image in listed if condition.holds(machine, image)]
        lines.append(" ".join(map(str, ("some found", *found[0]))) if found else "some none")
        status |= not found
    return lines, int(status)


def numbers_of(options: Namespace) -> range:
    """The numbers of the schedules that are run."""
    return range(options.first, options.first + options.runs)


def tally(machine: Machine, steps: list[Step], options: Namespace) -> int:
    make_all(machine, steps)
    if options.all is not None:
        condition = condition_of(options.all, machine.program)
        losses = [(number, loss_of(machine, options, condition, number)) for number in numbers_of(options)]
        broken = [(number, len(loss[1])) for number, loss in losses if loss]
        print("broken", len(broken), "of", options.runs)
        for first in broken[:1]:
            print("first", *first)
        return 0
    if asks_ends(options):
        ends = [*ends_of_schedules(machine, options)]
        broken = [number for number, holds, _ in ends if not holds]
        print("broken", len(broken), "of", options.runs)
        print("ended", len(ends), "of", options.runs)
        for first in broken[:1]:
            print("first", first)
        return 0
    counts = {}
    for number in numbers_of(options):
        outcome = outcome_text(schedule_of(machine, options, number)[0])
        counts[outcome] = counts.get(outcome, 0) + 1
    for outcome, count in counts.items():
        print(f"outcome {count}{outcome}")
    return 0


def asks_ends(options: Namespace) -> bool:
    return (options.ends, options.recovered) != (None, None)


def hunt_ends(machine: Machine, options: Namespace) -> int:
    """The first schedule that comes to an end at which the condition is false, or how many come to one."""
    ended = 0
    for number, holds, schedule in ends_of_schedules(machine, options):
        if not holds:
            print("least", number)
            for step in schedule if options.show else []:
                print(step_text(step))
            return 1
        ended += 1
    if ended:
        print("none", f"ended {ended} of {options.runs}", sep="\n")
    else:
        print("ends" if options.recovered is None else "recovered", "asked of no state")
    return int(not ended)


def hunt(machine: Machine, steps: list[Step], options: Namespace) -> int:
    make_all(machine, steps)
    if options.all is not None:
        return hunt_all(machine, steps, options)
    if asks_ends(options):
        return hunt_ends(machine, options)
    condition = condition_of(options.cond, machine.program)
    for number in numbers_of(options):
        ended, schedule = schedule_of(machine, options, number)
        if not condition.holds(ended):
            print("least", number)
            for step in schedule if options.show else []:
                print(step_text(step))
            return 1
    print("none")
    return 0


def hunt_all(machine: Machine, given: list[Step], options: Namespace) -> int:
    lines = hunt_report(machine, given, options)[0]
    print(*lines, sep="\n")
    return int(lines != ["none"])


def hunt_report(machine: Machine, given: list[Step], options: Namespace) -> tuple[list[str], bool]:
    """The lines of a hunt of crashes, and whether an image is explained in them."""
    loss = first_loss(machine, options)
    if loss is None:
        return ["none"], False
    number, told, schedule = loss
    lines = [f"least {number}", f"turn {len(schedule)}", told, *(map(step_text, schedule) if options.show else [])]
    if not options.explain_image or not told.startswith("image"):
        return lines, False
    return [*lines, *explained_image(machine.program, [*given, *schedule], tuple(map(int, told.split()[1:])))], True


def replay(machine: Machine, steps: list[Step], options: Namespace) -> int:
    make_all(machine, steps)
    for step in schedule_of(machine, options, options.number)[1]:
        print(step_text(step))
    return 0


def first_loss(machine: Machine, options: Namespace) -> tuple[int, str, list[Step]] | None:
    """The least schedule that breaks the condition, what does at its least turn, and its steps up to there; or nothing."""
    condition = condition_of(options.all, machine.program)
    for number in numbers_of(options):
        loss = loss_of(machine, options, condition, number)
        if loss:
            return number, *loss
    return None


def answer_of(machine: Machine, step: Step) -> str:
    try:
        return machine.step(step)
    except Refused as refused:
        return str(refused)


def live(machine: Machine, steps: list[Step], options: Namespace) -> int:
    if options.check is not None:
        wrong = wrong_in(machine, steps, options)
        if wrong:
            print(wrong)
        return int(bool(wrong))
    print("journal", len(steps))
    for number, step in enumerate(steps):
        print(f"{number} {number % options.threads} {step_text(step)}: {answer_of(machine, step)}")
    print(*machine.state_text(), sep="\n")
    return 0


def wrong_in(machine: Machine, steps: list[Step], options: Namespace) -> str | None:
    """What is wrong with a report of `live`, or nothing: each entry is the next step of its seat, and what the model
    answers to it; all steps come; then the state is told."""
    with open(options.check, encoding="ascii") as file:
        lines = file.read().split("\n")
    if lines[0] != f"journal {len(steps)}":
        return f"the journal should have {len(steps)} entries"
    left = {seat: steps[seat :: options.threads] for seat in range(options.threads)}
    for number, line in enumerate(lines[1 : len(steps) + 1]):
        parts = re.fullmatch(r"(\d+) (\d+) ([^:]*): (.*)", line)
        if not parts or int(parts[1]) != number or not left.get(int(parts[2])):
            return f"no entry may be: {line}"
        step = left[int(parts[2])].pop(0)
        if parts[3] != step_text(step):
            return f"the seat's next step is {step_text(step)}: {line}"
        answer = answer_of(machine, step)
        if parts[4] != answer:
            return f"the answer is {answer}: {line}"
    if lines[len(steps) + 1 :] != [*machine.state_text(), ""]:
        return "the state is another"
    return None


def enumerate_(machine: Machine, steps: list[Step], options: Namespace) -> int:
    make_all(machine, steps)
    images, ends = crashes_of(machine) if options.crash else ([], ends_of(machine))
    text = outcome_text if options.crash else end_text
    outcomes = {text(end): end for end in ends}
    fails = []
    if options.cond is not None:
        condition = condition_of(options.cond, machine.program)
        fails = sorted(told for told, end in outcomes.items() if not condition.holds(end))
        print(f"fails{fails[0]}" if fails else "holds")
    for image in images:
        print("image", *image)
    if options.crash:
        print("images", len(images))
    for told in sorted(outcomes):
        print(f"outcome{told}")
    print("outcomes", len(outcomes))
    return int(bool(fails))


def explain(machine: Machine, steps: list[Step], options: Namespace) -> int:
    image = None if options.image is None else tuple(map(int, options.image.split()))
    reports = explanations_of(machine.program, [], steps, image, options)
    if options.report is None:
        lines = [line for may_be in reports for line in may_be[0]]
        print(*lines, sep="\n", end="\n" if lines else "")
        return 0
    with open(options.report, encoding="ascii") as file:
        wrong = wrong_explanations(reports, file.read().splitlines())
    print(wrong, end="\n" if wrong else "")
    return int(bool(wrong))


def check(machine: Machine, steps: list[Step], options: Namespace) -> int:
    asks_nothing = (options.all, options.ends, options.recovered, options.images) == (None, None, None, False)
    asked = asked_of(machine.program, options.only) if asks_nothing else []
    make_all(machine, steps)
    runs = runs_told(machine, not options.before_crash, options.states)
    if not asks_nothing:
        lines, status = verdict_of(runs, options)
    elif options.named is None:
        lines, status = answers_told(runs, asked)
    else:
        lines, status = hold_told(runs, asked)
        lines = [f"{options.named}: {line}" for line in lines]
    print(*lines, sep="\n")
    return status


def answer(machine: Machine, steps: list[Step], options: Namespace) -> int:
    make_all(machine, steps)
    told = [answer_of_state(machine, it) for it in asked_of(machine.program, options.only)]
    print(*filter(None, told), sep="\n")
    return 0


def asked_of(program: Program, only: str | None) -> list[Question]:
    """The questions of a program, or that of this name."""
    asked = [it for it in program.questions if only in (None, it.name)]
    if only is not None and not asked:
        raise Fault("usage")
    return asked


def fences(machine: Machine, _: object, options: Namespace) -> int:
    options.names = options.images = False
    lines, status = fences_told(runs_told(machine, not options.before_crash, options.states), options)
    print(*lines, sep="\n")
    return status


def mend(machine: Machine, _: object, options: Namespace) -> int:
    options.names = options.images = False
    runs_told(machine, not options.before_crash, options.states)
    told_of = moved_told if options.moves else mend_told if options.sets is None else mend_or_none
    lines, status = told_of(machine.program, options, options.sets) or (["more sets"], 1)
    print(*lines, sep="\n")
    return status


def outcomes(machine: Machine, steps: list[Step], options: Namespace) -> int:
    make_all(machine, steps)
    runs = runs_told(machine, options.recovered, options.states)
    print(*outcomes_of(runs, options.recovered, options.breaking), sep="\n")
    return 0


def dis(options: Namespace) -> int:
    """The written form of a litmus text or a sheet, or its fault."""
    with open(options.file, "rb") as file:
        data = file.read()
    try:
        print(litmus_of(data).written().decode("ascii"), end="")
    except Fault as fault:
        print(f"px86: {fault}", file=sys.stderr)
        return 2
    return 0


def program(options: Namespace) -> None:
    print(*program_lines(options.number, re.split(r"; |\n", SHAPES)), sep="\n")


def small(options: Namespace) -> None:
    print(*small_lines(options.number), sep="\n")


def words(options: Namespace) -> None:
    chosen = words_of(options.seed, options.number)
    print(options.seed, options.number, *(f"{next(chosen):08x}" for _ in range(5)))
