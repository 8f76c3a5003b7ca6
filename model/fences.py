"""Every run without some flushes and fences."""

from __future__ import annotations

import re
from argparse import Namespace
from collections.abc import Iterable, Iterator
from itertools import combinations
from math import comb

from model.machine import Machine
from model.rules import Site
from model.runs import NoRoom, Runs, TooManyStates, verdict_of
from model.texts import Program

FENCES = "clflush clflushopt clwb mfence sfence".split()


def fences_of(program: Program) -> Iterator[tuple[Site, str]]:
    """Each flush and each fence of a program: where it is, and what it is."""
    for p, blocks in enumerate(program.processors):
        for block in ("main", "recover"):
            for place, instruction in enumerate(blocks[block]):
                if instruction[0] in FENCES:
                    yield (p, block, place), program.instruction_text(instruction)


def site_named(text: str) -> Site:
    """A place of a program, as the tokens of a line name it: `cpu P main PLACE`, with `cpu` or without."""
    p, block, place = text.split("#")[0].removeprefix("cpu ").split()
    return int(p), block, int(place)


def answer_in(program: Program, options: Namespace) -> str:
    """Whether each condition holds in every run of a program from its opening state: `holds`, `fails`, or the number of the fault that
    is there in place of an answer."""
    try:
        runs = Runs(Machine(program), not options.before_crash, options.states)
    except TooManyStates:
        return "R1"
    except NoRoom:
        return "R2"
    return "fails" if any(" fails" in line for line in verdict_of(runs, options)[0]) else "holds"


def without_all(program: Program, sites: Iterable[Site]) -> Program:
    """The program without the instructions at these sites."""
    for site in sites:
        program = program.without(*site)
    return program


def told_without(program: Program, sites: Iterable[Site], options: Namespace) -> str:
    """Whether each condition holds so, or the fault, without the instructions at these sites."""
    return answer_in(without_all(program, sites), options)


# The weaker one of a flush or a fence, where there is one.
WEAKER = {"clflush": "clwb", "mfence": "sfence"}


def weaker_told(program: Program, site: Site, options: Namespace) -> tuple[str, Program]:
    """What is said of the weaker one in place of an instruction, and the program then: with it, if each condition holds."""
    p, block, place = site
    operation, *operands = program.processors[p][block][place]
    if operation not in WEAKER:
        return "", program
    other = program.replaced(*site, (WEAKER[operation], *operands))
    told = answer_in(other, options)
    return {"holds": (f", {WEAKER[operation]} does", other), "fails": ("", program)}.get(told, (f", {WEAKER[operation]} not known {told}", program))


def with_weaker(program: Program, needs: dict[Site, str], options: Namespace) -> dict[Site, str]:
    """The needs, with the weaker ones that do: one after another, without all that are left out."""
    left_out = [site for site, said in needs.items() if said == "not needed, left out"]
    program = without_all(program, left_out)
    told = dict(needs)
    for site in needs:
        if site not in left_out:
            said, program = weaker_told(program, site, options)
            told[site] += said
    return told


def needs_of(program: Program, options: Namespace) -> dict[Site, str]:
    """What each flush and each fence is needed for, by its site."""
    alone = {site: told_without(program, [site], options) for site, _ in fences_of(program)}
    spare = [site for site, told in alone.items() if told == "holds"]
    together = told_without(program, spare, options)
    left_out, needs = [], {}
    for site, told in alone.items():
        if told == "fails":
            needs[site] = "needed"
        elif told != "holds":
            needs[site] = f"not known {told}"
        else:
            behind = together if together == "holds" else told_without(program, [*left_out, site], options)
            needs[site] = {"holds": "not needed, left out", "fails": "not needed, kept"}.get(behind, f"not known {behind}")
            left_out += [site] * (behind == "holds")
    return with_weaker(program, needs, options)


def fence_line(site: Site, instruction: str, told: str) -> str:
    p, block, place = site
    return f"cpu {p} {block} {place} {instruction}: {told}"


def one_fence_told(program: Program, site: Site, options: Namespace) -> str:
    """The line of the flush or the fence at a site, where it alone is left out, or its weaker one alone is in its place."""
    told = told_without(program, [site], options)
    said = {"holds": "not needed", "fails": "needed"}.get(told, f"not known {told}")
    said += "" if told == "holds" else weaker_told(program, site, options)[0]
    return fence_line(site, dict(fences_of(program))[site], said)


# All larger sets are tried where they are so few; otherwise, where no more than this, the sets of one more of what can go alone.
FEW_SETS, MOST_SETS = 64, 100


def sets_larger(needs: dict[Site, str], alone: list[Site], most: int) -> Iterator[tuple[Site, ...]]:
    """The sets that are larger than what is left out, none of which is to do."""
    if sum(comb(len(needs), size) for size in range(most + 1, len(needs) + 1)) <= FEW_SETS:
        for size in range(most + 1, len(needs) + 1):
            yield from combinations(needs, size)
    else:
        yield from combinations(alone, most + 1)


def is_least(program: Program, needs: dict[Site, str], options: Namespace) -> bool:
    """Whether without each larger set of flushes and fences than is left out some run breaks a condition."""
    alone = [site for site, said in needs.items() if said.startswith("not needed")]
    most = sum(said == "not needed, left out" for said in needs.values())
    few = comb(len(alone), most + 1) <= MOST_SETS
    return few and all(told_without(program, some, options) == "fails" for some in sets_larger(needs, alone, most))


# An operand that names its word by a register, and not by its name, which may begin with an r too.
BY_A_REGISTER = re.compile(r"\[r(?:[abcd]x|[sd]i|[sb]p|8|9|1[0-5])\]")


def fences_told(runs: Runs, options: Namespace) -> tuple[list[str], int]:
    """The report of `fences`, and its status: of the program of these runs, which begin in its opening state. Where a condition
    fails, each line of a state that makes it false."""
    program = runs.opening.program
    lines, status = verdict_of(runs, options)
    if any(" fails" in line for line in lines):
        return lines, 1
    if options.only is not None:
        return [one_fence_told(program, site_named(options.only), options)], status
    needs = needs_of(program, options)
    kept = [told for told in needs.values() if told != "not needed, left out"]
    lines = [line for line in lines if line.endswith((" holds", " asked of no state"))]
    lines += [fence_line(site, instruction, needs[site]) for site, instruction in fences_of(program)]
    named = not any(BY_A_REGISTER.search(instruction) for _, instruction in fences_of(program))
    settled = named and not any(told.startswith("not known") for told in needs.values())
    said = ", least" if settled and is_least(program, needs, options) else ", no more can go" * settled
    return [*lines, f"keep {len(kept)} of {len(needs)}{said}"], status
