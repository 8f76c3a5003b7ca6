"""Reports of the examples of examples/, and what numbered schedules do, beside the second model, which was written from these documents
too (tests/model.py asks it more).

Expected texts stand in examples/NAME.KIND: those of `run` (.report), `debug` and `images`, `law`, `trace`, and files whose first line is
a command (.tally, .hunt, .replay, .live). None was taken from the program.
"""

from __future__ import annotations

import glob
import re
import shlex
from collections.abc import Iterator

from tests.examples import Example
from tests.harness import TOP, Case, Checks, Done, Px86, model, read, run, unlike, wrong_end, wrong_run

AT_LEAST = {"": 2287}
NEEDS_PROGRAM = True
WORKERS = "1", "2", "8"


def named(kind: str) -> list[str]:
    """The paths of the examples of a kind, without their endings."""
    return [path.removesuffix(f".{kind}") for path in sorted(glob.glob(f"examples/*.{kind}", root_dir=TOP))]


def like_model(px86: Px86, words: list[str], given: str = "", more: tuple[str, ...] = ()) -> str:
    """What is wrong with a report, which is to be that of the model; it is not told of more options."""
    wanted = model(*words, given=given)
    return wrong_run(px86(*words, *more, given=given), wanted.status, wanted.out, wanted.err)


# --- examples


def of_run(px86: Px86, path: str) -> Checks:
    report = read(f"{path}.report")
    status = 2 if re.search(r"^refused ", report, re.M) else 0
    yield "", wrong_run(px86("run", f"{path}.litmus", given=read(f"{path}.steps")), status, report)


def of_debug(px86: Px86, path: str) -> Checks:
    yield "", wrong_run(px86("debug", f"{path}.litmus", given=read(f"{path}.script")), 0, read(f"{path}.debug"))


def of_images(px86: Px86, path: str) -> Checks:
    report = read(f"{path}.images")
    status = int(bool(re.search(r"^all fails|^some none|^no set", report, re.M)))
    words = ["images", *shlex.split(read(f"{path}.options")), f"{path}.litmus"]
    yield "", wrong_run(px86(*words, given=read(f"{path}.steps")), status, report)


def of_law(px86: Px86, path: str) -> Checks:
    """The order of a list of steps; that of some examples is told."""
    told = read(f"{path}.law")
    yield "", wrong_run(px86("law", f"{path}.litmus", given=read(f"{path}.steps")), int(told.startswith("broken")), told)


def of_steps(px86: Px86, path: str) -> Checks:
    """The order of each list of steps; which steps may come next behind it, and which may not, or where a step of the list is refused
    its fault; and what threads do to which the steps are dealt. One thread has one journal. More threads may have others; each step is
    its thread's, and answered as the model says."""
    steps, litmus = read(f"{path}.steps"), f"{path}.litmus"
    yield "law", like_model(px86, ["law", litmus], steps)
    yield "next", like_model(px86, ["next", litmus], steps)
    yield "next --refused", like_model(px86, ["next", "--refused", litmus], steps)
    yield "live, one thread", like_model(px86, ["live", "--threads", "1", litmus], steps)
    for threads in "2", "3", "64":
        yield f"live, {threads} threads", wrong_live(px86, ["--threads", threads, litmus], steps)


def of_schedules(px86: Px86, path: str) -> Checks:
    """A report of `tally`, `hunt` or `replay`, of the model and of the program, without steps."""
    it = Example(path)
    yield "by the model", wrong_run(model(*it.words), it.status, it.report)
    yield "", wrong_run(px86(*it.words), it.status, it.report)
    # What `--show` adds leads to the state that breaks the condition: `images` tells the very image there.
    lines = it.report.splitlines(keepends=True)
    if {"hunt", "--all", "--show"} <= {*it.words} and lines[2:3] and lines[2].startswith("image"):
        done = px86("images", "--count", "--all", it.option("--all"), it.litmus, given="".join(lines[3:]))
        yield "images of the steps shown", unlike(done.out.splitlines()[-1:], [lines[2].replace("image", "all fails").rstrip()])


def of_trace(px86: Px86, path: str) -> Checks:
    """The status is 2 where the last step is refused."""
    told, steps = read(f"{path}.trace"), read(f"{path}.steps")
    status = 2 if re.search(r": M[0-9]* [A-Z]", told.splitlines()[-1]) else 0
    yield "by the model", wrong_run(model("trace", f"{path}.litmus", given=steps), status, told)
    yield "", wrong_run(px86("trace", f"{path}.litmus", given=steps), status, told)


def wrong_live(px86: Px86, words: list[str], steps: str) -> str:
    """What is wrong with a report of a live machine, where threads may come in any order: the model has to take it."""
    done = px86("live", *words, given=steps)
    return wrong_end(done, 0) or not_taken(px86, words, steps, done.out)


def not_taken(px86: Px86, words: list[str], steps: str, report: str) -> str:
    """Why the model does not take a report of a live machine."""
    told = model("live", "--check", px86.keep("report", report), *words, given=steps)
    return told.out + told.err


def of_live(px86: Px86, path: str) -> Checks:
    it, steps = Example(f"{path}.live"), read(f"{path}.steps")
    yield "by the model", not_taken(px86, it.words[1:], steps, it.report)
    yield "", wrong_live(px86, it.words[1:], steps)


PLANS = [
    *("--seed 7 --length 60 --runs 40", "--seed 8 --length 6 --runs 40", "--seed 18446744073709551615 --runs 40 --length 30 --crash-after 8"),
    "--seed 9 --length 40 --first 4294967256 --runs 40",
]


def of_tallies(px86: Px86, path: str) -> Checks:
    """Schedules that end by themselves, that are cut, and that crash."""
    for plan in PLANS:
        yield plan, like_model(px86, ["tally", *plan.split(), f"{path}.litmus"])


def of_turn(px86: Px86, turn: str, text: str, answer: str) -> Checks:
    """Hunts of the queue and of the mended one answer what the example says, turn by turn, of the model and of the program."""
    condition = "persisted flag = 0 or persisted item = 7"
    words = ["hunt", "--cond", condition, "--seed", "1", "--crash-after", turn, "--runs", "1000", f"examples/{text}"]
    yield "by the model", wrong_run(model(*words), int(answer != "none"), f"{answer}\n")
    yield "", wrong_run(px86(*words), int(answer != "none"), f"{answer}\n")


# --- programs without a meaning


def of_program(px86: Px86, number: int) -> Checks:
    """A program of all instructions, without a meaning: its tally, the least number of a hunt, and the steps of a schedule dealt to
    threads."""
    text = px86.keep("text.litmus", model("program", str(number)).out)
    plan = ["--seed", str(number), "--length", "40", "--runs", "30", "--crash-after", "20"]
    yield "tally", like_model(px86, ["tally", *plan, text])
    words = ["hunt", *plan, "--cond", "reg 0 rax < 0", "--show", text]
    yield "hunt", like_model(px86, words)
    yield "live", wrong_live(px86, ["--threads", "3", text], model(*words).out.partition("\n")[2])


def of_crashes(px86: Px86, number: int) -> Checks:
    """The first crash that may leave what breaks a condition, by any count of workers, as the model finds it by looking at all of them;
    and how many schedules have one."""
    program = model("program", str(number)).out
    text = px86.keep("text.litmus", program)
    name = program.partition("\nline ")[2].split()[0]
    for condition in f"persisted {name} <= 7", f"persisted {name} < 2", f"persisted {name} != 1 or reg 0 rax < 2", "reg 0 rsi < 8192":
        plan = ["--seed", str(number), "--length", "24", "--first", str(number * number - 1), "--runs", "12", "--all", condition]
        for lazy in [], ["--lazy"]:
            words = ["hunt", *plan, *lazy, "--show", text]
            yield from ((f"{condition}: hunt {lazy}, {it} workers", wrong) for it, wrong in by_workers(px86, words))
        yield f"{condition}: tally", like_model(px86, ["tally", *plan, text])


def of_ends(px86: Px86, number: int) -> Checks:
    """The first schedule that comes to an end which breaks a condition, by any count of workers, and how many come to one: before a
    crash, after one, and where the given steps crash. Some schedules are cut before their ends."""
    program = model("program", str(number)).out
    text = px86.keep("text.litmus", program)
    name = program.partition("\nline ")[2].split()[0]
    for condition in f"persisted {name} < 2", f"persisted {name} != 1 or reg 0 rax < 2", f"coherent {name} < 0", "reg 0 rax >= 0":
        for asked, crash, steps in ("--ends", [], ""), ("--ends", ["--crash-after", "9"], ""), ("--recovered", ["--crash-after", "12"], ""), ("--recovered", [], "crash\n"):
            for length in "20", "60":
                plan = ["--seed", str(number), "--length", length, "--first", str(number), "--runs", "25", *crash, asked, condition, text]
                case = f"{condition}: {asked} {' '.join(crash)} {steps.strip()} {length}"
                yield f"{case}: tally", like_model(px86, ["tally", *plan], steps)
                words = ["hunt", *plan, "--show"]
                wanted = model(*words, given=steps)
                for workers in WORKERS:
                    yield f"{case}: {workers} workers", wrong_run(px86(*words, "--workers", workers, given=steps), wanted.status, wanted.out)


def partly_ended(px86: Px86, path: str, words: list[str], lengths: list[str]) -> Checks:
    """Of some schedules that are cut at a turn a part has come to an end, and those alone are asked about. (Where no instruction jumps, as
    in the programs without a meaning, all take as many turns.)"""
    ended = set()
    for length in lengths:
        plan = ["--seed", "3", "--runs", "60", "--length", length, *words, f"{path}.litmus"]
        told = px86("tally", *plan)
        ended.add(told.out.splitlines()[1].split()[1])
        yield f"{length}: tally", like_model(px86, ["tally", *plan])
        yield from ((f"{length}: hunt, {it} workers", wrong) for it, wrong in by_workers(px86, ["hunt", *plan, "--show"]))
    yield "at some length a part of them", "" if ended - {"0", "60"} else "all or none"


def end_is_of_a_run(px86: Px86, path: str, asked: str, crash: list[str], condition: str) -> Checks:
    """What every run keeps at its ends, no schedule breaks at one; and after the steps that a hunt shows `check` reports the same end."""
    text = f"{path}.litmus"
    checked = px86("check", asked, condition, text)
    done = px86("hunt", asked, condition, *crash, "--runs", "400", "--show", text)
    found = done.out.startswith("least ")
    yield "check holds and a hunt finds", "check holds" if found and checked.status == 0 else ""
    if found:
        again = px86("check", asked, condition, "--show", text, given=behind_first_line(done))
        yield "behind its steps the run to the end has none", unlike(again.out.splitlines()[1:], ["steps 0"])


def by_workers(px86: Px86, words: list[str]) -> Checks:
    """A report of the model, by each count of workers."""
    wanted = model(*words)
    for workers in WORKERS:
        yield workers, wrong_run(px86(*words, "--workers", workers), wanted.status, wanted.out)


# Ends of examples: some are broken, and some are kept.
ENDS = [
    *(("examples/queue", "--recovered", ["--crash-after", str(turn)], "reg 0 rax = 0 or reg 0 rbx = 7") for turn in range(2, 12)),
    *(("examples/mended-queue", "--recovered", ["--crash-after", str(turn)], "persisted flag = 0 or persisted item = 7") for turn in (3, 7)),
    *(("examples/queue", "--recovered", ["--crash-after", str(turn)], "persisted flag = 0 or persisted item = 7") for turn in range(2, 12)),
    *(("examples/store-buffering", "--ends", [], condition) for condition in ("reg 0 rax = 1 or reg 1 rax = 1", "reg 0 rax = 1", "persisted x = 1")),
    *(("examples/lock", "--ends", [], condition) for condition in ("persisted count = 2", "persisted count = 1")),
]

PARTLY_ENDED = [
    ("examples/lock", ["--ends", "persisted count = 2"], ["24", "30", "33", "36", "40"]),
    ("examples/lock", ["--ends", "reg 1 rbx = 2"], ["28", "30", "33"]),
    ("examples/queue", ["--recovered", "reg 0 rax = 0 or reg 0 rbx = 7", "--crash-after", "6"], ["9", "10", "11"]),
    ("examples/queue", ["--recovered", "reg 0 rax = 1", "--crash-after", "6"], ["10", "11"]),
]

HUNTS = [
    # The lock's counter is below 2 where a processor has still to write: found after some tries.
    *(
        ["hunt", *plan.split(), "--cond", condition, "--show", "examples/lock.litmus"]
        for condition in ("coherent count = 0", "not persisted count = 2", "reg 1 rbx != 2 or persisted count = 1", "coherent count < 3")
        for plan in ("--seed 3 --length 30 --runs 120", "--seed 4 --length 60 --runs 120 --crash-after 40")
    ),
    # Conditions on store buffering that fail soon, late and never.
    *(
        ["hunt", "--seed", "1", "--length", "6", "--runs", "200", "--cond", condition, "examples/store-buffering.litmus"]
        for condition in ("reg 0 rax = 1", "not reg 0 rax = 1", "persisted x = 0 or persisted y = 0", "coherent x < 2")
    ),
]


def lost_write(px86: Px86, workers: str) -> Checks:
    """A write that a crash loses, or does not: three turns persist it."""
    text = px86.keep("text.litmus", "litmus 1\nline x\ncpu\nmov [x], 1\nend\n")
    plan = ["--seed", "1", "--length", "9", "--runs", "3", "--cond", "persisted x = 1"]
    words = ["hunt", *plan, "--workers", workers, text, "--crash-after"]
    yield "a crash loses it", wrong_run(px86(*words, "2"), 1, "least 0\n")
    yield "none does", wrong_run(px86(*words, "3"), 0, "none\n")


# --- the words that choose steps


def generator_words(_: Px86) -> Checks:
    yield "", wrong_run(run(["tools/generator-words"]), 0, read("tests/cases/generator.words"))


def chosen_steps(px86: Px86, seed: str, number: str, words: list[str]) -> Checks:
    """The words that choose the steps are those of generator.words. Where 16 processors have a step each, and no other step
    is enabled, the last digit of a word is the processor's number."""
    yield "the model's words", wrong_run(model("words", seed, number), 0, f"{' '.join([seed, number, *words])}\n")
    if number == "0":
        text = px86.keep("text.litmus", "litmus 1\n" + "cpu\nagain:\njmp again\nend\n" * 16)
        plan = ["--seed", seed, "--length", "5", "--runs", "1", "--cond", "reg 0 rax = 1", "--show"]
        wanted = "".join(f"exec {int(word, 16) % 16}\n" for word in words)
        yield "they choose steps", wrong_run(px86("hunt", *plan, text), 1, f"least 0\n{wanted}")


# No optimized flush waits for another, so each entry of a full buffer may leave: the first and the last, and those at
# 63 and 64. They are the last seven bits of the first word of a seed.
PLACES = {0: "147", 63: "8", 64: "159", 127: "112"}


def full_buffer(px86: Px86, place: int) -> Checks:
    seed = PLACES[place]
    word = model("words", seed, "0").out.split()[2]
    yield "the first word of the seed", unlike(int(word, 16) % 128, place)
    text = px86.keep("text.litmus", "litmus 1\nline x\ncpu\n" + "clflushopt [x]\n" * 128 + "end\n")
    words = ["hunt", "--seed", seed, "--length", "1", "--runs", "1", "--cond", "persisted x = 1", "--show", text]
    yield "it leaves", wrong_run(px86(*words, given="exec 0\n" * 128), 1, f"least 0\ndrain 0 {place}\n")


def behind_steps(px86: Px86) -> Checks:
    """Schedules behind steps, whose turns are counted from these on."""
    steps = "".join(read("examples/optimized-flush.steps").splitlines(keepends=True)[:3])
    words = ["tally", "--length", "5", "--runs", "200", "examples/optimized-flush.litmus"]
    yield "a tally", like_model(px86, words, steps)
    yield "a tally with a crash", like_model(px86, [*words, "--crash-after", "4"], steps)


def many_enabled(px86: Px86) -> Checks:
    """As many steps as can be enabled at once: of 16 processors a `nop` and 128 entries each, and of 64 lines a write."""
    stores = "".join(f"mov [x{line}], 1\n" for line in range(64))
    blocks = "".join("cpu\n" + stores * (p == 0) + f"clflushopt [x{p}]\n" * 128 + "nop\nend\n" for p in range(16))
    text = px86.keep("text.litmus", "litmus 1\n" + "".join(f"line x{line}\n" for line in range(64)) + blocks)
    steps = "exec 0\ndrain 0 0\n" * 64 + "".join(f"exec {p}\n" * 128 for p in range(16))
    for seed in range(1, 13):
        words = ["hunt", "--seed", str(seed), "--length", "3", "--runs", "1", "--show", "--cond", "coherent x0 = 0", text]
        yield f"hunt, seed {seed}", like_model(px86, words, steps)
    yield "tally", like_model(px86, ["tally", "--seed", "1", "--length", "12", "--runs", "5", text], steps)


# --- what a hunt shows


def hunt_forms(px86: Px86) -> Checks:
    """With --names a hunt names the words above the image. With --as-steps it reports the steps alone, whatever --show and --names ask
    for, and nothing where there are none."""
    it = Example("examples/unfenced-append.hunt")
    lines = it.report.splitlines(keepends=True)
    names = "".join([*lines[:2], "words r0a r0b r1a r1b tail\n", *lines[2:]])
    words, alone = it.words[1:], "".join(lines[3:])
    yield "names of the words", wrong_run(px86("hunt", "--names", *words), 1, names)
    yield "the steps alone", wrong_run(px86("hunt", "--as-steps", *words), 1, alone)
    yield "the steps alone, beside --names", wrong_run(px86("hunt", "--names", *words, "--as-steps"), 1, alone)
    yield "no steps where nothing is found", wrong_run(px86("hunt", "--as-steps", "--all", "persisted tail < 3", it.litmus), 0, "")
    # Those up to the turn lead images to the very image that hunt tells.
    done = px86("images", "--all", it.option("--all"), it.litmus, given="".join(px86(*it.words).out.splitlines(keepends=True)[3:]))
    told = [line.replace("image ", "all fails ") for line in it.report.splitlines() if line.startswith("image ")]
    yield "images of the steps up to the turn", unlike([line for line in done.out.splitlines() if line.startswith("all")], told)


def hunt_of_ends(px86: Px86) -> Checks:
    """What --show adds is a list of steps, which leads to the counterexample: behind the steps that were given, too."""
    it = Example("examples/queue.hunt")
    words, alone = it.words[1:], it.report.partition("\n")[2]
    yield "it has no image to name", wrong_run(px86("hunt", "--names", *words), 1, it.report)
    alone_done = px86("hunt", "--as-steps", *words)
    yield "the steps alone", wrong_run(alone_done, 1, alone)
    yield "run of these steps", wrong_run(px86("run", it.litmus, given=alone_done.out), 0, read("examples/queue.report"))
    condition, steps = "persisted flag = 0 or persisted item = 7", behind_first_line(px86(*it.words))
    images = px86("images", "--count", "--all", condition, it.litmus, given=steps)
    yield "images of these steps", wrong_run(images, 1, "candidates 1\nall fails 0 1\n")
    given = "exec 0\nexec 0\n"
    plan = ["hunt", "--seed", "1", "--crash-after", "4", "--cond", condition, "--show", it.litmus]
    wanted = model("run", it.litmus, given=given + behind_first_line(model(*plan, given=given)))
    done = px86("run", it.litmus, given=given + behind_first_line(px86(*plan, given=given)))
    yield "run of given steps and those that it shows", wrong_run(done, 0, wanted.out)


def behind_first_line(done: Done) -> str:
    return done.out.partition("\n")[2]


# --- live


def nops(px86: Px86) -> Checks:
    text = px86.keep("text.litmus", TWO_NOPS)
    for time in range(20):
        yield f"{time}", wrong_live(px86, ["--threads", "2", text], "exec 0\nexec 1\n")


TWO_NOPS = "litmus 1\ncpu\nnop\nend\ncpu\nnop\nend\n"
# Reports that cannot be: an entry of the other thread, another answer, another state, a step left out.
NOT_TAKEN = [
    "0 0 exec 1: ran 1 0 local|1 1 exec 0: ran 0 0 local|turns 2",
    "0 0 exec 0: ran 0 0 local|1 1 exec 1: M3 Halted|turns 2",
    "0 0 exec 0: ran 0 0 local|1 1 exec 1: ran 1 0 local|turns 1",
    "0 0 exec 0: ran 0 0 local|1 0 exec 0: M3 Halted|turns 2",
    "1 0 exec 0: ran 0 0 local|0 1 exec 1: ran 1 0 local|turns 2",
]


def taken(px86: Px86, lines: str) -> Checks:
    state = "crashes 0|cpu 0 main 1 halted zf 0|cpu 1 main 1 halted zf 0"
    report = "".join(f"{line}\n" for line in f"journal 2|{lines}|{state}".split("|"))
    words = [px86.keep("text.litmus", TWO_NOPS)]
    yield "", "" if not_taken(px86, words, "exec 0\nexec 1\n", report) else "it took it"


# An endless loop of all kinds of steps, and so many of these.
LOOP = """litmus 1
line x
line y
cpu
top:
lock xadd [x], rax
mov [y], 2
clflush [y]
add rax, 1
jmp top
recover
mov rax, [x]
end
cpu
top:
mov rcx, [y]
sfence
xchg [x], rcx
jnz top
mfence
end
"""
TURN = "exec 0\nexec 1\ndrain 0 0\nexec 0\ndrain 1 0\npersist 0\nexec 1\nsettle\npersist 1\nexec 2\n"


def many_steps(px86: Px86) -> Checks:
    """Many steps of all kinds, by the processors of an endless loop, dealt to many threads."""
    steps = "".join(TURN + "crash\n" * (turn % 29 == 28) for turn in range(60))
    text = px86.keep("text.litmus", LOOP)
    for threads in "1", "2", "4", "8":
        yield f"{threads} threads", wrong_live(px86, ["--threads", threads, text], steps)


EXAMPLES = {"report": of_run, "debug": of_debug, "images": of_images, "law": of_law, "trace": of_trace, "live": of_live}


def cases() -> Iterator[Case]:
    """All cases."""
    for number in range(1, 7):
        yield Case(f"hunts of crashes of program {number}", of_crashes, number)
    for number in range(1, 13):
        yield Case(f"ends of program {number}", of_ends, number)
    for path, asked, crash, condition in ENDS:
        yield Case(f"an end of a run: {path} {asked} {condition} {' '.join(crash)}", end_is_of_a_run, path, asked, crash, condition)
    yield from (Case(f"partly ended: {path} {' '.join(words)}", partly_ended, path, words, lengths) for path, words, lengths in PARTLY_ENDED)
    yield Case("2,128 enabled steps", many_enabled)
    for kind, asks in EXAMPLES.items():
        yield from (Case(f"{path}.{kind}", asks, path) for path in named(kind))
    yield from (Case(f"steps of {path}", of_steps, path) for path in named("steps"))
    for kind in "tally", "hunt", "replay":
        yield from (Case(f"{path}.{kind}", of_schedules, f"{path}.{kind}") for path in named(kind))
    for line in read("examples/queue.turns").splitlines()[1:]:
        yield Case(f"a hunt by turns: {line}", of_turn, *line.split(" ", 2))
    yield from (Case(f"tallies of {path}", of_tallies, path) for path in named("litmus"))
    yield from (Case(f"program {number}", of_program, number) for number in range(1, 21))
    yield Case("generator-words writes generator.words", generator_words)
    for line in read("tests/cases/generator.words").splitlines():
        seed, number, *words = line.split()
        yield Case(f"the words of {seed} and {number}", chosen_steps, seed, number, words)
    yield from (Case(f"entry {place} of a full buffer", full_buffer, place) for place in PLACES)
    yield Case("behind steps", behind_steps)
    yield from (Case(f"by workers: {shlex.join(words)}", by_workers, words) for words in HUNTS)
    yield from (Case(f"a write that a crash loses, {workers} workers", lost_write, workers) for workers in WORKERS)
    yield Case("forms of a hunt", hunt_forms)
    yield Case("a hunt of ends", hunt_of_ends)
    yield Case("two threads, a nop each", nops)
    yield from (Case(f"the model takes no report with {lines}", taken, lines) for lines in NOT_TAKEN)
    yield Case("602 steps by threads", many_steps)
