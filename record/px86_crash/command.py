"""The command line of px86-crash."""

from __future__ import annotations

import argparse
import hashlib
import io
import itertools
import math
import os
import re
import shlex
import sys
from collections.abc import Collection, Sequence
from dataclasses import dataclass, field, replace
from typing import Any, NoReturn, Protocol

from . import folders, readers, stepper
from .answer import Case, refuse_what_is_not_recorded
from .checker import how_ended, signal_of
from .emulator import Px86, find_px86
from .explore import Bound, Cut, Known
from .faults import Failed, Refused, nearest, plural
from .parts import Part, join, note_part, part_of
from .places import Places
from .questions import Questions, asked_words
from .recording import GRAINS, WORD, Recording
from .report import Progress, Report, draw, say_recorded, say_yes
from .schedules import ORDERS_BY_DEFAULT, Search, read_turns, threads_of, words_of_turns
from .text import MOST_INSTRUCTIONS, Names

USAGE = """px86-crash (--file POOL | --symbol NAME) [OPTIONS] -- PROGRAM ARGS..
       px86-crash --log LOG [OPTIONS]
       px86-crash --join FILE.."""
ABOUT = """Records PROGRAM as it is, has px86 list every memory that a crash may leave of this run at any point, and runs
your checker on each. POOL is not changed: the program is run on a copy.

exit status: 0 YES, 1 NO, 2 refused (the run has something that px86 has not, or is too large), 3 anything else"""


# The files of an answer, of which none of an earlier one is to stay.
ANSWERED = re.compile(
    r"(text|state)[0-9]+\.(litmus|script)|(ordered|mend|mended)\.litmus|bad\.(image.*|litmus|steps|svg)|asked\.steps"
    r"|(image|mend)[0-9]+.*|image"
)
# How much of each other order of threads is asked if nothing says how many there are to be.
BOUND_BY_DEFAULT = Bound(cases=1024, new=32)
# The folder of these, in that of the first.
OTHERS = "order"
ONE_ORDER = "note: this is one order of the threads: --schedules 200 records others, and tells which they were"


class MakeRun(Protocol):
    """Makes a run, whose report is this one. No more of it is asked than a bound says, if there is one."""

    def __call__(self, of: Report, bound: Bound | None = None) -> Run: ...


class Parser(argparse.ArgumentParser):
    def error(self, message: str) -> NoReturn:
        raise Failed(f"{message}\n{self.meant_by(message)}usage: {USAGE}")

    def meant_by(self, message: str) -> str:
        """A line with the option that may have been meant by the first that is none."""
        _, _, unknown = message.partition("unrecognized arguments: ")
        near = nearest(re.split("[ =]", unknown)[0].lstrip("-"), (option.lstrip("-") for option in self._option_string_actions))
        return f"did you mean --{near}?\n" if near else ""


def positive(text: str) -> float:
    number = float(text)
    if not 0 < number < 1e9:
        raise ValueError
    return number


def count(text: str) -> int:
    if not re.fullmatch("[0-9]{1,9}", text) or int(text) == 0:
        raise ValueError
    return int(text)


def number(text: str) -> int:
    if not re.fullmatch("[0-9]{1,9}", text):
        raise ValueError
    return int(text)


def bounds(text: str) -> tuple[int, int]:
    """FROM-TO: two multiples of 8 in hexadecimal, of which the second is greater."""
    begin, _, end = text.partition("-")
    found = int(begin, 16), int(end, 16)
    if not re.fullmatch("0x[0-9a-fA-F]{1,15}-0x[0-9a-fA-F]{1,15}", text) or found[0] >= found[1] or found[0] % WORD or found[1] % WORD:
        raise ValueError
    return found


# How long a program that is recorded, and a checker, may take, if it is not said.
SECONDS_TO_RECORD, SECONDS_TO_CHECK = 600.0, 60.0
SECONDS_TO_MEND = 10
# A longer run has a picture only if it is asked for.
MOST_STEPS_DRAWN = 64


def parser() -> Parser:
    made = Parser(usage=USAGE, description=ABOUT, formatter_class=argparse.RawDescriptionHelpFormatter, allow_abbrev=False)
    add = made.add_argument
    add("--file", metavar="POOL", action="append", help="record what is stored to this file; may be given again, for more files")
    add("--symbol", metavar="NAME", help="record what is stored to this variable of the program")
    add("--log", metavar="LOG", help="answer of a recording that was made before")
    add("--check", metavar="'CMD {}'", help="run CMD on each memory, a file in the place of {}: it ends with 0 (good) or 1 (bad)")
    add("--all", metavar="COND", help="ask px86 for a condition on words (docs/FORMATS.md)")
    add("--recovery", metavar="'CMD {}'", help="record CMD on each memory too, and check what a crash of it leaves")
    add("--runs", metavar="N", type=count, default=1, help="record N times (several threads)")
    add("--schedules", metavar="N", type=number, help="record at most N orders of threads: those with few forced switches first, and "
        f"then by random priorities; 0: the one that chance gives. If left out, that one and {ORDERS_BY_DEFAULT} others that differ, "
        "unless there is --seed, --step, --all, --recovery, --reads all, or an input by a pipe")
    add("--schedule", metavar="WORDS", help="record this order of threads, as --schedules tells it")
    add("--seed", metavar="S", type=number, help="of the random orders of threads; of --runs that of the first")
    add("--nt", choices=("map", "refuse"), default="map", help="a non-temporal store is taken as a store and a clwb (map), or refused")
    add("--grain", choices=tuple(GRAINS), default="line", help="what persists as a prefix of its stores: a cache line, or of a file "
        "on a disk a sector (512 bytes) or a page (4096)")
    add("--begin", action="store_true", help="record from the mark PX86_BEGIN on (record/px86-mark.h)")
    add("--begin-at", metavar="FUNCTION", help="record from when FUNCTION, of the program or a library of it, first returns")
    add("--end-at", metavar="FUNCTION", help="record up to when FUNCTION is called")
    add("--ack-fd", metavar="N", type=int, help="a write to this descriptor acknowledges")
    add("--ack-at", metavar="FUNCTION", help="each return of FUNCTION acknowledges one more")
    add("--step", action="store_true", help="record by a step for each instruction, and not at full speed")
    add("--window", metavar="N", type=count, default=MOST_INSTRUCTIONS, help="at most N instructions in a text")
    add("--names", metavar="FILE", help="names of words: lines of an offset and a name, as `0x40 tail` or `w40 tail`")
    add("--type", metavar="TYPE", help="the file begins with this type of the program, as 'struct pool': it names words by its fields")
    add("--time", metavar="SECONDS", type=positive, help="how long the program (600), and a checker (60), may take")
    add("--reads", choices=("words", "all"), help="run CMD once for all memories that agree on the words that it reads (words), or on "
        "each memory (all); words if left out and if it can be")
    add("--jobs", metavar="N", type=count, default=len(os.sched_getaffinity(0)), help="so many checkers at a time (all processors)")
    add("--ignore", metavar="FROM-TO", type=bounds, action="append", default=[], help="what is stored at these offsets counts as not "
        "stored; as 0x1b80-0x1bc0; may be given again")
    add("--mend", metavar="SECONDS", type=number, default=SECONDS_TO_MEND, help="with NO, look so long at most for flushes and fences "
        "that would do (10); 0 does not")
    add("--picture", action=argparse.BooleanOptionalAction, help="with NO, draw the run up to the bad memory: bad.svg. If left out, one of "
        f"at most {MOST_STEPS_DRAWN} steps")
    add("--part", metavar="K/N", type=part_of, default=Part(), help="ask of the part K of N of the --log alone: a JSON object for --join")
    add("--join", metavar="FILE", nargs="+", help="the answer of all parts")
    add("--json", action="store_true", help="the answer as one JSON object")
    add("--progress", action="store_true", help="say on standard error how far it is, also where that is no terminal")
    add("--out", metavar="DIR", default="px86-out", help="the folder for all files (px86-out)")
    add("program", nargs=argparse.REMAINDER, help=argparse.SUPPRESS)
    return made


def read_options(words: list[str]) -> argparse.Namespace:
    options = parser().parse_args(words)
    if options.program[:1] == ["--"]:
        del options.program[0]
    options.seconds_to_record = math.ceil(options.time or SECONDS_TO_RECORD)
    options.time = options.time or SECONDS_TO_CHECK
    if options.join is not None:
        return options
    if options.part.count > 1:
        options.json = True
        if options.log is None:
            raise Failed("--part needs --log: all parts are of one recording")
        if options.recovery is not None and options.reads == "all":
            raise Failed("--part with --recovery needs --reads words")
    given = [name for name in ("file", "symbol", "log") if getattr(options, name) is not None]
    if len(given) != 1:
        raise Failed(f"one of --file, --symbol and --log is wanted\nusage: {USAGE}")
    if options.log is None and not options.program:
        raise Failed(f"there is no PROGRAM behind --\nusage: {USAGE}")
    if options.log is not None and options.program:
        raise Failed("--log answers of a recording that is there, and runs no program")
    for name in ("check", "recovery"):
        command = getattr(options, name)
        if command is not None and "{}" not in command:
            raise Failed(f"--{name} has no {{}} for the file")
    if options.grain != "line" and options.all is not None:
        raise Failed(f"--all asks for words, and with --grain {options.grain} px86 counts the changes of a {options.grain}: use --check")
    if options.recovery is not None and options.file is not None and len(options.file) > 1:
        raise Failed("--recovery takes one --file")
    if options.recovery is not None and options.check is None:
        raise Failed("--recovery needs --check")
    wanted = {"runs": options.runs > 1, "schedules": bool(options.schedules), "schedule": options.schedule is not None}
    orders = [name for name, is_wanted in wanted.items() if is_wanted]
    if len(orders) > 1:
        raise Failed(f"--{orders[0]} and --{orders[1]}: one of them says in which order threads run")
    if orders and options.log is not None:
        raise Failed(f"--log answers of a recording that is there, and --{orders[0]} makes some")
    return options


def is_of_one_order(options: argparse.Namespace) -> bool:
    """Whether threads are recorded in one order, which nobody has chosen."""
    return options.log is None and options.runs == 1 and not options.schedules and options.schedule is None


def is_of_some_orders(options: argparse.Namespace) -> bool:
    """Whether others are recorded too, as nothing says in which order threads run. (By steps it would take long, and so would all
    memories, conditions and recoveries: there is no bound of these.)"""
    takes_long = options.step or options.reads == "all" or options.all is not None or options.recovery is not None
    return is_of_one_order(options) and options.schedules is None and options.seed is None and not takes_long


def seed_of(options: argparse.Namespace) -> int:
    return 1 if options.seed is None else int(options.seed)


def read_names(path: str | None) -> dict[int, str]:
    """The names of words by their offset."""
    if path is None:
        return {}
    named: dict[int, str] = {}
    try:
        with open(path, encoding="utf-8", errors="replace") as file:
            lines = [line.split("#")[0].split() for line in file]
    except OSError as error:
        raise Failed(f"{path}: {error.strerror}") from error
    for number, words in enumerate(lines, 1):
        if words:
            where = f"{path}: line {number}"
            if len(words) != 2:
                raise Failed(f"{where} is no offset and a name: {' '.join(words)}")
            offset, name = offset_of(words[0], where), words[1]
            check_name(name, where)
            if offset in named or name in named.values():
                raise Failed(f"{where} names a word again, or has a name again: {' '.join(words)}")
            named[offset] = name
    return named


def offset_of(text: str, where: str) -> int:
    """The offset of a word. A number without 0x is none: it might be meant as decimal or as hexadecimal."""
    if not re.fullmatch("(0x|w)[0-9a-fA-F]{1,16}", text):
        raise Failed(f"{where}: {text} is no offset: an offset is hexadecimal, as 0x40, or as w40")
    offset = int(text.removeprefix("0x").removeprefix("w"), 16)
    if offset % WORD:
        raise Failed(f"{where}: {text} is no multiple of 8, and so no word begins there")
    return offset


def check_name(name: str, where: str) -> None:
    """Fails if a word of a litmus text may not have this name, or another has it already."""
    if re.fullmatch("[wl][0-9a-f]+|ack|tick|filesize|rax|rcx|rdx|rbx|rsi|rdi|r8|r9", name):
        raise Failed(f"{where}: the name {name} is taken: by ack, tick, filesize, a register, or a word or line at an offset (w40, l40)")
    if not re.fullmatch("[a-z][a-z0-9_]{0,15}", name):
        raise Failed(f"{where}: {name} is no name: it has 1 to 16 characters a to z, 0 to 9 and _, and begins with a letter")


class Run:
    """One recording, and what is asked of it."""

    def __init__(
        self, options: argparse.Namespace, folder: str, px86: Px86, names: Names, report: Report, known: Known | None = None
    ) -> None:
        self.options, self.folder, self.px86, self.names, self.report, self.known = options, folder, px86, names, report, known
        folders.make(folder)
        if options.recovery is not None:
            folders.make(self.path("recovery"))
        for name in os.listdir(folder):
            if ANSWERED.fullmatch(name):
                os.remove(self.path(name))

    def path(self, name: str) -> str:
        return os.path.join(self.folder, name)

    def record(self, number: int, schedule: str | None) -> str:
        """Makes the recording, or finds it. `schedule` says in which order threads run; otherwise the number does, from 1."""
        options = self.options
        if options.log is not None:
            return str(options.log)
        words = options.program
        if options.file is not None:
            copies = stepper.copies_of(options.file, self.path("pool"))
            words = stepper.on_copy(words, copies)
            region = []
            # What an earlier run has left beside the copy.
            for name in os.listdir(self.folder):
                if name.startswith("pool"):
                    os.remove(self.path(name))
            for path, copy in copies.items():
                stepper.copy_pool(path, copy)
                region += ["--file", copy]
        else:
            region = ["--symbol", options.symbol]
        region += ["--begin"] if options.begin else []
        region += ["--step"] if options.step else []
        region += ["--ack-fd", str(options.ack_fd)] if options.ack_fd is not None else []
        for name in ("begin_at", "end_at", "ack_at"):
            function = getattr(options, name)
            region += [f"--{name.replace('_', '-')}", function] if function is not None else []
        region += ["--time", str(options.seconds_to_record)]
        region += ["--seed", str(seed_of(options) + number - 1)] if options.runs > 1 or options.seed is not None else []
        region += ["--schedule", schedule] if schedule is not None else []
        if options.place_of_input is not None:
            os.lseek(0, options.place_of_input, os.SEEK_SET)
        stepper.record(self.path("log"), words, region, self.path("output"), is_told=True)
        return self.path("log")

    def answer(self, number: int) -> int:
        """The status: 0 YES, 1 NO, or 3 if a checker ended otherwise."""
        return self.ask(self.record(number, self.options.schedule))

    def ask(self, log: str, seen: set[bytes] | None = None) -> int:
        """The same, of a recording. If one was seen that has the same operations nothing is asked, and the status is 0."""
        options = self.options
        recording = Recording(log, options.nt == "map", options.ignore, GRAINS[options.grain])
        if seen is not None and not recording.refusals:
            key = key_of(recording, options.all is not None)
            if key in seen:
                return 0
            seen.add(key)
        if recording.status is not None and signal_of(recording.status) and not recording.waiting:
            raise Failed(f"the program {how_ended(recording.status)}")
        if options.part.count > 1:
            note_part(self.report, options, recording)
        say_recorded(self.report, recording, options.ack_fd is not None, options.ack_at is not None)
        if is_of_one_order(options) and threads_of(log) > 1:
            self.report.say(ONE_ORDER)
        if options.recovery is not None and len(recording.endings) > 1:
            raise Failed("--recovery takes one --file")
        places = Places(recording, options.symbol, options.type)
        if options.log is None:
            places.save(log + ".places")
            places.fields.save(log + ".fields")
        refuse_what_is_not_recorded(recording, places)
        if not recording.waiting:
            return Questions(options, self.case(recording, places), self.report, self.known).ask()
        quiet = Report(is_quiet=True)
        if Questions(options, self.case(recording, places), quiet, self.known).ask() != 1:
            return say_waiting(self.report, recording, places)
        self.report.take(quiet)
        return 1

    def ask_order(self, log: str, schedule: str, seen: set[bytes]) -> int:
        """The status of a recording of this order. Of what is refused or fails the order is said too."""
        try:
            return self.ask(log, seen)
        except (Refused, Failed) as fault:
            kind = next(kind for kind in (Cut, Refused, Failed) if isinstance(fault, kind))
            raise kind(f"{fault}\nin the order --schedule {shlex.quote(schedule)}") from fault

    def case(self, recording: Recording, places: Places) -> Case:
        """Where the images are too many, and only a condition is asked of them, those of the lines that it asks are taken."""
        options = self.options
        needs_all = options.check is not None and options.reads == "all"
        asked = frozenset(asked_words(options.all, self.names, recording.size))
        window, nontemporal = min(options.window, MOST_INSTRUCTIONS), options.nt == "map"
        condition = options.all if options.part.is_first else None
        return Case(
            recording, places, self.folder, self.px86, self.names, window, asked, not needs_all, options.jobs, nontemporal, condition
        )


def choose_reads(options: argparse.Namespace, report: Report) -> None:
    """Memories are told apart by what the checker reads, if that can be seen here."""
    if options.check is None:
        return
    why = readers.why_not() if options.reads != "all" else None
    if options.reads == "words" and why is not None:
        raise Failed(f"--reads words: {why}")
    if options.reads is None:
        options.reads = "words" if why is None else "all"
        if why is not None:
            report.say(f"note: --reads all, as what the checker reads cannot be seen: {why}")


def answer_by_default(options: argparse.Namespace, report: Report, make_run: MakeRun) -> int:
    """Records a program in the order that chance gives. If it has several threads, and the answer is YES or it is refused, some orders
    are chosen too."""
    is_again, run = stepper.is_input_there_again(), make_run(report)
    log = run.record(1, None)
    if threads_of(log) < 2 or not is_again:
        return run.ask(log)
    first, seen, status = First(Report(is_quiet=True)), set[bytes](), 3
    run.report = first.report
    # What is said of a YES is mostly of this one, so its folder stays as it is.
    try:
        status = run.ask(log, seen)
    except Refused as refused:
        first.refused, status = refused, 0
    finally:
        if status:
            report.take(first.report)
    if status:
        return status
    options.schedules = ORDERS_BY_DEFAULT
    return answer_orders(options, report, make_run, first, seen)


@dataclass
class First:
    """What was said of the order that chance gave, if nobody asked for others; and why it is refused, if so."""

    report: Report
    refused: Refused | None = None


@dataclass
class Orders:
    """What was found of orders that were recorded."""

    search: Search
    # The recordings that differ.
    seen: set[bytes]
    accepted: list[Report] = field(default_factory=list)
    # How many of those that differ are accepted.
    held: int = 0
    passed_over: list[Refused] = field(default_factory=list)

    @property
    def refused(self) -> list[Refused]:
        return [fault for fault in self.passed_over if not isinstance(fault, Cut)]

    @property
    def cut(self) -> int:
        """Of how many some memories alone were asked, and are accepted."""
        return len(self.passed_over) - len(self.refused)

    def accept(self, report: Report, is_new: bool) -> None:
        self.accepted.append(report)
        self.held += is_new

    def counts(self) -> dict[str, int]:
        return {"in_part": self.cut, "refused": len(self.refused), "not_played": self.search.unlike}


def answer_orders(
    options: argparse.Namespace,
    report: Report,
    make_run: MakeRun,
    first: First | None = None,
    seen: set[bytes] | None = None,
) -> int:
    """Records one order of threads after another, up to the first of which the answer is not YES. One that is refused is passed over, as
    another one may be bad; in the end there is no YES. `first` is what was said of the order that chance gave, if nobody asked for
    others: then one that is not answered is passed over, and YES speaks of the first alone."""
    orders = Orders(Search(options.schedules, seed_of(options)), set() if seen is None else seen)
    search = orders.search
    if first is not None:
        search.add_by_chance()
        if first.refused is None:
            orders.accept(first.report, True)
        else:
            orders.passed_over.append(first.refused)
    for order in search:
        quiet, known = Report(is_quiet=True), len(orders.seen)
        Progress.within = f"order {search.recorded + 1} of at most {search.most}, {known} different"
        run = make_run(quiet, BOUND_BY_DEFAULT if first is not None else None)
        try:
            log = run.record(0, order.words)
        except stepper.NotPlayed:
            search.note_unlike(order)
            continue
        except stepper.NotRecorded as fault:
            if first is None:
                raise
            # It may be that it hangs, and so would the next ones.
            orders.passed_over.append(Refused(str(fault)))
            break
        turns = read_turns(log + ".turns")
        search.note(order, turns)
        words = words_of_turns(turns)
        try:
            status = run.ask_order(log, words, orders.seen)
        except Refused as refused:
            orders.passed_over.append(refused)
            continue
        finally:
            search.note_made(order, len(orders.seen) > known)
        if first is not None and status == 3 and quiet.facts.get("deadlock") is False:
            orders.passed_over.append(Refused("each thread waits in a loop"))
            continue
        if status:
            report.take(quiet)
            say_order(report, search, words)
            if first is not None and first.refused is not None:
                report.say(f"note: the order that chance gave is refused: {first_line(first.refused)}")
            return status
        orders.accept(quiet, len(orders.seen) > known)
    Progress.within = ""
    return say_all_orders(report, first, orders)


def say_all_orders(report: Report, first: First | None, orders: Orders) -> int:
    """What is said where none of the orders is bad."""
    if first is not None and first.refused is None and (orders.passed_over or orders.search.unlike):
        return say_first(report, first.report, orders)
    said: list[str] = []
    if first is not None:
        report.facts |= first.report.facts
        said = first.report.lines[: None if first.refused is not None else -1]
        for line in said:
            if line != ONE_ORDER:
                report.say(line)
    if orders.passed_over:
        report.note(other_orders=orders.counts())
        raise refused_orders(orders)
    return say_orders(report, orders, said)


def refused_orders(orders: Orders) -> Refused:
    """Why there is no YES of all orders, and of which ones what is asked holds."""
    why, count = orders.refused[0], len(orders.refused)
    if not orders.held and not orders.cut:
        return Refused(f"{why}\nthat is so of each order that was recorded: {orders.search.covered()}" if count > 1 else str(why))
    held = plural(orders.held, "other recording") + (f", and in some memories of {orders.cut} more" if orders.cut else "")
    return Refused(
        f"{why}\nthat is so of {plural(count, 'recording')}; what is asked holds in {held}\n"
        f"orders of threads that were recorded: {orders.search.covered()}"
    )


def first_line(fault: Exception) -> str:
    return str(fault).splitlines()[0]


def key_of(recording: Recording, is_with_locks: bool) -> bytes:
    """A hash of what is asked of a recording: the memory before it, its operations, and where its threads wait."""
    found = hashlib.sha256(recording.first_hash.encode())
    operations = recording.with_locks if is_with_locks else recording.operations
    for operation in operations:
        found.update(f"{operation.kind.name} {operation.thread} {operation.word} {operation.value} {operation.more}\n".encode())
    found.update(f"{recording.promises.found} {recording.status} {recording.waiting}".encode())
    return found.digest()


def say_order(report: Report, search: Search, words: str) -> None:
    """In which order the recording was made of which the answer is not YES, and the command that plays it again."""
    report.say(f"order: recorded after {search.covered()}")
    say_again(report, ["--schedule", words])
    report.note(schedule=words)


def say_again(report: Report, order: Sequence[str]) -> None:
    command = shlex.join(again(sys.argv, order))
    report.say(f"  {command}")
    report.note(again=command)


def again(words: Sequence[str], order: Sequence[str]) -> list[str]:
    """The command line with this order in the place of those of several."""
    made: list[str] = []
    behind = iter(words)
    for word in behind:
        if word == "--":
            return [*made, *order, word, *behind]
        if word in ("--schedules", "--runs", "--seed"):
            next(behind, None)
        elif not word.startswith(("--schedules=", "--runs=", "--seed=")):
            made.append(word)
    return made


def say_first(report: Report, first: Report, orders: Orders) -> int:
    """What was said of the order that chance gave: YES speaks of it alone, as not all of the others are answered."""
    *lines, accepted = first.lines
    for line in lines:
        report.say(line)
    if orders.cut:
        report.say(
            f"note: of {plural(orders.cut, 'recording')} in other orders some memories alone were asked, and are accepted "
            f"(--schedules {ORDERS_BY_DEFAULT} asks of all)"
        )
    if orders.refused:
        count, why = len(orders.refused), first_line(orders.refused[0])
        report.say(f"note: {plural(count, 'recording')} in other orders could not be asked of: {why}")
    say_unlike(report, orders.search)
    report.say(accepted)
    report.facts |= first.facts
    report.note(other_orders=orders.counts())
    return 0


def say_unlike(report: Report, search: Search) -> None:
    unlike = search.say_unlike()
    if unlike:
        report.say(unlike)


def say_orders(report: Report, orders: Orders, said: Collection[str]) -> int:
    """All orders are accepted. These lines are said of the first; of the others the notes count, and of what YES speaks."""
    search, different = orders.search, len(orders.seen)
    for note in notes_of(orders.accepted):
        if note not in said:
            report.say(note)
    say_unlike(report, search)
    report.say(f"orders of threads: {search.covered()}; {plural(different, 'different recording')}")
    report.note(orders=search.recorded, recordings=different)
    say_yes(report, facts_of_all(orders.accepted), "these orders" if search.most_turns else "this run")
    return 0


def notes_of(reports: Sequence[Report]) -> list[str]:
    """Each note of these reports once, whatever numbers are in it."""
    notes: dict[str, str] = {}
    for line in itertools.chain.from_iterable(report.lines for report in reports):
        if line.startswith("note: ") and line != ONE_ORDER:
            notes.setdefault(re.sub("[0-9][0-9a-fx,]*", "N", line), line)
    return list(notes.values())


def facts_of_all(reports: Sequence[Report]) -> dict[str, Any]:
    """Of what YES speaks where it is of all of these: not in each order several threads store."""
    ends = [stage for report in reports for _, stage in report.stages if stage["name"] == "end"]
    of_threads = [end for end in ends if end["threads"] > 1]
    return {
        **ends[0],
        "threads": max(end["threads"] for end in ends),
        "delays": all(end["delays"] for end in of_threads),
        "recovery_threads": any(end["recovery_threads"] for end in ends),
    }


def say_waiting(report: Report, recording: Recording, places: Places) -> int:
    """The program came to where none of its threads goes on."""
    deadlock = all(word == "waits" for word, _, _ in recording.waiting)
    report.say(f"no answer: {'each thread waits for another one (a deadlock)' if deadlock else 'each thread waits in a loop'}")
    for _, thread, place in recording.waiting:
        report.say(f"  thread {thread} waits at {places.of(place)}")
    report.note(deadlock=deadlock, waiting=[{"thread": thread, "place": places.of(place)} for _, thread, place in recording.waiting])
    return 3


def answer_all(options: argparse.Namespace, report: Report) -> int:
    names = Names(read_names(options.names))
    px86 = Px86(find_px86())
    if options.file is not None:
        for path in options.file:
            folders.refuse_pool_within(path, options.out)
    folders.make(options.out)
    folders.remove(os.path.join(options.out, OTHERS))
    choose_reads(options, report)
    options.place_of_input = stepper.place_of_input()
    try:
        status = answer_runs(options, report, px86, names)
    finally:
        px86.conversation.end()
    if not status:
        folders.remove(os.path.join(options.out, OTHERS))
    if status == 1 and options.picture is not False:
        draw(report, px86, os.path.join(options.out, "bad.svg"), None if options.picture else MOST_STEPS_DRAWN)
    return status


def answer_runs(options: argparse.Namespace, report: Report, px86: Px86, names: Names) -> int:
    # What the checker did on a memory it does in each order of threads.
    known = Known()

    def make_run(of: Report, bound: Bound | None = None) -> Run:
        folder = options.out if bound is None else os.path.join(options.out, OTHERS)
        return Run(options, folder, px86, names, of, replace(known, bound=bound))

    if options.schedules:
        return answer_orders(options, report, make_run)
    if is_of_some_orders(options):
        return answer_by_default(options, report, make_run)
    for number in range(1, options.runs + 1):
        if options.runs > 1:
            report.say(f"recording {number} of {options.runs}")
        folder = options.out if options.runs == 1 else os.path.join(options.out, f"run{number}")
        status = Run(options, folder, px86, names, report).answer(number)
        if status:
            if options.runs > 1:
                say_again(report, ["--seed", str(seed_of(options) + number - 1)])
            return status
    return 0


def status_of(words: list[str], report: Report) -> int:
    try:
        options = read_options(words)
        report.as_json, Progress.by_lines = options.json, options.progress
        return join(options.join, report) if options.join is not None else answer_all(options, report)
    except Refused as refused:
        for line in str(refused).splitlines():
            report.say(f"refused: {line}")
        return 2
    except Failed as failed:
        report.fail(str(failed))
    except OSError as error:
        report.fail(f"{error.filename + ': ' if error.filename else ''}{error.strerror}")
    except KeyboardInterrupt:
        report.fail("interrupted")
    except Exception as fault:
        # Python's own status would be 1, which is NO.
        report.fail(f"a fault of px86-crash itself: {fault!r}")
    return 3


def main(words: list[str]) -> int:
    # Names and what a checker says may have letters that the terminal has not.
    if isinstance(sys.stdout, io.TextIOWrapper):
        sys.stdout.reconfigure(errors="backslashreplace")
    report = Report()
    status = status_of(words, report)
    report.end(status)
    return status
