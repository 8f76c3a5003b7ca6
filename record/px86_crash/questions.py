"""What is asked of the memories of a run: a condition, the user's checker, and the checker behind a recovery that crashes."""

from __future__ import annotations

import argparse
import glob
import math
import os
import re
import shlex
import time
from collections.abc import Callable, Collection, Iterable, Mapping, Sequence
from contextlib import ExitStack
from dataclasses import replace

from . import checker, folders, stepper
from .answer import Case, refuse_what_is_not_recorded
from .branches import Branches
from .checker import Verdict
from .explore import MOST_LEAVES, Explorer, Found, Known, Leaf, Path, Worker
from .faults import Failed, Late, Refused, TooLarge, nearest, plural
from .images import Image, Pool, in_order
from .memory_files import MemoryFile
from .narrow import Narrow
from .parts import Part
from .places import Places
from .readers import Reader
from .recording import ACKNOWLEDGED, LINE, NEVER_FLUSHED, WORD, Operation, Recording
from .recoveries import CrashCuts, Recoveries, RecoveryWorker, UnknownRecording, key_of
from .repairs import Asks, Memory, Repairs, say_repair, window_of
from .report import (
    LATER,
    Accepts,
    Progress,
    Report,
    Shown,
    not_followed,
    say_cases,
    say_commands,
    say_crashes,
    say_image,
    say_memories,
    say_not_followed,
    say_yes,
    stored_by,
)
from .states import State, states_of, states_of_threads
from .talk import NoCondition
from .text import MOST_INSTRUCTIONS, Names, Text
from .threads import TooManyWays, ordered_text

NO_ANSWERS = {
    "strange": "the checker ended neither with 0 (good) nor with 1 (bad)",
    "late": "the checker did not end in time (--time)",
    "unsteady": "of one memory the checker does not say the same twice",
}


def asked_words(condition: str | None, names: Names, size: int) -> list[int]:
    """The words of which a condition asks, in its order. What is no word is left to px86 to refuse."""
    if condition is None:
        return []
    tokens = condition.replace("(", " ").replace(")", " ").split()
    if "coherent" in tokens or "reg" in tokens:
        raise Failed("--all asks of persisted values: a crash leaves nothing else")
    by_name = {name: word for word, name in names.named.items()}
    words = []
    for before, name in zip(tokens, tokens[1:]):
        if before == "persisted" and name in by_name:
            words.append(by_name[name])
        elif before == "persisted" and re.fullmatch("w[0-9a-f]{1,15}", name) and names.of(int(name[1:], 16)) == name:
            words.append(int(name[1:], 16))
    return [word for word in dict.fromkeys(words) if word < 0 or word < size and word % 8 == 0]


def meant_by_name(name: str, names: Names) -> str:
    """What is said of a name that no word has, as a line more."""
    offset = re.fullmatch("w([0-9a-f]{1,15})", name)
    if offset is None:
        near = nearest(name, names.named.values())
        return f"\ndid you mean {near}?" if near else "\na word is named by its offset, as w40, or by --names"
    if int(offset[1], 16) % WORD:
        return f"\na word begins at a multiple of 8: {names.of(int(offset[1], 16) // WORD * WORD)}"
    return "\nthe file has no word there"


class Questions:
    """Each question answers the status: 0, 1 (NO), or 3 (a checker ended otherwise)."""

    def __init__(self, options: argparse.Namespace, case: Case, report: Report, known: Known | None = None) -> None:
        self.options, self.case, self.report = options, case, report
        # What orders of threads share.
        self.known = known or Known()
        self.part: Part = options.part
        self.delays_were_asked = False
        self.recovery_has_threads = False
        # How long px86 took to list the images.
        self.seconds_to_list = 0.0

    def path(self, name: str) -> str:
        return os.path.join(self.case.folder, name)

    def ask(self) -> int:
        options = self.options
        if options.all is None and options.check is None:
            return self.ask_nothing()
        self.refuse_acknowledgements_of_recoveries()
        asks: list[tuple[str, Callable[[], int]]] = []
        if options.all is not None and self.part.is_first:
            asks.append(("condition", self.ask_condition))
        if options.check is not None:
            asks.append(("checker", self.ask_checker if options.reads == "all" else self.ask_by_reads))
        if options.recovery is not None:
            asks.append(("recovery", self.ask_recovery if options.reads == "all" else self.ask_recovery_by_reads))
        for name, ask in asks:
            self.report.begin(name)
            status = ask()
            if status:
                return status
        self.say_yes()
        return 0

    def ask_nothing(self) -> int:
        """A recording that was made now is there for a later question, also if its images are too many for a list."""
        try:
            self.case.answer.say_asked(self.report)
        except Refused as refused:
            if self.options.log is not None:
                raise
            self.report.say(f"note: the images are not listed: {refused}")
        self.report.say("no answer: nothing is asked; --check or --all asks")
        return 3

    def say_yes(self) -> None:
        facts = {
            "threads": len(self.case.recording.threads),
            "delays": self.delays_were_asked,
            "recovery_threads": self.recovery_has_threads,
            "has_check": self.options.check is not None,
            "ignored": self.case.recording.ignored,
            "unit": self.case.recording.unit if self.case.recording.grain != LINE else "",
        }
        self.report.begin("end")
        self.report.found(**facts)
        say_yes(self.report, facts)

    def refuse_acknowledgements_of_recoveries(self) -> None:
        """Each memory is recovered once, with its greatest acknowledgement. So a condition on others would not be asked."""
        options = self.options
        if options.all is None or options.recovery is None:
            return
        if ACKNOWLEDGED in asked_words(options.all, self.case.names, self.case.recording.size):
            raise Failed("--all asks for `ack`, and a recovery has none: ask it without --recovery")

    # --- a condition

    def ask_condition(self) -> int:
        image = self.first_false()
        self.case.answer.say_asked(self.report)
        if image is not None:
            self.report.found(rank=[])
            self.report.say("NO: a crash may leave a memory that makes the condition false")
            self.show(image, f"not ({self.options.all})")
            self.mend_condition(self.pending_of(image))
            return 1
        states = plural(self.case.answer.looks, "state")
        self.report.say(f"px86 images --all: the condition holds in each memory that {states} may leave")
        return self.ask_delays() if len(self.case.recording.threads) > 1 else 0

    def first_false(self) -> Image | None:
        """The first image that makes the condition false, or none."""
        try:
            false = self.case.answer.false
        except NoCondition as fault:
            raise Failed(self.explained(fault)) from fault
        return false[0] if false is not None else None

    def explained(self, fault: NoCondition) -> str:
        """What px86 says of a condition that is none."""
        words = ("images", "--count", "--all", self.options.all, self.path("text1.litmus"))
        _, _, said = self.case.px86.report(*words, explains=True)
        return f"--all: {said}{self.meant_name(said)}" if said else str(fault)

    def meant_name(self, said: str) -> str:
        """A line with the word that may have been meant by an unknown name of the condition; nothing after another fault."""
        unknown = re.match("E2 UnknownName ([0-9]+)", said)
        tokens = self.options.all.replace("(", " ( ").replace(")", " ) ").split()
        if unknown is None or int(unknown[1]) >= len(tokens):
            return ""
        return meant_by_name(tokens[int(unknown[1])], self.case.names)

    def ask_delays(self) -> int:
        """Asks of every run of the text that keeps the order of threads: stores may become visible later than they did."""
        case, say = self.case, self.report.say
        text = ordered_text(case.answer.texts[0], case.recording.with_locks)
        asked = text.ask(self.options.all)
        file = case.write("ordered.litmus", text.litmus(case.places))
        words = ("check", "--before-crash", "--all", asked, file, "--no-steps")
        status, told, said = case.px86.report(*words, seconds=self.options.time)
        if status == 0:
            self.delays_were_asked = True
            say(f"px86 check --all of {file}: it holds {LATER}")
            return 0
        if status != 1:
            say(f"note: px86 check --all of {file} cannot tell: {said}")
            return 0
        steps = case.write("bad.steps", "".join(step + "\n" for step in told["steps"]))
        values = tuple(told["values"])
        Pool(case.recording).write(self.path("bad.image"), Image(text, 0, values))
        self.report.found(rank=[])
        say("NO: if a store becomes visible later than recorded, a crash may leave a memory that makes the condition false")
        say("  (It has no loads. If a thread loads what another stored, and then flushes it, this may be a false alarm.)")
        say(f"  {self.path('bad.image')}: not ({self.options.all})")
        say_commands(self.report, case.px86, file, steps, values)
        self.mend_condition(())
        return 1

    # --- the checker, on each memory

    def ask_checker(self) -> int:
        """Runs the checker on each image, up to the first in order that it does not accept."""
        begun = time.monotonic()
        answer = self.case.answer
        self.seconds_to_list = time.monotonic() - begun
        if self.options.all is None:
            answer.say_asked(self.report)
        all_images = in_order(self.case.answer.images)
        images = [image for place, image in enumerate(all_images) if self.part.takes(place)]
        progress = Progress("memories are checked", len(images))
        bad = self.first_bad(images, progress)
        progress.done()
        if bad is not None:
            image, verdict = bad
            self.report.found(rank=[all_images.index(image)])
            self.say_verdict(verdict, "a crash may leave a memory that the checker refuses")
            self.show(image, verdict.said, image.acknowledged, verdict)
            if verdict.kind == "bad":
                self.mend_image(image)
            return 1 if verdict.kind == "bad" else 3
        facts = {"memories": len(images)}
        self.report.found(facts=facts)
        say_memories(self.report, facts)
        return 0

    def first_bad(self, images: Sequence[Image], progress: Progress, until: float = math.inf) -> tuple[Image, Verdict] | None:
        """The first image that is not accepted, and what is said of it. Several are checked at a time, each as a file of its own, and
        those before a bad one are waited for. It is late if it is not done at some time."""
        jobs = self.options.jobs
        files = [self.path(f"image{number:03}") for number in range(jobs)]
        pools = [Pool(self.case.recording) for _ in range(jobs)]
        bad: tuple[Image, Verdict] | None = None
        # It takes a tenth of the time in which the command starts.
        from concurrent.futures import ThreadPoolExecutor

        with ThreadPoolExecutor(jobs) as executor:
            for begin in range(0, len(images), jobs):
                if time.monotonic() > until:
                    raise Late("not all images are checked")
                some = images[begin : begin + jobs]
                verdicts = executor.map(lambda pool, file, image: self.verdict(pool, file, image, image.acknowledged), pools, files, some)
                for image, verdict in zip(some, list(verdicts)):
                    if verdict.kind != "good" and bad is None:
                        bad = image, verdict
                if bad is not None:
                    break
                progress.at(begin + len(some))
        self.remove_files(jobs)
        return bad

    def verdict(self, pool: Pool, file: str, image: Image, acknowledged: int) -> Verdict:
        """What the checker says of an image, each time on a file that is made anew."""

        def run() -> Verdict:
            pool.write(file, image)
            command = self.case.recording.promises.before(self.options.check, acknowledged)
            return checker.check(command, file, acknowledged, self.options.time, pool.recording.endings)

        return checker.steady(run)

    def say_verdict(self, verdict: Verdict, bad: str) -> None:
        self.report.say(f"NO: {bad}" if verdict.kind == "bad" else f"no answer: {NO_ANSWERS[verdict.kind]}")

    def show(self, image: Image, said: str, acknowledged: int | None = None, verdict: Verdict | None = None) -> None:
        """Shows an image that the checker does not accept, or if there is no verdict that makes the condition false."""
        case, what = self.case, "the lines of the condition"
        if case.answer.recording.is_whole:
            Pool(case.recording).write(self.path("bad.image"), image)
            acknowledged = image.acknowledged if acknowledged is None else acknowledged
            what = f"{self.path('bad.image')}, acknowledged {case.recording.promises.said(acknowledged)}"
            self.report.note(image=self.path("bad.image"), acknowledged=acknowledged)
        if verdict is None:
            self.show_stores(image, what, said, asked_words(self.options.all, case.names, case.recording.size))
        else:
            self.show_stores(image, what, said, accepts=self.accepts_image(image, acknowledged or 0, verdict))

    def show_stores(self, image: Image, what: str, said: str, asked: Sequence[int] = (), accepts: Accepts | None = None) -> None:
        self.report.say(f"  {what}: {said}")
        self.report.note(said=said)
        steps = self.case.write("bad.steps", "".join(step + "\n" for step in image.text.steps_to(image.look)))
        shown = Shown(image.text, image.look, image.values, steps, self.case.answer.left_of(image))
        say_image(self.report, self.case.px86, self.case.places, shown, asked=asked, accepts=accepts)

    def accepts_image(self, image: Image, acknowledged: int, verdict: Verdict) -> Accepts | None:
        """Whether the checker accepts an image that it refuses if one store more had persisted."""
        if verdict.kind != "bad":
            return None
        pool, words = Pool(self.case.recording), image.text.words

        def run(store: Operation) -> Verdict:
            values = tuple(store.value if word == store.word else value for word, value in zip(words, image.values))
            found = self.verdict(pool, self.path("image000"), replace(image, values=values), acknowledged)
            self.remove_files(1)
            return found

        return Acceptance(run)

    # --- the checker, by what it reads

    def ask_by_reads(self) -> int:
        """Runs the checker once for all memories that agree on what it reads. Of several threads with too many lists of choices those
        of the lines that are read are taken, step by step: what is good with fewer choices is good with all."""
        recording, lines = self.case.recording, frozenset[int]()
        try:
            states = list(states_of(recording))
        except TooManyWays:
            if self.part.count > 1:
                # Each part would come to other lines, and so to other states.
                self.report.note(part_asks="all" if self.part.is_first else "nothing")
            while True:
                try:
                    return self.explore(list(states_of_threads(recording, lines)), lines)
                except MoreLines as more:
                    lines |= more.lines
        return self.explore(states)

    def explore(self, all_states: Sequence[State], lines: frozenset[int] | None = None) -> int:
        """Runs the checker on what these states may leave. If they have the choices of some lines alone, what is not good counts if
        no other line was read."""
        case, options, history = self.case, self.options, all_states[0].history
        states = self.of_part(all_states, lines is None)
        with ExitStack() as stack:
            stack.callback(self.remove_files, options.jobs)
            workers = [Worker(reader, MemoryFile(history), options.check) for reader in self.readers(stack, "image")]
            known = self.known if len(case.recording.threads) > 1 else None
            explorer = Explorer(states, workers, Progress("windows are done", len(states)), known=known)
            narrow = Narrow(case)
            agreement = Agreement(Branches(narrow), explorer)
            explorer.explore()
            if lines is not None:
                want_more_lines(explorer, case.recording, lines)
            if explorer.bad is not None:
                say_not_followed(self.report, not_followed(explorer.why), "read")
                return self.show_leaf(explorer.bad, explorer.workers[0], narrow)
            self.refuse_too_large(explorer)
            self.refuse_what_px86_cannot_have(agreement)
            again = explorer.ask_again(len(all_states))
        facts = {"states": len(states), "cases": explorer.runs, "again": again, "points": agreement.count, **not_followed(explorer.why)}
        unread = sorted(self.never_flushed().difference(explorer.read_words()))
        self.report.found(facts=facts, unread=unread)
        say_cases(self.report, facts, unread)
        return 0

    def never_flushed(self) -> set[int]:
        """The words that were stored, and not flushed behind that."""
        stores = (operation for operation in self.case.recording.operations if operation.stores and NEVER_FLUSHED in operation.note)
        return {word for store in stores for word, _ in store.stored if word >= 0}

    def of_part(self, states: Sequence[State], are_shared: bool = True) -> list[State]:
        """The states of this part. If they are not shared out the first part has all."""
        return [state for state in states if (self.part.takes(state.number) if are_shared else self.part.is_first)]

    def readers(self, stack: ExitStack, name: str, options: Sequence[str] = (), seconds: float | None = None) -> list[Reader]:
        """One for each job. A checker that writes where it stands is to find files whose names are equally long."""
        processors = sorted(os.sched_getaffinity(0))
        made = []
        for number in range(self.options.jobs):
            file = os.path.abspath(self.path(f"{name}{number:03}"))
            processor = processors[number % len(processors)]
            made.append(stack.enter_context(Reader(file, seconds or self.options.time, processor, options, self.case.recording.endings)))
        return made

    def remove_files(self, jobs: int, *names: str) -> None:
        """Those of the memories, and what the checker has made beside them."""
        for name in names or ("image*",):
            for number in range(jobs):
                for file in glob.glob(glob.escape(self.path(name.replace("*", f"{number:03}"))) + "*"):
                    os.remove(file)

    def refuse_too_large(self, explorer: Explorer, who: str = "the checker") -> None:
        for state in explorer.states:
            found = explorer.found[state.number]
            if found.is_too_large:
                lines = found.lines & {operation.line for operation in state.pending}
                self.report.found(refused=[0, state.number])
                raise Refused(
                    f"{self.where(state)} {who} may behave in more than {MOST_LEAVES:,} ways: it reads "
                    f"{plural(len(lines), 'line')} of what is pending there"
                )

    def refuse_what_px86_cannot_have(self, agreement: Agreement) -> None:
        """Of what px86 cannot be asked there is no YES."""
        for state in agreement.explorer.states:
            if state.number in agreement.too_large:
                self.report.found(refused=[1, state.number])
                raise Refused(f"{self.where(state)} {agreement.too_large[state.number]}")

    def where(self, state: State) -> str:
        if state.part is None:
            return "in the run of several threads"
        begin, end = (
            f"the {operation.name} at {self.case.places.of(operation.place)}" if operation else of_the_run
            for operation, of_the_run in ((state.begin, "the beginning"), (state.part.end, "the end"))
        )
        return f"between {begin} and {end}:"

    def show_leaf(self, leaf: Leaf, worker: Worker, narrow: Narrow) -> int:
        """What is said of a leaf that is not good: what the checker says with nothing that looks on."""
        self.report.found(rank=leaf.rank)
        memory = leaf.cuts().memory()
        verdict = self.verdict_unseen(leaf, worker, memory)
        self.say_verdict(verdict, "a crash may leave a memory that the checker refuses")
        self.say_memory(self.path("bad.image"), worker, leaf.state, memory, leaf.state.value(ACKNOWLEDGED, memory), verdict)
        shown = narrow.shown(leaf, memory)
        accepts = accepts_with(worker, leaf.state, memory, shown.text, verdict)
        say_image(self.report, self.case.px86, self.case.places, shown, leaf.path.words, accepts=accepts)
        if verdict.kind == "bad":
            self.say_repair(memory_of(leaf), self.refused_by_reads)
        return 1 if verdict.kind == "bad" else 3

    def verdict_unseen(self, leaf: Leaf, worker: Worker, memory: dict[int, int]) -> Verdict:
        verdict = worker.run_unseen(leaf.state, memory)
        if verdict.kind == "good":
            said = f"while it was watched {leaf.verdict.said}; as it is, it ended with 0 (--reads all watches nothing)"
            return Verdict("unsteady", said)
        return verdict

    def say_memory(self, file: str, worker: Worker, state: State, memory: dict[int, int], acknowledged: int, verdict: Verdict) -> None:
        worker.files.write(file, state.number, memory)
        self.report.say(f"  {file}, acknowledged {self.case.recording.promises.said(acknowledged)}: {verdict.said}")
        self.report.note(image=file, acknowledged=acknowledged, said=verdict.said)

    # --- what would do

    def say_repair(self, memory: Memory, asks: Asks, condition: str = "", asked: Iterable[int] = ()) -> None:
        """Says by which flushes and fences a memory would not be left, if px86 has some. A disk has none."""
        if not self.options.mend or self.case.recording.grain != LINE:
            return
        repairs = Repairs(self.case, self.options.mend, asks, condition, asked)
        repair = repairs.look(memory)
        if repair is not None:
            say_repair(self.report, self.case, repair, repairs.by_msync, bool(condition))

    def refused_by_reads(self, recording: Recording, repairs: Repairs) -> Memory | None:
        """The first memory of a recording that the checker does not accept."""
        states = list(states_of(recording))
        with ExitStack() as stack:
            stack.callback(self.remove_files, self.options.jobs, "mend*")
            readers = self.readers(stack, "mend", seconds=min(self.options.time, repairs.seconds))
            workers = [Worker(reader, MemoryFile(states[0].history), self.options.check) for reader in readers]
            known = Known() if len(recording.threads) > 1 else None
            explorer = Explorer(states, workers, Progress("windows with a repair are done", len(states)), until=repairs.until, known=known)
            agreement = Agreement(Branches(Narrow(replace(self.case, recording=recording))), explorer)
            explorer.explore()
            if explorer.bad is not None:
                return memory_of(explorer.bad)
        if agreement.too_large or any(found.is_too_large for found in explorer.found.values()):
            raise Late("not all is explored")
        return None

    def mend_image(self, image: Image) -> None:
        if image.text.contents is None:
            memory = Memory(dict(zip(image.text.words, image.values)), self.pending_of(image))
            self.say_repair(memory, self.refused_of_all)

    def refused_of_all(self, recording: Recording, repairs: Repairs) -> Memory | None:
        """The same, where the checker is run on each memory."""
        if self.seconds_to_list > repairs.seconds:
            raise Late("its images are not listed")
        folder = self.path("mend")
        folders.make(folder)
        other = Questions(self.options, replace(self.case, recording=recording, folder=folder, condition=None), Report(is_quiet=True))
        images = in_order(other.case.answer.images)
        bad = other.first_bad(images, Progress("memories with a repair are checked", len(images)), repairs.until)
        if bad is None:
            return None
        image, _ = bad
        return Memory(dict(zip(image.text.words, image.values)), other.pending_of(image))

    def mend_condition(self, pending: Sequence[Operation]) -> None:
        options, case = self.options, self.case
        asked = asked_words(options.all, case.names, case.recording.size)
        self.say_repair(Memory({}, pending), lambda recording, repairs: repairs.refuses(recording), options.all, asked)

    def pending_of(self, image: Image) -> Sequence[Operation]:
        """What is pending where a crash leaves an image, as operations of the recording."""
        pending = image.text.looks[image.look].pending
        last = next((operation for operation in reversed(pending) if operation.stores), None)
        return pending if last is None or len(self.case.recording.threads) > 1 else window_of(self.case.recording, last)

    # --- recovery, by what it reads

    def ask_recovery_by_reads(self) -> int:
        """Records the recovery once for all memories that agree on what it reads (recoveries.py)."""
        case, narrow = self.case, Narrow(self.case)
        branches = Branches(narrow)
        recoveries = self.recoveries(branches)
        all_states = list(states_of(case.recording))
        states, history = self.of_part(all_states), all_states[0].history
        with ExitStack() as stack:
            stack.callback(self.remove_files, self.options.jobs, *(f"recovery/{name}" for name in RecoveryWorker.FILES))
            # Debug registers take a store for a read. A recovery stores much that it has not read.
            readers = zip(self.readers(stack, "recovery/pool", ("--registers", "0")), self.readers(stack, "recovery/image"))
            workers = [RecoveryWorker(number, both, history, recoveries) for number, both in enumerate(readers)]
            explorer = Explorer(states, workers, Progress("windows are done", len(states)))
            agreement = Agreement(branches, explorer)
            explorer.explore()
            self.recovery_has_threads = recoveries.has_threads
            why = not_followed(explorer.why, "read of a recovery") | not_followed(recoveries.why, "read behind a recovery")
            if explorer.bad is not None:
                return self.show_recovery(explorer.bad, workers[0], narrow)
            self.refuse_too_large(explorer, "the recovery")
            self.refuse_what_px86_cannot_have(agreement)
            self.refuse_crashes(recoveries)
            again = explorer.ask_again(len(all_states))
        facts = {
            "recoveries": explorer.runs,
            "crashes": recoveries.cases,
            "recovered_again": again,
            "crashed_again": recoveries.again,
            "crash_points": agreement.count + recoveries.points,
            **why,
        }
        self.report.found(facts=facts, has_condition=self.options.all is not None)
        say_crashes(self.report, facts, self.options.all is not None)
        return 0

    def refuse_crashes(self, recoveries: Recoveries) -> None:
        if recoveries.too_large:
            key = min(recoveries.too_large)
            self.report.found(refused=[2, *key])
            raise recoveries.too_large[key]

    def recoveries(self, branches: Branches) -> Recoveries:
        options, folder = self.options, self.path("recovery")
        seconds = options.seconds_to_record
        return Recoveries(options.recovery, options.check, seconds, options.step, self.case, folder, options.all, branches)

    def show_recovery(self, leaf: Leaf, worker: RecoveryWorker, narrow: Narrow) -> int:
        """What is said of a recovery of which a crash leaves what is not good. It is recorded again, on such a memory."""
        self.report.found(rank=leaf.rank)
        recoveries, found = worker.all, worker.all.found[key_of(leaf)]
        cuts = found.bad.cuts() if found.bad is not None else None
        memory = cuts.least().run.memory() if isinstance(cuts, CrashCuts) else leaf.cuts().memory()
        log = recoveries.path("log")
        _, recording, _ = worker.recover(leaf.state, memory, log)
        worker.refuse_another(leaf, recording)
        crash, acknowledged = f"a crash of the recovery of {log}.before may leave a memory that", leaf.state.value(ACKNOWLEDGED, memory)
        read = list(leaf.path.words)
        if found.bad is None:
            status = self.show_false_recovery(recoveries, recording, crash, acknowledged)
        else:
            recording.known = memory
            status = self.show_crash(found.bad, worker, recording, crash, acknowledged)
            read += [word for word in found.bad.path.words if word in leaf.state.after]
        promised = self.case.recording.promises.said(acknowledged)
        self.report.say(f"  {log}.before, acknowledged {promised}: the recovery began with this memory, which a crash of the run may leave")
        shown = narrow.shown(replace(leaf, path=Path(read, [memory[word] for word in read])), memory)
        say_image(self.report, self.case.px86, self.case.places, shown, read)
        return status

    def show_false_recovery(self, recoveries: Recoveries, recording: Recording, crash: str, acknowledged: int) -> int:
        plain = Recording(recording.path, self.case.map_nontemporal, recording.ignored, recording.grain)
        plain.promises = self.case.recording.promises
        of_recovery = Questions(self.options, recoveries.case_of(plain, recoveries.folder, Places(plain)), self.report)
        image = of_recovery.first_false()
        if image is None:
            raise Failed("a condition that was false of a recovery holds if it is recorded again")
        self.report.say(f"NO: {crash} makes the condition false")
        of_recovery.show(image, f"not ({self.options.all})", acknowledged)
        return 1

    def show_crash(self, bad: Leaf, worker: RecoveryWorker, recording: UnknownRecording, crash: str, acknowledged: int) -> int:
        """A memory that a crash of a recovery leaves, on the lines that the checker has read. All before the recovery is known now."""
        recoveries, memory, places = worker.all, bad.cuts().memory(), Places(recording)
        of_checker = Worker(worker.of_checker, MemoryFile(bad.state.history), self.options.check)
        verdict = self.verdict_unseen(bad, of_checker, memory)
        self.say_verdict(verdict, f"{crash} the checker refuses")
        self.say_memory(recoveries.path("bad.image"), of_checker, bad.state, memory, acknowledged, verdict)
        state = next(state for state in states_of(recording) if state.number == bad.state.number)
        shown = Narrow(recoveries.case_of(recording, recoveries.folder, places)).shown(replace(bad, state=state), memory)
        accepts = accepts_with(of_checker, bad.state, memory, shown.text, verdict)
        say_image(self.report, self.case.px86, places, shown, bad.path.words, accepts=accepts)
        if verdict.kind == "bad":
            # That is of this one recovery: no other one is asked about again.
            Questions(self.options, recoveries.case_of(recording, recoveries.folder, places), self.report).say_repair(
                memory_of(replace(bad, state=state)), not_asked
            )
        return 1 if verdict.kind == "bad" else 3

    # --- recovery, on each memory

    def ask_recovery(self) -> int:
        """Records the recovery on each image, and asks of what a crash of it may leave what is asked of the run."""
        folder, case = self.path("recovery"), self.case
        images = case.answer.images
        pool, checked = Pool(case.recording), set[tuple[int, bytes]]()
        progress = Progress("recoveries are asked", len(images))
        for number, image in enumerate(images, 1):
            pool.write(os.path.join(folder, "pool"), image)
            status = self.recover(folder, image, checked, progress)
            if status:
                what = f"{folder}/log.before, acknowledged {case.recording.promises.said(image.acknowledged)}"
                self.show_stores(image, what, "the recovery began with this memory, which a crash of the run may leave")
                return status
            progress.at(number)
        progress.done()
        self.report.say(f"the checker accepts {plural(len(checked), 'memory')} that a crash of a recovery may leave")
        if self.options.all is not None:
            self.report.say("px86 images --all: the condition holds in each memory that a crash of a recovery may leave")
        return 0

    def recover(self, folder: str, image: Image, checked: set[tuple[int, bytes]], progress: Progress) -> int:
        """The recovery of an image, which is the file `pool` of a folder. Memories that were checked are passed over."""
        case = self.recovery_of(folder)
        self.recovery_has_threads |= len(case.recording.threads) > 1
        of_recovery = Questions(self.options, case, self.report)
        crash = f"a crash of the recovery of {folder}/log.before may leave a memory that"
        false = of_recovery.first_false() if self.options.all is not None else None
        if false is not None:
            progress.done()
            self.report.say(f"NO: {crash} makes the condition false")
            of_recovery.show(false, f"not ({self.options.all})", image.acknowledged)
            return 1
        pool, file = Pool(case.recording), os.path.join(folder, "image")
        for left in case.answer.images:
            # The recovery may have written to the file before it mapped it: so all its bytes count.
            key = (image.acknowledged, pool.sum(left))
            if key in checked:
                continue
            checked.add(key)
            verdict = self.verdict(pool, file, left, image.acknowledged)
            if verdict.kind != "good":
                progress.done()
                self.say_verdict(verdict, f"{crash} the checker refuses")
                of_recovery.show(left, verdict.said, image.acknowledged, verdict)
                return 1 if verdict.kind == "bad" else 3
        return 0

    def recovery_of(self, folder: str) -> Case:
        options, log, pool = self.options, os.path.join(folder, "log"), os.path.join(folder, "pool")
        words = shlex.split(checker.command_on(options.recovery, pool))
        how = ["--file", pool, "--time", str(options.seconds_to_record)] + (["--step"] if options.step else [])
        stepper.record(log, words, how, os.path.join(folder, "output"))
        recording = Recording(log, options.nt == "map", self.case.recording.ignored, self.case.recording.grain)
        if recording.status:
            raise Failed(f"the recovery of {log}.before {checker.how_ended(recording.status)}")
        recording.promises = self.case.recording.promises
        places = Places(recording)
        refuse_what_is_not_recorded(recording, places)
        asked = frozenset(asked_words(options.all, self.case.names, recording.size))
        case, px86, names = self.case, self.case.px86, self.case.names
        return Case(recording, places, folder, px86, names, MOST_INSTRUCTIONS, asked, jobs=case.jobs, condition=options.all)


class Acceptance:
    """Whether the checker accepts a memory in which a store more has persisted. After one on which it does not end nothing is asked."""

    def __init__(self, run: Callable[[Operation], Verdict]) -> None:
        self.run, self.is_late = run, False

    def __call__(self, store: Operation) -> bool:
        if self.is_late:
            return False
        kind = self.run(store).kind
        self.is_late = kind == "late"
        return kind == "good"


def accepts_with(worker: Worker, state: State, memory: Mapping[int, int], text: Text, verdict: Verdict) -> Accepts | None:
    """Whether the checker accepts a memory of a state that it refuses if one store more had persisted."""
    if verdict.kind != "bad":
        return None
    return Acceptance(lambda store: worker.run_unseen(state, {**memory, **stored_by(store, text)}))


def memory_of(leaf: Leaf) -> Memory:
    """What a leaf has read of what is pending."""
    if leaf.verdict.kind == "late":
        raise Late("the checker does not end")
    read = zip(leaf.path.words, leaf.path.values)
    return Memory({word: value for word, value in read if word in leaf.state.lines}, leaf.state.pending)


def not_asked(recording: Recording, repairs: Repairs) -> Memory | None:
    raise Late("it is not asked about")


class MoreLines(Exception):
    """The choices of more lines count."""

    def __init__(self, lines: Collection[int]) -> None:
        super().__init__()
        self.lines = frozenset(lines)


def want_more_lines(explorer: Explorer, recording: Recording, lines: Collection[int]) -> None:
    """What is not good, or too large, may be so because choices of other lines are missing that were read."""
    if explorer.bad is not None:
        read: set[int] = set(explorer.bad.lines)
    else:
        read = {line for found in explorer.found.values() if found.is_too_large for line in found.lines}
    missing = (read & {operation.line for operation in recording.operations if operation.flushes}) - set(lines)
    if missing:
        raise MoreLines(missing)


class Agreement:
    """Asks px86 of each state that is explored, and counts the points at which it said the same."""

    def __init__(self, branches: Branches, explorer: Explorer) -> None:
        self.branches, self.explorer, self.count = branches, explorer, 0
        self.too_large: dict[int, TooLarge] = {}
        explorer.is_explored = self.ask

    def ask(self, state: State, found: Found) -> None:
        if found.has_bad:
            return
        count, too_large = 0, None
        try:
            count = self.branches.confirm(state, found.leaves)
        except TooLarge as large:
            too_large = large
        with self.explorer.changed:
            self.count += count
            if too_large is not None:
                self.too_large[state.number] = too_large
