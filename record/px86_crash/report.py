"""What px86-crash writes: lines for a reader, or one JSON object."""

from __future__ import annotations

import json
import os
import shlex
import subprocess
import sys
import time
from collections.abc import Callable, Iterable, Mapping, Sequence
from typing import Any

from .emulator import TOP, Left, Px86
from .faults import Failed, plural
from .places import Places
from .recording import NEVER_FLUSHED, WORD, Operation, Recording
from .text import Text

MOST_STORES, MOST_RANGES = 8, 8
PICTURE = os.path.join(TOP, "tools", "picture")
# The delays that `ordered.litmus` has.
LATER = "also where a store becomes visible later, before another thread executes its next store"
ANSWERS = {0: "yes", 1: "no", 2: "refused", 3: "none"}
# Whether the checker accepts what it refuses, if this store had persisted too.
Accepts = Callable[[Operation], bool]


class Report:
    """The lines of an answer, one after another; with `as_json` one object at the end, which has them and the facts."""

    def __init__(self, as_json: bool = False, is_quiet: bool = False) -> None:
        self.as_json, self.is_quiet = as_json, is_quiet
        self.lines: list[str] = []
        self.facts: dict[str, Any] = {}
        # What is asked, one after another, each with what was found, and where its lines begin.
        self.stages: list[tuple[int, dict[str, Any]]] = []

    def say(self, line: str) -> None:
        if self.as_json or self.is_quiet:
            self.lines.append(line)
        else:
            print(line, flush=True)

    def take(self, other: Report) -> None:
        """Says what another one has kept to itself."""
        for line in other.lines:
            self.say(line)
        self.facts |= other.facts

    def note(self, **facts: Any) -> None:
        self.facts |= facts

    def begin(self, name: str) -> None:
        """From here on it is this that is asked."""
        self.stages.append((len(self.lines), {"name": name, "status": 0}))

    def found(self, **facts: Any) -> None:
        """Of what is asked now."""
        if self.stages:
            self.stages[-1][1].update(facts)

    def note_stages(self, status: int) -> None:
        """The stages of a part, with their lines."""
        begins = [begin for begin, _ in self.stages] + [len(self.lines)]
        for (begin, stage), end in zip(self.stages, begins[1:]):
            stage["lines"] = self.lines[begin:end]
        self.found(status=status)
        self.note(head=self.lines[: begins[0]], stages=[stage for _, stage in self.stages])

    def fail(self, said: str) -> None:
        """Of what is no answer the standard error tells, and of JSON the object."""
        if self.as_json:
            self.lines.append(f"px86-crash: {said}")
        else:
            print(f"px86-crash: {said}", file=sys.stderr)

    def end(self, status: int) -> None:
        if "part" in self.facts:
            self.note_stages(status)
        if self.as_json:
            print(json.dumps({"answer": ANSWERS[status], "status": status, **self.facts, "lines": self.lines}, indent=1))


class Progress:
    """Says how far it is, and how fast: on a terminal in one line, and if it is asked for otherwise in a line now and then."""

    # How long it waits on a terminal, and otherwise.
    SECONDS, SECONDS_OF_LINES = 0.2, 2.0
    # Whether lines are asked for, and when there was one; and what this is a part of.
    by_lines = False
    line_at = time.monotonic()
    within = ""

    def __init__(self, what: str, total: int = 0, is_wanted: bool = True) -> None:
        self.what, self.total = what, total
        self.is_terminal = sys.stderr.isatty()
        self.shown = is_wanted and (self.is_terminal or self.by_lines)
        self.begun = self.last = time.monotonic()
        if self.is_terminal:
            self.show(self.counted(0))

    def counted(self, number: int) -> str:
        return f"{number:,} of {self.total:,} {self.what}"

    def at(self, number: int, more: str = "", counted: int | None = None) -> None:
        """So many are done. `counted` is of what a rate is told, if it is not these."""
        if self.is_due():
            count = number if counted is None else counted
            rate = f"{count / (self.last - self.begun):,.0f} a second" if count else ""
            self.show(self.counted(number), more, rate)

    def goes_on(self, more: str = "") -> None:
        """The same of what is not counted, but takes some time."""
        if self.is_due():
            self.show(f"{self.what}, {self.last - self.begun:,.0f} s", more)

    def is_due(self) -> bool:
        if not self.shown:
            return False
        now = time.monotonic()
        if now < (self.last + self.SECONDS if self.is_terminal else Progress.line_at + self.SECONDS_OF_LINES):
            return False
        self.last = Progress.line_at = now
        return True

    def show(self, *said: str) -> None:
        if self.shown:
            line = ", ".join(filter(None, (*said, self.within)))
            line = f"\r\033[K{line}" if self.is_terminal else f"px86-crash: {line}\n"
            print(line, end="", file=sys.stderr, flush=True)

    def done(self) -> None:
        if self.shown and self.is_terminal:
            print("\r\033[K", end="", file=sys.stderr, flush=True)


def say_recorded(report: Report, recording: Recording, by_descriptor: bool, by_function: bool) -> None:
    lines = {operation.line for operation in recording.operations if operation.stores and operation.word >= 0}
    threads = plural(len(recording.threads), "thread")
    report.say(
        f"recorded: {plural(recording.count, 'operation')} ({len(recording.operations):,} matter) of {threads} on "
        f"{plural(len(lines), recording.unit)}, {plural(recording.acknowledgements, 'acknowledgement')}"
    )
    if recording.status and not recording.waiting:
        report.say(f"note: the program ended with status {recording.status}")
    if (by_descriptor or by_function) and not recording.acknowledgements:
        report.say(f"note: nothing was acknowledged by {'--ack-fd' if by_descriptor else '--ack-at'}: no promise is asked of")
    if by_descriptor and recording.acknowledges_last:
        report.say("note: each acknowledgement came behind the last store: was the output buffered? (setvbuf, or stdbuf -oL)")
    for note, count in sorted(recording.notes.items()):
        report.say(f"note: {note} ({plural(count, 'time')})")


def say_yes(report: Report, facts: Mapping[str, Any], of: str = "this run") -> None:
    ranges = ", ".join(f"{begin:#x}-{end:#x}" for begin, end in facts["ignored"])
    ignored = f" (but for what is stored to {ranges}, which is ignored)" if ranges else ""
    report.say(f"YES: every memory that a crash may leave of {of} is accepted{scope_of(facts)}{ignored}")


def scope_of(facts: Mapping[str, Any]) -> str:
    """Of which runs of several threads YES speaks; and what it takes of a disk, to which all threads are one."""
    if facts["unit"]:
        return f" (if each {facts['unit']} that is written is as it was at one moment)"
    at_once = "where each store is visible before the next instruction of any thread"
    if facts["recovery_threads"]:
        return f" (several threads: {at_once})"
    if facts["threads"] < 2:
        return ""
    if not facts["delays"]:
        return f" (several threads: {at_once})"
    if not facts["has_check"]:
        return f" (several threads: {LATER})"
    return f" (several threads: by the checker, {at_once}; by the condition, {LATER})"


def say_memories(report: Report, facts: Mapping[str, int]) -> None:
    """What is said where the checker was run on each memory, and accepted it."""
    report.say(f"the checker accepts {plural(facts['memories'], 'memory')}")
    report.note(memories=facts["memories"])


def say_cases(report: Report, facts: Mapping[str, int], unread: Iterable[int]) -> None:
    """What is said where it was run once for all memories that agree on what it reads. Some words are never flushed, and never read."""
    say_not_followed(report, facts, "read")
    ranges = ranges_of(unread)
    if ranges:
        more = f" and {len(ranges) - MOST_RANGES} more" if len(ranges) > MOST_RANGES else ""
        named = ", ".join(f"{begin:#x}-{end:#x}" for begin, end in ranges[:MOST_RANGES])
        report.say(f"note: never flushed, and the checker does not read it: what is stored to {named}{more}")
        report.note(unread=ranges)
    report.say(
        f"the checker accepts what {plural(facts['states'], 'state')} may leave: it tells {plural(facts['cases'], 'case')} apart"
    )
    report.say(f"{facts['again']:,} of them again, each on another memory: the same")
    report.say(f"px86 values: the same values as were tried, at {plural(facts['points'], 'point')} of these cases")
    report.note(**{name: facts[name] for name in ("states", "cases", "again", "points")})


def ranges_of(words: Iterable[int]) -> list[tuple[int, int]]:
    """Neighbouring words together, each range as where it begins and ends."""
    ranges: list[tuple[int, int]] = []
    for word in sorted(words):
        if ranges and ranges[-1][1] == word:
            ranges[-1] = ranges[-1][0], word + WORD
        else:
            ranges.append((word, word + WORD))
    return ranges


def say_crashes(report: Report, facts: Mapping[str, int], has_condition: bool) -> None:
    """What is said of crashes of recoveries."""
    say_not_followed(report, facts, "read of a recovery")
    say_not_followed(report, facts, "read behind a recovery")
    report.say(
        f"the checker accepts what a crash of a recovery may leave: of {plural(facts['recoveries'], 'recovery')} it tells "
        f"{plural(facts['crashes'], 'case')} apart"
    )
    again = f"{plural(facts['recovered_again'], 'recovery')} and {plural(facts['crashed_again'], 'case')} of them again"
    report.say(f"{again}, each on another memory: the same")
    report.say(f"px86 values: the same values as were tried, at {plural(facts['crash_points'], 'point')} of these recoveries and cases")
    if has_condition:
        report.say("px86 images --all: the condition holds in each memory that a crash of a recovery may leave")
    names = ("recoveries", "crashes", "recovered_again", "crashed_again", "crash_points")
    report.note(**{name: facts[name] for name in names})


def not_followed(why: Mapping[str, int], what: str = "read") -> dict[str, int]:
    """Why all was taken as read, as facts."""
    return {f"note: all is taken as {what}: {reason}": count for reason, count in why.items()}


def say_not_followed(report: Report, facts: Mapping[str, int], what: str) -> None:
    for note in sorted(fact for fact in facts if fact.startswith(f"note: all is taken as {what}:")):
        report.say(f"{note} ({plural(facts[note], 'time')})")


class Shown:
    """An image of a text that is not accepted: the steps to its memory, the values of the text's words, and what is known of it."""

    def __init__(self, text: Text, look: int, values: Sequence[int], steps_file: str, left: Left | None = None) -> None:
        self.text, self.look, self.values, self.steps_file, self.left = text, look, values, steps_file, left
        self.pending: list[Operation] = text.looks[look].pending

    def stores(self, px86: Px86, asked: Iterable[int]) -> tuple[list[Operation], list[Operation]]:
        """The lost and the kept stores. Of the lost ones those stand first whose words were asked for, as they were asked for."""
        text = self.text
        kept, persisted = self.left or px86.left(text, self.look, self.values)
        stores = [(place, operation) for place, operation in enumerate(self.pending) if operation.stores]
        last = max((place for place, _ in stores if place in kept), default=len(self.pending))
        changing = changing_stores(self.pending, persisted)
        lost = [store for place, store in stores if place not in kept and place < last and place in changing]
        were_asked = {word: place for place, word in enumerate(asked)}
        kept_stores = [store for place, store in stores if place in kept]

        def asked_at(store: Operation) -> int:
            return min(were_asked.get(word, len(were_asked)) for word in changed_by(store, text))

        return sorted(lost, key=asked_at), kept_stores


def changed_by(store: Operation, text: Text) -> list[int]:
    """The words that a store changes: its own, or where a word of the text counts the changes of a line those of this change."""
    changes = (text.contents or {}).get(store.word)
    if changes is None:
        return [store.word]
    return [word for word, value in changes[store.value].items() if value != changes[store.value - 1][word]]


def stored_by(store: Operation, text: Text) -> dict[int, int]:
    """The words and values of a store; or where a word of the text counts the changes of a line, the line behind this change."""
    changes = (text.contents or {}).get(store.word)
    return dict(store.stored) if changes is None else changes[store.value]


def field_of(store: Operation, text: Text, places: Places) -> str | None:
    """The field of a store. A count of changes is none."""
    return None if text.contents and store.word in text.contents else places.fields.of(store.word)


def say_image(
    report: Report,
    px86: Px86,
    places: Places,
    shown: Shown,
    read: Iterable[int] = (),
    asked: Iterable[int] = (),
    accepts: Accepts | None = None,
) -> None:
    """Which stores of an image were lost and which kept, and how px86 shows it. What matters most stands first: the stores with one
    of which alone the checker accepts it, and then those whose words it has read, or a condition asks for."""
    read_words = set(read)
    words = list(read) or list(asked)
    lost, kept = shown.stores(px86, words)
    tried = (lost[:MOST_STORES] if words else lost[-MOST_STORES:]) if accepts and len(lost) > 1 else []
    matters = {id(store): accepts(store) for store in tried} if accepts else {}
    lost.sort(key=lambda store: not matters.get(id(store)))
    say_stores(report, "lost", lost, shown.text, places, is_first=bool(words) or any(matters.values()))
    if not lost:
        report.say("  lost nothing that was stored up to there: what comes next is not stored yet")
    say_stores(report, "kept", kept, shown.text, places)
    commands = say_commands(report, px86, shown.text.file, shown.steps_file, shown.values)
    report.note(
        lost=[
            facts_of(store, shown.text, places)
            | {"read": not read_words.isdisjoint(changed_by(store, shown.text)), "matters": matters.get(id(store))}
            for store in lost
        ],
        kept=[facts_of(store, shown.text, places) for store in kept],
        commands=commands,
    )


def draw(report: Report, px86: Px86, path: str, most_steps: int | None = None) -> None:
    """Draws the run up to a memory that is not accepted, by tools/picture; nothing if it has more steps."""
    if "values" not in report.facts or most_steps is not None and count_steps(report.facts["steps"]) > most_steps:
        return
    if not os.access(PICTURE, os.X_OK):
        report.say(f"note: there is no picture, as there is no {os.path.relpath(PICTURE)}")
        return
    values = " ".join(map(str, report.facts["values"]))
    words = [PICTURE, report.facts["text"], "--set", values, "--program", px86.path]
    try:
        with open(report.facts["steps"], "rb") as steps, open(path, "wb") as picture:
            drawn = subprocess.run(words, stdin=steps, stdout=picture, stderr=subprocess.PIPE, text=True, check=False)
    except OSError as error:
        raise Failed(f"{error.filename}: {error.strerror}") from error
    if drawn.returncode:
        report.say(f"note: there is no picture: {drawn.stderr.strip()}")
        os.remove(path)
        return
    report.say(f"  {path}: a picture of the run up to there")
    report.note(picture=path)


def count_steps(path: str) -> int:
    try:
        with open(path, encoding="utf-8") as steps:
            return sum(1 for _ in steps)
    except OSError as error:
        raise Failed(f"{path}: {error.strerror}") from error


def changing_stores(pending: Sequence[Operation], persisted: Mapping[int, int]) -> set[int]:
    """The places in a pending list of the stores that change their word, if all before them persist."""
    values, places = dict(persisted), set()
    for place, operation in enumerate(pending):
        if operation.stores and values[operation.word] != operation.value:
            values[operation.word] = operation.value
            places.add(place)
    return places


def say_commands(report: Report, px86: Px86, file: str, steps: str, numbers: Sequence[int]) -> list[str]:
    """The commands that show this image, to be run as they stand."""
    name, values = shlex.quote(px86.path), shlex.quote(" ".join(map(str, numbers)))
    commands = [
        f"{name} images --set {values} {shlex.quote(file)} --steps {shlex.quote(steps)}",
        f"{name} trace {shlex.quote(file)} --steps {shlex.quote(steps)}",
    ]
    for command in commands:
        report.say(f"  {command}")
    report.note(text=file, steps=steps, values=list(numbers))
    return commands


def say_stores(
    report: Report, what: str, stores: Sequence[Operation], text: Text, places: Places, is_first: bool = False
) -> None:
    """Says the last of some stores, or the first."""
    for store in stores[:MOST_STORES] if is_first else stores[-MOST_STORES:]:
        value = store.value if store.value < 1 << 32 else hex(store.value)
        # That a store is never flushed tells why it is lost, and of one that is kept nothing.
        note = "" if what == "kept" and store.note == NEVER_FLUSHED else store.note
        function = places.function(store.place)
        thread = f"thread {store.thread}" if len(text.threads) > 1 else ""
        said = [thread, places.of(store.place), f"in {function}" if function else "", note]
        report.say(f"  {what} {name_of(store, text, places)} = {value}, {', '.join(filter(None, said))}")
    if len(stores) > MOST_STORES:
        report.say(f"  {what} {len(stores) - MOST_STORES} more {'behind' if is_first else 'before'} them")


def name_of(store: Operation, text: Text, places: Places) -> str:
    """The field of a store, and its word in the text; the word alone, if the field is not known."""
    field = field_of(store, text, places)
    return f"{field} ({text.name(store.word)})" if field else text.name(store.word)


def facts_of(store: Operation, text: Text, places: Places) -> dict[str, Any]:
    return {
        "name": text.name(store.word),
        "field": field_of(store, text, places),
        "offset": store.word,
        "value": store.value,
        "thread": store.thread,
        "place": places.of(store.place),
        "function": places.function(store.place),
        "never_flushed": NEVER_FLUSHED in store.note,
        "note": store.note,
    }
