"""From a recording to the images of its memories, by px86."""

from __future__ import annotations

import os
from collections.abc import Iterable
from dataclasses import dataclass, field
from functools import cached_property

from . import emulator
from .emulator import Left, Px86, left_of
from .faults import Failed, Refused, TooLarge, plural
from .images import Image, Images
from .one_thread import Planner
from .places import Places
from .recording import Recording
from .report import Progress, Report
from .talk import Talk
from .text import Names, Text
from .threads import text_of_threads


@dataclass
class Case:
    """A recording of which something is asked. `asked` are the words of a condition. With `may_narrow` a run that is too large is
    answered of their lines alone."""

    recording: Recording
    places: Places
    folder: str
    px86: Px86
    names: Names
    most_instructions: int
    asked: frozenset[int] = frozenset()
    may_narrow: bool = False
    # So many px86 run at a time.
    jobs: int = 1
    # Whether non-temporal stores are taken as others with a flush.
    map_nontemporal: bool = False
    # What is to hold in each image, if something is.
    condition: str | None = None
    # Why the images are not listed, if so.
    narrowed: str = ""

    @cached_property
    def answer(self) -> Answer:
        try:
            return Answer(self, self.recording)
        except TooLarge as large:
            if not self.may_narrow or not self.asked:
                raise
            self.narrowed = str(large)
        return Answer(self, self.recording.only(set(map(self.recording.line_of, self.asked))))

    def write(self, name: str, text: str) -> str:
        """Makes a file of the folder."""
        path = os.path.join(self.folder, name)
        try:
            with open(path, "w", encoding="ascii") as file:
                file.write(text)
        except OSError as error:
            raise Failed(f"{path}: {error.strerror}") from error
        return path


@dataclass
class Played:
    """What px86 says of a text: the images of each look, the first that makes the condition false, which values its words have where it
    was told to hold, and what each word of the text has at the end."""

    images: list[list[tuple[int, ...]]] = field(default_factory=list)
    false: tuple[Image, Left] | None = None
    true: set[tuple[int, ...]] = field(default_factory=set)
    final: list[int] = field(default_factory=list)


class Answer:
    """What px86 says of a recording. Its texts and scripts are files of a folder."""

    def __init__(self, case: Case, recording: Recording) -> None:
        self.case, self.recording = case, recording
        self.texts = self.plan()
        self.images = Images(recording)
        # The first image in order that makes the condition false, and what is known of it.
        self.false: tuple[Image, Left] | None = None
        finals = []
        for number, text in enumerate(self.texts, 1):
            text.number = number
            self.ask(text)
            text.file = case.write(f"text{number}.litmus", text.litmus(case.places))
        # It takes a tenth of the time in which the command starts.
        from concurrent.futures import ThreadPoolExecutor

        progress = Progress("texts are listed", len(self.texts))
        with ThreadPoolExecutor(case.jobs) as executor:
            for number, (text, played) in enumerate(zip(self.texts, executor.map(self.play, self.texts))):
                progress.at(number)
                finals.append(played.final)
                self.images.add(text, played.images)
                self.false = self.false or played.false
        progress.done()
        word = emulator.replay(recording, self.texts, finals)
        if word is not None:
            raise Failed(f"px86 run of all comes to another memory than the program: the word at {word:#x} differs")

    def ask(self, text: Text) -> None:
        """Has a text end with the condition, as a question. Runs of a text of several threads have all orders of their stores, and it is
        asked of one of these: so that has no question, and `ordered.litmus` has it."""
        if self.case.condition is not None:
            text.ask(self.case.condition)
            if len(self.recording.threads) > 1:
                text.items = []

    def play(self, text: Text) -> Played:
        """Has px86 play the script of a text, in a conversation."""
        self.case.write(f"text{text.number}.script", text.script())
        played = Played()
        with self.case.px86.talk(text.file) as talk:
            for number, look in enumerate(text.looks):
                talk.make(look.lead + look.steps)
                played.images.append(talk.images(look.candidates))
                played.false = played.false or self.false_image(talk, text, number, played)
                talk.back(len(look.steps))
            talk.make(text.ending)
            played.final = [word.coherent for word in talk.words([text.name(word) for word in text.words])]
        return played

    def false_image(self, talk: Talk, text: Text, look: int, played: Played) -> tuple[Image, Left] | None:
        """The first image of a look that makes the condition false. It asks of persisted values alone: so px86 is not asked where its
        words have no other values than where it was told to hold."""
        if self.case.condition is None:
            return None
        values = values_of(text, self.case.asked, played.images[look])
        if self.case.asked and values <= played.true:
            return None
        image = talk.false_image(self.case.condition)
        if image is None:
            played.true |= values
            return None
        return Image(text, look, image), left_of(talk, text, image)

    def plan(self) -> list[Text]:
        case = self.case
        if len(self.recording.threads) > 1:
            return [text_of_threads(self.recording, case.names, case.most_instructions, case.asked)]
        return Planner(self.recording, case.names, case.places, case.most_instructions, case.asked).plan()

    @property
    def looks(self) -> int:
        return sum(len(text.looks) for text in self.texts)

    def left_of(self, image: Image) -> Left | None:
        """What is known of an image already."""
        return self.false[1] if self.false is not None and image is self.false[0] else None

    def say_asked(self, report: Report) -> None:
        if self.case.narrowed:
            report.say(f"note: the images are not listed: {self.case.narrowed}")
        if self.recording.is_whole:
            report.say("replayed: px86 run of all of it leaves the memory that the program left")
        else:
            report.say("replayed: px86 run of what concerns the lines of the condition leaves there what the program left")
        memories = plural(len(self.images), "different memory")
        report.say(f"px86 images: {plural(self.looks, 'state')} in {plural(len(self.texts), 'text')}, {memories}")


def values_of(text: Text, asked: Iterable[int], images: Iterable[tuple[int, ...]]) -> frozenset[tuple[int, ...]]:
    """What these words have in images of a text, which has them all."""
    places = [text.words.index(word) for word in sorted(asked)]
    return frozenset(tuple(image[place] for place in places) for image in images)


def refuse_what_is_not_recorded(recording: Recording, places: Places) -> None:
    if recording.refusals:
        lines = list(dict.fromkeys(f"{why}, at {places.of(place)}" for place, why in recording.refusals))
        more = [f"and {len(lines) - 5} more"] if len(lines) > 5 else []
        raise Refused("\n".join(lines[:5] + more))
    word = recording.region.first_difference(recording.after)
    if word is not None:
        raise Refused(f"the log and the memory at the end differ at {word:#x}: something was stored that was not recorded")
