"""What the page shows of a text and a list of steps: all of it as px86 says it.

No rule of the model is here. Which steps a state accepts, what each leads to, what a crash may leave, which of these memories
break a condition, and why: each is the answer of a call.
"""

from __future__ import annotations

import functools
from collections.abc import Sequence
from concurrent.futures import ThreadPoolExecutor
from typing import Any

from .emulator import Answer, Px86
from .entries import State, changes_of, origins_of
from .steps import lines_of

Data = dict[str, Any]
# How many memories are shown; and of those that break the condition, how many have the reasons without being asked for them.
MOST_IMAGES = 1024
MOST_EXPLAINED = 24


class View:
    """A text, and what px86 says of it and of lists of steps."""

    def __init__(self, px86: Px86, text: str) -> None:
        self.px86 = px86
        self.text = text.encode()

    def ask(self, *words: str, given: Sequence[str] = (), **more: Any) -> Answer:
        return self.px86.ask(*words, text=self.text, given=lines_of(given), **more)

    @functools.cached_property
    def layout(self) -> list[list[str]]:
        """The names of the words of each cache line, as `dis` writes them."""
        rows = [line.split() for line in self.ask("dis").out.splitlines()]
        return [row[1:] for row in rows if row and row[0] == "line"]

    def look(self, steps: Sequence[str], at: int) -> Data:
        """All that the page shows where it stands behind the first `at` of these steps, but for the condition."""
        with ThreadPoolExecutor(4) as pool:
            given = steps[:at]
            traced = pool.submit(self.ask, "trace", "--states", "--json", given=steps)
            layout = pool.submit(lambda: self.layout)
            following = pool.submit(self.ask, "next", "--refused", "--states", "--json", given=given)
            images = pool.submit(self.images, given)
            trace = traced.result()
            if not trace.is_report:
                return {"fault": trace.fault}
            told = trace.data
            if trace.status == 2:
                return self.look_before_refusal(steps, len(told["steps"]) - 1, at)
            states = [told["state"], *(it["state"] for it in told["steps"][:at])]
            state, moments = states[at], [without_state(it) for it in told["steps"]]
            origins = origins_of(states, moments)
            return {
                "fault": None,
                "refused": None,
                "steps": steps,
                "at": at,
                "layout": layout.result(),
                "moments": moments,
                "state": state,
                "before": states[at - 1] if at else None,
                "origins": origins.lines,
                "tags": origins.tags,
                "next": [next_of(state, it) for it in following.result().data["steps"]],
                "images": images.result(),
            }

    def look_before_refusal(self, steps: Sequence[str], accepted: int, at: int) -> Data:
        """What was accepted is shown, and what refused the next step."""
        return self.look(steps[:accepted], min(at, accepted)) | {"refused": self.refusal(steps[: accepted + 1])}

    def refusal(self, steps: Sequence[str]) -> Data:
        """What refuses the last of these steps, also in px86's words; `told` is empty if nothing does."""
        answer = self.ask("run", "--json", given=steps)
        if not answer.is_report:
            return {"told": answer.fault["told"]}
        refused: Data = answer.data["refused"] or {}
        return refused | {"step": steps[-1], "told": answer.explanation.rpartition("\n")[2]}

    def images(self, steps: Sequence[str]) -> Data:
        """The memories that a crash may leave, unless there are too many candidates."""
        answer = self.ask("images", "--json", given=steps)
        if not answer.is_report:
            return {"count": None, "images": None, "fault": answer.fault}
        rows = answer.data["images"]
        return {"count": len(rows), "images": rows[:MOST_IMAGES]}

    def broken(self, steps: Sequence[str], condition: str) -> Data:
        """How many memories break the condition, and which of those that are shown; or the fault. The first of them have the reasons:
        of the others there are None."""
        # The condition is one word with its option, so that none is taken for an option itself.
        answer = self.ask("images", "--json", f"--all={condition}", given=steps)
        if not answer.is_report:
            return {"fault": answer.fault}
        images, places = answer.data["images"], answer.data["all"]["broken"]
        shown = [images[place] for place in places if place < MOST_IMAGES]
        with ThreadPoolExecutor(4) as pool:
            reasons = list(pool.map(lambda values: self.missing(steps, values), shown[:MOST_EXPLAINED]))
        told = [*reasons, *[None] * (len(shown) - len(reasons))]
        return {"count": len(places), "broken": [{"values": values, "missing": why} for values, why in zip(shown, told)]}

    def missing(self, steps: Sequence[str], values: Sequence[int]) -> list[str]:
        """Of each write that is missing in a memory the line of px86 that says why."""
        said = self.ask("images", "--set", words_of(values), "--explain-image", given=steps).out
        return [line for line in said.splitlines() if line.startswith("missing ") and line != "missing none"]

    def mark(self, steps: Sequence[str], condition: str) -> str:
        """Whether a crash behind these steps may leave a memory that breaks the condition: `none`, `broken` or `unknown`."""
        answer = self.ask("images", "--json", "--count", f"--all={condition}", given=steps)
        if not answer.is_report:
            return "unknown"
        return "none" if answer.data["all"]["holds"] else "broken"

    def leaving(self, steps: Sequence[str], values: Sequence[int]) -> list[int] | None:
        """The places of the pending entries that have to leave for a memory, or none if a crash may not leave it."""
        places: list[int] | None = self.ask("images", "--json", "--set", words_of(values), given=steps).data["set"]
        return places

    def image(self, steps: Sequence[str], values: Sequence[int]) -> Data:
        """Which pending entries have to leave for a memory, how many steps there were when it became possible to stay so, and why the
        writes that are missing in it are."""
        places, since = self.leaving(steps, values), len(steps)
        while places is not None and since > 0 and self.leaving(steps[: since - 1], values) is not None:
            since -= 1
        return {"set": places, "since": since, "missing": [] if places is None else self.missing(steps, values)}


def words_of(values: Sequence[int]) -> str:
    return " ".join(map(str, values))


def without_state(step: Data) -> Data:
    return {name: it for name, it in step.items() if name != "state"}


def next_of(state: State, step: Data) -> Data:
    """A step that may come next, as `px86 next` has it, with what becomes of each list that it changes."""
    if step["state"] is None:
        return step
    changes = changes_of(state, step["state"], step["seen"])
    changed = {name: change for name, change in changes.items() if change.gone or change.came}
    return step | {"changes": {name: change._asdict() for name, change in changed.items()}}
