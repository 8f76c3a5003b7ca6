"""Writes one run, with the steps that were possible beside it, as one file: it needs no server and no px86.

The file has a row for each list of steps that can be shown: for each beginning of the run, and for each step that was possible
behind one. A row beside the run has no next steps.
"""

from __future__ import annotations

import base64
import hashlib
import html
import json
from collections.abc import Sequence
from concurrent.futures import ThreadPoolExecutor
from typing import Any

from .emulator import Px86, Running
from .entries import State, origins_of
from .faults import Refused
from .page import SCRIPTS, STYLE, read_page
from .questions import STATES
from .search import check
from .server import exact
from .view import Data, View, without_state

# What a row has of the answer `look`.
SHOWN = ("state", "origins", "tags", "next", "images")
POLICY = "default-src 'none'; style-src {style}; script-src {scripts}; img-src data:; base-uri 'none'; form-action 'none'"


def key_of(steps: Sequence[str]) -> str:
    """The name of a row: its steps."""
    return ";".join(steps)


class Export:
    """What is exported of a run: `rows` by their steps."""

    def __init__(self, view: View, steps: Sequence[str], condition: str | None) -> None:
        self.view = view
        self.steps = list(steps)
        self.condition = condition
        self.rows: dict[str, Data] = {}
        self.states: list[State] = []
        self.moments: list[Data] = []

    def make(self) -> None:
        """Makes the rows of the run, one after another, and those beside each."""
        with ThreadPoolExecutor(4) as pool:
            for at in range(len(self.steps) + 1):
                looked = self.look(at)
                self.states.append(looked["state"])
                self.moments = looked["moments"]
                self.rows[key_of(self.steps[:at])] = self.row_of_run(at, looked, pool)
                beside = [it for it in looked["next"] if it["seen"] is not None and it["step"] not in self.steps[at : at + 1]]
                for step, row in zip(beside, pool.map(self.row_beside, beside)):
                    self.rows[key_of([*self.steps[:at], step["step"]])] = row
        self.add_sets()

    def look(self, at: int) -> Data:
        looked = self.view.look(self.steps[:at], at)
        fault = looked["fault"] or looked["refused"]
        if fault:
            raise Refused(fault["told"])
        return looked

    def row_of_run(self, at: int, looked: Data, pool: ThreadPoolExecutor) -> Data:
        steps = self.steps[:at]
        refused = [it["step"] for it in looked["next"] if it["refused"] is not None]
        told = pool.map(lambda step: self.view.refusal([*steps, step])["told"], refused)
        row = {name: looked[name] for name in SHOWN} | {"moment": looked["moments"][-1] if at else None, "told": dict(zip(refused, told))}
        # The state after a step is that of its own row.
        row["next"] = [without_state(it) for it in looked["next"]]
        return row | self.asked_of(steps)

    def row_beside(self, step: Data) -> Data:
        moment = {name: step[name] for name in ("step", "instruction", "line", "seen", "refused")}
        origins = origins_of([*self.states, step["state"]], [*self.moments, moment])
        steps = [*(it["step"] for it in self.moments), step["step"]]
        shown = {"state": step["state"], "origins": origins.lines, "tags": origins.tags, "next": [], "moment": moment, "told": {}}
        return shown | {"images": self.view.images(steps)} | self.asked_of(steps)

    def asked_of(self, steps: Sequence[str]) -> Data:
        return {"broken": self.view.broken(steps, self.condition) if self.condition else None, "sets": {}}

    def add_sets(self) -> None:
        """Which entries have to leave for each memory that a crash in the run may leave, and since which step it may leave it."""
        images = [self.rows[key_of(self.steps[:at])]["images"]["images"] or [] for at in range(len(self.steps) + 1)]
        with ThreadPoolExecutor(4) as pool:
            for at, here in enumerate(images):
                steps = self.steps[:at]
                found = pool.map(lambda values, steps=steps: self.view.image(steps, values), here)
                self.rows[key_of(steps)]["sets"] = {" ".join(map(str, values)): it for values, it in zip(here, found)}


def hash_of(content: bytes) -> str:
    return f"'sha256-{base64.b64encode(hashlib.sha256(content).digest()).decode()}'"


def page_of(run: Data) -> str:
    """The page with its style, its scripts and the run within it. It may run these scripts alone."""
    style, scripts = read_page(STYLE), {name: read_page(name) for name in SCRIPTS}
    policy = POLICY.format(style=hash_of(style), scripts=" ".join(map(hash_of, scripts.values())))
    page = read_page("index.html").decode()
    charset = '<meta charset="utf-8">'
    page = page.replace(charset, f'{charset}\n<meta http-equiv="Content-Security-Policy" content="{html.escape(policy, quote=False)}">')
    page = page.replace(f'<link rel="stylesheet" href="{STYLE}">', f"<style>{style.decode()}</style>")
    # No text of a program ends the element.
    data = json.dumps(exact(run), separators=(",", ":"), ensure_ascii=True).replace("<", "\\u003c")
    page = page.replace("<script ", f'<script type="application/json" id="exported">{data}</script>\n<script ', 1)
    for name, content in scripts.items():
        page = page.replace(f'<script src="{name}"></script>', f"<script>{content.decode()}</script>")
    return page


def export(px86: Px86, begin: dict[str, Any]) -> str:
    """The page of what a person opened, with the condition of what a crash may leave, if there is one."""
    view, condition = View(px86, begin["text"]), begin["conditions"].get("all")
    made = Export(view, begin["steps"], condition)
    made.make()
    found = check(view, "all", condition, begin["steps"][:0], STATES, Running()) if condition else None
    if found is not None:
        found.pop("seconds")
    return page_of({"begin": begin, "layout": view.layout, "rows": made.rows, "check": found})
