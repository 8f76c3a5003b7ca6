"""The page in Chromium, as a person sees it: what it shows is read from its elements, and compared with px86."""

from __future__ import annotations

import os
import shutil
import time
from typing import Any

from selenium import webdriver
from selenium.webdriver.chrome.options import Options
from selenium.webdriver.chrome.service import Service
from selenium.webdriver.common.by import By

from answers import Example, as_text, sites_of
from support import Cases, Program, entry_text

# How long something may take to be shown, in seconds.
PATIENCE = 60
SHOWN = """
const text = (node) => node.textContent.trim();
const entry = (node) => {
  const kind = text(node.querySelector('.kind')), body = text(node.querySelector('.body'));
  const write = /^(\\S+) = (\\d+)$/.exec(body), line = /^cache line (\\d+)$/.exec(body);
  return write ? `${kind} ${write[1]} ${write[2]}` : line ? `${kind} ${line[1]}` : kind;
};
const every = (selector, box = document) => [...box.querySelectorAll(selector)];
const entries = (box) => every('li:not(.ghosted) > .entry', box).map(entry);
const cpus = every('.cpu').map((box) => {
  const registers = {};
  for (const node of every('[data-register]', box)) registers[node.dataset.register.split(' ')[1]] = text(node.querySelector('b'));
  return { registers, buffer: entries(box), told: text(box.querySelector('h2 small')) };
});
const words = {}, at = {};
for (const node of every('[data-cell]')) words[node.dataset.cell] = text(node);
for (const node of every('#text li')) for (const mark of every('.cpu-mark', node)) at[text(mark)] = Number(node.dataset.source);
const pending = document.getElementById('pending');
return {
  cpus, words, at, pending: entries(pending),
  steps: every('#steps button').map((it) => it.dataset.step),
  refused: every('#refused button').map((it) => it.dataset.holds),
  at_entries: every('.entry[data-step]', pending).map((it) => [it.dataset.step, Number(it.dataset.entry.split(' ')[1])]),
  lines: [...every('.entry:not(.ghost)', pending), ...every('.cpu .entry:not(.ghost)')].map((it) => [entry(it), Number(it.dataset.line)]),
  images: every('.images .pick').map((it) => it.dataset.image), bad: every('.images .bad .pick').map((it) => it.dataset.image),
};
"""


def wanted_of(state: Any) -> dict[str, Any]:
    """What the page has to show of a state."""
    cpus, at = [], {}
    for cpu in state["cpus"]:
        registers = {name: str(value) for name, value in cpu["registers"].items()} | ({"zf": "1"} if cpu["zf"] else {})
        told = f"{'main program' if cpu['program'] == 'main' else 'recovery'}, {cpu['progress']}"
        cpus.append({"registers": registers, "buffer": list(map(entry_text, cpu["buffer"])), "told": told})
        if cpu["line"]:
            at[str(cpu["cpu"])] = cpu["line"]
    words = {f"{it['word']} {which}": str(it[which]) for it in state["words"] for which in ("coherent", "persisted")}
    return {"cpus": cpus, "words": words, "at": at, "pending": list(map(entry_text, state["pending"]))}


def browser() -> webdriver.Chrome:
    options = Options()
    for word in ("--headless=new", "--no-sandbox", "--disable-gpu", "--disable-dev-shm-usage", "--hide-scrollbars", "--window-size=1280,1000"):
        options.add_argument(word)
    options.set_capability("goog:loggingPrefs", {"browser": "ALL"})
    options.binary_location = shutil.which("chromium")
    return webdriver.Chrome(service=Service(shutil.which("chromedriver")), options=options)


class Page:
    """A page that a browser shows. `shots` is a folder for pictures of it, if there is one."""

    def __init__(self, driver: webdriver.Chrome, cases: Cases, px86: Program, shots: str | None) -> None:
        self.driver = driver
        self.cases = cases
        self.px86 = px86
        self.shots = shots
        self.took: list[float] = []

    def run(self, script: str, *given: Any) -> Any:
        return self.driver.execute_script(script, *given)

    def find(self, selector: str) -> Any:
        return self.driver.find_element(By.CSS_SELECTOR, selector)

    def text_of(self, selector: str) -> str:
        text: str = self.run("return document.querySelector(arguments[0]).textContent", selector)
        return text

    def wait(self, condition: str) -> bool:
        """Waits until this holds in the page; a case fails if it never does."""
        end = time.time() + PATIENCE
        while time.time() < end:
            if self.run(f"return Boolean({condition})"):
                return True
            time.sleep(0.01)
        self.cases.holds(f"page: it comes to {condition}", False)
        return False

    def settle(self, at: int | None = None) -> None:
        """Waits until all that was asked is shown."""
        place = "S.at" if at is None else str(at)
        shown = f"document.querySelector('#timeline [aria-current]')?.dataset.focus === 'moment ' + {place}"
        answered = "(!condition() || S.broken) && !document.body.classList.contains('busy')"
        self.wait(f"S.view && !S.fault && S.at === {place} && S.view.at === S.at && {shown} && {answered}")

    def click(self, selector: str) -> Any:
        node = self.find(selector)
        self.run("arguments[0].scrollIntoView({block: 'center'})", node)
        node.click()
        return node

    def step(self, selector: str) -> None:
        """Takes a step by a click, and waits until the page shows it."""
        at = self.run("return S.at")
        self.click(selector)
        begun = time.time()
        self.wait(f"S.view.at === {at + 1} && document.querySelector('#timeline [aria-current]').dataset.focus === 'moment {at + 1}'")
        self.took.append(time.time() - begun)
        self.settle(at + 1)

    def shot(self, name: str) -> None:
        if self.shots:
            self.driver.save_screenshot(os.path.join(self.shots, f"{name}.png"))

    def go_to(self, at: int) -> None:
        self.run("goTo(arguments[0])", at)
        self.settle(at)

    def open(self, name: str, text: str, steps: list[str], conditions: dict[str, str]) -> None:
        self.run("open(arguments[0])", {"name": name, "text": text, "steps": steps, "conditions": conditions})
        self.wait(f"S.name === {name!r}")

    def open_example(self, name: str) -> None:
        choose = """
        const chosen = document.getElementById('examples');
        chosen.value = String(S.examples.findIndex((it) => it.name === arguments[0]));
        chosen.dispatchEvent(new Event('change'));"""
        self.run(choose, name)
        self.wait(f"S.name === {os.path.basename(name)!r}")
        self.settle()

    def compare(self, name: str, is_leaf: bool = False) -> Any:
        """Has all that the page shows compared with px86. A leaf of an exported run has no next steps."""
        steps, text = self.run("return [S.steps.slice(0, S.at), S.text]")
        state, shown = self.px86.state(text, steps), self.run(SHOWN)
        for part, value in wanted_of(state).items():
            self.cases.equal(f"{name}: {part} after {steps}", shown[part], value)
        images = [" ".join(map(str, values)) for values in self.px86.images(text, steps) or []]
        self.cases.equal(f"{name}: the memories after {steps}", shown["images"], images)
        if is_leaf:
            self.cases.equal(f"{name}: a leaf", shown["steps"], [])
            return shown
        after = self.px86.states_after(text, steps)
        self.cases.equal(f"{name}: the steps after {steps}", shown["steps"], list(after))
        refused = [step for step in self.px86.tried(text, state) if step not in after]
        self.cases.equal(f"{name}: the refused steps after {steps}", shown["refused"], refused)
        self.compare_entries(name, shown, after, steps)
        self.compare_lines(name, shown, state, Example("", text, steps, None))
        return shown

    def compare_entries(self, name: str, shown: Any, after: Any, steps: list[str]) -> None:
        """A pending entry at which a step can be taken is the one that the list after it lacks."""
        for step, place in shown["at_entries"]:
            left = shown["pending"][:place] + shown["pending"][place + 1 :]
            self.cases.equal(f"{name}: the entry of {step} after {steps}", left, list(map(entry_text, after[step]["pending"])))
        wanted = sorted(step for step in after if step.startswith(("persist", "settle")))
        self.cases.equal(f"{name}: the steps at entries after {steps}", sorted(step for step, _ in shown["at_entries"]), wanted)

    def compare_lines(self, name: str, shown: Any, state: Any, example: Example) -> None:
        """The lines of the writes that a crash may lose are the sites that px86 names of these."""
        persisted = {it["word"]: str(it["persisted"]) for it in state["words"]}
        if all(str(it["coherent"]) == persisted[it["word"]] for it in state["words"]) and not any(cpu["buffer"] for cpu in state["cpus"]):
            return
        lines = [row for row in shown["lines"] if row[0].startswith("W ") and persisted[row[0].split()[1]] != row[0].split()[2]]
        sites = sites_of(self.px86, example, state)
        if sites is None:
            return
        self.cases.equal(f"{name}: the lines of entries after {example.steps}", as_text(lines), as_text(sites))
