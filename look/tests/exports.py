"""An exported run: what is in the file, beside px86, and that the one of the documents is what is written now."""

from __future__ import annotations

import base64
import hashlib
import json
import os
import re
from typing import Any

from answers import BASE, append, as_text
from support import CONDITION, TOP, Cases, Program, called, read

COMMITTED = os.path.join(TOP, "docs", "append-unfenced.html")
MOST_BYTES = 200_000


def run_in(page: str) -> Any:
    """The run that an exported page has."""
    found = re.search(r'<script type="application/json" id="exported">(.*?)</script>', page, re.DOTALL)
    assert found
    return json.loads(found[1])


def export(program: str, path: str, *options: str) -> tuple[int, str, str]:
    return called(program, f"{BASE}.litmus", "--steps", f"{BASE}.steps", "--all", CONDITION, "--export", path, *options)


def hash_of(content: str) -> str:
    return f"'sha256-{base64.b64encode(hashlib.sha256(content.encode()).digest()).decode()}'"


def test_policy(cases: Cases, page: str) -> None:
    """The page may run its own scripts alone, and loads nothing."""
    found = re.search(r'<meta http-equiv="Content-Security-Policy" content="([^"]*)">', page)
    policy = dict(part.strip().split(" ", 1) for part in (found[1] if found else "").split(";") if part.strip())
    scripts = re.findall(r"<script>(.*?)</script>", page, re.DOTALL)
    cases.equal("export: its scripts", policy.get("script-src", "").split(), list(map(hash_of, scripts)))
    styles = re.findall(r"<style>(.*?)</style>", page, re.DOTALL)
    cases.equal("export: its style", policy.get("style-src", "").split(), list(map(hash_of, styles)))
    cases.equal("export: its policy", policy.get("default-src"), "'none'")
    cases.equal("export: nothing is loaded", re.findall(r'(?:src|href)="(?!#|data:)[^"]*"', page), [])


def test_rows(cases: Cases, px86: Program, run: Any) -> None:
    """A row for each beginning of the run and each step that was possible behind one; the states and the memories are px86's."""
    example = append()
    wanted: dict[str, Any] = {"": px86.state(example.text, [])}
    for count in range(len(example.steps) + 1):
        given = example.steps[:count]
        for step, state in px86.states_after(example.text, given).items():
            wanted[";".join([*given, step])] = state
    cases.equal("export: the states", as_text({name: row["state"] for name, row in run["rows"].items()}), as_text(wanted))
    for name, row in run["rows"].items():
        steps = name.split(";") if name else []
        cases.equal(f"export: the memories after {name}", row["images"]["images"], px86.images(example.text, steps))
        is_broken = px86.may_break(example.text, steps, CONDITION)
        cases.equal(f"export: whether one is broken after {name}", bool(row["broken"]["broken"]), is_broken)
        for refused in (it for it in row["next"] if it["refused"]):
            told = px86.call("run", "--explain", text=example.text, steps=[*steps, refused["step"]]).stderr
            cases.equal(f"export: why {refused['step']} is refused after {name}", row["told"][refused["step"]], told.splitlines()[-1])


def test_sets(cases: Cases, px86: Program, run: Any) -> None:
    """Of each memory in the run which entries have to leave, and since which step it is possible."""
    example = append()
    images = [px86.images(example.text, example.steps[:count]) for count in range(len(example.steps) + 1)]
    for count, here in enumerate(images):
        steps = example.steps[:count]
        wanted = {}
        for values in here:
            places = px86.data("images", "--set", " ".join(map(str, values)), text=example.text, steps=steps)["set"]
            since = count
            while since and values in images[since - 1]:
                since -= 1
            missing = px86.missing(example.text, steps, values)
            wanted[" ".join(map(str, values))] = {"set": places, "since": since, "missing": missing}
        cases.equal(f"export: the ways into memories after {count} steps", run["rows"][";".join(steps)]["sets"], wanted)


def test_export(cases: Cases, px86: Program, folder: str) -> None:
    path = os.path.join(folder, "run.html")
    cases.equal("export: how it ends", export(px86.path, path), (0, "", ""))
    page = read(path)
    run = run_in(page)
    cases.holds("export: its size", len(page.encode()) < MOST_BYTES, len(page.encode()))
    test_policy(cases, page)
    test_rows(cases, px86, run)
    test_sets(cases, px86, run)
    cases.equal("export: what `check` found", run["check"]["lines"][0], "all fails 0 0 1")
    # The one of the documents was made by a proved program. What one without a proof writes differs in that.
    unproved = '"proved":false'
    cases.equal("docs/append-unfenced.html is what is written now", read(COMMITTED), page.replace(unproved, '"proved":true'))


def test_markup(cases: Cases, px86: Program, folder: str) -> None:
    """No text ends the element in which it stands."""
    text, path = os.path.join(folder, "markup.litmus"), os.path.join(folder, "markup.html")
    with open(text, "w", encoding="ascii") as file:
        file.write("# </script><script>window.bad = 1</script>\nlitmus 1\nline x\ncpu\nmov [x], 1\nend\n")
    cases.equal("export of markup: how it ends", called(px86.path, text, "--export", path), (0, "", ""))
    page = read(path)
    cases.equal("export of markup: the scripts", page.count("<script>"), page.count("</script>") - 1)
    cases.equal("export of markup: the text", run_in(page)["begin"]["text"], read(text))


def test_exports(cases: Cases, px86: Program, folder: str) -> None:
    test_export(cases, px86, folder)
    test_markup(cases, px86, folder)
