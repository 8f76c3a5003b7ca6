"""A debugger's view cannot change its machine: a test that tries does not compile. This puts a test with a line for each
way to try into crates/layer_tests, in place of the tests there, in a copy of the crates. Each line is checked, which
passes where the compiler refuses that line. (A must-fail edit has to compile, so that this is no such one.)
"""

from __future__ import annotations

import glob
import os
import re
import shutil
from collections.abc import Iterator

from tests.harness import TOP, Case, Checks, Px86, read, run

AT_LEAST = {"": 3}
NEEDS_PROGRAM = False
LINES = [
    "let _ = session.look().step(Step::Crash);",
    "let _ = session.look().machine.step(Step::Crash);",
    "let _ = session.past.machine().step(Step::Crash);",
]
HEAD = """use crate::machines::{WRITERS, loaded};
use debugger::Session;
use machine::Step;
use std::test::Fail;

#[test]
fn view_changes_the_machine(rt: HostRuntime) -> Result<(), Fail> {
    let alloc = rt.alloc();
    let Ok(session) = Session::new(alloc, loaded(alloc, WRITERS)?) else {
        return Err(Fail::new("no memory"));
    };
"""
LIBRARY = "#![tactic(auto)]\n#[cfg(test)]\nmod machines;\n#[cfg(test)]\nmod views;\n"


def copied(px86: Px86) -> str:
    """A copy of the crates, in which layer_tests has this test alone; the folder of that crate."""
    shutil.copytree(f"{TOP}/crates", f"{px86.folder}/crates", ignore=shutil.ignore_patterns("out"))
    px86.keep("HANDLES", read("HANDLES"))
    # Libraries that this test doesn't use would only be read.
    px86.keep("crates.txt", re.sub(r"^layer_tests[ :].*", "layer_tests: debugger machine litmus_text", read("crates.txt"), flags=re.M))
    for path in glob.glob(f"{px86.folder}/crates/layer_tests/src/**/*.rt", recursive=True):
        if os.path.basename(path) != "machines.rt":
            os.remove(path)
    px86.keep("crates/layer_tests/src/views.rt", HEAD + "".join(f"    {line}\n" for line in LINES) + "    Ok(())\n}\n")
    px86.keep("crates/layer_tests/src/lib.rt", LIBRARY)
    return f"{px86.folder}/crates/layer_tests"


def views(px86: Px86) -> Checks:
    done = run(["rt", "try", "--test"], most=7200, cwd=copied(px86))
    first = HEAD.count("\n") + 1
    refused = {int(it) for it in re.findall(r"^src/views\.rt:(\d+):\d*: error", done.out + done.err, re.M)}
    for number, line in enumerate(LINES, first):
        yield line, "" if number in refused else f"not refused: {(done.out + done.err)[:500]}"
    # Nothing else is wrong with the test.
    errors = [line for line in (done.out + done.err).splitlines() if ": error" in line]
    others = [line for line in errors if not re.match(rf"src/views\.rt:({'|'.join(map(str, range(first, first + len(LINES))))}):", line)]
    if done.status == 0 or others:
        yield "the rest", f"it compiles, or another line is refused: {others}"


def cases() -> Iterator[Case]:
    """The one case."""
    yield Case("a view can't change its machine", views)
