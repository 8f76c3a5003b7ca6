"""Asks tools/wrong-bodies what the ledgers of the wrong bodies say, and tries each of its rules on a small tree.

Each wrong body is a check. It passes where its line says that it was refused, on the text that stands here. It fails where its line
says BAD EDIT or passes. Where it was tried on an older text alone, or never, it counts as not run. A line says how many these
are. In the small tree a script stands in the place of `rt`: of each edit it says what the edit's first line says. So no edit is
tried here.
"""

from __future__ import annotations

import os
import re
import shutil
import sys
import tempfile
from collections.abc import Iterator, Mapping

from tests.harness import TOP, Case, Checks, NotRun, Px86, run, unlike

AT_LEAST = {"": 700}
NEEDS_PROGRAM = False
SUM = re.compile(
    r"wrong bodies: (\d+) tried on this text \((\d+) refused, (\d+) bad, (\d+) passing\), (\d+) on an older text, (\d+) never"
)
REFUSED = "refused, as it must be: src/lib.rt:1:1: error"
BAD = "BAD EDIT: an 'old:' text is in src/lib.rt 0 times, and not once"
PASSES = "NOT REFUSED: the crate is still proved with this edit"
NOT_TRIED = "NOT TRIED: its check was killed"
# Where an edit says this, the run is stopped while it is tried.
STOPS = "stops"
RT = r"""#!/bin/bash
echo "$*" >>"$CALLS"
if [ "$1" = check ]; then
    echo "the check of $(basename "$PWD")"
    [ ! -e src/unproved.rt ]
    exit
fi
for edit in crates/"$2"/must-fail/*.edit; do
    echo "${edit##*/}" >>"$CALLS"
    said=$(head -n 1 "$edit")
    if [ "$said" = stops ]; then
        kill -TERM "$PPID"
        exec sleep 60
    fi
    echo "rt: must-fail $2/${edit##*/}: $said"
    echo "more of ${edit##*/}"
done
echo "rt: a note"
echo "of two lines"
"""

# Stands in the place of `rattle`. The functions of a file stand a line each, and what is said of each is the text in its body.
RATTLE = r"""#!/usr/bin/env python3
import os
import re
import sys

asked = [word for at, word in enumerate(sys.argv) if sys.argv[at - 1] == "--only"]
with open(os.environ["CALLS"], "a") as calls:
    print(" ".join(asked) or "the whole", file=calls)
crate, status, lines = sys.argv[sys.argv.index("--crate-name") + 1], 0, []
for file in sorted(os.listdir("src")):
    module = "" if file == "lib.rt" else file[:-3] + "::"
    for name, body in re.findall(r'fn (\w+)\(\) \{ "(.*)" +\}', open(f"src/{file}").read()):
        if "error" in body:
            sys.exit(print(f"src/{file}:1:1: {body}") or 1)
        if not asked or module + name in asked or module and module[:-2] in asked:
            lines.append(f"fn {crate}::{module}{name}: {body}")
            status |= body != "proved"
print("\n".join(lines))
sys.exit(status)
"""


class Tree:
    """A repository of two crates, `first` with the edits that are given and `second` with one that is refused."""

    def __init__(self, edits: Mapping[str, str]) -> None:
        self.room = tempfile.TemporaryDirectory()
        self.top = self.room.name
        self.write("crates.txt", "first:\nsecond: first\n")
        for name in ("first", "second"):
            self.write(f"crates/{name}/src/lib.rt", "fn f() {}\n")
            self.write(f"crates/{name}/specs/Lib.antt", "")
        self.edits(edits)
        self.write("crates/second/wrong-bodies/other.edit", REFUSED)
        self.write("bin/rt", RT)
        self.write("bin/rattle", RATTLE)
        for name in ("rt", "rattle"):
            os.chmod(f"{self.top}/bin/{name}", 0o755)
        os.mkdir(f"{self.top}/tools")
        shutil.copy(f"{TOP}/tools/wrong-bodies", f"{self.top}/tools/wrong-bodies")

    def __enter__(self) -> Tree:
        return self

    def __exit__(self, *_: object) -> None:
        self.room.cleanup()

    def write(self, path: str, text: str) -> None:
        os.makedirs(os.path.dirname(f"{self.top}/{path}"), exist_ok=True)
        with open(f"{self.top}/{path}", "w", encoding="utf-8") as file:
            file.write(text)

    def read(self, path: str) -> str | None:
        if not os.path.exists(f"{self.top}/{path}"):
            return None
        with open(f"{self.top}/{path}", encoding="utf-8", newline="") as file:
            return file.read()

    def remove(self, path: str) -> None:
        os.remove(f"{self.top}/{path}")

    def edits(self, texts: Mapping[str, str]) -> None:
        for name, text in texts.items():
            self.write(f"crates/first/wrong-bodies/{name}.edit", text)

    def call(self, *words: str) -> tuple[int, str]:
        """The exit status and what is said; `tried` then has what was asked of `rt`."""
        calls = f"{self.top}/calls"
        with open(calls, "w", encoding="utf-8"):
            pass
        where = {"PATH": f"{self.top}/bin:{os.environ['PATH']}", "CALLS": calls, "TMPDIR": self.top}
        done = run([sys.executable, f"{self.top}/tools/wrong-bodies", *words], env=os.environ | where)
        self.calls = (self.read("calls") or "").splitlines()
        self.tried = [it for it in self.calls if it.endswith(".edit")]
        return done.status, done.out + done.err

    def lines(self, name: str = "first") -> str | None:
        """The edit and the verdict of each line of a crate's ledger, in order; a sum is 16 hexadecimal digits."""
        text = self.read(f"crates/{name}/wrong-bodies/TRIED")
        return None if text is None else re.sub(r"\.edit [0-9a-f]{16} ", " ", text)

    def sum(self) -> tuple[object, ...]:
        """The exit status of --check, and how many edits are refused, tried on an older text, never tried, bad and passing."""
        status, said = self.call("--check")
        found = SUM.fullmatch(said.splitlines()[-1])
        if not found:
            return status, said
        tried, refused, bad, passing, older, never = map(int, found.groups())
        return (status, refused, older, never, bad, passing) if tried == refused + bad + passing else (status, said)


def checked(name: str, found: object, wanted: object) -> tuple[str, str]:
    """One thing that a rule says: what is wrong with it, or nothing."""
    return name, unlike(found, wanted)


def verdicts(_: Px86) -> Checks:
    """Each verdict has its line, in order; one that is not tried has none, and is named."""
    edits = {"c": REFUSED, "a": PASSES, "d": NOT_TRIED, "b": BAD}
    with Tree(edits) as tree:
        yield checked("nothing was tried", tree.sum(), (0, 0, 0, 5, 0, 0))
        status, said = tree.call("--all")
        yield checked("a run in which not all are refused fails", status, 1)
        yield checked("how many are to be tried", said.splitlines()[0], "5 wrong bodies of 2 crates are to be tried")
        yield checked("each verdict has its line, sorted", tree.lines(), "a passes\nb BAD EDIT\nc refused\n")
        yield checked("a ledger for each crate", tree.lines("second"), "other refused\n")
        yield checked("what is not tried is named", "first: NOT TRIED: d.edit" in said.splitlines(), True)
        shown = [f"first/b.edit: {BAD}", "more of b.edit", f"first/c.edit: {REFUSED}"]
        yield checked("what `rt` says of each is shown", "\n".join(shown) in said and "two lines" not in said, True)
        yield checked("a pass and a BAD EDIT fail the check", tree.sum(), (1, 2, 0, 1, 1, 1))
        said = tree.call("--check")[1]
        named = [it for it in said.splitlines() if it.startswith("crates/")]
        wanted = ["crates/first/wrong-bodies/a.edit: passes", "crates/first/wrong-bodies/b.edit: BAD EDIT"]
        yield checked("and are named", named, wanted)
        told = "first: of 4 wrong bodies 0 were tried on an older text, and 1 never"
        yield checked("a crate says how many have no verdict", told in said.splitlines(), True)
        yield checked("the check tries nothing", tree.tried, [])
        before = tree.read("crates/first/wrong-bodies/TRIED")
        tree.call("first")
        every = ["a.edit", "b.edit", "c.edit", "d.edit"]
        yield checked("a second run tries all of the crate, and of no other", tree.tried, every)
        yield checked("and leaves the ledger as it was", tree.read("crates/first/wrong-bodies/TRIED"), before)
        tree.edits({"a": REFUSED, "b": REFUSED, "d": REFUSED})
        yield checked("an old line's verdict is no failure", tree.sum(), (0, 2, 2, 1, 0, 0))
        status, _ = tree.call("--stale", "first")
        yield checked("--stale tries those that are missing or old", tree.tried, ["a.edit", "b.edit", "d.edit"])
        yield checked("and then all are refused", (status, *tree.sum()), (0, 0, 5, 0, 0, 0, 0))
        status, said = tree.call("--all")
        yield checked("and nothing is left to try", (status, tree.tried), (0, []))


def order(_: Px86) -> Checks:
    """The crate of which most are to be tried comes first."""
    with Tree({"a": REFUSED}) as tree:
        tree.write("crates/second/wrong-bodies/more.edit", REFUSED)
        tree.call("--all", "--jobs", "1")
        yield checked("two of the second crate, one of the first", tree.tried, ["more.edit", "other.edit", "a.edit"])
        tree.edits({"b": REFUSED, "c": REFUSED})
        tree.write("crates/second/wrong-bodies/other.edit", f"{REFUSED} still")
        tree.call("--all", "--jobs", "1")
        yield checked("what is left: two of the first, one of the second", tree.tried, ["b.edit", "c.edit", "other.edit"])


def misfits(_: Px86) -> Checks:
    """An edit that no longer fits its file is bad, though nothing was tried; one of two parts fits as the first part leaves it."""
    head = "file: src/lib.rt\n"
    twice = head + "old: f()\nnew: g()\nold: g() {}\nnew: g() { }\n"
    fits = {"a": head + "old: fn f()\nnew: fn g()\n", "b": twice}
    gone = {"c": head + "old: fn g()\nnew: fn h()\n", "d": head + "old: f\nnew: g\n", "e": "file: src/no.rt\nold: f\nnew: g\n"}
    with Tree({**fits, **gone}) as tree:
        yield checked("edits that do not fit are bad", tree.sum(), (1, 0, 0, 3, 3, 0))
        said = [it for it in tree.call("--check")[1].splitlines() if it.startswith("crates/")]
        place = "crates/first/wrong-bodies/{}.edit: BAD EDIT: an `old:` text is in {} {} times, and not once"
        wanted = [place.format("c", "src/lib.rt", 0), place.format("d", "src/lib.rt", 2), place.format("e", "src/no.rt", 0)]
        yield checked("and it is said why", said, wanted)
    with Tree({"a": f"{REFUSED}\n{head}old: fn f()\nnew: fn g()\n"}) as tree:
        tree.call("--all")
        tree.write("crates/first/src/lib.rt", "fn f() {}\n// fn f()\n")
        yield checked("an edit that no longer fits, with a line that is not old", tree.sum(), (1, 1, 0, 0, 1, 0))


# Two functions with clauses and bodies, in which braces stand in texts and comments too, and what is no function.
ONE = """//! A crate.
use low::Kind;

/// The first.
pub fn one(it: &[u8], f: fn(u8) -> u8) -> Result<u8, [u8; { 3 }]>
    requires short { length it < 5 }
    ensures { result \u2261 first it }
{
    let found = "}"; // }
    if it[0] == '{' { one_more(b'}', r#"" } "#) } else { Err([0, 0, 1]) }
}

const WIDTH: usize = 7;
"""
TWO = """impl<'a> Low<'a> {
    #[tactic(auto, using(more))]
    fn two<const N: usize>(&'a self) -> Low<{ 3 }, bool>
    {
        true
    }
}
"""
OF_ONE = f"{REFUSED}\nfile: src/lib.rt\nold: Err([0, 0, 1])\nnew: Err([0, 0, 0])\n"
OF_TYPE = f"{REFUSED}\nfile: src/lib.rt\nold: WIDTH: usize = 7;\nnew: WIDTH: usize = 8;\n"
OF_PROOF = f"{REFUSED}\nfile: proofs/Lib.antt\nold: one = two\nnew: one = three\n"
# What changes, in which file, and the edits of which a line is then old: those above, and that of the crate above (`other`).
CHANGES = (
    ("a comment", "src/lib.rt", "// }", "// or }", ""),
    ("a comment that is gone, and its line", "src/lib.rt", "/// The first.\n", "", ""),
    ("a blank line", "src/lib.rt", "{\n    let", "{\n\n    let", ""),
    ("blanks at a line's end", "src/lib.rt", "use low::Kind;", "use low::Kind;  ", ""),
    ("a comment before a word, of which a blank is left", "src/two.rt", "true", "/* { */ true", "type proof"),
    ("the body that is edited", "src/lib.rt", "'{'", "'}'", "one type proof"),
    ("a text in the body that is edited", "src/lib.rt", '"}"', '"//"', "one type proof"),
    ("the body of another function", "src/two.rt", "true", "false", "type proof"),
    ("a hint", "src/two.rt", "more", "less", ""),
    ("the head of another function", "src/two.rt", "fn two", "fn three", "one type proof other"),
    ("a number in the head of another function", "src/two.rt", "{ 3 }", "{ 4 }", "one type proof other"),
    ("a clause", "src/lib.rt", "length it < 5", "length it < 6", "one type proof other"),
    ("the name of a clause", "src/lib.rt", "requires short", "requires long", "one type proof other"),
    ("a constant", "src/lib.rt", "const WIDTH: usize = 7;", "const WIDTH: usize = 7; const MORE: usize = 3;", "one type proof other"),
    ("a use line", "src/lib.rt", "use low::Kind;", "use low::Sort;", "one type proof other"),
    ("a constant function's body", "src/const.rt", "{ 4 }", "{ 5 }", "one type proof other"),
    ("a definition", "specs/Lib.antt", "first = head", "first = last", "one type proof other"),
    ("a comment of a definition", "specs/Lib.antt", "-- the first", "-- which one", ""),
    ("a proof", "proofs/More.antt", "a = b", "a = c", ""),
    ("the proof that is edited", "proofs/Lib.antt", "two = 2", "two = 1 + 1", "proof"),
)


def sums(_: Px86) -> Checks:
    """A line is old once anything has changed on which its verdict rests, and nothing else makes it old."""
    every = {"one": OF_ONE, "type": OF_TYPE, "proof": OF_PROOF}
    with Tree(every) as tree:
        files = {"src/lib.rt": ONE, "src/two.rt": TWO, "src/const.rt": "pub const fn four() -> u8 { 4 }\n"}
        files |= {"specs/Lib.antt": "-- the first\nfirst = head\n", "proofs/Lib.antt": "one = two\ntwo = 2\n", "proofs/More.antt": "a = b\n"}
        for path, text in files.items():
            tree.write(f"crates/first/{path}", text)
        tree.call("--all")
        fresh = (0, 4, 0, 0, 0, 0)
        yield checked("all are refused", tree.sum(), fresh)
        for path in ("crates/first/notes.md", "crates/first/wrong-bodies/notes.md", "crates/first/out/lib.rt"):
            tree.write(path, "")
            yield checked(f"{path} says nothing of a line", tree.sum(), fresh)
        for name, path, old, new, wanted in CHANGES:
            assert files[path].count(old) == 1, name
            tree.write(f"crates/first/{path}", files[path].replace(old, new))
            said = tree.call("--stale")[1]
            yield checked(f"{name}: what is old", sorted(tree.tried), sorted(f"{it}.edit" for it in wanted.split()))
            yield checked(f"{name}: then nothing is", tree.sum(), fresh)
            tree.write(f"crates/first/{path}", files[path])
            tree.call("--stale")
        os.rename(f"{tree.top}/crates/first/src/two.rt", f"{tree.top}/crates/first/src/more.rt")
        yield checked("a file has another name", tree.sum(), (0, 0, 4, 0, 0, 0))
        os.rename(f"{tree.top}/crates/first/src/more.rt", f"{tree.top}/crates/first/src/two.rt")
        tree.write("crates/second/src/lib.rt", "fn f() { g() }\n")
        yield checked("the crate above has another body", tree.sum(), fresh)
        tree.edits({"type": f"{OF_TYPE} still"})
        yield checked("an edit changes: its own line is old", tree.sum(), (0, 3, 1, 0, 0, 0))


def edits_gone(_: Px86) -> Checks:
    """A line whose edit is gone counts for nothing, and is dropped."""
    with Tree({"a": PASSES, "b": REFUSED}) as tree:
        tree.call("--all")
        tree.remove("crates/first/wrong-bodies/a.edit")
        yield checked("a pass whose edit is gone", tree.sum(), (0, 2, 0, 0, 0, 0))
        tree.call("--stale")
        yield checked("its line is dropped", tree.lines(), "b refused\n")
        tree.remove("crates/first/wrong-bodies/b.edit")
        tree.call("--stale")
        yield checked("and with the last one the ledger", tree.lines(), None)


def runs_that_end_early(_: Px86) -> Checks:
    """What is not tried has no line: of a crate that is not proved, and behind the edit at which a run is stopped."""
    with Tree({"a": REFUSED}) as tree:
        tree.write("crates/first/src/unproved.rt", "")
        status, _ = tree.call("--all", "--jobs", "1")
        yield checked("a crate that is not proved", (status, tree.tried, tree.lines()), (1, ["other.edit"], None))
        yield checked("holds up no other", tree.lines("second"), "other refused\n")
    many = {f"e{number:02}": REFUSED for number in range(20)}
    with Tree({**many, "e19": STOPS}) as tree:
        status, _ = tree.call("--jobs", "1", "first")
        yield checked("a stopped run fails", status, 1)
        lines = (tree.lines() or "").splitlines()
        kept = lines == [f"e{number:02} refused" for number in range(len(lines))] and 0 < len(lines) < 20
        yield checked(f"and keeps the lines that it has ({len(lines)})", kept, True)
        tree.edits({"e19": REFUSED})
        tree.call("--all")
        wanted = [*(f"e{number:02}.edit" for number in range(len(lines), 20)), "other.edit"]
        yield checked("the next run tries the others", sorted(tree.tried), wanted)
    with Tree({"a": REFUSED}) as tree:
        tree.write("crates/first/wrong-bodies/TRIED", "a.edit refused\n")
        for words in (["--check"], ["--all"]):
            status, said = tree.call(*words)
            said = "crates/first/wrong-bodies/TRIED:1" in said
            yield checked(f"a line that is none, {words[0]}", (status, said, tree.tried), (1, True, []))
    with Tree({"a": REFUSED}) as tree:
        for words in (["third"], ["--check", "third"], ["--all", "--jobs", "0"], ["--check", "--stale"], ["--all", "first"], []):
            yield checked(f"{words}: nothing is tried", (tree.call(*words)[0], tree.tried), (2, []))


def over_libraries(_: Px86) -> Checks:
    """Over libraries that were built before, functions are checked alone, those of several edits at once, and what fits no function."""
    code = "".join(f'fn {name}() {{ "proved" }}\n' for name in ("one", "two", "three", "four"))
    more = 'const WIDTH: u8 = 7;\nfn five() { "proved" }\n'
    to = {"a": ("one", "no proof: expected answers"), "b": ("two", "not proved"), "c": ("one", "not proved; at a bound")}
    waits = {"d": ("three", "no proof: it calls `one`, which is not proved"), "e": ("four", "error[no-name]: there is no `x`")}

    def edit(name: str, said: str) -> str:
        return f'file: src/lib.rt\nold: fn {name}() {{ "proved" }}\nnew: fn {name}() {{ "{said}" }}\n'

    def tree_of(edits: Mapping[str, tuple[str, str]]) -> Tree:
        tree = Tree({name: edit(*it) for name, it in edits.items()})
        tree.write("crates/first/src/lib.rt", code)
        tree.write("crates/first/src/more.rt", more)
        tree.write("built/first/rlib/first.rlib/format", "")
        return tree

    with tree_of(to) as tree:
        words = ["--stale", "--jobs", "1", "--built", f"{tree.top}/built", "first"]
        status, said = tree.call(*words)
        yield checked("each is refused", (status, tree.lines()), (0, "a refused\nb refused\nc refused\n"))
        yield checked("two functions at once, then the first again, and no rt", tree.calls, ["one two", "one"])
        yield checked("what is said of a function is shown", "first/b.edit: refused: fn first::two: not proved" in said, True)
        yield checked("and nothing is left", (tree.call(*words)[0], tree.calls), (0, []))
        tree.edits({"f": edit("two", "proved ")})
        status, _ = tree.call("--built", f"{tree.top}/built", "second")
        yield checked("a crate with no library is not tried", (status, tree.calls, tree.lines("second")), (1, [], None))
    with tree_of({**to, **waits}) as tree:
        tree.call("--stale", "--built", f"{tree.top}/built", "first")
        yield checked("what does not compile is bad, and holds up no other", tree.lines(), "a refused\nb refused\nc refused\ne BAD EDIT\n")
        yield checked("where a function waits for another, nothing is said of it", "three" in tree.calls, True)
    with tree_of({"a": ("one", "proved")}) as tree:
        tree.edits({"a": 'file: src/lib.rt\nold: fn one() { "proved" }\nnew: fn one() { "proved"  }\n'})
        tree.edits({"b": "file: src/more.rt\nold: 7;\nnew: 8;\n"})
        status, _ = tree.call("--stale", "--built", f"{tree.top}/built", "first")
        yield checked("what is proved is proved whole before it passes", tree.calls, ["one", "more", "the whole", "the whole"])
        yield checked("and passes", (status, tree.lines()), (1, "a passes\nb passes\n"))


def ledgers(px86: Px86) -> Checks:
    """How many of the wrong bodies here are as they must be, how many are not, and how many were not tried on this text; what is said of
    them, and the line that says so."""
    done = run([sys.executable, f"{TOP}/tools/wrong-bodies", "--check"], most=1200)
    print(f"{done.out}{done.err}", end="", flush=True)
    last = (done.out.splitlines() or [""])[-1]
    found = SUM.fullmatch(last)
    if not found:
        yield "--check", f"it says no sum: {last}"
        return
    _, refused, bad, passing, older, never = map(int, found.groups())
    yield from [("", "")] * refused
    yield from [("", "a BAD EDIT")] * bad + [("", "a pass")] * passing
    yield from [("", NotRun("it was not tried on this text"))] * (older + never)
    if done.status != (bad + passing > 0):
        yield "--check", f"it ended with status {done.status}"


def cases() -> Iterator[Case]:
    """All cases."""
    yield Case("the ledgers", ledgers)
    for rule in verdicts, order, misfits, sums, edits_gone, runs_that_end_early, over_libraries:
        yield Case(rule.__name__.replace("_", " "), rule)
