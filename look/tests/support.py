"""What the tests of px86-look share: a count of cases, px86 called apart from px86-look, and px86-look as a person starts it."""

from __future__ import annotations

import http.client
import json
import os
import re
import subprocess
import tempfile
from collections.abc import Iterable, Iterator, Sequence
from contextlib import contextmanager
from typing import Any

LOOK = os.path.dirname(os.path.dirname(os.path.abspath(__file__)))
TOP = os.path.dirname(LOOK)
EXAMPLES = os.path.join(TOP, "examples")
# A check in the code of a program without a proof ends it by a signal where it fails.
ENVIRONMENT = {"ASAN_OPTIONS": "abort_on_error=1:allocator_may_return_null=1"} | os.environ
# Set by look/test-mutants: the first case that fails ends the tests.
ENDS_AT_FAILURE = "PX86_LOOK_ENDS_AT_FAILURE" in os.environ
# The status of look/test-page, if the browser does not start.
NOT_STARTED = 77
# What a crash of the guide's append has to keep: the tail only with its record.
CONDITION = "persisted tail = 0 or persisted a = 11 and persisted b = 12"


class Cases:
    """What was found so far."""

    def __init__(self) -> None:
        self.passed = self.failed = self.not_run = 0

    def holds(self, name: str, held: bool, told: object = "") -> None:
        if held:
            self.passed += 1
            return
        self.failed += 1
        print(f"FAILED: {name}\n    {str(told)[:600]}", flush=True)
        if ENDS_AT_FAILURE:
            raise SystemExit(1)

    def equal(self, name: str, found: object, wanted: object) -> None:
        self.holds(name, found == wanted, f"found  {str(found)[:600]}\n    wanted {str(wanted)[:600]}")

    def conclude(self, script: str, at_least: int) -> int:
        """Says the sum; the status of the script. Where a loop ran over nothing there are fewer cases than at least."""
        count = self.passed + self.failed + self.not_run
        if count < at_least:
            self.holds(f"{script} has {count} cases", False, f"there are at least {at_least}")
        if self.not_run:
            print(f"{self.not_run} not run")
        print(f"{self.passed} passed, {self.failed} failed")
        return int(self.failed > 0)


def read(path: str) -> str:
    with open(path, encoding="utf-8") as file:
        return file.read()


def steps_in(content: str) -> list[str]:
    """The steps of a list with comments."""
    lines = [line.partition("#")[0].split() for line in content.splitlines()]
    return [" ".join(words) for words in lines if words]


class Program:
    """px86, called apart from px86-look."""

    def __init__(self, path: str) -> None:
        self.path = path

    def call(self, command: str, *options: str, text: str, steps: Iterable[str] = ()) -> subprocess.CompletedProcess[str]:
        with tempfile.NamedTemporaryFile("w", suffix=".litmus", encoding="utf-8") as file:
            file.write(text)
            file.flush()
            words = [self.path, command, *options, file.name]
            given = "".join(f"{step}\n" for step in steps)
            return subprocess.run(words, input=given, capture_output=True, text=True, env=ENVIRONMENT, check=False)

    def data(self, command: str, *options: str, text: str, steps: Iterable[str] = ()) -> Any:
        return json.loads(self.call(command, "--json", *options, text=text, steps=steps).stdout)

    def state(self, text: str, steps: Iterable[str]) -> Any:
        return self.data("run", text=text, steps=steps)["state"]

    def images(self, text: str, steps: Iterable[str]) -> list[list[int]] | None:
        """The memories that a crash may leave; none if px86 says that there are too many candidates."""
        done = self.call("images", "--json", text=text, steps=steps)
        if done.stdout:
            images: list[list[int]] = json.loads(done.stdout)["images"]
            return images
        assert json.loads(done.stderr)["fault"]["number"] == "I1", done.stderr
        return None

    def missing(self, text: str, steps: Iterable[str], values: Iterable[int]) -> list[str]:
        """Of each write that is missing in a memory why it is: as a hunt of no turns says, where this memory alone breaks the condition."""
        words = self.state(text, steps)["words"]
        same = " and ".join(f"persisted {it['word']} = {value}" for it, value in zip(words, values))
        plan = ("--all", f"not ( {same} )", "--length", "0", "--runs", "1", "--explain-image")
        told = self.call("hunt", *plan, text=text, steps=steps).stdout if words else ""
        return [line for line in told.splitlines() if line.startswith("missing ") and line != "missing none"]

    def may_break(self, text: str, steps: Iterable[str], condition: str) -> bool:
        """Whether a crash may leave a memory of which this is false."""
        return self.call("images", "--count", "--all", condition, text=text, steps=steps).returncode == 1

    def lines(self, text: str) -> int:
        """How many cache lines the text has."""
        return sum(line.startswith("line") for line in self.call("dis", text=text).stdout.splitlines())

    def tried(self, text: str, state: Any) -> Iterator[str]:
        """Each step that names what is there, and Crash."""
        for cpu in state["cpus"]:
            yield f"exec {cpu['cpu']}"
        for cpu in state["cpus"]:
            for place in range(len(cpu["buffer"])):
                yield f"drain {cpu['cpu']} {place}"
        for line in range(self.lines(text)):
            yield f"persist {line}"
        yield "settle"
        yield "crash"

    def states_after(self, text: str, steps: Sequence[str]) -> dict[str, Any]:
        """Of each of these steps that `run` accepts the state behind it."""
        found = {}
        for step in self.tried(text, self.state(text, steps)):
            told = self.data("run", text=text, steps=[*steps, step])
            if told["refused"] is None:
                found[step] = told["state"]
        return found


def entry_text(entry: dict[str, Any]) -> str:
    return " ".join(str(entry[name]) for name in ("kind", "word", "value", "cache_line") if name in entry)


class Server:
    """px86-look, as it was started, and requests of it."""

    def __init__(self, url: str) -> None:
        self.url = url
        found = re.fullmatch(r"http://127\.0\.0\.1:(\d+)/([A-Za-z0-9_-]+)/\n?", url)
        assert found, url
        self.port, self.token = int(found[1]), found[2]
        self.origin = f"http://127.0.0.1:{self.port}"
        self.headers = {"Origin": self.origin, "Content-Type": "application/json"}

    def request(
        self, method: str, path: str, body: bytes | None = None, headers: dict[str, str] | None = None, hosts: Sequence[str] = ("",)
    ) -> Any:
        """The status, the body and the headers of an answer. `hosts` are those of the request, the empty one being the server's."""
        link = http.client.HTTPConnection("127.0.0.1", self.port, timeout=300)
        link.putrequest(method, path, skip_host=True)
        for host in hosts:
            link.putheader("Host", host or f"127.0.0.1:{self.port}")
        headers = dict(headers or {})
        if body is not None:
            headers.setdefault("Content-Length", str(len(body)))
        for name, value in headers.items():
            link.putheader(name, value)
        link.endheaders(body)
        answer = link.getresponse()
        content = answer.read()
        link.close()
        return answer.status, content, answer.getheaders()

    def ask(self, question: str, **asked: Any) -> Any:
        """The answer to a question that is understood."""
        status, content, _ = self.request("POST", f"/{self.token}/{question}", json.dumps(asked).encode(), self.headers)
        assert status == 200, (question, status, content)
        return json.loads(content)


def words_of(*options: str) -> list[str]:
    return [os.path.join(LOOK, "px86-look"), *options]


@contextmanager
def started(program: str, *options: str, environment: dict[str, str] | None = None) -> Iterator[Server]:
    """px86-look with these words, until the block ends."""
    environment = os.environ | {"PX86": program} | (environment or {})
    process = subprocess.Popen(words_of(*options), stdout=subprocess.PIPE, text=True, env=environment)
    assert process.stdout is not None
    try:
        yield Server(process.stdout.readline())
    finally:
        process.terminate()
        process.wait()
        process.stdout.close()


def called(program: str, *options: str) -> tuple[int, str, str]:
    """How px86-look ends with these words, where it serves nothing."""
    environment = os.environ | {"PX86": program}
    done = subprocess.run(words_of(*options), capture_output=True, text=True, env=environment, timeout=600, check=False)
    return done.returncode, done.stdout, done.stderr
