"""Starts px86: every call of it is made here, on a text and a list of steps."""

from __future__ import annotations

import json
import os
import re
import subprocess
import tempfile
import threading
from typing import Any, NamedTuple

from .faults import Gone
from .proof import logic_of

TOP = os.path.dirname(os.path.dirname(os.path.dirname(os.path.abspath(__file__))))
# A check in the code of a program without a proof ends it by a signal where it fails, as its statuses are reports.
ENVIRONMENT = {"ASAN_OPTIONS": "abort_on_error=1:allocator_may_return_null=1"} | os.environ
# So many calls at once: the page asks in bursts.
MOST_CALLS = max(2, min(8, os.cpu_count() or 2))
# How long a call may take, in seconds, unless the one who asks says another time.
SECONDS = 60.0


def find_px86() -> str:
    """The program: that of the variable PX86, or the one that was built here."""
    named = os.environ.get("PX86")
    path = named or os.path.join(TOP, "crates", "px86", "out", "px86")
    if os.path.isfile(path) and os.access(path, os.X_OK):
        return os.path.abspath(path)
    if named:
        raise Gone(f"the variable PX86 names {named}, which is no program")
    script = os.path.join(os.path.relpath(TOP), "px86")
    raise Gone(
        f"px86 is not built: run {script} --version, which proves and builds it, once."
        f" Until then run {script} --unproved --version, and export PX86={path}.unproved"
    )


class Answer(NamedTuple):
    """How a call ended, and what it wrote on standard output and standard error."""

    status: int
    out: str
    err: str

    @property
    def is_report(self) -> bool:
        """Statuses 0 and 1 are reports, and of `run` and `trace` 2 is one too, if a step was refused."""
        return self.status in (0, 1) or (self.status == 2 and self.out != "")

    @property
    def data(self) -> Any:
        """The report as JSON."""
        return json.loads(self.out)

    @property
    def said(self) -> dict[str, Any]:
        """The object on standard error of a call with `--json`; empty if there is none."""
        try:
            said: dict[str, Any] = json.loads(self.err.partition("\n")[0])
        except ValueError:
            return {}
        return said

    @property
    def explanation(self) -> str:
        """What `--explain` adds to a report of a call with `--json`."""
        return (self.said.get("explanation") or "").rstrip("\n")

    @property
    def fault(self) -> dict[str, Any]:
        """The fault of a call with `--json`, by the names of its parts; `told`, what `--explain` adds; and `line`, that of the text."""
        parts: dict[str, Any] | None = self.said.get("fault")
        if parts is None:
            raise Gone(f"px86 ended with status {self.status}: {self.err[-400:]}")
        line = re.fullmatch(r"line (\d+)", parts["place"] or "")
        told = (parts["explanation"] or self.err.partition("\n")[2]).rstrip("\n")
        return parts | {"told": told, "line": int(line[1]) if line else None}


class Running:
    """A call that can be stopped."""

    def __init__(self) -> None:
        self.process: subprocess.Popen[bytes] | None = None
        self.is_stopped = False
        self.lock = threading.Lock()

    def begin(self, words: list[str]) -> subprocess.Popen[bytes]:
        """Starts the process, unless the call was stopped before."""
        with self.lock:
            if self.is_stopped:
                raise Gone("it was stopped")
            pipe = subprocess.PIPE
            self.process = subprocess.Popen(words, stdin=pipe, stdout=pipe, stderr=pipe, env=ENVIRONMENT)
            return self.process

    def stop(self) -> None:
        with self.lock:
            self.is_stopped = True
            if self.process is not None and self.process.poll() is None:
                self.process.kill()


class Px86:
    """The program px86, and a folder for the texts that it is given. `close` removes the folder."""

    def __init__(self, path: str) -> None:
        self.path = path
        self.folder = tempfile.TemporaryDirectory(prefix="px86-look.")
        self.free = threading.BoundedSemaphore(MOST_CALLS)

    def close(self) -> None:
        self.folder.cleanup()

    def about(self) -> dict[str, Any]:
        """What the page says of the program: its version, and whether it was proved."""
        done = self.ask("--version")
        with open(self.path, "rb") as file:
            is_proved = logic_of(file.read()) is not None
        return {"version": done.out.strip(), "proved": is_proved}

    def ask(
        self, *words: str, text: bytes | None = None, given: str = "", seconds: float = SECONDS, running: Running | None = None
    ) -> Answer:
        """Has a command run, on a text if there is one, with the steps or the script `given`."""
        number, path = tempfile.mkstemp(dir=self.folder.name)
        try:
            with open(number, "wb") as file:
                file.write(text or b"")
            words = (*words, "--explain", path) if text is not None else words
            with self.free:
                return self.run([self.path, *words], given, seconds, running or Running())
        except OSError as error:
            raise Gone(f"{self.path}: {error.strerror}") from error
        finally:
            os.unlink(path)

    def run(self, words: list[str], given: str, seconds: float, running: Running) -> Answer:
        """Waits for a call. One that was stopped, took longer, or ended as none should is Gone."""
        with running.begin(words) as process:
            try:
                out, err = process.communicate(given.encode(), timeout=seconds)
            except subprocess.TimeoutExpired:
                process.kill()
                raise Gone(f"px86 {words[1]} was stopped after {seconds:g} s") from None
        if running.is_stopped:
            raise Gone("it was stopped")
        if not 0 <= process.returncode <= 4:
            raise Gone(f"px86 {words[1]} ended with status {process.returncode}")
        return Answer(process.returncode, out.decode("utf-8", "replace"), err.decode("utf-8", "replace"))
