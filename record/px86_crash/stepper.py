"""Runs px86-record: the program on a copy of the pool."""

from __future__ import annotations

import contextlib
import glob
import os
import select
import shutil
import stat
import subprocess
from collections.abc import Iterator, Mapping, Sequence
from typing import IO

from .faults import Failed, Refused
from .report import Progress

HERE = os.path.dirname(os.path.dirname(os.path.abspath(__file__)))
RECORDER = os.path.join(HERE, "out", "px86-record")


# The status of px86-record if an order of threads cannot be played.
NOT_PLAYED = 4


class NotRecorded(Failed):
    """The recorder ended otherwise than with a log."""


class NotPlayed(NotRecorded):
    """The program did otherwise than before, so that a thread could not run where it was to."""


def copy_pool(path: str, copy: str) -> None:
    """Copies a file without its holes. One that is not there yet is the program's to make."""
    if os.path.lexists(copy):
        os.remove(copy)
    try:
        if not os.path.exists(path):
            return
        if not stat.S_ISREG(os.stat(path).st_mode):
            raise Refused(f"{path} is no regular file: px86-crash records a copy")
        with open(path, "rb") as source, open(copy, "wb") as target:
            size = os.fstat(source.fileno()).st_size
            target.truncate(size)
            for begin, end in data_of(source.fileno(), size):
                source.seek(begin)
                target.seek(begin)
                while begin < end:
                    block = source.read(min(end - begin, 1 << 20))
                    if not block:
                        break
                    begin += target.write(block)
    except OSError as error:
        raise Failed(f"{path}: {error.strerror}") from error


def data_of(file: int, size: int) -> Iterator[tuple[int, int]]:
    """Where a file has data, and no hole."""
    begin = 0
    while begin < size:
        try:
            begin = os.lseek(file, begin, os.SEEK_DATA)
        except OSError:
            return
        end = os.lseek(file, begin, os.SEEK_HOLE)
        yield begin, end
        begin = end


def copies_of(files: Sequence[str], copy: str) -> dict[str, str]:
    """The names of files, and those of their copies. A file whose name begins as that of the first is found by it."""
    copies = {files[0]: copy}
    for number, path in enumerate(files[1:], 2):
        copies[path] = copy + (path.removeprefix(files[0]) if path.startswith(files[0]) else f".{number}")
    return copies


def on_copy(words: list[str], copies: Mapping[str, str]) -> list[str]:
    """The words of a program with the copies in the place of the files, also behind `=`."""
    wanted = {os.path.realpath(path): copy for path, copy in copies.items()}
    changed, named = [], set()
    for word in words:
        name, equals, path = word.rpartition("=")
        if path and os.path.realpath(path) in wanted:
            named.add(os.path.realpath(path))
            word = name + equals + wanted[os.path.realpath(path)]
        changed.append(word)
    first = next(iter(copies))
    for path in copies:
        if os.path.realpath(path) not in named and (path == first or not path.startswith(first)):
            raise Refused(f"no argument of the program names {path}: it is run on a copy, and would not find it")
    return changed


def place_of_input(file: int = 0) -> int | None:
    """Where the standard input is, if it is a file."""
    try:
        return os.lseek(file, 0, os.SEEK_CUR) if stat.S_ISREG(os.fstat(file).st_mode) else None
    except OSError:
        return None


def is_input_there_again(file: int = 0) -> bool:
    """Whether each recording finds the same standard input. It is read off from a pipe, unless that is at its end."""
    try:
        mode = os.fstat(file).st_mode
    except OSError:
        return True
    if not stat.S_ISFIFO(mode) and not stat.S_ISSOCK(mode):
        return True
    poll = select.poll()
    poll.register(file, select.POLLIN)
    return any(events & select.POLLHUP and not events & select.POLLIN for _, events in poll.poll(0))


def files_of_log(log: str) -> list[str]:
    """Those of a log that are there."""
    made = [f"{log}.{ending}" for ending in ("places", "fields", "turns")]
    named = [log, *made, *glob.glob(glob.escape(log) + ".before*"), *glob.glob(glob.escape(log) + ".after*")]
    return [path for path in named if os.path.lexists(path)]


def remove_log(log: str) -> None:
    for path in files_of_log(log):
        os.remove(path)


def watched(words: Sequence[str], output: IO[bytes], log: str, is_told: bool) -> int:
    """The status of a program that makes a log. It is told how far it is."""
    progress = Progress("the program is recorded", is_wanted=is_told)
    with subprocess.Popen(words, stdout=output) as process:
        try:
            while progress.shown and process.poll() is None:
                with contextlib.suppress(subprocess.TimeoutExpired):
                    process.wait(Progress.SECONDS)
                progress.goes_on(f"{size_of(log):,} bytes of log")
            process.wait()
        except BaseException:
            process.kill()
            raise
    progress.done()
    return process.returncode


def size_of(path: str) -> int:
    try:
        return os.stat(path).st_size
    except OSError:
        return 0


def record(log: str, words: Sequence[str], options: Sequence[str], output: str, is_told: bool = False) -> None:
    """Records a program. `options` are those of px86-record; the program's standard output goes to the file `output`. With `is_told` it
    is said how far it is."""
    if not os.access(RECORDER, os.X_OK):
        raise Failed(f"there is no {os.path.relpath(RECORDER)}: make it by {os.path.relpath(os.path.join(HERE, 'build'))}")
    if shutil.which(words[0]) is None:
        raise Failed(f"there is no program {words[0]}")
    remove_log(log)
    try:
        with open(output, "wb") as file:
            status = watched([RECORDER, "-o", log, *options, "--", *words], file, log, is_told)
    except OSError as error:
        raise Failed(f"{error.filename}: {error.strerror}") from error
    if status == NOT_PLAYED:
        raise NotPlayed("a thread could not run at its turn")
    # A run that cannot be recorded (2) has a log, which says why.
    if status not in (0, 2) or not os.path.exists(log):
        raise NotRecorded(f"px86-record ended with status {status}, and made no recording")
