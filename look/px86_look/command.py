"""The command line of px86-look."""

from __future__ import annotations

import argparse
import os
import signal
import sys
import webbrowser
from collections.abc import Sequence
from typing import Any, NoReturn

from .emulator import Px86, find_px86
from .examples import EMPTY, find_examples, open_file
from .export import export
from .faults import Gone, Refused
from .questions import Questions
from .server import Server

USAGE = """px86-look [FILE] [--steps STEPS] [--all COND] [--open]
       px86-look FILE --export OUT [--steps STEPS] [--all COND]"""
ABOUT = """Shows a run of px86 in a browser: choose a step, and see what changes. What it shows of the model is what px86 says.

The first starts a server for this machine alone and prints the address of a page, which only who has the address can ask.
Ctrl-C ends it. FILE is a litmus text or an object file; without it the first example is shown. STEPS is a list of steps, which
the page has made, and COND a condition on what a crash may leave.

The second writes this run, with the steps that were possible beside it, as one file, which needs no server and no px86.

The variable PX86 may name the program px86.

exit status: 0, 2 a command line that is not understood or a fault of a text, 3 a file, or px86 could not be called"""


class Parser(argparse.ArgumentParser):
    def error(self, message: str) -> NoReturn:
        stop(f"usage: {message}", 2)


def stop(why: str, status: int) -> NoReturn:
    print(f"px86-look: {why}", file=sys.stderr)
    sys.exit(status)


def read_words(words: Sequence[str]) -> argparse.Namespace:
    form = argparse.RawDescriptionHelpFormatter
    parser = Parser(prog="px86-look", usage=USAGE, description=ABOUT, formatter_class=form, allow_abbrev=False)
    parser.add_argument("file", metavar="FILE", nargs="?")
    parser.add_argument("--steps", metavar="STEPS", help="a list of steps: they are made first")
    parser.add_argument("--all", metavar="COND", help="what each memory that a crash may leave has to keep")
    parser.add_argument("--open", action="store_true", help="start a browser")
    parser.add_argument("--export", metavar="OUT", help="write this run as one file")
    asked = parser.parse_args(words)
    if asked.file is None and (asked.steps or asked.all or asked.export):
        parser.error("--steps, --all and --export need FILE")
    return asked


def begin_of(px86: Px86, asked: argparse.Namespace) -> dict[str, Any]:
    """What the page shows first."""
    if asked.file is not None:
        begin = open_file(px86, asked.file, asked.steps, asked.all)
    else:
        found = find_examples()
        begin = found[0].read() if found else EMPTY
    return begin | {"program": px86.about()}


def open_page(url: str, folder: str) -> None:
    """Opens a private file that leads to the page: so no list of processes shows the token."""
    path = os.path.join(folder, "open.html")
    with open(os.open(path, os.O_CREAT | os.O_WRONLY | os.O_EXCL, 0o600), "w", encoding="ascii") as file:
        file.write(f'<!doctype html><meta http-equiv="refresh" content="0; url={url}"><a href="{url}">px86-look</a>\n')
    webbrowser.open(f"file://{path}")


def serve(px86: Px86, begin: dict[str, Any], is_opened: bool) -> None:
    questions = Questions(px86, begin, find_examples())
    server = Server(questions)
    print(server.url, flush=True)
    if is_opened:
        open_page(server.url, px86.folder.name)
    try:
        server.serve_forever()
    except KeyboardInterrupt:
        pass
    finally:
        questions.running.stop()
        server.server_close()


def run(asked: argparse.Namespace) -> None:
    px86 = Px86(find_px86())
    # What ends the server also removes its folder.
    signal.signal(signal.SIGTERM, lambda *_: sys.exit(0))
    try:
        begin = begin_of(px86, asked)
        if asked.export is None:
            return serve(px86, begin, asked.open)
        content = export(px86, begin)
        with open(asked.export, "w", encoding="utf-8") as file:
            file.write(content)
    finally:
        px86.close()


def main(words: Sequence[str]) -> int:
    try:
        run(read_words(words))
    except Refused as fault:
        stop(str(fault), 2)
    except Gone as fault:
        stop(str(fault), 3)
    except OSError as fault:
        stop(f"{fault.filename}: {fault.strerror}", 3)
    return 0
