"""The files of the page. There are these and no others: no name of a request is taken for that of a file."""

from __future__ import annotations

import os

FOLDER = os.path.join(os.path.dirname(os.path.dirname(os.path.abspath(__file__))), "page")
STYLE = "look.css"
# In the order in which the page loads them.
SCRIPTS = ("elements.js", "answers.js", "state.js", "entries.js", "machine.js", "program.js", "steps.js", "memories.js")
SCRIPTS += ("search.js", "preview.js", "link.js", "begin.js")
FILES = frozenset(("index.html", STYLE, *SCRIPTS))


def read_page(name: str) -> bytes:
    """The bytes of one of `FILES`."""
    with open(os.path.join(FOLDER, name), "rb") as file:
        return file.read()
