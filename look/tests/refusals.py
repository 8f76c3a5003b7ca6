"""Requests that the server has to refuse, and what it has to do for those that it answers: each measure against others."""

from __future__ import annotations

import glob
import json
import os
import re
import socket
import tempfile
import time
from collections.abc import Iterator
from concurrent.futures import ThreadPoolExecutor
from typing import Any

from answers import long_text
from px86_look.emulator import Px86
from px86_look.faults import Gone
from support import EXAMPLES, LOOK, Cases, Server, called, read, started

# A name, the status that is wanted, and the request.
Row = tuple[str, int, tuple[Any, ...]]
STORE = os.path.join(EXAMPLES, "guide", "store.litmus")
MOST_STEPS = 2000
MOST_LISTS = 64
MOST_BYTES = 2_000_000
# What stands in for a browser: it writes the mode of the file that it is to open, the word that it was given, and the file.
BROWSER = """#!/bin/sh
file=${1#file://}
{ stat -c %a "$file" || echo none; echo "$1"; cat "$file"; } >SEEN.new 2>/dev/null
mv SEEN.new SEEN
"""


def asked(data: object) -> bytes:
    return json.dumps(data).encode()


def get_rows(server: Server) -> Iterator[Row]:
    """Of files."""
    token = server.token
    yield "no token", 404, ("GET", "/")
    yield "another token", 404, ("GET", f"/{'x' * len(token)}/")
    yield "a token that is cut", 404, ("GET", f"/{token[:-1]}/")
    yield "a beginning of nothing", 404, ("GET", "//")
    yield "another host", 421, ("GET", f"/{token}/", None, {}, ["evil.example"])
    yield "localhost", 421, ("GET", f"/{token}/", None, {}, [f"localhost:{server.port}"])
    yield "another port", 421, ("GET", f"/{token}/", None, {}, ["127.0.0.1:1"])
    yield "two hosts", 421, ("GET", f"/{token}/", None, {}, ["", "evil.example"])
    yield "no host", 421, ("GET", f"/{token}/", None, {}, [])
    yield "a page of another origin", 403, ("GET", f"/{token}/", None, {"Origin": "http://evil.example"})
    yield "a file above", 404, ("GET", f"/{token}/../px86_look/server.py")
    yield "a file above, encoded", 404, ("GET", f"/{token}/%2e%2e/px86_look/server.py")
    yield "a file of the tool", 404, ("GET", f"/{token}/server.py")
    yield "a file of the machine", 404, ("GET", f"/{token}//etc/passwd")
    yield "a script of another site", 403, ("GET", f"/{token}/state.js", None, {"Sec-Fetch-Site": "cross-site"})
    yield "a script of the same machine, from another port", 403, ("GET", f"/{token}/state.js", None, {"Sec-Fetch-Site": "same-site"})
    yield "another method", 501, ("OPTIONS", f"/{token}/begin", None, {"Origin": "http://evil.example"})
    yield "a method that writes", 501, ("PUT", f"/{token}/look.css", b"", server.headers)


def post_rows(server: Server) -> Iterator[Row]:
    """Of questions, whose content is `{}`."""
    path, good = f"/{server.token}/begin", server.headers
    yield "no token, posted", 404, ("POST", "/begin", b"{}", good)
    yield "a name that is rebound", 421, ("POST", path, b"{}", good, [f"evil.example:{server.port}"])
    yield "no origin", 403, ("POST", path, b"{}", {"Content-Type": "application/json"})
    yield "another origin", 403, ("POST", path, b"{}", good | {"Origin": "http://evil.example"})
    yield "the origin null", 403, ("POST", path, b"{}", good | {"Origin": "null"})
    yield "another port's origin", 403, ("POST", path, b"{}", good | {"Origin": "http://127.0.0.1:1"})
    yield "an origin that begins as ours", 403, ("POST", path, b"{}", good | {"Origin": server.origin + ".evil.example"})
    yield "fetched by another site", 403, ("POST", path, b"{}", good | {"Sec-Fetch-Site": "cross-site"})
    yield "fetched by another port", 403, ("POST", path, b"{}", good | {"Sec-Fetch-Site": "same-site"})
    yield "a form's text", 415, ("POST", path, b"{}", good | {"Content-Type": "text/plain"})
    yield "a form", 415, ("POST", path, b"{}", good | {"Content-Type": "application/x-www-form-urlencoded"})
    yield "too long", 413, ("POST", path, b"", good | {"Content-Length": str(MOST_BYTES + 1)})
    yield "no length", 413, ("POST", path, None, good | {"Transfer-Encoding": "chunked"})
    yield "a negative length", 413, ("POST", path, b"", good | {"Content-Length": "-1"})
    yield "a name of its own", 404, ("POST", f"/{server.token}/__init__", b"{}", good)
    yield "a name of Python", 404, ("POST", f"/{server.token}/view", b"{}", good)


def content_rows() -> Iterator[tuple[str, str, bytes]]:
    """Of what is posted: a name, the question, and its content."""
    look = {"text": "litmus 1\n", "steps": [], "at": 0}
    yield "no JSON", "look", b"{"
    yield "deep JSON", "look", b"[" * 100_000
    yield "no object", "look", b"[]"
    yield "no text", "look", asked({"steps": [], "at": 0})
    yield "a text of a number", "look", asked(look | {"text": 1})
    yield "a text with a zero byte", "look", asked(look | {"text": "litmus 1\0"})
    yield "two steps in one", "look", asked(look | {"steps": ["exec 0\nexec 0"]})
    yield "an option as a step", "look", asked(look | {"steps": ["--help"]})
    yield "a step with a blank more", "look", asked(look | {"steps": ["exec  0"]})
    yield "digits that are not ASCII", "look", asked(look | {"steps": ["exec ٣"]})
    yield "a step of another kind", "look", asked(look | {"steps": [["exec 0"]]})
    yield "too many steps", "look", asked(look | {"steps": ["settle"] * (MOST_STEPS + 1)})
    yield "a place behind the steps", "look", asked(look | {"at": 1})
    yield "a place that is true", "look", asked(look | {"steps": ["settle"], "at": True})
    yield "a negative place", "look", asked(look | {"at": -1})
    yield "no example", "example", asked({"number": -1})
    yield "an example by a name", "example", asked({"number": "../../etc/passwd"})
    yield "a condition too long", "broken", asked(look | {"condition": "a" * 20_001})
    yield "a condition of a list", "broken", asked(look | {"condition": ["--help"]})
    yield "too many lists", "marks", asked(look | {"condition": "a", "lists": [[]] * (MOST_LISTS + 1)})
    yield "a list of no steps", "marks", asked(look | {"condition": "a", "lists": ["exec 0"]})
    yield "values of options", "image", asked(look | {"values": ["--help"]})
    yield "values too long", "image", asked(look | {"values": ["1" * 21]})
    yield "why of no step", "why", asked(look)
    yield "another kind of check", "check", asked(look | {"condition": "a", "kind": "help"})
    yield "too many states", "check", asked(look | {"condition": "a", "kind": "all", "states": 10**8})
    yield "another kind of mend", "mend", asked(look | {"condition": "a", "kind": "help"})
    yield "too many states of mend", "mend", asked(look | {"condition": "a", "kind": "all", "states": 10**8})
    yield "too many runs", "hunt", asked(look | {"condition": "a", "runs": 10**8})


def test_refused(cases: Cases, server: Server) -> None:
    for name, wanted, request in [*get_rows(server), *post_rows(server)]:
        cases.equal(f"request: {name}", server.request(*request)[0], wanted)
    for name, question, content in content_rows():
        status = server.request("POST", f"/{server.token}/{question}", content, server.headers)[0]
        cases.equal(f"request: {name}", status, 400)


def test_answered(cases: Cases, server: Server) -> None:
    """What is answered, and with which headers."""
    status, content, headers = server.request("GET", f"/{server.token}/")
    named = {name.lower(): value for name, value in headers}
    cases.equal("the page", (status, b"<title>px86-look</title>" in content), (200, True))
    policy = dict(part.strip().partition(" ")[::2] for part in named.get("content-security-policy", "").split(";"))
    wanted = {"default-src": "'none'", "script-src": "'self'", "style-src": "'self'", "connect-src": "'self'", "frame-ancestors": "'none'"}
    cases.equal("its policy", {name: policy.get(name) for name in wanted}, wanted)
    for name, value in {
        "x-content-type-options": "nosniff",
        "referrer-policy": "no-referrer",
        "cross-origin-resource-policy": "same-origin",
        "cross-origin-opener-policy": "same-origin",
        "cache-control": "no-store",
    }.items():
        cases.equal(f"the header {name}", named.get(name), value)
    _, _, posted = server.request("POST", f"/{server.token}/begin", b"{}", server.headers)
    others = [name for name, _ in [*headers, *posted] if name.lower().startswith(("set-cookie", "access-control"))]
    cases.equal("no cookie, and nothing for other origins", others, [])
    cases.equal("a token of 24 bytes", len(server.token), 32)


def test_alone(cases: Cases, server: Server, program: str) -> None:
    """It listens on 127.0.0.1 alone, and another start has another token."""
    try:
        socket.create_connection(("127.0.0.2", server.port), timeout=5).close()
        is_reached = True
    except OSError:
        is_reached = False
    cases.equal("another address of this machine", is_reached, False)
    with started(program, STORE) as other:
        cases.equal("another token at another start", other.token == server.token, False)
        cases.equal("the token of the other", other.request("GET", f"/{server.token}/")[0], 404)


def test_opened(cases: Cases, program: str) -> None:
    """A browser is started with a private file, so that no list of processes shows the token. All is removed at the end."""
    with tempfile.TemporaryDirectory() as folder:
        browser, seen = os.path.join(folder, "browser"), os.path.join(folder, "seen")
        write_program(browser, BROWSER.replace("SEEN", seen))
        with started(program, "--open", STORE, environment={"BROWSER": f"{browser} %s", "TMPDIR": folder}) as server:
            for _ in range(600):
                if os.path.exists(seen):
                    break
                time.sleep(0.05)
            with open(seen, encoding="ascii") as file:
                mode, argument, page = [*file.read().split("\n", 2), "", ""][:3]
            cases.equal("the file for the browser: its mode", mode, "600")
            cases.equal("the token is in the file, and not in the words", (server.token in argument, server.token in page), (False, True))
            cases.equal("a folder of its own", len(glob.glob(f"{folder}/px86-look.*")), 1)
        cases.equal("nothing is left", glob.glob(f"{folder}/px86-look.*"), [])


# What stands in for px86 to be counted: how many there are is added to a file.
COUNTED = """#!/bin/sh
mkdir "FOLDER/$$"
ls FOLDER | wc -l >>FOLDER.counts
sleep 0.3
rmdir "FOLDER/$$"
"""


def write_program(path: str, content: str) -> None:
    with open(path, "w", encoding="ascii") as file:
        file.write(content)
    os.chmod(path, 0o755)


def test_limits(cases: Cases, program: str) -> None:
    """A call that takes too long is stopped, there are so many at most, and what ends as it should not is no answer."""
    px86 = Px86(program)
    try:
        told = px86.ask("check", "--all=persisted x0 < 99", text=long_text().encode(), seconds=0.5).out
    except Gone as gone:
        told = str(gone)
    cases.equal("limits: the time of a call", told, "px86 check was stopped after 0.5 s")
    px86.close()
    with tempfile.TemporaryDirectory() as folder:
        running, counted, wrong = (os.path.join(folder, name) for name in ("running", "counted", "wrong"))
        os.mkdir(running)
        write_program(counted, COUNTED.replace("FOLDER", running))
        px86 = Px86(counted)
        with ThreadPoolExecutor(40) as pool:
            list(pool.map(lambda _: px86.ask("run", text=b""), range(40)))
        px86.close()
        counts = list(map(int, read(f"{running}.counts").split()))
        cases.equal("limits: how many calls there are", len(counts), 40)
        cases.holds("limits: how many at once", 2 <= max(counts) <= 8, max(counts))
        write_program(wrong, "#!/bin/sh\nexit 9\n")
        told = "px86-look: px86 --version ended with status 9\n"
        cases.equal("words: a px86 that ends as it should not", called(wrong, STORE), (3, "", told))


def test_page_files(cases: Cases) -> None:
    """No markup is made of text, and nothing of the page needs what the policy forbids."""
    folder = os.path.join(LOOK, "page")
    sources = {}
    for name in os.listdir(folder):
        with open(os.path.join(folder, name), encoding="utf-8") as file:
            sources[name] = file.read()
    page = sources["index.html"]
    cases.equal("no inline script, style or listener", re.findall(r"<style|<script>|\sstyle=|\son[a-z]+=", page), [])
    cases.equal("nothing of another server", [name for name, text in sources.items() if re.search(r"https?://", text)], [])
    makers = r"innerHTML|outerHTML|insertAdjacentHTML|document\.write|\beval\b|new Function|DOMParser|createContextualFragment"
    cases.equal("no markup from text", [name for name, text in sources.items() if re.search(makers, text)], [])
    loaded = set(re.findall(r'(?:src|href)="([a-z.]+)"', page)) | {"index.html"}
    cases.equal("all files are loaded", loaded, set(sources))


def test_words(cases: Cases, program: str) -> None:
    """How it ends where it cannot begin."""
    for name, words, status in (
        ("a file that is not there", ["/absent.litmus"], 3),
        ("steps without a file", ["--steps", "x"], 2),
        ("an unknown option", ["--absent"], 2),
        ("no steps", [STORE, "--steps", STORE], 2),
        ("an export of a text with a fault", [os.path.join(EXAMPLES, "store-buffering.steps"), "--export", "/dev/null"], 2),
        ("an export that cannot be written", [STORE, "--export", "/absent/out.html"], 3),
    ):
        ended, out, err = called(program, *words)
        cases.equal(f"words: {name}", (ended, out, err.startswith("px86-look: ")), (status, "", True))
    told = "px86-look: the variable PX86 names /absent, which is no program\n"
    cases.equal("words: no px86", called("/absent", STORE), (3, "", told))


def test_requests(cases: Cases, server: Server, program: str) -> None:
    test_refused(cases, server)
    test_answered(cases, server)
    test_alone(cases, server, program)
    test_opened(cases, program)
    test_limits(cases, program)
    test_page_files(cases)
