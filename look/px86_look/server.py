"""The server of the page: on 127.0.0.1 alone, for whoever knows the token.

What it refuses, and why:
  a path that does not begin with the token       other users of this machine can connect to the port, and pages can guess it
  a Host that is not 127.0.0.1 and the port       a name that an attacker's DNS points here (rebinding) is not this one
  an Origin, or a Sec-Fetch-Site, of another      a page of another origin makes the browser send a request
  a POST that is not application/json             a form of another page can send it without a question before
  a POST without its length, or above 2 MB        it would be read without an end
It sets no cookie, as cookies are shared by all ports, and answers no preflight. It reads no file whose name a request has:
examples are numbered in a list that is made when it starts. It writes none but copies for px86, in a folder of its own.
"""

from __future__ import annotations

import hmac
import json
import secrets
from collections.abc import Callable
from http.server import BaseHTTPRequestHandler, ThreadingHTTPServer
from typing import Any, cast

from .faults import Gone, Refused
from .page import FILES, read_page
from .questions import MOST_BYTES, Questions, answer_to

# JavaScript reads each whole number below this one as it is.
EXACT = 2**53
KINDS = {
    "html": "text/html; charset=utf-8",
    "css": "text/css; charset=utf-8",
    "js": "text/javascript; charset=utf-8",
    "json": "application/json",
}
HEADERS = {
    "Content-Security-Policy": "default-src 'none'; script-src 'self'; style-src 'self'; connect-src 'self'; img-src 'self' data:; "
    "base-uri 'none'; form-action 'none'; frame-ancestors 'none'",
    "X-Content-Type-Options": "nosniff",
    "X-Frame-Options": "DENY",
    "Referrer-Policy": "no-referrer",
    "Cross-Origin-Resource-Policy": "same-origin",
    "Cross-Origin-Opener-Policy": "same-origin",
    "Cache-Control": "no-store",
}


def exact(data: Any) -> Any:
    """The same data, with each number that JavaScript would round as a text."""
    if isinstance(data, dict):
        return {name: exact(it) for name, it in data.items()}
    if isinstance(data, list):
        return [exact(it) for it in data]
    return str(data) if isinstance(data, int) and data >= EXACT else data


def answer_bytes(told: Any) -> bytes:
    """An answer as the page reads it."""
    return json.dumps(exact(told)).encode()


class Rejected(Exception):
    """A request is not answered: the status, and why."""

    def __init__(self, status: int, why: str) -> None:
        super().__init__(why)
        self.status = status


class Handler(BaseHTTPRequestHandler):
    protocol_version = "HTTP/1.1"
    server_version = "px86-look"
    sys_version = ""
    # An end that sends nothing for so many seconds is let go.
    timeout = 60

    @property
    def own(self) -> Server:
        return cast(Server, self.server)

    def log_message(self, *_: Any) -> None:
        """Nothing is logged: the token stands in each path."""

    def send(self, status: int, content: bytes, kind: str = KINDS["json"]) -> None:
        self.send_response(status)
        self.send_header("Content-Type", kind)
        self.send_header("Content-Length", str(len(content)))
        for name, value in HEADERS.items():
            self.send_header(name, value)
        if status >= 400:
            self.send_header("Connection", "close")
            self.close_connection = True
        self.end_headers()
        self.wfile.write(content)

    def answer(self, make: Callable[[str], tuple[bytes, str]]) -> None:
        """Sends what is made of the path behind the token, or why nothing is."""
        try:
            content, kind = make(self.path_within())
        except Rejected as it:
            return self.send(it.status, json.dumps({"refused": str(it)}).encode())
        self.send(200, content, kind)

    def path_within(self) -> str:
        """The path behind the token."""
        if self.headers.get_all("Host") != [self.own.host]:
            raise Rejected(421, "another host")
        if self.headers.get("Origin", self.own.origin) != self.own.origin:
            raise Rejected(403, "another origin")
        token, slash, rest = self.path.partition("?")[0].lstrip("/").partition("/")
        if not slash or not hmac.compare_digest(token.encode(), self.own.token.encode()):
            raise Rejected(404, "nothing is here")
        return rest

    def is_from_another_site(self) -> bool:
        return self.headers.get("Sec-Fetch-Site", "same-origin") != "same-origin"

    def do_GET(self) -> None:
        self.answer(self.file)

    def do_POST(self) -> None:
        self.answer(self.told)

    def file(self, rest: str) -> tuple[bytes, str]:
        name = rest or "index.html"
        if name not in FILES:
            raise Rejected(404, "nothing is here")
        # The page itself may be opened from anywhere, as from a terminal; what belongs to it, by it alone.
        if rest and self.is_from_another_site():
            raise Rejected(403, "another origin")
        return read_page(name), KINDS[name.rpartition(".")[2]]

    def told(self, name: str) -> tuple[bytes, str]:
        """The answer to what is posted."""
        if self.headers.get("Origin") is None or self.is_from_another_site():
            raise Rejected(403, "another origin")
        if self.headers.get("Content-Type") != KINDS["json"]:
            raise Rejected(415, f"{KINDS['json']} is wanted")
        content = self.rfile.read(self.length())
        if name not in self.own.questions.by_name:
            raise Rejected(404, "nothing is here")
        try:
            told = answer_to(self.own.questions, name, json.loads(content))
        except (ValueError, RecursionError):
            raise Rejected(400, "not understood") from None
        except Refused as fault:
            raise Rejected(400, str(fault)) from None
        except Gone as fault:
            raise Rejected(503, str(fault)) from None
        return answer_bytes(told), KINDS["json"]

    def length(self) -> int:
        """The length of what is posted."""
        length = self.headers.get("Content-Length", "")
        is_number = length.isascii() and length.isdecimal()
        if self.headers.get("Transfer-Encoding") or not is_number or int(length) > MOST_BYTES:
            raise Rejected(413, "too long, or of unknown length")
        return int(length)


class Server(ThreadingHTTPServer):
    """Listens on a free port of 127.0.0.1. `url` is the address of the page, which has the token."""

    daemon_threads = True

    def __init__(self, questions: Questions) -> None:
        super().__init__(("127.0.0.1", 0), Handler)
        self.questions = questions
        self.token = secrets.token_urlsafe(24)
        self.host = f"127.0.0.1:{self.server_address[1]}"
        self.origin = f"http://{self.host}"
        self.url = f"{self.origin}/{self.token}/"

    def handle_error(self, request: Any, client_address: Any) -> None:
        """A browser that goes away is no fault."""
