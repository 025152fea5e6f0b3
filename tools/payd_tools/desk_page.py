"""Serves a page for a member's owner, on this machine alone: balance, what waits, came and went, and a form to pay.

usage: payd desk-page [--data FOLDER | --keys KEYS --socket PATH] [--group GROUP] [--port PORT]

The node has to listen, on `desk` in its FOLDER, $PAYD_DATA or ./member, or on PATH. KEYS is the node's own file of
keys, of which only the member's number is read. GROUP is the group's file, whose names and unit are shown, or else
group.json in the folder.

It prints the page's address, which has a token: whoever has the address, and nobody else, can see the account and pay.
It listens on 127.0.0.1 alone, on a free port or on PORT, until a signal ends it. The node may end and start again
behind the open page. The node, which keeps some bytes of each question, is asked only while a page is open and seen:
every two seconds for the fronts and what waits, and for more where fronts changed.

What is shown is what the node answers, but for sums: what the balance leaves once all that waits is paid, what the
whole group owns, against which an amount is held before it is asked for, and the others' balances, which go on by what
settles. It doesn't start where folder, keys and group don't belong together.
"""

from __future__ import annotations

import argparse
import contextlib
import hmac
import json
import os
import re
import resource
import secrets
import socket
import sys
import threading
import time
from http.server import BaseHTTPRequestHandler, ThreadingHTTPServer
from socketserver import TCPServer
from typing import Any, Callable
from urllib.parse import SplitResult, parse_qs, urlsplit

from payd_tools import account, usage
from payd_tools.desk_client import NoAnswer, place
from payd_tools.desk_view import Wrong

PARTS = os.path.join(os.path.dirname(os.path.realpath(__file__)), "page")
FILES = {
    "/": ("index.html", "text/html; charset=utf-8"),
    "/style.css": ("style.css", "text/css; charset=utf-8"),
    "/page.js": ("page.js", "text/javascript; charset=utf-8"),
}
HEADERS = {
    "Cache-Control": "no-store",
    "Content-Security-Policy": "default-src 'none'; style-src 'self'; script-src 'self'; connect-src 'self'; "
    "base-uri 'none'; form-action 'none'; frame-ancestors 'none'",
    "Cross-Origin-Opener-Policy": "same-origin",
    "Cross-Origin-Resource-Policy": "same-origin",
    "Referrer-Policy": "no-referrer",
    "X-Content-Type-Options": "nosniff",
}
MOST_BODY, LENGTH = 4096, re.compile("[0-9]{1,4}")
# How long a browser may take for a request, and a node for an answer, in seconds.
SECONDS, PATIENCE = 60, 10
# How many connections are open at most, each with a thread; the descriptors that are left to all else; and how long to
# wait where no connection can be taken, in seconds.
MOST_OPEN, OTHERS, PAUSE = 32, 16, 0.1


def part(name: str) -> bytes:
    with open(os.path.join(PARTS, name), "rb") as file:
        return file.read()


class Page(ThreadingHTTPServer):
    """The page of one account, on a port of the loopback."""

    daemon_threads = True
    request_queue_size = MOST_OPEN

    def __init__(self, port: int, found: account.Account) -> None:
        super().__init__(("127.0.0.1", port), Request)
        self.view = found.view
        self.about = {"names": found.names, "genesis": (found.digest or "")[:8], "desk": usage.shown(found.desk.path)}
        self.about["unit"] = found.view.unit.name
        self.token = secrets.token_urlsafe(24)
        self.hosts = {f"{it}:{self.server_port}" for it in ("127.0.0.1", "localhost")}
        self.parts = {path: (part(name), kind) for path, (name, kind) in FILES.items()}
        # when each open connection had its last request with the token, or 0
        self.known = {}
        descriptors, _ = resource.getrlimit(resource.RLIMIT_NOFILE)
        self.room = threading.Semaphore(max(1, min(MOST_OPEN, descriptors - OTHERS)))

    def server_bind(self) -> None:
        """Without a question to the name service, as HTTPServer has one."""
        TCPServer.server_bind(self)
        self.server_name, self.server_port = self.server_address[:2]

    def address(self) -> str:
        return f"http://127.0.0.1:{self.server_port}/?token={self.token}"

    def get_request(self) -> tuple[socket.socket, Any]:
        try:
            return super().get_request()
        except OSError:
            # (mostly for want of a descriptor, and it would be tried again at once)
            self.make_room()
            time.sleep(PAUSE)
            raise

    def process_request(self, request: Any, address: Any) -> None:
        if not self.room.acquire(blocking=False):
            self.make_room()
            self.room.acquire()
        self.known[request] = 0
        super().process_request(request, address)

    def make_room(self) -> None:
        """Shuts the oldest connection without the token, or else the one that is idle longest; its thread ends then."""
        for request, _ in sorted(list(self.known.items()), key=lambda it: it[1])[:1]:
            with contextlib.suppress(OSError):
                request.shutdown(socket.SHUT_RDWR)

    def shutdown_request(self, request: Any) -> None:
        super().shutdown_request(request)
        if self.known.pop(request, None) is not None:
            self.room.release()

    def handle_error(self, *_: object) -> None:
        """A browser that goes away is nobody's fault."""
        error = sys.exc_info()[1]
        if not isinstance(error, OSError):
            usage.tell(f"a request failed: {error!r}")


class Request(BaseHTTPRequestHandler):
    protocol_version = "HTTP/1.1"
    disable_nagle_algorithm = True
    timeout = SECONDS

    def log_message(self, *_: object) -> None:
        pass

    def do_GET(self) -> None:
        self.handle_by({"/state": self.give_state, "/hint": self.give_hint}, is_asking=False)

    def do_POST(self) -> None:
        self.handle_by({"/pay": self.take_form}, is_asking=True)

    def handle_by(self, calls: dict[str, Callable[[dict[str, list[str]]], None]], is_asking: bool) -> None:
        try:
            at = urlsplit(self.path)
        except ValueError:
            return self.refuse(400, "That is no address.")
        fault = self.fault_of(at, is_asking)
        if fault:
            self.refuse(403, fault)
        elif at.path in calls:
            calls[at.path](parse_qs(at.query))
        elif at.path in self.server.parts and not is_asking:
            self.give(200, *self.server.parts[at.path])
        else:
            self.refuse(404, "There is no such page.")

    def refuse(self, status: int, why: str) -> None:
        """(What may stand behind the head of a refused request isn't read.)"""
        self.close_connection = True
        self.give(status, f"{why}\n".encode(), "text/plain; charset=utf-8")

    def fault_of(self, at: SplitResult, is_asking: bool) -> str | None:
        """Returns why a request isn't answered: another page, by whatever name it calls this machine, can't ask
        here."""
        host, origin = self.headers.get("Host"), self.headers.get("Origin")
        if host not in self.server.hosts:
            return "This page is served to this machine alone."
        if origin != f"http://{host}" and (is_asking or origin is not None):
            return "Another page may not ask here."
        if at.path in ("/style.css", "/page.js"):
            return None
        given = parse_qs(at.query).get("token", [""])[0] if at.path == "/" else self.headers.get("X-Token", "")
        if not hmac.compare_digest(given.encode(), self.server.token.encode()):
            return "The address lacks its token: take the one that payd desk-page printed."
        self.server.known[self.request] = time.monotonic()
        return None

    def give_state(self, query: dict[str, list[str]]) -> None:
        self.server.view.refresh()
        state = self.server.view.state(query.get("known", [""])[0])
        self.give_json(200, {**state, **self.server.about})

    def give_hint(self, query: dict[str, list[str]]) -> None:
        """What an amount that stands in the form would come to, without a question to the node."""
        try:
            self.give_json(200, self.server.view.hint(query.get("amount", [""])[0]))
        except Wrong as why:
            self.give_json(200, {"why": str(why)})

    def take_form(self, _: object) -> None:
        length = self.headers.get("Content-Length", "")
        if not LENGTH.fullmatch(length) or int(length) > MOST_BODY:
            self.close_connection = True
            return self.give_json(413, {"why": "That is no form."})
        try:
            form = json.loads(self.rfile.read(int(length)))
            if not isinstance(form, dict):
                raise Wrong("That is no form.")
            self.give_json(200, self.server.view.pay(form))
        except (ValueError, RecursionError):
            self.give_json(400, {"why": "That is no form."})
        except Wrong as why:
            self.give_json(400, {"why": str(why)})
        except NoAnswer as why:
            self.give_json(503, {"why": str(why)})

    def give_json(self, status: int, value: dict[str, Any]) -> None:
        self.give(status, json.dumps(value).encode(), "application/json")

    def give(self, status: int, content: bytes, kind: str) -> None:
        self.send_response(status)
        for name, value in {**HEADERS, "Content-Type": kind, "Content-Length": str(len(content))}.items():
            self.send_header(name, value)
        if self.close_connection:
            self.send_header("Connection", "close")
        self.end_headers()
        self.wfile.write(content)


def read_words() -> argparse.Namespace:
    words = usage.parser(__doc__)
    where = words.add_mutually_exclusive_group()
    where.add_argument("--data", metavar="FOLDER", help="the folder of the member")
    where.add_argument("--socket", metavar="PATH", help="the socket of its node")
    words.add_argument("--keys", help="the member's file of keys")
    words.add_argument("--group", help="the group's file")
    words.add_argument("--port", type=usage.number(65_535), default=0, help="the page's port, else any")
    return words.parse_args()


@usage.tool(Wrong, unwritten=1)
def main() -> None:
    given = read_words()
    if given.socket is None:
        given.data = given.data or place()
    found = account.Account(given.data, given.group, given.keys, given.socket, PATIENCE)
    try:
        page = Page(given.port, found)
    except (OSError, OverflowError) as error:
        raise Wrong(f"port {given.port}: {getattr(error, 'strerror', None) or error}") from error
    print(page.address(), flush=True)
    with contextlib.suppress(KeyboardInterrupt):
        page.serve_forever()
