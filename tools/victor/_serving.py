"""Serves the page of `lab board`: to this machine alone, or to whoever has the link with the secret word."""

import collections
import contextlib
import http.server
import json
import re
import select
import socket
import threading
import time
from collections.abc import Iterator
from typing import Any, Callable, Optional

from ._desk import Asked, Desk, Turns, page_in
from ._faults import Failed, Fault, Gone
from ._pages import TEXTS, board_page, pictures, text_page

MOST_BODY = 4096  # bytes of a request
MOST_AT_ONCE, MOST_A_MINUTE, MOST_LINES = 12, 600, 40  # questions of a visitor, and connections
MOST_VISITORS = 4096  # that are remembered
PATIENCE = 30.0  # seconds that a visitor has to send a request
MINUTE = 60.0  # seconds
MANY = 1 << 20  # of this machine alone
KEEP_OUT = (
    "default-src 'none'; script-src 'unsafe-inline'; style-src 'unsafe-inline'; img-src 'self' data: blob:; "
    "connect-src 'self'; form-action 'none'; base-uri 'none'; frame-ancestors 'none'"
)


class Busy(Fault):
    """A visitor asks too much."""


class Visitors:
    """How many questions each visitor, by its address, asks at once and has asked within a minute, and how many
    connections it holds open."""

    def __init__(self, at_once: int = MOST_AT_ONCE, a_minute: int = MOST_A_MINUTE, lines: int = MOST_LINES) -> None:
        self.at_once, self.a_minute, self.most_lines, self.lock = at_once, a_minute, lines, threading.Lock()
        self.now: collections.Counter[str] = collections.Counter()
        self.lines: collections.Counter[str] = collections.Counter()
        self.times: collections.OrderedDict[str, collections.deque[float]] = collections.OrderedDict()

    def connect(self, address: str) -> bool:
        """A visitor opens a connection. False where it is one too many."""
        with self.lock:
            if self.lines[address] >= self.most_lines:
                return False
            self.lines[address] += 1
            return True

    def disconnect(self, address: str) -> None:
        """A connection of a visitor has ended."""
        with self.lock:
            self.lines[address] -= 1
            self.lines += collections.Counter()  # without those that have none

    @contextlib.contextmanager
    def question(self, address: str) -> Iterator[None]:
        """A question of a visitor. It is Busy where it is one too many."""
        with self.lock:
            times = self.times.pop(address, collections.deque(maxlen=self.a_minute))
            self.times[address] = times
            while len(self.times) > MOST_VISITORS:
                self.times.popitem(last=False)
            is_fast = len(times) == self.a_minute and time.monotonic() - times[0] < MINUTE
            if is_fast or self.now[address] >= self.at_once:
                raise Busy("too many questions come from your machine: wait a minute")
            times.append(time.monotonic())
            self.now[address] += 1
        try:
            yield
        finally:
            with self.lock:
                self.now[address] -= 1
                self.now += collections.Counter()  # without those that have none


class Handler(http.server.BaseHTTPRequestHandler):
    """Answers the requests of the page."""

    protocol_version = "HTTP/1.1"
    server_version, sys_version = "board", ""
    timeout = PATIENCE
    server: "Server"

    def log_message(self, format: str, *args: Any) -> None:
        """Nothing is said of requests."""

    def send(self, status: int, body: str, kind: str) -> None:
        """Sends an answer."""
        data = body.encode()
        self.send_head(status, kind, ("Content-Length", str(len(data))))
        self.wfile.write(data)

    def send_picture(self, name: str) -> None:
        """Sends a picture of a document."""
        path = pictures().get(name)
        if not path:
            raise Fault("there is no such picture")
        data = path.read_bytes()
        self.send_head(200, "image/png", ("Content-Length", str(len(data))))
        self.wfile.write(data)

    def send_head(self, status: int, kind: str, length: tuple[str, str]) -> None:
        """Sends what comes before an answer; its length is told, or that it ends with the connection."""
        self.send_response(status)
        for name, value in (
            ("Content-Type", f"{kind}; charset=utf-8"),
            length,
            ("Cache-Control", "no-store"),
            ("X-Content-Type-Options", "nosniff"),
            ("Referrer-Policy", "no-referrer"),
            ("Content-Security-Policy", KEEP_OUT),
        ):
            self.send_header(name, value)
        self.end_headers()

    def path_asked(self) -> Optional[str]:
        """What is asked for, behind the secret word where there is one; None where it isn't for this page. On this
        machine alone the Host has to be this machine's, and an Origin that of the page."""
        host, origin = self.headers.get("Host"), self.headers.get("Origin")
        is_ours = self.server.secret or host in self.server.hosts
        if not is_ours or origin not in (None, f"http://{host}"):
            return None
        path = self.path.split("?", 1)[0]
        return path[len(self.server.root) :] if path.startswith(self.server.root) else None

    def is_waiting(self) -> bool:
        """Whether the other side still holds the connection open."""
        ready = select.select([self.connection], [], [], 0)[0]
        with contextlib.suppress(OSError):
            return not ready or self.connection.recv(1, socket.MSG_PEEK) != b""
        return False

    def do_GET(self) -> None:
        """A page."""
        path = self.path_asked()
        if path is None:
            return self.send(403, "This page is for those alone who have its whole link.\n", "text/plain")
        found = re.fullmatch(r"proof/([1-9]\d{0,8})", path)
        try:
            if found:
                return self.send(200, self.server.desk.proof(int(found.group(1))), "text/html")
            if path in ("", *TEXTS):
                page = text_page(path) if path else board_page(restart=self.server.restart)
                return self.send(200, page, "text/html")
            if path.startswith("img/"):
                return self.send_picture(path[4:])
        except Fault as fault:
            return self.send(404, f"{fault}\n", "text/plain")
        return self.send(404, "There is nothing here.\n", "text/plain")

    def do_POST(self) -> None:
        """A question."""
        path = self.path_asked()
        if path is None or self.headers.get("Content-Type") != "application/json":
            return self.refuse(403)
        length = self.headers.get("Content-Length", "")
        if not length.isdigit() or int(length) > MOST_BODY:
            return self.refuse(413)
        try:
            with self.server.visitors.question(self.client_address[0]):
                self.answer(path, json.loads(self.rfile.read(int(length))))
        except Gone:
            # Said, since a browser asks again where a connection ends without an answer.
            self.close_connection = True
            with contextlib.suppress(OSError):
                self.send_data(409, {"fault": "a newer question of this page came"})
        except Busy as fault:
            self.send_data(429, {"fault": str(fault)})
        except (Fault, ValueError, OSError) as fault:
            said = fault.text.strip().split("\n")[-1] if isinstance(fault, Failed) else ""
            self.send_data(400, {"fault": said or str(fault)})

    def send_data(self, status: int, data: Asked) -> None:
        """Sends an object."""
        self.send(status, json.dumps(data), "application/json")

    def refuse(self, status: int) -> None:
        """Answers nothing."""
        self.close_connection = True
        self.send_data(status, {})

    def answer(self, path: str, asked: object) -> None:
        """Sends the answer to a question."""
        desk = self.server.desk
        calls: dict[str, Callable[[Asked, Callable[[], bool]], Asked]] = {
            "ask": desk.ask,
            "known": desk.known,
            "holder": desk.holder,
            "explain": desk.explain,
            "play": desk.play,
        }
        if path not in (*calls, "moves") or not isinstance(asked, dict):
            raise Fault("there is no such question")
        with self.server.turns.turn(page_in(asked), self.is_waiting) as is_wanted:
            if path == "moves":
                return self.send_lines(desk.moves(asked, is_wanted))
            return self.send_data(200, calls[path](asked, is_wanted))

    def send_lines(self, moves: Iterator[Asked]) -> None:
        """Sends what is found of the moves, an object a line, each as soon as it is there."""
        self.close_connection = True
        self.send_head(200, "application/x-ndjson", ("Connection", "close"))
        try:
            for said in moves:
                self.wfile.write(json.dumps(said).encode() + b"\n")
        except Failed as fault:
            self.wfile.write(json.dumps({"fault": str(fault)}).encode() + b"\n")
        except Gone:
            pass


class Server(http.server.ThreadingHTTPServer):
    """Answers each request in a thread of its own. With a secret word the page stands behind it, and without one it is
    for this machine alone."""

    daemon_threads = True

    def __init__(self, address: str, port: int, desk: Desk, restart: str, secret: str = "") -> None:
        self.desk, self.turns, self.secret, self.restart = desk, Turns(), secret, restart
        self.visitors = Visitors() if secret else Visitors(MANY, MANY, MANY)
        self.root = f"/{secret}/" if secret else "/"
        if ":" in address:
            self.address_family = socket.AF_INET6
        super().__init__((address, port), Handler)
        self.hosts = [f"{name}:{self.server_address[1]}" for name in ("127.0.0.1", "localhost")]

    def link(self, host: str) -> str:
        """The link to the page."""
        return f"http://{f'[{host}]' if ':' in host else host}:{self.server_address[1]}{self.root}"

    def verify_request(self, request: Any, client_address: Any) -> bool:
        """Whether a connection is taken."""
        return self.visitors.connect(client_address[0])

    def process_request_thread(self, request: Any, client_address: Any) -> None:
        """Answers a connection to its end."""
        try:
            super().process_request_thread(request, client_address)
        finally:
            self.visitors.disconnect(client_address[0])

    def handle_error(self, request: Any, client_address: Any) -> None:
        """A page that went away is no fault."""
