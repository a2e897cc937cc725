"""Serves a page to play Connect Four on, on this machine alone, until it is interrupted: a board to click on, the
value of each move, searched by the engine and then by an accepted proof, plans, threats and whole proofs to play
against. With --listen it is served to whoever has the link, and --static writes it as files that need no server."""

import argparse
import contextlib
import functools
import os
import secrets
import shlex
import shutil
import socket
import sys
import tempfile
from typing import Optional

from .. import _site as site
from .._desk import POLL, Desk, Engines
from .._faults import Fault
from .._programs import find_program
from .._serving import Server
from .options import SEARCH, Parser, engine_of, means_of, say

COMMON = SEARCH
STATUS = "Status: 0 where it was interrupted or the files are written, 2 where it can't begin."
EXAMPLE = "tools/lab board"
PORT = 8344
SECONDS, CLASS_SECONDS, MOST_SECONDS = 20, 8, 600  # for a position; where a class listens
HERE = "127.0.0.1"
ANY = ("0.0.0.0", "::")
SECRET_BYTES = 9


def add_options(parser: Parser) -> None:
    """The options of this subcommand alone."""
    parser.add_argument("--port", type=int, default=PORT, help="the port (%(default)s; 0 for any)")
    parser.add_argument(
        "--listen",
        metavar="ADDRESS",
        help="serve at this address of the machine, as 0.0.0.0 for all, to whoever has the link that is written, which "
        f"holds a secret word (off; a position then has {CLASS_SECONDS} seconds, if --seconds says nothing else)",
    )
    parser.add_argument(
        "--static", metavar="FOLDER", help="write the page and the shipped proofs as files that play with no server"
    )
    parser.add_argument("--usual", action="store_true", help="with --static: the proof of the usual board too")


def run(words: argparse.Namespace) -> int:
    """Serves until it is interrupted, or writes the files."""
    if words.static:
        print(site.write(words.static, words.usual, functools.partial(say, words.prog)), flush=True)
        return 0
    if words.usual:
        raise Fault("--usual goes with --static")
    if words.seconds is None:
        words.seconds = CLASS_SECONDS if words.listen else SECONDS
    if not 0 <= words.port <= 65535 or not 0 < words.seconds <= MOST_SECONDS:
        raise Fault(f"a port has up to 65535, --seconds up to {MOST_SECONDS}")
    means_of(words)
    words.victor = find_program(words.victor)
    folder: Optional[str] = tempfile.mkdtemp(prefix="board-")
    try:
        with engine_of(words) as engine, Engines(engine, most()) as engines:
            with server_of(words, Desk(words, means_of, folder or "", engines)) as server:
                with contextlib.suppress(KeyboardInterrupt):
                    print(server.link(shown_address(words.listen)), flush=True)
                    server.serve_forever(POLL)
        return 0
    finally:
        shutil.rmtree(folder or "", ignore_errors=True)


def server_of(words: argparse.Namespace, desk: Desk) -> Server:
    """The server at its address."""
    secret = secrets.token_urlsafe(SECRET_BYTES) if words.listen else ""
    restart = "" if words.listen else " ".join(map(shlex.quote, sys.argv))
    try:
        return Server(words.listen or HERE, words.port, desk, restart, secret)
    except OSError as fault:
        why = fault.strerror or str(fault)
        raise Fault(f"{words.listen or HERE}, port {words.port}: {why}; --port names another") from fault


def most() -> int:
    """How many engines answer at once, and how many questions look for proofs."""
    return max(1, (os.cpu_count() or 2) // 2)


def shown_address(listen: Optional[str]) -> str:
    """The address that the link names: where all of the machine's are served, the one by which others reach it."""
    if listen not in ANY:
        return listen or HERE
    with socket.socket(socket.AF_INET, socket.SOCK_DGRAM) as line, contextlib.suppress(OSError):
        line.connect(("192.0.2.1", 9))  # nothing is sent
        return str(line.getsockname()[0])
    return socket.gethostname()
