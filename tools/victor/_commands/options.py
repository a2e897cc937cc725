"""The options that subcommands have in common, and what their words mean."""

import argparse
import contextlib
import os
import sys
import textwrap
from collections.abc import Iterator
from types import ModuleType
from typing import Any, NoReturn, Optional

from .. import _asking as asking, _engine, _processes as processes, _programs as programs
from .._asking import Means
from .._engine import Engine
from .._faults import Fault, files_told
from .._files import output
from .._games import Game, Size

WIDTH = 100
COMMON: dict[str, dict[str, Any]] = {
    "position": {
        "nargs": "?",
        "help": "moves (dcdc, 4343, `1. d c`, `d1 c1`), - for none, the text of a game, a diagram, or the name of a "
        "file with one; without it, standard input is read",
    },
    "--board": {"metavar": "7x6", "help": "the board of a list of moves (7x6), as 8x6x5 where lines of five win"},
    "--game": {"help": "the game that the text is about: moves, or a file that has one, or a proof"},
    "--from": {
        "dest": "known",
        "metavar": "PROOF",
        "help": "a proof of a whole game to look in first, or a folder of such, also packed by xz; those that come "
        f"with the program are looked in too, for positions of fewer than {asking.EARLY} men, unless --by is said",
    },
    "--by": {
        "choices": tuple(asking.ENGINES),
        "help": "what looks for a proof; both is solve, and then prove (both where tools/solve is built, else prove)",
    },
    "--seconds": {
        "type": float,
        "metavar": "S",
        "help": f"seconds of processor time for a position ({asking.SECONDS}; prove alone: as its budget takes)",
    },
    "--clock": {
        "type": float,
        "metavar": "S",
        "help": f"seconds by the clock for each program ({processes.SLOWEST} times as many)",
    },
    "--memory": {"type": int, "metavar": "MIB", "help": f"memory for each program (solve: {asking.MEMORY})"},
    "--nodes": {"type": int, "metavar": "N", "default": asking.NODES, "help": "the budget of prove (%(default)s)"},
    "--reach": {
        "type": int,
        "metavar": "K",
        "default": asking.REACH,
        "help": "how many sets of zones are tried for a plan (%(default)s)",
    },
    "--small": {"action": "store_true", "help": "solve makes its proof smaller for half of its time"},
    "--solver": {"metavar": "PATH", "help": "the tools/solve to run"},
    "--victor": {
        "metavar": "PATH",
        "help": "the program to run; else that of VICTOR, the checkout's where it is built, or an installed one",
    },
    "--build": {
        "action": "store_true",
        "help": "prove and build the checkout's program first, which takes minutes and says how far it is",
    },
    "--json": {"action": "store_true", "help": "write it as data, an object in one line"},
    "--out": {"metavar": "FILE", "help": "where to write; without it, standard output"},
}
PROGRAM = ("--victor", "--build")
MEANS = ("by", "solver", "nodes", "reach", "memory", "seconds", "clock", "small", "known")
SEARCH = ("--from", "--by", "--seconds", "--clock", "--memory", "--nodes", "--reach", "--small", "--solver", *PROGRAM)


class Parser(argparse.ArgumentParser):
    """A parser whose faults are those of the package."""

    def error(self, message: str) -> NoReturn:
        raise Fault(message)


def parser_of(name: str, command: ModuleType) -> Parser:
    """The parser of a subcommand: its own options and those in common that it takes, and an example."""
    common = Parser(add_help=False)
    for option in command.COMMON:
        short = ["-o"] if option == "--out" else []
        common.add_argument(*short, option, **COMMON[option])
    parser = Parser(
        prog=name,
        description=textwrap.fill(command.__doc__ or "", WIDTH),
        epilog=f"{textwrap.fill(command.STATUS, WIDTH)}\n\nexample:\n  {command.EXAMPLE}",
        formatter_class=argparse.RawDescriptionHelpFormatter,
        parents=[common],
    )
    command.add_options(parser)
    return parser


def means_of(words: argparse.Namespace, **more: Any) -> Means:
    """What the words say of who is asked, and what each may spend."""
    said = {name: getattr(words, name) for name in MEANS}
    return Means(program=words.victor, progress=teller(words.prog), **said, **more)


@contextlib.contextmanager
def engine_of(words: argparse.Namespace) -> Iterator[Optional[Engine]]:
    """The warm engine for the time of a command. None where prove is asked alone, or where it isn't built, which is
    said in a line."""
    path = programs.engine_path(words.solver) if words.by != "prove" else None
    memory = words.memory or asking.MEMORY
    if words.by != "prove" and not path:
        programs.find_program(words.victor)  # where there is none, that is all that is said
        say(words.prog, programs.MAKE_ENGINE)
    if not path or memory < _engine.LEAST_MEMORY:
        yield None
        return
    with Engine(path, memory=memory) as engine:
        yield engine


def say_lost(words: argparse.Namespace, asker: asking.Asker) -> None:
    """Says why the engine was asked no more."""
    if asker.lost:
        say(words.prog, f"{asker.lost}; it isn't asked any more")


def teller(prog: str) -> asking.Progress:
    """What says on standard error how long a program has run."""

    def tell(engine: str, whole: str, game: Game, spent: float) -> None:
        say(prog, f"{engine} has taken {spent:.0f}{whole} seconds for {game.letters()}")

    return tell


def say(prog: str, message: object) -> None:
    """Says something in one line on standard error."""
    sys.stderr.write(f"{prog}: {' '.join(str(message).split())}\n")
    sys.stderr.flush()


def size_of(words: argparse.Namespace) -> Optional[Size]:
    """The board that is named, or none."""
    return Size.read(words.board) if words.board else None


@contextlib.contextmanager
def quiet_pipe() -> Iterator[None]:
    """What can't be written on standard output is told once, and isn't tried again when Python ends."""
    try:
        with files_told("standard output"):
            yield
            sys.stdout.flush()
    except Fault:
        with open(os.devnull, "wb") as nothing:
            os.dup2(nothing.fileno(), sys.stdout.fileno())
        raise


def write(text: str, path: Optional[str] = None) -> None:
    """Writes a text to a file, whole, or to standard output."""
    if path:
        with output(path) as out:
            out.write(text.encode())
        return
    with quiet_pipe():
        sys.stdout.write(text)
