"""The one command of the tools: `lab` in a checkout, `victor-lab` where installed."""

import importlib
import pathlib
import signal
import sys
from collections.abc import Sequence
from typing import Optional

from . import __version__
from ._commands import COMMANDS
from ._faults import Fault

INTERRUPTED = 130


def overview(name: str) -> str:
    """What the command does."""
    lines = [
        f"usage: {name} COMMAND ..",
        "",
        "Tools around the Connect Four prover `victor`, of which nothing is proved.",
    ]
    lines += ["", *(f"  {command:6} {what}" for command, what in COMMANDS.items())]
    lines += ["", f"`{name} COMMAND --help` says more, with an example. docs/TOOLS.md has one page on all."]
    return "\n".join(lines) + "\n"


def main(argv: Optional[Sequence[str]] = None) -> int:
    """Runs a subcommand, and gives the status. What is wrong is one line on standard error."""
    name = pathlib.Path(sys.argv[0]).name
    name = "victor-lab" if name == "__main__.py" else name
    first, *rest = list(sys.argv[1:] if argv is None else argv) or [""]
    if first in ("-h", "--help"):
        sys.stdout.write(overview(name))
        return 0
    if first == "--version":
        print(f"{name} {__version__}")
        return 0
    if first not in COMMANDS:
        what = f"there is no command {first!r}" if first else "there is no command"
        return complain(name, f"{what}: {', '.join(COMMANDS)}; --help says more")
    return run(first, f"{name} {first}", rest)


def run(command: str, prog: str, argv: Sequence[str]) -> int:
    """Runs a subcommand by its words."""
    signal.signal(signal.SIGTERM, signal.default_int_handler)
    try:
        module = importlib.import_module(f"._commands.{command}", __package__)
        from . import _programs as programs
        from ._commands.options import parser_of

        words = parser_of(prog, module).parse_intermixed_args(argv)
        words.prog = prog
        if getattr(words, "build", False):
            programs.build()
        return int(module.run(words))
    except KeyboardInterrupt as why:
        return complain(prog, f"interrupted{f'; {why}' if str(why) else ''}", INTERRUPTED)
    except Fault as fault:
        return complain(prog, fault, fault.code)
    except RecursionError:
        return complain(prog, "the input is too deep", 2)
    except OSError as fault:
        return complain(prog, f"{fault.filename or 'a file'}: {fault.strerror or type(fault).__name__}")


def complain(prog: str, message: object, status: int = 2) -> int:
    """Says in one line what is wrong, and gives the status."""
    sys.stderr.write(f"{prog}: {' '.join(str(message).split())}\n")
    return status


def script() -> None:
    """Runs the command that was typed."""
    try:
        status = main()
    except KeyboardInterrupt:
        status = INTERRUPTED
    sys.exit(status)
