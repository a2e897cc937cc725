"""Where the proved program, `tools/solve` and the shipped proofs are. Nothing is built unless that is asked for."""

import functools
import os
import pathlib
import shlex
import shutil
import subprocess
import sys
from typing import Optional

from ._faults import Fault, files_told
from ._files import Path

HERE = pathlib.Path(__file__).resolve().parent
CHECKOUT = HERE.parent.parent if (HERE.parent.parent / "crates.txt").is_file() else None
# Whether the program of a checkout is current, as its launcher's own functions say; else how long a build takes.
ASK_LAUNCHER = """
. "$1" || exit 2
is_current && exit
read -r _ _ seconds < <(outlook $(kept_crates)) && minutes "$seconds"
exit 1
"""
OPENINGS, OPENINGS_BOARD = "openings-8*.csv.xz", "7x6"
ASK_SOLVER = "--by both"
MAKE_SOLVER = "tools/solve, which decides many more positions (make -C tools/solve)"
MAKE_ENGINE = "the engine isn't built, so nothing is searched beside the proofs: `make -C tools/solve engine` builds it"


def find_program(given: Optional[Path] = None) -> str:
    """The path of the program: the one given, else that of VICTOR, of this checkout where it is built from the present
    sources, or one that is installed. None is built for it."""
    named = given or os.environ.get("VICTOR")
    if named:
        return ready(runnable(named))
    missing = "there is no victor on the path"
    if CHECKOUT:
        try:
            return built_program(CHECKOUT)
        except Fault as fault:
            missing = str(fault)
    found = beside("victor")
    if not found:
        raise Fault(f"{missing}; --victor PATH or VICTOR=PATH names another program")
    return ready(found)


def ready(path: str) -> str:
    """The program itself where a path is the launcher of a checkout, which would build it."""
    top = pathlib.Path(path).resolve().parent
    return built_program(top) if (top / "crates.txt").is_file() else path


@functools.cache
def built_program(top: pathlib.Path) -> str:
    """The program of a checkout, which is built and current: its launcher's own functions say so."""
    program = top / "crates" / "victor" / "out" / "victor"
    words = ["bash", "-c", ASK_LAUNCHER, "bash", str(top / "victor")]
    asked = subprocess.run(words, stdin=subprocess.DEVNULL, capture_output=True, text=True)
    if asked.returncode == 0:
        return str(program)
    what = "is of other sources than these" if os.access(program, os.X_OK) else "isn't built yet"
    time = asked.stdout.strip() or "up to an hour"
    raise Fault(f"the program {what}: `make -C {shlex.quote(str(top))}`, or --build here, builds it in {time}")


def build() -> None:
    """Builds the program of this checkout, with the launcher's progress on standard error."""
    if not CHECKOUT:
        raise Fault("--build takes a checkout of the sources, and this is none")
    words = [str(CHECKOUT / "victor"), "check"]
    with open(CHECKOUT / "examples" / "usual-board.proof", "rb") as proof, files_told(words[0]):
        status = subprocess.run(words, stdin=proof, stdout=subprocess.DEVNULL).returncode
    if status != 0:
        raise Fault(f"the program wasn't built: {words[0]} ended with status {status}")


def solver_path() -> Optional[str]:
    """The path of `tools/solve` where it is built or installed, or None."""
    made = HERE.parent / "solve" / "solve"
    return str(made) if CHECKOUT and os.access(made, os.X_OK) else beside("victor-solve")


def find_solver(given: Optional[Path] = None) -> str:
    """The path of `tools/solve`: the one given, or the one that was built here or installed."""
    path = runnable(given) if given else solver_path()
    if not path:
        raise Fault("tools/solve isn't built: `make -C tools/solve` builds it in a minute; --solver PATH names another")
    return path


def engine_path(solver: Optional[Path] = None) -> Optional[str]:
    """The path of `tools/solve/engine`: that of VICTOR_ENGINE, the one beside a solver that is named, or the one that
    was built or installed; or None."""
    named = os.environ.get("VICTOR_ENGINE")
    if named:
        return runnable(named)
    if solver:
        near = pathlib.Path(solver).absolute()
        path = near.with_name("victor-engine" if near.name == "victor-solve" else "engine")
        return str(path) if path.is_file() and os.access(path, os.X_OK) else None
    made = HERE.parent / "solve" / "engine"
    return str(made) if CHECKOUT and os.access(made, os.X_OK) else beside("victor-engine")


def find_engine(given: Optional[Path] = None) -> str:
    """The path of `tools/solve/engine`: the one given, that of VICTOR_ENGINE, or one that was built or installed."""
    path = runnable(given) if given else engine_path()
    if not path:
        raise Fault("the engine isn't built: `make -C tools/solve engine` builds it; VICTOR_ENGINE=PATH names another")
    return path


def beside(name: str) -> Optional[str]:
    """A program on the path, or in the folder of the command that runs."""
    near = pathlib.Path(sys.argv[0]).resolve().parent / name
    return shutil.which(name) or (str(near) if near.is_file() and os.access(near, os.X_OK) else None)


def runnable(path: Path) -> str:
    """The whole path of a program, where it is one."""
    if not os.access(path, os.X_OK) or os.path.isdir(path):
        raise Fault(f"{os.fspath(path)} is no program")
    return os.path.abspath(path)


def shipped_openings(board: str) -> list[str]:
    """The files of the table of openings that comes with the program, where it is of this board."""
    folder = shipped_folder() if board == OPENINGS_BOARD else None
    return sorted(str(path) for path in folder.glob(OPENINGS)) if folder else []


def shipped_folder() -> Optional[pathlib.Path]:
    """The folder of the proofs that come with the program: of the checkout, or of what is installed."""
    places = [HERE.parent.parent / "proofs"]
    places += [parent / "share" / "victor" / "proofs" for parent in parents()]
    return next((place for place in places if (place / "boards.csv").is_file()), None)


def document(name: str) -> Optional[pathlib.Path]:
    """A document that comes with the program: of the checkout, or of what is installed; or None."""
    places = [HERE.parent.parent / "docs"]
    places += [parent / "share" / "doc" / "victor" / "docs" for parent in parents()]
    return next((place / name for place in places if (place / name).is_file()), None)


def parents() -> list[pathlib.Path]:
    """The folders in which a share may be."""
    return [*HERE.parents, *pathlib.Path(sys.argv[0]).resolve().parents, pathlib.Path(sys.prefix)]
