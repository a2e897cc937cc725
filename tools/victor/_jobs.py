"""Commands that are run in a folder, one for each name, by make, GNU parallel or Slurm."""

import fcntl
import hashlib
import os
import pathlib
import shutil
import subprocess
import sys
import threading
import time
from collections.abc import Mapping, Sequence
from dataclasses import dataclass
from typing import IO, Optional

from . import _programs as programs
from ._faults import Fault, files_told
from ._files import write_text
from ._games import Size
from ._processes import apart

MOST_TASKS = 1000  # of an array job; each has its share of the commands
TOLD = 5.0  # seconds between two looks at how far it is


class Interrupted(KeyboardInterrupt):
    """An interrupt, with what stands of the work."""


@dataclass
class Jobs:
    """A folder for one board, and what runs commands in it. `place` is its path, `engine` make, parallel or slurm, and
    `jobs` how many run at once. It is said on `out` what is done."""

    prog: str
    place: str
    size: Size
    engine: str
    jobs: int
    out: IO[str]

    def __post_init__(self) -> None:
        if self.jobs < 1:
            raise Fault("-j takes a number from 1")
        self.folder = pathlib.Path(self.place).absolute()
        self.work = self.folder / ".work"
        self.lock: Optional[IO[str]] = None

    about_name = "board"  # the file that says what the folder is for

    @property
    def about(self) -> str:
        """What the folder is for, in words."""
        return self.size.word

    def say(self, message: str, out: Optional[IO[str]] = None) -> None:
        """Says something in one line."""
        print(f"{self.prog}: {message}", file=out or sys.stderr, flush=True)

    def open(self) -> None:
        """Makes the folder ready."""
        if "\n" in str(self.folder):
            raise Fault("a file can't have that name")
        with files_told(self.folder):
            self.work.mkdir(parents=True, exist_ok=True)
            self.take_lock()
            self.require_board()
            # What a killed run left behind is dropped; it has no final name.
            for part in (*self.folder.glob("*.part"), *self.work.glob("*.part")):
                part.unlink(missing_ok=True)

    def take_lock(self) -> None:
        """One call at a time works in a folder."""
        if self.lock:
            return
        self.lock = open(self.work / "lock", "w", encoding="ascii")
        try:
            fcntl.flock(self.lock, fcntl.LOCK_EX | fcntl.LOCK_NB)
        except BlockingIOError as fault:
            raise Fault("another call works in this folder") from fault

    def close(self) -> None:
        """Leaves the folder to another call."""
        if self.lock:
            self.lock.close()
            self.lock = None

    def require_board(self) -> None:
        """A folder is for one board, as its files' names don't say which."""
        path = self.work / self.about_name
        if not path.exists():
            write_text(path, self.about + "\n")
        other = path.read_text(encoding="ascii").strip()
        if other != self.about:
            raise Fault(f"the folder is for positions of the board {other}")

    def mark_of(self, name: str) -> pathlib.Path:
        """The file that is written when what has this name is done."""
        raise NotImplementedError

    def write_files(self, commands: Mapping[str, str]) -> None:
        """The commands by their names, one a line, and for each of the three what runs them. They are run in the
        folder, and name no other place: "$LAB" is the command of these tools, and VICTOR the program.
        """
        names = list(commands)
        write_text(self.work / "commands", "".join(line + "\n" for line in commands.values()))
        rules = f"all: {' '.join(names)}\n.PHONY: all {' '.join(names)}\n"
        for name, line in commands.items():
            rules += f"{name}:\n\t@{line.replace('$', '$$')}\n"
        write_text(self.work / "Makefile", rules)
        tasks = max(min(len(names), MOST_TASKS), 1)
        lines = (
            "#!/bin/bash",
            f"#SBATCH --job-name={self.job_name()}",
            f"#SBATCH --array=1-{tasks}%{self.jobs}",
            "#SBATCH --ntasks=1",
            "#SBATCH --output=.work/slurm-%A-%a.out",
            f"# Task T runs the commands T, T + {tasks}, and so on.",
            "status=0",
            "while IFS= read -r command; do",
            '    bash -c "$command" </dev/null || status=1',
            f'done < <(sed -n "${{SLURM_ARRAY_TASK_ID}}~{tasks}p" .work/commands)',
            'exit "$status"',
        )
        write_text(self.work / "array.sh", "\n".join(lines) + "\n")

    def job_name(self) -> str:
        """The name of the job at Slurm, which no other folder's has."""
        return f"victor-{hashlib.sha256(str(self.folder).encode()).hexdigest()[:8]}"

    def engine_words(self) -> list[str]:
        """The words that run the commands."""
        return {
            "make": ["make", "-s", "-k", "-j", str(self.jobs), "-f", ".work/Makefile", "all"],
            "parallel": ["parallel", "-j", str(self.jobs), "-a", ".work/commands"],
            "slurm": ["sbatch", "--wait", ".work/array.sh"],
        }[self.engine]

    def run_engine(self, names: Sequence[str], **more: str) -> int:
        """Runs all commands, with more words in their environment, and says now and then how many are done. It gives
        the status of what ran them."""
        environment = {**os.environ, "LAB": lab_path(), **more}
        with apart(self.engine_words(), cwd=self.folder, env=environment, stderr=subprocess.PIPE) as process:
            over = threading.Event()
            copier = threading.Thread(target=copy_lines, args=(process.stderr, over), daemon=True)
            teller = threading.Thread(target=self.tell, args=(names, over), daemon=True)
            copier.start()
            teller.start()
            try:
                status = process.wait()
                copier.join()
                return status
            except KeyboardInterrupt:
                over.set()
                self.cancel()
                raise
            finally:
                over.set()
                teller.join()

    def cancel(self) -> None:
        """Slurm's tasks are ended by a command of its own."""
        if self.engine == "slurm" and shutil.which("scancel"):
            subprocess.run(["scancel", "--name", self.job_name()], stderr=subprocess.DEVNULL)

    def tell(self, names: Sequence[str], over: threading.Event) -> None:
        """Says how far it is, whenever it is further than it was, until it is over."""
        begin, before = time.time(), self.said_done(names, time.time())
        while not over.wait(TOLD):
            said = self.said_done(names, begin)
            if said != before:
                self.say(said)
            before = said

    def said_done(self, names: Sequence[str], begin: float) -> str:
        """How many were done since a time, in words."""
        return f"{sum(is_new(self.mark_of(name), begin) for name in names)} of {len(names)} done"


def copy_lines(lines: IO[bytes], over: threading.Event) -> None:
    """Copies what is said, until it is over."""
    for line in lines:
        if not over.is_set():
            sys.stderr.write(line.decode("utf-8", "replace"))
            sys.stderr.flush()


def is_new(path: pathlib.Path, begin: float) -> bool:
    """A file was written since a time."""
    try:
        return path.stat().st_mtime >= begin - 1
    except OSError:
        return False


def lab_path() -> str:
    """The command of these tools."""
    beside = programs.HERE.parent / "lab"
    return str(beside) if beside.is_file() else os.path.abspath(sys.argv[0])


def require_engine(engine: str) -> None:
    """What runs the commands is there."""
    name = "sbatch" if engine == "slurm" else engine
    if not shutil.which(name):
        raise Fault(f"there is no {name} on the path")
    if engine == "parallel":
        said = subprocess.run([name, "--version"], stdin=subprocess.DEVNULL, capture_output=True)
        if not said.stdout.startswith(b"GNU parallel"):
            raise Fault("the parallel on the path isn't GNU parallel")
