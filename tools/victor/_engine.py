"""`tools/solve/engine`, one warm process: what positions are worth, and how long their games last. What it says is
searched, and nothing of it is proved. docs/ENGINE.md has its protocol."""

import contextlib
import json
import os
import pathlib
import select
import subprocess
import tempfile
import threading
import time
import weakref
from collections.abc import Generator, Iterator, Mapping, Sequence
from dataclasses import dataclass, field
from typing import IO, Any, Callable, Optional

from . import _processes as processes, _prover as prover
from ._faults import Failed, Fault, Gone, OutOfTime, Refused, files_told
from ._files import Path
from ._games import Game, Size, columns_of, require_game
from ._processes import Limits
from ._programs import find_engine, shipped_openings
from ._prover import Proof

NAME = "the engine"
MEMORY = 600  # MiB, of which the tables take less than half
LEAST_MEMORY, MOST_MEMORY = 16, 1 << 20
MOST_BITS = 63  # of a board that is searched: its columns, each with a bit more than its rows
POLL = 0.05  # seconds between two looks at what ends a question
GRACE = 2.0  # seconds that a question has to end which was stopped
PIECE = 1 << 16
Object = dict[str, Any]
Notice = Callable[["Found"], object]


@dataclass(frozen=True)
class Found:
    """The value that was searched, for the side to move, of a move, or of the position where there is no column.
    Where that was asked, the game goes on for so many moves, where a win is as fast and a loss as late as can be."""

    value: str
    column: Optional[int] = None
    moves_to_end: Optional[int] = None


@dataclass(frozen=True)
class Searched:
    """All that was searched of a position: what it is worth, its moves by their columns, and a best line. What wasn't
    found within the limits is missing. Nothing of it is proved."""

    position: Optional[Found] = None
    moves: Mapping[int, Found] = field(default_factory=dict)
    line: Optional[tuple[int, ...]] = None

    @property
    def value(self) -> str:
        """The value of the position, or `unknown`."""
        return self.position.value if self.position else "unknown"

    def value_of(self, column: int) -> str:
        """The value of a move, or `unknown`."""
        return self.moves[column].value if column in self.moves else "unknown"


class Engine:
    """A process of `tools/solve/engine`, which is started by the first question and kept, with all that it finds, until
    `close`, or the end of its owner. It answers one question at a time, those of other threads in turn.

        with victor.Engine() as engine:
            for found in engine.values(victor.Game.read("434343")):
                print(found)

    Each question takes by keyword `seconds` of processor time, `clock`, seconds by the clock, `tell`, which is called
    with the seconds that are spent, now and then from two on, `note`, which is told at the end what was spent, and
    `is_wanted`, by which a question is ended that nobody waits for. What was found when the time is over stands. A
    process that is dead is a `Failed`, and the next question starts another. The table of openings that comes with the
    program answers for its board, unless `openings` is false.
    """

    def __init__(self, program: Optional[Path] = None, *, memory: int = MEMORY, openings: bool = True) -> None:
        if not LEAST_MEMORY <= memory <= MOST_MEMORY:
            raise Fault(f"the engine takes from {LEAST_MEMORY} to {MOST_MEMORY} MiB of memory")
        self.program, self.memory, self.openings = find_engine(program), memory, openings
        self._process: Optional[Process] = None
        self._turn, self._owner = threading.Lock(), 0
        self._hand = threading.Lock()  # what is written, is written whole

    def __enter__(self) -> "Engine":
        return self

    def __exit__(self, *_: object) -> None:
        self.close()

    def close(self) -> None:
        """Ends the process, with whatever is asked. A later question starts another."""
        process, self._process = self._process, None
        if process:
            process.end()

    @property
    def is_busy(self) -> bool:
        """A question is being answered."""
        return self._turn.locked()

    def values(self, game: Game, **limits: Any) -> Generator[Found, None, None]:
        """The value of each move, as soon as it is known, and of the position."""
        return self._found("value", game, Limits(**limits))

    def outcome(self, game: Game, **limits: Any) -> str:
        """The value of the position alone, which takes less; `unknown` where the time was over before."""
        values = [found.value for found in self._found("outcome", game, Limits(**limits))]
        return values[0] if values else "unknown"

    def scores(self, game: Game, **limits: Any) -> Generator[Found, None, None]:
        """The same, and then of each move and the position in how many moves the game ends."""
        return self._found("score", game, Limits(**limits))

    def line(self, game: Game, **limits: Any) -> Optional[tuple[int, ...]]:
        """The columns of a best line to the end; None where the time was over before."""
        with contextlib.closing(self._said("line", game, "", Limits(**limits))) as said:
            lines = [columns_of(one["line"]) if one["line"] else [] for one in said if "line" in one]
        return tuple(lines[0]) if lines else None

    def proof(
        self, game: Game, into: Path, options: Sequence[str] = (), *, claim: Optional[str] = None, **limits: Any
    ) -> Proof:
        """A proof of the value by what is known already, with options of `tools/solve`, written into a file; it shows
        nothing before `check` accepts it. With a claim, as `W-`, the lemmas for it alone. It is OutOfTime where the
        time was over before."""
        words = [quoted(os.path.abspath(into)), *options, *(["--claim", claim] if claim else [])]
        with contextlib.closing(self._said("proof", game, " ".join(words), Limits(**limits))) as said:
            objects = list(said)  # to the end, where it stands what was spent
        if not any("file" in one for one in objects):
            raise OutOfTime(NAME, 0)
        return prover.proof_in(pathlib.Path(into), game, 0, True)

    def search(
        self, game: Game, *, scores: bool = False, line: bool = False, notice: Optional[Notice] = None, **limits: Any
    ) -> Searched:
        """All at once: the values, or the scores, and maybe a best line. `notice` is called with each that is found."""
        position, moves = None, {}
        for found in self.scores(game, **limits) if scores else self.values(game, **limits):
            if found.column is None:
                position = found
            else:
                moves[found.column] = found
            if notice:
                notice(found)
        is_whole = position is not None and (not scores or position.moves_to_end is not None)
        return Searched(position, moves, self.line(game, **limits) if line and is_whole else None)

    def stop(self) -> None:
        """Ends the question in hand, from another thread. What was found of it stands."""
        process = self._process
        if process:
            process.send("stop", self._hand)

    # What is asked, and what is said.

    def _found(self, kind: str, game: Game, limits: Limits) -> Generator[Found, None, None]:
        """What is said of a position and its moves."""
        with contextlib.closing(self._said(kind, game, "", limits)) as said:
            for one in said:
                if "value" in one:
                    column = columns_of(one["move"])[0] if "move" in one else None
                    yield Found(one["value"], column, one.get("moves_to_end"))

    def _said(self, kind: str, game: Game, more: str, limits: Limits) -> Generator[Object, None, None]:
        """What is said to a question, but for its last object."""
        require_searchable(require_game(game).size)
        with self._in_turn(limits):
            process = self._running()
            self._make_ready(process, game.size, limits)
            begin = processes.processor_seconds(process.pid)
            request = f"{kind} {game.letters()} {more}".rstrip()
            yield from self._answers(process, request, Watch(self, process, limits, begin))

    @contextlib.contextmanager
    def _in_turn(self, limits: Limits) -> Iterator[None]:
        """The turn of a question."""
        if self._owner == threading.get_ident():
            raise Fault("another question is still being answered: read all of it, or close it")
        while not self._turn.acquire(timeout=POLL):
            if limits.is_wanted and not limits.is_wanted():
                raise Gone
        self._owner = threading.get_ident()
        try:
            yield
        finally:
            self._owner = 0
            self._turn.release()

    def _running(self) -> "Process":
        """The process, which is started where there is none."""
        if self._process and self._process.has_ended():
            self.close()
        if not self._process:
            self._process = Process(self.program)
        return self._process

    def _make_ready(self, process: "Process", size: Size, limits: Limits) -> None:
        """Names the limits and the board where they are others than before."""
        for request in (f"limits {limits.seconds or 0:.3f} {self.memory}", board_of(size)):
            kind = request.split()[0]
            if process.told.get(kind) != request:
                for _ in self._answers(process, request, None):
                    pass
                process.told[kind] = request
                if kind == "board" and self.openings:
                    self._read_openings(process, size)

    def _read_openings(self, process: "Process", size: Size) -> None:
        """Has the shipped table read, where it is for this board. Where it can't be, the engine searches as without."""
        files = shipped_openings(size.word)
        if files and all(name.isascii() for name in files):
            with contextlib.suppress(Refused):
                for _ in self._answers(process, " ".join(["table", *map(quoted, files)]), None):
                    pass

    def _answers(self, process: "Process", request: str, watch: Optional["Watch"]) -> Iterator[Object]:
        """What is said to a request, but for the last object. A question that isn't read to its end is stopped, so that
        the next one finds the engine free."""
        is_over = False
        process.send(request, self._hand)
        try:
            while True:
                said = process.read(watch)
                if said.get("request") == "stop":
                    continue
                if said.get("request") != request:
                    raise Failed(NAME, 0, f"this is no answer to {request}: {said}")
                is_over = "done" in said or "error" in said
                if is_over:
                    break
                yield said
        finally:
            if not is_over:
                self._abandon(process, request)
        if watch and watch.limits.note:
            watch.limits.note(float(said.get("seconds", 0.0)))
        if "error" in said:
            raise Refused(NAME, 2, str(said["error"]))

    def _abandon(self, process: "Process", request: str) -> None:
        """Stops a question, and reads what is left of its answer; a process that doesn't end it is ended."""
        end, is_over = time.monotonic() + GRACE, False
        try:
            self.stop()
            while not is_over and time.monotonic() < end:
                said = process.read(None, end)
                is_over = said.get("request") == request and ("done" in said or "error" in said)
        except Failed:
            pass
        finally:
            if not is_over:
                self.close()


class Process:
    """An engine that runs, and its pipes. It is in a session of its own, so that an interrupt at a terminal doesn't
    reach it, and ends once its owner has, since nobody reads its answers any more."""

    def __init__(self, program: str) -> None:
        self.err = tempfile.TemporaryFile()
        with files_told(program):
            self.popen = subprocess.Popen(
                [program], stdin=subprocess.PIPE, stdout=subprocess.PIPE, stderr=self.err, start_new_session=True
            )
        self.pid, self.told, self.heard = self.popen.pid, dict[str, str](), b""
        self._end = weakref.finalize(self, end_process, self.popen, self.err)

    def end(self) -> None:
        """Ends it."""
        self._end()

    def has_ended(self) -> bool:
        """It is over."""
        return self.popen.poll() is not None

    def send(self, line: str, hand: threading.Lock) -> None:
        """Sends a line."""
        assert self.popen.stdin
        try:
            with hand:
                self.popen.stdin.write(os.fsencode(line) + b"\n")
                self.popen.stdin.flush()
        except (OSError, ValueError) as fault:
            raise self.death() from fault

    def read(self, watch: Optional["Watch"], end: float = float("inf")) -> Object:
        """The next object, or an empty one where none came until an end by the clock."""
        assert self.popen.stdout
        while b"\n" not in self.heard:
            if watch:
                watch.look()
            if time.monotonic() >= end:
                return {}
            try:
                if select.select([self.popen.stdout], [], [], POLL)[0]:
                    piece = os.read(self.popen.stdout.fileno(), PIECE)
                    if not piece:
                        raise self.death()
                    self.heard += piece
            except (OSError, ValueError) as fault:  # it was ended from another thread
                raise self.death() from fault
        line, self.heard = self.heard.split(b"\n", 1)
        try:
            said: Object = json.loads(os.fsdecode(line))
        except ValueError as fault:
            raise Failed(
                NAME, self.popen.poll() or 0, f"this is no answer: {line.decode('ascii', 'replace')}"
            ) from fault
        return said

    def death(self) -> Failed:
        """What is to be said of an engine that has ended by itself."""
        with contextlib.suppress(subprocess.TimeoutExpired):
            self.popen.wait(GRACE)
        said = b""
        with contextlib.suppress(OSError, ValueError):
            self.err.seek(0)
            said = self.err.read(processes.MOST_SAID)
        return Failed(NAME, self.popen.returncode or 0, said.decode("ascii", "replace"))


class Watch:
    """What may end a question, and what is told of it while it is answered."""

    def __init__(self, engine: Engine, process: Process, limits: Limits, begin: float) -> None:
        self.engine, self.process, self.limits, self.begin = engine, process, limits, begin
        most = float("inf") if limits.seconds is None else limits.seconds
        self.end = time.monotonic() + (processes.SLOWEST * most if limits.clock is None else limits.clock)
        self.next_told = processes.FIRST_TOLD

    def look(self) -> None:
        """Tells what is spent, and stops what is late. What isn't wanted any more is Gone."""
        if self.limits.is_wanted and not self.limits.is_wanted():
            raise Gone
        if time.monotonic() >= self.end:
            self.engine.stop()
            self.end = float("inf")
        spent = processes.processor_seconds(self.process.pid) - self.begin if self.limits.tell else 0.0
        if self.limits.tell and spent >= self.next_told:
            self.limits.tell(spent)
            self.next_told *= 2


def end_process(popen: "subprocess.Popen[bytes]", err: IO[bytes]) -> None:
    """Ends an engine: it ends itself, as nobody reads its answers any more."""
    for pipe in (popen.stdout, popen.stdin, err):
        with contextlib.suppress(OSError):
            assert pipe
            pipe.close()
    try:
        popen.wait(GRACE)
    except subprocess.TimeoutExpired:
        popen.kill()
        popen.wait()


def is_searchable(size: Size) -> bool:
    """The engine takes this board."""
    return size.cols * (size.rows + 1) <= MOST_BITS


def require_searchable(size: Size) -> None:
    """The engine takes this board."""
    if not is_searchable(size):
        raise Fault(f"the engine doesn't take a board of {size}, which is too large for it")


def board_of(size: Size) -> str:
    """The request that names a board."""
    return f"board {size.cols} {size.rows}{'' if size.length == 4 else ' 5'}"


def quoted(word: str) -> str:
    """A word of a request."""
    if "\n" in word:
        raise Fault("the engine takes no path with the end of a line in it")
    return '"' + word.replace("\\", "\\\\").replace('"', '\\"') + '"'
