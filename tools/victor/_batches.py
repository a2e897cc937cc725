"""Many positions, each proved into a file of a folder: NAME.proof, and .work/NAME.row with what was found out about it.
What is done isn't done again."""

import csv
import functools
import hashlib
import importlib.util
import io
import json
import os
import pathlib
import re
import shlex
import sys
import time
from collections.abc import Iterable, Mapping, Sequence
from dataclasses import dataclass
from types import ModuleType
from typing import Any, Optional

from . import _programs as programs, _prover as prover
from ._asking import MEMORY, SECONDS, Asker, Means
from ._engine import LEAST_MEMORY, Engine, is_searchable
from ._faults import Failed, Fault, Unproved
from ._files import write_text
from ._games import Game, Size
from ._jobs import Interrupted, Jobs, require_engine
from ._notation import read_moves

HEAD = ("position", "value", "lemmas", "bytes", "seconds", "by", "sha256", "accepted")
SEARCHED = "searched"  # the last column: what the engine says of a position whose value no proof shows
VALUES = {1: "win", 0: "draw", -1: "loss"}
Row = dict[str, Any]


# One position.


def prove_one(folder: str, name: str, size: Size, means: Means) -> None:
    """Proves and checks one position. Its file gets its name only when it is whole, and before its row."""
    place = pathlib.Path(folder)
    game = Game(size, [] if name == "start" else [(int(digit) - 1) % 10 for digit in name])
    if is_done(read_row(place, name), budget_of(means)):
        return
    path = place / ".work" / f"{name}.{os.getpid()}.part"
    try:
        asker = Asker(means, place / ".work")
        row: Row = {"position": name, "budget": budget_of(means), **proved(asker, game, path)}
        row.update(bytes=path.stat().st_size, sha256=sum_of(path), **judged(asker.program, path))
        if row["value"] == "unknown":
            row[SEARCHED] = searched_value(means, game)
        os.replace(path, os.path.realpath(path_of(place, name)))
        write_text(row_of(place, name), json.dumps(row) + "\n")
    except Unproved as fault:
        raise Fault(f"{name}: {fault}") from fault
    finally:
        path.unlink(missing_ok=True)
    if row["accepted"] != "both":
        raise Fault(f"{name}: accepted by {row['accepted']} of the two checkers")


def searched_value(means: Means, game: Game) -> str:
    """What the engine says of a position, which isn't proved; nothing where it has no value, or isn't asked."""
    path = programs.engine_path(means.solver) if means.by != "prove" else None
    memory = means.memory or MEMORY
    if not path or memory < LEAST_MEMORY or not is_searchable(game.size) or game.is_over:
        return ""
    try:
        with Engine(path, memory=memory) as engine:
            found = engine.search(game, seconds=means.seconds or SECONDS, clock=means.clock)
    except Failed as fault:
        sys.stderr.write(f"{game.digits()}: {fault}; nothing is searched\n")
        return ""
    return found.position.value if found.position else ""


def budget_of(means: Means) -> str:
    """What a position may take, as a text: an unknown value is asked for again with another one alone."""
    return f"{means.by} {means.nodes} {means.reach} {means.seconds} {means.memory}"


def proved(asker: Asker, game: Game, path: pathlib.Path) -> Row:
    """Writes the proof of a game into a file, and gives the seconds that it took and what it was found by."""
    begin = time.monotonic()
    whole = path.with_suffix(".whole.part")
    try:
        answer = asker.answer(game, whole.name, needs_proof=True)
        if answer.proof:
            prover.trim(answer.proof, path, program=asker.program)
        else:  # no program came to an end
            path.write_text(f"victor 1\n{game.text()}value unknown\n", encoding="ascii")
    finally:
        whole.unlink(missing_ok=True)
    with open(path, "rb") as out:
        os.fsync(out.fileno())
    return {"seconds": f"{time.monotonic() - begin:.3f}", "by": os.path.basename(answer.by)}


def judged(program: str, path: pathlib.Path) -> Row:
    """What the two checkers say of a proof: the value, how many lemmas, and which of them accepted it."""
    first = second = None
    try:
        first = prover.check(path, program=program).text.split()
    except Failed as fault:
        sys.stderr.write(fault.text)
    here = io.StringIO()
    with open(path, "rb") as proof:
        if second_checker().run(proof, here, sys.stderr) == 0:
            second = here.getvalue().split()
    said = first or second or ["", "", ""]
    accepted = "first" if first else "second" if second else "none"
    if first and second:
        accepted = "both" if first == second else "differ"
    return {"value": said[1], "lemmas": said[2], "accepted": accepted}


@functools.cache
def second_checker() -> ModuleType:
    """The second checker, a file that stands apart from this package and shares nothing with it: it is beside it."""
    for name in ("check", "victor_check"):
        path = programs.HERE.parent / f"{name}.py"
        spec = importlib.util.spec_from_file_location("victor_check", path)
        if path.is_file() and spec and spec.loader:
            module = importlib.util.module_from_spec(spec)
            spec.loader.exec_module(module)
            return module
    raise Fault("the second checker, tools/check.py, isn't there")


# The folder.


def path_of(folder: pathlib.Path, name: str) -> pathlib.Path:
    """Where the proof of a position stands."""
    return folder / f"{name}.proof"


def row_of(folder: pathlib.Path, name: str) -> pathlib.Path:
    """Where it stands what was found out about a position."""
    return folder / ".work" / f"{name}.row"


def sum_of(path: pathlib.Path) -> str:
    """The checksum of a file."""
    made = hashlib.sha256()
    with open(path, "rb") as source:
        while piece := source.read(1 << 20):
            made.update(piece)
    return made.hexdigest()


def read_row(folder: pathlib.Path, name: str) -> Optional[Row]:
    """What was found out about a position, where its proof is still the one of then; else None. A proof is read again,
    so it can't be a pipe."""
    path = path_of(folder, name)
    if path.exists() and not path.is_file():
        raise Fault(f"{path} isn't a file")
    try:
        row: Row = json.loads(row_of(folder, name).read_text(encoding="ascii"))
        if row["sha256"] != sum_of(path):
            return None
        return row if all(key in row for key in (*HEAD, "budget")) else None
    except (OSError, ValueError, KeyError, TypeError):
        return None


def is_done(row: Optional[Row], budget: str) -> bool:
    """Proved and accepted; or unknown within the same budget, which would be unknown again."""
    if not row or row["accepted"] != "both":
        return False
    return bool(row["value"] != "unknown" or row["budget"] == budget)


# The list.


def read_list(text: str, size: Size) -> tuple[dict[str, Optional[str]], list[str]]:
    """The names of the positions of a list, in order and none twice, each with the value that a score says, or none;
    and what is wrong with which line. A line has a word, and behind it maybe the score of another program for the
    side to move, which is above 0 where it wins. So a score is never taken for moves.
    """
    names: dict[str, Optional[str]] = {}
    faults = []
    for n, line in enumerate(text.replace("\r", "").split("\n"), 1):
        words = line.split("#", 1)[0].split()
        if not words:
            continue
        try:
            name = Game(size, read_moves(words[0], size)).digits()
            names.setdefault(name, score_of(words[1:]))
        except Fault as fault:
            faults.append(f"line {n}: {fault}")
    if not names and not faults:
        raise Fault("the list has no position")
    return names, faults


def score_of(words: Sequence[str]) -> Optional[str]:
    """The value that a score says, or None where there is none."""
    if not words:
        return None
    if len(words) > 1 or not re.fullmatch("[-+]?[0-9]+", words[0]):
        raise Fault(f"{words[-1]!r} stands behind the position: a line has one word, and maybe a score")
    score = int(words[0])
    return VALUES[(score > 0) - (score < 0)]


def all_positions(size: Size, count: int) -> list[str]:
    """The names of all positions in which the game goes on after so many moves, each by one order that leads there."""
    board = second_checker().Board(*size)
    level = {(0, 0): ""}
    for n in range(count):
        further: dict[tuple[int, int], str] = {}
        for (white, black), name in level.items():
            for i in range(board.cols):
                bit = ((white | black) + board.bottom[i]) & board.column[i]
                after = (white, black | bit) if n % 2 else (white | bit, black)
                is_new = bit and after not in further
                if is_new and not board.has_line(after[n % 2]) and white | black | bit != board.all:
                    further[after] = name + "1234567890"[i]
        level = further
    return [name or "-" for name in level.values()]


# What runs the commands.


@dataclass
class Batch(Jobs):
    """A folder of proofs, and how they are made."""

    means: Means

    def __post_init__(self) -> None:
        super().__post_init__()
        self.table = self.folder / "positions.csv"
        self.counts: dict[str, int] = {}
        self.searched: list[str] = []

    def prove(self, names: Mapping[str, Optional[str]], only_write: bool = False) -> int:
        """Proves the positions of a list, writes the table, and gives the status."""
        missing = self.begin(names)
        if not only_write:
            require_engine(self.engine)
            program = programs.find_program(self.means.program) if missing else ""
            if missing and self.means.by != "prove" and not programs.engine_path(self.means.solver):
                self.say(programs.MAKE_ENGINE)
        self.write_files({name: f'"$LAB" batch --step {name} {self.options()} .' for name in missing})
        self.say(f"{len(names)} positions, {len(names) - len(missing)} done before, {len(missing)} to prove", self.out)
        if only_write:
            self.say(f"the commands stand in {self.work / 'commands'}", self.out)
            return 0
        try:
            status = self.run_engine(missing, VICTOR=program) if missing else 0
        except KeyboardInterrupt:
            self.write_table(names)
            done = len(names) - len(self.missing_of(names))
            raise Interrupted(f"{done} of {len(names)} are done, and the same call goes on from there") from None
        return int(self.told(names) or status != 0)

    def begin(self, names: Mapping[str, Optional[str]]) -> list[str]:
        """Makes the folder ready, and gives the positions that are to be run."""
        if len(max(names, key=len)) > 200:
            raise Fault("a file can't have that name")
        self.open()
        return self.missing_of(names)

    def mark_of(self, name: str) -> pathlib.Path:
        """The row of a position."""
        return row_of(self.folder, name)

    def missing_of(self, names: Iterable[str]) -> list[str]:
        """The positions that aren't done."""
        return [name for name in names if not is_done(read_row(self.folder, name), budget_of(self.means))]

    def options(self) -> str:
        """The words of a command that say how a position is proved."""
        means = self.means
        known = os.path.abspath(means.known) if means.known else None
        options = prover.options_of(board=self.size.word, by=means.by, nodes=means.nodes, reach=means.reach)
        options += prover.options_of(seconds=means.seconds, clock=means.clock, memory=means.memory)
        options += prover.options_of(solver=means.solver and os.path.abspath(means.solver), **{"from": known})
        return shlex.join(options + ["--small"] * means.small)

    def told(self, names: Mapping[str, Optional[str]]) -> bool:
        """Writes the table, and says how many positions have each value. True where one has no proof, or another value
        than its score says."""
        others = self.write_table(names)
        for line in others:
            self.say(line)
        self.say(", ".join(f"{self.counts[value]} {value}" for value in sorted(self.counts)), self.out)
        if self.searched:
            found = ", ".join(f"{self.searched.count(value)} {value}" for value in sorted(set(self.searched)))
            self.say(f"of the unknown ones searched, and not proved: {found}", self.out)
        if "unknown" in self.counts and self.means.by is None and not self.means.solver and not programs.solver_path():
            self.say(f"for the unknown ones try {programs.MAKE_SOLVER}")
        return bool(others) or "missing" in self.counts or "refused" in self.counts

    def write_table(self, names: Mapping[str, Optional[str]]) -> list[str]:
        """Writes the table of all positions of the list, counts how many have each value, and gives what is to be said
        of those that differ from their scores."""
        self.counts, self.searched, others = {}, [], []
        made = io.StringIO()
        table = csv.writer(made, lineterminator="\n")
        table.writerow((*HEAD, SEARCHED))
        for name, said in names.items():
            row = read_row(self.folder, name)
            value = row["value"] or "refused" if row else "missing"
            self.counts[value] = self.counts.get(value, 0) + 1
            if said and value in VALUES.values() and value != said:
                others.append(f"{name}: the score says {said}, and the proof {value}")
            cells = [row[key] for key in HEAD] if row else [name] + [""] * (len(HEAD) - 2) + ["none"]
            found = row.get(SEARCHED, "") if row else ""
            self.searched += [found] if found else []
            if said and found and found != said:
                others.append(f"{name}: the score says {said}, and the search {found}, which isn't proved")
            table.writerow([*cells, found])
        write_text(self.table, made.getvalue())
        return others

    def values(self, names: Iterable[str]) -> dict[str, str]:
        """The values of positions, as proofs say that both checkers accept."""
        rows = {name: read_row(self.folder, name) for name in names}
        return {name: row["value"] for name, row in rows.items() if row and row["accepted"] == "both"}
