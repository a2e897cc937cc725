"""Proofs of openings: of each by itself, or of all below one ancestor in one text. The same words make the same text
again, so a row with its sum is enough to keep."""

import io
import itertools
import os
import pathlib
import random
import shlex
import shutil
import subprocess
import sys
from collections.abc import Iterator, Mapping, Sequence
from dataclasses import dataclass, field
from typing import Optional

from . import _proofs as proofs, _prover as prover
from ._batches import second_checker, sum_of
from ._faults import Fault, Unproved, files_told
from ._files import write_text
from ._games import OTHER, Game, columns_of
from ._opening_rows import Row, Work, Writer, said_counts
from ._openings import VALUES, Grid
from ._proofs import Place
from ._prover import Proof

# What `solve` is told: a first proof by the quickest order, and as much memory in each run, since it may choose by it.
RECIPE = {"format": 2, "order": 2, "high": 0, "part": 0, "rounds": 0, "sweeps": 0}
MEMORY = 1000  # MiB, of a proof of one opening
UNIT_MEMORY = 4000  # of many
HEAD = ("moves", "value", "text", "lemma", "second", "lemmas", "bytes", "sha256", "seconds", "checkers")
WHAT = slice(1, 8)  # of a row is the same when the proof is made again
MOST_LEMMAS = 10_000_000


@dataclass(frozen=True)
class Programs:
    """The programs that make proofs and judge them."""

    solver: str
    checker: str
    has_second: bool = False  # the second checker judges them too

    def solved(self, game: Game, path: pathlib.Path, memory: int, *more: str) -> float:
        """Has a proof written into a file, and gives the CPU seconds that this took."""
        spent: list[float] = []
        words = [self.solver, "--quiet", *prover.options_of(memory=memory, **RECIPE), *more]
        prover.written_proof("solve", words, game, game.text(), path, (0,), {"note": spent.append})
        return sum(spent)

    def judged(self, path: pathlib.Path, value: str) -> tuple[int, int, float]:
        """How many lemmas a proof has that is accepted, with this value; by how many checkers; and the CPU seconds that
        the first took."""
        spent: list[float] = []
        found = prover.check(path, program=self.checker, note=spent.append)
        if found.value != value:
            raise Unproved(f"a proof of {value} was accepted as one of {found.value}")
        if self.has_second:
            here = io.StringIO()
            with open(path, "rb") as text:
                status = second_checker().run(text, here, sys.stderr)
            if status != 0 or here.getvalue() != found.text:
                raise Unproved("the second checker doesn't say the same of a proof that the first accepts")
        return found.lemmas, 1 + self.has_second, sum(spent)


def claims_of(value: str, side: str) -> list[str]:
    """The claims that show a value for the side to move."""
    return {"win": [side + "+"], "loss": [OTHER[side] + "+"], "draw": ["W-", "B-"]}[value]


def require_lemmas(path: pathlib.Path, game: Game, value: str, numbers: Sequence[int]) -> None:
    """The lemmas of an accepted text show this value of a position, or of its mirror image."""
    root = proofs.game_of(path)
    claims = claims_of(value, game.side)
    with proofs.mapped(path) as text:
        for claim, number in zip(claims, numbers):
            words = [word.decode() for word in proofs.Numbered(text).words(number)]
            if len(words) < 3 or words[1] != claim or len(numbers) != len(claims):
                raise Unproved(f"lemma {number} doesn't claim {claim}")
            at = Game(root.size, [*root.moves, *columns_of(words[0])])
            if at not in (game, game.mirrored()):
                raise Unproved(f"lemma {number} isn't about {game.letters()}")


@dataclass(frozen=True)
class Manner:
    """How proofs are made: one text for all of a unit, the texts are kept, those are made again that have rows, and how
    many lemmas a text has at most."""

    is_whole: bool = False
    keeps: bool = False
    again: bool = False
    most: int = MOST_LEMMAS


@dataclass
class Proofs(Work):
    """The proofs of openings, of which the rows are kept; proved.csv at the end."""

    programs: Programs
    manner: Manner
    table: Mapping[str, str] = field(default_factory=dict)  # the values that were searched
    ACTION = "prove"
    WORDS = len(HEAD)

    def prove(self, names: Sequence[str], only_write: bool = False) -> int:
        """Proves those of these openings that have no row, and gives the status."""
        missing = self.begin(names)
        missing = list(self.units) if self.manner.again else missing
        known = sum(len(self.found(unit)) for unit in self.units)
        self.say(f"{len(names)} openings of {self.openings}, {known} proved before", self.out)
        status = self.run_units(missing, only_write)
        return status if only_write else self.told() or status

    def options(self) -> str:
        """The words of a step's command that say how it is done."""
        flags = {"--whole": self.manner.is_whole, "--keep": self.manner.keeps, "--again": self.manner.again}
        flags["--second"] = self.programs.has_second
        words = [super().options(), f"--solver {shlex.quote(os.path.abspath(self.programs.solver))}"]
        words += [flag for flag, is_set in flags.items() if is_set]
        words += [f"--lemmas {self.manner.most}"] if self.manner.most < MOST_LEMMAS else []
        return " ".join(words)

    def run_missing(self, missing: Sequence[str]) -> int:
        """Runs the commands of these units."""
        return self.run_engine(missing, VICTOR=self.programs.checker)

    def step(self, unit: str) -> None:
        """Proves what of a unit has no row."""
        self.read_list()
        known = self.found(unit)
        names = [moves for moves in self.units[unit] if self.manner.again or moves not in known]
        with Writer(self.rows_of(unit)) as rows:
            for row in self.whole(unit, names) if self.manner.is_whole else map(self.one, names):
                if not is_same(known.get(row[0], row), row):
                    raise Unproved(f"{row[0]}: its row isn't what the proof has that was made again")
                rows.add(*row)

    def one(self, moves: str) -> Row:
        """The row of an opening that is proved by itself."""
        path = self.work / f"{moves}.{os.getpid()}.part"
        try:
            seconds = self.programs.solved(self.openings.game(moves), path, MEMORY)
            value, *numbers = proofs.verdict_of(path)
            row = self.row(moves, value, moves, numbers, self.measured(path, value, seconds))
            self.keep(path, moves)
            return row
        finally:
            path.unlink(missing_ok=True)

    def whole(self, unit: str, names: Sequence[str]) -> Iterator[Row]:
        """The rows of openings of a unit that are proved in one text, or in several where there would be too many
        lemmas. The texts are numbered."""
        left, texts = list(names), {row[2] for row in self.found(unit).values()}
        numbers = (n for n in itertools.count(1) if self.manner.again or f"{unit}-{n}" not in texts)
        while left:
            rows = self.one_text(unit, f"{unit}-{next(numbers)}", left)
            left = left[len(rows) :]
            yield from rows

    def one_text(self, unit: str, text: str, names: Sequence[str]) -> list[Row]:
        """The rows of the first of these openings, as many as there is room for in a text."""
        path = self.work / f"{unit}.{os.getpid()}.part"
        roots, index = path.with_suffix(".roots.part"), path.with_suffix(".index.part")
        more = ("--roots", str(roots), str(index), "--lemmas", str(self.manner.most))
        try:
            write_text(roots, "".join(f"{moves}\n" for moves in names))
            seconds = self.programs.solved(self.openings.game(unit), path, UNIT_MEMORY, *more)
            measured, rows = self.measured(path, "unknown", seconds), []
            for moves, value, *numbers in self.indexed(index, names):
                shown = [number for number in numbers if number]
                require_lemmas(path, self.openings.game(moves), value, list(map(int, shown)))
                rows.append(self.row(moves, value, text, shown, measured))
            self.keep(path, text)
            return rows
        finally:
            for part in (path, roots, index):
                part.unlink(missing_ok=True)

    @staticmethod
    def indexed(index: pathlib.Path, names: Sequence[str]) -> list[Row]:
        """The rows of an index, which is about the first of these openings."""
        rows = [line.split(",") for line in index.read_text(encoding="ascii").splitlines()[1:]]
        if not rows or [row[0] for row in rows] != list(names[: len(rows)]):
            raise Unproved("the index isn't about the openings that were asked for")
        return rows

    def measured(self, path: pathlib.Path, value: str, seconds: float) -> list[str]:
        """What a row has of a text that is accepted."""
        lemmas, checkers, judging = self.programs.judged(path, value)
        size = path.stat().st_size
        return [str(lemmas), str(size), sum_of(path), f"{seconds + judging:.3f}", str(checkers)]

    @staticmethod
    def row(moves: str, value: str, text: str, numbers: Sequence[str], measured: Sequence[str]) -> Row:
        """A row."""
        first, second = [*numbers, ""][:2]
        return [moves, value, text, first, second, *measured]

    def keep(self, path: pathlib.Path, name: str) -> None:
        """Keeps a text, packed, where that is wanted."""
        if self.manner.keeps:
            packed(path, self.folder / f"{name}.proof.xz")

    def told(self) -> int:
        """Writes the table of what is proved, and says how much that is. The status is 1 where a proof is missing that
        is wanted, or one shows another value than was searched."""
        rows, names = self.all_found(), [moves for names in self.units.values() for moves in names]
        missing = sum(moves not in rows for moves in names)
        lines = [",".join(words) for words in (HEAD, *rows.values())]
        write_text(self.folder / "proved.csv", "".join(f"{line}\n" for line in lines))
        counts = [sum(row[1] == value for row in rows.values()) for value in VALUES]
        texts = {row[2]: row for row in rows.values()}.values()
        lemmas, seconds = sum(int(row[5]) for row in texts), sum(float(row[8]) for row in texts)
        self.say(f"{len(names) - missing} of {len(names)} proved; in all {said_counts(counts)}", self.out)
        self.say(f"{len(texts)} texts, {lemmas} lemmas, {seconds:.0f} CPU seconds", self.out)
        others = [row for row in rows.values() if self.table.get(row[0], row[1]) != row[1]]
        for row in others:
            self.say(f"{row[0]}: the table says {self.table[row[0]]}, and the proof {row[1]}")
        compared = sum(moves in self.table for moves in rows)
        self.say(f"{compared} compared with the table, {len(others)} differ", self.out)
        return int(bool(others or missing))


def is_same(old: Row, row: Row) -> bool:
    """A row says what another one does: all of the same text, and of another one the same value."""
    return old[WHAT] == row[WHAT] if old[2] == row[2] else old[1] == row[1]


def packed(path: pathlib.Path, to: pathlib.Path) -> None:
    """Packs a text by `xz`."""
    if not shutil.which("xz"):
        raise Fault("there is no xz on the path, which packs what is kept")
    part = to.with_suffix(".part")
    with open(part, "wb") as out:
        subprocess.run(["xz", "-c", "-1", "-T1", "--", str(path)], stdout=out, check=True)
    os.replace(part, to)


def drawn(names: Sequence[str], count: int, seed: int) -> list[str]:
    """So many openings, drawn by a seed, in their order."""
    if not 1 <= count <= len(names):
        raise Fault(f"--sample takes a number from 1 to {len(names)}")
    chosen = set(random.Random(seed).sample(list(names), count))
    return [moves for moves in names if moves in chosen]


# One opening.


def kept_row(folder: pathlib.Path, game: Game) -> Optional[Row]:
    """The row of a position, or of its image, in a folder's table of proofs."""
    grid, path = Grid(game.size), folder / "proved.csv"
    key = grid.key(game.moves)
    with files_told(path):
        rows = [line.split(",") for line in path.read_text(encoding="ascii").splitlines()[1:]]
    return next((row for row in rows if len(row) == len(HEAD) and grid.key(columns_of(row[0])) == key), None)


def cut_out(folder: pathlib.Path, row: Row, game: Game, into: pathlib.Path) -> Optional[Proof]:
    """The proof of an opening from a text that a folder keeps, which the checker hasn't judged yet; None where it keeps
    none of it."""
    kept = folder / f"{row[2]}.proof.xz"
    if not kept.exists():
        return None
    text = pathlib.Path(proofs.unpacked(kept, into.parent))
    places = tuple(place_of(text, int(number), game) for number in row[3:5] if number)
    return proofs.extract(text, game, row[1], places, into)


def place_of(path: pathlib.Path, number: int, game: Game) -> Place:
    """Where a lemma stands, seen from a position: there, or at its image."""
    root = proofs.game_of(path)
    with proofs.mapped(path) as text:
        moves = proofs.Numbered(text).words(number)[0].decode()
    at = Game(root.size, [*root.moves, *columns_of(moves)])
    return Place(number, at.men != game.men)
