"""What is found out about openings, in a folder: in .work each unit, the openings below one ancestor, has a file of
rows, to which one is added as soon as it is known. So a call goes on where another one was killed."""

import lzma
import os
import pathlib
import time
from collections.abc import Iterator, Mapping, Sequence
from dataclasses import dataclass
from typing import ClassVar, Optional

from ._engine import Engine
from ._faults import Fault, Unproved, files_told
from ._files import output, write_text
from ._jobs import TOLD, Interrupted, Jobs, require_engine
from ._openings import HEAD, PUBLISHED, VALUES, Openings, Units, units_of

Row = list[str]  # the words of a line: the moves, the value, and what else is known


def rows_in(path: pathlib.Path, names: Optional[Sequence[str]], size: int) -> dict[str, Row]:
    """The rows of a file about these openings, or about all, by their moves; the last one of each. A row has so many
    words, and one that was cut is none."""
    if not path.exists():
        return {}
    known = None if names is None else set(names)
    with files_told(path):
        lines = path.read_text(encoding="ascii", errors="replace").splitlines(keepends=True)
    rows = [line[:-1].split(",") for line in lines if line.endswith("\n")]
    return {row[0]: row for row in rows if len(row) == size and row[1] in VALUES and (known is None or row[0] in known)}


class Writer:
    """A file of rows that is added to, from the end of its last whole row."""

    def __init__(self, path: pathlib.Path) -> None:
        self.out = open(path, "ab")
        text = path.read_bytes()
        self.out.truncate(text.rfind(b"\n") + 1)

    def __enter__(self) -> "Writer":
        return self

    def __exit__(self, *_: object) -> None:
        self.out.close()

    def add(self, *words: object) -> None:
        """Adds a row, which is there from then on."""
        self.out.write(",".join(map(str, words)).encode() + b"\n")
        self.out.flush()


@dataclass
class Work(Jobs):
    """A folder of rows about openings, divided by ancestors with `at` men. `ACTION` is the word of the command, and
    `WORDS` how many words a row has."""

    openings: Openings
    at: int
    ACTION: ClassVar[str]
    WORDS: ClassVar[int]

    def __post_init__(self) -> None:
        super().__post_init__()
        if not 0 <= self.at <= self.openings.men:
            raise Fault(f"an ancestor has from 0 to {self.openings.men} men")
        self.list = self.work / f"{self.ACTION}.list"
        self.about_name = self.board_name()
        self.units: Units = {}

    @classmethod
    def board_name(cls) -> str:
        """The file that says what a folder is for."""
        return f"{cls.ACTION}.board"

    @property
    def about(self) -> str:
        """What the folder is for, in words."""
        return f"{self.openings} by ancestors with {self.at}"

    def rows_of(self, unit: str) -> pathlib.Path:
        """The file of a unit."""
        return self.work / f"{unit}.{self.ACTION}"

    def found(self, unit: str) -> dict[str, Row]:
        """What is known of a unit."""
        return rows_in(self.rows_of(unit), self.units[unit], self.WORDS)

    def all_found(self) -> dict[str, Row]:
        """All rows of the folder in the order of the list, also of units that aren't wanted now."""
        files = self.work.glob(f"*.{self.ACTION}")
        rows = {moves: row for path in files for moves, row in rows_in(path, None, self.WORDS).items()}
        return dict(sorted(rows.items()))

    def said_done(self, names: Sequence[str], begin: float) -> str:
        """How far it is, in words."""
        found = sum(len(self.found(unit)) for unit in self.units)
        return f"{found} of {sum(map(len, self.units.values()))} done"

    def begin(self, wanted: Sequence[str]) -> list[str]:
        """Makes the folder ready for these openings, and gives the units in which some isn't known yet."""
        self.open()
        self.units = units_of(wanted, self.at)
        write_text(self.list, "".join(f"{moves}\n" for moves in wanted))
        return [unit for unit, names in self.units.items() if len(self.found(unit)) < len(names)]

    def options(self) -> str:
        """The words of a step's command that say how it is done."""
        forced = " --forced" if self.openings.is_forced else ""
        return f"--board {self.openings.size.word} --men {self.openings.men} --at {self.at}{forced}"

    def run_units(self, missing: Sequence[str], only_write: bool) -> int:
        """Has the units done, or writes how, and gives the status."""
        self.write_files({unit: f'"$LAB" openings {self.ACTION} --step {unit} {self.options()} .' for unit in missing})
        if only_write:
            self.say(f"the commands stand in {self.work / 'commands'}", self.out)
            return 0
        require_engine(self.engine)
        try:
            return int(bool(missing) and self.run_missing(missing) != 0)
        except KeyboardInterrupt:
            said = self.said_done(missing, 0)
            raise Interrupted(f"{said}, and the same call goes on from there") from None

    def run_missing(self, missing: Sequence[str]) -> int:
        """Runs the commands of these units."""
        return self.run_engine(missing)

    def step(self, unit: str) -> None:
        """Does what isn't done of a unit, for whatever runs the commands."""
        raise NotImplementedError

    def join(self, others: Sequence[pathlib.Path]) -> int:
        """Takes the rows of other folders over, and gives the status of all that is known then."""
        missing = self.begin(self.openings.listed())
        for other in others:
            about = other / ".work" / self.about_name
            if about.exists() and about.read_text(encoding="ascii").strip() != self.about:
                raise Fault(f"{other} is for other openings, or by other ancestors")
            self.say(f"{sum(self.take_over(other, unit) for unit in missing)} rows from {other}", self.out)
        return self.told()

    def take_over(self, other: pathlib.Path, unit: str) -> int:
        """Adds the rows of another folder for a unit that aren't here, and gives how many these are."""
        known = self.found(unit)
        path = other / ".work" / self.rows_of(unit).name
        more = [row for moves, row in rows_in(path, self.units[unit], self.WORDS).items() if moves not in known]
        if more:
            with Writer(self.rows_of(unit)) as rows:
                for row in more:
                    rows.add(*row)
        return len(more)

    def told(self) -> int:
        """Writes the table of what is known, and says how much that is. The status is 1 where something is missing."""
        raise NotImplementedError

    def read_list(self) -> None:
        """Reads which openings are wanted, for a step."""
        with files_told(self.list):
            self.units = units_of(self.list.read_text(encoding="ascii").split(), self.at)


@dataclass
class Values(Work):
    """The values of openings, as the engine searches them; values.csv at the end, and the same packed."""

    ACTION = "values"
    WORDS = 3  # the last are the engine's CPU seconds

    @property
    def packed_name(self) -> str:
        """The name of the packed table."""
        return f"openings-{self.openings.men}{'-forced' if self.openings.is_forced else ''}.csv.xz"

    def find_all(self, only_write: bool = False) -> int:
        """Finds what isn't known yet, writes the table, and gives the status."""
        names = self.openings.listed()
        missing = self.begin(names)
        known = sum(len(self.found(unit)) for unit in self.units)
        self.say(f"{len(names)} openings of {self.openings}, {known} known before", self.out)
        status = self.run_units(missing, only_write)
        return status if only_write else self.told() or status

    def run_missing(self, missing: Sequence[str]) -> int:
        """Has the openings searched: where one job is wanted, by one warm engine for all."""
        if self.jobs > 1 or self.engine != "make":
            return super().run_missing(missing)
        with Engine(openings=False) as engine:
            told = time.monotonic()
            for unit in missing:
                for _ in self.search(unit, engine):
                    if time.monotonic() - told > TOLD:
                        told = time.monotonic()
                        self.say(self.said_done(missing, 0))
        return 0

    def step(self, unit: str) -> None:
        """Finds the values of a unit."""
        self.read_list()
        with Engine(openings=False) as engine:
            for _ in self.search(unit, engine):
                pass

    def search(self, unit: str, engine: Engine) -> Iterator[str]:
        """Has those openings of a unit searched that aren't known, and gives each when it is."""
        known = self.found(unit)
        with Writer(self.rows_of(unit)) as rows:
            for moves in self.units[unit]:
                if moves not in known:
                    spent: list[float] = []
                    value = engine.outcome(self.openings.game(moves), note=spent.append)
                    if value not in VALUES:
                        raise Unproved(f"the engine has no value for {moves}")
                    rows.add(moves, value, f"{sum(spent):.6f}")
                    yield moves

    def told(self) -> int:
        """Writes the table, and says how many openings have each value. The status is 1 where one isn't known. Other
        counts than the published ones are a fault."""
        rows = {moves: row for unit in self.units for moves, row in self.found(unit).items()}
        names = [moves for names in self.units.values() for moves in names]
        if len(rows) < len(names):
            self.say(f"{len(names) - len(rows)} openings aren't known, and the same call goes on with them")
            return 1
        text = HEAD + "".join(f"{moves},{rows[moves][1]}\n" for moves in names)
        write_text(self.folder / "values.csv", text)
        with output(self.folder / self.packed_name) as out:
            out.write(lzma.compress(text.encode(), preset=9 | lzma.PRESET_EXTREME))
        counts = tuple(sum(row[1] == value for row in rows.values()) for value in VALUES)
        seconds = sum(float(row[2]) for row in rows.values())
        self.say(f"{said_counts(counts)} for the side to move, searched in {seconds:.0f} CPU seconds", self.out)
        require_published(self.openings, counts)
        return 0


def said_counts(counts: Sequence[int]) -> str:
    """How many openings are won, lost and drawn, in words."""
    return ", ".join(f"{count} {value}" for count, value in zip(counts, VALUES))


def require_published(openings: Openings, counts: Sequence[int]) -> None:
    """The counts are the published ones, where there are such."""
    published = None if openings.is_forced else PUBLISHED.get((openings.size, openings.men))
    if published and tuple(counts) != published:
        raise Unproved(f"the published counts are {said_counts(published)}, and these differ")


def read_values(path: pathlib.Path) -> Mapping[str, str]:
    """The values of a table, by the moves of its positions."""
    with files_told(path):
        head, *lines = path.read_text(encoding="ascii", errors="replace").splitlines()
    rows = [line.split(",") for line in lines]
    if head + "\n" != HEAD or any(len(row) != 2 or row[1] not in VALUES for row in rows):
        raise Fault(f"{os.fspath(path)} is no table of openings")
    return {moves: value for moves, value in rows}
