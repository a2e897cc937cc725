"""Each command of the program as a function, and `tools/solve` as one.

Each that runs a program takes besides, by keyword: `program`, its path, else the one that is found; `seconds` of
processor time, `clock`, seconds by the clock, and `memory`, in MiB, which it may take at most; and `tell`, which is
called with the seconds that are spent, now and then from two on.
"""

import contextlib
import itertools
import os
import pathlib
import subprocess
from collections.abc import Iterable, Iterator, Mapping
from dataclasses import dataclass
from typing import Any, BinaryIO, Optional, Union

from ._faults import Failed, Fault, OtherGame, files_told
from ._files import Path, Text, file_of, place_for
from ._games import LETTERS, Game, Size, require_game
from ._notation import read_game
from ._processes import Limits, answer, answer_from, run
from ._programs import find_program, find_solver

FORMATS = (b"victor 1\n", b"victor 2\n")
LONGEST_HEAD = 16  # bytes of a first line, and more
TAIL = 1 << 16  # bytes that hold the last lines of a proof
MOST_NODES = 10_000_000
MOST_REACH = 1_000_000


@dataclass(frozen=True)
class Proof:
    """What was written as a proof of a game's value, for the side to move. It shows nothing before `check` accepts it,
    and is a text in memory, or stands in the file that was named for it."""

    game: Game
    value: str  # win, loss, draw or unknown; empty where the text has no verdict
    lemmas: int
    text: str  # empty where there is a path
    status: int
    path: Optional[pathlib.Path] = None

    @property
    def source(self) -> Text:
        """Where the text stands: its path, or the text itself."""
        return self.path or self.text


@dataclass(frozen=True)
class Accepted:
    """What `check` says of a proof that it accepts."""

    value: str
    lemmas: int
    text: str
    status: int


@dataclass(frozen=True)
class Explanation:
    """What `explain` writes of a position: the instances of a plan, or none, and the text that says what each does."""

    plan: Optional[str]
    text: str
    status: int


@dataclass(frozen=True)
class Duel:
    """What `play` writes: for each of White's moves both squares, and how the game has ended: `won`, `full` or not."""

    turns: tuple[tuple[str, str], ...]
    end: str
    text: str
    status: int


@dataclass(frozen=True)
class Threat:
    """What `threat` writes: the group and the pairs of White's first odd threat, or none; then for each of Black's
    moves both squares, and whether White has made a line."""

    group: Optional[str]
    pairs: tuple[str, ...]
    turns: tuple[tuple[str, str], ...]
    won: bool
    text: str
    status: int


@dataclass(frozen=True)
class Following:
    """What `follow` writes: the holder's first move, or none; for each of the other side's moves both squares, of which
    the second is None where the first filled the board; and how the game has ended: `won`, `full` or not.
    """

    first: Optional[str]
    turns: tuple[tuple[str, Optional[str]], ...]
    end: str
    text: str
    status: int


@dataclass(frozen=True)
class Mark:
    """What `annotate` writes of a move: its number from 1, its square, and `ok`, `bad` or `open`."""

    number: int
    square: str
    word: str


@dataclass(frozen=True)
class Drill:
    """Of how many games the side to move wins, draws and loses, and of how many the value stayed unknown."""

    win: int
    draw: int
    loss: int
    unknown: int
    text: str
    status: int


def prove(
    game: Game,
    *,
    nodes: Optional[int] = None,
    reach: Optional[int] = None,
    front: Optional[int] = None,
    table: Optional[int] = None,
    version: Optional[int] = None,
    into: Optional[Path] = None,
    program: Optional[str] = None,
    **limits: Any,
) -> Proof:
    """The proof that `victor prove` writes, with status 5 and the value `unknown` where the budget was spent. With
    `into`, the path of a file, it is written there."""
    options = options_of(nodes=nodes, reach=reach, front=front, table=table, format=version)
    text = require_game(game).text()
    return written_proof("victor prove", [find_program(program), "prove", *options], game, text, into, (0, 5), limits)


def solve(
    game: Game,
    numbers: Optional[Mapping[str, int]] = None,
    *,
    book: Optional[Path] = None,
    tables: Iterable[Path] = (),
    into: Optional[Path] = None,
    program: Optional[str] = None,
    **limits: Any,
) -> Proof:
    """The proof that `tools/solve` writes, by tables of openings, and with its other options as numbers by their names.
    Behind half of the seconds it makes the proof no smaller."""
    words = [find_solver(program), "--quiet"]
    words += options_of(memory=limits.get("memory"), book=book, **(numbers or {}))
    words += [word for table in tables for word in options_of(table=table)]
    seconds = limits.get("seconds")
    words += ["--seconds", str(int(seconds / 2))] if seconds is not None else []
    return written_proof("solve", words, game, require_game(game).text(), into, (0,), limits)


def check(
    proof: Union[Proof, Text], game: Optional[Game] = None, *, program: Optional[str] = None, **limits: Any
) -> Accepted:
    """What `victor check` says of a proof, a text or a path, that it accepts; it is Failed where one is refused, with
    status 4. Where a game is given, the proof has to be about it, spelled the same."""
    source = proof.source if isinstance(proof, Proof) else proof
    game = game or (proof.game if isinstance(proof, Proof) else None)
    if game is not None:
        require_about(source, game)
    words = [find_program(program), "check"]
    status, text = answer("victor check", words, source, limits=Limits(**limits))
    said = text.split()
    if len(said) != 3 or said[0] != "accepted" or not said[2].isdecimal():
        raise Failed("victor check", status, "", text)
    return Accepted(said[1], int(said[2]), text, status)


def upgrade(proof: Proof, *, into: Optional[Path] = None, program: Optional[str] = None, **limits: Any) -> Proof:
    """What `victor upgrade` writes of a proof of the first version, which is one of the second. It is Failed where that
    is refused, with status 4. With `into`, the path of another file, it is written there.
    """
    words = [find_program(program), "upgrade"]
    return written_proof("victor upgrade", words, proof.game, proof.source, into, (0,), limits)


def trim(
    proof: Union[Proof, Text], into: Optional[Path] = None, *, program: Optional[str] = None, **limits: Any
) -> Proof:
    """A proof with those lemmas alone on which its verdict rests, as `victor trim` writes it; it is Failed where one is
    refused, with status 4."""
    source = proof.source if isinstance(proof, Proof) else proof
    with file_of(source) as lines:
        game = read_game(b"".join(itertools.islice(lines, 1, 3)).decode("ascii", "replace"))
    return written_proof("victor trim", [find_program(program), "trim"], game, source, into, (0,), limits)


def prove_by_move(game: Game, column: int, after: Proof, into: Optional[Path] = None) -> Proof:
    """A proof that the side to move wins, from one that the other side loses behind this move. Its lemmas are taken
    with the move before their paths, and the last one says that the move wins."""
    if after.value != "loss" or after.game.text() != game.after(column).text():
        raise Fault("this is no proof that the other side loses behind that move")
    letter, number, cited = LETTERS[column].encode(), 0, b""
    with place_for(into) as path:
        with file_of(after.source) as source, files_told(path), open(path, "wb") as out:
            out.write(source.readline() + game.text().encode())
            for line in itertools.islice(source, 2, None):
                words = line.split(b" ", 2)
                if words[0] == b"value":
                    cited = words[2].strip()
                elif words[0].isdigit():
                    number = int(words[0])
                    out.write(b" ".join((words[0], letter + words[1].replace(b"-", b""), words[2])))
            last = b"%d - %s+ one %s %s\n" % (number + 1, game.side.encode(), letter, cited)
            out.write(last + b"value win %d\n" % (number + 1))
        return proof_in(path, game, 0, into is not None)


def explain(game: Game, *, reach: Optional[int] = None, program: Optional[str] = None, **limits: Any) -> Explanation:
    """The plan of Black's that `victor explain` chooses, with status 5 where there is none within reach."""
    words = [find_program(program), "explain", *options_of(reach=reach)]
    status, text = answer("victor explain", words, require_game(game).text(), (0, 5), Limits(**limits))
    first = text.split("\n", 1)[0]
    return Explanation(first[5:] if first.startswith("plan ") else None, text, status)


def play(game: Game, plan: str, moves: Iterable[int], *, program: Optional[str] = None, **limits: Any) -> Duel:
    """What a plan answers to White's moves, which are columns. Where a move isn't legal, it is Failed with status 3,
    and has what was answered before."""
    text = f"{require_game(game).text()}plan {plan}\n{lines_of(moves)}"
    status, text = answer("victor play", [find_program(program), "play"], text, limits=Limits(**limits))
    turns = [line.split() for line in text.splitlines()]
    return Duel(tuple((words[0], words[1]) for words in turns), end_of(turns), text, status)


def threat(game: Game, moves: Iterable[int] = (), *, program: Optional[str] = None, **limits: Any) -> Threat:
    """White's first odd threat, with status 5 where there is none, and what it answers to Black's moves, which are
    columns. Where a move isn't legal, it is Failed with status 3, and has what was written before.
    """
    words = [find_program(program), "threat"]
    status, text = answer("victor threat", words, require_game(game).text() + lines_of(moves), (0, 5), Limits(**limits))
    if status == 5:
        return Threat(None, (), (), False, text, status)
    first, *turns = [line.split() for line in text.splitlines()]
    pairs = tuple((words[0], words[1]) for words in turns)
    return Threat(first[1], tuple(first[2:]), pairs, bool(end_of(turns)), text, status)


def follow(
    proof: Union[Proof, Text], holder: str, moves: Iterable[int] = (), *, program: Optional[str] = None, **limits: Any
) -> Following:
    """What the holder, `white` or `black`, plays by a proof, a text or a path, to the other side's moves, which are
    columns. It is Failed where the proof is refused or its verdict names no lemma for the holder, with status 4, and
    where a move isn't legal, with status 3 and what was answered before."""
    if holder not in ("white", "black"):
        raise Fault(f"who plays by a proof is white or black, and not {holder!r}")
    words = [find_program(program), "follow", holder]
    with lines_behind(proof.source if isinstance(proof, Proof) else proof, lines_of(moves)) as source:
        status, text = answer_from("victor follow", words, source, limits=Limits(**limits))
    turns = [line.split() for line in text.splitlines()]
    end = end_of(turns)
    first = turns.pop(0)[1] if turns and turns[0][0] == "-" else None
    return Following(first, tuple((mine, None if its == "-" else its) for mine, its, *_ in turns), end, text, status)


def annotate(
    game: Game,
    *,
    nodes: Optional[int] = None,
    reach: Optional[int] = None,
    last: Optional[int] = None,
    program: Optional[str] = None,
    **limits: Any,
) -> tuple[Mark, ...]:
    """For each of the last moves of a game, or for all, whether it keeps the value of the game."""
    words = [find_program(program), "annotate", *options_of(nodes=nodes, reach=reach, last=last)]
    _, text = answer("victor annotate", words, require_game(game).text(), limits=Limits(**limits))
    marks = (line.split() for line in text.splitlines())
    return tuple(Mark(int(number), square, word) for number, square, word in marks)


def drill(
    size: Iterable[int],
    moves: int,
    seed: int,
    games: int,
    *,
    nodes: Optional[int] = None,
    reach: Optional[int] = None,
    program: Optional[str] = None,
    **limits: Any,
) -> Drill:
    """How many of so many games from a seed, of at most so many moves, on a board of this size, have each value."""
    board = Size.of(tuple(size))
    numbers = [str(number) for number in (board.cols, board.rows, moves, seed, games)]
    words = [find_program(program), "drill", *numbers, *options_of(nodes=nodes, reach=reach)]
    status, text = answer("victor drill", words, b"", limits=Limits(**limits))
    win, draw, loss, unknown = (int(word) for word in text.split()[2:9:2])
    return Drill(win, draw, loss, unknown, text, status)


# What they share.


def options_of(**options: Union[int, float, Path, None]) -> list[str]:
    """The words of the options that are given."""
    return [word for name, value in options.items() if value is not None for word in (f"--{name}", str(value))]


def lines_of(moves: Iterable[int]) -> str:
    """A line for each of these columns."""
    return "".join(f"{LETTERS[column]}\n" for column in moves)


def end_of(turns: list[list[str]]) -> str:
    """How a game has ended, by the last of the lines that were written: `won`, `full` or not."""
    return turns[-1][2] if turns and len(turns[-1]) > 2 else ""


def written_proof(
    name: str,
    words: list[str],
    game: Game,
    text: Text,
    into: Optional[Path],
    good: Iterable[int],
    limits: dict[str, Any],
) -> Proof:
    """Runs what writes a proof of a game, and reads a text."""
    with place_for(into) as path:
        with file_of(text) as source, files_told(path), open(path, "wb") as out:
            status = run(name, words, source, out, good, Limits(**limits))
        return proof_in(path, game, status, into is not None)


def proof_in(path: pathlib.Path, game: Game, status: int, is_kept: bool) -> Proof:
    """The proof of a game that stands in a file, or its text where the file isn't kept."""
    require_about(path, game)
    words = [line.split() for line in tail_of(path)]
    value = next((line[1] for line in reversed(words) if line[:1] == ["value"] and len(line) > 1), "")
    lemmas = next((int(line[0]) for line in reversed(words) if line and line[0].isdecimal()), 0)
    if is_kept:
        return Proof(game, value, lemmas, "", status, path)
    return Proof(game, value, lemmas, path.read_bytes().decode("ascii", "replace"), status)


def tail_of(path: Path) -> list[str]:
    """The last lines of a file."""
    with files_told(path), open(path, "rb") as source:
        source.seek(max(0, source.seek(0, os.SEEK_END) - TAIL))
        return source.read().decode("ascii", "replace").split("\n")


def require_about(proof: Text, game: Game) -> None:
    """The first three lines of a proof are those of this game."""
    head = require_game(game).text().encode()
    with file_of(proof) as source:
        if source.readline(LONGEST_HEAD) not in FORMATS or source.read(len(head)) != head:
            raise OtherGame


@contextlib.contextmanager
def lines_behind(text: Text, lines: str) -> Iterator[BinaryIO]:
    """A file of one's own to read a text from and then these lines. A path's text isn't copied for it."""
    if not isinstance(text, os.PathLike):
        head = text if isinstance(text, bytes) else text.encode()
        feed = b"\n" if lines and not head.endswith(b"\n") else b""
        with file_of(head + feed + lines.encode()) as source:
            yield source
        return
    with files_told(text), open(text, "rb") as proof:
        proof.seek(max(0, proof.seek(0, os.SEEK_END) - 1))
        feed = b"\n" if lines and proof.read() != b"\n" else b""
    command = ["cat", "--", os.path.abspath(text), "-"]
    with file_of(feed + lines.encode()) as more, subprocess.Popen(
        command, stdin=more, stdout=subprocess.PIPE
    ) as joined:
        assert joined.stdout
        yield joined.stdout  # type: ignore[misc]
