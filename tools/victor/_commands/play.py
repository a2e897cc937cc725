"""Plays Connect Four in a terminal, or over a pipe, against a plan, with White for you, or against a whole proof:
victor play or victor follow answers. A column is typed as a letter or as a number from 1. White never gets a line
against a plan, nor you against a proof. v says what each move is worth, searched by the engine and not proved."""

import argparse
import contextlib
import functools
import itertools
import os
import pathlib
import sys
from collections.abc import Collection, Sequence
from typing import Optional, Protocol

from .. import _programs as programs, _prover as prover
from .._answers import said_of_moves_found
from .._engine import Engine, is_searchable
from .._faults import Failed, Fault, Unproved, files_told
from .._files import read_input, write_text
from .._games import LETTERS, OTHER, SIDES, Game, Size, Square, grid_text, lines_with, name_of, square_of
from .._notation import named_game, read_game, read_position
from .._plans import RULES, zone_of
from .._programs import find_program
from .._proofs import verdict_of
from .._prover import MOST_REACH
from .._sentences import line_name, listed
from .options import PROGRAM, Parser, size_of, teller

COMMON = ("--board", "--reach", *PROGRAM)
STATUS = (
    "Status: 0 where the game was played or left, 2 where there is no game, no plan or no proof, 1 where the program "
    "failed or its answer can't be played."
)
EXAMPLE = "tools/lab play --board 4x4"
LONGEST_SHOWN = 20
SEARCH_SECONDS = 30  # of processor time, for what each move is worth
MEN = {"W": "\033[1;33m", "B": "\033[1;36m"}
NEW, PLAIN = "\033[7m", "\033[0m"


def add_options(parser: Parser) -> None:
    """The options of this subcommand alone."""
    parser.add_argument(
        "game",
        nargs="?",
        help="where it begins: moves, or a file, which may have a plan behind the text of a game (the empty board of 6 "
        "by 6)",
    )
    parser.add_argument("--moves", metavar="MOVES", help="the moves so far, where no game is named (none)")
    parser.add_argument("--plan", metavar="FILE", help="a file with the plan; else `victor explain` gives one")
    parser.add_argument("--proof", metavar="FILE", help="a proof to play against, from its own position")
    parser.add_argument(
        "--side",
        choices=("white", "black"),
        help="your side against a proof (the one that doesn't win; of a draw the one to move)",
    )
    parser.add_argument("--keep", metavar="FILE", help="keep the game's text in this file at the end")


class Unplayed(Unproved):
    """The program's answer can't be played."""


class Slip(Exception):
    """What was typed is no move; the text says why."""


# Players. Each answer is the program's, which plays the whole game again: so none is kept running, and moves can be
# taken back.


class Player(Protocol):
    """Who answers: its side, what is told at the start, its first move where it has one, and its answers, each with the
    reason."""

    side: str
    said: str

    def first(self) -> Optional[Square]:
        ...

    def answer(self, columns: Sequence[int]) -> Square:
        ...

    def reason(self, square: Square) -> str:
        ...


class PlanPlayer:
    """Answers for Black by a plan."""

    side = "B"

    def __init__(self, program: str, start: Game, members: Sequence[str]) -> None:
        self.program, self.start, self.members = program, start, members
        self.said = f"Black answers by a plan: {' '.join(members)}"
        self.require_plan()

    def turns(self, columns: Sequence[int]) -> tuple[tuple[str, str], ...]:
        """What `victor play` answers to these moves of White's."""
        return prover.play(self.start, " ".join(self.members), columns, program=self.program).turns

    def require_plan(self) -> None:
        """The members are a plan at the start."""
        try:
            self.turns([])
        except Failed as fault:
            if fault.status not in (3, 4):
                raise
            raise Fault(f"this is no plan there: {fault.text}") from fault

    def first(self) -> Optional[Square]:
        """No move of its own comes first: a plan answers."""
        return None

    def answer(self, columns: Sequence[int]) -> Square:
        """Black's square after these moves of White's."""
        turns = self.turns(columns)
        return answered("play", turns[-1][1] if len(turns) == len(columns) else "", columns)

    def reason(self, square: Square) -> str:
        """Which instance owns this square of White's, and so gave the answer."""
        owners = (member for member in self.members if square in zone_of(member))
        return next((f"{RULES[member[:2]]}, the zone of {member}" for member in owners), "")


class ProofPlayer:
    """Answers by a whole proof, for a side that it serves."""

    def __init__(self, program: str, path: pathlib.Path, side: str) -> None:
        self.program, self.path, self.side = program, path, side
        self.first_square = self.follow([]).first
        self.said = f"{SIDES[side]} answers by the proof {path}."

    def follow(self, columns: Sequence[int]) -> prover.Following:
        """What `victor follow` answers to these moves of the other side's."""
        try:
            return prover.follow(self.path, SIDES[self.side].lower(), columns, program=self.program)
        except Failed as fault:
            if fault.status not in (3, 4) or columns:
                raise
            if fault.text.endswith(": NoClaim\n"):
                raise Fault(f"the proof {self.path} has no lemma for {SIDES[self.side]}") from fault
            raise Fault(f"{self.path} is no proof that can be followed: {fault.text}") from fault

    def first(self) -> Optional[Square]:
        """Its first move, where it has one."""
        return square_of(self.first_square) if self.first_square else None

    def answer(self, columns: Sequence[int]) -> Square:
        """The square after these moves of the other side's."""
        turns = self.follow(columns).turns
        return answered("follow", turns[-1][1] or "" if len(turns) == len(columns) else "", columns)

    def reason(self, square: Square) -> str:
        """A lemma says nothing of its squares."""
        return ""


def answered(command: str, name: str, columns: Sequence[int]) -> Square:
    """The square of an answer."""
    square = square_of(name)
    if square is None:
        raise Unplayed(f"victor {command} has written no answer to the last of {len(columns)} moves")
    return square


def player_of(words: argparse.Namespace, program: str, start: Game, given: Optional[list[str]]) -> Player:
    """The player that the arguments ask for."""
    if words.proof:
        return ProofPlayer(program, pathlib.Path(words.proof), served_side(words, start))
    return PlanPlayer(program, start, given or explained_plan(program, start, words.reach))


def served_side(words: argparse.Namespace, start: Game) -> str:
    """The side that plays by the proof: the one that you don't have, else the one that wins, or for a draw the one that
    isn't to move."""
    if words.side:
        return "B" if words.side == "white" else "W"
    return start.side if verdict_of(words.proof)[0] == "win" else OTHER[start.side]


def explained_plan(program: str, start: Game, reach: int) -> list[str]:
    """The instances of the plan that `victor explain` gives."""
    explained = prover.explain(start, reach=reach, program=program)
    if explained.plan:
        return explained.plan.split(" ")
    place = f"after {start.letters()} on {start.size}"
    if start.is_over:
        raise Fault(f"the game has ended {place}")
    if start.side == "B":
        raise Fault(f"Black is to move {place}, and a plan answers moves of White's")
    if explained.text.startswith("no plan within reach"):
        raise Fault(f"explain finds no plan {place} in its reach of {reach}: --reach takes up to {MOST_REACH}")
    raise Fault(f"there is no plan {place}: play from another position, or on another board")


# What is told.


def is_coloured() -> bool:
    """Men are shown in colours."""
    return sys.stdout.isatty() and not os.environ.get("NO_COLOR") and os.environ.get("TERM", "dumb") != "dumb"


def board_text(game: Game, colours: bool, new: Collection[Square] = ()) -> str:
    """The board with letters below it. With colours the new men stand out."""

    def entry(square: Square) -> str:
        man = game.men.get(square, ".")
        if not colours or man == ".":
            return man
        return MEN[man] + (NEW if square in new else "") + man + PLAIN

    return "\n".join(grid_text(game.size, entry)) + "\n"


def closed_line(game: Game, square: Square) -> Optional[list[Square]]:
    """The line that the player's new man closes and that has most men of the other side's, or None where it closes none
    with one."""
    found, most, side = None, 0, game.men[square]
    for line in lines_with(game.size, square):
        men = [man for man in map(game.men.get, line) if man]
        if men.count(side) == 1 and len(men) - 1 > most:
            found, most = line, len(men) - 1
    return found


def answer_text(game: Game, mine: Square, its: Square, reason: str) -> str:
    """What is said of a turn, at the position after it."""
    side = game.men[mine]
    said = f"{SIDES[side]} {name_of(mine)}, {SIDES[game.men[its]]} {name_of(its)}{f' ({reason})' if reason else ''}."
    line = closed_line(game, its)
    if line:
        there = listed([square for square in line if game.men.get(square) == side])
        said += f"\nSo the {line_name(line)}, in which {SIDES[side]} has {there}, never gets whole."
    return said


def end_text(game: Game, side: str) -> str:
    """Who got what. The person has this side."""
    if game.line:
        return f"{SIDES[OTHER[game.side]]} has a line, {' '.join(map(name_of, game.line))}, and wins."
    if game.is_over:
        return "The board is full and no side has a line: a draw."
    return f"The game isn't over: {side} has no line yet."


def column_of(word: str, game: Game) -> int:
    """The column that was typed, a letter or a number from 1."""
    cols = game.size.cols
    wanted = f"a to {LETTERS[cols - 1]}, or 1 to {cols}"
    if not word:
        raise Slip(f"type a column: {wanted}")
    if word.isascii() and word.isdigit() and len(word) <= 2:
        column = int(word) - 1 if word != "0" else 9
    else:
        column = LETTERS.find(word.lower()) if len(word) == 1 else -1
    if not 0 <= column < cols:
        shown = word if len(word) <= LONGEST_SHOWN else word[:LONGEST_SHOWN] + ".."
        raise Slip(f"{shown!a} is no column of this board: {wanted}")
    if game.heights[column] == game.size.rows:
        raise Slip(f"column {LETTERS[column]} is full")
    return column


# The game.


class Table:
    """A game against a player. The columns of a turn are the person's and the player's; the player's first move, where
    it has one, comes before them."""

    def __init__(self, prog: str, start: Game, player: Player, engine: Optional[Engine]) -> None:
        self.prog, self.start, self.player, self.game = prog, start, player, start
        self.engine = engine
        self.first: list[int] = []
        self.turns: list[tuple[int, ...]] = []
        self.side = SIDES[OTHER[player.side]]
        self.colours = is_coloured()

    def replay(self) -> None:
        """The game as it stands by the turns."""
        self.game = Game(self.start.size, [*self.start.moves, *self.first, *itertools.chain(*self.turns)])

    def drop(self, square: Square) -> None:
        """Plays the player's man on its square."""
        try:
            after = self.game.after(square[0])
        except Fault as fault:
            raise Unplayed(f"the answer {name_of(square)} can't be played: {fault}") from fault
        if square not in after.men or square in self.game.men:
            raise Unplayed(f"the answer {name_of(square)} hangs or is taken")
        self.game = after

    def begin(self) -> None:
        """The player's first move, where it has one, which is told."""
        square = self.player.first()
        if square:
            self.drop(square)
            self.first = [square[0]]
            print(f"{SIDES[self.player.side]} begins with {name_of(square)}.")
        self.show((square,) if square else ())

    def show(self, new: Collection[Square] = ()) -> None:
        """Shows the board."""
        print(board_text(self.game, self.colours, new))

    def turn(self, column: int) -> None:
        """A move and the player's answer, which is told."""
        mine = self.game.next_square(column)
        self.game = self.game.after(column)
        if self.game.is_over:
            self.turns.append((column,))
            self.show((mine,))
            return
        its = self.player.answer([turn[0] for turn in self.turns] + [column])
        self.drop(its)
        self.turns.append((column, its[0]))
        print(answer_text(self.game, mine, its, self.player.reason(mine)))
        self.show((mine, its))

    def take_back(self) -> None:
        """Takes back a turn."""
        if not self.turns:
            raise Slip("there is no move to take back")
        self.turns.pop()
        self.replay()
        self.show()

    def tell_values(self) -> None:
        """Says what the engine finds of each move."""
        if not self.engine or not is_searchable(self.game.size):
            raise Slip("the engine takes no board of this size" if self.engine else programs.MAKE_ENGINE)
        tell = functools.partial(teller(self.prog), "engine", f" of {SEARCH_SECONDS}", self.game)
        try:
            found = self.engine.search(self.game, scores=True, seconds=SEARCH_SECONDS, tell=tell)
        except Failed as fault:
            raise Slip(str(fault)) from fault
        if not found.moves:
            raise Slip(f"the engine found nothing within {SEARCH_SECONDS} seconds")
        print(f"{said_of_moves_found(found)}.")

    def ask(self) -> Optional[str]:
        """What was typed, in small letters, or None where there is no more."""
        last = LETTERS[self.game.size.cols - 1]
        print(f"{self.side}'s column (a-{last}; u takes back, v values, q ends): ", end="", flush=True)
        line = sys.stdin.buffer.readline().decode("utf-8", "replace")
        if not sys.stdin.isatty() or not line:
            print(line.rstrip("\r\n").encode("ascii", "replace").decode("ascii"))
        return line.strip().lower() if line else None

    def play(self) -> None:
        """Plays until the game is over, or the person has enough."""
        print(self.player.said)
        self.begin()
        while not self.game.is_over:
            word = self.ask()
            if word is None or word in ("q", "quit"):
                break
            try:
                if word == "u":
                    self.take_back()
                elif word == "v":
                    self.tell_values()
                else:
                    self.turn(column_of(word, self.game))
            except Slip as slip:
                print(f"{slip}.")

    def end(self) -> None:
        """Who got what, and the game as text."""
        self.replay()
        print(end_text(self.game, self.side))
        print(self.game.text(), end="", flush=True)


def plan_line(text: str) -> list[str]:
    """The instances of the first line of a plan in a text."""
    for line in text.replace("\r", "").split("\n"):
        if line.startswith("plan "):
            return line.split()[1:]
    raise Fault("there is no line that begins with `plan `")


def read_start(words: argparse.Namespace) -> tuple[Game, Optional[list[str]]]:
    """The game, and the instances of a plan where one is given. A proof has its own game."""
    if words.proof:
        if words.game or words.board or words.moves or words.plan:
            raise Fault("the proof names the game, so nothing else can")
        with files_told(words.proof), open(words.proof, "rb") as source:
            return (read_game(b"".join(itertools.islice(source, 1, 3)).decode("ascii", "replace")), None)
    if words.side:
        raise Fault("a plan is Black's, so you have White; --side is for a proof")
    given = plan_line(read_input(words.plan)) if words.plan else None
    if words.game is None:
        return read_position(words.moves or "-", size_of(words) or Size(6, 6)), given
    if words.moves:
        raise Fault("the game is named, so --moves can't name one")
    start, text = named_game(words.game, size_of(words))
    return start, given or (plan_line(text) if "\nplan " in text else None)


def run(words: argparse.Namespace) -> int:
    """A game to its end, also where it is broken off."""
    if not 0 <= words.reach <= MOST_REACH:
        raise Fault(f"--reach takes a number from 0 to {MOST_REACH}")
    start, given = read_start(words)
    path = programs.engine_path()
    with contextlib.ExitStack() as kept:
        engine = kept.enter_context(Engine(path)) if path else None
        table = Table(words.prog, start, player_of(words, find_program(words.victor), start, given), engine)
        try:
            table.play()
        except KeyboardInterrupt:
            print()
    table.end()
    if words.keep:
        write_text(words.keep, table.game.text())
    return 0
