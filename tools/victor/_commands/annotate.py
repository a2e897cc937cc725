"""Says of each move of a game what it was worth, which move was best, and in how many moves the game ends with best
play. The engine searches that, within so many seconds for the game, the last moves first; what victor annotate has
shown of a move is marked as proved."""

import argparse
import json
from collections.abc import Sequence
from dataclasses import dataclass
from typing import Any, Optional

from .. import _programs as programs, _prover as prover
from .._answers import VERBS, rank_of
from .._engine import Engine, Found, Searched
from .._faults import Fault
from .._games import LETTERS, OTHER, SIDES, Game
from .._notation import asked_game
from .._sentences import count_of, joined
from .options import PROGRAM, Parser, size_of, write

COMMON = ("position", "--board", "--solver", *PROGRAM, "--json", "--out")
STATUS = "Status: 0; 5 where the value of a move stayed unknown; 2 where it is no game or there is no engine."
EXAMPLE = "tools/lab annotate eefddgbfadfeaafcebdfbbgdcefe"
SECONDS = 10.0  # of processor time for a game
NODES = 20_000  # of each position that victor annotate searches
WIDE, HIGH, EDGE = 640, 220, 60
GRAPH_STYLE = "text{font:13px DejaVu Sans,Verdana,sans-serif;fill:#444}"


def add_options(parser: Parser) -> None:
    """The options of this subcommand alone."""
    parser.add_argument("--seconds", type=float, default=SECONDS, metavar="S", help="CPU seconds (%(default)s)")
    parser.add_argument("--graph", metavar="FILE", help="draw how the game stood, as SVG")


@dataclass(frozen=True)
class Note:
    """A move of a game: its number from 1, its square, what it was worth for the side that made it, the best moves
    there, what `victor annotate` says of it, and the position before it."""

    number: int
    square: str
    before: Game
    made: Optional[Found]
    best: tuple[Found, ...]
    mark: str

    @property
    def is_mistake(self) -> Optional[bool]:
        """The move gave something away; None where that isn't known."""
        if self.mark != "open":
            return self.mark == "bad"
        return self.best[0].value != self.made.value if self.made and self.best else None

    def line(self) -> str:
        """The move in a line."""
        head = f"{self.number}. {self.square}".ljust(8)
        is_proved, verdict = self.mark != "open", "a mistake" if self.is_mistake else "no mistake"
        if self.made:
            how = "proved" if is_proved else "searched"
            return f"{head}{told(self.made)}{self.better()}{f'; a mistake ({how})' if self.is_mistake else ''}"
        return f"{head}{f'{verdict} (proved)' if is_proved else 'not searched in time'}"

    def better(self) -> str:
        """Which moves are better, or the only best one."""
        if not self.made or not self.best or any(one.column == self.made.column for one in self.best):
            return ""
        letters = [LETTERS[one.column or 0] for one in self.best]
        return f", where {joined(letters)} {VERBS[self.best[0].value][len(letters) > 1]}{ending(self.best[0])}"

    def data(self) -> dict[str, Any]:
        """The same as data."""
        return {
            "number": self.number,
            "square": self.square,
            "side": SIDES[self.before.side],
            "value": self.made.value if self.made else "unknown",
            "moves_to_end": self.made.moves_to_end if self.made else None,
            "best": [LETTERS[one.column or 0] for one in self.best],
            "best_value": self.best[0].value if self.best else "unknown",
            "mistake": self.is_mistake,
            "proved": self.mark != "open",
        }


def told(found: Found) -> str:
    """A value with the moves to the end."""
    return f"{VERBS[found.value][0]}{ending(found)}"


def ending(found: Found) -> str:
    """In how many moves the game ends, where that is known."""
    return "" if found.moves_to_end is None else f" in {count_of(found.moves_to_end, 'move')}"


def searched_positions(engine: Engine, positions: Sequence[Game], seconds: float) -> list[Searched]:
    """What the engine finds of positions within so many seconds in all, of the last ones first."""
    found, left = [Searched() for _ in positions], seconds
    for k in range(len(positions) - 1, -1, -1):
        spent: list[float] = []
        found[k] = engine.search(positions[k], scores=True, seconds=max(left, 0.01), note=spent.append)
        left -= sum(spent)
        if left <= 0:
            break
    return found


def best_of(found: Searched, before: Game) -> tuple[Found, ...]:
    """The best of the moves, where they are known."""
    moves = sorted(found.moves.values(), key=rank_of)
    is_known = bool(moves) and (moves[0].value == "win" or len(moves) == len(before.open_columns()))
    return tuple(one for one in moves if rank_of(one) == rank_of(moves[0])) if is_known else ()


def notes_of(game: Game, engine: Engine, program: str, seconds: float) -> list[Note]:
    """A note on each move."""
    positions = [Game(game.size, game.moves[:k]) for k in range(len(game.moves))]
    marks = prover.annotate(game, nodes=NODES, program=program)
    found = searched_positions(engine, positions, seconds)
    return [
        Note(mark.number, mark.square, before, one.moves.get(column), best_of(one, before), mark.word)
        for mark, before, one, column in zip(marks, positions, found, game.moves)
    ]


def height_of(note: Note, squares: int) -> Optional[float]:
    """How the game stood after a move, from 1, where White wins at once, to -1; a draw is 0."""
    if not note.made:
        return None
    if note.made.value == "draw":
        return 0.0
    near = 0.7 if note.made.moves_to_end is None else 1 - 0.6 * min(1.0, note.made.moves_to_end / squares)
    side = note.before.side if note.made.value == "win" else OTHER[note.before.side]
    return near if side == "W" else -near


def graph_of(game: Game, notes: Sequence[Note]) -> str:
    """How the game stood after each move, as SVG. A mistake is marked."""
    squares, step = game.size.cols * game.size.rows, (WIDE - EDGE - 12) / max(len(notes), 1)
    pieces = [f'<rect width="{WIDE}" height="{HIGH}" fill="#ffffff"/>']
    for value, words in ((1, "White wins"), (0, "a draw"), (-1, "Black wins")):
        y = level(value)
        pieces.append(f'<path d="M{EDGE + 20} {y:g}H{WIDE}" stroke="#cccccc"/><text x="2" y="{y + 4:g}">{words}</text>')
    points = [(EDGE + 20 + k * step, height_of(note, squares), note) for k, note in enumerate(notes)]
    known = [(x, level(height), note) for x, height, note in points if height is not None]
    path = " ".join(f"{x:.1f},{y:.1f}" for x, y, _ in known)
    pieces.append(f'<polyline points="{path}" fill="none" stroke="#0b4f9e" stroke-width="2"/>')
    for x, y, note in known:
        size, fill = (7, "#b01818") if note.is_mistake else (4, "#0b4f9e")
        title = f"<title>{note.number}. {note.square}</title>"
        pieces.append(f'<circle cx="{x:.1f}" cy="{y:.1f}" r="{size}" fill="{fill}">{title}</circle>')
    head = f'<svg xmlns="http://www.w3.org/2000/svg" viewBox="0 0 {WIDE} {HIGH}" width="{WIDE}" height="{HIGH}">'
    return f"{head}<style>{GRAPH_STYLE}</style>{''.join(pieces)}</svg>\n"


def level(value: float) -> float:
    """How high a value stands in the graph."""
    return HIGH / 2 - value * (HIGH / 2 - 24)


def run(words: argparse.Namespace) -> int:
    """Writes a line on each move, or all as data."""
    game, program = asked_game(words.position, size_of(words)), programs.find_program(words.victor)
    if not game.moves:
        raise Fault("the game has no move")
    if not 0 < words.seconds < float("inf"):
        raise Fault("--seconds takes a number above 0")
    engine = programs.engine_path(words.solver)
    if not engine:
        raise Fault(programs.MAKE_ENGINE)
    with Engine(engine) as warm:
        notes = notes_of(game, warm, program, words.seconds)
    if words.graph:
        write(graph_of(game, notes), words.graph)
    data = {"game": game.letters(), "size": game.size.word, "moves": [note.data() for note in notes]}
    lines = json.dumps(data) if words.json else "\n".join(note.line() for note in notes)
    write(f"{lines}\n", words.out)
    return 5 if any(note.made is None for note in notes) else 0
