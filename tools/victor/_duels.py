"""A game against the program as it was written by `play`, `threat` or `follow`, board by board. Nothing is checked."""

from collections.abc import Sequence
from typing import Optional

from ._faults import Fault
from ._games import OTHER, ROWS, Game, Size, Square, name_of, square_of
from ._plans import group_of

Turn = tuple[list[Square], list[str]]  # the squares of a turn, and the words of its line


class Shown:
    """What `play`, `threat` or `follow` wrote: the board, and for each moment men, the new ones, and a caption.

    Without a game the men below the first squares are `?`, and lines of four win where no size says another length. Of
    a threat the squares of its pairs have their number, and the target, which a game tells, has a star.
    """

    def __init__(self, text: str, game: Optional[Game], size: Optional[Size], by: str = "a plan") -> None:
        lines = text.replace("\r", "").rstrip("\n").split("\n")
        if lines == ["no threat"]:
            raise Fault("there is no threat to draw")
        self.by, self.threat = (by, lines.pop(0) if lines[0].startswith("threat ") else "")
        length = game.size.length if game else size.length if size else 4
        group, pairs = read_threat(self.threat, length) if self.threat else ([], [])
        ends: tuple[list[str], ...] = ([], ["won"]) if self.threat else ([], ["won"], ["full"])
        turns = read_turns(lines, 2 if self.threat else 1, ends)
        if game is None and turns and len(turns[0][0]) == 1:
            raise Fault("whose first move it is, the game says (--game names it, or the proof)")
        lowest = [square for squares, _ in turns for square in squares] + [square for pair in pairs for square in pair]
        self.size, men = (game.size, dict(game.men)) if game else board_of(lowest, size)
        self.marks = {square: str(n) for n, pair in enumerate(pairs, 1) for square in pair}
        if self.threat and game is not None:
            self.marks[self.target(group, game)] = "*"
        self.shown: list[tuple[dict[Square, str], tuple[Square, ...], str]] = [(dict(men), (), "the start")]
        self.play(men, turns, game)

    def target(self, group: Sequence[Square], game: Game) -> Square:
        """The square that a threat's group lacks."""
        lacking = [square for square in group if square not in game.men]
        if len(lacking) != 1 or any(square in game.men for square in self.marks):
            raise Fault("the threat isn't one of this game's position")
        return lacking[0]

    def play(self, men: dict[Square, str], turns: Sequence[Turn], game: Optional[Game]) -> None:
        """Shows each turn."""
        side = game.side if game else "B" if self.threat else "W"
        for n, (squares, words) in enumerate(turns, 1):
            for square in squares:
                if not self.is_playable(square, men):
                    named = "" if game else " (--game names the game)"
                    raise Fault(f"turn {n}: {name_of(square)} isn't playable there{named}")
                men[square], side = side, OTHER[side]
            self.shown.append((dict(men), tuple(squares), f"{n}.  {'  '.join(words)}"))

    def is_playable(self, square: Square, men: dict[Square, str]) -> bool:
        """A man may fall on this square."""
        i, r = square
        return i < self.size.cols and r <= self.size.rows and square not in men and (r == 1 or (i, r - 1) in men)

    def title(self) -> str:
        """What is shown."""
        turns = len(self.shown) - 1
        return f"{turns} turns by {self.threat}" if self.threat else f"a duel of {turns} turns by {self.by}"


def read_threat(line: str, length: int) -> tuple[list[Square], list[tuple[Square, Square]]]:
    """The squares of a threat's group and its pairs, from the first line that `threat` writes."""
    words = line.split(" ")
    group = group_of(words[1], length) if len(words) > 1 else None
    pairs = []
    for word in words[2:]:
        squares = [square for square in map(square_of, word[3:].split(",")) if square]
        if word[:3] == "BI:" and len(squares) == 2 and word.count(",") == 1:
            pairs.append((squares[0], squares[1]))
    if group is None or len(pairs) < len(words[2:]):
        raise Fault(f"line 1 isn't what `threat` writes: {line!r}")
    return group, pairs


def read_turns(lines: Sequence[str], first: int, ends: Sequence[list[str]]) -> list[Turn]:
    """The turns. The first line has this number. Of `follow` the first turn may be the second square alone, behind a
    `-`, and the last one the first, before a `-`, where it fills the board."""
    turns = []
    for n, line in enumerate(lines, first):
        words = line.split(" ")
        names = words[:2]
        if n == 1 and words[0] == "-":
            names = words[1:2]
        elif n == first + len(lines) - 1 and words[1:] == ["-", "full"]:
            names = words[:1]
        squares = [square for square in map(square_of, names) if square]
        if len(words) not in (2, 3) or len(squares) < len(names) or words[2:] not in ends:
            raise Fault(f"line {n} isn't what `play`, `threat` or `follow` writes: {line!r}")
        turns.append((squares, words))
    return turns


def board_of(lowest: Sequence[Square], size: Optional[Size]) -> tuple[Size, dict[Square, str]]:
    """The board of a duel without a game, and the men below the first squares."""
    cols = max([4] + [i + 1 for i, _ in lowest])
    rows = min((r for r in ROWS if r >= max((row for _, row in lowest), default=4)), default=None)
    if rows is None or cols > 10:
        raise Fault("the squares are those of no board")
    if size and (cols > size.cols or rows > size.rows):
        raise Fault("a square of the duel isn't on this board")
    size = size or Size(cols, rows)
    men = {}
    for i in range(size.cols):
        low = min((r for k, r in lowest if k == i), default=1)
        men.update({(i, r): "?" for r in range(1, low)})
    return size, men
