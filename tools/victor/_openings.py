"""The openings: positions with a few men in which nobody wins at once and no move is forced, one of each pair of mirror
images. From these and the ones in which a move is forced all positions with fewer men follow."""

import functools
import operator
from collections.abc import Iterable, Iterator
from typing import NamedTuple

from ._faults import Fault
from ._games import LETTERS, USUAL, Game, Size, columns_of

LEAST_MEN, MOST_MEN = 4, 10
MEN = 8
HEAD = "moves,value\n"
VALUES = ("win", "loss", "draw")
# How many are won, lost and drawn for the side to move, by John Tromp's table in the UCI repository.
PUBLISHED = {(USUAL, 8): (44_473, 16_635, 6_449)}
Units = dict[str, list[str]]


class Grid:
    """A board as numbers: each column has a bit for each row, and a spare one above them."""

    def __init__(self, size: Size) -> None:
        self.cols, self.height, self.length = size.cols, size.rows + 1, size.length
        self.columns = [((1 << size.rows) - 1) << (c * self.height) for c in range(size.cols)]
        self.bottom = sum(1 << (c * self.height) for c in range(size.cols))
        self.full = sum(self.columns)
        steps = (1, self.height - 1, self.height, self.height + 1)
        squares = [1 << place for place in range(size.cols * self.height) if self.full >> place & 1]
        lines = [[square << n * step for n in range(self.length)] for square in squares for step in steps]
        self.lines: dict[int, list[int]] = {square: [] for square in squares}  # that a square is of
        for line in lines:
            if all(square & self.full for square in line):
                for square in line:
                    self.lines[square].append(functools.reduce(operator.or_, line))

    def places(self, men: int) -> list[int]:
        """The lowest empty square of each column that isn't full."""
        squares = (men + self.bottom) & self.full
        return [squares & column for column in self.columns if squares & column]

    def makes_line(self, men: int, square: int) -> bool:
        """A man on this square makes a line with these."""
        men |= square
        return any(men & line == line for line in self.lines[square])

    def key(self, moves: Iterable[int]) -> int:
        """A number of the position after moves, which no other one has: the smaller of its own and its image's."""
        men, white = 0, 0
        for n, column in enumerate(moves):
            square = (men + self.bottom) & self.columns[column]
            men, white = men | square, white if n % 2 else white | square
        return min(white + men, self.mirrored(white + men))

    def mirrored(self, key: int) -> int:
        """The key of a position as that of its mirror image."""
        column, image = (1 << self.height) - 1, 0
        for _ in range(self.cols):
            image = image << self.height | key & column
            key >>= self.height
        return image


class Openings(NamedTuple):
    """The openings of a board with so many men; or the positions beside them that aren't decided at once, in which one
    move is forced."""

    size: Size = USUAL
    men: int = MEN
    is_forced: bool = False

    @classmethod
    def of(cls, size: Size, men: int, is_forced: bool = False) -> "Openings":
        """Those that are asked for, where there are such."""
        if not LEAST_MEN <= men <= MOST_MEN:
            raise Fault(f"openings have from {LEAST_MEN} to {MOST_MEN} men")
        return cls(size, men, is_forced)

    def __str__(self) -> str:
        return f"{self.size.word} with {self.men} men{', forced' if self.is_forced else ''}"

    def game(self, moves: str) -> Game:
        """The game of these moves, or `-` for none."""
        return Game(self.size, columns_of(moves))

    def require(self, game: Game) -> None:
        """The game has come to one of these."""
        grid, men = Grid(self.size), {"W": 0, "B": 0}
        for (column, row), side in game.men.items():
            men[side] |= 1 << (column * grid.height + row - 1)
        own, other = (men["W"], men["B"]) if game.side == "W" else (men["B"], men["W"])
        if len(game.moves) != self.men or game.line or not self.has(grid, own, other):
            raise Fault(f"the position after {game.letters()} is no opening of {self}")

    def listed(self) -> list[str]:
        """All of them in order, by the first moves in alphabetical order that lead there, each for itself and its
        mirror image."""
        return list(self.reached(Grid(self.size), "", 0, 0, set()))

    def reached(self, grid: Grid, moves: str, own: int, other: int, seen: set[int]) -> Iterator[str]:
        """Those that moves lead to from a position, with the men of the side to move and the other's, but for what was
        seen before."""
        men = own | other
        if len(moves) == self.men:
            if self.has(grid, own, other):
                yield moves
            return
        for square in grid.places(men):
            key = (other if len(moves) % 2 else own | square) + (men | square)
            if key not in seen and not grid.makes_line(own, square):
                seen.update((key, grid.mirrored(key)))
                letter = LETTERS[(square.bit_length() - 1) // grid.height]
                yield from self.reached(grid, moves + letter, other, own | square, seen)

    def has(self, grid: Grid, own: int, other: int) -> bool:
        """A position is one of these, with the men of the side to move and the other's."""
        places = grid.places(own | other)
        if any(grid.makes_line(own, square) for square in places):
            return False
        forced = [square for square in places if grid.makes_line(other, square)]
        if not self.is_forced:
            return not forced
        above = forced[0] << 1 & grid.full if len(forced) == 1 else 0
        return len(forced) == 1 and not (above and grid.makes_line(other, above))


def units_of(names: Iterable[str], at: int) -> Units:
    """Openings by their first moves, of which there are so many: each unit has an ancestor in common."""
    made: Units = {}
    for moves in names:
        made.setdefault(moves[:at] or "-", []).append(moves)
    return made
