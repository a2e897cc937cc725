"""A game: a board, the moves so far, and the position after them.

A column is a number from 0 at the left, a row from 1 at the bottom, and a square the pair of both. White moves first.
"""

import types
from collections.abc import Iterable, Iterator, Mapping, Sequence
from typing import Any, Callable, NamedTuple, Optional

from ._faults import Fault

Square = tuple[int, int]
LETTERS = "abcdefghij"
COLUMNS = range(4, 11)
ROWS = (4, 6, 8, 10)
LENGTHS = {4: "four", 5: "five"}
WAYS = {"h": (1, 0), "v": (0, 1), "u": (1, 1), "d": (1, -1)}
SIDES = {"W": "White", "B": "Black"}
OTHER = {"W": "B", "B": "W"}


class Size(NamedTuple):
    """How many columns and rows a board has, and how many men in a line win."""

    cols: int
    rows: int
    length: int = 4

    def __str__(self) -> str:
        return f"{self.cols} by {self.rows}{'' if self.length == 4 else ' with lines of five'}"

    @property
    def word(self) -> str:
        """The size as an option takes it, as 7x6, or 8x6x5 where lines of five win."""
        return f"{self.cols}x{self.rows}{'' if self.length == 4 else 'x5'}"

    @classmethod
    def of(cls, numbers: Sequence[int]) -> "Size":
        """The size of these numbers, where a board has it."""
        if len(numbers) not in (2, 3):
            raise Fault(f"{numbers!r} is no board: columns, rows, and 5 where lines of five win")
        size = cls(*numbers)
        if size.cols not in COLUMNS or size.rows not in ROWS:
            raise Fault(
                f"no board has {size.cols} columns and {size.rows} rows: 4 to 10 columns, and 4, 6, 8 or 10 rows"
            )
        if size.length not in LENGTHS:
            raise Fault(f"no board has lines of {size.length}: four in a line win, or five")
        return size

    @classmethod
    def read(cls, word: str) -> "Size":
        """The size that a word as 7x6 names, or as 8x6x5 where lines of five win."""
        numbers = word.lower().split("x")
        if len(numbers) not in (2, 3) or not all(number.isascii() and number.isdigit() for number in numbers):
            raise Fault(f"{word!r} is no board: write it as 7x6, or as 8x6x5 where lines of five win")
        return cls.of([int(number) for number in numbers])


USUAL = Size(7, 6)


class Game:
    """A board, the moves so far, and the position after them. It is a value: it never changes, and equals each game
    with the same men on the same board. `men` has W or B by square, `heights` the men in each column, and `line` the
    squares of a line, where one was made."""

    __slots__ = ("size", "moves", "heights", "men", "line")
    size: Size
    moves: tuple[int, ...]
    heights: tuple[int, ...]
    men: Mapping[Square, str]
    line: tuple[Square, ...]

    def __init__(self, size: Sequence[int] = USUAL, moves: Iterable[int] = ()) -> None:
        board = Size.of(size)
        self._set(size=board, moves=(), heights=(0,) * board.cols, men={}, line=())
        for column in moves:
            self._drop(column)

    def _set(self, **values: Any) -> None:
        for name, value in values.items():
            object.__setattr__(self, name, value)

    def _drop(self, column: int) -> None:
        """Makes a move, in a game that nobody else has seen yet."""
        place = f"move {len(self.moves) + 1}"
        if not 0 <= column < self.size.cols:
            raise Fault(f"{place}: the board has no column {column + 1}")
        if self.is_over:
            raise Fault(f"{place}: the game has ended before it")
        if self.heights[column] == self.size.rows:
            raise Fault(f"{place}: column {LETTERS[column]} is full")
        square = self.next_square(column)
        men = {**self.men, square: self.side}
        heights = tuple(height + (i == column) for i, height in enumerate(self.heights))
        self._set(
            men=types.MappingProxyType(men),
            heights=heights,
            moves=(*self.moves, column),
            line=line_through(men, square, self.size.length),
        )

    def __setattr__(self, name: str, value: object) -> None:
        raise AttributeError(f"a game doesn't change: {name} can't be set, and after() gives another game")

    def __reduce__(self) -> tuple[Any, ...]:
        return Game, (self.size, self.moves)

    def __eq__(self, other: object) -> bool:
        return isinstance(other, Game) and self.size == other.size and self.men == other.men

    def __hash__(self) -> int:
        return hash((self.size, self.key))

    def __repr__(self) -> str:
        numbers = tuple(self.size) if self.size.length != 4 else tuple(self.size)[:2]
        return f"Game.read({self.letters()!r}, {numbers!r})"

    def __str__(self) -> str:
        return "\n".join([*grid_text(self.size, lambda square: self.men.get(square, ".")), self.sentence()])

    def _repr_svg_(self) -> str:
        from ._drawing import draw_position

        return draw_position(self)

    @classmethod
    def read(cls, text: str, size: Optional[Sequence[int]] = None) -> "Game":
        """The game that people write so: letters, digits, squares, numbered moves, the text of a game or a diagram."""
        from ._notation import read_position

        return read_position(text, size)

    @property
    def key(self) -> frozenset[tuple[Square, str]]:
        """The men, by which positions of one board are told apart."""
        return frozenset(self.men.items())

    @property
    def side(self) -> str:
        """The side to move, also after the end: W or B."""
        return "WB"[len(self.moves) % 2]

    @property
    def is_over(self) -> bool:
        """A line was made, or the board is full."""
        return bool(self.line) or len(self.moves) == self.size.cols * self.size.rows

    def after(self, column: int) -> "Game":
        """The game with one move more."""
        made = object.__new__(Game)
        made._set(size=self.size, moves=self.moves, heights=self.heights, men=self.men, line=self.line)
        made._drop(column)
        return made

    def undone(self) -> "Game":
        """The game without its last move."""
        if not self.moves:
            raise Fault("there is no move to take back")
        return Game(self.size, self.moves[:-1])

    def mirrored(self) -> "Game":
        """The game as a mirror shows it."""
        return Game(self.size, [self.size.cols - 1 - column for column in self.moves])

    def next_square(self, column: int) -> Square:
        """The square on which a man falls in this column."""
        return column, self.heights[column] + 1

    def open_columns(self) -> list[int]:
        """The columns in which there is room."""
        return [i for i in range(self.size.cols) if self.heights[i] < self.size.rows]

    def letters(self) -> str:
        """The columns as letters, and `-` for none."""
        return "".join(LETTERS[i] for i in self.moves) or "-"

    def digits(self) -> str:
        """The columns as digits from 1, of which 0 is the tenth."""
        return "".join("1234567890"[i] for i in self.moves) or "start"

    def text(self) -> str:
        """The text of the game, as the program reads it."""
        told = "" if self.size.length == 4 else " 5"
        return f"board {self.size.cols} {self.size.rows}{told}\nmoves {self.letters()}\n"

    def sentence(self) -> str:
        """The board, the moves, and who is to move, or how the game has ended."""
        if self.line:
            end = f"{SIDES[OTHER[self.side]]} has {LENGTHS[self.size.length]} in a line"
        else:
            end = "the board is full" if self.is_over else f"{SIDES[self.side]} is to move"
        return f"{self.size} after {self.letters()}: {end}"


def require_game(game: object) -> Game:
    """The game that was given, where it is one."""
    if not isinstance(game, Game):
        raise Fault(f"a game is wanted here, and not a {type(game).__name__}: Game.read('434343') makes one of a text")
    return game


def line_through(men: Mapping[Square, str], square: Square, length: int = 4) -> tuple[Square, ...]:
    """The squares of the lines through this square that one side owns, of so many squares or more."""
    side = men[square]
    found: set[Square] = set()
    for right, up in WAYS.values():
        run = {square}
        for sign in (1, -1):
            i, r = square
            while men.get((i + sign * right, r + sign * up)) == side:
                i, r = i + sign * right, r + sign * up
                run.add((i, r))
        if len(run) >= length:
            found |= run
    return tuple(sorted(found))


def lines_with(size: Size, square: Square) -> Iterator[list[Square]]:
    """The lines of the board that have this square."""
    for right, up in WAYS.values():
        for back in range(size.length):
            line = [(square[0] + (k - back) * right, square[1] + (k - back) * up) for k in range(size.length)]
            if all(0 <= i < size.cols and 1 <= r <= size.rows for i, r in line):
                yield line


def squares_of(size: Size) -> list[Square]:
    """All squares of a board."""
    return [(i, r) for i in range(size.cols) for r in range(1, size.rows + 1)]


def grid_text(size: Size, entry: Callable[[Square], str], width: int = 1) -> list[str]:
    """A board in characters; `entry` gives what stands on a square."""
    lines = [
        f"{r:2} " + " ".join(entry((i, r)).rjust(width) for i in range(size.cols)) for r in range(size.rows, 0, -1)
    ]
    return [*lines, "   " + " ".join(LETTERS[i].rjust(width) for i in range(size.cols))]


def columns_of(letters: str) -> list[int]:
    """The columns that letters name, and none for `-`."""
    if letters == "-":
        return []
    for letter in letters:
        if letter not in LETTERS:
            raise Fault(f"{letter!r} is no column's letter")
    return [LETTERS.index(letter) for letter in letters]


def name_of(square: Square) -> str:
    """The name of a square, as a1."""
    return f"{LETTERS[square[0]]}{square[1]}"


def square_of(name: str) -> Optional[Square]:
    """The square that a name names, or None."""
    row = name[1:]
    if name[:1] and name[0] in LETTERS and row in ("1", "2", "3", "4", "5", "6", "7", "8", "9", "10"):
        return LETTERS.index(name[0]), int(row)
    return None
