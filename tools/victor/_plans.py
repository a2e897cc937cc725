"""Plans: the nine rules, the squares that their instances own, and what `explain` writes. docs/RULES.md says what each
rule does."""

from collections.abc import Sequence
from typing import Optional

from ._faults import Fault
from ._games import LETTERS, ROWS, WAYS, Game, Size, Square, name_of, square_of

RULES = {
    "CE": "Claimeven",
    "BI": "Baseinverse",
    "LI": "Lowinverse",
    "HI": "Highinverse",
    "BC": "Baseclaim",
    "VE": "Vertical",
    "AE": "Aftereven",
    "BE": "Before",
    "SB": "Specialbefore",
}
STANDING = ("VE", "AE", "BE", "SB")  # these own no square
BY_LINES = ("AE", "BE", "SB")  # these rest on a line of Black's


def up(square: Square, rows: int = 1) -> Square:
    """The square so many rows above another."""
    return square[0], square[1] + rows


def group_of(name: str, length: int = 4) -> Optional[list[Square]]:
    """The squares of a group's name, so many as the board's lines have, or None."""
    anchor = square_of(name[:-1])
    if anchor is None or name[-1] not in WAYS:
        return None
    right, high = WAYS[name[-1]]
    squares = [(anchor[0] + k * right, anchor[1] + k * high) for k in range(length)]
    return squares if squares[-1][0] < 10 and squares[-1][1] > 0 else None


def words_of(instance: str) -> list[str]:
    """The words that an instance is written with: names of squares, and first that of a line where it rests on one."""
    return instance[3:].replace("-", ",").split(",")


def parts_of(instance: str) -> list[Square]:
    """The squares that an instance is written with."""
    return [square for square in map(square_of, words_of(instance)) if square]


def zone_of(instance: str) -> list[Square]:
    """The squares that an instance owns, by its text."""
    rule, squares = instance[:2], parts_of(instance)
    if rule in STANDING or len(squares) != len(words_of(instance)):
        return []
    if rule == "LI" and len(squares) == 4:
        (i, low), (_, top), (j, other_low), (_, other_top) = squares
        return [(i, r) for r in range(low, top + 1)] + [(j, r) for r in range(other_low, other_top + 1)]
    heights = {"CE": [2], "BI": [1, 1], "HI": [3, 3], "BC": [1, 2, 1]}.get(rule, [])
    return sorted(up(square, k) for square, height in zip(squares, heights) for k in range(height))


def barred_by(instance: str) -> list[list[Square]]:
    """What White never gets by an instance of a zone rule or a Vertical, as lists of least sets of squares."""
    rule, parts = instance[:2], parts_of(instance)
    if rule == "CE":
        return [[up(parts[0])]]
    if rule == "BI":
        return [parts]
    if rule == "VE":
        return [[parts[0], up(parts[0])]]
    if rule == "BC":
        return [[parts[0], up(parts[1])], [parts[1], parts[2]]]
    if rule == "HI":
        (a, b), (c, d) = ((up(low), up(low, 2)) for low in parts)
        return [[b, d], [a, c], [a, b], [c, d], [parts[0], d], [parts[1], b]]
    odds = [square for square in zone_of(instance) if square[1] % 2]
    first, second = ([square for square in odds if square[0] == low[0]] for low in (parts[0], parts[2]))
    pairs = [[one, other] for one in first for other in second]
    return [[parts[1], parts[3]], *pairs, *([square, up(square)] for square in odds)]


def mirrored(instance: str, size: Size) -> str:
    """The text of an instance as a mirror shows it."""
    rule, words = instance[:2], words_of(instance)
    turned = []
    for word in words:
        square, squares = square_of(word), group_of(word, size.length)
        if square:
            turned.append(name_of((size.cols - 1 - square[0], square[1])))
        elif squares:
            way = {"u": "d", "d": "u"}.get(word[-1], word[-1])
            i, r = squares[0] if way == "v" else squares[-1]
            turned.append(f"{name_of((size.cols - 1 - i, r))}{way}")
    if rule in ("BI", "HI"):
        turned.reverse()
    if rule == "LI":
        return f"LI:{turned[2]}-{turned[3]},{turned[0]}-{turned[1]}"
    return f"{rule}:{','.join(turned)}"


class Plan:
    """What `explain` wrote: the instances, their squares, and what answers each line. Without a game the board and its
    men are made of these, and `?` is a man, White's or Black's."""

    def __init__(self, text: str, game: Optional[Game] = None) -> None:
        lines = text.replace("\r", "").rstrip("\n").split("\n")
        if not lines[0].startswith("plan "):
            raise Fault(f"there is no plan to draw: the text begins with {lines[0]!r}")
        self.members = lines[0].split(" ")[1:]
        self.zones: list[list[Square]] = []
        self.answers: list[tuple[str, list[Square], str]] = []
        # Which lines win the text doesn't tell: those of the game where one is named, and else four.
        self.length = game.size.length if game else 4
        for n, line in enumerate(lines[1:], 2):
            if len(self.zones) < len(self.members):
                self.zones.append(self.read_zone(n, line))
            else:
                self.answers.append(self.read_answer(n, line))
        if len(self.zones) < len(self.members):
            raise Fault("the text ends before each instance has its squares")
        self.owner = {square: n for n, zone in enumerate(self.zones, 1) for square in zone}
        self.size, self.men = self.board_of(game) if game else self.guessed_board()

    def read_zone(self, n: int, line: str) -> list[Square]:
        """The squares of an instance."""
        words = line.split(" ")
        names = words[2:] if words[2:] != ["-"] else []
        squares = [square for square in map(square_of, names) if square]
        is_right = words[0] == self.members[len(self.zones)] and words[1:2] == ["owns"] and len(words) > 2
        if not is_right or len(squares) < len(names) or words[0][:2] not in RULES:
            raise Fault(f"line {n} isn't what `explain` writes of an instance: {line!r}")
        return squares

    def read_answer(self, n: int, line: str) -> tuple[str, list[Square], str]:
        """A line of White's and what answers it."""
        words = line.split(" ")
        squares = group_of(words[0], self.length) if len(words[0]) > 2 else None
        if len(words) != 3 or words[1] != "by" or squares is None or words[2] not in self.members:
            raise Fault(f"line {n} isn't what `explain` writes of a line: {line!r}")
        return words[0], squares, words[2]

    def board_of(self, game: Game) -> tuple[Size, dict[Square, str]]:
        """The board of a game and its men, where the plan is one of its position."""
        outside = [square for square in self.owner if square[0] >= game.size.cols or square[1] > game.size.rows]
        is_whole = len(self.owner) + len(game.men) == game.size.cols * game.size.rows
        if outside or set(self.owner) & set(game.men) or not is_whole:
            raise Fault("the plan isn't one of this game's position")
        return game.size, dict(game.men)

    def guessed_board(self) -> tuple[Size, dict[Square, str]]:
        """Each empty square has a zone, so the highest is in the top row. A line without a Black man tells White's."""
        if not self.owner:
            raise Fault("no instance owns a square")
        rows = max(row for _, row in self.owner)
        in_lines = [square for _, squares, _ in self.answers for square in squares]
        cols = max(4, *(i + 1 for i, _ in [*self.owner, *in_lines]))
        if rows not in ROWS or cols > len(LETTERS):
            raise Fault(f"the squares are those of no board: the highest owned one is in row {rows}")
        size = Size(cols, rows, self.length)
        men = {(i, r): "?" for i in range(cols) for r in range(1, rows + 1) if (i, r) not in self.owner}
        men.update({square: "W" for square in in_lines if square in men})
        return size, men

    def owner_of(self, square: Square) -> str:
        """The instance that owns an empty square."""
        return self.members[self.owner[square] - 1]

    def empties(self, squares: Sequence[Square]) -> list[Square]:
        """Those of some squares that are empty."""
        return [square for square in squares if square in self.owner]

    def note(self) -> str:
        """What is to be known of the men."""
        if "?" in self.men.values():
            return "grey: a man, White's or Black's, which this text doesn't tell (--game names the game)"
        return ""
