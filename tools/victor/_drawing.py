"""Pictures of positions, plans and duels, as SVG or as text, of what `victor` reads and writes. Nothing is checked."""

import functools
import html
from collections.abc import Collection, Mapping, Sequence
from typing import Optional

from ._duels import Shown
from ._games import LETTERS, Game, Size, Square, grid_text, line_through, name_of, squares_of
from ._plans import RULES, STANDING, Plan, group_of, parts_of, up, words_of

CELL, SMALL_CELL, SHEET_CELL = 44, 26, 30
EDGE = 26
# The fills of the zones, and the ink of the lines that standing rules rest on.
COLOURS = {
    "CE": "#b5dcc0",
    "BI": "#f8cf9c",
    "LI": "#a9d0ee",
    "HI": "#d3c1ea",
    "BC": "#f5b3b3",
    "VE": "#9a6b00",
    "AE": "#00662b",
    "BE": "#1f4e9c",
    "SB": "#8b108b",
}
DASHES = {"VE": "", "AE": "", "BE": "7 4", "SB": "2 3"}
MEN = {"W": "#ffffff", "B": "#2b2b2b", "?": "#bdbdb5"}
BOARD, INK, RED, TARGET = "#f7f5ec", "#2b2b2b", "#d01c1c", "#f3a6a6"
STYLE = (
    "text{font-family:DejaVu Sans,Verdana,sans-serif;fill:#222}.small{font-size:11px}.note{font-size:12px}"
    ".head{font-size:14px;font-weight:bold}"
)


class Picture:
    """Pieces of an SVG, and how large it is."""

    def __init__(self) -> None:
        self.pieces: list[str] = []
        self.width = self.height = 0.0

    def add(self, piece: str, right: float = 0, low: float = 0) -> None:
        """Adds a piece, which reaches so far."""
        self.pieces.append(piece)
        self.width, self.height = max(self.width, right), max(self.height, low)

    def rect(self, x: float, y: float, width: float, height: float, fill: str, stroke: str = "#8a8a80") -> None:
        """A rectangle with an edge."""
        edge = f' stroke="{stroke}"' if stroke else ""
        piece = f'<rect x="{x:g}" y="{y:g}" width="{width:g}" height="{height:g}" fill="{fill}"{edge}/>'
        self.add(piece, x + width, y + height)

    def circle(self, middle: tuple[float, float], radius: float, fill: str, more: str = "") -> None:
        """A circle."""
        self.add(f'<circle cx="{middle[0]:g}" cy="{middle[1]:g}" r="{radius:g}" fill="{fill}"{more}/>')

    def line(self, one: tuple[float, float], other: tuple[float, float], rule: str, more: str = "") -> None:
        """A line as a rule has it."""
        self.add(
            f'<line x1="{one[0]:g}" y1="{one[1]:g}" x2="{other[0]:g}" y2="{other[1]:g}" stroke="{COLOURS[rule]}" '
            f'stroke-width="3" stroke-dasharray="{DASHES[rule]}"{more}/>'
        )

    def write(self, x: float, y: float, text: str, kind: str = "note", anchor: str = "start", style: str = "") -> None:
        """Writes a text."""
        styled = f' style="{style}"' if style else ""
        right = x + (7 * len(text) if anchor == "start" else 0)
        piece = (
            f'<text x="{x:.0f}" y="{y:.0f}" class="{kind}" text-anchor="{anchor}"{styled}>{html.escape(text)}</text>'
        )
        self.add(piece, right, y + 4)

    def text(self, title: str) -> str:
        """The whole picture."""
        width, height = self.width + 8, self.height + 8
        pieces = "\n".join(self.pieces)
        return (
            f'<svg xmlns="http://www.w3.org/2000/svg" width="{width:.0f}" height="{height:.0f}" '
            f'viewBox="0 0 {width:.0f} {height:.0f}" role="img">\n<title>{html.escape(title)}</title>\n'
            f'<style>{STYLE}</style>\n<rect width="100%" height="100%" fill="#ffffff"/>\n{pieces}\n</svg>\n'
        )


def halo(colour: str) -> str:
    """The style of a text with this colour around its letters, where lines may lie below it."""
    return f"paint-order:stroke;stroke:{colour};stroke-width:3px"


class Grid:
    """Where the squares of a board stand in a picture."""

    def __init__(self, size: Size, x: float, y: float, cell: int = CELL) -> None:
        self.size, self.cell = size, cell
        self.x, self.y = x + EDGE, y

    def middle(self, square: Square) -> tuple[float, float]:
        """The middle of a square."""
        i, r = square
        return (self.x + (i + 0.5) * self.cell, self.y + (self.size.rows - r + 0.5) * self.cell)

    def draw(
        self,
        picture: Picture,
        men: Mapping[Square, str],
        fills: Mapping[Square, str],
        marks: Collection[Square] = (),
        line: Collection[Square] = (),
    ) -> None:
        """The board: men, squares with a fill, marked men, and the men of a line."""
        cell = self.cell
        for square in squares_of(self.size):
            x, y = self.middle(square)
            picture.rect(x - cell / 2, y - cell / 2, cell, cell, fills.get(square, BOARD))
            if square in men:
                stroke, width = (RED, 3.5) if square in line else (INK, 1.5)
                more = f' stroke="{stroke}" stroke-width="{width:g}"'
                picture.circle((x, y), cell * 0.38, MEN[men[square]], more)
            if square in marks:
                picture.circle((x, y), cell * 0.09, RED)
        self.draw_names(picture)

    def draw_names(self, picture: Picture) -> None:
        """The letters and numbers at the edges."""
        kind = "note" if self.cell > 30 else "small"
        low = self.y + self.size.rows * self.cell + 16
        for i in range(self.size.cols):
            picture.write(self.middle((i, 1))[0], low, LETTERS[i], kind, "middle")
        for r in range(1, self.size.rows + 1):
            picture.write(self.x - 6, self.middle((0, r))[1] + 4, str(r), kind, "end")


# A position.


def draw_position(game: Game) -> str:
    """The position as SVG."""
    picture = Picture()
    last = [(game.moves[-1], game.heights[game.moves[-1]])] if game.moves else []
    Grid(game.size, 4, 6).draw(picture, game.men, {}, last, game.line)
    picture.write(8, picture.height + 22, game.sentence())
    return picture.text(game.sentence())


def draw_for_paper(game: Game, colours: Mapping[str, str], numbers: Mapping[Square, int]) -> str:
    """The board as a small SVG, with the men in these colours; `numbers` has what stands in empty squares."""
    left, width, height = (20, game.size.cols * SHEET_CELL + 24, game.size.rows * SHEET_CELL + 22)
    half = SHEET_CELL // 2
    pieces = [
        f'<svg xmlns="http://www.w3.org/2000/svg" width="{width}" height="{height}" font-size="12" '
        'text-anchor="middle" fill="#222">'
    ]
    for i, r in squares_of(game.size):
        x, y = left + i * SHEET_CELL, 2 + (game.size.rows - r) * SHEET_CELL
        pieces.append(
            f'<rect x="{x}" y="{y}" width="{SHEET_CELL}" height="{SHEET_CELL}" fill="#ffffff" stroke="#888"/>'
        )
        man = game.men.get((i, r))
        if man:
            pieces.append(f'<circle cx="{x + half}" cy="{y + half}" r="12" fill="{colours[man]}" stroke="#222"/>')
        elif (i, r) in numbers:
            pieces.append(f'<text x="{x + half}" y="{y + 20}">{numbers[(i, r)]}</text>')
    for i in range(game.size.cols):
        pieces.append(f'<text x="{left + i * SHEET_CELL + half}" y="{height - 4}">{LETTERS[i]}</text>')
    for r in range(1, game.size.rows + 1):
        pieces.append(f'<text x="9" y="{22 + (game.size.rows - r) * SHEET_CELL}">{r}</text>')
    return "".join(pieces) + "</svg>"


# A plan.


def title_of(plan: Plan) -> str:
    """What a plan's picture shows."""
    return f"a plan of {len(plan.members)} instances, {len(plan.answers)} lines of White's answered"


def draw_plan(plan: Plan) -> str:
    """The plan as SVG."""
    picture, grid = Picture(), Grid(plan.size, 4, 30)
    picture.write(8, 18, title_of(plan), "head")
    fills = {square: COLOURS[plan.owner_of(square)[:2]] for square in plan.owner}
    grid.draw(picture, plan.men, fills)
    begins = [draw_standing(picture, grid, member, n, plan) for n, member in enumerate(plan.members, 1)]
    for square, n in plan.owner.items():
        x, y = grid.middle(square)
        picture.write(x, y - 2, plan.owner_of(square)[:2], "small", "middle", halo(fills[square]))
        picture.write(x, y + 12, str(n), "small", "middle", halo(fills[square]))
    number_lines(picture, grid, begins, plan, fills)
    low = picture.height
    y = draw_legend(picture, plan, grid.x + plan.size.cols * CELL + 18)
    draw_answers(picture, plan, picture.width + 16, max(y, low))
    if plan.note():
        picture.write(8, picture.height + 18, plan.note(), "small")
    return picture.text(title_of(plan))


def draw_standing(picture: Picture, grid: Grid, member: str, n: int, plan: Plan) -> Optional[Square]:
    """The line of a standing rule. It gives its first square, or nothing for another rule."""
    rule, parts = member[:2], parts_of(member)
    if rule not in STANDING:
        return None
    squares = [parts[0], up(parts[0])] if rule == "VE" else group_of(words_of(member)[0], plan.length) or parts
    # Lines of several instances lie beside one another, and upright ones beside what is written in the squares.
    upright = squares[0][0] == squares[-1][0]
    right, down = (15 - n % 2 * 4, 0.0) if upright else ((n % 5 - 2) * 3.5, (n % 5 - 2) * 3.5)
    one, other = ((x + right, y + down) for x, y in map(grid.middle, (squares[0], squares[-1])))
    picture.line(one, other, rule, ' stroke-linecap="round" opacity="0.8"')
    for square in parts if rule == "SB" else ():
        more = f' stroke="{COLOURS[rule]}" stroke-width="2.5" stroke-dasharray="2 3"'
        picture.circle(grid.middle(square), 17, "none", more)
    return squares[0]


def number_lines(
    picture: Picture, grid: Grid, begins: Sequence[Optional[Square]], plan: Plan, fills: Mapping[Square, str]
) -> None:
    """The numbers of standing rules, each in the corner of the square where its line begins; of several one below the
    other."""
    begun: dict[Square, int] = {}
    for n, (square, member) in enumerate(zip(begins, plan.members), 1):
        if square:
            x, y = grid.middle(square)
            place = begun[square] = begun.get(square, -1) + 1
            style = f"fill:{COLOURS[member[:2]]};{halo(fills.get(square, BOARD))}"
            picture.write(x - 20, y - 11 + 11 * place, str(n), "small", "start", style)


def draw_legend(picture: Picture, plan: Plan, x: float) -> float:
    """Which rules there are, and of which instances."""
    y = 44.0
    for rule, name in RULES.items():
        of_rule = [(n, member) for n, member in enumerate(plan.members, 1) if member[:2] == rule]
        if not of_rule:
            continue
        if rule in STANDING:
            picture.line((x, y - 4), (x + 14, y - 4), rule)
        else:
            picture.rect(x, y - 12, 14, 14, COLOURS[rule])
        picture.write(x + 20, y, name)
        y += 17
        for n, member in of_rule:
            picture.write(x + 20, y, f"{n}  {member}", "small")
            y += 15
        y += 5
    return y


def draw_answers(picture: Picture, plan: Plan, x: float, low: float) -> None:
    """For each line the instance that answers it, in columns that are as high as what stands beside them."""
    picture.write(x, 44, "Each line of White's, and what answers it")
    room = int(max(8, (low - 62) // 15))
    for k, (name, _, member) in enumerate(plan.answers):
        column, place = divmod(k, room)
        at = x + column * 190
        picture.rect(at, 53 + 15 * place, 9, 9, COLOURS[member[:2]], "")
        said = f"{name} by {plan.members.index(member) + 1}  {member}"
        picture.write(at + 14, 62 + 15 * place, said, "small")


def plan_text(plan: Plan) -> str:
    """The plan in characters."""
    width = len(str(len(plan.members)))
    lines = [title_of(plan), ""]
    lines += grid_text(plan.size, lambda square: plan.men.get(square) or str(plan.owner[square]), width)
    either = ", ? is either" if plan.note() else ""
    lines += ["", f"W, B are men{either}; a number is the instance that owns the square:"]
    for n, (member, zone) in enumerate(zip(plan.members, plan.zones), 1):
        owned = "owns " + " ".join(map(name_of, zone)) if zone else "owns none"
        lines.append(f"{n:{width}}  {member}  {RULES[member[:2]]}, {owned}")
    lines += ["", "each line of White's, and what answers it:"]
    lines += [f"{name} by {plan.members.index(member) + 1}  {member}" for name, _, member in plan.answers]
    return "\n".join(lines) + "\n"


# A duel.


def draw_duel(duel: Shown) -> str:
    """The boards of a duel as SVG."""
    picture, wide = Picture(), duel.size.cols * SMALL_CELL + EDGE + 20
    many = max(1, 1100 // wide)
    picture.write(8, 18, duel.title(), "head")
    fills = {square: TARGET if mark == "*" else COLOURS["BI"] for square, mark in duel.marks.items()}
    for k, (men, new, caption) in enumerate(duel.shown):
        row, across = divmod(k, many)
        grid = Grid(duel.size, across * wide + 4, row * (duel.size.rows * SMALL_CELL + 56) + 34, SMALL_CELL)
        line = line_through(men, new[-1], duel.size.length) if new else ()
        grid.draw(picture, men, fills, new, line)
        for square, mark in duel.marks.items():
            if square not in men and mark != "*":
                x, y = grid.middle(square)
                picture.write(x, y + 4, mark, "small", "middle")
        picture.write(grid.x, grid.y + duel.size.rows * SMALL_CELL + 34, caption)
    return picture.text(duel.title())


def duel_text(duel: Shown) -> str:
    """The boards of a duel in characters, so many beside one another as a line has room for."""
    wide, each = max(3 + 2 * duel.size.cols, 18), []
    for men, _, caption in duel.shown:
        entries = {**duel.marks, **men}
        lines = [*grid_text(duel.size, functools.partial(entry_of, entries)), "   " + caption]
        each.append([line.ljust(wide) for line in lines])
    many = max(1, 100 // len(each[0][0]))
    out: list[str] = []
    for k in range(0, len(each), many):
        out += [" ".join(parts).rstrip() for parts in zip(*each[k : k + many])] + [""]
    return "\n".join(out)


def entry_of(entries: Mapping[Square, str], square: Square) -> str:
    """What stands on a square."""
    return entries.get(square, ".")
