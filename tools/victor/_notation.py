"""Positions as people write them: lists of moves, texts of games, and diagrams."""

import os
import re
from collections.abc import Iterator, Mapping, Sequence
from typing import Optional

from ._faults import Fault
from ._files import read_input
from ._games import LETTERS, OTHER, USUAL, Game, Size, Square, columns_of, line_through

MOST_TRIED = 2_000_000
MAYBE_SCORE = "%r may be a score and no move: moves as digits stand in one word, or with commas between them"


def read_position(text: str, size: Optional[Sequence[int]] = None) -> Game:
    """The game that a text asks about. The board is 7 by 6 where neither the text nor a size says another."""
    if not isinstance(text, str):
        raise Fault(f"a text is wanted here, as '434343', and not a {type(text).__name__}")
    text = text.replace("\r\n", "\n").replace("\r", "\n").strip()
    if not text:
        raise Fault("there is no position: write - for the empty board")
    if text.startswith("board "):
        game = read_game(text + "\n")
        if size and Size(*size) != game.size:
            raise Fault(f"the text has another board, of {game.size}")
        return game
    rows = diagram_rows(text)
    if rows:
        return read_diagram(rows, size)
    board = Size(*(size or USUAL))
    return Game(board, read_moves(text, board))


def read_game(text: str) -> Game:
    """The game of a text as `victor prove` reads it."""
    lines = text.replace("\r", "").rstrip("\n").split("\n")
    words = [line.split(" ") for line in lines]
    is_game = len(lines) == 2 and len(words[0]) in (3, 4) and words[0][0] == "board"
    if not is_game or len(words[1]) != 2 or words[1][0] != "moves":
        raise Fault("this is no text of a game: two lines, `board COLUMNS ROWS` and `moves LETTERS`")
    if not all(word.isascii() and word.isdigit() for word in words[0][1:]) or words[0][3:] not in ([], ["5"]):
        raise Fault("this is no text of a game: the board's numbers, and 5 behind them where lines of five win")
    return Game([int(word) for word in words[0][1:]], columns_of(words[1][1]))


def named_game(word: str, size: Optional[Size] = None) -> tuple[Game, str]:
    """The game that a word of a command line names, and the text of its file. The word is a position as people write
    it, of which an empty one is the empty board, and has no file; else it is the name of a file that has one, and may
    have more behind the text of a game, or be a proof."""
    try:
        return read_position(word or "-", size), ""
    except Fault as fault:
        if os.path.isdir(word) or not os.path.exists(word):
            more = f"; and there is no file {word}" if re.search("[./]", word) and "\n" not in word else ""
            raise Fault(f"{fault}{more}") from fault
    text = read_input(word).replace("\r", "")
    lines = text.split("\n")
    if lines[0].startswith("victor "):
        lines.pop(0)
    return (read_position("\n".join(lines[:2] if lines[0].startswith("board ") else lines), size), text)


def asked_game(word: Optional[str], size: Optional[Size] = None) -> Game:
    """The same game; it is read from standard input where there is no word."""
    return read_position(read_input(None), size) if word is None else named_game(word, size)[0]


# Lists of moves.


def read_moves(text: str, board: Size) -> list[int]:
    """The columns of a list of moves: letters of either case, digits from 1 with 0 as the tenth, or squares as d1."""
    bare = re.sub(r"[0-9]+\.", " ", text)
    if bare.strip() in ("", "-"):
        return []
    if re.fullmatch(r"[-+0-9\s,;]+", bare):
        return read_digits(text, board)
    last = re.search(r"(?<![A-Za-z0-9])[-+]?[0-9]+\s*$", bare)
    if last:
        raise Fault(MAYBE_SCORE % last.group().strip())
    return read_squares(bare, board)


def read_digits(text: str, board: Size) -> list[int]:
    """The columns of a list of moves in digits."""
    columns = [(int(digit) - 1) % 10 for digit in digits_of(text)]
    for n, column in enumerate(columns, 1):
        if column >= board.cols:
            tenth = ", and 0 is the tenth" if column == 9 else ""
            raise Fault(f"move {n}: the board has no column {column + 1} (columns count from 1{tenth})")
    return columns


def read_squares(bare: str, board: Size) -> list[int]:
    """The columns of a list of moves in letters, which may have rows."""
    columns: list[int] = []
    heights = [0] * board.cols
    for found in re.finditer(r"([A-Za-z])([0-9]*)|([0-9]+)|([^\s,;])", bare):
        letter, row, number, other = found.groups()
        if other:
            raise Fault(f"{other!r} is nothing that stands in a list of moves")
        if number:
            continue  # the number of a move
        letter = letter.lower()
        place = f"move {len(columns) + 1}"
        if letter not in LETTERS[: board.cols]:
            raise Fault(f"{place}: {letter!r} is no column of this board (a to {LETTERS[board.cols - 1]})")
        column = LETTERS.index(letter)
        heights[column] += 1
        if row and heights[column] <= board.rows and int(row) != heights[column]:
            next_one = f"the column's next square is {letter}{heights[column]}"
            raise Fault(f"{place}: {letter}{row} hangs or is taken, {next_one}")
        columns.append(column)
    return columns


def digits_of(text: str) -> list[str]:
    """The digits of a list of columns: of one word, or of words of a digit each. A score, which some files have behind
    a list, isn't taken for a move: where there are two words with a space between them, the second may be one.
    """
    parts = re.split(r"[0-9]+\.", text)
    for part in parts:
        words = re.findall(r"[^\s,;]+", part)
        is_pair = len(words) == 2 and len(parts) == 1 and not re.search("[,;]", part)
        for n, word in enumerate(words):
            if not word.isdigit() or n and (is_pair or len(word) > 1 or len(words[0]) > 1):
                raise Fault(MAYBE_SCORE % word)
    return re.findall("[0-9]", "".join(parts))


# Diagrams.


def diagram_rows(text: str) -> Optional[list[str]]:
    """The rows of a diagram from the top, as texts of X, O and `.`, or None where the text is none. What a game's own
    drawing has below the board says nothing more than its men. R and Y may stand for X and O, or for O and X.
    """
    rows = []
    for line in text.split("\n"):
        if re.match(r"\s*[0-9]+ by [0-9]+ (with lines of five )?after ", line):
            continue
        bare = re.sub(r"^\s*[0-9]{1,2}(?=\s)|[|\s]", "", line)
        if not bare or re.fullmatch(r"[a-jA-J]+|[0-9]+|[-+=]+", bare) and not re.fullmatch(r"[Bb]+", bare):
            continue
        if not re.fullmatch(r"[XOxoWB.]+|[RYry.]+", bare):
            return None
        rows.append(bare.upper().replace("W", "X").replace("B", "O"))
    if len(rows) < 4 or any(len(row) < 4 for row in rows):
        return None
    return uncoloured(rows) if re.search("[RY]", "".join(rows)) else rows


def uncoloured(rows: list[str]) -> list[str]:
    """A diagram in red and yellow with X for the side that moved first. That is known where it has a man more."""
    red, yellow = ("".join(rows).count(man) for man in "RY")
    if red == yellow or re.search("[XO]", "".join(rows)):
        raise Fault("which of R and Y moved first can't be known: write X for the one that did, and O for the other")
    first, second = ("R", "Y") if red > yellow else ("Y", "R")
    return [row.replace(first, "X").replace(second, "O") for row in rows]


def read_diagram(rows: list[str], size: Optional[Sequence[int]]) -> Game:
    """A game that leads to the men of a diagram. X moves first."""
    for n, row in enumerate(rows, 1):
        if len(row) != len(rows[0]):
            raise Fault(
                f"row {n} of the diagram, from the top, has {len(row)} squares and the first has {len(rows[0])}"
            )
    board = Size.of(size or (len(rows[0]), len(rows)))
    if board[:2] != (len(rows[0]), len(rows)):
        raise Fault(f"the diagram has {len(rows[0])} columns and {len(rows)} rows")
    stacks = []
    for i in range(board.cols):
        stack = "".join(row[i] for row in reversed(rows)).rstrip(".")
        if "." in stack:
            raise Fault(f"a man hangs over the empty square {LETTERS[i]}{stack.index('.') + 1}")
        stacks.append(stack)
    firsts, seconds = (sum(stack.count(man) for stack in stacks) for man in "XO")
    if firsts - seconds not in (0, 1):
        raise Fault(
            f"the diagram has {firsts} X and {seconds} O: X moves first, so there have to be as many or one more"
        )
    return Game(board, order_of(stacks, board))


def order_of(stacks: list[str], board: Size) -> list[int]:
    """An order of moves that makes these columns, each from the bottom up, with no move after a line."""
    men = {(i, r): "WB"[man == "O"] for i, stack in enumerate(stacks) for r, man in enumerate(stack, 1)}
    is_spent = False
    for last in last_columns(stacks, men, board):
        lefts = [stack[:-1] if i == last else stack for i, stack in enumerate(stacks)]
        order, tried = interleave(lefts)
        if order is not None:
            return order + ([] if last is None else [last])
        is_spent |= tried >= MOST_TRIED
    if is_spent:
        raise Fault(f"no order of moves was found for this diagram in {MOST_TRIED} tries")
    raise Fault("no order of moves leads to this diagram: X and O can't take turns in it")


def last_columns(stacks: list[str], men: Mapping[Square, str], board: Size) -> Sequence[Optional[int]]:
    """The columns in which the last man may stand: None where any may. A line can only have been made by the last man,
    and without that man there is none."""
    if not has_line(men, board):
        return [None]
    side = OTHER["WB"[len(men) % 2]]
    lasts = []
    for i, stack in enumerate(stacks):
        fewer = {square: man for square, man in men.items() if square != (i, len(stack))}
        if stack and men[(i, len(stack))] == side and not has_line(fewer, board):
            lasts.append(i)
    if not lasts:
        raise Fault("no order of moves leads to this diagram: there are lines that no single last man made")
    return lasts


def has_line(men: Mapping[Square, str], board: Size) -> bool:
    """Some side has a line."""
    return any(line_through(men, square, board.length) for square in men)


def interleave(stacks: list[str]) -> tuple[Optional[list[int]], int]:
    """An order in which X and O take turns, or None; and how many states were tried. No state is tried twice."""
    total = sum(map(len, stacks))
    heights = [0] * len(stacks)
    order: list[int] = []
    failed, tried = set(), 0

    def choices() -> Iterator[int]:
        side = "XO"[len(order) % 2]
        fit = [i for i, stack in enumerate(stacks) if heights[i] < len(stack) and stack[heights[i]] == side]
        # The column with the most men left is tried first.
        return iter(sorted(fit, key=lambda i: heights[i] - len(stacks[i])))

    open_choices = [choices()]
    while len(order) < total:
        i = next(open_choices[-1], None)
        if i is None:
            open_choices.pop()
            failed.add(tuple(heights))
            if not order:
                return None, tried
            heights[order.pop()] -= 1
            continue
        heights[i] += 1
        if tuple(heights) in failed:
            heights[i] -= 1
            continue
        order.append(i)
        tried += 1
        if tried >= MOST_TRIED:
            return None, tried
        open_choices.append(choices())
    return order, tried
