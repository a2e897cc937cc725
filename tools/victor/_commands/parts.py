"""Proves that a side wins a position that is too large for one run: it is split into the positions some moves later,
each is proved by itself as batch does, and what came back is joined into one proof. What is proved isn't proved again
by a further call."""

import argparse
import contextlib
import json
import os
import pathlib
import sys
from typing import BinaryIO, Optional

from .. import _programs as programs, _proofs as proofs
from .._batches import Batch, path_of
from .._engine import Engine, is_searchable
from .._faults import Fault, Unproved
from .._files import output, read_input
from .._games import LETTERS, Game, Size, columns_of
from .._notation import asked_game
from .batch import add_engine
from .options import SEARCH, Parser, means_of, say, size_of

COMMON = ("--board", *SEARCH, "--json", "--out")
STATUS = (
    "Status: 0 where one proof was written, 1 where a part has none, 5 where the side doesn't win, 2 where an argument "
    "is wrong, 130 where it was interrupted."
)
EXAMPLE = "tools/lab parts dcfd parts white --at 4 -j 2"
SIDES = {"white": "W", "black": "B"}
MOST_MOVES = 12
LOOK = 5  # seconds of processor time for what the engine says of a move
MOST_PARTS = 20_000
Men = frozenset[tuple[tuple[int, int], str]]
Book = dict[Men, int]


def add_options(parser: Parser) -> None:
    """The options of this subcommand alone."""
    parser.add_argument("position", help="the position, as people write it, or a file that has one")
    parser.add_argument("folder", help="the folder of the parts")
    parser.add_argument("side", choices=tuple(SIDES), help="who is to win")
    parser.add_argument("--at", type=int, default=4, metavar="N", help="how many moves later the parts stand (4)")
    parser.add_argument("--book", metavar="FILE", help="that side's moves to try first, as tools/solve takes them")
    parser.add_argument("--write", action="store_true", help="write the list of the parts, and run nothing")
    add_engine(parser)


class Node:
    """A position on the way to the parts. `cites` has the nodes that its lemma cites, by columns."""

    def __init__(self, game: Game) -> None:
        self.game = game
        self.cites: dict[int, "Node"] = {}
        self.tried = 0


class Tree:
    """The positions that a proof of a side's win needs, up to some moves later, with one move of its own in each. What
    an engine searches says which moves to try first."""

    def __init__(self, root: Game, side: str, moves: int, book: Book, engine: Optional[Engine] = None) -> None:
        self.side, self.last, self.book = side, len(root.moves) + moves, book
        self.engine = engine if is_searchable(root.size) else None
        self.nodes: dict[Men, Node] = {}
        self.lost: set[Men] = set()
        self.root = self.grown(root)

    def grown(self, game: Game) -> Optional[Node]:
        """The node of a position, with all that it needs; or None where the side doesn't win there by any move left."""
        if game.key in self.lost:
            return None
        node = self.nodes.setdefault(game.key, Node(game))
        if game.is_over:
            if game.line and game.side != self.side:
                return node
            self.lose(game)
            return None
        if len(game.moves) >= self.last:
            return node
        return self.by_one(node) if game.side == self.side else self.by_all(node)

    def by_one(self, node: Node) -> Optional[Node]:
        """The node with the first of the side's moves that may win."""
        choices = self.moves_of(node.game)
        while node.tried < len(choices):
            column = choices[node.tried]
            after = self.grown(node.game.after(column))
            if after:
                node.cites = {column: after}
                return node
            node.tried += 1
        self.lose(node.game)
        return None

    def by_all(self, node: Node) -> Optional[Node]:
        """The node with each move of the other side's."""
        node.cites = {}
        for column in self.moves_of(node.game):
            after = self.grown(node.game.after(column))
            if not after:
                self.lose(node.game)
                return None
            node.cites[column] = after
        return node

    def lose(self, game: Game) -> None:
        """The side doesn't win there."""
        self.lost.add(game.key)
        self.nodes.pop(game.key, None)

    def moves_of(self, game: Game) -> list[int]:
        """The columns, those of the side that is to win in the order in which they are tried: the book's, then those
        that the engine says win, then from the middle."""
        columns = sorted(game.open_columns(), key=lambda column: abs(2 * column - game.size.cols + 1))
        if game.side != self.side:
            return columns
        said = self.book.get(game.key)
        if said is None and self.engine:
            return sorted(columns, key=lambda column: not self.seems_won(game.after(column)))
        return sorted(columns, key=lambda column: column != said)

    def seems_won(self, game: Game) -> bool:
        """The engine says that the side wins, which has moved."""
        if game.is_over:
            return game.line is not None
        return bool(self.engine and self.engine.outcome(game, seconds=LOOK) == "loss")

    def needed(self) -> list[Node]:
        """The nodes that the root needs, those that are cited first."""
        order: list[Node] = []
        seen: set[int] = set()

        def visit(node: Node) -> None:
            if id(node) in seen:
                return
            seen.add(id(node))
            for cited in node.cites.values():
                visit(cited)
            order.append(node)

        if self.root:
            visit(self.root)
        return order

    def parts(self) -> list[Game]:
        """The positions that are to be proved by themselves."""
        return [node.game for node in self.needed() if not node.cites and not node.game.is_over]


def read_book(path: Optional[str], size: Size) -> Book:
    """Replies by positions, also by their mirror images, as tools/solve takes them."""
    replies: Book = {}
    for line in read_input(path).split("\n") if path else ():
        words = line.split()
        if not words or line.startswith("#") or words[0] == "board":
            continue
        game, reply = Game(size, columns_of(words[0])), LETTERS.index(words[1])
        replies[game.mirrored().key] = size.cols - 1 - reply
        replies[game.key] = reply
    return replies


def settle(words: argparse.Namespace, tree: Tree, batch: Batch) -> bool:
    """Has parts proved until the side wins all that its moves need. False where it doesn't win; the parts that stayed
    unknown are a fault."""
    values: dict[str, str] = {}
    while tree.root:
        games = {game.digits(): game for game in tree.parts()}
        if len(games) > MOST_PARTS:
            raise Fault(f"that makes {len(games)} parts, more than {MOST_PARTS}")
        missing = [name for name in games if name not in values]
        if missing:
            say(words.prog, f"{len(games)} parts, of which {len(missing)} are to be proved")
            batch.prove(dict.fromkeys(games))
            values.update({name: "" for name in games}, **batch.values(games))
        against = [game for name, game in games.items() if values[name] in ("draw", wrong_value(game, tree.side))]
        if not against:
            left = [game.letters() for name, game in games.items() if values[name] not in ("win", "loss")]
            if left:
                raise Unproved(f"these parts have no proof, and a further call makes them again: {' '.join(left)}")
            return True
        for game in against:
            tree.lose(game)
        tree.root = tree.grown(words.game)
    return False


def wrong_value(game: Game, side: str) -> str:
    """The value at a position that says that the side doesn't win."""
    return "loss" if game.side == side else "win"


def join(game: Game, tree: Tree, folder: pathlib.Path, out: BinaryIO) -> int:
    """Writes one proof of the root from those of the parts, and gives how many lemmas it has."""
    claim, count, numbers = tree.side.encode() + b"+", 0, {}
    version = max((proofs.version_of(path_of(folder, part.digits())) for part in tree.parts()), default=1)
    out.write(b"victor %d\n%s" % (version, game.text().encode()))
    for node in tree.needed():
        path = b"".join(LETTERS[column].encode() for column in node.game.moves[len(game.moves) :])
        if not node.cites and not node.game.is_over:
            part = path_of(folder, node.game.digits())
            numbers[id(node)] = count + int(proofs.verdict_of(part)[1])
            count += copy_part(part, path, count, out)
            continue
        cites = {column: numbers[id(cited)] for column, cited in node.cites.items()}
        reason = proofs.reason_of(cites, node.game.side == tree.side) if cites else b"end"
        count += 1
        numbers[id(node)] = count
        out.write(b"%d %s %s %s\n" % (count, path or b"-", claim, reason))
    value = "win" if game.side == tree.side else "loss"
    out.write(b"value %s %d\n" % (value.encode(), count))
    return count


def copy_part(part: pathlib.Path, path: bytes, count: int, out: BinaryIO) -> int:
    """Writes the lemmas of a part behind so many others, and gives how many there are."""
    copied = 0
    for line in proofs.lemma_lines(part):
        out.write(proofs.shifted(line, path, count))
        copied += 1
    return copied


def run(words: argparse.Namespace) -> int:
    """Splits, proves and joins, and gives the status."""
    if not 1 <= words.at <= MOST_MOVES:
        raise Fault(f"--at takes a number from 1 to {MOST_MOVES}")
    means = means_of(words)
    words.game = asked_game(words.position, size_of(words))
    path = programs.engine_path(words.solver) if words.by != "prove" else None
    with contextlib.ExitStack() as stack:
        engine = stack.enter_context(Engine(path)) if path else None
        tree = Tree(words.game, SIDES[words.side], words.at, read_book(words.book, words.game.size), engine)
        if words.write:
            sys.stdout.write("".join(game.digits() + "\n" for game in tree.parts()))
            return 0
        batch = Batch(words.prog, words.folder, words.game.size, words.engine, words.jobs, sys.stderr, means)
        is_won = settle(words, tree, batch)
    path = words.out or os.path.join(words.folder, "whole.txt")
    count = 0
    if is_won:
        batch.folder.mkdir(parents=True, exist_ok=True)
        with output(path) as out:
            count = join(words.game, tree, batch.folder, out)
    report(words, is_won, path, count, len(tree.parts()))
    return 0 if is_won else 5


def report(words: argparse.Namespace, is_won: bool, path: str, lemmas: int, parts: int) -> None:
    """Says what came of it."""
    if words.json:
        data = {"moves": words.game.letters(), "side": words.side, "wins": is_won, "lemmas": lemmas, "parts": parts}
        print(json.dumps({**data, "proof": path if is_won else None}))
    elif is_won:
        say(words.prog, f"one proof of {lemmas} lemmas from {parts} parts")
    else:
        say(words.prog, f"{words.side} doesn't win the position after {words.game.letters()}")
