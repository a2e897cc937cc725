"""What a search of `victor` enters and writes, beside a plain program of its rules with no plans.

Which positions are entered depends on what the table of settled positions still has, so a table that keeps less than it
should shows in the least budget that finds a value. The rules: each position entered takes 1 from the budget. The table
is asked first, and in the second format its entry for the mirror image next. Elsewhere the moves are tried from the
centre, the left one first of two as near, up to one that decides. A lemma is written where the table didn't answer.
"""

import collections
import os
import random
import subprocess
import unittest

TOP = os.path.dirname(os.path.dirname(os.path.dirname(os.path.abspath(__file__))))
PROGRAM = os.environ.get("VICTOR") or os.path.join(TOP, "victor")
LETTERS = "abcdefghij"
TABLE = 100_000  # places of a table where no option says so


class Spent(Exception):
    """The budget ran out."""


class Search:
    """A search from one position, with the lemmas that it has written. A position is a text of men for each column."""

    def __init__(self, columns, rows, moves, table=TABLE, nodes=10_000_000, images=False):
        self.columns, self.rows, self.moves = columns, rows, moves
        self.table, self.room, self.images = collections.OrderedDict(), table, images
        self.left, self.nodes, self.lemmas = nodes, nodes, []
        self.order = sorted(range(columns), key=lambda column: (abs(2 * column - columns + 1), column))
        self.root = ("",) * columns
        for letter in moves:
            self.root = self.after(self.root, LETTERS.index(letter))

    @staticmethod
    def to_move(board):
        return "WB"[sum(map(len, board)) % 2]

    def after(self, board, column):
        return board[:column] + (board[column] + self.to_move(board),) + board[column + 1 :]

    def has_line(self, board, man):
        men = {(x, y) for x, column in enumerate(board) for y, own in enumerate(column) if own == man}
        return any(
            all((x + n * right, y + n * up) in men for n in range(4))
            for x, y in men
            for right, up in ((1, 0), (0, 1), (1, 1), (1, -1))
        )

    def is_full(self, board):
        return all(len(column) == self.rows for column in board)

    def look_up(self, board, side):
        if (board, side) in self.table:
            self.table.move_to_end((board, side))
        return self.table.get((board, side))

    def put(self, path, board, side, answer, reason):
        """Writes a lemma and keeps it, in place of what was used longest ago where the table is full."""
        moves = "".join(LETTERS[column] for column in path) or "-"
        self.lemmas.append(f"{len(self.lemmas) + 1} {moves} {side}{'-+'[answer]} {reason}")
        self.table[(board, side)] = answer, len(self.lemmas)
        self.table.move_to_end((board, side))
        if len(self.table) > self.room:
            self.table.popitem(last=False)
        return answer, len(self.lemmas)

    def solve(self, path, board, side):
        """Whether the side wins, and the number of the lemma that shows it."""
        if not self.left:
            raise Spent
        self.left -= 1
        found = self.look_up(board, side)
        if found:
            return found
        image = self.look_up(board[::-1], side) if self.images else None
        if image:
            return self.put(path, board, side, image[0], f"mirror {image[1]}")
        if self.has_line(board, "W") or self.has_line(board, "B") or self.is_full(board):
            return self.put(path, board, side, self.has_line(board, side), "end")
        return self.solve_by_moves(path, board, side)

    def solve_by_moves(self, path, board, side):
        own, numbers = self.to_move(board) == side, {}
        for column in self.order:
            if len(board[column]) < self.rows:
                answer, numbers[column] = self.solve(path + [column], self.after(board, column), side)
                if answer == own:
                    return self.put(path, board, side, own, f"one {LETTERS[column]} {numbers[column]}")
        cites = " ".join(f"{LETTERS[column]}:{number}" for column, number in sorted(numbers.items()))
        return self.put(path, board, side, not own, f"all {cites}")

    def verdict(self):
        """The value for the side to move, with the numbers of its lemmas."""
        try:
            white, first = self.solve([], self.root, "W")
            if white:
                return f"{self.word('W')} {first}"
            black, second = self.solve([], self.root, "B")
            return f"{self.word('B')} {second}" if black else f"draw {first} {second}"
        except Spent:
            return "unknown"

    def word(self, winner):
        return "win" if self.to_move(self.root) == winner else "loss"

    def text(self):
        """The proof, as `prove` writes it."""
        verdict = self.verdict()
        head = [f"victor {1 + self.images}", f"board {self.columns} {self.rows}", f"moves {self.moves or '-'}"]
        return "\n".join([*head, *self.lemmas, f"value {verdict}", ""])

    def entered(self):
        """How many positions the whole search enters."""
        self.verdict()
        return self.nodes - self.left


def victor(words, game):
    """What the program writes for a game; each run has to end with 0 or, for an unknown value, 5."""
    run = subprocess.run(
        [PROGRAM, *words.split()],
        input=game,
        stdout=subprocess.PIPE,
        encoding="ascii",
        timeout=60,
        env={**os.environ, "VICTOR_EXPLAIN": "0"},
    )
    assert run.returncode in (0, 5), run
    return run.stdout


def games(columns, rows, men, count, seed):
    """Games with so many men that go on, made from a seed."""
    rng, made = random.Random(seed), []
    while len(made) < count:
        search, moves = Search(columns, rows, ""), ""
        board = search.root
        while len(moves) < men and not (search.has_line(board, "W") or search.has_line(board, "B")):
            column = rng.choice([column for column in range(columns) if len(board[column]) < rows])
            board, moves = search.after(board, column), moves + LETTERS[column]
        if len(moves) == men and not (search.has_line(board, "W") or search.has_line(board, "B")):
            made.append(moves)
    return made


class SearchTest(unittest.TestCase):
    def prove(self, columns, rows, moves, words, **how):
        made = victor(f"prove --reach 0 {words}", f"board {columns} {rows}\nmoves {moves}\n")
        self.assertEqual(made, Search(columns, rows, moves, **how).text(), f"{moves} {words}")

    def test_both_formats_with_tables_of_any_size(self):
        """The texts are the same, line by line. Behind moves that leave a symmetric board, images are used with White
        to move, with Black to move and at ended positions."""
        asked = [(4, 4, "bbcc"), (5, 4, "ccccbbdd")]
        for columns, rows, men in ((4, 4, 8), (5, 4, 12), (4, 6, 15), (7, 6, 33)):
            asked += [(columns, rows, moves) for moves in games(columns, rows, men, 2, seed=men)]
        for columns, rows, moves in asked:
            for table in (2, 30, TABLE):
                self.prove(columns, rows, moves, f"--table {table}", table=table)
                self.prove(columns, rows, moves, f"--table {table} --format 2", table=table, images=True)

    def test_a_table_has_the_size_that_is_asked_for_and_keeps_on_when_it_is_full(self):
        """The least budget that finds a value is that of a table of so many places, and of no other."""
        for moves in games(5, 4, 7, 1, seed=5):
            entered = {table: Search(5, 4, moves, table).entered() for table in (1_000, 2_000, TABLE)}
            self.assertEqual(len(set(entered.values())), 3, "the sizes don't show here")
            for table, nodes in entered.items():
                self.prove(5, 4, moves, f"--table {table} --nodes {nodes}", table=table, nodes=nodes)
                self.prove(5, 4, moves, f"--table {table} --nodes {nodes - 1}", table=table, nodes=nodes - 1)

    def test_annotate_searches_each_position_within_its_budget_by_a_large_table(self):
        """Without images, which would save positions of the first game."""
        for moves in ["bbccbbcca", *games(4, 4, 9, 4, seed=9)]:
            both = [Search(4, 4, moves[:8]), Search(4, 4, moves)]
            nodes = max(search.entered() for search in both)
            self.assertLess(nodes, max(Search(4, 4, at.moves, 1).entered() for at in both), "a table doesn't show here")
            self.assertNotIn("open", self.annotated(moves, nodes))
            self.assertIn("open", self.annotated(moves, nodes - 1))

    def annotated(self, moves, nodes):
        return victor(f"annotate --reach 0 --last 1 --nodes {nodes}", f"board 4 4\nmoves {moves}\n")

    def test_drill_searches_each_game_within_its_budget_by_a_large_table(self):
        state, searches = 5, []
        for _ in range(40):
            search, moves, board = Search(4, 4, ""), "", ("",) * 4
            while len(moves) < 8 and not (search.has_line(board, "W") or search.has_line(board, "B")):
                state = 48271 * state % 2147483647
                playable = [column for column in range(4) if len(board[column]) < 4]
                column = playable[state % len(playable)]
                board, moves = search.after(board, column), moves + LETTERS[column]
            searches.append(moves)
        entered = [Search(4, 4, moves).entered() for moves in searches]
        self.assertNotEqual(entered, [Search(4, 4, moves, 1).entered() for moves in searches])
        for nodes in sorted(set(entered) - {1})[::8]:
            for budget in (nodes, nodes - 1):
                counts = collections.Counter(
                    Search(4, 4, moves, nodes=budget).verdict().split()[0] for moves in searches
                )
                said = " ".join(f"{word} {counts[word]}" for word in ("win", "draw", "loss", "unknown"))
                self.assertEqual(victor(f"drill --reach 0 --nodes {budget} 4 4 8 5 40", ""), f"drill {said}\n")


if __name__ == "__main__":
    unittest.main()
