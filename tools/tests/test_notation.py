"""Positions as people write them."""

import random
import unittest

from common import ToolTest, tool
import victor
from victor import Game
from victor._games import columns_of
from victor._notation import read_position


def diagram_of(game, men="XO"):
    return "\n".join(
        "".join({"W": men[0], "B": men[1]}.get(game.men.get((i, r)), ".") for i in range(game.size.cols))
        for r in range(game.size.rows, 0, -1)
    )


class QuestionTest(ToolTest):
    def reads(self, text, letters, size=None):
        game = read_position(text, size)
        self.assertEqual(game.letters(), letters, text)
        return game

    def fails(self, text, said, size=None):
        with self.assertRaises(victor.Fault) as caught:
            read_position(text, size)
        self.assertIn(said, str(caught.exception))

    def test_lists(self):
        for text in (
            "444333",
            "4 4 4 3 3 3",
            "4,4,4,3,3,3\r\n",
            "dddccc",
            "DDDCCC",
            "d d d c c c",
            "D, D, D; c C c",
            "1. d d 2. d c 3. c c",
            "1 d d\r\n2 d c\r\n3 c c\r\n",
            "d1 d2 d3 c1 c2 c3",
            "d1d2d3c1c2c3",
            "board 7 6\nmoves dddccc",
            "board 7 6\r\nmoves dddccc\r\n",
            "\n dddccc \n",
        ):
            self.reads(text, "dddccc")
        self.reads("-", "-")
        self.reads("0", "j", (10, 6))
        self.reads("19", "ai", (10, 10))

    def test_scores(self):
        """A number behind a list, which may be a score, is never taken for moves."""
        for text, number in (
            ("44455554221 2", "2"),
            ("32164625 11", "11"),
            ("32164625 -1", "-1"),
            ("4 2", "2"),
            ("4,4,3 12", "12"),
            ("4 -1", "-1"),
            ("-1", "-1"),
            ("444,333", "333"),
            ("1. 44 2. 43 2", "2"),
            ("dddccc 2", "2"),
            ("dddccc -2", "-2"),
            ("1. d d 2. d c 11", "11"),
        ):
            self.fails(text, "%r may be a score" % number)
        for text in ("4,3", "4;3", "1. 43", "1. 4 3", "1.4 2.3", "1.43", "d1 c1", "43", "1 d c"):
            self.reads(text, "dc")

    def test_faults_of_lists(self):
        self.fails("", "there is no position")
        self.fails("48", "move 2: the board has no column 8")
        self.fails("40", "move 2: the board has no column 10")
        self.fails("dh", "move 2: 'h' is no column")
        self.fails("d2", "move 1: d2 hangs")
        self.fails("d1 d1", "move 2: d1 hangs or is taken")
        self.fails("ddddddd", "move 7: column d is full")
        self.fails("d!", "'!' is nothing")
        self.fails("ababab a b", "move 8: the game has ended before it")
        self.fails("board 5 5\nmoves a", "no board has")
        self.fails("board 7 6\nmoves a", "another board", (6, 6))

    def test_diagrams(self):
        game = read_position(
            """
            .......
            .......
            ...O...
            ...X...
            ...O...
            ..XXO..
        """
        )
        self.assertEqual(sorted(game.letters()), list("cdddde"))
        self.assertEqual({square for square, man in game.men.items() if man == "W"}, {(3, 1), (3, 3), (2, 1)})
        framed = "| . . . . |\r\n| x . . . |\r\n| o . . . |\r\n| x o . . |\r\n+---------+\r\n  1 2 3 4\r\n"
        self.reads(framed, "aaab")

    def test_what_draw_writes(self):
        """What `lab draw` writes of a position is read again as it stands, whoever has a line in it."""
        for cols, rows, letters in ((4, 4, "cccdcd"), (7, 6, "-"), (7, 6, "dcdcdcd"), (10, 10, "jjjiiiaaaaaaaaaa")):
            game = Game((cols, rows), columns_of(letters))
            drawn = tool("draw", "position", "--text", text=game.text())[1]
            found = read_position(drawn)
            self.assertEqual((found.size.cols, found.size.rows, found.men), (cols, rows, game.men), drawn)

    def test_random_diagrams(self):
        """The men of a game in play, and of one that has ended, are those of the order that is found."""
        rng = random.Random(8)
        for n in range(150):
            cols, rows = rng.choice(((4, 4), (7, 6), (7, 6), (6, 8), (10, 10)))
            game = Game((cols, rows))
            most = rng.randrange(cols * rows + 1)
            while not game.is_over and len(game.moves) < most:
                game = game.after(rng.choice(game.open_columns()))
            found = read_position(diagram_of(game, rng.choice(("XO", "xo", "WB"))))
            self.assertEqual((found.men, found.line, found.is_over), (game.men, game.line, game.is_over))

    def test_faults_of_diagrams(self):
        self.fails("....\n....\n....\nXXX.", "3 X and 0 O")
        self.fails("....\n....\n....\nO...", "0 X and 1 O")
        self.fails("....\n....\nX...\n....", "a man hangs over the empty square a1")
        self.fails(".....\n....\n.....\n.....", "row 2 of the diagram, from the top, has 4 squares")
        self.fails("....\n....\n....\n....\n....", "no board has 4 columns and 5 rows")
        self.fails("....\n....\n....\nRY..", "which of R and Y moved first")
        self.reads("....\n....\nR...\nRY..", "aba", (4, 4))
        self.fails("....\n....\n....\n....", "has 4 columns and 4 rows", (7, 6))
        # Both have four in a line.
        self.fails("....\n....\nOOOO\nXXXX", "no single last man made")
        # O moved first in both columns that are begun.
        self.fails("....\n....\nXX..\nOO..", "can't take turns")
        # X has a line, and O moved after it.
        self.fails("....\nO...\nOOOX\nXXXX", "no single last man made")


if __name__ == "__main__":
    unittest.main()
