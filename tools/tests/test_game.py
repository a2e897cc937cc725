"""lab game: the text of a game, of a position as people write it; and that the tools read a position alike."""

import os
import tempfile
import unittest

from common import ToolTest, example, read, tool


USUAL = "board 7 6\nmoves dcdcdc\n"


class GameTest(ToolTest):
    def says(self, wanted, *words, text=None):
        self.assertEqual(tool("game", *words, text=text), (0, wanted, ""))

    def test_words(self):
        for word in (
            "dcdcdc",
            "434343",
            "1. d c 2. d c 3. d c",
            "d1 c1 d2 c2 d3 c3",
            example("usual-board.txt"),
            example("usual-board.proof"),
            USUAL,
            USUAL.replace("\n", "\r\n"),
        ):
            self.says(USUAL, word)
            if not os.path.exists(word):
                self.says(USUAL, text=word)
        self.says("board 7 6\nmoves -\n", "")
        self.says("board 8 6 5\nmoves -\n", "--board", "8x6x5", "-")
        self.says("board 4 4\nmoves -\n", example("play", "lowinverse.txt"))

    def test_files(self):
        """A diagram may stand in a file, and a list of moves; a word that is a list names none, whatever is there."""
        with tempfile.TemporaryDirectory() as folder:
            for name, text, wanted in (("list", "434343\n", "dcdcdc"), ("drawn", "....\n....\n....\nXO..\n", "ab")):
                path = os.path.join(folder, name)
                with open(path, "w", encoding="ascii") as out:
                    out.write(text)
                self.assertEqual(tool("game", path)[1].split()[-1], wanted)
            with open(os.path.join(folder, "dcdcdc"), "w", encoding="ascii") as out:
                out.write("no game")
            self.assertEqual(tool("game", "dcdcdc", cwd=folder), (0, USUAL, ""))
            self.refuses("game", os.path.join(folder, "dcdcdc"), said="'n' is no column")

    def test_colours(self):
        """In a diagram in red and yellow the side with a man more moved first."""
        for first, second in ("RY", "YR"):
            drawn = "....\n....\n%s...\n%s%s%s.\n" % (first, first, second, second.lower())
            self.refuses("game", text=drawn, said="can't be known")
            self.says(
                "board 4 4\nmoves %s\n" % tool("game", text=drawn.replace(second.lower(), "."))[1].split()[-1],
                text=drawn.replace(second.lower(), ".").replace(first, "X").replace(second, "O"),
            )
        self.refuses("game", text="....\n....\n....\nRYX.\n", said="")

    def test_alike(self):
        """The same position by its moves, by digits and in a file, for each tool that takes one."""
        plan = read(example("explain", "empty-board.explained"))
        for name, words, text in (
            ("draw", ["position", "--text"], None),
            ("draw", ["position"], None),
            ("draw", ["plan", "--board", "4x4", "--game"], plan),
            ("words", ["--board", "4x4", "--game"], plan),
        ):
            moves = ("-", "-") if text else ("dcdcdc", "434343")
            file = example("explain", "empty-board.txt") if text else example("usual-board.txt")
            said = [tool(name, *words, position, text=text) for position in (*moves, file)]
            self.assertEqual(said, said[:1] * 3)
            self.assertEqual((said[0][0], said[0][2]), (0, ""))

    def test_faults(self):
        self.helps("game")
        self.refuses("game", "dcx", said="'x' is no column")
        self.refuses("game", "no-such.txt", said="there is no file no-such.txt")
        self.refuses("game", "/no/such", said="there is no file /no/such")
        self.refuses("game", "--board", "7", "d", said="no board")
        self.refuses("game", text="", said="there is no position")


if __name__ == "__main__":
    unittest.main()
