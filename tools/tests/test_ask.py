"""lab ask: one sentence from a checked proof."""

import os
import random
import re
import stat
import subprocess
import tempfile
import unittest

from common import LAB, ToolTest, example, heard, program, read, tool, write
import mutants
from victor import _answers as answers, _asking as asking

BUSY = "while :; do :; done"  # a program that never ends
TOLD = re.compile(r"(lab ask: [a-z]+ has taken [0-9.]+( of [0-9.]+)? seconds for [-a-j]+\n)*")


class SentenceTest(ToolTest):
    def says(self, wanted, *words, status=0, text=None):
        got = tool("ask", *words, "--by", "prove", "--victor", program(), text=text)
        self.assertEqual(got[0], status, got)
        self.assertRegex(got[2], "^%s$" % TOLD.pattern)
        self.assertEqual(got[1].count("\n"), 1)
        for part in wanted if isinstance(wanted, tuple) else (wanted,):
            self.assertIn(part, got[1])

    def test_values(self):
        self.says("White, who is to move, wins after dcdcdc on 7 by 6 (2 lemmas accepted).", "dcdcdc")
        self.says("White, who is to move, wins after dcdcdc", text="4 3 4 3 4 3\r\n")
        self.says("White, who is to move, wins after dcdcdc", "--file", example("usual-board.txt"))
        self.says("White, who is to move, wins after dcdcdc", example("usual-board.txt"))
        self.says("White has four in a line after abababa on 4 by 4, so Black has lost", "--board", "4x4", "abababa")
        self.says("is a draw for White, who is to move", "--board", "4x4", "cdccddcdaaaabb")
        self.says(
            ("is a draw, since the board is full", "; there is no move."),
            "--moves",
            "--board",
            "4x4",
            "cdccddcdaaaabbbb",
        )
        self.says("White, who is to move, wins", "--board", "4x4", "dccbbdbbddcc")
        # The same with one move more: Black is to move in column a, and every move leads to the line.
        self.says(
            "White wins after dccbbdbbddcca on 4 by 4 against Black, who is to move", "--board", "4x4", "dccbbdbbddcca"
        )

    def test_lines_of_five(self):
        self.says(
            "White has five in a line after aabbccdde on 5 by 4 with lines of five, so Black has lost",
            "--board",
            "5x4x5",
            "aabbccdde",
        )
        self.says(
            "White, who is to move, wins after aabbddee on 5 by 4 with lines of five", "--board", "5x4x5", "aabbddee"
        )

    def test_pipe_from_draw(self):
        """The pipe of docs/TOOLS.md."""
        draw = f"'{LAB}' draw position '{example('usual-board.txt')}' --text"
        line = f"{draw} | '{LAB}' ask --by prove --victor '{program()}'"
        run = subprocess.run(["bash", "-c", line], stdout=subprocess.PIPE, stderr=subprocess.PIPE, encoding="ascii")
        self.assertEqual((run.returncode, run.stderr), (0, ""))
        self.assertRegex(run.stdout, "^White, who is to move, wins after [cd]{6} on 7 by 6 .2 lemmas accepted..\n$")

    def test_moves(self):
        self.says("; the best move is d", "--moves", "--nodes", "20000", "dcdcdc")
        self.says("; the best move is b.", "--moves", "--board", "4x4", "cdccddcdaaaabb")
        self.says("; each move loses.", "--moves", "--board", "4x4", "ddadcbacaabd")
        self.says("; each move wins.", "--moves", "--board", "4x4", "ddbccadabdbb")
        # White has three men in column a.
        self.says("; the best move is a (b, c and d lose).", "--moves", "--board", "4x4", "ababa")

    def test_unknown(self):
        self.says(
            ("stays unknown", "raise it by --nodes above 3 or --reach above 0"),
            "--board",
            "4x4",
            "--nodes",
            "3",
            "--reach",
            "0",
            "-",
            status=5,
        )

    def test_keep(self):
        with tempfile.TemporaryDirectory() as folder:
            path = os.path.join(folder, "kept.proof")
            self.says("wins", "dcdcdc", "--keep", path)
            self.assertEqual(read(path), read(example("usual-board.proof")))

    def test_keep_in_what_is_no_file(self):
        """A pipe is written to as it stands, and a link stays one."""
        proof = read(example("usual-board.proof"))
        with tempfile.TemporaryDirectory() as folder:
            pipe, link = os.path.join(folder, "pipe"), os.path.join(folder, "link")
            self.assertEqual(heard(pipe, lambda: self.says("wins", "dcdcdc", "--keep", pipe))[1], proof)
            os.symlink("kept", link)
            self.says("wins", "dcdcdc", "--keep", link)
            self.assertTrue(os.path.islink(link))
            self.assertEqual(read(os.path.join(folder, "kept")), proof)
            self.says("wins", "dcdcdc", "--keep", "/dev/null")
            self.assertTrue(stat.S_ISCHR(os.stat("/dev/null").st_mode))

    def test_faults(self):
        self.helps("ask")
        for words, said in (
            (["dcdcdcx"], "'x' is no column"),
            (["--board", "7", "d"], "no board"),
            (["--nodes", "0", "d"], "--nodes"),
            (["--reach", "-1", "d"], "--reach"),
            (["d", "--file", "x"], "given twice"),
            (["--file", "/no/such"], "No such file"),
            (["no-such.txt"], "there is no file no-such.txt"),
            (["d", "--victor", "/no/such"], "is no program"),
            (["--nodes", "many", "d"], "--nodes"),
            (["d", "--solver", "/no/such"], "is no program"),
            (["--by", "luck", "d"], "--by"),
            (["--seconds", "0", "d"], "--seconds"),
            (["--seconds", "nan", "d"], "--seconds"),
            (["--memory", "0", "d"], "--memory"),
        ):
            self.refuses("ask", *words, said=said)

    def test_stand_ins(self):
        """A proof about another game, one that isn't accepted, and a program that fails are told, with status 1."""
        usual, other = read(example("usual-board.proof")), read(example("full-board.proof"))
        for proof, script, said in (
            (other, 'cat "$0.proof"', "another game"),
            (usual.replace("one d 1", "one d 2"), 'cat "$0.proof"', "wasn't accepted: refused line 5"),
            (usual.replace("value win 2", "value unknown"), 'cat "$0.proof"', "isn't the one"),
            (usual, 'cat "$0.proof"; exit 7', "status 7"),
        ):
            with tempfile.TemporaryDirectory() as folder:
                path = os.path.join(folder, "victor")
                write(path, f'#!/bin/bash\n[ "$1" = check ] && exec {program()} check\n{script}\n', True)
                write(path + ".proof", proof)
                status, out, err = tool("ask", "dcdcdc", "--by", "prove", "--victor", path)
                self.assertEqual((status, out), (1, ""), err)
                self.assertIn(said, err)
                self.assertEqual(err.count("\n"), 1)


class ValueTest(ToolTest):
    def test_values_by_search(self):
        """Values of random positions, against a search that is written apart."""
        rng = random.Random(2)
        asker = asking.Asker(asking.Means(by="prove", program=program()), self.folder_for())
        for _ in range(25):
            game = mutants.random_game(rng, 4, 4, 15)
            if len(game.moves) < 7:
                continue
            said = answers.sentence(game, asker.answer(game), asker.engines)
            part = {1: "who is to move, wins", 0: "is a draw", -1: "wins after"}[worth(game)]
            self.assertIn(part, said)


def worth(game):
    """1 where the side to move wins, 0 for a draw, -1 where it loses."""
    if game.is_over:
        return -1 if game.line else 0
    return max(-worth(game.after(i)) for i in game.open_columns())


if __name__ == "__main__":
    unittest.main()
