"""lab parts: one proof of a position from the proofs of positions some moves later."""

import os
import shutil
import tempfile
import unittest

from common import ToolTest, program, read, tool
import mutants
from victor import Game

WON = "dccbbdbbddcc"  # White, who is to move, wins on 4 by 4
EMPTY_LOST = "dcaggegcacefcggebd"  # Black wins on 7 by 6 after these


@unittest.skipUnless(shutil.which("make"), "make isn't there: apt-get install make")
class PartsTest(ToolTest):
    def setUp(self):
        self.folder = tempfile.mkdtemp(prefix="parts test-")
        self.addCleanup(shutil.rmtree, self.folder, True)

    def parts(self, position, side, *words, by="prove"):
        return tool("parts", position, self.folder, side, "--by", by, "--victor", program(), "-j", "2", *words)

    def accepted(self, value, path=None):
        """Both checkers accept what was joined, with this value."""
        proof = read(path or os.path.join(self.folder, "whole.txt")).encode()
        there = mutants.answer_of([program(), "check"], proof)
        self.assertEqual((there[0], there[1].split()[1]), (0, value), there)
        self.assertEqual(mutants.answer_here(proof)[:2], there[:2])
        return int(there[1].split()[2])

    def test_joined(self):
        for at in (1, 2, 3):
            status, _, err = self.parts(WON, "white", "--board", "4x4", "--at", str(at))
            self.assertEqual(status, 0, err)
            self.accepted("win")

    def test_the_other_side(self):
        """Who isn't to move wins: every move is a part, and those that are lost at once are none."""
        status, _, err = self.parts(EMPTY_LOST, "black", "--at", "2", "--reach", "0")
        self.assertEqual(status, 0, err)
        count = self.accepted("loss")
        self.assertIn("one proof of %d lemmas" % count, err)
        # A further call proves nothing again, and one whose part is gone proves that one.
        made = {
            name: os.stat(os.path.join(self.folder, name)).st_mtime_ns
            for name in os.listdir(self.folder)
            if name.endswith(".proof")
        }
        gone = sorted(made)[0]
        os.remove(os.path.join(self.folder, gone))
        status, _, err = self.parts(EMPTY_LOST, "black", "--at", "2", "--reach", "0")
        self.assertEqual(status, 0, err)
        self.accepted("loss")
        same = [name for name in made if os.stat(os.path.join(self.folder, name)).st_mtime_ns == made[name]]
        self.assertEqual(sorted(same), sorted(set(made) - {gone}))

    def test_book(self):
        """A book's move is taken first, also at a mirror image; where it doesn't win, another one is."""
        book = os.path.join(self.folder, "book")
        for line in (WON + " a", WON.translate(str.maketrans("abcd", "dcba")) + " d", WON + " b"):
            with open(book, "w", encoding="ascii") as out:
                out.write("# moves\nboard 4 4\n%s\n" % line)
            status, _, err = self.parts(WON, "white", "--board", "4x4", "--at", "1", "--book", book)
            self.assertEqual(status, 0, err)
            self.accepted("win")

    def test_not_won(self):
        status, _, err = self.parts("cdccddcdaaaabb", "white", "--board", "4x4", "--at", "1")
        self.assertEqual(
            (status, err.split("\n")[-2]), (5, "lab parts: white doesn't win the position after cdccddcdaaaabb")
        )

    def test_a_part_that_fails(self):
        """A part that stays unknown is named, and a further call with more makes it."""
        status, _, err = self.parts(WON, "white", "--board", "4x4", "--at", "2", "--nodes", "1", "--reach", "0")
        self.assertEqual(status, 1, err)
        self.assertIn("these parts have no proof, and a further call makes them again: " + WON, err)
        self.assertEqual(self.parts(WON, "white", "--board", "4x4", "--at", "2")[0], 0)

    def test_list(self):
        status, out, err = self.parts(EMPTY_LOST, "black", "--at", "1", "--write")
        game = Game.read(EMPTY_LOST)
        self.assertEqual(
            (status, sorted(out.split()), err), (0, [game.after(i).digits() for i in game.open_columns()], "")
        )
        self.assertEqual(os.listdir(self.folder), [])

    def test_faults(self):
        self.helps("parts")
        self.refuses("parts", "dcx", self.folder, "white", said="no column")
        self.refuses("parts", "dc", self.folder, "white", "--at", "0", said="--at")
        self.refuses("parts", "dc", self.folder, "red", said="red")


if __name__ == "__main__":
    unittest.main()
