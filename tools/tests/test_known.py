"""Positions that a proof of a whole game has, proofs that are made out of it, and best lines."""

import json
import lzma
import os
import pathlib
import random
import tempfile
import unittest
from unittest import mock

from common import TOP, ToolTest, example, program, read, shipped_lemmas, tool
import mutants
import victor
from victor import Game, _asking as asking, _proofs as proofs


class KnownTest(ToolTest):
    """Positions that a proof of the whole game has, and best lines."""

    def says(self, said, *words):
        status, out, err = tool("ask", "--by", "prove", "--victor", program(), *words)
        self.assertIn(said, out, err)
        return status, out

    def test_from_a_proof(self):
        """The lemmas of a proof answer for their positions, those of other orders and their images; else a search."""
        proof = example("forced-win.proof")
        self.says(
            "White, who is to move, wins after dccbbdbbddcc on 4 by 4 (found in ",
            "--from",
            proof,
            "--board",
            "4x4",
            "dccbbdbbddcc",
        )
        lines = [line.split() for line in read(proof).split("\n")[3:] if line[:1].isdigit()]
        path = next(words[1] for words in lines if words[2] == "W+" and len(words[1]) > 1)
        for moves in ("dccbbdbbddcc" + path, ("dccbbdbbddcc" + path).translate(str.maketrans("abcd", "dcba"))):
            self.says("found in ", "--from", proof, "--board", "4x4", moves)
        self.assertNotIn(
            "found in", self.says("who is to move (", "--from", proof, "--board", "4x4", "cdccddcdaaaabb")[1]
        )
        self.refuses("ask", "--from", example("forced-win.txt"), "--victor", program(), "-", said="is no proof")

    def test_packed(self):
        with tempfile.TemporaryDirectory() as folder:
            packed = os.path.join(folder, "proof.txt.xz")
            with lzma.open(packed, "wb") as out:
                out.write(read(example("forced-win.proof")).encode())
            self.says("found in ", "--from", packed, "--board", "4x4", "dccbbdbbddcc")

    def test_at_hand(self):
        """The proof of the usual board answers for what comes up in it, and its text is kept for the next time."""
        with tempfile.TemporaryDirectory() as folder, mock.patch.dict(os.environ, XDG_CACHE_HOME=folder):
            for words, said in (
                (("",), "White, who is to move, wins on the empty board of 7 by 6"),
                (("4",), "White wins after d on 7 by 6 against Black, who is to move"),
                (("dddddebg",), "White, who is to move, wins after dddddebg on 7 by 6"),
                # The image of what another order of the moves of dae leads to.
                (("cgd",), "White wins after cgd on 7 by 6 against Black, who is to move"),
            ):
                status, out, err = tool("ask", "--victor", program(), *words)
                self.assertEqual(status, 0, err)
                self.assertRegex(
                    out,
                    "%s .found in .*proofs/usual-board.txt.xz, %s lemmas accepted."
                    % (said, format(shipped_lemmas(), ",")),
                )
                kept = os.listdir(os.path.join(folder, "victor"))
                self.assertEqual(len(kept), 1)

    def test_kept_text(self):
        """A text that was kept isn't trusted: one that isn't accepted is unpacked again."""
        with tempfile.TemporaryDirectory() as folder, mock.patch.dict(os.environ, XDG_CACHE_HOME=folder):
            packed = os.path.join(folder, "proof.txt.xz")
            with lzma.open(packed, "wb") as out:
                out.write(read(example("forced-win.proof")).encode())
            game = Game.read("dccbbdbbddcc", (4, 4))
            proof, kept = read(example("forced-win.proof")), proofs.kept_path(packed)
            for wrong in (None, proof.replace("value win 4", "value win 3")):
                if wrong:
                    with open(kept, "w", encoding="ascii") as out:
                        out.write(wrong)
                asker = victor.Asker(victor.Means(by="prove", program=program()), folder)
                known = asking.Known(packed, asker, is_shipped=True)
                with mock.patch.object(asking, "is_early", lambda _: True):
                    found = known.answer(game)
                self.assertEqual((found.value, found.lemmas, read(kept)), ("win", 4, proof))
            with open(packed, "rb") as source:
                spoiled = source.read().replace(b"7zXZ", b"7zxz")
            with open(packed, "wb") as out:
                out.write(spoiled)
            self.refuses("ask", "--from", packed, "--victor", program(), "-", said="is no proof")

    def test_lookup(self):
        """What lemmas are found by the moves of a game is what is found by reading all."""
        rng = random.Random(5)
        with tempfile.NamedTemporaryFile("w", suffix=".txt") as made:
            proof = victor.prove(Game.read("ab", (4, 4)), version=2, reach=0, program=program())
            made.write(victor.trim(proof, program=program()).text)
            made.flush()
            count = 0
            for _ in range(60):
                game = Game.read("ab", (4, 4))
                while not game.is_over and rng.random() < 0.85:
                    game = game.after(rng.choice(game.open_columns()))
                there = proofs.claims_at(made.name, game)
                self.assertEqual(proofs.claims_below(made.name, game), there, game)
                count += bool(there)
            self.assertGreater(count, 10)

    def test_extracted(self):
        """What a whole board's proof says of a position is a proof of that alone, which both checkers accept; also
        where its lemmas stand at mirror images and have plans there."""
        rng, plans, values = random.Random(9), 0, set()
        asker = victor.Asker(victor.Means(program=program()), self.folder_for())
        asker.known = [known for known in asker.known if known.name.endswith(self.SMALL)]
        for _ in range(60):
            size = rng.choice([known.size for known in asker.known])
            game = mutants.random_game(rng, size.cols, size.rows, 6)
            for image in (game, game.mirrored()):
                found = (known.proof(image, asker.folder / "out") for known in asker.known)
                answer = next(filter(None, found), None)
                if answer:
                    text = answer.proof.path.read_bytes()
                    self.assertEqual(mutants.answer_here(text)[1], f"accepted {answer.value} {answer.lemmas}\n")
                    self.assertEqual(victor.trim(answer.proof, program=program()).lemmas, answer.lemmas)
                    self.assertNotIn(b" mirror ", text)
                    plans += b" plan " in text
                    values.add(answer.value)
        self.assertGreater(plans, 10)
        self.assertEqual(values, {"win", "draw", "loss"})

    SMALL = ("/4-by-4.txt.xz", "5-by-4.txt.xz", "6-by-4.txt.xz", "/4-by-6.txt.xz")

    def test_folder(self):
        """A folder of proofs may be named, and what is kept of a position is a proof of its own."""
        folder = self.folder_for()
        for name in ("4-by-6.txt.xz", "6-by-4.txt.xz"):
            os.symlink(os.path.join(TOP, "proofs", name), os.path.join(folder, name))
        kept = os.path.join(folder, "kept")
        said = self.says("6-by-4.txt.xz, ", "--from", folder, "--board", "6x4", "c", "--keep", kept)[1]
        found = victor.check(pathlib.Path(kept), Game.read("c", (6, 4)), program=program())
        self.assertIn(f" {found.lemmas:,} lemmas accepted", said)
        self.says("found in ", "--from", folder, "--board", "4x6", "-")

    def test_line(self):
        """A best line ends the game as the value says, and each of its moves keeps that value."""
        for moves, board in (
            ("dccbbdbbddcc", "4x4"),
            ("cdccddcdaaaabb", "4x4"),
            ("abab", "4x4"),
            ("dcdcdc", "7x6"),
            ("eefddgbfadfeaafcebdfbbgdcefe", "7x6"),
        ):
            status, out = self.says("A best line: ", "--line", "--json", "--board", board, moves)
            data = json.loads(out)
            game = Game.read(moves + data["line"], victor.Size.read(board))
            self.assertTrue(game.is_over, data)
            winner = None if not game.line else "WB"[game.side == "W"]
            mover = data["side"][0]
            self.assertEqual(data["value"], "draw" if winner is None else "win" if winner == mover else "loss", data)


if __name__ == "__main__":
    unittest.main()
