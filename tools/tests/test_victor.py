"""The package victor: the session of docs/TOOLS.md, each command as a function, limits, and faults."""

import doctest
import lzma
import os
import pickle
import stat
import tempfile
import time
import unittest
from pathlib import Path
from unittest import mock

from common import TOP, ToolTest, example, read
import victor
from victor import _processes as processes, _programs as programs, _proofs as proofs

USUAL = read(example("usual-board.proof"))


class GameTest(ToolTest):
    def test_forms(self):
        """Each form gives the same game; test_ask.py has more of them."""
        diagram = "\n".join((".......",) * 3 + ("..OX...",) * 3)
        usual = "board 7 6\nmoves dcdcdc\n"
        for text in ("dcdcdc", "434343", "1. d c 2. d c 3. d c", "d1 c1 d2 c2 d3 c3", usual, diagram):
            self.assertEqual(victor.Game.read(text).text(), usual)
        self.assertEqual(victor.Game.read("-", (4, 10)).text(), "board 4 10\nmoves -\n")
        self.fails(lambda: victor.Game.read("dh"), "move 2: 'h' is no column")

    def test_lines_of_five(self):
        for text in ("aabbccdde", "112233445", "board 5 4 5\nmoves aabbccdde\n"):
            game = victor.Game.read(text, (5, 4, 5))
            self.assertEqual(game.text(), "board 5 4 5\nmoves aabbccdde\n")
            self.assertEqual(game.line, ((0, 1), (1, 1), (2, 1), (3, 1), (4, 1)))
        self.assertEqual(victor.Size.read("8x6x5"), (8, 6, 5))
        self.fails(lambda: victor.Game.read("aabbccdde", (5, 4)), "move 8: the game has ended before it")
        self.fails(lambda: victor.Game.read("board 5 4 4\nmoves aa"), "5 behind them where lines of five win")
        self.fails(lambda: victor.Size.read("8x6x6"), "no board has lines of 6")

    def fails(self, call, said):
        with self.assertRaises(victor.Fault) as caught:
            call()
        self.assertIn(said, str(caught.exception))

    def test_after(self):
        game = victor.Game.read("dcdcdc")
        self.assertEqual(game.after(3).letters(), "dcdcdcd")
        self.assertEqual(game.after(3).line, ((3, 1), (3, 2), (3, 3), (3, 4)))
        self.assertEqual((game.letters(), game.is_over, game.after(3).is_over), ("dcdcdc", False, True))
        self.fails(lambda: game.after(7), "move 7: the board has no column 8")

    def test_value(self):
        """A game is a value: it never changes, and equals each with the same men on the same board."""
        game = victor.Game.read("dcdc")
        self.assertEqual({game, victor.Game.read("d c d c"), victor.Game.read("dcdcd").undone()}, {game})
        self.assertEqual(victor.Game.read("abcd"), victor.Game.read("cbad"))
        self.assertNotEqual(game, victor.Game.read("dcdc", (7, 8)))
        self.assertNotEqual(victor.Game.read("ab"), victor.Game.read("ba"))
        self.assertEqual(game.after(0).undone(), game)
        self.fails(lambda: victor.Game.read("-").undone(), "no move to take back")
        for change in (lambda: setattr(game, "moves", ()), lambda: game.men.update({(0, 1): "W"})):
            self.assertRaises(AttributeError, change)
        self.assertEqual(pickle.loads(pickle.dumps(game)).moves, game.moves)

    def test_shown(self):
        """As a text a game is a drawing that is read again, and in a notebook it is one in colours."""
        game = victor.Game.read("cccdcd", (4, 4))
        rows = " 4 . . W .\n 3 . . W .\n 2 . . B B\n 1 . . W B\n   a b c d\n"
        self.assertEqual(str(game), rows + "4 by 4 after cccdcd: White is to move")
        self.assertEqual(victor.Game.read(str(game)), game)
        self.assertEqual(eval(repr(game), {"Game": victor.Game}), game)
        self.assertEqual(game._repr_svg_().count("<circle"), 7)  # six men, and the last one's mark


class SessionTest(ToolTest):
    def test_session(self):
        """The session of docs/TOOLS.md, as it stands there, but for the engine where it isn't built."""
        path = os.path.join(TOP, "docs", "TOOLS.md")
        session = doctest.DocTestParser().get_doctest(read(path), {}, "TOOLS.md", path, 0)
        if not programs.engine_path():
            session.examples = [example for example in session.examples if "Engine()" not in example.source]
        result = doctest.DocTestRunner().run(session)
        self.assertGreater(result.attempted, 9)
        self.assertEqual(result.failed, 0)


class RunTest(ToolTest):
    def setUp(self):
        folder = tempfile.TemporaryDirectory(prefix="victor test-")
        self.addCleanup(folder.cleanup)
        self.folder = Path(folder.name)
        self.game = victor.Game.read("dcdcdc")

    def stub(self, script):
        """A program that is this script of bash."""
        path = self.folder / "stub"
        path.write_text("#!/bin/bash\n" + script, encoding="ascii")
        path.chmod(stat.S_IRWXU)
        return str(path)

    def fails(self, kind, call, *words, **more):
        with self.assertRaises(kind) as caught:
            call(*words, **more)
        return caught.exception

    def test_files(self):
        path = self.folder / "a proof"
        proof = victor.prove(self.game, into=path)
        self.assertEqual((proof.text, proof.path, path.read_text(encoding="ascii")), ("", path, USUAL))
        for given in (proof, path, USUAL, USUAL.encode()):
            self.assertEqual(victor.check(given, self.game), victor.Accepted("win", 2, "accepted win 2\n", 0))
        self.fails(victor.OtherGame, victor.check, path, self.game.after(0))

    def test_upgrade(self):
        game = victor.Game.read("abdcbacdabdc", (4, 4))
        proof = victor.prove(game, reach=0)
        upgraded = victor.upgrade(proof)
        self.assertEqual((upgraded.value, upgraded.lemmas, upgraded.status), ("draw", 29, 0))
        self.assertEqual(upgraded.text.count(" mirror "), 8)
        self.assertEqual(victor.check(upgraded), victor.Accepted("draw", 29, "accepted draw 29\n", 0))
        fault = self.fails(victor.Failed, victor.upgrade, upgraded)
        self.assertEqual((fault.status, fault.text), (4, "refused line 1: BadLine\n"))

    def test_unknown(self):
        game = victor.Game.read("-", (4, 4))
        proof = victor.prove(game, nodes=3, reach=0)
        self.assertEqual((proof.value, proof.status, proof.lemmas), ("unknown", 5, proof.text.count("\n") - 4))
        self.assertEqual(victor.check(proof).value, "unknown")
        self.assertEqual(victor.explain(game, reach=0).plan, None)
        self.assertEqual(victor.explain(game, reach=0).status, 5)

    def test_play(self):
        game = victor.Game.read("abbaabbaddceedee", (5, 4))
        duel = victor.play(game, "BI:c2,d4 CE:c3 SB:b1u,d4,c2", [3])
        self.assertEqual((duel.turns, duel.end, duel.status), ((("d4", "c2"),), "won", 0))
        fault = self.fails(victor.Failed, victor.play, game, "BI:c2,d4 CE:c3", [3])
        self.assertEqual((fault.status, fault.written), (4, ""))
        game = victor.Game.read("-", (4, 4))
        fault = self.fails(victor.Failed, victor.play, game, victor.explain(game).plan, [2, 2, 2, 2])
        self.assertEqual((fault.status, fault.text), (3, "input fault: ColumnFull at line 7\n"))
        self.assertEqual(fault.written, "c1 d1\nc2 c3\nc4 d2\n")

    def test_annotate(self):
        game = victor.Game.read("cdccddcdaababb", (4, 4))
        marks = victor.annotate(game, last=2)
        self.assertEqual(
            [(mark.number, mark.square, mark.word) for mark in marks], [(13, "b2", "bad"), (14, "b3", "ok")]
        )
        self.assertEqual(victor.annotate(game, last=0), ())

    def test_trim(self):
        trimmed = victor.trim(Path(example("trim", "both-questions.proof")))
        self.assertEqual(trimmed.text, read(example("trim", "both-questions.trimmed")))
        self.assertEqual((trimmed.value, trimmed.lemmas), ("draw", 4))
        fault = self.fails(victor.Failed, victor.trim, Path(example("refused", "wrong-verdict.proof")))
        self.assertEqual(fault.status, 4)

    def test_threat(self):
        game = victor.Game.read("dccbbdbaddc", (4, 4))
        found = victor.threat(game)
        self.assertEqual((found.group, found.pairs, found.turns, found.won), ("a3h", ("BI:b4,c4",), (), False))
        found = victor.threat(game, [2, 0])
        self.assertEqual((found.turns, found.won, found.status), ((("c4", "b4"), ("a2", "a3")), True, 0))
        fault = self.fails(victor.Failed, victor.threat, game, [2, 2])
        self.assertEqual((fault.status, fault.text), (3, "input fault: ColumnFull at line 4\n"))
        self.assertEqual(fault.written, "threat a3h BI:b4,c4\nc4 b4\n")
        found = victor.threat(victor.Game.read("-", (4, 4)), [0])
        self.assertEqual((found.group, found.pairs, found.turns, found.won, found.status), (None, (), (), False, 5))

    def test_follow(self):
        """A proof as a text, as a path and as what `prove` gave, for both sides."""
        path = Path(example("two-squares-left.proof"))
        for proof in (path, read(path), read(path).rstrip("\n"), read(path).encode()):
            found = victor.follow(proof, "black", [1])
            self.assertEqual((found.first, found.turns, found.end, found.status), (None, (("b3", "b4"),), "full", 0))
            found = victor.follow(proof, "white", [1])
            self.assertEqual((found.first, found.turns, found.end), ("b3", (("b4", None),), "full"))
            self.assertEqual(victor.follow(proof, "black").text, "")
        found = victor.follow(Path(example("no-last-feed", "four-in-a-column.proof")), "white")
        self.assertEqual((found.first, found.turns, found.end), (None, (), ""))
        found = victor.follow(Path(example("usual-board.proof")), "white")
        self.assertEqual((found.first, found.turns, found.end, found.text), ("d4", (), "won", "- d4 won\n"))
        proof = victor.prove(victor.Game.read("dccbbdbbddcc", (4, 4)))
        self.assertEqual(victor.follow(proof, "white", [0]).turns, (("a2", "a3"),))
        fault = self.fails(victor.Failed, victor.follow, proof, "black")
        self.assertEqual((fault.status, fault.text.split(": ")[1]), (4, "NoClaim\n"))
        fault = self.fails(victor.Failed, victor.follow, path, "white", [0])
        self.assertEqual((fault.status, fault.text), (3, "input fault: ColumnFull at line 11\n"))
        self.assertEqual(fault.written, "- b3\n")
        fault = self.fails(victor.Failed, victor.follow, Path(example("refused", "wrong-verdict.proof")), "black", [1])
        self.assertEqual((fault.status, fault.text), (4, "refused line 10: BadVerdict\n"))
        self.fails(victor.Fault, victor.follow, path, "grey")

    def test_a_long_proof_is_followed(self):
        """A path's text is handed on in pieces, also where the program doesn't read it to its end."""
        path = self.folder / "long"
        path.write_text(read(example("two-squares-left.proof")).replace("value", "# remark\n" * 100_000 + "value"))
        self.assertEqual(victor.follow(path, "black", [1]).turns, (("b3", "b4"),))
        path.write_text(read(example("refused", "cut-line.proof")) + "# remark\n" * 100_000)
        self.assertEqual(self.fails(victor.Failed, victor.follow, path, "black", [1]).status, 4)

    def test_win_by_a_move(self):
        """A proof for the position behind a winning move becomes one of the position, of either side."""
        for letters, size, column in (("dcdcdc", (7, 6), 3), ("dccbbdbbddcc", (4, 4), 0), ("dcdcbcb", (7, 6), 2)):
            game = victor.Game.read(letters, size)
            after = victor.prove(game.after(column), front=4)
            for into in (None, self.folder / "lifted"):
                proof = victor.prove_by_move(game, column, after, into)
                self.assertEqual(victor.check(proof, game).value, "win")
                self.assertEqual(proof.lemmas, after.lemmas + 1)
        self.fails(victor.Fault, victor.prove_by_move, game, 0, after)
        self.fails(victor.Fault, victor.prove_by_move, game, 3, victor.prove(game, reach=0))

    def test_seconds(self):
        """A program is ended when its seconds are spent, and who asked for it is told of the time."""
        told = []
        begin = time.monotonic()
        with mock.patch.object(processes, "FIRST_TOLD", 0.1):
            fault = self.fails(
                victor.OutOfTime,
                victor.prove,
                self.game,
                seconds=0.5,
                tell=told.append,
                program=self.stub("echo begun >&2; while :; do :; done"),
            )
        self.assertLess(time.monotonic() - begin, 20)
        self.assertEqual((fault.status, fault.text, fault.is_starved), (-9, "begun\n", False))
        self.assertIn("its seconds were spent", str(fault))
        fault = self.fails(victor.OutOfTime, victor.prove, self.game, seconds=0.1, program=self.stub("exec sleep 60"))
        self.assertTrue(fault.is_starved)
        self.assertIn("too little of a processor", str(fault))
        self.assertTrue(0.1 <= told[0] <= told[-1] < 20, told)
        self.assertEqual(victor.prove(self.game, seconds=60, tell=told.append).value, "win")

    def test_memory(self):
        stub = self.stub("exec python3 -c 'bytearray(400 << 20)'")
        fault = self.fails(victor.Failed, victor.prove, self.game, program=stub, memory=200)
        self.assertEqual((fault.status, fault.text.split("\n")[-2]), (1, "MemoryError"))

    def test_faults(self):
        for script, status, text in (
            ("echo out of memory >&2; exit 8", 8, "out of memory\n"),
            ("kill -9 $$", -9, ""),
            ("exit 1", 1, ""),
        ):
            fault = self.fails(victor.Failed, victor.prove, self.game, program=self.stub(script))
            self.assertEqual((fault.name, fault.status, fault.text), ("victor prove", status, text))
        self.fails(victor.OtherGame, victor.prove, self.game, program=self.stub("echo victor 1"))
        fault = self.fails(victor.Failed, victor.check, USUAL, program=self.stub("echo accepted all"))
        self.assertEqual((fault.status, fault.written), (0, "accepted all\n"))
        fault = self.fails(victor.Failed, victor.prove, self.game, nodes=0)
        self.assertEqual(fault.status, 2)
        self.assertIn("usage: ", fault.text)
        self.fails(victor.Fault, victor.prove, self.game, program="/no/such")

    def test_solve(self):
        """The words that solve gets, and what its proof and its faults become."""
        words = self.folder / "words"
        stub = self.stub("echo \"$@\" >'%s'; cat '%s'" % (words, example("usual-board.proof")))
        proof = victor.solve(self.game, {"rounds": 3}, seconds=61, memory=500, program=stub)
        self.assertEqual((proof.value, proof.lemmas, proof.text, proof.status), ("win", 2, USUAL, 0))
        self.assertEqual(words.read_text(encoding="ascii"), "--quiet --memory 500 --rounds 3 --seconds 30\n")
        self.assertEqual(victor.check(proof).value, "win")
        five = victor.Game.read("aabbddee", (5, 4, 5))
        proof = victor.solve(five, program=self.stub("cat '%s'" % example("five", "win.proof")))
        self.assertEqual((proof.value, proof.game.size), ("win", five.size))
        fault = self.fails(victor.Failed, victor.solve, self.game, program=self.stub("echo solve: no >&2; exit 2"))
        self.assertEqual((fault.status, fault.text), (2, "solve: no\n"))
        with mock.patch.object(programs, "solver_path", lambda: None):
            self.assertIn("make -C tools/solve", str(self.fails(victor.Fault, victor.find_solver)))

    def test_one_line(self):
        """Whatever is wrong is a fault of one line with its cause: a text for a game, a folder for a file, a full disk,
        and a file that is cut off."""
        cut, packed = self.folder / "cut", self.folder / "cut.xz"
        cut.write_text(USUAL[:30])
        packed.write_bytes(lzma.compress(Path(example("shared-position.proof")).read_bytes())[:-30])
        other = victor.prove(self.game.after(0).after(1), nodes=1, reach=0)
        for call, said in (
            (lambda: victor.prove("434343"), "a game is wanted here, and not a str: Game.read"),
            (lambda: victor.explain(None), "a game is wanted here"),
            (lambda: victor.Game.read(434343), "a text is wanted here"),
            (lambda: victor.check(self.folder), "Is a directory"),
            (lambda: victor.check(12), "a text or the path of one is wanted here"),
            (lambda: victor.check(self.folder / "none"), "No such file"),
            (lambda: victor.prove(self.game, into=self.folder), "Is a directory"),
            (lambda: victor.prove(self.game, into="/dev/full"), "write fault"),
            (lambda: victor.prove_by_move(self.game, 3, after, "/dev/full"), "/dev/full: No space left"),
            (lambda: victor.check(cut), "refused line 4: EndedEarly"),
            (lambda: victor.trim(cut), "refused line 4: EndedEarly"),
            (lambda: proofs.unpacked(packed, self.folder), "cut.xz can't be unpacked: "),
            (lambda: victor.check(other.text, self.game), "another game"),
            (lambda: victor.prove(self.game, program=self.stub("exit 1")), "ended with status 1 and said nothing"),
            (lambda: victor.prove(self.game, program=self.stub("kill -9 $$")), "ended by signal 9 (Killed)"),
        ):
            after = victor.prove(self.game.after(3))
            said_now = str(self.fails(victor.Fault, call))
            self.assertIn(said, said_now)
            self.assertRegex(said_now, r"^[^\n]*[^\n: ]$")


if __name__ == "__main__":
    unittest.main()
