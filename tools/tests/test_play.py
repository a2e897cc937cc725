"""lab play: games by a pipe and in a terminal, slips, moves taken back, and a program that fails."""

import os
import pty
import random
import signal
import stat
import subprocess
import tempfile
import time
import unittest

from common import ToolTest, command_of, example, program, read, tool
from victor._notation import read_game

PLAN = "CE:a1 CE:a3 CE:b1 CE:b3 BI:c1,d1 LI:c2-c4,d2-d4"


class PlayTest(ToolTest):
    def plays(self, text, *words, status=0):
        """What is written for these lines."""
        given, out, err = tool("play", "--victor", program(), *words, text=text)
        self.assertEqual((given, err), (status, ""))
        return out

    def ends(self, out, sentence, moves, size="4 4"):
        self.assertEqual(out.split("\n")[-4:], [sentence, "board " + size, "moves " + moves, ""])

    def test_a_whole_game(self):
        """The game of docs/PLAYING.md, by letters of either case and by numbers."""
        out = self.plays("c\nC\n4\n 3 \r\n1\na\nB\n2\n", "--board", "4x4")
        self.assertIn("Black answers by a plan: %s\n" % PLAN, out)
        self.assertIn(" 4 . . . .\n 3 . . B .\n 2 . . W .\n 1 . . W B\n   a b c d\n", out)
        self.assertIn(
            "White c2, Black c3 (Lowinverse, the zone of LI:c2-c4,d2-d4).\n"
            "So the column c1 to c4, in which White has c1 and c2, never gets whole.",
            out,
        )
        self.assertIn("White's column (a-d; u takes back, v values, q ends): C\n", out)
        self.assertNotIn("\033", out)
        self.ends(out, "The board is full and no side has a line: a draw.", "cdccddcdaaaabbbb")
        played = read(example("play", "lowinverse.played")).split("\n")[:-1]
        told = [line.split(" ") for line in out.split("\n") if line.startswith("White ")]
        self.assertEqual(
            [[words[1][:-1], words[3].rstrip(".")] for words in told], [line.split(" ")[:2] for line in played]
        )

    def test_black_wins(self):
        out = self.plays("a\nb\na\n", example("play", "aftereven.txt"))
        self.ends(out, "Black has a line, a2 b2 c2 d2, and wins.", "cccdcdaabb")

    def test_slips(self):
        """Whatever is typed in place of a column, the game goes on."""
        out = self.plays("\nx\n0\n5\ncc\n-1\n10\n\u00e9\n1.5\nc\nc\nc\nc\nc\n", "--board", "4x4")
        self.assertIn("type a column: a to d, or 1 to 4.\n", out)
        for word in ("x", "0", "5", "cc", "-1", "10", "\\xe9", "1.5"):
            self.assertIn("'%s' is no column of this board: a to d, or 1 to 4.\n" % word, out)
        self.assertEqual(out.count("column c is full.\n"), 2)
        self.ends(out, "The game isn't over: White has no line yet.", "cdcccd")
        self.assertIn("'%s..' is no column" % ("y" * 20), self.plays("y" * 5000 + "\n", "--board", "4x4"))

    def test_taking_back(self):
        out = self.plays("u\nc\nc\nu\nd\nu\nu\nu\na\nq\nb\n", "--board", "4x4")
        self.assertEqual(out.count("there is no move to take back.\n"), 2)
        self.ends(out, "The game isn't over: White has no line yet.", "aa")
        # A position behind the first moves isn't gone behind.
        out = self.plays("a\nu\nu\n", example("play", "aftereven.txt"))
        self.ends(out, "The game isn't over: White has no line yet.", "cccdcd")

    def test_white_never_gets_a_line(self):
        rng = random.Random(5)
        for size in ("4x4", "5x4", "6x4", "4x6"):
            typed = "".join(rng.choice("abcdefu"[: int(size[0])] + "u" * (k % 9 == 8)) + "\n" for k in range(90))
            out = self.plays(typed, "--board", size)
            end, game = out.split("\n")[-4], read_game("\n".join(out.split("\n")[-3:]))
            if game.is_over:
                self.assertIn("Black has a line" if game.line else "a draw", end)
                self.assertEqual(game.side if game.line else "W", "W")
            else:
                self.assertIn("isn't over", end)

    def test_a_given_plan(self):
        with tempfile.TemporaryDirectory() as folder:
            path, kept = os.path.join(folder, "plan"), os.path.join(folder, "kept")
            with open(path, "w", encoding="ascii") as out:
                out.write("# which is no plan\nplan CE:a1 CE:a3 CE:b1 CE:b3 BI:c1,d1 HI:c2,d2\n")
            out = self.plays("c\nc\nd\n", "--board", "4x4", "--plan", path, "--keep", kept)
            self.assertIn("White c2, Black c3 (Highinverse, the zone of HI:c2,d2)", out)
            self.assertEqual(read(kept), "\n".join(out.split("\n")[-3:]))
            self.refuses(
                "play",
                "--board",
                "4x4",
                "--moves",
                "a",
                "--plan",
                path,
                "--victor",
                program(),
                said="this is no plan there: refused line 3: NotWhiteToMove",
            )
            self.refuses("play", "--board", "4x4", "--plan", kept, said="no line that begins with `plan `")

    def test_a_whole_proof(self):
        """Both sides of a draw, a win whose holder begins, and lemmas at mirror images."""
        draw = example("two-squares-left.proof")
        for words in (["--side", "white"], []):
            out = self.plays("b\n", "--proof", draw, *words)
            self.assertIn("Black answers by the proof %s.\n" % draw, out)
            self.assertIn("White's column (a-d; u takes back, v values, q ends): b\nWhite b3, Black b4.\n", out)
            self.ends(out, "The board is full and no side has a line: a draw.", "cdccddcdaaaabbbb")
        out = self.plays("u\nb\n", "--proof", draw, "--side", "black")
        self.assertIn("White answers by the proof %s.\nWhite begins with b3.\n" % draw, out)
        self.assertIn("there is no move to take back.\n", out)
        self.ends(out, "The board is full and no side has a line: a draw.", "cdccddcdaaaabbbb")
        out = self.plays("a\nu\na\n", "--proof", example("forced-win.proof"))
        self.assertIn("White begins with a1.\n", out)
        self.assertIn("Black's column (a-d; u takes back, v values, q ends): a\nBlack a2, White a3.\n", out)
        self.ends(out, "White has a line, a3 b3 c3 d3, and wins.", "dccbbdbbddccaaa")
        out = self.plays("", "--proof", example("usual-board.proof"))
        self.ends(out, "White has a line, d1 d2 d3 d4, and wins.", "dcdcdcd", "7 6")
        out = self.plays("c\nq\n", "--proof", example("mirror", "four-tops.proof"))
        self.assertIn("White c4, Black b4.\n", out)
        self.ends(out, "The game isn't over: White has no line yet.", "abdcbacdabdccb")
        out = self.plays("d\nc\n", "--proof", example("mirror", "four-tops.proof"), "--side", "black")
        self.ends(out, "The game isn't over: Black has no line yet.", "abdcbacdabdcbdc")

    def test_no_proof_to_play_against(self):
        with tempfile.TemporaryDirectory() as folder:
            short = os.path.join(folder, "short")
            with open(short, "w", encoding="ascii") as out:
                out.write("victor 1\n")
            for words, said in (
                ([example("forced-win.proof"), "--side", "white"], "has no lemma for Black"),
                ([example("tight-budget.proof")], "has no lemma for Black"),
                ([example("refused", "wrong-verdict.proof")], "can be followed: refused line 10: BadVerdict"),
                ([example("usual-board.txt")], "no text of a game"),
                ([short], "no text of a game"),
                (["/no/such/file"], "No such file"),
                ([example("forced-win.proof"), "--board", "4x4"], "names the game"),
                ([example("forced-win.proof"), "--side", "grey"], "invalid choice"),
            ):
                self.refuses("play", "--victor", program(), "--proof", *words, said=said)
            self.refuses("play", "--victor", program(), "--side", "white", said="--side is for a proof")
            # A program that fails at the first move behind the ten lines of a proof.
            stub = os.path.join(folder, "victor")
            with open(stub, "w", encoding="ascii") as out:
                out.write("#!/bin/bash\n[ $(tail -n +11 | wc -l) -eq 0 ] || exit 7\n")
            os.chmod(stub, stat.S_IRWXU)
            words = ("--victor", stub, "--proof", example("two-squares-left.proof"))
            status, _, err = tool("play", *words, text="b\n")
            self.assertEqual(status, 1)
            self.assertIn("victor follow ended with status 7", err)

    def test_faults(self):
        self.helps("play")
        for words, said in (
            (["--board", "4x4", "--moves", "d"], "Black is to move after d on 4 by 4"),
            (["--board", "4x4", "--moves", "abababa"], "the game has ended after abababa"),
            (["--board", "4x4", "--moves", "dccbbdbbddcc"], "there is no plan after dccbbdbbddcc"),
            (["--reach", "1"], "explain finds no plan after - on 6 by 6 in its reach of 1"),
            (["--reach", "-1"], "--reach takes"),
            (["--board", "5x5"], "no board has"),
            (["--moves", "x"], "'x'"),
            (["/no/such/file"], "there is no file"),
            (["--plan", "/no/such/file"], "No such file"),
            ([example("usual-board.txt"), "--board", "4x4"], "another board"),
            ([example("usual-board.txt"), "--moves", "d"], "--moves can't name one"),
            (["434343"], "finds no plan after dcdcdc on 7 by 6"),
            (["--victor", "/no"], "is no program"),
        ):
            if "--victor" not in words:
                words = words + ["--victor", program()]
            self.refuses("play", *words, said=said)

    def test_stand_ins(self):
        """An answer that can't be played, none at all, and a program that fails are told, with status 1."""
        for script, said in (
            ('[ $(wc -l) -eq 3 ] || echo "c1 c3"', "the answer c3 hangs or is taken"),
            ('[ $(wc -l) -eq 3 ] || echo "c1 g1"', "the answer g1 can't be played"),
            ('[ $(wc -l) -eq 3 ] || echo "c1 d11"', "has written no answer to the last of 1 moves"),
            ("cat >/dev/null", "has written no answer to the last of 1 moves"),
            ('[ $(wc -l) -eq 3 ] || { echo "c1 d1"; exit 7; }', "victor play ended with status 7"),
            ("[ $(wc -l) -eq 3 ]", "victor play ended with status 1"),
        ):
            with tempfile.TemporaryDirectory() as folder:
                path = os.path.join(folder, "victor")
                with open(path, "w", encoding="ascii") as out:
                    out.write("#!/bin/bash\n%s\n" % script)
                os.chmod(path, stat.S_IRWXU)
                status, _, err = tool("play", example("play", "shifted.txt"), "--victor", path, text="c\n")
                self.assertEqual(status, 1, err)
                self.assertIn(said, err)
                self.assertEqual(err.count("\n"), 1)


class TerminalTest(ToolTest):
    def types(self, *typed, **environment):
        """What a terminal shows while this is typed, a prompt for each, and that no process is left."""
        leader, follower = pty.openpty()
        self.addCleanup(os.close, leader)
        words = command_of("play", "--board", "4x4", "--victor", program())
        # An interrupt is heard, also where whoever began the tests in the background had it ignored.
        run = subprocess.Popen(
            words,
            stdin=follower,
            stdout=follower,
            stderr=follower,
            start_new_session=True,
            preexec_fn=lambda: signal.signal(signal.SIGINT, signal.SIG_DFL),
            env={**os.environ, "NO_COLOR": "", "TERM": "xterm", **environment},
        )
        os.close(follower)
        shown = b""
        for n, keys in enumerate(typed, 1):
            while shown.count(b"q ends): ") < n:
                shown += os.read(leader, 4096)
            if keys is None:
                self.interrupt(run)
            else:
                os.write(leader, keys)
        while True:
            try:
                shown += os.read(leader, 4096)
            except OSError:  # so Linux says that the other end is closed
                break
        self.assertEqual(run.wait(20), 0)
        with self.assertRaises(ProcessLookupError):
            os.killpg(run.pid, 0)
        return shown.decode("ascii").replace("\r\n", "\n")

    def interrupt(self, run):
        """Python misses an interrupt that comes just before it begins to read, so a second one may be needed."""
        for _ in range(5):
            time.sleep(0.2)
            os.killpg(run.pid, signal.SIGINT)
            try:
                return run.wait(3)
            except subprocess.TimeoutExpired:
                continue

    def test_colours(self):
        shown = self.types(b"c\n", b"q\n")
        self.assertIn("\033[1;33m\033[7mW\033[0m \033[1;36m\033[7mB\033[0m\n", shown)
        self.assertTrue(shown.endswith("board 4 4\nmoves cd\n"))
        for environment in ({"NO_COLOR": "1"}, {"TERM": "dumb"}):
            shown = self.types(b"c\n", b"q\n", **environment)
            self.assertNotIn("\033", shown)
            self.assertIn(" 1 . . W B\n", shown)

    def test_breaking_off(self):
        """An interrupt and an end of the input end the game, and its text is written."""
        for keys in (None, b"\4"):
            shown = self.types(b"d\n", keys)
            self.assertTrue(shown.endswith("\nThe game isn't over: White has no line yet.\nboard 4 4\nmoves dc\n"))


if __name__ == "__main__":
    unittest.main()
