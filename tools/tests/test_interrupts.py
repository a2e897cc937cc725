"""Ctrl-C at a terminal: one line, what was finished stands, nothing is left running, and a second call goes on."""

import contextlib
import csv
import os
import pathlib
import pty
import shutil
import signal
import subprocess
import termios
import time
import unittest

from common import ToolTest, command_of, program, read, write
import mutants
import random

WON = "dccbbdbbddcc"  # White, who is to move, wins on 4 by 4


class InterruptTest(ToolTest):
    def setUp(self):
        self.folder = self.folder_for("interrupt test-")
        # A program that takes its time before each proof, and one that never ends.
        slow = f'#!/bin/bash\n[ "$1" != prove ] || sleep 0.4\nexec {program()} "$@"\n'
        self.slow = write(os.path.join(self.folder, "slow"), slow, True)
        self.endless = write(os.path.join(self.folder, "endless"), "#!/bin/bash\nexec sleep 1000.5\n", True)

    def interrupted(self, is_time, *words):
        """What a terminal shows of a call that is interrupted there once it is time, and the status."""
        leader, follower = pty.openpty()
        self.addCleanup(os.close, leader)

        def take_terminal():
            os.setsid()
            os.close(os.open(os.ttyname(0), os.O_RDWR))  # which becomes the session's terminal
            signal.signal(signal.SIGINT, signal.SIG_DFL)

        run = subprocess.Popen(
            command_of(*words), stdin=follower, stdout=follower, stderr=follower, preexec_fn=take_terminal
        )
        self.addCleanup(run.kill)
        attributes = termios.tcgetattr(follower)
        os.close(follower)
        self.assertTrue(attributes[3] & termios.ISIG)
        self.wait_until(is_time)
        self.assertIsNone(run.poll())
        os.write(leader, b"\3")
        shown = b""
        with contextlib.suppress(OSError):  # so Linux says that the other end is closed
            while piece := os.read(leader, 4096):
                shown += piece
        status = run.wait(20)
        lines = [line for line in shown.decode("ascii").replace("^C", "").splitlines() if line]
        self.assertNotIn("Traceback", "".join(lines))
        self.assertEqual(self.left_running(), [])
        return status, lines

    def wait_until(self, test):
        for _ in range(2400):
            if test():
                return
            time.sleep(0.05)
        self.fail("it didn't come to that")

    def left_running(self):
        """The commands of processes that name the folder or this test's endless sleep."""
        found = []
        for path in pathlib.Path("/proc").glob("[0-9]*/cmdline"):
            with contextlib.suppress(OSError):
                words = path.read_bytes().split(b"\0")
                if path.parent.name != str(os.getpid()) and (self.folder.encode() in b" ".join(words)):
                    found.append(words)
        return found

    def is_asked(self):
        """A program of the folder runs."""
        return any(b"prove" in words for words in self.left_running()) or self.sleeps()

    def sleeps(self):
        for path in pathlib.Path("/proc").glob("[0-9]*/cmdline"):
            with contextlib.suppress(OSError):
                if path.read_bytes() == b"sleep\x001000.5\0":
                    return True
        return False

    def proofs(self):
        return sorted(pathlib.Path(self.folder, "proofs").glob("*.proof"))

    def positions(self):
        rng, names = random.Random(6), []
        while len(names) < 14:
            game = mutants.random_game(rng, 7, 6, 40)
            if len(game.moves) >= 32 and game.digits() not in names:
                names.append(game.digits())
        write(os.path.join(self.folder, "list"), "\n".join(names) + "\n")
        return names

    def test_ask(self):
        status, lines = self.interrupted(self.sleeps, "ask", "d", "--by", "prove", "--victor", self.endless)
        self.assertEqual((status, lines), (130, ["lab ask: interrupted"]))
        self.assertFalse(self.sleeps())

    def test_engine(self):
        """An engine that doesn't answer is ended too, in a session of its own as it is."""
        write(os.path.join(self.folder, "engine"), read(self.endless), True)
        words = ("ask", "--moves", "--board", "4x4", "-", "--solver", self.endless, "--victor", self.slow)
        self.assertEqual(self.interrupted(self.sleeps, *words), (130, ["lab ask: interrupted"]))
        self.assertFalse(self.sleeps())

    def batch(self, engine):
        names = self.positions()
        place = os.path.join(self.folder, "proofs")
        words = ["batch", os.path.join(self.folder, "list"), place, "--engine", engine, "-j", "2", "--by", "prove"]
        words += ["--nodes", "100000", "--victor", self.slow]
        status, lines = self.interrupted(lambda: len(self.proofs()) > 2, *words)
        self.assertEqual((status, lines[0]), (130, f"lab batch: {len(names)} positions, 0 done before, 14 to prove"))
        lines = [line for line in lines if not line.endswith(" done")]  # how far it is
        self.assertEqual(len(lines), 2, lines)
        self.assertRegex(
            lines[1], r"^lab batch: interrupted; \d+ of 14 are done, and the same call goes on from there$"
        )
        done = int(lines[1].split()[3])
        with open(os.path.join(place, "positions.csv"), encoding="ascii", newline="") as table:
            rows = list(csv.DictReader(table))
        self.assertEqual([row["position"] for row in rows], names)
        self.assertEqual(sum(row["accepted"] == "both" for row in rows), done)
        self.assertTrue(2 <= done < 14, done)
        self.assertEqual(list(pathlib.Path(place, ".work").glob("*.part")), [])
        again = subprocess.run(command_of(*words), capture_output=True, text=True)
        self.assertEqual(again.returncode, 0, again.stderr)
        self.assertIn(f"14 positions, {done} done before, {14 - done} to prove", again.stdout)

    @unittest.skipUnless(shutil.which("make"), "make isn't there: apt-get install make")
    def test_make(self):
        self.batch("make")

    @unittest.skipUnless(shutil.which("parallel"), "GNU parallel isn't there: apt-get install parallel")
    def test_parallel(self):
        self.batch("parallel")

    @unittest.skipUnless(shutil.which("make"), "make isn't there: apt-get install make")
    def test_parts(self):
        words = ["parts", WON, os.path.join(self.folder, "proofs"), "white", "--board", "4x4", "--at", "2"]
        words += ["--by", "prove", "-j", "1", "--victor"]
        status, lines = self.interrupted(self.sleeps, *words, self.endless)
        self.assertEqual(status, 130)
        self.assertRegex(
            lines[-1], r"^lab parts: interrupted; 0 of \d+ are done, and the same call goes on from there$"
        )
        self.assertEqual(len(lines), 3, lines)  # how many parts there are, what is to be done, and that
        self.assertFalse(self.sleeps())
        again = subprocess.run(command_of(*words, self.slow), capture_output=True, text=True)
        self.assertEqual(again.returncode, 0, again.stderr)
        self.assertIn("one proof of ", again.stderr)


if __name__ == "__main__":
    unittest.main()
