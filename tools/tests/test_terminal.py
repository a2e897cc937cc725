"""The program at a terminal: it asks once for the end of its input, and answers each line before the next one."""

import os
import pty
import select
import signal
import time
import unittest

TOP = os.path.dirname(os.path.dirname(os.path.dirname(os.path.abspath(__file__))))
PROGRAM = os.environ.get("VICTOR") or os.path.join(TOP, "victor")
END = b"\x04"  # what a person types for the end of the input, at the beginning of a line
GAME = b"board 4 4\nmoves cdccddcdaaaabb\n"
LIMIT = 20  # seconds by the clock


class Terminal:
    """The program with a terminal for all of its streams."""

    def __init__(self, *words):
        self.process, self.side = pty.fork()
        if not self.process:
            os.environ["VICTOR_EXPLAIN"] = "0"
            os.execv(PROGRAM, [PROGRAM, *words])

    def type(self, text):
        os.write(self.side, text)

    def shows(self, wanted):
        """Whether this comes on the screen, with what was typed, before anything else is typed."""
        seen, end = b"", time.monotonic() + LIMIT
        while wanted not in seen and time.monotonic() < end:
            if select.select([self.side], [], [], 0.1)[0]:
                try:
                    seen += os.read(self.side, 4096).replace(b"\r\n", b"\n")
                except OSError:
                    break
        return wanted in seen

    def status(self):
        """The exit status where the program ends by itself, else None."""
        end = time.monotonic() + LIMIT
        while time.monotonic() < end:
            self.drain()
            ended, status = os.waitpid(self.process, os.WNOHANG)
            if ended:
                os.close(self.side)
                return os.waitstatus_to_exitcode(status)
        os.kill(self.process, signal.SIGKILL)
        os.waitpid(self.process, 0)
        os.close(self.side)
        return None

    def drain(self):
        """Takes what the program writes, so that it never waits."""
        try:
            if select.select([self.side], [], [], 0.1)[0]:
                os.read(self.side, 4096)
        except OSError:
            pass


class TerminalTest(unittest.TestCase):
    def test_the_end_of_the_input_is_asked_for_once(self):
        for words in (["prove"], ["explain"], ["annotate", "--last", "1"]):
            with self.subTest(command=words[0]):
                terminal = Terminal(*words)
                terminal.type(GAME + END)
                self.assertIn(terminal.status(), (0, 5))

    def test_follow_answers_each_line_before_it_asks_for_the_next(self):
        with open(os.path.join(TOP, "examples", "follow", "win.txt"), "rb") as proof:
            lines = proof.read().splitlines(keepends=True)
        terminal = Terminal("follow", "white")
        terminal.type(b"".join(lines[:-1]))
        self.assertTrue(terminal.shows(b"- a1\n"), "the first move isn't written before a line of the other side's")
        terminal.type(lines[-1])
        self.assertTrue(terminal.shows(b"a2 a3 won\n"), "a move isn't answered before the next line")
        terminal.type(END)
        self.assertEqual(terminal.status(), 0)


if __name__ == "__main__":
    unittest.main()
