""".ci/answers: its table, and that what was done is kept."""

import json
import os
import subprocess
import tempfile
import unittest

from common import TOP, program, read


class AnswersTest(unittest.TestCase):
    """.ci/answers: its table, and that what was done is kept."""

    def answers(self, *words):
        made = subprocess.run(
            [os.path.join(TOP, ".ci", "answers"), "--victor", program(), *words],
            stdout=subprocess.PIPE,
            stderr=subprocess.PIPE,
            encoding="ascii",
        )
        return made.returncode, made.stdout, made.stderr

    @unittest.skipUnless(os.path.exists(os.path.join(TOP, ".ci", "answers")), "there is no .ci/answers here")
    def test_pieces(self):
        with tempfile.TemporaryDirectory() as folder:
            kept = os.path.join(folder, "kept")
            words = ["--positions", "2", "--seconds", "20", "--kept", kept]
            status, table, err = self.answers("--men", "28", *words)
            self.assertEqual((status, err), (0, ""))
            self.assertRegex(table, r"\n\| 28 \| 2 \| 2 \| 0 \| .*\n\nLeft unknown: none.\n$")
            lines = read(kept).splitlines()
            self.assertEqual(len(lines), 2)
            # A line that was cut is made again, and a position that came too late isn't answered.
            late = dict(json.loads(lines[0]), spent=20.5)
            with open(kept, "w", encoding="ascii") as out:
                out.write(json.dumps(late) + "\n" + lines[1][:-5])
            status, table, err = self.answers("--men", "28-29", *words)
            self.assertEqual((status, err, table.count("\n| 2")), (0, "", 2))
            self.assertIn("\n| 28 | 1 | 2 |", table)
            self.assertIn("Left unknown: `%s`." % late["moves"], table)
        self.assertEqual(self.answers("--men", "28-x")[0], 2)


if __name__ == "__main__":
    unittest.main()
