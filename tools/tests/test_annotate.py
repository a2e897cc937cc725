"""lab annotate: what it says of each move of a game."""

import json
import os
import unittest

from common import ToolTest, program, read, tool
import victor._programs

HAS_ENGINE = victor._programs.engine_path() is not None


@unittest.skipUnless(HAS_ENGINE, "the engine isn't built: make -C tools/solve engine")
class AnnotateTest(ToolTest):
    def annotate(self, *words, status=0):
        made, out, err = tool("annotate", *words, "--victor", program())
        self.assertEqual((made, err), (status, ""))
        return out

    def test_lines(self):
        """Black's last move loses, where a keeps the draw, as docs/TEACH.md counts by hand; both proofs are small."""
        lines = self.annotate("--board", "4x4", "ababab").splitlines()
        self.assertEqual(len(lines), 6)
        self.assertRegex(lines[-1], r"^6\. b3 +loses in 2 moves, where a draws in \d+ moves; a mistake \(proved\)$")

    def test_data(self):
        """As data, with the best moves, and with a graph that marks the mistakes."""
        graph = os.path.join(self.folder_for(), "graph.svg")
        made = json.loads(self.annotate("--board", "4x4", "ababab", "--json", "--graph", graph))
        last = made["moves"][-1]
        told = last["number"], last["side"], last["value"], last["moves_to_end"], last["best"], last["best_value"]
        self.assertEqual(told, (6, "Black", "loss", 2, ["a"], "draw"))
        self.assertEqual((last["mistake"], last["proved"]), (True, True))
        mistakes = sum(move["mistake"] for move in made["moves"])
        self.assertEqual(read(graph).count('fill="#b01818"'), mistakes)

    def test_time(self):
        """What wasn't searched in time is said, with status 5; no machine searches 9 by 6 so soon."""
        out = self.annotate("--board", "9x6", "e", "--seconds", "0.01", status=5)
        self.assertEqual(out, "1. e1   not searched in time\n")

    def test_words(self):
        self.helps("annotate")
        self.refuses("annotate", "-", said="the game has no move")
        self.refuses("annotate", "ab", "--seconds", "0", said="--seconds takes")
        self.refuses("annotate", "zz", said="column")


if __name__ == "__main__":
    unittest.main()
