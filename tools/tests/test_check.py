"""tools/check.py answers as `victor check` does, text for text and status for status."""

import io
import os
import resource
import subprocess
import sys
import unittest

from common import TOOLS, ToolTest, example, program, read
import check
import mutants

SEED, COUNT = 20, 1000


class CheckTest(ToolTest):
    def test_examples(self):
        """The command on each proof of examples/, on standard input and as a file."""
        words = [sys.executable, os.path.join(TOOLS, "check.py")]
        seen = 0
        for folder, _, names in sorted(os.walk(example())):
            for name in sorted(names):
                if name.endswith(".proof"):
                    path = os.path.join(folder, name)
                    with open(path, "rb") as source:
                        proof = source.read()
                    there = mutants.answer_of([program(), "check"], proof)
                    self.assertEqual(mutants.answer_of(words, proof), there, name)
                    self.assertEqual(mutants.answer_of(words + [path], b""), there, name)
                    seen += 1
        self.assertGreater(seen, 50)

    def test_games(self):
        """The games that are refused, as games of proofs: the kind and the place."""
        for folder, name in [
            (example(part), name) for part in ("refused", "five") for name in os.listdir(example(part))
        ]:
            if name.endswith(".txt"):
                text = b"victor 1\n" + read(os.path.join(folder, name)).encode()
                there = mutants.answer_of([program(), "check"], text)
                self.assertEqual(mutants.answer_here(text), there, name)

    def test_mutants(self):
        """A thousand changed proofs."""
        statuses = {}
        for proof in mutants.mutants(program(), SEED, COUNT):
            here = mutants.answer_here(proof)
            self.assertEqual(here, mutants.answer_of([program(), "check"], proof), proof[:2000])
            statuses[here[0]] = statuses.get(here[0], 0) + 1
        self.assertEqual(sum(statuses.values()), COUNT)
        # Of each kind of answer there are some.
        self.assertEqual(sorted(statuses), [0, 3, 4])
        self.assertGreater(statuses[0], COUNT // 30)

    def test_plan_faults(self):
        """The plan of docs/RULES.md on the empty board of 4 by 4, and the lists that it says are none."""
        plan = "CE:a1 CE:a3 CE:b1 CE:b3 BI:c1,d1 LI:c2-c4,d2-d4"
        eight = " ".join("CE:%s%d" % (letter, row) for letter in "abcd" for row in (1, 3))
        for text, said in (
            (plan, None),
            (plan + " BE:a2h", None),
            (plan + " AE:a2h", "Unsupported 7"),
            (plan.replace("BI:c1,d1 ", ""), "Uncovered c1"),
            (eight, "Unanswered a1h"),
            ("BI:a1,c1 BI:b1,d1 LI:a2-a4,b2-b4 LI:c2-c4,d2-d4", "Clash 1 3"),
            ("CE:a1 HI:a2,b2", "Clash 1 2"),
        ):
            proof = "victor 1\nboard 4 4\nmoves -\n1 - W- plan %s\nvalue unknown\n" % text
            wanted = (4, "", "refused line 4: BadPlan %s\n" % said) if said else (0, "accepted unknown 1\n", "")
            self.assertEqual(mutants.answer_here(proof.encode()), wanted)

    def test_long_lines(self):
        """Lines at the limit and past it, a text without an end, and one whose last line feed is missing."""
        head = b"victor 1\nboard 4 4\nmoves -\n"
        for text in (
            b"",
            b"victor 1",
            b"x" * 9000,
            head,
            head[:-1],
            head + b"value unknown",
            head + b"value unknown\n\n",
            head + b"#" * 8192 + b"\nvalue unknown\n",
            head + b"#" * 8193 + b"\nvalue unknown\n",
            head + b"#" * 3_000_000,
            b"victor 1\nboard 4 4\nmoves " + b"a" * 9000,
            b"victor 1\n" + b"board " * 2000 + b"\nmoves -\n",
            b"victor 1\nboard " + b"4" * 300 + b" 4\nmoves -\n",
            b"victor 1\r\nboard 4 4\r\nmoves -\r\n",
        ):
            self.assertEqual(mutants.answer_here(text), mutants.answer_of([program(), "check"], text), text[:80])

    def test_faults(self):
        self.helps("check.py")
        self.refuses("check.py", "/no/such/file", said="/no/such/file: No such file")
        self.refuses("check.py", "--depth", said="--depth")
        words = [sys.executable, os.path.join(TOOLS, "check.py"), example("usual-board.proof")]
        with open("/dev/full", "wb") as full:
            run = subprocess.run(words, stdout=full, stderr=subprocess.PIPE, stdin=subprocess.DEVNULL)
        self.assertEqual((run.returncode, run.stderr), (7, b"write fault\n"))

        class Failing(io.BytesIO):
            def read1(self, size=-1):
                raise OSError("failed")

        out, err = io.StringIO(), io.StringIO()
        self.assertEqual((check.run(Failing(), out, err), out.getvalue(), err.getvalue()), (6, "", "read fault\n"))

    def test_rate(self):
        """A proof of 7 by 6: how many lemmas a second of processor time."""
        game = b"board 7 6\nmoves bbadcgcddaabcegedcgaec\n"
        for reach in ("0", "1000"):
            proof = subprocess.run([program(), "prove", "--reach", reach], input=game, stdout=subprocess.PIPE).stdout
            there = mutants.answer_of([program(), "check"], proof)
            begin = resource.getrusage(resource.RUSAGE_SELF).ru_utime
            here = mutants.answer_here(proof)
            seconds = resource.getrusage(resource.RUSAGE_SELF).ru_utime - begin
            self.assertEqual(here, there)
            lemmas = int(here[1].split()[2])
            rate = lemmas / max(seconds, 1e-6)
            print("check.py: %d lemmas, %d a second (--reach %s)" % (lemmas, rate, reach))
            if lemmas > 20_000:
                self.assertGreater(rate, 30_000)


if __name__ == "__main__":
    unittest.main()
