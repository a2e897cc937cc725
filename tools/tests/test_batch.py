"""lab batch: a list of positions in, a folder of proofs out; killed in the middle, and resumed."""

import csv
import hashlib
import os
import random
import shutil
import signal
import subprocess
import tempfile
import time
import unittest

from common import LAB, TOP, ToolTest, command_of, heard, program, read, tool, write
import mutants
from victor import Game, Size

COUNT = 20
PARALLEL = shutil.which("parallel")
with_make = unittest.skipUnless(shutil.which("make"), "make isn't there: apt-get install make")
# A stand-in for `sbatch --wait SCRIPT`: it runs each task of the array, one after the other.
SBATCH = r"""#!/bin/bash
[ "$1" = --wait ] || exit 9
tasks=$(sed -n 's/^#SBATCH --array=1-\([0-9]*\)%[0-9]*$/\1/p' "$2")
status=0
for task in $(seq "$tasks"); do
    SLURM_ARRAY_TASK_ID=$task bash "$2" || status=1
done
exit "$status"
"""


def letters_of(name):
    return "".join("abcdefg"[int(digit) - 1] for digit in name)


class BatchTest(ToolTest):
    @classmethod
    def setUpClass(cls):
        rng = random.Random(6)
        cls.names = []
        while len(cls.names) < COUNT:
            game = mutants.random_game(rng, 7, 6, 40)
            if len(game.moves) >= 30 and game.digits() not in cls.names:
                cls.names.append(game.digits())

    def setUp(self):
        self.folder = tempfile.mkdtemp(prefix="batch test-")
        self.addCleanup(shutil.rmtree, self.folder, True)
        self.list = os.path.join(self.folder, "list")
        self.out = os.path.join(self.folder, "out of it")
        # Digits, letters, remarks, empty lines and a position that stands there twice.
        lines = [name if n % 2 else letters_of(name) for n, name in enumerate(self.names)]
        write(self.list, "# positions\n\n" + "\r\n".join(lines + [self.names[3]]) + "\n")
        # A program that takes its time before each proof, so that a run can be killed in the middle.
        self.slow = os.path.join(self.folder, "slow victor")
        write(self.slow, '#!/bin/bash\n[ "$1" != prove ] || sleep 0.05\nexec %s "$@"\n' % program(), True)

    def words(self, *more, slow=False):
        victor = self.slow if slow else program()
        return [self.list, self.out, "--by", "prove", "--nodes", "100000", "-j", "2", "--victor", victor, *more]

    def proofs(self):
        names = os.listdir(self.out) if os.path.isdir(self.out) else []
        return sorted(name[:-6] for name in names if name.endswith(".proof"))

    def rows(self):
        with open(os.path.join(self.out, "positions.csv"), encoding="ascii", newline="") as source:
            return list(csv.DictReader(source))

    def is_whole(self, name):
        """The file is a proof from its first line to its verdict, and about its name's position."""
        path = os.path.join(self.out, name + ".proof")
        with open(path, "rb") as source:
            proof = source.read()
        head = "victor 1\nboard 7 6\nmoves %s\n" % letters_of(name)
        return proof.startswith(head.encode()) and mutants.answer_here(proof)[0] == 0

    def check_table(self):
        rows = self.rows()
        self.assertEqual([row["position"] for row in rows], self.names)
        for row in rows:
            with open(os.path.join(self.out, row["position"] + ".proof"), "rb") as source:
                proof = source.read()
            self.assertEqual(row["accepted"], "both")
            self.assertEqual(row["sha256"], hashlib.sha256(proof).hexdigest())
            there = mutants.answer_of([program(), "check"], proof)
            self.assertEqual(there, (0, "accepted %s %s\n" % (row["value"], row["lemmas"]), ""))
            self.assertGreaterEqual(float(row["seconds"]), 0)
        self.assertEqual([name for name in os.listdir(self.out) if name.endswith(".part")], [])
        return rows

    def kill_and_resume(self, engine, **more):
        words = command_of("batch", *self.words("--engine", engine, slow=True))
        run = subprocess.Popen(
            words, stdout=subprocess.DEVNULL, stderr=subprocess.DEVNULL, start_new_session=True, **more
        )
        limit = time.monotonic() + 60
        while len(self.proofs()) < COUNT // 4 and run.poll() is None and time.monotonic() < limit:
            time.sleep(0.01)
        os.killpg(run.pid, signal.SIGKILL)
        run.wait()
        time.sleep(0.5)  # steps that had begun end by themselves
        found = self.proofs()
        self.assertGreaterEqual(len(found), COUNT // 4)
        self.assertLess(len(found), COUNT)
        self.assertTrue(all(map(self.is_whole, found)), found)
        self.assertFalse(os.path.exists(os.path.join(self.out, "positions.csv")))
        # What was done isn't run again: its file stays the same one.
        files = {name: os.stat(os.path.join(self.out, name + ".proof")).st_mtime_ns for name in found}
        rows = {name for name in found if os.path.exists(os.path.join(self.out, ".work", name + ".row"))}
        status, out, err = tool("batch", *self.words("--engine", engine), **more)
        self.assertEqual(status, 0, err)
        self.assertIn("%d positions, " % COUNT, out)
        for name in rows:
            self.assertEqual(os.stat(os.path.join(self.out, name + ".proof")).st_mtime_ns, files[name], name)
        return self.check_table()

    @with_make
    def test_make(self):
        rows = self.kill_and_resume("make")
        # Nothing is left to do.
        status, out, _ = tool("batch", *self.words())
        said = "lab batch: %d positions, %d done before, %d to prove"
        self.assertEqual((status, out.split("\n")[0]), (0, said % (COUNT, COUNT, 0)))
        # A proof that was cut, one that was changed and one that is gone are made anew.
        paths = [os.path.join(self.out, self.names[n] + ".proof") for n in (5, 6, 7)]
        text = read(paths[0])
        write(paths[0], text[: len(text) // 2])
        text = read(paths[1])
        write(paths[1], text.replace("victor 1", "victor 2"))
        os.remove(paths[2])
        status, out, _ = tool("batch", *self.words())
        self.assertEqual((status, out.split("\n")[0]), (0, said % (COUNT, COUNT - 3, 3)))
        again = self.check_table()
        keys = ("position", "value", "lemmas", "sha256", "accepted")
        self.assertEqual([[row[key] for key in keys] for row in again], [[row[key] for key in keys] for row in rows])

    @unittest.skipUnless(PARALLEL, "GNU parallel isn't there: apt-get install parallel")
    def test_parallel(self):
        self.kill_and_resume("parallel")

    def test_slurm(self):
        """The script of the array, run by a stand-in for sbatch."""
        tools = os.path.join(self.folder, "bin")
        os.mkdir(tools)
        write(os.path.join(tools, "sbatch"), SBATCH, True)
        path = {**os.environ, "PATH": tools + ":" + os.environ["PATH"]}
        self.kill_and_resume("slurm", env=path)
        script = read(os.path.join(self.out, ".work", "array.sh"))
        self.assertTrue(script.startswith("#!/bin/bash\n#SBATCH "))

    def test_commands(self):
        """--write runs nothing. The commands are plain: each is one that a shell runs by itself."""
        write(self.list, "4444\n" + "\n".join(self.names[:3]) + "\n")
        status, out, err = tool("batch", *self.words("--write"))
        self.assertEqual((status, err), (0, ""))
        self.assertEqual(self.proofs(), [])
        commands = read(os.path.join(self.out, ".work", "commands")).split("\n")[:-1]
        self.assertEqual(len(commands), 4)
        self.assertNotIn(TOP, "".join(commands))
        elsewhere = {**os.environ, "LAB": LAB, "VICTOR": program()}
        run = subprocess.run(["bash", "-c", commands[1]], stdin=subprocess.DEVNULL, cwd=self.out, env=elsewhere)
        self.assertEqual(run.returncode, 0)
        self.assertEqual(self.proofs(), [self.names[0]])
        self.assertTrue(self.is_whole(self.names[0]))

    def test_all_positions(self):
        """How many positions there are after so many moves, by a count that is written apart."""
        for size, most in (("4x4", 6), ("7x6", 4)):
            cols, rows, _length = Size.read(size)
            level = {frozenset(): []}
            for _ in range(most):
                further = {}
                for moves in level.values():
                    for i in Game((cols, rows), moves).open_columns():
                        game = Game((cols, rows), [*moves, i])
                        if not game.is_over:
                            further.setdefault(frozenset(game.men.items()), game.moves)
                level = further
            status, out, err = tool("batch", "--all", str(most), "--board", size)
            self.assertEqual((status, err), (0, ""))
            names = out.split()
            self.assertEqual(len(names), len(level))
            games = [Game((cols, rows), [int(digit) - 1 for digit in name]) for name in names]
            self.assertEqual({frozenset(game.men.items()) for game in games}, set(level))

    @with_make
    def test_unknown(self):
        """What is unknown within a budget is run again with another one alone."""
        write(self.list, "-\n4\n")
        words = [self.list, self.out, "--board", "4x4", "--by", "prove", "--reach", "0", "--victor", program()]
        status, out, _ = tool("batch", *words, "--nodes", "50")
        self.assertEqual((status, out.split("\n")[1]), (0, "lab batch: 2 unknown"))
        status, out, _ = tool("batch", *words, "--nodes", "50")
        self.assertIn("2 done before, 0 to prove", out)
        status, out, _ = tool("batch", *words, "--nodes", "60")
        self.assertIn("0 done before, 2 to prove", out)
        self.assertEqual([row["position"] for row in self.rows()], ["start", "4"])
        self.assertEqual({row["value"] for row in self.rows()}, {"unknown"})

    @with_make
    def test_what_is_no_file(self):
        """The table is written behind a link and to a pipe, as are proofs behind links; no proof is a pipe."""
        name = self.names[0]
        write(self.list, name + "\n")
        os.mkdir(self.out)
        elsewhere = os.path.join(self.folder, "elsewhere")
        table, proof = (os.path.join(self.out, file) for file in ("positions.csv", name + ".proof"))
        for file in (table, proof):
            os.symlink(elsewhere + file[-4:], file)
        status, _, err = tool("batch", *self.words())
        self.assertEqual((status, os.path.islink(table), os.path.islink(proof)), (0, True, True), err)
        self.assertIn(name, read(elsewhere + ".csv"))
        self.assertTrue(self.is_whole(name))
        rows = read(elsewhere + ".csv")
        os.remove(table)
        (status, _, err), said = heard(table, lambda: tool("batch", *self.words()))
        self.assertEqual((status, said), (0, rows), err)
        os.remove(table)
        os.remove(proof)
        os.mkfifo(proof)
        self.refuses("batch", *self.words(), said="isn't a file")

    @with_make
    def test_failing_program(self):
        """Where a program fails, no proof gets its name, and the status says so."""
        write(self.list, "\n".join(self.names[:2]) + "\n")
        write(self.slow, "#!/bin/bash\nexit 7\n", True)
        status, out, err = tool("batch", *self.words(slow=True))
        self.assertEqual((status, out.split("\n")[1], self.proofs()), (1, "lab batch: 2 missing", []), err)
        self.assertIn("ended with status 7", err)

    @with_make
    def test_refused_proof(self):
        """A proof that a checker refuses is in the table as such, and is run again."""
        write(self.list, self.names[0] + "\n")
        write(
            self.slow,
            "#!/bin/bash\n[ \"$1\" = prove ] || exec %s $1\n%s prove | sed 's/^value .*/value win 1/'\n"
            % (program(), program()),
            True,
        )
        status, out, err = tool("batch", *self.words(slow=True))
        row = self.rows()[0]
        if row["accepted"] == "both":
            self.assertEqual(row["value"], "win")  # the edit made no difference
        else:
            self.assertEqual((status, row["accepted"], row["value"]), (1, "none", ""))
            self.assertIn("0 done before, 1 to prove", tool("batch", *self.words())[1])

    @with_make
    def test_bad_lines(self):
        """All lines that are none are told at once, and the rest is done."""
        name = self.names[0]
        write(self.list, "48\n%s\n444 2 3\nxyz\n" % name)
        status, out, err = tool("batch", *self.words())
        said = (
            "lab batch: line 1: move 2: the board has no column 8 (columns count from 1)",
            "lab batch: line 3: '3' stands behind the position: a line has one word, and maybe a score",
            "lab batch: line 4: move 1: 'x' is no column of this board (a to g)",
        )
        self.assertEqual((status, tuple(err.split("\n")[:3])), (1, said), out)
        self.assertEqual([row["position"] for row in self.rows()], [name])

    @with_make
    def test_scores(self):
        """A score behind a position is no move. It is compared with the value that the proof shows."""
        found = {}
        write(self.list, "\n".join(self.names[:4]) + "\n")
        self.assertEqual(tool("batch", *self.words())[0], 0)
        for row in self.rows():
            found[row["position"]] = {"win": 3, "draw": 0, "loss": -7}[row["value"]]
        write(self.list, "".join("%s %d\n" % pair for pair in found.items()))
        status, _, err = tool("batch", *self.words())
        self.assertEqual((status, err), (0, ""))
        write(self.list, "".join("%s %d\n" % (name, score or 1) for name, score in found.items()).replace(" -", " "))
        status, _, err = tool("batch", *self.words())
        others = [name for name, score in found.items() if score <= 0]
        self.assertEqual((status, err.count("the score says win")), (1 if others else 0, len(others)), err)

    def test_faults(self):
        self.helps("batch")
        write(self.list, "48\n")
        self.assertEqual(tool("batch", *self.words())[:2], (2, ""))
        write(self.list, "# none\n")
        self.refuses("batch", *self.words(), said="no position")
        write(self.list, "444\n")
        self.refuses("batch", self.list, said="a list and a folder")
        self.refuses("batch", "/no/such/list", self.out, said="No such file")
        self.refuses("batch", *self.words("--engine", "cron"), said="cron")
        self.refuses("batch", *self.words("-j", "0"), said="-j")
        self.refuses("batch", "--all", "99", said="--all")
        tool("batch", *self.words("--write"))
        self.refuses("batch", *self.words("--board", "6x6"), said="for positions of the board 7x6")


if __name__ == "__main__":
    unittest.main()
