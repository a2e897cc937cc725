"""tools/solve: proofs of small boards and of ends of games, judged by both checkers; books; and what it refuses."""

import os
import random
import re
import resource
import shutil
import signal
import stat
import subprocess
import tempfile
import unittest

from common import TOOLS, ToolTest, heard, program, read, write
import mutants
import victor
from victor import Game
from victor._games import Size
from victor._openings import Openings

SOURCES = os.path.join(TOOLS, "solve")
CAN_BUILD = shutil.which("g++") and shutil.which("make")
# The first strategy is the proof.
UNBETTERED = ("--rounds", "0", "--sweeps", "0")


def game_text(columns, rows, moves, line=4):
    return "board %d %d%s\nmoves %s\n" % (columns, rows, " 5" if line == 5 else "", moves or "-")


def late_game(rng, columns, rows, length, line=4):
    """A random game of this length that goes on before its last move; it may end with that."""
    while True:
        game = Game((columns, rows, line))
        while len(game.moves) < length and not game.is_over:
            longer = [Game((columns, rows, line), [*game.moves, column]) for column in game.open_columns()]
            game = rng.choice([one for one in longer if not one.is_over] or longer)
        if len(game.moves) == length:
            return game.letters()


@unittest.skipUnless(CAN_BUILD, "g++ or make isn't there: apt-get install g++ make")
class SolveTest(ToolTest):
    @classmethod
    def setUpClass(cls):
        cls.folder = tempfile.mkdtemp(prefix="solve test-")
        cls.addClassCleanup(shutil.rmtree, cls.folder, True)
        cls.solver = cls.made("solve")
        cls.planner = cls.made("openings")

    @classmethod
    def made(cls, name):
        """The program as `make` builds it, where a warning is a fault; one that is there already isn't built again."""
        subprocess.run(["make", "-s", "-C", SOURCES, "CXXFLAGS=-O2 -Werror", name], check=True)
        return shutil.copy(os.path.join(SOURCES, name), cls.folder)

    def solve(self, text, *words, **more):
        run = subprocess.run(
            [self.solver, *words],
            input=text,
            stdout=subprocess.PIPE,
            stderr=subprocess.PIPE,
            encoding="utf-8",
            timeout=100,
            **more,
        )
        return run.returncode, run.stdout, run.stderr

    def proof_of(self, text, *words):
        """A proof that both checkers accept, and the line that they write."""
        status, proof, err = self.solve(text, "--quiet", "--memory", "300", *words)
        self.assertEqual((status, err), (0, ""), text)
        version = words[words.index("--format") + 1] if "--format" in words else "1"
        self.assertTrue(proof.startswith("victor %s\n%s" % (version, text)), proof[:100])
        answer = mutants.answer_of([program(), "check"], proof.encode())
        self.assertEqual(answer[0], 0, (text, answer))
        self.assertEqual(mutants.answer_here(proof.encode()), answer)
        return proof, answer[1]

    def test_small_boards(self):
        for columns in (4, 5):
            before = resource.getrusage(resource.RUSAGE_CHILDREN)
            self.proof_of(game_text(columns, 4, ""))
            after = resource.getrusage(resource.RUSAGE_CHILDREN)
            self.assertLess(after.ru_utime - before.ru_utime, 20)

    def test_ends_of_games(self):
        """On ten boards, against the value that `victor prove` finds; positions with each value come."""
        rng = random.Random(11)
        words = set()
        for columns, rows in ((4, 4), (6, 4), (10, 4), (4, 6), (7, 6), (9, 6), (5, 8), (7, 8), (4, 10), (5, 10)):
            for empty in (0, 2, 7, 11, 14, 16):
                moves = late_game(rng, columns, rows, columns * rows - empty)
                words.add(self.value_of(game_text(columns, rows, moves)))
        self.assertEqual(words, {"win", "loss", "draw"})

    def test_lines_of_five(self):
        """The same where lines of five win. That White doesn't win an empty board is one lemma, by a plan."""
        rng = random.Random(5)
        words = set()
        for columns, rows in ((5, 4), (7, 6), (9, 6)):
            for empty in (0, 6, 11):
                moves = late_game(rng, columns, rows, columns * rows - empty, 5)
                words.add(self.value_of(game_text(columns, rows, moves, 5)))
        self.assertLess({"draw"}, words)
        proof = self.proof_of(game_text(4, 4, "", 5))[0]
        self.assertTrue(proof.split("\n")[3].startswith("1 - W- plan "))
        found = victor.solve(Game((4, 4, 5)), program=self.solver, memory=300)
        self.assertEqual((found.value, found.text), ("draw", proof))

    def value_of(self, text):
        """The value in an accepted proof, which is that of `victor prove`."""
        said = self.proof_of(text)[1].split()
        run = mutants.answer_of([program(), "prove", "--nodes", "1000000"], text.encode())
        self.assertEqual(run[0], 0, text)
        self.assertEqual(run[1].split("\n")[-2].split()[1], said[1], text)
        return said[1]

    def test_plans(self):
        """Plans close positions in proofs of draws: on 5 by 4 the first. Here each of the nine rules comes."""
        text = game_text(5, 4, "")
        proof = self.proof_of(text, *UNBETTERED)[0]
        self.assertTrue(proof.split("\n")[3].startswith("1 - W- plan "))
        kinds = set()
        for moves in ("dbdcddddcaba", "babaabbaddbcadbc"):
            text = game_text(4, 6, moves)
            proof = self.proof_of(text)[0]
            kinds |= set(re.findall(r" ([A-Z][A-Z]):", proof))
            plain = self.proof_of(text, "--reach", "0")[0]
            self.assertNotIn(" plan ", plain)
            self.assertLess(proof.count("\n"), plain.count("\n"))
        self.assertEqual(kinds, {"CE", "BI", "LI", "HI", "BC", "VE", "AE", "BE", "SB"})

    def test_ended_games(self):
        for moves in ("abababa", "cdccddcdaaaabbbb"):
            text = game_text(4, 4, moves)
            proof = mutants.answer_of([program(), "prove"], text.encode())[1]
            self.assertEqual(self.proof_of(text)[0], proof)

    def test_options(self):
        """Each way to choose gives a proof, and the better ones a smaller one."""
        text = game_text(7, 6, "dcddddababec")
        plain = self.proof_of(
            text,
            "--order",
            "0",
            "--no-reuse",
            "--look",
            "0",
            "--rounds",
            "0",
            "--part",
            "0",
            "--high",
            "0",
            "--sweeps",
            "0",
        )[0]
        for words in (
            ["--order", "1"],
            ["--order", "2"],
            ["--order", "2", "--closure", "0"],
            ["--part", "10"],
            ["--high", "42", "--probe", "100"],
            ["--order", "3", "--sweeps", "0"],
            ["--starts", "16"],
            ["--seed", "7"],
            ["--seconds", "0"],
            ["--mirror", "42"],
            ["--reach", "1"],
            ["--soon", "3"],
            ["--graph", "40"],
            ["--graph", "40", "--heat", "50", "--seconds", "2"],
            [],
        ):
            proof = self.proof_of(text, "--sweeps", "2", *words)[0]
            self.assertLessEqual(proof.count("\n"), plain.count("\n"))
        self.assertLess(proof.count("\n") * 5, plain.count("\n"))

    def test_images(self):
        """With the second format a position and its image are shown once, which takes fewer lemmas."""
        text = game_text(5, 4, "")
        with_images = self.proof_of(text, "--format", "2", "--sweeps", "0")[0]
        self.assertIn(" mirror ", with_images)
        self.assertLess(with_images.count("\n"), self.proof_of(text, "--sweeps", "0")[0].count("\n"))

    def test_covers(self):
        """Who mustn't lose answers on top of the other side's men: so few positions come with lines of five."""
        text = game_text(4, 6, "", 5)
        covers, plain = (
            self.proof_of(text, "--format", "2", "--order", "3", "--rounds", "1", "--sweeps", "0", *words)[0]
            for words in (["--covers"], [])
        )
        self.assertLess(covers.count("\n") * 2, plain.count("\n"))

    def test_bettered(self):
        """Sweeps and renewed parts make a strategy smaller, from nothing or from a proof of either format."""
        text = game_text(5, 4, "")
        rough = self.proof_of(text, *UNBETTERED, "--part", "0")[0]
        start = self.file("start", rough)
        for form in ("1", "2"):
            again = self.proof_of(text, "--format", form, "--start", start, *UNBETTERED)[0]
            self.assertLessEqual(again.count("\n"), rough.count("\n"))
            swept = self.proof_of(text, "--format", form, "--start", start, "--rounds", "0", "--sweeps", "5")[0]
            self.assertLess(swept.count("\n") * 10, again.count("\n") * 9)
        for also in (rough, swept):
            self.proof_of(text, "--start", start, "--also", self.file("also", also), "--rounds", "1", "--sweeps", "0")

    def test_little_memory(self):
        """Where the table has lost what was dropped for a trial, that comes back as it was."""
        text = game_text(7, 6, "dddddebb")
        much, little = (
            self.proof_of(text, "--format", "2", "--order", "2", "--sweeps", "0", "--memory", memory)[0]
            for memory in ("300", "12")
        )
        self.assertLess(little.count("\n") * 10, much.count("\n") * 11)

    def test_seconds(self):
        """The first strategy is the same however many seconds there are; what is bettered behind it isn't."""
        text = game_text(6, 4, "")
        words = ["--format", "2", "--starts", "0"]
        first = self.proof_of(text, *words, "--order", "2", *UNBETTERED)[0]
        for order in ("2", "4"):
            self.assertEqual(self.proof_of(text, *words, "--order", order, "--seconds", "0")[0], first)

    def test_starts(self):
        """An empty board is taken in by five orders, of which the smallest stays; without --starts by one."""
        text = game_text(5, 4, "")
        words = ["--format", "2", *UNBETTERED, "--order"]
        sizes = [self.proof_of(text, *words, order, "--starts", "0")[0].count("\n") for order in "0123"]
        self.assertEqual(len(set(sizes)), 4)
        five = {self.proof_of(text, *words, order)[0] for order in "03"}
        self.assertEqual(len(five), 1)
        self.assertLess(five.pop().count("\n"), max(sizes))

    def test_graph(self):
        """The same in a graph: of a draw, of which one half has plans, of a late game, and with lines of five."""
        for text in (game_text(5, 4, ""), game_text(4, 4, "", 5), game_text(6, 4, "cc")):
            rough = self.proof_of(text, *UNBETTERED, "--part", "0", "--order", "2")[0]
            start = ["--start", self.file("start", rough), *UNBETTERED]
            for form in ("1", "2"):
                again = self.proof_of(text, "--format", form, *start)[0]
                bettered = self.proof_of(text, "--format", form, *start, "--graph", "60")[0]
                self.assertLess(bettered.count("\n") * 10, again.count("\n") * 9)
        self.fails(text, "needs more memory than its graph has", *start, "--graph", "1")
        # The moves that are written are those of the graph: a proof whose root isn't its own image has as many lemmas
        # as the graph has positions, or fewer, where positions have an end in common.
        path = os.path.join(self.folder, "graph")
        status, _, err = self.solve(
            game_text(7, 6, "dddddebb"),
            "--format",
            "2",
            "--order",
            "1",
            "--part",
            "0",
            *UNBETTERED,
            "--graph",
            "100",
            "--seconds",
            "5",
            "-o",
            path,
        )
        self.assertEqual(status, 0, err)
        sizes = [int(size) for size in re.findall(r"renewing, .* (\d+) lemmas", err)]
        self.assertLess(int(re.search(r"value win (\d+)", err)[1]), sizes[-1] * 1.02)
        # The moves of other proofs, also such as are for no position of the claim's, and such as don't hold.
        text = game_text(6, 4, "cc")
        rough, other = (self.proof_of(text, *UNBETTERED, "--part", "0", "--order", order)[0] for order in ("2", "1"))
        bad = other.translate(str.maketrans("WB", "BW"))
        for also in (other, bad):
            words = ["--start", self.file("start", rough), "--also", self.file("also", also), "--graph", "60"]
            crossed = self.proof_of(text, *words, *UNBETTERED)[0]
            self.assertLess(crossed.count("\n") * 10, min(rough.count("\n"), other.count("\n")) * 9)
        # With little memory, what isn't of the strategy is dropped again and again.
        self.proof_of(game_text(5, 4, ""), "--graph", "2")

    def test_steps(self):
        """A list of steps comes to the same proof in one call or in two, with parts made smaller apart, and leaves no
        other proofs than it needs. A fault is one line."""
        graph = "--memory 200 --graph 16 --work 1"
        steps = self.file(
            "steps",
            "# a small board\n"
            + game_text(5, 4, "")
            + "always --format 2 --starts 0 --rounds 0 --sweeps 0 --quiet\n"
            + "step a - --order 2\nstep b - --order 1\n"
            + f"step hot a {graph} --heat 50 --cool 20\n"
            + f"step below hot --below c {graph}\nstep beside hot --below c --beside {graph}\n"
            + f"step all hot+below+beside,b {graph} --seed 2\nstep last all {graph} --seed 3\n",
        )
        there = tempfile.mkdtemp(prefix="by steps-", dir=self.folder)
        for path in (self.solver, os.path.join(SOURCES, "by-steps")):
            shutil.copy(path, there)

        def by_steps(*words):
            run = subprocess.run([os.path.join(there, "by-steps"), *words], capture_output=True, encoding="utf-8")
            return run.returncode, run.stderr

        once, twice = os.path.join(there, "once"), os.path.join(there, "twice")
        self.assertEqual(by_steps(steps, twice, "0.00001")[0], 0)
        self.assertLess(read(os.path.join(twice, "steps.csv")).count("\n"), 8)
        for words in ((steps, once), (steps, twice, "1")):
            self.assertEqual(by_steps(*words)[0], 0)
            self.assertEqual(set(os.listdir(words[1])), {"game", "steps.csv", "smallest.txt"})
        proof = read(os.path.join(once, "smallest.txt"))
        self.assertEqual(read(os.path.join(twice, "smallest.txt")), proof)
        self.assertEqual(mutants.answer_of([program(), "check"], proof.encode())[0], 0)
        rows = [row.split(",") for row in read(os.path.join(twice, "steps.csv")).splitlines()]
        self.assertEqual([row[0] for row in rows], ["step", "a", "b", "hot", "below", "beside", "all", "last"])
        sizes = {row[0]: int(row[1]) for row in rows[1:]}
        self.assertLess(max(sizes["below"], sizes["beside"]), sizes["hot"])
        self.assertLess(min(sizes["all"], sizes["last"]) * 5, sizes["a"] * 4)
        for words in ((steps,), (steps, once, "x"), (steps, once, "0.0"), (os.path.join(there, "none"), once, "1")):
            status, said = by_steps(*words)
            self.assertEqual((status, said.count("\n")), (2, 1), said)
        bad = self.file("bad steps", game_text(5, 4, "") + "step a - --what\n")
        status, said = by_steps(bad, os.path.join(there, "bad"))
        self.assertEqual(status, 1)
        self.assertTrue(said.endswith("by-steps: a failed\n"), said)

    def test_work(self):
        """With a limit on the work, the same words give the same proof, and more work a smaller one."""
        text = game_text(6, 4, "cc")
        start = self.file("start", self.proof_of(text, *UNBETTERED, "--part", "0")[0])
        words = ["--format", "2", "--start", start, *UNBETTERED, "--graph", "60", "--work"]
        some, again, more = (self.proof_of(text, *words, work)[0] for work in "114")
        self.assertEqual(some, again)
        self.assertLess(more.count("\n"), some.count("\n"))

    def test_parts_apart(self):
        """Two runs make two parts of a strategy smaller, and both gains come together."""
        text = game_text(6, 4, "")
        rough = self.file("rough", self.proof_of(text, "--format", "2", "--rounds", "1", "--sweeps", "0")[0])
        start = ["--format", "2", "--rounds", "0", "--start"]
        below, beside = (
            self.proof_of(text, *start, rough, "--sweeps", "1", "--below", "c", *words)[0]
            for words in ([], ["--beside"])
        )
        both = self.proof_of(
            text, *start, self.file("below", below), "--sweeps", "0", "--changes", rough, self.file("beside", beside)
        )[0]
        self.assertLessEqual(both.count("\n"), min(below.count("\n"), beside.count("\n")))
        for words in ([], ["--beside"]):
            self.proof_of(text, *start, rough, "--sweeps", "0", "--graph", "60", "--below", "c", *words)
        self.fails(text, "--below takes moves", "--below", "cg")

    def test_signals(self):
        """A signal ends the bettering, and the proof that there is gets written; before that one ends the tool."""
        path = os.path.join(self.folder, "ended")
        for number in (signal.SIGTERM, signal.SIGINT):
            words = ["--format", "2", "--memory", "300", "--graph", "60", "--heat", "50", "-o", path]
            with subprocess.Popen(
                [self.solver, *words],
                stdin=subprocess.PIPE,
                stdout=subprocess.PIPE,
                stderr=subprocess.PIPE,
                encoding="utf-8",
            ) as run:
                run.stdin.write(game_text(5, 4, ""))
                run.stdin.close()
                line = next(line for line in run.stderr if "renewing" in line)
                run.send_signal(number)
                said = run.stderr.read()
                self.assertEqual(run.wait(timeout=100), 0, line + said)
            self.assertIn("value draw", said)
            self.assertEqual(mutants.answer_of([program(), "check"], read(path).encode())[0], 0)

    def test_bad_proofs(self):
        """Nothing of a proof that is named is trusted."""
        text = game_text(4, 4, "dcddd")
        proof = self.proof_of(text)[0]
        head = "\n".join(proof.split("\n")[:3]) + "\n"
        for bad, said in (
            ("", "line 1"),
            ("victor 3\n" + text, "line 1"),
            ("victor 1\nboard 5 4\nmoves -\n", "line 2"),
            (head, "it has no value"),
            (head + "nothing\n", "line 4"),
            (head + "1 dddd W- end\n", "it has no value"),
            (head + "1 d W- one d 1\n", "line 4"),
            (head + "1 - W- one e 1\n", "line 4"),
        ):
            for option in ("--start", "--also"):
                self.fails(text, "no proof of this board: " + said, option, self.file("bad", bad))
        self.fails(text, "another game", "--start", self.file("bad", self.proof_of(game_text(4, 4, "dcdd"))[0]))
        self.fails(text, "can't read", "--start", os.path.join(self.folder, "no such proof"))
        self.fails(text, "don't lead to the end", "--start", self.file("bad", head + "value win 1\n"))
        self.proof_of(text, "--also", self.file("bad", head + "1 - W- one a 1\n2 - B- one a 1\nvalue draw 1 2\n"))

    def file(self, name, text):
        path = os.path.join(self.folder, name)
        with open(path, "w", encoding="ascii") as out:
            out.write(text)
        return path

    def book(self, text):
        path = os.path.join(self.folder, "a book")
        with open(path, "w", encoding="ascii") as out:
            out.write(text)
        return path

    def openings(self, text, *words):
        run = subprocess.run(
            [self.planner, *words],
            input=text,
            stdout=subprocess.PIPE,
            stderr=subprocess.PIPE,
            encoding="ascii",
            timeout=100,
            check=False,
        )
        return run.returncode, run.stdout, run.stderr

    def test_openings(self):
        """The moves that `openings` writes win, and a proof is made with them; also from mirror images."""
        text = game_text(6, 4, "")
        status, book, err = self.openings(text, "--black")
        self.assertEqual((status, err), (0, ""))
        head, *lines = book.splitlines()
        self.assertEqual(head, "board 6 4")
        lengths = [len(line.split()[0]) for line in lines]
        self.assertEqual(set(lengths), {1, 3, 5, 7})
        for line in [line for line in lines if len(line) == 9][::40]:
            run = mutants.answer_of(
                [program(), "prove", "--nodes", "1000000"], game_text(6, 4, line.replace(" ", "")).encode()
            )
            self.assertEqual(run[1].split("\n")[-2].split()[:2], ["value", "loss"], line)
        for words in ([], ["--mirror", "8"]):
            self.proof_of(text, "--book", self.book(book), *UNBETTERED, *words)
        status, out, err = self.openings(text)
        self.assertEqual((status, out), (2, ""))
        self.assertEqual(err, "openings: that side wasn't seen to win\n")

    def test_books(self):
        """What a book says is tried, and nothing of it is trusted."""
        text = game_text(4, 4, "dcddd")
        for book in ("board 4 4\n", "# nothing\nboard 4 4\n# nothing", "board 4 4\ndcddd a\ndcdddab a\n- d\n"):
            self.proof_of(text, "--book", self.book(book))
        self.proof_of(game_text(7, 6, "dcddddababec"), "--book", os.path.join(SOURCES, "usual.book"))
        for book, line in (
            ("", "it is empty"),
            ("board 5 4\n", "line 1"),
            ("board 4 4\na\n", "line 2"),
            ("board 4 4\na b\nd e\n", "line 3"),
            ("board 4 4\n- b c\n", "line 2"),
            ("board 4 4\naaaa a\n", "line 2"),
            ("board 4 4\nabababa b\n", "line 2"),
            ("board 4 4\n\n", "line 2"),
            ("board 4 4\na- b\n", "line 2"),
        ):
            self.fails(text, "no book of this board: " + line, "--book", self.book(book))
        self.fails(text, "can't read", "--book", os.path.join(self.folder, "no such book"))

    def test_table(self):
        """By a table of openings, here as `victor prove` has them, a proof is one of the same value. With one that is
        wrong there is none."""
        rows = dict(self.values_of_openings((4, 4), 4))
        self.assertEqual(set(rows.values()), {"loss", "draw"})
        table = self.written("table", "moves,value\n" + "".join(f"{moves},{rows[moves]}\n" for moves in rows))
        for moves in ("", "b", "ab", "abd", "bbbb"):
            text = game_text(4, 4, moves)
            value = self.proof_of(text, *UNBETTERED)[1].split()[1]
            for words in ([], ["--outline", "300000"], ["--outline", "300000", "--soon", "2", "--format", "2"]):
                said = self.proof_of(text, *UNBETTERED, "--table", table, *words)[1]
                self.assertEqual(said.split()[1], value, (moves, words))
        turned = {"win": "loss", "loss": "draw", "draw": "win"}
        wrong = self.written("wrong", "moves,value\n" + "".join(f"{moves},{turned[rows[moves]]}\n" for moves in rows))
        self.fails(game_text(4, 4, ""), "a table of openings is wrong", "--table", wrong, "--outline", "300000")
        wider = self.written("wider", "moves,value\nabce,draw\n")
        self.fails(game_text(4, 4, ""), "is no table of this board", "--table", wider)

    def values_of_openings(self, size, men):
        """The moves of all openings with so many men, also of those with a forced move, and what they are worth."""
        for is_forced in (False, True):
            openings = Openings.of(Size(*size), men, is_forced)
            for moves in openings.listed():
                yield moves, victor.prove(openings.game(moves), nodes=1_000_000, program=program()).value

    def written(self, name, text):
        """The path of a new file."""
        return write(os.path.join(self.folder, name), text)

    def test_table_of_options(self):
        """The document's table is the tool's own, and --help names the same options."""
        table = self.solve("", "--help-table")[1]
        self.assertIn(f"\n\n{table}\n", read(os.path.join(os.path.dirname(TOOLS), "docs", "SOLVED.md")))
        names = re.findall(r"^\| `(-+[a-z-]+)", table, re.M)
        self.assertEqual(re.findall(r"^  (-+[a-z-]+)", self.solve("", "--help")[1], re.M), [*names, "--help-table"])
        self.assertGreater(len(names), 25)

    def test_file(self):
        """A file gets its name when it is whole."""
        text = game_text(4, 4, "dcddd")
        path = os.path.join(self.folder, "a proof")
        game = os.path.join(self.folder, "game.txt")
        with open(game, "w", encoding="ascii") as out:
            out.write(text.rstrip("\n"))
        status, said, err = self.solve("", "-o", path, game)
        self.assertEqual((status, said), (0, ""))
        self.assertIn("searched", err)
        self.assertEqual(read(path), self.proof_of(text)[0])
        self.assertFalse(os.path.exists(path + ".part"))

    def test_what_is_no_file(self):
        """A pipe and a device are written to as they stand, and a link stays one."""
        text = game_text(4, 4, "dcddd")
        proof = self.proof_of(text)[0]
        pipe = os.path.join(self.folder, "a pipe")
        given, said = heard(pipe, lambda: self.solve(text, "--quiet", "-o", pipe))
        self.assertEqual((given, said), ((0, "", ""), proof))
        self.assertTrue(stat.S_ISFIFO(os.stat(pipe).st_mode))
        device = os.path.join(self.folder, "a device")
        os.symlink("/dev/null", device)
        self.assertEqual(self.solve(text, "--quiet", "-o", device), (0, "", ""))
        self.assertTrue(os.path.islink(device) and stat.S_ISCHR(os.stat("/dev/null").st_mode))
        for there in (True, False):
            target = os.path.join(self.folder, "behind %s" % there)
            link = target + " a link"
            os.symlink(os.path.basename(target), link)
            if there:
                open(target, "w", encoding="ascii").close()
            self.assertEqual(self.solve(text, "--quiet", "-o", link), (0, "", ""))
            self.assertTrue(os.path.islink(link))
            self.assertEqual(read(target), proof)
        self.assertEqual([name for name in os.listdir(self.folder) if name.endswith(".part")], [])
        status, _, err = self.solve(text, "--quiet", "-o", self.folder)
        self.assertEqual((status, err.count("\n")), (2, 1))

    def fails(self, text, said, *words, **more):
        path = os.path.join(self.folder, "none")
        status, out, err = self.solve(text, "--quiet", "-o", path, *words, **more)
        self.assertEqual((status, out), (2, ""), err)
        self.assertEqual(err.count("\n"), 1, err)
        self.assertTrue(err.startswith("solve: "), err)
        self.assertIn(said, err)
        self.assertEqual([name for name in os.listdir(self.folder) if name.startswith("none")], [])

    def test_bad_input(self):
        for text, said in (
            ("", "BadHeader at 0"),
            ("board 3 4\nmoves -\n", "BadSize at 6"),
            ("board 4 5\nmoves -\n", "BadSize at 8"),
            ("board 4 4\nmoves -\n\n", "Trailing at 18"),
            ("board 4 4\nmoves e\n", "BadColumn at 16"),
            ("board 4 4\nmoves \n", "BadColumn at 16"),
            ("board 4 4\nmoves ae\n", "BadColumn at 17"),
            ("board 4 4\nmoves -a\n", "Trailing at 17"),
            ("board 4 4\nmoves aaaaa\n", "ColumnFull"),
            ("board 4 4\nmoves abababab\n", "GameOver"),
            ("board 10 10\nmoves -\n", "too large"),
            ("board 4 4 6\nmoves -\n", "BadSize at 10"),
        ):
            self.fails(text, said)
        text = game_text(4, 4, "")
        self.fails(text, "--lemmas", "--lemmas", "0")
        self.fails(text, "--lemmas", "--lemmas", "10000001")
        self.fails(text, "--memory", "--memory", "much")
        self.fails(text, "--memory", "--memory")
        self.fails(text, "--fast", "--fast")
        self.fails(text, "can't read", os.path.join(self.folder, "no such file"))
        self.fails(text, "can't read", self.folder)

    def test_limits(self):
        self.fails(game_text(4, 4, ""), "lemmas, more than 500", "--lemmas", "500", *UNBETTERED)
        self.fails(game_text(6, 4, ""), "more memory", "--memory", "1")
        # A disk that is full.
        limit = {"preexec_fn": lambda: resource.setrlimit(resource.RLIMIT_FSIZE, (10000, 10000))}
        self.fails(game_text(4, 4, ""), "can't write", *UNBETTERED, **limit)
        with open("/dev/full", "w", encoding="ascii") as full:
            run = subprocess.run(
                [self.solver, "--quiet", *UNBETTERED],
                input=game_text(4, 4, ""),
                stdout=full,
                stderr=subprocess.PIPE,
                encoding="ascii",
                timeout=100,
                check=False,
            )
        self.assertEqual((run.returncode, run.stderr.count("\n")), (2, 1))
        path = os.path.join(self.folder, "no folder", "proof")
        status, _, err = self.solve(game_text(4, 4, ""), *UNBETTERED, "-o", path)
        self.assertEqual((status, err.count("\n")), (2, 1))


if __name__ == "__main__":
    unittest.main()
