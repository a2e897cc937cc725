"""tools/solve/engine: values and scores against a plain search and the shipped proofs, its protocol, `stop`, limits,
and the table of openings. It stands alone: of the tools it runs `engine`, and nothing else."""

import json
import lzma
import os
import random
import re
import shutil
import subprocess
import sys
import tempfile
import time
import unittest

HERE = os.path.dirname(os.path.abspath(__file__))
TOP = os.path.dirname(os.path.dirname(HERE))
ENGINE = os.path.join(TOP, "tools", "solve", "engine")
PROGRAM = os.environ.get("VICTOR") or os.path.join(TOP, "victor")
COMPILER = shutil.which("g++")
LETTERS = "abcdefghij"
BOARDS = (
    (4, 4),
    (5, 4),
    (6, 4),
    (7, 4),
    (10, 4),
    (4, 6),
    (5, 6),
    (6, 6),
    (7, 6),
    (8, 6),
    (9, 6),
    (4, 8),
    (5, 8),
    (7, 8),
    (4, 10),
    (5, 10),
)
# How many positions of the plain search have this many empty squares, from none on: it takes long for many.
EMPTY = (20, 20, 20, 30, 60, 120, 180, 230, 280, 220, 150, 50, 15, 3, 1)
# These take more than some seconds.
SLOW = ("board 4 10", "board 5 8", "board 5 8 5", "board 6 6 5", "board 8 4 5", "board 9 4 5")


class Player:
    """A game that nobody has won, for random moves: the men in each column, from below."""

    def __init__(self, columns, rows, length):
        self.columns, self.rows, self.length, self.moves = columns, rows, length, ""
        self.sides = [[] for _ in range(columns)]

    def open_columns(self):
        return [column for column in range(self.columns) if len(self.sides[column]) < self.rows]

    def play(self, column):
        """Whether the game goes on with this move, or is drawn; else it isn't made."""
        self.sides[column].append(len(self.moves) % 2)
        steps = ((1, 0), (0, 1), (1, 1), (1, -1))
        if any(self.run(column, *step) + self.run(column, -step[0], -step[1]) + 1 >= self.length for step in steps):
            self.sides[column].pop()
            return False
        self.moves += LETTERS[column]
        return True

    def play_any(self, rng):
        """The same with some move, where there is one."""
        columns = self.open_columns()
        rng.shuffle(columns)
        return any(self.play(column) for column in columns)

    def run(self, column, across, up):
        row = len(self.sides[column]) - 1
        side, count = self.sides[column][row], 0
        while True:
            column, row = column + across, row + up
            if not (0 <= column < self.columns and 0 <= row < len(self.sides[column])):
                return count
            if self.sides[column][row] != side:
                return count
            count += 1


def played(rng, columns, rows, length, men):
    """The letters of a random game with so many men, of which none made a line."""
    while True:
        game = Player(columns, rows, length)
        if all(game.play_any(rng) for _ in range(men)):
            return game.moves or "-"


class Engine:
    """An engine that runs, and what it says."""

    def __init__(self, *before):
        self.process = subprocess.Popen([ENGINE], stdin=subprocess.PIPE, stdout=subprocess.PIPE, encoding="ascii")
        for line in before:
            self.ask(line)

    def __enter__(self):
        return self

    def __exit__(self, *_):
        self.process.stdin.close()
        self.process.wait(timeout=60)
        self.process.stdout.close()

    def send(self, *lines):
        self.process.stdin.write("".join(line + "\n" for line in lines))
        self.process.stdin.flush()

    def read(self):
        return json.loads(self.process.stdout.readline())

    def answer(self, line):
        """The objects that answer a request which was sent, with the last."""
        said = [self.read()]
        while not (said[-1].get("done") or "error" in said[-1]):
            said.append(self.read())
        assert all(one["request"] == line for one in said), (line, said)
        return said

    def ask(self, line):
        self.send(line)
        return self.answer(line)


def by_moves(said):
    """The last that was said of each move, and of the position under an empty name."""
    found = {one.get("move", ""): one for one in said if "value" in one}
    return {move: (one["value"], one.get("moves_to_end")) for move, one in found.items()}


def better(one, other):
    """Whether an outcome is better than another for the side to move."""
    rank = {"win": 2, "draw": 1, "loss": 0}
    if one[0] != other[0]:
        return rank[one[0]] > rank[other[0]]
    return one[1] < other[1] if one[0] == "win" else one[1] > other[1]


def best_of(moves):
    best = next(iter(moves))
    for one in moves:
        if better(one, best):
            best = one
    return best


@unittest.skipUnless(os.access(ENGINE, os.X_OK), "tools/solve/engine isn't built: make -C tools/solve")
class EngineTest(unittest.TestCase):
    @classmethod
    def setUpClass(cls):
        cls.folder = tempfile.mkdtemp(prefix="engine test-")
        cls.addClassCleanup(shutil.rmtree, cls.folder, True)

    @unittest.skipUnless(COMPILER, "g++ isn't there: apt-get install g++")
    def test_plain_search(self):
        """10,000 positions with at most 14 empty squares, of all boards and both lengths: values and scores."""
        rng, questions = random.Random(62), []
        while len(questions) < 10_000:
            columns, rows = rng.choice(BOARDS)
            length = rng.choice((4, 4, 5))
            empty = rng.choices(range(15), EMPTY)[0]
            questions.append((columns, rows, length, played(rng, columns, rows, length, columns * rows - empty)))
        questions.sort(key=lambda question: question[:3])
        plain = os.path.join(self.folder, "plain")
        subprocess.run([COMPILER, "-std=c++17", "-O2", "-o", plain, os.path.join(HERE, "plain.cpp")], check=True)
        lines = "".join("%d %d %d %s\n" % question for question in questions)
        expected = subprocess.run([plain], input=lines, stdout=subprocess.PIPE, encoding="ascii", check=True).stdout
        with Engine("limits 0 16") as engine:
            board, values = None, set()
            for (columns, rows, length, moves), line in zip(questions, expected.splitlines()):
                if board != (columns, rows, length):
                    board = (columns, rows, length)
                    engine.ask("board %d %d%s" % (columns, rows, " 5" if length == 5 else ""))
                outcomes = {word[0]: (word.split(":")[1], int(word.split(":")[2])) for word in line.split()}
                outcomes[""] = best_of(outcomes.values()) if outcomes else ("draw", 0)
                said = engine.ask("score " + moves)
                self.assertEqual(by_moves(said), outcomes, (board, moves))
                values.add((length, outcomes[""][0]))
                self.values_agree(engine, moves, outcomes)
        self.assertEqual(len(values), 6)

    def values_agree(self, engine, moves, outcomes):
        said = by_moves(engine.ask("value " + moves))
        self.assertEqual(
            {move: value for move, (value, _) in said.items()},
            {move: value for move, (value, _) in outcomes.items()},
            moves,
        )
        self.assertEqual(by_moves(engine.ask("outcome " + moves)), {"": (outcomes[""][0], None)}, moves)

    def test_lines(self):
        """A best line has as many moves as the game goes on for, and each of them keeps the outcome."""
        rng = random.Random(3)
        with Engine("limits 0 64") as engine:
            for men in (16, 20, 24, 28, 32, 36, 40) * 3:
                moves = played(rng, 7, 6, 4, men)
                line = engine.ask("line " + moves)[0]
                self.assertEqual(len(line["line"]), line["moves_to_end"])
                value, to_end = line["value"], line["moves_to_end"]
                for letter in line["line"][:6]:
                    outcomes = by_moves(engine.ask("score " + moves))
                    self.assertEqual(outcomes[letter], outcomes[""])
                    self.assertEqual(outcomes[""], (value, to_end))
                    moves, to_end = moves + letter, to_end - 1
                    value = {"win": "loss", "loss": "win", "draw": "draw"}[value]

    def test_shipped_proofs(self):
        """The values of all shipped proofs but the largest, and of positions with few men in the largest."""
        folder = os.path.join(TOP, "proofs")
        with Engine() as engine:
            for name in sorted(os.listdir(folder)):
                if not name.endswith(".txt.xz"):
                    continue
                with lzma.open(os.path.join(folder, name), "rt", encoding="ascii") as lines:
                    _, board, moves = (next(lines).strip() for _ in range(3))
                    if board == "board 7 6":
                        positions = self.positions_of(lines)
                        continue
                    for line in lines:
                        pass
                if board in SLOW:
                    continue
                engine.ask(board)
                self.assertEqual(by_moves(engine.ask("value " + moves[6:]))[""][0], line.split()[1], name)
            engine.ask("board 7 6")
            for moves in positions:
                said = by_moves(engine.ask("value " + moves))
                self.assertEqual(said[""][0], "win" if len(moves) % 2 == 0 else "loss", moves)

    def positions_of(self, lines):
        """Some positions with few men of which a proof says that White wins."""
        found = []
        for line in lines:
            words = line.split(maxsplit=3)
            if words[0] != "value" and 8 <= len(words[1]) <= 12 and not words[3].startswith("end"):
                self.assertEqual(words[2], "W+")
                found.append(words[1])
        return random.Random(8).sample(found, 100)

    def test_page(self):
        """The session of docs/ENGINE.md is what the engine says, but for nodes and seconds."""
        with open(os.path.join(TOP, "docs", "ENGINE.md"), encoding="utf-8") as page:
            lines = re.search(r"```\n(.*?)```", page.read(), re.S)[1].splitlines()
        requests = [line[2:] for line in lines if line.startswith("> ")]
        run = subprocess.run(
            [ENGINE],
            input="".join(line + "\n" for line in requests),
            stdout=subprocess.PIPE,
            encoding="ascii",
            timeout=100,
            check=True,
            cwd=self.folder,
        )
        said = [self.without_costs(line) for line in run.stdout.splitlines()]
        self.assertEqual(said, [self.without_costs(line) for line in lines if not line.startswith("> ")])

    @staticmethod
    def without_costs(line):
        return {name: one for name, one in json.loads(line).items() if name not in ("nodes", "seconds", "lemmas")}

    def test_bad_lines(self):
        """One object with an error, and nothing else; what comes behind is answered."""
        bad = [
            "",
            " ",
            "values dcd",
            "value",
            "value dcd c",
            "value ddddddd",
            "value abababab",
            "value dch",
            "value D",
            "value -d",
            "score 4",
            "line",
            "board",
            "board 3 4",
            "board 4 5",
            "board 4 4 6",
            "board 10 10",
            "board 4 4 5 5",
            "limits",
            "limits 1",
            "limits -1 100",
            "limits 1 15",
            "limits x 100",
            "limits 1 100 1",
            "table",
            "table /no/such/file",
            "outcome",
            "outcome dcd c",
            "table " + HERE,
            "new now",
            "stop now",
            "proof dcd",
            "proof dcd a-proof --table a-table",
            "proof",
            'value "dcd',
            "\x01\x7f",
            "value " + "d" * 100_000,
            "board 4 4\\n",
        ]
        with Engine("limits 0 16") as engine:
            for line in bad:
                engine.send(line)
                said = engine.read()
                self.assertEqual(set(said), {"request", "error"}, (line, said))
                self.assertEqual(said["request"], line[:65536])
                self.assertEqual(by_moves(engine.ask("value dcdcdc"))[""], ("win", None))
        run = subprocess.run([ENGINE], input=b"value \xff\xc3\xa9\r\nvalue dcdcdc", stdout=subprocess.PIPE, check=True)
        lines = [json.loads(line) for line in run.stdout.decode("ascii").splitlines()]
        self.assertIn("error", lines[0])
        self.assertEqual(by_moves(lines)["d"], ("win", None))

    def test_proofs(self):
        """Proofs of values and of claims, which the checker accepts; a claim that is false has none."""
        rng, words = random.Random(9), "--order 0 --high 0 --part 0 --rounds 0 --sweeps 0"
        with Engine("limits 0 200") as engine:
            for board, men in (("4 4", 4), ("7 6", 16), ("7 6", 24), ("6 6", 14), ("5 4 5", 5), ("4 8", 12)):
                engine.ask("board " + board)
                size = [int(number) for number in board.split()] + [4]
                moves = played(rng, *size[:3], men)
                value = by_moves(engine.ask("value " + moves))[""][0]
                self.assertEqual(self.proved(engine, moves, words), value)
                wins = {"win": men % 2 == 0, "loss": men % 2 == 1}.get(value)
                for claim, is_true in (
                    ("W+", wins is True),
                    ("W-", wins is not True),
                    ("B+", wins is False),
                    ("B-", wins is not False),
                ):
                    found = self.proved(engine, moves, "--claim %s %s" % (claim, words))
                    self.assertEqual(
                        found, (value if claim[1] == "+" else "unknown") if is_true else None, (claim, moves)
                    )

    def proved(self, engine, moves, words):
        """The value of a proof that is written and accepted; nothing where there is none."""
        path = os.path.join(self.folder, "a proof")
        said = engine.ask('proof %s "%s" %s' % (moves, path, words))
        if "error" in said[0]:
            self.assertIn("is false", said[0]["error"])
            self.assertEqual([name for name in os.listdir(self.folder) if name.startswith("a proof")], [])
            return None
        run = subprocess.run(
            [sys.executable, os.path.join(TOP, "tools", "check.py"), path],
            stdout=subprocess.PIPE,
            encoding="ascii",
            check=False,
        )
        self.assertEqual((run.returncode, run.stdout.split()[:2]), (0, ["accepted", said[0]["value"]]), moves)
        os.unlink(path)
        return said[0]["value"]

    def test_early_proofs(self):
        """By the shipped table of openings: proofs of positions with few men, which the second checker accepts, and
        which are smaller by the moves that were weighed."""
        words = "--order 0 --high 0 --part 0 --rounds 0 --sweeps 0 --soon 3"
        names = [os.path.join(TOP, "proofs", "openings-8%s.csv.xz" % name) for name in ("", "-forced")]
        with Engine("limits 0 1000", 'table "%s" "%s"' % tuple(names)) as engine:
            for moves, value in (("ccgea", "win"), ("beebced", "loss")):
                self.assertEqual(by_moves(engine.ask("outcome " + moves))[""][0], value)
                self.assertEqual(self.proved(engine, moves, words + " --outline 20000000"), value)
            path = os.path.join(self.folder, "plain")
            plain, weighed = (
                engine.ask('proof ccgea "%s" %s --outline %d' % (path, words, nodes))[0]["lemmas"]
                for nodes in (0, 20_000_000)
            )
            self.assertLess(weighed, plain * 3 // 4)
            os.unlink(path)

    def test_stopped_proof(self):
        """A proof that is stopped leaves no file."""
        path = os.path.join(self.folder, "stopped")
        with Engine("new") as engine:
            for wait in (0.2, 0.6, 1.5):
                request = 'proof dcddddabab "%s"' % path
                engine.send(request)
                time.sleep(wait)
                before = self.processor_time(engine)
                engine.send("stop")
                self.assertEqual(engine.answer(request)[-1]["stopped"], "stop")
                self.assertLess(self.processor_time(engine) - before, 0.06)
                engine.answer("stop")
            self.assertEqual([name for name in os.listdir(self.folder) if name.startswith("stopped")], [])
            self.assertEqual(by_moves(engine.ask("value dcdcdc"))[""], ("win", None))

    def test_stop(self):
        """`stop` at random times ends the request in hand within 50 ms of CPU time, and what was said is right."""
        rng, whole = random.Random(5), {}
        with Engine("limits 0 64") as engine:
            for _ in range(25):
                moves = played(rng, 7, 6, 4, 8)
                engine.ask("new")
                engine.send("score " + moves)
                time.sleep(rng.random() * 0.3)
                before = self.processor_time(engine)
                engine.send("stop")
                said = engine.answer("score " + moves)
                self.assertLess(self.processor_time(engine) - before, 0.06)
                self.assertIn(said[-1].get("stopped"), ("stop", None))
                self.assertEqual(set(engine.answer("stop")[-1]), {"request", "done", "nodes", "seconds"})
                whole[moves] = by_moves(said)
            for moves, stopped in list(whole.items())[::5]:
                self.agree_in_part(stopped, by_moves(engine.ask("value " + moves)))

    def agree_in_part(self, some, others):
        for move, (value, _) in some.items():
            self.assertEqual(others[move][0], value)

    @staticmethod
    def processor_time(engine):
        with open("/proc/%d/stat" % engine.process.pid, encoding="ascii") as stat:
            words = stat.read().rpartition(")")[2].split()
        return (int(words[11]) + int(words[12])) / os.sysconf("SC_CLK_TCK")

    def test_queue(self):
        """A request while another runs waits, and `stop` ends the one in hand alone."""
        with Engine("limits 0 64") as engine:
            engine.send("value d", "value dcdcdc", "stop", "value dcdcdc")
            self.assertEqual(engine.answer("value d")[-1].get("stopped"), "stop")
            engine.answer("stop")
            for _ in range(2):
                self.assertEqual(by_moves(engine.answer("value dcdcdc"))[""], ("win", None))
            engine.send("stop")
            engine.answer("stop")
        # What waits is answered though the input has ended; where nobody reads it, the engine ends.
        run = subprocess.run(
            [ENGINE],
            input="value dcdcdc\nscore dcdcdc\n",
            stdout=subprocess.PIPE,
            encoding="ascii",
            timeout=60,
            check=True,
        )
        self.assertEqual(sum('"done": true' in line for line in run.stdout.splitlines()), 2)
        process = subprocess.Popen([ENGINE], stdin=subprocess.PIPE, stdout=subprocess.PIPE)
        process.stdin.write(b"board 9 6\nvalue -\n")
        process.stdin.close()
        process.stdout.close()
        process.wait(timeout=20)

    def test_limits(self):
        """Seconds and memory are kept to; a board's tables are kept while it stays."""
        for mib in (16, 40, 200):
            with Engine("limits 0.5 %d" % mib) as engine:
                for request in ("score d", "board 9 6", "score -", "board 7 6 5", "value -"):
                    said = engine.ask(request)[-1]
                    self.assertLess(said["seconds"], 0.6)
                with open("/proc/%d/status" % engine.process.pid, encoding="ascii") as status:
                    most = int(re.search(r"VmHWM:\s*(\d+)", status.read())[1])
                self.assertLess(most, mib * 1024)
        with Engine() as engine:
            first, second = (engine.ask("score dcdcddabe")[-1]["nodes"] for _ in range(2))
            self.assertLess(second, first // 20)
            engine.ask("new")
            self.assertEqual(engine.ask("score dcdcddabe")[-1]["nodes"], first)

    def test_openings(self):
        """With a table of openings, positions with fewer men are answered by it; packed, and also mirrored."""
        with Engine() as engine:
            lines = self.table_below(engine, "ddddddc")
            value = by_moves(engine.ask("value ddddddc"))
        path = self.file("openings.csv", "moves,value\n" + "".join(lines))
        with lzma.open(path + ".xz", "wt", encoding="ascii") as out:
            out.write("moves,value\n" + "".join(lines))
        for name in (path, path + ".xz"):
            with Engine() as engine:
                self.assertEqual(engine.ask('table "%s"' % name)[0]["positions"], len(lines))
                said = engine.ask("value ddddddc")
                self.assertEqual(by_moves(said), value)
                self.assertLess(said[-1]["seconds"], 0.02)
                image = by_moves(engine.ask("value dddddde"))
                self.assertEqual(image, {self.mirrored(move): one for move, one in value.items()})
        halves = [self.file(f"{n}.csv", "moves,value\n" + "".join(lines[n::2])) for n in (0, 1)]
        with Engine() as engine:
            self.assertEqual(engine.ask('table "%s" "%s"' % tuple(halves))[0]["positions"], len(lines))
            self.assertEqual(by_moves(engine.ask("outcome ddddddc")), {"": value[""]})
        # What it says is taken as it stands.
        wrong = "".join(re.sub(",.*", ",win", line) for line in lines)
        with Engine('table "%s"' % self.file("wrong.csv", "moves,value\n" + wrong)) as engine:
            self.assertEqual(by_moves(engine.ask("value ddddddc"))[""], ("loss", None))

    @staticmethod
    def mirrored(move):
        return "gfedcba"[LETTERS.index(move)] if move else ""

    def table_below(self, engine, moves):
        """The lines of the positions behind one in which nobody wins at once and no move is forced."""
        lines = []
        for letter in LETTERS[:7]:
            said = engine.ask("score " + moves + letter)
            if "error" in said[0]:
                continue
            outcomes = by_moves(said)
            losing = sum(move != "" and outcome == ("loss", 2) for move, outcome in outcomes.items())
            if outcomes[""][1] > 1 and losing < len(outcomes) - 2:
                lines.append("%s,%s\n" % (moves + letter, outcomes[""][0]))
        self.assertGreater(len(lines), 4)
        return lines

    def file(self, name, text):
        path = os.path.join(self.folder, name)
        with open(path, "w", encoding="ascii") as out:
            out.write(text)
        return path

    def test_bad_tables(self):
        """A table that isn't one is refused as a whole."""
        with Engine("limits 0 16") as engine:
            for text in (
                "",
                "moves,value",
                "moves\n",
                "moves,value\ndd,wins\n",
                "moves,value\ndd,win\nd,win\n",
                "moves,value\nddddddd,win\n",
                "moves,value\nabababab,win\n",
                "moves,value\n,win\n",
                "moves,value\n" + "d" * 2000,
            ):
                said = engine.ask('table "%s"' % self.file("bad.csv", text))
                self.assertIn("error", said[0], text)
            said = engine.ask('table "%s"' % self.file("none.csv.xz", "moves,value\ndd,win\n"))
            self.assertIn("error", said[0])


if __name__ == "__main__":
    unittest.main()
