"""The warm engine in the package and in `lab`: what it says against a plain search, how its questions end, and that
what is searched is told apart from what is proved."""

import contextlib
import csv
import http.client
import json
import os
import random
import signal
import subprocess
import sys
import threading
import time
import unittest
from unittest import mock

from common import TOOLS, ToolTest, command_of, example, program, read, tool, write
import mutants
import victor
from victor import Game, _processes as processes, _programs as programs

ENGINE = programs.engine_path()
needs_engine = unittest.skipUnless(ENGINE, "the engine isn't built: make -C tools/solve engine")
HARD = Game.read("-")  # takes far longer than any test
OWNER = """
import signal, sys, victor
signal.signal(signal.SIGINT, signal.default_int_handler)  # also where whoever began this ignores it
engine = victor.Engine(memory=64, openings=False)
print(next(engine.values(victor.Game.read("434343"))).value, engine._process.pid, flush=True)
engine.search(victor.Game.read("-"))
"""
# An engine that gives no proof.
RELAY = """
import json, subprocess, sys
run = subprocess.Popen([ENGINE], stdin=subprocess.PIPE)
for line in sys.stdin:
    if line.startswith("proof"):
        print(json.dumps({"request": line[:-1], "error": "no proof"}), flush=True)
    else:
        run.stdin.write(line.encode())
        run.stdin.flush()
run.stdin.close()
"""


def score(game, seen):
    """The value of a position for the side to move, and in how many moves the game ends: a plain search, to the end."""
    if game.is_over:
        return ("loss" if game.line else "draw"), 0
    if game.key not in seen:
        seen[game.key] = best_of([turned(score(game.after(column), seen)) for column in game.open_columns()])
    return seen[game.key]


def turned(found):
    """The same for a move that leads there."""
    return {"win": "loss", "loss": "win", "draw": "draw"}[found[0]], found[1] + 1


def best_of(moves):
    """The best of some moves: a win as fast and a loss as late as can be."""
    return max(moves, key=lambda one: (("loss", "draw", "win").index(one[0]), one[1] * (-1 if one[0] == "win" else 1)))


def is_running(pid):
    """A process that hasn't ended."""
    try:
        with open(f"/proc/{pid}/stat", encoding="utf-8") as source:
            return source.read().rsplit(")", 1)[1].split()[0] not in "ZX"
    except OSError:
        return False


@needs_engine
class EngineTest(ToolTest):
    def setUp(self):
        self.engine = victor.Engine(memory=64, openings=False)
        self.addCleanup(self.engine.close)

    def games(self):
        """Random games that go on."""
        rng, games = random.Random(7), []
        while len(games) < 30:
            game = mutants.random_game(rng, 4, 4, 12)
            if len(game.moves) > 6 and not game.is_over:
                games.append(game)
        return games

    def test_against_a_plain_search(self):
        """Values, moves to the end and a best line of random games, by one process."""
        pids = set()
        for game in self.games():
            found = self.engine.search(game, scores=True, line=True)
            wanted = {column: turned(score(game.after(column), {})) for column in game.open_columns()}
            self.assertEqual({c: (one.value, one.moves_to_end) for c, one in found.moves.items()}, wanted)
            best = best_of(wanted.values())
            self.assertEqual((found.value, found.position.moves_to_end), best)
            self.assertEqual(len(found.line), best[1])
            self.assertTrue(Game(game.size, [*game.moves, *found.line]).is_over)
            values = {one.column: one.value for one in self.engine.values(game)}
            self.assertEqual(values, {None: best[0], **{column: value for column, (value, _) in wanted.items()}})
            pids.add(self.engine._process.pid)
        self.assertEqual(len(pids), 1)

    def test_boards(self):
        """Other boards and lines of five, and one that is too large."""
        five = Game.read("aabbddee", (5, 4, 5))
        self.assertEqual(self.engine.search(five, scores=True, line=True).line, (2,))
        self.assertEqual(next(self.engine.values(Game.read("434343"))), victor.Found("win", 3))
        self.assertRaisesRegex(victor.Fault, "too large", self.engine.search, Game.read("-", (10, 10)))
        over = self.engine.search(Game.read("abababa", (4, 4)))
        self.assertEqual((over.value, over.moves), ("loss", {}))

    def test_proofs(self):
        """What the checker says of proofs, of a value and of a claim; the path may have any characters."""
        path = os.path.join(self.folder_for(), 'a "proof" \\ here')
        proof = self.engine.proof(Game.read("434343"), path)
        self.assertEqual(victor.check(proof, program=program()).value, "win")
        claim = self.engine.proof(Game.read("ababa", (4, 4)), path, claim="W-")
        self.assertEqual(victor.check(path_of(claim), program=program()).value, "unknown")
        self.assertRaisesRegex(victor.Failed, "^the engine: can't write", self.engine.proof, HARD, "/no/such/file")
        with self.assertRaises(victor.OutOfTime):
            self.engine.proof(HARD, path, seconds=0.2)

    def test_ends(self):
        """Seconds of both kinds, `stop`, a reader who has enough, and one who isn't there any more; and each time the
        next question is answered."""
        told = []
        begin = time.monotonic()
        with mock.patch.object(processes, "FIRST_TOLD", 0.1):
            self.assertEqual(self.engine.search(HARD, seconds=0.5, tell=told.append).value, "unknown")
        self.assertTrue(told and 0.1 <= told[0] < 0.5, told)
        self.assertEqual(self.engine.search(HARD, clock=0.3).value, "unknown")
        with self.stopped():
            self.assertEqual(self.engine.search(HARD).value, "unknown")
        self.engine.stop()  # nothing is in hand
        values = self.engine.values(Game.read("434343"))
        self.assertEqual(next(values).value, "win")
        self.assertRaisesRegex(victor.Fault, "still being answered", self.engine.search, HARD)
        values.close()
        wanted = [True, True, False]
        with self.assertRaisesRegex(victor.Fault, "nobody waits"):
            self.engine.search(HARD, is_wanted=lambda: wanted.pop(0))
        self.assertEqual(self.engine.line(Game.read("434343")), (3,))
        self.assertLess(time.monotonic() - begin, 60)

    @contextlib.contextmanager
    def stopped(self):
        """What is asked meanwhile is stopped, soon after it has begun."""
        over = threading.Event()

        def stop():
            while not over.wait(0.2):
                self.engine.stop()

        thread = threading.Thread(target=stop)
        thread.start()
        try:
            yield
        finally:
            over.set()
            thread.join()

    def test_an_engine_that_dies(self):
        """One line says so, and the next question starts another."""
        self.engine.line(Game.read("434343"))
        threading.Timer(1, os.kill, (self.engine._process.pid, signal.SIGKILL)).start()
        self.assertRaisesRegex(victor.Failed, "^the engine was ended by signal 9", self.engine.search, HARD)
        self.assertEqual(self.engine.line(Game.read("434343")), (3,))

    def test_it_ends_with_its_owner(self):
        for number in (signal.SIGKILL, signal.SIGINT):
            words = [sys.executable, "-c", OWNER]
            environment = {**os.environ, "PYTHONPATH": TOOLS}
            owner = subprocess.Popen(words, stdout=subprocess.PIPE, stderr=subprocess.PIPE, env=environment, text=True)
            value, pid = owner.stdout.readline().split()
            self.assertEqual((value, is_running(pid)), ("win", True))
            owner.send_signal(number)
            owner.communicate(timeout=20)
            for _ in range(100):
                if not is_running(pid):
                    break
                time.sleep(0.05)
            self.assertFalse(is_running(pid), number)


def path_of(proof):
    """The file of a proof that was written."""
    return proof.path


class StandInTest(ToolTest):
    def test_no_engine(self):
        for script, said in (
            ("echo 'engine: no memory' >&2; exit 3", "^the engine ended with status 3: engine: no memory"),
            ("read line; echo hello; cat", "this is no answer: hello"),
        ):
            path = write(os.path.join(self.folder_for(), "engine"), f"#!/bin/bash\n{script}\n", True)
            with victor.Engine(path, openings=False) as engine:
                self.assertRaisesRegex(victor.Failed, said, engine.search, HARD)
        self.assertRaisesRegex(victor.Fault, "is no program", victor.Engine, "/no/such")
        self.assertRaisesRegex(victor.Fault, "MiB", victor.Engine, path, memory=3)


class AskTest(ToolTest):
    """`lab ask`, where tools/solve is a stand-in; the engine is one that is beside it."""

    def setUp(self):
        self.folder = self.folder_for()
        self.proof = write(os.path.join(self.folder, "proof"), read(example("usual-board.proof")))
        script = f"#!/bin/bash\ngame=$(cat)\n[[ $game = *dcdcdc ]] && exec cat '{self.proof}'\nexit 1\n"
        self.solver = write(os.path.join(self.folder, "solve"), script, True)

    def asks(self, *words, **more):
        few = ("--nodes", "1", "--reach", "0")
        return tool("ask", "dcdcdc", *few, "--solver", self.solver, "--victor", program(), *words, **more)

    def test_where_it_is_not_built(self):
        """That is said in a line, and what is proved is said as ever."""
        status, out, err = self.asks("--moves", "--scores")
        self.assertEqual((status, err), (0, f"lab ask: {programs.MAKE_ENGINE}\n"))
        self.assertIn("wins after dcdcdc on 7 by 6 (found by solve, 2 lemmas accepted); the best move is d", out)
        self.assertNotIn("earched", out)
        self.assertEqual(self.asks()[2], "")

    def test_an_engine_that_fails(self):
        write(os.path.join(self.folder, "engine"), "#!/bin/bash\nexit 3\n", True)
        status, out, err = self.asks("--moves")
        self.assertEqual((status, err.count("\n")), (0, 1), err)
        self.assertIn("lab ask: the engine ended with status 3", err)
        self.assertIn("found by solve, 2 lemmas accepted", out)

    @needs_engine
    def test_searched_and_proved(self):
        """What has no accepted proof is called searched, and the status is that of the proof."""
        words = ["--board", "4x4", "ababa", "--moves", "--scores", "--memory", "200", "--victor", program()]
        status, out, err = tool("ask", *words)
        self.assertEqual((status, err), (0, ""))
        self.assertRegex(out, r"found by the engine, \d+ lemmas accepted\); the best move is a \(b, c and d lose\)\. ")
        self.assertIn(" Searched, and not proved: Black, who is to move, draws in 11 moves; a draws in 11 moves;", out)
        data = json.loads(tool("ask", *words, "--json")[1])
        self.assertEqual(data["searched"]["values"], data["values"])
        self.assertEqual(data["searched"]["ends"], {"a": 11, "b": 2, "c": 2, "d": 2})
        # An engine that says values and gives no proof: nothing is called proved.
        write(os.path.join(self.folder, "engine"), f"#!{sys.executable}\nENGINE = {ENGINE!r}\n{RELAY}", True)
        few = ("--nodes", "1", "--reach", "0", "--solver", self.solver)
        status, out, err = tool("ask", *words, *few)
        self.assertEqual((status, err), (5, ""))
        self.assertIn("stays unknown", out)
        self.assertIn("Searched, and not proved: Black, who is to move, draws in 11 moves", out)
        self.assertNotIn("accepted", out)

    @needs_engine
    def test_other_commands(self):
        """`sheet`, `batch` and `play` say of what has no proof that it is searched."""
        write(os.path.join(self.folder, "engine"), f"#!{sys.executable}\nENGINE = {ENGINE!r}\n{RELAY}", True)
        few = ("--board", "4x4", "--nodes", "1", "--reach", "0", "--memory", "200", "--solver", self.solver)
        status, out, err = tool("sheet", "ababa", "--ask", "move", *few, "--victor", program())
        self.assertEqual((status, err), (0, ""))
        self.assertIn("a draws; b, c and d lose. ", out)
        self.assertRegex(out, r"\d+ lemmas?, accepted by check; [abcd, and]+ searched, and not proved\)")
        listed, place = write(os.path.join(self.folder, "list"), "12121 -1\n"), os.path.join(self.folder, "proofs")
        status, out, err = tool("batch", listed, place, *few, "--victor", program(), "-j", "1")
        self.assertEqual(status, 1)
        self.assertIn("12121: the score says loss, and the search draw, which isn't proved", err)
        self.assertIn("lab batch: of the unknown ones searched, and not proved: 1 draw\n", out)
        with open(os.path.join(place, "positions.csv"), encoding="ascii", newline="") as table:
            row = next(csv.DictReader(table))
        self.assertEqual((row["value"], row["searched"]), ("unknown", "draw"))
        write(os.path.join(self.folder, "engine"), "#!/bin/bash\nexit 3\n", True)
        status, out, err = tool("batch", listed, place + "2", *few, "--victor", program(), "-j", "1")
        self.assertEqual((status, out.splitlines()[1:]), (0, ["lab batch: 1 unknown"]))
        self.assertIn("12121: the engine ended with status 3 and said nothing; nothing is searched\n", err)
        words = ("play", "--proof", example("two-squares-left.proof"), "--victor", program())
        out = tool(*words, text="v\nb\n")[1]
        self.assertIn("v\nSearched, and not proved: b draws in 2 moves.\n", out)
        status, out, err = tool(*words, text="v\nb\n", env={**os.environ, "VICTOR_ENGINE": "/bin/false"})
        self.assertEqual((status, err), (0, ""))
        self.assertIn("v\nthe engine ended with status 1 and said nothing.\n", out)
        self.assertIn("The board is full", out)


@needs_engine
class BoardTest(ToolTest):
    def test_moves(self):
        """The page gets each move as soon as it is known, an object a line, and so the position, with the moves to the
        end at last."""
        words = command_of("board", "--port", "0", "--victor", program(), "--memory", "200")
        server = subprocess.Popen(words, stdout=subprocess.PIPE, stdin=subprocess.DEVNULL, text=True)
        self.addCleanup(server.stdout.close)
        self.addCleanup(server.wait, 20)
        self.addCleanup(server.send_signal, signal.SIGTERM)
        port = int(server.stdout.readline().rstrip("/\n").rsplit(":", 1)[1])

        def call(**asked):
            line = http.client.HTTPConnection("127.0.0.1", port, timeout=60)
            self.addCleanup(line.close)
            line.request("POST", "/moves", json.dumps(asked), {"Content-Type": "application/json"})
            answer = line.getresponse()
            return answer.status, [json.loads(one) for one in answer.read().splitlines()]

        status, said = call(page="page0001", size="4x4", moves="ababa")
        self.assertEqual((status, len(said)), (200, 10))
        self.assertEqual({one["searched"] for one in said if one["move"] in ("a", None)}, {"draw"})
        ends = {one["move"]: one["moves_to_end"] for one in said if one["moves_to_end"]}
        self.assertEqual(ends, {"a": 11, "b": 2, "c": 2, "d": 2, None: 11})
        self.assertEqual(call(page="page0001", size="10x10", moves="")[1], [])
        self.assertEqual(call(page="page0001", size="4x4", moves="zz")[0], 400)
        self.assertEqual(call(page="x", size="4x4", moves="")[0], 400)


if __name__ == "__main__":
    unittest.main()
