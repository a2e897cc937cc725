"""lab openings: the list, values against a plain search, proofs by themselves and by unit; killed in the middle and
resumed; and the shipped table."""

import contextlib
import csv
import hashlib
import lzma
import os
import random
import shutil
import signal
import subprocess
import sys
import tempfile
import time
import unittest

from common import HERE, TOP, ToolTest, command_of, program, read, tool, write
from test_engine import BOARDS, ENGINE, LETTERS, Player
import victor
from victor import _programs as programs

SOLVE = os.path.join(TOP, "tools", "solve", "solve")
CHECK = os.path.join(TOP, "tools", "check.py")
SMALL = ("--board", "4x4", "--men", "4")
PUBLISHED = 67_557  # openings of 7 by 6 with 8 men, in John Tromp's table
with_tools = unittest.skipUnless(
    os.access(ENGINE, os.X_OK) and os.access(SOLVE, os.X_OK) and shutil.which("make"),
    "tools/solve isn't built: make -C tools/solve",
)


def game_of(moves, columns, rows):
    """The game after moves; None where one isn't legal, or makes a line."""
    game = Player(columns, rows, 4)
    for letter in moves:
        column = LETTERS.index(letter)
        if column not in game.open_columns() or not game.play(column):
            return None
    return game


def wins_by(game, side):
    """The columns in which a man of a side would make a line."""
    found = []
    for column in game.open_columns():
        again = game_of(game.moves, game.columns, game.rows)
        again.moves = "x" * side
        if not again.play(column):
            found.append(column)
    return found


def plain_list(columns, rows, men, forced):
    """The men of all openings, or of the positions beside them in which a move is forced, by brute force."""
    level = {(): ""}
    for _ in range(men):
        level = {men_of(game): game.moves for moves in level.values() for game in games_after(moves, columns, rows)}
    found = set()
    for sides, moves in level.items():
        game = game_of(moves, columns, rows)
        threats = wins_by(game, 1 - men % 2)
        if wins_by(game, men % 2) or bool(threats) != forced or len(threats) > 1:
            continue
        after = game_of(moves + LETTERS[threats[0]], columns, rows) if forced else None
        if not forced or not wins_by(after, 1 - men % 2):
            found.add(min(sides, sides[::-1]))
    return found


def games_after(moves, columns, rows):
    games = [game_of(moves + letter, columns, rows) for letter in LETTERS[:columns]]
    return [game for game in games if game]


def men_of(game):
    return tuple(map(tuple, game.sides))


class OpeningsTest(ToolTest):
    def setUp(self):
        self.folder = tempfile.mkdtemp(prefix="openings test-")
        self.addCleanup(shutil.rmtree, self.folder, True)
        self.place = os.path.join(self.folder, "a table")

    def openings(self, *words, place=None, **more):
        words = [words[0], place or self.place, *words[1:], *SMALL]
        return tool("openings", *words, env={**os.environ, "VICTOR": program(), **more})

    def rows(self, name, place=None):
        with open(os.path.join(place or self.place, name), encoding="ascii", newline="") as source:
            return list(csv.DictReader(source))

    def listed(self, *words):
        status, out, err = tool("openings", "list", *words)
        self.assertEqual((status, err), (0, ""))
        return out.split()

    def test_list(self):
        """Those that brute force finds, each once, and as many as are published."""
        for columns, rows, men in ((4, 4, 4), (4, 4, 6), (5, 4, 5)):
            for forced in (False, True):
                words = ("--board", f"{columns}x{rows}", "--men", str(men), *["--forced"] * forced)
                names = self.listed(*words)
                found = [men_of(game_of(moves, columns, rows)) for moves in names]
                folded = {min(sides, sides[::-1]) for sides in found}
                self.assertEqual(len(folded), len(names))
                self.assertEqual(folded, plain_list(columns, rows, men, forced))
                self.assertEqual(names, sorted(names))
        self.assertEqual(len(self.listed()), PUBLISHED)

    def expected(self, names):
        """The values of positions on 4 by 4, by a plain search."""
        plain = os.path.join(self.folder, "plain")
        subprocess.run(["g++", "-std=c++17", "-O2", "-o", plain, os.path.join(HERE, "plain.cpp")], check=True)
        lines = "".join(f"4 4 4 {moves}\n" for moves in names)
        made = subprocess.run([plain], input=lines, stdout=subprocess.PIPE, encoding="ascii", check=True)
        values = [{word.split(":")[1] for word in line.split()} for line in made.stdout.splitlines()]
        return {
            moves: "win" if "win" in one else "draw" if "draw" in one else "loss" for moves, one in zip(names, values)
        }

    @with_tools
    @unittest.skipUnless(shutil.which("g++"), "g++ isn't there: apt-get install g++")
    def test_values(self):
        """Killed in the middle and resumed, by one engine and by several, they are what a plain search finds."""
        expected = self.expected(self.listed(*SMALL))
        slow = write(os.path.join(self.folder, "slow"), self.slowly(f"exec '{ENGINE}'"), True)
        for jobs, at in (("1", "0"), ("2", "1")):
            place = os.path.join(self.folder, jobs)
            words = ("values", place, *SMALL, "-j", jobs, "--at", at)
            self.killed(words, lambda: self.lines_of(place, "values") > 20, VICTOR_ENGINE=slow)
            before = self.texts_of(place, "values")
            self.assertTrue(20 < sum(text.count("\n") for text in before.values()) < len(expected))
            # A row that was cut isn't taken.
            name = next(iter(before))
            write(os.path.join(place, ".work", name), before[name] + "dd")
            status, out, err = tool("openings", *words)
            self.assertEqual(status, 0, err)
            self.assertIn("0 win, 4 loss, 78 draw for the side to move", out)
            for name, text in self.texts_of(place, "values").items():
                self.assertTrue(text.startswith(before.get(name, "")), name)
            found = {row["moves"]: row["value"] for row in self.rows("values.csv", place)}
            self.assertEqual(found, expected)
            with lzma.open(os.path.join(place, "openings-4.csv.xz"), "rt") as packed:
                self.assertEqual(packed.read(), read(os.path.join(place, "values.csv")))

    def test_other_counts(self):
        """Other counts than the published ones are an error."""
        from victor._opening_rows import require_published
        from victor._openings import Openings

        require_published(Openings(), (44_473, 16_635, 6_449))
        require_published(Openings(victor.Size(4, 4), 4), (1, 2, 3))
        with self.assertRaisesRegex(victor.Unproved, "44473 win, 16635 loss, 6449 draw"):
            require_published(Openings(), (44_474, 16_634, 6_449))

    @staticmethod
    def slowly(command):
        """A program that hands each line on a little later."""
        return f"#!/bin/bash\nwhile IFS= read -r line; do sleep 0.1; printf '%s\\n' \"$line\"; done | {command}\n"

    def killed(self, words, is_far, **more):
        """Kills a call as soon as it has come far enough."""
        environment = {**os.environ, "VICTOR": program(), **more}
        run = subprocess.Popen(
            command_of("openings", *words),
            env=environment,
            stdout=subprocess.DEVNULL,
            stderr=subprocess.DEVNULL,
            start_new_session=True,
        )
        limit = time.monotonic() + 60
        while not is_far() and run.poll() is None and time.monotonic() < limit:
            time.sleep(0.01)
        self.assertIsNone(run.poll())
        os.killpg(run.pid, signal.SIGKILL)
        run.wait()
        time.sleep(1)  # steps that had begun end by themselves

    @staticmethod
    def texts_of(place, kind):
        with contextlib.suppress(FileNotFoundError):
            work = os.path.join(place, ".work")
            return {name: read(os.path.join(work, name)) for name in os.listdir(work) if name.endswith("." + kind)}
        return {}

    def lines_of(self, place, kind):
        return sum(text.count("\n") for text in self.texts_of(place, kind).values())

    @with_tools
    def test_proofs(self):
        """Killed in the middle and resumed: each row is that of a proof which comes out the same again, and which both
        checkers accept. A row that was changed by hand is found."""
        self.assertEqual(self.openings("values", "-j", "1")[0], 0)
        slow = write(os.path.join(self.folder, "slow"), f"#!/bin/bash\nsleep 0.5\nexec '{program()}' \"$@\"\n", True)
        sample = ("--sample", "16", "--seed", "5", "-j", "2", "--second")
        self.killed(("prove", self.place, *SMALL, *sample), lambda: self.lines_of(self.place, "prove") > 3, VICTOR=slow)
        before = self.texts_of(self.place, "prove")
        self.assertTrue(3 < sum(text.count("\n") for text in before.values()) < 16)
        status, out, err = self.openings("prove", *sample)
        self.assertEqual(status, 0, err)
        self.assertIn("16 compared with the table, 0 differ", out)
        for name, text in self.texts_of(self.place, "prove").items():
            self.assertTrue(text.startswith(before.get(name, "")), name)
        rows = self.rows("proved.csv")
        self.assertEqual({row["checkers"] for row in rows}, {"2"})
        self.assertEqual(len(rows), 16)
        for row in rows[:2]:
            self.same_again(row)
        names = [row["moves"] for row in rows]
        self.assertEqual(names, sorted(random.Random(5).sample(self.listed(*SMALL), 16)))
        self.found_by_hand(rows[7]["moves"], sample)

    def same_again(self, row):
        """The proof of a row by itself."""
        path = os.path.join(self.folder, "proof")
        status, out, err = tool("openings", "ask", row["moves"], *SMALL, "--proof", path)
        self.assertEqual(status, 0, err)
        with open(path, "rb") as proof:
            self.assertEqual(hashlib.sha256(proof.read()).hexdigest(), row["sha256"])
        made = subprocess.run([sys.executable, CHECK, path], stdout=subprocess.PIPE, encoding="ascii", check=True)
        self.assertEqual(made.stdout, f"accepted {row['value']} {row['lemmas']}\n")

    def found_by_hand(self, moves, sample):
        """A value that was changed in the table is found, and a sum of a proof."""
        path = os.path.join(self.place, "values.csv")
        text = read(path)
        old = next(line for line in text.split("\n") if line.startswith(moves))
        write(path, text.replace(old, moves + ",win"))
        status, out, err = self.openings("prove", *sample)
        self.assertEqual(status, 1)
        self.assertIn(f"{moves}: the table says win, and the proof {old.split(',')[1]}\n", err)
        write(path, text)
        name = os.path.join(self.place, ".work", moves[:1] + ".prove")
        lines = read(name).split("\n")
        n = next(n for n, line in enumerate(lines) if line.startswith(moves))
        words = lines[n].split(",")
        lines[n] = ",".join([*words[:7], "0" * 64, *words[8:]])
        write(name, "\n".join(lines))
        status, out, err = self.openings("prove", *sample, "--again")
        self.assertEqual(status, 1)
        self.assertIn(f"{moves}: its row isn't what the proof has that was made again", err)

    @with_tools
    def test_units(self):
        """A unit in one text, or in several where there would be too many lemmas; what is kept of it gives a proof of
        each opening, and of its image."""
        self.assertEqual(self.openings("values", "-j", "2")[0], 0)
        status, out, err = self.openings("prove", "--all", "--whole", "--keep", "--lemmas", "1200", "-j", "2")
        self.assertEqual(status, 0, err)
        self.assertIn("82 compared with the table, 0 differ", out)
        rows = self.rows("proved.csv")
        texts = {row["text"]: int(row["lemmas"]) for row in rows}
        self.assertGreater(len(texts), 5)
        self.assertLessEqual(max(texts.values()), 1200)
        path = os.path.join(self.folder, "proof")
        for row in random.Random(2).sample(rows, 2):
            for moves in (row["moves"], row["moves"].translate(str.maketrans("abcd", "dcba"))):
                kept = ("--kept", self.place, "--proof", path)
                status, out, err = tool("openings", "ask", moves, *SMALL, *kept)
                self.assertEqual(status, 0, err)
                self.assertIn(f"found in {row['text']}.proof.xz", out)
                made = subprocess.run([sys.executable, CHECK, path], stdout=subprocess.PIPE, encoding="ascii")
                self.assertEqual(made.stdout.split()[:2], ["accepted", row["value"]])
                self.assertIn(f"\nmoves {moves}\n", read(path))
        status, out, err = self.openings("prove", "--unit", "a", "--whole", "--lemmas", "20", place=self.place + "2")
        self.assertEqual(status, 1)
        self.assertIn("lemmas, more than 20", err)

    @with_tools
    def test_join(self):
        """What two folders have is one table; rows for other openings are refused."""
        one, other = os.path.join(self.folder, "one"), os.path.join(self.folder, "other")
        for place, seed in ((one, "1"), (other, "2")):
            self.assertEqual(self.openings("prove", "--sample", "20", "--seed", seed, "-j", "2", place=place)[0], 0)
        names = {row["moves"] for place in (one, other) for row in self.rows("proved.csv", place)}
        status, out, err = self.openings("join", other, place=one)
        self.assertEqual(status, 1, err)  # not all are proved
        self.assertEqual({row["moves"] for row in self.rows("proved.csv", one)}, names)
        self.assertIn(f"{len(names)} of 82 proved; in all", out)
        status, _, err = tool("openings", "join", one, other, "--board", "5x4", "--men", "4")
        self.assertEqual(status, 2)
        self.assertIn("the folder is for positions of the board 4x4 with 4 men", err)

    def test_faults(self):
        self.helps("openings")
        self.refuses("openings", "list", "--men", "11", said="from 4 to 10 men")
        self.refuses("openings", "values", said="a folder is wanted")
        self.refuses("openings", "values", self.place, "--men", "4", "--at", "5", said="from 0 to 4 men")
        if os.access(SOLVE, os.X_OK):
            self.refuses("openings", "prove", self.place, "--victor", program(), said="one of --all, --sample")
            sample = ("--sample", "83", *SMALL, "--victor", program())
            self.refuses("openings", "prove", self.place, *sample, said="--sample takes a number from 1 to 82")
        self.refuses("openings", "ask", "dddd", said="no opening of 7x6 with 8 men")

    @with_tools
    def test_roots(self):
        """Lemmas for positions of all values in one text, on several boards; what isn't right is refused."""
        rng = random.Random(4)
        for columns, rows, men in ((4, 4, 6), (5, 4, 8), (6, 4, 14), (7, 6, 26)):
            self.assertIn((columns, rows), BOARDS)
            root = "ab" if men > 2 else "-"
            names = sorted({self.played_from(rng, root, columns, rows, men) for _ in range(6)})
            roots = write(os.path.join(self.folder, "roots"), "".join(f"{moves}\n" for moves in names))
            values = self.proved_roots(f"board {columns} {rows}\nmoves {root}\n", roots)
            self.assertEqual(list(values), names)
        os.remove(os.path.join(self.folder, "index"))
        for text in ("ba\n", "abx\n", "", "abaaaaa\n"):
            roots = write(os.path.join(self.folder, "roots"), text)
            words = [SOLVE, "--quiet", "--roots", roots, os.path.join(self.folder, "index")]
            made = subprocess.run(words, input="board 4 4\nmoves ab\n", capture_output=True, encoding="ascii")
            self.assertEqual((made.returncode, made.stderr.count("\n")), (2, 1), made.stderr)
            self.assertFalse(os.path.exists(os.path.join(self.folder, "index")))

    @staticmethod
    def played_from(rng, root, columns, rows, men):
        while True:
            game = game_of(root, columns, rows)
            if all(game.play_any(rng) for _ in range(men - len(root))):
                return game.moves

    def proved_roots(self, text, roots):
        """The values of the index, of which each proof is accepted that is cut out."""
        index, path = os.path.join(self.folder, "index"), os.path.join(self.folder, "proof")
        words = [
            SOLVE,
            "--quiet",
            "--format",
            "2",
            "--rounds",
            "1",
            "--sweeps",
            "0",
            "--roots",
            roots,
            index,
            "-o",
            path,
        ]
        subprocess.run(words, input=text, encoding="ascii", check=True)
        self.assertEqual(victor.check(read(path), program=program()).value, "unknown")
        from victor._opening_proofs import place_of
        from victor._proofs import extract, game_of as game_in

        size, values = game_in(path).size, {}
        for line in read(index).splitlines()[1:]:
            moves, value, *numbers = line.split(",")
            game = victor.Game.read(moves, size)
            places = tuple(place_of(path, int(number), game) for number in numbers if number)
            proof = extract(path, game, value, places, os.path.join(self.folder, "part"))
            self.assertEqual(victor.check(proof, program=program()).value, value)
            values[moves] = value
        return values


@with_tools
@unittest.skipUnless(programs.shipped_openings("7x6"), "proofs/ has no table of openings")
class ShippedTest(ToolTest):
    """The table that comes with the program."""

    def test_counts(self):
        """It has the published counts, in at most 500 KB."""
        path = os.path.join(TOP, "proofs", "openings-8.csv.xz")
        self.assertLess(os.path.getsize(path), 500_000)
        with lzma.open(path, "rt", encoding="ascii") as table:
            rows = list(csv.DictReader(table))
        counts = [sum(row["value"] == value for row in rows) for value in ("win", "loss", "draw")]
        self.assertEqual(counts, [44_473, 16_635, 6_449])

    def test_empty_board(self):
        """All moves are answered at once; the middle one wins, and those beside it draw, as is known."""
        spent = []
        with victor.Engine() as engine:
            engine.outcome(victor.Game.read("dddd"))
            found = engine.search(victor.Game(), note=spent.append)
        self.assertLess(sum(spent), 0.2)
        values = {"abcdefg"[column]: one.value for column, one in found.moves.items()}
        self.assertEqual(values, dict(zip("abcdefg", ("loss", "loss", "draw", "win", "draw", "loss", "loss"))))


if __name__ == "__main__":
    unittest.main()
