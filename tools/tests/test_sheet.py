"""lab sheet: what is asked and answered, as the page has it."""

import os
import random
import re
import tempfile
import unittest
import xml.etree.ElementTree

from common import ToolTest, example, program, read, tool, write
import mutants
from test_ask import worth
from victor._games import LETTERS, Game
from victor._programs import engine_path


def wins_within(game, plies):
    """Whoever has just moved has a line, or makes one within so many moves, whatever the other plays: counted move by
    move, with no search of the tools."""
    if game.line:
        return True
    if plies <= 0 or game.is_over:
        return False
    answers = [game.after(i) for i in game.open_columns()]
    return all(
        not after.line and any(wins_within(after.after(i), plies - 2) for i in after.open_columns())
        for after in answers
    )


SVG = "{http://www.w3.org/2000/svg}"


class SheetTest(ToolTest):
    def page(self, *games, words=(), status=0):
        """The questions and the answers of each game, as lists of texts, and the page."""
        with tempfile.TemporaryDirectory() as folder:
            names = [os.path.join(folder, "%d.txt" % n) for n in range(len(games))]
            for name, game in zip(names, games):
                with open(name, "w", encoding="ascii") as out:
                    out.write(game)
            given, out, err = tool("sheet", "--by", "prove", "--victor", program(), "--nodes", "5000", *names, *words)
        self.assertEqual((given, err), (status, ""))
        root = xml.etree.ElementTree.fromstring(out.split("\n", 1)[1])
        body = root.find("body")
        asked, answered = body.findall("section"), body.find("div[@class='answers']").findall("section")
        self.assertEqual((len(asked), len(answered)), (len(games), len(games)))
        return [
            [["".join(item.itertext()) for item in section.findall("div/ol/li")] for section in sections]
            for sections in (asked, answered)
        ] + [out]

    def test_moves_and_lines(self):
        asked, answered, out = self.page(
            "board 7 6\nmoves dcdcdc\n",
            "board 4 4\nmoves ababa\n",
            "434343",
            words=["--ask", "move,line", "--nodes", "1000"],
        )
        self.assertEqual(asked[0], ["Which move is best for White?", "Can White get a line, if Black plays well?"])
        self.assertEqual(asked[1][0], "Which move is best for Black?")
        self.assertRegex(answered[0][0], r"^d wins; .* are unknown\. \([0-9,]+ lemmas, accepted by check\)$")
        self.assertEqual(answered[0][1], "Yes: White wins. (2 lemmas, accepted by check)")
        self.assertEqual(answered[0], answered[2])
        self.assertRegex(answered[1][0], r"^a draws; b, c and d lose\. ")
        self.assertRegex(answered[1][1], r"^No: it is a draw\. ")
        self.assertEqual(len(re.findall("<h2>", out)), 6)

    def test_a_plan(self):
        asked, answered, out = self.page("board 4 4\nmoves -\n", words=["--ask", "line,zone"])
        self.assertIn("Lowinverse c2 c3 c4 d2 d3 d4. White takes a1, b1, c1 or d1.", asked[0][1])
        self.assertTrue(answered[0][0].startswith("No. Black has a plan, whose numbers stand on the board. "))
        self.assertIn("5, Baseinverse: If White takes c1, Black takes d1. If White takes d1, Black takes c1.", out)
        for said in (
            "a1 is in the zone of the Claimeven 1: Black takes a2.",
            "d1 is in the zone of the Baseinverse 5: Black takes c1.",
        ):
            self.assertIn("<li>%s</li>" % said, out)
        # The board of the answers has the numbers, and that of the questions hasn't.
        first, second = re.findall("<svg.*?</svg>", out)
        self.assertEqual(first.count(">6</text>"), 0)
        self.assertEqual(second.count(">6</text>"), 6)

    def test_stands_alone(self):
        _, _, out = self.page("board 4 4\nmoves dccbbdbbddcc\n")
        for word in ("http:", "https:", "src=", "@import", "url(", "<script"):
            self.assertNotIn(word, out.replace("http://www.w3.org/2000/svg", ""))
        self.assertLess(out.index("Which move"), out.index('<div class="answers">'))
        self.assertGreater(out.index("a wins."), out.index('<div class="answers">'))
        self.assertIn("page-break-before: always", out)

    def test_colours(self):
        asked, answered, out = self.page("board 4 4\nmoves cccdcd\n", words=["--colours", "red-yellow"])
        self.assertNotIn("White", out)
        self.assertNotIn("Black", out)
        self.assertEqual(asked[0][0], "Has Red a move that doesn't lose?")
        self.assertIn("Yellow takes a2.", answered[0][1])
        for fill in ("#cc2222", "#ffd83d"):
            self.assertEqual(out.count('r="12" fill="%s"' % fill), 6)  # three men on two boards
        self.refuses("sheet", "--colours", "green", "x", said="--colours")

    def test_best_moves_by_search(self):
        """The best moves of random positions, against a search that is written apart."""
        rng = random.Random(3)
        games = []
        while len(games) < 8:
            game = mutants.random_game(rng, 4, 4, 14)
            if len(game.moves) > 7 and not game.is_over:
                games.append(game)
        _, answered, _ = self.page(*(game.text() for game in games), words=["--ask", "move", "--title", "a < b"])
        for game, said in zip(games, answered):
            values = {i: -worth(game.after(i)) for i in game.open_columns()}
            best = [LETTERS[i] for i in values if values[i] == max(values.values())]
            named = re.match(r"(.*?) (win|draw|lose)s?[.;]", said[0])
            self.assertEqual(re.findall("[a-d]", named.group(1).replace(" and ", " ")), best, game.letters())
            self.assertEqual({"win": 1, "draw": 0, "lose": -1}[named.group(2)], max(values.values()), game.letters())

    @unittest.skipUnless(engine_path(), "the engine isn't built: make -C tools/solve engine")
    def test_made(self):
        """Positions that are made: one move wins in three, and no other as soon; the same seed makes the same."""
        words = ["--board", "4x4", "--make", "3", "--plies", "3", "--ask", "move", "--victor", program()]
        status, out, err = tool("sheet", *words, "--seed", "5")
        self.assertEqual((status, err), (0, ""))
        self.assertEqual(len(re.findall("Which move is best for (?:White|Black)", out)), 3)
        for letters, best in re.findall(
            r"after ([a-d]+) on 4 by 4.*?<li>([a-d]) wins in 3 moves, as searched\.", out, re.S
        ):
            game = Game.read(letters, (4, 4))
            wins = [i for i in game.open_columns() if wins_within(game.after(i), 2)]
            self.assertEqual([LETTERS[i] for i in wins], [best], letters)
        self.assertEqual(out.count("wins in 3 moves, as searched."), 3)
        self.assertEqual(tool("sheet", *words, "--seed", "5")[1], out)
        status, out, err = tool("sheet", *words, "--plan", "--ask", "zone")
        self.assertEqual((status, err, out.count("Black plays by a plan")), (0, "", 3))

    def test_faults(self):
        self.helps("sheet")
        for words, said in (
            ([], "name positions, or --make some"),
            (["--make", "41"], "--make takes up to 40"),
            (["--make", "1", "--plies", "2"], "--plies 1, 3, 5, 7 or 9"),
            (["/no/such/file"], "there is no file"),
            ([example("full-board.txt")], "the game has ended"),
            (["--ask", "why", "x"], "--ask takes some of move"),
            (["--nodes", "0", "x"], "--nodes takes"),
            (["--reach", "-1", "x"], "--reach takes"),
            (["dcx"], "dcx: move 3: 'x' is no column"),
        ):
            self.refuses("sheet", *words, said=said)
        self.refuses(
            "sheet",
            "-",
            "--by",
            "prove",
            "--nodes",
            "1",
            "--reach",
            "1",
            "--victor",
            program(),
            text="-",
            said="-: left out, as nothing that is asked has a known answer there: try --nodes above 1",
        )

    def test_stand_ins(self):
        """A program that fails, and a proof that isn't accepted or is about another game, are told, with status 1."""
        for script, said in (
            ("exit 7", "victor explain ended with status 7"),
            (
                '[ "$1" = explain ] && exit 5; [ "$1" = check ] && exit 4; echo victor 1; cat',
                "victor check ended with status 4",
            ),
            ('[ "$1" = explain ] && exit 5; [ "$1" = check ] && echo accepted win 2; true', "is about another game"),
        ):
            with tempfile.TemporaryDirectory() as folder:
                path = write(os.path.join(folder, "victor"), f"#!/bin/bash\n{script}\n", True)
                status, out, err = tool("sheet", example("usual-board.txt"), "--by", "prove", "--victor", path)
                self.assertEqual((status, out), (1, ""), err)
                self.assertIn(said, err)

    def test_out(self):
        with tempfile.TemporaryDirectory() as folder:
            path = os.path.join(folder, "sheet.html")
            given = tool("sheet", "--victor", program(), "-o", path, "--ask", "line", example("usual-board.txt"))
            self.assertEqual(given, (0, "", ""))
            self.assertTrue(read(path).startswith("<!DOCTYPE html>"))


if __name__ == "__main__":
    unittest.main()
