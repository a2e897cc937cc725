"""lab words: what the sentences say of each rule, against the program's answers and tools/check.py's sets."""

import random
import re
import subprocess
import tempfile
import unittest

from common import ToolTest, example, program, read, tool
import check
import mutants
from victor import Game, Plan, _sentences as sentences
from victor._games import LETTERS, columns_of, name_of, square_of
from victor._notation import read_game
from victor._plans import RULES, barred_by, up, zone_of

# A game for each rule, with a plan that has an instance of it.
GAMES = {
    "CE": (4, 4, "cccdcd"),
    "BI": (4, 4, "-"),
    "LI": (4, 4, "-"),
    "HI": (4, 4, "dddadc"),
    "BC": (5, 4, "adaadcedeadbcbbe"),
    "VE": (4, 6, "bdcbdaaddcabdd"),
    "AE": (4, 4, "cccdcd"),
    "BE": (5, 6, "edacbceeedadcaabaabb"),
    "SB": (5, 4, "ebeebeaabbadadcd"),
}


def explained(game):
    run = subprocess.run([program(), "explain", "--reach", "2000"], input=game.text().encode(), stdout=subprocess.PIPE)
    return run.stdout.decode("ascii")


def game_of(cols, rows, letters):
    return Game((cols, rows), columns_of(letters))


class SentencesTest(ToolTest):
    def says(self, rule, *sentences):
        game = game_of(*GAMES[rule])
        with tempfile.NamedTemporaryFile("w", suffix=".txt") as file:
            file.write(game.text())
            file.flush()
            status, out, err = tool("words", "--game", file.name, text=explained(game))
        self.assertEqual((status, err), (0, ""))
        self.assertIn(RULES[rule], out)
        self.assertIn("\n" + "\n".join("   " + said for said in sentences) + "\n", out)

    def test_each_rule(self):
        self.says(
            "CE",
            "If White takes b1, Black takes b2.",
            "So the column b1 to b4 never gets whole: White never gets b2.",
            "So the diagonal a1 to d4 never gets whole: White never gets b2.",
        )
        self.says(
            "BI",
            "If White takes c1, Black takes d1.",
            "If White takes d1, Black takes c1.",
            "So the row a1 to d1 never gets whole: White never gets c1 and d1 both.",
        )
        self.says(
            "LI",
            "If White takes a square from c2 to c3 or from d2 to d3, Black takes the square above it.",
            "If White takes c4, Black takes the lowest empty square of column d.",
            "If White takes d4, Black takes the lowest empty square of column c.",
            "So the row a3 to d3 never gets whole: White never gets c3 and d3 both.",
            "So the column c1 to c4 never gets whole: White never gets c3 and c4 both.",
        )
        self.says(
            "HI",
            "If White takes a2 while c2 is empty, Black takes a3.",
            "If White takes a2 once c2 is taken, Black takes c4.",
            "If White takes a3, Black takes a4.",
            "If White takes a4, Black takes c2.",
            "If White takes c2 while a2 is empty, Black takes c3.",
        )
        self.says(
            "BC",
            "If White takes e4 or c3 while b4 is empty, Black takes b4.",
            "If White takes e4 or c3 once b4 is taken, Black takes c4.",
            "If White takes b4, Black takes c3.",
            "If White takes c4, Black takes e4.",
            "So the row b4 to e4 never gets whole: White never gets e4 and c4 both.",
        )
        self.says(
            "VE",
            "If White takes a4, Black takes a5, by LI:a4-a6,b4-b6.",
            "So the column a2 to a5 never gets whole: White never gets a4 and a5 both.",
        )
        self.says(
            "AE",
            "Black may get the row a2 to d2, and has c2 and d2.",
            "White never gets a2, by CE:a1.",
            "White never gets b2, by CE:b1.",
            "So the row a3 to d3 never gets whole: White needs a3 above a2 and b3 above b2, and before that "
            "Black has the row a2 to d2.",
        )
        self.says(
            "BE",
            "Black may get the column d1 to d4, and has d1, d2 and d3.",
            "White never gets d4 and d5 both, by LI:c4-c6,d4-d6.",
            "So the diagonal a2 to d5 never gets whole: White needs d5 above d4, and before that Black has the "
            "column d1 to d4.",
        )
        self.says(
            "SB",
            "Black may get the diagonal b1 to e4, and has b1, d3 and e4.",
            "White never gets d4 and c2 both, by BI:c2,d4.",
            "So the diagonal a1 to d4 never gets whole: White needs d4 and c3 above c2, and before that Black "
            "has the diagonal b1 to e4.",
        )

    def test_each_instance_and_line(self):
        text = read(example("explain", "six-by-six.explained"))
        status, out, _ = tool("words", text=text)
        self.assertEqual(status, 0)
        self.assertTrue(out.startswith("Black has a plan of 14 instances. "))
        self.assertEqual(
            re.findall(r"^(\d+)\. \w+ (\S+), ", out, re.M),
            [(str(n), member) for n, member in enumerate(text.split("\n")[0].split(" ")[1:], 1)],
        )
        self.assertEqual(out.count("never gets whole"), text.count(" by "))

    def test_barred_sets(self):
        """The sets are those of the second checker, which was written apart."""
        rng = random.Random(7)
        seen = set()
        while len(seen) < 6:
            board = check.Board(rng.choice((4, 6, 7)), rng.choice((4, 6, 8)))
            made = check.read_instance(board, text := mutants.random_instance(rng, board))
            if made and text[:2] not in ("AE", "BE", "SB"):
                seen.add(text[:2])
                sets = {sum(board.bit(*square) for square in barred) for barred in barred_by(text)}
                self.assertEqual(sets, set(made.barred), text)

    def test_no_plan(self):
        with tempfile.NamedTemporaryFile("w", suffix=".txt") as file:
            for game, said in (
                ("board 4 4\nmoves d\n", "There is no plan after d, since Black is to move.\n"),
                ("board 4 4\nmoves d\n", "each of Black's moves: da, db, dc, dd.\n"),
                ("board 4 4\nmoves abababa\n", "There is no plan after abababa, since the game has ended.\n"),
                ("board 4 4\nmoves dccbbdbbddcc\n", "There is no plan after dccbbdbbddcc.\nThe nine rules don't keep"),
            ):
                file.seek(0)
                file.truncate()
                file.write(game)
                file.flush()
                status, out, err = tool("words", "--game", file.name, text=explained(read_game(game)))
                self.assertEqual((status, err), (0, ""))
                self.assertIn(said, out)
        self.assertIn("in the reach", tool("words", text="no plan within reach\n")[1])
        self.assertIn("--game names the game", tool("words", text="no plan\n")[1])

    def test_faults(self):
        self.helps("words")
        self.refuses("words", text="", said="there is no plan to draw")
        self.refuses("words", "/no/such/file", said="No such file")
        other = read(example("explain", "aftereven.explained"))
        self.refuses("words", "--game", example("usual-board.txt"), text=other, said="isn't one of this game's")
        # An instance that can't be why a line never gets whole.
        self.refuses(
            "words",
            text="plan CE:a1 CE:a3\nCE:a1 owns a1 a2\nCE:a3 owns a3 a4\nb1v by CE:a1\n",
            said="CE:a1 doesn't answer b1v",
        )
        self.refuses(
            "words",
            text="plan CE:a1 CE:a3 AE:a2h\nCE:a1 owns a1 a2\nCE:a3 owns a3 a4\nAE:a2h owns -\n" "b1v by AE:a2h\n",
            said="AE:a2h doesn't answer the column b1 to b4",
        )


# What the sentences of a zone say.
SAID = re.compile(r"If White takes (.+?)(?: (while|once) (\S+) is (?:empty|taken))?, Black takes (.+)\.")
LOWEST = re.compile("the lowest empty square of column (.)")


def squares_in(text):
    """The squares that `a1`, `a1 or b1` or `a square from a1 to a3 or from b1 to b2` names."""
    found = set()
    for first, last in re.findall(r"from (\S+) to (\S+)", text):
        (i, low), (_, top) = square_of(first), square_of(last)
        found |= {(i, r) for r in range(low, top + 1)}
    return found or {square_of(name) for name in text.split(" or ")}


def reply_said(sentences, game, white):
    """Where Black answers this man of White's by these sentences, at the position after it. One of them fits."""
    found = set()
    for said in sentences:
        taken, when, other, black = SAID.fullmatch(said).groups()
        is_empty = other is None or square_of(other) not in game.men
        if white not in squares_in(taken) or when and (when == "while") != is_empty:
            continue
        column = LOWEST.fullmatch(black)
        if column:
            i = LETTERS.index(column.group(1))
            found.add((i, game.heights[i] + 1))
        else:
            found.add(up(white) if black == "the square above it" else square_of(black))
    (square,) = found
    return square


class DuelTest(unittest.TestCase):
    def duel(self, rng, start, members, answers):
        """A duel by the sentences alone, whose answers have to be the program's; and what White never gets."""
        game = game_of(start.size.cols, start.size.rows, start.letters())
        columns, told = [], []
        never = [
            re.findall("[a-j][0-9]+", said.split("White never gets ")[1].split(", by")[0])
            for said in answers
            if "White never gets " in said
        ]
        while not game.is_over:
            column = rng.choice(game.open_columns())
            game = game.after(column)
            white = (column, game.heights[column])
            member = next(member for member in members if white in zone_of(member))
            black = reply_said(sentences.answers_of(member), game, white)
            game = game.after(black[0])
            self.assertEqual((black[0], game.heights[black[0]]), black)
            columns.append(LETTERS[column])
            told.append("%s %s" % (name_of(white), name_of(black)))
            for names in never:
                self.assertTrue(any(game.men.get(square_of(name)) != "W" for name in names), names)
        text = "%splan %s\n%s\n" % (start.text(), " ".join(members), "\n".join(columns))
        played = subprocess.run([program(), "play"], input=text.encode(), stdout=subprocess.PIPE).stdout.decode()
        self.assertEqual([" ".join(line.split(" ")[:2]) for line in played.split("\n")[:-1]], told)

    def test_duels(self):
        rng = random.Random(11)
        for cols, rows, letters in list(GAMES.values()) + [(6, 6, "-"), (5, 4, "-"), (4, 10, "-")]:
            start = game_of(cols, rows, letters)
            text = explained(start)
            says = sentences.Sentences(Plan(text, start))
            members = says.plan.members
            answers = [said for member in members for said in says.of_instance(member)]
            answers += [says.of_group(*answer) for answer in says.plan.answers]
            for _ in range(6):
                self.duel(rng, start, members, answers)

    def test_duels_of_a_given_plan(self):
        rng = random.Random(12)
        for name in ("highinverse", "lowinverse", "baseclaim", "specialbefore"):
            lines = read(example("play", name + ".txt")).split("\n")
            start = read_game("\n".join(lines[:2]))
            for _ in range(6):
                self.duel(rng, start, lines[2].split(" ")[1:], [])


if __name__ == "__main__":
    unittest.main()
