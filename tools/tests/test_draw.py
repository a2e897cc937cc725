"""lab draw: pictures of positions, plans and duels, and the page of a proof in a real browser."""

import json
import os
import random
import re
import shutil
import struct
import subprocess
import tempfile
import unittest
import xml.etree.ElementTree

from common import NO_BROWSER, SYSTEM_PYTHON, TOOLS, TOP, ToolTest, example, has_browser, heard, program, read, tool
import mutants

SVG = "{http://www.w3.org/2000/svg}"


def texts_of(svg):
    root = xml.etree.ElementTree.fromstring(svg)
    return [piece.text for piece in root.iter(SVG + "text")]


def count_of(svg, name, **attributes):
    root = xml.etree.ElementTree.fromstring(svg)
    return sum(
        all(piece.get(key.replace("_", "-")) == value for key, value in attributes.items())
        for piece in root.iter(SVG + name)
    )


class PositionTest(ToolTest):
    def test_text(self):
        # The board of docs/PLAYING.md after cccdcd.
        wanted = (
            "\n".join(
                (
                    " 4 . . W .",
                    " 3 . . W .",
                    " 2 . . B B",
                    " 1 . . W B",
                    "   a b c d",
                    "4 by 4 after cccdcd: White is to move",
                )
            )
            + "\n"
        )
        self.assertEqual(tool("draw", "position", "--text", text="board 4 4\nmoves cccdcd\n"), (0, wanted, ""))
        status, out, _ = tool("draw", "position", "--text", example("four-in-a-column.txt"))
        self.assertEqual((status, out.split("\n")[5]), (0, "4 by 4 after abababa: White has four in a line"))

    def test_svg(self):
        status, out, err = tool("draw", "position", text="board 10 10\nmoves abababa")
        self.assertEqual((status, err), (0, ""))
        self.assertEqual(count_of(out, "circle", fill="#ffffff"), 4)
        self.assertEqual(count_of(out, "circle", fill="#2b2b2b"), 3)
        self.assertEqual(count_of(out, "circle", stroke="#d01c1c"), 4)  # the line
        self.assertIn("j", texts_of(out))
        self.assertIn("10", texts_of(out))

    def test_faults(self):
        self.helps("draw")
        self.refuses("draw", "position", text="board 4 4\nmoves aaaaa\n", said="move 5: column a is full")
        self.refuses("draw", "position", text="board 5 5\nmoves a\n", said="no board has")
        self.refuses("draw", "position", text="", said="there is no position")
        self.refuses("draw", "position", text="board 4 4\nmoves \u00e9\n", said="ASCII")
        self.refuses("draw", "position", "/no/such/file", said="there is no file")
        self.refuses("draw", "picture", said="picture")
        self.refuses("draw", "position", "--html", text="board 4 4\nmoves a\n", said="only a proof")
        self.refuses("draw", "proof", "--text", text="", said="a page alone")


class PlanTest(ToolTest):
    def test_example(self):
        text = read(example("explain", "empty-board.explained"))
        status, out, err = tool("draw", "plan", "--text", text=text)
        self.assertEqual((status, err), (0, ""))
        self.assertEqual(out.split("\n")[2:7], [" 4 2 4 6 6", " 3 2 4 6 6", " 2 1 3 6 6", " 1 1 3 5 5", "   a b c d"])
        self.assertIn("6  LI:c2-c4,d2-d4  Lowinverse, owns c2 c3 c4 d2 d3 d4\n", out)
        self.assertIn("a1h by 5  BI:c1,d1\n", out)
        status, out, err = tool("draw", "plan", text=text)
        texts = texts_of(out)
        for line in text.split("\n")[7:-1]:
            name, _, member = line.split(" ")
            self.assertTrue(any(said.startswith(name + " by ") and said.endswith(member) for said in texts), line)
        self.assertEqual([texts.count(rule) for rule in ("CE", "BI", "LI")], [8, 2, 6])
        for rule in ("Claimeven", "Baseinverse", "Lowinverse"):
            self.assertIn(rule, texts)
        # One colour for each rule: the squares and the key's.
        self.assertEqual(count_of(out, "rect", fill="#b5dcc0", width="44"), 8)
        self.assertEqual(count_of(out, "rect", fill="#a9d0ee", width="44"), 6)

    def test_standing_rules(self):
        """The plan of a position with a Vertical, and one with an Aftereven: their lines, and White's men in c2v."""
        for game, rule, size in (("board 4 6\nmoves dccdcd\n", "VE", 4), ("board 4 4\nmoves cccdcd\n", "AE", 4)):
            made = subprocess.run([program(), "explain"], input=game.encode(), stdout=subprocess.PIPE).stdout.decode()
            self.assertIn(" %s:" % rule, made)
            status, out, err = tool("draw", "plan", text=made)
            self.assertEqual((status, err), (0, ""))
            # The line of each standing instance, and one in the key.
            members = [member for member in made.split("\n")[0].split(" ")[1:] if member[:2] == rule]
            self.assertEqual(count_of(out, "line"), len(members) + 1)

    def test_lines_of_five(self):
        """The plan and the duel of a board with lines of five, which their texts don't tell."""
        words = ("--text", "--game", example("five", "wider.txt"))
        status, out, err = tool("draw", "plan", *words, example("five", "wider.explained"))
        self.assertEqual((status, err), (0, ""))
        self.assertIn("a2h by 1  CE:a1", out)
        self.assertEqual(tool("draw", "duel", *words, example("five", "plan.played"))[0], 0)
        status, out, err = tool("draw", "position", "--text", example("five", "won.txt"))
        self.assertIn("5 by 4 with lines of five after aabbccdde: White has five in a line", out)
        said = tool("words", "--game", example("five", "wider.txt"), example("five", "wider.explained"))[1]
        self.assertIn("the row a3 to e3 never gets whole: White never gets d3 and e3 both", said)

    def test_with_and_without_the_game(self):
        """Boards of random plans: the owned squares are the empty ones, and the men are the game's."""
        rng = random.Random(4)
        seen = 0
        while seen < 12:
            cols, rows = rng.choice(((7, 6), (4, 6), (6, 4), (10, 4)))
            game = mutants.random_game(rng, cols, rows, cols * rows - 4)
            words = [program(), "explain", "--reach", "500"]
            made = subprocess.run(words, input=game.text().encode(), stdout=subprocess.PIPE).stdout.decode()
            if not made.startswith("plan "):
                continue
            seen += 1
            with tempfile.NamedTemporaryFile("w", suffix=".txt") as file:
                file.write(game.text())
                file.flush()
                status, out, err = tool("draw", "plan", "--text", "--game", file.name, text=made)
                other = tool("draw", "plan", "--text", "--game", example("usual-board.txt"), text=made)
            self.assertEqual((status, err), (0, ""), made)
            self.assertEqual(other[0], 2)
            board = [line[3:].split() for line in out.split("\n")[2 : 2 + rows]]
            alone = tool("draw", "plan", "--text", text=made)
            self.assertEqual((alone[0], alone[2]), (0, ""), made)
            guessed = [line[3:].split() for line in alone[1].split("\n")[2 : 2 + rows]]
            for r in range(rows):
                for i in range(cols):
                    man = game.men.get((i, rows - r))
                    self.assertEqual(board[r][i] if man else board[r][i].isdigit(), man or True, made)
                    if i < len(guessed[r]):
                        self.assertIn(guessed[r][i], (board[r][i], "?"), made)
                    else:
                        self.assertTrue(man)  # a full column at the right that no line touches isn't told

    def test_faults(self):
        self.refuses("draw", "plan", text="no plan\n", said="there is no plan to draw")
        self.refuses("draw", "plan", text="plan CE:a1\nCE:a1 owns a1\nx by CE:a1\n", said="line 3")
        self.refuses("draw", "plan", text="plan CE:a1\nCE:a2 owns a1\n", said="line 2")
        self.refuses("draw", "plan", text="plan CE:a1 CE:b1\nCE:a1 owns a1 a2\n", said="ends before")


class DuelTest(ToolTest):
    def test_text(self):
        # The last board of docs/PLAYING.md.
        status, out, err = tool(
            "draw", "duel", "--text", "--game", example("play", "lowinverse.txt"), example("play", "lowinverse.played")
        )
        self.assertEqual((status, err), (0, ""))
        for line in ("B B W B", "W W B B", "B B W W", "W W W B", "8.  b3  b4  full"):
            self.assertIn(line, out)

    def test_out(self):
        """A file is written whole, a pipe as it stands, and a link stays one."""
        words = ("draw", "position", "--text", example("four-in-a-column.txt"))
        _, wanted, _ = tool(*words)
        with tempfile.TemporaryDirectory() as folder:
            path, pipe, link = (os.path.join(folder, name) for name in ("file", "pipe", "link"))
            os.symlink("file", link)
            self.assertEqual(tool(*words, "-o", link), (0, "", ""))
            self.assertTrue(os.path.islink(link))
            self.assertEqual(read(path), wanted)
            self.assertEqual(heard(pipe, lambda: tool(*words, "-o", pipe)), ((0, "", ""), wanted))
            self.assertEqual(sorted(os.listdir(folder)), ["file", "link", "pipe"])
            self.refuses(*words, "-o", folder, said="Is a directory")

    def test_svg(self):
        for name, men in (("aftereven", 10), ("specialbefore", 18), ("shifted", 8), ("baseclaim", 10)):
            with open(example("play", name + ".played"), encoding="ascii") as source:
                text = source.read()
            status, out, err = tool("draw", "duel", "--game", example("play", name + ".txt"), text=text)
            self.assertEqual((status, err), (0, ""), name)
            turns = text.count("\n")
            self.assertEqual(texts_of(out).count("the start"), 1)
            for n in range(1, turns + 1):
                self.assertTrue(any(said.startswith("%d.  " % n) for said in texts_of(out)), name)
            without, _, _ = tool("draw", "duel", text=text)
            self.assertEqual(without, 0)
            if name == "aftereven":
                self.assertEqual(count_of(out, "circle", stroke="#d01c1c"), 4)  # Black's line
                self.assertEqual(count_of(out, "circle", r="%g" % (26 * 0.38)), 6 + 8 + men)

    def test_threat(self):
        """A duel by an odd threat: Black moves first, and the pair and the target are marked."""
        words = ("draw", "duel", "--text", "--game", example("threat", "explained.txt"))
        status, out, err = tool(*words, example("threat", "explained.played"))
        self.assertEqual((status, err), (0, ""))
        # The first board and the last of docs/PLAYING.md.
        for line in ("4 . 1 . W B", "3 . W * W B", "2 1 W . B B", "3 B W W W B", "2 W W B B B", "3.  c2  c3  won"):
            self.assertIn(line, out)
        self.refuses(*words, example("threat", "unplayed.played"), said="isn't one of this game's position")
        for name in ("one-column", "unplayed", "with-pair", "two-pairs"):
            text = read(example("threat", name + ".played"))
            status, out, err = tool("draw", "duel", "--game", example("threat", name + ".txt"), text=text)
            self.assertEqual((status, err), (0, ""), name)
            self.assertIn(text.split("\n")[0], " ".join(texts_of(out)))
            self.assertEqual(tool("draw", "duel", text=text)[0], 0, name)
        self.refuses("draw", "duel", text="no threat\n", said="no threat to draw")
        self.refuses("draw", "duel", text="threat a3\n", said="line 1")
        self.refuses("draw", "duel", text="threat a3h CE:a1\n", said="line 1")
        self.refuses("draw", "duel", text="threat a3h BI:a1\n", said="line 1")
        self.refuses("draw", "duel", text="threat a3h\na1 a2 full\n", said="line 2")

    def test_follow(self):
        """A duel by a whole proof, whose game says who begins: either side may, and the first move may stand alone."""
        for proof, played, shown in (
            ("two-squares-left.proof", "draw-white", ("1.  -  b3", "2.  b4  -  full", "4 B B W B", "3 W W B B")),
            ("two-squares-left.proof", "draw-black", ("1.  b3  b4  full", "4 B B W B", "3 W W B B")),
            ("forced-win.proof", "win", ("1.  -  a1", "2.  a2  a3  won", "3 W W W W", "2 B W")),
            ("usual-board.proof", "usual-board", ("1.  -  d4  won",)),
            (os.path.join("mirror", "four-tops.proof"), "mirror", ("1.  c4  b4", "2.  a4  d4  full")),
        ):
            words = ("draw", "duel", "--game", example(proof))
            text = read(example("follow", played + ".played"))
            status, out, err = tool(*words, "--text", text=text)
            self.assertEqual((status, err), (0, ""), played)
            for line in shown:
                self.assertIn(line, out)
            self.assertIn("by a proof", " ".join(texts_of(tool(*words, text=text)[1])))
        self.refuses("draw", "duel", text="- b3\n", said="whose first move it is")
        for text in ("a1 -\n", "- full\n", "b3 - full\nb4 a1\n", "b3 a4\n- b4\n"):
            self.refuses(*words, text=text, said="line ")

    def test_faults(self):
        self.refuses("draw", "duel", text="a1\n", said="line 1")
        self.refuses("draw", "duel", text="a1 a3\n", said="a3 isn't playable")
        self.refuses("draw", "duel", text="", said="line 1")
        self.refuses("draw", "duel", "--board", "4x4", text="e1 e2\n", said="isn't on this board")
        self.refuses("draw", "duel", "--board", "4x5", text="e1 e2\n", said="no board has")


def browse(page, *anchors, picture=None):
    """What the page has at each anchor once its script has run; and a picture of it at the first."""
    words = [SYSTEM_PYTHON, os.path.join(TOOLS, "tests", "browser.py"), *(["--picture", picture] if picture else [])]
    addresses = [f"file://{page}{anchor}" for anchor in anchors]
    run = subprocess.run([*words, *addresses], stdout=subprocess.PIPE, encoding="utf-8", timeout=100, check=True)
    return [json.loads(line) for line in run.stdout.splitlines()]


class PageTest(ToolTest):
    def page(self, proof, *words):
        folder = tempfile.mkdtemp(prefix="page-")
        self.addCleanup(shutil.rmtree, folder)
        path = os.path.join(folder, "proof.html")
        status, out, err = tool("draw", "proof", "--html", "-o", path, *words, text=proof)
        self.assertEqual((status, out, err), (0, "", ""))
        return path

    def test_stands_alone(self):
        page = read(self.page(read(example("shared-position.proof"))))
        for word in ("http://", "https://", "src=", "@import", "url("):
            self.assertNotIn(word, page.replace("http://www.w3.org/2000/svg", ""))
        for line in read(example("shared-position.proof")).split("\n")[3:-2]:
            self.assertIn('"%s"' % line, page)

    def test_too_many_lemmas(self):
        """Above what is shown the page has those next to the verdict by the cites, and says how many."""
        page = read(self.page(read(example("shared-position.proof")), "--most", "4"))
        self.assertIn('"count":16', page)
        for number, is_shown in ((8, True), (16, True), (4, True), (7, True), (1, False), (15, False)):
            self.assertEqual('"%d ' % number in page, is_shown, number)

    def test_faults(self):
        self.refuses("draw", "proof", text="", said="this is no proof")
        self.refuses("draw", "proof", text="victor 1\nboard 4 4\nmoves -\n2 - W- end\n", said="line 4")
        self.refuses("draw", "proof", text="victor 1\nboard 4 4\nmoves -\n1 - W- <b>\n", said="line 4")
        self.refuses("draw", "proof", "--most", "0", text="", said="--most")

    @unittest.skipUnless(has_browser(), NO_BROWSER)
    def test_in_a_browser(self):
        path = self.page(read(example("shared-position.proof")))
        picture = path.replace(".html", ".png")
        faults = {
            "#99": "Lemma 99 isn't on this page, which has 16 of 16.",
            "#+z": "z can't be played from",
            "#/ccc": "No lemma on this page has a path that begins so.",
            "#+ba": "No lemma on this page stands at this position.",
        }
        by_number, by_path, first, by_moves, *told = browse(path, "#12", "#/aab", "", "#+ab", *faults, picture=picture)
        self.assertIn('<h2 id="name">Lemma 12</h2>', by_number)
        self.assertIn("Black doesn't win", by_number)
        self.assertIn("Shows 16 of 16 lemmas", by_number)
        svg = re.search(r"<svg.*?</svg>", by_number, re.S).group()
        # 12 men of the game and 4 of the path, on 16 squares.
        self.assertEqual((svg.count("<circle"), svg.count("<rect")), (16, 16))
        with open(picture, "rb") as source:
            head = source.read(24)
        self.assertEqual(head[:8], b"\x89PNG\r\n\x1a\n")
        self.assertEqual(struct.unpack(">II", head[16:24]), (1000, 560))
        # Cited lemmas are links, closed until they are opened; and a path is searched.
        self.assertIn("Lemma 8</h2>", by_path)
        self.assertIn('<summary>a: <a href="#4">lemma 4</a>', by_path)
        self.assertIn("<details>", by_path)
        self.assertNotIn("<details open", by_path)
        self.assertIn(">4 lemmas</div>", by_path)
        # Each move from a position has what the page's lemmas say of it, and what isn't there is told.
        self.assertIn('a3</a></td><td>a draw by <a href="#4">lemma 4</a> and <a href="#15">lemma 15</a></td>', first)
        self.assertIn('b3</a></td><td>White doesn\'t win by <a href="#7">lemma 7</a></td>', first)
        self.assertIn("Lemma 14</h2>", by_moves)
        self.assertIn('a4</a></td><td>Black doesn\'t win by <a href="#13">lemma 13</a></td>', by_moves)
        self.assertIn("b4</a></td><td>not known on this page</td>", by_moves)
        for (address, said), found in zip(faults.items(), told, strict=True):
            self.assertIn(said, found, address)

    @unittest.skipUnless(has_browser(), NO_BROWSER)
    def test_zones_in_a_browser(self):
        """A lemma by a plan has the zones on its board."""
        (found,) = browse(self.page(read(example("six-zones.proof"))), "")
        self.assertIn("LI 6</text>", found)
        self.assertIn("The value is unknown.", found)

    @unittest.skipUnless(has_browser(), NO_BROWSER)
    def test_many_lemmas_in_a_browser(self):
        count = 30_000
        lines = ["1 dcdcdc W- plan CE:a1 CE:b1"]
        for n in range(2, count + 1):
            path = "".join("abcefg"[n // 6**k % 6] for k in range(5))
            reason = "all a:%d b:%d" % (n - 1, max(n - 9, 1)) if n % 2 else "one c %d" % (n - 1)
            lines.append("%d %s W- %s" % (n, path, reason))
        proof = "victor 1\nboard 7 6\nmoves -\n%s\nvalue draw %d 1\n" % ("\n".join(lines), count)
        (found,) = browse(self.page(proof), "")
        self.assertIn("Shows 20000 of %d lemmas" % count, found)
        self.assertIn(">20000 lemmas, of which the 200 with the shortest paths are listed</div>", found)
        self.assertIn("Lemma %d</h2>" % count, found)


class ImagesTest(unittest.TestCase):
    def test_images_of_the_documents(self):
        """Each picture that a document shows is there, is PNG and has fewer than 60,000 bytes."""
        shown = set()
        folder = os.path.join(TOP, "docs")
        for name in ("TOOLS.md", "TEACH.md", "../README.md"):
            found = re.findall(r"!\[[^]]*\]\(([^)]*)\)", read(os.path.join(folder, name)))
            shown |= {path.replace("docs/", "") for path in found}
        self.assertGreaterEqual(len(shown), 10)
        for name in shown:
            with open(os.path.join(folder, name), "rb") as source:
                image = source.read()
            self.assertTrue(image.startswith(b"\x89PNG") and len(image) < 60_000, name)


if __name__ == "__main__":
    unittest.main()
