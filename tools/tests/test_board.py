"""lab board: what it answers, to whom, and that no program is left behind."""

import functools
import http.client
import http.server
import importlib.machinery
import importlib.util
import json
import os
import signal
import subprocess
import threading
import time
import unittest
import urllib.parse
import urllib.request

from common import NO_BROWSER, SYSTEM_PYTHON, TOOLS, TOP, ToolTest, command_of, has_browser, program, read
from common import shipped_lemmas, tool
import victor._programs
from victor._serving import MOST_AT_ONCE, Busy, Visitors


PLAN = "plan CE:a1 CE:a3 CE:b1 CE:b3 BI:c1,d1 LI:c2-c4,d2-d4"


def children_of(pid):
    """The processes that this one began, and those that they began, but for the warm engine, which stays."""
    listed = subprocess.run(["ps", "-eo", "pid=,ppid=,comm="], stdout=subprocess.PIPE, encoding="utf-8").stdout
    rows = [line.split(None, 2) for line in listed.splitlines()]
    pairs = [(int(child), int(parent)) for child, parent, name in rows if name != "engine"]
    found = {pid}
    while True:
        more = {child for child, parent in pairs if parent in found} - found
        if not more:
            return found - {pid}
        found |= more


def browse(test, *words):
    """Runs the test in a browser, by the Python that has selenium."""
    command = [SYSTEM_PYTHON, os.path.join(TOOLS, "tests", "browser_board.py"), *words]
    made = subprocess.run(command, stdout=subprocess.PIPE, stderr=subprocess.STDOUT, encoding="utf-8", timeout=1200)
    test.assertEqual(made.returncode, 0, made.stdout)


class QuietHandler(http.server.SimpleHTTPRequestHandler):
    def log_message(self, *_):
        """Nothing is said of requests."""


class ServedTest(ToolTest):
    """A test of a server that runs."""

    more: tuple[str, ...] = ()

    def setUp(self):
        words = command_of("board", "--port", "0", "--seconds", "8", "--victor", program(), *self.more)
        self.server = subprocess.Popen(words, stdout=subprocess.PIPE, stdin=subprocess.DEVNULL, encoding="ascii")
        self.addCleanup(self.end)
        self.address = self.server.stdout.readline().strip()
        self.port = int(self.address.split("/")[2].rsplit(":", 1)[1])

    def end(self):
        self.server.send_signal(signal.SIGTERM)
        self.assertEqual(self.server.wait(20), 0)
        self.server.stdout.close()

    def call(self, path, body=None, headers=None, **question):
        """The status and what is answered to a question of a page."""
        line = http.client.HTTPConnection("127.0.0.1", self.port, timeout=100)
        self.addCleanup(line.close)
        asked = json.dumps(dict({"page": "page0001"}, **question)) if body is None else body
        line.request("POST", path, asked, dict({"Content-Type": "application/json"}, **headers or {}))
        answer = line.getresponse()
        return answer.status, json.loads(answer.read() or b"{}")

    def get(self, path, headers=None):
        line = http.client.HTTPConnection("127.0.0.1", self.port, timeout=100)
        self.addCleanup(line.close)
        line.request("GET", path, headers=headers or {})
        answer = line.getresponse()
        return answer.status, answer.read().decode("utf-8")

    def wait_until(self, test):
        for _ in range(200):
            if test():
                return
            time.sleep(0.1)
        self.fail("it didn't come to that")


class BoardTest(ServedTest):
    def test_questions(self):
        status, answer = self.call("/ask", size="4x4", moves="ababa")
        self.assertEqual((status, answer["value"], answer["accepted"]), (200, "draw", True))
        status, page = self.get("/proof/%d" % answer["proof"])
        self.assertEqual(status, 200)
        self.assertIn('"count":%d' % answer["lemmas"], page)
        self.assertEqual(self.get("/proof/999")[0], 404)
        # The proof of the usual board that is at hand answers at once, and has no page.
        status, answer = self.call("/ask", size="7x6", moves="d")
        told = status, answer["value"], answer["lemmas"], "proof" in answer
        self.assertEqual(told, (200, "loss", shipped_lemmas(), False))
        status, told = self.call("/explain", size="4x4", moves="")
        self.assertEqual((status, told["found"], told["lines"][0]), (200, True, PLAN))
        self.assertFalse(self.call("/explain", size="4x4", moves="d")[1]["found"])
        status, told = self.call("/play", size="4x4", moves="", plan=PLAN, answered="cc")
        self.assertEqual((status, told["lines"]), (200, ["c1 d1", "c2 c3"]))
        status, page = self.get("/")
        self.assertEqual(status, 200)
        for word in ("http://", "https://", "src=", "@import"):
            self.assertNotIn(word, page.replace("http://www.w3.org/2000/svg", ""))
        status, page = self.get("/rules")
        self.assertEqual(status, 200)
        self.assertIn('<h3 id="claimeven">', page)
        status, page = self.get("/strategy")
        self.assertEqual(status, 200)
        self.assertIn('<img src="img/rule-claimeven.png"', page)
        picture = urllib.request.urlopen(self.address + "img/rule-claimeven.png").read()
        self.assertEqual(picture[1:4], b"PNG")
        for name in ("img/board-values.png", "img/../RULES.md", "img/"):
            self.assertEqual(self.get("/" + name)[0], 404, name)

    def test_known(self):
        """What the proofs of whole boards say of a position and of its moves comes at once, and for whom they play."""
        status, told = self.call("/known", size="7x6", moves="")
        said = status, told["value"], told["lemmas"], told["moves"]["d"]["value"], told["moves"]["a"]
        self.assertEqual(said, (200, "win", shipped_lemmas(), "loss", {"claims": []}))
        status, told = self.call("/known", size="4x6", moves="")
        self.assertEqual((status, told["value"]), (200, "draw"))
        for size, moves, sides, holder in (
            ("7x6", "", "BW", "W"),
            ("7x6", "da", "BW", "W"),
            ("6x6", "", "BW", "B"),
            ("4x4", "", "BW", "B"),
            ("4x4", "", "WB", "W"),
        ):
            status, told = self.call("/holder", size=size, moves=moves, sides=sides)
            self.assertEqual((status, told["holder"], told["proof"]), (200, holder, "whole"), (size, moves, told))
        # White's first move isn't the proof's, so a proof of the position alone is looked for.
        status, told = self.call("/holder", size="4x4", moves="dccbbdbbddcc", sides="BW")
        self.assertEqual((status, told["holder"], told["claim"]), (200, "W", "W+"))
        self.assertGreater(told["proof"], 0)
        asked = {"size": "7x6", "moves": "", "by": "proof", "proof": "whole", "holder": "white", "answered": "d"}
        self.assertEqual(self.call("/play", **asked)[1]["lines"], ["- d1", "d2 d3"])
        self.assertEqual(self.call("/play", **{**asked, "moves": "d"})[0], 400)

    def test_moves(self):
        """What the engine finds comes line by line, of each move and of the position."""
        line = http.client.HTTPConnection("127.0.0.1", self.port, timeout=100)
        self.addCleanup(line.close)
        asked = json.dumps({"page": "page0003", "size": "4x4", "moves": "dadccca"})
        line.request("POST", "/moves", asked, {"Content-Type": "application/json"})
        found = [json.loads(one) for one in line.getresponse().read().splitlines()]
        if not victor._programs.engine_path():
            self.assertEqual(found, [])
            self.skipTest("the engine isn't built: make -C tools/solve engine")
        self.assertIn({"move": "c", "searched": "win", "moves_to_end": 9}, found)
        self.assertIn({"move": "a", "searched": "loss", "moves_to_end": 6}, found)
        self.assertIn({"move": None, "searched": "win", "moves_to_end": 9}, found)

    def test_follow(self):
        """A game against a whole proof, which is one that was asked for."""
        win = {"size": "4x4", "moves": "dccbbdbbddcc", "by": "proof", "holder": "white"}
        win["proof"] = self.call("/ask", size="4x4", moves=win["moves"])[1]["proof"]
        self.assertEqual(self.call("/play", answered="", **win)[1]["lines"], ["- a1"])
        self.assertEqual(self.call("/play", answered="a", **win)[1]["lines"], ["- a1", "a2 a3 won"])
        draw = {"size": "4x4", "moves": "cdccddcdaaaabb", "by": "proof", "holder": "black"}
        draw["proof"] = self.call("/ask", size="4x4", moves=draw["moves"])[1]["proof"]
        self.assertEqual(self.call("/play", answered="b", **draw)[1]["lines"], ["b3 b4 full"])
        for change, said in (
            ({"holder": "black"}, "NoClaim"),
            ({"holder": "grey"}, "white or black"),
            ({"proof": 999}, "no proof 999"),
            ({"proof": "../1"}, "a number"),
            ({"proof": None}, "a number"),
            ({"moves": "-"}, "another game"),
            ({"answered": "b"}, "ColumnFull"),
            ({"answered": "a\n"}, "letters"),
        ):
            status, answer = self.call("/play", **{**win, "answered": "", **change})
            self.assertEqual(status, 400, change)
            self.assertIn(said, answer["fault"])

    def test_bad_questions(self):
        for question in (
            {},
            {"size": "4x4"},
            {"size": "5x5", "moves": ""},
            {"size": "4x4", "moves": "zz"},
            {"size": "4x4", "moves": "aaaaa"},
            {"size": 4, "moves": ""},
            {"size": "4x4", "moves": "", "page": "x"},
        ):
            status, answer = self.call("/ask", **question)
            self.assertEqual(status, 400, question)
            self.assertTrue(answer["fault"], question)
        for plan in ("", "plan", "plan CE:a1\nboard", "plan %s" % ("CE:a1 " * 301).strip(), "plan CE:a1"):
            self.assertEqual(self.call("/play", size="4x4", moves="", plan=plan, answered="")[0], 400, plan)
        self.assertEqual(self.call("/play", size="4x4", moves="", plan=PLAN, answered="c\n")[0], 400)
        self.assertEqual(self.call("/nothing", size="4x4", moves="")[0], 400)
        self.assertEqual(self.call("/ask", body="[")[0], 400)
        self.assertEqual(self.call("/ask", body="[]")[0], 400)
        self.assertEqual(self.call("/ask", body=" " * 5000)[0], 413)

    def test_strangers(self):
        """Only this machine's own page is answered."""
        for headers in ({"Host": "example.org"}, {"Origin": "http://example.org"}, {"Content-Type": "text/plain"}):
            self.assertEqual(self.call("/ask", headers=headers, size="4x4", moves="")[0], 403, headers)
        self.assertEqual(self.get("/", {"Host": "example.org"})[0], 403)
        self.assertEqual(self.get("/../lab")[0], 404)
        self.assertEqual(self.get("/board.html")[0], 404)

    def test_nothing_is_left_behind(self):
        """A page that goes away, and one that asks anew, end what ran for them."""
        line = http.client.HTTPConnection("127.0.0.1", self.port)
        hard = json.dumps({"page": "page0002", "size": "7x6", "moves": ""})
        line.request("POST", "/ask", hard, {"Content-Type": "application/json"})
        self.wait_until(lambda: children_of(self.server.pid))
        line.close()
        self.wait_until(lambda: not children_of(self.server.pid))
        line = http.client.HTTPConnection("127.0.0.1", self.port)
        line.request("POST", "/ask", hard, {"Content-Type": "application/json"})
        self.wait_until(lambda: children_of(self.server.pid))
        self.assertEqual(self.call("/ask", page="page0002", size="4x4", moves="ababa")[1]["value"], "draw")
        self.assertFalse(children_of(self.server.pid))
        line.close()

    @unittest.skipUnless(has_browser(), NO_BROWSER)
    def test_in_a_browser(self):
        browse(self, "served", self.address)

    def test_words(self):
        self.helps("board")
        self.refuses("board", "--port", "70000", said="a port has up to 65535")
        self.refuses("board", "--seconds", "0", said="--seconds up to")
        self.refuses("board", "--usual", said="--usual goes with --static")
        self.refuses("board", "--port", str(self.port), said="Address already in use")


class ClassTest(ServedTest):
    """A page that others than this machine may have, who have its link."""

    more = ("--listen", "127.0.0.1")

    def test_secret(self):
        """Nothing is answered without the word in the link, which is another each time."""
        secret = self.address.split("/")[3]
        self.assertRegex(secret, "^[A-Za-z0-9_-]{12}$")
        for path in ("/", "/rules", f"/{secret}", f"/{secret[:-1]}/", f"/{secret}x/", "/../lab", "//"):
            self.assertEqual(self.get(path)[0], 403, path)
        self.assertEqual(self.call("/ask", size="4x4", moves="ababa")[0], 403)
        status, page = self.get(f"/{secret}/", {"Host": "school.example"})
        self.assertEqual(status, 200)
        self.assertNotIn("tools/lab", page.split('id="data"')[1].split("</script>")[0])
        for path in (
            "../board.py",
            "board.py",
            "page.js",
            "../../README.md",
            "%2e%2e/board.py",
            "etc/passwd",
            "proof/../1",
        ):
            self.assertEqual(self.get(f"/{secret}/{path}")[0], 404, path)
        answer = self.call(f"/{secret}/ask", size="4x4", moves="ababa")
        self.assertEqual((answer[0], answer[1]["value"]), (200, "draw"))
        self.assertEqual(
            self.call(f"/{secret}/ask", headers={"Origin": "http://example.org"}, size="4x4", moves="")[0], 403
        )

    def test_limits(self):
        """A visitor who asks too much at once is told so, and is answered once less is asked."""
        path, lines = "/" + self.address.split("/")[3] + "/ask", []
        for n in range(2 * MOST_AT_ONCE):
            line = http.client.HTTPConnection("127.0.0.1", self.port, timeout=100)
            self.addCleanup(line.close)
            asked = json.dumps({"page": "page%04d" % (100 + n), "size": "10x10", "moves": ""})
            line.request("POST", path, asked, {"Content-Type": "application/json"})
            lines.append(line)
        self.assertTrue(any(line.getresponse().status == 429 for line in reversed(lines)))
        for line in lines:
            line.close()
        self.wait_until(lambda: self.call(path, size="4x4", moves="ababa")[0] == 200)


class VisitorsTest(unittest.TestCase):
    def test_limits(self):
        """So many questions at once and in a minute, and so many connections, are for each visitor alone."""
        visitors = Visitors(at_once=2, a_minute=3)
        for _ in range(3):
            with visitors.question("a"):
                pass
        with self.assertRaises(Busy), visitors.question("a"):
            pass
        with visitors.question("b"):
            pass
        few = Visitors(lines=2)
        self.assertEqual(
            [few.connect("a"), few.connect("a"), few.connect("a"), few.connect("b")], [True, True, False, True]
        )
        few.disconnect("a")
        self.assertTrue(few.connect("a"))


class GamesTest(ToolTest):
    @unittest.skipUnless(victor._programs.engine_path(), "the engine isn't built: make -C tools/solve engine")
    def test_values_of_games(self):
        """Every move of three games has its value within a second of a processor, from a number of men on: from the
        first where the table of openings is there."""
        table = importlib.machinery.SourceFileLoader("page_table", os.path.join(TOOLS, "tests", "page_table"))
        page_table = importlib.util.module_from_spec(importlib.util.spec_from_loader("page_table", table))
        table.exec_module(page_table)
        least = 0 if list(victor._programs.shipped_folder().glob("openings-*.csv.xz")) else 12
        with victor.Engine() as engine:
            for plies, seed in page_table.SEEDS.items():
                game = page_table.game_of(seed)
                self.assertEqual(len(game.moves), plies)
                for position in page_table.positions_of(game, least):
                    spent = page_table.seconds_for_values(engine, position, 10)
                    self.assertIsNotNone(spent, position)
                    self.assertLess(spent, page_table.ENOUGH, position)


class SiteTest(ToolTest):
    """The page as files, with no server."""

    def setUp(self):
        self.site = os.path.join(self.folder_for(), "site")

    def test_files(self):
        status, out, err = tool("board", "--static", self.site)
        self.assertEqual(status, 0, err)
        boards = len(read(os.path.join(TOP, "proofs", "boards.csv")).splitlines()) - 2  # a row of names, and 7 by 6
        self.assertRegex(out, f"^.*/index.html plays from the proofs of {boards} boards .*MB.$")
        self.assertIn("writing the proof of 6 by 6", err)
        names = {"README.txt", "img", "index.html", "proofs", "rules.html", "strategy.html"}
        self.assertEqual(set(os.listdir(self.site)) - {"openings.js"}, names)
        self.assertIn("rule-claimeven.png", os.listdir(os.path.join(self.site, "img")))
        self.assertEqual(len(os.listdir(os.path.join(self.site, "proofs"))), boards)
        self.refuses("board", "--static", self.site, said="isn't empty: name a new one")

    @unittest.skipUnless(has_browser(), NO_BROWSER)
    def test_in_a_browser(self):
        """From a file, and from a plain server of files."""
        status, _, err = tool("board", "--static", self.site, "--usual")
        self.assertEqual(status, 0, err)
        browse(self, "site", "file://%s/index.html" % urllib.parse.quote(self.site))
        handler = functools.partial(QuietHandler, directory=self.site)
        with http.server.ThreadingHTTPServer(("127.0.0.1", 0), handler) as server:
            threading.Thread(target=server.serve_forever, daemon=True).start()
            address = "http://127.0.0.1:%d/" % server.server_address[1]
            browse(self, "site", address, "game_by_the_proof", "bad_links", "looks")
            server.shutdown()


if __name__ == "__main__":
    unittest.main()
