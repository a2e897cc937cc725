"""The documents: each command that they show runs, and what stands after `$` is what comes; their sentences are short,
and in the field's words.

don't run here, each with the reason; they are run by hand.
"""

import glob
import importlib.machinery
import importlib.util
import os
import re
import shutil
import subprocess
import tempfile
import unittest

from common import TOP, program, read, tool
from victor._commands import COMMANDS


DOCUMENTS = ("README.md",) + tuple(
    "docs/%s.md" % name
    for name in ("USE", "TOOLS", "PLAYING", "CHOOSER", "FRONT", "SOLVED", "OPENINGS", "TEACH", "PROOFS", "RULES")
)
COMMAND = re.compile(r"(tools/|LAB=|pip |\./victor|printf|echo|make|moves=|tr |set -o|python3|apt-get|\.ci/) *")
# The beginning of a command, and why it isn't run.
LEFT_OUT = {
    "make": "it builds, installs, or takes 40 minutes; .ci/launcher and test_solve.py try the short ones",
    ".ci/run": "this is a part of it",
    "apt-get": "it installs",
    "pip ": "it installs; test_install.py tries it",
    "./victor check < tools/solve/usual.txt": "it needs the proof that takes half an hour",
    "xz ": "it unpacks a large proof, which .ci/proofs does",
    "./victor check < usual-board.txt": "it needs that proof",
    "tools/check.py usual-board.txt": "the same, and takes a minute",
    "tools/lab batch": "test_batch.py runs it, and Slurm is elsewhere",
    "LAB=": "the same",
    "tools/lab openings values": "it takes hours; test_openings.py runs it on a small board",
    "tools/lab openings prove": "the same",
    "tools/lab openings ask": "the same",
    "tools/lab parts": "test_parts.py runs it, and it takes tools/solve",
    "tools/lab sheet --make": "it takes the engine, which isn't copied there; test_sheet.py tries the same",
    "tools/lab sheet 434343 efbaebdcfcee": "it takes tools/solve, which isn't copied there",
    "tools/lab ask --scores": "it takes the engine, which isn't copied there; test_warm.py tries the same",
    "tools/lab annotate": "it takes the engine, which isn't copied there; test_annotate.py tries the same",
    "tools/lab board": "it serves until it is interrupted; test_board.py asks it",
    "tools/lab play": "it asks a person; test_play.py plays it",
    "./victor play": "it asks a person; a test below plays it",
    "./victor threat": "the same",
}
# What stands there before a document's commands.
FIRST = {
    "docs/PLAYING.md": "xz -dc proofs/usual-board.txt.xz > usual-board.txt",
    "docs/SOLVED.md": "./victor prove < examples/usual-board.txt > proof.txt",
    "docs/USE.md": r"printf 'board 7 6\nmoves dcdcdc\n' > game.txt; ./victor prove < game.txt > proof.txt;"
    r" printf 'board 7 6\r\nmoves dcdcdc\r\n' > game-of-windows.txt; moves=dcdcdc",
    "docs/TOOLS.md": r"printf 'board 4 4\nmoves -\n' | tee game.txt one.txt > two.txt;"
    r" printf 'board 4 4\nmoves -\nplan CE:a1 CE:a3 CE:b1 CE:b3 BI:c1,d1 LI:c2-c4,d2-d4\nc\n' > moves.txt",
}


def blocks_of(text):
    """The indented blocks of a document, each a list of lines from the same edge."""
    block = []
    for line in text.split("\n") + ["end"]:
        if line.startswith("    ") or not line and block:
            block.append(line)
        elif block:
            while not block[-1]:
                block.pop()
            edge = len(block[0]) - len(block[0].lstrip())
            yield [line[edge:] for line in block]
            block = []


def whole(lines):
    """The lines with each that goes on joined to the next."""
    joined = []
    for line in lines:
        if joined and joined[-1].endswith(("\\", "&&")):
            joined[-1] = joined[-1].rstrip("\\") + line.lstrip()
        else:
            joined.append(line)
    return joined


def runs_of(block):
    """Each command of a block with what is shown of its output, or None where nothing is."""
    lines = whole(block)
    if not any(line.startswith("$ ") for line in lines):
        return [(line, None) for line in lines if COMMAND.match(line)]
    runs = []
    for line in lines:
        if line.startswith("$ "):
            runs.append((line[2:], []))
        elif runs:
            runs[-1][1].append(line)
    return runs


def commands_of(name):
    path = os.path.join(TOP, name)
    runs = [run for block in blocks_of(read(path)) for run in runs_of(block)] if os.path.exists(path) else []
    # tools/solve has to be made first, which tools/tests/test_solve.py does.
    return [
        (line, shown)
        for line, shown in runs
        if "tools/solve/solve" not in line and not any(line.startswith(words) for words in LEFT_OUT)
    ]


def is_shown(shown, made):
    """Whether the output begins with these lines, or is one line that is shown in several. Of a line that ends in ` ..`
    what stands before is enough."""
    if " ".join(shown) == made.rstrip("\n"):
        return True
    lines = made.split("\n")
    return len(shown) <= len(lines) and all(
        line.startswith(part[:-2]) if part.endswith(" ..") else line == part for part, line in zip(shown, lines)
    )


# Words that aren't used any more, each with what is said in its place.
OLD_WORDS = {
    r"\bbehind\b": "after, beyond, below",
    r"\bso many\b": "this many, a number of, as many",
    r"\bthe middle one\b|\bin the middle \|": "the median",
    r"\bprocessor time\b|\bseconds of (a|the) processor\b": "CPU time, CPU seconds",
    r"\bby the clock\b": "wall time",
    r"\bon an average\b": "on average",
}
LONGEST_SENTENCE = 40  # words
NAME = r"`(?:\w+::)?([a-z]+(?:_[a-z0-9]+)+|(?:[A-Z][a-z]+){2,})`"
# Sections on times of runs and on building, blocks of text as it is, commands and tables.
NOT_PROSE = re.compile(
    r"^## (?:The gate|Install and run)\n.*?(?=^## )|^```.*?^```\n|^( {4,}| *\||#)[^\n]*\n", re.M | re.S
)
# Pages whose words are held elsewhere.
OTHER_PAGES = ("docs/TOOLS.md", "docs/ENGINE.md")


def prose_pages():
    """Each document of this repository, by its path."""
    paths = ["README.md", "CONTRIBUTING.md", "CHANGELOG.md", "examples/README.md", "proofs/README.md"]
    paths += sorted(os.path.relpath(path, TOP) for path in glob.glob(os.path.join(TOP, "docs", "*.md")))
    return [path for path in paths if path not in OTHER_PAGES]


def prose_of(path):
    """A document without its tables, its commands and its headings."""
    return re.sub(NOT_PROSE, "\n", read(os.path.join(TOP, path)) + "\n## \n")


def sentences_of(prose):
    """The sentences, where an item of a list and a paragraph end one too."""
    for part in re.split(r"\n\s*\n|\n *(?:-|\d+\.) ", prose):
        yield from re.split(r"(?<=[.?!])[\"')*]* +(?=[A-Z`*(\"])|(?<=:) (?=[A-Z])", " ".join(part.split()))


def maker():
    """`.ci/documents`, which makes what the documents take from the sources."""
    loader = importlib.machinery.SourceFileLoader("documents", os.path.join(TOP, ".ci", "documents"))
    module = importlib.util.module_from_spec(importlib.util.spec_from_loader("documents", loader))
    loader.exec_module(module)
    return module


def sources():
    """All text of the crates."""
    paths = glob.glob(os.path.join(TOP, "crates", "*", "*", "**", "*.*t"), recursive=True)
    return "\n".join(read(path) for path in paths if path.endswith((".rt", ".antt")))


class WordsTest(unittest.TestCase):
    """What needs no program: words, lengths, and what is made from the sources."""

    def test_old_words(self):
        for path in prose_pages():
            prose = prose_of(path)
            for word, better in OLD_WORDS.items():
                found = re.search(word, prose)
                with self.subTest(document=path, word=word):
                    near = prose[max(found.start() - 60, 0) : found.end() + 20] if found else ""
                    self.assertFalse(found, f"say {better} in {near!r}")

    def test_lengths(self):
        for path in prose_pages():
            for line in read(os.path.join(TOP, path)).split("\n"):
                with self.subTest(document=path, line=line):
                    self.assertTrue(len(line) <= 120 or line.startswith(("|", " ")))
            for sentence in sentences_of(prose_of(path)):
                with self.subTest(document=path, sentence=sentence):
                    self.assertLessEqual(len(sentence.split()), LONGEST_SENTENCE)

    def test_names(self):
        """Each name of a law, a clause or a definition on these pages stands in the sources."""
        known = set(re.findall(r"\w+", sources()))
        for path in ("docs/WHAT-IS-PROVED.md", "docs/PLAYING.md", "docs/PROOFS.md"):
            names = re.findall(NAME, read(os.path.join(TOP, path)))
            self.assertGreater(len(names), 15, path)
            self.assertEqual(sorted(set(names) - known), [], path)

    def test_crates(self):
        """The table of crates is made from crates.txt and from each crate's own comment."""
        table = maker().crate_table()
        self.assertIn("| `threat_rules` | The odd threat in code", table)
        self.assertIn("\n" + table + "\n", read(os.path.join(TOP, "docs", "ARCHITECTURE.md")))
        picture = read(os.path.join(TOP, "docs", "ARCHITECTURE.md")).split("```")[1]
        for crate in maker().listed_crates():
            self.assertRegex(picture, rf"\b{crate}\b")

    def test_definitions(self):
        """`make docs` writes a page for each crate that defines something, with the comments of the sources."""
        with tempfile.TemporaryDirectory() as folder:
            made = subprocess.run(
                [os.path.join(TOP, ".ci", "documents"), folder], stdout=subprocess.PIPE, encoding="utf-8", check=True
            )
            self.assertIn(f"{len(os.listdir(folder))} pages", made.stdout)
            page = read(os.path.join(folder, "game_rules.md"))
            for line in (
                "- `side_to_move`: White moves where the number of men is even, also after the end of the game\n",
                "- `at_most_one_side_has_a_line`: Along lists of legal moves at most one side has a line.\n",
            ):
                self.assertIn(line, page)


class DocumentsTest(unittest.TestCase):
    def setUp(self):
        self.folder = tempfile.mkdtemp()
        self.addCleanup(shutil.rmtree, self.folder)
        for name in ("tools", "examples", "docs", "proofs"):
            # Copied, so that the tools take the program beside them.
            others = shutil.ignore_patterns("solve", "wrong-bodies", "__pycache__")
            shutil.copytree(os.path.join(TOP, name), os.path.join(self.folder, name), ignore=others)

    def link(self, path):
        os.symlink(path, os.path.join(self.folder, "victor"))

    def bash(self, line, text=None, **more):
        made = subprocess.run(
            ["bash", "-c", line],
            cwd=self.folder,
            env={**os.environ, "VICTOR": program(), **more},
            input=text or "",
            stdout=subprocess.PIPE,
            stderr=subprocess.STDOUT,
            encoding="utf-8",
            timeout=150,
        )
        return made.returncode, made.stdout

    def try_commands(self, name, **more):
        first = FIRST.get(name, "true")
        self.bash(first)
        # What a command sets stands for those after it.
        kept = first.rsplit("; ", 1)[-1] if "=" in first.rsplit("; ", 1)[-1] else "true"
        for line, shown in commands_of(name):
            with self.subTest(document=name, command=line):
                status, made = self.bash(kept + "\n" + line, **more)
                if line.startswith("moves="):
                    self.assertEqual(self.bash(line + "\necho $moves")[1], "dcdcdc\n")
                    kept = line
                if shown:
                    self.assertTrue(is_shown(shown, made), made)
                elif shown is None:
                    self.assertEqual(status, 0, made)

    def test_commands(self):
        self.link(program())
        counts = {name: len(commands_of(name)) for name in DOCUMENTS}
        self.assertGreater(sum(counts.values()), 65, counts)
        for name in DOCUMENTS:
            if name != "docs/USE.md":
                self.try_commands(name)

    def test_use(self):
        """The page shows what the launcher says on a terminal."""
        launcher = os.path.join(TOP, "victor")
        if os.environ.get("VICTOR") or not os.access(launcher, os.X_OK):
            self.skipTest("another program than that of the checkout is tested")
        program()  # built where it isn't
        self.link(launcher)
        self.try_commands("docs/USE.md", VICTOR_EXPLAIN="1")

    def test_tools(self):
        """The page on the tools and their help go together: each subcommand with what it does and its own example, and
        no option that isn't there."""
        text = read(os.path.join(TOP, "docs", "TOOLS.md"))
        self.assertLessEqual(text.count("\n"), 200)
        helped = ""
        for command, what in COMMANDS.items():
            self.assertIn(f"| `{command}` | {what} |\n", text)
            status, out, err = tool(command, "--help")
            self.assertEqual((status, err), (0, ""))
            example = out.rstrip().split("\nexample:\n  ")[1]
            self.assertIn(f"\n    {example}\n", text)
            self.assertRegex(text, rf"\n## {command}: ")
            helped += out
        for option in set(re.findall(r"`(--[a-z]+)", text)) - {"--help", "--no"}:
            self.assertRegex(helped, rf"{option}\b", option)

    def games_of(self, heading):
        """Of a section of the page on playing: what is typed before the first answer, the answers and the moves."""
        text = read(os.path.join(TOP, "docs", "PLAYING.md"))
        section = next(part for part in text.split("\n## ") if part.startswith(heading))
        lines = [line.strip() for line in section.split("\n") if line.startswith("    ")]
        start = lines[1:4]
        answers = [found[0] for line in lines for found in re.finditer(r"[a-j]\d+ [a-j]\d+( won| full)?", line)]
        return start, answers, [line for line in lines if re.fullmatch("[a-j]", line)]

    def test_play(self):
        """The games by a plan on the page on playing: each line that is typed there, and what is answered."""
        self.link(program())
        start, answers, typed = self.games_of("`play`")
        first = self.bash("./victor play", text="\n".join(start + typed))
        self.assertEqual(first, (0, "".join(line + "\n" for line in answers[: len(typed)])))
        second = self.bash("./victor play", text="\n".join(start + ["c", "c", "c", "d"]))
        self.assertEqual(second, (0, "".join(line + "\n" for line in answers[len(typed) : -2])))
        third = ["board 4 4", "moves cccdcd", "plan CE:a1 CE:a3 CE:b1 CE:b3 CE:d3 AE:a2h", "a", "b"]
        self.assertEqual(self.bash("./victor play", text="\n".join(third)), (0, "\n".join(answers[-2:]) + "\n"))
        fewer = ["board 4 4", "moves cccdcd", "plan CE:a1 CE:a3 CE:b1 CE:b3 CE:d3"]
        self.assertEqual(self.bash("./victor play", text="\n".join(fewer)), (4, "refused line 3: Unanswered a3h\n"))

    def test_threat(self):
        """The game by an odd threat on the same page."""
        self.link(program())
        start, answers, typed = self.games_of("`threat`")
        self.assertEqual(len(typed), len(answers))
        played = self.bash("./victor threat", text="\n".join(start[:2] + typed))
        self.assertEqual(played, (0, "".join(line + "\n" for line in [start[2]] + answers)))


if __name__ == "__main__":
    unittest.main()
