"""The numbers of TRUST and REVIEW, which a reader rests on: each that can be counted here is what the tree has, and
what they say of a kit is so where that kit is installed."""

import glob
import hashlib
import os
import re
import shutil
import subprocess
import unittest

from common import TOP, read

TRUST = " ".join(read(os.path.join(TOP, "docs", "TRUST.md")).split())
REVIEW = " ".join(read(os.path.join(TOP, "docs", "REVIEW.md")).split())
SPELLED = {"one": 1, "two": 2, "nine": 9, "three": 3, "four": 4, "twelve": 12}


def lines_of(*names):
    """How many lines these files have in all."""
    return sum(read(os.path.join(TOP, *name.split("/"))).count("\n") for name in names)


def count(*parts):
    return len(glob.glob(os.path.join(TOP, *parts)))


def number(text):
    return SPELLED[text] if text in SPELLED else int(text.replace(",", ""))


def kit():
    """The folder of the kit that is installed, and its line, where there is one."""
    program = shutil.which("rt")
    if not program:
        return None, ""
    page = subprocess.run(["rt", "doc"], stdout=subprocess.PIPE, encoding="utf-8", check=True).stdout.strip()
    line = subprocess.run(["rt", "version"], stdout=subprocess.PIPE, encoding="utf-8", check=True).stdout.strip()
    return os.path.dirname(page), line


class NumbersTest(unittest.TestCase):
    def expect(self, text, pattern, *wanted):
        """The pattern stands once, and its groups are these numbers."""
        found = re.findall(pattern, text)
        with self.subTest(pattern=pattern):
            self.assertEqual(len(found), 1, "it has to stand there once")
            groups = found[0] if isinstance(found[0], tuple) else (found[0],)
            self.assertEqual([number(group) for group in groups], list(wanted))

    def definitions(self):
        """The files of the table in REVIEW, each with the lines that it tells."""
        return re.findall(r"\| `(crates/[\w/]+\.antt)` \| (\d+) \|", REVIEW)

    def test_definitions(self):
        told = self.definitions()
        for name, lines in told:
            with self.subTest(file=name):
                self.assertEqual(int(lines), lines_of(name))
        more = tuple(
            f"crates/{name}.antt"
            for name in ("run_prove/specs/Proof", "run_prove/specs/Proves", "game_rules/specs/Cost")
        )
        second, first = lines_of(*(name for name, _ in told)), lines_of(*more)
        specs = glob.glob(os.path.join(TOP, "crates", "*", "specs", "**", "*.antt"), recursive=True)
        self.expect(REVIEW, r"## Read: (\d+) lines", second)
        whole = lines_of(*(os.path.relpath(path, TOP) for path in specs))
        pattern = (
            r"([\d,]+) lines in (\w+) files, and for the first theorem (\d+) in (\w+) more"
            r" \([^)]*\), of ([\d,]+) in all"
        )
        self.expect(TRUST, pattern, second, len(told), first, len(more), whole)
        pattern = r"Proof\.antt` \((\d+) lines, `IsProofOf`\) and `Proves\.antt` beside it \((\d+) lines"
        self.expect(REVIEW, pattern, *map(lines_of, more[:2]))
        self.expect(REVIEW, r"Cost\.antt` \((\d+)\)", lines_of(more[2]))
        for name, lines in re.findall(r"`(crates/\w+/specs/\w+\.antt)` \((\d+)\)", REVIEW):
            with self.subTest(file=name):
                self.assertEqual(int(lines), lines_of(name))
        plan = ("crates/plan_rules/specs/Plan.antt", "crates/plan_rules/specs/Rules.antt")
        self.expect(REVIEW, r"Plan\.antt`, (\d+), over `Rules\.antt`, (\d+)\)", *map(lines_of, plan))
        self.expect(REVIEW, r"Spelling\.antt`, (\d+)\)", lines_of("crates/proof_text/specs/Spelling.antt"))

    def test_edits(self):
        gate, more = count("crates", "*", "must-fail", "*.edit"), count("tools", "wrong-bodies", "*", "*.edit")
        self.expect(TRUST, r"(\d+) wrong bodies that it has to refuse in the gate, and (\d+) more", gate, more)
        self.expect(REVIEW, r"tries it with (\d+) others", gate - 1)
        self.expect(REVIEW, r"tries the (\w+) of this crate", count("crates", "board_bits", "must-fail", "*.edit"))
        contributing = " ".join(read(os.path.join(TOP, "CONTRIBUTING.md")).split())
        self.expect(contributing, r"tries all (\d+) before a release", more)
        self.expect(contributing, r"\| (\d+) must-fail edits of \d+ crates", gate)

    def test_programs(self):
        self.expect(TRUST, r"\| `main` \| (\d+) lines", lines_of("crates/victor/src/main.rt"))
        self.expect(TRUST, r"flock \| (\d+) lines", lines_of("victor"))
        self.expect(TRUST, r"KB; (\d+) lines", lines_of(".ci/run"))
        self.expect(TRUST, r"is one, of (\d+) lines of Python", lines_of("tools/check.py"))
        self.expect(TRUST, r"`StdSink` of `io_ports`, (\d+) lines\)", lines_of("crates/io_ports/src/adapters.rt"))

    def test_the_line_to_break(self):
        """REVIEW shows the line as it stands, and where; its edit is the one of the gate."""
        place = re.findall(r"In `(crates/board_bits/src/position\.rt)`, line (\d+) says", REVIEW)[0]
        line = read(os.path.join(TOP, place[0])).split("\n")[int(place[1]) - 1]
        edit = read(os.path.join(TOP, "crates/board_bits/must-fail/playable_above_the_lowest_empty_square.edit"))
        page = read(os.path.join(TOP, "docs", "REVIEW.md"))
        self.assertIn(line + "\n", page)
        old, new = re.findall(r"old: (.*)\nnew: (.*)", edit)[0]
        self.assertIn(old, line)
        self.assertIn(line.replace(old, new) + "\n", page)

    def test_kit(self):
        folder, line = kit()
        if line not in TRUST:
            self.skipTest("the kit that TRUST names isn't installed")
        programs = re.findall(r"`((?:toolchain/)?bin/[\w.]+)` \| `([0-9a-f]{64})`", TRUST)
        self.assertEqual(len(programs), 4)
        for name, told in programs:
            with self.subTest(program=name), open(os.path.join(folder, name), "rb") as source:
                self.assertEqual(hashlib.sha256(source.read()).hexdigest(), told)
        for told in re.findall(r"(?:archive|commit|compiler) ([0-9a-f]{64})", TRUST):
            self.assertIn(told, read(os.path.join(folder, "WHAT")))
        size = os.path.getsize(os.path.join(folder, "bin", "rattle"))
        self.expect(TRUST, r"one executable of (\d+) MB", round(size / 1e6))
        python = sum(os.path.getsize(os.path.join(folder, "bin", name)) for name in ("rt", "rtlib.py"))
        self.expect(TRUST, r"two files of Python, (\d+) KB", round(python / 1e3))


if __name__ == "__main__":
    unittest.main()
