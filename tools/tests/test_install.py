"""The package by pip in a fresh environment, and all of it by `make install`."""

import glob
import os
import shutil
import subprocess
import sys
import unittest

from common import TOOLS, TOP, ToolTest, program, read, shipped_lemmas
import victor

CODE = "import victor; print(victor.check(victor.prove(victor.Game.read('434343'))).value, victor.__version__)"
COPIED: tuple[str, ...] = (
    "victor",
    "victor.1",
    "Makefile",
    "README.md",
    "CHANGELOG.md",
    "CONTRIBUTING.md",
    "docs",
    "examples",
    "proofs",
)
COPIED += ("tools", ".ci/proofs", ".ci/python-folder", ".ci/seconds", "crates.txt")


class InstallTest(ToolTest):
    def setUp(self):
        self.room = self.folder_for("install test-")

    def run_in(self, folder, *words, **more):
        """What a command writes, which has to succeed."""
        environment = {**os.environ, "VICTOR_EXPLAIN": "", **more}
        made = subprocess.run(words, cwd=folder, env=environment, capture_output=True, text=True, timeout=100)
        self.assertEqual(made.returncode, 0, made.stdout + made.stderr)
        return made.stdout

    def test_pip(self):
        """It takes no other package and no network."""
        place = os.path.join(self.room, "environment")
        made = subprocess.run([sys.executable, "-m", "venv", place], capture_output=True, text=True)
        if made.returncode:
            self.skipTest("there is no ensurepip: apt-get install python3-venv")
        source = shutil.copytree(
            TOOLS, os.path.join(self.room, "tools"), ignore=shutil.ignore_patterns("tests", "solve")
        )
        self.run_in(self.room, f"{place}/bin/pip", "install", "--no-index", "--quiet", source)
        said = "White, who is to move, wins after dcdcdc on 7 by 6 (2 lemmas accepted).\n"
        words = (f"{place}/bin/victor-lab", "ask", "434343", "--by", "prove", "--victor", program())
        self.assertEqual(self.run_in("/", *words), said)
        found = self.run_in("/", f"{place}/bin/python", "-c", CODE, VICTOR=program())
        self.assertEqual(found, f"win {victor.__version__}\n")
        proof = os.path.join(TOP, "examples", "usual-board.proof")
        self.assertEqual(self.run_in("/", f"{place}/bin/victor-check", proof), "accepted win 2\n")
        self.assertEqual(self.run_in("/", f"{place}/bin/victor-lab", "--version"), f"victor-lab {victor.__version__}\n")
        self.assertIn(f'\nversion = "{victor.__version__}"\n', read(os.path.join(TOOLS, "pyproject.toml")))

    @unittest.skipUnless(shutil.which("make"), "make isn't there: apt-get install make")
    def test_make(self):
        """The commands and the package work without the documents, and the documents' commands beside them."""
        source, prefix = os.path.join(self.room, "source"), os.path.join(self.room, "usr")
        for name in COPIED:
            path, to = os.path.join(TOP, name), os.path.join(source, name)
            os.makedirs(os.path.dirname(to), exist_ok=True)
            if os.path.isdir(path):
                shutil.copytree(path, to, ignore=shutil.ignore_patterns("__pycache__", "wrong-bodies", "openings"))
            else:
                shutil.copy(path, to)
        os.makedirs(os.path.join(source, "crates", "victor", "out"))
        shutil.copy(program(), os.path.join(source, "crates", "victor", "out", "victor"))
        self.run_in(source, "bash", "-c", '. ./victor && note_built "$(sum_sources)"')
        make = ("make", "-s", "-o", "all", f"PREFIX={prefix}")
        self.run_in(source, *make, "install", PYTHONUSERBASE=prefix)
        there = {"PATH": f"{prefix}/bin:{os.environ['PATH']}", "VICTOR": "", "PYTHONUSERBASE": prefix}
        page = os.path.join(prefix, "share", "doc", "victor")
        line = "tools/lab game 434343 | ./victor prove | tail -n 1 && tools/check.py examples/usual-board.proof"
        self.assertEqual(self.run_in(page, "bash", "-c", line, **there), "value win 2\naccepted win 2\n")
        lines = [self.run_in("/", path, "--help").splitlines() for path in (f"{source}/victor", f"{prefix}/bin/victor")]
        self.assertEqual(*([line for line in each if not line.startswith("More:")] for each in lines))
        said = self.run_in("/", f"{prefix}/bin/victor", "--version")
        self.assertIn(f"victor {victor.__version__}, installed without its sources\n", said)
        shutil.rmtree(page)
        self.assertIn(f"{shipped_lemmas():,} lemmas accepted", self.run_in("/", "victor-lab", "ask", "dddd", **there))
        self.assertEqual(self.run_in("/", sys.executable, "-c", CODE, **there), f"win {victor.__version__}\n")
        self.assertIn(" passed, 0 failed", self.run_in("/", "victor-check-proofs", **there))
        self.run_in(source, *make, "uninstall", PYTHONUSERBASE=prefix)
        left = [path for path in glob.glob(f"{prefix}/**", recursive=True) if not os.path.isdir(path)]
        self.assertEqual(left, [])


if __name__ == "__main__":
    unittest.main()
