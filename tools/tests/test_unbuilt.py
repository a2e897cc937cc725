"""Nothing is built unasked: in a checkout without a program, with a stub in place of `rt`."""

import inspect
import os
import resource
import shutil
import subprocess
import sys
import unittest

from common import TOP, ToolTest, example, write
import victor

CODE = """
import sys, time
sys.path.insert(0, "tools")
import victor
game = victor.Game.read("434343")
proof = victor.Proof(game, "win", 2, open("examples/usual-board.proof").read(), 0)
calls = {
    "play": (game, "CE:a1", []), "check": (proof,), "trim": (proof,), "upgrade": (proof,), "follow": (proof, "white"),
    "drill": ((4, 4), 4, 1, 1), "find_program": (), "find_solver": (), "find_engine": (),
}
for name in sys.argv[1:]:
    begin = time.monotonic()
    try:
        getattr(victor, name)(*calls.get(name, (game,)))
        print(name, "gave something")
    except victor.Fault as fault:
        print(name, fault, "too slow" if time.monotonic() - begin > 2 else "")
"""
FUNCTIONS: tuple[str, ...] = (
    "annotate",
    "check",
    "drill",
    "explain",
    "find_engine",
    "find_program",
    "find_solver",
    "follow",
    "play",
    "prove",
)
FUNCTIONS += ("solve", "threat", "trim", "upgrade")
NO_PROGRAM = ("answer", "build", "prove_by_move")  # the words, what builds, and what runs nothing


def processor_time():
    """The seconds of processor time that all programs have taken which were run here."""
    used = resource.getrusage(resource.RUSAGE_CHILDREN)
    return used.ru_utime + used.ru_stime


class UnbuiltTest(ToolTest):
    def setUp(self):
        self.room = self.folder_for()
        self.clone, self.calls = os.path.join(self.room, "a clone"), os.path.join(self.room, "calls")
        skipped = shutil.ignore_patterns("out", "solve", "openings", "__pycache__", "must-fail")
        for name in ("tools/victor", "crates/victor", "examples"):
            shutil.copytree(os.path.join(TOP, name), os.path.join(self.clone, name), ignore=skipped)
        os.mkdir(os.path.join(self.clone, ".ci"))
        for name in ("victor", "victor.1", "crates.txt", ".ci/seconds", "tools/lab", "tools/check.py", "tools/why"):
            shutil.copy(os.path.join(TOP, name), os.path.join(self.clone, name))
        os.mkdir(os.path.join(self.room, "bin"))
        write(os.path.join(self.room, "bin", "rt"), f"#!/bin/bash\necho $1 >>'{self.calls}'\nexit 1\n", True)
        paths = [
            os.path.join(self.room, "bin"),
            *(path for path in os.environ["PATH"].split(":") if self.is_bare(path)),
        ]
        self.environment = {**os.environ, "PATH": ":".join(paths)}
        self.environment.pop("VICTOR", None)

    def is_bare(self, path):
        """No installed program is found there."""
        return not any(
            os.path.exists(os.path.join(path, name)) for name in ("victor", "victor-solve", "victor-engine", "rt")
        )

    def lab(self, *words, text="", **more):
        begin = processor_time()
        words = [sys.executable, os.path.join(self.clone, "tools", "lab"), *words]
        environment = {**self.environment, **more}
        made = subprocess.run(words, input=text, env=environment, capture_output=True, text=True, cwd=self.clone)
        self.assertLess(processor_time() - begin, 2)
        return made.returncode, made.stdout, made.stderr

    def test_subcommands(self):
        """Each that needs the program ends at once, with one line that names what builds it and how long that takes."""
        positions = write(os.path.join(self.room, "list"), "4444\n")
        for words in (
            ["ask", "434343"],
            ["sheet", "434343"],
            ["play"],
            ["play", "--proof", example("usual-board.proof")],
            ["board", "--port", "0"],
            ["batch", positions, os.path.join(self.room, "proofs")],
            ["parts", "dc", os.path.join(self.room, "parts"), "white", "--at", "2"],
        ):
            status, out, err = self.lab(*words)
            self.assertEqual((status, out), (2, ""), words)
            lines = [line for line in err.splitlines() if "to be proved" not in line]
            self.assertEqual(len(lines), 1, err)
            self.assertTrue(lines[0].startswith(f"lab {words[0]}: the program isn't built yet: `make -C "), err)
            self.assertRegex(lines[0], "builds it in (some [0-9]+ minutes|a minute);")
        self.assertFalse(os.path.exists(self.calls))

    def test_others(self):
        """Those that don't need it just work, and each has help that runs nothing."""
        text = "plan CE:a1 CE:a3\nCE:a1 owns a1 a2\nCE:a3 owns a3 a4\n"
        for words, text in (
            (["game", "dc"], ""),
            (["draw", "position", "dc"], ""),
            (["words"], text),
            (["--help"], ""),
        ):
            self.assertEqual(self.lab(*words, text=text)[::2], (0, ""), words)
        for command in ("ask", "game", "draw", "words", "sheet", "play", "board", "batch", "parts", "openings"):
            status, out, err = self.lab(command, "--help")
            self.assertEqual((status, err), (0, ""))
            self.assertIn("example:\n  ", out)
        self.assertFalse(os.path.exists(self.calls))

    def test_functions(self):
        """Each function of the package that runs the program says the same as a fault."""
        public = {name for name in victor.__all__ if inspect.isfunction(getattr(victor, name))}
        self.assertEqual(public, {*FUNCTIONS, *NO_PROGRAM})
        words = [sys.executable, "-c", CODE, *FUNCTIONS]
        made = subprocess.run(words, env=self.environment, capture_output=True, text=True, cwd=self.clone)
        self.assertEqual((made.returncode, made.stderr), (0, ""))
        for name, line in zip(FUNCTIONS, made.stdout.splitlines()):
            what = (
                "tools/solve isn't built: `make -C"
                if name in ("solve", "find_solver")
                else "the engine isn't built: `make -C"
                if name == "find_engine"
                else "the program isn't built yet"
            )
            self.assertTrue(line.startswith(f"{name} {what}"), line)
            self.assertNotIn("too slow", line)
        self.assertFalse(os.path.exists(self.calls))

    def test_which(self):
        """VICTOR, then the checkout's where it is current, then an installed one; a launcher isn't let build."""
        stub = '#!/bin/bash\necho accepted win $(basename "$(dirname "$0")" | tr -dc 0-9)\n'
        places = [os.path.join(self.room, f"bin{n}") for n in (1, 2)]
        for place in places:
            os.mkdir(place)
            write(os.path.join(place, "victor"), stub, True)
        code = "import sys; sys.path.insert(0, 'tools'); import victor; print(victor.find_program())"

        def found(**more):
            environment = {**self.environment, **more}
            words = [sys.executable, "-c", code]
            made = subprocess.run(words, env=environment, capture_output=True, text=True, cwd=self.clone)
            return made.stdout.strip() or made.stderr.strip().split("\n")[-1]

        one, two = (os.path.join(place, "victor") for place in places)
        path = f"{places[1]}:{self.environment['PATH']}"
        self.assertEqual(found(PATH=path), two)
        self.assertEqual(found(PATH=path, VICTOR=one), one)
        self.assertIn("isn't built yet", found(PATH=path, VICTOR=os.path.join(self.clone, "victor")))
        built = os.path.join(self.clone, "crates", "victor", "out", "victor")
        os.makedirs(os.path.dirname(built))
        write(built, stub, True)
        self.assertEqual(found(PATH=path), two)  # nothing says what it was built from
        launcher = 'cd "$1" && . ./victor && note_built "$(sum_sources)"'
        subprocess.run(["bash", "-c", launcher, "bash", self.clone], check=True)
        self.assertEqual(found(PATH=path), built)
        self.assertEqual(found(PATH=path, VICTOR=os.path.join(self.clone, "victor")), built)
        write(os.path.join(self.clone, "crates", "victor", "src", "more.rt"), "")
        self.assertEqual(found(PATH=path), two)
        self.assertIn("is of other sources", found())
        self.assertFalse(os.path.exists(self.calls))

    def test_build(self):
        """--build has the launcher build, whose words are shown."""
        status, out, err = self.lab("ask", "434343", "--build")
        self.assertEqual((status, out), (2, ""))
        self.assertIn("victor: ", err)
        self.assertIn("lab ask: the program wasn't built", err.splitlines()[-1])
        self.assertTrue(os.path.exists(self.calls))


if __name__ == "__main__":
    unittest.main()
