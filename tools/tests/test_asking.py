"""Who is asked, what each may spend, and what may help: by stand-ins for the programs."""

import json
import os
import re
import unittest
from unittest import mock

from common import ToolTest, example, program, read, tool, write
import victor
from victor import Game, _asking as asking, _programs as programs
from victor._answers import advice

BUSY = "while :; do :; done"  # a program that never ends
TOLD = re.compile(r"(lab ask: [a-z]+ has taken [0-9.]+( of [0-9.]+)? seconds for [-a-j]+\n)*")


class EngineTest(ToolTest):
    """Both programs, where `tools/solve` or `victor prove` is a stand-in."""

    def setUp(self):
        self.folder = self.folder_for()
        self.proof = read(example("usual-board.proof"))

    def script(self, name, lines):
        """A program of bash, which finds a proof beside itself."""
        path = os.path.join(self.folder, name)
        write(path + ".proof", self.proof)
        return write(path, f"#!/bin/bash\n{lines}\n", True)

    def asks(self, *words, solver=None, prover=None):
        """The status, the answer, and what is said of the time."""
        more = [
            "--victor",
            program()
            if prover is None
            else self.script("victor", "case $1 in check | trim) exec '%s' $1;; esac\n%s" % (program(), prover)),
        ]
        more += ["--solver", self.script("solve", solver)] if solver else []
        return tool("ask", *words, *more)

    def says(self, wanted, *words, status=0, **more):
        got = self.asks(*words, **more)
        self.assertEqual(got[0], status, got)
        for part in wanted if isinstance(wanted, tuple) else (wanted,):
            self.assertIn(part, got[1])
        return got

    def test_who_found_it(self):
        """solve is asked first, and prove where that fails; alone, prove needs no name."""
        fails = "echo 'solve: a board of 7 by 6 is too large for this tool' >&2; exit 2"
        there, never = 'cat "$0.proof"', "exit 1"
        said = "White, who is to move, wins after dcdcdc on 7 by 6 (%s2 lemmas accepted).\n"
        for words, solver, prover, found in (
            ([], there, never, "found by solve, "),
            (["--by", "both"], there, never, "found by solve, "),
            (["--by", "solve"], there, never, "found by solve, "),
            ([], fails, None, "found by prove, "),
            (["--by", "prove"], never, None, ""),
        ):
            got = self.asks("dcdcdc", *words, solver=solver, prover=prover)
            self.assertEqual(got[:2], (0, said % found), got)
        status, out, err = self.asks("dcdcdc", "--by", "solve", solver=fails)
        self.assertEqual((status, out), (1, ""))
        self.assertIn("too large", err)

    def test_lines_of_five(self):
        """solve is asked about boards with lines of five as about others, and gets the length in its text."""
        self.proof = read(example("five", "win.proof"))
        solver = '[ "$(head -n 1)" = "board 5 4 5" ] && cat "$0.proof"'
        for words in ([], ["--by", "solve"]):
            self.says(
                "White, who is to move, wins after aabbddee on 5 by 4 with lines of five (found by solve, ",
                "--board",
                "5x4x5",
                "aabbddee",
                *words,
                solver=solver,
                prover="exit 1",
            )

    def test_what_is_asked(self):
        """Where nothing else is said, both are asked where tools/solve was made, and else prove alone."""
        with mock.patch.object(programs, "solver_path", lambda: None):
            self.assertEqual(asking.engines_of(None, None), ("prove",))
            self.assertEqual(asking.engines_of(None, "a path"), ("solve", "prove"))
            self.assertEqual(asking.engines_of("both", None), ("solve", "prove"))
            self.assertRaises(victor.Fault, programs.find_solver)
        with mock.patch.object(programs, "solver_path", program):
            self.assertEqual(asking.engines_of(None, None), ("solve", "prove"))
            self.assertEqual(asking.engines_of("prove", None), ("prove",))
        # Where tools/solve isn't made, it is what is advised.
        game = Game.read("-", (4, 4))
        with mock.patch.object(programs, "solver_path", lambda: None):
            for by in (None, "prove"):
                asker = asking.Asker(asking.Means(by=by, program=program(), nodes=3, reach=0), self.folder)
                asker.known = []
                said = advice(asker.answer(game), ("prove",))
                self.assertEqual(said, f"raise it by --nodes above 3 or --reach above 0, or try {programs.MAKE_SOLVER}")
        # A board that solve doesn't take is no question for it.
        asker = asking.Asker(asking.Means(by="prove", program=program(), nodes=1, reach=0), self.folder)
        self.assertEqual(asker.answer(Game.read("-", (10, 10))).wishes, ("--nodes above 1", "--reach above 0"))

    def test_refused(self):
        """A proof of solve's that isn't accepted is told, whatever prove would say."""
        for change, said in (
            (("one d 1", "one d 2"), "wasn't accepted: refused line 5"),
            (("dcdcdc", "d"), "another game"),
            (("value win 2", "value unknown"), "isn't the one"),
        ):
            self.proof = read(example("usual-board.proof")).replace(*change)
            status, out, err = self.asks("dcdcdc", solver='cat "$0.proof"')
            self.assertEqual((status, out, err.count("\n")), (1, "", 1), err)
            self.assertIn(said, err)

    def test_what_solve_is_told(self):
        """The first proof that it finds by the tables of openings is wanted, or a smaller one."""
        words = os.path.join(self.folder, "words")
        tables = "".join(f"--table {path} " for path in programs.shipped_openings("7x6"))
        self.assertEqual(tables.count("openings-8"), 2)
        for more, told in (((), "--rounds 0 --sweeps 0 "), (("--small",), "")):
            self.says("found by solve", "dcdcdc", *more, solver='echo "$@" >\'%s\'; cat "$0.proof"' % words)
            given = "--quiet --memory 2000 --order 0 --high 0 --part 0 --soon 3 --outline 20000000 "
            self.assertEqual(read(words), f"{given}{told}{tables}--seconds 27\n")

    def test_out_of_time(self):
        """Where the seconds of processor time are spent, more of them are advised; and what takes long says so."""
        small = ("--by", "both", "--board", "4x4", "-", "--nodes", "3", "--reach", "0")
        why = "since solve didn't end within its share of 4 seconds and prove's budget of 3 positions is below the cost"
        got = self.says(why + ": try --seconds 20.", *small, "--seconds", "4", solver=BUSY, status=5)
        self.assertRegex(got[2], "^lab ask: solve has taken [23] of 3.7 seconds for -\n$")
        self.says(
            "since prove didn't end within 0.5 seconds: try --seconds 2.5",
            *small,
            "--by",
            "prove",
            "--seconds",
            "0.5",
            prover=BUSY,
            status=5,
        )
        self.says(
            "since prove had too little of a processor to spend 0.5 seconds: try --seconds 2.5",
            *small,
            "--by",
            "prove",
            "--seconds",
            "0.5",
            prover="exec sleep 60",
            status=5,
        )

    def test_what_may_help(self):
        """What is advised is what would help: more memory, or a greater budget for prove where solve can't be used."""
        small = ("--by", "both", "--board", "4x4", "-", "--nodes", "3", "--reach", "0")
        memory = "echo 'solve: the strategy needs more memory than --memory allows' >&2; exit 2"
        self.says(
            ("solve needs more memory than 2000 MiB and prove's budget", "the cost: try --memory 4000."),
            *small,
            solver=memory,
            status=5,
        )
        self.says(
            (
                "solve failed (too large) and prove's budget of 3 positions is below the cost",
                ": try --nodes above 3 or --reach above 0.",
            ),
            *small,
            solver="echo 'solve: too large' >&2; exit 2",
            status=5,
        )
        self.says(
            "prove needs more memory than 500 MiB: try --memory 1000",
            "d",
            "--by",
            "prove",
            "--memory",
            "500",
            prover="exit 8",
            status=5,
        )

    def test_win_by_a_move(self):
        """A move that wins proves the position, though prove alone can't within the budget; the proof is one of it."""
        words = ("--by", "prove", "--board", "4x4", "dccbbdbbddcc", "--reach", "0", "--nodes", "3")
        self.says("stays unknown", *words, status=5)
        kept = os.path.join(self.folder, "kept")
        # It has the budget for the position behind the move, and not for the position.
        prover = (
            "game=$(cat)\n"
            '[ "${game##*moves }" = dccbbdbbddcc ] || set -- prove --reach 0\n'
            'exec \'%s\' "$@" <<<"$game"' % program()
        )
        self.says(
            "White, who is to move, wins after dccbbdbbddcc on 4 by 4 (4 lemmas accepted); the best move is a.",
            *words,
            "--moves",
            "--keep",
            kept,
            prover=prover,
        )
        self.assertEqual(read(kept), read(example("forced-win.proof")))

    def test_win_by_a_known_move(self):
        """So does one behind which a proof of a whole game has the position, and nothing is written of it."""
        asker = asking.Asker(asking.Means(by="prove", program=program(), nodes=1, reach=0), self.folder)
        asker.known = [mock.Mock(answer=lambda game: asking.Answer("loss", "a proof", 7) if game.side == "B" else None)]
        game = Game.read("dccbbdbbddcc", (4, 4))
        answer, moves = asker.moves_of(game, asker.answer(game))
        self.assertEqual((answer.value, answer.by, answer.lemmas, answer.proof), ("win", "a proof", 7, None))
        self.assertEqual(moves, [(0, "win")])

    def test_json(self):
        status, out, err = self.asks("--json", "--moves", "--board", "4x4", "ababa", "--by", "prove")
        data = json.loads(out)
        self.assertEqual((status, out.count("\n"), data.pop("sentence").count("the best move is a")), (0, 1, 1), err)
        self.assertEqual(
            data,
            {
                "columns": 4,
                "rows": 4,
                "length": 4,
                "moves": "ababa",
                "side": "Black",
                "ended": False,
                "value": "draw",
                "by": "prove",
                "lemmas": 361,
                "accepted": True,
                "best": ["a"],
                "values": {"a": "draw", "b": "loss", "c": "loss", "d": "loss"},
            },
        )
        status, out, err = self.asks("--json", "dcdcdc", "--seconds", "0.5", "--by", "solve", solver=BUSY)
        data = json.loads(out)
        self.assertEqual((status, data["value"], data["by"], data["accepted"]), (5, "unknown", None, False), err)
        self.assertEqual((data["why"], data["advice"]), (["solve didn't end within 0.5 seconds"], ["--seconds 2.5"]))

    @unittest.skipUnless(programs.solver_path(), "tools/solve isn't built: make -C tools/solve")
    def test_solve_itself(self):
        self.says("is a draw for White, who is to move (found by solve, ", "--by", "solve", "--board", "4x4", "-")
        self.says("wins after aabbddee on 5 by 4 with lines of five (found by solve, ", "--board", "5x4x5", "aabbddee")


if __name__ == "__main__":
    unittest.main()
