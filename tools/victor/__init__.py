"""The prover `victor` for programs in Python: games as people write them, and each command as a function.

    game = victor.Game.read("434343")
    proof = victor.prove(game)
    accepted = victor.check(proof)

A function that runs a program takes these by keyword: `program`, its path, else the one that is found; `seconds` of
processor time, `clock`, seconds by the clock, and `memory`, in MiB, which it may take at most; and `tell`, which is
called with the seconds that are spent, now and then from two on. What gives no answer is a `Fault`, and a program that
ended so a `Failed`, with its own text and status. Nothing is built: where there is no program, that is a `Fault` too.

`Engine` is a warm process of `tools/solve/engine`, which says what is searched, and `Asker` does what `lab ask` does.

A column is a number from 0 at the left, a row from 1 at the bottom, and a square the pair of both. Nothing is proved of
this package; what a proof shows, `check` says.
"""

from ._asking import Answer, Asker, Means
from ._engine import Engine, Found, Searched
from ._faults import Failed, Fault, OtherGame, OutOfTime, Unproved
from ._games import Game, Size
from ._plans import Plan
from ._processes import Limits, answer
from ._programs import build, find_engine, find_program, find_solver
from ._prover import (
    Accepted,
    Drill,
    Duel,
    Explanation,
    Following,
    Mark,
    Proof,
    Threat,
    annotate,
    check,
    drill,
    explain,
    follow,
    play,
    prove,
    prove_by_move,
    solve,
    threat,
    trim,
    upgrade,
)

__version__ = "0.9.0"
__all__ = [
    "Accepted",
    "Answer",
    "Asker",
    "Drill",
    "Duel",
    "Engine",
    "Explanation",
    "Failed",
    "Fault",
    "Following",
    "Found",
    "Game",
    "Limits",
    "Mark",
    "Means",
    "OtherGame",
    "OutOfTime",
    "Plan",
    "Proof",
    "Searched",
    "Size",
    "Threat",
    "Unproved",
    "annotate",
    "answer",
    "build",
    "check",
    "drill",
    "explain",
    "find_engine",
    "find_program",
    "find_solver",
    "follow",
    "play",
    "prove",
    "prove_by_move",
    "solve",
    "threat",
    "trim",
    "upgrade",
]

# Faults and values are shown by their public names, and not by those of the modules that have them.
for _name in __all__:
    globals()[_name].__module__ = __name__
