"""Draws a position, a plan, a duel or a proof, as SVG, as text or as an HTML page. position: moves, a diagram, or a
file that has them or the text of a game. plan: what victor explain writes. duel: what victor play, victor threat or
victor follow writes. proof: what victor prove writes. What is drawn isn't checked."""

import argparse
from typing import Optional

from .._drawing import draw_duel, draw_plan, draw_position, duel_text, plan_text
from .._duels import Shown
from .._faults import Fault
from .._files import read_input
from .._games import Game, Size
from .._notation import asked_game, named_game
from .._pages import MOST_SHOWN, draw_proof, read_proof
from .._plans import Plan
from .options import Parser, size_of, write

COMMON = ("--game", "--board", "--out")
STATUS = "Status: 0; 2 where there is nothing that can be drawn."
EXAMPLE = "tools/lab draw position 434343 --out position.svg"


def add_options(parser: Parser) -> None:
    """The options of this subcommand alone."""
    parser.add_argument("kind", choices=("position", "plan", "duel", "proof"), help="what is drawn")
    parser.add_argument("file", nargs="?", help="the file to draw, or the moves of a position; else standard input")
    form = parser.add_mutually_exclusive_group()
    form.add_argument("--svg", action="store_true", help="as SVG, which all but a proof are without an option")
    form.add_argument("--text", action="store_true", help="as text")
    form.add_argument("--html", action="store_true", help="a page, for a proof alone")
    parser.add_argument(
        "--most", type=int, default=MOST_SHOWN, metavar="N", help="how many lemmas a page shows at most (%(default)s)"
    )


def run(words: argparse.Namespace) -> int:
    """Writes what is drawn."""
    if words.kind == "proof" and (words.svg or words.text):
        raise Fault("a proof is drawn as a page alone (--html)")
    if words.html and words.kind != "proof":
        raise Fault("only a proof is drawn as a page")
    if words.most < 1:
        raise Fault("--most takes a number from 1")
    write(drawn(words, size_of(words)), words.out)
    return 0


def drawn(words: argparse.Namespace, size: Optional[Size]) -> str:
    """What is drawn."""
    game: Optional[Game] = None
    by = "a plan"
    if words.game:
        game, named = named_game(words.game, size)
        by = "a proof" if named.startswith("victor ") else by
    if words.kind == "position":
        shown = asked_game(words.file if words.file != "-" else None, size)
        return f"{shown}\n" if words.text else draw_position(shown)
    text = read_input(words.file)
    if words.kind == "plan":
        plan = Plan(text, game)
        return plan_text(plan) if words.text else draw_plan(plan)
    if words.kind == "duel":
        duel = Shown(text, game, size, by)
        return duel_text(duel) if words.text else draw_duel(duel)
    return draw_proof(*read_proof(text), words.most)
