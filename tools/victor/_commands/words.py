"""Says in sentences what victor explain writes: how Black answers by a plan, and why each line of White's never gets
whole. What is said isn't checked."""

import argparse

from .._files import read_input
from .._notation import named_game
from .._sentences import of_explanation
from .options import Parser, size_of, write

COMMON = ("--game", "--board", "--out")
STATUS = "What each rule does stands in docs/RULES.md. Status: 0; 2 where the text is no plan."
EXAMPLE = "./victor explain < game.txt | tools/lab words"


def add_options(parser: Parser) -> None:
    """The options of this subcommand alone."""
    parser.add_argument("file", nargs="?", help="what explain wrote; without it, standard input")


def run(words: argparse.Namespace) -> int:
    """Writes the sentences."""
    game = named_game(words.game, size_of(words))[0] if words.game is not None else None
    write(of_explanation(read_input(words.file), game), words.out)
    return 0
