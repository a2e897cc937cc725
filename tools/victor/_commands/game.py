"""Writes the text of a game, as victor and tools/solve read it, of a position as people write it. Of a diagram it is
a game that leads to its men, and any other would do."""

import argparse
import json

from .._answers import game_data
from .._notation import asked_game
from .options import Parser, size_of, write

COMMON = ("position", "--board", "--json", "--out")
STATUS = "Status: 0; 2 where it is no position."
EXAMPLE = "tools/lab game 434343 | ./victor prove"


def add_options(parser: Parser) -> None:
    """It has no options of its own."""


def run(words: argparse.Namespace) -> int:
    """Writes the text."""
    game = asked_game(words.position, size_of(words))
    data = {**game_data(game), "digits": game.digits(), "text": game.text()}
    write(json.dumps(data) + "\n" if words.json else game.text(), words.out)
    return 0
