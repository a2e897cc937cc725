"""Says in one sentence what a position is worth under perfect play. The shipped proofs are looked in, then
tools/solve or victor prove finds a proof; victor check checks it, and its first lines are compared with the
question. For values of all moves the warm engine takes the place of tools/solve; what it says without an accepted proof
is called searched."""

import argparse
import contextlib
import json
import shutil
import tempfile
from dataclasses import replace
from typing import Callable, Optional

from .. import _prover as prover
from .._answers import data_of, said_of_moves_found, sentence
from .._asking import Answer, Asker, Progress
from .._engine import Searched
from .._faults import Fault
from .._files import output, read_input
from .._games import Game
from .._notation import asked_game, read_position
from .._proofs import Lemmas, Line, mapped
from .options import SEARCH, Parser, engine_of, means_of, say, say_lost, size_of, teller, write

COMMON = ("position", "--board", *SEARCH, "--json")
STATUS = (
    "Status: 0 where the value is proved, 5 where it isn't, also where it is searched, 2 where the question is none or "
    "an argument is wrong, 1 where a program failed or no proof was accepted."
)
EXAMPLE = "tools/lab ask --moves 434343"


def add_options(parser: Parser) -> None:
    """The options of this subcommand alone."""
    parser.add_argument("--file", metavar="FILE", help="the file to read the position from, whatever its name")
    parser.add_argument("--moves", action="store_true", help="say also which moves are best, each by its own proof")
    parser.add_argument(
        "--scores",
        action="store_true",
        help="say also of each move how many moves the game goes on for, and a best line, searched by the engine",
    )
    parser.add_argument("--line", action="store_true", help="say also a best line, by the proof")
    parser.add_argument("--keep", metavar="FILE", help="keep the position's proof in this file")


def run(words: argparse.Namespace) -> int:
    """Answers, and gives the status."""
    game = game_of(words)
    needs_engine = words.moves or words.scores
    with tempfile.TemporaryDirectory(prefix="ask-") as folder:
        with engine_of(words) if needs_engine else contextlib.nullcontext() as engine:
            means = replace(means_of(words), progress=progress_of(words, lambda: asker.found))
            asker = Asker(means, folder, engine)
            searched = asker.search(game, scores=True, line=True) if words.scores else None
            answer, moves = asker.answer(game, needs_proof=bool(words.keep)), None
            if words.moves:
                answer, moves = asker.moves_of(game, answer, needs_proof=bool(words.keep))
                searched = asker.found
        say_lost(words, asker)
        kept = None
        if words.keep and answer.proof:
            kept = prover.trim(answer.proof, asker.folder / "kept", program=asker.program)
            answer = answer if answer.value == "unknown" else asker.accepted(kept, answer.by)
        line = line_of(game, answer, asker.program) if words.line else None
        if kept and kept.path:
            with open(kept.path, "rb") as source, output(words.keep) as out:
                shutil.copyfileobj(source, out)
    if words.json:
        write(json.dumps(data_of(game, answer, asker.engines, moves, line, searched)) + "\n")
    else:
        write(sentence(game, answer, asker.engines, moves, line, searched) + "\n")
    return 5 if answer.value == "unknown" else 0


def progress_of(words: argparse.Namespace, found: Callable[[], Searched]) -> Progress:
    """What says how long a program has run. What was searched of the moves is said first, where their proofs take so
    long that something is said."""
    tell, is_said = teller(words.prog), False

    def told(engine: str, whole: str, game: Game, spent: float) -> None:
        nonlocal is_said
        searched = found()
        if searched.moves and not is_said:
            is_said = True
            say(words.prog, said_of_moves_found(searched))
        tell(engine, whole, game, spent)

    return told


def game_of(words: argparse.Namespace) -> Game:
    """The game that is asked about."""
    if words.position is not None and words.file:
        raise Fault("the position is given twice")
    if words.file:
        return read_position(read_input(words.file), size_of(words))
    return asked_game(words.position, size_of(words))


def line_of(game: Game, answer: Answer, program: Optional[str]) -> Line:
    """A best line by the proof that was accepted: an empty one where there is no proof."""
    path = answer.proof.path if answer.proof else answer.path
    if not path or answer.value == "unknown":
        return Line()
    with mapped(path) as text:
        lemmas = Lemmas(path, text)
        return lemmas.line(game, answer.places or lemmas.verdict, program)
