"""Makes the table of openings: the positions with a few men, 8 on 7 by 6 unless others are named, in which nobody wins
at once and no move is forced, one of each pair of mirror images. `list` writes their moves, `values FOLDER` has the
engine search what each is worth, and `prove FOLDER` has each proved: those of a sample, of a unit, which is what comes
from one ancestor, or all. Each goes on where the same call was ended before. `join FOLDER OTHER..` takes over what
other folders have, and `ask MOVES` says what one is worth, and with --proof proves it."""

import argparse
import shutil
import sys
import tempfile
from collections.abc import Iterator
from pathlib import Path

from .. import _programs as programs
from .._answers import place_of as place_in_words, said_of_found, said_of_moves_found, sentence
from .._asking import Answer
from .._engine import Engine
from .._faults import Fault, Unproved
from .._files import output
from .._games import SIDES, USUAL, Game
from .._notation import asked_game
from .._opening_proofs import MEMORY, MOST_LEMMAS, Manner, Programs, Proofs, cut_out, drawn, kept_row
from .._opening_rows import Values, Work, read_values
from .._openings import LEAST_MEN, MEN, MOST_MEN, Openings
from .._proofs import verdict_of
from .batch import add_engine
from .options import PROGRAM, Parser, say, size_of, write

COMMON = ("--board", "--solver", *PROGRAM)
STATUS = (
    "Status: 0 where all was done, 1 where something is missing, refused or other than it should be, 2 where an "
    "argument is wrong, 130 where it was interrupted."
)
EXAMPLE = "tools/lab openings values table -j 4"
ACTIONS = ("list", "values", "prove", "join", "ask")


def add_options(parser: Parser) -> None:
    """The options of this subcommand alone."""
    parser.add_argument("action", choices=ACTIONS, help="what is done")
    parser.add_argument("places", nargs="*", metavar="FOLDER", help="where the results are kept; or the moves for ask")
    parser.add_argument(
        "--men", type=int, default=MEN, metavar="N", help=f"how many men, {LEAST_MEN} to {MOST_MEN} (%(default)s)"
    )
    parser.add_argument(
        "--at", type=int, metavar="N", help="how many men an ancestor has (values: 5 fewer than the openings, prove: 3)"
    )
    parser.add_argument(
        "--forced", action="store_true", help="the positions in which one move is forced, in their place"
    )
    parser.add_argument("--all", action="store_true", help="prove: all openings")
    parser.add_argument("--sample", type=int, metavar="N", help="prove: so many, drawn by --seed")
    parser.add_argument("--seed", type=int, default=1, metavar="S", help="of the sample (%(default)s)")
    parser.add_argument("--unit", metavar="ANCESTOR", help="prove: all after these moves, as the list has them")
    parser.add_argument("--whole", action="store_true", help="prove: one text for all of a unit")
    parser.add_argument("--lemmas", type=int, default=MOST_LEMMAS, metavar="N", help="of a text (%(default)s)")
    parser.add_argument("--second", action="store_true", help="prove: the second checker judges each proof too")
    parser.add_argument("--again", action="store_true", help="prove: also what has a row, which is compared")
    parser.add_argument("--keep", action="store_true", help="prove: keep the texts, packed")
    parser.add_argument("--proof", metavar="FILE", help="ask: write a proof of the position there, which is checked")
    parser.add_argument("--kept", metavar="FOLDER", help="ask: where `prove --keep` has kept texts to cut it out of")
    parser.add_argument("--table", metavar="FILE", help="prove: the values to compare with (values.csv in the folder)")
    add_engine(parser)
    parser.add_argument("--write", action="store_true", help="write the commands and what runs them, and run nothing")
    parser.add_argument("--step", metavar="ANCESTOR", help=argparse.SUPPRESS)


def run(words: argparse.Namespace) -> int:
    """Does what is asked."""
    openings = Openings.of(size_of(words) or USUAL, words.men, words.forced)
    if words.action == "list":
        write("".join(f"{moves}\n" for moves in openings.listed()))
        return 0
    words.place = the_place(words)
    if words.action == "ask":
        return ask(words, openings)
    if words.action == "values":
        values = values_of(words, openings)
        return step(words, values) if words.step else values.find_all(words.write)
    if words.action == "join":
        others = [Path(place) for place in words.places[1:]]
        return max(work.join(others) for work in joined(words, openings))
    proofs = proofs_of(words, openings)
    return step(words, proofs) if words.step else proofs.prove(wanted(words, openings), words.write)


def the_place(words: argparse.Namespace) -> str:
    """The folder, or the moves that are asked about."""
    if not words.places or (len(words.places) > 1 and words.action != "join"):
        raise Fault("moves are wanted" if words.action == "ask" else "a folder is wanted")
    return str(words.places[0])


def joined(words: argparse.Namespace, openings: Openings) -> Iterator[Work]:
    """What is joined: the values, and the proofs where there are any."""
    works = [Path(place) / ".work" for place in words.places]
    both: tuple[type[Work], ...] = (Values, Proofs)
    kinds = [kind for kind in both if any((work / kind.board_name()).exists() for work in works)]
    if not kinds:
        raise Fault("no folder has rows")
    for kind in kinds:
        work = values_of(words, openings) if kind is Values else proofs_of(words, openings)
        yield work
        work.close()


def at_of(words: argparse.Namespace, openings: Openings, fewer: int) -> int:
    """How many men an ancestor has."""
    return max(0, openings.men - fewer) if words.at is None else int(words.at)


def values_of(words: argparse.Namespace, openings: Openings) -> Values:
    """The search for values."""
    at = at_of(words, openings, 5)
    return Values(words.prog, words.place, openings.size, words.engine, words.jobs, sys.stdout, openings, at)


def proofs_of(words: argparse.Namespace, openings: Openings) -> Proofs:
    """The search for proofs."""
    at = len(words.unit) if words.unit else at_of(words, openings, 3)
    made = Programs(programs.find_solver(words.solver), programs.find_program(words.victor), words.second)
    table = Path(words.table or Path(words.place) / "values.csv")
    values = read_values(table) if (words.table or table.exists()) and not words.step else {}
    manner = Manner(words.whole, words.keep, words.again, words.lemmas)
    base = (words.prog, words.place, openings.size, words.engine, words.jobs, sys.stdout)
    return Proofs(*base, openings, at, made, manner, values)


def wanted(words: argparse.Namespace, openings: Openings) -> list[str]:
    """The openings that are to be proved."""
    if sum((words.all, words.sample is not None, words.unit is not None)) != 1:
        raise Fault("prove takes one of --all, --sample N and --unit ANCESTOR")
    names = openings.listed()
    if words.sample is not None:
        return drawn(names, words.sample, words.seed)
    names = [moves for moves in names if words.all or moves.startswith(words.unit)]
    if not names:
        raise Fault(f"the list has no opening after {words.unit}")
    return names


def step(words: argparse.Namespace, work: Work) -> int:
    """Does a unit, for whatever runs the commands, and doesn't speak of an interrupt."""
    try:
        work.step(words.step)
        return 0
    except KeyboardInterrupt:
        return 130
    except (Fault, OSError) as fault:
        say(words.prog, fault)
        return 1


def ask(words: argparse.Namespace, openings: Openings) -> int:
    """Says what an opening is worth, and its moves; searched, or proved where that is wanted."""
    game = asked_game(words.place, openings.size)
    openings.require(game)
    with Engine(programs.engine_path(words.solver)) as engine:
        searched = engine.search(game, tell=lambda spent: say(words.prog, f"the engine has taken {spent:.0f} seconds"))
    if not words.proof:
        side = f"{SIDES[game.side]}, who is to move,"
        said = said_of_found(side, searched.position) if searched.position else f"{side} has no known value"
        write(f"{place_in_words(game)}: {said}. {said_of_moves_found(searched)}.\n")
        return 0
    with tempfile.TemporaryDirectory(prefix="openings-") as folder:
        answer = proved(words, game, Path(folder) / "proof")
        if searched.position and searched.value != answer.value:
            raise Unproved(f"the search says {searched.value}, and the proof {answer.value}")
        with open(Path(folder) / "proof", "rb") as source, output(words.proof) as out:
            shutil.copyfileobj(source, out)
    write(sentence(game, answer, ("solve",), None, None, searched) + "\n")
    return 0


def proved(words: argparse.Namespace, game: Game, path: Path) -> Answer:
    """A proof of an opening that the checker accepts: cut out of what is kept, or made."""
    made = Programs(programs.find_solver(words.solver), programs.find_program(words.victor))
    row = kept_row(Path(words.kept), game) if words.kept else None
    if row and cut_out(Path(words.kept), row, game, path):
        return Answer(row[1], f"{row[2]}.proof.xz", made.judged(path, row[1])[0])
    made.solved(game, path, MEMORY)
    value = verdict_of(path)[0]
    return Answer(value, "solve", made.judged(path, value)[0])
