"""Proves each position of a list into a folder, by make, GNU parallel or Slurm, and writes a table, positions.csv. A
list has a position on each line, as letters or digits of columns in one word, and maybe the score of another program,
which is compared: above 0 where the side to move wins. A proof is named by its digits, of which 0 is the tenth
column; that of the empty board is start.proof. What is proved and accepted isn't run again."""

import argparse
import json
import os
import sys

from .._batches import Batch, all_positions, prove_one, read_list
from .._faults import Fault
from .._files import read_input
from .._games import USUAL
from .options import SEARCH, Parser, means_of, say, size_of, write

COMMON = ("--board", *SEARCH, "--json")
STATUS = (
    "Status: 0 where each position has an accepted proof, 1 where one has none, a score says another value or a line "
    "is none, 2 where nothing was run, 130 where it was interrupted."
)
EXAMPLE = "tools/lab batch list.txt proofs -j 4"


def add_options(parser: Parser) -> None:
    """The options of this subcommand alone."""
    parser.add_argument("list", nargs="?", help="the list; - is standard input")
    parser.add_argument("folder", nargs="?", help="the folder of the proofs")
    add_engine(parser)
    parser.add_argument("--write", action="store_true", help="write the commands and what runs them, and run nothing")
    parser.add_argument(
        "--all", type=int, metavar="N", help="write the list of all positions after N moves, and do nothing else"
    )
    parser.add_argument("--step", metavar="NAME", help=argparse.SUPPRESS)


def add_engine(parser: Parser) -> None:
    """The options that say what runs the commands."""
    parser.add_argument(
        "--engine", choices=("make", "parallel", "slurm"), default="make", help="what runs the commands (%(default)s)"
    )
    parser.add_argument(
        "-j", "--jobs", type=int, default=os.cpu_count() or 1, metavar="J", help="how many at once (%(default)s)"
    )


def run(words: argparse.Namespace) -> int:
    """Proves a list, or one position of it, or writes a list."""
    size, means = size_of(words) or USUAL, means_of(words)
    if words.step:
        return step(words)
    if words.all is not None:
        if not 0 <= words.all <= 12:
            raise Fault("--all takes a number from 0 to 12")
        write("".join(f"{name}\n" for name in all_positions(size, words.all)))
        return 0
    if not words.list or not words.folder:
        raise Fault("a list and a folder are wanted")
    names, faults = read_list(read_input(words.list), size)
    for fault in faults:
        say(words.prog, fault)
    if not names:
        return 2
    out = sys.stderr if words.json else sys.stdout
    batch = Batch(words.prog, words.folder, size, words.engine, words.jobs, out, means)
    status = batch.prove(names, only_write=words.write)
    if words.json:
        write(json.dumps({"positions": len(names), **batch.counts, "table": str(batch.table)}) + "\n")
    return status or int(bool(faults))


def step(words: argparse.Namespace) -> int:
    """Proves one position, for whatever runs the commands, and doesn't speak of an interrupt."""
    try:
        prove_one(words.list or words.folder, words.step, size_of(words) or USUAL, means_of(words))
        return 0
    except KeyboardInterrupt:
        return 130
    except (Fault, OSError) as fault:
        say(words.prog, fault)
        return 1
    finally:
        sys.stderr.flush()
