"""What a position is worth: the shipped proofs are looked in, then `tools/solve` and `victor prove` are asked in turn,
and what they write counts only where `victor check` accepts it."""

import functools
import os
import pathlib
from collections.abc import Iterable, Iterator
from dataclasses import dataclass, replace
from typing import Any, Callable, Optional, Union

from . import _programs as programs, _proofs as proofs, _prover as prover
from ._engine import Engine, Searched, is_searchable
from ._faults import Failed, Fault, OutOfTime, Refused, Unproved
from ._files import Path
from ._games import Game
from ._openings import MEN
from ._processes import Tell
from ._prover import MOST_NODES, MOST_REACH, Accepted, Proof
from ._sentences import TURNED, count_of

SECONDS = 60  # of processor time
MEMORY = 2000  # MiB for solve
NODES, REACH = 1_000_000, 1_000  # for prove
OUT_OF_MEMORY = 8  # the status of prove
SHARE = 0.92  # of the time is solve's, and the rest is left to prove
MORE = 5  # times the seconds are advised where they were spent
# How solve has a first proof soon: it takes the moves by which its search has just found the value, or that win soon,
# and at openings those that leave little to show.
SOON = {"order": 0, "high": 0, "part": 0, "soon": 3, "outline": 20_000_000}
AS_IT_STANDS = {"rounds": 0, "sweeps": 0}  # and these better none
ENGINES = {"solve": ("solve",), "prove": ("prove",), "both": ("solve", "prove")}
EARLY = 16  # men, below which the shipped proofs are looked in
Progress = Callable[[str, str, Game, float], None]


@dataclass(frozen=True)
class Answer:
    """What was found out about a position: its value, by which program, and how many lemmas were accepted. Where it is
    unknown, `whys` says why, and `wishes` has what may help. Where a proof of a whole game has it, `path` is that of
    its text, and `places` has the lemmas that show the value."""

    value: str = "unknown"
    by: str = ""
    lemmas: int = 0
    proof: Optional[Proof] = None
    whys: tuple[str, ...] = ()
    wishes: tuple[str, ...] = ()
    path: Optional[Path] = None
    places: tuple[proofs.Place, ...] = ()


@dataclass(frozen=True)
class Means:
    """The programs that are asked, what each may spend on a position, and the proofs that are looked in."""

    by: Optional[str] = None  # solve, prove or both; both where tools/solve is built
    program: Optional[str] = None
    solver: Optional[str] = None
    nodes: int = NODES
    reach: int = REACH
    memory: Optional[int] = None  # MiB
    seconds: Optional[float] = None  # of processor time
    clock: Optional[float] = None  # seconds by the clock, for each program
    small: bool = False  # half of solve's time is for a smaller proof
    known: Optional[str] = None  # a proof of a whole game, or a folder of such
    progress: Optional[Progress] = None  # is told now and then how long a program has run
    is_wanted: Optional[Callable[[], bool]] = None  # what isn't wanted any more is ended

    def __post_init__(self) -> None:
        for name, number, least, most in (
            ("nodes", self.nodes, 1, MOST_NODES),
            ("reach", self.reach, 0, MOST_REACH),
            ("memory", 1 if self.memory is None else self.memory, 1, 1 << 20),
        ):
            if not least <= number <= most:
                raise Fault(f"--{name} takes a number from {least} to {most}")
        for name, seconds in (("seconds", self.seconds), ("clock", self.clock)):
            if seconds is not None and not 0 < seconds < float("inf"):
                raise Fault(f"--{name} takes a number above 0")


def engines_of(by: Optional[str], solver: Optional[str]) -> tuple[str, ...]:
    """Which programs are asked: both, where nothing else is said and `tools/solve` is there."""
    if by is not None and by not in ENGINES:
        raise Fault(f"what looks for a proof is {' or '.join(ENGINES)}, and not {by!r}")
    return ENGINES[by or ("both" if solver or programs.solver_path() else "prove")]


class Asker:
    """Asks about positions. Proofs are written into a folder, where one of a name takes the place of the one before.
    Where a warm engine is given, it says what is only searched, and writes proofs in place of `tools/solve`."""

    def __init__(self, means: Means, folder: Path, engine: Optional[Engine] = None) -> None:
        self.means, self.folder, self.engine = means, pathlib.Path(folder), engine
        self.engines = engines_of(means.by or ("both" if engine else None), means.solver)
        self.solver = self.found_solver() if "solve" in self.engines else None
        self.found = Searched()  # what the engine said at last
        self.found_of: Optional[Game] = None  # and of which game
        self.lost: Optional[Failed] = None  # why the engine isn't asked any more
        self.program = programs.find_program(means.program)
        self.choices = SOON if means.small else {**SOON, **AS_IT_STANDS}
        # Alone, prove takes what its budget takes.
        self.seconds = means.seconds or (SECONDS if "solve" in self.engines else None)
        self.spent = 0.0  # of processor time, by all programs
        self.known = list(self.known_proofs())

    def found_solver(self) -> Optional[str]:
        """The path of `tools/solve`, which isn't needed where an engine is given."""
        is_needed = not self.engine or self.means.solver or programs.solver_path()
        return programs.find_solver(self.means.solver) if is_needed else None

    def known_proofs(self) -> Iterable["Known"]:
        """The proofs of whole games to look in: those that are named, and where no program is asked for alone, those
        that come with the program."""
        if self.means.known:
            yield from (Known(path, self) for path in paths_in(self.means.known))
        shipped = programs.shipped_folder()
        if shipped and self.means.by is None:
            yield from (Known(path, self, is_shipped=True) for path in paths_in(shipped))

    def limits(self, engine: str, game: Game, seconds: Optional[float], **more: Any) -> dict[str, Any]:
        """What a program may take."""
        return {
            "seconds": seconds,
            "tell": self.teller(engine, game, seconds),
            "note": self.note,
            "is_wanted": self.means.is_wanted,
            **more,
        }

    def note(self, spent: float) -> None:
        """Counts what a program has taken."""
        self.spent += spent

    def teller(self, engine: str, game: Game, seconds: Optional[float]) -> Optional[Tell]:
        """What says how long a program has run."""
        progress = self.means.progress
        whole = f" of {round(seconds, 1):g}" if seconds else ""
        return functools.partial(progress, engine, whole, game) if progress else None

    def answer(self, game: Game, name: str = "proof", *, needs_proof: bool = False) -> Answer:
        """What the first says that decides a position: a known proof, or a program; else why each did not, and what may
        help. A proof of its own is made from a known one where that is needed."""
        return self.known_answer(game, name, needs_proof) or self.looked_for(game, name)

    def known_answer(self, game: Game, name: str, needs_proof: bool) -> Optional[Answer]:
        """What a known proof says, where one has the position."""
        for known in self.known:
            answer = known.proof(game, self.folder / name) if needs_proof else known.answer(game)
            if answer:
                return answer
        return None

    def looked_for(self, game: Game, name: str) -> Answer:
        """What a program says."""
        begun, answers = self.spent, []
        for engine in self.engines:
            asked = self.by_search if engine == "solve" else self.by_prove
            left = None if self.seconds is None else max(0.1, self.seconds - (self.spent - begun))
            answers.append(asked(game, self.folder / name, left))
            if answers[-1].value != "unknown":
                return answers[-1]
        wishes = next((one.wishes for one in answers if one.wishes), ())
        whys = tuple(why for one in answers for why in one.whys)
        return replace(answers[-1], whys=whys, wishes=wishes + self.other_engine(game))

    def other_engine(self, game: Game) -> tuple[str, ...]:
        """The advice to ask solve, where it wasn't asked and takes such a board."""
        if "solve" in self.engines or not is_searchable(game.size):
            return ()
        return (programs.ASK_SOLVER,) if self.means.by and programs.solver_path() else (programs.MAKE_SOLVER,)

    def by_search(self, game: Game, path: pathlib.Path, seconds: Optional[float]) -> Answer:
        """What the engine's proof says, by what it knows already; or that of `tools/solve`, where there is no engine,
        or it answers somebody else."""
        is_engine = self.engine and is_searchable(game.size) and not (self.solver and self.engine.is_busy)
        if not is_engine and self.solver:
            return self.by_solve(game, path, seconds)
        if not is_engine:
            return Answer(whys=("the engine doesn't answer" if self.lost else "the engine takes no such board",))
        answer = self.by_engine(game, path, seconds)
        return self.by_solve(game, path, seconds) if self.lost and self.solver else answer

    def by_engine(self, game: Game, path: pathlib.Path, seconds: Optional[float]) -> Answer:
        """What the engine's first proof says, or a smaller one, where that is wanted."""
        assert self.engine
        seconds = SECONDS if seconds is None else seconds
        share = seconds * SHARE if "prove" in self.engines else seconds
        options = prover.options_of(**self.choices, seconds=int(share / 2))
        limits = self.limits("engine", game, share, clock=self.means.clock)
        try:
            return self.accepted(self.engine.proof(game, path, options, **limits), "engine")
        except OutOfTime as fault:
            return self.out_of_time("the engine", fault)
        except Refused as fault:
            if "memory" in fault.text:
                return out_of_memory("the engine", self.engine.memory)
            return Answer(whys=(str(fault),))
        except Failed as fault:
            self.lose(fault)
            return Answer(whys=(str(fault),))

    def lose(self, fault: Failed) -> None:
        """The engine isn't asked any more."""
        self.engine, self.lost = None, fault

    def search(self, game: Game, **more: Any) -> Searched:
        """What the engine says of a position and its moves, which isn't proved. Nothing where there is no engine."""
        self.found, self.found_of = Searched(), game
        if self.engine and is_searchable(game.size) and not game.is_over:
            limits = self.limits("engine", game, self.seconds, clock=self.means.clock)
            try:
                self.found = self.engine.search(game, **more, **limits)
            except Failed as fault:
                self.lose(fault)
        return self.found

    def by_solve(self, game: Game, path: pathlib.Path, seconds: Optional[float]) -> Answer:
        """What `tools/solve` says, by the first proof that it finds; or by a smaller one, where that is wanted."""
        seconds = SECONDS if seconds is None else seconds
        share = seconds * SHARE if "prove" in self.engines else seconds
        memory = self.means.memory or MEMORY
        limits = self.limits("solve", game, share, clock=self.means.clock, memory=memory)
        tables = programs.shipped_openings(game.size.word) if len(game.men) < MEN else ()
        try:
            proof = prover.solve(game, self.choices, tables=tables, into=path, program=self.solver, **limits)
        except OutOfTime as fault:
            return self.out_of_time("solve", fault)
        except Failed as fault:
            if "memory" in fault.text:
                return out_of_memory("solve", memory)
            if self.engines == ("solve",):
                raise
            said = " ".join(fault.text.removeprefix("solve:").split())
            return Answer(whys=(f"solve failed ({said or fault})",))
        return self.accepted(proof, "solve")

    def by_prove(self, game: Game, path: pathlib.Path, seconds: Optional[float]) -> Answer:
        """What `victor prove` says within its budget."""
        nodes, reach = self.means.nodes, self.means.reach
        limits = self.limits("prove", game, seconds, clock=self.means.clock, memory=self.means.memory)
        try:
            proof = prover.prove(game, nodes=nodes, reach=reach, into=path, program=self.program, **limits)
        except OutOfTime as fault:
            return self.out_of_time("prove", fault)
        except Failed as fault:
            if self.means.memory and fault.status == OUT_OF_MEMORY:
                return out_of_memory("prove", self.means.memory)
            raise
        answer = self.accepted(proof, "prove")
        if answer.value != "unknown":
            return answer
        wishes = [f"--nodes above {nodes}"] if nodes < MOST_NODES else []
        wishes += [f"--reach above {reach}"] if reach < MOST_REACH else []
        whose, its = ("prove's", "the") if self.solver else ("the", "its")
        why = f"{whose} budget of {count_of(nodes, 'position')} is below {its} cost"
        return replace(answer, whys=(why,), wishes=tuple(wishes))

    def out_of_time(self, engine: str, fault: OutOfTime) -> Answer:
        """The answer where the time is spent."""
        seconds = self.seconds or 0.0
        how = "had too little of a processor to spend" if fault.is_starved else "didn't end within"
        share = "its share of " if len(self.engines) > 1 else ""
        why = f"{engine} {how} {share}{count_of(seconds, 'second')}"
        return Answer(whys=(why,), wishes=(f"--seconds {MORE * seconds:g}",))

    def accepted(self, proof: Proof, engine: str) -> Answer:
        """The answer of a proof that the checker accepts."""
        found = self.check(proof, proof.game)
        if (found.value == "unknown") != (proof.status == 5):
            raise Unproved(f"the proof's verdict isn't the one that the status of {engine} says")
        return Answer(found.value, engine, found.lemmas, proof)

    def check(self, proof: Union[Proof, pathlib.Path], game: Game) -> Accepted:
        """What the checker says of a proof that it accepts."""
        try:
            return prover.check(proof, program=self.program, **self.limits("check", game, None))
        except Failed as fault:
            raise Unproved(f"the proof wasn't accepted: {fault.text or fault}") from fault

    def moves_of(
        self, game: Game, answer: Answer, *, needs_proof: bool = False
    ) -> tuple[Answer, list[tuple[int, str]]]:
        """The answer to the position, and each legal move with its value for the side that moves. A move that wins
        proves the position."""
        moves = []
        for column, after in self.after_moves(game, needs_proof=needs_proof):
            moves.append((column, TURNED[after.value]))
            if answer.value == "unknown" and after.value == "loss":
                answer = self.won_by(game, column, after)
        return answer, moves

    def after_moves(self, game: Game, *, needs_proof: bool = False) -> Iterator[tuple[int, Answer]]:
        """The answer behind each move. The engine searches all of them first, unless each is known."""
        for column in [] if game.is_over else game.open_columns():
            after = game.after(column)
            answer = self.known_answer(after, "after", needs_proof)
            if not answer and self.found_of is not game:
                self.search(game)
            yield column, answer or self.looked_for(after, "after")

    def won_by(self, game: Game, column: int, after: Answer) -> Answer:
        """The answer to a position, from that to the one behind a move that wins."""
        if not after.proof:  # the proof of a whole game has it
            return replace(after, value="win", path=None, places=())
        proof = prover.prove_by_move(game, column, after.proof, self.folder / "proof")
        return self.accepted(proof, after.by)


class Known:
    """A proof of a whole game, in which positions are looked up. It is checked once, where one was found in it. One
    that comes with the program is looked in for positions with few men alone."""

    def __init__(self, path: Path, asker: Asker, is_shipped: bool = False) -> None:
        self.given, self.asker, self.is_shipped = path, asker, is_shipped
        self.name, self.size = os.path.relpath(path), proofs.game_of(path).size
        self.path: Optional[Path] = None  # of the plain text
        self.is_renewed = False
        self.is_checked: Optional[Accepted] = None

    def is_for(self, game: Game) -> bool:
        """The proof is looked in for this position."""
        return game.size == self.size and (not self.is_shipped or is_early(game))

    def answer(self, game: Game) -> Optional[Answer]:
        """What lemmas at the position say of it, or None."""
        if not self.is_for(game):
            return None
        value, places = self.value_of(game)
        if value != "unknown" and not self.is_checked and not self.is_accepted():
            value, places = self.value_of(game)
        if value == "unknown" or not self.is_checked:
            return None
        return Answer(value, self.name, self.is_checked.lemmas, path=self.path, places=places)

    def proof(self, game: Game, into: Path) -> Optional[Answer]:
        """The same by a proof of the position alone, which is made from the lemmas and checked by itself."""
        if not self.is_for(game):
            return None
        value, places = self.value_of(game)
        if value == "unknown" or self.path is None:
            return None
        try:
            made = proofs.extract(self.path, game, value, places, into)
            return replace(self.asker.accepted(made, self.name), by=self.name)
        except (Unproved, ValueError, IndexError) as fault:
            if not self.may_renew():
                raise Unproved(f"{self.name} has no proof of {game.letters()}: {fault}") from fault
            return self.proof(game, into)

    def claims_of(self, game: Game) -> list[str]:
        """What lemmas claim at the position, as `W-`, where the checker accepts the proof."""
        if not self.is_for(game):
            return []
        claims = self.found_claims(game)
        if claims and not self.is_checked and not self.is_accepted():
            claims = self.found_claims(game)
        return [claim.decode() for claim in claims] if self.is_checked else []

    def value_of(self, game: Game) -> tuple[str, tuple[proofs.Place, ...]]:
        """The value that lemmas show, and which they are."""
        return proofs.value_of(self.found_claims(game), game.side)

    def found_claims(self, game: Game) -> proofs.Claims:
        """The claims at the position, with the lemmas that claim them."""
        path = self.plain_path()
        claims = proofs.claims_below(path, game)
        if not claims and not self.is_shipped:
            claims = proofs.claims_at(path, game)  # those on which the verdict doesn't rest
        return claims

    def plain_path(self) -> Path:
        """The path of the proof's plain text, which is unpacked once."""
        self.path = self.path or proofs.unpacked(self.given, self.asker.folder, is_kept=self.is_shipped)
        return self.path

    def is_accepted(self) -> bool:
        """The checker accepts the proof. False where it does so only once the text is unpacked again."""
        if self.path is None:
            return False
        try:
            self.is_checked = self.asker.check(pathlib.Path(self.path), proofs.game_of(self.path))
            return True
        except Unproved as fault:
            if not self.may_renew():
                raise Unproved(f"{self.name}: {fault}") from fault
        self.is_accepted()
        return False

    def may_renew(self) -> bool:
        """The text was one that was kept, and is unpacked again."""
        if self.is_renewed or not self.is_shipped or not proofs.forget(self.given):
            return False
        self.is_renewed, self.path = True, proofs.unpacked(self.given, self.asker.folder, is_kept=True)
        return True


def paths_in(place: Path) -> list[pathlib.Path]:
    """The proofs that a path names: itself, or those of a folder."""
    path = pathlib.Path(place)
    if not path.is_dir():
        return [path]
    return sorted(one for one in path.iterdir() if one.name.endswith((".txt", ".txt.xz", ".proof", ".proof.xz")))


def is_early(game: Game) -> bool:
    """The shipped proofs are looked in for this position."""
    return len(game.men) < EARLY


def out_of_memory(engine: str, memory: int) -> Answer:
    """The answer where the memory isn't enough."""
    return Answer(whys=(f"{engine} needs more memory than {memory} MiB",), wishes=(f"--memory {2 * memory}",))
