"""What the page of `lab board` asks for: values that are searched and proved, plans, and answers in games."""

import argparse
import collections
import contextlib
import pathlib
import re
import tempfile
import threading
from collections.abc import Iterator
from typing import Any, Callable, Optional

from . import _proofs as proofs, _prover as prover
from ._answers import data_of, letters_of
from ._asking import Asker, Known, Means
from ._engine import Engine, Found, is_searchable
from ._faults import Failed, Fault, Gone
from ._files import Path
from ._games import LETTERS, OTHER, SIDES, Game, Size, columns_of, square_of
from ._notation import read_position
from ._pages import draw_proof, read_proof
from ._sentences import of_explanation

MOST_PAGES = 512  # whose turns are remembered
MOST_PROOFS = 200  # files that are kept
POLL = 0.2  # seconds between two looks whether a page still waits
PLAN_SECONDS = 30
REACH = 10_000
NAME = re.compile(r"[0-9a-z]{8,32}")
PAGE_LETTERS = 16  # of a name that are those of the page; what is behind them names a part of it
PLAN = re.compile(r"plan( [A-Z]{2}:[a-j0-9,hvud-]+){1,300}")
WHOLE = "whole"  # in place of a number: the proof of the whole board
Asked = dict[str, Any]
Wanted = Callable[[], bool]
MeansOf = Callable[..., Means]


class Turns:
    """The questions of pages, of which one at a time is answered for each name, of a page or of a part of it."""

    def __init__(self) -> None:
        self.lock = threading.Lock()
        self.pages: collections.OrderedDict[str, tuple[int, threading.Lock]] = collections.OrderedDict()

    def begin(self, page: str) -> tuple[int, threading.Lock]:
        """A new question of a page, which ends its older one."""
        with self.lock:
            number, busy = self.pages.pop(page, (0, threading.Lock()))
            self.pages[page] = (number + 1, busy)
            while len(self.pages) > MOST_PAGES:
                self.pages.popitem(last=False)
            return number + 1, busy

    def is_newest(self, page: str, number: int) -> bool:
        """No newer question of the page has come."""
        with self.lock:
            return page in self.pages and self.pages[page][0] == number

    @contextlib.contextmanager
    def turn(self, page: str, is_waiting: Wanted) -> Iterator[Wanted]:
        """The turn of a page's question: its older one is over. It gives a test of whether this one is still wanted."""
        number, busy = self.begin(page)

        def is_wanted() -> bool:
            return self.is_newest(page, number) and is_waiting()

        with waited_for(busy, is_wanted):
            yield is_wanted


@contextlib.contextmanager
def waited_for(lock: Any, is_wanted: Wanted) -> Iterator[None]:
    """Holds a lock, or what is as one, once it is free. What isn't wanted any more meanwhile is Gone."""
    while not lock.acquire(timeout=POLL):
        if not is_wanted():
            raise Gone
    try:
        yield
    finally:
        lock.release()


class Engines:
    """Warm engines, at most so many, of which the first is given; the others are started where all are busy, and ended
    at the end. A page is answered by the one that has answered it before, where that one is free."""

    def __init__(self, first: Optional[Engine], most: int) -> None:
        self.engines, self.most, self.lock = [first] if first else [], most, threading.Lock()
        self.last: collections.OrderedDict[str, Engine] = collections.OrderedDict()

    def __enter__(self) -> "Engines":
        return self

    def __exit__(self, *_: object) -> None:
        for engine in self.engines[1:]:
            engine.close()

    def of(self, page: str) -> Optional[Engine]:
        """The engine to ask for a page, or None where there is none at all."""
        with self.lock:
            if not self.engines:
                return None
            free = [engine for engine in self.engines if not engine.is_busy]
            last = self.last.pop(page, self.engines[0])
            if last not in free and not free and len(self.engines) < self.most:
                free = [Engine(last.program, memory=last.memory)]
                self.engines += free
            self.last[page] = last if last in free or not free else free[0]
            while len(self.last) > MOST_PAGES:
                self.last.popitem(last=False)
            return self.last[page]


class Desk:
    """What the pages ask for. The newest proofs are kept in a folder, each by its number. So many questions that look
    for proofs are answered at once."""

    def __init__(self, words: argparse.Namespace, means: MeansOf, folder: Path, engines: Engines) -> None:
        self.folder, self.words, self.engines, self.means = pathlib.Path(folder), words, engines, means
        self.lock, self.looking = threading.Lock(), threading.Lock()
        self.working = threading.BoundedSemaphore(engines.most)
        self.proofs: list[int] = [0]
        self.library: Optional[Asker] = None

    def ask(self, asked: Asked, is_wanted: Wanted) -> Asked:
        """The value of a position, with the number of its proof. What a shipped proof answers has one where a proof to
        play by is wanted."""
        game, number = game_of(asked), self.new_number()
        with waited_for(self.working, is_wanted), tempfile.TemporaryDirectory(dir=self.folder) as room:
            asker = Asker(self.means(self.words, is_wanted=is_wanted), room, self.engines.of(page_of(asked)))
            answer = asker.answer(game, needs_proof=bool(asked.get("kept")))
            said = data_of(game, answer, asker.engines)
            if answer.proof and answer.value != "unknown":
                kept = prover.trim(answer.proof, self.folder / f"{number}.txt", program=asker.program)
                said.update(proof=number, lemmas=kept.lemmas)
        return said

    # What the proofs of whole boards say, at once.

    def wholes(self, size: Size) -> list[Known]:
        """The proofs of whole games on a board. They are looked in by one question at a time."""
        if not self.library:
            self.library = Asker(self.means(self.words), self.folder)
        return [known for known in self.library.known if known.size == size]

    def known(self, asked: Asked, is_wanted: Wanted) -> Asked:
        """What the proofs of whole boards say of a position and of each of its moves."""
        game = game_of(asked)
        with waited_for(self.looking, is_wanted):
            moves = {LETTERS[column]: self.told(game.after(column)) for column in open_columns(game)}
            return {**self.told(game), "moves": moves}

    def told(self, game: Game) -> Asked:
        """What the first proof says that has the position: its value, or what some lemmas claim there."""
        claims: list[str] = []
        for known in self.wholes(game.size):
            answer = known.answer(game)
            if answer:
                return {"value": answer.value, "lemmas": answer.lemmas, "by": pathlib.Path(answer.by).name}
            claims += known.claims_of(game)
        return {"claims": sorted(set(claims))}

    def holder(self, asked: Asked, is_wanted: Wanted) -> Asked:
        """Which side a proof plays for, of those that are wanted, and by which proof: that of the whole board where the
        moves so far are its own, else one of this position."""
        game, sides = game_of(asked), str(asked.get("sides") or "WB")
        with waited_for(self.looking, is_wanted):
            for known in self.wholes(game.size):
                value = proofs.verdict_of(known.plain_path())[0]
                holders = sides_of(value, known_game(known).side)
                for side in sides:
                    if side in holders and self.is_followed(known, game, side, is_wanted):
                        claim, root = claim_of(value, side), known_game(known).moves
                        return {"proof": WHOLE, "holder": side, "claim": claim, "from": letters_of(root)}
        answer = self.ask({**asked, "kept": True}, is_wanted)
        holders = sides_of(answer["value"], game.side) if "proof" in answer else ""
        side = next((one for one in sides if one in holders), "")
        claim = claim_of(answer["value"], side) if side else ""
        return {"proof": answer.get("proof"), "holder": side, "claim": claim, "from": letters_of(game.moves)}

    def is_followed(self, known: Known, game: Game, side: str, is_wanted: Wanted) -> bool:
        """The side's moves so far are those of a proof."""
        root = known_game(known).moves
        since = game.moves[len(root) :]
        theirs = tuple(column for k, column in enumerate(since, len(root)) if "WB"[k % 2] != side)
        try:
            lines = self.followed(known, side, theirs, is_wanted)
        except Failed:
            return False
        return game.moves == root + columns_in(lines)[: len(since)]

    def followed(self, known: Known, side: str, moves: tuple[int, ...], is_wanted: Wanted) -> list[str]:
        """What a side plays by the proof of a whole board."""
        path = pathlib.Path(known.plain_path())
        return prover.follow(path, SIDES[side].lower(), moves, **self.limits(is_wanted)).text.splitlines()

    # What is searched.

    def moves(self, asked: Asked, is_wanted: Wanted) -> Iterator[Asked]:
        """What the engine says of each move and of the position, as soon as it is known. None of it is proved."""
        game, engine = game_of(asked), self.engines.of(page_of(asked))
        if not engine or not is_searchable(game.size) or game.is_over:
            return iter(())
        limits = {"seconds": self.words.seconds, "clock": self.words.clock, "is_wanted": is_wanted}
        return (data_of_found(one) for one in engine.scores(game, **limits))

    def new_number(self) -> int:
        """A number for a proof. The oldest proofs go."""
        with self.lock:
            self.proofs.append(self.proofs[-1] + 1)
            while len(self.proofs) > MOST_PROOFS:
                (self.folder / f"{self.proofs.pop(0)}.txt").unlink(missing_ok=True)
            return self.proofs[-1]

    # Plans, and answers in games.

    def explain(self, asked: Asked, is_wanted: Wanted) -> Asked:
        """The plan at a position, what its instances own and answer, and the same in sentences."""
        game = game_of(asked)
        found = prover.explain(game, reach=REACH, **self.limits(is_wanted))
        said = of_explanation(found.text, game)
        return {"found": found.status == 0, "lines": found.text.splitlines(), "words": said.splitlines()}

    def play(self, asked: Asked, is_wanted: Wanted) -> Asked:
        """What a plan answers to White's moves, the first threat to Black's, or a whole proof to those of either."""
        game, moves, limits = (game_of(asked), answered_columns(asked), self.limits(is_wanted))
        if asked.get("by") == "threat":
            threat = prover.threat(game, moves, **limits)
            return {"found": threat.status == 0, "lines": threat.text.splitlines()}
        if asked.get("by") == "proof":
            return {"found": True, "lines": self.by_proof(asked, game, moves, is_wanted)}
        plan = asked.get("plan")
        if not isinstance(plan, str) or not PLAN.fullmatch(plan):
            raise Fault("this is no plan")
        return {"found": True, "lines": prover.play(game, plan[5:], moves, **limits).text.splitlines()}

    def by_proof(self, asked: Asked, game: Game, moves: list[int], is_wanted: Wanted) -> list[str]:
        """What a side plays by a proof, which is one that is kept, or that of the whole board."""
        side = {"white": "W", "black": "B"}.get(str(asked.get("holder")))
        if not side:
            raise Fault("who plays by a proof is white or black")
        if asked.get("proof") != WHOLE:
            path = self.path_of(asked.get("proof"))
            prover.require_about(path, game)
            return prover.follow(path, SIDES[side].lower(), moves, **self.limits(is_wanted)).text.splitlines()
        with waited_for(self.looking, is_wanted):
            known = next((one for one in self.wholes(game.size) if known_game(one) == game), None)
        if not known:
            raise Fault("there is no proof of the whole board")
        return self.followed(known, side, tuple(moves), is_wanted)

    def limits(self, is_wanted: Wanted) -> dict[str, Any]:
        """What a program may take that answers at once."""
        return {"program": self.words.victor, "clock": PLAN_SECONDS, "is_wanted": is_wanted}

    def path_of(self, number: object) -> pathlib.Path:
        """The file of a proof that is kept."""
        if not isinstance(number, int):
            raise Fault("a proof has a number")
        path = self.folder / f"{number}.txt"
        if not path.exists():
            raise Fault(f"there is no proof {number} any more")
        return path

    def proof(self, number: int) -> str:
        """The page of a proof."""
        return draw_proof(*read_proof(self.path_of(number).read_text(encoding="ascii")))


def open_columns(game: Game) -> list[int]:
    """The columns that take a man."""
    return [] if game.is_over else list(game.open_columns())


def known_game(known: Known) -> Game:
    """The game that a proof of a whole board is about."""
    return proofs.game_of(known.plain_path())


def sides_of(value: str, mover: str) -> str:
    """The sides that a proof of this value serves: the one that wins, and of a draw both, first the one to answer."""
    return {"win": mover, "loss": OTHER[mover], "draw": OTHER[mover] + mover}.get(value, "")


def claim_of(value: str, side: str) -> str:
    """What a proof of this value claims, where it serves a side: that it wins, or of a draw that the other doesn't."""
    return f"{OTHER[side]}-" if value == "draw" else f"{side}+"


def columns_in(lines: list[str]) -> tuple[int, ...]:
    """The columns of the squares in what `follow` wrote."""
    squares = [square_of(word) for line in lines for word in line.split()[:2]]
    return tuple(square[0] for square in squares if square)


def game_of(asked: Asked) -> Game:
    """The game of a request."""
    size, moves = asked.get("size"), asked.get("moves")
    if not isinstance(size, str) or not isinstance(moves, str):
        raise Fault("a question has a size and moves")
    return read_position(moves or "-", Size.read(size))


def page_in(asked: Asked) -> str:
    """The name of the page that asks."""
    page = asked.get("page")
    if not isinstance(page, str) or not NAME.fullmatch(page):
        raise Fault("a question has the name of its page")
    return page


def page_of(asked: Asked) -> str:
    """The name of the page itself, without the letter of its part that asks."""
    return page_in(asked)[:PAGE_LETTERS]


def data_of_found(found: Found) -> Asked:
    """What was searched of a move, or of the position, as data."""
    move = None if found.column is None else LETTERS[found.column]
    return {"move": move, "searched": found.value, "moves_to_end": found.moves_to_end}


def answered_columns(asked: Asked) -> list[int]:
    """The columns of the moves that are answered."""
    letters = asked.get("answered")
    if not isinstance(letters, str) or not re.fullmatch("[a-j]{0,100}", letters):
        raise Fault("moves are letters of columns")
    return columns_of(letters)
