"""The lemmas of an accepted proof: which stand at a position, a best line, and one proof from another or several."""

import array
import contextlib
import functools
import hashlib
import itertools
import lzma
import mmap
import os
import pathlib
import shutil
import subprocess
import tempfile
from collections.abc import Iterator
from dataclasses import dataclass, field
from typing import BinaryIO, NamedTuple, Optional

from . import _plans as plans, _prover as prover
from ._faults import Fault, files_told
from ._files import Path, output
from ._games import LETTERS, OTHER, Game, Square, columns_of
from ._notation import read_game
from ._prover import FORMATS, tail_of

MOST_LINE = 2_000_000  # lemmas of a proof that a line is read from
CLAIMS = (b"W+", b"W-", b"B+", b"B-")
COLUMN = LETTERS.encode()
Men = frozenset[tuple[Square, str]]


# Files of proofs.


def game_of(path: Path) -> Game:
    """The game that a proof is about."""
    with files_told(path), lzma.open(path) if is_packed(path) else open(path, "rb") as source:
        try:
            first, *game = itertools.islice(source, 3)
        except (lzma.LZMAError, EOFError, ValueError):
            first = b""
    if first not in FORMATS:
        raise Fault(f"{path} is no proof")
    return read_game(b"".join(game).decode("ascii", "replace"))


def is_packed(path: Path) -> bool:
    """The file is packed by `xz`, as its name says."""
    return os.fspath(path).endswith(".xz")


def kept_path(path: Path) -> str:
    """Where the text of a packed proof is kept, by the sum of what it is packed in: among what programs of this user
    keep to be quicker, and may lose."""
    folder = os.environ.get("XDG_CACHE_HOME") or os.path.join(os.path.expanduser("~"), ".cache")
    with files_told(path):
        packed = pathlib.Path(path).read_bytes()
    return os.path.join(folder, "victor", hashlib.sha256(packed).hexdigest()[:32] + ".txt")


def unpacked(path: Path, folder: Path, is_kept: bool = False) -> Path:
    """The path of the plain text of a proof. Where it is packed, it is unpacked into a folder; or it is kept from one
    time to the next, where it can be. Nothing of a text that was kept is trusted, since it is checked as any other.
    """
    if not is_packed(path):
        return path
    kept = kept_path(path) if is_kept else None
    if kept and os.path.isfile(kept):
        return kept
    if kept:
        with contextlib.suppress(OSError):
            os.makedirs(os.path.dirname(kept), exist_ok=True)
            if os.access(os.path.dirname(kept), os.W_OK):
                with output(kept) as out:
                    unpack(path, out)
                return kept
    with files_told(folder), tempfile.NamedTemporaryFile(dir=folder, prefix="known-", delete=False) as made:
        unpack(path, made)  # type: ignore[arg-type]
    return made.name


def forget(path: Path) -> bool:
    """Drops the text that was kept of a packed proof, and says whether there was one."""
    with contextlib.suppress(OSError):
        os.remove(kept_path(path))
        return True
    return False


def unpack(path: Path, out: BinaryIO) -> None:
    """Writes the text that a file packs: by `xz` where it is there, which is quicker."""
    if shutil.which("xz"):
        made = subprocess.run(["xz", "-dc", "--", os.fspath(path)], stdout=out, stderr=subprocess.PIPE)
        if made.returncode:
            raise Fault(f"{path} can't be unpacked: {made.stderr.decode('utf-8', 'replace').strip() or 'xz failed'}")
        return
    try:
        with lzma.open(path) as source:
            shutil.copyfileobj(source, out, 1 << 20)
    except (lzma.LZMAError, EOFError) as fault:
        raise Fault(f"{path} can't be unpacked: {fault}") from fault


@contextlib.contextmanager
def mapped(path: Path) -> Iterator[mmap.mmap]:
    """The bytes of a file, of which those alone are read that are looked at."""
    with open(path, "rb") as source, mmap.mmap(source.fileno(), 0, access=mmap.ACCESS_READ) as text:
        yield text


def lemma_lines(path: Path) -> Iterator[bytes]:
    """The lines of a proof's lemmas."""
    with open(path, "rb") as source:
        for line in itertools.islice(source, 3, None):
            if line[:1].isdigit():
                yield line


def verdict_of(path: Path) -> list[str]:
    """The words behind `value` in a proof's last lines."""
    lines = (line.split()[1:] for line in reversed(tail_of(path)) if line.startswith("value "))
    return next(lines, ["unknown"])


# Which lemmas stand at a position.


class Place(NamedTuple):
    """A lemma by its number, and whether it stands at the mirror image of the position that is asked about."""

    number: int
    is_turned: bool = False


Claims = dict[bytes, Place]  # and the lemma that claims it


class Numbered:
    """The lemmas of a proof's text by their numbers, which count from 1 in the order of the lines. A line is found
    where it stands, and the others aren't read."""

    def __init__(self, text: mmap.mmap) -> None:
        self.text = text

    def words(self, number: int) -> list[bytes]:
        """The words of a lemma behind its number, or none where there is no such lemma."""
        low, high = 0, len(self.text)
        while low < high:
            begin = self.text.rfind(b"\n", low, (low + high) // 2) + 1 or low
            found, after = self.lemma_from(begin, high)
            if found is None or int(found[0]) > number:
                high = begin
            elif int(found[0]) == number:
                return found[1:]
            else:
                low = after
        return []

    def lemma_from(self, begin: int, end: int) -> tuple[Optional[list[bytes]], int]:
        """The first lemma in a line from one that begins here, and where its line ends."""
        while begin < end:
            after = self.text.find(b"\n", begin) + 1 or len(self.text)
            words = self.text[begin:after].split()
            if words and words[0].isdigit():
                return words, after
            begin = after
        return None, end


class Indexed(Numbered):
    """The same where most lemmas are wanted: where each line stands is read first."""

    def __init__(self, text: mmap.mmap) -> None:
        super().__init__(text)
        self.begins, begin = array.array("Q", [0]), 0
        text.seek(0)
        for n, line in enumerate(iter(text.readline, b"")):
            if n > 2 and line[:1].isdigit():
                self.begins.append(begin)
            begin += len(line)

    def words(self, number: int) -> list[bytes]:
        """The words of a lemma behind its number."""
        if not 0 < number < len(self.begins):
            raise Fault(f"the proof has no lemma {number}")
        self.text.seek(self.begins[number])
        return self.text.readline().split()[1:]


def claims_below(path: Path, game: Game) -> Claims:
    """The claims at a position, or at its mirror image, of the lemmas on which the verdict rests and to which moves
    lead that the game has, in any order. None where the text is no proof, which the checker will say.
    """
    root = game_of(path)
    if root.size != game.size:
        return {}
    goals = [game.key, mirrored(game.key, game.size.cols)]
    with mapped(path) as text:
        try:
            left = [(int(number), root.key) for number in verdict_of(path)[1:]]
            return claims_from(Numbered(text), left, goals, game.size.cols)
        except (ValueError, IndexError):
            return {}


def claims_from(numbered: Numbered, left: list[tuple[int, Men]], goals: list[Men], cols: int) -> Claims:
    """The claims at some positions of lemmas, each with its men, and of what they rest on."""
    found: Claims = {}
    seen = set()
    while left:
        number, men = left.pop()
        if number in seen or not any(men <= goal for goal in goals):
            continue
        seen.add(number)
        _, claim, *reason = numbered.words(number)
        if men in goals:
            found.setdefault(claim, Place(number, men != goals[0]))
        elif reason[0] == b"mirror":
            left.append((int(reason[1]), mirrored(men, cols)))
        else:
            left += [(cited, after(men, column)) for column, cited in cites_of(reason).items()]
    return found


def mirrored(men: Men, cols: int) -> Men:
    """The men as a mirror shows them."""
    return frozenset(((cols - 1 - column, row), side) for (column, row), side in men)


def after(men: Men, column: int) -> Men:
    """The men after a move."""
    row = 1 + sum(i == column for (i, _), _ in men)
    return men | {((column, row), "WB"[len(men) % 2])}


def cites_of(words: list[bytes]) -> dict[int, int]:
    """The lemmas that a reason by moves cites, by the columns of the moves."""
    if words[0] == b"one":
        return {COLUMN.index(words[1]): int(words[2])}
    return {COLUMN.index(word[:1]): int(word[2:]) for word in words[1:]} if words[0] == b"all" else {}


def claims_at(path: Path, game: Game) -> Claims:
    """The claims of all lemmas of a proof that stand at a position or at its mirror image, whatever moves lead
    there."""
    root = game_of(path)
    more = len(game.moves) - len(root.moves)
    if root.size != game.size or more < 0:
        return {}
    wanted = {path_key(image.moves, root.moves): image.men for image in (game.mirrored(), game)}
    found: Claims = {}
    with open(path, "rb") as source:
        for line in itertools.islice(source, 3, None):
            words = line.split(b" ", 3)
            if len(words) < 3 or len(words[1]) != max(more, 1) or words[2] not in CLAIMS or words[2] in found:
                continue
            moves = b"" if words[1] == b"-" else words[1]
            men = wanted.get(bytes(sorted(moves)))
            if len(moves) == more and men is not None and men_after(root, moves) == men:
                found[words[2]] = Place(int(words[0]), men != game.men)
    return found


def men_after(root: Game, moves: bytes) -> object:
    """The men after further moves."""
    return Game(root.size, [*root.moves, *columns_of(moves.decode() or "-")]).men


def path_key(moves: tuple[int, ...], before: tuple[int, ...]) -> Optional[bytes]:
    """The letters, in order, of the moves that are more than those before; None where there are none such."""
    left = sorted(moves)
    for column in before:
        if column not in left:
            return None
        left.remove(column)
    return "".join(LETTERS[column] for column in left).encode()


def value_of(claims: Claims, side: str) -> tuple[str, tuple[Place, ...]]:
    """The value for a side to move that claims show, and the lemmas that show it."""
    for value, words in (("win", [side + "+"]), ("loss", [OTHER[side] + "+"]), ("draw", ["W-", "B-"])):
        if all(word.encode() in claims for word in words):
            return value, tuple(claims[word.encode()] for word in words)
    return "unknown", ()


# A proof of a position out of one of a whole game.


@dataclass
class Copier:
    """Copies lemmas, each with what it rests on, to a proof of a game's position that comes up in theirs. Lemmas at
    mirror images are written as those of the position, so the proof is one of the first version.
    """

    numbered: Numbered
    game: Game
    out: BinaryIO
    numbers: dict[Place, int] = field(default_factory=dict)

    def read(self, place: Place) -> tuple[bytes, list[bytes], list[tuple[int, Place]]]:
        """The claim and the reason of a lemma, and the places that it cites with the columns of the moves there."""
        _, claim, *reason = self.numbered.words(place.number)
        number, is_turned = place
        while reason[0] == b"mirror":
            number, is_turned = before(int(reason[1]), number), not is_turned
            _, _, *reason = self.numbered.words(number)
        last = self.game.size.cols - 1
        cited = [(i, before(n, number)) for i, n in cites_of(reason).items()]
        cites = [(last - i if is_turned else i, Place(n, is_turned)) for i, n in cited]
        if reason[0] == b"plan" and is_turned:
            turned = [plans.mirrored(word.decode(), self.game.size).encode() for word in reason[1:]]
            reason = [b"plan", *turned]
        return claim, reason, sorted(cites)

    def copy(self, root: Place) -> int:
        """Copies a lemma, and gives the number that it has now."""
        paths, left = {root: b""}, [root]
        while left:
            place = left[-1]
            if place in self.numbers:
                left.pop()
                continue
            claim, reason, cites = self.read(place)
            missing = [cited for _, cited in cites if cited not in self.numbers]
            for column, cited in cites if missing else ():
                paths.setdefault(cited, paths[place] + COLUMN[column : column + 1])
            if missing:
                left += missing
                continue
            left.pop()
            self.write(place, paths[place], claim, reason, cites)
        return self.numbers[root]

    def write(
        self, place: Place, path: bytes, claim: bytes, reason: list[bytes], cites: list[tuple[int, Place]]
    ) -> None:
        """Writes a lemma, whose cites are written."""
        cited = {column: self.numbers[place] for column, place in cites}
        words = [reason_of(cited, reason[0] == b"one")] if cited else reason
        self.numbers[place] = len(self.numbers) + 1
        self.out.write(b"%d %s %s %s\n" % (len(self.numbers), path or b"-", claim, b" ".join(words)))


def before(cited: int, number: int) -> int:
    """The number that a lemma cites, which is less than its own; nothing of the text was checked yet."""
    if cited >= number:
        raise ValueError(f"lemma {number} cites lemma {cited}")
    return cited


def reason_of(cites: dict[int, int], is_one: bool) -> bytes:
    """A reason by one move, or by all, from the lemmas that are cited by columns."""
    if is_one:
        ((column, number),) = cites.items()
        return b"one %s %d" % (COLUMN[column : column + 1], number)
    return b"all " + b" ".join(b"%s:%d" % (COLUMN[column : column + 1], cites[column]) for column in sorted(cites))


def extract(path: Path, game: Game, value: str, places: tuple[Place, ...], into: Path) -> prover.Proof:
    """Writes a proof of a game's value out of one of a whole game, from the lemmas there that show it. It is as good as
    what the checker says of it."""
    with mapped(path) as text, output(into) as out:
        out.write(b"victor 1\n" + game.text().encode())
        copier = Copier(Indexed(text), game, out)
        numbers = " ".join(str(copier.copy(place)) for place in places)
        out.write(f"value {value} {numbers}\n".encode())
    return prover.Proof(game, value, len(copier.numbers), "", 0, pathlib.Path(into))


# A best line.


@dataclass(frozen=True)
class Line:
    """The moves of a best line; and where a side wins, how many moves the game lasts at most by the proof, whatever the
    other side plays."""

    columns: tuple[int, ...] = ()
    most: Optional[int] = None

    def letters(self) -> str:
        """The moves as letters."""
        return "".join(LETTERS[column] for column in self.columns)


class Lemmas:
    """All lemmas of a proof whose text is mapped, by number. `depths` has how many moves the longest play by the cites
    of each has."""

    def __init__(self, path: Path, text: mmap.mmap) -> None:
        self.root, self.numbered, self.depths = (game_of(path), Numbered(text), bytearray(1))
        self.verdict = tuple(Place(int(number)) for number in verdict_of(path)[1:])
        for line in lemma_lines(path):
            if len(self.depths) > MOST_LINE:
                raise Fault(f"the proof has more than {MOST_LINE} lemmas, too many for a line")
            words = line.split()[3:]
            cited = [int(words[1])] if words[0] == b"mirror" else cites_of(words).values()
            longest = max((self.depths[n] for n in cited), default=-1)
            self.depths.append(longest + (words[0] != b"mirror"))

    def line(self, game: Game, places: tuple[Place, ...], program: Optional[str] = None) -> Line:
        """A best line: who is served by a lemma plays by it, and the other side so that it lasts. One lemma shows that
        a side wins, and two a draw."""
        halves, moves = [Half(self, place) for place in places], []
        while halves and not game.is_over:
            column = next((found for half in halves if (found := half.own(game, program)) is not None), None)
            if column is None:
                depth = functools.partial(depth_of, halves, game)
                column = max(game.open_columns(), key=depth)
            for half in halves:
                half.go(game, column)
            game = game.after(column)
            moves.append(column)
        return Line(tuple(moves), self.depths[places[0].number] if len(places) == 1 else None)


class Half:
    """Play by one of the lemmas that show a value: where it stands, whether the board is turned there, and the plan
    that it has come to, with White's moves since."""

    def __init__(self, lemmas: Lemmas, place: Place) -> None:
        self.lemmas, self.number, self.turned = lemmas, place.number, place.is_turned
        self.plan = ""
        self.begun: Optional[Game] = None
        self.since: list[int] = []

    def seen(self, game: Game, column: int) -> int:
        """The column as the lemma has it."""
        return game.size.cols - 1 - column if self.turned else column

    def here(self, game: Game) -> tuple[bytes, dict[int, int]]:
        """The word of the lemma's reason, behind any mirrors, and the lemmas that it cites."""
        _, _, *reason = self.lemmas.numbered.words(self.number)
        while reason[0] == b"mirror":
            self.number, self.turned = int(reason[1]), not self.turned
            _, _, *reason = self.lemmas.numbered.words(self.number)
        if reason[0] == b"plan" and not self.plan:
            self.plan = b" ".join(reason[1:]).decode("ascii")
            self.begun = Game(game.size, [self.seen(game, column) for column in game.moves])
        return reason[0], cites_of(reason)

    def own(self, game: Game, program: Optional[str]) -> Optional[int]:
        """The move that the lemma or its plan wants here, or None where any move will do."""
        word, cites = self.here(game)
        if self.plan and self.begun:
            if game.side == "W":
                return None
            told = prover.play(self.begun, self.plan, self.since, program=program).turns[-1][1]
            return self.seen(game, LETTERS.index(told[0]))
        return self.seen(game, next(iter(cites))) if word == b"one" else None

    def depth(self, game: Game, column: int) -> int:
        """How long play may last after the move."""
        cited = self.here(game)[1].get(self.seen(game, column))
        return self.lemmas.depths[cited] if cited else 0

    def go(self, game: Game, column: int) -> None:
        """Makes a move."""
        cites, seen = self.here(game)[1], self.seen(game, column)
        if self.plan:
            self.since += [seen] if game.side == "W" else []
        elif seen in cites:
            self.number = cites[seen]


def depth_of(halves: list[Half], game: Game, column: int) -> int:
    """How long play may last after the move, by all lemmas."""
    return sum(half.depth(game, column) for half in halves)


# One proof from several.


def shifted(line: bytes, before: bytes, more: int) -> bytes:
    """The line of a lemma behind so many others, with these moves before its path."""
    number, path, claim, word, *rest = line.split()
    path = before + path.replace(b"-", b"") or b"-"
    if word == b"one":
        rest = [rest[0], b"%d" % (int(rest[1]) + more)]
    elif word == b"all":
        rest = [part[:2] + b"%d" % (int(part[2:]) + more) for part in rest]
    elif word == b"mirror":
        rest = [b"%d" % (int(rest[0]) + more)]
    return b" ".join([b"%d" % (int(number) + more), path, claim, word, *rest]) + b"\n"


def version_of(path: Path) -> int:
    """The version of a proof's format."""
    with open(path, "rb") as source:
        return 1 + FORMATS.index(source.readline(prover.LONGEST_HEAD))
