"""Writes the page of `lab board` as files that play from proofs in the browser, with no server."""

import base64
import gzip
import json
import lzma
import os
import pathlib
import shutil
import tempfile
from collections.abc import Iterator
from typing import Callable

from . import _proofs as proofs
from ._faults import Fault, files_told
from ._games import USUAL
from ._pages import TEXTS, board_page, pictures, text_page
from ._programs import shipped_folder

CLAIMS = {b"W+": b"W", b"W-": b"w", b"B+": b"B", b"B-": b"b"}
README = """This folder is a page to play Connect Four on. Open index.html in a browser, here or on a web space: it
needs no server and no network. Its values and answers are those of proofs that `victor check` accepts; the page
itself checks nothing.
"""
Tell = Callable[[str], None]


def write(folder: str, has_usual: bool, tell: Tell) -> str:
    """Writes the files into a new folder, and says what they are."""
    shipped, place = shipped_folder(), pathlib.Path(folder)
    if not shipped:
        raise Fault("the shipped proofs aren't there")
    with files_told(folder):
        if place.exists() and any(place.iterdir()):
            raise Fault(f"the folder {folder} isn't empty: name a new one")
        (place / "proofs").mkdir(parents=True, exist_ok=True)
    boards = dict(written_proofs(shipped, place, has_usual, tell))
    openings = written_openings(shipped, place)
    texts = {f"{name}.html": text_page(name) for name in TEXTS}
    texts.update({"index.html": board_page(boards=boards, openings=openings, ending=".html"), "README.txt": README})
    with files_told(folder):
        (place / "img").mkdir()
        for name, text in texts.items():
            (place / name).write_text(text, encoding="utf-8")
        for name, path in pictures().items():
            shutil.copyfile(path, place / "img" / name)
    size = sum(path.stat().st_size for path in place.rglob("*") if path.is_file())
    return f"{folder}/index.html plays from the proofs of {len(boards)} boards ({size / 1e6:.1f} MB)"


def written_proofs(
    shipped: pathlib.Path, place: pathlib.Path, has_usual: bool, tell: Tell
) -> Iterator[tuple[str, str]]:
    """Writes the proofs, and gives each board with the path of its file."""
    for path in sorted(shipped.glob("*.txt.xz")):
        game = proofs.game_of(path)
        if game.size == USUAL and not has_usual:
            continue
        tell(f"writing the proof of {game.size}")
        name = f"proofs/{game.size.word}.js"
        with tempfile.TemporaryDirectory(prefix="site-") as room:
            plain = proofs.unpacked(path, room)
            text = b"\n".join(short_lines(plain, path.name)) + b"\n"
        shelve(place / name, game.size.word, text)
        yield game.size.word, name


def short_lines(path: "os.PathLike[str] | str", name: str) -> Iterator[bytes]:
    """A proof in few bytes: its value, the lemmas of the verdict and its name, and then each lemma by a letter for its
    claim and one for its kind. What a lemma cites is told by how many lines before it."""
    value, *numbers = proofs.verdict_of(path)
    yield f"{value} {','.join(numbers)} {name}".encode()
    for line in proofs.lemma_lines(path):
        number, _, claim, kind, *rest = line.split()
        yield CLAIMS[claim] + kind[:1] + short_reason(int(number), kind, rest)


def short_reason(number: int, kind: bytes, rest: list[bytes]) -> bytes:
    """The reason of a lemma in few bytes."""
    if kind == b"one":
        return b"%s%d" % (rest[0], number - int(rest[1]))
    if kind == b"all":
        return b"".join(b"%s%d" % (word[:1], number - int(word[2:])) for word in rest)
    return b"%d" % (number - int(rest[0])) if kind == b"mirror" else b" ".join(rest)


def written_openings(shipped: pathlib.Path, place: pathlib.Path) -> dict[str, str]:
    """Writes the table of openings of the usual board, where there is one."""
    tables = sorted(shipped.glob("openings-*.csv.xz"))
    if not tables:
        return {}
    with lzma.open(tables[-1]) as source:
        shelve(place / "openings.js", "openings", source.read())
    return {USUAL.word: "openings.js"}


def shelve(path: pathlib.Path, name: str, text: bytes) -> None:
    """Writes a text as a script that hands it over, since a page that was opened as a file may read no other."""
    packed = base64.b64encode(gzip.compress(text, 9, mtime=0)).decode()
    with files_told(path):
        path.write_text(f"shelve({json.dumps(name)}, {json.dumps(packed)});\n", encoding="ascii")
