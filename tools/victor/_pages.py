"""The pages: of a proof, which isn't checked, to play on, and of the rules. Each stands alone in one file."""

import html
import json
import pathlib
import re
from collections.abc import Iterator, Sequence
from typing import Union

from ._drawing import COLOURS
from ._faults import Fault
from ._games import Game
from ._notation import read_game
from ._plans import RULES, STANDING, zone_of
from ._programs import document
from ._prover import FORMATS

MOST_SHOWN = 20_000
LEMMA = re.compile(
    r"([1-9][0-9]*) (-|[a-j]+) ([WB][+-]) "
    r"(end|one [a-j] [0-9]+|all(?: [a-j]:[0-9]+)+|plan(?: [!-~]+)+|mirror [0-9]+)"
)
# The scripts of the page to play on, each behind those that it imports from.
SCRIPTS = ("game", "values", "search", "picture", "plans", "shelf", "server", "players", "history", "page")
TEXTS = ("rules", "strategy")  # documents that are pages too
PAGE = pathlib.Path(__file__).parent / "page"
Numbers = Union[range, Sequence[int]]


def page_of(name: str, **data: object) -> str:
    """A page of this package with data in place of each word in capitals. No text can end the script's element."""
    page = (pathlib.Path(__file__).parent / f"{name}.html").read_text(encoding="ascii")
    for word, value in data.items():
        page = page.replace(word, json.dumps(value, separators=(",", ":")).replace("<", "\\u003c"), 1)
    return page


def board_page(**data: object) -> str:
    """The page to play on, with its style and scripts in it, and data for them."""
    told: dict[str, object] = {"rules": RULES, "colours": zone_colours(), **data}
    page = (PAGE / "board.html").read_text(encoding="utf-8")
    pieces = {
        "STYLE": (PAGE / "board.css").read_text(encoding="utf-8"),
        "DATA": json.dumps(told, separators=(",", ":")).replace("<", "\\u003c"),
        "SCRIPT": "\n".join(script(name) for name in SCRIPTS),
    }
    return re.sub("|".join(pieces), lambda found: pieces[found.group()], page)


def script(name: str) -> str:
    """A script as a part of one: its names are those of all, so it imports and exports nothing."""
    lines = (PAGE / f"{name}.js").read_text(encoding="utf-8").splitlines()
    return "\n".join(line.removeprefix("export ") for line in lines if not line.startswith("import "))


def text_page(name: str) -> str:
    """A document as a page, `rules` or `strategy`."""
    style = (PAGE / "board.css").read_text(encoding="utf-8")
    text = "\n".join(elements_of(text_of(name).split("\n")))
    return (
        f'<!DOCTYPE html>\n<html lang="en"><head><meta charset="utf-8"><title>{name.capitalize()}</title>'
        '<meta name="viewport" content="width=device-width, initial-scale=1">'
        f'<style>{style}</style></head><body class="text">\n{text}\n</body></html>\n'
    )


def text_of(name: str) -> str:
    """The text of a document."""
    path = document(f"{name.upper()}.md")
    if name not in TEXTS or not path:
        raise Fault(f"the document {name} isn't installed")
    return path.read_text(encoding="utf-8")


def pictures() -> dict[str, pathlib.Path]:
    """The pictures of the documents that are pages, by their names: there are no others to be read."""
    names = {name for text in TEXTS for name in re.findall(r"\]\(img/([a-z0-9-]+\.png)\)", text_of(text))}
    paths = {name: document(f"img/{name}") for name in names}
    return {name: path for name, path in sorted(paths.items()) if path}


def elements_of(lines: Sequence[str]) -> Iterator[str]:
    """The elements of a document: headings, which have their words as names, paragraphs, lists, tables and blocks."""
    block: list[str] = []
    kind = "p"
    for line in [*lines, ""]:
        made = "pre" if line.startswith("    ") else "table" if line.startswith("|") else "p"
        begins = line.startswith("#") or re.match(r"([-*]|\d+\.) ", line) or made != kind and line.strip()
        if block and (begins or not line.strip() and kind != "pre"):
            yield element_of(kind, block)
            block = []
        if line.startswith("#"):
            mark, words = line.split(" ", 1)
            yield f'<h{len(mark)} id="{re.sub("[^a-z]+", "-", words.lower())}">{spans_of(words)}</h{len(mark)}>'
        elif line.strip() or block:
            block, kind = [*block, line], made if line.strip() else kind
    if block:
        yield element_of(kind, block)


def element_of(kind: str, lines: Sequence[str]) -> str:
    """An element from its lines."""
    if kind == "table":
        rows = [line.strip("|").split("|") for line in lines if not set(line) <= set("|- ")]
        return (
            "<table>"
            + "".join(f"<tr>{''.join(f'<td>{spans_of(c)}</td>' for c in row)}</tr>" for row in rows)
            + "</table>"
        )
    if kind == "pre":
        return f"<pre>{html.escape(chr(10).join(line[4:] for line in lines).rstrip())}</pre>"
    return f"<p>{spans_of(' '.join(lines))}</p>"


def spans_of(text: str) -> str:
    """Words with what is emphasised; a link is left as its words."""
    told = html.escape(text.strip())
    told = re.sub(r"!\[([^]]*)\]\((img/[a-z0-9-]+\.png)\)", r'<img src="\2" alt="\1">', told)
    told = re.sub(r"`([^`]+)`", r"<code>\1</code>", told)
    told = re.sub(r"\[([^]]+)\]\([^)]+\)", r"\1", told)
    return re.sub(r"\*\*?([^*]+)\*\*?", r"<em>\1</em>", told)


def zone_colours() -> dict[str, str]:
    """The fills of the zones by their rules."""
    return {rule: colour for rule, colour in COLOURS.items() if rule not in STANDING}


def read_proof(text: str) -> tuple[Game, list[str], list[str]]:
    """The game, the lemmas as texts by their number, and the verdict's words. It isn't checked."""
    lines = text.split("\n")
    if lines and not lines[-1]:
        lines.pop()
    if len(lines) < 3 or f"{lines[0]}\n".encode() not in FORMATS:
        raise Fault("this is no proof: the first line is neither `victor 1` nor `victor 2`")
    game = read_game("\n".join(lines[1:3]))
    lemmas: list[str] = []
    verdict: list[str] = []
    for n, line in enumerate(lines[3:], 4):
        if line.startswith("#"):
            continue
        if line.startswith("value ") and not verdict:
            verdict = line.split(" ")[1:]
        elif verdict or not LEMMA.fullmatch(line) or line.split(" ", 1)[0] != str(len(lemmas) + 1):
            raise Fault(f"line {n} is no lemma that may stand there")
        else:
            lemmas.append(line)
    return game, lemmas, verdict


def cites_of(line: str) -> list[int]:
    """The numbers of the lemmas that a lemma cites."""
    words = line.split(" ", 4)
    if words[3] == "one":
        return [int(words[4].split(" ")[1])]
    if words[3] == "mirror":
        return [int(words[4])]
    return [int(item[2:]) for item in words[4].split(" ")] if words[3] == "all" else []


def shown_lemmas(lemmas: Sequence[str], verdict: Sequence[str], most: int) -> Numbers:
    """The numbers of the lemmas that are shown: all, or those next to the verdict by the cites that lead there."""
    count = len(lemmas)
    if count <= most:
        return range(1, count + 1)
    queue = [int(word) for word in verdict if word.isdigit() and 1 <= int(word) <= count] or [count]
    seen = set(queue)
    for n in queue:
        for cited in cites_of(lemmas[n - 1]):
            if len(seen) < most and 1 <= cited < n and cited not in seen:
                seen.add(cited)
                queue.append(cited)
    for n in range(count, 0, -1):
        if len(seen) >= most:
            break
        seen.add(n)
    return sorted(seen)


def draw_proof(game: Game, lemmas: Sequence[str], verdict: Sequence[str], most: int = MOST_SHOWN) -> str:
    """The page of a proof."""
    shown = [lemmas[n - 1] for n in shown_lemmas(lemmas, verdict, most)]
    plans = [line.split(" ")[4:] for line in shown if " plan " in line]
    data = {
        "size": str(game.size),
        "cols": game.size.cols,
        "rows": game.size.rows,
        "line": game.size.length,
        "moves": game.letters(),
        "verdict": list(verdict),
        "count": len(lemmas),
        "lemmas": shown,
        "rules": RULES,
        "colours": zone_colours(),
        "zones": {member: zone_of(member) for plan in plans for member in plan},
    }
    return page_of("proof", DATA=data)
