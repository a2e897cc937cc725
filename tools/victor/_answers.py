"""What was found out about a position, in a sentence or as data."""

from collections.abc import Sequence
from typing import Any, Optional

from ._asking import Answer
from ._engine import Found, Searched
from ._games import LENGTHS, LETTERS, OTHER, SIDES, Game
from ._programs import ASK_SOLVER, MAKE_SOLVER
from ._proofs import Line
from ._sentences import count_of, joined

Moves = Sequence[tuple[int, str]]  # the columns with the verdict of each for the side that moves
NAMES = {"engine": "the engine"}
VERBS = {
    "win": ("wins", "win"),
    "draw": ("draws", "draw"),
    "loss": ("loses", "lose"),
    "unknown": ("is unknown", "are unknown"),
}


def sentence(
    game: Game,
    answer: Answer,
    engines: tuple[str, ...],
    moves: Optional[Moves] = None,
    line: Optional[Line] = None,
    searched: Optional[Searched] = None,
) -> str:
    """What is said. `line` is a best one by the proof, and what was searched is told apart."""
    said = said_of_value(game, answer, engines) + said_of_moves(moves) + "." + said_of_line(line)
    return said + said_of_search(game, answer, moves or (), searched)


def place_of(game: Game) -> str:
    """The position in words."""
    return f"after {game.letters()} on {game.size}" if game.moves else f"on the empty board of {game.size}"


def said_of_value(game: Game, answer: Answer, engines: tuple[str, ...]) -> str:
    """What the position is worth, and what that rests on."""
    side, other, place = SIDES[game.side], SIDES[OTHER[game.side]], place_of(game)
    found = f"found by {NAMES.get(answer.by, answer.by)}, " if "solve" in engines else ""
    if answer.by not in (*engines, *NAMES):
        found = f"found in {answer.by}, "
    shown = f"{found}{count_of(answer.lemmas, 'lemma')} accepted"
    if answer.value == "unknown":
        why = joined(answer.whys)
        return f"What the position {place} is worth stays unknown, since {why}: {advice(answer, engines)}"
    if game.line:
        return f"{other} has {LENGTHS[game.size.length]} in a line {place}, so {side} has lost ({shown})"
    if answer.value == "draw":
        why = ", since the board is full" if game.is_over else f" for {side}, who is to move"
        return f"The position {place} is a draw{why} ({shown})"
    if answer.value == "win":
        return f"{side}, who is to move, wins {place} ({shown})"
    return f"{other} wins {place} against {side}, who is to move ({shown})"


def advice(answer: Answer, engines: tuple[str, ...]) -> str:
    """What may help where a value is unknown."""
    if not answer.wishes:
        return "no greater budget can be given"
    is_budget = engines == ("prove",) and answer.proof is not None and answer.wishes[0].startswith("--n")
    *few, last = answer.wishes
    if few and last in (MAKE_SOLVER, ASK_SOLVER):
        return f"{'raise it by' if is_budget else 'try'} {' or '.join(few)}, or try {last}"
    return f"{'raise it by' if is_budget else 'try'} {' or '.join(answer.wishes)}"


def best_of(moves: Moves) -> list[str]:
    """The columns of the best moves. Where some move is unknown, the best is known only if a move wins."""
    values = {value for _, value in moves}
    best = next((value for value in ("win", "draw", "loss") if value in values), None)
    if best != "win" and "unknown" in values:
        return []
    return [LETTERS[column] for column, value in moves if value == best]


def said_of_moves(moves: Optional[Moves]) -> str:
    """The best moves first, then what the others do."""
    if moves is None:
        return ""
    if not moves:
        return "; there is no move"
    said = each_value(moves)
    best = best_of(moves)
    if not best:
        return "; of the moves " + joined(said)
    if len(best) == len(moves) > 1:
        return f"; each move {VERBS[moves[0][1]][0]}"
    head = f"; the best {'move is' if len(best) == 1 else 'moves are'} {joined(best)}"
    return f"{head} ({'; '.join(said[1:])})" if said[1:] else head


def each_value(moves: Moves) -> list[str]:
    """For each value that some moves have, which they are, from the best on."""
    said = []
    for word, verbs in VERBS.items():
        letters = [LETTERS[column] for column, value in moves if value == word]
        if letters:
            said.append(f"{joined(letters)} {verbs[len(letters) > 1]}")
    return said


def said_of_search(game: Game, answer: Answer, moves: Moves, searched: Optional[Searched]) -> str:
    """What the engine says: all that it knows where it was asked for the moves to the end, and else what no proof
    shows."""
    if searched is None or not searched.moves:
        return ""
    of_moves = list(searched.moves.values())
    if all(found.moves_to_end is None for found in of_moves):
        proved = {column for column, value in moves if value != "unknown"}
        of_moves = [found for found in of_moves if found.column not in proved]
    said = [said_of_found(f"{SIDES[game.side]}, who is to move,", searched.position)] if searched.position else []
    said = said if shows_more(answer, searched) else []
    said += [said_of_found(LETTERS[found.column or 0], found) for found in sorted(of_moves, key=rank_of)]
    text = f" Searched, and not proved: {'; '.join(said)}." if said else ""
    if searched.line:
        text += f" A best line, searched: {letters_of(searched.line)}."
    return text


def said_of_moves_found(searched: Searched) -> str:
    """What was searched of the moves, the best first."""
    moves = sorted(searched.moves.values(), key=rank_of)
    said = "; ".join(said_of_found(LETTERS[found.column or 0], found) for found in moves)
    return f"Searched, and not proved: {said}"


def shows_more(answer: Answer, searched: Searched) -> bool:
    """The search says more of the position than the proof."""
    found = searched.position
    return found is not None and (answer.value == "unknown" or found.moves_to_end is not None)


def said_of_found(name: str, found: Found) -> str:
    """What was found of a move or a side, with the moves to the end."""
    many = "" if found.moves_to_end is None else f" in {count_of(found.moves_to_end, 'move')}"
    return f"{name} {VERBS[found.value][0]}{many}"


def rank_of(found: Found) -> tuple[int, int]:
    """The order of moves, the best first: a win soon, a draw, a loss late."""
    order, many = list(VERBS).index(found.value), found.moves_to_end or 0
    return order, many if found.value == "win" else -many


def letters_of(columns: Sequence[int]) -> str:
    """Columns as letters."""
    return "".join(LETTERS[column] for column in columns)


def said_of_line(line: Optional[Line]) -> str:
    """A best line, and how long the game lasts at most."""
    if line is None:
        return ""
    if not line.columns:
        return " No line is known."
    within = ""
    if line.most is not None:
        many = count_of(line.most, "move")
        within = f" By the proof the game ends within {many}, whatever is played against it."
    return f" A best line: {line.letters()}.{within}"


def game_data(game: Game) -> dict[str, Any]:
    """A game as data."""
    return {
        "columns": game.size.cols,
        "rows": game.size.rows,
        "length": game.size.length,
        "moves": game.letters(),
        "side": SIDES[game.side],
        "ended": game.is_over,
    }


def data_of(
    game: Game,
    answer: Answer,
    engines: tuple[str, ...],
    moves: Optional[Moves] = None,
    line: Optional[Line] = None,
    searched: Optional[Searched] = None,
) -> dict[str, Any]:
    """The same as data."""
    data: dict[str, Any] = {
        **game_data(game),
        "value": answer.value,
        "by": answer.by or None,
        "lemmas": answer.lemmas,
        "accepted": bool(answer.proof) or answer.value != "unknown",
        "sentence": sentence(game, answer, engines, moves, line, searched),
    }
    if answer.value == "unknown":
        data.update(why=list(answer.whys), advice=list(answer.wishes))
    if moves is not None:
        data.update(best=best_of(moves), values={LETTERS[column]: value for column, value in moves})
    if line is not None:
        data.update(line=line.letters(), within=line.most)
    if searched is not None and searched.moves:
        data.update(searched=search_data(searched))
    return data


def search_data(searched: Searched) -> dict[str, Any]:
    """What was searched as data."""
    moves = {LETTERS[column]: found for column, found in searched.moves.items()}
    ends = {letter: found.moves_to_end for letter, found in moves.items() if found.moves_to_end is not None}
    data: dict[str, Any] = {"value": searched.value, "values": {letter: found.value for letter, found in moves.items()}}
    if ends:
        to_end = searched.position.moves_to_end if searched.position else None
        data.update(moves_to_end=to_end, ends=ends)
    if searched.line is not None:
        data.update(line=letters_of(searched.line))
    return data
