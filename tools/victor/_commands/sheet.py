"""Makes one HTML page to print from positions, which are named or made by chance: boards with questions, and behind
them the answers. Each answer is from proofs that victor check accepted, or from a plan that victor explain wrote; what
has no proof is said to be searched only. move: which move is best, the quickest win or the longest loss where the
engine is there, or which moves win where several are as good. line: can White get a line. zone: in whose zone of a plan
a square is, and what Black answers."""

import argparse
import contextlib
import html
import random
import re
import tempfile
from collections.abc import Sequence
from dataclasses import dataclass
from typing import Optional

from .. import _programs as programs, _prover as prover, _sentences as sentences
from .._answers import VERBS, each_value
from .._asking import Answer, Asker
from .._drawing import draw_for_paper
from .._faults import Fault
from .._engine import Found, Searched
from .._games import LETTERS, SIDES, USUAL, Game, Size, name_of
from .._notation import asked_game
from .._plans import RULES, Plan
from .options import SEARCH, Parser, engine_of, means_of, say, say_lost, size_of, write
from .play import PlanPlayer

COMMON = ("--board", *SEARCH, "--out")
STATUS = (
    "A position about which nothing that is asked has a known answer is left out, with a line that says so. Status: 0; "
    "5 where one was left out; 2 where one is no position or no question is left, 1 where a program failed."
)
EXAMPLE = "tools/lab sheet 434343 efbaebdcfcee --out sheet.html"
KINDS = ("move", "line", "zone")
PLIES = (1, 3, 5, 7, 9)  # to a win of the side to move
MOST_MADE, MOST_TRIES = 40, 20_000
# The names of the sides, and the colours of their men.
COLOURS = {
    "white-black": ("White", "#ffffff", "Black", "#333333"),
    "red-yellow": ("Red", "#cc2222", "Yellow", "#ffd83d"),
    "yellow-red": ("Yellow", "#ffd83d", "Red", "#cc2222"),
    "blue-orange": ("Blue", "#2255bb", "Orange", "#ffab40"),
}
STYLE = """
body { font: 15px/1.4 "DejaVu Sans", Verdana, sans-serif; color: #222; margin: 20px auto; max-width: 720px; }
h1 { font-size: 20px; } h2 { font-size: 16px; margin: 0 0 6px; } ol { margin: 0; padding-left: 22px; }
section { display: flex; gap: 20px; margin: 0 0 26px; break-inside: avoid; page-break-inside: avoid; }
section > div { flex: 1; } svg { flex: none; print-color-adjust: exact; -webkit-print-color-adjust: exact; }
p { margin: 4px 0; } .room { height: 52px; border-bottom: 1px dotted #999; } .source { color: #666; font-size: 12px; }
.answers { break-before: page; page-break-before: always; } ul { margin: 2px 0; padding-left: 18px; }
@page { margin: 16mm; }
"""


def add_options(parser: Parser) -> None:
    """The options of this subcommand alone."""
    parser.add_argument("positions", nargs="*", metavar="POSITION", help="as ask reads one; - is standard input")
    parser.add_argument("--make", type=int, default=0, metavar="N", help="make so many positions, by chance")
    parser.add_argument("--seed", type=int, default=1, metavar="S", help="of what is made by chance (%(default)s)")
    parser.add_argument(
        "--plies", type=int, default=3, metavar="P", help="one move wins there in P moves (%(default)s)"
    )
    parser.add_argument("--plan", action="store_true", help="make positions instead in which Black has a plan")
    parser.add_argument("--ask", default=",".join(KINDS), metavar="KINDS", help="which questions (%(default)s)")
    parser.add_argument(
        "--colours",
        default="white-black",
        choices=sorted(COLOURS),
        help="the sides, of which the first moves first (%(default)s)",
    )
    parser.add_argument("--title", default="Connect Four", help="the page's heading (%(default)s)")


@dataclass(frozen=True)
class Question:
    """What is asked, what is answered, in a sentence and in lines behind it, and what the answer is from."""

    asked: str
    answered: str
    source: str
    lines: tuple[str, ...] = ()


class Questions:
    """The questions about a game whose answers are known."""

    def __init__(self, asker: Asker, game: Game, kinds: Sequence[str]) -> None:
        self.asker, self.game = asker, game
        explained = prover.explain(game, reach=asker.means.reach, program=asker.program)
        self.plan = Plan(explained.text, game) if explained.plan else None
        self.unknown: Optional[Answer] = None
        asks = {"move": self.ask_move, "line": self.ask_line, "zone": self.ask_zone}
        asked = (asks[kind]() for kind in KINDS if kind in kinds)
        self.all = [question for question in asked if question]

    def worth(self, game: Game) -> Answer:
        """What a position is worth."""
        answer = self.asker.answer(game)
        if answer.value == "unknown":
            self.unknown = answer
        return answer

    def ask_move(self) -> Optional[Question]:
        """Which move is best. Where the engine is there, it says how soon each wins and how late it loses."""
        if self.asker.engine:
            self.asker.search(self.game, scores=True)
        after = dict(self.asker.after_moves(self.game))
        self.unknown = next((answer for answer in after.values() if answer.value == "unknown"), self.unknown)
        proved = {column: sentences.TURNED[answer.value] for column, answer in after.items()}
        searched = {column for column, value in proved.items() if value == "unknown" and column in self.found.moves}
        moves = [(column, self.found.value_of(column) if column in searched else proved[column]) for column in after]
        values = {value for _, value in moves}
        if "win" not in values and "unknown" in values:
            return None
        best, *others = each_value(moves)
        said = f"{best}; {', '.join(others)}." if others else f"{best}."
        source = source_of(list(after.values()), [LETTERS[column] for column in searched])
        value = next(word for word in VERBS if word in values)
        equal = [column for column, one in moves if one == value]
        quickest = quickest_of([self.found.moves.get(column) for column in equal], value)
        if quickest:
            equal = [found.column or 0 for found in quickest]
            letters, many = [LETTERS[i] for i in equal], sentences.count_of(quickest[0].moves_to_end or 0, "move")
            verb = VERBS[value][len(letters) > 1]
            said = f"{sentences.joined(letters)} {verb} in {many}, as searched. {said}"
        return Question(asked_of(value, len(equal), SIDES[self.game.side], bool(quickest)), said, source)

    @property
    def found(self) -> Searched:
        """What the engine said of the game, where it was asked."""
        return self.asker.found if self.asker.found_of is self.game else Searched()

    def ask_line(self) -> Optional[Question]:
        """Can White get a line."""
        asked = "Can White get a line, if Black plays well?"
        if self.plan:
            said = "No. Black has a plan, whose numbers stand on the board."
            return Question(asked, said, "victor explain", tuple(lines_of(self.plan)))
        answer = self.worth(self.game)
        if answer.value == "unknown":
            return None
        is_won = answer.value == ("win" if self.game.side == "W" else "loss")
        why = "it is a draw" if answer.value == "draw" else "Black wins"
        return Question(asked, "Yes: White wins." if is_won else f"No: {why}.", source_of([answer]))

    def ask_zone(self) -> Optional[Question]:
        """Whose zone a square is, and where Black answers: the program's answers by the plan."""
        if not self.plan:
            return None
        player = PlanPlayer(self.asker.program, self.game, self.plan.members)
        squares = [self.game.next_square(i) for i in self.game.open_columns()]
        lines = []
        for white in squares:
            rule, number = RULES[self.plan.owner_of(white)[:2]], self.plan.owner[white]
            black = name_of(player.answer([white[0]]))
            lines.append(f"{name_of(white)} is in the zone of the {rule} {number}: Black takes {black}.")
        pairs = zip(self.plan.members, self.plan.zones)
        zones = "; ".join(f"{RULES[member[:2]]} {' '.join(map(name_of, zone))}" for member, zone in pairs if zone)
        asked = (
            f"Black plays by a plan with these zones: {zones}. White takes {sentences.listed(squares, 'or')}. "
            "Whose zone is it, and what does Black take?"
        )
        return Question(asked, "By the numbers on the board:", "victor play", tuple(lines))


def quickest_of(moves: Sequence[Optional[Found]], value: str) -> list[Found]:
    """Of moves of one value those that win soonest or lose latest, where that is known of each; of draws none."""
    known = [found for found in moves if found and found.value == value and found.moves_to_end is not None]
    if value == "draw" or len(known) < len(moves):
        return []
    ends = [found.moves_to_end or 0 for found in known]
    best = min(ends) if value == "win" else max(ends)
    return [found for found, end in zip(known, ends) if end == best]


def asked_of(value: str, count: int, side: str, has_ends: bool) -> str:
    """The question that has one answer: for the best move, or for several that are as good."""
    if count == 1:
        return f"Which move is best for {side}?"
    if value == "loss":
        return f"Which moves hold out longest for {side}?" if has_ends else f"Has {side} a move that doesn't lose?"
    return f"Which moves {value} for {side}?"


def made_games(words: argparse.Namespace, asker: Asker) -> list[Game]:
    """Positions by chance: in which one move wins in so many moves and none sooner, or in which Black has a plan."""
    chance, size = random.Random(words.seed), size_of(words) or USUAL
    games: list[Game] = []
    for _ in range(MOST_TRIES):
        if len(games) == words.make:
            break
        game = Game(size)
        for _ in range(chance.randrange(size.cols * size.rows // 3, size.cols * size.rows - words.plies)):
            game = game if game.is_over else game.after(chance.choice(game.open_columns()))
        is_right = has_plan if words.plan else is_won_in
        if not game.is_over and game not in games and is_right(asker, game, words.plies):
            games.append(game)
    if len(games) < words.make:
        say(words.prog, f"only {len(games)} of {words.make} positions were found by this seed")
    return games


def is_won_in(asker: Asker, game: Game, plies: int) -> bool:
    """The side to move wins in so many moves, by one move alone."""
    found = asker.search(game, scores=True)
    ends = [one.moves_to_end for one in found.moves.values() if one.value == "win"]
    is_known = found.position is not None and found.position.moves_to_end == plies
    return is_known and found.value == "win" and ends.count(plies) == 1


def has_plan(asker: Asker, game: Game, _: int) -> bool:
    """White is to move, and Black has a plan."""
    return game.side == "W" and bool(prover.explain(game, reach=asker.means.reach, program=asker.program).plan)


def lines_of(plan: Plan) -> list[str]:
    """What each instance of the plan does."""
    says = sentences.Sentences(plan)
    numbered = enumerate(plan.members, 1)
    return [f"{n}, {RULES[member[:2]]}: {' '.join(says.of_instance(member))}" for n, member in numbered]


def source_of(answers: Sequence[Answer], searched: Sequence[str] = ()) -> str:
    """What answers rest on: lemmas of their own, and proofs of whole games; and for which moves on a search alone."""
    whole = {answer.by: answer.lemmas for answer in answers if answer.path}
    lemmas = sum(whole.values()) + sum(answer.lemmas for answer in answers if not answer.path)
    more = f"; {sentences.joined(sorted(searched))} searched, and not proved" if searched else ""
    return f"{sentences.count_of(lemmas, 'lemma')}, accepted by check{more}"


class Page:
    """The questions and the answers, each part as HTML."""

    def __init__(self, title: str, colours: tuple[str, str, str, str]) -> None:
        self.title = title
        self.names = {"White": colours[0], "Black": colours[2]}
        self.men = {"W": colours[1], "B": colours[3]}
        self.asked: list[str] = []
        self.answered: list[str] = []

    def said(self, text: str) -> str:
        """A sentence with the names of the sides."""
        return html.escape(re.sub("White|Black", lambda side: self.names[str(side.group())], text))

    def add(self, game: Game, questions: Questions) -> None:
        """Adds a position with its questions."""
        number = len(self.asked) + 1
        asked = "".join(f'<li>{self.said(one.asked)}<div class="room"></div></li>' for one in questions.all)
        head = f"<h2>{number}. {self.said(SIDES[game.side])} is to move</h2>"
        self.asked.append(self.section(draw_for_paper(game, self.men, {}), head, asked))
        owner = questions.plan.owner if questions.plan else {}
        head = f'<h2>{number}. <span class="source">after {game.letters()} on {game.size}</span></h2>'
        answers = "".join(map(self.answer, questions.all))
        self.answered.append(self.section(draw_for_paper(game, self.men, owner), head, answers))

    def section(self, picture: str, head: str, items: str) -> str:
        """A board and what stands beside it."""
        return f'<section>{picture}<div>{head}<ol type="a">{items}</ol></div></section>'

    def answer(self, question: Question) -> str:
        """An answer."""
        lines = "".join(f"<li>{self.said(line)}</li>" for line in question.lines)
        more = f"<ul>{lines}</ul>" if lines else ""
        return f'<li>{self.said(question.answered)} <span class="source">({question.source})</span>{more}</li>'

    def text(self) -> str:
        """The whole page."""
        title, asked, answered = (html.escape(self.title), "\n".join(self.asked), "\n".join(self.answered))
        return (
            f'<!DOCTYPE html>\n<html lang="en">\n<head>\n<meta charset="utf-8"/>\n<title>{title}</title>\n'
            f"<style>{STYLE}</style>\n</head>\n<body>\n<h1>{title}</h1>\n"
            f"<p>{self.said('White')} moves first. Four in a line win.</p>\n{asked}\n"
            f'<div class="answers"><h1>Answers</h1>\n{answered}\n</div>\n</body>\n</html>\n'
        )


def kinds_of(word: str) -> list[str]:
    """The kinds of questions that are named."""
    kinds = word.split(",")
    if not set(kinds) <= set(KINDS):
        raise Fault(f"--ask takes some of {', '.join(KINDS)}, with commas between them")
    return kinds


def game_of(name: str, size: Optional[Size]) -> Game:
    """The game that a word names, in which there is something to ask."""
    try:
        game = asked_game(None if name == "-" else name, size)
    except Fault as fault:
        raise Fault(f"{name}: {fault}") from fault
    if game.is_over:
        raise Fault(f"{name}: the game has ended")
    return game


def require_made(words: argparse.Namespace) -> None:
    """There are positions, and what is made can be."""
    if not words.positions and not words.make:
        raise Fault("name positions, or --make some")
    if not 0 <= words.make <= MOST_MADE or words.plies not in PLIES:
        raise Fault(f"--make takes up to {MOST_MADE}, and --plies {sentences.joined(list(map(str, PLIES)), 'or')}")


def run(words: argparse.Namespace) -> int:
    """Writes the page."""
    kinds, means = kinds_of(words.ask), means_of(words)
    games = [game_of(name, size_of(words)) for name in words.positions]
    require_made(words)
    page, left = Page(words.title, COLOURS[words.colours]), []
    engines = engine_of(words) if "move" in kinds or words.make else contextlib.nullcontext()
    with tempfile.TemporaryDirectory(prefix="sheet-") as folder, engines as engine:
        asker = Asker(means, folder, engine)
        if words.make and not words.plan and not engine:
            raise Fault(programs.MAKE_ENGINE)
        games += made_games(words, asker)
        for name, game in zip([*words.positions, *(game.letters() for game in games[len(words.positions) :])], games):
            questions = Questions(asker, game, kinds)
            if questions.all:
                page.add(game, questions)
                continue
            wishes = questions.unknown.wishes if questions.unknown else ()
            more = f": try {' or '.join(wishes)}" if wishes else ""
            left.append(f"{name}: left out, as nothing that is asked has a known answer there{more}")
        say_lost(words, asker)
    if len(left) == len(games):
        raise Fault("; ".join(left))
    for line in left:
        say(words.prog, line)
    write(page.text(), words.out)
    return 5 if left else 0
