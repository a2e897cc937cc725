"""What is said in sentences: lists, numbers, values, and what a plan does. Nothing is checked."""

from collections.abc import Sequence
from typing import Callable, Optional

from ._faults import Fault
from ._games import LETTERS, Game, Square, name_of
from ._plans import BY_LINES, RULES, STANDING, Plan, barred_by, group_of, parts_of, up, words_of

TURNED = {"win": "loss", "loss": "win", "draw": "draw", "unknown": "unknown"}


def joined(words: Sequence[str], last: str = "and") -> str:
    """Words as `a, b and c`."""
    return words[0] if len(words) == 1 else f"{', '.join(words[:-1])} {last} {words[-1]}"


def listed(squares: Sequence[Square], last: str = "and") -> str:
    """The names of squares, as `a1, a2 and a3`."""
    return joined([name_of(square) for square in squares], last)


def count_of(number: float, thing: str) -> str:
    """A number of things."""
    shown = format(number, ",") if isinstance(number, int) else f"{number:g}"
    return f"{shown} {thing}{'' if number == 1 else 's'}"


def line_name(squares: Sequence[Square]) -> str:
    """A line in words, as `row a1 to d1`."""
    (i, r), (last, top) = squares[0], squares[-1]
    kind = "row" if r == top else "column" if i == last else "diagonal"
    return f"{kind} {name_of(squares[0])} to {name_of(squares[-1])}"


# How Black answers in a zone, as docs/RULES.md says it of each rule.


def takes(white: str, black: str, when: str = "") -> str:
    """A sentence that says how Black answers."""
    return f"If White takes {white}{when}, Black takes {black}."


def claimeven(lower: Square) -> list[str]:
    return [takes(name_of(lower), name_of(up(lower)))]


def baseinverse(left: Square, right: Square) -> list[str]:
    return [takes(name_of(left), name_of(right)), takes(name_of(right), name_of(left))]


def lowinverse(low: Square, top: Square, other_low: Square, other_top: Square) -> list[str]:
    below = [f"{name_of(first)} to {name_of(up(last, -1))}" for first, last in ((low, top), (other_low, other_top))]
    said = [takes(f"a square from {below[0]} or from {below[1]}", "the square above it")]
    for square, other in ((top, other_low), (other_top, low)):
        said.append(takes(name_of(square), f"the lowest empty square of column {LETTERS[other[0]]}"))
    return said


def highinverse(low: Square, other_low: Square) -> list[str]:
    said = []
    for own, other in ((low, other_low), (other_low, low)):
        bottom, far = name_of(own), name_of(other)
        said.append(takes(bottom, name_of(up(own)), f" while {far} is empty"))
        said.append(takes(bottom, name_of(up(other, 2)), f" once {far} is taken"))
        said.append(takes(name_of(up(own)), name_of(up(own, 2))))
        said.append(takes(name_of(up(own, 2)), far))
    return said


def baseclaim(first: Square, odd: Square, even: Square) -> list[str]:
    upper, either, last = (name_of(up(odd)), f"{name_of(first)} or {name_of(odd)}", name_of(even))
    return [
        takes(either, last, f" while {last} is empty"),
        takes(either, upper, f" once {last} is taken"),
        takes(last, name_of(odd)),
        takes(upper, name_of(first)),
    ]


ZONES: dict[str, Callable[..., list[str]]] = {
    "CE": claimeven,
    "BI": baseinverse,
    "LI": lowinverse,
    "HI": highinverse,
    "BC": baseclaim,
}


def answers_of(instance: str) -> list[str]:
    """The sentences that say how a zone rule answers, none of a standing rule."""
    return ZONES[instance[:2]](*parts_of(instance)) if instance[:2] in ZONES else []


class Sentences:
    """What is said of each instance of a plan."""

    def __init__(self, plan: Plan) -> None:
        self.plan = plan

    def line_of(self, instance: str) -> list[Square]:
        """The line of Black's that an instance rests on."""
        squares = group_of(words_of(instance)[0], self.plan.length)
        if squares is None:
            raise Fault(f"{instance} names no line")
        return squares

    def of_instance(self, instance: str) -> list[str]:
        """How Black answers in its zone, or what a standing instance rests on."""
        if instance[:2] not in STANDING:
            return answers_of(instance)
        if instance[:2] == "VE":
            square = parts_of(instance)[0]
            return [takes(name_of(square), f"{name_of(up(square))}, by {self.plan.owner_of(square)}")]
        return self.of_line(instance)

    def of_line(self, instance: str) -> list[str]:
        """Why a line of Black's is whole once White has a man above each of its empty squares."""
        squares = self.line_of(instance)
        empty = self.plan.empties(squares)
        own = [square for square in squares if square not in empty]
        said = [f"Black may get the {line_name(squares)}{f', and has {listed(own)}' if own else ''}."]
        if instance[:2] == "SB":
            outer, inner = parts_of(instance)
            said.append(f"White never gets {listed([outer, inner])} both, by {self.plan.owner_of(inner)}.")
            empty = [square for square in empty if square != inner]
        for square in empty:
            owner = self.plan.owner_of(square)
            never = [square] if owner[:2] == "CE" else [square, up(square)]
            said.append(f"White never gets {listed(never)}{' both' if len(never) > 1 else ''}, by {owner}.")
        return said

    def of_group(self, name: str, squares: list[Square], instance: str) -> str:
        """Why White never gets a line, by the instance that answers it."""
        head = f"So the {line_name(squares)} never gets whole: White "
        if instance[:2] in BY_LINES:
            return head + self.needs(squares, instance)
        for barred in barred_by(instance):
            if set(barred) <= set(squares):
                return f"{head}never gets {listed(barred)}{' both' if len(barred) > 1 else ''}."
        raise Fault(f"{instance} doesn't answer {name}")

    def needs(self, squares: list[Square], instance: str) -> str:
        """What White needs for a line that a line of Black's answers."""
        line, above = self.line_of(instance), []
        for square in self.plan.empties(line):
            over = [other for other in squares if other[0] == square[0] and other[1] > square[1]]
            if not over or instance[:2] != "AE" and over[0] != up(square):
                raise Fault(f"{instance} doesn't answer the {line_name(squares)}")
            above.append(f"{name_of(over[0])} above {name_of(square)}")
        if instance[:2] == "SB":
            above.insert(0, name_of(parts_of(instance)[0]))
        return f"needs {joined(above)}, and before that Black has the {line_name(line)}."


def of_plan(plan: Plan) -> str:
    """A paragraph for each instance: what it is, how Black answers in its zone, and each line that it answers."""
    says = Sentences(plan)
    many = count_of(len(plan.members), "instance")
    lines = [f"Black has a plan of {many}. Whatever White takes, Black has an answer, and White gets no line."]
    for n, (member, zone) in enumerate(zip(plan.members, plan.zones), 1):
        owned = f"with {listed(zone)}" if zone else "with no square of its own"
        lines += ["", f"{n}. {RULES[member[:2]]} {member}, {owned}"]
        lines += ["   " + said for said in says.of_instance(member)]
        lines += ["   " + says.of_group(name, squares, by) for name, squares, by in plan.answers if by == member]
    return "\n".join(lines) + "\n"


def of_no_plan(game: Optional[Game], is_within_reach: bool) -> str:
    """Why there is none, as far as that is known."""
    place = f"There is no plan{f' after {game.letters()}' if game and game.moves else ''}"
    if game is not None and game.is_over:
        return f"{place}, since the game has ended.\n"
    if game is not None and game.side == "B":
        further = ", ".join(game.letters() + LETTERS[i] for i in game.open_columns())
        return (
            f"{place}, since Black is to move.\n"
            "A plan says how each move of White's is answered, so it begins where White is to move.\n"
            f"Ask about the position after each of Black's moves: {further}.\n"
        )
    if is_within_reach:
        return (
            "No plan was found in the reach of `explain`, and more could be tried: --reach K takes up to 1000000.\n"
            "That says nothing about who wins.\n"
        )
    either = "" if game else ", or Black is to move (--game names the game)"
    return f"{place}.\nThe nine rules don't keep White from every line{either}. That doesn't say that White wins.\n"


def of_explanation(text: str, game: Optional[Game]) -> str:
    """What `explain` wrote, in sentences."""
    first = text.replace("\r", "").split("\n")[0]
    if first in ("no plan", "no plan within reach"):
        return of_no_plan(game, first != "no plan")
    return of_plan(Plan(text, game))
