#!/usr/bin/env python3
"""A second checker of proofs: answers as `victor check` does, and was written from docs/PROOFS.md and docs/RULES.md.

It reads a proof from standard input or from the file that is named, and writes one line where each lemma and the
verdict are right. Else it names on standard error the first line that fails, and why. Nothing is proved of it.

It stays one file that shares nothing with the package beside it, nor with the program: a slip in a rule would have to
be made twice, by two who wrote apart, for a wrong proof to be accepted by both.
"""

import argparse
import os
import re
import sys

LONGEST_LINE = 8192
MOST_LINES = 20_000_000
GREATEST_NUMBER = 10_000_000
KEPT = 200_000  # how many positions and lists are kept before they are forgotten and found anew
WAYS = (("h", 1, 0), ("v", 0, 1), ("u", 1, 1), ("d", 1, -1))


class Refused(Exception):
    """The text is refused: the line and the name."""


class InputFault(Exception):
    """Lines 2 and 3 are no game: the kind and the byte place."""


class ReadFault(Exception):
    """Reading failed."""


# ---------------------------------------------------------------------------------------------------------------------
# The board and its groups, as bits: the square in column i and row r is bit (rows + 1) * i + r - 1, so that each column
# has a bit above its highest row, which no square has.


class Board:
    def __init__(self, cols, rows, length=4):
        self.cols, self.rows, self.length = cols, rows, length
        self.step = rows + 1
        self.size = cols * self.step
        self.letters = "abcdefghij"[:cols]
        self.bottom = [1 << (self.step * i) for i in range(cols)]
        self.column = [((1 << rows) - 1) << (self.step * i) for i in range(cols)]
        self.columns = list(zip(self.bottom, self.column, range(cols)))
        self.all = sum(self.column)
        self.top = sum(1 << (self.step * i + rows - 1) for i in range(cols))
        self.floor = sum(self.bottom)
        self.shifts = (1, self.step, self.step + 1, self.step - 1)
        self.groups = []  # (the squares, the name), in group order
        self.group_named = {}
        for way, right, up in WAYS:
            for i in range(cols):
                for r in range(1, rows + 1):
                    last_i, last_r = i + (length - 1) * right, r + (length - 1) * up
                    if last_i < cols and 1 <= last_r <= rows:
                        squares = [self.bit(i + k * right, r + k * up) for k in range(length)]
                        name = "%s%d%s" % (self.letters[i], r, way)
                        self.groups.append((sum(squares), name))
                        self.group_named[name] = sum(squares)

    def bit(self, i, r):
        return 1 << (self.step * i + r - 1)

    def has_line(self, men):
        for s in self.shifts:
            pair = men & (men >> s)
            four = pair & (pair >> 2 * s)
            if four and (self.length == 4 or four & (four >> s)):
                return True
        return False

    def image(self, men):
        """The men seen from the other side: column a is the last one, and so on."""
        image = 0
        for i in range(self.cols):
            image = image << self.step | men >> self.step * i & (1 << self.step) - 1
        return image

    def name_of(self, bit):
        i, up = divmod(bit.bit_length() - 1, self.step)
        return "%s%d" % (self.letters[i], up + 1)

    def squares_of(self, word):
        while word:
            low = word & -word
            yield low
            word ^= low


SIZES = {b"4": 4, b"5": 5, b"6": 6, b"7": 7, b"8": 8, b"9": 9, b"10": 10}
ROWS = {b"4": 4, b"6": 6, b"8": 8, b"10": 10}
LENGTHS = {b"5": 5}  # lines of four are those of a board that tells no length


def read_game(text):
    """The board and the position of a game's text: White's men, Black's men, and who has ended it or None."""
    place = 0

    def fixed(part):
        nonlocal place
        for byte in part:
            if place >= len(text) or text[place] != byte:
                raise InputFault("BadHeader", place)
            place += 1

    def number(spellings):
        nonlocal place
        run = re.compile(rb"[0-9]*").match(text, place).group()
        if run not in spellings:
            raise InputFault("BadSize", place)
        place += len(run)
        return spellings[run]

    fixed(b"board ")
    cols = number(SIZES)
    fixed(b" ")
    rows = number(ROWS)
    length = 4
    if text[place : place + 1] == b" ":
        place += 1
        length = number(LENGTHS)
    fixed(b"\nmoves ")
    board = Board(cols, rows, length)
    letters = board.letters.encode()
    men = [0, 0]
    end = None
    start = place
    while place < len(text):
        byte = text[place]
        if byte == 0x2D and place == start:
            place += 1
            if place < len(text) and text[place] != 0x0A:
                raise InputFault("Trailing", place)
            break
        column = letters.find(byte)
        if column < 0:
            if byte == 0x0A and place > start:
                break
            raise InputFault("BadColumn", place)
        if end is not None:
            raise InputFault("GameOver", place)
        all_men = men[0] | men[1]
        bit = (all_men + board.bottom[column]) & board.column[column]
        if not bit:
            raise InputFault("ColumnFull", place)
        side = (place - start) % 2
        men[side] |= bit
        if board.has_line(men[side]):
            end = "WB"[side]
        elif all_men | bit == board.all:
            end = "D"
        place += 1
    if place == start:
        raise InputFault("BadColumn", place)
    if place < len(text) and place + 1 < len(text):
        raise InputFault("Trailing", place + 1)
    return board, men[0], men[1], end


# ---------------------------------------------------------------------------------------------------------------------
# Instances of the nine rules.


class Instance:
    """What an instance is made of, as sets of squares.

    zone: the squares it owns; playable: those of its squares that have to be playable, as alternatives; barred: the
    least sets that it bars, where they are fixed; upper, pair, twins: what it gives; line: Black's line that it rests
    on.
    """

    __slots__ = ("kind", "zone", "playable", "barred", "upper", "pair", "twins", "line", "empty", "f", "e0", "low")

    def __init__(self, kind):
        self.kind = kind
        self.zone = self.upper = self.pair = self.line = self.empty = self.f = self.e0 = self.low = 0
        self.playable = ()
        self.barred = ()
        self.twins = 0


INSTANCE = re.compile(
    r"CE:([a-j])([1-9]0?)|(?:BI|HI):([a-j])([1-9]0?),([a-j])([1-9]0?)"
    r"|LI:([a-j])([1-9]0?)-([a-j])([1-9]0?),([a-j])([1-9]0?)-([a-j])([1-9]0?)"
    r"|BC:([a-j])([1-9]0?),([a-j])([1-9]0?),([a-j])([1-9]0?)|VE:([a-j])([1-9]0?)"
    r"|(?:AE|BE):([a-j][1-9]0?[hvud])|SB:([a-j][1-9]0?[hvud]),([a-j])([1-9]0?),([a-j])([1-9]0?)"
)


def read_instance(board, text):
    """The instance that a text names on this board, or None."""
    found = INSTANCE.fullmatch(text)
    if not found:
        return None
    made = Instance(text[:2])
    parts = [part for part in found.groups() if part is not None]
    if made.kind in ("AE", "BE", "SB"):
        made.line = board.group_named.get(parts.pop(0), 0)
        if not made.line:
            return None
    squares = [("abcdefghij".index(letter), int(row)) for letter, row in zip(parts[::2], parts[1::2])]
    if any(i >= board.cols or r > board.rows for i, r in squares):
        return None
    return made if SHAPES[made.kind](made, board, squares) else None


# Each of these fills in an instance from its squares, and says whether they have the shape that the rule asks for.


def claimeven(made, board, squares):
    ((i, r),) = squares
    made.zone = board.bit(i, r) * 3
    made.upper = board.bit(i, r) << 1
    made.barred = (made.upper,)
    return r % 2 == 1


def baseinverse(made, board, squares):
    (i, r), (j, q) = squares
    made.zone = made.twins = board.bit(i, r) | board.bit(j, q)
    made.playable = (made.zone,)
    made.barred = (made.zone,)
    return i < j


def lowinverse(made, board, squares):
    (i, r), (i2, top), (j, q), (j2, other_top) = squares
    if i != i2 or j != j2 or i >= j or (r | top | q | other_top) % 2 or top < r + 2 or other_top < q + 2:
        return False
    odd_x = [board.bit(i, k) for k in range(r + 1, top, 2)]
    odd_y = [board.bit(j, k) for k in range(q + 1, other_top, 2)]
    tops = board.bit(i, top) | board.bit(j, other_top)
    made.zone = sum(board.bit(i, k) for k in range(r, top + 1)) | sum(board.bit(j, k) for k in range(q, other_top + 1))
    made.pair = made.zone & ~tops
    made.barred = tuple([x | y for x in odd_x for y in odd_y] + [tops] + [odd | odd << 1 for odd in odd_x + odd_y])
    return is_over(made, board.bit(i, r) | board.bit(j, q))


def highinverse(made, board, squares):
    (i, r), (j, q) = squares
    if i >= j or (r | q) % 2 or r + 2 > board.rows or q + 2 > board.rows:
        return False
    x, y = board.bit(i, r), board.bit(j, q)
    made.zone = x * 7 | y * 7
    made.pair = x << 1 | y << 1
    made.barred = (x << 2 | y << 2, x << 1 | y << 1, x << 1 | x << 2, y << 1 | y << 2, x | y << 2, y | x << 2)
    return is_over(made, x | y)


def is_over(made, bottoms):
    """The bottoms are playable, or the squares below them, which are on the board as bottoms lie on even rows."""
    made.low = bottoms
    made.playable = (bottoms, bottoms >> 1)
    return True


def baseclaim(made, board, squares):
    (i, r), (j, q), (k, p) = squares
    a, b, e = board.bit(i, r), board.bit(j, q), board.bit(k, p)
    made.zone = a | b | b << 1 | e
    made.playable = (a | b | e,)
    made.barred = (a | b << 1, b | e)
    return len({i, j, k}) == 3 and r % 2 == 0 and q % 2 == 1 and p % 2 == 0


def vertical(made, board, squares):
    ((i, r),) = squares
    made.empty = board.bit(i, r) * 3
    made.barred = (made.empty,)
    return r % 2 == 0 and r < board.rows


def group_rule(made, board, squares):
    return True


def specialbefore(made, board, squares):
    (i, r), (j, q) = squares
    made.f, made.e0 = board.bit(i, r), board.bit(j, q)
    made.playable = (made.f | made.e0,)
    return not made.f & made.line and bool(made.e0 & made.line) and i != j


SHAPES = {
    "CE": claimeven,
    "BI": baseinverse,
    "LI": lowinverse,
    "HI": highinverse,
    "BC": baseclaim,
    "VE": vertical,
    "AE": group_rule,
    "BE": group_rule,
    "SB": specialbefore,
}


def is_above(board, upper, other):
    """In each column that they share the zone `upper` lies above every square of the other."""
    for column in board.column:
        mine, its = upper & column, other & column
        if mine and its and (mine & -mine) < its:
            return False
    return True


def may_stand(board, one, two):
    if not one.zone or not two.zone:
        return True
    if one.zone & two.zone:
        return False
    if not any(one.zone & column and two.zone & column for column in board.column):
        return True
    if one.kind != "CE" and two.kind == "CE" or one.kind in ("LI", "HI") and two.kind == "BI":
        one, two = two, one
    if one.kind == "CE":
        return two.kind == "CE" or is_above(board, one.zone, two.zone)
    if one.kind == "BI" and two.kind in ("LI", "HI"):
        return one.zone == two.low >> 1
    return False


class List:
    """A list of instances with what doesn't depend on the position: clashes, zones, and what the zone rules give."""

    __slots__ = ("members", "clash", "zone", "upper", "pair", "twins", "barred", "lines", "standing")

    def __init__(self, members, clash_of):
        self.members = members
        self.clash = None
        self.zone = self.upper = self.pair = 0
        self.twins = set()
        barred = set()
        self.lines = [one for one in members if one.line]
        self.standing = [(n, one) for n, one in enumerate(members, 1) if not one.zone]
        for one in members:
            self.zone |= one.zone
            self.upper |= one.upper
            self.pair |= one.pair
            if one.twins:
                self.twins.add(one.twins)
            if one.kind != "CE":
                barred.update(one.barred)
        self.barred = [word for word in barred if not word & self.upper]
        for n, one in enumerate(members):
            for m in range(n + 1, len(members)):
                if clash_of(one, members[m]):
                    self.clash = (n + 1, m + 1)
                    return


class Checker:
    """The lemmas so far, and whether a further line is right."""

    def __init__(self, board, white, black, end, version=1):
        self.board = board
        self.shift = board.size
        self.version = version
        self.root = (white | black << board.size, white | black, end)
        self.is_white = bin(white | black).count("1") % 2 == 0
        self.verdict = None
        # Of each lemma, by its number: its position's word times four, and the claim's number. Number 0 is none.
        self.lemmas = [-1]
        self.places = {b"-": self.root}
        self.instances = {}
        self.lists = {}
        self.clashes = {}
        letter = b"[a-%s]" % board.letters[-1].encode()
        number = rb"([1-9][0-9]{0,7})"
        self.lemma_form = re.compile(
            number
            + rb" (-|"
            + letter
            + rb"{1,100}) ([WB][+-]) (?:(end)|one ("
            + letter
            + rb") "
            + number
            + rb"|all((?: "
            + letter
            + rb":[1-9][0-9]{0,7}){1,10})|plan((?: [!-~]+){1,300})|mirror "
            + number
            + rb")"
        )
        self.verdict_form = re.compile(
            rb"value (?:(win|loss) " + number + rb"|draw " + number + rb" " + number + rb"|(unknown))"
        )
        self.remark_form = re.compile(rb"#[ -~]*")

    # -- the lines

    def add(self, line):
        """The name for which this line is refused, or None where it is taken."""
        found = self.lemma_form.fullmatch(line)
        if found is None:
            return self.add_other(line)
        number, path, claim, end, column, cited, cites, plan, image = found.groups()
        # A line behind the verdict has the same name as one that is no form, so the two need not be told apart.
        if self.verdict is not None or int(number) != len(self.lemmas) or len(self.lemmas) > GREATEST_NUMBER:
            return "BadLine"
        if image is not None:
            reason = [(None, int(image))] if self.version == 2 else None
        elif column is not None:
            reason = [(column[0] - 97, int(cited))]
        elif cites is not None:
            reason = [(item[0] - 97, int(item[2:])) for item in cites[1:].split(b" ")]
        else:
            reason = self.list_of(plan) if plan is not None else ()
        if reason is None or end is None and plan is None and max([n for _, n in reason]) > GREATEST_NUMBER:
            return "BadLine"
        place = self.places.get(path) or self.place_of(path)
        if place is None:
            return "BadPath"
        is_white = self.is_white ^ (path != b"-" and len(path) & 1)
        mark = CLAIMS[claim]
        if end is not None:
            fault = self.end_fault(place[2], mark)
        elif image is not None:
            fault = self.image_fault(place[0], mark, int(image))
        elif plan is None:
            fault = self.cites_fault(place, is_white, mark, column is not None, reason)
        else:
            fault = "WrongClaim" if claim != b"W-" else self.plan_fault(reason, place, is_white)
        if fault is None:
            self.lemmas.append(place[0] * 4 + mark)
        return fault

    def end_fault(self, over, mark):
        if over is None:
            return "WrongPosition"
        side, wins = "BW"[mark >> 1], mark & 1
        return "WrongClaim" if (over == side) != wins else None

    def image_fault(self, key, mark, n):
        if n >= len(self.lemmas):
            return "NoSuchLemma"
        board = self.board
        there, claimed = divmod(self.lemmas[n], 4)
        if board.image(there & board.all) | board.image(there >> self.shift) << self.shift != key:
            return "WrongPosition"
        return None if claimed == mark else "WrongClaim"

    def cites_fault(self, place, is_white, mark, is_one, cites):
        key, men, over = place
        # The claim asks for one move where it says that the side to move wins, or that the other side doesn't.
        if (((mark >> 1) == is_white) == (mark & 1)) != is_one:
            return "WrongClaim"
        if over is not None:
            return "WrongPosition"
        bits = self.moved_bits(men, is_one, cites)
        if bits is None:
            return "MissingMove"
        shift = 0 if is_white else self.shift
        lemmas = self.lemmas
        for (_, n), bit in zip(cites, bits):
            if n >= len(lemmas):
                return "NoSuchLemma"
            wanted = (key + (bit << shift)) * 4 + mark
            if lemmas[n] != wanted:
                return "WrongPosition" if lemmas[n] >> 2 != wanted >> 2 else "WrongClaim"
        return None

    def moved_bits(self, men, is_one, cites):
        """The squares that the cited columns lead to; None where the columns aren't those that the reason asks for."""
        board = self.board
        if is_one:
            i = cites[0][0]
            bit = (men + board.bottom[i]) & board.column[i]
            return [bit] if bit else None
        bits = []
        for bottom, column, i in board.columns:
            bit = (men + bottom) & column
            if bit:
                if len(bits) == len(cites) or cites[len(bits)][0] != i:
                    return None
                bits.append(bit)
        return bits if len(bits) == len(cites) else None

    def add_other(self, line):
        if self.verdict is not None:
            return "BadLine"
        if self.remark_form.fullmatch(line):
            return None
        found = self.verdict_form.fullmatch(line)
        if found is None:
            return "BadLine"
        word, n, first, second, unknown = found.groups()
        for number in (n, first, second):
            if number is not None and int(number) > GREATEST_NUMBER:
                return "BadLine"
        if unknown is not None:
            self.verdict = "unknown"
        elif word is not None:
            winner = self.is_white == (word == b"win")
            if not self.shows(int(n), b"W+" if winner else b"B+"):
                return "BadVerdict"
            self.verdict = word.decode()
        else:
            if not (self.shows(int(first), b"W-") and self.shows(int(second), b"B-")):
                return "BadVerdict"
            self.verdict = "draw"
        return None

    def shows(self, n, claim):
        """Lemma n makes this claim at the root's position."""
        return n < len(self.lemmas) and self.lemmas[n] == self.root[0] * 4 + CLAIMS[claim]

    # -- positions

    def place_of(self, path):
        """The position of a path: its word, its men, and its end. None where a move isn't legal."""
        board = self.board
        places = self.places
        if len(places) > KEPT:
            places.clear()
            places[b"-"] = self.root
        known = len(path) - 1
        while known and path[:known] not in places:
            known -= 1
        key, men, over = places[path[:known]] if known else self.root
        for k in range(known, len(path)):
            if over is not None:
                return None
            i = path[k] - 97
            bit = (men + board.bottom[i]) & board.column[i]
            if not bit:
                return None
            is_white = self.is_white ^ (k & 1)
            men |= bit
            key += bit if is_white else bit << self.shift
            side = key & board.all if is_white else key >> self.shift
            # Only the side that moved can have made a line.
            if board.has_line(side):
                over = "W" if is_white else "B"
            elif men == board.all:
                over = "D"
            places[path[: k + 1]] = (key, men, over)
        return key, men, over

    # -- plans

    def list_of(self, plan):
        """The list that a plan's text names, or None where one of its items is no instance."""
        made = self.lists.get(plan)
        if made is not None:
            return made
        members = []
        for item in plan[1:].split(b" "):
            one = self.instances.get(item)
            if one is None:
                one = read_instance(self.board, item.decode("ascii"))
                if one is None:
                    return None
                self.instances[item] = one
            members.append(one)
        if len(self.lists) > KEPT // 10:
            self.lists.clear()
        made = List(members, self.clash_of)
        self.lists[plan] = made
        return made

    def clash_of(self, one, two):
        pair = (one, two)
        known = self.clashes.get(pair)
        if known is None:
            if len(self.clashes) > KEPT:
                self.clashes.clear()
            known = not may_stand(self.board, one, two)
            self.clashes[pair] = known
        return known

    def plan_fault(self, made, place, is_white):
        """The first reason for which the list is no plan at the position, or None."""
        reason = self.plan_reason(made, place, is_white)
        return None if reason is None else "BadPlan " + reason

    def plan_reason(self, made, place, is_white):
        key, men, over = place
        if not is_white:
            return "NotWhiteToMove"
        if over is not None:
            return "Ended"
        board = self.board
        white, black = key & board.all, key >> self.shift
        empty = board.all & ~men
        playable = (men + board.floor) & board.all
        for n, one in enumerate(made.members, 1):
            if not self.fits(one, white, empty, playable):
                return "Misfit %d" % n
        if made.clash is not None:
            return "Clash %d %d" % made.clash
        open_squares = empty & ~made.zone
        if open_squares:
            return "Uncovered " + board.name_of(open_squares & -open_squares)
        for n, one in made.standing:
            if not self.is_supported(one, made, empty):
                return "Unsupported %d" % n
        for squares, name in board.groups:
            if not squares & black and not self.is_answered(made, squares & empty, empty):
                return "Unanswered " + name
        return None

    def is_answered(self, made, wanted, empty):
        """Some member bars these empty squares of a line."""
        if wanted & made.upper:
            return True
        for word in made.barred:
            if wanted & word == word:
                return True
        return any(self.bars_by_line(one, wanted, empty) for one in made.lines)

    def fits(self, one, white, empty, playable):
        if one.zone & ~empty or one.empty & ~empty:
            return False
        for squares in one.playable:
            if not squares & ~playable:
                break
        else:
            if one.playable:
                return False
        if one.line:
            left = one.line & empty
            if one.line & white or not left:
                return False
            if one.kind != "AE" and left & self.board.top:
                return False
        return True

    def is_supported(self, one, made, empty):
        if one.kind == "VE":
            return bool(one.empty & -one.empty & made.pair)
        left = one.line & empty
        if one.kind == "AE":
            return not left & ~made.upper
        if one.kind == "SB":
            if one.f | one.e0 not in made.twins:
                return False
            left &= ~one.e0
        return not left & ~(made.upper | made.pair)

    def bars_by_line(self, one, wanted, empty):
        left = one.line & empty
        if one.kind == "AE":
            # In its column each empty square of the line has some wanted square above it.
            for square in self.board.squares_of(left):
                column = next(column for column in self.board.column if column & square)
                if wanted & column < square << 1:
                    return False
            return True
        return not ((left << 1) | one.f) & ~wanted


# A claim's number: twice 1 for White or 0 for Black, and 1 where it says that the side wins.
CLAIMS = {b"W+": 3, b"W-": 2, b"B+": 1, b"B-": 0}


# ---------------------------------------------------------------------------------------------------------------------
# The text.

VERSIONS = {b"victor 1": 1, b"victor 2": 2}


def lines_in(source):
    """The lines with their line feeds. A line that is too long is given as far as it was read, and is the last."""
    rest = b""
    while True:
        try:
            piece = source.read1(1 << 20)
        except OSError as fault:
            raise ReadFault from fault
        if not piece:
            if rest:
                yield rest
            return
        rest += piece
        lines = rest.split(b"\n")
        rest = lines.pop()
        for line in lines:
            yield line + b"\n"
        if len(rest) > LONGEST_LINE:
            yield rest
            return


def check(source):
    """The line that an accepted proof is answered with."""
    lines = lines_in(source)
    version = VERSIONS.get(next(lines, b"").removesuffix(b"\n"))
    if version is None:
        raise Refused(1, "BadLine")
    game = next(lines, b"")
    if game.endswith(b"\n"):
        game += next(lines, b"")
    checker = Checker(*read_game(game), version)
    number = 3
    for number, line in enumerate(lines, 4):
        line = line.removesuffix(b"\n")
        if number > MOST_LINES or len(line) > LONGEST_LINE:
            raise Refused(number, "BadLine")
        name = checker.add(line)
        if name is not None:
            raise Refused(number, name)
    if checker.verdict is None:
        raise Refused(number + 1, "EndedEarly")
    return "accepted %s %d" % (checker.verdict, len(checker.lemmas) - 1)


def run(source, out, err):
    """Answers one proof, and gives the status."""
    try:
        answer = check(source)
    except Refused as fault:
        err.write("refused line %d: %s\n" % fault.args)
        return 4
    except InputFault as fault:
        err.write("input fault: %s at %d\n" % fault.args)
        return 3
    except ReadFault:
        err.write("read fault\n")
        return 6
    except MemoryError:
        err.write("out of memory\n")
        return 8
    try:
        out.write(answer + "\n")
        out.flush()
    except OSError:
        err.write("write fault\n")
        return 7
    return 0


class Closed:
    """A stream that was closed before the program began."""

    def read1(self, size):
        raise OSError("closed")

    def write(self, text):
        return len(text)

    def flush(self):
        raise OSError("closed")


def main():
    parser = argparse.ArgumentParser(
        prog="check.py",
        description="A second checker of proofs, which answers as `victor check` does.",
        epilog="Statuses and texts are those of docs/PROOFS.md. Nothing is proved of this program.",
    )
    parser.add_argument("proof", nargs="?", help="a file with a proof; without it, standard input")
    parser.error = lambda message: sys.exit(complain(message))
    words = parser.parse_intermixed_args()
    err = sys.stderr or Closed()
    try:
        source = open(words.proof, "rb") if words.proof is not None else sys.stdin.buffer if sys.stdin else Closed()
    except OSError as fault:
        return complain("%s: %s" % (words.proof, fault.strerror))
    status = run(source, sys.stdout or Closed(), err)
    if status == 7:
        # What could not be written isn't tried again at the end of the program.
        sys.stderr and sys.stderr.flush()
        os._exit(7)
    return status


def complain(message):
    sys.stderr.write("check.py: %s\n" % message)
    return 2


if __name__ == "__main__":
    sys.exit(main())
