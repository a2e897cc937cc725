"""Proofs for the comparison of two checkers, from a seed: changed ones, and lists of instances at random positions.

    python3 tools/tests/mutants.py SEED COUNT

compares tools/check.py with the program on so many, and writes those on which they differ.
"""

import io
import os
import random
import subprocess
import sys

HERE = os.path.dirname(os.path.abspath(__file__))
sys.path.insert(0, os.path.dirname(HERE))
import check  # noqa: E402
import victor  # noqa: E402
from victor import Game  # noqa: E402

TOP = os.path.dirname(os.path.dirname(HERE))

ALPHABET = b"abcdefghijWB+-0123456789 :,\n\rCEBILHVASenolhuvd#~\x7f\x00\xff"
INSTANCE_SIZES = ((4, 4), (4, 4), (4, 6), (5, 4), (6, 4), (6, 6), (7, 6), (4, 8), (4, 10), (10, 4))


def random_game(rng, cols, rows, most, length=4):
    """The moves of a random game that goes on, of at most so many."""
    game = Game((cols, rows, length))
    for _ in range(rng.randrange(most + 1)):
        column = rng.choice(game.open_columns())
        longer = game.after(column)
        if longer.is_over:
            break
        game = longer
    return game


def square(rng, board):
    return "%s%d" % (rng.choice(board.letters), rng.randint(1, board.rows))


def random_instance(rng, board):
    """A text that may be an instance."""
    kind = rng.choice(("CE", "BI", "LI", "HI", "BC", "VE") + (("AE", "BE", "SB") if board.groups else ()))
    if kind in ("AE", "BE", "SB"):
        text = kind + ":" + rng.choice(board.groups)[1]
        return text if kind != "SB" else "%s,%s,%s" % (text, square(rng, board), square(rng, board))
    if kind == "LI":
        one, two = sorted(rng.sample(board.letters, 2))
        rows = [sorted(rng.choices(range(2, board.rows + 1, 2), k=2)) for _ in range(2)]
        return "LI:%s%d-%s%d,%s%d-%s%d" % (one, rows[0][0], one, rows[0][1], two, rows[1][0], two, rows[1][1])
    count = {"CE": 1, "BI": 2, "HI": 2, "BC": 3, "VE": 1}[kind]
    squares = [square(rng, board) for _ in range(count)]
    return kind + ":" + ",".join(squares if kind == "BC" else sorted(squares))


def fitting_instances(board, white, black):
    """All instances that fit at a position, by their texts, from all texts of the right shape."""
    checker = check.Checker(board, white, black, None)
    men = white | black
    empty = board.all & ~men
    playable = (men + board.floor) & board.all
    low = [board.name_of(bit) for bit in board.squares_of(playable)]
    texts = ["CE:" + board.name_of(bit) for bit in board.squares_of(empty)]
    texts += ["BI:%s,%s" % (s, t) for s in low for t in low]
    texts += ["BC:%s,%s,%s" % (a, b, e) for a in low for b in low for e in low]
    texts += ["VE:" + board.name_of(bit) for bit in board.squares_of(empty)]
    bottoms = low + [board.name_of(bit << 1) for bit in board.squares_of(playable & ~board.top)]
    for x in bottoms:
        for y in bottoms:
            texts.append("HI:%s,%s" % (x, y))
            for x_top in range(int(x[1:]) + 2, board.rows + 1, 2):
                for y_top in range(int(y[1:]) + 2, board.rows + 1, 2):
                    texts.append("LI:%s-%s%d,%s-%s%d" % (x, x[0], x_top, y, y[0], y_top))
    for line, name in board.groups:
        if not line & white and line & empty:
            texts += ["AE:" + name, "BE:" + name]
            texts += ["SB:%s,%s,%s" % (name, f, e) for f in low for e in low]
    found = []
    for text in texts:
        one = check.read_instance(board, text)
        if one is not None and checker.fits(one, white, empty, playable):
            found.append((text, one))
    return found


def near_plan(rng, cols=None, rows=None):
    """A proof whose one lemma has a list that is a plan, or nearly one: zones that stand together cover the squares."""
    if cols is None:
        cols, rows = rng.choice(INSTANCE_SIZES) if rng.random() < 0.98 else (10, 10)
    most = cols * rows - 2
    game = random_game(rng, cols, rows, rng.choice((0, most // 3, most, most)), rng.choice((4, 4, 5)))
    board, white, black, _ = check.read_game(game.text().encode())
    if game.side == "B" and rng.random() < 0.95:
        game = Game(game.size, game.moves[:-1])
        board, white, black, _ = check.read_game(game.text().encode())
    fitting = fitting_instances(board, white, black)
    zones = [pair for pair in fitting if pair[1].zone]
    # Claimevens close most boards; the others make what is rare.
    rng.shuffle(zones)
    if rng.random() < 0.5:
        zones.sort(key=lambda pair: pair[1].kind == "CE")
    members = []
    empty = board.all & ~(white | black)
    while empty and zones:
        first = empty & -empty
        taken = next(
            (
                pair
                for pair in zones
                if pair[1].zone & first and all(check.may_stand(board, pair[1], other[1]) for other in members)
            ),
            None,
        )
        if taken is None:
            break
        members.append(taken)
        empty &= ~taken[1].zone
    made = check.List([one for _, one in members], lambda one, two: False)
    standing = [pair for pair in fitting if not pair[1].zone]
    checker = check.Checker(board, white, black, None)
    empty = board.all & ~(white | black)
    held = [pair for pair in standing if checker.is_supported(pair[1], made, empty)]
    members += held if rng.random() < 0.5 else rng.sample(held, min(len(held), rng.randint(0, 6)))
    texts = [text for text, _ in members]
    for _ in range(rng.choice((0, 0, 1, 1, 2))):
        how = rng.randrange(5)
        place = rng.randrange(len(texts) + 1)
        if how == 0 and texts:
            texts.pop(place - 1)
        elif how == 1 and standing:
            texts.insert(place, rng.choice(standing)[0])
        elif how == 2 and fitting:
            texts.insert(place, rng.choice(fitting)[0])
        elif how == 3:
            texts.insert(place, random_instance(rng, board))
        elif texts:
            texts.append(texts.pop(place - 1))
    texts = texts[: rng.choice((299, 300, 300))] or ["CE:a1"]
    return ("victor 1\n%s1 - W- plan %s\nvalue unknown\n" % (game.text(), " ".join(texts))).encode()


def change(rng, proof):
    """The proof with one change."""
    lines = proof.split(b"\n")
    place = rng.randrange(len(lines))
    if rng.random() < 0.8 and len(lines) > 4:
        place = rng.randrange(3, len(lines))
    line = lines[place]
    words = line.split(b" ")
    how = rng.randrange(16)
    if how == 0 and line:  # a byte
        at = rng.randrange(len(line))
        lines[place] = line[:at] + bytes([rng.choice(ALPHABET)]) + line[at + 1 :]
    elif how == 1:  # a byte more, or one fewer
        at = rng.randrange(len(line) + 1)
        more = bytes([rng.choice(ALPHABET)]) if rng.random() < 0.5 else b""
        lines[place] = line[:at] + more + line[at + (not more) :]
    elif how in (2, 3):  # a number
        at = [k for k, word in enumerate(words) if word.strip(b"abcdefghij:").isdigit()]
        if at:
            k = rng.choice(at)
            digits = words[k].strip(b"abcdefghij:")
            other = rng.choice(
                (
                    int(digits) + 1,
                    max(int(digits) - 1, 0),
                    rng.randint(0, len(lines)),
                    10_000_001,
                    10_000_000,
                    10 ** rng.randint(1, 20),
                )
            )
            spelling = b"%d" % other if rng.random() < 0.9 else b"0%d" % other
            words[k] = words[k][: len(words[k]) - len(digits)] + spelling
            lines[place] = b" ".join(words)
    elif how in (4, 5):  # a claim
        at = [k for k, word in enumerate(words) if word in (b"W+", b"W-", b"B+", b"B-")]
        if at:
            words[rng.choice(at)] = rng.choice((b"W+", b"W-", b"B+", b"B-"))
            lines[place] = b" ".join(words)
    elif how == 6 and len(words) > 3:  # a reason
        other = rng.choice(lines).split(b" ")
        lines[place] = b" ".join(words[:3] + rng.choice((other[3:], [b"end"], [b"one", b"a", b"1"], [b"all", b"a:1"])))
    elif how in (7, 8) and len(words) > 1:  # a path
        path = bytearray(words[1])
        if path == b"-":
            path.clear()
        kind = rng.randrange(4)
        at = rng.randrange(len(path) + 1)
        if kind == 0:
            path.insert(at, rng.choice(b"abcdefghij"))
        elif path and kind == 1:
            path.pop(at - 1)
        elif path and kind == 2:
            rng.shuffle(path)
        else:
            path += bytes(path)
        words[1] = bytes(path) or b"-"
        lines[place] = b" ".join(words)
    elif how == 9 and len(words) > 4:  # cites or instances: one fewer, one doubled, two swapped
        k, m = rng.randrange(4, len(words)), rng.randrange(4, len(words))
        rng.choice((lambda: words.pop(k), lambda: words.insert(k, words[m]), lambda: words.insert(k, words.pop(m))))()
        lines[place] = b" ".join(words)
    elif how == 10:
        lines.pop(place)
    elif how == 11:
        lines.insert(place, line)
    elif how == 12:
        other = rng.randrange(len(lines))
        lines[place], lines[other] = lines[other], lines[place]
    elif how == 13:  # cut
        return proof[: rng.randrange(len(proof) + 1)]
    elif how == 14:
        long = (b"x" * rng.choice((8192, 8193)), b"#" + b"y" * rng.choice((8191, 8192)))
        lines.insert(
            place,
            rng.choice(
                (
                    b"",
                    b"# a remark",
                    b"#",
                    b"#\t",
                    b"value unknown",
                    b"value win 1",
                    b"value loss 2",
                    b"value draw 1 2",
                    *long,
                )
            ),
        )
    else:  # the verdict
        count = max(len(lines) - 5, 1)
        one, two = rng.randint(1, count + 1), rng.randint(1, count + 1)
        word = rng.choice(
            (b"value win %d" % one, b"value loss %d" % one, b"value draw %d %d" % (one, two), b"value unknown")
        )
        lines[-2 if len(lines) > 1 else 0] = word
    return b"\n".join(lines)


def change_plan(rng, proof, board):
    """The proof with a changed instance in one of its plans."""
    lines = proof.split(b"\n")
    at = [k for k, line in enumerate(lines) if b" plan " in line]
    if not at:
        return change(rng, proof)
    k = rng.choice(at)
    words = lines[k].split(b" ")
    m = rng.randrange(4, len(words))
    how = rng.randrange(4)
    text = random_instance(rng, board).encode()
    if how == 0:
        words[m] = text
    elif how == 1:
        words.insert(m, text)
    elif how == 2:
        words.pop(m)
    else:
        word = bytearray(words[m])
        word[rng.randrange(len(word))] = rng.choice(b"abcdefghij0123456789huvdCEBILSV,-:")
        words[m] = bytes(word)
    lines[k] = b" ".join(words)
    return b"\n".join(lines)


def example_proofs():
    folder = os.path.join(TOP, "examples")
    names = [os.path.join(folder, name) for name in sorted(os.listdir(folder)) if name.endswith(".proof")]
    refused = os.path.join(folder, "refused")
    names += [os.path.join(refused, name) for name in sorted(os.listdir(refused)) if name.endswith(".proof")]
    proofs = []
    for name in names:
        with open(name, "rb") as source:
            proofs.append(source.read())
    return proofs


def proofs_of(program, rng, count):
    """What `prove` writes of random games with few empty squares."""
    proofs = []
    while len(proofs) < count:
        cols, rows = rng.choice(((4, 4), (4, 4), (5, 4), (4, 6), (6, 4), (7, 6), (4, 10), (10, 4)))
        most = cols * rows
        game = random_game(rng, cols, rows, most, rng.choice((4, 4, 5)))
        if len(game.moves) < most - 12 and (cols, rows) != (4, 4):
            continue
        nodes, reach = rng.choice((5, 100, 400, 400)), rng.choice((0, 20, 1000))
        words = [program, "prove", "--nodes", str(nodes), "--reach", str(reach)]
        proofs.append(subprocess.run(words, input=game.text().encode(), stdout=subprocess.PIPE).stdout)
        if game.side == "W":
            words = [program, "explain", "--reach", "300"]
            plan = subprocess.run(words, input=game.text().encode(), stdout=subprocess.PIPE).stdout.split(b"\n")[0]
            if plan.startswith(b"plan "):
                proofs.append(b"victor 1\n%s1 - W- %s\nvalue unknown\n" % (game.text().encode(), plan))
    return proofs


def mutants(program, seed, count):
    """So many changed proofs. Most are small."""
    rng = random.Random(seed)
    base = example_proofs() + proofs_of(program, rng, 60)
    while count:
        if rng.random() < 0.4:
            proof = near_plan(rng)
        else:
            proof = rng.choice(base)
            if len(proof) > 20_000 and rng.random() < 0.9:
                continue
            for _ in range(rng.choice((1, 1, 1, 2, 3))):
                try:
                    board = check.read_game(b"\n".join(proof.split(b"\n")[1:3]) + b"\n")[0]
                except check.InputFault:
                    board = None
                if board is not None and rng.random() < 0.3:
                    proof = change_plan(rng, proof, board)
                else:
                    proof = change(rng, proof)
        yield proof
        count -= 1


def answer_here(proof):
    """What tools/check.py answers: the status and both texts."""
    out, err = io.StringIO(), io.StringIO()
    status = check.run(io.BytesIO(proof), out, err)
    return status, out.getvalue(), err.getvalue()


def answer_of(words, proof):
    """What a program answers."""
    run = subprocess.run(words, input=proof, stdout=subprocess.PIPE, stderr=subprocess.PIPE)
    return run.returncode, run.stdout.decode("ascii"), run.stderr.decode("ascii")


def main():
    if len(sys.argv) != 3:
        sys.exit("mutants.py: two words: a seed and a count")
    program = victor.find_program()
    seen, differ = {}, 0
    for proof in mutants(program, int(sys.argv[1]), int(sys.argv[2])):
        here, there = answer_here(proof), answer_of([program, "check"], proof)
        name = (here[1] or here[2].split(":", 1)[-1]).split()
        kind = " ".join(name[:2] if name[0] in ("BadPlan", "accepted") else name[:1])
        seen[kind] = seen.get(kind, 0) + 1
        if here != there:
            differ += 1
            path = "/tmp/difference-%s-%d.proof" % (sys.argv[1], differ)
            with open(path, "wb") as out:
                out.write(proof)
            print("%s: check.py %r, victor %r" % (path, here, there))
    print("differences: %d of %s" % (differ, sys.argv[2]))
    for kind in sorted(seen):
        print("%7d %s" % (seen[kind], kind))
    return 1 if differ else 0


if __name__ == "__main__":
    sys.exit(main())
