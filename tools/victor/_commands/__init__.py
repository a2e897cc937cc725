"""The subcommands of `lab`, each a module of this folder, in the order in which they are told."""

COMMANDS = {
    "ask": "says in one sentence what a position is worth, by a checked proof",
    "game": "writes the text of a game of a position as people write it",
    "draw": "draws a position, a plan, a duel or a proof",
    "words": "says in sentences what `victor explain` writes",
    "sheet": "makes a page to print, with questions and answers",
    "play": "plays with you in a terminal, against a plan or a whole proof",
    "board": "serves a page to play on, with the value of each move",
    "annotate": "says of each move of a game what it was worth, and which was best",
    "batch": "proves a list of positions into a folder, and resumes",
    "openings": "makes the table of openings, with a value and a proof of each",
    "parts": "proves a position from the proofs of positions some moves later",
}
