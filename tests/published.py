"""Compares `ask trust` with what is published: table 1 of 000, which verdicts of nine properties can be trusted.

Run from the repository's root: python3 tests/published.py [FOLDER OF THE PROGRAMS]. Each property is drawn here as a
table over two propositions: message m has p if bit 0 of m is set, and q if bit 1 is. The truth domain has three values,
so the reading is 3; the published mutations stutter and out-of-order are repeat and swap.
"""

import sys

import reference
from hostile import compare
from inputs import ROOM, ask
from reference import CORRUPTION, LOSS, REPEAT, SWAP
from tables import table

NOT_YET, TRUE, FALSE = 0, 1, 2

# The marks of the states, the start first, and for each state the next states by messages {}, {p}, {q}, {p, q}.
TABLES = {
    # False at the first message without q. Until then nothing is decided, whether p has come or not.
    "F p & G q": table(0, [NOT_YET, FALSE], [[1, 1, 0, 0], [1, 1, 1, 1]]),
    "G p": table(0, [NOT_YET, FALSE], [[1, 0, 1, 0], [1, 1, 1, 1]]),
    # The first message decides, but for one that has q alone (state 3): then q must stay.
    "p | G q": table(0, [NOT_YET, TRUE, FALSE, NOT_YET], [[2, 1, 3, 1], [1, 1, 1, 1], [2, 2, 2, 2], [2, 2, 3, 3]]),
    "p": table(0, [NOT_YET, TRUE, FALSE], [[2, 1, 2, 1], [1, 1, 1, 1], [2, 2, 2, 2]]),
    # The first message decides, but for one that has p alone (state 3): then q must come.
    "p & F q": table(0, [NOT_YET, TRUE, FALSE, NOT_YET], [[2, 3, 2, 1], [1, 1, 1, 1], [2, 2, 2, 2], [3, 3, 1, 1]]),
    "F p": table(0, [NOT_YET, TRUE], [[0, 1, 0, 1], [1, 1, 1, 1]]),
    # True at the first q. Without one it can still come.
    "G p | F q": table(0, [NOT_YET, TRUE], [[0, 0, 1, 1], [1, 1, 1, 1]]),
    "G F p": table(0, [NOT_YET], [[0, 0, 0, 0]]),
    # The first message decides, but for one that has q alone (state 3): then p must come ever again, which is never
    # decided.
    "(p | G F p) & q": table(0, [NOT_YET, TRUE, FALSE, NOT_YET],
                             [[2, 2, 3, 1], [1, 1, 1, 1], [2, 2, 2, 2], [3, 3, 3, 3]]),
}

# For each fault the verdicts true, false and not yet: + trusted, x not trusted, - never said. As printed, without the
# letters that say of which properties of the class a + holds.
COLUMNS = [(kind, verdict) for kind in (LOSS, CORRUPTION, REPEAT, SWAP) for verdict in (TRUE, FALSE, NOT_YET)]
CELLS = {
    "F p & G q":        "-+x  -xx  -++  -++",
    "G p":              "-+x  -xx  -++  -++",
    "p | G q":          "xxx  xxx  +++  xxx",
    "p":                "xxx  xxx  +++  xxx",
    "p & F q":          "xxx  xxx  +++  xxx",
    "F p":              "+-x  x-x  +-+  +-+",
    "G p | F q":        "+-x  x-x  +-+  +-+",
    "G F p":            "--+  --+  --+  --+",
    "(p | G F p) & q":  "xxx  xxx  +++  xxx",
}

# Two cells do not hold of their example: of p, not yet is said of the empty trace alone, and corruption and swap keep
# the length, so that where it is received it was sent.
EXCEPTIONS = {("p", CORRUPTION, NOT_YET): "+", ("p", SWAP, NOT_YET): "+"}


def said(body, verdict):
    """Whether some trace reads the verdict."""
    held = reference.read_table(body)
    return verdict in {held.marks[s] for s in reference.reached_from(held, held.start)}


def check(name, body, kind, verdict, published):
    """Whether a cell is as published, and not as excepted; the program answers as the reference does."""
    _, difference = compare(ask(body, "trust", kind, 3, verdict, ROOM))
    if difference is not None:
        sys.exit(f"published: {name}\n{difference}")
    trusted = reference.trust(body, kind, 3, verdict, ROOM) is None
    came = "x" if not trusted else "+" if said(body, verdict) else "-"
    wanted = EXCEPTIONS.get((name, kind, verdict), published)
    if came != wanted:
        sys.exit(f"published: {name}, fault {kind}, verdict {verdict}: wanted {wanted}, came {came}")
    return wanted == published


def main():
    cells = [(name, body, *column, published) for name, body in TABLES.items()
             for column, published in zip(COLUMNS, CELLS[name].replace(" ", ""), strict=True)]
    printed = sum(check(*cell) for cell in cells)
    print(f"published: {printed} of {len(cells)} cells are as printed, and {len(EXCEPTIONS)} as excepted")


if __name__ == "__main__":
    main()
