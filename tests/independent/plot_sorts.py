"""The sorts that calls of the program of plots are of, and how many of each the
comparison needs.
"""

import re

import plots
from reference import Refusal, form

# How many of each sort there have to be in two thousand cases: less than half of
# what the generator makes.  One is needed among however few cases.
PLOT_FLOORS = {
    # By leaves; with 63 brackets open at once, which is a comb of 64.
    "one leaf": 300,
    "two leaves": 400,
    "64 leaves": 2200,
    "63 brackets": 1500,
    # The shape of the text is another than that of the canonical text.
    "in another order": 7000,
    # A row is not the exact one; so at eight forks or more; a row is not the
    # double that is nearest to the exact one.
    "rounded": 2000,
    "rounded at many forks": 1800,
    "not the nearest": 500,
    # More cells are lent than are asked for.
    "more rows lent": 2200,
    "more columns lent": 2200,
    # One slice only is too short, and then both; for a text that would be accepted,
    # with enough for its own nodes, for one that would be refused, and for one that
    # is too long.
    "short rows": 500,
    "short columns": 500,
    "both short": 300,
    "short but enough for the tree": 250,
    "short, and refused": 850,
    "short, and too long": 15,
    # One cell too few.
    "126 rows": 80,
    "126 columns": 70,
}

NODES = 127
LONGEST = 65535


def plot_sorts(text, expected):
    """The sorts of PLOT_FLOORS that the calls of a case are of, as a list."""
    return [
        sort for (_, arguments), line in zip(plots.plot_calls(text), expected.splitlines())
        for sort in (short_sorts if line.startswith(b"refused 7 ") else placed_sorts)(arguments, line)
    ]


def sorts_of(holds):
    """The names of what holds, as a list."""
    return [sort for sort in holds if holds[sort]]


def short_sorts(arguments, _):
    """The sorts of a call that is lent too little."""
    text, rows, columns = arguments
    answer = plots.plot(text)
    taken = not isinstance(answer, Refusal)
    return sorts_of({
        "short rows": rows < NODES <= columns,
        "short columns": columns < NODES <= rows,
        "both short": rows < NODES and columns < NODES,
        "short but enough for the tree": taken and min(rows, columns) >= len(answer.rows),
        "short, and refused": not taken,
        "short, and too long": len(text) > LONGEST,
        "126 rows": rows == NODES - 1 and columns >= NODES,
        "126 columns": columns == NODES - 1 and rows >= NODES,
    })


def placed_sorts(arguments, line):
    """The sorts of an accepted call; any other refusal is of none."""
    text, rows, columns = arguments
    if line.startswith(b"refused "):
        return []
    answer = plots.plot(text)
    leaves = (len(answer.rows) + 1) // 2
    rounded = sum(row != exact for row, exact in zip(answer.rows, answer.exact))
    return sorts_of({
        "one leaf": leaves == 1,
        "two leaves": leaves == 2,
        "64 leaves": leaves == 64,
        "63 brackets": max(answer.columns) == 63,
        "in another order": shape(text) != shape(form(text)),
        "rounded": rounded > 0,
        "rounded at many forks": rounded >= 8,
        "not the nearest": any(row != float(exact) for row, exact in zip(answer.rows, answer.exact)),
        "more rows lent": rows > NODES,
        "more columns lent": columns > NODES,
    })


def shape(text):
    """A text of one rooted tree without its mark, its blanks and its labels."""
    return re.sub(rb"[0-9]+", b"x", re.sub(rb"\[&R\]|[ \t\r\n]", b"", text))
