"""Reference for the plot call, written from ticket 13 of document 02.

    plot(text, rows, columns)   Plot(rows, columns, exact), where so many cells
                                are lent for rows and for columns

A call that refuses returns a Refusal, as those of reference.py do.
`plots_sheet(text)` is what plots.c prints for this standard input.

How nodes are placed.  Nothing walks down a tree.  The canonical text is read token
by token: a bracket that opens, or a label, begins a node, and the brackets that are
open before it are its column.  The labels are the leaves, in the rows 0, 1, 2 and
on.  From the last node to the first, a fork takes the two rows that came last, as
the doubles of Python, which are those of the machine.

How exact rows are found.  A leaf that is d columns further than a fork counts in
the fork's row 1 over 2 ** d of its own row.  So the exact row of a fork is the sum
of this over the leaves below, as a fraction: no sum of two rows is halved, and no
fork's row is looked at for another.  A fork's leaves stand behind it until the
first node whose column is not further.

Each row that is given is looked at in fractions first: it is within 2 ** -42 of
the exact one, and that is a whole number over 2 ** 63.
"""

import fractions
import functools
import itertools
import re
import struct
from typing import NamedTuple

from reference import Refusal, Refused, canonical_text, read_one, refuse_long_text, returns_refusal

NODES = 127
TOO_SHORT = 7
TOLERANCE = fractions.Fraction(1, 2 ** 42)
SCALE = 2 ** 63

CACHED = 1024

TOKEN = re.compile(rb"[(),;]|[0-9]+")


class Plot(NamedTuple):
    """For each node in the order of the canonical text: the row as a double, the
    column, and the exact row as a fraction."""

    rows: list
    columns: list
    exact: list


class Node(NamedTuple):
    """Whether a node is a leaf, and its column."""

    is_leaf: bool
    column: int


def nodes_in(text):
    """The nodes of a canonical text, in the order in which they begin."""
    nodes, brackets = [], 0
    for token in TOKEN.findall(text):
        if token == b"(" or token.isdigit():
            nodes.append(Node(token != b"(", brackets))
        brackets += {b"(": 1, b")": -1}.get(token, 0)
    return nodes


def halfway(one, other):
    """The row of a fork between these two: one sum and one product."""
    return (one + other) * 0.5


def rows_of(nodes):
    """The row of each node, as a double."""
    rows, waiting = [], []
    leaves = sum(node.is_leaf for node in nodes)
    for node in reversed(nodes):
        if node.is_leaf:
            leaves -= 1
            waiting.append(float(leaves))
        else:
            first, second = waiting.pop(), waiting.pop()
            waiting.append(halfway(first, second))
        rows.append(waiting[-1])
    return rows[::-1]


def columns_of(nodes):
    """The column of each node."""
    return [node.column for node in nodes]


def exact_rows_of(nodes):
    """The exact row of each node, as a fraction."""
    return [exact_row(nodes, place) for place in range(len(nodes))]


def exact_row(nodes, place):
    """The exact row of the node at a place."""
    row = sum(node.is_leaf for node in nodes[:place])
    if nodes[place].is_leaf:
        return fractions.Fraction(row)
    # In whole numbers over a power of two that no leaf is too deep for.
    total, column, deepest = 0, nodes[place].column, max(columns_of(nodes))
    for node in itertools.takewhile(lambda node: node.column > column, nodes[place + 1:]):
        if node.is_leaf:
            total += row * 2 ** (deepest - (node.column - column))
            row += 1
    return fractions.Fraction(total, 2 ** deepest)


def is_within(row, exact):
    """Whether a double is as near to the exact row as it has to be."""
    return abs(fractions.Fraction(row) - exact) <= TOLERANCE


@functools.lru_cache(CACHED)
def placed(text):
    """The Plot of a canonical text."""
    nodes = nodes_in(text)
    answer = Plot(rows_of(nodes), columns_of(nodes), exact_rows_of(nodes))
    for row, exact in zip(answer.rows, answer.exact):
        if not is_within(row, exact) or (exact * SCALE).denominator != 1:
            raise AssertionError("row %r of %r is not near enough to %r" % (row, text, exact))
    return answer


def refuse_short(rows, columns):
    """Refusal 7, tried before anything is looked at."""
    if rows < NODES or columns < NODES:
        raise Refused(TOO_SHORT, 0, 0)


@returns_refusal
def plot(text, rows=NODES, columns=NODES):
    """The rows and the columns of a text with exactly one tree, a rooted one."""
    refuse_short(rows, columns)
    refuse_long_text(text, 0)
    tree, _ = read_one(text, 0, rooted_only=True)
    return placed(canonical_text(tree))


# The sheet


def bits(row):
    """The bits of a double, as a number."""
    (number,) = struct.unpack("<Q", struct.pack("<d", row))
    return number


def plot_calls(text):
    """Yield the name and the arguments of each call that plots.c is asked for:
    the text, and how many rows and columns are lent."""
    place = 0
    while place < len(text):
        end = text.index(b"\n", place)
        name, *words = text[place:end].split()
        rows, columns, length = map(int, words)
        place = end + 1
        yield name, [text[place:place + length], rows, columns]
        place += length + 1


def plot_line(answer):
    """The line of one call, without its LF."""
    if isinstance(answer, Refusal):
        return b"refused %d in %d at %d" % answer
    words = [b"%016x:%d" % (bits(row), column) for row, column in zip(answer.rows, answer.columns)]
    return b" ".join([b"plot", b"%d" % len(words)] + words)


def plots_sheet(text):
    """What plots.c prints for this standard input: a line for each call."""
    return b"".join(plot_line(plot(*arguments)) + b"\n" for _, arguments in plot_calls(text))
