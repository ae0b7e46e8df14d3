"""Reference for the number of forests that the pair test compares, written from
ticket 12 of document 02.

    pair(text0, text1)            Pair(apart, forests)
    row_pair(numbers0, numbers1)  the same of the trees of two rows

A call that refuses returns a Refusal, as those of reference.py do.
`bound_sheet(text)` is what bounds.c prints for this standard input.

How trees are held.  Texts and rows are read by reference.py, and of a rooted tree
only the set of its clades is kept, a frozenset of frozensets of labels.  The order
of the cuts, their forests and the number are worked out from that set, and no tree
is walked.

How cuts stand in order.  Of two nodes the one above begins first in the canonical
text.  Of two others, those above them are the same down to a fork, and the child of
that fork with the smaller label comes first.  So each clade has a list: the smallest
labels of the clades that hold it, the largest clade's first and its own last.  The
lists in order are the clades in order.

How forests are compared.  A forest is two sets of clades: what the remainder has,
which are the clades of the tree that are not inside the pruned one, each without the
pruned labels; and what the pruned subtree has, which are the clades inside of it.
The remainder is the first of the two.

Unrooted trees.  Their number is 0, and their yes or no is that of reference.py.
"""

import functools
from typing import NamedTuple

import reference
from reference import (
    OTHER_KIND, OTHER_LABELS, Refusal, Refused, given_row, one_move_apart, read_one, refuse_long_text, returns_refusal,
)

CACHED = 2048


class Pair(NamedTuple):
    """Whether two trees are one move apart, and the number of forests."""

    apart: bool
    forests: int


# Cuts and forests of a set of clades


def place_in_text(clade, clades):
    """What a clade's place in the canonical text is told by."""
    above = sorted((other for other in clades if clade <= other), key=len, reverse=True)
    return [min(other) for other in above]


def pruned_by_cuts(clades):
    """The clades that the cuts prune, in order; the root's is the first of all."""
    return sorted(clades, key=lambda clade: place_in_text(clade, clades))[1:]


def forest(clades, pruned):
    """The two sets of clades that a cut leaves."""
    inside = frozenset(clade for clade in clades if clade <= pruned)
    return frozenset(clade - pruned for clade in clades - inside), inside


@functools.lru_cache(CACHED)
def cuts(clades):
    """The pruned clade and the forest of each cut, in order."""
    return [(pruned, forest(clades, pruned)) for pruned in pruned_by_cuts(clades)]


# The pair test


def below_the_root(clades):
    """The clades of all nodes but the root."""
    return clades - {max(clades, key=len)}


def shared_forests(clades, others):
    """For each cut of the first tree, in order, the pruned clade and whether the
    second tree shares the forest."""
    forests = {made for _, made in cuts(others)}
    return [(pruned, made in forests) for pruned, made in cuts(clades)]


def compared(clades, others):
    """The pair test on two sets of clades, those of rooted trees."""
    if clades == others:
        return Pair(False, 0)
    candidates = below_the_root(others)
    number = 0
    for pruned, shared in shared_forests(clades, others):
        number += pruned in candidates
        if shared:
            return Pair(True, number)
    return Pair(False, number)


def tested(first, second):
    """The pair test on two trees of one kind."""
    if first.unrooted:
        return Pair(one_move_apart(first, second), 0)
    return compared(first.clades, second.clades)


# The calls


@returns_refusal
def pair(text0, text1):
    """The pair test on two texts."""
    refuse_long_text(text0, 0)
    refuse_long_text(text1, 1)
    first, _ = read_one(text0, 0)
    second, semicolon = read_one(text1, 1)
    if first.unrooted != second.unrooted:
        raise Refused(OTHER_KIND, 1, semicolon)
    if first.labels != second.labels:
        raise Refused(OTHER_LABELS, 1, semicolon)
    return tested(first, second)


@returns_refusal
def row_pair(numbers0, numbers1):
    """The pair test on two rows."""
    first, second = given_row(numbers0, 0), given_row(numbers1, 1)
    if first.labels != second.labels:
        raise Refused(OTHER_LABELS, 1, 0)
    return tested(first, second)


# The sheet


def bound_calls(text):
    """Yield the name and the arguments of each call that bounds.c is asked for.

    They are `texts LENGTH LENGTH`, then each in a line of its own two texts of so
    many bytes, or `rows` and two rows.  Before the numbers of a row stands how many
    they are.
    """
    place = 0
    while place < len(text):
        end = text.index(b"\n", place)
        name, *words = text[place:end].split()
        place = end + 1
        if name == b"rows":
            yield name, reference.rows_in([int(word) for word in words])
            continue
        arguments = []
        for word in words:
            end = place + int(word)
            arguments.append(text[place:end])
            place = end + 1
        yield name, arguments


def bound_line(name, arguments):
    """The line of one of these calls, without its LF."""
    answer = (row_pair if name == b"rows" else pair)(*arguments)
    if isinstance(answer, Refusal):
        return b"refused %d in %d at %d" % answer
    return b"%s %d" % (b"yes" if answer.apart else b"no", answer.forests)


def bound_sheet(text):
    """What bounds.c prints for this standard input: a line for each call."""
    return b"".join(bound_line(name, arguments) + b"\n" for name, arguments in bound_calls(text))
