#!/usr/bin/env python3
"""Test inputs for the program of plots.

    generate_plots.py SEED COUNT OUTDIR

writes COUNT files into OUTDIR, each one standard input for the program of
plots.c: up to some hundred calls.  Seeds, positions and file names are as in
generate.py.

The first cases are the fixed ones: all trees of up to six leaves, as they are
grown and with children swapped at every fork; combs of every size, with labels
ascending, descending and from both ends; trees of 64 leaves of other shapes; a text
for each way a refusal can come about; and each number of lent cells about 127, for
texts that are accepted and that are refused.  All others are drawn at random:
trees of up to 64 leaves, combs of combs of 64 leaves among them, whose rows are
rounded at many forks, unrooted trees, damaged texts, and slices of many lengths.
"""

import argparse
import itertools
import random
import sys

import generate
import generate_rows
from generate import ALL_LABELS

NODES = 127
LENGTHS = (0, 1, 63, 64, 125, 126, 127, 128, 129, 254, 1024)
CALLS_IN_A_CASE = 512


def plot_call(text, rows=NODES, columns=NODES):
    """The plot of a text, with so many cells lent."""
    return b"plot %d %d %d\n%s\n" % (rows, columns, len(text), text)


# Trees


def halved(labels):
    """A tree of least depth."""
    if len(labels) == 1:
        return labels[0]
    middle = len(labels) // 2
    return (halved(labels[:middle]), halved(labels[middle:]))


def turning_comb(labels):
    """A comb whose leaves stand on the left and on the right by turns."""
    tree = labels[0]
    for place, label in enumerate(labels[1:]):
        tree = (tree, label) if place % 2 else (label, tree)
    return tree


def from_both_ends(labels):
    """The labels in the order first, last, second, last but one and on."""
    middle = (len(labels) + 1) // 2
    pairs = itertools.zip_longest(labels[:middle], reversed(labels[middle:]))
    return [label for pair in pairs for label in pair if label is not None]


def combs(labels):
    """Combs of each direction and order of labels."""
    orders = (list(labels), list(labels)[::-1], from_both_ends(labels), from_both_ends(labels)[::-1])
    return [make(order) for make in (generate.left_comb, generate.right_comb, turning_comb) for order in orders]


def comb_of_parts(rng, labels):
    """A comb of random trees in place of leaves, which is deep and has rows that
    are rounded at many forks."""
    labels = rng.sample(labels, len(labels))
    parts = []
    while labels:
        size = rng.choice((1, 1, 1, 1, 1, 1, 2, 3, 5))
        part, labels = labels[:size], labels[size:]
        parts.append(generate.random_tree(rng, part))
    return generate.comb(rng, parts)


def deep_tree(rng):
    """A deep tree of 48 to 64 leaves, mostly of 64."""
    labels = generate.random_labels(rng, rng.choice((64, 64, 64, rng.randint(48, 63))))
    # With the smallest labels lowest the leaves below a fork come first in its text.
    way = rng.randrange(4)
    if way == 0:
        return generate.left_comb(sorted(labels))
    if way == 1:
        return generate.comb(rng, sorted(labels, reverse=rng.random() < 0.5))
    if way == 2:
        return generate.comb(rng, rng.sample(labels, len(labels)))
    return comb_of_parts(rng, labels)


# Kinds of random calls


def random_call(rng):
    """A text of a rooted tree, with enough lent, at times with more."""
    lent = rng.choice(((NODES, NODES), (NODES, NODES), (NODES, 1024), (1024, NODES), (128, 200)))
    return plot_call(generate_rows.tree_text(rng), *lent)


def deep_call(rng):
    """A deep tree in any layout and any order of children."""
    return plot_call(generate_rows.one_text(rng, generate.swapped(rng, deep_tree(rng))))


def unrooted_call(rng):
    """An unrooted tree, at times with a fault behind it."""
    return plot_call(generate_rows.unrooted_text(rng))


def damaged_call(rng):
    """A text that is damaged in some way."""
    return plot_call(generate_rows.damaged_text(rng))


def lent_call(rng):
    """Slices of any lengths, of which some are too short, for any text."""
    make = rng.choice((generate_rows.tree_text, generate_rows.unrooted_text, generate_rows.damaged_text))
    lengths = [rng.choice(LENGTHS + (NODES,) * 4 + (rng.randrange(NODES),)) for _ in range(2)]
    return plot_call(make(rng), *lengths)


def several(make, count):
    """A case of so many of these calls."""
    return lambda rng: b"".join(make(rng) for _ in range(count))


# Kind, share among the random cases, maker.
CASE_KINDS = (
    ("plots", 6, several(random_call, 20)),
    ("deep", 5, several(deep_call, 8)),
    ("unrooted", 1, several(unrooted_call, 12)),
    ("damaged", 3, several(damaged_call, 12)),
    ("lent", 2, several(lent_call, 20)),
)


# Fixed cases


def in_cases(kind, calls):
    """The calls as (kind, text), so many in each that a run is short."""
    calls = list(calls)
    starts = range(0, len(calls), CALLS_IN_A_CASE)
    return [(kind, b"".join(calls[start:start + CALLS_IN_A_CASE])) for start in starts]


def small_trees():
    """All trees of up to six leaves, as they are grown and mirrored; some on labels
    of two digits and in another order."""
    trees = [tree for size in range(1, 7) for tree in generate.all_trees(list(range(1, size + 1)))]
    trees += [tree for tree in generate.all_trees([10, 9, 64, 1]) + generate.all_trees([33, 7, 2])]
    return trees + [generate.mirrored(tree) for tree in trees]


def all_combs():
    """Combs of one to 64 leaves, the last labels of 64 among them."""
    sets = [ALL_LABELS[:size] for size in range(1, 65)] + [ALL_LABELS[-size:] for size in (1, 2, 3, 33, 63)]
    return [tree for labels in sets for tree in combs(labels)]


def large_trees():
    """Trees of 64 leaves that are no combs, and of 63."""
    rng = random.Random("fixed plots")
    trees = [halved(ALL_LABELS), halved(ALL_LABELS[::-1]), halved(from_both_ends(ALL_LABELS)), halved(ALL_LABELS[1:])]
    trees += [generate.joined_at_random(rng, ALL_LABELS) for _ in range(8)]
    trees += [comb_of_parts(rng, ALL_LABELS) for _ in range(24)]
    # A comb beside a comb, and one on top of a tree of least depth.
    trees += [(generate.left_comb(ALL_LABELS[:32]), generate.right_comb(ALL_LABELS[32:]))]
    trees += [generate.left_comb([halved(ALL_LABELS[:16])] + list(ALL_LABELS[16:]))]
    return trees


def lent_calls():
    """Each two lengths for a text that is accepted, of few nodes and of many, and
    for one of each refusal."""
    texts = (
        b"(2,1);", generate.plain([generate.left_comb(ALL_LABELS)]), b"(1,1);", b"", b"[&U]7;", b"(1,65);", b"(" * 64,
        b" " * 65536,
    )
    some = (0, 3, 126, 127, 128)
    every = [plot_call(text, *lengths) for text in texts for lengths in itertools.product(some, repeat=2)]
    long = [plot_call(texts[1], *lengths) for lengths in itertools.product(LENGTHS, repeat=2)]
    return every + long


def fixed_cases():
    """All fixed cases as (kind, text)."""
    return (
        in_cases("small-trees", [plot_call(generate.plain([tree])) for tree in small_trees()])
        + in_cases("combs", [plot_call(generate.plain([tree])) for tree in all_combs()])
        + in_cases("large", [plot_call(generate.plain([tree])) for tree in large_trees()])
        + in_cases("texts", map(plot_call, generate_rows.refused_texts()))
        + in_cases("lent", lent_calls())
    )


def cases(seed, count):
    """Yield (position, kind, text) for the positions below `count`."""
    return generate.cases_of(fixed_cases(), CASE_KINDS, seed, count)


def main(arguments):
    """Write the case files."""
    parser = argparse.ArgumentParser(description="Write test inputs for the program of plots into files.")
    parser.add_argument("seed", type=int)
    parser.add_argument("count", type=int)
    parser.add_argument("directory", metavar="outdir")
    options = parser.parse_args(arguments)
    generate.write_cases(cases(options.seed, options.count), options.directory)


if __name__ == "__main__":
    main(sys.argv[1:])
