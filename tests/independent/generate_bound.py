#!/usr/bin/env python3
"""Test inputs for the program of bounds.

    generate_bound.py SEED COUNT OUTDIR

writes COUNT files into OUTDIR, each one standard input for the program of
bounds.c: pair tests of one kind, up to some thousands.  Seeds, positions and file
names are as in generate.py.

The first cases are the fixed ones.  They have every two trees of up to five leaves,
also each with itself and in both orders, as texts and as rows; every two unrooted
trees of up to five leaves; the samples of document 01; trees of 64 leaves, among
them those with the largest numbers; and refused texts and rows.  All others are drawn
at random: unrelated trees, trees one move and two moves apart, near copies and combs,
of up to 64 leaves; unrooted trees; other labels, two kinds, and damaged texts and
rows.  Random trees are given as texts and as rows, in both orders, with their
children in any order.
"""

import argparse
import itertools
import random
import sys

import generate
import generate_rows
from generate import ALL_LABELS, ROOTED, UNROOTED
from generate_rows import counted, in_cases, repeated, row

# Scattered labels that stand in another order as texts.
SCATTERED = (9, 64, 10, 2, 33)

# Pairs of document 01, two of five leaves with a clade in common, and equal trees.
SAMPLES = (
    (b"(((1,2),3),4);", b"((1,2),(3,4));"),
    (b"(((1,2),3),4);", b"(((3,4),1),2);"),
    (b"((((4,5),1),2),3);", b"((((1,2),3),4),5);"),
    (b"(((1,2),3),4);", b"(((1,4),2),3);"),
    (b"((((1,2),3),4),5);", b"((((1,2),5),3),4);"),
    (b"((((1,2),3),4),5);", b"(((1,2),(4,5)),3);"),
    (b"((1,2),3);", b"(3,(2,1));"),
    (b"(10,2);", b"[&R] ( 02 , 10 ) ;"),
    (b"1;", b" 1 ;"),
    (b"[&U](1,2,(3,4));", b"[&U](1,(2,3),4);"),
    (b"[&U](1,2,(3,4));", b"[&U]((1,2),3,4);"),
    (b"[&U](1,2,(3,(4,5)));", b"[&U](1,4,(3,(2,5)));"),
)


# Calls


def texts_call(text, other):
    """The pair test on two texts."""
    return b"texts %d %d\n%s\n%s\n" % (len(text), len(other), text, other)


def rows_call(numbers, others):
    """The pair test on two rows."""
    return b"rows" + counted(numbers) + counted(others) + b"\n"


def both_orders(call, one, other):
    """The test of two things, and that of the second and the first."""
    return call(one, other) + call(other, one)


def tree_text(rng, tree):
    """The text of a tree of either kind, with its children in any order."""
    return generate_rows.one_text(rng, generate.swapped(rng, tree))


def tests_of(rng, tree, other):
    """The tests of two rooted trees."""
    texts = [tree_text(rng, made) for made in (tree, other)]
    return both_orders(texts_call, *texts) + both_orders(rows_call, row(tree), row(other))


# Two random trees on the same labels


def small_size(rng):
    """3 to 12 leaves."""
    return rng.randint(3, 12)


def large_size(rng):
    """13 to 64 leaves, often the most."""
    return rng.choice((rng.randint(13, 64), rng.randint(33, 63), 64))


def unrelated(rng, size):
    """Two trees, each drawn by itself."""
    labels = generate.random_labels(rng, size)
    return [generate.random_tree(rng, labels) for _ in range(2)]


def random_one(rng, size):
    """One random tree."""
    return generate.random_tree(rng, generate.random_labels(rng, size))


def one_move(rng, size):
    """A tree, and one that a move makes from it."""
    tree = random_one(rng, size)
    return tree, generate.changing_move(rng, tree)


def far_move(rng, size):
    """A tree, and the same with one leaf hung elsewhere that comes late in the
    text, so that many cuts are gone through."""
    labels = sorted(generate.random_labels(rng, size))
    tree = generate.joined_at_random(rng, labels[:-1]) if rng.random() < 0.5 else generate.comb(rng, labels[:-1])
    return [
        generate.replaced(tree, path, (generate.subtree(tree, path), labels[-1]))
        for path in rng.sample(generate.paths(tree), 2)
    ]


def moves_on(rng, size):
    """A tree, and one that two or three moves make from it."""
    tree = other = random_one(rng, size)
    for _ in range(rng.choice((2, 3))):
        other = generate.random_move(rng, other)
    return tree, other


def near_copies(rng, size):
    """A tree, and one that up to two interchanges make from it."""
    tree = other = random_one(rng, size)
    for _ in range(rng.choice((0, 1, 1, 2, 2))):
        other = generate.random_interchange(rng, other)
    return tree, other


def combs(rng, size):
    """Two combs: unrelated, or with one leaf or two at other places."""
    labels = generate.random_labels(rng, size)
    rng.shuffle(labels)
    others = list(labels)
    way = rng.randrange(3)
    if way == 0:
        rng.shuffle(others)
    for _ in range(way):
        others.insert(rng.randrange(size), others.pop(rng.randrange(size)))
    return generate.comb(rng, labels), generate.comb(rng, others)


def pairs_of(make, size):
    """The maker of the tests of two trees of a size."""
    return lambda rng: tests_of(rng, *make(rng, size(rng)))


# Unrooted trees, and refusals


def unrooted_tests(rng):
    """Two unrooted trees of up to 12 leaves, none to two moves apart or
    unrelated."""
    labels = generate.random_labels(rng, rng.randint(1, 12))
    tree = other = UNROOTED.grow(rng, labels)
    for _ in range(rng.choice((0, 1, 1, 2))):
        other = generate.random_move(rng, other)
    if rng.random() < 0.3:
        other = UNROOTED.grow(rng, labels)
    return both_orders(texts_call, *(tree_text(rng, made) for made in (tree, other)))


def other_labels_tests(rng):
    """Two trees of one kind on different label sets."""
    labels = generate.random_labels(rng, rng.randint(1, 40))
    others = generate.other_label_set(rng, labels)
    while not others:
        others = generate.other_label_set(rng, labels)
    if rng.random() < 0.3:
        return both_orders(texts_call, *(tree_text(rng, UNROOTED.grow(rng, chosen)) for chosen in (labels, others)))
    return tests_of(rng, *(generate.random_tree(rng, chosen) for chosen in (labels, others)))


def two_kinds_tests(rng):
    """A rooted tree and an unrooted one, at times on different label sets."""
    labels = generate.random_labels(rng, rng.randint(1, 20))
    others = labels if rng.random() < 0.7 else generate.random_labels(rng, rng.randint(1, 20))
    trees = ROOTED.grow(rng, labels), UNROOTED.grow(rng, others)
    return both_orders(texts_call, *(tree_text(rng, tree) for tree in trees))


def damaged_text_tests(rng):
    """A damaged text beside a whole one or a damaged one."""
    other = generate_rows.damaged_text(rng)
    if rng.random() < 0.8:
        other = tree_text(rng, generate_rows.random_tree(rng))
    return both_orders(texts_call, generate_rows.damaged_text(rng), other)


def damaged_row_tests(rng):
    """A damaged row beside a whole one or a damaged one."""
    trees = near_copies(rng, rng.choice((3, 4, 5, 6, 12, 64)))
    rows = list(map(row, trees))
    for place in rng.choice(((0,), (1,), (0, 1))):
        rows[place] = generate_rows.damaged(rng, rows[place])
    return both_orders(rows_call, *rows)


# Kind, share among the random cases, how often a case has what is made, maker of
# some tests.
KINDS = (
    ("unrelated", 4, 12, pairs_of(unrelated, small_size)),
    ("one-move", 6, 12, pairs_of(one_move, small_size)),
    ("far-move", 4, 12, pairs_of(far_move, small_size)),
    ("moves", 4, 12, pairs_of(moves_on, small_size)),
    ("near-copies", 4, 12, pairs_of(near_copies, small_size)),
    ("combs", 4, 12, pairs_of(combs, small_size)),
    ("large-unrelated", 2, 4, pairs_of(unrelated, large_size)),
    ("large-one-move", 4, 4, pairs_of(one_move, large_size)),
    ("large-far-move", 4, 4, pairs_of(far_move, large_size)),
    ("large-moves", 2, 4, pairs_of(moves_on, large_size)),
    ("large-near-copies", 3, 4, pairs_of(near_copies, large_size)),
    ("large-combs", 3, 4, pairs_of(combs, large_size)),
    ("unrooted", 3, 12, unrooted_tests),
    ("other-labels", 2, 12, other_labels_tests),
    ("two-kinds", 2, 12, two_kinds_tests),
    ("damaged-text", 4, 20, damaged_text_tests),
    ("damaged-row", 4, 20, damaged_row_tests),
)

CASE_KINDS = tuple((kind, share, repeated(times, make)) for kind, share, times, make in KINDS)


# Fixed cases


def every_two(trees):
    """Every two of some trees, also each with itself, in both orders."""
    return list(itertools.product(trees, repeat=2))


def small_pairs():
    """Every two trees of up to five leaves, on consecutive labels."""
    return [two for size in range(1, 6) for two in every_two(generate.all_trees(ALL_LABELS[:size]))]


def scattered_pairs():
    """Every two trees of up to four leaves, and some of five, on scattered
    labels."""
    pairs = [two for size in range(1, 5) for two in every_two(generate.all_trees(SCATTERED[:size]))]
    return pairs + every_two(generate.all_trees(SCATTERED)[::4])


def small_unrooted_pairs():
    """Every two unrooted trees of up to five leaves."""
    return [two for size in range(1, 6) for two in every_two(generate.all_unrooted_trees(ALL_LABELS[:size]))]


def late_leaf(leaves, below):
    """A left comb, and the same with its last leaf hung above so many of the
    others: only the last cut of the comb leaves a forest that both have."""
    labels = ALL_LABELS[:leaves]
    moved = labels[:below] + labels[-1:] + labels[below:-1]
    return generate.left_comb(labels), generate.left_comb(moved)


def limit_trees():
    """Trees of 64 leaves: combs in several orders, and others near them."""
    rng = random.Random("fixed bounds")
    joined = generate.joined_at_random(rng, ALL_LABELS)
    trees = [generate.left_comb(ALL_LABELS), generate.left_comb(ALL_LABELS[::-1])]
    trees += [late_leaf(64, below)[1] for below in (2, 32, 61, 62)]
    return trees + [joined, generate.random_interchange(rng, joined), generate.changing_move(rng, joined)]


def refused_text_calls():
    """Each refused text as the one and as the other, and which goes first."""
    texts = generate_rows.refused_texts()
    wholes = (b"(2,1);", b"[&U](1,2);", b"7;")
    calls = [both_orders(texts_call, text, whole) for text in texts for whole in wholes]
    wrong = (b"x", b"1;x", b"(1,65);", b"(1,1);", b"2;", b"[&U]1;", b"[&U]2;", b"[&U]1;x", b"1;", b" " * 65536)
    return calls + list(itertools.starmap(texts_call, every_two(wrong)))


def fixed_cases():
    """All fixed cases as (kind, text)."""
    rng = random.Random("fixed orders")
    small, limits = small_pairs(), every_two(limit_trees())
    written = [[tree_text(rng, tree) for tree in two] for two in small + scattered_pairs() + small_unrooted_pairs()]
    plain = [[generate.plain([tree]) for tree in two] for two in limits]
    as_rows = [list(map(row, two)) for two in small + scattered_pairs() + limits]
    return (
        in_cases("samples", [both_orders(texts_call, *two) for two in SAMPLES])
        + in_cases("small-texts", itertools.starmap(texts_call, written))
        + in_cases("limit-texts", itertools.starmap(texts_call, plain))
        + in_cases("rows", itertools.starmap(rows_call, as_rows))
        + in_cases("refused-texts", refused_text_calls())
        + in_cases("refused-rows", [rows_call(*rows) for rows in generate_rows.refused_pairs()])
    )


def cases(seed, count):
    """Yield (position, kind, text) for the positions below `count`."""
    return generate.cases_of(fixed_cases(), CASE_KINDS, seed, count)


def main(arguments):
    """Write the case files."""
    parser = argparse.ArgumentParser(description="Write test inputs for the program of bounds into files.")
    parser.add_argument("seed", type=int)
    parser.add_argument("count", type=int)
    parser.add_argument("directory", metavar="outdir")
    options = parser.parse_args(arguments)
    generate.write_cases(cases(options.seed, options.count), options.directory)


if __name__ == "__main__":
    main(sys.argv[1:])
