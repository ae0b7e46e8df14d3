#!/usr/bin/env python3
"""Benchmark inputs for the pair lister, the support call, the row calls and the
index calls.

    inputs.py OUTDIR

writes one file for each input into OUTDIR.  Every file is a table that the
pair lister accepts: one tree to a line, children in random order.  The seeds
are fixed, so the files are the same each time.

Full tables, 160 trees of 64 leaves:

    unrelated    random topologies
    chain        each tree one random move from the one before
    near_copies  a few topologies, each many times with children swapped,
                 some of them one move apart
    combs        every fork has a leaf as a child; each tree is one, two or
                 three moves of a leaf from the one before
    copies       one topology, with children swapped
    interchange_chain  each tree one random interchange from the one before
    mixed_chains  a few chains of random moves, each from a random tree, in
                 random order
    one_forest   one leaf hung on each node of one tree: all topologies are
                 neighbours of each other.  There are 125, and the first of
                 them come once more

Unrooted ones: `unrooted_unrelated` and so on for the first four, `copies` and
`one_forest`, the same trees in the same order without their roots, each with its
top at a random node.

For the support call some of the rooted ones, and one more of the same size:

    most_clades  no two trees share a clade but the whole label set, so that
                 there are as many clades as a table can have

For the row calls the first 40 trees of some of the rooted ones: `unrelated_40x64`
and so on.  For the index calls `unrelated`, `chain` and `copies`.

Without copies: `distinct_of_near_copies`, the first tree of each topology of
`near_copies`.

Growth, for `unrelated` and `chain`: the first 20, 40 and 80 trees of the full
table, and 160 trees of 8, 16 and 32 leaves.  The full tables are the last step
of both.

Trees are nested tuples: a leaf is its label, a fork is (first, second).  A
node is named by its path from the root, a tuple of 0 and 1.
"""

import os
import random
import sys

MOST_BYTES = 65535
TREES = 160
LEAVES = 64
FEWER_TREES = (20, 40, 80)
FEWER_LEAVES = (8, 16, 32)
ROW_TREES = 40

NEAR_COPIES_BASES = 2
NEAR_COPIES_NEIGHBOURS = 3

MIXED_CHAINS = 8


# Trees


def paths(tree):
    """All nodes' paths, the root's empty one first."""
    if not isinstance(tree, tuple):
        return [()]
    return [()] + [(side,) + path for side in (0, 1) for path in paths(tree[side])]


def subtree(tree, path):
    """The subtree at a path."""
    for side in path:
        tree = tree[side]
    return tree


def replaced(tree, path, new):
    """The tree with the subtree at a path replaced by a new one."""
    if not path:
        return new
    grown = replaced(tree[path[0]], path[1:], new)
    return (grown, tree[1]) if path[0] == 0 else (tree[0], grown)


def topology(tree):
    """A value that is equal exactly for equal topologies."""
    if not isinstance(tree, tuple):
        return tree
    return frozenset((topology(tree[0]), topology(tree[1])))


def labels(tree):
    """The set of labels of a tree."""
    if not isinstance(tree, tuple):
        return frozenset((tree,))
    return labels(tree[0]) | labels(tree[1])


def clades(tree):
    """The label sets of all forks but the root."""
    below = (subtree(tree, path) for path in paths(tree)[1:])
    return {labels(node) for node in below if isinstance(node, tuple)}


def random_tree(rng, leaves):
    """Each further leaf hangs on a random edge or above the root, which makes
    all topologies equally likely."""
    tree = 1
    for label in range(2, leaves + 1):
        path = rng.choice(paths(tree))
        tree = replaced(tree, path, (subtree(tree, path), label))
    return tree


def moved(rng, tree):
    """The result of one random prune and regraft that changes the topology."""
    while True:
        *parent, side = rng.choice(paths(tree)[1:])
        fork = subtree(tree, parent)
        pruned, sibling = fork[side], fork[1 - side]
        remainder = replaced(tree, tuple(parent), sibling)
        target = rng.choice(paths(remainder))
        result = replaced(remainder, target, (subtree(remainder, target), pruned))
        if topology(result) != topology(tree):
            return result


def interchanged(rng, tree):
    """The result of one random interchange: a node goes above its aunt."""
    *above, side, under = rng.choice([path for path in paths(tree) if len(path) > 1])
    place = tuple(above)
    fork = subtree(tree, place)
    parent, aunt = fork[side], fork[1 - side]
    return replaced(tree, place, (parent[1 - under], (parent[under], aunt)))


def comb(labels):
    """The comb with these labels from the root downwards."""
    tree = labels[-1]
    for label in reversed(labels[:-1]):
        tree = (label, tree)
    return tree


def leaf_moved(rng, labels):
    """A comb's labels after one leaf moved, the topology changed by it."""
    while True:
        result = list(labels)
        label = result.pop(rng.randrange(len(result)))
        result.insert(rng.randrange(len(result) + 1), label)
        if topology(comb(result)) != topology(comb(labels)):
            return result


def swapped(rng, tree):
    """The same topology with children swapped at random forks."""
    if not isinstance(tree, tuple):
        return tree
    first, second = swapped(rng, tree[0]), swapped(rng, tree[1])
    return (first, second) if rng.random() < 0.5 else (second, first)


def turned(rng, tree):
    """The same tree without its root, with a root on a random edge instead."""
    side, *rest = rng.choice(paths(tree)[1:])
    node, above = tree[side], tree[1 - side]
    for side in rest:
        node, above = node[side], (above, node[1 - side])
    return node, above


# Tables


def unrelated(rng, leaves):
    """Random topologies."""
    return [random_tree(rng, leaves) for _ in range(TREES)]


def chain_of(rng, leaves, length):
    """So many trees, each one random move from the one before."""
    trees = [random_tree(rng, leaves)]
    while len(trees) < length:
        trees.append(moved(rng, trees[-1]))
    return trees


def chain(rng, leaves):
    """Each tree is one random move from the one before."""
    return chain_of(rng, leaves, TREES)


def mixed_chains(rng, leaves):
    """Chains from random trees, all of them equally long, in random order."""
    trees = []
    for _ in range(MIXED_CHAINS):
        trees.extend(chain_of(rng, leaves, TREES // MIXED_CHAINS))
    rng.shuffle(trees)
    return trees


def interchange_chain(rng, leaves):
    """Each tree is one random interchange from the one before."""
    trees = [random_tree(rng, leaves)]
    while len(trees) < TREES:
        trees.append(interchanged(rng, trees[-1]))
    return trees


def near_copies(rng, leaves):
    """Random trees and some neighbours of each, all of them equally often and
    in random order."""
    few = []
    for _ in range(NEAR_COPIES_BASES):
        base = random_tree(rng, leaves)
        few.append(base)
        few.extend(moved(rng, base) for _ in range(NEAR_COPIES_NEIGHBOURS))
    trees = [few[i % len(few)] for i in range(TREES)]
    rng.shuffle(trees)
    return trees


def combs(rng, leaves):
    """Each comb is one, two or three moves of a leaf from the one before."""
    labels = rng.sample(range(1, leaves + 1), leaves)
    trees = [comb(labels)]
    while len(trees) < TREES:
        for _ in range(rng.choice((1, 1, 2, 3))):
            labels = leaf_moved(rng, labels)
        trees.append(comb(labels))
    return trees


def copies(rng, leaves):
    """One topology."""
    return [random_tree(rng, leaves)] * TREES


def distinct(trees):
    """The first tree of each topology."""
    first = {}
    for tree in trees:
        first.setdefault(topology(tree), tree)
    return list(first.values())


def one_forest(rng, leaves):
    """One leaf on each node of a tree of the others, in random order, as often
    as they have room."""
    remainder = random_tree(rng, leaves - 1)
    trees = [replaced(remainder, path, (subtree(remainder, path), leaves)) for path in paths(remainder)]
    rng.shuffle(trees)
    return [trees[i % len(trees)] for i in range(TREES)]


def most_clades(rng, leaves):
    """Random trees of two combs of half the leaves each, without those that
    share a clade with one before.  There are too few sets of two labels for
    more than some in each tree, and too few without one label for a comb of all
    leaves."""
    trees = []
    met = set()
    while len(trees) < TREES:
        order = rng.sample(range(1, leaves + 1), leaves)
        tree = (comb(order[:leaves // 2]), comb(order[leaves // 2:]))
        if met.isdisjoint(clades(tree)):
            met |= clades(tree)
            trees.append(tree)
    return trees


FULL_TABLES = (unrelated, chain, near_copies, combs, copies, interchange_chain, mixed_chains, one_forest)
UNROOTED_TABLES = (unrelated, chain, near_copies, combs, copies, one_forest)
SUPPORT_TABLES = (most_clades, unrelated, near_copies, copies, combs, chain, one_forest)
ROW_TABLES = (unrelated, chain, near_copies, combs, one_forest)
INDEX_TABLES = (unrelated, chain, copies)


# Texts


def node_text(tree):
    """The text of a node as its children stand."""
    if not isinstance(tree, tuple):
        return "%d" % tree
    return "(%s,%s)" % (node_text(tree[0]), node_text(tree[1]))


def unrooted_text(tree):
    """The text of a tree of three or more leaves without its root: one node of
    the root's edge is the top."""
    one, other = tree if isinstance(tree[1], tuple) else reversed(tree)
    return "[&U](%s,%s,%s)" % (node_text(one), node_text(other[0]), node_text(other[1]))


def text_of(trees, text=node_text):
    """The text of a table, one tree to a line."""
    return "".join(text(tree) + ";\n" for tree in trees)


def table_of(make, leaves):
    """A table of 160 trees, children swapped; the seed is the kind and the
    size."""
    rng = random.Random("%s %d" % (make.__name__, leaves))
    return [swapped(rng, tree) for tree in make(rng, leaves)]


def unrooted(make, trees):
    """The name of a table of unrooted trees, and its text."""
    rng = random.Random("unrooted " + make.__name__)
    turns = [swapped(rng, turned(rng, tree)) for tree in trees]
    return unrooted_name(make.__name__), text_of(turns, unrooted_text)


def unrooted_name(name):
    """The name of the table that has the same trees without their roots."""
    return "unrooted_" + name


GROWING = (unrelated, chain)


def sized(make, trees, leaves):
    """The name of a table of this kind and size."""
    if (trees, leaves) == (TREES, LEAVES):
        return make.__name__
    return "%s_%dx%d" % (make.__name__, trees, leaves)


def growth_in_trees():
    """Yield (kind, [(number of trees, name)]) for tables of all leaves."""
    for make in GROWING:
        yield make.__name__, [(number, sized(make, number, LEAVES)) for number in FEWER_TREES + (TREES,)]


def inputs(both_kinds=True):
    """Yield (name, text) for each input, growing ones from small to large; those
    of unrooted trees if both kinds are taken."""
    full = {make: table_of(make, LEAVES) for make in FULL_TABLES}
    for make, trees in full.items():
        yield make.__name__, text_of(trees)
    for make in UNROOTED_TABLES if both_kinds else ():
        yield unrooted(make, full[make])
    yield "distinct_of_near_copies", text_of(distinct(full[near_copies]))
    for make in GROWING:
        for number in FEWER_TREES:
            yield sized(make, number, LEAVES), text_of(full[make][:number])
    for make in GROWING:
        for leaves in FEWER_LEAVES:
            yield sized(make, TREES, leaves), text_of(table_of(make, leaves))


def support_inputs():
    """Yield (name, text) for each input of the support call."""
    for make in SUPPORT_TABLES:
        yield make.__name__, text_of(table_of(make, LEAVES))


def row_inputs():
    """Yield (name, text) for each input of the row calls."""
    for make in ROW_TABLES:
        yield sized(make, ROW_TREES, LEAVES), text_of(table_of(make, LEAVES)[:ROW_TREES])


def index_inputs():
    """Yield (name, text) for each input of the index calls."""
    for make in INDEX_TABLES:
        yield make.__name__, text_of(table_of(make, LEAVES))


def write_inputs(directory, named):
    """Write inputs.  Gives (name, path) for each, in order."""
    os.makedirs(directory, exist_ok=True)
    written = []
    for name, text in named:
        if len(text) > MOST_BYTES:
            raise ValueError("%s is too long: %d bytes" % (name, len(text)))
        path = os.path.join(directory, name + ".txt")
        with open(path, "wb") as file:
            file.write(text.encode("ascii"))
        written.append((name, path))
    return written


def main(arguments):
    """Write the files; gives the exit status."""
    if len(arguments) != 1:
        print("usage: inputs.py OUTDIR", file=sys.stderr)
        return 2
    write_inputs(arguments[0], inputs())
    write_inputs(arguments[0], support_inputs())
    write_inputs(arguments[0], row_inputs())
    return 0


if __name__ == "__main__":
    sys.exit(main(sys.argv[1:]))
