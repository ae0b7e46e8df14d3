#!/usr/bin/env python3
"""Test inputs for the pair lister, and for the programs of interchanges, of
islands and of support.

    generate.py [--rooted | --support] SEED COUNT OUTDIR

writes COUNT files into OUTDIR, each one standard input for these programs.
The same seed gives the same files, and a case depends on the seed and its own
position only, so a larger COUNT keeps the earlier cases.  A file name holds
the position and the kind of the case: `00017-one-move-apart.txt`.

The first cases are the fixed ones (the same for every seed): the samples of
document 01, all rooted trees of up to five leaves and unrooted ones of up to
six, copies in different places, the limits and their neighbours, and a text for
each way a refusal can come about.  All others are drawn at random.  With
--rooted few of these are unrooted, for the programs that take rooted trees only.
With --support, for one of these programs, there are further fixed cases and
further kinds, among them full tables of the largest trees, on which the moves of
all trees would take too long.

Trees are nested tuples here: a leaf is its label, a fork is (first, second).
A node is named by its path from the root, a tuple of 0 and 1.  An unrooted tree
is an Unrooted, which holds such tuples as the tree is written; for a move it is
a set of edges.  Nothing is taken over from reference.py, so that moves made here
also test the moves listed there.
"""

import argparse
import dataclasses
import itertools
import os
import random
import sys
from typing import Callable, NamedTuple

BLANKS = (b" ", b"\t", b"\r", b"\n")
MOST_BYTES = 65535
MOST_TREES = 160
MOST_OPEN = 63
ALL_LABELS = tuple(range(1, 65))

MARKS = (b"[&U]", b"[&R]")

# Bytes that random damage prefers: tokens, digits, blanks, and bytes that are
# easily taken for one of them.
TELLING_BYTES = (
    b"(),;0123456789 \t\r\n[&UR]"
    b"\x00\x0b\x0c\x1f!/:{}.-+'_#aAxXur\x7f\x80\x85\xa0\xb2\xff"
)

# Labels out of range.  Among them are numbers that are 1 or 64 again when
# taken modulo 2^8, 2^16, 2^32 or 2^64.
BAD_LABELS = (
    b"0", b"00", b"000", b"065", b"0000000100", b"65", b"66", b"99", b"100",
    b"101", b"255", b"256", b"257", b"320", b"640", b"65537", b"4294967297",
    b"4294967360", b"18446744073709551617", b"18446744073709551680",
    b"340282366920938463463374607431768211457",
)


# Trees and moves


@dataclasses.dataclass(frozen=True)
class Unrooted:
    """An unrooted tree as it is written: nested tuples with three children at the
    top if it has three or more leaves."""

    top: object


def is_leaf(tree):
    """Whether the nested tuples are a single leaf."""
    return not isinstance(tree, tuple)


def paths(tree):
    """All nodes' paths, the root's empty one first."""
    if is_leaf(tree):
        return [()]
    below = [(side,) + path for side in (0, 1) for path in paths(tree[side])]
    return [()] + below


def subtree(tree, path):
    """The subtree at a path."""
    for side in path:
        tree = tree[side]
    return tree


def replaced(tree, path, new):
    """The tree with the subtree at a path replaced by a new one."""
    if not path:
        return new
    grown = replaced(tree[path[0]], path[1:], new)
    return (grown, tree[1]) if path[0] == 0 else (tree[0], grown)


def move(tree, source, target):
    """Prune at `source` (not the root), regraft at `target`.

    `target` is a path in the remainder; the new fork stands above the node
    there.
    """
    parent, side = source[:-1], source[-1]
    pruned = subtree(tree, source)
    sibling = subtree(tree, parent + (1 - side,))
    remainder = replaced(tree, parent, sibling)
    return replaced(remainder, target, (subtree(remainder, target), pruned))


def remainder_paths(tree, source):
    """The paths of the remainder's nodes when pruning at `source`."""
    parent, side = source[:-1], source[-1]
    return paths(replaced(tree, parent, subtree(tree, parent + (1 - side,))))


def all_moves(tree):
    """The results of all moves on a tree of either kind, as a list."""
    if isinstance(tree, Unrooted):
        return [laid_out(edges) for edges in all_edge_moves(edges_of(tree))]
    return [
        move(tree, source, target)
        for source in paths(tree)[1:]
        for target in remainder_paths(tree, source)
    ]


def interchange(tree, source):
    """Prune at `source`, two steps or more below the root, and regraft above
    its aunt, whose path is the same in the remainder."""
    above, side = source[:-2], source[-2]
    return move(tree, source, above + (1 - side,))


def interchange_sources(tree):
    """The paths of the nodes that are neither the root nor its child."""
    return [path for path in paths(tree) if len(path) >= 2]


def all_interchanges(tree):
    """The results of all interchanges on a tree, as a list."""
    return [interchange(tree, source) for source in interchange_sources(tree)]


def shape(tree):
    """A value that is equal for equal topologies: children unordered; for
    unrooted trees the splits."""
    if isinstance(tree, Unrooted):
        return splits(edges_of(tree))
    if is_leaf(tree):
        return tree
    return frozenset((shape(tree[0]), shape(tree[1])))


def shapes_near(tree):
    """The shapes of a tree and of all that one move makes of it, as a set."""
    if isinstance(tree, Unrooted):
        near = map(splits, all_edge_moves(edges_of(tree)))
    else:
        near = map(shape, all_moves(tree))
    return {shape(tree)}.union(near)


def random_move(rng, tree):
    """The result of one random move; a tree that has no move stays as it is."""
    if isinstance(tree, Unrooted):
        return random_unrooted_move(rng, tree)
    sources = paths(tree)[1:]
    if not sources:
        return tree
    source = rng.choice(sources)
    return move(tree, source, rng.choice(remainder_paths(tree, source)))


def changing_move(rng, tree):
    """A random move that changes the topology; needs three leaves, four in an
    unrooted tree."""
    while True:
        moved = random_move(rng, tree)
        if shape(moved) != shape(tree):
            return moved


def two_moves(rng, tree):
    """A tree two moves from the given one and no fewer; needs four leaves, five
    in an unrooted tree."""
    near = shapes_near(tree)
    while True:
        moved = random_move(rng, random_move(rng, tree))
        if shape(moved) not in near:
            return moved


def random_interchange(rng, tree):
    """The result of one random interchange; needs three leaves."""
    return interchange(tree, rng.choice(interchange_sources(tree)))


def all_trees(labels):
    """One tree for each topology on these labels."""
    if len(labels) == 1:
        return [labels[0]]
    return [
        replaced(tree, path, (subtree(tree, path), labels[-1]))
        for tree in all_trees(labels[:-1])
        for path in paths(tree)
    ]


def random_tree(rng, labels):
    """A random tree on these labels, by one of three ways of growing."""
    labels = rng.sample(labels, len(labels))
    way = rng.randrange(3)
    if way == 0:
        return grown_on_edges(rng, labels)
    if way == 1:
        return joined_at_random(rng, labels)
    return comb(rng, labels)


def grown_on_edges(rng, labels):
    """Each further leaf hangs on a random edge or above the root."""
    tree = labels[0]
    for label in labels[1:]:
        path = rng.choice(paths(tree))
        tree = replaced(tree, path, (subtree(tree, path), label))
    return swapped(rng, tree)


def joined_at_random(rng, labels):
    """Random pairs are joined until one tree is left."""
    trees = list(labels)
    while len(trees) > 1:
        rng.shuffle(trees)
        trees.append((trees.pop(), trees.pop()))
    return trees[0]


def comb(rng, labels):
    """Every fork has a leaf as a child, on a random side."""
    tree = labels[0]
    for label in labels[1:]:
        tree = (tree, label) if rng.random() < 0.5 else (label, tree)
    return tree


def left_comb(labels):
    """A comb whose brackets all stand at the start of its text."""
    tree = labels[0]
    for label in labels[1:]:
        tree = (tree, label)
    return tree


def right_comb(labels):
    """A comb whose brackets all stand at the end of its text."""
    tree = labels[-1]
    for label in reversed(labels[:-1]):
        tree = (label, tree)
    return tree


def swapped(rng, tree):
    """The same topology with children swapped at random forks; an unrooted tree
    also with its top at any place."""
    if isinstance(tree, Unrooted):
        return tree if is_leaf(tree.top) else laid_out(edges_of(tree), rng)
    if is_leaf(tree):
        return tree
    first, second = swapped(rng, tree[0]), swapped(rng, tree[1])
    return (first, second) if rng.random() < 0.5 else (second, first)


def mirrored(tree):
    """The same topology with children swapped at every fork."""
    return tree if is_leaf(tree) else (mirrored(tree[1]), mirrored(tree[0]))


# Unrooted trees as sets of edges.  An edge is a pair of nodes, the smaller first;
# a leaf is its label, any other node a number below 0.  A single leaf has no edge.


def edge(one, other):
    """The edge between two nodes."""
    return min(one, other), max(one, other)


def edges_of(tree):
    """The edges of an unrooted tree.

    A top of two children is closed up, so that also the root of a rooted tree
    is taken out.
    """
    edges = set()
    numbers = itertools.count(-1, -1)

    def add(node):
        """Add the edges at and below a node; gives the node."""
        if is_leaf(node):
            return node
        own = next(numbers)
        edges.update(edge(own, add(child)) for child in node)
        return own

    if is_leaf(tree.top):
        return edges
    if len(tree.top) == 2:
        edges.add(edge(add(tree.top[0]), add(tree.top[1])))
    else:
        add(tree.top)
    return edges


def neighbours_of(edges):
    """For each node the nodes that edges join it to, in ascending order."""
    neighbours = {}
    for one, other in sorted(edges):
        neighbours.setdefault(one, []).append(other)
        neighbours.setdefault(other, []).append(one)
    return neighbours


def laid_out(edges, rng=None):
    """The unrooted tree with these edges: the top at any inner node, children in
    any order, both drawn at random if `rng` is given.  Needs two leaves."""
    neighbours = neighbours_of(edges)
    inner = [node for node in neighbours if node < 0]

    def ordered(nodes):
        """The nodes in the order in which they are to be written."""
        return rng.sample(nodes, len(nodes)) if rng else nodes

    def below(node, above):
        """The nested tuples of a node that hangs from another."""
        if node > 0:
            return node
        return tuple(below(other, node) for other in ordered(neighbours[node]) if other != above)

    if not inner:
        return Unrooted(tuple(ordered(list(neighbours))))
    return Unrooted(below(ordered(inner)[0], None))


def all_layouts(edges):
    """All ways to write the unrooted tree with these edges, as a list: any top
    and any order.  Needs three leaves."""
    neighbours = neighbours_of(edges)

    def below(node, above):
        """All nested tuples of a node that hangs from another."""
        if node > 0:
            return [node]
        children = [other for other in neighbours[node] if other != above]
        return [
            layout for order in itertools.permutations(children)
            for layout in itertools.product(*(below(child, node) for child in order))
        ]

    return [Unrooted(top) for node in neighbours if node < 0 for top in below(node, None)]


def splits(edges):
    """For each edge the labels that it parts from the smallest one, as a set."""
    neighbours = neighbours_of(edges)
    found = set()

    def labels_from(node, before):
        """The labels that are reached over a node, not going back."""
        if node > 0:
            labels = frozenset((node,))
        else:
            labels = frozenset().union(*(labels_from(other, node) for other in neighbours[node] if other != before))
        found.add(labels)
        return labels

    if edges:
        smallest = min(node for node in neighbours if node > 0)
        labels_from(neighbours[smallest][0], smallest)
    return frozenset(found)


def cuts(edges):
    """Each edge in each direction, the moved end first, as a list.

    A leaf that stays alone has no edge that the other side could be joined to,
    so it is never the end that stays.
    """
    return [
        ends for one, other in sorted(edges) for ends in ((one, other), (other, one)) if ends[1] < 0
    ]


def cut(edges, moved, stays):
    """The edges of the moved side, and those of the other, closed up, when the
    edge between these ends is cut."""
    left = edges - {edge(moved, stays)}
    neighbours = neighbours_of(left)
    there, waiting = {stays}, [stays]
    while waiting:
        new = [node for node in neighbours[waiting.pop()] if node not in there]
        there.update(new)
        waiting += new
    staying = {one for one in left if one[0] in there}
    one, other = neighbours[stays]
    closed = staying - {edge(stays, one), edge(stays, other)} | {edge(one, other)}
    return left - staying, closed


def joined(edges, target, new, node):
    """The edges with a new node on one of them, joined to a given node."""
    one, other = target
    return edges - {target} | {edge(one, new), edge(new, other), edge(new, node)}


def all_edge_moves(edges):
    """Yield the edges of each move's result.  The closed-up node is the new one."""
    for moved, stays in cuts(edges):
        moving, staying = cut(edges, moved, stays)
        for target in sorted(staying):
            yield moving | joined(staying, target, stays, moved)


def random_unrooted_move(rng, tree):
    """The result of one random move; a tree of one leaf or two stays as it is."""
    edges = edges_of(tree)
    if len(edges) < 2:
        return tree
    moved, stays = rng.choice(cuts(edges))
    moving, staying = cut(edges, moved, stays)
    return laid_out(moving | joined(staying, rng.choice(sorted(staying)), stays, moved), rng)


def all_edge_sets(labels):
    """The edges of one unrooted tree for each topology on two or more labels."""
    if len(labels) == 2:
        return [{edge(*labels)}]
    return [
        joined(edges, target, -len(labels), labels[-1])
        for edges in all_edge_sets(labels[:-1])
        for target in sorted(edges)
    ]


def all_unrooted_trees(labels):
    """One unrooted tree for each topology on these labels."""
    if len(labels) == 1:
        return [Unrooted(labels[0])]
    return [laid_out(edges) for edges in all_edge_sets(labels)]


def random_unrooted_tree(rng, labels):
    """A random unrooted tree on these labels: a rooted one without its root."""
    return swapped(rng, Unrooted(random_tree(rng, labels)))


# Kinds of trees


class Rooting(NamedTuple):
    """A kind of trees: how one is drawn at random, and the fewest leaves of which
    there are two topologies."""

    grow: Callable
    least: int


ROOTED = Rooting(random_tree, 3)
UNROOTED = Rooting(random_unrooted_tree, 4)


def either_kind(rng):
    """Rooted in two of three cases."""
    return rng.choice((ROOTED, ROOTED, UNROOTED))


def random_labels(rng, size):
    """A label set of this size: consecutive, or scattered over 1 to 64."""
    way = rng.randrange(4)
    if way == 0:
        return list(range(1, size + 1))
    if way == 1:
        # Around a change in the number of digits, or at the upper end.
        first = min(rng.choice((7, 8, 9, 57, 65 - size)), 65 - size)
        return list(range(first, first + size))
    return rng.sample(ALL_LABELS, size)


# Texts


def tokens(tree):
    """The tokens of a node's text, or of an unrooted tree's without `;`.

    A fork may have any number of children, so that wrong ones can be written.
    """
    if isinstance(tree, Unrooted):
        return [b"[&U]"] + tokens(tree.top)
    if is_leaf(tree):
        return [b"%d" % tree]
    children = [token for child in tree for token in [b","] + tokens(child)]
    return [b"("] + children[1:] + [b")"]


def table_tokens(trees):
    """The tokens of a table."""
    return [token for tree in trees for token in tokens(tree) + [b";"]]


def plain(trees):
    """A table without a blank."""
    return b"".join(table_tokens(trees))


def some_blanks(rng):
    """One to four blanks."""
    return b"".join(rng.choice(BLANKS) for _ in range(rng.randint(1, 4)))


def labels_of(tree):
    """The labels of a tree of either kind, in ascending order."""
    return sorted(int(token) for token in tokens(tree) if token.isdigit())


def with_marks(rng, table, share):
    """The tokens with `[&R]` before this share of the trees without a mark."""
    marked = []
    for before, token in zip([b";"] + table, table):
        if before == b";" and token != b"[&U]" and rng.random() < share:
            marked.append(b"[&R]")
        marked.append(token)
    return marked


def with_blanks(rng, table, rate):
    """The tokens with blanks before some of them and perhaps at the end."""
    pieces = []
    for token in table:
        if rng.random() < rate:
            pieces.append(some_blanks(rng))
        pieces.append(token)
    if rng.random() < 0.5:
        pieces.append(some_blanks(rng))
    return b"".join(pieces)


def written(rng, trees):
    """A table in one of several usual or unusual layouts."""
    return in_layout(rng, table_tokens(trees))


def in_layout(rng, table):
    """The tokens of a table in one of these layouts."""
    way = rng.randrange(5)
    if way == 0:
        return b"".join(table)
    if way == 1:
        return b"".join(table).replace(b";", b";\n")
    if way == 2:
        return b"".join(table).replace(b";", b";\r\n")[:-2]
    return with_blanks(rng, table, rng.choice((0.05, 0.3, 1.0)))


def padded(rng, text, length):
    """The text with blanks before and after it, up to a length."""
    blanks = b"".join(rng.choices(BLANKS, k=length - len(text)))
    before = rng.randint(0, len(blanks))
    return blanks[:before] + text + blanks[before:]


# Random accepted tables


def random_table(rng, rooting=ROOTED):
    """0 to 12 random trees of 1 to 8 leaves."""
    labels = random_labels(rng, rng.randint(1, 8))
    return [rooting.grow(rng, labels) for _ in range(rng.randint(0, 12))]


def chain_table(rng, rooting=ROOTED):
    """Trees made by moves from earlier ones, with copies among them."""
    trees = [rooting.grow(rng, random_labels(rng, rng.randint(2, 8)))]
    from_last = rng.random() < 0.5
    for _ in range(rng.randint(1, 11)):
        base = trees[-1] if from_last else rng.choice(trees)
        way = rng.random()
        if way < 0.7:
            base = random_move(rng, base)
        if way > 0.4:
            base = swapped(rng, base)
        trees.append(base)
    return trees


def copies_table(rng, rooting=ROOTED):
    """One topology several times, children swapped or not; a few others."""
    tree = rooting.grow(rng, random_labels(rng, rng.randint(1, 8)))
    trees = []
    for _ in range(rng.randint(2, 12)):
        way = rng.random()
        if way < 0.4:
            trees.append(tree)
        elif way < 0.8:
            trees.append(swapped(rng, tree))
        else:
            trees.append(random_move(rng, tree))
    return trees


def repeats_table(rng, rooting=ROOTED):
    """Trees made by changing moves from earlier ones, or unrelated, and copies
    of any of them.  The copies are mixed with the others, next to each other,
    or behind all."""
    labels = random_labels(rng, rng.randint(rooting.least, 8))
    trees = [rooting.grow(rng, labels)]
    for _ in range(rng.randint(1, 5)):
        if rng.random() < 0.7:
            trees.append(changing_move(rng, rng.choice(trees)))
        else:
            trees.append(rooting.grow(rng, labels))
    positions = list(range(len(trees)))
    positions += rng.choices(positions, k=rng.randint(1, 8))
    way = rng.randrange(4)
    if way == 0:
        positions.sort()
    elif way > 1:
        rng.shuffle(positions)
    return [swapped(rng, trees[position]) for position in positions]


def one_move_table(rng, rooting=ROOTED):
    """Two trees exactly one move apart."""
    tree = rooting.grow(rng, random_labels(rng, rng.randint(rooting.least, 8)))
    return [tree, swapped(rng, changing_move(rng, tree))]


def two_moves_table(rng, rooting=ROOTED):
    """Two trees exactly two moves apart."""
    tree = rooting.grow(rng, random_labels(rng, rng.randint(rooting.least + 1, 8)))
    return [tree, swapped(rng, two_moves(rng, tree))]


def large_table(rng, rooting=ROOTED):
    """Two or three trees of 9 to 64 leaves, a move or two from each other."""
    size = rng.choice((9, 12, 16, 24, 32, 33, 48, 63, 64))
    trees = [rooting.grow(rng, random_labels(rng, size))]
    for _ in range(rng.randint(1, 2)):
        moved = random_move(rng, trees[-1])
        if rng.random() < 0.3:
            moved = random_move(rng, moved)
        trees.append(swapped(rng, moved))
    return trees


def interchange_table(rng):
    """Trees of 3 to 64 leaves, each one or two interchanges or a move from an
    earlier one."""
    trees = [random_tree(rng, random_labels(rng, rng.choice((3, 4, 5, 6, 7, 8, 12, 20, 64))))]
    for _ in range(rng.randint(1, 4)):
        moved = random_interchange(rng, rng.choice(trees))
        way = rng.random()
        if way < 0.3:
            moved = random_interchange(rng, moved)
        elif way < 0.4:
            moved = random_move(rng, moved)
        trees.append(swapped(rng, moved))
    return trees


def island_table(rng, rooting=ROOTED):
    """Two to four groups of trees, mixed in order.  No tree is one move from a
    tree of another group."""
    sizes = group_sizes(rng)
    # So many leaves that the groups leave most topologies free.
    leaves = rng.randint(rooting.least + 3, 9) if sum(sizes) < 15 else rng.randint(10, 12)
    labels = random_labels(rng, leaves)
    trees = []
    near = set()  # the topologies of the trees so far, and those one move away
    for size in sizes:
        group = grown_apart(rng, labels, size, near, rooting)
        near.update(*map(shapes_near, group))
        trees += group
    rng.shuffle(trees)
    return trees


def group_sizes(rng):
    """Two to four numbers of one or more, with a sum of 3 to 14, at times of
    up to 160."""
    count = rng.randint(3, 14)
    if rng.random() < 0.1:
        count = rng.choice((rng.randint(15, MOST_TREES), MOST_TREES))
    ends = sorted(rng.sample(range(1, count), rng.randint(1, min(3, count - 1))))
    return [end - start for start, end in zip([0] + ends, ends + [count])]


def grown_apart(rng, labels, size, near, rooting):
    """A group of this size, whose trees have none of the `near` topologies.

    Each tree but the first is a move from the one before or from any earlier
    one, or a copy of it.
    """
    from_last = rng.random() < 0.5
    copying = rng.choice((0.1, 0.4, 0.8))
    group = []
    while len(group) < size:
        if not group:
            tree = rooting.grow(rng, labels)
        else:
            tree = group[-1] if from_last else rng.choice(group)
            if rng.random() >= copying:
                tree = random_move(rng, tree)
        if shape(tree) not in near:
            group.append(swapped(rng, tree))
    return group


def crowd(rng, count, rooting=ROOTED):
    """Exactly `count` trees of 1 to 5 leaves, of up to 6 if they are unrooted."""
    labels = random_labels(rng, rng.randint(1, rooting.least + 2))
    return [rooting.grow(rng, labels) for _ in range(count)]


def crowded_table(rng, rooting=ROOTED):
    """13 to 160 trees, the limit more often than the others."""
    return crowd(rng, rng.choice((rng.randint(13, MOST_TREES), MOST_TREES - 1, MOST_TREES)), rooting)


def usual_table(rng, rooting=ROOTED):
    """Any table of the small kinds that holds at least one tree."""
    while True:
        trees = rng.choice((random_table, chain_table, copies_table, repeats_table))(rng, rooting)
        if trees:
            return trees


def usual_tokens(rng):
    """The tokens of such a table of either kind, at times with `[&R]` before
    rooted trees."""
    table = table_tokens(usual_table(rng, either_kind(rng)))
    return with_marks(rng, table, rng.choice((0.0, 0.0, 0.4, 1.0)))


def marked_table(rng):
    """Rooted trees, some or all of them with their mark."""
    return in_layout(rng, with_marks(rng, table_tokens(usual_table(rng)), rng.choice((0.3, 0.7, 1.0))))


def larger_side_table(rng):
    """Two unrooted trees of 9 to 20 leaves: of the one, a side with more than half
    of the leaves is moved, and the other side has so many that often no smaller
    side would do."""
    while True:
        leaves = rng.randint(9, 20)
        tree = random_unrooted_tree(rng, random_labels(rng, leaves))
        edges = edges_of(tree)
        # A side of n leaves that is closed up has 2n - 3 edges; four leaves stay or
        # more, and less than half of them.
        larger = [ends for ends in cuts(edges) if 5 <= len(cut(edges, *ends)[1]) < leaves - 3]
        if larger:
            moved, stays = rng.choice(larger)
            moving, staying = cut(edges, moved, stays)
            made = moving | joined(staying, rng.choice(sorted(staying)), stays, moved)
            return [tree, laid_out(made, rng)]


def full_of_two_unrooted(rng):
    """160 copies of two large unrooted trees, a move or two from each other, as a
    text with few blanks, so that it is not too long."""
    one = random_unrooted_tree(rng, random_labels(rng, rng.choice((12, 16, 24, 32, 64))))
    other = random_move(rng, one)
    if rng.random() < 0.3:
        other = random_move(rng, other)
    more = rng.randint(80, MOST_TREES - 1)
    trees = copied(rng, [(one, more), (other, MOST_TREES - more)])
    return with_blanks(rng, table_tokens(trees), rng.choice((0.0, 0.05)))


# Random accepted tables for support


def halves_table(rng):
    """Copies of two trees, mixed: as many of one as of the other, or one or two
    more.  Most often the trees share clades."""
    labels = random_labels(rng, rng.randint(3, 12))
    one = random_tree(rng, labels)
    other = changing_move(rng, one) if rng.random() < 0.8 else random_tree(rng, labels)
    fewer = rng.choice((1, 1, 2, 3, rng.randint(4, 20), 79, 80))
    more = min(fewer + rng.choice((0, 0, 1, 2)), MOST_TREES - fewer)
    return copied(rng, [(one, more), (other, fewer)])


def copied(rng, times):
    """So many copies of each tree, mixed, with children swapped."""
    trees = [swapped(rng, tree) for tree, number in times for _ in range(number)]
    rng.shuffle(trees)
    return trees


def near_copies_table(rng):
    """Trees up to three moves away from one tree."""
    tree = random_tree(rng, random_labels(rng, rng.choice((4, 5, 6, 8, 10, 16, 30))))
    return near_copies(rng, tree, rng.randint(2, 20))


def near_copies(rng, tree, count):
    """So many trees, each none to three moves away from the given one."""
    trees = []
    for _ in range(count):
        moved = tree
        for _ in range(rng.randint(0, 3)):
            moved = random_move(rng, moved)
        trees.append(swapped(rng, moved))
    return trees


def star_table(rng):
    """All topologies of three to five leaves, each as often as the others, so
    that only the whole label set is in more than half of the trees."""
    trees = all_trees(random_labels(rng, rng.randint(3, 5)))
    times = rng.randint(1, MOST_TREES // len(trees))
    return copied(rng, [(tree, times) for tree in trees])


def many_clades_table(rng):
    """10 to 40 unrelated trees of 9 to 40 leaves."""
    labels = random_labels(rng, rng.randint(9, 40))
    return [joined_combs(rng, labels) for _ in range(rng.randint(10, 40))]


def joined_combs(rng, labels):
    """Two to four combs, joined at random."""
    labels = rng.sample(labels, len(labels))
    ends = sorted(rng.sample(range(1, len(labels)), rng.randint(1, 3)))
    pieces = [labels[start:end] for start, end in zip([0] + ends, ends + [len(labels)])]
    return joined_at_random(rng, [comb(rng, piece) for piece in pieces])


def fork_labels(tree):
    """The label sets of a tree's forks, the root's last."""
    if is_leaf(tree):
        return []
    below = fork_labels(tree[0]) + fork_labels(tree[1])
    return below + [frozenset(int(token) for token in tokens(tree) if token.isdigit())]


# 160 trees of 64 leaves each.


def full_of_strangers(rng):
    """No two trees share a clade but single labels and the whole label set.

    So there are 160 times 62 clades of two or more labels and one more.  The
    trees have few forks of two leaves, because 64 labels have 2,016 pairs.
    """
    trees, taken = [], set()
    while len(trees) < MOST_TREES:
        tree = joined_combs(rng, ALL_LABELS)
        own = fork_labels(tree)[:-1]
        if taken.isdisjoint(own):
            taken.update(own)
            trees.append(tree)
    return trees


def full_of_unrelated_trees(rng):
    """Unrelated trees, which share small clades."""
    return [joined_at_random(rng, ALL_LABELS) for _ in range(MOST_TREES)]


def full_of_combs(rng):
    """Combs with the labels in any order."""
    return [comb(rng, rng.sample(ALL_LABELS, 64)) for _ in range(MOST_TREES)]


def full_of_turned_combs(rng):
    """Combs with the labels in order from any label on, round in a circle."""
    starts = [rng.randrange(64) for _ in range(MOST_TREES)]
    return [comb(rng, ALL_LABELS[start:] + ALL_LABELS[:start]) for start in starts]


def full_of_near_copies(rng):
    """Trees up to three moves away from one tree."""
    return near_copies(rng, joined_combs(rng, ALL_LABELS), MOST_TREES)


def full_of_halves(rng):
    """80 copies of each of two trees, or 81 and 79, or 82 and 78."""
    one = joined_combs(rng, ALL_LABELS)
    other = changing_move(rng, changing_move(rng, one))
    more = rng.randint(80, 82)
    return copied(rng, [(one, more), (other, MOST_TREES - more)])


def full_of_copies(rng):
    """One topology, a comb or another."""
    make = rng.choice((comb, joined_combs, joined_at_random))
    return copied(rng, [(make(rng, ALL_LABELS), MOST_TREES)])


FULL_TABLES = (
    full_of_strangers, full_of_unrelated_trees, full_of_combs, full_of_turned_combs, full_of_near_copies,
    full_of_halves, full_of_copies,
)


def full_table(rng):
    """Any of these as a text, with few blanks, so that it is not too long."""
    return with_blanks(rng, table_tokens(rng.choice(FULL_TABLES)(rng)), rng.choice((0.0, 0.05)))


# Random damage


def damaged_bytes(rng):
    """One to three bytes changed, left out, or put in."""
    text = bytearray(in_layout(rng, usual_tokens(rng)))
    for _ in range(rng.randint(1, 3)):
        damage_byte(rng, text)
    return bytes(text)


def damage_byte(rng, text):
    """One such damage, in place."""
    way = rng.randrange(4)
    place = rng.randint(0, len(text))
    byte = rng.choice(TELLING_BYTES) if rng.random() < 0.8 else rng.randrange(256)
    if way == 0:
        text.insert(place, byte)
    elif text:
        place = min(place, len(text) - 1)
        if way == 1:
            del text[place]
        else:
            text[place] = byte


def damaged_tokens(rng):
    """A token left out, doubled, exchanged with the next, or replaced."""
    table = usual_tokens(rng)
    for _ in range(rng.randint(1, 2)):
        damage_token(rng, table)
    return with_blanks(rng, table, rng.choice((0.0, 0.1, 0.5)))


def damage_token(rng, table):
    """One such damage, in place."""
    place = rng.randrange(len(table))
    way = rng.randrange(4)
    if way == 0 and len(table) > 1:
        del table[place]
    elif way == 1:
        table.insert(place, table[place])
    elif way == 2 and place + 1 < len(table):
        table[place], table[place + 1] = table[place + 1], table[place]
    else:
        table[place] = rng.choice((b"(", b")", b",", b";", b"1", b"9", b"64", b"65", b"0") + MARKS)


def zeros_before_labels(rng):
    """A table with zeros in front of some labels, at times very many."""
    table = usual_tokens(rng)
    share = rng.choice((0.1, 0.5, 1.0))
    for place, token in enumerate(table):
        if token.isdigit() and rng.random() < share:
            table[place] = b"0" * rng.choice((1, 1, 1, 2, 3, rng.randint(4, 80))) + token
    return with_blanks(rng, table, rng.choice((0.0, 0.2)))


def damaged_label(rng):
    """A label replaced by one that is out of range, with zeros in front or not."""
    table = usual_tokens(rng)
    place = rng.choice([i for i, token in enumerate(table) if token.isdigit()])
    way = rng.randrange(4)
    if way == 0:
        table[place] = b"0" * rng.randint(1, 3) + rng.choice(BAD_LABELS)
    elif way == 1:
        table[place] = b"1" + bytes(rng.choices(b"0123456789", k=rng.randint(2, 5000)))
    else:
        table[place] = rng.choice(BAD_LABELS)
    text = with_blanks(rng, table, rng.choice((0.0, 0.2)))
    return text + b";x" if rng.random() < 0.1 else text


def repeated_label(rng):
    """A label replaced by another label of the same tree."""
    table = usual_tokens(rng)
    while b"," not in table:
        table = usual_tokens(rng)
    places = [i for i, token in enumerate(table) if token.isdigit()]
    count = table.count(b";")
    size = len(places) // count
    start = size * rng.randrange(count)
    victim, donor = rng.sample(places[start:start + size], 2)
    table[victim] = table[donor]
    return with_blanks(rng, table, rng.choice((0.0, 0.2)))


def other_labels(rng):
    """A tree whose label set differs from the first tree's."""
    rooting = either_kind(rng)
    trees = usual_table(rng, rooting)
    odd_one = rooting.grow(rng, other_label_set(rng, labels_of(trees[0])))
    trees.insert(rng.randint(1, len(trees)), odd_one)
    text = written(rng, trees)
    # Sometimes the fault of a later byte, which must not be seen first.
    return text + rng.choice((b"", b"", b"x", b"(", b"65", b"\x00"))


def other_label_set(rng, labels):
    """A label set near the given one but not equal to it."""
    unused = [label for label in ALL_LABELS if label not in labels]
    way = rng.randrange(3)
    if way == 0 and len(labels) > 1:
        return rng.sample(labels, len(labels) - 1)
    if way == 1:
        return labels + [rng.choice(unused)]
    kept = rng.sample(labels, len(labels) - 1)
    return kept + [rng.choice(unused)]


def truncated(rng):
    """A table cut off at a random place."""
    text = in_layout(rng, usual_tokens(rng))
    return text[:rng.randrange(len(text) + 1)]


def mixed_kinds(rng):
    """A tree that is not of the first tree's kind, at times on other labels as
    well, and perhaps further trees of either kind behind it."""
    first, other = rng.sample((ROOTED, UNROOTED), 2)
    trees = usual_table(rng, first)
    labels = labels_of(trees[0])
    odd_one = other.grow(rng, other_label_set(rng, labels) if rng.random() < 0.3 else labels)
    place = rng.randint(1, len(trees))
    trees.insert(place, odd_one)
    for _ in range(rng.choice((0, 0, 1, 3))):
        trees.insert(rng.randint(place + 1, len(trees)), rng.choice((first, other)).grow(rng, labels))
    table = with_marks(rng, table_tokens(trees), rng.choice((0.0, 0.3, 1.0)))
    # Sometimes the fault of a later byte, which must not be seen first.
    return in_layout(rng, table) + rng.choice((b"", b"", b"x", b"(", b"[", b"65"))


def damaged_mark(rng):
    """A mark with a wrong byte, one byte short or more, in small letters or with a
    blank inside; or twice, inside a tree, before its `;`, or with nothing behind
    it."""
    table = with_marks(rng, table_tokens(usual_table(rng, either_kind(rng))), 1.0)
    place = rng.choice([i for i, token in enumerate(table) if token in MARKS])
    mark = table[place]
    way = rng.randrange(8)
    inside = rng.randrange(1, 4)
    if way == 0:
        table[place] = wrong_byte_in(rng, mark)
    elif way == 1:
        table[place] = mark[:inside]
        if rng.random() < 0.3:
            table = table[:place + 1]
    elif way == 2:
        table[place] = mark.lower()
    elif way == 3:
        table[place] = mark[:inside] + some_blanks(rng) + mark[inside:]
    elif way == 4:
        table.insert(place, rng.choice(MARKS))
    elif way == 5:
        within = [i for i in range(1, len(table)) if table[i - 1] != b";"]
        table.insert(rng.choice(within), rng.choice(MARKS))
    elif way == 6:
        table.insert(table.index(b";", place), rng.choice(MARKS))
    else:
        table.append(rng.choice(MARKS))
    return with_blanks(rng, table, rng.choice((0.0, 0.1, 0.5)))


def wrong_byte_in(rng, mark):
    """The mark with one byte that makes it none.  No digit stands for the first
    byte: it would be a label, with faults of its own."""
    while True:
        changed = bytearray(mark)
        place = rng.randrange(4)
        changed[place] = rng.choice(TELLING_BYTES) if rng.random() < 0.8 else rng.randrange(256)
        if bytes(changed) not in MARKS and not changed[:1].isdigit():
            return bytes(changed)


def wrong_children(rng):
    """A table with a tree that has a wrong number of children at one node."""
    rooting = either_kind(rng)
    trees = usual_table(rng, rooting)
    place = rng.randrange(len(trees))
    tree = trees[place]
    if isinstance(tree, Unrooted):
        trees[place] = Unrooted(with_wrong_children(rng, tree.top))
    else:
        trees[place] = with_wrong_children(rng, tree)
    table = with_marks(rng, table_tokens(trees), rng.choice((0.0, 0.3, 1.0)))
    return in_layout(rng, table) + rng.choice((b"", b"", b"x", b"1;"))


def with_wrong_children(rng, top):
    """The nested tuples of a tree with one child alone in brackets; or with a fork
    dissolved, so that its children are its parent's; or with two of three
    children at the top joined."""
    nodes = wide_paths(top)
    forks = [path for path in nodes if path and not is_leaf(subtree(top, path))]
    way = rng.randrange(3)
    if way == 0 and forks:
        path = rng.choice(forks)
        parent = subtree(top, path[:-1])
        return wide_replaced(top, path[:-1], parent[:path[-1]] + subtree(top, path) + parent[path[-1] + 1:])
    if way == 1 and not is_leaf(top) and len(top) == 3:
        first, second, third = top
        return rng.choice((((first, second), third), (first, (second, third))))
    path = rng.choice(nodes)
    return wide_replaced(top, path, (subtree(top, path),))


def wide_paths(tree):
    """The paths of all nodes of nested tuples with any number of children."""
    if is_leaf(tree):
        return [()]
    return [()] + [(place,) + path for place, child in enumerate(tree) for path in wide_paths(child)]


def wide_replaced(tree, path, new):
    """Such tuples with the subtree at a path replaced by a new one."""
    if not path:
        return new
    place = path[0]
    return tree[:place] + (wide_replaced(tree[place], path[1:], new),) + tree[place + 1:]


def too_many(rng):
    """160 trees and then something more than blanks."""
    trees = crowd(rng, MOST_TREES, either_kind(rng))
    extra = rng.choice((
        plain(trees[:1]), plain(trees[:3]), b"x", b";", b")", b",", b"(", b"0",
        b"65", b"1", b"\x00", b"\xff", b"\x0b", b"(1,1);", b"((((",
        b"[", b"[&U]", b"[&R]", b"[&U]1;", b"]", b"&",
    ))
    blanks = some_blanks(rng) if rng.random() < 0.5 else b""
    return written(rng, trees) + blanks + extra


def too_deep(rng):
    """64 brackets open at once, in a first or a later tree of either kind."""
    labels = rng.sample(ALL_LABELS, 64)
    start, used = [], 0
    mark = rng.choice(([], [], [b"[&U]"], [b"[&R]"]))
    for _ in range(MOST_OPEN + rng.randint(1, 3)):
        # A leaf on the left of some forks; its label is spent.
        if start and used < 60 and rng.random() < 0.4:
            start += [b"%d" % labels[used], b","]
            used += 1
        start.append(b"(")
    before = []
    if rng.random() < 0.5:
        before = table_tokens([random_tree(rng, ALL_LABELS) for _ in range(rng.randint(1, 3))])
    text = with_blanks(rng, before + mark + start, rng.choice((0.0, 0.1)))
    return text + rng.choice((b"", b"1", b"x", b"0", b")"))


def deep_comb(rng):
    """63 brackets open at once and 64 leaves: accepted."""
    labels = rng.sample(ALL_LABELS, 64)
    tree = rng.choice((left_comb(labels), right_comb(labels), comb(rng, labels)))
    copies = [swapped(rng, tree)] if rng.random() < 0.3 else []
    return written(rng, [tree] + copies)


def long_text(rng):
    """A text of 65,535 or 65,536 bytes, or of more."""
    length = rng.choice((MOST_BYTES, MOST_BYTES, MOST_BYTES + 1, MOST_BYTES + 1, 70000, 131072))
    way = rng.randrange(4)
    if way == 0:
        return padded(rng, plain(crowd(rng, rng.randint(0, MOST_TREES), either_kind(rng))), length)
    if way == 1:
        return padded(rng, damaged_bytes(rng), length)
    if way == 2:
        return b"(1," + bytes(rng.choices(b"0123456789", k=length - 3))
    return bytes(rng.choices(TELLING_BYTES, k=length))


def noise(rng):
    """Bytes at random, mostly tokens."""
    alphabet = rng.choice((b"(),;12", b"(),;0123456789 \n", TELLING_BYTES, bytes(range(256))))
    mark = rng.choice((b"",) + MARKS)
    return mark + bytes(rng.choices(alphabet, k=rng.randint(0, 40)))


def accepted(make, rooting=None):
    """Turn a maker of tables into a maker of texts, of this kind of trees."""
    if rooting is None:
        return lambda rng: written(rng, make(rng))
    return lambda rng: written(rng, make(rng, rooting))


# Kind, share among the random cases, maker.  These are for all programs.
COMMON_KINDS = (
    ("random-table", 18, accepted(random_table)),
    ("chain", 20, accepted(chain_table)),
    ("copies", 8, accepted(copies_table)),
    ("repeats", 8, accepted(repeats_table)),
    ("one-move-apart", 8, accepted(one_move_table)),
    ("two-moves-apart", 6, accepted(two_moves_table)),
    ("large", 1, accepted(large_table)),
    ("interchanges", 4, accepted(interchange_table)),
    ("islands", 6, accepted(island_table)),
    ("crowd", 1, accepted(crowded_table)),
    ("marked", 4, marked_table),
    ("zeros", 4, zeros_before_labels),
    ("deep-comb", 1, deep_comb),
    ("damaged-bytes", 12, damaged_bytes),
    ("damaged-tokens", 8, damaged_tokens),
    ("damaged-label", 5, damaged_label),
    ("repeated-label", 4, repeated_label),
    ("other-labels", 5, other_labels),
    ("truncated", 4, truncated),
    ("too-many", 1, too_many),
    ("too-deep", 2, too_deep),
    ("long-text", 1, long_text),
    ("noise", 3, noise),
    ("mixed-kinds", 5, mixed_kinds),
    ("damaged-mark", 6, damaged_mark),
    ("wrong-children", 6, wrong_children),
)

# And these for the programs that take trees of both kinds.
UNROOTED_KINDS = (
    ("unrooted", 8, accepted(random_table, UNROOTED)),
    ("unrooted-chain", 10, accepted(chain_table, UNROOTED)),
    ("unrooted-copies", 4, accepted(copies_table, UNROOTED)),
    ("unrooted-repeats", 6, accepted(repeats_table, UNROOTED)),
    ("unrooted-one-move-apart", 6, accepted(one_move_table, UNROOTED)),
    ("unrooted-two-moves-apart", 4, accepted(two_moves_table, UNROOTED)),
    ("unrooted-larger-side", 4, accepted(larger_side_table)),
    ("unrooted-large", 1, accepted(large_table, UNROOTED)),
    ("unrooted-islands", 3, accepted(island_table, UNROOTED)),
    ("unrooted-crowd", 2, accepted(crowded_table, UNROOTED)),
    ("unrooted-full", 1, full_of_two_unrooted),
)

KINDS = COMMON_KINDS + UNROOTED_KINDS

# For programs that take rooted trees only: any unrooted table is refused alike.
ROOTED_ONLY_KINDS = COMMON_KINDS + (("unrooted", 3, accepted(usual_table, UNROOTED)),)

# For support.  The tables of groups are left out, as they take long to make.
SUPPORT_KINDS = tuple(entry for entry in ROOTED_ONLY_KINDS if entry[0] != "islands") + (
    ("halves", 16, accepted(halves_table)),
    ("near-copies", 14, accepted(near_copies_table)),
    ("star", 5, accepted(star_table)),
    ("many-clades", 6, accepted(many_clades_table)),
    ("full", 3, full_table),
)


# Fixed cases


def sample_cases():
    """The samples of document 01 that the pair lister can be given."""
    texts = (
        b"((2,1),3);\n(3,(2,1));\n(1,(2,3));\n((1,3),2);\n",
        b"(3,(2,1));", b"(10,2);", b" 7 ;", b"(1,2,3);", b"(1,2)", b"(1,2);x",
        b"(1,1);", b"(1,64);", b"(1,65);", b"", b"(1,2);(1,3);",
        b"((1,2),(3,4));",
        b"(((1,2),3),4);((1,2),(3,4));",
        b"(((1,2),3),4);(((3,4),1),2);",
        b"((((4,5),1),2),3);((((1,2),3),4),5);",
    )
    return [("sample", text) for text in texts]


def byte_cases():
    """Bytes in wrong places, ends in wrong places, and odd blanks."""
    texts = [
        b" ", b"\t", b"\r", b"\n", b" \t\r\n\n", b";", b",", b")", b"(", b"()",
        b"(,)", b"(1)", b"(1);", b"(1,);", b"(,1);", b"(1,2));", b"((1,2);",
        b"(1;2);", b"1,2;", b"1;;", b"(1,2);;", b"(1 2,3);", b"(1,2 3);",
        b"(1,2)3;", b"(1,2)0;", b"(1,2)65;", b"1 1;", b"1 0;", b"(1(2,3));",
        b"(1,2)(3,4);", b"((1,2)(3,4));", b"(1,(2,3)", b"(1,(2,3) ", b"1", b"1 \n",
        b"6", b"(1,6", b"(1,", b"(1, ", b"(1,2);(", b"(1,2); 1", b"(1,2);1",
        b"[1,2];", b"{1,2};", b"(1.2);", b"(+1,2);", b"(-1,2);", b"(1,2):1;",
        b"(1:0.1,2:0.1);", b"(a,b);", b"('1',2);", b"(1,2)[c];", b"#\n1;",
        b"\xef\xbb\xbf1;", b"1;\x00", b"\x001;", b"(1\x00,2);", b"1;\x1a", b"1\xff;",
        b"1;\x0b", b"1;\x0c", b"1\xa0;", b"\x851;", b"1;\xe2\x80\x83",
        b"\xb2;", b"\xd9\xa1;", b"/;", b":;", b"(1,2);\n(2,1)\n", b"1;\n1;\n1\n",
    ]
    return [("byte", text) for text in texts]


def label_cases():
    """Labels out of range, with zeros in front, repeated, or cut off."""
    texts = [b"(1,%s);" % bad for bad in BAD_LABELS]
    texts += [b"%s;" % bad for bad in BAD_LABELS[:8]]
    texts += [b"%d;" % good for good in (1, 9, 10, 11, 32, 33, 63, 64)]
    texts += [
        b"(1,65", b"(1,1", b"(1,10", b"(10,1", b"0", b"65", b"(1,65x", b"(1,1x", b"(1,01",
        b"(1,1)65;", b"(01,01);", b"(64,64);", b"(1,064);", b"(6,64);",
        b"01;", b"007;", b"(01,1);", b"(1,001);", b"(02,1);", b"(1,0 2);", b"(1,2)0;", b"(1,02",
        b"(010,2);", b"(1,02);(01,2);", b"0000000001;", b"0" * 60000 + b"7;",
        b"0" * 65534 + b";", b"0" * 65533 + b"1;", b"0" * 65532 + b"65;",
        b"((1,2),(3,1));", b"((1,2),(2,65));", b"((1,2),(65,2));",
        b"(1,2);(1,1);", b"(1,2);(2,65);", b"(1,2);(3,3);", b"(1,2);(3,03);",
        b"(1," + b"9" * 5000 + b");", b"(1," + b"0" * 5000 + b"2);", b"1" * 65535,
        b"1;" + b"0" * 65533, b"(1," + b"1" * 65532, b"(1,2" * 20,
    ]
    return [("label", text) for text in texts]


def label_set_cases():
    """Label sets that differ from the first tree's, and what goes before."""
    texts = (
        b"1;2;", b"1;1;2;", b"(1,2);1;", b"1;(1,2);", b"(1,2);(1,3)x", b"(1,2);(1,3)",
        b"(1,2);(1,3);x", b"(1,2);(1,3) ;", b"(1,64);(1,63);", b"(32,33);(32,64);",
        b"(1,2);(2,1);(3,4);(1,1);", b"(1,2);(2,1);(1,1);(3,4);", b"(1,2);((1,2),3);",
        b"((1,2),3);(1,2);", b"((1,2),3);((1,2),4);", b"(1,2);(1,3)\n\t;\n(0,0);",
    )
    return [("label-set", text) for text in texts]


def depth_cases():
    """At and around 63 open brackets."""
    labels = list(ALL_LABELS)
    left, right = plain([left_comb(labels)]), plain([right_comb(labels)])
    opened = b"(" * MOST_OPEN
    right_open = b"".join(b"(%d," % label for label in range(1, MOST_OPEN + 1))
    texts = [
        left, right, left + right, b" ".join(bytes((byte,)) for byte in opened) + left[MOST_OPEN:],
        plain([left_comb(labels[::-1])]), plain([right_comb(labels[::-1])]),
        opened, opened + b"(", opened + b" (", opened + b"((", b"(" + left, b"(" * 65535,
        b"(" * 65536, right_open, right_open + b"(", right_open + b"\n(", right_open + b"64(",
        right_open + b"63", right_open + b"65", right_open + b"0", right_open + b")",
        # No node may begin at the last bracket, so these are refusal 1.
        opened + b"1(", opened + b"1 (2", opened + b"1,2(", opened + b"1,2)(",
        # A bracket closes, and the 63rd opens once more; then one too many.
        b"(" + left[1:-1] + b"(;", opened[1:] + b"(1,2),(3,4))", opened[1:] + b"(1,2),((",
        opened[1:] + b"(1,2),(3,4)),(5,((",
        left + opened, left + opened + b"(", b"1;" + opened + b"(",
    ]
    return [("depth", text) for text in texts]


def count_cases():
    """At and around 160 trees."""
    full = b"(1,2);" * MOST_TREES
    texts = [full, full + b" \t\r\n", full + b"(1,2);", full + b"\n (2,1);", b"1;" * 161, b"1;" * 1000]
    texts += [full + extra for extra in (
        b"x", b" x", b"(", b")", b",", b";", b"1", b"0", b"65", b"\x00", b"\xff",
        b"\x0b", b"(1,1);", b"(1,3);", b"(" * 64,
    )]
    fewer = full[6:]
    texts += [fewer, fewer + b"(1,3);", fewer + b"(1,3);x", fewer + b"(1,2)", fewer + b"x",
              fewer + b"(1,1);", fewer + b"(1,65);", fewer + b"(2,1);;"]
    three = b"((1,2),3);((1,3),2);(1,(2,3));"
    texts += [three * 53, three * 53 + b"((3,2),1);", three * 54]
    # The longest canonical text 160 times, alone and with one differing tree.
    longest = plain([left_comb(list(ALL_LABELS))])
    moved = plain([move(left_comb(list(ALL_LABELS)), (1,), (0, 0, 0))])
    texts += [longest * MOST_TREES, longest * 159 + moved, longest * MOST_TREES + b"x"]
    return [("count", text) for text in texts]


def length_cases():
    """At and around 65,535 bytes."""
    tree = b"((1,2),3);"
    texts = [
        b" " * 65534, b" " * 65535, b" " * 65536, b"\n" * 65537, b"x" * 65535, b"x" * 65536,
        b"\x00" * 65536, tree + b" " * (65535 - len(tree)), tree + b" " * (65536 - len(tree)),
        b" " * (65535 - len(tree)) + tree, b" " * (65536 - len(tree)) + tree,
        tree + b" " * (65534 - len(tree)) + b"x", b" " * 65534 + b"x", b" " * 65534 + b"(",
        b"(1," + b" " * 65532, tree * 6553, tree * 6554, tree * 160 + b" " * 63935,
        tree * 160 + b" " * 63934 + b"x", tree * 160 + b" " * 63936, b"(" * 200000,
    ]
    return [("length", text) for text in texts]


def all_small_trees_cases():
    """All topologies of 1 to 5 leaves in one table each."""
    label_sets = [ALL_LABELS[:size] for size in range(1, 6)]
    label_sets += [(64, 10, 2), (9, 10, 33, 64), (10, 2, 64, 9, 33)]
    return [("all-topologies", plain(all_trees(labels))) for labels in label_sets]


def copy_cases():
    """Copies, mirrored or not, in every place among a few other trees."""
    first, middle, last = (((1, 2), 3), 4), ((1, 2), (3, 4)), (((3, 4), 1), 2)
    tables = [[1] * 2, [(1, 2)] * 3, [(1, 2), (2, 1)], [first, mirrored(first), first]]
    # The first and the last are one move from the middle, not from each other.
    for trees in ((first, middle), (first, last)):
        for copied in trees:
            tables += itertools.permutations(trees + (mirrored(copied),))
    tables += itertools.permutations((first, middle, last, mirrored(last)))
    # 160 trees: one topology but for one tree; all of five leaves, and copies.
    for order in (1, -1):
        tables.append(([first] * 159 + [middle])[::order])
        five_leaves = all_trees(ALL_LABELS[:5])
        tables.append((five_leaves + list(map(mirrored, five_leaves[:55])))[::order])
    return [("copy", plain(trees)) for trees in tables]


def mark_cases():
    """Marks where they may stand, broken ones, and marks in wrong places."""
    texts = [
        b"[&R]1;", b"[&U]1;", b" [&U] 1 ;", b"\t[&R]\n(1,2);", b"\r[&U]\r(2,1);", b"[&U]\t(3,2,1);",
        b"[&R](3,(2,1));", b"[&R]((1,2),3);(1,(2,3));\n[&R] ((1,3),2);", b"((1,2),3);[&R](3,(2,1));",
        b"[&U]007;", b"[&U](010,2,(03,4));",
    ]
    # All sorts of wrong bytes for the one mark, a few for the other.
    for mark, others, blanks in zip(MARKS, (b"[&UR]u(1 \x00\xff", b"[r"), (BLANKS, BLANKS[:1])):
        # Cut short, with nothing or a tree behind it; one byte left out.
        texts += [mark[:end] + behind for end in range(1, 5) for behind in (b"", b" ", b"1")]
        texts += [mark[:place] + mark[place + 1:] + b"(1,2);" for place in range(4)]
        # One byte for another, and one too many.
        texts += [
            mark[:place] + bytes((byte,)) + mark[place + 1:] + b"(1,2);"
            for place in range(4) for byte in others if mark[place] != byte
        ]
        texts += [mark[:place] + blank + mark[place:] + b"(1,2);" for place in range(1, 4) for blank in blanks]
        texts += [mark.lower() + b"1;", mark + b"]1;", b"[" + mark + b"1;", mark[:3] + b"U]1;", mark + b"U1;"]
        # Twice, and in other wrong places.
        texts += [mark + other + b"(1,2);" for other in MARKS] + [mark + b" \n" + mark + b"1;", mark + mark[:2]]
        texts += [
            start + mark + end for start, end in (
                (b"(", b"1,2);"), (b"(1", b",2);"), (b"(1,", b"2);"), (b"(1,2", b");"), (b"(1,2)", b";"), (b"1", b";"),
                (b"[&U](1,2,", b"3);"), (b"[&U](1,2,3)", b";"), (b"1;", b""), (b"1;", b" "), (b"[&U]1;", b"x"),
            )
        ]
        # With the other faults of a tree behind it.
        texts += [mark + rest for rest in (b"0;", b"(1,1);", b"(1,65);", b"x", b";", b")", b"(1,2)", b"(1,2);x")]
    texts += [b"[]1;", b"[c]1;", b"[&W 1]1;", b"[&U&R]1;", b"[&&U]1;", b"&U1;", b"[1]1;", b"(&U)1;", b"[" * 65535]
    return [("mark", text) for text in dict.fromkeys(texts)]


def children_cases():
    """Right and wrong numbers of children in trees of either kind."""
    texts = [
        b"((1,2));", b"((1));", b"(1,(2));", b"((1),2);", b"((1,2),3,4);", b"((1,2,3),4);", b"(1,(2,3,4));",
        b"(1,2,", b"((1,2),3,", b"(1,2 ,3);",
    ]
    texts += [b"[&R]" + text for text in texts] + [b"[&R](1,2,3);", b"[&R](1);"]
    texts += [
        b"[&U]" + text for text in (
            b"(1);", b"((1));", b"((1,2));", b"(1,2);", b"(1,2,3);", b"(1,2,3,4);", b"(1,2,3,4,5);", b"(1,2,3,",
            b"((1,2),3);", b"(1,(2,3));", b"((1,2),(3,4));", b"((1,2),3 );", b"((1,2) ,3\n);", b"((1,2),3",
            b"((1,2),3;", b"((1,2),3,4);", b"(1,(2,3),4);", b"(1,2,(3,4));", b"((1,2),(3,4),(5,6));",
            b"((1,2),3,4,5);", b"((1,2),(3,4),(5,6),7);", b"((1,2),(3,4),(5,6),", b"((1,2,3),4,5);", b"(1,(2,3,4),5);",
            b"(1,2,(3,4,5));", b"(1,2,(3,4 ,5));", b"(1,2,(3));", b"((1),2,3);", b"(1,(2),3);", b"(1,2,((3,4)));",
            b"((1,2),((3,4),5));", b"(((1,2),3),4);", b"(1,2,((3,4),5,6));", b"(1,2,(3,(4,5,6)));",
            b"(1,2,);", b"(1,2,,3);", b"(1,,2);", b"(,1,2);", b"(1,2", b"(1,2,", b"(1,2,3", b"(1,2;", b"(1,2,3;",
            b"(1,2)3;", b"(1,2,3)4;", b"(1,2,3)(4,5);", b"((1,2)(3,4),5);", b"(1,2 3);", b"(1,1,2);", b"(1,2,2);",
            b"(1,2,65);", b"(1,2,0);", b"()", b"((),1,2);",
            # Other faults stand before a wrong number of children, or behind it.
            b"((1,2),2);", b"((1,2),65);", b"(1,2,3,3);", b"(1,2,3,65);", b"((1,2),3)x", b"(1,2,(3,4,0));",
        )
    ]
    texts += [b"[&U](1,2,3);[&U]((1,2),3);", b"[&U](1,2,3);((1,2),3,4);", b"(1,2);[&U]((1,2),3);", b"(1,2);(1,2,3);"]
    return [("children", text) for text in texts]


def kind_cases():
    """Trees of both kinds in one table, and what goes before that."""
    texts = [
        b"1;[&U]1;", b"[&U]1;1;", b"[&U]1;[&R]1;", b"[&R]1;[&U]1;", b"[&R]1;1;", b"1;[&R]1;", b"[&U]1;[&U]1;",
        b"(1,2);[&U](1,2);", b"[&U](1,2);(1,2);", b"[&U](1,2,3);((1,2),3);", b"((1,2),3);[&U](1,2,3);",
        b"[&U](1,2);[&U](2,1);(1,2);[&U](1,2);", b"(1,2);(2,1);[&U](1,2);(1,2);",
        # Other labels: in the tree of the other kind, before it, and behind it.
        b"1;[&U]2;", b"[&U]1;2;", b"(1,2);[&U](1,3);", b"[&U](1,2,3);(1,2);", b"1;2;[&U]1;", b"[&U]1;[&U]2;1;",
        b"1;[&U]1;2;", b"[&U](1,2);[&U](1,3);", b"[&U](1,2,3);[&U](1,2);", b"[&U](1,2,3);[&U](1,2,4);",
        # Faults before and behind the `;`.
        b"1;[&U]1", b"1;[&U]1 ", b"1;[&U]1 \n;", b"1;[&U]1;x", b"1;[&U]1x;", b"1;[&U](1,1);", b"1;[&U]65;", b"1;[&U]0;",
        b"[&U]1;(1,1);", b"[&U]1;(1,2,3);", b"[&U]1;((1", b"[&U]1;1;((", b"[&U]1;1;[", b"[&U]1;1;0;", b"[&U]1;[1;",
        # An unrooted tree first, with a fault behind it: for rooted trees only, it
        # is refused at its `;`.
        b"[&U]1;x", b"[&U]1;(1,1);", b"[&U]1;0;", b"[&U](1,2,3);((((", b"[&U](1,2);[&U](1,3);x", b"[&U]1;[&u]1;",
    ]
    for one, other in ((b"1;", b"[&U]1;"), (b"[&U](1,2);", b"(2,1);")):
        texts += [
            one * 159 + other, one * 158 + other + one, one + other * 159, one * 160 + other, one * 160 + other[:1],
            one * 159 + other + one, one * 159 + other + b"x", one * 160 + b" " + other, one * 80 + other * 80,
        ]
    texts += [b"[&U]1;" * 160 + extra for extra in (b"", b" \n", b"[&U]1;", b"[&U]2;", b"[", b"]", b"x", b"\n[&R]1;")]
    texts += [b"1;" * 160 + b"[&R]1;", b"[&R]1;" * 160, b"[&R]1;" * 161, b"[&U](1,2,3);" * 161]
    return [("kind", text) for text in texts]


def unrooted_cases():
    """Pairs and others, all topologies, copies in all ways of writing, and the
    limits, of unrooted trees."""
    texts = [
        b"[&U](3,2,1);", b"[&U](10,2);", b"[&U]64;", b"[&U]7;[&U]7;", b"[&U](9,10);[&U](10,9);",
        b"[&U]((1,2),(3,4),5);", b"[&U](5,(4,3),(2,1));[&U](1,2,((3,4),5));", b"[&U]((10,2),(9,64),33);",
        # Five leaves: the middle one stays, and nothing else.
        b"[&U](1,2,(3,(4,5)));[&U](1,4,(3,(2,5)));", b"[&U](1,2,(3,(4,5)));[&U](1,5,(3,(2,4)));",
        b"[&U](1,2,(3,(4,5)));[&U](1,4,(3,(2,5)));[&U](1,4,(2,(3,5)));",
        # The smallest label is in the side that moves, and in no other way.
        b"[&U](1,2,(3,(4,(5,6))));[&U](1,2,(((3,4),5),6));",
        # The side of five leaves moves, and in no other way.
        b"[&U]((1,((5,6),((7,8),9))),2,(3,4));[&U]((4,((5,6),((7,8),9))),3,(1,2));",
        # Cut at the edge between three and three, but joined by other ends.
        b"[&U]((1,2),3,((4,5),6));[&U]((1,3),2,((4,6),5));",
        b"[&U]((1,2),3,((4,5),6));[&U]((1,3),2,((4,5),6));",
    ]
    label_sets = [ALL_LABELS[:size] for size in range(1, 7)]
    label_sets += [(64, 10, 2), (9, 10, 33, 64), (10, 2, 64, 9, 33), (63, 7, 40, 11, 2, 10)]
    texts += [plain(all_unrooted_trees(labels)) for labels in label_sets]
    texts.append(plain(all_unrooted_trees(ALL_LABELS[:7])[::6]))
    # 160 trees: all of six leaves, and copies, in order and the other way round.
    six_leaves = all_unrooted_trees(ALL_LABELS[:6])
    rng = random.Random("fixed unrooted")
    full = six_leaves + [swapped(rng, tree) for tree in six_leaves[:55]]
    texts += [plain(full), plain(full[::-1])]
    # One topology in each way of writing, alone and with a neighbour in the middle.
    for labels in ((1, 2, 3), (10, 9, 2, 64), (5, 3, 1, 2, 4)):
        edges = all_edge_sets(labels)[-1]
        layouts = all_layouts(edges)
        other = all_unrooted_trees(labels)[:1]
        texts += [plain(layouts), plain(layouts[:10] + other + layouts[10:])]
    return [("unrooted", text) for text in texts] + [("limit", text) for text in unrooted_limits()]


def unrooted_limits():
    """At and around the limits: leaves, brackets, trees, bytes."""
    right = Unrooted((1, 2, right_comb(ALL_LABELS[2:])))
    left = Unrooted((left_comb(ALL_LABELS[:62]), 63, 64))
    middle = Unrooted((left_comb(ALL_LABELS[:30]), 31, right_comb(ALL_LABELS[31:])))
    longest = plain([right])
    opened = b"[&U]" + b"(" * MOST_OPEN
    texts = [
        longest, plain([left]), plain([middle]), plain([right, left, middle]),
        plain(all_unrooted_trees(ALL_LABELS[:6])) * 2,
        longest * MOST_TREES, longest * MOST_TREES + b"[", longest * MOST_TREES + longest,
        longest * 159 + plain([random_move(random.Random("fixed limit"), left)]),
        longest * 159 + plain([right_comb(ALL_LABELS)]), plain([right_comb(ALL_LABELS)]) * 159 + longest,
        opened, opened + b"(", opened + b" (", opened + b"1,2", opened + b"1,(", opened + b"1(",
        b"[&U]" + b"".join(b"(%d," % label for label in range(1, 64)) + b"(", b"1;" + opened + b"(",
        # 63 brackets at the end of an unrooted tree need 65 labels.
        longest.replace(b"(63,64)", b"(63,(64,1))"), longest.replace(b"(63,64)", b"(63,(64,65))"),
    ]
    tree = b"[&U](1,2,3);"
    texts += [
        b" " * 65534 + b"[", b" " * 65533 + b"[&", b" " * 65532 + b"[&U", b" " * 65531 + b"[&U]",
        b" " * 65532 + b"[&U]",
        tree + b" " * (65535 - len(tree)), tree + b" " * (65536 - len(tree)), b" " * (65535 - len(tree)) + tree,
        b" " * (65536 - len(tree)) + tree, tree[:4] + b" " * (65535 - len(tree)) + tree[4:],
        tree * 160 + b" " * (65535 - 160 * len(tree)), tree * 160 + b" " * (65534 - 160 * len(tree)) + b"[",
        b"[&U]" * 16384,
    ]
    return texts


def clade_cases():
    """Clades in as many trees as others, in half of the trees and around it,
    and majority trees with three or more children at a fork."""
    texts = [
        # {1,2}, {1,2,3}, {1,3}, {1,4}, {2,3} and {2,4} are in one tree each.
        b"(((1,2),3),4);((1,3),(2,4));((2,3),(1,4));",
        b"(((2,10),9),64);((2,9),(10,64));((9,10),(2,64));",
        b"(((62,63),64),1);((62,64),(63,1));((63,64),(62,1));",
        # Three children at the top, then further down, then at both.
        b"((1,2),3);(1,(2,3));", b"(((1,2),3),4);((1,(2,3)),4);",
        b"((((1,2),3),4),5);((4,(1,(2,3))),5);(((4,5),(1,3)),2);((((1,3),2),5),4);",
        # Children that stand in another order by their digits.
        b"(10,2);(2,10);", b"((10,2),9);((10,9),2);", b"((10,2),(9,1));((10,9),(2,1));",
        b"(((10,2),9),64);(((10,9),2),64);", b"((10,11),(2,64));((11,10),(64,2));((10,2),(11,64));",
        # One label and two.
        b"64;", b"7;7;", b"1;" * MOST_TREES, b"(1,2);", b"(63,64);(64,63);",
    ]
    one, other = b"((1,2),(3,4));", b"(((1,3),2),4);"
    for ones, others in ((1, 1), (2, 1), (2, 2), (3, 2), (3, 3), (4, 2), (79, 79), (80, 79), (80, 80), (81, 79)):
        texts += [one * ones + other * others, other * ones + one * others]
    return [("clade", text) for text in texts]


def full_cases():
    """A full table of the largest trees of each kind, and one tree more."""
    made = [plain(make(random.Random("fixed " + make.__name__))) for make in FULL_TABLES]
    return [("full", text) for text in made + [made[0] + made[0][:made[0].index(b";") + 1]]]


def fixed_cases():
    """All fixed cases as (kind, text)."""
    return (
        sample_cases() + all_small_trees_cases() + copy_cases() + byte_cases() + label_cases()
        + label_set_cases() + depth_cases() + count_cases() + length_cases()
        + unrooted_cases() + mark_cases() + children_cases() + kind_cases()
    )


# All cases


def random_case(kinds, seed, position):
    """The random case at a position, as (kind, text)."""
    rng = random.Random("%d case %d" % (seed, position))
    ((kind, _, make),) = rng.choices(kinds, weights=[share for _, share, _ in kinds])
    return kind, make(rng)


def cases_of(fixed, kinds, seed, count):
    """Yield (position, kind, text) for the positions below `count`."""
    for position in range(count):
        if position < len(fixed):
            kind, text = fixed[position]
        else:
            kind, text = random_case(kinds, seed, position)
        yield position, kind, text


def cases(seed, count):
    """The cases for the programs that take trees of both kinds."""
    return cases_of(fixed_cases(), KINDS, seed, count)


def rooted_cases(seed, count):
    """The cases for the program of interchanges."""
    return cases_of(fixed_cases(), ROOTED_ONLY_KINDS, seed, count)


def support_cases(seed, count):
    """The cases for the program of support."""
    return cases_of(fixed_cases() + clade_cases() + full_cases(), SUPPORT_KINDS, seed, count)


def file_name(position, kind):
    """The name of a case's file."""
    return "%05d-%s.txt" % (position, kind)


def write_cases(cases_, directory):
    """Write each case into a file of the directory, which is made if needed."""
    os.makedirs(directory, exist_ok=True)
    for position, kind, text in cases_:
        with open(os.path.join(directory, file_name(position, kind)), "wb") as file:
            file.write(text)


def main(arguments):
    """Write the case files."""
    parser = argparse.ArgumentParser(description="Write test inputs into files.")
    others = parser.add_mutually_exclusive_group()
    others.add_argument("--rooted", action="store_const", dest="cases", const=rooted_cases,
                        help="write the inputs for the program of interchanges")
    others.add_argument("--support", action="store_const", dest="cases", const=support_cases,
                        help="write the inputs for the program of support")
    parser.set_defaults(cases=cases)
    parser.add_argument("seed", type=int)
    parser.add_argument("count", type=int)
    parser.add_argument("directory", metavar="outdir")
    options = parser.parse_args(arguments)
    write_cases(options.cases(options.seed, options.count), options.directory)


if __name__ == "__main__":
    main(sys.argv[1:])
