#!/usr/bin/env python3
"""Reference program for the pair lister, written from document 01 and, for
interchanges, islands, merged copies, support, unrooted trees and rows, tickets
2, 5, 6, 7, 8 and 9 of document 02.

    reference.py [--islands]

As a command it reads a table of trees from standard input and writes the
pair lister's sheet to standard output, or, with --islands, the sheet of the
program of islands.  As a module it offers the calls

    form(text)            the canonical text (bytes)
    cut(text, number)     the forest text of that cut (bytes)
    pair(text0, text1)    True or False: one move apart
    table(text)           Table(texts, ends)
    graph(text)           Graph(pairs, counts, firsts), copies merged
    graph_choosing(text, merge)
                          the same, with copies kept apart where merge is False
    interchanges(text)    Interchanges(pairs, counts), copies kept apart
    islands(text)         Islands(pairs, counts, firsts, numbers), copies merged
    support(text)         Support(clades, majority, trees), copies counted
    row(text)             the row of the one tree (a list of numbers)
    row_text(numbers)     the canonical text of the tree of a row (bytes)
    row_pair(numbers0, numbers1)
                          True or False: one move apart

and `sheet(text)`, the bytes the command prints, with `interchange_sheet(text)`
for those of interchanges.c, `graphs_sheet(text)` for those of graphs.c,
`support_sheet(text)` for those of supports.c, `rows_sheet(calls)` for those of
rows.c and `island_sheet(text)` for those of the program of islands.  Texts are
bytes.  A call that refuses returns a Refusal(number, text, place) instead; it is
a tuple and equals the plain tuple of the same three numbers.  Trees may be rooted
or unrooted, all of a call of one kind; cut, interchanges, support and row take
rooted trees only.

How pairs are decided.  A rooted tree's topology is the frozenset of its clades,
and a clade is a frozenset of labels.  All trees that one move makes from the
first tree are gone through: every node but the root is pruned, the remainder is
closed up, and the pruned subtree is hung on every edge of the remainder and
above its root.  Two trees are one move apart when their topologies differ and
the second's topology is among those of the results.  No forests are compared
anywhere, so Lemmas 2.2 and 2.3 of document 001 are not used.  Interchanges are
gone through in the same way: every node that is neither the root nor a child of
the root is taken off and regrafted above its aunt.

How unrooted trees are held.  An unrooted tree is a graph: for each node, the
nodes that edges join it to.  No node and no direction of an edge comes before
another.  Each edge splits the labels into those at its two ends, and the
topology is the label set and the set of these splits.  Every edge is cut, and
either side is the moved one; the node at which the other side lost the edge is
closed up, and the moved side is joined, by its cut end, to every edge that is
there then.  Only the canonical text has a top.

How copies are merged.  Positions of equal topology are copies, and the smallest
of them is the first.  The moves from each topology that occurs are gone through
once, and a result that occurs too makes a pair of the two first positions.
With copies kept apart, the trees of every two positions are looked at instead.
The pair lister's sheet and the interchange graph keep copies apart.

How islands are found.  From a first position not yet in an island, a
breadth-first search goes along the listed pairs and gathers every position that
it comes to; the smallest of them is the island's number.  A copy has the number
of its first.

How support is counted.  A tree's clades are a set, so a Counter over the clades
of all trees has for each clade the number of trees in which it occurs.  In the
majority tree a clade is a child of the smallest clade of this tree that holds
it and more.  No clade is a number here, except on the sheet.

How rows are read.  The numbers are turned into sets of labels.  Each label of the
first set is a tree of one leaf at first; then each further set, those of fewer
labels first, joins the two trees that together have its labels.  If one tree is
left, and its row is the given list, the list is its row; else it is that of no
tree.  No two sets are compared with each other.

The values here are returned, not written into lent memory, so refusal 7 (a
lent slice too short) does not arise.
"""

import argparse
import collections
import functools
import itertools
import sys
from typing import NamedTuple

MOST_BYTES = 65535
MOST_TREES = 160
MOST_OPEN = 63
LARGEST_LABEL = 64

BLANKS = b" \t\r\n"
DIGITS = b"0123456789"
UNROOTED_MARK = b"[&U]"

# The refusal numbers of document 01, 10 of ticket 8 and 11 of ticket 9, that can
# arise here.
BAD_BYTE = 1
BAD_LABEL = 2
REPEATED_LABEL = 3
TOO_DEEP = 4
OTHER_LABELS = 5
TOO_MANY_TREES = 6
TEXT_TOO_LONG = 8
NO_SUCH_CUT = 9
OTHER_KIND = 10
NO_ROW = 11


class Refusal(NamedTuple):
    """A refused call: the number, which text or row (0 or 1), and the place."""

    number: int
    text: int
    place: int


class Table(NamedTuple):
    """Canonical texts, and for each the offset just past its `;` when the
    texts are written one after another."""

    texts: list
    ends: list


class Graph(NamedTuple):
    """Pairs (i, j) with i < j in order of i, then j; for each position the
    number of pairs it stands in, and the first position of its topology."""

    pairs: list
    counts: list
    firsts: list


class Interchanges(NamedTuple):
    """Pairs and counts as in a Graph with copies kept apart."""

    pairs: list
    counts: list


class Islands(NamedTuple):
    """The merged Graph, and for each position the number of its island."""

    pairs: list
    counts: list
    firsts: list
    numbers: list


class Support(NamedTuple):
    """(labels, number) for each clade of two or more labels: the labels
    ascending, and the number of trees in which it occurs.  Then the text of the
    majority tree, which is empty where there are no trees, and the number of
    trees."""

    clades: list
    majority: bytes
    trees: int


class Refused(Exception):
    """Ends a call from inside; carries the Refusal to be returned."""

    def __init__(self, number, text, place):
        """Keep the three numbers as a Refusal."""
        super().__init__(number, text, place)
        self.refusal = Refusal(number, text, place)


def returns_refusal(call):
    """Make a call return its Refusal where its body raises Refused."""

    @functools.wraps(call)
    def wrapper(*arguments, **named):
        """Run the call; a refusal becomes its value."""
        try:
            return call(*arguments, **named)
        except Refused as refused:
            return refused.refusal

    return wrapper


# Rooted trees


class Tree:
    """A rooted binary tree, never changed once made.

    children  () for a leaf, (Tree, Tree) for a fork
    clade     frozenset of the labels at and below the root
    clades    frozenset of the clades of all nodes: the topology
    """

    __slots__ = ("children", "clade", "clades")

    unrooted = False

    def __init__(self, children, clade, clades):
        """Use leaf() and fork() instead; they work out clade and clades."""
        self.children = children
        self.clade = clade
        self.clades = clades

    @property
    def labels(self):
        """The label set, by the name that both kinds have."""
        return self.clade

    @property
    def topology(self):
        """The topology, by the name that both kinds have."""
        return self.clades


def leaf(label):
    """The tree that is one leaf."""
    clade = frozenset((label,))
    return Tree((), clade, frozenset((clade,)))


def fork(first, second):
    """The tree whose root has these two children."""
    clade = first.clade | second.clade
    return Tree((first, second), clade, first.clades.union(second.clades, (clade,)))


def rooted(written):
    """The Tree of a label, or of nested tuples of two."""
    return fork(*map(rooted, written)) if isinstance(written, tuple) else leaf(written)


def canonical(tree):
    """The same topology with the child of smaller least label first."""
    if not tree.children:
        return tree
    first, second = sorted(tree.children, key=lambda child: min(child.clade))
    return fork(canonical(first), canonical(second))


def node_text(tree):
    """The text of a tree as its children stand, without `;`."""
    if not tree.children:
        (label,) = tree.clade
        return b"%d" % label
    first, second = tree.children
    return b"(" + node_text(first) + b"," + node_text(second) + b")"


def canonical_text(tree):
    """The canonical text of a tree of either kind, `;` included."""
    if tree.unrooted:
        return UNROOTED_MARK + unrooted_text(tree) + b";"
    return node_text(canonical(tree)) + b";"


# Moves of rooted trees


def prunings(tree):
    """Yield (remainder, pruned) for each node but the root.

    The order is that in which the nodes begin in the tree's text, so on a
    canonical tree the position in this order is the cut number.  Where a
    child of the root is pruned, the remainder is its sibling.
    """
    if not tree.children:
        return
    first, second = tree.children
    yield second, first
    for remainder, pruned in prunings(first):
        yield fork(remainder, second), pruned
    yield first, second
    for remainder, pruned in prunings(second):
        yield fork(first, remainder), pruned


def regrafts(node, pruned, clades):
    """Yield the result's topology for each place in the subtree at `node`.

    The places are above `node` and above each node below it.  Above a node
    means on the edge that leads to it, or above the remainder's root.

    `clades` holds the remainder's clades and the pruned subtree's, where every
    node that will stand above the new fork has taken in the pruned labels.
    """
    joined = node.clade | pruned.clade
    # Here `joined` is the new fork's clade, and `node` keeps its own.
    hung_above = clades | {joined}
    yield hung_above
    if node.children:
        # Further down, `joined` is the clade of `node`, which loses its own.
        hung_below = hung_above - {node.clade}
        for child in node.children:
            yield from regrafts(child, pruned, hung_below)


def moves(tree):
    """Yield the topology of every move's result, the tree's own included."""
    for remainder, pruned in prunings(tree):
        yield from regrafts(remainder, pruned, remainder.clades | pruned.clades)


# Interchanges


def interchanged(tree):
    """Yield the tree that each interchange makes.

    The root's grandchildren are taken first; then each child is looked at as
    the root of a tree of its own.
    """
    if not tree.children:
        return
    first, second = tree.children
    yield from above_the_aunt(first, second)
    yield from above_the_aunt(second, first)
    for child in interchanged(first):
        yield fork(child, second)
    for child in interchanged(second):
        yield fork(first, child)


def above_the_aunt(parent, aunt):
    """Yield fork(parent, aunt) with each child of the parent regrafted.

    The parent is closed up, which puts the child's sibling in its place, and
    the new fork is on the edge above the aunt.  A leaf has no children.
    """
    for node, sibling in itertools.permutations(parent.children, 2):
        yield fork(sibling, fork(node, aunt))


def reached_by_interchange(tree):
    """The set of topologies that one interchange makes from the tree."""
    return {result.clades for result in interchanged(tree)}


# Unrooted trees


class Unrooted:
    """An unrooted binary tree as a graph, never changed once made.

    beside    for each node, the frozenset of the nodes that edges join it to:
              one for a leaf, or none where it is the only one; three for any
              other node.  A leaf is its label, any other node a number below 0.
    labels    frozenset of the labels
    beyond    for each edge in each direction the labels to which it leads
    topology  the labels and the frozenset of the splits of all edges
    """

    __slots__ = ("beside", "labels", "beyond", "topology")

    unrooted = True

    def __init__(self, beside):
        """Work out the rest from the graph."""
        self.beside = beside
        self.labels = frozenset(filter(is_label, beside))
        self.beyond = labels_beyond(beside)
        self.topology = self.labels, frozenset(split(self.beyond, *edge) for edge in self.beyond)


def is_label(node):
    """Whether a node is a leaf, which is its label."""
    return node > 0


def unrooted(written):
    """The Unrooted of a label, or of nested tuples of three at the top and of two
    elsewhere.

    Two leaves are written as one fork, but a node between them would have two
    edges, so it is closed up.
    """
    beside = {}
    numbers = itertools.count(-1, -1)

    def add(part, neighbours):
        """Add a node with these neighbours and all that is below it."""
        is_fork = isinstance(part, tuple)
        node = next(numbers) if is_fork else part
        below = [add(child, [node]) for child in part] if is_fork else []
        beside[node] = frozenset(neighbours + below)
        return node

    top = add(written, [])
    return Unrooted(closed_up(beside, top))


def gathered(beside, own):
    """For each edge in each direction, (near, far): the union of own(near, far)
    and of what is gathered for the edges that lead on from `far`."""
    sets = {}

    def gather(near, far):
        """Gather for one edge in one direction, once."""
        if (near, far) not in sets:
            further = [gather(far, node) for node in beside[far] - {near}]
            sets[near, far] = frozenset(own(near, far)).union(*further)
        return sets[near, far]

    for near in beside:
        for far in beside[near]:
            gather(near, far)
    return sets


def labels_beyond(beside):
    """For each edge in each direction the labels to which it leads."""
    return gathered(beside, lambda near, far: filter(is_label, [far]))


def split(beyond, near, far):
    """The two label sets at the ends of an edge, as a set of the two."""
    return frozenset((beyond[near, far], beyond[far, near]))


def closed_up(beside, node):
    """The graph without a node that has two edges, whose neighbours are joined;
    the same graph if the node has more or fewer."""
    if len(beside[node]) != 2:
        return beside
    one, other = beside[node]
    closed = {rest: beside[rest] for rest in beside if rest != node}
    closed[one] = closed[one] - {node} | {other}
    closed[other] = closed[other] - {node} | {one}
    return closed


def side(beside, cut_off, start):
    """The graph of the nodes that are still joined to `start` when the edge
    between it and `cut_off` is cut."""
    found = {start: beside[start] - {cut_off}}
    waiting = [start]
    while waiting:
        for node in found[waiting.pop()]:
            if node not in found:
                found[node] = beside[node]
                waiting.append(node)
    return found


def unrooted_moves(tree):
    """Yield the topology of every move's result, the tree's own included.

    Every edge is cut, and the side of either end is the moved one.  The edges of
    this side split the labels as before, and so does the one by which it is
    joined again, which splits them as the cut one did.
    """
    splits_beyond = gathered(tree.beside, lambda *edge: [split(tree.beyond, *edge)])
    for stump, moved_end in tree.beyond:
        as_before = splits_beyond[stump, moved_end]
        stays = closed_up(side(tree.beside, moved_end, stump), stump)
        for splits in joinings(stays, tree.beyond[stump, moved_end]):
            yield tree.labels, as_before | splits


def joinings(stays, moved):
    """For each edge of the side that stays, yield the splits of all edges of this
    side when the moved labels are joined to that edge by a new node.

    The new node makes two edges of one.  Every edge has the moved labels at its
    end that is nearer to the new node.  A single node has no edge, and so there
    is nothing to join it to.
    """
    labels = labels_beyond(stays)
    # (near, far): this edge and those beyond, with the moved labels before them.
    outwards = gathered(stays, lambda near, far: [frozenset((labels[far, near] | moved, labels[near, far]))])
    for near, far in outwards:
        if near < far:
            yield outwards[near, far] | outwards[far, near]


def unrooted_text(tree):
    """The canonical text without mark and `;`.

    The top is the inner node next to the smallest label; there is none in a tree
    of one leaf or two.
    """
    in_order = [b"%d" % label for label in sorted(tree.labels)]
    if len(in_order) == 1:
        return in_order[0]
    if len(in_order) == 2:
        return b"(" + b",".join(in_order) + b")"
    (top,) = tree.beside[min(tree.labels)]
    return text_away(tree, None, top)


def text_away(tree, near, far):
    """The text of a node as one comes to it from `near`, None at the top."""
    if is_label(far):
        return b"%d" % far
    in_order = sorted(tree.beside[far] - {near}, key=lambda node: min(tree.beyond[far, node]))
    return b"(" + b",".join(text_away(tree, far, node) for node in in_order) + b")"


# Moves of both kinds


def reached(tree):
    """The set of topologies that one move makes from the tree."""
    return set(unrooted_moves(tree) if tree.unrooted else moves(tree))


def one_move_apart(first, second):
    """Whether topologies differ and a move leads from first to second."""
    return first.topology != second.topology and second.topology in reached(first)


# Rows


def number_of(labels):
    """The number of a set of labels: label L is bit L - 1."""
    return sum(2 ** (label - 1) for label in labels)


@functools.lru_cache(maxsize=4096)
def labels_of(number):
    """The set of labels of a number below 2 to the power 64."""
    return frozenset(label for label, digit in enumerate(reversed(bin(number)[2:]), 1) if digit == "1")


def row_of(tree):
    """The row of a rooted tree: its label set, then its clades of two or more
    labels, in ascending order of the numbers."""
    return [number_of(tree.clade)] + sorted(number_of(clade) for clade in tree.clades if len(clade) >= 2)


def tree_of_row(numbers):
    """The tree that has this row, or None.

    A fork has fewer labels than the one above it, so in a row it is joined
    first.
    """
    if not numbers:
        return None
    labels, *clades = map(labels_of, numbers)
    part_with = {label: leaf(label) for label in labels}
    for clade in sorted(clades, key=len):
        parts = {part_with.get(label) for label in clade}
        if len(parts) != 2 or None in parts:
            return None
        made = fork(*parts)
        if made.clade != clade:
            return None
        part_with.update(dict.fromkeys(clade, made))
    if len(set(part_with.values())) != 1:
        return None
    tree = next(iter(part_with.values()))
    return tree if row_of(tree) == list(numbers) else None


def given_row(numbers, which):
    """The tree of row number `which`, or refusal 11."""
    tree = tree_of_row(numbers)
    if tree is None:
        raise Refused(NO_ROW, which, 0)
    return tree


# Reading


class Reader:
    """Reads tree texts from left to right and refuses at the first fault."""

    def __init__(self, text, which):
        """Begin at place 0; `which` is 0 or 1, for the refusal."""
        self.text = text
        self.which = which
        self.place = 0

    def refuse(self, number, place):
        """End the call with this refusal."""
        raise Refused(number, self.which, place)

    def byte_here(self):
        """The byte at the place as bytes of length 1; b"" at the end."""
        return self.text[self.place:self.place + 1]

    def next_token_byte(self):
        """Go past blanks, then give the byte there, b"" at the end."""
        while self.byte_here() and self.byte_here() in BLANKS:
            self.place += 1
        return self.byte_here()

    def take(self, token):
        """Go past this one-byte token; anything else there is refusal 1."""
        if self.next_token_byte() != token:
            self.refuse(BAD_BYTE, self.place)
        self.place += 1

    def tree(self, rooted_only=False):
        """Read a mark or none, a node and `;`.  Gives the tree and the place of
        the `;`, where an unrooted tree is refused if `rooted_only` says so."""
        make = unrooted if self.mark() == UNROOTED_MARK else rooted
        tree = make(self.node(0, set(), unrooted_top=make is unrooted))
        self.take(b";")
        if rooted_only and tree.unrooted:
            self.refuse(OTHER_KIND, self.place - 1)
        return tree, self.place - 1

    def mark(self):
        """Read `[&U]` or `[&R]`, which has no blank inside, and give it; b"" where
        no bracket of this sort stands."""
        if self.next_token_byte() != b"[":
            return b""
        start = self.place
        for possible in (b"[", b"&", b"UR", b"]"):
            if not self.byte_here() or self.byte_here() not in possible:
                self.refuse(BAD_BYTE, self.place)
            self.place += 1
        return self.text[start:self.place]

    def node(self, open_brackets, labels_so_far, unrooted_top=False):
        """Read a label, or a fork as a tuple; any other byte is refusal 1."""
        byte = self.next_token_byte()
        if byte == b"(":
            return self.fork(open_brackets, labels_so_far, unrooted_top)
        if byte and byte in DIGITS:
            return self.label(labels_so_far)
        return self.refuse(BAD_BYTE, self.place)

    def fork(self, open_brackets, labels_so_far, unrooted_top):
        """Read `(` node `,` node `)`; the place is at the `(`.

        The top of an unrooted tree has `,` and a third node before the `)`,
        unless the tree has two leaves.
        """
        if open_brackets == MOST_OPEN:
            self.refuse(TOO_DEEP, self.place)
        self.take(b"(")
        children = [self.node(open_brackets + 1, labels_so_far)]
        self.take(b",")
        children.append(self.node(open_brackets + 1, labels_so_far))
        if unrooted_top and (len(labels_so_far) > 2 or self.next_token_byte() == b","):
            self.take(b",")
            children.append(self.node(open_brackets + 1, labels_so_far))
        self.take(b")")
        return tuple(children)

    def label(self, labels_so_far):
        """Read the longest run of digits; the place is at the first digit."""
        start = self.place
        while self.byte_here() and self.byte_here() in DIGITS:
            self.place += 1
        digits = self.text[start:self.place].lstrip(b"0")
        # The length is looked at before the value, because the run may be
        # longer than Python turns into a number.
        if not 1 <= len(digits) <= len(str(LARGEST_LABEL)) or int(digits) > LARGEST_LABEL:
            self.refuse(BAD_LABEL, start)
        if int(digits) in labels_so_far:
            self.refuse(REPEATED_LABEL, start)
        labels_so_far.add(int(digits))
        return int(digits)


def refuse_long_text(text, which):
    """Refusal 8, tried before any byte is looked at."""
    if len(text) > MOST_BYTES:
        raise Refused(TEXT_TOO_LONG, which, 0)


def read_one(text, which, rooted_only=False):
    """Read a text of exactly one tree.  Gives it and the place of its `;`."""
    reader = Reader(text, which)
    tree, semicolon = reader.tree(rooted_only)
    if reader.next_token_byte():
        reader.refuse(BAD_BYTE, reader.place)
    return tree, semicolon


def read_table(text, rooted_only=False):
    """Read a text of 0 to 160 trees of one kind on one label set into a list."""
    refuse_long_text(text, 0)
    reader = Reader(text, 0)
    trees = []
    while reader.next_token_byte():
        if len(trees) == MOST_TREES:
            reader.refuse(TOO_MANY_TREES, reader.place)
        tree, semicolon = reader.tree(rooted_only)
        if trees and tree.unrooted != trees[0].unrooted:
            reader.refuse(OTHER_KIND, semicolon)
        if trees and tree.labels != trees[0].labels:
            reader.refuse(OTHER_LABELS, semicolon)
        trees.append(tree)
    return trees


# The calls


@returns_refusal
def form(text):
    """The canonical text of a text with exactly one tree."""
    refuse_long_text(text, 0)
    tree, _ = read_one(text, 0)
    return canonical_text(tree)


@returns_refusal
def cut(text, number):
    """The forest text of a cut: remainder, space, pruned subtree, `;`."""
    if number < 0:
        raise ValueError("a cut number is 0 or more")
    refuse_long_text(text, 0)
    tree, _ = read_one(text, 0, rooted_only=True)
    cuts = list(prunings(canonical(tree)))
    if number >= len(cuts):
        raise Refused(NO_SUCH_CUT, 0, 0)
    remainder, pruned = cuts[number]
    # Closing up may change which child holds the smaller label.
    return node_text(canonical(remainder)) + b" " + canonical_text(pruned)


@returns_refusal
def pair(text0, text1):
    """Whether two trees are one move apart; equal topologies are not."""
    refuse_long_text(text0, 0)
    refuse_long_text(text1, 1)
    first, _ = read_one(text0, 0)
    second, semicolon = read_one(text1, 1)
    if first.unrooted != second.unrooted:
        raise Refused(OTHER_KIND, 1, semicolon)
    if first.labels != second.labels:
        raise Refused(OTHER_LABELS, 1, semicolon)
    return one_move_apart(first, second)


@returns_refusal
def table(text):
    """The canonical texts of a table and their ends."""
    return table_of(read_table(text))


@returns_refusal
def graph(text):
    """The graph of a table without a stated choice: copies are merged."""
    return merged_graph(read_table(text))


@returns_refusal
def graph_choosing(text, merge):
    """The graph of a table, with copies merged or kept apart as stated."""
    trees = read_table(text)
    return merged_graph(trees) if merge else graph_apart(trees)


@returns_refusal
def interchanges(text):
    """The pairs of trees one interchange apart, and the counts of these."""
    trees = read_table(text, rooted_only=True)
    pairs = pairs_of_positions(trees, reached_by_interchange)
    return Interchanges(pairs, neighbour_counts(pairs, len(trees)))


@returns_refusal
def islands(text):
    """The merged graph of a table and the number of each tree's island."""
    graph_ = merged_graph(read_table(text))
    return Islands(*graph_, island_numbers(graph_))


@returns_refusal
def support(text):
    """The clades of a table, each with its number of trees, and the majority
    tree."""
    trees = read_table(text, rooted_only=True)
    numbers = clade_numbers(trees)
    return Support(listed_clades(numbers), majority_text(trees, numbers), len(trees))


@returns_refusal
def row(text):
    """The row of a text with exactly one tree, a rooted one."""
    refuse_long_text(text, 0)
    tree, _ = read_one(text, 0, rooted_only=True)
    return row_of(tree)


@returns_refusal
def row_text(numbers):
    """The canonical text of the tree of a row."""
    return canonical_text(given_row(numbers, 0))


@returns_refusal
def row_pair(numbers0, numbers1):
    """Whether the trees of two rows are one move apart."""
    first, second = given_row(numbers0, 0), given_row(numbers1, 1)
    if first.labels != second.labels:
        raise Refused(OTHER_LABELS, 1, 0)
    return one_move_apart(first, second)


def table_of(trees):
    """The Table of trees already read."""
    texts = [canonical_text(tree) for tree in trees]
    ends = []
    written = 0
    for text in texts:
        written += len(text)
        ends.append(written)
    return Table(texts, ends)


def merged_graph(trees):
    """The Graph of trees already read, copies merged."""
    pairs = pairs_of_topologies(trees)
    return Graph(pairs, neighbour_counts(pairs, len(trees)), first_positions(trees))


def graph_apart(trees):
    """The Graph of trees already read, copies kept apart."""
    pairs = pairs_of_positions(trees, reached)
    return Graph(pairs, neighbour_counts(pairs, len(trees)), first_positions(trees))


def pairs_of_topologies(trees):
    """The pairs of first positions: one for every two topologies that occur
    and are one move apart."""
    first_of = first_by_topology(trees)
    return sorted(
        (i, first_of[made])
        for i in first_of.values()
        for made in reached(trees[i])
        if made in first_of and i < first_of[made]
    )


def pairs_of_positions(trees, reach):
    """The pairs of all positions, copies kept apart.

    `reach` gives the set of topologies that one step makes from a tree.
    """
    firsts = first_positions(trees)
    reached_from = {}  # by first position, so that copies are worked out once
    pairs = []
    for i, j in itertools.combinations(range(len(trees)), 2):
        if firsts[i] == firsts[j]:
            continue
        if firsts[i] not in reached_from:
            reached_from[firsts[i]] = reach(trees[i])
        if trees[j].topology in reached_from[firsts[i]]:
            pairs.append((i, j))
    return pairs


def neighbour_counts(pairs, length):
    """For each position below `length` the number of pairs it stands in."""
    counts = [0] * length
    for i, j in pairs:
        counts[i] += 1
        counts[j] += 1
    return counts


def first_by_topology(trees):
    """The first position of each topology that occurs, in a dictionary."""
    first_of = {}
    for position, tree in enumerate(trees):
        first_of.setdefault(tree.topology, position)
    return first_of


def first_positions(trees):
    """For each tree the first position of its topology."""
    first_of = first_by_topology(trees)
    return [first_of[tree.topology] for tree in trees]


def island_numbers(graph_):
    """For each position the smallest one that a chain of pairs joins its first
    to.

    Every first position is joined to itself, by the chain of no pairs.
    """
    neighbours = [[] for _ in graph_.counts]
    for i, j in graph_.pairs:
        neighbours[i].append(j)
        neighbours[j].append(i)
    numbers = {}  # by first position
    for first in graph_.firsts:
        if first not in numbers:
            island = joined_to(first, neighbours)
            numbers.update(dict.fromkeys(island, min(island)))
    return [numbers[first] for first in graph_.firsts]


def joined_to(start, neighbours):
    """The set of positions that a chain of pairs joins to this one.

    Breadth first: all positions at one distance come before the further ones.
    """
    found = {start}
    waiting = collections.deque(found)
    while waiting:
        for position in neighbours[waiting.popleft()]:
            if position not in found:
                found.add(position)
                waiting.append(position)
    return found


def clade_numbers(trees):
    """For each clade, those of one label too, the number of trees that have it."""
    return collections.Counter(clade for tree in trees for clade in tree.clades)


def listed_clades(numbers):
    """(labels, number) for each clade of two or more labels: those in more
    trees first, then by the labels.

    Tuples are compared from the start on; one that ends first is the lesser.
    """
    listed = [(tuple(sorted(clade)), number) for clade, number in numbers.items() if len(clade) >= 2]
    return sorted(listed, key=lambda item: (-item[1], item[0]))


def majority_text(trees, numbers):
    """The text of the majority tree, `;` included; empty without trees."""
    if not trees:
        return b""
    # One-label clades and the whole label set are in every tree.
    kept = [clade for clade, number in numbers.items() if 2 * number > len(trees)]
    children = collections.defaultdict(list)
    for clade in kept:
        around = [other for other in kept if clade < other]
        if around:
            children[min(around, key=len)].append(clade)
    return wide_node_text(trees[0].clade, children) + b";"


def wide_node_text(clade, children):
    """The text of the node with this clade, without `;`.

    `children` has the clades of the children of each fork, two or more.
    """
    if not children[clade]:
        (label,) = clade
        return b"%d" % label
    in_order = sorted(children[clade], key=min)
    return b"(" + b",".join(wide_node_text(child, children) for child in in_order) + b")"


# The sheets


def sheet(text):
    """What the pair lister prints for this standard input; it asks for copies
    kept apart."""
    try:
        trees = read_table(text)
    except Refused as refused:
        return refusal_line(refused.refusal)
    return sheet_of(table_of(trees), graph_apart(trees))


def interchange_sheet(text):
    """What interchanges.c prints for this standard input."""
    answer = interchanges(text)
    if isinstance(answer, Refusal):
        return refusal_line(answer)
    return lines_of([b"tree %d neighbours %d" % item for item in enumerate(answer.counts)], answer.pairs)


def graphs_sheet(text):
    """What graphs.c prints for this standard input."""
    return b"".join(graph_lines(graph_choosing(text, merge)) for merge in (True, False))


def graph_lines(answer):
    """The lines of one graph, with the first position of each tree."""
    if isinstance(answer, Refusal):
        return refusal_line(answer)
    numbers = zip(itertools.count(), answer.counts, answer.firsts)
    return lines_of([b"tree %d neighbours %d first %d" % item for item in numbers], answer.pairs)


def island_sheet(text):
    """What the program of islands prints for this standard input.

    A table without trees has no islands, and so no line.
    """
    answer = islands(text)
    if isinstance(answer, Refusal):
        return refusal_line(answer)
    sizes = collections.Counter(answer.numbers)
    return b"".join(b"island %d %d\n" % item for item in sorted(sizes.items()))


def support_sheet(text):
    """What supports.c prints for this standard input."""
    answer = support(text)
    if isinstance(answer, Refusal):
        return refusal_line(answer)
    lines = [b"trees %d clades %d bytes %d" % (answer.trees, len(answer.clades), len(answer.majority))]
    for labels, number in answer.clades:
        lines.append(b"clade %d trees %d" % (number_of(labels), number))
    lines.append(b"majority " + answer.majority)
    return b"".join(line + b"\n" for line in lines)


def rows_sheet(calls):
    """What rows.c prints for this standard input: a line for each call."""
    return b"".join(row_line(name, arguments) + b"\n" for name, arguments in row_calls(calls))


def row_calls(calls):
    """Yield the name and the arguments of each call that rows.c is asked for.

    They are `row LENGTH`, then in a line of its own a text of so many bytes, or
    `text` and a row, or `pair` and two rows.  Before the numbers of a row stands
    how many they are.
    """
    place = 0
    while place < len(calls):
        end = calls.index(b"\n", place)
        name, *words = calls[place:end].split()
        place = end + 1
        if name == b"row":
            end = place + int(words[0])
            yield name, [calls[place:end]]
            place = end + 1
        else:
            yield name, rows_in([int(word) for word in words])


def rows_in(numbers):
    """The rows in a list that has before each how many numbers it has."""
    rows = []
    while numbers:
        end = 1 + numbers[0]
        rows.append(numbers[1:end])
        numbers = numbers[end:]
    return rows


def row_line(name, arguments):
    """The line of one of these calls, without its LF."""
    answer = {b"row": row, b"text": row_text, b"pair": row_pair}[name](*arguments)
    if isinstance(answer, Refusal):
        return b"refused %d in %d at %d" % answer
    if name == b"row":
        return b" ".join([name] + [b"%d" % number for number in answer])
    return name + b" " + (answer if name == b"text" else b"yes" if answer else b"no")


def refusal_line(refusal):
    """The sheet of a refused text."""
    return b"refused %d at %d\n" % (refusal.number, refusal.place)


def sheet_of(table_, graph_):
    """The pair lister's sheet of an accepted table."""
    texts = table_.texts
    linked = set(graph_.pairs) | {(j, i) for i, j in graph_.pairs}
    tree_lines = []
    for i, (text, neighbours) in enumerate(zip(texts, graph_.counts)):
        # Equal canonical texts are equal topologies.
        unlinked = sum(other != text and (i, j) not in linked for j, other in enumerate(texts))
        tree_lines.append(b"tree %d neighbours %d unlinked %d %s" % (i, neighbours, unlinked, text))
    return lines_of(tree_lines, graph_.pairs)


def lines_of(tree_lines, pairs):
    """The numbers of trees and pairs, a line for each tree, a line for each
    pair; every line ends in one LF."""
    lines = [b"trees %d pairs %d" % (len(tree_lines), len(pairs))]
    lines += tree_lines
    lines += [b"pair %d %d" % pair_ for pair_ in pairs]
    return b"".join(line + b"\n" for line in lines)


def main(arguments):
    """Standard input to standard output."""
    parser = argparse.ArgumentParser(description="Print the sheet of the trees on standard input.")
    parser.add_argument("--islands", action="store_true",
                        help="print the sheet of the program of islands")
    options = parser.parse_args(arguments)
    chosen = island_sheet if options.islands else sheet
    sys.stdout.buffer.write(chosen(sys.stdin.buffer.read()))


if __name__ == "__main__":
    main(sys.argv[1:])
