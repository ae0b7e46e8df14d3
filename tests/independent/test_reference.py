#!/usr/bin/env python3
"""Checks of reference.py: the samples of document 01, the order of refusals,
and properties that hold for all trees of each kind and all rows, tried on all
small and on random ones.

    python3 test_reference.py
"""

import ast
import collections
import itertools
import os
import random
import subprocess
import sys
import unittest

import compare
import generate
import generate_rows
import reference
from reference import (
    cut, form, graph, graph_choosing, interchange_sheet, interchanges, island_sheet, islands, pair, row, row_pair,
    row_text, rows_sheet, sheet, support, support_sheet, table,
)

HERE = os.path.dirname(os.path.abspath(__file__))

SAMPLE_INPUT = b"((2,1),3);\n(3,(2,1));\n(1,(2,3));\n((1,3),2);\n"
SAMPLE_SHEET = b"""\
trees 4 pairs 5
tree 0 neighbours 2 unlinked 0 ((1,2),3);
tree 1 neighbours 2 unlinked 0 ((1,2),3);
tree 2 neighbours 3 unlinked 0 (1,(2,3));
tree 3 neighbours 3 unlinked 0 ((1,3),2);
pair 0 2
pair 0 3
pair 1 2
pair 1 3
pair 2 3
"""

LEFT_COMB = generate.plain([generate.left_comb(list(range(1, 65)))])
RIGHT_COMB = generate.plain([generate.right_comb(list(range(1, 65)))])
OPEN_63 = b"(" * 63

UNROOTED_COMB = generate.plain([generate.Unrooted((1, 2, generate.right_comb(list(range(3, 65)))))])
UNROOTED_INPUT = b"[&U](2,1,(3,(4,5)));\n[&U] ((1,2),3,(5,4));\n[&U](1,4,(3,(2,5)));\n[&U](1,2,(4,(3,5)));\n"
UNROOTED_SHEET = b"""\
trees 4 pairs 3
tree 0 neighbours 1 unlinked 1 [&U](1,2,(3,(4,5)));
tree 1 neighbours 1 unlinked 1 [&U](1,2,(3,(4,5)));
tree 2 neighbours 1 unlinked 2 [&U](1,((2,5),3),4);
tree 3 neighbours 3 unlinked 0 [&U](1,2,((3,5),4));
pair 0 3
pair 1 3
pair 2 3
"""


def tree_of(text):
    """The tree of a text that holds exactly one."""
    tree, _ = reference.read_one(text, 0)
    return tree


def text_of(nested):
    """The text of a nested tuple, children as they stand."""
    return generate.plain([nested])


def kept_apart(text):
    """The graph with copies kept apart."""
    return graph_choosing(text, merge=False)


def random_pairs(seed, count, sizes, rooting=generate.ROOTED):
    """Random pairs of the generator's trees on one label set: the second is 0, 1
    or 2 random moves away from the first, or unrelated."""
    rng = random.Random(seed)
    for _ in range(count):
        labels = generate.random_labels(rng, rng.choice(sizes))
        first = rooting.grow(rng, labels)
        second = first
        moves = rng.choice((0, 1, 2, None))
        if moves is None:
            second = rooting.grow(rng, labels)
        else:
            for _ in range(moves):
                second = generate.random_move(rng, second)
        yield first, generate.swapped(rng, second)


def texts_with_copies(seed, count, rooting=generate.ROOTED):
    """Tables of the kinds that have copies, in any layout."""
    rng = random.Random(seed)
    for _ in range(count):
        make = rng.choice((generate.usual_table, generate.repeats_table, generate.island_table))
        yield generate.written(rng, make(rng, rooting))


def support_tables(seed, count):
    """Tables of one or more trees, as lists, of the kinds made for support."""
    rng = random.Random(seed)
    for _ in range(count):
        make = rng.choice((
            generate.usual_table, generate.halves_table, generate.near_copies_table, generate.star_table,
            generate.many_clades_table,
        ))
        yield make(rng)


def trees_apart(seed, count):
    """So many nested tuples, no two of them equal or one move apart."""
    rng = random.Random(seed)
    trees, near = [], set()
    while len(trees) < count:
        tree = generate.random_tree(rng, range(1, 11))
        if generate.shape(tree) not in near:
            trees.append(tree)
            near.update(map(generate.shape, [tree] + generate.all_moves(tree)))
    return trees


# Forests, worked out from clade sets alone.  They are used in this file only.


def forest(clades, pruned):
    """The two components' topologies when the clade `pruned` is cut off.

    The remainder's clades are the others with the pruned labels taken out.
    The node that the pruned subtree hung from then has its sibling's clade,
    so it is closed up by itself.  The remainder stands first: a forest keeps
    which of the two holds the old root.
    """
    remainder = frozenset(clade - pruned for clade in clades if not clade <= pruned)
    return remainder, frozenset(clade for clade in clades if clade <= pruned)


def forests(clades):
    """The set of forests of two components that one cut makes."""
    whole = max(clades, key=len)
    return {forest(clades, clade) for clade in clades if clade != whole}


def node_from_clades(clades, clade):
    """Canonical text of the node with this clade, from the clade set alone."""
    if len(clade) == 1:
        return b"%d" % min(clade)
    below = [other for other in clades if other < clade]
    # The two largest clades below that are not inside another are the children.
    children = [one for one in below if not any(one < other for other in below)]
    first, second = sorted(children, key=min)
    return b"(%s,%s)" % (node_from_clades(clades, first), node_from_clades(clades, second))


def text_from_clades(clades):
    """The canonical text from the clade set alone."""
    return node_from_clades(clades, max(clades, key=len)) + b";"


# Unrooted trees, worked out from splits alone.  They are used in this file only.


def unrooted_forests(topology, rooted_side=True):
    """The set of forests of two components that one cut makes.

    The moved side is rooted by its cut end: it has the parts of splits that lie
    in it as clades.  The other side is unrooted: its splits are what is left of
    all splits without the moved labels, so a closed-up node's two edges are one.
    With `rooted_side` False the moved side is unrooted as well.
    """
    labels, splits = topology
    made = set()
    for cut_edge in splits:
        for moved in cut_edge:
            if rooted_side:
                component = frozenset(part for one in splits for part in one if part <= moved)
            else:
                component = restricted(splits, moved)
            made.add((moved, component, restricted(splits, labels - moved)))
    return made


def restricted(splits, labels):
    """The splits that are left of a tree's when only these labels are."""
    left = [frozenset(part & labels for part in one) for one in splits]
    return frozenset(one for one in left if frozenset() not in one)


def text_from_splits(topology):
    """The canonical text of an unrooted tree from its splits alone.

    The parts without the smallest label are the clades of the node that this
    label's edge leads to, whose two children stand behind it.
    """
    labels, splits = topology
    smallest = min(labels)
    if len(labels) == 1:
        return b"[&U]%d;" % smallest
    clades = {part for one in splits for part in one if smallest not in part}
    behind = node_from_clades(clades, labels - {smallest})
    if len(labels) > 2:
        behind = behind[1:-1]
    return b"[&U](%d,%s);" % (smallest, behind)


def topology_of_edges(edges):
    """The topology of the unrooted tree with these edges, each split found by
    taking its edge out."""
    labels = frozenset(node for one in edges for node in one if node > 0)
    splits = set()
    for one in edges:
        reached = {one[0]}
        while True:
            further = {node for other in edges - {one} for node in other if reached & set(other)}
            if further <= reached:
                break
            reached |= further
        splits.add(frozenset((labels & reached, labels - reached)))
    return labels, frozenset(splits)


# Chains, worked out without a search.  They are used in this file only.


def joined_matrix(count, pairs):
    """Row i, column j: whether a chain of pairs joins i and j.

    Warshall's closure: chains may pass through one position more each time.
    """
    joined = [[i == j or (i, j) in pairs or (j, i) in pairs for j in range(count)] for i in range(count)]
    for middle in range(count):
        for row in joined:
            if row[middle]:
                row[:] = [one or other for one, other in zip(row, joined[middle])]
    return joined


# Support, worked out clade by clade from nested tuples.  It is used in this file
# only.


def label_sets(nested):
    """The label sets of all nodes of nested tuples, the root's last; a fork may
    have any number of children."""
    if not isinstance(nested, tuple):
        return [{nested}]
    below = [label_sets(child) for child in nested]
    return sum(below, []) + [set().union(*(sets[-1] for sets in below))]


def as_number(labels):
    """The number of a clade, label by label."""
    number = 0
    for label in labels:
        number |= 1 << (label - 1)
    return number


def before(one, other):
    """Whether the first of two lists of labels is the lesser: at the first
    place where they differ, it has the smaller label or has ended."""
    for label, other_label in itertools.zip_longest(one, other, fillvalue=0):
        if label != other_label:
            return label < other_label
    return False


class Samples(unittest.TestCase):
    """Every sample of document 01."""

    def test_forms(self):
        """Canonical texts."""
        self.assertEqual(form(b"(3,(2,1));"), b"((1,2),3);")
        self.assertEqual(form(b"(10,2);"), b"(2,10);")
        self.assertEqual(form(b" 7 ;"), b"7;")
        self.assertEqual(form(b"(1,64);"), b"(1,64);")

    def test_refused_forms(self):
        """Refusals in the form call."""
        self.assertEqual(form(b"(1,2,3);"), (1, 0, 4))
        self.assertEqual(form(b"(1,2)"), (1, 0, 5))
        self.assertEqual(form(b"(1,2);x"), (1, 0, 6))
        self.assertEqual(form(b"(1,1);"), (3, 0, 3))
        self.assertEqual(form(b"(1,65);"), (2, 0, 3))
        self.assertEqual(form(b""), (1, 0, 0))

    def test_empty_table(self):
        """The empty text is a table of no trees."""
        self.assertEqual(table(b""), ([], []))
        self.assertEqual(graph(b""), ([], [], []))
        self.assertEqual(kept_apart(b""), ([], [], []))
        self.assertEqual(interchanges(b""), ([], []))
        self.assertEqual(islands(b""), ([], [], [], []))
        self.assertEqual(support(b""), ([], b"", 0))
        self.assertEqual(sheet(b""), b"trees 0 pairs 0\n")

    def test_other_labels(self):
        """A later tree on other labels."""
        self.assertEqual(table(b"(1,2);(1,3);"), (5, 0, 11))
        self.assertEqual(graph(b"(1,2);(1,3);"), (5, 0, 11))
        self.assertEqual(kept_apart(b"(1,2);(1,3);"), (5, 0, 11))
        self.assertEqual(interchanges(b"(1,2);(1,3);"), (5, 0, 11))
        self.assertEqual(islands(b"(1,2);(1,3);"), (5, 0, 11))
        self.assertEqual(support(b"(1,2);(1,3);"), (5, 0, 11))

    def test_cuts(self):
        """All cuts of the four-leaf sample, and none of a single leaf."""
        expected = [
            b"(3,4) (1,2);", b"(2,(3,4)) 1;", b"(1,(3,4)) 2;",
            b"(1,2) (3,4);", b"((1,2),4) 3;", b"((1,2),3) 4;",
        ]
        self.assertEqual([cut(b"((1,2),(3,4));", c) for c in range(6)], expected)
        self.assertEqual(cut(b"((1,2),(3,4));", 6), (9, 0, 0))
        self.assertEqual(cut(b" 7 ;", 0), (9, 0, 0))

    def test_pair_by_three_forests(self):
        """One pair, although three forests are shared."""
        first, second = b"(((1,2),3),4);", b"((1,2),(3,4));"
        self.assertIs(pair(first, second), True)
        self.assertEqual(graph(first + second), ([(0, 1)], [1, 1], [0, 1]))
        self.assertEqual(kept_apart(first + second), ([(0, 1)], [1, 1], [0, 1]))
        shared = forests(tree_of(first).clades) & forests(tree_of(second).clades)
        self.assertEqual(len(shared), 3)

    def test_no_pairs(self):
        """The two samples that are not one move apart."""
        self.assertIs(pair(b"(((1,2),3),4);", b"(((3,4),1),2);"), False)
        self.assertIs(pair(b"((((4,5),1),2),3);", b"((((1,2),3),4),5);"), False)

    def test_open_brackets(self):
        """63 open brackets with 64 leaves; the 64th bracket."""
        self.assertEqual(form(LEFT_COMB), LEFT_COMB)
        self.assertEqual(form(RIGHT_COMB), RIGHT_COMB)
        self.assertEqual(form(OPEN_63 + b"("), (4, 0, 63))
        self.assertEqual(form(RIGHT_COMB.replace(b"64", b"(64,1)")), (4, 0, RIGHT_COMB.index(b"64")))

    def test_160_trees(self):
        """160 trees, and one more."""
        self.assertEqual(len(table(b"(1,2);" * 160).texts), 160)
        self.assertEqual(table(b"(1,2);" * 161), (6, 0, 960))
        self.assertEqual(graph(b"(1,2);" * 161), (6, 0, 960))
        self.assertEqual(kept_apart(b"(1,2);" * 161), (6, 0, 960))
        self.assertEqual(interchanges(b"(1,2);" * 161), (6, 0, 960))
        self.assertEqual(islands(b"(1,2);" * 161), (6, 0, 960))
        self.assertEqual(support(b"(1,2);" * 161), (6, 0, 960))

    def test_sheet(self):
        """The whole sample sheet."""
        self.assertEqual(sheet(SAMPLE_INPUT), SAMPLE_SHEET)

    def test_longest_texts(self):
        """309 bytes for a canonical text, 307 for a forest text."""
        self.assertEqual(len(form(LEFT_COMB)), 309)
        self.assertEqual({len(cut(LEFT_COMB, c)) for c in range(126)}, {307})
        self.assertEqual(cut(LEFT_COMB, 126), (9, 0, 0))
        ends = table(LEFT_COMB * 160).ends
        self.assertEqual(ends, [309 * (i + 1) for i in range(160)])


class Refusals(unittest.TestCase):
    """The refusal list and its order, beyond the samples."""

    def check(self, call, expected):
        """Each text of the dictionary is refused by `call` as it says."""
        for text, refusal in expected.items():
            with self.subTest(text=text[:60]):
                self.assertEqual(call(text), refusal)

    def test_bytes_and_ends(self):
        """Refusal 1 in a single tree."""
        self.check(form, {
            b" ": (1, 0, 1), b"\t\r\n ": (1, 0, 4), b";": (1, 0, 0), b"()": (1, 0, 1),
            b"(1);": (1, 0, 2), b"(1,);": (1, 0, 3), b"(1 2,3);": (1, 0, 3), b"1 ": (1, 0, 2),
            b"(1,2)3;": (1, 0, 5), b"(1,2)065;": (1, 0, 5), b"1 1;": (1, 0, 2), b"1;1;": (1, 0, 2),
            b"1; \x00": (1, 0, 3), b"\x0b1;": (1, 0, 0), b"1\xa0;": (1, 0, 1), b"(1(2,3));": (1, 0, 2),
            b"\xb2;": (1, 0, 0), b"(1,2); \n ": b"(1,2);",
        })

    def test_labels(self):
        """Refusals 2 and 3; 2 goes before 3; a run may end with the text."""
        self.check(form, {
            b"0;": (2, 0, 0), b"000;": (2, 0, 0), b"065;": (2, 0, 0), b"65;": (2, 0, 0), b"100;": (2, 0, 0),
            b"257;": (2, 0, 0), b"(1,18446744073709551618);": (2, 0, 3),
            b"(01,1);": (3, 0, 4), b"(1,065": (2, 0, 3), b"(1,65": (2, 0, 3), b"(1,1": (3, 0, 3), b"(1,6": (1, 0, 4),
            b"(1,1x": (3, 0, 3), b"(1,65x": (2, 0, 3), b"(1,10);": b"(1,10);", b"(12,2": (1, 0, 5),
            b"(1," + b"9" * 60000 + b");": (2, 0, 3), b"0" * 65535: (2, 0, 0),
            b"007;": b"7;", b"(010,2);": b"(2,10);", b"0" * 60000 + b"7;": b"7;", b"(1,0 2);": (2, 0, 3),
        })

    def test_zeros_before_labels(self):
        """A text with zeros put before its labels has the same canonical text."""
        rng = random.Random(4)
        for _ in range(300):
            trees = generate.usual_table(rng)
            tokens = generate.table_tokens(trees)
            padded = [b"0" * rng.randrange(4) + token if token.isdigit() else token for token in tokens]
            self.assertEqual(table(b"".join(padded)), table(b"".join(tokens)))

    def test_labels_of_trees_are_apart(self):
        """A label may come again in the next tree."""
        self.assertEqual(table(b"1;1;"), ([b"1;", b"1;"], [2, 4]))

    def test_depth(self):
        """Refusal 4 only where a node may begin."""
        self.check(form, {
            OPEN_63: (1, 0, 63), OPEN_63 + b" (": (4, 0, 64), OPEN_63 + b"1(": (1, 0, 64),
            OPEN_63 + b"1,2(": (1, 0, 66), OPEN_63 + b"1,2)(": (1, 0, 67),
            OPEN_63 + b"1,2),(": (1, 0, 69), OPEN_63 + b"1,2),((": (4, 0, 69),
            OPEN_63 + b"1,(": (4, 0, 65), b"(" * 65535: (4, 0, 63),
        })

    def test_label_sets(self):
        """Refusal 5 stands at the `;`, and is tried only there."""
        self.check(table, {
            b"1;2;": (5, 0, 3), b"(1,2);1;": (5, 0, 7), b"1;(1,2);": (5, 0, 7),
            b"(1,2);(1,3)x": (1, 0, 11), b"(1,2);(1,3)": (1, 0, 11), b"(1,2);(1,3);x": (5, 0, 11),
            b"(1,2);(1,3) \n;": (5, 0, 13), b"(1,2);(3,3);": (3, 0, 9), b"(1,64);(1,63);": (5, 0, 13),
            b"1;1;2;x": (5, 0, 5), b"1;1x;2;": (1, 0, 3),
        })

    def test_number_of_trees(self):
        """Refusal 6 for any byte but a blank after 160 trees."""
        full = b"1;" * 160
        for extra in (b"x", b"1;", b"2;", b"0", b"(", b";", b"\x00", b"\xff"):
            self.assertEqual(table(full + extra), (6, 0, 320))
            self.assertEqual(table(full + b" \n" + extra), (6, 0, 322))
        self.assertEqual(len(table(full + b" \t\r\n").texts), 160)
        self.assertEqual(table(full[2:] + b"2;x"), (5, 0, 319))
        self.assertEqual(table(full[2:] + b"x"), (1, 0, 318))

    def test_length(self):
        """Refusal 8 before any byte."""
        self.check(form, {
            b"1;" + b" " * 65533: b"1;", b"1;" + b" " * 65534: (8, 0, 0),
            b"x" * 65535: (1, 0, 0), b"x" * 65536: (8, 0, 0),
        })
        self.assertEqual(table(b" " * 65535), ([], []))
        self.assertEqual(table(b" " * 65536), (8, 0, 0))
        self.assertEqual(cut(b" " * 65536, 0), (8, 0, 0))

    def test_blanks_only(self):
        """Blanks alone are a table of no trees; in a cut or pair, refusal 1."""
        self.assertEqual(table(b" \t\r\n"), ([], []))
        self.assertEqual(cut(b" \t", 0), (1, 0, 2))
        self.assertEqual(pair(b"", b""), (1, 0, 0))
        self.assertEqual(pair(b"1;", b"  "), (1, 1, 2))

    def test_cut_numbers(self):
        """Refusal 9 comes after every refusal of the text."""
        self.assertEqual(cut(b"(1,2);", 1), b"1 2;")
        self.assertEqual(cut(b"(1,2);", 2), (9, 0, 0))
        self.assertEqual(cut(b"(1,2);", 2 ** 64), (9, 0, 0))
        self.assertEqual(cut(b"(1,2)", 9), (1, 0, 5))
        self.assertEqual(cut(b"(1,2); x", 9), (1, 0, 7))
        self.assertRaises(ValueError, cut, b"(1,2);", -1)

    def test_pair_order(self):
        """Lengths, then text 0, then text 1, then the label sets."""
        long = b"1;" + b" " * 65534
        self.assertEqual(pair(long, long), (8, 0, 0))
        self.assertEqual(pair(b"x", long), (8, 1, 0))
        self.assertEqual(pair(b"1;x", b"x"), (1, 0, 2))
        self.assertEqual(pair(b"1;", b"2;x"), (1, 1, 2))
        self.assertEqual(pair(b"1;", b" 2 ; "), (5, 1, 3))
        self.assertEqual(pair(b"(1,2);", b"(1,1);"), (3, 1, 3))
        self.assertIs(pair(b"1;", b"1;"), False)

    def test_sheet_of_a_refusal(self):
        """One line, no more."""
        self.assertEqual(sheet(b"(1,2,3);"), b"refused 1 at 4\n")
        self.assertEqual(sheet(b"x" * 65536), b"refused 8 at 0\n")
        self.assertEqual(interchange_sheet(b"(1,2,3);"), b"refused 1 at 4\n")
        self.assertEqual(interchange_sheet(b"x" * 65536), b"refused 8 at 0\n")
        self.assertEqual(island_sheet(b"(1,2,3);"), b"refused 1 at 4\n")
        self.assertEqual(island_sheet(b"x" * 65536), b"refused 8 at 0\n")
        self.assertEqual(support_sheet(b"(1,2,3);"), b"refused 1 at 4\n")
        self.assertEqual(support_sheet(b"x" * 65536), b"refused 8 at 0\n")
        self.assertEqual(sheet(b"1;"), b"trees 1 pairs 0\ntree 0 neighbours 0 unlinked 0 1;\n")


class Interchanges(unittest.TestCase):
    """Known cases of the interchange graph."""

    def results(self, text):
        """The canonical texts of all interchanges' results, in order."""
        return sorted(map(reference.canonical_text, reference.interchanged(tree_of(text))))

    def test_results(self):
        """Every node but the root and its children moves above its aunt."""
        self.assertEqual(self.results(b"1;"), [])
        self.assertEqual(self.results(b"(1,2);"), [])
        self.assertEqual(self.results(b"((10,2),9);"), [b"((2,9),10);", b"(2,(9,10));"])
        self.assertEqual(self.results(b"((1,2),(3,4));"), [
            b"(((1,2),3),4);", b"(((1,2),4),3);", b"((1,(3,4)),2);", b"(1,(2,(3,4)));",
        ])
        self.assertEqual(self.results(b"(((1,2),3),4);"), [
            b"(((1,2),4),3);", b"(((1,3),2),4);", b"((1,(2,3)),4);", b"((1,2),(3,4));",
        ])

    def test_moves_that_are_no_interchange(self):
        """Three trees one move from each other; one interchange joins two."""
        text = b"(((1,2),3),4);((1,2),(3,4));(((1,4),2),3);"
        self.assertEqual(graph(text).pairs, [(0, 1), (0, 2), (1, 2)])
        self.assertEqual(interchanges(text), ([(0, 1)], [1, 1, 0]))

    def test_copies(self):
        """Copies are kept apart and are no pair of their own."""
        self.assertEqual(interchanges(b"((1,2),3);(3,(2,1));"), ([], [0, 0]))
        self.assertEqual(interchanges(SAMPLE_INPUT), kept_apart(SAMPLE_INPUT)[:2])
        self.assertEqual(len(interchanges(SAMPLE_INPUT).pairs), 5)

    def test_sheet(self):
        """The lister's sheet without the unlinked numbers and the texts."""
        self.assertEqual(interchange_sheet(b"((1,2),3);((1,3),2);((1,2),3);"), b"""\
trees 3 pairs 2
tree 0 neighbours 1
tree 1 neighbours 2
tree 2 neighbours 1
pair 0 1
pair 1 2
""")
        self.assertEqual(interchange_sheet(b""), b"trees 0 pairs 0\n")


class Copies(unittest.TestCase):
    """Known cases of the graph with copies merged and with copies kept apart."""

    def check(self, text, firsts, merged, apart):
        """The table has these firsts, and these pairs and counts for each
        choice; the call without a choice merges."""
        self.assertEqual(graph(text), merged + (firsts,))
        self.assertEqual(graph_choosing(text, merge=True), merged + (firsts,))
        self.assertEqual(kept_apart(text), apart + (firsts,))

    def test_graphs_sheet(self):
        """Both graphs, one after the other; a refused text has its line twice."""
        self.assertEqual(reference.graphs_sheet(b"((2,1),3);(3,(2,1));(1,(2,3));"), (
            b"trees 3 pairs 1\ntree 0 neighbours 1 first 0\ntree 1 neighbours 0 first 0\n"
            b"tree 2 neighbours 1 first 2\npair 0 2\n"
            b"trees 3 pairs 2\ntree 0 neighbours 1 first 0\ntree 1 neighbours 1 first 0\n"
            b"tree 2 neighbours 2 first 2\npair 0 2\npair 1 2\n"
        ))
        self.assertEqual(reference.graphs_sheet(b""), b"trees 0 pairs 0\n" * 2)
        self.assertEqual(reference.graphs_sheet(b"(1,1);"), b"refused 3 at 3\n" * 2)

    def test_sample(self):
        """Document 01's table: tree 1 is a copy of tree 0."""
        self.check(
            SAMPLE_INPUT, [0, 0, 2, 3], ([(0, 2), (0, 3), (2, 3)], [2, 0, 2, 2]),
            ([(0, 2), (0, 3), (1, 2), (1, 3), (2, 3)], [2, 2, 3, 3]))

    def test_copies_only(self):
        """One topology has no pairs."""
        for tree in (b"7;", b"(1,2);", LEFT_COMB):
            self.check(tree * 3, [0, 0, 0], ([], [0, 0, 0]), ([], [0, 0, 0]))

    def test_no_copies(self):
        """Without copies the choice changes nothing."""
        text = b"(((1,2),3),4);((1,2),(3,4));(((3,4),1),2);"
        answer = ([(0, 1), (1, 2)], [1, 2, 1])
        self.check(text, [0, 1, 2], answer, answer)

    def test_places_of_copies(self):
        """A copy next to its first, or with their neighbour between them, or
        behind the neighbour as its first is; and copies of both."""
        one, copy, other = b"((1,2),3);", b"(3,(2,1));", b"((1,3),2);"
        self.check(one + copy + other, [0, 0, 2], ([(0, 2)], [1, 0, 1]), ([(0, 2), (1, 2)], [1, 1, 2]))
        self.check(one + other + copy, [0, 1, 0], ([(0, 1)], [1, 1, 0]), ([(0, 1), (1, 2)], [1, 2, 1]))
        self.check(other + one + copy, [0, 1, 1], ([(0, 1)], [1, 1, 0]), ([(0, 1), (0, 2)], [2, 1, 1]))
        self.check(
            one + other + copy + other, [0, 1, 0, 1], ([(0, 1)], [1, 1, 0, 0]),
            ([(0, 1), (0, 3), (1, 2), (2, 3)], [2, 2, 2, 2]))

    def test_writing(self):
        """A copy is one by its topology, however it is written."""
        text = b"((10,2),(3,4));\n( (4, 3 ) ,(02,010));\n((2,3),(10,4));((4,3),(10,2));"
        self.check(text, [0, 0, 2, 0], ([], [0] * 4), ([], [0] * 4))

    def test_order_of_pairs(self):
        """Pairs of first positions are ordered, with copies between them."""
        trees = [b"((1,2),3);", b"((1,3),2);", b"(1,(2,3));"]
        for order in itertools.permutations(trees):
            text = order[0] + order[1] + order[0] + order[1] + order[2]
            self.assertEqual(graph(text), ([(0, 1), (0, 4), (1, 4)], [2, 2, 0, 0, 2], [0, 1, 0, 1, 4]))

    def test_full_tables(self):
        """160 trees of three topologies, each a neighbour of the other two."""
        text = b"((1,2),3);((1,3),2);(1,(2,3));" * 53 + b"((3,2),1);"
        apart = kept_apart(text)
        self.assertEqual(graph(text), (
            [(0, 1), (0, 2), (1, 2)], [2, 2, 2] + [0] * 157, [0, 1, 2] * 53 + [2]))
        self.assertEqual(len(apart.pairs), 53 * 53 + 2 * 53 * 54)
        self.assertEqual(apart.counts, [107, 107, 106] * 53 + [106])
        self.assertEqual(apart.firsts, graph(text).firsts)

    def test_sheet(self):
        """The lister's sheet has the pairs and counts of copies too."""
        self.assertEqual(sheet(b"((1,2),3);((1,3),2);(3,(2,1));"), b"""\
trees 3 pairs 2
tree 0 neighbours 1 unlinked 0 ((1,2),3);
tree 1 neighbours 2 unlinked 0 ((1,3),2);
tree 2 neighbours 1 unlinked 0 ((1,2),3);
pair 0 1
pair 1 2
""")

    def test_refused(self):
        """The same refusal, whatever the choice."""
        for text in (b"(1,2,3);", b"(1,65);", b"(1,1);", OPEN_63 + b"(", b"1;2;", b"1;" * 161, b" " * 65536):
            self.assertIsInstance(graph(text), reference.Refusal)
            self.assertEqual(graph(text), table(text))
            for merge in (False, True):
                self.assertEqual(graph_choosing(text, merge), graph(text))


class Islands(unittest.TestCase):
    """Known cases of islands."""

    def check(self, text, pairs, numbers, expected):
        """The table has these pairs, island numbers and island sheet."""
        answer = islands(text)
        self.assertEqual(answer.pairs, pairs)
        self.assertEqual(answer.numbers, numbers)
        self.assertEqual(island_sheet(text), expected)

    def test_sample(self):
        """Document 01's table is one island of 4."""
        self.check(SAMPLE_INPUT, [(0, 2), (0, 3), (2, 3)], [0, 0, 0, 0], b"island 0 4\n")

    def test_no_trees(self):
        """A table without trees has no line."""
        self.check(b"", [], [], b"")
        self.check(b" \t\r\n", [], [], b"")

    def test_one_tree(self):
        """One tree is an island."""
        self.check(b" 7 ;", [], [0], b"island 0 1\n")

    def test_unrelated_trees(self):
        """Without pairs every tree is an island."""
        text = b"(((1,2),3),4);(((1,4),3),2);(1,((2,4),3));"
        self.check(text, [], [0, 1, 2], b"island 0 1\nisland 1 1\nisland 2 1\n")

    def test_two_islands(self):
        """Each has the number of its first tree, though they are mixed."""
        text = (
            b"(((((1,6),3),5),2),4);\n(((((3,4),5),6),1),2);\n(((((1,2),3),4),5),6);\n"
            b"(((((1,6),3),5),4),2);\n(((((2,3),4),5),6),1);\n"
        )
        pairs = [(0, 3), (1, 4), (2, 4)]
        self.check(text, pairs, [0, 1, 1, 0, 1], b"island 0 2\nisland 1 3\n")

    def test_chain(self):
        """The ends of a chain are in one island, wherever its middle stands."""
        first, middle, last = b"(((1,2),3),4);", b"((1,2),(3,4));", b"(((3,4),1),2);"
        self.assertIs(pair(first, last), False)
        self.check(first + middle + last, [(0, 1), (1, 2)], [0, 0, 0], b"island 0 3\n")
        self.check(middle + first + last, [(0, 1), (0, 2)], [0, 0, 0], b"island 0 3\n")
        self.check(first + last + middle, [(0, 2), (1, 2)], [0, 0, 0], b"island 0 3\n")

    def test_long_chain(self):
        """A comb turned one label at a time, in order and in other orders."""
        labels = list(range(1, 11))
        combs = [text_of(generate.left_comb(labels[k:] + labels[:k])) for k in range(9)]
        # The ends are neighbours of those next to them only.
        self.assertEqual(graph(b"".join(combs)).counts, [1, 2, 2, 2, 2, 2, 2, 2, 1])
        rng = random.Random(21)
        for order in [combs, combs[::-1], combs[::2] + combs[1::2]] + [rng.sample(combs, 9) for _ in range(20)]:
            self.assertEqual(island_sheet(b"".join(order)), b"island 0 9\n")
        self.assertEqual(island_sheet(b"".join(combs[:4] + combs[5:])), b"island 0 4\nisland 4 4\n")

    def test_copies(self):
        """A copy has the island of its first, with or without pairs."""
        self.assertEqual(islands(b"(1,2);(1,2);(1,2);"), ([], [0, 0, 0], [0, 0, 0], [0, 0, 0]))
        self.check(b"(1,2);(1,2);(1,2);", [], [0, 0, 0], b"island 0 3\n")
        self.check(b"((1,2),3);(3,(2,1));((1,3),2);", [(0, 2)], [0, 0, 0], b"island 0 3\n")
        self.check(b"((1,2),3);((1,3),2);(3,(2,1));", [(0, 1)], [0, 0, 0], b"island 0 3\n")
        # Two copies that stand alone, beside two neighbours.
        self.check(
            b"(((1,2),3),4);((1,(3,4)),2);(4,(3,(2,1)));(1,(2,(3,4)));",
            [(1, 3)], [0, 1, 0, 1], b"island 0 2\nisland 1 2\n")

    def test_copy_of_a_later_tree(self):
        """The number is the island's smallest position, which is not always
        the first of the copy."""
        alone, one, other = b"(((1,2),3),4);", b"((1,(3,4)),2);", b"(1,(2,(3,4)));"
        self.check(
            alone + one + other + other + alone, [(1, 2)], [0, 1, 1, 1, 0], b"island 0 2\nisland 1 3\n")
        self.check(
            one + alone + other + alone + other, [(0, 2)], [0, 1, 0, 1, 0], b"island 0 3\nisland 1 2\n")

    def test_full_tables(self):
        """One island of 160 copies, and one that its last tree joins; 160
        islands of one."""
        self.assertEqual(islands(b"(1,2);" * 160).numbers, [0] * 160)
        self.assertEqual(island_sheet(b"(1,2);" * 160), b"island 0 160\n")
        self.assertEqual(island_sheet(b"((1,2),3);" * 159 + b"((1,3),2);"), b"island 0 160\n")
        text = generate.plain(trees_apart(24, 160))
        self.assertEqual(islands(text), ([], [0] * 160, list(range(160)), list(range(160))))
        self.assertEqual(island_sheet(text), b"".join(b"island %d 1\n" % k for k in range(160)))

    def test_refused(self):
        """The lister's line, and nothing else."""
        for text in (b"(1,2,3);", b"(1,65);", b"(1,1);", OPEN_63 + b"(", b"1;2;", b"1;" * 161, b" " * 65536):
            self.assertEqual(islands(text), graph(text))
            self.assertIsInstance(islands(text), reference.Refusal)
            self.assertEqual(island_sheet(text), sheet(text))


class Support(unittest.TestCase):
    """Known cases of support and majority trees."""

    def check(self, text, clades, majority):
        """The table has these clades, each with its number of trees and in this
        order, and this majority tree."""
        answer = support(text)
        self.assertEqual(answer.clades, clades)
        self.assertEqual(answer.majority, majority)
        self.assertEqual(answer.trees, text.count(b";"))

    def test_sample(self):
        """Document 01's table: tree 1 is a copy of tree 0, and counts."""
        self.check(SAMPLE_INPUT, [((1, 2, 3), 4), ((1, 2), 2), ((1, 3), 1), ((2, 3), 1)], b"(1,2,3);")

    def test_no_trees(self):
        """No clades and no text, not even a `;`."""
        self.check(b"", [], b"")
        self.check(b" \t\r\n", [], b"")
        self.assertEqual(support_sheet(b""), b"trees 0 clades 0 bytes 0\nmajority \n")

    def test_one_leaf(self):
        """A clade of one label is not listed."""
        self.check(b" 7 ;", [], b"7;")
        self.check(b"64;" * 160, [], b"64;")

    def test_two_leaves(self):
        """The whole label set is listed."""
        self.check(b"(10,2);", [((2, 10), 1)], b"(2,10);")

    def test_one_tree(self):
        """All clades are in every tree, and the majority tree is the tree."""
        self.check(
            b"((4,3),(5,(1,2)));", [((1, 2), 1), ((1, 2, 3, 4, 5), 1), ((1, 2, 5), 1), ((3, 4), 1)],
            b"(((1,2),5),(3,4));")

    def test_order(self):
        """Clades in one tree each: by labels from the smallest on, whichever
        tree they are from, and a list that ends first is the lesser."""
        trees = [b"(((1,2),3),4);", b"((1,3),(2,4));", b"((2,3),(1,4));"]
        clades = [(1, 2), (1, 2, 3), (1, 3), (1, 4), (2, 3), (2, 4)]
        for order in itertools.permutations(trees):
            self.check(b"".join(order), [((1, 2, 3, 4), 3)] + [(clade, 1) for clade in clades], b"(1,2,3,4);")
        # The whole label set is no exception.
        self.check(b"(1,(2,3));", [((1, 2, 3), 1), ((2, 3), 1)], b"(1,(2,3));")
        self.check(b"((1,2),3);", [((1, 2), 1), ((1, 2, 3), 1)], b"((1,2),3);")
        # Labels are compared as numbers.
        self.check(b"((2,10),(9,64));", [((2, 9, 10, 64), 1), ((2, 10), 1), ((9, 64), 1)], b"((2,10),(9,64));")

    def test_more_trees_first(self):
        """A greater number goes before lesser labels."""
        self.check(
            b"((1,2),(3,4));(1,(2,(3,4)));", [((1, 2, 3, 4), 2), ((3, 4), 2), ((1, 2), 1), ((2, 3, 4), 1)],
            b"(1,2,(3,4));")

    def test_half(self):
        """Half of the trees is no majority; one tree more is."""
        one, other = b"((1,2),3);", b"((1,3),2);"
        for times in (1, 2, 3, 80):
            self.check(
                one * times + other * times, [((1, 2, 3), 2 * times), ((1, 2), times), ((1, 3), times)], b"(1,2,3);")
        for more, fewer in ((2, 1), (3, 1), (3, 2), (80, 79), (81, 79)):
            both = more + fewer
            self.check(
                one * more + other * fewer, [((1, 2, 3), both), ((1, 2), more), ((1, 3), fewer)], b"((1,2),3);")
            self.check(
                one * fewer + other * more, [((1, 2, 3), both), ((1, 3), more), ((1, 2), fewer)], b"((1,3),2);")

    def test_copies(self):
        """Copies count, however they are written: without them each clade of
        two labels would be in one tree of two."""
        self.check(b"((1,2),3);(3,(02,1));((1,3),2);", [((1, 2, 3), 3), ((1, 2), 2), ((1, 3), 1)], b"((1,2),3);")
        self.check(b"((3,2),(1,4));" * 160, [((1, 2, 3, 4), 160), ((1, 4), 160), ((2, 3), 160)], b"((1,4),(2,3));")

    def test_star(self):
        """No majority but the whole label set."""
        self.check(
            b"((1,2),3);((1,3),2);(1,(2,3));", [((1, 2, 3), 3), ((1, 2), 1), ((1, 3), 1), ((2, 3), 1)], b"(1,2,3);")
        for size in (3, 4, 5):
            answer = support(generate.plain(generate.all_trees((10, 2, 64, 9, 33)[:size])))
            self.assertEqual(answer.majority, (b"(2,10,64);", b"(2,9,10,64);", b"(2,9,10,33,64);")[size - 3])

    def test_wide_forks(self):
        """Three children at the root, below it, and at both."""
        self.check(
            b"(((1,2),3),4);((1,2),(3,4));", [((1, 2), 2), ((1, 2, 3, 4), 2), ((1, 2, 3), 1), ((3, 4), 1)],
            b"((1,2),3,4);")
        self.check(
            b"(((1,2),3),4);((1,(2,3)),4);", [((1, 2, 3), 2), ((1, 2, 3, 4), 2), ((1, 2), 1), ((2, 3), 1)],
            b"((1,2,3),4);")
        self.assertEqual(support(b"((((1,2),3),4),5);((4,5),(1,(2,3)));").majority, b"((1,2,3),4,5);")

    def test_majority_of_no_tree(self):
        """The majority clades may come from different trees."""
        text = b"((((1,2),3),4),5);((1,2),(3,(4,5)));(((1,3),2),(4,5));"
        self.assertEqual(support(text).majority, b"(((1,2),3),(4,5));")
        self.assertNotIn(b"(((1,2),3),(4,5));", table(text).texts)

    def test_children_by_number(self):
        """The child of the smallest label first, 2 before 10, at forks of any
        number of children."""
        self.assertEqual(support(b"(10,2);").majority, b"(2,10);")
        self.assertEqual(support(b"((10,2),9);((10,9),2);").majority, b"(2,9,10);")
        self.assertEqual(support(b"((10,11),(64,2));").majority, b"((2,64),(10,11));")
        self.assertEqual(
            support(b"(((11,20),3),(10,(64,2)));(((11,20),10),(3,(64,2)));").majority, b"((2,64),3,10,(11,20));")

    def test_numbers_on_the_sheet(self):
        """Label L is bit L - 1."""
        self.assertEqual(support_sheet(b"((2,1),64);(2,(1,64));"), b"""\
trees 2 clades 3 bytes 9
clade 9223372036854775811 trees 2
clade 3 trees 1
clade 9223372036854775809 trees 1
majority (1,2,64);
""")
        self.assertEqual(
            support_sheet(LEFT_COMB).splitlines()[-2:],
            [b"clade 18446744073709551615 trees 1", b"majority " + LEFT_COMB])

    def test_full_tables(self):
        """160 trees of 64 leaves: one comb, two combs in 80 trees each, and
        trees that share no clade but the whole label set."""
        answer = support(LEFT_COMB * 160)
        self.assertEqual(answer.clades, [(tuple(range(1, size + 1)), 160) for size in range(2, 65)])
        self.assertEqual((answer.majority, answer.trees), (LEFT_COMB, 160))
        answer = support(LEFT_COMB * 80 + RIGHT_COMB * 80)
        self.assertEqual(answer.clades[0], (tuple(range(1, 65)), 160))
        self.assertEqual({number for _, number in answer.clades[1:]}, {80})
        self.assertEqual(len(answer.clades), 1 + 62 + 62)
        self.assertEqual(answer.majority, b"(" + b",".join(b"%d" % label for label in range(1, 65)) + b");")
        answer = support(generate.plain(generate.full_of_strangers(random.Random(31))))
        self.assertEqual(len(answer.clades), 9921)
        self.assertEqual(answer.majority.count(b"("), 1)

    def test_refused(self):
        """As in the table call."""
        for text in (b"(1,2,3);", b"(1,65);", b"(1,1);", OPEN_63 + b"(", b"1;2;", b"1;" * 161, b" " * 65536):
            self.assertIsInstance(support(text), reference.Refusal)
            self.assertEqual(support(text), table(text))
            self.assertEqual(support_sheet(text), sheet(text))


class UnrootedTexts(unittest.TestCase):
    """Marks, kinds, and the texts of unrooted trees."""

    def check(self, call, expected):
        """Each text of the dictionary gives what it says."""
        for text, answer in expected.items():
            with self.subTest(text=text[:60]):
                self.assertEqual(call(text), answer)

    def test_forms(self):
        """The top is next to the smallest label, children by smallest label."""
        self.check(form, {
            b"[&U]7;": b"[&U]7;", b" [&U]\t007 ;\n": b"[&U]7;", b"[&U](10,2);": b"[&U](2,10);",
            b"[&U](3,1,2);": b"[&U](1,2,3);", b"[&U](10,2,1);": b"[&U](1,2,10);",
            b"[&U]((1,2),(3,4),5);": b"[&U](1,2,((3,4),5));", b"[&U](5,(4,3),(2,1));": b"[&U](1,2,((3,4),5));",
            b"[&U](4,(1,2),3);": b"[&U](1,2,(3,4));", b"[&U](1,4,(3,(2,5)));": b"[&U](1,((2,5),3),4);",
            b"[&U]((10,9),(2,64),33);": b"[&U](2,((9,10),33),64);",
            b"[&U]((1,2),(3,4),(5,6));": b"[&U](1,2,((3,4),(5,6)));",
        })

    def test_rooted_mark(self):
        """The mark of a rooted tree is read and not written."""
        self.check(form, {
            b"[&R]7;": b"7;", b"\n[&R] ( 3,(2,1));": b"((1,2),3);", b"[&R](10,2);": b"(2,10);",
        })
        self.assertEqual(cut(b"[&R](1,2);", 1), b"1 2;")
        self.assertEqual(table(b"[&R](1,2);(2,1);\n [&R]\n(1,2);"), ([b"(1,2);"] * 3, [6, 12, 18]))
        self.assertIs(pair(b"[&R]((1,2),3);", b"((1,3),2);"), True)

    def test_tables(self):
        """Ends count the mark."""
        self.assertEqual(table(b"[&U]7;[&U] 7;"), ([b"[&U]7;", b"[&U]7;"], [6, 12]))
        self.assertEqual(
            table(b"[&U](3,2,1);\n[&U](2,1,3);\n"), ([b"[&U](1,2,3);", b"[&U](1,2,3);"], [12, 24]))

    def test_longest(self):
        """311 bytes: the mark, 64 labels, 62 forks and 63 commas."""
        self.assertEqual(len(UNROOTED_COMB), 311)
        self.assertEqual(form(UNROOTED_COMB), UNROOTED_COMB)
        self.assertEqual(table(UNROOTED_COMB * 160).ends, [311 * (i + 1) for i in range(160)])

    def test_broken_marks(self):
        """Refusal 1 at the wrong byte, or at the length."""
        self.check(form, {
            b"[": (1, 0, 1), b"[&": (1, 0, 2), b"[&U": (1, 0, 3), b"[&R": (1, 0, 3), b"[&U]": (1, 0, 4),
            b" [&U] ": (1, 0, 6), b"[&U];": (1, 0, 4), b"[&U])": (1, 0, 4), b"[&U]x": (1, 0, 4),
            b"[&u]1;": (1, 0, 2), b"[&r]1;": (1, 0, 2), b"[&X]1;": (1, 0, 2), b"[U]1;": (1, 0, 1), b"[]1;": (1, 0, 1),
            b"[&UR]1;": (1, 0, 3), b"[&U}1;": (1, 0, 3), b"[&U)1;": (1, 0, 3), b"[&U1;": (1, 0, 3),
            b"[ &U]1;": (1, 0, 1), b"[& U]1;": (1, 0, 2), b"[&U ]1;": (1, 0, 3), b"[\n&R]1;": (1, 0, 1),
            b"&U]1;": (1, 0, 0), b"(&U]1;": (1, 0, 1), b"{&U}1;": (1, 0, 0), b"[&U]]1;": (1, 0, 4),
            b"[[&U]1;": (1, 0, 1), b"[1,2];": (1, 0, 1),
        })

    def test_misplaced_marks(self):
        """A second mark, one inside a tree, and one behind a tree."""
        self.check(form, {
            b"[&U][&U]1;": (1, 0, 4), b"[&R] [&U]1;": (1, 0, 5), b"[&U][": (1, 0, 4), b"([&U]1,2);": (1, 0, 1),
            b"(1[&U],2);": (1, 0, 2), b"(1,[&R]2);": (1, 0, 3), b"(1,2)[&U];": (1, 0, 5), b"1 [&R];": (1, 0, 2),
            b"1;[&U]": (1, 0, 2), b"1;[&U]1;": (1, 0, 2), b"[&U](1,2,[&U]3);": (1, 0, 9),
        })
        self.check(table, {
            b"1;[": (1, 0, 3), b"1;[&R": (1, 0, 5), b"1;[&R]": (1, 0, 6), b"1;[&U] ": (1, 0, 7),
            b"[&U]1;[&U]": (1, 0, 10), b"1;[&R]x": (1, 0, 6), b"1;[&R][&R]1;": (1, 0, 6),
        })

    def test_children(self):
        """Refusal 1 at the comma or the closing bracket that shows a wrong number
        of children."""
        self.check(form, {
            b"[&U](1);": (1, 0, 6), b"[&U]((1,2));": (1, 0, 10), b"[&U](1,2,(3));": (1, 0, 11), b"(1);": (1, 0, 2),
            b"[&U]((1,2),3);": (1, 0, 12), b"[&U](1,(2,3));": (1, 0, 12), b"[&U]((1,2) ,3 \n);": (1, 0, 15),
            b"[&U]((1,2),(3,4));": (1, 0, 16), b"[&U](((1,2),3),4);": (1, 0, 16),
            b"[&U](1,2,3,4);": (1, 0, 10), b"[&U]((1,2),3,4,5);": (1, 0, 14), b"[&U](1,2,3 ,": (1, 0, 11),
            b"[&U](1,2,(3,4,5));": (1, 0, 13), b"[&U]((1,2,3),4,5);": (1, 0, 9),
            b"[&R](1,2,3);": (1, 0, 8), b"((1,2),3,4);": (1, 0, 8), b"((1,2,3),4);": (1, 0, 5),
        })

    def test_other_faults(self):
        """Other bytes and ends where children are counted; labels go before the
        number of children that would be wrong behind them."""
        self.check(form, {
            b"[&U](1,2": (1, 0, 8), b"[&U](1,2;": (1, 0, 8), b"[&U](1,2,": (1, 0, 9), b"[&U](1,2,)": (1, 0, 9),
            b"[&U](1,2,3": (1, 0, 10), b"[&U](1,2,3;": (1, 0, 10), b"[&U]((1,2),3;": (1, 0, 12),
            b"[&U]((1,2),3": (1, 0, 12), b"[&U](1,2)3;": (1, 0, 9), b"[&U](1,2,3)4;": (1, 0, 11),
            b"[&U](1,1);": (3, 0, 7), b"[&U](1,2,2);": (3, 0, 9), b"[&U](1,2,65);": (2, 0, 9), b"[&U]0;": (2, 0, 4),
            b"[&U]((1,2),2);": (3, 0, 11), b"[&U](1,2);x": (1, 0, 10), b"[&U](1,2)": (1, 0, 9),
        })

    def test_depth(self):
        """At most 63 brackets, the top's among them and the mark's not."""
        self.check(form, {
            b"[&U]" + OPEN_63: (1, 0, 67), b"[&U]" + OPEN_63 + b"(": (4, 0, 67), b"[&R] " + OPEN_63 + b"(": (4, 0, 68),
            b"[&U]" + OPEN_63 + b"1(": (1, 0, 68), b"[&U]" + OPEN_63 + b"[": (1, 0, 67),
            UNROOTED_COMB.replace(b"(63,64)", b"(63,(64,1))"): (3, 0, UNROOTED_COMB.index(b"64") + 4),
        })

    def test_mixed_kinds(self):
        """Refusal 10 at the `;` of the first tree of the other kind, before 5."""
        expected = {
            b"1;[&U]1;": (10, 0, 7), b"[&U]1;1;": (10, 0, 7), b"[&U]1;[&R]1;": (10, 0, 11), b"1;[&U]1 \n;": (10, 0, 9),
            b"1;[&U]1;1;": (10, 0, 7), b"1;1;[&U]1;": (10, 0, 9), b"(1,2);[&U](1,3);": (10, 0, 15),
            b"[&U](1,2,3);(1,2);": (10, 0, 17), b"1;2;[&U]1;": (5, 0, 3), b"1;[&U]1;2;": (10, 0, 7),
            b"1;[&U]1": (1, 0, 7), b"1;[&U]1;x": (10, 0, 7), b"1;[&U]1x;": (1, 0, 7), b"1;[&U](1,1);": (3, 0, 9),
            b"[&U]1;[&U]2;": (5, 0, 11), b"[&U](1,2);[&U](1,2,3);": (5, 0, 21),
        }
        for call in (table, graph, kept_apart, islands):
            self.check(call, expected)

    def test_rooted_only(self):
        """Refusal 10 at the `;` of the first unrooted tree, which may be the first
        tree, whatever stands behind it."""
        expected = {
            b"[&U]1;": (10, 0, 5), b"[&U](1,2,3) ;": (10, 0, 12), b"[&U]1;x": (10, 0, 5), b"[&U]1;2;": (10, 0, 5),
            b"1;[&U]1;": (10, 0, 7), b"1;[&U]2;": (10, 0, 7), b"1;2;[&U]1;": (5, 0, 3), b"[&U]1": (1, 0, 5),
            b"[&U]65;": (2, 0, 4), b"[&U]((1,2),3);": (1, 0, 12), b"[&u]1;": (1, 0, 2),
        }
        for call in (interchanges, support):
            self.check(call, expected)
        self.assertEqual(interchange_sheet(b"[&U](1,2,3);"), b"refused 10 at 11\n")
        self.assertEqual(support_sheet(b"[&U](1,2,3);"), b"refused 10 at 11\n")
        self.assertEqual(support(b"[&R](2,1);"), support(b"(1,2);"))

    def test_cut(self):
        """Refusal 10 at the `;`, before what stands behind it and before 9."""
        self.check(lambda text: cut(text, 9), {
            b"[&U](1,2);": (10, 0, 9), b"[&U]7;": (10, 0, 5), b"[&U](1,2);x": (10, 0, 9), b"[&U](1,2); (": (10, 0, 9),
            b"[&U](1,2)": (1, 0, 9), b"[&U](1,2)x;": (1, 0, 9), b"[&U](1,1);": (3, 0, 7), b"[&R](1,2);": (9, 0, 0),
        })
        self.assertEqual(cut(b"[&U](1,2);", 0), (10, 0, 9))

    def test_pair(self):
        """Both texts whole, then 10, then 5, both at the `;` of text 1."""
        self.assertEqual(pair(b"[&U]1;", b"1;"), (10, 1, 1))
        self.assertEqual(pair(b"1;", b" [&U]2 ; "), (10, 1, 7))
        self.assertEqual(pair(b"[&U]1;", b"2;"), (10, 1, 1))
        self.assertEqual(pair(b"[&U]1;", b"2;x"), (1, 1, 2))
        self.assertEqual(pair(b"[&U]1;x", b"1;"), (1, 0, 6))
        self.assertEqual(pair(b"[&U]1;", b"[&U]2;"), (5, 1, 5))
        self.assertEqual(pair(b"[&R]1;", b"2;"), (5, 1, 1))
        self.assertIs(pair(b"[&U]1;", b"[&U]1;"), False)

    def test_number_of_trees(self):
        """After 160 trees any byte is 6; the 160th may be of the other kind."""
        for tree in (b"1;", b"[&U]1;"):
            full = tree * 160
            for extra in (b"[", b"[&U]1;", b"[&R]1;", b"1;", b"x", b"]"):
                self.assertEqual(table(full + extra), (6, 0, len(full)))
                self.assertEqual(graph(full + b" \n" + extra), (6, 0, len(full) + 2))
            self.assertEqual(len(table(full).texts), 160)
        self.assertEqual(table(b"1;" * 159 + b"[&U]1;"), (10, 0, 323))
        self.assertEqual(table(b"[&U]1;" * 159 + b"1;x"), (10, 0, 955))

    def test_length(self):
        """A mark may end with the longest text."""
        self.check(table, {
            b" " * 65531 + b"[&U]": (1, 0, 65535), b" " * 65534 + b"[": (1, 0, 65535),
            b" " * 65532 + b"[&U]": (8, 0, 0),
        })


class UnrootedPairs(unittest.TestCase):
    """Known cases of pairs, graphs and islands of unrooted trees."""

    def test_sheets(self):
        """The sheets of a small table, worked out by hand."""
        self.assertEqual(sheet(UNROOTED_INPUT), UNROOTED_SHEET)
        self.assertEqual(island_sheet(UNROOTED_INPUT), b"island 0 4\n")
        self.assertEqual(graph(UNROOTED_INPUT), ([(0, 3), (2, 3)], [1, 0, 1, 2], [0, 0, 2, 3]))
        self.assertEqual(kept_apart(UNROOTED_INPUT), ([(0, 3), (1, 3), (2, 3)], [1, 1, 1, 3], [0, 0, 2, 3]))
        self.assertEqual(islands(UNROOTED_INPUT).numbers, [0, 0, 0, 0])
        # The last tree joins the others.
        without_last = b"".join(UNROOTED_INPUT.splitlines()[:3])
        self.assertEqual(island_sheet(without_last), b"island 0 2\nisland 2 1\n")
        self.assertEqual(reference.graphs_sheet(without_last), (
            b"trees 3 pairs 0\ntree 0 neighbours 0 first 0\ntree 1 neighbours 0 first 0\n"
            b"tree 2 neighbours 0 first 2\n"
        ) * 2)

    def test_few_leaves(self):
        """Up to three leaves there is one topology; four leaves have three, each a
        neighbour of the others."""
        for tree in (b"[&U]7;", b"[&U](1,2);", b"[&U](1,2,3);"):
            self.assertIs(pair(tree, tree), False)
        self.assertEqual(sheet(b"[&U](1,2);[&U](2,1);"), b"""\
trees 2 pairs 0
tree 0 neighbours 0 unlinked 0 [&U](1,2);
tree 1 neighbours 0 unlinked 0 [&U](1,2);
""")
        quartets = b"[&U](1,2,(3,4));[&U](1,3,(2,4));[&U](1,4,(2,3));"
        self.assertEqual(graph(quartets), ([(0, 1), (0, 2), (1, 2)], [2, 2, 2], [0, 1, 2]))

    def test_copies(self):
        """A copy may have its top at any inner node and any order."""
        text = b"[&U](1,2,(3,4));[&U]((2,1),4,3);[&U](3,(1,2),4);[&U](2,(4,3),1);[&U](1,3,(2,4));"
        self.assertEqual(graph(text).firsts, [0, 0, 0, 0, 4])
        self.assertEqual(graph(text).pairs, [(0, 4)])
        self.assertEqual(kept_apart(text).pairs, [(0, 4), (1, 4), (2, 4), (3, 4)])

    def test_only_the_middle_stays(self):
        """Five leaves: without any one leaf the rest is another quartet."""
        tree = b"[&U](1,2,(3,(4,5)));"
        for other in (b"[&U](1,4,(3,(2,5)));", b"[&U](1,5,(3,(2,4)));"):
            self.assertIs(pair(tree, other), False)
            self.assertIs(pair(other, tree), False)
        # These two, and the tree itself.
        all_texts = map(text_of, generate.all_unrooted_trees((1, 2, 3, 4, 5)))
        self.assertEqual(sum(not pair(tree, other) for other in all_texts), 3)

    def test_smallest_label_moves(self):
        """The side with the smallest label may be the moved one.  If it had to
        stay, its edge would be a root, and these would be two moves apart."""
        self.assertIs(pair(b"[&U](1,2,(3,(4,(5,6))));", b"[&U](1,2,(((3,4),5),6));"), True)
        self.assertIs(pair(b"(3,(4,(5,6)));", b"(((3,4),5),6);"), False)

    def test_larger_side_moves(self):
        """The side with more leaves may be the moved one: five leaves move on the
        other four, and no smaller side could."""
        one = b"[&U]((1,((5,6),((7,8),9))),2,(3,4));"
        other = b"[&U]((4,((5,6),((7,8),9))),3,(1,2));"
        self.assertIs(pair(one, other), True)
        shared = unrooted_forests(tree_of(one).topology) & unrooted_forests(tree_of(other).topology)
        self.assertEqual({moved for moved, _, _ in shared}, {frozenset((5, 6, 7, 8, 9))})

    def test_cut_end(self):
        """The moved side is joined by its cut end: three and three leaves, where
        one side or both would be joined by another place."""
        tree = b"[&U]((1,2),3,((4,5),6));"
        self.assertIs(pair(tree, b"[&U]((1,3),2,((4,5),6));"), True)
        self.assertIs(pair(tree, b"[&U]((1,2),3,((4,6),5));"), True)
        self.assertIs(pair(tree, b"[&U]((1,3),2,((4,6),5));"), False)

    def test_refused(self):
        """The same refusal in all calls for tables of both kinds."""
        for text in (b"1;[&U]1;", b"[&U]((1,2),3);", b"[&u]1;", b"[&U]1;[&U]2;", b"[&U]1;" * 161):
            self.assertIsInstance(graph(text), reference.Refusal)
            self.assertEqual(graph(text), table(text))
            self.assertEqual(kept_apart(text), table(text))
            self.assertEqual(islands(text), table(text))
            self.assertEqual(island_sheet(text), sheet(text))
            self.assertEqual(sheet(text), b"refused %d at %d\n" % (table(text).number, table(text).place))


class Rows(unittest.TestCase):
    """Text to row, row to text and the pair test on rows, and their refusals."""

    def test_rows(self):
        """The label set, then the clades ascending as numbers."""
        for text, numbers in (
                (b"7;", [64]), (b"64;", [2 ** 63]), (b"(2,1);", [3, 3]), (b"(3,(2,1));", [7, 3, 7]),
                (b"((2,3),1);", [7, 6, 7]), (b"((1,2),(3,4));", [15, 3, 12, 15]), (b"((1,4),(2,3));", [15, 6, 9, 15]),
                (b"[&R] ( 64 , ( 2 , 01 ) ) ;", [2 ** 63 + 3, 3, 2 ** 63 + 3])):
            self.assertEqual(row(text), numbers)
            self.assertEqual(row_text(numbers), form(text))

    def test_largest(self):
        """64 numbers, and 309 bytes."""
        for text in (LEFT_COMB, RIGHT_COMB):
            self.assertEqual(len(row(text)), 64)
            self.assertEqual(row_text(row(text)), text)
        self.assertEqual(row(LEFT_COMB)[1:], [2 ** leaves - 1 for leaves in range(2, 65)])

    def test_refused_texts(self):
        """As in the form call, but that an unrooted tree is 10 at its `;`."""
        for _, text in generate.fixed_cases():
            answer, other = row(text), form(text)
            if isinstance(answer, reference.Refusal):
                self.assertIn(answer, (other, (10, 0, answer.place)))
            else:
                self.assertEqual(row_text(answer), other)
        for text, place in ((b"[&U]7;", 5), (b"[&U]7;x", 5), (b"[&U](1,2,3) ;(", 12)):
            self.assertEqual(row(text), (10, 0, place))
        self.assertEqual(row(b"[&U]7"), (1, 0, 5))
        self.assertEqual(row(b"[&U]7;" + b" " * 65530), (8, 0, 0))

    def test_no_rows(self):
        """Each part of what a row is, left out."""
        for numbers in (
                [], [0], [0, 0], [1, 1], [3], [3, 3, 3], [3, 1], [3, 0], [7, 7], [7, 3], [7, 3, 7, 7], [7, 7, 3],
                [7, 3, 3], [7, 3, 6], [7, 1, 7], [7, 0, 7], [7, 3, 15], [11, 3, 7], [15, 3, 7], [3, 3, 7],
                [15, 3, 7, 11], [15, 3, 12], [15, 12, 3, 15], [15, 3, 5, 15], [15, 3, 6, 15], [15, 7, 15, 15], [15, 3, 12, 14]):
            self.assertEqual(row_text(numbers), (11, 0, 0), numbers)
            self.assertEqual(row_pair(numbers, [1]), (11, 0, 0), numbers)
            self.assertEqual(row_pair([1], numbers), (11, 1, 0), numbers)
            self.assertEqual(row_pair(numbers, numbers), (11, 0, 0), numbers)

    def test_pairs(self):
        """Yes, no, equal; then other labels, which are at row 1."""
        self.assertIs(row_pair([15, 3, 7, 15], [15, 3, 12, 15]), True)
        self.assertIs(row_pair([15, 3, 7, 15], [15, 12, 13, 15]), False)
        self.assertIs(row_pair([7, 3, 7], [7, 3, 7]), False)
        self.assertIs(row_pair([1], [1]), False)
        self.assertEqual(row_pair([1], [2]), (5, 1, 0))
        self.assertEqual(row_pair([7, 3, 7], [3, 3]), (5, 1, 0))
        self.assertEqual(row_pair([7, 3, 7], [11, 3, 11]), (5, 1, 0))

    def test_sheet(self):
        """A line for each call, whatever bytes a text has."""
        calls = (
            b"row 6\n(1,2);\ntext 3 7 6 7\npair 1 1 1 1\npair 3 7 3 7 3 7 6 7\nrow 3\n\n\r;\ntext 0\n"
            b"pair 1 1 0\nrow 0\n\n"
        )
        expected = (
            b"row 3 3\ntext (1,(2,3));\npair no\npair yes\nrefused 1 in 0 at 2\nrefused 11 in 0 at 0\n"
            b"refused 11 in 1 at 0\nrefused 1 in 0 at 0\n"
        )
        self.assertEqual(rows_sheet(calls), expected)
        self.assertEqual(rows_sheet(b""), b"")


class AllSmallRows(unittest.TestCase):
    """Properties tried on all lists for few labels, and on random rows."""

    def test_rows_are_those_of_trees(self):
        """A list is a row exactly when it is among the rows of all trees on its
        label set, which are listed; and so it is when nothing is wrong in it."""
        rows = {}
        for size in range(5):
            for labels in itertools.combinations((1, 2, 3, 4), size):
                self.note_rows(rows, labels)
        for labels in generate_rows.LABEL_SETS:
            self.note_rows(rows, labels)
        accepted = set()
        for numbers in generate_rows.all_small_rows():
            answer = row_text(numbers)
            self.assertEqual(answer, rows.get(tuple(numbers), (11, 0, 0)), numbers)
            self.assertEqual(compare.row_fault(numbers) is None, tuple(numbers) in rows, numbers)
            if tuple(numbers) in rows:
                accepted.add(tuple(numbers))
        # 3 labels: 3 + 3 + 3 rows.  4 labels: 15 rows for each of three sets.
        self.assertEqual(len(accepted), 9 + 45)

    def note_rows(self, rows, labels):
        """Add the rows of all trees on these labels, with their texts."""
        for nested in generate.all_trees(labels) if labels else ():
            sets = [as_number(clade) for clade in label_sets(nested) if len(clade) > 1]
            rows[(as_number(labels),) + tuple(sorted(sets))] = form(text_of(nested))

    def test_rows_are_topologies(self):
        """As many rows as topologies, and the pair test on rows is that on
        texts."""
        for size, expected in zip(range(1, 6), (1, 1, 3, 15, 105)):
            texts = [text_of(nested) for nested in generate.all_trees((10, 2, 64, 9, 33)[:size])]
            self.assertEqual(len({tuple(row(text)) for text in texts}), expected)
            for text, other in itertools.product(texts, texts[::7]):
                self.assertEqual(row_pair(row(text), row(other)), pair(text, other))

    def test_random_trees(self):
        """The row does not depend on how a tree is written, leads back to its
        canonical text, and is the generator's."""
        rng = random.Random(61)
        for _ in range(60):
            tree = generate_rows.random_tree(rng)
            numbers = row(text_of(tree))
            self.assertEqual(numbers, row(text_of(generate.swapped(rng, tree))))
            self.assertEqual(numbers, generate_rows.row(tree))
            self.assertEqual(row_text(numbers), form(text_of(tree)))
            self.assertEqual(row(row_text(numbers)), numbers)

    def test_random_pairs(self):
        """The pair test on rows is that on texts."""
        for nested in random_pairs(62, 60, range(3, 13)):
            texts = list(map(text_of, nested))
            self.assertEqual(row_pair(*map(row, texts)), pair(*texts))

    def test_damaged_rows(self):
        """A damaged row is that of no tree exactly when something is wrong in it,
        which is told by comparing every two; else it is the row of its text."""
        rng = random.Random(63)
        accepted = 0
        for _ in range(1500):
            numbers = generate_rows.damaged(rng, generate_rows.row(generate_rows.random_tree(rng)))
            text = row_text(numbers)
            self.assertEqual(text == (11, 0, 0), compare.row_fault(numbers) is not None, numbers)
            if text != (11, 0, 0):
                self.assertEqual(row(text), numbers)
                accepted += 1
        self.assertTrue(50 < accepted < 700, accepted)


class AllSmallTrees(unittest.TestCase):
    """Properties tried on every topology of up to five leaves."""

    def setUp(self):
        """Trees of each size on scattered labels, as read from their texts."""
        labels = (10, 2, 64, 9, 33)
        self.by_size = {
            size: [tree_of(text_of(nested)) for nested in generate.all_trees(labels[:size])]
            for size in range(1, 6)
        }

    def test_number_of_topologies(self):
        """1, 1, 3, 15, 105 clade sets, and as many canonical texts."""
        for size, expected in zip(range(1, 6), (1, 1, 3, 15, 105)):
            trees = self.by_size[size]
            self.assertEqual(len({tree.clades for tree in trees}), expected)
            self.assertEqual(len({reference.canonical_text(tree) for tree in trees}), expected)

    def test_pair_is_symmetric(self):
        """A move from the first to the second goes back too."""
        for trees in self.by_size.values():
            reached = {tree.clades: reference.reached(tree) for tree in trees}
            for first, second in itertools.combinations(reached, 2):
                self.assertEqual(second in reached[first], first in reached[second])

    def test_lemma_2_2(self):
        """Distinct trees: one move apart exactly if they share a forest."""
        for trees in self.by_size.values():
            for first in trees:
                reached = reference.reached(first)
                own = forests(first.clades)
                for second in trees:
                    if first.clades != second.clades:
                        shared = not own.isdisjoint(forests(second.clades))
                        self.assertEqual(second.clades in reached, shared)

    def test_interchange_is_symmetric(self):
        """An interchange from the first to the second goes back too."""
        for trees in self.by_size.values():
            reached = {tree.clades: reference.reached_by_interchange(tree) for tree in trees}
            for first, second in itertools.combinations(reached, 2):
                self.assertEqual(second in reached[first], first in reached[second])

    def test_interchanges_are_moves(self):
        """What an interchange makes, a move makes; it is never the tree."""
        for trees in self.by_size.values():
            for tree in trees:
                reached = reference.reached_by_interchange(tree)
                self.assertLessEqual(reached, reference.reached(tree))
                self.assertNotIn(tree.clades, reached)

    def test_number_of_interchanges(self):
        """n leaves give 2(n - 2) interchanges, no two of them alike."""
        for size, expected in zip(range(1, 6), (0, 0, 2, 4, 6)):
            for tree in self.by_size[size]:
                self.assertEqual(len(list(reference.interchanged(tree))), expected)
                self.assertEqual(len(reference.reached_by_interchange(tree)), expected)

    def test_interchange_changes_one_clade(self):
        """One interchange apart exactly if all clades but one are shared."""
        for trees in self.by_size.values():
            for first in trees:
                reached = reference.reached_by_interchange(first)
                for second in trees:
                    changed = len(first.clades - second.clades)
                    self.assertEqual(second.clades in reached, changed == 1)

    def test_copies_behind_all_topologies(self):
        """Copies behind all others leave the merged pairs as they were."""
        for trees in self.by_size.values():
            texts = [reference.canonical_text(tree) for tree in trees]
            alone = graph(b"".join(texts))
            self.assertEqual(alone, kept_apart(b"".join(texts)))
            self.assertEqual(alone.firsts, list(range(len(texts))))
            copied = list(range(len(texts)))[:160 - len(texts)][::-1]
            merged = graph(b"".join(texts + [texts[k] for k in copied]))
            self.assertEqual(merged.pairs, alone.pairs)
            self.assertEqual(merged.counts, alone.counts + [0] * len(copied))
            self.assertEqual(merged.firsts, alone.firsts + copied)

    def test_support_of_all_topologies(self):
        """A clade's number is that of the topologies of its labels, times that
        of the others with it as one leaf."""
        topologies = (0, 1, 1, 3, 15, 105)
        for size in range(2, 6):
            answer = support(b"".join(map(reference.canonical_text, self.by_size[size])))
            self.assertEqual(len(answer.clades), 2 ** size - size - 1)
            for labels, number in answer.clades:
                self.assertEqual(number, topologies[len(labels)] * topologies[size - len(labels) + 1])

    def test_results_are_trees(self):
        """Every topology that a move gives is one of the possible ones."""
        for trees in self.by_size.values():
            possible = {tree.clades for tree in trees}
            for tree in trees:
                self.assertLessEqual(reference.reached(tree), possible)


class AllSmallUnrootedTrees(unittest.TestCase):
    """Properties tried on every unrooted topology of up to six leaves."""

    LABELS = (10, 2, 64, 9, 33, 1)

    def setUp(self):
        """Trees of each size on scattered labels, as read from their texts."""
        self.by_size = {
            size: [tree_of(text_of(tree)) for tree in generate.all_unrooted_trees(self.LABELS[:size])]
            for size in range(1, 7)
        }

    def test_number_of_topologies(self):
        """1, 1, 1, 3, 15, 105 topologies of 2n - 3 splits each, and as many
        canonical texts."""
        for size, expected in zip(range(1, 7), (1, 1, 1, 3, 15, 105)):
            trees = self.by_size[size]
            self.assertEqual(len({tree.topology for tree in trees}), expected)
            self.assertEqual(len({reference.canonical_text(tree) for tree in trees}), expected)
            for tree in trees:
                self.assertEqual(tree.labels, set(self.LABELS[:size]))
                self.assertEqual(len(tree.topology[1]), max(0, 2 * size - 3))

    def test_number_of_neighbours(self):
        """2(n - 3)(2n - 7) from three leaves on.  One leaf and two have no move;
        the others have one that changes nothing."""
        for size, trees in self.by_size.items():
            for tree in trees:
                made = reference.reached(tree)
                self.assertEqual(tree.topology in made, size >= 3)
                expected = 2 * (size - 3) * (2 * size - 7) if size >= 3 else 0
                self.assertEqual(len(made - {tree.topology}), expected)

    def test_pair_is_symmetric(self):
        """A move from the first to the second goes back too."""
        for trees in self.by_size.values():
            reached = {tree.topology: reference.reached(tree) for tree in trees}
            for first, second in itertools.combinations(reached, 2):
                self.assertEqual(second in reached[first], first in reached[second])

    def test_lemma_2_3(self):
        """Distinct trees: one move apart exactly if they share a forest whose
        moved side is rooted and whose other side is not."""
        for trees in self.by_size.values():
            own = {tree.topology: unrooted_forests(tree.topology) for tree in trees}
            for first in trees:
                reached = reference.reached(first)
                for second in trees:
                    if first.topology != second.topology:
                        shared = not own[first.topology].isdisjoint(own[second.topology])
                        self.assertEqual(second.topology in reached, shared)

    def test_moves_by_edges(self):
        """The moves made edge by edge in generate.py reach the same set, whether
        the results are read as texts or their edges are taken out one by one."""
        for size in range(1, 7):
            for tree in generate.all_unrooted_trees(self.LABELS[:size]):
                made = reference.reached(tree_of(text_of(tree)))
                self.assertEqual({tree_of(text_of(moved)).topology for moved in generate.all_moves(tree)}, made)
                literal = map(topology_of_edges, generate.all_edge_moves(generate.edges_of(tree)))
                self.assertEqual(set(literal), made)

    def test_what_the_definition_needs(self):
        """With six leaves there are trees that are no neighbours because the moved
        side has to be joined by its cut end, and neighbours only because the
        side with the smallest label may move."""
        trees = [tree.topology for tree in self.by_size[6]]
        reached = reference.reached(self.by_size[6][0])
        own = unrooted_forests(trees[0])
        unrooted = unrooted_forests(trees[0], rooted_side=False)
        cut_end, smallest = 0, 0
        for other in trees[1:]:
            if other not in reached:
                cut_end += not unrooted.isdisjoint(unrooted_forests(other, rooted_side=False))
            else:
                shared = own & unrooted_forests(other)
                smallest += all(1 in moved for moved, _, _ in shared)
        self.assertGreater(cut_end, 0)
        self.assertGreater(smallest, 0)

    def test_results_are_trees(self):
        """Every topology that a move gives is one of the possible ones."""
        for trees in self.by_size.values():
            possible = {tree.topology for tree in trees}
            for tree in trees:
                self.assertLessEqual(reference.reached(tree), possible)

    def test_all_ways_of_writing(self):
        """All of them give one topology and one canonical text, which is among
        them."""
        for size, expected in ((3, 6), (4, 24), (5, 72)):
            for edges in generate.all_edge_sets(self.LABELS[:size]):
                texts = [text_of(layout) for layout in generate.all_layouts(edges)]
                self.assertEqual(len(set(texts)), expected)
                (canonical,) = set(map(form, texts))
                self.assertIn(canonical, texts)
                self.assertEqual(len({tree_of(text).topology for text in texts}), 1)
                self.assertEqual(canonical, text_from_splits(topology_of_edges(edges)))

    def test_rooted_moves_are_unrooted_ones(self):
        """A leaf more at the root makes a rooted tree an unrooted one; rooted
        neighbours are then unrooted neighbours, but not only they."""
        more = 0
        for size in range(2, 6):
            nested = generate.all_trees(self.LABELS[:size])
            hung = [tree_of(text_of(generate.Unrooted((63,) + tree))) for tree in nested]
            trees = [tree_of(text_of(tree)) for tree in nested]
            self.assertEqual(len({tree.topology for tree in hung}), len(trees))
            for tree, unrooted in zip(trees, hung):
                near, unrooted_near = reference.reached(tree), reference.reached(unrooted)
                for other, unrooted_other in zip(trees, hung):
                    if other.topology in near:
                        self.assertIn(unrooted_other.topology, unrooted_near)
                    else:
                        more += unrooted_other.topology in unrooted_near
        self.assertGreater(more, 0)


class RandomUnrootedTrees(unittest.TestCase):
    """Properties tried on random unrooted trees."""

    def pairs(self, seed, count, sizes):
        """Random pairs of them."""
        return random_pairs(seed, count, sizes, generate.UNROOTED)

    def test_pair_is_symmetric(self):
        """The pair call gives the same for both orders, also in a table."""
        answers = set()
        for first, second in self.pairs(41, 300, range(1, 10)):
            one, other = text_of(first), text_of(second)
            answer = pair(one, other)
            self.assertEqual(pair(other, one), answer)
            self.assertEqual(graph(one + other).pairs, [(0, 1)] if answer else [])
            answers.add(answer)
        self.assertEqual(answers, {False, True})

    def test_lemma_2_3(self):
        """Distinct trees: one move apart exactly if they share a forest."""
        answers = set()
        for first, second in self.pairs(42, 300, range(5, 12)):
            one, other = tree_of(text_of(first)), tree_of(text_of(second))
            if one.topology != other.topology:
                shared = not unrooted_forests(one.topology).isdisjoint(unrooted_forests(other.topology))
                self.assertEqual(reference.one_move_apart(one, other), shared)
                answers.add(shared)
        self.assertEqual(answers, {False, True})

    def test_moves_by_edges(self):
        """The moves made edge by edge in generate.py reach the same set."""
        for tree, _ in self.pairs(43, 60, range(1, 11)):
            literal = {tree_of(text_of(moved)).topology for moved in generate.all_moves(tree)}
            self.assertEqual(reference.reached(tree_of(text_of(tree))), literal)

    def test_number_of_neighbours(self):
        """2(n - 3)(2n - 7), and the tree itself, for larger trees too."""
        for tree, _ in self.pairs(44, 20, (7, 8, 11, 16, 25)):
            held = tree_of(text_of(tree))
            size = len(held.labels)
            self.assertEqual(len(reference.reached(held)), 2 * (size - 3) * (2 * size - 7) + 1)

    def test_largest_trees(self):
        """64 leaves: as many neighbours; a move makes a pair."""
        rng = random.Random(45)
        tree = generate.random_unrooted_tree(rng, generate.ALL_LABELS)
        held = tree_of(text_of(tree))
        made = reference.reached(held)
        self.assertEqual(len(made), 2 * 61 * 121 + 1)
        own = unrooted_forests(held.topology)
        for _ in range(10):
            moved = tree_of(text_of(generate.changing_move(rng, tree)))
            self.assertIn(moved.topology, made)
            self.assertFalse(own.isdisjoint(unrooted_forests(moved.topology)))

    def test_canonical_text(self):
        """A canonical text is its own, for any top, order and layout; it can be
        written from the splits."""
        rng = random.Random(46)
        for tree, _ in self.pairs(46, 200, (1, 2, 3, 4, 5, 8, 13, 21, 34, 64)):
            canonical = form(text_of(tree))
            self.assertEqual(form(canonical), canonical)
            self.assertEqual(form(generate.written(rng, [generate.swapped(rng, tree)])), canonical)
            self.assertEqual(canonical, text_from_splits(tree_of(text_of(tree)).topology))

    def test_texts_are_topologies(self):
        """Equal canonical texts are equal topologies, of both programs."""
        equal = 0
        for first, second in self.pairs(47, 300, range(1, 10)):
            one, other = text_of(first), text_of(second)
            same = form(one) == form(other)
            self.assertEqual(same, tree_of(one).topology == tree_of(other).topology)
            self.assertEqual(same, generate.shape(first) == generate.shape(second))
            equal += same
        self.assertGreater(equal, 50)

    def test_tables(self):
        """Firsts, counts and order of pairs in random tables, copies apart and
        merged; ends; the lister's sheet."""
        smaller = 0
        for text in texts_with_copies(48, 50, generate.UNROOTED):
            texts, ends = table(text)
            written = b"".join(texts)
            self.assertEqual([written[start:end] for start, end in zip([0] + ends, ends)], texts)
            firsts = [texts.index(one) for one in texts]
            topologies = {one: tree_of(one).topology for one in texts}
            near = {one: reference.reached(tree_of(one)) - {topologies[one]} for one in topologies}
            expected = [
                (i, j) for i, j in itertools.combinations(range(len(texts)), 2)
                if topologies[texts[j]] in near[texts[i]]
            ]
            merged, apart = graph(text), kept_apart(text)
            self.assertEqual(apart.pairs, expected)
            self.assertEqual(merged.pairs, [(i, j) for i, j in expected if firsts[i] == i and firsts[j] == j])
            lines = [b"trees %d pairs %d" % (len(texts), len(expected))]
            for i, own in enumerate(texts):
                neighbours = sum(i in one_pair for one_pair in expected)
                unlinked = len(texts) - texts.count(own) - neighbours
                lines.append(b"tree %d neighbours %d unlinked %d %s" % (i, neighbours, unlinked, own))
            lines += [b"pair %d %d" % one_pair for one_pair in expected]
            self.assertEqual(sheet(text).splitlines(), lines)
            for pairs, counts, given in (merged, apart):
                self.assertEqual(given, firsts)
                self.assertEqual(counts, [sum(i in one_pair for one_pair in pairs) for i in range(len(texts))])
            smaller += 0 < len(merged.pairs) < len(apart.pairs)
        self.assertGreater(smaller, 20)

    def test_islands(self):
        """Two first positions have one number exactly when a chain joins them,
        and it is the smallest; a copy has the number of its first."""
        with_chains = 0
        for text in texts_with_copies(49, 40, generate.UNROOTED):
            pairs, counts, firsts, numbers = islands(text)
            self.assertEqual((pairs, counts, firsts), graph(text))
            joined = joined_matrix(len(firsts), set(pairs) | set(enumerate(firsts)))
            self.assertEqual(numbers, [row.index(True) for row in joined])
            sizes = collections.Counter(numbers)
            self.assertEqual(island_sheet(text), b"".join(b"island %d %d\n" % item for item in sorted(sizes.items())))
            with_chains += len(sizes) > 1 and max(counts) > 0
        self.assertGreater(with_chains, 10)

    def test_rooted_only(self):
        """The calls for rooted trees refuse each of these tables at its first `;`,
        and take rooted ones with any marks as without."""
        rng = random.Random(50)
        for _ in range(60):
            text = generate.written(rng, generate.usual_table(rng, generate.UNROOTED))
            refusal = (10, 0, text.index(b";"))
            self.assertEqual((interchanges(text), support(text), cut(text, 0)), (refusal,) * 3)
            tokens = generate.table_tokens(generate.usual_table(rng))
            plain, marked = b"".join(tokens), generate.in_layout(rng, generate.with_marks(rng, tokens, 0.6))
            for call in (table, graph, kept_apart, islands, interchanges, support, sheet):
                self.assertEqual(call(marked), call(plain))

    def test_wrong_roots(self):
        """The text of a rooted tree of three or more leaves is no unrooted tree:
        it is refused at its last bracket.  One of three children at the top is no
        rooted tree: it is refused at the last comma outside the inner brackets."""
        for tree, _ in random_pairs(51, 60, range(3, 12)):
            text = text_of(tree)
            self.assertEqual(form(b"[&U]" + text), (1, 0, len(text) + 2))
        for tree, _ in self.pairs(52, 60, range(3, 12)):
            text = text_of(tree)[4:]
            last_child = text_of(tree.top[2])[:-1]
            self.assertEqual(form(text), (1, 0, len(text) - len(last_child) - 3))


class RandomTrees(unittest.TestCase):
    """Properties tried on random trees."""

    def test_pair_is_symmetric(self):
        """The pair call gives the same for both orders, also in a table."""
        answers = set()
        for first, second in random_pairs(11, 400, range(1, 9)):
            one, other = text_of(first), text_of(second)
            answer = pair(one, other)
            self.assertEqual(pair(other, one), answer)
            self.assertEqual(graph(one + other).pairs, [(0, 1)] if answer else [])
            answers.add(answer)
        self.assertEqual(answers, {False, True})

    def test_lemma_2_2(self):
        """Distinct trees: one move apart exactly if they share a forest."""
        for first, second in random_pairs(12, 600, range(4, 11)):
            one, other = tree_of(text_of(first)), tree_of(text_of(second))
            if one.clades != other.clades:
                shared = not forests(one.clades).isdisjoint(forests(other.clades))
                self.assertEqual(reference.one_move_apart(one, other), shared)

    def test_cuts_are_the_forests(self):
        """The cut call's texts name the forests, each by its own topologies."""
        for tree, _ in random_pairs(13, 100, range(2, 9)):
            text = text_of(tree)
            clades = tree_of(text).clades
            cuts = []
            while not isinstance(cut(text, len(cuts)), reference.Refusal):
                cuts.append(cut(text, len(cuts)))
            self.assertEqual(len(cuts), len(clades) - 1)
            from_cuts = set()
            for forest_text in cuts:
                remainder, pruned = forest_text.split(b" ")
                self.assertEqual(form(remainder + b";"), remainder + b";")
                self.assertEqual(form(pruned), pruned)
                from_cuts.add((tree_of(remainder + b";").clades, tree_of(pruned).clades))
            self.assertEqual(from_cuts, forests(clades))

    def test_cut_numbering(self):
        """Pruned subtrees begin one after another in the canonical text."""
        for tree, _ in random_pairs(14, 100, range(2, 12)):
            canonical = form(text_of(tree))
            # Beginnings of nodes: every bracket but the root's, every label.
            starts = [
                place for place in range(1, len(canonical))
                if canonical[place:place + 1] == b"("
                or canonical[place:place + 1].isdigit() and not canonical[place - 1:place].isdigit()
            ]
            for number, start in enumerate(starts):
                pruned = cut(canonical, number).split(b" ")[1][:-1]
                self.assertTrue(canonical.startswith(pruned, start))
                self.assertNotIn(canonical[start + len(pruned)], b"0123456789")
            self.assertEqual(cut(canonical, len(starts)), (9, 0, 0))

    def test_moves_by_paths(self):
        """The moves made node by node in generate.py reach the same set."""
        for tree, _ in random_pairs(15, 150, range(1, 10)):
            literal = {tree_of(text_of(moved)).clades for moved in generate.all_moves(tree)}
            self.assertEqual(reference.reached(tree_of(text_of(tree))), literal)

    def test_interchanges_by_paths(self):
        """So do the interchanges made there, by one prune and regraft each."""
        for tree, _ in random_pairs(19, 150, range(1, 20)):
            literal = {tree_of(text_of(moved)).clades for moved in generate.all_interchanges(tree)}
            held = tree_of(text_of(tree))
            self.assertEqual(reference.reached_by_interchange(held), literal)
            self.assertEqual(len(literal), max(0, 2 * len(held.clade) - 4))

    def test_canonical_text_is_idempotent(self):
        """A canonical text is its own canonical text, for any layout."""
        rng = random.Random(16)
        for tree, _ in random_pairs(16, 300, (1, 2, 3, 5, 8, 13, 21, 34, 64)):
            canonical = form(text_of(tree))
            self.assertEqual(form(canonical), canonical)
            other_layout = generate.written(rng, [generate.swapped(rng, tree)])
            self.assertEqual(form(other_layout), canonical)

    def test_clades_determine_the_canonical_text(self):
        """The text can be written from the clade set; different sets give
        different texts."""
        for first, second in random_pairs(17, 400, range(1, 13)):
            one, other = tree_of(text_of(first)), tree_of(text_of(second))
            for tree in (one, other):
                self.assertEqual(reference.canonical_text(tree), text_from_clades(tree.clades))
            same_text = reference.canonical_text(one) == reference.canonical_text(other)
            self.assertEqual(same_text, one.clades == other.clades)

    def test_tables(self):
        """Ends, firsts, counts and order of pairs in random tables."""
        rng = random.Random(18)
        for _ in range(60):
            text = generate.written(rng, generate.usual_table(rng))
            texts, ends = table(text)
            written = b"".join(texts)
            self.assertEqual(
                [written[start:end] for start, end in zip([0] + ends, ends)], texts)
            expected = [
                (i, j) for i, j in itertools.combinations(range(len(texts)), 2)
                if pair(texts[i], texts[j])
            ]
            self.assertEqual(kept_apart(text).pairs, expected)
            firsts = [texts.index(one) for one in texts]
            self.assertEqual(graph(text).pairs, [(i, j) for i, j in expected if firsts[i] == i and firsts[j] == j])
            for pairs, counts, given in (graph(text), kept_apart(text)):
                self.assertEqual(given, firsts)
                self.assertEqual(sum(counts), 2 * len(pairs))
                for i, count in enumerate(counts):
                    self.assertEqual(count, sum(i in one_pair for one_pair in pairs))

    def test_merging(self):
        """The two graphs tell the same: the merged one is the other between
        first positions, and the other is the merged one copied out."""
        smaller = 0
        for text in texts_with_copies(25, 100):
            merged, apart = graph(text), kept_apart(text)
            firsts = merged.firsts
            self.assertEqual(graph_choosing(text, merge=True), merged)
            self.assertEqual(apart.firsts, firsts)
            between_firsts = [(i, j) for i, j in apart.pairs if firsts[i] == i and firsts[j] == j]
            self.assertEqual(merged.pairs, between_firsts)
            copied_out = [
                (i, j) for i, j in itertools.combinations(range(len(firsts)), 2)
                if tuple(sorted((firsts[i], firsts[j]))) in merged.pairs
            ]
            self.assertEqual(apart.pairs, copied_out)
            smaller += 0 < len(merged.pairs) < len(apart.pairs)
        self.assertGreater(smaller, 50)

    def test_firsts_and_counts_of_copies(self):
        """A first position is the smallest of its topology; a copy is in no
        merged pair, and kept apart it has the neighbours of its first."""
        copies, with_neighbours = 0, 0
        for text in texts_with_copies(26, 100):
            texts, _ = table(text)
            merged, apart = graph(text), kept_apart(text)
            for position, first in enumerate(merged.firsts):
                self.assertEqual(texts[first], texts[position])
                self.assertNotIn(texts[first], texts[:first])
                self.assertLessEqual(first, position)
                self.assertEqual(apart.counts[position], apart.counts[first])
                if first < position:
                    self.assertEqual(merged.counts[position], 0)
                    self.assertFalse(any(position in one_pair for one_pair in merged.pairs))
                    copies += 1
                    with_neighbours += apart.counts[position] > 0
        self.assertGreater(with_neighbours, 200)
        self.assertGreater(copies - with_neighbours, 30)

    def test_neighbouring_topologies_once(self):
        """Every two topologies that occur and are one move apart are one
        merged pair, whichever of their copies are written first."""
        rng = random.Random(27)
        copied = 0
        for _ in range(60):
            texts, _ = table(generate.plain(generate.usual_table(rng)))
            expected = [frozenset(two) for two in itertools.combinations(sorted(set(texts)), 2) if pair(*two)]
            copied += any(texts.count(one) > 1 for two in expected for one in two)
            for _ in range(2):
                listed = [frozenset((texts[i], texts[j])) for i, j in graph(b"".join(texts)).pairs]
                self.assertEqual(collections.Counter(listed), collections.Counter(expected))
                rng.shuffle(texts)
        self.assertGreater(copied, 30)

    def test_sheets_keep_copies_apart(self):
        """The lister's sheet has the pairs and counts of the pair call on
        every two positions, so nothing of the merged graph."""
        rng = random.Random(28)
        for _ in range(40):
            text = generate.written(rng, generate.repeats_table(rng))
            texts, _ = table(text)
            pairs = [
                (i, j) for i, j in itertools.combinations(range(len(texts)), 2)
                if pair(texts[i], texts[j])
            ]
            lines = [b"trees %d pairs %d" % (len(texts), len(pairs))]
            for i, own in enumerate(texts):
                neighbours = sum(i in one_pair for one_pair in pairs)
                unlinked = len(texts) - texts.count(own) - neighbours
                lines.append(b"tree %d neighbours %d unlinked %d %s" % (i, neighbours, unlinked, own))
            lines += [b"pair %d %d" % one_pair for one_pair in pairs]
            self.assertEqual(sheet(text).splitlines(), lines)

    def test_interchange_tables(self):
        """Pairs are those of each two trees, in either order, and some of the
        graph's; counts are taken from them."""
        rng = random.Random(20)
        fewer = 0
        for _ in range(60):
            text = generate.written(rng, rng.choice((generate.usual_table, generate.interchange_table))(rng))
            texts, _ = table(text)
            pairs, counts = interchanges(text)
            for i, j in itertools.combinations(range(len(texts)), 2):
                expected = [(0, 1)] if (i, j) in pairs else []
                self.assertEqual(interchanges(texts[i] + texts[j]).pairs, expected)
                self.assertEqual(interchanges(texts[j] + texts[i]).pairs, expected)
            self.assertEqual(pairs, sorted(set(pairs)))
            by_moves = kept_apart(text).pairs
            self.assertLessEqual(set(pairs), set(by_moves))
            fewer += 0 < len(pairs) < len(by_moves)
            for i, count in enumerate(counts):
                self.assertEqual(count, sum(i in one_pair for one_pair in pairs))
        self.assertGreater(fewer, 10)

    def test_island_tables(self):
        """Two first positions have one number exactly when a chain joins them;
        the number is the smallest of its island; a copy has the number of its
        first; sizes make up the table."""
        with_chains, copies_of_later = 0, 0
        for text in texts_with_copies(22, 80):
            pairs, counts, firsts, numbers = islands(text)
            self.assertEqual((pairs, counts, firsts), graph(text))
            self.assertEqual(len(numbers), len(firsts))
            joined = joined_matrix(len(firsts), set(pairs))
            for i in set(firsts):
                for j in set(firsts):
                    self.assertEqual(numbers[i] == numbers[j], joined[i][j])
                self.assertEqual(numbers[i], joined[i].index(True))
                with_chains += sum(joined[i]) > counts[i] + 1
            for position, first in enumerate(firsts):
                self.assertEqual(numbers[position], numbers[first])
                copies_of_later += numbers[position] < first < position
            lines = [line.split() for line in island_sheet(text).splitlines()]
            listed = [int(number) for _, number, _ in lines]
            self.assertEqual(listed, sorted(set(numbers)))
            self.assertEqual([int(size) for _, _, size in lines], [numbers.count(number) for number in listed])
            self.assertEqual(sum(int(size) for _, _, size in lines), len(firsts))
        self.assertGreater(with_chains, 50)
        self.assertGreater(copies_of_later, 50)

    def test_support_tables(self):
        """Each clade of the trees is listed once, with the number of trees that
        have it, and stands before the next."""
        for nested in support_tables(32, 150):
            clades, _, trees = support(generate.plain(nested))
            self.assertEqual(trees, len(nested))
            sets = [label_sets(tree) for tree in nested]
            for labels, number in clades:
                self.assertEqual(number, sum(set(labels) in own for own in sets))
                self.assertGreater(number, 0)
            listed = {labels for labels, _ in clades}
            self.assertEqual(len(listed), len(clades))
            self.assertEqual(listed, {tuple(sorted(one)) for own in sets for one in own if len(one) > 1})
            for (one, number), (other, other_number) in zip(clades, clades[1:]):
                self.assertTrue(number > other_number or number == other_number and before(one, other))

    def test_majority_trees(self):
        """The majority clades are nested or disjoint; the clades of the text are
        those, the single labels, and no others; children stand by smallest
        label."""
        wide = 0
        for nested in support_tables(33, 150):
            clades, majority, trees = support(generate.plain(nested))
            labels = label_sets(nested[0])[-1]
            kept = [set(own) for own, number in clades if 2 * number > trees]
            for one, other in itertools.combinations(kept, 2):
                self.assertTrue(one < other or other < one or not one & other)
            # The text of a tree without its `;` is a number or a tuple in Python too.
            written = ast.literal_eval(majority[:-1].decode())
            sets = label_sets(written)
            self.assertCountEqual(map(as_number, sets), map(as_number, kept + [{label} for label in labels]))
            self.assertEqual(majority, b"%s;" % str(written).replace(" ", "").encode())
            self.check_order(written)
            wide += len(sets) < 2 * len(labels) - 1
        self.assertGreater(wide, 50)

    def check_order(self, nested):
        """Every fork has two or more children, by smallest label."""
        if isinstance(nested, tuple):
            self.assertGreater(len(nested), 1)
            least = [min(label_sets(child)[-1]) for child in nested]
            self.assertEqual(least, sorted(least))
            for child in nested:
                self.check_order(child)

    def test_support_does_not_depend_on_order(self):
        """Nor on the layout; and every tree twice doubles the numbers."""
        rng = random.Random(34)
        for nested in support_tables(34, 60):
            answer = support(generate.plain(nested))
            mixed = [generate.swapped(rng, tree) for tree in rng.sample(nested, len(nested))]
            self.assertEqual(support(generate.written(rng, mixed)), answer)
            doubled = [(labels, 2 * number) for labels, number in answer.clades]
            if 2 * len(nested) <= 160:
                self.assertEqual(support(generate.plain(nested * 2)), (doubled, answer.majority, 2 * len(nested)))

    def test_support_sheets(self):
        """The sheet has the numbers of the clades in the same order."""
        for nested in support_tables(35, 40):
            text = generate.plain(nested)
            clades, majority, trees = support(text)
            lines = ["trees %d clades %d bytes %d" % (trees, len(clades), len(majority))]
            lines += ["clade %d trees %d" % (as_number(labels), number) for labels, number in clades]
            lines.append("majority " + majority.decode())
            self.assertEqual(support_sheet(text).decode().splitlines(), lines)

    def test_islands_of_copies_kept_apart(self):
        """The islands are those of the pairs kept apart, once each copy is
        joined to its first as well."""
        more = 0
        for text in texts_with_copies(29, 80):
            pairs, _, firsts = kept_apart(text)
            joined = joined_matrix(len(firsts), set(pairs) | set(enumerate(firsts)))
            self.assertEqual(islands(text).numbers, [row.index(True) for row in joined])
            more += joined != joined_matrix(len(firsts), set(pairs))
        self.assertGreater(more, 10)


class Generator(unittest.TestCase):
    """The cases themselves, and the command."""

    def test_cases_are_determined(self):
        """A case depends on the seed and its position only."""
        fixed = len(generate.fixed_cases())
        longer = list(generate.cases(3, fixed + 100))
        self.assertTrue(longer[:fixed + 50] == list(generate.cases(3, fixed + 50)))
        self.assertFalse(longer == list(generate.cases(4, fixed + 100)))

    def test_kinds_keep_their_word(self):
        """Kinds that promise an outcome have it, and all refusals come up."""
        promised = {
            "one-move-apart": b"trees 2 pairs 1\n", "two-moves-apart": b"trees 2 pairs 0\n",
            "damaged-label": b"refused 2 ", "repeated-label": b"refused 3 ", "too-deep": b"refused 4 ",
            "other-labels": b"refused 5 ", "too-many": b"refused 6 ", "deep-comb": b"trees ",
            "random-table": b"trees ", "chain": b"trees ", "copies": b"trees ", "crowd": b"trees ",
            "interchanges": b"trees ", "islands": b"trees ", "zeros": b"trees ", "repeats": b"trees ",
            "copy": b"trees ", "marked": b"trees ", "mixed-kinds": b"refused 10 ", "damaged-mark": b"refused 1 ",
            "wrong-children": b"refused 1 ", "unrooted-one-move-apart": b"trees 2 pairs 1\n",
            "unrooted-two-moves-apart": b"trees 2 pairs 0\n",
        }
        refused = set()
        for position, kind, text in generate.cases(5, 1300):
            output = sheet(text)
            usual = b"trees " if kind.startswith("unrooted") else b""
            self.assertTrue(output.startswith(promised.get(kind, usual)), (position, kind))
            if kind in ("islands", "unrooted-islands"):
                self.assertGreater(len(island_sheet(text).splitlines()), 1, position)
            if kind in ("copy", "repeats", "unrooted-repeats"):
                firsts = graph(text).firsts
                self.assertLess(len(set(firsts)), len(firsts), position)
            if output.startswith(b"refused"):
                refused.add(int(output.split()[1]))
        self.assertEqual(refused, {1, 2, 3, 4, 5, 6, 8, 10})

    def test_kinds_for_rooted_trees(self):
        """The cases for rooted trees only have few unrooted tables, which are
        refused, and the same fixed cases."""
        fixed = generate.fixed_cases()
        given = list(generate.rooted_cases(3, len(fixed) + 400))
        self.assertTrue(given[:len(fixed)] == list(generate.cases(4, len(fixed))))
        answers = [interchange_sheet(text) for _, _, text in given[len(fixed):]]
        self.assertGreater(sum(answer.startswith(b"refused 10 ") for answer in answers), 5)
        self.assertGreater(sum(answer.startswith(b"trees ") for answer in answers), 150)

    def test_unrooted_trees(self):
        """Edges, layouts and moves of the generator's unrooted trees."""
        tree = generate.Unrooted(((1, 2), 3, (4, 5)))
        edges = generate.edges_of(tree)
        self.assertEqual(len(edges), 7)
        self.assertEqual(edges, generate.edges_of(generate.Unrooted(((1, 2), 3, (4, 5)))))
        self.assertEqual(generate.edges_of(generate.Unrooted(7)), set())
        self.assertEqual(generate.edges_of(generate.Unrooted((2, 1))), {(1, 2)})
        self.assertEqual(generate.shape(tree), {
            frozenset(part) for part in ((2,), (3,), (4,), (5,), (4, 5), (3, 4, 5), (2, 3, 4, 5))
        })
        # Without a root, three leaves are one topology.
        for rooted in generate.all_trees((1, 2, 3)):
            self.assertEqual(
                generate.shape(generate.Unrooted(rooted)), generate.shape(generate.Unrooted((1, 2, 3))))
        moving, staying = generate.cut({(-2, -1), (-1, 1), (-1, 2), (-2, 3), (-2, 4)}, -1, -2)
        self.assertEqual((moving, staying), ({(-1, 1), (-1, 2)}, {(3, 4)}))
        rng = random.Random(53)
        for one in (generate.Unrooted(7), generate.Unrooted((1, 2))):
            self.assertEqual(generate.random_move(rng, one), one)
        for tree, _ in random_pairs(53, 60, range(3, 20), generate.UNROOTED):
            self.assertEqual(len(tree.top), 3)
            for moved in (generate.random_move(rng, tree), generate.swapped(rng, tree)):
                self.assertEqual(len(moved.top), 3)
                self.assertEqual(generate.labels_of(moved), generate.labels_of(tree))

    def test_larger_sides(self):
        """In many of these tables no side of at most half of the leaves could move,
        in others no change was made."""
        rng = random.Random(56)
        needed, same = 0, 0
        for _ in range(60):
            one, other = (tree_of(text_of(tree)).topology for tree in generate.larger_side_table(rng))
            if one == other:
                same += 1
                continue
            shared = unrooted_forests(one) & unrooted_forests(other)
            self.assertTrue(any(2 * len(moved) > len(one[0]) for moved, _, _ in shared))
            needed += all(2 * len(moved) > len(one[0]) for moved, _, _ in shared)
        self.assertGreater(needed, 15)
        self.assertLess(same, 25)

    def test_wrong_children(self):
        """A fork of every wrong sort, in trees of both kinds."""
        rng = random.Random(54)
        seen = collections.Counter()
        for _ in range(200):
            for tree in (((1, 2), (3, 4)), ((1, 2), 3, (4, 5))):
                wrong = generate.with_wrong_children(rng, tree)
                numbers = [len(generate.subtree(wrong, path)) for path in generate.wide_paths(wrong)
                           if not generate.is_leaf(generate.subtree(wrong, path))]
                seen[len(tree), "one"] += 1 in numbers
                seen[len(tree), "top of", numbers[0]] += 1
                seen[len(tree), "wide"] += max(numbers[1:], default=0) > 2
        for sort in ((2, "one"), (3, "one"), (2, "top of", 3), (3, "top of", 2), (3, "top of", 4)):
            self.assertGreater(seen[sort], 10, sort)

    def test_sorts(self):
        """The sorts that the comparison counts; islands tell of pairs too."""
        self.assertEqual(compare.kind_sorts(b"(1,2);", sheet(b"(1,2);")), [])
        self.assertEqual(compare.kind_sorts(b"[&R](1,2);", sheet(b"(1,2);")), ["marked"])
        self.assertEqual(compare.kind_sorts(b"", sheet(b"")), [])
        self.assertEqual(
            compare.kind_sorts(b"[&U]7;[&U]7;", sheet(b"[&U]7;[&U]7;")),
            ["unrooted", "unrooted of one leaf", "unrooted copies only"])
        self.assertEqual(
            compare.kind_sorts(UNROOTED_INPUT, UNROOTED_SHEET),
            ["unrooted", "unrooted with pairs", "unrooted copies beside others"])
        for text in texts_with_copies(55, 15, generate.UNROOTED):
            pairs, _, firsts = graph(text)
            for output in (sheet(text), island_sheet(text), reference.graphs_sheet(text)):
                self.assertEqual(compare.has_pairs(output, len(set(firsts))), bool(pairs))
                self.assertIn("unrooted", compare.kind_sorts(text, output))

    def test_row_cases(self):
        """Cases of rows are determined too, all kinds and refusals come up, and
        every call is of the kind that its name says."""
        fixed = len(generate_rows.fixed_cases())
        longer = list(generate_rows.cases(3, fixed + 80))
        self.assertTrue(longer[:fixed + 40] == list(generate_rows.cases(3, fixed + 40)))
        self.assertFalse(longer == list(generate_rows.cases(4, fixed + 80)))
        promised = {
            "row": b"row", "text": b"text", "pair": b"pair", "large-pair": b"pair", "small-trees": (b"row", b"text"),
            "unrooted": b"refused 10 in 0", "other-labels": b"refused 5 in 1 at 0",
        }
        kinds, refused = set(), set()
        for _, kind, text in longer[fixed - 4:]:
            output = rows_sheet(text)
            self.assertEqual(len(output.splitlines()), len(list(reference.row_calls(text))))
            for line in output.splitlines():
                self.assertTrue(line.startswith(promised.get(kind, b"")), (kind, line))
            kinds.add(kind)
            refused.update(compare.refusals_of_lines(output))
        self.assertTrue(kinds.issuperset(kind for kind, _, _ in generate_rows.CASE_KINDS), kinds)
        self.assertEqual(refused, set(compare.REFUSALS_OF_ROWS))

    def test_row_sorts(self):
        """The sorts of calls that the comparison counts."""
        sorts = {
            b"row 2\n7;\n": ["row of one leaf"], b"row 2\n7\n\n": [], b"row 6\n(1,2);\n": ["row of two leaves"],
            b"text 1 8\n": ["text of one leaf"], b"text 3 7 3 7\n": [], b"text 0\n": ["empty"],
            b"text 2 7 7\n": ["too few"], b"text 1 0\n": ["too many"], b"text 3 7 7 3\n": ["out of order"],
            b"text 3 7 3 3\n": ["twice"], b"text 3 7 1 7\n": ["small"], b"text 3 7 3 15\n": ["foreign"],
            b"text 3 7 3 6\n": ["crossing"], b"text 3 7 6 3\n": ["several"],
            b"pair 1 1 1 1\n": ["equal"], b"pair 3 7 3 7 3 7 6 7\n": ["yes"], b"pair 0 0\n": ["both rows"],
            b"pair 0 1 1\n": ["row 0"], b"pair 2 3 3 1 3\n": ["row 1"], b"pair 1 1 1 3\n": ["row 1 of other labels"],
            b"pair 1 1 2 3 3\n": ["other labels"], b"pair 1 1 1 2\n": ["other labels", "as many other labels"],
        }
        for text, expected in sorts.items():
            self.assertEqual(compare.row_sorts(text, rows_sheet(text)), expected, text)
        call = generate_rows.text_call([2 ** 64 - 1])
        self.assertEqual(compare.row_sorts(call, rows_sheet(call)), ["too few", "large, too few"])

    def test_mirrored(self):
        """Every fork's children are swapped."""
        self.assertEqual(generate.mirrored(((1, 2), (3, (4, 5)))), (((5, 4), 3), (2, 1)))

    def test_repeats_are_mixed(self):
        """Many of these tables have a copy in another child order, a copy
        before and one behind a neighbour's first, a copy without neighbours,
        two topologies with copies, and a first behind a copy of another."""
        rng = random.Random(30)
        seen = collections.Counter()
        for _ in range(60):
            trees = generate.repeats_table(rng)
            pairs, _, firsts = graph(generate.plain(trees))
            copies = [position for position, first in enumerate(firsts) if first < position]
            linked = set(pairs) | {(j, i) for i, j in pairs}
            beside = [(position, other) for position in copies for first, other in linked if first == firsts[position]]
            seen["other order"] += any(trees[position] != trees[firsts[position]] for position in copies)
            seen["before"] += any(position < other for position, other in beside)
            seen["behind"] += any(position > other for position, other in beside)
            seen["alone"] += any(all(position != one for one, _ in beside) for position in copies)
            seen["two topologies"] += len({firsts[position] for position in copies}) > 1
            seen["first behind"] += copies[0] < max(firsts)
        self.assertGreater(min(seen.values()), 9, seen)

    def test_islands_are_the_groups(self):
        """Each group of an island table is one island, with its copies."""
        with_copies = 0
        for seed in range(40):
            # The sizes of the groups are the first thing that is drawn.
            sizes = generate.group_sizes(random.Random(seed))
            answer = islands(generate.plain(generate.island_table(random.Random(seed))))
            self.assertEqual(sorted(collections.Counter(answer.numbers).values()), sorted(sizes))
            with_copies += len(set(answer.firsts)) < len(answer.firsts)
        self.assertGreater(with_copies, 20)

    def test_island_tables_are_mixed(self):
        """Many of them have two islands of two or more trees, islands of two
        sizes, and an island that goes on behind the start of the next."""
        rng = random.Random(23)
        large, unequal, mixed = 0, 0, 0
        for _ in range(40):
            numbers = islands(generate.plain(generate.island_table(rng))).numbers
            sizes = [numbers.count(number) for number in set(numbers)]
            large += sum(size > 1 for size in sizes) > 1
            unequal += len(set(sizes)) > 1
            mixed += numbers != sorted(numbers)
        self.assertGreater(min(large, unequal, mixed), 15)

    def test_support_cases(self):
        """They begin with the other programs' fixed cases."""
        fixed = generate.fixed_cases()
        given = list(generate.support_cases(3, len(fixed)))
        self.assertEqual(given, list(generate.cases(4, len(fixed))))

    def test_halves(self):
        """A table of halves has clades of just one of two trees, most often in
        half of all trees or one or two more."""
        rng = random.Random(36)
        ahead = collections.Counter()
        for _ in range(100):
            clades, _, trees = support(generate.plain(generate.halves_table(rng)))
            parts = {number for _, number in clades if number < trees}
            self.assertLessEqual(len(parts), 2)
            ahead.update(2 * number - trees for number in parts)
        self.assertLessEqual(set(ahead), {-2, -1, 0, 1, 2})
        self.assertGreater(min(ahead[0], ahead[1], ahead[2]), 9)

    def test_stars(self):
        """A table of stars has the whole label set as its only majority."""
        rng = random.Random(37)
        sizes = set()
        for _ in range(30):
            clades, majority, trees = support(generate.plain(generate.star_table(rng)))
            self.assertEqual([number for _, number in clades if 2 * number > trees], [trees])
            self.assertEqual(majority.count(b"("), 1)
            sizes.add(len(clades[0][0]))
        self.assertEqual(sizes, {3, 4, 5})

    def test_fork_labels(self):
        """The label sets of forks, the root's last."""
        self.assertEqual(generate.fork_labels(7), [])
        self.assertEqual(generate.fork_labels(((1, 2), (3, 10))), [{1, 2}, {3, 10}, {1, 2, 3, 10}])

    def test_full_tables(self):
        """Each has 160 trees of 64 leaves and is accepted in any layout."""
        for make in generate.FULL_TABLES:
            with self.subTest(make=make.__name__):
                trees = make(random.Random(38))
                self.assertEqual(len(trees), 160)
                self.assertEqual({frozenset(label_sets(tree)[-1]) for tree in trees}, {frozenset(range(1, 65))})
        rng = random.Random(39)
        for _ in range(12):
            self.assertLessEqual(len(generate.full_table(rng)), 65535)

    def test_command(self):
        """The command prints the sheet and nothing else."""
        for option, text, expected in (
                ([], SAMPLE_INPUT, SAMPLE_SHEET), (["--islands"], SAMPLE_INPUT, b"island 0 4\n"),
                ([], UNROOTED_INPUT, UNROOTED_SHEET)):
            done = subprocess.run(
                [sys.executable, os.path.join(HERE, "reference.py")] + option, input=text,
                stdout=subprocess.PIPE, stderr=subprocess.PIPE, check=True,
            )
            self.assertEqual((done.stdout, done.stderr), (expected, b""))


if __name__ == "__main__":
    unittest.main()
