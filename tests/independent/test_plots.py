#!/usr/bin/env python3
"""Checks of plots.py, and of what its comparison with the library rests on: examples
worked by hand, refusals and their order, what holds for all plots, tried on all small
trees, on combs and on random ones; and slips, each of which the cases of
generate_plots.py have to show.

    python3 test_plots.py
"""

import collections
import fractions
import functools
import random
import struct
import unittest
from unittest import mock

import compare
import generate
import generate_plots
import plot_sorts
import plots
import reference
from plots import plot, plots_sheet

ALL_LABELS = list(generate.ALL_LABELS)
HALF = fractions.Fraction(1, 2)


def text_of(tree):
    """The text of nested tuples of two."""
    return generate.plain([tree])


def least(tree):
    """The smallest label of nested tuples."""
    return min(generate.labels_of(tree))


def in_order(tree):
    """The nested tuples with the child of smaller least label first."""
    return tree if generate.is_leaf(tree) else tuple(sorted(map(in_order, tree), key=least))


def walked(tree, column=0, leaves=0):
    """(exact row, column) for each node of nested tuples as they stand, by a walk
    down in which two exact rows are halved."""
    if generate.is_leaf(tree):
        return [(fractions.Fraction(leaves), column)]
    first = walked(tree[0], column + 1, leaves)
    second = walked(tree[1], column + 1, leaves + len(generate.labels_of(tree[0])))
    return [((first[0][0] + second[0][0]) * HALF, column)] + first + second


def trees_to_try():
    """All trees of up to five leaves, combs, and random trees of up to 64."""
    rng = random.Random("plots")
    trees = [tree for size in range(1, 6) for tree in generate.all_trees(ALL_LABELS[:size])]
    trees += [tree for size in (7, 31, 54, 55, 63, 64) for tree in generate_plots.combs(ALL_LABELS[:size])]
    return trees + generate_plots.large_trees() + [generate_plots.deep_tree(rng) for _ in range(20)]


class Examples(unittest.TestCase):
    """By hand."""

    def test_smallest(self):
        """One leaf, and two."""
        self.assertEqual(plot(b" 7 ;"), ([0.0], [0], [0]))
        self.assertEqual(plot(b"(64,[&R]3);"), (1, 0, 4))
        self.assertEqual(plot(b"[&R](64,3);"), ([0.5, 0.0, 1.0], [0, 1, 1], [HALF, 0, 1]))

    def test_three(self):
        """The rows are those of the canonical text ((1,2),3), or (1,(2,3))."""
        self.assertEqual(plot(b"(3,(2,1));")[:2], ([1.25, 0.5, 0.0, 1.0, 2.0], [0, 1, 2, 2, 1]))
        self.assertEqual(plot(b"((3,2),1);")[:2], ([0.75, 0.0, 1.5, 1.0, 2.0], [0, 1, 1, 2, 2]))

    def test_five(self):
        """((1,(2,4)),(3,5)): (2,4) is in row 1.5, its parent in 0.75, (3,5) in 3.5,
        the root in 2.125."""
        rows, columns, exact = plot(b"((5,3),((4,2),1));")
        self.assertEqual(rows, [2.125, 0.75, 0.0, 1.5, 1.0, 2.0, 3.5, 3.0, 4.0])
        self.assertEqual(columns, [0, 1, 2, 2, 3, 3, 1, 2, 2])
        self.assertEqual(exact, rows)

    def test_combs(self):
        """With all brackets first, n leaves have their root in row n - 2 and
        1 over 2 ** (n - 1); with all last, in 1 less 1 over 2 ** (n - 1)."""
        for size in range(2, 65):
            part = fractions.Fraction(1, 2 ** (size - 1))
            for make, exact in ((generate.left_comb, size - 2 + part), (generate.right_comb, 1 - part)):
                answer = plot(text_of(make(ALL_LABELS[:size])))
                self.assertEqual(answer.exact[0], exact)
                self.assertEqual((len(answer.rows), max(answer.columns)), (2 * size - 1, size - 1))
        self.assertEqual(plot(text_of(generate.left_comb(ALL_LABELS))).rows[0], 62.0)

    def test_sheet(self):
        """A line for each call."""
        calls = b"plot 127 127 6\n(2,1);\nplot 127 126 2\n1;\nplot 200 127 3\n1;\n\n"
        self.assertEqual(plots_sheet(calls), (
            b"plot 3 3fe0000000000000:0 0000000000000000:1 3ff0000000000000:1\n"
            b"refused 7 in 0 at 0\nplot 1 0000000000000000:0\n"))


class Refusals(unittest.TestCase):
    """Each refusal and the order of them."""

    def test_order(self):
        """7, then 8, then the text from left to right, 10 at the `;`."""
        long = b" " * 65536
        for lengths in ((126, 127), (127, 126), (0, 0), (126, 1000)):
            for text in (b"1;", b"x", long, b"[&U]7;"):
                self.assertEqual(plot(text, *lengths), (7, 0, 0))
        self.assertEqual(plot(long), (8, 0, 0))
        for text, expected in (
                (b"", (1, 0, 0)), (b"(1,2", (1, 0, 4)), (b"(1,2);x", (1, 0, 6)), (b"1;2;", (1, 0, 2)),
                (b"(1,65);", (2, 0, 3)), (b"(1,1);", (3, 0, 3)), (b"(" * 64, (4, 0, 63)), (b"[&U]7;", (10, 0, 5)),
                (b"[&U](1,2,3);x", (10, 0, 11)), (b"[&U](1,2,2);", (3, 0, 9)), (b"[&U](1,2)x", (1, 0, 9))):
            self.assertEqual(plot(text), expected, text)


class AllPlots(unittest.TestCase):
    """What holds for every plot."""

    def test_exact(self):
        """Exact rows and columns are those of a walk, and a whole number over
        2 ** 63; rows are near them, and halfway between the children's."""
        for tree in trees_to_try():
            answer = plot(text_of(tree))
            expected = walked(in_order(tree))
            self.assertEqual(list(zip(answer.exact, answer.columns)), expected)
            for row, exact in zip(answer.rows, answer.exact):
                self.assertEqual((exact * 2 ** 63).denominator, 1)
                self.assertLessEqual(abs(fractions.Fraction(row) - exact), fractions.Fraction(1, 2 ** 42))

    def test_bits(self):
        """A row that is not the exact one is found, by the bits too."""
        row, exact = 62.0, 62 + fractions.Fraction(1, 2 ** 63)
        self.assertTrue(plots.is_within(row, exact))
        self.assertFalse(plots.is_within(row + 2 ** -41, exact))
        self.assertEqual(plots.bits(0.5), 0x3fe0000000000000)

    def test_layout(self):
        """The order of children, blanks and marks change nothing."""
        rng = random.Random(5)
        for tree in trees_to_try()[::7]:
            answer = plot(text_of(tree))
            self.assertEqual(plot(reference.form(text_of(tree))), answer)
            self.assertEqual(plot(generate.written(rng, [generate.swapped(rng, tree)])), answer)


# Slips, as (name in plots.py, what stands there instead)


def read_as_it_stands(take):
    """A plot in which the columns, the rows or both are those of the text that is
    read, not of the canonical text."""
    def wrong(text, rows=127, columns=127):
        right = plot(text, rows, columns)
        if isinstance(right, reference.Refusal):
            return right
        nodes = plots.nodes_in(text)
        return plots.Plot(*take(right, plots.rows_of(nodes), plots.columns_of(nodes)), right.exact)
    return wrong


def over(change):
    """A plot whose rows and columns are changed."""
    def wrong(text, rows=127, columns=127):
        right = plot(text, rows, columns)
        return right if isinstance(right, reference.Refusal) else plots.Plot(*change(right), right.exact)
    return wrong


def calling(order, read=functools.partial(reference.read_one, rooted_only=True), least_rows=127, least_columns=127):
    """A plot that refuses in another order, or lends itself otherwise."""
    def wrong(text, rows=127, columns=127):
        def short():
            if rows < least_rows or columns < least_columns:
                raise reference.Refused(7, 0, 0)
        found = []
        steps = {
            7: short, 8: lambda: reference.refuse_long_text(text, 0), 1: lambda: found.append(read(text, 0)[0]),
        }
        try:
            for step in order:
                steps[step]()
        except reference.Refused as refused:
            return refused.refusal
        return plots.placed(reference.canonical_text(found[0]))
    return wrong


def ten_behind_the_text(text, which):
    """An unrooted tree refused only where nothing is wrong behind it."""
    tree, semicolon = reference.read_one(text, which)
    if tree.unrooted:
        raise reference.Refused(10, which, semicolon)
    return tree, semicolon


def unrooted_as_rooted(text, which):
    """An unrooted tree placed by its text, the top's children as they stand."""
    return reference.read_one(text, which)


def only_own_nodes(text, rows=127, columns=127):
    """Enough is lent where the tree's own nodes have room."""
    answer = plot(text)
    if isinstance(answer, reference.Refusal):
        return plot(text, rows, columns)
    return answer if min(rows, columns) >= len(answer.rows) else reference.Refusal(7, 0, 0)


def in_32_bits(row):
    """A row as a shorter float."""
    return struct.unpack("<f", struct.pack("<f", row))[0]


def ends_of(answer, choose):
    """Rows chosen from the first and the last leaf below each node."""
    rows = []
    for place, column in enumerate(answer.columns):
        end = next((k for k in range(place + 1, len(answer.columns)) if answer.columns[k] <= column), len(answer.rows))
        rows.append(choose([answer.rows[k] for k in range(place, end) if is_leaf_at(answer, k)]))
    return rows


def is_leaf_at(answer, place):
    """Whether the node at a place has none below it."""
    return place + 1 == len(answer.columns) or answer.columns[place + 1] <= answer.columns[place]


def heights(answer):
    """Columns counted from the tips: how many forks the longest way down has."""
    found = []
    for place, column in enumerate(answer.columns):
        below = []
        for other in answer.columns[place + 1:]:
            if other <= column:
                break
            below.append(other - column)
        found.append(max(below, default=0))
    return found


def children_first(answer):
    """The nodes with each fork behind its children."""
    order, waiting = [], []
    for place, column in enumerate(answer.columns):
        while waiting and answer.columns[waiting[-1]] >= column:
            order.append(waiting.pop())
        waiting.append(place)
    order += waiting[::-1]
    return [answer.rows[place] for place in order], [answer.columns[place] for place in order]


SLIPS = {
    "one row halved before the sum": ("halfway", lambda one, other: one * 0.5 + other),
    "the other row halved before the sum": ("halfway", lambda one, other: one + other * 0.5),
    "the sum alone": ("halfway", lambda one, other: one + other),
    "the first child's row": ("halfway", lambda one, other: one),
    "the second child's row": ("halfway", lambda one, other: other),
    "the first child's row twice": ("halfway", lambda one, other: (one + one) * 0.5),
    "the difference": ("halfway", lambda one, other: (other - one) * 0.5),
    "rounded to 32 bits": ("halfway", lambda one, other: in_32_bits((one + other) * 0.5)),
    "rounded to 2 ** -42": ("halfway", lambda one, other: round((one + other) * 2 ** 41) * 2.0 ** -42),
    "rounded down": ("halfway", lambda one, other: (one + other) * 0.5 // 2.0 ** -46 * 2.0 ** -46),
    "whole rows": ("halfway", lambda one, other: float((one + other) // 2)),
    "exact, then rounded once": ("plot", over(lambda answer: (list(map(float, answer.exact)), answer.columns))),
    "leaves from 1": ("plot", over(lambda answer: ([row + 1 for row in answer.rows], answer.columns))),
    "columns from 1": ("plot", over(lambda answer: (answer.rows, [column + 1 for column in answer.columns]))),
    "columns from the tips": ("plot", over(lambda answer: (answer.rows, heights(answer)))),
    "columns by two": ("plot", over(lambda answer: (answer.rows, [2 * column for column in answer.columns]))),
    "tips in one column": ("plot", over(lambda answer: (answer.rows, [
        max(answer.columns) if is_leaf_at(answer, place) else column
        for place, column in enumerate(answer.columns)]))),
    "columns up to 62": ("plot", over(lambda answer: (answer.rows, [min(column, 62) for column in answer.columns]))),
    "row of the middle leaf": ("plot", over(lambda answer: (
        ends_of(answer, lambda rows: (rows[0] + rows[-1]) * 0.5), answer.columns))),
    "mean of all leaves": ("plot", over(lambda answer: (
        ends_of(answer, lambda rows: sum(rows) / len(rows)), answer.columns))),
    "children before forks": ("plot", over(children_first)),
    "rows in the order that was read": ("plot", read_as_it_stands(lambda right, rows, _: (rows, right.columns))),
    "columns in the order that was read": ("plot", read_as_it_stands(
        lambda right, _, columns: (right.rows, columns))),
    "all in the order that was read": ("plot", read_as_it_stands(lambda _, rows, columns: (rows, columns))),
    "last node left out": ("plot", over(lambda answer: (answer.rows[:126], answer.columns[:126]))),
    "rows not measured": ("plot", calling((7, 8, 1), least_rows=0)),
    "columns not measured": ("plot", calling((7, 8, 1), least_columns=0)),
    "126 rows": ("plot", calling((7, 8, 1), least_rows=126)),
    "126 columns": ("plot", calling((7, 8, 1), least_columns=126)),
    "128 rows": ("plot", calling((7, 8, 1), least_rows=128)),
    "128 columns": ("plot", calling((7, 8, 1), least_columns=128)),
    "own nodes only": ("plot", only_own_nodes),
    "length before slices": ("plot", calling((8, 7, 1))),
    "text before slices": ("plot", calling((8, 1, 7))),
    "length not looked at": ("plot", calling((7, 1))),
    "unrooted behind the text": ("plot", calling((7, 8, 1), ten_behind_the_text)),
    "unrooted trees placed": ("plot", calling((7, 8, 1), unrooted_as_rooted)),
}


@functools.lru_cache(1)
def some_cases():
    """Cases as (text, sheet): some of the fixed calls, all of those for refusals and
    for large trees, and short random ones."""
    calls = [(kind, arguments) for kind, text in generate_plots.fixed_cases()
             for _, arguments in plots.plot_calls(text)]
    kept = [generate_plots.plot_call(*arguments) for place, (kind, arguments) in enumerate(calls)
            if kind in ("texts", "large") or place % 17 == 0]
    texts = [text for _, _, text in generate_plots.cases(1, 40) if len(text) < 9000]
    return [(text, plots_sheet(text)) for text in kept + texts]


class Slips(unittest.TestCase):
    """A program with one of the slips is found out."""

    def shows(self, name, function):
        """Whether some case has another sheet, or a row that is refused."""
        plots.placed.cache_clear()
        try:
            with mock.patch.object(plots, name, function), mock.patch.object(plots, "is_within", lambda *_: True):
                return any(plots_sheet(text) != expected for text, expected in some_cases())
        finally:
            plots.placed.cache_clear()

    def test_slips(self):
        """Each shows, by the bits alone."""
        some_cases()
        for slip, (name, function) in SLIPS.items():
            with self.subTest(slip=slip):
                self.assertTrue(self.shows(name, function))

    def test_no_slips(self):
        """What the slips are made of gives the right sheets where nothing is changed;
        halving both rows before the sum changes no bit."""
        for name, function in (
                ("plot", calling((7, 8, 1))), ("plot", over(lambda answer: answer[:2])),
                ("halfway", lambda one, other: one * 0.5 + other * 0.5)):
            self.assertFalse(self.shows(name, function))


class Cases(unittest.TestCase):
    """What the comparison rests on."""

    def test_sorts(self):
        """Each sort and each refusal comes up among few cases."""
        seen, refused = collections.Counter(), set()
        for _, _, text in generate_plots.cases(1, 40):
            sheet = plots_sheet(text)
            seen.update(plot_sorts.plot_sorts(text, sheet))
            refused.update(compare.refusals_of_lines(sheet))
        self.assertEqual(set(seen), set(plot_sorts.PLOT_FLOORS))
        self.assertEqual(refused, set(compare.REFUSALS_OF_PLOTS))

    def test_sort(self):
        """The sorts of some calls."""
        for lengths, text, expected in (
                ((127, 127), b"(2,1);", ["two leaves"]),
                ((128, 127), b"7;", ["one leaf", "more rows lent"]),
                ((127, 127), b"(3,(2,1));", ["in another order"]),
                ((127, 127), b" [&R] ((1,2),\n3);", []),
                ((126, 127), b"(2,1);", ["short rows", "short but enough for the tree", "126 rows"]),
                ((127, 0), b"x", ["short columns", "short, and refused"]),
                ((127, 127), b"x", [])):
            call = generate_plots.plot_call(text, *lengths)
            self.assertEqual(plot_sorts.plot_sorts(call, plots_sheet(call)), expected, call)


if __name__ == "__main__":
    unittest.main()
