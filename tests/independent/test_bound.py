#!/usr/bin/env python3
"""Checks of bound.py, and of what its comparison with the library rests on: samples
worked by hand, what holds for all numbers of forests, tried on all small trees and on
random ones; and slips, each of which the cases of generate_bound.py have to show.

    python3 test_bound.py
"""

import functools
import itertools
import random
import re
import unittest
from unittest import mock

import bound
import compare
import generate
import generate_bound
import generate_rows
import reference
from bound import Pair, bound_sheet, pair, row_pair

ALL_LABELS = generate.ALL_LABELS


def text_of(tree):
    """The text of nested tuples, without blanks."""
    return generate.plain([tree])


def clades_of(text):
    """The clades of the tree of a text."""
    return reference.read_one(text, 0)[0].clades


def labels_in(text):
    """The labels that a text has, as a set."""
    return frozenset(map(int, re.findall(rb"\d+", text)))


def forest_texts(text):
    """The forest texts of all cuts, in order."""
    cuts = (reference.cut(text, number) for number in itertools.count())
    return list(itertools.takewhile(lambda made: isinstance(made, bytes), cuts))


def by_texts(text, other):
    """The pair test by forest texts, as the cut call gives them, and by the labels
    that stand behind the space of each."""
    if reference.form(text) == reference.form(other):
        return Pair(False, 0)
    others = forest_texts(other)
    pruned = {labels_in(made.split(b" ")[1]) for made in others}
    number = 0
    for made in forest_texts(text):
        number += labels_in(made.split(b" ")[1]) in pruned
        if made in others:
            return Pair(True, number)
    return Pair(False, number)


def small_pairs():
    """Every two texts of trees of up to four leaves, and some of five."""
    groups = [generate.all_trees(ALL_LABELS[:size]) for size in range(1, 5)]
    groups += [generate.all_trees(generate_bound.SCATTERED)[::6]]
    return [map(text_of, two) for group in groups for two in itertools.product(group, repeat=2)]


def random_pairs(seed, count):
    """Texts of two random trees, near each other or not, of up to 20 leaves."""
    rng = random.Random(seed)
    makers = (
        generate_bound.unrelated, generate_bound.one_move, generate_bound.far_move, generate_bound.moves_on,
        generate_bound.near_copies, generate_bound.combs,
    )
    for make in itertools.islice(itertools.cycle(makers), count):
        trees = make(rng, rng.randint(3, rng.choice((6, 20))))
        yield [generate_bound.tree_text(rng, tree) for tree in trees]


class Samples(unittest.TestCase):
    """Trees worked by hand, in both orders."""

    def check(self, one, other, expected, back):
        """The numbers of two texts and of their rows."""
        for (text, other_text), answer in (((one, other), expected), ((other, one), back)):
            self.assertEqual(pair(text, other_text), answer)
            self.assertEqual(row_pair(reference.row(text), reference.row(other_text)), answer)

    def test_document_01(self):
        """The three samples with a star."""
        # Cut 0 prunes {1,2,3}, which the other has not; cut 1 leaves (3,4) (1,2).
        self.check(b"(((1,2),3),4);", b"((1,2),(3,4));", (True, 1), (True, 1))
        # The leaves are all that both have.
        self.check(b"(((1,2),3),4);", b"(((3,4),1),2);", (False, 4), (False, 4))
        self.check(b"((((4,5),1),2),3);", b"((((1,2),3),4),5);", (False, 5), (False, 5))

    def test_orders(self):
        """Only the cut of the last label leaves a forest of both trees."""
        # {1,2,3} and {1,2} count nothing; 1, 2, 3 and 4 do.  Back, {1,2,4} and {1,4}
        # count nothing, 1 and 4 do.
        self.check(b"(((1,2),3),4);", b"(((1,4),2),3);", (True, 4), (True, 2))
        # {1,2} counts before 1, 2, 3, 4 and 5; back, before 1, 2 and 5.
        self.check(b"((((1,2),3),4),5);", b"((((1,2),5),3),4);", (True, 6), (True, 4))

    def test_clade_in_common(self):
        """No, after the leaves and {1,2}."""
        self.check(b"((((1,2),3),4),5);", b"(((1,2),(4,5)),3);", (False, 6), (False, 6))

    def test_three_leaves(self):
        """Leaf 1 leaves a forest of both, and comes first or behind a fork that
        counts nothing."""
        for one, other in itertools.permutations((b"((1,2),3);", b"(1,(2,3));", b"((1,3),2);"), 2):
            self.assertEqual(pair(one, other), (True, 1))

    def test_equal(self):
        """Equal topologies, however they are written."""
        for one, other in ((b"7;", b" 7 ;"), (b"(10,2);", b"[&R](02,10);"), (b"((1,2),3);", b"(3,(2,1));")):
            self.check(one, other, (False, 0), (False, 0))

    def test_unrooted(self):
        """Always 0."""
        one = b"[&U](1,2,(3,4));"
        self.assertEqual(pair(one, b"[&U](1,(2,3),4);"), (True, 0))
        self.assertEqual(pair(one, b"[&U]((1,2),3,4);"), (False, 0))
        self.assertEqual(pair(b"[&U](1,2,(3,(4,5)));", b"[&U](1,4,(3,(2,5)));"), (False, 0))

    def test_largest(self):
        """The last leaf of a comb is hung above so many others: all forks of these,
        of which there is one less, and all leaves count."""
        for leaves, below in ((5, 2), (64, 2), (64, 32), (64, 61)):
            one, other = map(text_of, generate_bound.late_leaf(leaves, below))
            # Back, leaf n comes behind the leaves that it is hung above.
            self.check(one, other, (True, below - 1 + leaves), (True, below - 1 + below + 1))
        self.assertEqual(pair(*map(text_of, generate_bound.late_leaf(64, 61))), (True, 124))

    def test_sheet(self):
        """A line for each call, whatever bytes a text has."""
        calls = (
            b"texts 14 14\n(((1,2),3),4);\n(((1,4),2),3);\nrows 4 15 9 11 15 4 15 3 7 15\ntexts 2 0\n1;\n\n"
            b"texts 2 3\n1;\n\n2;\ntexts 6 2\n[&U]1;\n1;\nrows 1 1 0\nrows 1 1 1 2\ntexts 6 6\n[&U]1;\n[&U]1;\n"
        )
        expected = (
            b"yes 4\nyes 2\nrefused 1 in 1 at 0\nrefused 5 in 1 at 2\nrefused 10 in 1 at 1\nrefused 11 in 1 at 0\n"
            b"refused 5 in 1 at 0\nno 0\n"
        )
        self.assertEqual(bound_sheet(calls), expected)
        self.assertEqual(bound_sheet(b""), b"")


class AllPairs(unittest.TestCase):
    """What holds for every two trees, tried on small and on random ones."""

    def check(self, text, other):
        """The number in itself, beside the same exchanged, and beside others."""
        answer, back = pair(text, other), pair(other, text)
        self.assertEqual(answer, by_texts(text, other))
        self.assertEqual(answer, row_pair(reference.row(text), reference.row(other)))
        self.assertEqual(answer.apart, reference.pair(text, other))
        self.assertEqual(answer.apart, back.apart)
        clades, others = clades_of(text), clades_of(other)
        leaves = text.count(b",") + 1
        self.assertTrue(answer.apart <= answer.forests <= 2 * leaves - 2)
        if clades == others:
            self.assertEqual(answer, (False, 0))
        elif not answer.apart:
            # All cuts are gone through, so that order is nothing.
            self.assertEqual(answer.forests, len(clades & others) - 1)
            self.assertEqual(answer, back)

    def test_small(self):
        """Trees of up to five leaves."""
        for text, other in small_pairs():
            self.check(text, other)

    def test_random(self):
        """Trees of up to 20 leaves."""
        for text, other in random_pairs(71, 150):
            self.check(text, other)

    def test_numbers_of_five_leaves(self):
        """How many of all two trees of five leaves have each number."""
        texts = list(map(text_of, generate.all_trees((1, 2, 3, 4, 5))))
        answers = [pair(*two) for two in itertools.product(texts, repeat=2)]
        self.assertEqual(len(answers), 105 ** 2)
        self.assertEqual(answers.count((False, 0)), 105)
        self.assertEqual(sum(answer.apart for answer in answers), sum(map(self.neighbours, texts)))
        self.assertEqual(set(answers), {Pair(True, number) for number in range(1, 7)}.union(
            Pair(False, number) for number in (0, 5, 6)))

    def neighbours(self, text):
        """How many topologies are one move apart from the tree of a text."""
        tree, _ = reference.read_one(text, 0)
        return len(reference.reached(tree) - {tree.clades})

    def test_cuts(self):
        """Order and forests are those of the walk over the canonical tree."""
        rng = random.Random(72)
        for size in [1, 2, 3, 64] + [rng.randint(4, 40) for _ in range(60)]:
            text = text_of(generate_bound.random_one(rng, size))
            tree = reference.canonical(reference.read_one(text, 0)[0])
            walked = [(part.clade, (rest.clades, part.clades)) for rest, part in reference.prunings(tree)]
            self.assertEqual(bound.cuts(tree.clades), walked)

    def test_order_of_children(self):
        """The number does not depend on how trees are written."""
        rng = random.Random(73)
        for _ in range(60):
            trees = generate_bound.far_move(rng, rng.randint(3, 12))
            expected = pair(*map(text_of, trees))
            self.assertEqual(pair(*(generate_bound.tree_text(rng, tree) for tree in trees)), expected)
            self.assertEqual(pair(*(text_of(generate.mirrored(tree)) for tree in trees)), expected)


class Cases(unittest.TestCase):
    """The cases, and what the comparison counts."""

    def test_refusals(self):
        """They are those of the pair calls of reference.py, and yes and no too."""
        for _, kind, text in cheap_cases():
            if kind in ("small-texts", "limit-texts", "rows"):
                continue
            for (name, arguments), line in zip(bound.bound_calls(text), bound_sheet(text).splitlines()):
                answer = (reference.row_pair if name == b"rows" else reference.pair)(*arguments)
                if isinstance(answer, bool):
                    self.assertEqual(line.split()[0], b"yes" if answer else b"no")
                else:
                    self.assertEqual(line, b"refused %d in %d at %d" % answer)

    def test_cases(self):
        """Cases are determined, all kinds and refusals come up, and every two small
        trees are there, as texts and as rows."""
        fixed = generate_bound.fixed_cases()
        longer = list(generate_bound.cases(3, len(fixed) + 120))
        self.assertTrue(longer[:len(fixed) + 20] == list(generate_bound.cases(3, len(fixed) + 20)))
        self.assertFalse(longer == list(generate_bound.cases(4, len(fixed) + 120)))
        self.assertTrue({kind for _, kind, _ in longer}.issuperset(kind for kind, _, _ in generate_bound.CASE_KINDS))
        refused = {number for _, _, text in cheap_cases() for number in compare.refusals_of_lines(bound_sheet(text))}
        self.assertEqual(refused, set(compare.REFUSALS_OF_ROWS))
        texts, rows = set(), set()
        for kind, text in fixed:
            for name, arguments in bound.bound_calls(text) if kind in ("small-texts", "rows") else ():
                if name == b"texts":
                    texts.add(tuple(map(reference.form, arguments)))
                else:
                    rows.add(tuple(map(tuple, arguments)))
        for size, topologies in zip(range(1, 6), (1, 1, 3, 15, 105)):
            trees = generate.all_trees(ALL_LABELS[:size])
            self.assertEqual(len(trees), topologies)
            for two in itertools.product(trees, repeat=2):
                self.assertIn(tuple(reference.form(text_of(tree)) for tree in two), texts)
                self.assertIn(tuple(tuple(generate_rows.row(tree)) for tree in two), rows)

    def test_possible(self):
        """A number above 2n - 2, and 0 for yes, cannot be."""
        rows = b"rows 3 7 3 7 3 7 6 7\n"
        for text, line, possible in (
                (rows, b"yes 1", True), (rows, b"yes 4", True), (rows, b"yes 5", False), (rows, b"yes 0", False),
                (rows, b"no 0", True), (b"texts 10 10\n((1,2),3);\n(1,(2,3));\n", b"yes 0", False),
                (b"texts 10 10\n((1,2),3);\n(1,(2,3));\n", b"yes 5", False),
                (b"texts 6 6\n[&U]1;\n[&U]1;\n", b"no 0", True), (b"texts 6 6\n[&U]1;\n[&U]1;\n", b"no 1", False),
                (b"texts 16 16\n[&U](1,2,(3,4));\n[&U](1,(2,3),4);\n", b"yes 0", True),
                (b"rows 1 1 0\n", b"refused 11 in 1 at 0", True)):
            self.assertEqual(compare.bound_possible(text, line + b"\n"), possible, (text, line))

    def test_sorts(self):
        """The sorts of pair tests that the comparison counts."""
        moved = [
            "yes, 2 to 4", "yes, as many as leaves or more", "yes, 2n - 4", "yes at the last cut",
            "yes after cuts that count nothing", "another number in the other order",
        ]
        back = [
            "yes, 2 to 4", "yes after cuts that count nothing", "yes, clades left over",
            "another number in the other order",
        ]
        sorts = {
            b"rows 4 15 3 7 15 4 15 9 11 15\n": ["rows, yes"] + moved,
            b"texts 14 14\n(((1,2),3),4);\n(((1,4),2),3);\n": ["texts, yes"] + moved,
            b"texts 14 14\n(((1,4),2),3);\n(((1,2),3),4);\n": ["texts, yes"] + back,
            b"texts 14 14\n(((1,2),3),4);\n(((3,4),1),2);\n": ["texts, no", "no, leaves only"],
            b"rows 1 1 1 1\n": ["equal rows"], b"texts 2 3\n1;\n1; \n": ["equal texts"],
            b"texts 0 2\n\n1;\n": ["refused texts"], b"rows 0 0\n": ["refused rows"],
            b"texts 6 6\n[&U]1;\n[&U]1;\n": ["unrooted, no"],
            b"texts 16 16\n[&U](1,2,(3,4));\n[&U](1,(2,3),4);\n": ["unrooted, yes"],
        }
        for text, expected in sorts.items():
            self.assertEqual(compare.bound_sorts(text, bound_sheet(text)), expected, text)


@functools.lru_cache(None)
def cheap_cases():
    """The fixed cases but for most of the small pairs, and random cases without the
    large ones."""
    cases = [(place, kind, text) for place, (kind, text) in enumerate(generate_bound.fixed_cases())]
    small = [case for case in cases if case[1] in ("small-texts", "rows")]
    kept = [case for case in cases if case not in small] + small[2:4] + small[-2:]
    drawn = list(generate_bound.cases(5, len(cases) + 120))[len(cases):]
    return kept + [case for case in drawn if not case[1].startswith("large")]


@functools.lru_cache(None)
def right_sheets():
    """The sheets of these cases."""
    return [bound_sheet(text) for _, _, text in cheap_cases()]


def counting(counts=lambda pruned, shared, others: pruned in others, stops=lambda pruned, shared, others: shared,
             order=lambda cuts: cuts, number_of=lambda number: number, equal=True):
    """The pair test with other cuts that count, another end, another order, the
    number changed, or equal trees not told apart."""

    def compared(clades, others):
        """In place of that of bound.py."""
        if equal and clades == others:
            return Pair(False, 0)
        cuts = order(bound.shared_forests(clades, others))
        apart = clades != others and any(shared for _, shared in cuts)
        number = 0
        for pruned, shared in cuts:
            number += counts(pruned, shared, others)
            if stops(pruned, shared, others):
                break
        return Pair(apart, number_of(number))

    return compared


def sorted_cuts(key):
    """The cuts in another order."""
    return counting(order=lambda cuts: sorted(cuts, key=lambda cut: key(cut[0])))


def number(clade):
    """A clade as a number."""
    return reference.number_of(clade)


def places_by(least):
    """Cuts in the order that another choice of the first child makes."""
    return lambda clade, clades: [
        least(other) for other in sorted((x for x in clades if clade <= x), key=len, reverse=True)
    ]


def counted_unrooted(first, second):
    """Unrooted trees that are one move apart have the number 1."""
    answer = reference.one_move_apart(first, second)
    return Pair(answer, int(answer)) if first.unrooted else bound.compared(first.clades, second.clades)


RIGHT_COMPARED = bound.compared
RIGHT_FOREST = bound.forest

# A clade of the root is never pruned, so to count it or not is no slip.
SLIPS = {
    "no number": ("compared", counting(number_of=lambda number_: 0)),
    "every cut counts": ("compared", counting(counts=lambda pruned, shared, others: True)),
    "only leaves count": ("compared", counting(counts=lambda pruned, shared, others: len(pruned) == 1)),
    "only forks count": ("compared", counting(
        counts=lambda pruned, shared, others: len(pruned) > 1 and pruned in others)),
    "only shared forests count": ("compared", counting(counts=lambda pruned, shared, others: shared)),
    "the shared one does not count": ("compared", counting(
        counts=lambda pruned, shared, others: not shared and pruned in others)),
    "not over at the first shared forest": ("compared", counting(stops=lambda *cut: False)),
    "over at the first clade in common": ("compared", counting(stops=lambda pruned, shared, others: pruned in others)),
    "equal trees counted": ("compared", counting(equal=False)),
    "the other tree's cuts": ("compared", lambda clades, others: RIGHT_COMPARED(others, clades)),
    "the smaller of both orders": ("compared", lambda *two: min(RIGHT_COMPARED(*two), RIGHT_COMPARED(*two[::-1]))),
    "no cuts gone through for no": ("compared", lambda *two: (
        RIGHT_COMPARED(*two) if RIGHT_COMPARED(*two).apart else Pair(False, 0))),
    "cuts from behind": ("compared", counting(order=lambda cuts: cuts[::-1])),
    "leaves before forks": ("compared", sorted_cuts(lambda clade: (len(clade) > 1, number(clade)))),
    "forks before leaves": ("compared", sorted_cuts(lambda clade: (len(clade) == 1, number(clade)))),
    "cuts as numbers ascend": ("compared", sorted_cuts(number)),
    "cuts by size": ("compared", sorted_cuts(lambda clade: (-len(clade), min(clade)))),
    "cuts by smallest label": ("compared", sorted_cuts(lambda clade: (min(clade), -len(clade)))),
    "children before their fork": ("compared", sorted_cuts(lambda clade: (max(clade), len(clade)))),
    "children by digits": ("place_in_text", places_by(lambda clade: str(min(clade)))),
    "children by largest label": ("place_in_text", places_by(max)),
    "greater child first": ("place_in_text", places_by(lambda clade: -min(clade))),
    "parts of a forest in any order": ("forest", lambda clades, pruned: frozenset(RIGHT_FOREST(clades, pruned))),
    "only remainders compared": ("forest", lambda clades, pruned: (RIGHT_FOREST(clades, pruned)[0], pruned)),
    "only pruned parts compared": ("forest", lambda clades, pruned: RIGHT_FOREST(clades, pruned)[1]),
    "remainder not closed up": ("forest", lambda clades, pruned: (clades - RIGHT_FOREST(clades, pruned)[1], pruned)),
    "number in 6 bits": ("compared", counting(number_of=lambda number_: number_ % 64)),
    "number up to 100": ("compared", counting(number_of=lambda number_: min(number_, 100))),
    "unrooted trees counted": ("tested", counted_unrooted),
}


def slipped(name, function):
    """bound.py with a slip; what it remembers is forgotten before."""
    bound.cuts.cache_clear()
    return mock.patch.object(bound, name, function)


class Slips(unittest.TestCase):
    """A program with one of the slips is found out."""

    def tearDown(self):
        """Nothing of a slip is remembered."""
        bound.cuts.cache_clear()

    def test_slips(self):
        """Some case has another sheet."""
        cases = list(zip(cheap_cases(), right_sheets()))
        for slip, (name, function) in SLIPS.items():
            with self.subTest(slip=slip), slipped(name, function):
                self.assertTrue(any(bound_sheet(text) != expected for (_, _, text), expected in cases))

    def test_no_slips(self):
        """What the slips are made of gives the right sheets where nothing is left
        out."""
        cases = list(zip(cheap_cases(), right_sheets()))[::3]
        for name, function in (("compared", counting()), ("place_in_text", places_by(min))):
            with self.subTest(name=name), slipped(name, function):
                for (_, _, text), expected in cases:
                    self.assertEqual(bound_sheet(text), expected)


if __name__ == "__main__":
    unittest.main()
