"""Tests of the survey: the table, the links, the clades and the majority tree against plain code of their own."""

import os
import random
import sys
import unittest

sys.path.insert(0, os.path.dirname(os.path.abspath(__file__)))

import norbelath
import samples
from norbelath_report.errors import Refused
from norbelath_report.survey import BurnIn, drawn, survey

NONE = BurnIn.parse("0")


def clades_of(text):
    """The clades of two or more labels of a rooted tree, read from its text."""
    clades, open_ = [], []
    number = ""
    for character in text:
        if character.isdigit():
            number += character
            continue
        if number:
            for clade in open_:
                clade.append(int(number))
            number = ""
        if character == "(":
            open_.append([])
        elif character == ")":
            clades.append(tuple(sorted(open_.pop())))
    return clades


class BurnIns(unittest.TestCase):
    def test_parts_of_files(self):
        for text, trees, out in [
            ("0", 7, 0), ("25%", 7, 1), ("25%", 8, 2), ("25%", 3, 0), ("99%", 100, 99), ("5", 7, 5),
        ]:
            self.assertEqual((BurnIn.parse(text).of(trees), str(BurnIn.parse(text))), (out, text))

    def test_other_texts(self):
        for text in ["", "%", "100%", "-1", "+1", "1.5", "25 %", "1e2", "٣", "1\n", "9" * 19, "25%%"]:
            with self.assertRaises(ValueError, msg=text):
                BurnIn.parse(text)

    def test_of_each_file(self):
        first, second = "((1,2),3);", "((1,3),2);"
        made = survey(samples.sample_of([first, first, second, second], [second, first]), BurnIn.parse("50%"), 160)
        self.assertEqual(made.left_out, (2, 1))
        self.assertEqual(made.positions, (None, None, 0, 0, None, 1))
        self.assertEqual((made.kept, made.distinct, made.covered, made.burn_in), (3, 2, 3, "50%"))

    def test_nothing_left(self):
        sample = samples.sample_of(["(1,2);"] * 3, ["(1,2);"] * 2)
        with self.assertRaises(Refused) as caught:
            survey(sample, BurnIn.parse("2"), 160)
        self.assertEqual(str(caught.exception), "run2.t: a burn-in of 2 leaves none of the 2 trees of file 2")


class Table(unittest.TestCase):
    def test_order(self):
        a, b, c, d = "((1,2),(3,4));", "((1,3),(2,4));", "((1,4),(2,3));", "(((1,2),3),4);"
        made = survey(samples.sample_of([d, c, b, b, a, c, a, a]), NONE, 3)
        table = [(topology.text, topology.visits) for topology in made.topologies]
        self.assertEqual(table, [(a, 3), (c, 2), (b, 2)])
        self.assertEqual(made.positions, (None, 1, 2, 2, 0, 1, 0, 0))
        self.assertEqual((made.kept, made.distinct, made.covered, made.top), (8, 4, 7, 3))

    def test_other_tops(self):
        for top in (0, 161, -1):
            with self.assertRaises(ValueError):
                survey(samples.sample_of(["(1,2);"]), NONE, top)

    def test_more_topologies_than_fit(self):
        chance = random.Random(5)
        trees = [samples.random_tree(range(1, 65), chance) for _ in range(400)]
        made = survey(samples.sample_of(trees), NONE, 160)
        self.assertEqual((len(made.topologies), made.distinct, made.covered), (160, 400, 160))
        table = [topology.text for topology in made.topologies]
        self.assertEqual(table, [norbelath.form(tree) for tree in trees[:160]])

    def test_links(self):
        trees = samples.few_topologies(300, 60, 6, 11)
        made = survey(samples.sample_of(trees), NONE, 40)
        texts = [topology.text for topology in made.topologies]
        pairs = [(i, j) for i in range(40) for j in range(i + 1, 40) if norbelath.pair(texts[i], texts[j])]
        self.assertEqual([(link.first, link.second) for link in made.links], pairs)
        for topology in made.topologies:
            here = topology.position
            near = [j for j in range(40) if (here, j) in pairs or (j, here) in pairs]
            self.assertEqual(topology.neighbours, tuple(near))
            for neighbour in topology.neighbours:
                self.assertEqual(topology.island, made.topologies[neighbour].island)
        kinds = {link.interchange for link in made.links}
        self.assertEqual(kinds, {True, False})
        for link in made.links:
            alone = norbelath.interchanges(texts[link.first] + texts[link.second]).pairs
            self.assertEqual(link.interchange, bool(alone))

    def test_islands(self):
        made = survey(samples.sample_of(["(((3,4),1),2);", "(((1,2),3),4);", "(1,(2,(3,4)));"]), NONE, 160)
        self.assertEqual([topology.island for topology in made.topologies], [0, 1, 0])

    def test_unrooted(self):
        trees = samples.few_topologies(100, 9, 6, 3, samples.random_unrooted)
        made = survey(samples.sample_of(trees), NONE, 160)
        self.assertTrue(made.links)
        self.assertEqual({link.interchange for link in made.links}, {None})
        self.assertEqual((made.clades, made.majority), ((), None))
        for topology in made.topologies:
            self.assertEqual(topology.plot, norbelath.plot(topology.drawn))


class Drawn(unittest.TestCase):
    def test_texts(self):
        for text, expected in [
            ("((1,2),3);", "((1,2),3);"),
            ("7;", "7;"),
            ("[&U]7;", "7;"),
            ("[&U](1,2);", "(1,2);"),
            ("[&U](1,2,3);", "(1,(2,3));"),
            ("[&U](10,(11,12),(13,14));", "(10,((11,12),(13,14)));"),
        ]:
            self.assertEqual(drawn(text), expected)

    def test_canonical(self):
        chance = random.Random(8)
        for taxa in range(1, 65):
            text = norbelath.form(samples.random_unrooted(range(1, taxa + 1), chance))
            self.assertEqual(norbelath.form(drawn(text)), drawn(text))


class Clades(unittest.TestCase):
    def test_as_the_support_call(self):
        chance = random.Random(2)
        for taxa in [1, 2, 3, 4, 5, 8, 20, 64]:
            for topologies in [1, 3, 40]:
                labels = sorted(chance.sample(range(1, 65), taxa))
                pool = [samples.random_tree(labels, chance) for _ in range(topologies)]
                trees = [chance.choice(pool) for _ in range(chance.randint(1, 160))]
                with self.subTest(taxa=taxa, topologies=topologies):
                    self.check_one_group(trees, tuple(labels))

    def check_one_group(self, trees, labels):
        made = survey(samples.sample_of(trees), NONE, 160)
        answer = norbelath.support("\n".join(trees))
        expected = [(clade.labels, clade.trees) for clade in answer.clades if clade.labels != labels]
        self.assertEqual([(clade.labels, clade.visits) for clade in made.clades], expected)
        self.assertEqual(made.majority, answer.majority)

    def test_over_many_groups(self):
        trees = samples.few_topologies(1000, 50, 7, 4)
        told = []
        sample = samples.sample_of(trees[:400], trees[400:])
        made = survey(sample, BurnIn.parse("10%"), 5, lambda *done: told.append(done))
        kept = trees[40:400] + trees[460:]
        counts = {}
        for tree in kept:
            for clade in clades_of(tree):
                counts[clade] = counts.get(clade, 0) + 1
        del counts[tuple(range(1, 8))]
        expected = sorted(counts.items(), key=lambda entry: (-entry[1], entry[0]))
        self.assertEqual([(clade.labels, clade.visits) for clade in made.clades], expected)
        self.assertEqual(sorted(clades_of(made.majority)), sorted(
            [clade for clade, number in expected if 2 * number > len(kept)] + [tuple(range(1, 8))]
        ))
        self.assertEqual(told[-1], (900, 900))

    def test_half_is_no_majority(self):
        made = survey(samples.sample_of(["((1,2),3);", "((1,3),2);"]), NONE, 160)
        self.assertEqual(made.majority, "(1,2,3);")


if __name__ == "__main__":
    unittest.main()
