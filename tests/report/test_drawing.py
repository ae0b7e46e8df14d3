#!/usr/bin/env python3
"""The pictures, read back: where the nodes of the graph stand, graph.svg and the trees.

    PYTHONPATH=report:bindings/python python3 tests/report/test_drawing.py
"""

import itertools
import math
import random
import re
import time
import unittest
import xml.etree.ElementTree as ElementTree
from fractions import Fraction
from unittest import mock

import surveys
from norbelath_report import drawing, layout, markup

SVG = "{http://www.w3.org/2000/svg}"


def chained(count):
    return [(node, node + 1) for node in range(count - 1)]


def random_graph(seed, count, links):
    chance = random.Random(seed)
    return sorted(chance.sample(list(itertools.combinations(range(count), 2)), links))


def islands_of(count, links):
    islands = list(range(count))
    for _ in range(count):
        for one, other in links:
            islands[one] = islands[other] = min(islands[one], islands[other])
    return islands


# Name: count, links, weights.
GRAPHS = {
    "one": (1, [], [7]),
    "two": (2, [(0, 1)], [900, 1]),
    "alone": (160, [], [1] * 160),
    "alone and uneven": (90, [], [900, 300, 100] + [1] * 87),
    "chain": (160, chained(160), [1] * 160),
    "star": (160, [(0, node) for node in range(1, 160)], [5000] + [1] * 159),
    "complete": (160, list(itertools.combinations(range(160), 2)), [1] * 160),
    "sparse": (160, random_graph(1, 160, 110), list(range(160, 0, -1))),
    "dense": (100, random_graph(2, 100, 2500), [3000, 2000] + [2] * 98),
    "pairs": (160, [(node, node + 1) for node in range(0, 160, 2)], [1] * 160),
    "large discs": (6, random_graph(3, 6, 9), [1] * 6),
    "two large and many": (40, [(0, 1), *((1, node) for node in range(2, 40))], [500, 500] + [1] * 38),
}


class Layout(unittest.TestCase):
    """Where the nodes stand."""

    @classmethod
    def setUpClass(cls):
        cls.placed = {}
        for name, (count, links, weights) in GRAPHS.items():
            started = time.process_time()
            places = layout.place(count, links, islands_of(count, links), weights)
            cls.placed[name] = places, layout.radii(weights), time.process_time() - started

    def test_nodes_do_not_overlap(self):
        for name, (places, radii, _) in self.placed.items():
            for one, other in itertools.combinations(range(len(places)), 2):
                with self.subTest(graph=name, nodes=(one, other)):
                    self.assertGreater(math.dist(places[one], places[other]), radii[one] + radii[other])

    def test_nodes_do_not_overlap_where_pushing_does_not_help(self):
        count, links, weights = GRAPHS["chain"]
        with mock.patch.object(layout, "_PUSHES", 0):
            places = layout.place(count, links, islands_of(count, links), weights)
        radii = layout.radii(weights)
        for one, other in itertools.combinations(range(count), 2):
            self.assertGreater(math.dist(places[one], places[other]), radii[one] + radii[other])

    def test_nodes_are_in_the_picture(self):
        for name, (places, radii, _) in self.placed.items():
            with self.subTest(graph=name):
                self.assertEqual(len(places), GRAPHS[name][0])
                self.assertGreaterEqual(min(x - size for (x, _), size in zip(places, radii)), -1e-6)
                self.assertGreaterEqual(min(y - size for (_, y), size in zip(places, radii)), layout.HEADING - 1e-6)
                self.assertLessEqual(max(x + size for (x, _), size in zip(places, radii)), 1.1 * layout.WIDTH)
                self.assertLessEqual(max(y + size for (_, y), size in zip(places, radii)), 2.5 * layout.WIDTH)

    def test_area_is_the_share_above_the_least(self):
        weights = [5000, 1250, 50, 20, 1, 1]
        radii = layout.radii(weights)
        self.assertAlmostEqual(radii[0] / radii[1], 2)
        self.assertAlmostEqual(radii[0] / radii[2], 10)
        self.assertEqual(radii[4:], (layout.LEAST, layout.LEAST))
        self.assertEqual(layout.radii([9]), (layout.WHOLE,))

    def test_islands_stand_apart(self):
        for name in ("sparse", "pairs", "alone and uneven"):
            places, radii, _ = self.placed[name]
            boxes = {}
            for island, (x, y), size in zip(islands_of(*GRAPHS[name][:2]), places, radii):
                left, top, right, bottom = boxes.get(island, (x, y, x, y))
                boxes[island] = min(left, x - size), min(top, y - size), max(right, x + size), max(bottom, y + size)
            for one, other in itertools.combinations(boxes.values(), 2):
                with self.subTest(graph=name, boxes=(one, other)):
                    beside = one[2] < other[0] or other[2] < one[0]
                    self.assertTrue(beside or one[3] < other[1] or other[3] < one[1])

    def test_largest_island_is_first_and_the_lonely_are_last(self):
        links = [(1, 2), (3, 4), (4, 5)]
        places = layout.place(8, links, islands_of(8, links), [9, 5, 5, 5, 5, 5, 1, 1])
        corner = {island: min(places[node][0] for node in island) for island in ((3, 4, 5), (1, 2))}
        self.assertLess(corner[3, 4, 5], corner[1, 2])
        lowest = max(places[node][1] for node in range(1, 6))
        self.assertTrue(all(places[node][1] > lowest for node in (0, 6, 7)))
        self.assertLess(places[0][0], places[6][0])
        self.assertEqual(layout.grouped(islands_of(8, links)), [[3, 4, 5], [1, 2], [0], [6], [7]])

    def test_lonely_nodes_make_a_grid(self):
        places, _, _ = self.placed["alone"]
        rows = [list(row) for _, row in itertools.groupby(places, key=lambda place: place[1])]
        self.assertEqual(len({len(row) for row in rows[:-1]}), 1)
        for row in rows:
            self.assertEqual([x for x, _ in row], [x for x, _ in rows[0][: len(row)]])
        for line in ([x for x, _ in rows[0]], [row[0][1] for row in rows]):
            steps = [after - before for before, after in zip(line, line[1:])]
            self.assertAlmostEqual(min(steps), max(steps))

    def test_neighbours_are_nearer_than_others(self):
        for name in ("chain", "star", "dense", "sparse"):
            count, links, _ = GRAPHS[name]
            places, _, _ = self.placed[name]
            islands = islands_of(count, links)
            near = [math.dist(places[one], places[other]) for one, other in links]
            far = [
                math.dist(places[one], places[other]) for one, other in itertools.combinations(range(count), 2)
                if (one, other) not in set(links) and islands[one] == islands[other]
            ] if name != "sparse" else [math.dist(places[0], place) for place in places]
            with self.subTest(graph=name):
                self.assertLess(sum(near) / len(near), 0.97 * sum(far) / len(far))

    def test_no_long_wait(self):
        for name, (_, _, seconds) in self.placed.items():
            with self.subTest(graph=name):
                self.assertLess(seconds, 15)

    def test_floats_are_never_summed(self):
        """Python 3.12 adds up floats otherwise than 3.11 does."""
        def whole(numbers):
            numbers = list(numbers)
            self.assertFalse([number for number in numbers if not isinstance(number, int)])
            return sum(numbers)
        with mock.patch.object(layout, "sum", whole, create=True):
            count, links, weights = GRAPHS["sparse"]
            layout.place(count, links, islands_of(count, links), weights)

    def test_only_exact_functions_are_used(self):
        with open(layout.__file__, encoding="utf-8") as file:
            source = file.read()
        self.assertEqual(re.findall(r"^(?:from|import) .*", source, re.MULTILINE), [
            "from __future__ import annotations", "from functools import lru_cache", "from math import sqrt",
            "from typing import Sequence",
        ])
        self.assertNotIn("**", source)

    def test_places_are_the_same_everywhere(self):
        """Worked out once; any float that differs in its last bit shows after so many steps."""
        count, links, weights = GRAPHS["two large and many"]
        places = layout.place(count, links, islands_of(count, links), weights)
        self.assertEqual([value.hex() for value in places[20]], PLACED)
        self.assertEqual(places, layout.place(count, links, islands_of(count, links), weights))


PLACED = ["0x1.5f1871154715bp+7", "0x1.bb12124567ca9p+8"]


def parsed(svg):
    return ElementTree.fromstring(svg)


def styles(svg):
    return parsed(svg).find(SVG + "style").text


def schemes(style):
    """The colours of the light and of the dark scheme."""
    return [dict(re.findall(r"--(\w+): (#\w+);", block)) for block in re.findall(r"{([^{}]*--ink:[^{}]*)}", style)]


def small_survey():
    """Nine islands, one of three trees, one of two, and seven of one."""
    base = ((1, 2), (3, 4))
    return surveys.survey(
        [base] * 12, [600, 200, 100, 50, 20, 10, 5, 5, 4, 3, 2, 1],
        [(0, 1, True), (0, 4, False), (1, 4, False), (2, 3, True)], clades=[((1, 2), 900), ((3, 4), 1000)],
    )


class Graph(unittest.TestCase):
    """graph.svg."""

    def setUp(self):
        self.survey = small_survey()
        self.svg = drawing.graph_svg(self.survey)
        self.root = parsed(self.svg)
        self.nodes = {}
        for island in self.root.findall(SVG + "g"):
            for node in island.findall(SVG + "g"):
                title = node.find(SVG + "title").text
                self.nodes[int(re.match(r"tree (\d+):", title)[1])] = (island.get("class"), title, node)

    def circle(self, position):
        circle = self.nodes[position][2].find(SVG + "circle")
        return tuple(float(circle.get(name)) for name in ("cx", "cy", "r"))

    def test_a_node_for_each_topology(self):
        self.assertEqual(sorted(self.nodes), list(range(12)))
        self.assertEqual(self.nodes[0][1], "tree 0: 600 visits, 60.00%; 2 neighbours; island 0")
        self.assertEqual(self.nodes[3][1], "tree 3: 50 visits, 5.00%; 1 neighbour; island 2")
        self.assertEqual(self.nodes[11][1], "tree 11: 1 visit, 0.10%; 0 neighbours; island 11")

    def test_area_by_share(self):
        areas = {position: self.circle(position)[2] ** 2 for position in self.nodes}
        for position, visits in ((1, 200), (2, 100), (3, 50), (4, 20)):
            self.assertAlmostEqual(areas[position] / areas[0], visits / 600, delta=0.01)
        self.assertEqual(self.circle(11)[2], layout.LEAST)

    def test_legend_has_the_same_scale(self):
        survey = surveys.survey([(1, 2)] * 2, [90, 10], others=900)
        root = parsed(drawing.graph_svg(survey))
        sizes = [float(circle.get("r")) for circle in root.iter(SVG + "circle")]
        words = [text.text for text in root.findall(f"{SVG}text[@class='key']")]
        self.assertEqual(words[-2:], ["5%", "1% of the table's visits"])
        for size, share in zip(sizes, (0.9, 0.1, 0.05, 0.01)):
            self.assertAlmostEqual(size, layout.WHOLE * math.sqrt(share), delta=0.06)

    def test_colour_by_island(self):
        classes = {position: node[0] for position, node in self.nodes.items()}
        self.assertEqual(classes[0], classes[1])
        self.assertEqual(classes[0], classes[4])
        self.assertEqual(classes[2], classes[3])
        own = [classes[position] for position in (0, 2, 5, 6, 7, 8, 9)]
        self.assertEqual(len(set(own)), 7)
        self.assertEqual(classes[10], classes[11])
        self.assertNotIn(classes[10], own)
        fills = [re.search(rf"\.{name} circle {{ fill: ([^;]+);", styles(self.svg))[1] for name in [*own, classes[10]]]
        self.assertEqual(len(set(fills)), 8)
        self.assertIn("stroke-dasharray", re.search(rf"\.{classes[10]} circle {{[^}}]*}}", styles(self.svg))[0])

    def test_lines_join_the_nodes(self):
        lines = self.root.findall(f"{SVG}g[@class='links']/{SVG}line")
        self.assertEqual(len(lines), 4)
        for line, (one, other, kind, words) in zip(lines, (
            (0, 1, "near", "one interchange"), (0, 4, "far", "one other prune-and-regraft move"),
            (1, 4, "far", "one other prune-and-regraft move"), (2, 3, "near", "one interchange"),
        )):
            ends = tuple(float(line.get(name)) for name in ("x1", "y1", "x2", "y2"))
            self.assertEqual(ends, self.circle(one)[:2] + self.circle(other)[:2])
            self.assertEqual(line.get("class"), kind)
            self.assertEqual(line.find(SVG + "title").text, f"trees {one} and {other}: {words}")

    def test_dashes_are_for_other_moves(self):
        self.assertRegex(styles(self.svg), r"\.far {[^}]*stroke-dasharray")
        self.assertNotRegex(styles(self.svg), r"\.near {[^}]*stroke-dasharray")

    def test_unrooted_lines_name_no_interchange(self):
        svg = drawing.graph_svg(surveys.survey([(1, (2, 3))] * 2, [2, 1], [(0, 1, None)], rooted=False))
        self.assertNotIn("interchange", svg)
        self.assertIn("<title>trees 0 and 1: one prune-and-regraft move</title>", svg)

    def test_numbers_are_in_the_larger_nodes(self):
        for position, (_, _, node) in self.nodes.items():
            text = node.find(SVG + "text")
            if self.circle(position)[2] >= 8:
                self.assertEqual(text.text, str(position))
                self.assertGreaterEqual(float(text.get("style").split()[1][:-2]), 8)
            else:
                self.assertIsNone(text)

    def test_headings_of_islands(self):
        headings = [text.text for text in self.root.findall(f"{SVG}text[@class='island']")]
        self.assertEqual(headings, ["island 0: 3 trees", "island 2: 2 trees", "7 islands of one tree"])

    def test_caption_says_that_small_nodes_are_larger(self):
        words = " ".join(text.text for text in self.root.findall(f"{SVG}text[@class='soft']"))
        self.assertIn("the smallest are drawn larger", words)
        self.assertIn("The 7 islands of most trees have a colour of their own", words)

    def test_all_is_in_the_picture(self):
        for survey in (self.survey, surveys.survey([1], [5]), surveys.survey([(1, 2)] * 160, [1] * 160)):
            root = parsed(drawing.graph_svg(survey))
            left, top, width, height = map(float, root.get("viewBox").split())
            self.assertEqual((left, top), (0, 0))
            self.assertEqual((width, height), (float(root.get("width")), float(root.get("height"))))
            for circle in root.iter(SVG + "circle"):
                x, y, size = (float(circle.get(name)) for name in ("cx", "cy", "r"))
                self.assertTrue(size < x < width - size and size < y < height - size)
            for text in root.iter(SVG + "text"):
                self.assertTrue(0 < float(text.get("x")) < width and 0 < float(text.get("y")) < height)

    def test_words_can_be_read_on_every_colour(self):
        style = styles(self.svg)
        light, dark = schemes(style)
        inks = dict(re.findall(r"\.(c\d) text { fill: (#\w+);", style))
        fills = dict(re.findall(r"\.(c\d) circle { fill: (#\w+);", style))
        self.assertEqual(len(inks), 7)
        self.assertEqual(set(inks), set(fills))
        for name, ink in inks.items():
            self.assertGreaterEqual(surveys.contrast(ink, fills[name]), 4.5, name)
        for scheme in (light, dark):
            for ink in ("ink", "soft"):
                self.assertGreaterEqual(surveys.contrast(scheme[ink], scheme["paper"]), 4.5)
            self.assertGreaterEqual(surveys.contrast(scheme["ink"], scheme["neutral"]), 4.5)

    def test_dark_on_a_screen_only(self):
        self.assertIn("@media screen and (prefers-color-scheme: dark)", styles(self.svg))


class Trees(unittest.TestCase):
    """The pictures of trees."""

    def check_branches(self, svg, tree):
        """The lines are those of the tree, and none crosses another."""
        root = parsed(svg)
        names = root.findall(f"{SVG}text[@class='name']")
        self.assertEqual([float(name.get("x")) for name in names], [float(names[0].get("x"))] * len(names))
        first = float(names[0].get("y")) - 4
        horizontal, vertical = [], []
        for path in root.findall(SVG + "path"):
            for x, y, way, to in re.findall(r"M([\d.]+) ([\d.]+)([HV])([\d.]+)", self.spelt(path.get("d"))):
                (horizontal if way == "H" else vertical).append((float(x), float(y), float(to)))
        nodes = surveys.nodes_of(tree)
        forks = [(row, column, subtree) for subtree, row, column in nodes if isinstance(subtree, tuple)]
        depth = max(column for _, _, column in nodes)
        self.assertEqual(len(vertical), len(forks))
        self.assertEqual(len(horizontal), len(nodes))
        height = 18
        tops = {id(subtree): row for subtree, row, _ in nodes if isinstance(subtree, tuple)}
        rows = {subtree: row for subtree, row, _ in nodes if not isinstance(subtree, tuple)}
        row_of = lambda subtree: tops[id(subtree)] if isinstance(subtree, tuple) else rows[subtree]
        for (x, y, to), (_, _, subtree) in zip(vertical, forks):
            self.assertAlmostEqual(y, first + height * float(row_of(subtree[0])), delta=0.06)
            self.assertAlmostEqual(to, first + height * float(row_of(subtree[-1])), delta=0.06)
        tips_end = float(names[0].get("x")) - 8
        self.assertEqual(sum(abs(right - tips_end) < 0.11 for _, _, right in horizontal), len(names))
        for (x, _, _), (_, column, _) in zip(vertical, forks):
            self.assertAlmostEqual(x, vertical[0][0] + column * (tips_end - vertical[0][0]) / depth, delta=0.11)
        for x, y, to in vertical:
            for left, row, right in horizontal:
                if left < x < right:
                    self.assertFalse(y < row < to, "a branch crosses another")
        width, bottom = float(root.get("width")), float(root.get("height"))
        self.assertTrue(all(0 < left <= right < width and 0 < row < bottom for left, row, right in horizontal))

    @staticmethod
    def spelt(d):
        """A path with a start before each line."""
        spelt, start = "", ""
        for part in re.findall(r"M[\d.]+ [\d.]+|[HV][\d.]+", d):
            if part[0] == "M":
                start = part
            else:
                spelt += start + part
        return spelt

    def draw(self, tree, **further):
        survey = surveys.survey([tree], [3], **further)
        return drawing.tree_svg(survey, survey.topologies[0])

    def test_branches(self):
        for tree in (1, (1, 2), ((1, 2), 3), (1, (2, (3, 4))), (((1, 4), (2, 6)), (3, (5, 7))), surveys.comb(64)):
            with self.subTest(tree=tree):
                self.check_branches(self.draw(tree), tree)

    def test_names_from_top_to_bottom(self):
        root = parsed(self.draw(((1, 4), (2, 3))))
        names = root.findall(f"{SVG}text[@class='name']")
        self.assertEqual([name.text for name in names], ["name 1", "name 4", "name 2", "name 3"])
        heights = [float(name.get("y")) for name in names]
        self.assertEqual(heights, [heights[0] + 18 * row for row in range(4)])

    def test_title(self):
        survey = surveys.survey([(1, 2)] * 2, [2000, 1], others=3999)
        svg = drawing.tree_svg(survey, survey.topologies[1])
        self.assertEqual(parsed(svg).find(SVG + "title").text, "Tree 1: 1 visit of 6,000, 0.02%")
        self.assertEqual(parsed(svg).find(f"{SVG}text[@class='heading']").text, "Tree 1: 1 visit of 6,000, 0.02%")

    def test_support_is_at_its_fork_and_rounded_down(self):
        clades = [((1, 2), 6000), ((1, 2, 3), 5999), ((4, 5), 59), ((2, 3), 1)]
        survey = surveys.survey([(((1, 2), 3), (4, 5))], [1], others=5999, clades=clades)
        root = parsed(drawing.tree_svg(survey, survey.topologies[0]))
        supports = root.findall(f"{SVG}text[@class='support']")
        told = [text.find(SVG + "title").text for text in supports]
        self.assertEqual([text.find(SVG + "title").tail for text in supports], ["99", "100", "0"])
        self.assertEqual(told[0], "3 names: 5,999 of 6,000 visits, 99.98%")
        self.assertEqual(told[1:], ["2 names: 6,000 of 6,000 visits, 100.00%", "2 names: 59 of 6,000 visits, 0.98%"])
        top = float(root.find(f"{SVG}text[@class='name']").get("y")) - 4
        rows = [(float(text.get("y")) - top) / 18 for text in supports]
        for row, expected in zip(rows, (1.25, 0.5, 3.5)):
            self.assertLess(abs(row - expected), 0.6)

    def test_unrooted_trees_say_that_they_are_hung(self):
        svg = self.draw((1, (2, 3)), rooted=False, names={1: "first <i>", 2: "b", 3: "c"})
        words = " ".join(text.text for text in parsed(svg).findall(f"{SVG}text[@class='soft']"))
        self.assertIn("hung from its first name, first <i>. The place of the top", words)
        self.assertNotIn("hung", self.draw((1, (2, 3))))

    def test_strange_names_come_back(self):
        tree = surveys.comb(12)
        svg = self.draw(tree, names=surveys.STRANGE)
        names = [name.text for name in parsed(svg.encode("utf-8")).findall(f"{SVG}text[@class='name']")]
        self.assertEqual(names, [surveys.SHOWN[label] for label in range(1, 13)])
        self.assertNotIn("<script", svg)

    def test_long_names_have_room(self):
        for name in ("W" * 200, "x" * 200, "i" * 200, "\u732b" * 200):
            root = parsed(self.draw((1, 2), names={1: name, 2: "b"}))
            text = root.find(f"{SVG}text[@class='name']")
            # What a common font takes at most: 12 px for each W or Chinese sign, 7.1 for an x, 3.4 for an i.
            each = {"W": 11.9, "x": 7.1, "i": 3.4}.get(name[0], 12)
            self.assertLessEqual(float(text.get("x")) + 200 * each, float(root.get("width")))

    def test_majority_tree_with_many_children(self):
        tree = ((1, 2, 5), 3, (4, 6))
        clades = [((1, 2, 5), 3), ((4, 6), 2)]
        survey = surveys.survey([surveys.comb(6)], [3], majority=surveys.text_of(tree) + ";", clades=clades)
        svg = drawing.majority_svg(survey)
        self.check_branches(svg, tree)
        root = parsed(svg)
        self.assertEqual(
            [name.text for name in root.findall(f"{SVG}text[@class='name']")], [f"name {label}" for label in (1, 2, 5, 3, 4, 6)]
        )
        supports = root.findall(f"{SVG}text[@class='support']")
        self.assertEqual([text.find(SVG + "title").tail for text in supports], ["100", "66"])


class Pictures(unittest.TestCase):
    """What holds for every picture."""

    def setUp(self):
        strange = surveys.survey([surveys.comb(12)], [1], names=surveys.STRANGE, majority="(1,2,3,4,5,6,7,8,9,10,11,12);")
        small = small_survey()
        self.pictures = [
            drawing.graph_svg(small), drawing.tree_svg(small, small.topologies[0]), drawing.graph_svg(strange),
            drawing.tree_svg(strange, strange.topologies[0]), drawing.majority_svg(strange),
        ]

    def test_title_and_summary_are_named(self):
        for svg in self.pictures:
            root = parsed(svg.encode("utf-8"))
            self.assertEqual(root.get("role"), "img")
            ids = root.get("aria-labelledby").split()
            self.assertEqual([root[0].get("id"), root[1].get("id")], ids)
            self.assertEqual([root[0].tag, root[1].tag], [SVG + "title", SVG + "desc"])
            self.assertTrue(root[0].text and root[1].text)

    def test_nothing_from_elsewhere(self):
        for svg in self.pictures:
            root = parsed(svg.encode("utf-8"))
            tags = {element.tag for element in root.iter()}
            self.assertLessEqual(tags, {SVG + tag for tag in (
                "svg", "title", "desc", "style", "rect", "g", "line", "circle", "text", "path")})
            attributes = {name for element in root.iter() for name in element.attrib}
            self.assertFalse([name for name in attributes if "href" in name or name.startswith("on")])
            self.assertNotRegex(styles(svg), r"url\(|@import|@font-face")
            self.assertEqual(set(re.findall(r"font: \d+px ([^;]+);", styles(svg))), {"sans-serif"})

    def test_styles_are_of_one_picture(self):
        for svg in self.pictures:
            kind = parsed(svg.encode("utf-8")).get("class")
            rules = re.sub(r"@media[^{]*{((?:[^{}]*{[^{}]*})*)\s*}", r"\1", styles(svg))
            selectors = [one.strip() for rule in re.findall(r"([^{}]+){", rules) for one in rule.split(",")]
            self.assertTrue(selectors)
            for selector in selectors:
                self.assertTrue(selector.startswith(f".{kind}"), selector)

    def test_lines_end_in_lf(self):
        for svg in self.pictures:
            self.assertTrue(svg.endswith("</svg>\n"))
            self.assertNotIn("\r", svg)


class Markup(unittest.TestCase):
    """Names and numbers."""

    def test_every_character_is_well_formed(self):
        for start in range(0, 0x110000, 0x800):
            text = "".join(map(chr, range(start, start + 0x800)))
            back = parsed(f"<a b=\"{markup.escaped(text.replace(chr(9), '').replace(chr(10), ''))}\">{markup.escaped(text)}</a>")
            self.assertEqual(len(back.text), len(text))
            changed = {ord(sign) for sign, shown in zip(text, back.text) if sign != shown}
            self.assertTrue(all(sign < 0x20 or 0xD800 <= sign <= 0xDFFF or sign in (0xFFFE, 0xFFFF) for sign in changed))

    def test_percent_is_rounded_half_up(self):
        for part, whole in itertools.product(range(0, 41), (40, 41, 1202, 20000, 7)):
            hundredths = math.floor(Fraction(10000 * part, whole) + Fraction(1, 2))
            self.assertEqual(markup.percent(part, whole), f"{hundredths // 100}.{hundredths % 100:02}%")


if __name__ == "__main__":
    unittest.main()
