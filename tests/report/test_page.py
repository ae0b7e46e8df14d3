#!/usr/bin/env python3
"""report.html, read back.

    PYTHONPATH=report:bindings/python python3 tests/report/test_page.py
"""

import html.parser
import math
import re
import unittest
from fractions import Fraction

import surveys
from norbelath_report import drawing, page

VOID = {"meta"}
SETTINGS = [("burn-in", "3 <b>"), ("source 1", "run & \u202e1.t")]
BASE = ((1, 2), ((3, 4), 5))


class Reader(html.parser.HTMLParser):
    """The elements of a page: which are open in which, with their attributes and texts."""

    def __init__(self, text):
        super().__init__(convert_charrefs=True)
        self.open = []
        self.elements = []
        self.wrong = []
        self.feed(text)
        self.close()

    def handle_starttag(self, tag, attributes):
        element = {"tag": tag, "in": [one["tag"] for one in self.open], **dict(attributes), "text": ""}
        self.elements.append(element)
        if tag not in VOID:
            self.open.append(element)

    def handle_startendtag(self, tag, attributes):
        self.handle_starttag(tag, attributes)
        self.open.pop()

    def handle_endtag(self, tag):
        if not self.open or self.open[-1]["tag"] != tag:
            self.wrong.append((tag, self.getpos()))
        else:
            self.open.pop()

    def handle_data(self, data):
        for element in self.open:
            element["text"] += data

    def all(self, tag):
        return [element for element in self.elements if element["tag"] == tag]

    def texts(self, tag):
        return [element["text"] for element in self.all(tag)]


def tables(text):
    """The rows of each table by its caption, as lists of cells."""
    found = {}
    for table in re.findall(r"<table>.*?</table>", text, re.DOTALL):
        rows = [Reader(row) for row in re.findall(r"<tr>.*?</tr>", table)]
        cells = [[cell["text"] for cell in row.elements if cell["tag"] in ("th", "td")] for row in rows]
        found[Reader(table).texts("caption")[0]] = cells
    return found


def percent(part, whole):
    hundredths = math.floor(Fraction(10000 * part, whole) + Fraction(1, 2))
    return f"{hundredths // 100}.{hundredths % 100:02}%"


def rooted(**further):
    """Five trees in two islands; interchanges alone join them to three groups."""
    given = {
        "clades": [((3, 4), 1190), ((1, 2), 800), ((3, 4, 5), 700)], "majority": "((1,2),((3,4),5));", "others": 90, **further,
    }
    return surveys.survey([BASE] * 5, [900, 150, 50, 9, 1], [(0, 1, True), (0, 2, False), (3, 4, True)], **given)


def unrooted():
    return surveys.survey([(1, (2, (3, 4)))] * 2, [5, 2], [(0, 1, None)], rooted=False)


class Page(unittest.TestCase):
    """What the page says."""

    def setUp(self):
        self.survey = rooted(warnings=["run 1.t:17: the last tree is cut off <b>"])
        self.text = page.page(self.survey, SETTINGS)
        self.reader = Reader(self.text)
        self.tables = tables(self.text)
        self.words = re.sub(r"\s+", " ", Reader(re.sub(r"<(style|svg).*?</\1>", "", self.text, flags=re.DOTALL)).texts("main")[0])

    def test_files(self):
        self.assertEqual(self.tables["The samplers' files"], [
            ["file", "trees", "burn-in", "visits"], ["run 1.t", "603", "3", "600"], ["run<b>.t", "600", "0", "600"],
        ])
        self.assertIn("The trees are rooted and have 5 names. The burn-in was given as 3 <b> for each file.", self.words)
        self.assertIn("there are 1,200.", self.words)

    def test_numbers(self):
        numbers = dict(zip(self.reader.texts("dt"), self.reader.texts("dd")))
        self.assertEqual(numbers, {
            "topologies visited": "95", "topologies in the table": "5", "visits that the table covers": "92.50%",
            "pairs one move apart": "3", "of these, interchanges": "2", "islands": "2",
        })
        self.assertIn("The table takes the 5 most visited topologies and leaves out 90, with 90 visits.", self.words)
        self.assertNotIn("leaves out", page.page(rooted(others=0), []))

    def test_warnings(self):
        self.assertIn("Warnings", self.reader.texts("h3"))
        self.assertIn("run 1.t:17: the last tree is cut off <b>", self.reader.texts("li"))
        self.assertNotIn("Warnings", Reader(page.page(rooted(), [])).texts("h3"))

    def test_trees(self):
        visits = [900, 150, 50, 9, 1]
        expected = [
            [str(i), str(visits[i]), percent(visits[i], 1200), percent(sum(visits[:i + 1]), 1200), near, island, f"trees/00{i}.svg"]
            for i, (near, island) in enumerate((("2", "0"), ("1", "0"), ("1", "0"), ("1", "3"), ("1", "3")))
        ]
        self.assertEqual(self.tables["The most visited topologies"][1:], expected)
        links = [link["href"] for link in self.reader.all("a") if link["href"].startswith("trees/0")]
        self.assertEqual(links, [f"trees/00{i}.svg" for i in range(5)])

    def test_pictures(self):
        names = [svg["aria-labelledby"].split()[0] for svg in self.reader.all("svg")]
        self.assertEqual(names, ["graph-title", "tree-0-title", "tree-1-title", "tree-2-title", "majority-title"])
        self.assertIn(drawing.graph_svg(self.survey), self.text)
        self.assertIn(drawing.tree_svg(self.survey, self.survey.topologies[2]), self.text)

    def test_islands(self):
        self.assertEqual(self.tables["Islands of the table"][1:], [["0", "3", "1,100", "91.67%"], ["3", "2", "10", "0.83%"]])

    def test_clades(self):
        self.assertEqual(self.tables["The most supported clades"][1:], [
            ["1,190", "99.17%", "2", "name 3, name 4"], ["800", "66.67%", "2", "name 1, name 2"],
            ["700", "58.33%", "3", "name 3, name 4, name 5"],
        ])
        self.assertIn("((1,2),((3,4),5));", self.reader.texts("code"))
        many = [(tuple(range(1, 2 + size)), 50 - size) for size in range(1, 40)]
        listed = tables(page.page(surveys.survey([surveys.comb(41)], [100], clades=many, majority="1;"), []))
        self.assertEqual(len(listed["The most supported clades"]), 26)

    def test_next_run(self):
        self.assertIn("No single prune-and-regraft move turns a tree of one island into a tree of another.", self.words)
        self.assertIn("Interchanges alone join the trees of the table into 3 groups, all moves into 2 islands.", self.words)
        self.assertIn("between the two trees of 1 pair.", self.words)
        alone = Reader(page.page(unrooted(), [])).texts("main")[0]
        self.assertIn("There is one island", alone)
        self.assertNotIn("No single prune-and-regraft move", alone)
        self.assertNotIn("nterchange", alone)

    def test_proved_and_not_proved(self):
        for demand in (
            "every text, however broken, gets the right answer or the right refusal;",
            "the canonical text is SDLNewick, and unique: two trees have the same one exactly when they have the same topology;",
            "a pair is listed once, exactly when one move joins two different topologies.",
        ):
            self.assertIn(demand, self.reader.texts("li"))
        proved, unproved = self.words.split("Not proved")
        self.assertIn("for each group of at most 160 visits", proved)
        for words in ("DendroPy", "the choice of the table", "the adding up", "the drawing", "this page"):
            self.assertIn(words, unproved)
            self.assertNotIn(words, proved.split("What is proved, and what is not")[1])

    def test_unrooted_pages_claim_nothing_of_clades(self):
        text = page.page(unrooted(), [])
        self.assertNotIn("Clades", Reader(text).texts("h2"))
        self.assertNotIn("for each group", text)
        self.assertIn("how an unrooted tree is hung from its first name;", text)
        self.assertNotIn("of these, interchanges", Reader(text).texts("dt"))

    def test_checks_by_hand(self):
        self.assertEqual(self.reader.texts("pre"), [
            "pair_lister < table.txt | cmp - sheet.txt", "sha256sum -c --ignore-missing SHA256SUMS",
            "norbelath verify FOLDER 'run 1.t' 'run<b>.t'",
        ])

    def test_files_of_the_folder(self):
        listed = [row[0] for row in self.tables["Files beside this page"][1:]]
        self.assertEqual(set(listed), {
            "table.txt", "sheet.txt", "names.tsv", "trees.tsv", "pairs.tsv", "clades.tsv", "sample.tsv", "settings.tsv",
            "graph.svg", "trees/", "SHA256SUMS",
        })

    def test_settings_are_shown_as_given(self):
        self.assertEqual(self.tables["How the report was made"][1:], [list(row) for row in SETTINGS])


class Form(unittest.TestCase):
    """How the page is made."""

    def setUp(self):
        strange = surveys.survey(
            [surveys.comb(12)] * 2, [2, 1], [(0, 1, True)], names=surveys.STRANGE, warnings=list(surveys.STRANGE.values()),
            clades=[(tuple(range(1, 13)), 3)], majority="(1,2,3,4,5,6,7,8,9,10,11,12);",
        )
        self.strange = page.page(strange, [(name, name) for name in surveys.STRANGE.values()])
        self.pages = [
            self.strange, page.page(rooted(), SETTINGS), page.page(unrooted(), SETTINGS),
            page.page(surveys.survey([1], [1], majority="1;"), []),
        ]

    def test_tags_are_closed(self):
        for text in self.pages:
            reader = Reader(text)
            self.assertEqual((reader.wrong, reader.open), ([], []))
            self.assertTrue(text.startswith("<!DOCTYPE html>\n"))
            self.assertTrue(text.endswith("</html>\n"))
            text.encode("utf-8")

    def test_strange_names_are_only_text(self):
        self.assertNotIn("<script", self.strange)
        reader = Reader(self.strange)
        shown = list(surveys.SHOWN.values())
        self.assertEqual([item for item in reader.texts("bdi") if item in shown][:12], shown)
        self.assertEqual(tables(self.strange)["How the report was made"][1:], [[name, name] for name in shown])
        self.assertEqual(tables(self.strange)["The most supported clades"][1][3], ", ".join(shown))

    def test_nothing_is_loaded_and_nothing_runs(self):
        for text in self.pages:
            for element in Reader(text).elements:
                self.assertNotIn(element["tag"], ("script", "link", "img", "iframe", "object", "embed", "base", "form"))
                self.assertFalse([name for name in element if name.startswith("on") or name in ("src", "srcset", "action")])
                if "href" in element:
                    self.assertEqual(element["tag"], "a")
                    self.assertRegex(element["href"], r"^[A-Za-z0-9]+[A-Za-z0-9./]*$")
            self.assertNotRegex(text, r"url\(|@import|@font-face")

    def test_headings_are_in_order(self):
        for text in self.pages:
            levels = [int(element["tag"][1]) for element in Reader(text).elements if re.fullmatch("h[1-6]", element["tag"])]
            self.assertEqual(levels.count(1), 1)
            self.assertEqual(levels[0], 1)
            self.assertTrue(all(after <= before + 1 for before, after in zip(levels, levels[1:])))

    def test_tables_have_scopes_and_captions(self):
        for text in self.pages:
            reader = Reader(text)
            self.assertEqual(len(reader.all("table")), len(reader.all("caption")))
            self.assertTrue(all(cell.get("scope") in ("col", "row") for cell in reader.all("th")))
            for rows in tables(text).values():
                self.assertEqual(len({len(row) for row in rows}), 1)

    def test_names_of_parts_are_unique(self):
        for text in self.pages:
            ids = [element["id"] for element in Reader(text).elements if "id" in element]
            self.assertEqual(len(ids), len(set(ids)))

    def test_language_width_and_paper(self):
        text = self.pages[1]
        reader = Reader(text)
        self.assertEqual(reader.all("html")[0]["lang"], "en")
        self.assertIn("width=device-width", [meta.get("content", "") for meta in reader.all("meta")][1])
        self.assertEqual(reader.texts("title")[0], "Neighbour report: run 1.t, run<b>.t")
        style = reader.texts("style")[0]
        self.assertIn("@media print", style)
        self.assertIn("@media screen and (prefers-color-scheme: dark)", style)

    def test_words_can_be_read_in_light_and_dark(self):
        style = Reader(self.pages[1]).texts("style")[0]
        blocks = re.findall(r":root {([^{}]*)}", style)
        self.assertEqual(len(blocks), 2)
        for block in blocks:
            colours = dict(re.findall(r"--(\w+): (#\w{6});", block))
            for ink in ("ink", "soft", "link"):
                for ground in ("paper", "ground"):
                    self.assertGreaterEqual(surveys.contrast(colours[ink], colours[ground]), 4.5, (ink, ground))

    def test_same_survey_same_page(self):
        self.assertEqual(page.page(rooted(), SETTINGS), self.pages[1])


if __name__ == "__main__":
    unittest.main()
