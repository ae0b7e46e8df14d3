#!/usr/bin/env python3
"""Tests of the Python module over the shared library that NORBELATH_LIBRARY names: every call against the independent
program in tests/independent, which shares nothing with it, on its fixed and random cases; and what the module adds.

    NORBELATH_LIBRARY=FILE python3 test.py

At the end a line for each call says how many compared calls were accepted and how many refused.
"""

import array
import collections
import contextlib
import copy
import ctypes
import doctest
import inspect
import itertools
import os
import pathlib
import pickle
import random
import re
import shutil
import subprocess
import sys
import tempfile
import threading
import typing
import unittest
from unittest import mock

HERE = pathlib.Path(__file__).resolve().parent
ROOT = HERE.parent.parent
sys.path[:0] = [str(HERE), str(ROOT / "tests" / "independent")]

import bound
import generate
import generate_bound
import generate_index
import generate_plots
import generate_rows
import index as independent_index
import norbelath
import plots
import reference
from norbelath import Copies, Index, Reason, Refusal

SEED = 27
HEADER = (ROOT / "include" / "norbelath.h").read_text()

# For each call how many compared ones were accepted and refused.
COMPARED = collections.defaultdict(lambda: [0, 0])


def tearDownModule():
    """Say what was compared."""
    for name, (accepted, refused) in sorted(COMPARED.items()):
        print(f"compared {name} accepted {accepted} refused {refused}")


# What is compared


def in_turn(position, text):
    """The bytes of a text as each kind of argument in turn. Latin-1 has a character for each byte."""
    kinds = (bytes, bytearray, memoryview, lambda data: data.decode("latin-1"))
    return kinds[position % len(kinds)](text)


def has_place(number, place):
    """Whether a refusal that the independent program gives has a place."""
    return number not in (7, 8, 9, 11, 12, 13) and (number not in (5, 6) or place != 0)


def answer_of(call, *arguments):
    """The answer of a call of the module, or the refusal's number, text and place."""
    try:
        return call(*arguments)
    except Refusal as refusal:
        return refusal.number, refusal.text, refusal.place


def graph_numbers(answer):
    """The pairs, counts and firsts of a graph, with what else there is."""
    return tuple(map(tuple, (answer.pairs, answer.counts, answer.firsts)))


def island_numbers(answer):
    """A graph's numbers and the islands."""
    numbers = answer.islands if isinstance(answer, norbelath.Islands) else answer.numbers
    return (*graph_numbers(answer), tuple(numbers))


def interchange_numbers(answer):
    """The pairs and counts."""
    return tuple(answer.pairs), tuple(answer.counts)


def support_parts(answer):
    """The clades as labels with their trees, the trees and the majority tree's bytes."""
    if isinstance(answer, norbelath.Support):
        clades = tuple((clade.labels, clade.trees) for clade in answer.clades)
        return clades, answer.trees, answer.majority.encode()
    return tuple(answer.clades), answer.trees, answer.majority


def pair_numbers(answer):
    """Whether the trees are apart, and the number of forests."""
    return answer.apart, answer.forests


def plot_numbers(answer):
    """The bits of the rows, and the columns."""
    return tuple(map(plots.bits, answer.rows)), tuple(answer.columns)


def as_bytes(answer):
    """A text, or a table's texts, as bytes."""
    if isinstance(answer, str):
        return answer.encode()
    if isinstance(answer, reference.Table):
        return tuple(answer.texts)
    return tuple(map(str.encode, answer)) if isinstance(answer, tuple) else answer


class Comparing(unittest.TestCase):
    """A test that compares with the independent program."""

    maxDiff = 2000

    def compare(self, name, given, expected, parts):
        """See that an answer has the expected parts, or is the expected refusal; and count it."""
        if isinstance(expected, reference.Refusal):
            number, text, place = expected
            self.assertEqual(given, (number, text, place if has_place(number, place) else None), name)
            COMPARED[name][1] += 1
        else:
            self.assertFalse(isinstance(given, tuple) and None in given, (name, given))
            self.assertEqual(parts(given), parts(expected), name)
            COMPARED[name][0] += 1

    def lending(self, **lengths):
        """Lend so many elements, whatever the module would lend."""
        return mock.patch.multiple(norbelath, **lengths)


class Texts(Comparing):
    """The calls that read a text, on the cases of the pair lister."""

    def one_text(self, position, text):
        """Compare all calls on one text."""
        given = in_turn(position, text)
        number = random.Random(position).choice((0, 1, 2, 3, 5, 125, 126, 2 ** 32, 2 ** 64, 2 ** 64 + 1))
        self.compare("form", answer_of(norbelath.form, given), reference.form(text), as_bytes)
        self.compare("cut", answer_of(norbelath.cut, given, number), reference.cut(text, number), as_bytes)
        self.compare("row", answer_of(norbelath.row, given), reference.row(text), tuple)
        self.compare("plot", answer_of(norbelath.plot, given), plots.plot(text), plot_numbers)
        self.compare("table", answer_of(norbelath.table, given), reference.table(text), as_bytes)
        # The islands have the merged graph in them, which takes the independent program long.
        islands = reference.islands(text)
        merged = islands if isinstance(islands, reference.Refusal) else reference.Graph(*islands[:3])
        apart = reference.graph_choosing(text, False)
        self.compare("islands", answer_of(norbelath.islands, given), islands, island_numbers)
        self.compare("graph", answer_of(norbelath.graph, given), merged, graph_numbers)
        for copies, expected in ((Copies.MERGE, merged), (Copies.KEEP_APART, apart)):
            self.compare("graph_choosing", answer_of(norbelath.graph_choosing, given, copies), expected, graph_numbers)
        self.compare("interchanges", answer_of(norbelath.interchanges, given), reference.interchanges(text),
                     interchange_numbers)
        self.compare("support", answer_of(norbelath.support, given), reference.support(text), support_parts)
        self.compare("sheet", answer_of(norbelath.sheet, given), reference.sheet(text), as_bytes)

    def test_fixed_texts(self):
        """Bytes, labels, label sets, depths, 160 trees and more, 65,535 bytes and more, marks, children, both kinds."""
        # The full tables of unrooted trees take the independent program too long; one is tried below.
        fixed = [text for kind, text in generate.fixed_cases() if kind != "limit"]
        for position, text in enumerate(fixed):
            self.one_text(position, text)

    def test_random_texts(self):
        """Random tables and damaged ones."""
        for position in range(100):
            self.one_text(position, generate.random_case(generate.KINDS, SEED, position)[1])

    def test_random_single_trees(self):
        """Random trees and damaged ones, up to 64 leaves, for the calls that take one tree."""
        rng = random.Random(SEED)
        makers = (generate_rows.tree_text, generate_rows.unrooted_text, generate_rows.damaged_text)
        for position in range(600):
            text = makers[position % len(makers)](rng)
            number = rng.randrange(rng.choice((2, 8, 130)))
            self.compare("form", answer_of(norbelath.form, in_turn(position, text)), reference.form(text), as_bytes)
            self.compare("cut", answer_of(norbelath.cut, text, number), reference.cut(text, number), as_bytes)

    def test_full_unrooted_table(self):
        """160 unrooted trees of 64 leaves, which have the longest texts."""
        rng = random.Random(SEED)
        trees = [generate.random_unrooted_tree(rng, generate.ALL_LABELS) for _ in range(norbelath.MAX_TREES)]
        text = generate.plain(trees)
        self.compare("table", answer_of(norbelath.table, text), reference.table(text), as_bytes)

    def test_neighbours_of_each_position(self):
        """They are what the pairs say."""
        for position in range(40):
            text = generate.written(random.Random(position), generate.crowd(random.Random(position), 9))
            for answer in (norbelath.graph(text), norbelath.interchanges(text), norbelath.islands(text)):
                linked = set(answer.pairs) | {(j, i) for i, j in answer.pairs}
                expected = tuple(tuple(j for j in range(9) if (i, j) in linked) for i in range(9))
                self.assertEqual(answer.neighbours(), expected)
                self.assertEqual(tuple(map(len, expected)), answer.counts)


class Pairs(Comparing):
    """The pair calls, on the cases of the number of forests."""

    def one_case(self, position, text):
        """Compare the calls of one case."""
        for name, arguments in bound.bound_calls(text):
            if name == b"rows":
                given = answer_of(norbelath.row_pair, *arguments)
                self.compare("row_pair", given, bound.row_pair(*arguments), pair_numbers)
            else:
                texts = (in_turn(position + place, argument) for place, argument in enumerate(arguments))
                self.compare("pair", answer_of(norbelath.pair, *texts), bound.pair(*arguments), pair_numbers)

    def test_fixed_pairs(self):
        """Samples, limits and refusals."""
        for position, (kind, text) in enumerate(generate_bound.fixed_cases()):
            if kind not in ("small-texts", "rows"):
                self.one_case(position, text)

    def test_random_pairs(self):
        """Near and far trees of both kinds, damaged texts and rows."""
        for position in range(30):
            self.one_case(position, generate.random_case(generate_bound.CASE_KINDS, SEED, position)[1])

    def test_truth(self):
        """A pair is true where the trees are one move apart."""
        self.assertTrue(norbelath.pair("((1,2),3);", "(1,(2,3));"))
        self.assertFalse(norbelath.pair("((1,2),3);", "((2,1),3);"))


class Rows(Comparing):
    """The row calls, on their cases."""

    def one_case(self, text):
        """Compare the calls of one case."""
        for name, arguments in reference.row_calls(text):
            if name == b"row":
                self.compare("row", answer_of(norbelath.row, *arguments), reference.row(*arguments), tuple)
            elif name == b"text":
                given = answer_of(norbelath.row_text, *arguments)
                self.compare("row_text", given, reference.row_text(*arguments), as_bytes)
            else:
                given = answer_of(norbelath.row_pair, *arguments)
                self.compare("row_pair", given, bound.row_pair(*arguments), pair_numbers)

    def test_fixed_rows(self):
        """Small trees and pairs, and refusals."""
        for kind, text in generate_rows.fixed_cases():
            if kind in ("small-trees", "small-pairs", "refused-pairs"):
                self.one_case(text)

    def test_random_rows(self):
        """Rows of random trees, damaged rows, pairs and texts."""
        for position in range(80):
            self.one_case(generate.random_case(generate_rows.CASE_KINDS, SEED, position)[1])

    def test_numbers_above_64_bits(self):
        """They are in no row, and do not wrap."""
        good = (0b111, 0b110, 0b111)
        for numbers in itertools.product(*((number, number + 2 ** 64, number + 2 ** 70) for number in good)):
            if numbers != good:
                self.compare("row_text", answer_of(norbelath.row_text, numbers), reference.row_text(numbers), as_bytes)
                for rows in ((numbers, good), (good, numbers), (numbers, numbers)):
                    self.compare("row_pair", answer_of(norbelath.row_pair, *rows), bound.row_pair(*rows), pair_numbers)

    def test_any_iterable(self):
        """A row may come from any iterable."""
        for kind in (list, tuple, iter, lambda row: array.array("Q", row)):
            self.assertEqual(norbelath.row_text(kind([7, 6, 7])), "(1,(2,3));")

    def test_what_no_number_is(self):
        """Negative numbers, bools and what is not whole."""
        for wrong, error in ((-1, ValueError), (True, TypeError), (7.0, TypeError), ("7", TypeError), (None, TypeError)):
            for call in (lambda row: norbelath.row_text(row), lambda row: norbelath.row_pair([7, 6, 7], row)):
                with self.assertRaises(error) as raised:
                    call([7, 6, wrong])
                self.assertNotIsInstance(raised.exception, Refusal)

    def test_labels(self):
        """The labels of a number, as the independent program has them."""
        rng = random.Random(SEED)
        for number in [0, 1, 2 ** 63, 2 ** 64 - 1] + [rng.getrandbits(64) for _ in range(200)]:
            self.assertEqual(norbelath.labels(number), tuple(generate_rows.labels_in(number)))
        for number in (2 ** 64, -1):
            self.assertRaises(ValueError, norbelath.labels, number)


class Plots(Comparing):
    """The plot call, on its cases."""

    def one_case(self, text):
        """Compare the calls of one case, with slices as long as it says."""
        for _, (tree, rows, columns) in plots.plot_calls(text):
            with self.lending(PLOT_ROWS=rows, PLOT_COLUMNS=columns):
                given = answer_of(norbelath.plot, tree)
            self.compare("plot", given, plots.plot(tree, rows, columns), plot_numbers)

    def test_plots(self):
        """Small trees and combs, then random ones, damaged texts and short slices."""
        fixed = [text for kind, text in generate_plots.fixed_cases() if kind in ("small-trees", "large")]
        drawn = [generate.random_case(generate_plots.CASE_KINDS, SEED, position)[1] for position in range(40)]
        for text in fixed + drawn:
            self.one_case(text)

    def test_drawings(self):
        """Each fork joins the nodes that the text puts below it."""
        rng = random.Random(SEED)
        for _ in range(100):
            text = norbelath.form(generate_rows.tree_text(rng))
            plot = norbelath.plot(text)
            nodes = plots.nodes_in(text.encode())
            expected = {}

            def drawn(node):
                """Note what is drawn for a node and those below it. Gives the next node."""
                if nodes[node].is_leaf:
                    expected[node] = norbelath.Tip(plot.rows[node])
                    return node + 1
                second = drawn(node + 1)
                expected[node] = norbelath.Fork(plot.rows[node], plot.rows[node + 1], plot.rows[second])
                return drawn(second)

            drawn(0)
            self.assertEqual(plot.drawings(), tuple(expected[node] for node in range(len(nodes))))

    def test_drawings_of_any_numbers(self):
        """A node without two children behind it is a tip."""
        made = norbelath.Plot((0.5, 1.0, 2.0), (0, 1, 0)).drawings()
        self.assertEqual(made, tuple(map(norbelath.Tip, (0.5, 1.0, 2.0))))


class Indices(Comparing):
    """The index calls, on their cases."""

    def one_case(self, text):
        """Compare each call of a run, and the memory behind it."""
        run, held = independent_index.Run(), None
        for name, arguments in independent_index.operations(text):
            if run.prepare(name, arguments):
                held = None
            elif name != b"memory":
                lent = memoryview(run.memory)[:run.lent]
                held = held or Index.from_bytes(lent)
                self.one_call(held, name, lent, arguments[0], run.room)
                self.assertEqual(bytes(held), lent)

    def one_call(self, held, name, memory, argument, room):
        """Compare one call."""
        if name == b"add":
            self.compare("index_add", answer_of(held.add, argument), independent_index.add(memory, argument), int)
        elif name == b"remove":
            given, expected = answer_of(held.remove, argument), independent_index.remove(memory, argument)
            self.compare("index_remove", given, expected, lambda nothing: nothing)
        else:
            with self.lending(INDEX_LIST=room):
                given = answer_of(held.neighbours, argument)
            self.compare("index_neighbours", given, independent_index.neighbours(memory, argument, room), tuple)

    def test_fixed_runs(self):
        """Small sets, gaps, full indices, numbers and the order of refusals."""
        for kind, text in generate_index.fixed_cases():
            if kind in ("small", "gaps", "full", "numbers", "removed", "emptied", "removed-numbers"):
                self.one_case(text)

    def test_random_runs(self):
        """Additions, removals, damaged memory, short slices."""
        for position in range(40):
            self.one_case(generate.random_case(generate_index.KINDS, SEED, position)[1])

    def test_large_numbers(self):
        """They do not wrap."""
        index = Index()
        index.add("(1,2);")
        for number in (2 ** 16, 2 ** 32, 2 ** 64, 2 ** 64 + 2 ** 32, 10 ** 30):
            for call in (index.neighbours, index.remove):
                self.assertEqual(answer_of(call, number), (13, 0, None))
        for call in (index.neighbours, index.remove):
            for wrong, error in ((-1, ValueError), (False, TypeError), (0.0, TypeError), ("0", TypeError)):
                with self.assertRaises(error) as raised:
                    call(wrong)
                self.assertNotIsInstance(raised.exception, Refusal)

    def test_bytes_in_and_out(self):
        """An index is stored, copied and compared."""
        index = Index()
        self.assertEqual(bytes(index), bytes(60640))
        index.add("((1,2),3);")
        memory = bytes(index)
        for data in (memory, bytearray(memory), memoryview(memory), memory + b"x"):
            self.assertEqual(Index.from_bytes(data), index)
        for other in (copy.copy(index), copy.deepcopy(index), pickle.loads(pickle.dumps(index))):
            self.assertEqual(other, index)
            other.add("((1,2),3);")
            self.assertNotEqual(other, index)
        self.assertEqual(bytes(index), memory)
        self.assertNotEqual(index, memory)
        self.assertRaises(TypeError, hash, index)
        self.assertRaises(TypeError, Index.from_bytes, 60640)

    def test_too_few_bytes(self):
        """Each call on them is refused."""
        for length in (0, 1, 60639):
            index = Index.from_bytes(bytes(length))
            for call, argument in ((index.add, "1;"), (index.neighbours, 0), (index.remove, 0)):
                self.assertEqual(answer_of(call, argument), (7, 0, None))
            self.assertEqual(bytes(index), bytes(length))


class Lending(Comparing):
    """Slices of the least lengths, as the header has them."""

    LENT = {
        "form": ["FORM_OUT"],
        "cut": ["CUT_OUT"],
        "table": ["TABLE_TEXTS", "TABLE_ENDS"],
        "graph": ["GRAPH_PAIRS", "GRAPH_COUNTS", "GRAPH_FIRSTS"],
        "graph_choosing": ["GRAPH_PAIRS", "GRAPH_COUNTS", "GRAPH_FIRSTS"],
        "interchanges": ["GRAPH_PAIRS", "GRAPH_COUNTS"],
        "islands": ["GRAPH_PAIRS", "GRAPH_COUNTS", "GRAPH_FIRSTS", "ISLANDS"],
        "support": ["SUPPORT_CLADES", "SUPPORT_TREES", "SUPPORT_OUT"],
        "row": ["ROW"],
        "row_text": ["ROW_TEXT_OUT"],
        "plot": ["PLOT_ROWS", "PLOT_COLUMNS"],
        "sheet": ["SHEET_OUT"],
    }
    ARGUMENTS = {"cut": ["(1,2);", 0], "graph_choosing": ["(1,2);", Copies.MERGE], "row_text": [[3, 3]]}

    def test_short_slices(self):
        """One element fewer is refused; one more changes nothing. So each slice is lent with its own length."""
        for name, constants in self.LENT.items():
            call, arguments = getattr(norbelath, name), self.ARGUMENTS.get(name, ["(1,2);"])
            answer = call(*arguments)
            for constant in constants:
                least = macros()[constant]
                with self.lending(**{constant: least - 1}):
                    self.compare(name, answer_of(call, *arguments), reference.Refusal(7, 0, 0), None)
                with self.lending(**{constant: least + 1}):
                    self.assertEqual(call(*arguments), answer)

    def test_nothing_is_null(self):
        """Empty texts and rows have a pointer."""
        def seen(*arguments):
            """Look at the pointers that a call is given."""
            for value in arguments:
                if not isinstance(value, (int, type(ctypes.byref(ctypes.c_int())))):
                    self.assertTrue(ctypes.cast(value, ctypes.c_void_p).value)
            return 1

        with mock.patch.dict(norbelath._CALLS, dict.fromkeys(norbelath._CALLS, seen)):
            for empty in ("", b"", bytearray(), memoryview(b""), array.array("B")):
                self.assertRaises(Refusal, norbelath.pair, empty, empty)
                self.assertRaises(Refusal, Index.from_bytes(b"").add, empty)
            self.assertRaises(Refusal, norbelath.row_pair, [], ())


class Arguments(unittest.TestCase):
    """What may be given as a text, a number or a choice."""

    def test_kinds_of_texts(self):
        """The same answer for each."""
        texts = ("(2,1);", b"(2,1);", bytearray(b"(2,1);"), memoryview(b"(2,1);"), array.array("B", b"(2,1);"),
                 memoryview(b"(.2.,.1.).;.")[::2])
        for text in texts:
            self.assertEqual(norbelath.form(text), "(1,2);")
            self.assertEqual(norbelath.pair(text, text), norbelath.Pair(False, 0))
        for empty in ("", b"", bytearray(), memoryview(b""), array.array("B")):
            self.assertEqual(norbelath.table(empty), ())
            self.assertEqual(answer_of(norbelath.form, empty), (1, 0, 0))

    def test_what_is_no_text(self):
        """Not even a number, of which bytes() would make zeros."""
        for wrong in (None, 5, 1.5, ["1;"], object()):
            for call in (norbelath.form, norbelath.table, norbelath.sheet, Index().add):
                self.assertRaises(TypeError, call, wrong)

    def test_characters_that_are_not_ascii(self):
        """Each is one place, and is refused there."""
        for character in "\x80\xe9\xff\u0663\uff11\u2028\ud800\U0001f600":
            self.assertEqual(answer_of(norbelath.form, f"(1,{character});"), (1, 0, 3))
            self.assertEqual(answer_of(norbelath.pair, "(1,2);", f"(1,2);{character}"), (1, 1, 6))
            self.assertEqual(answer_of(norbelath.table, character), (1, 0, 0))
            self.assertEqual(answer_of(norbelath.table, "1;" * 160 + character), (6, 0, 320))
            self.assertEqual(norbelath.sheet(f"1;{character}"), "refused 1 at 2\n")
            self.assertEqual(answer_of(norbelath.form, "1;" + " " * 65532 + character), (1, 0, 65534))
            self.assertEqual(answer_of(norbelath.form, "1;" + " " * 65533 + character), (8, 0, None))

    def test_cut_numbers(self):
        """Of any size; 9 comes last."""
        for number in (2, 2 ** 16, 2 ** 32, 2 ** 32 + 1, 2 ** 63, 2 ** 64, 2 ** 64 + 1, 10 ** 30):
            self.assertEqual(answer_of(norbelath.cut, "(1,2);", number), (9, 0, None))
            self.assertEqual(answer_of(norbelath.cut, "(1,1);", number), (3, 0, 3))
        for wrong, error in ((-1, ValueError), (-2 ** 64, ValueError), (True, TypeError), (1.0, TypeError)):
            with self.assertRaises(error) as raised:
                norbelath.cut("(1,2);", wrong)
            self.assertNotIsInstance(raised.exception, Refusal)

    def test_choices(self):
        """Only those that have a name."""
        for wrong in (0, 1, True, None, "MERGE"):
            self.assertRaises(TypeError, norbelath.graph_choosing, "1;", wrong)


class Refusals(unittest.TestCase):
    """The exception."""

    WORDS = (
        ((1, 0, 4), "refused 1 at 4: a byte that cannot stand there, or the text ends too soon"),
        ((1, 0, 0), "refused 1 at 0: a byte that cannot stand there, or the text ends too soon"),
        ((1, 1, 4), "refused 1 at 4 of the other text: a byte that cannot stand there, or the text ends too soon"),
        ((2, 0, 3), "refused 2 at 3: a label that is not 1 to 64"),
        ((3, 1, 3), "refused 3 at 3 of the other text: a label that is already in this tree"),
        ((4, 0, 63), "refused 4 at 63: a bracket that opens while 63 are open"),
        ((5, 0, 11), "refused 5 at 11: labels other than those of the first tree"),
        ((5, 1, 5), "refused 5 at 5 of the other text: labels other than those of the first tree"),
        ((5, 1, 0), "refused 5 in the other row: labels other than those of the first tree"),
        ((6, 0, 320), "refused 6 at 320: more than 160 trees"),
        ((6, 0, 0), "refused 6: more than 160 trees"),
        ((7, 0, 0), "refused 7: a lent slice that is too short"),
        ((8, 0, 0), "refused 8: a text above 65,535 bytes"),
        ((8, 1, 0), "refused 8 in the other text: a text above 65,535 bytes"),
        ((9, 0, 0), "refused 9: a cut number that the tree does not have"),
        ((10, 0, 5), "refused 10 at 5: not of the first tree's kind, or unrooted where only rooted trees are taken"),
        ((10, 1, 5), "refused 10 at 5 of the other text: "
                     "not of the first tree's kind, or unrooted where only rooted trees are taken"),
        ((11, 0, 0), "refused 11: numbers that are the row of no tree"),
        ((11, 1, 0), "refused 11 in the other row: numbers that are the row of no tree"),
        ((12, 0, 0), "refused 12: memory that is that of no set of held trees"),
        ((13, 0, 0), "refused 13: a number that no held tree has"),
        ((14, 0, 2), "refused 14 at 2: a refusal of a later version"),
        ((255, 1, 2), "refused 255 at 2 of the other text: a refusal of a later version"),
    )

    def test_words(self):
        """Of each number, with and without a place, of either text."""
        for numbers, words in self.WORDS:
            self.assertEqual(str(Refusal(*numbers)), words)

    def test_fields(self):
        """The numbers as the library gives them; no place where there is none."""
        for (number, text, place), _ in self.WORDS:
            refusal = Refusal(number, text, place)
            self.assertEqual((refusal.number, refusal.text), (number, text))
            self.assertEqual(refusal.place, place if has_place(number, place) else None)
            self.assertEqual(refusal.reason, number if number <= 13 else None)
            self.assertIsInstance(refusal.reason, Reason if number <= 13 else type(None))
        self.assertTrue(issubclass(Refusal, ValueError))

    def test_calls_refuse_in_words(self):
        """What calls raise has these words."""
        full = Index()
        for _ in range(160):
            full.add("1;")
        calls = (
            (lambda: norbelath.form("(1,2"), "refused 1 at 4: "),
            (lambda: norbelath.pair("1;", " " * 65536), "refused 8 in the other text: "),
            (lambda: norbelath.pair("(1,2);", "(1,3);"), "refused 5 at 5 of the other text: "),
            (lambda: norbelath.row_pair([3, 3], [5, 5]), "refused 5 in the other row: "),
            (lambda: norbelath.row_pair([3, 3], []), "refused 11 in the other row: "),
            (lambda: full.add("1;"), "refused 6: "),
            (lambda: full.add("("), "refused 1 at 1: "),
            (lambda: Index.from_bytes(b"\1" * 60640).remove(0), "refused 12: "),
        )
        for call, words in calls:
            with self.assertRaises(Refusal) as raised:
                call()
            self.assertTrue(str(raised.exception).startswith(words), (words, str(raised.exception)))

    def test_pickled(self):
        """As it goes from process to process."""
        for numbers, words in self.WORDS:
            for refusal in (Refusal(*numbers), copy.copy(Refusal(*numbers))):
                again = pickle.loads(pickle.dumps(refusal))
                self.assertIs(type(again), Refusal)
                self.assertEqual(vars(again), vars(refusal))
                self.assertEqual(str(again), words)


class Threads(unittest.TestCase):
    """Calls from several threads at once."""

    def setUp(self):
        """Let the threads take turns often."""
        self.addCleanup(sys.setswitchinterval, sys.getswitchinterval())
        sys.setswitchinterval(1e-6)

    def in_threads(self, work, count=6):
        """Run work(number) in so many threads at once, and raise what one of them raises."""
        failures, start = [], threading.Barrier(count)

        def run(number):
            """Run one, and note what it raises."""
            start.wait()
            try:
                work(number)
            except BaseException as failure:
                failures.append(failure)

        threads = [threading.Thread(target=run, args=(number,)) for number in range(count)]
        for thread in threads:
            thread.start()
        for thread in threads:
            thread.join()
        if failures:
            raise failures[0]

    def test_same_answers(self):
        """Each thread gets the answers for its own texts."""
        rng = random.Random(SEED)
        calls = (norbelath.table, norbelath.graph, norbelath.islands, norbelath.interchanges, norbelath.support,
                 norbelath.sheet, norbelath.form, norbelath.row, norbelath.plot)
        makers = (generate.chain_table, generate.copies_table, generate.large_table)
        texts = [generate.plain(make(rng)) for make in makers] + [generate_rows.tree_text(rng) for _ in range(20)]
        work = [(call, text, answer_of(call, text)) for call in calls for text in texts]

        def calling(number):
            """Make all calls, each thread in its own order."""
            order = work * 4
            random.Random(number).shuffle(order)
            for call, text, answer in order:
                self.assertEqual(answer_of(call, text), answer)

        self.in_threads(calling)

    def test_one_index(self):
        """Threads that add to one index and ask it get numbers of their own, and nothing is lost."""
        index, numbers = Index(), [[] for _ in range(4)]
        texts = [generate.plain([generate.random_tree(random.Random(number), generate.ALL_LABELS)]) for number in range(4)]

        def adding(number):
            """Add copies of one tree, and ask for its neighbours in between."""
            for _ in range(12):
                numbers[number].append(index.add(texts[number]))
                self.assertEqual(set(index.neighbours(numbers[number][-1])) & set(numbers[number]), set())

        self.in_threads(adding, 4)
        self.assertEqual(sorted(sum(numbers, [])), list(range(48)))
        trees = {place: text for given, text in zip(numbers, texts) for place in given}
        slots = {place: independent_index.slot_of(reference.read_one(text, 0)[0]) for place, text in trees.items()}
        self.assertEqual(bytes(index), independent_index.memory_of(slots))


def macros():
    """The numbers that the header defines, by name."""
    return {name: int(number) for name, number in re.findall(r"^#define NORBELATH_(\w+) (\d+)\b", HEADER, re.MULTILINE)}


def prototypes():
    """The types of the parameters of each function of the header."""
    found = re.findall(r"^uint8_t norbelath_(\w+)\((.*?)\);", HEADER, re.MULTILINE | re.DOTALL)
    return {name: [re.sub(r"\w+$", "", " ".join(part.split())).strip() for part in parameters.split(",")]
            for name, parameters in found}


class Header(unittest.TestCase):
    """The module says what the header says."""

    def test_numbers(self):
        """Limits, least lengths, reasons and choices."""
        numbers = macros()
        version = [numbers.pop(f"VERSION_{part}") for part in ("MAJOR", "MINOR", "PATCH")]
        self.assertEqual(".".join(map(str, version)), norbelath.__version__)
        self.assertEqual(numbers.pop("ACCEPTED"), 0)
        self.assertEqual(numbers.pop("MERGE_COPIES"), Copies.MERGE.value)
        self.assertEqual(numbers.pop("KEEP_COPIES"), Copies.KEEP_APART.value)
        for reason in Reason:
            self.assertEqual(numbers.pop(reason.name), reason)
        self.assertGreaterEqual(len(numbers), 20)
        for name, number in numbers.items():
            self.assertEqual(getattr(norbelath, name), number, name)

    def test_arguments(self):
        """Each call is declared with the types of C."""
        types = {
            "const uint8_t *": (ctypes.c_char_p, ctypes.POINTER(ctypes.c_char)),
            "uint8_t *": (ctypes.POINTER(ctypes.c_char),),
            "uint16_t *": (ctypes.POINTER(ctypes.c_uint16),), "uint32_t *": (ctypes.POINTER(ctypes.c_uint32),),
            "uint64_t *": (ctypes.POINTER(ctypes.c_uint64),), "const uint64_t *": (ctypes.POINTER(ctypes.c_uint64),),
            "double *": (ctypes.POINTER(ctypes.c_double),), "size_t": (ctypes.c_size_t,), "uint64_t": (ctypes.c_uint64,),
            "uint8_t": (ctypes.c_uint8,),
        }
        self.assertEqual(set(prototypes()), set(norbelath._CALLS))
        for name, parameters in prototypes().items():
            call = norbelath._CALLS[name]
            self.assertIs(call.restype, ctypes.c_uint8)
            self.assertEqual(len(call.argtypes), len(parameters), name)
            for declared, parameter in zip(call.argtypes, parameters):
                self.assertIn(declared, types[parameter], name)

    def test_version(self):
        """The package has that of the module."""
        project = (HERE / "pyproject.toml").read_text()
        self.assertIn(f'\nversion = "{norbelath.__version__}"\n', project)


class Documentation(unittest.TestCase):
    """Words and types of what is public."""

    def public(self):
        """Each public function, class and method."""
        for name in set(norbelath.__all__) - {"Text"}:
            thing = getattr(norbelath, name)
            yield thing
            if inspect.isclass(thing):
                yield from (member for key, member in vars(thing).items() if inspect.isfunction(member) and key[0] != "_")

    def test_all(self):
        """Nothing public is left out of the list of public names."""
        own = {name for name, thing in vars(norbelath).items()
               if name[0] != "_" and getattr(thing, "__module__", None) == "norbelath"}
        self.assertEqual(own | {"Text"}, set(norbelath.__all__))

    def test_words_and_types(self):
        """Everything has a docstring, and annotations that can be resolved."""
        for thing in self.public():
            self.assertTrue(inspect.getdoc(thing), thing)
            hints = typing.get_type_hints(thing)
            if inspect.isfunction(thing):
                self.assertEqual(set(hints), (set(inspect.signature(thing).parameters) - {"self"}) | {"return"}, thing)

    def test_examples(self):
        """The examples in the docstrings."""
        result = doctest.testmod(norbelath)
        self.assertEqual(result.failed, 0)
        self.assertGreater(result.attempted, 20)


class Loading(unittest.TestCase):
    """Where the library is looked for."""

    def setUp(self):
        """A folder with a copy of the module and no library."""
        folder = tempfile.TemporaryDirectory()
        self.addCleanup(folder.cleanup)
        self.top = pathlib.Path(folder.name).resolve()
        (self.top / "python").mkdir()
        (self.top / "lib").mkdir()
        shutil.copy(HERE / "norbelath.py", self.top / "python")
        self.library = os.path.abspath(os.environ["NORBELATH_LIBRARY"])

    def put(self, *places):
        """Put the library at each of these places in the folder."""
        for place in places:
            shutil.copy(self.library, self.top / place)

    def spoil(self, *places):
        """Put a file that is no library at each of these places."""
        for place in places:
            (self.top / place).write_text("no library\n")

    def run_module(self, **variables):
        """Import the copy in a process of its own. Gives what it printed, the loaded library's path, and its errors."""
        program = ("import norbelath; norbelath.form('1;')\n"
                   "maps = {line.split()[-1] for line in open('/proc/self/maps') if 'libnorbelath' in line}\n"
                   "assert maps == {norbelath.library_file()}, norbelath.library_file()\n"
                   "print(maps.pop())")
        environment = dict(os.environ)
        for name in ("NORBELATH_LIBRARY", "LD_LIBRARY_PATH"):
            environment.pop(name, None)
        environment.update(variables, PYTHONPATH=str(self.top / "python"), PYTHONDONTWRITEBYTECODE="1")
        done = subprocess.run([sys.executable, "-c", program], env=environment, cwd=self.top, stdout=subprocess.PIPE,
                              stderr=subprocess.PIPE, universal_newlines=True)
        return done.stdout.strip(), done.stderr

    def assert_loads(self, place, **variables):
        """The library at this place is the one that is loaded."""
        self.assertEqual(self.run_module(**variables), (str(self.top / place), ""))

    def assert_fails(self, *tried, **variables):
        """An ImportError names what was tried, and how the library is made."""
        printed, errors = self.run_module(**variables)
        self.assertEqual(printed, "")
        self.assertIn("\nImportError: ", errors)
        for words in (*tried, "tools/native.sh norbelath", "NORBELATH_LIBRARY"):
            self.assertIn(words, errors)
        self.assertEqual(errors.count("\n  " + str(self.top)) + errors.count("\n  libnorbelath"), len(tried))

    def test_named_file(self):
        """The file that the variable names goes before all others; a bare name is one in the working folder."""
        self.spoil("python/libnorbelath.so.1")
        self.put("libnorbelath-named.so", "lib/libnorbelath.so.1")
        self.assert_loads("libnorbelath-named.so", NORBELATH_LIBRARY=str(self.top / "libnorbelath-named.so"))
        self.assert_loads("libnorbelath-named.so", NORBELATH_LIBRARY="libnorbelath-named.so")

    def test_named_file_that_cannot_be_loaded(self):
        """Nothing else is tried."""
        self.put("python/libnorbelath.so.1", "lib/libnorbelath.so.1")
        self.spoil("text")
        for place in ("missing.so", "text", "lib"):
            self.assert_fails(str(self.top / place), NORBELATH_LIBRARY=str(self.top / place))
        self.assert_fails(str(self.top), NORBELATH_LIBRARY="")
        self.assert_fails(str(self.top / "libnorbelath.so.1"), NORBELATH_LIBRARY="libnorbelath.so.1",
                          LD_LIBRARY_PATH=str(self.top / "lib"))

    def test_other_library(self):
        """A library without the calls is not taken."""
        other = self.top / "other.so"
        with open("/proc/self/maps") as maps:
            loaded = {line.split()[-1] for line in maps if re.search(r"/libc[.-][^/]*so", line)}
        shutil.copy(loaded.pop(), other)
        self.assert_fails(str(other), NORBELATH_LIBRARY=str(other))

    def test_places(self):
        """Beside the module, then in ../lib, then the loader's; with the version first."""
        places = ["python/libnorbelath.so.1", "python/libnorbelath.so", "lib/libnorbelath.so.1", "lib/libnorbelath.so"]
        self.put(*places)
        for place in places:
            self.assert_loads(place)
            (self.top / place).unlink()
        (self.top / "system").mkdir()
        self.put("system/libnorbelath.so.1")
        self.assert_loads("system/libnorbelath.so.1", LD_LIBRARY_PATH=str(self.top / "system"))

    def test_spoilt_file(self):
        """A file that is no library is passed over."""
        self.spoil("python/libnorbelath.so.1")
        self.put("lib/libnorbelath.so.1")
        self.assert_loads("lib/libnorbelath.so.1")

    def test_no_library(self):
        """All places are named."""
        with contextlib.suppress(OSError):
            ctypes.CDLL("libnorbelath.so.1")
            self.skipTest("the system has the library")
        self.assert_fails(*(str(self.top / folder / name) for folder in ("python", "lib")
                            for name in ("libnorbelath.so.1", "libnorbelath.so")), "libnorbelath.so.1: ")


if __name__ == "__main__":
    unittest.main()
