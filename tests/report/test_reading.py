"""Samplers' files read into samples. PYTHONPATH has to name the folders of the package and of the module norbelath."""

import hashlib
import os
import random
import tempfile
import unittest

from norbelath_report import reading
from norbelath_report.errors import Refused

HEAD = "#NEXUS\nbegin trees;\n translate 1 a, 2 b, 3 c, 4 d;\n"

MRBAYES = """#NEXUS
[ID: 4810763251]
[Param: tree{all}]
begin trees;
   translate
      1 Homo_sapiens,
      2 Pan,
      3 Gorilla;
   tree gen.0 [p = 0.013] = [&U] [&W 1/3] (1[&height=1.0e-1]:1.2e-02,2:1.2e-02,3:2.0e-02);
   tree rep.1000 = [&U] (3:1e-2,1:0.5,2:0);
end;
"""

BEAST1 = """#NEXUS

Begin taxa;
\tDimensions ntax=3;
\tTaxlabels
\t\thuman
\t\t'a chimp'
\t\tgorilla
\t\t;
End;

Begin trees;
\tTranslate
\t\t1 human,
\t\t2 'a chimp',
\t\t3 gorilla
\t\t;
tree STATE_0 [&lnP=-34.5,posterior=-34.5] = [&R] ((1:0.1,2:0.1):0.2,3:0.3);
tree STATE_1000 [&lnP=-33.25] = [&R] (1:[&rate=0.5]0.3,(3:[&rate=1.5]0.1,2:[&rate=1.0]0.1):[&rate=0.25]0.2);
End;
"""

BEAST2 = """#NEXUS

Begin taxa;
\tDimensions ntax=3;
\t\tTaxlabels
\t\t\thuman
\t\t\tchimp
\t\t\tgorilla
\t\t\t;
End;
Begin trees;
\tTranslate
\t\t   1 human,
\t\t   2 chimp,
\t\t   3 gorilla
;
tree STATE_0 = ((1[&rate=8.1E-4,rate_range={1.0E-4,2.0E-3}]:0.1,2:0.1)[&rate=1.1]:0.2,3:0.3)[&rate=1.0]:0.0;
tree STATE_5000 = (1:0.3,(2:0.1,3:0.1):0.2):0.0;
End;
"""

PAUP = """#NEXUS

Begin trees;  [Treefile saved Monday]
[!
>Heuristic search; settings [nested; comment]
]
\tTranslate
\t\t1 Lemur_catta,
\t\t2 Homo,
\t\t3 Pan,
\t\t4 'Gorilla g.'
\t\t;
tree * PAUP_1 = [&U] (1,(2,3),4);
UTREE 'the = second' = ((1,2),3,4);
End;
"""

REVBAYES = """#RevBayes version (1.2.1)
Iteration\tPosterior\tLikelihood\tPrior\tpsi
0\t-13.5\t-12.5\t-1\t((C_c[&index=3]:0.1,A[&index=2]:0.1)[&index=4]:0.2,B[&index=1]:0.3)[&index=5]:0.000000;
10\t-13.25\t-12.5\t-0.75\t(C_c[&index=3]:0.3,(A[&index=2]:0.1,B[&index=1]:0.1)[&index=4]:0.2)[&index=5]:0.000000;
"""


class Case(unittest.TestCase):
    def setUp(self):
        self.folder = tempfile.TemporaryDirectory()
        self.addCleanup(self.folder.cleanup)

    def file(self, content, name="run.t"):
        """The path of a file with this content."""
        path = os.path.join(self.folder.name, name)
        with open(path, "wb") as file:
            file.write(content if isinstance(content, bytes) else content.encode())
        return path

    def sample(self, *contents):
        """The sample of files with these contents."""
        return reading.read([self.file(content, f"run{number}.t") for number, content in enumerate(contents, 1)])

    def texts(self, *contents):
        return [visit.text for visit in self.sample(*contents).visits]

    def assert_refused(self, contents, line, words):
        """The last of the contents is refused in these words."""
        contents = [contents] if isinstance(contents, (str, bytes)) else contents
        with self.assertRaises(Refused) as caught:
            self.sample(*contents)
        refused = caught.exception
        self.assertEqual((refused.line, refused.words), (line, words))
        self.assertEqual(os.path.basename(refused.file), f"run{len(contents)}.t")


class Dialects(Case):
    def test_mrbayes(self):
        sample = self.sample(MRBAYES)
        self.assertFalse(sample.rooted)
        self.assertEqual(sample.names, {1: "Homo sapiens", 2: "Pan", 3: "Gorilla"})
        self.assertEqual([(visit.source, visit.line, visit.generation, visit.text) for visit in sample.visits],
                         [(0, 9, "0", "[&U](1,2,3);"), (0, 10, "1000", "[&U](1,2,3);")])
        self.assertEqual(sample.warnings, ())

    def test_source(self):
        (source,) = self.sample(MRBAYES).sources
        self.assertEqual((source.name, source.trees), ("run1.t", 2))
        self.assertEqual(source.digest, hashlib.sha256(MRBAYES.encode()).hexdigest())

    def test_beast1(self):
        sample = self.sample(BEAST1)
        self.assertTrue(sample.rooted)
        self.assertEqual(sample.names, {1: "human", 2: "a chimp", 3: "gorilla"})
        self.assertEqual([(visit.line, visit.generation, visit.text) for visit in sample.visits],
                         [(18, "0", "((1,2),3);"), (19, "1000", "(1,(2,3));")])
        self.assertEqual(sample.warnings, ())

    def test_beast2(self):
        sample = self.sample(BEAST2)
        self.assertTrue(sample.rooted)
        self.assertEqual([(visit.line, visit.generation, visit.text) for visit in sample.visits],
                         [(17, "0", "((1,2),3);"), (18, "5000", "(1,(2,3));")])
        self.assertEqual(sample.warnings, (
            "2 trees are not marked [&R] or [&U] and taken as rooted, as they have two children at the top",))

    def test_paup(self):
        sample = self.sample(PAUP)
        self.assertFalse(sample.rooted)
        self.assertEqual(sample.names[4], "Gorilla g.")
        self.assertEqual([(visit.line, visit.generation, visit.text) for visit in sample.visits],
                         [(13, "", "[&U](1,(2,3),4);"), (14, "", "[&U](1,2,(3,4));")])
        self.assertEqual(sample.warnings, ())

    def test_newick(self):
        sample = self.sample("\n(Pan_p:1e-5,('O''B; [x]':.5,c)n0:-1)root;\n\n"
                             " [&R] ((c,Pan_p),\n'O''B; [x]'):0;(c,(pan_P,'o''b; [X]'));")
        self.assertEqual(sample.names, {1: "O'B; [x]", 2: "Pan p", 3: "c"})
        self.assertEqual([(visit.line, visit.generation, visit.text) for visit in sample.visits],
                         [(2, "", "((1,3),2);"), (4, "", "(1,(2,3));"), (5, "", "((1,2),3);")])

    def test_revbayes(self):
        sample = self.sample(REVBAYES)
        self.assertTrue(sample.rooted)
        self.assertEqual(sample.names, {1: "A", 2: "B", 3: "C c"})
        self.assertEqual([(visit.line, visit.generation, visit.text) for visit in sample.visits],
                         [(3, "0", "((1,3),2);"), (4, "10", "((1,2),3);")])

    def test_revbayes_separators(self):
        expected = self.sample(REVBAYES).visits
        comment, _, table = REVBAYES.partition("\n")
        for separator in (",", ";", " ", "|"):
            self.assertEqual(self.sample(comment + "\n" + table.replace("\t", separator)).visits, expected)

    def test_revbayes_columns_behind_the_tree(self):
        for separator in ("\t", ","):
            rows = ["psi,Iteration,x", "((a,b),c),5,1", "((a,c),b),6,2"]
            table = "\n".join(row.replace(",", separator) if number == 0 else separator.join(row.rsplit(",", 2))
                              for number, row in enumerate(rows))
            self.assertEqual([(visit.generation, visit.text) for visit in self.sample(table).visits],
                             [("5", "((1,2),3);"), ("6", "((1,3),2);")])

    def test_byte_order_mark(self):
        for content in (MRBAYES, REVBAYES, "(a,b);"):
            marked = self.sample(b"\xef\xbb\xbf" + content.encode())
            plain = self.sample(content)
            self.assertEqual((marked.names, marked.visits), (plain.names, plain.visits))

    def test_line_ends(self):
        for content in (MRBAYES, BEAST1, PAUP, REVBAYES):
            expected = self.sample(content)
            for end in ("\r\n", "\r"):
                sample = self.sample(content.replace("\n", end))
                self.assertEqual((sample.names, sample.visits), (expected.names, expected.visits))

    def test_any_case(self):
        self.assertEqual(self.texts("#nexus BEGIN TREES; TRANSLATE x A, Y b; Tree t=[&r](X,y); END;"), ["(1,2);"])

    def test_marks(self):
        for tree in ("tree t = [&R] (1,2)", "tree t = [&r](1,2)", "tree [&R] t = (1,2)",
                     "tree t = [x] [ &R ] [&W 1] (1,2)", "utree t = [&R] (1,2)", "tree t = (1,2)"):
            self.assertEqual(self.texts(f"#NEXUS begin trees; {tree}; end;"), ["(1,2);"])
        for tree in ("tree t = [&U] (1,2)", "utree t = (1,2)", "utree * t = [&u] (1,2)"):
            self.assertEqual(self.texts(f"#NEXUS begin trees; {tree}; end;"), ["[&U](1,2);"])

    def test_a_mark_behind_the_beginning_is_a_comment(self):
        self.assertEqual(self.texts("(a,[&U]b)[&U];"), ["(1,2);"])

    def test_other_blocks_are_skipped(self):
        self.assertEqual(self.texts(
            "#NEXUS begin data; matrix a ACGT; tree in another = block; endblock;"
            " begin trees; title 'x;'; tree t = (a,b); end; begin mrbayes; set x=y; end;"), ["(1,2);"])

    def test_two_blocks_of_trees(self):
        self.assertEqual(self.texts(
            "#NEXUS begin trees; translate 1 a, 2 b, 3 c; tree t = [&R] ((1,2),3); end;"
            " begin trees; translate 1 c, 2 b, 3 a; tree t = [&R] ((1,2),3); end;"), ["((1,2),3);", "(1,(2,3));"])

    def test_numbers_of_taxa(self):
        first = "#NEXUS begin taxa; dimensions ntax=3; taxlabels x y z; end; begin trees; tree t = [&R] ((1,y),3); end;"
        second = "#NEXUS begin taxa; taxlabels z y x; end; begin trees; tree t = [&R] ((1,2),3); end;"
        sample = self.sample(first, second)
        self.assertEqual(sample.names, {1: "x", 2: "y", 3: "z"})
        self.assertEqual([visit.text for visit in sample.visits], ["((1,2),3);", "(1,(2,3));"])

    def test_numbers_without_a_list(self):
        self.assertEqual(self.texts("#NEXUS begin trees; tree t = [&R] ((3,1),2); end;"), ["((1,3),2);"])

    def test_quote_behind_a_comment(self):
        self.assertEqual(self.sample("([x]'a b',c);").names, {1: "a b", 2: "c"})

    def test_quotes_inside_a_name(self):
        self.assertEqual(self.sample("(O'Brien,D'Arcy);").names, {1: "D'Arcy", 2: "O'Brien"})
        self.assertEqual(self.sample("(O'Brien,b);").names, {1: "O'Brien", 2: "b"})


class Labels(Case):
    def test_order_of_translate(self):
        self.assertEqual(self.sample("#NEXUS begin taxa; taxlabels a b c; end; begin trees; translate 7 c, 5 a, 6 b;"
                                     " tree t = [&R] ((5,6),7); end;").names, {1: "c", 2: "a", 3: "b"})

    def test_order_of_taxa(self):
        self.assertEqual(self.sample("#NEXUS begin taxa; taxlabels c unused a b; end; begin trees;"
                                     " tree t = [&R] ((a,b),c); end;").names, {1: "c", 2: "a", 3: "b"})

    def test_numbers_are_labels(self):
        sample = self.sample("((64,9),10);")
        self.assertEqual(sample.names, {9: "9", 10: "10", 64: "64"})
        self.assertEqual(sample.visits[0].text, "((9,64),10);")

    def test_other_numbers_are_names(self):
        for names, tree in (({1: "1", 2: "65", 3: "9"}, "((65,9),1);"), ({1: "03", 2: "1", 3: "2"}, "((1,2),03);"),
                            ({1: "0", 2: "1", 3: "2"}, "((1,2),0);"), ({1: "1", 2: "2", 3: "x"}, "((1,2),x);")):
            self.assertEqual(self.sample(tree).names, names)

    def test_code_points(self):
        self.assertEqual(self.sample("((b,é),(Z,_a));").names, {1: " a", 2: "Z", 3: "b", 4: "é"})

    def test_names_of_the_first_file_are_shown(self):
        sample = self.sample(HEAD.replace("a,", "Homo_s,") + "tree t = [&R] ((1,2),(3,4)); end;",
                             "((C,D),('homo S',B));", "((Homo_S,D),(b,c));")
        self.assertEqual(sample.names, {1: "Homo s", 2: "b", 3: "c", 4: "d"})
        self.assertEqual([(visit.source, visit.text) for visit in sample.visits],
                         [(0, "((1,2),(3,4));"), (1, "((1,2),(3,4));"), (2, "((1,4),(2,3));")])


class CutOff(Case):
    def test_every_cut_of_the_last_tree_is_a_warning(self):
        whole = HEAD + " tree gen.0 = [&R] ((1,2),(3,4));\n"
        last = " tree gen.10 = [&R] ((1:0.1,'2':0.2[&x=1])[&prob=1]:3,(3,4))"
        for length in range(2, len(last) + 1):
            sample = self.sample(whole + last[:length])
            self.assertEqual(len(sample.visits), 1)
            self.assertEqual(sample.sources[0].trees, 1)
            self.assertEqual(sample.warnings, ("run1.t:5: the last tree is cut off and is left out",))

    def test_blank_lines_behind_it(self):
        sample = self.sample(HEAD + " tree gen.0 = [&R] ((1,2),(3,4));\r\n tree gen.10 = [&R] ((1,\r\n\r\n \t\n")
        self.assertEqual(sample.warnings, ("run1.t:5: the last tree is cut off and is left out",))

    def test_missing_end(self):
        for end in ("", "\n", "e", "END", "endblo", " end \n"):
            self.assertEqual(self.sample(HEAD + "tree t = [&R] ((1,2),(3,4));\n" + end).warnings, ())

    def test_newick(self):
        for last in ("[&R] (a,e", "[&R", "e"):
            self.assertEqual(self.sample("[&R] (a,b);\n" + last).warnings,
                             ("run1.t:2: the last tree is cut off and is left out",))

    def test_every_cut_of_the_last_row(self):
        rows = REVBAYES.rstrip("\n")
        start = rows.rindex("\n") + 1
        for end in range(start + 1, len(rows)):
            sample = self.sample(rows[:end])
            self.assertEqual(len(sample.visits), 1, rows[start:end])
            self.assertEqual(sample.warnings[0], "run1.t:4: the last tree is cut off and is left out")

    def test_each_file_has_its_own(self):
        cut = HEAD + "tree t = [&R] ((1,2),(3,4));\ntree u"
        self.assertEqual(self.sample(cut, cut).warnings, ("run1.t:5: the last tree is cut off and is left out",
                                                          "run2.t:5: the last tree is cut off and is left out"))

    def test_the_only_tree(self):
        words = "there are no trees; the only one is cut off, without a ; at its end"
        self.assert_refused("(a,b)\n", 1, words)
        self.assert_refused(HEAD + "tree t = (1,2", 4, words)

    def test_what_begins_on_an_earlier_line(self):
        tree = "tree t = [&R] ((1,2),(3,4));\n"
        self.assert_refused(HEAD + tree + "tree u = [&R] ((1,2),\n(3,4))\n", 5, "what begins here has no ; at its end")
        self.assert_refused(HEAD + tree + "tree u = [&R ((1,2),(3,4));\n" + tree, 5,
                            "a comment that is opened here is not closed")
        self.assert_refused(HEAD + tree + "tree u = [&R] ((1,\n'2),(3,4));\n" + tree, 6,
                            "a quoted name that begins here is not closed")
        self.assert_refused("(a,b);(a,'b);(a,b);", 1, "a quoted name that begins here is not closed")

    def test_what_is_not_in_a_block_of_trees(self):
        tree = "tree t = [&R] ((1,2),(3,4));\n"
        for rest in ("x", "begin tre", "begin x; tree u = (1,2)"):
            self.assert_refused(HEAD + tree + "end;\n" + rest, 6, "what begins here has no ; at its end")
        self.assert_refused(HEAD + tree + "end;\n[x", 6, "a comment that is opened here is not closed")
        self.assert_refused("#NEXUS begin taxa; taxlabels a b", 1, "what begins here has no ; at its end")


class Refusals(Case):
    def test_files(self):
        missing = os.path.join(self.folder.name, "missing.t")
        for path, words in ((missing, "cannot be read: No such file or directory"),
                            (self.folder.name, "cannot be read: Is a directory")):
            with self.assertRaises(Refused) as caught:
                reading.read([path])
            self.assertEqual(str(caught.exception), f"{path}: {words}")

    def test_given_twice(self):
        path = self.file("(a,b);")
        link = os.path.join(self.folder.name, "link.t")
        os.symlink(path, link)
        with self.assertRaises(Refused) as caught:
            reading.read([path, link])
        self.assertEqual(str(caught.exception), f"{link}: this file is given twice")

    def test_words_and_place(self):
        path = self.file(HEAD + "tree t = ((1,2,3),4);")
        with self.assertRaises(Refused) as caught:
            reading.read([path])
        self.assertEqual(str(caught.exception),
                         f"{path}:4: this tree has 3 children at a node below the top; trees have to be binary")

    def test_no_trees(self):
        for content in ("", "\n \n", "#NEXUS", "#NEXUS begin trees; end;", "Iteration\tpsi\n", "[only a comment]",
                        b"\xef\xbb\xbf"):
            self.assert_refused(content, None, "there are no trees")

    def test_no_utf8(self):
        self.assert_refused(b"(a,b);\r\n(a,\xe9);", 2, "these bytes are not UTF-8")
        self.assert_refused(b"(a,b);\n" * 200_000 + b"(a,\xc3);", 200_001, "these bytes are not UTF-8")
        self.assert_refused("(a,b);".encode("utf-16"), 1, "these bytes are not UTF-8")

    def test_too_many_taxa(self):
        def comb(taxa):
            return "(" * (taxa - 1) + "t1" + "".join(f",t{number})" for number in range(2, taxa + 1)) + ";"
        self.assertEqual(len(self.sample(comb(64)).names), 64)
        self.assert_refused(comb(65), 1, "this tree has 65 taxa; at most 64 are possible")
        self.assert_refused(comb(20_000), 1, "this tree has 20000 taxa; at most 64 are possible")

    def test_too_deep(self):
        self.assert_refused("(" * 5000 + "a" + ")" * 5000 + ";", 1,
                            "this tree has more than 63 brackets; trees have to be binary")

    def test_taxa_differ(self):
        first = HEAD + "tree t = [&R] ((1,2),(3,4));\n"
        self.assert_refused(first + "tree u = [&R] ((1,2),3);", 5, "this tree has no 'd', which the first tree has")
        self.assert_refused(first + "tree u = [&R] ((1,2),(3,5));", 5, "this tree has '5', which the first tree has not")
        self.assert_refused([first, "((a,b),(c,e));"], 1, "this tree has 'e', which the first tree has not")
        self.assert_refused([first, "\n((a,b),c);"], 2, "this tree has no 'd', which the first tree has")

    def test_underscores_and_quotes(self):
        self.assert_refused(["(a_b,c);", "('a_b',c);"], 1, "this tree has 'a_b', which the first tree has not")

    def test_mixed(self):
        rooted, unrooted = "[&R] ((a,b),c);\n", "[&U] (a,b,c);\n"
        self.assert_refused(rooted + unrooted, 2, "this tree is unrooted, and the first tree is rooted")
        self.assert_refused([unrooted, rooted], 1, "this tree is rooted, and the first tree is unrooted")
        self.assert_refused("((a,b),c);\n(a,b,c);\n", 2, "this tree is unrooted, and the first tree is rooted")

    def test_not_binary(self):
        for tree, words in (
                ("((a,b,c),d);", "3 children at a node below the top"),
                ("((a,b,c,e),d);", "4 children at a node below the top"),
                ("((a),b);", "1 child at a node below the top"),
                ("(a,b,c,d);", "4 children at the top"),
                ("(a);", "1 child at the top"),
                ("((a,b));", "1 child at the top")):
            self.assert_refused(tree, 1, f"this tree has {words}; trees have to be binary")

    def test_which_is_meant(self):
        self.assert_refused("[&R] (a,b,c);", 1, "this tree is marked as rooted and has 3 children at the top;"
                            " which is meant the file does not say")
        words = "this tree is marked as unrooted and has 2 children at the top; which is meant the file does not say"
        self.assert_refused("[&U] ((a,b),c);", 1, words)
        self.assert_refused(HEAD + "utree t = ((1,2),3);", 4, words)
        self.assert_refused("[&U] [&R] (a,b);", 1, "this tree is marked both [&R] and [&U]")

    def test_leaves_without_a_name(self):
        for tree in ("(a,);", "(,a);", "(a,,b);", "(a,b,);", "();", "((a,b),());", "(a,(b, ) );"):
            self.assert_refused(tree, 1, "this tree has a leaf without a name")
        self.assert_refused("(a,:1);", 1, "this tree has a leaf without a name")
        self.assert_refused(":1;", 1, "this tree has a leaf without a name")
        self.assert_refused("(a,'');", 1, "a quoted name is empty")

    def test_taxon_twice(self):
        self.assert_refused("(a,a);", 1, "the taxon 'a' is twice in this tree")
        self.assert_refused("((a_x,b),'A x');", 1, "the taxon 'a x' is twice in this tree")
        self.assert_refused(HEAD + "tree t = ((1,2),1);", 4, "the taxon 'a' is twice in this tree")
        self.assert_refused(HEAD + "tree t = ((1,2),A);", 4, "the taxon 'a' is twice in this tree")
        self.assert_refused("#NEXUS begin trees; translate 1 a, 2 A; tree t = (1,2);", 1,
                            "the taxon 'a' is twice in this tree")

    def test_no_tree(self):
        for tree, reason in (
                ("(a,b", "Unbalanced parentheses at tree statement termination: balance index = 1"),
                ("(a:b,c)", "Invalid edge length: 'b'"),
                ("(a b,c)", "Expecting ':', ')', ',' or ';' after reading label but found 'b'"),
                ("(a,b)(c,d)", "Malformed tree statement"),
                ("a(b,c)", "Malformed tree statement"),
                ("(a[x]b,c)", "Expecting ':', ')', ',' or ';' after reading label but found 'b'")):
            self.assert_refused(f"(a,b);\n{tree};", 2, f"this is no tree: {reason}")
        for tree in ("(a,b))", "a,b", "hello world (x)", ")"):
            with self.assertRaisesRegex(Refused, ":1: this is no tree: "):
                self.sample(f"{tree};")

    def test_texts_that_are_not_given_to_dendropy(self):
        for tree, words in (
                ("", "there is no tree before this ;"),
                ("((a,c):(b,d)", "there is no length behind a colon"),
                ("(a:,b)", "there is no length behind a colon"),
                ("(a:1:2,b)", "a node has two lengths"),
                ("(a,b=c)", "= cannot stand in a tree outside quotes"),
                ('("a",b)', '" cannot stand in a tree outside quotes'),
                ("(a{1},b)", "{ cannot stand in a tree outside quotes"),
                ("(a],b)", "] cannot stand in a tree outside quotes"),
                ("('(',b)", "'(' cannot be read as a name")):
            self.assert_refused(f"(a,b);\n{tree};", 2, words)

    def test_names_that_break_a_table(self):
        for character in "\t\n\r\x00\x1b\x85\u2028\uffff":
            self.assert_refused(f"(a,'b{character}c');", 1,
                                f"the name {'b' + character + 'c'!r} has a tab, a line end or another control character")
        self.assert_refused("#NEXUS begin trees; translate 1 'a\tb'; tree t = 1;", 1,
                            "the name 'a\\tb' has a tab, a line end or another control character")
        self.assert_refused("(a,b)'x\n(a,b)';", 1,
                            "the name 'x\\n(a,b)' has a tab, a line end or another control character")

    def test_long_names_are_not_shown_whole(self):
        self.assert_refused(f"(a,'{'b' * 100}\n');", 1,
                            f"the name '{'b' * 60}...' has a tab, a line end or another control character")

    def test_commands(self):
        for block, line, words in (
                ("begin trees;\ntre t = (1,2);", 3, "'TRE' is not a command of a TREES block"),
                ("begin trees;\ntranslate' 1 a, 2 b;", 3, "\"TRANSLATE'\" is not a command of a TREES block"),
                ("begin trees;\n'tree' t = (1,2);", 3, "'' is not a command of a TREES block"),
                ("begin trees;\ntree (1,2);", 3, "a tree is written: TREE, its name, = and the tree"),
                ("begin trees;\ntree = (1,2);", 3, "a tree is written: TREE, its name, = and the tree"),
                ("begin trees;\ntree t = ;", 3, "there is no tree before this ;"),
                ("begin trees;\ntree t = (1,2);\nbegin trees;", 4, "a block begins before the one above has ended"),
                ("begin tres;\ntree t = (1,2);", 3, "this tree is not in a TREES block"),
                ("tree t = (1,2);", 2, "this command is in no block"),
                ("begin trees; end;\ntree t = (1,2);", 3, "this command is in no block"),
                ("begin trees;\ntree t = (1,2);\ntranslate 1 a, 2 b;", 4,
                 "TRANSLATE has to stand once, before the trees of its block"),
                ("begin taxa; taxlabels a b;\ntaxlabels c d;", 3, "this file has a second list of taxa"),
                ("begin taxa;\ntaxlabels a,b;", 3, "a list of taxa has to give names with blanks between them"),
                ("begin taxa;\ntaxlabels a A;", 3, "'A' is listed twice"),
                ("begin trees;\ntranslate 1 a, 1 b;", 3, "'1' is listed twice"),
                ("begin taxa; taxlabels a B; end; begin trees;\ntranslate 1 b, 2 c;", 3,
                 "'c' is not in the list of taxa")):
            self.assert_refused(f"#NEXUS\n{block}\nend;", line, words)

    def test_translate(self):
        for translate in ("1 a b, 2 c", "1, 2", "1 a,, 2 b", "", "1 a = b", "1 ("):
            self.assert_refused(f"#NEXUS\nbegin trees;\ntranslate {translate};", 3,
                                "TRANSLATE has to give a token and a name for each taxon, with commas between them")

    def test_tables(self):
        head = "Iteration\tPosterior\tpsi\n"
        tree = "0\t-1\t(a,b);\n"
        for row, words in (
                ("1\t-1", "this row has no tree"),
                ("1\t-1\tx", "this row has no tree"),
                ("(a,b);", "this row has 1 column, and the header has 3"),
                ("1\t(a,b);", "this row has 2 columns, and the header has 3"),
                ("1\t-1\t0\t(a,b);", "this row has 4 columns, and the header has 3"),
                ("1\t-1\t(a,b);(a,b);", "this row has more than one tree"),
                ("1\t(a,b);\t(a,b);", "this row has more than one tree"),
                ("1\t-1\t(a,b);\tx", "this row has 4 columns, and the header has 3"),
                ("1\t-1\t(a,b)", "the tree in this row is not whole"),
                ("1\t-1\t((a,b);", "the tree in this row is not whole"),
                ("1\t-1\t(a[&x,b);", "a comment that is opened here is not closed"),
                ("1\t-1\t(a,'b);", "a quoted name that begins here is not closed")):
            self.assert_refused(head + tree + row + "\n" + tree, 3, words)
        self.assert_refused(head + tree + "1\t-1\tx\n", 3, "this row has no tree")


class Unmarked(Case):
    def test_words(self):
        for trees, words in (
                ("((a,b),c);",
                 "1 tree is not marked [&R] or [&U] and taken as rooted, as it has two children at the top"),
                ("(a,b,c);(a,b,c);",
                 "2 trees are not marked [&R] or [&U] and taken as unrooted, as they have three children at the top"),
                ("(a,b);", "1 tree is not marked [&R] or [&U] and taken as rooted, as it has fewer than three taxa"),
                ("a;a;", "2 trees are not marked [&R] or [&U] and taken as rooted, as they have fewer than three taxa")):
            self.assertEqual(self.sample(trees).warnings, (words,))

    def test_small_trees(self):
        self.assertEqual(self.texts("a;"), ["1;"])
        self.assertEqual(self.texts("[&U]a;"), ["[&U]1;"])
        self.assertEqual(self.texts("(a,b);"), ["(1,2);"])
        self.assertEqual(self.texts("[&U](a,b);"), ["[&U](1,2);"])


class Scanning(Case):
    def test_comments_and_quotes(self):
        self.assertEqual(self.texts(
            "[a [nested; ['] ;] comment; (x,y);]\n('a;[b]':1[;[;]'],'c''];' [']):2;('a;[b]','c''];');"),
            ["(1,2);", "(1,2);"])

    def test_lines(self):
        for end in ("\n", "\r\n", "\r"):
            content = f"[x{end}{end}]{end}(a,b);(b,a);{end}{end}[y{end}] (a,{end}b){end};{end}[&R](a,b);"
            self.assertEqual([visit.line for visit in self.sample(content).visits], [4, 4, 7, 10])

    def test_mixed_line_ends(self):
        sample = self.sample("(a,b);\r(a,b);\n\r(a,b);\r\n(a,b);")
        self.assertEqual([visit.line for visit in sample.visits], [1, 2, 4, 5])


class RandomTrees(Case):
    """Trees of random names, written in every way, have the clades that they were made with."""

    ALPHABETS = ("abcXYZ", "ab ", "a_'", "é日-.|/", "([{,;:=)]}\"\\", "0123456789")

    def test_clades(self):
        for seed in range(60):
            chance = random.Random(seed)
            names = self.random_names(chance)
            trees = [self.random_tree(chance, list(names)) for _ in range(5)]
            for write in (self.newick_file, self.nexus_file, self.table_file):
                content = write(chance, names, trees)
                with self.subTest(seed=seed, write=write.__name__, content=content):
                    sample = self.sample(content)
                    self.assertEqual(sorted(sample.names.values()), sorted(names))
                    self.assertEqual([self.clades_of_text(visit.text, sample.names) for visit in sample.visits],
                                     [self.clades(tree)[1] for tree in trees])

    def random_names(self, chance):
        names = {}
        while len(names) < chance.randint(3, 12):
            name = "".join(chance.choices(chance.choice(self.ALPHABETS), k=chance.randint(1, 6)))
            if name not in ("(", ")", ",", ":", ";"):
                names.setdefault(name.lower(), name)
        return tuple(names.values())

    def random_tree(self, chance, nodes):
        while len(nodes) > 1:
            nodes.append((nodes.pop(chance.randrange(len(nodes))), nodes.pop(chance.randrange(len(nodes)))))
        return nodes[0]

    def clades(self, tree):
        """The labels at the leaves of a tree, and its clades."""
        if isinstance(tree, str):
            return frozenset([tree]), {frozenset([tree])}
        (first, below), (second, others) = map(self.clades, tree)
        return first | second, below | others | {first | second}

    def clades_of_text(self, text, names):
        """The clades of a canonical text, with names."""
        open_brackets, clades = [], set()
        for token in text.replace("(", " ( ").replace(")", " ) ").replace(",", " ").replace(";", " ").split():
            if token == "(":
                open_brackets.append(set())
                continue
            clade = frozenset(open_brackets.pop()) if token == ")" else frozenset([names[int(token)]])
            clades.add(clade)
            if open_brackets:
                open_brackets[-1] |= clade
        return clades

    def written_name(self, chance, name):
        if chance.random() < 0.5 and all(character.isalnum() or character in " -.|/" for character in name):
            return name.replace(" ", "_")
        return "'" + name.replace("'", "''") + "'"

    def written(self, chance, tree, leaf, gaps):
        length = chance.choice(("", ":1", ": 0.5", ":1e-05", ":-2.5E+3", ":.5", ":5.", ":nan")) + chance.choice(gaps)
        if isinstance(tree, str):
            return leaf(tree) + chance.choice(gaps) + length
        children = ",".join(chance.choice(gaps) + self.written(chance, child, leaf, gaps) for child in tree)
        return "(" + children + ")" + chance.choice(("", "n1", "0.98", "'x (y'")) + chance.choice(gaps) + length

    GAPS = ("", " ", "[&rate=1,range={0.1,2}]", "[;'[nested]]", " [x] ")
    BREAKS = (*GAPS, "\r\n", "\n", "[over\nlines;]")

    def newick_file(self, chance, names, trees):
        def leaf(name):
            return self.written_name(chance, name)
        return "\n".join(
            chance.choice(("", "[&R]")) + self.written(chance, tree, leaf, self.BREAKS) + ";" for tree in trees)

    def nexus_file(self, chance, names, trees):
        tokens = {name: str(number) for number, name in enumerate(names, 1)}
        translate = ",\n".join(f"{token} [x] {self.written_name(chance, name)}" for name, token in tokens.items())
        lines = [f"tree t = [&R]{self.written(chance, tree, tokens.get, self.BREAKS)};" for tree in trees]
        return "#NEXUS\nbegin trees;\ntranslate\n" + translate + ";\n" + "\n".join(lines) + "\nend;\n"

    def table_file(self, chance, names, trees):
        def leaf(name):
            return self.written_name(chance, name)
        rows = [f"{number}\t-1.5\t{self.written(chance, tree, leaf, self.GAPS)};" for number, tree in enumerate(trees)]
        return "\n".join(["Iteration\tPosterior\tpsi", *rows])


class Progress(Case):
    def test_it_ascends_to_the_end(self):
        tree = "[" + "x" * 391 + "](a,b);\n"
        paths = [self.file(tree * 500, "one.t"), self.file(tree * 1000, "two.t")]
        calls = []
        reading.read(paths, lambda *numbers: calls.append(numbers))
        self.assertEqual({everything for _, everything in calls}, {600_000})
        self.assertEqual([done for done, _ in calls], sorted(done for done, _ in calls))
        self.assertEqual(calls[-1], (600_000, 600_000))
        self.assertIn((200_000, 600_000), calls)
        self.assertGreater(len(calls), 4)


if __name__ == "__main__":
    unittest.main()
