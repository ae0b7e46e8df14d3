"""Names in Newick texts. PYTHONPATH has to name the folders of the package and of the module norbelath."""

import unittest

import dendropy
from norbelath_report import names


class Quoted(unittest.TestCase):
    def test_plain_names_stay(self):
        for name in ("Pan", "A.b-2", "12", "Ödön", "-", "日本"):
            self.assertEqual(names.quoted(name), name)

    def test_blanks_become_underscores(self):
        self.assertEqual(names.quoted("Homo sapiens"), "Homo_sapiens")
        self.assertEqual(names.quoted(" a  b "), "_a__b_")

    def test_other_characters_are_quoted(self):
        for name in ("Homo_sapiens", "a(b", "a,b", "a:b", "a;b", "[a]", "a=b", "<a>", "a&b", "a\u00a0b", '"a"', "*"):
            self.assertEqual(names.quoted(name), f"'{name}'")

    def test_quotes_are_doubled(self):
        self.assertEqual(names.quoted("O'Brien"), "'O''Brien'")
        self.assertEqual(names.quoted("'"), "''''")

    def test_dendropy_reads_them_back(self):
        for name in ("Homo sapiens", "Homo_sapiens", "O'Brien", "''", " a", "a[b]c", "(a,b);", "日本 1", "a\"b", "{"):
            tree = dendropy.Tree.get(data=f"({names.quoted(name)},other);", schema="newick")
            self.assertEqual([leaf.taxon.label for leaf in tree.leaf_node_iter()], [name, "other"])


class Named(unittest.TestCase):
    def test_labels_become_names(self):
        table = {1: "Homo sapiens", 2: "Pan", 10: "O'Brien", 64: "12"}
        self.assertEqual(names.named("((1,2),(10,64));", table), "((Homo_sapiens,Pan),('O''Brien',12));")
        self.assertEqual(names.named("[&U](1,2,(10,64));", table), "[&U](Homo_sapiens,Pan,('O''Brien',12));")
        self.assertEqual(names.named("(1,2,10,64);", table), "(Homo_sapiens,Pan,'O''Brien',12);")
        self.assertEqual(names.named("1;", table), "Homo_sapiens;")

    def test_names_with_backslashes_and_digits_stay(self):
        self.assertEqual(names.named("(1,2);", {1: r"a\1", 2: "2 1"}), r"('a\1',2_1);")


if __name__ == "__main__":
    unittest.main()
