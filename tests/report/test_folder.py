"""Tests of the report's folder: its tables word for word, its sums, how it is written, and what verify finds."""

import hashlib
import os
import re
import shutil
import subprocess
import sys
import tempfile
import unittest
from fractions import Fraction
from unittest import mock

sys.path.insert(0, os.path.dirname(os.path.abspath(__file__)))

import dendropy
import norbelath
import samples
from norbelath_report import folder, tables, verifying
from norbelath_report.bar import Stages
from norbelath_report.errors import Refused
from norbelath_report.model import share
from norbelath_report.survey import BurnIn, survey

QUIET = Stages(None)
NAMES = {1: "Homo sapiens", 2: "it's, a name", 3: "Pan", 4: "Pongo"}
PLAIN_NAMES = {1: "Homo sapiens", 2: "Gorilla", 3: "Pan", 4: "Pongo"}
A, B, C, D = "((1,2),(3,4));", "((1,3),(2,4));", "(((1,2),3),4);", "(((1,2),4),3);"
RUN_1, RUN_2 = [D, B, A, A], [B, B, C, A, C, A, D, C]
UNROOTED = ["[&U](1,2,(3,4));", "[&U](1,3,(2,4));", "[&U](1,2,(3,4));"]


class Shares(unittest.TestCase):
    def test_rounding(self):
        shares = [share(*part) for part in [(1, 3), (2, 3), (1, 800), (1, 20_000), (1, 20_001), (5, 5), (0, 9)]]
        self.assertEqual(shares, ["33.33", "66.67", "0.13", "0.01", "0.00", "100.00", "0.00"])

    def test_against_fractions(self):
        for whole in range(1, 300):
            for part in range(whole + 1):
                off = Fraction(share(part, whole)) - Fraction(100 * part, whole)
                self.assertTrue(-Fraction(1, 200) < off <= Fraction(1, 200), (part, whole))


class Tables(unittest.TestCase):
    def setUp(self):
        self.survey = survey(samples.sample_of(RUN_1, RUN_2, names=NAMES), BurnIn.parse("25%"), 3)

    def check(self, text, *rows):
        self.assertEqual(text, "".join("\t".join(row.split("|")) + "\n" for row in rows))

    def test_names(self):
        self.check(tables.names(self.survey), "label|name", "1|Homo sapiens", "2|it's, a name", "3|Pan", "4|Pongo")

    def test_trees(self):
        self.check(
            tables.trees(self.survey), "position|visits|share_percent|neighbours|island|tree",
            "0|4|44.44|1|0|((Homo_sapiens,'it''s, a name'),(Pan,Pongo));",
            "1|3|33.33|2|0|(((Homo_sapiens,'it''s, a name'),Pan),Pongo);",
            "2|1|11.11|1|0|((Homo_sapiens,Pan),('it''s, a name',Pongo));",
        )

    def test_pairs(self):
        self.check(tables.pairs(self.survey), "first|second|interchange", "0|1|yes", "1|2|no")

    def test_unrooted_pairs(self):
        unrooted = survey(samples.sample_of(UNROOTED), BurnIn.parse("0"), 160)
        self.check(tables.pairs(unrooted), "first|second|interchange", "0|1|-")
        self.check(tables.clades(unrooted), "visits|share_percent|size|clade")

    def test_clades(self):
        self.check(
            tables.clades(self.survey), "visits|share_percent|size|clade",
            "8|88.89|2|Homo_sapiens 'it''s, a name'",
            "4|44.44|2|Pan Pongo",
            "3|33.33|3|Homo_sapiens 'it''s, a name' Pan",
            "1|11.11|3|Homo_sapiens 'it''s, a name' Pongo",
            "1|11.11|2|Homo_sapiens Pan",
            "1|11.11|2|'it''s, a name' Pongo",
        )

    def test_sample(self):
        self.check(
            tables.sample(self.survey), "source|file|line|generation|position",
            "1|run1.t|1|100|burn-in", "1|run1.t|2|200|2", "1|run1.t|3|300|0", "1|run1.t|4|400|0",
            "2|run2.t|1|100|burn-in", "2|run2.t|2|200|burn-in", "2|run2.t|3|300|1", "2|run2.t|4|400|0",
            "2|run2.t|5|500|1", "2|run2.t|6|600|0", "2|run2.t|7|700|not in table", "2|run2.t|8|800|1",
        )

    def test_settings(self):
        self.check(
            tables.settings(self.survey), "setting|value", "norbelath|1.0.0", "norbelath_report|1.0.0",
            "source 1|run1.t", "source 2|run2.t", "burn-in|25%", "top|3", "kind|rooted", "taxa|4", "trees|12",
            "trees behind the burn-in|9", "topologies|4", "topologies in the table|3",
            "trees with a topology in the table|8", "pairs|2", "islands|1",
        )


class Scratch(unittest.TestCase):
    """A scratch folder with the two runs in it."""

    def setUp(self):
        scratch = tempfile.TemporaryDirectory()
        self.addCleanup(scratch.cleanup)
        self.scratch = scratch.name
        runs = {"run1.t": RUN_1, "run2.t": RUN_2}
        self.runs = [self.put(name, samples.nexus(trees, PLAIN_NAMES)) for name, trees in runs.items()]

    def path(self, name):
        return os.path.join(self.scratch, name)

    def put(self, name, text):
        os.makedirs(os.path.dirname(self.path(name)), exist_ok=True)
        with open(self.path(name), "w", encoding="utf-8") as file:
            file.write(text)
        return self.path(name)

    def made(self, paths=None):
        return folder.make(paths or self.runs, BurnIn.parse("25%"), 3, QUIET)[1]

    def report(self):
        folder.write(self.made(), self.path("report"))
        return self.path("report")


class Files(Scratch):
    def test_names(self):
        self.assertEqual(sorted(self.made()), [
            "SHA256SUMS", "clades.tsv", "graph.svg", "names.tsv", "pairs.tsv", "report.html", "sample.tsv",
            "settings.tsv", "sheet.txt", "table.txt", "trees.tsv", "trees/000.svg", "trees/001.svg", "trees/002.svg",
        ])

    def test_table_and_sheet(self):
        made = self.made()
        self.assertEqual(made["table.txt"].decode(), f"{A}\n{C}\n{B}\n")
        self.assertEqual(made["sheet.txt"].decode(), (
            "trees 3 pairs 2\n"
            f"tree 0 neighbours 1 unlinked 1 {A}\n"
            f"tree 1 neighbours 2 unlinked 0 {C}\n"
            f"tree 2 neighbours 1 unlinked 1 {B}\n"
            "pair 0 1\npair 1 2\n"
        ))

    def test_same_bytes_anywhere(self):
        elsewhere = [self.put("else/where/run1.t", samples.nexus(RUN_1, PLAIN_NAMES)), self.runs[1]]
        made = self.made()
        self.assertEqual(self.made(elsewhere), made)
        for name, data in made.items():
            self.assertNotIn(self.scratch.encode(), data, name)

    def test_same_name_twice(self):
        twice = [self.runs[0], self.put("other/run1.t", samples.nexus(RUN_2, PLAIN_NAMES))]
        listed = self.made(twice)["SHA256SUMS"].decode()
        self.assertIn("  sources/1/run1.t\n", listed)
        self.assertIn("  sources/2/run1.t\n", listed)

    def test_names_that_cannot_be_listed(self):
        for name in ["a\tb.t", "a\nb.t", "a\\b.t", "a\x1bb.t", "a\u2028b.t", os.fsdecode(b"a\xffb.t")]:
            with self.assertRaises(Refused) as caught:
                self.made([self.path(name)])
            self.assertIn("give it another name", str(caught.exception))


class Sums(Scratch):
    def digest(self, path):
        with open(path, "rb") as file:
            return hashlib.sha256(file.read()).hexdigest()

    def test_lines(self):
        made = self.made()
        lines = made["SHA256SUMS"].decode().split("\n")
        package = os.path.dirname(folder.__file__)
        modules = sorted(name for name in os.listdir(package) if name.endswith(".py"))
        self.assertEqual(lines, [
            *(f"{hashlib.sha256(made[name]).hexdigest()}  {name}" for name in sorted(made) if name != "SHA256SUMS"),
            *(f"{self.digest(path)}  sources/{number}/run{number}.t" for number, path in enumerate(self.runs, 1)),
            f"{self.digest(os.environ['NORBELATH_LIBRARY'])}  programs/libnorbelath.so.1",
            f"{self.digest(norbelath.__file__)}  programs/norbelath.py",
            *(f"{self.digest(os.path.join(package, name))}  programs/norbelath_report/{name}" for name in modules),
            f"# read with DendroPy {dendropy.__version__}",
            "",
        ])

    def test_read_by_sha256sum(self):
        report = self.report()
        check = ["sha256sum", "-c", "--ignore-missing", "--strict", "SHA256SUMS"]
        checked = subprocess.run(check, cwd=report, capture_output=True, text=True)
        self.assertEqual((checked.returncode, checked.stderr), (0, ""))
        self.assertEqual(checked.stdout.count(": OK\n"), 13)
        with open(os.path.join(report, "trees.tsv"), "ab") as file:
            file.write(b"x")
        self.assertEqual(subprocess.run(check, cwd=report, capture_output=True).returncode, 1)


class Writing(Scratch):
    def check_refused(self, place, words):
        before = sorted(os.listdir(self.scratch))
        with self.assertRaises(folder.Unwritable) as caught:
            folder.write({"a.txt": b"a"}, place)
        self.assertEqual(str(caught.exception), f"{place}: {words}")
        self.assertEqual(sorted(os.listdir(self.scratch)), before)

    def test_whole(self):
        made = self.made()
        folder.write(made, self.path("report"))
        found = {}
        for place, _, names in os.walk(self.path("report")):
            for name in names:
                with open(os.path.join(place, name), "rb") as file:
                    found[os.path.relpath(os.path.join(place, name), self.path("report"))] = file.read()
        self.assertEqual(found, made)
        self.assertEqual(sorted(os.listdir(self.scratch)), ["report", "run1.t", "run2.t"])

    def test_permissions(self):
        old = os.umask(0o027)
        self.addCleanup(os.umask, old)
        folder.write({"a/b.txt": b"b"}, self.path("report"))
        modes = [os.stat(self.path(name)).st_mode & 0o777 for name in ("report", "report/a", "report/a/b.txt")]
        self.assertEqual(modes, [0o750, 0o750, 0o640])

    def test_empty_folder(self):
        os.mkdir(self.path("empty"))
        os.symlink("empty", self.path("link"))
        folder.write({"a.txt": b"a"}, self.path("link"))
        self.assertEqual(os.listdir(self.path("empty")), ["a.txt"])
        self.assertTrue(os.path.islink(self.path("link")))

    def test_taken(self):
        self.put("taken/mine.txt", "mine")
        self.check_refused(self.path("taken"), "is not empty; nothing in it is overwritten")
        self.check_refused(self.runs[0], "is not a folder")
        self.check_refused(self.path("no/report"), "the folder that it is to stand in does not exist")

    def test_own_folder(self):
        os.mkdir(self.path("here"))
        self.addCleanup(os.chdir, os.getcwd())
        os.chdir(self.path("here"))
        self.check_refused(".", "is the folder you are in; name another")

    def test_failures(self):
        for call in ["os.makedirs", "os.rename", "builtins.open"]:
            with mock.patch(call, side_effect=OSError(28, "No space left on device")):
                self.check_refused(self.path("report"), "cannot be written: No space left on device")

    def test_interrupted(self):
        with mock.patch("os.rename", side_effect=KeyboardInterrupt), self.assertRaises(KeyboardInterrupt):
            folder.write({"a.txt": b"a"}, self.path("report"))
        self.assertEqual(sorted(os.listdir(self.scratch)), ["run1.t", "run2.t"])

    def test_filled_meanwhile(self):
        def fill(path, data):
            self.put("report/mine.txt", "mine")
        with mock.patch("norbelath_report.folder._write_file", fill):
            with self.assertRaises(folder.Unwritable):
                folder.write({"a.txt": b"a"}, self.path("report"))
        self.assertEqual(os.listdir(self.path("report")), ["mine.txt"])
        self.assertEqual(sorted(os.listdir(self.scratch)), ["report", "run1.t", "run2.t"])


class Verifying(Scratch):
    def setUp(self):
        super().setUp()
        self.folder = self.report()

    def lines(self, runs=None):
        return verifying.verify(self.folder, runs or self.runs, QUIET).lines()

    def bytes_of(self, name):
        with open(os.path.join(self.folder, name), "rb") as file:
            return file.read()

    def replace(self, name, data):
        with open(os.path.join(self.folder, name), "wb") as file:
            file.write(data)

    def test_same(self):
        findings = verifying.verify(self.folder, self.runs, QUIET)
        self.assertEqual((findings.lines(), findings.files), ([], 14))

    def changed(self, name, places):
        """Changes one bit at each of the places of a file in turn."""
        data = self.bytes_of(name)
        for place in places:
            self.replace(name, data[:place] + bytes([data[place] ^ 1]) + data[place + 1:])
            with self.subTest(name=name, place=place):
                yield place
        self.replace(name, data)

    def test_bytes_of_every_file(self):
        made = self.made()
        for name, data in made.items():
            step = 1 if name == "SHA256SUMS" else 1 + len(data) // 40
            for place in self.changed(name, {*range(0, len(data), step), len(data) - 1}):
                lines = verifying.compare(self.folder, made).lines()
                self.assertTrue(lines)
                if name not in ("SHA256SUMS", "settings.tsv"):
                    self.assertEqual(lines, [f"{name}: line {data[:place].count(10) + 1} differs"])

    def test_bytes_of_settings(self):
        for _ in self.changed("settings.tsv", range(len(self.bytes_of("settings.tsv")))):
            self.assertTrue(self.lines()[0].startswith("settings.tsv: "))

    def test_damaged_settings(self):
        data = self.bytes_of("settings.tsv")
        changes = [
            (b"top", b"tap"), (b"\t25%", b"\t"), (b"\t25%", b""), (b"top\t3", b"top\t3\t3"), (b"top\t3", b"top\tx"),
        ]
        for damaged in [b"", b"\xff\n", *(data.replace(*change) for change in changes)]:
            self.replace("settings.tsv", damaged)
            words = "settings.tsv: the burn-in or the top cannot be read from it; nothing else was compared"
            self.assertEqual(self.lines(), [words])
        for top in [b"0", b"161", b"-3"]:
            self.replace("settings.tsv", data.replace(b"top\t3", b"top\t" + top))
            words = f"settings.tsv: a top of {top.decode()} is in no report; nothing else was compared"
            self.assertEqual(self.lines(), [words])
        os.remove(os.path.join(self.folder, "settings.tsv"))
        self.assertEqual(self.lines(), ["settings.tsv: missing; nothing else was compared"])

    def test_other_burn_in(self):
        self.replace("settings.tsv", self.bytes_of("settings.tsv").replace(b"25%", b"50%"))
        self.assertEqual(self.lines()[0], "settings.tsv: not the one that SHA256SUMS lists")
        self.assertIn("sample.tsv: line 3 differs", self.lines())

    def test_longer_and_shorter(self):
        data = self.bytes_of("trees.tsv")
        for other, line in [(data + b"x", 5), (data + b"\n", 5), (data[:-1], 4), (b"", 1)]:
            self.replace("trees.tsv", other)
            self.assertEqual(self.lines(), [f"trees.tsv: line {line} differs"])

    def test_missing(self):
        for name in self.made():
            if name != "settings.tsv":
                data = self.bytes_of(name)
                os.remove(os.path.join(self.folder, name))
                self.assertEqual(self.lines(), [f"{name}: missing"])
                self.replace(name, data)

    def test_additional(self):
        self.put("report/more.txt", "")
        self.put("report/trees/003.svg", "")
        os.makedirs(self.path("report/more/inner"))
        os.mkdir(self.path("report/trees/empty"))
        self.put("report/a\nb", "")
        self.assertEqual(self.lines(), [
            "a\\nb: not of the report", "more.txt: not of the report", "more/: not of the report",
            "trees/003.svg: not of the report", "trees/empty/: not of the report",
        ])

    def test_signatures(self):
        for name in ["SHA256SUMS.sig", "SHA256SUMS.asc", "SHA256SUMS.gpg"]:
            self.put(f"report/{name}", "signed")
        self.assertEqual(self.lines(), [])

    def test_not_plain(self):
        os.remove(self.path("report/trees.tsv"))
        os.mkfifo(self.path("report/trees.tsv"))
        os.rename(self.path("report/trees"), self.path("trees"))
        os.symlink(self.path("trees"), self.path("report/trees"))
        self.assertEqual(self.lines(), ["trees: not of the report", "trees.tsv: not a plain file"])

    def test_lines_of_sums(self):
        data = self.bytes_of("SHA256SUMS")
        lines = data.splitlines(True)
        made = self.made()
        for number, line in enumerate(lines):
            before, behind = lines[:number], lines[number + 1:]
            without, twice = [*before, *behind], [*before, line, line, *behind]
            swapped = [*before, *behind[:1], line, *behind[1:]]
            for others in (without, twice, swapped):
                if others != lines:
                    self.replace("SHA256SUMS", b"".join(others))
                    with self.subTest(number=number):
                        self.assertTrue(verifying.compare(self.folder, made).lines())

    def test_bytes_of_a_source(self):
        with open(self.runs[0], "rb") as file:
            data = file.read()
        for place in range(0, len(data), 5):
            with open(self.runs[0], "wb") as file:
                file.write(data[:place] + bytes([data[place] ^ 1]) + data[place + 1:])
            with self.subTest(place=place):
                try:
                    self.assertEqual(self.lines()[0], "sources/1/run1.t: not a file that the report was made from")
                except Refused as refusal:
                    self.assertIn(refusal.file, self.runs)

    def test_source_with_the_same_trees(self):
        self.put("run1.t", samples.nexus(RUN_1, PLAIN_NAMES).replace("#NEXUS\n", "#NEXUS\n[changed]"))
        self.assertEqual(self.lines(), ["sources/1/run1.t: not a file that the report was made from"])

    def test_other_sources(self):
        other = self.put("run3.t", samples.nexus(RUN_1 + RUN_2, PLAIN_NAMES))
        again = shutil.copy(self.runs[0], self.path("again.t"))
        for runs, words in [
            (self.runs[::-1], ["sources/1/run2.t: the report has this file as sources/2/run2.t",
                               "sources/2/run1.t: the report has this file as sources/1/run1.t"]),
            (self.runs[:1], ["sources/2/run2.t: the report was made from it, but it is not given"]),
            ([*self.runs, other], ["sources/3/run3.t: not a file that the report was made from"]),
            ([again, self.runs[1]], ["sources/1/again.t: the report has this file as sources/1/run1.t"]),
        ]:
            lines = self.lines(runs)
            self.assertEqual([line for line in lines if line.startswith("sources/")], words)
            self.assertIn("settings.tsv: ", "\n".join(lines))

    def test_other_programs(self):
        data = self.bytes_of("SHA256SUMS")
        for program in ["libnorbelath.so.1", "norbelath.py", "norbelath_report/survey.py"]:
            words = f"programs/{program}: not the one that made the report; everything else is the same"
            line = rb"[0-9a-f]{64}  programs/%s\n" % program.encode()
            self.replace("SHA256SUMS", re.sub(line, b"0" * 64 + f"  programs/{program}\n".encode(), data))
            self.assertEqual(self.lines(), [words])
        self.replace("SHA256SUMS", data.replace(b"DendroPy ", b"DendroPy 1"))
        words = f"DendroPy {dendropy.__version__}: not the one that made the report; everything else is the same"
        self.assertEqual(self.lines(), [words])


if __name__ == "__main__":
    unittest.main()
