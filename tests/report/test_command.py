"""Tests of the command: its lines, its statuses, and what it leaves behind."""

import io
import os
import pty
import resource
import shutil
import subprocess
import sys
import tempfile
import unittest

HERE = os.path.dirname(os.path.abspath(__file__))
sys.path.insert(0, HERE)

import norbelath
import norbelath_report
import samples
from norbelath_report.bar import Stages

NAMES = {1: "Homo sapiens", 2: "Gorilla", 3: "Pan", 4: "Pongo"}
A, B, C, D = "((1,2),(3,4));", "((1,3),(2,4));", "(((1,2),3),4);", "(((1,2),4),3);"

# A process that was started in the background has Ctrl-C ignored, and leaves that to its children.
START = (
    "import signal; signal.signal(signal.SIGINT, signal.default_int_handler); "
    "import sys; from norbelath_report.command import main; "
)
RUN = "sys.exit(main())"

# A clock that goes on by ten seconds whenever it is asked.
SLOW = "import itertools, time; time.monotonic = itertools.count(0, 10).__next__; "


class Command(unittest.TestCase):
    def setUp(self):
        scratch = tempfile.TemporaryDirectory()
        self.addCleanup(scratch.cleanup)
        self.scratch = scratch.name
        self.put("run1.t", samples.nexus([D, B, A, A], NAMES))
        self.put("run2.t", samples.nexus([B, B, C, A, C, A, D, C], NAMES))

    def put(self, name, text):
        with open(os.path.join(self.scratch, name), "w", encoding="utf-8") as file:
            file.write(text)

    def run_command(self, *arguments, before="", **options):
        # Output that is not buffered would hide a write that fails late.
        environment = {name: value for name, value in os.environ.items() if name != "PYTHONUNBUFFERED"}
        options = {"stdout": subprocess.PIPE, "stderr": subprocess.PIPE, "env": environment, **options}
        command = [sys.executable, "-c", START + before + RUN, *arguments]
        return subprocess.run(command, cwd=self.scratch, text=True, **options)

    def check(self, arguments, status, out, err, **options):
        done = self.run_command(*arguments, **options)
        self.assertEqual((done.returncode, done.stdout, done.stderr), (status, out, err))

    def check_left(self, *more):
        self.assertEqual(sorted(os.listdir(self.scratch)), sorted(["run1.t", "run2.t", *more]))

    def test_report_and_verify(self):
        self.check(["report", "run1.t", "run2.t", "-o", "report", "--burn-in", "25%", "--top", "3"], 0, (
            "trees: 12, 9 of them behind the burn-in\n"
            "topologies: 4, 3 of them in the table, which covers 88.89% of the trees\n"
            "pairs: 2, 1 of them interchanges\n"
            "islands: 1\n"
            "folder: report\n"
        ), "")
        self.check_left("report")
        self.check(["verify", "report", "run1.t", "run2.t"], 0, "report: as made from run1.t, run2.t: 14 files\n", "")
        with open(os.path.join(self.scratch, "report", "pairs.tsv"), "a", encoding="utf-8") as file:
            file.write("0\t2\tno\n")
        self.check(["verify", "report", "run1.t", "run2.t"], 1, "pairs.tsv: line 4 differs\n", "")

    def test_defaults(self):
        done = self.run_command("report", "run1.t", "-o", "report")
        self.assertIn("trees: 4, 4 of them behind the burn-in\ntopologies: 3, 3 of them in the table", done.stdout)

    def test_unrooted(self):
        self.put("run1.t", samples.nexus(["[&U](1,2,(3,4));", "[&U](1,3,(2,4));"], NAMES))
        done = self.run_command("report", "run1.t", "-o", "report")
        self.assertIn("\npairs: 1\nislands: 1\n", done.stdout)
        self.check(["verify", "report", "run1.t"], 0, "report: as made from run1.t: 13 files\n", "")

    def test_version(self):
        self.check(["--version"], 0, "norbelath 1.0.0\n", "")
        self.assertEqual(norbelath_report.__version__, norbelath.__version__)

    def test_refused_files(self):
        self.put("run2.t", samples.nexus([A, "((1,2),3,4));"], NAMES))
        done = self.run_command("report", "run1.t", "run2.t", "-o", "report")
        self.assertEqual((done.returncode, done.stdout), (1, ""))
        self.assertTrue(done.stderr.startswith("norbelath: run2.t:9: "), done.stderr)
        done = self.run_command("report", "none.t", "-o", "report")
        self.assertEqual((done.returncode, done.stdout), (1, ""))
        self.assertTrue(done.stderr.startswith("norbelath: none.t: "), done.stderr)
        self.check(["report", "run1.t", "-o", "report", "--burn-in", "4"], 1, "",
                   "norbelath: run1.t: a burn-in of 4 leaves none of the 4 trees of file 1\n")
        self.check_left()

    def test_warnings(self):
        warned = (
            "import dataclasses; from norbelath_report import reading; real = reading.read; "
            "reading.read = lambda *given: dataclasses.replace(real(*given), warnings=('run1.t:9: a warning',)); "
        )
        done = self.run_command("report", "run1.t", "-o", "report", before=warned)
        self.assertEqual((done.returncode, done.stderr), (0, "norbelath: warning: run1.t:9: a warning\n"))
        with open(os.path.join(self.scratch, "report", "settings.tsv"), encoding="utf-8") as file:
            self.assertIn("\nwarning\trun1.t:9: a warning\n", file.read())

    def test_wrong_usage(self):
        for arguments, words in [
            ([], "required: COMMAND"),
            (["report", "run1.t"], "required: -o"),
            (["report", "-o", "report"], "required: FILE"),
            (["verify", "report"], "required: FILE"),
            (["report", "run1.t", "-o", "report", "--top", "0"], "a table has 1 to 160 trees, not '0'"),
            (["report", "run1.t", "-o", "report", "--top", "161"], "a table has 1 to 160 trees, not '161'"),
            (["report", "run1.t", "-o", "report", "--top", "+3"], "a table has 1 to 160 trees, not '+3'"),
            (["report", "run1.t", "-o", "report", "--burn-in", "100%"],
             "a burn-in is a number of trees or a percentage below 100, not '100%'"),
        ]:
            done = self.run_command(*arguments)
            self.assertEqual((done.returncode, done.stdout), (2, ""))
            self.assertIn(words, done.stderr)
        self.check_left()

    def test_folders(self):
        os.mkdir(os.path.join(self.scratch, "taken"))
        self.put("taken/mine.txt", "mine")
        self.check(["report", "run1.t", "-o", "taken"], 2, "",
                   "norbelath: taken: is not empty; nothing in it is overwritten\n")
        self.check(["verify", "none", "run1.t"], 2, "", "norbelath: none: there is no such folder\n")
        self.check(["verify", "taken", "run1.t"], 1, "settings.tsv: missing; nothing else was compared\n", "")
        self.check_left("taken")

    def test_full_disk(self):
        words = "norbelath: report: cannot be written: File too large\n"
        self.check(["report", "run1.t", "-o", "report"], 2, "", words,
                   preexec_fn=lambda: resource.setrlimit(resource.RLIMIT_FSIZE, (100, 100)))
        self.check_left()

    def test_output_that_cannot_be_written(self):
        with open("/dev/full", "w", encoding="utf-8") as full:
            self.check(["report", "run1.t", "-o", "report"], 2, None,
                       "norbelath: standard output: cannot be written: No space left on device\n", stdout=full)
            self.check(["verify", "report", "run1.t"], 2, None,
                       "norbelath: standard output: cannot be written: No space left on device\n", stdout=full)
        done = self.run_command("verify", "report", "run1.t", before="sys.stdout = None; ")
        self.assertEqual((done.returncode, done.stderr),
                         (2, "norbelath: standard output: cannot be written: Bad file descriptor\n"))

    def test_interrupted(self):
        while_written = (
            "import os, signal; from norbelath_report import folder; real = folder._write_file; "
            "stop = lambda: os.kill(os.getpid(), signal.SIGINT); "
            "folder._write_file = lambda *file: (real(*file), 'trees/' in file[0] and stop()); "
        )
        self.check(["report", "run1.t", "-o", "report"], 130, "", "", before=while_written)
        while_imported = (
            "import builtins, os, signal; real = builtins.__import__; "
            "stop = lambda: os.kill(os.getpid(), signal.SIGINT); "
            "builtins.__import__ = "
            "lambda name, *rest, **more: (name == 'dendropy' and stop(), real(name, *rest, **more))[1]; "
        )
        self.check(["report", "run1.t", "-o", "report"], 130, "", "", before=while_imported)
        self.check_left()

    def test_missing_dendropy(self):
        words = "norbelath: DendroPy is missing: apt install python3-dendropy, or pip install dendropy\n"
        self.check(["--version"], 2, "", words, before="sys.modules['dendropy'] = None; ")

    def test_missing_library(self):
        code = "import sys; from norbelath_report.command import main; sys.exit(main())"
        environment = {**os.environ, "NORBELATH_LIBRARY": os.path.join(self.scratch, "none.so")}
        command = [sys.executable, "-c", code, "--version"]
        done = subprocess.run(command, env=environment, capture_output=True, text=True)
        self.assertEqual((done.returncode, done.stdout), (2, ""))
        self.assertTrue(done.stderr.startswith("norbelath: the shared library of Norbelath cannot be loaded"))

    def test_changed_programs(self):
        self.run_command("report", "run1.t", "-o", "report")
        programs = os.path.join(self.scratch, "programs")
        shutil.copytree(os.path.dirname(norbelath_report.__file__), os.path.join(programs, "norbelath_report"))
        shutil.copy(norbelath.__file__, programs)
        shutil.copy(os.environ["NORBELATH_LIBRARY"], os.path.join(programs, "libnorbelath.so.1"))
        moved = {name: value for name, value in os.environ.items() if name != "NORBELATH_LIBRARY"}
        moved["PYTHONPATH"] = programs
        self.check(["verify", "report", "run1.t"], 0, "report: as made from run1.t: 14 files\n", "", env=moved)
        for name in ["libnorbelath.so.1", "norbelath.py", "norbelath_report/tables.py", "norbelath_report/model.py"]:
            path = os.path.join(programs, name)
            with open(path, "rb") as file:
                data = file.read()
            with open(path, "ab") as file:
                file.write(b"#")
            words = f"programs/{name}: not the one that made the report; everything else is the same\n"
            self.check(["verify", "report", "run1.t"], 1, words, "", env=moved)
            with open(path, "wb") as file:
                file.write(data)

    def test_no_bar_in_a_file(self):
        done = self.run_command("report", "run1.t", "-o", "report", before=SLOW)
        self.assertEqual(done.stderr, "")

    def test_bar_on_a_terminal(self):
        control, terminal = pty.openpty()
        self.run_command("report", "run1.t", "-o", "report", before=SLOW, stderr=terminal)
        os.close(terminal)
        shown = os.read(control, 65_536).decode()
        os.close(control)
        self.assertIn(f"\rdrawing [{'#' * 30}] 100%", shown)
        self.assertTrue(shown.endswith(" \r"))


class Bar(unittest.TestCase):
    class Terminal(io.StringIO):
        def isatty(self):
            return True

    def setUp(self):
        self.now = 0.0
        self.terminal = self.Terminal()
        self.stages = Stages(self.terminal, lambda: self.now)

    def test_only_after_a_second(self):
        progress = self.stages.begin("reading")
        for self.now in (0.0, 0.5, 0.99):
            progress(1, 2)
        self.stages.end()
        self.assertEqual(self.terminal.getvalue(), "")
        self.now = 1.0
        progress(1, 2)
        self.assertEqual(self.terminal.getvalue(), f"\rreading [{'#' * 15}{'.' * 15}] 50%")

    def test_over_the_one_before(self):
        self.now = 1.0
        self.stages.begin("reading")(2, 2)
        self.now = 1.05
        self.stages.begin("in between")(1, 2)
        self.now = 1.2
        self.stages.begin("drawn")(0, 0)
        self.now = 2.0
        self.stages.begin("x")(0, 7)
        self.stages.end()
        full, none = "#" * 30, "." * 30
        self.assertEqual(self.terminal.getvalue(),
                         f"\rreading [{full}] 100%\rdrawn [{full}] 100%  \rx [{none}] 0%      \r{' ' * 37}\r")


if __name__ == "__main__":
    unittest.main()
