"""Files as samplers write them, and the folders that are expected of them.

`samplers` has files of MrBayes 3.2.7, BEAST 1.10.4 and BEAST 2.7.3, as these wrote them, two tables in the format of
RevBayes, and a file of a running chain whose last tree is cut off. `expected` has for each case the texts of the folder
that a curator looks at, and for two cases all of them, with the digests of the pictures and the page. The tables are worked
out by `expected.py` too, and the kept ones and the report's have to be the same. Of the README's example nothing is kept.
"""
import hashlib
import os
import subprocess
import tempfile
from typing import NamedTuple

import expected
import runs

HERE = os.path.dirname(os.path.abspath(__file__))
SAMPLERS = os.path.join(HERE, "samplers")
EXAMPLES = os.path.join(HERE, "..", "..", "report", "examples")
KEPT = ("table.txt", "sheet.txt", "trees.tsv", "sample.tsv")
DIGESTS = "pictures.sha256"
WHOLE = (*expected.TEXTS, "settings.tsv", DIGESTS)
CUT_OFF = "norbelath: warning: running.trees:34: the last tree is cut off and is left out\n"
UNMARKED = "norbelath: warning: {} trees are not marked [&R] or [&U] and taken as {}, as they have {} children at the top\n"


class Case(NamedTuple):
    """Files, how the report of them is asked for, and what it warns of."""

    files: tuple
    burn_in: str = "0"
    top: int = 160
    kept: tuple = KEPT
    """The texts of the folder that are kept."""
    warnings: str = ""
    place: str = SAMPLERS

    @property
    def paths(self):
        return [os.path.join(self.place, name) for name in self.files]

    @property
    def options(self):
        return ("--burn-in", self.burn_in, "--top", str(self.top))


CASES = {
    "mrbayes_rooted": Case(("mrbayes_rooted.t",), kept=WHOLE),
    "mrbayes_unrooted": Case(("mrbayes_unrooted.run1.t", "mrbayes_unrooted.run2.t"), burn_in="25%", kept=WHOLE),
    "beast1": Case(("beast1.trees",)),
    "beast2": Case(("beast2.trees",), burn_in="10", top=5, warnings=UNMARKED.format(31, "rooted", "two")),
    "revbayes_rooted": Case(("revbayes_rooted.trees",), warnings=UNMARKED.format(24, "rooted", "two")),
    "revbayes_unrooted": Case(("revbayes_unrooted.trees",), warnings=UNMARKED.format(24, "unrooted", "three")),
    "running": Case(("running.trees",), warnings=CUT_OFF + UNMARKED.format(13, "rooted", "two")),
    "primates": Case(("primates.run1.t", "primates.run2.t"), kept=(), place=EXAMPLES),
}


def kept_in(name):
    """The kept files of a case."""
    return {file: data.decode() for file, data in runs.files_in(os.path.join(HERE, "expected", name)).items()}


def digests(made):
    """The digests of what is not a table, as sha256sum writes them."""
    return "".join(f"{hashlib.sha256(made[name]).hexdigest()}  {name}\n"
                   for name in sorted(made) if name.endswith((".svg", ".html")))


def expected_names(tables):
    """The names of the files that the folder of a case has."""
    topologies = tables["table.txt"].count("\n")
    return {*expected.TEXTS, "settings.tsv", "graph.svg", "report.html", "SHA256SUMS",
            *(f"trees/{position:03}.svg" for position in range(topologies))}


def settings_in(made):
    """The rows of settings.tsv."""
    return dict(line.split("\t") for line in made["settings.tsv"].decode().splitlines())


def checks(lister):
    """Each case's report against what is expected."""
    for name, case in CASES.items():
        with tempfile.TemporaryDirectory() as folder:
            yield from check(name, case, os.path.join(folder, "report"), lister)


def check(name, case, folder, lister):
    tables, numbers = expected.tables_of(case.paths, case.burn_in, case.top)
    run = runs.command("report", *case.paths, "-o", folder, *case.options)
    yield f"{name}: made", "" if (run.status, run.errors) == (0, case.warnings) else f"{run}"
    if run.status:
        return
    made = runs.files_in(folder)
    yield f"{name}: names of files", same(set(made), expected_names(tables))
    for file in expected.TEXTS:
        yield f"{name}: {file} by the independent program", same(made.get(file, b"").decode(), tables[file])
    settings = settings_in(made)
    for number, value in numbers.items():
        yield f"{name}: {number}", same(settings.get(number), str(value))
    yield from check_kept(name, case, made)
    listed = subprocess.run([lister], input=made["table.txt"], capture_output=True)
    yield f"{name}: the lister's sheet", same(listed.stdout, made["sheet.txt"])
    sums = subprocess.run(["sha256sum", "-c", "--ignore-missing", "--quiet", "SHA256SUMS"], cwd=folder, capture_output=True)
    yield f"{name}: sha256sum", "" if sums.returncode == 0 and not sums.stdout else f"{sums}"
    verified = runs.command("verify", folder, *case.paths)
    words = f"{folder}: as made from {', '.join(case.files)}: {len(made)} files\n"
    yield f"{name}: verified", same(verified, runs.Run(0, words, ""))


def check_kept(name, case, made):
    """The kept files of a case are those of the report."""
    kept = kept_in(name)
    yield f"{name}: kept files", same(set(kept), set(case.kept))
    for file, text in kept.items():
        found = digests(made) if file == DIGESTS else made.get(file, b"").decode()
        yield f"{name}: kept {file}", same(found, text)


def same(found, wanted):
    """Nothing, or how two values differ."""
    if found == wanted:
        return ""
    if isinstance(found, str) and isinstance(wanted, str):
        pairs = zip(found.split("\n") + [""], wanted.split("\n") + [""])
        line, (here, there) = next((line, pair) for line, pair in enumerate(pairs, 1) if pair[0] != pair[1])
        return f"line {line}: {here!r}, not {there!r}"
    return f"{found!r}, not {wanted!r}"


def write():
    """Writes the kept files: the tables by the independent program, the settings and the digests by the report."""
    for name, case in CASES.items():
        tables, _ = expected.tables_of(case.paths, case.burn_in, case.top)
        with tempfile.TemporaryDirectory() as folder:
            report = os.path.join(folder, "report")
            runs.command("report", *case.paths, "-o", report, *case.options)
            made = runs.files_in(report)
        texts = {**tables, "settings.tsv": made["settings.tsv"].decode(), DIGESTS: digests(made)}
        for file in case.kept:
            os.makedirs(os.path.join(HERE, "expected", name), exist_ok=True)
            with open(os.path.join(HERE, "expected", name, file), "w", encoding="utf-8", newline="") as out:
                out.write(texts[file])
