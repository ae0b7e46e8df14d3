"""Reports that are changed, and verified: every change has to be found.

A small report of two files is made once. A byte of it is changed at the first, the middle and the last place of every file
and at random places, and each time `verify` has to say so; so has `sha256sum`, where the byte is not one of SHA256SUMS
itself. The same for the sources, for files that are added or taken away, and for the programs.
"""
import os
import random
import shutil
import subprocess
import tempfile

import folders
import runs

SUMS = "SHA256SUMS"
RANDOM_PLACES = 200
RANDOM_SOURCE_PLACES = 20
CASE = folders.Case(("mrbayes_unrooted.run1.t", "mrbayes_unrooted.run2.t"), burn_in="20%", top=3)


def changed(data, place, rng):
    """The bytes with another one at a place; for a digit another digit, as that is the hardest to see."""
    old = data[place:place + 1]
    new = str((int(old) + 1) % 10).encode() if old.isdigit() else bytes([old[0] ^ rng.randrange(1, 256)])
    return data[:place] + new + data[place + 1:]


def places(data):
    return sorted({0, len(data) // 2, len(data) - 1})


class Report:
    """A report and copies of its sources, in a folder of their own."""

    def __init__(self, work):
        self.folder = os.path.join(work, "report")
        self.sources = []
        os.mkdir(os.path.join(work, "sources"))
        for path in CASE.paths:
            self.sources.append(shutil.copy(path, os.path.join(work, "sources")))
        self.run = runs.forked("report", *self.sources, "-o", self.folder, *CASE.options)
        self.files = runs.files_in(self.folder)

    def put(self, name, data):
        with open(os.path.join(self.folder, name), "wb") as file:
            file.write(data)

    def verified(self):
        return runs.forked("verify", self.folder, *self.sources)

    def sums_agree(self):
        """Whether sha256sum finds the folder's files as SHA256SUMS has them."""
        done = subprocess.run(["sha256sum", "-c", "--strict", "--ignore-missing", "--status", SUMS], cwd=self.folder,
                              capture_output=True)
        return done.returncode == 0


def missed(run, name):
    """Nothing, or a run that did not find the change in what has this name."""
    good = run.status == 1 and not run.errors and any(line.startswith(f"{name}: ") for line in run.out.splitlines())
    return "" if good else str(run)


def unchanged(report):
    run = report.verified()
    words = f"{report.folder}: as made from {', '.join(CASE.files)}: {len(report.files)} files\n"
    return folders.same(run, runs.Run(0, words, "")) or ("" if report.sums_agree() else "sha256sum finds a difference")


def byte_checks(report, rng):
    """A byte of a file of the folder."""
    chosen = [(name, place) for name, data in report.files.items() for place in places(data)]
    every = [(name, len(data)) for name, data in sorted(report.files.items())]
    for _ in range(RANDOM_PLACES):
        place = rng.randrange(sum(length for _, length in every))
        for name, length in every:
            if place < length:
                chosen.append((name, place))
                break
            place -= length
    for name, place in chosen:
        report.put(name, changed(report.files[name], place, rng))
        run, agree = report.verified(), report.sums_agree()
        report.put(name, report.files[name])
        unseen = "sha256sum finds nothing" if agree and name != SUMS else ""
        yield f"{name}: byte {place}", missed_anywhere(run, name) or unseen


def missed_anywhere(run, name):
    """As `missed`. A change in settings.tsv or SHA256SUMS may be told of another file, which is then made otherwise."""
    if name not in ("settings.tsv", SUMS):
        return missed(run, name)
    return "" if run.status == 1 and not run.errors and run.out else str(run)


def source_checks(report, rng):
    """A byte of a source: it may be refused then, or have the same trees; both are told."""
    for number, path in enumerate(report.sources, 1):
        with open(path, "rb") as file:
            data = file.read()
        chosen = places(data) + [rng.randrange(len(data)) for _ in range(RANDOM_SOURCE_PLACES)]
        for place in chosen:
            with open(path, "wb") as file:
                file.write(changed(data, place, rng))
            run = report.verified()
            refused = run.status == 1 and not run.out and run.errors.startswith(f"norbelath: {path}")
            name = f"sources/{number}/{os.path.basename(path)}"
            yield f"{name}: byte {place}", "" if refused else missed(run, name)
        with open(path, "wb") as file:
            file.write(data)


def file_checks(report):
    """Files taken away and added, and one that is put elsewhere."""
    for name, data in report.files.items():
        path = os.path.join(report.folder, name)
        os.remove(path)
        yield f"{name}: taken away", missed(report.verified(), name)
        os.symlink("names.tsv", path)
        yield f"{name}: a link", missed(report.verified(), name)
        os.remove(path)
        report.put(name, data)
    for name in ("more.txt", ".hidden", "trees/003.svg", "trees/more", "SHA256SUMS~"):
        report.put(name, b"")
        yield f"{name}: added", missed(report.verified(), name)
        os.remove(os.path.join(report.folder, name))
    os.mkdir(os.path.join(report.folder, "more"))
    yield "a folder: added", missed(report.verified(), "more/")
    os.rmdir(os.path.join(report.folder, "more"))
    for name, data in report.files.items():
        for words, other in (("cut off", data[:-1]), ("longer", data + b"\n"), ("empty", b"")):
            report.put(name, other)
            yield f"{name}: {words}", missed_anywhere(report.verified(), name)
        report.put(name, data)


def settings_checks(report):
    """A burn-in that leaves the same trees: only SHA256SUMS tells."""
    settings = report.files["settings.tsv"]
    other = settings.replace(b"\t20%\n", b"\t21%\n")
    report.put("settings.tsv", other)
    told = other != settings and report.verified().status == 1
    yield "settings.tsv: another burn-in of as many trees", "" if told else "not found"
    burn_in, top = b"burn-in\t20%\n", b"top\t3\n"
    for text in (b"burn-in\t-1\n" + top, burn_in + b"top\t161\n", top, burn_in, b"", bytes(range(256))):
        report.put("settings.tsv", text)
        yield f"settings.tsv: only {text[:40]}", missed(report.verified(), "settings.tsv")
    report.put("settings.tsv", settings)


def place_checks(report, work):
    """The report under another name, the sources elsewhere, the command run in another folder."""
    elsewhere = os.path.join(work, "else where")
    shutil.copytree(report.folder, os.path.join(elsewhere, "another name"))
    shutil.copytree(os.path.dirname(report.sources[0]), os.path.join(elsewhere, "in"))
    names = [os.path.join("in", os.path.basename(path)) for path in report.sources]
    run = runs.command("verify", "another name", *names, folder=elsewhere)
    words = f"another name: as made from {', '.join(CASE.files)}: {len(report.files)} files\n"
    yield "elsewhere", folders.same(run, runs.Run(0, words, ""))
    again = runs.command("report", *names, "-o", "again", *CASE.options, folder=elsewhere)
    same = runs.files_in(os.path.join(elsewhere, "again")) == report.files
    yield "made elsewhere", "" if same else f"other bytes: {again}"
    swapped = runs.forked("verify", report.folder, *reversed(report.sources))
    yield "sources in another order", missed(swapped, f"sources/1/{CASE.files[1]}")
    yield "a source not given", missed(runs.forked("verify", report.folder, report.sources[0]), f"sources/2/{CASE.files[1]}")
    no_folder = runs.forked("verify", os.path.join(work, "none"), *report.sources)
    yield "no folder", "" if no_folder.status == 2 and not no_folder.out and no_folder.errors else str(no_folder)


def program_checks(report, work):
    """Other programs that make the same report. A byte behind the library's end is never looked at in its calls."""
    library = shutil.copy(os.environ["NORBELATH_LIBRARY"], os.path.join(work, "libnorbelath.so"))
    with open(library, "ab") as file:
        file.write(b"\0")
    yield "the library", only_program(report, "programs/libnorbelath.so.1", {"NORBELATH_LIBRARY": library})
    package, module = os.environ["PYTHONPATH"].split(os.pathsep)
    copies = os.path.join(work, "copies")
    shutil.copytree(os.path.join(package, "norbelath_report"), os.path.join(copies, "norbelath_report"),
                    ignore=shutil.ignore_patterns("__pycache__"))
    shutil.copy(os.path.join(module, "norbelath.py"), copies)
    paths = {"PYTHONPATH": copies}
    same = runs.command("verify", report.folder, *report.sources, environment=paths)
    yield "programs elsewhere", "" if same.status == 0 else str(same)
    for name in ("norbelath.py", "norbelath_report/reading.py", "norbelath_report/page.py"):
        path = os.path.join(copies, name)
        with open(path, "rb") as file:
            data = file.read()
        with open(path, "wb") as file:
            file.write(data + b"\n")
        yield name, only_program(report, f"programs/{name}", paths)
        with open(path, "wb") as file:
            file.write(data)


def only_program(report, name, environment):
    run = runs.command("verify", report.folder, *report.sources, environment=environment)
    words = f"{name}: not the one that made the report; everything else is the same\n"
    return folders.same(run, runs.Run(1, words, ""))


def checks():
    rng = random.Random(28)
    with tempfile.TemporaryDirectory() as work:
        report = Report(work)
        yield "made", "" if report.run.status == 0 and not report.run.errors else str(report.run)
        yield "unchanged", unchanged(report)
        yield from byte_checks(report, rng)
        yield from source_checks(report, rng)
        yield from file_checks(report)
        yield from settings_checks(report)
        yield "put back", unchanged(report)
        yield from place_checks(report, work)
        yield from program_checks(report, work)
