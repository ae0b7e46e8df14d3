"""What the report refuses, in which words, with which status, and that nothing is left behind; and what it warns of.

Each case is run in a folder that holds its files. Words that end in `*` are those that ours begin with, where DendroPy's or
the system's follow.
"""
import os
import subprocess
import sys
import tempfile

import runs

ROOTED = "((1,2),3);\n"
MARKED = "[&R]((1,2),3);\n"
UNROOTED = "[&U](1,2,(3,4));\n"


def nexus(*commands, block="trees"):
    """A NEXUS file with these commands in a block; the first is on line 3."""
    return "#NEXUS\nbegin " + block + ";\n" + "".join(command + "\n" for command in commands) + "end;\n"


def table(*rows):
    """A RevBayes table; the first row is line 2."""
    return "Iteration\tPosterior\tpsi\n" + "".join(row + "\n" for row in rows)


def comb(count):
    """A tree of as many taxa, with one bracket less."""
    return "(" * (count - 1) + "t1" + "".join(f",t{number})" for number in range(2, count + 1)) + ";\n"


# A file, or several: what is said of them.
FILES = [
    # no trees
    ("", "a.t: there are no trees"),
    (" \n\n", "a.t: there are no trees"),
    ("[a comment]\n", "a.t: there are no trees"),
    ("#NEXUS\n", "a.t: there are no trees"),
    (nexus(), "a.t: there are no trees"),
    (nexus("translate 1 a, 2 b;"), "a.t: there are no trees"),
    (table(), "a.t: there are no trees"),
    ("((1,2),3", "a.t:1: there are no trees; the only one is cut off, without a ; at its end"),
    ("#NEXUS\nbegin trees;\ntree a = ((1,2", "a.t:3: there are no trees; the only one is cut off, without a ; at its end"),
    # what is not closed, and not on the last line
    ("((1,2),3);\n((1,[2),3);\n((1,2),3);\n", "a.t:2: a comment that is opened here is not closed"),
    ("((1,2),3);\n((1,'2),3);\n((1,2),3);\n", "a.t:2: a quoted name that begins here is not closed"),
    (nexus("tree a = ((1,2),3)\ntree b = ((1,2),3)"), "a.t:3: = cannot stand in a tree outside quotes"),
    ("((1,2),3);\n((1,2),3)\n((1,3),2)\n", "a.t:2: what begins here has no ; at its end"),
    # text that is no tree
    ("hello\n", "a.t: there are no trees"),
    ("((1,2),3);\nhello world;\n", "a.t:2: *"),
    ("((1,2),3);\n((1,2),3;\n", "a.t:2: this is no tree: *"),
    ("((1,2),3);\n((1,2),3));\n", "a.t:2: this is no tree: *"),
    ("((1,2),3);\n;\n", "a.t:2: there is no tree before this ;"),
    ("((1,2),3);\n((1,),3);\n", "a.t:2: this tree has a leaf without a name"),
    ("((1,2),3);\n(,(1,2));\n", "a.t:2: this tree has a leaf without a name"),
    ("((1,2),3);\n((1:,2),3);\n", "a.t:2: there is no length behind a colon"),
    ("((1,2),3);\n((1:1:2,2),3);\n", "a.t:2: a node has two lengths"),
    ("((1,2),3);\n((1,2),3)((1,3),2);\n", "a.t:2: this is no tree: *"),
    ("((1,2),3);\n((1,2),3) x y;\n", "a.t:2: this is no tree: *"),
    ("((1,2),3);\n((1 4,2),3);\n", "a.t:2: this is no tree: *"),
    ("((1,2),3);\n((1,2)a(4,5),3);\n", "a.t:2: this is no tree: *"),
    ("((1,2),3);\n((1,2):1 2,3);\n", "a.t:2: there is something behind a length"),
    ("((1:0.5 4,2),3);\n", "a.t:1: there is something behind a length"),
    ("((1,2):0.5 4,3);\n", "a.t:1: there is something behind a length"),
    ("((1,2),3);\n((1,2),3):;\n", "a.t:2: there is no length behind a colon"),
    ("((1,2),3);\n((1,{2}),3);\n", "a.t:2: { cannot stand in a tree outside quotes"),
    ("((1,2),3);\n((1,2]),3);\n", "a.t:2: ] cannot stand in a tree outside quotes"),
    ("((1,2),3);\n((1,','),3);\n", "a.t:2: ',' cannot be read as a name"),
    # NEXUS
    ("#NEXUS\nbegin taxa;\ndimensions ntax=3\ntaxlabels a b c;\nend;\nbegin trees;\ntree a = ((1,2),3);\nend;\n",
     "a.t:3: there is no ; between this command and the list of taxa"),
    ("#NEXUS\nbegin trees\ntree a = ((1,2),3);\ntree b = ((1,3),2);\nend;\n",
     "a.t:2: BEGIN has to be followed by the name of a block and a ;"),
    (nexus("title x\ntree a = ((1,2),3);", "tree b = ((1,3),2);"),
     "a.t:3: there is no ; between this command and a tree"),
    (nexus("link taxa = x\ntree a = ((1,2),3);", "tree b = ((1,3),2);"),
     "a.t:3: there is no ; between this command and a tree"),
    ("#NEXUS\nbegin trees;\ntree a = ((1,2),3);\nend\ntree b = ((1,3),2);\n",
     "a.t:4: there is no ; behind the end of this block"),
    (nexus("tree ((1,2),3);"), "a.t:3: a tree is written: TREE, its name, = and the tree"),
    (nexus("tree a = ((1,2),3);", "tee b = ((1,3),2);"), "a.t:4: 'TEE' is not a command of a TREES block"),
    ("#NEXUS\ntree a = ((1,2),3);\n", "a.t:2: this command is in no block"),
    ("#NEXUS\nbegin trees;\nbegin trees;\ntree a = (1,2);\nend;\n", "a.t:3: a block begins before the one above has ended"),
    (nexus("tree a = ((1,2),3);", block="paup"), "a.t:3: this tree is not in a TREES block"),
    (nexus("tree a = ((1,2),3);", "translate 1 a, 2 b, 3 c;"),
     "a.t:4: TRANSLATE has to stand once, before the trees of its block"),
    (nexus("translate 1 a, 2 b c, 3 d;", "tree a = ((1,2),3);"),
     "a.t:3: TRANSLATE has to give a token and a name for each taxon, with commas between them"),
    (nexus("translate 1 a, 1 b, 3 c;", "tree a = ((1,2),3);"), "a.t:3: '1' is listed twice"),
    (nexus("translate 1 a, 2 A, 3 c;", "tree a = ((1,2),3);"), "a.t:4: the taxon *"),
    (nexus("dimensions ntax=2;", "taxlabels a b a;", block="taxa"), "a.t:4: 'a' is listed twice"),
    (nexus("tree a = [&R] ((1,2),3);", "tree b = [&R][&U] ((1,2),3);"), "a.t:4: this tree is marked both [&R] and [&U]"),
    (nexus("taxlabels a b;", "taxlabels c d;", block="taxa"), "a.t:4: this file has a second list of taxa"),
    (nexus("taxlabels a, b;", block="taxa"), "a.t:3: a list of taxa has to give names with blanks between them"),
    # names
    ("((1,2),'');\n", "a.t:1: a quoted name is empty"),
    ("(a,'b\tc');\n", "a.t:1: the name 'b\\tc' has a tab, a line end or another control character"),
    ("(a,'b\nc');\n", "a.t:1: the name 'b\\nc' has a tab, a line end or another control character"),
    (nexus("translate 1 a, 2 'b\tc';", "tree a = (1,2);"),
     "a.t:3: the name 'b\\tc' has a tab, a line end or another control character"),
    # taxa
    (comb(65), "a.t:1: this tree has 65 taxa; at most 64 are possible"),
    (comb(3) + comb(65), "a.t:2: this tree has 65 taxa; at most 64 are possible"),
    ("((1,2),1);\n", "a.t:1: the taxon '1' is twice in this tree"),
    ("((a,b),A);\n", "a.t:1: the taxon *"),
    ("((1,2),3);\n((1,2),4);\n", "a.t:2: this tree has '4', which the first tree has not"),
    ("((1,2),3);\n(1,2);\n", "a.t:2: this tree has no '3', which the first tree has"),
    ("((1,2),3);\n((1,2),(3,4));\n", "a.t:2: this tree has '4', which the first tree has not"),
    ({"a.t": ROOTED, "b.t": "((1,2),Pan);\n"}, "b.t:1: this tree has 'Pan', which the first tree has not"),
    ({"a.t": nexus("translate 1 a, 2 b, 3 c;", "tree x = ((1,2),3);"), "b.t": ROOTED},
     "b.t:1: this tree has '1', which the first tree has not"),
    ({"a.t": nexus("translate 1 a, 2 b;", "tree x = (1,2);"), "b.t": nexus("translate 1 a, 2 d;", "tree x = (1,2);")},
     "b.t:4: this tree has 'd', which the first tree has not"),
    # kinds
    (ROOTED + "[&U](1,2,3);\n", "a.t:2: this tree is unrooted, and the first tree is rooted"),
    (UNROOTED + "((1,2),(3,4));\n", "a.t:2: this tree is rooted, and the first tree is unrooted"),
    ({"a.t": ROOTED, "b.t": nexus("utree x = (1,2,3);")}, "b.t:3: this tree is unrooted, and the first tree is rooted"),
    ("[&U]((1,2),3);\n",
     "a.t:1: this tree is marked as unrooted and has 2 children at the top; which is meant the file does not say"),
    (nexus("utree x = ((1,2),3);"),
     "a.t:3: this tree is marked as unrooted and has 2 children at the top; which is meant the file does not say"),
    ("[&R](1,2,3);\n",
     "a.t:1: this tree is marked as rooted and has 3 children at the top; which is meant the file does not say"),
    # children
    (ROOTED + "((1,2,4),3);\n", "a.t:2: this tree has 3 children at a node below the top; trees have to be binary"),
    (ROOTED + "((1),(2,3));\n", "a.t:2: this tree has 1 child at a node below the top; trees have to be binary"),
    (ROOTED + "(((1,2),3));\n", "a.t:2: this tree has 1 child at the top; trees have to be binary"),
    (ROOTED + "(1,2,3,4);\n", "a.t:2: this tree has 4 children at the top; trees have to be binary"),
    ("[&U](1,(2,3,4),5);\n", "a.t:1: this tree has 3 children at a node below the top; trees have to be binary"),
    ("(" * 70 + "1" + ")" * 70 + ";\n", "a.t:1: this tree has more than 63 brackets; trees have to be binary"),
    # tables
    (table("0\t-1\t((1,2),3);", "10\t-1\tx", "20\t-1\t((1,2),3);"), "a.t:3: this row has no tree"),
    (table("0\t-1\t((1,2),3);", "10\t((1,2),3);", "20\t-1\t((1,2),3);"),
     "a.t:3: this row has 2 columns, and the header has 3"),
    ("Iteration\tpsi\tphi\n0\t((1,2),3);\t((1,3),2);\n", "a.t:2: this row has more than one tree"),
    (table("0\t-1\t((1,2),3);", "10\t-1\t((1,2),3);((1,2),3);", "20\t-1\t((1,2),3);"),
     "a.t:3: this row has more than one tree"),
    (table("0\t-1\t((1,2),3);", "10\t-1\t((1,2),3;", "20\t-1\t((1,2),3);"),
     "a.t:3: the tree in this row is not whole"),
    # bytes
    (b"((1,2),3);\n((1,\xff2),3);\n", "a.t:2: these bytes are not UTF-8"),
    (bytes(range(256)), "a.t:3: these bytes are not UTF-8"),
    (b"\x7fELF\x02\x01\x01" + bytes(200) + b"\xf0\x80", "a.t:1: these bytes are not UTF-8"),
    (b"\x1f\x8b\x08\x00\x00", "a.t:1: these bytes are not UTF-8"),
    ("((1,2),3);\n".encode("utf-16"), "a.t:1: these bytes are not UTF-8"),
    (bytes(100), "a.t: there are no trees"),
]

CUT_OFF = "a.t:{}: the last tree is cut off and is left out"
UNMARKED = "{} not marked [&R] or [&U] and taken as {}, as {} at the top"
# A file whose trees are taken: how many these are, and the warnings.
WARNED = [
    (MARKED, 1, []),
    (MARKED.rstrip(), 1, []),
    (UNROOTED * 2, 2, []),
    (ROOTED, 1, [UNMARKED.format("1 tree is", "rooted", "it has two children")]),
    (ROOTED * 2 + MARKED, 3, [UNMARKED.format("2 trees are", "rooted", "they have two children")]),
    ("(1,2,3);\n" * 2, 2, [UNMARKED.format("2 trees are", "unrooted", "they have three children")]),
    (nexus("utree x = (1,2,3);"), 1, []),
    (nexus("tree x = [&r] ((1,2),3);", "tree y = [&R] ((1,3),2);"), 2, []),
    ("#NEXUS\nbegin trees;\ntree x = [&R] ((1,2),3);\n", 1, []),
    ("#NEXUS\nbegin trees;\ntree x = [&R] ((1,2),3);\nend", 1, []),
    (MARKED + "[&R]((1,3),2)", 1, [CUT_OFF.format(2)]),
    (MARKED + "[&R]((1,3", 1, [CUT_OFF.format(2)]),
    (MARKED + "[&R]((1,'3", 1, [CUT_OFF.format(2)]),
    (MARKED + "[&R]((1[&rate=0.", 1, [CUT_OFF.format(2)]),
    (MARKED + "[&R", 1, [CUT_OFF.format(2)]),
    (MARKED.replace("\n", "\r\n") + "[&R]((1,3\r\n\r\n", 1, [CUT_OFF.format(2)]),
    *(("#NEXUS\nbegin trees;\n\ttree x = [&R] ((1,2),3);\n" + "\ttree y = [&R] ((1[&rate=0.5]:0.1,'3'):1,2)"[:length],
       1, [CUT_OFF.format(4)])
      for length in (6, 8, 10, 12, 15, 17, 20, 27, 34, 36, 37, 40, 43)),
    *((table("0\t-1.5\t((1,2),3);") + "10\t-1.5\t((1[&index=1]:0.5,3):1,2)"[:length], 1,
       [CUT_OFF.format(3), UNMARKED.format("1 tree is", "rooted", "it has two children")])
      for length in (1, 3, 5, 8, 9, 15, 25, 30)),
    ({"a.t": MARKED + "[&R]((1,3", "b.t": MARKED}, 2, [CUT_OFF.format(2)]),
]

GOOD = {"a.t": ROOTED * 3}
# The arguments of a run in a folder with GOOD and what more is named: its status and what is said.
ASKED = [
    (["a.t", "missing.t", "-o", "out"], 1, "missing.t: cannot be read: No such file or directory"),
    (["a.t", "inner", "-o", "out"], 1, "inner: cannot be read: Is a directory"),
    (["a.t/b.t", "-o", "out"], 1, "a.t/b.t: cannot be read: Not a directory"),
    (["/proc/self/mem", "-o", "out"], 1, "/proc/self/mem: cannot be read: Input/output error"),
    (["a.t", "a.t", "-o", "out"], 1, "a.t: this file is given twice"),
    (["a.t", "./a.t", "-o", "out"], 1, "./a.t: this file is given twice"),
    (["a.t", "link.t", "-o", "out"], 1, "link.t: this file is given twice"),
    (["back\\slash.t", "-o", "out"], 1,
     "back\\slash.t: the file's name has a backslash, a control character or a byte that is not UTF-8; give it another name"),
    (["a.t", "-o", "out", "--burn-in", "3"], 1, "a.t: a burn-in of 3 leaves none of the 3 trees of file 1"),
    (["a.t", "-o", "inner"], 2, "inner: is not empty; nothing in it is overwritten"),
    (["a.t", "-o", "a.t"], 2, "a.t: is not a folder"),
    (["a.t", "-o", "a.t/out"], 2, "a.t/out: the folder that it is to stand in does not exist"),
    (["a.t", "-o", "nowhere/out"], 2, "nowhere/out: the folder that it is to stand in does not exist"),
    (["a.t", "-o", "."], 2, ".: is not empty; nothing in it is overwritten"),
    (["a.t", "-o", "/proc/out"], 2, "/proc/out: cannot be written: *"),
]
# Wrong usage is told by argparse, behind a line that says how the command is used.
USAGE = [
    (["report", "a.t"], "the following arguments are required: -o"),
    (["report", "-o", "out"], "the following arguments are required: FILE"),
    (["report", "a.t", "-o", "out", "--top", "0"], "argument --top: a table has 1 to 160 trees, not '0'"),
    (["report", "a.t", "-o", "out", "--top", "161"], "argument --top: a table has 1 to 160 trees, not '161'"),
    (["report", "a.t", "-o", "out", "--top", "x"], "argument --top: a table has 1 to 160 trees, not 'x'"),
    (["report", "a.t", "-o", "out", "--burn-in", "100%"],
     "argument --burn-in: a burn-in is a number of trees or a percentage below 100, not '100%'"),
    (["report", "a.t", "-o", "out", "--burn-in", "2.5"],
     "argument --burn-in: a burn-in is a number of trees or a percentage below 100, not '2.5'"),
    (["verify", "out"], "the following arguments are required: FILE"),
    ([], "the following arguments are required: COMMAND"),
]


def said(words, wanted):
    """Whether a line says what is wanted."""
    return words.startswith(wanted[:-1]) if wanted.endswith("*") else words == wanted + "\n"


def put(folder, files):
    for name, content in files.items():
        with open(os.path.join(folder, name), "wb") as file:
            file.write(content if isinstance(content, bytes) else content.encode())


def names_below(folder):
    return sorted(os.path.join(place, name) for place, folders, names in os.walk(folder) for name in folders + names)


def refused(run, folder, arguments, status, wanted, prefix="norbelath: "):
    """Nothing, or how a run differs from a refusal that leaves nothing behind."""
    before = names_below(folder)
    done = run(*arguments, folder=folder)
    lines = done.errors.count("\n")
    if done.status != status or done.out or not said(done.errors, prefix + wanted) or lines != 1:
        return f"{done}, not {status} and {wanted!r}"
    return "" if names_below(folder) == before else "something is left behind"


def file_checks():
    for number, (files, wanted) in enumerate(FILES):
        files = files if isinstance(files, dict) else {"a.t": files}
        # Each eighth in a process of its own.
        run = runs.command if number % 8 == 0 else runs.forked
        with tempfile.TemporaryDirectory() as folder:
            put(folder, files)
            yield f"file {number} {wanted}", refused(run, folder, ["report", *files, "-o", "out"], 1, wanted)


def warning_checks():
    for number, (files, trees, warnings) in enumerate(WARNED):
        files = files if isinstance(files, dict) else {"a.t": files}
        with tempfile.TemporaryDirectory() as folder:
            put(folder, files)
            done = runs.forked("report", *files, "-o", "out", folder=folder)
            errors = "".join(f"norbelath: warning: {warning}\n" for warning in warnings)
            made = runs.files_in(os.path.join(folder, "out"))
            good = done.status == 0 and done.errors == errors and made["sample.tsv"].count(b"\n") == trees + 1
            shown = all(f"warning\t{warning}\n".encode() in made["settings.tsv"] for warning in warnings) if good else False
            yield f"warning {number} {files}", "" if shown else f"{done}, not {trees} trees and {warnings}"


def asked_checks():
    with tempfile.TemporaryDirectory() as folder:
        os.mkdir(os.path.join(folder, "inner"))
        put(folder, {**GOOD, "inner/kept": "kept"})
        os.symlink("a.t", os.path.join(folder, "link.t"))
        for arguments, status, wanted in ASKED:
            yield " ".join(arguments), refused(runs.forked, folder, ["report", *arguments], status, wanted)
        for arguments, wanted in USAGE:
            done = runs.forked(*arguments, folder=folder)
            good = done.status == 2 and not done.out and done.errors.endswith(f": error: {wanted}\n")
            yield f"usage: {' '.join(arguments)}", "" if good else str(done)
        yield "an unreadable file", unreadable(folder)
        yield "files that may not grow", limited(folder)
        yield "a full disk", full_disk(folder)
        yield "standard output that is full", full_output(folder)
        yield "files are as they were", "" if runs.files_in(folder)["inner/kept"] == b"kept" else "inner/kept was changed"


def unreadable(folder):
    """A file without permission to read. To root every file is readable."""
    path = os.path.join(folder, "secret.t")
    put(folder, {"secret.t": ROOTED})
    os.chmod(path, 0)
    try:
        if os.access(path, os.R_OK):
            print("report: refusals: an unreadable file: not tried, as root reads every file", flush=True)
            return ""
        wanted = "secret.t: cannot be read: Permission denied"
        return refused(runs.forked, folder, ["report", "secret.t", "-o", "out"], 1, wanted)
    finally:
        os.remove(path)


def python_in(folder, script, *arguments):
    """A run of the command by a shell script, in which `$@` is the command."""
    done = subprocess.run(["sh", "-c", script, "sh", sys.executable, "-m", "norbelath_report", *arguments],
                          cwd=folder, stdin=subprocess.DEVNULL, capture_output=True, encoding="utf-8")
    return runs.Run(done.returncode, done.stdout, done.stderr)


def limited(folder):
    """No file may have more than a block of 512 bytes."""
    def run(*arguments, folder):
        return python_in(folder, 'ulimit -f 1 && exec "$@"', *arguments)
    return refused(run, folder, ["report", "a.t", "-o", "out"], 2, "out: cannot be written: File too large")


def full_disk(folder):
    """A disk of 16 KB, in a name space of its own, where the system allows that."""
    small = os.path.join(folder, "small")
    os.mkdir(small)
    mounted = "mount -t tmpfs -o size=16k none small"
    unshare = ["unshare", "--user", "--map-root-user", "--mount"] if os.getuid() else ["unshare", "--mount"]
    quoted = " ".join(unshare)
    try:
        if subprocess.run([*unshare, "sh", "-c", mounted], cwd=folder, capture_output=True).returncode:
            print("report: refusals: a full disk: not tried, as no small disk can be made here", flush=True)
            return ""

        def run(*arguments, folder):
            script = f'{quoted} sh -c \'{mounted} && "$@"; status=$?; ls -A small >&2; exit $status\' sh "$@"'
            return python_in(folder, script, *arguments)
        return refused(run, folder, ["report", "a.t", "-o", "small/out"], 2,
                       "small/out: cannot be written: No space left on device")
    finally:
        os.rmdir(small)


def full_output(folder):
    """A report is whole on the disk before standard output is told of it."""
    done = python_in(folder, '"$@" >/dev/full', "report", "a.t", "-o", "out")
    with_sums = os.path.exists(os.path.join(folder, "out", "SHA256SUMS"))
    words = "norbelath: standard output: cannot be written: No space left on device\n"
    good = done.status == 2 and done.errors.endswith(words) and with_sums
    return "" if good else f"{done}, SHA256SUMS there: {with_sums}"


def checks():
    yield from file_checks()
    yield from warning_checks()
    yield from asked_checks()
