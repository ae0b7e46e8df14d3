#!/usr/bin/env python3
"""Compare a pair lister with reference.py on generated cases.

    compare.py PROGRAM [--interchanges | --graphs | --support | --rows | --bound | --plots
               | --index | --islands] [--seed S] [--count N]

PROGRAM is the path of an executable that reads a table of trees from standard
input and writes the sheet to standard output; with --interchanges it is the
program of interchanges.c, and the sheet is that of the interchange call; with
--graphs that of graphs.c, and the sheet is that of both graph calls; with
--support that of supports.c, and the sheet is that of the support call; with
--rows that of rows.c, which makes many calls in one run, and the sheet has a line
for each; with --bound that of bounds.c, which does so too, and the sheet is that of
bound.py, with the number of forests that each pair test compared; with --plots that
of plots.c, which does so too, and the sheet is that of plots.py; with --index that of
index.c, which does so on one memory, and the sheet is that of index.py; with
--islands it is the program of islands, and the sheet has a line for each.  It is run
once for each case of generate.py, or with --rows of generate_rows.py, with --bound of
generate_bound.py, with --plots of generate_plots.py, or with --index of
generate_index.py, and its output must be the reference's sheet, byte for byte.  With
--bound each number must also be what a pair test can give: at most 2n - 2 for trees of
n leaves, and 1 or more where they are rooted and one move apart.  A program that is
ended by a signal, or runs longer than the time limit for one case, counts as a
mismatch.  Its exit status and standard error are shown with a mismatch but not judged,
since document 01 says nothing about them.  Only where the sheet is empty, which that
of islands is for a table without trees, the status has to be 0 and standard error
empty too: a program that could not read its input leaves its output empty as well.

The exit status is 1 if there was a mismatch, or if one of the refusal numbers
1, 2, 3, 4, 5, 6, 8 and 10, with --rows and --bound 1, 2, 3, 4, 5, 8, 10 and 11, with
--plots 1, 2, 3, 4, 7, 8 and 10, with --index 1 to 8, 10, 12 and 13, never came up, or
if there were too few tables, or calls, of a sort that the program can go wrong on, so
that the comparison says less than it seems to; otherwise 0.  A case can be looked at
again by writing the same cases to files: `generate.py S N OUTDIR`, with --rooted for
the program of interchanges and with --support for that of support; `generate_rows.py
S N OUTDIR` for that of rows, `generate_bound.py S N OUTDIR` for that of bounds,
`generate_plots.py S N OUTDIR` for that of plots, `generate_index.py S N OUTDIR` for
that of the index.
"""

import argparse
import ast
import itertools
import os
import subprocess
import sys
from typing import Callable, NamedTuple

import bound
import generate
import generate_bound
import generate_index
import generate_plots
import generate_rows
import index
import index_sorts
import plot_sorts
import plots
import reference

DEFAULT_COUNT = 5000
REFUSALS_OF_THE_LISTER = (1, 2, 3, 4, 5, 6, 8, 10)
REFUSALS_OF_ROWS = (1, 2, 3, 4, 5, 8, 10, 11)
REFUSALS_OF_PLOTS = (1, 2, 3, 4, 7, 8, 10)
REFUSALS_OF_THE_INDEX = (1, 2, 3, 4, 5, 6, 7, 8, 10, 12, 13)
MISMATCHES_SHOWN = 5
BYTES_SHOWN = 700
SECONDS_PER_CASE = 60

# The sorts of tables that the comparison in the support call needs, and how many
# of each in two thousand cases: about half of what the generator makes.  One is
# needed among however few cases.
SUPPORT_FLOORS = {
    "no trees": 10,
    "one leaf": 25,
    "copies only": 75,
    "copies beside others": 330,
    # 160 trees of 64 leaves; they have 9,921 clades at most.
    "full": 15,
    "full of copies": 1,
    "full of halves": 1,
    "9,921 clades": 1,
    # Not full: 300 clades or more.
    "many clades": 10,
    # A clade in exactly half of more than two trees, of 20 or more; in half a
    # tree or one tree more than half, and not in all.
    "half": 120,
    "half of many": 20,
    "just above half": 200,
    # A clade in as many trees as the next, which has the smaller number, or
    # fewer labels, or the same labels and behind them others.
    "tie against numbers": 450,
    "tie against sizes": 450,
    "tie by the end": 350,
    # The majority tree: with three or more children at a fork, at one below the
    # root, at the only one, at none though topologies differ; with children
    # that would stand in another order by digits; of the longest text.
    "wide": 350,
    "wide below the root": 100,
    "star": 150,
    "binary": 150,
    "against digits": 250,
    "309 bytes": 10,
}

# The same for the programs that take trees of both kinds: a third of what the
# generator makes, or up to half.
KIND_FLOORS = {
    # Rooted trees, some of them with their mark.
    "marked": 20,
    # Unrooted trees; of one leaf, of two, of the longest text.
    "unrooted": 170,
    "unrooted of one leaf": 10,
    "unrooted of two leaves": 10,
    "unrooted of 311 bytes": 3,
    # With neighbours; with several topologies and no neighbours; with copies only;
    # with copies and others.
    "unrooted with pairs": 90,
    "unrooted without pairs": 15,
    "unrooted copies only": 35,
    "unrooted copies beside others": 40,
    # 160 trees; these with neighbours.
    "unrooted and full": 7,
    "unrooted and full with pairs": 3,
}

# The same for calls of the program of rows, of which a case has many: less than
# half of what the generator makes.  What makes numbers the row of no tree is one
# thing only, or it is "several".
ROW_FLOORS = {
    # Text to row: of one leaf, of two, of the most.
    "row of one leaf": 150,
    "row of two leaves": 150,
    "row of 64 leaves": 110,
    # Row to text: the same, and of the longest text.
    "text of one leaf": 350,
    "text of two leaves": 300,
    "text of 64 leaves": 200,
    "text of 309 bytes": 200,
    # No row: nothing; more numbers than labels, whatever else is wrong, since then
    # something is; fewer; out of order; the same twice; a set of one label or none;
    # a label that is not in the label set; neither nested nor disjoint.
    "empty": 180,
    "too few": 900,
    "too many": 4000,
    "out of order": 600,
    "twice": 600,
    "small": 700,
    "foreign": 250,
    "crossing": 2400,
    "several": 3300,
    # The same of 33 labels or more.
    "large, too few": 400,
    "large, too many": 1400,
    "large, out of order": 300,
    "large, twice": 280,
    "large, small": 280,
    "large, foreign": 50,
    "large, crossing": 1600,
    "large, several": 2000,
    # Pairs: one move apart, of many leaves; not; of equal rows.
    "yes": 1000,
    "large, yes": 15,
    "no": 450,
    "large, no": 15,
    "equal": 900,
    # Only row 0 is refused, only row 1, or both would be; row 1 is refused though
    # its label set is another; label sets differ, or only by one label for another.
    "row 0": 500,
    "row 1": 400,
    "both rows": 300,
    "row 1 of other labels": 450,
    "other labels": 800,
    "as many other labels": 200,
}

# The same for the pair tests of the program of bounds: less than half of what the
# generator makes.
BOUND_FLOORS = {
    # Accepted: as texts and as rows, of equal topology, and unrooted.
    "texts, yes": 7000,
    "texts, no": 3000,
    "rows, yes": 7000,
    "rows, no": 3000,
    "equal texts": 600,
    "equal rows": 700,
    "unrooted, yes": 300,
    "unrooted, no": 500,
    # Refused, whatever the number.
    "refused texts": 3500,
    "refused rows": 2000,
    # Yes: by the number; 2n - 4 is the largest that was met.
    "yes, 1": 3000,
    "yes, 2 to 4": 3500,
    "yes, 5 to 19": 4000,
    "yes, 20 or more": 1900,
    "yes, 100 or more": 80,
    "yes, as many as leaves or more": 4000,
    "yes, 2n - 4": 500,
    # Yes: all cuts gone through; a further shared forest behind the first; some of the
    # cuts that were gone through count nothing, or several of them and all count; some
    # that would count are not gone through.
    "yes at the last cut": 1000,
    "yes, several forests shared": 5000,
    "yes after cuts that count nothing": 11000,
    "yes after no such cut": 1000,
    "yes, clades left over": 13000,
    # The trees exchanged.
    "another number in the other order": 6000,
    # No: without and with a fork of the same clade.
    "no, leaves only": 3000,
    "no, forks too": 3000,
    "no, 100 or more": 170,
    # By the number of leaves.
    "large, yes": 2000,
    "large, no": 1200,
    "64 leaves": 1100,
}

# From so many labels on a row is large.
LARGE = 33

UNROOTED_MARK = b"[&U]"


class Run(NamedTuple):
    """What one run of the program gave; the status is None after a time-out."""

    output: bytes
    errors: bytes
    status: int


def refusals_of_sheet(expected):
    """The number of a refusal's sheet in a list; none for an accepted table."""
    return [int(expected.split()[1])] if expected.startswith(b"refused ") else []


def refusals_of_lines(expected):
    """The numbers of all lines that tell of a refusal."""
    return [number for line in expected.splitlines() for number in refusals_of_sheet(line)]


class Subject(NamedTuple):
    """What a program is compared in: the reference's function of the same
    output; the cases; the sorts that an accepted table is of, or that calls are
    of, given text and sheet; how many of each sort there have to be in two
    thousand cases; the refusal numbers that have to come up, and those of a sheet;
    the calls of a text, where the sheet has a line for each; and whether a sheet can
    be right, given text and sheet."""

    sheet: Callable
    cases: Callable = generate.cases
    sorts: Callable = lambda text, expected: ()
    floors: dict = {}
    refusals: tuple = REFUSALS_OF_THE_LISTER
    refused: Callable = refusals_of_sheet
    calls: Callable = None
    possible: Callable = lambda text, expected: True


def both_kinds(sheet):
    """The Subject of a program that takes trees of both kinds."""
    return Subject(sheet, generate.cases, kind_sorts, KIND_FLOORS)


def run_program(program, text):
    """Run the program on one text."""
    try:
        done = subprocess.run(
            [program], input=text, stdout=subprocess.PIPE, stderr=subprocess.PIPE,
            timeout=SECONDS_PER_CASE, check=False,
        )
    except subprocess.TimeoutExpired as expired:
        return Run(expired.stdout or b"", expired.stderr or b"", None)
    return Run(done.stdout, done.stderr, done.returncode)


def agrees(run, expected):
    """Whether the run ended by itself with the expected output.

    Where that is empty, the run must not tell of a failure either.
    """
    if not expected and (run.status != 0 or run.errors):
        return False
    return run.status is not None and run.status >= 0 and run.output == expected


def how_it_ended(status):
    """The program's end in words."""
    if status is None:
        return "stopped after %d seconds" % SECONDS_PER_CASE
    if status < 0:
        return "ended by signal %d" % -status
    return "exit status %d" % status


def shown(data):
    """Bytes in printable form, the middle left out if there are many."""
    if len(data) <= BYTES_SHOWN:
        return "%d bytes: %r" % (len(data), data)
    half = BYTES_SHOWN // 2
    return "%d bytes: %r ... %r" % (len(data), data[:half], data[-half:])


def first_difference(one, other):
    """The first offset at which two byte strings differ."""
    for offset, (byte, other_byte) in enumerate(zip(one, other)):
        if byte != other_byte:
            return offset
    return min(len(one), len(other))


def outputs_compared(expected, output):
    """Where the outputs differ, in words; how a run ended is a mismatch too."""
    if output == expected:
        return "the outputs are equal"
    return "the outputs differ from byte %d on" % first_difference(expected, output)


def first_other_call(calls, expected, output):
    """The first call whose line differs, in words."""
    lines = zip(calls, expected.splitlines(), output.splitlines() + [b""] * len(calls))
    for (name, arguments), line, other in lines:
        if line != other:
            call = b"%s of %s" % (name, b" and ".join(b"%r" % (argument,) for argument in arguments))
            return "%s; %s; %s" % tuple(map(shown, (call, line, other)))
    return "none: there is more than a line for each"


def show_mismatch(name, subject, text, expected, run):
    """Print one mismatch."""
    print("mismatch in %s" % name)
    if subject.calls:
        print("  first call: %s" % first_other_call(list(subject.calls(text)), expected, run.output))
    print("  input:     %s" % shown(text))
    print("  reference: %s" % shown(expected))
    print("  program:   %s" % shown(run.output))
    print("  %s; %s" % (outputs_compared(expected, run.output), how_it_ended(run.status)))
    if not subject.possible(text, expected):
        print("  the reference's sheet cannot be right")
    if run.errors:
        print("  standard error: %s" % shown(run.errors))


def kind_sorts(text, expected):
    """The sorts of KIND_FLOORS that an accepted table is of, as a list."""
    texts = reference.table(text).texts
    topologies = len(set(texts))
    if not texts or not texts[0].startswith(UNROOTED_MARK):
        return ["marked"] if b"[&R]" in text else []
    leaves = texts[0].count(b",") + 1
    full = len(texts) == 160
    pairs = has_pairs(expected, topologies)
    holds = {
        "unrooted": True,
        "unrooted of one leaf": leaves == 1,
        "unrooted of two leaves": leaves == 2,
        "unrooted of 311 bytes": len(texts[0]) == 311,
        "unrooted with pairs": pairs,
        "unrooted without pairs": topologies > 1 and not pairs,
        "unrooted copies only": topologies == 1 < len(texts),
        "unrooted copies beside others": 1 < topologies < len(texts),
        "unrooted and full": full,
        "unrooted and full with pairs": full and pairs,
    }
    return [sort for sort in holds if holds[sort]]


def has_pairs(expected, topologies):
    """Whether a sheet lists pairs; that of islands shows them by having fewer
    islands than there are topologies."""
    if expected.startswith(b"island "):
        return len(expected.splitlines()) < topologies
    return b"\npair " in expected


def support_sorts(text, expected):
    """The sorts of SUPPORT_FLOORS that an accepted table is of, as a list."""
    head, *lines, last = (line.split() for line in expected.splitlines())
    trees = int(head[1])
    if trees == 0:
        return ["no trees"]
    clades = [(int(words[1]), int(words[3])) for words in lines]
    ties = [(one, other) for (one, number), (other, as_often) in zip(clades, clades[1:]) if number == as_often]
    texts = reference.table(text).texts
    leaves = texts[0].count(b",") + 1
    topologies = len(set(texts))
    # The text of a tree without its `;` is a number or a tuple in Python too.
    forks = forks_of(ast.literal_eval(last[1].decode().rstrip(";")))
    wide = [len(children) > 2 for children in forks]
    full = trees == 160 and leaves == 64
    half = any(2 * number == trees for _, number in clades)
    holds = {
        "one leaf": leaves == 1,
        "copies only": topologies == 1 < trees,
        "copies beside others": 1 < topologies < trees,
        "full": full,
        "full of copies": full and topologies == 1,
        "full of halves": full and half,
        "9,921 clades": len(clades) == 9921,
        "many clades": len(clades) >= 300 and not full,
        "half": half and trees > 2,
        "half of many": half and trees >= 20 and not full,
        "just above half": any(0 < 2 * number - trees <= 2 and number < trees for _, number in clades),
        "tie against numbers": any(one > other for one, other in ties),
        "tie against sizes": any(bin(one).count("1") > bin(other).count("1") for one, other in ties),
        "tie by the end": any(other % 2 ** one.bit_length() == one for one, other in ties),
        "wide": any(wide),
        "wide below the root": any(wide[1:]),
        "star": wide == [True],
        "binary": topologies > 1 and not any(wide),
        "against digits": any(children != sorted(children, key=str) for children in forks),
        "309 bytes": len(last[1]) == 309,
    }
    return [sort for sort in holds if holds[sort]]


def forks_of(node):
    """For each fork of nested tuples, the root first, the first label of each of
    its children, as a list."""
    if not isinstance(node, tuple):
        return []
    return [list(map(first_label, node))] + [fork for child in node for fork in forks_of(child)]


def first_label(node):
    """The label that stands first in nested tuples."""
    return first_label(node[0]) if isinstance(node, tuple) else node


def row_sorts(text, expected):
    """The sorts of ROW_FLOORS that the calls of a case are of, as a list."""
    makers = {b"row": read_sorts, b"text": written_sorts, b"pair": paired_sorts}
    return [
        sort for (name, arguments), line in zip(reference.row_calls(text), expected.splitlines())
        for sort in makers[name](arguments, line)
    ]


def read_sorts(_, line):
    """The sorts of text to row; a refused text is of none."""
    return [] if line.startswith(b"refused") else sorts_by_leaves("row", len(line.split()) - 1)


def sorts_by_leaves(call, leaves):
    """The sorts of an accepted call by the number of leaves."""
    return ["%s of %s" % (call, words) for number, words in
            ((1, "one leaf"), (2, "two leaves"), (64, "64 leaves")) if leaves == number]


def written_sorts(arguments, line):
    """The sorts of row to text."""
    (numbers,) = arguments
    if not line.startswith(b"refused"):
        longest = ["text of 309 bytes"] if len(line) == len(b"text ") + 309 else []
        return sorts_by_leaves("text", len(numbers)) + longest
    fault = row_fault(numbers)
    return [fault, "large, " + fault] if numbers and is_large(numbers) else [fault]


def is_large(numbers):
    """Whether the label set in a row has many labels."""
    return bin(numbers[0]).count("1") >= LARGE


def row_fault(numbers):
    """What makes numbers the row of no tree; None if nothing does.

    This is told by comparing every two, and not by building a tree.
    """
    if not numbers:
        return "empty"
    labels, *clades = numbers
    size = bin(labels).count("1")
    if len(numbers) > size:
        return "too many"
    faults = {
        "too few": len(numbers) < size,
        "out of order": any(one > other for one, other in zip(clades, clades[1:])),
        "twice": len(set(clades)) < len(clades),
        "small": any(clade & (clade - 1) == 0 for clade in clades),
        "foreign": any(clade & ~labels for clade in clades),
        "crossing": any(one & other not in (0, one, other) for one, other in itertools.combinations(clades, 2)),
    }
    found = [fault for fault in faults if faults[fault]]
    return "several" if len(found) > 1 else found[0] if found else None


def paired_sorts(arguments, line):
    """The sorts of the pair test on rows."""
    faults = [row_fault(numbers) for numbers in arguments]
    if line.startswith(b"refused 11"):
        if None not in faults:
            return ["both rows"]
        other_labels = faults[1] and arguments[1][:1] != arguments[0][:1]
        return ["row 1 of other labels"] if other_labels else ["row 1"] if faults[1] else ["row 0"]
    if line.startswith(b"refused"):
        return ["other labels"] + ["as many other labels"] * (len(arguments[0]) == len(arguments[1]))
    answer = "equal" if arguments[0] == arguments[1] else line.split()[1].decode()
    return [answer] + ["large, " + answer] * (is_large(arguments[0]) and answer != "equal")


def leaves_of(name, argument):
    """The number of leaves of a tree that a pair test accepts."""
    return len(argument) if name == b"rows" else argument.count(b",") + 1


def bound_possible(text, expected):
    """Whether each number of a sheet is at most 2n - 2, and 1 or more for rooted
    trees that are one move apart."""
    for (name, arguments), line in zip(bound.bound_calls(text), expected.splitlines()):
        answer, forests = line.split()[:2]
        if answer == b"refused":
            continue
        unrooted = name == b"texts" and UNROOTED_MARK in arguments[0]
        least = 1 if answer == b"yes" and not unrooted else 0
        if not least <= int(forests) <= 2 * leaves_of(name, arguments[0]) - 2:
            return False
    return True


def bound_sorts(text, expected):
    """The sorts of BOUND_FLOORS that the pair tests of a case are of, as a list."""
    return [
        sort for (name, arguments), line in zip(bound.bound_calls(text), expected.splitlines())
        for sort in tested_sorts(name, arguments, line)
    ]


def tested_sorts(name, arguments, line):
    """The sorts of one pair test."""
    answer, forests = line.decode().split()[:2]
    if answer == "refused":
        return ["refused " + name.decode()]
    if name == b"texts" and UNROOTED_MARK in arguments[0]:
        return ["unrooted, " + answer]
    if name == b"rows":
        clades = [reference.tree_of_row(numbers).clades for numbers in arguments]
    else:
        clades = [reference.read_one(written, 0)[0].clades for written in arguments]
    if clades[0] == clades[1]:
        return ["equal " + name.decode()]
    return ["%s, %s" % (name.decode(), answer)] + number_sorts(*clades, answer, int(forests))


def number_sorts(clades, others, answer, forests):
    """The sorts of the number of forests of two different rooted trees."""
    leaves = len(max(clades, key=len))
    shared = [shares for _, shares in bound.shared_forests(clades, others)]
    gone_through = shared.index(True) + 1 if any(shared) else len(shared)
    forks = [clade for clade in clades & others if 1 < len(clade) < leaves]
    holds = {
        "yes, 1": answer == "yes" and forests == 1,
        "yes, 2 to 4": answer == "yes" and 2 <= forests <= 4,
        "yes, 5 to 19": answer == "yes" and 5 <= forests <= 19,
        "yes, 20 or more": answer == "yes" and forests >= 20,
        "yes, 100 or more": answer == "yes" and forests >= 100,
        "yes, as many as leaves or more": answer == "yes" and forests >= leaves,
        "yes, 2n - 4": answer == "yes" and forests == 2 * leaves - 4 and leaves > 3,
        "yes at the last cut": answer == "yes" and gone_through == len(shared),
        "yes, several forests shared": sum(shared) > 1,
        "yes after cuts that count nothing": answer == "yes" and forests < gone_through,
        "yes after no such cut": answer == "yes" and forests == gone_through > 1,
        "yes, clades left over": answer == "yes" and forests < leaves + len(forks),
        "another number in the other order": bound.compared(others, clades).forests != forests,
        "no, leaves only": answer == "no" and forests == leaves,
        "no, forks too": answer == "no" and forests > leaves,
        "no, 100 or more": answer == "no" and forests >= 100,
        "large, yes": leaves >= LARGE and answer == "yes",
        "large, no": leaves >= LARGE and answer == "no",
        "64 leaves": leaves == 64,
    }
    return [sort for sort in holds if holds[sort]]


def compare(program, subject, seed, count):
    """Run all cases.  Gives the number of mismatches, refusal counts, and how
    many accepted tables, or calls, there were of each sort."""
    seen = dict.fromkeys(subject.refusals, 0)
    tables = dict.fromkeys(subject.floors, 0)
    mismatches = 0
    for position, kind, text in subject.cases(seed, count):
        expected = subject.sheet(text)
        numbers = subject.refused(expected)
        for number in numbers:
            seen[number] += 1
        if subject.calls or not numbers:
            for sort in subject.sorts(text, expected):
                tables[sort] += 1
        run = run_program(program, text)
        if not agrees(run, expected) or not subject.possible(text, expected):
            mismatches += 1
            if mismatches <= MISMATCHES_SHOWN:
                show_mismatch(generate.file_name(position, kind), subject, text, expected, run)
    return mismatches, seen, tables


ROWS = Subject(reference.rows_sheet, generate_rows.cases, row_sorts, ROW_FLOORS, REFUSALS_OF_ROWS, refusals_of_lines,
               reference.row_calls)
BOUND = Subject(bound.bound_sheet, generate_bound.cases, bound_sorts, BOUND_FLOORS, REFUSALS_OF_ROWS, refusals_of_lines,
                bound.bound_calls, bound_possible)
PLOTS = Subject(plots.plots_sheet, generate_plots.cases, plot_sorts.plot_sorts, plot_sorts.PLOT_FLOORS,
                REFUSALS_OF_PLOTS, refusals_of_lines, plots.plot_calls)
INDEX = Subject(index.index_sheet, generate_index.cases, index_sorts.index_sorts, index_sorts.INDEX_FLOORS,
                REFUSALS_OF_THE_INDEX, refusals_of_lines, index.index_calls)


def main(arguments):
    """Read the command line, compare, print the last line; exit status."""
    parser = argparse.ArgumentParser(description="Compare a pair lister with the reference program.")
    parser.add_argument("program", help="path of the pair lister")
    others = parser.add_mutually_exclusive_group()
    others.add_argument("--interchanges", action="store_const", dest="subject",
                        const=Subject(reference.interchange_sheet, generate.rooted_cases),
                        help="the program is that of interchanges.c")
    others.add_argument("--graphs", action="store_const", dest="subject",
                        const=both_kinds(reference.graphs_sheet), help="the program is that of graphs.c")
    others.add_argument("--support", action="store_const", dest="subject",
                        const=Subject(reference.support_sheet, generate.support_cases, support_sorts, SUPPORT_FLOORS),
                        help="the program is that of supports.c")
    others.add_argument("--rows", action="store_const", dest="subject", const=ROWS,
                        help="the program is that of rows.c")
    others.add_argument("--bound", action="store_const", dest="subject", const=BOUND,
                        help="the program is that of bounds.c")
    others.add_argument("--plots", action="store_const", dest="subject", const=PLOTS,
                        help="the program is that of plots.c")
    others.add_argument("--index", action="store_const", dest="subject", const=INDEX,
                        help="the program is that of index.c")
    others.add_argument("--islands", action="store_const", dest="subject",
                        const=both_kinds(reference.island_sheet), help="the program is that of islands")
    parser.set_defaults(subject=both_kinds(reference.sheet))
    parser.add_argument("--seed", type=int, default=1)
    parser.add_argument("--count", type=int, default=DEFAULT_COUNT)
    options = parser.parse_args(arguments)
    program = os.path.abspath(options.program)
    if not os.access(program, os.X_OK) or os.path.isdir(program):
        parser.error("not an executable file: %s" % options.program)
    subject = options.subject
    mismatches, seen, tables = compare(program, subject, options.seed, options.count)
    missing = [number for number in seen if seen[number] == 0]
    if missing:
        print("never seen: refusal %s" % ", ".join(map(str, missing)))
    rare = [sort for sort in tables if tables[sort] < max(1, subject.floors[sort] * options.count // 2000)]
    if rare:
        print("seen too seldom: %s" % ", ".join(rare))
    if tables:
        counted = ", ".join("%s: %d" % item for item in tables.items())
        print("%s seen: %s" % ("calls" if subject.calls else "tables", counted))
    print("%d cases, %d mismatches; refusals seen: %s" % (
        options.count, mismatches,
        " ".join("%d:%d" % item for item in seen.items()),
    ))
    return 1 if mismatches or missing or rare else 0


if __name__ == "__main__":
    sys.exit(main(sys.argv[1:]))
