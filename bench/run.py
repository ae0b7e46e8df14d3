#!/usr/bin/env python3
"""Compare the speed of a pair lister with that of two programs in Rust.

    run.py [OUR_PROGRAM] [--interchanges | --islands] [--repeat N] [--picture FILE]
    run.py [OUR_PROGRAM] --support [--repeat N]
    run.py [OUR_PROGRAM] --rows [--repeat N]
    run.py [OUR_PROGRAM] --plots [--repeat N]
    run.py [OUR_PROGRAM] --index [--repeat N]

OUR_PROGRAM is the path of an executable that reads a table of trees from
standard input and prints the sheet; if it is left out, the pair lister is built
for this machine by tools/native.sh.  With --interchanges it is the program of
tests/independent/interchanges.c, which bindings/test.sh builds, and both print
the graph of interchanges.  With --islands it is the islands program, which
tools/native.sh builds, and both print a line for each island.  The programs to
compare with are built first: the plain one, and, for the sheet of pairs, the
fast one.  All are run on each input of inputs.py.  The first run of each is for
comparing the outputs; if they differ, or a table is refused, or a program is
ended by a signal, the exit status is 1.

The time of an input is the wall time of the whole process, the best of N runs,
less the same for an empty input, which is what starting the process costs.  The
last column has the ratio to the last program with the start left in.  The
picture, an SVG file, shows the times against the number of trees.

Some full tables come twice, with their trees rooted and unrooted; interchanges
are of rooted trees only.  Behind the table is how many times as long each program
takes for the unrooted ones.

With --support OUR_PROGRAM is that of support.c; if it is left out, it is built
over the library, which tools/native.sh builds.  It and the plain one print how
many trees have each clade, and the majority tree, for some full tables.  Times
are those of the whole process, start included; the time of the call alone, the
best of many in one process, is what OUR_PROGRAM prints with --repeat.  Where
there is a goal for the whole time it is shown; the exit status does not depend
on it.

With --rows OUR_PROGRAM is that of rows.c, built in the same way if it is left
out.  It and the plain one try the pair test on every two rows of some tables of
64 leaves, and their pairs must be the same.  Times are those of one call, without
reading the file and printing: the mean over a table, the best of N rounds, which
the programs print with --repeat.

With --plots OUR_PROGRAM is that of plots.c, built in the same way if it is left
out.  It and the plain one plot each tree of the same tables, and the bits of their
rows, and their columns, must be the same.  Times are taken as with --rows: of a plot
call, and, beside that, of the form call on the same text.

With --index OUR_PROGRAM is that of index.c, built in the same way if it is left
out.  It and the plain one add the 160 trees of some full tables to an index, one
after another, then remove the first, and their lists of neighbours and the bytes
of their memories must be the same.  Times are taken as with --rows: of a question
to the full index, of looking through its memory alone, of adding the last tree, of
adding all of them, of removing one, and, beside that, of the graph call on the
same table.
"""

import argparse
import os
import platform
import re
import subprocess
import sys
import tempfile
import time
from typing import Callable, NamedTuple, Optional, Tuple

import inputs
import picture

HERE = os.path.dirname(os.path.abspath(__file__))
NATIVE = os.path.join(os.path.dirname(HERE), "tools", "native.sh")
INCLUDE = os.path.join(os.path.dirname(HERE), "include")
DEFAULT_REPEAT = 5
# Starting a process is short and goes into every row, so it is measured often.
EMPTY_REPEAT_FACTOR = 20
# So is a call, next to starting a process for it.
CALL_REPEAT_FACTOR = 20
# Below this a time is mostly the noise of starting the process.
SHORTEST_FOR_RATIO_MS = 0.05
# What the support of a table may take.
SUPPORT_GOALS_MS = {"most_clades": 20, "unrelated": 20, "near_copies": 5}

HEAD = "%-23s %6s %7s %8s"
COLUMN = " %11s"


class Failed(Exception):
    """Ends the run with status 1."""


def build_rust(name):
    """Build the program in this folder and give its path."""
    package = os.path.join(HERE, name)
    target = os.path.join(package, "target")
    command = ["cargo", "build", "--release", "--offline", "--quiet", "--target-dir", target]
    try:
        subprocess.run(command, cwd=package, check=True)
    except (OSError, subprocess.CalledProcessError) as error:
        raise Failed("the %s program cannot be built: %s" % (name, error)) from error
    return os.path.join(target, "release", name + (".exe" if os.name == "nt" else ""))


def build_native(crate, called, path):
    """Build a crate for this machine into a file."""
    try:
        subprocess.run([NATIVE, crate, path], check=True)
    except (OSError, subprocess.CalledProcessError) as error:
        raise Failed("the %s cannot be built: %s" % (called, error)) from error
    print("%s: built for %s, as rt makes it" % (called, platform.machine()))


def build_pair_lister(directory):
    """Build the pair lister for this machine and give its path."""
    program = os.path.join(directory, "pair_lister")
    build_native("pair_lister", "pair lister", program)
    return program


def build_over_library(name, directory):
    """Build the library and the program of a C file of this folder over it, and
    give the program's path."""
    library = os.path.join(directory, "libnorbelath.a")
    program = os.path.join(directory, name)
    build_native("norbelath", "library", library)
    command = [os.environ.get("CC", "cc"), "-std=c11", "-O2", "-I", INCLUDE,
               os.path.join(HERE, name + ".c"), library, "-o", program]
    try:
        subprocess.run(command, check=True)
    except (OSError, subprocess.CalledProcessError) as error:
        raise Failed("the program of %s.c cannot be built: %s" % (name, error)) from error
    return program


def build_support(directory):
    """Build the program of support.c and give its path."""
    return build_over_library("support", directory)


def build_rows(directory):
    """Build the program of rows.c and give its path."""
    return build_over_library("rows", directory)


def build_plots(directory):
    """Build the program of plots.c and give its path."""
    return build_over_library("plots", directory)


def build_index(directory):
    """Build the program of index.c and give its path."""
    return build_over_library("index", directory)


def output_of(command, path):
    """What the program prints for this input."""
    with open(path, "rb") as text:
        done = subprocess.run(command, stdin=text, stdout=subprocess.PIPE, check=False)
    if done.returncode < 0:
        raise Failed("%s: ended by signal %d on %s"
                     % (command[0], -done.returncode, os.path.basename(path)))
    return done.stdout


def milliseconds(command, path):
    """The wall time of one run, output discarded."""
    with open(path, "rb") as text:
        start = time.perf_counter_ns()
        subprocess.run(command, stdin=text, stdout=subprocess.DEVNULL, check=False)
        return (time.perf_counter_ns() - start) / 1e6


def best_times(commands, path, repeat):
    """The best time of each program.  They take turns, so that a change in the
    machine's speed meets both."""
    best = [float("inf")] * len(commands)
    for _ in range(repeat):
        for i, command in enumerate(commands):
            best[i] = min(best[i], milliseconds(command, path))
    return best


def compared_output(commands, path):
    """The output of the programs, which must be the same."""
    ours, *others = (output_of(command, path) for command in commands)
    if any(other != ours for other in others):
        raise Failed("the outputs differ on %s" % os.path.basename(path))
    return ours


def trees_and_pairs(output):
    """Their numbers, from the first line; None if that is another line."""
    first_line = re.match(rb"trees (\d+) pairs (\d+)\n", output)
    return (int(first_line[1]), int(first_line[2])) if first_line else None


def trees_and_islands(output):
    """Their numbers, from a line for each island; None if there are none, or
    other lines."""
    if not re.fullmatch(rb"(island \d+ \d+\n)+", output):
        return None
    sizes = re.findall(rb" (\d+)\n", output)
    return sum(map(int, sizes)), len(sizes)


def trees_and_clades(output):
    """Their numbers, from the first line; None if that is another line."""
    first_line = re.match(rb"trees (\d+) clades (\d+)\n", output)
    return (int(first_line[1]), int(first_line[2])) if first_line else None


def trees_and_nodes(output):
    """Their numbers, from the first line; None if that is another line."""
    first_line = re.match(rb"trees (\d+) nodes (\d+)\n", output)
    return (int(first_line[1]), int(first_line[2])) if first_line else None


class Sheet(NamedTuple):
    """What the programs print."""

    option: Optional[str]  # the plain program's, the same as that of this script
    build: Optional[Callable[[str], str]]  # builds our program in a directory
    others: Tuple[str, ...]  # the programs to compare with
    counted: str  # what is counted besides trees
    counts: Callable[[bytes], Optional[Tuple[int, int]]]
    both_kinds: bool = True  # whether unrooted trees are taken


PAIRS = Sheet(None, build_pair_lister, ("plain", "fast"), "pairs", trees_and_pairs)
INTERCHANGES = Sheet("--interchanges", None, ("plain",), "pairs", trees_and_pairs, both_kinds=False)
ISLANDS = Sheet("--islands", None, ("plain",), "islands", trees_and_islands)
SUPPORT = Sheet("--support", build_support, ("plain",), "clades", trees_and_clades, both_kinds=False)
ROWS = Sheet("--rows", build_rows, ("plain",), "pairs", trees_and_pairs, both_kinds=False)
PLOTS = Sheet("--plots", build_plots, ("plain",), "nodes", trees_and_nodes, both_kinds=False)
INDEX = Sheet("--index", build_index, ("plain",), "pairs", trees_and_pairs, both_kinds=False)


def size_of(path, sheet, output):
    """The numbers of trees, leaves and pairs, islands or clades."""
    counts = sheet.counts(output)
    if not counts:
        raise Failed("%s is not accepted: %r" % (os.path.basename(path), output[:80]))
    with open(path, "rb") as file:
        first_tree = file.read().partition(b";")[0]
    leaves = len(re.findall(rb"\d+", first_tree))
    return counts[0], leaves, counts[1]


def ratio_text(ours, other):
    """The ratio for the table; a dash where the other time is too short."""
    if other < SHORTEST_FOR_RATIO_MS:
        return "-"
    return "%.2f" % (ours / other)


def row(head, columns):
    """A line of the table."""
    return HEAD % head + "".join(COLUMN % column for column in columns)


def headings(sheet):
    """The first line of the table."""
    columns = ["%s ms" % name for name in ("ours",) + sheet.others]
    columns += ["ours/%s" % name for name in sheet.others]
    return row(("input", "trees", "leaves", sheet.counted), columns + ["with start"])


def columns_of(whole, less):
    """Times less those of starting, their ratios, and the last of whole times."""
    columns = ["%.2f" % spent for spent in less]
    columns += [ratio_text(less[0], other) for other in less[1:]]
    return columns + [ratio_text(whole[0], whole[-1])]


def lines_of(programs, times):
    """A line of the picture for each program and each kind of growing tables."""
    lines = []
    for i, (program, colour) in enumerate(zip(programs, picture.COLOURS)):
        for (kind, steps), dash in zip(inputs.growth_in_trees(), picture.DASHES):
            points = [(number, max(times[name][i], SHORTEST_FOR_RATIO_MS)) for number, name in steps]
            lines.append(picture.Line("%s, %s" % (program, kind), colour, dash, points))
    return lines


def write_picture(path, programs, times):
    """Draw the times of all programs into a file."""
    drawn = picture.svg("Time for tables of %d leaves" % inputs.LEAVES, lines_of(programs, times))
    with open(path, "w", encoding="utf-8") as file:
        file.write(drawn)


def cpu_model():
    """The name of the processor as far as the system tells it."""
    try:
        with open("/proc/cpuinfo", encoding="utf-8", errors="replace") as file:
            for line in file:
                if line.startswith("model name"):
                    return line.partition(":")[2].strip()
    except OSError:
        pass
    return platform.processor() or platform.machine() or "unknown"


def rustc_version():
    """What `rustc --version` prints."""
    try:
        done = subprocess.run(["rustc", "--version"], stdout=subprocess.PIPE, check=True)
    except (OSError, subprocess.CalledProcessError):
        return "rustc: not found"
    return done.stdout.decode().strip()


def start_times(commands, repeat, directory):
    """What starting each program costs."""
    empty = os.path.join(directory, "empty.txt")
    with open(empty, "wb"):
        pass
    compared_output(commands, empty)
    return best_times(commands, empty, repeat * EMPTY_REPEAT_FACTOR)


def measure(commands, sheet, start, repeat, directory):
    """Print the table and give the times of each input."""
    print(headings(sheet))
    times = {}
    for name, path in inputs.write_inputs(os.path.join(directory, "inputs"), inputs.inputs(sheet.both_kinds)):
        size = size_of(path, sheet, compared_output(commands, path))
        whole = best_times(commands, path, repeat)
        times[name] = [max(0.0, spent - begun) for spent, begun in zip(whole, start)]
        print(row((name,) + size, columns_of(whole, times[name])), flush=True)
    return times


def print_ratios_of_kinds(sheet, times):
    """Print the ratios of unrooted tables to rooted ones of the same trees."""
    print("\n%-23s" % "unrooted/rooted" + "".join(COLUMN % name for name in ("ours",) + sheet.others))
    for name in (make.__name__ for make in inputs.UNROOTED_TABLES):
        pairs = zip(times[inputs.unrooted_name(name)], times[name])
        print("%-23s" % name + "".join(COLUMN % ratio_text(*pair) for pair in pairs))


def call_microseconds(command, path, repeat):
    """The best times of calls, as a program prints them."""
    printed = output_of(command + ["--repeat", str(repeat)], path)
    try:
        return [float(word) for word in printed.split()]
    except ValueError as error:
        raise Failed("%s: no time of a call: %r" % (command[0], printed[:80])) from error


def measure_support(commands, repeat, directory):
    """Print the table of the support call, with whole times."""
    columns = ("ours ms", "plain ms", "ours/plain", "call ms", "goal ms")
    print(row(("input", "trees", "leaves", SUPPORT.counted), columns))
    for name, path in inputs.write_inputs(os.path.join(directory, "inputs"), inputs.support_inputs()):
        size = size_of(path, SUPPORT, compared_output(commands, path))
        ours, plain = best_times(commands, path, repeat)
        (call,) = call_microseconds(commands[0], path, repeat * CALL_REPEAT_FACTOR)
        goal = "< %d" % SUPPORT_GOALS_MS[name] if name in SUPPORT_GOALS_MS else "-"
        columns = ("%.2f" % ours, "%.2f" % plain, ratio_text(ours, plain), "%.2f" % (call / 1e3), goal)
        print(row((name,) + size, columns), flush=True)


def measure_rows(commands, repeat, directory):
    """Print the table of the row pair call and of reading a row, in
    microseconds, with the pair call on texts behind them."""
    columns = ("pair us", "plain us", "ratio", "read us", "plain us", "ratio", "texts us")
    print(row(("input", "trees", "leaves", ROWS.counted), columns))
    for name, path in inputs.write_inputs(os.path.join(directory, "inputs"), inputs.row_inputs()):
        size = size_of(path, ROWS, compared_output(commands, path))
        ours, plain = (call_microseconds(command, path, repeat) for command in commands)
        columns = ["%.2f" % ours[0], "%.2f" % plain[0], "%.2f" % (ours[0] / plain[0])]
        columns += ["%.2f" % ours[1], "%.2f" % plain[1], "%.2f" % (ours[1] / plain[1])]
        print(row((name,) + size, columns + ["%.2f" % ours[2]]), flush=True)


def measure_plots(commands, repeat, directory):
    """Print the table of the plot call, in microseconds, with the form call
    behind it."""
    columns = ("plot us", "plain us", "ratio", "form us", "plain us", "ratio")
    print(row(("input", "trees", "leaves", PLOTS.counted), columns))
    for name, path in inputs.write_inputs(os.path.join(directory, "inputs"), inputs.row_inputs()):
        size = size_of(path, PLOTS, compared_output(commands, path))
        times = zip(*(call_microseconds(command, path, repeat) for command in commands))
        columns = [column for ours, plain in times for column in
                   ("%.2f" % ours, "%.2f" % plain, "%.2f" % (ours / plain))]
        print(row((name,) + size, columns), flush=True)


# What the programs of --index measure, in this order.
INDEX_TIMES = ("question", "check alone", "last addition", "all additions", "removal", "graph call")


def measure_index(commands, repeat, directory):
    """Print the table of the index calls, a line for each of their times."""
    columns = ("ours ms", "plain ms", "ours/plain")
    print(row(("input", "trees", "leaves", INDEX.counted), ("%-13s" % "time",) + columns))
    for name, path in inputs.write_inputs(os.path.join(directory, "inputs"), inputs.index_inputs()):
        size = size_of(path, INDEX, compared_output(commands, path))
        times = zip(INDEX_TIMES, *(call_microseconds(command, path, repeat) for command in commands))
        for what, ours, plain in times:
            columns = ("%.3f" % (ours / 1e3), "%.3f" % (plain / 1e3), "%.2f" % (ours / plain))
            print(row((name,) + size, ("%-13s" % what,) + columns), flush=True)


# The sheets of which no process is timed, but each call on its own.
MEASURED_BY_CALL = {ROWS: measure_rows, PLOTS: measure_plots, INDEX: measure_index}


def run(ours, sheet, repeat, drawn, directory):
    """Build, measure, print the table and draw the picture."""
    options = [sheet.option] if sheet.option else []
    commands = [[ours or sheet.build(directory)]]
    commands += [[build_rust(name)] + options for name in sheet.others]
    programs = ("ours",) + sheet.others
    print("CPU: %s, %d cores" % (cpu_model(), os.cpu_count() or 0))
    print(rustc_version())

    if sheet in MEASURED_BY_CALL:
        print("best of %d rounds\n" % repeat)
        MEASURED_BY_CALL[sheet](commands, repeat, directory)
        return
    start = start_times(commands, repeat, directory)
    named = ", ".join("%s %.2f ms" % pair for pair in zip(programs, start))
    what = "included" if sheet is SUPPORT else "subtracted"
    print("best of %d; process start (%s): %s\n" % (repeat, what, named))

    if sheet is SUPPORT:
        measure_support(commands, repeat, directory)
        return
    times = measure(commands, sheet, start, repeat, directory)
    if sheet.both_kinds:
        print_ratios_of_kinds(sheet, times)
    if drawn:
        write_picture(drawn, programs, times)


def positive(text):
    """A whole number of 1 or more, for the command line."""
    number = int(text)
    if number < 1:
        raise ValueError(text)
    return number


def main(arguments):
    """Read the command line and run; gives the exit status."""
    parser = argparse.ArgumentParser(description="Compare a pair lister's speed with that of two programs in Rust.")
    parser.add_argument("program", metavar="OUR_PROGRAM", nargs="?",
                        help="path of the pair lister; built for this machine if left out")
    others = parser.add_mutually_exclusive_group()
    others.add_argument("--interchanges", action="store_const", dest="sheet", const=INTERCHANGES,
                        help="OUR_PROGRAM prints the graph of interchanges")
    others.add_argument("--islands", action="store_const", dest="sheet", const=ISLANDS,
                        help="OUR_PROGRAM prints a line for each island")
    others.add_argument("--support", action="store_const", dest="sheet", const=SUPPORT,
                        help="OUR_PROGRAM is that of support.c; built for this machine if left out")
    others.add_argument("--rows", action="store_const", dest="sheet", const=ROWS,
                        help="OUR_PROGRAM is that of rows.c; built for this machine if left out")
    others.add_argument("--plots", action="store_const", dest="sheet", const=PLOTS,
                        help="OUR_PROGRAM is that of plots.c; built for this machine if left out")
    others.add_argument("--index", action="store_const", dest="sheet", const=INDEX,
                        help="OUR_PROGRAM is that of index.c; built for this machine if left out")
    parser.set_defaults(sheet=PAIRS)
    parser.add_argument("--repeat", metavar="N", type=positive, default=DEFAULT_REPEAT)
    parser.add_argument("--picture", metavar="FILE", help="where to write the picture")
    options = parser.parse_args(arguments)
    program = options.program and os.path.abspath(options.program)
    if program and (not os.access(program, os.X_OK) or os.path.isdir(program)):
        parser.error("not an executable file: %s" % options.program)
    if not options.sheet.build and not program:
        parser.error("%s needs OUR_PROGRAM" % options.sheet.option)
    if options.sheet in (SUPPORT, ROWS, INDEX) and options.picture:
        parser.error("%s has no picture" % options.sheet.option)
    try:
        with tempfile.TemporaryDirectory() as directory:
            run(program, options.sheet, options.repeat, options.picture, directory)
    except Failed as failed:
        print("failed: %s" % failed, file=sys.stderr)
        return 1
    return 0


if __name__ == "__main__":
    sys.exit(main(sys.argv[1:]))
