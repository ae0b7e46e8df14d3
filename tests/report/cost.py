#!/usr/bin/env python3
"""What a report of 10,000 trees of 64 taxa costs: cost.py LIBRARY.

Two files are made, one as MrBayes writes it and one with annotations as BEAST does, and the command is run on each; beside
it a program that only goes through the file with DendroPy's own reader. Prints the seconds and the most memory of each run
and their ratio, and ends with status 1 where the command is above the limits.
"""
import os
import random
import subprocess
import sys
import tempfile
import time

import dialects

REPOSITORY = os.path.dirname(os.path.dirname(os.path.dirname(os.path.abspath(__file__))))
TREES = 10_000
TAXA = 64
MOST_SECONDS = 60
MOST_MEGABYTES = 500
# What most trees of a long chain are: some topologies that are visited again and again; the others are visited once.
COMMON = 300
READ = """import dendropy, sys
for tree in dendropy.Tree.yield_from_files([sys.argv[1]], "nexus", extract_comment_metadata=False):
    pass
"""


def plain_node(taxon, rng):
    return f"{taxon}:{rng.expovariate(10):.6e}"


def annotated_node(taxon, rng):
    return f"{taxon}[&rate={rng.random()},height_95%_HPD={{{rng.random()},{rng.random()}}}]:{rng.random()}"


def written(tree, node, rng):
    inside = "(" + ",".join(written(child, node, rng) for child in tree) + ")" if isinstance(tree, tuple) else str(tree + 1)
    return node(inside, rng)


def write(path, node, rng):
    """A NEXUS file of so many trees."""
    common = [dialects.random_tree(range(TAXA), rng) for _ in range(COMMON)]
    with open(path, "w") as file:
        names = ",\n".join(f"\t{number} Taxon_{number}" for number in range(1, TAXA + 1))
        file.write(f"#NEXUS\nbegin trees;\n\ttranslate\n{names};\n")
        for number in range(TREES):
            tree = rng.choice(common) if number % 2 else dialects.random_tree(range(TAXA), rng)
            file.write(f"tree STATE_{number * 1000} = [&R] {written(tree, node, rng)};\n")
        file.write("end;\n")


def run(arguments, environment):
    """The status, the seconds by the clock and of one core, and the megabytes of a run of Python in a process of its own."""
    start = time.monotonic()
    child = subprocess.Popen([sys.executable, *arguments], env=environment, stdout=subprocess.DEVNULL)
    _, status, usage = os.wait4(child.pid, 0)
    child.returncode = os.waitstatus_to_exitcode(status)
    return child.returncode, time.monotonic() - start, usage.ru_utime + usage.ru_stime, usage.ru_maxrss / 1024


def main(arguments):
    (library,) = arguments
    paths = [os.path.join(REPOSITORY, "report"), os.path.join(REPOSITORY, "bindings", "python")]
    environment = {**os.environ, "NORBELATH_LIBRARY": os.path.abspath(library), "PYTHONPATH": os.pathsep.join(paths),
                   "PYTHONDONTWRITEBYTECODE": "1"}
    good = True
    with tempfile.TemporaryDirectory() as folder:
        for name, node in (("plain", plain_node), ("annotated", annotated_node)):
            path = os.path.join(folder, name + ".trees")
            write(path, node, random.Random(6))
            command = ["-m", "norbelath_report", "report", path, "-o", os.path.join(folder, name)]
            status, seconds, busy, megabytes = run(command, environment)
            _, _, reading, _ = run(["-c", READ, path], environment)
            size = os.path.getsize(path) / 1e6
            print(f"cost: {name}: {TREES} trees of {TAXA} taxa, {size:.0f} MB: {seconds:.1f} s ({busy:.1f} s of one core), "
                  f"{megabytes:.0f} MB of memory, status {status}; DendroPy alone: {reading:.1f} s, ratio {busy / reading:.2f}",
                  flush=True)
            good &= status == 0 and busy <= MOST_SECONDS and megabytes <= MOST_MEGABYTES
    if not good:
        print(f"cost: above {MOST_SECONDS} s or {MOST_MEGABYTES} MB, or not made")
    return 0 if good else 1


if __name__ == "__main__":
    sys.exit(main(sys.argv[1:]))
