#!/usr/bin/env python3
"""Says of every call that the library exports whether it is declared, described and tested.

    calls.py LIBRARY C-LOG LOG...

LIBRARY is the static library. Each of its calls has to be declared in the header and in the Rust package and to have a
line in the table of bindings/README.md. C-LOG is what the C test printed: a line

    norbelath_CALL refuses N...

for each call, with the refusals that it saw, which have to be those that the table lists. The other logs are what the
tests of the other languages printed. A line

    compared CALL accepted A refused R

says that the answers to A accepted calls and R refused ones were those of an implementation that shares nothing with the
library. The lines of a call are added up within a log, and each log needs both kinds for every call.
"""

import re
import subprocess
import sys
from collections import Counter, defaultdict
from pathlib import Path

BINDINGS = Path(__file__).resolve().parent
PREFIX = "norbelath_"
KINDS = ("accepted", "refused")


def exports(library):
    """The calls that a library exports."""
    listed = subprocess.run(["nm", "--defined-only", library], check=True, capture_output=True, text=True).stdout
    return found(rf" T {PREFIX}(\w+)$", listed)


def found(pattern, text):
    """The calls that a pattern finds in a text."""
    return set(re.findall(pattern, text, re.MULTILINE))


def refusals(pattern, text):
    """For each call that a pattern finds the numbers behind it, and the calls that are found twice."""
    lines = re.findall(pattern, text, re.MULTILINE)
    twice = {call for call, _ in lines if [other for other, _ in lines].count(call) > 1}
    return {call: {int(number) for number in numbers.split()} for call, numbers in lines}, twice


def compared(log):
    """How many accepted and refused calls a log says were compared, by call."""
    counts = defaultdict(Counter)
    for call, accepted, refused in re.findall(r"^compared (\w+) accepted (\d+) refused (\d+)$", log, re.MULTILINE):
        counts[call].update(accepted=int(accepted), refused=int(refused))
    return counts


def faults(library, c_log, logs):
    """What is missing or too much, a line each."""
    exported = exports(library)
    if not exported:
        yield f"{library} exports no call"
    listed, twice = refusals(rf"^\| `{PREFIX}(\w+)` \|.*\| ([\d ]+) \|$", (BINDINGS / "README.md").read_text())
    seen, _ = refusals(rf"^{PREFIX}(\w+) refuses((?: \d+)+)$", Path(c_log).read_text())
    places = {
        "the header": found(rf"^uint8_t {PREFIX}(\w+)\(", (BINDINGS.parent / "include/norbelath.h").read_text()),
        "the Rust package": found(rf"^\s*(?:pub )?fn {PREFIX}(\w+)\(", rust_sources()),
        "the README's table": set(listed),
        "the C test": set(seen),
    }
    for log in logs:
        counts = compared(Path(log).read_text())
        places[Path(log).name] = set(counts)
        for call in sorted(counts):
            yield from (f"{Path(log).name}: no {kind} {call} is compared" for kind in KINDS if not counts[call][kind])
    for place, calls in places.items():
        yield from (f"{place}: {call} is missing" for call in sorted(exported - calls))
        yield from (f"{place}: {call} is not exported" for call in sorted(calls - exported))
    yield from (f"the README's table: {call} has two lines" for call in sorted(twice))
    for call in sorted(set(seen) & set(listed)):
        yield from (f"the README's table: {call} lacks refusal {n}" for n in sorted(seen[call] - listed[call]))
        yield from (f"the C test: {call} is not refused by {n}" for n in sorted(listed[call] - seen[call]))


def rust_sources():
    """The text of the Rust package."""
    return "\n".join(file.read_text() for file in sorted((BINDINGS / "rust/src").glob("*.rs")))


def main():
    library, c_log, *logs = sys.argv[1:]
    lines = list(faults(library, c_log, logs))
    for line in lines:
        print(f"calls: {line}")
    if lines:
        sys.exit(1)
    print(f"calls: {len(exports(library))}, each declared, described and tested")


if __name__ == "__main__":
    main()
