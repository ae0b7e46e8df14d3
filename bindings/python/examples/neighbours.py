#!/usr/bin/env python3
"""Reads trees on standard input and prints, for each, its island and its neighbours, copies merged.

A refused text gives a line on standard error and status 1; input that cannot be read, or output that cannot be written
whole, gives one and status 2.
"""

import os
import sys

import norbelath


def lines(text: bytes) -> list[str]:
    """The lines for the trees of a text."""
    texts, answer = norbelath.table(text), norbelath.islands(text)
    neighbours = answer.neighbours()
    topologies = sum(first == i for i, first in enumerate(answer.firsts))
    made = [f"trees {len(texts)} topologies {topologies} pairs {len(answer.pairs)} islands {len(set(answer.islands))}"]
    for i, (tree, first, island) in enumerate(zip(texts, answer.firsts, answer.islands)):
        if first != i:
            made.append(f"tree {i} {tree} copy of {first}")
        else:
            listed = " ".join(map(str, neighbours[i])) or "none"
            made.append(f"tree {i} {tree} island {island} neighbours {listed}")
    return made


def write(data: bytes) -> None:
    """Writes all of it to standard output, or raises an OSError."""
    while data:
        data = data[os.write(1, data):]


def main() -> int:
    """Standard input to standard output. Gives the exit status."""
    try:
        with open(0, "rb", closefd=False) as source:
            text = source.read()
        write("".join(line + "\n" for line in lines(text)).encode("ascii"))
    except norbelath.Refusal as refusal:
        print(refusal, file=sys.stderr)
        return 1
    except OSError as failure:
        print(f"cannot read or write: {failure}", file=sys.stderr)
        return 2
    return 0


if __name__ == "__main__":
    sys.exit(main())
