#!/usr/bin/env python3
"""Standard input that can't be read and standard output that can't be written: check.py PROGRAM [--islands].

PROGRAM is the pair lister; with --islands it is the program of islands. A failed read has to leave standard output
empty and to be told on standard error. A sheet or a refusal has at least one line, but the sheet of islands of a table
without trees has none: there standard error has to be empty too. A failed write has to be told on standard error. The
status is 1 where a read or a write failed, and else 0. What can be read in pieces is read whole.
"""
import argparse
import os
import resource
import signal
import subprocess
import sys
import tempfile
import time
from typing import NamedTuple

TREES = b"((1,2),3);\n((1,3),2);\n((2,3),1);\n"
SHEET = (
    b"trees 3 pairs 3\n"
    b"tree 0 neighbours 2 unlinked 0 ((1,2),3);\n"
    b"tree 1 neighbours 2 unlinked 0 ((1,3),2);\n"
    b"tree 2 neighbours 2 unlinked 0 (1,(2,3));\n"
    b"pair 0 1\npair 0 2\npair 1 2\n"
)
ISLANDS = b"island 0 3\n"
UNREAD = b"standard input could not be read\n"
UNWRITTEN = b"standard output could not be written whole\n"


class Program(NamedTuple):
    """Where it is, and what it prints for TREES and for no trees."""

    path: str
    sheet: bytes
    empty_sheet: bytes


def run(program, stdin, stdout=subprocess.PIPE, room=None):
    """Standard output, standard error and the status of one run; a closed stream is given as None.

    `room` is the number of bytes that a file takes; a write that goes past it is cut short, and the next one fails.
    """
    streams = [(0, stdin), (1, stdout)]

    def prepare():
        for number, stream in streams:
            if stream is None:
                os.close(number)
        if room is not None:
            # Without this a signal would end the program.
            signal.signal(signal.SIGXFSZ, signal.SIG_IGN)
            resource.setrlimit(resource.RLIMIT_FSIZE, (room, room))

    given = [subprocess.DEVNULL if stream is None else stream for _, stream in streams]
    done = subprocess.run(
        [program.path], stdin=given[0], stdout=given[1], stderr=subprocess.PIPE, preexec_fn=prepare, timeout=60
    )
    return done.stdout, done.stderr, done.returncode


def file_of(content):
    """A file with this content, open for reading."""
    file = tempfile.TemporaryFile()
    file.write(content)
    file.seek(0)
    return file


def full_table():
    """160 trees with so many neighbours that their sheet is longer than a pipe holds."""
    labels = list(range(1, 65))
    trees = []
    for k in range(160):
        order = labels[1:]
        order.insert(k % 63, order.pop(k // 63))
        text = "1"
        for label in order:
            text = "(%s,%d)" % (text, label)
        trees.append(text + ";")
    return "\n".join(trees).encode()


def folder(program):
    with tempfile.TemporaryDirectory() as path:
        stdin = os.open(path, os.O_RDONLY)
        try:
            return run(program, stdin) == (b"", UNREAD, 1)
        finally:
            os.close(stdin)


def closed_input(program):
    return run(program, None) == (b"", UNREAD, 1)


def input_that_fails_behind_two_trees(program):
    read, write = os.pipe()
    os.set_blocking(read, False)
    os.write(write, TREES[:22])
    try:
        return run(program, read) == (b"", UNREAD, 1)
    finally:
        os.close(read)
        os.close(write)


def input_in_pieces(program):
    child = subprocess.Popen([program.path], stdin=subprocess.PIPE, stdout=subprocess.PIPE, stderr=subprocess.PIPE)
    for at in range(0, len(TREES), 5):
        child.stdin.write(TREES[at : at + 5])
        child.stdin.flush()
        time.sleep(0.01)
    return (*child.communicate(timeout=60), child.returncode) == (program.sheet, b"", 0)


def whole_input(program):
    return run(program, file_of(TREES)) == (program.sheet, b"", 0)


def no_input(program):
    return run(program, subprocess.DEVNULL) == (program.empty_sheet, b"", 0)


def refusal(program):
    return run(program, file_of(b"(1,1);")) == (b"refused 3 at 3\n", b"", 0)


def full_disk(program):
    with open("/dev/full", "wb") as stdout:
        return run(program, file_of(TREES), stdout)[1:] == (UNWRITTEN, 1)


def closed_output(program):
    return run(program, file_of(TREES), None)[1:] == (UNWRITTEN, 1)


def file_that_takes_a_part(program):
    half = len(program.sheet) // 2
    with tempfile.TemporaryFile() as stdout:
        told = run(program, file_of(TREES), stdout, half)[1:]
        stdout.seek(0)
        return told == (UNWRITTEN, 1) and stdout.read() == program.sheet[:half]


def pipe_that_takes_a_part(program):
    table = full_table()
    whole, *rest = run(program, file_of(table))
    read, write = os.pipe()
    os.set_blocking(write, False)
    try:
        told = run(program, file_of(table), write)[1:]
        os.set_blocking(read, False)
        part = os.read(read, 1 << 20)
    finally:
        os.close(read)
        os.close(write)
    return rest == [b"", 0] and told == (UNWRITTEN, 1) and len(part) < len(whole) and whole.startswith(part)


CASES = [
    folder,
    closed_input,
    input_that_fails_behind_two_trees,
    input_in_pieces,
    whole_input,
    no_input,
    refusal,
    full_disk,
    closed_output,
    file_that_takes_a_part,
]
# No sheet of islands is longer than a pipe holds.
CASES_OF_THE_LISTER = CASES + [pipe_that_takes_a_part]


def main():
    parser = argparse.ArgumentParser(description="Check a program with streams that fail.")
    parser.add_argument("program", help="path of the pair lister")
    parser.add_argument("--islands", action="store_true", help="the program is that of islands")
    options = parser.parse_args()
    path = os.path.abspath(options.program)
    if options.islands:
        program, cases = Program(path, ISLANDS, b""), CASES
    else:
        program, cases = Program(path, SHEET, b"trees 0 pairs 0\n"), CASES_OF_THE_LISTER
    failed = [case.__name__ for case in cases if not case(program)]
    if failed:
        sys.exit("failures: wrong: " + ", ".join(failed))
    print("failures: %d cases right" % len(cases))


if __name__ == "__main__":
    main()
