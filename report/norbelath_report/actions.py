"""What the command does: its arguments, and the report and verify parts."""

from __future__ import annotations

import argparse
import errno
import os
import sys
from typing import Iterable, Sequence

import norbelath

from . import __version__, folder, tables, verifying
from .bar import Stages
from .command import NOT_ACCEPTED, TROUBLE, complain
from .errors import Refused
from .model import Survey, share
from .survey import BurnIn


def run(arguments: Sequence[str]) -> int:
    """Runs the command with its arguments. Gives its status."""
    asked = _parser().parse_args(arguments)
    stages = Stages(sys.stderr)
    try:
        return asked.action(asked, stages)
    except Refused as refusal:
        status, words = NOT_ACCEPTED, str(refusal)
    except folder.Unwritable as failure:
        status, words = TROUBLE, str(failure)
    finally:
        stages.end()
    complain(words)
    return status


def _say(lines: Iterable[str]) -> None:
    """Writes lines to standard output."""
    try:
        if sys.stdout is None:
            raise OSError(errno.EBADF, os.strerror(errno.EBADF))
        # A file's name may hold what the terminal can't show.
        sys.stdout.reconfigure(errors="backslashreplace")
        print("\n".join(lines), flush=True)
    except OSError as failure:
        # Python would try once more at its end, and complain in its own words.
        sys.stdout = None
        raise folder.Unwritable(f"standard output: cannot be written: {failure.strerror}") from failure


def _parser() -> argparse.ArgumentParser:
    """The arguments of the command."""
    parser = argparse.ArgumentParser(prog="norbelath", description="Neighbour reports of samplers' tree files.")
    parser.add_argument("--version", action="version", version=f"norbelath {__version__}")
    commands = parser.add_subparsers(dest="command", metavar="COMMAND", required=True)

    report = commands.add_parser("report", help="make a report", description="Makes a report of samplers' tree files.")
    report.add_argument("files", metavar="FILE", nargs="+", help="a sampler's tree file")
    report.add_argument("-o", dest="folder", metavar="FOLDER", required=True,
                        help="the folder to write, which does not exist or is empty")
    report.add_argument("--burn-in", metavar="N|N%", type=_burn_in, default="0",
                        help="leave out the first N trees, or N%% of the trees, of each file (0)")
    report.add_argument("--top", metavar="N", type=_top, default=norbelath.MAX_TREES,
                        help="at most the N most visited topologies stand in the table (%(default)s)")
    report.set_defaults(action=_report)

    verify = commands.add_parser("verify", help="compare a report with one made again",
                                 description="Makes a report again from its sources, and compares every byte.")
    verify.add_argument("folder", metavar="FOLDER", help="the folder of the report")
    verify.add_argument("files", metavar="FILE", nargs="+", help="the files it was made from, in the same order")
    verify.set_defaults(action=_verify)
    return parser


def _burn_in(text: str) -> BurnIn:
    """A burn-in as it is given."""
    try:
        return BurnIn.parse(text)
    except ValueError as wrong:
        raise argparse.ArgumentTypeError(str(wrong)) from None


def _top(text: str) -> int:
    """The most trees of a table as it is given."""
    if not (text.isascii() and text.isdigit() and len(text) <= 9 and 1 <= int(text) <= norbelath.MAX_TREES):
        raise argparse.ArgumentTypeError(f"a table has 1 to {norbelath.MAX_TREES} trees, not {text!r}")
    return int(text)


def _report(asked: argparse.Namespace, stages: Stages) -> int:
    """Makes and writes a report."""
    folder.check_free(asked.folder)
    surveyed, made = folder.make(asked.files, asked.burn_in, asked.top, stages)
    folder.write(made, asked.folder)
    stages.end()
    for warning in surveyed.sample.warnings:
        complain(f"warning: {warning}")
    _say([*_summary(surveyed), f"folder: {asked.folder}"])
    return 0


def _summary(surveyed: Survey) -> list[str]:
    """The report in a few lines."""
    pairs = f"pairs: {len(surveyed.links)}"
    if surveyed.sample.rooted:
        pairs += f", {sum(bool(link.interchange) for link in surveyed.links)} of them interchanges"
    return [
        f"trees: {len(surveyed.sample.visits)}, {surveyed.kept} of them behind the burn-in",
        f"topologies: {surveyed.distinct}, {len(surveyed.topologies)} of them in the table, "
        f"which covers {share(surveyed.covered, surveyed.kept)}% of the trees",
        pairs,
        f"islands: {tables.islands(surveyed)}",
    ]


def _verify(asked: argparse.Namespace, stages: Stages) -> int:
    """Compares a report with one made again."""
    if not os.path.isdir(asked.folder):
        complain(f"{asked.folder}: there is no such folder")
        return TROUBLE
    findings = verifying.verify(asked.folder, asked.files, stages)
    stages.end()
    lines = findings.lines()
    if lines:
        _say(lines)
        return NOT_ACCEPTED
    sources = ", ".join(map(os.path.basename, asked.files))
    _say([f"{asked.folder}: as made from {sources}: {findings.files} files"])
    return 0
