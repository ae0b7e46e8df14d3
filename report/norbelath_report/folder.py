"""The folder of a report: its files made, and written so that it is there whole or not at all."""

from __future__ import annotations

import os
import tempfile
import unicodedata
from typing import Mapping, Sequence

import norbelath

from . import drawing, page, reading, sums, tables
from .bar import Stages
from .errors import Refused
from .model import Survey
from .survey import BurnIn, survey, table_text


class Unwritable(Exception):
    """A folder that cannot be written. The words say which and why."""


def make(paths: Sequence[str], burn_in: BurnIn, top: int, stages: Stages) -> tuple[Survey, dict[str, bytes]]:
    """What the report of the samplers' files says, and its files by their names in the folder."""
    for path in paths:
        _check_name(path)
    sample = reading.read(paths, stages.begin("reading"))
    surveyed = survey(sample, burn_in, top, stages.begin("counting clades"))
    return surveyed, files(surveyed, stages)


# Control characters, halves of characters (which stand for bytes that are not UTF-8), separators of lines.
_UNFIT = {"Cc", "Cs", "Zl", "Zp"}


def _check_name(path: str) -> None:
    """Refuses a source whose own name can't stand in a table or in SHA256SUMS."""
    name = os.path.basename(path)
    if "\\" in name or any(unicodedata.category(character) in _UNFIT for character in name):
        words = "the file's name has a backslash, a control character or a byte that is not UTF-8; give it another name"
        raise Refused(path, None, words)


def files(surveyed: Survey, stages: Stages) -> dict[str, bytes]:
    """The files of a report by their names in the folder."""
    table = table_text(topology.text for topology in surveyed.topologies)
    texts = {
        "table.txt": table,
        "sheet.txt": norbelath.sheet(table),
        "names.tsv": tables.names(surveyed),
        "trees.tsv": tables.trees(surveyed),
        "pairs.tsv": tables.pairs(surveyed),
        "clades.tsv": tables.clades(surveyed),
        "sample.tsv": tables.sample(surveyed),
        "settings.tsv": tables.settings(surveyed),
        **_pictures(surveyed, stages),
        "report.html": page.page(surveyed, tables.settings_rows(surveyed)),
    }
    made = {name: text.encode() for name, text in texts.items()}
    return {**made, sums.NAME: sums.of(made, surveyed.sample.sources).text()}


def _pictures(surveyed: Survey, stages: Stages) -> dict[str, str]:
    """The pictures of the graph and of the trees."""
    progress = stages.begin("drawing")
    pictures = {"graph.svg": drawing.graph_svg(surveyed)}
    for topology in surveyed.topologies:
        pictures[drawing.picture_name(topology.position)] = drawing.tree_svg(surveyed, topology)
        progress(len(pictures), len(surveyed.topologies) + 1)
    return pictures


def check_free(folder: str) -> None:
    """Raises `Unwritable` where the folder can't become a report, as it has something in it or nowhere to stand."""
    place = os.path.realpath(folder)
    try:
        if not os.path.lexists(place):
            if not os.path.isdir(os.path.dirname(place)):
                raise Unwritable(f"{folder}: the folder that it is to stand in does not exist")
        elif not os.path.isdir(place):
            raise Unwritable(f"{folder}: is not a folder")
        elif os.listdir(place):
            raise Unwritable(f"{folder}: is not empty; nothing in it is overwritten")
        elif os.path.samefile(place, os.curdir):
            # Renaming would put another folder in its place, and leave the user's shell in the old one.
            raise Unwritable(f"{folder}: is the folder you are in; name another")
    except OSError as failure:
        raise _in_words(folder, failure) from failure


def write(made: Mapping[str, bytes], folder: str) -> None:
    """Writes the files into a folder that does not exist or is empty. After a failure nothing of them is left."""
    check_free(folder)
    place = os.path.realpath(folder)
    try:
        # The temporary folder is the user's alone; the one inside it gets the usual permissions.
        with tempfile.TemporaryDirectory(prefix=".norbelath-", dir=os.path.dirname(place)) as private:
            whole = os.path.join(private, "report")
            os.mkdir(whole)
            for name, data in made.items():
                _write_file(os.path.join(whole, name), data)
            os.rename(whole, place)
    except OSError as failure:
        raise _in_words(folder, failure) from failure


def _write_file(path: str, data: bytes) -> None:
    """Writes a new file, and the folder it stands in where that is missing."""
    os.makedirs(os.path.dirname(path), exist_ok=True)
    with open(path, "xb") as file:
        file.write(data)


def _in_words(folder: str, failure: OSError) -> Unwritable:
    """Why a folder can't be written."""
    return Unwritable(f"{folder}: cannot be written: {failure.strerror or failure}")
