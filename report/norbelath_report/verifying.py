"""A report's folder compared with the files made again."""

from __future__ import annotations

import os
import stat
from dataclasses import dataclass, replace
from typing import Iterator, Mapping, Optional, Sequence

import norbelath

from . import sums
from .bar import Stages
from .folder import make
from .survey import BurnIn

SETTINGS = "settings.tsv"

SIGNATURES = {f"{sums.NAME}.asc", f"{sums.NAME}.gpg", f"{sums.NAME}.sig"}
"""What gpg and ssh-keygen put beside SHA256SUMS. To check them is the user's own."""

_MOST = 1 << 24
"""The most bytes that are read of a file whose length is not known: settings.tsv, SHA256SUMS."""


@dataclass(frozen=True)
class Findings:
    """What differs between a folder and the files made again."""

    differences: tuple[str, ...]
    """Those of the files and the sources, in words."""
    programs: tuple[str, ...] = ()
    """The names of the programs that are not those that made the report."""
    files: int = 0
    """How many files were compared."""

    def lines(self) -> list[str]:
        """A line for every difference."""
        others = [f"{name}: not the one that made the report" for name in self.programs]
        if others and not self.differences:
            others[-1] += "; everything else is the same"
        return [*self.differences, *others]


class _Unusable(Exception):
    """A file that can't be used. The words say why."""


def verify(folder: str, paths: Sequence[str], stages: Stages) -> Findings:
    """Makes a report again, with the settings in its folder, and compares."""
    try:
        burn_in, top = _settings(_content(folder, SETTINGS, _MOST))
    except _Unusable as fault:
        return Findings((f"{SETTINGS}: {fault}; nothing else was compared",))
    _, made = make(paths, burn_in, top, stages)
    return compare(folder, made)


def _settings(data: bytes) -> tuple[BurnIn, int]:
    """The burn-in and the top in settings.tsv."""
    rows = [line.split("\t") for line in data.decode("utf-8", "replace").split("\n")]
    values = {row[0]: row[1] for row in rows if len(row) == 2}
    try:
        burn_in, top = BurnIn.parse(values["burn-in"]), int(values["top"])
    except (KeyError, ValueError):
        raise _Unusable("the burn-in or the top cannot be read from it") from None
    if not 1 <= top <= norbelath.MAX_TREES:
        raise _Unusable(f"a top of {top} is in no report")
    return burn_in, top


def compare(folder: str, made: Mapping[str, bytes]) -> Findings:
    """What differs in a folder from the files of a report."""
    now = sums.read(made[sums.NAME])
    try:
        recorded = sums.read(_content(folder, sums.NAME, _MOST))
    except _Unusable:
        # That SHA256SUMS is missing is a difference of the files; sources and programs can't be compared then.
        recorded = now
    # Other digests of sources and programs are told in words of their own, so the lines are compared without them.
    expected = replace(
        now,
        sources=_updated(now.sources, recorded.sources),
        programs=_updated(now.programs, recorded.programs),
        dendropy=recorded.dendropy,
    )
    differences = (
        *_other_settings(folder, recorded.files),
        *_other_sources(recorded.sources, now.sources),
        *_other_files(folder, {**made, sums.NAME: expected.text()}),
    )
    return Findings(differences, tuple(_other_programs(recorded, now)), len(made))


def _other_settings(folder: str, recorded: Mapping[str, str]) -> Iterator[str]:
    """Whether the settings were changed. Then the report is made again with others, and much else differs."""
    if sums.digest(_content(folder, SETTINGS, _MOST)) != recorded.get(SETTINGS):
        yield f"{SETTINGS}: not the one that {sums.NAME} lists"


def _updated(digests: Mapping[str, str], others: Mapping[str, str]) -> dict[str, str]:
    """The digests that the others have under the same names, and else the own ones."""
    return {name: others.get(name, digest) for name, digest in digests.items()}


def _other_sources(recorded: Mapping[str, str], given: Mapping[str, str]) -> Iterator[str]:
    """Which given sources are not those that the report was made from, and which of these are not given."""
    for name, digest in given.items():
        same = [other for other, its in recorded.items() if its == digest]
        if recorded.get(name) == digest:
            continue
        if same:
            yield f"{name}: the report has this file as {same[0]}"
        else:
            yield f"{name}: not a file that the report was made from"
    for name, digest in recorded.items():
        if name not in given and digest not in given.values():
            yield f"{name}: the report was made from it, but it is not given"


def _other_programs(recorded: sums.Sums, now: sums.Sums) -> Iterator[str]:
    """The programs that are not those that made the report."""
    for name in sorted({*recorded.programs, *now.programs}):
        if recorded.programs.get(name) != now.programs.get(name):
            yield name
    if recorded.dendropy != now.dendropy:
        yield f"DendroPy {now.dendropy}"


def _other_files(folder: str, made: Mapping[str, bytes]) -> Iterator[str]:
    """The files of a folder that differ, are missing or do not belong to the report."""
    for name in sorted({*made, *_names_in(folder, made)} - SIGNATURES):
        difference = _difference(folder, name, made[name]) if name in made else "not of the report"
        if difference:
            yield f"{_shown(name)}: {difference}"


def _names_in(folder: str, made: Mapping[str, bytes]) -> Iterator[str]:
    """The names of all files in a folder, and of the folders in it that the report does not have."""
    known = {os.path.dirname(name) for name in made}
    waiting = [""]
    while waiting:
        inner = waiting.pop()
        for entry in os.scandir(os.path.join(folder, inner)):
            name = os.path.join(inner, entry.name)
            if not entry.is_dir(follow_symlinks=False):
                yield name
            elif name in known:
                waiting.append(name)
            else:
                yield f"{name}/"


def _difference(folder: str, name: str, made: bytes) -> Optional[str]:
    """How a file differs from the one made again, or nothing."""
    try:
        found = _content(folder, name, len(made) + 1)
    except _Unusable as fault:
        return str(fault)
    if found == made:
        return None
    line = os.path.commonprefix([found, made]).count(b"\n") + 1
    return f"line {line} differs"


def _content(folder: str, name: str, most: int) -> bytes:
    """The bytes of a file, but not more than `most`."""
    path = os.path.join(folder, name)
    try:
        if not stat.S_ISREG(os.lstat(path).st_mode):
            raise _Unusable("not a plain file")
        with open(path, "rb") as file:
            return file.read(most)
    except (FileNotFoundError, NotADirectoryError):
        raise _Unusable("missing") from None
    except OSError as failure:
        raise _Unusable(f"cannot be read: {failure.strerror}") from failure


def _shown(name: str) -> str:
    """A name without characters that would change how a line looks."""
    return "".join(character if character.isprintable() else ascii(character)[1:-1] for character in name)
