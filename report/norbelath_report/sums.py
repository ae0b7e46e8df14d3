"""SHA256SUMS: the digests of a report's files, of the sources and of the programs."""

from __future__ import annotations

import hashlib
import os
import re
from dataclasses import dataclass
from typing import Iterable, Mapping

import dendropy
import norbelath

from .model import Source

NAME = "SHA256SUMS"
SOURCES = "sources/"
PROGRAMS = "programs/"

_DENDROPY = "# read with DendroPy "
_LINE = re.compile(r"([0-9a-f]{64})  ([^\n]+)")


@dataclass(frozen=True)
class Sums:
    """What SHA256SUMS says: digests by name, in the order in which they stand there."""

    files: Mapping[str, str]
    sources: Mapping[str, str]
    programs: Mapping[str, str]
    dendropy: str
    """The version of DendroPy."""

    def text(self) -> bytes:
        """The file, in the format of sha256sum."""
        entries = {**self.files, **self.sources, **self.programs}
        lines = [*(f"{digest}  {name}" for name, digest in entries.items()), _DENDROPY + self.dendropy]
        return "".join(f"{line}\n" for line in lines).encode()


def of(files: Mapping[str, bytes], sources: Iterable[Source]) -> Sums:
    """The sums of a report's files and sources, and of the programs at hand."""
    return Sums(
        files={name: digest(files[name]) for name in sorted(files)},
        sources={f"{SOURCES}{number}/{source.name}": source.digest for number, source in enumerate(sources, 1)},
        programs=_programs(),
        dendropy=dendropy.__version__,
    )


def read(data: bytes) -> Sums:
    """The sums in a file. Lines of another format are left out, so `text` may give other bytes."""
    lines = data.decode("utf-8", "replace").split("\n")
    entries = [(match[2], match[1]) for match in map(_LINE.fullmatch, lines) if match]
    own = [entry for entry in entries if not entry[0].startswith((SOURCES, PROGRAMS))]
    versions = [line[len(_DENDROPY):] for line in lines if line.startswith(_DENDROPY)]
    return Sums(
        files=dict(own),
        sources=dict(entry for entry in entries if entry[0].startswith(SOURCES)),
        programs=dict(entry for entry in entries if entry[0].startswith(PROGRAMS)),
        dendropy=versions[-1] if versions else "",
    )


def digest(data: bytes) -> str:
    """SHA-256 as 64 hexadecimal digits."""
    return hashlib.sha256(data).hexdigest()


def _programs() -> dict[str, str]:
    """The digests of the library, its module and the modules of this package, under names that tell no place."""
    package = os.path.dirname(os.path.abspath(__file__))
    modules = sorted(name for name in os.listdir(package) if name.endswith(".py"))
    paths = {
        "libnorbelath.so.1": norbelath.library_file(),
        "norbelath.py": norbelath.__file__,
        **{f"{__package__}/{name}": os.path.join(package, name) for name in modules},
    }
    return {PROGRAMS + name: digest(_bytes_of(path)) for name, path in paths.items()}


def _bytes_of(path: str) -> bytes:
    """All bytes of a file."""
    with open(path, "rb") as file:
        return file.read()
