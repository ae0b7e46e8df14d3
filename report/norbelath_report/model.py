"""What is read from samplers' files, and what the report says of it."""

from __future__ import annotations

from dataclasses import dataclass
from functools import cached_property
from typing import Optional

import norbelath


@dataclass(frozen=True)
class Source:
    """A sampler's file."""

    name: str
    """The file's own name, without folders."""
    digest: str
    """SHA-256 of its bytes, as 64 hexadecimal digits."""
    trees: int
    """How many whole trees it has."""


@dataclass(frozen=True)
class Visit:
    """A sampled tree."""

    source: int
    """Which file, from 0."""
    line: int
    """The line on which its command begins, from 1."""
    generation: str
    """The generation as the file gives it, or nothing where it gives none."""
    text: str
    """The canonical text, with labels for names."""


@dataclass(frozen=True)
class Sample:
    """All trees of the files, in order."""

    rooted: bool
    names: dict[int, str]
    """The name that each label stands for."""
    sources: tuple[Source, ...]
    visits: tuple[Visit, ...]
    warnings: tuple[str, ...]
    """What the reader of the report has to know: a tree that was cut off, trees without a mark."""


@dataclass(frozen=True)
class Topology:
    """A tree of the table."""

    position: int
    """Its position in the table, from 0."""
    text: str
    """Its canonical text."""
    visits: int
    """How often it was visited behind the burn-in."""
    neighbours: tuple[int, ...]
    """The positions that are one move away, ascending."""
    island: int
    """The smallest position in its island."""
    drawn: str
    """The rooted text that is drawn: its own, or where it is unrooted that of the tree hung from its smallest label."""
    plot: norbelath.Plot
    """The plot of that text."""


@dataclass(frozen=True)
class Link:
    """Two trees of the table that are one move apart."""

    first: int
    second: int
    interchange: Optional[bool]
    """Whether they are also one nearest-neighbour interchange apart; nothing for unrooted trees."""


@dataclass(frozen=True)
class Clade:
    """A clade of two or more labels, but not all, of a tree behind the burn-in."""

    labels: tuple[int, ...]
    visits: int
    """How many of the trees behind the burn-in have it."""


@dataclass(frozen=True)
class Survey:
    """What the report says."""

    sample: Sample
    burn_in: str
    """The burn-in as it was asked for: a number or a percentage."""
    left_out: tuple[int, ...]
    """How many trees of each file are burn-in."""
    top: int
    """The most trees that the table may have."""
    positions: tuple[Optional[int], ...]
    """For each tree of the sample its position in the table; nothing for burn-in, and for topologies not in the table."""
    kept: int
    """How many trees are behind the burn-in."""
    distinct: int
    """How many topologies they have."""
    topologies: tuple[Topology, ...]
    """The table: the most visited first, and of as many visits the first visited."""
    links: tuple[Link, ...]
    """In order of the first and then the second."""
    clades: tuple[Clade, ...]
    """The most supported first, in the order of the support call; none for unrooted trees."""
    majority: Optional[str]
    """The text of the majority tree of all trees behind the burn-in, with labels; nothing for unrooted trees."""

    @cached_property
    def covered(self) -> int:
        """How many trees behind the burn-in have a topology of the table."""
        return sum(topology.visits for topology in self.topologies)

    @cached_property
    def support(self) -> dict[tuple[int, ...], int]:
        """How many trees behind the burn-in have a clade, by its labels."""
        return {clade.labels: clade.visits for clade in self.clades}


def share(part: int, whole: int) -> str:
    """A part in percent of the whole, with two decimals, a half rounded up."""
    hundredths = (20_000 * part + whole) // (2 * whole)
    return f"{hundredths // 100}.{hundredths % 100:02}"
