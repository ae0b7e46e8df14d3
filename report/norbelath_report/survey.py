"""From a sample to what the report says of it, through the proved calls."""

from __future__ import annotations

import re
from collections import Counter
from dataclasses import dataclass
from typing import Callable, Iterable, Optional, Sequence

import norbelath

from .errors import Refused
from .model import Clade, Link, Sample, Source, Survey, Topology, Visit

Progress = Optional[Callable[[int, int], None]]
"""Is told now and then how much is done, and of how much."""

UNROOTED_MARK = "[&U]"


@dataclass(frozen=True)
class BurnIn:
    """How many trees at the start of each file are left out."""

    amount: int
    percent: bool
    """Whether the amount is a percentage of the file's trees, or a number of trees."""

    @classmethod
    def parse(cls, text: str) -> BurnIn:
        """The burn-in that `500` or `25%` stands for; a `ValueError` for any other text."""
        read = re.fullmatch(r"([0-9]{1,18})(%?)", text, re.ASCII)
        if read is None or (read[2] and int(read[1]) >= 100):
            raise ValueError(f"a burn-in is a number of trees or a percentage below 100, not {text!r}")
        return cls(int(read[1]), bool(read[2]))

    def __str__(self) -> str:
        """The text that `parse` reads."""
        return f"{self.amount}%" if self.percent else str(self.amount)

    def of(self, trees: int) -> int:
        """How many of a file's trees it is; a part of a tree is not counted."""
        return trees * self.amount // 100 if self.percent else self.amount


def survey(sample: Sample, burn_in: BurnIn, top: int, progress: Progress = None) -> Survey:
    """What the report says. The table has at most `top` topologies, which is 1 to `norbelath.MAX_TREES`."""
    if not 1 <= top <= norbelath.MAX_TREES:
        raise ValueError(f"a table has 1 to {norbelath.MAX_TREES} trees, not {top}")
    left_out = _left_out(sample.sources, burn_in)
    burnt = in_burn_in(sample.visits, left_out)
    kept = [visit.text for visit, out in zip(sample.visits, burnt) if not out]
    visits = Counter(kept)
    # Of as many visits `most_common` gives those first that were counted first.
    table = visits.most_common(top)
    position_of = {text: position for position, (text, _) in enumerate(table)}
    topologies, links = _connected(table, sample.rooted)
    clades = _clades(kept, sample.names, progress) if sample.rooted else ()
    return Survey(
        sample=sample,
        burn_in=str(burn_in),
        left_out=left_out,
        top=top,
        positions=tuple(
            None if out else position_of.get(visit.text) for visit, out in zip(sample.visits, burnt)
        ),
        kept=len(kept),
        distinct=len(visits),
        topologies=topologies,
        links=links,
        clades=clades,
        majority=_majority(sample.names, clades, len(kept)) if sample.rooted else None,
    )


def _left_out(sources: Sequence[Source], burn_in: BurnIn) -> tuple[int, ...]:
    """How many trees of each file are burn-in. Each file keeps a tree."""
    for number, source in enumerate(sources, 1):
        if burn_in.of(source.trees) >= source.trees:
            words = f"a burn-in of {burn_in} leaves none of the {source.trees} trees of file {number}"
            raise Refused(source.name, None, words)
    return tuple(burn_in.of(source.trees) for source in sources)


def in_burn_in(visits: Iterable[Visit], left_out: Sequence[int]) -> list[bool]:
    """For each tree of a sample whether it is burn-in: one of the first of its file."""
    seen = [0] * len(left_out)
    burnt = []
    for visit in visits:
        burnt.append(seen[visit.source] < left_out[visit.source])
        seen[visit.source] += 1
    return burnt


def table_text(texts: Iterable[str]) -> str:
    """Trees as a text that the calls and the pair lister read: one a line."""
    return "".join(f"{text}\n" for text in texts)


def drawn(text: str) -> str:
    """The rooted text that is drawn for a canonical text: an unrooted tree is hung from its smallest label.

    That label stands first in the canonical text, next to the top.
    """
    if not text.startswith(UNROOTED_MARK):
        return text
    tree = text[len(UNROOTED_MARK):]
    smallest, _, rest = tree[1:-2].partition(",")
    return f"({smallest},({rest}));" if "," in rest else tree


def _connected(
    table: Sequence[tuple[str, int]], rooted: bool
) -> tuple[tuple[Topology, ...], tuple[Link, ...]]:
    """The topologies of the table, given with their visits, and the links between them."""
    text = table_text(tree for tree, _ in table)
    graph = norbelath.islands(text)
    if graph.firsts != tuple(range(len(table))):
        raise AssertionError("equal topologies have different canonical texts")
    interchanges = set(norbelath.interchanges(text).pairs) if rooted else None
    topologies = tuple(
        Topology(position, tree, visits, neighbours, island, drawn(tree), norbelath.plot(drawn(tree)))
        for position, ((tree, visits), neighbours, island)
        in enumerate(zip(table, graph.neighbours(), graph.islands))
    )
    links = tuple(
        Link(*pair, None if interchanges is None else pair in interchanges) for pair in graph.pairs
    )
    return topologies, links


def _clades(kept: Sequence[str], labels: Iterable[int], progress: Progress) -> tuple[Clade, ...]:
    """The clades of all trees behind the burn-in, in the order of the support call, without that of all labels."""
    visits: Counter[int] = Counter()
    for start in range(0, len(kept), norbelath.MAX_TREES):
        group = kept[start:start + norbelath.MAX_TREES]
        for clade in norbelath.support(table_text(group)).clades:
            visits[clade.number] += clade.trees
        if progress is not None:
            progress(start + len(group), len(kept))
    del visits[sum(1 << (label - 1) for label in labels)]
    clades = (Clade(norbelath.labels(number), trees) for number, trees in visits.items())
    return tuple(sorted(clades, key=lambda clade: (-clade.visits, clade.labels)))


def _majority(names: Iterable[int], clades: Iterable[Clade], trees: int) -> str:
    """The text of the majority tree: its clades are those of more than half of the trees, each label and all labels."""
    labels = tuple(sorted(names))
    # The parts that are not joined yet, by their smallest labels.
    parts = {label: str(label) for label in labels}
    frequent = [clade.labels for clade in clades if 2 * clade.visits > trees]
    joined = sorted([*frequent, labels], key=len) if len(labels) > 1 else []
    for clade in joined:
        inside = [parts.pop(label) for label in clade if label in parts]
        parts[clade[0]] = f"({','.join(inside)})"
    return parts[labels[0]] + ";"
