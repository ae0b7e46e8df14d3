"""The tables of the report, as texts with tabs between the columns."""

from __future__ import annotations

from typing import Iterable

import norbelath

from . import __version__
from .model import Link, Survey, share
from .names import named, quoted
from .survey import in_burn_in


def _table(*rows: Iterable[object]) -> str:
    """Rows as lines. The first holds the names of the columns."""
    return "".join("\t".join(map(str, row)) + "\n" for row in rows)


def names(survey: Survey) -> str:
    """names.tsv: the name that each label stands for."""
    return _table(("label", "name"), *sorted(survey.sample.names.items()))


def trees(survey: Survey) -> str:
    """trees.tsv: the topologies of the table."""
    rows = (
        (
            topology.position, topology.visits, share(topology.visits, survey.kept), len(topology.neighbours),
            topology.island, named(topology.text, survey.sample.names),
        )
        for topology in survey.topologies
    )
    return _table(("position", "visits", "share_percent", "neighbours", "island", "tree"), *rows)


def pairs(survey: Survey) -> str:
    """pairs.tsv: the topologies that are one move apart."""
    rows = ((link.first, link.second, _interchange(link)) for link in survey.links)
    return _table(("first", "second", "interchange"), *rows)


def _interchange(link: Link) -> str:
    """Whether a pair is one interchange apart; a dash for unrooted trees, of which it is not asked."""
    return {True: "yes", False: "no", None: "-"}[link.interchange]


def clades(survey: Survey) -> str:
    """clades.tsv: the clades of the trees behind the burn-in. Names are quoted as in a tree, with blanks between."""
    written = {label: quoted(name) for label, name in survey.sample.names.items()}
    rows = (
        (
            clade.visits, share(clade.visits, survey.kept), len(clade.labels),
            " ".join(written[label] for label in clade.labels),
        )
        for clade in survey.clades
    )
    return _table(("visits", "share_percent", "size", "clade"), *rows)


def sample(survey: Survey) -> str:
    """sample.tsv: every tree of the files, and what became of it."""
    sources = survey.sample.sources
    visits = survey.sample.visits
    rows = (
        (
            visit.source + 1, sources[visit.source].name, visit.line, visit.generation,
            "burn-in" if burnt else "not in table" if position is None else position,
        )
        for visit, burnt, position in zip(visits, in_burn_in(visits, survey.left_out), survey.positions)
    )
    return _table(("source", "file", "line", "generation", "position"), *rows)


def settings_rows(survey: Survey) -> list[tuple[str, str]]:
    """With what the report was made, and its numbers. `verify` reads the burn-in and the top from them."""
    read = survey.sample
    rows: list[tuple[str, object]] = [
        ("norbelath", norbelath.__version__),
        ("norbelath_report", __version__),
        *((f"source {number}", source.name) for number, source in enumerate(read.sources, 1)),
        ("burn-in", survey.burn_in),
        ("top", survey.top),
        ("kind", "rooted" if read.rooted else "unrooted"),
        ("taxa", len(read.names)),
        ("trees", len(read.visits)),
        ("trees behind the burn-in", survey.kept),
        ("topologies", survey.distinct),
        ("topologies in the table", len(survey.topologies)),
        ("trees with a topology in the table", survey.covered),
        ("pairs", len(survey.links)),
        ("islands", islands(survey)),
        *(("warning", warning) for warning in read.warnings),
    ]
    return [(name, str(value)) for name, value in rows]


def settings(survey: Survey) -> str:
    """settings.tsv."""
    return _table(("setting", "value"), *settings_rows(survey))


def islands(survey: Survey) -> int:
    """How many islands the table has."""
    return len({topology.island for topology in survey.topologies})
