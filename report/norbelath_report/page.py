"""report.html: what was found, for people, in one file that needs no other."""

from __future__ import annotations

import shlex
from typing import Iterable, Sequence

import norbelath

from . import drawing
from .markup import counted, escaped, percent
from .model import Survey

INLINE_TREES = 3
"""How many trees of the table have their picture in the page."""
SHOWN_CLADES = 25
"""How many clades the page lists."""

_STYLE = """
:root { color-scheme: light dark; --ink: #1a1a1a; --soft: #595959; --paper: #ffffff; --line: #c8c8c8; --ground: #f4f4f4;
--link: #0b57a8; --warn: #8a4b00; }
@media screen and (prefers-color-scheme: dark) {
:root { --ink: #ececec; --soft: #b0b0b0; --paper: #16181c; --line: #44484f; --ground: #22252a; --link: #8ab4f8;
--warn: #f0b060; }
}
* { box-sizing: border-box; }
body { margin: 0; background: var(--paper); color: var(--ink); font: 16px/1.5 sans-serif; }
bdi, code, pre { overflow-wrap: anywhere; }
main { max-width: 54rem; margin: 0 auto; padding: 1rem; }
h1 { line-height: 1.2; margin: 0.5rem 0; }
h2 { line-height: 1.2; margin: 2.5rem 0 0.75rem; border-bottom: 1px solid var(--line); padding-bottom: 0.25rem; }
h3 { margin: 1.5rem 0 0.5rem; }
a { color: var(--link); }
code, pre { font-family: monospace; font-size: 0.9em; }
pre { background: var(--ground); padding: 0.75rem; white-space: pre-wrap; }
.warnings { border-left: 4px solid var(--warn); padding: 0.25rem 1rem; background: var(--ground); }
.numbers { display: grid; grid-template-columns: repeat(auto-fill, minmax(8rem, 1fr)); gap: 0.5rem; margin: 1rem 0; }
.numbers div { background: var(--ground); padding: 0.5rem 0.75rem; }
.numbers dt { color: var(--soft); font-size: 0.9rem; }
.numbers dd { margin: 0; font-size: 1.35rem; font-weight: bold; white-space: nowrap; }
.wide { overflow-x: auto; }
table { border-collapse: collapse; width: 100%; margin: 0.5rem 0; }
caption { text-align: left; color: var(--soft); padding-bottom: 0.25rem; }
th, td { text-align: left; vertical-align: top; padding: 0.25rem 0.75rem 0.25rem 0; border-bottom: 1px solid var(--line); }
.right { text-align: right; font-variant-numeric: tabular-nums; white-space: nowrap; }
.pictures { display: flex; flex-wrap: wrap; gap: 0 1rem; }
figure { margin: 1rem 0; max-width: 100%; overflow-x: auto; }
figure svg { display: block; }
@media print {
body { font-size: 10pt; }
main { max-width: none; padding: 0; }
a { color: inherit; text-decoration: none; }
.wide, figure { overflow: visible; }
.pictures { display: block; }
tr, figure, pre, li, .warnings, .numbers div { break-inside: avoid; }
h2, h3 { break-after: avoid; }
figure svg { max-width: 100%; max-height: 230mm; height: auto; }
}
"""

_FILES = (
    ("table.txt", "the table: the text that the library was given, one tree a line"),
    ("sheet.txt", "the neighbour report of the table, as the pair lister prints it"),
    ("names.tsv", "the name that each label stands for"),
    ("trees.tsv", "the trees of the table with names, visits, neighbours and islands"),
    ("pairs.tsv", "the pairs of trees that are one move apart"),
    ("clades.tsv", "the clades of a rooted sample and how many visits have each"),
    ("sample.tsv", "each tree of the files, and its position in the table"),
    ("settings.tsv", "how the report was made"),
    ("graph.svg", "the graph"),
    ("trees/", "a picture of each tree of the table"),
    ("SHA256SUMS", "check sums of these files, of the samplers' files and of the programs"),
)


def page(survey: Survey, settings: Sequence[tuple[str, str]]) -> str:
    """The page. `settings` are rows of a name and a value, which it shows as they are."""
    title = "Neighbour report"
    files = ", ".join(source.name for source in survey.sample.sources)
    sections = [
        *_read(survey), *_warnings(survey), *_numbers(survey), *_graph(survey), *_trees(survey), *_islands(survey),
        *(_clades(survey) if survey.sample.rooted else ()), *_next_run(survey), *_proved(survey), *_checks(survey),
        *_files(settings),
    ]
    return "\n".join([
        "<!DOCTYPE html>", '<html lang="en">', "<head>", '<meta charset="utf-8">',
        '<meta name="viewport" content="width=device-width, initial-scale=1">',
        f"<title>{title}: {escaped(files)}</title>", f"<style>{_STYLE}</style>", "</head>", "<body>", "<main>",
        f"<h1>{title}</h1>",
        "<p>Which of the trees that a sampler visited are one subtree move apart. Trees are numbered by their position in"
        " the table of the most visited topologies, counted from 0.</p>",
        *sections, "</main>", "</body>", "</html>\n",
    ])


# The parts of the page, from top to bottom


def _read(survey: Survey) -> Iterable[str]:
    """The files."""
    sample = survey.sample
    yield "<h2>What was read</h2>"
    rows = [
        (_name(source.name), f"{source.trees:,}", f"{left_out:,}", f"{source.trees - left_out:,}")
        for source, left_out in zip(sample.sources, survey.left_out)
    ]
    yield _table("The samplers' files", ("file", ">trees", ">burn-in", ">visits"), rows)
    kind = "rooted" if sample.rooted else "unrooted"
    yield (
        f"<p>The trees are {kind} and have {counted(len(sample.names), 'name', 'names')}. The burn-in was given as"
        f" {escaped(survey.burn_in)} for each file. A visit is a tree behind it; there are {survey.kept:,}.</p>"
    )


def _warnings(survey: Survey) -> Iterable[str]:
    """What the reader of the files has warned of."""
    if survey.sample.warnings:
        yield '<div class="warnings">'
        yield "<h3>Warnings</h3>"
        yield _list(_name(warning) for warning in survey.sample.warnings)
        yield "</div>"


def _numbers(survey: Survey) -> Iterable[str]:
    """The numbers that matter most."""
    numbers = [
        ("topologies visited", f"{survey.distinct:,}"),
        ("topologies in the table", f"{len(survey.topologies):,}"),
        ("visits that the table covers", percent(survey.covered, survey.kept)),
        ("pairs one move apart", f"{len(survey.links):,}"),
        ("islands", f"{len(_members(survey)):,}"),
    ]
    if survey.sample.rooted:
        numbers.insert(4, ("of these, interchanges", f"{_interchanges(survey):,}"))
    yield "<h2>In short</h2>"
    yield '<dl class="numbers">'
    for name, number in numbers:
        yield f"<div><dt>{name}</dt><dd>{number}</dd></div>"
    yield "</dl>"
    missing = survey.distinct - len(survey.topologies)
    if missing:
        yield (
            f"<p>The table takes the {len(survey.topologies):,} most visited topologies and leaves out {missing:,}, with"
            f" {counted(survey.kept - survey.covered, 'visit', 'visits')}. Nothing is said of the neighbours of these.</p>"
        )


def _graph(survey: Survey) -> Iterable[str]:
    """The picture of the graph."""
    yield "<h2>The graph</h2>"
    yield _figure(drawing.graph_svg(survey))


def _trees(survey: Survey) -> Iterable[str]:
    """The pictures of the first trees, and the table."""
    yield "<h2>The trees</h2>"
    yield '<div class="pictures">'
    for topology in survey.topologies[:INLINE_TREES]:
        yield _figure(drawing.tree_svg(survey, topology))
    yield "</div>"
    so_far = 0
    rows = []
    for topology in survey.topologies:
        so_far += topology.visits
        rows.append((
            str(topology.position), f"{topology.visits:,}", percent(topology.visits, survey.kept),
            percent(so_far, survey.kept), f"{len(topology.neighbours):,}", str(topology.island),
            _link(drawing.picture_name(topology.position)),
        ))
    columns = (">tree", ">visits", ">share", ">share so far", ">neighbours", ">island", "picture")
    yield _table("The most visited topologies", columns, rows)


def _islands(survey: Survey) -> Iterable[str]:
    """The islands, in order of number."""
    yield "<h2>Islands</h2>"
    yield (
        "<p>An island is a group of trees of the table that chains of pairs join. Its number is that of its most visited"
        " tree.</p>"
    )
    rows = []
    for island, members in sorted(_members(survey).items()):
        visits = sum(survey.topologies[position].visits for position in members)
        rows.append((str(island), f"{len(members):,}", f"{visits:,}", percent(visits, survey.kept)))
    yield _table("Islands of the table", (">island", ">trees", ">visits", ">share"), rows)


def _clades(survey: Survey) -> Iterable[str]:
    """The most supported clades and the majority tree."""
    yield "<h2>Clades</h2>"
    rows = [
        (
            f"{clade.visits:,}", percent(clade.visits, survey.kept), f"{len(clade.labels):,}",
            ", ".join(_name(survey.sample.names[label]) for label in clade.labels),
        )
        for clade in survey.clades[:SHOWN_CLADES]
    ]
    yield (
        f"<p>All {counted(survey.kept, 'visit is', 'visits are')} counted, also those whose topology is not in the table."
        f" They have {counted(len(survey.clades), 'clade', 'clades')} of two or more names, but not all.</p>"
    )
    yield _table("The most supported clades", (">visits", ">share", ">names", "clade"), rows)
    if survey.majority:
        yield "<h3>The majority tree</h3>"
        yield f"<p>Its clades are those of more than half of the visits. With labels: <code>{survey.majority}</code></p>"
        yield _figure(drawing.majority_svg(survey))


def _next_run(survey: Survey) -> Iterable[str]:
    """What the islands say of a sampler's moves, and no more."""
    islands = len(_members(survey))
    yield "<h2>For the next run</h2>"
    if islands > 1:
        yield (
            "<p>No single prune-and-regraft move turns a tree of one island into a tree of another. A sampler whose every"
            " step is at most one such move came from one island to another only through trees that are not in the table:"
            " less visited ones, burn-in, or trees between two that were written down.</p>"
        )
    else:
        yield "<p>There is one island: chains of single prune-and-regraft moves through trees of the table join them all.</p>"
    if survey.sample.rooted:
        groups = _joined_by_interchanges(survey)
        others = len(survey.links) - _interchanges(survey)
        yield (
            f"<p>Interchanges alone join the trees of the table into {counted(groups, 'group', 'groups')}, all moves into"
            f" {counted(islands, 'island', 'islands')}. A sampler that proposes interchanges only cannot go directly"
            f" between the two trees of {counted(others, 'pair', 'pairs')}.</p>"
        )
    yield (
        "<p>It does not follow that a sampler is caught in an island: trees outside the table may join islands, and how"
        " likely a move is was not looked at.</p>"
    )


def _proved(survey: Survey) -> Iterable[str]:
    """What is proved and what is not."""
    rooted = survey.sample.rooted
    yield "<h2>What is proved, and what is not</h2>"
    yield (
        "<p>The library Norbelath is written in Rattle, where every function is proved to meet its contract. Three demands"
        " are proved of it, for all texts:</p>"
    )
    yield (
        "<ol><li>every text, however broken, gets the right answer or the right refusal;</li>"
        "<li>the canonical text is SDLNewick, and unique: two trees have the same one exactly when they have the same"
        " topology;</li>"
        "<li>a pair is listed once, exactly when one move joins two different topologies.</li></ol>"
    )
    yield "<h3>Proved</h3>"
    yield _list([
        "the canonical text of each tree that the library was given, with labels for names: two trees are one topology"
        " exactly where it is the same (demands 1 and 2);",
        "for <code>table.txt</code>: the pairs (demand 3), the islands"
        + (", which pairs are interchanges" if rooted else "") + ", and <code>sheet.txt</code>;",
        *([
            f"how many trees have each clade, for each group of at most {norbelath.MAX_TREES} visits in order;",
            "the row and the column of each node of a tree of the table.",
        ] if rooted else ["the row and the column of each node of a tree that is drawn, as it is hung."]),
    ])
    yield "<h3>Not proved</h3>"
    yield _list([
        "the reading of the samplers' files, by this command and DendroPy, and which label stands for which name;",
        "the Python module that hands texts to the library, the compiler and the machine;",
        "the choice of the table: the burn-in, the counting of equal texts, their order, and the shares;",
        "the adding up of the groups' clades, and the majority tree of the sums;" if rooted
        else "how an unrooted tree is hung from its first name;",
        "the drawing of the graph and the trees, the tables with names, and this page.",
    ])


def _checks(survey: Survey) -> Iterable[str]:
    """How a reader checks the report."""
    files = " ".join(shlex.quote(source.name) for source in survey.sample.sources)
    yield "<h2>Check it by hand</h2>"
    yield "<p>In the folder of this report, the pair lister makes the sheet again; nothing is printed where it is the same:</p>"
    yield "<pre>pair_lister &lt; table.txt | cmp - sheet.txt</pre>"
    yield "<p>That no file of the folder was changed since the check sums were written:</p>"
    yield "<pre>sha256sum -c --ignore-missing SHA256SUMS</pre>"
    yield "<p>That the samplers' files give this report, every byte of it (FOLDER is where it lies):</p>"
    yield f"<pre>norbelath verify FOLDER {escaped(files)}</pre>"


def _files(settings: Sequence[tuple[str, str]]) -> Iterable[str]:
    """The folder, and the settings."""
    yield "<h2>The folder</h2>"
    rows = [(_link(name), words) for name, words in _FILES]
    yield _table("Files beside this page", ("file", "holds"), rows)
    yield "<h2>Settings</h2>"
    yield _table("How the report was made", ("setting", "value"), [(_name(name), _name(value)) for name, value in settings])


# What the parts are made of


def _members(survey: Survey) -> dict[int, list[int]]:
    """The positions of each island."""
    members: dict[int, list[int]] = {}
    for topology in survey.topologies:
        members.setdefault(topology.island, []).append(topology.position)
    return members


def _interchanges(survey: Survey) -> int:
    """How many pairs are one interchange apart."""
    return sum(link.interchange is True for link in survey.links)


def _joined_by_interchanges(survey: Survey) -> int:
    """How many groups of trees chains of interchanges make."""
    group = list(range(len(survey.topologies)))
    for link in survey.links:
        if link.interchange and group[link.first] != group[link.second]:
            old, new = group[link.second], group[link.first]
            group = [new if number == old else number for number in group]
    return len(set(group))


def _name(text: str) -> str:
    """A text that others have chosen. Whatever its direction, the words around it keep theirs."""
    return f"<bdi>{escaped(text)}</bdi>"


def _link(file: str) -> str:
    """A file of the folder."""
    return f'<a href="{file}">{file}</a>'


def _list(items: Iterable[str]) -> str:
    """A list of items that are HTML."""
    return "<ul>" + "".join(f"<li>{item}</li>" for item in items) + "</ul>"


def _figure(svg: str) -> str:
    """A picture, which has its title and its caption in itself."""
    return f'<figure tabindex="0">\n{svg}</figure>'


def _table(caption: str, columns: Sequence[str], rows: Iterable[Sequence[str]]) -> str:
    """A table of cells that are HTML. A column whose name begins with `>` is set to the right. The first names its row."""
    kinds = [' class="right"' if column.startswith(">") else "" for column in columns]
    heads = (f'<th scope="col"{kind}>{column.lstrip(">")}</th>' for kind, column in zip(kinds, columns))
    lines = [
        f'<div class="wide" tabindex="0" role="region" aria-label="{caption}"><table><caption>{caption}</caption>',
        f'<thead><tr>{"".join(heads)}</tr></thead>',
        "<tbody>",
    ]
    for row in rows:
        cells = "".join(f"<td{kind}>{cell}</td>" for kind, cell in zip(kinds[1:], row[1:]))
        lines.append(f'<tr><th scope="row"{kinds[0]}>{row[0]}</th>{cells}</tr>')
    return "\n".join([*lines, "</tbody></table></div>"])
