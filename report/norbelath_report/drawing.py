"""The pictures: the graph of the table, and its trees.

A picture may stand in the page beside others, so its styles and the names of its parts begin with a class or a name that
is its own. It is dark only on a screen: paper is white.
"""

from __future__ import annotations

import re
from dataclasses import dataclass
from typing import Callable, Iterable, Optional, Sequence

from . import layout
from .markup import counted, escaped, percent
from .model import Link, Survey, Topology

MARGIN = 16.0

# Colours that people with any kind of sight tell apart (Okabe and Ito), each with the colour of the words on it.
_PALETTE = (
    ("#56b4e9", "#000"), ("#e69f00", "#000"), ("#009e73", "#000"), ("#cc79a7", "#000"), ("#0072b2", "#fff"),
    ("#f0e442", "#000"), ("#d55e00", "#000"),
)
_NEUTRAL = len(_PALETTE)

_COLOURS = """
.{0} {{ --ink: #1a1a1a; --soft: #595959; --paper: #ffffff; --neutral: #e4e4e4; }}
@media screen and (prefers-color-scheme: dark) {{
.{0} {{ --ink: #ececec; --soft: #b0b0b0; --paper: #16181c; --neutral: #3a3d42; }}
}}
.{0} .paper {{ fill: var(--paper); }}
.{0} text {{ fill: var(--ink); font: 12px sans-serif; }}
.{0} .heading {{ font-weight: bold; font-size: 14px; }}
.{0} .soft {{ fill: var(--soft); }}"""


def picture_name(position: int) -> str:
    """The name that the picture of a tree of the table has in the folder."""
    return f"trees/{position:03}.svg"


# The graph


_LABELLED = 8.0
"""The least radius of a node with a number in it."""

_KEY_NODES = ((5, 95, "5%"), (1, 99, "1% of the table's visits"))
"""The nodes of the legend, the largest first: their share in percent, what is left, and the words beside them."""

_GRAPH_STYLE = _COLOURS.format("graph") + """
.graph .island, .graph .key { font-size: 11px; fill: var(--soft); }
.graph circle { stroke: var(--ink); stroke-width: 1; }
.graph .number { text-anchor: middle; }
.graph line { stroke: var(--ink); }
.graph .links { stroke-opacity: %s; }
.graph .near { stroke-width: 1.6; }
.graph .far { stroke-width: 0.9; stroke-dasharray: 4 3; }
""" + "".join(
    f".graph .c{number} circle {{ fill: {fill}; }} .graph .c{number} text {{ fill: {ink}; }}\n"
    for number, (fill, ink) in enumerate(_PALETTE)
) + f".graph .c{_NEUTRAL} circle {{ fill: var(--neutral); stroke-dasharray: 3 1.5; }}\n"


def graph_svg(survey: Survey) -> str:
    """The graph of the table: a node for each topology, a line for each two that are one move apart."""
    weights = [topology.visits for topology in survey.topologies]
    islands = [topology.island for topology in survey.topologies]
    ends = [(link.first, link.second) for link in survey.links]
    sizes = layout.radii(weights)
    left, top = MARGIN, MARGIN + 2 * _LINE
    places = [(x + left, y + top) for x, y in layout.place(len(weights), ends, islands, weights)]
    groups = layout.grouped(islands)
    width = max([layout.WIDTH + left, *(x + size for (x, _), size in zip(places, sizes))]) + MARGIN
    bottom = max([top, *(y + size for (_, y), size in zip(places, sizes))]) + 2 * _LINE
    key, bottom = _key(survey, bottom)
    words, bottom = _paragraph(_graph_caption(survey, len(groups)), left, bottom + _LINE, width - left - MARGIN)
    return _picture(
        "graph", "graph", (width, bottom), _graph_title(survey), _graph_summary(survey, groups),
        _GRAPH_STYLE % _link_opacity(len(survey.links)),
        [
            _words(_graph_title(survey), left, MARGIN + 14.0, "heading"),
            '<g class="links">', *(_link(link, places) for link in survey.links), "</g>",
            *_islands(survey, groups, places, sizes), *_island_headings(groups, islands, places, sizes), *key, *words,
        ],
    )


def _graph_title(survey: Survey) -> str:
    """The title of the graph."""
    return f"{counted(len(survey.topologies), 'topology', 'topologies')} and the moves between them"


def _graph_summary(survey: Survey, groups: Sequence[Sequence[int]]) -> str:
    """The picture in words."""
    return (
        f"A graph of {counted(len(survey.topologies), 'node', 'nodes')}, {counted(len(survey.links), 'line', 'lines')} and"
        f" {counted(len(groups), 'island', 'islands')}. The trees, their neighbours and their islands are listed in"
        " trees.tsv, the lines in pairs.tsv."
    )


def _graph_caption(survey: Survey, islands: int) -> str:
    """What the reader has to know to read the graph."""
    colours = (
        "Each island has a colour of its own."
        if islands <= len(_PALETTE)
        else f"The {len(_PALETTE)} islands of most trees have a colour of their own; the others are grey with a dashed edge."
    )
    moves = (
        "A line joins two trees that one prune-and-regraft move turns into each other: a solid one where it is a"
        " nearest-neighbour interchange, a thin dashed one where it is another move."
        if survey.sample.rooted
        else "A line joins two trees that one prune-and-regraft move turns into each other."
    )
    return (
        "Each node is a topology; its number is the position in the table, and the most visited has 0. Its area is its"
        " share of the table's visits, but the smallest are drawn larger, so that they can be seen."
        f" {moves} An island is all that lines join, and its number is the smallest position in it. {colours} Trees that"
        " are fewer moves apart stand nearer, as far as there is room; the places mean nothing else."
    )


def _link_opacity(links: int) -> str:
    """How strong the lines are: the more there are, the paler."""
    return next(opacity for most, opacity in ((200, "0.8"), (600, "0.5"), (2_000, "0.3"), (links, "0.12")) if links <= most)


def _link(link: Link, places: Sequence[layout.Point]) -> str:
    """A line of the graph."""
    (x1, y1), (x2, y2) = places[link.first], places[link.second]
    return (
        f'<line class="{_link_class(link.interchange)}" x1="{x1:.1f}" y1="{y1:.1f}" x2="{x2:.1f}" y2="{y2:.1f}">'
        f"<title>trees {link.first} and {link.second}: {_link_words(link.interchange)}</title></line>"
    )


def _link_class(interchange: Optional[bool]) -> str:
    """The class of a line."""
    return "far" if interchange is False else "near"


def _link_words(interchange: Optional[bool]) -> str:
    """What a line means."""
    if interchange is None:
        return "one prune-and-regraft move"
    return "one interchange" if interchange else "one other prune-and-regraft move"


def _islands(
    survey: Survey, groups: Sequence[Sequence[int]], places: Sequence[layout.Point], sizes: Sequence[float],
) -> Iterable[str]:
    """The nodes, in a group for each island."""
    for number, members in enumerate(groups):
        yield f'<g class="c{min(number, _NEUTRAL)}">'
        for position in members:
            yield _node(survey, survey.topologies[position], places[position], sizes[position])
        yield "</g>"


def _node(survey: Survey, topology: Topology, place: layout.Point, size: float) -> str:
    """A node of the graph, with its number where there is room for it."""
    x, y = place
    title = (
        f"tree {topology.position}: {counted(topology.visits, 'visit', 'visits')},"
        f" {percent(topology.visits, survey.kept)}; {counted(len(topology.neighbours), 'neighbour', 'neighbours')};"
        f" island {topology.island}"
    )
    font = min(16.0, size)
    number = (
        f'<text class="number" x="{x:.1f}" y="{y + 0.36 * font:.1f}" style="font-size: {font:.1f}px">'
        f"{topology.position}</text>"
        if size >= _LABELLED else ""
    )
    return f'<g><title>{title}</title><circle cx="{x:.1f}" cy="{y:.1f}" r="{size:.1f}"/>{number}</g>'


def _island_headings(
    groups: Sequence[Sequence[int]], islands: Sequence[int], places: Sequence[layout.Point], sizes: Sequence[float],
) -> Iterable[str]:
    """A line of words above each island, and one above the trees that are alone."""
    together = [members for members in groups if len(members) > 1]
    alone = [members[0] for members in groups if len(members) == 1]
    headings = [(f"island {islands[members[0]]}: {len(members)} trees", members) for members in together]
    if alone:
        headings.append((counted(len(alone), "island of one tree", "islands of one tree"), alone))
    for words, members in headings:
        x = min(places[node][0] - sizes[node] for node in members)
        y = min(places[node][1] - sizes[node] for node in members)
        yield _words(words, x, y - 8.0, "island")


def _key(survey: Survey, top: float) -> tuple[list[str], float]:
    """The legend, and where it ends."""
    x, y = MARGIN, top + layout.radii(_KEY_NODES[0][:2])[0]
    parts = []
    for interchange in (True, False) if survey.sample.rooted else (None,):
        parts.append(
            f'<line class="{_link_class(interchange)}" x1="{x:.1f}" y1="{y:.1f}" x2="{x + 28.0:.1f}" y2="{y:.1f}"/>'
        )
        x = _key_words(parts, _link_words(interchange), x + 34.0, y)
    for part, rest, words in _KEY_NODES:
        size = layout.radii((part, rest))[0]
        parts.append(f'<g class="c{_NEUTRAL}"><circle cx="{x + size:.1f}" cy="{y:.1f}" r="{size:.1f}"/></g>')
        x = _key_words(parts, words, x + 2.0 * size + 6.0, y)
    return parts, 2.0 * y - top


def _key_words(parts: list[str], words: str, x: float, y: float) -> float:
    """Adds words of the legend. Gives where the next sign of it may begin."""
    parts.append(_words(words, x, y + 4.0, "key"))
    return x + text_width(words, 11.0) + 16.0


# The trees


_ROW = 18.0
_TREE_STYLE = _COLOURS.format("tree") + """
.tree path { fill: none; stroke: var(--ink); stroke-width: 1.4; stroke-linecap: square; }
.tree .support { font-size: 9.5px; fill: var(--soft); text-anchor: end; stroke: var(--paper); stroke-width: 3;
paint-order: stroke; }
"""


@dataclass(frozen=True)
class _Drawn:
    """A node of a tree as it is drawn."""

    labels: tuple[int, ...]
    """The labels at and below it, ascending."""
    row: float
    column: int
    children: tuple[int, ...]
    """The numbers of its children, none for a tip."""


_Place = Callable[[_Drawn], layout.Point]


def tree_svg(survey: Survey, topology: Topology) -> str:
    """A tree of the table: the root at the left, the names in line at the right."""
    title = (
        f"Tree {topology.position}: {counted(topology.visits, 'visit', 'visits')} of {survey.kept:,},"
        f" {percent(topology.visits, survey.kept)}"
    )
    drawn = [
        _Drawn(labels, row, column, children)
        for (labels, children), row, column in zip(_nodes(topology.drawn), topology.plot.rows, topology.plot.columns)
    ]
    return _tree_picture(survey, f"tree-{topology.position}", title, drawn)


def majority_svg(survey: Survey) -> str:
    """The majority tree, drawn as the others are. Rooted samples have one."""
    nodes = _nodes(survey.majority or "")
    tips = [number for number, (_, children) in enumerate(nodes) if not children]
    rows = {number: float(row) for row, number in enumerate(tips)}
    columns = {0: 0}
    for number, (_, children) in reversed(list(enumerate(nodes))):
        if children:
            rows[number] = (rows[children[0]] + rows[children[-1]]) * 0.5
    for number, (_, children) in enumerate(nodes):
        columns.update((child, columns[number] + 1) for child in children)
    drawn = [_Drawn(labels, rows[i], columns[i], children) for i, (labels, children) in enumerate(nodes)]
    return _tree_picture(survey, "majority", f"The majority tree of {counted(survey.kept, 'visit', 'visits')}", drawn)


def _nodes(text: str) -> list[tuple[tuple[int, ...], tuple[int, ...]]]:
    """The labels and the children of each node of a text, in the order in which the nodes begin."""
    labels: list[list[int]] = []
    children: list[list[int]] = []
    open_forks: list[int] = []
    for token in re.findall("[0-9]+|[()]", text):
        if token == ")":
            open_forks.pop()
            continue
        number = len(labels)
        labels.append([])
        children.append([])
        if open_forks:
            children[open_forks[-1]].append(number)
        if token == "(":
            open_forks.append(number)
        else:
            for above in (*open_forks, number):
                labels[above].append(int(token))
    return [(tuple(sorted(below)), tuple(own)) for below, own in zip(labels, children)]


def _tree_picture(survey: Survey, name: str, title: str, nodes: Sequence[_Drawn]) -> str:
    """The picture of a tree."""
    tips = [node for node in nodes if not node.children]
    depth = max(node.column for node in nodes)
    step = min(30.0, max(14.0, 420.0 / max(depth, 1)))
    top = MARGIN + 2 * _LINE
    right = MARGIN + 6.0 + step * depth

    def place(node: _Drawn) -> layout.Point:
        """Where a node stands."""
        return (MARGIN + 6.0 + step * node.column if node.children else right, top + _ROW * node.row)

    texts = [survey.sample.names[node.labels[0]] for node in tips]
    inner = max([text_width(title, 14.0), right - MARGIN + 8.0 + max(text_width(text, 12.0) for text in texts), 320.0])
    words, bottom = _paragraph(_tree_caption(survey), MARGIN, top + _ROW * len(tips) + 4.0, max(320.0, min(inner, 640.0)))
    return _picture(
        name, "tree", (inner + 2 * MARGIN, bottom), title, _tree_summary(len(tips)), _TREE_STYLE,
        [
            _words(title, MARGIN, MARGIN + 14.0, "heading"),
            *_branches(nodes, place), *_supports(survey, nodes, place),
            *(_words(text, right + 8.0, place(node)[1] + 4.0, "name") for node, text in zip(tips, texts)),
            *words,
        ],
    )


def _tree_summary(tips: int) -> str:
    """The picture in words."""
    return f"A tree of {counted(tips, 'name', 'names')}, with the root at the left and the names at the right."


def _tree_caption(survey: Survey) -> str:
    """What the reader has to know to read a tree."""
    if survey.sample.rooted:
        return (
            "The number at a fork is the percentage of the visits that have this clade, rounded down: 100 stands only where"
            " all have it. Lengths mean nothing."
        )
    first = survey.sample.names[min(survey.sample.names)]
    return f"Unrooted: it is hung from its first name, {first}. The place of the top and the lengths mean nothing."


def _branches(nodes: Sequence[_Drawn], place: _Place) -> Iterable[str]:
    """For each fork a line down across its children, and a line to each of them; for the root a short one before it."""
    x, y = place(nodes[0])
    yield f'<path d="M{x - 6.0:.1f} {y:.3f}H{x:.1f}"/>'
    for node in nodes:
        if node.children:
            x, _ = place(node)
            ends = [place(nodes[child]) for child in node.children]
            lines = "".join(f"M{x:.1f} {to_y:.3f}H{to_x:.1f}" for to_x, to_y in ends)
            yield f'<path d="M{x:.1f} {ends[0][1]:.3f}V{ends[-1][1]:.3f}{lines}"/>'


def _supports(survey: Survey, nodes: Sequence[_Drawn], place: _Place) -> Iterable[str]:
    """The support of each clade at its fork, on the side of its branch where the fork above has no line."""
    lower = {child for node in nodes for child in node.children[1:]}
    for number, node in enumerate(nodes):
        visits = survey.support.get(node.labels)
        if node.children and visits is not None:
            x, y = place(node)
            title = f"{counted(len(node.labels), 'name', 'names')}: {visits:,} of {survey.kept:,} visits"
            yield (
                f'<text class="support" x="{x - 2.5:.1f}" y="{y + (9.5 if number in lower else -2.5):.1f}">'
                f"<title>{title}, {percent(visits, survey.kept)}</title>{100 * visits // survey.kept}</text>"
            )


# Both


_LINE = 17.0

# How many thousandths of the font's size a sign takes at most.
_SIGN_WIDTHS = {
    **dict.fromkeys("mwMW@%", 1_000),
    **dict.fromkeys("ABCDEFGHKLNOPQRSTUVXYZ&+=<>~#^", 840),
    **dict.fromkeys("abcdeghknopqsuvxyz0123456789$*?_`{}\"", 640),
    **dict.fromkeys("IJfijlrt !'(),-./:;[\\]|", 420),
}


def text_width(text: str, size: float) -> float:
    """Room enough for a text in common fonts without serifs. It asks no font, so that it is the same everywhere."""
    thousandths = sum(_SIGN_WIDTHS.get(sign, 1_000) for sign in text)
    return size * thousandths / 1_000.0


def _words(text: str, x: float, y: float, kind: str) -> str:
    """A line of text."""
    return f'<text class="{kind}" x="{x:.1f}" y="{y:.1f}">{escaped(text)}</text>'


def _paragraph(text: str, x: float, top: float, width: float) -> tuple[list[str], float]:
    """Lines of text that are broken at blanks, and where they end."""
    lines = [""]
    for word in text.split(" "):
        longer = f"{lines[-1]} {word}" if lines[-1] else word
        if lines[-1] and text_width(longer, 12.0) > width:
            lines.append(word)
        else:
            lines[-1] = longer
    drawn = [_words(line, x, top + 14.0 + _LINE * number, "soft") for number, line in enumerate(lines)]
    return drawn, top + _LINE * len(lines) + MARGIN


def _picture(
    name: str, kind: str, size: tuple[float, float], title: str, summary: str, style: str, parts: Iterable[str],
) -> str:
    """An SVG with a title, a summary in words and a ground of its own."""
    width, height = size
    return "\n".join([
        f'<svg xmlns="http://www.w3.org/2000/svg" class="{kind}" role="img" aria-labelledby="{name}-title {name}-desc"'
        f' width="{width:.0f}" height="{height:.0f}" viewBox="0 0 {width:.0f} {height:.0f}">',
        f'<title id="{name}-title">{escaped(title)}</title>',
        f'<desc id="{name}-desc">{escaped(summary)}</desc>',
        f"<style>{style}</style>",
        '<rect class="paper" width="100%" height="100%"/>',
        *parts,
        "</svg>\n",
    ])
