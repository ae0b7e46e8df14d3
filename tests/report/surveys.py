"""Surveys for the tests of the pictures and the page, put together by hand: no call of the library is made. And the
contrast of colours.

A tree is a label or nested tuples; the children stand in the order of their smallest labels, as in canonical texts.
"""

from fractions import Fraction

import norbelath
from norbelath_report import model

STRANGE = {
    1: "<script>alert(1)</script>", 2: "a&b", 3: '"q"', 4: "\u0627\u0644\u0633\u062d\u0644\u064a\u0629", 5: "e\u0301\u0323",
    6: "con\x01trol\x0b\x7f", 7: "]]>", 8: "</title></svg>", 9: "lone \ud800 \uffff", 10: "&amp;", 11: "'s'", 12: "\U0001f98e",
}
SHOWN = {**STRANGE, 6: "con\ufffdtrol\ufffd\x7f", 9: "lone \ufffd \ufffd"}
"""The same names as a picture or a page shows them."""


def labels_of(tree):
    return [label for child in tree for label in labels_of(child)] if isinstance(tree, tuple) else [tree]


def text_of(tree):
    return f"({','.join(map(text_of, tree))})" if isinstance(tree, tuple) else str(tree)


def nodes_of(tree, column=0, before=0):
    """The subtree, the row and the column of each node, in the order of the text."""
    if not isinstance(tree, tuple):
        return [(tree, Fraction(before), column)]
    below = []
    tops = []
    for child in tree:
        nodes = nodes_of(child, column + 1, before)
        tops.append(nodes[0][1])
        below += nodes
        before += len(labels_of(child))
    return [(tree, (tops[0] + tops[-1]) / 2, column), *below]


def plot_of(tree):
    nodes = nodes_of(tree)
    return norbelath.Plot(tuple(float(row) for _, row, _ in nodes), tuple(column for _, _, column in nodes))


def comb(count):
    tree = 1
    for label in range(2, count + 1):
        tree = (tree, label)
    return tree


def survey(trees, visits, links=(), names=None, rooted=True, clades=(), majority=None, others=0, warnings=(), left_out=(3, 0)):
    """A survey of trees that were visited so often. `links` are two positions and whether that is an interchange."""
    labels = sorted(labels_of(trees[0]))
    named = names or {label: f"name {label}" for label in labels}
    islands = list(range(len(trees)))
    for _ in trees:
        for one, other, _ in links:
            islands[one] = islands[other] = min(islands[one], islands[other])
    topologies = tuple(
        model.Topology(
            position, text_of(tree) + ";", visits[position],
            tuple(sorted({a + b - position for a, b, _ in links if position in (a, b)})), islands[position],
            text_of(tree) + ";", plot_of(tree),
        )
        for position, tree in enumerate(trees)
    )
    kept = sum(visits) + others
    sources = (model.Source("run 1.t", "0" * 64, kept // 2 + 3), model.Source("run<b>.t", "1" * 64, kept - kept // 2))
    return model.Survey(
        model.Sample(rooted, {label: named[label] for label in labels}, sources, (), tuple(warnings)), "3 <b>", left_out, 160,
        (), kept, len(trees) + others, topologies, tuple(model.Link(*link) for link in links),
        tuple(model.Clade(*clade) for clade in clades), majority,
    )


def contrast(one, other):
    """How far two colours are apart, as the Web Content Accessibility Guidelines count."""
    lighter, darker = sorted((luminance(one), luminance(other)), reverse=True)
    return (lighter + 0.05) / (darker + 0.05)


def luminance(colour):
    digits = colour[1:] if len(colour) == 7 else "".join(2 * digit for digit in colour[1:])
    parts = [int(digits[at:at + 2], 16) / 255 for at in (0, 2, 4)]
    linear = [part / 12.92 if part <= 0.03928 else ((part + 0.055) / 1.055) ** 2.4 for part in parts]
    return 0.2126 * linear[0] + 0.7152 * linear[1] + 0.0722 * linear[2]
