#!/usr/bin/env python3
"""The picture of a tree, read back: check.py PROGRAM.

PROGRAM is that of bindings/c/picture.c. Each picture is read with Python's XML parser, and every dot, branch and label
has to be where exact fractions put it, to the three decimals that are written; nothing else may be drawn, and no branch
may cross another or leave the picture. The trees are all of up to five leaves, combs and others of up to 64. A refused
text, an input that cannot be read and an output that cannot be written give no whole picture, a line on standard error
and a status that is not 0.
"""
import itertools
import os
import random
import subprocess
import sys
import tempfile
import xml.etree.ElementTree as ElementTree
from fractions import Fraction
from typing import NamedTuple

SVG = "{http://www.w3.org/2000/svg}"
COLUMN, ROW, MARGIN, LABEL_ROOM, BESIDE = 24, 16, 16, 20, 6
# Half of the last decimal, and what the row may be off by, which the picture shows 16 times as large.
NEAR = Fraction(1, 2000) + ROW * Fraction(1, 2**42) + Fraction(1, 2**40)
LABELS = list(range(1, 65))
UNREAD = b"standard input could not be read\n"
UNWRITTEN = b"standard output could not be written whole\n"


class Node(NamedTuple):
    """Where a node has to be, its label, or None for a fork, and its parent's place, or None for the root."""

    x: Fraction
    y: Fraction
    label: object
    above: object


def least(tree):
    return min(map(least, tree)) if isinstance(tree, tuple) else tree


def size(tree):
    return sum(map(size, tree)) if isinstance(tree, tuple) else 1


def exact_row(tree, before):
    """The exact row of a tree's root, where so many leaves stand before it; children by their smallest labels."""
    if not isinstance(tree, tuple):
        return Fraction(before)
    first, second = sorted(tree, key=least)
    return (exact_row(first, before) + exact_row(second, before + size(first))) / 2


def expected_nodes(tree, column=0, before=0, above=None):
    """The nodes of nested tuples of two."""
    x, y = MARGIN + COLUMN * Fraction(column), MARGIN + ROW * exact_row(tree, before)
    if not isinstance(tree, tuple):
        return [Node(x, y, str(tree), above)]
    first, second = sorted(tree, key=least)
    return (
        [Node(x, y, None, above)]
        + expected_nodes(first, column + 1, before, (x, y))
        + expected_nodes(second, column + 1, before + size(first), (x, y))
    )


def text_of(tree):
    if not isinstance(tree, tuple):
        return "%d" % tree
    return "(%s,%s)" % tuple(map(text_of, tree))


def run(program, text):
    done = subprocess.run([program], input=text, capture_output=True, timeout=60, check=False)
    return done.stdout, done.stderr, done.returncode


def numbers(element, *names):
    """Attributes as fractions; a wrong name, or one too many, is an error."""
    if set(element.attrib) != set(names) | ({"r"} if element.tag == SVG + "circle" else set()):
        raise ValueError("attributes %s" % sorted(element.attrib))
    return tuple(Fraction(element.get(name)) for name in names)


def is_near(drawn, expected):
    return len(drawn) == len(expected) and all(abs(one - other) <= NEAR for one, other in zip(drawn, expected))


def all_near(drawn, expected):
    """Whether two lists are near, item by item and in order."""
    return len(drawn) == len(expected) and all(map(is_near, drawn, expected))


def is_picture_of(svg, tree):
    """Whether this is the picture of nested tuples, and nothing more."""
    nodes = expected_nodes(tree)
    root = ElementTree.fromstring(svg)
    kinds = {name: [x for x in root if x.tag == SVG + name] for name in ("circle", "line", "text", "style")}
    dots = [numbers(x, "cx", "cy") for x in kinds["circle"]]
    branches = [numbers(x, "x1", "y1", "x2", "y2") for x in kinds["line"]]
    labels = [(x.text, numbers(x, "x", "y")) for x in kinds["text"]]
    leaves = [node for node in nodes if node.label]
    width = 2 * MARGIN + max(node.x for node in nodes) - MARGIN + LABEL_ROOM
    height = 2 * MARGIN + ROW * (len(leaves) - 1)
    return (
        root.tag == SVG + "svg"
        and sum(map(len, kinds.values())) == len(list(root))
        and len(kinds["style"]) == 1
        and (Fraction(root.get("width")), Fraction(root.get("height"))) == (width, height)
        and root.get("viewBox") == "0 0 %s %s" % (root.get("width"), root.get("height"))
        and all_near(dots, [(node.x, node.y) for node in nodes])
        and all_near(branches, [node.above + (node.x, node.y) for node in nodes if node.above])
        and [label for label, _ in labels] == [node.label for node in leaves]
        and all_near([place for _, place in labels], [(node.x + BESIDE, node.y) for node in leaves])
        and all(0 < x < width and 0 < y < height for x, y in dots)
        and not any(cross(one, other) for one, other in itertools.combinations(branches, 2))
    )


def cross(one, other):
    """Whether two branches meet but at a common end. Each goes from a column to the next."""
    if one[0] != other[0] or one[:2] == other[:2]:
        return False
    return (one[1] - other[1]) * (one[3] - other[3]) <= 0


def all_trees(labels):
    """One tree for each topology."""
    if len(labels) == 1:
        return [labels[0]]
    return [grown for tree in all_trees(labels[:-1]) for grown in with_leaf(tree, labels[-1])]


def with_leaf(tree, label):
    """The tree with a leaf more at each place."""
    yield (tree, label)
    if isinstance(tree, tuple):
        yield from ((grown, tree[1]) for grown in with_leaf(tree[0], label))
        yield from ((tree[0], grown) for grown in with_leaf(tree[1], label))


def joined(trees, choose):
    """Two trees joined until one is left; `choose` says which from how many."""
    trees = list(trees)
    while len(trees) > 1:
        one = trees.pop(choose(len(trees)))
        trees.append((one, trees.pop(choose(len(trees)))))
    return trees[0]


def comb(labels, left):
    tree = labels[0]
    for label in labels[1:]:
        tree = (tree, label) if left else (label, tree)
    return tree


def trees_to_draw():
    rng = random.Random(13)
    trees = [tree for n in range(1, 6) for tree in all_trees(LABELS[:n])]
    for n in (6, 17, 63, 64):
        some = sorted(rng.sample(LABELS, n))
        trees += [comb(labels, left) for labels in (some, some[::-1], rng.sample(some, n)) for left in (True, False)]
        trees += [joined(rng.sample(some, n), rng.randrange) for _ in range(3)]
        trees.append(joined(some, lambda _: 0))
    return trees


def pictures(program):
    for tree in trees_to_draw():
        svg, errors, status = run(program, text_of(tree).encode() + b";")
        if (errors, status) != (b"", 0) or not is_picture_of(svg, tree):
            print("the picture of %s" % text_of(tree))
            return False
    return True


def layout_changes_nothing(program):
    wanted = run(program, b"((1,2),3);")
    return all(run(program, text) == wanted for text in (b"(3,(2,1));", b"[&R] ( 3,\n(002,1) ) ;\n"))


def whole_picture_ends_so(program):
    return run(program, b"(1,2);")[0].endswith(b"</svg>\n")


def wrong_pictures_are_found(program):
    """The check itself: a picture of another tree, and one with a dot, a branch or a label moved, left out or added."""
    tree = ((1, 2), (3, 4))
    svg = run(program, b"((1,2),(3,4));")[0]
    lines = svg.splitlines(True)
    starts = (b"<circle", b"<line", b"<text")
    kinds = [next(i for i, line in enumerate(lines) if line.startswith(start)) for start in starts]
    wrong = [b"".join(lines[:i] + lines[i + 1 :]) for i in kinds]
    wrong += [b"".join(lines[: i + 1] + lines[i:]) for i in kinds]
    wrong += [svg.replace(b"40.000", b"40.002"), svg.replace(b">3<", b">5<"), svg.replace(b"viewBox", b"viewbox")]
    wrong += [svg.replace(b'cy="24.000"', b'cy="23.998"'), svg.replace(b'y2="24.000"', b'y2="24.016"')]
    return (
        is_picture_of(svg, tree)
        and not any(is_picture_of(svg, other) for other in (((1, 3), (2, 4)), (1, (2, (3, 4))), ((1, 2), 3)))
        and all(picture != svg and not is_picture_of(picture, tree) for picture in wrong)
    )


def refusals(program):
    texts = {
        b"": (1, 0), b" \n": (1, 2), b"(1,2": (1, 4), b"(1,2);x": (1, 6), b"(1,65);": (2, 3), b"(1,1);": (3, 3),
        b"(" * 64: (4, 63), b"[&U](1,2,3);": (10, 11), b"1;" + b" " * 65534: (8, 0), b"x" * 200000: (8, 0),
    }
    return all(run(program, text) == (b"", b"refused %d at %d\n" % told, 1) for text, told in texts.items())


def longest_text(program):
    return is_picture_of(run(program, b"(2,1);" + b" " * 65529)[0], (1, 2))


def unreadable_input(program):
    with tempfile.TemporaryDirectory() as path:
        stdin = os.open(path, os.O_RDONLY)
        try:
            done = subprocess.run([program], stdin=stdin, capture_output=True, timeout=60, check=False)
        finally:
            os.close(stdin)
    return (done.stdout, done.stderr, done.returncode) == (b"", UNREAD, 1)


def closed_stream(program, number):
    """One run with a stream closed."""
    text = tempfile.TemporaryFile()
    text.write(b"(1,2);")
    text.seek(0)
    with text:
        done = subprocess.run(
            [program], stdin=text, stdout=subprocess.PIPE, stderr=subprocess.PIPE, timeout=60, check=False,
            preexec_fn=lambda: os.close(number),
        )
    return done.stdout, done.stderr, done.returncode


def closed_input(program):
    return closed_stream(program, 0) == (b"", UNREAD, 1)


def closed_output(program):
    return closed_stream(program, 1) == (b"", UNWRITTEN, 1)


def full_disk(program):
    with open("/dev/full", "wb") as stdout:
        for tree in ((1, 2), comb(LABELS, True)):
            text = text_of(tree).encode() + b";"
            done = subprocess.run(
                [program], input=text, stdout=stdout, stderr=subprocess.PIPE, timeout=60, check=False
            )
            if (done.stderr, done.returncode) != (UNWRITTEN, 1):
                return False
    return True


def an_argument(program):
    done = subprocess.run([program, "tree.txt"], stdin=subprocess.DEVNULL, capture_output=True, timeout=60, check=False)
    return done.stdout == b"" and done.stderr.startswith(b"usage: ") and done.returncode == 2


CHECKS = (
    pictures, layout_changes_nothing, whole_picture_ends_so, wrong_pictures_are_found, refusals, longest_text,
    unreadable_input, closed_input, closed_output, full_disk, an_argument,
)


def main(arguments):
    if len(arguments) != 1:
        sys.exit("usage: check.py PROGRAM")
    program = os.path.abspath(arguments[0])
    failed = [check.__name__ for check in CHECKS if not check(program)]
    for name in failed:
        print("failed: %s" % name)
    print("picture: %d checks, %d failed" % (len(CHECKS), len(failed)))
    return 1 if failed else 0


if __name__ == "__main__":
    sys.exit(main(sys.argv[1:]))
