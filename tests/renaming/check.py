#!/usr/bin/env python3
"""One sample in two tables: check.py LISTER ISLANDS [--count N] [--seed S].

LISTER is the pair lister and ISLANDS the islands program. Each table is printed, and printed again with its labels
replaced one to one, with its trees in another order, and with both; children are turned, blanks and zeros are put
elsewhere. The second sheet is mapped back and has to say what the first says: the same pairs, and for each tree its
neighbours, its unlinked number and its topology; where only labels are replaced, the lines have to be the same byte for
byte up to the trees' texts. The islands of the second table have to be those that the first sheet's pairs and copies
make, at their new positions. A rule that gives two labels one new label has to be refused, and a tree left out has to
show. At the end slips are put into the sheets, and each has to be found.
"""
import argparse
import random
import re
import subprocess
import sys
from collections import Counter
from typing import NamedTuple

LABELS = range(1, 65)
MOST_TREES = 160
FIRST = re.compile(r"trees (\d+) pairs (\d+)")
TREE = re.compile(r"tree (\d+) neighbours (\d+) unlinked (\d+) (\S+)")
PAIR = re.compile(r"pair (\d+) (\d+)")
ISLAND = re.compile(r"island (\d+) (\d+)")


class Wrong(Exception):
    """What a sheet says wrongly."""


class Line(NamedTuple):
    neighbours: int
    unlinked: int
    topology: frozenset


class Sheet(NamedTuple):
    lines: list
    pairs: list


# ---- trees: a label, or a tuple of two


def random_tree(labels, rng):
    trees = list(labels)
    comb = rng.random() < 0.2
    while len(trees) > 1:
        first = trees.pop(len(trees) - 1 if comb else rng.randrange(len(trees)))
        second = trees.pop(rng.randrange(len(trees)))
        trees.append((first, second))
    return trees[0]


def nodes_below(tree, path=()):
    """The paths to the nodes below the root."""
    if isinstance(tree, tuple):
        for side in (0, 1):
            yield path + (side,)
            yield from nodes_below(tree[side], path + (side,))


def at(tree, path):
    for side in path:
        tree = tree[side]
    return tree


def put(tree, path, new):
    if not path:
        return new
    children = list(tree)
    children[path[0]] = put(tree[path[0]], path[1:], new)
    return tuple(children)


def moved(tree, rng):
    """A subtree pruned and hung elsewhere."""
    path = rng.choice(list(nodes_below(tree)))
    pruned, sibling = at(tree, path), at(tree, path[:-1] + (1 - path[-1],))
    rest = put(tree, path[:-1], sibling)
    target = rng.choice([()] + list(nodes_below(rest)))
    return put(rest, target, (pruned, at(rest, target)))


def write(tree, name, rng):
    """A tree with its children in any order, its labels as `name` gives them, and blanks and zeros anywhere."""
    blank = rng.choice(("", "", "", " ", "\t", "\r\n"))
    if not isinstance(tree, tuple):
        return blank + "0" * rng.choice((0, 0, 0, 1, 3)) + str(name[tree])
    children = [write(child, name, rng) for child in tree]
    rng.shuffle(children)
    return blank + "(" + ",".join(children) + rng.choice(("", "", " ")) + ")"


def write_tree(tree, unrooted, name, rng):
    if not unrooted:
        return rng.choice(("", "", "", "\n[&R]")) + write(tree, name, rng) + ";"
    if isinstance(tree, tuple) and any(isinstance(child, tuple) for child in tree):
        first, second = tree if isinstance(tree[1], tuple) else tree[::-1]
        tree = (first,) + second
    return "[&U]" + write(tree, name, rng) + ";"


def write_table(trees, unrooted, name, rng):
    return "".join(write_tree(tree, unrooted, name, rng) + rng.choice(("", "\n")) for tree in trees)


# ---- sheets


def parts(text):
    """Nested tuples of a canonical text; the top of an unrooted tree may have three."""

    def node(i):
        if text[i] != "(":
            end = re.compile(r"\d+").match(text, i).end()
            return int(text[i:end]), end
        children = []
        while text[i] != ")":
            child, i = node(i + 1)
            children.append(child)
        return tuple(children), i + 1

    tree, end = node(0)
    if text[end:] != ";":
        raise Wrong("no text of a tree: " + text)
    return tree


def topology(text, back):
    """The clades of a canonical text, or the splits of an unrooted one, with its labels taken back."""
    unrooted = text.startswith("[&U]")
    clades = set()

    def walk(tree):
        labels = frozenset().union(*map(walk, tree)) if isinstance(tree, tuple) else frozenset([back.get(tree, -tree)])
        clades.add(labels)
        return labels

    every = walk(parts(text[4:] if unrooted else text))
    if not unrooted:
        return frozenset(clades)
    return frozenset(frozenset([clade, every - clade]) for clade in clades if clade != every) | {frozenset([every])}


def output(program, text):
    done = subprocess.run([program], input=text.encode(), stdout=subprocess.PIPE, check=True, timeout=120)
    return done.stdout.decode()


def lines_of(text):
    if text and not text.endswith("\n"):
        raise Wrong("the last line has no end")
    return text.split("\n")[:-1]


def matched(pattern, line):
    found = pattern.fullmatch(line)
    if not found:
        raise Wrong("no such line: " + line)
    return found.groups()


def read_sheet(text, back):
    lines = lines_of(text)
    if not lines:
        raise Wrong("an empty sheet")
    trees, count = map(int, matched(FIRST, lines[0]))
    if len(lines) != 1 + trees + count:
        raise Wrong("%d lines for %d trees and %d pairs" % (len(lines), trees, count))
    told = []
    for place, line in enumerate(lines[1 : 1 + trees]):
        position, neighbours, unlinked, tree = matched(TREE, line)
        if int(position) != place:
            raise Wrong("tree %s at place %d" % (position, place))
        told.append(Line(int(neighbours), int(unlinked), topology(tree, back)))
    pairs = [tuple(map(int, matched(PAIR, line))) for line in lines[1 + trees :]]
    if pairs != sorted(set(pairs)) or any(not i < j < trees for i, j in pairs):
        raise Wrong("pairs out of order")
    return Sheet(told, pairs)


def compare(before, after, order):
    """The second sheet mapped back: its tree i is the first's tree order[i]."""
    if not len(order) == len(before.lines) == len(after.lines):
        raise Wrong("%d and %d trees, of %d" % (len(before.lines), len(after.lines), len(order)))
    for place, came in enumerate(order):
        if after.lines[place] != before.lines[came]:
            raise Wrong("tree %d, which was %d: another line" % (place, came))
    back = sorted(tuple(sorted((order[i], order[j]))) for i, j in after.pairs)
    if back != before.pairs:
        raise Wrong("other pairs")


def without_texts(text):
    return [line.rsplit(" ", 1)[0] if line.startswith("tree ") else line for line in lines_of(text)]


def islands_of(sheet, order):
    """The islands' lines that a sheet's pairs and copies make, with the trees in that order."""
    place = {came: i for i, came in enumerate(order)}
    number = list(range(len(order)))
    firsts = {}
    steps = [(firsts.setdefault(line.topology, i), i) for i, line in enumerate(sheet.lines)] + sheet.pairs

    def root(i):
        while number[i] != i:
            i = number[i]
        return i

    for i, j in steps:
        a, b = root(place[i]), root(place[j])
        number[max(a, b)] = min(a, b)
    sizes = Counter(root(i) for i in range(len(order)))
    return ["island %d %d" % (m, sizes[m]) for m in sorted(sizes)]


# ---- samples


def sample(rng):
    """Trees over some labels: moves from tree to tree, copies, and trees that have nothing to do with the others."""
    wanted = rng.choice((1, 2, 3, 5, 8, 12, 20, 40))
    many = rng.choice((1, 2, 3, 4, 4, 5, 5, 6, 7, 9, 12, 20, 64))
    if rng.random() < 0.03:
        # A text has at most 65,535 bytes, blanks and zeros among them.
        wanted, many = MOST_TREES, min(many, 20)
    labels = list(LABELS[:many]) if rng.random() < 0.5 else rng.sample(LABELS, many)
    trees = [random_tree(labels, rng)]
    far = rng.choice((0.05, 0.3))
    while len(trees) < wanted:
        way = rng.random()
        if way < far:
            trees.append(random_tree(labels, rng))
        elif way < far + 0.15 or many == 1:
            trees.append(rng.choice(trees))
        else:
            trees.append(moved(rng.choice(trees), rng))
    return labels, trees


def own(labels):
    return {label: label for label in labels}


def rule_for(labels, rng):
    kind = rng.random()
    if kind < 0.3:
        return {label: 65 - label for label in labels}
    values = list(labels) if kind < 0.5 else rng.sample(LABELS, len(labels))
    rng.shuffle(values)
    return dict(zip(labels, values))


def tried(programs, case, seen, slip=None):
    """One sample in four tables: as it is, renamed, reordered, and both. A slip is put into what the lister prints."""
    rng, labels, trees, unrooted = case.rng, case.labels, case.trees, case.unrooted
    lister, islands = programs

    def shown(text):
        sheet = output(lister, text)
        return slip(sheet) if slip else sheet

    rule, order = rule_for(labels, rng), list(range(len(trees)))
    rng.shuffle(order)
    back = {new: old for old, new in rule.items()}
    straight = list(range(len(trees)))
    first = shown(write_table(trees, unrooted, own(labels), rng))
    before = read_sheet(first, own(labels))
    for name, taken_back, way in ((rule, back, straight), (own(labels), own(labels), order), (rule, back, order)):
        text = write_table([trees[i] for i in way], unrooted, name, rng)
        second = shown(text)
        compare(before, read_sheet(second, taken_back), way)
        if way is straight and without_texts(second) != without_texts(first):
            raise Wrong("renamed, and another line")
        if not slip and lines_of(output(islands, text)) != islands_of(before, way):
            raise Wrong("other islands")
    if not slip and len(labels) > 1:
        kept, lost = rng.sample(labels, 2)
        twice = output(lister, write_table(trees, unrooted, {**rule, lost: rule[kept]}, rng))
        if not twice.startswith("refused 3 at "):
            raise Wrong("one new label for two: " + lines_of(twice)[0])
        seen["rules that are none"] += 1
    seen["tables"] += 1
    seen["pairs"] += len(before.pairs)
    seen["copies"] += len(before.lines) - len({line.topology for line in before.lines})
    seen["unlinked trees"] += sum(line.unlinked > 0 for line in before.lines)
    seen["tables of many islands"] += len(islands_of(before, straight)) > 1
    seen["unrooted tables"] += unrooted
    seen["tables of 160 trees"] += len(trees) == MOST_TREES
    seen["labels that moved"] += sum(old != new for old, new in rule.items())
    seen["trees that moved"] += sum(i != came for i, came in enumerate(order))


class Case(NamedTuple):
    rng: random.Random
    labels: list
    trees: list
    unrooted: bool


def case_of(seed):
    rng = random.Random(seed)
    labels, trees = sample(rng)
    return Case(rng, labels, trees, rng.random() < 0.3)


def no_order(lister, seen):
    """A tree left out shows."""
    trees = ["((1,2),3);", "((1,3),2);", "(1,(2,3));"]
    whole, less = (read_sheet(output(lister, "".join(some)), own([1, 2, 3])) for some in (trees, trees[1:]))
    try:
        compare(whole, less, [1, 2])
    except Wrong:
        seen["orders that are none"] += 1
    else:
        raise Wrong("a tree left out was not found")


# ---- slips


def edited(change):
    """A slip from a change of the first line's numbers, the trees' lines and the pairs."""

    def slip(text):
        lines = lines_of(text)
        trees = [line for line in lines if line.startswith("tree ")]
        pairs = [line for line in lines if line.startswith("pair ")]
        trees, pairs = change(trees, pairs)
        return "".join(line + "\n" for line in ["trees %d pairs %d" % (len(trees), len(pairs))] + trees + pairs)

    return slip


def numbers_sorted(trees, pairs):
    fields = sorted(line.split()[3] for line in trees)
    return [" ".join(line.split()[:3] + [field] + line.split()[4:]) for line, field in zip(trees, fields)], pairs


def unlinked_by_position(trees, pairs):
    return [" ".join(line.split()[:5] + [str(i)] + line.split()[6:]) for i, line in enumerate(trees)], pairs


def text_of_the_last(trees, pairs):
    return [" ".join(trees[0].split()[:6] + trees[-1].split()[6:])] + trees[1:], pairs


SLIPS = {
    "the last pair is not listed": edited(lambda trees, pairs: (trees, pairs[:-1])),
    "no pair of tree 0": edited(lambda trees, pairs: (trees, [pair for pair in pairs if pair[:7] != "pair 0 "])),
    "no pair where tree 0's text begins with a label": edited(
        lambda trees, pairs: (trees, [] if re.search(r" (\[&U\])?\(\d", trees[0]) else pairs)
    ),
    "the last tree left out": edited(lambda trees, pairs: (trees[:-1], pairs)),
    "neighbours in order of size": edited(numbers_sorted),
    "unlinked numbers by position": edited(unlinked_by_position),
    "the last tree's text for tree 0": edited(text_of_the_last),
    "the first two pairs swapped": edited(lambda trees, pairs: (trees, pairs[1:2] + pairs[:1] + pairs[2:])),
}


def found(programs, slip, seed):
    """Some table shows the slip."""
    for number in range(60):
        try:
            tried(programs, case_of("%s slip %d" % (seed, number)), Counter(), slip)
        except Wrong:
            return True
    return False


def main():
    words = argparse.ArgumentParser(description=__doc__.split("\n")[0])
    words.add_argument("lister")
    words.add_argument("islands")
    words.add_argument("--count", type=int, default=400)
    words.add_argument("--seed", default="renaming")
    given = words.parse_args()
    programs = (given.lister, given.islands)
    seen = Counter()
    for number in range(given.count):
        seed = "%s %d" % (given.seed, number)
        try:
            tried(programs, case_of(seed), seen)
        except Wrong as wrong:
            sys.exit("renaming: sample %r: %s" % (seed, wrong))
    no_order(given.lister, seen)
    floors = {
        "tables": given.count,
        "pairs": 20 * given.count,
        "copies": given.count // 2,
        "unlinked trees": given.count,
        "tables of many islands": given.count // 8,
        "unrooted tables": given.count // 5,
        "tables of 160 trees": given.count // 100,
        "labels that moved": 4 * given.count,
        "trees that moved": 4 * given.count,
        "rules that are none": given.count // 2,
        "orders that are none": 1,
    }
    for what, floor in floors.items():
        if seen[what] < floor:
            sys.exit("renaming: %s: %d, and %d at least were wanted" % (what, seen[what], floor))
    for name, slip in SLIPS.items():
        if not found(programs, slip, given.seed):
            sys.exit("renaming: a slip was not found: " + name)
    told = ", ".join("%s %d" % (what, seen[what]) for what in floors)
    print("renaming: %s; %d slips found" % (told, len(SLIPS)))


if __name__ == "__main__":
    main()
