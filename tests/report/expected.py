"""The tables of a report, worked out from samplers' files without the report or the library.

The files are read line by line, as MrBayes, BEAST and RevBayes write them, with the Newick reader of `plain`; canonical
texts, sheets, pairs, interchanges and islands come from the independent program.
"""
import os
import re
import sys
from collections import Counter
from decimal import ROUND_HALF_UP, Decimal
from typing import NamedTuple

import plain

sys.path.insert(0, os.path.join(os.path.dirname(os.path.abspath(__file__)), "..", "independent"))
import reference  # noqa: E402

TREE = re.compile(r"\s*tree (\S+)(?: \[[^]]*\])? = (.*;)")
GENERATION = re.compile(r"(?:gen\.|STATE_)(\d+)")
TEXTS = ("table.txt", "sheet.txt", "names.tsv", "trees.tsv", "pairs.tsv", "clades.tsv", "sample.tsv")


class Visit(NamedTuple):
    """A tree of a file; its taxa are names."""

    source: int
    line: int
    generation: str
    tree: object


# ---- files


def lines_of(path):
    with open(path, encoding="utf-8") as file:
        return file.read().split("\n")


def translated(lines):
    """What the numbers of a NEXUS file stand for, in its order."""
    block = re.search(r"(?i)\btranslate\b(.*?);", "\n".join(lines), re.DOTALL)[1]
    rows = [row.split(None, 1) for row in block.split(",")]
    return {number: plain.named(name.strip()) for number, name in rows}


def nexus(source, lines):
    names = translated(lines)
    for number, line in enumerate(lines, 1):
        found = TREE.match(line)
        if found:
            tree = plain.renamed(plain.parse(found[2]), names)
            yield Visit(source, number, GENERATION.match(found[1])[1], tree)


def table_of_trees(source, lines):
    column = lines[0].split("\t").index("psi")
    for number, line in enumerate(lines[1:], 2):
        if line:
            cells = line.split("\t")
            yield Visit(source, number, cells[0], plain.parse(cells[column]))


def read(paths):
    """The name of each label, and the trees of all files."""
    files = [lines_of(path) for path in paths]
    nexus_files = files[0][0] == "#NEXUS"
    reader = nexus if nexus_files else table_of_trees
    visits = [visit for source, lines in enumerate(files) for visit in reader(source, lines)]
    names = translated(files[0]).values() if nexus_files else sorted(plain.taxa(visits[0].tree))
    return dict(enumerate(names, 1)), visits


# ---- the table


def left_out(visits, burn_in):
    """Which visits are burn-in."""
    trees = Counter(visit.source for visit in visits)
    first = {source: min(i for i, visit in enumerate(visits) if visit.source == source) for source in trees}
    amount = {source: int(Decimal(count) * Decimal(burn_in[:-1]) / 100) if burn_in.endswith("%") else int(burn_in)
              for source, count in trees.items()}
    return [i - first[visit.source] < amount[visit.source] for i, visit in enumerate(visits)]


def most_visited(topologies, top):
    """The topologies of the table, the most visited first, and of as many the first visited."""
    counts = Counter(topologies)
    order = sorted(counts, key=lambda topology: (-counts[topology], topologies.index(topology)))
    return order[:top], counts


def canonical(tree, rooted, labels):
    text = ("" if rooted else "[&U]") + plain.written(plain.renamed(tree, labels)) + ";"
    return reference.form(text.encode()).decode()


# ---- the files of the folder


def percent(part, whole):
    return str((Decimal(100 * part) / Decimal(whole)).quantize(Decimal("0.01"), ROUND_HALF_UP))


def tsv(header, rows):
    return "".join("\t".join(map(str, row)) + "\n" for row in [header.split(), *rows])


def quoted(name):
    """A name as it stands in a tree."""
    if all(character.isalnum() or character in ".- " for character in name):
        return name.replace(" ", "_")
    return "'" + name.replace("'", "''") + "'"


def clade_rows(trees, names):
    """The clades of two or more names, but not of all, counted over all trees."""
    labels = {name: label for label, name in names.items()}
    every = Counter(clade for tree in trees for clade in set(map(plain.taxa, plain.nodes(tree))))
    counts = {clade: count for clade, count in every.items() if 1 < len(clade) < len(names)}
    by_labels = {tuple(sorted(labels[name] for name in clade)): count for clade, count in counts.items()}
    for numbers, count in sorted(by_labels.items(), key=lambda entry: (-entry[1], entry[0])):
        yield count, percent(count, len(trees)), len(numbers), " ".join(quoted(names[number]) for number in numbers)


def tables(files, names, rooted, visits, burn_in="0", top=160):
    """The texts of the folder, by name, and the numbers that settings.tsv has to say.

    `names` has the name of each label, and `visits` the trees of the files, in order.
    """
    labels = {name: label for label, name in names.items()}
    burnt = left_out(visits, burn_in)
    topologies = [plain.topology(visit.tree, rooted) for visit in visits]
    kept = [topology for topology, out in zip(topologies, burnt) if not out]
    kept_trees = [visit.tree for visit, out in zip(visits, burnt) if not out]
    order, counts = most_visited(kept, top)
    texts = [canonical(visits[topologies.index(topology)].tree, rooted, labels) for topology in order]
    table = "".join(text + "\n" for text in texts).encode()
    graph, islands = reference.graph(table), reference.islands(table)
    near = set(reference.interchanges(table).pairs) if rooted else None
    place = {topology: position for position, topology in enumerate(order)}
    named = [re.sub(r"\d+", lambda label: quoted(names[int(label[0])]), text) for text in texts]
    rows = {
        "names.tsv": ("label name", sorted(names.items())),
        "trees.tsv": ("position visits share_percent neighbours island tree", [
            (position, counts[topology], percent(counts[topology], len(kept)), graph.counts[position],
             islands.numbers[position], text)
            for position, (topology, text) in enumerate(zip(order, named))]),
        "pairs.tsv": ("first second interchange", [
            (*pair, "-" if near is None else "yes" if pair in near else "no") for pair in graph.pairs]),
        "clades.tsv": ("visits share_percent size clade", clade_rows(kept_trees, names) if rooted else ()),
        "sample.tsv": ("source file line generation position", [
            (visit.source + 1, files[visit.source], visit.line, visit.generation,
             "burn-in" if out else place.get(topology, "not in table"))
            for visit, out, topology in zip(visits, burnt, topologies)]),
    }
    numbers = {
        "burn-in": burn_in, "top": top, "kind": "rooted" if rooted else "unrooted", "taxa": len(names), "trees": len(visits),
        "trees behind the burn-in": len(kept), "topologies": len(counts), "topologies in the table": len(order),
        "trees with a topology in the table": sum(counts[topology] for topology in order), "pairs": len(graph.pairs),
        "islands": len(set(islands.numbers)),
    }
    files = {name: tsv(*parts) for name, parts in rows.items()}
    return {**files, "table.txt": table.decode(), "sheet.txt": reference.sheet(table).decode()}, numbers


def tables_of(paths, burn_in="0", top=160):
    """The same for samplers' files; their trees have three or more taxa."""
    names, visits = read(paths)
    rooted = len(visits[0].tree) == 2
    return tables([os.path.basename(path) for path in paths], names, rooted, visits, burn_in, top)
