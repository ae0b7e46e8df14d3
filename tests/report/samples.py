"""Samples for the tests of the report: random trees, and files of them as a sampler writes them."""

import random

import norbelath
from norbelath_report import model


def random_tree(labels, chance):
    """A rooted tree of the labels, its nodes in any order."""
    parts = [str(label) for label in labels]
    while len(parts) > 1:
        chance.shuffle(parts)
        parts.append(f"({parts.pop()},{parts.pop()})")
    return parts[0] + ";"


def random_unrooted(labels, chance):
    """An unrooted tree of the labels, its nodes in any order."""
    parts = [str(label) for label in labels]
    while len(parts) > 3:
        chance.shuffle(parts)
        parts.append(f"({parts.pop()},{parts.pop()})")
    return f"[&U]({','.join(parts)});" if len(parts) > 1 else f"[&U]{parts[0]};"


def sample_of(*files, names=None):
    """A sample of files that are given as lists of tree texts."""
    visits = tuple(
        model.Visit(source, line, str(100 * line), norbelath.form(text))
        for source, texts in enumerate(files)
        for line, text in enumerate(texts, 1)
    )
    rooted = not visits[0].text.startswith("[&U]")
    labels = norbelath.row(visits[0].text)[0] if rooted else (1 << visits[0].text.count(",") + 1) - 1
    sources = tuple(
        model.Source(f"run{number}.t", f"{number:064}", len(texts)) for number, texts in enumerate(files, 1)
    )
    named = names or {label: f"taxon {label}" for label in norbelath.labels(labels)}
    return model.Sample(rooted, named, sources, visits, ())


def nexus(trees, names):
    """A file as MrBayes writes it."""
    translated = ",\n".join(f"       {label} {name.replace(' ', '_')}" for label, name in sorted(names.items()))
    lines = (f"   tree gen.{100 * number} = {_marked(tree)}" for number, tree in enumerate(trees))
    return f"#NEXUS\nbegin trees;\n   translate\n{translated};\n" + "\n".join(lines) + "\nend;\n"


def _marked(tree):
    return tree if tree.startswith("[&U]") else f"[&R]{tree}"


def few_topologies(count, topologies, taxa, seed, make=random_tree):
    """Trees with few topologies, some of them more frequent."""
    chance = random.Random(seed)
    pool = [make(range(1, taxa + 1), chance) for _ in range(topologies)]
    return [pool[min(chance.randrange(topologies), chance.randrange(topologies))] for _ in range(count)]
