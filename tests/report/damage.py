"""Files with a slip in them: a tree that is read has to be the one that is written there.

A sign or a letter of a small file is taken away, put in, exchanged or doubled. The report may refuse the file, in words. If
it reads it, a strict reader of our own has to understand every tree too, and to find the same topologies in the same order;
only a last tree that is cut off may be left out, and that has to be said.
"""
import itertools
import os
import random
import re
import tempfile

import dialects
import plain

FILES = 5000
PIECES = [*"(),:;[]' \n\t12a_=", "0.5", "[&R]", "[&U]", "[x]", "()"]


def newick(trees, leaf, style, mark):
    return "".join(mark + dialects.node(tree, leaf, style) + ";\n" for tree in trees)


def nexus(trees, leaf, style, mark):
    names = ", ".join(f"{taxon} taxon_{taxon}" for taxon in sorted(plain.taxa(trees[0])))
    translate = style.rng.choice(("", f"translate {names};\n"))
    commands = "".join(f"tree t{number} = {mark}{dialects.node(tree, leaf, style)};\n" for number, tree in enumerate(trees))
    return f"#NEXUS\nbegin trees;\n{translate}{commands}end;\n"


def table(trees, leaf, style, mark):
    rows = "".join(f"{number}\t-1.5\t{dialects.node(tree, leaf, style)};\n" for number, tree in enumerate(trees))
    return f"Iteration\tPosterior\tpsi\n{rows}"


def damaged(text, rng):
    """The text with one or two slips."""
    for _ in range(rng.choice((1, 1, 2))):
        place = rng.randrange(len(text))
        length = rng.choice((0, 1, 1, rng.randrange(8)))
        new = rng.choice(("", rng.choice(PIECES), text[place:place + length] * 2))
        text = text[:place] + new + text[place + length:]
    return text


# ---- the strict readers: the trees of a text, each with its mark, and whether one more is begun; or a ValueError


def commands(text):
    """The tokens of each command, and those behind the last."""
    found, current = [], []
    try:
        for token in plain.tokens(text):
            current.append(token)
            if token == ";":
                found.append(current)
                current = []
    except ValueError as error:
        current.append(str(error))
    return found, bare(current)


def bare(tokens):
    return [token for token in tokens if not token.startswith("[")]


def marked(tokens):
    """The mark before a tree, and the tree."""
    before = itertools.takewhile(lambda token: token.startswith("["), tokens)
    marks = {token.upper() for token in before} & {"[&R]", "[&U]"}
    if len(marks) > 1:
        raise ValueError("two marks")
    return (marks.pop() if marks else ""), plain.parse_tokens(tokens)


def read_newick(text):
    found, rest = commands(text)
    return [marked(command) for command in found], bool(rest)


def translated(tokens):
    """What the tokens of a translate command stand for."""
    rows = [list(row) for comma, row in itertools.groupby(tokens, lambda token: token == ",") if not comma]
    if any(len(row) != 2 for row in rows) or tokens.count(",") != len(rows) - 1:
        raise ValueError("no pairs")
    return {plain.named(short): plain.named(name) for short, name in rows}


def read_nexus(text):
    found, rest = commands(text)
    trees, names = [], {}
    for command in found:
        words = " ".join(bare(command)).lower()
        if words.startswith("translate ") and not trees and not names:
            names = translated(bare(command)[1:-1])
            continue
        equals = next((place for place, token in enumerate(command) if "=" in token and token[0] not in "['"), None)
        if equals is not None:
            head, _, tail = command[equals].partition("=")
            if not re.fullmatch(r"tree( \*)? [^=]+", " ".join([*bare(command[:equals]), head]).strip().lower()):
                raise ValueError("no tree command")
            marks = [token for token in command[:equals] if token.startswith("[")]
            kind, tree = marked([*marks, *([tail] if tail else []), *command[equals + 1:]])
            trees.append((kind, plain.renamed(tree, {taxon: names.get(taxon, taxon) for taxon in plain.taxa(tree)})))
        elif words not in ("#nexus begin trees ;", "begin trees ;", "end ;", ";"):
            raise ValueError(f"{words} is not known")
    return trees, bool(rest) and not "endblock".startswith(" ".join(rest).lower())


def read_table(text):
    """A last row that is not as it should be counts as begun, as that of a running chain."""
    header, *rows = [line.strip() for line in re.split(r"[\r\n]+", text) if line.strip()]
    ended = any(row.endswith(";") for row in rows[:-1])
    trees = []
    for place, row in enumerate(rows, 1):
        last = place == len(rows)
        cells = row.split("\t")
        try:
            whole = not (last and ended) or row.endswith(";")
            if len(cells) != header.count("\t") + 1 or cells[0].startswith("[") or not whole:
                raise ValueError("this row is not whole")
            trees.append(marked(list(plain.tokens(cells[-1].rstrip("; ") + ";"))))
        except ValueError:
            if last:
                return trees, True
            raise
    return trees, False


KINDS = {"Newick": (newick, read_newick), "NEXUS": (nexus, read_nexus), "table": (table, read_table)}


def damaged_file(rng):
    """A damaged text, and the strict reader of its kind."""
    write, reader = KINDS[rng.choice(sorted(KINDS))]
    count = rng.choice((3, 4, 5))
    rooted = rng.random() < 0.6
    trees = [dialects.random_tree(range(1, count + 1), rng) for _ in range(3)]
    trees = trees if rooted else list(map(dialects.without_root, trees))
    style = dialects.Style(rng, comments=rng.choice((0, 0.1)) if write is not table else 0, lines=0)
    mark = rng.choice(("", "[&R]" if rooted else "[&U]"))
    return damaged(write(trees, lambda taxon: rng.choice((f"{taxon}", f"'{taxon}'")), style, mark), rng), reader


def check(seed, read, refused):
    """Nothing, or how a damaged file was read otherwise than it is written."""
    text, reader = damaged_file(random.Random(seed))
    with tempfile.TemporaryDirectory() as folder:
        path = os.path.join(folder, "damaged.t")
        with open(path, "w", encoding="utf-8", newline="") as file:
            file.write(text)
        try:
            got = read([path], None)
        except refused:
            return ""
        except Exception as error:
            return f"{type(error).__name__}: {error}; {text!r}"
    try:
        wanted, begun = reader(text)
    except ValueError as error:
        return f"read, but {error}: {text!r}"
    if any("cut off" in warning for warning in got.warnings) != begun:
        return f"warnings {got.warnings}, begun {begun}: {text!r}"
    return "" if as_written(got, wanted) else f"read otherwise: {got.visits} of {text!r}"


def as_written(got, wanted):
    """Whether the trees that were read are those of the strict reader, and of the kind that each says."""
    kind = ("", "[&R]" if got.rooted else "[&U]")
    read = [plain.renamed(dialects.label_tree(visit.text), got.names) for visit in got.visits]
    topologies = [plain.topology(tree, got.rooted) for tree in read]
    return topologies == [plain.topology(tree, got.rooted) for _, tree in wanted] and all(mark in kind for mark, _ in wanted)


def checks(read, refused):
    for seed in range(FILES):
        yield f"seed {seed}", check(seed, read, refused)
