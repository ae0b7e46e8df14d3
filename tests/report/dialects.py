"""Random samples, each written in dialects that samplers and tree programs use.

The generator knows the names, the labels they get, and of each tree the topology, the line and the generation. What the
report reads has to say the same. Topologies are compared as sets of clades or of splits of names, so neither the
report's texts nor the library's canonical form decide. `dialects.py SEED FOLDER` writes the files of a seed.
"""
import os
import random
import re
import sys
import tempfile
from collections import Counter
from typing import NamedTuple

import expected
import plain
import runs
from expected import Visit

# How many samples are read, and of how many a report is made; that of more taxa takes the independent program long.
SAMPLES = 1000
REPORTS = 100
REPORT_TAXA = 8
MOST_TAXA = 64
LETTERS = "abcdefghijklmnopqrstuvwxyzABCDEFGHIJKLMNOPQRSTUVWXYZ"
FOREIGN = "\u00e4\u00f6\u00fc\u00e9\u0142\u03b1\u0416\u05d0\u0639\u0939\u3042\u6a39\U00010400"
OUTSIDE_QUOTES = "/|@+#!?~$%&<>^`"
INSIDE_QUOTES = "[](),;:'*={}\\\"" + OUTSIDE_QUOTES
KEYWORDS = ("tree", "utree", "end", "begin", "translate", "NEXUS", "endblock")
# Python takes these for ends of lines in some places; files do not.
NO_LINE_ENDS = "\u2028\u0085\x0b\x0c\x1c"
NEEDS_QUOTES = re.compile(r"[][(),;:'*={}\\\"_]|^ | $|  ")
GENERATION = re.compile(r"(?:gen\.|rep\.|STATE_)(\d+)")


class Sample(NamedTuple):
    """Trees over the taxa 0, 1, 2 and on, and the names of these."""

    rooted: bool
    names: list
    trees: list


class Expected(NamedTuple):
    """What is to be read: the name of each label, and for each tree its file, line and generation, and itself by names."""

    rooted: bool
    names: dict
    visits: list
    unmarked: bool


# ---- samples


def random_tree(taxa, rng):
    """A rooted tree: often a bushy one, now and then a comb."""
    trees, comb = list(taxa), rng.random() < 0.2
    rng.shuffle(trees)
    while len(trees) > 1:
        first = trees.pop(len(trees) - 1 if comb else rng.randrange(len(trees)))
        second = trees.pop(rng.randrange(len(trees)))
        trees.append((first, second))
    return trees[0]


def without_root(tree):
    """The unrooted tree: three at the top, where it has three taxa or more."""
    first, second = tree if isinstance(tree, tuple) else (None, None)
    if isinstance(first, tuple):
        return first + (second,)
    return (first,) + second if isinstance(second, tuple) else tree


def turned(tree, rng):
    """The same tree with the children of each fork in another order."""
    if not isinstance(tree, tuple):
        return tree
    children = [turned(child, rng) for child in tree]
    rng.shuffle(children)
    return tuple(children)


def hung_elsewhere(tree, rng):
    """The same unrooted tree with another of its forks at the top."""
    forks = [child for child in tree if isinstance(child, tuple)] if isinstance(tree, tuple) else []
    if not forks or rng.random() < 0.2:
        return tree
    chosen = rng.choice(forks)
    others = tuple(child for child in tree if child is not chosen)
    return hung_elsewhere(chosen + (others,), rng)


def random_sample(rng, most=MOST_TAXA):
    """Between 1 and 64 taxa, or fewer; a few topologies, most of them visited several times."""
    count = rng.choice([count for count in (1, 2, 3, 4, 5, 6, 8, 12, 20, 33, MOST_TAXA) if count <= most])
    rooted = rng.random() < 0.5
    pool = [random_tree(range(count), rng) for _ in range(rng.choice((1, 2, 4, 9)))]
    trees = [rng.choice(pool) for _ in range(rng.choice((1, 2, 5, 12)))]
    if rooted:
        return Sample(True, random_names(count, rng), [turned(tree, rng) for tree in trees])
    trees = [hung_elsewhere(without_root(tree), rng) for tree in trees]
    return Sample(False, random_names(count, rng), [turned(tree, rng) for tree in trees])


# ---- names


def word(rng, letters=LETTERS, most=8):
    return "".join(rng.choice(letters) for _ in range(rng.randrange(1, most)))


def plain_name(rng):
    return word(rng) + rng.choice(("", "", str(rng.randrange(100)), "." + word(rng), "-" + word(rng), " " + word(rng)))


def odd_name(rng):
    """A name that tests a reader."""
    return rng.choice((
        lambda: word(rng) + " " + word(rng) + " " + word(rng),
        lambda: word(rng) + "_" + word(rng),
        lambda: word(rng, LETTERS + INSIDE_QUOTES) + word(rng),
        lambda: word(rng, INSIDE_QUOTES) + word(rng, INSIDE_QUOTES),
        lambda: word(rng) + word(rng, OUTSIDE_QUOTES) + word(rng),
        lambda: word(rng, FOREIGN),
        lambda: word(rng, LETTERS + FOREIGN + " " + INSIDE_QUOTES, 20) + word(rng),
        lambda: word(rng) + "'" + rng.choice(("", "'", word(rng))),
        lambda: "  " + word(rng) + "  " + word(rng) + " ",
        lambda: rng.choice(KEYWORDS),
        lambda: word(rng, LETTERS, 200),
        lambda: rng.choice(("1e5", "-3", "007", "x1", "0", "12.5", "[&R]", "''", "(1,2);", "tree x = (1,2);")),
    ))()


def random_names(count, rng):
    """Names that differ even where case does not matter, of one of three sorts: numbers, plain ones, any."""
    sort = rng.random()
    if sort < 0.1:
        return [str(number) for number in rng.sample(range(1, MOST_TAXA + 1), count)]
    names = {}
    while len(names) < count:
        name = plain_name(rng) if sort < 0.4 or rng.random() < 0.3 else odd_name(rng)
        names.setdefault(name.casefold(), name)
    return list(names.values())


def is_plain(name):
    return re.fullmatch(r"[A-Za-z0-9.\- ]+", name) and not NEEDS_QUOTES.search(name)


def token(name, rng):
    """A name as it stands in a file: quoted, or where that is allowed without quotes."""
    if NEEDS_QUOTES.search(name) or rng.random() < 0.3:
        return "'" + name.replace("'", "''") + "'"
    return name.replace(" ", "_")


# ---- the parts of a file


class Style:
    """How one file is written, and what is put between its signs and words."""

    def __init__(self, rng, comments=None, lines=None):
        self.rng = rng
        self.comments = rng.choice((0, 0, 0.05, 0.3)) if comments is None else comments
        self.lines = rng.choice((0, 0, 0.1)) if lines is None else lines
        self.lengths = rng.choice((0, 0.5, 1, 1))
        self.labels = rng.choice((0, 0, 0.5))
        self.annotations = rng.choice((0, 0, 0.3))
        self.case = rng.choice((str.lower, str.upper, str.capitalize, self.mixed))

    def mixed(self, text):
        return "".join(self.rng.choice((letter.lower(), letter.upper())) for letter in text)

    def gap(self):
        """Between signs: mostly nothing."""
        rng, gap = self.rng, ""
        if rng.random() < self.lines:
            gap += rng.choice(("\n", "\n\n", " \n\t"))
        if rng.random() < self.comments:
            gap += comment(rng, self.lines > 0)
        return gap + rng.choice(("", "", "", "", " ", "\t")) * (self.comments > 0)

    def blank(self):
        """Between words: a blank at least, before and behind what stands there."""
        gap = self.gap()
        return self.rng.choice((" ", " ", "  ", "\t")) + gap + " " * (not gap.endswith(" "))

    def annotation(self):
        if self.rng.random() >= self.annotations:
            return ""
        return self.rng.choice((
            "[&rate=0.5]", "[&rate=1.0E-5,height_95%_HPD={0.1,0.2}]", '[&!name="a;b\'c",x=1]', "[&index=3]",
        ))

    def length(self):
        if self.rng.random() >= self.lengths:
            return self.annotation()
        number = self.rng.choice((
            "1", "0", "0.5", "1e-05", "1E-5", "1.0E+2", "1.000000e+00", ".5", "5.", "-0.25", "-1e-3", "+2.5", "12345678.125",
        ))
        return self.annotation() + self.gap() + ":" + self.gap() + self.annotation() + number + self.annotation()

    def label(self):
        """A label of a fork, often one that a taxon could have too."""
        if self.rng.random() >= self.labels:
            return ""
        return self.rng.choice(("100", "1", "2", "0.95", "1.00", "clade", "Node_7", "'a, (b); c'", "'1'"))


def comment(rng, lines):
    """A comment, with comments, quotes and commands inside."""
    inside = "".join(rng.choice((
        *"x ;'\"(),:=", "it's", "tree y = (1,2);", "end;", "&R", "#NEXUS", rng.choice(FOREIGN), rng.choice(NO_LINE_ENDS),
        "\n" if lines else "-",
    )) for _ in range(rng.randrange(6)))
    nested = comment(rng, lines) if rng.random() < 0.3 else ""
    return "[" + rng.choice(("", "!", "%", "c")) + inside.lstrip("&") + nested + rng.choice(("", "z;")) + "]"


def node(tree, leaf, style):
    """A tree in brackets, with what may stand at its nodes; `leaf` writes a taxon."""
    if not isinstance(tree, tuple):
        return leaf(tree) + style.length()
    children = (style.gap() + "," + style.gap()).join(node(child, leaf, style) for child in tree)
    return "(" + style.gap() + children + style.gap() + ")" + style.label() + style.length()


def mark(sample, style):
    """The mark before a tree, or none where the top says what it is."""
    if (sample.rooted or len(sample.names) > 2) and style.rng.random() < 0.2:
        return ""
    return style.rng.choice(("[&R]", "[&r]") if sample.rooted else ("[&U]", "[&u]"))


class File:
    """A file that is being written: its text, and the places, generations and trees of its commands."""

    def __init__(self):
        self.text = ""
        self.visits = []
        self.unmarked = False

    def add(self, text):
        self.text += text

    def visit(self, tree, generation):
        self.visits.append((self.text.count("\n") + 1, generation, tree))


# ---- NEXUS


def tree_name(number, style):
    return style.rng.choice((
        f"gen.{number * 100}", f"rep.{number}", f"STATE_{number * 1000}", f"PAUP_{number}", f"t{number}",
        f"'tree {number}; it''s'",
    ))


def tree_command(file, sample, tree, number, leaf, style):
    """`tree NAME = [&R] (...);`, or a `utree`."""
    rng, name = style.rng, tree_name(number, style)
    keyword = "utree" if not sample.rooted and rng.random() < 0.2 else "tree"
    marked = mark(sample, style)
    if keyword == "utree":
        marked = rng.choice((marked, ""))
    else:
        file.unmarked |= not marked
    weight = rng.choice(("", "", "", "[&W 1/3] ", "[&lnP=-12.5]"))
    generation = GENERATION.match(name)
    file.visit(tree, generation.group(1) if generation else "")
    file.add(style.case(keyword) + style.blank() + rng.choice(("", "", "", "* ")) + name + style.blank())
    file.add(rng.choice(("", "[&lnP=-34.5,posterior=-34.5] ")) + "=" + style.blank())
    file.add(rng.choice((weight + marked, marked + weight)) + style.gap() + node(tree, leaf, style) + style.gap() + ";")


def between_commands(style):
    """Mostly a line end; also several, a comment, or nothing, so that several trees stand on a line."""
    extra = comment(style.rng, True) if style.rng.random() < style.comments else ""
    return extra + style.rng.choice(("\n", "\n", "\n   ", "\n\t", "\n\n", " ", "", "\n" + extra + "\n"))


def block(file, name, style):
    file.add(style.case("begin") + style.blank() + style.case(name) + style.gap() + ";" + between_commands(style))


def end(file, style):
    file.add(style.case(style.rng.choice(("end", "endblock"))) + style.gap() + ";" + between_commands(style))


def taxa_block(file, names, style):
    block(file, "taxa", style)
    file.add(style.case("dimensions") + style.blank() + style.case("ntax") + f"={len(names)};" + between_commands(style))
    file.add(style.case("taxlabels") + style.blank())
    file.add("".join(token(name, style.rng) + style.blank() for name in names) + ";" + between_commands(style))
    end(file, style)


def other_block(file, style):
    """A block that says nothing of trees."""
    if style.rng.random() < 0.3:
        block(file, style.rng.choice(("data", "characters")), style)
        file.add("dimensions ntax=2 nchar=4;\nformat datatype=dna gap=-;\nmatrix\nx AC-G\n'y; z' ACGT\n;\n")
    else:
        block(file, style.rng.choice(("paup", "figtree", "mrbayes", "notes")), style)
        file.add("set x='a; b' y=\"c\";\n")
    end(file, style)


def translate(file, tokens, names, style):
    """`tokens` stand for `names`, in this order."""
    file.add(style.case("translate") + style.blank())
    rows = [short + style.blank() + token(name, style.rng) for short, name in zip(tokens, names)]
    comma = style.gap() + "," + style.rng.choice(("\n", "\n\t", " "))
    file.add(comma.join(rows) + style.gap() + ";" + between_commands(style))


def short_names(count, rng):
    """What stands for names in a translate block."""
    if rng.random() < 0.2:
        return [f"t{number}" for number in rng.sample(range(1000), count)]
    numbers = list(range(1, count + 1)) if rng.random() < 0.7 else rng.sample(range(1, 1000), count)
    if rng.random() < 0.5:
        rng.shuffle(numbers)
    return [str(number) for number in numbers]


def trees_block(file, sample, trees, first, order, leaves, style):
    """A block of trees; `leaves` says how a taxon is written: with numbers of a translate block, of the taxa, or by name."""
    rng = style.rng
    block(file, "trees", style)
    if rng.random() < 0.1:
        file.add(style.case("title") + style.blank() + "'some; trees';" + between_commands(style))
    short = {}
    if leaves == "translate":
        short = dict(zip(order, short_names(len(order), rng)))
        translate(file, [short[taxon] for taxon in order], [sample.names[taxon] for taxon in order], style)
    elif leaves == "numbers":
        short = {taxon: str(number) for number, taxon in enumerate(order, 1)}
    # A name may stand in a tree beside short ones, if it is none of these itself.
    taken = {own.casefold() for own in short.values()}
    by_name = rng.choice((0, 0, 0.3))

    def leaf(taxon):
        name = sample.names[taxon]
        if taxon in short and (name.casefold() in taken or rng.random() >= by_name):
            return short[taxon]
        return token(name, rng)

    for number, tree in enumerate(trees, first):
        tree_command(file, sample, tree, number, leaf, style)
        file.add(between_commands(style))


def nexus(sample, trees, rng):
    """A NEXUS file, and the order of its translate or taxa block, where it has one."""
    file, style = File(), Style(rng)
    order = list(range(len(sample.names)))
    rng.shuffle(order)
    numeric = any(name.isdigit() for name in sample.names)
    with_taxa = rng.random() < 0.4
    leaves = rng.choice(("translate", "translate", "names", "numbers" if with_taxa else "names"))
    if numeric and with_taxa:
        # Without a translate block a number is that of a taxon in the list, whatever the names are.
        leaves = "translate"
    file.add(rng.choice(("#NEXUS", "#nexus", "#Nexus")) + "\n" + style.gap() + rng.choice(("", "\n", "[ID: 1234]\n")))
    if with_taxa:
        taxa_block(file, [sample.names[taxon] for taxon in order], style)
        if leaves == "translate" and rng.random() < 0.3:
            rng.shuffle(order)
    if rng.random() < 0.2:
        other_block(file, style)
    half = rng.choice((len(trees), len(trees), len(trees) // 2))
    for first, part in ((0, trees[:half]), (half, trees[half:])):
        if part:
            trees_block(file, sample, part, first, order, leaves, style)
            last = first + len(part) == len(trees)
            if not last or rng.random() < 0.8:
                end(file, style)
    if rng.random() < 0.2 and re.search(r"(?i)end(block)?\s*;\s*$", file.text):
        other_block(file, style)
    return file, order if with_taxa or leaves == "translate" else None


# ---- Newick and RevBayes' tables


def newick(sample, trees, rng):
    """Trees and nothing else; the file has no order of names."""
    file, style = File(), Style(rng)
    for tree in trees:
        marked = mark(sample, style)
        file.unmarked |= not marked
        file.visit(tree, "")
        text = node(tree, lambda taxon: token(sample.names[taxon], rng), style)
        file.add(marked + rng.choice(("", " ")) + text + style.gap() + ";")
        file.add(style.rng.choice(("\n", "\n", "\n\n", " ", "")))
    return file, None


def revbayes(sample, trees, rng):
    """A table with a column of trees; names are plain."""
    file, style = File(), Style(rng, comments=0, lines=0)
    before = rng.choice((["Iteration"], ["Iteration", "Posterior", "Likelihood", "Prior"]))
    behind = rng.choice(([], [], ["alpha"]))
    file.add(rng.choice(("", "", "#RevBayes version (1.2.1)\n#Build from master\n")))
    file.add("\t".join(before + ["psi"] + behind) + "\n")
    file.unmarked = True
    for number, tree in enumerate(trees):
        file.visit(tree, str(number * 10))
        numbers = [f"-{rng.randrange(10 ** 6) / 1000}" for _ in before[1:]]
        text = node(tree, lambda taxon: sample.names[taxon].replace(" ", "_") + f"[&index={taxon + 1}]", style)
        file.add("\t".join([str(number * 10)] + numbers + [text + ";"] + ["0.5" for _ in behind]) + "\n")
    return file, None


# ---- whole samples


def other_case(name, rng):
    """The same name by the rules of NEXUS."""
    return rng.choice((name.upper(), name.lower())) if name.isascii() and rng.random() < 0.3 else name


def with_line_ends(text, rng):
    """The bytes of a file, with line ends of one kind, or of two mixed."""
    kind = rng.choice(("\n", "\n", "\r\n", "\r", None))
    if kind is None:
        text = re.sub("\n", lambda _: rng.choice(("\n", "\r\n")), text)
    else:
        text = text.replace("\n", kind)
    return rng.choice((b"", b"", b"", b"\xef\xbb\xbf")) + text.encode()


def dialects(sample):
    """The dialects that can hold a sample."""
    table = all(map(is_plain, sample.names)) and len(sample.names) > (1 if sample.rooted else 2)
    return (nexus, nexus, newick, revbayes) if table else (nexus, nexus, newick)


def names_by_label(names, order):
    """By the order of the first file's block; else by the numbers that the names are; else by code points."""
    if order is not None:
        return {label: names[taxon] for label, taxon in enumerate(order, 1)}
    if all(re.fullmatch(r"[1-9]\d*", name) and int(name) <= MOST_TAXA for name in names):
        return {int(name): name for name in names}
    return dict(enumerate(sorted(names), 1))


def write(sample, folder, rng):
    """Writes a sample into one to three files; gives their paths, and what is to be read from them."""
    paths, visits, labels, unmarked = [], [], None, False
    ends = sorted(rng.randrange(1, len(sample.trees) + 1) for _ in range(rng.choice((0, 0, 1, 2)))) + [len(sample.trees)]
    start = 0
    for number, stop in enumerate(sorted(set(ends))):
        names = [other_case(name, rng) for name in sample.names] if number else sample.names
        file, order = rng.choice(dialects(sample))(sample._replace(names=names), sample.trees[start:stop], rng)
        labels = labels or names_by_label(sample.names, order)
        path = os.path.join(folder, f"run{number}.t")
        with open(path, "wb") as out:
            out.write(with_line_ends(file.text, rng))
        visits += [Visit(number, line, generation, plain.renamed(tree, sample.names))
                   for line, generation, tree in file.visits]
        unmarked |= file.unmarked
        paths.append(path)
        start = stop
    return paths, Expected(sample.rooted, labels, visits, unmarked)


def label_tree(text):
    """The tree of a canonical text, with numbers for taxa."""
    tree = plain.parse(text)
    return plain.renamed(tree, {taxon: int(taxon) for taxon in plain.taxa(tree)})


def differences(wanted, read):
    """What was read otherwise than written."""
    if read.rooted != wanted.rooted:
        yield f"rooted: {read.rooted}"
    if read.names != wanted.names:
        yield f"names {read.names}, not {wanted.names}"
        return
    if len(read.visits) != len(wanted.visits):
        yield f"{len(read.visits)} trees, not {len(wanted.visits)}"
    for number, (visit, other) in enumerate(zip(read.visits, wanted.visits)):
        place = (visit.source, visit.line, visit.generation)
        if place != other[:3]:
            yield f"tree {number}: {place}, not {other[:3]}"
        topology = plain.topology(plain.renamed(label_tree(visit.text), read.names), wanted.rooted)
        if topology != plain.topology(other.tree, wanted.rooted):
            yield f"tree {number}: another topology, {visit.text}"
    if len(wanted.names) > 2 and bool(read.warnings) != wanted.unmarked:
        yield f"warnings {read.warnings}, unmarked trees: {wanted.unmarked}"


def check_reading(seed, read):
    """Writes the sample of this seed and reads it; gives the differences."""
    rng = random.Random(seed)
    with tempfile.TemporaryDirectory() as folder:
        paths, wanted = write(random_sample(rng), folder, rng)
        try:
            return list(differences(wanted, read(paths, None)))
        except Exception as error:
            return [f"{type(error).__name__}: {error}"]


def check_report(seed):
    """Makes the report of the sample of this seed; gives the names of the tables that are not the generator's."""
    rng = random.Random(seed)
    with tempfile.TemporaryDirectory() as folder:
        paths, wanted = write(random_sample(rng, REPORT_TAXA), folder, rng)
        least = min(Counter(visit.source for visit in wanted.visits).values())
        burn_in = rng.choice(("0", f"{rng.randrange(100)}%", str(rng.randrange(least))))
        top = rng.choice((1, 2, 3, 160))
        names = [os.path.basename(path) for path in paths]
        run = runs.forked("report", *names, "-o", "report", "--burn-in", burn_in, "--top", str(top), folder=folder)
        made = runs.files_in(os.path.join(folder, "report"))
        tables, _ = expected.tables(names, wanted.names, wanted.rooted, wanted.visits, burn_in, top)
        return [str(run)] * (run.status != 0) + [name for name, text in tables.items() if made.get(name) != text.encode()]


def checks(read):
    for seed in range(SAMPLES):
        yield f"seed {seed}", "; ".join(check_reading(seed, read))
    for seed in range(REPORTS):
        yield f"report of seed {seed}", ", ".join(check_report(seed))


def main(arguments):
    """Writes the files of a seed, to look at them."""
    seed, folder = arguments
    rng = random.Random(int(seed))
    os.makedirs(folder)
    print(*write(random_sample(rng), folder, rng), sep="\n")


if __name__ == "__main__":
    main(sys.argv[1:])
