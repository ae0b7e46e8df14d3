#!/usr/bin/env python3
"""Test inputs for the program of rows.

    generate_rows.py SEED COUNT OUTDIR

writes COUNT files into OUTDIR, each one standard input for the program of
rows.c: calls of one kind, up to some thousands.  Seeds, positions and file names
are as in generate.py.

The first cases are the fixed ones.  They have, as a row to be read, every list of
up to four numbers over three labels, whatever its first number is; for each set
of up to four labels this set and then every set of its parts, ascending; and the
same set and then every list of three of them, in any order and with repeats.
Then the rows of all trees of up to five leaves, whole pairs of them, rows at the
limits with each number left out, doubled, exchanged with the next and changed,
and a text for each way a refusal can come about.  All others are drawn at random:
rows of random trees of up to 64 leaves, damaged rows, pairs, and texts, whole and
damaged.

A row is a list of numbers here, and a clade of labels is worked out by bits:
nothing is taken over from reference.py, which has sets of labels.
"""

import argparse
import itertools
import random
import sys

import generate
from generate import ALL_LABELS, ROOTED, UNROOTED

LARGEST = 2 ** 64 - 1
CALLS_IN_A_CASE = 4096


# Rows


def bit(label):
    """The number of one label."""
    return 1 << (label - 1)


def number(labels):
    """The number of a set of labels."""
    return sum(map(bit, labels))


def row(tree):
    """The row of nested tuples of two."""
    clades = []

    def gather(node):
        """The number of a node's labels; notes those of the forks."""
        if generate.is_leaf(node):
            return bit(node)
        clades.append(gather(node[0]) | gather(node[1]))
        return clades[-1]

    labels = gather(tree)
    return [labels] + sorted(clades)


def labels_in(number_):
    """The labels of a number, ascending."""
    return [label for label in ALL_LABELS if number_ & bit(label)]


def parts(labels):
    """The numbers of all sets of these labels, the empty one too, ascending."""
    return sorted(number(chosen) for size in range(len(labels) + 1) for chosen in itertools.combinations(labels, size))


# Calls


def row_call(text):
    """Text to row."""
    return b"row %d\n%s\n" % (len(text), text)


def counted(numbers):
    """A row with the number of its numbers before it."""
    return b"".join(b" %d" % number_ for number_ in [len(numbers)] + list(numbers))


def text_call(numbers):
    """Row to text."""
    return b"text" + counted(numbers) + b"\n"


def pair_call(numbers, others):
    """The pair test on two rows."""
    return b"pair" + counted(numbers) + counted(others) + b"\n"


# Random trees and rows


def random_size(rng):
    """Mostly few leaves, and often the most."""
    return rng.choice((rng.randint(1, 8), rng.randint(1, 8), rng.randint(3, 64), rng.choice((32, 33, 63, 64))))


def random_tree(rng):
    """A random rooted tree of 1 to 64 leaves."""
    return generate.random_tree(rng, generate.random_labels(rng, random_size(rng)))


def one_text(rng, tree):
    """A text of one tree in any layout, marked at times."""
    table = generate.with_marks(rng, generate.table_tokens([tree]), rng.choice((0.0, 0.0, 1.0)))
    return generate.in_layout(rng, table)


def tree_text(rng):
    """The text of a rooted tree, at times with zeros before labels."""
    tree = random_tree(rng)
    if rng.random() < 0.8:
        return one_text(rng, tree)
    table = generate.table_tokens([tree])
    for place, token in enumerate(table):
        if token.isdigit() and rng.random() < 0.5:
            table[place] = b"0" * rng.randint(1, 4) + token
    return generate.with_blanks(rng, table, rng.choice((0.0, 0.2)))


def unrooted_text(rng):
    """The text of an unrooted tree, at times with a fault behind its `;`."""
    tree = UNROOTED.grow(rng, generate.random_labels(rng, random_size(rng)))
    return one_text(rng, tree) + rng.choice((b"", b"", b"", b"x", b"1;", b"[&U]1;", b"65"))


def damaged_text(rng):
    """The text of one tree with one to three wrong bytes, tokens or labels, or
    cut off; or one that is too deep or too long, or has something behind it."""
    way = rng.randrange(16)
    if way == 0:
        return generate.too_deep(rng)
    if way == 1:
        return generate.long_text(rng)
    if way == 2:
        return generate.noise(rng)
    if way == 3:
        return generate.written(rng, generate.usual_table(rng, rng.choice((ROOTED, UNROOTED))))
    tree = rng.choice((ROOTED, ROOTED, UNROOTED)).grow(rng, generate.random_labels(rng, rng.randint(1, 12)))
    table = generate.table_tokens([tree])
    labels = [place for place, token in enumerate(table) if token.isdigit()]
    if way in (4, 5):
        table[rng.choice(labels)] = rng.choice(generate.BAD_LABELS)
    elif way in (6, 7):
        table[rng.choice(labels)] = table[rng.choice(labels)]
    elif way in (8, 9):
        generate.damage_token(rng, table)
    text = bytearray(generate.with_blanks(rng, table, rng.choice((0.0, 0.2))))
    if way in (10, 11):
        del text[rng.randrange(len(text) + 1):]
    elif way > 11:
        for _ in range(rng.randint(1, 3)):
            generate.damage_byte(rng, text)
    return bytes(text)


# Damage to rows.  Each takes one or more numbers, which it may change, and gives
# what became of them, which may by chance be a row.


def label_of(rng, number_):
    """A label of a number; any label where it has none."""
    return rng.choice(labels_in(number_) or ALL_LABELS)


def flip_bit(rng, numbers):
    """One bit of one number changed."""
    place = rng.randrange(len(numbers))
    numbers[place] ^= bit(rng.choice(ALL_LABELS))
    return numbers


def flip_label(rng, numbers):
    """One label of the label set put into a clade, or taken out."""
    place = rng.randrange(len(numbers))
    numbers[place] ^= bit(label_of(rng, numbers[0]))
    return numbers


def replace_clade(rng, numbers):
    """A number replaced by a set of some of the labels, or by any number."""
    place = rng.randrange(len(numbers))
    numbers[place] = rng.choice((
        rng.getrandbits(64), rng.getrandbits(64) & numbers[0], numbers[0], 0, LARGEST, numbers[place] & -numbers[place],
    ))
    return numbers


def other_clade(rng, numbers):
    """A clade replaced by one of another tree on the same labels."""
    labels = labels_in(numbers[0])
    if len(labels) > 2 and len(numbers) > 1:
        other = row(generate.random_tree(rng, labels))
        numbers[rng.randrange(1, len(numbers))] = rng.choice(other[1:])
    return numbers


def crossed(rng, numbers):
    """A clade in which one label is exchanged for one outside of it, so that it
    has as many labels as before."""
    inner = [place for place in range(1, len(numbers)) if numbers[place] != numbers[0]]
    if inner:
        place = rng.choice(inner)
        outside = numbers[0] & ~numbers[place]
        numbers[place] ^= bit(label_of(rng, numbers[place])) | bit(label_of(rng, outside))
    return numbers


def small_clade(rng, numbers):
    """A set of one label or of none in place of a clade."""
    if len(numbers) > 1:
        numbers[rng.randrange(1, len(numbers))] = rng.choice((0, bit(label_of(rng, numbers[0]))))
    return numbers


def swap_two(rng, numbers):
    """Two numbers exchanged, next to each other or not."""
    if len(numbers) > 2:
        one, other = rng.sample(range(1, len(numbers)), 2)
        if rng.random() < 0.5:
            other = one + 1 if one + 1 < len(numbers) else one - 1
        numbers[one], numbers[other] = numbers[other], numbers[one]
    return numbers


def disorder(rng, numbers):
    """The clades in another order, or the label set behind them."""
    way = rng.randrange(3)
    if way == 0:
        return numbers[:1] + numbers[:0:-1]
    if way == 1:
        return numbers[:1] + rng.sample(numbers[1:], len(numbers) - 1)
    return numbers[1:] + numbers[:1]


def drop(rng, numbers):
    """A number left out."""
    del numbers[rng.choice((0, len(numbers) - 1, rng.randrange(len(numbers))))]
    return numbers


def double(rng, numbers):
    """A number twice, in place of the next or before it."""
    place = rng.randrange(len(numbers))
    end = place + 1 + rng.randrange(2)
    return numbers[:place + 1] + [numbers[place]] + numbers[end:]


def append(rng, numbers):
    """Up to three numbers, at times very many, behind the others."""
    many = rng.choice((1, 1, 1, 2, 3, 64, 200))
    return numbers + [rng.choice((numbers[0], numbers[-1], 0, LARGEST, rng.getrandbits(64)))] * many


def other_labels(rng, numbers):
    """The label set with a label more, one less, or another in place of one; any
    label set; or a label more and one number more for it."""
    inside, outside = bit(label_of(rng, numbers[0])), bit(label_of(rng, LARGEST & ~numbers[0]))
    way = rng.randrange(7)
    if way in (0, 2):
        numbers[0] ^= inside
    if way in (1, 2):
        numbers[0] ^= outside
    if way in (3, 4):
        # All clades change with it, or all but one.
        kept = rng.randrange(len(numbers)) if way == 4 else None
        return [
            clade ^ inside ^ outside if clade & inside and place != kept else clade
            for place, clade in enumerate(numbers)
        ]
    if way == 5:
        numbers[0] = rng.choice((0, LARGEST, rng.getrandbits(64)))
    if way == 6:
        numbers[0] |= outside
        numbers.append(rng.choice((numbers[0], numbers[-1])))
    return numbers


def emptied(rng, numbers):
    """Nothing, or the label set only."""
    return numbers[:rng.randrange(2)]


DAMAGES = (
    flip_bit, flip_label, replace_clade, other_clade, crossed, crossed, small_clade, swap_two, disorder, drop, double,
    append, other_labels,
)


def damaged(rng, numbers):
    """A row with one damage, at times with more, and often with its clades put in
    order again, so that the order is not what is wrong."""
    numbers = list(numbers)
    if rng.random() < 0.02:
        return emptied(rng, numbers)
    for _ in range(rng.choice((1, 1, 1, 1, 2, 3))):
        if numbers:
            numbers = rng.choice(DAMAGES)(rng, numbers)
    return numbers[:1] + sorted(numbers[1:]) if rng.random() < 0.5 else numbers


# Kinds of random calls


def random_row_call(rng):
    """A text of a rooted tree."""
    return row_call(tree_text(rng))


def random_text_call(rng):
    """A row of a random tree."""
    return text_call(row(random_tree(rng)))


def damaged_row_calls(rng):
    """A row of a random tree, damaged in some ways."""
    numbers = row(random_tree(rng))
    return b"".join(text_call(damaged(rng, numbers)) for _ in range(8))


def large_damaged_row_calls(rng):
    """The same with 33 to 64 leaves."""
    numbers = row(generate.random_tree(rng, generate.random_labels(rng, rng.choice((33, 48, 63, 64, 64)))))
    return b"".join(text_call(damaged(rng, numbers)) for _ in range(10))


def near_trees(rng, sizes):
    """A tree with a number of leaves from `sizes`, and one that is none, one, two
    or many moves away."""
    tree = generate.random_tree(rng, generate.random_labels(rng, rng.choice(sizes)))
    other = tree
    for _ in range(rng.choice((0, 1, 1, 1, 2, 2, 9))):
        other = generate.random_move(rng, other)
    return tree, other


def random_pair_call(rng):
    """Two rows on the same labels."""
    return pair_call(*map(row, near_trees(rng, range(1, 13))))


def large_pair_call(rng):
    """The same with 24 to 64 leaves."""
    return pair_call(*map(row, near_trees(rng, (24, 33, 33, 40, 48, 64))))


def other_labels_pair_call(rng):
    """Two rows on different label sets."""
    labels = generate.random_labels(rng, rng.randint(1, 40))
    others = generate.other_label_set(rng, labels)
    while not others:
        others = generate.other_label_set(rng, labels)
    return pair_call(*(row(generate.random_tree(rng, chosen)) for chosen in (labels, others)))


def damaged_pair_call(rng):
    """Two rows, damaged one or both, at times on different label sets."""
    tree, other = near_trees(rng, (1, 2, 3, 4, 5, 6, 12, 64))
    if rng.random() < 0.3:
        other = random_tree(rng)
    rows = [row(tree), row(other)]
    for place in rng.choice(((0,), (1,), (1,), (0, 1))):
        rows[place] = damaged(rng, rows[place])
    return pair_call(*rows)


# Kind, share among the random cases, how often a case has what is made, maker of
# a call or some.
KINDS = (
    ("row", 4, 20, random_row_call),
    ("unrooted", 2, 20, lambda rng: row_call(unrooted_text(rng))),
    ("damaged-text", 8, 20, lambda rng: row_call(damaged_text(rng))),
    ("text", 4, 20, random_text_call),
    ("damaged-row", 10, 6, damaged_row_calls),
    ("large-damaged-row", 6, 4, large_damaged_row_calls),
    ("pair", 6, 20, random_pair_call),
    ("large-pair", 1, 4, large_pair_call),
    ("other-labels", 2, 20, other_labels_pair_call),
    ("damaged-pair", 6, 20, damaged_pair_call),
)


def repeated(times, make):
    """The maker of a case that has so many of what is made."""
    return lambda rng: b"".join(make(rng) for _ in range(times))


CASE_KINDS = tuple((kind, share, repeated(times, make)) for kind, share, times, make in KINDS)


# Fixed cases


# Scattered labels, and those of the lowest and the highest bits.
LABEL_SETS = ((1, 2, 3, 4), (2, 10, 33, 64), (61, 62, 63, 64))


def in_cases(kind, calls):
    """Calls of one kind in as many cases as are needed."""
    calls = list(calls)
    return [
        (kind, b"".join(calls[start:start + CALLS_IN_A_CASE])) for start in range(0, len(calls), CALLS_IN_A_CASE)
    ]


def ascending_lists(labels):
    """Before each set of parts of the labels, ascending, the labels."""
    choices = parts(labels)
    return [
        [number(labels)] + list(chosen)
        for size in range(len(choices) + 1) for chosen in itertools.combinations(choices, size)
    ]


def all_small_rows():
    """All lists for up to four labels that the first lines of this file name."""
    lists = [list(chosen) for size in range(5) for chosen in itertools.product(parts((1, 2, 3)), repeat=size)]
    for size in range(1, 5):
        lists += ascending_lists(LABEL_SETS[0][:size])
    for labels in LABEL_SETS:
        lists += [[number(labels)] + list(chosen) for chosen in itertools.product(parts(labels), repeat=3)]
    for labels in LABEL_SETS[1:]:
        lists += [numbers for numbers in ascending_lists(labels) if 3 <= len(numbers) <= 5]
    return lists


def small_trees():
    """One tree for each topology of up to five leaves, on several label sets."""
    sets = [labels[:size] for labels in LABEL_SETS for size in range(1, 5)] + [(1, 2, 3, 4, 5), (9, 10, 11, 32, 33)]
    return [tree for labels in sets for tree in generate.all_trees(labels)]


def small_pairs():
    """All pairs of trees of up to four leaves, some of five, and pairs on
    different label sets."""
    groups = [generate.all_trees(LABEL_SETS[0][:size]) for size in range(1, 5)]
    groups += [generate.all_trees(LABEL_SETS[1]), generate.all_trees((1, 2, 3, 4, 5))[::5]]
    pairs = [pair for group in groups for pair in itertools.product(group, repeat=2)]
    several = [group[-1] for group in groups]
    return pairs + list(itertools.product(several, repeat=2))


def limit_rows():
    """Rows of 63 and 64 leaves, the deepest and others, and what stands next to
    them: a number left out, doubled, exchanged with the next, with one label more
    or less; a number appended."""
    rng = random.Random("fixed rows")
    trees = [generate.left_comb(ALL_LABELS), generate.right_comb(ALL_LABELS), generate.left_comb(ALL_LABELS[::-1])]
    trees += [generate.left_comb(ALL_LABELS[1:]), generate.joined_at_random(rng, ALL_LABELS)]
    lists = []
    for numbers in map(row, trees):
        lists += [numbers] + [numbers + [extra] for extra in (0, numbers[0], LARGEST)] + [numbers * 2]
        for place in range(len(numbers)):
            before, behind = numbers[:place], numbers[place + 1:]
            lists += [before + behind, before + numbers[place:place + 1] * 2 + behind]
            lists += [before + [numbers[place] ^ bit(label)] + behind for label in (1, 32, 64)]
            lists.append(before + behind[:1] + [numbers[place]] + behind[1:])
    return lists


def refused_texts():
    """Texts for each line of the refusal list, and for the order of 1 and 10."""
    texts = [
        b"", b" ", b"1;", b" 64 ;", b"(2,1);", b"[&R](3,(2,1));", b"(1,2", b"(1,2)", b"(1,2);x", b"(1,2);(1,2);",
        b"(1,2,3);", b"(1,65);", b"0;", b"(1,1);", b"(01,1);", b"(1,2)0;", b"[&u]1;", b"[&U", b"x", b";",
        b"[&U]7;", b"[&U]7;x", b"[&U]7 ;", b"[&U](1,2);", b"[&U](1,2,3);(", b"[&U](1,2,3)", b"[&U]((1,2),3);",
        b"[&U](1,2,2);", b"[&U](1,65,2);", b"(" * 63, b"(" * 64, b"[&U]" + b"(" * 64, b" " * 65535, b" " * 65536,
        b"x" * 65536, b"[&U]7;" + b" " * 65530, b"1;" + b" " * 65533, b"1;" + b" " * 65534,
    ]
    combs = (generate.left_comb(ALL_LABELS), generate.right_comb(ALL_LABELS))
    return texts + [generate.plain([tree]) for tree in combs]


def refused_pairs():
    """Which of two rows is refused first, and 11 before 5."""
    good, bad = ([7, 3, 7], [1], [8], [3, 3], [11, 3, 11], [LARGEST]), ([], [0], [7], [7, 3, 6], [7, 7, 3], [3], [5, 3])
    return itertools.product(good[:-1] + bad, repeat=2)


def fixed_cases():
    """All fixed cases as (kind, text)."""
    trees = small_trees()
    return (
        in_cases("small-rows", map(text_call, all_small_rows()))
        + in_cases("small-trees", [row_call(generate.plain([tree])) for tree in trees])
        + in_cases("small-trees", [text_call(row(tree)) for tree in trees])
        + in_cases("small-pairs", [pair_call(row(tree), row(other)) for tree, other in small_pairs()])
        + in_cases("limit", map(text_call, limit_rows()))
        + in_cases("texts", map(row_call, refused_texts()))
        + in_cases("refused-pairs", [pair_call(*rows) for rows in refused_pairs()])
    )


def cases(seed, count):
    """Yield (position, kind, text) for the positions below `count`."""
    return generate.cases_of(fixed_cases(), CASE_KINDS, seed, count)


def main(arguments):
    """Write the case files."""
    parser = argparse.ArgumentParser(description="Write test inputs for the program of rows into files.")
    parser.add_argument("seed", type=int)
    parser.add_argument("count", type=int)
    parser.add_argument("directory", metavar="outdir")
    options = parser.parse_args(arguments)
    generate.write_cases(cases(options.seed, options.count), options.directory)


if __name__ == "__main__":
    main(sys.argv[1:])
