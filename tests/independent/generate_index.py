#!/usr/bin/env python3
"""Test inputs for the program of the index.

    generate_index.py SEED COUNT OUTDIR

writes COUNT files into OUTDIR, each one standard input for the program of
index.c: a run of calls on one memory, with changes of this memory between them,
and at its end the memory.  Seeds, positions and file names are as in generate.py.

The first cases are the fixed ones: all small trees added one by one, full indexes
of trees of one leaf, of five and of 64, texts for each refusal, numbers that are
asked for, lengths that are lent, several reasons to refuse at once, every byte of a
small index changed in turn, and trees removed in each order and from each small
set of numbers.  All others are drawn at random: chains of additions, indexes with
gaps between the numbers, full ones, those of large trees, damaged memory, and runs
of additions and removals, in any order, until none is held, or with the trees that
came first removed.

What an index holds is a dictionary from numbers to trees in canonical order, and
its memory is made by index_parts.py; nothing is taken over from index.py, so that
what is made here also tests what is made there.
"""

import argparse
import functools
import itertools
import random
import sys

import generate
import generate_rows
from generate import ALL_LABELS, MOST_BYTES, UNROOTED
from index_parts import ENTRIES_AT, MEMORY, SLOT, SLOTS, canonical, damaged, entries_of, memory_of

# The most that index.c can lend.
MOST_LENT = 2 ** 23
MOST_LISTED = 1024
LIST = 160

# What a number may be taken modulo by a program that holds it in fewer bits.
FEWER_BITS = (2 ** 8, 2 ** 16, 2 ** 32, 2 ** 63)


# Runs


@functools.lru_cache(16)
def parts_in(memory):
    """The slots that are not zeros, and the entries, without the zeros at their ends,
    each with its place."""
    parts = [(place, memory[place:place + SLOT]) for place in range(0, ENTRIES_AT, SLOT)]
    parts.append((ENTRIES_AT, memory[ENTRIES_AT:]))
    return [(place, data.rstrip(b"\0")) for place, data in parts if any(data)]


class Run:
    """A run of calls, and what the memory holds behind them."""

    def __init__(self, trees=None):
        """Begin with an index that holds these trees."""
        self.calls = []
        self.trees = {}
        if trees:
            self.hold(trees)

    def text(self):
        """The run, with the memory at its end."""
        return b"".join(self.calls) + b"memory\n"

    def say(self, name, *numbers):
        """An operation without bytes of its own."""
        self.calls.append(b" ".join([name] + [b"%d" % number for number in numbers]) + b"\n")

    def put(self, place, data):
        """Bytes at a place of the memory."""
        self.calls.append(b"put %d %d\n%s\n" % (place, len(data), data))

    def set(self, memory):
        """All bytes of the memory."""
        self.say(b"clear")
        for place, data in parts_in(memory):
            self.put(place, data)

    def hold(self, trees):
        """The memory that holds these trees."""
        self.trees = {number: canonical(trees[number]) for number in trees}
        self.set(memory_of(self.trees))

    def ask(self, *numbers):
        """Ask for the neighbours of these numbers."""
        for number in numbers:
            self.say(b"ask", number)

    def add_text(self, text):
        """Add a text.  What becomes of it is not noted: where it may be accepted, the
        memory has to be set anew."""
        self.calls.append(b"add %d\n%s\n" % (len(text), text))

    def add(self, tree, rng=None):
        """Add a tree, in any layout if `rng` is given, and give its number; None
        where it is refused."""
        self.add_text(generate_rows.one_text(rng, generate.swapped(rng, tree)) if rng else generate.plain([tree]))
        free = [number for number in range(SLOTS) if number not in self.trees]
        if not free or self.has_other_labels(tree):
            return None
        self.trees[free[0]] = canonical(tree)
        return free[0]

    def try_to_remove(self, *numbers):
        """Remove the trees with these numbers.  What becomes of it is not noted, as in
        `add_text`."""
        for number in numbers:
            self.say(b"remove", number)

    def remove(self, *numbers):
        """Remove the trees with these numbers; one that is not held is refused."""
        self.try_to_remove(*numbers)
        for number in numbers:
            self.trees.pop(number, None)

    def labels(self):
        """The labels of the trees that are held, one or more."""
        return generate.labels_of(next(iter(self.trees.values())))

    def has_other_labels(self, tree):
        """Whether the labels are not those of the trees that are held."""
        return bool(self.trees) and generate.labels_of(tree) != self.labels()

    def lend_more(self, rng):
        """At times lend more than is needed."""
        if rng.random() < 0.3:
            self.say(b"lend", rng.choice((MEMORY + 1, MEMORY + 2, 65536, rng.randint(MEMORY, MOST_LENT), MOST_LENT)))
        if rng.random() < 0.3:
            self.say(b"list", rng.choice((LIST + 1, rng.randint(LIST, MOST_LISTED), MOST_LISTED)))


# Trees, numbers and texts at random


def next_tree(rng, trees, labels):
    """A tree of these labels: a copy of one of the trees, a few moves away from
    one, or any."""
    way = rng.random()
    if not trees or way < 0.2:
        return generate.random_tree(rng, labels)
    tree = rng.choice(list(trees))
    for _ in range(rng.choice((0, 1, 1, 1, 2, 3)) if way < 0.9 else 0):
        tree = generate.random_move(rng, tree)
    return tree


def some_trees(rng, sizes, counts):
    """A list of trees with one of these numbers of leaves, one of these numbers of
    them."""
    labels = generate.random_labels(rng, rng.choice(sizes))
    trees = []
    for _ in range(rng.choice(counts)):
        trees.append(next_tree(rng, trees, labels))
    return trees


def numbered(rng, trees):
    """The trees with numbers: the first ones, or with few or many gaps."""
    span = rng.choice((len(trees), min(SLOTS, 2 * len(trees)), SLOTS))
    return dict(zip(sorted(rng.sample(range(span), len(trees))), trees))


def some_number(rng, trees):
    """A number to ask for or to remove: mostly of a held tree, and else a free one,
    160 or more, or one that is held if it is taken modulo a power of 2."""
    held = rng.choice(sorted(trees) or [0])
    way = rng.random()
    if way < 0.7:
        return held
    if way < 0.85:
        return rng.randrange(SLOTS)
    return rng.choice((SLOTS, SLOTS + 1, 2 ** 64 - 1, held + rng.choice(FEWER_BITS), rng.getrandbits(64)))


def refused_text(rng, labels):
    """An unrooted tree, a rooted one of other labels, or a damaged text, which by
    chance may still be a tree of these labels."""
    way = rng.randrange(6)
    if way == 0:
        return generate_rows.unrooted_text(rng)
    if way == 1:
        return generate_rows.one_text(rng, UNROOTED.grow(rng, labels))
    if way == 2 and len(labels) < len(ALL_LABELS):
        return generate_rows.one_text(rng, generate.random_tree(rng, generate.other_label_set(rng, labels)))
    return generate_rows.damaged_text(rng)


# Kinds of random runs


def chain(rng):
    """Additions to an index that is empty at first, with questions and refused
    texts between them."""
    run = Run()
    run.lend_more(rng)
    labels = generate.random_labels(rng, rng.choice((1, 2, 3, 3, 4, 4, 5, 6, 7, 8)))
    for _ in range(rng.randint(5, 30)):
        run.ask(some_number(rng, run.trees))
        if rng.random() < 0.2 and run.trees:
            run.add_text(refused_text(rng, labels))
            run.hold(run.trees)
        run.add(next_tree(rng, run.trees.values(), labels), rng)
    run.ask(*run.trees)
    return run.text()


def gaps(rng):
    """Additions to an index with gaps between the numbers, until they are filled
    and further."""
    run = Run(numbered(rng, some_trees(rng, (1, 2, 3, 4, 5, 6), range(1, 12))))
    run.lend_more(rng)
    labels = run.labels()
    for _ in range(rng.randint(3, 12)):
        run.ask(some_number(rng, run.trees))
        run.add(next_tree(rng, run.trees.values(), labels), rng)
    run.ask(*run.trees, *rng.sample(range(SLOTS), 4))
    return run.text()


def full(rng):
    """An index with 160 trees or nearly as many, and more to be added."""
    run = Run(numbered(rng, some_trees(rng, (1, 2, 3, 3, 4, 4, 5, 6), range(155, SLOTS + 1))))
    run.lend_more(rng)
    labels = run.labels()
    run.ask(*(some_number(rng, run.trees) for _ in range(3)))
    for _ in range(rng.randint(3, 8)):
        run.add(next_tree(rng, run.trees.values(), labels), rng)
    run.ask(*(some_number(rng, run.trees) for _ in range(5)))
    for _ in range(3):
        run.add_text(refused_text(rng, labels))
        run.hold(run.trees)
    run.set(damaged(rng, run.trees))
    run.ask(some_number(rng, run.trees))
    run.add_text(generate.plain([rng.choice(list(run.trees.values()))]))
    return run.text()


def large(rng):
    """An index of few trees with up to 64 leaves; at last all but one are removed, and
    one is added."""
    run = Run(numbered(rng, some_trees(rng, (12, 20, 33, 63, 64), range(1, 4))))
    run.lend_more(rng)
    labels = run.labels()
    for _ in range(2):
        run.add(next_tree(rng, run.trees.values(), labels), rng)
    run.ask(*rng.sample(sorted(run.trees), 2))
    damage(rng, run, 4)
    while len(run.trees) > 1:
        run.remove(some_number(rng, run.trees))
    run.add(next_tree(rng, run.trees.values(), labels), rng)
    run.ask(0, 1)
    return run.text()


def damage(rng, run, times):
    """Damaged memory, which is asked, from which a tree is removed, and to which one
    is added."""
    labels = run.labels()
    for _ in range(times):
        run.set(damaged(rng, run.trees))
        run.ask(some_number(rng, run.trees))
        run.try_to_remove(some_number(rng, run.trees))
        tree = next_tree(rng, run.trees.values(), labels)
        run.add_text(generate.plain([tree]) if rng.random() < 0.7 else refused_text(rng, labels))
    run.hold(run.trees)


def damaged_index(rng):
    """An index of few small trees, damaged in many ways, and as it was in between."""
    run = Run(numbered(rng, some_trees(rng, (1, 2, 3, 3, 4, 4, 5, 6, 8), range(1, 9))))
    run.lend_more(rng)
    for _ in range(4):
        damage(rng, run, 8)
        run.ask(some_number(rng, run.trees))
        run.add(next_tree(rng, run.trees.values(), run.labels()), rng)
    return run.text()


def any_memory(rng):
    """Memory that is filled with bytes at random, all or some, or with one byte."""
    run = Run()
    for _ in range(4):
        way = rng.randrange(4)
        if way == 0:
            run.set(rng.randbytes(MEMORY))
        elif way == 1:
            run.set(bytes([rng.choice((1, 7, 64, 65, 66, 128, 255))]) * MEMORY)
        else:
            run.set(bytes(MEMORY))
            for _ in range(rng.randint(1, 3)):
                place = rng.choice((rng.randrange(MEMORY), rng.randrange(SLOTS) * SLOT))
                run.put(place, bytes([rng.randint(1, 80)]))
        run.ask(rng.randrange(SLOTS))
        run.try_to_remove(rng.randrange(SLOTS))
        run.add_text(generate_rows.tree_text(rng))
    return run.text()


def texts(rng):
    """Texts of all kinds for an index that is empty, or holds few trees."""
    run = Run(numbered(rng, some_trees(rng, range(1, 7), (0, 1, 3))))
    labels = run.labels() if run.trees else generate.random_labels(rng, 3)
    for _ in range(12):
        run.add_text(refused_text(rng, labels) if rng.random() < 0.9 else generate_rows.tree_text(rng))
        run.hold(run.trees)
    return run.text()


def several_reasons(rng):
    """Short or long slices, long texts, damaged memory, wrong texts, a full index,
    unrooted trees and other labels, each at times."""
    trees = some_trees(rng, (1, 2, 3, 4), (1, 3, SLOTS, SLOTS))
    run = Run(numbered(rng, trees))
    labels = run.labels()
    for _ in range(10):
        bad_memory, short, long = (rng.random() < 0.4 for _ in range(3))
        if bad_memory:
            run.set(damaged(rng, run.trees))
        run.say(b"lend", rng.choice((0, 1, MEMORY - 1)) if short else MEMORY)
        run.say(b"list", rng.choice((0, 1, LIST - 1)) if rng.random() < 0.3 else LIST)
        run.ask(some_number(rng, run.trees))
        text = refused_text(rng, labels)
        run.add_text(text.ljust(MOST_BYTES + 1) if long else text)
        run.try_to_remove(some_number(rng, run.trees))
        run.hold(run.trees)
    return run.text()


SMALL_SIZES = (1, 2, 3, 3, 4, 4, 5, 6, 8)


def other_labels(rng):
    """Labels for an index that holds no tree."""
    return generate.random_labels(rng, rng.choice(SMALL_SIZES))


def removals(rng):
    """Additions, removals and questions in any order, at times more of the one, at
    times of the other.  Some additions are taken back.  Where the last tree was
    removed, the labels are others."""
    run = Run(numbered(rng, some_trees(rng, SMALL_SIZES, range(10))))
    run.lend_more(rng)
    labels = run.labels() if run.trees else other_labels(rng)
    for _ in range(rng.randint(6, 24)):
        growth = rng.choice((0.2, 0.4, 0.6))
        for _ in range(rng.randint(5, 20)):
            way = rng.random()
            if way < growth:
                number = run.add(next_tree(rng, run.trees.values(), labels), rng)
                if number is not None and rng.random() < 0.2:
                    run.remove(number)
            elif way < 0.8:
                run.remove(some_number(rng, run.trees))
            else:
                run.ask(some_number(rng, run.trees))
            if not run.trees:
                labels = other_labels(rng)
    run.ask(*run.trees)
    return run.text()


def emptied(rng):
    """An index, at times a full one, from which all trees are removed, in order, in
    the other order or in none; then two trees of other labels, and one removed."""
    run = Run(numbered(rng, some_trees(rng, SMALL_SIZES, (2, 5, 12, 30, 30, SLOTS))))
    run.lend_more(rng)
    order = sorted(run.trees, reverse=rng.random() < 0.5)
    if rng.random() < 0.5:
        rng.shuffle(order)
    for number in order:
        run.remove(number)
        if rng.random() < 0.2:
            run.remove(number)
            run.ask(some_number(rng, run.trees))
    labels = other_labels(rng)
    for _ in range(2):
        run.add(generate.random_tree(rng, labels), rng)
    run.ask(0, 1)
    run.remove(0)
    run.ask(0, 1)
    return run.text()


def turnover(rng):
    """An index, at times a full one, from which the trees that came first are
    removed, and others are added in their place; then one that is refused where it
    is full."""
    arrived = some_trees(rng, SMALL_SIZES, (3, 8, 20, SLOTS, SLOTS))
    labels = generate.labels_of(arrived[0])
    run = Run(dict(enumerate(arrived)))
    run.lend_more(rng)
    order = list(run.trees)
    for _ in range(rng.randint(3, 12)):
        discarded = rng.randint(1, min(6, len(order)))
        run.remove(*order[:discarded])
        run.ask(some_number(rng, run.trees))
        del order[:discarded]
        for _ in range(discarded):
            order.append(run.add(next_tree(rng, arrived, labels), rng))
        run.ask(*(some_number(rng, run.trees) for _ in range(2)))
    run.add(rng.choice(arrived), rng)
    return run.text()


# Kind, share among the random cases, maker.
KINDS = (
    ("chain", 6, chain),
    ("gaps", 5, gaps),
    ("full", 3, full),
    ("large", 2, large),
    ("damaged", 11, damaged_index),
    ("any-memory", 1, any_memory),
    ("texts", 3, texts),
    ("several-reasons", 4, several_reasons),
    ("removals", 9, removals),
    ("emptied", 3, emptied),
    ("turnover", 3, turnover),
)


# Fixed cases


LEFT, RIGHT = generate.left_comb(ALL_LABELS), generate.right_comb(ALL_LABELS)


def small_runs():
    """All trees of up to four leaves on several label sets, one by one, then each
    again; and each list of up to three trees of three leaves."""
    runs = []
    for labels in ((7,), (2, 1), (1, 2, 3), (10, 9, 2), (1, 2, 3, 4), (64, 10, 2, 9)):
        run = Run()
        for tree in 2 * generate.all_trees(labels):
            run.add(tree)
            run.ask(0, len(run.trees) - 1, len(run.trees))
        run.ask(*range(len(run.trees) + 1))
        runs.append(run)
    run = Run()
    for trees in itertools.product(generate.all_trees((1, 2, 3)), repeat=3):
        run.hold({})
        for tree in trees:
            run.add(tree)
        run.ask(0, 1, 2)
    runs.append(run)
    return runs


def gap_runs():
    """Each set of numbers below five, and then as many trees as make six; and
    numbers at the other end."""
    trees = generate.all_trees((1, 2, 3)) * 2
    run = Run()
    for held in itertools.chain.from_iterable(itertools.combinations(range(5), size) for size in range(5)):
        run.hold(dict(zip(held, trees)))
        for tree in trees[len(held):]:
            run.add(tree)
        run.ask(*range(7))
    runs = [run]
    for held in ((159,), (1, 159), range(1, SLOTS), range(159), [number for number in range(SLOTS) if number != 80]):
        run = Run(dict(zip(held, itertools.cycle(trees))))
        run.ask(0, 80, 159)
        for tree in trees[:2]:
            run.add(tree)
            run.ask(0, 1, 80, 159)
        runs.append(run)
    return runs


def full_runs():
    """160 trees added one by one, and what is refused then: of one leaf, of five."""
    rng = random.Random("fixed full")
    five = generate.all_trees((1, 2, 9, 10, 33))
    five += [generate.swapped(rng, tree) for tree in rng.sample(five, SLOTS - len(five))]
    runs = []
    for trees in ([7] * SLOTS, five):
        run = Run()
        for tree in trees:
            run.add(tree)
        refuse_more(run)
        run.ask(*range(SLOTS + 1))
        runs.append(run)
    return runs


def refuse_more(run):
    """To a full index: a tree, a wrong text, an unrooted tree, other labels."""
    run.add(run.trees[0])
    for text in (b"", b"(1,2);x", b"(1,65);", b"(1,1);", b"[&U]7;", b"[&U]7;x", b"[&U](1,2,3);", b"8;", b"(1,2);"):
        run.add_text(text)


def largest_runs():
    """Trees of 64 leaves: few from the empty index on; then 158 and two more, which
    make a full one, with some of its entries damaged."""
    rng = random.Random("fixed 64 leaves")
    trees = [LEFT, RIGHT, generate.random_move(rng, LEFT), generate.mirrored(LEFT)]
    trees.append(generate.joined_at_random(rng, ALL_LABELS))
    run = Run()
    for tree in trees:
        run.add(tree)
    run.ask(0, 2, 3, 5)
    while len(trees) < 40:
        trees.append(generate.random_move(rng, trees[-1] if rng.random() < 0.5 else rng.choice(trees)))
    most = Run(dict(zip(range(SLOTS - 2), itertools.cycle(trees))))
    most.add(LEFT, rng)
    most.add(generate.random_move(rng, trees[7]), rng)
    refuse_more(most)
    most.ask(0, 80, 159)
    memory = memory_of(most.trees)
    # The last byte of all, the last entry, and two entries in the middle exchanged.
    middle = ENTRIES_AT + 20000
    changes = (
        (MEMORY - 1, bytes([memory[-1] ^ 1])), (MEMORY - 2, bytes(2)),
        (middle, memory[middle + 2:middle + 4] + memory[middle:middle + 2]),
    )
    for place, data in changes:
        most.put(place, data)
        most.ask(0)
        most.add(LEFT)
        most.put(place, memory[place:place + len(data)])
    return [run, most]


def text_runs():
    """Texts for each line of the refusal list and for their order, to an empty
    index, to one of few trees, and to one that is full."""
    runs = []
    for trees in ({}, {0: (1, 2), 3: (1, 2)}, dict.fromkeys(range(SLOTS), 7)):
        run = Run()
        for text in generate_rows.refused_texts():
            run.hold(trees)
            run.add_text(text)
        runs.append(run)
    return runs


def number_run():
    """Numbers that are asked for, of an index with gaps."""
    run = Run({0: ((1, 2), 3), 2: (1, (2, 3)), 3: ((1, 2), 3), 159: ((1, 3), 2)})
    run.ask(*range(SLOTS + 3), 254, 255, 256)
    for power in FEWER_BITS + (2 ** 31, 2 ** 62):
        run.ask(power - 1, power, power + 1, power + 2, power + 159, power + 160)
    run.ask(2 ** 64 - 1, 2 ** 64 - 2, 2 ** 64 - 97)
    return run


def length_run():
    """Lengths that are lent, for an empty index, for another and for none."""
    run = Run()
    for memory in (bytes(MEMORY), memory_of({0: (1, 2), 1: (1, 2)}), bytes([255]) * MEMORY):
        for lent in (0, 1, 20320, MEMORY - 1, MEMORY, MEMORY + 1, MEMORY + 32, 65536, MOST_LENT):
            run.say(b"lend", lent)
            for listed in (0, 1, LIST - 1, LIST, LIST + 1, MOST_LISTED):
                run.say(b"list", listed)
                run.set(memory)
                run.ask(0, 5)
            for text in (b"(2,1);", b"(2,3);", b"x", b" " * 65536):
                run.set(memory)
                run.add_text(text)
            # However long a list is lent, a removal has none.
            for listed in (0, LIST):
                run.say(b"list", listed)
                run.set(memory)
                run.try_to_remove(5, 0, 1)
    return run


def order_run():
    """Each of several reasons to refuse, alone and with each of the others."""
    run = Run()
    small, full_ = {0: (1, 2)}, dict.fromkeys(range(SLOTS), (1, 2))
    wrong = memory_of({0: (1, 2), 1: (1, 3)})
    memories = (bytes(MEMORY), memory_of(small), memory_of(full_), wrong)
    given = (
        b"(1,2);", b"(1,3);", b"[&U](1,2);", b"[&U](1,3);", b"[&U](1,3);x", b"(1,3);(1,2);", b"(1,3", b"(0,1);",
        b"(1,1);", b"(" * 64, b" " * 65536, b"(1,2);".ljust(65536), b"[&U](1,3);".ljust(65535), b"(1,3);".rjust(65535),
    )
    for lent, memory, text in itertools.product((MEMORY - 1, MEMORY), memories, given):
        run.say(b"lend", lent)
        run.set(memory)
        run.add_text(text)
    for lent, listed, memory in itertools.product((MEMORY - 1, MEMORY), (LIST - 1, LIST), memories):
        run.say(b"lend", lent)
        run.say(b"list", listed)
        run.set(memory)
        run.ask(0, 1, 160)
        run.try_to_remove(160, 1, 0)
    return run


def one_byte(run, memory, place, byte, asked=(0,), added=(b"",), removed=()):
    """One byte of the memory changed: questions, texts that are refused whatever it
    holds, and removals.  Where one of these may be accepted, the memory has to be set
    anew."""
    run.put(place, bytes([byte]))
    run.ask(*asked)
    for text in added:
        run.add_text(text)
    run.try_to_remove(*removed)
    run.put(place, memory[place:place + 1])


SWEPT = {0: ((1, 2), (3, 4)), 1: (((1, 2), 3), 4), 3: ((1, 2), (3, 4))}
SWEEPS = 16


def sweep_runs():
    """Each byte of a small index changed once; it is asked, or added to, and every
    third time a tree is removed; all of these where it has trees or entries or is
    near to them.  No removal is accepted: one byte of this index cannot be changed so
    that it is that of other trees."""
    memory = memory_of(SWEPT)
    near = set(range(5 * SLOT)) | set(range(ENTRIES_AT - SLOT, ENTRIES_AT + 100)) | set(range(MEMORY - 32, MEMORY))
    runs = []
    for sweep in range(SWEEPS):
        run = Run(SWEPT)
        for place in range(sweep * MEMORY // SWEEPS, (sweep + 1) * MEMORY // SWEEPS):
            # All bytes come up in turn, but for the one that is there.
            byte = (memory[place] + 1 + place % 255) % 256
            asked = (place % 4,) if place in near or place % 2 == 1 else ()
            added = (b"",) if place in near or place % 2 == 0 else ()
            removed = (place // 3 % 4,) if place in near or place % 3 == 0 else ()
            one_byte(run, memory, place, byte, asked, added, removed)
        runs.append(run)
    return runs


def value_runs():
    """Each byte of the trees and the entries of small indexes changed to each other,
    and at times a tree removed; then trees of one leaf in each slot."""
    runs = []
    for trees in (SWEPT, {2: ((1, 3), 2)}, {0: (2, 10), 1: (2, 10)}, {0: (2, 10)}):
        run = Run(trees)
        memory = memory_of(run.trees)
        end = ENTRIES_AT + 2 * len(entries_of(run.trees))
        # The bytes of the trees, those next to them, and the entries.
        places = [place for place in range(ENTRIES_AT) if any(memory[max(0, place - 1):place + 1])]
        for place, byte in itertools.product(places + list(range(ENTRIES_AT, end + 3)), range(256)):
            if byte != memory[place]:
                one_byte(run, memory, place, byte, (min(trees),), (b"",) if byte % 8 == 0 else ())
            if byte != memory[place] and byte % 8 < 3:
                one_byte(run, memory, place, byte, (), (), (max(trees),))
                run.set(memory)
        runs.append(run)
    for trees in ({}, {1: 7}, {0: 7, 1: 7, 159: 7}):
        run = Run(trees)
        memory = memory_of(trees)
        for number, byte in itertools.product(range(SLOTS), (1, 7, 64, 65, 66, 255)):
            if byte != memory[number * SLOT]:
                one_byte(run, memory, number * SLOT, byte, (number, 1), (b"1",), (number,))
                run.set(memory)
        runs.append(run)
    return runs


def added_run():
    """Each byte of the trees and the entries of a small index changed, and the last
    byte of all; the first two leaves exchanged; and each tree removed from it, and one
    added to it, that it would take.  None of these is accepted."""
    run = Run(SWEPT)
    memory = memory_of(SWEPT)
    changed = [
        memory[:place] + bytes([byte]) + memory[place + 1:] for place in range(MEMORY) if memory[place]
        for byte in (0, memory[place] - 1, memory[place] + 1)
    ]
    for other in changed + [memory[:-1] + b"\1", memory[:2] + memory[3:4] + memory[2:3] + memory[4:]]:
        run.set(other)
        run.try_to_remove(*SWEPT)
        run.add_text(b"(1,(2,(3,4)));")
    return run


def removal_runs():
    """From each set of numbers below five, each number below six removed, and then a
    tree added; four trees, of which two are copies, removed in each order, and then
    trees of other labels; and each tree of few leaves added and removed again."""
    trees = generate.all_trees((1, 2, 3)) * 2
    each = Run()
    for size in range(6):
        for held, number in itertools.product(itertools.combinations(range(5), size), range(6)):
            each.hold(dict(zip(held, trees)))
            each.remove(number)
            each.ask(number, *each.trees)
            each.add(trees[number])
    orders = Run()
    for order in itertools.permutations(range(4)):
        for tree in trees[:4]:
            orders.add(tree)
        for number in order:
            orders.remove(number)
            orders.ask(*orders.trees)
        for labels in ((9,), (2, 1), (1, 2, 3, 4)):
            orders.remove(orders.add(generate.left_comb(labels)))
    undone = Run()
    for held in ((), (0,), (1,), (0, 2), (0, 1, 2), (0, 1, 5, 159)):
        for tree in generate.all_trees((1, 2, 3)) + [7, (3, 1)]:
            undone.hold(dict(zip(held, trees)))
            added = undone.add(tree)
            if added is not None:
                undone.remove(added, added)
    return [each, orders, undone]


def emptied_runs():
    """Full indexes of trees of one leaf, of two and of five, from which all trees are
    removed: the first ones first, the last ones first, or every third one first; and
    then other labels."""
    rng = random.Random("fixed emptied")
    five = generate.all_trees((1, 2, 9, 10, 33))
    runs = []
    for trees, order in (
            ([7] * SLOTS, range(SLOTS)), ([(2, 10)] * SLOTS, range(SLOTS - 1, -1, -1)),
            ((five + five)[:SLOTS], sorted(range(SLOTS), key=lambda number: number % 3))):
        run = Run(dict(enumerate(trees)))
        refuse_more(run)
        for number in order:
            run.remove(number)
            if number % 40 == 0:
                run.ask(number, *rng.sample(range(SLOTS), 2))
        run.ask(0, 159)
        run.remove(0)
        for tree in (64, 64, 7):
            run.add(tree)
        runs.append(run)
    return runs


def largest_removals():
    """Trees of 64 leaves: few, until none is left, and then one of one leaf; and a
    full index, from which the last is removed, the first and some between, each time
    with others added until it is full."""
    rng = random.Random("fixed removals of 64 leaves")
    near = generate.changing_move(rng, LEFT)
    few = Run(dict(zip((0, 1, 2, 5, 159), (LEFT, near, RIGHT, LEFT, near))))
    for number in (2, 0, 159, 1, 5):
        few.remove(number)
        few.ask(number, 1, 5)
    few.add(7)
    # With 9 beside the smaller labels, the last of the forest texts begins with (9,(10
    # and is that of cut 1.  So the last byte is not 0 where all are held.
    small, rest = (generate.left_comb(ALL_LABELS[:8]), 9), [generate.random_tree(rng, ALL_LABELS[9:])]
    while len(rest) < 20:
        rest.append(generate.random_move(rng, rng.choice(rest)))
    trees = [(small, tree) for tree in rest]
    most = Run(dict(zip(range(SLOTS), itertools.cycle(trees))))
    for numbers in ((159,), (0,), (80, 3)):
        most.remove(*numbers, numbers[0])
        for tree in trees[:len(numbers)]:
            most.add(tree, rng)
    most.add(7)
    most.ask(3)
    return [few, most]


def removed_numbers():
    """Numbers that are removed, of an index with gaps: all that are not held, and
    then those that are, each twice."""
    run = Run({0: ((1, 2), 3), 2: (1, (2, 3)), 3: ((1, 2), 3), 159: ((1, 3), 2)})
    held = list(run.trees)
    run.remove(*(number for number in (*range(SLOTS + 3), 254, 255, 256) if number not in held))
    for power in FEWER_BITS + (2 ** 31, 2 ** 62):
        run.remove(power - 1, power, power + 1, power + 2, power + 159, power + 160)
    run.remove(2 ** 64 - 1, 2 ** 64 - 2, 2 ** 64 - 97)
    for number in (3, 159, 0, 2):
        run.remove(number, number)
        run.ask(*held)
    return run


def fixed_cases():
    """All fixed cases as (kind, text)."""
    runs = (
        ("small", small_runs()), ("gaps", gap_runs()), ("full", full_runs()), ("largest", largest_runs()),
        ("texts", text_runs()), ("numbers", [number_run()]), ("lengths", [length_run()]), ("order", [order_run()]),
        ("swept", sweep_runs()), ("values", value_runs()), ("added", [added_run()]),
        ("removed", removal_runs()), ("emptied", emptied_runs()), ("largest-removed", largest_removals()),
        ("removed-numbers", [removed_numbers()]),
    )
    return [(kind, run.text()) for kind, some in runs for run in some]


def cases(seed, count):
    """Yield (position, kind, text) for the positions below `count`."""
    return generate.cases_of(fixed_cases(), KINDS, seed, count)


def main(arguments):
    """Write the case files."""
    parser = argparse.ArgumentParser(description="Write test inputs for the program of the index into files.")
    parser.add_argument("seed", type=int)
    parser.add_argument("count", type=int)
    parser.add_argument("directory", metavar="outdir")
    options = parser.parse_args(arguments)
    generate.write_cases(cases(options.seed, options.count), options.directory)


if __name__ == "__main__":
    main(sys.argv[1:])
