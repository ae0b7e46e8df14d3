"""The memory of an index in its parts, made and damaged, for generate_index.py.

What an index holds is a dictionary from numbers to trees, nested tuples as in
generate.py.  Each part is made from these by paths, and nothing is taken over from
index.py.  A damage changes the parts of one such memory, and gives nothing; what
becomes of it may by chance be the memory of another index, or the same again.
"""

import dataclasses
import functools
import re

import generate

SLOTS = 160
SLOT = 127
ENTRIES_AT = SLOTS * SLOT
MEMORY = 60640

LARGEST_LABEL = 64
CACHED = 1024

# Bytes at the limits of what a node can be.
TELLING = (0, 1, 63, 64, 65, 66, 67, 127, 128, 129, 254, 255)


# Trees as they stand in memory


def settled(tree):
    """The smallest label, and the tree in canonical order."""
    if generate.is_leaf(tree):
        return tree, tree
    (label, first), (_, second) = sorted(map(settled, tree), key=lambda child: child[0])
    return label, (first, second)


def canonical(tree):
    """The tree in canonical order."""
    return settled(tree)[1]


def node_text(tree):
    """The text of a tree as it stands: that of Python, but for the blanks."""
    return repr(tree).replace(" ", "").encode()


def nodes(tree):
    """A byte for each node of a tree as it stands."""
    if generate.is_leaf(tree):
        return bytes([tree])
    below = nodes(tree[0]) + nodes(tree[1])
    # Of n leaves, 2n - 2 nodes are below the fork.
    return bytes([LARGEST_LABEL + len(below) // 2 + 1]) + below


@functools.lru_cache(CACHED)
def forests(tree):
    """The forest texts of all cuts, in the order in which the nodes of the tree
    stand."""
    texts = []
    for source in generate.paths(tree)[1:]:
        parent, side = source[:-1], source[-1]
        remainder = generate.replaced(tree, parent, generate.subtree(tree, parent + (1 - side,)))
        pruned = generate.subtree(tree, source)
        texts.append(b"%s %s;" % tuple(node_text(canonical(part)) for part in (remainder, pruned)))
    return texts


def with_forests(trees):
    """(forest text, number, cut) for each cut, in order."""
    return sorted((text, number, cut) for number in trees for cut, text in enumerate(forests(trees[number])))


def entries_of(trees):
    """(number, cut) for each cut, in order of the entries."""
    return [entry[1:] for entry in with_forests(trees)]


# Memory


@dataclasses.dataclass
class Parts:
    """The 160 slots, without the zeros at their ends; the entries; and what stands
    behind these."""

    slots: list
    entries: list
    behind: bytes = b""


def parts_of(trees):
    """The parts of the memory that holds these trees, which are in canonical
    order."""
    return Parts([nodes(trees[number]) if number in trees else b"" for number in range(SLOTS)], entries_of(trees))


def assembled(parts):
    """All bytes of the memory."""
    slots = b"".join(slot[:SLOT].ljust(SLOT, b"\0") for slot in parts.slots)
    entries = b"".join(bytes(number % 256 for number in entry) for entry in parts.entries)
    return (slots + entries + parts.behind)[:MEMORY].ljust(MEMORY, b"\0")


def memory_of(trees):
    """All bytes of the memory that holds these trees."""
    return assembled(parts_of(trees))


# Damage to slots.  The trees are those from which the parts were made; there are
# one or more.


def other_byte(rng, byte):
    """A byte near this one, at a limit, or any."""
    return rng.choice(TELLING + ((byte + 1) % 256, (byte - 1) % 256, rng.randrange(256)))


def any_held(rng, trees):
    """A held number."""
    return rng.choice(sorted(trees))


def any_free(rng, trees):
    """A free number, the next to a held one in half of the cases; 160, which no
    tree can have, where all are held."""
    free = [number for number in range(SLOTS) if number not in trees] or [SLOTS]
    return rng.choice((free[0], rng.choice(free)))


def swapped_bytes(slot, place, byte):
    """A slot with another byte at a place."""
    return slot[:place] + bytes([byte]) + slot[place + 1:]


def change_node(rng, trees, parts):
    """A node of a tree is another byte."""
    number = any_held(rng, trees)
    slot = parts.slots[number]
    if slot:
        place = rng.randrange(len(slot))
        parts.slots[number] = swapped_bytes(slot, place, other_byte(rng, slot[place]))


def miscount(rng, trees, parts):
    """A fork claims more leaves than it has, or fewer."""
    number = any_held(rng, trees)
    slot = parts.slots[number]
    forks = [place for place, byte in enumerate(slot) if byte > LARGEST_LABEL]
    if forks:
        place = rng.choice(forks)
        wrong = rng.choice((slot[place] - 1, slot[place] + 1, rng.randint(65, 128), rng.randint(65, 255)))
        parts.slots[number] = swapped_bytes(slot, place, wrong)


def put_behind_tree(rng, trees, parts):
    """A byte behind a tree in its slot is not 0."""
    number = any_held(rng, trees)
    slot = parts.slots[number]
    if len(slot) < SLOT:
        place = rng.choice((len(slot), SLOT - 1, rng.randrange(len(slot), SLOT)))
        parts.slots[number] = slot.ljust(place, b"\0") + bytes([rng.randint(1, 255)])


def cut_off(rng, trees, parts):
    """The last nodes of a tree are missing, or all of them."""
    number = any_held(rng, trees)
    slot = parts.slots[number]
    parts.slots[number] = slot[:rng.choice((0, max(0, len(slot) - 1), rng.randrange(len(slot) + 1)))]


def fill_free_slot(rng, trees, parts):
    """A free slot has a byte that is not 0, or a tree without entries."""
    free = any_free(rng, trees)
    if free < SLOTS:
        tree = trees[any_held(rng, trees)]
        parts.slots[free] = rng.choice((
            nodes(tree), nodes(canonical(generate.random_move(rng, tree))), bytes([generate.labels_of(tree)[0]]),
            bytes(rng.randrange(SLOT)) + bytes([rng.randint(1, 255)]),
        ))


def move_slot(rng, trees, parts):
    """A tree stands in another slot, and what stood there in its own."""
    one = any_held(rng, trees)
    other = rng.choice((any_held(rng, trees), any_free(rng, trees) % SLOTS))
    parts.slots[one], parts.slots[other] = parts.slots[other], parts.slots[one]


def change_tree(rng, trees, parts):
    """A slot has another topology, but the entries stay."""
    number = any_held(rng, trees)
    parts.slots[number] = nodes(canonical(generate.random_move(rng, trees[number])))


def replace_trees(trees, parts, others):
    """Some slots have other trees, as these stand, and the entries are made for
    them."""
    for number in others:
        parts.slots[number] = nodes(others[number])
    parts.entries = entries_of({**trees, **others})


def exchange_children(rng, trees, parts):
    """A tree is not in canonical order; the entries are those of its nodes as they
    stand, or of the tree in canonical order."""
    number = any_held(rng, trees)
    tree = rng.choice((generate.swapped(rng, trees[number]), generate.mirrored(trees[number])))
    replace_trees(trees, parts, {number: tree})
    if rng.random() < 0.3:
        parts.entries = entries_of(trees)


def relabelled(tree, old, new):
    """The tree with another label in place of one."""
    if generate.is_leaf(tree):
        return new if tree == old else tree
    return relabelled(tree[0], old, new), relabelled(tree[1], old, new)


def repeat_label(rng, trees, parts):
    """A tree, or each, has a label twice and so lacks another; the entries are those
    of its nodes."""
    number = any_held(rng, trees)
    labels = generate.labels_of(trees[number])
    if len(labels) > 1:
        exchange = rng.sample(labels, 2)
        chosen = rng.choice(([number], sorted(trees)))
        replace_trees(trees, parts, {some: canonical(relabelled(trees[some], *exchange)) for some in chosen})


def change_label(rng, trees, parts):
    """A tree has a label that the others do not have, and entries for it."""
    number = any_held(rng, trees)
    labels = generate.labels_of(trees[number])
    others = [label for label in range(1, LARGEST_LABEL + 1) if label not in labels]
    if others:
        tree = relabelled(trees[number], rng.choice(labels), rng.choice(others))
        replace_trees(trees, parts, {number: canonical(tree)})


def change_labels(rng, trees, parts):
    """A tree has a label more or fewer than the others, and entries for it."""
    number = any_held(rng, trees)
    labels = generate.labels_of(trees[number])
    if len(labels) < LARGEST_LABEL:
        tree = generate.random_tree(rng, generate.other_label_set(rng, labels))
        replace_trees(trees, parts, {number: canonical(tree)})


# Damage to entries


def any_entry(rng, parts):
    """The place of an entry, the first or the last at times."""
    last = len(parts.entries) - 1
    return rng.choice((0, last, rng.randint(0, last), rng.randint(0, last)))


def cuts_of(trees, number):
    """How many cuts the tree with a number has; 0 where there is none."""
    return len(forests(trees[number])) if number in trees else 0


def change_entry(rng, trees, parts):
    """A byte of an entry is another."""
    place = any_entry(rng, parts)
    entry = list(parts.entries[place])
    side = rng.randrange(2)
    entry[side] = other_byte(rng, entry[side])
    parts.entries[place] = tuple(entry)


def name_no_cut(rng, trees, parts):
    """An entry has a cut that its tree does not have."""
    place = any_entry(rng, parts)
    number = parts.entries[place][0]
    cuts = cuts_of(trees, number)
    parts.entries[place] = number, rng.choice((cuts, cuts, cuts + 1, rng.randint(cuts, 255), 255))


def name_no_tree(rng, trees, parts):
    """An entry has a number that no tree has."""
    place = any_entry(rng, parts)
    parts.entries[place] = rng.choice((any_free(rng, trees), 160, 255)), parts.entries[place][1]


def turn_entry(rng, trees, parts):
    """The number and the cut of an entry, or of all, are exchanged."""
    place = any_entry(rng, parts)
    for turned in rng.choice(([place], range(len(parts.entries)))):
        parts.entries[turned] = parts.entries[turned][::-1]


def swap_entries(rng, trees, parts):
    """Two entries are exchanged, next to each other or not."""
    one, other = any_entry(rng, parts), any_entry(rng, parts)
    if rng.random() < 0.5:
        other = max(0, one - 1)
    parts.entries[one], parts.entries[other] = parts.entries[other], parts.entries[one]


def swap_tied(rng, trees, parts):
    """Two entries of one forest text are exchanged."""
    texts = [forests(trees[number])[cut] if cut < cuts_of(trees, number) else None for number, cut in parts.entries]
    tied = [place for place in range(1, len(texts)) if texts[place - 1] == texts[place]]
    if tied:
        place = rng.choice(tied)
        parts.entries[place - 1:place + 1] = parts.entries[place - 1:place + 1][::-1]


def leave_out(rng, trees, parts):
    """An entry is missing: the others close up, or zeros are in its place, or the
    next or the one before it."""
    place = any_entry(rng, parts)
    before, behind = parts.entries[place - 1], parts.entries[(place + 1) % len(parts.entries)]
    if rng.random() < 0.25:
        del parts.entries[place]
    else:
        parts.entries[place] = rng.choice(((0, 0), before, behind))


def repeat_entry(rng, trees, parts):
    """An entry stands twice, and the others behind it."""
    place = any_entry(rng, parts)
    parts.entries.insert(place, parts.entries[place])


def leave_tree_out(rng, trees, parts):
    """All entries of a tree are missing, or they are zeros."""
    number = any_held(rng, trees)
    if rng.random() < 0.5:
        parts.entries = [entry for entry in parts.entries if entry[0] != number]
    else:
        parts.entries = [(0, 0) if entry[0] == number else entry for entry in parts.entries]


def add_entries(rng, trees, parts):
    """A tree whose slot is free has entries."""
    free = any_free(rng, trees)
    if free < SLOTS:
        parts.entries = entries_of({**trees, free: trees[any_held(rng, trees)]})


def labels_in(text):
    """The numbers in a text."""
    return list(map(int, re.findall(rb"\d+", text)))


# Keys for (forest text, number, cut).
OTHER_ORDERS = (
    lambda entry: (entry[0], entry[2], entry[1]),
    lambda entry: (entry[0], -entry[1]),
    lambda entry: (entry[1], entry[0]),
    lambda entry: entry[1:],
    lambda entry: (entry[2], entry[1]),
    lambda entry: (entry[0].split(b" ")[::-1], entry[1]),
    lambda entry: (labels_in(entry[0]), entry),
    lambda entry: (entry[0].replace(b" ", b"~"), entry[1]),
)


def reorder(rng, trees, parts):
    """All entries stand in another order."""
    entries = with_forests(trees)
    way = rng.randrange(len(OTHER_ORDERS) + 1)
    if way < len(OTHER_ORDERS):
        entries.sort(key=OTHER_ORDERS[way])
    else:
        entries.reverse()
    parts.entries = [entry[1:] for entry in entries]


def put_behind(rng, trees, parts):
    """A byte behind the entries is not 0, or a further entry stands there."""
    space = MEMORY - ENTRIES_AT - 2 * len(parts.entries)
    if space:
        zeros = rng.choice((0, 0, 1, space - 1, rng.randrange(space)))
        parts.behind = bytes(zeros) + bytes([rng.randint(1, 255)])
    if rng.random() < 0.2 and parts.entries:
        parts.behind = bytes(rng.choice(parts.entries))


SLOT_DAMAGES = (
    change_node, miscount, miscount, put_behind_tree, put_behind_tree, cut_off, fill_free_slot, move_slot, change_tree,
    exchange_children, exchange_children, repeat_label, repeat_label, change_label, change_labels,
)
ENTRY_DAMAGES = (
    change_entry, name_no_cut, name_no_cut, name_no_tree, name_no_tree, turn_entry, swap_entries, swap_entries,
    swap_tied, swap_tied, leave_out, leave_out, repeat_entry, leave_tree_out, add_entries, reorder, reorder, reorder,
)


def damaged(rng, trees):
    """The memory that holds these trees, one or more, with one damage or several."""
    parts = parts_of(trees)
    for _ in range(rng.choice((1, 1, 1, 1, 1, 2, 3))):
        way = rng.random()
        if way < 0.45:
            rng.choice(SLOT_DAMAGES)(rng, trees, parts)
        elif way < 0.9 and parts.entries:
            rng.choice(ENTRY_DAMAGES)(rng, trees, parts)
        else:
            put_behind(rng, trees, parts)
    return assembled(parts)
