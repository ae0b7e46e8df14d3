"""The sorts of calls on an index that the comparison needs, and how many of each.

A call's sorts are told by the bytes of the memory and by the line of the call, and
what is wrong with a memory by going over its slots and its entries one after
another: not by making it anew, as index.py does.
"""

import functools

import index
import reference
from index_parts import ENTRIES_AT, LARGEST_LABEL, SLOT, SLOTS, forests

# From so many labels on a tree is large, and from so many neighbours on a list is long.
LARGE = 33
MANY = 20

FREE = bytes(SLOT)

# The sorts of calls, and how many of each there have to be in two thousand cases:
# less than half of what the generator makes.
CALL_FLOORS = {
    # Additions: to the empty index; with a number below another's; of a topology that
    # is held; of the 160th tree; with more memory lent than is needed.
    "added": 5000,
    "added to none": 200,
    "added into a gap": 1200,
    "added a copy": 3000,
    "added the last": 40,
    "added of one leaf": 600,
    "added of 64 leaves": 20,
    "added to more memory": 1200,
    # Additions that are refused, by the number; 12 is below.
    "adding, 1": 600,
    "adding, 2": 120,
    "adding, 3": 80,
    "adding, 4": 25,
    "adding, 5": 250,
    "adding, 6": 250,
    "adding, 7": 300,
    "adding, 8": 250,
    "adding, 10": 300,
    # The same with a reason that goes before another; 1 before 10 is behind the `;`.
    "7 before 8": 100,
    "7 before 12": 100,
    "8 before 12": 100,
    "12 before the text's": 900,
    "the text's before 6": 120,
    "1 before 10": 160,
    "6 before 10": 60,
    "6 before 5": 40,
    "10 before 5": 80,
    # Lists: without another topology held, without neighbours though there is one, of
    # one, of many; of a tree that has copies; of two copies; with numbers that are not
    # the first ones; of a full index; with more memory lent than is needed.
    "asked": 8000,
    "alone": 2000,
    "no neighbours": 400,
    "one neighbour": 600,
    "many neighbours": 400,
    "asked with copies": 3000,
    "copies listed": 3500,
    "asked with gaps": 1500,
    "asked of 160": 200,
    "asked of 64 leaves": 10,
    "asked with more memory": 2000,
    # Questions that are refused 7 and 13.
    "7 for the memory": 200,
    "7 for the list": 120,
    "7 before 12, asking": 150,
    "7 before 13": 100,
    "12 before 13": 1800,
    "free": 1000,
    "160 or more": 700,
    "held in fewer bits": 150,
}

# The same for what has to do with removing.
REMOVAL_FLOORS = {
    # Removals: of the only tree, and this where 160 were held; of the smallest number of
    # several, of the greatest, of one between; of a tree with copies, with neighbours;
    # with numbers that are not the first ones; of a full index; of what the call before
    # added; of a tree that has the first entry of several trees, or the last; with more
    # memory lent than is needed.
    "removed": 12000,
    "removed the only": 800,
    "emptied from 160": 10,
    "removed the smallest": 1800,
    "removed the greatest": 2400,
    "removed between": 7000,
    "removed a copy": 8000,
    "removed a neighbour": 7500,
    "removed with gaps": 8000,
    "removed of 160": 100,
    "removed of one leaf": 1500,
    "removed of 64 leaves": 25,
    "removed what was added": 2200,
    "removed the first entry": 1300,
    "removed the last entry": 1400,
    "removed from more memory": 2500,
    # Behind removals: additions with a number that was removed, of the 160th tree too;
    # of other labels than those of the last tree; lists.
    "added where one was removed": 8000,
    "full again": 40,
    "added other labels": 500,
    "asked after a removal": 3500,
    # Removals that are refused 7 and 13; of a number that was removed before, of any
    # where none is held.
    "removing, 7": 300,
    "7 before 12, removing": 100,
    "7 before 13, removing": 80,
    "12 before 13, removing": 2500,
    "removing, free": 2500,
    "removing, 160 or more": 1400,
    "removing, held in fewer bits": 250,
    "removing, again": 1000,
    "removing, none held": 700,
}

# The same for 12, in adding, in asking and in removing: what makes a memory that of no
# held trees, if it is one thing only.
FAULT_FLOORS = {
    # A slot: there is no whole tree; a fork has not as many leaves as it says; a label
    # twice; children not in order; more than zeros behind the tree; labels that
    # another tree does not have.
    "no tree": 300,
    "miscounted": 400,
    "label twice": 350,
    "exchanged": 350,
    "behind a tree": 450,
    "other labels": 450,
    # An entry: of a free number; of a cut that the tree does not have; twice; behind
    # one of a greater text; behind one of the same text and a greater number.  Then
    # more than zeros behind the entries.
    "free number": 350,
    "no such cut": 250,
    "entry twice": 100,
    "out of order": 350,
    "tie out of order": 280,
    "behind the entries": 800,
}

# Any memory that is refused 12: for several things, with large trees, with 160.
DAMAGED_FLOORS = {
    "several": 1000,
    "large": 120,
    "160 trees": 100,
}

INDEX_FLOORS = {
    **CALL_FLOORS,
    **REMOVAL_FLOORS,
    **{
        "%s, %s" % (call, sort): floors[sort]
        for call in ("adding", "asking", "removing") for floors in (FAULT_FLOORS, DAMAGED_FLOORS) for sort in floors
    },
}


# What is wrong with a memory


def is_zeros(data):
    """Whether all bytes are 0."""
    return data == bytes(len(data))


def node_at(slot, place):
    """The tree that begins at a place of a slot, as nested tuples, where it ends,
    and whether a fork in it has another number of leaves than it says; a tree of
    None where it does not end."""
    if place >= len(slot) or slot[place] == 0:
        return None, place, False
    if slot[place] <= LARGEST_LABEL:
        return slot[place], place + 1, False
    first, middle, wrong = node_at(slot, place + 1)
    if first is None:
        return None, place, False
    second, end, wrong_too = node_at(slot, middle)
    if second is None:
        return None, place, False
    # Of n leaves, 2n - 1 nodes.
    miscounted = slot[place] - LARGEST_LABEL != (end - place + 1) // 2
    return (first, second), end, wrong or wrong_too or miscounted


def labels_in(tree):
    """The labels of nested tuples as they stand."""
    return labels_in(tree[0]) + labels_in(tree[1]) if isinstance(tree, tuple) else [tree]


def in_order(tree):
    """Whether at each fork the child with the smaller least label is first."""
    if not isinstance(tree, tuple):
        return True
    return min(labels_in(tree[0])) <= min(labels_in(tree[1])) and in_order(tree[0]) and in_order(tree[1])


@functools.lru_cache(4096)
def slot_faults(slot):
    """The tree in a slot, and what is wrong there."""
    tree, end, miscounted = node_at(slot, 0)
    if tree is None:
        return None, {"no tree"}
    labels = labels_in(tree)
    faults = {
        "miscounted": miscounted,
        "label twice": len(set(labels)) < len(labels),
        "exchanged": not in_order(tree),
        "behind a tree": not is_zeros(slot[end:]),
    }
    return tree, {fault for fault in faults if faults[fault]}


@functools.lru_cache(16)
def faults_of_slots(slots):
    """The trees in all slots by their numbers, and what is wrong there."""
    trees, faults = {}, set()
    for number in range(SLOTS):
        slot = slots[number * SLOT:(number + 1) * SLOT]
        if slot != FREE:
            trees[number], found = slot_faults(slot)
            faults |= found
    if not faults and len({frozenset(labels_in(tree)) for tree in trees.values()}) > 1:
        faults.add("other labels")
    return trees, faults


def faults_of_entries(trees, entries):
    """What is wrong in the bytes of the entries of these trees and behind them."""
    total = sum(len(forests(tree)) for tree in trees.values())
    given = list(zip(entries[:2 * total:2], entries[1:2 * total:2]))
    faults = set()
    if not is_zeros(entries[2 * total:]):
        faults.add("behind the entries")
    if len(set(given)) < len(given):
        faults.add("entry twice")
    last = b"", 0, 0
    for number, cut in given:
        if number not in trees:
            faults.add("free number")
        elif cut >= len(forests(trees[number])):
            faults.add("no such cut")
        else:
            entry = forests(trees[number])[cut], number, cut
            if entry < last:
                faults.add("tie out of order" if entry[0] == last[0] else "out of order")
            last = entry
    return faults


@functools.lru_cache(4)
def fault_of(memory):
    """As memory_fault, of a memory that does not change."""
    trees, faults = faults_of_slots(memory[:ENTRIES_AT])
    faults = faults or faults_of_entries(trees, memory[ENTRIES_AT:])
    return "several" if len(faults) > 1 else next(iter(faults)) if faults else None


def memory_fault(memory):
    """What makes a memory that of no held trees: one thing of FAULT_FLOORS, or
    "several"; None if nothing does."""
    return fault_of(bytes(memory))


# Sorts


class Traced(index.Run):
    """A run, and what is known of the calls before one: the number that was given,
    if no tree was removed since; the free numbers that were removed; the labels of
    the last tree where it was removed; and whether 160 were held.  Where something is
    put into the memory, all that is forgotten."""

    def __init__(self):
        """As a run begins."""
        super().__init__()
        self.forget()

    def forget(self):
        """Nothing was called before."""
        self.added = None
        self.removed = set()
        self.last_labels = None
        self.was_full = False

    def prepare(self, name, arguments):
        """As that of index.Run."""
        if name in (b"clear", b"put"):
            self.forget()
        return super().prepare(name, arguments)

    def change(self, rows):
        """Put the rows into the memory that stand in the line of a call."""
        for row in rows:
            place, data = row.split(b":")
            self.memory[int(place):int(place) + index.ROW] = bytes.fromhex(data.decode())


def slots_held(memory):
    """The slots that are not free, by their numbers; of an index."""
    return {
        number: bytes(memory[number * SLOT:(number + 1) * SLOT])
        for number, byte in enumerate(memory[:ENTRIES_AT:SLOT]) if byte
    }


def leaves_in(slot):
    """The number of leaves of the tree in a slot."""
    return slot[0] - LARGEST_LABEL if slot[0] > LARGEST_LABEL else 1


def sorts_in(holds):
    """The sorts that hold, as a list."""
    return [sort for sort in holds if holds[sort]]


def fault_sorts(name, memory):
    """The sorts of a memory that is refused."""
    return ["%s, %s" % (name, memory_fault(memory))] + sorts_in({
        # Of n leaves, 2n - 1 nodes; here the last of these is looked at in each slot.
        "%s, large" % name: any(memory[2 * LARGE - 2:ENTRIES_AT:SLOT]),
        "%s, 160 trees" % name: all(memory[:ENTRIES_AT:SLOT]),
    })


def labels_of(slot):
    """The labels of the tree in a slot."""
    return set(labels_in(slot_faults(slot)[0]))


def added_sorts(run, number, before):
    """The sorts of an addition, told of the memory behind it."""
    slots = slots_held(run.memory)
    return ["added"] + sorts_in({
        "added where one was removed": number in run.removed,
        "full again": number in run.removed and len(slots) == SLOTS,
        "added other labels": run.last_labels and run.last_labels != labels_of(slots[number]),
        "added to none": not before,
        "added into a gap": any(other > number for other in before),
        "added a copy": slots[number] in before.values(),
        "added the last": len(slots) == SLOTS,
        "added of one leaf": leaves_in(slots[number]) == 1,
        "added of 64 leaves": leaves_in(slots[number]) == 64,
        "added to more memory": run.lent > index.MEMORY,
    })


def not_added_sorts(run, refusal, text):
    """The sorts of an addition that is refused: the number, and what would have
    been refused behind it."""
    number, place = refusal
    sorts = ["adding, %d" % number]
    long = len(text) > reference.MOST_BYTES
    if number in (7, 8):
        return sorts + sorts_in({
            "7 before 8": number == 7 and long,
            "%d before 12" % number: memory_fault(run.memory),
        })
    form = reference.form(text)
    refused = isinstance(form, reference.Refusal)
    if number == 12:
        return fault_sorts("adding", run.memory) + sorts_in({"12 before the text's": refused})
    held = slots_held(run.memory)
    if number < 5:
        before = reference.form(text[:place])
        behind_unrooted = not isinstance(before, reference.Refusal) and before.startswith(reference.UNROOTED_MARK)
        return sorts + sorts_in({
            "the text's before 6": len(held) == SLOTS,
            "1 before 10": number == 1 and behind_unrooted,
        })
    tree, _ = reference.read_one(text, 0)
    other = any(index.tree_in(slot).labels != tree.labels for slot in held.values())
    return sorts + sorts_in({
        "6 before 10": number == 6 and tree.unrooted,
        "6 before 5": number == 6 and other and not tree.unrooted,
        "10 before 5": number == 10 and other,
    })


def removed_sorts(run, number, before):
    """The sorts of a removal, told of the slots and the entries before it."""
    slots, entries = before
    others = {other: slot for other, slot in slots.items() if other != number}
    own = set(forests(slot_faults(slots[number])[0]))
    return ["removed"] + sorts_in({
        "removed the only": not others,
        "emptied from 160": not others and run.was_full,
        "removed the smallest": others and number < min(others),
        "removed the greatest": others and number > max(others),
        "removed between": others and min(others) < number < max(others),
        "removed a copy": slots[number] in others.values(),
        "removed a neighbour": any(
            slot != slots[number] and own.intersection(forests(slot_faults(slot)[0])) for slot in others.values()),
        "removed with gaps": max(slots) >= len(slots),
        "removed of 160": len(slots) == SLOTS,
        "removed of one leaf": leaves_in(slots[number]) == 1,
        "removed of 64 leaves": leaves_in(slots[number]) == 64,
        "removed what was added": run.added == number,
        "removed the first entry": others and own and entries[0] == number,
        "removed the last entry": others and own and entries[2 * len(own) * len(slots) - 2] == number,
        "removed from more memory": run.lent > index.MEMORY,
    })


def not_removed_sorts(run, refusal, number):
    """The sorts of a removal that is refused."""
    line, _ = refusal
    free = number >= SLOTS or run.memory[number * SLOT] == 0
    if line == 12:
        return fault_sorts("removing", run.memory) + sorts_in({"12 before 13, removing": free})
    if line == 7:
        return ["removing, 7"] + sorts_in({
            "7 before 12, removing": memory_fault(run.memory),
            "7 before 13, removing": free,
        })
    held = slots_held(run.memory)
    return sorts_in({
        "removing, free": number < SLOTS,
        "removing, 160 or more": number >= SLOTS,
        "removing, held in fewer bits": held_in_fewer_bits(held, number),
        "removing, again": number in run.removed,
        "removing, none held": not held,
    })


def held_in_fewer_bits(held, number):
    """Whether a number that is not held is, if only its last bits are looked at."""
    return number >= SLOTS and any(number % 2 ** bits in held for bits in (8, 16, 32, 63))


def listed_sorts(run, number, listed):
    """The sorts of a list of neighbours."""
    slots = slots_held(run.memory)
    copies = list(slots.values()).count(slots[number])
    return ["asked"] + sorts_in({
        "alone": copies == len(slots),
        "no neighbours": not listed and copies < len(slots),
        "one neighbour": len(listed) == 1,
        "many neighbours": len(listed) >= MANY,
        "asked with copies": copies > 1 and listed,
        "copies listed": len({slots[other] for other in listed}) < len(listed),
        "asked with gaps": max(slots) >= len(slots),
        "asked of 160": len(slots) == SLOTS and listed,
        "asked of 64 leaves": leaves_in(slots[number]) == 64 and listed,
        "asked with more memory": run.lent > index.MEMORY,
        "asked after a removal": run.removed and listed,
    })


def not_asked_sorts(run, refusal, number):
    """The sorts of a question that is refused."""
    line, _ = refusal
    if line == 12:
        free = number >= SLOTS or run.memory[number * SLOT] == 0
        return fault_sorts("asking", run.memory) + sorts_in({"12 before 13": free})
    if line == 7:
        return sorts_in({
            "7 for the memory": run.room >= index.LIST,
            "7 for the list": run.lent >= index.MEMORY,
            "7 before 12, asking": memory_fault(run.memory),
            "7 before 13": number not in slots_held(run.memory),
        })
    held = slots_held(run.memory)
    return sorts_in({
        "free": number < SLOTS,
        "160 or more": number >= SLOTS,
        "held in fewer bits": held_in_fewer_bits(held, number),
    })


NOT_ACCEPTED_SORTS = {b"add": not_added_sorts, b"remove": not_removed_sorts, b"ask": not_asked_sorts}


def call_sorts(run, name, arguments, line):
    """The sorts of one call.  The memory of the run is that before the call, and
    becomes that behind it."""
    words = line.split()
    if words[0] == b"refused":
        return NOT_ACCEPTED_SORTS[name](run, (int(words[1]), int(words[5])), *arguments)
    if name == b"ask":
        return listed_sorts(run, *arguments, [int(word) for word in words[2:]])
    if name == b"memory":
        return []
    slots = slots_held(run.memory)
    run.was_full |= len(slots) == SLOTS
    if name == b"add":
        number = int(words[1])
        run.change(words[2:])
        sorts = added_sorts(run, number, slots)
        run.added, run.last_labels = number, None
        run.removed.discard(number)
    else:
        (number,) = arguments
        sorts = removed_sorts(run, number, (slots, run.memory[ENTRIES_AT:]))
        run.change(words[1:])
        run.added, run.last_labels = None, labels_of(slots[number]) if len(slots) == 1 else None
        run.removed.add(number)
    return sorts


def index_sorts(text, expected):
    """The sorts of all calls of a case, as a list."""
    run = Traced()
    lines = iter(expected.splitlines())
    return [
        sort for operation in index.operations(text) if not run.prepare(*operation)
        for sort in call_sorts(run, *operation, next(lines))
    ]
