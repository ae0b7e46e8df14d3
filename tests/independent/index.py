"""Reference for the index of forests, written from tickets 10 and 11 of document 02.

The calls work on lent memory, a bytearray or a view of one:

    add(memory, text)         the number that the tree of the text is given
    remove(memory, number)    None: the tree with this number is taken out
    neighbours(memory, number, room)
                              the neighbours of the tree with this number, as a
                              list; `room` is how many numbers the list may have

A call that refuses returns a Refusal, as those of reference.py do, and changes
nothing.  `index_sheet(text)` is what index.c prints for this standard input.

The memory.  Slot x, of 127 bytes, has the tree with number x in canonical order,
a byte for each node in the order in which they begin in the text: a leaf's is its
label, a fork's is 64 more than its leaves.  Behind the 160 slots stand the
entries, two bytes each: the number of the tree, and of the cut.  All else is 0.

How it is read.  What the nodes of a slot spell is written out as a tree text, and
reference.py reads it.  Where it is refused, or where the tree that is read does
not have this slot, the slot is that of no tree.  From the trees the whole memory
is then made anew, and has to be the lent one in each of its bytes.  So no entry
that is lent is ever looked at by itself.

How it is made.  Each cut of each tree gives a tuple of its forest text, the number
of the tree and that of the cut.  Sorted, these tuples stand in the order of the
entries.  Nothing is put in between, and nothing is moved up: each addition and each
removal makes the whole memory anew, from zeros.

How neighbours are found.  All moves of the tree are gone through, and the trees
whose topologies are among the results are the neighbours, but for copies.  No
entry and no forest is looked at, so Lemma 2.2 of document 001 is not used.
"""

import functools

from reference import (
    OTHER_KIND, OTHER_LABELS, TOO_MANY_TREES, Refusal, Refused, canonical, canonical_text, moves, node_text, prunings,
    read_one, refuse_long_text, returns_refusal,
)

SLOTS = 160
SLOT = 127
ENTRIES_AT = SLOTS * SLOT
MEMORY = 60640
LIST = 160
FREE = bytes(SLOT)

# A fork's byte is this and the number of its leaves.
FORK = 64

# The refusal numbers that reference.py does not have.
TOO_SHORT = 7
NO_INDEX = 12
NOT_HELD = 13

# A change of the memory is printed as the rows of so many bytes that it is in.  First
# it is looked for in blocks.
ROW = 32
BLOCK = 32 * ROW

CACHED = 1024


# Slots


def nodes_of(tree):
    """A byte for each node, as the children stand."""
    if not tree.children:
        (label,) = tree.clade
        return bytes([label])
    return bytes([FORK + len(tree.clade)]) + b"".join(map(nodes_of, tree.children))


def slot_of(tree):
    """The slot of a rooted tree."""
    return nodes_of(canonical(tree)).ljust(SLOT, b"\0")


def spelled(nodes):
    """The text of the next node and all below it, of an iterator over bytes.

    A 0, also one that is missing at the end, is written as the label 0, which no
    tree has.
    """
    byte = next(nodes, 0)
    if byte <= FORK:
        return b"%d" % byte
    return b"(" + spelled(nodes) + b"," + spelled(nodes) + b")"


@functools.lru_cache(CACHED)
def tree_in(slot):
    """The tree that has this slot, or None."""
    try:
        tree, _ = read_one(spelled(iter(slot)) + b";", 0)
    except Refused:
        return None
    return tree if slot_of(tree) == slot else None


# The memory.  What it holds is a dictionary from numbers to slots.


@functools.lru_cache(CACHED)
def forests_in(slot):
    """The forest texts of the tree in a slot, in order of the cuts."""
    return [
        node_text(canonical(remainder)) + b" " + canonical_text(pruned)
        for remainder, pruned in prunings(canonical(tree_in(slot)))
    ]


def entries_of(held):
    """The entries of all held trees, (forest text, number, cut), in order."""
    return sorted(
        (forest, number, cut) for number, slot in held.items() for cut, forest in enumerate(forests_in(slot))
    )


@functools.lru_cache(16)
def memory_of_items(items):
    """All bytes of the memory that holds these (number, slot)."""
    held = dict(items)
    slots = b"".join(held.get(number, FREE) for number in range(SLOTS))
    entries = b"".join(bytes((number, cut)) for _, number, cut in entries_of(held))
    return (slots + entries).ljust(MEMORY, b"\0")


def memory_of(held):
    """All bytes of the memory that holds these slots."""
    return memory_of_items(tuple(sorted(held.items())))


@functools.lru_cache(16)
def set_of(slots):
    """What all slots hold, and the memory that holds it; None where a slot is that
    of no tree, or label sets differ."""
    parts = [slots[start:start + SLOT] for start in range(0, ENTRIES_AT, SLOT)]
    held = {number: slot for number, slot in enumerate(parts) if slot != FREE}
    trees = [tree_in(slot) for slot in held.values()]
    if None in trees or len({tree.labels for tree in trees}) > 1:
        return None
    return held, memory_of(held)


def held_in(memory):
    """What the lent memory holds, or refusal 12."""
    found = set_of(bytes(memory[:ENTRIES_AT]))
    if found is None or found[1] != bytes(memory[:MEMORY]):
        raise Refused(NO_INDEX, 0, 0)
    return found[0]


def refuse_short(memory, room=LIST):
    """Refusal 7, tried before anything is looked at."""
    if len(memory) < MEMORY or room < LIST:
        raise Refused(TOO_SHORT, 0, 0)


# The calls


@returns_refusal
def add(memory, text):
    """Add the one tree of a text, and give its number."""
    refuse_short(memory)
    refuse_long_text(text, 0)
    held = held_in(memory)
    tree, semicolon = read_one(text, 0)
    if len(held) == SLOTS:
        raise Refused(TOO_MANY_TREES, 0, 0)
    if tree.unrooted:
        raise Refused(OTHER_KIND, 0, semicolon)
    if any(tree_in(slot).labels != tree.labels for slot in held.values()):
        raise Refused(OTHER_LABELS, 0, semicolon)
    number = free_number(held)
    memory[:MEMORY] = memory_of({**held, number: slot_of(tree)})
    return number


def free_number(held):
    """The smallest number that no tree has, where fewer than 160 are held."""
    return min(set(range(SLOTS)) - set(held))


@returns_refusal
def remove(memory, number):
    """Take out the tree with this number; all others keep theirs."""
    refuse_short(memory)
    held = held_in(memory)
    if number not in held:
        raise Refused(NOT_HELD, 0, 0)
    memory[:MEMORY] = memory_of({other: slot for other, slot in held.items() if other != number})


@returns_refusal
def neighbours(memory, number, room=LIST):
    """The numbers of the trees that are one move apart from this one."""
    refuse_short(memory, room)
    held = held_in(memory)
    if number not in held:
        raise Refused(NOT_HELD, 0, 0)
    return near(held, number)


def near(held, number):
    """The neighbours among what is held, ascending."""
    topologies = {other: tree_in(slot).topology for other, slot in held.items()}
    others = set(topologies.values()) - {topologies[number]}
    made = {result for result in moves(tree_in(held[number])) if result in others}
    return sorted(other for other in held if topologies[other] in made)


# The sheet


def operations(text):
    """Yield the name and the arguments of each operation that index.c is asked for.

    In `put PLACE LENGTH` and `add LENGTH` the last number is how many bytes stand
    in a line of their own behind it; they are given in its place.
    """
    place = 0
    while place < len(text):
        end = text.index(b"\n", place)
        name, *words = text[place:end].split()
        arguments = [int(word) for word in words]
        place = end + 1
        if name in (b"put", b"add"):
            end = place + arguments[-1]
            arguments[-1] = text[place:end]
            place = end + 1
        yield name, arguments


class Run:
    """The memory of index.c, and how much of it and of a list is lent.

    What lies behind the memory is not here, however much is lent.
    """

    def __init__(self):
        """As a run begins."""
        self.memory = bytearray(MEMORY)
        self.lent = MEMORY
        self.room = LIST

    def prepare(self, name, arguments):
        """Do an operation that is no call, and say whether it was one."""
        if name == b"clear":
            self.memory[:] = bytes(MEMORY)
        elif name == b"put":
            place, data = arguments
            self.memory[place:place + len(data)] = data
        elif name == b"lend":
            (self.lent,) = arguments
        elif name == b"list":
            (self.room,) = arguments
        else:
            return False
        return True

    def line(self, name, arguments):
        """Make a call, and give its line without the LF."""
        if name == b"memory":
            return name + changes(bytes(MEMORY), self.memory)
        before = bytes(self.memory)
        words = self.words(name, memoryview(self.memory)[:self.lent], *arguments)
        return words + changes(before, self.memory)

    def words(self, name, memory, argument):
        """Make a call on what is lent, and give its answer in words."""
        if name == b"add":
            answer = add(memory, argument)
        elif name == b"remove":
            answer = remove(memory, argument)
        else:
            answer = neighbours(memory, argument, self.room)
        if isinstance(answer, Refusal):
            return b"refused %d in %d at %d" % answer
        if name == b"add":
            return b"added %d" % answer
        if name == b"remove":
            return b"removed"
        return b" ".join([b"neighbours"] + [b"%d" % number for number in [len(answer)] + answer])


def changes(before, memory):
    """The rows in which the memory differs from what it was."""
    if before == memory:
        return b""
    blocks = [start for start in range(0, MEMORY, BLOCK) if before[start:start + BLOCK] != memory[start:start + BLOCK]]
    return b"".join(
        b" %d:%s" % (place, memory[place:place + ROW].hex().encode())
        for start in blocks for place in range(start, start + BLOCK, ROW)
        if before[place:place + ROW] != memory[place:place + ROW]
    )


def index_calls(text):
    """Yield the name and the arguments of each operation that prints a line."""
    run = Run()
    return (operation for operation in operations(text) if not run.prepare(*operation))


def index_sheet(text):
    """What index.c prints for this standard input: a line for each call."""
    run = Run()
    return b"".join(
        run.line(*operation) + b"\n" for operation in operations(text) if not run.prepare(*operation)
    )
