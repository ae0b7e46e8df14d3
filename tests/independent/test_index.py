#!/usr/bin/env python3
"""Checks of index.py, and of what its comparison with the library rests on: an
example worked by hand, refusals and their order, what holds for all indexes, tried
on small and on random ones; and slips, each of which the cases of generate_index.py
have to show.

    python3 test_index.py
"""

import collections
import contextlib
import functools
import itertools
import random
import unittest
from unittest import mock

import compare
import generate
import generate_index
import generate_rows
import index
import index_parts
import index_sorts
import reference
from index import ENTRIES_AT, LIST, MEMORY, SLOT, SLOTS, add, index_sheet, neighbours, remove

ALL_LABELS = list(generate.ALL_LABELS)


def holding(*texts):
    """The memory to which these texts were added."""
    memory = bytearray(MEMORY)
    for number, text in enumerate(texts):
        assert add(memory, text) == number
    return memory


def lists_of(memory, numbers):
    """The neighbours of each of these numbers."""
    return {number: neighbours(memory, number) for number in numbers}


def random_indexes(seed, count, sizes=(1, 2, 3, 4, 5, 6, 8)):
    """Random indexes of up to ten trees, with gaps and without: what they hold, as
    trees in canonical order."""
    rng = random.Random(seed)
    for _ in range(count):
        trees = generate_index.numbered(rng, generate_index.some_trees(rng, sizes, range(1, 11)))
        yield rng, {number: index_parts.canonical(tree) for number, tree in trees.items()}


class Example(unittest.TestCase):
    """Two trees of three leaves and a copy, by hand."""

    def test_memory(self):
        """((1,2),3) has the forests `3 (1,2);`, `(2,3) 1;`, `(1,3) 2;` and
        `(1,2) 3;`; ((1,3),2) has `2 (1,3);`, `(2,3) 1;`, `(1,2) 3;` and
        `(1,3) 2;`."""
        memory = holding(b"(3,(2,1));", b"(2,(1,3));", b"((1,2),3);")
        self.assertEqual(memory, self.expected())
        self.assertEqual(lists_of(memory, range(3)), {0: [1], 1: [0, 2], 2: [1]})
        self.assertEqual(neighbours(memory, 3), (13, 0, 0))

    def expected(self, *removed):
        """The memory of these three trees without the removed ones."""
        slots = {0: [67, 66, 1, 2, 3], 1: [67, 66, 1, 3, 2], 2: [67, 66, 1, 2, 3]}
        entries = [
            (0, 3), (1, 2), (2, 3),  # (1,2) 3;
            (0, 2), (1, 3), (2, 2),  # (1,3) 2;
            (0, 1), (1, 1), (2, 1),  # (2,3) 1;
            (1, 0),                  # 2 (1,3);
            (0, 0), (2, 0),          # 3 (1,2);
        ]
        memory = bytearray(60640)
        for number, nodes in slots.items():
            memory[127 * number:127 * number + 5] = bytes(0 if number in removed else node for node in nodes)
        place = 20320
        for entry in entries:
            if entry[0] not in removed:
                memory[place:place + 2] = bytes(entry)
                place += 2
        return memory

    def test_removed(self):
        """Each of the three trees removed, and then another."""
        texts = b"(3,(2,1));", b"(2,(1,3));", b"((1,2),3);"
        lists = {0: {1: [2], 2: [1]}, 1: {0: [], 2: []}, 2: {0: [1], 1: [0]}}
        for first, left in lists.items():
            memory = holding(*texts)
            self.assertIsNone(remove(memory, first))
            self.assertEqual(memory, self.expected(first))
            self.assertEqual(lists_of(memory, left), left)
            self.assertEqual(neighbours(memory, first), (13, 0, 0))
            for second in left:
                fewer = bytearray(memory)
                self.assertIsNone(remove(fewer, second))
                self.assertEqual(fewer, self.expected(first, second))
            # The number is free again, and is given to the next tree.
            self.assertEqual(add(memory, texts[first]), first)
            self.assertEqual(memory, self.expected())

    def test_last_removed(self):
        """Where the last tree was removed, all bytes are 0, and any labels are taken."""
        memory = holding(b"((1,2),3);")
        for text in (b"7;", b"(1,3);", b"((1,2),4);", b"(1,(2,(3,64)));"):
            self.assertEqual(add(memory, text), (5, 0, len(text) - 1))
            self.assertIsNone(remove(memory, 0))
            self.assertEqual(memory, bytes(60640))
            self.assertEqual(add(memory, text), 0)

    def test_document_01(self):
        """The sheet's table of document 01."""
        memory = holding(b"((2,1),3);", b"(3,(2,1));", b"(1,(2,3));", b"((1,3),2);")
        self.assertEqual(lists_of(memory, range(4)), {0: [2, 3], 1: [2, 3], 2: [0, 1, 3], 3: [0, 1, 2]})

    def test_one_leaf(self):
        """A tree of one leaf has no cuts and so no entries."""
        memory = holding(b"7;", b" 07 ;")
        self.assertEqual((memory[0], memory[127], sum(memory)), (7, 7, 14))
        self.assertEqual(lists_of(memory, range(2)), {0: [], 1: []})

    def test_byte_order(self):
        """10 stands before 2, and a blank before a comma, as bytes do."""
        memory = holding(b"(2,10);")
        self.assertEqual(memory[:3], bytes([66, 2, 10]))
        # `10 2;` is the cut 0, `2 10;` the cut 1.
        self.assertEqual(memory[ENTRIES_AT:ENTRIES_AT + 4], bytes([0, 0, 0, 1]))

    def test_largest(self):
        """160 trees of 64 leaves take every byte, and no byte is left."""
        comb = generate.left_comb(ALL_LABELS)
        memory = index_parts.memory_of(dict.fromkeys(range(SLOTS), comb))
        self.assertEqual(len(memory), 60640)
        self.assertTrue(all(memory[:ENTRIES_AT]))
        self.assertEqual(ENTRIES_AT + 2 * len(index_parts.entries_of(dict.fromkeys(range(SLOTS), comb))), 60640)
        self.assertEqual(neighbours(bytearray(memory), 159), [])

    def test_gaps(self):
        """The smallest free number is given."""
        tree = (1, 2)
        memory = bytearray(index_parts.memory_of({0: tree, 2: tree, 4: tree}))
        self.assertEqual([add(memory, b"(2,1);") for _ in range(4)], [1, 3, 5, 6])
        memory = bytearray(index_parts.memory_of({159: tree}))
        self.assertEqual([add(memory, b"(2,1);") for _ in range(160)], list(range(159)) + [(6, 0, 0)])


class Refusals(unittest.TestCase):
    """Each refusal and the order of them; none changes anything."""

    def refused(self, memory, text, expected):
        """An addition is refused and leaves the memory as it was."""
        before = bytes(memory)
        self.assertEqual(add(memory, text), expected)
        self.assertEqual(memory, before)

    def test_adding(self):
        """From the last to the first, each before all that are behind it."""
        long = b" " * 65536
        memory = holding(b"(1,2);")
        self.refused(memory, b"(1,3) ;", (5, 0, 6))
        self.refused(memory, b"[&U](1,3);", (10, 0, 9))
        self.refused(memory, b"[&U](1,2) ;\n", (10, 0, 10))
        full = bytearray(index_parts.memory_of(dict.fromkeys(range(SLOTS), (1, 2))))
        for text in (b"(1,2);", b"(1,3);", b"[&U](1,2);", b"[&U](1,3);"):
            self.refused(full, text, (6, 0, 0))
        for text, expected in ((b"[&U](1,3);x", (1, 0, 10)), (b"(1,65);", (2, 0, 3)), (b"(1,1);", (3, 0, 3)),
                               (b"(" * 64, (4, 0, 63)), (b"", (1, 0, 0)), (b"(1,2);(1,2);", (1, 0, 6))):
            for some in (memory, full, bytearray(MEMORY)):
                self.refused(some, text, expected)
        wrong = bytearray([255]) * MEMORY
        for text in (b"(1,2);", b"x", b"[&U]7;", b"(1,3);"):
            self.refused(wrong, text, (12, 0, 0))
        for some in (memory, full, wrong):
            self.refused(some, long, (8, 0, 0))
            for text in (b"(1,2);", b"x", long):
                self.refused(some[:-1], text, (7, 0, 0))
        self.refused(bytearray(), b"(1,2);", (7, 0, 0))
        self.assertEqual(add(memory, b"(1,2);".ljust(65535)), 1)

    def test_asking(self):
        """7 before 12 before 13."""
        memory, wrong = holding(b"(1,2);", b"(1,2);"), bytearray([255]) * MEMORY
        for number in (2, 159, 160, 256, 257, 2 ** 32, 2 ** 64 - 1):
            self.assertEqual(neighbours(memory, number), (13, 0, 0))
            self.assertEqual(neighbours(wrong, number), (12, 0, 0))
            for some in (memory, wrong):
                self.assertEqual(neighbours(some, number, LIST - 1), (7, 0, 0))
                self.assertEqual(neighbours(some[:-1], number), (7, 0, 0))
        self.assertEqual(neighbours(memory, 1, LIST), [])

    def not_removed(self, memory, number, expected):
        """A removal is refused and leaves the memory as it was."""
        before = bytes(memory)
        self.assertEqual(remove(memory, number), expected)
        self.assertEqual(memory, before)

    def test_removing(self):
        """7 before 12 before 13."""
        memory, wrong = holding(b"(1,2);", b"(1,2);", b"(1,2);"), bytearray([255]) * MEMORY
        self.assertIsNone(remove(memory, 1))
        for number in (1, 3, 159, 160, 256, 258, 2 ** 32, 2 ** 64 - 1):
            self.not_removed(memory, number, (13, 0, 0))
        for number in (0, 1, 160, 2 ** 64 - 1):
            self.not_removed(wrong, number, (12, 0, 0))
            for some in (memory, wrong):
                self.not_removed(some[:-1], number, (7, 0, 0))
                self.not_removed(some[:0], number, (7, 0, 0))
        self.assertIsNone(remove(memory, 2))

    def test_empty(self):
        """Zeros are the empty index, which takes any labels and has no number."""
        memory = bytearray(MEMORY)
        for number in (0, 1, 160):
            self.assertEqual(neighbours(memory, number), (13, 0, 0))
            self.not_removed(memory, number, (13, 0, 0))
        self.assertEqual(add(memory, b"64;"), 0)

    def test_no_index(self):
        """Each thing that may be wrong in a memory, alone."""
        tree, other = ((1, 2), 3), (1, (2, 3))
        trees = {0: tree, 1: other}
        parts = index_parts.parts_of(trees)

        def with_slot(*nodes):
            """The memory with other bytes in slot 0."""
            return index_parts.Parts([bytes(nodes)] + parts.slots[1:], parts.entries)

        def with_entries(entries, behind=b""):
            """The memory with other entries."""
            return index_parts.Parts(parts.slots, entries, behind)

        entries = parts.entries
        faults = {
            "no tree": with_slot(67, 66, 1, 2),
            "miscounted": with_slot(67, 67, 1, 2, 3),
            "label twice": with_slot(67, 66, 1, 2, 2),
            "exchanged": with_slot(67, 66, 2, 1, 3),
            "behind a tree": with_slot(67, 66, 1, 2, 3, 0, 1),
            "other labels": with_slot(67, 66, 1, 2, 4),
            "free number": with_entries(entries[:-1] + [(2, 0)]),
            "no such cut": with_entries(entries[:-1] + [(0, 4)]),
            "entry twice": with_entries(entries[:1] + entries[:1] + entries[2:]),
            "out of order": with_entries(sorted(entries, key=lambda entry: entry[1])),
            "tie out of order": with_entries(entries[1::-1] + entries[2:]),
            "behind the entries": with_entries(entries, b"\0\1"),
            "several": with_entries(entries[::-1]),
        }
        self.assertEqual(set(faults), set(index_sorts.FAULT_FLOORS) | {"several"})
        self.assertIsNone(index_sorts.memory_fault(index_parts.assembled(parts)))
        for fault, damaged in faults.items():
            memory = index_parts.assembled(damaged)
            self.assertEqual(index_sorts.memory_fault(memory), fault)
            self.refused(bytearray(memory), b"((1,2),3);", (12, 0, 0))
            self.assertEqual(neighbours(bytearray(memory), 0), (12, 0, 0))
            self.not_removed(bytearray(memory), 0, (12, 0, 0))


class Properties(unittest.TestCase):
    """What holds for all indexes, tried on small and on random ones."""

    def test_two_makers(self):
        """The memory that is made from trees by paths is the one that additions
        make, or, with gaps, one that the reference takes."""
        for _, trees in random_indexes(71, 60):
            memory = index_parts.memory_of(trees)
            self.assertEqual(index.memory_of({x: index.slot_of(reference.rooted(trees[x])) for x in trees}), memory)
            self.assertIsNone(index_sorts.memory_fault(memory))
            if max(trees) < len(trees):
                self.assertEqual(holding(*(generate.plain([trees[number]]) for number in sorted(trees))), memory)

    def test_forests(self):
        """The forest texts of both makers are those of the cut call."""
        rng = random.Random(72)
        trees = generate.all_trees((1, 2, 9, 10)) + [generate.random_tree(rng, ALL_LABELS)]
        for tree in map(index_parts.canonical, trees):
            text, forests = generate.plain([tree]), index_parts.forests(tree)
            self.assertEqual(index.forests_in(index.slot_of(reference.rooted(tree))), forests)
            self.assertEqual([reference.cut(text, cut) for cut in range(len(forests))], forests)
            self.assertEqual(reference.cut(text, len(forests)), (9, 0, 0))

    def test_slots(self):
        """A slot leads back to its tree, and any other byte string to none."""
        for labels in ((7,), (3, 64), (1, 2, 3), (9, 10, 2, 64)):
            slots = {index.slot_of(reference.rooted(tree)) for tree in generate.all_trees(labels)}
            for slot in slots:
                self.assertEqual(index.slot_of(index.tree_in(slot)), slot)
            for spelled in itertools.product(labels + (0, 65, 66, 67, 68), repeat=2 * min(len(labels), 3) - 1):
                slot = bytes(spelled).ljust(SLOT, b"\0")
                self.assertEqual(index.tree_in(slot) is not None, self.is_slot(spelled, slots), spelled)
        for slot in (bytes(SLOT), bytes([128]) * SLOT, bytes([255]) * SLOT, bytes([1]) * SLOT):
            self.assertIsNone(index.tree_in(slot))

    def is_slot(self, spelled, slots):
        """Whether these bytes are a slot of one to three leaves: listed by size."""
        nodes = bytes(spelled).rstrip(b"\0")
        if len(nodes) == 3:
            return nodes[0] == 66 and 0 < nodes[1] < nodes[2] < 65
        if len(nodes) == 5:
            first, *rest = nodes
            left = rest[0] == 66 and max(rest[1:]) < 65 and rest[1] < min(rest[2:]) and rest[2] != rest[3]
            right = rest[1] == 66 and max(rest[0], *rest[2:]) < 65 and rest[0] < rest[2] < rest[3]
            return first == 67 and 0 not in nodes and (left or right)
        return len(nodes) == 1 and nodes[0] < 65

    def test_graph(self):
        """Each list is what the graph call with copies kept apart gives for the
        same trees in order of number; and it is told by shared forests."""
        for _, trees in random_indexes(73, 60):
            memory = bytearray(index_parts.memory_of(trees))
            self.check_lists(memory, trees)
            for number, near in lists_of(memory, trees).items():
                own = set(index_parts.forests(trees[number]))
                sharing = {x for x in trees if trees[x] != trees[number] and own & set(index_parts.forests(trees[x]))}
                self.assertEqual(near, sorted(sharing))

    def check_lists(self, memory, trees):
        """The lists are those of the graph call, with each position read as the held
        number at that place."""
        numbers = sorted(trees)
        graph = reference.graph_choosing(generate.plain(map(trees.get, numbers)), merge=False)
        near = collections.defaultdict(list)
        for i, j in sorted(graph.pairs + [(j, i) for i, j in graph.pairs]):
            near[numbers[i]].append(numbers[j])
        self.assertEqual(lists_of(memory, numbers), {number: near[number] for number in numbers})

    def test_any_run(self):
        """After any run of additions and removals, the memory is that of the trees that
        are held, and the lists are those of the graph call."""
        for rng, trees in random_indexes(77, 25, (1, 2, 3, 4, 5)):
            labels, memory, held = generate.labels_of(next(iter(trees.values()))), bytearray(MEMORY), {}
            for _ in range(30):
                if rng.random() < 0.6 or not held:
                    tree = generate_index.next_tree(rng, trees.values(), labels)
                    number = add(memory, generate.plain([tree]))
                    self.assertNotIn(number, held)
                    self.assertLessEqual(set(range(number)), set(held))
                    held[number] = index_parts.canonical(tree)
                else:
                    number = rng.choice(sorted(held))
                    self.assertIsNone(remove(memory, number))
                    del held[number]
                self.assertEqual(memory, index_parts.memory_of(held))
            self.check_lists(memory, held)

    def test_taken_back(self):
        """What was added is removed, and the memory is as before; so it is where what
        was removed is added again, if its number is the smallest free one."""
        for rng, trees in random_indexes(78, 60):
            before = index_parts.memory_of(trees)
            memory = bytearray(before)
            tree = generate_index.next_tree(rng, trees.values(), generate.labels_of(next(iter(trees.values()))))
            self.assertIsNone(remove(memory, add(memory, generate.plain([tree]))))
            self.assertEqual(memory, before)
            for number in trees:
                self.assertIsNone(remove(memory, number))
                self.assertNotEqual(memory, before)
                again = add(memory, generate.plain([trees[number]]))
                self.assertEqual(memory == before, again == number)
                self.assertEqual(again == number, set(range(number)) <= set(trees))
                memory = bytearray(before)

    def test_order_of_removals(self):
        """In which order trees are removed does not matter."""
        for rng, trees in random_indexes(79, 40):
            left = [number for number in trees if rng.random() < 0.5]
            removed = [number for number in trees if number not in left]
            for _ in range(3):
                memory = bytearray(index_parts.memory_of(trees))
                for number in rng.sample(removed, len(removed)):
                    self.assertIsNone(remove(memory, number))
                self.assertEqual(memory, index_parts.memory_of({number: trees[number] for number in left}))

    def test_order_of_additions(self):
        """The slots are as the texts came, the forests of the entries ascend."""
        for rng, trees in random_indexes(74, 20):
            memory = holding(*(generate_rows.one_text(rng, generate.swapped(rng, tree)) for tree in trees.values()))
            self.assertEqual(memory, index_parts.memory_of(dict(enumerate(trees.values()))))
            total = 2 * len(trees) * (len(generate.labels_of(next(iter(trees.values())))) - 1)
            entries = memory[ENTRIES_AT:ENTRIES_AT + 2 * total]
            held = list(trees.values())
            texts = [(index_parts.forests(held[x])[cut], x, cut) for x, cut in zip(entries[::2], entries[1::2])]
            self.assertEqual(texts, sorted(set(texts)))
            self.assertEqual(len(texts), total)

    def test_damaged(self):
        """A memory is refused exactly when something is wrong in it, which is told
        by going over it; all that may be wrong comes up."""
        seen = collections.Counter()
        for rng, trees in random_indexes(75, 250):
            for _ in range(8):
                memory = bytearray(index_parts.damaged(rng, trees))
                fault = index_sorts.memory_fault(memory)
                seen[fault] += 1
                self.assertEqual(add(memory, b"") == (12, 0, 0), fault is not None)
                self.assertEqual(neighbours(memory, min(trees)) == (12, 0, 0), fault is not None)
                self.assertEqual(remove(memory, SLOTS), (13 if fault is None else 12, 0, 0))
        self.assertEqual(set(seen), set(index_sorts.FAULT_FLOORS) | {"several", None})
        self.assertGreater(min(seen.values()), 9, seen)
        self.assertLess(seen[None], 600, seen)


class Sheet(unittest.TestCase):
    """What index.c is asked for, and what it prints."""

    def test_sheet(self):
        """A line for each call, whatever bytes a text has."""
        run = (
            b"add 6\n(1,2);\nask 0\nadd 3\n\n\r;\nask 1\nlend 60639\nask 0\nlend 8388608\nlist 159\nask 0\nlist 1024\n"
            b"put 0 3\n\n\x01\x02\nask 0\nput 0 1\nB\nmemory\nclear\nmemory\nadd 0\n\n"
        )
        row, entries = b"420102".ljust(64, b"0"), b"00000001".ljust(64, b"0")
        expected = (
            b"added 0 0:%s 20320:%s\nneighbours 0\nrefused 1 in 0 at 2\nrefused 13 in 0 at 0\nrefused 7 in 0 at 0\n"
            b"refused 7 in 0 at 0\nrefused 12 in 0 at 0\nmemory 0:%s 20320:%s\nmemory\nrefused 1 in 0 at 0\n"
        )
        entries = b"00010000".ljust(64, b"0")
        self.assertEqual(index_sheet(run), expected % (row, entries, row, entries))
        self.assertEqual(index_sheet(b""), b"")
        self.assertEqual(len(list(index.index_calls(run))), len(index_sheet(run).splitlines()))

    def test_removed(self):
        """What a removal changed, which may be all, or nothing."""
        row, entries = b"420102".ljust(64, b"0"), b"00010000".ljust(64, b"0")
        run = b"add 6\n(1,2);\nremove 1\nlend 0\nremove 0\nlend 60641\nlist 0\nremove 0\nremove 0\nmemory\n"
        expected = (
            b"added 0 0:%s 20320:%s\nrefused 13 in 0 at 0\nrefused 7 in 0 at 0\nremoved 0:%s 20320:%s\n"
            b"refused 13 in 0 at 0\nmemory\n"
        )
        self.assertEqual(index_sheet(run), expected % (row, entries, b"0" * 64, b"0" * 64))
        self.assertEqual(index_sheet(b"put 0 1\nA\nremove 0\n"), b"refused 12 in 0 at 0\n")
        self.assertEqual(index_sheet(b"put 0 1\n7\nremove 0\n"), b"removed 0:%s\n" % (b"0" * 64))

    def test_list(self):
        """The number of neighbours, and they."""
        run = generate_index.Run()
        for tree in generate.all_trees((1, 2, 3)):
            run.add(tree)
        run.ask(1)
        self.assertEqual(index_sheet(run.text()).splitlines()[3], b"neighbours 2 0 2")

    def test_changes(self):
        """Whole rows, and none where nothing changed."""
        before, memory = bytes(MEMORY), bytearray(MEMORY)
        self.assertEqual(index.changes(before, memory), b"")
        memory[31] = memory[64] = 1
        self.assertEqual(index.changes(before, memory), b" 0:%s01 64:01%s" % (b"00" * 31, b"00" * 31))
        self.assertEqual(MEMORY % index.ROW, 0)


@functools.lru_cache(None)
def cheap_cases():
    """Cases and their sheets: the fixed ones but for those of the largest trees
    and those in which every byte is changed, and some random ones.  First are the
    shortest of each kind, which take the least time, then the next of each."""
    fixed = [
        (kind, run.text()) for kind, runs in (
            ("small", generate_index.small_runs()), ("gaps", generate_index.gap_runs()),
            ("texts", generate_index.text_runs()), ("numbers", [generate_index.number_run()]),
            ("lengths", [generate_index.length_run()]), ("order", [generate_index.order_run()]),
            ("removed", generate_index.removal_runs()), ("emptied", generate_index.emptied_runs()),
            ("removed-numbers", [generate_index.removed_numbers()]), ("added", [generate_index.added_run()]),
        ) for run in runs
    ]
    chosen = generate.cases_of(fixed, generate_index.KINDS, 1, len(fixed) + 80)
    made = [(kind, text, index_sheet(text)) for _, kind, text in chosen if kind != "large"]
    ranks = collections.defaultdict(itertools.count)
    return sorted(sorted(made, key=lambda case: len(case[1])), key=lambda case: next(ranks[case[0]]))


class CheckedRun(generate_index.Run):
    """A run whose calls are made at once, and the memory compared with that of the
    trees that it says are held."""

    def __init__(self, trees=None):
        """Begin with an index that holds these trees."""
        self.reference, self.made = index.Run(), 0
        super().__init__(trees)

    def check(self):
        """Make the calls that were said since, and compare."""
        for operation in index.operations(b"".join(self.calls[self.made:])):
            if not self.reference.prepare(*operation):
                self.reference.line(*operation)
        self.made = len(self.calls)
        assert self.reference.memory == index_parts.memory_of(self.trees)

    def hold(self, trees):
        """As that of generate_index.Run."""
        super().hold(trees)
        self.check()

    def add(self, tree, rng=None):
        """As that of generate_index.Run."""
        number = super().add(tree, rng)
        self.check()
        return number

    def remove(self, *numbers):
        """As that of generate_index.Run, one by one."""
        for number in numbers:
            super().remove(number)
            self.check()


class Generator(unittest.TestCase):
    """The cases."""

    def test_determined(self):
        """A seed determines the cases, and a larger count keeps the earlier ones."""
        kinds = generate_index.KINDS
        longer = list(generate.cases_of([], kinds, 3, 40))
        self.assertEqual(longer[:20], list(generate.cases_of([], kinds, 3, 20)))
        self.assertNotEqual(longer, list(generate.cases_of([], kinds, 4, 40)))
        self.assertEqual({kind for _, kind, _ in longer} - {kind for kind, _, _ in kinds}, set())

    def test_model(self):
        """What a run says that the memory holds is what it holds."""
        runs = generate_index.small_runs() + generate_index.gap_runs() + generate_index.full_runs()
        for run in runs + generate_index.text_runs()[1:2]:
            last = index_sheet(run.text()).splitlines()[-1]
            self.assertEqual(last, b"memory" + index.changes(bytes(MEMORY), index_parts.memory_of(run.trees)))

    def test_model_of_each_call(self):
        """The same behind each addition and removal of which it is noted what becomes
        of it: the memory is the one that is made by paths.  The runs are those that
        compare.py makes, without the longest ones."""
        with mock.patch.object(generate_index, "Run", CheckedRun):
            generate_index.removal_runs()
            generate_index.emptied_runs()
            generate_index.removed_numbers()
            for position in range(60, 200):
                generate.random_case(generate_index.KINDS, 1, position)

    def test_set(self):
        """A memory that is set is there, whatever its bytes are."""
        rng = random.Random(76)
        zeros = bytes(MEMORY)
        for memory in (zeros, rng.randbytes(MEMORY), zeros[1:] + b"\1", index_parts.memory_of({5: (1, 2)})):
            run = generate_index.Run({0: 7})
            run.set(memory)
            self.assertEqual(index_sheet(run.text()), b"memory" + index.changes(zeros, memory) + b"\n")

    def test_operations(self):
        """Nothing is put or lent that index.c does not take."""
        for _, text, _ in cheap_cases():
            for name, arguments in index.operations(text):
                if name == b"put":
                    self.assertLessEqual(arguments[0] + len(arguments[1]), MEMORY)
                elif name in (b"lend", b"list"):
                    self.assertLessEqual(arguments[0], {b"lend": 2 ** 23, b"list": 1024}[name])
                elif name in (b"ask", b"remove"):
                    self.assertTrue(0 <= arguments[0] < 2 ** 64)
                else:
                    self.assertIn(name, (b"add", b"clear", b"memory"))

    def test_sweep(self):
        """Every byte is changed once, and once to what it was not."""
        memory = index_parts.memory_of(generate_index.SWEPT)
        changed = collections.Counter()
        for run in generate_index.sweep_runs():
            for name, arguments in index.operations(run.text()):
                if name == b"put" and len(arguments[1]) == 1:
                    changed[arguments[0], arguments[1] != memory[arguments[0]:arguments[0] + 1]] += 1
        self.assertEqual(changed, collections.Counter(itertools.product(range(MEMORY), (False, True))))

    def test_sorts(self):
        """The sorts of calls that the comparison counts are those that are told of
        some call, and each refusal comes up."""
        sorts, refused = collections.Counter(), set()
        for _, text, expected in cheap_cases():
            sorts.update(index_sorts.index_sorts(text, expected))
            refused.update(compare.refusals_of_lines(expected))
        self.assertLessEqual(set(sorts), set(index_sorts.INDEX_FLOORS))
        self.assertEqual(set(index_sorts.INDEX_FLOORS) - set(sorts), {"asked of 64 leaves", "removed of 64 leaves"})
        self.assertEqual(refused, set(compare.REFUSALS_OF_THE_INDEX))

    def test_some_sorts(self):
        """The sorts of some calls."""
        run = generate_index.Run({0: (1, 2), 2: (1, 2)})
        begin = b"".join(run.calls)
        full = b"".join(generate_index.Run(dict.fromkeys(range(SLOTS), 7)).calls)
        for calls, expected in (
                (b"add 6\n(1,2);\n", ["added", "added to none"]),
                (begin + b"add 6\n(1,2);\n", ["added", "added into a gap", "added a copy"]),
                (begin + b"ask 0\n", ["asked", "alone", "asked with gaps"]),
                (begin + b"ask 256\n", ["160 or more", "held in fewer bits"]), (begin + b"ask 1\n", ["free"]),
                (begin + b"add 10\n[&U](1,3);\n", ["adding, 10", "10 before 5"]),
                (begin + b"add 11\n[&U](1,3);x\n", ["adding, 1", "1 before 10"]),
                (full + b"add 6\n[&U]7;\n", ["adding, 6", "6 before 10"]),
                (full + b"add 2\n8;\n", ["adding, 6", "6 before 5"]),
                (full + b"add 1\n8\n", ["adding, 1", "the text's before 6"]),
                (b"put 0 1\n\x41\nadd 0\n\nask 0\n", ["adding, no tree", "12 before the text's", "asking, no tree"]),
                (b"list 0\nask 0\n", ["7 for the list", "7 before 13"]), (b"lend 0\nadd 0\n\n", ["adding, 7"]),
                (b"lend 0\nremove 0\n", ["removing, 7", "7 before 13, removing"]),
                (b"remove 3\n", ["removing, free", "removing, none held"]),
                (begin + b"remove 258\n", ["removing, 160 or more", "removing, held in fewer bits"]),
                (b"put 0 1\n\x41\nremove 1\n", ["removing, no tree", "12 before 13, removing"]),
                (begin + b"remove 0\n", ["removed", "removed the smallest", "removed a copy", "removed with gaps",
                                         "removed the first entry"]),
                (b"put 0 1\n7\nremove 0\nadd 2\n8;\n", [
                    "removed", "removed the only", "removed of one leaf", "added", "added where one was removed",
                    "added other labels", "added to none", "added of one leaf"])):
            self.assertEqual(index_sorts.index_sorts(calls, index_sheet(calls)), expected, calls[-30:])


# Slips.  Each is a function of index.py as it might be wrong.


def sorted_by(key):
    """The entries in another order."""
    return lambda held: sorted(
        ((forest, number, cut) for number, slot in held.items() for cut, forest in enumerate(index.forests_in(slot))),
        key=key,
    )


def forgetful_near(keep_copies=False, repeat=False, limit=None):
    """Neighbours by shared forests, with copies, or once for each forest, or only
    the first ones."""
    def near(held, number):
        """As index.near."""
        own = set(index.forests_in(held[number]))
        found = []
        for other in sorted(held):
            shared = own.intersection(index.forests_in(held[other]))
            if other != number and (keep_copies or held[other] != held[number]):
                found += [other] * (len(shared) if repeat else min(1, len(shared)))
        return found[:limit]
    return near


def lenient(agrees):
    """The check of a memory that asks only whether `agrees` holds of the entries that
    are lent, those that are made anew, and what stands behind the lent ones."""
    def held_in(memory):
        """As index.held_in."""
        found = index.set_of(bytes(memory[:ENTRIES_AT]))
        if found is None:
            raise reference.Refused(12, 0, 0)
        made = [entry[1:] for entry in index.entries_of(found[0])]
        end = ENTRIES_AT + 2 * len(made)
        lent = list(zip(memory[ENTRIES_AT:end:2], memory[ENTRIES_AT + 1:end:2]))
        if not agrees(lent, made, bytes(memory[end:MEMORY])):
            raise reference.Refused(12, 0, 0)
        return found[0]
    return held_in


def all_but(left_out):
    """The same, where `left_out` takes away or changes what is not compared."""
    return lenient(lambda lent, made, behind: left_out(lent) == left_out(made) and not any(behind))


def only_ascending(lent, made, behind):
    """Whether the entries are entries of the trees and none is before one that it has
    to stand behind; one may stand twice."""
    places = [made.index(entry) if entry in made else None for entry in lent]
    return None not in places and places == sorted(places) and not any(behind)


def lenient_slots(agrees):
    """The check of a slot that looks at some of it only."""
    def tree_in(slot):
        """As index.tree_in."""
        try:
            tree, _ = reference.read_one(index.spelled(iter(slot)) + b";", 0)
        except reference.Refused:
            return None
        return tree if agrees(tree, slot) else None
    return functools.lru_cache(1024)(tree_in)


def without_counts(slot):
    """A slot with the same byte for all forks."""
    return bytes(min(byte, 65) for byte in slot)


def labels_not_compared(slots):
    """As index.set_of."""
    parts = [slots[start:start + SLOT] for start in range(0, ENTRIES_AT, SLOT)]
    held = {number: slot for number, slot in enumerate(parts) if slot != index.FREE}
    return None if None in map(index.tree_in, held.values()) else (held, index.memory_of(held))


def adding(order, read=lambda text: reference.read_one(text, 0), further=lambda memory: None):
    """An addition that tries what may be refused in another order, or leaves one
    line out, or reads a text in another way, or does something further."""
    @reference.returns_refusal
    def slipped_add(memory, text):
        """As index.add; 1 stands for all of the text's refusals."""
        index.refuse_short(memory)
        for line in order:
            if line == 8:
                reference.refuse_long_text(text, 0)
            elif line == 12:
                held = index.held_in(memory)
            elif line == 1:
                tree, semicolon = read(text)
            elif line == 6 and len(index.held_in(memory)) == SLOTS:
                raise reference.Refused(6, 0, 0)
            elif line == 10 and tree.unrooted:
                raise reference.Refused(10, 0, semicolon)
            elif line == 5 and any(index.tree_in(slot).labels != tree.labels for slot in held.values()):
                raise reference.Refused(5, 0, semicolon)
        number = index.free_number(held)
        memory[:MEMORY] = index.memory_of({**held, number: index.slot_of(tree)})
        further(memory)
        return number
    return slipped_add


def asking(number_of=lambda number: number, free=None, order=(7, 12, 13)):
    """A question in which a number is taken for another, or for a free one a list
    is given, or what may be refused is tried in another order."""
    @reference.returns_refusal
    def slipped_neighbours(memory, number, room=LIST):
        """As index.neighbours."""
        number = number_of(number)
        for line in order:
            if line == 7:
                index.refuse_short(memory, room)
            elif line == 12:
                held = index.held_in(memory)
            elif number >= SLOTS or not memory[number * SLOT]:
                if free is None:
                    raise reference.Refused(13, 0, 0)
                return free
        return index.near(held, number)
    return slipped_neighbours


def trusted(memory):
    """As index.held_in, but no entry is looked at, and where a slot is that of no
    tree, none is held."""
    return (index.set_of(bytes(memory[:ENTRIES_AT])) or [{}])[0]


def without(held, number):
    """What is left without a number."""
    return {other: slot for other, slot in held.items() if other != number}


def removing(made=lambda held, number: index.memory_of(without(held, number)), number_of=lambda number: number,
             refuses=lambda held, number: False, order=(7, 12, 13), look=index.held_in):
    """A removal behind which the memory is the one that is `made`, or in which a number
    is taken for another, or is refused though it is held, or what may be refused is
    tried in another order, or the memory is looked at in another way."""
    @reference.returns_refusal
    def slipped_remove(memory, number):
        """As index.remove."""
        number = number_of(number)
        for line in order:
            if line == 7:
                index.refuse_short(memory)
            elif line == 12:
                held = look(memory)
            elif number >= SLOTS or not memory[number * SLOT]:
                raise reference.Refused(13, 0, 0)
        if refuses(held, number):
            raise reference.Refused(13, 0, 0)
        memory[:MEMORY] = made(held, number)
    return slipped_remove


def entries_in(held):
    """(number, cut) for each entry, in order."""
    return [entry[1:] for entry in index.entries_of(held)]


def leaving(entries=lambda held, number: entries_in(without(held, number)), slots=without):
    """A removal that leaves these entries and these slots."""
    def made(held, number):
        """All bytes."""
        left = slots(held, number)
        parts = [left.get(other, index.FREE) for other in range(SLOTS)] + list(map(bytes, entries(held, number)))
        return b"".join(parts).ljust(MEMORY, b"\0")
    return removing(made)


def leaving_slot(change):
    """A removal that leaves something in the slot."""
    return leaving(slots=lambda held, number: {**held, number: change(held[number])})


def taking_out(chosen):
    """A removal that takes out the entries (forest, number, cut) that are `chosen`."""
    return leaving(lambda held, number: [
        entry[1:] for entry in index.entries_of(held) if not chosen(entry, held, number)])


def taking_out_but(place):
    """A removal that takes out the right entries, but for the one at a place, be it of
    the tree that is removed or not."""
    return taking_out(lambda entry, held, number: entry[1] == number and entry != index.entries_of(held)[place])


def gaps_left(held, number):
    """The entries with zeros in place of those that are taken out."""
    return [(0, 0) if entry[0] == number else entry for entry in entries_in(held)]


def last_gap_left(held, number):
    """The same for the last of these; the other gaps are closed."""
    entries = entries_in(held)
    places = [place for place, entry in enumerate(entries) if entry[0] == number]
    for place in places[-1:]:
        entries[place] = 0, 0
    return [entry for place, entry in enumerate(entries) if place not in places[:-1]]


def end_left(held, number):
    """The entries closed up, and behind them what stood there before."""
    left = entries_in(without(held, number))
    return left + entries_in(held)[len(left):]


def filled_from_the_end(held, number):
    """The entries with the last ones in the gaps."""
    entries, place = entries_in(held), 0
    while place < len(entries):
        if entries[place][0] != number:
            place += 1
        else:
            entries[place] = entries[-1]
            entries.pop()
    return entries


def place_among(held, number):
    """How many smaller numbers are held."""
    return sum(other < number for other in held)


def leaving_trees(left):
    """A removal that leaves these slots, with the entries of their trees."""
    return removing(lambda held, number: index.memory_of(left(held, number)))


def moved_down(held, number):
    """Each tree above has a number less."""
    return {other - (other > number): slot for other, slot in without(held, number).items()}


def last_moved(held, number):
    """The tree with the greatest number has the one that is free."""
    left = without(held, number)
    if left and max(left) > number:
        left[number] = left.pop(max(left))
    return left


def without_at_place(held, number):
    """The tree at this place, in order of number, is removed."""
    return without(held, sorted(held)[min(number, len(held) - 1)])


def without_first_copy(held, number):
    """The first tree of the topology is removed."""
    return without(held, min(other for other in held if held[other] == held[number]))


def without_copies(held, number):
    """All trees of the topology are removed."""
    return {other: slot for other, slot in held.items() if slot != held[number]}


def has_copies(held, number):
    """Whether another tree has the topology too."""
    return list(held.values()).count(held[number]) > 1


@reference.returns_refusal
def slot_cleared_first(memory, number):
    """As index.remove, but the slot is cleared before the memory is looked at."""
    index.refuse_short(memory)
    before = bytes(memory)
    if number < SLOTS:
        memory[number * SLOT:(number + 1) * SLOT] = bytes(SLOT)
    held = index.held_in(before)
    if number not in held:
        raise reference.Refused(13, 0, 0)
    memory[:MEMORY] = index.memory_of(without(held, number))


class LabelsKept(index.Run):
    """A run in which the labels stay where the last tree was removed."""

    kept = None

    def prepare(self, name, arguments):
        """As that of index.Run."""
        if name in (b"clear", b"put"):
            self.kept = None
        return super().prepare(name, arguments)

    def words(self, name, memory, argument):
        """As that of index.Run, but for the refusal of other labels."""
        before = bytes(self.memory)
        words = super().words(name, memory, argument)
        if words == b"removed" and not any(self.memory):
            (slot,) = trusted(before).values()
            self.kept = index.tree_in(slot).labels
        elif words.startswith(b"added") and self.kept:
            if index.tree_in(bytes(self.memory[:SLOT])).labels != self.kept:
                self.memory[:] = before
                return b"refused 5 in 0 at %d" % argument.rindex(b";")
            self.kept = None
        return words


def as_rooted(text):
    """An unrooted tree is read as a rooted one."""
    return reference.read_one(text.replace(b"[&U]", b"[&R]"), 0)


def rooted_only(text):
    """An unrooted tree is refused at its `;`."""
    return reference.read_one(text, 0, rooted_only=True)


def set_last_byte(memory):
    """A byte is changed that is 0."""
    memory[MEMORY - 1] = 1


def same_but_counts(tree, slot):
    """Whether a slot is that of a tree, but for the bytes of forks."""
    return without_counts(index.slot_of(tree)) == without_counts(slot)


def same_as_it_stands(tree, slot):
    """Whether a slot is that of a tree, if its order is the right one."""
    return index.nodes_of(tree).ljust(SLOT, b"\0") == slot


def begins_the_slot(tree, slot):
    """Whether a slot is that of a tree, but for what is behind it."""
    return slot.startswith(index.nodes_of(reference.canonical(tree)))


SLIPS = {
    "ties by cut first": ("entries_of", sorted_by(lambda entry: (entry[0], entry[2], entry[1]))),
    "ties by number, the greatest first": ("entries_of", sorted_by(lambda entry: (entry[0], -entry[1]))),
    "texts by numbers": ("entries_of", sorted_by(lambda entry: (index_parts.labels_in(entry[0]), entry))),
    "pruned part first": ("entries_of", sorted_by(lambda entry: (entry[0][:-1].split(b" ")[::-1], entry))),
    "number of trees as number": ("free_number", len),
    "number behind the last": ("free_number", lambda held: min(159, max(held, default=-1) + 1)),
    "greatest free number": ("free_number", lambda held: max(set(range(SLOTS)) - set(held))),
    "neighbour for each forest": ("near", forgetful_near(repeat=True)),
    "copies listed": ("near", forgetful_near(keep_copies=True)),
    "one neighbour left out": ("near", forgetful_near(limit=100)),
    "descending": ("near", lambda held, number: forgetful_near()(held, number)[::-1]),
    "smaller numbers only": ("near", lambda held, number: [x for x in forgetful_near()(held, number) if x < number]),
    "last entry not compared": ("held_in", all_but(lambda entries: entries[:-1])),
    "first entry not compared": ("held_in", all_but(lambda entries: entries[1:])),
    "an entry in the middle not compared": ("held_in", all_but(lambda entries: entries[:3] + entries[4:])),
    "entries in any order": ("held_in", all_but(sorted)),
    "cuts not compared": ("held_in", all_but(lambda entries: [number for number, _ in entries])),
    "numbers not compared": ("held_in", all_but(lambda entries: [cut for _, cut in entries])),
    "an entry twice and another left out": ("held_in", lenient(only_ascending)),
    "behind the entries not compared": ("held_in", lenient(lambda lent, made, behind: lent == made)),
    "last byte not compared": ("held_in", lenient(lambda lent, made, behind: lent == made and not any(behind[:-1]))),
    "next to the entries not compared": ("held_in", lenient(
        lambda lent, made, behind: lent == made and not any(behind[2:]))),
    "no memory refused": ("held_in", trusted),
    "leaves not counted": ("tree_in", lenient_slots(same_but_counts)),
    "children in any order": ("tree_in", lenient_slots(same_as_it_stands)),
    "behind a tree not compared": ("tree_in", lenient_slots(begins_the_slot)),
    "labels of slots not compared": ("set_of", labels_not_compared),
    "labels of a text not compared": ("add", adding((8, 12, 1, 6, 10))),
    "unrooted trees added": ("add", adding((8, 12, 1, 6, 5), read=as_rooted)),
    "text before memory": ("add", adding((8, 1, 12, 6, 10, 5))),
    "memory before length of the text": ("add", adding((12, 8, 1, 6, 10, 5))),
    "full before text": ("add", adding((8, 12, 6, 1, 10, 5))),
    "unrooted before full": ("add", adding((8, 12, 1, 10, 6, 5))),
    "labels before full": ("add", adding((8, 12, 1, 5, 6, 10))),
    "labels before unrooted": ("add", adding((8, 12, 1, 6, 5, 10))),
    "unrooted before what is behind": ("add", adding((8, 12, 1, 6, 10, 5), read=rooted_only)),
    "byte left behind": ("add", adding((8, 12, 1, 6, 10, 5), further=set_last_byte)),
    "number in 8 bits": ("neighbours", asking(lambda number: number % 2 ** 8)),
    "number in 16 bits": ("neighbours", asking(lambda number: number % 2 ** 16)),
    "number in 32 bits": ("neighbours", asking(lambda number: number % 2 ** 32)),
    "number with a sign": ("neighbours", asking(lambda number: number % 2 ** 63)),
    "empty list for a free number": ("neighbours", asking(free=[])),
    "number before memory": ("neighbours", asking(order=(7, 13, 12))),
    "length last": ("neighbours", asking(order=(12, 13, 7))),
    "slot not cleared": ("remove", leaving_slot(lambda slot: slot)),
    "only the root cleared": ("remove", leaving_slot(lambda slot: b"\0" + slot[1:])),
    "root not cleared": ("remove", leaving_slot(lambda slot: slot[:1].ljust(SLOT, b"\0"))),
    "entries not taken out": ("remove", leaving(lambda held, number: entries_in(held))),
    "gaps not closed": ("remove", leaving(gaps_left)),
    "last gap not closed": ("remove", leaving(last_gap_left)),
    "room behind the entries not cleared": ("remove", leaving(end_left)),
    "gaps filled from the end": ("remove", leaving(filled_from_the_end)),
    "first entry not taken out": ("remove", taking_out_but(0)),
    "last entry not taken out": ("remove", taking_out_but(-1)),
    "entries of the number at that place": ("remove", taking_out(
        lambda entry, held, number: entry[1] == place_among(held, number))),
    "entries of the next number": ("remove", taking_out(lambda entry, held, number: entry[1] == number + 1)),
    "entries of the cut": ("remove", taking_out(lambda entry, held, number: entry[2] == number)),
    "entries with the same forests": ("remove", taking_out(
        lambda entry, held, number: entry[0] in index.forests_in(held[number]))),
    "numbers above moved down": ("remove", leaving_trees(moved_down)),
    "last tree moved into the gap": ("remove", leaving_trees(last_moved)),
    "tree at that place removed": ("remove", leaving_trees(without_at_place)),
    "first copy removed": ("remove", leaving_trees(without_first_copy)),
    "all copies removed": ("remove", leaving_trees(without_copies)),
    "nothing removed": ("remove", leaving_trees(lambda held, number: held)),
    "label set kept after the last tree": ("Run", LabelsKept),
    "copy not held": ("remove", removing(refuses=has_copies)),
    "last tree not held": ("remove", removing(refuses=lambda held, number: len(held) == 1)),
    "nothing held where all are": ("remove", removing(refuses=lambda held, number: len(held) == SLOTS)),
    "first number not held": ("remove", removing(refuses=lambda held, number: number == 0)),
    "last number not held": ("remove", removing(refuses=lambda held, number: number == SLOTS - 1)),
    "number above how many are held": ("remove", removing(refuses=lambda held, number: number >= len(held))),
    "free number removed": ("remove", removing(order=(7, 12))),
    "number in 8 bits, removing": ("remove", removing(number_of=lambda number: number % 2 ** 8)),
    "number in 16 bits, removing": ("remove", removing(number_of=lambda number: number % 2 ** 16)),
    "number in 32 bits, removing": ("remove", removing(number_of=lambda number: number % 2 ** 32)),
    "number with a sign, removing": ("remove", removing(number_of=lambda number: number % 2 ** 63)),
    "number before memory, removing": ("remove", removing(order=(7, 13, 12))),
    "length last, removing": ("remove", removing(order=(12, 13, 7))),
    "entries not looked at, removing": ("remove", removing(look=trusted)),
    "entries in any order, removing": ("remove", removing(look=all_but(sorted))),
    "behind the entries not compared, removing": ("remove", removing(
        look=lenient(lambda lent, made, behind: lent == made))),
    "slot cleared before the memory is looked at": ("remove", slot_cleared_first),
}


@contextlib.contextmanager
def slipped(name, function):
    """index.py with a slip.  What sets of slots are is forgotten before and behind
    it; a slot and its forests have no part that a slip could change but for the slot
    itself."""
    caches = [index.set_of, index.memory_of_items] + [index.forests_in] * (name == "tree_in")
    for cache in caches:
        cache.cache_clear()
    with mock.patch.object(index, name, function):
        yield
    for cache in caches:
        cache.cache_clear()


class Slips(unittest.TestCase):
    """A program with one of the slips is found out."""

    def test_slips(self):
        """Some case has another sheet."""
        for slip, (name, function) in SLIPS.items():
            with self.subTest(slip=slip):
                cases = cheap_cases()
                with slipped(name, function):
                    self.assertTrue(any(index_sheet(text) != expected for _, text, expected in cases))

    def test_no_slips(self):
        """What the slips are made of gives the right sheets where nothing is left
        out."""
        right = (
            ("entries_of", sorted_by(None)), ("near", forgetful_near()), ("held_in", all_but(list)),
            ("tree_in", lenient_slots(lambda tree, slot: index.slot_of(tree) == slot)),
            ("add", adding((8, 12, 1, 6, 10, 5))), ("neighbours", asking()), ("remove", removing()),
            ("remove", leaving()), ("remove", taking_out(lambda entry, held, number: entry[1] == number)),
        )
        for name, function in right:
            cases = cheap_cases()[::3]
            with self.subTest(name=name), slipped(name, function):
                for _, text, expected in cases:
                    self.assertEqual(index_sheet(text), expected)


if __name__ == "__main__":
    unittest.main()
