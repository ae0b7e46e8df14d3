"""Binary trees, rooted or unrooted, as texts, and which of them are one prune and regraft apart: calls of the proved
library.

A text is a `str` or any bytes-like object. Whatever is in it, a call gives the right answer or raises a `Refusal`, which
has the reason and the place. A character that is not ASCII can stand nowhere in a text, and counts as one place.

A tree with the mark `[&U]` before it is unrooted, and has three children at the top, or two leaves, or one; a tree with
the mark `[&R]` or none is rooted. Every other fork has two children. The trees of a call are of one kind. `cut`,
`interchanges`, `support`, `row`, `plot` and `Index` take rooted trees only, the other calls either kind.

Trees of one topology are copies of each other, however they are written; two copies are never a pair. The first position
of a topology is the smallest position whose tree has it. `graph` and `islands` merge copies: only first positions stand
in pairs. `graph_choosing` can keep copies apart, and `interchanges` and `Index` always do. `support` counts every copy.

The calls may be made from several threads at once, also on one `Index`. A thread that makes them needs 512 KB of stack,
which it has unless `threading.stack_size` was told otherwise.

>>> form("(3,(2,1));")
'((1,2),3);'
>>> form(b"[&U](4,(2,1),3);")
'[&U](1,2,(3,4));'
>>> graph("((1,2),3); (1,(2,3)); (3,(2,1));").pairs
((0, 1),)
>>> form("(1,2")
Traceback (most recent call last):
    ...
norbelath.Refusal: refused 1 at 4: a byte that cannot stand there, or the text ends too soon
"""

from __future__ import annotations

import ctypes
import enum
import itertools
import operator
import os
import threading
from ctypes import POINTER, byref, c_char, c_char_p, c_double, c_size_t, c_uint8, c_uint16, c_uint32, c_uint64, c_void_p
from dataclasses import dataclass
from typing import Any, Callable, Iterable, Optional, Union

__version__ = "1.0.0"

__all__ = [
    "Clade", "Copies", "Fork", "Graph", "Index", "Interchanges", "Islands", "Pair", "Plot", "Reason", "Refusal", "Support",
    "Text", "Tip", "cut", "form", "graph", "graph_choosing", "interchanges", "islands", "labels", "library_file", "pair",
    "plot", "row", "row_pair", "row_text", "sheet", "support", "table",
]

Text = Union[str, bytes, bytearray, memoryview]
"""What the calls take as a text; other bytes-like objects do as well."""

# Limits: bytes of a text, trees of a table or an index, labels, brackets open at once.

MAX_TEXT = 65_535
MAX_TREES = 160
MAX_LABEL = 64
MAX_DEPTH = 63

# The least lengths of the lent slices, in elements.

FORM_OUT = 313
CUT_OUT = 307
TABLE_TEXTS = 50_080
TABLE_ENDS = 160
GRAPH_PAIRS = 25_440
GRAPH_COUNTS = 160
GRAPH_FIRSTS = 160
ISLANDS = 160
SUPPORT_CLADES = 9_921
SUPPORT_TREES = 9_921
SUPPORT_OUT = 309
ROW = 64
ROW_TEXT_OUT = 309
PLOT_ROWS = 127
PLOT_COLUMNS = 127
INDEX_BYTES = 60_640
INDEX_LIST = 160
SHEET_OUT = 221_542


# Refusals


class Reason(enum.IntEnum):
    """Why a call refuses. The place of each is given behind it; those without one have none."""

    WRONG_BYTE = 1
    """A byte that cannot stand there, or the text ends too soon: that byte, or the length."""
    BAD_LABEL = 2
    """A label that is not 1 to 64: its first digit."""
    LABEL_AGAIN = 3
    """A label that is already in this tree: its first digit."""
    TOO_DEEP = 4
    """A bracket that opens while 63 are open: that bracket."""
    LABELS_DIFFER = 5
    """Labels other than those of the first or the held trees: the `;` of the tree that differs, or none of a row."""
    TOO_MANY_TREES = 6
    """Any byte but a blank after 160 trees: that byte; or a tree while an index holds 160, without a place."""
    SHORT_SLICE = 7
    """A lent slice that is too short. Here only the bytes that an `Index` is made from can be."""
    LONG_TEXT = 8
    """A text above 65,535 bytes."""
    NO_SUCH_CUT = 9
    """A cut number that the tree does not have."""
    OTHER_KIND = 10
    """Not of the first tree's kind, or unrooted where only rooted trees are taken: the `;` of the tree."""
    NO_ROW = 11
    """Numbers that are the row of no tree."""
    NO_INDEX = 12
    """Memory that is that of no set of held trees."""
    NOT_HELD = 13
    """A number that no held tree has."""


_WORDS = {
    Reason.WRONG_BYTE: "a byte that cannot stand there, or the text ends too soon",
    Reason.BAD_LABEL: f"a label that is not 1 to {MAX_LABEL}",
    Reason.LABEL_AGAIN: "a label that is already in this tree",
    Reason.TOO_DEEP: f"a bracket that opens while {MAX_DEPTH} are open",
    Reason.LABELS_DIFFER: "labels other than those of the first tree",
    Reason.TOO_MANY_TREES: f"more than {MAX_TREES} trees",
    Reason.SHORT_SLICE: "a lent slice that is too short",
    Reason.LONG_TEXT: f"a text above {MAX_TEXT:,} bytes",
    Reason.NO_SUCH_CUT: "a cut number that the tree does not have",
    Reason.OTHER_KIND: "not of the first tree's kind, or unrooted where only rooted trees are taken",
    Reason.NO_ROW: "numbers that are the row of no tree",
    Reason.NO_INDEX: "memory that is that of no set of held trees",
    Reason.NOT_HELD: "a number that no held tree has",
    None: "a refusal of a later version",
}

_NEVER_PLACED = {
    Reason.SHORT_SLICE, Reason.LONG_TEXT, Reason.NO_SUCH_CUT, Reason.NO_ROW, Reason.NO_INDEX, Reason.NOT_HELD,
}

# Of a text these are never at 0: a tree stands before the place. So 0 means a row, or an index that is full.
_NEVER_AT_0 = {Reason.LABELS_DIFFER, Reason.TOO_MANY_TREES}


class Refusal(ValueError):
    """A call that refuses: the argument has the right type, but a value that breaks a rule, hence a `ValueError`.

    >>> try:
    ...     pair("(1,2);", "(1,1);")
    ... except Refusal as refusal:
    ...     print(refusal)
    ...     print(refusal.number, refusal.text, refusal.place, refusal.reason is Reason.LABEL_AGAIN)
    refused 3 at 3 of the other text: a label that is already in this tree
    3 1 3 True
    """

    number: int
    """The number of the refusal, also one of a later version."""
    reason: Optional[Reason]
    """The reason that the number stands for, or None for one of a later version."""
    text: int
    """Which text or row: 0, or 1 for the other of a pair."""
    place: Optional[int]
    """The place in that text, counted from 0, its length where it ends too soon; None where there is no place."""

    def __init__(self, number: int, text: int = 0, place: Optional[int] = None) -> None:
        """Takes what the library gives. A place of 0 that stands for none becomes None."""
        self.number = number
        self.reason = Reason(number) if number in _WORDS else None
        self.text = text
        has_none = self.reason in _NEVER_PLACED or (self.reason in _NEVER_AT_0 and place == 0)
        self.place = None if has_none else place
        super().__init__(self.number, self.text, self.place)

    def __str__(self) -> str:
        """The number, the place and the reason in words."""
        return f"refused {self.number}{self._where()}: {_WORDS[self.reason]}"

    def _where(self) -> str:
        """The place and which text, as far as there is something to say."""
        if self.place is not None:
            return f" at {self.place}" + (" of the other text" if self.text else "")
        if not self.text:
            return ""
        is_row = self.reason in (Reason.NO_ROW, Reason.LABELS_DIFFER)
        return " in the other row" if is_row else " in the other text"


# Answers


@dataclass(frozen=True)
class Pair:
    """What `pair` and `row_pair` give. It is true where the trees are one move apart."""

    apart: bool
    """Whether one move makes the first tree the second."""
    forests: int
    """How many forests were compared to tell."""

    def __bool__(self) -> bool:
        """Whether the trees are one move apart."""
        return self.apart


@dataclass(frozen=True)
class _Listing:
    """Pairs of positions."""

    pairs: tuple[tuple[int, int], ...]
    """The positions i < j of each pair, in order of i and then j."""
    counts: tuple[int, ...]
    """For each position the number of pairs it is in."""

    def neighbours(self) -> tuple[tuple[int, ...], ...]:
        """For each position those that it is paired with, ascending.

        >>> graph("((1,2),3); (1,(2,3)); ((1,3),2);").neighbours()
        ((1, 2), (0, 2), (0, 1))
        """
        lists: list[list[int]] = [[] for _ in self.counts]
        # The order of the pairs puts the smaller neighbours of a position before the larger ones.
        for i, j in self.pairs:
            lists[i].append(j)
            lists[j].append(i)
        return tuple(map(tuple, lists))


@dataclass(frozen=True)
class Interchanges(_Listing):
    """What `interchanges` gives: the pairs that are one interchange apart, copies kept apart."""


@dataclass(frozen=True)
class Graph(_Listing):
    """What `graph` and `graph_choosing` give: the pairs that are one move apart."""

    firsts: tuple[int, ...]
    """For each position the first position of its topology."""


@dataclass(frozen=True)
class Islands(Graph):
    """What `islands` gives: the graph with copies merged, and the islands."""

    islands: tuple[int, ...]
    """For each position the number of its island, the smallest position in it."""


@dataclass(frozen=True)
class Clade:
    """A clade of two or more labels in `Support`."""

    number: int
    """The clade as a number, with bit L - 1 set for each label L."""
    trees: int
    """How many trees have it."""

    @property
    def labels(self) -> tuple[int, ...]:
        """The labels, ascending."""
        return labels(self.number)


@dataclass(frozen=True)
class Support:
    """What `support` gives."""

    clades: tuple[Clade, ...]
    """Every clade of two or more labels, once, those of more trees first."""
    trees: int
    """How many trees there are."""
    majority: str
    """The text of the majority tree; empty where there are no trees."""


@dataclass(frozen=True)
class Tip:
    """What is drawn for a leaf."""

    row: float
    """The row of the leaf."""


@dataclass(frozen=True)
class Fork:
    """What is drawn for a fork, which joins the rows of its children."""

    row: float
    """The row of the fork."""
    first: float
    """The row of its first child."""
    second: float
    """The row of its second child."""


@dataclass(frozen=True)
class Plot:
    """What `plot` gives, for each node in the order in which they begin in the canonical text.

    Node 0 is the root. Behind a fork stand its first child with all below it, and then its second child with all below.
    """

    rows: tuple[float, ...]
    """The row of each node: leaves have the rows 0, 1, 2 and on, a fork's is half the sum of its children's."""
    columns: tuple[int, ...]
    """The column of each node, the number of forks above it."""

    def drawings(self) -> tuple[Union[Tip, Fork], ...]:
        """What is drawn for each node.

        >>> plot("(1,2);").drawings()
        (Fork(row=0.5, first=0.0, second=1.0), Tip(row=0.0), Tip(row=1.0))
        """
        return tuple(map(self._drawing, range(min(len(self.rows), len(self.columns)))))

    def _drawing(self, node: int) -> Union[Tip, Fork]:
        """What is drawn for one node. A node without two children behind it is a tip, whatever the numbers are."""
        row_, above = self.rows[node], self.columns[node]
        behind = zip(self.rows[node + 1:], self.columns[node + 1:])
        below = itertools.takewhile(lambda placed: placed[1] > above, behind)
        children = [child for child, column in below if column == above + 1]
        return Fork(row_, *children[:2]) if len(children) > 1 else Tip(row_)


class Copies(enum.Enum):
    """What `graph_choosing` does with copies, the trees of one topology."""

    MERGE = 0
    """Only the first position of each topology stands in pairs. A later copy has count 0."""
    KEEP_APART = 1
    """Every position may stand in pairs. A copy has the neighbours and the count of its first."""


# The library

_TEXT = (c_char_p, c_size_t)
_BYTES = (POINTER(c_char), c_size_t)
_NUMBERS_16 = (POINTER(c_uint16), c_size_t)
_NUMBERS_32 = (POINTER(c_uint32), c_size_t)
_NUMBERS_64 = (POINTER(c_uint64), c_size_t)
_FLOATS = (POINTER(c_double), c_size_t)
_TWO = (POINTER(c_uint64), POINTER(c_uint64))
_THREE = (POINTER(c_uint64), POINTER(c_uint64), POINTER(c_uint64))
_GRAPH = (*_NUMBERS_16, *_NUMBERS_16, *_NUMBERS_16)

_ARGUMENTS: dict[str, tuple[Any, ...]] = {
    "form": (*_TEXT, *_BYTES, *_TWO),
    "cut": (*_TEXT, c_uint64, *_BYTES, *_TWO),
    "pair": (*_TEXT, *_TEXT, *_TWO),
    "table": (*_TEXT, *_BYTES, *_NUMBERS_32, *_TWO),
    "graph": (*_TEXT, *_GRAPH, *_TWO),
    "graph_choosing": (*_TEXT, c_uint8, *_GRAPH, *_TWO),
    "interchanges": (*_TEXT, *_NUMBERS_16, *_NUMBERS_16, *_TWO),
    "islands": (*_TEXT, *_GRAPH, *_NUMBERS_16, *_TWO),
    "support": (*_TEXT, *_NUMBERS_64, *_NUMBERS_16, *_BYTES, *_THREE),
    "row": (*_TEXT, *_NUMBERS_64, *_TWO),
    "row_text": (*_NUMBERS_64, *_BYTES, *_TWO),
    "row_pair": (*_NUMBERS_64, *_NUMBERS_64, *_TWO),
    "plot": (*_TEXT, *_FLOATS, *_NUMBERS_16, *_TWO),
    "index_add": (*_BYTES, *_TEXT, *_TWO),
    "index_neighbours": (*_BYTES, c_size_t, *_NUMBERS_16, *_TWO),
    "index_remove": (*_BYTES, c_size_t, *_TWO),
    "sheet": (*_TEXT, *_BYTES, *_TWO),
}

_Call = Callable[..., int]

_VARIABLE = "NORBELATH_LIBRARY"
_LIBRARY = "libnorbelath.so.1"
_UNVERSIONED = "libnorbelath.so"


def _calls_in(library: str) -> dict[str, _Call]:
    """Loads a library. Gives its calls by name, with the types of C."""
    loaded = ctypes.CDLL(library)
    calls: dict[str, _Call] = {}
    for name, arguments in _ARGUMENTS.items():
        call = getattr(loaded, "norbelath_" + name)
        call.argtypes = arguments
        call.restype = c_uint8
        calls[name] = call
    return calls


def _candidates() -> list[str]:
    """The libraries to be tried, in order. The last is left to the system's loader."""
    named = os.environ.get(_VARIABLE)
    if named is not None:
        # The absolute path is that of a file; a bare name would be searched for.
        return [os.path.abspath(named)]
    here = os.path.dirname(os.path.abspath(__file__))
    folders = [here, os.path.join(os.path.dirname(here), "lib")]
    return [os.path.join(folder, name) for folder in folders for name in (_LIBRARY, _UNVERSIONED)] + [_LIBRARY]


def _loaded() -> dict[str, _Call]:
    """The calls of the first library that can be loaded."""
    failures = []
    for library in _candidates():
        try:
            return _calls_in(library)
        except (OSError, AttributeError) as failure:
            # The words of the loader begin with the library's name.
            failures.append(f"  {failure}")
    raise ImportError("\n".join([
        "the shared library of Norbelath cannot be loaded; tried were",
        *failures,
        f"`tools/native.sh norbelath FOLDER/{_LIBRARY}` makes it; {_VARIABLE} may name its file",
    ]))


_CALLS = _loaded()


class _Origin(ctypes.Structure):
    """What the system's loader tells of an address: `Dl_info` of C."""

    _fields_ = [("file", c_char_p), ("base", c_void_p), ("symbol", c_char_p), ("address", c_void_p)]


def library_file() -> str:
    """The path of the shared library that answers the calls, for programs that say by which one they were made."""
    origin = _Origin()
    if not ctypes.CDLL(None).dladdr(ctypes.cast(_CALLS["form"], c_void_p), byref(origin)):
        raise OSError("the system's loader does not tell the file of the shared library")
    return os.path.abspath(os.fsdecode(origin.file))


def _answer(name: str, *arguments: Any, further: tuple[Any, ...] = ()) -> tuple[int, int]:
    """Makes a call and gives its two numbers. `further` is what the call is lent behind them."""
    first, second = c_uint64(), c_uint64()
    result = _CALLS[name](*arguments, byref(first), byref(second), *further)
    if result:
        raise Refusal(result, first.value, second.value)
    return first.value, second.value


# What is given to the library. No pointer is NULL: bytes have one also where they are empty, and so has an array.


def _read(text: Text) -> tuple[bytes, int]:
    """A text as bytes, and its length. They are a copy where the given ones could change during the call."""
    if isinstance(text, str):
        # Each character that is not ASCII becomes a `?`, which can stand nowhere either.
        read = text.encode("ascii", "replace")
    elif isinstance(text, bytes):
        read = text
    else:
        read = memoryview(text).tobytes()
    return read, len(read)


def _whole(number: int, kind: str) -> int:
    """A number that is whole and not negative. A bool is none: where one is given, something else was meant."""
    if isinstance(number, bool):
        raise TypeError(f"a {kind} is not a bool")
    whole = operator.index(number)
    if whole < 0:
        raise ValueError(f"a {kind} is 0 or more, not {whole}")
    return whole


# No tree has so many cuts, and no index so many trees; a larger number is refused as this one.
_ABOVE_ALL = 2 ** 32 - 1


def _held_down(number: int, kind: str) -> int:
    """A number that C can hold and that is accepted or refused as the given one."""
    return min(_whole(number, kind), _ABOVE_ALL)


def _read_row(numbers: Iterable[int]) -> tuple[Any, int]:
    """A row as an array, and its length. A number above 64 bits is in no row; nor is 0, which takes its place."""
    wholes = [_whole(number, "number of a row") for number in numbers]
    fitting = [whole if whole < 2 ** MAX_LABEL else 0 for whole in wholes]
    return (c_uint64 * len(fitting))(*fitting), len(fitting)


def _written(out: Any, length: int) -> str:
    """The text that a call wrote."""
    return out[:length].decode("ascii")


# The calls


def form(text: Text) -> str:
    """The canonical text of a text's one tree, with the mark of an unrooted one.

    Two trees have the same canonical text exactly when they have the same topology.
    """
    out = (c_char * FORM_OUT)()
    length, _ = _answer("form", *_read(text), out, FORM_OUT)
    return _written(out, length)


def cut(text: Text, number: int) -> str:
    """The forest text of a cut of a text's one tree, a rooted one: what the cut leaves, a space, what it takes away, `;`.

    A tree of n leaves has the cuts 0 to 2n - 3, in the order in which its nodes begin in the canonical text, without the
    root. A larger number is refused; a negative one is a `ValueError`.

    >>> cut("((1,2),(3,4));", 0)
    '(3,4) (1,2);'
    """
    out = (c_char * CUT_OUT)()
    length, _ = _answer("cut", *_read(text), _held_down(number, "cut number"), out, CUT_OUT)
    return _written(out, length)


def pair(text: Text, other: Text) -> Pair:
    """Whether one move makes the tree of `text` that of `other`, and how many forests were compared to tell.

    One move of a rooted tree takes the subtree at a node away and hangs it on an edge of the rest, or above its root. One
    move of an unrooted tree cuts an edge and joins one side, by its cut end, to an edge of the other; either side may be
    the one that is moved.

    For the number of forests the cuts of `text`'s tree are gone through in order, up to and including the first one whose
    forest the other tree shares, or all of them if there is none. A cut counts one where the other tree has a node below
    its root with the clade of the pruned node, and else nothing. The number is 0 for trees of equal topology, and for
    unrooted trees.

    >>> pair("(((1,2),3),4);", "(((1,4),2),3);")
    Pair(apart=True, forests=4)
    """
    yes, forests = _answer("pair", *_read(text), *_read(other))
    return Pair(yes == 1, forests)


def table(text: Text) -> tuple[str, ...]:
    """The canonical texts of a text's trees.

    >>> table("(2,1); (1,2);")
    ('(1,2);', '(1,2);')
    """
    texts, ends = (c_char * TABLE_TEXTS)(), (c_uint32 * TABLE_ENDS)()
    length, trees = _answer("table", *_read(text), texts, TABLE_TEXTS, ends, TABLE_ENDS)
    whole = _written(texts, length)
    ended = ends[:trees]
    return tuple(whole[start:end] for start, end in zip([0, *ended], ended))


def _pairs_in(numbers: list[int]) -> tuple[tuple[int, int], ...]:
    """Numbers taken two by two."""
    return tuple(zip(numbers[::2], numbers[1::2]))


def _graph_by(name: str, *arguments: Any) -> Graph:
    """The graph that a call writes, given what it reads."""
    pairs, counts, firsts = (c_uint16 * GRAPH_PAIRS)(), (c_uint16 * GRAPH_COUNTS)(), (c_uint16 * GRAPH_FIRSTS)()
    trees, listed = _answer(name, *arguments, pairs, GRAPH_PAIRS, counts, GRAPH_COUNTS, firsts, GRAPH_FIRSTS)
    return Graph(_pairs_in(pairs[:2 * listed]), tuple(counts[:trees]), tuple(firsts[:trees]))


def graph(text: Text) -> Graph:
    """The pairs of a text's trees that are one move apart, copies merged: only first positions stand in pairs.

    >>> graph("((1,2),3); (1,(2,3)); (3,(2,1));")
    Graph(pairs=((0, 1),), counts=(1, 1, 0), firsts=(0, 1, 0))
    """
    return _graph_by("graph", *_read(text))


def graph_choosing(text: Text, copies: Copies) -> Graph:
    """What `graph` gives, with copies merged or kept apart. The firsts are the same either way.

    >>> graph_choosing("((1,2),3); (1,(2,3)); (3,(2,1));", Copies.KEEP_APART)
    Graph(pairs=((0, 1), (1, 2)), counts=(1, 2, 1), firsts=(0, 1, 0))
    """
    if not isinstance(copies, Copies):
        raise TypeError("the choice is Copies.MERGE or Copies.KEEP_APART")
    return _graph_by("graph_choosing", *_read(text), copies.value)


def interchanges(text: Text) -> Interchanges:
    """The pairs of a text's rooted trees that are one nearest-neighbour interchange apart, copies kept apart.

    An interchange takes a node that is neither the root nor a child of the root and regrafts it on the edge above its
    aunt, the sibling of its parent.

    >>> interchanges("(((1,2),3),4); ((1,2),(3,4)); (((1,4),2),3);").pairs
    ((0, 1),)
    """
    pairs, counts = (c_uint16 * GRAPH_PAIRS)(), (c_uint16 * GRAPH_COUNTS)()
    trees, listed = _answer("interchanges", *_read(text), pairs, GRAPH_PAIRS, counts, GRAPH_COUNTS)
    return Interchanges(_pairs_in(pairs[:2 * listed]), tuple(counts[:trees]))


def islands(text: Text) -> Islands:
    """What `graph` gives, and the number of each tree's island.

    An island is a group of first positions that chains of the pairs join, with their copies. Its number is the smallest
    position in it.

    >>> islands("(((1,2),3),4); (1,(2,(3,4))); (((1,3),2),4); ((2,(4,3)),1);").islands
    (0, 1, 0, 1)
    """
    pairs, counts, firsts = (c_uint16 * GRAPH_PAIRS)(), (c_uint16 * GRAPH_COUNTS)(), (c_uint16 * GRAPH_FIRSTS)()
    numbers = (c_uint16 * ISLANDS)()
    trees, listed = _answer("islands", *_read(text), pairs, GRAPH_PAIRS, counts, GRAPH_COUNTS, firsts, GRAPH_FIRSTS,
                            numbers, ISLANDS)
    return Islands(_pairs_in(pairs[:2 * listed]), tuple(counts[:trees]), tuple(firsts[:trees]), tuple(numbers[:trees]))


def support(text: Text) -> Support:
    """Every clade of two or more labels of a text's rooted trees, and the majority tree. Copies are counted.

    Clades of more trees come first; of as many, the labels are compared from the smallest on, and a clade whose labels
    end first is the lesser: {1,2}, {1,2,3}, {1,3}, {2,3}. The clades of the majority tree are those of more than half of
    the trees, each label alone and all labels. A node of it may have more than two children, which stand in the order of
    their smallest labels.

    >>> answer = support("((1,2),3); (1,(2,3)); (3,(2,1));")
    >>> [(clade.labels, clade.trees) for clade in answer.clades]
    [((1, 2, 3), 3), ((1, 2), 2), ((2, 3), 1)]
    >>> answer.majority
    '((1,2),3);'
    """
    clades, trees, out = (c_uint64 * SUPPORT_CLADES)(), (c_uint16 * SUPPORT_TREES)(), (c_char * SUPPORT_OUT)()
    third = c_uint64()
    listed, length = _answer("support", *_read(text), clades, SUPPORT_CLADES, trees, SUPPORT_TREES, out, SUPPORT_OUT,
                             further=(byref(third),))
    return Support(tuple(map(Clade, clades[:listed], trees[:listed])), third.value, _written(out, length))


def labels(number: int) -> tuple[int, ...]:
    """The labels of a clade or a label set that is given as a number, as in a row: ascending, L for bit L - 1.

    >>> labels(0b110)
    (2, 3)
    """
    whole = _whole(number, "clade")
    if whole >= 2 ** MAX_LABEL:
        raise ValueError(f"a clade has no labels above {MAX_LABEL}")
    return tuple(label for label in range(1, MAX_LABEL + 1) if whole >> (label - 1) & 1)


def row(text: Text) -> tuple[int, ...]:
    """The row of a text's one tree, a rooted one: its label set, then its clades of two or more labels in ascending order.

    They are as many numbers as the tree has leaves, with bit L - 1 set for each label L. Two trees have the same row
    exactly when they have the same topology.

    >>> row("(1,(3,2));")
    (7, 6, 7)
    """
    numbers = (c_uint64 * ROW)()
    length, _ = _answer("row", *_read(text), numbers, ROW)
    return tuple(numbers[:length])


def row_text(numbers: Iterable[int]) -> str:
    """The canonical text of the tree of a row.

    >>> row_text([0b111, 0b110, 0b111])
    '(1,(2,3));'
    """
    out = (c_char * ROW_TEXT_OUT)()
    length, _ = _answer("row_text", *_read_row(numbers), out, ROW_TEXT_OUT)
    return _written(out, length)


def row_pair(numbers: Iterable[int], other: Iterable[int]) -> Pair:
    """What `pair` gives for the trees of two rows.

    Numbers that are the row of no tree are refused first, `numbers` before `other`, and then other labels are.

    >>> row_pair([0b111, 0b110, 0b111], [0b111, 0b011, 0b111])
    Pair(apart=True, forests=1)
    """
    yes, forests = _answer("row_pair", *_read_row(numbers), *_read_row(other))
    return Pair(yes == 1, forests)


def plot(text: Text) -> Plot:
    """The row and the column of every node of a text's one tree, a rooted one.

    A fork's row is worked out as one sum and one product with 0.5. Each row is within 2 ** -42 of the exact one, which is
    a whole number over 2 ** 63. A tree of n leaves has 2n - 1 nodes.

    >>> plot("(3,(2,1));")
    Plot(rows=(1.25, 0.5, 0.0, 1.0, 2.0), columns=(0, 1, 2, 2, 1))
    """
    rows, columns = (c_double * PLOT_ROWS)(), (c_uint16 * PLOT_COLUMNS)()
    nodes, _ = _answer("plot", *_read(text), rows, PLOT_ROWS, columns, PLOT_COLUMNS)
    return Plot(tuple(rows[:nodes]), tuple(columns[:nodes]))


def sheet(text: Text) -> str:
    """What the pair lister prints for a text: the sheet of its trees, or the line of its refusal. It never refuses.

    >>> print(sheet("(1,2);"), end="")
    trees 1 pairs 0
    tree 0 neighbours 0 unlinked 0 (1,2);
    >>> sheet("(1,2")
    'refused 1 at 4\\n'
    """
    out = (c_char * SHEET_OUT)()
    length, _ = _answer("sheet", *_read(text), out, SHEET_OUT)
    return _written(out, length)


class Index:
    """Up to 160 rooted trees of one label set that arrive singly, each under a number, and which of them are neighbours.

    It is 60,640 bytes, and one set of held trees has one memory. So two indices are equal exactly when they hold the same
    topologies under the same numbers, and `bytes(index)` and `Index.from_bytes` store one. It can be copied and pickled.

    >>> index = Index()
    >>> [index.add(tree) for tree in ("((1,2),3);", "((1,3),2);", "(3,(2,1));")]
    [0, 1, 2]
    >>> index.neighbours(1)
    (0, 2)
    >>> Index.from_bytes(bytes(index)) == index
    True
    >>> index.remove(0)
    >>> index.neighbours(1)
    (2,)
    """

    def __init__(self) -> None:
        """The empty index."""
        self._memory = (c_char * INDEX_BYTES)()
        # The library works on the memory without the interpreter's lock.
        self._lock = threading.RLock()

    @classmethod
    def from_bytes(cls, data: Union[bytes, bytearray, memoryview]) -> Index:
        """The index in these bytes, of which 60,640 are copied.

        They are not looked at: where they are too few, or those of no set of held trees, each call refuses.
        """
        copied = memoryview(data).tobytes()[:INDEX_BYTES]
        index = cls()
        index._memory = (c_char * len(copied)).from_buffer_copy(copied)
        return index

    def __bytes__(self) -> bytes:
        """The bytes of the index."""
        with self._lock:
            return self._memory.raw

    def __eq__(self, other: object) -> bool:
        """Whether the same topologies are held under the same numbers."""
        return bytes(self) == bytes(other) if isinstance(other, Index) else NotImplemented

    __hash__ = None  # type: ignore[assignment]

    def __reduce__(self) -> tuple[Any, ...]:
        """The bytes are all that is copied or stored."""
        return type(self).from_bytes, (bytes(self),)

    def add(self, text: Text) -> int:
        """Adds a text's one tree, a rooted one. Gives its number, the smallest that no held tree has.

        Refused are, in this order, too long a text, bytes that are those of no set of held trees, a text as by `form`, any
        tree while 160 are held, an unrooted one, and labels other than those of the held trees.
        """
        read = _read(text)
        with self._lock:
            number, _ = _answer("index_add", self._memory, len(self._memory), *read)
        return number

    def neighbours(self, number: int) -> tuple[int, ...]:
        """The numbers of the held trees that are one move apart from the tree with this number, ascending."""
        list_ = (c_uint16 * INDEX_LIST)()
        held_down = _held_down(number, "number of a tree")
        with self._lock:
            length, _ = _answer("index_neighbours", self._memory, len(self._memory), held_down, list_, INDEX_LIST)
        return tuple(list_[:length])

    def remove(self, number: int) -> None:
        """Removes the tree with this number, which is free then; the other trees keep theirs.

        Without its last tree the index is the empty one, and takes a tree of any labels next.
        """
        held_down = _held_down(number, "number of a tree")
        with self._lock:
            _answer("index_remove", self._memory, len(self._memory), held_down)
