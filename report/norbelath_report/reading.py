"""Samplers' files to a sample. DendroPy reads each tree; only a last tree that is cut off is left out."""

from __future__ import annotations

import hashlib
import os
import re
from typing import Callable, Iterator, Optional, Sequence

import dendropy
import norbelath

from . import words
from .dialects import Naming, Trees, Written, folded
from .errors import Refused
from .model import Sample, Source, Visit
from .scanner import invalid_line, name_trouble

Progress = Callable[[int, int], None]
"""Is told how many bytes are read, and how many there are."""

_BETWEEN_CALLS = 1 << 16
_LABEL = re.compile("[1-9][0-9]?")


def read(paths: Sequence[str], progress: Optional[Progress] = None) -> Sample:
    """The sample of the files, in the order in which they are given. `progress` is called now and then."""
    sizes = _sizes(paths)
    everything = sum(sizes)
    reader = _Reader()
    for number, path in enumerate(paths):
        before = sum(sizes[:number])
        for place in reader.read_file(path):
            if progress and everything:
                progress(min(before + place, everything), everything)
    return reader.sample()


def _sizes(paths: Sequence[str]) -> list[int]:
    """How many bytes each file has. A file that is given twice is refused."""
    sizes = []
    resolved = set()
    for path in paths:
        if os.path.realpath(path) in resolved:
            raise Refused(path, None, words.GIVEN_TWICE)
        resolved.add(os.path.realpath(path))
        try:
            sizes.append(os.stat(path).st_size)
        except OSError as error:
            raise Refused(path, None, words.cannot_be_read(error)) from None
    return sizes


def _bytes(path: str) -> bytes:
    """What is in a file, which has to be UTF-8."""
    try:
        with open(path, "rb") as file:
            data = file.read()
    except OSError as error:
        raise Refused(path, None, words.cannot_be_read(error)) from None
    line = invalid_line(data)
    if line is not None:
        raise Refused(path, line, words.NOT_UTF8)
    return data


class _Wrong(Exception):
    """Why a tree is refused."""


class _Reader:
    """The sample as far as it is read."""

    def __init__(self) -> None:
        self._rooted = True
        self._names: dict[int, str] = {}
        self._labels: dict[str, int] = {}
        self._sources: list[Source] = []
        self._visits: list[Visit] = []
        self._texts: dict[str, str] = {}
        self._unmarked = 0
        self._warnings: list[str] = []

    def read_file(self, path: str) -> Iterator[int]:
        """Reads a file, and gives now and then the place up to which it is read."""
        data = _bytes(path)
        trees = Trees(path, data)
        block: Optional[_Block] = None
        before = len(self._visits)
        told = 0
        for written in trees:
            if block is None or block.naming is not written.naming:
                block = _Block(written.naming)
            try:
                self._add(written, block)
            except _Wrong as wrong:
                raise Refused(path, written.line, str(wrong)) from None
            if written.end >= told + _BETWEEN_CALLS:
                told = written.end
                yield told
        self._add_source(path, data, len(self._visits) - before, trees.cut_off)
        yield len(data)

    def sample(self) -> Sample:
        """The sample of what was read."""
        warnings = list(self._warnings)
        if self._unmarked:
            warnings.append(words.unmarked(self._unmarked, len(self._names), self._rooted))
        return Sample(self._rooted, self._names, tuple(self._sources), tuple(self._visits), tuple(warnings))

    def _add(self, written: Written, block: _Block) -> None:
        """Adds a tree."""
        tree = _tree(written.text)
        rooted = _is_rooted(tree, written)
        if not self._names:
            self._rooted = rooted
            self._give_labels(block.names(tree), written.naming.order)
        if rooted != self._rooted:
            raise _Wrong(words.UNROOTED_AFTER_ROOTED if self._rooted else words.ROOTED_AFTER_UNROOTED)
        text = block.text(tree, self._labels, self._names)
        canonical = norbelath.form(text if rooted else f"[&U]{text}")
        canonical = self._texts.setdefault(canonical, canonical)
        self._unmarked += written.rooted is None
        self._visits.append(Visit(len(self._sources), written.line, written.generation, canonical))

    def _add_source(self, path: str, data: bytes, trees: int, cut_off: Optional[int]) -> None:
        """Adds a file of which all trees were read."""
        name = os.path.basename(path)
        if trees == 0:
            raise Refused(path, cut_off, words.NO_TREES if cut_off is None else words.ONLY_TREE_CUT_OFF)
        if cut_off is not None:
            self._warnings.append(f"{name}:{cut_off}: {words.CUT_OFF_TREE}")
        self._sources.append(Source(name, hashlib.sha256(data).hexdigest(), trees))

    def _give_labels(self, names: list[str], order: Sequence[str]) -> None:
        """Gives the taxa of the first tree their labels. `order` is the file's own list of names, if it has one."""
        taxa = {folded(name): name for name in reversed(names)}
        listed = [folded(name) for name in order if folded(name) in taxa]
        if not listed and all(_LABEL.fullmatch(name) and int(name) <= norbelath.MAX_LABEL for name in names):
            self._labels = {name: int(name) for name in sorted(names, key=int)}
        else:
            ordered = dict.fromkeys([*listed, *map(folded, sorted(names))])
            self._labels = {name: label for label, name in enumerate(ordered, 1)}
        self._names = {label: taxa[name] for name, label in self._labels.items()}


class _Block:
    """The trees of a block. Within one, a token stands for the same taxon in every tree."""

    def __init__(self, naming: Naming) -> None:
        self.naming = naming
        self._labels: dict[Optional[str], int] = {}

    def names(self, tree: dendropy.Tree) -> list[str]:
        """The names at the leaves of a tree."""
        return [self._name(leaf) for leaf in tree.leaf_node_iter()]

    def text(self, tree: dendropy.Tree, labels: dict[str, int], names: dict[int, str]) -> str:
        """The text of a tree with labels. `labels` has the label of each name that is folded."""
        seen: set[int] = set()

        def written(node: dendropy.Node) -> str:
            if not node.is_leaf():
                return "(" + ",".join(map(written, node.child_node_iter())) + ")"
            label = self._label(node, labels)
            if label in seen:
                raise _Wrong(words.taxon_twice(names[label]))
            seen.add(label)
            return str(label)

        text = written(tree.seed_node) + ";"
        for label, name in names.items():
            if label not in seen:
                raise _Wrong(words.lacks_taxon(name))
        return text

    def _label(self, leaf: dendropy.Node, labels: dict[str, int]) -> int:
        """The label of a leaf."""
        known = self._labels.get(leaf.label)
        if known is not None:
            return known
        name = self._name(leaf)
        label = labels.get(folded(name))
        if label is None:
            raise _Wrong(words.new_taxon(name))
        self._labels[leaf.label] = label
        return label

    def _name(self, leaf: dendropy.Node) -> str:
        """The name at a leaf."""
        if leaf.label is None:
            raise _Wrong(words.UNNAMED_LEAF)
        name = self.naming.name(leaf.label)
        if trouble := name_trouble(name):
            raise _Wrong(trouble)
        return name


def _tree(text: str) -> dendropy.Tree:
    """The tree of a text, as DendroPy reads it. Lengths are read only so that a wrong one is refused.

    What is at leaves stays a label: DendroPy's rules for names merge too many.
    """
    try:
        return dendropy.Tree.get(
            data=text, schema="newick", rooting=None, extract_comment_metadata=False, suppress_leaf_node_taxa=True)
    except Exception as error:
        raise _Wrong(words.no_tree(getattr(error, "message", None) or str(error))) from None


def _is_rooted(tree: dendropy.Tree, written: Written) -> bool:
    """Whether a tree is rooted. One that is not binary is refused."""
    top = tree.seed_node.num_child_nodes()
    if top not in (0, 2, 3):
        raise _Wrong(words.not_binary(top, True))
    for node in tree.preorder_internal_node_iter(exclude_seed_node=True):
        if node.num_child_nodes() != 2:
            raise _Wrong(words.not_binary(node.num_child_nodes(), False))
    if written.leaves < 3:
        return written.rooted is not False
    if written.rooted and top == 3:
        raise _Wrong(words.ROOTED_WITH_THREE)
    if written.rooted is False and top == 2:
        raise _Wrong(words.UNROOTED_WITH_TWO)
    return top == 2
