"""What a refused file is told, and what a reader of the sample is warned of."""

from __future__ import annotations

import norbelath

NO_TREES = "there are no trees"
ONLY_TREE_CUT_OFF = "there are no trees; the only one is cut off, without a ; at its end"
GIVEN_TWICE = "this file is given twice"
NOT_UTF8 = "these bytes are not UTF-8"

UNCLOSED_COMMENT = "a comment that is opened here is not closed"
UNCLOSED_QUOTE = "a quoted name that begins here is not closed"
NO_SEMICOLON = "what begins here has no ; at its end"

OUTSIDE_A_BLOCK = "this command is in no block"
BLOCK_UNNAMED = "BEGIN has to be followed by the name of a block and a ;"
END_WITH_MORE = "there is no ; behind the end of this block"
TAXA_SWALLOWED = "there is no ; between this command and the list of taxa"
TREE_SWALLOWED = "there is no ; between this command and a tree"
BLOCK_IN_A_BLOCK = "a block begins before the one above has ended"
SECOND_TAXA = "this file has a second list of taxa"
TREE_IN_ANOTHER_BLOCK = "this tree is not in a TREES block"
LATE_TRANSLATE = "TRANSLATE has to stand once, before the trees of its block"
BAD_TAXA = "a list of taxa has to give names with blanks between them"
BAD_TRANSLATE = "TRANSLATE has to give a token and a name for each taxon, with commas between them"
NO_TREE_NAME = "a tree is written: TREE, its name, = and the tree"

NO_TREE_TEXT = "there is no tree before this ;"
NO_LENGTH = "there is no length behind a colon"
SECOND_LENGTH = "a node has two lengths"
BEHIND_A_LENGTH = "there is something behind a length"
EMPTY_NAME = "a quoted name is empty"
UNNAMED_LEAF = "this tree has a leaf without a name"
BOTH_MARKS = "this tree is marked both [&R] and [&U]"
ROOTED_WITH_THREE = "this tree is marked as rooted and has 3 children at the top; which is meant the file does not say"
UNROOTED_WITH_TWO = "this tree is marked as unrooted and has 2 children at the top; which is meant the file does not say"
UNROOTED_AFTER_ROOTED = "this tree is unrooted, and the first tree is rooted"
ROOTED_AFTER_UNROOTED = "this tree is rooted, and the first tree is unrooted"
TOO_DEEP = f"this tree has more than {norbelath.MAX_DEPTH} brackets; trees have to be binary"

NO_ROW_TREE = "this row has no tree"
SEVERAL_ROW_TREES = "this row has more than one tree"
UNENDED_ROW = "the tree in this row is not whole"

CUT_OFF_TREE = "the last tree is cut off and is left out"


def cannot_be_read(error: OSError) -> str:
    """A file that the system does not give."""
    return f"cannot be read: {error.strerror or error}"


def unknown_command(word: str) -> str:
    """A command of a TREES block that is not one of its commands."""
    return f"{shown(word)} is not a command of a TREES block"


def unexpected(character: str) -> str:
    """A character that cannot stand in a tree outside quotes."""
    return f"{character} cannot stand in a tree outside quotes"


def unreadable_name(name: str) -> str:
    """A quoted name that DendroPy takes for the character itself."""
    return f"{shown(name)} cannot be read as a name"


def control_character(name: str) -> str:
    """A name that would break a line of a table, or a picture."""
    return f"the name {shown(name)} has a tab, a line end or another control character"


def no_tree(reason: str) -> str:
    """A text that DendroPy does not take for a tree."""
    return f"this is no tree: {reason}"


def too_many_taxa(count: int) -> str:
    """A tree with more leaves than there are labels."""
    return f"this tree has {count} taxa; at most {norbelath.MAX_LABEL} are possible"


def taxon_twice(name: str) -> str:
    """A name at two leaves; case does not matter."""
    return f"the taxon {shown(name)} is twice in this tree"


def listed_twice(name: str) -> str:
    """A name or a token that the list of taxa or TRANSLATE has twice."""
    return f"{shown(name)} is listed twice"


def not_listed(name: str) -> str:
    """A name of TRANSLATE that the list of taxa does not have."""
    return f"{shown(name)} is not in the list of taxa"


def lacks_taxon(name: str) -> str:
    """A tree without a taxon of the first one."""
    return f"this tree has no {shown(name)}, which the first tree has"


def new_taxon(name: str) -> str:
    """A tree with a taxon that the first one does not have."""
    return f"this tree has {shown(name)}, which the first tree has not"


def not_binary(children: int, top: bool) -> str:
    """A node with a wrong number of children."""
    place = "the top" if top else "a node below the top"
    return f"this tree has {counted(children, 'child', 'children')} at {place}; trees have to be binary"


def row_columns(cells: int, columns: int) -> str:
    """A row of a table that does not fit its header."""
    return f"this row has {counted(cells, 'column', 'columns')}, and the header has {columns}"


def unmarked(count: int, taxa: int, rooted: bool) -> str:
    """The warning of trees that are not marked."""
    kind = "rooted" if rooted else "unrooted"
    reason = "fewer than three taxa" if taxa < 3 else f"{'two' if rooted else 'three'} children at the top"
    if count == 1:
        return f"1 tree is not marked [&R] or [&U] and taken as {kind}, as it has {reason}"
    return f"{count} trees are not marked [&R] or [&U] and taken as {kind}, as they have {reason}"


def counted(count: int, one: str, many: str) -> str:
    """A number of things."""
    return f"{count} {one if count == 1 else many}"


def shown(name: str) -> str:
    """A name in quotes, on one line and printable, and not the whole of a long one."""
    return repr(name if len(name) <= _SHOWN else name[:_SHOWN] + "...")


_SHOWN = 60
