"""Trees as the tests of the report hold them, by a few lines that share nothing with the report or the library.

A tree is a taxon, or a tuple of trees. A rooted tree of two or more taxa has two at the top; an unrooted one of three or
more has three there, whichever of its forks is taken for the top.
"""
import re

SIGNS = "(),:;"
# As in NEXUS a quote inside a word is a letter of it.
WORD = re.compile(r"[^[(),:;'\s][^[(),:;\s]*")
QUOTED = re.compile(r"'(?:[^']|'')*'")


def taxa(tree):
    """The taxa of a tree, as a frozenset."""
    return frozenset().union(*map(taxa, tree)) if isinstance(tree, tuple) else frozenset((tree,))


def nodes(tree):
    """A tree and all trees below it."""
    yield tree
    if isinstance(tree, tuple):
        for child in tree:
            yield from nodes(child)


def topology(tree, rooted):
    """What two trees have in common exactly when they are the same one: their clades, or how their edges split the taxa."""
    clades = frozenset(map(taxa, nodes(tree)))
    if rooted:
        return clades
    every = taxa(tree)
    return frozenset(frozenset((clade, every - clade)) for clade in clades)


def renamed(tree, names):
    """The tree with each taxon replaced by what `names` has for it."""
    return tuple(renamed(child, names) for child in tree) if isinstance(tree, tuple) else names[tree]


def written(tree):
    """A tree of labels as a node of a tree text."""
    return "(" + ",".join(map(written, tree)) + ")" if isinstance(tree, tuple) else str(tree)


def named(token):
    """The name that a token of a Newick text stands for."""
    return token[1:-1].replace("''", "'") if token.startswith("'") else token.replace("_", " ")


def tokens(text):
    """The signs, words, quoted names and comments of a text. Comments nest."""
    place = 0
    while place < len(text):
        end = behind_token(text, place)
        if not text[place].isspace():
            yield text[place:end]
        place = end


def behind_token(text, place):
    """The place behind the blank or token at a place."""
    if text[place] == "[":
        return behind_comment(text, place)
    if text[place].isspace() or text[place] in SIGNS:
        return place + 1
    found = (QUOTED if text[place] == "'" else WORD).match(text, place)
    if not found:
        raise ValueError(f"{text[place]} is not closed, or never opened")
    return found.end()


def behind_comment(text, place):
    depth = 0
    for end in range(place, len(text)):
        depth += {"[": 1, "]": -1}.get(text[end], 0)
        if depth == 0:
            return end + 1
    raise ValueError("a comment is not closed")


def parse(text):
    """The tree of a Newick text, without lengths and labels of forks. A `ValueError` for any other text."""
    return parse_tokens(tokens(text))


def parse_tokens(found):
    """The tree of the tokens of a Newick text."""
    left = [token for token in found if not token.startswith("[")][::-1]

    def next_is(sign):
        return left and left[-1] == sign

    def is_word():
        return left and left[-1] not in SIGNS

    def take(sign):
        if not next_is(sign):
            raise ValueError(f"{sign} is missing")
        left.pop()

    def fork():
        take("(")
        children = [node()]
        while next_is(","):
            left.pop()
            children.append(node())
        take(")")
        return tuple(children)

    def node():
        tree = fork() if next_is("(") else None
        label = left.pop() if is_word() else None
        if next_is(":"):
            left.pop()
            if not is_word():
                raise ValueError("a length is missing")
            left.pop()
        if tree is None and label is None:
            raise ValueError("a leaf has no name")
        return tree or named(label)

    tree = node()
    take(";")
    if left:
        raise ValueError("something is behind the tree")
    return tree
