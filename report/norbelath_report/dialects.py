"""The trees of a file as it writes them: NEXUS (MrBayes, BEAST 1 and 2, PAUP), Newick, and the tables of RevBayes."""

from __future__ import annotations

import io
import re
from dataclasses import dataclass, replace
from typing import Iterator, Optional

import norbelath
from dendropy.dataio.nexusprocessing import NexusTokenizer

from . import words
from .errors import Refused
from .scanner import BLANKS, DELIMITERS, Command, Lines, Rest, Scanner, comment_end, name_trouble

_BOM = b"\xef\xbb\xbf"
_LINE = re.compile(rb"[^\r\n]+")


def folded(name: str) -> str:
    """What is equal for two names that differ only by case. DendroPy compares names in this way."""
    return name.lower()


class Naming:
    """What the tokens at leaves stand for, by the rules of NEXUS: TRANSLATE, a name, a number in the list of taxa."""

    def __init__(self, taxa: tuple[str, ...] = (), translated: tuple[tuple[str, str], ...] = ()) -> None:
        """`taxa` are the names of the list of taxa, `translated` the tokens and names of TRANSLATE."""
        self.order = tuple(name for _, name in translated) or taxa
        self._names = {str(number): name for number, name in enumerate(taxa, 1)}
        self._names.update((folded(name), name) for name in taxa)
        self._names.update((folded(token), name) for token, name in translated)

    def name(self, token: str) -> str:
        """The name of the taxon that a token stands for."""
        return self._names.get(folded(token), token)


@dataclass(frozen=True)
class Written:
    """A tree as a file writes it."""

    line: int
    end: int
    """The place in the file behind it."""
    generation: str
    rooted: Optional[bool]
    """What the file says of it, if it does."""
    text: str
    """It in Newick, without comments, with its `;`."""
    leaves: int
    naming: Naming


class Trees:
    """The trees of a file in order. When all are given, `cut_off` is the line of one at the end that is left out."""

    def __init__(self, file: str, data: bytes) -> None:
        """`file` is the name as it was given, and `data` what is in it, which is UTF-8."""
        self._file = file
        self._data = data
        self.cut_off: Optional[int] = None

    def __iter__(self) -> Iterator[Written]:
        """Each tree in order."""
        start = len(_BOM) if self._data.startswith(_BOM) else 0
        behind_nexus = _behind_nexus(self._data, start)
        if behind_nexus is not None:
            return self._nexus(Scanner(self._data, behind_nexus))
        header = _table_header(self._data, start)
        if header is not None:
            return self._table(header)
        return self._newick(Scanner(self._data, start))

    def _refused(self, line: int, reason: str) -> Refused:
        """The refusal of what is on a line."""
        return Refused(self._file, line, reason)

    def _tree(self, command: Command, start: int, rooted: Optional[bool], generation: str, naming: Naming) -> Written:
        """The tree that begins at a place of a command's text. `rooted` is what the command says where no mark does."""
        bare = command.bare[start:] + b";"
        marks = {mark for place, mark in command.marks if place <= start}
        trouble = command.trouble or _tree_trouble(bare) or (words.BOTH_MARKS if len(marks) == 2 else None)
        if trouble:
            raise self._refused(command.line, trouble)
        text = command.text[start:].decode() + ";"
        rooted = marks.pop() if marks else rooted
        return Written(command.line, command.end, generation, rooted, text, bare.count(b",") + 1, naming)

    def _end_in(self, rest: Rest) -> None:
        """A tree that begins on the last line and has no `;` is cut off; anything else without a `;` is refused."""
        last = Lines(self._data).at(len(self._data.rstrip(BLANKS)) - 1)
        if rest.line < last or rest.swallowed:
            raise self._refused(rest.opened or rest.line, rest.words)
        self.cut_off = rest.line

    # Newick

    def _newick(self, scanner: Scanner) -> Iterator[Written]:
        """The trees of a Newick file: each command is one."""
        naming = Naming()
        for command in scanner:
            yield self._tree(command, 0, None, "", naming)
        if scanner.rest:
            self._end_in(scanner.rest)

    # NEXUS

    def _nexus(self, scanner: Scanner) -> Iterator[Written]:
        """The trees of a NEXUS file: those of its TREES blocks."""
        block: Optional[str] = None
        taxa: tuple[str, ...] = ()
        naming: Optional[Naming] = None
        for command in scanner:
            if not command.text:
                continue
            word, behind = _first_word(command.text)
            if word == "BEGIN":
                if block is not None:
                    raise self._refused(command.line, words.BLOCK_IN_A_BLOCK)
                block, naming = self._block_name(command, behind), None
            elif block is None:
                raise self._refused(command.line, words.OUTSIDE_A_BLOCK)
            elif word in _ENDS:
                if behind.strip(BLANKS):
                    raise self._refused(command.line, words.END_WITH_MORE)
                block = None
            elif block != "TREES":
                taxa = self._other_command(block, word, command, behind, taxa)
            elif word in _TREE_WORDS:
                naming = naming or Naming(taxa)
                yield self._nexus_tree(command, word, naming)
            elif word == "TRANSLATE":
                if naming is not None:
                    raise self._refused(command.line, words.LATE_TRANSLATE)
                naming = Naming(taxa, self._translated(command, behind, taxa))
            elif word not in _WITHOUT_TREES:
                raise self._refused(command.line, words.unknown_command(word))
            elif _TREE_INSIDE.search(command.bare):
                raise self._refused(command.line, words.TREE_SWALLOWED)
        rest = scanner.rest
        if rest and not _is_end(rest):
            if block != "TREES":
                raise self._refused(rest.opened or rest.line, rest.words)
            self._end_in(rest)

    def _block_name(self, command: Command, behind: bytes) -> str:
        """The name of the block that a BEGIN command begins, in capitals."""
        name, more = _first_word(behind)
        if not name or more.strip(BLANKS):
            raise self._refused(command.line, words.BLOCK_UNNAMED)
        return name

    def _other_command(
            self, block: str, word: str, command: Command, behind: bytes, taxa: tuple[str, ...]) -> tuple[str, ...]:
        """The list of taxa after a command of a block that is not for trees."""
        if word in _TREE_WORDS and _TREE.match(command.text):
            raise self._refused(command.line, words.TREE_IN_ANOTHER_BLOCK)
        if block != "TAXA":
            return taxa
        if word != "TAXLABELS":
            if _TAXA_INSIDE.search(command.bare):
                raise self._refused(command.line, words.TAXA_SWALLOWED)
            return taxa
        if taxa:
            raise self._refused(command.line, words.SECOND_TAXA)
        return self._listed(command, behind)

    def _nexus_tree(self, command: Command, word: str, naming: Naming) -> Written:
        """The tree of a TREE or UTREE command."""
        found = _TREE.match(command.text)
        if not found:
            raise self._refused(command.line, words.NO_TREE_NAME)
        generation = _GENERATION.fullmatch(found[1])
        digits = generation[1].decode() if generation else ""
        return self._tree(command, found.end(), False if word == "UTREE" else None, digits, naming)

    def _listed(self, command: Command, behind: bytes) -> tuple[str, ...]:
        """The names of a TAXLABELS command."""
        tokens = _tokens(behind)
        if any(token in DELIMITERS and not quoted for token, quoted in tokens):
            raise self._refused(command.line, words.BAD_TAXA)
        names = [token for token, _ in tokens]
        self._refuse_names(command, names, names)
        return tuple(names)

    def _translated(self, command: Command, behind: bytes, taxa: tuple[str, ...]) -> tuple[tuple[str, str], ...]:
        """The tokens and names of a TRANSLATE command. The names have to be in the list of taxa, if there is one."""
        groups: list[list[str]] = [[]]
        for token, quoted in _tokens(behind):
            if token == "," and not quoted:
                groups.append([])
            elif token in DELIMITERS and not quoted:
                raise self._refused(command.line, words.BAD_TRANSLATE)
            else:
                groups[-1].append(token)
        if any(len(group) != 2 for group in groups):
            raise self._refused(command.line, words.BAD_TRANSLATE)
        self._refuse_names(command, [token for token, _ in groups], [name for _, name in groups])
        known = set(map(folded, taxa))
        for _, name in groups:
            if taxa and folded(name) not in known:
                raise self._refused(command.line, words.not_listed(name))
        return tuple((token, name) for token, name in groups)

    def _refuse_names(self, command: Command, tokens: list[str], names: list[str]) -> None:
        """Refuses a token that is listed twice, and a name that cannot be shown."""
        seen = set()
        for token, name in zip(tokens, names):
            if folded(token) in seen:
                raise self._refused(command.line, words.listed_twice(token))
            if trouble := name_trouble(name):
                raise self._refused(command.line, trouble)
            seen.add(folded(token))

    # RevBayes

    def _table(self, header: _Header) -> Iterator[Written]:
        """The trees of a table, one in each row."""
        naming = Naming()
        lines = Lines(self._data)
        last = len(self._data.rstrip(BLANKS))
        ended = False
        for row in _LINE.finditer(self._data, header.end):
            if not row[0].strip(BLANKS):
                continue
            line = lines.at(row.start())
            cells = row[0].strip(BLANKS).split(header.separator)
            try:
                text = header.tree(cells)
                command = _only_command(text, ended)
            except _CutOff as cut_off:
                if row.end() < last:
                    raise self._refused(line, str(cut_off)) from None
                self.cut_off = line
                return
            except _Wrong as wrong:
                raise self._refused(line, str(wrong)) from None
            ended = ended or text.endswith(b";")
            whole = replace(command, line=line, end=row.end())
            yield self._tree(whole, 0, None, header.generation_of(cells), naming)


_NEXUS = re.compile(rb"\s*#NEXUS(?![^\s\[;])", re.IGNORECASE)
_WORD = re.compile(rb"\s*([^\s*='][^\s*=]*)")
_TREE = re.compile(rb"\s*u?tree(?:\s*\*)?\s*('[^']*(?:''[^']*)*'|[^\s=']\S*?)\s*=\s*", re.IGNORECASE)
_TAXA_INSIDE = re.compile(rb"\staxlabels\s", re.IGNORECASE)
_TREE_INSIDE = re.compile(rb"\su?tree\s[^=]*=", re.IGNORECASE)
_GENERATION = re.compile(rb"(?:gen\.|rep\.|STATE_)([0-9]+)", re.IGNORECASE)

_ENDS = ("END", "ENDBLOCK")
_TREE_WORDS = ("TREE", "UTREE")
_WITHOUT_TREES = ("TITLE", "LINK", "ID")
"""The other commands of a TREES block."""


def _behind_nexus(data: bytes, start: int) -> Optional[int]:
    """The place behind `#NEXUS` if a file begins with it, comments not counted."""
    place: Optional[int] = start
    while place is not None:
        if found := _NEXUS.match(data, place):
            return found.end()
        opened = _COMMENT_NEXT.match(data, place)
        place = comment_end(data, opened.end() - 1) if opened else None
    return None


_COMMENT_NEXT = re.compile(rb"\s*\[")


def _first_word(text: bytes) -> tuple[str, bytes]:
    """The first word of a text in capitals, and what is behind it."""
    found = _WORD.match(text)
    return (found[1].decode().upper(), text[found.end():]) if found else ("", text)


def _is_end(rest: Rest) -> bool:
    """Whether a file ends in an `end` without a `;`, or in a part of one."""
    word, behind = _first_word(rest.text)
    return rest.opened is None and not behind.strip(BLANKS) and word != "" and _ENDS[-1].startswith(word)


def _tokens(text: bytes) -> list[tuple[str, bool]]:
    """The tokens of a text as DendroPy cuts them, and whether each is quoted."""
    tokenizer = NexusTokenizer(io.StringIO(text.decode()))
    return [(token, tokenizer.is_token_quoted) for token in tokenizer]


class _Wrong(Exception):
    """Why a row is refused."""


class _CutOff(_Wrong):
    """Why a row is refused unless it is the last, which then is cut off."""


@dataclass(frozen=True)
class _Header:
    """The header line of a table."""

    end: int
    """The place behind it."""
    separator: bytes
    names: tuple[bytes, ...]

    def tree(self, cells: list[bytes]) -> bytes:
        """The tree of a row. The separator may also stand in the tree."""
        first = _first_tree(cells)
        short = len(cells) < len(self.names)
        if first is None:
            raise (_CutOff if short or not cells[-1] else _Wrong)(words.NO_ROW_TREE)
        if short:
            raise _CutOff(words.row_columns(len(cells), len(self.names)))
        if first >= len(self.names) or self.separator == b"\t" and len(cells) > len(self.names):
            raise _Wrong(words.row_columns(len(cells), len(self.names)))
        end = len(cells) - (len(self.names) - 1 - first)
        if _first_tree(cells[end:]) is not None:
            raise _Wrong(words.SEVERAL_ROW_TREES)
        return self.separator.join(cells[first:end]).strip(BLANKS)

    def generation_of(self, cells: list[bytes]) -> str:
        """The generation of a row, if the table gives it."""
        if b"iteration" not in self.names:
            return ""
        column = self.names.index(b"iteration")
        cell = cells[column if column < _first_tree(cells) else column - len(self.names)].strip()
        return cell.decode() if cell.isdigit() else ""


def _first_tree(cells: list[bytes]) -> Optional[int]:
    """The column in which a tree begins."""
    return next((column for column, cell in enumerate(cells) if cell.lstrip()[:1] in (b"(", b"[")), None)


def _only_command(text: bytes, ended: bool) -> Command:
    """The one tree of a row. `ended` says whether the trees of the table have a `;`."""
    scanner = Scanner(text if text.endswith(b";") else text + b";")
    commands = list(scanner)
    if scanner.rest:
        raise _CutOff(scanner.rest.words)
    if len(commands) > 1:
        raise _Wrong(words.SEVERAL_ROW_TREES)
    if ended and not text.endswith(b";") or commands[0].bare.count(b"(") > commands[0].bare.count(b")"):
        raise _CutOff(words.UNENDED_ROW)
    return commands[0]


def _table_header(data: bytes, start: int) -> Optional[_Header]:
    """The header of a table if a file begins with one, a line of names. Lines with a # may stand before it."""
    for line in _LINE.finditer(data, start):
        text = line[0].strip(BLANKS)
        if not text or text.startswith(b"#"):
            continue
        if text[:1] in b"['" or b"(" in text or text.endswith(b";"):
            return None
        separator = next((mark for mark in _SEPARATORS if mark in text), b"\t")
        return _Header(line.end(), separator, tuple(name.strip().lower() for name in text.split(separator)))
    return None


_SEPARATORS = (b"\t", b",", b";", b"|", b" ")


# Texts that DendroPy would read as another tree: it takes whatever is behind a colon for a length, and a word behind
# that for a name, leaves out an empty node at the end of a fork, and takes brackets of other kinds for names.
_TROUBLES = (
    (re.compile(rb"\A\s*;"), words.NO_TREE_TEXT),
    (re.compile(rb":\s*[(),:;]"), words.NO_LENGTH),
    (re.compile(rb":[^(),;:]*:"), words.SECOND_LENGTH),
    (re.compile(rb":\s*[^\s(),;:]+\s+[^\s(),;:]"), words.BEHIND_A_LENGTH),
    (re.compile(rb"[(,]\s*[,);]"), words.UNNAMED_LEAF),
)
_NOT_IN_TREES = re.compile(rb'[{}=\\"\]]')


def _tree_trouble(bare: bytes) -> Optional[str]:
    """What is wrong with a tree that is not given to DendroPy."""
    if found := _NOT_IN_TREES.search(bare):
        return words.unexpected(found[0].decode())
    for pattern, reason in _TROUBLES:
        if pattern.search(bare):
            return reason
    leaves = bare.count(b",") + 1
    if leaves > norbelath.MAX_LABEL:
        return words.too_many_taxa(leaves)
    return words.TOO_DEEP if bare.count(b"(") > norbelath.MAX_DEPTH else None
