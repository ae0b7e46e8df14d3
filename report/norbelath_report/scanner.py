"""The commands of a file: what stands before each `;`, without the comments, and on which line it begins.

Comments nest, and a quoted name may hold any character, quotes doubled. As in DendroPy a quote opens a name only where a
token begins: the quote of `O'Brien` is part of the name.
"""

from __future__ import annotations

import re
from dataclasses import dataclass
from typing import Iterator, Optional

from . import words

BLANKS = b" \t\r\n"
DELIMITERS = '{}(),;:=\\"'
"""The characters that are tokens of their own."""

_SPECIAL = re.compile(rb"[\[';]")
_FLAT_COMMENT = re.compile(rb"\[[^\[\]]*\]")
_BRACKET = re.compile(rb"[\[\]]")
_QUOTED = re.compile(rb"'[^']*(?:''[^']*)*'(?!')")
_MARK = re.compile(rb"\[\s*&([RrUu])\s*\]")
_BEFORE_A_TOKEN = frozenset(BLANKS + DELIMITERS.encode())

_STRUCTURE = ("(", ")", ",", ":", ";")
_NOT_SHOWN = frozenset([*map(chr, range(0x20)), *map(chr, range(0x7F, 0xA0)), "\u2028", "\u2029", "\ufffe", "\uffff"])


class Lines:
    """Counts lines, which end in LF, CRLF or CR. The places that are asked for ascend."""

    def __init__(self, data: bytes) -> None:
        """The first place is asked for in `data` as a whole."""
        self._data = data
        self._line = 1
        self._place = 0

    def at(self, place: int) -> int:
        """The line of a place, from 1. The place is not between CR and LF."""
        data, start = self._data, self._place
        self._line += data.count(b"\n", start, place) + data.count(b"\r", start, place)
        self._line -= data.count(b"\r\n", start, place)
        self._place = place
        return self._line


@dataclass(frozen=True)
class Command:
    """A command that a `;` ends."""

    line: int
    """The line on which it begins, comments before it not counted."""
    end: int
    """The place behind its `;`."""
    text: bytes
    """It without its `;`, each comment a blank."""
    bare: bytes
    """As `text`, but with a `q` and blanks for each quoted name, so that the rest stays in its place."""
    marks: tuple[tuple[int, bool], ...]
    """For each comment `[&R]` or `[&U]` its place in `text`, and whether it is `[&R]`."""
    trouble: Optional[str]
    """What is wrong with a quoted name in it, in words."""


@dataclass(frozen=True)
class Rest:
    """What a file ends in without a `;`."""

    line: int
    """The line on which it begins."""
    text: bytes
    """It, each comment a blank, up to what is not closed."""
    opened: Optional[int]
    """The line of a comment or a quoted name that is not closed."""
    swallowed: bool
    """Whether what is not closed has a `;` in it."""
    words: str
    """What is wrong with it."""


class _Parts:
    """The parts of a command that were read so far."""

    def __init__(self) -> None:
        self.begin: Optional[int] = None
        self.marks: list[tuple[int, bool]] = []
        self.trouble: Optional[str] = None
        self._texts: list[bytes] = []
        self._bares: list[bytes] = []
        self._length = 0

    @property
    def text(self) -> bytes:
        return b"".join(self._texts)

    @property
    def bare(self) -> bytes:
        return b"".join(self._bares)

    @property
    def in_a_token(self) -> bool:
        """Whether a quote that comes next is part of a token."""
        return bool(self._texts) and self._texts[-1][-1] not in _BEFORE_A_TOKEN

    def add_plain(self, text: bytes, end: int) -> None:
        """Adds what is neither comment nor quoted, and ends at the place `end`. Blanks in front of all are left out."""
        if self.begin is None:
            text = text.lstrip(BLANKS)
        if text:
            self._add(text, text, end - len(text))

    def add_quoted(self, text: bytes, end: int) -> None:
        """Adds a quoted name that ends at the place `end`."""
        self.trouble = self.trouble or _quoted_trouble(text)
        self._add(text, b"q".ljust(len(text)), end - len(text))

    def add_comment(self, text: bytes) -> None:
        """Adds a comment."""
        mark = _MARK.fullmatch(text)
        if mark:
            self.marks.append((self._length, mark[1] in b"Rr"))
        if self.begin is not None:
            self._add(b" ", b" ", self.begin)

    def _add(self, text: bytes, bare: bytes, place: int) -> None:
        if self.begin is None:
            self.begin = place
        self._texts.append(text)
        self._bares.append(bare)
        self._length += len(text)


class Scanner:
    """The commands of a text from a place on. Behind the last, `rest` is what the text ends in without a `;`."""

    def __init__(self, data: bytes, start: int = 0) -> None:
        """`start` is not inside a comment or a name."""
        self._data = data
        self._start = start
        self._lines = Lines(data)
        self.rest: Optional[Rest] = None

    def __iter__(self) -> Iterator[Command]:
        """Each command in order."""
        while (command := self._next()) is not None:
            self._start = command.end
            yield command

    def _next(self) -> Optional[Command]:
        """The next command, if there is one."""
        data = self._data
        parts = _Parts()
        place = self._start
        while found := _SPECIAL.search(data, place):
            stop = found.start()
            parts.add_plain(data[place:stop], stop)
            if found[0] == b";":
                return self._command(parts, stop)
            if found[0] == b"'" and parts.in_a_token:
                place = stop + 1
                parts.add_plain(b"'", place)
                continue
            end = comment_end(data, stop) if found[0] == b"[" else _quote_end(data, stop)
            if end is None:
                self._leave(parts, stop, words.UNCLOSED_COMMENT if found[0] == b"[" else words.UNCLOSED_QUOTE)
                return None
            if found[0] == b"[":
                parts.add_comment(data[stop:end])
            else:
                parts.add_quoted(data[stop:end], end)
            place = end
        parts.add_plain(data[place:], len(data))
        self._leave(parts, None, words.NO_SEMICOLON)
        return None

    def _command(self, parts: _Parts, stop: int) -> Command:
        """The command that ends at a place."""
        line = self._lines.at(stop if parts.begin is None else parts.begin)
        return Command(line, stop + 1, parts.text, parts.bare, tuple(parts.marks), parts.trouble)

    def _leave(self, parts: _Parts, opened: Optional[int], reason: str) -> None:
        """Keeps what is behind the last command, if there is anything. `opened` is the place of what is not closed."""
        begin = opened if parts.begin is None else parts.begin
        if begin is None:
            return
        line = self._lines.at(begin)
        if opened is None:
            self.rest = Rest(line, parts.text, None, False, reason)
        else:
            self.rest = Rest(line, parts.text, self._lines.at(opened), self._data.find(b";", opened) >= 0, reason)


def comment_end(data: bytes, start: int) -> Optional[int]:
    """The place behind the comment that is opened at `start`, if it is closed."""
    flat = _FLAT_COMMENT.match(data, start)
    if flat:
        return flat.end()
    depth = 0
    for bracket in _BRACKET.finditer(data, start):
        depth += 1 if bracket[0] == b"[" else -1
        if depth == 0:
            return bracket.end()
    return None


def _quote_end(data: bytes, start: int) -> Optional[int]:
    """The place behind the quoted name that begins at `start`, if it is closed."""
    found = _QUOTED.match(data, start)
    return found.end() if found else None


def _quoted_trouble(text: bytes) -> Optional[str]:
    """What is wrong with a quoted name in a tree. DendroPy takes some for brackets and the like, quoted or not."""
    name = text[1:-1].decode().replace("''", "'")
    return words.unreadable_name(name) if name in _STRUCTURE else name_trouble(name)


def name_trouble(name: str) -> Optional[str]:
    """What is wrong with a name: a line end would break the tables, and control characters the pictures."""
    if not name:
        return words.EMPTY_NAME
    return words.control_character(name) if _NOT_SHOWN.intersection(name) else None


def invalid_line(data: bytes) -> Optional[int]:
    """The line of the first bytes that are not UTF-8. The whole is not decoded at once, as that needs much memory."""
    start = len(data) if data.isascii() else 0
    while start < len(data):
        end = data.find(b"\n", start + (1 << 20)) + 1 or len(data)
        try:
            data[start:end].decode()
        except UnicodeDecodeError as error:
            return Lines(data).at(start + error.start)
        start = end
    return None
