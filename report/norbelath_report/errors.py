"""What the user's files can do wrong."""

from __future__ import annotations

from typing import Optional


class Refused(Exception):
    """A file that is not understood. Nothing is made of it, and nothing of it is left out silently."""

    def __init__(self, file: str, line: Optional[int], words: str) -> None:
        """`file` is the name as it was given, `line` counts from 1 where one can be named."""
        super().__init__(file, line, words)
        self.file = file
        self.line = line
        self.words = words

    def __str__(self) -> str:
        """The place and the words."""
        place = self.file if self.line is None else f"{self.file}:{self.line}"
        return f"{place}: {self.words}"
