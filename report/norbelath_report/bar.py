"""A progress bar for what takes longer than a second."""

from __future__ import annotations

import time
from typing import Callable, Optional, TextIO

_WAIT = 1.0
"""Seconds before the bar is shown."""
_PAUSE = 0.1
"""Seconds between two pictures of it."""
_WIDTH = 30


class Stages:
    """Shows how far the stages of a command are, on a terminal only."""

    def __init__(self, stream: Optional[TextIO], clock: Callable[[], float] = time.monotonic) -> None:
        """The stream is where the bar is shown, if it is a terminal."""
        self._stream = stream if stream is not None and stream.isatty() else None
        self._clock = clock
        self._next = clock() + _WAIT
        self._shown = 0

    def begin(self, words: str) -> Callable[[int, int], None]:
        """Begins a stage. What it gives is told how much is done, and of how much."""
        def progress(done: int, whole: int) -> None:
            """Shows the bar, unless it was shown just now."""
            if self._stream is not None and self._clock() >= self._next:
                self._show(words, done, whole)
        return progress

    def _show(self, words: str, done: int, whole: int) -> None:
        """Shows the bar in place of the one before."""
        part = min(done, whole) * 100 // whole if whole else 100
        filled = part * _WIDTH // 100
        line = f"{words} [{'#' * filled}{'.' * (_WIDTH - filled)}] {part}%"
        self._replace(line)
        self._next = self._clock() + _PAUSE

    def end(self) -> None:
        """Takes the bar away."""
        if self._shown:
            self._replace("")

    def _replace(self, line: str) -> None:
        """Writes a line over the one that is shown."""
        blanks = " " * (self._shown - len(line))
        self._stream.write(f"\r{line}{blanks}" if line else f"\r{blanks}\r")
        self._stream.flush()
        self._shown = len(line)
