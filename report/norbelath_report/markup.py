"""What the pictures and the page have in common: names and numbers as SVG and HTML take them."""

from __future__ import annotations

import re

from .model import share

# What XML 1.0 has no place for, not even escaped; and CR, which its readers would turn into LF.
_NOT_IN_XML = re.compile("[^\t\n\x20-\ud7ff\ue000-\ufffd\U00010000-\U0010ffff]")
_ESCAPES = {"&": "&amp;", "<": "&lt;", ">": "&gt;", '"': "&quot;"}


def escaped(text: str) -> str:
    """A text as it may stand between tags and in attributes. A character that XML can't have is shown as U+FFFD."""
    return re.sub('[&<>"]', lambda found: _ESCAPES[found.group()], _NOT_IN_XML.sub("\ufffd", text))


def percent(part: int, whole: int) -> str:
    """A share with its sign."""
    return f"{share(part, whole)}%"


def counted(number: int, one: str, more: str) -> str:
    """A number with its noun."""
    return f"{number:,} {one if number == 1 else more}"
