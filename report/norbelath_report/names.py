"""Names in Newick texts."""

from __future__ import annotations

import re
from typing import Mapping

_PLAIN = re.compile(r"[\w.\- ]+")
_NUMBER = re.compile("[0-9]+")


def quoted(name: str) -> str:
    """A name as Newick wants it: blanks as underscores, and in quotes if it has other than letters, digits, `.`, `-`."""
    if _PLAIN.fullmatch(name) and "_" not in name:
        return name.replace(" ", "_")
    doubled = name.replace("'", "''")
    return f"'{doubled}'"


def named(text: str, names: Mapping[int, str]) -> str:
    """A text with labels as one with names. A mark before it stays."""
    return _NUMBER.sub(lambda label: quoted(names[int(label[0])]), text)
