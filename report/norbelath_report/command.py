"""The command `norbelath`."""

from __future__ import annotations

import sys
from typing import Optional, Sequence

NOT_ACCEPTED = 1
"""The status of a refused file, and of a difference."""
TROUBLE = 2
"""The status of wrong usage, and of what can't be read or written."""
STOPPED = 130
"""The status after Ctrl-C, as a shell gives it."""


def main(arguments: Optional[Sequence[str]] = None) -> int:
    """Runs the command with its arguments, those of the process where none are given. Gives its status."""
    try:
        # The imports take a moment in which Ctrl-C may come, and the library may be missing.
        from . import actions
        return actions.run(sys.argv[1:] if arguments is None else arguments)
    except KeyboardInterrupt:
        return STOPPED
    except (ImportError, OSError) as failure:
        missing = getattr(failure, "name", None) == "dendropy"
        complain("DendroPy is missing: apt install python3-dendropy, or pip install dendropy" if missing else str(failure))
        return TROUBLE


def complain(words: str) -> None:
    """Says something on standard error, if there is one."""
    if sys.stderr is not None:
        print(f"norbelath: {words}", file=sys.stderr)
