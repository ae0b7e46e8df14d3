"""Runs of the command, and what a folder holds."""
import os
import subprocess
import sys
import tempfile
from typing import NamedTuple


class Run(NamedTuple):
    """How a run ended, and what it wrote."""

    status: int
    out: str
    errors: str


def command(*arguments, folder=None, environment=None):
    """`python3 -m norbelath_report` with these arguments, in this folder."""
    done = subprocess.run([sys.executable, "-m", "norbelath_report", *arguments], cwd=folder, stdin=subprocess.DEVNULL,
                          env={**os.environ, **(environment or {})}, capture_output=True, encoding="utf-8", errors="replace")
    return Run(done.returncode, done.stdout, done.stderr)


def forked(*arguments, folder=None):
    """The same in a copy of this process, which has the modules already: that takes a fraction of the time."""
    # The command imports the actions when it is run; the copy finds them loaded.
    from norbelath_report import actions, command as loaded  # noqa: F401

    with tempfile.TemporaryFile() as out, tempfile.TemporaryFile() as errors:
        sys.stdout.flush()
        sys.stderr.flush()
        child = os.fork()
        if child == 0:
            _run_and_leave(loaded.main, arguments, folder, out, errors)
        status = os.waitstatus_to_exitcode(os.waitpid(child, 0)[1])
        return Run(status, _written(out), _written(errors))


def _run_and_leave(main, arguments, folder, out, errors):
    """In the copy: runs the command and ends, whatever happens."""
    status = 70
    try:
        os.dup2(out.fileno(), 1)
        os.dup2(errors.fileno(), 2)
        if folder:
            os.chdir(folder)
        status = main(list(arguments))
    except SystemExit as leave:
        status = leave.code
    except BaseException:
        sys.excepthook(*sys.exc_info())
    try:
        sys.stdout.flush()
        sys.stderr.flush()
    finally:
        os._exit(status)


def _written(file):
    file.seek(0)
    return file.read().decode("utf-8", "replace")


def files_in(folder):
    """All files below a folder, by name, as bytes."""
    found = {}
    for place, _, names in os.walk(folder):
        for name in names:
            path = os.path.join(place, name)
            with open(path, "rb") as file:
                found[os.path.relpath(path, folder)] = file.read()
    return found
