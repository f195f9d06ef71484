"""Errors that a person can act on, and the exit statuses of the tools."""

from __future__ import annotations

import signal
import sys
import traceback
from contextlib import contextmanager
from pathlib import Path
from typing import Iterator

from .text import one_line

DONE, DIFFERS, USAGE, FAILED, INCONCLUSIVE, BUSY, SKIPPED = 0, 1, 2, 3, 4, 75, 77


class Unavailable(Exception):
    """This machine, its kernel or the caller's rights lack what is named."""


class RunFailed(Exception):
    """A run that had begun can't continue; what was reported before is valid."""


class InputFault(Exception):
    """A text or an option that the tools can't use; the text names the place and the reason."""


class Busy(Exception):
    """Another tool holds the machine's lock; the text names it."""


@contextmanager
def signals_wait() -> Iterator[set[signal.Signals]]:
    """Has the signals that end the tool wait until the end of the `with`; gives those that waited before. An exception that a signal
    raises is lost in what Python calls by itself, as around a fork, and may leave its locks held."""
    former = signal.pthread_sigmask(signal.SIG_BLOCK, (signal.SIGINT, signal.SIGTERM, signal.SIGHUP))
    try:
        yield {signal.Signals(number) for number in former}
    finally:
        signal.pthread_sigmask(signal.SIG_SETMASK, former)


def place_of(error: BaseException) -> str:
    """Returns where an exception arose: the file's name and the line."""
    return "".join(f"{Path(frame.filename).name}:{frame.lineno}" for frame in traceback.extract_tb(error.__traceback__)[-1:])


def status_of(name: str, error: BaseException) -> int:
    """Reports an exception in one line on standard error, and returns the tool's status for it."""
    statuses = {Unavailable: SKIPPED, InputFault: USAGE, RunFailed: FAILED, Busy: BUSY, KeyboardInterrupt: 128 + signal.SIGINT}
    text = str(error)
    if isinstance(error, KeyboardInterrupt):
        text = "interrupted"
    elif isinstance(error, Unavailable):
        text = f"skipped: {error}"
    elif isinstance(error, MemoryError):
        text = "out of memory"
    elif isinstance(error, OSError):
        where = f"{error.filename}: " if error.filename is not None else ""
        text = f"{where}{error.strerror or error} (at {place_of(error)})"
    elif not isinstance(error, tuple(statuses)):
        text = f"internal error: {type(error).__name__}: {error} (at {place_of(error)})"
    print(f"{name}: {one_line(text)}", file=sys.stderr, flush=True)
    return next((status for kind, status in statuses.items() if isinstance(error, kind)), FAILED)
