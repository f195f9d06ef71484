"""Sets of subpages as numbers: bit i is subpage i. Their text is that of docs/FORMATS.md."""

from __future__ import annotations

import re
import sys
from typing import Iterator

from .errors import InputFault

MOST_SUBPAGES = 1 << 16  # docs/FORMATS.md: no subpage of a text has a number from here on

_ONES = re.compile("1+")
_RUN = re.compile("(0|[1-9][0-9]{0,4})(?:-([1-9][0-9]{0,4}))?")


def bits_of(first: int, count: int) -> int:
    """Returns the set of `count` subpages from `first` on."""
    return ((1 << count) - 1) << first


def runs(bits: int) -> Iterator[tuple[int, int]]:
    """Yields the maximal runs of a set, ascending, as (first, count)."""
    for run in _ONES.finditer(bin(bits)[:1:-1]):
        yield run.start(), run.end() - run.start()


def size(bits: int) -> int:
    """Returns how many subpages a set has."""
    return bits.bit_count() if sys.version_info >= (3, 10) else bin(bits).count("1")


def set_text(bits: int) -> str:
    """Returns the text of a set: `0-15,17`; the empty set is `-`."""
    return ",".join(str(a) if n == 1 else f"{a}-{a + n - 1}" for a, n in runs(bits)) or "-"


def set_of(text: str) -> int:
    """Returns the set of a text. InputFault where it isn't one."""
    bits = 0
    for part in text.split(",") if text != "-" else ():
        run = _RUN.fullmatch(part)
        first, last = (int(run[1]), int(run[2] or run[1])) if run else (0, MOST_SUBPAGES)
        if not first <= last < MOST_SUBPAGES:
            raise InputFault(f"no set of subpages: {text[:60]!r}")
        bits |= bits_of(first, last - first + 1)
    return bits
