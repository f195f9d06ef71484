"""Made-up huge pages, and what tests of thpwhatif need."""

from __future__ import annotations

import os
import random
import subprocess
import sys
import unittest
from pathlib import Path
from typing import Any

from ..common.errors import Unavailable
from ..common.folios import Folio, Mapping, compact_counts
from ..common.subpages import bits_of
from ..whatif.library import load_library
from ..whatif.look import Snapshot
from ..whatif.stored import StoredReader
from .cases import ROOT

LOOKS, TRIALS = ROOT / "linux/tests/looks", ROOT / "linux/tests/trials"
try:
    load_library()
    LACKING = ""
except Unavailable as error:
    LACKING = str(error)
NEEDS_LIBRARY = unittest.skipIf(LACKING, LACKING)


def run(*words: str, user: int | None = None) -> subprocess.CompletedProcess[str]:
    """Runs thpwhatif with these words; `user`: another one, where this is root."""
    given: dict[str, Any] = {} if user is None or os.geteuid() else {"user": user, "group": user, "extra_groups": []}
    command = ["/usr/bin/python3" if given else sys.executable, "-B", "-m", "linux.whatif", *words]
    return subprocess.run(command, capture_output=True, text=True, cwd=ROOT, check=False, **given)


def load(path: str | Path, mebibytes: int = 64) -> Snapshot:
    """A stored snapshot, read within so much memory."""
    with open(path, "rb") as file:
        return StoredReader(mebibytes).read(str(path), file)


def folio(number: int = 0, order: int = 9, **facts: Any) -> Folio:
    """A wholly mapped, queued page of data, read in full, of process 100 + number; `facts` change that."""
    size = 1 << order
    full = bits_of(0, size)
    out = Folio(frame=1024 * (number + 1), order=order, known=full, is_queued=True, is_partly=False, whole=1, pins=0)
    out.totals = [1] * size
    out.mappings = [Mapping(100 + number, 0x7F0000000000 + number * (size << 12), full, True)]
    for name, value in facts.items():
        setattr(out, name, value)
    return out


def holed_folio(number: int, subset: int, **facts: Any) -> Folio:
    """A partly mapped page: the subpages of `subset` are mapped once, by PTEs."""
    out = folio(number, is_partly=True, whole=0, **facts)
    out.totals = [subset >> i & 1 for i in range(out.size)]
    out.mappings = [Mapping(100 + number, out.mappings[0].address, subset, False)]
    out.known &= subset
    out.zero &= subset
    return out


def any_folio(number: int, chance: random.Random) -> Folio:
    """A page with random facts, of any order. Some can't be predicted."""
    order = chance.choice((9, 9, 9, 9, *range(2, 9)))
    size = 1 << order
    zero = sum(1 << i for i in chance.sample(range(size), chance.choice((0, 1, size // 8, size // 2, size - 1, size))))
    facts = {"order": order, "zero": zero, "pins": chance.choice((0, 0, 0, 0, 1, 3))}
    if chance.random() < 0.4:
        subset = bits_of(chance.randrange(size // 2), chance.randrange(1, size // 2 + 1))
        out = folio(number, is_partly=True, whole=0, **facts)
        out.totals = compact_counts([(subset >> i & 1) * (1 + chance.randrange(3)) for i in range(size)])
        out.known, out.zero = out.known & subset, zero & subset
        out.kept = chance.choice((0, 0, 0, subset, subset >> 1, zero & subset))
    else:
        out = folio(number, is_queued=chance.random() < 0.7, **facts)
        out.is_partly, out.whole = chance.random() < 0.2, chance.choice((0, 1, 1, 1, 2, 40))
        out.totals = compact_counts([out.whole + (out.whole == 0) + chance.choice((0, 0, 0, 1))] * size)
        if out.whole and chance.random() < 0.2:
            out.totals = compact_counts([out.whole + chance.choice((0, 1, 400)) for _ in range(size)])
        out.kept = chance.choice((0, 0, 0, 0, zero, 1))
    out.is_locked, out.is_poisoned = chance.random() < 0.05, chance.random() < 0.02
    if chance.random() < 0.3:
        out.known &= ~bits_of(chance.randrange(size), chance.randrange(size))
    out.cgroup = chance.randrange(3)
    return out
