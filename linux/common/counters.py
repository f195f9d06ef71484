"""The kernel's statistics of huge pages: /proc/vmstat, and sysfs by page size.

Rules: Documentation/admin-guide/mm/transhuge.rst of the kernel. All are of the whole machine since its start, so other
programs move them too; `CounterWatch` finds out whether they do."""

from __future__ import annotations

import enum
import os
import time
from collections.abc import Callable, Iterable, Sequence
from dataclasses import dataclass
from itertools import product
from typing import Any

from .files import read, size_folder

WINDOW = 0.05  # seconds of a quiet window


class Counter(enum.Enum):
    """Those of /proc/vmstat; the first four count pages of PMD size alone."""

    SPLIT = "thp_split_page"
    SPLIT_FAILED = "thp_split_page_failed"
    DEFERRED = "thp_deferred_split_page"
    SPLIT_PMD = "thp_split_pmd"
    UNDERUSED = "thp_underused_split_page"


class SizeCounter(enum.Enum):
    """Those of hugepages-*kB/stats."""

    SPLIT = "split"
    SPLIT_FAILED = "split_failed"
    DEFERRED = "split_deferred"


@dataclass(frozen=True)
class Counts:
    """Statistics at one moment; None where this kernel doesn't have one."""

    machine: dict[Counter, int | None]
    sizes: dict[tuple[SizeCounter, int], int | None]  # by order

    def since(self, before: Counts) -> Counts:
        """Returns what was added since an earlier moment."""

        def less(now: dict[Any, int | None], then: dict[Any, int | None]) -> dict[Any, int | None]:
            pairs = ((key, value, then[key]) for key, value in now.items())
            return {key: None if value is None or former is None else value - former for key, value, former in pairs}

        return Counts(less(self.machine, before.machine), less(self.sizes, before.sizes))

    def names(self) -> list[str]:
        """Returns the names of the statistics that aren't 0."""
        machine = [key.value for key, value in self.machine.items() if value]
        return machine + [f"{key.value} of order {order}" for (key, order), value in self.sizes.items() if value]


def counts(orders: Iterable[int]) -> Counts:
    """Returns the statistics now; those by size for these orders."""
    lines: dict[str, str] = dict(line.split(" ", 1) for line in read("/proc/vmstat").split("\n") if " " in line)
    sizes: dict[tuple[SizeCounter, int], int | None] = {}
    for order, key in product(orders, SizeCounter):
        path = f"{size_folder(order)}/stats/{key.value}"
        sizes[key, order] = int(read(path)) if os.path.exists(path) else None
    return Counts({key: int(lines[key.value]) if key.value in lines else None for key in Counter}, sizes)


class CounterWatch:
    """Whether the machine's counters stay as they are while the tool itself changes nothing.

    `moved` gathers the names of the counters that moved in any window. Noise that comes and goes may be missed by
    one window: what can be decided only by a counter is safe to decide only if many windows were quiet."""

    def __init__(self, orders: Iterable[int], wait: Callable[[float], None] = time.sleep,
                 take: Callable[[Sequence[int]], Counts] = counts) -> None:
        self._orders, self._wait, self._take = sorted(set(orders)), wait, take
        self.moved: set[str] = set()

    def watch_once(self, seconds: float = WINDOW) -> bool:
        """Watches the counters for a time, and returns whether none moved. The tool must change nothing meanwhile."""
        before = self._take(self._orders)
        self._wait(seconds)
        moved = self._take(self._orders).since(before).names()
        self.moved.update(moved)
        return not moved
