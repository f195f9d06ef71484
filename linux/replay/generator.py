"""Random scripts that a kernel can run, by seed. Each node's queue is filled to a length that is drawn for it, and filled again
where scans have shortened it, so that most looks see the order of several pages."""

from __future__ import annotations

import random
from collections.abc import Callable, Iterator, Sequence
from dataclasses import dataclass, field
from functools import partial, reduce
from operator import or_

from ..common.files import PMD_ORDER
from ..common.script import MARK, Options, Script
from ..common.subpages import bits_of, runs

MOST_BLOCKS = 256  # of a node
MOST_QUEUE, MOST_ALLOCATED = 200, 250  # pages of a queue, and of a node in a script
MOST_SUBPAGES = 12800  # of the pages in a queue: 200 pages of order 6, 25 of order 9
MOST_SCANNED = 128  # pages of a scan (docs/FORMATS.md)
MOST_PINS = 3  # of a page
PIN_SHARE, UNDERUSED_SHARE = 0.3, 0.7  # pages of a queue that are pinned; with a threshold, that are there as underused ones


@dataclass(frozen=True)
class Shape:
    """What scripts are drawn from."""

    nodes: Sequence[int] = (1, 1, 1, 2, 4)
    orders: Sequence[int] = (9, 9, 9, 2, 3, 4, 5, 6, 7, 8)
    thresholds: Sequence[int | None] = (None,)
    length: int = 40  # commands at most besides those that fill queues, a few more where one step is several
    queues: Sequence[int] = (1, 2, 3, 4, 6, 8, 12, 16, 24, 32, 64, 200)  # pages


@dataclass
class Sketch:
    """A page as the generator sees it: its whole mappings, and the sets of its PTE mappings, so that each command can be done."""

    number: int
    subpages: int
    is_queued: bool
    whole: int = 1
    parts: list[int] = field(default_factory=list)
    pins: int = 0
    shared: bool = False
    split: bool = False

    @property
    def is_mapped(self) -> bool:
        return bool(self.whole or self.parts)


class Generator:
    """One script."""

    def __init__(self, chance: random.Random, shape: Shape) -> None:
        self._chance = chance
        self._nodes = chance.choice(shape.nodes)
        self._orders = [chance.choice(shape.orders) for _ in range(self._nodes)]
        self._threshold = chance.choice(shape.thresholds)
        if self._threshold is not None and self._threshold >= min(1 << order for order in self._orders):
            self._orders = [PMD_ORDER] * self._nodes
        self._wanted = [min(chance.choice(shape.queues), MOST_SUBPAGES >> order) for order in self._orders]
        self._pages: list[list[Sketch]] = [[] for _ in range(self._nodes)]
        self._lines: list[str] = []
        self._length, self._node = chance.randint(8, shape.length), 0
        self._kinds: dict[Callable[[Sketch], object], float] = {
            self._unmap_partly: 5, self._unmap: 5, self._map: 2, self._scan: 2.5, partial(self._fill, "write"): 1.5,
            partial(self._fill, "zero"): 0.5, lambda _: self._lines.append(f"count {self._node}"): 0.5, lambda _: self._alloc(): 4,
        }
        for word, weight in (("splitpmd", 3), ("unmapwhole", 2), ("mapwhole", 2), ("pin", 2), ("unpin", 1)):
            self._kinds[partial(self._change, word)] = weight

    def script(self, name: str) -> Script:
        """Returns the script."""
        for step in range(-self._nodes, self._length):
            self._node = step + self._nodes if step < 0 else self._chance.randrange(self._nodes)
            missing = self._wanted[self._node] - len(self._queue())
            if missing > 0 and (step < 0 or self._chance.random() < 0.5):
                self._lengthen_queue(missing)
            live = [page for page in self._pages[self._node] if page.is_mapped or page.pins]
            if not live:
                self._alloc()
            elif step >= 0:
                self._chance.choices([*self._kinds], [*self._kinds.values()])[0](self._chance.choice(live))
        blocks = 16 if max(map(len, self._pages)) <= 16 else MOST_BLOCKS
        options = Options(self._nodes, blocks, 1, tuple(self._orders), (self._threshold,) * self._nodes)
        return Script(name, "\n".join([f"{MARK}{' '.join(options.words())}", "setup", *self._lines, ""]), options)

    def _queue(self) -> list[Sketch]:
        return [page for page in self._pages[self._node] if page.is_queued and (page.is_mapped or page.pins)]

    def _lengthen_queue(self, missing: int) -> None:
        """Adds so many pages to the queue, a few of them pinned, so that scans leave them there."""
        for _ in range(min(missing, MOST_ALLOCATED - len(self._pages[self._node]))):
            page = self._alloc()
            if self._threshold is None or self._chance.random() > UNDERUSED_SHARE:
                self._unmap_partly(page)
            if self._chance.random() < PIN_SHARE:
                self._change("pin", page)

    def _alloc(self) -> Sketch:
        pages = self._pages[self._node]
        if len(pages) < MOST_ALLOCATED:
            pages.append(Sketch(len(pages), 1 << self._orders[self._node], self._threshold is not None))
            self._lines.append(f"alloc {self._node}")
        return pages[-1]

    def _add(self, page: Sketch, word: str, *operands: int) -> None:
        """Adds a command, after which the page may be queued."""
        self._lines.append(" ".join(map(str, (word, self._node, page.number, *operands))))
        page.parts = [part for part in page.parts if part]
        is_partly = not page.whole and reduce(or_, page.parts, 0) not in (0, bits_of(0, page.subpages))
        page.is_queued = not page.split and (page.is_queued or is_partly)

    def _change(self, word: str, page: Sketch) -> None:
        """Adds a command without operands, if it can be done."""
        needed = {"mapwhole": page.whole and not page.split, "pin": page.is_mapped and page.pins < MOST_PINS, "unpin": page.pins}
        if needed.get(word, page.whole):
            page.whole += {"pin": 0, "unpin": 0, "mapwhole": 1}.get(word, -1)
            page.pins += {"pin": 1, "unpin": -1}.get(word, 0)
            page.shared |= word == "mapwhole"
            page.parts += [bits_of(0, page.subpages)] if word == "splitpmd" else []
            self._add(page, word)

    def _range(self, low: int, count: int) -> tuple[int, int]:
        """Returns a range inside the one given, often one that touches an end or has a round size."""
        chance = self._chance
        size = chance.choice([1, count // 2 or 1, count, chance.randint(1, count)])
        return chance.choice([low, low + count - size, chance.randint(low, low + count - size)]), size

    def _range_in(self, bits: int) -> tuple[int, int]:
        """Returns a range inside a set that isn't empty."""
        return self._range(*self._chance.choice(list(runs(bits))))

    def _unmap_partly(self, page: Sketch) -> None:
        if page.whole == 1 and not page.parts:
            first, count = self._range(0, page.subpages - 1)
            self._change("splitpmd", page)
            page.parts[0] &= ~bits_of(first, count)
            self._add(page, "unmap", first, count)

    def _unmap(self, page: Sketch) -> None:
        if page.parts:
            part = self._chance.randrange(len(page.parts))
            first, count = self._range_in(page.parts[part])
            page.parts[part] &= ~bits_of(first, count)
            self._add(page, "unmap", first, count)

    def _map(self, page: Sketch) -> None:
        if page.is_mapped:
            first, count = self._range_in(bits_of(0, page.subpages) if page.whole else self._chance.choice(page.parts))
            page.parts.append(bits_of(first, count))
            page.shared = True
            self._add(page, "map", first, count)

    def _fill(self, word: str, page: Sketch) -> None:
        if page.is_mapped and not page.shared:
            self._add(page, word, *self._range_in(bits_of(0, page.subpages) if page.whole else page.parts[0]))

    def _scan(self, _page: Sketch) -> None:
        """Adds a scan of the whole queue."""
        if sum(not page.split for page in self._pages[self._node]) > MOST_SCANNED:  # the queue's pages are among these
            return
        self._lines.append(f"scan {self._node} {MOST_SCANNED}")
        for page in self._queue():  # the sketch needs no more detail
            if not page.pins and not page.whole:
                page.split, page.is_queued = True, False


def scripts(count: int, seed: int, shape: Shape) -> Iterator[Script]:
    """`count` scripts; script k of a seed is the same whatever the count."""
    for k in range(count):
        yield Generator(random.Random(f"{seed}-{k}"), shape).script(f"random-{seed}-{k}")
