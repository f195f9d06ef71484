"""A process with huge pages in known states, by a seed, for linux/whatif/verify.py. It needs nothing of this package.

    known.py SEED PAGES

Pages are of PMD size and smaller; each is filled in part, and what befalls it is by chance. The process prints `look` at most once, where
the shrinker is to look at the pages that are there, so that they leave the queue or are split, and waits for a line. Then it prints
`ready` and stays."""

from __future__ import annotations

import ctypes
import mmap
import os
import random
import signal
import sys
from contextlib import suppress

BASE, PMD_ORDER = 4096, 9
ORDERS = (PMD_ORDER,) * 8 + (4, 6)
# numbers of zero-filled subpages, round the thresholds
EDGES = (0, 1, 2, 15, 16, 17, 31, 32, 33, 63, 64, 65, 127, 128, 129, 200, 255, 256, 257, 300, 408, 409, 410, 450,
         499, 500, 501, 509, 510, 511, 512)
PR_SET_PDEATHSIG = 1  # include/uapi/linux/prctl.h
LIBC = ctypes.CDLL(None)


class KnownPage:
    """A huge page of an order in an area of its own; where none could be had, base pages."""

    def __init__(self, order: int) -> None:
        self.size, length = 1 << order, BASE << order
        self._room = mmap.mmap(-1, 2 * length, flags=mmap.MAP_PRIVATE | mmap.MAP_ANONYMOUS)
        begin = ctypes.addressof(ctypes.c_char.from_buffer(self._room))
        self._offset = -begin % length
        self.at = begin + self._offset
        self.advise(0, self.size, mmap.MADV_HUGEPAGE)
        self.fill(0, 1, 0)

    def fill(self, first: int, count: int, byte: int) -> None:
        """Writes a byte into subpages."""
        ctypes.memset(self.at + first * BASE, byte, count * BASE)

    def advise(self, first: int, count: int, advice: int) -> None:
        """Gives advice to the kernel about subpages. It refuses some in locked areas."""
        with suppress(OSError):
            self._room.madvise(advice, self._offset + first * BASE, count * BASE)


def end_with_parent() -> None:
    """Has the kernel kill this process when its parent ends."""
    LIBC.prctl(PR_SET_PDEATHSIG, signal.SIGKILL)


def fork(page: KnownPage, count: int) -> None:
    """Makes a child that maps all pages, too, and stays; it gives some subpages of one up before this returns."""
    reader, writer = os.pipe()
    if os.fork():
        os.close(writer)
        os.read(reader, 1)
        os.close(reader)
        return
    try:
        end_with_parent()
        page.advise(0, count, mmap.MADV_DONTNEED)
        for stream in (0, 1, writer):
            os.close(stream)
        while True:
            signal.pause()
    finally:
        os._exit(1)


def make_page(chance: random.Random) -> KnownPage:
    """Returns a page with data, except in some subpages, which are one run or scattered; then things befall it."""
    order = chance.choice(ORDERS)
    page, size = KnownPage(order), 1 << order
    zero = chance.choice(EDGES) if order == PMD_ORDER else chance.randrange(size + 1)
    first = chance.randrange(size - zero + 1)
    zeros = range(first, first + zero) if chance.random() < 0.5 else chance.sample(range(size), zero)
    for subpage in set(range(size)).difference(zeros):
        page.fill(subpage, 1, chance.randrange(1, 256))
    if chance.random() < 0.15:  # a border of two areas inside the page splits the PMD entry; they join again
        page.advise(0, size // 2, mmap.MADV_DONTDUMP)
        page.advise(0, size // 2, mmap.MADV_DODUMP)
    if chance.random() < 0.05:
        LIBC.mlock(ctypes.c_size_t(page.at), ctypes.c_size_t(size * BASE))
    if chance.random() < 0.06:  # a pipe holds a reference to a subpage
        part = (ctypes.c_size_t * 2)(page.at + chance.randrange(size) * BASE, 1)  # struct iovec
        LIBC.vmsplice(os.pipe()[1], part, ctypes.c_size_t(1), 0)
    if chance.random() < 0.15:
        fork(page, 0 if chance.random() < 0.5 else chance.randrange(1, size))
    for _ in range(chance.choice((1, 1, 2)) if chance.random() < 0.3 else 0):  # it may be all of the page
        first = chance.randrange(size)
        page.advise(first, chance.randrange(1, size - first + 1), mmap.MADV_DONTNEED)
    if chance.random() < 0.06:  # all of the page, or a part of it, which splits it
        first = chance.choice((0, 0, 0, size // 2))
        page.advise(first, size - first, mmap.MADV_FREE)
    if chance.random() < 0.1:
        page.fill(0, 1, 7)
    return page


def main(seed: str, count: int) -> None:
    """Makes the pages, and stays."""
    end_with_parent()
    signal.signal(signal.SIGCHLD, signal.SIG_IGN)
    chance = random.Random(seed)
    looked = chance.choice((0, count // 3))
    pages: list[KnownPage] = []
    while len(pages) < count:
        if pages and len(pages) == looked:
            print("look", flush=True)
            sys.stdin.readline()
        pages.append(make_page(chance))
    print("ready", flush=True)
    sys.stdin.read()


if __name__ == "__main__":
    main(sys.argv[1], int(sys.argv[2]))
