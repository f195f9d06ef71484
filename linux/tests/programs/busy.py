"""Many system calls and faults on memory: something of which a recording makes many records, or none.

    busy.py fault N    N times: a base page is faulted in and dropped again, where no huge page may be
    busy.py drop N     N subpages of huge pages are dropped one by one; a page that has gone is made again
"""

import mmap
import sys

HUGE, BASE, PAGES = 1 << 21, 4096, 32


def make(pages: int, advice: int) -> mmap.mmap:
    """Returns room for so many huge pages, with at most one more."""
    room = mmap.mmap(-1, (pages + 1) * HUGE, flags=mmap.MAP_PRIVATE | mmap.MAP_ANONYMOUS)
    room.madvise(advice)
    return room


count = int(sys.argv[2])
if sys.argv[1] == "fault":
    page = make(1, mmap.MADV_NOHUGEPAGE)
    for _ in range(count):
        page[0] = 1
        page.madvise(mmap.MADV_DONTNEED, 0, BASE)
for number in range(0, count if sys.argv[1] == "drop" else 0, PAGES * 512):
    pages = make(PAGES, mmap.MADV_HUGEPAGE)  # a new area: the old one's page tables are in the way of huge pages
    for at in range(0, len(pages), HUGE):
        pages[at] = 1
    for at in range(0, (min(count - number, PAGES * 512) // PAGES) * BASE, BASE):
        for first in range(0, PAGES * HUGE, HUGE):
            pages.madvise(mmap.MADV_DONTNEED, first + at, BASE)
