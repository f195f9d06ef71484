"""Pages of order 4 and of PMD size that join the queue in turn, more than a scan takes at a time; some are pinned.

    thprecord --order 9,4 --every 1 -- python3 two_sizes.py PAIRS SECONDS
"""

from __future__ import annotations

import ctypes
import mmap
import os
import sys
import time

LARGE, SIZE, BASE = 1 << 21, 1 << 16, 4096
PINNED = 16  # one page of so many
libc = ctypes.CDLL(None)
libc.vmsplice.argtypes = [ctypes.c_int, ctypes.c_void_p, ctypes.c_size_t, ctypes.c_uint]


def page(size: int) -> tuple[mmap.mmap, int, int]:
    """Returns an area with a page of a size, whose rest isn't used, the page's place in it, and its address."""
    room = mmap.mmap(-1, 2 * LARGE, flags=mmap.MAP_PRIVATE | mmap.MAP_ANONYMOUS)
    address = ctypes.addressof(ctypes.c_char.from_buffer(room))
    first = -address % LARGE
    room.madvise(mmap.MADV_HUGEPAGE, first, size)
    room[first:first + size] = b"Z" * size
    return room, first, address + first


pages = [page(size) for _ in range(int(sys.argv[1])) for size in (SIZE, LARGE)]
pipes = []
for area, place, address in pages[::PINNED]:
    pipes.append(os.pipe())
    part = (ctypes.c_size_t * 2)(address + 4 * BASE, 1)  # struct iovec
    libc.vmsplice(pipes[-1][1], part, 1, 0)
for area, place, address in pages:
    area.madvise(mmap.MADV_DONTNEED, place, 2 * BASE)
time.sleep(float(sys.argv[2]))
