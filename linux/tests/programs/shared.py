"""Threads, or processes, that share huge pages: each unmaps parts, splits PMD entries, and pins pages, all at the same time.

    thprecord -- python3 shared.py threads|processes WORKERS SEED

In processes each worker's commands change its own mappings: a subpage is unmapped once all have unmapped it."""

from __future__ import annotations

import ctypes
import mmap
import multiprocessing
import os
import random
import sys
import threading
import time
from typing import Any

HUGE, BASE, PAGES, STEPS = 1 << 21, 4096, 24, 60
DONTNEED, HUGE_PAGES, DONTDUMP, DODUMP = 4, 14, 16, 17  # of madvise
PAUSE = 0.01  # seconds, at most
libc = ctypes.CDLL(None)
libc.vmsplice.argtypes = [ctypes.c_int, ctypes.c_void_p, ctypes.c_size_t, ctypes.c_uint]


def work(memory: mmap.mmap, seed: int) -> None:
    """The steps of one worker."""
    chance, start = random.Random(seed), ctypes.addressof(ctypes.c_char.from_buffer(memory))
    pins: list[int] = []
    for _ in range(STEPS):
        page, first = chance.randrange(PAGES) * HUGE, chance.randrange(511)
        step = chance.randrange(16)
        if step < 12:
            memory.madvise(DONTNEED, page + BASE * first, BASE * chance.randrange(1, 512 - first))
        elif step < 14:
            memory.madvise(DONTDUMP, page, HUGE // 2)
            memory.madvise(DODUMP, page, HUGE // 2)
        elif step == 14 and not pins:
            reader, writer = os.pipe()
            libc.vmsplice(writer, (ctypes.c_size_t * 2)(start + page + HUGE - BASE, 1), 1, 0)
            os.close(writer)
            pins.append(reader)
        elif pins:
            os.close(pins.pop())
        time.sleep(chance.random() * PAUSE)


def main(kind: str, workers: int, seed: int) -> None:
    """Makes the pages, and runs the workers."""
    memory = mmap.mmap(-1, PAGES * HUGE, flags=mmap.MAP_PRIVATE | mmap.MAP_ANONYMOUS)
    memory.madvise(HUGE_PAGES)
    for at in range(0, len(memory), BASE):
        memory[at] = 1
    make: Any = threading.Thread if kind == "threads" else multiprocessing.get_context("fork").Process
    tasks = [make(target=work, args=(memory, 1000 * seed + number)) for number in range(workers)]
    for task in tasks:
        task.start()
    if kind == "processes":
        memory.madvise(DONTNEED)
    for task in tasks:
        task.join()
    if any(getattr(task, "exitcode", 0) for task in tasks):
        sys.exit("a worker failed")


if __name__ == "__main__":
    main(sys.argv[1], int(sys.argv[2]), int(sys.argv[3]))
