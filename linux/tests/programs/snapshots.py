"""A program that forks again and again and writes while the child runs, as a database does that saves itself: pages are
copied on write, a subpage at a time, in both processes."""

import mmap
import os
import random
import sys
import time

HUGE, BASE, PAGES, CHILDREN, WRITES, DROPS, MADV_DONTNEED, MADV_HUGEPAGE = 1 << 21, 4096, 48, 12, 400, 6, 4, 14


def write_some(memory: mmap.mmap, chance: random.Random, value: int) -> None:
    """Writes into random subpages."""
    for _ in range(WRITES):
        memory[chance.randrange(len(memory))] = value


def main() -> None:
    """48 huge pages, 12 children."""
    chance = random.Random(int(sys.argv[1]) if len(sys.argv) > 1 else 1)
    memory = mmap.mmap(-1, PAGES * HUGE, flags=mmap.MAP_PRIVATE | mmap.MAP_ANONYMOUS)
    memory.madvise(MADV_HUGEPAGE)
    for at in range(0, len(memory), BASE):
        memory[at] = 1
    for number in range(CHILDREN):
        child = os.fork()
        if child == 0:
            write_some(memory, chance, 200)
            time.sleep(0.05)
            os._exit(0)
        write_some(memory, chance, number)
        for _ in range(DROPS):
            first = chance.randrange(len(memory) // BASE - 64) * BASE
            memory.madvise(MADV_DONTNEED, first, BASE * chance.randrange(1, 40))
        os.waitpid(child, 0)


if __name__ == "__main__":
    main()
