"""Pages of tasks that change their control group while they have them, of memory control groups of version 1 or 2.

    thprecord -- python3 groups.py leaves      # its pages stay in the recorded queue
    thprecord -- python3 groups.py enters      # comes from the root group; pages from there stay in its queue
    thprecord -- python3 groups.py inner       # makes a group in its own for some pages, and leaves it to end
    thprecord -- python3 groups.py stays       # makes a group in its own, in which a child stays

Of eight pages, the half is in the queue before the change; after it, eight more are made. With `inner`, eight are made before it, too.
Needs root."""

import ctypes
import mmap
import os
import sys
import time
from pathlib import Path

sys.path.insert(0, str(Path(__file__).resolve().parent.parent.parent.parent))

from linux.common.groups import find_hierarchy  # noqa: E402

SIZE, BASE, PAGES = 1 << 21, 4096, 8
WAIT = 0.2  # seconds, for scans


def make_pages() -> "tuple[mmap.mmap, int]":
    """Returns an area with eight pages of PMD size, which khugepaged doesn't make again once they are split, and where the first one is."""
    area = mmap.mmap(-1, (PAGES + 1) * SIZE, flags=mmap.MAP_PRIVATE | mmap.MAP_ANONYMOUS)
    first = -ctypes.addressof(ctypes.c_char.from_buffer(area)) % SIZE
    area.madvise(mmap.MADV_HUGEPAGE)
    for at in range(first, first + PAGES * SIZE, BASE):
        area[at] = 90
    area.madvise(mmap.MADV_NOHUGEPAGE)
    return area, first


def drop(pages: "tuple[mmap.mmap, int]", count: int, subpage: int) -> None:
    """Drops a subpage of each of so many pages."""
    for page in range(count):
        pages[0].madvise(mmap.MADV_DONTNEED, pages[1] + page * SIZE + subpage * BASE, BASE)


def enter(group: str) -> None:
    """Enters a control group."""
    Path(group, "cgroup.procs").write_text("0")


hierarchy, word = find_hierarchy(), sys.argv[1]
own = hierarchy.top if hierarchy.version == 1 else hierarchy.mount + Path("/proc/self/cgroup").read_text().split("::")[1].strip()
root, inner = hierarchy.mount, f"{own}/inner"
if word == "stays":
    os.mkdir(inner)
    enter(inner)
    time.sleep(0.5 if os.fork() else 60)
    sys.exit()
if word == "inner":
    former = make_pages()
    drop(former, PAGES // 2, 100)
    os.mkdir(inner)
if word == "inner" and hierarchy.version == 2:  # of version 2: a group with controllers for those in it has no tasks
    os.mkdir(f"{own}/tasks")
    enter(f"{own}/tasks")
    Path(own, "cgroup.subtree_control").write_text("+memory")
if word != "leaves":
    enter(inner if word == "inner" else root)
area = make_pages()
drop(area, PAGES // 2, 100)
if word == "inner":
    enter(f"{own}/tasks" if os.path.isdir(f"{own}/tasks") else own)
    os.rmdir(inner)
else:
    enter(root if word == "leaves" else own)
drop(area, PAGES, 200)
time.sleep(WAIT)
if word == "inner":
    drop(former, PAGES, 200)
drop(make_pages(), PAGES, 100)
time.sleep(WAIT)
