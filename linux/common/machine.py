"""What this machine has of what the tools need. Unavailable names in a line what it lacks."""

from __future__ import annotations

import ctypes
import mmap
import os

from .errors import Unavailable
from .files import BASE, THP, read, selected_word
from .groups import find_hierarchy
from .kernel_memory import KernelMemory
from .page_files import Frames, frames_at

INITIAL_NAMESPACE = 0xEFFFFFFC  # include/linux/proc_ns.h: PROC_PID_INIT_INO


def first_line(error: BaseException) -> str:
    """Returns the first line of an exception's text."""
    return str(error).split("\n", 1)[0]


def need(is_so: object, reason: str) -> None:
    """Unavailable, with this reason, where something isn't so."""
    if not is_so:
        raise Unavailable(reason)


def kernel() -> str:
    """Returns the kernel's version."""
    return f"Linux {os.uname().release}, {os.uname().machine}"


def namespace_note() -> str:
    """Returns what a tool that runs in a PID namespace of its own can't see, in a line; nothing in the initial one."""
    if os.stat("/proc/self/ns/pid").st_ino == INITIAL_NAMESPACE:
        return ""
    return "in a PID namespace: only the processes of this namespace are seen, others of the machine are not"


def demand_common() -> None:
    """Demands root, huge pages, memory control groups, the files of frames, and the kernel's counters. Whether the kernel shows the
    numbers of frames is tried on a page of our own: who lacks CAP_SYS_ADMIN sees 0 (mm/pagemap.rst)."""
    need(os.geteuid() == 0, "not root")
    need(os.path.isdir(THP), "this kernel has no transparent huge pages (TRANSPARENT_HUGEPAGE)")
    need(selected_word(read(f"{THP}/enabled")) != "never", f"transparent huge pages are switched off ({THP}/enabled: never)")
    find_hierarchy()
    page = mmap.mmap(-1, BASE, flags=mmap.MAP_PRIVATE | mmap.MAP_ANONYMOUS)
    page[0] = 1
    frame = frames_at(os.getpid(), ctypes.addressof(ctypes.c_char.from_buffer(page)), 1)[0]
    need(frame, "the kernel shows no frame numbers: CAP_SYS_ADMIN is missing")
    Frames().close()
    need("thp_deferred_split_page" in read("/proc/vmstat"), "no thp_deferred_split_page in /proc/vmstat")


def open_memory() -> KernelMemory:
    """Returns kernel memory, if control groups, their queues and struct page can be read in it."""
    try:
        memory = KernelMemory()
        memory.group(find_hierarchy().top)
        memory.demand_queues()
        return memory
    except OSError as error:
        raise Unavailable(f"kernel memory can't be read: {error}") from error
