"""Kernel memory read by BPF programs (linux/kernel/memory.bpf.c): control groups, deferred split queues, structures of pages.

Needs BPF_SYSCALL, DEBUG_INFO_BTF, CAP_BPF and CAP_PERFMON; works where lockdown allows BPF to read (integrity). A queue is
copied without its lock: a copy is whole where the walk ends at the queue's head, and is made again otherwise."""

from __future__ import annotations

import ctypes
import mmap
import os
from typing import Sequence

from .errors import Unavailable
from .files import BASE, read
from .kernel_library import PageState, Request, load_library, open_programs

TRIES = 20  # walks of a list that changes
NUMA_NODES = "/sys/devices/system/node/has_memory"
CHANGED = 1  # linux/kernel/shared.h: enum answer
REASONS = {
    2: "no address of deferred_split_lru (KALLSYMS_ALL; kptr_restrict, CAP_SYSLOG)",
    4: "control groups have no queues of their own (cgroup.memory=nokmem)",
    5: "kernel memory can't be read",
}


class KernelMemory:
    """The running kernel's memory."""

    def __init__(self) -> None:
        if os.geteuid() != 0:
            raise Unavailable("kernel memory isn't read: not root")
        self._library = load_library()
        self._programs = open_programs("thp_memory_open")[0]
        self._window = self._library.thp_memory_window(self._programs).contents
        self._answer = self._try("describe_kernel", Request())  # of the queues; all else works without
        self._map, self._levels = self._find_own_page()

    def _try(self, name: str, request: Request) -> int:
        """Runs a program; returns its answer."""
        answer = int(self._library.thp_memory_run(self._programs, name.encode(), ctypes.byref(request)))
        if answer < 0:
            raise Unavailable(f"a BPF program can't be run: {os.strerror(-answer)}")
        return answer

    def _demand(self, answer: int) -> None:
        """Unavailable, with the reason, where a program finds nothing."""
        if answer:
            raise Unavailable(REASONS.get(answer, f"this kernel has no {self._window.lacking.decode()}"))

    def _run(self, name: str, **numbers: int) -> Request:
        request = Request(**numbers)
        self._demand(self._try(name, request))
        return request

    def group(self, path: str) -> int:
        """Returns the address of the struct mem_cgroup whose folder is `path`."""
        folder = os.open(path, os.O_RDONLY | os.O_DIRECTORY | os.O_CLOEXEC)
        try:
            return int(self._run("find_group", at=folder).group)
        except Unavailable as error:
            raise Unavailable(f"no memory control group at {path}") from error
        finally:
            os.close(folder)

    def scan_function(self) -> int:
        """Returns the address of deferred_split_scan. Unavailable where the kernel hides it."""
        if not self._window.scan_function:
            raise Unavailable("no address of deferred_split_scan (kptr_restrict, CAP_SYSLOG)")
        return int(self._window.scan_function)

    def queue_lists(self) -> int:
        """Returns the address of deferred_split_lru; 0: there is none."""
        return int(self._window.queue_lists)

    def numa_nodes(self) -> Sequence[int | None]:
        """Returns the NUMA nodes for which a control group has a queue each; None: one queue has the pages of all."""
        return numa_nodes() if self._window.has_lists else (None,)

    def demand_queues(self) -> None:
        """Unavailable where queues can't be read."""
        self._demand(self._answer)

    def queues(self, group: int) -> dict[int, list[int]]:
        """Returns the pages (struct folio) in the deferred split queues of the struct mem_cgroup at this address, oldest first, by
        NUMA node; 0: those of all nodes, where the group has one queue."""
        return {node or 0: self._queue(group, node or 0) for node in self.numa_nodes()}

    def _queue(self, group: int, node: int) -> list[int]:
        most = os.sysconf("SC_PHYS_PAGES")  # a longer walk goes round
        for _ in range(TRIES):
            request, answer = Request(group=group, numa_node=node), 0
            folios: list[int] = []
            while answer != CHANGED and len(folios) <= most:
                answer = self._try("read_queue", request)
                if answer != CHANGED:
                    self._demand(answer)
                    folios += self._window.folios[: request.found]
                    if not request.at:
                        return folios
        raise Unavailable(f"the queue of {group:#x} changes all the time")

    def page_size(self) -> int:
        """Returns the bytes of a struct page."""
        return int(self._window.page_size)

    def first_page(self) -> int:
        """Returns where the struct page of frame 0 is."""
        return int(self._window.first_page)

    def frame(self, folio: int) -> int:
        """Returns the frame whose struct page is at this address."""
        return (folio - self.first_page()) // self.page_size()

    def folio(self, frame: int) -> int:
        """Returns the address of the struct page of a frame."""
        return self.first_page() + self.page_size() * frame

    def page_states(self, frames: Sequence[int]) -> list[PageState]:
        """Returns what the kernel's structures of at most STATES huge pages contain; valid until the next call."""
        states: ctypes.Array[PageState] = self._window.states
        for state, frame in zip(states, frames):
            state.frame = frame
        self._run("look_at_pages", found=len(frames))
        return states[: len(frames)]

    def tables(self) -> tuple[int, ...]:
        """Returns what reads page tables: struct tables of pages.c, without its place."""
        window = ctypes.addressof(self._window.tables)
        return self.program("find_tables"), self.program("copy_table"), window, self._map, self._levels

    def zeros(self, frame: int, count: int, place: int = 0) -> int | None:
        """Returns which of at most 512 base pages from a frame on are zero-filled; None where they can't be read. Each thread that calls
        needs a place of its own, below TABLES."""
        if self._try("find_zeros", Request(at=self._map + frame * BASE, length=count, found=place)):
            return None
        return int.from_bytes(self._window.zeros[place], "little")

    def program(self, name: str) -> int:
        """Returns the descriptor of a program of linux/kernel/memory.bpf.c."""
        return int(self._library.thp_memory_program(self._programs, name.encode()))

    def _find_own_page(self) -> tuple[int, int]:
        """Finds the struct page of frame 0 by a page of ours and the file that it belongs to. Returns where the map of all memory is, and
        how many levels page tables have."""
        descriptor = os.memfd_create("thpsplit", os.MFD_CLOEXEC)
        try:
            os.ftruncate(descriptor, BASE)
            memory = mmap.mmap(descriptor, BASE)
            memory[:8] = content = os.urandom(8)
            view = ctypes.c_char.from_buffer(memory)
            found = self._run("find_map", group=ctypes.addressof(view), numa_node=int.from_bytes(content, "little"))
            page = int(self._run("find_page", at=descriptor).at)
            del view
            memory.close()
        finally:
            os.close(descriptor)
        start = page - self.page_size() * found.length
        if page & 3 or start & (BASE - 1):
            raise Unavailable("struct page isn't found: the kernel's memory map isn't one array (SPARSEMEM_VMEMMAP)")
        self._window.first_page = start
        return int(found.at), int(found.found)


def numa_nodes() -> list[int]:
    """Returns the NUMA nodes that have memory; only 0 where the kernel has no NUMA nodes."""
    if not os.path.exists(NUMA_NODES):
        return [0]
    ranges = [part.split("-") for part in read(NUMA_NODES).strip().split(",") if part]
    return [node for part in ranges for node in range(int(part[0]), int(part[-1]) + 1)]
