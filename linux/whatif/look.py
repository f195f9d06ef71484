"""A look at the huge pages of chosen processes: what was read (linux/common/reader, and by BPF what the kernel's own structures
contain), what couldn't be read, and what was left out and why.

Rules: include/linux/mm_types.h (struct folio), include/linux/page-flags.h (PG_partially_mapped of the second page),
mm/huge_memory.c (folio_expected_ref_count: a reference for each mapping; any more are pins)."""

from __future__ import annotations

import os
import re
import time
from collections import Counter
from dataclasses import dataclass, field, replace
from typing import Callable, Iterable

from ..common import proc
from ..common.errors import InputFault, Unavailable
from ..common.files import BASE, PMD_ORDER, PTES_NONE, THP, read
from ..common.folios import Folio, even_counts
from ..common.groups import checked_group, find_hierarchy
from ..common.kernel_library import STATES, PageState
from ..common.kernel_memory import KernelMemory
from ..common.machine import first_line, namespace_note
from ..common.proc import group_names, machine_huge, members, missing_capabilities, name_of, reason_of
from ..common.reader import HIDDEN, MEMORY, Reader
from ..common.second_look import Changes, SecondLook
from ..common.text import escape

COLLAPSED = f"{THP}/khugepaged/pages_collapsed"


@dataclass
class ProcessChoice:
    """The processes that a user selects: by number, by control groups with those below, or all."""

    processes: list[int] = field(default_factory=list)
    groups: list[str] = field(default_factory=list)
    everything: bool = False

    def check(self) -> None:
        """Resolves the control groups' paths. InputFault for a process or a control group that doesn't exist."""
        for number in self.processes:
            if not os.path.isdir(f"{proc.ROOT}/{number}"):
                raise InputFault(f"no process {number}")
        self.groups = [checked_group(path) for path in self.groups]

    def find(self, unread: Counter[str]) -> set[int]:
        """Returns the processes now, except this one where all are asked for. Control groups that can't be read are counted."""
        out = set(self.processes)
        for path in self.groups:
            try:
                out |= set(members(path))
            except OSError as error:
                unread[f"control group {escape(path)}: {reason_of(error)}"] += 1
        if self.everything:
            out |= set(proc.processes())
            out.discard(os.getpid())
        return out


@dataclass
class Snapshot:
    """What one look has read."""

    folios: list[Folio]
    processes: dict[int, str]  # names of those that map huge pages
    left_out: Counter[str]  # what was read and is in no row, by reason
    unread: Counter[str] = field(default_factory=Counter)  # what couldn't be read and could change the answer, by reason
    names: dict[int, str] = field(default_factory=dict)  # of control groups, by inode
    note: str = ""  # what a look from inside a PID namespace can't see
    looked_at: int = 0
    lacking: str = ""  # why the kernel's structures weren't read
    others: int = 0  # anonymous base pages that aren't huge
    sums: dict[str, int] = field(default_factory=dict)  # bytes of pages of PMD size, see `sums_of`
    today: int | None = None  # max_ptes_none of the machine
    collapsed: int | None = None  # huge pages that khugepaged has made since the machine's start
    kernel: str = ""
    at: str = ""
    sampled: int = 0  # pages that were read twice
    changed: int = 0  # of these, how many had changed
    changed_pages: list[tuple[Folio | None, Folio | None]] = field(default_factory=list)  # these, at both readings
    seconds: float = 0.0  # that the look took

    @property
    def locked_are_tried(self) -> bool:
        """Whether this kernel's shrinker tries locked pages: before Linux 6.18 (mm/huge_memory.c: deferred_split_scan)."""
        found = re.match(r"Linux ([0-9]{1,4})\.([0-9]{1,4})", self.kernel)
        return found is not None and (int(found[1]), int(found[2])) < (6, 18)


class SnapshotTaker:
    """Takes snapshots; the library of BPF programs is loaded once for all of them. `with_small`: huge pages below PMD size too;
    `all_queued`: as if each page of PMD size were still in its queue; `memory`: MiB that a look keeps at most."""

    def __init__(self, with_small: bool = False, all_queued: bool = False, memory: int = MEMORY) -> None:
        self._with_small, self._all_queued, self._memory = with_small, all_queued, memory
        self._kernel, self.lacking = KernelMemory(), ""  # why the kernel's structures aren't read
        try:
            self._kernel.page_states([])
        except Unavailable as error:
            self.lacking = escape(first_line(error))

    def take(self, choice: ProcessChoice) -> Snapshot:
        """Looks once. What can't be read is counted; a process that ends meanwhile isn't."""
        began = time.monotonic()
        choice.check()
        reader = Reader(self._kernel, self._with_small, memory=self._memory, look=self._look)
        try:
            reader.read_processes(choice.find(reader.unread))
            if reader.denied and missing_capabilities("CAP_SYS_PTRACE"):
                raise Unavailable(f"process {min(reader.denied)} can't be read: CAP_SYS_PTRACE is missing")
            reader.read_all()
            changes = SecondLook(reader).take()
            keep_lasting_pins(reader.folios.values(), self._look)
        finally:
            reader.close()
        for folio in [*reader.folios.values(), *(before for before, _ in changes.pairs if before)]:
            if self._all_queued and folio.order == PMD_ORDER:
                folio.is_queued = True
        snapshot = self._gather(reader, changes)
        if choice.everything and not snapshot.note:
            snapshot.sums["machine"] = machine_huge()
        snapshot.seconds = time.monotonic() - began
        return snapshot

    def _look(self, folios: list[Folio]) -> list[Folio]:
        """Fills in what the kernel's structures contain of pages; returns those that are no longer in use."""
        gone: list[Folio] = []
        for first in range(0, 0 if self.lacking else len(folios), STATES):
            some = folios[first : first + STATES]
            states = self._kernel.page_states([folio.frame for folio in some])
            gone += [folio for folio, state in zip(some, states) if not fill(folio, state)]
        return gone

    def _gather(self, reader: Reader, changes: Changes) -> Snapshot:
        folios = [reader.folios[frame] for frame in sorted(reader.folios)]
        for folio in folios:
            folio.mappings.sort()
        reader.unread += Counter({HIDDEN: sum(folio.known != folio.full for folio in folios)})
        return Snapshot(
            folios=folios,
            processes={number: name_of(number) for number in sorted({m.process for folio in folios for m in folio.mappings})},
            left_out=reader.left_out,
            unread=reader.unread,
            looked_at=reader.looked_at,
            names=names_of_groups({folio.cgroup for folio in folios}),
            note=namespace_note(),
            lacking=self.lacking,
            others=reader.others,
            sums=sums_of(folios, reader.by_pmd),
            kernel=f"Linux {os.uname().release}",
            at=time.strftime("%Y-%m-%dT%H:%M:%SZ", time.gmtime()),
            changed_pages=changes.pairs,
            sampled=changes.sampled,
            changed=changes.changed,
            today=number_in(PTES_NONE),
            collapsed=number_in(COLLAPSED),
        )


def sums_of(folios: Iterable[Folio], by_pmd: int) -> dict[str, int]:
    """Returns in bytes, of pages of PMD size: `by_pmd`: what the processes map by PMD entries, of which there are so many; `distinct`:
    pages that one of them maps so; `by_parts`: pages that none does. A look at all processes adds `machine`, AnonHugePages of
    /proc/meminfo."""
    whole = [folio.known_pmd_mappings > 0 for folio in folios if folio.order == PMD_ORDER]
    counts = {"by_pmd": by_pmd, "distinct": whole.count(True), "by_parts": whole.count(False)}
    return {name: count * BASE << PMD_ORDER for name, count in counts.items()}


def number_in(path: str) -> int | None:
    """Returns the number in a file of the kernel, if it has the file."""
    return int(read(path)) if os.path.exists(path) else None


def names_of_groups(wanted: set[int]) -> dict[int, str]:
    """Returns the names of memory control groups by the inodes of their folders; none where there is no hierarchy."""
    try:
        return group_names(find_hierarchy().mount, wanted)
    except Unavailable:
        return {}


def keep_lasting_pins(folios: Iterable[Folio], look: Callable[[list[Folio]], object]) -> None:
    """Keeps the pins that are still there in a second reading: DAMON and compaction hold a page for a moment."""
    pinned = [folio for folio in folios if folio.pins]
    later = [replace(folio) for folio in pinned]
    look(later)
    for folio, again in zip(pinned, later):
        folio.pins = min(folio.pins or 0, again.pins or 0)


def fill(folio: Folio, state: PageState) -> bool:
    """Fills in what a page's structure contains; returns whether the page is in use."""
    folio.is_queued = bool(folio.order > 1 and state.is_linked)
    folio.is_partly = bool(state.is_partly)
    whole = folio.whole = max(0, state.entire + 1)
    if state.large == state.entire:  # no mapping by PTEs: each subpage has the same count
        folio.totals = even_counts(whole, folio.size)
    folio.pins = state.references - (state.large + 1) - (folio.size if folio.is_swap_cached else 0)
    return bool(not state.has_failed and state.references > 0)  # failed: memory was taken from the machine
