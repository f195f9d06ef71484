"""The kernel's files of pages: what a process maps, flags and map counts by frame, and the frames of each NUMA node.

Rules: Documentation/admin-guide/mm/pagemap.rst and include/uapi/linux/kernel-page-flags.h of the kernel. All files hold
one 64-bit number for each base page; frames are counted from 0."""

from __future__ import annotations

import io
import os
import re
from array import array
from typing import Sequence

from .errors import Unavailable
from .files import BASE, read

_ZONE = re.compile(r"^Node ([0-9]+), zone ", re.MULTILINE)
_RANGE = re.compile(r"^ +spanned +([0-9]+)$.*^ +start_pfn: +([0-9]+)$", re.MULTILINE | re.DOTALL)


class PageFlag:
    """Bits of /proc/kpageflags that the tools use."""

    SWAPCACHE = 1 << 13
    SWAPBACKED = 1 << 14  # an anonymous page without it was given to MADV_FREE: reclaim drops it whole
    COMPOUND_HEAD = 1 << 15
    COMPOUND_TAIL = 1 << 16
    HWPOISON = 1 << 19
    THP = 1 << 22
    MLOCKED = 1 << 33


class TooShort(OSError):
    """A file ends before what is to be read: the process has ended, or memory was taken from the machine."""


class NumberFile(io.FileIO):
    """A file of 64-bit numbers. Unavailable where there is none for the caller."""

    def __init__(self, path: str) -> None:
        try:
            super().__init__(path)
        except (FileNotFoundError, PermissionError) as error:
            raise Unavailable(f"{path} can't be read: {error.strerror} (PROC_PAGE_MONITOR, root)") from error

    def at(self, first: int, count: int) -> Sequence[int]:
        """Returns `count` numbers from place `first` on. TooShort where the file ends before."""
        raw = os.pread(self.fileno(), 8 * count, 8 * first)
        if len(raw) != 8 * count:
            raise TooShort(0, f"{self.name!r} ends early")
        return array("Q", raw)


def frame_of_entry(entry: int) -> int | None:
    """Returns the frame of a pagemap entry, or None where nothing is present."""
    return entry & (1 << 55) - 1 if entry >> 63 else None


def frames_at(process: int, address: int, count: int) -> list[int | None]:
    """Returns the frames that a process maps at `count` base pages from an address on; None where none is present."""
    with NumberFile(f"/proc/{process}/pagemap") as pagemap:
        return [frame_of_entry(entry) for entry in pagemap.at(address // BASE, count)]


class Frames:
    """Flags (PageFlag) and map counts by frame."""

    def __init__(self) -> None:
        self._files = [NumberFile("/proc/kpageflags"), NumberFile("/proc/kpagecount")]
        self.flags = self._files[0].at

    def counts(self, first: int, count: int) -> tuple[int, ...]:
        """Returns how often each of `count` frames is mapped."""
        return tuple(self._files[1].at(first, count))

    def close(self) -> None:
        for file in self._files:
            file.close()


def numa_frames(text: str | None = None) -> dict[int, list[range]]:
    """Returns the ranges of frames of each NUMA node that has memory. Unavailable where those of two nodes overlap."""
    parts = _ZONE.split(read("/proc/zoneinfo") if text is None else text)
    out: dict[int, list[range]] = {}
    for node, zone in zip(parts[1::2], parts[2::2]):
        found = _RANGE.search(zone)
        if found:  # a zone without memory has no start
            spanned, start = map(int, found.groups())
            out.setdefault(int(node), []).append(range(start, start + spanned))
    placed = sorted((each.start, each.stop, node) for node, ranges in out.items() for each in ranges)
    for (_, stop, node), (next_start, _, other) in zip(placed, placed[1:]):
        if next_start < stop and node != other:
            raise Unavailable(f"the frames of NUMA nodes {node} and {other} overlap")
    return out
