"""A huge page as it was read. A set of subpages is an integer whose bit i is subpage i."""

from __future__ import annotations

from array import array
from dataclasses import dataclass, field
from functools import lru_cache
from typing import NamedTuple, Sequence

MOST_MAPPED = (1 << 32) - 1  # mappings of a subpage that are counted


@lru_cache(maxsize=16)
def full_set(order: int) -> int:
    """Returns the set of all subpages of a page of this order: one object for all such pages."""
    return (1 << (1 << order)) - 1


@lru_cache(maxsize=64)
def even_counts(count: int, size: int) -> tuple[int, ...]:
    """Returns the map counts of a page whose `size` subpages are all mapped `count` times: one object for all such pages."""
    return (count,) * size


def compact_counts(totals: Sequence[int]) -> Sequence[int]:
    """Returns map counts in the form that takes the least memory."""
    if totals and totals.count(totals[0]) == len(totals):
        return even_counts(totals[0], len(totals))
    most = max(totals, default=0)
    return bytes(iter(totals)) if most < 256 else array("I", (min(total, MOST_MAPPED) for total in totals))


class Mapping(NamedTuple):
    """How one process maps a huge page, or a part of it."""

    process: int  # its number (pid)
    address: int  # of subpage 0, whether that one is mapped or not; modulo 2**64
    subset: int  # the subpages
    by_pmd: bool  # by one PMD entry; else by PTEs


@dataclass
class Folio:
    """One huge page. What wasn't read is None."""

    frame: int  # the number of its first frame
    order: int
    cgroup: int = 0  # the inode of its memory cgroup's directory (/proc/kpagecgroup), 0: none
    mappings: list[Mapping] = field(default_factory=list)
    totals: Sequence[int] = ()  # map counts by subpage, all processes (/proc/kpagecount); see `compact_counts`
    zero: int = 0  # zero-filled subpages
    known: int = 0  # subpages whose content was read
    kept: int = 0  # subpages that a locked VMA maps: a split leaves their zeros
    is_locked: bool = False  # the page itself is (PG_mlocked)
    is_poisoned: bool = False
    is_swap_cached: bool = False  # the swap cache holds a reference for each subpage
    is_lazily_freed: bool = False  # given to MADV_FREE: reclaim drops it whole, if nothing writes it before
    is_queued: bool | None = None  # in a deferred split queue
    is_partly: bool | None = None  # flagged as partly mapped
    whole: int | None = None  # its mappings by PMD entries, all processes
    pins: int | None = None  # references beyond those of its mappings

    @property
    def size(self) -> int:
        """Its number of subpages."""
        return 1 << self.order

    @property
    def full(self) -> int:
        """The set of all its subpages."""
        return full_set(self.order)

    @property
    def known_pmd_mappings(self) -> int:
        """Mappings by PMD entries of the processes that were looked at."""
        return sum(mapping.by_pmd for mapping in self.mappings)

    @property
    def zeros(self) -> int:
        """The subpages known to be zero-filled."""
        return self.zero & self.known
