"""A kernel's queue and a few threads, played step by step in a random order, with the records that the trace programs send.

Rules: mm/huge_memory.c of the kernel (deferred_split_folio, deferred_split_scan). Linux 7 puts pages back one by one as it
tries them, older kernels all at a scan's end."""

from __future__ import annotations

import itertools
import random
from dataclasses import dataclass
from typing import Iterator

from ..common.subpages import bits_of, runs, size
from ..record.records import IN_FAULT, Kind, Record

BASE, PMD = 4096, 1 << 21
SUBPAGES, EVERY = 512, (1 << 512) - 1
FIRST_FOLIO, FOREIGN, PAGE_SIZE = 0xFFFFEA0000008000 & -(64 * SUBPAGES), 0xFFFFEA0010000000, 64
SPACE, SCANNER = 0xA000, 90
MADVISE, DONTNEED, MUNMAP, WRITE_FAULT = 28, 4, 11, 6
STEP = 10  # ns between two records

Steps = Iterator[None]


@dataclass(eq=False)
class PlayedPage:
    """A huge page: the subpages that are mapped and those with data. `is_listed`: it is in the queue or in a scan's list."""

    folio: int
    address: int
    data: int
    mapped: int = EVERY
    pins: int = 0
    is_partly_mapped: bool = False
    is_listed: bool = False
    is_split: bool = False
    holders: int = 0  # scans
    is_free: bool = False


class PlayedKernel:
    """Threads of one process, and scans. `records` are those that a recording has; `wrong`: how often it did wrong. A `bug` is one of:

    first       a page joins at the queue's head
    head        a scan puts pages back there
    twice       a page joins the queue twice
    foreign     a page of another group joins too
    double      a split gives back a frame twice
    taken       a page is freed while a scan holds it"""

    def __init__(self, seed: int, one_by_one: bool, threshold: int | None, threads: int = 3, bug: str = "", scanners: int = 1) -> None:
        self.chance = random.Random(seed)
        self.records: list[Record] = []
        self.queue: list[PlayedPage] = []
        self._one_by_one, self._threshold, self._bug = one_by_one, threshold, bug
        self._foreign = itertools.count()
        self.wrong = 0
        self._places_each = max(2, 8 // threads)  # of a thread, for pages
        self._free = list(range(2 * self._places_each * threads))  # frames of huge pages, which are used again
        self._places: dict[int, PlayedPage | None] = {}  # by address
        self._tasks = [self._work(number) for number in range(1, threads + 1)]
        self._tasks += [self._scan_again(SCANNER + number) for number in range(scanners)]

    def play(self, steps: int) -> list[Record]:
        """Takes steps of tasks picked at random; returns the records."""
        for _ in range(steps):
            next(self.chance.choice(self._tasks))
        return self.records

    def _record(self, kind: Kind, task: int, values: list[int], with_queue: bool = False) -> None:
        queue = [page.folio for page in self.queue] if with_queue else None
        padded = (*values, *[0] * (9 - len(values)))
        foreign = next((folio for folio in queue or () if folio >= FOREIGN), 0)
        self.records.append(Record(kind, STEP * (1 + len(self.records)), task, SPACE, padded, queue, foreign=foreign))

    def _work(self, task: int) -> Steps:
        """A thread with places for pages."""
        addresses = [PMD * (10 * task + i) for i in range(self._places_each)]
        while True:
            address = self.chance.choice(addresses)
            page, deed = self._places.get(address), self.chance.randrange(8)
            if not page:
                yield from self._make(task, address)
            elif deed < 4:
                first = self.chance.randrange(SUBPAGES)
                yield from self._call(task, page, bits_of(first, 1 + self.chance.randrange(SUBPAGES - first)), MADVISE)
            elif deed == 4:
                yield from self._call(task, page, EVERY, MUNMAP)
                self._places[address] = None
            elif not page.is_split:
                yield from self._pin(task, page)
            yield

    def _make(self, task: int, address: int) -> Steps:
        if not self._free:
            return
        folio = FIRST_FOLIO + PAGE_SIZE * SUBPAGES * self._free.pop(self.chance.randrange(len(self._free)))
        page = PlayedPage(folio, address, EVERY if self.chance.randrange(2) else bits_of(0, self.chance.randrange(SUBPAGES)))
        self._record(Kind.ALLOC, task, [folio, 9, IN_FAULT, address, WRITE_FAULT])
        yield
        if self._threshold is not None:
            self._join(page)
            yield
        self._places[address] = page

    def _call(self, task: int, page: PlayedPage, bits: int, number: int) -> Steps:
        (first, count), *_ = runs(bits)
        call = [number, page.address + BASE * first, BASE * count, DONTNEED]
        self._record(Kind.ENTER, task, call)
        yield
        yield from self._unmap(task, page, bits)
        yield
        self._record(Kind.EXIT, task, [*call, 0], True)

    def _unmap(self, task: int, page: PlayedPage, bits: int) -> Steps:
        gone = page.mapped & bits
        page.mapped &= ~bits
        if page.is_split:
            self._free_frames(task, page, gone)
            if not page.mapped:
                self._release(page)
            return
        if page.mapped and gone:
            page.is_partly_mapped = True
            self._join(page)
        yield
        self._put(task, page)

    def _pin(self, task: int, page: PlayedPage) -> Steps:
        page.pins = 1
        for _ in range(self.chance.randrange(20)):
            yield
        page.pins = 0
        self._put(task, page)

    def _has_bug(self, bug: str, of: int = 4) -> bool:
        """Returns whether it does wrong now, once of so many times."""
        is_now = bool(bug) and self._bug == bug and not self.chance.randrange(of)
        self.wrong += is_now
        return is_now

    def _join(self, page: PlayedPage) -> None:
        if not page.is_listed:
            page.is_listed = True
            self.queue += [page, page] if self._has_bug("twice") else [page]
            if len(self.queue) > 1 and self._has_bug("first", 1):
                self.queue.insert(0, self.queue.pop())
            if self._has_bug("foreign"):
                self.queue.append(PlayedPage(FOREIGN + PAGE_SIZE * SUBPAGES * next(self._foreign), 0, EVERY, 1, 1, True, True))

    def _put(self, task: int, page: PlayedPage) -> None:
        """Frees a page that nothing holds any more."""
        is_last = not (page.mapped or page.pins or page.is_split or page.is_free)
        if is_last and (not page.holders or self._has_bug("taken", 1)):
            self._leave(page)
            self._record(Kind.FREE, task, [page.folio, 9])
            self._release(page)

    def _leave(self, page: PlayedPage) -> None:
        self.queue = [each for each in self.queue if each is not page]

    def _release(self, page: PlayedPage) -> None:
        if not page.is_free:
            page.is_free = True
            self._free.append((page.folio - FIRST_FOLIO) // (PAGE_SIZE * SUBPAGES))

    def _free_frames(self, task: int, page: PlayedPage, bits: int, again: int = 0) -> None:
        for number in [number for first, count in runs(bits) for number in range(first, first + count)]:
            self._record(Kind.FREE, task, [page.folio + PAGE_SIZE * number, 0, again])

    def _scan_again(self, task: int) -> Steps:
        while True:
            for _ in range(self.chance.randrange(30)):
                yield
            yield from self._scan(task)

    def _scan(self, task: int) -> Steps:
        freeable = len(self.queue)
        yield
        total = freeable + self.chance.randrange(freeable + 1)
        self._record(Kind.SCAN, task, [total, freeable], True)
        if not total:
            self._record(Kind.SCANNED, task, [0, 0], True)
            return
        yield
        taken = self.queue[:total]
        for page in taken:
            self._leave(page)
            page.holders += 1
        back: list[PlayedPage] = []
        split = 0
        for page in [*dict.fromkeys(taken)][::-1]:
            yield
            if self._one_by_one:
                page.is_listed = False
            is_split, stays = self._try(task, page)
            split += is_split
            yield
            if stays and self._one_by_one and not page.is_split:  # by another scan, which a call's queueing gave it
                self._join(page)
                if len(self.queue) > 1 and self._has_bug("head", 1):
                    self.queue.insert(0, self.queue.pop())
            elif stays and not self._one_by_one:
                back.append(page)
                continue
            page.is_listed = page.is_listed and self._one_by_one
            yield
            self._let_go(task, page)
        self.queue = back + self.queue if back and self.queue and self._has_bug("head", 1) else self.queue + back
        yield
        for page in back:
            self._let_go(task, page)
        self._record(Kind.SCANNED, task, [0, split], True)

    def _let_go(self, task: int, page: PlayedPage) -> None:
        page.holders -= 1
        self._put(task, page)

    def _try(self, task: int, page: PlayedPage) -> tuple[bool, bool]:
        """Returns whether a page was split, and whether it is put back."""
        zeros = size(EVERY & ~page.data)
        underused = self._threshold is not None and not page.is_partly_mapped and zeros > self._threshold
        if not page.is_partly_mapped and not underused:
            return False, False
        if page.pins or not page.mapped:
            return False, page.is_partly_mapped
        page.is_split, page.is_listed = True, False
        self._leave(page)  # a call may have queued it meanwhile
        gone = EVERY & (~page.mapped | ~page.data)
        self._free_frames(task, page, gone)
        if gone and self._has_bug("double"):
            self._free_frames(task, page, gone & -gone, 1)
        page.mapped &= page.data
        if not page.mapped:
            self._release(page)
        return True, False
