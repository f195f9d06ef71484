"""What the records prove of the kernel by themselves, whatever the journal infers. A walk of the queue takes no lock and a while; a page
that is freed or made meanwhile may be met at any place.

The order of two copies proves something where the first was complete before the second was begun, and each scan that ran since the first
was begun had taken its pages before: it takes them in one step, before it frees a frame of one of them. Then the pages that both copies
show have stayed in their order, and all others follow them. A copy is complete when the next record without one is made."""

from __future__ import annotations

from dataclasses import dataclass, field
from typing import AbstractSet

from .reasons import Count
from .records import WITH_QUEUE, Kind, Record
from .scans import batches_of
from .state import State

SOON = 1000000  # ns in which nothing makes a page again and queues it unseen
MANY = 4096  # pages of which is kept when they were freed or made
PLACES = {Kind.FREE: 0, Kind.ALLOC: 0, Kind.MOVED: 1, Kind.COLLAPSED: 2}  # of the page freed or made among a record's values


@dataclass
class RunningScan:
    """A scan that runs: the pages in the queue at its start, whether the core asks it for one batch, when it had taken its pages
    (0: not known), and the frames that it has freed."""

    pages: AbstractSet[int]
    takes_once: bool
    taken: int = 0
    frames: set[int] = field(default_factory=set)


class QueueLaws:
    """Looks at the records. Of each law it counts what contradicts it."""

    def __init__(self, state: State) -> None:
        self._tallies, self._mask = state.tallies, -(state.page_size << state.order)
        self._running: dict[int, RunningScan] = {}  # by tasks
        self._ended = 0  # when a scan ended last
        self._settled = 0  # until when scans that have ended may have taken pages
        self._changed: dict[int, int] = {}  # when pages were last freed or made
        self._free: dict[int, int] = {}  # of those, when pages were freed that weren't made since
        self._forgotten = 0  # until when pages were freed and made that aren't kept
        self._last: list[int] = []  # the last copy
        self._begun = 0  # and when that was
        self._over = 0  # by when it was complete

    def see(self, record: Record) -> None:
        """Takes the next record."""
        kind, time, changed = record.kind, record.time, self._changed
        if kind in PLACES:
            self._note(record, record.values[PLACES[kind]])
        if record.twice and not self._running and max(self._ended, self._forgotten, changed.get(record.twice, 0)) < time:
            self._tallies[Count.MET_TWICE] += 1
        if record.foreign:
            self._tallies[Count.FOREIGN] += 1
        if record.queue is not None:
            freed = [self._free[folio] for folio in record.queue if folio in self._free]
            if freed:
                self._tallies[Count.QUEUED_FREE] += sum(each < time < each + SOON for each in freed)
            self._compare(record.queue, time)
        elif kind not in WITH_QUEUE:
            self._over = self._over or time
        if kind is Kind.TRIED and record.task in self._running:
            scan = self._running[record.task]
            scan.taken = scan.taken or record.values[1]
        elif kind is Kind.SCAN:
            self._running[record.task] = RunningScan({*(record.queue or ())}, len([*batches_of(*record.values[:2])]) < 2)
        elif kind is Kind.SCANNED:
            scan = self._running.pop(record.task, RunningScan(frozenset(), False))
            self._ended = max(self._ended, time)
            self._settled = max(self._settled, scan.taken if scan.takes_once and scan.taken else time)

    def _note(self, record: Record, page: int) -> None:
        """Notes that a page or a frame was freed, or a page made."""
        is_free, changed = record.kind is Kind.FREE, self._changed
        is_frame = is_free and record.values[1] == 0
        if not is_frame or page in changed:
            changed[page] = record.time
            self._free.pop(page, None)
            if is_free:
                self._free[page] = record.time
        if len(changed) > MANY:
            self._forgotten, self._last = record.time - SOON, []
            self._changed = {each: time for each, time in changed.items() if time > self._forgotten}
            self._free = {each: time for each, time in self._free.items() if each in self._changed}
        scan = self._running.get(record.task) if is_frame else None
        if scan and page & self._mask in scan.pages:
            if record.values[2] and page in scan.frames:
                self._tallies[Count.FREED_TWICE] += 1
            scan.frames.add(page)
            scan.taken = scan.taken or record.time

    def _compare(self, queue: list[int], begun: int) -> None:
        """Compares a copy with the last one, if that was complete before."""
        last, since, changed = self._last, self._begun, self._changed
        if begun <= self._forgotten or last and not 0 < self._over <= begun:
            return
        self._last, self._begun, self._over = queue, begun, 0
        if queue[: len(last)] == last or self._settled >= since:
            return
        if all(scan.takes_once and 0 < scan.taken < since for scan in self._running.values()):
            steady = [folio for folio in queue if changed.get(folio, 0) < since]
            members = {*steady}
            stayed = [folio for folio in last if folio in members]
            if steady[: len(stayed)] != stayed:
                self._tallies[Count.OVERTAKEN] += 1
