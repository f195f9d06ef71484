"""Scans of the queue by the shrinker: the pages that they take, split and put back."""

from __future__ import annotations

from collections import deque
from dataclasses import dataclass
from itertools import islice, takewhile
from operator import itemgetter
from typing import AbstractSet, Iterable, Iterator, Mapping

from ..common.journal import MOST_CALLERS
from ..common.subpages import runs, size
from .queue_matcher import QueueMatcher
from .reasons import Count, Doubt, Omission
from .records import Record
from .state import FREED, Page, Queue, Scan

BATCH = 128  # pages that a scan takes at most at a time


def batches_of(total: int, freeable: int) -> Iterator[tuple[int, int]]:
    """Yields the batches of one scan, as (first, count): pages of the queue, as the core asks for (mm/shrinker.c: do_shrink_slab)."""
    first = 0
    while total >= min(freeable, BATCH) > 0:
        count = min(BATCH, total)
        yield first, count
        first, total = first + count, total - count


def places_of(pages: Iterable[Page | None]) -> dict[Page, int]:
    """Returns where pages are in a sequence."""
    return {page: at for at, page in enumerate(pages) if page}


@dataclass(eq=False)
class ScanEvents(QueueMatcher):
    """Emits events of scans."""

    emitted_until: int = 0  # when the last emitted scan ended

    def handle_scan(self, record: Record) -> None:
        """Begins a scan on the queue that its record shows, or on the journal's queue if no copy was complete."""
        if record.queue is None:
            record.queue = [page.folio for page in self.queue]
        else:
            self.match(record.queue)
        if self.scans:
            self.begin_doubt(Doubt.OVERLAP)
        joining = [page for page in self.joining.values() if page.folio not in record.queue]
        batches = [*batches_of(*record.values[:2])]
        newest = self.newest > record.time
        pages = [None if newest and page and page.born > record.time else page for page in map(self.page_at, record.queue)]
        self.scans[record.task] = Scan(record, pages, joining, batches, sum(count for _, count in batches), self.changes)

    def handle_scanned(self, record: Record, observed: list[int] | None = None) -> None:
        """Emits a scan that has ended; `observed`: the queue that shows it, if its end isn't recorded yet."""
        scan = self.scans.pop(record.task, None)
        if not scan:
            return
        own = record.queue if observed is None else observed
        if scan.batches and own is not None:
            self._add_faulted(scan, own)
        if not scan.batches or not scan.pages:
            self.match(own)
            return
        if len(scan.batches) > 1 and self.changes > scan.changes:
            self.begin_doubt(Doubt.BATCHES)
        self.emitted_until = max(self.emitted_until, min(record.time, self.now))
        queue = record.queue_at_end() if observed is None else observed
        if queue is None:
            self.tallies[Count.SCANS_MISSING] += 1
            self.begin_doubt(Doubt.MISSING)
            for page in scan.taken:
                page.is_taken = False
                self.omit(page, Omission.UNSEEN_SCAN)
            return
        self.tallies[Count.SCANS] += 1
        self._add_faulted(scan, queue)
        self._leave_to_others(scan, queue)
        self._emit_frees(scan.pages, queue)
        place = {folio: at for at, folio in enumerate(queue)}
        places = [place[page.folio] for page in scan.pages[: scan.reach] if page and page.is_live and page.folio in place]
        self.emit_early_joins(queue[: max(places, default=0)])  # running calls queued these before the scan put pages back
        self._take_before(scan)
        # what precedes a page that it took, and wasn't taken, has joined later, though that was recorded before
        self.move_to_end({page for page in self._older({*scan.pages[: scan.reach], *scan.split}) if page.join})
        stays, kernels, former = list[Page](), self._places_in(queue), places_of(scan.pages)
        while scan.batches:
            stays += self._end_batch(scan, kernels, former, queue)
        self._postpone_joins(kernels, [page for page in stays if not page.is_omitted], {*scan.pages})
        self._put_between(stays, kernels)
        self.match(own)

    def end_scans_early(self, queue: list[int] | None) -> None:
        """Emits a scan that another task still runs, if the pages that it puts back precede a page that is new in the queue. The queue
        shows these pages now: until the scan's end is recorded, one may be freed, and its folio become another page's."""
        if not self.scans or queue is None:
            return
        own_queue = {page.folio for page in self.queue}
        for start, reach in [(scan.start, scan.reach) for scan in self.scans.values() if len(scan.batches) < 2]:
            end = start.end and start.end.queue_at_end()
            if not start.end or not end or not start.queue or self.now < start.time:
                continue  # a copy that was begun before the scan shows nothing of it
            made = start.folios_made or {}  # in these folios the scan's end shows other pages
            before, taken = {*start.queue}, {*start.queue[:reach]}
            back = [folio for folio in end if folio in taken and folio not in made]
            new = [folio for folio in queue if folio not in own_queue and folio not in before and made.get(folio, 0) <= self.now]
            if not {*back} <= {*queue}:
                continue  # it still puts pages back, one by one (Linux 7)
            if any(folio in end and back and end.index(back[0]) < end.index(folio) for folio in new):
                start.end.is_applied = True
                self.handle_scanned(start.end, queue)

    def _places_in(self, queue: list[int]) -> dict[Page, int]:
        """Returns the places of known pages in a copy of the queue, in its order."""
        return places_of([self.page_at(folio) for folio in queue])

    def _batch(self, scan: Scan, first: int, count: int, found: Mapping[Page, int]) -> list[Page]:
        """Returns the pages of a batch: those that were oldest at the scan's start, and of the last batch all that the scan has split. If
        these are too many, it has left some of the first, which are in the queue at its end."""
        batch = [page for page in scan.pages[first : first + count] if page and page in self.queue]
        if not scan.batches:
            former = {*scan.pages[: first + count]}
            batch += [page for page in scan.split if page in self.queue and page not in former]
        left = {*[page for page in batch if page in found][: max(len(batch) - count, 0)]}
        return [page for page in batch if page not in left]

    def _end_batch(self, scan: Scan, found: Mapping[Page, int], former: Mapping[Page, int], queue: list[int]) -> list[Page]:
        """Emits a batch by the queue after it; returns the pages put back, in the kernel's order. `former`: where pages were before."""
        first, count = scan.batches.pop(0)
        batch = [page for page in scan.taken if page.is_live] or self._batch(scan, first, count, found)
        for page in batch:
            page.last_change = max(scan.start.end.time if scan.start.end else 0, self.now)
        stay = sorted((page for page in batch if page in found), key=found.__getitem__)
        if len(stay) > 1 and stay == sorted((page for page in stay if page in former), key=former.__getitem__, reverse=True):
            self.tallies[Count.REVERSED] += 1
        self._omit_requeued(scan.start, stay, found)
        self._look_for_calls(batch, stay, queue)
        taken, scan.taken = batch if scan.taken else self._take(scan.start.task, batch), []
        self._try_batch(scan.start.task, taken, stay)
        return stay

    def _look_for_calls(self, pages: list[Page], stay: list[Page], queue: list[int]) -> None:
        """Emits partial unmaps of running calls that no event shows yet, and that a batch shows: `stay` are the pages put back."""
        for page in pages:
            if page in stay or self._is_too_full(page):
                for call in self.calls_reaching(page):
                    if not page.is_partly_mapped:
                        self.apply_early(call, page, queue)

    def _take(self, task: int, pages: list[Page]) -> list[Page]:
        """Emits that a scan takes pages; returns them in the journal's order."""
        taken = self._order_by_journal(pages)
        self.open_batch(task)
        for page in taken:
            self.emit(task, page, "taken")
            self.dequeue(page)
            page.is_taken = True
        return taken

    def _take_before(self, scan: Scan) -> None:
        """Emits what scans that still run have done before this one took its pages: they took older ones, none of which was in the queue
        at this scan's start. All take their first batches before any takes a second one."""
        if not self.scans:
            return
        queue, pages, older = scan.start.queue or [], {*scan.pages}, self._older({*scan.pages[: scan.reach], *scan.split})
        waiting = [(number, other, *each) for other in self.scans.values() for number, each in enumerate(other.batches)]
        for _, other, first, count in sorted(waiting, key=itemgetter(0)):
            mine = [page for page in other.pages[first : first + count] if page and page in self.queue]
            has_room = sum(bool(each.taken) for each in self.scans.values()) < MOST_CALLERS - 1
            if not has_room or older.isdisjoint(mine) or not pages.isdisjoint(mine):
                continue
            if other.batches[0] != (first, count):
                self._end_batch(other, self._places_in(queue), places_of(other.pages), queue)
            other.taken = self._take(other.start.task, mine)

    def _try_batch(self, task: int, taken: list[Page], stay: list[Page]) -> None:
        """Emits the tries of a batch, and the put-backs: `stay` are the pages put back, in the kernel's order."""
        back = [page for page in taken if page in stay]
        for page in taken:
            page.is_taken = False
            self._emit_try(task, page, page in stay)
        for page in back:
            self.emit(task, page, "back")
            page.join = 0
        self.queue.update(dict.fromkeys(stay))
        self.journal_queue.update(dict.fromkeys(back))

    def _omit_requeued(self, start: Record, stay: list[Page], found: Mapping[Page, int]) -> None:
        """Omits a page that a call has queued again, if another is between those put back: the scan found it in use and dropped it. Linux 7
        puts them back one by one: a page that became partly mapped during the scan may then be left out needlessly."""
        places = [found[page] for page in stay]
        if places and places[-1] - places[0] >= len(places):
            for page in stay:
                if page.partly_since >= start.time:
                    self.omit(page, Omission.REQUEUED)

    def _add_faulted(self, scan: Scan, queue: list[int]) -> None:
        """Adds pages that joined at their faults after the scan's start was recorded and before it took its pages: it takes
        more than were in the queue then, and these aren't in the queue at its end."""
        joining, shown, known = {*scan.joining}, {*queue}, {*scan.pages}
        for page in self.queue:
            is_gone = page.folio not in shown and page not in known and not page.is_freed
            is_new = is_gone and (page in joining or page.born >= scan.start.time)
            if not is_new or len(scan.pages) >= scan.start.values[0]:
                continue
            if page.is_perhaps_taken or page in self.joining.values() and not page.has_joined:
                page.is_perhaps_taken = True  # by this scan, or by one before
            else:
                scan.pages.append(page)

    def _leave_to_others(self, scan: Scan, queue: list[int]) -> None:
        """Takes pages from a scan that has ended which another has taken: they have left the queue, and this one freed nothing of them."""
        if not self.scans:
            return
        others = {page for other in self.scans.values() for page in other.pages[: other.reach]} - {*scan.split, *scan.taken}
        shown = {*queue}
        scan.pages = [page for page in scan.pages if page is None or page not in others or page.folio in shown or page.is_freed
                      or not page.is_partly_mapped]

    def _emit_frees(self, pages: list[Page | None], queue: list[int]) -> None:
        """Emits the frees of pages during a scan that no event shows yet: a running call freed the page, or a process that is ending."""
        for page in [page for page in pages if page and (page.packed & FREED if page.packed else page.is_freed)]:
            for call in self.calls_reaching(page):
                if page.is_live:
                    self.apply_early(call, page, queue)
            if page.is_live and self.is_ending(page):
                self.end_early(page, queue)

    def _put_between(self, back: list[Page], kernels: Mapping[Page, int]) -> None:
        """Gives the pages put back their places among those that joined meanwhile: Linux 7 puts pages back one by one."""
        queue: Queue = {}
        rest, those = deque(back), {*back}
        for page in [page for page in self.queue if page not in those]:
            while rest and kernels[rest[0]] < kernels.get(page, -1):
                queue[rest.popleft()] = None
            queue[page] = None
        self.queue = {**queue, **dict.fromkeys(rest)}

    def _is_too_full(self, page: Page) -> bool:
        """Returns whether what a split gave back is too little for an underused page."""
        given = size(page.freed_frames & page.held)
        return bool(given) and not page.is_freed and given <= (self.underused or page.subpages)

    def _postpone_joins(self, kernels: Mapping[Page, int], stay: list[Page], taken: AbstractSet[Page | None]) -> None:
        """Moves events of pages that joined while the scan ran, and follow the pages put back, after the scan."""
        if not stay:
            return
        edge = max(kernels[page] for page in stay)
        before = takewhile(lambda page: page is not stay[0], self.queue)
        self.move_to_end({page for page in before if kernels.get(page, -1) > edge and page not in taken})

    def _order_by_journal(self, pages: list[Page]) -> list[Page]:
        """Returns the pages of a batch in the journal's order. If others are older there, though not in the kernel's queue, since the
        kernel has put pages back in reverse order (E), all pages of the queue are left out; if it isn't known which are, the older."""
        members = {page for page in pages if page in self.journal_queue}
        own = [*islice((page for page in self.journal_queue if page in members), len(members))]
        mine = [page for page in own if not page.is_omitted]
        oldest, theirs = ({*islice((page for page in each if not page.is_omitted), len(mine))} for each in (self.journal_queue, self.queue))
        if {*mine} != oldest:
            if {*mine} == theirs:
                for page in self.queue:
                    self.omit(page, Omission.PART_SCANNED)
            elif self.is_doubted:
                for page in self._older({*pages}):
                    self.omit(page, Omission.OVERLAPPED)
        return own

    def _older(self, pages: AbstractSet[Page | None]) -> set[Page]:
        """Returns the pages of the journal's queue that precede one of these pages, and are none of them."""
        last = max((i for i, page in enumerate(self.journal_queue) if page in pages), default=0)
        return {page for page in islice(self.journal_queue, last) if page not in pages}

    def _emit_try(self, task: int, page: Page, stays: bool) -> None:
        """Emits the try of a page that was taken."""
        page.is_tried = True
        if stays and not page.is_partly_mapped:
            self.omit(page, Omission.LOCKED)
        if stays:
            self.hold(task, page)
            self.emit(task, page, "pinned")
        elif page.is_freed:
            pass  # its last unmap has an event
        elif page.is_partly_mapped or page.freed_frames:
            self._emit_split(task, page)
        else:
            if not page.is_seen or page.subpages - size(page.written) > (self.underused or 0):
                self._emit_writes(task, page, page.used_subpages())
            self.emit(task, page, "used")

    def _emit_writes(self, task: int, page: Page, bits: int) -> None:
        """Emits the writes that the kernel's verdict implies: no tracepoint reports writes."""
        if self.underused is not None:
            for first, count in runs(bits & ~page.written):
                self.emit(task, page, "write", first, count)
            page.written |= bits

    def _emit_split(self, task: int, page: Page) -> None:
        """Emits the split of a page, by the frames that it gave back."""
        given, used = page.freed_frames & page.held, page.used_subpages()
        if not used:  # only the scan held it any more: the model frees it by its last unmap
            self.tallies[Count.HELD_BY_SCAN] += 1
            self.emit(task, page, "unpin", outcome="freed", given=page.held)
            self.remove_page(page)
            return
        if page.held & ~used & ~given:
            self.omit(page, Omission.HELD_BEYOND_SPLIT)
        if self.underused is not None and not page.is_partly_mapped and size(given) <= self.underused:
            self.omit(page, Omission.WRITTEN)
        zeros = given & used
        if self.underused is not None:
            for first, count in runs(zeros & page.written):
                self.emit(task, page, "zero", first, count)
            self._emit_writes(task, page, used & ~given)
        elif zeros:
            self.tallies[Count.ZEROS_BACK] += 1
            given &= ~used
        self.let_go(task, page)
        self.emit(task, page, "split", given=given)
        page.held &= ~given
        page.split = True
        for mapping in page.maps:
            mapping.whole = False
