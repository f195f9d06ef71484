"""Scans whose batches function tracing has observed: what they took, tried and split, and when; those that overlap are in their order."""

from __future__ import annotations

from bisect import bisect_left
from collections import deque
from dataclasses import dataclass, field
from itertools import groupby, islice, takewhile
from typing import Iterable, Iterator

from ..common.journal import MOST_CALLERS
from .calls import list_removals
from .reasons import Count, Doubt, Omission
from .records import Batch, Kind, Record
from .scans import BATCH, ScanEvents, batches_of
from .state import Page, Scan, union_of

WALK = 10 ** 7  # ns that a walk of the queue takes at most
TASK = (1 << 32) - 1  # of a part's key
NEXT = 8  # batches that a copy may show
AHEAD = 512  # records that are looked at before one is taken


def with_bounds(records: Iterable[Record]) -> Iterator[tuple[Record, int]]:
    """Yields records, each with a time (ns) by which it had its place in the ring: the least of its own and those of the next ones."""
    ahead: deque[Record] = deque()
    least: deque[int] = deque()  # of the times ahead, those that no later record's time is below
    for record in records:
        while least and least[-1] > record.time:
            least.pop()
        least.append(record.time)
        ahead.append(record)
        if len(ahead) > AHEAD:
            yield from _take_first(ahead, least)
    while ahead:
        yield from _take_first(ahead, least)


def _take_first(ahead: deque[Record], least: deque[int]) -> Iterator[tuple[Record, int]]:
    record = ahead.popleft()
    yield record, least[0]
    if least[0] == record.time:
        least.popleft()


@dataclass(eq=False)
class TracedScans(ScanEvents):
    """Emits events of observed batches; where none is observed, those of scans as their copies show them."""

    batches: deque[Batch] | None = None  # that haven't begun; None: functions weren't traced
    _asked: dict[int, Iterator[tuple[int, int]]] = field(default_factory=dict)  # by tasks that scan, what they are asked for
    _held: dict[int, tuple[Batch, int]] = field(default_factory=dict)  # parts of batches that have begun, and when their tries are over
    _back: list[Page] = field(default_factory=list)  # pages put back since a copy was last compared

    def handle_scan(self, record: Record) -> None:
        """Notes what a scan is asked for."""
        if self.batches is None:
            super().handle_scan(record)
            return
        self.match(record.queue)
        self._asked[record.task] = batches_of(*record.values[:2])

    def handle_scanned(self, record: Record, observed: list[int] | None = None) -> None:
        """Compares the queue after a scan."""
        if self.batches is None:
            super().handle_scanned(record, observed)
            return
        self._asked.pop(record.task, None)
        self.end_batch(record.task)
        self.match(record.queue)

    def match(self, queue: list[int] | None) -> None:
        """The same with the places of pages that were put back since: beside them other pages have joined. A copy that lacks what a batch
        takes only later in the journal shows nothing."""
        upcoming = [*islice(self.batches or (), NEXT)] if queue is not None else []
        members = {*self.queue} - {*self.joining.values()} if upcoming else set()
        for batch in upcoming:
            tried = {folio for folio in batch.tries if self.page_at(folio) in members}
            if batch.asked < self.now + WALK and tried and tried.isdisjoint(queue or ()):
                return
        if queue is not None and self._back and not self.scans:
            kernels = self._places_in(queue)
            back, self._back = {*self._back} & {*self.queue}, []
            stays = [page for page in kernels if page in back]
            self._postpone_joins(kernels, [page for page in stays if not page.is_omitted], back)
            self._put_between(stays, kernels)
        super().match(queue)

    def begin_batches(self, now: int) -> None:
        """Emits what batches have taken that began until now."""
        while self.batches and self.batches[0].begin <= now:
            batch = self.batches.popleft()
            before = self._batches_before(batch)
            if before:
                batch.begin = self.batches[before - 1].begin
                self.batches.insert(before, batch)
            else:
                self._begin_batch(batch)

    def _batches_before(self, batch: Batch) -> int:
        """Returns how many of the next batches have begun before this one, if it can be so late: another takes the oldest page."""
        latest = next((asked for _, asked, _ in batch.tries.values()), 0)
        oldest = next((page.folio for page in self.queue), 0)
        others = takewhile(lambda each: each.begin <= latest, islice(self.batches or (), NEXT))
        return 0 if oldest in batch.tries else next((at + 1 for at, each in enumerate(others) if oldest in each.tries), 0)

    def _begin_batch(self, batch: Batch) -> None:
        """Emits what a batch has taken: the oldest pages, and each that it tried: those partly mapped that no other task has locked."""
        self.now, self.task = batch.begin, batch.task
        for key in [key for key, (_, end) in self._held.items() if end <= batch.begin]:
            self._end_part(key)
        _, count = next(self._asked.get(batch.task, iter(())), (0, BATCH))
        tried = [page for page in map(self.page_at, batch.tries) if page]
        for page in reversed(tried):
            self._free_from_others(page)
            if page not in self.queue:
                self.emit_join(page, [page.folio])
            if page not in self.queue:
                self.omit(page, Omission.UNKNOWN_JOIN)
        if self.scans and batch.puts_singly:
            self.begin_doubt(Doubt.OVERLAP)
        mine = {*tried}
        joining = {*self.joining.values()}
        queue = [page for page in self.queue if page in mine or page not in joining]
        reach = max((at + 1 for at, page in enumerate(queue) if page in mine), default=0)
        oldest = queue[: max(count, reach)]
        left = [page for page in oldest if page not in mine][: max(len(oldest) - count, 0)]
        for page in left:
            if self._goes(page):  # it has left the queue, and the record of its free comes
                self._emit_leave(page, [])
            else:
                self.omit(page, Omission.PART_SCANNED)
        newer = {page for page in oldest[reach:] if page.is_partly_mapped}  # these have joined later
        pages = [page for page in oldest if page in self.queue and page not in left and page not in newer]
        if pages:
            self._divide(batch, pages)

    def _free_from_others(self, page: Page) -> None:
        """Ends a batch that holds a page which another has taken. If it puts pages back singly, a call has queued this one meanwhile."""
        for key, scan in [*self.scans.items()]:
            if page in scan.taken and self._held[key][0].puts_singly:
                self.omit(page, Omission.REQUEUED)
                scan.taken.remove(page)
                page.is_taken = False
            elif page in scan.taken:
                self._end_part(key)

    def _goes(self, page: Page) -> bool:
        """Returns whether calls that run, or the ends of its processes, take all mappings of a page away."""
        gone = union_of(self._subpages_in_range(call, effect, page) for call in self.calls_reaching(page) for effect in list_removals(call))
        return not page.used_subpages() & ~gone or self.is_ending(page)

    def _divide(self, batch: Batch, pages: list[Page]) -> None:
        """Emits that a batch takes pages, oldest first. Where it puts them back singly, others can take some before it ends: the newest are
        tried first. So each run of pages whose tries are over before the same batch begins is a part: a batch of its own in the journal."""
        others = [*takewhile(lambda each: each.begin < batch.end, (self.batches or ()) if batch.puts_singly else ())]
        ends = [*(each.begin for each in others if each.tries), batch.end]
        latest = dict(zip(batch.tries, [*(begin for _, begin, _ in islice(batch.tries.values(), 1, None)), batch.end]))  # they are back
        over, tried, back = {}, batch.begin, batch.begin
        for page in reversed(pages):  # one that isn't tried is passed by
            tried, back = batch.tries.get(page.folio, (0, 0, tried))[2], latest.get(page.folio, back)
            shown = (each.begin for each in others if tried <= each.begin < back and page.folio in each.tries)
            over[page] = ends[bisect_left(ends, min(next(shown, back), batch.end))]
        journal = self._order_by_journal(pages)
        parts = [(end, [*part]) for end, part in groupby(journal, over.__getitem__)]
        room = MOST_CALLERS - 2 - len(self.scans)
        if len(parts) > room:
            parts = [(batch.end, journal)] if room > 0 else []
        for page in pages if not parts else ():
            self.omit(page, Omission.OVERLAPPED)
            self.dequeue(page)
        is_ordered = len(parts) == 1 and not self._back and not self.scans
        for number, (end, part) in enumerate(parts):
            key = batch.task + (number << 32)
            start = Record(Kind.BATCH, batch.begin, key, 0, (0,) * 9, None)
            batches, kernels = [(0, len(part))] if is_ordered else [], [page for page in pages if page in part]
            self.scans[key] = Scan(start, [*kernels], [], batches, 0, self.changes, taken=self._take(key, part))
            self._held[key] = batch, end

    def end_batch(self, task: int) -> None:
        """Emits the tries and put-backs of a task's batch that are left."""
        for key in [key for key in self._held if key & TASK == task]:
            self._end_part(key)

    def _end_part(self, key: int) -> None:
        """Emits the tries and put-backs of a part of a batch."""
        (batch, _), scan = self._held.pop(key), self.scans.pop(key)
        self.emitted_until = max(self.emitted_until, min(batch.end, self.now))
        self.tallies[Count.SCANS] += key == batch.task
        self._emit_frees(scan.pages, [])
        stays = [page for page in scan.pages if page and page.is_live and self._stays(page, batch)][::-1]
        order = [page for page in map(self.page_at, batch.tries) if page in stays]
        if len(order) > 1 and order == [page for page in stays if page in order]:
            self.tallies[Count.REVERSED] += 1
        for page in scan.taken:
            page.last_change = max(batch.end, self.now)
        self._try_batch(key, [page for page in scan.taken if page.is_live], stays)
        self._back += stays
        for page in stays if batch.puts_singly else ():  # others may have come between
            page.entered = batch.tries.get(page.folio, (1, 0, batch.begin))[2]
            del self.queue[page]
            later = [*takewhile(lambda each: each.entered > page.entered, reversed(self.queue))]
            for each in (page, *reversed(later)):
                self.queue.pop(each, None)
                self.queue[each] = None

    def _stays(self, page: Page, batch: Batch) -> bool:
        """Returns whether a batch puts a page back: it is partly mapped, and its split failed, or wasn't observed and gave nothing back."""
        answer = batch.tries.get(page.folio, (not page.freed_frames,))[0]
        return bool(answer) and page.is_partly_mapped and not page.is_freed
