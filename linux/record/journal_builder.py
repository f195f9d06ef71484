"""Builds a journal from records.

Observed: huge pages allocated in a fault or by a collapse; the queue at each scan's start and end, so the pages taken and
put back, and their order; frames and pages freed; pages that migrate; contents, where the recording looks at them. Inferred:
mappings from the arguments of system calls (compared with the page's own counts at the call's end), from forks and ends of
address spaces; pins from what a scan leaves; other writes (with the switch on) from the kernel's verdicts. A page with an
event that isn't understood is left out, with a reason. docs/LINUX.md has the table."""

from __future__ import annotations

from collections import defaultdict, deque
from dataclasses import dataclass, field
from typing import Iterable

from ..common.files import BASE, PMD_ORDER
from ..common.subpages import runs
from .calls import COLLAPSE, COPIED, MADVISE, MADV_COLLAPSE, MREMAP, has_succeeded, list_effects
from .observed import Observations
from .queue_laws import QueueLaws
from .reasons import Count, Omission
from .records import IN_FAULT, JOINED, OBSERVED, QUEUE_MOST, WITH_QUEUE, Batch, Kind, Record
from .state import MOST_AWAKE, Page
from .traced_scans import TracedScans, with_bounds

WRITTEN = 3  # bits of a fault's error code: present, written
MOVES = 1024  # pages that a task has mapped again before it frees the old ones


@dataclass(eq=False)
class JournalBuilder(TracedScans):
    """Builds the events of one node from records: `handle_` and the kind of a record name what takes it."""

    observations: Observations = field(default_factory=Observations)
    _fault_pages: dict[int, Page] = field(default_factory=dict)  # by tasks whose last record was this allocation
    _moves: dict[int, deque[Record]] = field(default_factory=lambda: defaultdict(lambda: deque(maxlen=MOVES)))  # by tasks

    def add_records(self, records: Iterable[Record], batches: Iterable[Batch] | None = None) -> None:
        """Adds all records of a run; a Store has linked them, and found the batches of scans."""
        self.batches = None if batches is None else deque(batches)
        laws = QueueLaws(self)
        handlers = [getattr(self, f"handle_{kind.name.lower()}", lambda record: None) for kind in Kind]  # a fault has only ended a step
        for record, until in ((record, 0) for record in records) if batches is None else with_bounds(records):
            laws.see(record)
            self.begin_batches(until)
            self.now, self.task, self.space = record.time, record.task, record.space
            if record.kind in OBSERVED:
                self._add_observed(record)
                continue
            if record.space_ends:
                self.ends.update(record.space_ends)
            if record.queue is None and len(self.queue) > QUEUE_MOST and record.kind in WITH_QUEUE:
                self.tallies[Count.COPIES_MISSING] += 1
            if record.queue is not None and record.time < self.emitted_until:
                # begun before the end of a scan whose record came first: the copy may show the queue before that
                record.queue = None
            if record.kind not in (Kind.FREE, Kind.CONTENTS):  # an interrupt frees in any task's name
                self._end_last_step(record)
            if not record.is_applied:
                handlers[record.kind](record)
            if len(self.awake) > MOST_AWAKE:
                self.rest_pages(self._fault_pages.values())
        self.at, self.resting, self.spaces, self.queue, self.journal_queue, self.awake = {}, {}, {}, {}, {}, set()  # the lines suffice

    def _add_observed(self, record: Record) -> None:
        """Notes what function tracing has observed, and emits the event by which a page has joined the queue."""
        page, scan = self.page_at(record.values[0]), None if self.is_doubted else self.scans.get(record.task)
        is_ordered = scan and len(self.scans) == len(scan.batches) == 1 and record.kind is Kind.BATCH
        queue = [each.folio if each else 0 for each in scan.pages] if scan and is_ordered else None
        self.observations.add(record, page.number if page else None, queue)
        if record.kind is Kind.BATCH:
            self.end_batch(record.task)
        if page is None or record.kind is not Kind.QUEUED or record.values[3] & 3 != JOINED or page.is_taken:
            return
        if self.joining.get(record.task) is page:  # at its fault
            del self.joining[record.task]
            if page in self.queue and next(reversed(self.queue)) is not page:
                self.move_to_end({page})
        elif page not in self.queue:
            self.emit_join(page, [page.folio])
        elif page.entered < record.values[1] and not (self.scans and self.batches is None):  # it has left meanwhile, or is another page
            self.omit(page, Omission.UNKNOWN_JOIN)
            self.dequeue(page)

    def _end_last_step(self, record: Record) -> None:
        """Ends what a task's last record has begun: its next record shows that it is over, and a fault or another call that a call is."""
        self.joining.pop(record.task, None)
        self._fault_pages.pop(record.task, None)
        copied = self.pending.pop((record.task, Kind.COPY), None)
        if copied:
            self.apply(copied, None)
        if record.kind in (Kind.ENTER, Kind.FAULT, Kind.COPY) or (record.kind is Kind.ALLOC and record.values[2] == IN_FAULT):
            missed = self.pending.pop((record.task, Kind.ENTER), None)
            if missed:
                self._end_unseen(missed)

    def _begin(self, kind: Kind, record: Record, space: int, *values: int) -> None:
        """Begins what counts as a call of a record's task: a copy or a collapse."""
        values += (0,) * (9 - len(values))
        self.pending[record.task, kind] = Record(kind, record.time, record.task, space, values, None)

    def handle_enter(self, record: Record) -> None:
        """A system call runs from here on."""
        self.pending[record.task, Kind.ENTER] = record

    def _end_unseen(self, call: Record) -> None:
        """Emits what a system call has done whose end wasn't recorded, as if it had succeeded; where mremap has moved areas isn't known."""
        reached = [page for each in list_effects(call) for page in self.pages_between(call.space, each.start, each.end)]
        self.tallies[Count.PRESUMED] += bool(reached)
        if call.values[0] != MREMAP:
            self.apply(call, None)
            return
        for page in reached:
            self.omit(page, Omission.MISSED_END)

    def handle_exit(self, record: Record) -> None:
        """Emits what a system call has done."""
        call, answer = self.pending.get((record.task, Kind.ENTER)), record.values[4]
        if call and has_succeeded(call, answer):
            self.end_scans_early(record.queue)
            del self.pending[record.task, Kind.ENTER]
            self.apply(call, record.queue, answer)
        self.pending.pop((record.task, Kind.ENTER), None)
        self.compare_counts(record)
        self.match(record.queue)

    def handle_exit_mmap(self, record: Record) -> None:
        """Emits the end of an address space, and drops what its tasks had begun."""
        space = record.values[0]
        for key in [key for key, call in self.pending.items() if call.space == space and key[1] is Kind.COPY]:
            self.apply(self.pending.pop(key), None)
        self.end_space(record)
        self.match(record.queue)
        for key in [key for key, call in self.pending.items() if call.space == space and key[1] is Kind.ENTER]:
            del self.pending[key]
        self.end_callers(space)
        for pages in (self._fault_pages, self.joining):
            for task in [task for task, page in pages.items() if not page.is_live]:
                del pages[task]

    def handle_alloc(self, record: Record) -> None:
        """Adds a page that a fault made, or begins a collapse: it counts as a call that unmaps a region, until something shows it."""
        folio, order, how, address = record.values[:4]
        if record.end:
            space, _, _, index = record.end.values[:4]
            self._begin(Kind.COLLAPSED, record, space, COLLAPSE, index * BASE, BASE << PMD_ORDER, 0, folio)
        elif record.space and order != self.order:  # a kernel thread's is a collapse that failed, or a migration
            self.tallies[Count.OTHER_ORDER] += order not in self.orders
        elif record.space and self.is_followed(folio) and how == IN_FAULT:
            page = self._fault_pages[record.task] = self.new_page(record.task, record.space, folio, address)
            if page in self.queue:
                self.joining[record.task] = page  # it joins between this record and the task's next one
        elif record.space and self.is_followed(folio):
            call = self.pending.get((record.task, Kind.ENTER))
            fails = call and call.values[0] == MADVISE and call.values[3] == MADV_COLLAPSE
            self.tallies[Count.WITHOUT_FAULT] += not fails

    def handle_contents(self, record: Record) -> None:
        """Emits what was written since the last look at a page, data or zeros. What the first finds was written at the allocation, unless a
        scan tried the page since. A page that was made or changed during the look is left to the next one."""
        page, began = self.page_at(record.values[0]), record.values[1]
        if page is None or record.contents is None or page.split or page.born > began or page.last_change > began:
            return
        data, zero = record.contents
        used, lines = page.used_subpages(), 0
        for word, bits in (("write", data & used & ~page.written), ("zero", zero & used & page.written)):
            for first, count in runs(bits):
                self.emit(record.task, page, word, first, count)
                lines += 1
            page.written ^= bits
        if lines and not page.is_seen and not page.is_tried:
            self.lines.move_behind(page.number, lines)
        page.is_seen = True

    def handle_copy(self, record: Record) -> None:
        """Follows a copy on write: a fault's base page counts as a call that unmaps the subpage and ends by its task's next record."""
        _, how, address, code = record.values[:4]
        if how != IN_FAULT or code & WRITTEN != WRITTEN:
            return
        for page in self.pages_between(record.space, address, address + 1):
            mapping = page.mapping_in(record.space)
            i = (address - mapping.base) // BASE if mapping else 0
            if mapping and mapping.bits >> i & 1:
                self._begin(Kind.COPY, record, record.space, COPIED, mapping.base + BASE * i, BASE)
                break

    def handle_free(self, record: Record) -> None:
        """Notes that a page or a frame of it was freed."""
        freed, order = record.values[:2]
        page = self.page_at(freed & -(self.page_size << self.order))
        if page and order == 0:
            page.freed_frames |= 1 << (freed - page.folio) // self.page_size
            scan = self.scans.get(record.task)
            if scan and page in self.queue:
                scan.split[page] = None
        elif page and order == self.order and freed == page.folio and not self._has_migrated(record.task, page):
            if self._fault_pages.get(record.task) is page and page.used_subpages() and not self.is_ending(page):
                self.discard(page)
                return
            page.is_freed = True
            if not page.used_subpages():
                self.last_unpin(record.task, page)

    def handle_collapsed(self, record: Record) -> None:
        """Emits a collapse that has ended."""
        call = self.pending.pop((record.task, Kind.COLLAPSED), None)
        if call:
            self.apply(call, record.queue)
            self.joining.pop(record.task, None)
        self.match(record.queue)

    def handle_moved(self, record: Record) -> None:
        """Notes that a page is mapped again. If its folio is new, the free of the old folio completes the migration."""
        if not self.page_at(record.values[1]):
            self._moves[record.task].append(record)

    def _has_migrated(self, task: int, page: Page) -> bool:
        """Returns whether a freed page continues in another place, by what its task has just mapped again."""
        for record in self._moves.pop(task, ()):
            address, folio, order = record.values[:3]
            inside = any(0 <= address - each.base < page.subpages * BASE for each in page.maps)
            if inside and order == self.order and page.is_live and not page.split:
                self.tallies[Count.MIGRATED] += 1
                del self.at[page.folio]
                self.put_at(page, folio)
                if page in self.queue:
                    self.omit(page, Omission.MIGRATED)
                return True
        return False
