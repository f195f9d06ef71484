"""Compares the kernel's queue with the journal's. With several tasks, the kernel's queue shows the order of events."""

from __future__ import annotations

from itertools import takewhile
from typing import AbstractSet

from .calls import list_removals
from .mappings import MappingEvents
from .reasons import Count, Doubt, Omission
from .records import QUEUE_MOST, Kind
from .scratch import PAGE
from .state import LINES, Page


class QueueMatcher(MappingEvents):
    """Matches the journal's queue with copies of the kernel's (folios, oldest first), and compares them. Of a page that was made after
    a copy was begun it shows nothing: it may show the former page at that place. One that joined after that it may lack."""

    def match(self, queue: list[int] | None) -> None:
        """Emits events of running calls until the journal's queue matches a copy of the kernel's, and compares both."""
        if queue is None:
            return
        if self._is_journal_queue(queue):
            self._count(False, queue, {page for page in self.queue if self.newest > self.now and page.born > self.now})
            return
        shown = {*queue}
        for page in self.joining.values():
            page.has_joined = page.has_joined or page.folio in shown and page.born <= self.now
        self.emit_early_joins(queue)
        if self.scans:
            return
        for page in list(self.queue):
            if page.folio not in shown and page not in self.joining.values() and page in self.queue and page.entered <= self.now:
                self._emit_leave(page, queue)
        for page in self.joining.values():
            if page.folio not in shown and page in self.queue and not page.is_freed:
                self.move_to_end({page})  # its allocation put it into our queue, but it is not in the kernel's yet
        found = [page for page in map(self.page_at, queue) if page and (self.newest <= self.now or page.born <= self.now)]
        if not self._reorder([page for page in found if page in self.queue]):
            return
        later = {page for page in self.queue if self.newest > self.now and page.born > self.now
                 or page.folio not in shown and page.entered > self.now}
        skip = {*self.joining.values(), *later}
        mine = [page for page in self.queue if not page.is_omitted and page not in skip]
        kernels = [page for page in found if not page.is_omitted and page not in skip]
        if {*mine} <= {*kernels}:  # else a call that runs may be why a page has left
            self._count(mine != kernels, queue, later)

    def _count(self, differs: bool, queue: list[int], later: AbstractSet[Page]) -> None:
        """Counts a comparison, unless what runs may have changed the queue. `later`: pages whose places a copy doesn't show."""
        if not any(call.kind is Kind.COLLAPSED or any(self.reaches(call, page) for each in list_removals(call)
                                                      for page in self.pages_between(call.space, each.start, each.end))
                   for call in self.pending.values()):
            self.tallies[Count.QUEUES_COMPARED] += 1
            self.tallies[Count.LONG_COMPARED] += len(self.queue) > QUEUE_MOST
            self.tallies[Doubt.QUEUES if self.is_doubted else Count.QUEUES_DIFFER] += differs
            if not differs:
                self.end_doubt()
                shown = {*takewhile(lambda folio: self.at.get(folio) not in later, queue)} - {page.folio for page in self.joining.values()}
                known = [page for page in takewhile(lambda page: page not in later, self.queue) if page.folio in shown]
                for page in known:
                    page.join = 0
                self.lines.more = LINES * (len(self.queue) - len(known))

    def _is_journal_queue(self, queue: list[int]) -> bool:
        """Returns whether a copy equals the journal's queue and nothing runs that it could show: the usual case, and quick."""
        runs = self.scans or self.joining or any(call.kind is Kind.COLLAPSED for call in self.pending.values())
        return not runs and len(queue) == len(self.queue) and [*map(self.at.get, queue)] == [*self.queue]

    def emit_early_joins(self, queue: list[int]) -> None:
        """Emits events of pages that are in the kernel's queue, not in ours: of collapses and calls that run, of processes that end."""
        own_queue = {page.folio for page in self.queue}
        made = {call.values[4]: key for key, call in self.pending.items() if call.kind is Kind.COLLAPSED}
        for folio in [folio for folio in queue if folio not in own_queue]:
            if folio in made and made[folio] in self.pending:
                self.apply(self.pending.pop(made[folio]), queue)
                continue
            page = self.page_at(folio)
            if page and not page.is_taken and page.born <= self.now:
                self.emit_join(page, queue)
                if page not in self.queue and page.is_live:
                    self.omit(page, Omission.UNKNOWN_JOIN)

    def emit_join(self, page: Page, queue: list[int]) -> None:
        """Emits the event by which a page has joined the queue, if a call that runs or a process that is ending explains it."""
        for call in sorted(self.calls_reaching(page), key=lambda call: call.task != self.task):
            if page not in self.queue:
                self.apply_early(call, page, queue)
        if page not in self.queue and page.is_live:
            self.begin_end(page, queue)

    def _emit_leave(self, page: Page, queue: list[int]) -> None:
        """Emits the event by which a page of our queue has left the kernel's."""
        page.missed = page.missed or self.now
        running = [call for call in self.pending.values() if page.mapping_in(call.space) and call.time < page.missed]
        calls_reaching = self.calls_reaching(page)
        if not page.used_subpages():  # its last pin has gone, and the record of its free comes
            self.last_unpin(self.task, page)
        elif calls_reaching:  # a call that still runs has freed it
            page.is_freed = True
            self.apply_early(calls_reaching[0], page, queue)
        elif not running and not page.freed_frames and self.is_ending(page):
            page.is_freed = True
            self.end_early(page, queue)
        elif page.is_perhaps_taken:
            self.omit(page, Omission.PERHAPS_TAKEN)
            self.dequeue(page)
        elif not running:
            why = Omission.SPLIT_BY_MIGRATION if page.freed_frames else Omission.UNSEEN_COLLAPSE
            self.omit(page, Omission.UNSEEN_SCAN if self.tallies[Count.SCANS_MISSING] else why)
            self.dequeue(page)

    def move_to_end(self, later: set[Page]) -> None:
        """Moves the events of pages, from their joins on, to the journal's end, unless one is final."""
        places = {page.number: self.place_of_join(page) for page in later}
        if not later or min(places.values()) < 0:
            return
        lines, first = self.lines.latest, min(places.values())
        late = {i for i in range(first, len(lines)) if i >= places.get(lines[i] & PAGE, len(lines))}
        self.lines.latest[first:] = [lines[i] for i in sorted(range(first, len(lines)), key=lambda i: i in late)]
        for queue in (self.queue, self.journal_queue):
            for page in [page for page in queue if page in later]:
                del queue[page]
                queue[page] = None

    def _reorder(self, kernels: list[Page]) -> bool:
        """Moves events of pages to earlier places: tasks' pages join in another order than calls end. Returns whether none was final."""
        these = {*kernels}
        mine = [page for page in self.queue if page in these]
        if mine != kernels:
            queue, journal_queue = [*self.queue], [*self.journal_queue]
            is_known = self._move_to_places(kernels, mine, queue, journal_queue)
            self.queue, self.journal_queue = dict.fromkeys(queue), dict.fromkeys(journal_queue)
            return is_known
        return True

    def _move_to_places(self, kernels: list[Page], mine: list[Page], queue: list[Page], journal_queue: list[Page]) -> bool:
        """Moves pages and their events until `mine`, which are pages of both queues, are in the kernel's order, or one can't be moved."""
        for i, page in enumerate(kernels):
            other = mine[i]
            if other is page:
                continue
            late = other if page.is_omitted else next(each for each in mine[i:] if not each.is_omitted)
            if late is not page and not page.is_omitted:  # the lines of a page that is left out have any place
                first, last = self.place_of_join(late), self.place_of_join(page)
                if not 0 <= first <= last:
                    return not late.is_omitted and not page.is_omitted
                window = self.lines.latest[first : last + 1]
                own = [line for line in window if line & PAGE == page.number]
                self.lines.latest[first : last + 1] = own + [line for line in window if line & PAGE != page.number]
                journal_queue.remove(page)
                journal_queue.insert(journal_queue.index(late), page)
            queue.remove(page)
            queue.insert(queue.index(other), page)
            mine.remove(page)
            mine.insert(i, page)
        return True
