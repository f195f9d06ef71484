"""Effects of system calls, forks and ends of address spaces on mappings, and the events that follow."""

from __future__ import annotations

from dataclasses import dataclass, field

from ..common.files import BASE, PMD_ORDER
from ..common.subpages import bits_of, runs
from .calls import COLLAPSE, REMOVING, Effect, MappingChange, list_effects, list_removals
from .reasons import Count, Omission
from .records import Record
from .state import Mapping, Page, State


@dataclass(eq=False)
class MappingEvents(State):
    """Emits events of mappings. A `queue` is the kernel's queue right after the event, if a copy shows it."""

    _remapped: set[int] = field(default_factory=set)  # address spaces in which mremap moved an area

    def apply(self, record: Record, queue: list[int] | None, answer: int = 0) -> None:
        """Emits what a system call did to the pages that it reaches."""
        for effect in list_effects(record, answer):
            for page in self.pages_between(record.space, effect.start, effect.end):
                self._apply_effect(record, effect, page, queue)
            if effect.change is MappingChange.MOVES:
                self._remapped.add(record.space)
        if record.values[0] == COLLAPSE:
            self._add_collapsed_page(record)

    def apply_early(self, record: Record, page: Page, queue: list[int] | None) -> None:
        """Emits what a running call has done to one page. Those of other pages follow at its end, or as soon as something shows them."""
        for effect in list_removals(record):
            if page.mapping_in(record.space):
                self._apply_effect(record, effect, page, queue)

    def reaches(self, call: Record, page: Page) -> bool:
        """Returns whether a running call removes mappings of a page that were not emitted early."""
        mapping = page.mapping_in(call.space)
        return mapping is not None and any(self._subpages_in_range(call, each, page) & mapping.bits for each in list_removals(call))

    def calls_reaching(self, page: Page) -> list[Record]:
        """Returns the running calls that remove mappings of a page."""
        return [call for call in self.pending.values() if self.reaches(call, page)]

    def handle_fork(self, record: Record) -> None:
        """Copies the parent's mappings to the child; a thread shares its parent's address space."""
        parent, child = record.values[:2]
        if parent == child:
            return
        for page, mapping in self.spaces[parent].between() if parent in self.spaces else ():
            copy = Mapping(child, mapping.base, mapping.whole, mapping.bits, self.now)
            self.add_mapping(page, copy)
            if mapping.whole:
                self.emit(record.task, page, "mapwhole")
                continue
            copy.bits &= page.held  # zero-filled subpages that a split gave back aren't the page's
            for first, count in runs(copy.bits):
                self.emit(record.task, page, "mapsub", first, count)

    def end_space(self, record: Record) -> None:
        """Removes all mappings of an address space that has ended."""
        space = record.space = record.values[0]
        self.ends.pop(space, None)
        self._remapped.discard(space)
        for page, mapping in self.spaces[space].between() if space in self.spaces else ():
            self.unmap(record, page, mapping, page.every, record.queue)
        self.spaces.pop(space, None)

    def end_early(self, page: Page, queue: list[int]) -> None:
        """Removes a page whose processes have ended, before their end is recorded."""
        for mapping in page.maps:
            self.unmap(self.ends[mapping.space], page, mapping, page.every, queue)

    def begin_end(self, page: Page, queue: list[int]) -> None:
        """Unmaps a queued page in ending address spaces, one by one until it is partly mapped; of the last the part in the first table."""
        for mapping in [each for space in self.ending_spaces(page) for each in page.maps if each.space == space]:
            bits = page.every if len(page.maps) > 1 else self._in_first_table(mapping)
            if bits and page not in self.queue:
                self.unmap(self.ends[mapping.space], page, mapping, bits, queue)

    def unmap(self, record: Record, page: Page, mapping: Mapping, bits: int, queue: list[int] | None) -> None:
        """Removes one address space's mappings of these subpages."""
        whole, first, mapped = mapping.whole and bits == page.every, self._in_first_table(mapping), mapping.bits & bits
        if mapping.whole and not whole:
            self._split_pmd(record, page, mapping)
        # the kernel unmaps runs one by one; a page that was moved may lie in two page tables
        steps = [(0, page.subpages)] if whole else [*runs(mapped & first), *runs(mapped & ~first)]
        for step in steps:
            before = page.used_subpages()
            mapping.bits, mapping.whole = mapping.bits & ~bits_of(*step), False
            outcome, given = self._outcome(record, page, before, queue, step is steps[-1])
            self.emit(record.task, page, "unmapwhole" if whole else "unmapsub", *step, outcome, given)
            if outcome == "queued":
                self.enqueue(page)
            elif outcome == "freed":
                self.remove_page(page)
        if not mapping.bits:
            self.drop_mapping(page, mapping.space)

    def compare_counts(self, record: Record) -> None:
        """Compares a page's map counts at a call's end with those of the journal, if no other call or scan can have changed them."""
        folio, whole, total, mapped = record.counts()
        page = self.page_at(folio)
        mapping = page.mapping_in(record.space) if page else None
        if not page or not mapping or page.split or page.is_omitted or self.scans or page.last_change > record.time:
            return
        if not 0 <= record.values[1] - mapping.base < page.subpages * BASE:
            return  # the page that was there has gone, and this one has its frames
        if any(page.mapping_in(call.space) for call in self.pending.values()):
            return
        own = page.counts()
        kept = mapped or total == whole  # not where NO_PAGE_MAPCOUNT is configured
        self.tallies[Count.MAP_COUNTS_COMPARED] += 1
        if (whole, total, mapped if kept else own[2]) != own:
            self.tallies[Count.MAP_COUNTS_DIFFER] += 1
            self.omit(page, Omission.MAP_COUNTS)

    # small steps

    def _add_collapsed_page(self, record: Record) -> None:
        """Adds the page that a collapse made."""
        start, folio = record.values[1], record.values[4]
        if self.order != PMD_ORDER:
            self.tallies[Count.OTHER_ORDER] += 1
            return
        if not self.is_followed(folio):
            return
        page = self.new_page(record.task, record.space, folio, start)
        self.tallies[Count.COLLAPSED] += 1
        if page in self.queue:
            self.joining[record.task] = page  # if it is emitted before its end
        if record.space in self._remapped:
            self.omit(page, Omission.MOVED_COLLAPSE)

    def _apply_effect(self, record: Record, effect: Effect, page: Page, queue: list[int] | None) -> None:
        """Applies an effect of a call to one page."""
        mapping, bits = page.mapping_in(record.space), self._subpages_in_range(record, effect, page)
        if not bits or not mapping:
            return
        page.last_change = self.now
        if effect.change in REMOVING:
            self.unmap(record, page, mapping, bits, queue)
        elif effect.change is MappingChange.LOSES:
            self.omit(page, Omission.ADVICE)
        elif effect.change is MappingChange.MOVES:
            self._move_mapping(record, page, mapping, bits, effect.by)
        elif mapping.whole and bits != page.every:
            self._split_pmd(record, page, mapping)

    def _subpages_in_range(self, record: Record, effect: Effect, page: Page) -> int:
        """Returns the subpages of a page in the range of a call of an address space that maps it."""
        mapping = page.mapping_in(record.space)
        if not mapping:
            return 0
        low, high = max(effect.start, mapping.base), min(effect.end, mapping.base + page.subpages * BASE)
        if low >= high:
            return 0
        if effect.change in (MappingChange.REMOVES, MappingChange.MOVES) and mapping.since > record.time and not page.is_freed:
            return 0  # its area was made after the call had removed the former one
        return bits_of((low - mapping.base) // BASE, (high - low) // BASE)

    def _move_mapping(self, record: Record, page: Page, mapping: Mapping, bits: int, by: int) -> None:
        """Moves a mapping within its address space. A PMD mapping remains one between places aligned to it (move_page_tables)."""
        if mapping.bits & ~bits:
            self.omit(page, Omission.PART_MOVED)
        if mapping.whole and page.subpages == 1 << PMD_ORDER and by % (BASE << PMD_ORDER):
            self._split_pmd(record, page, mapping)
        mapping.base, mapping.since = mapping.base + by, self.now
        self.add_mapping(page, mapping)

    def _split_pmd(self, record: Record, page: Page, mapping: Mapping) -> None:
        """Turns a PMD mapping into PTE mappings."""
        mapping.whole = False
        self.emit(record.task, page, "splitpmd")

    def _in_first_table(self, mapping: Mapping) -> int:
        """Returns the subpages before a border of page tables; none where the page begins at one."""
        return bits_of(0, -mapping.base // BASE % (1 << PMD_ORDER))

    def _outcome(self, record: Record, page: Page, before: int, queue: list[int] | None, last: bool) -> tuple[str, int]:
        """Returns the outcome of an unmap, and the frames given back."""
        after = page.used_subpages()
        if page.split:
            given = before & ~after & page.held
            if last and given & ~page.freed_frames:
                self.omit(page, Omission.HELD_AFTER_SPLIT)
            page.held &= ~given
            return ("stays" if after else "freed"), given
        if last and after and page.is_freed:
            self.omit(page, Omission.COLLAPSED)
            self.dequeue(page)
            return "stays", 0
        if not after:
            return self._last_unmap(record, page)
        newly = before != after
        if newly and not page.is_partly_mapped:
            page.is_partly_mapped, page.partly_since = True, self.now
        if not newly or page in self.queue or page.is_taken:
            return "stays", 0
        seen = queue is not None and page.folio in queue
        if queue is None or seen or not last or page.is_freed:
            self.tallies[Count.QUEUED_SEEN if seen else Count.QUEUED_INFERRED] += 1
            return "queued", 0
        if self._is_taken_by_scan(page):
            return "queued", 0
        self.omit(page, Omission.NOT_QUEUED)
        return "stays", 0

    def _is_taken_by_scan(self, page: Page) -> bool:
        """Returns whether a scan that runs may have taken the page: one that takes more pages than the queue had at its recorded start."""
        for scan in self.scans.values():
            if scan.start.queue is not None and len(scan.pages) < scan.start.values[0]:
                scan.pages.append(page)
                scan.start.queue.append(page.folio)
                return True
        return False

    def _last_unmap(self, record: Record, page: Page) -> tuple[str, int]:
        """Returns the outcome of a page's last unmap, and the frames given back."""
        if not page.is_freed and not page.pins and any(page in scan.pages for scan in self.scans.values()):
            self.tallies[Count.HELD_BY_SCAN] += 1
            return "freed", page.held
        if not page.is_freed:  # something else holds it
            self.hold(record.task, page)
            return "stays", 0
        self.let_go(record.task, page)
        return "freed", page.held
