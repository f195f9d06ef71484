"""The state of a journal while it is built: pages (at rest a number, of a freed one a byte), address spaces, the queue, what runs."""

from __future__ import annotations

import functools
import heapq
import itertools
import operator
import struct
from array import array
from bisect import bisect_left, bisect_right
from collections import Counter as Tallies
from dataclasses import dataclass, field
from typing import Any, Callable, Dict, Iterable, Iterator, Sequence, Union

from ..common.files import BASE, PMD_ORDER
from ..common.journal import FILLING, MOST_CALLERS, SMALL_BLOCKS, SMALL_CALLERS, SMALL_NODES, Event
from ..common.subpages import bits_of, size
from .reasons import Doubt, Omission, Reason
from .records import Kind, Record
from .scratch import JournalLines, pack_line

FOREVER = 1 << 64
LINES = 3  # of a page until it joins the queue: alloc, splitpmd, unmapsub
SPARE_PLACES = 64  # of an address space's former mappings
MOST_AWAKE = 1024  # pages that aren't looked at whether they can rest
PACKED = struct.Struct("<I?4QB4?Q")  # a page at rest, before two larger values: Page.pack
NUMBER, FREED, HEAD, UNDIVIDED = (1 << 32) - 1, 1 << 32, (1 << 8 * PACKED.size) - 1, 1 << 8 * struct.calcsize("<I?4Q")
SPARE_BLOCKS = 8  # of a small node, beyond 5/4 of the pages that lived at once: lines are reordered


class Mapping:
    """One address space's mapping of a page: where subpage 0 is, whether by a PMD entry, which subpages, and since when it is there."""

    __slots__ = ("space", "base", "whole", "bits", "since")

    def __init__(self, space: int, base: int, whole: bool, bits: int, since: int) -> None:
        self.space, self.base, self.whole, self.bits, self.since = space, base, whole, bits, since


def union_of(sets: Iterable[int]) -> int:
    """Returns the union of sets of subpages."""
    return functools.reduce(operator.or_, sets, 0)


class Page:
    """A huge page from its allocation on, recorded at its time `born`. Sets of subpages are numbers; `every`: that of all. `maps`:
    the mapping of each address space. A running scan has taken it (is_taken), or perhaps, since it joined at its fault
    (is_perhaps_taken). It isn't in the journal (is_omitted); its contents were looked at (is_seen); a scan tried it (is_tried); a copy of
    the queue showed it before its task's next record (has_joined). Times: since when it is partly mapped; when a copy first lacked it
    (missed); when it joined the queue or was put back singly (entered); when the last call that reached it was recorded (last_change).
    `join`: the line by which it joined the queue. At rest it has these slots alone; to look up another value unpacks it."""

    __slots__ = ("folio", "join", "node", "packed", "__dict__")

    def __init__(self, folio: int, node: State, packed: int) -> None:
        self.folio, self.join, self.node, self.packed = folio, 0, node, packed
        self._unpack()

    def __getattr__(self, name: str) -> Any:
        if self.packed:
            changed = {**self.__dict__}
            self._unpack()
            self.__dict__.update(changed)
        return object.__getattribute__(self, name)

    def _unpack(self) -> None:
        head, every, order = self.packed & HEAD, self.node.every, self.node.order
        (self.number, self.is_freed, self.born, self.last_change, base, space, self.pins, self.is_seen, self.is_tried, self.has_joined,
         is_divided, self.partly_since) = PACKED.unpack(head.to_bytes(PACKED.size, "little"))
        rest = self.packed >> 8 * PACKED.size
        self.maps: tuple[Mapping, ...] = (Mapping(space, base, not is_divided, every & ~rest, self.born),)
        self.is_partly_mapped, self.entered = self.partly_since > 0, rest >> (1 << order) ^ self.partly_since
        self.subpages, self.every, self.held, self.is_live = 1 << order, every, every, True
        self.is_taken = self.is_perhaps_taken = self.split = False
        self.freed_frames = self.written = self.missed = self.packed = 0
        self.node.awake.add(self)

    def pack(self) -> int:
        """Returns a page's values as a number; 0: it has too many to rest. It is UNDIVIDED at least if it isn't as it was made."""
        only = self.maps[0] if len(self.maps) == 1 else None
        if not only or only.since != self.born or any(_rare(self)):
            return 0
        head = PACKED.pack(self.number, self.is_freed, self.born, self.last_change, only.base, only.space, self.pins, self.is_seen,
                           self.is_tried, self.has_joined, not only.whole, self.partly_since)
        rest: int = self.every ^ only.bits | (self.entered ^ self.partly_since) << self.subpages
        return int.from_bytes(head, "little") | rest << 8 * PACKED.size  # less than bytes need

    @property
    def is_omitted(self) -> bool:
        """Whether it isn't in the journal."""
        return bool(self.node.omitted[self.packed & NUMBER if self.packed else self.number])

    def mapping_in(self, space: int, base: int | None = None) -> Mapping | None:
        """Returns an address space's mapping, if it has one, and if that is at a place."""
        return next((mapping for mapping in self.maps if mapping.space == space and base in (None, mapping.base)), None)

    def used_subpages(self) -> int:
        """Returns the subpages that are mapped."""
        return union_of(mapping.bits for mapping in self.maps)

    def counts(self) -> tuple[int, int, int]:
        """Returns what the kernel counts: mappings by PMD entries (which only pages of their size have), all, subpages that PTEs map."""
        has_pmd = self.subpages == 1 << PMD_ORDER
        parts = [mapping.bits for mapping in self.maps if not (has_pmd and mapping.whole)]
        whole = len(self.maps) - len(parts)
        return whole, whole + sum(map(size, parts)), size(union_of(parts))


_rare = operator.attrgetter("is_taken", "is_perhaps_taken", "split", "freed_frames", "written", "missed")


class Space:
    """An address space's mappings, by their places: pages, or the folios of those at rest, which `wake` returns as pages; some are
    former ones, or 0. `count`: those that aren't."""

    __slots__ = ("number", "bases", "pages", "count", "_wake")

    def __init__(self, number: int, wake: Callable[[int], Page | None]) -> None:
        self.number, self.count, self._wake = number, 0, wake
        self.bases, self.pages = array("Q"), list[Union[Page, int]]()

    def add(self, page: Page, base: int) -> None:
        """Adds a place of a page."""
        at = bisect_right(self.bases, base)
        if page not in self.pages[bisect_left(self.bases, base) : at]:
            self.bases.insert(at, base)
            self.pages.insert(at, page)
        if len(self.pages) > 2 * self.count + SPARE_PLACES:
            kept = [each if isinstance(each, int) else each.mapping_in(self.number, base) for each, base in zip(self.pages, self.bases)]
            self.bases, self.pages = array("Q", itertools.compress(self.bases, kept)), [*itertools.compress(self.pages, kept)]

    def replace(self, base: int, former: Page | int, new: Page | int) -> None:
        """Replaces a page that begins to rest by its folio, or back, or one that isn't mapped there any more by 0."""
        self.pages[self.pages.index(former, bisect_left(self.bases, base))] = new

    def between(self, start: int = 0, end: int = 1 << 64) -> Iterator[tuple[Page, Mapping]]:
        """Yields the pages that live and are mapped from addresses in a range on, with their mappings, by these."""
        near = slice(bisect_left(self.bases, max(start, 0)), bisect_left(self.bases, end))
        pages = self.pages[near]
        for at, base in enumerate(self.bases[near]):
            each, pages[at] = pages[at], 0  # a page that is freed meanwhile isn't kept
            page = self._wake(each) if isinstance(each, int) else each
            mapping = page and page.mapping_in(self.number, base)
            if page and mapping:
                yield page, mapping


Queue = Dict[Page, None]
"""Pages in order, oldest first. All changes but those of the order take the same time for any length."""


@dataclass(eq=False)
class Scan:
    """A scan that runs: its start, the pages in the queue then, oldest first (None: one not known), and those that joined at that time."""

    start: Record
    pages: list[Page | None]
    joining: list[Page]
    batches: list[tuple[int, int]]  # that aren't emitted, as (first, count)
    reach: int  # of the pages, how many it may take
    changes: int  # of the queue, before it
    split: Queue = field(default_factory=dict)  # the pages that it has split so far
    taken: list[Page] = field(default_factory=list)  # by the first of these batches, if that is emitted


@dataclass(eq=False)
class State:
    """A node of a journal so far. Its tries and put-backs are in the order of taking (E); with the switch off, splits keep frames (B)."""

    order: int
    underused: int | None  # the threshold of zero-filled subpages; None: the switch is off
    page_size: int = 64  # bytes of struct page
    folios: tuple[range, ...] = ()  # where those of the queue's NUMA node are; none: it has pages of all nodes
    orders: Sequence[int] = ()  # that are followed, by this journal or another
    lines: JournalLines = field(default_factory=JournalLines)  # the journal
    tallies: dict[Reason, int] = field(default_factory=Tallies)  # what was observed, inferred and left out
    event_counts: dict[str, int] = field(default_factory=Tallies)  # by words
    omitted: bytearray = field(default_factory=bytearray)  # of each page, whether it is left out
    never_mapped: int = 0  # pages
    left_out: int = 0  # pages, for other reasons
    at: dict[int, Page] = field(default_factory=dict)  # the pages that live, by folio, except those at rest: page_at has all
    resting: dict[int, int] = field(default_factory=dict)  # those at rest, packed
    awake: set[Page] = field(default_factory=set)  # that were made, or at rest, since it was looked whether they can rest
    queue: Queue = field(default_factory=dict)  # the kernel's
    journal_queue: Queue = field(default_factory=dict)  # the journal's, which differs by E
    joining: dict[int, Page] = field(default_factory=dict)  # pages that join the queue before their task's next record
    spaces: dict[int, Space] = field(default_factory=dict)
    ends: dict[int, Record] = field(default_factory=dict)  # the next end of each address space that has pages
    pending: dict[tuple[int, Kind], Record] = field(default_factory=dict)  # calls, collapses, copies that run, by task
    scans: dict[int, Scan] = field(default_factory=dict)  # those that run, by task
    changes: int = 0  # of the queue, but for those by scans
    now: int = 0  # the time of the current record
    task: int = 0  # its task ..
    space: int = 0  # .. and address space
    callers: int = 0  # how many of the journal were numbered
    _doubts: list[tuple[Doubt, int, int]] = field(default_factory=list)  # why the queue's order isn't known, from when to when
    _equal: int = 0  # when a copy of the queue was equal to the journal's
    _callers: dict[int, tuple[int, int]] = field(default_factory=dict)  # the journal's numbers of tasks, and the address space of each
    _unused: list[int] = field(default_factory=list)  # the numbers of tasks whose address space has ended, a heap
    every: int = 0  # the set of all subpages
    newest: int = 0  # when the newest page was born
    _live: int = 0
    _most: int = 0  # pages that lived at once

    def __post_init__(self) -> None:
        self.every = bits_of(0, 1 << self.order)

    @functools.cached_property
    def blocks(self) -> int:
        """How many blocks the node needs: a small one some more, another as many as its lines, once all are there."""
        spare = self._most * 5 // 4 + SPARE_BLOCKS
        if spare <= SMALL_BLOCKS:
            return spare
        changes = ((" alloc " in text) - (" freed " in text) for text in self.texts())
        return max(itertools.accumulate(changes), default=1)

    @property
    def pages(self) -> int:
        """How many pages were mapped."""
        return len(self.omitted) - self.never_mapped

    def timed_texts(self) -> Iterator[tuple[int, str]]:
        """Returns the journal's lines, without the pages that are left out, each after the time (ns) of the record that showed it."""
        return self.lines.timed_texts(self.omitted)

    def texts(self) -> Iterator[str]:
        """Returns the journal's lines, without the pages that are left out."""
        return (text for _, text in self.timed_texts())

    def times(self) -> Iterator[int]:
        """Returns the time (ns) of each line; none is before the line above it: events are shown by later records, and lines reordered."""
        return itertools.accumulate((time for time, _ in self.timed_texts()), max)

    def begin_doubt(self, why: Doubt) -> None:
        """Notes that the order of events isn't known, from the last copy of the queue that was equal on to the next one."""
        if not self.is_doubted:
            self._doubts.append((why, self._equal, FOREVER))

    def end_doubt(self) -> None:
        """Notes that a copy of the queue is equal."""
        self._equal = self.now
        if self.is_doubted:
            self._doubts[-1] = (*self._doubts[-1][:2], self.now)

    @property
    def is_doubted(self) -> bool:
        """Whether the order of events isn't known."""
        return bool(self._doubts) and self._doubts[-1][2] == FOREVER

    def doubt_at(self, time: int) -> Doubt | None:
        """Returns why the events at a time are in doubt. An equal copy ends the doubt of copies, not of events: their order differs (E)."""
        return next((why for why, begin, _ in self._doubts if begin <= time), None)

    def emit(self, task: int, page: Page, word: str, first: int = 0, count: int = 0, outcome: str = "", given: int = 0) -> None:
        """Emits an event of a page."""
        event = Event(self.caller_of(task), word, page.number, first, count, outcome, given)
        self.lines.add(pack_line(page.number, self.now, event.text()))
        self.event_counts[word] += 1

    def caller_of(self, task: int) -> int:
        """Returns the journal's number of a task: the least that none has whose address space hasn't ended, if there is one."""
        if task not in self._callers:
            number = heapq.heappop(self._unused) if self._unused else min(self.callers, MOST_CALLERS - 1)
            self.callers = max(self.callers, number + 1)
            self._callers[task] = number, self.space if task == self.task else 0
        return self._callers[task][0]

    def end_callers(self, space: int) -> None:
        """Forgets the tasks of an address space that has ended, and of none, except those that scan."""
        for task in [task for task, (_, own) in self._callers.items() if own in (0, space) and task not in self.scans]:
            heapq.heappush(self._unused, self._callers.pop(task)[0])

    def open_batch(self, task: int) -> None:
        """Gives a task a number that no other task has whose scan has taken pages; there are fewer than MOST_CALLERS of these."""
        busy = {self.caller_of(scan.start.task) for scan in self.scans.values() if scan.taken and scan.start.task != task}
        if self.caller_of(task) in busy:
            number = next(number for number in itertools.count() if number not in busy)
            self.callers = max(self.callers, number + 1)
            self._callers[task] = number, self._callers[task][1]

    def is_followed(self, folio: int) -> bool:
        """Returns whether the queue is the one of a page's NUMA node."""
        return not self.folios or any(folio in each for each in self.folios)

    def new_page(self, task: int, space: int, folio: int, address: int) -> Page:
        """Adds a page that an address space maps whole."""
        page = Page(folio, self, self.now << 40 | len(self.omitted))
        self.put_at(page, folio)
        self.omitted.append(False)
        page.maps, self.newest = (), max(self.newest, self.now)
        self.add_mapping(page, Mapping(space, address & -(BASE << self.order), True, self.every, self.now))
        self._live += 1
        self._most = max(self._most, self._live)
        self.emit(task, page, "alloc")
        if self.underused is not None and self.order == PMD_ORDER:
            self.enqueue(page)
        return page

    def add_mapping(self, page: Page, mapping: Mapping) -> None:
        """Adds an address space's mapping of a page, or one that has moved."""
        space = self.spaces.setdefault(mapping.space, Space(mapping.space, self.page_at))
        mapping.space = space.number  # one object for all
        if mapping not in page.maps:
            self.drop_mapping(page, mapping.space)
            page.maps += (mapping,)
            space.count += 1
        space.add(page, mapping.base)

    def drop_mapping(self, page: Page, space: int) -> None:
        """Forgets an address space's mapping of a page, if it has one."""
        mapping = page.mapping_in(space)
        if mapping and space in self.spaces:
            self.spaces[space].count -= 1
            self.spaces[space].replace(mapping.base, page, 0)
        page.maps = tuple(each for each in page.maps if each is not mapping)

    def pages_between(self, space: int, start: int, end: int) -> Iterator[Page]:
        """Yields the pages that an address space maps in a range of addresses, by their addresses."""
        known = self.spaces.get(space)
        return (page for page, _ in (known.between(start - (BASE << self.order) + 1, end) if known else ()))

    def page_at(self, folio: int) -> Page | None:
        """Returns the page that lives at a folio, if there is one."""
        packed = self.resting.pop(folio, None)
        if packed is not None:
            page = self.at[folio] = Page(folio, self, packed)
            self.spaces[page.maps[0].space].replace(page.maps[0].base, folio, page)
        return self.at.get(folio)

    def put_at(self, page: Page, folio: int) -> None:
        """Gives a page its folio. One that had it and whose end isn't recorded yet isn't found there any more."""
        self.page_at(folio)
        page.folio, self.at[folio] = folio, page

    def rest_pages(self, used: Iterable[Page]) -> None:
        """Packs the pages at rest, except some that are used, and those of scans."""
        used = {*used, *self.joining.values()}.union(*([*filter(None, scan.pages), *scan.taken] for scan in self.scans.values()))
        awake, self.awake = self.awake, set()
        for page in awake:
            packed = page.pack() if self.at.get(page.folio) is page else 0
            if packed >= UNDIVIDED:
                del page.__dict__
                page.packed = packed
            elif page in used:
                self.awake.add(page)
            elif packed and page.maps[0].space in self.spaces:
                self.resting[page.folio] = packed
                self.spaces[page.maps[0].space].replace(page.maps[0].base, page, page.folio)
                del self.at[page.folio]

    def enqueue(self, page: Page) -> None:
        """Adds a page to the queue, by the event emitted last."""
        self.changes += 1
        page.entered = self.now
        self.queue[page] = self.journal_queue[page] = None
        self.lines.more = LINES * min(self.lines.more // LINES + 1, len(self.queue))
        page.join = self.lines.latest[-1] if self.lines.latest else 0

    def dequeue(self, page: Page) -> None:
        """Removes a page from the queue, if it is there."""
        self.queue.pop(page, None)
        self.journal_queue.pop(page, None)

    def omit(self, page: Page, why: Omission) -> None:
        """Leaves a page out of the journal."""
        if not page.is_omitted:
            self.omitted[page.number] = True
            self.left_out += 1
            self.tallies[why] += 1

    def discard(self, page: Page) -> None:
        """Forgets a page that was never mapped: another thread's fault was first."""
        self.left_out -= page.is_omitted
        self.omitted[page.number] = True
        self.never_mapped += 1
        self.remove_page(page)

    def remove_page(self, page: Page) -> None:
        """Removes a page that was freed."""
        self.changes += page in self.queue
        page.is_live, page.held = False, 0
        self.awake.discard(page)
        self._live -= 1
        if self.at.get(page.folio) is page:  # another page may have the folio already
            del self.at[page.folio]
        self.dequeue(page)
        for mapping in page.maps:
            self.drop_mapping(page, mapping.space)

    def hold(self, task: int, page: Page) -> None:
        """Emits a pin of a page that something holds, unless it has one."""
        if not page.pins:
            page.pins = 1
            self.emit(task, page, "pin")

    def let_go(self, task: int, page: Page) -> None:
        """Emits that nothing holds a page any more, if something did."""
        if page.pins:
            page.pins = 0
            self.emit(task, page, "unpin", outcome="stays")

    def last_unpin(self, task: int, page: Page) -> None:
        """Emits the last unpin of a page that nothing maps."""
        self.hold(task, page)
        self.emit(task, page, "unpin", outcome="freed", given=page.held)
        self.remove_page(page)

    def ending_spaces(self, page: Page) -> list[int]:
        """Returns the address spaces that map a page and are ending, the first to end first: nothing else of them comes any more."""
        ends = [(self.ends[each.space], each.space) for each in page.maps if each.space in self.ends]
        return [space for end, space in sorted(ends, key=lambda each: each[0].time) if end.link < self.now]

    def is_ending(self, page: Page) -> bool:
        """Returns whether all address spaces that map a page are ending."""
        return bool(page.maps) and len(self.ending_spaces(page)) == len(page.maps)

    def place_of_join(self, page: Page) -> int:
        """Returns where among the latest lines a page joined the queue; -1: nowhere. A page whose event is too old is left out."""
        place = self.lines.find(page.join)
        if page.join and place < 0 and self.lines.final:
            self.omit(page, Omission.TOO_OLD)
            self.begin_doubt(Doubt.TOO_OLD)
        return place


def journal_lines(nodes: Sequence[State]) -> Iterator[str]:
    """Yields the lines of a journal, in the lowest version that has all of its words and numbers."""
    version = 2 if any(node.order != PMD_ORDER for node in nodes) else 1
    if any(node.underused is not None or any(map(node.event_counts.get, FILLING)) for node in nodes):
        version = 3
    if len(nodes) > SMALL_NODES or any(node.blocks > SMALL_BLOCKS or node.callers > SMALL_CALLERS for node in nodes):
        version = 4
    yield f"thp-journal {version}"
    for number, node in enumerate(nodes):
        order = f" order {node.order}" if version > 1 else ""
        switch = "off" if node.underused is None else str(node.underused)
        yield f"node {number} blocks {node.blocks}{order}" + (f" underused {switch}" if version > 2 else "")
        yield from node.texts()
    yield "end"
