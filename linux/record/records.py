"""Records of the trace programs: events of the kernel, in the order of the ring buffer. They are kept on disk, written as they come and
read back in passes, so that a recording of any length needs little memory.

A record in the file is as in the ring: a head of 8 bytes, the record, padding to 8 bytes. Two words of a record that the trace programs
leave 0 become its links."""

from __future__ import annotations

import enum
import os
import struct
from array import array
from bisect import bisect
from collections import Counter as Tallies
from dataclasses import dataclass
from typing import Callable, Iterable, Iterator, Sequence

from ..common.errors import RunFailed
from .scratch import FOLDER, ScratchFile

QUEUE_MOST = 2000  # pages of a queue that a record carries; those of a longer queue that precede its last ones are in PARTs before it
TORN = (1 << 32) - 1  # instead of their number: the walk of the queue didn't end where it began
SET = 64  # bytes of a set of subpages
HEAD = struct.Struct("<16Q")  # kind, time, tid and tgid, mm, nine values, a link, count, a link: struct thp_record
SIZE = HEAD.size + 8 * QUEUE_MOST
RING_HEAD = 8  # bytes before a record: its length
SPACE_LINK_AT, LINK_AT = 8 * 13, 8 * 15  # the words of a record that are its links
_LINK, _PART = struct.Struct("<Q"), struct.Struct("<16xQ80xQ")
_WORD = (1 << 32) - 1


class Kind(enum.IntEnum):
    """What a record reports; its values in brackets; `how`: IN_FAULT, or in no fault."""

    ENTER = 0  # a system call begins (number, three arguments, program break)
    EXIT = 1  # it ends (number, arguments, answer, and of the page at the first one the folio and map counts)
    FAULT = 2  # a page fault (address, error code); only a task's first one after an ALLOC or a COPY of its own
    ALLOC = 3  # a huge page is allocated (folio, order, how, the fault's address, its error code)
    FREE = 4  # a page is freed in a block where a huge page was made (folio, order; 1: again by a scan, not allocated between)
    FORK = 5  # a process or thread begins (parent's mm, child's mm, child's tgid)
    EXIT_MMAP = 6  # an address space has ended (mm)
    SCAN = 7  # the shrinker begins on the queue (how many it may scan, how many are freeable)
    SCANNED = 8  # it ends (0, how many were freed)
    COPY = 9  # a base page is allocated, perhaps for a copy on write (folio, how, the fault's address, its error code)
    COLLAPSED = 10  # a region has become a huge page (mm, 1, its folio, its index)
    MOVED = 11  # a page is mapped again by a migration, or by a split that failed (address, folio, order)
    CONTENTS = 12  # this tool looked at a page (folio, when the look began); with the subpages with data and the zero-filled ones
    # a function has returned (folio, its begin, its result, bits: in a list before, after, partly mapped; the begin of the task's scan)
    QUEUED = 13  # deferred_split_folio
    UNQUEUED = 14  # __folio_unqueue_deferred_split: 1, the page was in the queue
    BATCH = 15  # deferred_split_scan (folio 0)
    TRIED = 16  # __folio_split, or split_huge_page_to_list_to_order: 0, the page is split
    PART = 17  # pages of the queue that its task's next record copies, from the place in the first word for links on; only in the file


WITH_QUEUE = frozenset([Kind.EXIT, Kind.EXIT_MMAP, Kind.SCAN, Kind.SCANNED, Kind.COLLAPSED])
OBSERVED = frozenset([Kind.QUEUED, Kind.UNQUEUED, Kind.BATCH, Kind.TRIED])
IN_FAULT, JOINED = 1, 2  # how a page is allocated; bits of a page that is in a list after the call alone
_WITH_QUEUE = frozenset(map(int, WITH_QUEUE))
_KINDS = tuple((kind, kind in WITH_QUEUE) for kind in Kind)
_SUBPAGES = (1 << 23) - 1  # of _nr_pages_mapped: the bits above it show whether a PMD entry maps the page


@dataclass(eq=False)
class Record:
    """`queue`: folios, oldest first; None: not copied, or its walk didn't end where it began. A Store sets the fields behind the links."""

    kind: Kind
    time: int  # ns
    task: int
    space: int  # address of the mm
    values: tuple[int, ...]
    queue: list[int] | None
    contents: tuple[int, int] | None = None  # of a look: the subpages with data, the zero-filled ones
    is_applied: bool = False  # its events are emitted
    space_link: int = 0  # of an address space's first record: where that of its end is in the store; 0: nowhere
    link: int = 0  # where its `end`, next queue or child's end is; of an address space's end: when its last other record was made
    end: Record | None = None  # of a scan: its end; of an allocation: the collapse that it was for
    next_queue: list[int] | None = None  # of a scan's end without a copy: the next copy, if no scan began before it
    folios_made: dict[int, int] | None = None  # of a scan: folios that were allocated until its end, and when last
    space_ends: dict[int, Record] | None = None  # the ends of the address spaces that this record shows first
    twice: int = 0  # a folio that the walk met twice; there is no queue then
    foreign: int = 0  # a folio of the queue that is another group's

    def queue_at_end(self) -> list[int] | None:
        """Returns the queue at a scan's end, by its own copy or the next."""
        return self.next_queue if self.queue is None else self.queue

    def counts(self) -> tuple[int, int, int, int]:
        """Returns what struct folio counts of mappings of the page at a call's address: its folio (0: none was known there, or it
        was split), those by PMD entries, all of them, and how many subpages PTEs map. Counts begin at -1 (include/linux/mm.h)."""
        folio, total, whole, mapped = self.values[5:9]
        return folio if mapped <= _WORD else 0, (whole + 1) & _WORD, (total + 1) & _WORD, mapped & _SUBPAGES


def parse_record(raw: bytes, place: int = 0, before: Sequence[int] = ()) -> Record:
    """Returns a record by its bytes, which begin at a place, and the pages of the queue in the PARTs before it."""
    words, at = HEAD.unpack_from(raw, place), place + HEAD.size
    (kind, has_queue), count, mark = _KINDS[words[0]], words[14] & _WORD, words[14] >> 32
    queue: list[int] | None = None
    contents, twice, foreign = None, 0, 0
    in_parts = (count - 1) // QUEUE_MOST * QUEUE_MOST if count else 0
    if has_queue and count != TORN and in_parts in (0, len(before)):
        folios = [*before[:in_parts], *struct.unpack_from(f"<{count - in_parts}Q", raw, at)]
        if len({*folios}) < count:  # a walk of a list that changes may meet a page again
            twice = next(folio for folio, many in Tallies(folios).items() if many > 1)
        else:
            queue, foreign = folios, folios[mark - 1] if 0 < mark <= count else 0
    elif kind is Kind.CONTENTS:
        contents = int.from_bytes(raw[at : at + SET], "little"), int.from_bytes(raw[at + SET : at + 2 * SET], "little")
    links = words[13], words[15]
    return Record(kind, words[1], words[2] & _WORD, words[3], words[4:13], queue, contents, False, *links, twice=twice, foreign=foreign)


@dataclass(eq=False)
class Batch:
    """A batch of a scan, as function tracing observed it: when the task was asked for it, and when it can have taken it, at the earliest;
    when it ended it, and the pages that it tried, in that order, each with the answer of its split (0: it is split), and when it was asked
    and answered. `puts_singly`: a page is put back after its try (Linux 7), not at the end."""

    task: int
    asked: int
    begin: int
    end: int
    tries: dict[int, tuple[int, int, int]]
    puts_singly: bool


class Store(ScratchFile):
    """Records of one queue, to whose `descriptor` more may be written. `batches`: those observed, by their begins; None: not traced."""

    def __init__(self, folder: str = FOLDER) -> None:
        super().__init__("the records", folder)
        self.count = 0  # of the records
        self.report: Callable[[float], None] = lambda share: None  # is called now and then with the share of a pass that is over
        self.batches: list[Batch] | None = None
        self._made = array("Q"), array("Q"), array("Q")  # of each huge page allocated: its record's place, folio and time
        self._parts: dict[int, array[int]] = {}  # by the places of records with longer queues than they have room for: those of their PARTs

    def add(self, raw: bytes) -> None:
        """Appends one record."""
        self.append(_LINK.pack(len(raw)) + raw + bytes(-len(raw) % 8))
        self.count += 1

    def link(self) -> None:
        """Links the records, all of which have come: each scan and each allocation for a collapse with its end, a scan's end without a
        copy with the next one, an address space's first record with its end, which gets the time since when nothing was recorded."""
        linker, batches = _Linker(self), _Batches()
        for at, record in self._walk(with_frees=False):
            linker.see(at, record)
            batches.see(record)
            if record.kind is Kind.ALLOC:
                for values, value in zip(self._made, (at, record.values[0], record.time)):
                    values.append(value)
        self.batches = sorted(batches.found, key=lambda batch: batch.begin) or None

    def records(self) -> Iterator[Record]:
        """Yields the linked records in order."""
        ends: dict[int, Record] = {}  # ends of scans, which were read with their scans, by their places
        for at, record in self._walk():
            record = ends.pop(at, record)
            space_ends = {}
            if record.space_link:
                space = record.values[0] if record.kind is Kind.COLLAPSED else record.space
                space_ends[space] = self._record_at(record.space_link)
            if record.link and record.kind is Kind.FORK:
                space_ends[record.values[1]] = self._record_at(record.link)
            elif record.link and record.kind in (Kind.SCAN, Kind.ALLOC):
                record.end = self._record_at(record.link)
            if record.end and record.kind is Kind.SCAN:
                ends[record.link] = record.end
                places, folios, times = self._made
                made = slice(bisect(places, at), bisect(places, record.link))
                record.folios_made = dict(zip(folios[made], times[made]))
            record.space_ends = space_ends or None
            yield record

    def _read_parts(self, places: Iterable[int]) -> list[int]:
        """Returns the pages in PARTs."""
        folios = array("Q")
        for at in places:
            folios.frombytes(os.pread(self.descriptor, SIZE, at)[HEAD.size :])
        return folios.tolist()

    def _record_at(self, at: int) -> Record:
        record = parse_record(os.pread(self.descriptor, SIZE, at), 0, self._read_parts(self._parts.get(at, ())))
        if record.kind is Kind.SCANNED and record.link:
            record.next_queue = self._record_at(record.link).queue
        return record

    def _walk(self, with_frees: bool = True) -> Iterator[tuple[int, Record]]:
        """Yields the records in order, each with its place in the file, perhaps without those of frees, which are most."""
        rest, place, end = b"", 0, self.size  # what is left of the last piece, and where that is
        parts: dict[int, array[int]] = {}  # by tasks, the places of PARTs of a copy
        for piece in self.pieces():
            data, at = rest + piece, 0
            self.report(place / end)
            while len(data) >= at + RING_HEAD:
                begin, length = at + RING_HEAD, _LINK.unpack_from(data, at)[0]
                if len(data) < begin + length + -length % 8:
                    break
                kind, before = data[begin], list[int]()
                if kind == Kind.PART:
                    task, first = _PART.unpack_from(data, begin)
                    places = parts[task & _WORD] = parts.get(task & _WORD, array("Q")) if first else array("Q")
                    places.append(place + begin)
                elif kind in _WITH_QUEUE and parts:
                    places = parts.pop(HEAD.unpack_from(data, begin)[2] & _WORD, array("Q"))
                    self._parts[place + begin], before = places, self._read_parts(places)
                if kind != Kind.PART and (with_frees or kind != Kind.FREE):
                    yield place + begin, parse_record(data, begin, before)
                at = begin + length + -length % 8
            rest, place = data[at:], place + at
        if rest:
            raise RunFailed("the records on disk end within a record")


class _Batches:
    """Looks at all records in order, and finds the batches of scans."""

    def __init__(self) -> None:
        self.found: list[Batch] = []
        self._running: dict[int, Batch] = {}  # by tasks
        self._until: dict[int, int] = {}  # by folios, until when another batch held the page, or it wasn't in the queue

    def see(self, record: Record) -> None:
        """Takes the next record."""
        kind, task, (folio, begin, result, linked, scan, *_) = record.kind, record.task, record.values
        if kind is Kind.TRIED and scan:
            batch = self._running.setdefault(task, Batch(task, scan, scan, scan, {}, not linked & 1))
            batch.tries[folio] = result, begin, record.time
            first = next(iter(batch.tries.values()))[1]
            batch.begin = max(batch.begin, min(first, self._until.get(folio, 0)))
            self._until[folio] = record.time
        elif kind is Kind.QUEUED and linked & 3 == JOINED:
            self._until[folio] = begin
        elif kind is Kind.BATCH or (kind is Kind.SCANNED and task in self._running):  # the end of the batch wasn't observed
            batch = self._running.pop(task) if task in self._running else Batch(task, begin, begin, begin, {}, False)
            batch.end = record.time
            self.found.append(batch)


class _Linker:
    """Looks at all records in order, and sets links."""

    def __init__(self, file: ScratchFile) -> None:
        self._file = file
        self._scans: dict[int, int] = {}  # those that run, by task: their places
        self._allocated: dict[int, tuple[int, int]] = {}  # by task: place and folio
        self._last: dict[int, int] = {}  # by address space: the time of its last record
        self._first: dict[int, int] = {}  # by address space: where its end's place goes
        self._torn: list[int] = []  # scans' ends without a copy: their places
        self._torn_time = 0

    def _patch(self, at: int, value: int) -> None:
        self._file.overwrite(at, _LINK.pack(value))

    def see(self, at: int, record: Record) -> None:
        """Takes the next record."""
        if record.kind in OBSERVED:
            return
        kind, task, values = record.kind, record.task, record.values
        if self._torn and record.queue is not None and record.time > self._torn_time:
            for end in self._torn:
                self._patch(end + LINK_AT, at)
            self._torn = []
        if kind is Kind.EXIT_MMAP:
            self._patch(at + LINK_AT, self._last.pop(values[0], 0))
            if values[0] in self._first:
                self._patch(self._first.pop(values[0]), at)
        elif kind not in (Kind.FREE, Kind.CONTENTS):
            self._last[record.space] = record.time
            self._first.setdefault(values[0] if kind is Kind.COLLAPSED else record.space, at + SPACE_LINK_AT)
        if kind is Kind.FORK:
            self._first.setdefault(values[1], at + LINK_AT)
        elif kind is Kind.SCAN:
            self._scans[task], self._torn = at, []
        elif kind is Kind.SCANNED and task in self._scans:
            self._patch(self._scans.pop(task) + LINK_AT, at)
            if record.queue is None:
                self._torn.append(at)
                self._torn_time = record.time
        elif kind is Kind.ALLOC and values[2] != IN_FAULT:  # perhaps for a collapse
            self._allocated[task] = (at, values[0])
        elif kind is Kind.COLLAPSED and task in self._allocated:
            place, folio = self._allocated.pop(task)
            if folio == values[2]:
                self._patch(place + LINK_AT, at)
