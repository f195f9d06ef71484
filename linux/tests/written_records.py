"""Records that tests write, recordings of a kernel that are stored, and the journals that are built from both."""

from __future__ import annotations

import gzip
import os
import struct
import unittest
from contextlib import closing
from pathlib import Path
from typing import List, Sequence, Union

from ..common.program import Program
from ..record.calls import MADVISE, MUNMAP
from ..record.journal_builder import JournalBuilder
from ..record.reasons import PROVED, Count, Omission
from ..record.records import HEAD, IN_FAULT, QUEUE_MOST, SET, TORN, Kind, Record, Store
from ..record.state import State, journal_lines

SPACE, TASK, OTHER, DAEMON = 0xA000, 7, 12, 90  # an address space and two of its tasks; one of no group, which scans or collapses
HUGE, BASE, DONTNEED = 1 << 21, 4096, 4
PLACE = HUGE * 10  # of page 0
FOLIO = 0xFFFFEA0000008000 & -(64 * 512)
WORD = (1 << 64) - 1
STORED = Path(__file__).resolve().parent / "stored"
PLAIN = str(Path(__file__).resolve().with_name("plain_program.py"))


def journal_text(nodes: Sequence[State]) -> str:
    """Returns the text of a journal."""
    return "".join(f"{line}\n" for line in journal_lines(nodes))


def folio_of(number: int) -> int:
    """Returns the folio of a page."""
    return FOLIO + 64 * 512 * number


def place_of(number: int) -> int:
    """Returns where a page is."""
    return PLACE + HUGE * number


def frames_of(number: int, first: int, count: int) -> list[int]:
    """Returns frames of a page."""
    return [folio_of(number) + 64 * i for i in range(first, first + count)]


Queue = Union[List[int], None]


class WrittenRecords:
    """Records, one a nanosecond. `run` adds them by words: `[o:|d:]METHOD NUMBERS.. [> QUEUE]`, separated by semicolons, of TASK, or of
    OTHER or DAEMON; a queue is a list of pages by their numbers, `-` where it is empty. A page is at its own place."""

    def __init__(self, steps: str = "") -> None:
        self.records: list[Record] = []
        self.run(steps)

    def run(self, steps: str) -> WrittenRecords:
        """Adds the records of these steps."""
        for step in steps.split("; ") if steps else ():
            head, arrow, rest = step.partition(" > ")
            task = {"o:": OTHER, "d:": DAEMON}.get(head[:2], TASK)
            word, *numbers = head[0 if task == TASK else 2 :].split(" ")
            queue = [folio_of(int(each)) for each in rest.split(" ") if each != "-"] if arrow else None
            getattr(self, word)(task, queue, *map(int, numbers))
        return self

    def add(self, kind: Kind, values: Sequence[int] = (), queue: Sequence[int] | None = None, task: int = TASK) -> None:
        """Adds a record."""
        padded = (*(value & WORD for value in values), *[0] * (9 - len(values)))
        space = 0 if task == DAEMON else SPACE
        self.records.append(Record(kind, len(self.records), task, space, padded, None if queue is None else list(queue)))

    def call(self, call: Sequence[int], queue: Sequence[int] | None, answer: int = 0, task: int = TASK, freed: Sequence[int] = ()) -> None:
        """A system call, which frees pages."""
        self.add(Kind.ENTER, call, task=task)
        for folio in freed:
            self.add(Kind.FREE, [folio, 9], task=task)
        self.add(Kind.EXIT, [*call[:4], *[0] * (4 - len(call)), answer], queue, task)

    def page(self, task: int, _: Queue, number: int, frames: int | None = None) -> None:
        """A page that a fault makes, perhaps with the frames of another one."""
        self.add(Kind.FAULT, [place_of(number), 6], task=task)
        self.add(Kind.ALLOC, [folio_of(number if frames is None else frames), 9, IN_FAULT, place_of(number), 6], task=task)

    def drop(self, task: int, queue: Queue, number: int, first: int, count: int) -> None:
        """A call that unmaps a part of a page."""
        self.call([MADVISE, place_of(number) + BASE * first, BASE * count, DONTNEED], queue, task=task)

    def enter(self, task: int, _: Queue, number: int, first: int, count: int, call: int = MADVISE) -> None:
        """A call on a part of a page, by default one that unmaps it, whose end isn't recorded."""
        self.add(Kind.ENTER, [call, place_of(number) + BASE * first, BASE * count, DONTNEED], task=task)

    def unmap(self, task: int, queue: Queue, number: int) -> None:
        """A call that unmaps a page and frees it."""
        self.call([MUNMAP, place_of(number), HUGE], queue, 0, task, [folio_of(number)])

    def look(self, task: int, queue: Queue) -> None:
        """A call that changes nothing, with its copy of the queue."""
        self.add(Kind.EXIT, [MADVISE], queue, task)

    def free(self, task: int, _: Queue, number: int, first: int = 0, count: int = 0) -> None:
        """Frees of base pages of a page, or of the page."""
        for frame in frames_of(number, first, count) if count else ():
            self.add(Kind.FREE, [frame, 0], task=task)
        if not count:
            self.add(Kind.FREE, [folio_of(number), 9], task=task)

    def begin(self, task: int, queue: Queue, total: int | None = None, freeable: int | None = None) -> None:
        """The start of a scan."""
        freeable = len(queue or ()) if freeable is None else freeable
        self.add(Kind.SCAN, [freeable if total is None else total, freeable], queue, task)

    def end(self, task: int, queue: Queue) -> None:
        """The end of a scan."""
        self.add(Kind.SCANNED, [], queue, task)

    def exit(self, task: int, queue: Queue, space: int = SPACE) -> None:
        """The end of an address space."""
        self.add(Kind.EXIT_MMAP, [space], queue, task)

    def divided(self, task: int, _: Queue, count: int) -> None:
        """Pages whose first 8 subpages are unmapped, so that they are queued."""
        for number in range(count):
            self.page(task, None, number)
        for number in range(count):
            self.drop(task, [folio_of(each) for each in range(number + 1)], number, 0, 8)


def pack_record(record: Record) -> bytes:
    """Returns the bytes of a record, as the trace programs make them."""
    if record.contents is not None:
        rest, count = b"".join(each.to_bytes(SET, "little") for each in record.contents), 2 * SET // 8
    else:
        queue = record.queue or []
        mark = queue.index(record.foreign) + 1 << 32 if record.foreign else 0
        last = queue[(len(queue) - 1) // QUEUE_MOST * QUEUE_MOST :]
        rest, count = struct.pack(f"<{len(last)}Q", *last), TORN if record.queue is None else len(queue) | mark
    return HEAD.pack(record.kind, record.time, record.task, record.space, *record.values, 0, count, 0) + rest


def pack_parts(record: Record) -> list[bytes]:
    """Returns the parts of a long queue, which precede its record."""
    queue = record.queue or []
    return [HEAD.pack(Kind.PART, record.time, record.task, record.space, *record.values, first, QUEUE_MOST, 0)
            + struct.pack(f"<{QUEUE_MOST}Q", *queue[first : first + QUEUE_MOST]) for first in range(0, len(queue) - QUEUE_MOST, QUEUE_MOST)]


def store_records(records: Sequence[Record]) -> Store:
    """Returns a store of records, linked."""
    store = Store()
    for record in records:
        for raw in (*pack_parts(record), pack_record(record)):
            store.add(raw)
    store.link()
    return store


def read_recording(name: str) -> Store:
    """Returns a recording of a kernel, as `thprecord --records` has written it."""
    store = Store()
    with gzip.open(STORED / f"{name}.records.gz") as file:
        os.write(store.descriptor, file.read())
    store.link()
    return store


def words_of(builder: JournalBuilder) -> list[str]:
    """Returns the events without their callers."""
    return [line.split(" ", 1)[1] for line in builder.texts()]


class JournalCase(unittest.TestCase):
    """Journals that have to be legal."""

    def build(self, store: Store, threshold: int | None = None) -> JournalBuilder:
        """Returns the journal of records, and closes their store."""
        builder = JournalBuilder(9, threshold)
        self.addCleanup(builder.lines.close)
        with closing(store):
            builder.add_records(store.records())
        return builder

    def check_legal(self, builder: JournalBuilder) -> None:
        """Checks that a journal is legal, by the plain reading, and its queue the kernel's."""
        text = journal_text([builder])
        self.assertTrue(Program(PLAIN).check(text).legal, text)
        self.assertEqual([count for count in (Count.QUEUES_DIFFER, *PROVED) if builder.tallies[count]], [])

    def check(self, written: WrittenRecords | str, last: str | None, *omitted: Omission, threshold: int | None = None) -> JournalBuilder:
        """Checks that the journal is legal and ends with these events (has none for ""; None: with any), and that pages are left out
        for these reasons alone."""
        written = WrittenRecords(written) if isinstance(written, str) else written
        builder = self.build(store_records(written.records), threshold)
        self.check_legal(builder)
        self.assertEqual({reason for reason in Omission if builder.tallies[reason]}, {*omitted})
        words = words_of(builder)
        if last is not None:
            self.assertEqual(words[-last.count("; ") - 1 :], last.split("; ") if last else [])
        return builder
