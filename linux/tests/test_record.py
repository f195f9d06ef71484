"""Journals of written records: pages and scans; of stored recordings of a kernel; and on disk, in bounded memory."""

from __future__ import annotations

import subprocess
import sys
import unittest
from collections.abc import Sequence
from contextlib import closing
from unittest import mock

from ..record import scratch
from ..record.journal_builder import JournalBuilder
from ..record.reasons import Count, Omission, Reason
from ..record.records import QUEUE_MOST, Kind, Store, parse_record
from ..record.report import JournalFile
from ..record.scans import batches_of
from .cases import ROOT
from .written_records import (
    JournalCase, WrittenRecords, folio_of, journal_text, pack_parts, pack_record, read_recording, store_records, words_of)

PARTLY = "alloc 0; splitpmd 0; unmapsub 0 0 8 queued -"  # of a page that is divided
GONE = "alloc 0; unmapwhole 0 freed 0-511"
GROWTH, LIVING = 12 << 10, 200 / 1024  # KiB that a builder and a store may take, however many records there are, and for each page
LONG = """
import re, sys
sys.path.insert(0, sys.argv[1])
from linux.record.journal_builder import JournalBuilder
from linux.record.records import Store
from linux.tests.written_records import WrittenRecords, pack_record
def resident(): return int(re.search("VmHWM: *\\t *([0-9]+)", open("/proc/self/status").read())[1])
store, builder, before = Store(), JournalBuilder(9, None), resident()
for number in range(int(sys.argv[2])):
    for record in WrittenRecords(sys.argv[3].format(number)).records:
        record.time += 1000 * number
        store.add(pack_record(record))
store.link()
builder.add_records(store.records())
print(store.count, sum(1 for line in builder.texts()), builder.left_out, resident() - before)
"""


class RowsTest(JournalCase):
    def test_rows(self) -> None:
        """Of each: what happens, the records, the last events, why pages are left out, and the threshold of underused pages."""
        two = "page 0; page 1; drop 0 0 8 > 0"
        rows: list[tuple[str, str, str, Sequence[Omission], int | None]] = [
            ("a page is divided and split", "divided 1; d:begin > 0; free 0 0 8; d:end > -", f"{PARTLY}; taken 0; split 0 0-7", (), None),
            ("a page is freed before its unmap's end", "page 0; unmap 0 > -", GONE, (), None),
            ("two address spaces in turn at one place", "page 0; free 0; d:exit > -; page 0; free 0; d:exit > -",
             f"{GONE}; alloc 1; unmapwhole 1 freed 0-511", (), None),
            ("a second page in one place is freed in its own fault", "page 0; o:page 0 1; o:free 1; drop 0 0 8 > 0", PARTLY, (), None),
            ("a page joins unseen", f"{two}; look > 0 1", PARTLY, [Omission.UNKNOWN_JOIN], None),
            ("a page goes unseen", f"{two}; look > -", "alloc 0", [Omission.UNSEEN_COLLAPSE], None),
            ("a page joins at its fault after a pinned one is put back", "divided 1; d:begin > 0; page 1; look > 0 1; d:end > 0 1",
             "alloc 1", (), 100),
            ("a page joins before a scan takes", f"{two}; d:begin 2 1 > 0; drop 1 0 8 > -; d:free 0 0 8; d:free 1 0 8; d:end > -",
             "taken 0; taken 1; split 0 0-7; split 1 0-7", (), None),
            ("a page joins before the next copy", "divided 2; page 2; d:begin > 0 1; d:end; drop 2 0 8 > 1 0 2",
             "back 1; splitpmd 2; unmapsub 2 0 8 queued -", (), None),
            ("a subpage stays after the split", "divided 1; d:begin > 0; d:free 0 0 7; d:end > -", "", [Omission.HELD_BEYOND_SPLIT], None),
            ("a call ends unseen before a fault", "page 0; enter 0 0 8; page 1; o:look > 0", f"{PARTLY}; alloc 1", (), None),
            ("before another call", "page 0; enter 0 0 8; drop 0 8 8 > 0", f"{PARTLY}; unmapsub 0 8 8 stays -", (), None),
            ("one that moves areas", "page 0; enter 0 0 512 25; page 1", "alloc 0", [Omission.MISSED_END], None),
            ("a page was written", "page 0; look > 0; d:begin > 0; d:free 0 490 22; d:end > -", "", [Omission.WRITTEN], 100),
            ("a page was locked", "page 0; look > 0; d:begin > 0; d:end > 0", "", [Omission.LOCKED], 100),
        ]
        for what, records, wanted, omitted, threshold in rows:
            with self.subTest(what):
                self.check(records, wanted, *omitted, threshold=threshold)


class PagesTest(JournalCase):
    def test_queues_that_differ_are_counted(self) -> None:
        """A page joins before another one, which a scan has put back; the order of two changes."""
        for steps in ("page 2; drop 2 0 8 > 2 1 0", "look > 0 1"):
            records = WrittenRecords(f"divided 2; d:begin > 0 1; d:end > 1 0; {steps}")
            self.assertEqual(self.build(store_records(records.records)).tallies[Count.QUEUES_DIFFER], 1)

    def test_each_event_has_a_time(self) -> None:
        records = WrittenRecords("page 0; page 1; drop 1 0 256 > 1; drop 0 0 512 > 1")
        builder = self.build(store_records(records.records))
        times = list(builder.times())
        self.assertEqual((len(times), times[0]), (len(list(builder.texts())), 1))
        self.assertEqual(times, sorted(times))
        self.assertLessEqual({*times}, {record.time for record in records.records})

    def test_contents(self) -> None:
        records, every = WrittenRecords("page 0; drop 0 500 12 > 0"), (1 << 500) - 1
        for data, zero, began in ((0b1100, every & ~0b1100, None), (0b0110, every & ~0b0110, None), (every, 0, 0)):
            records.add(Kind.CONTENTS, [folio_of(0), len(records.records) if began is None else began])  # the last: of another page
            records.records[-1].contents = data, zero
        again = parse_record(pack_record(records.records[-1]))
        self.assertEqual((again.values, again.contents), (records.records[-1].values, (every, 0)))
        lines = journal_text([self.check(records, "write 0 1 1; zero 0 3 1")]).split("\n")
        self.assertEqual(lines[:4], ["thp-journal 3", "node 0 blocks 9 order 9 underused off", "0 alloc 0", "0 write 0 2 2"])


class ScansTest(JournalCase):
    def test_pages_are_tried_and_put_back_in_the_order_of_taking(self) -> None:
        """The kernel has reversed both (E)."""
        builder = self.check(
            "divided 3; d:begin > 0 1 2; d:free 1 0 8; d:end > 2 0",
            "taken 0; taken 1; taken 2; pin 0; pinned 0; split 1 0-7; pin 2; pinned 2; back 0; back 2")
        self.assertEqual(builder.tallies[Count.REVERSED], 1)

    def test_a_split_keeps_zero_filled_frames_while_the_switch_is_off(self) -> None:
        """The kernel gives them back (B)."""
        self.assertEqual(self.check("divided 1; d:begin > 0; d:free 0 0 16; d:end > -", "split 0 0-7").tallies[Count.ZEROS_BACK], 1)

    def test_batches(self) -> None:
        rows = {(10, 10): [(0, 10)], (4, 166): [], (300, 300): [(0, 128), (128, 128)], (200, 150): [(0, 128)], (0, 0): []}
        for (total, freeable), wanted in rows.items():
            self.assertEqual(list(batches_of(total, freeable)), wanted)

    def test_a_page_freed_while_a_scan_runs_precedes_it(self) -> None:
        records = WrittenRecords("divided 2; d:begin > 0 1; unmap 0 > 1")
        end = records.records.pop()
        records.run("d:end > 1").records.append(end)
        self.check(records, "unmapsub 0 8 504 freed 0-511; taken 1; pin 1; pinned 1; back 1")

    def test_copies_that_no_scan_has(self) -> None:
        """The next copy shows its end, or the journal's queue its start."""
        for scan in ("d:begin > 0 1; d:end", "d:begin 2 2; d:end > 1 0"):
            self.assertEqual(self.check(f"divided 2; {scan}; look > 1 0", "back 0; back 1").tallies[Count.SCANS], 1)


class RecordsTest(unittest.TestCase):
    def test_queues_of_records(self) -> None:
        """A walk that met a page twice, or didn't end, has none."""
        rows: list[tuple[Kind, list[int] | None, list[int] | None]] = [
            (Kind.SCAN, [100, 200, 300], [100, 200, 300]), (Kind.SCAN, [100, 200, 100], None), (Kind.SCAN, None, None),
            (Kind.FREE, [], None)]
        for kind, given, wanted in rows:
            records = WrittenRecords()
            records.add(kind, [5], given)
            found = parse_record(pack_record(records.records[0]))
            self.assertEqual((found.kind, found.values[0], found.queue), (kind, 5, wanted))
        self.assertEqual(QUEUE_MOST, 2000)

    def test_long_queues(self) -> None:
        """One has the pages in its parts, unless one is missing; those of a walk that didn't end are no other's."""
        long, short = [*range(1, 2 * QUEUE_MOST + 2)], [*range(1, QUEUE_MOST + 1)]
        for given, kept, wanted in ((long, slice(0, None), long), (long[:-1], slice(0, None), long[:-1]), (long, slice(1, None), None),
                                    (short, slice(0, None), short), (None, slice(0, None), None)):
            records, parts = WrittenRecords(), WrittenRecords()
            records.add(Kind.EXIT, [5], given)
            parts.add(Kind.SCAN, [5], long)
            with closing(Store()) as store:
                for raw in (*pack_parts(parts.records[0]), *pack_parts(records.records[0])[kept], pack_record(records.records[0])):
                    store.add(raw)
                store.link()
                self.assertEqual([found.queue for found in store.records()], [wanted])


class StoredTest(JournalCase):
    def test_recordings_of_a_kernel(self) -> None:
        rows: list[tuple[str, int, int, dict[Reason, int]]] = [
            ("areas", 53, 0, {Count.MAP_COUNTS_COMPARED: 64}),  # two threads that move and replace areas
            ("collapses", 61, 1, {Count.MAP_COUNTS_COMPARED: 76, Count.COLLAPSED: 12}),  # two that ask for collapses
            ("one_thread", 23, 0, {Count.QUEUES_COMPARED: 272, Count.REVERSED: 3}),
        ]
        for name, pages, left_out, tallies in rows:
            with self.subTest(name=name):
                builder = self.build(read_recording(name))
                self.check_legal(builder)
                self.assertEqual((builder.pages, builder.left_out), (pages, left_out))
                self.assertEqual({each: builder.tallies[each] for each in tallies}, tallies)
                self.assertEqual(builder.tallies[Count.MAP_COUNTS_DIFFER], 0)
                self.assertGreater(len(words_of(builder)), 30)


class LinesTest(JournalCase):
    def build_in_window(self, name: str, window: int) -> JournalBuilder:
        with mock.patch.object(scratch, "WINDOW", window), mock.patch.object(scratch, "SLACK", 10):
            return self.build(read_recording(name))

    def test_a_small_window_gives_the_same_journal(self) -> None:
        for name in ("one_thread", "areas", "collapses"):
            whole, small = self.build(read_recording(name)), self.build_in_window(name, 60)
            self.assertEqual(journal_text([small]), journal_text([whole]), name)
            self.assertEqual((small.tallies, small.left_out), (whole.tallies, whole.left_out))
            self.assertGreater(small.lines.final, 100)

    def test_a_page_that_joined_too_long_ago_is_left_out(self) -> None:
        """Pages 0 and 1 are in another order in the kernel's queue than in the journal; their lines are final."""
        others = "; ".join(f"page {number}" for number in range(2, 40))
        records = f"page 0; page 1; drop 0 0 8; drop 1 0 8; {others}; look > 1 0"
        with mock.patch.object(scratch, "WINDOW", 10), mock.patch.object(scratch, "SLACK", 5):
            self.check(records, "alloc 37", Omission.TOO_OLD)  # of 38 pages

    def test_a_journal_as_a_file(self) -> None:
        builder = self.build_in_window("one_thread", 40)
        text = journal_text([builder])
        with closing(JournalFile([builder])) as journal:
            self.assertEqual(b"".join(journal.pieces()).decode(), text)
            self.assertEqual([journal.line(3), journal.line(10 ** 9)], [text.split("\n")[2], ""])
            self.assertEqual((journal.size, journal.events), (len(text), text.count("\n") - 3))


class MemoryTest(JournalCase):
    def test_many_records_and_pages_that_live_in_little_memory(self) -> None:
        dropped = "page 0; drop 0 0 8 > 0; d:free 5 0 8; unmap 0 > -"
        for steps, pages, each, events, most in ((dropped, 10000, 15, 4, GROWTH), ("page {}", 30000, 2, 1, GROWTH + LIVING * 30000)):
            words = [sys.executable, "-c", LONG, str(ROOT), str(pages), steps]
            done = subprocess.run(words, capture_output=True, text=True, check=True)
            records, count, left_out, growth = map(int, done.stdout.split())
            self.assertEqual((records, count, left_out), (each * pages, events * pages, 0))
            self.assertLess(growth, most)
