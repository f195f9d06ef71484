"""What a recording follows beside calls: collapses, migrations, map counts, copies on write, ends of processes, long scans."""

from __future__ import annotations

from ..record.calls import MADVISE, MREMAP
from ..record.journal_builder import JournalBuilder
from ..record.reasons import Count, Omission
from ..record.records import IN_FAULT, Kind
from .written_records import BASE, DAEMON, DONTNEED, HUGE, PLACE, SPACE, TASK, JournalCase, WrittenRecords, folio_of

HALF = "alloc 0; splitpmd 0; unmapsub 0 0 256 queued -"
CHILD, IN_NONE = 0xB000, 2  # an address space; the place of an allocation in no fault
NO_COUNTS = 1 << 32 | 5  # of a page that is split


class CollapsesTest(JournalCase):
    wanted = f"{HALF}; unmapsub 0 256 256 freed 0-511; alloc 1"

    def collapse(self, task: int, freed: int) -> WrittenRecords:
        """A page whose first half is unmapped, and a new one for a collapse; one of both is freed."""
        records = WrittenRecords("page 0; drop 0 0 256 > 0")
        if task == TASK:
            records.add(Kind.ENTER, [MADVISE, PLACE, HUGE, 25])
        records.add(Kind.ALLOC, [folio_of(1), 9], task=task)
        records.free(task, None, freed)
        return records

    def end(self, records: WrittenRecords, task: int, steps: str, queue: list[int]) -> WrittenRecords:
        """The end of the collapse, after other steps."""
        records.run(steps).add(Kind.COLLAPSED, [SPACE, 1, folio_of(1), 512 * 10], queue, task)
        return records

    def test_the_old_page_goes_and_a_new_one_comes(self) -> None:
        records = self.end(self.collapse(DAEMON, 0), DAEMON, "", [])
        records.drop(TASK, [folio_of(1)], 0, 8, 8)  # of the new page, at the old one's address
        builder = self.check(records, f"{self.wanted}; splitpmd 1; unmapsub 1 8 8 queued -")
        self.assertEqual(builder.tallies[Count.COLLAPSED], 1)

    def test_one_by_the_task_itself(self) -> None:
        records = self.end(self.collapse(TASK, 0), TASK, "", [])
        records.add(Kind.EXIT, [MADVISE, PLACE, HUGE, 25, 0], [])
        self.check(records, self.wanted)

    def test_another_task_sees_the_queue_before_its_end(self) -> None:
        records = self.end(self.collapse(DAEMON, 0), DAEMON, "look > -", [folio_of(1)])
        self.check(records, self.wanted.replace("queued", "stays"), threshold=511)

    def test_one_that_failed_changes_nothing(self) -> None:
        for task in (DAEMON, TASK):
            records = self.collapse(task, 1)
            records.add(Kind.EXIT, [MADVISE, PLACE, HUGE, 25, -11], [folio_of(0)])
            self.check(records, HALF)


class MigrationsTest(JournalCase):
    def migrate(self, records: WrittenRecords) -> WrittenRecords:
        """Page 0 migrates to where page 5 would be."""
        records.add(Kind.MOVED, [PLACE, folio_of(5), 9], task=DAEMON)
        return records.run("d:free 0")

    def test_a_page_goes_on_in_another_place(self) -> None:
        records = self.migrate(WrittenRecords("page 0")).run("drop 0 0 8 > 5; d:begin > 5; d:free 5 0 8; d:end > -")
        builder = self.check(records, "unmapsub 0 0 8 queued -; taken 0; split 0 0-7")
        self.assertEqual(builder.tallies[Count.MIGRATED], 1)

    def test_a_queued_one_is_left_out(self) -> None:
        self.check(self.migrate(WrittenRecords("page 0; look > 0")).run("look > -"), "", Omission.MIGRATED, threshold=100)

    def test_one_that_a_migration_splits_is_left_out(self) -> None:
        self.check("divided 1; d:free 0 0 8; look > -", "", Omission.SPLIT_BY_MIGRATION)


class CountsTest(JournalCase):
    def drop(self, whole: int, total: int, mapped: int, *omitted: Omission) -> JournalBuilder:
        """A page of which 8 subpages are dropped, and what it counts then."""
        records = WrittenRecords("divided 1")
        records.records[-1].values = (MADVISE, PLACE, BASE * 8, DONTNEED, 0, folio_of(0), total - 1, (whole - 1) & 0xFFFFFFFF, mapped)
        return self.check(records, "" if omitted else "unmapsub 0 0 8 queued -", *omitted)

    def test_counts(self) -> None:
        """They agree; counts by page aren't kept; of a page that is split."""
        for counts, compared in (((0, 504, 504), 1), ((0, 504, 0), 1), ((0, 9999, NO_COUNTS), 0)):
            with self.subTest(counts=counts):
                tallies = self.drop(*counts).tallies
                self.assertEqual((tallies[Count.MAP_COUNTS_COMPARED], tallies[Count.MAP_COUNTS_DIFFER]), (compared, 0))

    def test_a_page_elsewhere_with_the_same_frames_is_not_compared(self) -> None:
        records = WrittenRecords("page 0")
        records.call([MADVISE, HUGE * 20, BASE * 8, DONTNEED], [])
        records.records[-1].values = (MADVISE, HUGE * 20, BASE * 8, DONTNEED, 0, folio_of(0), 0xFFFFFFFF, 0xFFFFFFFF, 0)
        self.assertEqual(self.check(records, "alloc 0").tallies[Count.MAP_COUNTS_COMPARED], 0)

    def test_counts_that_differ_leave_the_page_out(self) -> None:
        for counts in ((0, 505, 504), (1, 504, 504), (0, 504, 503)):
            self.assertEqual(self.drop(*counts, Omission.MAP_COUNTS).tallies[Count.MAP_COUNTS_DIFFER], 1)


class CopiesTest(JournalCase):
    """Copies on write, most of them after a fork."""

    def copy(self, subpage: int, how: int = IN_FAULT, code: int = 7, before: str = "") -> WrittenRecords:
        """A page that a parent and its child map whole, or other records before; and a copy of a subpage."""
        records = WrittenRecords(before or "page 0")
        if not before:
            records.add(Kind.FORK, [SPACE, CHILD, 99])
        records.add(Kind.COPY, [folio_of(50), how, PLACE + BASE * subpage + 123, code])
        return records

    def test_a_copy_is_reported_at_its_tasks_next_record(self) -> None:
        records = self.copy(5)
        records.add(Kind.COPY, [folio_of(50), IN_FAULT, PLACE + BASE * 6, 7])
        records.add(Kind.FAULT, [PLACE, 7])
        self.check(records, "alloc 0; mapwhole 0; splitpmd 0; unmapsub 0 5 1 stays -; unmapsub 0 6 1 stays -")

    def test_the_old_frame_of_a_page_that_was_split_is_freed_after_its_copy(self) -> None:
        records = self.copy(9, before="divided 1; d:begin > 0; d:free 0 0 8; d:end > -").run("free 0 9 1")
        records.add(Kind.FAULT, [PLACE, 7])
        self.check(records, "unmapsub 0 9 1 stays 9")

    def test_a_look_by_another_shows_a_copy_before_its_tasks_next_record(self) -> None:
        records = self.copy(3, before="page 0").run("d:begin 0 1 > 0; d:end > 0")
        self.check(records, "alloc 0; splitpmd 0; unmapsub 0 3 1 queued -")

    def test_one_in_no_fault_or_of_an_absent_page_is_none(self) -> None:
        for how, code in ((IN_NONE, 7), (IN_FAULT, 6)):
            records = self.copy(5, how, code)
            records.add(Kind.FAULT)
            self.check(records, "alloc 0; mapwhole 0")

    def test_a_copy_whose_task_ends_is_reported_before_the_end(self) -> None:
        self.check(self.copy(5).run("d:exit > -"), "splitpmd 0; unmapsub 0 5 1 stays -; unmapsub 0 0 5 stays -; unmapsub 0 6 506 stays -")


class LongScansTest(JournalCase):
    """A scan that has put back what it took, and whose end is recorded much later."""

    begun = "divided 2; page 2; d:begin > 0 1"  # pages 0 and 1 are partly mapped, and taken

    def test_the_call_that_shows_it_queues_a_page_itself(self) -> None:
        self.check(f"{self.begun}; drop 2 0 8 > 1 0 2; d:end > 1 0 2", "back 1; splitpmd 2; unmapsub 2 0 8 queued -")

    def test_a_copy_from_before_it_took_shows_nothing_of_it(self) -> None:
        """The queue has page 9, which isn't ours and therefore isn't new in it."""
        self.check("page 0; page 1; drop 0 0 8 > 0 9; drop 1 0 8 > 0 9 1; d:begin > 0 9 1; drop 0 0 8 > 0 9 1; look > -; "
                   "d:end > 1 9 0; look > 1 9 0", "back 0; back 1")

    def test_the_frames_of_a_page_put_back_are_another_page_by_its_end(self) -> None:
        builder = self.check(f"{self.begun}; drop 2 0 8 > 1 0 2; unmap 1 > 0 2; page 5 1; drop 5 0 8 > 0 2 1; d:end > 0 2 1; look > 0 2 1",
                             "unmapsub 3 0 8 queued -")
        self.assertGreater(builder.tallies[Count.QUEUES_COMPARED], 3)

    def test_the_frames_of_a_page_that_it_holds_are_another_page_while_it_runs(self) -> None:
        """Page 1 is freed and page 5 has its frames; it and page 2, in this order, join before page 0 is split."""
        self.check(f"{self.begun}; unmap 1 > -; page 5 1; drop 5 0 8 > 1; drop 2 0 8 > 1 2; d:free 0 0 8; d:end > 1 2", "split 0 0-7")

    def test_a_page_let_go_and_queued_before_the_scan_has_ended(self) -> None:
        """Page 0 is pinned and put back, page 1 found in use; page 2 joins, then a call queues page 1 again."""
        self.check("page 0; page 1; drop 0 0 8 > 0 1; d:begin > 0 1; look > -; page 2; drop 1 0 8 > 0 2 1; d:end > 0 2 1; look > 0 2 1",
                   "back 0; alloc 1", Omission.REQUEUED, threshold=100)

    def test_what_another_that_runs_has_taken(self) -> None:
        """Both begin with the same queue, and the first to end has taken a page that joined meanwhile."""
        self.check(f"{self.begun}; o:begin 3 2 > 0 1; drop 2 0 8 > 2; o:free 2 0 8; o:end > -; d:free 0 0 8; d:free 1 0 8; d:end > -",
                   "split 2 0-7; split 0 0-7; split 1 0-7")

    def test_all_take_their_first_batches_before_any_takes_a_second_one(self) -> None:
        """The first takes 128 of 130 pages, the next one the rest, and a third one a page that joins later."""
        pages = " ".join(map(str, range(130)))
        frees = ["; ".join(f"{task}free {page} 0 8" for page in part) for task, part in (("d:", range(128)), ("o:", (128, 129)))]
        self.check(f"divided 130; d:begin 256 130 > {pages}; o:begin 2 2 > 128 129; page 130; drop 130 0 8 > 130; begin 1 1 > 130; "
                   f"free 130 0 8; end > -; {frees[1]}; o:end > -; {frees[0]}; d:end > -", "split 127 0-7")


class EndsTest(JournalCase):
    """A scan shows what an end of a process has done before that is recorded."""

    def test_a_page_that_goes_while_its_process_ends(self) -> None:
        """It has gone before the scan, or while the scan holds it."""
        for scan in ("d:begin 0 1 > -", "d:begin > 0; d:free 0"):
            self.check(f"divided 1; {scan}; d:end > -; d:exit > -", "unmapsub 0 0 8 queued -; unmapsub 0 8 504 freed 0-511")

    def test_a_page_in_two_page_tables_joins_the_queue(self) -> None:
        """A scan sees it there after the first table has gone and before the second one has."""
        records = WrittenRecords("page 0")
        records.call([MREMAP, PLACE, HUGE, HUGE], [], HUGE * 40 + 256 * BASE)
        records.run("d:begin 0 1 > 0; d:end > 0; d:free 0; d:exit > -")
        self.check(records, "unmapsub 0 0 256 queued -; unmapsub 0 256 256 freed 0-511")

    def test_a_page_in_one_page_table_does_not(self) -> None:
        self.check("page 0; d:begin 0 1 > 0; d:end > 0; d:exit > 0", "", Omission.UNKNOWN_JOIN)

    def test_a_page_that_another_process_maps_joins_the_queue(self) -> None:
        """The parent has unmapped the first half."""
        records = WrittenRecords("page 0")
        records.add(Kind.FORK, [SPACE, CHILD, 99])
        records.run(f"drop 0 0 256 > -; d:begin 0 1 > 0; d:end > 0; d:exit {CHILD} > 0; look > 0")
        self.check(records, "mapwhole 0; splitpmd 0; unmapsub 0 0 256 stays -; unmapwhole 0 queued -")

    def test_a_page_that_goes_while_its_process_runs_is_left_out(self) -> None:
        self.check("divided 1; d:begin 0 1 > -; look > -; d:exit > -", "", Omission.UNSEEN_COLLAPSE)
