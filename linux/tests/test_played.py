"""Journals of scans beside which pages join, and of scans that overlap: written records, and records of a kernel that is played in a
random order."""

from __future__ import annotations

import itertools
from typing import Sequence

from ..common.program import Program
from ..record.reasons import Count
from .played_kernel import PlayedKernel
from .written_records import PLAIN, JournalCase, WrittenRecords, journal_text, store_records, words_of

THRESHOLD, THREADS, STEPS, SEED = 100, 4, 400, 3
# of a wrong kernel: its bug, and what proves it
BUGS = {"first": Count.OVERTAKEN, "head": Count.OVERTAKEN, "twice": Count.MET_TWICE, "foreign": Count.FOREIGN, "double": Count.FREED_TWICE,
        "taken": Count.QUEUED_FREE}
RUNS = ((1, 1, 3000, False), (30, 2, 4000, True), (100, 4, 9000, False))  # threads, scanners, steps, whether it puts back one by one
SEEDS = {("head", 1): 2, ("taken", 1): 4}  # where one thread seldom meets a scan


class PutBackTest(JournalCase):
    def test_a_page_joins_between_two_that_are_put_back(self) -> None:
        builder = self.check(
            "divided 3; page 3; d:begin > 0 1 2; look > 2; drop 3 0 8 > 2 3; d:end > 2 3 1 0; look > 2 3 1 0; d:begin > 2 3 1 0; "
            "d:free 0 0 8; d:free 1 0 8; d:free 2 0 8; d:free 3 0 8; d:end > -", None)
        self.assertEqual(sum(words.startswith("split ") for words in words_of(builder)), 4)

    def test_the_record_of_a_taken_page_comes_after_that_of_a_page_that_joined_later(self) -> None:
        """Page 1 joins before the scan takes page 0 and it; page 2 joins at its fault afterwards, and is recorded earlier."""
        builder = self.check(
            "page 0; page 1; look > 0 1; d:begin > 0 1; d:end > -; "  # both are in use
            "drop 0 0 8 > 0; d:begin 2 1 > 0; page 2; o:drop 1 0 8 > 2; d:free 0 0 8; d:free 1 0 8; d:end > 2; look > 2",
            None, threshold=THRESHOLD)
        words = words_of(builder)
        self.assertLess(words.index("unmapsub 1 0 8 queued -"), words.index("alloc 2"))

    def test_a_page_that_joins_at_its_fault_is_taken(self) -> None:
        builder = self.check("page 0; look > 0; d:begin 2 1 > 0; page 1; look > -; d:end > -; look > -", None, threshold=THRESHOLD)
        self.assertEqual([each for each in words_of(builder) if each.startswith("used")], ["used 0", "used 1"])


class OverlapTest(JournalCase):
    def test_a_scan_that_began_later_ends_first(self) -> None:
        """What the first had taken, its start shows: pages 0 and 1."""
        builder = self.check("divided 2; d:begin > 0 1; page 2; drop 2 0 8 > 2; o:begin > 2; o:free 2 0 8; o:end > -; d:free 1 0 8; "
                             "d:end > 0; look > 0", "taken 2; split 2 0-7; pin 0; pinned 0; split 1 0-7; back 0")
        self.assertEqual(builder.tallies[Count.SCANS], 2)

    def test_a_put_back_that_a_call_sees_before_its_scan_has_ended(self) -> None:
        """A second scan takes page 0 again and holds it while a third one takes page 3."""
        self.check("divided 2; page 2; page 3; d:begin > 0 1; d:free 1 0 8; drop 2 0 8 > 0 2; d:end > 0 2; begin > 0 2; o:drop 3 0 8 > 3; "
                   "o:begin > 3; o:free 3 0 8; o:end > -; free 2 0 8; end > 0; look > 0",
                   "taken 3; split 3 0-7; pinned 0; split 2 0-7; back 0")

    def test_a_scan_that_is_asked_for_too_few_pages_takes_none(self) -> None:
        self.check("divided 3; d:begin > 0 1 2; d:end > 2 1 0; d:begin 2 3 > 2 1 0; d:end > 2 1 0", "back 0; back 1; back 2")

    def test_a_copy_that_was_begun_before_a_page_was_made_shows_the_former_one(self) -> None:
        records = WrittenRecords("divided 3; unmap 1 > 0 2; page 5 1; drop 5 0 8 > 0 2 1; o:look > 0 1 2")
        records.records[-1].time = records.records[-8].time  # the walk began before page 1 was freed
        self.check(records, "unmapsub 3 0 8 queued -")

    def test_pages_join_while_a_copy_is_made(self) -> None:
        """It shows nothing of the places of pages that were made meanwhile, and may lack those that joined."""
        for steps, shown, later in (("page 1; o:page 2; drop 1 0 8; o:drop 2 0 8", "0 2 1", "0 2 1"), ("drop 3 0 8", "0", "0 3"),
                                    ("page 1; o:drop 3 0 8; drop 1 0 8", "0 1 3", "0 1 3")):
            records = WrittenRecords("page 0; page 3; drop 0 0 8 > 0")
            begun = len(records.records)
            records.run(f"{steps}; o:look > {shown}").records[-1].time = begun
            self.check(records.run(f"look > {later}"), None)
            self.assertTrue(self.build(store_records(records.run(f"look > {later[::-1]}").records)).tallies[Count.QUEUES_DIFFER])


class PlayedTest(JournalCase):
    """Each seed is one whose journal was illegal or whose queues differed while put-backs counted as one step."""

    def play(self, seeds: Sequence[int], one_by_one: bool) -> None:
        for seed in seeds:
            with self.subTest(seed=seed):
                records = PlayedKernel(seed, one_by_one, THRESHOLD, THREADS).play(STEPS)
                builder = self.build(store_records(records), THRESHOLD)
                self.check_legal(builder)
                self.assertGreater(10 * builder.pages, 60 * builder.left_out)

    def test_records_alone_prove_bugs(self) -> None:
        """Each bug is proved wherever it shows: at 1, 30 and 100 threads."""
        for (threads, scanners, steps, one_by_one), (bug, law) in itertools.product(RUNS, BUGS.items()):
            with self.subTest(bug, threads=threads):
                kernel = PlayedKernel(SEEDS.get((bug, threads), SEED), one_by_one, None, threads, bug, scanners)
                tallies = self.build(store_records(kernel.play(steps))).tallies
                self.assertTrue(tallies[law])

    def test_a_wrong_kernel_is_found(self) -> None:
        for seed in (1, 2, 4, 6):
            builder = self.build(store_records(PlayedKernel(seed, False, THRESHOLD, THREADS, "first").play(STEPS)), THRESHOLD)
            is_legal = Program(PLAIN).check(journal_text([builder])).legal
            self.assertTrue(builder.tallies[Count.QUEUES_DIFFER] or not is_legal, seed)

    def test_a_kernel_that_puts_back_one_by_one(self) -> None:
        self.play((8, 77, 112, 175, 202, 231), True)

    def test_a_kernel_that_puts_back_all_at_once(self) -> None:
        self.play((48, 175, 193, 235), False)
