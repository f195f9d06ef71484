"""What system calls do to mappings, and calls that are still running while something shows what they did."""

from __future__ import annotations

import unittest
from typing import Sequence

from ..record.calls import BRK, MADVISE, MMAP, MPROTECT, MREMAP, MUNMAP, MappingChange, has_succeeded, list_effects
from ..record.reasons import Count, Omission
from ..record.records import Kind, Record
from .written_records import BASE, DONTNEED, HUGE, OTHER, PLACE, SPACE, TASK, JournalCase, WrittenRecords, folio_of

ELSEWHERE = HUGE * 40
NO_ROOM, NO_MEMORY, INVALID = -17, -12, -22  # answers that are errors


def asked(call: Sequence[int]) -> Record:
    return Record(Kind.ENTER, 0, TASK, SPACE, (*call, *[0] * (9 - len(call))), None)


class EffectsTest(unittest.TestCase):
    def test_what_each_call_does(self) -> None:
        removes, empties, cuts = MappingChange.REMOVES, MappingChange.EMPTIES, MappingChange.CUTS
        one = (PLACE, PLACE + BASE, 0)
        rest = (removes, PLACE + BASE, PLACE + HUGE, 0)
        rows: list[tuple[Sequence[int], int | None, list[tuple[MappingChange, int, int, int]]]] = [
            ((MUNMAP, PLACE, HUGE - 1), 0, [(removes, PLACE, PLACE + HUGE, 0)]),
            ((MMAP, PLACE, BASE), PLACE, [(removes, *one)]),
            ((MADVISE, PLACE, BASE, 4), 0, [(empties, *one)]),
            ((MADVISE, PLACE, BASE, 102), 0, [(empties, *one)]),
            ((MADVISE, PLACE, BASE, 16), 0, [(cuts, *one)]),
            ((MADVISE, PLACE, BASE, 8), 0, [(MappingChange.LOSES, *one)]),
            ((MADVISE, PLACE, BASE, 25), 0, []),
            ((MPROTECT, PLACE, BASE, 1), 0, [(cuts, *one)]),
            ((BRK, PLACE + 1, 0, 0, PLACE + HUGE), PLACE + 1, [rest]),
            ((BRK, PLACE + HUGE, 0, 0, PLACE), PLACE + HUGE, []),
            ((MREMAP, PLACE, HUGE, 2 * HUGE), PLACE, []),
            ((MREMAP, PLACE, HUGE, BASE), PLACE, [rest]),
            ((MREMAP, PLACE, HUGE, BASE), None, [rest]),
            ((MREMAP, PLACE, HUGE, BASE), ELSEWHERE, [
                rest, (removes, ELSEWHERE, ELSEWHERE + BASE, 0), (MappingChange.MOVES, *one[:2], ELSEWHERE - PLACE)]),
        ]
        for call, answer, wanted in rows:
            found = [(each.change, each.start, each.end, each.by) for each in list_effects(asked(call), answer)]
            self.assertEqual(found, wanted, call)

    def test_answers(self) -> None:
        rows: list[tuple[Sequence[int], int, bool]] = [
            ((MUNMAP, PLACE, HUGE), 0, True), ((MUNMAP, PLACE, HUGE), INVALID, False),
            ((MREMAP, PLACE, HUGE, HUGE), ELSEWHERE, True), ((MREMAP, PLACE, HUGE, HUGE), NO_MEMORY, False),
            ((MREMAP, PLACE, HUGE, HUGE), (1 << 64) + NO_MEMORY, False),
            ((MMAP, PLACE, HUGE), PLACE, True), ((MMAP, PLACE, HUGE), NO_ROOM, False),
            ((MADVISE, PLACE, HUGE, 4), NO_MEMORY, True), ((MADVISE, PLACE, HUGE, 4), INVALID, False),
            ((BRK, PLACE), PLACE, True), ((BRK, 0), PLACE, False),
        ]
        for call, answer, wanted in rows:
            self.assertEqual(has_succeeded(asked(call), answer), wanted, (call, answer))


class AreasTest(JournalCase):
    """One page that is moved, replaced or cut off."""

    def test_one_call(self) -> None:
        middle = PLACE + HUGE // 2
        rows: list[tuple[str, Sequence[int], int, bool, str]] = [
            ("a new area over a part", (MMAP, middle, HUGE, 3), middle, True, "splitpmd 0; unmapsub 0 256 256 queued -"),
            ("a new area over it", (MMAP, PLACE, HUGE, 3), PLACE, False, "unmapwhole 0 freed 0-511"),
            ("a new area that is refused", (MMAP, PLACE, HUGE, 3), NO_ROOM, True, "alloc 0"),
            ("a lower program break", (BRK, PLACE + 8 * BASE, 0, 0, PLACE + 2 * HUGE), PLACE + 8 * BASE, True,
             "splitpmd 0; unmapsub 0 8 504 queued -"),
            ("a program break that is asked for", (BRK, 0, 0, 0, PLACE + HUGE), PLACE + HUGE, True, "alloc 0"),
            ("a higher program break", (BRK, PLACE + 2 * HUGE, 0, 0, PLACE + HUGE), PLACE + 2 * HUGE, True, "alloc 0"),
            ("a shorter area", (MREMAP, PLACE, HUGE, BASE), PLACE, True, "splitpmd 0; unmapsub 0 1 511 queued -"),
            ("a move to where PMDs don't fit", (MREMAP, PLACE, HUGE, HUGE), ELSEWHERE + BASE, True, "alloc 0; splitpmd 0"),
        ]
        for what, call, answer, stays, wanted in rows:
            with self.subTest(what):
                records = WrittenRecords("page 0")
                records.call(call, [folio_of(0)] if "queued" in wanted else [], answer, TASK, [] if stays else [folio_of(0)])
                self.check(records, wanted)

    def move(self, to: int, length: int = HUGE) -> WrittenRecords:
        """Page 0 is moved."""
        records = WrittenRecords("page 0")
        records.call((MREMAP, PLACE, length, length), [], to)
        return records

    def test_a_page_that_moves_to_an_aligned_place(self) -> None:
        records = self.move(ELSEWHERE)
        records.call((MADVISE, ELSEWHERE + 8 * BASE, 8 * BASE, DONTNEED), [folio_of(0)])
        records.call((MADVISE, PLACE, HUGE, DONTNEED), [folio_of(0)])  # nothing is there any more
        self.check(records, "alloc 0; splitpmd 0; unmapsub 0 8 8 queued -")

    def test_a_page_that_moves_into_two_page_tables(self) -> None:
        records = self.move(ELSEWHERE + 256 * BASE)
        records.call((MUNMAP, ELSEWHERE, 2 * HUGE), [], 0, TASK, [folio_of(0)])
        self.check(records, "alloc 0; splitpmd 0; unmapsub 0 0 256 queued -; unmapsub 0 256 256 freed 0-511")

    def test_a_page_of_which_a_part_moves_is_left_out(self) -> None:
        self.check(self.move(ELSEWHERE, HUGE // 2), "", Omission.PART_MOVED)

    def test_the_page_at_the_new_place_goes(self) -> None:
        records = WrittenRecords("page 0; page 30")
        records.call((MREMAP, PLACE, HUGE, HUGE), [], ELSEWHERE, TASK, [folio_of(30)])
        self.check(records, "alloc 1; unmapwhole 1 freed 0-511")


class RunningTest(JournalCase):
    """A call that reaches several pages, of which another task sees some go before its end."""

    def unmap_two(self, meanwhile: str, after: str = "") -> WrittenRecords:
        """Two partly mapped pages, which one call unmaps; the first has gone when other records come."""
        records = WrittenRecords("divided 2")
        records.add(Kind.ENTER, [MUNMAP, PLACE, 2 * HUGE])
        records.run("free 0").run(meanwhile).add(Kind.EXIT, [MUNMAP, PLACE, 2 * HUGE], [])
        return records.run(after)

    def test_the_other_page_is_scanned_before_it_goes(self) -> None:
        records = self.unmap_two("o:look > 1; d:begin > 1; d:free 1 0 8; d:end > -; free 1 8 504")
        self.check(records, "unmapsub 0 8 504 freed 0-511; taken 1; split 1 0-7; unmapsub 1 8 504 freed 8-511")

    def test_a_page_that_was_made_where_one_had_gone(self) -> None:
        """The range is another area by the time at which the call's end is recorded."""
        self.check(self.unmap_two("free 1; o:page 0 5", "drop 0 0 8 > 5"), "splitpmd 2; unmapsub 2 0 8 queued -")

    def test_a_page_that_was_made_where_one_has_moved_away(self) -> None:
        records = WrittenRecords("page 0")
        records.add(Kind.ENTER, [MREMAP, PLACE, HUGE, HUGE])
        records.run("o:page 0 5").add(Kind.EXIT, [MREMAP, PLACE, HUGE, HUGE, ELSEWHERE], [])
        self.check(records.run("drop 0 0 8 > 5"), "alloc 1; splitpmd 1; unmapsub 1 0 8 queued -")

    def test_a_page_whose_last_pin_goes_before_its_free_is_recorded(self) -> None:
        records = WrittenRecords("divided 1")
        records.call((MUNMAP, PLACE, HUGE), [folio_of(0)])  # something holds it
        self.check(records.run("o:look > -; free 0"), "pin 0; unmapsub 0 8 504 stays -; unpin 0 freed 0-511")

    def test_a_call_that_reaches_no_page_hides_no_queue(self) -> None:
        records = WrittenRecords("page 0")
        records.add(Kind.ENTER, [MUNMAP, ELSEWHERE, HUGE], task=OTHER)
        builder = self.check(records.run("drop 0 0 8 > 0"), "unmapsub 0 0 8 queued -")
        self.assertEqual(builder.tallies[Count.QUEUES_COMPARED], 1)
