"""What function tracing observes, compared with the journal: written records, and a recording of Linux 6.12."""

from __future__ import annotations

from ..record.journal_builder import JournalBuilder
from ..record.reasons import Count
from ..record.records import JOINED, Kind
from ..record.report import compare_with_observed
from .written_records import WORD, JournalCase, Queue, WrittenRecords, folio_of, read_recording, store_records


class ObservedRecords(WrittenRecords):
    """With records of functions: a page was queued, since so many records; a scan tried a page; one that began at a time ended."""

    def queued(self, task: int, _: Queue, number: int, ago: int = 1) -> None:
        self.add(Kind.QUEUED, [folio_of(number), len(self.records) - ago, 0, JOINED, 1], task=task)

    def tried(self, task: int, _: Queue, number: int, failed: int = 0, began: int = 1, asked: int = 0) -> None:
        self.add(Kind.TRIED, [folio_of(number), asked, -11 * failed & WORD, 3, began], task=task)

    def batch(self, task: int, _: Queue, began: int = 1) -> None:
        self.add(Kind.BATCH, [0, began], task=task)


class ObservedTest(JournalCase):
    def test_rows(self) -> None:
        """Of each: what happens, the records, how many events are observed as inferred, and the contradictions' ends."""
        one, two, three = (f"divided {n}; " + "; ".join(f"queued {i} {2 * n}" for i in range(n)) for n in (1, 2, 3))
        split, pinned = "d:begin > 0; d:tried 0; d:free 0 0 8; d:batch; d:end > -", "d:begin > 0; d:tried 0 1; d:batch; d:end > 0"
        rows: list[tuple[str, str, int, list[str]]] = [
            ("all as inferred", f"{one}; {split}", 2, []),
            ("a locked page", f"{one}; d:begin > 0; d:batch; d:end > 0", 1, []),
            ("no join", f"divided 1; {split}", 1, ["it wasn't queued"]),
            ("no try", f"{one}; {split.replace('d:tried 0; ', '')}", 1, ["it wasn't split"]),
            ("a split that failed", f"{one}; {split.replace('tried 0', 'tried 0 1')}", 1, ["its split failed"]),
            ("a page that stays was split", f"{one}; {pinned.replace('tried 0 1', 'tried 0')}", 1, ["it was split"]),
            ("joins in another order", "page 0; page 1; queued 1; drop 0 0 8 > 0; queued 0; drop 1 0 8 > 0 1", 1, ["event of line 6"]),
            ("a second join", f"{one}; queued 0; unmap 0 > -", 0, []),
            ("a page freed after one", f"{one}; d:begin > 0; queued 0; unmap 0 > -; d:end > -", 1, ["it was queued or split before"]),
            ("a join during a try", f"{one}; {split.replace('; d', '; queued 0; d', 1)}; free 0 8 504; drop 0 8 504 > -", 2, []),
            ("tries in reverse (E)", f"{two}; d:begin > 0 1; d:tried 1 1; d:tried 0 1; d:batch; d:end > 1 0", 4, []),
            ("order", f"{three}; d:begin > 0 1 2; d:tried 1 1; d:tried 2 1; d:tried 0 1; d:batch; d:end > 0 2 1", 3, ["queue's"] * 3),
            ("two scans", f"{two}; d:begin > 0 1; d:tried 1 1; d:batch; d:tried 0 1 2; d:batch 2; d:end > 1 0", 3,
             ["another scan tried it"]),
        ]
        for what, records, observed, wanted in rows:
            with self.subTest(what):
                builder = self.build(store_records(ObservedRecords(records).records))
                found = [text for _, text in compare_with_observed([builder])]
                self.assertEqual((builder.tallies[Count.OBSERVED], len(found)), (observed, len(wanted)), found)
                self.assertTrue(all(map(str.endswith, found, wanted)), found)

    def test_when_a_batch_can_have_been_taken(self) -> None:
        """Of each: the records, and the begins of batches: as soon as they are asked for, but after the last page's join, and the tries
        of other batches."""
        rows = (("look; look; queued 0 2; d:tried 0 1 1 9; d:batch", [1]), ("look; look; look; queued 0; d:tried 0 1 1 9; d:batch", [2]),
                ("look; look; o:tried 0 1 1; d:tried 0 1 1 9; d:tried 1 1 1 9; d:batch; o:batch", [1, 2]))
        for records, wanted in rows:
            with self.subTest(records):
                store = store_records(ObservedRecords(records).records)
                self.assertEqual([batch.begin for batch in store.batches or ()], wanted)

    def test_recordings_of_kernels(self) -> None:
        """Of each: the order of its pages, the threshold, and how many events are observed as inferred. In the second scans of many threads
        overlap; in the third they also put their pages back singly."""
        rows = ("traced_6_12", 9, 100, 110), ("overlapping_6_12", 4, None, 568), ("overlapping_7_3", 4, None, 648)
        for name, order, threshold, observed in rows:
            with self.subTest(name):
                store = read_recording(name)
                builder = JournalBuilder(order, threshold)
                self.addCleanup(builder.lines.close)
                builder.add_records(store.records(), store.batches)
                contradictions = compare_with_observed([builder])
                self.check_legal(builder)
                self.assertEqual((contradictions, builder.tallies[Count.OBSERVED]), ([], observed))
                self.assertGreater(100 * (builder.pages - builder.left_out), 95 * builder.pages)
