"""Checks of journals by a stand-in for `thpcheck`, by the real one where it is built, and what `thprecord` says of a recording."""

from __future__ import annotations

import contextlib
import io
import os
import random
import tempfile
import unittest
from pathlib import Path
from unittest import mock

from ..common import checker as checkers, program as programs
from ..common.checker import Checker, JournalChecker, find_checker
from ..common.errors import DIFFERS, DONE, INCONCLUSIVE, SKIPPED, InputFault, Unavailable
from ..common.journal import SMALL_BLOCKS, journal_of
from ..common.program import Program
from ..record.reasons import Doubt, Reason
from ..record.recorder import Recording
from ..record.report import JournalFile, Report
from ..record.scans import BATCH
from .cases import PLAIN, PLAIN_CHECKER, FolderCase
from .written_records import JournalCase, WrittenRecords, journal_text, read_recording, store_records

BUILT = programs.find("thpcheck", checkers.BUILT)
EXPLAINING = f"#!/bin/sh\nPLAIN_EXPLAINS=1 exec {PLAIN_CHECKER} \"$@\"\n"
JOINED = "0 unmapsub {0} 0 8 queued -"


class VerdictsTest(JournalCase):
    """What is printed of a recording, and the status."""

    def setUp(self) -> None:
        self.by: JournalChecker = Program(PLAIN)

    def report(
        self, records: WrittenRecords, doubts: dict[Reason, int] | None = None, required: float = 95, strict: bool = False
    ) -> tuple[int, str]:
        """Returns the status and what is printed of records."""
        builder, report = self.build(store_records(records.records)), Report(self.by, required, strict)
        with contextlib.redirect_stdout(io.StringIO()) as out, contextlib.closing(JournalFile([builder])) as journal:
            return report.judge(Recording([], doubts or {}, [], "", [], None), [builder], journal), out.getvalue()

    def scan_part(self, taken: slice) -> WrittenRecords:
        """A scan that splits these of more pages than it may take."""
        pages = [*range(BATCH + 12)]
        queue = " ".join(map(str, pages))
        frees = "; ".join(f"d:free {number} 0 8" for number in pages[taken])
        left = " ".join(str(number) for number in pages if number not in pages[taken])
        return WrittenRecords(f"divided {len(pages)}; d:begin {BATCH} > {queue}; {frees}; d:end > {left}")

    def test_legal_and_strict(self) -> None:
        records = WrittenRecords("divided 2; d:begin > 0 1; d:end > 1 0")
        status, text = self.report(records)
        self.assertEqual((status, text.split("\n")[0]), (DONE, "legal but for E: 2 of 2 pages followed (100.0 %), 14 events"))
        status, text = self.report(records, strict=True)
        self.assertEqual((status, text.split(":")[0]), (DIFFERS, "differs by E"))
        self.assertEqual(self.report(self.scan_part(slice(0, BATCH)))[0], DONE)

    def test_a_scan_that_takes_others_than_the_oldest_is_illegal(self) -> None:
        status, text = self.report(self.scan_part(slice(-BATCH, None)))
        self.assertEqual((status, text.split(":")[0]), (DIFFERS, "illegal line 423"))
        self.assertIn("\n    line 423: 1 taken 12\n", text)

    def test_a_queue_in_another_order_differs(self) -> None:
        status, text = self.report(WrittenRecords("divided 2; d:begin > 0 1; d:end > 1 0; look > 0 1"))
        self.assertEqual((status, text.split(":")[0]), (DIFFERS, "differs"))

    def test_what_may_be_a_limit_of_the_tool_is_inconclusive(self) -> None:
        illegal = self.scan_part(slice(-BATCH, None))
        status, text = self.report(illegal, {Doubt.LOST: 3})
        self.assertEqual((status, text.split(":")[0]), (INCONCLUSIVE, "inconclusive"))
        self.assertIn("line 423 would be illegal", text)
        self.assertIn("3 records were lost", text)
        legal = WrittenRecords("divided 2; d:begin > 0 1; d:free 0 0 7; d:free 1 0 8; d:end > -")
        self.assertEqual(self.report(legal, required=50)[0], DONE)
        status, text = self.report(legal, required=51)
        self.assertEqual(status, INCONCLUSIVE)
        self.assertIn("1 pages weren't followed", text)

    def test_more_pages_than_former_versions_have_blocks(self) -> None:
        for count, head in ((SMALL_BLOCKS, "thp-journal 1"), (SMALL_BLOCKS + 1, "thp-journal 4")):
            builder = self.build(store_records(WrittenRecords("; ".join(f"page {number}" for number in range(count))).records))
            self.assertEqual((journal_text([builder]).split("\n")[0], builder.blocks), (head, count))
            self.check_legal(builder)

    def test_nothing(self) -> None:
        self.assertEqual(self.report(WrittenRecords())[0], SKIPPED)

    def test_an_illegal_journal_is_explained(self) -> None:
        with tempfile.TemporaryDirectory() as name:
            path = Path(name) / "checker"
            path.write_text(EXPLAINING)
            path.chmod(0o755)
            self.by = Checker(str(path))
            text = self.report(self.scan_part(slice(-BATCH, None)))[1]
        self.assertIn("\n    line 423: 1 taken 12\n    expected: nothing\n    why: the plain reading refuses it\n", text)


@unittest.skipUnless(BUILT, "there is no thpcheck (make checker, or THPCHECK=PATH)")
class BuiltTest(JournalCase):
    """The built program and the plain reading agree on a recording, and on it without a taken page."""

    def test_a_recording(self) -> None:
        assert BUILT
        text = journal_text([self.build(read_recording("one_thread"))])
        lines = text.split("\n")
        del lines[next(at for at, line in enumerate(lines) if " taken " in line)]
        for each in (text, "\n".join(lines)):
            found, plain = Checker(BUILT).check(each), Program(PLAIN).check(each)
            self.assertEqual((found.legal, found.line, found.text), (plain.legal, plain.line, plain.text))
        self.assertIn("\nwhy: ", found.why)


class FoundTest(FolderCase):
    """Which checker is chosen; the folder is the path, and nothing is built in it."""

    def setUp(self) -> None:
        super().setUp()
        with contextlib.ExitStack() as patches:
            for module in (checkers, programs):
                patches.enter_context(mock.patch.object(module, "BUILT", self.folder / "nothing"))
            patches.enter_context(mock.patch.dict(os.environ, {"PATH": str(self.folder)}))
            self.addCleanup(patches.pop_all().close)
        for name in ("THPSPLIT", "THPCHECK"):
            os.environ.pop(name, None)

    def made(self, name: str) -> str:
        path = self.folder / name
        path.write_text("#!/bin/sh\necho Usage\n")
        path.chmod(0o755)
        return str(path)

    def test_thpcheck_comes_first_and_thpsplit_stands_in_for_it(self) -> None:
        with self.assertRaisesRegex(Unavailable, "no thpcheck .*, and no thpsplit"):
            find_checker()
        for name, kind in (("thpsplit", Program), ("thpcheck", Checker)):
            path = self.made(name)
            found = find_checker()
            self.assertEqual((type(found), found.path), (kind, path))

    def test_one_that_is_named_judges(self) -> None:
        split, check, other = self.made("thpsplit"), self.made("thpcheck"), self.made("other")
        self.assertEqual(find_checker(program=split).path, split)
        self.assertEqual(find_checker(checker=other, program=split).path, other)
        with mock.patch.dict(os.environ, {"THPCHECK": other, "THPSPLIT": split}):
            self.assertEqual(find_checker().path, other)
        self.assertEqual(find_checker(checker=check).path, check)
        with self.assertRaisesRegex(Unavailable, "no program nowhere"):
            find_checker(checker="nowhere")


class JournalTextTest(JournalCase):
    """Texts that can be anything."""

    def refused(self, content: bytes) -> str:
        with self.assertRaises(InputFault) as caught:
            journal_of(content.decode("latin-1"))
        return str(caught.exception)

    def test_bytes_that_are_no_journal(self) -> None:
        chance, text = random.Random(4), journal_text([self.build(read_recording("one_thread"))]).encode()
        self.refused(b"")
        for _ in range(300):
            self.refused(chance.randbytes(chance.randrange(1, 300)))
        for _ in range(30):
            place = chance.randrange(len(text) - 1)
            self.refused(text[:place] + bytes([chance.choice(b"\x00\x80\xff\n\r\x1c x")]) + text[place:])
        for number, lines in ((3, b"node 0 blocks 8\n0 split 0 0-99999999999"), (2, b"0 alloc 0")):
            self.assertEqual(self.refused(b"thp-journal 1\n" + lines + b"\nend\n"),
                             f"line {number} of the journal is neither a node nor an event")
        self.assertEqual(len(journal_of(text.decode())), 1)
