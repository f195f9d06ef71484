"""The built program from outside: each exit status, with the exact bytes of each stream, as tests/outside.py has them."""

from __future__ import annotations

from typing import Optional
from unittest import TestCase

import faulty_texts
from fixtures import ProgramCase, add_tests
from outside import Row, rows
from texts import FAULT_WORDS, LARGE_VERSION, Fault, journal_fault, script_fault


class Texts(TestCase):
    """tests/texts.py reads the stored faulty texts."""

    def test_errors_are_as_stored(self) -> None:
        for text, line, word in faulty_texts.SCRIPTS:
            self.assertEqual(script_fault(text), Fault(line, word), text)
        for newest, others in ((LARGE_VERSION - 1, faulty_texts.SMALL_JOURNALS), (LARGE_VERSION, faulty_texts.LARGE_JOURNALS)):
            for text, line, word in faulty_texts.JOURNALS + others:
                self.assertEqual(journal_fault(text, newest), Fault(line, word), text)

    def test_each_kind_of_error_is_in_a_text(self) -> None:
        found = {word for _, _, word in [*faulty_texts.SCRIPTS, *faulty_texts.JOURNALS]} | {"too-long"}
        self.assertLessEqual(set(FAULT_WORDS), found)


class Outside(ProgramCase):
    """Each call has the expected result."""

    def check(self, row: Row) -> Optional[str]:
        """Returns what is wrong when the program makes a call, or None."""
        return row.wrong(self.program)


add_tests(Outside, Outside.check, ((f"{row.group}: {row.name}", row) for row in rows()))
