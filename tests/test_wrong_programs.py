"""Wrong programs instead of thpsplit: a row of tests/outside.py refuses each, and none a program that is only wrapped."""

from __future__ import annotations

from typing import Optional

from fixtures import ProgramCase, add_tests, temporary_folder
from outside import rows
from wrong_programs import WRONG, WrongProgram


class WrongPrograms(ProgramCase):
    """Each wrong program."""

    def first_wrong(self, name: str, group: str, change: str) -> Optional[str]:
        """Returns what the first row that refuses a changed program reports, of a group or of all but those on memory; or None."""
        program = WrongProgram(name, group, change, self.program).write(temporary_folder(self))
        own = (row for row in rows() if (row.group == group if group else row.group != "memory"))
        return next((f"{row.group}: {row.name}: {wrong}" for row in own if (wrong := row.wrong(program)) is not None), None)

    def check(self, row: tuple[str, str, str]) -> Optional[str]:
        """Returns None if a row of its group refuses a wrong program."""
        return None if self.first_wrong(*row) else f"no row of '{row[1]}' refuses it"

    def test_a_wrapped_program_is_not_refused(self) -> None:
        self.assertIsNone(self.first_wrong("wrapped", "", ""))


add_tests(WrongPrograms, WrongPrograms.check, ((f"refused: {row[0]}", row) for row in WRONG))
