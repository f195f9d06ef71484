"""Checks of journals: by `thpcheck`, which takes any length and may explain, or where there is none by `thpsplit --check`."""

from __future__ import annotations

from typing import Union

from .errors import Unavailable
from .program import CRATES, Program, Verdict, call, check, find

BUILT = CRATES / "thpcheck/out/thpcheck"
EXPLAIN = "--explain"


class Checker:
    """The `thpcheck` at a path. If its help names --explain, a verdict includes why a journal is illegal."""

    def __init__(self, path: str) -> None:
        self.path = path
        self._options = [EXPLAIN] if EXPLAIN in call(path, ["--help"], "").stdout else []

    def check(self, journal: str | int) -> Verdict:
        """Returns whether a journal, as a text or an open file, is legal."""
        return check(self.path, self._options, journal)


JournalChecker = Union[Checker, Program]


def find_checker(checker: str | None = None, program: str | None = None) -> JournalChecker:
    """Returns the `thpcheck` that is named; else the `thpsplit` that is named; else a `thpcheck` as `find` looks for it;
    else a `thpsplit` so. Unavailable where there is none."""
    path = find("thpcheck", BUILT, checker) if checker or not program else None
    if path:
        return Checker(path)
    try:
        return Program(program)
    except Unavailable as lacking:
        raise Unavailable(f"no thpcheck (make checker, --checker or THPCHECK), and {lacking}") from lacking
