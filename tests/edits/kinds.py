"""Reads the lines of `rt must-fail`, prints them, and counts how each edit is refused.

    rt must-fail 2>&1 | python3 tests/edits/kinds.py

An edit is refused at a clause if the prover fails at a goal: what a function ensures, what a call requires, or an invariant. It is
refused only at a name if every error is a proof file that names what the edit removed, and without a goal if the prover reports
none, as for a loop that no proof file gives a measure. Edits of these two kinds test no contract. The last line has the count of
each kind. The status is 0 if every edit is refused at a clause, and else 1.
"""

from __future__ import annotations

import re
import sys
from typing import Iterable

EDIT = re.compile(r"^rt: must-fail (\S+)\.edit: (.*)$")
"""A line about one edit: its crate and name, and what the prover did."""

KINDS = ("at a clause", "only at a name", "without a goal", "not refused")
"""How an edit can end, in the order in which the last line counts them."""


def kind_of(result: str) -> str:
    """The kind of a result as `rt must-fail` prints it."""
    if result.startswith("refused, as it must be (only because a proof file names"):
        return "only at a name"
    if result == "refused, as it must be":
        return "without a goal"
    if result.startswith("refused, as it must be"):
        return "at a clause"
    return "not refused"


def sort_edits(lines: Iterable[str]) -> dict[str, list[str]]:
    """Prints the lines, and returns the edits of each kind."""
    edits: dict[str, list[str]] = {kind: [] for kind in KINDS}
    for line in lines:
        print(line.rstrip("\n"), flush=True)
        found = EDIT.match(line)
        if found:
            edits[kind_of(found[2])].append(found[1])
    return edits


def main() -> int:
    """Prints the edits that are not refused at a clause, then the counts."""
    edits = sort_edits(sys.stdin)
    for kind in KINDS[1:]:
        for name in edits[kind]:
            print(f"{name}: {kind}")
    print(", ".join(f"{len(edits[kind])} {kind}" for kind in KINDS))
    return 1 if any(edits[kind] for kind in KINDS[1:]) else 0


if __name__ == "__main__":
    sys.exit(main())
