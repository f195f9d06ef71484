"""Reports as text and JSON."""

from __future__ import annotations

import contextlib
import io
import json
import tempfile
import unittest
from pathlib import Path
from types import SimpleNamespace
from typing import Any

from ..common.script import script_of
from ..replay.__main__ import Report
from ..replay.options import parse_words
from ..replay.runner import Outcome, Result
from ..replay.shrinking import SmallScript

SCRIPT = script_of("a #1\n\x1b[2J\udcff\u2028.script", "setup\nalloc 0\nsplitpmd 0 0\nscan 0 8\n")
DIFFERING = Outcome(Result.DIFFERS, "", "frames of page 0, kernel 1, thpsplit 2", "frames", 2)
OUTCOMES = [Outcome(Result.AGREES), Outcome(Result.AGREES, "AF"), DIFFERING, Outcome(Result.SKIPPED, "", "close"),
            Outcome(Result.INCONCLUSIVE, "", "other programs move x")]


def printed(*words: str) -> list[str]:
    """Returns the lines of a report with these options."""
    bench: Any = SimpleNamespace(program=SimpleNamespace(path="/x"), memory=True)
    out, report = io.StringIO(), Report(parse_words([*words]))
    with contextlib.redirect_stdout(out):
        report.begin(bench, len(OUTCOMES))
        for outcome in OUTCOMES:
            report.add(SCRIPT, outcome, SmallScript(SCRIPT, DIFFERING, 7) if outcome is DIFFERING else None)
        report.end({"queues compared": 2})
    return out.getvalue().split("\n")[:-1]


class ReportTest(unittest.TestCase):
    def test_each_script_is_a_line(self) -> None:
        lines, quiet = printed(), printed("--quiet")
        wanted = ["agrees", "agrees (but for A F)", "differs: frames of page 0, kernel 1, thpsplit 2", "skipped: close",
                  "inconclusive: other programs move x"]
        name = "a #1\\x0a\\x1b[2J\\xff\\xe2\\x80\\xa8.script"
        self.assertEqual([line for line in lines if line.startswith("a ")], [f"{name}: {line}" for line in wanted])
        self.assertIn("  smallest, 3 commands after 7 runs: alloc 0; splitpmd 0 0; scan 0 8", lines)
        self.assertEqual([line.split(": ")[1] for line in quiet if line.startswith("a ")], ["differs", "inconclusive"])
        sums = ["agrees", "differs", "inconclusive", "skipped", "queues compared", "skipped: close"]
        self.assertEqual([line.strip().partition(" ")[2] for line in lines[-8:-2]], sums)

    def test_each_line_of_json_is_a_document(self) -> None:
        documents = [json.loads(line) for line in printed("--json")]
        self.assertEqual([next(iter(each)) for each in documents], ["run", *["script"] * 5, "sums"])
        self.assertEqual([each["result"] for each in documents[1:-1]], [each.result.value for each in OUTCOMES])
        self.assertEqual((documents[3]["differs_at"], documents[3]["commands"]), (2, 3))
        self.assertIn("splitpmd", documents[3]["smallest"]["script"])

    def test_scripts_that_differ_are_kept(self) -> None:
        with tempfile.TemporaryDirectory() as folder:
            printed("--keep", folder)
            texts = [path.read_text() for path in sorted(Path(folder).glob("3-*.script"))]
            self.assertEqual([text.count("\n# differs") for text in texts], [0, 1])
