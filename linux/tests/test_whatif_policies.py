"""Policies: recorded journals under other thresholds and scans."""

from __future__ import annotations

import json
import time
import unittest
from typing import Any
from unittest import mock

from ..common.checker import find_checker
from ..common.errors import InputFault
from ..common.journal import journal_of
from ..common.program import find
from ..whatif import policies
from ..whatif.policies import parse_scans, policies_of
from .cases import ROOT, FolderCase
from .whatif_samples import LACKING, run

NEEDED = LACKING or ("" if find("thpcheck", ROOT / "crates/thpcheck/out/thpcheck") else "no thpcheck (make checker, THPCHECK)")

TWO = """thp-journal 1
node 0 blocks 2
0 alloc 0
0 splitpmd 0
0 unmapsub 0 0 256 queued -
0 alloc 1
0 splitpmd 1
0 unmapsub 1 0 128 queued -
0 taken 0
0 split 0 0-255
0 unmapsub 1 128 384 freed 0-511
0 unmapsub 0 256 256 freed 256-511
end
"""
"""Two pages; the first one is split."""

CONTENTS = """thp-journal 3
node 0 blocks 2 order 9 underused 500
0 alloc 0
0 write 0 0 100
0 alloc 1
0 write 1 0 512
0 taken 0
0 taken 1
0 used 0
0 used 1
0 unmapwhole 1 freed 0-511
end
"""
"""Page 0 has 412 zero-filled subpages, page 1 none."""

SPLIT_EARLY = """thp-journal 3
node 0 blocks 1 order 9 underused off
0 alloc 0
0 mapwhole 0
0 pin 0
0 unpin 0 stays -
0 splitpmd 0
0 unmapsub 0 0 512 stays -
0 unmapwhole 0 freed 0-511
end
"""
"""A page that another policy splits at once: calls of PMD mappings follow."""

SPLIT_THERE = """thp-journal 3
node 0 blocks 1 order 4 underused 15
0 alloc 0
0 taken 0
0 split 0 0-15
0 unmapsub 0 0 8 stays -
0 unmapsub 0 8 8 freed -
end
"""
"""A small page that the kernel splits, all zeros: calls of PTE mappings follow."""

PINNED = """thp-journal 1
node 0 blocks 1
0 alloc 0
0 splitpmd 0
0 pin 0
0 unmapsub 0 0 1 queued -
0 mapsub 0 5 1
0 unpin 0 stays -
0 mapsub 0 5 1
end
"""
"""A page that is queued and pinned for some time, and then not."""

LATEST = 10**10


class Words(unittest.TestCase):
    def test_policies(self) -> None:
        found = policies_of("recorded,511", "recorded,never,held:1.5")
        self.assertEqual([each.threshold for each in found], ["recorded", "recorded", "recorded", "off", "off"])
        self.assertEqual([each.scans for each in found], ["recorded", "never", "held:1.5", "recorded", "held:1.5"])
        for text in ("", "512", "-1", "on", "0x1", "1e3"):
            self.assertRaises(InputFault, policies_of, text, "never")
        for text in ("", "held", "seconds:0", "seconds:", "held:-1", "always", "held:1e3"):
            self.assertRaises(InputFault, parse_scans, text)


@unittest.skipIf(NEEDED, NEEDED)
class Runs(FolderCase):
    def write(self, text: str, name: str = "journal") -> str:
        path = self.folder / name
        path.write_text(text, encoding="ascii")
        return str(path)

    def rows(self, text: str, *words: str, times: list[float] | None = None) -> list[dict[str, Any]]:
        """What each policy gives on a journal."""
        timed = ["--times", self.write("".join(f"{at}\n" for at in times), "times")] if times else []
        done = run("policies", self.write(text), "--json", *words, *timed)
        self.assertEqual((done.returncode, done.stderr), (0, ""))
        found: list[dict[str, Any]] = json.loads(done.stdout)["policies"]
        return found

    def numbers(self, text: str, *words: str) -> list[tuple[Any, ...]]:
        return [tuple(row[name] for name in ("split", "failed", "frames_back")) for row in self.rows(text, *words)]

    def test_as_recorded_and_never(self) -> None:
        self.assertEqual(self.numbers(TWO), [(1, 0, 256), (0, 0, 0)])
        recorded, never = self.rows(TWO)
        self.assertEqual((recorded["peak_mebibytes"], never["peak_mebibytes"]), (4.0, 4.0))
        # after the ten events: 2, 2, 2, 4, 4, 4, 4, 3, 1, 0 MiB, each for a second but the last
        self.assertEqual(recorded["mean_mebibytes"], round(26 / 9, 3))
        self.assertEqual(never["mean_mebibytes"], round((2 * 3 + 4 * 5 + 2) / 9, 3))

    def test_scans_by_events_and_memory(self) -> None:
        by_events, by_memory = self.rows(TWO, "--scan", "seconds:6,held:3.5")
        self.assertEqual((by_events["scans_done"], by_events["split"], by_events["frames_back"]), (1, 2, 384))
        # page 0 is split when the second one comes; then 3 MiB are held
        self.assertEqual((by_memory["scans_done"], by_memory["split"], by_memory["frames_back"]), (1, 1, 256))
        self.assertEqual(by_memory["peak_mebibytes"], 3.0)

    def test_scans_by_time(self) -> None:
        for every, times in (("30", [100, 100.5, 101, 101.5, 160, 161, 200, 201, 202, 203]), ("0.001", [*range(9), LATEST])):
            row = self.rows(TWO, "--scan", f"seconds:{every}", times=times)[0]
            self.assertEqual((row["scans_done"], row["split"]), (2, 2))

    def test_scans_that_change_nothing_take_no_time(self) -> None:
        for until, every in ((1000, "1"), (1000, "0.25"), (LATEST - 9, "0.001")):
            began = time.monotonic()
            times: list[float] = [0, 0, 0, 1, until, until + 1, until + 9]
            row = self.rows(PINNED, "--scan", f"seconds:{every}", times=times)[0]
            scans = int(until / float(every))
            # the scans while the page is pinned all fail; then it is split
            self.assertAlmostEqual(row["failed"], scans, delta=scans * 1e-9 + 1 / float(every) + 1)
            self.assertEqual((row["split"], row["scans_done"] - row["failed"]), (1, 1))
            self.assertAlmostEqual(row["mean_mebibytes"] * row["seconds"], 2 * (until + 9), delta=9 + until / 1e6)
            self.assertLess(time.monotonic() - began, 10)

    def test_thresholds(self) -> None:
        rows = self.numbers(CONTENTS, "--threshold", "recorded,411,412,off", "--scan", "recorded")
        self.assertEqual([row[:3] for row in rows], [(0, 0, 0), (1, 0, 412), (0, 0, 0), (0, 0, 0)])

    def test_pages_that_are_split_here_or_there_alone(self) -> None:
        for text, words, row in (
            (SPLIT_EARLY, ("--threshold", "0", "--scan", "seconds:2"), (1, 0, 512)),
            (SPLIT_THERE, ("--scan", "never"), (0, 0, 0)),
            (SPLIT_THERE, ("--threshold", "15", "--scan", "recorded"), (1, 0, 16)),
            (SPLIT_THERE, ("--threshold", "16", "--scan", "recorded"), (0, 0, 0)),
        ):
            self.assertEqual(self.numbers(text, *words), [row], words)

    def test_more_pages_than_a_batch_holds(self) -> None:
        begin = "".join(f"0 alloc {page}\n0 splitpmd {page}\n0 unmapsub {page} 0 1 queued -\n" for page in range(131))
        scan = "".join(f"0 taken {page}\n" for page in range(130)) + "".join(f"0 split {page} 0\n" for page in range(130))
        self.assertEqual(self.numbers(f"thp-journal 1\nnode 0 blocks 131\n{begin}{scan}end\n", "--scan", "recorded"), [(130, 0, 130)])

    def test_the_examples_as_recorded(self) -> None:
        for path in ("kernel", "two_workers", "eight_workers", "underused"):
            text = (ROOT / "examples" / f"{path}.journal").read_text(encoding="ascii")
            events = [event for node in journal_of(text) for event in node.events]
            wanted = [sum(event.word == word for event in events) for word in ("split", "pinned")]
            wanted.append(sum(bin(event.given).count("1") for event in events if event.word == "split"))
            self.assertEqual(self.numbers(text, "--scan", "recorded"), [tuple(wanted)], path)

    def test_parts_of_a_journal_make_no_difference(self) -> None:
        path, found = str(ROOT / "examples/eight_workers.journal"), []
        for part in (1, 100, 1 << 20):
            with mock.patch.object(policies, "PART", part):
                recordings = policies.open_recordings([path, path], [], find_checker())
                found.append(policies.outcomes_of(policies_of("recorded,off", "recorded,seconds:9"), recordings))
        self.assertEqual(found[0], found[2])
        self.assertEqual(found[1], found[2])

    def refused(self, reported: str, *words: str) -> None:
        done = run("policies", *words)
        self.assertEqual((done.returncode, done.stdout, done.stderr.count("\n")), (2, "", 1), done.stderr)
        self.assertIn(reported, done.stderr)

    def test_faults(self) -> None:
        journal, ten = self.write(TWO), [str(number) for number in range(10)]
        self.refused("/nowhere can't be read", "/nowhere")
        self.refused("no regular file", str(self.folder))
        self.refused("threshold '512'", journal, "--threshold", "512")
        self.refused("'always' is no time of scans", journal, "--scan", "always")
        self.refused("1 files of times for 2 journals", journal, journal, "--times", journal)
        self.refused("is no legal journal", str(ROOT / "examples" / "first.script"))
        self.refused("illegal line 10", self.write(TWO.replace("split 0 0-255", "split 0 0-254"), "illegal"))
        for times, reported in (
            (ten[:9], "line 12: there is no time of this event"), (ten + ["10"], "more times"),
            (["5", *ten[:9]], "line 4: its time isn't"), (["inf", *ten[1:]], "line 4: its time"),
            (["nan", *ten[1:]], "line 3: its time"), (["-1", *ten[1:]], "line 3: its time"), ([*ten[:9], "1e11"], "line 12: its time"),
            ([*ten[:9], "x"], "a time from line 3 on is no number: could not"),
        ):
            self.refused(reported, journal, "--times", self.write("\n".join(times) + "\n", "times"))
