"""Rows of scripts by their names: the program's answers to each, its totals and its journal.

The expected results of each row are written out. Its journal must be legal by the check. ` / ` separates the lines of a text.
"""

from __future__ import annotations

from dataclasses import dataclass
from pathlib import Path
from typing import Optional

from fixtures import ProgramCase, add_tests
from process import Call, Ended, run


def lines(text: str) -> bytes:
    """The text whose lines are separated by ` / `."""
    return "".join(f"{line}\n" for line in text.split(" / ")).encode()


@dataclass(frozen=True)
class Row:
    """A script, its answers, a part of its totals, and how its journal ends. Without words: a node of 16 blocks of order 9,
    one worker, no underused pages."""

    name: str
    script: str
    answers: str
    words: str = ""
    totals: str = ""
    journal: str = "end"

    def report(self, program: Path, name: str) -> Ended:
        """The run of the script with this report."""
        return run(program, Call((*self.words.split(), "--report", name), lines(self.script)))

    def wrong(self, program: Path) -> Optional[str]:
        """How a report differs from the expected one, or None."""
        reported = self.report(program, "answers").differs_from(Ended(0, lines(self.answers)))
        if reported is not None:
            return f"answers: {reported}"
        totals = self.report(program, "totals")
        if totals.status != 0 or totals.errors or (self.totals and lines(self.totals) not in totals.output):
            return f"totals: {totals}"
        journal = self.report(program, "journal")
        if journal.status != 0 or journal.errors or not journal.output.endswith(lines(self.journal)):
            return f"journal: {journal}"
        reported = check(program, journal.output)
        return None if reported is None else f"its journal: {reported}"


ROWS = (
    # the queue, and scans
    Row("first_run",
        "setup / alloc 0 / splitpmd 0 0 / unmap 0 0 0 256 / scan 0 8",
        "0 1 page 0 / 0 2 ok / 0 3 queued - / 0 4 taken 1 split 1 pinned 0 back 0 dropped 0",
        totals="node 0 / pages 1 / queue 0 / frames_held 256 / frames_given 256 / thp_split_page 1 / thp_split_page_failed 0 / "
        "thp_deferred_split_page 1 / thp_split_pmd 1",
        journal="thp-journal 1 / node 0 blocks 16 / 0 alloc 0 / 0 splitpmd 0 / 0 unmapsub 0 0 256 queued - / 0 taken 0 / "
        "0 split 0 0-255 / end"),
    Row("empty_input",
        "setup / scan 0 8",
        "0 1 taken 0 split 0 pinned 0 back 0 dropped 0",
        journal="thp-journal 1 / node 0 blocks 16 / end"),
    Row("two_of_three_oldest",
        "setup / alloc 0 / splitpmd 0 0 / unmap 0 0 0 1 / alloc 0 / splitpmd 0 1 / unmap 0 1 0 1 / alloc 0 / splitpmd 0 2 / "
        "unmap 0 2 0 1 / scan 0 2",
        "0 1 page 0 / 0 2 ok / 0 3 queued - / 0 4 page 1 / 0 5 ok / 0 6 queued - / 0 7 page 2 / 0 8 ok / 0 9 queued - / "
        "0 10 taken 2 split 2 pinned 0 back 0 dropped 0",
        totals="pages 3 / queue 1 / frames_held 1534 / frames_given 2", journal="0 taken 0 / 0 taken 1 / 0 split 0 0 / 0 split 1 0 / end"),
    Row("freed_from_the_middle",
        "setup / alloc 0 / splitpmd 0 0 / unmap 0 0 0 1 / alloc 0 / splitpmd 0 1 / unmap 0 1 0 1 / alloc 0 / splitpmd 0 2 / "
        "unmap 0 2 0 1 / unmap 0 1 1 511 / scan 0 3",
        "0 1 page 0 / 0 2 ok / 0 3 queued - / 0 4 page 1 / 0 5 ok / 0 6 queued - / 0 7 page 2 / 0 8 ok / 0 9 queued - / "
        "0 10 freed 0-511 / 0 11 taken 2 split 2 pinned 0 back 0 dropped 0",
        journal="0 taken 0 / 0 taken 2 / 0 split 0 0 / 0 split 2 0 / end"),
    Row("freed_while_queued",
        "setup / alloc 0 / splitpmd 0 0 / unmap 0 0 0 1 / unmap 0 0 1 511 / alloc 0 / splitpmd 0 1 / unmap 0 1 0 1 / count 0 / scan 0 8",
        "0 1 page 0 / 0 2 ok / 0 3 queued - / 0 4 freed 0-511 / 0 5 page 1 / 0 6 ok / 0 7 queued - / 0 8 count 1 / "
        "0 9 taken 1 split 1 pinned 0 back 0 dropped 0",
        journal="0 taken 1 / 0 split 1 0 / end"),
    Row("pinned_goes_to_the_tail",
        "setup / alloc 0 / splitpmd 0 0 / unmap 0 0 0 1 / alloc 0 / splitpmd 0 1 / unmap 0 1 0 1 / alloc 0 / splitpmd 0 2 / "
        "unmap 0 2 0 1 / pin 0 1 / scan 0 3 / count 0 / unpin 0 1 / scan 0 3",
        "0 1 page 0 / 0 2 ok / 0 3 queued - / 0 4 page 1 / 0 5 ok / 0 6 queued - / 0 7 page 2 / 0 8 ok / 0 9 queued - / 0 10 ok / "
        "0 11 taken 3 split 2 pinned 1 back 1 dropped 0 / 0 12 count 1 / 0 13 stays - / 0 14 taken 1 split 1 pinned 0 back 0 dropped 0",
        journal="0 pin 1 / 0 taken 0 / 0 taken 1 / 0 taken 2 / 0 split 0 0 / 0 pinned 1 / 0 split 2 0 / 0 back 1 / 0 unpin 1 stays - / "
        "0 taken 1 / 0 split 1 0 / end"),
    Row("all_pinned_rotate",
        "setup / alloc 0 / splitpmd 0 0 / unmap 0 0 0 1 / alloc 0 / splitpmd 0 1 / unmap 0 1 0 1 / alloc 0 / splitpmd 0 2 / "
        "unmap 0 2 0 1 / pin 0 0 / pin 0 1 / pin 0 2 / scan 0 2 / scan 0 3",
        "0 1 page 0 / 0 2 ok / 0 3 queued - / 0 4 page 1 / 0 5 ok / 0 6 queued - / 0 7 page 2 / 0 8 ok / 0 9 queued - / 0 10 ok / "
        "0 11 ok / 0 12 ok / 0 13 taken 2 split 0 pinned 2 back 2 dropped 0 / 0 14 taken 3 split 0 pinned 3 back 3 dropped 0",
        totals="thp_split_page_failed 5 / thp_deferred_split_page 3",
        journal="0 taken 2 / 0 taken 0 / 0 taken 1 / 0 pinned 2 / 0 pinned 0 / 0 pinned 1 / 0 back 2 / 0 back 0 / 0 back 1 / end"),
    Row("scan_interrupted",
        "setup / alloc 0 / splitpmd 0 0 / unmap 0 0 0 1 / alloc 0 / splitpmd 0 1 / unmap 0 1 0 1 / pin 0 1 / worker 1 / scan 0 8",
        "0 1 page 0 / 0 2 ok / 0 3 queued - / 0 4 page 1 / 0 5 ok / 0 6 queued - / 0 7 ok / 1 1 taken 2 split 1 pinned 1 back 1 dropped 0",
        journal="1 taken 0 / 1 taken 1 / 1 split 0 0 / 1 pinned 1 / 1 back 1 / end"),
    # single pages
    Row("split_of_a_mapped_page",
        "setup / alloc 0 / splitpmd 0 0 / unmap 0 0 0 1 / mapwhole 0 0 / scan 0 1",
        "0 1 page 0 / 0 2 ok / 0 3 queued - / 0 4 ok / 0 5 taken 1 split 1 pinned 0 back 0 dropped 0",
        totals="frames_held 512 / frames_given 0 / thp_split_page 1 / thp_split_page_failed 0 / thp_deferred_split_page 1 / "
        "thp_split_pmd 2",
        journal="0 split 0 - / end"),
    Row("bad_ranges",
        "setup / alloc 0 / splitpmd 0 0 / unmap 0 0 511 1 / map 0 0 511 2 / unmap 0 0 0 0 / unmap 0 0 512 1 / unmap 0 0 511 1 / "
        "map 0 0 511 1 / unmap 0 1 0 0",
        "0 1 page 0 / 0 2 ok / 0 3 queued - / 0 4 refused bad-range / 0 5 refused bad-range / 0 6 refused bad-range / "
        "0 7 refused not-mapped / 0 8 ok / 0 9 refused no-page"),
    Row("no_free_block",
        "setup / alloc 0 / alloc 0 / splitpmd 0 0 / unmap 0 0 1 511 / scan 0 1 / alloc 0 / unmap 0 0 0 1 / alloc 0",
        "0 1 page 0 / 0 2 refused no-block / 0 3 ok / 0 4 queued - / 0 5 taken 1 split 1 pinned 0 back 0 dropped 0 / "
        "0 6 refused no-block / 0 7 freed 0 / 0 8 page 1",
        words="--blocks 1", totals="frames_held 512 / frames_given 512"),
    Row("pinned_page_is_freed_by_unpin",
        "setup / alloc 0 / pin 0 0 / unmapwhole 0 0 / count 0 / unpin 0 0 / pin 0 0",
        "0 1 page 0 / 0 2 ok / 0 3 stays - / 0 4 count 0 / 0 5 freed 0-511 / 0 6 refused no-page"),
    Row("refusals_after_a_split",
        "setup / alloc 0 / splitpmd 0 0 / unmap 0 0 1 511 / scan 0 1 / map 0 0 1 1 / unmap 0 0 1 1 / map 0 0 0 1 / mapwhole 0 0 / "
        "unmapwhole 0 0 / splitpmd 0 0 / pin 0 0 / unpin 0 0 / unmap 0 0 0 1 / unmap 0 0 0 1 / unmap 0 0 0 1",
        "0 1 page 0 / 0 2 ok / 0 3 queued - / 0 4 taken 1 split 1 pinned 0 back 0 dropped 0 / 0 5 refused gone / "
        "0 6 refused not-mapped / 0 7 ok / 0 8 refused is-split / 0 9 refused is-split / 0 10 refused is-split / 0 11 refused is-split / "
        "0 12 refused is-split / 0 13 stays - / 0 14 freed 0 / 0 15 refused no-page",
        totals="frames_held 0 / frames_given 512"),
    Row("refusals_before_a_split",
        "setup / alloc 0 / unmap 0 0 0 1 / unpin 0 0 / splitpmd 0 0 / splitpmd 0 0 / unmapwhole 0 0 / unmap 0 0 0 1 / unmap 0 0 3 1 / "
        "scan 0 1 / unmap 0 0 5 2",
        "0 1 page 0 / 0 2 refused not-mapped / 0 3 refused not-pinned / 0 4 ok / 0 5 refused not-mapped / 0 6 refused not-mapped / "
        "0 7 queued - / 0 8 stays - / 0 9 taken 1 split 1 pinned 0 back 0 dropped 0 / 0 10 stays 5-6",
        totals="frames_held 508 / frames_given 4", journal="0 split 0 0,3 / 0 unmapsub 0 5 2 stays 5-6 / end"),
    Row("busy_63_and_64_times", "worker 1 / alloc 0 / close 0", "1 1 page 0 / 1 2 ok", journal="1 alloc 0 / 1 close / end"),
    # open batches
    Row("freed_from_a_batch_and_block_reused",
        "setup / alloc 0 / splitpmd 0 0 / unmap 0 0 0 1 / take 0 8 / unmap 0 0 1 511 / alloc 0 / splitnext 0 / putback 0 / count 0",
        "0 1 page 0 / 0 2 ok / 0 3 queued - / 0 4 taken 1 / 0 5 freed 0-511 / 0 6 page 1 / 0 7 done / 0 8 back 0 dropped 0 / 0 9 count 0",
        words="--blocks 1", totals="pages 2 / queue 0 / frames_held 512 / frames_given 512 / thp_split_page 0"),
    Row("closed_node_drops",
        "setup / alloc 0 / splitpmd 0 0 / unmap 0 0 0 1 / alloc 0 / splitpmd 0 1 / unmap 0 1 0 1 / pin 0 0 / pin 0 1 / take 0 1 / "
        "close 0 / splitnext 0 / putback 0 / scan 0 8 / alloc 0 / close 0 / unpin 0 0 / unmap 0 0 1 1 / count 0",
        "0 1 page 0 / 0 2 ok / 0 3 queued - / 0 4 page 1 / 0 5 ok / 0 6 queued - / 0 7 ok / 0 8 ok / 0 9 taken 1 / 0 10 ok / "
        "0 11 pinned 0 / 0 12 back 0 dropped 1 / 0 13 taken 1 split 0 pinned 1 back 0 dropped 1 / 0 14 refused closed / "
        "0 15 refused closed / 0 16 stays - / 0 17 stays - / 0 18 count 0"),
    Row("one_batch_at_a_time",
        "setup / alloc 0 / splitpmd 0 0 / unmap 0 0 0 1 / take 0 8 / take 0 8 / scan 0 1 / splitnext 0 / putback 0 / putback 0 / "
        "splitnext 0",
        "0 1 page 0 / 0 2 ok / 0 3 queued - / 0 4 taken 1 / 0 5 refused has-batch / 0 6 refused has-batch / 0 7 split 0 / "
        "0 8 back 0 dropped 0 / 0 9 no-batch / 0 10 no-batch"),
    Row("open_batch_postponed",
        "setup / alloc 0 / splitpmd 0 0 / unmap 0 0 0 1 / pin 0 0 / worker 1 / take 0 8 / splitnext 0 / close 0",
        "0 1 page 0 / 0 2 ok / 0 3 queued - / 0 4 ok / 1 1 taken 1 / 1 2 pinned 0 / 1 3 ok",
        totals="frames_held 512 / frames_given 0", journal="1 taken 0 / 1 pinned 0 / 1 close / 1 dropped 0 / end"),
    Row("open_batch_goes_back_at_a_sections_end",
        "setup / alloc 0 / splitpmd 0 0 / unmap 0 0 0 1 / take 0 8 / worker 1 / count 0 / take 0 8",
        "0 1 page 0 / 0 2 ok / 0 3 queued - / 0 4 taken 1 / 1 1 count 1 / 1 2 taken 1",
        journal="0 taken 0 / 0 back 0 / 1 taken 0 / 1 back 0 / end"),
    # several nodes, orders and underused pages
    Row("two_orders",
        "setup / alloc 0 / splitpmd 0 0 / unmap 0 0 0 3 / unmap 0 0 3 2 / alloc 1 / splitpmd 1 0 / unmap 1 0 0 511 / scan 0 8 / scan 1 8",
        "0 1 page 0 / 0 2 ok / 0 3 queued - / 0 4 refused bad-range / 0 5 page 0 / 0 6 ok / 0 7 queued - / "
        "0 8 taken 1 split 1 pinned 0 back 0 dropped 0 / 0 9 taken 1 split 1 pinned 0 back 0 dropped 0",
        words="--nodes 2 --orders 2,9",
        totals="node 0 / pages 1 / queue 0 / frames_held 1 / frames_given 3 / thp_split_page 1 / thp_split_page_failed 0 / "
        "thp_deferred_split_page 1 / thp_split_pmd 1 / node 1 / pages 1 / queue 0 / frames_held 1 / frames_given 511",
        journal="thp-journal 2 / node 0 blocks 16 order 2 / 0 alloc 0 / 0 splitpmd 0 / 0 unmapsub 0 0 3 queued - / 0 taken 0 / "
        "0 split 0 0-2 / node 1 blocks 16 order 9 / 0 alloc 0 / 0 splitpmd 0 / 0 unmapsub 0 0 511 queued - / 0 taken 0 / "
        "0 split 0 0-510 / end"),
    Row("underused_scan",
        "setup / alloc 0 / write 0 0 0 3 / scan 0 8 / splitpmd 0 0 / unmap 0 0 0 1 / scan 0 8 / unmap 0 0 3 1 / map 0 0 3 1 / "
        "write 0 0 1 1 / unmap 0 0 1 2",
        "0 1 page 0 / 0 2 ok / 0 3 taken 1 split 0 pinned 0 back 0 dropped 0 used 1 / 0 4 ok / 0 5 queued - / "
        "0 6 taken 1 split 1 pinned 0 back 0 dropped 0 used 0 / 0 7 stays - / 0 8 refused gone / 0 9 refused is-split / 0 10 freed 1-2",
        words="--blocks 4 --orders 2 --underused 1",
        journal="thp-journal 3 / node 0 blocks 4 order 2 underused 1 / 0 alloc 0 / 0 write 0 0 3 / 0 taken 0 / 0 used 0 / 0 splitpmd 0 / "
        "0 unmapsub 0 0 1 queued - / 0 taken 0 / 0 split 0 0,3 / 0 unmapsub 0 3 1 stays - / 0 unmapsub 0 1 2 freed 1-2 / end"),
    Row("underused_pinned",
        "setup / alloc 0 / alloc 0 / write 0 0 0 2 / pin 0 1 / scan 0 8",
        "0 1 page 0 / 0 2 page 1 / 0 3 ok / 0 4 ok / 0 5 taken 2 split 1 pinned 1 back 0 dropped 1 used 0",
        words="--blocks 4 --orders 2 --underused 1",
        totals="pages 2 / queue 0 / frames_held 6 / frames_given 2 / thp_split_page 1 / thp_split_page_failed 1 / "
        "thp_deferred_split_page 0 / thp_split_pmd 1 / thp_underused_split_page 1"),
    Row("block_of_a_live_page",
        "setup / alloc 0 / scan 0 1 / alloc 0 / unmap 0 0 0 4 / alloc 0",
        "0 1 page 0 / 0 2 taken 1 split 1 pinned 0 back 0 dropped 0 used 0 / 0 3 refused no-block / 0 4 freed - / 0 5 page 1",
        words="--blocks 1 --orders 2 --underused 1", totals="frames_held 4 / frames_given 4"),
    Row("write_and_zero_refusals",
        "setup / alloc 0 / pin 0 0 / splitpmd 0 0 / take 0 1 / splitnext 0 / unmap 0 0 0 1 / write 0 0 0 1 / zero 0 0 4 1 / "
        "zero 0 0 1 1 / putback 0",
        "0 1 page 0 / 0 2 ok / 0 3 ok / 0 4 taken 1 / 0 5 pinned 0 / 0 6 stays - / 0 7 refused not-mapped / 0 8 refused bad-range / "
        "0 9 ok / 0 10 back 1 dropped 0",
        words="--blocks 4 --orders 2 --underused 1"),
    # workers with a node each
    Row("nodes",
        "worker 1 / alloc 0 / worker 2 / alloc 1",
        "1 1 page 0 / 2 1 page 0",
        words="--nodes 2 --workers 2", journal="node 0 blocks 16 / 1 alloc 0 / node 1 blocks 16 / 2 alloc 0 / end"),
)

TOTALS = ("pages", "queue", "frames_held", "frames_given", "thp_split_page", "thp_split_page_failed",
          "thp_deferred_split_page", "thp_split_pmd")
"""The totals of a node, in this order."""


@dataclass(frozen=True)
class Totals:
    """A script on one node, and the expected numbers in the report of its totals."""

    name: str
    script: str
    numbers: tuple[int, ...]
    words: str = ""

    def wrong(self, program: Path) -> Optional[str]:
        """How a report differs from the expected one, or None."""
        script = lines(self.script) if self.script else b""
        wanted = lines(" / ".join(["node 0", *(f"{name} {number}" for name, number in zip(TOTALS, self.numbers))]))
        return run(program, Call(tuple(self.words.split()), script)).differs_from(Ended(0, wanted))


WHOLE = (
    Totals("first_run", "setup / alloc 0 / splitpmd 0 0 / unmap 0 0 0 256 / scan 0 8", (1, 0, 256, 256, 1, 0, 1, 1)),
    Totals("empty_input", "", (0, 0, 0, 0, 0, 0, 0, 0)),
    Totals("empty_input", "# nothing /  / setup", (0, 0, 0, 0, 0, 0, 0, 0)),
    Totals("two_of_three_oldest",
           "setup / alloc 0 / splitpmd 0 0 / unmap 0 0 0 1 / alloc 0 / splitpmd 0 1 / unmap 0 1 0 1 / alloc 0 / splitpmd 0 2 / "
           "unmap 0 2 0 1 / scan 0 2", (3, 1, 1534, 2, 2, 0, 3, 3)),
    Totals("freed_from_the_middle",
           "setup / alloc 0 / splitpmd 0 0 / unmap 0 0 0 1 / alloc 0 / splitpmd 0 1 / unmap 0 1 0 1 / alloc 0 / splitpmd 0 2 / "
           "unmap 0 2 0 1 / unmap 0 1 1 511 / scan 0 3", (3, 0, 1022, 514, 2, 0, 3, 3)),
    Totals("freed_while_queued",
           "setup / alloc 0 / splitpmd 0 0 / unmap 0 0 0 1 / unmap 0 0 1 511 / alloc 0 / splitpmd 0 1 / unmap 0 1 0 1 / scan 0 8",
           (2, 0, 511, 513, 1, 0, 2, 2)),
    Totals("no_free_block",
           "setup / alloc 0 / alloc 0 / splitpmd 0 0 / unmap 0 0 1 511 / scan 0 1 / alloc 0 / unmap 0 0 0 1 / alloc 0",
           (2, 0, 512, 512, 1, 0, 1, 1), "--blocks 1"),
    Totals("pinned_goes_to_the_tail",
           "setup / alloc 0 / splitpmd 0 0 / unmap 0 0 0 1 / alloc 0 / splitpmd 0 1 / unmap 0 1 0 1 / alloc 0 / splitpmd 0 2 / "
           "unmap 0 2 0 1 / pin 0 1 / scan 0 3", (3, 1, 1534, 2, 2, 1, 3, 3)),
    Totals("pinned_goes_to_the_tail",
           "setup / alloc 0 / splitpmd 0 0 / unmap 0 0 0 1 / alloc 0 / splitpmd 0 1 / unmap 0 1 0 1 / alloc 0 / splitpmd 0 2 / "
           "unmap 0 2 0 1 / pin 0 1 / scan 0 3 / unpin 0 1 / scan 0 3", (3, 0, 1533, 3, 3, 1, 3, 3)),
    Totals("all_pinned_rotate",
           "setup / alloc 0 / splitpmd 0 0 / unmap 0 0 0 1 / alloc 0 / splitpmd 0 1 / unmap 0 1 0 1 / alloc 0 / splitpmd 0 2 / "
           "unmap 0 2 0 1 / pin 0 0 / pin 0 1 / pin 0 2 / scan 0 2 / scan 0 3", (3, 3, 1536, 0, 0, 5, 3, 3)),
    Totals("split_of_a_mapped_page",
           "setup / alloc 0 / splitpmd 0 0 / unmap 0 0 0 1 / mapwhole 0 0 / scan 0 1", (1, 0, 512, 0, 1, 0, 1, 2)),
    Totals("pinned_page_is_freed_by_unpin", "setup / alloc 0 / pin 0 0 / unmapwhole 0 0", (1, 0, 512, 0, 0, 0, 0, 0)),
    Totals("pinned_page_is_freed_by_unpin", "setup / alloc 0 / pin 0 0 / unmapwhole 0 0 / unpin 0 0 / pin 0 0", (1, 0, 0, 512, 0, 0, 0, 0)),
    Totals("bad_ranges",
           "setup / alloc 0 / splitpmd 0 0 / unmap 0 0 511 1 / map 0 0 511 2 / unmap 0 0 0 0 / unmap 0 0 512 1 / unmap 0 0 511 1 / "
           "map 0 0 511 1 / unmap 0 1 0 0 / scan 0 1", (1, 0, 512, 0, 1, 0, 1, 1)),
    Totals("refusals_after_a_split",
           "setup / alloc 0 / splitpmd 0 0 / unmap 0 0 1 511 / scan 0 1 / map 0 0 1 1 / unmap 0 0 1 1 / map 0 0 0 1 / mapwhole 0 0 / "
           "unmapwhole 0 0 / splitpmd 0 0 / pin 0 0 / unpin 0 0 / unmap 0 0 0 1 / unmap 0 0 0 1 / unmap 0 0 0 1",
           (1, 0, 0, 512, 1, 0, 1, 1)),
    Totals("refusals_before_a_split",
           "setup / alloc 0 / unmap 0 0 0 1 / unpin 0 0 / splitpmd 0 0 / splitpmd 0 0 / unmapwhole 0 0 / unmap 0 0 0 1 / unmap 0 0 3 1 / "
           "scan 0 1 / unmap 0 0 5 2", (1, 0, 508, 4, 1, 0, 1, 1)),
    Totals("closed_node",
           "setup / alloc 0 / splitpmd 0 0 / unmap 0 0 0 1 / alloc 0 / splitpmd 0 1 / pin 0 0 / close 0 / alloc 0 / close 0 / "
           "unmap 0 1 0 1 / scan 0 8", (2, 0, 1024, 0, 0, 1, 1, 2)),
)
"""Whole reports, word by word."""

MOST = 65_535
"""The greatest value of a page's counts."""

AT_THEIR_LIMIT = (
    ("alloc 0", 1, "page 0"),
    ("mapwhole 0 0", MOST - 1, "ok"),
    ("mapwhole 0 0", 1, "refused too-many"),
    ("map 0 0 0 1", 1, "refused too-many"),
    ("splitpmd 0 0", 1, "ok"),
    ("map 0 0 0 1", 1, "refused too-many"),
    ("alloc 0", 1, "page 1"),
    ("pin 0 1", MOST, "ok"),
    ("pin 0 1", 1, "refused too-many"),
    ("unpin 0 1", 1, "stays -"),
)
"""Commands, each this many times, and the answers to each: map counts and pins at their limit."""

TWO_WORKERS = "worker 1 / alloc 0 / worker 2 / alloc 0"

EITHER = {
    "answers": ("1 1 page 0 / 2 1 page 1", "1 1 page 1 / 2 1 page 0"),
    "totals": (
        "node 0 / pages 2 / queue 0 / frames_held 1024 / frames_given 0 / "
        "thp_split_page 0 / thp_split_page_failed 0 / thp_deferred_split_page 0 / thp_split_pmd 0",
    ),
    "journal": (
        "thp-journal 1 / node 0 blocks 16 / 1 alloc 0 / 2 alloc 1 / end",
        "thp-journal 1 / node 0 blocks 16 / 2 alloc 0 / 1 alloc 1 / end",
    ),
}
"""The possible reports of two workers on one node: either comes first."""


def check(program: Path, journal: bytes) -> Optional[str]:
    """The result of the check of a journal, unless it is legal."""
    return run(program, Call(("--check",), journal)).differs_from(Ended(0, b"legal\n"))


class Rows(ProgramCase):
    """Each row of the tables, and two runs that are longer or have two results."""

    def check(self, row: Row | Totals) -> Optional[str]:
        """Returns how a report of a row differs from the expected one, or None."""
        return row.wrong(self.program)

    def test_counts_at_their_limit(self) -> None:
        """Map counts and pins at their limit have these answers, and a legal journal."""
        commands = [command for command, times, _ in AT_THEIR_LIMIT for _ in range(times)]
        answers = [answer for _, times, answer in AT_THEIR_LIMIT for _ in range(times)]
        script = lines(" / ".join(["setup", *commands]))
        wanted = lines(" / ".join(f"0 {index} {answer}" for index, answer in enumerate(answers, 1)))
        self.assertIsNone(run(self.program, Call(("--report", "answers"), script)).differs_from(Ended(0, wanted)))
        self.assertIsNone(check(self.program, run(self.program, Call(("--report", "journal"), script)).output))

    def test_two_workers(self) -> None:
        """Each report of two workers on one node is one that either order can produce, and the journal is legal."""
        for report, texts in EITHER.items():
            with self.subTest(report=report):
                reported = run(self.program, Call(("--workers", "2", "--report", report), lines(TWO_WORKERS)))
                self.assertIn(reported, [Ended(0, lines(text)) for text in texts])
                if report == "journal":
                    self.assertIsNone(check(self.program, reported.output))


add_tests(Rows, Rows.check, ((row.name, row) for row in ROWS))
add_tests(Rows, Rows.check, ((f"{whole.name}: totals", whole) for whole in WHOLE))
