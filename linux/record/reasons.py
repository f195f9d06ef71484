"""Everything that a recording counts and leaves out: its text, whose it is, and what to do.

    python3 -m linux.record.reasons     # prints the list in docs/thprecord.1
"""

from __future__ import annotations

import enum
import re
from typing import Iterator


class Origin(enum.Enum):
    """Whose a reason is."""

    KERNEL = "the kernel's"
    LIMIT = "a limit of the tool"
    HARMLESS = "harmless"


SHORTER = "record a shorter time (--seconds)"
FEWER = "record fewer threads, or fewer reclaims (--every)"
AGAIN = "record again"
SHORT = "a shorter --every, so that queues are short"


class Reason(enum.Enum):
    """A reason or counter: text, origin, what to do. A letter in brackets at the text's end is a known difference."""

    def __init__(self, text: str, origin: Origin = Origin.HARMLESS, advice: str = "") -> None:
        self.text, self.origin, self.advice = text, origin, advice

    @property
    def letter(self) -> str:
        """The letter of the known difference; "": it is none."""
        found = re.search(r" \(([A-Z])\)$", self.text)
        return found[1] if found else ""


class Doubt(Reason):
    """Why a verdict is inconclusive."""

    LOST = "records were lost", Origin.LIMIT, FEWER
    DISK_FULL = "records reached the limit of --disk", Origin.LIMIT, "a larger --disk, or a shorter time (--seconds)"
    FEW_FOLLOWED = "pages weren't followed, more than --require allows", Origin.LIMIT, "see what was left out"
    OVERLAP = "scans that overlap: their order isn't known", Origin.LIMIT, FEWER
    BATCHES = "scans of several batches, while pages joined and left the queue", Origin.LIMIT, SHORT
    MISSING = "scans that no copy of the queue shows", Origin.LIMIT, FEWER
    TOO_OLD = "pages joined the queue too long ago for their places to be changed", Origin.LIMIT, SHORTER
    QUEUES = "copies of the queue differ where its order isn't known", Origin.LIMIT, FEWER


class Omission(Reason):
    """Why a page is left out of the journal."""

    MIGRATED = "migrated while it was queued (M)", Origin.KERNEL
    SPLIT_BY_MIGRATION = "left the queue unseen: split by a migration (M)", Origin.KERNEL
    COLLAPSED = "its folio was freed: khugepaged took it (K)", Origin.KERNEL
    REQUEUED = "found in use by a scan, and queued again while it ran (U)", Origin.KERNEL
    WRITTEN = "written while a scan split it (Z)", Origin.KERNEL
    LOCKED = "put back, though not partly mapped: another task held its lock (L)", Origin.KERNEL
    UNSEEN_COLLAPSE = "left the queue unseen: perhaps a collapse without a record", Origin.LIMIT, "a long --collapse"
    UNSEEN_SCAN = "left the queue unseen: perhaps a scan that isn't followed", Origin.LIMIT, FEWER
    PERHAPS_TAKEN = "joined at its fault while a scan ran, which perhaps took it", Origin.LIMIT, FEWER
    MISSED_END = "reached by an mremap whose end no trace program saw: the kernel left them out", Origin.LIMIT, FEWER
    UNKNOWN_JOIN = "queued for no reason seen", Origin.LIMIT, AGAIN
    NOT_QUEUED = "partly mapped, and in no queue at the call's end", Origin.LIMIT, FEWER
    OVERLAPPED = "its place isn't known, since scans overlapped", Origin.LIMIT, FEWER
    PART_SCANNED = "a scan of a part of the queue", Origin.LIMIT, SHORT
    HELD_BEYOND_SPLIT = "a frame was held beyond the split", Origin.LIMIT, FEWER
    HELD_AFTER_SPLIT = "a base page was held after the split", Origin.LIMIT, FEWER
    MAP_COUNTS = "its map counts are others than inferred", Origin.LIMIT, AGAIN
    MOVED_COLLAPSE = "made by a collapse in an area that mremap may have moved", Origin.LIMIT, "a long --collapse"
    ADVICE = "advice that isn't followed", Origin.LIMIT
    PART_MOVED = "a part of it moved (mremap)", Origin.LIMIT
    TOO_OLD = "joined the queue too long ago for its place to be changed", Origin.LIMIT, SHORTER


class Count(Reason):
    """What is counted beside events."""

    REVERSED = "scans that put back two pages or more, in reverse order (E)", Origin.KERNEL
    ZEROS_BACK = "splits that gave mapped zero-filled subpages back with the switch off (B)", Origin.KERNEL
    HELD_BY_SCAN = "last unmaps while a scan held the page (R)", Origin.KERNEL
    OBSERVED = "joins and tries observed as inferred"
    LEFT_OUT = "runs of the trace programs, at most, that the kernel left out", Origin.LIMIT, FEWER
    UNOBSERVED = "functions' begins and ends that no trace program saw: the kernel left them out", Origin.LIMIT, FEWER
    PRESUMED = "calls whose end no trace program saw, taken to have succeeded", Origin.LIMIT, FEWER
    CONTRADICTED = "events that observation contradicts", Origin.LIMIT, FEWER
    UNTRIED = "pages put back without a try, as observed: another task held their lock", Origin.KERNEL
    REQUEUED = "pages found in use by a scan, and queued again while it ran, as observed (U)", Origin.KERNEL
    DROPPED = "underused pages dropped since their split failed, as observed (F)", Origin.KERNEL
    SCANS = "scans"
    SCANS_MISSING = "scans that no copy of the queue shows", Origin.LIMIT, FEWER
    COPIES_MISSING = "copies of a queue of more than 2000 pages that weren't made, or not to its end: those compared have all of its pages"
    QUEUES_COMPARED = "queues compared"
    LONG_COMPARED = "of these, queues of more than 2000 pages"
    QUEUES_DIFFER = "queues that differ", Origin.KERNEL
    MET_TWICE = "copies of the queue with a page twice, while no scan ran", Origin.KERNEL
    QUEUED_FREE = "pages in the queue after they were freed", Origin.KERNEL
    OVERTAKEN = "copies of the queue with a page before older ones, which no scan has moved", Origin.KERNEL
    FOREIGN = "copies of the queue with a page of another group", Origin.KERNEL
    FREED_TWICE = "frames that a scan freed twice", Origin.KERNEL
    QUEUED_SEEN = "pages queued, as a copy showed"
    QUEUED_INFERRED = "pages queued, as inferred"
    MAP_COUNTS_COMPARED = "map counts compared"
    MAP_COUNTS_DIFFER = "map counts that differ", Origin.LIMIT, AGAIN
    MIGRATED = "pages that migrated"
    COLLAPSED = "pages made by collapses"
    OTHER_ORDER = "pages of orders that aren't followed", Origin.HARMLESS, "name them in --order"
    WITHOUT_FAULT = "allocations without a fault, not followed", Origin.LIMIT


PROVED = (Count.MET_TWICE, Count.QUEUED_FREE, Count.OVERTAKEN, Count.FOREIGN, Count.FREED_TWICE)  # by records alone


def describe(reason: Reason) -> str:
    """Returns whose a reason is, and what to do."""
    return f"{reason.origin.value}; {reason.advice}" if reason.advice else reason.origin.value


def manual() -> Iterator[str]:
    """Yields the lines of docs/thprecord.1 that list all reasons."""
    for kind, title in ((Doubt, "Why a verdict is inconclusive"), (Omission, "Why pages are left out"), (Count, "What is counted")):
        yield f".SS {title}"
        for reason in kind:
            yield from (".TP", f".B {reason.text}", f"{describe(reason)}.".replace("--", r"\-\-"))


if __name__ == "__main__":
    print(*manual(), sep="\n")
