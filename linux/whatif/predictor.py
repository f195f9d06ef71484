"""Predicts what the shrinker would do with the pages of looks: rows, each the sums of pages at a threshold.

A row of threshold T is what a reclaim that drains the queues would do with max_ptes_none T. `off` is 511, with
which the kernel takes no page as underused (mm/huge_memory.c: thp_underused) and splits partly mapped pages alone."""

from __future__ import annotations

import re
from array import array
from collections import Counter, defaultdict
from contextlib import suppress
from dataclasses import dataclass
from typing import Any, Mapping, Sequence

from ..common.errors import InputFault
from ..common.folios import Folio
from ..common.text import escape
from .library import PINNED, SET, SPLIT, UNDERUSED, Library, NotPredictable, load_library, plan_page
from .look import Snapshot

FRAMES_A_MEBIBYTE = 256
OFF = 511
DEFAULT = (OFF, 0, 16, 64, 128, 256, 409, 510)


def label(threshold: int) -> str:
    """Returns a threshold as users write it."""
    return "off" if threshold == OFF else str(threshold)


def thresholds_of(text: str) -> list[int]:
    """Returns thresholds from text: `off` or numbers from 0 to 511, joined by commas; 511 is `off`. InputFault on others."""
    out = []
    for word in text.split(","):
        if word != "off" and not (re.fullmatch(r"0|[1-9][0-9]{0,2}", word) and int(word) <= OFF):
            raise InputFault(f"threshold '{escape(word)[:40]}': 'off' or a number from 0 to {OFF}")
        out.append(OFF if word == "off" else int(word))
    return out


def with_today(thresholds: Sequence[int], today: int | None) -> list[int]:
    """`off` first, then ascending, each once; the machine's own threshold among them."""
    return sorted({*thresholds, *(() if today is None else (today,))}, key=lambda threshold: (threshold != OFF, threshold))


@dataclass(frozen=True)
class Row:
    """Sums of pages at a threshold."""

    threshold: int
    pages: int
    split: int
    underused: int
    pinned: int  # pages whose split fails
    frames: int  # given back, base pages

    @property
    def mebibytes(self) -> float:
        """What is given back."""
        return self.frames / FRAMES_A_MEBIBYTE

    def to_json(self, today: int | None) -> dict[str, Any]:
        """Returns it as a JSON object."""
        return {
            "threshold": self.threshold if self.threshold != OFF else "off",
            "today": self.threshold == today,
            "pages": self.pages,
            "split": self.split,
            "partly_mapped": self.split - self.underused,
            "underused": self.underused,
            "pinned": self.pinned,
            "frames_back": self.frames,
            "mebibytes_back": round(self.mebibytes, 3),
            "kept": self.pages - self.split,
        }


@dataclass
class Share:
    """What one process has of a prediction."""

    pages: int = 0
    split: int = 0
    frames: int = 0
    lost: int = 0  # PMD mappings


class Predictor:
    """Predicts for the pages of snapshots. Pages with equal plans are predicted once. Those that can't be predicted are counted
    in their snapshot's `left_out`."""

    def __init__(self, *snapshots: Snapshot, library: Library | None = None) -> None:
        self.folios: list[Folio] = []  # that can be predicted
        self.plans = array("I")  # the numbers of their plans
        self.names = {number: name for snapshot in snapshots for number, name in snapshot.processes.items()}
        self._library = library or load_library()
        self._records: dict[bytes, int] = {}  # packed plans, and their numbers
        self._frames: list[int] = []  # by number: the frame of a page
        self._groups: defaultdict[str, Counter[int]] = defaultdict(Counter)  # pages by number, by control group
        self._owners: Counter[tuple[int, tuple[tuple[int, int], ...]]] = Counter()
        self._changed: list[list[int | None]] = []  # plans of pages that changed, at both readings
        self._fates: dict[int, array[int]] = {}  # by threshold: an outcome and a number of frames of each plan
        for snapshot in snapshots:
            tried = snapshot.locked_are_tried
            for folio in snapshot.folios:
                try:
                    self.plans.append(self._number(folio, tried))
                except NotPredictable as why:
                    snapshot.left_out[str(why)] += 1
                    continue
                self.folios.append(folio)
                name = snapshot.names.get(folio.cgroup, f"inode {folio.cgroup}" if folio.cgroup else "none")
                self._groups[name][self.plans[-1]] += 1
            self._changed += [[self._number_or_none(folio, tried) for folio in pair] for pair in snapshot.changed_pages]

    def _number(self, folio: Folio, locked_are_tried: bool) -> int:
        """Returns the number of a page's plan, a new one where no page had it. Raises NotPredictable."""
        plan = plan_page(folio, locked_are_tried).pack()
        number = self._records.setdefault(plan, len(self._records))
        if number == len(self._frames):
            self._frames.append(folio.frame)
        return number

    def _number_or_none(self, folio: Folio | None, locked_are_tried: bool) -> int | None:
        with suppress(NotPredictable):
            return self._number(folio, locked_are_tried) if folio else None
        return None

    def _fate(self, threshold: int, plan: int) -> tuple[int, int]:
        """Returns the outcome of pages with a plan of this number, and how many frames come back of each."""
        if threshold not in self._fates:
            self._fates[threshold], _ = self._library.predict(list(self._records), self._frames, threshold)
        outcome, frames = self._fates[threshold][2 * plan : 2 * plan + 2]
        return outcome, frames

    def frames_back(self, threshold: int, plan: int | None) -> int | None:
        """Returns how many frames come back of a page with a plan of this number; None where it stays whole, or there is none."""
        outcome, frames = (0, 0) if plan is None else self._fate(threshold, plan)
        return frames if outcome & SPLIT else None

    def _row(self, threshold: int, counts: Mapping[int, int]) -> Row:
        """Returns the sums of pages, given how many there are of each plan."""
        fates = [(count, *self._fate(threshold, number)) for number, count in counts.items()]
        split = [(count, outcome, frames) for count, outcome, frames in fates if outcome & SPLIT]
        return Row(
            threshold,
            pages=sum(counts.values()),
            split=sum(count for count, _, _ in split),
            underused=sum(count for count, outcome, _ in split if outcome & UNDERUSED),
            pinned=sum(count for count, outcome, _ in fates if outcome & PINNED),
            frames=sum(count * frames for count, _, frames in split),
        )

    def run(self, thresholds: Sequence[int]) -> list[Row]:
        """Returns the sums for these thresholds."""
        counts = Counter(self.plans)
        return [self._row(threshold, counts) for threshold in thresholds]

    def by_group(self, thresholds: Sequence[int]) -> dict[str, list[Row]]:
        """Returns the sums of each control group."""
        return {name: [self._row(t, counts) for t in thresholds] for name, counts in sorted(self._groups.items())}

    def by_process(self, threshold: int) -> dict[int, Share]:
        """Returns what each process has of it. A page that several map counts with the one that maps most of it by PMD
        entries, the lowest number where that is equal; lost PMD mappings count with each."""
        if not self._owners:
            self._owners.update((number, owners_of(folio)) for folio, number in zip(self.folios, self.plans))
        out: dict[int, Share] = defaultdict(Share)
        for (number, owners), count in self._owners.items():
            frames = self.frames_back(threshold, number)
            for process, _ in owners[:1]:
                out[process].pages += count
                out[process].split += count if frames is not None else 0
                out[process].frames += count * (frames or 0)
            for process, lost in owners if frames is not None else ():
                out[process].lost += count * lost
        return out

    def frames_given(self, threshold: int) -> dict[int, int]:
        """Returns of each page that is split the subpages whose frames come back, by frame."""
        given = self._library.predict(list(self._records), self._frames, threshold, True)[1]
        sets = [int.from_bytes(given[at : at + SET], "little") for at in range(0, len(given), SET)]
        pairs = zip(self.folios, self.plans)
        return {folio.frame: sets[plan] for folio, plan in pairs if self.frames_back(threshold, plan) is not None}

    def moved_rows(self, thresholds: Sequence[int]) -> dict[int, tuple[int, int]]:
        """Returns for each threshold by how many split pages and frames a row differs at most between both readings of changed pages."""
        out = {}
        for threshold in thresholds:
            back = [[self.frames_back(threshold, number) for number in pair] for pair in self._changed]
            split = sum((first is None) != (second is None) for first, second in back)
            out[threshold] = split, sum(abs((first or 0) - (second or 0)) for first, second in back)
        return out

    def find_highest(self, frames: int) -> int | None:
        """Returns the highest threshold that gives at least so many frames back, found by halving: a lower threshold splits
        all that a higher one does. None where not even 0 gives so much."""
        low, high = -1, OFF + 1  # `high` doesn't give so much
        while high - low > 1:
            middle = (low + high) // 2
            low, high = (middle, high) if self.run([middle])[0].frames >= frames else (low, middle)
        return low if low >= 0 else None


def owners_of(folio: Folio) -> tuple[tuple[int, int], ...]:
    """Returns the processes that map a page, with how many PMD mappings each has of it. The page counts with the first one."""
    by: Counter[int] = Counter()
    for mapping in folio.mappings:
        by[mapping.process] += mapping.by_pmd
    return tuple(sorted(by.items(), key=lambda item: (-item[1], item[0])))
