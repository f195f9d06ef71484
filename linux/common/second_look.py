"""Reads a second time what has changed while it was read: page tables, map counts, queue state, and then content.

Processes run meanwhile. Each page that was found is looked at twice, its content only of a sample and where anything else
has changed; the second reading then counts."""

from __future__ import annotations

from collections import deque
from dataclasses import dataclass, replace
from typing import Any, Tuple

from .folios import Folio, Mapping
from .reader import FREED, Reader
from .workers import PIECE

MOVED = "huge pages that changed while they were read"
SAMPLE = 64  # huge pages whose content is read twice
BATCH = 1024  # huge pages that are compared at a time
Piece = Tuple[Any, ...]
COMPARED = ("totals", "whole", "is_queued", "is_partly", "cgroup")  # by `_count`


@dataclass
class Changes:
    """What the second look found."""

    pairs: list[tuple[Folio | None, Folio | None]]  # pages that differ; None where there is no such page
    sampled: int
    changed: int  # pages of the sample that differ


class SecondLook:
    """The second look of a reader."""

    def __init__(self, reader: Reader) -> None:
        self._reader = reader
        self._first: dict[int, Folio | None] = {}  # pages that differ, as they were read first, by frame

    def take(self) -> Changes:
        """Reads pages again, and has the reader's pages be those of the second reading."""
        reader = self._reader
        self._walk()
        self._count()
        changed = [reader.folios[frame] for frame in sorted(self._first) if frame in reader.folios]
        for folio in [folio for folio in changed if not reconcile(folio)]:
            self._leave_out(folio, MOVED)
        reader.read_contents([folio for folio in changed if folio.frame in self._first])
        sampled = self._sample()
        pairs = [(before, reader.folios.get(frame)) for frame, before in sorted(self._first.items())]
        reader.keep_locked([before for before, _ in pairs if before] + list(reader.folios.values()))
        return Changes(pairs, len(sampled), sum(frame in self._first for frame in sampled))

    def _leave_out(self, folio: Folio, why: str) -> None:
        self._reader.leave_out(folio, why)
        self._first.pop(folio.frame, None)

    def _walk(self) -> None:
        """Finds which mappings differ."""
        reader = self._reader
        missing = set(reader.walked)
        todo = deque(reader.request_again(process) for process in reader.walked)
        for request, answer in reader.answers(todo):
            missing.discard(request.process)
            if answer.data != reader.walked[request.process]:
                self._compare([*PIECE.iter_unpack(reader.walked[request.process])], [*PIECE.iter_unpack(answer.data)], request.process)
        for _, frame, *_ in (piece for process in missing for piece in PIECE.iter_unpack(reader.walked[process])):
            if frame in reader.folios:  # its process can't be read any more
                self._leave_out(reader.folios[frame], MOVED)
        for frame in [folio.frame for folio in reader.folios.values() if not folio.mappings]:
            del reader.folios[frame]

    def _compare(self, before: list[Piece], now: list[Piece], process: int) -> None:
        """Has the pages that a process maps otherwise be as they are mapped now."""
        folios, old = self._reader.folios, set(before)
        differing = old.difference(now) if self._reader.is_limited else old.symmetric_difference(now)
        frames = {frame for _, frame, *_ in differing}
        for frame in frames:
            folio = folios.get(frame)
            self._first.setdefault(frame, folio)
            if folio:
                folios[frame] = blank(folio, [mapping for mapping in folio.mappings if mapping.process != process])
        for piece in now:
            if piece[1] in frames:
                self._reader.take(*piece)

    def _count(self) -> None:
        """Finds which map counts, and queue states, differ; reads those of pages that are mapped otherwise."""
        reader, todo = self._reader, list(self._reader.folios.values())
        for first in range(0, len(todo), BATCH):
            batch = todo[first : first + BATCH]
            again = [folio if folio.frame in self._first else blank(folio, folio.mappings) for folio in batch]
            gone = reader.read_pages(again)
            for before, now in zip(batch, again):
                if now.frame in gone:
                    self._leave_out(before, FREED)
                elif any(getattr(before, name) != getattr(now, name) for name in COMPARED):
                    self._first[now.frame], reader.folios[now.frame] = before, now

    def _sample(self) -> list[int]:
        """Reads the content of some pages a second time; returns their frames."""
        folios = self._reader.folios
        frames = sorted(folios)
        some = frames[:: max(1, len(frames) // SAMPLE)]
        again = [replace(folios[frame], zero=0, known=0) for frame in some if frame not in self._first]
        self._reader.read_contents(again)
        for now in again:
            before = folios[now.frame]
            if (before.zero ^ now.zero) & before.known & now.known:
                self._first[now.frame], folios[now.frame] = before, now
        return some


def blank(folio: Folio, mappings: list[Mapping]) -> Folio:
    """Returns a page as before anything but its mappings is read."""
    return replace(folio, mappings=mappings, totals=(), zero=0, known=0, is_queued=None, is_partly=None, whole=None, pins=None)


def reconcile(folio: Folio) -> bool:
    """Takes from a page's mappings what nobody maps by its counts, which were read later; returns whether anything is left."""
    if min(folio.totals) == 0 or folio.whole == 0:
        counted = sum(1 << place for place, total in enumerate(folio.totals) if total)
        folio.mappings = [
            mapping._replace(subset=mapping.subset & counted, by_pmd=mapping.by_pmd and folio.whole != 0)
            for mapping in folio.mappings if mapping.subset & counted
        ]
    return bool(folio.mappings)
