"""What function tracing observes of a queue, and its comparison with the journal, which is inferred without it."""

from __future__ import annotations

from array import array
from collections import defaultdict, deque
from typing import NamedTuple

from .reasons import Count
from .records import JOINED, Kind, Record
from .state import State

SLACK = 2 * 10 ** 9  # ns by which an observation may be recorded after the line that it belongs to


class Observation(NamedTuple):
    """A page's join or try, by whose `end` it was in the queue or back. A try has the begin of its scan, and the scan's end where all pages
    are put back then. `is_misplaced`: other pages came before it. `known`: when it was recorded."""

    page: int
    is_try: int
    failed: int
    is_misplaced: int
    begin: int
    end: int
    known: int


IS_MISPLACED, END = map(Observation._fields.index, ("is_misplaced", "end"))


class Observations:
    """Those of a recording. `contradictions`: the lines, from 1, of events that these contradict, and what was observed."""

    def __init__(self) -> None:
        self.numbers = array("Q")
        self._tries: dict[int, list[tuple[int, int]]] = defaultdict(list)  # of scans that run, by task: folio, place among the numbers
        self.contradictions: list[tuple[int, str]] = []
        self._puts_at_once = False
        self._latest = 0, 0  # when the last join or put-back began at the earliest, and its line
        self._scans: dict[str, int] = {}  # by callers, when the scan of their batch began

    def add(self, record: Record, page: int | None, queue: list[int] | None) -> None:
        """Takes a record. `page`: the number of the page at its folio; `queue`: that before the task's batch, where it is known."""
        folio, begin, failed, linked, scan = record.values[:5]
        numbers = self.numbers
        if record.kind is Kind.BATCH:
            known, tries = queue or [], self._tries.pop(record.task, [])
            places = [known.index(folio) for folio, _ in tries if folio in known]
            if places not in (sorted(places), sorted(places, reverse=True)):
                for _, at in tries:
                    numbers[at + IS_MISPLACED] = 1
            for _, at in tries if self._puts_at_once else ():
                numbers[at + END] = record.time
        elif page is not None and record.kind is Kind.TRIED and scan:
            self._puts_at_once = bool(linked & 1)  # it is still in the scan's list
            self._tries[record.task].append((folio, len(numbers)))
            numbers.extend((page, 1, failed != 0, 0, scan, record.time, record.time))
        elif page is not None and record.kind is Kind.QUEUED and linked & 3 == JOINED:
            numbers.extend((page, 0, 0, 0, begin, record.time, record.time))

    def compare(self, state: State, number: int) -> int:
        """Compares a journal, whose first line has this number; returns that of the line after its last."""
        size, at = len(Observation._fields), 0
        pages: dict[int, tuple[deque[Observation], deque[Observation]]] = defaultdict(lambda: (deque(), deque()))
        contradicted = set()
        for time, text in state.lines.raw():
            while at < len(self.numbers) and self.numbers[at + size - 1] <= time + SLACK:
                found = Observation(*self.numbers[at : at + size])
                pages[found.page][found.is_try].append(found)
                at += size
            page = int(text.split(" ", 3)[2])
            if not state.omitted[page]:
                observed = self._compare(state, number, time, text, *pages[page])
                if observed:
                    self.contradictions.append((number, observed))
                    contradicted.add(page)
                number += 1
            if " freed " in text:
                pages.pop(page, None)
        state.tallies[Count.CONTRADICTED] += len(self.contradictions)
        state.left_out += len(contradicted)
        return number

    def _compare(self, state: State, number: int, time: int, text: str, joins: deque[Observation], tries: deque[Observation]) -> str:
        """Compares an event with its page's observations; returns what was observed instead, if anything."""
        caller, word, _, *rest = text.split(" ")
        found = None
        if "queued" in rest or (word == "alloc" and state.underused is not None):
            if not joins:
                return "it wasn't queued"
            found = joins.popleft()
        elif word == "taken":
            self._scans.pop(caller, None)
        elif word in ("split", "pinned", "used"):
            found = tries.popleft() if tries and tries[0].begin <= time else None
            if not found or word == "used":
                is_requeued = word == "pinned" and bool(joins) and joins.popleft().end <= time
                state.tallies[Count.REQUEUED if is_requeued else Count.UNTRIED] += word == "pinned"
                state.tallies[Count.DROPPED] += bool(found and found.failed)
                return "it was split" if found and not found.failed else "it wasn't split" if word == "split" else ""
            if found.failed != (word == "pinned"):
                return "its split failed" if found.failed else "it was split"
            if found.is_misplaced or self._scans.setdefault(caller, found.begin) != found.begin:
                return "it was tried in another order than the queue's" if found.is_misplaced else "another scan tried it"
            while joins and found.begin <= joins[0].begin <= found.end:
                joins.popleft()  # a call queued it while it was tried (Linux 7); it is split, or back already
        elif "freed" in rest and any(each.end < time and not each.failed for each in (*joins, *tries)):
            return "it was queued or split before"
        if found and word != "split" and (self._puts_at_once or not found.is_try):  # the place of a split among joins doesn't matter
            if found.end < self._latest[0]:
                return f"it was before the event of line {self._latest[1]}"
            self._latest = max(self._latest, (min(found.begin, time), number))
        state.tallies[Count.OBSERVED] += found is not None
        return ""
