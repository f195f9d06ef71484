"""A plain reading of docs/MODEL.md: what a node does, event by event. It shares no code with the program.

A node is given one event at a time (`Node.alloc`, `Node.unmap_sub`, `Node.taken`, ..). Each method applies the event, writes its
journal line and returns its result, or raises `Refused` with the word of the refusal and changes nothing. An event that no call
could have recorded at that place raises `Misfit`. The shrinker's calls are implemented with these events.
"""

from __future__ import annotations

from collections import Counter, OrderedDict
from functools import lru_cache
from typing import Iterable, Optional, Sequence, Union

MOST = 65_535
"""The greatest map count of a subpage, and the greatest number of pins."""

REFUSALS = (
    "no-page", "bad-range", "is-split", "not-mapped", "gone", "not-pinned", "too-many", "closed", "no-block",
    "has-batch",
)
"""The words of all refusals."""


Pages = OrderedDict[int, None]
"""Pages by number, in order. A step from either end, or the removal of a page, takes the same time for any number of pages."""

NOTHING: Pages = OrderedDict()


class Refused(Exception):
    """A call is refused; `str()` is the word."""


class Misfit(Exception):
    """No call records this event here."""


def set_text(subpages: Iterable[int]) -> str:
    """A set of subpages as its maximal runs in ascending order."""
    runs: list[list[int]] = []
    for i in sorted(subpages):
        if runs and runs[-1][1] == i - 1:
            runs[-1][1] = i
        else:
            runs.append([i, i])
    return ",".join(str(a) if a == b else f"{a}-{b}" for a, b in runs) or "-"


@lru_cache(maxsize=None)
def no_counts(size: int) -> Sequence[int]:
    """The own map counts of a new page; pages share them until they change."""
    return (0,) * size


class Page:
    """A live page: map counts (of the whole, and of each subpage its own), pins, which subpages aren't zero-filled, and where it is: in
    the queue, or in the batch of the caller that took it."""

    __slots__ = ("whole", "own", "pins", "is_split", "is_partly", "written", "is_queued", "taker")

    def __init__(self, size: int) -> None:
        self.whole, self.own, self.pins = 1, no_counts(size), 0
        self.is_split = self.is_partly = self.is_queued = False
        self.written: set[int] = set()
        self.taker: Optional[int] = None

    def add(self, subpages: Iterable[int], count: int) -> None:
        """Adds to the own map counts of subpages."""
        own = list(self.own)
        for i in subpages:
            own[i] += count
        self.own = own

    def total(self, i: int) -> int:
        """The map count of a subpage."""
        return self.whole + self.own[i]

    def used(self) -> set[int]:
        """The subpages that are mapped."""
        if self.whole:
            return set(range(len(self.own)))
        return {i for i, own in enumerate(self.own) if own}


class Node:
    """A memory node: its live pages by number, its queue, and the batch of each caller that has one. Time and memory are those of the pages
    and batches of the moment, and of the journal."""

    def __init__(self, blocks: int, order: int = 9, underused: Optional[int] = None) -> None:
        self.blocks, self.order, self.underused = blocks, order, underused
        self.size = 2**order
        self.live: dict[int, Page] = {}
        self.allocated = self.given = 0
        self.queue: Pages = OrderedDict()
        self.flights: dict[int, Pages] = {}
        self.closed = False
        self.counters: Counter[str] = Counter()
        self.journal: list[str] = []
        self.taker: Optional[int] = None

    # What the definitions name.

    def held(self, page: Page) -> set[int]:
        """The frames that a page holds."""
        if not page.is_split:
            return set(range(self.size))
        return page.used() & page.written if self.underused is not None else page.used()

    def frames_held(self) -> int:
        """The number of frames that the live pages hold."""
        return sum(len(self.held(page)) for page in self.live.values())

    def flight(self, caller: int) -> Pages:
        """The batch of a caller."""
        return self.flights.get(caller, NOTHING)

    def enqueue(self, number: int) -> None:
        """Appends a page to the queue."""
        self.queue[number], self.live[number].is_queued = None, True

    def leave(self, number: int) -> None:
        """Removes a page from the queue, or from the batch that it is in."""
        page = self.live[number]
        if page.is_queued:
            del self.queue[number]
        elif page.taker is not None:
            del self.flights[page.taker][number]
            if not self.flights[page.taker]:
                del self.flights[page.taker]
        page.is_queued, page.taker = False, None

    def worth_splitting(self, page: Page) -> bool:
        """Whether the shrinker splits a page, unless it is pinned."""
        return page.is_partly or (self.underused is not None and self.size - len(page.written) > self.underused)

    def record(self, caller: int, *words: Union[int, str]) -> None:
        """Appends an event to the journal."""
        self.taker = caller if words[0] == "taken" else None
        self.journal.append(" ".join(map(str, (caller, *words))))

    # What is asked of one page.

    def page(self, number: int, whole: bool = False) -> Page:
        """The live page of this number, which must not be split if `whole` is given."""
        if number not in self.live:
            raise Refused("no-page")
        page = self.live[number]
        if whole and page.is_split:
            raise Refused("is-split")
        return page

    def range(self, first: int, count: int) -> range:
        """A range of subpages, which is not empty and lies within a page."""
        if count == 0 or first + count > self.size:
            raise Refused("bad-range")
        return range(first, first + count)

    def alloc(self, caller: int) -> str:
        """Allocates a page, mapped whole."""
        if self.closed:
            raise Refused("closed")
        if len(self.live) == self.blocks:
            raise Refused("no-block")
        number, self.allocated = self.allocated, self.allocated + 1
        self.live[number] = Page(self.size)
        if self.underused is not None:
            self.enqueue(number)
        self.record(caller, "alloc", number)
        return f"page {number}"

    def map_whole(self, caller: int, number: int) -> str:
        """Maps the whole page once more."""
        page = self.page(number, whole=True)
        if any(page.total(i) == MOST for i in range(self.size)):
            raise Refused("too-many")
        page.whole += 1
        self.record(caller, "mapwhole", number)
        return "ok"

    def map_sub(self, caller: int, number: int, first: int, count: int) -> str:
        """Maps each subpage of a range once more."""
        page = self.page(number)
        subpages = self.range(first, count)
        if page.is_split and not self.held(page).issuperset(subpages):
            raise Refused("gone")
        if any(page.total(i) == MOST for i in subpages):
            raise Refused("too-many")
        page.add(subpages, 1)
        self.record(caller, "mapsub", number, first, count)
        return "ok"

    def split_pmd(self, caller: int, number: int) -> str:
        """Replaces one mapping of the whole page by one of each subpage."""
        page = self.page(number, whole=True)
        if page.whole == 0:
            raise Refused("not-mapped")
        page.whole -= 1
        page.own = [own + 1 for own in page.own]
        self.counters["thp_split_pmd"] += 1
        self.record(caller, "splitpmd", number)
        return "ok"

    def pin(self, caller: int, number: int) -> str:
        """Adds a pin to a page."""
        page = self.page(number, whole=True)
        if page.pins == MOST:
            raise Refused("too-many")
        page.pins += 1
        self.record(caller, "pin", number)
        return "ok"

    def fill(self, caller: int, number: int, first: int, count: int, zero: bool) -> str:
        """Fills each subpage of a range with zeros, or with data."""
        page = self.page(number)
        subpages = self.range(first, count)
        self.page(number, whole=True)
        if any(page.total(i) == 0 for i in subpages):
            raise Refused("not-mapped")
        page.written = page.written - set(subpages) if zero else page.written | set(subpages)
        self.record(caller, "zero" if zero else "write", number, first, count)
        return "ok"

    def unmap_whole(self, caller: int, number: int) -> str:
        """Removes one mapping of the whole page."""
        page = self.page(number, whole=True)
        if page.whole == 0:
            raise Refused("not-mapped")
        held, used = self.held(page), page.used()
        page.whole -= 1
        return self.lost(caller, number, held, used, "unmapwhole", number)

    def unmap_sub(self, caller: int, number: int, first: int, count: int) -> str:
        """Removes one mapping of each subpage of a range."""
        page = self.page(number)
        subpages = self.range(first, count)
        if any(page.own[i] == 0 for i in subpages):
            raise Refused("not-mapped")
        held, used = self.held(page), page.used()
        page.add(subpages, -1)
        return self.lost(caller, number, held, used, "unmapsub", number, first, count)

    def unpin(self, caller: int, number: int) -> str:
        """Removes a pin."""
        page = self.page(number, whole=True)
        if page.pins == 0:
            raise Refused("not-pinned")
        page.pins -= 1
        return self.lost(caller, number, self.held(page), page.used(), "unpin", number)

    def lost(self, caller: int, number: int, held: set[int], used: set[int], *words: Union[int, str]) -> str:
        """The outcome of an unmap or unpin after its change of counts, and the frames given back."""
        page, left = self.live[number], self.live[number].used()
        page.is_partly |= bool(left) and left < used
        if not left and page.pins == 0:
            outcome, after = "freed", set()
            self.leave(number)
            del self.live[number]
        else:
            outcome, after = "stays", self.held(page)
            is_listed = page.is_queued or page.taker is not None
            if left and left < used and not (page.is_split or self.closed or is_listed):
                outcome = "queued"
                self.enqueue(number)
                self.counters["thp_deferred_split_page"] += 1
        self.given += len(held - after)
        answer = f"{outcome} {set_text(held - after)}"
        self.record(caller, *words, answer)
        return answer

    def close(self, caller: int) -> str:
        """Closes the node."""
        if self.closed:
            raise Refused("closed")
        self.closed = True
        self.record(caller, "close")
        return "ok"

    # The shrinker's events.

    def taken(self, caller: int) -> int:
        """Takes the oldest page of the queue into the caller's batch."""
        if not self.queue or (self.flight(caller) and self.taker != caller):
            raise Misfit
        number = next(iter(self.queue))
        self.leave(number)
        self.live[number].taker = caller
        self.flights.setdefault(caller, OrderedDict())[number] = None
        self.record(caller, "taken", number)
        return number

    def tried(self, caller: int, number: int) -> str:
        """Splits a page of the flight, finds it pinned, or finds it in use."""
        if number not in self.flight(caller):
            raise Misfit
        page = self.live[number]
        if not self.worth_splitting(page):
            self.leave(number)
            self.record(caller, "used", number)
            return "used"
        if page.pins:
            self.counters["thp_split_page_failed"] += 1
            self.record(caller, "pinned", number)
            return "pinned"
        self.counters["thp_split_page"] += 1
        self.counters["thp_split_pmd"] += page.whole
        self.counters["thp_underused_split_page"] += not page.is_partly
        held = self.held(page)
        page.own, page.whole, page.is_split = [page.total(i) for i in range(self.size)], 0, True
        released = held - self.held(page)
        self.given += len(released)
        self.leave(number)
        self.record(caller, "split", number, set_text(released))
        return "split"

    def returned(self, caller: int) -> str:
        """Puts the first page of the flight back, or drops it."""
        if not self.flight(caller):
            raise Misfit
        number = next(iter(self.flight(caller)))
        self.leave(number)
        back = not self.closed and self.live[number].is_partly
        if back:
            self.enqueue(number)
        self.record(caller, "back" if back else "dropped", number)
        return "back" if back else "dropped"

    # The shrinker's calls.

    def take(self, caller: int, most: int) -> list[int]:
        """Takes up to so many pages."""
        if self.flight(caller):
            raise Refused("has-batch")
        return [self.taken(caller) for _ in range(min(most, len(self.queue)))]

    def scan(self, caller: int, most: int) -> str:
        """Takes up to so many pages, tries each, and puts the others back."""
        counts: Counter[str] = Counter()
        batch = self.take(caller, most)
        for number in batch:
            counts[self.tried(caller, number)] += 1
        while self.flight(caller):
            counts[self.returned(caller)] += 1
        used = f" used {counts['used']}" if self.underused is not None else ""
        reported = " ".join(f"{word} {counts[word]}" for word in ("split", "pinned", "back", "dropped"))
        return f"taken {len(batch)} {reported}{used}"

    # Reports.

    def totals(self, number: int) -> list[str]:
        """The node's lines of the report of totals."""
        names = ["thp_split_page", "thp_split_page_failed", "thp_deferred_split_page", "thp_split_pmd"]
        if self.underused is not None:
            names.append("thp_underused_split_page")
        lines = [("node", number), ("pages", self.allocated), ("queue", len(self.queue))]
        lines += [("frames_held", self.frames_held()), ("frames_given", self.given)]
        lines += [(name, self.counters[name]) for name in names]
        return [f"{name} {value}" for name, value in lines]
