"""What a script is compared by: what the kernel shows after a command, the known differences by letter (docs/LINUX.md), and a
node by its journal: map counts, frames, the queue, and what is counted in the model's way and in the kernel's."""

from __future__ import annotations

from dataclasses import dataclass, field

from ..common.counters import Counts
from ..common.errors import InputFault
from ..common.journal import Event
from ..common.subpages import bits_of

PageName = tuple[int, int]  # node, page


@dataclass(frozen=True)
class PageObservation:
    """A live page."""

    whole: int  # frames that are parts of one huge page
    counts: tuple[int, ...]  # of each subpage's frame
    mapped: int  # once it is split: the subpages at which the script's processes map its frames


@dataclass(frozen=True)
class Observation:
    """The kernel at one moment."""

    counts: Counts  # since the script's start, without the PMD splits that only served to map less than a whole page
    pages: dict[PageName, PageObservation]
    queues: list[list[int] | None]  # page numbers, oldest first, a frame of no page as its negative; None: it wasn't read
    numa_nodes: dict[PageName, int] = field(default_factory=dict)  # of queued pages that aren't on node 0; a queue is in their order


@dataclass
class EventCounts:
    """What was counted on a node."""

    split: int = 0
    failed: int = 0
    queued: int = 0  # pages that an unmap queued: the model's thp_deferred_split_page
    first_partly: int = 0  # pages that first became partly mapped by an unmap: the kernel's
    partly_by_split: int = 0  # underused pages that their own split makes partly mapped (known difference G)
    perhaps_partly: int = 0  # the same where PMD and PTE mappings are mixed: which goes first decides
    split_pmd: int = 0
    underused: int = 0


@dataclass
class PageState:
    """A page; sets of subpages are numbers."""

    own: list[int]  # PTE mappings of each subpage
    zero: int
    held: int
    whole: int = 1
    live: bool = True
    split: bool = False
    partly: bool = False
    dropped_zero: int = 0  # mapped zero-filled subpages that the kernel gave back at the split (B)

    @property
    def every(self) -> int:
        return bits_of(0, len(self.own))

    def totals(self) -> tuple[int, ...]:
        """Returns the map count of each subpage."""
        return tuple([self.whole + own for own in self.own] if any(self.own) else [self.whole] * len(self.own))

    def used_subpages(self) -> int:
        """Returns the subpages that are mapped."""
        return self.every if self.whole else int("".join("01"[own > 0] for own in reversed(self.own)), 2)

    def change(self, event: Event) -> None:
        """Applies an event to the mappings and the content."""
        if event.word == "mapwhole":
            self.whole += 1
        elif event.word == "unmapwhole":
            self.whole -= 1
        elif event.word in ("mapsub", "unmapsub"):
            for i in range(event.first, event.first + event.count):
                self.own[i] += 1 if event.word == "mapsub" else -1
        elif event.word == "splitpmd":
            self.whole -= 1
            self.own = [own + 1 for own in self.own]
        elif event.word == "write":
            self.zero &= ~bits_of(event.first, event.count)
        elif event.word == "zero":
            self.zero |= bits_of(event.first, event.count)


@dataclass
class NodeState:
    """A node with its pages by number and its queue in the model's order."""

    order: int
    threshold: int | None
    zero_filled: bool  # what a new page holds
    drops_zeros: bool = True  # the kernel gives mapped zero-filled subpages back at any split (B)
    pages: list[PageState] = field(default_factory=list)
    queue: list[int] = field(default_factory=list)
    event_counts: EventCounts = field(default_factory=EventCounts)

    def empties_at_once(self, event: Event) -> bool:
        """Returns whether an event removes all mappings, by PTEs, of a page that wasn't partly mapped."""
        if event.word != "unmapsub" or event.page is None or event.page >= len(self.pages):
            return False
        page = self.pages[event.page]
        is_mapped_once = not page.whole and {*page.own} == {1}
        return is_mapped_once and event.count == len(page.own) and not page.partly and not page.split

    def apply(self, event: Event) -> None:
        """Applies one event of the journal. InputFault where it can't have happened here."""
        try:
            if event.page is not None:
                self._apply(event, event.page)
        except (IndexError, ValueError) as error:
            raise InputFault(f"a journal with an event that can't be: {event.text()}") from error

    def _apply(self, event: Event, number: int) -> None:
        if event.word == "alloc":
            every = bits_of(0, 1 << self.order)
            self.pages.append(PageState([0] * (1 << self.order), every if self.zero_filled else 0, every))
            if self.threshold is not None:
                self.queue.append(number)
            return
        if event.first + event.count > 1 << self.order:
            raise ValueError("a range beyond the page")
        page, tallies = self.pages[number], self.event_counts
        before = page.used_subpages()
        page.change(event)
        after = page.used_subpages()
        if after and before & ~after and not page.partly:
            page.partly = True
            tallies.first_partly += not page.split
        if event.word == "splitpmd":
            tallies.split_pmd += 1
        elif event.word == "taken":
            self.queue.remove(number)
        elif event.word == "pinned":
            tallies.failed += 1
        elif event.word == "split":
            self._split(page)
        if event.word == "back" or event.outcome == "queued":
            self.queue.append(number)
            tallies.queued += event.outcome == "queued"
        elif event.outcome == "freed":
            page.live = False
            self.queue = [other for other in self.queue if other != number]
        page.held &= ~event.given

    def _split(self, page: PageState) -> None:
        tallies = self.event_counts
        tallies.split += 1
        tallies.underused += not page.partly
        if not page.partly and any(page.own):  # the kernel unmaps PTE by PTE: the page becomes partly mapped on the way
            tallies.perhaps_partly += bool(page.whole)
            tallies.partly_by_split += not page.whole
        tallies.split_pmd += page.whole
        page.dropped_zero = page.zero & page.used_subpages() if self.drops_zeros and self.threshold is None else 0
        page.own, page.whole, page.split = list(page.totals()), 0, True
