"""Random journals of version 4, which only what reads journals of any length takes: many callers, many nodes, many pages, near and far
numbers; and changes of their numbers and of the order of their lines."""

from __future__ import annotations

from dataclasses import dataclass
from random import Random
from typing import Callable, Sequence

from model import Misfit, Node, Refused
from script import journal_lines
from texts import LARGE, LARGE_VERSION, SMALL

EDGES = (0, SMALL.caller, SMALL.caller + 1, LARGE.caller)
"""Callers at the limits of versions."""

BLOCKS = (1, 2, 16, SMALL.blocks, SMALL.blocks + 1, 2**16, LARGE.blocks)


class Callers:
    """The callers of a journal: dense ones from 0 on, or sparse ones. Each is as likely as the others."""

    def __init__(self, chance: Random, count: int) -> None:
        self.chance = chance
        is_dense = chance.random() < 0.5
        self.numbers: Sequence[int] = range(count) if is_dense else [*EDGES, *chance.sample(range(LARGE.caller + 1), count)]
        self.kind = "dense" if is_dense else "sparse"

    def any(self) -> int:
        """One of them."""
        return self.chance.choice(self.numbers)


class Pages:
    """A node with its live pages and the callers that have batches, one of which is found in constant time."""

    def __init__(self, chance: Random, node: Node, callers: Callers) -> None:
        self.chance, self.node, self.callers = chance, node, callers
        self.pages: list[int] = []
        self.holders: list[int] = []
        self.most_live = 0

    def page(self) -> int:
        """A page, which lives in most cases."""
        while self.pages and self.chance.random() < 0.97:
            at = self.chance.randrange(len(self.pages))
            if self.pages[at] in self.node.live:
                return self.pages[at]
            self.pages[at] = self.pages[-1]
            self.pages.pop()
        return self.node.allocated

    def holder(self) -> int:
        """A caller that has a batch, if one has."""
        while self.holders:
            at = self.chance.randrange(len(self.holders))
            if self.node.flight(self.holders[at]):
                return self.holders[at]
            self.holders[at] = self.holders[-1]
            self.holders.pop()
        return self.callers.any()

    def use(self) -> str:
        """How many of its blocks held live pages at once."""
        of = {self.node.blocks: "all", 0: "none"}
        return f"{of.get(self.most_live, 'many' if self.most_live > SMALL.blocks else 'few')} of {self.node.blocks}"

    def alloc(self) -> None:
        """Allocates a page."""
        self.pages.append(self.node.allocated)
        self.node.alloc(self.callers.any())
        self.most_live = max(self.most_live, len(self.node.live))

    def take(self) -> None:
        """Takes a page, into the batch taken into last or into another."""
        last = self.node.taker
        self.take_into(last if last is not None and self.chance.random() < 0.3 else self.callers.any())

    def take_into(self, caller: int) -> None:
        """Takes a page into the batch of a caller."""
        self.node.taken(caller)
        self.holders.append(caller)

    def try_one(self) -> None:
        """Tries a page of a batch."""
        caller = self.holder()
        batch = self.node.flight(caller)
        if batch:
            self.node.tried(caller, next(iter(batch)) if self.chance.random() < 0.5 else next(reversed(batch)))

    def change(self) -> None:
        """Maps, unmaps, pins or fills a page."""
        node, chance, caller, page = self.node, self.chance, self.callers.any(), self.page()
        first = chance.choice((0, node.size // 2, chance.randrange(node.size)))
        count = chance.choice((node.size - first, 1, node.size // 2))
        kind = chance.randrange(16)
        if kind < 4:
            node.split_pmd(caller, page)
        elif kind < 10:
            node.unmap_sub(caller, page, first, count)
        elif kind < 11:
            node.map_sub(caller, page, first, count)
        elif kind < 13:
            chance.choice((node.map_whole, node.unmap_whole))(caller, page)
        elif kind < 14:
            chance.choice((node.pin, node.unpin))(caller, page)
        else:
            node.fill(caller, page, first, count, zero=chance.random() < 0.5)

    def queue_new(self) -> None:
        """Allocates a page and queues it."""
        page, caller = self.node.allocated, self.callers.any()
        self.alloc()
        self.node.split_pmd(caller, page)
        self.node.unmap_sub(caller, page, self.node.size - 1, 1)

    def attempt(self, steps: Callable[[], object]) -> None:
        """Applies some events; the first that doesn't fit leaves the node as it is."""
        try:
            steps()
        except (Refused, Misfit):
            pass

    def step(self) -> None:
        """Attempts one event or a few."""
        kind = self.chance.randrange(100)
        steps: tuple[Callable[[], object], ...] = (self.alloc, self.change, self.take, self.try_one)
        if kind < 20:
            self.attempt(self.queue_new)
        elif kind < 84:
            self.attempt(steps[(kind - 20) // 16])
        elif kind < 99:
            self.attempt(lambda: self.node.returned(self.holder()))
        elif self.chance.random() < 0.05:
            self.attempt(lambda: self.node.close(self.callers.any()))

    def open_batch(self, caller: int, pages: int) -> None:
        """Queues so many new pages, unless the node is closed, and takes one into the batch of a caller that has none."""
        for _ in range(pages):
            self.attempt(self.queue_new)
        if not self.node.flight(caller):
            self.attempt(lambda: self.take_into(caller))

    def alloc_refused(self) -> None:
        """Ends the journal with an allocation that isn't legal if the node has no block left or is closed."""
        if self.node.closed or len(self.node.live) == self.node.blocks:
            self.node.record(self.callers.any(), "alloc", self.node.allocated)


def random_node(chance: Random, callers: Callers, blocks: int, steps: int) -> Pages:
    """A node after so many steps."""
    order = chance.choice((2, 2, 2, 3, 9))
    pages = Pages(chance, Node(blocks, order, chance.choice((None, None, 0, 1, 2**order - 1))), callers)
    for _ in range(steps):
        pages.step()
    if steps and chance.random() < 0.1:
        pages.attempt(lambda: pages.node.close(callers.any()))
        for _ in range(10):
            pages.step()
    if chance.random() < 0.05:
        pages.alloc_refused()
    return pages


def crowded_node(chance: Random, callers: Callers, blocks: int, most: int) -> Pages:
    """A node with so many live pages, or with one in each block, and then with others."""
    pages = Pages(chance, Node(blocks, 2, chance.choice((None, 1))), callers)
    for _ in range(min(blocks, most)):
        pages.alloc()
    for _ in range(chance.choice((0, 2_000))):
        pages.step()
    if chance.random() < 0.5:
        pages.alloc_refused()
    return pages


def few(chance: Random, callers: Callers) -> list[Pages]:
    """Few nodes with few events."""
    return [random_node(chance, callers, chance.choice(BLOCKS), chance.randrange(60)) for _ in range(chance.choice((1, 1, 2, 8, 9)))]


def many_callers(chance: Random, callers: Callers) -> list[Pages]:
    """A node with a batch of each caller at once, in which they go on."""
    pages = random_node(chance, callers, LARGE.blocks, 40)
    for caller in chance.sample(callers.numbers, len(callers.numbers)):
        pages.open_batch(caller, chance.choice((1, 1, 1, 3)))
    for _ in range(len(callers.numbers)):
        pages.step()
    return [pages]


def many_pages(chance: Random, callers: Callers) -> list[Pages]:
    """Nodes with more live pages than former versions have blocks for; one has no block left."""
    blocks = [chance.choice((SMALL.blocks, SMALL.blocks + 1, 5_000)), LARGE.blocks]
    return [crowded_node(chance, callers, count, 5_000) for count in chance.sample(blocks, 2)]


def most_pages(chance: Random, callers: Callers) -> list[Pages]:
    """A node with more live pages than 16 bits count; it may have no block left."""
    return [crowded_node(chance, callers, chance.choice((2**16 - 1, 2**16, 2**16 + 1, LARGE.blocks)), 70_000)]


def many_nodes(chance: Random, callers: Callers) -> list[Pages]:
    """Hundreds of nodes with few events."""
    return [random_node(chance, callers, chance.choice(BLOCKS), chance.randrange(8)) for _ in range(chance.choice((9, 100, 600)))]


def every_node(chance: Random, callers: Callers) -> list[Pages]:
    """As many nodes as a journal can have."""
    return [random_node(chance, callers, chance.choice(BLOCKS), chance.randrange(100) == 0) for _ in range(LARGE.node + 1)]


Kind = Callable[[Random, Callers], list[Pages]]

KINDS: dict[str, tuple[Kind, int]] = {
    "few": (few, 8),
    "many callers": (many_callers, 2_000),
    "many pages": (many_pages, 100),
    "many nodes": (many_nodes, 30),
    "every node": (every_node, 3),
    "every caller": (many_callers, LARGE.caller + 1),
    "most pages": (most_pages, 100),
}
"""The kinds of journals, and the number of callers of each."""

RARE = ("every node", "every caller", "most pages")
"""Those that take seconds."""


@dataclass(frozen=True)
class LargeJournal:
    """A journal of version 4, how its callers are numbered, and how its nodes use their blocks."""

    lines: list[str]
    numbering: str
    uses: set[str]


def random_large(chance: Random, kind: str) -> LargeJournal:
    """A journal of version 4 of a kind."""
    nodes_of, count = KINDS[kind]
    callers = Callers(chance, count)
    nodes = nodes_of(chance, callers)
    lines = as_version(journal_lines([each.node for each in nodes]), LARGE_VERSION)
    return LargeJournal(lines, callers.kind, {each.use() for each in nodes})


def as_version(lines: list[str], version: int) -> list[str]:
    """A journal in another version that has its words: a node's line names order and threshold from version 3 on."""
    if lines[0][-1] in "12":
        wholes = [line.split() for line in lines]
        lines = [" ".join(it + (["order", "9"] if len(it) == 4 else []) + ["underused", "off"]) if it[0] == "node" else line
                 for it, line in zip(wholes, lines)]
    return [f"thp-journal {version}", *lines[1:]]


def is_small(lines: list[str]) -> bool:
    """Whether a journal is within the limits of former versions."""
    heads = [line.split(" ", 4) for line in lines[1:-1]]
    return all(int(it[1]) <= SMALL.node and int(it[3]) <= SMALL.blocks if it[0] == "node" else int(it[0]) <= SMALL.caller for it in heads)


NEAR = (0, 1, SMALL.node, SMALL.caller, SMALL.blocks, LARGE.caller, LARGE.blocks, 2**32, 2**64 - 1)
"""Numbers at limits; each has a successor beyond one."""

BITS = (6, 8, 12, 16, 24, 32)
"""The bits that a number could lose."""


def with_other_number(chance: Random, lines: list[str]) -> list[str]:
    """The journal with another number in a line: one that differs in one bit, or one at a limit."""
    changed = list(lines)
    heads = [place for place, line in enumerate(lines) if line.startswith("node")]
    place = chance.choice(heads) if chance.random() < 0.3 else chance.randrange(len(lines) - 1)
    words = changed[place].split(" ")
    at = chance.choice([at for at, word in enumerate(words) if word.isdigit()])
    words[at] = str(chance.choice((int(words[at]) ^ 1 << chance.choice(BITS), chance.choice(NEAR) + chance.randrange(2))))
    changed[place] = " ".join(words)
    return changed


def with_other_order(chance: Random, lines: list[str]) -> list[str]:
    """The journal without a line that is no event, or with such a line at another place, too, or there alone."""
    changed = list(lines)
    heads = [place for place, line in enumerate(lines) if not line[0].isdigit()]
    place = chance.choice(heads)
    line = changed[place] if chance.random() < 0.4 else changed.pop(place)
    if chance.random() < 0.8:
        changed.insert(min(chance.choice((chance.choice(heads), chance.randrange(len(lines) + 1))), len(changed)), line)
    return changed
