"""The tables that `thpdraw --table` writes, by a plain reading of docs/MODEL.md and docs/FORMATS.md (tables): the numbers of a node after
each of its events, by model.py, then joined into columns."""

from __future__ import annotations

from dataclasses import dataclass, field
from typing import Iterable

import random_texts
from model import Node
from process import Ended
from script import fits, node_of
from texts import journal_fault

MOST_COLUMNS = 600
STAGES = ("allocated", "partly-mapped", "queued", "in-batch", "split")
SERIES = ("queue", "in-batches", "held", "given", "splits", "underused-splits", "pinned-tries", "wait")
LETTERS = dict(zip(STAGES, "amqbs"))
SHOWN_PAGES = 60
"""The number of pages whose individual stages are recorded."""
SHOWN_CALLERS = 64
"""The number of callers for which it is recorded whether they have batches."""
HEADS = (
    ["#node", "node", "blocks", "order", "underused", "legal", "width"]
    + [f"{name}-last" for name in (*SERIES, *STAGES)] + ["illegal-line", "illegal-event"],
    ["#column", "node", "first", "last"] + [f"{name}-{end}" for name in SERIES for end in ("least", "greatest")]
    + [f"{name}-sum" for name in STAGES] + ["stages", "callers"],
    ["#stuck", "node", "page", "finds", "since"],
)
"""The lines that name the fields."""


@dataclass(frozen=True)
class Numbers:
    """A node's numbers after some of its events: those of each series, the number of pages in each stage, the stages of the first
    pages, and the callers that have batches."""

    series: tuple[int, ...]
    stages: tuple[int, ...]
    letters: str
    callers: frozenset[int]


@dataclass
class Waits:
    """The pages of a node that wait, in the queue or in a batch, each with the number of the event with which it began to, and
    the
    number of times that each page was found pinned."""

    events: int = 0
    since: dict[int, int] = field(default_factory=dict)
    finds: dict[int, int] = field(default_factory=dict)

    def follow(self, node: Node, line: str) -> None:
        """Adds an event, after which the node is in this state."""
        self.events += 1
        waiting = {*node.queue, *(page for flight in node.flights.values() for page in flight)}
        self.since = {page: self.since.get(page, self.events) for page in waiting}
        _, kind, *words = line.split()
        if kind == "pinned":
            self.finds[int(words[0])] = self.finds.get(int(words[0]), 0) + 1

    def longest(self) -> int:
        """The number of events for which the longest waiting page has waited."""
        return self.events - min(self.since.values()) + 1 if self.since else 0

    def stuck(self) -> Iterable[tuple[int, int, int]]:
        """The page, the finds and the first event of each page that waits and was found pinned, those that have waited longest
        first."""
        for page, since in sorted(self.since.items(), key=lambda it: it[1]):
            if page in self.finds:
                yield page, self.finds[page], since


def stage(node: Node, number: int) -> str:
    """The stage of a live page: the last of them that applies."""
    page = node.live[number]
    if page.is_split:
        return "split"
    if page.taker is not None:
        return "in-batch"
    if page.is_queued:
        return "queued"
    return "partly-mapped" if page.is_partly else "allocated"


def numbers(node: Node, waits: Waits) -> Numbers:
    """The numbers of a node in its current state, with its pages that wait."""
    in_batches = sum(len(flight) for flight in node.flights.values())
    found = [stage(node, number) for number in node.live]
    counted = [node.counters[name] for name in ("thp_split_page", "thp_underused_split_page", "thp_split_page_failed")]
    series = (len(node.queue), in_batches, node.frames_held(), node.given, *counted, waits.longest())
    letters = "".join(LETTERS[stage(node, number)] if number in node.live else "-" for number in range(SHOWN_PAGES))
    callers = frozenset(it for it, flight in node.flights.items() if flight and it < SHOWN_CALLERS)
    return Numbers(series, tuple(found.count(name) for name in STAGES), letters, callers)


@dataclass
class Drawn:
    """The data of a node that is drawn: its shape, its numbers after each prefix of its legal events, the pages that wait after
    them,
    and its first illegal event."""

    node: Node
    waits: Waits
    prefixes: list[Numbers]
    illegal: tuple[str, str] = ("-", "-")

    def width(self) -> int:
        """The number of prefixes in a column: the least power of two for which there are few enough columns."""
        width = 1
        while len(self.prefixes) > MOST_COLUMNS * width:
            width *= 2
        return width

    def lines(self, number: int) -> Iterable[str]:
        """The node's line, those of its columns, and those of its stuck pages."""
        node, width, last = self.node, self.width(), self.prefixes[-1]
        switch = "off" if node.underused is None else node.underused
        front = ("node", number, node.blocks, node.order, switch, len(self.prefixes) - 1, width)
        yield tabbed(*front, *last.series, *last.stages, *self.illegal)
        for first in range(0, len(self.prefixes), width):
            column = self.prefixes[first : first + width]
            spans = [end(values) for values in zip(*(it.series for it in column)) for end in (min, max)]
            sums = [sum(values) for values in zip(*(it.stages for it in column))]
            callers = ",".join(map(str, sorted(frozenset().union(*(it.callers for it in column))))) or "-"
            yield tabbed("column", number, first, first + len(column) - 1, *spans, *sums, column[-1].letters, callers)
        for page in self.waits.stuck():
            yield tabbed("stuck", number, *page)


def tabbed(*fields: object) -> str:
    """Tab-separated fields."""
    return "\t".join(map(str, fields))


def drawn_nodes(lines: Iterable[str]) -> list[Drawn]:
    """The data of each node of a journal without errors that is drawn."""
    nodes: list[Drawn] = []
    is_over = False
    for place, line in enumerate(lines, 1):
        words = line.split()
        if words[0] == "node":
            node = node_of(words)
            waits = Waits()
            nodes.append(Drawn(node, waits, [numbers(node, waits)]))
            is_over = False
        elif words[0] not in ("thp-journal", "end") and not is_over:
            drawn = nodes[-1]
            is_over = not fits(drawn.node, line)
            if is_over:
                drawn.illegal = (str(place), line)
            else:
                drawn.waits.follow(drawn.node, line)
                drawn.prefixes.append(numbers(drawn.node, drawn.waits))
    return nodes


def table(text: bytes) -> Ended:
    """The expected result for a journal: its table or its error."""
    fault = journal_fault(text)
    if fault is not None:
        return Ended(2, b"", f"thpdraw: line {fault.line}: {fault.word}\n".encode())
    return table_of(drawn_nodes(text.decode().split("\n")[:-1]))


def table_of(nodes: list[Drawn]) -> Ended:
    """The expected result, with the table of these nodes."""
    lines = [tabbed(*heads) for heads in HEADS]
    lines += [line for number, drawn in enumerate(nodes) for line in drawn.lines(number)]
    is_illegal = any(drawn.illegal[0] != "-" for drawn in nodes)
    return Ended(int(is_illegal), random_texts.joined(lines))
