"""The tables that `thpdraw --table` writes for random journals are those of a plain reading of the model (tests/tables.py).

Journals have up to eight nodes and up to 3,000 events of one, so that columns are up to eight prefixes wide; some have illegal events on
some nodes, some an error. CASES is their number (50), SEED selects others (1).
"""

from __future__ import annotations

import os
from random import Random
from typing import Iterable, Optional

import random_texts
from fixtures import ProgramCase, add_tests
from model import Misfit, Node, Refused
from process import Call, Source, run
from tables import table
from texts import EVENTS

CASES, SEED = int(os.environ.get("CASES", 50)), int(os.environ.get("SEED", 1))

LENGTHS = (0, 1, 2, 7, 30, 100, 300, 598, 599, 600, 601, 1199, 1200, 1201, 2400, 3000)
"""The greatest number of events of a node, most of them where the width of columns changes."""


def one_event(chance: Random, node: Node) -> None:
    """Tries an event that may fit; if it does not, the node is unchanged."""
    caller = chance.choice((0, 1, 2, 5, 63))
    page = chance.choice(list(node.live)) if node.live and chance.random() < 0.95 else node.allocated
    first = chance.choice((0, node.size // 2, chance.randrange(node.size)))
    count = chance.choice((node.size - first, 1, node.size // 2))
    flights = [it for it, flight in node.flights.items() if flight]
    kind = chance.randrange(24)
    if kind < 3:
        node.alloc(caller)
    elif kind < 5:
        node.split_pmd(caller, page)
    elif kind < 9:
        node.unmap_sub(caller, page, first, count)
    elif kind < 11:
        node.map_sub(caller, page, first, count)
    elif kind < 13:
        chance.choice((node.map_whole, node.unmap_whole))(caller, page)
    elif kind < 15:
        chance.choice((node.pin, node.unpin))(caller, page)
    elif kind < 17:
        node.fill(caller, page, first, count, zero=chance.random() < 0.5)
    elif kind < 20:
        node.taken(caller)
    elif flights and kind < 23:
        caller = chance.choice(flights)
        node.tried(caller, chance.choice([*node.flights[caller]]))
    elif flights:
        node.returned(chance.choice(flights))
    elif chance.random() < 0.02:
        node.close(caller)


def random_node(chance: Random, most: int) -> Node:
    """A node with random events, at most this many."""
    order = chance.choice((2, 2, 2, 3, 4, 9))
    switch = chance.choice((None, None, 0, 1, 2**order - 1))
    node = Node(chance.choice((1, 2, 3, 16)), order, switch)
    length = min(most, chance.choice(LENGTHS))
    tries = 0
    while len(node.journal) < length and tries < 20 * length:
        tries += 1
        try:
            one_event(chance, node)
        except (Refused, Misfit):
            pass
    return node


def random_journal(chance: Random) -> bytes:
    """A journal of random nodes; one in three has illegal events or an error."""
    count = chance.choice((1, 1, 2, 3, 8))
    nodes = [random_node(chance, 3000 if count < 3 else 700) for _ in range(count)]
    lines = ["thp-journal 3"]
    for number, node in enumerate(nodes):
        switch = "off" if node.underused is None else node.underused
        lines.append(f"node {number} blocks {node.blocks} order {node.order} underused {switch}")
        lines += node.journal
    lines.append("end")
    kind = chance.randrange(6)
    if kind == 0:
        return random_texts.spoilt(chance, random_texts.joined(lines), EVENTS)
    for _ in range(chance.choice((1, 1, 3)) if kind == 1 else 0):
        lines = random_texts.changed_journal(chance, lines)
    return random_texts.joined(lines)


def large_journals() -> Iterable[tuple[str, bytes]]:
    """Journals with more stuck pages, waiting pages and nodes than random ones have, each with its name."""
    for name, count, is_tried in (("70 stuck pages", 70, True), ("1,100 waiting pages", 1_100, False)):
        node = Node(count, 2, None)
        for page in range(count):
            node.alloc(0)
            node.split_pmd(0, page)
            node.unmap_sub(0, page, 0, 1)
        for page in range(count if is_tried else 0):
            node.pin(0, page)
            node.taken(1)
            node.tried(1, page)
            node.returned(1)
        yield name, random_texts.joined(["thp-journal 2", f"node 0 blocks {count} order 2", *node.journal, "end"])
    nodes = [line for number in range(7) for line in (f"node {number} blocks 1", "0 alloc 0")]
    yield "eight nodes, the last empty", random_texts.joined(["thp-journal 1", *nodes, "node 7 blocks 1", "end"])


class Tables(ProgramCase):
    """Each journal."""

    variable = "THPDRAW"

    def check_text(self, text: bytes, source: Source = Source.FILE) -> Optional[str]:
        """Returns how the program's table of a journal differs from the model's, or None."""
        return run(self.program, Call(("--table",), text, source)).differs_from(table(text))

    def check_random(self, place: int) -> Optional[str]:
        """The same for the random journal with this number, in a file or in a pipe."""
        return self.check_text(random_journal(Random(f"{SEED} {place}")), (Source.FILE, Source.PIPE)[place % 2])


add_tests(Tables, Tables.check_text, large_journals())
add_tests(Tables, Tables.check_random, ((f"journal {place} of seed {SEED}", place) for place in range(CASES)))
