"""Journals as text: docs/FORMATS.md, "Journals"."""

from __future__ import annotations

import re
from dataclasses import dataclass, field

from .errors import InputFault
from .files import PMD_ORDER
from .subpages import set_of, set_text

_RANGES = ("mapsub", "unmapsub", "write", "zero")
_OUTCOMES = ("unmapwhole", "unmapsub", "unpin")
FILLING = ("write", "zero", "used")  # words that version 3 was the first to have


@dataclass(frozen=True)
class Event:
    """One line of a journal. `page` is None for `close`; `count` is 0 where a line has no range."""

    caller: int
    word: str
    page: int | None = None
    first: int = 0
    count: int = 0
    outcome: str = ""  # stays, queued, freed; empty where a line has none
    given: int = 0  # the frames given back, as a set of subpages

    def text(self) -> str:
        words = [str(self.caller), self.word]
        words += [] if self.page is None else [str(self.page)]
        words += [str(self.first), str(self.count)] if self.word in _RANGES else []
        words += [self.outcome] if self.word in _OUTCOMES else []
        words += [set_text(self.given)] if self.word in _OUTCOMES or self.word == "split" else []
        return " ".join(words)


_WORDS = ("alloc", "splitpmd", "mapwhole", "unmapwhole", "mapsub", "unmapsub", "pin", "unpin", "write", "zero", "taken",
          "split", "pinned", "used", "back", "dropped", "close")
_NODE = re.compile("node [0-9]{1,5} blocks ([0-9]{1,8})(?: order ([2-9])(?: underused (off|[0-9]{1,3}))?)?")
SMALL_NODES, SMALL_BLOCKS, SMALL_CALLERS, MOST_CALLERS = 8, 4096, 64, 1 << 16  # of versions 1 to 3; of version 4


def event_of(line: str) -> Event:
    """Returns the event of a line. ValueError, IndexError or InputFault where it isn't one."""
    words = line.split(" ")
    caller, word = int(words[0]), words[1]
    page = int(words[2]) if len(words) > 2 else None
    first, count = (int(words[3]), int(words[4])) if word in _RANGES else (0, 0)
    outcome = words[-2] if word in _OUTCOMES else ""
    given = set_of(words[-1]) if outcome or word == "split" else 0
    event = Event(caller, word, page, first, count, outcome, given)
    is_known = word in _WORDS and outcome in ("", "stays", "queued", "freed") and (page is None) == (word == "close")
    if not is_known or event.text() != line:
        raise ValueError(line)
    return event


@dataclass
class NodeJournal:
    """The events of one node, with its settings."""

    blocks: int
    order: int = PMD_ORDER
    underused: int | None = None
    events: list[Event] = field(default_factory=list)


def journal_of(text: str) -> list[NodeJournal]:
    """Returns the nodes of a journal's text. InputFault where it isn't one; its legality is not checked."""
    lines = text.split("\n")
    if not re.fullmatch("thp-journal [1-4]", lines[0]) or lines[-2:] != ["end", ""]:
        raise InputFault("this is no journal")
    nodes: list[NodeJournal] = []
    for number, line in enumerate(lines[1:-2], 2):
        try:
            if node := _NODE.fullmatch(line):
                blocks, order, switch = node.groups()
                nodes.append(NodeJournal(int(blocks), int(order or PMD_ORDER), None if switch in (None, "off") else int(switch)))
            else:
                nodes[-1].events.append(event_of(line))
        except (ValueError, IndexError, InputFault) as error:
            raise InputFault(f"line {number} of the journal is neither a node nor an event") from error
    return nodes
