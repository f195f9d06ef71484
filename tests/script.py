"""A plain reading of docs/FORMATS.md: runs a script, as a list of lines, on nodes of model.py; reads a journal back."""

from __future__ import annotations

from collections import Counter
from typing import Callable, Iterable, Optional

from model import Misfit, Node, Refused
from texts import LARGE_VERSION, SMALL

Shape = tuple[int, int, Optional[int]]
"""A node's blocks, the order of its pages, and its threshold for underused pages, if it splits those."""

PAGE_CALLS: dict[str, Callable[[Node, int, int], str]] = {
    "mapwhole": Node.map_whole,
    "unmapwhole": Node.unmap_whole,
    "splitpmd": Node.split_pmd,
    "pin": Node.pin,
    "unpin": Node.unpin,
}
RANGE_CALLS: dict[str, Callable[[Node, int, int, int, int], str]] = {
    "map": Node.map_sub,
    "unmap": Node.unmap_sub,
    "write": lambda node, caller, number, first, count: node.fill(caller, number, first, count, False),
    "zero": lambda node, caller, number, first, count: node.fill(caller, number, first, count, True),
}


class Run:
    """A run of a script, a section at a time: its answers, and the nodes afterwards."""

    def __init__(self, shapes: Iterable[Shape]) -> None:
        self.nodes = [Node(*shape) for shape in shapes]
        self.answers: list[str] = []
        self.batches: dict[int, list[int]] = {}

    def section(self, caller: int, lines: Iterable[str]) -> None:
        """Executes the commands of a section, and then puts back its open batches."""
        for index, line in enumerate(lines, 1):
            self.line(caller, index, line)
        self.end(caller)

    def line(self, caller: int, index: int, line: str) -> None:
        """Executes a command of a section, the one at this index, counted from 1."""
        word, number, *operands = line.split()
        try:
            answer = self.command(caller, word, int(number), [int(text) for text in operands])
        except Refused as refusal:
            answer = f"refused {refusal}"
        self.answers.append(f"{caller} {index} {answer}")

    def end(self, caller: int) -> None:
        """Puts the batches back that are open at the end of a section."""
        for number in sorted(self.batches):
            self.put_back(caller, number)

    def text(self, text: str) -> None:
        """Executes a script without errors, its sections one after the other."""
        for caller, lines in sections_of(text):
            self.section(caller, lines)

    def command(self, caller: int, word: str, number: int, operands: list[int]) -> str:
        """Executes a command on a node, and returns its answer."""
        node = self.nodes[number]
        if word in PAGE_CALLS:
            return PAGE_CALLS[word](node, caller, operands[0])
        if word in RANGE_CALLS:
            return RANGE_CALLS[word](node, caller, operands[0], operands[1], operands[2])
        if word in ("alloc", "close"):
            return node.alloc(caller) if word == "alloc" else node.close(caller)
        if word == "count":
            return f"count {len(node.queue)}"
        if word in ("take", "scan"):
            if number in self.batches:
                raise Refused("has-batch")
            if word == "scan":
                return node.scan(caller, operands[0])
            self.batches[number] = node.take(caller, operands[0])
            return f"taken {len(self.batches[number])}"
        if number not in self.batches:
            return "no-batch"
        return self.split_next(caller, number) if word == "splitnext" else self.put_back(caller, number)

    def split_next(self, caller: int, number: int) -> str:
        """Tries the next page of the open batch that is still in it."""
        node, batch = self.nodes[number], self.batches[number]
        while batch:
            page = batch.pop(0)
            if page in node.flight(caller):
                return f"{node.tried(caller, page)} {page}"
        return "done"

    def put_back(self, caller: int, number: int) -> str:
        """Puts back the remaining pages of the open batch."""
        node = self.nodes[number]
        del self.batches[number]
        counts: Counter[str] = Counter()
        while node.flight(caller):
            counts[node.returned(caller)] += 1
        return f"back {counts['back']} dropped {counts['dropped']}"

    def totals(self) -> list[str]:
        """The report of totals."""
        return [line for number, node in enumerate(self.nodes) for line in node.totals(number)]

    def journal(self) -> list[str]:
        """The journal's text, in the lowest version that suffices for it."""
        return journal_lines(self.nodes)


def journal_lines(nodes: list[Node]) -> list[str]:
    """The journal of some nodes, in the lowest version that suffices for it."""
    version = least_version(nodes)
    lines = [f"thp-journal {version}"]
    for number, node in enumerate(nodes):
        order = f" order {node.order}" if version > 1 else ""
        switch = "off" if node.underused is None else node.underused
        lines.append(f"node {number} blocks {node.blocks}{order}" + (f" underused {switch}" if version > 2 else ""))
        lines += node.journal
    return [*lines, "end"]


def least_version(nodes: list[Node]) -> int:
    """The lowest version in which the journal of some nodes can be written."""
    heads = [line.split(" ", 2)[:2] for node in nodes for line in node.journal]
    if len(nodes) - 1 > SMALL.node or any(node.blocks > SMALL.blocks for node in nodes) or any(int(it[0]) > SMALL.caller for it in heads):
        return LARGE_VERSION
    if any(word in ("write", "zero") for _, word in heads) or any(node.underused is not None for node in nodes):
        return 3
    return 2 if any(node.order != 9 for node in nodes) else 1


def sections_of(text: str) -> list[tuple[int, list[str]]]:
    """The sections of a script without errors: the caller of each, and its commands."""
    sections: list[tuple[int, list[str]]] = []
    for line in text.split("\n"):
        if line == "setup" or line.startswith("worker "):
            sections.append((int(line[len("worker ") :] or 0), []))
        elif line and not line.startswith("#"):
            sections[-1][1].append(line)
    return sections


def first_illegal(lines: Iterable[str]) -> Optional[int]:
    """The number of the first illegal line of a journal text without errors, or None."""
    node: Optional[Node] = None
    for number, line in enumerate(lines, 1):
        words = line.split()
        if words[0] == "node":
            node = node_of(words)
        elif words[0] not in ("thp-journal", "end"):
            assert node is not None
            if not fits(node, line):
                return number
    return None


def summary(lines: Iterable[str]) -> list[str]:
    """The totals of each node of a journal text without errors, up to the node's first illegal line."""
    nodes: list[tuple[list[str], list[str]]] = []
    for line in lines:
        words = line.split()
        if words[0] == "node":
            nodes.append((words, []))
        elif words[0] not in ("thp-journal", "end"):
            nodes[-1][1].append(line)
    return [line for number, (words, events) in enumerate(nodes) for line in totals_of(number, words, events)]


def totals_of(number: int, words: list[str], events: list[str]) -> list[str]:
    """The totals of a node after its events before the first illegal one, which may leave any."""
    node, legal = node_of(words), 0
    while legal < len(events) and fits(node, events[legal]):
        legal += 1
    if legal < len(events):
        node = node_of(words)
        for line in events[:legal]:
            fits(node, line)
    return node.totals(number)


def node_of(words: list[str]) -> Node:
    """The node that a line of a journal begins."""
    options = dict(zip(words[2::2], words[3::2]))
    switch = options.get("underused", "off")
    underused = None if switch == "off" else int(switch)
    return Node(int(options["blocks"]), int(options.get("order", 9)), underused)


def fits(node: Node, line: str) -> bool:
    """Whether the event in a line fits those before it on the node, to which it is applied, and which doesn't keep it. If it does not, the
    node is no longer usable."""
    words = line.split()
    try:
        replay(node, int(words[0]), words[1], [int(word) for word in words[2:] if word.isdigit()])
    except (Refused, Misfit):
        return False
    return node.journal.pop() == line


def replay(node: Node, caller: int, word: str, numbers: list[int]) -> None:
    """Applies the event in a line; the line's outcome and frames are compared afterwards."""
    if word in PAGE_CALLS:
        PAGE_CALLS[word](node, caller, numbers[0])
    elif word in ("mapsub", "unmapsub", "write", "zero"):
        RANGE_CALLS[word.replace("sub", "")](node, caller, numbers[0], numbers[1], numbers[2])
    elif word in ("alloc", "close"):
        node.alloc(caller) if word == "alloc" else node.close(caller)
    elif word == "taken":
        node.taken(caller)
    elif word in ("split", "pinned", "used"):
        node.tried(caller, numbers[0])
    else:
        node.returned(caller)
