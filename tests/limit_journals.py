"""Journals at each limit of a version and one beyond it, of other versions, and with lines in another order; each with its subject."""

from __future__ import annotations

from typing import Iterator

from texts import LARGE_VERSION, VERSION, limits_of

Named = tuple[str, list[str]]
"""The subject of a journal, and its lines."""

EVENTS = (
    "alloc 0", "mapwhole 0", "splitpmd 0", "pin 0", "write 0 0 4", "zero 0 3 1", "mapsub 0 0 1", "unmapsub 0 0 1 stays -", "taken 0",
    "used 0", "unmapwhole 0 stays -", "unmapsub 0 2 2 queued -", "taken 0", "pinned 0", "back 0", "unpin 0 stays -", "taken 0",
    "split 0 2-3", "alloc 1", "taken 1", "dropped 1", "close",
)
"""A legal history that has each event, of a node of order 2 that splits pages with two zero-filled subpages or more."""


def node_line(version: int, number: int = 0, blocks: int = 1, underused: str = "off") -> str:
    """The line of a node in a version."""
    line = f"node {number} blocks {blocks}"
    return line + (" order 2" if version > 1 else "") + (f" underused {underused}" if version > 2 else "")


def journal(version: int, *lines: str) -> list[str]:
    """A journal of these lines between the first and the last."""
    return [f"thp-journal {version}", *lines, "end"]


def with_blocks() -> Iterator[list[str]]:
    """The least and the greatest number of blocks."""
    for version in range(1, LARGE_VERSION + 1):
        for blocks in (0, 1, limits_of(version).blocks, limits_of(version).blocks + 1):
            yield journal(version, node_line(version, 0, blocks), "0 alloc 0")


def with_callers() -> Iterator[list[str]]:
    """The greatest number of a caller: each event is that of the caller after it, once."""
    for version in range(1, LARGE_VERSION + 1):
        most = limits_of(version).caller
        events = EVENTS if version >= VERSION else [line for line in EVENTS if line.split()[0] in ("alloc", "mapwhole", "close")]
        for beyond in range(-1, len(events)):
            lines = (f"{most + (at == beyond)} {event}" for at, event in enumerate(events))
            yield journal(version, node_line(version, 0, 2, "1"), *lines)


def with_nodes() -> Iterator[list[str]]:
    """The greatest number of a node, and as many nodes as the former versions can have."""
    for version in range(1, LARGE_VERSION + 1):
        most = limits_of(version).node
        for number in (0, 1, most, most + 1):
            yield journal(version, node_line(version), node_line(version, number))
        for count in (limits_of(1).node + 1, limits_of(1).node + 2):
            yield journal(version, *(node_line(version, number) for number in range(count)))


def with_versions() -> Iterator[list[str]]:
    """The lines of a version in another one, and numbers that are no version."""
    for version in range(LARGE_VERSION + 2):
        for other in range(1, LARGE_VERSION + 1):
            yield journal(version, node_line(other), "0 alloc 0", "0 write 0 0 1")
    for word in ("", " 4", " 04", " +4", " 4 4", " 4.0", " 2147483652", " 4294967300", " 18446744073709551620", " x"):
        yield ["thp-journal" + word, node_line(LARGE_VERSION), "end"]


def in_other_orders() -> Iterator[list[str]]:
    """Two lines exchanged; and a line left out, or once more after each line."""
    lines = journal(LARGE_VERSION, node_line(LARGE_VERSION), "65535 alloc 0", node_line(LARGE_VERSION, 1), "64 alloc 0")
    for at, line in enumerate(lines):
        yield lines[:at] + lines[at + 1:]
        for other in range(len(lines)):
            yield lines[: other + 1] + [line] + lines[other + 1:]
            if other > at:
                yield [*lines[:at], lines[other], *lines[at + 1: other], line, *lines[other + 1:]]


SUBJECTS = {
    "blocks": with_blocks,
    "callers": with_callers,
    "nodes": with_nodes,
    "versions": with_versions,
    "orders of lines": in_other_orders,
}
"""What is at its limit, or wrong, in these journals."""


def limit_texts() -> list[Named]:
    """All of them."""
    return [(subject, lines) for subject, texts in SUBJECTS.items() for lines in texts()]
