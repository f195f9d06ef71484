"""Illegal journals, each with the explanation of `thpcheck --explain` for its first illegal event: the expected events, and
why."""

from __future__ import annotations

from typing import NamedTuple

from faulty_texts import ONE, STEPS, THREE, TWO

NO_PAGE = b"refused no-page: the page was never allocated, or was freed"
BAD_RANGE = b"refused bad-range: the range is empty or exceeds the page"
NOT_MAPPED = b"refused not-mapped: the mapping does not exist"
NOT_PINNED = b"refused not-pinned: the page has no pin"
IS_SPLIT = b"refused is-split: the page is split into base pages"
GONE = b"refused gone: a frame of the range was given back"
TOO_MANY = b"refused too-many: the count is already 65535"
CLOSED = b"refused closed: the node is closed"
FREED = b"page 0 has no mapping and no pin left: it is freed with all frames that it held"
QUEUED = b"page 0 lost the last mapping of a subpage, has another mapped one, and is on no list: it joins the queue"
STAYS = b"page 0 is still mapped or pinned and does not join the queue; only a split page gives back frames"
DROPS = b"page 0 is not partly mapped, or the node is closed"
IN_USE = b"page 0 is no split candidate: it is neither partly mapped nor underused"
WORTH = b"page 0 is a split candidate: it is partly mapped or underused"
HAS_BATCH = b"caller 0 has pages in flight, and the previous event is not one of its takes"

PAIR = b"thp-journal 2\nnode 0 blocks 2 order 2\n" + STEPS + b"0 alloc 1\n0 splitpmd 1\n0 unmapsub 1 0 2 queued -\n"
"""Two pages of order 2 in the queue, half of each unmapped."""

A_SPLIT = b"a split of page 0"
FULL = ONE + b"0 alloc 0\n" + b"0 pin 0\n" * 65_535
"""A page that has the greatest number of pins."""

WHOLE = TWO + b"0 alloc 0\n" + b"0 mapwhole 0\n" * 65_534
"""A page with the greatest number of mappings of the whole."""
SUBPAGE = TWO + b"0 alloc 0\n" + b"0 mapsub 0 3 1\n" * 65_534
"""A page whose last subpage has the greatest number of mappings, one of them by the mapping of the whole page."""


class Explained(NamedTuple):
    """A journal without its line `end`, whose last line is its first illegal event, and the explanation of that."""

    text: bytes
    choices: tuple[bytes, ...]
    """The events that would fit instead."""
    why: bytes

    def lines(self) -> bytes:
        """The text on standard error."""
        line, event = self.text.count(b"\n"), self.text.splitlines()[-1]
        first, *others = self.choices or (b"nothing",)
        reported = [b"line %d: %s" % (line, event), b"expected: " + first, *(b"or: " + other for other in others)]
        return b"".join(it + b"\n" for it in (*reported, b"why: " + self.why))


EXPLAINED = [
    Explained(ONE + b"0 alloc 1\n", (b"0 alloc 0",), b"the next page number is 0"),
    Explained(ONE + b"0 alloc 0\n0 alloc 0\n", (b"0 alloc 1",), b"the next page number is 1"),
    Explained(ONE + b"0 alloc 0\n0 alloc 1\n", (), b"page 1 has no free block"),
    Explained(ONE + b"0 close\n0 close\n", (), CLOSED),
    Explained(ONE + b"0 close\n0 alloc 0\n", (), CLOSED),
    Explained(ONE + b"0 pin 0\n", (), NO_PAGE),
    Explained(ONE + b"0 mapwhole 18446744073709551615\n", (), NO_PAGE),
    Explained(ONE + b"0 alloc 0\n0 unpin 0 stays -\n", (), NOT_PINNED),
    Explained(ONE + b"0 alloc 0\n0 unmapwhole 0 stays -\n", (b"0 unmapwhole 0 freed 0-511",), FREED),
    Explained(ONE + b"0 alloc 0\n0 unmapwhole 0 freed 0-510\n", (b"0 unmapwhole 0 freed 0-511",), FREED),
    Explained(ONE + b"0 alloc 0\n0 unmapwhole 0 freed 0-511\n0 pin 0\n", (), NO_PAGE),
    Explained(ONE + b"0 alloc 0\n0 pin 0\n0 unmapwhole 0 stays -\n0 unpin 0 queued -\n", (b"0 unpin 0 freed 0-511",), FREED),
    Explained(ONE + b"0 alloc 0\n0 mapsub 0 0 0\n", (), BAD_RANGE),
    Explained(ONE + b"0 alloc 0\n0 mapsub 0 511 2\n", (), BAD_RANGE),
    Explained(ONE + b"0 alloc 0\n0 mapsub 0 65535 65535\n", (), BAD_RANGE),
    Explained(ONE + b"0 alloc 0\n0 unmapsub 0 0 1 stays -\n", (), NOT_MAPPED),
    Explained(ONE + b"0 alloc 0\n0 splitpmd 0\n0 splitpmd 0\n", (), NOT_MAPPED),
    Explained(ONE + b"0 alloc 0\n0 taken 0\n", (), b"the queue is empty"),
    Explained(FULL + b"0 pin 0\n", (), TOO_MANY),
    Explained(WHOLE + b"0 mapwhole 0\n", (), TOO_MANY),
    Explained(SUBPAGE + b"0 mapsub 0 2 2\n", (), TOO_MANY),
    Explained(TWO + STEPS + b"0 taken 1\n", (b"0 taken 0",), b"page 0 is the oldest in the queue"),
    Explained(TWO + STEPS + b"0 split 0 0-1\n", (), b"page 0 is not in the flight of caller 0"),
    Explained(TWO + STEPS + b"0 taken 0\n1 split 0 0-1\n", (), b"page 0 is not in the flight of caller 1"),
    Explained(TWO + STEPS + b"0 taken 0\n63 pinned 0\n", (), b"page 0 is not in the flight of caller 63"),
    Explained(TWO + STEPS + b"0 taken 0\n0 split 0 0\n", (b"0 split 0 0-1",), b"page 0 releases these frames when it is split"),
    Explained(TWO + STEPS + b"0 taken 0\n0 pinned 0\n", (b"0 used 0", A_SPLIT), b"page 0 has no pin"),
    Explained(TWO + STEPS + b"0 taken 0\n0 dropped 0\n", (b"0 back 0",), b"page 0 is partly mapped, and the node is open"),
    Explained(TWO + STEPS + b"0 pin 0\n0 taken 0\n0 split 0 0-1\n", (b"0 pinned 0",), b"page 0 has pins"),
    Explained(TWO + STEPS + b"0 close\n0 taken 0\n0 back 0\n", (b"0 dropped 0",), DROPS),
    Explained(TWO + STEPS.replace(b"queued", b"stays"), (b"0 unmapsub 0 0 2 queued -",), QUEUED),
    Explained(TWO + STEPS + b"0 unmapsub 0 2 1 queued -\n", (b"0 unmapsub 0 2 1 stays -",), STAYS),
    Explained(TWO + STEPS + b"0 taken 0\n0 split 0 0-1\n0 mapwhole 0\n", (), IS_SPLIT),
    Explained(TWO + STEPS + b"0 taken 0\n0 split 0 0-1\n0 mapsub 0 1 2\n", (), GONE),
    Explained(TWO + STEPS + b"0 back 0\n", (), b"caller 0 has no page in flight"),
    Explained(TWO + STEPS + b"7 dropped 0\n", (), b"caller 7 has no page in flight"),
    Explained(PAIR + b"0 taken 0\n1 pin 1\n0 taken 1\n", (), HAS_BATCH),
    Explained(PAIR + b"0 taken 0\n0 taken 1\n0 back 1\n", (b"0 back 0", b"0 dropped 0"),
              b"page 0 is the first of the flight of caller 0"),
    Explained(PAIR + b"0 taken 0\n0 taken 1\n0 dropped 1\n", (b"0 back 0", b"0 dropped 0"),
              b"page 0 is the first of the flight of caller 0"),
    Explained(THREE + b"0 alloc 0\n0 write 0 0 5\n", (), BAD_RANGE),
    Explained(THREE + b"0 alloc 0\n0 zero 0 4 1\n", (), BAD_RANGE),
    Explained(THREE + b"0 used 0\n", (), b"page 0 is not in the flight of caller 0"),
    Explained(THREE + b"0 alloc 0\n0 taken 0\n0 used 0\n", (b"0 pinned 0", A_SPLIT), WORTH),
    Explained(THREE + b"0 alloc 0\n0 write 0 0 3\n0 taken 0\n0 split 0 -\n", (b"0 used 0",), IN_USE),
    Explained(THREE + b"0 alloc 0\n0 write 0 0 3\n0 pin 0\n0 taken 0\n0 pinned 0\n", (b"0 used 0",), IN_USE),
    Explained(THREE + b"0 alloc 0\n0 write 0 0 3\n0 taken 0\n0 back 0\n", (b"0 dropped 0",), DROPS),
    Explained(ONE + b"node 1 blocks 1\n0 alloc 0\n0 pin 1\n", (), NO_PAGE),
]
"""At least one of each kind of event, and of each reason; those of `faulty_texts.ILLEGAL` are among them."""
