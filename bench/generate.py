#!/usr/bin/env python3
"""Writes a large script for thpsplit to standard output.

usage: generate.py KIND BLOCKS BYTES

KIND   churn   pages are allocated, partly unmapped (so queued), scanned eight at a time and freed, oldest first
       middle  the queue is kept as long as the node has blocks, and pages are freed from its middle
       maps    ranges of subpages and whole pages are mapped and unmapped on four pages, beside as many pages as the
               node has blocks
       counts  short commands: four pages are pinned and unpinned, and the queue's length is read
       clash   subpages are unmapped and mapped again on as many pages as the node has blocks, all queued; the numbers of one
               half of them share their low 13 bits with those of the other half
BLOCKS how many blocks the node has, so how long the queue grows
BYTES  about how long the script is; below 16,777,216
"""
import itertools
import sys


def fill(live, numbers, blocks):
    """Allocates pages until every block has one, and unmaps the first subpage of each, which queues it."""
    while len(live) < blocks:
        page = next(numbers)
        yield f"alloc 0\nsplitpmd 0 {page}\nunmap 0 {page} 0 1\n"
        live.append(page)


def churn(blocks):
    """Cycles of allocation, partial unmap, scan and free."""
    live, numbers = [], itertools.count()
    while True:
        yield from fill(live, numbers, blocks)
        yield "scan 0 8\n"
        for page in live[:8]:
            yield f"unmap 0 {page} 1 511\n"
        del live[:8]


def middle(blocks):
    """Frees of queued pages, each from the middle of the queue."""
    live, numbers = [], itertools.count()
    while True:
        yield from fill(live, numbers, blocks)
        yield f"unmap 0 {live.pop(len(live) // 2)} 1 511\n"


def maps(blocks):
    """Maps and unmaps of ranges of 1 to 8 subpages and of whole pages, on four of the node's pages."""
    for _ in range(blocks):
        yield "alloc 0\n"
    while True:
        for page in range(4):
            for first in range(0, 512, 32):
                span = f"0 {page} {first} {1 + first // 32 % 8}\n"
                yield f"map {span}"
                yield f"unmap {span}"
            yield f"mapwhole 0 {page}\n"
            yield f"unmapwhole 0 {page}\n"


def counts(blocks):
    """Pins and unpins of four of the node's pages, with a count after each pair."""
    for _ in range(blocks):
        yield "alloc 0\n"
    for page in itertools.cycle(range(4)):
        yield f"pin 0 {page}\nunpin 0 {page}\ncount 0\n"


def clash(blocks):
    """Unmaps and maps of one subpage, on pages half of which were allocated 8,192 allocations after the others."""
    half, apart = blocks // 2, 1 << 13
    for page in range(apart + half):
        is_kept = page < half or page >= apart
        yield f"alloc 0\n{'splitpmd' if is_kept else 'unmapwhole'} 0 {page}\n"
    while True:
        for older in range(half):
            for page in (older, older + apart):
                yield f"unmap 0 {page} 0 1\nmap 0 {page} 0 1\n"


def main():
    kind, blocks, limit = sys.argv[1], int(sys.argv[2]), int(sys.argv[3])
    lines = {"churn": churn, "middle": middle, "maps": maps, "counts": counts, "clash": clash}[kind](blocks)
    written = sys.stdout.write("setup\n")
    for line in lines:
        if written + len(line) > limit:
            break
        written += sys.stdout.write(line)


if __name__ == "__main__":
    main()
