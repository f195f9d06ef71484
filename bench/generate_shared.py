#!/usr/bin/env python3
"""Writes a large script of workers on nodes that they share to standard output.

usage: generate_shared.py WORKERS NODES BYTES

Each worker maps, unmaps and pins a page of its own on each node in turn, counts the node's queue and scans it. Each
worker also has a pinned page in each queue, which scans put back.

BYTES is about how long the script is; below 16,777,216
"""
import sys


def pages(workers, nodes):
    """Two pages of each worker on each node; the second one is queued, and pinned so that it stays whole."""
    for node in range(nodes):
        for worker in range(workers):
            page = 2 * worker + 1
            yield f"alloc {node}\nalloc {node}\n"
            yield f"splitpmd {node} {page}\nunmap {node} {page} 0 1\npin {node} {page}\n"


def calls(worker, nodes):
    """A worker's calls on its first page of each node in turn, without end."""
    page = 2 * worker
    while True:
        for node in range(nodes):
            for first in range(0, 512, 32):
                span = f"{node} {page} {first} {1 + first // 32 % 8}\n"
                yield f"map {span}"
                yield f"unmap {span}"
                yield f"pin {node} {page}\n"
                yield f"unpin {node} {page}\n"
            yield f"count {node}\n"
            yield f"scan {node} 2\n"


def section(heading, lines, limit):
    """Writes a section of about so many bytes, and returns how many it wrote."""
    written = sys.stdout.write(heading)
    for line in lines:
        if written + len(line) > limit:
            break
        written += sys.stdout.write(line)
    return written


def main():
    workers, nodes, limit = (int(word) for word in sys.argv[1:4])
    rest = limit - section("setup\n", pages(workers, nodes), limit)
    for worker in range(workers):
        section(f"worker {worker + 1}\n", calls(worker, nodes), rest // workers)


if __name__ == "__main__":
    main()
