"""Measures how fast a program checks a long journal, and its memory. The journal is piped and stored nowhere.

    bench/long_journal.py PROGRAM [MEBIBYTES [PAGES [CALLERS]]]

The program reads standard input and takes no options (`thpcheck`); the journal has 1,024 MiB by default. It holds rounds of a
busy node: beside 4,095 pages that stay, or PAGES - 1, pages are allocated, mapped, partly unmapped, queued, taken, split and freed,
each by the next of CALLERS callers (1). The status is 0 if the program finds the journal legal.
"""

from __future__ import annotations

import os
import re
import subprocess
import sys
import time
from pathlib import Path
from typing import Iterator

KEPT = 1 << 20
"""About so many bytes are written at a time."""


def rounds() -> list[bytes]:
    """What happens to one page after another: formats, in which the first `%d` is the caller and the second the page."""
    lines = (
        "alloc %d", "splitpmd %d", "mapsub %d 0 256", "unmapsub %d 0 256 stays -", "pin %d", "unpin %d stays -",
        "unmapsub %d 0 128 queued -", "unmapsub %d 128 64 stays -", "taken %d", "split %d 0-191", "unmapsub %d 192 320 freed 192-511",
    )
    return [f"%d {line}\n".encode() for line in lines]


def journal(most: int, pages: int, callers: int) -> Iterator[bytes]:
    """A journal of at least so many bytes, in parts, of a node with so many pages and callers."""
    is_large = pages > 4096 or callers > 64
    yield f"thp-journal 4\nnode 0 blocks {pages} order 9 underused off\n".encode() if is_large else \
        f"thp-journal 1\nnode 0 blocks {pages}\n".encode()
    for first in range(0, pages - 1, KEPT // 16):
        yield "".join(f"0 alloc {page}\n" for page in range(first, min(first + KEPT // 16, pages - 1))).encode()
    one = b"".join(rounds())
    count, given = one.count(b"%d") // 2, 0
    page = pages - 1
    while given < most:
        parts = []
        size = 0
        while size < KEPT:
            parts.append(one % ((page % callers, page) * count))
            size += len(parts[-1])
            page += 1
        given += size
        yield b"".join(parts)
    yield b"end\n"


def peak(child: subprocess.Popen) -> float:
    """The most memory so far of a process, in MiB."""
    text = Path(f"/proc/{child.pid}/status").read_text()
    return int(re.search(r"VmHWM:\s+(\d+) kB", text)[1]) / 1024


def main() -> None:
    """Pipes the journal into the program, and prints the time, the memory and the verdict."""
    program = sys.argv[1]
    mebibytes, pages, callers = (int(word) for word in (sys.argv[2:] + ["1024", "4096", "1"][len(sys.argv) - 2:])[:3])
    most = mebibytes << 20
    began = time.monotonic()
    child = subprocess.Popen([program], stdin=subprocess.PIPE, stdout=subprocess.PIPE)
    given = 0
    for part in journal(most, pages, callers):
        child.stdin.write(part)
        given += len(part)
    child.stdin.flush()
    memory = peak(child)
    child.stdin.close()
    verdict = child.stdout.read().decode().strip()
    _, status, used = os.wait4(child.pid, 0)
    took = time.monotonic() - began
    busy = used.ru_utime + used.ru_stime
    print(f"{given / 2**20:.0f} MiB: {verdict}, {took:.1f} s, {busy:.2f} s of the processor, "
          f"{given / busy / 2**20:.1f} MiB a second of it, peak {memory:.1f} MiB")
    sys.exit(0 if verdict == "legal" and os.waitstatus_to_exitcode(status) == 0 else 1)


if __name__ == "__main__":
    main()
