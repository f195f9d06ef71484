"""`thpreplay` with an injected bug in its reader of queues, which a comparison must find. Needs root.

    python3 -m linux.tests.wrong_queues reverse|other OPTIONS..

    reverse   a queue is read from its end
    other     pages of another control group are counted in
"""

from __future__ import annotations

import os
import sys

from ..common.groups import find_hierarchy
from ..common.kernel_memory import KernelMemory
from ..replay.__main__ import start

READ = KernelMemory.queues


def read_in_reverse(memory: KernelMemory, group: int) -> dict[int, list[int]]:
    """Returns a group's queues by NUMA node, each from its end."""
    return {node: folios[::-1] for node, folios in READ(memory, group).items()}


def read_with_others(memory: KernelMemory, group: int) -> dict[int, list[int]]:
    """Returns a group's queues with those of all other groups."""
    out: dict[int, list[int]] = {}
    others = {memory.group(path) for path, _, _ in os.walk(find_hierarchy().mount)}
    for address in [group, *sorted(others - {group})]:
        for node, folios in READ(memory, address).items():
            out[node] = out.get(node, []) + folios
    return dict(sorted(out.items()))


if __name__ == "__main__":
    setattr(KernelMemory, "queues", {"reverse": read_in_reverse, "other": read_with_others}[sys.argv.pop(1)])
    start()
