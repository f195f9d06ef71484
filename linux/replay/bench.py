"""What runs of scripts begin and end with: the lock, settings, a control group and a server process for each node."""

from __future__ import annotations

import argparse
import os
import re
import resource
import sys
from collections.abc import Iterator
from contextlib import closing, contextmanager
from dataclasses import dataclass

from ..common import machine
from ..common.errors import Unavailable
from ..common.files import COLLAPSE_SLEEP, PMD_ORDER, PTES_NONE, SWITCH, size_folder
from ..common.groups import Groups
from ..common.keeper import Keeper
from ..common.kernel_memory import KernelMemory
from ..common.page_files import Frames
from ..common.program import Program
from ..common.script import Options
from .expected_answers import Unsupported
from .mappers import Mapper

QUIET = 3600000  # milliseconds between khugepaged's rounds: it collapses nothing meanwhile


@dataclass(frozen=True)
class Server:
    """A node on this kernel."""

    path: str  # of its control group
    process: Mapper  # whose forks allocate in it
    group: int  # the group's struct mem_cgroup; 0: kernel memory isn't read


class Bench:
    """Made once; prepared for each script. `memory`: None where queues aren't read."""

    def __init__(self, keeper: Keeper, program: Program, memory: KernelMemory | None) -> None:
        _, most = resource.getrlimit(resource.RLIMIT_NOFILE)
        resource.setrlimit(resource.RLIMIT_NOFILE, (most, most))  # each mapping process needs three
        self._keeper, self.program, self.memory = keeper, program, memory
        # letter P: until Linux 6.10, mm/rmap.c queues a page that loses a PTE mapping even if no other is left
        self.unmaps_singly = [int(number) for number in re.findall("[0-9]+", os.uname().release)[:2]] < [6, 10]
        keeper.set(COLLAPSE_SLEEP, QUIET)
        self.frames = Frames()
        self.groups = Groups(keeper, "thpreplay")
        self.servers: list[Server] = []
        self._groups_made = 0

    def renew(self) -> None:
        """Ends the nodes, so that the next script gets new groups: a shrinker remembers what it left in a group."""
        for server in self.servers:
            server.process.close()
        self.servers.clear()

    def prepare(self, options: Options) -> None:
        """Makes the settings and nodes of a script. Unsupported where a kernel can't have such settings."""
        large = {switch for order, switch in zip(options.orders, options.underused) if order == PMD_ORDER}
        if len(large) > 1:
            raise Unsupported("underused pages are split on some nodes only: the kernel has one switch" if None in large
                              else "thresholds differ by node: the kernel has one")
        small = (switch for switch in options.underused if switch is not None)  # these pages aren't looked at (C)
        threshold = large.pop() if large else next(small, None)
        if os.path.exists(SWITCH):
            self._keeper.set(SWITCH, int(threshold is not None))
        elif threshold is not None:
            raise Unsupported("this kernel has no shrink_underused")
        if threshold is not None:
            self._keeper.set(PTES_NONE, threshold)
        for order in sorted(set(options.orders)):
            if os.path.isdir(size_folder(order)):
                self._keeper.set(f"{size_folder(order)}/enabled", "madvise")
            elif order < PMD_ORDER:  # before Linux 6.8, PMD size has no settings of its own
                raise Unsupported(f"this kernel has no pages of order {order}")
        while len(self.servers) < options.nodes:
            path = self.groups.add(f"node{self._groups_made}")
            self._groups_made += 1
            self.servers.append(Server(path, Mapper.start(path), self.memory.group(path) if self.memory else 0))

    def queues(self, node: int) -> dict[int, list[int]] | None:
        """Returns the first frames of the pages in a node's queue, oldest first, by NUMA node; None where queues aren't read."""
        if self.memory is None:
            return None
        found = self.memory.queues(self.servers[node].group)
        return {numa: [*map(self.memory.frame, folios)] for numa, folios in found.items()}

    def close(self) -> None:
        """Ends all processes."""
        self.renew()
        self.frames.close()


@contextmanager
def open_bench(name: str, options: argparse.Namespace) -> Iterator[Bench]:
    """Opens the bench of a tool (options.py). Unavailable where the machine lacks what it needs; Busy where another tool runs."""
    machine.demand_common()
    memory = None
    if not options.no_memory:
        try:
            memory = machine.open_memory()
        except Unavailable as lacking:
            print(f"{name}: queues are not compared: {machine.first_line(lacking)}", file=sys.stderr, flush=True)
    program = Program(options.program)
    with Keeper(name, options.wait) as keeper:
        with closing(Bench(keeper, program, memory)) as bench:
            yield bench
