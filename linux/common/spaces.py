"""Address spaces: which processes share one, and by which thread each is read.

Processes share an address space after clone(CLONE_VM), and between vfork and exec: they have one highest page table. A process
whose first thread has ended has no memory under /proc/PID, but under the numbers of its other threads."""

from __future__ import annotations

import os
from array import array
from collections import Counter, defaultdict, deque
from contextlib import suppress
from dataclasses import dataclass
from typing import Iterable, NamedTuple

from . import proc
from .proc import ENDED, FLAGS, SIZE, Unreadable, stat_fields
from .workers import FIND_TABLES, SECONDS, WALK, Request, Workers

KTHREAD = 0x200000  # include/linux/sched.h: PF_KTHREAD, a thread of the kernel
SECONDS_A_PAGE = 1 / (1 << 18)  # that a walk may take longer
SECONDS_A_PROCESS = 1e-4  # that a search for its page table may take longer
TRIES = 3  # threads of an address space that end while it is read


class Thread(NamedTuple):
    """A thread that lives, of a process with memory."""

    number: int
    pages: int  # anonymous base pages in memory
    key: tuple[bytes, ...]  # where code, data, stack and arguments are: alike wherever an address space is shared


@dataclass
class Space:
    """An address space, which belongs to the lowest of the processes that were asked for."""

    process: int
    thread: Thread
    sharing: list[int]  # all its processes
    tries: int = 0

    def request(self, pieces: bytes = b"") -> Request:
        """Returns the request to walk it, or to look at some pieces again."""
        return Request(self.process, WALK, SECONDS + SECONDS_A_PAGE * self.thread.pages, pieces, self.thread.number)

    def is_alive(self) -> bool:
        """Returns whether it has a thread that lives, after the one that was used has ended."""
        found = next(filter(None, map(live_thread, self.sharing)), None)
        self.tries += 1
        if found and self.tries > TRIES:
            raise Unreadable("its threads end all the time")
        self.thread = found or self.thread
        return found is not None


def live_thread(process: int) -> Thread | None:
    """Returns a thread of a process that has memory; None for a thread of the kernel, and a process that has ended."""
    fields = stat_fields(process)
    if not fields or fields[SIZE] != b"0" or int(fields[FLAGS]) & KTHREAD:
        return thread_of(process, fields)
    try:
        tasks = map(int, os.listdir(f"{proc.ROOT}/{process}/task"))
    except ENDED:
        return None
    return next(filter(None, (thread_of(task, stat_fields(task)) for task in tasks)), None)


def thread_of(number: int, fields: list[bytes]) -> Thread | None:
    """Returns a thread, given its fields; None where it has no memory."""
    if not fields or fields[SIZE] == b"0":
        return None
    resident = shared = b"0"
    with suppress(*ENDED):  # it ended
        resident, shared = proc.read_file(number, "statm").split()[1:3]
    return Thread(number, max(0, int(resident) - int(shared)), (*fields[23:26], *fields[42:49]))


def find_spaces(processes: Iterable[int], workers: Workers, unread: Counter[str]) -> list[Space]:
    """Returns the address spaces of processes. Processes without memory have none; those that can't be read are counted."""
    threads: dict[int, Thread] = {}
    alike: dict[tuple[bytes, ...], list[int]] = defaultdict(list)
    for process in sorted(processes):
        try:
            thread = live_thread(process)
        except (OSError, Unreadable) as error:
            unread[proc.describe(process, error)] += 1
            continue
        if thread:
            threads[process] = thread
            alike[thread.key].append(process)
    groups = {group[0]: array("Q", (threads[process].number for process in group)) for group in alike.values() if group[1:]}
    todo = deque(Request(process, FIND_TABLES, SECONDS + SECONDS_A_PROCESS * len(group), group.tobytes())
                 for process, group in groups.items())
    tables: dict[int, int] = {}
    for request, answer in workers.ask(todo):
        tables.update(zip(alike[threads[request.process].key], array("Q", answer.data if answer else b"")))
    spaces: dict[int, Space] = {}
    for process, thread in threads.items():  # those whose table isn't found are walked each
        spaces.setdefault(tables.get(process) or -process, Space(process, thread, [])).sharing.append(process)
    return list(spaces.values())
