"""A recording: a control group, trace programs for its queues, the commands that run in it, and reclaims."""

from __future__ import annotations

import ctypes
import errno
import math
import os
import threading
import time
from argparse import Namespace
from contextlib import ExitStack, closing, contextmanager, suppress
from dataclasses import dataclass
from functools import partial
from typing import Callable, Iterable, Iterator, Sequence

from ..common.errors import RunFailed, Unavailable
from ..common.files import COLLAPSE_SLEEP, PMD_ORDER, PTES_NONE, SWITCH, read, size_folder
from ..common.groups import Groups
from ..common.guardian import members
from ..common.keeper import Keeper
from ..common.kernel_library import Counters, Settings, load_library, open_programs
from ..common.kernel_memory import KernelMemory
from ..common.page_files import numa_frames
from ..common.reader import Reader
from ..common.second_look import SecondLook
from .commands import PAUSE, Commands, Interrupts
from .reasons import Count, Doubt, Reason
from .records import HEAD, SET, Kind, Store
from .scratch import FOLDER

RING = 1 << 24  # bytes of all rings; all of them count as resident
TASKS = "/proc/sys/kernel/threads-max"
MOST_HOMES = 1 << 18
QUIET = 3600000  # milliseconds between khugepaged's rounds
AFTER = 0.05  # seconds for what comes after the commands' end
MOST_MEMORY = 64  # MiB of one look at contents
LEAST_NICE = -20  # setpriority(2); commands may have hundreds of threads, and records that are taken too late are lost


@contextmanager
def at_nice(value: int) -> Iterator[None]:
    """Runs this thread, and what it starts meanwhile, at a nice value, if it may."""
    former = os.getpriority(os.PRIO_PROCESS, 0)
    with suppress(PermissionError):
        os.setpriority(os.PRIO_PROCESS, 0, value)
    try:
        yield
    finally:
        os.setpriority(os.PRIO_PROCESS, 0, former)


def sizes_for(orders: Sequence[int]) -> tuple[int, int, int]:
    """Returns how many address spaces, blocks of 2 MiB, and places of pages of these orders there can be here: one of each task; twice what
    all memory has, for holes; as all memory has, but at most MOST_HOMES: map counts of pages that have none aren't compared."""
    pages = os.sysconf("SC_PHYS_PAGES")
    return int(read(TASKS)), 2 * (pages >> PMD_ORDER) + 1, max(1, min(MOST_HOMES, pages >> min(orders)))


class Track:
    """The BPF programs (linux/kernel/record.bpf.c) and the records of one queue of a control group, until `close`. `folios`: where
    those of the queue's NUMA node are; none: those of all nodes. `lacking` names what this kernel doesn't report."""

    def __init__(self, memory: KernelMemory, path: str, node: int | None, orders: Sequence[int], room: int, folder: str) -> None:
        self.store = Store(folder)
        self.folios: tuple[range, ...] = ()
        if node is not None and len(memory.numa_nodes()) > 1:
            self.folios = tuple(range(memory.folio(each.start), memory.folio(each.stop)) for each in numa_frames()[node])
        settings = Settings(
            memory.group(path), memory.first_page(), memory.scan_function(), memory.queue_lists(),
            sum(1 << order for order in orders), room, -1 if node is None else node, *sizes_for(orders),
        )
        self._library = load_library()
        self._recorder, self.lacking = open_programs("thp_record_open", ctypes.byref(settings))

    def counters(self) -> Counters:
        """Returns how many records were lost, runs were left out, and huge pages were allocated in inner groups."""
        found = Counters()
        self._library.thp_record_counters(self._recorder, ctypes.byref(found))
        return found

    def take(self, room: int) -> bool:
        """Moves the records since the last call to the store, which may grow by so many bytes. Returns whether there was room for all."""
        count = ctypes.c_long()
        failed = self._library.thp_record_take(self._recorder, self.store.descriptor, max(room, 0), ctypes.byref(count))
        if failed not in (0, -errno.EXFULL):
            raise RunFailed(f"the records can't be written to disk: {os.strerror(-failed)}")
        self.store.count += count.value
        return not failed

    def close(self) -> None:
        """Removes the programs and the ring."""
        self._library.thp_record_close(self._recorder)


def look_at_contents(memory: KernelMemory, path: str, orders: Sequence[int]) -> Iterator[bytes]:
    """Looks at what a control group's huge pages contain; yields a record of each: the subpages with data, the zero-filled ones."""
    began = time.monotonic_ns()
    with closing(Reader(memory, min(orders) < PMD_ORDER, 1, memory=MOST_MEMORY)) as reader:
        reader.read_processes([number for number in members(path) if number != os.getpid()])
        reader.read_all()
        SecondLook(reader).take()
        now = time.monotonic_ns()
        for frame, folio in reader.folios.items():
            if folio.order in orders:
                head = HEAD.pack(Kind.CONTENTS, now, 0, 0, memory.folio(frame), began, *[0] * 8, 2 * SET // 8, 0)
                yield head + (folio.known & ~folio.zero).to_bytes(SET, "little") + folio.zero.to_bytes(SET, "little")


@dataclass(frozen=True)
class Recording:
    """The records of each queue, and what else is known of them."""

    tracks: list[Track]
    doubts: dict[Reason, int]  # what makes the records incomplete
    statuses: list[str]  # how the commands ended
    ended: str  # why they were ended; "" where they ended by themselves
    lacking: list[str]  # what this kernel doesn't report
    threshold: int | None  # of zero-filled subpages; None: the switch was off


class Taker:
    """Takes the records of all queues, until they fill so many bytes on disk (`is_full`), and calls `look` so often for more."""

    def __init__(self, tracks: Sequence[Track], most: int, look: Callable[[], Iterable[bytes]], every: float | None) -> None:
        self._tracks, self._most, self._look = tracks, most, look
        self._every = math.inf if every is None else every
        self._due = time.monotonic() + self._every
        self._nice = os.getpriority(os.PRIO_PROCESS, 0)  # of looks
        self.is_full = False

    def take(self) -> None:
        """Takes what has come since the last call."""
        self._take_records()
        if time.monotonic() < self._due:
            return
        with at_nice(self._nice):
            found = [*self._look()]
        self._take_records()
        for track in self._tracks:
            for record in found if not self.is_full else ():
                track.store.add(record)
        self._due = time.monotonic() + self._every

    def _take_records(self) -> None:
        for track in self._tracks:
            room = self._most - sum(each.store.size for each in self._tracks)
            self.is_full = self.is_full or not track.take(room)


class Recorder:
    """Makes a control group, and records commands that run in it."""

    def __init__(self, options: Namespace, keeper: Keeper, memory: KernelMemory) -> None:
        self._options, self._memory = options, memory
        if options.collapse is not None or not options.command:
            keeper.set(COLLAPSE_SLEEP, QUIET if options.collapse is None else options.collapse)
        if options.underused != "as-is":
            if os.path.exists(SWITCH):
                keeper.set(SWITCH, int(options.underused != "off"))
            if options.underused != "off":
                keeper.set(PTES_NONE, options.underused)
            for order in options.order:
                if os.path.isdir(size_folder(order)):
                    keeper.set(f"{size_folder(order)}/enabled", options.enabled)
                elif order < PMD_ORDER:  # before Linux 6.8, PMD size has no settings of its own
                    raise Unavailable(f"this kernel has no pages of order {order}")
        self._groups = Groups(keeper, "thprecord")
        self._path = self._groups.add("recorded")

    def record(self, commands: list[list[str]]) -> Recording:
        """Records these commands until all have ended, or have to end."""
        options, nodes = self._options, self._memory.numa_nodes()
        threshold = int(read(PTES_NONE)) if os.path.exists(SWITCH) and read(SWITCH).strip() == "1" else None
        folder = os.path.dirname(os.path.abspath(options.records)) if options.records else FOLDER
        room = 1 << (RING // len(nodes)).bit_length() - 1
        with ExitStack() as stack:
            tracks = [stack.enter_context(closing(Track(self._memory, self._path, node, options.order, room, folder))) for node in nodes]
            look = partial(look_at_contents, self._memory, self._path, options.order)
            taker = Taker(tracks, options.disk, look, options.contents)
            running = Commands(self._path, taker.take)
            ended = self._run(running, commands, taker)
            recording = describe(tracks, running, taker.is_full, ended, threshold)
        return recording

    def _run(self, running: Commands, commands: list[list[str]], taker: Taker) -> str:
        """Runs the commands to their end; returns why they were ended."""
        with Interrupts() as interrupts:
            for command in commands:
                running.start(command, self._options.user)
            over = threading.Event()
            reclaimer = threading.Thread(target=self._reclaim, args=(over,))
            reclaimer.start()
            until, why = time.monotonic() + (self._options.seconds or math.inf), ""
            try:
                with at_nice(LEAST_NICE):
                    while not why and running.is_running():
                        time.sleep(PAUSE)
                        taker.take()
                        if interrupts.name:
                            why = f"by {interrupts.name}"
                        elif time.monotonic() >= until:
                            why = f"after {self._options.seconds:g} seconds"
                        elif taker.is_full:
                            why = "at the limit of --disk"
                if why:
                    running.end()
            finally:
                over.set()
                reclaimer.join()
            time.sleep(AFTER)
            taker.take()
        return why

    def _reclaim(self, over: threading.Event) -> None:
        """Reclaims again and again, beside the reader of records, which must not wait for it."""
        while self._options.every and not over.wait(self._options.every):
            self._groups.reclaim(self._path)


def describe(tracks: list[Track], running: Commands, is_full: bool, ended: str, threshold: int | None) -> Recording:
    """Returns a recording that has ended. Each queue's programs count all huge pages below its group."""
    counters = [track.counters() for track in tracks]
    refused = errno.errorcode.get(counters[0].refused)
    source = f"inferred; function tracing is refused: {refused}" if refused else "observed by function tracing"
    lacking = [f"joins and splits: {source}", *tracks[0].lacking]
    inner = max(each.inner_pages for each in counters)
    if inner:
        lacking.append(f"control groups were made in the recorded one: {inner} huge pages of their tasks aren't followed")
    doubts: dict[Reason, int] = {Doubt.DISK_FULL: is_full * sum(track.store.count for track in tracks)}
    for each in counters:
        found = {Doubt.LOST: each.lost, Count.LEFT_OUT: each.left_out, Count.UNOBSERVED: each.unobserved}
        doubts.update({reason: doubts.get(reason, 0) + many for reason, many in found.items()})
    return Recording(tracks, doubts, running.statuses(), ended, lacking, threshold)
