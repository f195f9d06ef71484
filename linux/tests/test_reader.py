"""Readings of memory of our own: what is zero-filled, what can't be read, what changed. Workers that wait or die."""

from __future__ import annotations

import ctypes
import mmap
import os
import signal
import subprocess
import sys
import unittest
from array import array
from collections import Counter, deque
from typing import Any
from unittest import mock

from ..common import proc, spaces
from ..common.errors import Unavailable
from ..common.files import BASE
from ..common.folios import Folio
from ..common.kernel_memory import KernelMemory
from ..common.reader import Reader, Spans
from ..common.second_look import SecondLook
from ..common.workers import WALK, Answer, Request, Workers
from .cases import descendants, wait_until

HUGE = 1 << 21


def kernel() -> KernelMemory:
    """What reads kernel memory; a test that needs it is skipped where that isn't possible."""
    try:
        return KernelMemory()
    except Unavailable as lacking:
        raise unittest.SkipTest(str(lacking)) from lacking


@unittest.skipUnless(os.geteuid() == 0, "not root")
class ChangesTest(unittest.TestCase):
    def setUp(self) -> None:
        self.memory = mmap.mmap(-1, 5 * HUGE, flags=mmap.MAP_PRIVATE | mmap.MAP_ANONYMOUS)
        at = ctypes.addressof(ctypes.c_char.from_buffer(self.memory))
        self.first = -at % HUGE
        self.memory.madvise(14)  # MADV_HUGEPAGE
        self.memory.madvise(10)  # MADV_DONTFORK: workers map none of it
        for number in range(4):
            self.memory[self.first + number * HUGE] = 1
        self.reader = Reader(kernel(), threads=1)
        self.addCleanup(self.reader.close)
        self.reader.read_processes([os.getpid()])
        self.reader.read_all()
        places = {mapping.address: folio for folio in self.reader.folios.values() for mapping in folio.mappings}
        self.own = [places.get(at + self.first + number * HUGE) for number in range(4)]
        if None in self.own:
            self.skipTest("there are no huge pages here")

    def changes(self) -> dict[int, Folio | None]:
        """The second readings of the pages that changed, by their place in the memory."""
        pairs = SecondLook(self.reader).take().pairs
        return {self.own.index(before): now for before, now in pairs if before in self.own}

    def test_nothing_changed(self) -> None:
        self.assertEqual(self.changes(), {})

    def test_pages_that_are_dropped_written_or_freed(self) -> None:
        self.memory[self.first + HUGE + 7 * BASE] = 1
        self.memory.madvise(mmap.MADV_DONTNEED, self.first + 2 * HUGE + 5 * BASE, 2 * BASE)
        self.memory.madvise(mmap.MADV_DONTNEED, self.first + 3 * HUGE, HUGE)
        found = self.changes()
        self.assertEqual(sorted(found), [1, 2, 3])
        written, dropped = found[1], found[2]
        assert written and dropped
        self.assertEqual((written.zero >> 7 & 1, written.totals[7]), (0, 1))
        self.assertEqual(([dropped.totals[i] for i in (4, 5, 6, 7)], dropped.mappings[0].subset >> 4 & 15), ([1, 0, 0, 1], 0b1001))
        self.assertIsNone(found[3])
        self.assertNotIn(self.own[3], self.reader.folios.values())
        self.assertFalse(self.reader.unread or self.reader.left_out)


@unittest.skipUnless(os.geteuid() == 0, "not root")
class WaitingTest(unittest.TestCase):
    def setUp(self) -> None:
        flags = os.open("/proc/kpageflags", os.O_RDONLY | os.O_CLOEXEC)
        self.addCleanup(os.close, flags)
        self.workers = Workers(flags, kernel().tables(), 2, 1000)
        self.addCleanup(self.workers.close)

    def answered(self, count: int) -> Counter[bool]:
        """How many of some requests are answered, and how many aren't."""
        todo = deque(Request(os.getpid(), WALK, thread=os.getpid()) for _ in range(count))
        return Counter(answer is not None for _, answer in self.workers.ask(todo))

    def test_workers_that_are_stopped_or_killed_are_replaced(self) -> None:
        self.assertEqual(self.answered(5), {True: 5})
        for sent in (signal.SIGSTOP, signal.SIGKILL):
            workers = descendants(os.getpid())
            for process in workers:
                signal.pidfd_send_signal(os.pidfd_open(process), sent)
            found = self.answered(6)
            self.assertEqual((found[False] <= len(workers), found[False] + found[True]), (True, 6))
            self.assertEqual(self.answered(3), {True: 3})
        self.workers.close()
        self.assertTrue(wait_until(lambda: not descendants(os.getpid()), 30))

    def test_workers_end_with_the_tool(self) -> None:
        code = "import os,time; from linux.common.kernel_memory import KernelMemory; from linux.common.reader import Reader;" \
               "r=Reader(KernelMemory(), threads=2); r.read_processes([os.getpid()]); print(flush=True); time.sleep(60)"
        with subprocess.Popen([sys.executable, "-c", code], stdout=subprocess.PIPE) as tool:
            assert tool.stdout
            tool.stdout.readline()
            found = descendants(tool.pid)
            tool.kill()
        gone = wait_until(lambda: not any(os.path.exists(f"/proc/{each}") for each in found), 30)
        self.assertTrue(found and gone)


class SpacesTest(unittest.TestCase):
    def test_a_page_whose_first_subpages_are_not_mapped_may_begin_below_all_addresses(self) -> None:
        spans = Spans(array("Q", [16 * BASE, 18 * BASE]).tobytes())
        self.assertEqual(spans.subpages((16 - 300) * BASE % (1 << 64), 512), 3 << 300)

    def test_an_error_is_never_no_memory(self) -> None:
        for error in (FileNotFoundError(2, "gone"), ProcessLookupError(3, "gone")):
            with mock.patch.object(proc, "read_file", side_effect=error):
                self.assertIsNone(spaces.live_thread(7))
        unread: Counter[str] = Counter()
        pool: Any = mock.Mock(ask=lambda todo: iter(()))
        with mock.patch.object(proc, "read_file", side_effect=PermissionError(13, "Permission denied")):
            self.assertEqual(spaces.find_spaces([7], pool, unread), [])
        self.assertEqual(list(unread), ["process 7 (?): Permission denied"])
        with mock.patch.object(proc, "read_file", side_effect=OSError(24, "Too many open files")):
            self.assertRaises(OSError, spaces.find_spaces, [7], pool, unread)

    def test_processes_that_may_share_an_address_space_are_walked_each_where_it_is_not_known(self) -> None:
        fields = [b"S", *[b"1"] * 48]
        for data, wanted in (((5, 5, 0, 0), [7, 9, 10]), ((), [7, 8, 9, 10])):
            pool: Any = mock.Mock(ask=lambda todo: ((request, Answer(4, data=array("Q", data).tobytes())) for request in todo))
            with mock.patch.object(spaces, "stat_fields", return_value=fields):
                found = spaces.find_spaces([7, 8, 9, 10], pool, Counter())
            self.assertEqual([space.process for space in found], wanted)
