"""Processes and control groups that hide from a look of thpwhatif, hold it up, or change under it (root).

Looks are taken in this process, as `thpwhatif now` takes them, beside the programs of hostile_pages.c and attacks/fuse_holder.c."""

from __future__ import annotations

import ctypes
import mmap
import os
import subprocess
import time
from contextlib import ExitStack, contextmanager
from pathlib import Path
from typing import Iterator

from ..common.errors import DONE, INCONCLUSIVE
from ..common.files import BASE, PMD_ORDER
from ..common.folios import full_set
from ..common.groups import find_hierarchy
from ..common.page_files import frames_at
from ..whatif.look import ProcessChoice, Snapshot, SnapshotTaker, names_of_groups
from .cases import wait_until
from .hostile import SECONDS, USER, HostileCase, whatif

HOLDERS = 70  # processes that hold their mmap_lock: more than may wait side by side
SHARERS, SHARED = 40, 64  # processes, MiB
GROUPS, NAMES = 3000, 100  # control groups, readings of a name
CHURN_TIME = 6
CHURN = """
import os, sys
while True:
    for do in (os.mkdir, os.rmdir):
        for i in range(40):
            do(f"{sys.argv[1]}/churn{i}")
"""


def look(*processes: int, everything: bool = False) -> Snapshot:
    """Looks once."""
    return SnapshotTaker().take(ProcessChoice(list(processes), [], everything))


@contextmanager
def own_group(name: str) -> Iterator[str]:
    """A control group of another user, which is removed at the end with all below it, once their processes have ended."""
    path = f"{find_hierarchy().top}/leversorrel-{name}-{os.getpid()}"
    os.mkdir(path)
    try:
        os.chown(path, USER, USER)
        yield path
    finally:
        words = ["find", path, "-depth", "-type", "d", "-execdir", "rmdir", "{}", ";"]
        wait_until(lambda: subprocess.run(words, stderr=subprocess.DEVNULL, check=False) and not os.path.exists(path), SECONDS)


class Looks(HostileCase):
    """Each test looks beside processes or groups of its own."""

    def test_hang(self) -> None:
        """Processes of a user that hold their mmap_lock don't hold up a look: those whose locked areas can't be read are named as
        unread, and the pages of all others are seen."""
        with self.pages.hold_locks(HOLDERS) as holder, self.pages.run("plain", 16) as other:
            began = time.monotonic()
            seen = look(everything=True)
            lasted = time.monotonic() - began
            named = [int(why.split()[1]) for why in seen.unread if "(fuse_holder): it can't be read in time" in why]
            self.assertEqual(len(named), HOLDERS // 2)
            self.check(whatif(["now", "--pid", str(named[0]), "--pid", str(other)]), INCONCLUSIVE)
            self.assertFalse(look(holder).unread)
        owners = {mapping.process for folio in seen.folios for mapping in folio.mappings}
        self.assertIn(other, owners)
        self.assertGreaterEqual(sum(seen.processes[number] == "fuse_holder" for number in owners), HOLDERS // 4)
        self.assertLess(lasted, SECONDS / 2)

    def test_nothing_changes(self) -> None:
        """Frames, mappings, map counts, contents and queues of pages that forks share are the same after a look."""
        with self.pages.run("forks", 32, 2) as number:
            before = look(number)
            self.check(whatif(["now", "--pid", str(number)]), DONE)
            self.assertEqual(look(number).folios, before.folios)
        self.assertGreaterEqual(len(before.folios), 16)

    def test_gone(self) -> None:
        """The memory of a process whose first thread has ended is seen."""
        with self.pages.run("gone", 16) as number:
            seen = look(number)
        self.assertGreaterEqual(len(seen.folios), 8)
        self.assertFalse(seen.unread)

    def test_shared(self) -> None:
        """An address space that many processes share is counted once, and belongs to the first of them that is selected."""
        with self.pages.run("shared", SHARED, SHARERS) as number:
            sharers = sorted(map(int, Path(f"/proc/{number}/task/{number}/children").read_text().split()))
            both, one = look(number, *sharers), look(*sharers[1:3])
        for seen in (both, one):
            self.assertTrue(SHARED << 20 <= seen.others * BASE < SHARED << 21, seen.others)
        self.assertEqual((both.looked_at, len(sharers)), (1 + SHARERS, SHARERS))

    def test_part(self) -> None:
        """Content that only a process outside the look maps is read, too."""
        with self.pages.run("part", 16) as number:
            seen = look(number)
        self.assertEqual({bin(folio.zeros).count("1") for folio in seen.folios}, {384})
        self.assertGreaterEqual(len(seen.folios), 8)

    def test_moving(self) -> None:
        """Pages that change all the time are read twice: what differs is reported, and the second reading counts."""
        with self.pages.run("moving", 64) as number:
            seen = next((each for each in (look(number) for _ in range(5)) if each.changed_pages), None)
        assert seen and seen.folios
        folios = {folio.frame: folio for folio in seen.folios}
        for before, now in seen.changed_pages:
            self.assertNotEqual(before, now)
            self.assertTrue(now is None or folios.get(now.frame) is now)
        for folio in seen.folios:
            mapped = sum(1 << place for place, total in enumerate(folio.totals) if total)
            self.assertFalse(any(mapping.subset & ~mapped for mapping in folio.mappings), "mapped where it isn't counted as mapped")

    def test_churn(self) -> None:
        """Control groups that are made and removed all the time don't end a look."""
        with own_group("churn") as group, self.pages.run("plain", 4) as number, ExitStack() as stack:
            for place in ("a", "b", "c"):
                os.mkdir(f"{group}/{place}")
                os.chown(f"{group}/{place}", USER, USER)
                child = subprocess.Popen(["/usr/bin/python3", "-c", CHURN, f"{group}/{place}"], user=USER, group=USER, extra_groups=[])
                stack.callback(child.wait)
                stack.callback(child.kill)
            taker, until = SnapshotTaker(), time.monotonic() + CHURN_TIME
            while time.monotonic() < until:
                seen = taker.take(ProcessChoice([number], [group]))
                self.assertGreaterEqual(len(seen.folios), 2)
                self.assertFalse(seen.unread or seen.lacking)

    def test_many_groups(self) -> None:
        """Thousands of control groups make the names of a few no slower: none but these is looked up."""
        with own_group("many") as group, self.pages.run("plain", 4, group=os.fsencode(group)) as number:
            for each in range(GROUPS):
                os.mkdir(f"{group}/{each}")
            wanted = {os.stat(f"{group}/{each}").st_ino for each in range(NAMES)}
            began = time.monotonic()
            names, middle = names_of_groups(wanted), time.monotonic()
            for folder, _, _ in os.walk(find_hierarchy().mount):
                os.stat(folder)
            ended, seen = time.monotonic(), look(number)
        self.assertEqual(len(names), NAMES)
        self.assertTrue(any(name.endswith(os.path.basename(group)) for name in seen.names.values()))
        self.assertLess(middle - began, (ended - middle) / 2)

    def test_content(self) -> None:
        """The zero-filled subpages of a huge page of our own, which has a byte of data at the edges of words and vectors."""
        size = 1 << PMD_ORDER
        room = mmap.mmap(-1, 2 * size * BASE, flags=mmap.MAP_PRIVATE | mmap.MAP_ANONYMOUS)
        room.madvise(mmap.MADV_HUGEPAGE)
        begin = ctypes.addressof(ctypes.c_char.from_buffer(room))
        first = -begin % (size * BASE)
        places = [0, 1, 63, 64, 65, 447, 511, 512, 2047, 2048, 2111, 2112, 4031, 4032, BASE - 1]
        for number, place in enumerate(places):
            room[first + 33 * number * BASE + place] = 1
        head = frames_at(os.getpid(), begin + first, 1)[0]
        found = [folio for folio in look(os.getpid()).folios if folio.frame == head]
        if not found:
            self.skipTest("the kernel gave no huge page: memory is in pieces")
        self.assertEqual(found[0].known, full_set(PMD_ORDER))
        self.assertEqual(found[0].zero, full_set(PMD_ORDER) & ~sum(1 << 33 * number for number in range(len(places))))
