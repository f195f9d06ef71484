"""Memory control groups of a tool's own, of version 1 or 2.

Rules: Documentation/admin-guide/cgroup-v1/memory.rst, freezer-subsystem.rst and cgroup-v2.rst of the kernel. Groups are made
below the tool's own group (version 1) or below the root (version 2), and go away at the tool's end (keeper.py)."""

from __future__ import annotations

import os
import re
import time
from collections.abc import Iterator
from contextlib import contextmanager, suppress
from dataclasses import dataclass

from .errors import InputFault, Unavailable
from .files import BASE, read, write
from .guardian import empty_groups, hierarchies, remove_group
from .keeper import Keeper
from .text import escape, text_lines

FREEZE_TIME = 2.0  # seconds that a group gets to freeze
END_TIME = 2.0  # seconds that killed processes get to end


@dataclass(frozen=True)
class Hierarchy:
    """Where memory control groups are: the version of their interface, the mount, the group to make ours below."""

    version: int
    mount: str
    top: str


def find_hierarchy(mounts: str | None = None, own: str | None = None, controller: str = "memory") -> Hierarchy:
    """Returns a controller's hierarchy by /proc/mounts and /proc/self/cgroup. Each group of version 2 has a freezer."""
    own = read("/proc/self/cgroup") if own is None else own
    found = hierarchies(mounts)
    for folder, kind, options in found:
        if kind == "cgroup" and controller in options.split(","):
            place = re.search(rf"^\d+:(?:[^:]*,)?{controller}(?:,[^:]*)?:(.*)$", own, re.MULTILINE)
            top = folder + (place[1] if place else "")
            return Hierarchy(1, folder, (top if os.path.isdir(top) else folder).rstrip("/"))
    for folder in [folder for folder, kind, _ in found if kind == "cgroup2"]:
        path = f"{folder}/cgroup.controllers"
        if controller == "freezer" or (os.path.exists(path) and controller in read(path).split()):
            return Hierarchy(2, folder, folder.rstrip("/"))
        raise Unavailable(f"no {controller} control groups: {folder} has no {controller} controller")
    raise Unavailable(f"no {controller} control groups: no hierarchy is mounted")


def checked_group(path: str) -> str:
    """Returns the real path of a control group's folder. InputFault where it isn't one: its files could be anybody's."""
    real = os.path.realpath(path) if "\0" not in path else ""
    for folder, _, _ in hierarchies():
        try:
            is_inside = real == folder or real.startswith(folder.rstrip("/") + "/")
            if is_inside and os.stat(real).st_dev == os.stat(folder).st_dev and os.path.isdir(real):
                return real
        except OSError:
            continue
    raise InputFault(f"{escape(path)} is no control group")


@dataclass
class Freeze:
    """How processes of ours are held still. `problem`: why they weren't for the whole time, or nothing."""

    problem: str = ""


def is_frozen(group: str) -> bool:
    """Returns whether all tasks of a control group are frozen."""
    for name, word in (("freezer.state", "FROZEN"), ("cgroup.events", "frozen 1")):  # of version 1, and 2
        with suppress(OSError):
            if word in text_lines(read(f"{group}/{name}")):
                return True
    return False


class Groups:
    """A group of the tool's own, and groups below it."""

    def __init__(self, keeper: Keeper, name: str) -> None:
        self.hierarchy = find_hierarchy()
        self.version = self.hierarchy.version
        self._keeper, self._name = keeper, f"{name}-{os.getpid()}-{os.urandom(4).hex()}"
        self._freezers: dict[str, str] = {}  # by group: the group that freezes its processes
        self._inodes: dict[str, int] = {}
        control = f"{self.hierarchy.top}/cgroup.subtree_control"
        if self.version == 2 and "memory" not in read(control).split():
            keeper.set(control, "+memory", undo="-memory")
        self.path = f"{self.hierarchy.top}/{self._name}"
        self._make(self.path)
        if self.version == 2:
            write(f"{self.path}/cgroup.subtree_control", "+memory")

    def _make(self, path: str) -> None:
        self._inodes[path] = self._keeper.make_group(path)

    def add(self, name: str, is_freezable: bool = False) -> str:
        """Returns the path of a new group below ours, which swaps nothing out. `is_freezable`: `freeze` may hold it."""
        path = f"{self.path}/{name}"
        self._make(path)
        if self.version == 1:
            write(f"{path}/memory.swappiness", 0)
        elif os.path.exists(f"{path}/memory.swap.max"):
            write(f"{path}/memory.swap.max", 0)
        if is_freezable:
            self._freezers[path] = path
            if self.version == 1:
                with suppress(Unavailable):
                    self._freezers[path] = f"{find_hierarchy(controller='freezer').top}/{self._name}-{name}"
                    self._make(self._freezers[path])
        return path

    def enter(self, path: str, process: int) -> None:
        """Moves a process into a group."""
        for group in dict.fromkeys((path, self._freezers.get(path, path))):
            write(f"{group}/cgroup.procs", process)

    @contextmanager
    def freeze(self, path: str) -> Iterator[Freeze]:
        """Holds the processes of a group still until the end of the `with`."""
        group, out, until = self._freezers[path], Freeze(), time.monotonic() + FREEZE_TIME
        is_old = os.path.exists(f"{group}/freezer.state")  # version 1
        file, frozen, thawed = ("freezer.state", "FROZEN", "THAWED") if is_old else ("cgroup.freeze", "1", "0")
        try:
            try:
                write(f"{group}/{file}", frozen)
            except OSError as error:
                out.problem = f"there is no freezer ({error.strerror})"
            while not out.problem and not is_frozen(group):
                time.sleep(0.002)
                if time.monotonic() > until:
                    out.problem = f"the processes didn't freeze within {FREEZE_TIME:g} s"
            yield out
            if not out.problem and not is_frozen(group):
                out.problem = "somebody else thawed the processes"
        finally:
            with suppress(OSError):
                write(f"{group}/{file}", thawed)

    def kill(self, path: str) -> bool:
        """Kills the processes of a group and of those in it, and waits a while for their end; returns whether they have ended."""
        return empty_groups({path: self._inodes[path]}, time.monotonic() + END_TIME)

    def remove(self, path: str) -> None:
        """Removes an empty group. What can't be removed yet goes at the tool's end."""
        for group in dict.fromkeys((path, self._freezers.pop(path, path))):
            remove_group(group, time.monotonic() + END_TIME)

    def reclaim(self, path: str) -> None:
        """Has the kernel reclaim in a group, so that the shrinkers run over its lists.

        Version 1: a limit below the usage is asked for; the kernel makes one sweep down to the last priority and
        refuses (mm/memcontrol-v1.c: mem_cgroup_resize_max). Version 2: memory.reclaim, up to 16 sweeps."""
        with suppress(OSError):  # less could be reclaimed than was asked for: the sweep took place
            if self.version == 1:
                write(f"{path}/memory.limit_in_bytes", BASE)
                write(f"{path}/memory.limit_in_bytes", -1)
            else:
                write(f"{path}/memory.reclaim", "1G")
