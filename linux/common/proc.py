"""What /proc and cgroupfs report of processes, read as bytes.

Names of processes, files and control groups are chosen by their users and may hold any byte. So each text is split at
line feeds alone, a line counts by its first characters, and a name is escaped before it is used."""

from __future__ import annotations

import ctypes
import errno
import os
import re
import struct
from contextlib import suppress
from typing import Iterable, Iterator

from .files import read_bytes
from .text import escape

ROOT = "/proc"  # tests put another folder here
CAPABILITIES = {"CAP_SYS_PTRACE": 19, "CAP_SYS_ADMIN": 21, "CAP_PERFMON": 38, "CAP_BPF": 39}
FLAGS, SIZE, FIELDS = 6, 20, 49  # places of fields of /proc/PID/stat after the name, and how many there are
FOLDER = os.O_RDONLY | os.O_DIRECTORY | os.O_NOFOLLOW | os.O_CLOEXEC
KERNFS_HANDLE = 0xFE  # include/linux/exportfs.h: FILEID_KERNFS

ENDED = (FileNotFoundError, ProcessLookupError)  # errors by which a process has ended


class Unreadable(Exception):
    """A text of /proc that doesn't have the kernel's form."""


def read_file(process: int, name: str) -> bytes:
    """Returns all bytes of a file of a process. OSError where it can't be read."""
    return read_bytes(f"{ROOT}/{process}/{name}")


def machine_huge() -> int:
    """Returns the kernel's own count of huge pages mapped by PMD entries on the whole machine, in bytes."""
    found = re.search(rb"^AnonHugePages: *([0-9]{1,15}) kB$", read_bytes(f"{ROOT}/meminfo"), re.MULTILINE)
    return int(found[1]) << 10 if found else 0


def name_of(process: int) -> str:
    """Returns the name of a process (comm), escaped."""
    try:
        name = read_file(process, "comm")
    except OSError as error:
        return "ended" if isinstance(error, ENDED) else "?"
    return escape(name[:-1] if name.endswith(b"\n") else name) or "?"


def reason_of(why: Exception) -> str:
    """Returns why something isn't read, in words. Raises an error that is the tool's own: it lacks descriptors or memory."""
    if isinstance(why, OSError) and why.errno in (errno.EMFILE, errno.ENFILE, errno.ENOMEM):
        raise why
    return getattr(why, "strerror", None) or str(why)


def describe(process: int, why: Exception) -> str:
    """Returns that a process isn't read, and why: see `reason_of`."""
    return f"process {process} ({name_of(process)}): {reason_of(why)}"


def stat_fields(process: int) -> list[bytes]:
    """Returns the fields of /proc/PID/stat after the name, the state first; none where the process has ended."""
    try:
        fields = read_file(process, "stat").rpartition(b")")[2].split()
    except ENDED:
        return []
    if len(fields) < FIELDS or not all(fields[place].isdigit() for place in (FLAGS, SIZE)):
        raise Unreadable("its stat doesn't have the kernel's form")
    return fields


def processes() -> list[int]:
    """Returns the numbers of all processes."""
    return [int(name) for name in os.listdir(ROOT) if re.fullmatch("[1-9][0-9]{0,9}", name)]


def missing_capabilities(*names: str) -> list[str]:
    """Returns those of some capabilities that this process doesn't have in effect."""
    found = re.search(rb"^CapEff:\t([0-9a-f]{1,16})$", read_bytes("/proc/self/status"), re.MULTILINE)
    held = int(found[1], 16) if found else 0
    return [name for name in names if not held >> CAPABILITIES[name] & 1]


def folders_below(path: str) -> Iterator[int]:
    """Yields a descriptor of a folder, and of each below it, however deep, that hasn't ended. OSError where one can't be read."""
    try:
        here = os.open(path, FOLDER)
    except FileNotFoundError:
        return
    try:
        todo = [list_folders(here)]
        yield here
        while todo[-1] or len(todo) > 1:
            name = todo[-1].pop() if todo[-1] else ".."
            try:
                found = os.open(name, FOLDER, dir_fd=here)
            except FileNotFoundError:
                if name == "..":
                    raise
                continue
            os.close(here)
            here = found
            if name == "..":
                todo.pop()
            else:
                todo.append(list_folders(here))
                yield here
    finally:
        os.close(here)


def list_folders(folder: int) -> list[str]:
    """Returns the names of the folders in an open folder; none where it ended."""
    try:
        with os.scandir(folder) as found:
            return sorted((entry.name for entry in found if entry.is_dir(follow_symlinks=False)), reverse=True)
    except FileNotFoundError:
        return []


def members(path: str) -> list[int]:
    """Returns the processes of a control group and of those below it that this namespace has. OSError where one can't be read."""
    out: set[int] = set()
    for folder in folders_below(path):
        try:
            with open(os.open("cgroup.procs", os.O_RDONLY | os.O_CLOEXEC, dir_fd=folder), "rb", 0) as file:
                out.update(int(line) for line in file.read().split(b"\n") if re.fullmatch(rb"[0-9]{1,10}", line))
        except OSError as error:  # a group that ended, or is threaded: its processes are in the list of the group above
            if error.errno not in (errno.ENOENT, errno.ENODEV, errno.EOPNOTSUPP):
                raise
    return sorted(out - {0})


def group_names(mount: str, wanted: Iterable[int]) -> dict[int, str]:
    """Returns the names, escaped, of control groups below a mount by their inodes, by which the kernel opens folders of cgroupfs
    (CAP_DAC_READ_SEARCH). Groups that ended, or can't be opened so, have no name."""
    library, out = ctypes.CDLL(None), {}
    top = os.open(mount, FOLDER)
    try:
        base = os.readlink(b"/proc/self/fd/%d" % top)
        for inode in wanted:
            folder = library.open_by_handle_at(top, struct.pack("=IiQ", 8, KERNFS_HANDLE, inode), os.O_PATH | os.O_CLOEXEC)
            if folder >= 0:
                with suppress(OSError):  # its path is too long
                    out[inode] = escape(os.readlink(b"/proc/self/fd/%d" % folder)[len(base) + 1 :]) or "/"
                os.close(folder)
    finally:
        os.close(top)
    return out
