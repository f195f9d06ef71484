"""Files: small ones of sysfs, procfs and cgroupfs, a tool's inputs and outputs, and the folders of transparent huge pages."""

from __future__ import annotations

import os
import stat
import sys
from collections.abc import Iterator
from contextlib import ExitStack, contextmanager, suppress
from pathlib import Path
from typing import BinaryIO, TextIO, Union

from .errors import InputFault
from .guardian import selected_word as selected_word, write as write  # noqa: F401
from .text import escape

PathText = Union[str, Path]

BASE = os.sysconf("SC_PAGE_SIZE")  # bytes of a base page
PMD_ORDER = 9  # x86-64: a PMD entry maps 2 ** 9 base pages
THP = "/sys/kernel/mm/transparent_hugepage"
SWITCH = f"{THP}/shrink_underused"  # split underused pages at all: 0 or 1 (mm/huge_memory.c: split_underused_thp)
PTES_NONE = f"{THP}/khugepaged/max_ptes_none"  # the threshold of zero-filled subpages
COLLAPSE_SLEEP = f"{THP}/khugepaged/scan_sleep_millisecs"
MOST_INPUT = 64 << 20  # bytes of an input file

_NEW = os.O_WRONLY | os.O_CREAT | os.O_EXCL | os.O_NOFOLLOW | os.O_CLOEXEC


def read_bytes(path: PathText) -> bytes:
    """Returns all bytes of a file of the kernel."""
    with open(path, "rb", 0) as file:
        return file.read()


def read(path: PathText) -> str:
    """Returns the text of a file of the kernel; bytes that are no UTF-8 are kept (PEP 383), no line end is translated."""
    return read_bytes(path).decode("utf-8", "surrogateescape")


@contextmanager
def named_faults(path: PathText, what: str) -> Iterator[None]:
    """Has an error of the kernel, or a text that is no path, be an InputFault: `PATH WHAT: the reason`."""
    try:
        yield
    except FileExistsError as error:
        raise InputFault(f"{escape(str(path))} exists already") from error
    except (OSError, ValueError) as error:
        raise InputFault(f"{escape(str(path))} {what}: {getattr(error, 'strerror', None) or error}") from error


def open_input(path: PathText) -> BinaryIO:
    """Opens a regular file that a user named, or standard input (`-`). InputFault where it can't be read, or is none."""
    if str(path) == "-":
        return sys.stdin.buffer
    with named_faults(path, "can't be read"):
        descriptor = os.open(path, os.O_RDONLY | os.O_NONBLOCK | os.O_NOCTTY | os.O_CLOEXEC)
    if not stat.S_ISREG(os.fstat(descriptor).st_mode):
        os.close(descriptor)
        raise InputFault(f"{escape(str(path))} is no regular file")
    return open(descriptor, "rb")


def read_input(path: PathText, most: int = MOST_INPUT) -> bytes:
    """Returns all bytes of such a file. InputFault where it can't be read, is none, or has more than `most` bytes."""
    with named_faults(path, "can't be read"), open_input(path) as file:
        data = file.read(most + 1)
    if len(data) > most:
        raise InputFault(f"{escape(str(path))} has more than {most >> 20} MiB")
    return data


class NewFile:
    """A new file, readable by its owner alone. Its folder stays open, so that the file can be removed wherever its path leads by
    then. InputFault where a file, link or anything else of this name exists, or none can be made."""

    def __init__(self, path: PathText) -> None:
        folder, self._name = os.path.split(str(path))
        with named_faults(path, "can't be made"):
            self._folder = os.open(folder or ".", os.O_PATH | os.O_DIRECTORY | os.O_CLOEXEC)
            self.file = create(self._name, self._folder)

    def remove(self) -> None:
        """Removes the file, unless something else has its name."""
        own = os.fstat(self.file.fileno())
        with suppress(FileNotFoundError):
            found = os.stat(self._name, dir_fd=self._folder, follow_symlinks=False)
            if (own.st_dev, own.st_ino) == (found.st_dev, found.st_ino):
                os.unlink(self._name, dir_fd=self._folder)

    def close(self) -> None:
        """Closes the file and its folder."""
        os.close(self._folder)
        self.file.close()


def create(name: str, folder: int) -> TextIO:
    """Makes a new file, readable by its owner alone, in an open folder, and opens it."""
    return open(os.open(name, _NEW, 0o600, dir_fd=folder), "w", encoding="utf-8", newline="\n")


class OwnFolder:
    """A folder for a tool's outputs, which is made with mode 0700 where it is missing. InputFault where it isn't the caller's
    own, or others may write into it."""

    def __init__(self, path: PathText) -> None:
        with named_faults(path, "can't be used as a folder"):
            with suppress(FileExistsError):
                os.mkdir(path, 0o700)
            self._descriptor = os.open(path, os.O_RDONLY | os.O_DIRECTORY | os.O_NOFOLLOW | os.O_CLOEXEC)
        found = os.fstat(self._descriptor)
        if found.st_uid != os.geteuid() or found.st_mode & 0o022:
            self.close()
            raise InputFault(f"{escape(str(path))} isn't the caller's own folder, or others may write into it")

    def create(self, name: str) -> TextIO:
        """Makes a file of this name, or replaces it. InputFault where that isn't possible, or the name has a `/`."""
        if "/" in name or name in ("", ".", ".."):
            raise InputFault(f"{escape(name)} is no name of a file")
        with named_faults(name, "can't be replaced"), suppress(FileNotFoundError):
            os.unlink(name, dir_fd=self._descriptor)
        with named_faults(name, "can't be made"):
            return create(name, self._descriptor)

    def close(self) -> None:
        """Closes the folder."""
        os.close(self._descriptor)


def open_roots_folder(path: PathText, owner: int = 0) -> int:
    """Opens a folder that is root's (`owner`), into which nobody else may write, and returns its descriptor. No symbolic
    link is followed on the way, so that nobody redirects the path. InputFault where the folder isn't so."""
    with named_faults(path, "can't be used as a folder"):
        descriptor = os.open(path, os.O_PATH | os.O_DIRECTORY | os.O_CLOEXEC)
    found = os.fstat(descriptor)
    is_direct = os.readlink(f"/proc/self/fd/{descriptor}") == os.path.abspath(path)
    if is_direct and found.st_uid == owner and not found.st_mode & 0o022:
        return descriptor
    os.close(descriptor)
    problem = "isn't root's folder, or others may write into it" if is_direct else "can't be used: a symbolic link is on its way"
    raise InputFault(f"{escape(str(path))} {problem}")


def replace_file(folder: int, name: str, text: str) -> None:
    """Replaces a file of this name in an open folder by a text, with mode 0644. The new file has no name before it is whole, so
    nothing is left of a writer that is killed. OSError where that isn't possible."""
    new = os.open(".", os.O_TMPFILE | os.O_WRONLY | os.O_CLOEXEC, 0o600, dir_fd=folder)
    with open(new, "w", encoding="ascii", newline="\n") as file, ExitStack() as undone:
        file.write(text)
        file.flush()
        os.fchmod(new, 0o644)
        whole = f".{name}.{os.getpid()}"
        with suppress(FileNotFoundError):
            os.unlink(whole, dir_fd=folder)
        os.link(f"/proc/self/fd/{new}", whole, dst_dir_fd=folder)
        undone.callback(os.unlink, whole, dir_fd=folder)
        os.replace(whole, name, src_dir_fd=folder, dst_dir_fd=folder)
        undone.pop_all()


def size_folder(order: int) -> str:
    """Returns the sysfs folder of the pages of an order (2 ** order base pages)."""
    return f"{THP}/hugepages-{(BASE >> 10) << order}kB"
