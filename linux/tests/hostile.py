"""Hostile programs beside tools, and calls of thpwhatif; for root tests."""

from __future__ import annotations

import os
import shutil
import stat
import subprocess
import tempfile
import unittest
from contextlib import contextmanager
from pathlib import Path
from typing import Any, Iterator, Sequence

from .cases import ROOT, WHATIF, Call, RootCase

SOURCES = ("hostile_pages.c", "attacks/fuse_holder.c", "attacks/forge.c")
SECONDS = 60  # that a call gets, and that a program stays
USER = 64123  # another user, who need not exist


def whatif(words: Sequence[str], before: Sequence[str] = ()) -> Call:
    """Runs thpwhatif; `before`: words that start it."""
    return Call([*before, WHATIF, *words], SECONDS)


class Pages:
    """The compiled programs, in a folder that goes away."""

    def __init__(self, folder: str) -> None:
        self.folder = folder
        compiler = shutil.which(os.environ.get("CC", "cc")) or shutil.which("gcc")
        if not compiler:
            raise unittest.SkipTest("no C compiler")
        for source in SOURCES:
            words = ["-std=c11", "-O2", "-Wall", "-Wextra", "-Werror", "-lpthread", "-o", f"{folder}/{Path(source).stem}"]
            subprocess.run([compiler, *words, str(ROOT / "linux/tests" / source)], check=True)
        os.chmod(folder, 0o755)
        os.mkdir(f"{folder}/open", 0o777)
        os.chmod(f"{folder}/open", 0o777)

    def run(self, *words: bytes | str | int, user: int = 0, group: bytes = b"", seconds: int = SECONDS) -> Any:
        """Runs a program of hostile_pages.c until the end of a `with`; gives its process number once it is ready."""
        enter = (lambda: Path(os.fsdecode(group), "cgroup.procs").write_text(str(os.getpid()))) if group else None
        given = [word if isinstance(word, bytes) else str(word).encode("ascii") for word in words]
        return self.start([f"{self.folder}/hostile_pages", *given, str(seconds)], user, preexec_fn=enter)

    def hold_locks(self, count: int, user: int = USER) -> Any:
        """Runs fuse_holder.c until the end of a `with`: so many processes of a user hold their mmap_lock, and reads of the file of its
        file system don't end."""
        device, mount = f"{self.folder}/fuse", f"{self.folder}/mount"
        if not os.path.exists(device):
            os.mkdir(mount)
            os.chown(mount, user, user)
            os.mknod(device, stat.S_IFCHR | 0o666, os.makedev(10, 229))  # as /dev/fuse is on Debian
            os.chmod(device, 0o666)
        return self.start([f"{self.folder}/fuse_holder", device, mount, str(count)], user)

    @contextmanager
    def start(self, command: Sequence[str | bytes], user: int = 0, **more: Any) -> Iterator[int]:
        """Runs a program until the end of the `with`; gives its process number once it has printed `ready`."""
        if user:
            more.update(user=user, group=user, extra_groups=[])
        with subprocess.Popen(command, stdout=subprocess.PIPE, cwd=f"{self.folder}/open", **more) as child:
            try:
                assert child.stdout
                if child.stdout.readline() != b"ready\n":
                    raise unittest.SkipTest("a program isn't ready (huge pages, user namespaces with FUSE, the limit of locked memory)")
                yield child.pid
            finally:
                child.kill()


class HostileCase(RootCase):
    """Tools beside hostile programs."""

    pages: Pages

    @classmethod
    def setUpClass(cls) -> None:
        folder = tempfile.TemporaryDirectory(prefix="leversorrel-")
        cls.addClassCleanup(folder.cleanup)
        cls.pages = Pages(folder.name)
