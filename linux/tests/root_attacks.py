"""Attacks on the tools that run as root, by another user and by what surrounds them (root).

Programs that are traced and killed, files that another user has prepared, folders that pretend to be control groups, namespaces,
environments, closed and full streams, limits, packages that unpack to gigabytes, and signals at random moments. THPSPLIT and THPCHECK
name the proved programs, by default the plain ones of this folder."""

from __future__ import annotations

import gzip
import io
import itertools
import os
import random
import resource
import shutil
import signal
import stat
import subprocess
import tarfile
import tempfile
import time
import unittest
from collections.abc import Callable, Iterator
from contextlib import contextmanager, suppress
from functools import partial
from pathlib import Path
from typing import Any

from ..common.errors import DIFFERS, DONE, FAILED, INCONCLUSIVE, SKIPPED, USAGE
from .hostile import HostileCase
from .qemu_stand_in import stand_in_for_qemu
from .cases import (HANGS, NOBODY, PLAIN, PLAIN_CHECKER, RECORD, REPLAY, ROOT, SCRIPT, VM, WHATIF, Call, RootCase, heed_interrupts,
                    machine_state)

JOURNAL = str(ROOT / "examples/kernel.journal")
OWN, REPLAYING, RECORDING = [WHATIF, "now", "--pid", str(os.getpid())], [REPLAY, "--wait", SCRIPT], [RECORD, "--wait", "--own", "1,5,1"]
STAND_IN = 7  # the status of a command in the stand-in for qemu
CALLER = 1  # the user behind sudo: Debian's daemon
PIECE, PIECES = 1 << 20, 2000  # bytes, and their number: what a package unpacks to
MOST_MEMORY = 1 << 10  # MiB of a tool that reads such a package; without a limit it takes twice what the package unpacks to
KINDS = ("a link", "a dangling link", "a hard link", "a pipe", "a device", "a folder", "a file")
OUTPUTS = (
    [WHATIF, "snapshot", "--pid", str(os.getpid()), "-o"],
    [WHATIF, "watch", "1", "--rounds", "1", "--pid", str(os.getpid()), "--prometheus"],
    [*RECORDING, "--out"],
    [*RECORDING, "--records"],
)
FOLDERS = ([WHATIF, "verify", "--wait", "--pages", "2", "--thresholds", "0", "--keep"], [*REPLAYING, "--keep"])
PIPES: dict[str, Any] = {"stdin": subprocess.DEVNULL, "stdout": subprocess.PIPE, "stderr": subprocess.PIPE}
LIMITS = {
    resource.RLIMIT_NOFILE: (3, 5, 8, 11, 14, 17, 20), resource.RLIMIT_FSIZE: (0, 100),
    resource.RLIMIT_AS: (60 << 20, 200 << 20), resource.RLIMIT_NPROC: (0,), resource.RLIMIT_STACK: (1 << 20,),
}
SIGNALS = (signal.SIGINT, signal.SIGTERM, signal.SIGHUP, signal.SIGQUIT, signal.SIGPIPE, signal.SIGALRM, signal.SIGUSR1, signal.SIGABRT,
           signal.SIGKILL, signal.SIGSEGV)


def setUpModule() -> None:
    os.environ.setdefault("THPSPLIT", PLAIN)
    os.environ.setdefault("THPCHECK", PLAIN_CHECKER)
    if subprocess.run(OWN, capture_output=True, check=False).returncode == SKIPPED:
        raise unittest.SkipTest("thpwhatif lacks what it needs (make c, make linux)")


@contextmanager
def folder_of_nobody() -> Iterator[Path]:
    """A folder of the user nobody, in which root's tools are made to write."""
    with tempfile.TemporaryDirectory() as name:
        os.chmod(name, 0o755)
        path = Path(name) / "own"
        path.mkdir(0o755)
        os.chown(path, NOBODY, NOBODY)
        (path.parent / "target").write_text("precious")
        yield path


def place_target(path: Path, kind: str) -> None:
    """Makes what a hostile user puts where root is going to write."""
    target = path.parent.parent / "target"
    makers: dict[str, Callable[[], object]] = {
        "a link": lambda: path.symlink_to(target), "a dangling link": lambda: path.symlink_to(target.with_name("nothing")),
        "a hard link": lambda: os.link(target, path), "a pipe": lambda: os.mkfifo(path),
        "a device": lambda: os.mknod(path, stat.S_IFCHR | 0o666, os.makedev(1, 3)), "a file": path.touch,
    }
    makers.get(kind, path.mkdir)()
    if "folder" in kind:
        path.chmod(0o777 if kind == "a folder for all" else 0o700)
        os.chown(path, NOBODY if kind == "another's folder" else 0, 0)


def make_bomb(path: Path, kind: bytes) -> None:
    """Writes a package whose first header has gigabytes."""
    control, content = io.BytesIO(), b"Package: x\nVersion: 1\nArchitecture: all\nMaintainer: x <x@x>\nDescription: x\n"
    with tarfile.open(fileobj=control, mode="w:gz") as archive:
        info = tarfile.TarInfo("./control")
        info.size = len(content)
        archive.addfile(info, io.BytesIO(content))
    head = tarfile.TarInfo("./boot/vmlinuz-1")
    head.type, head.size = kind, PIECE * PIECES
    bomb = gzip.compress(head.tobuf(tarfile.USTAR_FORMAT)) + gzip.compress(bytes(PIECE)) * PIECES + gzip.compress(bytes(1024))
    parts = {"debian-binary": b"2.0\n", "control.tar.gz": control.getvalue(), "data.tar.gz": bomb}
    path.write_bytes(b"!<arch>\n" + b"".join(  # ar(5)
        name.ljust(48).encode() + str(len(data)).ljust(10).encode() + b"`\n" + data + b"\n" * (len(data) % 2)
        for name, data in parts.items()))


class FileTests(RootCase):
    """Files that another user has prepared."""

    def test_outputs(self) -> None:
        """A tool writes through nothing that another user has put where its output is to go, and into no folder but its caller's own."""
        folders = itertools.product(FOLDERS, (*KINDS[:5], "a file", "another's folder", "a folder for all"))
        for words, kind in (*itertools.product(OUTPUTS, KINDS), *folders):
            with self.subTest(words=words, kind=kind), folder_of_nobody() as folder:
                place_target(folder / "output", kind)
                self.check(Call([*words, str(folder / "output")]), USAGE, line="output")
                self.assertEqual((folder.parent / "target").read_text(), "precious")
                self.assertEqual(sorted(path.name for path in folder.parent.rglob("*")), ["output", "own", "target"])

    def test_packages(self) -> None:
        """A package of which a header, or a file, unpacks to gigabytes is refused in little memory."""
        if not shutil.which("dpkg-deb"):
            self.skipTest("no dpkg-deb")
        for kind in (tarfile.XHDTYPE, tarfile.GNUTYPE_LONGNAME, tarfile.REGTYPE):
            with self.subTest(kind=kind), stand_in_for_qemu() as (folder, environment):
                make_bomb(folder / "bomb.deb", kind)
                call = self.check(Call([VM, str(folder / "bomb.deb"), "--", "true"], env=environment), USAGE, FAILED, line=": ")
                self.assertLess(call.peak, MOST_MEMORY)


class ProgramTests(HostileCase):
    """Programs that a tool starts."""

    def test_programs(self) -> None:
        """Neither user nobody nor the caller of sudo can trace or kill them, and the answer is that without these users."""
        environment = {**os.environ, "SUDO_UID": str(CALLER), "SUDO_GID": str(CALLER)}
        tools = (([REPLAY, "--wait", "--random", "6", "--quiet"], [DONE, INCONCLUSIVE]), ([RECORD, "--wait", "--own", "1,50,1"], [DONE]),
                 ([WHATIF, "policies", JOURNAL], [DONE, DIFFERS]))
        for (words, statuses), user in itertools.product(tools, (NOBODY, CALLER)):
            with self.subTest(words=words, user=user), subprocess.Popen(words, **PIPES, env=environment) as tool:
                with tempfile.TemporaryFile("w+") as output:
                    with self.pages.start([f"{self.pages.folder}/forge", str(tool.pid)], user, stderr=output):
                        problems = tool.communicate(timeout=HANGS)[1]
                    output.seek(0)
                    found = output.read().split("\n")[:-1]
                self.assertIn(tool.returncode, statuses, problems)
                self.assertTrue(found, "no process was tried")
                self.assertEqual([line for line in found if not line.startswith("seen ")], [])


class SurroundingsTests(RootCase):
    """Namespaces, environments, streams, limits and signals."""

    def test_user_namespace(self) -> None:
        """Root of a user namespace has no rights: each tool reports that in one line."""
        unshare = ["unshare", "-Ur"]
        user: dict[str, Any] = {"user": NOBODY, "group": NOBODY, "extra_groups": []}
        if subprocess.run([*unshare, "true"], check=False, **PIPES, **user).returncode:
            self.skipTest("no user namespaces for other users")
        for words in ([WHATIF, "now", "--all"], [WHATIF, "verify"], REPLAYING, [RECORD, "--wait"]):
            with self.subTest(words=words):
                self.check(Call([*unshare, *words], cwd="/", **user), SKIPPED, line="skipped: ")

    def test_environments(self) -> None:
        """Modules in the working folder, and what Python's variables name, are not imported."""
        with folder_of_nobody() as folder:
            for name in ("json", "argparse", "socket", "sitecustomize", "usercustomize"):
                (folder / f"{name}.py").write_text(f"open({str(folder / 'imported')!r}, 'w')\n")
            more = {"PYTHONPATH": str(folder), "PYTHONHOME": str(folder), "PYTHONUSERBASE": str(folder), "PYTHONINSPECT": "1"}
            for words in (OWN, REPLAYING, RECORDING):
                self.check(Call(words, cwd=folder, env={**os.environ, **more}), DONE, INCONCLUSIVE)
                self.assertFalse((folder / "imported").exists(), words)

    def test_streams(self) -> None:
        """Closed streams end nothing badly, and a full one is reported."""
        for words in (OWN, REPLAYING, RECORDING):
            for closed in ("0<&-", "1>&-", "2>&-", "0<&- 1>&- 2>&-"):
                with self.subTest(words=words, closed=closed):
                    self.check(Call(["sh", "-c", f'exec "$@" {closed}', "sh", *words]), DONE, FAILED, INCONCLUSIVE)
            with self.subTest(words=words), open("/dev/full", "wb") as full:
                self.assertIn("No space left", self.check(Call(words, stdout=full), FAILED).problems)

    def test_limits(self) -> None:
        """With few descriptors, processes, bytes of memory or of files a tool gives its answer, or ends with one line."""
        limits = [(which, value) for which, values in LIMITS.items() for value in values]
        with stand_in_for_qemu() as (folder, environment):
            tools = ((REPLAYING, "first.script: "), (RECORDING, "legal"),
                     ([VM, "--accel", "emulation", str(folder / "image"), "--", "true"], "out\n"))
            for (words, answer), (which, value) in itertools.product(tools, limits):
                with self.subTest(words=words, limit=which, value=value):
                    call = Call(words, env=environment, preexec_fn=partial(resource.setrlimit, which, (value, value)))
                    if answer in call.out:
                        self.check(call, DONE, INCONCLUSIVE, STAND_IN)
                    else:
                        self.check(call, FAILED, SKIPPED, 1, 127)  # 1, 127: Python can't begin
                        lines = [line for line in call.problems.split("\n")[:-1] if ": queues are not compared: " not in line]
                        self.assertEqual(len(lines), 1, lines)

    def test_signals(self) -> None:
        """Any signal at any moment: no traceback, no process stays, and all is put back."""
        chance, before = random.Random(1), machine_state()
        tools = ([WHATIF, "verify", "--wait", "--rounds", "9"], [REPLAY, "--wait", "--random", "1000", "--quiet"],
                 [RECORD, "--wait", "--own", "1,100000,1"])
        for words, number in itertools.product(tools, SIGNALS):
            moment = chance.uniform(0.4, 1.4)  # seconds, after the interpreter has begun
            with self.subTest(words=words, signal=number.name, after=moment):
                with subprocess.Popen(words, **PIPES, preexec_fn=heed_interrupts) as tool:
                    time.sleep(moment)
                    tool.send_signal(number)
                    with suppress(subprocess.TimeoutExpired):
                        tool.wait(1)
                    tool.terminate()  # one that the signal didn't end
                    self.assertNotIn(b"Traceback", tool.communicate(timeout=HANGS)[1])
                self.assertEqual(machine_state(), before)
