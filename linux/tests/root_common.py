"""One tool at a time, which changes nothing where it lacks what it needs, and settings come first (root). A small tool of this file changes
settings and makes groups. That they are put back whoever is killed is in test_common.py, and with the kernel's own in root_attacks.py."""

from __future__ import annotations

import os
import signal
import subprocess
import sys
from collections.abc import Iterator
from contextlib import contextmanager
from functools import partial

from ..common.errors import BUSY, DONE, FAILED, SKIPPED
from ..common.files import PTES_NONE, read, write
from ..common.guardian import hierarchies, members
from ..common.keeper import FOLDER, open_shared
from .hostile import HostileCase
from .cases import NOBODY, ROOT, WHATIF, Call, StateCase, machine_state, wait_until

STRANGER = 1234567  # a user that this machine doesn't have
SETTER = """
import os, sys, time
sys.path.insert(0, sys.argv[1])
from linux.common.files import PTES_NONE, SWITCH
from linux.common.groups import Groups
from linux.common.keeper import Keeper
from linux.common.tool import run_tool
def main():
    with Keeper("setter", wait="--busy" not in sys.argv) as keeper:
        print("kept", flush=True)
        keeper.set(PTES_NONE, 77)
        keeper.set(SWITCH, 1 - int(open(SWITCH).read()))
        Groups(keeper, "thpsetter").add("node0")
        keeper.set(PTES_NONE, 78)
        print("set", flush=True)
        time.sleep(float(sys.argv[2]))
    return 0
run_tool("setter", main)
"""
REACH = """
import ctypes, os, sys
for path in sys.argv[1:]:
    try:
        os.open(path, os.O_RDONLY)
        print(path)
    except PermissionError:
        pass
if ctypes.CDLL(None).syscall(430, b'tracefs', 1) >= 0: print('fsopen')
"""
CONTAINER = ["unshare", "-m", "--propagation", "private", "sh", "-c", 'mount -t tmpfs none /run && exec "$@"', "sh"]


def setter(seconds: float) -> list[str]:
    """Returns the words of the tool above, which ends after so many seconds."""
    return [sys.executable, "-c", SETTER, str(ROOT), str(seconds)]


@contextmanager
def running_setter(lines: int) -> Iterator[subprocess.Popen[str]]:
    """Starts it, and waits until it has written so many lines: one once it has the lock, two once all is set. Kills it at the end."""
    with subprocess.Popen(setter(30), stdout=subprocess.PIPE, stderr=subprocess.DEVNULL, text=True) as tool:
        assert tool.stdout
        for _ in range(lines):
            tool.stdout.readline()
        try:
            yield tool
        finally:
            tool.kill()


class LockTests(StateCase):
    """One tool at a time."""

    def test_second_tool_is_busy(self) -> None:
        """A tool that finds the lock taken names the holder, if it can, and ends with its own status."""
        second = [*setter(0), "--busy"]
        with running_setter(1) as tool:
            for words, holder in ((second, f"setter, process {tool.pid},"), ([*CONTAINER, *second], "another tool")):
                self.check(Call(words), BUSY, line=f"setter: {holder} is running (--wait waits until it has ended)\n")

    def test_others_reach_nothing(self) -> None:
        """Another user can neither list the tools' folder, nor open what is to be put back, nor take the machine's lock."""
        paths = [FOLDER, f"{FOLDER}/lock", f"{FOLDER}/undo"]
        folders = [folder for folder in ("/sys/kernel/tracing", "/sys/kernel/debug") if os.path.ismount(folder)]
        with running_setter(2):
            self.assertTrue(all(map(os.path.exists, paths)), "nothing to open")
            done = Call(["/usr/bin/python3", "-c", REACH, *paths, *folders], user=STRANGER, group=STRANGER, extra_groups=[])
            shared = os.fstat(open_shared())
        self.assertEqual((done.status, done.out + done.problems), (DONE, ""))
        self.assertEqual((shared.st_mode & 0o077, shared.st_uid), (0, 0))


class RefusedTests(StateCase):
    """A tool that can't store what it is to put back changes nothing, and ends in one line."""

    def check_refused(self, words: list[str], may_work: bool = False) -> None:
        done = Call([*words, *setter(0.1)])
        self.assertEqual(machine_state(), self.before)
        if not may_work or done.status:
            self.check(done, FAILED, SKIPPED, line=": ")

    def test_storage(self) -> None:
        """A limit of file sizes cuts what is stored: then those settings that were changed before are put back."""
        for size in (0, 10, 50, 100, 150, 200, 250, 300, 400):
            with self.subTest(size=size):
                self.check_refused(["prlimit", f"--fsize={size}"], may_work=size > 250)

    def test_processes(self) -> None:
        """A limit of processes ends the tool before anything is changed."""
        tops = [folder for folder, kind, options in hierarchies() if "pids" in options.split(",")
                or kind == "cgroup2" and "pids" in read(f"{folder}/cgroup.subtree_control").split()]
        if not tops:
            self.skipTest("no control groups that limit processes")
        group = f"{tops[0]}/test-{os.getpid()}"
        os.mkdir(group)
        self.addCleanup(os.rmdir, group)
        self.addCleanup(wait_until, lambda: not members(group), 3)
        for most in (1, 2):
            write(f"{group}/pids.max", most)
            self.check_refused(["sh", "-c", f"echo $$ > {group}/cgroup.procs && exec \"$@\"", "sh"])


class OthersTests(StateCase, HostileCase):
    """What other users and processes do."""

    def test_settings_come_first(self) -> None:
        """The command of a trial can't be killed, since it waits for a file system: settings are put back all the same."""
        threshold = read(PTES_NONE)
        with self.pages.hold_locks(1, NOBODY) as holder:
            command = f"exec dd bs=4096 skip=100 count=1 if=/proc/{holder}/root{self.pages.folder}/mount/file"
            words = ["--thresholds", "100", "--user", "nobody", "--after", "1", "--", "/bin/sh", "-c", command]
            with subprocess.Popen([WHATIF, "verify", "--wait", *words], stdout=subprocess.DEVNULL, stderr=subprocess.DEVNULL) as tool:
                self.addCleanup(tool.terminate)
                self.assertTrue(wait_until(lambda: read(PTES_NONE) != threshold or tool.poll() is not None, 60))
                self.assertIsNone(tool.poll(), "nothing was set")
                self.assertTrue(wait_until(lambda: read(PTES_NONE) == threshold, 30), "the settings stay")
                if tool.poll() is not None:
                    self.skipTest("the command could be killed")

    def test_ignored_hang_up(self) -> None:
        """The hang-up of a terminal doesn't end a tool that nohup started."""
        words = [WHATIF, "watch", "0.3", "--rounds", "4", "--pid", str(os.getpid()), "--thresholds", "off"]
        with subprocess.Popen(words, stdout=subprocess.PIPE, stderr=subprocess.PIPE, text=True,
                              preexec_fn=partial(signal.signal, signal.SIGHUP, signal.SIG_IGN)) as tool:
            assert tool.stdout
            tool.stdout.readline()
            tool.send_signal(signal.SIGHUP)
            problems = tool.communicate(timeout=60)[1]
        self.assertIn(tool.returncode, (0, 4), problems)
