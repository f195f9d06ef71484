"""Tests of `thprecord` on the running kernel (root). The judge is `thpcheck` where it is built, else the plain reading of the model."""

from __future__ import annotations

import os
import pwd
import re
import signal
import subprocess
from pathlib import Path
from typing import Callable, Sequence

from ..common import checker, program
from ..common.errors import DONE, FAILED, INCONCLUSIVE, SKIPPED, USAGE
from ..common.files import read
from ..common.groups import find_hierarchy
from ..common.helpers import helper
from .cases import PLAIN_CHECKER, PROGRAMS, RECORD, Call, StateCase

MOST_RESIDENT = 64 << 10  # KiB
FAULTS, DROPS = 300000, 20000
RECORDED = 1.5  # seconds of a recording that is interrupted
CHECKER = program.find("thpcheck", checker.BUILT) or PLAIN_CHECKER
PYTHON = "/usr/bin/python3"
USER = "nobody"


def resident_of(number: int) -> int:
    """Returns the most memory that a process had, in KiB; 0 where it has ended."""
    try:
        found = re.search(r"^VmHWM:\s*([0-9]+) kB$", read(f"/proc/{number}/status"), re.MULTILINE)
    except OSError:
        return 0
    return int(found[1]) if found else 0


def run(words: Sequence[str], meanwhile: Callable[[subprocess.Popen[bytes], float], None] = lambda tool, since: None,
        before: Sequence[str] = ()) -> Call:
    """Runs the tool; `before`: words that start it."""
    return Call([*before, RECORD, "--wait", "--checker", CHECKER, "--require", "80", *words], meanwhile=meanwhile)


def recorded_groups() -> list[str]:
    """Returns the folders of the tool's control groups."""
    return [path for path, _, _ in os.walk(find_hierarchy().top) if "/thprecord" in path]


def is_recording() -> bool:
    """Returns whether a command runs in one of these."""
    for path in recorded_groups():
        try:
            if read(f"{path}/cgroup.procs"):
                return True
        except OSError:  # it has gone
            continue
    return False


class RecordCase(StateCase):
    """Runs of the tool."""

    def ends(self, done: Call, status: int, *texts: str) -> Call:
        """Checks the status, and texts in the output."""
        for text in texts:
            self.assertIn(text, done.out + done.problems)
        return self.check(done, status)

    def record(self, words: Sequence[str], status: int, *texts: str) -> Call:
        """Runs the tool, and checks how it ends."""
        return self.ends(run(words), status, *texts)

    def copy(self, path: Path | str) -> str:
        """Returns a copy of a program that every user may run."""
        copy = self.folder / Path(path).name
        copy.write_bytes(Path(path).read_bytes())
        copy.chmod(0o755)
        return str(copy)

    def endless(self) -> list[str]:
        """Returns the words of a workload that doesn't end by itself."""
        return ["--user", USER, "--", self.copy(helper("workload")), "1", "1000000000", "1", "9"]


class WordsTest(RecordCase):
    def test_no_such_command(self) -> None:
        self.record(["--out", str(self.folder / "unwritten"), "--", "nosuch"], USAGE, "thprecord: nosuch: no such command\n")
        self.assertFalse((self.folder / "unwritten").exists())

    def test_outputs_are_the_callers(self) -> None:
        journal, records = self.folder / "journal", self.folder / "records"
        self.record(["--own", "1,60,1", "--out", str(journal), "--records", str(records)], DONE, "legal")
        self.assertEqual([path.stat().st_mode & 0o777 for path in (journal, records)], [0o600, 0o600])
        self.assertGreater(records.stat().st_size, 1000)


class CommandsTest(RecordCase):
    def test_statuses_of_commands(self) -> None:
        self.record(["--", "sh", "-c", "exit 7"], SKIPPED, "the command ended with status 7")
        self.record(["--", "sh", "-c", "kill -SEGV $$"], SKIPPED, "the command was killed by SIGSEGV")

    def test_one_that_cannot_be_run(self) -> None:
        path = self.folder / "not a program"
        path.write_text("no program\n")
        path.chmod(0o755)
        self.record(["--", str(path)], FAILED, "can't be started: Exec format error")

    def test_it_runs_as_the_user(self) -> None:
        found = pwd.getpwnam(USER)
        script = "import os; print(os.getresuid(), os.getresgid(), os.getgroups(), sorted(os.listdir('/proc/self/fd')))"
        groups = os.getgrouplist(USER, found.pw_gid)
        ids = f"{(found.pw_uid,) * 3} {(found.pw_gid,) * 3} {groups} ['0', '1', '2', '3']"  # 3: of listdir itself
        self.record(["--user", USER, "--", PYTHON, "-c", script], SKIPPED, ids)

    def test_groups_of_its_own_are_removed(self) -> None:
        self.record(["--", PYTHON, "-I", str(PROGRAMS / "groups.py"), "stays"], SKIPPED)
        self.assertEqual(recorded_groups(), [])

    def test_tasks_that_change_their_group(self) -> None:
        text = "control groups were made in the recorded one: {} huge pages of their tasks aren't followed"
        inner = ("16 of 16", text.format(8)) if find_hierarchy().version == 1 else ("8 of 8", text.format(16))
        for word, pages, *texts in (("leaves", "8 of 8"), ("enters", "8 of 8"), ("inner", *inner)):
            with self.subTest(word):
                words = ["--", PYTHON, "-I", str(PROGRAMS / "groups.py"), word]
                self.record(words, DONE, "the command ended with status 0", f"{pages} pages followed", *texts)


class WorkloadsTest(RecordCase):
    def busy(self, *words: str) -> Call:
        """Records the test program of many calls, in bounded memory."""
        resident = [0]
        command = [PYTHON, self.copy(PROGRAMS / "busy.py"), *words]
        done = run(["--every", "0", "--user", USER, "--", *command], lambda tool, _: resident.append(resident_of(tool.pid)))
        self.assertLessEqual(max(resident), MOST_RESIDENT)
        return done

    def test_memory_is_bounded(self) -> None:
        self.ends(self.busy("fault", str(FAULTS)), SKIPPED, "the command ended with status 0", "empty, no huge page was followed")
        self.ends(self.busy("drop", str(DROPS)), DONE, "legal", "events unmapsub")

    def test_tasks_that_share_pages(self) -> None:
        for kind in ("threads", "processes"):
            with self.subTest(kind):
                words = ["--user", USER, "--", PYTHON, self.copy(PROGRAMS / "shared.py"), kind, "4", "3"]
                self.record(["--every", "0.01", "--require", "50", *words], DONE, "the command ended with status 0", "legal")


class EndsTest(RecordCase):
    def test_seconds(self) -> None:
        self.record(["--seconds", "1", *self.endless()], DONE, "the recording was ended after 1 seconds", "killed by SIGTERM", "legal")

    def test_a_command_that_ignores_it(self) -> None:
        words = [PYTHON, "-c", "import signal, time; signal.signal(signal.SIGTERM, signal.SIG_IGN); time.sleep(60)"]
        self.record(["--seconds", "0.5", "--", *words], SKIPPED, "the command was killed by SIGKILL", "empty")

    def test_signals(self) -> None:
        for sent in (signal.SIGINT, signal.SIGTERM):
            with self.subTest(sent.name):
                begun: list[float] = []  # when the command was first seen to run, and when it was interrupted

                def interrupt(tool: subprocess.Popen[bytes], since: float) -> None:
                    if not begun and is_recording() or len(begun) == 1 and since > begun[0] + RECORDED:
                        begun.append(since)
                        if len(begun) == 2:
                            tool.send_signal(sent)

                journal = self.folder / f"journal.{sent.name}"
                done = run(["--out", str(journal), *self.endless()], interrupt)
                self.ends(done, DONE, f"the recording was ended by {sent.name}", "legal")
                self.assertTrue(journal.read_bytes().endswith(b"\nend\n"))

    def test_the_limit_of_disk(self) -> None:
        largest = [0]

        def look(tool: subprocess.Popen[bytes], _: float) -> None:
            for path in Path(f"/proc/{tool.pid}/fd").glob("*"):
                try:
                    if os.readlink(path).startswith("/var/tmp/") and os.readlink(path).endswith("(deleted)"):
                        largest[0] = max(largest[0], path.stat().st_size)
                except OSError:
                    continue

        self.ends(run(["--disk", "300K", *self.endless()], look), INCONCLUSIVE, "the recording was ended at the limit of --disk",
                  "the command was killed by SIGTERM", "inconclusive: ", "records reached the limit of --disk")
        self.assertTrue(0 < largest[0] <= 300 << 10, largest)

    def test_files_that_cannot_be_written(self) -> None:
        """A full disk, and limits of the size of files: one line on standard error."""
        small = self.folder / "small"
        small.mkdir()
        mount = f'mount -t tmpfs -o size=300k none {small} && exec "$0" "$@"'
        rows: list[tuple[list[str], list[str], str]] = [
            (["unshare", "--mount", "--propagation", "private", "sh", "-c", mount], ["--records", f"{small}/records"], "No space left"),
            (["prlimit", "--fsize=20000"], ["--checker", PLAIN_CHECKER], "File too large"),  # the built one is copied, and is larger
            (["prlimit", "--fsize=2000000"], ["--seconds", "5"], "File too large"),
        ]
        for before, words, text in rows:
            with self.subTest(before=before[:2]):
                self.check(run([*words, *self.endless()], before=before), FAILED, line=text)
