"""What the tools share: sets, journals, scripts, words, control groups by their files, and everything put back at any end."""

from __future__ import annotations

import errno
import itertools
import os
import signal
import subprocess
import sys
import time
from unittest import mock

from ..common import helpers, program as programs
from ..common.errors import Busy, InputFault, RunFailed, Unavailable
from ..common.groups import find_hierarchy
from ..common.guardian import Undo, folders_below, kill_group, load, put_back, remove_group, selected_word, store, write
from ..common.journal import journal_of
from ..common.keeper import Keeper
from ..common.script import Options, options_of, script_of
from ..common.subpages import bits_of, runs, set_of, set_text
from .cases import ROOT, FolderCase, descendants, heed_interrupts, wait_until

KILLED_TOOL = """
import os, sys, time
from linux.common.keeper import Keeper
folder, number = sys.argv[1], int(sys.argv[2])
with Keeper("test", folder=folder + "/run") as keeper:
    print("kept", flush=True)
    keeper.set(folder + "/setting", "new")
    keeper.set(folder + "/choice", "madvise")
    keeper.make_group(folder + "/group")
    print("set", flush=True)
    os.kill(os.getpid(), number)
    time.sleep(10)
"""
KILLS = (((0,),), ((0, 1),), ((2,), (0,)), ((0, 1, 2),))
"""Who is killed, at once or in turn: the tool, its guardian, the standby."""


class TextsTest(FolderCase):
    def test_sets(self) -> None:
        for text, bits in (("-", 0), ("0", 1), ("0-3,5,510-511", 0b101111 | 3 << 510)):
            self.assertEqual((set_text(bits), set_of(text)), (text, bits))
        self.assertEqual(list(runs(bits_of(3, 4) | bits_of(9, 1))), [(3, 4), (9, 1)])

    def test_journals(self) -> None:
        for name in ("two_workers.journal", "illegal.journal"):
            text = (ROOT / "examples" / name).read_text()
            events = [event.text() for node in journal_of(text) for event in node.events]
            self.assertEqual(events, [line for line in text.split("\n") if line[:1].isdigit()])
        self.assertRaises(InputFault, journal_of, "thp-journal 1\nnode 0 blocks 4\n")

    def test_settings_of_a_script(self) -> None:
        script = script_of("x", "# thpsplit --nodes 2 --orders 4,9 --underused off,100\nsetup\n", ["--blocks", "9"])
        self.assertEqual(script.options, Options(2, 9, 1, (4, 9), (None, 100)))
        self.assertEqual(options_of(script.options.words()), script.options)
        self.assertEqual(options_of(["--nodes=3", "--report", "journal"]), Options(3, 16, 1, (9,) * 3, (None,) * 3))
        for words in (["--nodes", "two"], ["--orders", "9,9"], ["--surprise"], ["--node", "2"], ["secret"]):
            with self.assertRaisesRegex(InputFault, "^settings of a script: (?!.*(secret|surprise))"):
                options_of(words)

    def test_words(self) -> None:
        """Help, and one line with status 2 for words that can't be used; without root one with 77."""
        cases = [(["thpreplay", "--help"], 0), (["thprecord", "--help"], 0), (["thpreplay"], 2), (["thprecord", "--own", "1,2"], 2),
                 (["thpreplay", "--random", "3", "--thresholds", "x"], 2), (["thprecord", "--underused", "many"], 2)]
        cases += [(["thpreplay", "--random", "3"], 77), (["thprecord"], 77)] if os.geteuid() else []
        for (tool, *words), status in cases:
            done = subprocess.run([sys.executable, f"linux/{tool}", *words], cwd=ROOT, capture_output=True, text=True, check=False)
            self.assertEqual((done.returncode, done.stderr.count("\n"), bool(done.stdout)), (status, int(status > 0), not status), words)

    def test_the_program_below_the_same_prefix_is_found(self) -> None:
        """Also where the path lacks it, as sudo's does."""
        here = self.folder / "bin/thpsplit"
        here.parent.mkdir()
        with mock.patch.multiple(programs, BUILT=here / "none", LINUX=self.folder.joinpath(*helpers.INSTALLED)):
            with mock.patch.dict(os.environ, {"PATH": str(self.folder)}):
                os.environ.pop("THPSPLIT", None)
                self.assertRaises(Unavailable, programs.Program)
                here.write_text("")
                here.chmod(0o755)
                self.assertEqual(programs.Program().path, str(here))


class GroupsTest(FolderCase):
    def test_hierarchies(self) -> None:
        """Version 1 below one's own group; version 2 with the memory controller."""
        (self.folder / "own").mkdir()
        mounts = f"cgroup2 /none cgroup2 rw 0 0\ncgroup {self.folder} cgroup rw,memory 0 0\n"
        found = find_hierarchy(mounts, "5:cpu:/other\n4:memory:/own\n0::/\n")
        self.assertEqual((found.version, found.top), (1, f"{self.folder}/own"))
        controllers, mounts = self.folder / "cgroup.controllers", f"cgroup2 {self.folder} cgroup2 rw 0 0\n"
        controllers.write_text("hugetlb\n")
        self.assertRaisesRegex(Unavailable, "no memory controller", find_hierarchy, mounts, "0::/\n")
        controllers.write_text("cpu memory\n")
        self.assertEqual(find_hierarchy(mounts, "0::/\n").version, 2)
        self.assertRaisesRegex(Unavailable, "no hierarchy", find_hierarchy, "proc /proc proc rw 0 0\n", "0::/\n")


class KeeperTest(FolderCase):
    """Settings are files and a control group is a folder here: the guardian does to them what it does to the kernel's."""

    def setUp(self) -> None:
        super().setUp()
        self.run_folder, self.setting, self.group = str(self.folder / "run"), self.folder / "setting", self.folder / "group"
        self.setting.write_text("old\n")
        (self.folder / "choice").write_text("always [defer] never\n")

    def keeper(self, wait: bool = False) -> Keeper:
        return Keeper("test", wait, self.run_folder)

    def is_as_before(self) -> bool:
        texts = [selected_word(path.read_text()) for path in (self.setting, self.folder / "choice")]
        return [*texts, self.group.exists()] == ["old", "defer", False]

    def put_back(self, *texts: str, inode: int | None = None) -> tuple[list[str], dict[str, int]]:
        """Puts back a setting with these texts, and the group if an inode is given; returns problems, and groups to try again."""
        groups = {} if inode is None else {str(self.group): inode}
        return put_back({"settings": {str(self.setting): list(texts)} if texts else {}, "groups": groups})

    def test_an_exception_puts_back(self) -> None:
        self.assertEqual((selected_word("a [b] c\n"), selected_word("12\n")), ("b", "12"))
        with self.assertRaises(ZeroDivisionError), self.keeper() as keeper:
            keeper.set(self.setting, "new")
            keeper.set(self.setting, "newer")
            keeper.set(self.folder / "choice", "madvise")
            keeper.make_group(self.group)
            self.assertEqual((self.setting.read_text(), self.group.exists()), ("newer", True))
            raise ZeroDivisionError
        self.assertTrue(self.is_as_before())
        self.group.mkdir()
        with self.assertRaises(Unavailable), self.keeper() as keeper:
            keeper.make_group(self.group)
        self.assertTrue(self.group.exists(), "a group that another made is removed")

    def run_tool(self, number: int = 0) -> subprocess.Popen[str]:
        """Starts a tool that changes everything, and sends itself a signal; gives it once it has the lock."""
        tool = subprocess.Popen([sys.executable, "-c", KILLED_TOOL, str(self.folder), str(number)], cwd=ROOT, stdout=subprocess.PIPE,
                                stderr=subprocess.DEVNULL, text=True, preexec_fn=heed_interrupts)
        assert tool.stdout
        self.assertEqual(tool.stdout.readline(), "kept\n")
        return tool

    def test_signals_put_back(self) -> None:
        for number in (signal.SIGTERM, signal.SIGINT):
            with self.run_tool(number) as tool:
                pass
            self.assertNotEqual(tool.returncode, 0)
            with self.keeper(wait=True):  # waits until the guardian has ended
                self.assertTrue(self.is_as_before())

    def test_whoever_is_killed_all_is_put_back(self) -> None:
        """The tool, its guardian and the standby, some at once or one after another, at some moments."""
        for parts, moment in itertools.product(KILLS, (0.0, 0.01, 0.03, None)):
            with self.subTest(killed=parts, after=moment), self.run_tool() as tool:
                if moment is None:
                    assert tool.stdout
                    self.assertEqual((tool.stdout.readline(), self.setting.read_text()), ("set\n", "new"))
                else:
                    time.sleep(moment)
                numbers = [tool.pid, *descendants(tool.pid)]
                for part in parts:
                    for sent, each in itertools.product((signal.SIGSTOP, signal.SIGKILL), part):  # none acts on the end of another
                        os.kill(numbers[each], sent)
                    time.sleep(0.02)
            if len(parts[0]) < 3:  # who is left acts; else the next tool does
                self.assertTrue(wait_until(self.is_as_before, 30), (parts, moment))
            with self.keeper(wait=True):
                self.assertTrue(self.is_as_before(), (parts, moment))

    def test_a_setting_that_a_group_holds_goes_back_after_it(self) -> None:
        """Version 2: a group's subtree_control can't be taken back while a group of ours below it uses it."""
        self.group.mkdir()

        def refused(path: str, text: str) -> None:
            if self.group.exists():
                raise OSError(errno.EBUSY, "busy")
            write(path, text)

        with mock.patch("linux.common.guardian.write", refused):
            self.assertEqual(self.put_back("former", inode=self.group.stat().st_ino), ([], {}))
        self.assertEqual(self.setting.read_text(), "former")

    def test_groups_that_processes_made_in_ours_go_with_it(self) -> None:
        (self.group / "inner/innermost").mkdir(parents=True)
        self.assertEqual(self.put_back(inode=1), ([], {}))
        self.assertTrue((self.group / "inner").exists(), "a group of that name that isn't the tool's stays")
        self.assertEqual(self.put_back(inode=self.group.stat().st_ino), ([], {}))
        self.assertFalse(self.group.exists())

    def test_a_deep_group_is_removed(self) -> None:
        depth = 1100
        for number in range(1, depth + 1, 100):
            os.makedirs(self.folder / "/".join(["group", *["a"] * (number + 99)]), exist_ok=True)
        self.assertEqual(len(folders_below(str(self.group))), depth + 1)
        self.assertEqual((remove_group(str(self.group), 0), self.group.exists()), ("", False))

    def test_a_group_that_is_not_known_to_be_ours_keeps_its_processes(self) -> None:
        """It was made when the guardian was killed: its inode isn't stored."""
        self.group.mkdir()
        with subprocess.Popen(["sleep", "60"]) as child:
            (self.group / "cgroup.procs").write_text(f"{child.pid}\n")
            problems, left = self.put_back(inode=0)
            self.assertEqual((len(problems), left, child.poll()), (1, {str(self.group): 0}, None))
            self.assertTrue(kill_group(str(self.group), self.group.stat().st_ino))
            self.assertEqual(child.wait(), -signal.SIGKILL)

    def test_a_group_that_can_not_be_removed_is_tried_again_by_each_later_tool(self) -> None:
        os.mkdir(self.run_folder, 0o700)
        self.group.mkdir()
        (self.group / "file").write_text("")  # it can't be removed yet
        store(f"{self.run_folder}/undo", {"settings": {}, "groups": {str(self.group): 0}})
        for _ in range(2):
            self.keeper().close()
        (self.group / "file").unlink()
        self.keeper().close()
        self.assertFalse(self.group.exists() or os.path.exists(f"{self.run_folder}/undo"))

    def test_what_can_not_be_read_is_named(self) -> None:
        path = self.folder / "undo"
        for text in ('{"settings": {}', "[]", '{"settings": 3, "groups": {}}', "[" * 100000):
            path.write_text(text)
            undo, problems = load(str(path))
            self.assertEqual((any(undo.values()), len(problems)), (False, 1), text[:20])

    def test_what_can_not_be_stored_refuses_the_change(self) -> None:
        path = str(self.folder / "undo")
        undo: Undo = {"settings": {"a": ["b"]}, "groups": {}}
        store(path, undo)
        with mock.patch("os.fsync", side_effect=OSError(errno.ENOSPC, "full")):
            self.assertRaises(OSError, store, path, {"settings": {}, "groups": {"c": 1}})
        self.assertEqual(load(path), (undo, []))
        with self.keeper() as keeper:
            os.mkdir(f"{self.run_folder}/undo")
            self.assertRaisesRegex(RunFailed, "nothing is changed", keeper.set, self.setting, "new")
            os.rmdir(f"{self.run_folder}/undo")
            self.assertRaisesRegex(Unavailable, "nothing/here", keeper.set, self.folder / "nothing/here", 1)
        self.assertEqual(self.setting.read_text(), "old\n")

    def test_a_setting_that_was_changed_since_is_left(self) -> None:
        code = f"from linux.common.keeper import Keeper\nwith Keeper('test', folder={self.run_folder!r}) as keeper:\n" \
               f"    keeper.set({str(self.setting)!r}, 'new')\n    open({str(self.setting)!r}, 'w').write('by an administrator')"
        done = subprocess.run([sys.executable, "-c", code], cwd=ROOT, capture_output=True, text=True, check=False)
        self.assertIn("has been changed since to 'by an administrator': left as it is", done.stderr)
        self.assertEqual(self.setting.read_text(), "by an administrator")
        self.setting.write_text("new\n")  # the tool was killed before it set the newer one
        self.assertEqual((self.put_back("former", "new", "newer")[0], self.setting.read_text()), ([], "former"))

    def test_one_tool_at_a_time(self) -> None:
        for _ in range(3):
            with self.keeper():
                self.assertRaisesRegex(Busy, f"test, process {os.getpid()}, is running", self.keeper)
