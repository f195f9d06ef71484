"""Tests of thpwhatif beside hostile processes and large memory (root).

Names with any bytes, thousands of locked areas, hundreds of forks, pages given to MADV_FREE, missing capabilities, the
capabilities of thpwhatif.service, a PID namespace, noise beside `verify`, few descriptors, and a GiB of huge pages within a limit of
memory. The programs are those of hostile_pages.c."""

from __future__ import annotations

import itertools
import json
import os
import re
import shutil
import subprocess
import sys
import time
from contextlib import ExitStack
from pathlib import Path

from ..common.errors import DONE, FAILED, INCONCLUSIVE, SKIPPED
from ..common.groups import find_hierarchy
from ..common.text import text_lines
from .hostile import USER, HostileCase, whatif
from .cases import ROOT

ALL = (DONE, INCONCLUSIVE)  # statuses of a look at all processes: one may be unreadable even for root
LONGEST_LOOK = 15  # seconds, beside 2,000 locked areas
MOST_MEMORY = 150  # MiB that the tool may take, whatever is mapped
NAMES = [
    b"a\nb", b"\nVmLck: 1 kB", b"v\x0bt\x0cff", b"\x1cfs\x1dgs\x1ers", b"nel\xc2\x85", b"ls\xe2\x80\xa8ps\xe2\x80\xa9",
    b") R 1 1 1", b"\x1b[31mred", b"\\x41\\", b"\xff\xfe\x80", b"\r\rcr", b" ",
]
FILES = [
    b"x\nVmFlags: lo", b"x\x0bVmFlags: lo ", b"VmFlags: lo", b"7f0000000000-7fffffffffff rw-p\n7f00-7fff",
    b"\nffff-0 x", b"\xc2\x85VmFlags: lo", b"a" * 255, b"\\012VmFlags: lo",
]
KNOWN = str(ROOT / "linux/tests/looks/known.json")
SHOW = """
import os, re, sys
sys.path.insert(0, sys.argv.pop(1))
from linux.whatif import policies, program, stored
def show(*_):
    found = re.findall(r"^(?:CapEff|NoNewPrivs):\\s(.*)$", open("/proc/self/status").read(), re.MULTILINE)
    print(*os.getresuid(), os.getgroups(), *found)
    sys.exit()
policies.RecordedJournal.repeat = stored.StoredReader.read = show
program.main()
"""


class Looks(HostileCase):
    """Looks beside hostile processes."""

    def test_names(self) -> None:
        """Processes of another user whose names and files have any bytes; each maps a huge page, and locks no part of it."""
        stored = f"{self.pages.folder}/names.json"
        with ExitStack() as stack:
            running = set()
            for number, name in enumerate(NAMES):
                file = FILES[number % len(FILES)].replace(b"/", b"_") + b"%d" % number
                running.add(stack.enter_context(self.pages.run("named", name, file[-250:], user=USER)))
            self.check(whatif(["now", "--all", "--by-process", "--by-cgroup"]), *ALL)
            self.check(whatif(["snapshot", "--all", "-o", stored]), *ALL)
            self.check(whatif(["watch", "0.01", "--all", "--rounds", "2"]), *ALL)
            lines = self.check(whatif(["watch", "0.01", "--all", "--rounds", "2", "--json"]), *ALL).out.split("\n")[:-1]
            self.assertEqual([json.loads(line)["look"] for line in lines], [1, 2])
            for words in (["now", "--all"], ["what-if", stored]):
                look = self.check(whatif([*words, "--by-process", "--json"]), *ALL).json()
                self.assertLessEqual(running, {share["process"] for share in look["by_process"]["off"]})
        pages = [value for name, value in map(json.loads, text_lines(Path(stored).read_text())) if name == "folios"]
        kept = [page["kept"] for page in pages if any(mapping[0] in running for mapping in page["mappings"])]
        self.assertEqual(kept, ["0"] * len(running), "a name passes for a locked area")

    def test_group(self) -> None:
        """A control group whose name has any bytes."""
        group = os.fsencode(find_hierarchy().top) + b"/hostile \x0b\x1c\xc2\x85\xff)# node 0 (" + b"%d" % os.getpid()
        os.mkdir(group)
        try:
            with self.pages.run("plain", 2, group=group) as number:
                look = self.check(whatif(["now", "--pid", str(number), "--by-cgroup"]), DONE)
        finally:
            time.sleep(0.1)  # until its process has left it
            os.rmdir(group)
        self.assertIn("hostile \\x0b\\x1c\\xc2\\x85\\xff)# node 0 (", look.out)

    def test_locked(self) -> None:
        """64 MiB of half-dropped pages beside 2,000 locked areas."""
        with self.pages.run("locked", 64, 2000) as number:
            look = self.check(whatif(["now", "--pid", str(number), "--json"]), DONE)
        self.assertGreaterEqual(look.json()["rows"][0]["pages"], 32)
        self.assertLess(look.seconds, LONGEST_LOOK)

    def test_forks(self) -> None:
        """200 processes that map every second subpage of the same pages."""
        with self.pages.run("forks", 64, 200):
            look = self.check(whatif(["now", "--all", "--json"]), *ALL)
            limited = self.check(whatif(["now", "--all", "--json", "--memory", "2"]), INCONCLUSIVE)
        self.assertGreaterEqual(look.json()["rows"][0]["pages"], 32)
        self.assertLess(look.peak, MOST_MEMORY)
        self.assertLess(look.seconds, LONGEST_LOOK)
        self.assertTrue([why for why in limited.json()["unread"] if "--memory 2" in why], "the limit of memory isn't named")

    def test_freed(self) -> None:
        """Pages given to MADV_FREE are left out, and the others are predicted exactly."""
        with self.pages.run("freed", 32) as number:
            look = self.check(whatif(["now", "--pid", str(number), "--json"]), DONE).json()
        self.assertEqual([count for why, count in look["left_out"].items() if "MADV_FREE" in why], [8], "of 16 pages, 8 by a half")
        tried = self.check(whatif(["verify", "--rounds", "2", "--seed", "11", "--thresholds", "off,0,64,256", "--wait"]), *ALL)
        self.assertRegex(tried.out, "(?m)^ *[1-9][0-9]* +of these given to MADV_FREE$")

    def test_memory(self) -> None:
        """A GiB of huge pages, within a limit of memory."""
        found = re.search(r"^MemAvailable: +([0-9]+) kB$", Path("/proc/meminfo").read_text(), re.MULTILINE)
        if not found or int(found[1]) < 2 << 20:
            self.skipTest("less than 2 GiB of memory are available")
        with self.pages.run("plain", 1024):
            look = self.check(whatif(["now", "--all", "--by-process", "--json"]), *ALL)
        seen, counted = look.json()["rows"][0]["pages"], look.json()["sums"]["machine"] >> 21
        self.assertGreaterEqual(seen, counted * 0.95, "of the kernel's own count")
        self.assertLess(look.peak, MOST_MEMORY)

    def test_descriptors(self) -> None:
        """With few descriptors a look sees all, or ends with an error in one line: never `no huge pages`, and no false warning."""
        with self.pages.run("plain", 16) as number:
            for count in (8, 10, 12, 13, 14, 15, 16, 18, 20, 24, 32):
                call = whatif(["now", "--pid", str(number), "--json"], ["prlimit", f"--nofile={count}:{count}"])
                self.check(call, DONE, FAILED, SKIPPED)
                if call.status == DONE:
                    self.assertGreaterEqual(call.json()["rows"][0]["pages"], 8, count)
                    self.assertEqual(call.json()["of_these_changed"], 0, count)
                else:
                    self.assertIn("Too many open files", call.problems)

    def test_noise(self) -> None:
        """Predictions that are tried while another user splits pages: none differs."""
        words = ["verify", "--rounds", "5", "--pages", "6", "--thresholds", "off,0,64,256", "--seed", "3", "--wait"]
        with self.pages.run("noise", 16, user=USER):
            self.check(whatif(words), *ALL)


class Rights(HostileCase):
    """Capabilities and namespaces."""

    def setUp(self) -> None:
        if not shutil.which("setpriv") or not shutil.which("unshare"):
            self.skipTest("no setpriv or unshare")

    def test_capabilities(self) -> None:
        """Three capabilities are enough for a look; each of them that is missing is named."""
        names = ["bpf", "perfmon", "sys_ptrace"]
        with self.pages.run("plain", 4) as own, self.pages.run("plain", 4, user=USER) as other:
            for missing, process in itertools.product(["", *names], (own, other)):
                kept = ",".join(["-all", *(f"+{name}" for name in names if name != missing)])
                call = whatif(["now", "--pid", str(process), "--json"], ["setpriv", f"--bounding-set={kept}", "--inh-caps=-all"])
                if not missing or (missing == "sys_ptrace" and call.status == DONE):  # CAP_PERFMON is enough since Linux 6.13
                    self.assertGreaterEqual(self.check(call, DONE).json()["rows"][0]["pages"], 2)
                else:
                    self.assertIn(f"CAP_{missing.upper()}", self.check(call, SKIPPED).problems)

    def test_files(self) -> None:
        """What reads journals and stored looks is a user that nobody else has, without capabilities."""
        for words in (["policies", str(ROOT / "examples/kernel.journal")], ["what-if", KNOWN], ["target", "5", KNOWN]):
            done = subprocess.run([sys.executable, "-c", SHOW, str(ROOT), *words], capture_output=True, text=True, check=False)
            self.assertRegex(done.stdout, r"^(\d{10}) \1 \1 \[\] 0{16} 1\n$", done.stderr)

    def test_service(self) -> None:
        """With the capabilities of thpwhatif.service alone, its command sees the pages of another user, and knows the queues."""
        unit, path = (ROOT / "linux/whatif/thpwhatif.service").read_text(), Path(self.pages.folder) / "thp.prom"
        names = re.findall(r"CAP_([A-Z_]+)", re.findall("^CapabilityBoundingSet=(.+)$", unit, re.MULTILINE)[0])
        words = re.findall("^ExecStart=/usr/bin/thpwhatif (.+)$", unit, re.MULTILINE)[0].split()
        bounds = ",".join(["-all", *(f"+{name.lower()}" for name in names)])
        with self.pages.run("plain", 16, user=USER):
            before = ["setpriv", f"--bounding-set={bounds}", "--inh-caps=-all", "--no-new-privs"]
            self.check(whatif([*words[:-1], str(path)], before), *ALL)
        values = dict(re.findall(r"^(thpwhatif_[a-z_]+) ([0-9.]+)$", path.read_text(), re.MULTILINE))
        self.assertGreaterEqual(int(values["thpwhatif_huge_pages"]), 8)
        self.assertEqual(values["thpwhatif_queues_read"], "1")

    def test_namespace(self) -> None:
        """In a PID namespace the look reports that it sees only these processes, and compares no sum of the machine."""
        look = whatif(["now", "--all"], ["unshare", "--pid", "--fork", "--mount-proc"])
        if look.status == 1 and "unshare" in look.problems:
            self.skipTest("PID namespaces can't be made here")
        self.assertIn("PID namespace", self.check(look, *ALL).out)
        self.assertNotIn("whole machine", look.out)
