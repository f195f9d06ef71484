"""Tries the tools on Debian's kernels, each booted once in a virtual machine: `make linux-vm`. apt downloads their packages, with lists
of its own, into linux/out/kernels; those that are there are used again.

    python3 tests/run.py linux/tests -p vm_trials.py [-k bookworm]

On each kernel the programs that read queues and those of the recorder load, random scripts agree, queues among them, readers of queues with
injected bugs are found, a recording is legal and as observed, and docs/LINUX.md has the kernel's column of differences. Where libthp and
setpriv are, thpwhatif (Linux 6.12) needs three capabilities, and names each that is missing. The judges are thpsplit and thpcheck where
they are built, else the plain reading of the model. A kernel that can't be had is skipped, and named."""

from __future__ import annotations

import re
import shutil
import subprocess
import unittest
from pathlib import Path

from ..common import checker, program
from ..common.errors import DIFFERS, DONE, INCONCLUSIVE, SKIPPED
from ..record.reasons import Count
from .cases import DOCUMENT, ROOT, VM, find_wrong

PROGRAM = "" if program.find("thpsplit", program.BUILT) else "--program linux/tests/plain_program.py"
CHECKER = "" if program.find("thpcheck", checker.BUILT) else "--checker linux/tests/plain_checker.py"
SCRIPTS = 10
STEPS = 600  # of a recording
RIGHTS = ("bpf", "perfmon", "sys_ptrace")
LOOKED_AT = """python3 -c 'import mmap, time; area = mmap.mmap(-1, 8 << 20, mmap.MAP_PRIVATE | mmap.MAP_ANONYMOUS); area.madvise(14)
area.write(b"1" * (8 << 20)); open("/tmp/ready", "w"); time.sleep(600)' & until test -e /tmp/ready; do sleep 1; done"""
"""A process with huge pages, and the wait for them."""
MIRROR, KEYS = "http://deb.debian.org/debian", "/usr/share/keyrings/debian-archive-keyring.gpg"


def fetch_kernel(suite: str) -> Path | None:
    """Returns the file of the package that has the kernel of a suite; None where it can't be had."""
    place = ROOT / "linux/out/kernels" / suite
    for folder in ("lists/partial", "cache/archives/partial"):
        (place / folder).mkdir(parents=True, exist_ok=True)
    (place / "sources.list").write_text(f"deb [signed-by={KEYS}] {MIRROR} {suite} main\n")
    options = ["-o", "APT::Sandbox::User=root"]
    for name, value in (("Etc::sourcelist", place / "sources.list"), ("Etc::sourceparts", "-"), ("State::lists", place / "lists"),
                        ("Cache", place / "cache"), ("State::status", "/dev/null")):
        options += ["-o", f"Dir::{name}={value}"]

    def call(tool: str, *words: str) -> str:
        return subprocess.run([tool, *options, *words], cwd=place, stdout=subprocess.PIPE, text=True, check=False).stdout

    package = "linux-image-amd64"
    if not list(place.glob("*.deb")):
        call("apt-get", "-qq", "update")
        while needed := re.search(r"^Depends:(?:.*[ ,|])?(linux-(?:image|binary)-[a-z0-9.+~-]+)", call("apt-cache", "show", package), re.M):
            package = needed[1]
        call("apt-get", "-qq", "download", package)
    return next(place.glob("*.deb"), None)


def looks_with_rights() -> str:
    """Returns a command that looks at a process with three capabilities, and without each of them; again where a slow guest has no time."""
    kept = (["-all", *(f"+{name}" for name in RIGHTS if name != missing)] for missing in ("", *RIGHTS))
    looks = (f"for again in 1 2 3 4 5; do setpriv --inh-caps=-all --bounding-set={','.join(each)} thpwhatif now --pid $!; status=$?; "
             f"test $status = {INCONCLUSIVE} || break; done; echo ended $status" for each in kept)
    return f"{{ {LOOKED_AT}; {'; '.join(looks)}; kill $!; }}"


class KernelTests(unittest.TestCase):
    def test_bookworm(self) -> None:
        self.try_kernel("bookworm", "inferred", "--page-orders 9")  # Linux 6.1 has no others

    def test_trixie(self) -> None:
        self.try_kernel("trixie", "observed")

    def test_trixie_backports(self) -> None:
        self.try_kernel("trixie-backports", "observed", numa_nodes=2)

    def try_kernel(self, suite: str, source: str, shape: str = "", numa_nodes: int = 1) -> None:
        """Runs all commands on a kernel, and judges each. `source`: of what a recording has of joins and splits."""
        replay = f"{PROGRAM} --quiet --node-counts 1,2 --queue-lengths 2,4,8,20 {shape}"
        commands = {
            "scripts": f"thpreplay {replay} --random {SCRIPTS}",
            "reverse": f"python3 -m linux.tests.wrong_queues reverse {replay} --random 5 --shrink 0",
            "other": f"python3 -m linux.tests.wrong_queues other {replay} --random 2 --shrink 0",
            "recording": f"thprecord {CHECKER} --require 50 --own 1,{STEPS},1",
            "letters": f"uname -r; thpreplay {PROGRAM} --fingerprint",
        }
        setpriv = shutil.which("setpriv")
        has_looks = bool(setpriv) and (ROOT / "linux/out/predict.so").exists() and not shape
        if has_looks:
            commands["rights"] = looks_with_rights()
        script = "; ".join(f"echo == {name}; {command} 2>&1; echo status $?" for name, command in commands.items())
        package = fetch_kernel(suite)
        if not package:
            self.skipTest(f"the kernel of {suite} can't be downloaded")
        words = ["--numa", str(numa_nodes), *(["--file", str(setpriv)] if has_looks else []), str(package), "--", "sh", "-c", script]
        shown = ""
        with subprocess.Popen([VM, *words], cwd=ROOT, stdin=subprocess.DEVNULL, stdout=subprocess.PIPE,
                              stderr=subprocess.STDOUT, text=True, errors="replace") as tool:
            assert tool.stdout
            for line in tool.stdout:
                print(line, end="", flush=True)
                shown += line
        if tool.returncode == SKIPPED:
            self.skipTest(shown.strip().split("\n")[-1])
        self.assertEqual(tool.returncode, DONE)
        found = dict(re.findall(r"^== (\w+)\n(.*?)^status \d+$", shown, re.MULTILINE | re.DOTALL))
        statuses = dict(zip(found, map(int, re.findall(r"^status (\d+)$", shown, re.MULTILINE))))
        wanted = {"scripts": DONE, "reverse": DIFFERS, "other": DIFFERS, "recording": DONE, "letters": DONE}
        self.assertEqual(statuses, {**wanted, **({"rights": DONE} if has_looks else {})})
        if has_looks:  # CAP_PERFMON is enough to read others since Linux 6.13
            last = "CAP_SYS_PTRACE.*ended 77" if suite == "trixie" else "ended 0"
            self.assertRegex(found["rights"], f"(?s)ended 0\n.*CAP_BPF.*ended 77\n.*CAP_PERFMON.*ended 77\n.*{last}\n")
        for name, pattern in (("scripts", rf"\b{SCRIPTS} agrees\n"), ("scripts", r"[1-9][0-9]* queues compared\n"),
                              ("recording", r"^legal.*\n(.*\n)* *[1-9][0-9]* queues compared"),
                              ("recording", rf"^joins and splits: {source}")):
            self.assertRegex(found[name], re.compile(pattern, re.MULTILINE))
        observed, contradicted = (sum(map(int, re.findall(rf"(\d+) {re.escape(each.text)}", found["recording"])))
                                  for each in (Count.OBSERVED, Count.CONTRADICTED))
        self.assertEqual(observed > 0, source == "observed")
        self.assertLessEqual(50 * contradicted, observed)
        release, _, letters = found["letters"].partition("\n")
        self.assertIsNone(find_wrong(release.strip(), letters, DOCUMENT.read_text(encoding="utf-8")))
