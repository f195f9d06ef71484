"""Bytes that another user chose: /proc, control groups, smaps; the command line of thpwhatif, whose faults are one line and a status."""

from __future__ import annotations

import contextlib
import ctypes
import io
import json
import os
import random
import signal
import subprocess
import sys
import tempfile
import unittest
from array import array
from collections import Counter
from pathlib import Path
from typing import Sequence
from unittest import mock

from ..common import helpers, proc, workers
from ..common.errors import InputFault, Unavailable
from ..common.files import BASE
from ..common.folios import compact_counts, even_counts
from ..common.reader import Spans
from ..common.spaces import live_thread
from ..whatif import program
from ..whatif.library import Library, load_library
from ..whatif.options import parser
from .cases import SCRIPT, FolderCase
from .whatif_samples import LACKING, LOOKS, NEEDS_LIBRARY, run

PIECES = [
    b"\n", b"\r", b"\x0b", b"\x0c", b"\x1c", b"\x1d", b"\x1e", b"\xc2\x85", b"\xe2\x80\xa8", b")", b" ", b"\t", b"\0", b"\xff",
    b"VmLck:", b"AnonHugePages:", b" 12 kB", b" -1 kB", b" 9999999999999999999999 kB", b"1 (a) S 1", b"0", b"7", b"-3",
]
SMAPS = b"%s rw-p 00000000 00:01 12 %s\nSize: 4 kB\nVmFlags: rd wr %sac \n"
AREAS = (b"[anon:VmFlags: lo]", b"/a\\012VmFlags: lo", b"/x\x0bVmFlags: lo ", b"/VmFlags: lo", b"/" + b"n" * 4000 + b" VmFlags: lo")


class Proc(FolderCase):
    """Files of /proc and of control groups that hold anything."""

    def setUp(self) -> None:
        super().setUp()
        patch = mock.patch.object(proc, "ROOT", str(self.folder))
        patch.start()
        self.addCleanup(patch.stop)
        (self.folder / "7").mkdir()

    def test_any_bytes(self) -> None:
        chance = random.Random(5)
        for _ in range(300):
            for name in ("7/status", "7/comm", "7/stat", "meminfo", "cgroup.procs"):
                pieces = [chance.choice(PIECES) for _ in range(chance.randrange(40))]
                (self.folder / name).write_bytes(os.urandom(200) if chance.random() < 0.4 else b"".join(pieces))
            self.assertGreaterEqual(proc.machine_huge(), 0)
            self.assertRegex(proc.name_of(7), "^[ -~]+$")
            with contextlib.suppress(proc.Unreadable):
                live_thread(7)
            self.assertTrue(all(number > 0 for number in proc.members(str(self.folder))))

    def test_lines_count_by_their_begin(self) -> None:
        (self.folder / "7" / "comm").write_bytes(b"a\n\xc2\x85\n")
        self.assertEqual(proc.name_of(7), "a\\x0a\\xc2\\x85")
        (self.folder / "7" / "stat").write_bytes(b"7 (a) R 1 1) T" + b" 1" * 48)
        self.assertEqual(proc.stat_fields(7)[0], b"T")
        (self.folder / "7" / "stat").write_bytes(b"7 (a) R 1 1) T 1 7 7")
        self.assertRaises(proc.Unreadable, proc.stat_fields, 7)
        self.assertEqual((proc.name_of(8), proc.stat_fields(8), live_thread(8)), ("ended", [], None))

    def test_groups_of_any_depth(self) -> None:
        """Also where a path is longer than any path may be."""
        here = os.open(self.folder, os.O_RDONLY)
        os.rmdir("7", dir_fd=here)
        os.mkdir("b", dir_fd=here)
        for _ in range(2501):
            os.mkdir("a", dir_fd=here)
            deeper = os.open("a", os.O_RDONLY, dir_fd=here)
            os.close(here)
            here = deeper
        with open(os.open("cgroup.procs", os.O_WRONLY | os.O_CREAT, dir_fd=here), "wb") as file:
            file.write(b"77\n")
        os.close(here)
        self.assertEqual((sum(1 for _ in proc.folders_below(str(self.folder))), proc.members(str(self.folder))), (2503, [77]))
        subprocess.run(["rm", "-rf", str(self.folder / "a")], check=True)  # shutil.rmtree doesn't go that deep


class Locked(unittest.TestCase):
    """Locked areas by smaps."""

    def found(self, data: bytes, most: int = 64) -> tuple[int, list[int]]:
        """How many areas are found, and the numbers that are filled in."""
        room = (ctypes.c_uint64 * (2 * most))()
        with tempfile.TemporaryFile() as file:
            file.write(data)
            file.flush()
            file.seek(0)
            count = workers.load_library().find_locked(file.fileno(), ctypes.addressof(room), most)
        return count, list(room)[: 2 * min(count, most)]

    def test_names_pass_for_nothing(self) -> None:
        text = b"".join(SMAPS % (b"%x-%x" % (n << 16, (n << 16) + 4096), name, b"") for n, name in enumerate(AREAS, 1))
        self.assertEqual(self.found(text), (0, []))
        text += SMAPS % (b"7f0000-7f1000", b"", b"lo ") + SMAPS % (b"7f1000-7f3000", b"/lo", b"lo ")
        text += SMAPS % (b"8f0000-8f1000", b"", b"lo ")
        self.assertEqual(self.found(text), (2, [0x7F0000, 0x7F3000, 0x8F0000, 0x8F1000]))
        self.assertEqual(self.found(text, 1), (2, [0x7F0000, 0x7F3000]))

    def test_any_bytes(self) -> None:
        chance = random.Random(6)
        pieces = [b"7f00-7f80 rw-p", b"\n", b"VmFlags: lo", b" ", b"-", b"ffffffffffffffffffff-1 ", b"\0", b"lo"]
        for _ in range(500):
            self.assertGreaterEqual(self.found(b"".join(chance.choice(pieces) for _ in range(chance.randrange(80))), 2)[0], 0)

    def test_spans_beside_a_plain_reading(self) -> None:
        chance = random.Random(7)
        for _ in range(200):
            at, pairs = 0, []
            for _ in range(chance.randrange(40)):
                low = at + chance.randrange(1, 40)
                at = low + chance.randrange(1, 30)
                pairs.append((low * BASE, at * BASE))
            spans = Spans(b"".join(number.to_bytes(8, sys.byteorder) for pair in pairs for number in pair))
            address, size = chance.randrange(400) * BASE, 1 << chance.choice((2, 4, 9))
            pages = [address + i * BASE for i in range(size)]
            plain = sum(1 << i for i, page in enumerate(pages) if any(low <= page < high for low, high in pairs))
            self.assertEqual(spans.subpages(address, size), plain)

    def test_compact_map_counts(self) -> None:
        self.assertIs(compact_counts(array("Q", [3] * 512)), even_counts(3, 512))
        for numbers in ([1, 2, 255, 0], [1, 256, 0, 70000], [0, 1 << 40, 0, 1]):
            self.assertEqual(list(compact_counts(array("Q", numbers))), [min(number, (1 << 32) - 1) for number in numbers])
        self.assertIsInstance(compact_counts(array("Q", [0, 1])), bytes)


WORDS = """now snapshot what-if target watch verify --pid --cgroup --all --wait --memory --orders --queued seen all --thresholds --json
--by-process --by-cgroup -o --rounds --prometheus --version --seed --pages --after --running --keep --user -- -1 0 1 60 61 nan inf -inf
1e999 0x1 1_0 - off off,0,511 512 1,,2 root nobody /dev/zero /dev/null /proc/self/mem / /nowhere/x FIFO JSON NEW --help --js
--nothing""".split()
WORDS += ["9" * 5000, " 1", "\u0661", "", "a\nb", "\x1b[31m", "\udcff", "no such"]


class CommandLine(FolderCase):
    """Words by chance: each ends with a status of its own and at most a few lines."""

    def setUp(self) -> None:
        super().setUp()
        os.mkfifo(self.folder / "fifo")
        self.paths = {"FIFO": f"{self.folder}/fifo", "NEW": f"{self.folder}/new", "JSON": str(LOOKS / "forks.json")}
        self.addCleanup(os.chdir, os.getcwd())
        os.chdir(self.folder)
        for number in (signal.SIGTERM, signal.SIGHUP):  # run_tool sets what they do
            self.addCleanup(signal.signal, number, signal.getsignal(number))

    def run_words(self, words: Sequence[str]) -> tuple[object, str]:
        """The status of these words, and what they wrote on standard error."""
        out, problems = io.StringIO(), io.StringIO()
        given = ["thpwhatif"] + [self.paths.get(word, word) for word in words]
        with mock.patch.object(sys, "argv", given), mock.patch("sys.stdin", io.TextIOWrapper(io.BytesIO(b"x"))):
            with contextlib.redirect_stdout(out), contextlib.redirect_stderr(problems), self.assertRaises(SystemExit) as end:
                program.main()
        return end.exception.code, problems.getvalue()

    def test_2000_lines_of_words(self) -> None:
        chance, seen = random.Random(10), Counter[object]()
        unavailable = mock.patch.object(program, "demand_root", side_effect=Unavailable("not root: a test"))
        with unavailable, mock.patch.object(program, "drop_rights"):
            for _ in range(2000):
                words = [chance.choice(WORDS[:6])] if chance.random() < 0.8 else []
                words += [chance.choice(WORDS) for _ in range(chance.randrange(6))]
                status, problems = self.run_words(words)
                self.assertIn(status, (0, 2, 3, 4, 75, 77), (words, problems))
                self.assertLessEqual(problems.count("\n"), 3, (words, problems))
                self.assertRegex(problems, r"^[\n -~]*$")
                self.assertNotRegex(problems, "Traceback|internal error", words)
                seen[status] += 1
        self.assertGreater(seen[2], 1000)


KNOWN = str(LOOKS / "known.json")
BAD_FILES = (("/nowhere", "/nowhere can't be read"), (SCRIPT, "this is no stored snapshot: line 1: no "))


class Program(unittest.TestCase):
    def refused(self, status: int, reported: str, *words: str, user: int | None = None) -> None:
        done = run(*words, user=user)
        self.assertEqual((done.returncode, done.stdout, done.stderr.count("\n")), (status, "", 1), done.stderr)
        self.assertRegex(done.stderr, f"^thpwhatif.*{reported}")

    def test_faults_of_words(self) -> None:
        for words, reported in (
            ((), "COMMAND"),
            (("nothing",), "invalid choice"),
            (("what-if",), "FILE"),
            (("what-if", KNOWN, "--thresholds", "512"), "'512'"),
            (("target", "0", "x"), "'0' is no size from 0.001 to"),
            (("target", "5XB", "x"), "'5XB' is no size from 0.001 to"),
            (("now", "--all", "--pid", "1"), "--all selects every process"),
            (("watch", "0", "--all"), "SECONDS"),
            *((("what-if", path), reported) for path, reported in BAD_FILES if not LACKING),
        ):
            self.refused(2, reported, *words)

    def test_sizes(self) -> None:
        for text, size in (("500", 500), ("0.5", 0.5), ("5G", 5120), ("5GiB", 5120), ("5GB", 5e9 / 2**20), ("2T", 2 << 20), ("1MiB", 1)):
            self.assertAlmostEqual(parser().parse_args(["target", text]).mebibytes, size)
        for text in ("", "G", "5K", "5gb", "5 G", "-5", "1e3", "nan", "5GIB"):
            self.assertRaises(InputFault, parser().parse_args, ["now", "--memory", text])

    def test_another_user_is_reported_in_one_line(self) -> None:
        for words in (("snapshot", "--all"), ("watch", "1", "--all"), ("verify",)):
            if "ermission" in run(*words, user=65534).stderr:
                self.skipTest("the source can't be read by another user here")
            self.refused(77, "not root", *words, user=65534)

    def test_no_library_is_reported(self) -> None:
        load_library.cache_clear()
        with mock.patch.object(helpers, "LINUX", Path("/nowhere")):
            with self.assertRaisesRegex(Unavailable, "a release has it; in a checkout: make c, then make -C linux"):
                load_library()
        self.assertRaises(Unavailable, Library, "/nowhere")


@NEEDS_LIBRARY
class Stored(FolderCase):
    def test_a_stored_snapshot(self) -> None:
        done = run("what-if", KNOWN, "--by-process", "--by-cgroup")
        self.assertEqual((done.returncode, done.stderr), (0, ""))
        self.assertIn("<- today", done.stdout)
        self.assertTrue(done.stdout.endswith("left out: nothing\n"))
        twice = run("what-if", KNOWN, str(LOOKS / "forks.json"), "--json")
        self.assertEqual(json.loads(twice.stdout)["rows"][1]["split"], 14 + 9)

    def test_a_target(self) -> None:
        self.assertIn("max_ptes_none 409 gives back 10.1 MiB and splits 6 huge pages", run("target", "10", KNOWN).stdout)
        self.assertIn("no threshold gives back 99 MiB: 0 gives 15.0 MiB", run("target", "99", KNOWN).stdout)

    def test_what_was_not_read_is_named(self) -> None:
        text = Path(KNOWN).read_text().replace("\n", '\n["unread", ["groups that ended", 2]]\n["unread", ["files", 1]]\n', 1)
        path = self.folder / "part.json"
        path.write_text(text)
        for words in (("what-if", str(path)), ("target", "10", str(path))):
            done = run(*words)
            self.assertEqual((done.returncode, done.stderr), (4, ""))
            self.assertIn("\nNOT READ: 2 groups that ended\nNOT READ: 1 files\n", "\n" + done.stdout)
            done = run(*words, "--json")
            self.assertEqual((done.returncode, json.loads(done.stdout)["unread"]), (4, {"groups that ended": 2, "files": 1}))
