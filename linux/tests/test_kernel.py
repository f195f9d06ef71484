"""What the tools have in C, without a kernel's rights: the BPF programs and their loader, and mapping processes."""

from __future__ import annotations

import errno
import os
import re
import shutil
import socket
import subprocess
import tempfile
import unittest
from argparse import ArgumentTypeError
from pathlib import Path
from unittest import mock

from ..common import kernel_library, kernel_memory, proc
from ..common.errors import RunFailed
from ..common.files import read
from ..record.options import parse_size
from ..record.recorder import Taker
from ..replay import mappers
from ..replay.mappers import COMMAND, REPLY, WORDS, Mapper, Refusal, socket_pair
from .cases import ROOT

KERNEL = Path(__file__).resolve().parent.parent / "kernel"
CO_RE = """libbpf: prog 'read_queue': BPF program load failed: Invalid argument
0: <invalid CO-RE relocation>
failed to resolve CO-RE relocation <byte_off> [25] struct fdtable.fd (0:0 @ offset 0)
"""


class BuildTest(unittest.TestCase):
    @unittest.skipUnless(shutil.which("clang") and shutil.which("bpftool"), "no clang or bpftool (make deps)")
    def test_two_folders_give_the_same_bytes_without_a_warning(self) -> None:
        with tempfile.TemporaryDirectory() as name:
            folders = [Path(name) / "one", Path(name) / "some/other"]
            for folder in folders:
                shutil.copytree(KERNEL, folder / "kernel")
                shutil.copy(KERNEL.parent / "Makefile", folder)
                words = ["make", "-s", "-C", str(folder), "out/thpkernel.so", "WARNINGS=-Wall -Wextra -Werror"]
                done = subprocess.run(words, capture_output=True, text=True, check=False)
                self.assertEqual((done.returncode, done.stderr), (0, ""))
            self.assertEqual(*((folder / "out/thpkernel.so").read_bytes() for folder in folders))

    def test_functions_that_are_called_are_static(self) -> None:
        """While preemption is disabled, Linux 6.12 allows no others."""
        for path in KERNEL.glob("*.[ch]"):
            self.assertNotRegex(path.read_text(), r"(?m)^__noinline")


class MessageTest(unittest.TestCase):
    def test_what_is_missing_is_named_in_a_line(self) -> None:
        self.assertEqual(kernel_library.explain(CO_RE, 22), "this kernel has no fdtable.fd")
        self.assertIn("a field of this kernel is larger", kernel_library.explain("12: (85) call 57005\ninvalid func unknown#57005", 22))

    def test_rights_that_are_missing_are_named(self) -> None:
        for bits, wanted in ((0, ["CAP_BPF", "CAP_PERFMON"]), (1 << 39, ["CAP_PERFMON"]), (1 << 38, ["CAP_BPF"]), (1 << 21, [])):
            with mock.patch.object(proc, "read_bytes", return_value=b"Name:\tx\nCapEff:\t%016x\n" % bits):
                self.assertEqual(kernel_library.lacking_rights(), wanted)

    def test_nodes_with_memory_are_read_from_the_kernels_list(self) -> None:
        with tempfile.NamedTemporaryFile("w") as file, mock.patch.object(kernel_memory, "NUMA_NODES", file.name):
            file.write("0-1,3\n")
            file.flush()
            self.assertEqual(kernel_memory.numa_nodes(), [0, 1, 3])
        with mock.patch.object(kernel_memory, "NUMA_NODES", "/nonexistent"):
            self.assertEqual(kernel_memory.numa_nodes(), [0])


class DiskTest(unittest.TestCase):
    def test_sizes(self) -> None:
        self.assertEqual([parse_size(text) for text in ("100", "3K", "2M", "1G", "1T")], [100, 3 << 10, 2 << 20, 1 << 30, 1 << 40])
        for text in ("", "0", "1k", "-1", "1.5G", "1GB", "9" * 13):
            with self.assertRaises(ArgumentTypeError):
                parse_size(text)

    def test_nothing_is_taken_past_the_limit(self) -> None:
        track = mock.Mock(store=mock.Mock(size=40, count=3))
        track.take.side_effect = [True, False]
        taker = Taker([track, track], 100, mock.Mock(), None)
        taker.take()
        taker.take()
        self.assertEqual([each.args[0] for each in track.take.call_args_list], [20, 20])
        self.assertTrue(taker.is_full)


SUBPAGES, PINS = 512, 16


@unittest.skipUnless(shutil.which("cc"), "no C compiler")
class MapperTest(unittest.TestCase):
    """The compiled mapper."""

    path: str

    @classmethod
    def setUpClass(cls) -> None:
        folder = tempfile.mkdtemp()
        cls.addClassCleanup(shutil.rmtree, folder)
        cls.path = f"{folder}/mapper"
        words = ["cc", "-std=c11", "-O2", "-Wall", "-Wextra", "-Werror", "-o", cls.path]
        subprocess.run([*words, str(ROOT / "linux/replay/mapper.c")], check=True)

    def setUp(self) -> None:
        self.end, its = socket_pair()
        with its:
            self.process = subprocess.Popen([self.path], stdin=its.fileno())
        self.mapper = Mapper(self.end, self.process.pid)

    def tearDown(self) -> None:
        self.assertTrue(self.mapper.end())
        self.assertEqual(self.process.wait(600), 1)

    def alloc(self) -> None:
        try:
            self.mapper.alloc(9, ord("Z"))
        except Refusal as refusal:
            self.skipTest(f"no huge pages here: {refusal}")

    def test_messages_that_are_no_command_are_refused(self) -> None:
        for word in WORDS:
            if word != "alloc":
                with self.assertRaisesRegex(Refusal, "Invalid argument", msg=word):
                    self.mapper.request(word, 0, 1)
        self.alloc()
        for message in (COMMAND.pack(len(WORDS), 0, 0, 0), COMMAND.pack(-1, 0, 0, 0)):
            self.end.send(message)
            self.assertEqual(self.end.recv(100), REPLY.pack(-errno.EINVAL), message)
        self.assertRaises(Refusal, self.mapper.request, "alloc", 9)

    def test_bytes_are_written_where_they_belong(self) -> None:
        self.alloc()
        self.mapper.request("fill", 511, 1, 1)
        self.mapper.request("unmap", 0, 2)
        self.assertEqual(self.mapper.frames(0, 2), [None, None])
        try:
            with open(f"/proc/{self.process.pid}/mem", "rb", 0) as memory:
                content = os.pread(memory.fileno(), SUBPAGES * 4096, self.mapper.at)
            self.assertEqual(content, bytes(2 * 4096) + b"Z" * (509 * 4096) + b"\x01" * 4096)
        except PermissionError:
            pass

    def test_a_process_and_its_children_have_no_rights(self) -> None:
        self.alloc()
        child = self.mapper.fork()
        for number in (self.process.pid, child.number):
            rights = dict(re.findall(r"^(Cap(?:Prm|Eff|Inh|Amb)|NoNewPrivs):\s(.*)$", read(f"/proc/{number}/status"), re.MULTILINE))
            self.assertEqual(rights, {**dict.fromkeys(("CapInh", "CapPrm", "CapEff", "CapAmb"), "0" * 16), "NoNewPrivs": "1"})
        self.assertTrue(child.end())

    def test_pins_are_limited_and_a_childs_own(self) -> None:
        self.alloc()
        for word, last in (("pin", "Resource temporarily unavailable"), ("unpin", "No such file")):
            for _ in range(PINS):
                self.mapper.request(word, 3)
            with self.assertRaisesRegex(Refusal, last):
                self.mapper.request(word, 3)
        self.mapper.request("pin", 0)
        child = self.mapper.fork()
        with self.assertRaisesRegex(Refusal, "unpin: No such file"):
            child.request("unpin")
        self.assertTrue(child.end())

    def test_an_end_of_the_socket_ends_a_process_alone(self) -> None:
        self.alloc()
        child = self.mapper.fork()
        self.tearDown()
        self.assertEqual(len(child.frames(0, SUBPAGES)), SUBPAGES)
        self.assertTrue(child.end())
        with self.assertRaises(FileNotFoundError):  # at once, or a moment later
            while True:
                os.stat(f"/proc/{child.number}")

    def test_anything_but_a_socket_as_standard_input_ends_it(self) -> None:
        for kind in (subprocess.DEVNULL, subprocess.PIPE):
            with subprocess.Popen([self.path], stdin=kind) as process:
                self.assertEqual(process.wait(600), 1)


class RequestTest(unittest.TestCase):
    """The tool's end."""

    def test_a_process_that_ended_or_is_silent_is_named(self) -> None:
        for patience, reason in ((9, "has ended"), (0.05, "sends no reply")):
            mine, its = socket_pair()
            with mock.patch.object(mappers, "PATIENCE", patience), its:
                line = Mapper(mine)
                if patience > 1:
                    its.shutdown(socket.SHUT_RDWR)
                for pattern in (reason, "failed before"):
                    with self.assertRaisesRegex(RunFailed, pattern):
                        line.request("pin")
