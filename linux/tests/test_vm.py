"""Tests of thpvm without qemu: the guest's file system, its messages, its first process, and runs on a stand-in."""

from __future__ import annotations

import contextlib
import io
import os
import shutil
import subprocess
import sys
import unittest
from typing import Any
from unittest import mock

from ..common.errors import InputFault, RunFailed, Unavailable
from ..common.proc import name_of
from ..vm import guest_run, init
from ..vm.__main__ import parse_words
from ..vm.guest_files import FILE, LINK, PROGRAM, GuestFiles, libraries_of, path_in_guest
from ..vm.guest_run import QEMU, GuestRun, MessageReader, lines_of_console, words_of
from ..vm.kernels import find_kernel
from .cases import VM, Call, FolderCase, descendants, wait_until
from .qemu_stand_in import IMAGE, stand_in_for_qemu

COMMAND = ["image", "--", "ls"]


def call_tool(*words: str, env: dict[str, str] | None = None) -> Call:
    return Call([sys.executable, "-B", VM, *words], env=env)


class ArchiveTests(unittest.TestCase):
    """The initial file system."""

    def test_has_the_folders_of_each_path_before_it(self) -> None:
        out = io.BytesIO()
        archive = GuestFiles(out)
        archive.add("/a/b/program", PROGRAM, b"12345")
        archive.add("/a/b/program", FILE, b"another")
        archive.add("/a/link", LINK, b"b")
        archive.end()
        found, data, at = [], out.getvalue(), 0
        while at < len(data):
            fields = [int(data[at + 6 + 8 * i : at + 14 + 8 * i], 16) for i in range(13)]
            start = at + (110 + fields[11] + 3) // 4 * 4
            found.append((data[at + 110 : at + 109 + fields[11]].decode(), fields[1], data[start : start + fields[6]]))
            at = (start + fields[6] + 3) // 4 * 4
        self.assertEqual(found, [("a", 0o40755, b""), ("a/b", 0o40755, b""), ("a/b/program", 0o100755, b"12345"),
                                 ("a/link", 0o120777, b"b"), ("TRAILER!!!", 0, b"")])

    def test_files_are_at_their_paths_with_libraries_that_are_listed_without_a_run(self) -> None:
        for path, wanted in (("/lib64/ld.so", "/usr/lib64/ld.so"), ("/home/lib/a", "/home/lib/a")):
            self.assertEqual(path_in_guest(path), wanted)
        self.assertTrue(any("libc.so" in path for path in libraries_of("/usr/bin/env")))
        self.assertEqual(libraries_of(__file__), [])


class MessageTests(unittest.TestCase):
    """What a guest sends."""

    def test_messages_are_whole_however_they_are_cut(self) -> None:
        data = b"O\x03\x00\x00\x00abcS\x01\x00\x00\x004"
        for size in range(1, len(data) + 1):
            reader, found = MessageReader(), []
            for at in range(0, len(data), size):
                found += list(reader.add(data[at : at + size]))
            self.assertEqual(found, [(b"O", b"abc"), (b"S", b"4")])

    def test_other_bytes_are_refused(self) -> None:
        for data in (b"x\x00\x00\x00\x00", b"O\xff\xff\xff\xff"):
            with self.assertRaises(RunFailed):
                list(MessageReader().add(data))

    def test_the_console_ends_at_a_panic_and_is_printable(self) -> None:
        console = b"".join(b"line %d\x1b\r\n" % i for i in range(5000)) + b"[ 1] Kernel panic - not syncing: why\r\n trace\r\n"
        lines = lines_of_console(console)
        self.assertEqual((len(lines), lines[-2:]), (20, ["line 4999\\x1b", "[ 1] Kernel panic - not syncing: why"]))


class KernelTests(FolderCase):
    """The kernel that a command line names."""

    def test_what_is_no_kernel_is_named(self) -> None:
        (self.folder / "short").write_bytes(b"HdrS")
        for name in ("short", "missing", "."):
            with self.assertRaisesRegex(InputFault, "kernel image|can't be read"):
                find_kernel(str(self.folder / name))
        for name in ("vmlinuz-1", "vmlinuz-2"):
            (self.folder / name).write_bytes(IMAGE)
        with self.assertRaisesRegex(InputFault, "2 kernel images"):
            find_kernel(str(self.folder))
        (self.folder / "bzImage").write_bytes(IMAGE)
        self.assertEqual(find_kernel(str(self.folder))[1], IMAGE)

    @unittest.skipUnless(shutil.which("dpkg-deb"), "no dpkg-deb")
    def test_a_package_has_the_image(self) -> None:
        contents: dict[str, dict[str, bytes]] = {"with": {"usr/lib/modules/9/vmlinuz": IMAGE, "boot/config-9": b"x"}, "without": {}}
        for name, files in contents.items():
            control = f"Package: {name}\nVersion: 1\nArchitecture: amd64\nMaintainer: none <none@localhost>\nDescription: none\n"
            for path, data in {"DEBIAN/control": control.encode(), **files}.items():
                (self.folder / name / path).parent.mkdir(0o755, parents=True, exist_ok=True)
                (self.folder / name / path).write_bytes(data)
            subprocess.run(["dpkg-deb", "-b", str(self.folder / name)], check=True, capture_output=True)
        self.assertEqual(find_kernel(f"{self.folder}/with.deb")[1], IMAGE)
        with self.assertRaisesRegex(InputFault, "has no kernel image for x86"):
            find_kernel(f"{self.folder}/without.deb")
        (self.folder / "x.deb").write_bytes((self.folder / "with.deb").read_bytes()[:200])
        with self.assertRaisesRegex(RunFailed, "can't be read as a package"):
            find_kernel(str(self.folder / "x.deb"))


class WordTests(unittest.TestCase):
    """The command line."""

    def test_words_are_used_or_refused_in_one_line(self) -> None:
        options = parse_words(["--numa", "3", "image", "--", "ls", "--", "-l"])
        self.assertEqual((options.kernel, options.command), ("image", ["ls", "--", "-l"]))
        for words in (["image"], ["image", "--"], ["--numa", "0", *COMMAND], ["--accel", "x", *COMMAND]):
            with self.assertRaisesRegex(InputFault, "^[^\n]+$"):
                parse_words(words)

    def test_memory_and_processors_are_shared_among_the_nodes(self) -> None:
        for numa, words in (("1", ["2", "memory-backend-ram,id=memory0,size=2048M", "node,nodeid=0,memdev=memory0,cpus=0,cpus=1"]),
                            ("3", ["3", "memory-backend-ram,id=memory2,size=682M", "node,nodeid=2,memdev=memory2,cpus=2"])):
            self.assertLessEqual(set(words), set(words_of(parse_words(["--memory", "2048", "--numa", numa, *COMMAND]))))

    def test_errors_are_one_line_with_a_status(self) -> None:
        for words, status in ((["--bisect", "nothing", "--", "true"], 125), (["nothing", "--", "true"], 2)):
            done = call_tool(*words)
            self.assertEqual((done.status, done.problems.count("\n")), (status, 1))
        done = call_tool(*COMMAND, env={"PATH": "/nonexistent"})
        self.assertEqual((done.status, done.problems), (77, f"thpvm: skipped: no {QEMU} (Debian's package qemu-system-x86)\n"))


class FirstProcessTests(unittest.TestCase):
    """The guest's first process, as a process of this machine."""

    def test_outputs_and_status_are_the_commands(self) -> None:
        missing = b"/nonexistent/program: No such file or directory\n"
        for words, wanted, sent in (
            (["sh", "-c", "echo $HOME; echo wrong >&2; exit 3"], 3, [(b"E", b"wrong\n"), (b"O", b"/root\n")]),
            (["sh", "-c", "kill -9 $$"], 137, []), (["/nonexistent/program"], 127, [(b"E", missing)]),
        ):
            line, line_end = os.pipe()
            status = init.run_command(line_end, words, "/")
            os.close(line_end)
            with open(line, "rb") as file:
                found = list(MessageReader().add(file.read()))
            self.assertEqual((status, sorted(each for each in found if each[0] != b"B")), (wanted, sent))


class RunTests(unittest.TestCase):
    """Whole runs on a stand-in for qemu."""

    def setUp(self) -> None:
        with contextlib.ExitStack() as stack:
            self.folder, environment = stack.enter_context(stand_in_for_qemu())
            stack.enter_context(mock.patch.dict(os.environ, environment))
            self.addCleanup(stack.pop_all().close)
        self.console: list[str] = []

    def run_guest(self, word: str, accel: str = "emulation", silence: float = 60.0, limit: float = 0.0) -> tuple[int, bytes]:
        """Returns the status and the outputs; raises what the run does."""
        file = os.memfd_create("empty")
        options = parse_words(["--append", f"stand-in={word}", "--accel", accel, "--limit", str(limit), *COMMAND])
        run, streams = GuestRun("image", options, file, file), io.TextIOWrapper(io.BytesIO())
        try:
            with mock.patch("sys.stdout", streams), mock.patch("sys.stderr", streams), mock.patch.object(guest_run, "SILENCE", silence):
                return run.run(), streams.buffer.getvalue()  # type: ignore[attr-defined]
        finally:
            run.end()
            os.close(file)
            self.console = lines_of_console(run.console)

    def test_each_end_is_named(self) -> None:
        cases: list[tuple[str, type[Exception], str, dict[str, Any]]] = [
            ("panics", RunFailed, r"^image does not boot: \[ 0.2\] Kernel panic - not syncing: no init$", {}),
            ("never", RunFailed, "^image does not boot: it has sent nothing for 1 s$", {"silence": 1.0}),
            ("sleeps", RunFailed, "^image hangs: it has sent nothing for 1 s$", {"silence": 1.0}),
            ("sleeps", RunFailed, "^image does not end within 1 s$", {"limit": 1.0}),
            ("lacks", Unavailable, "^image lacks control groups of version 2$", {}),
            ("garbles", RunFailed, "^the guest sends what is no message", {}),
            ("mistakes", RunFailed, "^the guest sends no status: '256'$", {}),
            ("kvm", RunFailed, "^image can't run on this machine's KVM .*KVM internal error", {"accel": "auto"}),
        ]
        for word, error, text, more in cases:
            with self.subTest(text), self.assertRaisesRegex(error, text):
                self.run_guest(word, **more)
            self.assertIn("[ 0.1] Linux \\x1b[31mstand-in", self.console)
        for word in ("agrees", "kvm"):
            self.assertEqual(self.run_guest(word), (7, b"out\nerr\n"))

    def test_the_tool_ends_with_the_commands_status_and_qemu_with_the_tool(self) -> None:
        words = ["--accel", "emulation", str(self.folder / "image"), "--", "true"]
        done = call_tool("--append", "stand-in=agrees", *words)
        self.assertEqual((done.status, done.out, done.problems), (7, "out\n", "err\n"))
        self.assertEqual(call_tool("--bisect", "--append", "stand-in=agrees", *words).status, 125)
        tool_words = [sys.executable, "-B", VM, "--append", "stand-in=sleeps", *words]
        with subprocess.Popen(tool_words, stderr=subprocess.DEVNULL) as tool:
            self.assertTrue(wait_until(lambda: QEMU[:15] in map(name_of, descendants(tool.pid)), 600))
            children = descendants(tool.pid)
            tool.kill()
        self.assertTrue(wait_until(lambda: {"ended"} == {*map(name_of, children)}, 600))
