"""Text from outside, words of a command line, a tool's files, users and helpers; errors and their statuses."""

from __future__ import annotations

import os
import random
import stat
import subprocess
import unittest
from unittest import mock

from ..common import helpers, user
from ..common.arguments import OneLineParser, seconds, whole
from ..common.errors import FAILED, USAGE, InputFault, RunFailed, Unavailable, status_of
from ..common.files import NewFile, OwnFolder, read, read_input
from ..common.groups import checked_group
from ..common.program import start
from ..common.text import escape, text_lines
from .cases import FolderCase

ODD = ("\x0b", "\x0c", "\x1c", "\x1d", "\x1e", "\x85", "\u2028", "\u2029", "\r", "\x1b[2J", "\ud800", "\udcff", "\0")
STATE = ("import os; print(os.getuid(), os.getgroups(), os.getcwd(), sorted(os.environ), os.path.exists('/proc/self/fd/9'), "
         "[each for each in open('/proc/self/status') if 'NoNewPrivs' in each])")


class TextTest(unittest.TestCase):
    def test_nothing_but_printable_ascii_comes_out(self) -> None:
        chance = random.Random(1)
        texts: list[str | bytes] = [*ODD, bytes(range(256)), *(chance.randbytes(50) for _ in range(100))]
        for text in texts:
            self.assertRegex(escape(text), r"^[ -~]*$")
        self.assertEqual(escape("a\\b\nc\u2028"), r"a\\b\x0ac\xe2\x80\xa8")
        pairs = [bytes([first, second]) for first in range(256) for second in (92, 120, 10)]
        self.assertEqual(len({escape(text) for text in pairs}), len(pairs), "different texts are escaped differently")

    def test_lines_end_at_line_feeds_alone(self) -> None:
        for odd in ODD:
            self.assertEqual(text_lines(f"a{odd}b\nc\n"), [f"a{odd}b", "c"])
        self.assertEqual((text_lines("a\x0b\r\n\nb"), text_lines("")), (["a\x0b\r", "", "b"], []))

    def test_numbers_are_within_limits(self) -> None:
        parser = OneLineParser(prog="x", add_help=False)
        parser.add_argument("--count", type=whole(1, 9))
        parser.add_argument("--time", type=seconds(0.5, 60))
        asked = parser.parse_args(["--count", "9", "--time", "0.5"])
        self.assertEqual((asked.count, asked.time), (9, 0.5))
        for option, texts in (("--count", ("0", "10", "1.0", "1e1", "", "x", "9" * 400, "\u0661", "-1", " 1", "\udcff")),
                              ("--time", ("nan", "inf", "-1", "1e1", "61", "", "9" * 400, "0x1", "1_0", "\u0661"))):
            for text in texts:
                self.assertRaisesRegex(InputFault, r"^[ -~]{1,200}$", parser.parse_args, [f"{option}={text}"])

    def test_each_error_is_one_line_with_a_status(self) -> None:
        errors = {RunFailed("x\ny"): FAILED, InputFault("\u2028"): USAGE, OSError(28, "full", "a\nb"): FAILED,
                  ZeroDivisionError("z\n"): FAILED, MemoryError(): FAILED, RecursionError("deep"): FAILED,
                  Unavailable("none"): 77, KeyboardInterrupt(): 130}
        for error, status in errors.items():
            with mock.patch("sys.stderr") as out:
                self.assertEqual(status_of("tool", error), status)
            internal = "internal error: .*" if isinstance(error, (ArithmeticError, RecursionError)) else ""
            self.assertRegex("".join(each.args[0] for each in out.write.call_args_list), rf"^tool: {internal}[ -~]*\n$")


class FilesTest(FolderCase):
    def test_a_new_file_is_its_owners_alone_and_no_other_is_written(self) -> None:
        new, target = NewFile(self.folder / "new"), self.folder / "target"
        new.close()
        self.assertEqual(stat.S_IMODE((self.folder / "new").stat().st_mode), 0o600)
        target.write_text("precious")
        (self.folder / "link").symlink_to(target)
        (self.folder / "dangling").symlink_to(self.folder / "nothing")
        os.link(target, self.folder / "hard")
        os.mkfifo(self.folder / "pipe")
        for name in ("target", "link", "dangling", "hard", "pipe", ".", "no/where", "nul\0"):
            with self.assertRaises(InputFault, msg=name):
                NewFile(self.folder / name)
        self.assertEqual((target.read_text(), (self.folder / "nothing").exists()), ("precious", False))

    def test_a_folder_is_the_callers_own(self) -> None:
        folder, path = OwnFolder(self.folder / "made"), self.folder / "made"
        for text in ("one", "two"):  # an earlier file is replaced
            with folder.create("file") as file:
                file.write(text)
        self.assertEqual(((path / "file").read_text(), stat.S_IMODE(path.stat().st_mode)), ("two", 0o700))
        for name in ("", ".", "..", "a/b", "../x"):
            self.assertRaises(InputFault, folder.create, name)
        folder.close()
        path.chmod(0o777)
        (self.folder / "link").symlink_to(self.folder)
        for name in ("made", "link", "made/file", "no/where"):
            with self.assertRaises(InputFault, msg=name):
                OwnFolder(self.folder / name)

    def test_inputs_are_regular_files_of_a_limited_size(self) -> None:
        text = self.folder / "text"
        text.write_bytes(b"a\r\nb\rc\xff")
        self.assertEqual((read_input(text), read(text)), (b"a\r\nb\rc\xff", "a\r\nb\rc\udcff"))
        os.mkfifo(self.folder / "pipe")
        for path in map(str, (self.folder, self.folder / "pipe", self.folder / "none", "/dev/zero", "nul\0")):
            with self.assertRaises(InputFault, msg=path):
                read_input(path)
        self.assertRaisesRegex(InputFault, "more than", read_input, text, 3)

    def test_a_folder_that_is_no_control_group(self) -> None:
        (self.folder / "cgroup.procs").write_text("1\n")
        for path in (str(self.folder), "/", "/proc/self", "nul\0", "", "/sys/fs/cgroup/../../../tmp"):
            self.assertRaisesRegex(InputFault, "is no control group", checked_group, path)

    def test_helpers(self) -> None:
        """What isn't built is named with how to build it."""
        self.assertRaisesRegex(Unavailable, r"^nothing\.so isn't built: make -C .*linux builds it \(Debian: .*clang.*\)$",
                               helpers.helper, "nothing.so")


class UserTest(unittest.TestCase):
    def test_an_unknown_user_is_named(self) -> None:
        for name in ("no-such-user", "4294967", "", "\udcff", "\0", "9" * 50):
            self.assertRaises(InputFault, user.user_for, name)

    def test_programs_run_without_rights(self) -> None:
        output = start("/usr/bin/python3", ["-IS", "-c", STATE], stdout=subprocess.PIPE).communicate()[0]
        groups, number = os.getgroups() if os.geteuid() else [], user.user_without_rights().number
        self.assertEqual(output.decode().strip(), f"{number} {groups} / ['LC_ALL', 'PATH'] False ['NoNewPrivs:\\t1\\n']")

    @unittest.skipIf(os.geteuid(), "not root")
    def test_no_account_has_the_number_of_a_user_without_rights(self) -> None:
        self.assertIn(user.user_without_rights().number, user.UNUSED)
        user.user_without_rights.cache_clear()
        with mock.patch.object(user, "has_account", side_effect=[True, False]) as asked:
            self.assertEqual(user.user_without_rights().number, asked.call_args.args[0])
        self.assertEqual(asked.call_count, 2)
        user.user_without_rights.cache_clear()

    @unittest.skipIf(os.geteuid(), "not root")
    def test_a_program_is_not_traced_by_another_process_of_its_user(self) -> None:
        with start("/bin/sleep", ["60"]) as child:
            code = f"import os; print([os.access('/proc/{child.pid}/' + name, os.R_OK) for name in ('mem', 'environ', 'fd')])"
            done = subprocess.run(["/usr/bin/python3", "-c", code], capture_output=True, check=False, **user.user_without_rights().rights())
            child.kill()
        self.assertEqual(done.stdout, b"[False, False, False]\n")

    @unittest.skipIf(os.geteuid(), "not root")
    def test_the_user_behind_sudo(self) -> None:
        with mock.patch.dict(os.environ, {"SUDO_UID": "65534", "SUDO_COMMAND": "x"}):
            found = user.user_for(None)
            self.assertEqual((found.name, found.is_caller), ("nobody", False))
            self.assertNotIn("SUDO_COMMAND", found.environment())
            self.assertEqual(found.environment()["USER"], "nobody")
