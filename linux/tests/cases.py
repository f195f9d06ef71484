"""What tests share, those of root among them."""

from __future__ import annotations

import json
import os
import re
import signal
import subprocess
import tempfile
import time
import unittest
from collections.abc import Callable, Sequence
from pathlib import Path
from types import FrameType
from typing import Any, NoReturn

from ..common.files import THP, read
from ..common.guardian import hierarchies
from ..common.keeper import Keeper
from ..common.proc import name_of, processes

ROOT = Path(__file__).resolve().parent.parent.parent
WHATIF, RECORD, REPLAY, VM = (str(ROOT / "linux" / name) for name in ("whatif/thpwhatif", "thprecord", "thpreplay", "thpvm"))
PLAIN, PLAIN_CHECKER = (str(ROOT / "linux/tests" / name) for name in ("plain_program.py", "plain_checker.py"))
PROGRAMS, EXAMPLES = ROOT / "linux/tests/programs", ROOT / "linux/whatif/examples"
SCRIPT = str(ROOT / "examples/first.script")
DOCUMENT = ROOT / "docs/LINUX.md"
NOBODY = 65534  # a user of each machine
HANGS = 600  # seconds after which a call hangs, however loaded the machine is


def heed_interrupts() -> None:
    """Undoes in a child that a shell's background job ignores SIGINT, and so would what it starts."""
    signal.signal(signal.SIGINT, signal.default_int_handler)


def end_test(_number: int, _frame: FrameType | None) -> NoReturn:
    """Ends a test that takes too long."""
    raise TimeoutError("it takes too long")


def wait_until(is_so: Callable[[], object], seconds: float) -> bool:
    """Waits until something is so, at most for these seconds; returns whether it is."""
    limit = time.monotonic() + seconds
    while not is_so():
        if time.monotonic() > limit:
            return False
        time.sleep(0.005)
    return True


def descendants(number: int) -> list[int]:
    """Returns the processes that a process started, and those that they started."""
    try:
        children = [int(each) for each in read(f"/proc/{number}/task/{number}/children").split()]
    except OSError:
        return []
    return children + [each for child in children for each in descendants(child)]


def machine_state() -> list[str]:
    """Returns every setting of transparent huge pages, the control groups of tools, the processes that they start, and what is in the
    folder of temporary files, while no tool runs; these processes have five seconds to end."""
    paths = [path for path in sorted(Path(THP).rglob("*")) if path.is_file() and path.stat().st_mode & 0o200 and "stats" not in path.parts]
    with Keeper("test", wait=True):
        own = ["not looked for"]

        def has_ended() -> bool:
            own[:] = [name_of(process) for process in processes() if name_of(process) in ("mapper", "workload", "known")]
            return not own

        wait_until(has_ended, 5)
        groups = [path for folder, _, _ in hierarchies() for path, _, _ in os.walk(folder) if "/thp" in path]
        return [f"{path} {read(path)}" for path in paths] + groups + own + sorted(os.listdir("/var/tmp"))


def find_wrong(release: str, shown: str, document: str) -> str | None:
    """Returns what is wrong with the document's matrix of known differences: where it has another column of a kernel than
    `thpreplay --fingerprint` prints; or nothing."""
    rows = [line.strip("|").split("|") for line in re.findall(r"^\|(?:Letter|[A-Z])\|.*$", document, re.MULTILINE)]
    found = re.findall(r"^([A-Z]): (\w+)(?:: (.*))?$", shown, re.MULTILINE)
    cells = [[letter, text if word == "neither" else word] for letter, word, text in found]
    at = rows[0].index(release) if release in rows[0] else 0
    return f"docs/LINUX.md has another column of {release}: {cells}" if at and cells != [[row[0], row[at]] for row in rows[1:]] else None


class Call:
    """A tool that ran to its end: its status, its texts (that on standard error without lines of waiting), its seconds, and its peak of
    memory in MiB. Until then `meanwhile` is called again and again, with the tool and the seconds since its start."""

    def __init__(self, words: Sequence[str], seconds: float = HANGS,
                 meanwhile: Callable[[subprocess.Popen[bytes], float], None] = lambda tool, since: None, **more: Any) -> None:
        began, texts = time.monotonic(), [b"", b""]
        given: dict[str, Any] = {"stdin": subprocess.DEVNULL, "stdout": subprocess.PIPE, "stderr": subprocess.PIPE, **more}
        given.setdefault("preexec_fn", heed_interrupts)
        with subprocess.Popen(words, **given) as tool:
            streams = [(at, stream) for at, stream in enumerate((tool.stdout, tool.stderr)) if stream]
            for _, stream in streams:
                os.set_blocking(stream.fileno(), False)  # a process that stays may hold it open
            try:
                while True:
                    ended = os.wait4(tool.pid, os.WNOHANG)
                    for at, stream in streams:
                        texts[at] += stream.read() or b""
                    if ended[0]:
                        break
                    meanwhile(tool, time.monotonic() - began)
                    if time.monotonic() - began > seconds:
                        tool.kill()
                    time.sleep(0.005)
            except BaseException:
                tool.terminate()
                raise
            self.status = tool.returncode = os.waitstatus_to_exitcode(ended[1])
        self.seconds, self.peak = time.monotonic() - began, ended[2].ru_maxrss / 1024
        self.out, problems = (text.decode("utf-8", "replace") for text in texts)
        self.problems = "".join(line + "\n" for line in problems.split("\n") if line and ": waiting until " not in line)

    def json(self) -> dict[str, Any]:
        """Its output as a JSON object."""
        found: dict[str, Any] = json.loads(self.out)
        return found


class FolderCase(unittest.TestCase):
    """Tests with a folder of their own, which every user may enter."""

    def setUp(self) -> None:
        self.folder = self.make_folder()

    def make_folder(self) -> Path:
        """Returns such a folder, which goes with the test."""
        made = tempfile.TemporaryDirectory(prefix="test-")
        self.addCleanup(made.cleanup)
        os.chmod(made.name, 0o755)
        return Path(os.path.realpath(made.name))


@unittest.skipIf(os.geteuid() != 0, "not root")
class RootCase(FolderCase):
    """Tests that need root, each with a time limit. A test names what the machine lacks by `skipTest`."""

    seconds = 2 * HANGS  # that a test gets, also while other tools take their turns

    def check(self, call: Call, *statuses: int, line: str = "") -> Call:
        """Checks that a call ended with one of these statuses, without a traceback, and with printable texts; with a line, by one on
        standard error that has it."""
        self.assertNotRegex(call.out + call.problems, "Traceback|internal error|[^\n -~]")
        self.assertIn(call.status, statuses, call.out[-300:] + call.problems[-300:])
        if line:
            self.assertEqual((call.problems.count("\n"), line in call.problems), (1, True), call.problems)
        return call

    def run(self, result: unittest.TestResult | None = None) -> unittest.TestResult | None:
        """Runs a test until its end, or its limit."""
        signal.signal(signal.SIGALRM, end_test)
        signal.alarm(self.seconds)
        try:
            return super().run(result)
        finally:
            signal.alarm(0)


class StateCase(RootCase):
    """Tests after which the machine's state is as before."""

    def setUp(self) -> None:
        super().setUp()
        self.before = machine_state()

    def tearDown(self) -> None:
        self.assertEqual(machine_state(), self.before)
