"""The scripts and journals of `examples/`, run by the program, and what README.md shows of them.

`NAME.args` contains the words of the command line, one a line; `NAME.stdout`, `NAME.stderr` and `NAME.status` contain the
expected results (no file: nothing, nothing, 0). With TRY=1, `rt try` builds the program from the current code and runs them, and
only standard output and the status are compared.
"""

from __future__ import annotations

import os
import re
import shutil
import subprocess
from pathlib import Path
from typing import Optional

from fixtures import ROOT, ProgramCase, add_tests, require_tool, temporary_folder

EXAMPLES = ROOT / "examples"
OTHERS = {name: ROOT / f"crates/{name}/out/{name}" for name in ("thpcheck", "thpdraw")}
"""The other programs, and where they are built."""

ENDED = re.compile(r"case=(\S+) run=ended status=(\d+)")


def cases() -> list[Path]:
    """The inputs: scripts and journals."""
    return sorted([*EXAMPLES.glob("*.script"), *EXAMPLES.glob("*.journal")])


def beside(case: Path, ending: str, default: str) -> str:
    """The text of a file of a case, or a default if there is none."""
    path = case.with_name(f"{case.name}.{ending}")
    return path.read_text() if path.exists() else default


def shown() -> list[tuple[str, str]]:
    """The commands of README.md's dialogues, each with what is shown of its output."""
    pairs: list[tuple[str, str]] = []
    for block in re.findall(r"```console\n(.*?)```", (ROOT / "README.md").read_text(), re.S):
        for part in re.split(r"^\$ ", block, flags=re.M)[1:]:
            command, _, output = part.partition("\n")
            pairs.append((command, output))
    return pairs


def wrong_status(case: Path, status: str) -> str | None:
    """How the status of a case differs from the expected one, or None."""
    wanted = beside(case, "status", "0\n").strip()
    return None if status == wanted else f"status is {status} instead of {wanted}"


def try_cases(folder: Path) -> dict[str, str | None]:
    """What is wrong with each case when `rt try` runs them, or None."""
    for case in cases():
        shutil.copy(case, folder)
        for ending in ("args", "stdout"):
            text = beside(case, ending, "")
            if text or ending == "stdout":
                (folder / f"{case.name}.{ending}").write_text(text)
    done = subprocess.run(["rt", "try", "--cases", folder], cwd=ROOT / "crates/thpsplit", capture_output=True, text=True, check=False)
    lines = (done.stdout + done.stderr).splitlines()
    reported = {match[1]: (match[2], line) for line in lines if (match := ENDED.match(line))}
    wrong: dict[str, str | None] = {}
    for case in cases():
        status, line = reported.get(case.name, ("none", ""))
        wrong[case.name] = wrong_status(case, status) or (f"output differs: {line}" if "differs" in line else None)
    return wrong


class Examples(ProgramCase):
    """Each script and journal, run by the program or by `rt try`."""

    tried: Optional[dict[str, str | None]] = None

    @classmethod
    def setUpClass(cls) -> None:
        """Finds the program, or tries all cases."""
        if os.environ.get("TRY") == "1":
            require_tool("rt")
            cls.tried = try_cases(temporary_folder(cls))
        else:
            super().setUpClass()

    def check(self, case: Path) -> str | None:
        """Returns what is wrong with a case, or None."""
        if self.tried is not None:
            return self.tried[case.name]
        with case.open("rb") as given:
            words = [str(self.program), *beside(case, "args", "").split()]
            done = subprocess.run(words, stdin=given, capture_output=True, timeout=60, check=False)
        for stream, text in {"stdout": done.stdout.decode(), "stderr": done.stderr.decode()}.items():
            wanted = beside(case, stream, "")
            if text != wanted:
                return f"{stream} is {text!r} instead of {wanted!r}"
        return wrong_status(case, str(done.returncode))


class Dialogues(ProgramCase):
    """README.md's dialogues. Those with another program are compared if that is built."""

    def test_readme_dialogues(self) -> None:
        folder = temporary_folder(self)
        (folder / "examples").symlink_to(EXAMPLES)
        (folder / "bin").mkdir()
        for name, path in {"thpsplit": self.program, **OTHERS}.items():
            (folder / "bin" / name).symlink_to(path)
        for command, output in shown():
            if any(name in command and not path.exists() for name, path in OTHERS.items()):
                continue
            with self.subTest(command=command):
                shell = f'PATH="{folder}/bin:$PATH"; exec 2>&1; {command}'
                done = subprocess.run(["sh", "-c", shell], cwd=folder, capture_output=True, text=True, check=False)
                self.assertEqual(done.stdout, output)


add_tests(Examples, Examples.check, ((f"examples/{case.name}", case) for case in cases()))
