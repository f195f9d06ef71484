"""`thpsplit` as another program: found, called, and its reports read."""

from __future__ import annotations

import os
import re
import shutil
import signal
import subprocess
from collections.abc import Sequence
from functools import lru_cache
from pathlib import Path
from typing import IO, NamedTuple, Union

from .errors import InputFault, RunFailed, Unavailable, signals_wait
from .files import read_input
from .helpers import INSTALLED, LINUX
from .journal import NodeJournal, journal_of
from .text import escape, text_lines
from .user import give_up_rights, user_without_rights

CRATES = LINUX.parent / "crates"
BUILT = CRATES / "thpsplit/out/thpsplit"


class TextError(InputFault):
    """The program rejects a text; the message has the line and the word of the error."""


class Verdict(NamedTuple):
    """The result of a check of a journal: legal, illegal at a line (from 1), or an error of the text."""

    legal: bool
    line: int | None
    text: str
    why: str = ""  # lines that explain an illegal one, where the check has such


def find(name: str, built: Path, given: str | None = None) -> str | None:
    """Returns the program of a name: the path given, the one that the environment names ($THPSPLIT, $THPCHECK), the one
    built in this repository or installed beside the tools, or the one on the path. None: there is none. Unavailable
    where one that is named isn't there."""
    named = given or os.environ.get(name.upper())
    beside = [LINUX.parents[2] / "bin" / name] if LINUX.parts[-3:] == INSTALLED else []
    places: list[str] = [named] if named else [str(place) for place in (built, *beside)] + [name]
    found = next((path for path in (shutil.which(place) for place in places) if path), None)
    if named and not found:
        raise Unavailable(f"no program {escape(named)}")
    return os.path.abspath(found) if found else None


Stream = Union[int, IO[bytes], None]
ENVIRONMENT = {"PATH": os.defpath, "LC_ALL": "C.UTF-8"}  # of the programs that run without rights: nothing of root's
MFD_EXEC = 0x10  # include/uapi/linux/memfd.h, from Linux 6.3 on


def start(
    path: str, options: Sequence[str], stdin: Stream = None, stdout: Stream = None, stderr: Stream = None,
    inherited: Sequence[int] = (),
) -> subprocess.Popen[bytes]:
    """Starts a program that needs no rights: where this tool is root, as a user without any right. It inherits these descriptors.
    Unavailable where it can't be run."""

    def begin() -> None:
        give_up_rights()
        signal.pthread_sigmask(signal.SIG_SETMASK, waiting)

    with signals_wait() as waiting:
        user = user_without_rights()
        try:
            image = [] if user.is_caller else [open_image(path)]
            return subprocess.Popen(
                [path, *options], executable=f"/proc/self/fd/{image[0]}" if image else path, stdin=stdin, stdout=stdout,
                stderr=stderr, cwd="/", pass_fds=[*image, *inherited], env=ENVIRONMENT, preexec_fn=begin, **user.rights(),
            )
        except (OSError, ValueError) as error:
            reason = getattr(error, "strerror", None) or str(error)
            rights = "" if user.is_caller else " as a user without rights (CAP_SETUID, CAP_SETGID)"
            raise Unavailable(f"{escape(path)} can't be run{rights}: {reason}") from error


@lru_cache(maxsize=None)
def open_image(path: str) -> int:
    """Returns the descriptor by which a program is started: of a copy that its user may run and can't read, so the kernel lets
    no other process trace it (ptrace(2), PR_SET_DUMPABLE). A script's interpreter has to read it: the file itself."""
    data = read_input(path)
    if data.startswith(b"#!"):
        return os.open(path, os.O_RDONLY | os.O_CLOEXEC)
    try:
        copy = os.memfd_create("program", os.MFD_CLOEXEC | MFD_EXEC)
    except OSError:
        copy = os.memfd_create("program", os.MFD_CLOEXEC)
    try:
        os.fchmod(copy, 0o711)
        with open(copy, "wb", closefd=False) as file:
            file.write(data)
        return os.open(f"/proc/self/fd/{copy}", os.O_PATH | os.O_CLOEXEC)  # by which nobody reads or writes it
    finally:
        os.close(copy)


def call(path: str, options: Sequence[str], given: str | int) -> subprocess.CompletedProcess[str]:
    """Runs a program on a text or an open file, from its start, and returns what it wrote."""
    stdin, text = (given, None) if isinstance(given, int) else (subprocess.PIPE, given.encode("utf-8", "surrogateescape"))
    if text is None:
        os.lseek(stdin, 0, os.SEEK_SET)
    child = start(path, options, stdin, subprocess.PIPE, subprocess.PIPE)
    try:
        out, problems = child.communicate(text)
    except BaseException:
        child.kill()
        child.wait()
        raise
    texts = (each.decode("utf-8", "surrogateescape") for each in (out, problems))
    return subprocess.CompletedProcess([path, *options], child.returncode, *texts)


def check(path: str, options: Sequence[str], journal: str | int) -> Verdict:
    """Returns whether a journal, as a text or an open file, is legal, by a program that checks it with these options. RunFailed
    where the program gives no verdict."""
    done = call(path, options, journal)
    output = (done.stdout or done.stderr).strip()
    found = re.fullmatch(r"illegal line ([0-9]{1,18})", output) if done.returncode == 1 else None
    if done.returncode not in (0, 1, 2) or (done.returncode == 1 and not found):
        raise RunFailed(f"{escape(path)} ended with status {done.returncode}: {escape(output)[:200]}")
    return Verdict(done.returncode == 0, int(found[1]) if found else None, output, done.stderr.strip() if found else "")


class Program:
    """`thpsplit`, as `find` looks for it. Unavailable where there is none."""

    def __init__(self, given: str | None = None) -> None:
        found = find("thpsplit", BUILT, given)
        if not found:
            raise Unavailable("no thpsplit: build it (make run), or name it by --program or THPSPLIT")
        self.path = found

    def report(self, kind: str, text: str, options: Sequence[str] = ()) -> str:
        """Returns a report on a script: `answers` or `journal`. TextError where the script has an error."""
        done = call(self.path, [*options, "--report", kind], text)
        if done.returncode == 2:
            raise TextError(escape(done.stderr.strip()))
        if done.returncode:
            raise RunFailed(f"{escape(self.path)} ended with status {done.returncode}: {escape(done.stderr.strip())[:200]}")
        return done.stdout

    def answers(self, text: str, options: Sequence[str] = ()) -> list[str]:
        """Returns the answers of all commands, in order, without their sections and places."""
        split = [line.split(" ", 2) for line in text_lines(self.report("answers", text, options))]
        if any(len(words) < 3 for words in split):
            raise RunFailed(f"{escape(self.path)} writes no answers")
        return [words[2] for words in split]

    def journal(self, text: str, options: Sequence[str] = ()) -> list[NodeJournal]:
        """Returns the journals of all nodes."""
        return journal_of(self.report("journal", text, options))

    def check(self, journal: str | int) -> Verdict:
        """Returns whether a journal, as a text or an open file, is legal."""
        return check(self.path, ["--check"], journal)
