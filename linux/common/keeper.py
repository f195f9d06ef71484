"""One run on the machine: the lock that all tools share, and everything that is put back at any end.

    with Keeper("thpname") as keeper:
        keeper.set(SWITCH, 1)                # the former value comes back
        keeper.make_group(path)              # removed, with its processes killed

A guardian (guardian.py) does so at an exception, a signal and SIGKILL of the tool alike. What is to be put back is on disk before
each change, so that if the guardian is killed too, its standby or the next start of any tool puts it back (`recover`)."""

from __future__ import annotations

import ctypes
import fcntl
import os
import stat
import subprocess
import sys
from contextlib import suppress
from pathlib import Path

from .errors import Busy, RunFailed, Unavailable
from .files import PathText, read, read_bytes, selected_word, write
from .guardian import UNDO, Undo, load, put_back_all, store
from .text import escape

FOLDER = "/run/leversorrel"  # the tools' own: root's, mode 0700; gone with the next start of the machine
HOLDER = "lock"  # names who has the lock
FSOPEN, FSCONFIG, FSMOUNT = 430, 431, 432  # system calls, the same on all processors
CREATE, CLOSE_ON_EXEC = 6, 1  # FSCONFIG_CMD_CREATE; FSOPEN_CLOEXEC, FSMOUNT_CLOEXEC
GUARDIAN = Path(__file__).with_name("guardian.py")


def open_folder(folder: str) -> None:
    """Makes the tools' folder if it is missing. Unavailable if it isn't the caller's own, mode 0700."""
    try:
        with suppress(FileExistsError):
            os.mkdir(folder, 0o700)
        found = os.lstat(folder)
    except OSError as error:
        raise Unavailable(f"{folder} can't be made: {error.strerror}") from error
    if not stat.S_ISDIR(found.st_mode) or found.st_uid != os.geteuid() or found.st_mode & 0o077:
        raise Unavailable(f"{folder} isn't the caller's own folder with mode 0700")


def open_shared() -> int:
    """Opens the root folder of tracefs, which a kernel has once in all namespaces, and only root opens. OSError if there is none."""
    library = ctypes.CDLL(None, use_errno=True)

    def call(*words: object) -> int:
        result = int(library.syscall(*words))
        if result < 0:
            raise OSError(ctypes.get_errno(), os.strerror(ctypes.get_errno()))
        return result

    context = call(FSOPEN, b"tracefs", CLOSE_ON_EXEC)
    try:
        call(FSCONFIG, context, CREATE, None, None, 0)
        mount = call(FSMOUNT, context, CLOSE_ON_EXEC, 0)
    finally:
        os.close(context)
    try:
        return os.open(".", os.O_RDONLY | os.O_DIRECTORY | os.O_CLOEXEC, dir_fd=mount)
    finally:
        os.close(mount)


def open_lock(folder: str) -> int:
    """Opens what the lock is on: what the whole machine shares, or this folder, if it isn't the tools' own."""
    open_folder(folder)
    if folder != FOLDER:
        return os.open(folder, os.O_RDONLY | os.O_DIRECTORY | os.O_CLOEXEC)
    try:
        return open_shared()
    except OSError as error:
        raise Unavailable(f"the machine's lock (tracefs) can't be opened: {error.strerror}") from error


def take_lock(folder: str, name: str, wait: bool) -> int:
    """Returns the lock's descriptor once it is held. Busy, with the holder's name, if it is taken; `wait`: waits until it is free."""
    lock, named = open_lock(folder), f"{folder}/{HOLDER}"
    try:
        try:
            fcntl.flock(lock, fcntl.LOCK_EX | fcntl.LOCK_NB)
        except BlockingIOError as error:
            holder = "another tool"
            with suppress(OSError):
                holder = escape(read_bytes(named)[:200]).replace("\\x0a", "") or holder
            if not wait:
                raise Busy(f"{holder} is running (--wait waits until it has ended)") from error
            print(f"{name}: waiting until {holder} has ended", file=sys.stderr, flush=True)
            fcntl.flock(lock, fcntl.LOCK_EX)
        with open(named, "w", encoding="ascii", opener=lambda path, flags: os.open(path, flags | os.O_NOFOLLOW, 0o600)) as file:
            file.write(f"{name}, process {os.getpid()},\n")
    except BaseException:
        os.close(lock)
        raise
    return lock


def put_back_what_was_left(folder: str) -> list[str]:
    """Puts back what a run left that was killed with its guardian, and returns lines that report it. The lock is held."""
    if not os.path.exists(f"{folder}/{UNDO}"):
        return []
    undo, problems = put_back_all(folder)
    counts = {"settings": len(undo["settings"]), "control groups": len(undo["groups"])}
    found = ", ".join(f"{count} {what}" for what, count in counts.items() if count)
    return [f"put back what a killed run left: {found or 'nothing'}", *map(escape, problems)]


def recover(name: str) -> list[str]:
    """Puts back the same with the lock, and returns these lines. Does nothing without root's rights, and while another tool runs."""
    if os.geteuid() != 0 or not os.path.exists(f"{FOLDER}/{UNDO}"):
        return []
    try:
        lock = take_lock(FOLDER, name, False)
    except (Busy, Unavailable):
        return []
    try:
        return put_back_what_was_left(FOLDER)
    finally:
        os.close(lock)


class Keeper:
    """Holds the lock from its making to its end. Busy if another tool has it; `wait`: waits for that tool's end."""

    def __init__(self, name: str, wait: bool = False, folder: str = FOLDER) -> None:
        self._lock = take_lock(folder, name, wait)
        for line in put_back_what_was_left(folder):
            print(f"{name}: {line}", file=sys.stderr, flush=True)
        self._path = f"{folder}/{UNDO}"
        self._undo = load(self._path)[0]
        self._guardian: subprocess.Popen[bytes] | None = None
        try:
            self._guardian = subprocess.Popen(
                [sys.executable, "-I", "-S", str(GUARDIAN), folder], stdin=subprocess.PIPE, stdout=subprocess.PIPE, cwd="/",
                start_new_session=True, pass_fds=(self._lock,),
            )
        except OSError as error:
            os.close(self._lock)
            raise RunFailed(f"the guardian can't be started: {error.strerror}") from error
        assert self._guardian.stdout
        with self._guardian.stdout as output:
            answer = output.readline().strip()
        if answer != b"ok":
            self.close()
            raise RunFailed(answer.decode("utf-8", "replace") or "the guardian can't be started")

    def __enter__(self) -> Keeper:
        return self

    def __exit__(self, *_: object) -> None:
        self.close()

    def set(self, path: PathText, value: object, undo: str | None = None) -> None:
        """Writes a setting. At the end its former value comes back, or `undo` if the file doesn't show its value."""
        name, text = str(path), str(value)
        try:
            former = selected_word(read(name)) if undo is None else undo
            if undo is None and former == text:
                return
            texts = self._undo["settings"].get(name, [former])
            self._note("settings", name, texts if undo is not None or text in texts else [*texts, text])
            write(name, value)
        except OSError as error:
            raise Unavailable(f"{name} can't be set to {value}: {error.strerror}") from error

    def make_group(self, path: PathText) -> int:
        """Makes a control group, and returns its inode. Until that is stored, it is only removed at the end if it is empty."""
        before, name = self._undo, str(path)
        try:
            self._note("groups", name, 0)
            try:
                os.mkdir(name, 0o755)
            except OSError:
                self._store(before)
                raise
            inode = os.stat(name).st_ino
            self._note("groups", name, inode)
            return inode
        except (OSError, RunFailed) as error:
            raise Unavailable(f"control group {name} can't be made: {getattr(error, 'strerror', None) or error}") from error

    def close(self) -> None:
        """Has the guardian restore everything, and waits for it. It reports on standard error what it could not restore."""
        guardian, self._guardian = self._guardian, None
        if guardian is None:
            return
        assert guardian.stdin
        guardian.stdin.close()
        guardian.wait()
        os.close(self._lock)

    def _check(self) -> None:
        """RunFailed where the guardian has ended."""
        if self._guardian is None or self._guardian.poll() is not None:
            raise RunFailed("the guardian has ended: nothing more may be changed")

    def _note(self, kind: str, path: str, value: list[str] | int) -> None:
        """Stores what is to be put back, before it is changed. RunFailed where that isn't possible."""
        self._check()
        try:
            self._store({**self._undo, kind: {**self._undo[kind], path: value}})
        except OSError as error:
            raise RunFailed(f"{self._path}: {error.strerror}: nothing is changed") from error

    def _store(self, undo: Undo) -> None:
        store(self._path, undo)
        self._undo = undo
