"""The guardian of a run: puts the machine back when the tool ends, however it ends.

The tool stores what it changes, before it changes it, in the file `undo` of its folder, synced and whole: what can't be stored isn't
changed. It starts this file as a process of its own session, with a pipe as standard input; `ok` comes back once guardian and standby run.

The end is the end of that pipe: it comes also if the tool is killed. A second process of this file (the standby) puts everything
back if the guardian is killed, and the next start of a tool if all three are. Both leave the tool's control groups: what ends or
freezes a group reaches neither. The tool's lock is inherited, so no other tool begins before all is put back.

What could not be put back is reported on standard error, with status 1; groups are tried again by the next start of a tool. Nothing
of the package is imported, so that no error in it can keep the guardian from its work."""

from __future__ import annotations

import json
import os
import re
import select
import signal
import sys
import time
from contextlib import suppress
from typing import Any, Dict

PATIENCE = 10.0  # seconds that processes get to end, and control groups to become empty
STANDBY_PATIENCE = 2.0  # seconds that the standby gets to end
AT_ONCE = 100  # processes of which pidfds are open
UNDO = "undo"
HIERARCHIES = ("freezer", "memory")  # of version 1: those that end or freeze processes

# What is to be put back: of each of the `settings` the former text, then those that the tool set, if the file shows its value; of
# each of the `groups` its inode, or 0 as long as it isn't known.
Undo = Dict[str, Dict[str, Any]]


def load(path: str) -> tuple[Undo, list[str]]:
    """Returns what a file has to be put back, and a line if it can't be read."""
    nothing: Undo = {"settings": {}, "groups": {}}
    try:
        with open(path, "rb") as file:
            found = json.loads(file.read())
        return {kind: dict(found[kind]) for kind in nothing}, []
    except FileNotFoundError:
        return nothing, []
    except (OSError, ValueError, LookupError, TypeError, RecursionError) as error:
        return nothing, [f"{path} can't be read: what it was to put back isn't known ({type(error).__name__})"]


def store(path: str, undo: Undo) -> None:
    """Makes the file have this alone; nothing: it is removed. OSError if not all of it can be stored; the file is then as it was."""
    if not any(undo.values()):
        with suppress(FileNotFoundError):
            os.unlink(path)
        return
    new = os.open(f"{path}.new", os.O_WRONLY | os.O_CREAT | os.O_TRUNC | os.O_NOFOLLOW | os.O_CLOEXEC, 0o600)
    with open(new, "wb") as file:
        file.write(json.dumps(undo).encode())
        file.flush()
        os.fsync(new)
    os.rename(f"{path}.new", path)


def write(path: str | os.PathLike[str], text: object) -> None:
    """Writes a text into a file that exists, by one write, as sysfs and cgroupfs need it."""
    descriptor = os.open(path, os.O_WRONLY | os.O_TRUNC | os.O_CLOEXEC)
    try:
        os.write(descriptor, str(text).encode())
    finally:
        os.close(descriptor)


def selected_word(text: str) -> str:
    """Returns the value that a sysfs file holds: the word in brackets, or all of it."""
    marked = re.search(r"\[(.*?)\]", text)
    return marked[1] if marked else text.strip()


def restore(path: str, texts: list[str]) -> str:
    """Gives a setting its first text back, unless somebody else changed it; returns what is wrong, or nothing."""
    former, now = texts[0], ""
    with suppress(OSError), open(path, "rb") as file:
        now = selected_word(file.read().decode("utf-8", "replace"))
    if texts[1:] and now:
        if now == former:
            return ""
        if now not in texts:
            return f"{path} has been changed since to {now!r}: left as it is (it was {former!r} before)"
    try:
        write(path, former)
    except OSError as error:
        return f"{path} could not be put back to {former!r}: {error.strerror}" if os.path.exists(path) else ""
    return ""


def hierarchies(mounts: str | None = None) -> list[tuple[str, str, str]]:
    """Returns the mounted control group hierarchies as (folder, type, options), by /proc/mounts or a text of its form."""
    if mounts is None:
        with open("/proc/self/mounts", "rb") as file:
            mounts = file.read().decode("utf-8", "surrogateescape")
    out = []
    for words in (line.split(" ") for line in mounts.split("\n")):
        if len(words) > 3 and words[2] in ("cgroup", "cgroup2"):
            folder = re.sub(r"\\([0-7]{3})", lambda found: chr(int(found[1], 8)), words[1])
            out.append((folder, words[2], words[3]))
    return out


def leave_groups() -> None:
    """Moves this process to the top of the hierarchies by which processes are ended or frozen, if that is allowed."""
    for folder, kind, options in hierarchies():
        if kind == "cgroup2" or set(HIERARCHIES) & set(options.split(",")):
            with suppress(OSError):
                write(f"{folder}/cgroup.procs", os.getpid())


def folders_below(path: str) -> list[str]:
    """Returns a folder of cgroupfs and all folders below it, each before those in it. One that can't be read has none."""
    out = [path]
    for folder in out:
        with suppress(OSError), os.scandir(folder) as found:
            out += [entry.path for entry in found if entry.is_dir(follow_symlinks=False)]
    return out


def members(group: str) -> list[int]:
    """Returns the processes of a control group alone; 0 (a process of another namespace) isn't one."""
    try:
        with open(f"{group}/cgroup.procs", "rb") as file:
            return [int(line) for line in file.read().split(b"\n") if line.isdigit() and int(line) > 0]
    except OSError:
        return []


def signal_members(group: str, number: int = signal.SIGKILL) -> bool:
    """Signals the processes of a control group alone, by pidfds from before it still had them, so that the signal reaches no other that has
    a number of theirs; returns whether it has any."""
    processes = members(group)
    for first in range(0, len(processes), AT_ONCE):
        pidfds = {}
        for process in processes[first : first + AT_ONCE]:
            with suppress(OSError):  # it has ended
                pidfds[process] = os.pidfd_open(process)
        still = members(group)
        for process, pidfd in pidfds.items():
            with suppress(OSError):
                if process in still:
                    signal.pidfd_send_signal(pidfd, number)
            os.close(pidfd)
    return bool(processes)


def kill_group(path: str, inode: int) -> bool:
    """Kills the processes of a control group that has this inode, and of those in it, by an open descriptor: no other folder can take
    its place. Returns whether there were any."""
    try:
        descriptor = os.open(path, os.O_RDONLY | os.O_DIRECTORY | os.O_NOFOLLOW | os.O_CLOEXEC)
    except OSError:
        return False
    try:
        if os.fstat(descriptor).st_ino != inode:
            return False
        folders = folders_below(f"/proc/self/fd/{descriptor}")
        for folder in folders:  # a frozen process of version 1 ends once it is thawed
            for name, text in (("freezer.state", "THAWED"), ("cgroup.freeze", "0"), ("cgroup.kill", "1")):
                with suppress(OSError):
                    write(f"{folder}/{name}", text)
        return any([signal_members(folder) for folder in folders])
    finally:
        os.close(descriptor)


def empty_groups(groups: dict[str, int], until: float) -> bool:
    """Kills the processes of control groups of ours, and waits until they have ended; returns whether they have."""
    while any([kill_group(path, inode) for path, inode in groups.items()]):
        if time.monotonic() > until:
            return False
        time.sleep(0.01)
    return True


def remove_group(path: str, until: float) -> str:
    """Removes an empty control group and those in it, once the last process has ended; returns what is wrong."""
    while True:
        try:
            for group in reversed(folders_below(path)):
                os.rmdir(group)
            return ""
        except FileNotFoundError:
            return ""
        except OSError as error:
            if time.monotonic() > until:
                return f"{path} could not be removed: {error.strerror}"
        time.sleep(0.01)


def put_back(undo: Undo) -> tuple[list[str], dict[str, int]]:
    """Puts settings and groups back; returns what could not be put back, in words, and the groups to try again. Settings come first, before
    anything is waited for. A setting that a group of ours holds (cgroup.subtree_control of version 2) is tried again after the groups."""
    settings = dict(reversed(list(undo["settings"].items())))
    problems = {path: restore(path, texts) for path, texts in settings.items()}
    until, left, groups = time.monotonic() + PATIENCE, {}, {}
    for path, inode in undo["groups"].items():
        with suppress(OSError):
            if os.stat(path).st_ino == inode or not inode:  # it may be ours
                groups[path] = inode
    empty_groups(groups, until)
    for path, inode in reversed(list(groups.items())):
        problems[path] = remove_group(path, until if inode else 0.0)
        if problems[path]:
            left[path] = inode
    for path in filter(problems.get, settings):
        problems[path] = restore(path, settings[path])
    return [problem for problem in problems.values() if problem], left


def put_back_all(folder: str) -> tuple[Undo, list[str]]:
    """Puts back what is stored below a folder; returns what that was, and what could not be put back. Those groups stay stored."""
    undo, unread = load(f"{folder}/{UNDO}")
    problems, left = put_back(undo)
    with suppress(OSError):
        store(f"{folder}/{UNDO}", {"settings": {}, "groups": left})
    return undo, unread + problems


def report(problems: list[str]) -> int:
    """Prints what could not be put back; returns the status."""
    for problem in problems:
        print(f"guardian: {problem}", file=sys.stderr, flush=True)
    return 1 if problems else 0


def stand_by(guardian: int, folder: str) -> int:
    """Waits until the guardian has ended. If it was killed, puts everything back once the tool ends."""
    os.setsid()
    os.close(sys.stdout.fileno())
    if os.read(guardian, 1):
        return 0
    os.read(sys.stdin.fileno(), 1)
    return report(put_back_all(folder)[1])


def main() -> int:
    """Starts the standby, and waits for the tool's end; the word is the tools' folder."""
    for each in (signal.SIGINT, signal.SIGTERM, signal.SIGHUP, signal.SIGQUIT, signal.SIGPIPE, signal.SIGTSTP):
        signal.signal(each, signal.SIG_IGN)
    leave_groups()
    ends, done = os.pipe()
    try:
        standby = os.fork()
    except OSError as error:
        print(f"the guardian can't start its standby: {error.strerror}")
        return 1
    if standby == 0:
        os.close(done)
        return stand_by(ends, sys.argv[1])
    os.close(ends)
    waiting = os.pidfd_open(standby)
    with suppress(OSError):  # the tool has ended
        print("ok", flush=True)
    os.read(sys.stdin.fileno(), 1)
    status = report(put_back_all(sys.argv[1])[1])
    with suppress(OSError):
        os.write(done, b"1")
    os.close(done)
    select.select([waiting], [], [], STANDBY_PATIENCE)  # it has the tool's lock, too
    return status


if __name__ == "__main__":
    sys.exit(main())
