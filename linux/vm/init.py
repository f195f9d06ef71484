#!/usr/bin/python3 -IB
"""The first process of thpvm's guest: mounts file systems, runs the command, and sends its output and status.

It sends messages over the second serial line: a letter, the length of the content (32 bits, little-endian), the content.

    R   ready: the command begins
    O   standard output, E   standard error
    B   a beat, where there was no output for a second
    L   the kernel lacks something: what it is
    S   the status, at the end

Nothing of the package is imported, so that the guest needs little of it before its file systems are mounted."""

from __future__ import annotations

import ctypes
import json
import os
import select
import struct
import subprocess
import sys
import termios
import time
import traceback
import tty
from typing import Any, NoReturn

PLAN = "/etc/thpvm.json"
LINE = "/dev/ttyS1"
BEAT, PAUSE = 1.0, 0.05  # seconds between beats while the command is silent; between looks whether it has ended without outputs
GRACE = 2.0  # seconds for outputs that other processes hold after the command's end
PART = 4096  # bytes of one message
ENVIRONMENT = {"PATH": "/usr/local/sbin:/usr/local/bin:/usr/sbin:/usr/bin", "HOME": "/root", "LC_ALL": "C.UTF-8", "TERM": "dumb"}
NOT_FOUND, NOT_STARTED, BY_SIGNAL = 127, 126, 128  # a shell's statuses
LIBC = ctypes.CDLL(None, use_errno=True)


def mount(kind: str, place: str) -> str:
    """Mounts a file system; returns what is wrong, or nothing."""
    os.makedirs(place, exist_ok=True)
    failed = LIBC.mount(kind.encode(), place.encode(), kind.encode(), 0, None)
    return os.strerror(ctypes.get_errno()) if failed else ""


def send(line: int, letter: bytes, content: bytes = b"") -> None:
    """Sends one message."""
    data = letter + struct.pack("<I", len(content)) + content
    while data:
        data = data[os.write(line, data):]


def run_command(line: int, words: list[str], folder: str) -> int:
    """Runs a command in a folder, sends what it writes, and returns its status, as a shell has it."""
    try:
        child = subprocess.Popen(words, cwd=folder, env=ENVIRONMENT, stdin=subprocess.DEVNULL, stdout=subprocess.PIPE,
                                 stderr=subprocess.PIPE, start_new_session=True)
    except OSError as error:
        send(line, b"E", f"{words[0]}: {error.strerror}\n".encode("utf-8", "backslashreplace"))
        return NOT_FOUND if isinstance(error, FileNotFoundError) else NOT_STARTED
    assert child.stdout and child.stderr
    sources = {child.stdout.fileno(): b"O", child.stderr.fileno(): b"E"}
    status: int | None = None
    until = 0.0  # outputs are read after the command's end
    while status is None or (sources and time.monotonic() < until):
        ready, _, _ = select.select(list(sources), [], [], BEAT if sources else PAUSE)
        for source in ready:
            data = os.read(source, PART)
            send(line, sources[source] if data else b"B", data)
            if not data:
                del sources[source]
        if not ready:
            send(line, b"B")
        number = 1
        while status is None and number:  # the first process takes the statuses of all
            number, code = os.waitpid(-1, os.WNOHANG)
            if number == child.pid:
                status, until = code, time.monotonic() + GRACE
    code = os.waitstatus_to_exitcode(status)
    return code if code >= 0 else BY_SIGNAL - code


def run(line: int) -> None:
    """Carries out the plan."""
    with open(PLAN, encoding="utf-8") as file:
        plan: dict[str, Any] = json.load(file)
    if problem := mount("cgroup2", "/sys/fs/cgroup"):
        send(line, b"L", f"control groups of version 2: {problem}".encode())
        return
    send(line, b"R")
    send(line, b"S", str(run_command(line, plan["command"], plan["folder"])).encode())


def main() -> NoReturn:
    for kind, place in (("proc", "/proc"), ("sysfs", "/sys"), ("devtmpfs", "/dev"), ("tmpfs", "/dev/shm"),
                        ("debugfs", "/sys/kernel/debug"), ("tracefs", "/sys/kernel/tracing")):
        mount(kind, place)
    try:
        line = os.open(LINE, os.O_RDWR | os.O_NOCTTY)
        tty.setraw(line, termios.TCSANOW)  # bytes go as they are
        run(line)
    except Exception:
        traceback.print_exc()
    sys.stderr.flush()
    while True:  # the host ends the machine
        time.sleep(BEAT)


if __name__ == "__main__":
    main()
