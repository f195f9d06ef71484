"""qemu, and one run of a command in its guest: the boot, the command's output and status, limits of time.

The kernel, the file system and both serial lines are descriptors without names, so nothing is left on the machine after
any end. qemu has no network, no disk and no rights: where this tool is root, it runs as a user without any. The kernel ends it
with this tool (PR_SET_PDEATHSIG). The guest sends messages (init.py), and has a console; its bytes are anybody's."""

from __future__ import annotations

import argparse
import ctypes
import os
import re
import select
import shutil
import signal
import socket
import struct
import subprocess
import sys
import time
from collections.abc import Callable, Iterator
from contextlib import suppress

from ..common.errors import RunFailed, Unavailable
from ..common.program import ENVIRONMENT
from ..common.text import escape
from ..common.user import give_up_rights, user_without_rights

QEMU = "qemu-system-x86_64"
KVM_DEVICE = "/dev/kvm"
TURNS = "tcg,thread=single"  # emulated processors take turns: side by side they can meet an instruction that the kernel is changing
ACCELERATORS = {"auto": ("kvm", TURNS), "kvm": ("kvm",), "emulation": (TURNS,)}  # of which qemu takes the first that it can use
KVM_FAILURES = re.compile(rb"KVM internal error|kvm run failed")
PR_SET_PDEATHSIG = 1  # include/uapi/linux/prctl.h
KERNEL_WORDS = "console=ttyS0 panic=-1 rdinit=/init"
SANDBOX = "on,obsolete=deny,elevateprivileges=deny,spawn=deny,resourcecontrol=deny"
_LIBC = ctypes.CDLL(None)
MOST_CONTENT = 1 << 16  # bytes of a message
KEPT_CONSOLE = 1 << 14  # bytes of the console that are kept
SHOWN_LINES, SHOWN_WIDTH = 20, 160
PANIC = "Kernel panic - not syncing"
PART = 1 << 16  # bytes that are read at once
TICK = 0.5  # seconds between looks at the limits
SILENCE = 120.0  # seconds after which a guest that sends nothing hangs
SETTLE = 1.0  # seconds in which the rest of an ended machine's console is read
_HEAD = struct.Struct("<cI")
_LETTERS = b"ROEBLS"


def words_of(shape: argparse.Namespace) -> list[str]:
    """Returns qemu's words for a machine: memory in MiB, NUMA nodes, a processor for each, at least two (__main__.py)."""
    memory, processors = shape.memory // shape.numa, max(2, shape.numa)
    out = ["-smp", str(processors), "-m", f"{memory * shape.numa}M"]
    for node in range(shape.numa):
        own = "".join(f",cpus={number}" for number in range(node, processors, shape.numa))
        out += ["-object", f"memory-backend-ram,id=memory{node},size={memory}M", "-numa", f"node,nodeid={node},memdev=memory{node}{own}"]
    return out


def find_qemu() -> str:
    """Returns the path of qemu. Unavailable where it isn't installed."""
    found = shutil.which(QEMU)
    if not found:
        raise Unavailable(f"no {QEMU} (Debian's package qemu-system-x86)")
    return found


def end_with_parent() -> None:
    """Has the kernel end this process with its parent, and give it no rights."""
    give_up_rights()
    _LIBC.prctl(PR_SET_PDEATHSIG, signal.SIGKILL, 0, 0, 0)


def lines_of_console(console: bytes) -> list[str]:
    """Returns the last lines of a console, printable; of a kernel that panicked those up to the panic, since a trace follows."""
    lines = [escape(line)[:SHOWN_WIDTH] for line in re.split(rb"[\r\n]+", console) if line.strip()]
    panics = [place for place, line in enumerate(lines) if PANIC in line]
    return lines[: panics[-1] + 1 if panics else len(lines)][-SHOWN_LINES:]


class MessageReader:
    """Divides the bytes of the guest's line into messages."""

    def __init__(self) -> None:
        self._rest = b""

    def add(self, data: bytes) -> Iterator[tuple[bytes, bytes]]:
        """Yields the letter and content of the messages that are whole after these bytes. RunFailed where they are none."""
        self._rest += data
        while len(self._rest) >= _HEAD.size:
            letter, size = _HEAD.unpack_from(self._rest)
            if letter not in _LETTERS or size > MOST_CONTENT:
                raise RunFailed(f"the guest sends what is no message: {self._rest[:20]!r}")
            if len(self._rest) < _HEAD.size + size:
                return
            content, self._rest = self._rest[_HEAD.size : _HEAD.size + size], self._rest[_HEAD.size + size :]
            yield letter, content


class GuestRun:
    """A running qemu, and the host's ends of its console, its second serial line and its messages. `name`: the kernel's; `kernel`, `files`:
    descriptors of its image and of the guest's files; among the options (__main__.py) is a limit of time, in seconds."""

    def __init__(self, name: str, options: argparse.Namespace, kernel: int, files: int) -> None:
        self._name, self._options = name, options
        self.console, self._messages, self._problems = b"", MessageReader(), b""
        self._is_ready = False
        self._status: int | None = None
        pairs = [socket.socketpair() for _ in range(3)]
        hears = (self._hear_console, self._hear, self._hear_qemu)
        self._sources: dict[socket.socket, Callable[[bytes], None]] = {own: hear for (own, _), hear in zip(pairs, hears)}
        console, line, problems = (end for _, end in pairs)
        words = [find_qemu(), "-no-user-config", "-nodefaults", "-no-reboot", "-display", "none", "-sandbox", SANDBOX, "-cpu", "max"]
        words += [word for each in ACCELERATORS[options.accel] for word in ("-accel", each)]
        words += [*words_of(options), "-kernel", f"/proc/self/fd/{kernel}", "-initrd", f"/proc/self/fd/{files}"]
        words += ["-append", f"{KERNEL_WORDS} {options.append}".strip()]
        for kind, end in (("console", console), ("line", line)):
            words += ["-chardev", f"socket,id={kind},fd={end.fileno()}", "-device", f"isa-serial,chardev={kind}"]
        rights = user_without_rights().rights()
        if rights and os.path.exists(KVM_DEVICE):  # the group that may use it, unless that is root's
            rights["extra_groups"] = [group for group in (os.stat(KVM_DEVICE).st_gid,) if group]
        with console, line, problems:
            try:
                self._process = subprocess.Popen(
                    words, stdin=subprocess.DEVNULL, stdout=subprocess.DEVNULL, stderr=problems.fileno(), cwd="/", env=ENVIRONMENT,
                    pass_fds=[kernel, files, console.fileno(), line.fileno()], start_new_session=True,
                    preexec_fn=end_with_parent, **rights)
            except OSError as error:
                raise Unavailable(f"{words[0]} can't be run: {error.strerror}") from error
        self._began = self._heard = time.monotonic()

    def end(self) -> None:
        """Ends the machine."""
        self._process.kill()
        self._process.wait()
        for source in self._sources:
            source.close()

    def run(self) -> int:
        """Returns the command's status. Unavailable where the kernel lacks something, RunFailed where it doesn't boot or hangs."""
        while self._status is None:
            self._read()
            if self._status is None:
                self._check_end()
                self._check_limits()
        return self._status

    def _read(self) -> bool:
        """Reads what came within a time; returns whether anything did."""
        ready, _, _ = select.select(list(self._sources), [], [], TICK)
        for source in ready:
            data = b""
            with suppress(ConnectionError):
                data = source.recv(PART)
            if data:
                self._sources[source](data)
            else:
                self._sources.pop(source)
                source.close()
        return bool(ready)

    def _hear_console(self, data: bytes) -> None:
        self.console = (self.console + data)[-KEPT_CONSOLE:]
        if not self._is_ready:  # later only the first process's messages are a sign
            self._heard = time.monotonic()

    def _hear(self, data: bytes) -> None:
        self._heard = time.monotonic()
        for letter, content in self._messages.add(data):
            if letter == b"R":
                self._is_ready = True
            elif letter == b"L":
                raise Unavailable(f"{self._name} lacks {escape(content)[:200]}")
            elif letter == b"S":
                if not re.fullmatch(rb"[0-9]{1,3}", content) or int(content) > 255:
                    raise RunFailed(f"the guest sends no status: {escape(content)[:40]!r}")
                self._status = int(content)
            elif letter in (b"O", b"E"):
                stream = sys.stdout if letter == b"O" else sys.stderr
                stream.buffer.write(content)
                stream.flush()

    def _hear_qemu(self, data: bytes) -> None:
        self._problems = (self._problems + data)[-PART:]
        if KVM_FAILURES.search(self._problems):
            raise RunFailed(f"{self._name} can't run on this machine's KVM (--accel emulation): {lines_of_console(self._problems)[-1]}")

    def _check_end(self) -> None:
        """RunFailed where qemu has ended before the command."""
        status = self._process.poll()
        if status is None:
            return
        until = time.monotonic() + SETTLE
        while self._sources and self._status is None and time.monotonic() < until and self._read():
            pass
        if self._status is None:
            lines = lines_of_console(self._problems or self.console) or [f"qemu ended with status {abs(status)}"]
            raise RunFailed(f"{self._name} {'ended' if self._is_ready else 'does not boot'}: {lines[-1]}")

    def _check_limits(self) -> None:
        """RunFailed where the guest has sent nothing for too long, or all of it takes too long."""
        limit, now = self._options.limit, time.monotonic()
        if now - self._heard > SILENCE:
            raise RunFailed(f"{self._name} {'hangs' if self._is_ready else 'does not boot'}: it has sent nothing for {SILENCE:g} s")
        if 0 < limit < now - self._began:
            raise RunFailed(f"{self._name} does not end within {limit:g} s")
