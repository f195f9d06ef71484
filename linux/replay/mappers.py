"""The processes that map a script's pages (mapper.c), and the sockets without names by which they receive commands."""

from __future__ import annotations

import os
import signal
import socket
import struct
import subprocess

from ..common.errors import RunFailed, Unavailable, signals_wait
from ..common.files import BASE, write
from ..common.helpers import helper
from ..common.page_files import NumberFile, frame_of_entry

PATIENCE = 20.0  # seconds until a reply, or an end
WORDS = ("fork", "alloc", "unmap", "splitpmd", "fill", "pin", "unpin")  # mapper.c has the same order
COMMAND, REPLY = struct.Struct("<4i"), struct.Struct("<q")


class Refusal(RunFailed):
    """A mapping process could not do a command; the text is the command and the kernel's reason."""


def socket_pair() -> tuple[socket.socket, socket.socket]:
    """Returns two connected sockets without names; messages keep their bounds."""
    return socket.socketpair(socket.AF_UNIX, socket.SOCK_SEQPACKET | socket.SOCK_CLOEXEC)


class Mapper:
    """One process, and what it maps: `whole` by a PMD entry (or as one piece, below PMD size), `mapped` by subpages;
    `at` is the address of subpage 0. After the first failure nothing more can be asked of it."""

    whole, mapped, at, pins = False, 0, 0, 0

    def __init__(self, end: socket.socket, number: int = 0) -> None:
        self._end: socket.socket | None = end
        end.settimeout(PATIENCE)
        self.number = number
        self._pagemap: NumberFile | None = None

    @classmethod
    def start(cls, group: str) -> Mapper:
        """Starts a process that maps nothing, in a control group. RunFailed where that isn't possible."""

        def enter() -> None:
            write(f"{group}/cgroup.procs", 0)
            signal.pthread_sigmask(signal.SIG_SETMASK, former)

        program = [helper("mapper")]
        mine, its = socket_pair()
        try:
            with its, signals_wait() as former:
                child = subprocess.Popen(program, stdin=its.fileno(), stdout=subprocess.DEVNULL, stderr=subprocess.DEVNULL, cwd="/",
                                         env=dict[str, str](), start_new_session=True, preexec_fn=enter)
        except (OSError, subprocess.SubprocessError) as error:
            raise RunFailed(f"a mapping process can't be started: {error}") from error
        return cls(mine, child.pid)

    def request(self, word: str, *operands: int, passed: int | None = None) -> int:
        """Returns the number of the reply to a command. Refusal: the process could not do it."""
        if self._end is None:
            raise RunFailed("a mapping process has failed before")
        reply, command = b"", COMMAND.pack(WORDS.index(word), *operands, *[0] * (3 - len(operands)))
        try:
            socket.send_fds(self._end, [command], [] if passed is None else [passed])
            reply = self._end.recv(REPLY.size)
        except OSError as error:
            problem = f"sends no reply for {PATIENCE:.0f} s" if isinstance(error, socket.timeout) else "has ended"
            raise RunFailed(f"a mapping process {problem}") from error
        finally:
            if not reply:  # after a signal, too: the reply to this command must not be taken for the next one's
                self.close()
        if not reply:
            raise RunFailed("a mapping process has ended")
        number = int(REPLY.unpack(reply)[0])
        if number < 0:
            raise Refusal(f"{' '.join(map(str, (word, *operands)))}: {os.strerror(-number)}")
        return number

    def alloc(self, order: int, fill: int) -> None:
        """Allocates a page and fills it with a byte, unless that is 0."""
        self.at = self.request("alloc", order)
        if fill:
            self.request("fill", 0, 1 << order, fill)

    def fork(self) -> Mapper:
        """Makes a child that maps what this one maps, and has none of its pins."""
        mine, its = socket_pair()
        with its:
            child = Mapper(mine)
            try:
                child.number = self.request("fork", passed=its.fileno())
            except BaseException:
                child.close()
                raise
        child.whole, child.mapped, child.at = self.whole, self.mapped, self.at
        return child

    def frames(self, first: int, count: int) -> list[int | None]:
        """Returns the frames of so many subpages, or None where it maps none."""
        try:
            if self._pagemap is None:
                self._pagemap = NumberFile(f"/proc/{self.number}/pagemap")
                self.request("unmap", 0, 0)  # it lives, so this is its own file
            return [frame_of_entry(entry) for entry in self._pagemap.at(self.at // BASE + first, count)]
        except (Unavailable, OSError) as error:
            raise RunFailed(f"a mapping process has ended: {error}") from error

    def end(self) -> bool:
        """Ends the process; returns whether its mappings and pins are gone, for which it waits. One that failed ends by itself."""
        if self._end is None:
            return True
        try:
            self._end.shutdown(socket.SHUT_WR)
            return self._end.recv(1) == b""
        except OSError:  # it is late
            return False
        finally:
            self.close()

    def close(self) -> None:
        """Closes the tool's descriptors of the process, which ends it."""
        for each in (self._end, self._pagemap):
            if each:
                each.close()
        self._end = self._pagemap = None
