"""Worker processes that read others, since that may wait for another process's mmap_lock: a user can hold his own for ever.

A worker is a fork of the tool that runs pages.c alone. One that doesn't answer in time is killed and replaced. Readings that
wait do so side by side, and a user whose processes make the tool wait is waited for ever more shortly."""

from __future__ import annotations

import ctypes
import mmap
import os
import select
import signal
import socket
import struct
import time
from collections import Counter
from contextlib import suppress
from functools import lru_cache
from typing import Deque, Iterator, NamedTuple

from .errors import signals_wait
from .helpers import helper
from .kernel_library import TABLES
from .proc import ROOT

SECONDS = 2.0  # that a worker gets
LEAST = 0.1  # seconds, for a user who made the tool wait often
SLOW = 0.1  # seconds after which a reading counts as waiting: another worker then goes on beside it
MOST_WORKERS = TABLES
MOST_SPANS = 1 << 18  # locked areas of a process
MAP_NORESERVE = 0x4000
LEAST_ROOM = 1 << 24  # bytes for pieces and what else is read
KNOWN = 1 << 25  # bytes that pages.c has for blocks of frames
WALK, FIND_TABLES = range(2)  # what a request asks for

PIECE = struct.Struct("<QQQIIII64s")  # struct piece of pages.c
REQUEST, REPLY = struct.Struct("<iiiiqq"), struct.Struct("<5q")
UNITS = PIECE.size, 8  # bytes of what a request has, and an answer has `found` of


@lru_cache(maxsize=None)
def load_library() -> ctypes.CDLL:
    """Loads the C helper. Unavailable where it isn't built."""
    library = ctypes.CDLL(helper("pages.so"))
    library.find_locked.argtypes, library.find_locked.restype = [ctypes.c_int, ctypes.c_void_p, ctypes.c_long], ctypes.c_long
    return library


def new_room(size: int) -> tuple[mmap.mmap, int]:
    """Returns memory that is shared with workers, and takes none until it is filled, and its address."""
    memory = mmap.mmap(-1, size, flags=mmap.MAP_SHARED | mmap.MAP_ANONYMOUS | MAP_NORESERVE)
    return memory, ctypes.addressof(ctypes.c_char.from_buffer(memory))


class Request(NamedTuple):
    """What a worker is to read of a process."""

    process: int
    what: int
    seconds: float = SECONDS
    data: bytes = b""  # pieces to look at again, or numbers of threads
    thread: int = 0  # by which its memory is read: one that lives


class Answer(NamedTuple):
    """What a worker has read; see `walk` of pages.c."""

    found: int  # or an error's number below 0
    lost: int = 0
    small: int = 0
    changed: int = 0
    spans: int = 0  # or an error's number below 0
    data: bytes = b""
    locked: bytes = b""


class Worker:
    """One worker process. OSError where none can be started."""

    def __init__(self, flags: int, known: int, most: int, tables: tuple[int, ...], place: int) -> None:
        self._most, self._size, self.place = most, max(most * PIECE.size, LEAST_ROOM), place
        self._memory, at = new_room(self._size + 16 * MOST_SPANS)
        room = struct.pack("<QQQqqQQqq", at, at + self._size, known, most, MOST_SPANS, *tables[2:], place)
        library, parent = load_library(), os.getpid()
        ours, its = socket.socketpair(socket.AF_UNIX, socket.SOCK_SEQPACKET)
        with signals_wait(), its:
            number = os.fork()
            if not number:
                try:
                    for standard, descriptor in enumerate((its.fileno(), flags, *tables[:2])):
                        os.dup2(descriptor, standard)
                    library.serve(room, parent)
                finally:
                    os._exit(0)
            self._process = os.pidfd_open(number)  # of our child, which nobody else reaps
        self.socket = ours.detach()
        self.request = Request(0, WALK)
        self.wake = self.until = 0.0  # from when on it counts as waiting, and when it is killed

    def begin(self, request: Request, with_small: bool, most: int) -> None:
        """Begins a request."""
        count = len(request.data) // UNITS[request.what]
        place = (self._most - count) * PIECE.size if request.what == WALK else 0
        self._memory[place : place + len(request.data)] = request.data
        self.request = request
        with suppress(OSError):  # it was killed: `end` then finds no answer
            os.write(self.socket, REQUEST.pack(request.what, request.thread, request.process, with_small, min(most, self._most), count))

    def end(self) -> Answer | None:
        """Returns the answer; None where the worker was killed."""
        try:
            answer = Answer(*REPLY.unpack(os.read(self.socket, REPLY.size)))
        except (OSError, struct.error):
            return None
        data = self._memory[: max(0, answer.found) * UNITS[self.request.what]]
        locked = self._memory[self._size : self._size + 16 * max(0, min(answer.spans, MOST_SPANS))]
        return answer._replace(data=data, locked=locked)

    def kill(self) -> None:
        """Kills it. It waits only for what a signal interrupts, so it ends at once."""
        os.close(self.socket)
        signal.pidfd_send_signal(self._process, signal.SIGKILL)
        os.waitid(os.P_PIDFD, self._process, os.WEXITED)
        os.close(self._process)


class Workers:
    """Worker processes: `count` that read, and more beside those that wait. `most`: pieces of a process."""

    def __init__(self, flags: int, tables: tuple[int, ...], count: int, most: int, with_small: bool = False) -> None:
        self._flags, self._tables, self._count, self._with_small = flags, tables, count, with_small
        self._known, self._poll = new_room(KNOWN), select.poll()
        self._idle: list[Worker] = []
        self._busy: dict[int, Worker] = {}  # by socket
        self._room = self.most = most  # what a worker has room for, and what may still be kept
        self._limit = MOST_WORKERS
        self._waited: Counter[int] = Counter()  # readings that weren't done in time, by user

    def ask(self, todo: Deque[Request]) -> Iterator[tuple[Request, Answer | None]]:
        """Yields each request, also those appended meanwhile, with its answer, in any order; None: it wasn't done in time."""
        while todo or self._busy:
            while todo and self._begin(todo[0]):
                todo.popleft()
            now = time.monotonic()
            wake = min(each.wake if each.wake > now else each.until for each in self._busy.values())
            ready = [number for number, _ in self._poll.poll(max(0.0, wake - now) * 1000 + 1)]
            late = [each for number, each in self._busy.items() if each.until < time.monotonic() and number not in ready]
            for worker in late + [self._busy[number] for number in ready]:
                request, answer = worker.request, None if worker in late else worker.end()
                self._busy.pop(worker.socket)
                if answer:
                    self._idle.append(worker)
                else:  # its request isn't done
                    self._waited[owner_of(request.process)] += 1
                    self._kill(worker)
                if todo and self._begin(todo[0]):
                    todo.popleft()
                yield request, answer

    def _begin(self, request: Request) -> bool:
        """Begins a request, if a worker is free or may be started beside those that wait."""
        now = time.monotonic()
        if not self._idle:
            are_reading = sum(each.wake > now for each in self._busy.values())
            if are_reading >= self._count or len(self._busy) >= self._limit:
                return False
            place = next(iter(set(range(TABLES)) - {each.place for each in self._busy.values()}))
            try:
                self._idle.append(Worker(self._flags, self._known[1], self._room, self._tables, place))
            except OSError:
                if not self._busy:
                    raise
                self._limit = len(self._busy)  # as many as the machine allows
                return False
            self._poll.register(self._idle[0].socket, select.POLLIN)
        worker, waited = self._idle.pop(), self._waited[owner_of(request.process)] if self._waited else 0
        worker.wake, worker.until = now + SLOW, now + max(LEAST, request.seconds / 2 ** (waited // MOST_WORKERS))
        worker.begin(request, self._with_small, self.most)
        self._busy[worker.socket] = worker
        return True

    def _kill(self, worker: Worker) -> None:
        """Kills a worker; another one is started at need."""
        self._poll.unregister(worker.socket)
        worker.kill()

    def close(self) -> None:
        """Kills all workers."""
        for worker in [*self._idle, *self._busy.values()]:
            self._kill(worker)
        self._idle, self._busy = [], {}


def owner_of(process: int) -> int:
    """Returns the user of a process; -1 where it has ended."""
    try:
        return os.stat(f"{ROOT}/{process}").st_uid
    except OSError:
        return -1
