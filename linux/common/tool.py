"""A tool from its start to its exit status."""

from __future__ import annotations

import ctypes
import io
import os
import signal
import sys
from typing import Callable, NoReturn

from .errors import status_of
from .keeper import recover

PR_SET_DUMPABLE = 4  # include/uapi/linux/prctl.h


def open_standard_streams() -> None:
    """Opens /dev/null where the caller closed a standard stream, so that no other file gets its descriptor."""
    for number in range(3):
        try:
            os.fstat(number)
        except OSError:
            os.open(os.devnull, os.O_RDWR)
    for name, mode in (("stdin", "r"), ("stdout", "w"), ("stderr", "w")):
        if getattr(sys, name) is None:
            setattr(sys, name, open(os.devnull, mode, encoding="utf-8"))


def write_nothing_more() -> None:
    """Redirects standard output to /dev/null, since it can't be written."""
    os.dup2(os.open(os.devnull, os.O_WRONLY), sys.stdout.fileno())


def end_by_signals() -> None:
    """Has SIGINT, SIGTERM and SIGHUP end the tool as an exception does; one that the caller ignores (nohup) stays ignored. A child's
    number stays its own until the tool has waited for it, whatever the caller does with SIGCHLD."""

    def stop(number: int, _frame: object) -> NoReturn:
        raise SystemExit(128 + number)

    signal.signal(signal.SIGCHLD, signal.SIG_DFL)
    for number, action in ((signal.SIGINT, signal.default_int_handler), (signal.SIGTERM, stop), (signal.SIGHUP, stop)):
        if signal.getsignal(number) != signal.SIG_IGN:
            signal.signal(number, action)


def run_tool(name: str, main: Callable[[], int], on_error: int | None = None) -> NoReturn:
    """Runs a tool's main function and ends with its status. Every error is one line on standard error: 77 where the
    machine lacks something, 2 for words and texts, 75 where another tool runs, 3 for the rest. What an earlier run left that
    was killed with its guardian is put back first. `on_error`: the status of every error, where callers need another."""

    def status_for(error: BaseException) -> int:
        status = status_of(name, error)
        return status if on_error is None or status > 128 else on_error

    open_standard_streams()
    if isinstance(sys.stdout, io.TextIOWrapper):
        sys.stdout.reconfigure(line_buffering=True)
    if os.geteuid() == 0:  # no core file: it may have read other users' memory
        ctypes.CDLL(None).prctl(PR_SET_DUMPABLE, 0, 0, 0, 0)
    end_by_signals()  # until here SIGINT ends the tool at once
    try:
        for line in recover(name):
            print(f"{name}: {line}", file=sys.stderr, flush=True)
        status = main()
        sys.stdout.flush()
    except BrokenPipeError:
        write_nothing_more()
        status = 128 + signal.SIGPIPE
    except SystemExit as end:  # by --help, --version or a signal
        status = end.code if isinstance(end.code, int) else 0
    except (Exception, KeyboardInterrupt) as error:
        status = status_for(error)
    try:
        sys.stdout.flush()
    except OSError as error:
        status = status or status_for(error)
        write_nothing_more()
    signal.signal(signal.SIGINT, signal.SIG_DFL)
    sys.exit(status)
