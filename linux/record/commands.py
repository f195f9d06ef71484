"""The recorded commands, in a control group, from their start to their end."""

from __future__ import annotations

import os
import signal
import subprocess
import time
from typing import Callable, Sequence

from ..common.errors import RunFailed, signals_wait
from ..common.files import write
from ..common.guardian import folders_below, members, signal_members
from ..common.text import escape
from ..common.user import User

PATIENCE = 2.0  # seconds from SIGTERM to SIGKILL
PAUSE = 0.002  # seconds between two looks


class Interrupts:
    """While it is open, SIGINT and SIGTERM are noted (`name`) and don't end the tool; a second SIGINT does."""

    def __enter__(self) -> Interrupts:
        self.name = ""
        self._former = {each: signal.signal(each, self._note) for each in (signal.SIGINT, signal.SIGTERM)}
        return self

    def __exit__(self, *_: object) -> None:
        for each, former in self._former.items():
            signal.signal(each, former)

    def _note(self, number: int, _frame: object) -> None:
        if self.name and number == signal.SIGINT:
            raise KeyboardInterrupt
        self.name = signal.Signals(number).name


class Commands:
    """Children in a control group. `take` is called repeatedly while they run."""

    def __init__(self, group: str, take: Callable[[], None]) -> None:
        self._group, self._take = group, take
        self._children: list[subprocess.Popen[bytes]] = []

    def start(self, words: Sequence[str], user: User | None) -> None:
        """Starts a command in the group, as a user; None: as the tool."""

        def enter() -> None:
            write(f"{self._group}/cgroup.procs", os.getpid())
            if user:
                user.enter()
            signal.pthread_sigmask(signal.SIG_SETMASK, former)

        environment = user.environment() if user else None
        is_apart = user is not None and not user.is_caller  # no way to root's terminal
        try:
            with signals_wait() as former:
                child = subprocess.Popen(list(words), preexec_fn=enter, env=environment, start_new_session=is_apart)
        except (OSError, subprocess.SubprocessError, ValueError) as error:
            reason = getattr(error, "strerror", None) or str(error)
            raise RunFailed(f"{escape(words[0])} can't be started: {reason}") from error
        self._children.append(child)

    def is_running(self) -> bool:
        """Returns whether one of them runs."""
        return any([child.poll() is None for child in self._children])

    def end(self) -> None:
        """Ends all processes of the group: by SIGTERM, after a while by SIGKILL."""
        for sent in (signal.SIGTERM, signal.SIGKILL):
            self._send(sent)
            until = time.monotonic() + PATIENCE
            while (self.is_running() or any(map(members, folders_below(self._group)))) and time.monotonic() < until:
                time.sleep(PAUSE)
                self._take()
                if sent is signal.SIGKILL:
                    self._send(sent)

    def statuses(self) -> list[str]:
        """Returns how each of them ended."""
        statuses = [child.returncode for child in self._children]
        return ["still runs" if each is None else f"ended with status {each}" if each >= 0 else f"was killed by {_signal_name(-each)}"
                for each in statuses]

    def _send(self, number: signal.Signals) -> None:
        """Signals all processes of the group and of those made in it, and the commands wherever they are, which nobody else reaps."""
        for folder in folders_below(self._group):
            signal_members(folder, number)
        for child in self._children:
            child.send_signal(number)  # nothing where it has ended


def _signal_name(number: int) -> str:
    try:
        return signal.Signals(number).name
    except ValueError:
        return f"signal {number}"
