"""Compares predictions with what the kernel's shrinker then does, on known pages or a command's, in a memory control group of its own.

A trial makes new pages, sets a threshold, looks, has the kernel reclaim in the group, and looks which pages are split and which frames came
back; libthp and a plain reading of the kernel's functions (trial.py) predict both from the look. Settings are restored, and groups and
processes removed, at any end (linux/common/keeper.py); one tool at a time holds the lock.

The kernel's counters of splits are of the whole machine. Where they move by more than predicted, others moved them, and a trial
whose pages are all as predicted is inconclusive, not exact."""

from __future__ import annotations

import argparse
import json
import os
import shutil
import signal
import subprocess
import sys
from collections import Counter
from contextlib import ExitStack, contextmanager, suppress
from itertools import product
from pathlib import Path
from typing import Any, Iterator

from ..common.counters import counts
from ..common.errors import DIFFERS, DONE, INCONCLUSIVE, InputFault, RunFailed, Unavailable, signals_wait
from ..common.files import COLLAPSE_SLEEP, PTES_NONE, SWITCH, OwnFolder, size_folder
from ..common.groups import END_TIME, Freeze, Groups
from ..common.keeper import Keeper
from ..common.page_files import Frames
from ..common.proc import members
from ..common.text import escape
from ..common.user import User
from .look import ProcessChoice, SnapshotTaker
from .options import NAME
from .predictor import OFF, label
from .stored import json_lines
from .trial import TrialResult, count_result, find_returned, result_of, trial_lines

THRESHOLDS = (OFF, 0, 1, 16, 32, 64, 128, 256, 409, 500, 510)
SMALL_ORDERS = (4, 6)
HOUR = 3600000  # milliseconds: khugepaged collapses nothing meanwhile
KNOWN = [sys.executable, "-IBS", str(Path(__file__).with_name("known.py"))]


def settings(task: argparse.Namespace) -> dict[str, object]:
    """Returns what is set for trials, by file, and put back. khugepaged collapses nothing meanwhile."""
    out: dict[str, object] = {SWITCH: 1, PTES_NONE: OFF, COLLAPSE_SLEEP: HOUR}
    for order in () if task.words else SMALL_ORDERS:
        out[f"{size_folder(order)}/enabled"] = "madvise"
    return out


class TrialBench:
    """The machine, set for trials."""

    def __init__(self, keeper: Keeper, task: argparse.Namespace, user: User) -> None:
        self.keeper, self.task, self.user = keeper, task, user
        self.groups = Groups(keeper, NAME)
        for path, value in settings(task).items():
            keeper.set(path, value)
        self._frames = Frames()
        self.taker = SnapshotTaker(with_small=True)
        self._made = 0

    def trial(self, threshold: int, seed: str) -> TrialResult:
        """Makes one trial on new pages."""
        self._made += 1
        is_held = bool(self.task.words and not self.task.running)
        group = self.groups.add(f"trial{self._made}", is_freezable=is_held)
        self.keeper.set(PTES_NONE, threshold)
        with self._pages(group, threshold, seed), ExitStack() as stack:
            held = stack.enter_context(self.groups.freeze(group)) if is_held else Freeze()
            snapshot = self.taker.take(ProcessChoice(groups=[group]))
            before = counts([])
            self.groups.reclaim(group)
            added = {name: count or 0 for name, count in counts([]).since(before).machine.items()}
            returned, moved = find_returned(snapshot, self._frames)
            stack.close()
        self.groups.remove(group)
        result = result_of(snapshot, threshold, returned, moved, added)
        result.problem = held.problem
        return result

    @contextmanager
    def _pages(self, group: str, threshold: int, seed: str) -> Iterator[None]:
        """Runs a process with pages until the end of the `with`."""
        task = self.task
        process = self._start(group, task.words or [*KNOWN, seed, str(task.pages)])
        try:
            if task.words:
                self._wait(process, group)
            else:
                self._make_pages(process, group, threshold)
            yield
        finally:
            self._end(process, group)

    def _start(self, group: str, command: list[str]) -> subprocess.Popen[str]:
        """Starts a process in a group: known.py, with pipes, or a user's command without any."""
        streams: dict[str, Any] = {"stdin": subprocess.PIPE, "stdout": subprocess.PIPE}
        if self.task.words:
            streams = {"stdin": subprocess.DEVNULL, "env": self.user.environment()}

        def enter() -> None:
            self.groups.enter(group, os.getpid())
            if self.task.words:
                self.user.enter()
            signal.pthread_sigmask(signal.SIG_SETMASK, former)

        try:
            with signals_wait() as former:
                process = subprocess.Popen(command, text=True, start_new_session=True, preexec_fn=enter, **streams)
        except (OSError, ValueError) as error:
            raise InputFault(f"{escape(command[0])} can't be run: {getattr(error, 'strerror', None) or error}") from error
        except subprocess.SubprocessError as error:
            raise RunFailed(f"{escape(command[0])} can't be run in {group}: {error}") from error
        return process

    def _make_pages(self, process: subprocess.Popen[str], group: str, threshold: int) -> None:
        """Waits until known.py has made its pages. When it asks for it, the shrinker looks at them with max_ptes_none 511: it finds pages
        in use, and they leave the queue for good."""
        assert process.stdin and process.stdout
        with suppress(BrokenPipeError):
            while (line := process.stdout.readline()) == "look\n":
                self.keeper.set(PTES_NONE, OFF)
                self.groups.reclaim(group)
                self.keeper.set(PTES_NONE, threshold)
                print(file=process.stdin, flush=True)
            if line == "ready\n":
                return
        raise Unavailable("the process that makes known pages ended")

    def _wait(self, process: subprocess.Popen[str], group: str) -> None:
        """Lets the command run for a while. RunFailed where it ends before the look, and leaves no process."""
        try:
            status = process.wait(self.task.after)
        except subprocess.TimeoutExpired:
            return
        ended = f"by signal {-status}" if status < 0 else f"with status {status}"
        if not members(group):
            raise RunFailed(f"the command ended {ended} before the look (--after {self.task.after:g})")
        print(f"the command ended {ended} before the look; processes that it started run on", flush=True)

    def _end(self, process: subprocess.Popen[str], group: str) -> None:
        """Kills all processes of a trial, and waits for them. RunFailed where one doesn't end: settings are put back then."""
        has_ended = self.groups.kill(group)
        with suppress(OSError):  # what was still to be written found no reader
            for stream in filter(None, (process.stdout, process.stdin)):
                stream.close()
        with suppress(subprocess.TimeoutExpired):
            process.wait(END_TIME)
        if not has_ended or process.returncode is None:
            raise RunFailed("processes of the trial were killed, and didn't end: they wait for the kernel or a file system")


def verify(task: argparse.Namespace, user: User) -> int:
    """Runs all trials that options.py describes; returns the status: DIFFERS where one differs, else INCONCLUSIVE where one is
    inconclusive. `user` runs the command."""
    sums: Counter[str] = Counter()
    if task.words and not shutil.which(task.words[0]):
        raise InputFault(f"{escape(task.words[0])} can't be run: there is no such program")
    folder = OwnFolder(task.keep) if task.keep else None
    with Keeper(NAME, task.wait) as keeper:
        bench = TrialBench(keeper, task, user)
        print("set meanwhile, and put back: " + ", ".join(settings(task)), flush=True)
        if bench.taker.lacking:
            print(f"queues and pins aren't read ({bench.taker.lacking}): predictions are guesses", flush=True)
        for number, threshold in product(range(task.rounds), task.thresholds or THRESHOLDS):
            result = bench.trial(threshold, f"{task.seed} {number} {threshold}")
            count_result(sums, result)
            if folder:
                keep(folder, f"{task.seed}-{number}-{label(threshold)}", result)
            print("\n".join(trial_lines(threshold, result)), flush=True)
    for what, count in sums.items():
        print(f"{count:10} {what}")
    if not sums["pages"]:
        print("no huge pages were found: nothing was tried")
        return INCONCLUSIVE
    if sums["trials that differ"]:
        return DIFFERS
    return DONE if sums["trials exact"] == sums["trials"] else INCONCLUSIVE


def keep(folder: OwnFolder, name: str, result: TrialResult) -> None:
    """Writes what was seen before and after a trial, so that it can be checked again: a stored snapshot, and the frames that came back
    by the page's first frame, as hexadecimal sets."""
    returned = {frame: format(given, "x") for frame, given in {**result.returned, **result.unscripted}.items()}
    for end, parts in (("json", json_lines(result.snapshot)), ("returned", [json.dumps(returned) + "\n"])):
        with folder.create(f"{name}.{end}") as file:
            file.writelines(parts)
