"""Records a memory control group's deferred split queue, writes it as a journal, and has `thpcheck` check it, or without
`thpcheck` `thpsplit --check`.

    thprecord [--own THREADS,STEPS,SEED[,zeros][,collapse][,areas]]  a workload of its own
    thprecord --own .. --order 9,4                   a workload for each order
    thprecord [--user NAME] -- COMMAND ARGS..        a command in a control group of its own

The command runs as the caller of `sudo`; in a root shell it runs as root unless `--user` names another user.

A node of the journal is an order and (Linux 7) a NUMA node. Prints the verdict with its reasons, and what was observed, inferred and left
out. SIGINT ends the recording; the records until then are checked. The command's own status is printed and changes nothing. Needs root.
Status 0: legal, perhaps except for known differences; 1: illegal, or a queue differs; 2: an error in the options; 3: a system error; 4:
inconclusive; 75: another tool is running; 77: nothing could be recorded, or nothing was.
"""

from __future__ import annotations

import itertools
import sys
import time
from argparse import Namespace
from contextlib import ExitStack, closing
from typing import NoReturn

from ..common import machine
from ..common.checker import find_checker
from ..common.files import PMD_ORDER
from ..common.helpers import helper
from ..common.keeper import Keeper
from ..common.tool import run_tool
from .journal_builder import JournalBuilder
from .options import check_command, parse_options
from .recorder import Recorder, Recording
from .report import JournalFile, Outputs, Report

NAME = "thprecord"


def report_progress(what: str, share: float, last: list[float]) -> None:
    """Writes a line on a terminal's standard error, once a second (`last`: when it did): how much of something is done."""
    if sys.stderr.isatty() and time.monotonic() > last[0] + 1:
        last[0] = time.monotonic()
        print(f"\r{NAME}: {what}: {share:.0%}\033[K", end="\r", file=sys.stderr, flush=True)


def check_recording(options: Namespace, recording: Recording, page_size: int, outputs: Outputs, report: Report) -> int:
    """Builds the journal of a recording, of each queue and order, writes what is wanted, and prints the report; returns the status."""
    with ExitStack() as stack:
        builders, last = [], [time.monotonic()]
        for number, track in enumerate(recording.tracks):
            stack.callback(track.store.close)
            outputs.write(f"records {number}", track.store.pieces())
            track.store.report = lambda share: report_progress("analysing", share, last)
            track.store.link()
            for order in options.order:
                threshold = recording.threshold if order == PMD_ORDER else None  # only pages of PMD size can be underused
                builders.append(JournalBuilder(order, threshold, page_size, track.folios, options.order))
                stack.callback(builders[-1].lines.close)
                builders[-1].add_records(track.store.records(), track.store.batches)
        journal = stack.enter_context(closing(JournalFile(builders)))
        outputs.write("journal", journal.pieces())
        times = itertools.chain.from_iterable(builder.times() for builder in builders)
        outputs.write("times", (b"%d.%09d\n" % divmod(time, 10 ** 9) for time in times))
        status = report.judge(recording, builders, journal)
    return status


def record(options: Namespace) -> int:
    """Records and checks as the options ask, and prints how the recording and its command ended."""
    machine.demand_common()
    memory = machine.open_memory()
    report = Report(find_checker(options.checker, options.program), options.require, options.strict)
    check_command(options)
    with closing(Outputs(options, len(memory.numa_nodes()))) as outputs:
        with Keeper(NAME, wait=options.wait) as keeper:
            own = [[helper("workload"), *options.own[:3], str(each), *options.own[3:]] for each in options.order if not options.command]
            recording = Recorder(options, keeper, memory).record(own or [options.command])
        if recording.ended:
            print(f"the recording was ended {recording.ended}", flush=True)
        for status in recording.statuses if options.command else ():
            print(f"the command {status}", flush=True)
        return check_recording(options, recording, memory.page_size(), outputs, report)


def start() -> NoReturn:
    """Runs the tool."""
    run_tool(NAME, lambda: record(parse_options(str(__doc__), NAME)))


if __name__ == "__main__":
    start()
