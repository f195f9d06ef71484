"""The command line of thpwhatif. What only one command needs is imported by it: the start of `now` is short."""

from __future__ import annotations

import argparse
import json
import os
import sys
import time
from contextlib import contextmanager, suppress
from itertools import count
from typing import Callable, Iterator, NoReturn, TextIO

from ..common.errors import DONE, InputFault, Unavailable, signals_wait
from ..common.files import NewFile, open_input
from ..common.tool import run_tool
from ..common.user import give_up_rights, user_for, user_without_rights
from .library import load_library
from .look import ProcessChoice, Snapshot, SnapshotTaker
from .options import NAME, parser
from .predictor import FRAMES_A_MEBIBYTE, OFF, Predictor, label
from .report import (Report, cost_table, group_table, last_line, lines_of_look, process_table, report_of, shares_json, table)


@contextmanager
def open_output(path: str) -> Iterator[TextIO]:
    """Gives the new file of a path, opened before the work, so that a path that can't be used is reported first, or standard output
    (`-`). The file is removed again where the work fails. InputFault where it can't be made."""
    if path == "-":
        yield sys.stdout
        return
    out, is_done = None, False
    try:
        with signals_wait():
            out = NewFile(path)
        yield out.file
        out.file.flush()
        is_done = True
    finally:
        if out and not is_done:
            out.remove()
        with suppress(OSError):
            if out:
                out.close()


def demand_root() -> None:
    """Unavailable for other users: page tables and frames of other processes are root's alone."""
    if os.geteuid() != 0:
        raise Unavailable("not root: frame numbers, other processes' memory and BPF are for root")


def drop_rights() -> None:
    """Makes this process a user without any right, for good: what it reads from here on comes from others."""
    user_without_rights().enter()
    give_up_rights()


def choose(options: argparse.Namespace) -> ProcessChoice:
    """Returns what is to be looked at. InputFault where nothing is selected, Unavailable where nothing can be looked at."""
    if not (options.pid or options.cgroup or options.all):
        raise InputFault(f"{options.command} needs --pid, --cgroup or --all (--help has the options)")
    if options.all and (options.pid or options.cgroup):
        raise InputFault("--all selects every process: without --pid and --cgroup")
    demand_root()
    return ProcessChoice(options.pid, options.cgroup, options.all)


def taker(options: argparse.Namespace) -> SnapshotTaker:
    """Returns what takes looks with these options."""
    return SnapshotTaker(options.orders, options.queued == "all", int(options.memory))


def take_snapshots(options: argparse.Namespace, choice: ProcessChoice | None) -> list[Snapshot]:
    """Looks, or where no processes are chosen reads the snapshots of files, without rights."""
    if choice:
        return [taker(options).take(choice)]
    from .stored import StoredReader

    reader, files = StoredReader(int(options.memory)), [(path, open_input(path)) for path in options.files]
    drop_rights()
    return [reader.read(path, file) for path, file in files]


def command_tables(options: argparse.Namespace) -> int:
    """Prints the tables, or the JSON object, of a look or of stored ones."""
    choice = None if options.files else choose(options)
    load_library()
    snapshots = take_snapshots(options, choice)
    predictor = Predictor(*snapshots)
    report = report_of(predictor, snapshots, options.thresholds)
    if not predictor.folios:
        print("no huge pages are mapped here", file=sys.stderr)
    print(text_of(options, predictor, report))
    return report.status


def text_of(options: argparse.Namespace, predictor: Predictor, report: Report) -> str:
    """Returns the tables, or the JSON object."""
    thresholds = [row.threshold for row in report.rows]
    shares = {each: predictor.by_process(each) for each in thresholds} if options.by_process else {}
    groups = predictor.by_group(thresholds) if options.by_cgroup else {}
    if options.json:
        parts: dict[str, object] = {}
        if shares:
            parts["by_process"] = {label(each): shares_json(found, predictor.names) for each, found in shares.items()}
        if groups:
            parts["by_cgroup"] = {name: [row.to_json(report.today) for row in rows] for name, rows in groups.items()}
        return json.dumps(report.to_json(parts), indent=1)
    tables = []
    if predictor.folios:
        tables.append(table(report.rows, report.today))
        tables += [process_table(shares, predictor.names)] if options.by_process else []
        tables += [group_table(groups)] if options.by_cgroup else []
    lines = [] if options.files else lines_of_look(report.snapshots[0])
    return "\n".join([*lines, *report.warnings(), *(["\n\n".join(tables)] if tables else []), last_line(report.left_out)])


def command_snapshot(options: argparse.Namespace) -> int:
    """Looks, and writes what was read."""
    from .stored import json_lines

    choice = choose(options)
    with open_output(options.output) as out:
        snapshot = taker(options).take(choice)
        report = Report([snapshot])
        print("\n".join([*lines_of_look(snapshot), *report.warnings(), last_line(snapshot.left_out)]), file=sys.stderr)
        out.writelines(json_lines(snapshot))
    return report.status


def command_target(options: argparse.Namespace) -> int:
    """Finds the highest threshold that gives back so much."""
    if options.files and (options.pid or options.cgroup or options.all):
        raise InputFault("target takes files, or --pid, --cgroup or --all, not both")
    choice = None if options.files else choose(options)
    load_library()
    snapshots = take_snapshots(options, choice)
    predictor = Predictor(*snapshots)
    found = predictor.find_highest(-int(-options.mebibytes * FRAMES_A_MEBIBYTE // 1))
    report = report_of(predictor, snapshots, [found or 0])
    row, shares = report.rows[0], predictor.by_process(found or 0)
    if options.json:
        parts = {"asked": options.mebibytes, "reached": found is not None, "cost": shares_json(shares, predictor.names)}
        print(json.dumps(report.to_json(parts), indent=1))
        return report.status
    if found is None:
        print(f"no threshold gives back {options.mebibytes:g} MiB: 0 gives {row.mebibytes:.1f} MiB. What 0 costs:")
    elif found == OFF:
        print(f"{row.mebibytes:.1f} MiB come back with any threshold, also with 511. What that costs:")
    else:
        given = f"gives back {row.mebibytes:.1f} MiB and splits {row.split} huge pages"
        print(f"max_ptes_none {found} {given}. What it costs:")
    print("\n".join([cost_table(shares, predictor.names), *report.warnings()]))
    return report.status


def command_watch(options: argparse.Namespace) -> int:
    """Looks again and again."""
    from .metrics import write_metrics

    choice = choose(options)
    load_library()
    if options.prometheus is not None:
        write_metrics(options.prometheus, None)
    looks = taker(options)

    def look_once() -> Report:
        snapshot = looks.take(choice)
        report = report_of(Predictor(snapshot), [snapshot], options.thresholds)
        if options.prometheus is not None:
            write_metrics(options.prometheus, report)
        return report

    return watch(look_once, options.seconds, options.rounds, options.json)


def watch(look: Callable[[], Report], seconds: float, rounds: int, as_json: bool = False) -> int:
    """Looks every so many seconds, `rounds` times (0: until it is interrupted), and prints each look as a line, `as_json`: a JSON object.
    Returns the status of the last look."""
    former: int | None = None  # huge pages that khugepaged had collapsed by the look before
    status = DONE
    with suppress(KeyboardInterrupt):  # the way to end it
        for number in count(1):
            began, one = time.monotonic(), look()
            collapsed, status = one.snapshots[0].collapsed, one.status
            since = None if collapsed is None or former is None else collapsed - former
            former, notes = collapsed, [last_line(one.left_out)] if one.left_out else []
            notes += [*one.warnings(), *([f"khugepaged collapsed {since} huge pages since the last look"] if since else [])]
            back = ", ".join(f"{label(row.threshold)} {row.mebibytes:.1f}" for row in one.rows)
            text = "; ".join([f"{time.strftime('%H:%M:%S')} {one.rows[0].pages} pages", f"MiB back: {back}", *notes])
            if as_json:
                text = json.dumps({"look": number, **one.to_json(), "collapsed": since, "notes": notes})
            print(text, flush=True)
            if number == rounds:
                break
            time.sleep(max(0.0, seconds - (time.monotonic() - began)))
    return status


def command_verify(options: argparse.Namespace) -> int:
    """Tries predictions."""
    from .verify import verify

    demand_root()
    load_library()
    return verify(options, user_for(options.user))


def command_policies(options: argparse.Namespace) -> int:
    """Tries policies on journals, which are read without rights."""
    from ..common.checker import find_checker
    from .policies import open_recordings, outcomes_of, policies_of, policy_table

    policies = policies_of(options.threshold, options.scan)
    load_library()
    recordings = open_recordings(options.journals, options.times, find_checker(options.checker))
    drop_rights()
    outcomes = outcomes_of(policies, recordings)
    has_contents = all(recording.has_contents for recording in recordings)
    if options.json:
        print(json.dumps({"policies": outcomes, "contents_recorded": has_contents}, indent=1))
        return DONE
    print(policy_table(outcomes))
    if not has_contents and any(policy.threshold.isdigit() for policy in policies):
        print("no contents are recorded: each subpage counts as zero-filled, so each number splits the same pages")
    return DONE


COMMANDS: dict[str, Callable[[argparse.Namespace], int]] = {
    "now": command_tables,
    "snapshot": command_snapshot,
    "what-if": command_tables,
    "target": command_target,
    "watch": command_watch,
    "verify": command_verify,
    "policies": command_policies,
}


def main() -> NoReturn:
    """Runs the command that the command line names."""
    run_tool(NAME, lambda: COMMANDS[(options := parser().parse_args()).command](options))
