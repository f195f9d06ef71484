"""A look as metrics for Prometheus, in a file that node_exporter's textfile collector reads."""

from __future__ import annotations

import os
import stat
from contextlib import suppress
from typing import Any

from ..common.errors import InputFault
from ..common.files import BASE, open_roots_folder, replace_file
from ..common.text import escape
from .predictor import label
from .report import Report

PREFIX = "thpwhatif"
MARK = f"# HELP {PREFIX}_".encode()  # how each text begins


def metrics_text(report: Report) -> str:
    """Returns a look in the text format of Prometheus."""
    look = report.snapshots[0]
    rows = {f'{{threshold="{label(row.threshold)}"}}': {**row.to_json(None), "bytes": row.frames * BASE} for row in report.rows}
    metrics: dict[str, tuple[str, str | float | None]] = {  # what each is, and its value, or the name of a value of each row
        "huge_pages": ("Huge pages that were read and are in the rows.", report.rows[0].pages if report.rows else 0),
        "split_pages": ("Huge pages that a reclaim splits if it drains the queues.", "split"),
        "partly_mapped_pages": ("Partly mapped huge pages among those that are split.", "partly_mapped"),
        "underused_pages": ("Underused huge pages among those that are split.", "underused"),
        "pinned_tries": ("Huge pages whose split fails, since something holds a reference.", "pinned"),
        "reclaimable_bytes": ("Memory that comes back.", "bytes"),
        "kept_pages": ("Huge pages that stay whole.", "kept"),
        "max_ptes_none": ("The threshold of the machine.", report.today),
        "left_out": ("Pages, parts of pages and processes that are in no row.", sum(report.left_out.values())),
        "unread": ("Pages, processes, groups and files that couldn't be read and could change the values.", sum(report.unread.values())),
        "queues_read": ("1 if queues and pins were read, 0 if they are guessed.", int(not look.lacking)),
        "changed_pages": ("Huge pages that had changed when they were read twice.", look.changed),
        "look_duration_seconds": ("How long the look took.", round(look.seconds, 3)),
        "look_timestamp_seconds": ("When the look ended.", round(report.ended, 3)),
    }
    lines = []
    for name, (text, value) in metrics.items():
        values: dict[str, Any] = {} if value is None else {"": value}
        if isinstance(value, str):
            values = {labels: row[value] for labels, row in rows.items()}
        if values:
            full = f"{PREFIX}_{name}"
            lines += [f"# HELP {full} {text}", f"# TYPE {full} gauge", *(f"{full}{labels} {each}" for labels, each in values.items())]
    return "".join(f"{line}\n" for line in lines)


def write_metrics(path: str, report: Report | None, owner: int = 0) -> None:
    """Replaces a file by the metrics of a look; None: only checks that this is possible. Others may read the file, so its folder is
    root's. InputFault where it isn't, the file is none of this tool, or it can't be written."""
    place, name = os.path.split(os.path.abspath(path))
    try:
        folder = open_roots_folder(place, owner)
        try:
            if not may_be_made(folder, name):
                raise InputFault(f"it exists, and {PREFIX} didn't write it")
            if report:
                replace_file(folder, name, metrics_text(report))
        finally:
            os.close(folder)
    except (InputFault, OSError) as error:
        raise InputFault(f"{escape(path)} can't be written: {getattr(error, 'strerror', error)}") from error


def may_be_made(folder: int, name: str) -> bool:
    """Returns whether there is no such file in an open folder, which only its owner writes, or one of this tool."""
    with suppress(FileNotFoundError):
        if not stat.S_ISREG(os.stat(name, dir_fd=folder, follow_symlinks=False).st_mode):
            return False
        with open(name, "rb", opener=lambda name, flags: os.open(name, flags, dir_fd=folder)) as file:
            return file.read(len(MARK)) == MARK
    return True
