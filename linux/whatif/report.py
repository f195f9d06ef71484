"""What looks give: rows, what is in none of them, what was not read, and the status; as tables and as JSON."""

from __future__ import annotations

import time
from collections import Counter
from dataclasses import dataclass, field
from typing import Any, Mapping, Sequence

from ..common.errors import DONE, INCONCLUSIVE
from ..common.files import BASE, PMD_ORDER
from .look import Snapshot
from .predictor import DEFAULT, FRAMES_A_MEBIBYTE, Predictor, Row, Share, label, with_today

HEAD = {
    "threshold": "threshold", "split": "pages split", "partly_mapped": "partly mapped", "underused": "underused", "pinned": "pinned",
    "frames_back": "frames back", "mebibytes_back": "MiB back", "kept": "pages kept",
}
"""The headings of a table, by the names of JSON."""
SHOWN = 4  # reasons in a line


@dataclass
class Report:
    """The rows of a look, or of stored ones together."""

    snapshots: Sequence[Snapshot]
    rows: list[Row] = field(default_factory=list)
    moved: dict[int, tuple[int, int]] | None = None  # by how many split pages and frames each row could differ, since pages changed
    ended: float = field(default_factory=time.time)  # seconds since 1970

    @property
    def today(self) -> int | None:
        """The threshold of the machine."""
        return next((snapshot.today for snapshot in self.snapshots if snapshot.today is not None), None)

    @property
    def left_out(self) -> Counter[str]:
        """Pages, parts of pages and processes that are in no row, by reason."""
        return sum((snapshot.left_out for snapshot in self.snapshots), Counter[str]())

    @property
    def unread(self) -> Counter[str]:
        """What couldn't be read and could change the rows, by reason."""
        return sum((snapshot.unread for snapshot in self.snapshots), Counter[str]())

    @property
    def status(self) -> int:
        """INCONCLUSIVE where something that could change the answer wasn't read."""
        return INCONCLUSIVE if self.unread else DONE

    def warnings(self) -> list[str]:
        """Returns why the rows may be off, a line each: what a look couldn't see, and pages that changed while they were read, with how
        far each row could differ."""
        lines = []
        for look in self.snapshots:
            lines += [look.note] if look.note else []
            if look.lacking:
                lines.append(f"queues and pins weren't read ({look.lacking}): a guess, each page is taken as queued and not pinned")
            lines += [f"NOT READ: {text}" for text in counted(look.unread)]
            if look.changed:
                moved = [f"{label(t)} by {m[0]} pages, {m[1]} frames" for t, m in (self.moved or {}).items() if any(m)]
                could = "" if self.moved is None else f"; rows that could move: {', '.join(moved) or 'none'}"
                lines.append(f"WARNING: {look.changed} of {look.sampled} huge pages that were read twice had changed meanwhile{could}")
        return lines

    def to_json(self, parts: Mapping[str, object] | None = None) -> dict[str, Any]:
        """Returns it as a JSON object, with more parts, and with what there is about the look itself, if it is one."""
        moved = {label(t): {"split": each[0], "frames_back": each[1]} for t, each in (self.moved or {}).items() if any(each)}
        out: dict[str, Any] = {
            "rows": [row.to_json(self.today) for row in self.rows], "could_move": moved, "left_out": self.left_out,
            "unread": self.unread, **(parts or {}),
        }
        one = self.snapshots[0]
        if len(self.snapshots) == 1:
            out.update(
                looked_at=one.looked_at, note=one.note, lacking=one.lacking, queues_read=not one.lacking, read_twice=one.sampled,
                of_these_changed=one.changed, at=one.at, kernel=one.kernel, sums=one.sums, seconds=round(one.seconds, 3),
            )
        return out


def report_of(predictor: Predictor, snapshots: Sequence[Snapshot], given: Sequence[int] | None) -> Report:
    """Returns the report of these snapshots, at the thresholds that are given, or at some with the machine's own."""
    report = Report(snapshots)
    thresholds = with_today(given or DEFAULT, None if given else report.today)
    report.rows, report.moved = predictor.run(thresholds), predictor.moved_rows(thresholds)
    return report


def lines_of_look(snapshot: Snapshot) -> list[str]:
    """Returns how much a look has read, a line each."""
    folios, sums = snapshot.folios, snapshot.sums
    whole, size = sum(folio.order == PMD_ORDER for folio in folios), sum(BASE << folio.order for folio in folios)
    by_pmd, by_parts = (mebibytes(sums.get(name, 0)) for name in ("by_pmd", "by_parts"))
    lines = [
        f"{len(folios)} huge pages ({whole} of PMD size), {mebibytes(size)} MiB, "
        f"of {len(snapshot.processes)} processes; {mebibytes(snapshot.others * BASE)} MiB of other anonymous pages",
        f"mapped by PMD entries: {by_pmd} MiB; mapped by parts alone: {by_parts} MiB",
    ]
    if "machine" in sums:
        count = f"by the kernel's own count {mebibytes(sums['machine'])} MiB"
        lines.append(f"whole machine, each page once: {mebibytes(sums.get('distinct', 0))} MiB, {count}")
    if not snapshot.lacking:
        states = ("queued", "is_queued"), ("partly mapped", "is_partly"), ("pinned", "pins"), ("locked", "is_locked")
        lines.append(", ".join(f"{word} {sum(bool(getattr(folio, name)) for folio in folios)}" for word, name in states))
    return lines


def counted(reasons: Mapping[str, int]) -> list[str]:
    """Returns how often there is each reason, the most frequent first; a process is one."""
    some = sorted(((why, count) for why, count in reasons.items() if count), key=lambda item: (-item[1], item[0]))
    return [why if why.startswith("process ") else f"{count} {why}" for why, count in some]


def mebibytes(size: int) -> str:
    """Returns bytes as MiB, with one digit after the point."""
    return f"{size / 2**20:.1f}"


def last_line(left_out: Mapping[str, int]) -> str:
    """Returns what was left out, in one line: how much, and why."""
    parts = counted(left_out)
    more = f"; {len(parts) - SHOWN} more (--json has them)" if len(parts) > SHOWN else ""
    return "left out: " + ("; ".join(parts[:SHOWN]) or "nothing") + more


def aligned(lines: Sequence[Sequence[object]], left: int = 0) -> str:
    """Returns lines of cells, right-aligned except the first `left` columns. Numbers with a point get one digit after it."""
    texts = [[f"{cell:.1f}" if isinstance(cell, float) else str(cell) for cell in line] for line in lines]
    widths = [max(map(len, column)) for column in zip(*texts)]
    rows = ([c.ljust(w) if i < left else c.rjust(w) for i, (c, w) in enumerate(zip(line, widths))] for line in texts)
    return "\n".join("  ".join(cells).rstrip() for cells in rows)


def table(rows: Sequence[Row], today: int | None = None) -> str:
    """Returns a line for each threshold; the machine's own is marked."""
    objects = [row.to_json(today) for row in rows]
    lines = [[each[name] for name in HEAD] + ["<- today" if each["today"] else ""] for each in objects]
    return aligned([[*HEAD.values(), ""], *lines])


def group_table(groups: Mapping[str, Sequence[Row]]) -> str:
    """Returns a line for each control group: its huge pages, then MiB back by threshold; most pages first."""
    first: Sequence[Row] = next(iter(groups.values()), [])
    lines: list[list[object]] = [["control group", "pages", *(label(row.threshold) for row in first)]]
    for name, rows in sorted(groups.items(), key=lambda item: (-item[1][0].pages, item[0])):
        lines.append([name, rows[0].pages, *(row.mebibytes for row in rows)])
    return "MiB back by control group:\n" + aligned(lines, 1)


def process_table(shares: Mapping[int, Mapping[int, Share]], names: Mapping[int, str]) -> str:
    """Returns a line for each process: its huge pages, then MiB back by threshold; most pages first. `shares`: by threshold."""
    lines: list[list[object]] = [["process", "name", "pages", *(label(threshold) for threshold in shares)]]
    first: Mapping[int, Share] = next(iter(shares.values()), {})
    for process in sorted(first, key=lambda number: (-first[number].pages, number)):
        cells = [each.get(process, Share()).frames / FRAMES_A_MEBIBYTE for each in shares.values()]
        lines.append([process, names.get(process, "?"), first[process].pages, *cells])
    return "MiB back by process (a shared page counts once):\n" + aligned(lines, 2)


def cost_table(shares: Mapping[int, Share], names: Mapping[int, str]) -> str:
    """Returns what a threshold costs: huge mappings lost by each process, most first."""
    lines: list[list[object]] = [["process", "name", "huge mappings lost", "pages split", "MiB back"]]
    for process, share in sorted(shares.items(), key=lambda item: (-item[1].lost, item[0])):
        if share.lost or share.split:
            lines.append([process, names.get(process, "?"), share.lost, share.split, share.frames / FRAMES_A_MEBIBYTE])
    return aligned(lines, 2)


def shares_json(shares: Mapping[int, Share], names: Mapping[int, str]) -> list[dict[str, Any]]:
    """Returns the shares of processes as JSON."""
    return [
        {"process": process, "name": names.get(process, "?"), "pages": share.pages, "split": share.split, "frames_back": share.frames,
         "huge_mappings_lost": share.lost}
        for process, share in sorted(shares.items())
    ]
