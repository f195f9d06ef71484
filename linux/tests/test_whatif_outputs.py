"""Tables, metrics, the looks of `watch`, and the files in which outputs are written."""

from __future__ import annotations

import contextlib
import io
import json
import os
import re
import shutil
import stat
import unittest
from collections import Counter
from pathlib import Path
from typing import Sequence
from unittest import mock

from ..common.errors import InputFault, RunFailed
from ..whatif.look import Snapshot
from ..whatif.metrics import MARK, metrics_text, write_metrics
from ..whatif.predictor import OFF, Row, label, thresholds_of, with_today
from ..whatif.program import open_output, watch
from ..whatif.report import Report, last_line
from .cases import FolderCase

ROWS = [Row(OFF, 10, 2, 0, 1, 512), Row(0, 10, 8, 6, 1, 2816)]
HOSTILE = 'process 5 (a"}\\x0a# HELP x{): it ended'
LINE = re.compile(r'thpwhatif_[a-z_]+(\{threshold="(off|[0-9]+)"\})? [0-9]+(\.[0-9]+)?')
"""A value in the text format of Prometheus, with the one label that there is."""


def look_at(rows: Sequence[Row]) -> Report:
    """A look as `watch` makes it of a snapshot with these rows."""
    left_out = Counter({HOSTILE: 1, "huge pages that moved": 4})
    snapshot = Snapshot([], {}, left_out, Counter({"groups": 2}), today=0, sampled=4, changed=3, seconds=1.5)
    return Report([snapshot], list(rows), {OFF: (0, 0), 0: (2, 30)})


class Tables(unittest.TestCase):
    def test_thresholds(self) -> None:
        self.assertEqual(thresholds_of("off,0,511,409"), [OFF, 0, OFF, 409])
        self.assertEqual([label(each) for each in with_today([5, OFF, 0, 5], 3)], ["off", "0", "3", "5"])
        for text in ("", "512", "-1", "01", "1,,2", "on", "1 "):
            self.assertRaises(InputFault, thresholds_of, text)

    def test_left_out(self) -> None:
        self.assertEqual(last_line({"a": 0}), "left out: nothing")
        self.assertEqual(last_line({"pages": 2, "others": 7, "process 5 (x): it ended": 1}),
                         "left out: 7 others; 2 pages; process 5 (x): it ended")
        self.assertTrue(last_line({str(n): n for n in range(1, 8)}).endswith("; 3 more (--json has them)"))


class Watching(unittest.TestCase):
    def test_rounds_and_lines(self) -> None:
        looks = iter([(512, 7), (256, 10)])

        def look() -> Report:
            frames, collapsed = next(looks)
            return Report([Snapshot([], {}, Counter(), note="a note", collapsed=collapsed)], [Row(0, 4, 1, 1, 0, frames)])

        with contextlib.redirect_stdout(io.StringIO()) as out:
            self.assertEqual(watch(look, 0.01, 2), 0)
        lines = out.getvalue().split("\n")
        self.assertEqual(lines[0][9:], "4 pages; MiB back: 0 2.0; a note")
        self.assertEqual(lines[1][9:], "4 pages; MiB back: 0 1.0; a note; khugepaged collapsed 3 huge pages since the last look")
        self.assertEqual(lines[2:], [""])

    def test_json_lines(self) -> None:
        """Each look is a line, and nothing else."""
        with contextlib.redirect_stdout(io.StringIO()) as out:
            self.assertEqual(watch(lambda: look_at(ROWS), 0.001, 3, as_json=True), 4)
        looks = [json.loads(line) for line in out.getvalue().split("\n")[:-1]]
        self.assertEqual([look["look"] for look in looks], [1, 2, 3])
        for look in looks:
            rows = [(row["threshold"], row["today"], row["mebibytes_back"]) for row in look["rows"]]
            self.assertEqual(rows, [("off", False, 2), (0, True, 11)])
            self.assertEqual(look["left_out"], {HOSTILE: 1, "huge pages that moved": 4})
            self.assertEqual((look["read_twice"], look["of_these_changed"], look["queues_read"]), (4, 3, True))
            self.assertEqual((look["unread"], look["could_move"]), ({"groups": 2}, {"0": {"split": 2, "frames_back": 30}}))
            warning = "WARNING: 3 of 4 huge pages that were read twice had changed meanwhile"
            self.assertLessEqual({"NOT READ: 2 groups", f"{warning}; rows that could move: 0 by 2 pages, 30 frames"}, set(look["notes"]))
        self.assertTrue(out.getvalue().isascii())


class Metrics(FolderCase):
    """The text, and the file in a folder of `owner`: in place of root the user who runs the tests."""

    def setUp(self) -> None:
        super().setUp()
        self.path = f"{self.folder}/thp.prom"

    def write(self, report: Report | None, path: str = "") -> None:
        write_metrics(path or self.path, report, os.geteuid())

    def refused(self, why: str, path: str = "", report: Report | None = None) -> None:
        with self.assertRaisesRegex(InputFault, why) as raised:
            self.write(report, path)
        self.assertNotIn("\n", str(raised.exception))

    def test_text(self) -> None:
        text = metrics_text(look_at(ROWS))
        self.assertTrue(text.endswith("\n") and text.isascii() and text.encode().startswith(MARK))
        lines = text.split("\n")[:-1]
        values = [line for line in lines if not line.startswith("#")]
        self.assertEqual([line for line in values if not LINE.fullmatch(line)], [])
        self.assertEqual([line for line in lines if line.startswith("# TYPE ")],
                         [f"# TYPE {name} gauge" for name in dict.fromkeys(re.split("[ {]", line)[0] for line in values)])
        wanted = {"huge_pages": 10, 'split_pages{threshold="off"}': 2, 'underused_pages{threshold="0"}': 6,
                  'partly_mapped_pages{threshold="0"}': 2, 'reclaimable_bytes{threshold="off"}': 2097152,
                  'kept_pages{threshold="0"}': 2, 'pinned_tries{threshold="0"}': 1, "max_ptes_none": 0, "left_out": 5, "unread": 2,
                  "queues_read": 1, "changed_pages": 3, "look_duration_seconds": 1.5}
        self.assertLessEqual({f"thpwhatif_{name} {value}" for name, value in wanted.items()}, set(lines))

    def test_the_file_is_replaced_whole(self) -> None:
        self.write(None)
        self.assertEqual(os.listdir(self.folder), [])
        Path(f"{self.folder}/.thp.prom.{os.getpid()}").write_text("half")  # of a writer that was killed
        for one in (look_at([]), look_at(ROWS)):
            self.write(one)
            self.assertEqual(Path(self.path).read_text(), metrics_text(one))
            self.assertEqual(stat.S_IMODE(os.stat(self.path).st_mode), 0o644)
            self.assertEqual(os.listdir(self.folder), ["thp.prom"])
        with open(self.path, encoding="ascii") as reader:
            begin = reader.read(10)
            self.write(look_at([]))
            self.assertEqual(begin + reader.read(), metrics_text(one), "a reader keeps the former text")

    def test_no_file_is_left_where_a_step_fails(self) -> None:
        self.write(look_at(ROWS))
        former = Path(self.path).read_text()
        for step in ("fchmod", "link", "replace"):
            with mock.patch.object(os, step, side_effect=OSError(28, "No space left on device")):
                self.refused("thp.prom can't be written: No space left", report=look_at([]))
            self.assertEqual((os.listdir(self.folder), Path(self.path).read_text()), (["thp.prom"], former))
        with mock.patch.object(os, "replace", side_effect=SystemExit(143)):
            self.assertRaises(SystemExit, self.write, look_at([]))
        self.assertEqual(os.listdir(self.folder), ["thp.prom"])

    def test_folders_of_others_are_refused(self) -> None:
        for mode in (0o775, 0o757, 0o1777, 0o777):
            os.chmod(self.folder, mode)
            self.refused("isn't root's folder, or others may write into it", report=look_at(ROWS))
        os.chmod(self.folder, 0o755)
        with self.assertRaisesRegex(InputFault, "isn't root's folder"):
            write_metrics(self.path, None, os.geteuid() + 1)
        self.assertEqual(os.listdir(self.folder), [])

    def test_what_else_is_there_is_kept(self) -> None:
        Path(f"{self.folder}/target").write_text("# HELP node_load1 x\n")
        os.symlink(f"{self.folder}/target", f"{self.folder}/link")
        os.mkfifo(f"{self.folder}/fifo")
        os.mkdir(f"{self.folder}/folder")
        os.symlink("folder", f"{self.folder}/way")
        Path(f"{self.folder}/empty").touch()
        before = sorted(os.listdir(self.folder))
        for name in ("target", "link", "fifo", "folder", "empty"):
            self.refused("exists, and thpwhatif didn't write it", f"{self.folder}/{name}", look_at(ROWS))
        self.refused("can't be written: File name too long", f"{self.folder}/{'x' * 300}")
        self.refused("a symbolic link is on its way", f"{self.folder}/way/thp.prom")
        self.refused("No such file or directory", f"{self.folder}/none/thp.prom")
        self.assertEqual(sorted(os.listdir(self.folder)), before)


class Outputs(FolderCase):
    def test_an_output_goes_away_with_its_work(self) -> None:
        path = self.folder / "new"
        for fault in (InputFault("x"), RunFailed("x"), KeyboardInterrupt()):
            with self.assertRaises(type(fault)), open_output(str(path)) as out:
                out.write("text")
                raise fault
            self.assertFalse(os.path.lexists(path))
        with open_output(str(path)) as out:
            out.write("text")
        self.assertEqual(stat.S_IMODE(os.stat(path).st_mode), 0o600)
        self.assertEqual(path.read_text(), "text")
        with self.assertRaisesRegex(InputFault, "exists already"), open_output(str(path)):
            pass

    def test_nothing_else_goes_away_with_its_work(self) -> None:
        """Somebody moves the folder of an output, or the output, and puts something else at its path."""
        folder, own = self.folder / "folder", self.folder / "own"
        own.mkdir()
        (own / "new").write_text("kept")
        for moved in (folder, folder / "new"):
            folder.mkdir()
            with self.assertRaises(KeyboardInterrupt), open_output(str(folder / "new")) as out:
                out.write("text")
                moved.rename(f"{moved}.away")
                moved.symlink_to(own if moved == folder else own / "new")
                raise KeyboardInterrupt
            self.assertEqual((own / "new").read_text(), "kept")
            self.assertTrue(moved.is_symlink())
            self.assertEqual(os.listdir(f"{folder}.away") if moved == folder else [], [])
            moved.unlink()
            shutil.rmtree(folder if moved != folder else f"{folder}.away")
