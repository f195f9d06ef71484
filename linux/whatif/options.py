"""The words of thpwhatif's command line."""

from __future__ import annotations

import argparse
import re
from typing import Callable

from ..common.arguments import OneLineParser, seconds, tool_parser, whole
from ..common.reader import MEMORY
from ..common.text import escape
from .predictor import thresholds_of

NAME = "thpwhatif"
MOST_PROCESS = 1 << 22  # the kernel's limit of process numbers
MOST_COUNT = 1000000  # rounds
LONGEST = 1e6  # seconds
MOST_MEMORY = 1 << 20  # MiB
MOST_FREED = 1e9  # MiB


def mebibytes(low: float, high: float) -> Callable[[str], float]:
    """Returns a type for sizes in MiB: a number of MiB, or one with a unit: M, G, T, MiB, GiB, TiB by 1024, MB, GB, TB by 1000."""

    def parse(text: str) -> float:
        found = re.fullmatch(r"([0-9]{1,12}(?:\.[0-9]{1,12})?)([MGT](?:iB|B)?)?", text)
        unit = found[2] or "M" if found else "M"
        base = 1000.0 if unit[1:] == "B" else 1024.0
        size: float = float(found[1]) * base ** (2 + "MGT".index(unit[0])) / 2**20 if found else 0.0
        if not low <= size <= high:
            raise argparse.ArgumentTypeError(f"{escape(text)[:40]!r} is no size from {low:g} to {high:g} MiB (500, 1.5G, 5GiB, 5GB)")
        return size

    return parse


def parser() -> argparse.ArgumentParser:
    """Returns all commands and their options."""
    top = tool_parser(NAME, "What would the shrinker of transparent huge pages give back now?")
    commands = top.add_subparsers(dest="command", required=True, metavar="COMMAND", parser_class=OneLineParser)
    memory, thresholds, as_json = (OneLineParser(add_help=False) for _ in range(3))  # of several commands
    memory.add_argument("--memory", type=mebibytes(1, MOST_MEMORY), default=MEMORY, metavar="MIB", help="the limit of memory")
    about = "off and numbers from 0 to 511, joined by commas"
    thresholds.add_argument("--thresholds", type=thresholds_of, metavar="LIST", help=about)
    as_json.add_argument("--json", action="store_true", help="JSON instead of tables; of watch a line for each look")
    choice = OneLineParser(add_help=False, parents=[memory])
    tables = OneLineParser(add_help=False, parents=[thresholds, as_json])
    process = whole(1, MOST_PROCESS)
    choice.add_argument("--pid", type=process, action="append", default=[], metavar="P", help="a process; repeatable")
    choice.add_argument("--cgroup", action="append", default=[], metavar="DIR", help="a control group and those below")
    choice.add_argument("--all", action="store_true", help="all processes")
    choice.add_argument("--orders", action="store_true", help="huge pages below PMD size, too")
    choice.add_argument("--queued", choices=("seen", "all"), default="seen", help="all: as if each page were still in its queue")
    tables.add_argument("--by-process", action="store_true", help="a table by process, too")
    tables.add_argument("--by-cgroup", action="store_true", help="a table by control group, too")
    now = commands.add_parser("now", parents=[choice, tables], help="look, and print what each threshold would give back")
    now.set_defaults(files=[])
    snapshot = commands.add_parser("snapshot", parents=[choice], help="look, and write what was read")
    snapshot.add_argument("-o", "--output", default="-", metavar="FILE", help="the new file; if not given, standard output")
    what_if = commands.add_parser("what-if", parents=[memory, tables], help="the table of what snapshot wrote")
    what_if.add_argument("files", nargs="+", metavar="FILE", help="of snapshot; - is standard input")
    target = commands.add_parser("target", parents=[choice, as_json], help="the highest threshold that gives back so much")
    target.add_argument("mebibytes", type=mebibytes(0.001, MOST_FREED), metavar="MIB", help="or with a unit: 5G, 5GB")
    target.add_argument("files", nargs="*", metavar="FILE", help="of snapshot; else --pid, --cgroup or --all")
    about = "look again and again, and print how the rows change"
    watching = commands.add_parser("watch", parents=[choice, thresholds, as_json], help=about)
    watching.add_argument("seconds", type=seconds(0.001, LONGEST), metavar="SECONDS", help="from one look to the next")
    rounds = whole(0, MOST_COUNT)
    watching.add_argument("--rounds", type=rounds, default=0, metavar="N", help="end after so many looks; 0: by SIGINT")
    watching.add_argument("--prometheus", metavar="FILE", help="write each look as metrics, replacing FILE")
    about = "known pages, or a command's, and then the real shrinker"
    add_verify(commands.add_parser("verify", parents=[thresholds], help=about))
    add_policies(commands.add_parser("policies", parents=[as_json], help="a recorded journal under other thresholds and scans"))
    return top


def add_policies(words: argparse.ArgumentParser) -> None:
    """Adds the options of policies."""
    words.add_argument("journals", nargs="+", metavar="JOURNAL", help="of thprecord or thpsplit")
    words.add_argument("--threshold", default="recorded", metavar="LIST", help="recorded, off, numbers from 0 to 511")
    words.add_argument("--scan", default="recorded,never", metavar="LIST", help="when: recorded, never, seconds:S, held:MIB")
    words.add_argument("--times", action="append", default=[], metavar="FILE", help="of a journal: seconds of each event; repeatable")
    words.add_argument("--checker", metavar="PATH", help="the thpcheck to run")


def add_verify(words: argparse.ArgumentParser) -> None:
    """Adds the options of verify."""
    after = seconds(0, LONGEST)
    words.add_argument("--rounds", type=whole(1, MOST_COUNT), default=1, metavar="N", help="how often each threshold is tried")
    words.add_argument("--seed", type=whole(0, 10**17), default=1, metavar="S")
    words.add_argument("--pages", type=whole(1, 4000), default=40, metavar="N", help="known pages of a trial, at most 4000")
    words.add_argument("--after", type=after, default=5.0, metavar="SECONDS", help="for which the command runs first")
    words.add_argument("--user", metavar="NAME", help="runs the command; if not given, the caller of sudo")
    words.add_argument("--wait", action="store_true", help="wait until another tool that changes the machine has ended")
    words.add_argument("--running", action="store_true", help="don't hold the pages still until the comparison")
    words.add_argument("--keep", default="", metavar="FOLDER", help="write what each trial saw there")
    words.add_argument("words", nargs="*", metavar="-- COMMAND", help="a command to try instead of known pages")
