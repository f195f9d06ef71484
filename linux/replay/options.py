"""Runs scripts of `thpsplit` on the running kernel, and reports where the kernel differs. Needs root.

Prints a line for each script: `agrees`, `agrees (but for A F)`, `differs: WHAT, kernel N, thpsplit M (command)`,
`inconclusive: why` or `skipped: why`. docs/LINUX.md explains the letters. `inconclusive`: only counters of the whole
machine differ, and other programs move them. A script that differs is made small by further runs.

Status 0: nothing differs; 1: something does; 2: an error in the words or files; 3: the run can't continue; 4: nothing
differs, but something is inconclusive; 75: another tool runs; 77: nothing could be compared. With --fingerprint 1: this
kernel does something as neither side.
"""

from __future__ import annotations

import argparse
from collections.abc import Iterator, Sequence
from itertools import chain

from ..common.arguments import seconds, tool_parser, whole, wholes
from ..common.files import PMD_ORDER
from ..common.script import LEAST_ORDER, MOST_NODES, Script, read_script
from .generator import MOST_QUEUE, Shape, scripts
from .shrinking import SECONDS

NAME = "thpreplay"
LEAST_LENGTH, MOST_LENGTH = 8, 10000  # commands of a random script
MOST_SCRIPTS, MOST_SEED = 10 ** 9, 10 ** 18 - 1
MOST_SHRINKING = 3600.0  # seconds
SETTINGS = ("nodes", "orders", "underused", "blocks")  # of scripts that are files


def parse_words(given: Sequence[str] | None = None) -> argparse.Namespace:
    """Returns the options of a command line, by default this process's own."""
    parser = tool_parser(NAME, __doc__)
    parser.add_argument("--program", metavar="PATH", help="the thpsplit to compare with")
    parser.add_argument("--no-memory", action="store_true", help="leave kernel memory, and so the queues, unread")
    parser.add_argument("--wait", action="store_true", help="wait until another tool has ended")
    parser.add_argument("script", nargs="*", help="scripts (-: standard input); their settings are in the first line")
    for name in SETTINGS:
        parser.add_argument(f"--{name}", help="as for thpsplit, for scripts that are files")
    parser.add_argument("--random", type=whole(0, MOST_SCRIPTS), default=0, metavar="COUNT", help="run COUNT random scripts")
    parser.add_argument("--seed", type=whole(0, MOST_SEED), default=1)
    parser.add_argument("--node-counts", default="1,1,1,2,4", metavar="LIST", type=wholes(1, MOST_NODES),
                        help="random scripts draw from it")
    parser.add_argument("--page-orders", default="9,9,9,2,3,4,5,6,7,8", metavar="LIST", type=wholes(LEAST_ORDER, PMD_ORDER),
                        help="and from it")
    parser.add_argument("--thresholds", default="off", metavar="LIST", type=wholes(0, (1 << PMD_ORDER) - 1, "off"),
                        help="off or numbers, drawn for each script")
    parser.add_argument("--queue-lengths", default="1,2,3,4,6,8,12,16,24,32,64,200", metavar="LIST", type=wholes(0, MOST_QUEUE),
                        help="the lengths to which queues are filled, drawn for each node")
    parser.add_argument("--length", type=whole(0, MOST_LENGTH), default=40,
                        help="most commands of a random script besides those that fill queues, at least 8")
    parser.add_argument("--fill", choices=("data", "zeros"), help="what new pages hold; else zeros by thresholds")
    parser.add_argument("--keep", metavar="FOLDER", help="write scripts that differ there, and the smallest of each kind")
    parser.add_argument("--shrink", type=seconds(0, MOST_SHRINKING), default=SECONDS, metavar="SECONDS",
                        help="time to make a script that differs small (60; 0: none)")
    parser.add_argument("--show", action="store_true", help="print the random scripts; nothing is run")
    parser.add_argument("--fingerprint", action="store_true",
                        help="print how this kernel does each known difference, by the scripts of linux/letters")
    parser.add_argument("--json", action="store_true", help="print JSON, a document a line")
    parser.add_argument("--undo", action="store_true", help="put back what a killed run left; nothing is run")
    parser.add_argument("-v", "--verbose", action="store_true", help="print each command")
    parser.add_argument("-q", "--quiet", action="store_true", help="print what differs or is inconclusive, and the sums")
    return parser.parse_args(given)


def parse_shape(options: argparse.Namespace) -> Shape:
    """Returns what random scripts are drawn from."""
    length = max(options.length, LEAST_LENGTH)
    return Shape(options.node_counts, options.page_orders, options.thresholds, length, options.queue_lengths)


def list_scripts(options: argparse.Namespace) -> tuple[int, Iterator[Script]]:
    """Returns how many scripts a command line names, and the scripts: files, then random ones, which are made one by one."""
    given = [f"--{name}={getattr(options, name)}" for name in SETTINGS if getattr(options, name) is not None]
    named = [read_script(path, given) for path in options.script]
    return len(named) + options.random, chain(named, scripts(options.random, options.seed, parse_shape(options)))
