"""The command line of `thprecord`."""

from __future__ import annotations

import os
import re
import shutil
from argparse import ArgumentTypeError, Namespace

from ..common.arguments import OneLineParser, seconds, tool_parser, whole, wholes
from ..common.errors import InputFault
from ..common.files import PMD_ORDER
from ..common.text import escape
from ..common.user import user_for

OWN_WORDS = ("zeros", "collapse", "areas")
LONG = 1000000000.0  # seconds


def parse_workload(text: str) -> list[str]:
    """Returns the words of the own workload: threads, steps, seed, and perhaps others; the limits are those of workload.c."""
    words = text.split(",")
    if len(words) < 3 or not {*words[3:]} <= {*OWN_WORDS}:
        raise ArgumentTypeError(f"it needs THREADS,STEPS,SEED, and perhaps {', '.join(OWN_WORDS)}")
    for word, most in zip(words, (64, 10 ** 9, 2000000)):
        whole(int(most == 64), most)(word)
    return words


def parse_orders(text: str) -> list[int]:
    """Returns orders from text, each once."""
    orders = wholes(2, PMD_ORDER)(text)
    if len({*orders}) < len(orders):
        raise ArgumentTypeError("an order is there twice")
    return orders


def parse_size(text: str) -> int:
    """Returns bytes by their number with K, M, G or T, or without."""
    found = re.fullmatch("([1-9][0-9]{0,11})([KMGT]?)", text)
    if not found:
        raise ArgumentTypeError("it needs a number of bytes, or with K, M, G or T a multiple of 1024 bytes and so on")
    return int(found[1]) << 10 * " KMGT".index(found[2] or " ")


def parse_options(text: str, name: str, words: list[str] | None = None) -> Namespace:
    """Returns the options of a command line; `user` is the User who runs the command."""
    options = _parser(text, name).parse_args(words)
    if options.user is not None and not options.command:
        raise InputFault("--user needs a command")
    options.user = user_for(options.user) if options.command else None
    return options


def check_command(options: Namespace) -> None:
    """InputFault where there is no such command."""
    if options.user and not shutil.which(options.command[0], path=options.user.environment().get("PATH", os.defpath)):
        raise InputFault(f"{escape(options.command[0])}: no such command")


def _parser(text: str, name: str) -> OneLineParser:
    parser = tool_parser(name, text)
    add = parser.add_argument
    add("--checker", metavar="PATH", help="the thpcheck to use")
    add("--program", metavar="PATH", help="the thpsplit to use instead")
    add("--own", type=parse_workload, default="1,300,1", metavar="THREADS,STEPS,SEED[,WORDS]", help="the tool's own workload")
    add("--order", type=parse_orders, default=[PMD_ORDER], metavar="LIST", help="the orders of pages that are followed")
    add("--underused", type=lambda text: text if text in ("off", "as-is") else whole(0, (1 << PMD_ORDER) - 1)(text), default="off",
        help="off, a threshold, or as-is: leave the machine's setting")
    add("--enabled", choices=("madvise", "always"), default="madvise", help="which areas get pages of these orders (madvise)")
    add("--every", type=seconds(0, LONG), default=0.02, metavar="SECONDS", help="between two reclaims; 0: none")
    add("--collapse", type=whole(0, 2 ** 32 - 1), metavar="MS", help="khugepaged's pause; long with --own")
    add("--strict", action="store_true", help="allow no known difference")
    add("--require", type=seconds(0, 100), default=95.0, metavar="PERCENT", help="the pages that are followed at least; 95")
    add("--out", metavar="FILE", help="write the journal into this new file")
    add("--times", metavar="FILE", help="write the time of each event into this new file")
    add("--contents", type=seconds(0.01, LONG), metavar="SECONDS", help="look at the pages' contents so often")
    add("--records", metavar="FILE", help="write the records into this new file; further queues' to FILE.2 ..")
    add("--seconds", type=seconds(0.001, LONG), metavar="N", help="end the recording, and the command, after N seconds")
    add("--disk", type=parse_size, default="1G", metavar="SIZE",
        help="end them once the records take so many bytes on disk (K, M, G, T); 1G")
    add("--user", metavar="NAME", help="who runs the command; by default the caller of sudo")
    add("--wait", action="store_true", help="wait until no other tool is running")
    add("command", nargs="*", metavar="COMMAND", help="-- COMMAND ARGS..: runs instead of the own workload")
    return parser
