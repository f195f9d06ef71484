"""Runs a command on another kernel, in a virtual machine of qemu: the command's output and status are its own.

KERNEL is an image (bzImage), a folder with a built kernel, or a file of a Debian package, of which only the image is
unpacked. The guest has this machine's Python, the tools of linux/ and their helpers, thpsplit and thpcheck where they are
built, a shell and a few commands; it has no network and no disk. Nothing is installed here, and no rights are needed.

Status: the command's own; 2: an error in the words or files; 3: the kernel doesn't boot, the guest hangs, or the limit of time
has passed, with the end of the console; 77: this machine lacks qemu, or the kernel what the guest needs. With --bisect 125 for
all of these, and for each status of the command except 0 and 1.
"""

from __future__ import annotations

import argparse
import os
import sys
from collections.abc import Sequence
from typing import NoReturn

from ..common.arguments import seconds, tool_parser, whole
from ..common.errors import DIFFERS, InputFault, RunFailed
from ..common.tool import run_tool
from .guest_files import GuestFiles
from .guest_run import ACCELERATORS, GuestRun, find_qemu, lines_of_console
from .kernels import find_kernel

NAME = "thpvm"
LEAST_MEMORY, MEMORY, MOST_MEMORY = 512, 2048, 1 << 20  # MiB
MOST_NODES, MOST_SECONDS = 16, 1e6
UNDECIDED = 125  # git-bisect(1): the commit is skipped


def parse_words(given: Sequence[str] | None = None) -> argparse.Namespace:
    """Returns the options of a command line, by default this process's own; `command` are the words after `--`."""
    parser = tool_parser(NAME, __doc__, usage="thpvm [options] KERNEL -- COMMAND [ARGS]")
    parser.add_argument("kernel", metavar="KERNEL", help="an image, a folder, or a Debian package's file")
    parser.add_argument("--numa", type=whole(1, MOST_NODES), default=1, metavar="N", help="NUMA nodes; a processor for each, at least 2")
    about = f"memory of all nodes together ({MEMORY})"
    parser.add_argument("--memory", type=whole(LEAST_MEMORY, MOST_MEMORY), default=MEMORY, metavar="MIB", help=about)
    parser.add_argument("--accel", choices=ACCELERATORS, default="auto", help="auto: KVM where it may be used")
    parser.add_argument("--file", action="append", default=[], metavar="PATH", help="a file or folder for the guest, at its path")
    parser.add_argument("--append", default="", metavar="WORDS", help="more words for the kernel")
    parser.add_argument("--limit", type=seconds(0, MOST_SECONDS), default=0.0, metavar="SECONDS", help="for boot and command (0: none)")
    parser.add_argument("--bisect", action="store_true", help="each status except 0 and 1 is 125, for git bisect run")
    words: list[str] = list(sys.argv[1:] if given is None else given)
    at = words.index("--") if "--" in words else len(words)
    options = parser.parse_args(words[:at])
    options.command = words[at + 1:]
    if not options.command or not options.command[0]:
        raise InputFault("no command: thpvm [options] KERNEL -- COMMAND [ARGS]")
    return options


def run_guest(run: GuestRun) -> int:
    """Runs a guest to its end; returns the command's status. Where that fails, the end of the console is written."""
    try:
        return run.run()
    except RunFailed:
        for line in lines_of_console(run.console):
            print(f"{NAME}: console: {line}", file=sys.stderr, flush=True)
        raise
    finally:
        run.end()


def run_command() -> int:
    """Carries out the command line, and returns the command's status."""
    options = parse_words()
    find_qemu()
    name, data = find_kernel(options.kernel)
    files, image = os.memfd_create("files"), os.memfd_create("kernel")  # files without names
    with open(files, "wb", closefd=False) as file:
        GuestFiles(file).add_all(options)
    with open(image, "wb", closefd=False) as file:
        file.write(data)
    status = run_guest(GuestRun(name, options, image, files))
    return UNDECIDED if options.bisect and status > DIFFERS else status


def start() -> NoReturn:
    """Runs the tool."""
    own = sys.argv[1 : sys.argv.index("--")] if "--" in sys.argv else sys.argv[1:]
    run_tool(NAME, run_command, UNDECIDED if "--bisect" in own else None)


if __name__ == "__main__":
    start()
