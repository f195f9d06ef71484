"""A script's settings and commands, as docs/FORMATS.md describes them.

The settings are in the first line, `# thpsplit OPTIONS`, or in words given."""

from __future__ import annotations

import re
from collections.abc import Sequence
from dataclasses import dataclass
from pathlib import Path

from .arguments import OneLineParser, whole, wholes
from .errors import InputFault
from .files import PMD_ORDER, read_input
from .text import escape, text_lines

MARK = "# thpsplit "
MOST_NODES, MOST_BLOCKS, MOST_WORKERS, LEAST_ORDER = 8, 4096, 63, 2  # docs/FORMATS.md
_SETTINGS = "settings of a script"
_PARSER = OneLineParser(prog="", add_help=False, allow_abbrev=False)
_PARSER.add_argument("--nodes", type=whole(1, MOST_NODES), default=1)
_PARSER.add_argument("--blocks", type=whole(1, MOST_BLOCKS), default=16)
_PARSER.add_argument("--workers", type=whole(1, MOST_WORKERS), default=1)
_PARSER.add_argument("--orders", type=wholes(LEAST_ORDER, PMD_ORDER))
_PARSER.add_argument("--underused", type=wholes(0, (1 << PMD_ORDER) - 1, "off"))
_PARSER.add_argument("--report")
_NUMBER = re.compile("[0-9]{1,20}")


@dataclass(frozen=True)
class Options:
    """The options of `thpsplit` for a script. Orders and thresholds are of each node; None: not underused pages."""

    nodes: int = 1
    blocks: int = 16
    workers: int = 1
    orders: Sequence[int] = (PMD_ORDER,)
    underused: Sequence[int | None] = (None,)

    def words(self) -> list[str]:
        """Returns the words of the command line."""
        switches = ["off" if threshold is None else str(threshold) for threshold in self.underused]
        out = ["--nodes", str(self.nodes), "--blocks", str(self.blocks), "--workers", str(self.workers)]
        if set(self.orders) != {PMD_ORDER}:
            out += ["--orders", ",".join(map(str, self.orders))]
        if set(self.underused) != {None}:
            out += ["--underused", ",".join(switches)]
        return out


def options_of(words: Sequence[str]) -> Options:
    """Returns the settings in words of a command line; --report has no meaning here. InputFault where they can't be used: it quotes
    none of them, since they may be from a file that isn't its reader's."""
    try:
        found = _PARSER.parse_args(words)
    except InputFault:
        raise InputFault(f"{_SETTINGS}: they can be{' '.join(_PARSER.format_usage().split())[6:]}") from None
    nodes = found.nodes
    orders, underused = found.orders or [PMD_ORDER] * nodes, found.underused or [None] * nodes
    if len(orders) != nodes or len(underused) != nodes:
        raise InputFault(f"{_SETTINGS}: a list is as long as there are nodes")
    if any(switch is not None and switch >= 1 << order for order, switch in zip(orders, underused)):
        raise InputFault(f"{_SETTINGS}: a threshold is less than the subpages of a page")
    return Options(nodes, found.blocks, found.workers, tuple(orders), tuple(underused))


@dataclass(frozen=True)
class Command:
    """One command: the section (0: setup), the words, and the place among a script's commands, from 1."""

    section: int
    words: Sequence[str]
    place: int = 0


@dataclass(frozen=True)
class Script:
    """A script's name, text and settings."""

    name: str
    text: str
    options: Options

    def commands(self) -> list[Command]:
        """Returns the commands in order. InputFault where a section has no number; `thpsplit` finds all other faults of a text."""
        out: list[Command] = []
        section = 0
        for place, line in enumerate(text_lines(self.text), 1):
            words = line.split(" ")
            if not line or line.startswith("#"):
                continue
            if words[0] not in ("setup", "worker"):
                out.append(Command(section, words, len(out) + 1))
                continue
            section = 0
            if words[0] == "worker":
                if len(words) != 2 or not _NUMBER.fullmatch(words[1]):
                    raise InputFault(f"line {place}: a worker's number is missing")
                section = int(words[1])
        return out


def text_of(commands: Sequence[Command]) -> str:
    """Returns the text of commands, with their sections."""
    lines, section = [], -1
    for command in commands:
        if command.section != section:
            section = command.section
            lines.append(f"worker {section}" if section else "setup")
        lines.append(" ".join(command.words))
    return "".join(f"{line}\n" for line in lines)


def script_of(name: str, text: str, given: Sequence[str] = ()) -> Script:
    """Returns a script by its text; words given override those of its first line."""
    first = text.split("\n", 1)[0]
    own = first[len(MARK):].split() if first.startswith(MARK) else []
    return Script(name, text, options_of([*own, *given]))


def read_script(path: str, given: Sequence[str] = ()) -> Script:
    """Reads a script from a file, or from standard input (`-`). InputFault where it can't be read or isn't ASCII."""
    try:
        text = read_input(path).decode("ascii")
    except UnicodeDecodeError as error:
        byte = error.object[error.start]
        raise InputFault(f"{escape(path)} is no script: byte {byte:#04x} at offset {error.start} isn't ASCII") from error
    return script_of("standard-input" if path == "-" else Path(path).name, text, given)
