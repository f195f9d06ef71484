"""The words of a command line: a parser whose errors are one line, and numbers within limits."""

from __future__ import annotations

import argparse
import re
from typing import Any, Callable, NoReturn

from .errors import InputFault
from .text import escape
from .version import VERSION


class OneLineParser(argparse.ArgumentParser):
    """A parser that raises InputFault (one line, status 2) where words can't be used."""

    def error(self, message: str) -> NoReturn:
        raise InputFault(f"{escape(message)} (--help has the options)")


def tool_parser(name: str, about: str | None, **more: Any) -> OneLineParser:
    """Returns the parser of a tool's words, with --help, which prints `about` as it is, and --version."""
    parser = OneLineParser(prog=name, description=about, formatter_class=argparse.RawDescriptionHelpFormatter, **more)
    parser.add_argument("--version", action="version", version=f"{name} {VERSION}", help="print the version")
    return parser


def whole(low: int, high: int) -> Callable[[str], int]:
    """Returns a type for whole numbers from `low` to `high`, in decimal digits."""

    def parse(text: str) -> int:
        if not re.fullmatch(r"-?[0-9]{1,18}", text) or not low <= int(text) <= high:
            raise argparse.ArgumentTypeError(f"{escape(text)[:40]!r} is no whole number from {low} to {high}")
        return int(text)

    return parse


def wholes(low: int, high: int, word: str = "") -> Callable[[str], list[Any]]:
    """Returns a type for lists of whole numbers, with commas; an item may be `word`, too, and is None then."""
    parse = whole(low, high)
    return lambda text: [None if word and each == word else parse(each) for each in text.split(",")]


def seconds(low: float, high: float) -> Callable[[str], float]:
    """Returns a type for numbers from `low` to `high`, in decimal digits with a point or without."""

    def parse(text: str) -> float:
        is_number = re.fullmatch(r"[0-9]{1,12}(\.[0-9]{0,12})?|\.[0-9]{1,12}", text)
        if not is_number or not low <= float(text) <= high:
            raise argparse.ArgumentTypeError(f"{escape(text)[:40]!r} is no number from {low:g} to {high:g}")
        return float(text)

    return parse
