"""The program's messages about errors in its command line, in the form of clap 4."""

from __future__ import annotations

from typing import Optional, Sequence

OPTIONS = {
    "nodes": "NODES",
    "blocks": "BLOCKS",
    "workers": "WORKERS",
    "report": "REPORT",
    "orders": "ORDERS",
    "underused": "THRESHOLDS",
    "check": None,
    "help": None,
    "version": None,
}
"""All options, each with the name of its value, if it takes one."""

MOST = {"nodes": 8, "blocks": 4096, "workers": 63}
"""The greatest value of an option; the least is 1."""

REPORTS = ("totals", "journal", "answers")
TRY = "\n\nFor more information, try '--help'.\n"
NOT_TEXT = b"error: invalid UTF-8 was detected in one or more arguments\n"
"""The message about a word that is not UTF-8."""


def usage(named: Sequence[str] = ()) -> str:
    """The line of usage, after an empty line. It names the given options."""
    return f"\n\nUsage: thpsplit {' '.join(map(option, named)) or '[OPTIONS]'}"


def option(name: str) -> str:
    """An option as it is named in a message, with its value if it takes one."""
    value = OPTIONS[name]
    return f"--{name}" if value is None else f"--{name} <{value}>"


def doubled(name: str) -> bytes:
    """The option occurs twice."""
    return f"error: the argument '{option(name)}' cannot be used multiple times{usage()}{TRY}".encode()


def no_value(name: str) -> bytes:
    """The option has no value."""
    possible = f"\n  [possible values: {', '.join(REPORTS)}]" if name == "report" else ""
    return f"error: a value is required for '{option(name)}' but none was supplied{possible}{TRY}".encode()


def empty(name: str) -> bytes:
    """The value of an option is an empty word. Lists are read later."""
    if name in MOST:
        return no_number(name, "", "cannot parse integer from empty string")
    return {"orders": b"thpsplit: bad orders\n", "underused": b"thpsplit: bad underused\n"}.get(name) or no_value(name)


def no_number(name: str, value: str, why: str) -> bytes:
    """The value of an option is not a number that it accepts."""
    return f"error: invalid value '{value}' for '{option(name)}': {why}{TRY}".encode()


def out_of_range(name: str, value: int) -> bytes:
    """The value of an option is a number outside its bounds."""
    return no_number(name, str(value), f"{value} is not in 1..={MOST[name]}")


def no_report(value: str, similar: Optional[str] = None) -> bytes:
    """The value of `--report` is not a report; a similar name is suggested."""
    possible = f"\n  [possible values: {', '.join(REPORTS)}]"
    tip = "" if similar is None else f"\n\n  tip: a similar value exists: '{similar}'"
    return f"error: invalid value '{value}' for '{option('report')}'{possible}{tip}{TRY}".encode()


def unexpected(word: str, similar: Optional[str] = None, used: Sequence[str] = ()) -> bytes:
    """A word is not an option, and nothing else is allowed there; a similar option is suggested.

    `used` are the options before it, if the word begins with `--`.
    """
    tip = "" if similar is None else f"\n\n  tip: a similar argument exists: '--{similar}'"
    named = [*used, *([] if similar is None else [similar])]
    return f"error: unexpected argument '{word}' found{tip}{usage(named)}{TRY}".encode()


def attached(name: str, value: str) -> bytes:
    """An option that takes no value has one attached, and is the first."""
    why = f"unexpected value '{value}' for '--{name}' found; no more were expected"
    return f"error: {why}{usage([name])}{TRY}".encode()
