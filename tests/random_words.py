"""Random command lines: words with errors, lists that are not valid, and requests for help and version."""

from __future__ import annotations

from pathlib import Path
from random import Random
from typing import Callable

import usage
from process import Ended, Word
from random_texts import MOST_NODES, option

STORED = Path(__file__).resolve().parent / "stored"


def usable(chance: Random, name: str) -> str:
    """A value that an option accepts, whatever the others are."""
    if name in usage.MOST:
        return str(chance.choice((1, usage.MOST[name], chance.randrange(1, usage.MOST[name] + 1))))
    return chance.choice(usage.REPORTS) if name == "report" else chance.choice(("x", "9", "off", "9,9"))


def front(chance: Random, but: str = "") -> tuple[list[str], list[Word]]:
    """The names of some valid options, without the one that is named; and their words."""
    names = [name for name in usage.OPTIONS if name not in ("help", "version", but)]
    used = chance.sample(names, chance.choice((0, 0, 1, 2, len(names))))
    words: list[Word] = []
    for name in used:
        words.extend((f"--{name}",) if usage.OPTIONS[name] is None else option(chance, name, usable(chance, name)))
    return used, words


Reported = Callable[[list[str]], bytes]
"""The message about an error, given the names of the options before it."""

Faulty = tuple[str, list[Word], Reported]
"""The option with the error, if there is one; words that have the error; and the message."""


def faulty_words(chance: Random) -> tuple[str, list[Word], Ended]:
    """A kind of error, words that have it first, and the message."""
    kind = chance.choice(tuple(FAULTS))
    name, words, reported = FAULTS[kind](chance)
    # what is reported of an attached value depends on how the options before it are written
    used, before = ([], []) if kind == "attached" else front(chance, name)
    return kind, [*before, *words], Ended(2, b"", reported(used))


def always(reported: bytes) -> Reported:
    """A message that does not depend on the options before."""
    return lambda used: reported


def out_of_range(chance: Random) -> Faulty:
    """A number that the option does not accept."""
    name = chance.choice(tuple(usage.MOST))
    most = usage.MOST[name]
    value = chance.choice((0, most + 1, 2**31, 2**32 - 1, 2**32, 2**63 - 1, chance.randrange(most + 1, 10**9)))
    return name, list(option(chance, name, str(value))), always(usage.out_of_range(name, value))


def no_number(chance: Random) -> Faulty:
    """A word that is not a 64-bit number."""
    name = chance.choice(tuple(usage.MOST))
    value = chance.choice(("x", "1x", "0x1", "1.5", "1e3", "1,1", "\u0663", "1 ", " 1", "+", str(2**64), "9" * 50))
    is_large = value.isascii() and value.isdigit()
    what = "number too large to fit in target type" if is_large else "invalid digit found in string"
    return name, list(option(chance, name, value)), always(usage.no_number(name, value, what))


def no_value(chance: Random) -> Faulty:
    """An option as the last word, without its value."""
    name = chance.choice([it for it, value in usage.OPTIONS.items() if value is not None])
    return name, [f"--{name}"], always(usage.no_value(name))


def empty_value(chance: Random) -> Faulty:
    """An empty word as the value of an option that is read at once."""
    name = chance.choice((*usage.MOST, "report"))
    return name, list(option(chance, name, "")), always(usage.empty(name))


def no_report(chance: Random) -> Faulty:
    """An unknown report."""
    value = chance.choice(("x", "no report", "1", "\u00e9"))
    return "report", list(option(chance, "report", value)), always(usage.no_report(value))


def doubled(chance: Random) -> Faulty:
    """An option that occurs twice."""
    name = chance.choice([it for it in usage.OPTIONS if it not in ("help", "version")])
    if usage.OPTIONS[name] is None:
        return name, [f"--{name}", f"--{name}"], always(usage.doubled(name))
    twice = (option(chance, name, usable(chance, name)) for _ in range(2))
    return name, [word for words in twice for word in words], always(usage.doubled(name))


def attached(chance: Random) -> Faulty:
    """A value of an option that takes none."""
    name = chance.choice([it for it, value in usage.OPTIONS.items() if value is None])
    return name, [f"--{name}=1"], always(usage.attached(name, "1"))


def no_such_word(chance: Random) -> Faulty:
    """A word that is not an option."""
    word = chance.choice(("zzz", "--zzz", "-", "-z", "--\u00e9", "first.script", "", "a b"))
    return "", [word], lambda used: usage.unexpected(word, used=used if word.startswith("--") else ())


def not_text(chance: Random) -> Faulty:
    """A word that is not UTF-8."""
    return "", [chance.choice((b"\xff", b"--orders=\xc3", b"\xed\xa0\x80"))], always(usage.NOT_TEXT)


FAULTS: dict[str, Callable[[Random], Faulty]] = {
    "out of range": out_of_range,
    "no number": no_number,
    "no value": no_value,
    "empty value": empty_value,
    "no report": no_report,
    "doubled": doubled,
    "attached": attached,
    "no such word": no_such_word,
    "not text": not_text,
}
"""The kinds of errors in words."""


def list_of(chance: Random, items: tuple[str, ...], nodes: int) -> str:
    """A list of items, mostly one for each node."""
    count = nodes if chance.random() < 0.8 else chance.randrange(MOST_NODES + 2)
    return ",".join(chance.choice(items) for _ in range(count))


def request(chance: Random) -> tuple[str, list[Word], Ended]:
    """A request for help or version, after valid options."""
    name, word = chance.choice((("help", "--help"), ("help", "-h"), ("version", "--version"), ("version", "-V")))
    return name, [*front(chance)[1], word], Ended(0, (STORED / f"{name}.txt").read_bytes())
