"""Random scripts, most of whose commands are about possible pages; and texts with a random change."""

from __future__ import annotations

from dataclasses import dataclass, field
from random import Random
from typing import Iterable, Iterator

from model import Node
from script import Run, Shape
from texts import BATCH_WORDS, COMMANDS, EVENTS, MOST_NUMBER, NODE_WORDS, OUTCOMES, PAGE_WORDS, RANGE_WORDS

MOST_NODES = 8
MOST_WORKERS = 63


def joined(lines: list[str]) -> bytes:
    """The text of some lines."""
    return "".join(line + "\n" for line in lines).encode()


@dataclass
class Script:
    """A script that was executed by the model as it was created: `sections` are callers and their commands, ascending."""

    shapes: list[Shape]
    workers: int = 1
    sections: list[tuple[int, list[str]]] = field(default_factory=list)
    run: Run = field(init=False)

    def __post_init__(self) -> None:
        self.run = Run(self.shapes)

    def section(self, caller: int, lines: Iterable[str]) -> None:
        """Adds a section, whose commands are executed as they are added."""
        commands: list[str] = []
        for line in lines:
            commands.append(line)
            self.run.line(caller, len(commands), line)
        self.run.end(caller)
        self.sections.append((caller, commands))

    def text(self) -> bytes:
        """The script as it is read."""
        lines = []
        for caller, commands in self.sections:
            lines += ["setup" if caller == 0 else f"worker {caller}", *commands]
        return joined(lines)

    def options(self, chance: Random) -> list[str]:
        """Options for the nodes and workers, in any order; some that equal the defaults may be left out."""
        orders = ",".join(str(order) for _, order, _ in self.shapes)
        switches = ",".join("off" if switch is None else str(switch) for _, _, switch in self.shapes)
        asked = [("nodes", str(len(self.shapes)), "1"), ("blocks", str(self.shapes[0][0]), "16")]
        asked += [("workers", str(self.workers), "1"), ("orders", orders, ",".join("9" * len(self.shapes)))]
        asked.append(("underused", switches, ",".join(["off"] * len(self.shapes))))
        kept = [(name, value) for name, value, usual in asked if value != usual or chance.random() < 0.3]
        chance.shuffle(kept)
        return [word for name, value in kept for word in option(chance, name, value)]


def option(chance: Random, name: str, value: str) -> list[str]:
    """An option and its value, as two words or as one."""
    return [f"--{name}={value}"] if chance.random() < 0.3 else [f"--{name}", value]


def random_shapes(chance: Random, nodes: int) -> list[Shape]:
    """Nodes with equally many blocks: plain ones, ones of any orders, or some that may have thresholds, too."""
    blocks = chance.choice((1, 2, 3, 5, 16, 16, 64, 4096))
    kind = chance.choice(("plain", "orders", "thresholds", "thresholds", "thresholds"))
    shapes: list[Shape] = []
    for _ in range(nodes):
        order = 9 if kind == "plain" else chance.choice((2, 2, 2, 3, 9, chance.randrange(2, 10)))
        switch = chance.choice((None, None, 0, 1, 2**order - 1, chance.randrange(2**order)))
        shapes.append((blocks, order, switch if kind == "thresholds" else None))
    return shapes


def random_commands(chance: Random, run: Run, nodes: list[int]) -> Iterator[str]:
    """Commands of one section on some of the nodes, each chosen after the commands before it were executed."""
    count = chance.randrange(60) if nodes else 0
    closing = chance.randrange(count) if count and chance.random() < 0.2 else None
    for place in range(count):
        number = chance.choice(nodes)
        word = "close" if place == closing else chance.choice(likely_words(run, number))
        yield " ".join((word, str(number), *operands(chance, word, run.nodes[number])))


ANY = tuple(word for word in COMMANDS if word != "close")
USUAL = ANY + ("alloc",) * 2 + ("splitpmd",) * 4 + ("unmap",) * 8 + ("write", "scan", "scan", "take")


PLAIN = tuple(word for word in USUAL if word not in ("write", "zero"))
HOLDING = USUAL + ("splitnext",) * 12 + ("putback", "unmapwhole", "unmap")
EMPTY = ANY + ("alloc",) * 30


def likely_words(run: Run, number: int) -> tuple[str, ...]:
    """Words that mostly have an effect on a node. Words of version 3 of a journal are rare without thresholds."""
    node = run.nodes[number]
    if number in run.batches:
        return HOLDING
    if not node.live and not node.closed:
        return EMPTY
    if all(it.underused is None for it in run.nodes) and len(node.journal) % 8:
        return PLAIN
    return USUAL


def operands(chance: Random, word: str, node: Node) -> list[str]:
    """The operands of a command on a node, after the node's number."""
    if word in BATCH_WORDS:
        return [str(chance.choice((0, 1, 2, 8, 128)))]
    if word in NODE_WORDS:
        return []
    some = list(node.live) or [node.allocated]
    page = chance.choice(some) if chance.random() < 0.9 else chance.choice((node.allocated, 0, 2**32, MOST_NUMBER))
    if word in PAGE_WORDS:
        return [str(page)]
    assert word in RANGE_WORDS
    first = chance.choice((0, 0, node.size // 2, chance.randrange(node.size + 1)))
    count = chance.choice((node.size - first, node.size - first, 1, chance.randrange(node.size + 2)))
    return [str(page), str(first), str(count)]


def script_of_one(chance: Random) -> Script:
    """A script whose commands are executed one after the other: setup, and one worker."""
    worker = chance.choice((1, 1, 2, 63))
    script = Script(random_shapes(chance, chance.choice((1, 1, 2, 3))), max(worker, chance.choice((1, 1, 5, 63))))
    nodes = list(range(len(script.shapes)))
    for caller in chance.choice(((0,), (worker,), (0, worker), (0, worker))):
        script.section(caller, random_commands(chance, script.run, nodes))
    return script


def script_of_many(chance: Random) -> Script:
    """A script of several workers, each on nodes of its own: all of its reports are determined."""
    nodes = chance.randrange(2, MOST_NODES + 1)
    most = chance.choice((8, MOST_WORKERS))
    workers = sorted(chance.sample(range(1, most + 1), chance.randrange(2, nodes + 1)))
    script = Script(random_shapes(chance, nodes), chance.randrange(workers[-1], MOST_WORKERS + 1))
    owners = {node: chance.choice(workers) for node in range(nodes)}
    script.section(0, random_commands(chance, script.run, list(owners)))
    for worker in workers:
        own = [node for node, owner in owners.items() if owner == worker]
        script.section(worker, random_commands(chance, script.run, own))
    return script


def script_of_limits(chance: Random) -> Script:
    """A script in which a count of a page reaches its limit, 65,535, and would exceed it."""
    script = Script([(chance.choice((1, 16)), 2, chance.choice((None, 1)))])
    kind = chance.choice(("mapwhole 0 0", "pin 0 0", "map 0 0 1 2"))
    lines = ["alloc 0", *[kind] * 65_534, "splitpmd 0 0", *[kind] * 3, "mapwhole 0 0", "map 0 0 0 4", "pin 0 0"]
    script.section(0, lines)
    script.section(1, random_commands(chance, script.run, [0]))
    return script


def changed_journal(chance: Random, journal: list[str]) -> list[str]:
    """The journal with one event left out, doubled, moved, of another kind, or with another number in it."""
    events = [place for place, line in enumerate(journal) if line.split()[0].isdigit()]
    if not events:
        return journal
    changed, place = list(journal), chance.choice(events)
    kind = chance.randrange(6)
    if kind == 0:
        del changed[place]
    elif kind == 1:
        changed.insert(place, changed[place])
    elif kind == 2:
        changed.insert(chance.choice(events), changed.pop(place))
    elif kind == 3:
        changed.insert(place, random_event(chance))
    else:
        words = changed[place].split()
        numbers = [at for at, word in enumerate(words) if word.isdigit() and at < 5]
        words[chance.choice(numbers)] = str(chance.randrange(4))
        changed[place] = " ".join(words)
    return changed


def random_event(chance: Random) -> str:
    """An event line of any kind, well written (in version 3)."""
    word = chance.choice(EVENTS)
    numbers = {"mapsub": 3, "unmapsub": 3, "write": 3, "zero": 3, "close": 0}.get(word, 1)
    words = [str(chance.randrange(3)), word, *(str(chance.randrange(4)) for _ in range(numbers))]
    if word in ("unmapwhole", "unpin", "unmapsub"):
        words.append(chance.choice(OUTCOMES))
    if word in ("unmapwhole", "unpin", "unmapsub", "split"):
        words.append(chance.choice(("-", "0", "0-3", "1,3", "0-511")))
    return " ".join(words)


BYTES = (
    b"\t", b"\r", b"\x00", b"\x1f", b"\x7f", b"\x80", b"\xff", b"\xc3\xa9", b" ", b"#", b"0", b"-", b",", b"\n", b"~",
)
"""Bytes that are inserted into a text."""

STRANGE = (
    "", "x", "00", "01", "-1", "+1", "0x1", "1e3", "65535", "65536", "129", "128", "511", "512", "4097", "63", "64",
    "18446744073709551615", "18446744073709551616", "9" * 40, "off", "-", "0-1", "1-0", "0,1", "0-511", ",", "setup",
    "worker", "node", "end", "thp-journal", "stays", "freed", "queued", "blocks", "order", "underused",
)
"""Words that are inserted into a text."""


def spoilt(chance: Random, text: bytes, words: tuple[str, ...]) -> bytes:
    """A text with one change: of a byte, a word, a line, or its end. `words` are some that name the kind of a line."""
    kind = chance.randrange(8)
    at = chance.randrange(len(text) + 1)
    if kind == 0:
        return text[:at] + chance.choice(BYTES) + text[at:]
    if kind == 1:
        return text[:at] + text[at + 1 :]
    if kind == 2:
        return text[:at]
    lines = text.decode().split("\n")
    place = chance.randrange(len(lines))
    if kind in (3, 4, 5):
        lines[place] = spoilt_line(chance, lines[place], words)
    elif kind == 6:
        more = ("", "setup", "worker 1", "worker 2", "end", "thp-journal 1", "node 0 blocks 1", "node 1 blocks 1", "#")
        lines.insert(place, chance.choice((*more, *more, *words)))
    else:
        lines.insert(place, lines.pop(chance.randrange(len(lines))))
    return "\n".join(lines).encode()


SETS = (
    "-", "0", "0-", "-0", "1-1", "2-1", "0,1", "1-2,3", "3,1", "0,0", "512", "0-512", "00", "0,,2", ",", "0-1-2", "x",
    "9" * 30,
)
"""Words instead of a set, most of which are none."""


def with_other_set(chance: Random, journal: bytes) -> bytes:
    """A journal with another word instead of a set, if there is one."""
    lines = journal.decode().split("\n")
    places = [place for place, line in enumerate(lines) if {"split", "stays", "queued", "freed"} & set(line.split(" "))]
    if places:
        place = chance.choice(places)
        front, _, last = lines[place].rpartition(" ")
        lines[place] = f"{front} {chance.choice((*SETS, last + ',512', '0,' + last, last[::-1]))}"
    return "\n".join(lines).encode()


def spoilt_line(chance: Random, line: str, words: tuple[str, ...]) -> str:
    """A line with another word, a word more or less, or with another first word."""
    parts = line.split(" ")
    at = chance.choice((chance.randrange(len(parts)), len(parts) - 1))
    kind = chance.randrange(4)
    if kind == 0:
        parts[at] = chance.choice(STRANGE)
    elif kind == 1:
        parts.insert(chance.randrange(len(parts) + 1), chance.choice(STRANGE))
    elif kind == 2:
        del parts[at]
    else:
        parts[min(at, 1)] = chance.choice(words)
    return " ".join(parts)
