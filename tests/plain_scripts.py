"""A plain reading of what `thpcheck --script` writes: the commands that repeat a journal, and what they do in another order.

A call is the same call. A batch is a `scan` if all its takes, its tries and its put-backs follow one another, otherwise a `take`, a
`splitnext` for each try and a `putback`, each at its place. A script has one batch at a time. The pages that are taken while it has one,
and until it has pages no more, form flights that wait: each becomes one `scan`, of its pages without those that were freed meanwhile,
after all flights before it have no page left.
"""

from __future__ import annotations

from dataclasses import dataclass, field

MOST = 128
"""The greatest number of pages of a take."""

CALLS = {"mapsub": "map", "unmapsub": "unmap"}
"""Events of calls whose command has another word."""

OPERANDS = {"alloc": 0, "close": 0, "mapsub": 3, "unmapsub": 3, "write": 3, "zero": 3}
"""How many words of an event are operands of its command; 1 for others."""

TRIES, PUTS = ("split", "pinned", "used"), ("back", "dropped")
BATCH_EVENTS = ("taken", *TRIES, *PUTS)


@dataclass(eq=False)
class Flight:
    """Pages that one caller took, and how many of them count."""

    caller: str
    counted: int = 0


@dataclass
class NodeScript:
    """The commands of one node so far, each without the node's number, and what they move."""

    commands: list[str] = field(default_factory=list)
    open: Flight | None = None  # the script's batch
    steps: list[str] = field(default_factory=list)  # of the batch: takes, tries, put-backs; none is written yet
    is_written: bool = False  # the batch's take and tries so far are commands
    waiting: list[Flight] = field(default_factory=list)
    flying: dict[str, Flight] = field(default_factory=dict)  # the flight that each page is in
    moved: dict[str, int] = field(default_factory=lambda: dict.fromkeys(("batches", "calls", "events", "left"), 0))

    def add(self, caller: str, word: str, rest: list[str]) -> None:
        """Adds an event."""
        if word == "taken":
            self.flying[rest[0]] = self._take(caller)
        elif word in TRIES + PUTS:
            self._step(caller, "try" if word in TRIES else "put")
        else:
            self._settle()
            self.moved["calls"] += bool(self.waiting)
            self.commands.append(" ".join((CALLS.get(word, word), *rest[:OPERANDS.get(word, 1)])))
        if word in ("split", "used", *PUTS) or "freed" in rest:
            flight = self.flying.pop(rest[0], None)
            if flight in self.waiting and "freed" in rest:
                flight.counted -= 1
        self._complete()
        if self.waiting:
            self._close_empty()
            self._write_waiting()

    def _is_empty(self, flight: Flight) -> bool:
        return flight not in self.flying.values()

    def _take(self, caller: str) -> Flight:
        """The flight that a page joins."""
        batch = self.open
        if batch and not self.is_written and batch.caller == caller and set(self.steps) == {"take"} and len(self.steps) < MOST:
            self.steps.append("take")
            return batch
        self._close_empty()
        if not self.open and not self.waiting:
            self.open, self.steps, self.is_written = Flight(caller), ["take"], False
            return self.open
        self.moved["events"] += 1
        latest = self.waiting[-1] if self.waiting else None
        if not (latest and not self._is_empty(latest) and latest.caller == caller and latest.counted < MOST):
            self.moved["batches"] += 1
            latest = Flight(caller)
            self.waiting.append(latest)
        latest.counted += 1
        return latest

    def _step(self, caller: str, step: str) -> None:
        """A try or a put-back: a part of what can still be one scan, a command, or left to a scan."""
        takes, tries = self.steps.count("take"), self.steps.count("try")
        own = self.open is not None and self.open.caller == caller
        fits = step == "try" and tries < takes and "put" not in self.steps or step == "put" and tries == takes
        if own and (fits and not self.is_written or step == "put" and self.is_written and "put" in self.steps):
            self.steps.append(step)
            return
        self._settle()
        if not (self.open and self.open.caller == caller):
            self.moved["events"] += 1
        elif step == "try":
            self.commands.append("splitnext")
        else:
            self.steps = ["put"]

    def _settle(self) -> None:
        """Writes what can't be a part of a scan any more."""
        if not self.open:
            return
        takes, tries = self.steps.count("take"), self.steps.count("try")
        if "put" in self.steps:
            self.commands.append("putback" if self.is_written else f"scan {takes}")
            self.open = None
        elif not self.is_written:
            self.commands += [f"take {takes}", *["splitnext"] * tries]
        self.steps, self.is_written = [], True

    def _complete(self) -> None:
        """The batch is one scan, or its put-back is whole, if no page is left in it."""
        takes, tries = self.steps.count("take"), self.steps.count("try")
        if self.open and self._is_empty(self.open) and ("put" in self.steps or not self.is_written and tries == takes):
            self.commands.append("putback" if self.is_written else f"scan {takes}")
            self.open, self.steps = None, []

    def _close_empty(self) -> None:
        """Puts the batch back if all of it is written and no page is left in it."""
        if self.open and self.is_written and not self.steps and self._is_empty(self.open):
            self.commands.append("putback")
            self.open = None

    def _write_waiting(self) -> None:
        """Writes the scans of the flights that have ended and wait for no other one."""
        while not self.open and self.waiting and self._is_empty(self.waiting[0]):
            self.commands.append(f"scan {self.waiting.pop(0).counted}")

    def end(self) -> None:
        """Puts back what is left."""
        self.moved["left"] = len(self.flying)
        self.flying.clear()
        self._settle()
        self._close_empty()
        self._write_waiting()


WORDS = {
    "batches": ("batch moved after the one that was open", "batches moved after the one that was open"),
    "calls": ("call moved before a scan that it interrupted", "calls moved before a scan that they interrupted"),
    "events": ("take, try or put-back left to a scan", "takes, tries and put-backs left to scans"),
    "left": ("page put back at the end", "pages put back at the end"),
}
"""The lines about what a script moves, for one and for more."""


def plain_script(journal: list[str]) -> tuple[list[str], list[str]]:
    """The commands of a legal journal's script, and the lines about what it moves."""
    nodes: list[NodeScript] = []
    for first, word, *rest in (line.split() for line in journal[1:-1]):
        if first == "node":
            nodes.append(NodeScript())
        else:
            nodes[-1].add(first, word, rest)
    for node in nodes:
        node.end()
    commands = [" ".join((words[0], str(number), *words[1:])) for number, node in enumerate(nodes)
                for words in (line.split() for line in node.commands)]
    sums = {name: sum(node.moved[name] for node in nodes) for name in WORDS}
    return commands, [f"thpcheck: {count} {WORDS[name][count > 1]}" for name, count in sums.items() if count]
