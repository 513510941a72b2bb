#!/usr/bin/env python3
"""What is promised (RULES.md, section 9), checked on what a tool printed for a log.

    promises.py make|stage|session LOG [PRINTED]

PRINTED is a file with what the tool printed for the log LOG; without it the tool of this package is run. Each promise
that is broken is printed on a line, and the status is then 1.

Nothing of the detector is used here: accesses, lookups and attempts are collected from the log, and all pairs of them
are compared, with the order as it is after the last record. Chains of flags are worked out here a second time. A run
that ends with X is judged by the records before it.
"""

from __future__ import annotations

import sys
from collections import defaultdict
from collections.abc import Callable, Iterator
from dataclasses import dataclass
from pathlib import Path

sys.path.insert(0, str(Path(__file__).resolve().parent.parent))

from reference import tools  # noqa: E402
from reference.orders import Flags, MakeOrder, Order, Pair, StageOrder, Timestamp  # noqa: E402
from reference.paths import parent  # noqa: E402
from reference.reader import Reader, Record  # noqa: E402
from reference.refusal import Refusal  # noqa: E402

ORDERS: dict[str, Callable[[], Order]] = {
    "make": lambda: Flags(MakeOrder()),
    "stage": StageOrder,
    "session": lambda: Flags(MakeOrder()),
}

PROGRAMS: dict[str, tools.Program] = {
    "make": tools.make_tool,
    "stage": tools.stage_tool,
    "session": tools.session_tool,
}

Shown = tuple[int, int]


@dataclass(frozen=True)
class Entered:
    """An accepted entry: its record and its ticket."""

    record: Record
    when: Timestamp

    @property
    def letter(self) -> str:
        return self.record.letter

    @property
    def path(self) -> bytes:
        assert self.record.path is not None
        return self.record.path

    @property
    def inode(self) -> tuple[int, int]:
        """The device and inode pair of R, W and U."""
        return self.record.numbers[1], self.record.numbers[2]

    @property
    def releases(self) -> bool:
        return self.letter == "U" and self.record.numbers[3] == 1


@dataclass(frozen=True)
class Printed:
    """What a tool printed: the pairs under each letter, and the last line."""

    pairs: dict[str, list[Shown]]
    last: tuple[str, ...]


@dataclass(frozen=True)
class Key:
    """A generation or a path, with the accesses entered on it."""

    name: str
    accesses: list[Entered]


@dataclass(frozen=True)
class Lookup:
    """A lookup, with the attempts by earlier entries since the last removal among these."""

    entered: Entered
    attempts: list[Entered]


class Relation:
    """Before of an order as it is now, made for asking it of very many pairs of timestamps."""

    def __init__(self, order: Order) -> None:
        self.below: Order = order.below if isinstance(order, Flags) else order
        self.pairs: list[Pair] = order.pairs if isinstance(order, Flags) else []
        self.onward = self.closed()
        self.entered_from: dict[Timestamp, set[int]] = {}
        self.left_to: dict[Timestamp, set[int]] = {}

    def closed(self) -> list[set[int]]:
        """For each pair those that come after it in some row of pairs, and itself."""
        onward = [
            {at} | {to for to, next_pair in enumerate(self.pairs) if self.reaches(pair.awaited, next_pair.post)}
            for at, pair in enumerate(self.pairs)
        ]
        for _ in self.pairs:
            onward = [set().union(*(onward[to] for to in found)) for found in onward]
        return onward

    def reaches(self, a: Timestamp, b: Timestamp) -> bool:
        return a == b or self.below.before(a, b)

    def before(self, a: Timestamp, b: Timestamp) -> bool:
        """`flags.before`: below, or into a row of pairs and out of it"""
        if self.below.before(a, b):
            return True
        if a not in self.entered_from:
            first = [self.onward[at] for at, pair in enumerate(self.pairs) if self.reaches(a, pair.post)]
            self.entered_from[a] = set().union(*first)
        if b not in self.left_to:
            self.left_to[b] = {at for at, pair in enumerate(self.pairs) if self.reaches(pair.awaited, b)}
        return not self.entered_from[a].isdisjoint(self.left_to[b])


def broken_promises(tool: str, log: bytes, output: bytes) -> list[str]:
    """Every promise that the output breaks, as a sentence."""
    try:
        printed = parse(output)
    except ValueError as error:
        return [f"not the output of a tool: {error}"]
    order = ORDERS[tool]()
    try:
        entries = collect(log, order, printed)
    except Refusal as refusal:
        return [f"a record that the tool took is refused by the order with {refusal.number}"]
    relation = Relation(order)
    return [
        *broken_on_keys("C", generations(entries), "W", relation, printed),
        *broken_on_keys("P", by_path(entries), "U", relation, printed),
        *broken_on_directories(lookups(entries), relation, printed),
        *broken_totals(entries, printed),
    ]


# What was printed


def parse(output: bytes) -> Printed:
    lines = [tuple(line.split(" ")) for line in output.decode("ascii").split("\n")]
    if lines[-1] != ("",):
        raise ValueError("the last line does not end")
    *shown, last = lines[:-1]
    if (last[0], len(last)) not in (("E", 4), ("X", 3)):
        raise ValueError(f"last line {' '.join(last)}")
    pairs: dict[str, list[Shown]] = {"C": [], "P": [], "D": []}
    for letter, earlier, later in shown:
        pairs[letter].append((int(earlier), int(later)))
    return Printed(pairs, last)


# What was entered


def collect(log: bytes, order: Order, printed: Printed) -> list[Entered]:
    """Tells the order everything that the tool took, and collects the accepted entries."""
    return [entered for record in taken(log, printed) if (entered := tell(record, order)) is not None]


def taken(log: bytes, printed: Printed) -> Iterator[Record]:
    """The records that the tool took: all, or those before the place of the line X."""
    end = len(log) if printed.last[0] == "E" else int(printed.last[2])
    if end == 0:
        return
    yield from Reader(log[:end]).records()


def tell(record: Record, order: Order) -> Entered | None:
    event = tools.event_of(record)
    if event is not None:
        order.tell(event)
        return None
    return Entered(record, order.stamp(record.numbers[0]))


def generations(entries: list[Entered]) -> list[Key]:
    """Reads and writes of one device and inode are on one generation if no removal with last lies between them."""
    released: dict[tuple[int, int], int] = defaultdict(int)
    found: dict[str, list[Entered]] = defaultdict(list)
    for entry in entries:
        if entry.releases:
            released[entry.inode] += 1
        elif entry.letter in "RW":
            found[f"inode {entry.inode}, released {released[entry.inode]} times"].append(entry)
    return [Key(name, accesses) for name, accesses in found.items()]


def by_path(entries: list[Entered]) -> list[Key]:
    found: dict[bytes, list[Entered]] = defaultdict(list)
    for entry in entries:
        if entry.letter in "RWU":
            found[entry.path].append(entry)
    return [Key(f"path {path!r}", accesses) for path, accesses in found.items()]


def lookups(entries: list[Entered]) -> dict[bytes, list[Lookup]]:
    """All lookups, by directory."""
    found: dict[bytes, list[Lookup]] = defaultdict(list)
    on_path: dict[bytes, list[Entered]] = defaultdict(list)
    for entry in entries:
        directory = parent(entry.path)
        if directory is not None:
            found[directory].append(Lookup(entry, attempts_since_removal(on_path[directory])))
        on_path[entry.path].append(entry)
    return found


def attempts_since_removal(earlier: list[Entered]) -> list[Entered]:
    removals = [at for at, entry in enumerate(earlier) if entry.letter == "U"]
    since = earlier[removals[-1] + 1 :] if removals else earlier
    return [entry for entry in since if entry.letter in "WK"]


# The promises


def pair_of(a: Entered, b: Entered) -> Shown:
    return a.when.number, b.when.number


def broken_on_keys(letter: str, keys: list[Key], critical: str, relation: Relation, printed: Printed) -> list[str]:
    """`promise.clean`, `promise.shown` and `promise.lines` for generations or for paths"""
    broken = []
    shown = set(printed.pairs[letter])
    right: set[Shown] = set()
    for key in keys:
        unordered = {
            pair_of(a, b)
            for at, b in enumerate(key.accesses)
            for a in key.accesses[:at]
            if critical in (a.letter, b.letter) and not relation.before(a.when, b.when)
        }
        right |= unordered
        if unordered and not unordered & shown:
            broken.append(f"{key.name}: {min(unordered)} are not in order, and no line {letter} shows the like")
    for pair in sorted(shown - right):
        broken.append(f"line {letter} shows {pair}, which do not conflict or are in order")
    return broken


def broken_on_directories(found: dict[bytes, list[Lookup]], relation: Relation, printed: Printed) -> list[str]:
    """`promise.directory`, `promise.shown` and `promise.lines` for directories"""
    broken = []
    shown = set(printed.pairs["D"])
    right: set[Shown] = set()
    for directory, looked_up in found.items():
        failed: set[Shown] = set()
        for lookup in looked_up:
            unordered = [a for a in lookup.attempts if not relation.before(a.when, lookup.entered.when)]
            if lookup.attempts and len(unordered) == len(lookup.attempts):
                failed |= {pair_of(attempt, lookup.entered) for attempt in unordered}
        right |= failed
        if failed and not failed & shown:
            broken.append(f"directory {directory!r}: {min(failed)} are not in order, and no line D shows the like")
    for pair in sorted(shown - right):
        broken.append(f"line D shows {pair}, which is no failed lookup")
    return broken


def broken_totals(entries: list[Entered], printed: Printed) -> list[str]:
    """`promise.checks`; and that the line E counts the entries and the lines"""
    if printed.last[0] != "E":
        return []
    broken = []
    counted, checks, races = (int(total) for total in printed.last[1:])
    accesses = sum({"R": 2, "W": 2, "U": 1, "K": 0}[entry.letter] for entry in entries)
    if counted != len(entries):
        broken.append(f"{counted} entries are counted, and there are {len(entries)}")
    if races != sum(len(pairs) for pairs in printed.pairs.values()):
        broken.append(f"{races} races are counted, which is not the number of lines")
    if checks > 2 * accesses:
        broken.append(f"{checks} checks are more than twice {accesses} accesses")
    return broken


def main(arguments: list[str]) -> int:
    if len(arguments) not in (2, 3) or arguments[0] not in ORDERS:
        print(__doc__, file=sys.stderr)
        return 2
    tool = arguments[0]
    log = Path(arguments[1]).read_bytes()
    output = Path(arguments[2]).read_bytes() if len(arguments) == 3 else PROGRAMS[tool](log)
    broken = broken_promises(tool, log, output)
    for sentence in broken:
        print(sentence)
    return 1 if broken else 0


if __name__ == "__main__":
    sys.exit(main(sys.argv[1:]))
