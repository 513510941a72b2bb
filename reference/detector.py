"""The detector (RULES.md, sections 6 to 8). It keeps every access that was ever entered."""

from __future__ import annotations

from dataclasses import dataclass, field

from reference import paths
from reference.orders import Event, Order, Timestamp
from reference.refusal import Refusal

# Entries (`entry.kinds`)


@dataclass(frozen=True)
class Read:
    device: int
    inode: int
    path: bytes


@dataclass(frozen=True)
class Write:
    device: int
    inode: int
    path: bytes


@dataclass(frozen=True)
class Exists:
    """A failed directory creation: it existed already."""

    path: bytes


@dataclass(frozen=True)
class Removal:
    device: int
    inode: int
    last: bool
    path: bytes


Entry = Read | Write | Exists | Removal


def is_critical_for_contents(entry: Entry) -> bool:
    """`rule.conflict`: the contents rule"""
    return isinstance(entry, Write)


def is_critical_for_path(entry: Entry) -> bool:
    """`rule.conflict`: the path rule"""
    return isinstance(entry, Removal)


# Histories (section 7.5)

FailingPair = tuple[int, int]


@dataclass(frozen=True)
class Access:
    when: Timestamp
    critical: bool


@dataclass
class Checked:
    """What the checks of one access came to: how many they were, and the first that failed, as its earlier number."""

    checks: int
    failed: int


@dataclass(eq=False)
class History:
    """`history.state`: all accesses on one key, in the order in which they were entered, and the first failing pair."""

    accesses: list[Access] = field(default_factory=list)
    failing: FailingPair | None = None

    def last_critical(self) -> Access | None:
        return next((access for access in reversed(self.accesses) if access.critical), None)

    def noncritical_since(self) -> list[Access]:
        """The noncritical accesses since the last critical one, the newest first."""
        since = []
        for access in reversed(self.accesses):
            if access.critical:
                break
            since.append(access)
        return since

    def to_check_against(self, new: Access) -> list[Access]:
        """`history.noncritical`, `history.critical`"""
        last = self.last_critical()
        only_last = [last] if last is not None else []
        if not new.critical:
            return only_last
        return self.noncritical_since() or only_last

    def enter(self, new: Access, order: Order) -> Checked:
        """`history.check`, `history.count`, `history.failure`"""
        earlier = self.to_check_against(new)
        failed = [access for access in earlier if not order.before(access.when, new.when)]
        self.accesses.append(new)
        if not failed:
            return Checked(len(earlier), 0)
        first = failed[0].when.number
        if self.failing is None:
            self.failing = (first, new.when.number)
        return Checked(len(earlier), first)


# State (section 7.1)


@dataclass(eq=False)
class Generation:
    device: int
    inode: int
    open: bool = True
    history: History = field(default_factory=History)


@dataclass(eq=False)
class HeldPath:
    """A path that is held: its history; what was done to its name; its failing pair as a directory.

    `attempts` has every creation attempt that was ever entered on the path, and none in place of each removal.
    """

    history: History = field(default_factory=History)
    attempts: list[Timestamp | None] = field(default_factory=list)
    failing_directory: FailingPair | None = None

    def remaining(self) -> list[Timestamp]:
        """`directory.attempts`: those since the last removal, in the order in which they were entered."""
        newest_first = []
        for attempt in reversed(self.attempts):
            if attempt is None:
                break
            newest_first.append(attempt)
        return newest_first[::-1]


@dataclass
class Room:
    """`room.tables`: at first how much there is, later how much is unused."""

    accesses: int = 65_536
    generations: int = 8_192
    paths: int = 8_192
    path_bytes: int = 1_048_576

    def at_limits(self) -> Room:
        most = Room()
        return Room(
            min(self.accesses, most.accesses),
            min(self.generations, most.generations),
            min(self.paths, most.paths),
            min(self.path_bytes, most.path_bytes),
        )

    def has(self, needs: Room) -> bool:
        """`room.refusal`"""
        return (
            needs.accesses <= self.accesses
            and needs.generations <= self.generations
            and needs.paths <= self.paths
            and needs.path_bytes <= self.path_bytes
        )

    def use(self, needs: Room) -> None:
        self.accesses -= needs.accesses
        self.generations -= needs.generations
        self.paths -= needs.paths
        self.path_bytes -= needs.path_bytes


@dataclass(frozen=True)
class Answer:
    """`entry.answer`"""

    generation: int
    path: int
    directory: int
    checks: int


@dataclass
class Totals:
    """`entry.totals`"""

    entries: int = 0
    checks: int = 0
    races: int = 0


class Detector:
    def __init__(self, order: Order, room: Room | None = None) -> None:
        self.order = order
        self.unused = (room if room is not None else Room()).at_limits()
        self.generations: list[Generation] = []
        self.paths: dict[bytes, HeldPath] = {}
        self.last_entry = 0
        self.totals = Totals()
        # The open generation of each device and inode that has one.
        self.opened: dict[tuple[int, int], Generation] = {}

    # Events and tickets

    def tell(self, event: Event) -> None:
        """`detector.tell`"""
        self.order.tell(event)

    def take_ticket(self, process: int) -> Timestamp:
        """`ticket.take`"""
        return self.order.stamp(process)

    def void(self, ticket: Timestamp) -> None:
        """`ticket.void`"""

    # Entries

    def enter(self, ticket: Timestamp, entry: Entry) -> Answer:
        """`entry.checks`, `entry.steps`"""
        if not self.order.knows(ticket):
            raise Refusal(12)
        if ticket.number <= self.last_entry:
            raise Refusal(13)
        if not paths.is_well_formed(entry.path):
            raise Refusal(14)
        needs = self.needs(entry)
        if not self.unused.has(needs):
            raise Refusal(15)
        self.unused.use(needs)

        directory = self.look_up(ticket, entry)
        on_generation = self.enter_on_generation(ticket, entry)
        on_path = self.enter_on_path(ticket, entry)
        self.note_attempt(ticket, entry)

        answer = Answer(on_generation.failed, on_path.failed, directory, on_generation.checks + on_path.checks)
        self.last_entry = ticket.number
        self.totals.entries += 1
        self.totals.checks += answer.checks
        self.totals.races += sum(shown != 0 for shown in (answer.generation, answer.path, answer.directory))
        return answer

    def needs(self, entry: Entry) -> Room:
        """`room.needs`"""
        accesses = {Read: 2, Write: 3, Exists: 1, Removal: 1}[type(entry)]
        generations = 0
        if isinstance(entry, (Read, Write)) and (entry.device, entry.inode) not in self.opened:
            generations = 1
        both = [entry.path, paths.parent(entry.path)]
        new = [path for path in both if path is not None and path not in self.paths]
        return Room(accesses, generations, len(new), sum(len(path) for path in new))

    def held(self, path: bytes) -> HeldPath:
        """The path as it is held, from now on if not before."""
        return self.paths.setdefault(path, HeldPath())

    def look_up(self, x: Timestamp, entry: Entry) -> int:
        """`directory.lookup`, `directory.failure`: the number that is shown, or 0."""
        parent = paths.parent(entry.path)
        if parent is None:
            return 0
        directory = self.held(parent)
        attempts = directory.remaining()
        if not attempts or any(self.order.before(attempt, x) for attempt in attempts):
            return 0
        newest = attempts[-1].number
        if directory.failing_directory is None:
            directory.failing_directory = (newest, x.number)
        return newest

    def enter_on_generation(self, x: Timestamp, entry: Entry) -> Checked:
        """`generation.open`, `generation.end`"""
        if isinstance(entry, Removal) and entry.last:
            ended = self.opened.pop((entry.device, entry.inode), None)
            if ended is not None:
                ended.open = False
        if not isinstance(entry, (Read, Write)):
            return Checked(0, 0)
        pair = (entry.device, entry.inode)
        if pair not in self.opened:
            self.opened[pair] = Generation(*pair)
            self.generations.append(self.opened[pair])
        return self.opened[pair].history.enter(Access(x, is_critical_for_contents(entry)), self.order)

    def enter_on_path(self, x: Timestamp, entry: Entry) -> Checked:
        path = self.held(entry.path)
        if isinstance(entry, Exists):
            return Checked(0, 0)
        return path.history.enter(Access(x, is_critical_for_path(entry)), self.order)

    def note_attempt(self, x: Timestamp, entry: Entry) -> None:
        if isinstance(entry, (Write, Exists)):
            self.held(entry.path).attempts.append(x)
        elif isinstance(entry, Removal):
            self.held(entry.path).attempts.append(None)

    # Questions (section 8.2); none is clean

    def ask_generation(self, serial: int) -> FailingPair | None:
        if not 1 <= serial <= len(self.generations):
            raise Refusal(16)
        return self.generations[serial - 1].history.failing

    def ask_path(self, path: bytes) -> FailingPair | None:
        if path not in self.paths:
            raise Refusal(16)
        return self.paths[path].history.failing

    def ask_directory(self, path: bytes) -> FailingPair | None:
        if path not in self.paths:
            raise Refusal(16)
        return self.paths[path].failing_directory
