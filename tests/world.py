"""A small model of a session, for making logs that are accepted. It knows just enough of the rules to stay accepted.

It is no second reference: it decides nothing about races. What is refused is kept out by choosing among what may be
done, and by ending the log early.
"""

from __future__ import annotations

from dataclasses import dataclass, field
from random import Random

from tests import encode

LONGEST_LOG = 32_768

Inode = tuple[int, int]


class Enough(Exception):
    """The log is as long as it is to be, or a limit is reached."""


class Gone(Exception):
    """A process that was to do something does not live any more."""


@dataclass(eq=False)
class Process:
    number: int
    depth: int
    """How many makes hold its place."""
    alive: bool = True
    make: MakeModel | None = None


@dataclass(eq=False)
class MakeModel:
    targets: list[list[int]] = field(default_factory=list)


@dataclass
class Style:
    """What kind of log it is to be."""

    records: int
    longest: int = LONGEST_LOG
    numbers: int = 1_000_000
    """Process numbers are drawn from 1 to this; few of them return often."""
    largest: bool = False
    """Whether numbers near the ends of their ranges are used."""
    paths: list[bytes] = field(default_factory=list)
    inodes: int = 20
    hold_link: float = 0.9
    """How often a path is used with the inode that it had."""


@dataclass(eq=False)
class World:
    random: Random
    style: Style
    records: list[bytes] = field(default_factory=list)
    size: int = 1
    live: dict[int, Process] = field(default_factory=dict)
    births: int = 0
    makes: int = 0
    targets: int = 0
    posted: list[int] = field(default_factory=list)
    awaits: int = 0
    links: dict[bytes, Inode] = field(default_factory=dict)

    def log(self) -> bytes:
        return encode.log(self.records)

    def emit(self, record: bytes) -> None:
        if len(self.records) >= self.style.records or self.size + len(record) > self.style.longest:
            raise Enough
        self.records.append(record)
        self.size += len(record)

    def chance(self, probability: float) -> bool:
        return self.random.random() < probability

    # Events

    def birth(self, parent: Process | None, target: int = 0, number: int | None = None) -> Process:
        """A process is born; with a target the parent is a make that has it. In the stage order, target is the stage.

        A number may be asked for, and is given if nobody has it."""
        if parent is not None:
            self.need(parent)
        if number is None or number in self.live:
            number = self.free_number()
        if self.births == 4_096:
            raise Enough
        self.emit(encode.birth(number, parent.number if parent is not None else 0, target))
        self.births += 1
        depth = parent.depth if parent is not None else 0
        born = Process(number, depth + 1 if target != 0 else depth)
        self.live[number] = born
        return born

    def free_number(self) -> int:
        for _ in range(20):
            number = self.random.randint(1, self.style.numbers)
            if self.style.largest and self.chance(0.3):
                number = 2**32 - number
            if number not in self.live:
                return number
        return next(number for number in range(1, 10_000) if number not in self.live)

    def make(self, process: Process) -> bool:
        """The process becomes a make, unless it may not."""
        self.need(process)
        if process.make is not None or process.depth == 16 or self.makes == 64:
            return False
        self.emit(encode.make(process.number))
        self.makes += 1
        process.make = MakeModel()
        return True

    def target(self, process: Process, prerequisites: list[int]) -> int:
        """The make declares a target with these prerequisites; its number. At the limit an old one must do."""
        self.need(process)
        assert process.make is not None
        if self.targets == 512:
            if not process.make.targets:
                raise Gone
            return len(process.make.targets)
        self.emit(encode.target(process.number, prerequisites))
        self.targets += 1
        process.make.targets.append(prerequisites)
        return len(process.make.targets)

    def death(self, process: Process) -> None:
        self.need(process)
        self.emit(encode.death(process.number))
        process.alive = False
        del self.live[process.number]

    def post(self, process: Process) -> bool:
        """A flag that was not posted is posted, if there is one."""
        self.need(process)
        unposted = [flag for flag in range(1, 33) if flag not in self.posted]
        if not unposted:
            return False
        flag = self.random.choice(unposted)
        self.emit(encode.post(process.number, flag))
        self.posted.append(flag)
        return True

    def await_flag(self, process: Process, flag: int | None = None) -> bool:
        """A posted flag is awaited, if there is one: the given one, or rather a late one."""
        self.need(process)
        if not self.posted or self.awaits == 32:
            return False
        if flag is None:
            flag = self.random.choice(self.posted[-3:] if self.chance(0.7) else self.posted)
        self.emit(encode.await_flag(process.number, flag))
        self.awaits += 1
        return True

    # Accesses

    def read(self, process: Process, path: bytes) -> None:
        self.need(process)
        self.emit(encode.read(process.number, *self.inode_of(path), path))

    def write(self, process: Process, path: bytes) -> None:
        self.need(process)
        self.emit(encode.write(process.number, *self.inode_of(path), path))

    def exists(self, process: Process, path: bytes) -> None:
        self.need(process)
        self.emit(encode.exists(process.number, path))

    def remove(self, process: Process, path: bytes, last: bool) -> None:
        self.need(process)
        self.emit(encode.removal(process.number, *self.inode_of(path), int(last), path))
        self.links.pop(path, None)

    def inode_of(self, path: bytes) -> Inode:
        """Mostly the one that the path had; else any, so that paths share inodes."""
        if path not in self.links or not self.chance(self.style.hold_link):
            inode = self.random.randint(1, self.style.inodes)
            if self.style.largest and self.chance(0.3):
                inode = 2**64 - inode
            device = 2**32 - 1 if self.style.largest and self.chance(0.2) else self.random.choice([1, 1, 1, 2])
            self.links[path] = (device, inode)
        return self.links[path]

    # Choosing

    def need(self, process: Process) -> None:
        if not process.alive:
            raise Gone

    def someone(self) -> Process:
        """A live process; one of the newest more often."""
        if not self.live:
            raise Gone
        living = list(self.live.values())
        return self.random.choice(living[-6:] if self.chance(0.4) else living)

    def some_make(self) -> Process:
        makes = [process for process in self.live.values() if process.make is not None]
        if not makes:
            raise Gone
        return self.random.choice(makes[-3:] if self.chance(0.4) else makes)

    def some_path(self) -> bytes:
        return self.random.choice(self.style.paths)

    def some_prerequisites(self, make: MakeModel) -> list[int]:
        """Earlier targets, mostly few, now and then many or the same one twice."""
        earlier = len(make.targets)
        if earlier == 0 or self.chance(0.25):
            return []
        count = self.random.choice([1, 1, 1, 2, 2, 3])
        if self.chance(0.03):
            count = self.random.randint(4, 40)
        return [self.random.randint(max(1, earlier - 5), earlier) for _ in range(count)]


def some_paths(random: Random, count: int) -> list[bytes]:
    """A pool of paths: directories and what is in them, with the root and odd bytes now and then."""
    directories = [b""]
    found: list[bytes] = []
    names = [b"a", b"b", b"c", b"d", b"o", b"x.c", b"x.o", b"lib", b"..", b"a b", b"\\", b"\xff", b"\x01~"]
    while len(found) < count:
        path = random.choice(directories) + b"/" + random.choice(names)
        if path in found:
            path += str(len(found)).encode()
        found.append(path)
        if random.random() < 0.4 and len(path) < 40:
            directories.append(path)
    if random.random() < 0.2:
        found.append(b"/")
    if random.random() < 0.1:
        found.append(b"/" + 254 * b"x")
        found.append(found[0] + b"/" + (254 - len(found[0])) * b"y")
    return found
