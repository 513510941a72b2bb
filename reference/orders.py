"""Orders: the make order, the stage order and the flags layer (RULES.md, sections 2 to 5)."""

from __future__ import annotations

from abc import ABC, abstractmethod
from dataclasses import dataclass
from typing import NamedTuple

from reference.refusal import Refusal

LAST_NUMBER = 1_000_000
BIRTHS = 4_096
MAKES = 64
TARGETS = 512
DEEPEST = 16
STAGES = range(1, 256)
FLAGS = range(1, 33)
AWAITS = 32

SESSION_PARENT = 0


class Timestamp(NamedTuple):
    """`order.timestamp`: equal if both parts are."""

    number: int
    place: int


# Events (`order.events`)


@dataclass(frozen=True)
class Birth:
    process: int
    parent: int
    target: int


@dataclass(frozen=True)
class Make:
    process: int


@dataclass(frozen=True)
class Target:
    process: int
    prerequisites: tuple[int, ...]


@dataclass(frozen=True)
class Death:
    process: int


@dataclass(frozen=True)
class Post:
    process: int
    flag: int


@dataclass(frozen=True)
class Await:
    process: int
    flag: int


Event = Birth | Make | Target | Death | Post | Await


class Order(ABC):
    """`order.state`: an order means a number, a live set, known timestamps, and before between these."""

    @abstractmethod
    def tell(self, event: Event) -> None:
        """Takes an event, or refuses it."""

    @abstractmethod
    def stamp(self, process: int) -> Timestamp:
        """`order.stamp`: refused with 1 and then 8, and for no other reason."""

    @property
    @abstractmethod
    def number(self) -> int:
        """How many numbers have been given out."""

    @abstractmethod
    def lives(self, process: int) -> bool:
        """Whether the process lives now."""

    @abstractmethod
    def any_lives(self) -> bool:
        """Whether any process lives now."""

    @abstractmethod
    def knows(self, timestamp: Timestamp) -> bool:
        """Whether the order can compare the timestamp."""

    @abstractmethod
    def before(self, a: Timestamp, b: Timestamp) -> bool:
        """Whether a is before b; no if one of them is not known."""


# The make order (section 3)


class Place:
    """`make.places`: a place of the tree, with the one above it. A place holds itself and everything below it."""

    def __init__(self, above: Place | None) -> None:
        self.above = above
        # All places that hold this one, from the session down to itself.
        self.holders: tuple[Place, ...] = (*above.holders, self) if above is not None else (self,)


class SessionPlace(Place):
    def __init__(self) -> None:
        super().__init__(None)


class MakePlace(Place):
    """A make. It is unstarted while `started` is none, and running if it is started and not ended."""

    def __init__(self, above: Place, own: MakeBirth) -> None:
        super().__init__(above)
        self.own = own
        self.targets: list[TargetPlace] = []
        self.started: int | None = None
        self.ended: int | None = None


class TargetPlace(Place):
    """A target: its number in its make, from 1, and its prerequisites as they were declared."""

    def __init__(self, above: MakePlace, number: int, prerequisites: tuple[int, ...]) -> None:
        super().__init__(above)
        self.number = number
        self.prerequisites = prerequisites


class StepPlace(Place):
    """A step. `count` is how many steps there were with its birth; it stands for the place in timestamps."""

    def __init__(self, above: TargetPlace, count: int, started: int) -> None:
        super().__init__(above)
        self.count = count
        self.started = started
        self.ended: int | None = None


@dataclass(eq=False)
class MakeBirth:
    """`make.state`: what is kept of a birth."""

    process: int
    place: Place
    lives: bool = True
    make: MakePlace | None = None


Meeting = tuple[Place, Place | None, Place | None]


class MakeOrder(Order):
    def __init__(self, births: int = BIRTHS, makes: int = MAKES, targets: int = TARGETS) -> None:
        self.births_room = min(births, BIRTHS)
        self.makes_room = min(makes, MAKES)
        self.targets_room = min(targets, TARGETS)
        self.count = 0
        self.session = SessionPlace()
        self.births: list[MakeBirth] = []
        self.makes: list[MakePlace] = []
        self.targets: list[TargetPlace] = []
        self.steps: list[StepPlace] = []
        # The processes that live now, each with its own birth.
        self.live: dict[int, MakeBirth] = {}
        # Where two places meet, for those that were asked for.
        self.meetings: dict[tuple[Place, Place], Meeting] = {}

    # What is asked

    @property
    def number(self) -> int:
        return self.count

    def lives(self, process: int) -> bool:
        return process in self.live

    def any_lives(self) -> bool:
        return len(self.live) > 0

    def knows(self, timestamp: Timestamp) -> bool:
        """`make.known`. As the place of a timestamp the session is 0, and the steps are counted from 1."""
        return 1 <= timestamp.number <= self.count and 0 <= timestamp.place <= len(self.steps)

    def place_of(self, timestamp: Timestamp) -> Place:
        return self.session if timestamp.place == 0 else self.steps[timestamp.place - 1]

    # What is told

    def stamp(self, process: int) -> Timestamp:
        if not self.lives(process):
            raise Refusal(1)
        self.refuse_if_used_up()
        self.count += 1
        place = self.live[process].place
        return Timestamp(self.count, place.count if isinstance(place, StepPlace) else 0)

    def tell(self, event: Event) -> None:
        match event:
            case Birth():
                self.birth(event)
            case Make():
                self.make(event)
            case Target():
                self.target(event)
            case Death():
                self.death(event)
            case Post() | Await():
                raise Refusal(9)  # make.flags

    def refuse_if_used_up(self) -> None:
        if self.count == LAST_NUMBER:
            raise Refusal(8)

    def birth(self, event: Birth) -> None:
        """`make.birth`"""
        parent = self.live.get(event.parent)
        if event.parent != SESSION_PARENT and parent is None:
            raise Refusal(1)
        if event.process == 0 or self.lives(event.process):
            raise Refusal(2)
        make = parent.make if parent is not None else None
        if event.target != 0 and make is None:
            raise Refusal(3)
        if event.target != 0 and make is not None and event.target > len(make.targets):
            raise Refusal(5)
        if len(self.births) == self.births_room:
            raise Refusal(7)
        self.refuse_if_used_up()
        self.count += 1
        place: Place
        if event.target == 0:
            place = parent.place if parent is not None else self.session
        else:
            assert make is not None
            place = StepPlace(make.targets[event.target - 1], 1 + len(self.steps), self.count)
            self.steps.append(place)
            if make.started is None:
                make.started = self.count
        birth = MakeBirth(event.process, place)
        self.births.append(birth)
        self.live[event.process] = birth

    def make(self, event: Make) -> None:
        """`make.make`"""
        if not self.lives(event.process):
            raise Refusal(1)
        birth = self.live[event.process]
        if birth.make is not None:
            raise Refusal(4)
        if sum(isinstance(holder, MakePlace) for holder in birth.place.holders) == DEEPEST:
            raise Refusal(6)
        if len(self.makes) == self.makes_room:
            raise Refusal(7)
        self.refuse_if_used_up()
        self.count += 1
        birth.make = MakePlace(birth.place, birth)
        self.makes.append(birth.make)

    def target(self, event: Target) -> None:
        """`make.target`"""
        if not self.lives(event.process):
            raise Refusal(1)
        make = self.live[event.process].make
        if make is None:
            raise Refusal(3)
        if any(not 1 <= prerequisite <= len(make.targets) for prerequisite in event.prerequisites):
            raise Refusal(5)
        if len(self.targets) == self.targets_room:
            raise Refusal(7)
        self.refuse_if_used_up()
        self.count += 1
        target = TargetPlace(make, 1 + len(make.targets), event.prerequisites)
        make.targets.append(target)
        self.targets.append(target)

    def death(self, event: Death) -> None:
        """`make.death`"""
        if not self.lives(event.process):
            raise Refusal(1)
        self.refuse_if_used_up()
        self.count += 1
        birth = self.live.pop(event.process)
        birth.lives = False
        lived_in = self.places_lived_in()
        for step in self.steps:
            if step.ended is None and step not in lived_in:
                step.ended = self.count
        for make in self.makes:
            if make.ended is None and not make.own.lives and make not in lived_in:
                make.ended = self.count

    def places_lived_in(self) -> set[Place]:
        """The places at or below which a process lives now. (At a make or a target itself there is never one.)"""
        lived_in: set[Place] = set()
        for place in {birth.place for birth in self.live.values()}:
            lived_in.update(place.holders)
        return lived_in

    # Before (section 3.4)

    def before(self, a: Timestamp, b: Timestamp) -> bool:
        """`make.before`"""
        if not self.knows(a) or not self.knows(b) or a.number >= b.number:
            return False
        common, below_a, below_b = self.meeting(self.place_of(a), self.place_of(b))
        if isinstance(common, MakePlace):
            assert isinstance(below_a, TargetPlace) and isinstance(below_b, TargetPlace)
            return is_prerequisite(common, below_a.number, below_b.number)
        if isinstance(common, TargetPlace):
            assert isinstance(below_a, StepPlace) and isinstance(below_b, StepPlace)
            return ended_before_started(below_a.ended, below_b.started)
        assert below_a is None or isinstance(below_a, MakePlace)
        assert below_b is None or isinstance(below_b, MakePlace)
        end_a = a.number if below_a is None else below_a.ended
        start_b = b.number if below_b is None else below_b.started
        return ended_before_started(end_a, start_b)


    def meeting(self, a: Place, b: Place) -> Meeting:
        """The lowest place that holds both, and what right below it holds each of them. Places never move."""
        if (a, b) not in self.meetings:
            common = lowest_common(a, b)
            self.meetings[a, b] = (common, right_below(common, a), right_below(common, b))
        return self.meetings[a, b]


def lowest_common(a: Place, b: Place) -> Place:
    """The lowest place that holds both."""
    common = a.holders[0]
    for holder_a, holder_b in zip(a.holders, b.holders):
        if holder_a is not holder_b:
            break
        common = holder_a
    return common


def right_below(common: Place, place: Place) -> Place | None:
    """The place right below the common one that holds the given one; none if the given one is the common one."""
    depth = len(common.holders)
    return None if place is common else place.holders[depth]


def is_prerequisite(make: MakePlace, earlier: int, later: int) -> bool:
    """Whether a target is a prerequisite of another, directly or through others: by closure of the declared lists."""
    found: set[int] = set()
    ahead = [later]
    while ahead:
        for prerequisite in make.targets[ahead.pop() - 1].prerequisites:
            if prerequisite not in found:
                found.add(prerequisite)
                ahead.append(prerequisite)
    return earlier in found


def ended_before_started(end: int | None, start: int | None) -> bool:
    """The end has come, and its number is below that of the start. What has no start is never asked for."""
    assert start is not None
    return end is not None and end < start


# The stage order (section 4)


@dataclass(eq=False)
class StageBirth:
    process: int
    stage: int
    lives: bool = True


class StageOrder(Order):
    def __init__(self, births: int = BIRTHS) -> None:
        self.births_room = min(births, BIRTHS)
        self.count = 0
        self.births: list[StageBirth] = []

    @property
    def number(self) -> int:
        return self.count

    def place_of_process(self, process: int) -> int | None:
        """The place of the process's live birth, that is, its count in the list from 1; none if it does not live."""
        for place, birth in enumerate(self.births, start=1):
            if birth.process == process and birth.lives:
                return place
        return None

    def lives(self, process: int) -> bool:
        return self.place_of_process(process) is not None

    def any_lives(self) -> bool:
        return any(birth.lives for birth in self.births)

    def knows(self, timestamp: Timestamp) -> bool:
        """`stage.known`"""
        return 1 <= timestamp.number <= self.count and 1 <= timestamp.place <= len(self.births)

    def stamp(self, process: int) -> Timestamp:
        place = self.place_of_process(process)
        if place is None:
            raise Refusal(1)
        self.refuse_if_used_up()
        self.count += 1
        return Timestamp(self.count, place)

    def tell(self, event: Event) -> None:
        match event:
            case Birth():
                self.birth(event)
            case Death():
                self.death(event)
            case _:
                raise Refusal(9)  # stage.unfit

    def refuse_if_used_up(self) -> None:
        if self.count == LAST_NUMBER:
            raise Refusal(8)

    def birth(self, event: Birth) -> None:
        """`stage.birth`"""
        if event.process == 0 or self.lives(event.process):
            raise Refusal(2)
        if len(self.births) == self.births_room:
            raise Refusal(7)
        self.refuse_if_used_up()
        if event.parent != SESSION_PARENT or event.target not in STAGES:
            raise Refusal(9)
        self.count += 1
        self.births.append(StageBirth(event.process, event.target))

    def death(self, event: Death) -> None:
        """`stage.death`"""
        place = self.place_of_process(event.process)
        if place is None:
            raise Refusal(1)
        self.refuse_if_used_up()
        self.count += 1
        self.births[place - 1].lives = False

    def before(self, a: Timestamp, b: Timestamp) -> bool:
        """`stage.before`"""
        if not self.knows(a) or not self.knows(b):
            return False
        stage_a, stage_b = self.births[a.place - 1].stage, self.births[b.place - 1].stage
        return a.number < b.number and (a.place == b.place or stage_a < stage_b)


# The flags layer (section 5)


@dataclass(frozen=True)
class Pair:
    """The timestamp of a flag's post, and that of an await of the flag."""

    post: Timestamp
    awaited: Timestamp


class Flags(Order):
    """`flags.layer`: all but post, await and before is as in the order below."""

    def __init__(self, below: Order) -> None:
        self.below = below
        self.posts: dict[int, Timestamp] = {}
        self.pairs: list[Pair] = []
        # What was found out about before below since the last event; stamps change nothing of it.
        self.found_from: dict[Timestamp, list[Pair]] = {}
        self.found_to: dict[Timestamp, list[Pair]] = {}

    @property
    def number(self) -> int:
        return self.below.number

    def lives(self, process: int) -> bool:
        return self.below.lives(process)

    def any_lives(self) -> bool:
        return self.below.any_lives()

    def knows(self, timestamp: Timestamp) -> bool:
        return self.below.knows(timestamp)

    def stamp(self, process: int) -> Timestamp:
        return self.below.stamp(process)

    def tell(self, event: Event) -> None:
        match event:
            case Post():
                self.post(event)
            case Await():
                self.await_flag(event)
            case _:
                self.below.tell(event)
        self.found_from.clear()
        self.found_to.clear()

    def post(self, event: Post) -> None:
        """`flags.post`"""
        if event.flag not in FLAGS or event.flag in self.posts:
            raise Refusal(10)
        self.posts[event.flag] = self.below.stamp(event.process)

    def await_flag(self, event: Await) -> None:
        """`flags.await`"""
        if event.flag not in FLAGS or event.flag not in self.posts:
            raise Refusal(10)
        if len(self.pairs) == AWAITS:
            raise Refusal(11)
        self.pairs.append(Pair(self.posts[event.flag], self.below.stamp(event.process)))

    def before(self, a: Timestamp, b: Timestamp) -> bool:
        """`flags.before`: below, or through one or more pairs in a row, which are searched from a on."""
        if not self.knows(a) or not self.knows(b):
            return False
        if self.below.before(a, b):
            return True
        last = self.pairs_to(b)
        come_to = [a]
        seen: set[Pair] = set()
        while come_to and last:
            for pair in self.pairs_from(come_to.pop()):
                if pair in last:
                    return True
                if pair not in seen:
                    seen.add(pair)
                    come_to.append(pair.awaited)
        return False

    def pairs_from(self, a: Timestamp) -> list[Pair]:
        """The pairs that may come first after a, or next after an await a."""
        if a not in self.found_from:
            self.found_from[a] = [pair for pair in self.pairs if a == pair.post or self.below.before(a, pair.post)]
        return self.found_from[a]

    def pairs_to(self, b: Timestamp) -> list[Pair]:
        """The pairs that may come last before b."""
        if b not in self.found_to:
            self.found_to[b] = [pair for pair in self.pairs if pair.awaited == b or self.below.before(pair.awaited, b)]
        return self.found_to[b]
