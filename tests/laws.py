#!/usr/bin/env python3
"""What every order keeps (RULES.md, section 2.3), tried on made logs: `order.known`, `order.steady`, `order.law`.

    laws.py [N]

All known timestamps of a small session are compared with one another, after each record, also those that no stamp ever
answered: every number with every place. N is the number of logs for each order (100). The status is 1 on a fault.
"""

from __future__ import annotations

import sys
from pathlib import Path
from random import Random

sys.path.insert(0, str(Path(__file__).resolve().parent.parent))

from reference import tools  # noqa: E402
from reference.orders import Flags, MakeOrder, Order, StageOrder, Timestamp  # noqa: E402
from reference.reader import Reader  # noqa: E402
from tests import builds  # noqa: E402
from tests.world import Style, World, some_paths  # noqa: E402

PLACES = 12

Relation = dict[Timestamp, set[Timestamp]]


def relation_of(order: Order) -> Relation:
    """Of every known timestamp those that it is before."""
    known = [
        timestamp
        for number in range(order.number + 2)
        for place in range(PLACES)
        if order.knows(timestamp := Timestamp(number, place))
    ]
    return {a: {b for b in known if order.before(a, b)} for a in known}


def fault_in(order: Order, log: bytes) -> str | None:
    earlier: Relation = {}
    for record in Reader(log).records():
        event = tools.event_of(record)
        if event is not None:
            order.tell(event)
        else:
            order.stamp(record.numbers[0])
        now = relation_of(order)
        for a, after in earlier.items():
            if a not in now:
                return f"{a} is known no more"
            if {b for b in now[a] if b in earlier} != after:
                return f"{a} is before others than it was"
        earlier = now
    for a, after in earlier.items():
        if not 1 <= a.number <= order.number:
            return f"{a} is known"
        for b in after:
            if b.number <= a.number:
                return f"{a} is before {b}"
            if not earlier[b] <= after:
                return f"{a} is before {b}, but not before all that {b} is before"
    return None


def small_log(random: Random, stages: bool) -> bytes:
    style = Style(records=random.randint(12, 34), numbers=9, paths=some_paths(random, 3))
    world = World(random, style)
    if stages:
        courses = [builds.stages(world, [1, 2, 3], False, 0.2)]
    else:
        weights = builds.Weights(birth=4, step=16, make=8, target=8, death=14, use=8, post=5, await_flag=8)
        courses = [random.choice([builds.chaos(world, weights), builds.orphans(world)])]
    builds.interleave(world, courses, 1.0)
    return world.log()


def main(arguments: list[str]) -> int:
    count = int(arguments[0]) if arguments else 100
    faults = 0
    for seed in range(count):
        random = Random(f"laws {seed}")
        for stages, order in ((False, Flags(MakeOrder())), (False, MakeOrder()), (True, StageOrder())):
            log = small_log(random, stages)
            if isinstance(order, MakeOrder) and (b"\0\6F" in log or b"\0\6A" in log):
                continue
            fault = fault_in(order, log)
            if fault is not None:
                faults += 1
                print(f"seed {seed}, {type(order).__name__}: {fault}")
    print(f"{3 * count} sessions, {faults} faults")
    return 1 if faults else 0


if __name__ == "__main__":
    sys.exit(main(sys.argv[1:]))
