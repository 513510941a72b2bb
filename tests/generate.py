#!/usr/bin/env python3
"""Makes a log from a mode and a seed, always the same one.

    generate.py MODE SEED > LOG

Modes:
    make            for the make tool, accepted to the end, at most 32,768 bytes
    stage           for the stage tool, likewise
    refused         as make, and then a record that is refused for one reason or for two
    refused-stage   as stage, and then such a record
    damaged         a log of mode make, damaged: cut, bytes changed, wrong lengths and letters, records put in
                    or left out
    damaged-stage   a log of mode stage, damaged
    limits          a log that comes up to a limit of the make tool or past it: makes, makes one inside the other,
                    targets, flags, awaits, sizes, paths. There are so many of them; the seeds go round
    session         as make, but longer than the make tool takes
    rooms           a log that comes up to a limit that only the session tool reaches, or past it: births, the four
                    rooms of a detector. There are so many of them; the seeds go round. These logs are long
"""

from __future__ import annotations

import sys
from collections.abc import Callable
from pathlib import Path
from random import Random

sys.path.insert(0, str(Path(__file__).resolve().parent.parent))

from tests import builds  # noqa: E402
from tests.damage import damaged  # noqa: E402
from tests.limits import LIMITS, ROOMS  # noqa: E402
from tests.refusals import refused_by_makes, refused_by_stages  # noqa: E402
from tests.world import LONGEST_LOG, Style, World, some_paths  # noqa: E402


def style_of(random: Random) -> Style:
    records = random.choice([random.randint(5, 40), random.randint(40, 200), random.randint(200, 600), 3_000])
    return Style(
        records=records,
        numbers=random.choice([8, 30, 30, 1_000_000]),
        largest=random.random() < 0.1,
        paths=some_paths(random, random.choice([3, 6, 12, 30, 80])),
        inodes=random.choice([2, 6, 20, 200, 100_000]),
        hold_link=random.choice([0.5, 0.9, 0.98, 1.0]),
    )


def make_world(random: Random, longest: int = LONGEST_LOG) -> World:
    style = style_of(random)
    style.longest = longest
    return filled(random, style)


def filled(random: Random, style: Style) -> World:
    """A session of several courses at once, for the make order."""
    world = World(random, style)
    manners = builds.Manners(
        order=random.choice([0.8, 0.97, 1.0]),
        inputs=random.choice([0.3, 0.8, 0.95, 1.0]),
        nesting=random.choice([0.1, 0.3, 0.5]),
        jobs=random.choice([1, 2, 3, 6]),
        deepest=random.choice([2, 3, 5, 9]),
        patient=random.choice([0.6, 0.9, 1.0]),
    )
    weights = builds.Weights(
        birth=random.choice([2, 6, 12]),
        death=random.choice([4, 14, 25]),
        use=random.choice([15, 45, 90]),
        post=random.choice([0, 2, 6]),
        deepest=random.choice([1, 2, 4, 16]),
    )
    courses = []
    kind = random.choice(["builds", "builds", "chaos", "both", "deep", "flags", "flags", "orphans"])
    if kind in ("builds", "both", "flags"):
        courses += [builds.builds_in_a_row(world, manners) for _ in range(random.choice([1, 2, 3, 8]))]
    if kind in ("chaos", "both", "deep") or style.longest > LONGEST_LOG:
        courses.append(builds.chaos(world, weights))
    if kind == "deep":
        courses.insert(0, builds.dive(world, random.randint(4, 16)))
    if kind == "flags":
        courses.append(builds.chaos(world, builds.Weights(post=0, await_flag=1)))
        courses += [builds.relays(world) for _ in range(random.choice([1, 3]))]
    if kind == "orphans":
        courses += [builds.orphans(world), builds.orphans(world), builds.build(world, manners)]
    builds.interleave(world, courses, random.choice([0.5, 0.9, 0.98]))
    return world


def stage_world(random: Random, longest: int = LONGEST_LOG) -> World:
    style = style_of(random)
    style.longest = longest
    world = World(random, style)
    used = random.choice([[1, 2], [1, 2, 3, 4, 5], list(range(1, 30)), [1, 128, 254, 255]])
    courses = [builds.stages(world, used, random.random() < 0.7, random.choice([0.05, 0.15, 0.3]))]
    builds.interleave(world, courses, 1.0)
    return world


def session_world(random: Random) -> World:
    style = style_of(random)
    style.longest = random.choice([40_000, 60_000, 100_000, 200_000])
    style.records = 1_000_000
    style.paths = some_paths(random, random.choice([30, 80, 300]))
    return filled(random, style)


def refused(world: World, random: Random, refusal: Callable[[World, Random], bytes]) -> bytes:
    """The session, then a record that is refused, and at times another one that must not be looked at."""
    return world.log() + refusal(world, random) + random.choice([b"", b"", refusal(world, random)])


HALF = LONGEST_LOG // 2

MODES: dict[str, Callable[[Random, int], bytes]] = {
    "make": lambda random, seed: make_world(random).log(),
    "stage": lambda random, seed: stage_world(random).log(),
    "refused": lambda random, seed: refused(make_world(random, HALF), random, refused_by_makes),
    "refused-stage": lambda random, seed: refused(stage_world(random, HALF), random, refused_by_stages),
    "damaged": lambda random, seed: damaged(make_world(random, HALF).log(), random),
    "damaged-stage": lambda random, seed: damaged(stage_world(random, HALF).log(), random),
    "limits": lambda random, seed: LIMITS[seed % len(LIMITS)](),
    "session": lambda random, seed: session_world(random).log(),
    "rooms": lambda random, seed: ROOMS[seed % len(ROOMS)](),
}


def generate(mode: str, seed: int) -> bytes:
    return MODES[mode](Random(f"{mode} {seed}"), seed)


def seeds_of(mode: str, first: int, count: int) -> list[int]:
    """Seeds of a mode, for a run over all modes with so many seeds of each.

    There are fewer where logs are long. Where the seeds go round, all logs are taken, or some of them evenly spread.
    """
    if mode == "limits":
        return spread(len(LIMITS), 4 * count)
    if mode == "rooms":
        return spread(len(ROOMS), count // 2)
    if mode == "session":
        count = max(1, count // 10)
    return list(range(first, first + count))


def spread(all_of_them: int, wanted: int) -> list[int]:
    taken = max(1, min(wanted, all_of_them))
    return [at * all_of_them // taken for at in range(taken)]


def main(arguments: list[str]) -> int:
    if len(arguments) != 2 or arguments[0] not in MODES:
        print(__doc__, file=sys.stderr)
        return 2
    sys.stdout.buffer.write(generate(arguments[0], int(arguments[1])))
    return 0


if __name__ == "__main__":
    sys.exit(main(sys.argv[1:]))
