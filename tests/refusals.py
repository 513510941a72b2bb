"""Records that are refused, made with knowledge of the session so far: each check, and two checks that both fail."""

from __future__ import annotations

from random import Random

from tests import encode
from tests.world import World

BAD_PATHS = [b"", b"a", b"a/b", b"/a/", b"//", b"//a", b"/a//b", b"/\0", b"/a\0b"]
BAD_PATHS += [b"/" + 255 * b"x", b"/a/" + 300 * b"y"]
GOOD_PATHS = [b"/", b"/a", b"/" + 254 * b"x", b"/\xff/\x7f", b"/a/..", b"/ "]


class Cast:
    """Who is there: live processes, makes among them, and numbers that do not live. None of them is 0."""

    def __init__(self, world: World, random: Random) -> None:
        living = list(world.live.values())
        makes = [process for process in living if process.make is not None]
        plain = [process for process in living if process.make is None]
        self.random = random
        self.world = world
        self.live = random.choice(living).number if living else 1
        self.plain = random.choice(plain).number if plain else self.live
        self.make = random.choice(makes).number if makes else self.live
        targets = world.live[self.make].make if self.make in world.live else None
        self.targets = len(targets.targets) if targets is not None else 0
        unborn = [number for number in (*range(1, 40), 2**32 - 1) if number not in world.live]
        self.dead = random.choice(unborn)
        self.new = random.choice(unborn)
        self.unposted = [flag for flag in range(1, 33) if flag not in world.posted] or [1]


def refused_by_makes(world: World, random: Random) -> bytes:
    """One record that the make tool most likely refuses."""
    cast = Cast(world, random)
    undeclared = random.choice([cast.targets + 1, cast.targets + 2, 512, 65_535])
    declared = random.randint(1, cast.targets) if cast.targets else 1
    posted = random.choice(world.posted) if world.posted else 7
    unposted = random.choice(cast.unposted)
    bad_path, path = random.choice(BAD_PATHS), random.choice(GOOD_PATHS)
    choices = [
        # births: 1, then 2, 3, 5
        encode.birth(cast.new, cast.dead, 0),
        encode.birth(cast.live, cast.dead, 0),
        encode.birth(0, cast.dead, 1),
        encode.birth(cast.dead, cast.dead, 0),
        encode.birth(cast.live, cast.live, 0),
        encode.birth(cast.live, 0, 0),
        encode.birth(cast.live, 0, 1),
        encode.birth(0, 0, 0),
        encode.birth(0, cast.live, 0),
        encode.birth(0, 0, 1),
        encode.birth(cast.live, cast.make, undeclared),
        encode.birth(cast.new, 0, 1),
        encode.birth(cast.new, 0, undeclared),
        encode.birth(cast.new, cast.plain, 1),
        encode.birth(cast.new, cast.plain, undeclared),
        encode.birth(cast.new, cast.make, undeclared),
        # makes: 1, 4
        encode.make(cast.dead),
        encode.make(0),
        encode.make(cast.make),
        # targets: 1, 3, 5
        encode.target(cast.dead, []),
        encode.target(cast.dead, [0]),
        encode.target(cast.plain, []),
        encode.target(cast.plain, [0]),
        encode.target(cast.make, [0]),
        encode.target(cast.make, [cast.targets + 1]),
        encode.target(cast.make, [declared, undeclared]),
        encode.target(cast.make, [declared, declared, 0]),
        # deaths: 1
        encode.death(cast.dead),
        encode.death(0),
        # flags: 10, 1
        encode.post(cast.live, 0),
        encode.post(cast.live, 33),
        encode.post(cast.live, posted),
        encode.post(cast.dead, posted),
        encode.post(cast.dead, 255),
        encode.post(cast.dead, unposted),
        encode.await_flag(cast.live, 0),
        encode.await_flag(cast.live, 33),
        encode.await_flag(cast.live, unposted),
        encode.await_flag(cast.dead, unposted),
        encode.await_flag(cast.dead, posted),
        encode.await_flag(cast.dead, 0),
        *refused_accesses(cast, bad_path, path),
    ]
    return random.choice(choices)


def refused_by_stages(world: World, random: Random) -> bytes:
    """One record that the stage tool most likely refuses."""
    cast = Cast(world, random)
    bad_path, path = random.choice(BAD_PATHS), random.choice(GOOD_PATHS)
    unfit = random.choice([0, 256, 257, 65_535])
    choices = [
        # births: 2, then 9
        encode.birth(cast.live, 0, 1),
        encode.birth(cast.live, 0, unfit),
        encode.birth(cast.live, cast.live, 1),
        encode.birth(0, 0, 1),
        encode.birth(0, cast.live, unfit),
        encode.birth(cast.new, cast.live, 1),
        encode.birth(cast.new, cast.dead, 1),
        encode.birth(cast.new, cast.new, 1),
        encode.birth(cast.new, 0, unfit),
        encode.birth(cast.new, 0, 0),
        encode.birth(cast.new, 0, 256),
        # what stages do not take: 9, whoever it names
        encode.make(cast.live),
        encode.make(cast.dead),
        encode.target(cast.live, []),
        encode.target(cast.dead, [0]),
        encode.post(cast.live, 1),
        encode.post(cast.dead, 33),
        encode.await_flag(cast.live, 1),
        encode.await_flag(cast.dead, 0),
        encode.death(cast.dead),
        encode.death(0),
        *refused_accesses(cast, bad_path, path),
    ]
    return random.choice(choices)


def refused_accesses(cast: Cast, bad_path: bytes, path: bytes) -> list[bytes]:
    """1, then 14; and the reader's 20 before both"""
    return [
        encode.read(cast.dead, 1, 1, path),
        encode.write(cast.dead, 1, 1, bad_path),
        encode.exists(cast.dead, bad_path),
        encode.removal(cast.dead, 1, 1, 1, path),
        encode.read(0, 1, 1, path),
        encode.read(cast.live, 1, 1, bad_path),
        encode.write(cast.live, 1, 1, bad_path),
        encode.exists(cast.live, bad_path),
        encode.removal(cast.live, 1, 1, 0, bad_path),
        encode.removal(cast.live, 1, 1, 2, path),
        encode.removal(cast.dead, 1, 1, 255, bad_path),
        encode.read(cast.live, 1, 1, path),
    ]
