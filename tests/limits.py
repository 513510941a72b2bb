"""Logs that come up to a limit, and what happens there. Each is the same for every seed; a mode goes through them."""

from __future__ import annotations

from collections.abc import Callable
from random import Random

from tests import encode
from tests.world import LONGEST_LOG

Maker = Callable[[], bytes]


def then(base: Callable[[], list[bytes]], *records: bytes) -> Maker:
    return lambda: encode.log(base() + list(records))


# What the make tool can reach


def full_of_makes() -> list[bytes]:
    """64 makes side by side, and process 100, which is none."""
    return [encode.birth(100, 0, 0)] + [encode.birth(at, 0, 0) + encode.make(at) for at in range(1, 65)]


def chain(first: int, makes: int, parent: int = 0) -> list[bytes]:
    """Makes one inside the other: processes from `first` on. The last one is at a step and is no make."""
    records = [encode.birth(first, parent, 0)]
    for at in range(first, first + makes):
        records += [encode.make(at), encode.target(at, []), encode.birth(at + 1, at, 1)]
    return records


def sixteen_deep() -> list[bytes]:
    """Processes 1 to 17, of which 17 is below 16 makes; 18 and 19 are there too."""
    return chain(1, 16) + [encode.birth(18, 17, 0), encode.birth(19, 16, 1)]


def four_chains() -> list[bytes]:
    """64 makes in chains of 16, and process 900 at the session."""
    return [encode.birth(900, 0, 0)] + chain(1, 16) + chain(101, 16) + chain(201, 16) + chain(301, 16)


def full_of_targets(makes: int) -> list[bytes]:
    """512 targets in so many makes, processes from 1 on, and process 100, which is none."""
    records = [encode.birth(100, 0, 0)] + [encode.birth(at, 0, 0) + encode.make(at) for at in range(1, makes + 1)]
    return records + [encode.target(1 + at % makes, []) for at in range(512)]


def full_of_awaits() -> list[bytes]:
    posts = [encode.birth(5, 0, 0), encode.post(5, 32), encode.post(5, 1)]
    return posts + [encode.await_flag(5, 1 + 31 * (at % 2)) for at in range(32)]


def all_posted() -> list[bytes]:
    return [encode.birth(5, 0, 0)] + [encode.post(5, flag) for flag in range(1, 33)]


def long_lists() -> list[bytes]:
    """Targets with up to 255 prerequisites."""
    records = [encode.birth(5, 0, 0), encode.make(5)]
    records += [encode.target(5, []) for _ in range(10)]
    return records + [encode.target(5, [1 + at % 10 for at in range(count)]) for count in (254, 255)]


def of_size(size: int, version: int, stage: int) -> Maker:
    """A log of just this size."""

    def make() -> bytes:
        random = Random(size)
        log = bytes([version]) + encode.birth(5, 0, stage)
        while size - len(log) > 400:
            path = b"/f%d" % random.randrange(100)
            if random.random() < 0.7:
                log += encode.read(5, 1, 1, path)
            else:
                log += encode.write(5, 1, random.randrange(9), path)
        while size - len(log) > 200:
            log += encode.exists(5, b"/dd")
        return log + encode.exists(5, b"/".ljust(size - len(log) - 7, b"x"))

    return make


def of_path(length: int) -> Maker:
    return lambda: encode.log([encode.birth(5, 0, 0), encode.exists(5, b"/a/".ljust(length, b"x"))])


LIMITS: list[Maker] = [
    then(full_of_makes),
    then(full_of_makes, encode.make(100)),
    then(full_of_makes, encode.make(64)),
    then(full_of_makes, encode.make(999)),
    then(full_of_makes, encode.death(64), encode.make(100)),
    then(full_of_makes, encode.target(64, []), encode.birth(101, 64, 1), encode.make(101)),
    then(sixteen_deep),
    then(sixteen_deep, encode.make(17)),
    then(sixteen_deep, encode.make(18)),
    then(sixteen_deep, encode.make(19)),
    then(sixteen_deep, encode.make(16)),
    then(sixteen_deep, encode.birth(20, 15, 1), encode.make(20), encode.make(17)),
    then(sixteen_deep, *(encode.write(at, 1, 1, b"/d/x") for at in range(17, 0, -1))),
    then(sixteen_deep, *(encode.write(at, 1, 1, b"/d/x") + encode.death(at) for at in range(17, 0, -1))),
    then(
        sixteen_deep,
        *(encode.exists(at, b"/d") + encode.death(at) for at in range(1, 18)),
        encode.read(18, 1, 1, b"/d/x"),
    ),
    then(four_chains),
    then(four_chains, encode.make(17)),
    then(four_chains, encode.make(317)),
    then(four_chains, encode.make(900)),
    then(four_chains, encode.make(316)),
    *(then(lambda makes=makes: full_of_targets(makes), *records)  # type: ignore[misc]
      for makes in (1, 5)
      for records in (
          (), (encode.target(1, []),), (encode.target(1, [1, 2]),), (encode.target(1, [0]),),
          (encode.target(1, [600]),), (encode.target(100, []),), (encode.target(100, [0]),), (encode.target(999, []),),
          (encode.birth(7, 1, 512),), (encode.birth(7, 1, 513),), (encode.birth(7, 1, 103),),
      )),
    then(full_of_awaits),
    then(full_of_awaits, encode.await_flag(5, 1)),
    then(full_of_awaits, encode.await_flag(5, 2)),
    then(full_of_awaits, encode.await_flag(5, 0)),
    then(full_of_awaits, encode.await_flag(6, 32)),
    then(full_of_awaits, encode.await_flag(6, 33)),
    then(full_of_awaits, encode.post(5, 2), encode.write(5, 1, 1, b"/x")),
    then(all_posted),
    *(then(all_posted, encode.post(5, flag)) for flag in (0, 1, 32, 33, 255)),
    then(all_posted, *(encode.await_flag(5, flag) for flag in range(1, 34))),
    then(long_lists),
    then(long_lists, encode.target(5, [*range(1, 12), 13])),
    *(of_size(LONGEST_LOG + by, version, stage) for by in (-1, 0, 1) for version in (1, 2) for stage in (0, 1)),
    *(of_path(length) for length in (3, 4, 254, 255, 256, 257, 1_000, 32_000)),
    lambda: b"",
    lambda: b"\0",
    lambda: b"\x01",
    lambda: b"\x01\0",
    lambda: b"\x01\0\0",
    lambda: b"\x01\0\x01",
    lambda: b"\x01\0\x01B",
    lambda: b"\x01\0\x01Z",
    lambda: b"\x01\0\x02Z",
    lambda: b"\x01\0\x05T\0\0\0\x05",
]  # fmt: skip


# What only the session tool can reach


def full_of_births() -> list[bytes]:
    """4,096 live processes, of which 1 is a make with one target."""
    start = [encode.birth(1, 0, 0), encode.make(1), encode.target(1, [])]
    return start + [encode.birth(at, 0, 0) for at in range(2, 4_097)]


def births_and_deaths() -> list[bytes]:
    return [encode.birth(7, 0, 0) + encode.death(7) for _ in range(4_096)]


def accesses(unused: int) -> list[bytes]:
    """Two processes, and so many reads, writes and removals that just `unused` accesses are left."""
    random = Random(unused)
    records = [encode.birth(5, 0, 0), encode.birth(6, 0, 0)]
    left = 65_536 - unused
    while left > 0:
        path = b"/d%d" % random.randrange(200)
        process = random.choice([5, 6])
        kind = random.choice([letter for letter, need in (("W", 3), ("R", 2), ("U", 1), ("K", 1)) if need <= left])
        if kind == "W":
            records.append(encode.write(process, 1, random.randrange(300), path))
            left -= 3
        elif kind == "R":
            records.append(encode.read(process, 1, random.randrange(300), path))
            left -= 2
        elif kind == "U":
            records.append(encode.removal(process, 1, random.randrange(300), random.randrange(2), path))
            left -= 1
        else:
            records.append(encode.exists(process, path))
            left -= 1
    return records


def full_of_generations() -> list[bytes]:
    return [encode.birth(5, 0, 0)] + [encode.read(5, 1, at, b"/f%d" % (at % 50)) for at in range(8_192)]


def opened_and_ended() -> list[bytes]:
    one = [encode.write(5, at, 1, b"/f%d" % at) + encode.removal(5, at, 1, 1, b"/f%d" % at) for at in range(32)]
    return [encode.birth(5, 0, 0)] + one * 256


def paths(unused: int) -> list[bytes]:
    """`/` and others, so many that just `unused` paths are left."""
    return [encode.birth(5, 0, 0)] + [encode.exists(5, b"/p%d" % at) for at in range(8_191 - unused)]


PARENT = b"/" + 99 * b"p"


def path_bytes() -> list[bytes]:
    """A parent of 100 bytes and 4,111 paths of 255 bytes in it, so that 171 bytes are left."""
    return [encode.birth(5, 0, 0)] + [encode.exists(5, PARENT + b"/%0154d" % at) for at in range(4_111)]


def in_parent(length: int) -> bytes:
    return encode.exists(5, (PARENT + b"/").ljust(length, b"x"))


ROOMS: list[Maker] = [
    then(full_of_births),
    then(full_of_births, encode.birth(5_000, 0, 0)),
    then(full_of_births, encode.birth(5_000, 1, 1)),
    then(full_of_births, encode.birth(5_000, 1, 2)),
    then(full_of_births, encode.birth(5_000, 2, 1)),
    then(full_of_births, encode.birth(5, 0, 0)),
    then(full_of_births, encode.birth(0, 0, 0)),
    then(full_of_births, encode.birth(5_000, 5_001, 0)),
    then(full_of_births, encode.death(5), encode.birth(5, 0, 0)),
    then(births_and_deaths),
    then(births_and_deaths, encode.birth(7, 0, 0)),
    *(then(lambda unused=unused: accesses(unused), record)  # type: ignore[misc]
      for unused, record in (
          (0, encode.exists(5, b"/d0")), (0, encode.removal(5, 1, 1, 1, b"/d0")), (1, encode.exists(5, b"/d0")),
          (1, encode.removal(5, 1, 1, 1, b"/d0")), (1, encode.read(5, 1, 1, b"/d0")), (2, encode.read(5, 1, 1, b"/d0")),
          (2, encode.write(5, 1, 1, b"/d0")), (3, encode.write(5, 1, 1, b"/d0")),
      )),
    then(full_of_generations),
    then(full_of_generations, encode.read(5, 1, 0, b"/f0"), encode.write(5, 1, 8_191, b"/f0"), encode.exists(5, b"/f")),
    then(full_of_generations, encode.read(5, 2, 0, b"/f0")),
    then(full_of_generations, encode.write(5, 2, 0, b"/f0")),
    then(full_of_generations, encode.removal(5, 1, 0, 1, b"/f0"), encode.read(5, 1, 0, b"/f0")),
    then(opened_and_ended),
    then(opened_and_ended, encode.write(5, 1, 1, b"/f0")),
    then(opened_and_ended, encode.removal(5, 1, 1, 1, b"/f0"), encode.exists(5, b"/f0")),
    then(lambda: paths(0), encode.exists(5, b"/p0"), encode.read(5, 1, 1, b"/")),
    then(lambda: paths(0), encode.exists(5, b"/p0/x")),
    then(lambda: paths(1), encode.exists(5, b"/p0/x")),
    then(lambda: paths(1), encode.exists(5, b"/q/x")),
    then(lambda: paths(2), encode.exists(5, b"/q/x")),
    then(lambda: paths(2), encode.exists(5, b"/q/x/y")),
    then(path_bytes, in_parent(171), in_parent(171)),
    then(path_bytes, in_parent(172)),
    then(path_bytes, in_parent(171), encode.exists(5, b"/")),
    then(path_bytes, in_parent(170), encode.exists(5, b"/")),
    lambda: encode.log([encode.birth(5, 0, 0), encode.exists(5, b"/".ljust(65_530, b"x"))]),
    lambda: encode.log([encode.birth(5, 0, 0), encode.exists(5, b"/".ljust(65_530, b"x"))])[:-1],
]  # fmt: skip
