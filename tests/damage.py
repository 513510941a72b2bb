"""Damage: refused events among the records, and bytes that are no log."""

from __future__ import annotations

from random import Random

from tests import encode


def boundaries(log: bytes) -> list[int]:
    """The places of the records of a log that can be read."""
    places = []
    place = 1
    while place < len(log):
        places.append(place)
        place += 2 + int.from_bytes(log[place : place + 2], "big")
    return places


def damaged(log: bytes, random: Random) -> bytes:
    """The log with some damage: mostly one thing, sometimes two."""
    for _ in range(random.choice([1, 1, 1, 2])):
        log = random.choice([cut, change_bytes, change_length, change_letter, insert, insert, insert, version, drop])(
            log, random
        )
    return log


def late(places: list[int], random: Random) -> int:
    """One of the places, a late one more often, so that most of the log is run."""
    return places[max(random.randrange(len(places)), random.randrange(len(places)))]


def cut(log: bytes, random: Random) -> bytes:
    return log[: random.randint(len(log) // 2, len(log))] if random.random() < 0.95 else b""


def change_bytes(log: bytes, random: Random) -> bytes:
    changed = bytearray(log)
    for _ in range(random.choice([1, 1, 2, 5])):
        if changed:
            changed[random.randrange(len(changed))] = random.choice([0, 1, 2, 47, 255, random.randrange(256)])
    return bytes(changed)


def change_length(log: bytes, random: Random) -> bytes:
    places = boundaries(log)
    if not places:
        return log
    place = late(places, random)
    length = int.from_bytes(log[place : place + 2], "big")
    wrong = random.choice([0, 1, length - 1, length + 1, length + 2, 5, 6, 65_535, random.randrange(40)])
    return log[:place] + (wrong % 65_536).to_bytes(2, "big") + log[place + 2 :]


def change_letter(log: bytes, random: Random) -> bytes:
    places = boundaries(log)
    if not places:
        return log
    at = late(places, random) + 2
    letter = random.choice(b"BMTDRWKUFA" * 2 + b"bEXCPZ\0\xff")
    return log[:at] + bytes([letter]) + log[at + 1 :]


def version(log: bytes, random: Random) -> bytes:
    if random.random() < 0.7:
        return log
    return random.choice([b"", b"\0", b"\2", b"\x011"[1:]]) + log[1:]


def drop(log: bytes, random: Random) -> bytes:
    """Without one record, or with one of them twice."""
    places = boundaries(log)
    if not places:
        return log
    place = late(places, random)
    end = place + 2 + int.from_bytes(log[place : place + 2], "big")
    return log[:place] + log[end:] if random.random() < 0.6 else log[:end] + log[place:]


def insert(log: bytes, random: Random) -> bytes:
    """With one more record somewhere, which is likely to be refused."""
    places = boundaries(log)
    if not places:
        return log
    place = late(places, random)
    return log[:place] + strange(processes_at(log, place), random) + log[place:]


def processes_at(log: bytes, place: int) -> list[int]:
    """Processes that are likely to live at this place: those of the records around it, and the last makes before it."""
    named = [(at, log[at + 2], int.from_bytes(log[at + 3 : at + 7], "big")) for at in boundaries(log)]
    around = [process for at, _, process in named if at >= place][:4]
    makes = [process for at, letter, process in named if at < place and letter == ord("M")][-4:]
    return (around + makes) or [5]


def strange(near: list[int], random: Random) -> bytes:
    """A record that is likely to be refused, mostly about one of the given processes."""
    process = random.choice([random.choice(near), random.choice(near), random.choice(near), random.randint(0, 12)])
    other = random.choice([random.choice(near), random.choice(near), 0, random.randint(0, 12)])
    flag = random.choice([0, 1, 2, 3, 32, 33, 255])
    number = random.choice([0, 1, 2, 3, 255, 256, 513, 65_535])
    path = random.choice(
        [b"", b"a", b"a/b", b"/a/", b"//", b"//a", b"/a//b", b"/\0", b"/a\0b"]
        + [b"/" + 255 * b"x", b"/" + 254 * b"x", b"/"]
    )
    return random.choice(
        [
            encode.birth(process, other, number),
            encode.birth(process, process, 0),
            encode.birth(0, other, number),
            encode.birth(other, process, number),
            encode.birth(999_999, process, number),
            encode.birth(999_999, process, number),
            encode.make(process),
            encode.make(process),
            encode.target(process, [number]),
            encode.target(process, [1, 2, number]),
            encode.target(process, []),
            encode.death(process),
            encode.post(process, flag),
            encode.await_flag(process, flag),
            encode.read(process, 1, 1, path),
            encode.write(process, 1, 1, path),
            encode.exists(process, path),
            encode.removal(process, 1, 1, random.choice([0, 1, 2, 255]), path),
            encode.framed(b"T" + encode.word(process)),
            encode.framed(b"T" + encode.word(process) + bytes([random.randrange(4), 0, 1])),
            encode.framed(bytes([random.choice(b"BMTDRWKUFA")]) + random.randbytes(random.randrange(24))),
            random.randbytes(1),
        ]
    )
