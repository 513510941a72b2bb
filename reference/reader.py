"""The log and its reader (RULES.md, section 10)."""

from __future__ import annotations

from collections.abc import Iterator
from dataclasses import dataclass

from reference.refusal import Refusal

VERSION = 1


@dataclass(frozen=True)
class Record:
    """One record: its place, its letter and its fields in the order of `log.fields`.

    All fields but the path are numbers. For T they are the process, the count and each prerequisite.
    """

    place: int
    letter: str
    numbers: tuple[int, ...]
    path: bytes | None


# Of each letter but T: the bytes of each number after the letter, and whether a path follows.
FIELDS: dict[str, tuple[tuple[int, ...], bool]] = {
    "B": ((4, 4, 2), False),
    "M": ((4,), False),
    "D": ((4,), False),
    "R": ((4, 4, 8), True),
    "W": ((4, 4, 8), True),
    "K": ((4,), True),
    "U": ((4, 4, 8, 1), True),
    "F": ((4, 1), False),
    "A": ((4, 1), False),
}


class Reader:
    """`log.open`, `log.next`, `log.stay`: hands out a log's records one by one."""

    def __init__(self, log: bytes) -> None:
        if len(log) == 0 or log[0] != VERSION:
            raise Refusal(17)
        self.log = log
        self.place = 1

    def next(self) -> Record | None:
        """The next record, or none at the end. A refusal leaves the reader at the record's start."""
        left = len(self.log) - self.place
        if left == 0:
            return None
        if left == 1:
            raise Refusal(18)
        start = self.place + 2
        n = int.from_bytes(self.log[self.place : start], "big")
        if n == 0:
            raise Refusal(20)
        if left - 2 < n:
            raise Refusal(18)
        letter, rest = chr(self.log[start]), self.log[start + 1 : start + n]
        if letter == "T":
            record = Record(self.place, letter, target_fields(rest), None)
        elif letter in FIELDS:
            sizes, has_path = FIELDS[letter]
            numbers, path = other_fields(rest, sizes, has_path)
            if letter == "U" and numbers[3] > 1:
                raise Refusal(20)
            record = Record(self.place, letter, numbers, path)
        else:
            raise Refusal(19)
        self.place += 2 + n
        return record

    def records(self) -> Iterator[Record]:
        """All records to the end, or to a refusal."""
        while (record := self.next()) is not None:
            yield record


def target_fields(rest: bytes) -> tuple[int, ...]:
    """Process, count and prerequisites of T. n is `1 + len(rest)`; it is at least 6 and equals 6 + 2c."""
    n = 1 + len(rest)
    if n < 6 or n != 6 + 2 * rest[4]:
        raise Refusal(20)
    count = rest[4]
    numbers, _ = other_fields(rest, (4, 1) + (2,) * count, False)
    return numbers


def other_fields(rest: bytes, sizes: tuple[int, ...], has_path: bool) -> tuple[tuple[int, ...], bytes | None]:
    """Numbers of the given sizes, big-endian, and then the path if there is one. Refused with 20 if n does not fit."""
    needed = sum(sizes)
    if len(rest) < needed or (len(rest) > needed and not has_path):
        raise Refusal(20)
    numbers = []
    at = 0
    for size in sizes:
        numbers.append(int.from_bytes(rest[at : at + size], "big"))
        at += size
    return tuple(numbers), rest[at:] if has_path else None
