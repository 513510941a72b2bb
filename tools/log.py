#!/usr/bin/env python3
"""Turns text into a log, and a log into text.

    tools/log.py encode [TEXT [LOG]]
    tools/log.py decode [LOG [TEXT]]

Standard input and output stand in for a file that is left out or is "-". The log and the text are those of docs/RULES.md ("The log",
"The lister"): `decode` writes exactly what the lister prints. `encode` takes the lister's text, and for writing by hand also this:

- The place at the start of a line may be left out, and so may the last line, `E count`. Where they stand they are not compared.
- Blank lines and lines that begin with `#` are skipped. Fields may have more than one space between them.
- `version N`, before everything else, sets the version byte, which is 1 otherwise.
- `raw HH HH ..` adds these bytes just as they are. Damaged logs are written with it.

A path is the last field. In it `\\xHH` is a byte in hex, and a space or a backslash can be written only so. An empty path is a line that
ends with the space before it. Exit status: 0 done, 1 a mistake in the text or a file that cannot be used, 2 wrong usage.
"""

from __future__ import annotations

import argparse
import re
import sys
from collections.abc import Iterator
from dataclasses import dataclass
from enum import Enum

VERSION = 1
LONGEST_RECORD = 0xFFFF
TARGET_WIDTH = 2
MOST_DIGITS = 20  # of a number of 8 bytes

BAD_VERSION = 17
CUT = 18
UNKNOWN_LETTER = 19
UNFIT = 20


# ---------------------------------------------------------------------------------------------------------------------------------
# The layout of the records


@dataclass(frozen=True)
class Field:
    """A number of a record: its name, its bytes (big-endian), and a limit where it has one below what the bytes can hold."""

    name: str
    width: int
    limit: int | None = None

    @property
    def most(self) -> int:
        return 256**self.width - 1 if self.limit is None else self.limit


class Tail(Enum):
    """What follows the fields that every record of a letter has."""

    NOTHING = "nothing"
    TARGETS = "targets"
    PATH = "path"


@dataclass(frozen=True)
class Layout:
    """What stands in a record after its letter."""

    fields: tuple[Field, ...]
    tail: Tail = Tail.NOTHING

    @property
    def size(self) -> int:
        """The bytes of the letter and the fields: the least length of such a record."""
        return 1 + sum(field.width for field in self.fields)


PROCESS = Field("process", 4)
ACCESS = (PROCESS, Field("device", 4), Field("inode", 8))
SIGNAL = (PROCESS, Field("flag", 1))

LAYOUTS: dict[str, Layout] = {
    "B": Layout((PROCESS, Field("parent", 4), Field("target", TARGET_WIDTH))),
    "M": Layout((PROCESS,)),
    "T": Layout((PROCESS, Field("count", 1)), Tail.TARGETS),
    "D": Layout((PROCESS,)),
    "R": Layout(ACCESS, Tail.PATH),
    "W": Layout(ACCESS, Tail.PATH),
    "K": Layout((PROCESS,), Tail.PATH),
    "U": Layout((*ACCESS, Field("last", 1, limit=1)), Tail.PATH),
    "F": Layout(SIGNAL),
    "A": Layout(SIGNAL),
}


@dataclass(frozen=True)
class Record:
    """A record's letter, the numbers of its fields, and what its layout's tail has: targets, a path, or nothing."""

    letter: str
    numbers: tuple[int, ...]
    targets: tuple[int, ...] = ()
    path: bytes = b""


# ---------------------------------------------------------------------------------------------------------------------------------
# From a log to text


class Refusal(Exception):
    """The log is refused, with a number and the place of the record."""

    def __init__(self, number: int, place: int) -> None:
        super().__init__(f"X {number} {place}")
        self.number = number
        self.place = place


def decode(log: bytes) -> str:
    """What the lister prints for the log."""
    lines: list[str] = []
    try:
        for place, record in read_log(log):
            lines.append(f"{place} {shown(record)}")
        lines.append(f"E {len(lines)}")
    except Refusal as refusal:
        lines.append(f"X {refusal.number} {refusal.place}")
    return "".join(f"{line}\n" for line in lines)


def read_log(log: bytes) -> Iterator[tuple[int, Record]]:
    """The places and records of a log, up to its end or its first refusal."""
    if not log or log[0] != VERSION:
        raise Refusal(BAD_VERSION, 0)
    place = 1
    while place < len(log):
        body = read_body(log, place)
        yield place, read_record(body, place)
        place += 2 + len(body)


def read_body(log: bytes, place: int) -> bytes:
    """The bytes that the length at this place counts."""
    start = place + 2
    if start > len(log):
        raise Refusal(CUT, place)
    length = int.from_bytes(log[place:start], "big")
    if length == 0:
        raise Refusal(UNFIT, place)
    if start + length > len(log):
        raise Refusal(CUT, place)
    return log[start : start + length]


def read_record(body: bytes, place: int) -> Record:
    """The record that these bytes are."""
    letter = chr(body[0])
    layout = LAYOUTS.get(letter)
    if layout is None:
        raise Refusal(UNKNOWN_LETTER, place)
    if len(body) < layout.size:
        raise Refusal(UNFIT, place)
    numbers = split_numbers(body[1 : layout.size], [field.width for field in layout.fields])
    rest = body[layout.size :]
    if not fits(layout, numbers, rest):
        raise Refusal(UNFIT, place)
    if layout.tail is Tail.TARGETS:
        return Record(letter, numbers, targets=split_numbers(rest, [TARGET_WIDTH] * numbers[-1]))
    return Record(letter, numbers, path=rest)


def split_numbers(data: bytes, widths: list[int]) -> tuple[int, ...]:
    """Big-endian numbers of these widths, one after the other."""
    numbers = []
    at = 0
    for width in widths:
        numbers.append(int.from_bytes(data[at : at + width], "big"))
        at += width
    return tuple(numbers)


def fits(layout: Layout, numbers: tuple[int, ...], rest: bytes) -> bool:
    """Whether the numbers are in their range and the rest is as long as the layout wants it."""
    if any(number > field.most for number, field in zip(numbers, layout.fields)):
        return False
    if layout.tail is Tail.PATH:
        return True
    count = numbers[-1] if layout.tail is Tail.TARGETS else 0
    return len(rest) == TARGET_WIDTH * count


def shown(record: Record) -> str:
    """The record's letter and fields, one space between."""
    words = [record.letter, *(str(number) for number in record.numbers + record.targets)]
    if LAYOUTS[record.letter].tail is Tail.PATH:
        words.append(escaped(record.path))
    return " ".join(words)


def escaped(path: bytes) -> str:
    """The path in visible characters, one word."""
    return "".join(chr(byte) if 33 <= byte <= 126 and byte != ord("\\") else f"\\x{byte:02x}" for byte in path)


# ---------------------------------------------------------------------------------------------------------------------------------
# From text to a log


class Mistake(Exception):
    """The text is wrong, as the message says."""


def encode(text: bytes, name: str = "text") -> bytes:
    """The log that the text describes. A mistake's message begins with the name and the number of the line."""
    encoder = Encoder()
    for number, line in enumerate(text.decode("latin-1").split("\n"), 1):
        try:
            encoder.add_line(line)
        except Mistake as mistake:
            raise Mistake(f"{name}:{number}: {mistake}") from None
    return encoder.log()


class Encoder:
    """A log in the making."""

    def __init__(self) -> None:
        self.version = VERSION
        self.records = bytearray()
        self.begun = False
        self.ended = False

    def log(self) -> bytes:
        return bytes([self.version]) + self.records

    def add_line(self, line: str) -> None:
        """Adds what one line of the text says."""
        line = line.lstrip(" ")
        if not line or line.startswith("#"):
            return
        if self.ended:
            raise Mistake("a line after the last one, `E`")
        self.add_words(re.split(" +", line))
        self.begun = True

    def add_words(self, words: list[str]) -> None:
        """Adds a line that is not blank, by its first word."""
        if words[0] == "version":
            self.set_version(words[1:])
        elif words[0] == "raw":
            self.records += parse_bytes(words[1:])
        elif words[0] == "E":
            self.end(words[1:])
        elif words[0] == "X":
            raise Mistake("this log was refused here, and the text lacks the refused bytes: delete the line to keep the records above it")
        else:
            record = parse_record(words[1:] if is_number(words[0]) else words)
            self.records += record_bytes(record)

    def end(self, words: list[str]) -> None:
        if len(words) > 1 or not all(is_number(word) for word in words):
            raise Mistake("`E` takes one number, or none")
        self.ended = True

    def set_version(self, words: list[str]) -> None:
        if self.begun:
            raise Mistake("`version` stands before everything else")
        if len(words) != 1:
            raise Mistake("`version` takes one number")
        self.version = parse_number(words[0], Field("version", 1))


def parse_record(words: list[str]) -> Record:
    """The record that a line's words name, from the letter on."""
    letter = words[0] if words else ""
    layout = LAYOUTS.get(letter)
    if layout is None:
        raise Mistake(f"no record has the letter {letter!r}: there are {' '.join(LAYOUTS)}")
    words = words[1:]
    if layout.tail is not Tail.PATH and words and words[-1] == "":
        words = words[:-1]
    fixed = len(layout.fields)
    if len(words) < fixed:
        raise Mistake(f"{letter} lacks its {layout.fields[len(words)].name}")
    numbers = tuple(parse_number(word, field) for word, field in zip(words, layout.fields))
    return with_tail(letter, layout, numbers, words[fixed:])


def with_tail(letter: str, layout: Layout, numbers: tuple[int, ...], words: list[str]) -> Record:
    """The record whose fields are read, with what the words after them say."""
    if layout.tail is Tail.PATH:
        if not words:
            raise Mistake(f"{letter} lacks its path (an empty path is a line that ends with the space before it)")
        if len(words) > 1:
            raise Mistake(f"{letter} has a word after its path: write a space in a path as \\x20")
        return Record(letter, numbers, path=parse_path(words[0]))
    count = numbers[-1] if layout.tail is Tail.TARGETS else 0
    if len(words) != count:
        raise Mistake(f"{letter} has {len(words)} more words after its {layout.fields[-1].name}, and should have {count}")
    target = Field("target", TARGET_WIDTH)
    return Record(letter, numbers, targets=tuple(parse_number(word, target) for word in words))


def is_number(word: str) -> bool:
    return re.fullmatch("[0-9]+", word) is not None


def parse_number(word: str, field: Field) -> int:
    """A field's number in base ten, in its range."""
    if not is_number(word):
        raise Mistake(f"the {field.name} {word!r} is not a number")
    if len(word) > MOST_DIGITS or int(word) > field.most:
        raise Mistake(f"the {field.name} {word} is above {field.most}")
    return int(word)


def parse_bytes(words: list[str]) -> bytes:
    """Bytes in hex, two digits each."""
    for word in words:
        if re.fullmatch("[0-9a-fA-F]{2}", word) is None:
            raise Mistake(f"`raw` takes bytes of two hex digits, and {word!r} is none")
    return bytes(int(word, 16) for word in words)


def parse_path(word: str) -> bytes:
    """A path's bytes. A visible character stands for itself, and so does every byte above 126."""
    path = bytearray()
    at = 0
    for part in re.finditer(r"\\x([0-9a-fA-F]{2})|([^\x00-\x20\\])", word):
        if part.start() != at:
            break
        at = part.end()
        path.append(int(part[1], 16) if part[1] else ord(part[2]))
    if at != len(word):
        raise Mistake(f"the path has {word[at]!r} at its byte {at + 1}: write it as \\x{ord(word[at]):02x}")
    return bytes(path)


def record_bytes(record: Record) -> bytes:
    """The record as it stands in a log, its length first."""
    layout = LAYOUTS[record.letter]
    body = bytearray(record.letter.encode("ascii"))
    for number, field in zip(record.numbers, layout.fields):
        body += number.to_bytes(field.width, "big")
    for target in record.targets:
        body += target.to_bytes(TARGET_WIDTH, "big")
    body += record.path
    if len(body) > LONGEST_RECORD:
        raise Mistake(f"the record has {len(body)} bytes, and its length cannot be above {LONGEST_RECORD}")
    return len(body).to_bytes(2, "big") + bytes(body)


# ---------------------------------------------------------------------------------------------------------------------------------
# The command


def read_input(name: str) -> bytes:
    if name == "-":
        return sys.stdin.buffer.read()
    with open(name, "rb") as file:
        return file.read()


def write_output(name: str, data: bytes) -> None:
    if name == "-":
        sys.stdout.buffer.write(data)
        sys.stdout.buffer.flush()
        return
    with open(name, "wb") as file:
        file.write(data)


def arguments() -> argparse.Namespace:
    parser = argparse.ArgumentParser(description=__doc__, formatter_class=argparse.RawDescriptionHelpFormatter)
    parser.add_argument("command", choices=["encode", "decode"])
    parser.add_argument("input", nargs="?", default="-")
    parser.add_argument("output", nargs="?", default="-")
    return parser.parse_args()


def main() -> int:
    chosen = arguments()
    try:
        data = read_input(chosen.input)
        if chosen.command == "encode":
            data = encode(data, "standard input" if chosen.input == "-" else chosen.input)
        else:
            data = decode(data).encode("ascii")
        write_output(chosen.output, data)
    except (Mistake, OSError) as problem:
        print(problem, file=sys.stderr)
        return 1
    return 0


if __name__ == "__main__":
    sys.exit(main())
