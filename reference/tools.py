"""The tools and the lister (RULES.md, sections 11 and 12): bytes in, bytes out."""

from __future__ import annotations

import sys
from collections.abc import Callable

from reference.detector import Detector, Entry, Exists, Read, Removal, Write
from reference.orders import Await, Birth, Death, Event, Flags, Make, MakeOrder, Order, Post, StageOrder, Target
from reference.reader import Reader, Record
from reference.refusal import Refusal

LONGEST_LOG = 32_768

Program = Callable[[bytes], bytes]


def make_tool(log: bytes) -> bytes:
    """`tool.orders`: flags over the make order"""
    return run(log, Flags(MakeOrder()), LONGEST_LOG)


def stage_tool(log: bytes) -> bytes:
    """`tool.orders`: the stage order alone"""
    return run(log, StageOrder(), LONGEST_LOG)


def session_tool(log: bytes) -> bytes:
    """`tool.session`: the make tool without the limit"""
    return run(log, Flags(MakeOrder()), None)


def lister(log: bytes) -> bytes:
    """Section 11"""
    lines: list[str] = []
    try:
        reader = Reader(log)
    except Refusal as refusal:
        return printed([f"X {refusal.number} 0"])
    try:
        for record in reader.records():
            lines.append(listed(record))
        lines.append(f"E {len(lines)}")
    except Refusal as refusal:
        lines.append(f"X {refusal.number} {reader.place}")
    return printed(lines)


def listed(record: Record) -> str:
    """`lister.line`, `lister.path`"""
    fields = [str(record.place), record.letter, *(str(number) for number in record.numbers)]
    if record.path is not None:
        fields.append("".join(listed_byte(byte) for byte in record.path))
    return " ".join(fields)


def listed_byte(byte: int) -> str:
    if byte < 33 or byte > 126 or byte == ord("\\"):
        return f"\\x{byte:02x}"
    return chr(byte)


def run(log: bytes, order: Order, longest: int | None) -> bytes:
    """`tool.input`, `tool.end`: a log over a detector on the given order"""
    if longest is not None and len(log) > longest:
        return printed(["X 21 0"])
    try:
        reader = Reader(log)
    except Refusal as refusal:
        return printed([f"X {refusal.number} 0"])
    detector = Detector(order)
    lines: list[str] = []
    while True:
        place = reader.place
        try:
            record = reader.next()
            if record is None:
                break
            lines.extend(take(record, detector))
        except Refusal as refusal:
            return printed([*lines, f"X {refusal.number} {place}"])
    totals = detector.totals
    return printed([*lines, f"E {totals.entries} {totals.checks} {totals.races}"])


def take(record: Record, detector: Detector) -> list[str]:
    """`tool.event`, `tool.access`, `tool.lines`: the lines that one record brings"""
    event = event_of(record)
    if event is not None:
        detector.tell(event)
        return []
    ticket = detector.take_ticket(record.numbers[0])
    answer = detector.enter(ticket, entry_of(record))
    shown = [("C", answer.generation), ("P", answer.path), ("D", answer.directory)]
    return [f"{letter} {earlier} {ticket.number}" for letter, earlier in shown if earlier != 0]


def event_of(record: Record) -> Event | None:
    """The event that a record tells; none for an access."""
    numbers = record.numbers
    match record.letter:
        case "B":
            return Birth(*numbers)
        case "M":
            return Make(*numbers)
        case "T":
            return Target(numbers[0], numbers[2:])
        case "D":
            return Death(*numbers)
        case "F":
            return Post(*numbers)
        case "A":
            return Await(*numbers)
    return None


def entry_of(record: Record) -> Entry:
    """The entry of a record that is an access, without its process."""
    path = record.path
    assert path is not None
    match record.letter, record.numbers:
        case "R", (_, device, inode):
            return Read(device, inode, path)
        case "W", (_, device, inode):
            return Write(device, inode, path)
        case "K", (_,):
            return Exists(path)
        case "U", (_, device, inode, last):
            return Removal(device, inode, last == 1, path)
    raise AssertionError(record.letter)


def printed(lines: list[str]) -> bytes:
    return "".join(line + "\n" for line in lines).encode("ascii")


def main(program: Program) -> None:
    """Reads standard input and prints. The status is 0 (`tool.status`)."""
    sys.stdout.buffer.write(program(sys.stdin.buffer.read()))
