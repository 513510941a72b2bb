#!/usr/bin/env python3
"""Runs the worked cases and the examples of RULES.md through the reference tools.

    worked.py

The cases of section 16 are taken from RULES.md itself: the listing is turned into a log, the log is listed and run, and
both must come out as the page says. Where examples/cases/NAME.log exists it must be that log, byte for byte. The examples of
make.before, flags.example, path.parent and lister.path are written out below.
"""

from __future__ import annotations

import re
import sys
from pathlib import Path

ROOT = Path(__file__).resolve().parent.parent
sys.path.insert(0, str(ROOT))

from reference import paths, tools  # noqa: E402
from reference.detector import Detector, Read, Write  # noqa: E402
from reference.orders import (  # noqa: E402
    Await,
    Birth,
    Death,
    Event,
    Flags,
    Make,
    MakeOrder,
    Post,
    Target,
    Timestamp,
)
from reference.promises import broken_promises  # noqa: E402
from reference.refusal import Refusal  # noqa: E402
from tests import encode  # noqa: E402

faults: list[str] = []


def expect(what: str, found: object, wanted: object) -> None:
    print(("ok    " if found == wanted else "FAULT ") + what)
    if found != wanted:
        faults.append(f"{what}: found {found!r}, wanted {wanted!r}")


# Section 16


def encoded(listing: str) -> bytes:
    """A log from the lister's lines."""
    records = []
    for line in listing.splitlines():
        _, letter, *fields = line.split(" ")
        if letter in "BMDFA":
            call = {"B": encode.birth, "M": encode.make, "D": encode.death, "F": encode.post, "A": encode.await_flag}
            records.append(call[letter](*map(int, fields)))  # type: ignore[operator]
        elif letter == "T":
            records.append(encode.target(int(fields[0]), [int(field) for field in fields[2:]]))
        else:
            call = {"R": encode.read, "W": encode.write, "K": encode.exists, "U": encode.removal}
            *numbers, path = fields
            records.append(call[letter](*map(int, numbers), path.encode("ascii")))  # type: ignore[operator]
    return encode.log(records)


def run_cases(rules: str) -> None:
    section = rules[rules.index("## 16. Worked cases") :]
    for case in re.split(r"^### ", section, flags=re.M)[1:]:
        name = case.split(":")[0]
        listing, printed = re.findall(r"```text\n(.*?)```", case, flags=re.S)
        told = re.search(r"^(Both tools|The make tool|The stage tool) prints?$", case, flags=re.M)
        assert told is not None
        *records, _ = listing.splitlines()
        log = encoded("\n".join(records))
        given = ROOT / "examples" / "cases" / f"{name}.log"
        if given.exists():
            expect(f"{name}: the log", given.read_bytes(), log)
        expect(f"{name}: listed", tools.lister(log).decode(), listing)
        programs = {
            "Both tools": {"make": tools.make_tool, "stage": tools.stage_tool, "session": tools.session_tool},
            "The make tool": {"make": tools.make_tool, "session": tools.session_tool},
            "The stage tool": {"stage": tools.stage_tool},
        }[told.group(1)]
        for tool, program in programs.items():
            output = program(log)
            expect(f"{name}: {tool} tool", output.decode(), printed)
            expect(f"{name}: promises of the {tool} tool", broken_promises(tool, log, output), [])


def run_case02_questions() -> None:
    detector = Detector(Flags(MakeOrder()))
    log = (ROOT / "examples" / "cases" / "case02.log").read_bytes()
    for record in tools.Reader(log).records():
        tools.take(record, detector)
    expect("case02: generation 1", detector.ask_generation(1), (7, 10))
    expect("case02: generation 2", detector.ask_generation(2), None)
    held = {path: (detector.ask_path(path), detector.ask_directory(path)) for path in detector.paths}
    clean = (None, None)
    expect("case02: paths and directories", held, {b"/b/ops": clean, b"/b/vm": clean, b"/b": clean})


# make.example

EXAMPLE: list[Event] = [
    Birth(10, 0, 0),
    Make(10),
    Target(10, ()),
    Target(10, ()),
    Target(10, (1,)),
    Birth(11, 10, 1),
    Death(11),
    Birth(12, 10, 2),
    Birth(13, 10, 2),
    Death(12),
    Birth(14, 10, 2),
    Birth(15, 10, 3),
    Birth(20, 15, 0),
    Make(20),
    Target(20, ()),
    Birth(21, 15, 0),
    Make(21),
    Target(21, ()),
    Birth(30, 20, 1),
    Death(30),
    Death(20),
    Birth(31, 21, 1),
]

# a, its number or none for every number; b, its number or none for every later one; a before b?
ROWS: list[tuple[str, int | None, str, int | None, bool]] = [
    ("S6", None, "S12", None, True),
    ("S6", None, "S22", None, True),
    ("S6", None, "S8", None, False),
    ("S8", None, "S11", None, True),
    ("S8", None, "S9", None, False),
    ("S19", None, "S22", None, True),
    ("S12", 18, "S19", None, True),
    ("S12", 20, "S22", None, True),
    ("S12", 20, "S19", 21, False),
    ("S19", 19, "S12", 20, False),
    ("S19", 19, "S12", 22, True),
    ("session", 5, "S6", None, True),
    ("session", 7, "S8", None, False),
    ("S6", None, "session", None, False),
]


def run_make_example() -> None:
    order = MakeOrder()
    for event in EXAMPLE:
        order.tell(event)
    place = {"session": 0} | {f"S{step.started}": step.count for step in order.steps}
    expect("make.example: steps", {name: order.steps[at - 1].ended for name, at in place.items() if at > 0},
           {"S6": 7, "S8": 10, "S9": None, "S11": None, "S12": None, "S19": 20, "S22": None})  # fmt: skip
    makes = [(make.own.process, make.started, make.ended) for make in order.makes]
    expect("make.example: makes", makes, [(10, 6, None), (20, 19, 21), (21, 22, None)])
    numbers = range(1, order.number + 1)
    for name_a, number_a, name_b, number_b, wanted in ROWS:
        answers = {
            order.before(Timestamp(a, place[name_a]), Timestamp(b, place[name_b]))
            for a in ([number_a] if number_a is not None else numbers)
            for b in ([number_b] if number_b is not None else numbers)
            if a < b
        }
        expect(f"make.example: {name_a} {number_a or ''} before {name_b} {number_b or 'later'}", answers, {wanted})


# The others


def run_flags_example() -> None:
    """Three processes at unrelated places, as in flags.example; 1 to 8 are the births, the make and the targets."""
    detector = Detector(Flags(MakeOrder()))
    for event in [Birth(10, 0, 0), Make(10), Target(10, ()), Target(10, ()), Target(10, ()),
                  Birth(11, 10, 1), Birth(12, 10, 2), Birth(13, 10, 3)]:  # fmt: skip
        detector.tell(event)
    write = detector.take_ticket(11)
    detector.enter(write, Write(1, 50, b"/x"))
    for event in [Post(11, 1), Await(12, 1), Post(12, 2), Await(13, 2)]:
        detector.tell(event)
    read = detector.take_ticket(13)
    detector.enter(read, Read(1, 50, b"/x"))
    late_write, late_read = detector.take_ticket(11), detector.take_ticket(13)
    numbers = (write.number, read.number, late_write.number, late_read.number)
    expect("flags.example: numbers", numbers, (9, 14, 15, 16))
    expect("flags.example: 9 before 14", detector.order.before(write, read), True)
    expect("flags.example: 15 before 16", detector.order.before(late_write, late_read), False)


def run_paths() -> None:
    for path, parent in [(b"/b/ops", b"/b"), (b"/b", b"/"), (b"/", None), (b"/b/..", b"/b")]:
        expect(f"path.parent: {path!r}", (paths.is_well_formed(path), paths.parent(path)), (True, parent))
    for path in (b"", b"b/ops", b"/b//ops", b"/b/", b"/\0", b"//", b"/" + 255 * b"x"):
        expect(f"path.form: {path[:8]!r} is malformed", paths.is_well_formed(path), False)


def run_lister() -> None:
    log = bytes([1, 0, 5, 77, 0, 0, 0, 9, 0, 8, 75, 0, 0, 0, 12, 47, 98, 32])
    expect("lister: its example", tools.lister(log), b"1 M 9\n8 K 12 /b\\x20\nE 2\n")
    expect("lister: an empty log", tools.lister(b""), b"X 17 0\n")


def run_detector_calls() -> None:
    """12, 13, 14, 15 and 16, which the tools cannot print or not all."""
    detector = Detector(Flags(MakeOrder()))
    detector.tell(Birth(1, 0, 0))
    first, second = detector.take_ticket(1), detector.take_ticket(1)
    detector.tell(Death(1))

    def refused(call: object, *arguments: object) -> int:
        try:
            call(*arguments)  # type: ignore[operator]
        except Refusal as refusal:
            return refusal.number
        return 0

    expect("entry.checks: unknown", refused(detector.enter, Timestamp(99, 0), Read(1, 1, b"")), 12)
    expect("entry.checks: malformed", refused(detector.enter, second, Read(1, 1, b"")), 14)
    expect("entry.checks: of a dead process", refused(detector.enter, second, Read(1, 1, b"/")), 0)
    expect("entry.checks: too late", refused(detector.enter, first, Read(1, 1, b"")), 13)
    expect("verdict.ask: held", refused(detector.ask_path, b"/"), 0)
    expect("verdict.ask: not held", refused(detector.ask_path, b"/a"), 16)
    expect("verdict.ask: serial 0", refused(detector.ask_generation, 0), 16)


def main() -> int:
    run_cases((ROOT / "docs" / "RULES.md").read_text())
    run_case02_questions()
    run_make_example()
    run_flags_example()
    run_paths()
    run_lister()
    run_detector_calls()
    for fault in faults:
        print(fault)
    return 1 if faults else 0


if __name__ == "__main__":
    sys.exit(main())
