#!/usr/bin/env python3
"""Tests of log.py: round trips, each refusal, each mistake, the command, and the files of examples/.

Run it as `python3 tools/test_log.py`. The expected bytes and lines are worked out by hand from docs/RULES.md.
"""

from __future__ import annotations

import subprocess
import sys
import unittest
from pathlib import Path

sys.path.insert(0, str(Path(__file__).parent))
import log  # noqa: E402

ROOT = Path(__file__).resolve().parent.parent
TOOL = ROOT / "tools" / "log.py"

# A record of each letter: the text after the place, and the record's bytes in hex, its length first.
RECORDS = [
    ("B 10 0 3", "000b 42 0000000a 00000000 0003"),
    ("M 9", "0005 4d 00000009"),
    ("T 10 0", "0006 54 0000000a 00"),
    ("T 10 2 1 300", "000a 54 0000000a 02 0001 012c"),
    ("D 4294967295", "0005 44 ffffffff"),
    ("R 11 1 50 /b", "0013 52 0000000b 00000001 0000000000000032 2f62"),
    ("W 11 2 18446744073709551615 /", "0012 57 0000000b 00000002 ffffffffffffffff 2f"),
    ("K 12 /b", "0007 4b 0000000c 2f62"),
    ("U 11 1 50 1 /t", "0014 55 0000000b 00000001 0000000000000032 01 2f74"),
    ("F 11 32", "0006 46 0000000b 20"),
    ("A 12 255", "0006 41 0000000c ff"),
    ("K 5 ", "0005 4b 00000005"),
    ("R 5 0 0 ", "0011 52 00000005 00000000 0000000000000000"),
    ("U 5 0 0 0 ", "0012 55 00000005 00000000 0000000000000000 00"),
    (r"K 1 /a\x20b\x5c\x00\x7f\xff~!", "000f 4b 00000001 2f6120625c007fff7e21"),
]


class RoundTrips(unittest.TestCase):
    def test_each_letter(self) -> None:
        for text, record in RECORDS:
            with self.subTest(text):
                data = b"\x01" + bytes.fromhex(record)
                self.assertEqual(log.encode(text.encode()), data)
                self.assertEqual(log.decode(data), f"1 {text}\nE 1\n")

    def test_places_and_count(self) -> None:
        data = b"\x01" + b"".join(bytes.fromhex(record) for _, record in RECORDS[:4])
        listed = "1 B 10 0 3\n14 M 9\n21 T 10 0\n29 T 10 2 1 300\nE 4\n"
        self.assertEqual(log.decode(data), listed)
        self.assertEqual(log.encode(listed.encode()), data)

    def test_no_record(self) -> None:
        self.assertEqual(log.encode(b""), b"\x01")
        self.assertEqual(log.decode(b"\x01"), "E 0\n")

    def test_longest(self) -> None:
        targets = " ".join(["7"] * 255)
        self.assertEqual(log.decode(log.encode(f"T 1 255 {targets}".encode())), f"1 T 1 255 {targets}\nE 1\n")
        path = "/" + "x" * (65535 - 6)
        self.assertEqual(log.decode(log.encode(f"K 1 {path}".encode())), f"1 K 1 {path}\nE 1\n")


class Refusals(unittest.TestCase):
    def check(self, data: str, last_line: str) -> None:
        """The log of these bytes, in hex, is listed with this last line."""
        with self.subTest(data):
            self.assertEqual(log.decode(bytes.fromhex(data)).splitlines()[-1], last_line)

    def test_version(self) -> None:
        self.check("", "X 17 0")
        self.check("00", "X 17 0")
        self.check("02 0005 4d 00000009", "X 17 0")

    def test_cut(self) -> None:
        self.check("01 00", "X 18 1")
        self.check("01 0005", "X 18 1")
        self.check("01 0005 4d 000000", "X 18 1")
        self.check("01 0005 4d 00000009 00", "X 18 8")
        self.check("01 ffff 5a", "X 18 1")  # before the letter is looked at

    def test_letter(self) -> None:
        self.check("01 0001 5a", "X 19 1")
        self.check("01 0001 6d", "X 19 1")
        self.check("01 0005 4d 00000009 0005 45 00000009", "X 19 8")

    def test_zero_length(self) -> None:
        self.check("01 0000", "X 20 1")
        self.check("01 0000 ff", "X 20 1")

    def test_each_length(self) -> None:
        for text, record in RECORDS:
            body = bytes.fromhex(record)[2:]
            for length in self.unfit_lengths(text[0], len(body)):
                with self.subTest(text, length=length):
                    changed = (body + b"\0")[:length]
                    data = b"\x01" + length.to_bytes(2, "big") + changed
                    self.assertEqual(log.decode(data), "X 20 1\n")

    @staticmethod
    def unfit_lengths(letter: str, length: int) -> list[int]:
        """Lengths that do not fit: one below the least, and, for a letter without a path, one above."""
        least = {"R": 17, "W": 17, "K": 5, "U": 18}.get(letter)
        return [least - 1] if least else [length - 1, length + 1]

    def test_last(self) -> None:
        self.check("01 0013 55 0000000b 00000001 0000000000000032 02 2f", "X 20 1")

    def test_records_before_it_are_listed(self) -> None:
        self.assertEqual(log.decode(bytes.fromhex("01 0005 4d 00000009 0000")), "1 M 9\nX 20 8\n")


class Comfort(unittest.TestCase):
    def test_comments_and_places(self) -> None:
        text = b"# a comment\n\n  M  9\n77 D 9 \nE 5\n\n# the end\n"
        self.assertEqual(log.encode(text), bytes.fromhex("01 0005 4d 00000009 0005 44 00000009"))

    def test_version_and_raw(self) -> None:
        self.assertEqual(log.encode(b"version 2\nraw 00 05 4d\nraw\n"), bytes.fromhex("02 0005 4d"))

    def test_bytes_of_a_path(self) -> None:
        self.assertEqual(log.encode("K 1 /\\xC3\\xa9é#".encode()), bytes.fromhex("01 000b 4b 00000001 2fc3a9c3a923"))


class Mistakes(unittest.TestCase):
    TEXTS = [
        (b"Z 1", "no record has the letter 'Z'"),
        (b"5", "no record has the letter ''"),
        (b"m 1", "no record has the letter 'm'"),
        (b"B 1 2", "B lacks its target"),
        (b"M", "M lacks its process"),
        (b"M 1 2", "M has 1 more words after its process, and should have 0"),
        (b"M x", "the process 'x' is not a number"),
        (b"M -1", "the process '-1' is not a number"),
        (b"M 4294967296", "the process 4294967296 is above 4294967295"),
        (b"B 1 0 65536", "the target 65536 is above 65535"),
        (b"F 1 256", "the flag 256 is above 255"),
        (b"T 1 2 1", "T has 1 more words after its count, and should have 2"),
        (b"T 1 1 65536", "the target 65536 is above 65535"),
        (b"R 1 1 18446744073709551616 /", "the inode 18446744073709551616 is above 18446744073709551615"),
        (b"U 1 1 1 2 /", "the last 2 is above 1"),
        (b"K 1", "K lacks its path"),
        (b"K 1 /a b", "K has a word after its path"),
        (b"K 1 /a\\b", "the path has '\\\\' at its byte 3: write it as \\x5c"),
        (b"K 1 /a\t", "the path has '\\t' at its byte 3: write it as \\x09"),
        (b"K 1 /" + b"x" * 65530, "the record has 65536 bytes"),
        (b"M 1\nversion 1", "`version` stands before everything else"),
        (b"version 256", "the version 256 is above 255"),
        (b"version", "`version` takes one number"),
        (b"raw 5", "`raw` takes bytes of two hex digits"),
        (b"E x", "`E` takes one number, or none"),
        (b"E 0\nM 1", "a line after the last one, `E`"),
        (b"X 18 1", "this log was refused here"),
    ]

    def test_each(self) -> None:
        for text, message in self.TEXTS:
            with self.subTest(text[:40]):
                with self.assertRaises(log.Mistake) as caught:
                    log.encode(text, "name")
                line = text.count(b"\n") + 1
                self.assertIn(f"name:{line}: {message}", str(caught.exception))


class Command(unittest.TestCase):
    def run_tool(self, *words: str, data: bytes = b"") -> subprocess.CompletedProcess[bytes]:
        return subprocess.run([sys.executable, str(TOOL), *words], input=data, capture_output=True, check=False)

    def test_streams(self) -> None:
        ended = self.run_tool("encode", data=b"M 9\n")
        self.assertEqual((ended.returncode, ended.stdout), (0, bytes.fromhex("01 0005 4d 00000009")))
        ended = self.run_tool("decode", "-", "-", data=b"\x01\x00")
        self.assertEqual((ended.returncode, ended.stdout), (0, b"X 18 1\n"))

    def test_mistake(self) -> None:
        ended = self.run_tool("encode", data=b"M 9\nM\n")
        self.assertEqual((ended.returncode, ended.stdout), (1, b""))
        self.assertEqual(ended.stderr, b"standard input:2: M lacks its process\n")

    def test_file_that_is_not_there(self) -> None:
        ended = self.run_tool("decode", "/nowhere/at/all")
        self.assertEqual((ended.returncode, ended.stdout), (1, b""))

    def test_usage(self) -> None:
        for words in ([], ["list"], ["encode", "a", "b", "c"]):
            self.assertEqual(self.run_tool(*words).returncode, 2)


class Examples(unittest.TestCase):
    """The stored files of examples/ agree with one another."""

    def test_each(self) -> None:
        texts = sorted((ROOT / "examples").rglob("*.txt"))
        self.assertTrue(texts)
        for text in texts:
            with self.subTest(text.name):
                stored = text.with_suffix(".log").read_bytes()
                self.assertEqual(log.encode(text.read_bytes()), stored)
                self.assertEqual(log.decode(stored), text.with_suffix(".list.expected").read_text())

    def test_what_is_listed_can_be_encoded(self) -> None:
        for listed in sorted((ROOT / "examples").rglob("*.list.expected")):
            text = listed.read_bytes()
            if b"\nX " in text or text.startswith(b"X "):
                continue
            with self.subTest(listed.name):
                stored = listed.with_name(listed.name.replace(".list.expected", ".log"))
                self.assertEqual(log.encode(text), stored.read_bytes())


if __name__ == "__main__":
    unittest.main()
