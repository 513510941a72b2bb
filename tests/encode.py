"""Logs from fields: the other way round of `log.fields` (RULES.md, section 10)."""

from __future__ import annotations


def framed(body: bytes) -> bytes:
    """A record of these bytes, behind its length."""
    return len(body).to_bytes(2, "big") + body


def birth(process: int, parent: int, target: int) -> bytes:
    return framed(b"B" + word(process) + word(parent) + target.to_bytes(2, "big"))


def make(process: int) -> bytes:
    return framed(b"M" + word(process))


def target(process: int, prerequisites: list[int]) -> bytes:
    listed = b"".join(prerequisite.to_bytes(2, "big") for prerequisite in prerequisites)
    return framed(b"T" + word(process) + bytes([len(prerequisites)]) + listed)


def death(process: int) -> bytes:
    return framed(b"D" + word(process))


def read(process: int, device: int, inode: int, path: bytes) -> bytes:
    return framed(b"R" + word(process) + word(device) + inode.to_bytes(8, "big") + path)


def write(process: int, device: int, inode: int, path: bytes) -> bytes:
    return framed(b"W" + word(process) + word(device) + inode.to_bytes(8, "big") + path)


def exists(process: int, path: bytes) -> bytes:
    return framed(b"K" + word(process) + path)


def removal(process: int, device: int, inode: int, last: int, path: bytes) -> bytes:
    return framed(b"U" + word(process) + word(device) + inode.to_bytes(8, "big") + bytes([last]) + path)


def post(process: int, flag: int) -> bytes:
    return framed(b"F" + word(process) + bytes([flag]))


def await_flag(process: int, flag: int) -> bytes:
    return framed(b"A" + word(process) + bytes([flag]))


def word(number: int) -> bytes:
    return number.to_bytes(4, "big")


VERSION = b"\x01"


def log(records: list[bytes]) -> bytes:
    return VERSION + b"".join(records)
