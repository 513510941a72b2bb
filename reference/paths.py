"""Paths (RULES.md, section 6)."""

from __future__ import annotations

LONGEST = 255


def is_well_formed(path: bytes) -> bool:
    """`path.form`"""
    return (
        1 <= len(path) <= LONGEST
        and path.startswith(b"/")
        and b"\0" not in path
        and b"//" not in path
        and (path == b"/" or not path.endswith(b"/"))
    )


def parent(path: bytes) -> bytes | None:
    """`path.parent`: of a well-formed path the part before its last slash, or `/` if that is empty; `/` has none."""
    if path == b"/":
        return None
    above = path[: path.rindex(b"/")]
    return above if above else b"/"
