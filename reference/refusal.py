"""Refusals (RULES.md, section 13)."""

from __future__ import annotations


class Refusal(Exception):
    """A call was refused, with a number of the table of refusals. The call has changed nothing (`order.refusal`)."""

    def __init__(self, number: int) -> None:
        super().__init__(f"refused with {number}")
        self.number = number
