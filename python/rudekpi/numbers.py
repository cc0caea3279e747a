"""Numbers of the program's lines, and their limits."""

from __future__ import annotations

from operator import index
from typing import SupportsIndex

MOST_NODES, MOST_EDGES, MOST_TURNS, MOST_SEED = 65_535, 1_048_576, 1_000_000, 2**64 - 1
MOST_ENTRIES = 16_777_216


def counted(count: int, one: str, more: str = "") -> str:
    """A count with its noun: `one` for 1, else `more`, by default `one` with an s."""
    return f"{count} {one if count == 1 else more or one + 's'}"


def number_within(given: SupportsIndex, most: int, what: str) -> int:
    """A whole number from 0 to `most`. Raises `TypeError` or `ValueError` for anything else."""
    try:
        number = int(index(given))  # before Python 3.10 the index of True is True
    except TypeError:
        raise TypeError(f"{what} is a whole number, and not {given!r}") from None
    if not 0 <= number <= most:
        raise ValueError(f"{what} is 0 to {most}, and not {number}")
    return number
