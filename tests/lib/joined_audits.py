"""Compares the joined verdicts of a transcript's parts with its verdict on the whole."""

from __future__ import annotations

import ctypes
import re
from typing import Callable, Iterator, Optional, Sequence, Tuple, Union

from .c_structs import Verdict

DONE, BAD_ARGUMENT = 0, 5
ACCEPTED, DAMAGED_LINE, UNJUDGED = 0, 2, 6
BASE = re.compile(rb"^matching2 [^\n]*\nbase \d+ spent=\d+ nodes=(\d+) edges=(\d+)\n", re.M)
FIELDS = ("kind", "entries", "epochs", "moves", "line")
Numbers = Tuple[int, ...]
# the library's call: joins the second verdict, of a text after this many lines, to the first
Join = Callable[[Verdict, ctypes.c_uint64, Verdict], int]
# a part's verdict, and how many lines precede it
Told = Tuple[Numbers, int]


def seams(text: bytes) -> Iterator[tuple[int, int]]:
    """The start and end of each base after the first line, if as many lines are there as its numbers
    require."""
    for found in BASE.finditer(text, 1):
        lines = int(found[1]) + int(found[2])
        behind = text[found.end() :].split(b"\n", lines)
        if len(behind) > lines:
            yield found.start(), len(text) - len(behind[-1])


def numbers(verdict: Verdict) -> Numbers:
    return tuple(getattr(verdict, name) for name in FIELDS)


def joined(join: Join, verdicts: Sequence[Told]) -> Numbers:
    """Raises `ValueError` if they can't be joined."""
    (first, _), *others = verdicts
    whole = Verdict(*first)
    for verdict, lines in others:
        status = join(whole, ctypes.c_uint64(lines), Verdict(*verdict))
        if status != DONE:
            raise ValueError(f"status {status}")
    return numbers(whole)


def joined_backwards(join: Join, verdicts: Sequence[Told]) -> Numbers:
    """The last two first, then the one before them."""
    *others, (whole, before) = verdicts
    for verdict, lines in reversed(others):
        first = Verdict(*verdict)
        status = join(first, ctypes.c_uint64(before - lines), Verdict(*whole))
        if status != DONE:
            raise ValueError(f"status {status}")
        whole, before = numbers(first), lines
    return whole


def differs(join: Join, judge: Callable[[bytes], Numbers], text: bytes) -> Union[str, int]:
    """What is wrong with the joined verdicts of parts, cut at each base; or how many parts there were."""
    cuts = list(seams(text))
    starts, ends = [0, *(start for start, _ in cuts)], [*(end for _, end in cuts), len(text)]
    verdicts = [(judge(text[start:end]), text.count(b"\n", 0, start)) for start, end in zip(starts, ends)]
    wanted = judge(text)
    for way in (joined, joined_backwards):
        found = way(join, verdicts)
        if found != wanted:
            return f"{way.__name__}: {found} of {len(verdicts)} parts, where the whole is {wanted}"
    return len(verdicts)


def at_limits(join: Join) -> Optional[str]:
    """What is wrong with joins of bad verdicts, of too great sums and of unjudged texts; or None."""
    fine, far, unsaid = (ACCEPTED, 1, 1, 1, 0), (DAMAGED_LINE, 0, 0, 0, 9), (UNJUDGED, 0, 0, 0, 0)
    for first, lines, second, status, wanted in (
        (fine, 5, (ACCEPTED, 2, 3, 4, 0), DONE, (ACCEPTED, 3, 3, 5, 0)),
        (fine, 5, far, DONE, (DAMAGED_LINE, 0, 0, 0, 14)),
        (far, 5, fine, DONE, far),
        (far, 5, (3, 0, 0, 0, 1), DONE, far),
        (fine, 5, unsaid, DONE, unsaid),
        (unsaid, 5, far, DONE, unsaid),
        (far, 5, unsaid, DONE, far),
        ((7, 0, 0, 0, 0), 5, fine, BAD_ARGUMENT, (7, 0, 0, 0, 0)),
        (fine, 5, (7, 0, 0, 0, 0), BAD_ARGUMENT, fine),
        ((ACCEPTED, 2**32 - 1, 1, 1, 0), 5, fine, BAD_ARGUMENT, (ACCEPTED, 2**32 - 1, 1, 1, 0)),
        ((ACCEPTED, 1, 2**32 - 1, 1, 0), 5, fine, DONE, (ACCEPTED, 2, 2**32 - 1, 2, 0)),
        ((ACCEPTED, 1, 2**32 - 1, 1, 0), 5, (ACCEPTED, 1, 2, 1, 0), BAD_ARGUMENT, (ACCEPTED, 1, 2**32 - 1, 1, 0)),
        ((ACCEPTED, 1, 1, 2**64 - 1, 0), 5, fine, BAD_ARGUMENT, (ACCEPTED, 1, 1, 2**64 - 1, 0)),
        (fine, 2**64 - 1, far, BAD_ARGUMENT, fine),
    ):
        whole = Verdict(*first)
        found = join(whole, ctypes.c_uint64(lines), Verdict(*second))
        if (found, numbers(whole)) != (status, wanted):
            return f"{first} and {second} behind {lines} lines: status {found}, {numbers(whole)}"
    return None
