"""The progress of long work, on standard error at a terminal."""

from __future__ import annotations

import sys
import time
from typing import Iterable, Iterator, TypeVar

Item = TypeVar("Item")


def shown(items: Iterable[Item], total: int) -> Iterator[Item]:
    """The same items; a terminal shows how many are done, the speed and the time left, by tqdm if present."""
    if not sys.stderr.isatty():
        yield from items
        return
    try:
        from tqdm import tqdm
    except ImportError:
        yield from plainly_shown(items, total)
        return
    yield from tqdm(items, total=total, file=sys.stderr)


def plainly_shown(items: Iterable[Item], total: int) -> Iterator[Item]:
    began = told = time.monotonic()
    for done, item in enumerate(items, 1):
        yield item
        now = time.monotonic()
        if now - told > 0.2 or done == total:
            told, rate = now, done / max(now - began, 1e-9)
            print(
                f"\r{done} of {total}, {rate:.1f} a second, {(total - done) / rate:.0f} seconds left ",
                end="",
                file=sys.stderr,
                flush=True,
            )
    print(file=sys.stderr)
