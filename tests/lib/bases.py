"""Bases at the start of a text."""

from __future__ import annotations

import re

HEAD = re.compile(rb"matching2 [^\n]*\nbase (\d+) spent=(\d+) nodes=(\d+) edges=(\d+)\n")


def without_base(text: bytes) -> bytes:
    """A text without the base that begins it. Raises `ValueError` if the text begins with none."""
    found = HEAD.match(text)
    lines = text.splitlines(keepends=True)
    if not found or len(lines) < 2 + int(found[3]) + int(found[4]):
        raise ValueError(f"the text begins with no base: {text[:200]!r}")
    return b"".join(lines[2 + int(found[3]) + int(found[4]) :])
