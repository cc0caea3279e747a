"""How long a build has taken, and about how long the rest may."""

from __future__ import annotations

import os
import time
from typing import Any, Sequence

# Seconds a line of code, for crates without a line in the file.
A_LINE = 0.3


def measured_seconds() -> dict[str, float]:
    """By crate, on one processor of a machine of 2026."""
    found = {}
    with open(f"{os.path.dirname(os.path.abspath(__file__))}/build_seconds", encoding="utf-8") as file:
        for line in file:
            words = line.partition("#")[0].split()
            if words:
                found[words[0]] = float(words[1])
    return found


class Clock:
    """Estimates the rest of a build by the measured seconds of its crates, and by how much slower or
    faster those built so far were."""

    def __init__(self, crates: Sequence[Any], processors: int) -> None:
        measured = measured_seconds()
        self.crates, self.processors, self.started = crates, processors, time.monotonic()
        self.seconds: dict[Any, float] = {it: measured.get(it.name) or 10 + A_LINE * it.count(rb"\n") for it in crates}
        self.begun: dict[Any, float] = {}
        self.done: set[Any] = set()
        self.took, self.guessed = 0.0, 0.0

    def begins(self, crate: Any) -> str:
        """Returns the line that reports the crate."""
        self.begun[crate] = time.monotonic()
        so_far, rest = (self.begun[crate] - self.started) / 60, self.rest() / 60
        place = f"[{len(self.begun)}/{len(self.crates)}] {crate.name}"
        return f"{place}, {minutes(so_far)} so far, some {minutes(rest)} more on this machine"

    def ends(self, crate: Any) -> None:
        self.done.add(crate)
        self.took += time.monotonic() - self.begun[crate]
        self.guessed += self.seconds[crate]

    def pace(self) -> float:
        """How many seconds here make one measured second; 1 at the start."""
        return (self.took + 60) / (self.guessed + 60)

    def left(self, crate: Any) -> float:
        if crate in self.done:
            return 0.0
        passed = time.monotonic() - self.begun[crate] if crate in self.begun else 0.0
        return max(0.0, self.seconds[crate] - passed / self.pace())

    def chains(self) -> dict[Any, float]:
        """For each crate the rest of it and of the longest chain that waits for it."""
        found: dict[Any, float] = {}
        for crate in reversed(self.crates):
            above = [found[it] for it in found if crate in it.deps]
            found[crate] = self.left(crate) + max(above, default=0.0)
        return found

    def rest(self) -> float:
        """Seconds: those of the longest chain, or of all the rest if that takes longer."""
        shared = sum(map(self.left, self.crates)) / self.processors
        return self.pace() * max(shared, *self.chains().values())


def minutes(number: float) -> str:
    whole = round(number)
    return "1 minute" if whole == 1 else f"{whole} minutes"
