"""Counts checks that passed, failed and were skipped, and prints the last line."""

from __future__ import annotations

import sys
from typing import Sequence, TextIO

# A longer value is cut in print.
SHOWN = 600
INDENT = "    "


def shown(value: object) -> str:
    text = value if isinstance(value, str) else repr(value)
    return text if len(text) <= SHOWN else f"{text[:SHOWN]} .."


class Tally:
    """Prints each check that fails, and names each that is skipped."""

    def __init__(self, out: TextIO = sys.stdout) -> None:
        self.out = out
        self.passed = self.failed = self.skipped = 0

    def print(self, text: str) -> None:
        """Prints at once; a letter that the output's encoding lacks is escaped."""
        encoding = getattr(self.out, "encoding", None) or "utf-8"
        print(text.encode(encoding, "backslashreplace").decode(encoding), file=self.out, flush=True)

    def expect(self, name: str, came: object, wanted: object) -> bool:
        """Counts whether a value is the expected one, and returns it."""
        return self.require(name, came == wanted, lambda: f"{shown(came)}, and not {shown(wanted)}")

    def require(self, name: str, holds: object, told: object = "it does not hold") -> bool:
        """Counts whether something holds, and returns it. `told`, a text or a function, is printed if it does
        not."""
        if holds:
            self.passed += 1
        else:
            self.fail(name, str(told()) if callable(told) else str(told))
        return bool(holds)

    def fail(self, name: str, told: str) -> None:
        self.failed += 1
        lines = told.rstrip("\n").split("\n")
        self.print(
            f"{name}: {lines[0]}" if len(lines) == 1 else "\n".join([f"{name}:", *(INDENT + it for it in lines)])
        )

    def same(self, name: str, differs: Sequence[str]) -> None:
        """Passes if nothing differs. Prints differences below the name."""
        if differs:
            self.failed += 1
            self.print("\n".join([name, *(INDENT + line for line in differs)]))
        else:
            self.passed += 1

    def skip(self, name: str, why: str) -> None:
        self.skipped += 1
        self.print(f"skipped: {name}: {why}")

    def end(self) -> int:
        """Returns the exit status: 0 if some passed and none failed."""
        self.print(f"{self.passed} passed, {self.failed} failed, {self.skipped} skipped")
        return 1 if self.failed or not self.passed else 0
