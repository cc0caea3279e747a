"""The client's errors. Each can be pickled, so that a process pool can raise it unchanged.

Two errors are equal if they have the same type and say the same.
"""

from __future__ import annotations

import re
from dataclasses import dataclass

from .log_places import file_of, line_of, where

VERDICT = re.compile(r"line ([0-9]+): (.*)\n")


def text_of(said: bytes) -> str:
    return said.decode("ascii", "backslashreplace")


class RudekpiError(Exception):
    """The base of this module's errors.

    Wrong arguments and a missing program raise `ValueError`, `TypeError` or `OSError` instead.
    """

    def __eq__(self, other: object) -> bool:
        if not isinstance(other, RudekpiError) or type(self) is not type(other):
            return NotImplemented
        return self.__reduce__()[:2] == other.__reduce__()[:2]

    def __hash__(self) -> int:
        return hash((type(self), str(self)))


@dataclass(init=False, repr=False, eq=False)
class Refused(RudekpiError):
    """The network refused an event, and is unchanged."""

    event: str
    number: int
    text: str
    entry: int

    def __init__(self, event: str, number: int, text: str, entry: int) -> None:
        super().__init__(f"{event}: refused {number} {text} (entry {entry})")
        self.event, self.number, self.text, self.entry = event, number, text, entry

    def __reduce__(self) -> tuple[object, ...]:
        return type(self), (self.event, self.number, self.text, self.entry)


class Ended(RudekpiError):
    """The program has ended: its exit status, and what it wrote last on standard error.

    `last_line` is the first line that begins with `!`, and without one the last line. `reason` is the text of
    the line after it that says why, without its `!`; empty if there is none.
    """

    def __init__(self, status: int, told: bytes) -> None:
        lines = text_of(told).rstrip("\n").split("\n")
        at = next((place for place, line in enumerate(lines) if line.startswith("!")), len(lines) - 1)
        why = lines[at + 1] if at + 1 < len(lines) else ""
        self.status, self.last_line = status, lines[at]
        self.reason = why[2:] if why.startswith("! ") else ""
        said = f"{self.last_line} ({self.reason})" if self.reason else self.last_line
        super().__init__(f"the program ended with status {status}: {said or '(it said nothing)'}")

    def __reduce__(self) -> tuple[object, ...]:
        told = f"{self.last_line}\n! {self.reason}" if self.reason else self.last_line
        return type(self), (self.status, told.encode())


class Inherited(Ended):
    """A network was used in a child of the process that made it."""

    def __init__(self, status: int = 0, told: bytes = b"") -> None:
        super().__init__(0, b"the network belongs to another process, of which this one is a child")
        self.args = (f"{self.last_line}: ask it there, or replay its transcript here",)


class NoReply(RudekpiError, MemoryError):
    """The command was carried out, but memory for the reply ran out; `entry` is the command's last entry.

    The transcript has that entry. Any other `MemoryError` means that nothing was carried out.
    """

    def __init__(
        self, entry: int, what: str = "the command was carried out, and there is no memory for its reply:"
    ) -> None:
        super().__init__(f"{what} entry {entry}, which the transcript has")
        self.entry, self.what = entry, what

    def __reduce__(self) -> tuple[object, ...]:
        return type(self), (self.entry, self.what)


class NoSuchCommand(RudekpiError):
    """The program, which plays this network, has no such command; only the library has."""


class NotCounted(RudekpiError):
    """Rounds are asked for, and the network does not count them: call `count_rounds` first."""

    def __init__(self) -> None:
        super().__init__("rounds are not counted: call count_rounds first")

    def __reduce__(self) -> tuple[object, ...]:
        return type(self), ()


class Garbled(RudekpiError):
    """The program wrote something that answers no command."""


@dataclass(init=False, repr=False, eq=False)
class Damaged(RudekpiError):
    """`audit` refuses a transcript: the number of the first wrong line, and why that line is wrong."""

    line: int
    why: str

    def __init__(self, line: int, why: str) -> None:
        super().__init__(f"line {line}: {why}")
        self.line, self.why = line, why

    def __reduce__(self) -> tuple[object, ...]:
        return type(self), (self.line, self.why)

    @classmethod
    def read(cls, verdict: str) -> Damaged:
        """The error that a verdict's text describes; raises `ValueError` if the text is no such verdict."""
        found = VERDICT.fullmatch(verdict)
        if not found:
            raise ValueError(verdict)
        return cls(int(found[1]), found[2])


@dataclass(init=False, repr=False, eq=False)
class BadLine(RudekpiError, ValueError):
    """A line of a log is no event, or an event that the machine refuses: the line's number, and why.

    `file` is the line's file if several logs are merged, and else empty.
    """

    line: int
    why: str
    file: str

    def __init__(self, line: int, why: str, file: str = "") -> None:
        super().__init__(f"{where(line, file)}: {why}")
        self.line, self.why, self.file = line_of(line), why, file or file_of(line)

    def __reduce__(self) -> tuple[object, ...]:
        return type(self), (self.line, self.why, self.file)


class BadView(RudekpiError, ValueError):
    """No state of the machine shows what a node holds: the fault's word, and the name that it is about.

    The words are `own-neighbour` (the node is among its neighbours), `points-at-itself` (a neighbour does),
    and of `may_move` also `points-at-stranger` (the node points at a name that is no neighbour).
    """

    def __init__(self, fault: str, name: object) -> None:
        super().__init__(f"no state shows this at a node: {fault} ({name!r})")
        self.fault, self.name = fault, name

    def __reduce__(self) -> tuple[object, ...]:
        return type(self), (self.fault, self.name)


class Lost(RudekpiError):
    """Workers died twice over the same experiments of a sweep, or the same part of a transcript."""


class WrongChoice(RudekpiError):
    """A daemon chose no node while some are enabled, or a node that is not enabled."""


class PastBound(RudekpiError):
    """More moves were made than the charge allows, so the network was disturbed while it settled."""
