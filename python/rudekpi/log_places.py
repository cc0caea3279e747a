"""Where a line of a log stands: its number, and its file if several logs are merged."""

from __future__ import annotations


class Place(int):
    """The number of a line in the order of merged logs; it knows the line's file and its number there.

    In a text it reads as `7 of a.jsonl`, so that `line {place}` names both.
    """

    file: str
    line: int

    def __new__(cls, order: int, file: str, line: int) -> Place:
        made = super().__new__(cls, order)
        made.file, made.line = file, line
        return made

    def __str__(self) -> str:
        return f"{self.line} of {self.file}"

    def __format__(self, form: str) -> str:
        return format(str(self), form)

    def __reduce__(self) -> tuple[object, ...]:
        return Place, (int(self), self.file, self.line)


def line_of(number: int) -> int:
    """The line's number in its own file."""
    return number.line if isinstance(number, Place) else number


def file_of(number: int) -> str:
    """The name of the line's file; empty if there is only one log."""
    return number.file if isinstance(number, Place) else ""


def where(line: int, file: str = "") -> str:
    """The beginning of a message about a line."""
    name = file or file_of(line)
    return f"{name}: line {line_of(line)}" if name else f"line {line}"
