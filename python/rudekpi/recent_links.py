"""The links that were added or removed a moment ago, since in a running system both ends log a link.

An edit is recent for 50 lines, and for one second by the lines' `time`.
"""

from __future__ import annotations

from typing import NamedTuple, Optional

LINES, SECONDS = 50, 1.0


class Edit(NamedTuple):
    """A line that added or removed a link; `is_twice` if the other end's line has come too."""

    word: str
    number: int
    time: Optional[float]
    is_twice: bool = False

    def is_recent(self, number: int, time: Optional[float]) -> bool:
        if number - self.number <= LINES:
            return True
        return time is not None and self.time is not None and abs(time - self.time) <= SECONDS


class RecentLinks:
    """The last edit of each link, as long as it is recent; oldest first."""

    def __init__(self) -> None:
        self.edits: dict[tuple[int, int], Edit] = {}

    def add(self, word: str, a: int, b: int, number: int, time: Optional[float]) -> None:
        """Notes an edit and forgets those that are no longer recent."""
        edits, edge = self.edits, (min(a, b), max(a, b))
        edits.pop(edge, None)
        edits[edge] = Edit(word, number, time)
        while True:
            oldest = next(iter(edits))
            if edits[oldest].is_recent(number, time):
                return
            del edits[oldest]

    def found(self, word: str, a: int, b: int, number: int, time: Optional[float]) -> Optional[Edit]:
        """The link's last edit, if it was this one and is recent."""
        edit = self.edits.get((min(a, b), max(a, b)))
        return edit if edit and edit.word == word and edit.is_recent(number, time) else None

    def take_second(self, word: str, a: int, b: int, number: int, time: Optional[float]) -> Optional[Edit]:
        """The edit that this line repeats for the other end of the link; a third line repeats none."""
        edit = self.found(word, a, b, number, time)
        if edit is None or edit.is_twice:
            return None
        self.edits[min(a, b), max(a, b)] = edit._replace(is_twice=True)
        return edit
