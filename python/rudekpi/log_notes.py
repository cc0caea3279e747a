"""What the judge of a log meets that is no divergence, in words for a reader."""

from __future__ import annotations

from dataclasses import dataclass

BAD_LINE, BOTH_ENDS, REMOVED_LINK, CUT, STUCK, NO_TIME = (
    "bad-line",
    "both-ends",
    "removed-link",
    "cut",
    "stuck",
    "no-time",
)


@dataclass(frozen=True)
class Note:
    """What was met, the line, and words about it; the line is 0 if it is about none.

    `kind` is `bad-line`: a line that was passed over; `both-ends`: the first link that both ends logged;
    `removed-link`: a pointer across a link that was just removed; `cut`: a last line that is cut; `stuck`: a
    node that waits too long; or `no-time`: in a file without times no wait can be measured.
    """

    kind: str
    line: int
    text: str
    file: str = ""

    def __str__(self) -> str:
        return self.text
