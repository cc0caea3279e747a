"""Moves and faults in the spelling of most writers: each spelling is read once, then looked up."""

from __future__ import annotations

import re
from typing import NamedTuple, Optional, Sequence

from .log_lines import NAME, START, VALUE
from .observed_moves import ABANDON, UPDATE, Observed
from .usual_views import UsualViews
from .views import View

# a line with one register, up to what its node saw
REGISTER = re.compile(rb'\{"(move|fault)": ?(' + NAME + rb"), ?" + VALUE + rb'(?:, ?"saw": ?(\{)|\}\r?)')
MOVE = re.compile(rb'"(move)": ?(' + NAME + rb"), ?" + VALUE + rb'(?:(?:, "saw": |,"saw":)(\{))?')
BEGIN = re.compile(START)
MOVES = re.compile(START + rb'"moves": ?\[\{(.*)\}\]\}\r?')
# how many spellings are kept
MOST_SPELLINGS = 1 << 15


class Write(NamedTuple):
    """A move or a fault of one register: `pointer` is the new one, 0 for null, or -1 if the flag is written."""

    node: int
    pointer: int
    flag: bool
    is_move: bool


class Several(NamedTuple):
    """The time of a line as it is spelled, and its moves with what their nodes saw."""

    stamp: Optional[bytes]
    writes: Sequence[Write]
    views: Sequence[Optional[View]]


class UsualLines:
    """Reads lines with moves and faults; `raw` has numbers by names in the spelling of most writers."""

    def __init__(self, raw: dict[bytes, int], views: UsualViews) -> None:
        self.raw, self.views = raw, views
        self.known: dict[bytes, Write] = {}

    def register(self, line: bytes, at: int) -> tuple[Optional[Write], Optional[bytes]]:
        """What a line with a time, or in a new spelling, writes, and its time; `at` is the index of its view."""
        begin = BEGIN.match(line)
        if not begin:
            return None, None
        head = b"{" + line[begin.end() : at or len(line)]
        return self.known.get(head) or self.write(head, REGISTER), begin[1]

    def write(self, head: bytes, form: re.Pattern[bytes]) -> Optional[Write]:
        found = form.fullmatch(head)
        if found is None:
            return None
        kind, name, target, flag, saw = found.groups()
        node, pointer = self.raw.get(name), -1 if target is None else self.raw.get(target)
        is_move = kind == b"move"
        if node is None or pointer is None or (saw and not is_move):
            return None
        if len(self.known) == MOST_SPELLINGS:
            self.known.clear()
        made = self.known[head] = Write(node, pointer, flag == b"true", is_move)
        return made

    def moves(self, line: bytes) -> Optional[Several]:
        found = MOVES.fullmatch(line)
        if not found:
            return None
        parts = found[2].split(b"}, {" if b"}, {" in found[2] else b"},{")
        writes, views = [], []
        for part in parts:
            # a brace begins what the node saw
            at = part.find(b"{") + 1
            head = part[:at] if at else part
            write = self.known.get(head) or self.write(head, MOVE)
            view = self.views.view(write.node, part[at:-2]) if write and at and part.endswith(b"]}") else None
            if write is None or (at and view is None):
                return None
            writes.append(write)
            views.append(view)
        return Several(found[1], writes, views)


def written(node: int, old: int, was: bool, pointer: int, flag: bool) -> Observed:
    """What a node wrote that held these registers: a pointer, or the flag if that is -1."""
    # twice as fast as the call of the class
    made = tuple.__new__
    if pointer < 0:
        return made(Observed, (node, old, old, was, flag, 0, UPDATE if flag != was else -1))
    if pointer == old:
        return made(Observed, (node, old, old, was, was, 0, -1))
    return made(Observed, (node, old, pointer, was, was, pointer, 0 if pointer else ABANDON))
