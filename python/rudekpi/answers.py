"""Reads a program's transcript, and gives each line to the command that the line answers."""

from __future__ import annotations

import re
from typing import TYPE_CHECKING, Optional

from .errors import Garbled, Refused, text_of
from .names import Names

if TYPE_CHECKING:
    from .batch import Pending

# the word that a base answers, and the second line of a base; its numbers are below 2^32
CHECKPOINT = "checkpoint"
BASE = re.compile(r"base ([0-9]{1,10}) spent=([0-9]{1,10}) nodes=([0-9]{1,10}) edges=([0-9]{1,10})")
# the distance between the numbers of two commands
STEP = 2


class Setting:
    """What stays the same in a run. Without a header the run's text begins with a base."""

    def __init__(self, names: Names, header: bytes, base_head: bytes, keeps: bool) -> None:
        self.names, self.header, self.base_head, self.keeps = names, header, base_head, keeps


def refusal(names: Names, event: bytes, text: bytes, entry: int) -> Refused:
    number, _, why = text_of(text)[len("refused ") :].partition(" ")
    return Refused(names.told(event.decode()), int(number) if number.isdigit() else 0, why, entry)


class Answers:
    """The state of reading at one point.

    Reading goes on in a copy, which is linked as the successor of this state. So an interrupt leaves this
    state unchanged, and the same bytes are read again. If a signal's handler has read on meanwhile, the
    handler's copy is already linked, and the other copy is dropped. Both copies write equal values into the
    shared commands and text.
    """

    __slots__ = (
        "setting",
        "asked",
        "later",
        "parts",
        "front",
        "rest",
        "lines",
        "entries",
        "held",
        "new",
        "held_size",
        "base_nodes",
        "base_size",
        "said",
        "said_size",
        "said_place",
        "last_base",
        "wrong",
    )

    def __init__(self, setting: Setting, asked: dict[int, Pending[object]]) -> None:
        self.setting = setting
        # the commands by number; those from `front` on wait
        self.asked = asked
        self.front = 0
        # the state after the next part, once that part was read; at most one, which a second does not replace
        self.later: dict[int, Answers] = {}
        # how many parts were read, and the beginning of an unfinished line
        self.parts = 0
        self.rest = b""
        self.lines, self.entries = 0, -1
        # the lines of an answer so far: those of earlier parts, and those of this part; a base's numbers of
        # nodes and lines, once they are known
        self.held: tuple[list[bytes], ...] = ()
        self.new: list[bytes] = []
        self.held_size = self.base_nodes = self.base_size = 0
        # the kept text, how many of its bytes count, and how many bytes, or more, came before it or were
        # dropped
        self.said, self.said_size, self.said_place = bytearray(), 0, 0
        # the number of the last line of the last whole base, and its lines
        self.last_base: Optional[tuple[int, list[bytes]]] = None
        self.wrong: Optional[Garbled] = None

    def read_on(self, part: bytes) -> Answers:
        new = self.copy()
        *lines, new.rest = (self.rest + part).split(b"\n")
        take = new.take
        for line in lines:
            take(line)
        new.keep(part, lines, self.lines)
        return new

    def copy(self) -> Answers:
        new: Answers = Answers.__new__(Answers)
        new.setting, new.asked, new.front, new.later = self.setting, self.asked, self.front, {}
        new.parts, new.lines, new.entries = self.parts + 1, self.lines, self.entries
        new.held, new.new, new.held_size = self.held, [], self.held_size
        new.base_nodes, new.base_size, new.wrong = self.base_nodes, self.base_size, self.wrong
        new.said, new.said_size, new.said_place = self.said, self.said_size, self.said_place
        new.last_base = None
        return new

    def keep(self, part: bytes, lines: list[bytes], before: int) -> None:
        """Adds the part that was read after `before` lines to the kept text, and notes its length."""
        if self.new:
            self.held = (*self.held, self.new)
        end = self.said_size + len(part)
        if self.last_base and not self.setting.keeps:
            last, base = self.last_base
            # another place than before, so that earlier places are known to be void
            self.said_place += end
            self.said = bytearray(b"\n".join([*base, *lines[last - before :], self.rest]))
            self.said_size = len(self.said)
        else:
            # the same bytes at the same place, however often it is done
            self.said[self.said_size : end] = part
            self.said_size = end

    def hold(self, line: bytes) -> None:
        self.new.append(line)
        self.held_size += 1

    def all_held(self) -> list[bytes]:
        lines = [line for part in (*self.held, self.new) for line in part]
        self.held, self.new, self.held_size = (), [], 0
        return lines

    def take(self, line: bytes) -> None:
        if self.wrong:
            return
        self.lines += 1
        pending = self.asked.get(self.front)
        if (pending and pending._is_base) or (self.entries < 0 and not self.setting.header):
            return self.take_of_base(pending, line)
        self.entries = entry = self.entries + 1
        head = b"%d " % entry
        if pending and line.startswith(head + pending._event + b" = "):
            self.answer(pending, line[len(head) + len(pending._event) + 3 :])
        elif pending and pending._ahead and line.startswith(head):
            self.hold(line[len(head) :])
        elif entry or line != self.setting.header:
            self.garble(pending, line)

    def take_of_base(self, pending: Optional[Pending[object]], line: bytes) -> None:
        """Gives a line of a base to its checkpoint, whose answer is all lines of the base.

        The base that a run goes on from answers no checkpoint.
        """
        if not self.is_next_of_base(line):
            return self.garble(pending, line)
        self.hold(line)
        if self.held_size == self.base_size:
            lines = self.all_held()
            self.last_base = (self.lines, lines)
            if pending:
                self.answer(pending, b"\n".join(lines))
            else:
                self.entries = int(lines[1].split(b" ")[1])

    def is_next_of_base(self, line: bytes) -> bool:
        """Whether this may be the next line of a base, checked as far as finding its end needs."""
        place = self.held_size
        if place == 0:
            return line == self.setting.base_head
        if place > 1:
            return line.startswith(b"node " if place < 2 + self.base_nodes else b"edge ")
        found = BASE.fullmatch(text_of(line))
        if not found:
            return False
        self.base_nodes, self.base_size = int(found[3]), 2 + int(found[3]) + int(found[4])
        # the base that a run goes on from may have any number
        return self.entries < 0 or int(found[1]) == self.entries

    def answer(self, pending: Pending[object], text: bytes) -> None:
        """Stores the answer to the command that has waited longest."""
        if pending._ahead:
            pending._turns = self.all_held()
        pending._text = text
        kept = pending._refusals
        if kept is not None and text.startswith(b"refused "):
            kept[self.entries] = refusal(self.setting.names, pending._event, text, self.entries)
        pending._entry = self.entries
        self.front += STEP

    def garble(self, pending: Optional[Pending[object]], line: bytes) -> None:
        wanted = pending._event.decode()[:200] if pending else "nothing"
        self.wrong = Garbled(f"line {self.lines} is {text_of(line[:200])!r}; asked was {wanted!r}")
