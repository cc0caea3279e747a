"""A session of the library: commands carried out by C calls, each before it returns.

A signal's handler may run between any two instructions. It may use the same session, whose lock the handler's
thread already holds. So each call reports into its own `Desk`. A question that must come right after a call
is asked in the same C call, which no handler interrupts.
"""

from __future__ import annotations

import ctypes
import os
import threading
import weakref
from typing import TYPE_CHECKING, Callable, NoReturn, Optional, Sequence

from .batch import Batch
from .calls import DirectBatch, Rooms
from .errors import Ended, Inherited, NoReply, NotCounted, RudekpiError, text_of
from .kept_text import KeptText
from .library import (
    DONE,
    LOG_FULL,
    NO_MEMORY,
    NO_SESSION,
    NOT_COUNTED,
    NOT_SILENT,
    ROW_NUMBERS,
    Library,
    NodeView,
    Slot,
)
from .names import Names

if TYPE_CHECKING:
    from ctypes import _CArgObject

SESSIONS: weakref.WeakSet[Direct] = weakref.WeakSet()
# how many nodes or edges the first question for a list has room for
FIRST_ROOM = 64


class Direct:
    """A session of the library. A lock is held during each call, since other threads run meanwhile.

    An interrupt does not cut a C call short, so a command is carried out whole or not at all.
    """

    # the owner of a session that is not fully built
    owner = 0

    def __init__(
        self,
        library: Library,
        names: Names,
        rules: str,
        present: int,
        keeps: bool,
        transcript: Optional[bytes] = None,
    ) -> None:
        self.library, self.names, self.rules, self.keeps = library, names, rules, keeps
        self.lock = threading.RLock()
        self.ended: Optional[Ended] = None
        self.slot, self.empty, self.owner = Slot(), Slot(), os.getpid()
        # the target of all calls: the session, until it is closed
        self.at: _CArgObject = ctypes.byref(self.slot)
        self.text_kept, self.rooms = KeptText(library, self.at, keeps), Rooms()
        if transcript is not None:
            # the run goes on from there, where its rules, names and present nodes are
            library.resume(self.at, transcript)
        elif library.session_new(("hh", "manne").index(rules), names.count, present, self.at):
            raise MemoryError("no memory for a network")
        SESSIONS.add(self)

    def __del__(self) -> None:
        if self.owner == os.getpid() and self.slot.full:
            self.library.session_free(ctypes.byref(self.slot))

    @property
    def is_closed(self) -> bool:
        return not self.slot.full

    def since(self, place: int) -> tuple[bytes, int]:
        """The lines from a place on, and the place after them.

        If not all text is kept, the lines begin at the last base. Raises `Ended` in a child of the process
        that made the session.
        """
        self.check_owner()
        with self.lock:
            return self.text_kept.since(place)

    def text(self) -> str:
        return text_of(self.since(0)[0])

    @property
    def entries(self) -> int:
        with self.lock:
            return entries_in(self.text_kept.last())

    def wait_for_all(self) -> None:
        """Returns at once: every command is already carried out."""

    def trouble(self) -> Optional[RudekpiError]:
        """What ended the session, other than a close."""
        return self.ended

    def check_owner(self) -> None:
        if isinstance(self.ended, Inherited):
            raise self.ended

    def raise_for(self, status: int) -> NoReturn:
        """Raises the error of a status that is neither done nor refused."""
        if status == NO_SESSION:
            raise self.ended or ValueError("the network is closed")
        if status == LOG_FULL:
            ended = Ended(4, b"! log full")
            self.end(ended)
            raise self.ended or ended
        if status == NOT_COUNTED:
            raise NotCounted
        if status == NO_MEMORY:
            raise MemoryError("the command was not carried out, and the network is as it was")
        raise ValueError(f"the library takes no such numbers (status {status})")

    def end(self, why: Optional[Ended] = None) -> None:
        """Ends the session. If the call was cut short, call it again."""
        with self.lock:
            self.ended = self.ended or why
            # no question follows, so all that is written is collected
            self.at = ctypes.byref(self.empty)
            self.text_kept.collect()
            self.library.session_free(ctypes.byref(self.slot))

    def close(self) -> None:
        if not self.is_closed:
            self.end()

    kill = close

    def leave(self) -> None:
        """In a child of this process: empties the child's copy of the slot, and frees nothing."""
        self.lock, self.slot.full = threading.RLock(), False
        self.ended = Inherited()

    def tell(self, line: str) -> None:
        """Carries out a line of a script; asks for the status after a line that writes several entries."""
        for event in (line, "status") if line.startswith(("drive ", "scramble ")) else (line,):
            text = event.encode()
            with self.lock:
                status = self.library.session_feed(
                    self.at, text, ctypes.c_size_t(len(text)), ctypes.byref(ctypes.c_uint64())
                )
            if status:
                self.raise_for(status)

    def partner(self, number: int) -> Optional[int]:
        """A node's partner, 0 for none; None if the session is over."""
        found = ctypes.c_uint32()
        with self.lock:
            status = self.library.partner(self.at, number, ctypes.byref(found))
        return found.value if self._is_answered(status) else None

    def registers(self, number: int) -> Optional[NodeView]:
        """A node's registers, and whether the node is present; None if the session is over."""
        found = NodeView()
        with self.lock:
            status = self.library.registers(self.at, number, ctypes.byref(found))
        return found if self._is_answered(status) else None

    def neighbours(self, number: int) -> Optional[list[int]]:
        """All neighbours of a node, ascending, none of an absent node; None if the session is over."""
        return self._listed(self.library.neighbours, number)

    def present(self) -> Optional[list[int]]:
        """All nodes that are present, ascending; None if the session is over."""
        return self._listed(self.library.nodes, room=self.names.count)

    def edges(self) -> Optional[list[tuple[int, int]]]:
        """All edges, ascending; None if the session is over."""
        rows = self._listed(self.library.edges, width=ROW_NUMBERS)
        return None if rows is None else list(zip(rows[::ROW_NUMBERS], rows[2::ROW_NUMBERS]))

    def restless(self) -> list[int]:
        """All nodes that are not at rest, ascending."""
        return self._or_closed(self._listed(self.library.restless, room=self.names.count))

    def _is_answered(self, status: int) -> bool:
        """Whether a question was answered; false if the session is over. Raises the error of other statuses."""
        if status == NO_SESSION:
            self.check_owner()
            return False
        if status != DONE:
            self.raise_for(status)
        return True

    def _listed(
        self, call: Callable[..., int], *numbers: int, room: int = FIRST_ROOM, width: int = 1
    ) -> Optional[list[int]]:
        """The items of a call that lists all of them if there is room, each of `width` numbers."""
        count = ctypes.c_size_t()
        while True:
            found = (ctypes.c_uint32 * (width * room))()
            with self.lock:
                status = call(self.at, *numbers, found, ctypes.c_size_t(room), ctypes.byref(count))
            if not self._is_answered(status):
                return None
            if count.value <= room:
                return found[: width * count.value]
            room = count.value

    def _or_closed(self, found: Optional[list[int]]) -> list[int]:
        """The items; raises the error of a session that is over."""
        if found is None:
            self.raise_for(NO_SESSION)
        return found

    def cost_of(self, word: str, numbers: Sequence[int]) -> int:
        return self._number(f"cost_of_{word}", numbers)[1]

    def silent_cost_of(self, word: str, numbers: Sequence[int]) -> Optional[int]:
        status, cost = self._number(f"silent_cost_of_{word}", numbers)
        return None if status == NOT_SILENT else cost

    def _number(self, name: str, numbers: Sequence[int]) -> tuple[int, int]:
        """The status of a call that changes nothing, and the number that the call writes."""
        found = ctypes.c_uint32()
        call: Callable[..., int] = getattr(self.library, name)
        with self.lock:
            status = call(self.at, *numbers, ctypes.byref(found))
        if status not in (DONE, NOT_SILENT):
            self.raise_for(status)
        return status, found.value

    def reach(self, word: str, numbers: Sequence[int]) -> list[int]:
        return self._or_closed(self._listed(getattr(self.library, f"reach_of_{word}"), *numbers))

    def is_at_rest(self, number: int) -> bool:
        found = ctypes.c_bool()
        with self.lock:
            status = self.library.is_at_rest(self.at, number, ctypes.byref(found))
        if status:
            self.raise_for(status)
        return found.value

    def moves_left(self) -> Optional[int]:
        found = ctypes.c_uint32()
        with self.lock:
            status = self.library.moves_left(self.at, ctypes.byref(found))
        if status:
            self.raise_for(status)
        return found.value

    def count_rounds(self) -> None:
        with self.lock:
            status = self.library.count_rounds(self.at)
        if status:
            self.raise_for(status)

    def rounds(self) -> int:
        return self._number("rounds", ())[1]

    def rounds_left(self) -> int:
        return self._number("rounds_left", ())[1]

    def renumber(self) -> str:
        """Numbers the entries from 1 again; returns the transcript that ends.

        Raises `MemoryError` if nothing was done, and `NoReply` if only the text is not returned.
        """
        with self.lock:
            status, text_ended = self.text_kept.renumbered()
            if status:
                self.raise_for(status)
            try:
                return text_of(text_ended())
            except MemoryError:
                raise NoReply(0, "the entries are numbered anew, and the next renumbering returns this text:") from None

    def batch(self, raises: bool = True, keeps: bool = True) -> Batch:
        return DirectBatch(self, raises, keeps)


def entries_in(said: bytes) -> int:
    """The number of the last entry of a transcript, or of the base that ends it."""
    at = len(said)
    while at > 0:
        before = said.rfind(b"\n", 0, at - 1) + 1
        word, _, rest = said[before:at].partition(b" ")
        if word.isdigit():
            return int(word)
        if word == b"base":
            return int(rest.split(b" ")[0])
        at = before
    return 0


def leave_all() -> None:
    for session in list(SESSIONS):
        session.leave()


if hasattr(os, "register_at_fork"):
    os.register_at_fork(after_in_child=leave_all)
