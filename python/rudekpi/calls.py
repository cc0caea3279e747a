"""The commands of a library session, each one C call, and the replies built from that call's results."""

from __future__ import annotations

import ctypes
import functools
from typing import TYPE_CHECKING, Any, Callable, Generic, NoReturn, Optional, Sequence, Tuple

from .batch import Batch
from .choices import numbers_of
from .errors import NoReply, Refused, text_of
from .kept_text import in_one_call
from .library import COUNTS, ENTRY, MOVES, NO_MEMORY, REFUSAL, REFUSALS, REFUSED, ROW_NUMBERS, TARGET, TOLD_NUMBERS
from .names import Names
from .numbers import MOST_NODES, MOST_SEED, MOST_TURNS, number_within
from .reading import Reader, read_base, read_fault, read_moves
from .replies import (
    Accepted,
    Answer,
    Base,
    Choice,
    Enabled,
    Fault,
    Fixed,
    Matching,
    Move,
    Moves,
    Name,
    Reply,
    Reply_co,
    Shown,
    Status,
    Turns,
)

if TYPE_CHECKING:
    from .direct import Direct


class Desk:
    """The results of one C call as 32-bit numbers, and the counts of a `status`."""

    __slots__ = ("told", "at", "counts", "counts_at")

    def __init__(self) -> None:
        told, self.counts = (ctypes.c_uint32 * TOLD_NUMBERS)(), (ctypes.c_uint32 * COUNTS)()
        self.told = memoryview(told).cast("B").cast("I")
        self.at, self.counts_at = ctypes.byref(told), ctypes.byref(self.counts)


# the desks not in use: a call takes one out, and a handler that interrupts the call takes another
DESKS: list[Desk] = []


def taken_desk() -> Desk:
    try:
        return DESKS.pop()
    except IndexError:
        return Desk()


class Rooms:
    """Buffers for rows of answers that no call uses."""

    def __init__(self) -> None:
        self.free: list[ctypes.Array[ctypes.c_uint32]] = []

    def taken(self, count: int) -> ctypes.Array[ctypes.c_uint32]:
        try:
            room = self.free.pop()
        except IndexError:
            return (ctypes.c_uint32 * count)()
        return room if len(room) >= count else (ctypes.c_uint32 * count)()

    def put(self, room: ctypes.Array[ctypes.c_uint32]) -> None:
        self.free.append(room)


def refused_of(names: Names, entry: int, number: int, event: str) -> Refused:
    return Refused(names.told(event), number, REFUSALS[number - 1] if 0 < number <= len(REFUSALS) else "", entry)


def raise_refusal(names: Names, entry: int, number: int, event: str) -> NoReturn:
    raise refused_of(names, entry, number, event)


def accepted_of(names: Names, entry: int) -> Accepted:
    return Accepted(entry)


def shown_of(names: Names, entry: int, node: int, target: int) -> Shown:
    return Shown(entry, names.name_of(node), names.name_of(target) if target else None)


def moves_of(names: Names, entry: int, rows: list[int]) -> Moves:
    name_of = names.name_of
    each = zip(rows[::3], rows[1::3], rows[2::3])
    return Moves(
        tuple(Move(name_of(node), MOVES[rule], name_of(other) if other else None) for node, rule, other in each), entry
    )


def enabled_of(names: Names, entry: int, rows: list[int]) -> Enabled:
    return Enabled(entry, Fixed(zip(map(names.name_of, rows[::3]), map(MOVES.__getitem__, rows[1::3]))))


def matching_of(names: Names, entry: int, rows: list[int]) -> Matching:
    pairs = tuple(zip(map(names.name_of, rows[::3]), map(names.name_of, rows[2::3])))
    partners = {}
    for a, b in pairs:
        partners[a], partners[b] = b, a
    return Matching(entry, pairs, Fixed(partners))


def status_of(names: Names, entry: int, counts: Sequence[int]) -> Status:
    nodes, edges, pairs, enabled, charge, spent = counts
    return Status(entry, nodes, edges, pairs, enabled, charge, spent)


def turns_of(names: Names, entry: int, read: Reader[Reply], lines: bytes, counts: Sequence[int]) -> Turns[Reply]:
    turns = []
    for line in text_of(lines).splitlines():
        number, _, rest = line.partition(" ")
        event, _, reply = rest.partition(" = ")
        turns.append(read(names, int(number), event, reply))
    return Turns(tuple(turns), status_of(names, entry, counts))


def base_of(names: Names, entry: int, lines: bytes) -> Base:
    return read_base(names, entry, "", text_of(lines).rstrip("\n"))


class Done(Tuple[Any, ...], Generic[Reply_co]):
    """The answer to a command that was carried out: a function that builds the reply, and its arguments.

    A tuple is the fastest to build.
    """

    __slots__ = ()

    def result(self) -> Reply_co:
        """The reply. Raises `Refused` if the event was refused, `NoReply` if memory for it runs out."""
        try:
            make: Callable[..., Reply_co]
            make, *given = self
            return make(*given)
        except MemoryError:
            raise NoReply(self[2]) from None


class DirectBatch(Batch):
    """Commands that are carried out at once, so their answers are ready."""

    def __init__(self, session: Direct, raises: bool = True, keeps: bool = True) -> None:
        self._direct, self._raises, self._number = session, raises, session.names.number_of
        self._kept = {} if keeps else None
        self._names, self._has_numbers, self._show = (session.names, session.names.own is None, session.library.show)

    def __exit__(self, kind: Optional[type[BaseException]], *_: object) -> None:
        if not kind and self._raises and self.refusals:
            raise self.refusals[0]

    def _refused(self, status: int, desk: Desk, event: str) -> Done[NoReturn]:
        """The answer of a refused call; raises what the status means if there is no answer."""
        entry, refusal = desk.told[ENTRY], desk.told[REFUSAL]
        DESKS.append(desk)
        if status != REFUSED:
            self._direct.raise_for(status)
        if self._kept is not None:
            self._kept[entry] = refused_of(self._names, entry, refusal, event)
        return Done((raise_refusal, self._names, entry, refusal, event))

    def show(self, node: Name) -> Answer[Shown]:
        # what `_number` returns for a plain number, in a third of its time
        number = node if type(node) is int and 0 < node <= MOST_NODES and self._has_numbers else self._number(node)
        try:
            desk = DESKS.pop()
        except IndexError:
            desk = Desk()
        session = self._direct
        with session.lock:
            status = self._show(session.at, number, desk.at)
        if status:
            return self._refused(status, desk, f"show {number}")
        told = desk.told
        try:
            return Done((shown_of, self._names, told[ENTRY], number, told[TARGET]))
        except MemoryError:
            raise NoReply(told[ENTRY]) from None
        finally:
            DESKS.append(desk)

    def _edit(self, word: str, *numbers: int) -> Answer[Accepted]:
        session, desk = self._direct, taken_desk()
        call = getattr(session.library, word)
        with session.lock:
            status = call(session.at, *numbers, desk.at)
        if status:
            # the null pointer is no number in a line
            written = [str(number) if number or word == "flag" else "-" for number in numbers]
            return self._refused(status, desk, " ".join([word, *written]))
        try:
            return Done((accepted_of, self._names, desk.told[ENTRY]))
        except MemoryError:
            raise NoReply(desk.told[ENTRY]) from None
        finally:
            DESKS.append(desk)

    def link(self, a: Name, b: Name) -> Answer[Accepted]:
        return self._edit("link", self._number(a), self._number(b))

    def unlink(self, a: Name, b: Name) -> Answer[Accepted]:
        return self._edit("unlink", self._number(a), self._number(b))

    def flag(self, node: Name, value: bool) -> Answer[Accepted]:
        return self._edit("flag", self._number(node), number_within(value, 1, "a flag"))

    def join(self, node: Name) -> Answer[Accepted]:
        return self._edit("join", self._names.number_to_join(node))

    def leave(self, node: Name) -> Answer[Accepted]:
        return self._edit("leave", self._number(node))

    def point(self, node: Name, target: Optional[Name]) -> Answer[Accepted]:
        return self._edit("point", self._number(node), 0 if target is None else self._number(target))

    def _listed(
        self,
        make: Callable[[Names, int, list[int]], Reply],
        call: str,
        most: int,
        event: Callable[[], str],
        *words: object,
    ) -> Answer[Reply]:
        """Makes a call whose answer has at most `most` rows, and fetches these rows."""
        session, desk = self._direct, taken_desk()
        room = session.rooms.taken(ROW_NUMBERS * most)
        library = session.library
        with session.lock:
            status, count = in_one_call(
                functools.partial(getattr(library, call), session.at, *words, desk.at),
                functools.partial(library.rows, session.at, room, ctypes.c_size_t(most)),
            )
        entry = desk.told[ENTRY]
        try:
            if status:
                return self._refused(status, desk, event())
            DESKS.append(desk)
            return Done((make, self._names, entry, room[: ROW_NUMBERS * count]))
        except MemoryError:
            # no entry is set if the library itself ran out of memory
            if entry:
                raise NoReply(entry) from None
            raise
        finally:
            session.rooms.put(room)

    def step(self, choice: Choice) -> Answer[Moves]:
        items = numbers_of(choice, self._number)
        given = (ctypes.c_uint32 * (2 * len(items)))(*(number for item in items for number in item))

        def event() -> str:
            return " ".join(["step", *(f"{node}>{wish}" if wish else str(node) for node, wish in items)])

        return self._listed(moves_of, "step", len(items), event, given, ctypes.c_size_t(len(items)))

    def enabled(self) -> Answer[Enabled]:
        return self._listed(enabled_of, "enabled", self._names.count, lambda: "enabled")

    def matching(self) -> Answer[Matching]:
        return self._listed(matching_of, "pairs", self._names.count // 2, lambda: "matching")

    def _standing(self) -> tuple[int, list[int]]:
        session, desk = self._direct, taken_desk()
        with session.lock:
            status = session.library.status(session.at, desk.counts_at, desk.at)
        if status:
            DESKS.append(desk)
            session.raise_for(status)
        found = desk.told[ENTRY], desk.counts[:]
        DESKS.append(desk)
        return found

    def status(self) -> Answer[Status]:
        entry, counts = self._standing()
        return Done((status_of, self._names, entry, counts))

    def drive(self, seed: int, turns: int) -> Answer[Turns[Moves]]:
        return self._turned("drive", read_moves, seed, turns)

    def scramble(self, seed: int, faults: int) -> Answer[Turns[Fault]]:
        return self._turned("scramble", read_fault, seed, faults)

    def _turned(self, word: str, read: Reader[Reply], seed: int, turns: int) -> Answer[Turns[Reply]]:
        """Makes a call that adds many entries: its turns, read from the text, and the status after them."""
        numbers = ctypes.c_uint64(number_within(seed, MOST_SEED, "a seed")), number_within(
            turns, MOST_TURNS, "a number of turns"
        )
        _, lines = self._written(word, *numbers)
        entry, counts = self._standing()
        return Done((turns_of, self._names, entry, read, lines, counts))

    def checkpoint(self) -> Answer[Base]:
        return Done((base_of, self._names, *self._checkpointed()))

    def _written_base(self) -> tuple[Base, bytes]:
        entry, lines = self._checkpointed()
        try:
            return base_of(self._names, entry, lines), lines
        except MemoryError:
            raise NoReply(entry) from None

    def _checkpointed(self) -> tuple[int, bytes]:
        """A checkpoint's last entry before it, and its lines."""
        session = self._direct
        entry, lines = self._written("checkpoint")
        if not session.keeps:
            with session.lock:
                session.text_kept.forget()
        return entry, lines

    def _written(self, word: str, *words: object) -> tuple[int, bytes]:
        """Makes a call that writes several lines: its last entry, and the lines. Raises its error."""
        session, desk = self._direct, taken_desk()
        call = functools.partial(getattr(session.library, word), session.at, *words, desk.at)
        with session.lock:
            status, lines_of = session.text_kept.written_by(call)
            entry = desk.told[ENTRY]
            DESKS.append(desk)
            try:
                lines = lines_of()
            except MemoryError:
                raise NoReply(entry) from None
        if status == NO_MEMORY and lines:
            raise NoReply(entry, "some first turns were carried out, the last of them as")
        if status:
            session.raise_for(status)
        return entry, lines
