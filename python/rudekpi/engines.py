"""The machine as the judge of a log sees it: nodes and answers are plain numbers."""

from __future__ import annotations

import array
import ctypes
from itertools import chain
from typing import Iterator, NamedTuple, Optional, Protocol, Sequence

from .direct import Direct
from .errors import Refused
from .library import DONE, ENTRY, MOVES, REFUSAL, REFUSED, ROW_NUMBERS, Library, chosen
from .names import Names
from .network import Network
from .program import Program
from .replies import Wish
from .state import WORDS

# how many rows of moves, and of words, a step of one node has
ONE = ctypes.c_size_t.from_param(1)
RULES = {rule: number for number, rule in enumerate(MOVES) if rule}


class Stand(NamedTuple):
    """The counts of a `status`."""

    nodes: int
    edges: int
    pairs: int
    enabled: int
    charge: int
    spent: int


class Stepped(NamedTuple):
    """The answer to a step: its refusal's number, or 0 and the moves as numbers."""

    refusal: int
    moves: Sequence[tuple[int, int, int]]


class Engine(Protocol):
    """What the judge of a log asks the machine."""

    def edit(self, word: str, *numbers: int) -> int:
        """Carries out an edit or a fault; returns 0, or the refusal's number."""

    def moved(self, node: int, wish: int) -> int:
        """Moves a node, to `wish` unless that is 0; returns its rule's number, or minus the refusal's."""

    def step(self, items: Sequence[tuple[int, int]]) -> Stepped:
        """Moves nodes at once."""

    def enabled(self) -> dict[int, str]:
        """The enabled nodes with their rules."""

    def status(self) -> Stand:
        """The status of the network."""

    def entry(self) -> int:
        """The number of the last entry."""

    def taken(self) -> bytes:
        """The transcript's text since the last call."""

    def close(self) -> None:
        """Ends the run."""


class OfLibrary:
    """A session of the library, called without the slower types of `Network`."""

    def __init__(
        self, library: Library, rules: str, count: int, present: int, keeps: bool, base: Optional[bytes] = None
    ) -> None:
        self.library, self.session = library, Direct(library, Names(count), rules, present, True, base)
        self.at, self.count, self.place = self.session.at, count, 0
        told, items, row = ((ctypes.c_uint32 * 8)(), (ctypes.c_uint32 * 2)(), (ctypes.c_uint32 * ROW_NUMBERS)())
        self.told_at, self.items_at, self.row_at = map(ctypes.byref, (told, items, row))
        self.told, self.item, self.row = (memoryview(it).cast("B").cast("I") for it in (told, items, row))
        self.edits = {word: getattr(library, word) for word in WORDS}
        self.step_call, self.rows_call = library.step_of_one, library.rows_of_one
        if not keeps:
            self.checked(library.transcript(self.at, ctypes.c_bool(False)))

    def checked(self, status: int) -> int:
        """0, or the number of the refusal. Raises the error of any other status."""
        if status == DONE:
            return 0
        if status != REFUSED:
            self.session.raise_for(status)
        return self.told[REFUSAL]

    def edit(self, word: str, *numbers: int) -> int:
        status = self.edits[word](self.at, *numbers, self.told_at)
        return self.checked(status) if status else 0

    def moved(self, node: int, wish: int) -> int:
        item = self.item
        item[0], item[1] = node, wish
        status = self.step_call(self.at, self.items_at, ONE, self.told_at)
        if status:
            return -self.checked(status)
        self.rows_call(self.at, self.row_at, ONE)
        return self.row[1]

    def step(self, items: Sequence[tuple[int, int]]) -> Stepped:
        given = array.array("I", chain.from_iterable(items))
        at, size = ctypes.c_void_p(given.buffer_info()[0]), ctypes.c_size_t(len(items))
        refusal = self.checked(self.library.step(self.at, at, size, self.told_at))
        return Stepped(refusal, () if refusal else [*self.rows(len(items))])

    def rows(self, most: int) -> Iterator[tuple[int, int, int]]:
        room = (ctypes.c_uint32 * (ROW_NUMBERS * most))()
        count = self.library.rows(self.at, room, ctypes.c_size_t(most))
        flat = room[: ROW_NUMBERS * count]
        return zip(flat[::3], flat[1::3], flat[2::3])

    def enabled(self) -> dict[int, str]:
        self.checked(self.library.enabled(self.at, self.told_at))
        return {node: MOVES[rule] for node, rule, _ in self.rows(self.count)}

    def status(self) -> Stand:
        counts = (ctypes.c_uint32 * len(Stand._fields))()
        self.checked(self.library.status(self.at, counts, self.told_at))
        return Stand(*counts)

    def entry(self) -> int:
        return self.told[ENTRY]

    def taken(self) -> bytes:
        if self.session.is_closed:
            # a full log has ended the session, which took the rest of its text over
            text, self.place = self.session.text_kept.since(self.place)
            return text
        wanted = self.library.session_length(self.at)
        room = ctypes.create_string_buffer(wanted)
        self.library.session_read(self.at, room, ctypes.c_size_t(wanted))
        return room.raw

    def close(self) -> None:
        self.session.close()


class OfProgram:
    """A run of the program, asked one command after another."""

    def __init__(self, program: Program, rules: str, count: int, present: int, base: Optional[bytes] = None) -> None:
        if base is None:
            self.net = Network(rules, count, present=present, program=program, engine="program")
        else:
            self.net = Network.resume(base, program=program, engine="program")
        self.place = 0

    def edit(self, word: str, *numbers: int) -> int:
        given = [*numbers]
        call = getattr(self.net, word)
        try:
            call(given[0], given[1] or None) if word == "point" else call(*given)
        except Refused as refused:
            return refused.number
        return 0

    def moved(self, node: int, wish: int) -> int:
        refusal, moves = self.step([(node, wish)])
        return -refusal if refusal else moves[0][1]

    def step(self, items: Sequence[tuple[int, int]]) -> Stepped:
        try:
            moves = self.net.step([Wish(node, wish) if wish else node for node, wish in items])
        except Refused as refused:
            return Stepped(refused.number, ())
        return Stepped(0, [(move.node, RULES[move.rule], move.target or 0) for move in moves])

    def enabled(self) -> dict[int, str]:
        return dict(self.net.enabled())

    def status(self) -> Stand:
        found = self.net.status()
        return Stand(found.nodes, found.edges, found.pairs, found.enabled, found.charge, found.spent)

    def entry(self) -> int:
        return self.net._session.entries

    def taken(self) -> bytes:
        text, self.place = self.net._session.since(self.place)
        return text

    def close(self) -> None:
        self.net.close()


def base_of(rules: str, count: int, present: Sequence[int]) -> bytes:
    """The base of a network with these nodes, ascending, and without links."""
    nodes = "".join(f"node {node} - 0\n" for node in present)
    return f"matching2 {rules} {count}\nbase 0 spent=0 nodes={len(present)} edges=0\n{nodes}".encode()


def engine_of(
    rules: str,
    count: int,
    present: int,
    keeps: bool,
    program: Program = None,
    engine: Optional[str] = None,
    base: Optional[bytes] = None,
) -> Engine:
    """A run of a new network, or from a base; the library makes a transcript only if `keeps`."""
    library = chosen(engine, program)
    if library:
        return OfLibrary(library, rules, count, present, keeps, base)
    return OfProgram(program, rules, count, present, base)
