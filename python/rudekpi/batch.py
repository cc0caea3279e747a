"""Commands that do not wait for each other."""

from __future__ import annotations

from typing import TYPE_CHECKING, Generic, Optional, Sequence

from .answers import CHECKPOINT
from .choices import items_of
from .errors import Refused, text_of
from .numbers import MOST_SEED, MOST_TURNS, number_within
from .reading import (
    Reader,
    read_accepted,
    read_base,
    read_enabled,
    read_fault,
    read_matching,
    read_moves,
    read_shown,
    read_status,
)
from .replies import (
    Accepted,
    Answer,
    Base,
    Choice,
    Enabled,
    Fault,
    Matching,
    Moves,
    Name,
    Reply,
    Reply_co,
    Shown,
    Status,
    Turns,
)

if TYPE_CHECKING:
    from .names import Names
    from .session import Session


class Pending(Generic[Reply_co]):
    """The answer to a command of a batch; the command may still be under way."""

    __slots__ = ("_session", "_ahead", "_event", "_entry", "_text", "_turns", "_is_base", "_refusals")

    def __init__(
        self, session: Session, event: str, refusals: Optional[dict[int, Refused]] = None, ahead: bytes = b""
    ) -> None:
        # what the program gets before the event; its entries then come before that event's
        self._session, self._ahead, self._event, self._refusals = session, ahead, event.encode(), refusals
        self._is_base = event == CHECKPOINT
        # no entry yet; a base's is 0 if it precedes all entries
        self._entry = -1
        self._text: bytes
        self._turns: Sequence[bytes]

    def result(self) -> Reply_co:
        """Waits for the reply and returns it; raises `Refused` if the event was refused."""
        if self._entry < 0:
            self._session.wait(self)
        return self._session.reply(self)

    def _reply(self, names: Names) -> Reply_co:
        """Raises `ValueError` or `LookupError` if the texts are no reply."""
        raise NotImplementedError


class Asked(Pending[Reply_co]):
    """The answer to a command with one entry, or a base."""

    __slots__ = ("_read",)

    def __init__(
        self, session: Session, event: str, read: Reader[Reply_co], refusals: Optional[dict[int, Refused]] = None
    ) -> None:
        super().__init__(session, event, refusals)
        self._read = read

    def _reply(self, names: Names) -> Reply_co:
        return self._read(names, self._entry, self._event.decode(), text_of(self._text))


class AskedTurns(Pending[Turns[Reply]]):
    """The answer to a command that adds an entry a turn; the entry of a `status` ends them."""

    __slots__ = ("_read",)

    def __init__(
        self, session: Session, line: str, read: Reader[Reply], refusals: Optional[dict[int, Refused]] = None
    ) -> None:
        super().__init__(session, "status", refusals, f"{line}\n".encode())
        self._read = read

    def _reply(self, names: Names) -> Turns[Reply]:
        turns = []
        for entry, line in enumerate(self._turns, self._entry - len(self._turns)):
            event, _, reply = text_of(line).partition(" = ")
            turns.append(self._read(names, entry, event, reply))
        return Turns(tuple(turns), read_status(names, self._entry, "status", text_of(self._text)))


class Batch:
    """Commands of a network, written without waiting; each returns a `Pending`.

    The `result()` of a `Pending` is the reply. The library carries out each command at once. At the end of
    the `with` all replies have come. Then the first `Refused` is raised, unless `raises=False`. The commands
    that were not refused were carried out; `refusals` lists every refusal.
    """

    def __init__(self, session: Session, raises: bool = True, keeps: bool = True) -> None:
        self._session, self._raises, self._number = session, raises, session.names.number_of
        # by entry
        self._kept: Optional[dict[int, Refused]] = {} if keeps else None
        self._last: Optional[Pending[object]] = None

    @property
    def refusals(self) -> list[Refused]:
        """All events known so far to be refused, in the order of their entries."""
        return [refused for _, refused in sorted((self._kept or {}).items())]

    def __enter__(self) -> Batch:
        return self

    def __exit__(self, kind: Optional[type[BaseException]], *_: object) -> None:
        if self._last and not kind:
            self._session.wait(self._last)
            if self._raises and self.refusals:
                raise self.refusals[0]

    def _ask(self, read: Reader[Reply], event: str) -> Answer[Reply]:
        asked = Asked(self._session, event, read, self._kept)
        self._session.ask(asked)
        self._last = asked
        return asked

    def _turns(self, read: Reader[Reply], word: str, seed: int, turns: int) -> Answer[Turns[Reply]]:
        numbers = number_within(seed, MOST_SEED, "a seed"), number_within(turns, MOST_TURNS, "a number of turns")
        asked = AskedTurns(self._session, " ".join([word, *map(str, numbers)]), read, self._kept)
        self._session.ask(asked)
        self._last = asked
        return asked

    def link(self, a: Name, b: Name) -> Answer[Accepted]:
        return self._ask(read_accepted, f"link {self._number(a)} {self._number(b)}")

    def unlink(self, a: Name, b: Name) -> Answer[Accepted]:
        return self._ask(read_accepted, f"unlink {self._number(a)} {self._number(b)}")

    def point(self, node: Name, target: Optional[Name]) -> Answer[Accepted]:
        return self._ask(read_accepted, f"point {self._number(node)} {'-' if target is None else self._number(target)}")

    def flag(self, node: Name, value: bool) -> Answer[Accepted]:
        return self._ask(read_accepted, f"flag {self._number(node)} {number_within(value, 1, 'a flag')}")

    def join(self, node: Name) -> Answer[Accepted]:
        return self._ask(read_accepted, f"join {self._session.names.number_to_join(node)}")

    def leave(self, node: Name) -> Answer[Accepted]:
        return self._ask(read_accepted, f"leave {self._number(node)}")

    def step(self, choice: Choice) -> Answer[Moves]:
        return self._ask(read_moves, " ".join(["step", *items_of(choice, self._number)]))

    def show(self, node: Name) -> Answer[Shown]:
        return self._ask(read_shown, f"show {self._number(node)}")

    def enabled(self) -> Answer[Enabled]:
        return self._ask(read_enabled, "enabled")

    def matching(self) -> Answer[Matching]:
        return self._ask(read_matching, "matching")

    def status(self) -> Answer[Status]:
        return self._ask(read_status, "status")

    def drive(self, seed: int, turns: int) -> Answer[Turns[Moves]]:
        return self._turns(read_moves, "drive", seed, turns)

    def scramble(self, seed: int, faults: int) -> Answer[Turns[Fault]]:
        return self._turns(read_fault, "scramble", seed, faults)

    def checkpoint(self) -> Answer[Base]:
        return self._ask(read_base, CHECKPOINT)

    def _written_base(self) -> tuple[Base, bytes]:
        """A checkpoint's base, and its lines."""
        asked = Asked(self._session, CHECKPOINT, read_base, self._kept)
        self._session.ask(asked)
        return asked.result(), asked._text + b"\n"
