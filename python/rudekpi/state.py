"""The state of a network, followed through the lines of a transcript; nodes are numbers."""

from __future__ import annotations

import re
from typing import TYPE_CHECKING, Callable, Iterable, Optional, TypeVar, Union

from .reading import MOVE

if TYPE_CHECKING:
    from .direct import Direct
    from .session import Session

Seen = TypeVar("Seen")
WORDS = {"link": 2, "unlink": 2, "point": 2, "flag": 2, "join": 1, "leave": 1}
ENTRY = re.compile(r"[0-9]+ ((\w+)(?: [^=]*)?) = (.*)")


class State:
    """The present nodes with their neighbours, pointers and flags. A null pointer has no item."""

    def __init__(self, rules: str = "manne", count: int = 0, present: Iterable[int] = ()) -> None:
        self.rules, self.count = rules, count
        self.neighbours: dict[int, set[int]] = {node: set() for node in present}
        self.pointers: dict[int, int] = {}
        self.flags: set[int] = set()
        self.entry = 0

    def follow(self, lines: Iterable[str]) -> None:
        """Follows lines of a transcript that `audit` accepts; a base replaces the state."""
        for line in lines:
            if line[:1].isdigit():
                self.entry += 1
                found = ENTRY.fullmatch(line)
                if not found:
                    raise ValueError(f"{line[:80]!r} is no entry")
                self.follow_entry(found[2], found[1], found[3])
            else:
                self.follow_head(line.split(" "))

    def follow_entry(self, word: str, event: str, reply: str) -> None:
        if word == "step" and not reply.startswith("refused "):
            for move in reply.split(" "):
                self.follow_move(move)
        elif word in WORDS and reply == "ok":
            numbers = [0 if text == "-" else int(text) for text in event.split(" ")[1:]]
            getattr(self, word)(*numbers)

    def follow_move(self, move: str) -> None:
        found = MOVE.fullmatch(move)
        if not found:
            raise ValueError(f"{move[:80]!r} is no move")
        self.move(int(found[1]), found[2] or found[3], int(found[4]) if found[4] else None)

    def follow_head(self, words: list[str]) -> None:
        if words[0] == "matching":
            self.__init__(words[1], int(words[2]), range(1, int(words[-1]) + 1))  # type: ignore[misc]
        elif words[0] == "matching2":
            self.__init__(words[1], int(words[2]))  # type: ignore[misc]
        elif words[0] == "base":
            self.entry = int(words[1])
        elif words[0] == "node":
            self.join(int(words[1]))
            self.point(int(words[1]), 0 if words[2] == "-" else int(words[2]))
            self.flag(int(words[1]), int(words[3]))
        elif words[0] == "edge":
            self.link(int(words[1]), int(words[2]))

    def move(self, node: int, rule: str, target: Optional[int]) -> None:
        """Follows a move of a step; other nodes' moves in the same step do not change its effect."""
        if rule == "update":
            # update is enabled if the flag is wrong
            self.flags ^= {node}
        else:
            self.point(node, target or 0)

    def link(self, a: int, b: int) -> None:
        self.neighbours[a].add(b)
        self.neighbours[b].add(a)

    def unlink(self, a: int, b: int) -> None:
        for node, other in ((a, b), (b, a)):
            self.neighbours[node].remove(other)
            if self.pointers.get(node) == other:
                del self.pointers[node]

    def point(self, node: int, target: int) -> None:
        if target:
            self.pointers[node] = target
        else:
            self.pointers.pop(node, None)

    def flag(self, node: int, value: int) -> None:
        if value:
            self.flags.add(node)
        else:
            self.flags.discard(node)

    def join(self, node: int) -> None:
        self.neighbours[node] = set()

    def leave(self, node: int) -> None:
        for other in list(self.neighbours[node]):
            self.unlink(node, other)
        self.flags.discard(node)
        del self.neighbours[node]

    def edges(self) -> list[tuple[int, int]]:
        """The edges, ascending, each with its lower end first."""
        return sorted((node, other) for node, near in self.neighbours.items() for other in near if node < other)

    def partner(self, node: int) -> Optional[int]:
        other = self.pointers.get(node)
        return other if other is not None and self.pointers.get(other) == node else None


class Follower:
    """The state of a session's network. It is followed on from the last time it was asked for."""

    def __init__(self, session: Union[Direct, Session], make: Callable[[], State] = State) -> None:
        self.session, self.make = session, make
        # the state at a place of the kept text, unless it is in use: a signal's handler that asks meanwhile
        # starts afresh
        self.followed: list[tuple[int, State]] = []

    def state(self) -> State:
        """The network's state once all commands are carried out. Raises what `since` raises."""
        return self.look(lambda state: state)

    def look(self, see: Callable[[State], Seen]) -> Seen:
        """The result of a function on the state, which does not change meanwhile."""
        try:
            place, state = self.followed.pop()
        except IndexError:
            place, state = 0, self.make()
        text, end = self.session.since(place)
        # if an interrupt cuts this function short, it begins again at the start
        state.follow(text.decode().splitlines())
        seen = see(state)
        self.followed[:] = [(end, state)]
        return seen
