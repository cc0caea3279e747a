"""Guesses at the stale copy that a node may have read, for moves without a `saw`.

A guess goes back to before one recent line: a write of a neighbour, or the coming or going of a link.
"""

from __future__ import annotations

import heapq
from typing import Callable, Iterator, NamedTuple, Optional, Tuple

from .ages import Histories
from .observed_moves import Observed, is_allowed, moves_of, with_own
from .state import State

# how many recent lines are tried
MOST_TRIED = 64


class Before(NamedTuple):
    """A line that a node may not have known of: the other node, what that held before, and whether their link
    came or went at the line (else None)."""

    line: int
    other: int
    held: Tuple[int, bool]
    came: Optional[bool]


class StaleHints:
    def __init__(self, state: State, past: Histories, age: int, shown: Callable[[int], str]) -> None:
        self.state, self.past, self.age, self.shown = state, past, age, shown

    def hint(self, number: int, bad: Observed) -> str:
        """Which stale copy the node may have read; empty if no recent one explains its move."""
        if bad.node not in self.state.neighbours:
            return ""
        recent = heapq.nlargest(MOST_TRIED, self.candidates(number - self.age, bad.node), key=lambda it: it.line)
        for before in recent:
            if self.was_allowed(bad, before):
                return self.words(bad.node, before) + self.or_missing(bad, before.other)
        return ""

    def candidates(self, first: int, node: int) -> Iterator[Before]:
        """The writes of neighbours, and the changes of links, at the first line or later."""
        for line, _, other, came in self.past.changes_since(node, first):
            yield Before(line, other, self.past.at(other, line) or self.present(other), came)
        for other in self.state.neighbours[node]:
            for line, held in self.past.writes_since(other, first):
                yield Before(line, other, (held[2], held[3]), None)

    def present(self, node: int) -> Tuple[int, bool]:
        return self.state.pointers.get(node, 0), node in self.state.flags

    def was_allowed(self, bad: Observed, before: Before) -> bool:
        """Whether the move was allowed before a line, as far as that line concerns its node and one other."""
        state, node, other = self.near(bad.node), bad.node, before.other
        state.point(other, before.held[0])
        state.flag(other, before.held[1])
        if before.came is None:
            return is_allowed(state, bad)
        if before.came:
            state.neighbours[node].discard(other)
        else:
            state.neighbours[node].add(other)
            state.neighbours.setdefault(other, {node})
        # a link that went may have cleared the node's own pointer
        own = self.past.before(node, before.line)
        old = own[2] if own else bad.old
        state.point(node, old)
        return any(is_allowed(state, it) for it in with_own(bad, old, bad.was))

    def near(self, node: int) -> State:
        """A node and its neighbours, apart from the network."""
        state = State(self.state.rules)
        state.neighbours = {node: set(self.state.neighbours[node])}
        for other in (node, *self.state.neighbours[node]):
            state.neighbours.setdefault(other, {node})
            state.point(other, self.state.pointers.get(other, 0))
            state.flag(other, other in self.state.flags)
        return state

    def words(self, node: int, before: Before) -> str:
        name, other = self.shown(node), self.shown(before.other)
        if before.came is None:
            return (
                f"with what {other} held before line {before.line} it was allowed: "
                f"{name} may have read a stale copy of {other}"
            )
        came = "came" if before.came else "went"
        return (
            f"before the link to {other} {came}, at line {before.line}, it was allowed: "
            f"{name} may not have known that it {came}"
        )

    def or_missing(self, bad: Observed, other: int) -> str:
        """Whether a move of the other node that the log lacks would explain it as well."""
        near = self.near(bad.node)
        for move in moves_of(self.state, other):
            near.point(other, move.new)
            near.flag(other, move.flag)
            if is_allowed(near, bad):
                return f", or a line of {self.shown(other)} is missing"
        return ""
