"""An index of the moves of single nodes by how much each lowers the charge, kept by a network's entries.

Written out, `rules.fall` has few terms. With `opened(v)`, the number of open edges at a node v:

- marry v > t, both rule sets: 1 + 2 (opened(v) + opened(t) - the edge between them, if open); under `manne`
  2 more if t is flagged.
- `manne`: seduce, abandon and the update of a paired node: 1. Any other update: 1 + 2 for each suitor below.
- `hh`, seduce v > t: 1, and if t has no suitor also 2 for each neighbour of t that is null and has suitors.
- `hh`, abandon v: 1 + 2 for each suitor of v; and if there are any, also 2 for each neighbour of v that is
  null and has suitors.

A node's entry depends on its neighbours, and for `marry` and `seduce` on those of its target. So after a
change only the nodes near it are looked at again.
"""

from __future__ import annotations

import heapq
from typing import Iterable, Iterator, Optional

from . import rules
from .state import State

# the signed fall of a move, its node, and its target or 0
Entry = tuple[int, int, int]


class Watched(State):
    """A state that keeps which nodes have a register, or an edge, that was written since the last look."""

    def __init__(self, rules: str = "manne", count: int = 0, present: Iterable[int] = ()) -> None:
        super().__init__(rules, count, present)
        # how many nodes point at a node, and the nodes that were written
        self.wooing: dict[int, int] = {}
        self.written: set[int] = set(self.neighbours)

    def point(self, node: int, target: int) -> None:
        self.turn(node, self.pointers.get(node, 0), target)
        super().point(node, target)

    def turn(self, node: int, before: int, after: int) -> None:
        """Notes that a node points elsewhere."""
        for other, more in ((before, -1), (after, 1)):
            if other:
                self.wooing[other] = self.wooing.get(other, 0) + more
        self.written |= {node, before, after} - {0}

    def flag(self, node: int, value: int) -> None:
        self.written.add(node)
        super().flag(node, value)

    def move(self, node: int, rule: str, target: Optional[int]) -> None:
        self.written.add(node)
        super().move(node, rule, target)

    def link(self, a: int, b: int) -> None:
        self.written |= {a, b}
        super().link(a, b)

    def unlink(self, a: int, b: int) -> None:
        for node, other in ((a, b), (b, a)):
            if self.pointers.get(node) == other:
                self.turn(node, other, 0)
        self.written |= {a, b}
        super().unlink(a, b)

    def join(self, node: int) -> None:
        self.written.add(node)
        super().join(node)

    def leave(self, node: int) -> None:
        self.written.add(node)
        super().leave(node)


class Falls:
    """The enabled moves of a followed state, ordered by the fall of the charge; `sign` is -1 for the most."""

    def __init__(self, state: Watched, sign: int) -> None:
        self.state, self.sign = state, sign
        self.heap: list[Entry] = []
        # the entry of each enabled node; others in the heap are out of date
        self.entries: dict[int, Entry] = {}
        # what neighbours saw of a node: whether it is there, its target or null, flag, pair, and suitors
        self.seen: dict[int, object] = {}
        # under `hh`: the fall of a seduction of a node at null
        self.lures: dict[int, int] = {}

    def first(self) -> Optional[Entry]:
        """The first move of all: the least signed fall, then the least node, then the least target."""
        self.update()
        while self.heap and self.entries.get(self.heap[0][1]) != self.heap[0]:
            heapq.heappop(self.heap)
        return self.heap[0] if self.heap else None

    def update(self) -> None:
        """Looks at the nodes near the written ones again."""
        written, self.state.written = self.state.written, set()
        changed = {node for node in written if self.sight(node) != self.seen.get(node)}
        self.seen.update((node, self.sight(node)) for node in changed)
        near = written | self.around(changed)
        courted = {pointer for node in near if (pointer := self.state.pointers.get(node))}
        again = near | courted | (self.lured(near) if self.state.rules == "hh" else set())
        for node in again:
            self.look(node)

    def sight(self, node: int) -> object:
        state = self.state
        if node not in state.neighbours:
            return None
        is_wooed = state.rules == "hh" and bool(state.wooing.get(node))
        is_paired = state.partner(node) is not None
        return state.pointers.get(node, 0), node in state.flags, is_paired, is_wooed

    def around(self, nodes: Iterable[int]) -> set[int]:
        return {near for node in nodes for near in (node, *self.state.neighbours.get(node, ()))}

    def lured(self, near: set[int]) -> set[int]:
        """The nodes whose seduction of one of these became worth more or less; notes what it is worth."""
        found: set[int] = set()
        for node in near:
            worth = self.lure(node)
            if worth != self.lures.get(node, 0):
                self.lures[node] = worth
                found |= self.state.neighbours.get(node, set())
        return found

    def lure(self, node: int) -> int:
        """By how much a seduction of a node lowers the charge under `hh`; 0 if it is not at null."""
        state = self.state
        if node not in state.neighbours or node in state.pointers:
            return 0
        return 1 if state.wooing.get(node) else 1 + 2 * self.wooed_near(node)

    def wooed_near(self, node: int) -> int:
        state = self.state
        return sum(other not in state.pointers and bool(state.wooing.get(other)) for other in state.neighbours[node])

    def look(self, node: int) -> None:
        """Computes a node's entry again."""
        entry = min(self.moves(node), default=None) if node in self.state.neighbours else None
        if entry is None:
            self.entries.pop(node, None)
        elif self.entries.get(node) != entry:
            self.entries[node] = entry
            heapq.heappush(self.heap, entry)

    def moves(self, node: int) -> Iterator[Entry]:
        state, sign = self.state, self.sign
        rule = self.rule_at(node)
        if rule == "marry":
            here = self.opened(node)
            for other in rules.suitors(state, node):
                yield sign * self.marriage(node, other, here), node, other
        elif rule == "seduce" and state.rules == "manne":
            yield sign, node, rules.may_court(state, node)[0]
        elif rule == "seduce":
            for other in rules.may_court(state, node):
                yield sign * self.lures[other], node, other
        elif rule:
            yield sign * self.farewell(node, rule), node, 0

    def rule_at(self, node: int) -> Optional[str]:
        state = self.state
        if node not in state.pointers and not state.wooing.get(node) and node not in state.flags:
            return "seduce" if rules.may_court(state, node) else None
        return rules.rule_at(state, node)

    def marriage(self, node: int, other: int, here: int) -> int:
        state = self.state
        both = self.is_open(node, other)
        return 1 + 2 * (other in state.flags) + 2 * (here + self.opened(other) - both)

    def farewell(self, node: int, rule: str) -> int:
        """The fall of an update or of an abandonment."""
        state = self.state
        if state.rules == "hh":
            suitors = state.wooing.get(node, 0)
            return 1 + 2 * suitors + (2 * self.wooed_near(node) if suitors else 0)
        if rule == "abandon" or state.partner(node) is not None:
            return 1
        return 1 + 2 * sum(other < node for other in rules.suitors(state, node))

    def opened(self, node: int) -> int:
        return sum(self.is_open(node, other) for other in self.state.neighbours[node])

    def is_open(self, node: int, other: int) -> bool:
        """As `rules.is_open`, with the number of suitors at hand."""
        state = self.state
        if state.rules == "manne":
            return rules.is_open(state, min(node, other), max(node, other))
        first, second = state.pointers.get(node), state.pointers.get(other)
        is_awaited = (first == other and second is None) or (second == node and first is None)
        if is_awaited or not self.are_single(node, other):
            return False
        return not (first is None and second is None and state.wooing.get(node) and state.wooing.get(other))

    def are_single(self, node: int, other: int) -> bool:
        state = self.state
        return state.partner(node) is None and state.partner(other) is None
