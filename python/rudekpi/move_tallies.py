"""Moves and divergences by node and rule: a bug of one node's code shows here at once."""

from __future__ import annotations

from collections import defaultdict
from dataclasses import dataclass
from typing import Callable, DefaultDict, Iterable

from .library import MOVES
from .local_rules import REPAIR
from .replies import Name

WRONG, STALE = range(2)
# the rules by their numbers
RULES = ("none", *MOVES[1:], "repair")
COUNT = len(RULES)
assert RULES[REPAIR] == "repair"


@dataclass(frozen=True)
class MoveTally:
    """The moves of a node by a rule.

    `moves` counts all of them. `wrong` counts those that the rules do not allow on what the node saw; without
    a `saw`, those that no stale copy explains. `stale` counts those that the machine refuses and a stale copy
    explains: the `saw`, or else a guess. `rule` is that of the verdict, or the one that would write so, or
    `none`; `repair` writes null for a pointer at no neighbour.
    """

    node: Name
    rule: str
    moves: int
    wrong: int
    stale: int


class MoveTallies:
    def __init__(self) -> None:
        # by node and rule's number, in one number: the moves that did not diverge, and those that did by kind
        self.moved: DefaultDict[int, int] = defaultdict(int)
        self.counts: dict[int, list[int]] = {}

    def move(self, node: int, rule: int) -> None:
        self.moved[node * COUNT + rule] += 1

    def diverge(self, node: int, rule: int, kind: int) -> None:
        self.counts.setdefault(node * COUNT + rule, [0, 0])[kind] += 1

    def rows(self, name: Callable[[int], Name]) -> tuple[MoveTally, ...]:
        """The tallies with divergences or stale moves: the most wrong ones first."""
        found = []
        for at, (wrong, stale) in self.counts.items():
            node, rule = divmod(at, COUNT)
            found.append(MoveTally(name(node), RULES[rule], self.moved.get(at, 0) + wrong + stale, wrong, stale))
        # those of equal counts stay in the order of the log
        return tuple(sorted(found, key=lambda row: (-row.wrong, -row.stale)))


def tally_lines(rows: Iterable[MoveTally], shown: Callable[[Name], str]) -> list[str]:
    return [
        f"{shown(row.node)}, {row.rule}: {row.wrong} of {row.moves} wrong, {row.stale} by a stale view" for row in rows
    ]
