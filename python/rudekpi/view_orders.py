"""The order of the neighbours in a node's moves: most writers list them in the same order again."""

from __future__ import annotations

from operator import itemgetter
from typing import Any, Callable, Mapping, Sequence

# takes some nodes' values, in a fixed order
Pick = Callable[[Mapping[int, Any]], Sequence[Any]]


def pick_of(nodes: Sequence[int]) -> Pick:
    if len(nodes) == 1:
        only = nodes[0]
        return lambda held: (held[only],)
    return itemgetter(*nodes)


class ViewOrder:
    """Neighbours of a node as its last move lists them, and how many of its views with these were counted.

    `ascending` picks by number, `listed` in the order of the text.
    """

    __slots__ = "nodes", "listed", "ascending", "count"

    def __init__(self, nodes: tuple[int, ...]) -> None:
        self.ascending, self.count = pick_of(sorted(nodes)), 0
        self.take(nodes)

    def take(self, nodes: tuple[int, ...]) -> None:
        """The same neighbours in another order."""
        self.nodes, self.listed = nodes, pick_of(nodes)
