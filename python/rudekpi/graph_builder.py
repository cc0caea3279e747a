"""Builds a graph while its file is read; refuses at once a graph that no network can have."""

from __future__ import annotations

import re
import warnings
from typing import Callable, Iterable, Optional

from .numbers import MOST_EDGES, MOST_NODES
from .replies import Name
from .simple_graph import Graph, edge_key

WHOLE = re.compile(r"[0-9]{1,18}")
DECIMAL = re.compile(r"[+-]?(?:[0-9]+\.?[0-9]*|\.[0-9]+)(?:[eE][+-]?[0-9]{1,3})?")


def whole(text: str) -> Optional[int]:
    """The number that a text of at most 18 digits means; None for any other text."""
    return int(text) if WHOLE.fullmatch(text) else None


class GraphBuilder:
    """Collects the nodes and edges of a file.

    `spot` formats a position, by default `line 7`. Each `ValueError` begins with the file and the position.
    """

    def __init__(self, path: str, spot: Callable[[int], str] = "line {}".format) -> None:
        self.path, self.spot = path, spot
        self._places: dict[Name, int] = {}
        # where each edge was first named, below 0 if from its later node
        self._edges: dict[int, int] = {}
        self._answered: set[int] = set()
        self._weights: dict[int, float] = {}

    def error(self, at: Optional[int], why: str) -> ValueError:
        return ValueError(f"{self.path}: {why}" if at is None else f"{self.path}: {self.spot(at)}: {why}")

    @property
    def nodes(self) -> list[Name]:
        return list(self._places)

    @property
    def edge_count(self) -> int:
        return len(self._edges)

    def has_node(self, name: Name) -> bool:
        return name in self._places

    def add_node(self, name: Name, at: int) -> None:
        """Adds a node, unless it is known. Raises `ValueError` for one more than a network can have."""
        if name in self._places:
            return
        if len(self._places) == MOST_NODES:
            raise self.error(at, f"a network has at most {MOST_NODES} nodes")
        self._places[name] = len(self._places)

    def add_nodes(self, names: Iterable[int], count: int, at: int) -> None:
        """Adds nodes by number; `count` is how many, checked before any is added."""
        if count > MOST_NODES:
            raise self.error(at, f"{count} nodes; a network has at most {MOST_NODES} nodes")
        for name in names:
            self.add_node(name, at)

    def add_edge(self, a: Name, b: Name, at: int, *, both_ways: bool, weight: Optional[float] = None) -> None:
        """Adds an edge of two known nodes.

        With `both_ways` an edge may be named once from each end, with the same weight. Raises `ValueError` if
        the edge is a loop, is known already, or is one more than a network can have.
        """
        if a == b:
            raise self.error(at, f"{a!r} is linked with itself")
        first, second = self._places[a], self._places[b]
        key, sign = edge_key(first, second), 1 if first < second else -1
        before = self._edges.get(key)
        if before is None:
            if len(self._edges) == MOST_EDGES:
                raise self.error(at, f"a network has at most {MOST_EDGES} edges")
            self._edges[key] = sign * at
            if weight is not None:
                self._weights[key] = weight
        elif not both_ways or before * sign > 0 or key in self._answered:
            raise self.error(at, f"the edge of {a!r} and {b!r} is there already, by {self.spot(abs(before))}")
        elif weight != self._weights.get(key):
            raise self.error(
                at, f"another weight than {self.spot(abs(before))} has for the same edge: a directed graph?"
            )
        else:
            self._answered.add(key)

    def ends_of_edges(self) -> list[tuple[int, int]]:
        """The indices of the nodes of each edge, the earlier node first, in the order of the file."""
        return [divmod(key, MOST_NODES + 1) for key in self._edges]

    def one_sided(self) -> Optional[tuple[Name, Name, int]]:
        """An edge that only one node names, this node first, and its position; None without such an edge."""
        names = self.nodes
        for key, at in self._edges.items():
            if key not in self._answered:
                early, late = (names[place] for place in divmod(key, MOST_NODES + 1))
                return (early, late, at) if at > 0 else (late, early, -at)
        return None

    def graph(self) -> Graph:
        """The graph, its nodes in the order of the file; warns if there were weights, which no rule reads."""
        self.warn_of_weights()
        names = self.nodes
        return Graph(self.path, tuple(names), tuple((names[a], names[b]) for a, b in self.ends_of_edges()))

    def numbered_graph(self) -> Graph:
        """The graph with each name turned into a number, ascending."""
        self.warn_of_weights()
        names = [int(name) for name in self.nodes]
        edges = (sorted((names[a], names[b])) for a, b in self.ends_of_edges())
        return Graph(self.path, tuple(sorted(names)), tuple((a, b) for a, b in edges))

    def warn_of_weights(self) -> None:
        if self._weights:
            warnings.warn(f"{self.path}: its weights are left out", stacklevel=5)
