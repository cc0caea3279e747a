"""A simple undirected graph, within the limits of a network."""

from __future__ import annotations

import hashlib
import json
from dataclasses import dataclass, field
from functools import cached_property
from operator import index
from typing import Any, Optional

from .numbers import MOST_EDGES, MOST_NODES
from .replies import Name


def check_sizes(title: str, nodes: int, edges: int) -> None:
    """Raises `ValueError` if no network has that many nodes and edges. Call it before building anything."""
    if min(nodes, edges) < 0:
        raise ValueError(f"{title}: no number is below 0")
    if nodes > MOST_NODES:
        raise ValueError(f"{title}: a network has at most {MOST_NODES} nodes")
    if edges > MOST_EDGES:
        raise ValueError(f"{title}: a network has at most {MOST_EDGES} edges")


@dataclass(frozen=True)
class Disk:
    """The points of a unit disk graph's nodes, in order, and the greatest distance of two linked nodes."""

    radius: float
    points: tuple[tuple[float, float], ...]


@dataclass(frozen=True)
class Graph:
    """A simple undirected graph with a title; the order of its nodes gives their numbers in a network.

    Raises `ValueError` if a node or an edge is there twice, an edge is a loop or names an unknown node, or
    there are more than 65,535 nodes or 1,048,576 edges.
    """

    title: str
    nodes: tuple[Name, ...]
    edges: tuple[tuple[Name, Name], ...] = field(repr=False)
    disk: Optional[Disk] = field(default=None, repr=False, compare=False)

    def __post_init__(self) -> None:
        check_sizes(self.title, len(self.nodes), len(self.edges))
        place = {node: at for at, node in enumerate(self.nodes)}
        if len(place) != len(self.nodes):
            raise ValueError(f"{self.title}: a node is there twice")
        seen = set()
        for a, b in self.edges:
            if a not in place or b not in place:
                raise ValueError(f"{self.title}: the edge of {a!r} and {b!r} names a node that is not there")
            if a == b:
                raise ValueError(f"{self.title}: {a!r} is linked with itself")
            key = edge_key(place[a], place[b])
            if key in seen:
                raise ValueError(f"{self.title}: the edge of {a!r} and {b!r} is there twice")
            seen.add(key)

    @cached_property
    def digest(self) -> str:
        """16 hexadecimal digits of the SHA-256 of the nodes and edges in their order, without the title."""
        place = {node: at for at, node in enumerate(self.nodes, 1)}
        made = hashlib.sha256("\n".join(map(spelled, self.nodes)).encode())
        made.update("".join(f"\n{place[a]} {place[b]}" for a, b in self.edges).encode())
        return made.hexdigest()[:16]


def written_name(name: Name) -> Any:
    """A name in JSON: a text, a number, or a list for a tuple. Raises `TypeError` for any other."""
    if isinstance(name, tuple):
        return [written_name(part) for part in name]
    if isinstance(name, (str, float, bool)):
        return name
    return index(name)


def spelled(name: Name) -> str:
    try:
        return json.dumps(written_name(name))
    except TypeError:
        return ascii(name)


def edge_key(a: int, b: int) -> int:
    """One number for an edge, from the indices of its two nodes in either order."""
    return min(a, b) * (MOST_NODES + 1) + max(a, b)
