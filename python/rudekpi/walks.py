"""Topologies that change at random: links cut, added and rewired, and nodes that walk."""

from __future__ import annotations

import math
import random
from typing import Iterable, Iterator

from .generators import near_pairs
from .simple_graph import Disk

Edge = tuple[int, int]
# how often two nodes are drawn before the linkable ones are listed
TRIES = 100


class Topology:
    """Nodes by number and their links; a link is drawn in constant time."""

    def __init__(self, present: Iterable[int], edges: Iterable[Edge]) -> None:
        self.near: dict[int, set[int]] = {node: set() for node in present}
        self.edges: list[Edge] = []
        self.places: dict[Edge, int] = {}
        for a, b in edges:
            if a in self.near and b in self.near:
                self.link(a, b)

    def link(self, a: int, b: int) -> None:
        edge = (min(a, b), max(a, b))
        self.near[a].add(b)
        self.near[b].add(a)
        self.places[edge] = len(self.edges)
        self.edges.append(edge)

    def unlink(self, a: int, b: int) -> None:
        edge = (min(a, b), max(a, b))
        self.near[a].remove(b)
        self.near[b].remove(a)
        # the last one takes its place
        place, last = self.places.pop(edge), self.edges.pop()
        if last != edge:
            self.edges[place], self.places[last] = last, place

    def join(self, node: int) -> None:
        self.near[node] = set()

    def leave(self, node: int) -> None:
        for other in sorted(self.near[node]):
            self.unlink(node, other)
        del self.near[node]

    def cut(self, drawn: random.Random) -> Edge:
        """Cuts a random link. Raises `ValueError` if there is none."""
        if not self.edges:
            raise ValueError("no link is left that could be cut or rewired")
        edge = drawn.choice(self.edges)
        self.unlink(*edge)
        return edge

    def add(self, drawn: random.Random) -> Edge:
        """Links two random nodes that are not linked. Raises `ValueError` if all are."""
        nodes = sorted(self.near)
        for _ in range(TRIES if len(nodes) > 1 else 0):
            a, b = drawn.sample(nodes, 2)
            if b not in self.near[a]:
                self.link(a, b)
                return a, b
        free = [node for node in nodes if len(self.near[node]) < len(nodes) - 1]
        if not free:
            raise ValueError("all nodes are linked with each other, and no link can be added")
        a = drawn.choice(free)
        return self.link_anew(a, a, drawn)

    def link_anew(self, a: int, but: int, drawn: random.Random) -> Edge:
        """Links a node with a random one, no neighbour and not `but`. Raises `ValueError` without one."""
        others = [node for node in sorted(self.near) if node not in (a, but) and node not in self.near[a]]
        if not others:
            raise ValueError("a node is linked with all others, and no link of its can go elsewhere")
        b = drawn.choice(others)
        self.link(a, b)
        return a, b

    def rewire(self, drawn: random.Random) -> tuple[Edge, Edge]:
        """Cuts a random link, and links one of its ends elsewhere; returns both edges."""
        cut = self.cut(drawn)
        a, b = cut if drawn.random() < 0.5 else cut[::-1]
        return cut, self.link_anew(a, b, drawn)


class Walk:
    """Walking nodes in a square of side 1, linked within a radius; they turn back at the sides."""

    def __init__(self, disk: Disk, topology: Topology, drawn: random.Random) -> None:
        self.radius, self.topology, self.drawn = disk.radius, topology, drawn
        self.at = dict(enumerate(disk.points, 1))

    def steps(self, length: float, is_one_by_one: bool) -> Iterator[list[tuple[str, Edge]]]:
        """Walks each present node a step of this length: the links that change, in all or node by node."""
        for node in sorted(self.topology.near):
            x, y = self.at[node]
            turn = 2 * math.pi * self.drawn.random()
            self.at[node] = folded(x + length * math.cos(turn)), folded(y + length * math.sin(turn))
            if is_one_by_one:
                changes = self.changes_at(node)
                if changes:
                    yield changes
        if not is_one_by_one:
            yield self.changes()

    def changes_at(self, node: int) -> list[tuple[str, Edge]]:
        here, others = self.at[node], sorted(self.topology.near)
        near = {it for it in others if it != node and math.dist(here, self.at[it]) <= self.radius}
        return self.changed({edge_of(node, it) for it in self.topology.near[node]}, {edge_of(node, it) for it in near})

    def changes(self) -> list[tuple[str, Edge]]:
        nodes = sorted(self.topology.near)
        pairs = near_pairs([self.at[node] for node in nodes], self.radius)
        return self.changed({*self.topology.edges}, {(nodes[a - 1], nodes[b - 1]) for a, b in pairs})

    def changed(self, old: set[Edge], new: set[Edge]) -> list[tuple[str, Edge]]:
        """Changes old links of the topology into new ones; returns the edits for this."""
        gone, come = sorted(old - new), sorted(new - old)
        for edge in gone:
            self.topology.unlink(*edge)
        for edge in come:
            self.topology.link(*edge)
        return [*(("unlink", edge) for edge in gone), *(("link", edge) for edge in come)]


def edge_of(a: int, b: int) -> Edge:
    return min(a, b), max(a, b)


def folded(place: float) -> float:
    """The end of a walk along a line, folded back at the walls 0 and 1."""
    place %= 2
    return place if place <= 1 else 2 - place
