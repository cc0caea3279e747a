"""The costs of edits and faults by the tables of docs/BOUNDS.md, kept from entries alone."""

from __future__ import annotations

import collections
import dataclasses
from typing import Callable, Iterable, Optional


@dataclasses.dataclass
class Network:
    names: int
    present: set[int]
    near: dict[int, set[int]] = dataclasses.field(default_factory=lambda: collections.defaultdict(set))
    pointers: dict[int, Optional[int]] = dataclasses.field(default_factory=dict)
    flags: dict[int, bool] = dataclasses.field(default_factory=dict)

    def degree(self, node: int) -> int:
        return len(self.near[node])

    def points(self, node: int, other: int) -> bool:
        return self.pointers.get(node) == other

    def partner(self, node: int) -> Optional[int]:
        other = self.pointers.get(node)
        return other if other and self.points(other, node) else None

    def has_suitor(self, node: int) -> bool:
        return any(self.points(other, node) for other in self.near[node])

    def pairs(self) -> int:
        return sum(self.partner(node) is not None for node in self.present) // 2

    def edges(self) -> list[tuple[int, int]]:
        return [(node, other) for node, others in self.near.items() for other in others]

    def cut(self, one: int, other: int) -> None:
        for node, end in ((one, other), (other, one)):
            self.near[node].discard(end)
            if self.points(node, end):
                del self.pointers[node]

    def take(self, kind: str, node: int, other: Optional[int] = None) -> None:
        """`None` is null."""
        if kind == "point":
            self.pointers[node] = other
        elif kind == "flag":
            self.flags[node] = bool(other)
        elif kind == "join":
            self.present.add(node)
        elif kind == "leave":
            for end in [*self.near[node]]:
                self.cut(node, end)
            self.present.discard(node)
            self.flags[node] = False
        elif other is not None and kind == "link":
            self.near[node].add(other)
            self.near[other].add(node)
        elif other is not None:
            self.cut(node, other)

    def move(self, moves: Iterable[str]) -> None:
        """All read in the state before it."""
        married = {node for node in self.present if self.partner(node)}
        for text in moves:
            name, _, act = text.partition(":")
            if act == "update":
                self.flags[int(name)] = int(name) in married
            else:
                self.pointers[int(name)] = int(act.partition(">")[2] or 0) or None


def hsu_huang_cost(net: Network, kind: str, node: int, other: Optional[int] = None) -> int:
    target = net.pointers.get(node)
    if kind == "link":
        return 2
    if kind == "unlink" and other is not None:
        crossing = [(node, other), (other, node)]
        return 2 * sum(net.degree(head) - 1 for tail, head in crossing if net.points(tail, head))
    if kind == "leave":
        return 2 * (net.degree(target) - 1) if target else 0
    if kind != "point":
        return 0
    if not target:
        return 2 * net.degree(node) if net.has_suitor(node) else 1
    return 2 * (net.degree(target) + (net.degree(node) if net.partner(node) else 0))


def manne_cost(net: Network, kind: str, node: int, other: Optional[int] = None) -> int:
    partner = net.partner(node)
    if kind == "link":
        return 2
    if kind == "join":
        return 1
    if kind == "flag":
        return 1 + (2 * net.degree(node) if other and net.has_suitor(node) else 0)
    if kind == "unlink":
        return 2 * (net.degree(node) + net.degree(partner) - 2) + 4 if partner and partner == other else 0
    if kind == "leave":
        return 2 * (net.degree(partner) - 1) + 2 if partner else 0
    if partner:
        return 2 * (net.degree(node) + net.degree(partner)) + 4
    return 2 if net.pointers.get(node) else 1


Event = tuple[str, int, Optional[int]]
COSTS: dict[str, Callable[[Network, str, int, Optional[int]], int]] = {"hh": hsu_huang_cost, "manne": manne_cost}
