"""The nodes at rest, and those that edits and faults reach, by docs/BOUNDS.md."""

from __future__ import annotations

from typing import Optional

from .cost_tables import Network


def lone(net: Network, node: int) -> set[int]:
    return {other for other in net.near[node] if net.partner(other) is None}


def is_at_rest(net: Network, rules: str, node: int) -> bool:
    """An absent one is."""
    paired = net.partner(node) is not None
    if rules == "manne" and net.flags.get(node, False) != paired:
        return False
    return paired or (net.pointers.get(node) is None and not lone(net, node))


def point_reach(net: Network, node: int, target: Optional[int]) -> set[int]:
    partner = net.partner(node)
    if partner is None:
        return set() if target in (None, net.pointers.get(node)) else {node}
    return set() if target == partner else {node, partner} | lone(net, node) | lone(net, partner)


def reach(net: Network, kind: str, node: int, other: Optional[int] = None) -> set[int]:
    """By an accepted edit or fault, with None for null."""
    partner = net.partner(node)
    if kind == "link" and other is not None:
        return {node, other} if partner is None and net.partner(other) is None else set()
    if kind == "unlink" and partner is not None:
        return {node, partner} | lone(net, node) | lone(net, partner) if partner == other else set()
    if kind == "leave":
        return {partner} | lone(net, partner) if partner else set()
    if kind == "flag":
        return {node} if bool(other) != (partner is not None) else set()
    return point_reach(net, node, other) if kind == "point" else set()
