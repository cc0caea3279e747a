"""The costs of edits and faults in a silent network, by docs/BOUNDS.md."""

from __future__ import annotations

from typing import Optional

from . import reaches
from .cost_tables import Network


def is_silent(net: Network, rules: str) -> bool:
    """No rule is enabled: every node is at rest."""
    return all(reaches.is_at_rest(net, rules, node) for node in net.present)


def near(net: Network, *nodes: int) -> int:
    """Twice the unmarried neighbours of the nodes, summed."""
    return 2 * sum(len(reaches.lone(net, node)) for node in nodes)


def point_cost(net: Network, rules: str, node: int, target: Optional[int]) -> int:
    """Of a written pointer, with `None` for null."""
    partner = net.partner(node)
    if partner is None:
        return 0 if target is None else 1
    if partner == target:
        return 0
    if rules == "manne":
        return near(net, node, partner) + (9 if target is None else 10)
    if target is None:
        return near(net, node, partner) + 1
    return near(net, node, partner) - 2 * (target in reaches.lone(net, node)) + 4


def silent_cost(net: Network, rules: str, kind: str, node: int, other: Optional[int] = None) -> int:
    """The most moves that may follow an accepted edit or fault of a silent network."""
    partner, manne = net.partner(node), rules == "manne"
    if kind == "link" and other is not None:
        return (4 if manne else 2) if partner is None and net.partner(other) is None else 0
    if kind == "unlink":
        return near(net, node, partner) + 6 * manne if partner is not None and partner == other else 0
    if kind == "leave":
        return near(net, partner) + 3 * manne if partner is not None else 0
    if kind == "flag":
        return int(bool(other) != (partner is not None))
    return point_cost(net, rules, node, other) if kind == "point" else 0
