"""The rules and charge of both rule sets on a followed state, for daemons and searches.

Nothing here judges a run: the program plays what this module predicts, and `audit` accepts the transcript.
Sources: Hsu and Huang, "A self-stabilizing algorithm for maximal matching", 1992; Manne, Mjelde, Pilard and
Tixeuil, "A new self-stabilizing maximal matching algorithm", 2009.
"""

from __future__ import annotations

from typing import Iterable, Optional

from .state import State

# the charge is at most twice the edges, plus this weight for each present node
WEIGHTS = {"hh": 1, "manne": 3}


def bound(rules: str, edges: int, nodes: int) -> int:
    """The greatest charge, 2m + n or 2m + 3n: a bound on the moves between two disturbances."""
    return 2 * edges + WEIGHTS[rules] * nodes


def dense_bound(nodes: int) -> int:
    """The most moves between two disturbances under `hh`, whatever the edges.

    This is n²/2 + n - 2, the half rounded down; 0 for one node or none.
    """
    return max(0, nodes * nodes // 2 + nodes - 2)


def moves_left(rules: str, charge: int, nodes: int) -> int:
    """The most moves before the next disturbance: the charge, under `hh` at most `dense_bound`."""
    return min(charge, dense_bound(nodes)) if rules == "hh" else charge


def most_moves(rules: str, edges: int, nodes: int) -> int:
    """The most moves between two disturbances, from any state with these numbers of edges and nodes."""
    return moves_left(rules, bound(rules, edges, nodes), nodes)


def most_rounds(rules: str, nodes: int) -> int:
    """The most rounds between two disturbances, from any state with this number of nodes."""
    return nodes if rules == "hh" else nodes + 2 * (nodes // 2)


def suitors(state: State, node: int) -> list[int]:
    """The neighbours that point at a node, ascending."""
    return sorted(other for other in state.neighbours[node] if state.pointers.get(other) == node)


def is_wooed(state: State, node: int) -> bool:
    return any(state.pointers.get(other) == node for other in state.neighbours[node])


def may_court(state: State, node: int) -> list[int]:
    """The neighbours that a node may begin to point at, ascending; under `manne` only the greatest one."""
    null = [other for other in state.neighbours[node] if other not in state.pointers]
    if state.rules == "hh":
        return sorted(null)
    return sorted(other for other in null if other > node and other not in state.flags)[-1:]


def rule_at(state: State, node: int) -> Optional[str]:
    """The enabled rule of a present node, or None."""
    other = state.pointers.get(node)
    if state.rules == "manne" and (node in state.flags) != (state.partner(node) is not None):
        return "update"
    if other is None:
        if is_wooed(state, node):
            return "marry"
        return "seduce" if may_court(state, node) else None
    back = state.pointers.get(other)
    if state.rules == "hh":
        return "abandon" if back is not None and back != node else None
    return "abandon" if back != node and (other in state.flags or other <= node) else None


def targets(state: State, node: int, rule: str) -> list[int]:
    """The targets that a rule allows a node, ascending; none if the rule takes none."""
    if rule == "marry":
        return suitors(state, node)
    return may_court(state, node) if rule == "seduce" else []


def enabled(state: State) -> dict[int, str]:
    found = ((node, rule_at(state, node)) for node in sorted(state.neighbours))
    return {node: rule for node, rule in found if rule}


def is_open(state: State, a: int, b: int) -> bool:
    """Whether the edge between a lower and a higher node is open; an open edge counts twice in the charge."""
    if state.partner(a) or state.partner(b):
        return False
    pointers = state.pointers
    if state.rules == "manne":
        return not (pointers.get(a) == b and b not in state.flags)
    null_a, null_b = a not in pointers, b not in pointers
    awaited = (pointers.get(a) == b and null_b) or (pointers.get(b) == a and null_a)
    return not (awaited or (null_a and null_b and is_wooed(state, a) and is_wooed(state, b)))


def share(state: State, node: int) -> int:
    """A node's part of the charge, without its edges."""
    married = state.partner(node) is not None
    unanswered = int(node in state.pointers and not married)
    if state.rules == "hh":
        return unanswered
    flag = node in state.flags
    return unanswered + (int(not flag) if married else 1 + int(flag))


def charge(state: State, nodes: Optional[Iterable[int]] = None) -> int:
    """The most moves that can come from this state; with `nodes`, the share of these and their edges."""
    nodes = set(state.neighbours if nodes is None else nodes)
    edges = {(min(node, other), max(node, other)) for node in nodes for other in state.neighbours[node]}
    return 2 * sum(is_open(state, a, b) for a, b in edges) + sum(share(state, node) for node in nodes)


def fall(state: State, node: int, rule: str, target: Optional[int]) -> int:
    """By how much the charge falls if a node alone makes this move."""
    before, flags = state.pointers.get(node), node in state.flags
    touched = {node} | {other for other in (before, target, state.pointers.get(node)) if other}
    # whether an edge is open depends on its ends, and under Hsu and Huang's rules on the pointers at them
    charged = charge(state, touched)
    state.move(node, rule, target)
    left = charge(state, touched)
    state.point(node, before or 0)
    state.flag(node, flags)
    return charged - left
