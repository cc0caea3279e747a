"""Why a node may move, or may not, in words: for messages about a verdict. No verdict is made here."""

from __future__ import annotations

from typing import Callable, Optional, Sequence

from . import rules
from .state import State

# the most names of a list in a message
LISTED = 12


class Reasons:
    """Messages about nodes in a state; a function turns numbers into names."""

    def __init__(self, state: State, name: Callable[[int], str]) -> None:
        self.state, self.name = state, name
        self.has_flags = state.rules == "manne"

    def names(self, numbers: Sequence[int]) -> str:
        listed = [self.name(number) for number in numbers[:LISTED]]
        more = len(numbers) - LISTED
        return ", ".join(listed) + (f" and {more} more" if more > 0 else "")

    def pointer(self, node: int) -> str:
        other = self.state.pointers.get(node)
        return "null" if other is None else self.name(other)

    def flag(self, node: int) -> str:
        return "true" if node in self.state.flags else "false"

    def registers(self, node: int) -> str:
        if node not in self.state.neighbours:
            return f"{self.name(node)} is not present"
        held = f"{self.name(node)} points at {self.pointer(node)}"
        return f"{held}, flag {self.flag(node)}" if self.has_flags else held

    def around(self, node: int) -> list[str]:
        """The registers of a node and its neighbours, a line each."""
        near = sorted(self.state.neighbours.get(node, ()))
        lines = [self.registers(other) for other in (node, *near[:LISTED])]
        if len(near) > LISTED:
            lines.append(f"and {len(near) - LISTED} more neighbours of {self.name(node)}")
        return lines

    def standing(self, node: int) -> str:
        """A node's relation to its target, or to the nodes that point at it."""
        state, name = self.state, self.name(node)
        other = state.pointers.get(node)
        if other is not None:
            if state.pointers.get(other) == node:
                return f"{name} and {self.name(other)} are a pair"
            return f"{name}'s pointer is {self.name(other)}, and {self.name(other)} points at {self.pointer(other)}"
        wooing = rules.suitors(state, node)
        if wooing:
            return f"{name}'s pointer is null, and at {name} points {self.names(wooing)}"
        return f"{name}'s pointer is null, and nobody points at {name}"

    def allowed(self, node: int) -> str:
        name = self.name(node)
        if node not in self.state.neighbours:
            return f"{name} is not present"
        rule = rules.rule_at(self.state, node)
        if rule is None:
            return f"{self.standing(node)}: {self.why_silent(node)}"
        if rule == "update":
            state = "in a pair" if self.state.partner(node) is not None else "in no pair"
            return f"{name} is {state}, and its flag is {self.flag(node)}: {name} may only update its flag"
        if rule == "abandon":
            return f"{self.standing(node)}{self.why_hopeless(node)}: {name} may only abandon"
        targets = rules.targets(self.state, node, rule)
        one = "" if len(targets) == 1 else "one of "
        return f"{self.standing(node)}: {name} may only {rule} {one}{self.names(targets)}"

    def why_hopeless(self, node: int) -> str:
        """Under `manne`: why a node that does not point back will not."""
        if not self.has_flags:
            return ""
        other = self.state.pointers[node]
        return ", flagged" if other in self.state.flags else f", not above {self.name(node)}"

    def why_silent(self, node: int) -> str:
        state, name = self.state, self.name(node)
        other = state.pointers.get(node)
        if other is not None and state.pointers.get(other) == node:
            return f"no rule is enabled at {name}"
        if other is not None:
            return f"{name} may only wait for {self.name(other)}"
        if self.has_flags:
            return f"{name} has no neighbour above it that points at null and is unflagged, so it may not move"
        return f"{name} has no neighbour that points at null, so it may not move"

    def why_not_at(self, node: int, target: int) -> Optional[str]:
        """Why a node that may marry or seduce may not choose this target; None if the target is no reason."""
        state, name, other = self.state, self.name(node), self.name(target)
        rule = rules.rule_at(state, node) if node in state.neighbours else None
        if target not in state.neighbours:
            return f"{other} is not present"
        if target == node:
            return f"{name} is no neighbour of itself"
        if target not in state.neighbours.get(node, ()):
            return f"{other} is no neighbour of {name}"
        if rule == "marry":
            return None if state.pointers.get(target) == node else f"{other} does not point at {name}"
        if rule not in ("seduce", None) or node in state.pointers:
            return None
        if target in state.pointers:
            return f"{other} points at {self.pointer(target)}"
        if not self.has_flags:
            return None
        return self.why_not_seduced(node, target)

    def why_not_seduced(self, node: int, target: int) -> Optional[str]:
        """The same as `why_not_at` under `manne`, for a neighbour that points nowhere."""
        if target < node:
            return f"{self.name(target)} stands below {self.name(node)} (they are nodes {target} and {node})"
        if target in self.state.flags:
            return f"{self.name(target)} is flagged"
        greatest = rules.may_court(self.state, node)
        return None if greatest == [target] else f"{self.names(greatest)} stands above {self.name(target)}"
