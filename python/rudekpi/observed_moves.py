"""What a log shows of a move: a node's registers before and after it."""

from __future__ import annotations

from typing import Any, NamedTuple, Optional

from . import rules
from .engines import RULES
from .state import State

UPDATE, ABANDON = RULES["update"], RULES["abandon"]
CHOOSING = RULES["marry"], RULES["seduce"]


class Observed(NamedTuple):
    """A node's registers before and after a move, its wish, and the only rule that writes like this.

    Pointers are numbers, 0 for null. `wish` is the step's target, or 0. `rule` is 0 for marry or seduce, -1
    for no rule.
    """

    node: int
    old: int
    new: int
    was: bool
    flag: bool
    wish: int
    rule: int


def observed(node: int, old: int, new: int, was: bool, flag: bool) -> Observed:
    if flag != was:
        return Observed(node, old, new, was, flag, 0, UPDATE if new == old else -1)
    if new == old:
        return Observed(node, old, new, was, flag, 0, -1)
    return Observed(node, old, new, was, flag, new, 0 if new else ABANDON)


def with_own(did: Observed, pointer: int, flag: bool) -> list[Observed]:
    """The same line, had the node held other registers.

    The line names the register that it changed. If it changed none, it may name either one.
    """
    if did.new != did.old or did.flag != did.was:
        new, after = did.new if did.new != did.old else pointer, did.flag if did.flag != did.was else flag
        return [observed(did.node, pointer, new, flag, after)]
    return [observed(did.node, pointer, new, flag, after) for new in {did.new, pointer} for after in {did.flag, flag}]


def is_plain(move: Any) -> bool:
    """Whether this is a move that writes one register, as most moves do."""
    return isinstance(move, dict) and len(move) == 2 and "move" in move and ("pointer" in move or "flag" in move)


def is_allowed(state: State, seen: Observed) -> bool:
    """Whether the rules seem to allow what was observed; for messages, and if there is no library."""
    return rule_of(state, seen) is not None


def rule_of(state: State, seen: Observed) -> Optional[int]:
    """The number of the rule that lets a node move as observed, or None."""
    if seen.node not in state.neighbours or seen.rule < 0:
        return None
    rule = rules.rule_at(state, seen.node)
    if rule is None:
        return None
    fits = seen.new in rules.targets(state, seen.node, rule) if not seen.rule else seen.rule == RULES[rule]
    return RULES[rule] if fits else None


def moves_of(state: State, node: int) -> list[Observed]:
    """The moves that the rules seem to allow a node."""
    rule = rules.rule_at(state, node) if node in state.neighbours else None
    if rule is None:
        return []
    old, was = state.pointers.get(node, 0), node in state.flags
    if rule == "update":
        return [observed(node, old, old, was, not was)]
    return [observed(node, old, new, was, was) for new in rules.targets(state, node, rule) or [0]]
