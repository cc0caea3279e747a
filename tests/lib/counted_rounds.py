"""Complete rounds by their definition, with the enabled nodes looked up by all registers after each entry.

A round begins with all enabled nodes pending, and is complete once no node is pending: after a step, nodes
that moved or are not enabled are not. An accepted edit or fault cuts the round off.
"""

from __future__ import annotations

import sys

from .places import TOP

sys.path.insert(0, str(TOP / "python"))
from rudekpi import rules  # noqa: E402
from rudekpi.replays import parts_of  # noqa: E402
from rudekpi.state import State  # noqa: E402

__all__ = ["Rounds", "State", "counted_rounds", "most"]


def most(rules_number: int, nodes: int) -> int:
    """The most rounds between two disturbances, by docs/BOUNDS.md."""
    return nodes + 2 * (nodes // 2) if rules_number else nodes


class Rounds:
    """The rounds of a network since the last accepted disturbance, or since its beginning here."""

    def __init__(self, state: State) -> None:
        self.state, self.rounds = state, 0
        self.pending = set(rules.enabled(state))

    def follow(self, line: str) -> None:
        """Follows an entry of a transcript. Lines of a base say nothing new."""
        if not line[0].isdigit():
            return
        event, _, reply = line.partition(" = ")
        self.state.follow([line])
        if reply == "ok":
            self.rounds, self.pending = 0, set(rules.enabled(self.state))
        elif event.split(" ")[1] == "step" and not reply.startswith("refused "):
            movers = {int(move.split(":")[0].split(">")[0]) for move in reply.split(" ")}
            self.pending = {node for node in self.pending - movers if rules.rule_at(self.state, node)}
            if not self.pending:
                self.rounds, self.pending = self.rounds + 1, set(rules.enabled(self.state))


def counted_rounds(transcript: str) -> list[int]:
    """How many rounds each epoch of an accepted transcript completes."""
    parts, state = parts_of(transcript), State()
    state.follow(next(parts))
    rounds, found = Rounds(state), [0]
    for part in parts:
        if len(part) > 1:
            # a base changes nothing
            continue
        rounds.follow(part[0])
        if part[0].endswith(" = ok"):
            found.append(0)
        found[-1] = rounds.rounds
    return found
