"""The words of an edit or a fault that is asked about before it comes, and why it would be refused."""

from __future__ import annotations

from typing import Sequence

from .names import Names
from .numbers import MOST_EDGES, counted, number_within
from .replies import Name
from .state import State

# the edits and faults, with how many words each takes
COSTED = {"link": 2, "unlink": 2, "join": 1, "leave": 1, "point": 2, "flag": 2}
# the edits and faults that name two nodes
PAIRED = ("link", "unlink", "point")


def numbers_of_edit(names: Names, word: str, given: Sequence[Name], asked: str = "cost") -> list[int]:
    """The numbers of an edit's or a fault's words, 0 for the null pointer.

    Raises `ValueError` if `word` is no edit or fault, and `TypeError` if the number of words is wrong.
    """
    if word not in COSTED:
        raise ValueError(f"{' or '.join(COSTED)} has a {asked}, and not {word!r}")
    if len(given) != COSTED[word]:
        raise TypeError(f"{word} is told {counted(COSTED[word], 'word')}, and not {len(given)}")
    node = (names.number_if_joined if word == "join" else names.number_of)(given[0])
    if word == "flag":
        return [node, number_within(given[1], 1, "a flag")]
    if word == "point" and given[1] is None:
        return [node, 0]
    return [node, *map(names.number_of, given[1:])]


def why_refused(state: State, word: str, node: int, other: int = 0) -> str:
    """The refusal of an edit or a fault by a network in this state; empty if there is none."""
    near = state.neighbours
    if word == "join":
        return "already-present" if node in near else "unknown-node" if node > state.count else ""
    if word == "flag" and state.rules == "hh":
        return "no-flag"
    if node not in near or (word in PAIRED and other and other not in near):
        return "unknown-node"
    if word == "point":
        return "not-neighbour" if other and other not in near[node] else ""
    return why_no_edge(state, word, node, other) if word in PAIRED else ""


def why_no_edge(state: State, word: str, a: int, b: int) -> str:
    if a == b:
        return "self-loop"
    is_linked = b in state.neighbours[a]
    if word == "unlink":
        return "" if is_linked else "not-linked"
    if is_linked:
        return "already-linked"
    return "too-many-edges" if sum(map(len, state.neighbours.values())) >= 2 * MOST_EDGES else ""
