"""Which nodes an edit or fault reaches: the table of docs/BOUNDS.md, "Where the moves are".

The table holds for both rule sets.
"""

from __future__ import annotations

from typing import Iterable, Iterator

from .state import State


def unpaired(state: State, node: int) -> set[int]:
    return {other for other in state.neighbours[node] if state.partner(other) is None}


def reach(state: State, word: str, node: int, other: int = 0) -> set[int]:
    """The nodes in the reach of an edit or fault that a network in this state accepts.

    `other` is the second node of `link`, `unlink` or `point`, 0 for the null pointer, or the value of `flag`.
    Reads only the neighbours of the named nodes and of their partners.
    """
    partner = state.partner(node)
    if word == "link":
        return {node, other} if partner is None and state.partner(other) is None else set()
    if word == "flag":
        return {node} if bool(other) != (partner is not None) else set()
    if partner is None:
        return {node} if word == "point" and other not in (0, state.pointers.get(node)) else set()
    if word == "leave":
        return {partner} | unpaired(state, partner)
    is_parted = other == partner if word == "unlink" else other != partner
    return {node, partner} | unpaired(state, node) | unpaired(state, partner) if is_parted else set()


def reaches(lines: Iterable[str]) -> Iterator[tuple[int, int]]:
    """The entry of each accepted edit and fault of an accepted transcript, with the size of its reach.

    The entries come in order; each reach is that in the state before its entry. The lines have no newline at
    their ends. They are read once, and none is kept.
    """
    state = State()
    for line in lines:
        # only an accepted edit or fault ends so
        if line.endswith(" = ok"):
            entry, word, *numbers = line.split(" = ")[0].split(" ")
            named = (0 if number == "-" else int(number) for number in numbers)
            yield int(entry), len(reach(state, word, *named))
        state.follow([line])
