"""The choices of daemons."""

from __future__ import annotations

from collections import abc
from typing import Callable

from .errors import WrongChoice
from .numbers import MOST_NODES, counted
from .replies import Choice, Enabled, Name, Wish

Daemon = Callable[[Enabled], Choice]


def numbers_of(choice: Choice, number_of: Callable[[Name], int]) -> list[tuple[int, int]]:
    """The number of each chosen node with its target's, 0 for none.

    The numbers of a set ascend, so that the same set is the same step. Raises `TypeError` if the choice is no
    list of nodes, and `ValueError` if it has more items than a step takes.
    """
    if isinstance(choice, (str, bytes, Wish)) or not isinstance(choice, abc.Iterable):
        raise TypeError(f"a step is given a list of nodes, as [1] or [Wish(1, 2)], and not {choice!r}")
    items = []
    for item in choice:
        wish = number_of(item.target) if isinstance(item, Wish) else 0
        items.append((number_of(item.node if isinstance(item, Wish) else item), wish))
    if isinstance(choice, abc.Set):
        items.sort()
    if len(items) > MOST_NODES:
        raise ValueError(f"{len(items)} items are more than a step takes, which is {MOST_NODES}")
    return items


def items_of(choice: Choice, number_of: Callable[[Name], int]) -> list[str]:
    return [f"{number}>{wish}" if wish else str(number) for number, wish in numbers_of(choice, number_of)]


def checked_choice(choice: Choice, enabled: Enabled) -> Choice:
    """A daemon's choice. Raises `WrongChoice` if the choice is no list, is empty, or has a disabled node."""
    if isinstance(choice, (str, bytes, Wish)) or not isinstance(choice, abc.Iterable):
        raise WrongChoice(f"a daemon gives a list of nodes, and not {choice!r}")
    items = choice if isinstance(choice, abc.Set) else list(choice)
    if not items:
        raise WrongChoice(f"the daemon chose nobody while {counted(len(enabled), 'node is', 'nodes are')} enabled")
    for item in items:
        node = item.node if isinstance(item, Wish) else item
        if node not in enabled:
            raise WrongChoice(f"the daemon chose {node!r}, which is not enabled")
    return items
