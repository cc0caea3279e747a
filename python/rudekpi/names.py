"""The names of a network's nodes, and their numbers in the transcript."""

from __future__ import annotations

import itertools
import re
from collections import Counter
from operator import index
from typing import Iterable, Optional, Union, cast

from .numbers import MOST_NODES, counted, number_within
from .replies import Name

NUMBER = re.compile(r"(?<=[ >])[0-9]+")


def own_names(nodes: Iterable[Name]) -> list[Name]:
    """The caller's names, each once, none of them None; a numpy array gives Python's own values.

    Raises `TypeError` if `nodes` is no iterable or an item is not hashable, and `ValueError` if `nodes` is a
    text, or an item is None or is there twice.
    """
    what = "nodes are a number or a list of names, of which none is None"
    if not isinstance(nodes, Iterable):
        raise TypeError(f"{what}, and not {nodes!r}")
    names: list[Name] = list(nodes.tolist() if hasattr(nodes, "tolist") else nodes)
    if isinstance(nodes, (str, bytes)) or any(name is None for name in names):
        raise ValueError(what)
    odd = next((name for name in names if not is_hashable(name)), None)
    if odd is not None:
        raise TypeError(f"a node's name is hashable, as a number, a text or a tuple, and not {odd!r}")
    counts = Counter(names)
    if len(counts) != len(names):
        raise ValueError(f"two nodes have the name {next(name for name in names if counts[name] > 1)!r}")
    return names


def is_hashable(name: Name) -> bool:
    try:
        hash(name)
    except TypeError:
        return False
    return True


def is_number(nodes: object) -> bool:
    """Whether this is a whole number, also of numpy. A numpy array claims to be a number, and is none."""
    return hasattr(nodes, "__index__") and not getattr(nodes, "shape", ())


class Names:
    """The numbers 1 to a count as names, or the caller's own names, numbered 1, 2, .. in order.

    With a greater capacity more nodes may join: their names are the next numbers, or new names of the caller.
    """

    def __init__(self, nodes: Union[int, Iterable[Name]], capacity: Optional[int] = None) -> None:
        own = None if is_number(nodes) else own_names(cast("Iterable[Name]", nodes))
        self.numbers = {name: number for number, name in enumerate(own or [], 1)}
        count = cast(int, nodes) if own is None else len(own)
        # how many numbers have a name from the start on
        self.given = number_within(count, MOST_NODES, "a number of nodes")
        self.count = self.given if capacity is None else number_within(capacity, MOST_NODES, "a capacity")
        if self.count < self.given:
            raise ValueError(f"a capacity of {self.count} is less than {counted(self.given, 'node')}")
        # None for a number that has no name yet
        self.own: Optional[list[Name]] = None if own is None else own + [None] * (self.count - self.given)
        # one C call draws a number, so that no handler of a signal gets the same number
        self.free = itertools.count(self.given + 1)

    def all(self) -> list[Name]:
        if self.own is None:
            return list(range(1, self.count + 1))
        return [name for name in self.own if name is not None]

    def number_of(self, name: Name) -> int:
        if self.own is None:
            try:
                number = int(index(name))
            except TypeError:
                raise TypeError(f"a node's name is a number here, 1 to {MOST_NODES}, and not {name!r}") from None
            if not 0 < number <= MOST_NODES:
                raise ValueError(f"a node's name is 1 to {MOST_NODES}, and not {number}")
            return number
        try:
            return self.numbers[name]
        except KeyError:
            raise ValueError(f"no node has the name {name!r}") from None
        except TypeError:
            raise TypeError(f"a node's name is hashable, as a number, a text or a tuple, and not {name!r}") from None

    def is_new(self, name: Name) -> bool:
        """Whether a node may join under this new name of the caller."""
        return self.own is not None and name is not None and is_hashable(name) and name not in self.numbers

    def number_to_join(self, name: Name) -> int:
        """The number of a node that joins: a new name gets the next free number, and keeps it.

        Raises `ValueError` if no number is free."""
        if self.own is None or not self.is_new(name):
            return self.number_of(name)
        number = next(self.free)
        if number > self.count:
            raise self.no_room(name)
        number = self.numbers.setdefault(name, number)
        self.own[number - 1] = name
        return number

    def number_if_joined(self, name: Name) -> int:
        if self.own is None or not self.is_new(name):
            return self.number_of(name)
        if None not in self.own:
            raise self.no_room(name)
        return self.own.index(None) + 1

    def no_room(self, name: Name) -> ValueError:
        return ValueError(
            f"no number is left for {name!r}: the capacity is {self.count}, and as many names are known; "
            "Network(.., capacity=N) has room for more"
        )

    def known(self, number: int) -> Optional[Name]:
        if not 0 < number <= self.count:
            return None
        return number if self.own is None else self.own[number - 1]

    def name_of(self, number: int) -> Name:
        if not 0 < number <= self.count:
            raise ValueError(f"no node has the number {number}")
        if self.own is None:
            return number
        name = self.own[number - 1]
        if name is None:
            raise ValueError(f"node {number} has no name yet")
        return name

    def told(self, event: str) -> str:
        """An event with the caller's own names."""
        if self.own is None:
            return event
        # the second number of a flag is no node's
        most = int(event.startswith("flag "))
        return NUMBER.sub(lambda found: repr(self.name_of(int(found[0]))), event, count=most)

    def named(self, given: Optional[int]) -> Optional[Name]:
        return None if given is None else self.name_of(given)


PRESENT = re.compile(rb"^(?:[0-9]+ join ([0-9]+) = ok|node ([0-9]+) .*)$", re.MULTILINE)


def head_of(transcript: Union[str, bytes]) -> tuple[int, int]:
    """The capacity in the first line of a transcript, and how many nodes that line makes present."""
    if isinstance(transcript, str):
        line = transcript.partition("\n")[0].encode()
    else:
        line = transcript[: transcript.find(b"\n")]
    kind, _, count, *rest = line.split(b" ")
    return int(count), int((rest or [count])[0]) if kind == b"matching" else 0


def most_present(transcript: Union[str, bytes]) -> tuple[int, int]:
    """The capacity of an accepted transcript, and the greatest number of a node that is ever present."""
    capacity, first = head_of(transcript)
    text = transcript.encode() if isinstance(transcript, str) else transcript
    return capacity, max([first, *(int(found[1] or found[2]) for found in PRESENT.finditer(text))])


def names_for(transcript: Union[str, bytes], names: Optional[Iterable[Name]]) -> Names:
    """The names of the nodes of an accepted transcript: the caller's, or the numbers.

    Raises `ValueError` if a node that is ever present has no name, or there are more names than the capacity.
    """
    if names is None:
        return Names(head_of(transcript)[0])
    own = own_names(names)
    capacity, most = most_present(transcript)
    if not most <= len(own) <= capacity:
        raise ValueError(f"{counted(len(own), 'name')} for {most if len(own) < most else capacity} nodes")
    return Names(own, capacity)
