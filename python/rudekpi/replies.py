"""The types of the program's replies."""

from __future__ import annotations

from collections import abc
from dataclasses import dataclass, field
from typing import (
    Any,
    Dict,
    Generic,
    Iterable,
    Iterator,
    Mapping,
    NoReturn,
    Optional,
    Protocol,
    TypeVar,
    Union,
    overload,
)

# A node's name: a number from 1 if the network was given a count, else the caller's name, anything hashable
# but None. It has no type, so that a caller's names keep their own types.
Name = Any
Reply = TypeVar("Reply")
Reply_co = TypeVar("Reply_co", covariant=True)
Key = TypeVar("Key")
Value = TypeVar("Value")


class Answer(Protocol[Reply_co]):
    """The answer to a command of a batch; the command may still be under way."""

    def result(self) -> Reply_co:
        """Waits for the reply and returns it; raises `Refused` if the event was refused."""


class Fixed(Dict[Key, Value]):
    """A dictionary that does not change."""

    def refuse(self, *_: object, **__: object) -> NoReturn:
        raise TypeError("a reply does not change")

    __setitem__ = __delitem__ = __ior__ = refuse  # type: ignore[assignment]
    clear = pop = popitem = setdefault = update = refuse  # type: ignore[assignment]

    def __reduce__(self) -> tuple[type[Fixed[Key, Value]], tuple[dict[Key, Value]]]:
        return type(self), (dict(self),)


@dataclass(frozen=True)
class Wish:
    """An item of a choice: the node that is to move, and the target that it is to point at."""

    node: Name
    target: Name


@dataclass(frozen=True)
class Accepted:
    """A disturbance was carried out."""

    entry: int


@dataclass(frozen=True)
class Move:
    """A node moved by a rule: update, marry, seduce or abandon. Moves by marry and seduce have a target."""

    node: Name
    rule: str
    target: Optional[Name] = None


@dataclass(frozen=True)
class _Items(abc.Sequence[Reply], Generic[Reply]):
    items: tuple[Reply, ...]

    @overload
    def __getitem__(self, place: int) -> Reply:
        ...

    @overload
    def __getitem__(self, place: slice) -> tuple[Reply, ...]:
        ...

    def __getitem__(self, place: Union[int, slice]) -> Union[Reply, tuple[Reply, ...]]:
        return self.items[place]

    def __len__(self) -> int:
        return len(self.items)


@dataclass(frozen=True)
class Moves(_Items[Move]):
    """The moves of a step, ascending by the nodes' numbers: a sequence of `Move`."""

    entry: int


@dataclass(frozen=True)
class Shown:
    """Where a node points; None is null."""

    entry: int
    node: Name
    target: Optional[Name]


@dataclass(frozen=True, eq=False)
class Enabled(abc.Mapping[Name, str]):
    """The enabled nodes, ascending by number: a mapping from each to its rule."""

    entry: int
    rules: Mapping[Name, str]

    def __getitem__(self, node: Name) -> str:
        return self.rules[node]

    def __iter__(self) -> Iterator[Name]:
        return iter(self.rules)

    def __len__(self) -> int:
        return len(self.rules)


@dataclass(frozen=True, eq=False)
class Matching(abc.Set["tuple[Name, Name]"]):
    """The pairs of nodes that point at each other: a set of tuples, the lower number first."""

    entry: int
    pairs: tuple[tuple[Name, Name], ...]
    partners: Mapping[Name, Name] = field(repr=False)

    def partner(self, node: Name) -> Optional[Name]:
        return self.partners.get(node)

    def __contains__(self, pair: object) -> bool:
        return (
            isinstance(pair, tuple)
            and len(pair) == 2
            and pair[0] in self.partners
            and self.partners[pair[0]] == pair[1]
        )

    def __iter__(self) -> Iterator[tuple[Name, Name]]:
        return iter(self.pairs)

    def __len__(self) -> int:
        return len(self.pairs)

    @classmethod
    def _from_iterable(cls, it: Iterable[Key]) -> frozenset[Key]:
        return frozenset(it)


@dataclass(frozen=True)
class Status:
    """The network's status. At most `charge` moves can come before the next disturbance."""

    entry: int
    nodes: int
    edges: int
    pairs: int
    enabled: int
    charge: int
    spent: int


@dataclass(frozen=True)
class Fault:
    """A fault of a register: the new `pointer`, a neighbour or None, or the new `flag`, True or False."""

    entry: int
    node: Name
    register: str
    value: Union[Name, bool, None]


@dataclass(frozen=True)
class Turns(_Items[Reply]):
    """The turns of `drive` (`Moves`) or `scramble` (`Fault`) as a sequence, and the status after them."""

    status: Status


@dataclass(frozen=True)
class Registers:
    """The registers of a node: its pointer, at a neighbour or None, and its flag.

    They unpack: `pointer, flag = net.registers(node)`.
    """

    pointer: Optional[Name]
    flag: bool

    def __iter__(self) -> Iterator[Any]:
        return iter((self.pointer, self.flag))


@dataclass(frozen=True)
class Base:
    """The network's state after `number` entries.

    `spent` is the number of moves since the last disturbance; `nodes` are the present nodes, ascending by
    number, and `edges` the edges. A base is no entry: the next entry has `number` + 1.
    """

    number: int
    spent: int
    nodes: Mapping[Name, Registers] = field(hash=False)
    edges: tuple[tuple[Name, Name], ...]


@dataclass(frozen=True)
class Settled:
    """How a daemon settled a network: its steps, its moves, and the first charge, which bounds the moves."""

    steps: int
    moves: int
    charge: int


@dataclass(frozen=True)
class Summary:
    """The counts of an accepted transcript."""

    entries: int
    epochs: int
    moves: int


@dataclass(frozen=True)
class Epoch:
    """The part of a run after an accepted disturbance, with its moves and their bound.

    `start` is the entry of the disturbance, or 0 for the start of the run. It is None if the transcript
    begins with a base, which does not name this entry.

    `bound` is 2m + n (`hh`) or 2m + 3n (`manne`) for m edges and n nodes; under `hh` also at most n²/2 + n -
    2, the half rounded down, unless `start` is None. `cost` is that of the disturbance, a sum of degrees. It
    is None in the first epoch, which no disturbance began.

    `reach` is how many nodes the disturbance reached, in the state right before it; None in the first epoch.
    If the network was silent in that state, no other nodes move in this epoch.

    `rounds` is how many rounds are complete in the epoch, counted by the proved engine: of n nodes at most n
    under `hh`, and 2n under `manne`, or 2n - 1 if n is odd. A round is as in `Network.count_rounds`. If `start`
    is None, rounds are counted from the base on.
    """

    start: Optional[int]
    moves: int
    edges: int
    nodes: int
    bound: int
    cost: Optional[int]
    reach: Optional[int] = None
    rounds: int = 0


Choice = Iterable[Union[Name, Wish]]
