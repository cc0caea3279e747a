"""Daemons by name: each decides, step by step, which enabled nodes move. For `Network.settle`.

    net.settle(daemons.ByName())            # the least enabled node
    net.settle(daemons.named("greedy", 7))  # by its word, with a seed

Each daemon is a value that can be compared, pickled and used again. It starts afresh in every network, so the
same daemon makes the same run. The daemons' names in the literature, after Dubois and Tixeuil, "A taxonomy of
daemons in self-stabilization", 2011:

- `Synchronous`: the synchronous daemon; only under `manne`, since Hsu and Huang's rules take one node at a
  time;
- `ByName`: a central daemon with fixed priorities, which is unfair;
- `ByAge`: a central round-robin daemon, which is fair;
- `Seeded`: a randomised daemon, central under `hh` and distributed under `manne`: the program's own, `drive`;
- `Greedy`: a central daemon that sees the whole state. `Greedy()` is an adversary, `Greedy(most=True)` a
  helper;
- `LocallyCentral`: a randomised locally central daemon, only under `manne`;
- `Activation`: a randomised distributed daemon with a probability, only under `manne`.

A function from the enabled nodes to those that move is a daemon too.
"""

from __future__ import annotations

import itertools
from dataclasses import dataclass
from typing import TYPE_CHECKING, Callable, Optional, Union, get_args

from .chance_daemons import Activation, LocallyCentral, refuse_central
from .errors import Garbled, PastBound
from .falls import Entry, Falls, Watched
from .graphs import decimal
from .numbers import MOST_TURNS, counted
from .replies import Choice, Enabled, Name, Settled, Wish

if TYPE_CHECKING:
    from .choices import Daemon
    from .network import Network
    from .state import State

__all__ = ["WORDS", "Activation", "ByAge", "ByName", "Greedy", "LocallyCentral", "Seeded", "Synchronous", "named"]


@dataclass(frozen=True)
class Synchronous:
    """All enabled nodes move at once; `begin` raises `ValueError` under `hh`."""

    def begin(self, net: Network) -> Daemon:
        refuse_central(net, "synchronous")
        return list


@dataclass(frozen=True)
class ByName:
    """The enabled node with the least number, or the greatest."""

    greatest: bool = False

    def begin(self, net: Network) -> Daemon:
        choose = max if self.greatest else min
        return lambda enabled: [choose(enabled, key=net.number_of)]


@dataclass(frozen=True)
class ByAge:
    """The enabled node that moved longest ago; those that have not moved come first, by number."""

    def begin(self, net: Network) -> Daemon:
        moved: dict[Name, int] = {}
        turns = itertools.count()

        def choose(enabled: Enabled) -> Choice:
            node = min(enabled, key=lambda name: (moved.get(name, -1), net.number_of(name)))
            moved[node] = next(turns)
            return [node]

        return choose


@dataclass(frozen=True)
class Seeded:
    """The program's own random daemon with this seed, 0 to 2^64 - 1.

    Under `hh` one enabled node moves. Under `manne` each enabled node moves with probability one half, and at
    least one does. A run costs one command in all, instead of two commands a step.
    """

    seed: int = 0

    def settle(self, net: Network) -> Settled:
        charge, steps, moves, seed = net.status().charge, 0, 0, self.seed
        while True:
            driven = net.drive(seed, MOST_TURNS)
            steps, moves = steps + len(driven), moves + sum(map(len, driven))
            if not driven.status.enabled:
                return Settled(steps, moves, charge)
            seed = (seed + 1) % 2**64


@dataclass(frozen=True)
class Greedy:
    """The enabled node and target whose move lowers the charge least, or most.

    It keeps an index of the enabled moves, and after a step looks at the nodes near the changed ones alone.
    In `settle` it asks for no list of the enabled nodes before a step.
    """

    most: bool = False

    def begin(self, net: Network) -> GreedyChoice:
        return GreedyChoice(net, -1 if self.most else 1)


class GreedyChoice:
    """The choices of `Greedy` in a network."""

    def __init__(self, net: Network, sign: int) -> None:
        self.net, self.sign = net, sign
        self.follower = net.follower(Watched)
        self.falls = Falls(Watched(), sign)

    def __call__(self, enabled: Enabled) -> Choice:
        return self.choice()

    def choice(self) -> list[Union[Name, Wish]]:
        """The node that moves next, with its target; none if no node is enabled."""
        found = self.follower.look(self.first)
        if not found:
            return []
        _, node, target = found
        name_of = self.net.name_of
        return [Wish(name_of(node), name_of(target)) if target else name_of(node)]

    def first(self, state: State) -> Optional[Entry]:
        if self.falls.state is not state:
            # it is followed afresh, as after an interrupt
            self.falls = Falls(state, self.sign)  # type: ignore[arg-type]
        return self.falls.first()

    def settle(self) -> Settled:
        """As `Network.settle`, but asks for the enabled nodes only at the end."""
        charge, moves, is_last = self.net.status().charge, 0, False
        while True:
            choice = self.choice()
            if choice:
                if moves >= charge:
                    raise PastBound(f"a node is enabled after {counted(moves, 'move')}, as many as the charge was")
                moves += len(self.net.step(choice))
                continue
            enabled = self.net.enabled()
            if not enabled:
                return Settled(moves, moves, charge)
            if is_last:
                raise Garbled(f"{counted(len(enabled), 'node is', 'nodes are')} enabled that the entries do not show")
            # a signal's handler may have disturbed the network meanwhile
            is_last = True


AnyDaemon = Union[Synchronous, ByName, ByAge, Seeded, Greedy, LocallyCentral, Activation]
# the daemons that let several nodes move at once, which no network does under `hh`
OF_MANNE = Synchronous, LocallyCentral, Activation
PROBABILITY = "probability"
WORDS: dict[str, Callable[[int], AnyDaemon]] = {
    "synchronous": lambda seed: Synchronous(),
    "least": lambda seed: ByName(),
    "greatest": lambda seed: ByName(greatest=True),
    "age": lambda seed: ByAge(),
    "seeded": Seeded,
    "greedy": lambda seed: Greedy(),
    "helpful": lambda seed: Greedy(most=True),
    "local": LocallyCentral,
}
# the words as a help shows them
TOLD = f"{', '.join(WORDS)}, {PROBABILITY}:P"


def check_daemon(daemon: object) -> None:
    """Raises `TypeError` if this is no daemon, such as a type above instead of its instance."""
    is_type = isinstance(daemon, type) and issubclass(daemon, get_args(AnyDaemon))
    if is_type or not (callable(daemon) or hasattr(daemon, "begin") or isinstance(daemon, Seeded)):
        raise TypeError(
            f"{daemon!r} is no daemon: such are 'least', ByName() and any function from the enabled nodes to those "
            "that move"
        )


def named(word: str, seed: int = 0) -> AnyDaemon:
    """The daemon of a word of `WORDS`, or of `probability:P`; those that draw have this seed.

    Raises `ValueError` for other words.
    """
    kind, colon, rest = word.partition(":")
    if kind == PROBABILITY and colon:
        try:
            return Activation(decimal(rest), seed)
        except ValueError:
            raise ValueError(f"{word[:80]!r} is no daemon: it is probability:P, with P above 0 and at most 1") from None
    if word not in WORDS:
        raise ValueError(f"no daemon has the name {word[:80]!r}: they are {TOLD}")
    return WORDS[word](seed)
