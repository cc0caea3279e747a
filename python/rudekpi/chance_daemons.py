"""Daemons that draw which nodes move at once; for the rules `manne`. See `daemons`.

After the daemons of SASA: Altisen, Devismes and Jahier, "sasa: a SimulAtor of Self-stabilizing Algorithms",
2020.
"""

from __future__ import annotations

import random
from dataclasses import dataclass
from typing import TYPE_CHECKING

from .replies import Choice, Enabled, Name

if TYPE_CHECKING:
    from .choices import Daemon
    from .network import Network


def refuse_central(net: Network, word: str) -> None:
    if net.rules == "hh":
        raise ValueError(f"the {word} daemon wants the rules 'manne': those of Hsu and Huang take one node at a time")


@dataclass(frozen=True)
class LocallyCentral:
    """Enabled nodes in random order, each unless a neighbour of it moves already: no two neighbours at once.

    No further enabled node could be added. `begin` raises `ValueError` under `hh`.
    """

    seed: int = 0

    def begin(self, net: Network) -> Daemon:
        refuse_central(net, "locally central")
        follower, drawn = net.follower(), random.Random(self.seed)

        def choose(enabled: Enabled) -> Choice:
            near, names, taken = follower.state().neighbours, list(enabled), set[int]()
            drawn.shuffle(names)
            chosen: list[Name] = []
            for name in names:
                number = net.number_of(name)
                if taken.isdisjoint(near[number]):
                    taken.add(number)
                    chosen.append(name)
            return sorted(chosen, key=net.number_of)

        return choose


@dataclass(frozen=True)
class Activation:
    """Each enabled node with this probability, above 0 and at most 1; if none is drawn, one at random.

    Raises `ValueError` for another probability; so does `begin` under `hh`.
    """

    probability: float
    seed: int = 0

    def __post_init__(self) -> None:
        if not 0 < self.probability <= 1:
            raise ValueError(f"a probability is above 0 and at most 1, and not {self.probability!r}")

    def begin(self, net: Network) -> Daemon:
        refuse_central(net, "probability")
        drawn = random.Random(self.seed)

        def choose(enabled: Enabled) -> Choice:
            names = list(enabled)
            return [name for name in names if drawn.random() < self.probability] or [drawn.choice(names)]

        return choose
