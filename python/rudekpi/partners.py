"""How pairs fare in a burst: broken and remade, and how long nodes are without a partner.

For layers that keep a copy of a node's data at its partner. docs/EXPERIMENTS.md defines each count.
"""

from __future__ import annotations

from dataclasses import dataclass, fields
from typing import Iterable, Sequence

from .enabled_nodes import Watch
from .state import State

Pair = tuple[int, int]


@dataclass(frozen=True)
class PartnerCounts:
    """What happened to the pairs in a burst, from its first disturbance until silence.

    `broken` and `remade` count how often two nodes stopped or began to be a pair. `remade_same` counts the
    pairs among the remade ones that broke before in the burst, while both nodes stayed. `steps_alone` and
    `rounds_alone` are sums over the nodes, and `most_steps_alone` and `most_rounds_alone` those of one node:
    the steps made while a node was without a partner, and the rounds of these steps. A time without a partner
    counts if it began with the loss of one, or ended with a new one. `lost_untouched` counts the nodes that
    lost a partner although no disturbance of the burst touched the link, either node or its registers.
    """

    broken: int = 0
    remade: int = 0
    remade_same: int = 0
    steps_alone: int = 0
    most_steps_alone: int = 0
    rounds_alone: int = 0
    most_rounds_alone: int = 0
    lost_untouched: int = 0


NAMES = tuple(it.name for it in fields(PartnerCounts))


def summed(counts: Iterable[PartnerCounts]) -> PartnerCounts:
    """The counts of several bursts together: those of one node are the most of any burst, the others sums."""
    every = [*counts]
    columns = {name: [getattr(it, name) for it in every] for name in NAMES}
    return PartnerCounts(
        **{name: max(found, default=0) if name.startswith("most_") else sum(found) for name, found in columns.items()}
    )


def pair_of(a: int, b: int) -> Pair:
    return (a, b) if a < b else (b, a)


class PartnerWatch(Watch):
    """A watch that also counts what happens to pairs, in one burst after another.

    A node's time alone may go on while others are disturbed. So in the rounds of this time, `spans`, an edit or
    a fault does not cut a round off, but may end it. The engine's rounds, which are those of epochs, are cut off
    there: so these are counted here. Without an edit or a fault between two steps both are the same.

    A change of a pair takes constant time, a `leave` time in proportion to the node's neighbours.
    """

    def __init__(self, state: State) -> None:
        super().__init__(state)
        # how many spans are complete, and the nodes that the current one waits for
        self.spans = 0
        self.spanned: set[int] = set()
        self.begin()

    def begin(self) -> None:
        """A burst begins: all counts are 0."""
        self.broken = self.remade = self.remade_same = self.lost_untouched = 0
        # the number of the round of each step of the burst
        self.round_of: list[int] = []
        # after how many steps a node lost its partner or joined; a node that is not in here was alone before
        self.since: dict[int, int] = {}
        # the nodes without a partner that lost one
        self.lost: set[int] = set()
        # the steps and rounds of each node without a partner, and the last of these rounds
        self.alone: dict[int, tuple[int, int, int]] = {}
        # the partners that each node lost while both stayed
        self.former: dict[int, set[int]] = {}
        self.hit_nodes: set[int] = set()
        self.hit_links: set[Pair] = set()

    def counted(self) -> PartnerCounts:
        """The counts of the burst, which ends here."""
        for node in self.lost:
            self.add(node)
        self.lost.clear()
        found = self.alone.values()
        steps, rounds = [steps for steps, _, _ in found], [rounds for _, rounds, _ in found]
        return PartnerCounts(
            self.broken,
            self.remade,
            self.remade_same,
            sum(steps),
            max(steps, default=0),
            sum(rounds),
            max(rounds, default=0),
            self.lost_untouched,
        )

    def step(self, moves: Iterable[str]) -> None:
        texts, partner = list(moves), self.state.partner
        before = [(node, partner(node)) for node in (int(text.partition(":")[0]) for text in texts)]
        self.round_of.append(self.spans + 1)
        self.spanned = self.spanned or set(self.enabled)
        super().step(texts)
        self.spanned.difference_update(node for node, _ in before)
        self.spans += not self.spanned
        # compared over the whole step: its moves come at once, and two movers may be one pair
        changed = [(node, was, now) for node, was in before if (now := partner(node)) != was]
        for a, b in {pair_of(node, was) for node, was, _ in changed if was is not None}:
            is_touched = a in self.hit_nodes or b in self.hit_nodes or (a, b) in self.hit_links
            self.lost_untouched += 0 if is_touched else 2
            self.break_pair(a, b)
        for a, b in {pair_of(node, now) for node, _, now in changed if now is not None}:
            self.make_pair(a, b)

    def edit(self, word: str, numbers: Sequence[int]) -> None:
        # it changes pairs of its first node only
        node = numbers[0]
        was = self.state.partner(node)
        was_in_span = bool(self.spanned)
        self.touch(word, numbers)
        if word == "leave":
            self.end_of(node)
        super().edit(word, numbers)
        self.spans += was_in_span and not self.spanned
        now = self.state.partner(node)
        if was is not None and was != now:
            self.break_pair(node, was)
        if now is not None and was != now:
            self.make_pair(node, now)
        if word == "join":
            self.since[node] = len(self.round_of)

    def look_again(self, nodes: Iterable[int]) -> None:
        seen = [*nodes]
        super().look_again(seen)
        self.spanned.difference_update(node for node in seen if node not in self.enabled)

    def touch(self, word: str, numbers: Sequence[int]) -> None:
        """Notes what a disturbance touches: a link, a node, or registers, also those that it clears."""
        node, pointers = numbers[0], self.state.pointers
        if word in ("link", "unlink"):
            a, b = numbers
            self.hit_links.add(pair_of(a, b))
            self.hit_nodes.update(end for end, far in ((a, b), (b, a)) if pointers.get(end) == far)
            return
        self.hit_nodes.add(node)
        if word == "leave":
            self.hit_nodes.update(other for other in self.state.neighbours[node] if pointers.get(other) == node)

    def end_of(self, node: int) -> None:
        """A node leaves: it counts no further, and what its partners kept for it is of no use."""
        if node in self.lost:
            self.lost.discard(node)
            self.add(node)
        self.since.pop(node, None)
        for other in self.former.pop(node, ()):
            self.former[other].discard(node)

    def break_pair(self, a: int, b: int) -> None:
        self.broken += 1
        stay = [node for node in (a, b) if node in self.state.neighbours]
        for node in stay:
            self.since[node] = len(self.round_of)
        self.lost.update(stay)
        if len(stay) == 2:
            self.former.setdefault(a, set()).add(b)
            self.former.setdefault(b, set()).add(a)

    def make_pair(self, a: int, b: int) -> None:
        self.remade += 1
        self.remade_same += b in self.former.get(a, ())
        for node in (a, b):
            self.lost.discard(node)
            self.add(node)

    def add(self, node: int) -> None:
        """Adds the time without a partner that ends here. No round of a node is counted twice."""
        begin, end = self.since.pop(node, 0), len(self.round_of)
        if begin < end:
            steps, rounds, last = self.alone.get(node, (0, 0, 0))
            first, final = max(self.round_of[begin], last + 1), self.round_of[end - 1]
            self.alone[node] = steps + end - begin, rounds + max(0, final - first + 1), final
