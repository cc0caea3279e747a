#!/usr/bin/env python3
"""Both engines on every network of up to three names, in every state: run2 must write the same bytes as
./console run of every edit and fault there, and of every choice of up to two items. audit2 must accept them.

usage: independent/tests/small_networks.py

Any of the n names may be present. An item has one of n + 1 names, the last above the capacity, and no wish or
one of these names; edits and faults have these names too. So there are i = (n + 1)(n + 2) items and
1 + i + i * i choices; three names have 6 more, of three items. In each state all questions are asked, and
again after each event that may change it; then the state is written again.

    names   choices   states, all names present: hh, manne   states, some absent: hh, manne
    0       7         1, 1
    1       43        1, 2                                   1, 1
    2       157       1 + 4, 4 + 16                          3, 1 + 2 * 2
    3       427       1 + 3 * 4 + 3 * 12 + 27 = 76, 76 * 8   7 + 3 * 4, 1 + 3 * 2 + 3 * 4 + 3 * 16

Scripts of which the programs make different things are kept in out/different. The last line counts. The exit
status is 0 if none differs and every choice was tried in every state, else 1.
"""

from __future__ import annotations

import dataclasses
import itertools
import sys
import time
from typing import Iterable, Iterator, Sequence, TypeVar

sys.dont_write_bytecode = True
import scripts  # noqa: E402

CHOICES = 7 * 2 + 43 * (2 + 3) + 157 * (5 + 3 + 20 + 5) + 427 * (76 + 19 + 608 + 67)
T = TypeVar("T")
# For each present node the lines that write its registers.
State = dict[int, list[str]]


def subsets(items: Sequence[T]) -> Iterator[tuple[T, ...]]:
    for count in range(len(items) + 1):
        yield from itertools.combinations(items, count)


def written(state: State, nodes: Iterable[int]) -> Iterator[str]:
    for v in nodes:
        yield from state.get(v, [])


@dataclasses.dataclass(frozen=True)
class Network:
    """The names 1 to `size`, those present, and the edges, each with its lower end first."""

    rules: str
    size: int
    present: tuple[int, ...]
    edges: tuple[tuple[int, int], ...]

    def names(self) -> range:
        """All names, and one above the capacity."""
        return range(1, self.size + 2)

    def states(self) -> Iterator[State]:
        rows = []
        for v in self.present:
            pointers = [f"point {v} {w}" for w in ["-", *(a + b - v for a, b in self.edges if v in (a, b))]]
            flags = [[f"flag {v} 0"], [f"flag {v} 1"]] if self.rules == "manne" else [[]]
            rows.append([[pointer, *flag] for pointer in pointers for flag in flags])
        for state in itertools.product(*rows):
            yield dict(zip(self.present, state))

    def questions(self) -> list[str]:
        return [*(f"show {v}" for v in self.names()), "enabled", "matching", "status"]

    def choices(self) -> Iterator[Sequence[tuple[int, str]]]:
        items = [(v, f"{v}>{w}" if w else f"{v}") for v in self.names() for w in (0, *self.names())]
        for count in range(3):
            yield from itertools.product(items, repeat=count)
        if self.size == 3:
            yield from itertools.permutations([(1, "1"), (2, "2"), (3, "3")])

    def steps(self, state: State) -> Iterator[str]:
        """Each choice; after those that enabled nodes may make, the questions."""
        for choice in self.choices():
            nodes = {v for v, _ in choice}
            yield " ".join(["step", *(item for _, item in choice)])
            if len(nodes) == len(choice) and nodes <= state.keys() and (self.rules == "manne" or len(nodes) == 1):
                yield from [*self.questions(), *written(state, nodes)]

    def edge_edits(self, state: State) -> Iterator[str]:
        for a, b in itertools.product(self.names(), repeat=2):
            made = (min(a, b), max(a, b)) in self.edges
            refused, done = ("link", "unlink") if made else ("unlink", "link")
            yield from [f"{refused} {a} {b}", f"{done} {a} {b}", *self.questions()]
            yield from [f"{refused} {a} {b}", *written(state, (a, b))]

    def node_edits(self, state: State) -> Iterator[str]:
        for v in self.names():
            refused, done = ("join", "leave") if v in state else ("leave", "join")
            yield from [f"{refused} {v}", f"{done} {v}", *self.questions(), f"{refused} {v}"]
            yield from [*(f"link {a} {b}" for a, b in self.edges if v in (a, b)), *written(state, state)]

    def faults(self, state: State) -> Iterator[str]:
        for v in self.names():
            for fault in [*(f"point {v} {w}" for w in ("-", *self.names())), f"flag {v} 0", f"flag {v} 1"]:
                yield from [fault, *self.questions(), *written(state, [v])]

    def script(self) -> Iterator[str]:
        """All events in all states, from no edges; if some names are absent, from no nodes."""
        if len(self.present) < self.size:
            yield from (f"join {v}" for v in self.present)
        yield from (f"link {a} {b}" for a, b in self.edges)
        for state in self.states():
            yield from [*written(state, state), *self.questions(), "checkpoint"]
            for events in (self.steps, self.edge_edits, self.node_edits, self.faults):
                yield from events(state)

    def opening(self) -> tuple[list[str], list[str]]:
        return scripts.opening(self.rules, self.size, self.size if len(self.present) == self.size else 0)


def networks() -> Iterator[Network]:
    for rules, size in itertools.product(["hh", "manne"], range(4)):
        for present in subsets(range(1, size + 1)):
            for edges in subsets([*itertools.combinations(present, 2)]):
                yield Network(rules, size, present, edges)


def differ(number: int, network: Network, script: bytes) -> bool:
    """Whether the engines write different bytes of a script, or audit2 does not accept them."""
    due, came = [scripts.called(words, script) for words in network.opening()]
    said = scripts.called([scripts.AUDIT2], came[1])
    if came == due and due[0] == 0 and said[1].startswith(b"accepted: "):
        return False
    scripts.differs(f"small_{number}", script, network, came[0], due[0], said[1])
    return True


def main() -> int:
    start, runs, lines, choices, different = time.time(), 0, 0, 0, 0
    for network in networks():
        script = [*network.script()]
        runs += 1
        lines += len(script)
        choices += sum(line.startswith("step") for line in script)
        different += differ(runs, network, "\n".join([*script, ""]).encode())
    print(
        f"small networks: {runs} runs of {lines} lines, {choices} choices, {different} differ, "
        f"{time.time() - start:.0f} s"
    )
    return 1 if different or choices != CHOICES else 0


if __name__ == "__main__":
    sys.exit(main())
