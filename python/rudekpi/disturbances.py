"""Disturbances of a silent network: faults of registers, and nodes and links that come and go."""

from __future__ import annotations

import math
import random
import re
from dataclasses import dataclass
from typing import Callable, Iterator, Optional, Sequence, Tuple

from .batch import Batch
from .numbers import counted
from .racks import Group, Racks
from .replies import Name
from .simple_graph import Graph
from .state import State
from .traces import Trace
from .walks import Topology, Walk

REGISTERS = ("any", "pointer", "flag")
# the part of a disturbance's text that names a file, whose path may have commas, with the digest of what it has
FILED = re.compile(r"(?:^|, )(trace|by groups of) (.+) ([0-9a-f]{16})(?=$|, every )", re.DOTALL)
# the text of a disturbance between whose edits and faults moves come
ONE_BY_ONE = re.compile(r"(?:trace .*|.*, every [0-9]+ moves?)", re.DOTALL)
# the edits and faults that come at once, each with the numbers of its nodes
Event = Sequence[Tuple[str, Tuple[int, ...]]]


@dataclass(frozen=True)
class Disturbance:
    """What hits a silent network: faults, joins, leaves, links cut, added or rewired, and walks.

    Faults hit any registers, or only pointers or flags. Each fault changes the register that it hits; there
    is none if no register can change. With `any_value` a fault may write the value that is held already, as
    the machine's `scramble` does. Nodes join with their edges. A rewired link moves one end. In a walk
    each node of a unit disk graph walks the length `move` in a random direction. If nothing hits the network,
    it settles from the start, with all pointers null.

    If `every` is 0, all disturbances come at once. Otherwise the daemon moves between two of them: at least
    `every` moves, or until silence. Raises `ValueError` for numbers out of range.

    With `racks` a fault, join or leave hits all nodes of a random group at once, and the numbers count groups.
    A `trace` comes alone: its events one by one, with silence between two of them, or with at most `every`
    moves.
    """

    faults: int = 0
    registers: str = "any"
    joins: int = 0
    leaves: int = 0
    cut: int = 0
    add: int = 0
    rewire: int = 0
    move: float = 0
    every: int = 0
    any_value: bool = False
    trace: Optional[Trace] = None
    racks: Optional[Racks] = None

    def __post_init__(self) -> None:
        counts = self.faults, self.joins, self.leaves, self.cut, self.add, self.rewire, self.every
        if self.registers not in REGISTERS or min(counts) < 0 or not 0 <= self.move < math.inf:
            raise ValueError(
                f"{self!r} is no disturbance: registers are one of {', '.join(REGISTERS)}, and no number is below 0"
            )
        if self.every and self.is_nothing:
            raise ValueError("every wants something that comes one by one, as faults or links that are cut")
        is_alone = not (self.has_hits or self.racks or self.any_value or self.registers != "any")
        if self.trace and not is_alone:
            raise ValueError("a trace is all that disturbs a network: only every stands beside it")
        if self.racks and (self.changes_links or self.any_value):
            raise ValueError("groups join, leave, or have faults that change registers: nothing else goes with racks")
        if self.racks and self.is_nothing:
            raise ValueError("racks want something that hits all nodes of a group: faults, joins or leaves")

    def __str__(self) -> str:
        of = "" if self.registers == "any" else f" of {self.registers}s"
        of += " with any value" * self.any_value
        parts = [
            (counted(self.faults, "fault") + of) * bool(self.faults),
            counted(self.joins, "join") * bool(self.joins),
            counted(self.leaves, "leave") * bool(self.leaves),
            f"nodes walk {self.move!r}" * bool(self.move),
            f"{counted(self.cut, 'link')} cut" * bool(self.cut),
            f"{counted(self.add, 'link')} added" * bool(self.add),
            f"{counted(self.rewire, 'link')} rewired" * bool(self.rewire),
            str(self.trace or ""),
            str(self.racks or ""),
            f"every {counted(self.every, 'move')}" * bool(self.every),
        ]
        return ", ".join(filter(None, parts)) or "start"

    @property
    def is_nothing(self) -> bool:
        return not (self.has_hits or self.trace)

    @property
    def has_hits(self) -> bool:
        return bool(self.faults or self.joins or self.leaves or self.changes_links)

    @property
    def is_one_by_one(self) -> bool:
        """Whether moves come between the disturbances."""
        return bool(self.every or self.trace)

    @property
    def changes_links(self) -> bool:
        return bool(self.cut or self.add or self.rewire or self.move)

    def names_in(self, graph: Graph) -> tuple[Name, ...]:
        """The names of all nodes that a network has which begins as this graph."""
        return self.trace.on(graph).nodes if self.trace else graph.nodes

    def check(self, graph: Graph) -> None:
        """Raises `ValueError` if a graph has too few nodes, groups or edges, or its nodes cannot walk.

        Also if a trace does not fit the graph, or a name of the racks is no node.
        """
        if self.trace:
            self.trace.on(graph)
        units = len(self.racks.on(graph)) if self.racks else len(graph.nodes)
        if self.joins + self.leaves > units:
            raise ValueError(f"{graph.title}: {self} are more than its {units} {'groups' if self.racks else 'nodes'}")
        if self.cut + self.rewire > len(graph.edges):
            raise ValueError(f"{graph.title}: {self} are more than its {counted(len(graph.edges), 'edge')}")
        if self.move and graph.disk is None:
            raise ValueError(f"{graph.title}: only the nodes of disk:N,RADIUS,SEED walk, which are at places")


class ChangingFaults:
    """Draws faults that change a register: a node, a register of it that can change, and another value.

    A pointer can change if its node has a neighbour, and a flag under `manne`. `nodes` are those with such a
    register. Each node has the same chance, then each of its registers, then each other value.
    """

    def __init__(self, registers: str, rules: str, topology: Topology, drawn: random.Random) -> None:
        self.drawn, near = drawn, topology.near
        self.has_flags = rules == "manne" and registers != "pointer"
        linked = [node for node in sorted(near) if near[node]] if registers != "flag" else []
        # looked up once: faults change no edges
        self.around = {node: [0, *sorted(near[node])] for node in linked}
        self.nodes = sorted(near) if self.has_flags else linked

    def draw(self, state: State) -> tuple[str, tuple[int, int]]:
        """The next fault of a network in this state. Needs a node in `nodes`."""
        return self.draw_at(self.drawn.choice(self.nodes), state)

    def draw_at(self, node: int, state: State) -> tuple[str, tuple[int, int]]:
        """A fault at a node, which is in `nodes`."""
        around = self.around.get(node)
        if not around or (self.has_flags and self.drawn.random() < 0.5):
            return "flag", (node, int(node not in state.flags))
        # the last value takes the place of the one that is held
        target = around[self.drawn.randrange(len(around) - 1)]
        return "point", (node, around[-1] if target == state.pointers.get(node, 0) else target)


def units_of(wanted: Disturbance, graph: Graph) -> Sequence[Group]:
    """What a disturbance hits at once: each group of a graph's nodes, or each node."""
    return wanted.racks.on(graph) if wanted.racks else [(number,) for number in range(1, len(graph.nodes) + 1)]


class Events:
    """The edits and faults of a disturbance, drawn at random; the nodes `joining` join the graph."""

    def __init__(self, wanted: Disturbance, graph: Graph, joining: set[Name], drawn: random.Random) -> None:
        self.wanted, self.graph, self.drawn, self.names = wanted, graph, drawn, graph.nodes
        numbers = {name: number for number, name in enumerate(graph.nodes, 1)}
        # what a disturbance hits at once: a node, or a group of nodes
        self.units = units_of(wanted, graph)
        self.joining = [unit for unit in self.units if graph.nodes[unit[0] - 1] in joining]
        self.edges = [(numbers[a], numbers[b]) for a, b in graph.edges]
        present = [number for number in numbers.values() if graph.nodes[number - 1] not in joining]
        self.topology = Topology(present, self.edges)
        # how many faults changed a register
        self.changes = 0

    def edits(self) -> Iterator[Event]:
        """All edits in order, each when it is drawn; those of one item belong together."""
        topology, wanted, drawn = self.topology, self.wanted, self.drawn
        leaving = sorted(drawn.sample([unit for unit in self.units if unit[0] in topology.near], wanted.leaves))
        yield from self.joins()
        for unit in leaving:
            for node in unit:
                topology.leave(node)
            yield [("leave", (node,)) for node in unit]
        if wanted.move and self.graph.disk:
            yield from Walk(self.graph.disk, topology, drawn).steps(wanted.move, bool(wanted.every))
        for _ in range(wanted.cut):
            yield [("unlink", topology.cut(drawn))]
        for _ in range(wanted.add):
            yield [("link", topology.add(drawn))]
        for _ in range(wanted.rewire):
            cut, added = topology.rewire(drawn)
            yield [("unlink", cut), ("link", added)]

    def joins(self) -> Iterator[Event]:
        """Nodes that join, each with its edges to present nodes. If all come at once, nodes precede edges."""
        topology, came = self.topology, {node for unit in self.joining for node in unit}
        for unit in self.joining:
            links, inside = [], {*unit}
            for node in unit:
                topology.join(node)
            for a, b in self.edges if self.wanted.every else ():
                if (a in inside or b in inside) and a in topology.near and b in topology.near:
                    topology.link(a, b)
                    links.append(("link", (a, b)))
            yield [*(("join", (node,)) for node in unit), *links]
        if came and not self.wanted.every:
            links = [("link", (a, b)) for a, b in self.edges if a in came or b in came]
            for _, (a, b) in links:
                topology.link(a, b)
            yield links

    def faults_that_change(self, look: Callable[[], State]) -> Iterator[Event]:
        """The faults after all edits; each changes a register when it comes. None if none can.

        `look` returns the network's state before the next fault, which is then changed by this fault.
        """
        draws = ChangingFaults(self.wanted.registers, look().rules, self.topology, self.drawn)
        can_change = {*draws.nodes}
        units = [hit for unit in self.units if (hit := [node for node in unit if node in can_change])]
        for _ in range(self.wanted.faults if units else 0):
            state = look()
            event: list[tuple[str, tuple[int, ...]]] = []
            for node in self.drawn.choice(units):
                word, (_, value) = draws.draw_at(node, state)
                (state.point if word == "point" else state.flag)(node, value)
                event.append((word, (node, value)))
            self.changes += len(event)
            yield event

    def faults_with_any_value(self, seed: int) -> Iterator[Event]:
        """Faults of registers: of any, by the machine's own `scramble`, or of one kind."""
        wanted, near, drawn = self.wanted, self.topology.near, self.drawn
        if wanted.registers == "any":
            if wanted.every:
                yield from ([("scramble", ((seed + at) % 2**64, 1))] for at in range(wanted.faults))
            elif wanted.faults:
                yield [("scramble", (seed, wanted.faults))]
            return
        present = sorted(near)
        # looked up once: faults change no edges
        around = {node: [0, *sorted(near[node])] for node in present} if wanted.registers == "pointer" else {}
        for _ in range(wanted.faults if present else 0):
            node = drawn.choice(present)
            if around:
                yield [("point", (node, drawn.choice(around[node])))]
            else:
                yield [("flag", (node, int(drawn.random() < 0.5)))]

    def send(self, batch: Batch, event: Event) -> None:
        names = self.names
        for word, numbers in event:
            if word == "scramble":
                batch.scramble(*numbers)
            elif word == "flag":
                batch.flag(names[numbers[0] - 1], bool(numbers[1]))
            elif word == "point":
                batch.point(names[numbers[0] - 1], names[numbers[1] - 1] if numbers[1] else None)
            else:
                getattr(batch, word)(*(names[number - 1] for number in numbers))
