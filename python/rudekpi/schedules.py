"""The longest schedules: the most moves that a daemon can make a network do, from any state.

In a small network every state, choice and target is examined. Since each move lowers the charge, no state
comes twice. So after its first step the longest schedule continues with the longest one of the next state.
"""

from __future__ import annotations

import itertools
import math
import random
import time
from dataclasses import dataclass
from typing import Callable, Iterable, Iterator, Sequence

from . import rules as rule_sets
from .audits import judged_epochs
from .graphs import Graph
from .network import Network
from .numbers import MOST_NODES
from .program import Program
from .replies import Name, Wish
from .state import State

# the most states of a network that is searched completely
MOST_STATES = 400_000
# how many seconds the first try of a search may take, whatever time it is given
FIRST_TRY = 60


@dataclass(frozen=True)
class Longest:
    """A schedule: the registers at its start, and the nodes that move in each step.

    `is_proved` is true if all states and choices were examined, so that no schedule is longer. Otherwise this
    is the best schedule that the search found.
    """

    graph: Graph
    rules: str
    moves: int
    bound: int
    is_proved: bool
    states: int
    pointers: tuple[tuple[Name, Name], ...]
    flags: tuple[Name, ...]
    steps: tuple[tuple[Wish, ...], ...]

    @property
    def has_own_numbers(self) -> bool:
        """Whether the names are ascending numbers that a network takes; the script then has these names."""
        nodes = self.graph.nodes
        are_numbers = all(type(node) is int and 1 <= node <= MOST_NODES for node in nodes)
        return are_numbers and list(nodes) == sorted(nodes)

    @property
    def numbers(self) -> dict[Name, int]:
        """The number of each node in the script: its name, or its place in the graph."""
        places = enumerate(self.graph.nodes, 1)
        return {node: node if self.has_own_numbers else place for place, node in places}

    @property
    def is_numbered(self) -> bool:
        """Whether the script's numbers are 1 to the number of nodes; else the nodes join first."""
        return list(self.numbers.values()) == list(range(1, len(self.graph.nodes) + 1))

    @property
    def setting(self) -> str:
        """The words after `run` that play the script."""
        nodes = max(self.numbers.values(), default=0)
        return f"--rules {self.rules} --nodes {nodes}{'' if self.is_numbered else ' --present 0'}"

    def script(self) -> str:
        """The schedule as a script, which is run with `setting`.

        It has the nodes that join and the edges, the faults before its start, its steps and two questions.
        """
        number = self.numbers
        lines = [] if self.is_numbered else [f"join {number[node]}" for node in self.graph.nodes]
        lines += [f"link {number[a]} {number[b]}" for a, b in self.graph.edges]
        lines += [f"point {number[a]} {number[b]}" for a, b in self.pointers] + [
            f"flag {number[node]} 1" for node in self.flags
        ]
        items = [
            [f"{number[it.node]}>{number[it.target]}" if it.target is not None else f"{number[it.node]}" for it in step]
            for step in self.steps
        ]
        return "".join(
            f"{line}\n"
            for line in [*lines, "status", *(" ".join(["step", *step]) for step in items), "enabled", "status"]
        )

    def play(self, *, program: Program = None) -> str:
        """The transcript of the script. `audit` accepts it, and its last epoch has the schedule's moves.

        Raises `AssertionError` if the number of moves differs, and what playing raises.
        """
        nodes = max(self.numbers.values(), default=0)
        with Network(self.rules, nodes, present=len(self.numbers) if self.is_numbered else 0, program=program) as net:
            transcript = net._played(self.script().splitlines())
        played = judged_epochs(transcript, program=program)[-1].moves
        if played != self.moves:
            raise AssertionError(f"{self.graph.title}: {played} moves are played, and {self.moves} foretold")
        return transcript


class Search:
    """All states of a small network as numbers, with a digit for each node.

    A node's digit has the index of its target among its neighbours and, under `manne`, its flag. A move
    changes only the digit of its node, so the changes of all moves in a step add up.
    """

    def __init__(self, graph: Graph, rules: str) -> None:
        number = {node: place for place, node in enumerate(graph.nodes, 1)}
        self.graph, self.rules = graph, rules
        self.state = State(rules, len(number), range(1, len(number) + 1))
        for a, b in graph.edges:
            self.state.link(number[a], number[b])
        # the null pointer comes first
        self.pointers = {node: [0, *sorted(near)] for node, near in self.state.neighbours.items()}
        self.flags = 2 if rules == "manne" else 1
        self.weights: dict[int, int] = {}
        self.size = 1
        for node, places in self.pointers.items():
            # a network with too many states needs no weights, which would take memory
            if self.size <= MOST_STATES:
                self.weights[node] = self.size
            self.size *= len(places) * self.flags
        self.best: bytearray = bytearray()

    def digit(self, node: int, pointer: int, flag: bool) -> int:
        return (self.pointers[node].index(pointer) * self.flags + flag) * self.weights[node]

    def set_to(self, code: int) -> None:
        for node, places in self.pointers.items():
            code, digit = divmod(code, len(places) * self.flags)
            self.state.point(node, places[digit // self.flags])
            self.state.flag(node, digit % self.flags)

    def moves_at(self, code: int) -> list[list[tuple[int, int, str, int]]]:
        """The moves of each enabled node: change of the state's number, node, rule, and target or 0."""
        self.set_to(code)
        state, found = self.state, []
        for node, rule in rule_sets.enabled(state).items():
            pointer, flag = state.pointers.get(node, 0), node in state.flags
            before, moves = self.digit(node, pointer, flag), []
            for target in rule_sets.targets(state, node, rule) or [0]:
                after = self.digit(node, pointer, not flag) if rule == "update" else self.digit(node, target, flag)
                moves.append((after - before, node, rule, target))
            found.append(moves)
        return found

    def steps_at(self, code: int) -> Iterator[tuple[tuple[int, int, str, int], ...]]:
        """The steps that a daemon may take.

        A step is one move under `hh`; under `manne` it is the moves of any non-empty set of enabled nodes.
        """
        moves = self.moves_at(code)
        if self.rules == "hh":
            return ((move,) for of_node in moves for move in of_node)
        most = len(moves)
        sets = (chosen for count in range(1, most + 1) for chosen in itertools.combinations(moves, count))
        return (step for chosen in sets for step in itertools.product(*chosen))

    def nexts_of(self, code: int) -> list[tuple[int, int]]:
        """The states after one step, each with the step's number of moves."""
        moves = self.moves_at(code)
        if self.rules == "hh":
            return [(code + move[0], 1) for of_node in moves for move in of_node]
        sums = [(code, 0)]
        for of_node in moves:
            sums += [(after + move[0], count + 1) for after, count in sums for move in of_node]
        return sums[1:]

    def run(self) -> tuple[int, int]:
        """Examines all states; returns the most moves, and the number of a state that allows them."""
        unknown = 255
        best = self.best = bytearray([unknown]) * self.size
        for start in range(self.size):
            waiting = [(start, self.nexts_of(start))] if best[start] == unknown else []
            while waiting:
                code, nexts = waiting[-1]
                ahead = next((after for after, _ in nexts if best[after] == unknown), None)
                if ahead is None:
                    best[code] = max((count + best[after] for after, count in nexts), default=0)
                    waiting.pop()
                else:
                    waiting.append((ahead, self.nexts_of(ahead)))
        most = max(best)
        return most, best.index(most)

    def schedule(self, code: int) -> Iterator[tuple[tuple[int, int, str, int], ...]]:
        while self.best[code]:
            step = max(
                self.steps_at(code),
                key=lambda step: (len(step) + self.best[code + sum(move[0] for move in step)], -len(step)),
            )
            yield step
            code += sum(move[0] for move in step)


def longest(graph: Graph, rules: str, *, seconds: float = 10.0, seed: int = 0) -> Longest:
    """The longest schedule of a network under `hh` or `manne`. Raises `ValueError` for other rules.

    With at most 400,000 states the result is the longest of all, found in some 50 microseconds a state; else
    it is the best that a search with this seed finds in `seconds`.
    """
    if rules not in rule_sets.WEIGHTS:
        raise ValueError(f"rules are 'hh' or 'manne', and not {rules!r}")
    search = Search(graph, rules)
    if search.size > MOST_STATES:
        return best_found(search, seconds, random.Random(seed))
    moves, start = search.run()
    steps = [[move[1:] for move in step] for step in search.schedule(start)]
    search.set_to(start)
    return told(search, moves, True, search.size, steps)


def told(
    search: Search, moves: int, is_proved: bool, states: int, steps: Sequence[Sequence[tuple[int, str, int]]]
) -> Longest:
    graph, state = search.graph, search.state
    name: Callable[[int], Name] = lambda number: graph.nodes[number - 1]
    pointers = tuple((name(node), name(target)) for node, target in sorted(state.pointers.items()))
    played = tuple(
        tuple(Wish(name(node), name(target) if target else None) for node, _, target in sorted(step)) for step in steps
    )
    bound = rule_sets.most_moves(search.rules, len(graph.edges), len(graph.nodes))
    flags = tuple(name(node) for node in sorted(state.flags))
    return Longest(graph, search.rules, moves, bound, is_proved, states, pointers, flags, played)


def best_found(search: Search, seconds: float, drawn: random.Random) -> Longest:
    """The best of greedy schedules from random states, until the time is over.

    The first schedule is whole, or is cut after a minute.
    """
    begun, tried = time.monotonic(), 0
    last = begun + seconds
    best: list[tuple[int, str, int]] = []
    best_start = 0
    while not tried or time.monotonic() < last:
        start = drawn.randrange(search.size)
        steps = greedy_from(search, start, drawn, last if tried else max(last, begun + FIRST_TRY))
        tried += 1
        if len(steps) > len(best):
            best, best_start = steps, start
    search.set_to(best_start)
    return told(search, len(best), False, tried, [[move] for move in best])


def greedy_from(search: Search, code: int, drawn: random.Random, last: float = math.inf) -> list[tuple[int, str, int]]:
    """Moves from a state, each lowering the charge least, ties broken at random.

    They end when the network is silent, or the clock shows `last`.
    """
    search.set_to(code)
    state = search.state
    steps: list[tuple[int, str, int]] = []
    options: dict[int, list[tuple[int, tuple[int, str, int]]]] = {}
    changed: Iterable[int] = state.neighbours
    while True:
        for node in changed:
            if time.monotonic() >= last:
                return steps
            options[node] = options_at(state, node)
        moves = [(fall, drawn.random(), move) for node in sorted(options) for fall, move in options[node]]
        if not moves:
            return steps
        _, _, move = min(moves)
        state.move(*move)
        steps.append(move)
        # rules and falls depend on nothing further away
        changed = ball(state, move[0], 3)


def options_at(state: State, node: int) -> list[tuple[int, tuple[int, str, int]]]:
    """The enabled moves of a node, each after the fall of the charge that it causes."""
    rule = rule_sets.rule_at(state, node)
    if not rule:
        return []
    targets = rule_sets.targets(state, node, rule) or [0]
    return [(rule_sets.fall(state, node, rule, target), (node, rule, target)) for target in targets]


def ball(state: State, node: int, radius: int) -> set[int]:
    """The nodes within `radius` edges of a node."""
    reached = newest = {node}
    for _ in range(radius):
        newest = {near for it in newest for near in state.neighbours[it]} - reached
        reached = reached | newest
    return reached


def connected_graphs(n: int) -> Iterator[Graph]:
    """Each connected graph of n nodes once, up to the names of its nodes."""
    pairs = list(itertools.combinations(range(1, n + 1), 2))
    place = {pair: at for at, pair in enumerate(pairs)}
    numberings = itertools.permutations(range(1, n + 1))
    renamings = [
        [place[min(new[a - 1], new[b - 1]), max(new[a - 1], new[b - 1])] for a, b in pairs] for new in numberings
    ]
    seen = bytearray(1 << len(pairs))
    for mask in range(1 << len(pairs)):
        if seen[mask]:
            continue
        held = [at for at in range(len(pairs)) if mask >> at & 1]
        for renaming in renamings:
            seen[sum(1 << renaming[at] for at in held)] = 1
        if is_connected(n, [pairs[at] for at in held]):
            yield Graph(
                f"{n} nodes: " + " ".join(f"{a}-{b}" for a, b in (pairs[at] for at in held)),
                tuple(range(1, n + 1)),
                tuple(pairs[at] for at in held),
            )


def is_connected(n: int, edges: Sequence[tuple[int, int]]) -> bool:
    reached = {1}
    for _ in range(n):
        reached |= {b for edge in edges for a, b in (edge, edge[::-1]) if a in reached}
    return len(reached) == n


def renamed(graph: Graph) -> Iterator[Graph]:
    """A graph of the nodes 1 to n in every numbering that gives another graph: it matters for `manne`."""
    seen = set()
    for new in itertools.permutations(graph.nodes):
        edges = tuple(sorted((min(new[a - 1], new[b - 1]), max(new[a - 1], new[b - 1])) for a, b in graph.edges))
        if edges not in seen:
            seen.add(edges)
            yield Graph(
                graph.title.partition(":")[0] + ": " + " ".join(f"{a}-{b}" for a, b in edges), graph.nodes, edges
            )
