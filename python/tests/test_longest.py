"""The longest schedules: compared with another search in small networks, and played."""

from __future__ import annotations

import itertools
import random
import time
import unittest
import unittest.mock
from typing import Optional

from rudekpi import audit, epochs, graphs, schedules
from rudekpi import rules as rule_sets
from rudekpi.replies import Name
from rudekpi.schedules import connected_graphs, longest, renamed
from rudekpi.simple_graph import Graph
from support import Timed


# A node's pointer and its flag, and those of all nodes.
Held = tuple[Optional[Name], bool]
Helds = tuple[Held, ...]


def allowed(
    rules: str,
    near: dict[Name, list[Name]],
    pointers: dict[Name, Optional[Name]],
    flags: dict[Name, bool],
    node: Name,
) -> list[Held]:
    """By the tables of the rules: the new values of a node's pointer and flag."""

    def suits(other: Name) -> bool:
        return bool(pointers[other] == node)

    married = pointers[node] is not None and pointers[pointers[node]] == node
    if rules == "manne" and flags[node] != married:
        return [(pointers[node], married)]
    if pointers[node] is None:
        suitors = [other for other in near[node] if suits(other)]
        if suitors:
            return [(other, flags[node]) for other in suitors]
        if rules == "hh":
            return [(other, flags[node]) for other in near[node] if pointers[other] is None]
        open_ones = [other for other in near[node] if pointers[other] is None and not flags[other] and other > node]
        return [(max(open_ones), flags[node])] if open_ones else []
    other = pointers[node]
    if rules == "hh":
        leaves = pointers[other] is not None and pointers[other] != node
    else:
        leaves = pointers[other] != node and (flags[other] or other < node)
    return [(None, flags[node])] if leaves else []


def longest_by_recursion(graph: Graph, rules: str) -> int:
    """From any state, by trying each choice in turn, without the package."""
    near = {node: sorted(b if a == node else a for a, b in graph.edges if node in (a, b)) for node in graph.nodes}
    known: dict[Helds, int] = {}

    def most(state: Helds) -> int:
        if state not in known:
            pointers = {node: held[0] for node, held in zip(graph.nodes, state)}
            flags = {node: held[1] for node, held in zip(graph.nodes, state)}
            stays = [[held, *allowed(rules, near, pointers, flags, node)] for node, held in zip(graph.nodes, state)]
            steps = (after for after in itertools.product(*stays) if after != state)
            counts = ((after, sum(one != other for one, other in zip(state, after))) for after in steps)
            known[state] = max(
                (count + most(after) for after, count in counts if rules == "manne" or count == 1), default=0
            )
        return known[state]

    places = [
        [
            (pointer, flag)
            for pointer in (None, *near[node])
            for flag in ((False, True) if rules == "manne" else (False,))
        ]
        for node in graph.nodes
    ]
    return max(map(most, itertools.product(*places)))


def greedy_anew(search: schedules.Search, code: int, drawn: random.Random) -> list[tuple[int, str, int]]:
    """Checks all nodes before each move."""
    search.set_to(code)
    state = search.state
    steps: list[tuple[int, str, int]] = []
    while True:
        moves = [
            (node, rule, target)
            for node, rule in rule_sets.enabled(state).items()
            for target in rule_sets.targets(state, node, rule) or [0]
        ]
        if not moves:
            return steps
        move = min(moves, key=lambda it: (rule_sets.fall(state, *it), drawn.random()))
        state.move(*move)
        steps.append(move)


class Longest(Timed):
    seconds = 120

    def test_as_another_search_finds_them(self) -> None:
        for n in (1, 2, 3, 4):
            for graph in connected_graphs(n):
                with self.subTest(graph.title):
                    self.assertEqual(longest(graph, "hh").moves, longest_by_recursion(graph, "hh"))
        for graph in [graphs.path(2), graphs.path(3), graphs.complete(3), graphs.star(4), graphs.ring(4)]:
            with self.subTest(graph.title):
                self.assertEqual(longest(graph, "manne").moves, longest_by_recursion(graph, "manne"))

    def test_they_are_played_and_accepted(self) -> None:
        for graph in [
            graphs.path(1),
            graphs.path(4),
            graphs.ring(4),
            graphs.star(4),
            graphs.complete(3),
            graphs.ring(5),
        ]:
            for rules in ("hh", "manne"):
                found = longest(graph, rules)
                with self.subTest(graph=graph.title, rules=rules):
                    said = found.play()
                    audit(said)
                    last = epochs(said)[-1]
                    self.assertEqual((last.moves, last.bound), (found.moves, found.bound))
                    self.assertIn("\n%d enabled = none\n" % (said.count(" = ") - 1), said)
                    self.assertTrue(found.is_proved)
                    self.assertEqual(sum(map(len, found.steps)), found.moves)

    def test_a_ring_of_four_reaches_its_bound(self) -> None:
        found = max((longest(graph, "manne") for graph in renamed(graphs.ring(4))), key=lambda it: it.moves)
        self.assertEqual((found.moves, found.bound), (2 * 4 + 3 * 4, 20))
        self.assertEqual(epochs(found.play())[-1].moves, 20)

    def test_how_many_graphs_there_are(self) -> None:
        # connected graphs of n nodes, unlabelled and labelled: A001349 and A001187 of the OEIS
        self.assertEqual([len(list(connected_graphs(n))) for n in range(1, 6)], [1, 1, 2, 6, 21])
        self.assertEqual(
            [sum(len(list(renamed(graph))) for graph in connected_graphs(n)) for n in range(1, 6)], [1, 1, 4, 38, 728]
        )

    def test_the_best_that_is_found(self) -> None:
        graph = graphs.ring(30)
        found = longest(graph, "hh", seconds=0.5, seed=3)
        self.assertFalse(found.is_proved)
        self.assertTrue(20 < found.moves <= found.bound)
        self.assertEqual(epochs(found.play())[-1].moves, found.moves)
        again = longest(graph, "manne", seconds=0)
        self.assertEqual((again.states, again), (1, longest(graph, "manne", seconds=0)))
        self.assertEqual(epochs(again.play())[-1].moves, again.moves)
        self.assertRaises(ValueError, longest, graph, "x")

    def test_greedy_schedules_as_if_all_was_looked_at_again(self) -> None:
        for seed in range(12):
            graph = graphs.gnp(14, 0.1 + seed / 40, seed)
            for rules in ("hh", "manne"):
                search = schedules.Search(graph, rules)
                start = random.Random(seed).randrange(search.size)
                steps = schedules.greedy_from(search, start, random.Random(seed))
                with self.subTest(seed=seed, rules=rules):
                    self.assertEqual(steps, greedy_anew(search, start, random.Random(seed)))

    def test_a_search_ends_in_its_time(self) -> None:
        begun = time.monotonic()
        found = longest(graphs.ring(400), "manne", seconds=1)
        self.assertTrue(400 < found.moves <= found.bound)
        self.assertLess(time.monotonic() - begun, 20)
        with unittest.mock.patch.object(schedules, "FIRST_TRY", 2):
            begun = time.monotonic()
            found = longest(graphs.complete(300), "hh", seconds=1)
            self.assertLess(time.monotonic() - begun, 40)
        self.assertFalse(found.is_proved)

    def test_by_the_callers_names(self) -> None:
        found = longest(graphs.Graph("mine", ("bob", "ann", "cleo"), (("cleo", "ann"), ("bob", "ann"))), "hh")
        self.assertEqual(found.moves, 4)
        self.assertEqual(epochs(found.play())[-1].moves, 4)


if __name__ == "__main__":
    unittest.main()
