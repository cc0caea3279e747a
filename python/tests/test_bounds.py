"""How many moves can still come, and the bounds of epochs; worked out by hand."""

from __future__ import annotations

import unittest
from typing import Iterable

from rudekpi import Network, daemons, epochs, graphs, longest
from support import Timed


def linked(rules: str, graph: graphs.Graph, pointers: Iterable[tuple[int, int]] = ()) -> Network:
    """With pointers as written by faults."""
    net = Network(rules, graph.nodes)
    for a, b in graph.edges:
        net.link(a, b)
    for node, target in pointers:
        net.point(node, target)
    return net


class MovesLeft(Timed):
    def test_what_the_nodes_allow_is_less(self) -> None:
        # fifteen edges, all open: 2 * 15 and 6 pointers without an answer
        cycle = [(node, node % 6 + 1) for node in range(1, 7)]
        with linked("hh", graphs.complete(6), cycle) as net:
            self.assertEqual((net.status().charge, net.moves_left()), (36, 36 // 2 + 6 - 2))
            net.step([1])
            # a move later the bound by nodes is the same: it does not subtract what is spent
            self.assertEqual(net.moves_left(), 22)

    def test_the_charge_is_less(self) -> None:
        with linked("hh", graphs.path(3)) as net:
            self.assertEqual((net.status().charge, net.moves_left()), (4, 4))
        with linked("hh", graphs.path(2)) as net:
            self.assertEqual((net.status().charge, net.moves_left()), (2, 2))

    def test_the_other_rules_have_the_charge(self) -> None:
        cycle = [(node, node % 4 + 1) for node in range(1, 5)]
        with linked("manne", graphs.complete(4), cycle) as net:
            self.assertEqual((net.status().charge, net.moves_left()), (2 * 3 + 4 + 4, 14))

    def test_none_in_silence(self) -> None:
        # under `manne` a node without edges is silent, and has one of the charge
        for rules, charge in (("hh", 0), ("manne", 5000)):
            for engine in ("library", "program"):
                with self.subTest(rules, engine=engine), Network(rules, 5000, engine=engine) as net:
                    self.assertEqual((net.status().enabled, net.status().charge, net.moves_left()), (0, charge, 0))

    def test_of_few_nodes(self) -> None:
        for nodes in (0, 1):
            with self.subTest(nodes=nodes), Network("hh", nodes) as net:
                self.assertEqual(net.moves_left(), 0)

    def test_of_those_that_are_present(self) -> None:
        with Network("hh", 6, present=2) as net:
            net.link(1, 2)
            self.assertEqual(net.moves_left(), 2)

    def test_of_a_network_that_is_closed(self) -> None:
        net = Network("hh", 2)
        net.close()
        self.assertRaisesRegex(ValueError, "closed", net.moves_left)

    def test_asking_the_library_is_no_entry(self) -> None:
        for engine, entries in (("library", 0), ("program", 1)):
            with self.subTest(engine), Network("hh", 2, engine=engine) as net:
                net.moves_left()
                self.assertEqual(net.transcript().count(" = "), entries)


class Bounds(Timed):
    def test_epochs_in_a_dense_network(self) -> None:
        graph = graphs.complete(6)
        with linked("hh", graph) as net:
            net.settle(daemons.Seeded(3))
            said = net.transcript()
        last = epochs(said)[-1]
        self.assertEqual((last.nodes, last.edges, last.bound), (6, 15, 22))
        # with five edges 2m + n is less
        self.assertEqual([epoch.bound for epoch in epochs(said)][:9], [6, 8, 10, 12, 14, 16, 18, 20, 22])

    def test_the_epoch_that_a_base_cuts_has_the_charge_s_bound(self) -> None:
        with linked("hh", graphs.complete(4)) as net:
            net.step([1])
            net.checkpoint()
            said = net.transcript()
        lines = said.splitlines(keepends=True)
        base = next(at for at, line in enumerate(lines) if line.startswith("base "))
        cut = "matching2 hh 4\n" + "".join(lines[base:])
        self.assertEqual([(it.start, it.bound) for it in epochs(cut)], [(None, 2 * 6 + 4)])
        self.assertEqual(epochs(said)[-1].bound, 10)

    def test_the_longest_schedules_of_complete_graphs_reach_it(self) -> None:
        for n in (2, 3, 4, 5):
            with self.subTest(n=n):
                found = longest(graphs.complete(n), "hh")
                self.assertEqual((found.moves, found.bound), (n * n // 2 + n - 2,) * 2)


class Drives(Timed):
    def test_as_many_turns_as_the_charge_end_silent(self) -> None:
        for rules in ("hh", "manne"):
            for seed in range(6):
                with self.subTest(rules=rules, seed=seed), linked(rules, graphs.gnp(8, 0.5, seed)) as net:
                    net.scramble(seed, 20)
                    net.drive(seed, net.status().charge)
                    self.assertEqual(net.enabled(), {})


if __name__ == "__main__":
    unittest.main()
