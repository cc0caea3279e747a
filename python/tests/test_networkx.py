"""Networks from and to networkx, which judges their matchings."""

from __future__ import annotations

import os
import random
import unittest
from typing import Any

from rudekpi import Network, graphs, kept_graphs, sweep, sweeps
from rudekpi.choices import Daemon
from rudekpi.plans import play_again
from support import Timed

try:
    import networkx
except ImportError:
    networkx = None


def one(drawn: random.Random) -> Daemon:
    """Moves one node at random."""
    return lambda enabled: [drawn.choice(list(enabled))]


def some(drawn: random.Random) -> Daemon:
    """Moves any nodes, at least one."""
    return lambda enabled: [node for node in enabled if drawn.random() < 0.5] or [drawn.choice(list(enabled))]


def bare(graph: Any) -> Any:
    """Without attributes."""
    return networkx.from_dict_of_lists(networkx.to_dict_of_lists(graph))


@unittest.skipUnless(networkx, "no networkx")
class Graphs(Timed):
    def test_random_networks_settle_in_maximal_matchings(self) -> None:
        for seed in range(12):
            drawn = random.Random(seed)
            graph = networkx.gnp_random_graph(drawn.randint(1, 60), drawn.random() ** 2, seed=seed)
            rules, weight = drawn.choice([("hh", 1), ("manne", 3)])
            with self.subTest(seed=seed), Network.from_networkx(graph, rules) as net:
                for faults in (0, 40):
                    net.scramble(seed, faults)
                    settled = net.settle(one(drawn) if rules == "hh" else some(drawn))
                    self.assertLessEqual(settled.moves, settled.charge)
                    self.assertLessEqual(settled.charge, 2 * graph.number_of_edges() + weight * graph.number_of_nodes())
                    self.assertTrue(networkx.is_maximal_matching(graph, set(net.matching())))
                for a, b in list(net.matching())[::2]:
                    net.unlink(a, b)
                    graph.remove_edge(a, b)
                net.drive(seed, 1_000_000)
                self.assertTrue(networkx.is_maximal_matching(graph, set(net.matching())))
                self.assertTrue(networkx.utils.graphs_equal(bare(net.to_networkx()), graph))

    def test_nodes_that_come_later(self) -> None:
        graph = networkx.path_graph(["ann", "bob"])
        with Network.from_networkx(graph, "hh", spare=2) as net:
            net.join("cleo")
            net.link("bob", "cleo")
            net.join("dan")
            self.assertRaisesRegex(ValueError, "no number is left for 'eve': the capacity is 4", net.join, "eve")
            self.assertEqual(net.settle(daemon="least").moves, 2)
            self.assertEqual(net.to_networkx().nodes["ann"]["pointer"], "bob")
            self.assertEqual(sorted(net.to_networkx().nodes), ["ann", "bob", "cleo", "dan"])
        self.assertRaisesRegex(ValueError, "nodes that may come is 0 to", Network.from_networkx, graph, spare=-1)
        with Network(nodes=graph, capacity=3) as net:
            net.join(("a", 1))
            self.assertEqual(net.edges, [("ann", "bob")])
            self.assertRaises(ValueError, net.join, ("a", 2))

    def test_sweeps_of_named_graphs_play_again(self) -> None:
        graph = networkx.Graph([("ann", "bob"), ("bob", (1, 2))], name="who meets whom")
        graph.add_node("alone")
        path = os.path.join(self.folder(), "rows.csv")
        with open(path, "w", newline="", encoding="utf-8") as file:
            rows = list(sweeps.write_csv(sweep([graph], ["hh", "manne"], faults=[0, 2], processes=1), file))
        self.assertEqual({(row.graph, row.n, row.m) for row in rows}, {("who meets whom", 4, 2)})
        kept = kept_graphs.kept_graph(path, "who meets whom")
        self.assertEqual(kept, graphs.from_networkx(graph))
        for row in rows:
            self.assertEqual(play_again(row, graph=kept).nodes, ("ann", "bob", (1, 2), "alone"))

    def test_names_that_are_tuples(self) -> None:
        graph = networkx.grid_2d_graph(5, 6)
        with Network.from_networkx(graph) as net:
            self.assertEqual(net.nodes, list(graph.nodes))
            net.settle(list)
            self.assertTrue(networkx.is_maximal_matching(graph, set(net.matching())))
            self.assertEqual(net.status().edges, 5 * 5 + 6 * 4)

    def test_to_a_graph_of_numbers(self) -> None:
        with Network("hh", 4) as net:
            net.link(4, 2)
            net.link(1, 2)
            net.unlink(2, 4)
            graph = net.to_networkx()
        self.assertEqual((sorted(graph.nodes), list(graph.edges)), ([1, 2, 3, 4], [(1, 2)]))

    def test_who_is_present_is_in_the_graph(self) -> None:
        with Network("hh", 4, present=3) as net:
            net.link(1, 2)
            net.link(2, 3)
            net.leave(2)
            net.checkpoint()
            net.join(4)
            net.link(4, 1)
            graph = net.to_networkx()
        self.assertEqual((sorted(graph.nodes), list(graph.edges)), ([1, 3, 4], [(1, 4)]))

    def test_pairs_and_registers_are_carried(self) -> None:
        with Network("manne", ["ann", "bob", "cleo"]) as net:
            net.link("ann", "bob")
            net.link("bob", "cleo")
            net.settle(list)
            graph = net.to_networkx()
        # by hand, as in test_examples
        held = {"ann": (None, False), "bob": ("cleo", True), "cleo": ("bob", True)}
        self.assertEqual({node: (it["pointer"], it["flag"]) for node, it in graph.nodes(data=True)}, held)
        self.assertEqual(
            {(a, b): it["pair"] for a, b, it in graph.edges(data=True)}, {("ann", "bob"): False, ("bob", "cleo"): True}
        )

    def test_graphs_that_are_none(self) -> None:
        loop = networkx.Graph([(1, 2), (2, 2)])
        for graph, text in [
            (networkx.DiGraph([(1, 2)]), "undirected"),
            (networkx.MultiGraph([(1, 2)]), "simple"),
            (loop, "itself"),
        ]:
            with self.assertRaisesRegex(ValueError, text):
                Network.from_networkx(graph)


if __name__ == "__main__":
    unittest.main()
