"""Generated graphs."""

from __future__ import annotations

import itertools
import math
import random
import resource
import time
import unittest
import unittest.mock
from typing import Callable, Iterable

from rudekpi import generators, graphs
from rudekpi.replies import Name
from rudekpi.simple_graph import Graph
from support import Timed

try:
    import networkx
except ImportError:
    networkx = None


def degrees(graph: Graph) -> list[int]:
    return [sum(node in edge for edge in graph.edges) for node in graph.nodes]


def is_ring(graph: Graph) -> bool:
    """Whether a graph of degree two is one ring."""
    reached = {graph.nodes[0]}
    for _ in graph.nodes:
        reached |= {node for edge in graph.edges if reached & set(edge) for node in edge}
    return len(reached) == len(graph.nodes)


def as_sets(edges: Iterable[tuple[Name, Name]]) -> set[frozenset[Name]]:
    return {frozenset(edge) for edge in edges}


class Made(Timed):
    engines = ("program",)

    def test_their_sizes(self) -> None:
        for words, n, m in [
            ("path:5", 5, 4),
            ("path:1", 1, 0),
            ("ring:3", 3, 3),
            ("ring:7", 7, 7),
            ("star:6", 6, 5),
            ("complete:6", 6, 15),
            ("grid:3x4", 12, 17),
            ("grid:1,5", 5, 4),
            ("gnp:9,0", 9, 0),
            ("gnp:9,1", 9, 36),
            ("regular:10,3", 10, 15),
            ("regular:6,5,1", 6, 15),
            ("disk:9,2", 9, 36),
            ("disk:9,0", 9, 0),
        ]:
            with self.subTest(words):
                graph = graphs.graph_of(words)
                self.assertEqual((len(graph.nodes), len(graph.edges)), (n, m))

    def test_their_degrees(self) -> None:
        self.assertEqual(degrees(graphs.ring(8)), [2] * 8)
        self.assertEqual(degrees(graphs.star(5)), [4, 1, 1, 1, 1])
        self.assertEqual(degrees(graphs.grid(2, 3)), [2, 3, 2, 2, 3, 2])
        for seed in range(5):
            self.assertEqual(degrees(graphs.regular(30, 4, seed)), [4] * 30)
            self.assertEqual(degrees(graphs.regular(20, 17, seed)), [17] * 20)

    def test_by_their_seeds(self) -> None:
        for words in ("gnp:30,0.2,", "regular:20,3,", "disk:30,0.3,"):
            made = [graphs.graph_of(words + seed) for seed in "112"]
            self.assertEqual(made[0], made[1])
            self.assertNotEqual(made[0].edges, made[2].edges)

    def test_dense_regular_graphs(self) -> None:
        for n, degree in [(50, 48), (50, 25), (50, 24), (7, 2), (7, 4), (6, 2), (6, 3), (5, 2), (4, 1), (2, 1), (1, 0)]:
            for seed in range(20):
                with self.subTest(n=n, degree=degree, seed=seed):
                    self.assertEqual(degrees(graphs.regular(n, degree, seed)), [degree] * n)

    def test_ends_that_are_left_over_are_joined_by_switching_edges(self) -> None:
        left = 0
        for seed in range(40):
            made = generators.EndJoiner(30, 14, random.Random(seed))
            made.misses = 20
            made.join_free_ends()
            left += len(made.ends) > 0
            made.switch_edges()
            with self.subTest(seed=seed):
                self.assertEqual(made.ends, [])
                self.assertEqual(degrees(graphs.Graph("made", tuple(range(1, 31)), tuple(made.edges))), [14] * 30)
                self.assertTrue(all(a < b for a, b in made.edges))
        self.assertGreater(left, 30)
        with unittest.mock.patch.object(generators, "SMALL_ENDS", 0):
            self.assertEqual(degrees(graphs.regular(20, 9, 4)), [9] * 20)

    def test_regular_graphs_are_by_chance(self) -> None:
        # of the 70 graphs of six nodes with two neighbours each, 10 are two triangles, and 60 a ring
        rings = sum(is_ring(graphs.regular(6, 2, seed)) for seed in range(2000))
        self.assertTrue(abs(rings - 2000 * 6 / 7) < 100, rings)

    def test_the_mean_number_of_edges_by_chance(self) -> None:
        # 5 standard deviations of the sum of 200 graphs
        for n, p in [(40, 0.1), (40, 0.9), (7, 0.5), (300, 0.001)]:
            found, tries = sum(len(graphs.gnp(n, p, seed).edges) for seed in range(200)), 200 * n * (n - 1) / 2
            with self.subTest(n=n, p=p):
                self.assertLess(abs(found - tries * p), 5 * math.sqrt(tries * p * (1 - p)))

    def test_each_edge_is_drawn_by_its_chance(self) -> None:
        found = {pair: 0 for pair in itertools.combinations(range(1, 6), 2)}
        for seed in range(3000):
            for pair in graphs.gnp(5, 0.3, seed).edges:
                found[pair] += 1
        for pair, count in found.items():
            with self.subTest(pair=pair):
                self.assertLess(abs(count - 900), 5 * math.sqrt(3000 * 0.3 * 0.7))

    @unittest.skipUnless(networkx, "no networkx")
    def test_gnp_is_drawn_as_networkx_draws_it(self) -> None:
        for n, p, seed in [(30, 0.2, 1), (200, 0.01, 7), (9, 0.99, 3), (2, 0.5, 0)]:
            wanted = networkx.fast_gnp_random_graph(n, p, seed=random.Random(seed))
            found = {frozenset((a - 1, b - 1)) for a, b in graphs.gnp(n, p, seed).edges}
            self.assertEqual(found, as_sets(wanted.edges))

    def test_disks_by_all_pairs(self) -> None:
        for n, radius, seed in [(60, 0.2, 1), (200, 0.05, 2), (50, 0.34, 3), (50, 0.7, 4), (9, 2.0, 5), (40, 1 / 3, 6)]:
            drawn = random.Random(seed)
            at = [(drawn.random(), drawn.random()) for _ in range(n)]
            near = [(a, b) for a, b in itertools.combinations(range(n), 2) if math.dist(at[a], at[b]) <= radius]
            self.assertEqual(graphs.unit_disk(n, radius, seed).edges, tuple((a + 1, b + 1) for a, b in near))

    def test_titles_tell_chances_apart(self) -> None:
        for make in (graphs.gnp, graphs.unit_disk):
            self.assertNotEqual(make(3, 0.1234567).title, make(3, 0.12345671).title)
            self.assertEqual(make(3, 0.5).title.partition(":")[2], "3,0.5,0")

    def test_limits_are_tested_before_anything_is_built(self) -> None:
        before = resource.getrusage(resource.RUSAGE_SELF).ru_maxrss
        for words, why in [
            *((f"{word}:99999999999", "at most 65535 nodes") for word in ("path", "ring", "star", "complete")),
            ("grid:99999999999x99999999999", "at most 65535 nodes"),
            ("gnp:99999999999,0", "at most 65535 nodes"),
            ("regular:99999999999,2", "at most 65535 nodes"),
            ("disk:99999999999,0", "at most 65535 nodes"),
            ("complete:65535", "at most 1048576 edges"),
            ("complete:1449", "at most 1048576 edges"),
            ("gnp:65535,1", "at most 1048576 edges"),
            ("regular:65535,65534", "at most 1048576 edges"),
        ]:
            with self.subTest(words):
                begun = time.process_time()
                self.assertRaisesRegex(ValueError, why, graphs.graph_of, words)
                self.assertLess(time.process_time() - begun, 1)
        # KB; one list of the nodes would take more
        self.assertLess(resource.getrusage(resource.RUSAGE_SELF).ru_maxrss - before, 20_000)

    def test_large_graphs(self) -> None:
        for words, least, most in [
            # mean 21,474 edges, standard deviation 147
            ("gnp:65535,0.00001,1", 20_700, 22_300),
            ("gnp:65535,1e-300", 0, 0),
            ("disk:65535,0", 0, 0),
            ("disk:65535,1e-300", 0, 0),
            ("regular:6000,4", 12_000, 12_000),
            ("regular:400,398", 79_600, 79_600),
        ]:
            with self.subTest(words):
                self.assertTrue(least <= len(graphs.graph_of(words).edges) <= most)

    def test_graphs_with_too_many_edges_by_chance(self) -> None:
        for words in ("gnp:65535,0.5", "disk:65535,0.5"):
            self.assertRaisesRegex(ValueError, "at most 1048576 edges", graphs.graph_of, words)

    def test_what_makes_none(self) -> None:
        for words in (
            "ring:2",
            "ring:x",
            "ring:",
            "regular:5,3",
            "regular:4,4",
            "grid:3x4x5",
            "gnp:3",
            "path:65536",
            "path:70000",
        ):
            with self.subTest(words), self.assertRaises(ValueError):
                graphs.graph_of(words)
        makes: list[tuple[Callable[..., Graph], list[int]]] = [
            (graphs.path, [-1]),
            (graphs.star, [-1]),
            (graphs.complete, [-2]),
            (graphs.grid, [-2, -3]),
            (graphs.unit_disk, [-1, 1]),
        ]
        for make, numbers in makes:
            with self.subTest(make=make.__name__):
                self.assertRaisesRegex(ValueError, "below 0", make, *numbers)
        for nodes, edges in [((1, 2), ((1, 1),)), ((1, 2), ((1, 3),)), ((1, 2), ((1, 2), (2, 1))), ((1, 1), ())]:
            with self.subTest(edges), self.assertRaises(ValueError):
                graphs.Graph("none", nodes, edges)

    def test_words_that_make_no_graph(self) -> None:
        for words, why in [
            ("ring:x", "it is ring:N"),
            ("ring:2", "3 nodes or more"),
            ("grid:3", "it is grid:RxC"),
            ("grid:2x3x4", "it is"),
            ("path:-1", "below 0"),
            ("gnp:5", "it is gnp:N,P,SEED"),
            ("gnp:5,2", "a chance"),
            ("regular:5,3", "no graph of 5"),
            ("disk:5", "it is"),
            ("disk:10,nan", "it is disk:N,RADIUS,SEED"),
            ("disk:10,inf", "it is disk:N,RADIUS,SEED"),
            ("disk:10,1e999", "a radius"),
            ("path:1_0", "it is path:N"),
            ("path:\u0663", "it is path:N"),
            ("gnp:10x0.5", "it is gnp:N,P,SEED"),
            ("gnp:5,0.5,18446744073709551616", "a seed"),
            ("complete:1500", "1048576"),
            ("ring:70000", "65535"),
        ]:
            with self.subTest(words):
                self.assertRaisesRegex(ValueError, why, graphs.graph_of, words)


if __name__ == "__main__":
    unittest.main()
