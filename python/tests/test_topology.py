"""Sweeps that change the topology: links cut, added and rewired, and nodes that walk."""

from __future__ import annotations

import concurrent.futures
import math
import os
import random
import subprocess
import sys
import unittest
from typing import Any
from unittest import mock

from rudekpi import Network, WrongChoice, bursts, daemons, graphs, replay, sweep
from rudekpi.disturbances import Disturbance
from rudekpi.plays import Player
from rudekpi.simple_graph import Disk
from rudekpi.sweeps import Experiment
from rudekpi.walks import Topology, Walk, folded
from support import TOP, Timed

DISK = graphs.unit_disk(25, 0.3, 2)


def rudekpi(*words: str) -> subprocess.CompletedProcess[str]:
    paths = dict(os.environ, PYTHONPATH=os.path.join(TOP, "python"))
    return subprocess.run([sys.executable, "-m", "rudekpi", *words], env=paths, capture_output=True, encoding="utf-8")


class Stood:
    """With the attributes of a graph of networkx."""

    def __init__(self, name: str = "", is_directed: bool = False) -> None:
        self.name, self.nodes, self.edges = name, ["ann", "bob", "cleo"], [("cleo", "ann")]
        self.is_directed, self.is_multigraph = lambda: is_directed, lambda: False


class Topologies(Timed):
    # no engine is used
    engines = ("program",)

    def test_links_that_go_and_come(self) -> None:
        drawn, made = random.Random(1), Topology([1, 2, 3, 4], [(1, 2), (2, 3), (3, 9)])
        self.assertEqual(made.edges, [(1, 2), (2, 3)], "9 is not there")
        self.assertEqual({made.cut(drawn), made.cut(drawn)}, {(1, 2), (2, 3)})
        self.assertRaisesRegex(ValueError, "no link is left", made.cut, drawn)
        self.assertEqual(len({tuple(sorted(made.add(drawn))) for _ in range(6)}), 6)
        self.assertRaisesRegex(ValueError, "all nodes are linked", made.add, drawn)
        made.leave(3)
        self.assertEqual((made.near, sorted(made.edges)), ({1: {2, 4}, 2: {1, 4}, 4: {1, 2}}, [(1, 2), (1, 4), (2, 4)]))
        self.assertRaisesRegex(ValueError, "linked with all others", made.rewire, drawn)

    def test_a_rewired_link_keeps_an_end(self) -> None:
        for seed in range(20):
            made = Topology(range(1, 6), [(1, 2), (3, 4)])
            cut, (a, b) = made.rewire(random.Random(seed))
            self.assertTrue(a in cut and b not in cut and b in made.near[a] and len(made.edges) == 2)

    def test_the_last_link_that_can_be_added(self) -> None:
        made = Topology(range(1, 31), [(a, b) for a in range(1, 31) for b in range(a + 1, 31) if (a, b) != (7, 9)])
        self.assertEqual(sorted(made.add(random.Random(3))), [7, 9])

    def test_walks_by_hand(self) -> None:
        self.assertEqual([folded(place) for place in (0.25, 1.25, -0.25, 2.25)], [0.25, 0.75, 0.25, 0.25])
        # all walk to the right: 3 turns back, and ends 0.25 from 2
        disk = Disk(0.25, ((0.125, 0.5), (0.375, 0.5), (0.875, 0.5)))
        to_the_right = mock.Mock(random=lambda: 0.0)
        walk = Walk(disk, Topology([1, 2, 3], [(1, 2)]), to_the_right)
        self.assertEqual([*walk.steps(0.25, False)], [[("link", (2, 3))]])
        self.assertEqual([walk.at[node][0] for node in (1, 2, 3)], [0.375, 0.625, 0.875])
        self.assertEqual([*walk.steps(0.25, False)], [[("link", (1, 3))]], "0.625, 0.875 and 1.125, which is 0.875")
        self.assertEqual(walk.topology.near[1], {2, 3})
        # one by one: 1 goes to 0.375 and stays near 2; 2 goes away to 0.625; 3 turns back
        walk = Walk(disk, Topology([1, 2, 3], [(1, 2)]), to_the_right)
        self.assertEqual([*walk.steps(0.25, True)], [[("link", (2, 3))]])


class Disturbances(Timed):
    engines = ("program",)

    def test_in_words(self) -> None:
        for hit, words in (
            (Disturbance(cut=1, add=2), "1 link cut, 2 links added"),
            (Disturbance(3, rewire=1, every=1), "3 faults, 1 link rewired, every 1 move"),
            (Disturbance(move=0.05, every=10), "nodes walk 0.05, every 10 moves"),
        ):
            self.assertEqual((str(hit), hit.is_nothing), (words, False))

    def test_what_is_none(self) -> None:
        wrong: list[dict[str, Any]] = [dict(cut=-1), dict(move=-0.1), dict(move=math.nan), dict(every=3)]
        for words in wrong:
            with self.subTest(words):
                self.assertRaises(ValueError, Disturbance, **words)
        for hit in (Disturbance(move=0.1), Disturbance(cut=3, rewire=3), Disturbance(joins=6)):
            with self.subTest(str(hit)):
                self.assertRaisesRegex(ValueError, "ring:5: ", sweep, [graphs.ring(5)], faults=[hit])
        self.assertRaisesRegex(
            ValueError, "no link can be added", list, sweep([graphs.ring(3)], faults=[Disturbance(add=1)])
        )


class Rows(Timed):
    def test_by_hand(self) -> None:
        # a pair whose link is cut: no move follows, and a new link makes them a pair again
        [row] = sweep([graphs.path(2)], ["hh"], ["least"], faults=[Disturbance(cut=1)])
        self.assertEqual((row.m, row.moves, row.charge, row.pairs), (0, 0, 0, 0))
        [row] = sweep([graphs.path(2)], ["hh"], ["least"], faults=[Disturbance(cut=1, add=1, every=1)])
        # the cut costs 0 without other edges, and the new link 2
        self.assertEqual((row.m, row.moves, row.rounds, row.charge, row.bound, row.pairs), (1, 2, 1, 2, 2, 1))
        # under manne: 4 and 2, and 2 for the pair that forms again; both flags are updated twice
        [row] = sweep([graphs.path(2)], ["manne"], ["least"], faults=[Disturbance(cut=1, add=1, every=9)])
        self.assertEqual((row.update, row.marry, row.seduce, row.abandon, row.pairs), (4, 1, 1, 0, 1))
        self.assertEqual((row.moves, row.charge, row.bound), (6, 6, 6))

    def test_bounds_and_bursts(self) -> None:
        hits = [
            Disturbance(2, "any", 2, 3, 3, 3, 3, 0.1),
            Disturbance(2, "any", 2, 3, 3, 3, 3, 0.1, 2),
            Disturbance(3, "pointer", 2, 2, cut=2, every=1),
            Disturbance(move=0.2, every=1),
        ]
        for number, (hit, rules, daemon) in enumerate(
            [(hit, rules, daemon) for hit in hits for rules in ("hh", "manne") for daemon in ("seeded", "age")]
        ):
            experiment = Experiment(DISK, rules, daemon, number, hit)
            with self.subTest(experiment.told()):
                row, played = experiment.run(), experiment.played()
                self.assertTrue(row.moves <= min(row.charge, row.bound) and row.rounds <= row.steps <= row.moves)
                later = [it for it in bursts(played.transcript) if it.start and it.start > played.before.entry]
                if hit.every:
                    self.assertEqual(sum(it.moves for it in later), row.moves)
                self.assertEqual(experiment.played().transcript, played.transcript, "the same each time")

    def test_links_are_by_distance_after_a_walk(self) -> None:
        for every in (0, 1):
            hit = Disturbance(move=0.15, every=every)
            walks: list[Walk] = []
            kept = Walk.__init__

            def keep(walk: Walk, *words: Any) -> None:
                kept(walk, *words)
                walks.append(walk)

            with mock.patch.object(Walk, "__init__", keep):
                played = Experiment(DISK, "manne", "least", 4, hit).played()
            with replay(played.transcript) as net:
                at = walks[0].at
                near = {(a, b) for a in at for b in at if a < b and math.dist(at[a], at[b]) <= 0.3}
                self.assertEqual({*net.edges}, near)
                self.assertNotEqual({*net.edges}, {*DISK.edges})

    def test_a_daemon_of_ones_own(self) -> None:
        hit = Disturbance(cut=3, every=1)
        [row] = sweep([DISK], ["hh"], [lambda enabled: [max(enabled)]], faults=[hit], processes=None, executor=Now())
        self.assertEqual(row.steps, row.moves)
        with Network("hh", 2) as net:
            net.link(1, 2)
            self.assertRaises(WrongChoice, Player(net, lambda enabled: []).play, 1)
            player = Player(net, daemons.ByName())
            player.play(1)
            self.assertEqual((player.moves, net.status().enabled), (1, 1))
            player.play(9)
            self.assertEqual((player.steps, player.moves, net.status().enabled), (2, 2, 0))


class Now(concurrent.futures.Executor):
    """Does each task at once."""

    def submit(self, task: Any, *words: Any) -> Any:  # type: ignore[override]
        future: concurrent.futures.Future[Any] = concurrent.futures.Future()
        future.set_result(task(*words))
        return future


class OfNetworkx(Timed):
    def test_rows_and_titles(self) -> None:
        [row] = sweep([Stood()], ["hh"], ["least"])
        self.assertEqual((row.graph, row.n, row.m, row.pairs), ("networkx:3,1", 3, 1, 1))
        self.assertEqual({row.graph for row in sweep([Stood("one"), Stood("two")])}, {"one", "two"})
        self.assertRaisesRegex(ValueError, "simple undirected", sweep, [Stood(is_directed=True)])
        self.assertRaises(TypeError, graphs.from_networkx, [1])

    def test_networks(self) -> None:
        stood: Any = Stood()
        for graph in (stood, graphs.from_networkx(stood)):
            with Network("hh", graph) as net:
                self.assertEqual((net.nodes, net.edges), (["ann", "bob", "cleo"], [("ann", "cleo")]))


class Commands(Timed):
    def test_rows(self) -> None:
        words = "sweep --graph disk:20,0.3,1 --seeds 2 --move 0.1 --cut 2 --add 1 --rewire 1 --every 2".split()
        done = rudekpi(*words, "--processes", "1")
        self.assertEqual((done.returncode, done.stderr), (0, ""))
        self.assertEqual(
            done.stdout.count('"nodes walk 0.1, 2 links cut, 1 link added, 1 link rewired, every 2 moves"'), 2
        )

    def test_bad_words(self) -> None:
        for words, why in (
            ("--move x", "no length from 0 on"),
            ("--move -1", "no length from 0 on"),
            ("--move 0.1", "only the nodes of disk"),
            ("--cut 6", "more than its 5 edges"),
            ("--cut -1", "no number from 0 on"),
            ("--every 2", "one by one"),
            ("--add 9", "no link can be added"),
        ):
            done = rudekpi("sweep", "--graph", "ring:5", "--processes", "1", "--seeds", "1", *words.split())
            self.assertEqual((done.returncode, "Traceback" in done.stderr), (2, False), (words, done.stderr))
            self.assertIn(why, done.stderr)


if __name__ == "__main__":
    unittest.main()
