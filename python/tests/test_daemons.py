"""Daemons by name, and the rules that they look ahead by."""

from __future__ import annotations

import pickle
import random
import time
import unittest
from typing import Callable, Optional, Sequence

from rudekpi import Enabled, Network, Settled, audit, daemons, graphs, rules
from rudekpi.falls import Falls, Watched
from rudekpi.replies import Choice
from rudekpi.simple_graph import Graph
from rudekpi.state import State
from rudekpi.sweeps import AnyDaemon
from support import Timed


def stirred(rule_set: str, graph: Graph, seed: int) -> Network:
    net = Network(rule_set, graph.nodes)
    with net.batch() as batch:
        for a, b in graph.edges:
            batch.link(a, b)
        batch.scramble(seed, 3 * len(graph.nodes))
    return net


class Rules(Timed):
    def test_they_foretell_what_the_program_says(self) -> None:
        for seed in range(10):
            drawn = random.Random(seed)
            for rule_set in ("hh", "manne"):
                with self.subTest(seed=seed, rules=rule_set), stirred(rule_set, graphs.gnp(9, 0.4, seed), seed) as net:
                    follower = net.follower()
                    for _ in range(12):
                        state, status, enabled = follower.state(), net.status(), net.enabled()
                        self.assertEqual(rules.enabled(state), dict(enabled))
                        self.assertEqual(rules.charge(state), status.charge)
                        self.assertLessEqual(status.charge, rules.bound(rule_set, status.edges, status.nodes))
                        if not enabled:
                            break
                        node = drawn.choice(list(enabled))
                        targets = rules.targets(state, node, enabled[node])
                        fall = rules.fall(state, node, enabled[node], targets[0] if targets else None)
                        [move] = net.step([node])
                        self.assertEqual(move.target, targets[0] if targets else None, "the least target is taken")
                        self.assertEqual(net.status().charge, status.charge - fall)
                        self.assertGreater(fall, 0)


class Daemons(Timed):
    def test_each_settles_within_the_charge_and_again_so(self) -> None:
        for word in (*daemons.WORDS, "probability:0.3"):
            for rule_set in ("hh", "manne"):
                daemon, said = daemons.named(word, 5), []
                if rule_set == "hh" and isinstance(daemon, daemons.OF_MANNE):
                    continue
                for again in (daemon, daemon, pickle.loads(pickle.dumps(daemon))):
                    with self.subTest(daemon=daemon, rules=rule_set), stirred(rule_set, graphs.grid(3, 4), 8) as net:
                        settled = net.settle(again)
                        self.assertTrue(0 < settled.moves <= settled.charge)
                        self.assertEqual((net.status().enabled, net.status().spent), (0, settled.moves))
                        self.assertEqual(net.settle(again), Settled(0, 0, net.status().charge))
                        said.append(net.transcript())
                self.assertEqual(said, said[:1] * 3)
                audit(said[0])

    def steps_of(self, daemon: AnyDaemon, rule_set: str, graph: Graph) -> list[tuple[list[int], list[int]]]:
        with stirred(rule_set, graph, 3) as net:
            net.settle(daemon)
            lines = [
                line.split(" ", 1)[1]
                for line in net.transcript().splitlines()
                if " enabled = " in line or " step " in line
            ]
        found = []
        for asked, step in zip(lines[::2], lines[1::2]):
            enabled = [int(word.split(":")[0]) for word in asked.split(" = ")[1].split(" ")]
            found.append((enabled, [int(word.split(">")[0]) for word in step.split(" = ")[0].split(" ")[1:]]))
        self.assertGreater(len(found), 3)
        return found

    def test_who_moves(self) -> None:
        ring = graphs.ring(15)
        self.assertTrue(all(moved == enabled for enabled, moved in self.steps_of(daemons.Synchronous(), "manne", ring)))
        for rule_set in ("hh", "manne"):
            self.assertTrue(
                all(moved == [min(enabled)] for enabled, moved in self.steps_of(daemons.ByName(), rule_set, ring))
            )
            self.assertTrue(
                all(
                    moved == [max(enabled)]
                    for enabled, moved in self.steps_of(daemons.ByName(greatest=True), rule_set, ring)
                )
            )
            moves: dict[int, int] = {}
            for place, (enabled, [node]) in enumerate(self.steps_of(daemons.ByAge(), rule_set, ring)):
                self.assertTrue(all((moves.get(node, -1), node) <= (moves.get(other, -1), other) for other in enabled))
                moves[node] = place

    def test_the_seeded_one_is_the_programs(self) -> None:
        with stirred("hh", graphs.ring(9), 1) as net, stirred("hh", graphs.ring(9), 1) as other:
            settled, driven = net.settle(daemons.Seeded(77)), other.drive(77, 1000)
            self.assertEqual((settled.steps, settled.moves), (len(driven), sum(map(len, driven))))
            self.assertEqual(net.matching().pairs, other.matching().pairs)

    def test_the_greedy_ones(self) -> None:
        for most, choose in ((False, min), (True, max)):
            for rule_set in ("hh", "manne"):
                with stirred(rule_set, graphs.gnp(8, 0.5, 2), 4) as net:
                    follower, greedy = net.follower(), daemons.Greedy(most).begin(net)

                    def looked(enabled: Enabled) -> Choice:
                        # each move tried by itself
                        state = follower.state()
                        before, falls = rules.charge(state), []
                        for node, rule in enabled.items():
                            targets: Sequence[Optional[int]] = rules.targets(state, node, rule)
                            for target in targets or [None]:
                                held, flags = dict(state.pointers), set(state.flags)
                                state.move(node, rule, target)
                                falls.append(before - rules.charge(state))
                                state.pointers, state.flags = held, flags
                        wanted.append(choose(falls))
                        return greedy(enabled)

                    wanted: list[int] = []
                    charges = [net.status().charge]
                    net.settle(looked)
                    # played again, the charges show how far each move lowered it
                    with stirred(rule_set, graphs.gnp(8, 0.5, 2), 4) as again:
                        for line in net.transcript().splitlines():
                            if " step " in line:
                                again._played([line.split(" ", 1)[1].split(" = ")[0]])
                                charges.append(again.status().charge)
                self.assertEqual([one - other for one, other in zip(charges, charges[1:])], wanted)

    def choices(self, daemon: AnyDaemon, seed: int) -> list[tuple[set[int], set[int]]]:
        """Each choice of a daemon on a grid, after the nodes that were enabled."""
        with stirred("manne", graphs.grid(5, 5), seed) as net:
            net.settle(daemon)
            lines = [line.split(" ", 1)[1] for line in net.transcript().splitlines() if " = " in line]
        found, before = [], set[int]()
        for line in lines:
            event, reply = line.split(" = ")
            if event == "enabled":
                before = {int(item.split(":")[0]) for item in reply.split(" ") if item != "none"}
            elif event.startswith("step ") and before:
                found.append((before, {int(item.split(">")[0]) for item in event.split(" ")[1:]}))
        return found

    def test_a_locally_central_daemon(self) -> None:
        near = {
            node: {b if a == node else a for a, b in graphs.grid(5, 5).edges if node in (a, b)} for node in range(1, 26)
        }
        several = 0
        for seed in range(4):
            for enabled, moving in self.choices(daemons.LocallyCentral(seed), seed):
                self.assertLessEqual(moving, enabled)
                several += len(moving) > 1
                for node in moving:
                    self.assertEqual(near[node] & moving, set(), "no two neighbours")
                for node in enabled - moving:
                    self.assertNotEqual(near[node] & moving, set(), "no node could be added")
        self.assertGreater(several, 20)
        self.assertNotEqual(self.choices(daemons.LocallyCentral(1), 3), self.choices(daemons.LocallyCentral(2), 3))

    def test_a_daemon_with_a_probability(self) -> None:
        # with 1 all move, as under the synchronous daemon
        self.assertTrue(all(enabled == moving for enabled, moving in self.choices(daemons.Activation(1), 3)))
        for chance in (0.2, 0.7):
            found = [it for seed in range(8) for it in self.choices(daemons.Activation(chance, seed), seed)]
            # many enabled nodes: a choice of none is unlikely
            many = [(enabled, moving) for enabled, moving in found if len(enabled) >= 12]
            share = sum(len(moving) for _, moving in many) / sum(len(enabled) for enabled, _ in many)
            self.assertAlmostEqual(share, chance, delta=0.1)
            self.assertTrue(all(moving and moving <= enabled for enabled, moving in found))
        # a chance that never comes: one node at a time
        self.assertEqual({len(moving) for _, moving in self.choices(daemons.Activation(1e-300), 1)}, {1})

    def test_words_of_a_probability(self) -> None:
        self.assertEqual(daemons.named("probability:0.25", 7), daemons.Activation(0.25, 7))
        self.assertEqual(daemons.named("local", 7), daemons.LocallyCentral(7))
        for word in ("probability:0", "probability:1.01", "probability:", "probability:nan", "probability:-1"):
            self.assertRaisesRegex(ValueError, "is no daemon: it is probability:P", daemons.named, word)
        self.assertRaisesRegex(ValueError, "no daemon has the name 'probability'", daemons.named, "probability")
        for daemon in (daemons.LocallyCentral(), daemons.Activation(0.5)):
            with Network("hh", 2) as net:
                net.link(1, 2)
                self.assertRaisesRegex(ValueError, "wants the rules 'manne'", net.settle, daemon)

    def test_the_greedy_ones_ask_for_no_list_before_a_step(self) -> None:
        for most in (False, True):
            for rule_set in ("hh", "manne"):
                with self.subTest(most=most, rules=rule_set), stirred(rule_set, graphs.grid(4, 4), 5) as net:
                    settled = net.settle(daemons.Greedy(most))
                    said = net.transcript()
                    self.assertEqual(said.count(" enabled = "), 1)
                    self.assertEqual(said.count(" step "), settled.moves)
                    # step by step with a list of the enabled nodes: the same moves
                    with stirred(rule_set, graphs.grid(4, 4), 5) as other:
                        choose = daemons.Greedy(most).begin(other)
                        other.settle(lambda enabled: choose(enabled))
                        steps = [
                            [line.split(" = ")[1] for line in text.splitlines() if " step " in line]
                            for text in (said, other.transcript())
                        ]
                        self.assertEqual(steps[0], steps[1])

    def test_what_is_none(self) -> None:
        with Network("hh", 2) as net:
            net.link(1, 2)
            self.assertRaisesRegex(ValueError, "wants the rules 'manne'", net.settle, daemons.Synchronous())
        self.assertRaisesRegex(ValueError, "no daemon has the name 'fair'", daemons.named, "fair")

    def test_names_of_the_callers_own(self) -> None:
        for word in ("greedy", "age", "least", "greatest", "seeded", "synchronous"):
            with Network("manne", ["zoe", "bob", "ann"]) as net:
                net.link("zoe", "bob")
                net.link("bob", "ann")
                net.settle(daemons.named(word))
                self.assertEqual(len(net.matching()), 1)


class Index(Timed):
    """The index of the moves by the fall of the charge agrees with falls that are computed anew."""

    def disturbed(self, drawn: random.Random, state: State) -> Callable[[State], None]:
        """A random edit, fault or move that this state allows."""
        a, b = drawn.randint(1, state.count), drawn.randint(1, state.count)
        kind = drawn.choice(["link", "link", "unlink", "leave", "point", "point", "flag", "move", "move", "move"])
        if a not in state.neighbours:
            return lambda it: it.join(a)
        near = state.neighbours[a]
        if kind == "link" and b in state.neighbours and b != a and b not in near:
            return lambda it: it.link(a, b)
        if kind == "unlink" and b in near:
            return lambda it: it.unlink(a, b)
        if kind == "leave" and drawn.random() < 0.3:
            return lambda it: it.leave(a)
        if kind == "flag" and state.rules == "manne":
            return lambda it: it.flag(a, b % 2)
        rule = rules.rule_at(state, a)
        if kind == "move" and rule:
            target = drawn.choice([*rules.targets(state, a, rule)] or [0])
            return lambda it: it.move(a, str(rule), target or None)
        pointed = drawn.choice([0, *sorted(near)])
        return lambda it: it.point(a, pointed)

    def least(self, state: State, sign: int) -> Optional[tuple[int, int, int]]:
        moves = [
            (sign * rules.fall(state, node, rule, target), node, target)
            for node, rule in rules.enabled(state).items()
            for target in rules.targets(state, node, rule) or [0]
        ]
        return min(moves, default=None)

    def test_after_random_events(self) -> None:
        for seed in range(60):
            drawn = random.Random(seed)
            rule_set, count = drawn.choice(["hh", "manne"]), drawn.randint(2, 9)
            plain = State(rule_set, count, range(1, count + 1))
            watched = {sign: Watched(rule_set, count, range(1, count + 1)) for sign in (1, -1)}
            falls = {sign: Falls(state, sign) for sign, state in watched.items()}
            for event in range(80):
                change = self.disturbed(drawn, plain)
                for state in (plain, *watched.values()):
                    change(state)
                for sign in (1, -1):
                    with self.subTest(seed=seed, event=event, sign=sign):
                        self.assertEqual(falls[sign].first(), self.least(plain, sign))


class Speed(Timed):
    engines = ("library",)
    seconds = 120

    def test_a_greedy_move_in_a_large_network(self) -> None:
        """At most a millisecond of the processor a move, with 10,000 nodes and their 19,800 edges."""
        for rule_set in ("hh", "manne"):
            with Network(rule_set, graphs.grid(100, 100)) as net:
                net.scramble(3, 1000)
                start = time.process_time()
                moves = net.settle(daemons.Greedy()).moves
                taken = time.process_time() - start
            with self.subTest(rules=rule_set):
                self.assertGreater(moves, 5000)
                self.assertLess(taken / moves, 0.001)


if __name__ == "__main__":
    unittest.main()
