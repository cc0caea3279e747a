"""What the library lists of a network is what a replay of the transcript has; and networks that are renumbered."""

from __future__ import annotations

import os
import random
import re
import time
from typing import Any

from rudekpi import Network, NoSuchCommand, Refused, Registers, audit, daemons
from rudekpi.state import State
from support import Timed

# how many questions are compared with the replay; a million by hand
QUESTIONS = int(os.environ.get("QUESTIONS", 20_000))
NAMES = ("ann", "bob", "cy", "dan", "eve", "fay")


def replayed(net: Network) -> State:
    state = State()
    state.follow(net.transcript().splitlines())
    return state


class Views(Timed):
    """The questions that the library answers from its state."""

    engines = ("library",)

    def network(self) -> Network:
        """ann and bob are a pair, cy points at dan, who does not answer; eve is linked with bob alone."""
        net = Network("hh", NAMES, present=5, engine="library")
        with net.batch() as batch:
            for a, b in (("bob", "ann"), ("cy", "bob"), ("cy", "dan"), ("bob", "eve")):
                batch.link(a, b)
            for node, target in (("ann", "bob"), ("bob", "ann"), ("cy", "dan")):
                batch.point(node, target)
        return net

    def test_by_hand(self) -> None:
        with self.network() as net:
            self.assertEqual(net.present, [*NAMES[:5]])
            self.assertEqual(net.edges, [("ann", "bob"), ("bob", "cy"), ("bob", "eve"), ("cy", "dan")])
            self.assertEqual(net.neighbours("bob"), ["ann", "cy", "eve"])
            self.assertEqual(net.neighbours("dan"), ["cy"])
            self.assertEqual(net.registers("cy"), Registers("dan", False))
            self.assertEqual(net.registers("eve"), Registers(None, False))
            self.assertEqual(net.restless(), ["cy", "dan"])
            net.unlink("bob", "eve")
            self.assertEqual(net.neighbours("eve"), [])
            for ask in (net.neighbours, net.registers):
                with self.assertRaisesRegex(ValueError, "node 'fay' is not present"):
                    ask("fay")
                with self.assertRaises(ValueError):
                    ask("guy")
            entries = len(net.transcript().splitlines())
            self.assertEqual(entries, 1 + 4 + 3 + 1, "a question adds no entry")

    def test_closed(self) -> None:
        net = self.network()
        net.close()
        self.assertEqual(net.registers("cy"), Registers("dan", False))
        self.assertEqual((net.neighbours("dan"), net.present), (["cy"], [*NAMES[:5]]))
        self.assertEqual(len(net.edges), 4)
        self.assertRaisesRegex(ValueError, "closed", net.restless)
        self.assertRaisesRegex(ValueError, "closed", net.renumber)

    def test_beside_the_replay(self) -> None:
        """Registers, neighbours, nodes and edges between random edits, faults and moves."""
        for rules in ("hh", "manne"):
            chance, asked = random.Random(5), 0
            with Network(rules, 30, present=20, engine="library") as net:
                while asked < QUESTIONS // 2:
                    a, b = chance.randint(1, 30), chance.randint(1, 30)
                    commands: list[tuple[Any, ...]] = [
                        ("link", a, b),
                        ("link", b, a),
                        ("unlink", a, b),
                        ("join", a),
                        ("join", b),
                        ("leave", a),
                        ("scramble", a, 2),
                        ("drive", b, 3),
                    ]
                    word, *given = chance.choice(commands)
                    try:
                        getattr(net, word)(*given)
                    except Refused:
                        pass
                    # the replay goes on from its last place
                    state = net._look(lambda state: state)
                    self.assertEqual(net.present, sorted(state.neighbours))
                    self.assertEqual(net.edges, state.edges())
                    for node in state.neighbours:
                        pointer = state.pointers.get(node)
                        self.assertEqual(net.registers(node), Registers(pointer, node in state.flags))
                        self.assertEqual(net.neighbours(node), sorted(state.neighbours[node]))
                    at_rest = [node for node in net.present if not net.is_at_rest(node)]
                    self.assertEqual(net.restless(), at_rest)
                    asked += 2 * len(state.neighbours) + 3

    def test_long_log(self) -> None:
        """An answer takes no longer after 100,000 entries: a replay of them takes 0.2 seconds."""
        with Network("manne", 100, engine="library") as net:
            with net.batch(raises=False) as batch:
                for turn in range(100_000):
                    batch.link(turn % 100 + 1, (turn + 1) % 100 + 1)
            begun = time.perf_counter()
            for _ in range(20):
                net.registers(1)
                net.neighbours(1)
            seconds = time.perf_counter() - begun
        self.assertLess(seconds, 0.1)


class ViewsByTheProgram(Timed):
    """The same questions, answered from the transcript."""

    engines = ("program",)

    def test_questions(self) -> None:
        with Network("hh", 3, engine="program") as net:
            net.link(1, 2)
            self.assertEqual((net.neighbours(1), net.registers(1)), ([2], Registers(None, False)))
            self.assertEqual((net.present, net.edges), ([1, 2, 3], [(1, 2)]))
            self.assertRaises(NoSuchCommand, net.restless)
            self.assertRaises(NoSuchCommand, net.renumber)


class Renumbered(Timed):
    """Networks whose entries are numbered from 1 again."""

    engines = ("library",)
    BASE = "spent=1 nodes=2 edges=1\nnode 1 2 0\nnode 2 - 0\nedge 1 2\n"

    def test_by_hand(self) -> None:
        with Network("hh", 2, engine="library") as net:
            net.link(1, 2)
            net.step([1])
            ended = net.renumber()
            self.assertEqual(
                ended, f"matching hh 2\n1 link 1 2 = ok\n2 step 1 = 1:seduce>2\nmatching2 hh 2\nbase 2 {self.BASE}"
            )
            self.assertEqual(net.transcript(), f"matching2 hh 2\nbase 0 {self.BASE}")
            self.assertEqual(net.step([2]).entry, 1)
            status = net.status()
            self.assertEqual((status.entry, status.spent, status.charge), (2, 2, 0))
            self.assertEqual(net.registers(2), Registers(1, False))
            self.assertEqual(audit(ended).entries, 2)
            self.assertEqual(net.audit().entries, 2)

    def test_again(self) -> None:
        """Each transcript is accepted, has its own entries, and ends as the next one begins."""
        chance = random.Random(3)
        for keep in (True, False):
            with Network("manne", 12, engine="library", keep=keep) as net:
                ended = []
                for _ in range(5):
                    for _ in range(chance.randint(0, 9)):
                        try:
                            net.link(chance.randint(1, 12), chance.randint(1, 12))
                        except Refused:
                            pass
                    net.drive(chance.randint(0, 99), chance.randint(0, 9))
                    if chance.random() < 0.5:
                        net.checkpoint()
                    state = net.present, net.edges, [net.registers(node) for node in net.present]
                    ended.append(net.renumber())
                    self.assertEqual(state, (net.present, net.edges, [net.registers(node) for node in net.present]))
                    self.assertEqual(replayed(net).edges(), net.edges)
                    self.assertEqual(net._look(State.edges), net.edges)
                    self.assertIn("\nbase 0 ", net.transcript())
                for text, later in zip(ended, [*ended[1:], net.transcript()]):
                    audit(text)
                    base = re.sub(r"\nbase [0-9]+ ", "\nbase 0 ", text[text.rindex("matching2 ") :])
                    if keep:
                        self.assertEqual(later[: len(base)], base)
                self.assertEqual(net.audit().entries, 0)

    def test_a_full_log_is_far(self) -> None:
        """Drives go on with entry 1, so that the number of entries never reaches the limit."""
        with Network("hh", 4, engine="library") as net:
            for _ in range(100):
                self.assertEqual(net.show(1).entry, 1)
                self.assertTrue(net.renumber())

    def test_seeded(self) -> None:
        """A settling that is renumbered in the middle ends as one that is not."""
        ends = []
        for cut in (False, True):
            with Network("hh", range(1, 9), engine="library") as net:
                for node in range(1, 8):
                    net.link(node, node + 1)
                net.drive(7, 3)
                if cut:
                    net.renumber()
                net.settle(daemons.Seeded(9))
                ends.append((net.matching().pairs, net.status().spent))
        self.assertEqual(ends[0], ends[1])
