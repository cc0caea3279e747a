"""Rounds: the counts of the engine, and of the table of epochs, against the definition; at their bounds."""

from __future__ import annotations

import functools
import itertools
import os
import pickle
import random
import unittest
from typing import Callable, Iterator
from unittest import mock

from lib.counted_rounds import counted_rounds
from rudekpi import Network, NoSuchCommand, NotCounted, Refused, Wish, audits, daemons, graphs
from rudekpi.direct import Direct
from rudekpi.library import NO_MEMORY
from rudekpi.replies import Choice
from rudekpi.rules import most_rounds
from support import TOP, Timed

# how many runs under each daemon
RUNS = int(os.environ.get("RUDEKPI_ROUNDS_RUNS", "200"))
WORDS = [*daemons.WORDS, "probability:0.5"]
# two tests compare the same runs
by_definition = functools.lru_cache(maxsize=None)(counted_rounds)


def lawful() -> Iterator[tuple[str, str]]:
    """Each rule set with each of its daemons."""
    for word in WORDS:
        yield "manne", word
        if not isinstance(daemons.named(word), daemons.OF_MANNE):
            yield "hh", word


@functools.lru_cache(maxsize=None)
def run_of(rules: str, word: str, seed: int) -> str:
    """The transcript of a random network that settles twice, and may be disturbed before its silence."""
    drawn, nodes = random.Random(seed), range(1, 8)
    with Network(rules, len(nodes), engine="library") as net:
        with net.batch() as batch:
            for a in nodes:
                for b in nodes[a:]:
                    if drawn.random() < 0.5:
                        batch.link(a, b)
            batch.scramble(seed, drawn.randrange(12))
        net.drive(seed, drawn.randrange(4))
        net.scramble(seed + 1, drawn.randrange(3))
        net.settle(daemons.named(word, seed))
        net.scramble(seed + 2, 2)
        net.settle(daemons.named(word, seed + 1))
        return net.transcript()


def of_the_table(transcript: str) -> list[int]:
    """The rounds of each epoch, as the program's table of epochs has them."""
    return [epoch.rounds for epoch in audits.judged_epochs(transcript)]


def of_the_engine(transcript: str) -> tuple[list[int], list[int]]:
    """The rounds of each epoch, as the engine counts them, and the least that the engine said of each epoch."""
    head, *lines = transcript.splitlines()
    _, rules, nodes = head.split(" ")
    with Network(rules, int(nodes), engine="library") as net:
        net.count_rounds()
        found, least = [0], [net.rounds_left()]
        for line in lines:
            net._session.tell(line.partition(" = ")[0].partition(" ")[2])
            if line.endswith(" = ok"):
                found, least = [*found, 0], [*least, net.rounds_left()]
            found[-1] = net.rounds()
            least[-1] = min(least[-1], net.rounds() + net.rounds_left())
        return found, least


def example(name: str) -> str:
    with open(os.path.join(TOP, "examples", f"{name}.transcript"), encoding="utf-8") as file:
        return file.read()


def longest_run(n: int) -> Iterator[Choice]:
    """The longest run under `hh` of a complete network whose nodes each point at the next one: docs/BOUNDS.md."""
    yield from ([node] for node in range(1, n))
    for low in range(1, n // 2 + 1):
        high = n + 1 - low
        yield from ([Wish(node, low)] for node in range(low + 1, high + (low > 1)))
        yield [Wish(low, high)]
        yield from ([node] for node in range(low + 1, high))


class Agreement(Timed):
    engines = ("library",)
    seconds = max(180, RUNS)

    def test_each_daemon(self) -> None:
        """In each epoch of random runs: the same count, within the bound and within what was left."""
        for rules, word in lawful():
            most = 0
            for seed in range(RUNS):
                text = run_of(rules, word, seed)
                found, least = of_the_engine(text)
                self.assertEqual(found, by_definition(text), (rules, word, seed))
                self.assertTrue(all(map(int.__le__, found, least)), (rules, word, seed))
                most = max(most, *found)
            with self.subTest(rules, word=word):
                self.assertGreater(most, 2)
                self.assertLessEqual(most, most_rounds(rules, 7))

    def test_the_table_of_epochs(self) -> None:
        """It has the same count in each epoch."""
        if audits.judged(["epochs"], "matching hh 1\n".encode(), None).startswith(audits.WITHOUT_ROUNDS):
            self.skipTest("the program lists epochs without rounds")
        for rules, word in lawful():
            most = 0
            for seed in range(RUNS):
                text = run_of(rules, word, seed)
                found = of_the_table(text)
                self.assertEqual(found, by_definition(text), (rules, word, seed))
                most = max(most, *found)
            with self.subTest(rules, word=word):
                self.assertGreater(most, 2)

    def test_the_longest_runs_of_six_nodes(self) -> None:
        for name, most in (("reaches_its_bound_hh", 6), ("most_rounds", 12)):
            text = example(name)
            for found in (of_the_table(text), of_the_engine(text)[0], counted_rounds(text)):
                self.assertEqual(found, [*[0] * 21, most], name)
            self.assertEqual(most, most_rounds("hh" if name.endswith("_hh") else "manne", 6))


class Asked(Timed):
    """The calls of a network."""

    engines = ("library",)

    def test_the_longest_run_of_a_complete_network_has_as_many_rounds_as_nodes(self) -> None:
        for n in range(3, 13):
            with Network("hh", graphs.complete(n)) as net:
                for node in range(1, n + 1):
                    net.point(node, node % n + 1)
                net.count_rounds()
                for choice in longest_run(n):
                    self.assertLessEqual(net.rounds() + net.rounds_left(), n)
                    net.step(choice)
                self.assertEqual((net.rounds(), net.rounds_left()), (n, 0))
                self.assertEqual(net.status().spent, n * n // 2 + n - 2)

    def test_three_nodes_by_hand(self) -> None:
        with Network("hh", graphs.complete(3)) as net:
            for node in (1, 2, 3):
                net.point(node, node % 3 + 1)
            net.count_rounds()
            told = [(net.rounds(), net.rounds_left())]
            for choice in longest_run(3):
                net.step(choice)
                told.append((net.rounds(), net.rounds_left()))
            self.assertEqual(told, [(0, 3), (0, 3), (1, 2), (1, 2), (2, 1), (3, 0)])
            self.assertRaises(Refused, net.link, 1, 1)
            self.assertEqual(net.rounds(), 3)
            net.unlink(1, 3)
            self.assertEqual((net.rounds(), net.rounds_left()), (0, 3))

    def test_silence_has_none_left(self) -> None:
        for rules, n in itertools.product(("hh", "manne"), (0, 1, 5)):
            with self.subTest(rules, n=n), Network(rules, graphs.ring(n) if n > 2 else n) as net:
                net.settle("least")
                net.count_rounds()
                self.assertEqual((net.rounds(), net.rounds_left()), (0, 0))

    def test_under_names_and_no_entry(self) -> None:
        with Network("manne", ["ann", "bob"]) as net:
            net.count_rounds()
            net.link("ann", "bob")
            before = net.transcript()
            self.assertEqual((net.rounds(), net.rounds_left()), (0, 4))
            self.assertEqual(net.transcript(), before)
            # ann, then bob, then both flags at once
            net.settle(list)
            self.assertEqual((net.rounds(), net.rounds_left()), (3, 0))

    def test_before_they_are_counted(self) -> None:
        with Network("hh", graphs.ring(4)) as net:
            for ask in (net.rounds, net.rounds_left):
                self.assertRaises(NotCounted, ask)
            net.count_rounds()
            net.settle("least")
            done = net.rounds()
            self.assertGreater(done, 0)
            net.renumber()
            self.assertEqual(net.rounds(), done)
            with Network.resume(net.transcript()) as other:
                self.assertRaises(NotCounted, other.rounds)
            net.count_rounds()
            self.assertEqual(net.rounds(), 0)
        asked: list[Callable[[], object]] = [net.count_rounds, net.rounds, net.rounds_left]
        for call in asked:
            self.assertRaisesRegex(ValueError, "the network is closed", call)

    def test_no_memory_to_count_in(self) -> None:
        with Network("hh", 2) as net:
            session = net._session
            assert isinstance(session, Direct)
            with mock.patch.object(session.library, "count_rounds", return_value=NO_MEMORY):
                self.assertRaises(MemoryError, net.count_rounds)
            self.assertRaises(NotCounted, net.rounds)

    def test_an_error_that_is_sent(self) -> None:
        self.assertEqual(pickle.loads(pickle.dumps(NotCounted())), NotCounted())
        self.assertEqual(str(NotCounted()), "rounds are not counted: call count_rounds first")


class ByTheProgram(Timed):
    engines = ("program",)

    def test_no_count(self) -> None:
        with Network("hh", 2) as net:
            asked: list[Callable[[], object]] = [net.count_rounds, net.rounds, net.rounds_left]
            for ask in asked:
                self.assertRaisesRegex(NoSuchCommand, "the program counts no rounds", ask)


if __name__ == "__main__":
    unittest.main()
