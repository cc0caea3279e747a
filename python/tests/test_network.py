"""Networks through the client: names, arguments, refusals, batches, daemons, replays."""

from __future__ import annotations

import contextlib
import io
import os
import random
import subprocess
import unittest
from typing import Any, Callable, Mapping

import rudekpi
from rudekpi import (
    Damaged,
    Enabled,
    Move,
    Network,
    PastBound,
    Refused,
    Settled,
    Wish,
    WrongChoice,
    audit,
    epochs,
    replay,
)
from rudekpi.replies import Choice
from support import Timed, has_ended

JUDGES: tuple[Callable[..., object], ...] = (audit, epochs, replay)

PAIR = "matching hh 2\n1 link 1 2 = ok\n2 step 1 = 1:seduce>2\n3 step 2 = 2:marry>1\n4 matching = 1-2\n"
# node 2 took the greater of its two possible targets
OTHER_TARGET = "matching hh 3\n1 link 1 2 = ok\n2 link 2 3 = ok\n3 step 2 = 2:seduce>3\n4 step 3 = 3:marry>2\n"


class Names(Timed):
    def test_both_ways(self) -> None:
        with Network("hh", ["ann", ("bob", 2), 3.5]) as net:
            self.assertEqual(net.nodes, ["ann", ("bob", 2), 3.5])
            self.assertEqual([net.number_of(name) for name in net.nodes], [1, 2, 3])
            self.assertEqual([net.name_of(number) for number in (1, 2, 3)], net.nodes)
            net.link("ann", ("bob", 2))
            self.assertEqual(net.enabled(), {"ann": "seduce", ("bob", 2): "seduce"})
            self.assertEqual(list(net.step([Wish("ann", ("bob", 2))])), [Move("ann", "seduce", ("bob", 2))])
            self.assertEqual(net.show("ann").target, ("bob", 2))
            self.assertIsNone(net.show(3.5).target)
            net.step([("bob", 2)])
            pairs = net.matching()
            self.assertEqual(pairs, {("ann", ("bob", 2))})
            self.assertEqual((pairs.partner(("bob", 2)), pairs.partner(3.5)), ("ann", None))
            self.assertIn((("bob", 2), "ann"), pairs)
            self.assertNotIn(("ann", 3.5), pairs)
            self.assertEqual(pairs | {1}, {1, ("ann", ("bob", 2))})
            self.assertIn("\n2 enabled = 1:seduce 2:seduce\n3 step 1>2 = 1:seduce>2\n", net.transcript())

    def test_numbers(self) -> None:
        with Network("hh", 3) as net:
            self.assertEqual((net.nodes, net.number_of(3), net.name_of(3)), ([1, 2, 3], 3, 3))
            for number in (0, 4):
                self.assertRaises(ValueError, net.name_of, number)

    def test_a_refusal_has_them(self) -> None:
        with Network("manne", ["ann", "bob"]) as net:
            net.link("ann", "bob")
            with self.assertRaises(Refused) as caught:
                net.link("bob", "ann")
            self.assertEqual(str(caught.exception), "link 'bob' 'ann': refused 3 already-linked (entry 2)")
            with self.assertRaises(Refused) as caught:
                net.step([Wish("ann", "ann")])
            self.assertEqual((caught.exception.event, caught.exception.number), ("step 'ann'>'ann'", 12))
        with Network("hh", ["ann"]) as net, self.assertRaises(Refused) as caught:
            net.flag("ann", True)
        self.assertEqual((caught.exception.event, caught.exception.text), ("flag 'ann' 1", "no-flag"))


class WrongArguments(Timed):
    def test_a_network(self) -> None:
        wrong_words: list[tuple[str, Any]] = [
            ("foo", 1),
            ("hh", -1),
            ("hh", 65536),
            ("hh", "abc"),
            ("hh", [1, 1]),
            ("hh", [1, None]),
            ("HH", 1),
        ]
        for words in wrong_words:
            with self.subTest(words), self.assertRaises(ValueError):
                Network(*words)
        nodes: Any
        for nodes in (2.5, None, [[]]):
            with self.subTest(nodes), self.assertRaises(TypeError):
                Network("hh", nodes)
        with self.assertRaisesRegex(ValueError, "two nodes have the name 'bob'"):
            Network("hh", ["ann", "bob", "bob"])

    def test_nothing_is_asked(self) -> None:
        with Network("manne", 2) as net:
            calls: list[tuple[Any, ...]] = [
                (net.link, 0, 1),
                (net.link, 1, 65536),
                (net.unlink, -1, 1),
                (net.point, 0, 1),
                (net.flag, 1, 2),
                (net.show, 0),
                (net.step, [1, 0]),
                (net.step, [1] * 65536),
                (net.drive, -1, 1),
                (net.drive, 2**64, 1),
                (net.drive, 1, 1000001),
                (net.scramble, 1, -1),
                (net.step, [Wish(1, 0)]),
            ]
            for call, *words in calls:
                with self.subTest(call.__name__, words=str(words)[:50]), self.assertRaises(ValueError):
                    call(*words)
            calls = [
                (net.link, "1", 2),
                (net.step, 1),
                (net.show, None),
                (net.drive, 1.5, 1),
                (net.link, 1, 2.0),
            ]
            for call, *words in calls:
                with self.subTest(call.__name__, words=words), self.assertRaises(TypeError):
                    call(*words)
            self.assertEqual(net.transcript(), "matching manne 2\n")
            self.assertEqual(net.link(1, 2).entry, 1)

    def test_no_such_name(self) -> None:
        with Network("manne", ["ann"]) as net:
            for name in ("bob", 1, "", None):
                with self.assertRaisesRegex(ValueError, "no node has the name"):
                    net.show(name)
            self.assertEqual(net.transcript(), "matching manne 1\n")

    def test_a_network_that_is_closed(self) -> None:
        with Network("hh", 2) as net:
            net.link(1, 2)
        net.close()
        with self.assertRaisesRegex(ValueError, "closed"):
            net.link(1, 2)
        with self.assertRaisesRegex(ValueError, "closed"), net.batch() as batch:
            batch.link(1, 2)
        with net.batch() as batch:
            self.assertRaises(ValueError, batch.link, 1, 2)
        self.assertEqual(net.transcript(), "matching hh 2\n1 link 1 2 = ok\n")

    def test_an_error_of_the_callers_own_ends_the_run(self) -> None:
        with self.assertRaises(KeyError), Network("hh", 2) as net:
            with net.batch() as batch:
                batch.link(1, 2)
                raise KeyError
        self.assertTrue(has_ended(net))


class Batches(Timed):
    def test_what_is_refused(self) -> None:
        with Network("hh", 3) as net:
            with self.assertRaises(Refused) as caught, net.batch() as batch:
                first, wrong = batch.link(1, 2), batch.link(2, 1)
                last, status = batch.link(2, 3), batch.status()
                batch.step([1, 2])
            self.assertEqual((caught.exception.number, caught.exception.entry), (3, 2))
            self.assertEqual(
                [(it.number, it.text) for it in batch.refusals], [(3, "already-linked"), (9, "not-central")]
            )
            self.assertEqual((first.result().entry, last.result().entry), (1, 3))
            self.assertEqual(status.result().edges, 2)
            self.assertRaises(Refused, wrong.result)

    def test_none_is_raised_where_that_is_asked(self) -> None:
        with Network("hh", 2) as net:
            with net.batch(raises=False) as batch:
                batch.show(3)
                batch.link(1, 2)
            self.assertEqual([it.text for it in batch.refusals], ["unknown-node"])
            self.assertEqual(net.status().edges, 1)

    def test_a_wrong_argument_in_it(self) -> None:
        with Network("hh", 2) as net:
            with net.batch() as batch:
                self.assertRaises(ValueError, batch.link, 0, 1)
                pending = batch.link(1, 2)
            self.assertEqual(pending.result().entry, 1)

    def test_a_result_within_it(self) -> None:
        with Network("manne", 4) as net:
            with net.batch() as batch:
                batch.link(1, 2)
                driven = batch.drive(7, 100)
                self.assertEqual(batch.matching().result(), {(1, 2)})
                self.assertEqual(net.status().edges, 1)
                batch.link(3, 4)
            self.assertEqual((sum(map(len, driven.result())), driven.result().status.enabled), (4, 0))
            self.assertEqual(net.status().edges, 2)

    def test_an_empty_one(self) -> None:
        with Network("hh", 0) as net:
            with net.batch():
                pass
            self.assertEqual((len(net.drive(1, 5)), len(net.scramble(1, 5))), (0, 0))
            self.assertEqual((net.enabled(), net.matching(), net.nodes), ({}, set(), []))

    def test_as_the_program_writes_it(self) -> None:
        drawn = random.Random(5)
        links = [(drawn.randint(1, 300), drawn.randint(1, 300)) for _ in range(1000)]
        with Network("manne", 300) as net:
            with net.batch(raises=False) as batch:
                for a, b in links:
                    batch.link(a, b)
                batch.drive(3, 1000)
                batch.scramble(4, 50)
                batch.matching()
            said = net.transcript()
        script = (
            "".join(f"link {a} {b}\n" for a, b in links) + "drive 3 1000\nstatus\nscramble 4 50\nstatus\nmatching\n"
        )
        words = [os.environ["RUDEKPI_CONSOLE"], "run", "--rules", "manne", "--nodes", "300"]
        self.assertEqual(said, subprocess.run(words, input=script.encode(), stdout=subprocess.PIPE).stdout.decode())


class Documents(Timed):
    def test_the_example_of_the_module(self) -> None:
        lines = [line[4:] for line in rudekpi.__doc__.split("\n") if line.startswith("    ")]
        said = io.StringIO()
        with contextlib.redirect_stdout(said):
            exec("\n".join(lines), vars(rudekpi).copy())
        self.assertIn(said.getvalue(), ("ann\n", "cleo\n"), "bob is with one of the two")


class Daemons(Timed):
    def test_a_pair(self) -> None:
        with Network("manne", 2) as net:
            net.link(1, 2)
            seen: list[dict[int, str]] = []

            def daemon(enabled: Enabled) -> list[int]:
                seen.append(dict(enabled))
                return list(enabled)

            settled = net.settle(daemon)
            self.assertEqual(settled, Settled(steps=3, moves=4, charge=4))
            self.assertEqual(seen, [{1: "seduce"}, {2: "marry"}, {1: "update", 2: "update"}])
            self.assertEqual(net.settle(lambda enabled: self.fail("nobody is enabled")), Settled(0, 0, 0))

    def test_a_ring_of_three(self) -> None:
        with Network("hh", 3) as net:
            for a, b in [(1, 2), (2, 3), (1, 3)]:
                net.link(a, b)
            for a, b in [(1, 2), (2, 3), (3, 1)]:
                net.point(a, b)
            self.assertEqual(net.settle(lambda enabled: [min(enabled)]).charge, 9)
            self.assertEqual(net.status().enabled, 0)

    def test_wishes_and_sets(self) -> None:
        with Network("hh", 3) as net:
            net.link(1, 2)
            net.link(2, 3)
            net.settle(lambda enabled: [Wish(2, 3)] if 2 in enabled else {3})
            self.assertEqual(net.matching(), {(2, 3)})
        with Network("manne", [f"host {number}" for number in range(1, 21)]) as net:
            for node in net.nodes:
                net.flag(node, True)
            net.settle(lambda enabled: set(enabled))
            every = " ".join(map(str, range(1, 21)))
            self.assertIn(f" step {every} = ", net.transcript())

    def test_wrong_choices(self) -> None:
        choice: Any
        for choice, text in [
            ([], "chose nobody while 2"),
            (set(), "chose nobody"),
            (iter(()), "chose nobody"),
            (None, "list of nodes"),
            ([3], "chose 3"),
            (1, "list of nodes"),
            ("1", "list of nodes"),
            ([1, 4], "chose 4"),
            ([Wish(3, 1)], "chose 3"),
            (Wish(1, 2), "list of nodes"),
        ]:
            with self.subTest(choice=str(choice)), Network("hh", 3) as net:
                net.link(1, 2)
                daemon: Callable[[Enabled], Any] = lambda enabled: choice
                with self.assertRaisesRegex(WrongChoice, text):
                    net.settle(daemon)
                self.assertEqual(net.status().spent, 0)

    def test_choices_that_the_network_refuses(self) -> None:
        refused: list[tuple[str, Choice, int]] = [
            ("hh", [1, 2], 9),
            ("manne", [1, 1], 10),
            ("hh", [Wish(1, 1)], 12),
        ]
        for rules, choice, number in refused:
            with self.subTest(choice=str(choice)), Network(rules, 2) as net:
                net.link(1, 2)
                with self.assertRaises(Refused) as caught:
                    net.settle(lambda enabled: choice)
                self.assertEqual(caught.exception.number, number)

    def test_one_that_disturbs(self) -> None:
        with Network("hh", 2) as net:
            net.link(1, 2)
            last: Mapping[int, str] = {2: "marry"}

            def daemon(enabled: Enabled) -> list[int]:
                if enabled == last:
                    net.point(1, None)
                return [max(enabled)] if 2 in enabled and "marry" in enabled.values() else [min(enabled)]

            with self.assertRaisesRegex(PastBound, "after 2 moves"):
                net.settle(daemon)


class Transcripts(Timed):
    def test_a_replay_goes_on(self) -> None:
        net = replay(PAIR, names=["ann", "bob"])
        with net:
            self.assertEqual(net.transcript(), PAIR)
            net.unlink("bob", "ann")
            self.assertEqual(net.transcript(), PAIR + "5 unlink 2 1 = ok\n")
        self.assertEqual(audit(net.transcript()).epochs, 3)

    def test_a_replay_of_turns(self) -> None:
        with Network("manne", 9) as net:
            for node in range(1, 9):
                net.link(node, node + 1)
            net.drive(3, 100)
            net.scramble(5, 9)
            net.drive(4, 100)
        with replay(net.transcript()) as again:
            self.assertEqual(again.transcript(), net.transcript())

    def test_a_replay_of_other_targets(self) -> None:
        with replay(OTHER_TARGET) as net:
            self.assertEqual(net.matching(), {(2, 3)})
            self.assertIn("3 step 2>3 = 2:seduce>3\n4 step 3>2 = 3:marry>2\n", net.transcript())

    def test_what_is_no_transcript(self) -> None:
        for text, line in [
            ("", 1),
            (PAIR[:-1], 5),
            (PAIR.replace("4 m", "5 m"), 5),
            (PAIR.replace("seduce", "marry"), 3),
            ("\u00fc\n", 1),
        ]:
            for judge in JUDGES:
                with self.subTest(judge.__name__, text=text), self.assertRaises(Damaged) as caught:
                    judge(text)
                self.assertEqual(caught.exception.line, line)
        self.assertRaises(ValueError, replay, PAIR, names=["ann"])

    def test_the_epochs_of_a_pair(self) -> None:
        found = [(it.start, it.moves, it.edges, it.nodes, it.bound, it.cost) for it in epochs(PAIR)]
        self.assertEqual(found, [(0, 0, 0, 2, 2, None), (1, 2, 1, 2, 2, 2)], "two nodes make two moves at most")

    def test_turns_end_with_a_status(self) -> None:
        with Network("hh", 2) as net:
            net.link(1, 2)
            driven = net.drive(7, 0)
            self.assertEqual((len(driven), driven.status.entry, driven.status.charge), (0, 2, 2))
            broken = net.scramble(3, 2)
            self.assertEqual([it.entry for it in broken] + [broken.status.entry], [3, 4, 5])
            self.assertEqual({it.register for it in broken}, {"pointer"})
            self.assertEqual(net.transcript().splitlines()[-1].split(" = ")[0], "5 status")


if __name__ == "__main__":
    unittest.main()
