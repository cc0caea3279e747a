"""Pickled replies, questions without an entry, drawings, pages, and storms."""

from __future__ import annotations

import copy
import dataclasses
import multiprocessing
import json
import os
import pathlib
import pickle
import random
import subprocess
import unittest
from typing import Any, Callable

from rudekpi import (
    Audit,
    Damaged,
    Ended,
    Network,
    Registers,
    WrongChoice,
    audit,
    audit_parts,
    daemons,
    epochs,
    replay,
    storm,
)
from support import Timed, session_of, told

PAIR = "matching hh 2\n1 link 1 2 = ok\n2 step 1 = 1:seduce>2\n3 step 2 = 2:marry>1\n4 matching = 1-2\n"


def every_result() -> list[object]:
    with Network("manne", ["ann", ("bob", 2), 3.5]) as net:
        made = [
            net.link("ann", ("bob", 2)),
            net.enabled(),
            net.step(["ann"]),
            net.show("ann"),
            net.drive(7, 100),
            net.matching(),
        ]
        made += [
            net.status(),
            net.scramble(3, 4),
            net.checkpoint(),
            net.settle(list),
            told(lambda: net.link("ann", "ann")),
        ]
        return [
            *made,
            net.audit(),
            *epochs(net.transcript()),
            Damaged(3, "bad base"),
            Ended(4, b"! out of memory\n"),
            WrongChoice("nobody"),
        ]


class Results(Timed):
    def test_each_can_be_pickled_and_copied(self) -> None:
        made = every_result()
        self.assertGreater(len({type(it) for it in made}), 13)
        for result in made:
            with self.subTest(result=repr(result)):
                for again in (
                    pickle.loads(pickle.dumps(result)),
                    copy.deepcopy(result),
                    copy.copy(result),
                ):
                    self.assertEqual((type(again), str(again)), (type(result), str(result)))
                    if not isinstance(result, Exception):
                        self.assertEqual(again, result)
                        self.assertEqual(type(dataclasses.asdict(result)), dict)

    def test_they_leave_a_process_pool(self) -> None:
        with multiprocessing.get_context("spawn").Pool(1) as pool:
            self.assertEqual(list(map(str, pool.apply(every_result))), list(map(str, every_result())))

    def test_they_do_not_change(self) -> None:
        with Network("hh", 2) as net:
            net.link(1, 2)
            rules: Any = net.enabled().rules
        self.assertEqual(rules, {1: "seduce", 2: "seduce"})
        for change in (
            lambda: rules.update({1: "x"}),
            lambda: rules.pop(1),
            lambda: rules.clear(),
            lambda: rules.__setitem__(1, "x"),
        ):
            self.assertRaises(TypeError, change)
        self.assertEqual(rules, {1: "seduce", 2: "seduce"})

    def test_of_bytes(self) -> None:
        for text in (PAIR.encode(), bytearray(PAIR.encode())):
            self.assertEqual((audit(text), epochs(text)), (audit(PAIR), epochs(PAIR)))
            with replay(text) as net:
                self.assertEqual(net.transcript(), PAIR)
        with self.assertRaises(Damaged) as caught:
            audit(b"\xff\n")
        self.assertEqual((caught.exception.line, caught.exception.why), (1, "bad header"))


class WrongWords(Timed):
    def test_what_is_no_transcript(self) -> None:
        wrong: Any
        calls: list[Callable[..., object]] = [audit, epochs, replay, audit_parts]
        for wrong in (3, None, [109]):
            with self.subTest(wrong):
                for call in calls:
                    self.assertRaisesRegex(TypeError, "a transcript is (a path|text or bytes)", call, wrong)
        for wrong in (3, None, [109], pathlib.Path(os.devnull)):
            with self.subTest(wrong), Audit() as judge:
                self.assertRaisesRegex(
                    TypeError,
                    "a piece of a transcript is text or bytes",
                    judge.feed,
                    wrong,
                )
        for kind in (bytes, bytearray, memoryview):
            self.assertEqual(audit(kind(b"matching hh 2\n")), audit("matching hh 2\n"))

    def test_what_is_no_daemon(self) -> None:
        with Network("hh", 2) as net:
            for wrong in (None, 3, daemons.ByName, daemons.Seeded):
                with self.subTest(wrong):
                    self.assertRaisesRegex(TypeError, "is no daemon", net.settle, wrong)
            self.assertEqual(net.status().entry, 1, "nothing was asked")

    def test_a_network_is_not_copied(self) -> None:
        with Network("hh", 2) as net, Audit() as judge:
            takes: list[Callable[..., object]] = [
                pickle.dumps,
                copy.copy,
                copy.deepcopy,
            ]
            for take in takes:
                self.assertRaisesRegex(TypeError, "belongs to one process", take, net)
                self.assertRaisesRegex(TypeError, "belongs to one process", take, judge)
            self.assertEqual(net.status().nodes, 2)

    def test_a_storm_of_one_text(self) -> None:
        self.assertRaisesRegex(TypeError, "a list of scripts", storm, "link 1 2\n", nodes=2)


class Questions(Timed):
    def test_of_where_a_network_stands(self) -> None:
        with Network("manne", ["ann", "bob", "cleo", "dan"], present=3) as net:
            net.link("cleo", "bob")
            net.link("ann", "bob")
            net.settle(list)
            asked = net.status().entry
            # by hand, as in test_examples
            self.assertEqual(
                (net.present, net.edges),
                (["ann", "bob", "cleo"], [("ann", "bob"), ("bob", "cleo")]),
            )
            self.assertEqual(
                (net.neighbours("bob"), net.neighbours("cleo")),
                (["ann", "cleo"], ["bob"]),
            )
            self.assertEqual(
                (net.registers("bob"), net.registers("ann")),
                (Registers("cleo", True), Registers(None, False)),
            )
            self.assertEqual(
                (net.partner("bob"), net.partner("cleo"), net.partner("ann")),
                ("cleo", "bob", None),
            )
            self.assertEqual(net.status().entry, asked + 1, "no question of these is an entry")
            net.join("dan")
            net.leave("bob")
            self.assertEqual(
                (net.present, net.edges, net.registers("cleo")),
                (["ann", "cleo", "dan"], [], Registers(None, True)),
            )
            for ask in (net.neighbours, net.registers, net.partner):
                self.assertRaisesRegex(ValueError, "'bob' is not present", ask, "bob")
                self.assertRaisesRegex(ValueError, "no node has the name", ask, "eve")
        self.assertEqual(
            (net.present, net.edges),
            (["ann", "cleo", "dan"], []),
            "a network that is closed answers too",
        )

    def test_they_agree_with_the_base_and_the_matching(self) -> None:
        for seed in range(6):
            drawn = random.Random(seed)
            with self.subTest(seed=seed), Network(drawn.choice(["hh", "manne"]), 12, present=9) as net:
                for _ in range(6):
                    with net.batch(raises=False) as batch:
                        for _ in range(25):
                            a, b = drawn.sample(range(1, 13), 2)
                            word = drawn.choice(
                                [
                                    "link",
                                    "link",
                                    "link",
                                    "unlink",
                                    "point",
                                    "flag",
                                    "join",
                                    "leave",
                                ]
                            )
                            getattr(batch, word)(
                                *{
                                    "flag": (a, drawn.random() < 0.5),
                                    "join": (a,),
                                    "leave": (a,),
                                }.get(word, (a, b))
                            )
                        batch.drive(seed, drawn.randint(0, 9))
                        batch.scramble(seed, 2)
                    base, pairs = net.checkpoint(), net.matching()
                    self.assertEqual(
                        {node: net.registers(node) for node in net.present},
                        dict(base.nodes),
                    )
                    self.assertEqual(net.edges, list(base.edges))
                    self.assertEqual(
                        {node: net.partner(node) for node in net.present if net.partner(node)},
                        dict(pairs.partners),
                    )

    def test_a_network_tells_what_it_is(self) -> None:
        with Network("hh", 2) as net:
            self.assertEqual(repr(net), "<Network hh, 2 nodes, 0 entries>")
            net.link(1, 2)
            self.assertEqual(repr(net), "<Network hh, 2 nodes, 1 entry>")
            self.assertEqual(net.audit().entries, 1)
        self.assertEqual(repr(net), "<Network hh, 2 nodes, 1 entry, closed>")

    def test_drawings(self) -> None:
        with Network("manne", ["a<b", "bob", "cleo"]) as net:
            net.link("a<b", "bob")
            net.settle(list)
            drawn = net._repr_html_()
        self.assertEqual(
            (
                drawn.count("<circle"),
                drawn.count("<line"),
                drawn.count('stroke-width="4"'),
            ),
            (3, 1, 1),
        )
        self.assertIn("a&lt;b", drawn)
        self.assertNotIn("a<b", drawn)
        with Network("hh", 1000) as net:
            self.assertNotIn("<svg", net._repr_html_())

    def test_pictures(self) -> None:
        with Network("hh", 2) as net:
            net.link(1, 2)
            net.settle(lambda enabled: [min(enabled)])
            said = net.transcript()
            words = [os.environ["RUDEKPI_CONSOLE"], "picture"]
            self.assertEqual(
                net.picture(),
                subprocess.run(words, input=said.encode(), stdout=subprocess.PIPE).stdout.decode(),
            )
            self.assertNotEqual(net.picture(0), net.picture())
            with self.assertRaisesRegex(ValueError, "no entry 99: the transcript has"):
                net.picture(99)
            self.assertRaises(ValueError, net.picture, -1)

    def test_a_page(self) -> None:
        path = pathlib.Path(self.folder(), "page.html")
        with Network("hh", 2) as net:
            net.link(1, 2)
            net.play(path)
            self.assertIn(json.dumps(net.transcript()), path.read_text(encoding="utf-8"))
        self.assertIn("<html", path.read_text(encoding="utf-8").lower())


class Keeping(Timed):
    def test_from_the_last_checkpoint_on(self) -> None:
        with Network("manne", 4, keep=False) as net:
            net.link(1, 2)
            self.assertEqual(net.transcript(), "matching manne 4\n1 link 1 2 = ok\n")
            net.checkpoint()
            net.link(2, 3)
            base = "matching2 manne 4\nbase 1 spent=0 nodes=4 edges=1\n"
            base += "node 1 - 0\nnode 2 - 0\nnode 3 - 0\nnode 4 - 0\nedge 1 2\n"
            self.assertEqual(net.transcript(), base + "2 link 2 3 = ok\n")
            self.assertEqual((net.edges, net.audit().entries), ([(1, 2), (2, 3)], 1))
            with net.batch() as batch:
                batch.drive(7, 100)
                first, second = batch.checkpoint(), batch.checkpoint()
                batch.link(3, 4)
            self.assertEqual(first.result(), second.result())
            self.assertEqual(net.transcript().count("matching2 "), 1)
            self.assertTrue(net.transcript().endswith("edge 2 3\n%d link 3 4 = ok\n" % (second.result().number + 1)))
            self.assertEqual(net.edges, [(1, 2), (2, 3), (3, 4)])

    def test_as_one_that_keeps_all(self) -> None:
        for seed in range(4):
            kept = []
            for keep in (True, False):
                with Network("hh", 40, keep=keep) as net:
                    for turn in range(5):
                        with net.batch(raises=False) as batch:
                            drawn = random.Random(seed + turn)
                            for _ in range(200):
                                batch.link(*drawn.sample(range(1, 41), 2))
                            batch.checkpoint()
                            batch.drive(turn, 30)
                    kept.append((net.transcript(), net.edges, net.status()))
            (whole, *others), (part, *same) = kept
            self.assertEqual(others, same)
            self.assertEqual(part, whole[whole.rindex("matching2 ") :])

    def test_memory(self) -> None:
        with Network("hh", 3, keep=False) as net:
            for _ in range(30):
                with net.batch() as batch:
                    for _ in range(3000):
                        batch.show(1)
                    batch.checkpoint()
            self.assertLess(len(net.transcript()), 1000)
            self.assertEqual(net.status().entry, 90_001)
            if net.engine == "program":
                self.assertLess(len(session_of(net).asked), 10)


class Storms(Timed):
    def test_scripts_of_all_kinds(self) -> None:
        path = pathlib.Path(self.folder(), "script")
        path.write_text("link 3 4\n", encoding="utf-8")
        said = storm(
            ["link 1 2\ndrive 7 100\n", ["link 2 3", "scramble 5 20"], path],
            "manne",
            4,
            roam=2,
            turns=50,
            workers=2,
        )
        for event in ("link 1 2 = ok", "link 2 3 = ok", "link 3 4 = ok"):
            self.assertIn(f" {event}\n", said)
        audit(said)
        with replay(said) as net:
            self.assertEqual(net.edges, [(1, 2), (2, 3), (3, 4)])
        self.assertTrue(storm(["join 2\n"], "hh", 3, present=1).startswith("matching hh 3 1\n"))

    def test_what_is_wrong(self) -> None:
        with self.assertRaisesRegex(Ended, "status 2: ! script 2 line 1: not a command"):
            storm(["link 1 2\n", "lnik 1 2\n"], "hh", 2)
        with self.assertRaisesRegex(Ended, "status 3"):
            storm([pathlib.Path("/no/such/script")], "hh", 2)
        wrong_words: list[dict[str, Any]] = [
            dict(rules="x"),
            dict(nodes=-1),
            dict(nodes=2, present=3),
            dict(workers=0),
            dict(workers=65),
            dict(roam=65),
            dict(turns=10**6 + 1),
        ]
        for words in wrong_words:
            with self.subTest(words), self.assertRaises(ValueError):
                storm(["\n"], **words)
        for scripts in ([], ["\n"] * 65):
            self.assertRaises(ValueError, storm, scripts)


if __name__ == "__main__":
    unittest.main()
