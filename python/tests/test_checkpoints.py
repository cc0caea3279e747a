"""Checkpoints through the client: bases by name, in batches, in pieces, garbled, continued."""

from __future__ import annotations

import os
import random
import subprocess
import unittest
from typing import Callable

from rudekpi import Base, Damaged, Ended, Epoch, Garbled, Network, Registers, Summary, audit, epochs, replay
from support import Timed, play, spelled

JUDGES: tuple[Callable[..., object], ...] = (audit, epochs, replay)

HEADER = "matching hh 2\n"
BEFORE = "1 link 1 2 = ok\n2 step 1 = 1:seduce>2\n"
AT_BASE = "matching2 hh 2\nbase 2 spent=1 nodes=2 edges=1\nnode 1 2 0\nnode 2 - 0\nedge 1 2\n3 step 2 = 2:marry>1\n"
PAIR = HEADER + BEFORE + AT_BASE
# node 2 took the greater of its two possible targets
OTHER_TARGET = """matching hh 3
1 link 1 2 = ok
2 link 2 3 = ok
3 step 2 = 2:seduce>3
matching2 hh 3
base 3 spent=1 nodes=3 edges=2
node 1 - 0
node 2 3 0
node 3 - 0
edge 1 2
edge 2 3
4 step 3 = 3:marry>2
"""
NOWHERE = Registers(None, False)


def stirred(net: Network, seed: int) -> None:
    drawn = random.Random(seed)
    nodes = net.nodes
    with net.batch(raises=False) as batch:
        for _ in range(120):
            a, b = drawn.sample(nodes, 2)
            call = drawn.choice(
                ["link", "link", "link", "unlink", "point", "flag", "join", "leave", "drive", "checkpoint", "show"]
            )
            words = {
                "link": (a, b),
                "unlink": (a, b),
                "point": (a, b),
                "flag": (a, True),
                "drive": (drawn.randint(0, 99), 2),
            }
            getattr(batch, call)(*words.get(call, () if call == "checkpoint" else (a,)))


def from_bases(transcript: str) -> list[str]:
    lines = transcript.splitlines(keepends=True)
    return ["".join(lines[at:]) for at, line in enumerate(lines) if line.startswith("matching2 ")]


class Bases(Timed):
    def test_a_pair(self) -> None:
        with Network("hh", 2) as net:
            net.link(1, 2)
            net.step([1])
            base = net.checkpoint()
            self.assertEqual(base, Base(2, 1, {1: Registers(2, False), 2: NOWHERE}, ((1, 2),)))
            self.assertEqual(net.step([2]).entry, 3)
            self.assertEqual(net.transcript(), PAIR)
            self.assertEqual({base, base}, {base})
        with self.assertRaisesRegex(ValueError, "closed"):
            net.checkpoint()

    def test_in_front_of_all_entries(self) -> None:
        with Network("manne", 0) as net:
            self.assertEqual(net.checkpoint(), Base(0, 0, {}, ()))
        with Network("manne", 3, present=1) as net:
            self.assertEqual([net.checkpoint(), net.checkpoint()], [Base(0, 0, {1: NOWHERE}, ())] * 2)
            self.assertEqual(net.join(3).entry, 1)
        base = "matching2 manne 3\nbase 0 spent=0 nodes=1 edges=0\nnode 1 - 0\n"
        self.assertEqual(net.transcript(), "matching manne 3 1\n" + base * 2 + "1 join 3 = ok\n")

    def test_by_the_callers_names(self) -> None:
        bob = ("bob", 2)
        with Network("manne", ["ann", bob, 3.5], present=2) as net:
            self.assertEqual(net.checkpoint().nodes, {"ann": NOWHERE, bob: NOWHERE})
            net.join(3.5)
            net.link(3.5, "ann")
            net.flag("ann", True)
            net.point(3.5, "ann")
            net.leave(bob)
            base = net.checkpoint()
            self.assertEqual((base.number, base.spent, base.edges), (5, 0, (("ann", 3.5),)))
            self.assertEqual(list(base.nodes.items()), [("ann", Registers(None, True)), (3.5, Registers("ann", False))])

    def test_in_a_batch(self) -> None:
        with Network("manne", 4) as net:
            with net.batch(raises=False) as batch:
                first = batch.checkpoint()
                batch.link(1, 2)
                driven, second = batch.drive(7, 100), batch.checkpoint()
                batch.link(2, 1)
                third, fourth = batch.checkpoint(), batch.checkpoint()
                broken, last = batch.scramble(3, 2), batch.checkpoint()
            # 1 seduces, 2 marries, and both update
            turns = driven.result()
            self.assertEqual((sum(map(len, turns)), turns.status.spent), (4, 4))
            pair = {1: Registers(2, True), 2: Registers(1, True), 3: NOWHERE, 4: NOWHERE}
            self.assertEqual(first.result(), Base(0, 0, dict.fromkeys(net.nodes, NOWHERE), ()))
            self.assertEqual(second.result(), Base(turns.status.entry, 4, pair, ((1, 2),)))
            self.assertEqual([third.result(), fourth.result()], [Base(turns.status.entry + 1, 4, pair, ((1, 2),))] * 2)
            self.assertEqual([it.text for it in batch.refusals], ["already-linked"])
            self.assertEqual((last.result().number, last.result().spent), (broken.result().status.entry, 0))

    def test_as_the_program_writes_it(self) -> None:
        script = [
            "link 1 2",
            "checkpoint",
            "link 2 3",
            "step 1 2",
            "checkpoint",
            "leave 3",
            "checkpoint",
            "flag 1 1",
            "checkpoint",
        ]
        with Network("manne", 3) as net:
            bases = [spelled(reply) for reply in [play(net, line) for line in script] if isinstance(reply, Base)]
        words = [os.environ["RUDEKPI_CONSOLE"], "run", "--rules", "manne", "--nodes", "3"]
        said = subprocess.run(
            words, input="".join(f"{line}\n" for line in script).encode(), stdout=subprocess.PIPE
        ).stdout.decode()
        self.assertEqual(net.transcript(), said)
        written = "".join(f"{base}\n" for base in bases)
        self.assertEqual("".join(line for line in said.splitlines(keepends=True) if line[0] in "bne"), written)

    def test_large_ones(self) -> None:
        nodes = 5_000
        with Network("hh", nodes) as net:
            with net.batch() as batch:
                for node in range(1, nodes):
                    batch.link(node, node + 1)
                asked = [batch.checkpoint() for _ in range(20)]
                status = batch.status()
            self.assertEqual(status.result().entry, nodes)
            path = tuple((node, node + 1) for node in range(1, nodes))
            for each in asked:
                self.assertEqual(
                    (each.result().number, len(each.result().nodes), each.result().edges), (nodes - 1, nodes, path)
                )


class Pieces(Timed):
    def writes(self, *texts: str) -> str:
        """A program that writes its header, then one of these texts for each line read, byte by byte."""
        return self.program(
            f"""import sys
def put(text):
    for sign in text:
        sys.stdout.write(sign)
        sys.stdout.flush()
put({HEADER!r})
for text in {texts!r}:
    sys.stdin.readline()
    put(text)
sys.stdin.read()
"""
        )

    def test_byte_by_byte(self) -> None:
        lines = AT_BASE.splitlines(keepends=True)
        with Network(
            "hh", 2, program=self.writes(*BEFORE.splitlines(keepends=True), "".join(lines[:5]), lines[5])
        ) as net:
            with net.batch() as batch:
                batch.link(1, 2)
                batch.step([1])
                base, step = batch.checkpoint(), batch.step([2])
            self.assertEqual((base.result().spent, step.result().entry), (1, 3))
            self.assertEqual(net.transcript(), PAIR)

    def test_the_program_ends_in_one(self) -> None:
        text = "matching2 hh 2\nbase 0 spent=0 nodes=2 edges=0\nnode 1 - 0\n"
        net = Network("hh", 2, program=self.program(f"printf '{HEADER}'; read -r line; printf '{text}node 2'"))
        with self.assertRaisesRegex(Ended, "status 0"):
            net.checkpoint()
        self.assertEqual(net.transcript(), HEADER + text)

    def test_garbled(self) -> None:
        right = ["matching2 hh 2", "base 0 spent=1 nodes=2 edges=1", "node 1 2 0", "node 2 - 0", "edge 1 2"]
        wrong = {
            0: [
                "matching2 hh 3",
                "matching2 manne 2",
                "matching hh 2",
                "matching2 hh 2 1",
                right[1],
                "1 status = ok",
                "",
            ],
            1: [
                "base 1 spent=1 nodes=2 edges=1",
                "base 0 spent= nodes=2 edges=1",
                "base 0 nodes=2 edges=1",
                "node 1 2 0",
                "",
                "base 0 spent=1 nodes=1 edges=1",
                "base 0 spent=1 nodes=3 edges=1",
                "base 0 spent=-1 nodes=2 edges=1",
                f"base 0 spent=1 nodes={'9' * 5000} edges=1",
            ],
            2: ["node 1 2", "node 1 2 2", "node 0 2 0", "node 1 3 0", "node 2 - 0", "node 1 x 0", "edge 1 2", "node"],
            3: ["node 3 - 0", "node 2 - - 0", "node 1 - 0", "edge 1 2", "node 2  0", "1 link 1 2 = ok"],
            4: ["edge 1 3", "edge 2 1", "edge 1 1", "edge 1", "edge 1 -", "node 3 - 0", "1 link 1 2 = ok", "edge 0 1"],
        }
        texts = [[*right[:place], line, *right[place + 1 :]] for place, lines in wrong.items() for line in lines]
        twice = [right[0], right[1].replace("edges=1", "edges=2"), *right[2:], right[4]]
        for text in ["\n".join([*lines, ""]) for lines in [*texts, twice]]:
            with self.subTest(text), self.assertRaises(Garbled), Network("hh", 2, program=self.writes(text)) as net:
                net.checkpoint()
        with Network("hh", 2, program=self.writes("\n".join([*right, ""]))) as net:
            self.assertEqual(net.checkpoint(), Base(0, 1, {1: Registers(2, False), 2: NOWHERE}, ((1, 2),)))

    def test_where_none_was_asked(self) -> None:
        text = "matching2 hh 2\nbase 0 spent=0 nodes=0 edges=0\n"
        wanted = "line 2 is 'matching2 hh 2'; asked was 'status'"
        with self.assertRaisesRegex(Garbled, wanted), Network("hh", 2, program=self.writes(text)) as net:
            net.status()
        entry = "matching2 hh 2\nbase 0 spent=0 nodes=2 edges=0\nnode 1 - 0\nnode 2 - 0\n"
        wanted = "line 6 is 'node 2 - 0'; asked was 'status'"
        with self.assertRaisesRegex(Garbled, wanted), Network(
            "hh", 2, program=self.writes(entry, "node 2 - 0\n")
        ) as net:
            net.checkpoint()
            net.status()


class Transcripts(Timed):
    def test_verdicts(self) -> None:
        self.assertEqual(audit(PAIR), Summary(3, 2, 2))
        self.assertEqual(audit(AT_BASE), Summary(1, 1, 1))
        self.assertEqual(audit(AT_BASE.replace("spent=1", "spent=3")), Summary(1, 1, 1))
        few = AT_BASE.replace("edge 1 2\n", "")
        for text, line in [
            (PAIR.replace("spent=1", "spent=3"), 5),
            (AT_BASE.replace("spent=1", "spent=4"), 2),
            (few, 5),
        ]:
            for judge in JUDGES:
                with self.subTest(judge.__name__, text=text), self.assertRaises(Damaged) as caught:
                    judge(text)
                self.assertEqual((caught.exception.line, caught.exception.why), (line, "bad base"))

    def test_epochs(self) -> None:
        self.assertEqual(epochs(PAIR), [Epoch(0, 0, 0, 2, 2, None), Epoch(1, 2, 1, 2, 2, 2, 2, 1)])
        # the base comes before the last move, which is a round of its own
        self.assertEqual(epochs(AT_BASE), [Epoch(None, 2, 1, 2, 4, None, rounds=1)])
        self.assertEqual(
            epochs(AT_BASE + "4 unlink 1 2 = ok\n"),
            [Epoch(None, 2, 1, 2, 4, None, rounds=1), Epoch(4, 0, 0, 2, 2, 0, 2)],
        )

    def test_a_replay_goes_on(self) -> None:
        with replay(PAIR, names=["ann", "bob"]) as net:
            self.assertEqual(net.transcript(), PAIR)
            self.assertEqual(net.checkpoint().nodes, {"ann": Registers("bob", False), "bob": Registers("ann", False)})
            net.unlink("bob", "ann")
        self.assertEqual(audit(net.transcript()), Summary(4, 3, 2))

    def test_a_replay_of_other_targets(self) -> None:
        with replay(OTHER_TARGET) as net:
            self.assertEqual(net.matching(), {(2, 3)})
            self.assertIn("3 step 2>3 = 2:seduce>3\nmatching2 hh 3\nbase 3 spent=1 ", net.transcript())

    def test_a_replay_from_a_base(self) -> None:
        with replay(AT_BASE, names=["ann", "bob"]) as net:
            self.assertEqual(net.matching(), {("ann", "bob")})
            self.assertEqual(net.status().enabled, 0)
        # the base's edge and pointer come first
        wanted = "matching hh 2\n1 link 1 2 = ok\n2 point 1 2 = ok\n3 step 2>1 = 2:marry>1\n"
        self.assertTrue(net.transcript().startswith(wanted), net.transcript())
        self.assertRaises(ValueError, replay, AT_BASE, names=["ann"])
        with replay(from_bases(OTHER_TARGET)[0].replace("step 3", "step 3>2")) as net:
            self.assertEqual(net.matching(), {(2, 3)})
        absent = "matching2 manne 4\nbase 9 spent=0 nodes=2 edges=1\nnode 1 - 1\nnode 3 1 0\nedge 1 3\n"
        with replay(absent) as net:
            self.assertEqual(
                net.checkpoint(), Base(4, 0, {1: Registers(None, True), 3: Registers(1, False)}, ((1, 3),))
            )
        self.assertEqual(net.transcript().splitlines()[:2], ["matching manne 4 1", "1 join 3 = ok"])

    def test_a_replay_from_each_base_of_a_run(self) -> None:
        for rules in ("hh", "manne"):
            with Network(rules, 9, present=6) as net:
                stirred(net, 5)
                end = net.checkpoint()
            texts = from_bases(net.transcript())
            self.assertGreater(len(texts), 5)
            with replay(net.transcript()) as again:
                self.assertEqual(again.transcript(), net.transcript())
            for text in texts:
                with self.subTest(rules, text=text[:60]), replay(text) as again:
                    found = again.checkpoint()
                    self.assertEqual((found.nodes, found.edges), (end.nodes, end.edges))


if __name__ == "__main__":
    unittest.main()
