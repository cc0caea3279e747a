"""Bursts with their rounds, steps and moves: by hand, and in random runs against the machine."""

from __future__ import annotations

import csv
import itertools
import os
import random
import subprocess
import sys
import unittest
from unittest import mock

from lib.counted_rounds import counted_rounds
from rudekpi import Damaged, Garbled, Network, audits, bursts, epochs
from rudekpi import rules as rule_sets
from rudekpi.bursts import HEAD
from rudekpi.enabled_nodes import Counts, Watch
from rudekpi.state import State
from support import TOP, Timed

# 1-2 settles; 2-3 and 3-4 come at once; 2 is turned away; 1-2 is cut, and the network stays silent
ROW = """\
matching hh 4
1 link 1 2 = ok
2 step 1 = 1:seduce>2
3 step 2 = 2:marry>1
4 link 2 3 = ok
5 link 3 4 = ok
6 step 4 = 4:seduce>3
7 step 3 = 3:marry>4
8 point 2 3 = ok
9 step 2 = 2:abandon
10 step 2 = 2:marry>1
11 unlink 1 2 = ok
"""
# under manne all enabled nodes move at once: 1 and 2 seduce; 1 abandons; 3 marries; both flags are set
AT_ONCE = """\
matching manne 3
1 link 1 2 = ok
2 link 2 3 = ok
3 step 1 2 = 1:seduce>2 2:seduce>3
4 step 3 = 3:marry>2
5 step 2 3 = 2:update 3:update
6 step 1 = 1:abandon
7 status = nodes=3 edges=2 pairs=1 enabled=0 charge=1 spent=6
"""


def rudekpi(*words: str, given: str = "") -> subprocess.CompletedProcess[str]:
    paths = dict(os.environ, PYTHONPATH=os.path.join(TOP, "python"))
    return subprocess.run(
        [sys.executable, "-m", "rudekpi", "bursts", *words],
        input=given,
        env=paths,
        capture_output=True,
        encoding="utf-8",
    )


def watched(lines: list[str]) -> Watch:
    """A network that followed these lines, from the header on."""
    state = State()
    state.follow(lines[:1])
    watch = Watch(state)
    for line in lines[1:]:
        watch.follow(line)
    return watch


def last_rounds(lines: list[str]) -> int:
    """The rounds of the last epoch of these lines."""
    return epochs("".join(f"{line}\n" for line in lines))[-1].rounds


class Rounds(Timed):
    # the program lists epochs for both engines
    engines = ("program",)

    def test_by_hand(self) -> None:
        # 1 and 2 are enabled at first: the first round waits for both
        lines = ROW.splitlines()
        self.assertEqual([last_rounds(lines[: at + 1]) for at in range(4)], [0, 0, 0, 1])
        # 2 abandons, which disables 1 and ends the round; the next one waits for 2 alone
        self.assertEqual([last_rounds(lines[: at + 1]) for at in (8, 9, 10)], [0, 1, 2])
        watch = watched(lines)
        self.assertEqual((watch.steps, watch.pairs, watch.enabled), (6, 1, set()))
        self.assertEqual(watch.moves, {"update": 0, "marry": 3, "seduce": 2, "abandon": 1})

    def test_by_hand_with_several_movers(self) -> None:
        # 1 and 2 move; only 3 was enabled then; 2 and 3 update; 1 sees 2's flag and abandons: four rounds
        lines = AT_ONCE.splitlines()
        self.assertEqual([last_rounds(lines[: at + 1]) for at in range(2, 8)], [0, 1, 2, 3, 4, 4])
        self.assertEqual(watched(lines).moves, {"update": 2, "marry": 1, "seduce": 2, "abandon": 1})

    def test_an_edit_cuts_a_round_off(self) -> None:
        # 1-2 and 3-4 are linked, and 1 moves; 2, 3 and 4 are awaited, until an edge is cut: then 3 and 4
        lines = "matching hh 4|1 link 1 2 = ok|2 link 3 4 = ok|3 step 1 = 1:seduce>2|4 unlink 1 2 = ok".split("|")
        self.assertEqual((last_rounds(lines), watched(lines).enabled), (0, {3, 4}))
        lines.append("5 step 3 = 3:seduce>4")
        self.assertEqual(last_rounds(lines), 0)
        lines.append("6 step 4 = 4:marry>3")
        self.assertEqual((last_rounds(lines), watched(lines).is_silent), (1, True))

    def test_the_counts_at_each_node(self) -> None:
        """Random events, repeated changes of a hub among them: the counts are those of the rules' own definitions."""
        for seed, rule_set in itertools.product(range(4), ("hh", "manne")):
            drawn, state = random.Random(seed), State(rule_set, 9, range(1, 9))
            counts = Counts(state)
            for _ in range(400):
                nodes = sorted(state.neighbours)
                a, b = drawn.sample([1, *nodes] if 1 in nodes else nodes, 2)
                if drawn.random() < 0.1 and len(nodes) > 3:
                    counts.leave(a)
                elif drawn.random() < 0.2 and len(nodes) < 9:
                    counts.join(drawn.choice([it for it in range(1, 10) if it not in nodes]))
                elif a != b and b not in state.neighbours[a]:
                    counts.link(a, b)
                elif a != b and drawn.random() < 0.3:
                    counts.unlink(a, b)
                elif drawn.random() < 0.7:
                    counts.point(a, drawn.choice([0, *state.neighbours[a]]))
                elif rule_set == "manne":
                    counts.flag(a, drawn.randint(0, 1))
                for node in state.neighbours:
                    self.assertEqual(counts.rule_at(node), rule_sets.rule_at(state, node), (seed, rule_set, node))
                    self.assertEqual(counts.suitors[node], len(rule_sets.suitors(state, node)))

    def test_a_reply_of_another_machine(self) -> None:
        lines = AT_ONCE.replace("enabled=0", "enabled=1").splitlines()
        self.assertRaisesRegex(Garbled, "0 nodes are enabled", watched, lines)

    def test_beside_the_machine(self) -> None:
        for seed in range(6):
            chance, rules = random.Random(seed), ("hh", "manne")[seed % 2]
            with self.subTest(seed=seed), Network(rules, 7, present=6, engine="program") as net:
                for _ in range(120):
                    self.act(net, chance)
                    net.enabled()
                said = net.transcript()
                self.expect_enabled(said)
                found = bursts(said)
                self.assertEqual(sum(it.rounds for it in found), sum(counted_rounds(said)))
                for burst in found:
                    assert burst.bound is not None
                    self.assertLessEqual(burst.moves, burst.bound, burst)
                    self.assertLessEqual({*burst.moved}, {*burst.reached}, burst)
                    self.assertLessEqual(burst.rounds, burst.steps)
                    self.assertLessEqual(burst.steps, burst.moves)

    def act(self, net: Network, chance: random.Random) -> None:
        """A random edit or fault, or a few steps; perhaps refused."""
        a, b = chance.randint(1, 7), chance.randint(1, 7)
        with net.batch(raises=False) as batch:
            what = chance.randrange(9)
            if what < 2:
                batch.link(a, b)
            elif what == 2:
                batch.unlink(a, b)
            elif what == 3:
                (batch.join if chance.random() < 0.5 else batch.leave)(a)
            elif what == 4:
                batch.scramble(chance.randrange(99), 2)
            else:
                batch.drive(chance.randrange(99), what - 3)

    def expect_enabled(self, transcript: str) -> None:
        """They are the machine's, at each `enabled` of a transcript."""
        lines, seen = transcript.splitlines(), 0
        state = State()
        state.follow(lines[:1])
        watch = Watch(state)
        for line in lines[1:]:
            watch.follow(line)
            event, _, reply = line.partition(" = ")
            if event.endswith(" enabled"):
                listed = {int(item.split(":")[0]) for item in reply.split(" ")} if reply != "none" else set()
                self.assertEqual(watch.enabled, listed, line)
                seen += bool(listed)
            elif event.endswith(" status"):
                self.assertIn(f" pairs={watch.pairs} ", reply)
        self.assertGreater(seen, 5)


class Bursts(Timed):
    engines = ("program",)

    def test_by_hand(self) -> None:
        found = bursts(ROW)
        self.assertEqual([(it.start, it.end) for it in found], [(1, 3), (4, 7), (8, 10), (11, 11)])
        self.assertEqual(
            [dict(it.disturbances) for it in found], [{"link": 1}, {"link": 2}, {"point": 1}, {"unlink": 1}]
        )
        # two for each link; the pair has two edges and one: 2*(2 + 1); one other edge: 2*1
        self.assertEqual([(it.cost, it.bound) for it in found], [(2, 2), (4, 4), (6, 6), (2, 2)])
        self.assertEqual(
            [(it.moves, it.steps, it.rounds) for it in found], [(2, 2, 1), (2, 2, 1), (2, 2, 2), (0, 0, 0)]
        )
        self.assertEqual([(it.pairs_before, it.pairs_after) for it in found], [(0, 1), (1, 2), (2, 2), (2, 1)])
        self.assertEqual([it.reached for it in found], [(1, 2), (3, 4), (1, 2), (1, 2)])
        self.assertEqual([it.moved for it in found], [(1, 2), (3, 4), (2,), ()])

    def test_by_hand_under_manne(self) -> None:
        # two links cost 2 each, and the new pair 2 more
        [burst] = bursts(AT_ONCE)
        self.assertEqual((burst.start, burst.end, burst.cost, burst.bound, burst.moves), (1, 6, 4, 6, 6))
        self.assertEqual((burst.steps, burst.rounds, burst.pairs_after, burst.moved), (4, 4, 1, (1, 2, 3)))
        # leaving a pair costs 2*(other edges of the partner) + 2, and one more in the bound
        left = AT_ONCE + "8 leave 3 = ok\n9 leave 1 = ok\n"
        last = bursts(left)[-1]
        self.assertEqual((dict(last.disturbances), last.cost, last.bound, last.end), ({"leave": 2}, 4, 6, None))

    def test_those_that_come_at_once_are_one(self) -> None:
        begun = "matching hh 3 1\n"
        # two nodes join, none is enabled: what comes next ends the burst, as an entry or not
        at_once = "1 join 2 = ok\n2 join 3 = ok\n"
        rest = "3 status = nodes=3 edges=0 pairs=0 enabled=0 charge=0 spent=0\n4 link 1 2 = ok\n"
        for text, ends in (
            (begun + at_once, [(1, 2)]),
            (begun + at_once + rest, [(1, 2), (4, None)]),
            (begun + at_once + "3 link 1 2 = ok\n4 step 1 = 1:seduce>2\n5 step 2 = 2:marry>1\n", [(1, 5)]),
            (begun + "1 join 2 = ok\n2 join 2 = refused 13 already-present\n3 join 3 = ok\n", [(1, 1), (3, 3)]),
        ):
            self.assertEqual([(it.start, it.end) for it in bursts(text)], ends, text)

    def test_bases(self) -> None:
        base = "matching2 hh 2\nbase 2 spent=1 nodes=2 edges=1\nnode 1 2 0\nnode 2 - 0\nedge 1 2\n"
        [burst] = bursts(base + "3 step 2 = 2:marry>1\n")
        self.assertEqual((burst.start, burst.end, burst.cost, burst.bound), (None, 3, None, None))
        self.assertEqual((burst.moves, burst.rounds, burst.pairs_after, burst.moved), (1, 1, 1, (2,)))
        whole = "matching hh 2\n1 link 1 2 = ok\n2 step 1 = 1:seduce>2\n" + base + "3 step 2 = 2:marry>1\n"
        self.assertEqual([(it.start, it.end, it.moves, it.rounds) for it in bursts(whole)], [(1, 3, 2, 1)])
        silent = base.replace("node 2 - 0", "node 2 1 0")
        self.assertEqual(bursts(silent), [])

    def test_names(self) -> None:
        self.assertEqual(bursts(ROW, names=["a", "b", "c", "d"])[1].reached, ("c", "d"))
        self.assertRaisesRegex(ValueError, "2 names for 4 nodes", bursts, ROW, names=["a", "b"])

    def test_what_is_no_transcript(self) -> None:
        with self.assertRaises(Damaged) as caught:
            bursts(ROW.replace("2:marry>1", "2:seduce>1"))
        self.assertEqual(caught.exception.line, 4)
        self.assertRaises(TypeError, bursts, 3)

    def test_a_program_that_lists_other_epochs(self) -> None:
        found = audits.judged_epochs(ROW)
        for listed in (found[:2], [*found, found[1]]):
            with mock.patch("rudekpi.bursts.judged_epochs", lambda *_, made=listed: made):
                self.assertRaisesRegex(Garbled, "the program lists", bursts, ROW)


class Command(Timed):
    engines = ("program",)

    def test_rows(self) -> None:
        done = rudekpi(given=ROW)
        self.assertEqual((done.returncode, done.stderr), (0, ""))
        lines = done.stdout.splitlines()
        self.assertEqual(lines[0], HEAD)
        self.assertEqual(
            lines[1:],
            [
                "1,3,1 link,2,2,2,2,1,0,1,1 2,1 2",
                "4,7,2 link,4,4,2,2,1,1,2,3 4,3 4",
                "8,10,1 point,6,6,2,2,2,2,2,1 2,2",
                "11,11,1 unlink,2,2,0,0,0,2,1,1 2,",
            ],
        )
        self.assertEqual(len(list(csv.DictReader(lines))), 4)

    def test_without_nodes(self) -> None:
        done = rudekpi("--no-nodes", given=ROW)
        self.assertEqual((done.returncode, done.stderr), (0, ""))
        head = "start,end,disturbances,cost,bound,moves,steps,rounds,pairs_before,pairs_after"
        self.assertEqual(done.stdout.splitlines()[:3], [head, "1,3,1 link,2,2,2,2,1,0,1", "4,7,2 link,4,4,2,2,1,1,2"])

    def test_what_is_refused(self) -> None:
        done = rudekpi(given=ROW.replace("2:marry>1", "2:seduce>1"))
        self.assertEqual((done.returncode, done.stdout), (1, ""))
        self.assertEqual(done.stderr, "line 4: not the machine's reply\n")
        done = rudekpi("/none")
        self.assertEqual((done.returncode, done.stderr), (3, "! /none: No such file or directory\n"))

    def test_streams(self) -> None:
        line = f"{sys.executable} -m rudekpi bursts > /dev/full"
        paths = dict(os.environ, PYTHONPATH=os.path.join(TOP, "python"))
        done = subprocess.run(["bash", "-c", line], input=ROW, env=paths, capture_output=True, encoding="utf-8")
        self.assertEqual((done.returncode, done.stderr), (3, "! write failed: No space left on device\n"))


if __name__ == "__main__":
    unittest.main()
