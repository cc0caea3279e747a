"""Groups that fail together: files of groups, by hand, and what hits all nodes of a group at once."""

from __future__ import annotations

import collections
import itertools
import os
import pathlib
import pickle
import random
import subprocess
import sys
import unittest
from typing import Any, Iterable

from rudekpi import Racks, RudekpiError, graphs, read_racks
from rudekpi.disturbances import Disturbance, Events
from rudekpi.partners import NAMES, PartnerCounts
from rudekpi.plans import disturbance_in, plan_of
from rudekpi.racks import Member
from rudekpi.simple_graph import Graph
from rudekpi.sweeps import Experiment, Row, experiments_of, run_all
from support import TOP, Timed

# two pairs; a and c stand in one rack, b in another, and d in none
FOUR = Graph("four", ("a", "b", "c", "d"), (("a", "b"), ("c", "d")))
RACKS = Racks("racks", (Member("a", "r1", 1), Member("c", "r1", 2), Member("b", "r2", 3)))


def rows_of(rules: Iterable[str], seeds: Iterable[int], hit: Disturbance) -> list[Row]:
    """The rows of a sweep with partners, made in this process."""
    return run_all(experiments_of([FOUR], rules, ["least"], seeds, [hit], partners=True))


def counts_of(row: object) -> PartnerCounts:
    return PartnerCounts(*(getattr(row, name) for name in NAMES))


class Files(Timed):
    # no engine is used
    engines = ("program",)

    def setUp(self) -> None:
        super().setUp()
        self.at = pathlib.Path(self.folder())

    def racks(self, text: str) -> Racks:
        (self.at / "racks").write_text(text, encoding="utf-8")
        return read_racks(self.at / "racks")

    def test_by_hand(self) -> None:
        for text in (
            "name,group\na,r1\n\n# the second\nc , r1\nb,r2,\n",
            "a r1\nc\tr1\nb r2\n",
            '{"name": "a", "group": "r1"}\n{"group": "r1", "name": "c"}\n{"name": "b", "group": "r2"}\n',
        ):
            found = self.racks(text)
            self.assertEqual([(it.name, it.group) for it in found.members], [("a", "r1"), ("c", "r1"), ("b", "r2")])
            self.assertEqual(found.digest, RACKS.digest)
            # d is a group alone
            self.assertEqual(found.on(FOUR), ((1, 3), (2,), (4,)))
        self.assertEqual(self.racks("5,9\n1,9\n3,8\n").on(graphs.ring(6)), ((1, 5), (2,), (3,), (4,), (6,)))
        # a group that is called as a node without one is another group
        self.assertEqual(self.racks("1,2\n").on(graphs.ring(3)), ((1,), (2,), (3,)))
        copied = pickle.loads(pickle.dumps(RACKS))
        self.assertEqual((copied, copied.on(FOUR)), (RACKS, ((1, 3), (2,), (4,))))

    def test_lines_that_are_none(self) -> None:
        for text, line, why in (
            ("a\n", 1, 'expected NAME,GROUP, and not "a"'),
            ("a,r1\nb,r1,c\n", 2, 'expected NAME,GROUP, and not "b,r1,c"'),
            ("a,r1\nb r1 c\n", 2, 'expected NAME,GROUP, and not "b r1 c"'),
            ("a,r1\nb,r1\na,r2\n", 3, "a is in a group already, by line 1"),
            ("a,r1\nname,group\nname,group\n", 3, "name is in a group already, by line 2"),
            (",r1\n", 1, 'a name is a text or a whole number, and not ""'),
            ('{"name": "a"}\n', 1, "the key 'group' is missing"),
            ('{"name": "a", "group": null}\n', 1, "a group is a text or a whole number, and not null"),
            ('{"name": "a", "group": "r1", "rack": 1}\n', 1, 'there is no key "rack": the keys are name, group'),
        ):
            with self.subTest(text), self.assertRaises(ValueError) as caught:
                self.racks(text)
            self.assertEqual(str(caught.exception), f"{self.at}/racks: line {line}: {why}")
        self.assertRaisesRegex(ValueError, "no node has a group", self.racks, "name,group\n")
        with self.assertRaisesRegex(ValueError, "racks: line 2: x is no node of four"):
            Disturbance(1, racks=self.racks("a,r1\nx,r1\n")).check(FOUR)
        self.assertRaises(FileNotFoundError, read_racks, self.at / "none")

    def test_what_hits_no_group(self) -> None:
        wrong: list[tuple[dict[str, Any], str]] = [
            (dict(cut=1), "nothing else goes with racks"),
            (dict(faults=1, rewire=1), "nothing else goes with racks"),
            (dict(faults=1, any_value=True), "nothing else goes with racks"),
            ({}, "racks want something that hits all nodes of a group"),
        ]
        for words, why in wrong:
            self.assertRaisesRegex(ValueError, why, Disturbance, **words, racks=RACKS)
        Disturbance(joins=1, leaves=2, racks=RACKS).check(FOUR)
        many = Disturbance(joins=1, leaves=3, racks=RACKS)
        self.assertRaisesRegex(ValueError, "are more than its 3 groups", many.check, FOUR)

    def test_in_words_of_a_row_and_in_plans(self) -> None:
        racks = self.racks("a,r1\n")
        hit = Disturbance(2, "pointer", 1, 1, every=3, racks=racks)
        digest = racks.digest
        self.assertEqual(
            str(hit), f"2 faults of pointers, 1 join, 1 leave, by groups of {racks.title} {digest}, every 3 moves"
        )
        for it in (hit, Disturbance(1, racks=racks)):
            self.assertEqual(disturbance_in(str(it)), it)
        plan = plan_of({"graphs": ["ring:3"], "disturbances": [{"faults": 2, "racks": racks.title}]})
        self.assertEqual(plan.disturbances, (Disturbance(2, racks=racks),))
        self.racks("a,r2\n")
        self.assertRaisesRegex(RudekpiError, "racks has changed", disturbance_in, str(hit))


class Hits(Timed):
    def test_a_group_leaves(self) -> None:
        # a and c leave, and both pairs break at once; or b or d leaves alone. No link is left to a free node
        hit, seen = Disturbance(leaves=1, racks=RACKS), set()
        for row in rows_of(["hh", "manne"], range(8), hit):
            broken = {2: 2, 3: 1}[row.n]
            self.assertEqual((row.pairs, row.m, row.broken, row.remade), (2 - broken, 2 - broken, broken, 0))
            if row.rules == "hh":
                self.assertEqual((row.moves, counts_of(row)), (0, PartnerCounts(broken)))
            else:
                # each widow clears her flag, and is alone for that step and those of the other
                self.assertEqual((row.moves, row.update), (broken, broken))
            seen.add(broken)
        self.assertEqual(seen, {1, 2})

    def test_each_group_has_the_same_chance(self) -> None:
        # 200 of 600 each, give or take three deviations of 11.5; by its nodes the first one would have 300
        hit, seen = Disturbance(leaves=1, racks=RACKS), collections.Counter[str]()
        for seed in range(600):
            [event] = Events(hit, FOUR, set(), random.Random(seed)).edits()
            self.assertEqual({word for word, _ in event}, {"leave"})
            seen["".join(str(node) for _, (node,) in event)] += 1
        self.assertEqual({*seen}, {"13", "2", "4"})
        self.assertLess(max(abs(count - 200) for count in seen.values()), 35, seen)

    def test_they_leave_at_once(self) -> None:
        # with every too: nothing comes between the nodes of a group
        for every in (0, 1):
            runs = (
                Experiment(FOUR, "hh", "least", seed, Disturbance(leaves=3, racks=RACKS, every=every))
                for seed in range(8)
            )
            for transcript in (run.played().transcript for run in runs):
                lines = [line.split(" = ")[0] for line in transcript.splitlines()]
                places = [at for at, line in enumerate(lines) if line.endswith(("leave 1", "leave 3"))]
                self.assertEqual(places[1] - places[0], 1, lines)

    def test_a_group_joins(self) -> None:
        # a and c come with their links: each pair is new, by two moves under hh; or b or d comes, and one pair is
        for seed, every in itertools.product(range(6), (0, 1)):
            hit = Disturbance(joins=1, racks=RACKS, every=every)
            [row] = rows_of(["hh"], [seed], hit)
            played = Experiment(FOUR, "hh", "least", seed, hit).played()
            events = [line.split(" ", 1)[1] for line in played.transcript.splitlines()[played.quiet + 1 :]]
            edits = [event for event in events if event.endswith(" = ok")]
            wanted = {
                "join 1 = ok": ["join 1 = ok", "join 3 = ok", "link 1 2 = ok", "link 3 4 = ok"],
                "join 2 = ok": ["join 2 = ok", "link 1 2 = ok"],
                "join 4 = ok": ["join 4 = ok", "link 3 4 = ok"],
            }[edits[0]]
            # at once: nothing comes between them
            begin = events.index(edits[0])
            self.assertEqual((edits, events[begin : begin + len(edits)]), (wanted, wanted))
            many = len(edits) // 2
            self.assertEqual((row.n, row.pairs, row.moves, row.remade, row.broken), (4, 2, 2 * many, many, 0))
            # each node waits for its partner, the second pair for the steps of the first one too
            steps = {1: 4, 2: 2 * 2 + 2 * 4}[many]
            self.assertEqual((row.steps_alone, row.most_steps_alone), (steps, 2 * many))

    def test_a_group_has_faults(self) -> None:
        # the only other value of a pointer is null, and then the node marries its partner again: one move a node
        hit, seen = Disturbance(1, racks=RACKS), set()
        for row in rows_of(["hh"], range(10), hit):
            assert row.changes is not None
            self.assertEqual((row.moves, row.marry, row.pairs), (row.changes, row.changes, 2))
            # both pairs break: a and b wait for a step, c and d for two, all in the round that waits for a and c
            two = PartnerCounts(2, 2, 2, 6, 2, 4, 1)
            self.assertEqual(counts_of(row), two if row.changes == 2 else PartnerCounts(1, 1, 1, 2, 1, 2, 1))
            seen.add(row.changes)
        self.assertEqual(seen, {1, 2})

    def test_faults_one_group_after_another(self) -> None:
        hit = Disturbance(6, "pointer", racks=RACKS, every=1)
        played = Experiment(FOUR, "manne", "age", 2, hit).played()
        lines = [line.split(" ")[1:3] for line in played.transcript.splitlines()[played.quiet + 1 :]]
        groups = [
            "".join(node for _, node in run)
            for word, run in itertools.groupby(lines, lambda it: it[0])
            if word == "point"
        ]
        self.assertEqual(len(groups), 6)
        self.assertLessEqual({*groups}, {"13", "2", "4"})
        assert played.changes is not None
        self.assertEqual(played.changes, len("".join(groups)))

    def test_without_racks_nothing_changes(self) -> None:
        """Groups of one node each, in any order, draw as no groups do."""
        ring = graphs.ring(9)
        alone = Racks("alone", tuple(Member(node, f"r{node}") for node in (3, 1, 9)))
        for words in (dict(faults=5), dict(joins=2, leaves=3), dict(faults=4, leaves=2, every=2)):
            for rules in ("hh", "manne"):
                more: dict[str, Any] = words
                one, other = (
                    Experiment(ring, rules, "seeded", 5, Disturbance(**more, racks=it)).played().transcript
                    for it in (None, alone)
                )
                self.assertEqual(one, other)


class Command(Timed):
    seconds = 120

    def test_sweeps(self) -> None:
        at = pathlib.Path(self.folder())
        (at / "g.txt").write_text("a b\nc d\n", encoding="utf-8")
        (at / "racks.csv").write_text("a,r1\nc,r1\nb,r2\n", encoding="utf-8")
        (at / "other.csv").write_text("a,r1\nx,r1\n", encoding="utf-8")

        def done(words: str) -> subprocess.CompletedProcess[str]:
            paths = dict(os.environ, PYTHONPATH=os.path.join(TOP, "python"))
            command = [sys.executable, "-m", "rudekpi", *words.split(" ")]
            return subprocess.run(command, cwd=at, env=paths, capture_output=True, encoding="utf-8")

        words = "sweep --graph g.txt --leaves 1 --seeds 3 --processes 1"
        ran = done(f"{words} --racks racks.csv --csv rows.csv")
        self.assertEqual((ran.returncode, ran.stdout, ran.stderr), (0, "", ""))
        digest = read_racks(at / "racks.csv").digest
        self.assertEqual(
            (at / "rows.csv").read_text(encoding="utf-8").count(f'"1 leave, by groups of racks.csv {digest}"'), 3
        )
        self.assertEqual(done("again rows.csv 3").returncode, 0)
        for more, why in (
            ("--racks other.csv", "other.csv: line 2: x is no node of g.txt"),
            ("--racks racks.csv --cut 1", "groups join, leave, or have faults that change registers: nothing else"),
            ("--racks racks.csv --csv racks.csv --force", "racks.csv would be written over racks.csv, which is read"),
        ):
            ran = done(f"{words} {more}")
            self.assertEqual((ran.returncode, ran.stdout), (2, ""))
            self.assertTrue(ran.stderr.startswith(f"! {why}"), ran.stderr)
        (at / "racks.csv").write_text("a,r1\nb,r1\n", encoding="utf-8")
        ran = done(f"{words} --racks racks.csv --csv rows.csv --resume")
        self.assertEqual(ran.stderr, "! rows.csv: line 2: the row is of another racks.csv, which has changed since\n")
        self.assertEqual(done("again rows.csv 1").returncode, 1)


if __name__ == "__main__":
    unittest.main()
