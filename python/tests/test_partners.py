"""What happened to pairs in a burst: by hand, against a count of whole states, and in rows of sweeps."""

from __future__ import annotations

import csv
import importlib.util
import io
import os
import pathlib
import random
import subprocess
import sys
import unittest
from dataclasses import astuple, replace
from typing import Iterable, Optional, Sequence

from rudekpi import Network, RudekpiError, bursts, graphs, sweep
from rudekpi.partners import NAMES, PartnerCounts, PartnerWatch, summed
from rudekpi.plans import play_again
from rudekpi.rows import COLUMNS, KNOWN, Row, RowFile, columns_of, read_csv, text_of
from rudekpi.simple_graph import Graph
from rudekpi.state import State
from rudekpi.sweeps import Disturbance, experiments_of, run_all
from rudekpi.tables import table_of
from support import TOP, Timed

has_networkx = importlib.util.find_spec("networkx") is not None
COUNTS = PartnerCounts(3, 2, 1, 9, 4, 5, 2, 0)
ROW = Row("ring:5", "hh", 5, 5, "least", 0, "1 fault", 4, 4, 2, 0, 2, 2, 0, 10, 15, 2, 0.1, 1, "0" * 16)


def played(rules: str, nodes: int, lines: Sequence[str], present: Optional[int] = None) -> str:
    """The transcript of a script."""
    with Network(rules, nodes, present=present) as net:
        return net._played(lines)


def counts_of(transcript: str) -> list[PartnerCounts]:
    return [burst.partners for burst in bursts(transcript, partners=True) if burst.partners]


def followed(rules: str, nodes: int, lines: Iterable[str]) -> PartnerWatch:
    """Entries that need not be those of any machine."""
    watch = PartnerWatch(State(rules, nodes, range(1, nodes + 1)))
    for number, line in enumerate(lines, 1):
        watch.follow(f"{number} {line}")
    return watch


class ByHand(Timed):
    def test_a_pair_that_breaks_and_forms_again(self) -> None:
        links = ["link 1 2", "step 1", "step 2", "link 2 3", "link 3 4", "step 4", "step 3"]
        found = counts_of(played("hh", 4, [*links, "point 2 3", "step 2", "step 2>1", "unlink 1 2"]))
        # 1 and 2, then 3 and 4, find each other in two steps of one round: two nodes of two steps each
        self.assertEqual(found[0], PartnerCounts(0, 1, 0, 4, 2, 2, 1, 0))
        self.assertEqual(found[1], found[0])
        # 2 is turned away from 1, abandons 3 (a round, as 1 can no longer move), and marries 1 again (another round)
        self.assertEqual(found[2], PartnerCounts(1, 1, 1, 4, 2, 4, 2, 0))
        # no step follows the cut: no node is alone for a step
        self.assertEqual(found[3], PartnerCounts(1, 0, 0, 0, 0, 0, 0, 0))

    def test_several_movers(self) -> None:
        # 1 and 2 seduce, 3 marries 2, both update, 1 abandons: 2 and 3 are alone for the first two steps, each of
        # which is a round of its own; 1 has no partner from start to end, and is not counted
        script = ["link 1 2", "link 2 3", "step 1 2", "step 3", "step 2 3", "step 1"]
        self.assertEqual(counts_of(played("manne", 3, script)), [PartnerCounts(0, 1, 0, 4, 2, 4, 2, 0)])

    def test_what_is_a_pair_only_within_a_step_is_none(self) -> None:
        # 2 points at 1; then, at once, 1 marries 2 and 2 abandons 1: no pair. 2 marries 1 in the second step, and
        # both update. In each order of the moves of the first step the pair would be there between them or not
        script = ["link 1 2", "point 2 1", "step 1 2", "step 2", "step 1 2"]
        text = played("manne", 2, script)
        self.assertIn("= 1:marry>2 2:abandon\n", text)
        self.assertEqual(counts_of(text), [PartnerCounts(0, 1, 0, 4, 2, 4, 2, 0)])

    def test_a_node_that_stays_alone(self) -> None:
        # the pairs are 1-2 and 3-4; 4 and 1 leave; 2 and 5 find each other in two steps of one round (3 and 5 move or
        # stop being enabled); 3 lost its partner, and finds none until silence: three nodes of two steps each
        script = ["link 1 2", "link 3 4", "drive 1 9", "link 2 3", "link 2 5", "drive 1 9", "leave 4", "leave 1"]
        [*_, last] = counts_of(played("hh", 5, [*script, "step 2>5", "step 5"]))
        self.assertEqual(last, PartnerCounts(2, 1, 0, 6, 2, 3, 1, 0))

    def test_a_node_that_leaves_counts_no_further(self) -> None:
        # the pair 1-2 is broken by a fault at 1; 4 moves; 1 leaves after one step alone; 5 marries 4, which ends the
        # first round; 2 and 3 find each other in the second one. Steps: 1 for node 1, 2 each for 4 and 5 and 4 each
        # for 2 and 3. Rounds: 1 for each of 1, 4 and 5, and 2 each for 2 and 3
        script = ["link 1 2", "drive 1 9", "link 2 3", "drive 1 9"]
        more = ["link 4 5", "point 1 -", "step 4", "leave 1", "step 5", "step 2>3", "step 3"]
        [*_, last] = counts_of(played("hh", 5, [*script, *more]))
        self.assertEqual(last, PartnerCounts(1, 2, 0, 13, 4, 7, 2, 0))

    def test_a_node_that_comes_again(self) -> None:
        # 2 has nothing of 1's data any more when it comes back, so this is no pair remade with the same partner
        script = ["link 1 2", "drive 1 9", "leave 2", "join 2", "link 1 2", "step 1", "step 2"]
        [*_, last] = counts_of(played("hh", 2, script))
        self.assertEqual(last, PartnerCounts(1, 1, 0, 4, 2, 2, 1, 0))
        # 3 joins after a step, and is alone for the other two only, in the second round; 1 and 2 have one round of two
        # steps; 1 is alone in both
        script = ["link 1 2", "step 1", "join 3", "step 2", "unlink 1 2", "link 2 3", "step 2", "step 3"]
        [first, second] = counts_of(played("hh", 3, script, present=2))
        self.assertEqual(first, PartnerCounts(0, 1, 0, 4, 2, 2, 1, 0))
        self.assertEqual(second, PartnerCounts(1, 1, 0, 2 + 2 + 2, 2, 1 + 1 + 1, 1, 0))

    def test_a_fault_that_makes_a_pair(self) -> None:
        # 1 points at 2 after one step, and the fault at 2 answers it: both were alone for that step
        script = ["link 1 2", "step 1", "point 2 1"]
        self.assertEqual(counts_of(played("hh", 2, script)), [PartnerCounts(0, 1, 0, 2, 1, 2, 1, 0)])

    def test_a_round_is_counted_once_at_a_node(self) -> None:
        # 1 and 2 lose each other twice in one round, which waits for 4: two steps alone, one round each
        pair = ["link 1 2 = ok", "point 1 2 = ok", "point 2 1 = ok", "link 4 5 = ok"]
        again = ["point 1 - = ok", "step 1 = 1:marry>2"]
        watch = followed("hh", 5, [*pair, *again, *again])
        self.assertEqual((watch.round_of, watch.spanned), ([1, 1], {4, 5}))
        self.assertEqual(watch.counted(), PartnerCounts(2, 3, 2, 4, 2, 2, 1, 0))

    def test_partners_lost_without_a_disturbance(self) -> None:
        """No machine breaks a pair by a move, so these entries are none of a machine."""
        pair = ["link 1 2 = ok", "point 1 2 = ok", "point 2 1 = ok"]
        cases: list[tuple[list[str], int]] = [
            ([], 2),
            (["flag 3 1 = ok", "link 2 3 = ok", "unlink 2 3 = ok"], 2),
            (["flag 2 1 = ok"], 0),
            (["point 1 2 = ok"], 0),
            # the link is touched, and the pointers that it had
            (["unlink 1 2 = ok", "link 1 2 = ok", "step 1 = 1:seduce>2", "step 2 = 2:marry>1"], 0),
        ]
        for touch, count in cases:
            watch = followed("manne", 3, pair)
            watch.begin()
            for number, line in enumerate([*touch, "step 1 = 1:abandon"], 4):
                watch.follow(f"{number} {line}")
            self.assertEqual((watch.counted().lost_untouched, watch.broken > 0), (count, True), touch)
        # a pointer that leave clears is a register that is touched
        watch = followed("manne", 3, [*pair, "link 2 3 = ok", "point 3 2 = ok"])
        watch.begin()
        lines = ["leave 1 = ok", "step 2 = 2:marry>3", "step 3 = 3:abandon"]
        for number, line in enumerate(lines, 6):
            watch.follow(f"{number} {line}")
        self.assertEqual(watch.counted().lost_untouched, 0)

    def test_sums(self) -> None:
        other = PartnerCounts(1, 1, 1, 1, 7, 1, 1, 2)
        self.assertEqual(summed([COUNTS, other]), PartnerCounts(4, 3, 2, 10, 7, 6, 2, 2))
        self.assertEqual(summed([]), PartnerCounts())
        self.assertIsNone(bursts(played("hh", 2, ["link 1 2"]))[0].partners)


class Recount:
    """Counts again from the partners of all nodes after each entry, as the definitions say it."""

    def __init__(self, rules: str, nodes: int) -> None:
        self.state, self.steps = State(rules, nodes, range(1, nodes + 1)), 0
        self.broken = self.remade = 0
        # each node's times without a partner, as numbers of steps: begin, end, and whether the time counts
        self.times: dict[int, list[list[int]]] = {node: [[0, 0, 0]] for node in self.state.neighbours}

    def partners(self) -> dict[int, Optional[int]]:
        return {node: self.state.partner(node) for node in self.state.neighbours}

    def follow(self, line: str) -> None:
        before = self.partners()
        self.state.follow([line])
        now = self.partners()
        self.steps += " step " in line and "refused" not in line
        self.broken += len({frozenset((a, b)) for a, b in before.items() if b and now.get(a) != b})
        self.remade += len({frozenset((a, b)) for a, b in now.items() if b and before.get(a) != b})
        for node in {*before, *now}:
            self.look(node, before.get(node), now.get(node), node in before, node in now)

    def look(self, node: int, was: Optional[int], now: Optional[int], was_there: bool, is_there: bool) -> None:
        times = self.times.setdefault(node, [])
        if was_there and not was and times:
            times[-1][1] = self.steps
            times[-1][2] |= now is not None
        elif was_there and was and now and was != now:
            times.append([self.steps, self.steps, 1])
        if is_there and not now and (not was_there or was):
            times.append([self.steps, self.steps, int(was is not None)])

    def alone(self) -> list[int]:
        return [sum(end - begin for begin, end, counts in times if counts) for times in self.times.values()]


class BesideStates(Timed):
    def test_random_runs(self) -> None:
        """A run that never falls silent is one burst; its counts are those of all its states."""
        for seed in range(8):
            chance, rules = random.Random(seed), ("hh", "manne")[seed % 2]
            with self.subTest(seed=seed), Network(rules, 9) as net:
                for _ in range(150):
                    self.act(net, chance)
                text = net.transcript()
                watch, recount = PartnerWatch(State(rules, 9, range(1, 10))), Recount(rules, 9)
                for line in text.splitlines()[1:]:
                    watch.follow(line)
                    recount.follow(line)
                found, alone = watch.counted(), recount.alone()
                self.assertEqual((found.broken, found.remade), (recount.broken, recount.remade))
                self.assertEqual((found.steps_alone, found.most_steps_alone), (sum(alone), max(alone)))
                self.assertGreater(min(found.broken, found.remade_same, found.rounds_alone), 0)
                self.assertLessEqual(found.most_rounds_alone, min(found.most_steps_alone, watch.spans + 1))
                self.assertEqual(found.lost_untouched, 0)

    def act(self, net: Network, chance: random.Random) -> None:
        a, b = chance.sample(range(1, 10), 2)
        with net.batch(raises=False) as batch:
            what = chance.randrange(10)
            if what < 3:
                batch.link(a, b)
            elif what == 3:
                batch.unlink(a, b)
            elif what == 4:
                (batch.join if chance.random() < 0.6 else batch.leave)(a)
            elif what == 5:
                batch.scramble(chance.randrange(99), 2)
            else:
                batch.drive(chance.randrange(99), 2)


HITS = [
    Disturbance(),
    Disturbance(12),
    Disturbance(9, any_value=True),
    Disturbance(4, joins=2, leaves=2, cut=2, add=2, rewire=1),
    Disturbance(8, joins=2, leaves=1, cut=2, every=2),
    Disturbance(8, "pointer", any_value=True, every=1),
]


class Rows(Timed):
    def test_the_same_live_and_saved(self) -> None:
        """A row has what `bursts` finds in the saved transcript, after the first settling."""
        grid = graphs.grid(4, 5)
        for rules in ("hh", "manne"):
            rows = sweep([grid], [rules], ["seeded", "age"], range(2), HITS, partners=True, processes=2)
            for row in rows:
                transcript = play_again(row).transcript
                first, *later = counts_of(transcript)
                wanted = summed(later if row.disturbance != "start" else [first])
                self.assertEqual(tuple(getattr(row, name) for name in NAMES), astuple(wanted), row.key)
                self.assertEqual(row.lost_untouched, 0)
                assert row.broken is not None and row.remade is not None and row.rounds_alone is not None
                if row.disturbance == "start":
                    self.assertEqual((row.broken, row.remade), (0, row.pairs))
                else:
                    self.assertGreater(row.broken, 0)

    def test_by_hand(self) -> None:
        # a pair alone: each pointer fault parts it, and the two find each other again in two moves of `least`
        pair = Graph("pair", (1, 2), ((1, 2),))
        [row] = run_all(experiments_of([pair], ["hh"], ["least"], [1], [Disturbance(1)], partners=True))
        # one is turned to null, and marries the other in one step of one round: each is alone for it
        self.assertEqual((row.steps, row.moves), (1, 1))
        self.assertEqual(tuple(getattr(row, name) for name in NAMES), (1, 1, 1, 2, 1, 2, 1, 0))

    def test_the_other_columns_stay(self) -> None:
        words = [graphs.ring(9)], ["hh", "manne"], ["seeded", "least"], range(2), HITS[1:5]
        one, other = (self.bare(run_all(experiments_of(*words, partners=it))) for it in (True, False))
        self.assertEqual(one, other)

    def bare(self, rows: Iterable[Row]) -> list[Row]:
        nothing: dict[str, None] = dict.fromkeys(NAMES)
        return [replace(row, seconds=0.0, **nothing) for row in rows]

    def test_again(self) -> None:
        [row] = run_all(experiments_of([graphs.ring(9)], ["manne"], ["least"], [4], [Disturbance(5)], partners=True))
        play_again(row)
        assert row.steps_alone is not None
        changed = replace(row, steps_alone=row.steps_alone + 1)
        self.assertRaisesRegex(RudekpiError, f"steps_alone is {row.steps_alone}", play_again, changed)


class Files(Timed):
    # no engine is used
    engines = ("program",)

    def test_columns(self) -> None:
        self.assertEqual(columns_of(False, True), (*COLUMNS, *NAMES))
        self.assertEqual(columns_of(True, True), (*COLUMNS, "maximum", *NAMES))
        row = replace(ROW, **{name: at for at, name in enumerate(NAMES)})
        for columns, made in ((columns_of(False, True), row), (columns_of(True, True), replace(row, maximum=2))):
            text = text_of([made, made], columns)
            self.assertEqual(text.splitlines()[0], ",".join(columns))
            self.assertEqual(read_csv(io.StringIO(text, newline="")), [made, made])
        # a head that is cut is none yet, if more letters may make it one
        heads = [",".join(columns) for columns in KNOWN]
        for head in heads:
            for size in range(1, len(head) + 1):
                self.assertEqual(RowFile([head[:size]], "rows").columns, tuple(head.split(",")) * (size > len(head)))
        self.assertRaisesRegex(ValueError, "has not the columns", RowFile, [f"{heads[-1]}x"], "rows")

    def test_tables(self) -> None:
        rows = [replace(ROW, **{name: at + seed for at, name in enumerate(NAMES)}) for seed in (0, 1, 4)]
        other = replace(ROW, graph="ring:6")
        head, first, second = table_of([*rows, other])
        words = "broken  remade  remade same  steps alone  most steps alone  rounds alone  most rounds alone"
        self.assertTrue(head.endswith(f"{words}  lost untouched"))
        # medians of 0, 1, 4 and so on; the most of 4, 5, 8, of 6, 7, 10, and of 7, 8, 11
        self.assertEqual(first.split()[-8:], ["1", "2", "3", "4", "8", "6", "10", "11"])
        self.assertEqual(second.split()[-8:], ["-"] * 8)
        marked = table_of(rows, is_markdown=True)
        self.assertEqual(marked[1].count("---"), marked[0].count("|") - 1)
        self.assertNotIn("broken", table_of([other])[0])


class Command(Timed):
    seconds = 120

    def setUp(self) -> None:
        super().setUp()
        self.at = pathlib.Path(self.folder())

    def done(self, words: str, given: str = "") -> subprocess.CompletedProcess[str]:
        paths = dict(os.environ, PYTHONPATH=os.path.join(TOP, "python"))
        command = [sys.executable, "-m", "rudekpi", *words.split(" ")]
        return subprocess.run(command, cwd=self.at, env=paths, input=given, capture_output=True, encoding="utf-8")

    def test_bursts(self) -> None:
        text = played("hh", 2, ["link 1 2", "step 1", "step 2", "point 1 -", "step 1>2"])
        head = "start,end,disturbances,cost,bound,moves,steps,rounds,pairs_before,pairs_after"
        done = self.done("bursts --partners --no-nodes", text)
        self.assertEqual((done.returncode, done.stderr), (0, ""))
        self.assertEqual(
            done.stdout.splitlines(),
            [
                f"{head},broken,remade,remade_same,steps_alone,most_steps_alone,rounds_alone,most_rounds_alone,"
                "lost_untouched",
                "1,3,1 link,2,2,2,2,1,0,1,0,1,0,4,2,2,1,0",
                "4,5,1 point,4,4,1,1,1,1,1,1,1,1,2,1,2,1,0",
            ],
        )
        done = self.done("bursts --partners", text)
        self.assertTrue(done.stdout.startswith(f"{head},reached,moved,broken,"))
        self.assertEqual(len(list(csv.DictReader(io.StringIO(done.stdout)))), 2)

    def test_sweeps_that_go_on(self) -> None:
        words = "sweep --graph ring:5 --seeds 3 --faults 2 --processes 1 --csv rows.csv"
        self.assertEqual(self.done(f"{words} --partners").stderr, "")
        whole = (self.at / "rows.csv").read_bytes()
        done = self.done(f"{words} --resume")
        why = "! rows.csv has a column broken, which --partners adds: give it too\n"
        self.assertEqual((done.returncode, done.stdout, done.stderr), (2, "", why))
        self.assertEqual((self.at / "rows.csv").read_bytes(), whole)
        lines = whole.splitlines(keepends=True)
        (self.at / "rows.csv").write_bytes(b"".join(lines[:2]) + lines[2][:30])
        self.assertEqual(self.done(f"{words} --partners --resume").returncode, 0)
        rows = (self.at / "rows.csv").read_text(encoding="utf-8").splitlines()
        at = COLUMNS.index("seconds")
        cells = [
            [line.split(",")[:at] + line.split(",")[at + 1 :] for line in text] for text in (rows, self.text(whole))
        ]
        self.assertEqual(*cells)
        table = self.done("compare rows.csv").stdout.splitlines()
        self.assertTrue(table[0].endswith("lost untouched"))
        self.assertEqual(self.done("again rows.csv 3").returncode, 0)
        self.assertEqual(self.done(f"{words} --force").returncode, 0)
        why = "! rows.csv has no column broken, which --partners adds: leave it out\n"
        self.assertEqual(self.done(f"{words} --partners --resume").stderr, why)
        done = self.done("compare rows.csv --partners")
        self.assertEqual(done.returncode, 2)
        self.assertIn("--partners is for rows that are to be played", done.stderr)

    def text(self, whole: bytes) -> list[str]:
        return whole.decode().splitlines()

    @unittest.skipUnless(has_networkx, "no networkx")
    def test_beside_a_maximum(self) -> None:
        words = "sweep --graph ring:5 --seeds 1 --processes 1 --maximum --partners"
        head = self.done(words).stdout.splitlines()[0]
        self.assertEqual(head, ",".join(columns_of(True, True)))


if __name__ == "__main__":
    unittest.main()
