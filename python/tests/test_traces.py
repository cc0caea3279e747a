"""Traces: files of churn, by hand; lines that are none; in sweeps, plans and networks of one's own."""

from __future__ import annotations

import json
import os
import pathlib
import pickle
import re
import signal
import subprocess
import sys
import time
import unittest
from dataclasses import astuple
from typing import Any, Iterator

from rudekpi import Network, RudekpiError, Trace, TraceEvent, audit, graphs, play_trace, read_trace, sweep
from rudekpi.disturbances import Disturbance
from rudekpi.partners import NAMES, PartnerCounts
from rudekpi.plans import disturbance_in, file_in, plan_of, play_again
from rudekpi.plays import Mended
from rudekpi.rows import RowFile, lines_of_file
from rudekpi.simple_graph import Graph
from rudekpi.sweeps import Experiment, experiments_of, run_all
from support import TOP, Timed

CHURN = """\
time,event,a,b
0,link,ann,bob
1,link,bob,cleo
1,join,dan
2, link, dan, cleo

# ann goes, and what she had
3.5,leave,ann
4e0,unlink,cleo,dan,
"""
AS_JSON = """\
{"time": 0, "link": ["ann", "bob"]}
{"time": 1, "link": ["bob", "cleo"]}
{"time": 1, "join": "dan"}
{"time": 2, "link": ["dan", "cleo"]}
{"time": 3.5, "leave": ["ann"]}
{"unlink": ["cleo", "dan"], "time": 4.0}
"""
EDITS = re.compile(r"^[0-9]+ ((?:link|unlink|join|leave) .*) = ok$")


def moves_between(transcript: str, first: int) -> list[int]:
    """How many moves come after each edit from the entry `first` on."""
    counts: list[int] = []
    for line in transcript.splitlines()[1:]:
        if int(line.split(" ")[0]) < first:
            continue
        if EDITS.match(line):
            counts.append(0)
        elif " step " in line and counts:
            counts[-1] += line.partition(" = ")[2].count(":")
    return counts


class Of(Timed):
    """Files in a folder."""

    def setUp(self) -> None:
        super().setUp()
        self.at = pathlib.Path(self.folder())

    def trace(self, text: str, name: str = "churn.csv") -> Trace:
        (self.at / name).write_text(text, encoding="utf-8")
        return read_trace(self.at / name)


class Files(Of):
    # no engine is used
    engines = ("program",)

    def test_by_hand(self) -> None:
        wanted = [
            (0, "link", ("ann", "bob"), 2),
            (1, "link", ("bob", "cleo"), 3),
            (1, "join", ("dan",), 4),
            (2, "link", ("dan", "cleo"), 5),
            (3.5, "leave", ("ann",), 8),
            (4.0, "unlink", ("cleo", "dan"), 9),
        ]
        found = self.trace(CHURN)
        self.assertEqual([astuple(event) for event in found.events], wanted)
        other = self.trace(AS_JSON, "churn.log")
        self.assertEqual([astuple(event)[:3] for event in other.events], [event[:3] for event in wanted])
        self.assertEqual([event.line for event in other.events], [1, 2, 3, 4, 5, 6])
        # the digest is that of the events, wherever they stand
        self.assertEqual(found.digest, other.digest)
        self.assertNotEqual(found.digest, self.trace(CHURN.replace("3.5", "3")).digest)
        self.assertEqual(found.start(), Graph(found.start().title, ("ann", "bob", "cleo"), ()))
        self.assertTrue(found.start().title.startswith("trace /"))

    def test_names(self) -> None:
        # whole numbers are numbers, also as texts, and ascend; a name is the same however it is written
        found = self.trace('5,link,10,"9"\n6,join,2\n')
        self.assertEqual(found.start().nodes, (9, 10))
        self.assertEqual(found.on(found.start()).nodes, (9, 10, 2))
        found = self.trace('{"time": 1, "unlink": ["3", 4]}\n')
        self.assertEqual(found.on(graphs.ring(5)).events, (("unlink", (3, 4)),))
        texts = Graph("texts", ("3", "4"), (("3", "4"),))
        self.assertEqual(found.on(texts).nodes, ("3", "4"))
        # a name with a comma and a blank
        found = self.trace('1,link,"a, b",c d\n')
        self.assertEqual(found.start().nodes, ("a, b", "c d"))
        both = Graph("both", (1, "1"), ())
        self.assertRaisesRegex(ValueError, "both: two nodes have names with the same text", found.on, both)

    def test_lines_that_are_none(self) -> None:
        good = "1,link,a,b\n"
        for text, line, why in (
            ("1,link,a\n", 1, "link has two names, and this line has 1"),
            ("1,link,a,b,c\n", 1, "link has two names, and this line has 3"),
            ("1,leave,a,b\n", 1, "leave has one name, and this line has 2"),
            ("1,lnk,a,b\n", 1, "\"lnk\" is no event: they are link, unlink, join, leave; 'link' may be meant"),
            ("1,LINK,a,b\n", 1, '"LINK" is no event'),
            ("noon,link,a,b\n", 1, '"noon" is no time: that is a number, as 7 or 1.5'),
            (good + "1e999,link,a,c\n", 2, "a time is a finite number"),
            (good + "nan,link,a,c\n", 2, '"nan" is no time'),
            (good + "time,event,a,b\n", 2, '"time" is no time'),
            (good + "1\n", 2, 'expected TIME,EVENT,NAME.., and not "1"'),
            (good + '1,link,"a,c\n', 2, "this is no row of CSV: unexpected end of data"),
            (good + "1,link,a,\n", 2, "link has two names, and this line has 1"),
            (good + "1,link,,a\n", 2, 'a name is a text or a whole number, and not ""'),
            (good + "1,link,a\x07,c\n", 2, "'\\x07' stands in no row of CSV"),
            ("\n" + good + "0.5,unlink,a,b\n", 3, "the time 0.5 is before 1, that of line 2: times never go back"),
            ('{"time": 1, "link": ["a", "b"]}\n[1]\n', 2, "an object is expected"),
            ('{"time": 1, "link": ["a", "b"]}\n1,link,a,c\n', 2, "this is no JSON"),
            (
                '{"time": 1, "link": ["a", "b"], "join": "c"}\n',
                1,
                "an event is one of link, unlink, join, leave, and this has link and join",
            ),
            ('{"time": 1, "jion": "c"}\n', 1, "an event is one of link, unlink, join, leave; 'join' may be meant"),
            ('{"join": "c"}\n', 1, "the key 'time' is missing"),
            ('{"time": 1, "join": "c", "at": 2}\n', 1, 'there is no key "at": the keys are time, join'),
            ('{"time": "1", "join": "c"}\n', 1, '"1" is no time'),
            ('{"time": true, "join": "c"}\n', 1, "true is no time"),
            ('{"time": 1, "time": 2, "join": "c"}\n', 1, 'the key "time" is there twice'),
            ('{"time": 1, "join": null}\n', 1, "a name is a text or a whole number, and not null"),
            ('{"time": 1e999, "join": "c"}\n', 1, "a time is a finite number"),
        ):
            with self.subTest(text), self.assertRaises(ValueError) as caught:
                self.trace(text)
            self.assertTrue(
                str(caught.exception).startswith(f"{self.at}/churn.csv: line {line}: {why}"), caught.exception
            )
        self.assertRaisesRegex(ValueError, "a trace has an event at least", self.trace, "time,event\n\n# no more\n")
        (self.at / "churn.csv").write_bytes(b"1,link,a,\xff\n")
        self.assertRaisesRegex(ValueError, "line 1: no UTF-8", read_trace, self.at / "churn.csv")
        self.assertRaises(FileNotFoundError, read_trace, self.at / "none.csv")
        # a great whole number is a time too, and is compared exactly
        great = 10**400
        [one, other] = self.trace(f'{{"time": {great}, "join": 1}}\n{{"time": {great + 1}, "join": 2}}\n').events
        self.assertEqual(other.time - one.time, 1)

    def test_events_that_the_network_would_refuse(self) -> None:
        ring = graphs.ring(4)
        for events, line, why in (
            ("1,link,1,1", 1, "1 can't be linked with itself"),
            ("1,link,1,2", 1, "1 and 2 are linked already"),
            ("1,link,1,3\n1,link,3,1", 2, "3 and 1 are linked already"),
            ("1,unlink,1,3", 1, "1 and 3 are not linked"),
            ("1,join,4", 1, "4 is there already, and can't join"),
            ("1,join,5\n2,join,5", 2, "5 is there already, and can't join"),
            ("1,link,1,x", 1, "x is no node of the graph, and has not joined"),
            ("1,leave,1\n2,leave,1", 2, "1 is not there at that time"),
            # the links of a node go with it
            ("1,leave,1\n2,join,1\n3,unlink,1,2", 3, "1 and 2 are not linked"),
        ):
            trace = self.trace(events)
            with self.subTest(events), self.assertRaises(ValueError) as caught:
                Disturbance(trace=trace).check(ring)
            self.assertTrue(str(caught.exception).endswith(f"churn.csv: line {line}: {why}"), caught.exception)

    def test_in_words_of_a_row(self) -> None:
        trace = self.trace("1,join,a\n", "a, every 3 moves.csv")
        for hit in (Disturbance(trace=trace), Disturbance(trace=trace, every=7)):
            self.assertEqual(disturbance_in(str(hit)), hit)
            self.assertEqual(file_in(str(hit)), trace.title)
        self.assertIsNone(file_in("3 faults, every 2 moves"))
        text = str(Disturbance(trace=trace))
        self.trace("1,join,b\n", "a, every 3 moves.csv")
        self.assertRaisesRegex(RudekpiError, "a, every 3 moves.csv has changed", disturbance_in, text)
        wrong: list[dict[str, Any]] = [dict(faults=1), dict(cut=1), dict(registers="flag"), dict(any_value=True)]
        for words in wrong:
            self.assertRaisesRegex(ValueError, "a trace is all that", Disturbance, **words, trace=trace)

    def test_plans(self) -> None:
        trace = self.trace(CHURN)
        plan = plan_of({"disturbances": [{"trace": trace.title}, {"trace": trace.title, "every": 2}]})
        self.assertEqual(plan.graphs, (trace.start(),))
        self.assertEqual(plan.disturbances, (Disturbance(trace=trace), Disturbance(trace=trace, every=2)))
        for hits in ([], [1], [{"trace": trace.title}, 1]):
            given: Any = {"disturbances": hits} if hits else {}
            self.assertRaisesRegex(ValueError, "a plan names its graphs", plan_of, given)
        given = {"graphs": ["ring:3"], "disturbances": [{"trace": 3}]}
        self.assertRaisesRegex(ValueError, "trace of a disturbance is not 3", plan_of, given)

    def test_it_goes_to_workers_without_what_was_found(self) -> None:
        trace = self.trace(CHURN)
        scripted = trace.on(trace.start())
        self.assertIs(trace.on(trace.start()), scripted)
        copied = pickle.loads(pickle.dumps(trace))
        self.assertEqual((copied, dict(copied.known), copied.on(trace.start())), (trace, {}, scripted))


class Played(Of):
    def test_by_hand(self) -> None:
        """Under `least` and `hh`: ann and bob, later dan and cleo, and at last bob and cleo, find each other."""
        trace = self.trace(CHURN)
        hit = Disturbance(trace=trace)
        [row] = run_all(experiments_of([trace.start()], ["hh"], ["least"], [1], [hit], partners=True))
        # each time two steps in one round; the other lines leave the network silent
        self.assertEqual((row.steps, row.moves, row.rounds, row.pairs, row.n, row.m), (6, 6, 3, 1, 3, 1))
        # links cost 2 each; ann leaves bob with one other edge, and so has the cut pair of dan and cleo: 2 each
        self.assertEqual((row.charge, row.bound), (10, 10))
        # ann leaves bob, dan is cut from cleo; two nodes find each other in two steps, and again, and at last so do
        # bob and cleo, while dan stays alone: 4 + 4 + 6 steps, and a round for each of these nodes
        counts = PartnerCounts(2, 3, 0, 14, 2, 7, 1, 0)
        self.assertEqual(tuple(getattr(row, name) for name in NAMES), astuple(counts))
        played = play_again(row)
        self.assertEqual(played.nodes, ("ann", "bob", "cleo", "dan"))
        self.assertEqual(moves_between(played.transcript, 1), [2, 0, 0, 2, 0, 2])
        self.assertEqual(audit(played.transcript).moves, 6)

    def test_moves_between_two_lines(self) -> None:
        # one move at most: ann seduces bob, who marries her after the second line; cleo seduces dan, who marries her
        # after ann has left; then bob and cleo find each other, in as many moves as that takes
        trace = self.trace(CHURN)
        hit = Disturbance(trace=trace, every=1)
        played = Experiment(trace.start(), "hh", "least", 1, hit).played()
        self.assertEqual(moves_between(played.transcript, 1), [1, 1, 0, 1, 1, 2])

    def test_at_most_so_many_moves(self) -> None:
        """Of a step of more nodes only the first move; each daemon, on a graph that a trace rewires."""
        # three nodes leave, and come again with their links
        lines = [
            line
            for node in (3, 6, 9)
            for line in (f"leave,{node}", f"join,{node}", f"link,{node},{node - 1}", f"link,{node},{node + 1}")
        ]
        trace = self.trace("".join(f"{at},{line}\n" for at, line in enumerate(lines, 1)))
        ring = graphs.ring(12)
        for every in (1, 2, 3):
            for daemon in ("synchronous", "seeded", "local", "probability:0.5", "greedy", "least"):
                played = Experiment(ring, "manne", daemon, 3, Disturbance(trace=trace, every=every)).played()
                *between, _ = moves_between(played.transcript, played.quiet + 1)
                self.assertEqual(len(between), len(trace.events) - 1)
                self.assertEqual(max(between), every, daemon)
                self.assertEqual(played.after.enabled, 0)
        played = Experiment(ring, "hh", "seeded", 3, Disturbance(trace=trace, every=2)).played()
        self.assertEqual(max(moves_between(played.transcript, played.quiet + 1)[:-1]), 2)

    def test_each_daemon_mends_to_silence_between_two_lines(self) -> None:
        trace = self.trace(AS_JSON)
        for rules in ("hh", "manne"):
            rows = sweep([trace.start()], [rules], ["seeded", "age", "greedy"], range(3), [Disturbance(trace=trace)])
            for row in rows:
                played = play_again(row)
                is_silent = True
                for line in played.transcript.splitlines()[played.quiet + 1 :]:
                    # an edit comes in silence, which a status or a list of enabled nodes has shown before
                    self.assertTrue(is_silent or not EDITS.match(line), line)
                    is_silent = " enabled=0 " in line or line.endswith(" enabled = none")
                self.assertTrue(0 < row.moves <= row.bound, row)
                self.assertEqual((row.pairs, row.n, row.m), (1, 3, 1))

    def test_in_a_network_of_ones_own(self) -> None:
        trace = self.trace(CHURN)
        with Network("hh", ["ann", "bob", "cleo"], capacity=4) as net:
            self.assertEqual(play_trace(net, trace, "least"), Mended(6, 6))
            self.assertEqual((net.matching().partner("bob"), net.present), ("cleo", ["bob", "cleo", "dan"]))
            before = net.transcript()
            # ann is no more, so the first line would be refused, and no event is played
            with self.assertRaisesRegex(ValueError, "churn.csv: line 2: ann is no node of the graph"):
                play_trace(net, trace)
            self.assertEqual(net.transcript(), before)
            # a node that left comes again under its name, given as a number
            play_trace(net, Trace("mine", (TraceEvent(1, "join", ("ann",)), TraceEvent(1, "link", ("ann", "dan")))))
            self.assertEqual(net.matching().partner("dan"), "ann")
        with Network("manne", 4, present=3) as numbered:
            play_trace(
                numbered, Trace("mine", (TraceEvent(1, "join", (4,)), TraceEvent(2, "link", (4, 1)))), "age", every=9
            )
            self.assertEqual([*numbered.matching()], [(1, 4)])
            self.assertRaises(ValueError, play_trace, numbered, trace, "none")


class Command(Of):
    seconds = 240

    def words(self, words: str) -> list[str]:
        return [sys.executable, "-m", "rudekpi", *words.split(" ")]

    def done(self, words: str) -> subprocess.CompletedProcess[str]:
        paths = dict(os.environ, PYTHONPATH=os.path.join(TOP, "python"))
        return subprocess.run(self.words(words), cwd=self.at, env=paths, capture_output=True, encoding="utf-8")

    def rows(self) -> Iterator[list[str]]:
        for line in (self.at / "rows.csv").read_text(encoding="utf-8").splitlines():
            yield line.split(",")

    def test_sweeps(self) -> None:
        (self.at / "churn.csv").write_text(CHURN, encoding="utf-8")
        words = "sweep --trace churn.csv --rules hh --daemon least --seeds 2 --processes 1 --csv rows.csv"
        done = self.done(words)
        self.assertEqual((done.returncode, done.stdout, done.stderr), (0, "", ""))
        found = [*self.rows()][1:]
        digest = read_trace(self.at / "churn.csv").digest
        self.assertEqual(
            {(row[0], row[6], row[8]) for row in found}, {("trace churn.csv", f"trace churn.csv {digest}", "6")}
        )
        self.assertEqual([row[5] for row in found], ["0", "1"])
        # played again, also when the graph that was kept is gone
        one = self.done("again rows.csv 2 --output t")
        self.assertEqual((one.returncode, one.stderr), (0, ""))
        self.assertEqual((self.at / "t.names").read_text(encoding="utf-8"), '"ann"\n"bob"\n"cleo"\n"dan"\n')
        for path in (self.at / "rows.csv.graphs").iterdir():
            path.unlink()
        self.assertEqual(self.done("again rows.csv 2").stdout, (self.at / "t").read_text(encoding="utf-8"))
        table = self.done("compare rows.csv").stdout.splitlines()
        self.assertIn(f"trace churn.csv  trace churn.csv {digest}  least", table[1])

    def test_what_is_refused(self) -> None:
        (self.at / "churn.csv").write_text(CHURN, encoding="utf-8")
        (self.at / "bad.csv").write_text("1,join,a\n0,leave,a\n", encoding="utf-8")
        for words, status, why in (
            ("--trace bad.csv", 2, "bad.csv: line 2: the time 0 is before 1, that of line 1: times never go back"),
            ("--trace none.csv", 3, "none.csv: No such file or directory"),
            ("--trace churn.csv --faults 3", 2, "a trace is all that disturbs a network: only every stands beside it"),
            (
                "--trace churn.csv --graph ring:3",
                2,
                "churn.csv: line 2: ann is no node of the graph, and has not joined",
            ),
            (
                "--trace churn.csv --csv churn.csv --force",
                2,
                "churn.csv would be written over churn.csv, which is read",
            ),
        ):
            done = self.done(f"sweep {words} --seeds 1")
            self.assertEqual((done.returncode, done.stdout, done.stderr), (status, "", f"! {why}\n"), words)
        self.assertEqual((self.at / "churn.csv").read_text(encoding="utf-8"), CHURN)
        self.assertIn("required: --graph, --trace, or a plan", self.done("sweep").stderr)
        (self.at / "plan.json").write_text(json.dumps({"graphs": ["ring:3"]}), encoding="utf-8")
        self.assertIn("--trace stands in the plan", self.done("sweep plan.json --trace churn.csv").stderr)

    def test_a_trace_that_has_changed(self) -> None:
        (self.at / "churn.csv").write_text(CHURN, encoding="utf-8")
        words = "sweep --trace churn.csv --seeds 2 --processes 1 --csv rows.csv"
        self.assertEqual(self.done(words).stderr, "")
        before = (self.at / "rows.csv").read_bytes()
        (self.at / "churn.csv").write_text(CHURN.replace("3.5", "3"), encoding="utf-8")
        done = self.done(f"{words} --resume")
        why = "! rows.csv: line 2: the row is of another churn.csv, which has changed since\n"
        self.assertEqual((done.returncode, done.stderr), (2, why))
        self.assertEqual((self.at / "rows.csv").read_bytes(), before)
        done = self.done("again rows.csv 1")
        self.assertEqual(done.returncode, 1)
        self.assertRegex(
            done.stderr, "^! another row comes of it: churn.csv has changed, its digest is [0-9a-f]{16}\n$"
        )

    def test_an_interrupt_leaves_whole_rows(self) -> None:
        (self.at / "churn.csv").write_text(CHURN, encoding="utf-8")
        words = "sweep --trace churn.csv --partners --processes 2 --csv rows.csv"
        paths = dict(os.environ, PYTHONPATH=os.path.join(TOP, "python"))
        command = self.words(f"{words} --seeds 100000")
        run = subprocess.Popen(command, cwd=self.at, env=paths, stderr=subprocess.PIPE, start_new_session=True)
        assert run.stderr is not None
        self.addCleanup(run.stderr.close)
        path = self.at / "rows.csv"
        while not path.exists() or path.read_bytes().count(b"\n") < 4:
            self.assertIsNone(run.poll())
            time.sleep(0.01)
        os.killpg(run.pid, signal.SIGINT)
        said = run.communicate()[1].decode()
        self.assertEqual(run.returncode, 130, said)
        self.assertRegex(said, "cut short: [0-9]+ of 100000 rows are there")
        with open(path, "rb") as file:
            rows = RowFile(lines_of_file(file), "rows.csv")
            seeds = [it.row.seed for it in rows]
        self.assertEqual((rows.torn, len(seeds) >= 3), (0, True))
        more = max(seeds) + 2
        self.assertEqual(self.done(f"{words} --seeds {more} --resume").stderr, "")
        self.assertEqual([int(row[5]) for row in self.rows() if row[5] != "seed"], [*range(more)])


if __name__ == "__main__":
    unittest.main()
