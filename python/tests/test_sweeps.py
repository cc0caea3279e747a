"""Sweeps: rows that follow from transcripts, in any executor; dying workers, interrupts, tables."""

from __future__ import annotations

import collections
import concurrent.futures
import io
import itertools
import multiprocessing
import os
import random
import signal
import time
import unittest
import unittest.mock
from typing import Any, Generator, Iterable, Iterator, Union

from lib.counted_rounds import Rounds
from rudekpi import Enabled, Network, WrongChoice, audits, daemons, disturbances, graphs, sweeps, workers
from rudekpi.replies import Name
from rudekpi.simple_graph import Graph
from rudekpi.state import State
from rudekpi.sweeps import AnyDaemon, Disturbance, Row, sweep
from rudekpi.traces import Trace, TraceEvent
from rudekpi.walks import Topology
from support import Losing, Timed

try:
    import pandas
except ImportError:
    pandas = None

RING = graphs.ring(12)


def without_time(rows: Iterable[Row]) -> list[str]:
    return sorted(str(vars(row) | {"seconds": 0}) for row in rows)


def greatest(enabled: Enabled) -> list[Name]:
    return [max(enabled)]


def wrong(enabled: Enabled) -> list[Name]:
    return []


def dies_once(enabled: Enabled) -> list[Name]:
    """Kills its process the first time, marked by a file that it leaves."""
    try:
        os.close(os.open(os.environ["RUDEKPI_TEST_DEATH"], os.O_CREAT | os.O_EXCL))
    except FileExistsError:
        return [min(enabled)]
    return dies(enabled)


def dies(enabled: Enabled) -> list[Name]:
    os.kill(os.getpid(), signal.SIGKILL)
    return []


ENDLESS = """
import os
import time
from rudekpi import graphs, sweep

def daemon(enabled):
    open(f"plays-{os.getpid()}", "w").close()
    while True:
        time.sleep(60)

if __name__ == "__main__":
    list(sweep([graphs.ring(5)], ["hh"], [daemon], range(9), processes=PROCESSES))
"""


class Rows(Timed):
    def test_of_all_that_is_asked(self) -> None:
        hits: list[Union[int, Disturbance]] = [
            0,
            Disturbance(20),
            Disturbance(9, "pointer"),
            Disturbance(9, "flag", joins=2, leaves=3),
        ]
        made = list(sweep([RING, graphs.grid(3, 3)], ["manne"], ["seeded", "synchronous", "greedy"], range(2), hits))
        self.assertEqual(len(made), 2 * 3 * 2 * 4)
        self.assertEqual(len({(row.graph, row.daemon, row.seed, row.disturbance) for row in made}), 48)
        for row in made:
            with self.subTest(row=row):
                self.assertTrue(0 <= row.moves <= row.charge <= row.bound == 2 * row.m + 3 * row.n)
                self.assertTrue(row.steps <= row.moves and row.seconds > 0 and row.rules == "manne")
                self.assertEqual(row.update + row.marry + row.seduce + row.abandon, row.moves)
                self.assertTrue(min(1, row.steps) <= row.rounds <= min(row.steps, row.n + 2 * (row.n // 2)))
                if row.daemon == "synchronous":
                    # all enabled nodes move
                    self.assertEqual(row.rounds, row.steps)
                gone = 3 if "leaves" in row.disturbance else 0
                self.assertEqual(row.n, (12 if row.graph == "ring:12" else 9) - gone)
                self.assertGreater(3 * row.pairs + 2 + gone, row.n // 2)
        start = [row for row in made if row.disturbance == "start" and row.graph == "ring:12"]
        self.assertTrue(all(row.m == 12 and row.moves >= 12 for row in start))
        self.assertEqual(
            {row.disturbance for row in made},
            {"start", "20 faults", "9 faults of pointers", "9 faults of flags, 2 joins, 3 leaves"},
        )

    def test_no_fault_of_any_registers_is_the_start(self) -> None:
        for registers in disturbances.REGISTERS:
            [made] = sweep([RING], ["manne"], ["least"], [3], [Disturbance(0, registers)])
            self.assertEqual((made.disturbance, made.moves >= 12), ("start", True))

    def test_the_natural_order_of_words(self) -> None:
        words = ["ring:9", "ring:10,2", "ring:10,10", "ring:100", "ring\u00b2"]
        self.assertEqual(sorted(reversed(words), key=sweeps.natural), words)

    def test_a_disturbance_in_words(self) -> None:
        for hit, words in [
            (Disturbance(1), "1 fault"),
            (Disturbance(1, "flag", 1, 1), "1 fault of flags, 1 join, 1 leave"),
            (Disturbance(0, "pointer", 0, 2), "2 leaves"),
        ]:
            self.assertEqual(str(hit), words)

    def held_after(self, lines: list[str]) -> Iterator[tuple[str, bool]]:
        """Each fault of a transcript, with whether it changes the register that it hits."""
        state = State()
        for line in lines:
            word, *numbers = (line.split(" = ")[0].split(" ") + [""])[1:4]
            if word in ("point", "flag"):
                node = int(numbers[0])
                held = node in state.flags if word == "flag" else state.pointers.get(node, 0)
                yield line, held != (0 if numbers[1] == "-" else int(numbers[1]))
            state.follow([line])

    def test_each_fault_changes_its_register(self) -> None:
        for registers, rules, every in itertools.product(disturbances.REGISTERS, ("hh", "manne"), (0, 2)):
            if (registers, rules) == ("flag", "hh"):
                continue
            hit = Disturbance(40, registers, every=every)
            played = sweeps.Experiment(graphs.grid(3, 3), rules, "seeded", 5, hit).played()
            with self.subTest(registers=registers, rules=rules, every=every):
                faults = list(self.held_after(played.transcript.splitlines()))
                self.assertEqual([len(faults), played.changes], [40, 40])
                self.assertEqual([line for line, is_changed in faults if not is_changed], [])
                words = {line.split(" ")[1] for line, _ in faults}
                both = {"point", "flag"} if rules == "manne" else {"point"}
                self.assertEqual(words, {"any": both, "pointer": {"point"}, "flag": {"flag"}}[registers])

    def test_faults_with_any_value_are_those_of_scramble(self) -> None:
        played = sweeps.Experiment(RING, "manne", "seeded", 5, Disturbance(40, any_value=True)).played()
        with Network("manne", 12) as net:
            with net.batch() as batch:
                for a, b in RING.edges:
                    batch.link(a, b)
            net.settle(daemons.Seeded(5))
            drawn = net.scramble(5, 40)
            self.assertEqual(len(drawn), 40)
            said = net.transcript().splitlines()[:-1]
        self.assertEqual(played.transcript.splitlines()[: len(said)], said)
        self.assertIsNone(played.changes)
        self.assertIn(False, [is_changed for _, is_changed in self.held_after(said)])

    def test_faults_where_no_register_can_change(self) -> None:
        alone = Graph("alone", (1, 2, 3), ())
        for rules, registers, changes in (
            ("hh", "any", 0),
            ("manne", "pointer", 0),
            ("manne", "any", 7),
            ("manne", "flag", 7),
        ):
            [row] = sweep([alone], [rules], ["least"], [1], [Disturbance(7, registers)])
            self.assertEqual((row.changes, row.n), (changes, 3))
        # of two linked nodes and one without links only the two have pointers that change
        [row] = sweep([Graph("pair", (1, 2, 3), ((1, 2),))], ["hh"], ["least"], [1], [Disturbance(9, leaves=0)])
        self.assertEqual(row.changes, 9)

    def test_each_change_of_a_register_can_come(self) -> None:
        """At a path's middle node: each other value of its pointer, and its flag, with their chances."""
        topology, state = Topology([1, 2, 3], [(1, 2), (2, 3)]), State("manne", 3, [1, 2, 3])
        state.point(2, 3)
        draws = disturbances.ChangingFaults("any", "manne", topology, random.Random(1))
        seen = collections.Counter(draws.draw(state) for _ in range(6000))
        wanted = {("flag", (1, 1)), ("point", (1, 2)), ("flag", (2, 1)), ("point", (2, 0)), ("point", (2, 1))}
        self.assertEqual(set(seen), wanted | {("flag", (3, 1)), ("point", (3, 2))})
        for event, share in ((("flag", (2, 1)), 1 / 6), (("point", (2, 0)), 1 / 12), (("point", (1, 2)), 1 / 6)):
            self.assertAlmostEqual(seen[event] / 6000, share, delta=0.02)

    def test_as_a_network_of_ones_own(self) -> None:
        [row] = sweep([RING], ["hh"], ["least"], [3])
        with Network("hh", 12) as net:
            with net.batch() as batch:
                for a, b in RING.edges:
                    batch.link(a, b)
            settled = net.settle(daemons.ByName())
            self.assertEqual(
                (row.steps, row.moves, row.charge, row.pairs),
                (settled.steps, settled.moves, settled.charge, len(net.matching())),
            )
            self.assertEqual(row.bound, audits.epochs(net.transcript())[-1].bound)

    def test_rounds_and_rules_by_hand(self) -> None:
        # 1 seduces 2, 2 marries; 2 updates no flag under hh; the path's third node points nowhere
        [row] = sweep([graphs.path(3)], ["hh"], ["least"])
        self.assertEqual((row.steps, row.moves, row.rounds, row.pairs), (2, 2, 1, 1))
        self.assertEqual((row.update, row.marry, row.seduce, row.abandon), (0, 1, 1, 0))
        # all at once: 1 and 2 seduce; 3 marries; 2 and 3 update; 1 abandons
        [row] = sweep([graphs.path(3)], ["manne"], ["synchronous"])
        self.assertEqual((row.steps, row.moves, row.rounds, row.pairs), (4, 6, 4, 1))
        self.assertEqual((row.update, row.marry, row.seduce, row.abandon), (2, 1, 2, 1))

    def rounds_after(self, transcript: str, entry: int) -> int:
        """How many rounds are complete after an entry, by their definition; a disturbance cuts a round off."""
        lines, state, found = transcript.splitlines(), State(), 0
        state.follow(lines[: entry + 1])
        rounds = Rounds(state)
        for line in lines[entry + 1 :]:
            before = rounds.rounds
            rounds.follow(line)
            found += max(0, rounds.rounds - before)
        return found

    def test_rounds_are_those_of_the_transcript(self) -> None:
        trace = Trace("t", (TraceEvent(0, "unlink", ("1", "2")), TraceEvent(1, "link", ("1", "2"))))
        hits = [Disturbance(), Disturbance(9), Disturbance(6, every=2), Disturbance(2, joins=2, leaves=3, cut=2)]
        hits += [Disturbance(trace=trace), Disturbance(trace=trace, every=1)]
        chosen = ["seeded", "least", "greedy", "synchronous"]
        most = 0
        for it in sweeps.experiments_of([graphs.complete(7)], ["hh", "manne"], chosen, range(3), hits):
            played = it.played()
            row = it.measured(played, 0)
            with self.subTest(row=row):
                self.assertEqual(row.rounds, self.rounds_after(played.transcript, played.before.entry))
                if row.most_rounds is not None:
                    self.assertLessEqual(row.rounds, row.most_rounds)
                most = max(most, row.rounds)
        self.assertGreater(most, 7)

    def test_the_same_in_every_executor(self) -> None:
        chosen: list[AnyDaemon] = ["seeded", "least", "synchronous", greatest]
        words = [RING, graphs.star(5)], ["hh", "manne"], chosen, range(4), [0, 7]
        wanted = without_time(sweep(*words))
        self.assertEqual(len(wanted), 2 * 4 * 2 * (3 + 4), "no synchronous daemon under hh")
        with concurrent.futures.ThreadPoolExecutor(3) as threads:
            self.assertEqual(without_time(sweep(*words, executor=threads)), wanted)
        with concurrent.futures.ProcessPoolExecutor(2) as processes:
            self.assertEqual(without_time(sweep(*words, executor=processes)), wanted)

    def test_of_nothing(self) -> None:
        self.assertEqual(list(sweep([])), [])
        [row] = sweep([graphs.path(0)], faults=[5])
        self.assertEqual((row.n, row.m, row.moves, row.bound), (0, 0, 0, 0))
        wrong_words: list[dict[str, Any]] = [dict(faults=-1), dict(registers="x"), dict(joins=-1)]
        for words in wrong_words:
            self.assertRaises(ValueError, Disturbance, **words)

    def test_errors_of_an_experiment_are_raised(self) -> None:
        self.assertRaises(WrongChoice, list, sweep([RING], ["hh"], [wrong]))
        self.assertRaises(FileNotFoundError, list, sweep([RING], program="/no/such/program"))

    def test_experiments_that_are_none_are_raised_at_once(self) -> None:
        wrong_values: list[dict[str, Any]] = [
            dict(daemons=["fair"]),
            dict(rules=["x"]),
            dict(seeds=[-1]),
            dict(seeds=[2**64]),
            dict(faults=[1_000_001]),
            dict(faults=[Disturbance(joins=3, leaves=len(RING.nodes))]),
            dict(processes=0),
            dict(seeds=range(10**30)),
            dict(seeds=itertools.count()),
            dict(seeds=range(1001), faults=range(1000)),
            dict(graphs=[RING, graphs.Graph("ring:12", (1, 2), ())]),
        ]
        for words in wrong_values:
            with self.subTest(words):
                self.assertRaises(ValueError, sweep, **{"graphs": [RING], **words})
        wrong_types: list[dict[str, Any]] = [
            dict(graphs=["ring:5"]),
            dict(graphs="ring:5"),
            dict(graphs=[RING], daemons=[daemons.ByName]),
            dict(graphs=[RING], daemons=[None]),
        ]
        for words in wrong_types:
            with self.subTest(words):
                self.assertRaises(TypeError, sweep, **words)
        left = sweeps.experiments_of(
            [RING], ["hh", "manne"], ["seeded", "synchronous"], [0], [Disturbance(1, "flag"), Disturbance(1)]
        )
        self.assertEqual(
            [(it.rules, it.daemon, it.disturbance.registers) for it in left],
            [
                ("hh", "seeded", "any"),
                ("manne", "seeded", "flag"),
                ("manne", "seeded", "any"),
                ("manne", "synchronous", "flag"),
                ("manne", "synchronous", "any"),
            ],
        )

    def test_csv(self) -> None:
        made = list(sweep([RING], ["hh", "manne"], ["seeded"], range(3)))
        file = io.StringIO()
        self.assertEqual(list(sweeps.write_csv(made, file)), made)
        self.assertEqual(
            file.getvalue().splitlines()[0],
            "graph,rules,n,m,daemon,seed,disturbance,steps,moves,rounds,update,marry,seduce,abandon,charge,bound,pairs,"
            "seconds,changes,digest",
        )
        file.seek(0)
        self.assertEqual(sweeps.read_csv(file), made)
        self.assertRaises(ValueError, sweeps.read_csv, io.StringIO("a,b\n1,2\n"))

    @unittest.skipUnless(pandas, "no pandas")
    def test_frames(self) -> None:
        made = list(sweep([RING], ["hh"], ["seeded"], range(3)))
        frame = sweeps.frame_of(made)
        self.assertEqual(list(frame.columns), list(sweeps.COLUMNS))
        self.assertEqual(list(frame["moves"]), [row.moves for row in made])


class Failing(concurrent.futures.Executor):
    def submit(self, task: object, *words: object) -> concurrent.futures.Future[Any]:  # type: ignore[override]
        future: concurrent.futures.Future[Any] = concurrent.futures.Future()
        try:
            raise ValueError("of the task")
        except ValueError as error:
            future.set_exception(error)
        return future


class Workers(Timed):
    def test_a_result_that_a_cluster_loses_is_made_again(self) -> None:
        executor = Losing()
        made = list(sweep([RING], ["hh"], ["seeded"], range(2), executor=executor))
        self.assertEqual(sorted(row.seed for row in made), [0, 1])
        self.assertEqual(executor.asked, 3)

    def test_results_that_are_lost_again_and_again(self) -> None:
        with self.assertRaisesRegex(sweeps.LostExperiments, "2 experiments are lost") as caught:
            list(sweep([RING], ["hh"], ["seeded"], range(2), executor=Losing(range(99))))
        self.assertEqual(sorted(it.seed for it in caught.exception.experiments), [0, 1])

    def test_an_error_of_the_task_is_no_death(self) -> None:
        self.assertRaisesRegex(
            ValueError, "of the task", list, sweep([RING], ["hh"], ["seeded"], range(2), executor=Failing())
        )

    def test_one_that_dies_costs_its_task_which_is_tried_again(self) -> None:
        os.environ["RUDEKPI_TEST_DEATH"] = os.path.join(self.folder(), "died")
        self.addCleanup(os.environ.pop, "RUDEKPI_TEST_DEATH")
        made = list(sweep([RING], ["hh"], ["seeded", dies_once], range(12)))
        self.assertTrue(os.path.exists(os.environ["RUDEKPI_TEST_DEATH"]))
        self.assertEqual(collections.Counter(row.daemon for row in made), {"seeded": 12, "dies_once": 12})

    def test_a_pool_of_the_callers_own_that_breaks_is_not_replaced(self) -> None:
        with concurrent.futures.ProcessPoolExecutor(2) as executor:
            self.assertRaises(
                concurrent.futures.BrokenExecutor,
                list,
                sweep([RING], ["hh"], ["seeded", dies], range(12), executor=executor),
            )

    def test_a_task_of_which_the_workers_die_twice_is_lost_alone(self) -> None:
        made = []
        with self.assertRaisesRegex(sweeps.LostExperiments, "1 experiment is lost.*dies seed 0") as caught:
            for row in sweep([RING], ["hh"], [dies, "seeded", "least"], range(1)):
                made.append(row)
        self.assertEqual(sorted(row.daemon for row in made), ["least", "seeded"])
        self.assertEqual(len(caught.exception.experiments), 1)

    def test_an_interrupt_leaves_the_rows_so_far(self) -> None:
        made = []
        with self.assertRaises(KeyboardInterrupt):
            for row in sweep([graphs.grid(10, 10)], ["manne"], ["least"], range(500)):
                made.append(row)
                if len(made) == 5:
                    signal.raise_signal(signal.SIGINT)
        self.assertGreaterEqual(len(made), 5)
        self.assertLess(len(made), 500)

    def test_an_interrupt_ends_experiments_that_take_long(self) -> None:
        for processes, count in ((None, min(os.cpu_count() or 1, 9)), (2, 2)):
            with self.subTest(processes=processes):
                # once all play, none is starting, when Ctrl-C would end it with another message
                said = self.expect_end_by_interrupt(ENDLESS.replace("PROCESSES", str(processes)), "plays-*", count)
                self.assertEqual((said.splitlines()[-1], said.count("Traceback")), ("KeyboardInterrupt", 1), said)

    def test_a_caller_who_stops_leaves_no_process(self) -> None:
        rows = sweep([RING], ["hh"], ["least"], range(500))
        assert isinstance(rows, Generator)
        self.assertEqual(next(rows).graph, "ring:12")
        self.assertNotEqual(multiprocessing.active_children(), [])
        rows.close()
        self.expect_no_process()
        self.assertRaises(WrongChoice, list, sweep([RING], ["hh"], ["least", wrong], range(50)))
        self.expect_no_process()

    def expect_no_process(self) -> None:
        # Python 3.14 and later do not wait for killed processes; if they stay, the time limit fails this test
        while multiprocessing.active_children():
            time.sleep(0.01)

    def test_no_more_processes_than_experiments(self) -> None:
        with unittest.mock.patch.object(
            workers, "ProcessPoolExecutor", wraps=concurrent.futures.ProcessPoolExecutor
        ) as made:
            self.assertEqual(len(list(sweep([RING], ["hh"], ["least"], range(2), processes=1000))), 2)
        self.assertEqual(made.call_args.args, (2,))

    def test_tasks_take_about_a_second(self) -> None:
        numbers: Any = range(1000)
        tasks = sweeps.Tasks(numbers, 4)
        self.assertEqual(tasks.size(), 1)
        tasks.count, tasks.seconds = 100, 2.0
        self.assertEqual(tasks.size(), 50)
        self.assertEqual(next(tasks), list(range(50)))
        tasks.count, tasks.seconds = 3, 20.0
        self.assertEqual(tasks.size(), 1)
        tasks.count, tasks.seconds = 1000, 1.0
        self.assertEqual(len(next(tasks)), 238, "what is left is for all four")


if __name__ == "__main__":
    unittest.main()
