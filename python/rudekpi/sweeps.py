"""Experiments by the thousand: networks that are disturbed and settle.

A sweep has an experiment for each combination of graph, rules, daemon, seed and disturbance.
"""

from __future__ import annotations

import contextlib
import itertools
import math
import os
import random
import re
import time
from collections import deque
from concurrent.futures import Executor
from dataclasses import asdict, dataclass
from typing import Any, Generator, Iterable, Optional, Sequence, Union

from . import daemons, maximum_matchings
from .audits import judged_epochs
from .bursts import bound_of_costs, read_after
from .choices import Daemon
from .disturbances import Disturbance as Disturbance
from .disturbances import Events, units_of
from .enabled_nodes import watch_after
from .errors import Lost, RudekpiError
from .graphs import from_networkx, is_networkx
from .kept_graphs import Rows
from .simple_graph import Graph
from .network import Network
from .numbers import MOST_SEED, MOST_TURNS, counted, number_within
from .program import Program, found_program
from .plays import Player, disturb_at_once, disturb_one_by_one
from .replies import Name, Status
from .rows import COLUMNS as COLUMNS, read_csv as read_csv, write_csv as write_csv  # noqa: F401
from .rows import Row as Row, columns_of
from .workers import Handing, count_of

AnyDaemon = Union[daemons.AnyDaemon, Daemon, str]
MOST_EXPERIMENTS = 1_000_000
TASK_SECONDS = 1.0
LEFT = re.compile(r"^[0-9]+ leave [0-9]+ = ok$", re.MULTILINE)


class LostExperiments(Lost):
    """Workers died twice over these experiments; all others of the sweep are done."""

    def __init__(self, experiments: list[Experiment]) -> None:
        super().__init__(
            f"{counted(len(experiments), 'experiment is', 'experiments are')} lost, "
            f"since their workers died twice: {experiments[0].told()}, .."
        )
        self.experiments = experiments

    def __reduce__(self) -> tuple[object, ...]:
        return type(self), (self.experiments,)


@dataclass(frozen=True)
class Played:
    """A run: its transcript, the status before and after the daemon's part, and its steps and moves."""

    transcript: str
    before: Status
    after: Status
    steps: int
    moves: int
    # the names, in the order of the transcript's numbers
    nodes: tuple[Name, ...] = ()
    # how many faults changed a register, None if they were drawn with any value
    changes: Optional[int] = None
    # the entry in silence after which the disturbances come; that of `before` if there are none
    quiet: int = 0


@dataclass(frozen=True)
class Experiment:
    """One network to be disturbed and settled.

    The daemon is a word of `daemons.WORDS`, a daemon, or a function.
    """

    graph: Graph
    rules: str
    daemon: AnyDaemon
    seed: int
    disturbance: Disturbance
    program: Program = None
    # whether the row has the size of a maximum matching
    maximum: bool = False
    # whether the row has what happened to the pairs
    partners: bool = False

    def __post_init__(self) -> None:
        if not isinstance(self.graph, Graph):
            raise TypeError(f"{self.graph!r} is no graph: rudekpi.graphs makes them, graph_of of words")
        hit = self.disturbance
        if self.rules not in ("hh", "manne"):
            raise ValueError(f"rules are 'hh' or 'manne', and not {self.rules!r}")
        number_within(self.seed, MOST_SEED, "a seed")
        number_within(hit.faults, MOST_TURNS, "a number of faults")
        if isinstance(self.daemon, str):
            daemons.named(self.daemon, self.seed)
        else:
            daemons.check_daemon(self.daemon)
        hit.check(self.graph)

    def told(self) -> str:
        return f"{self.graph.title} {self.rules} {self.daemon_word()} seed {self.seed} {self.disturbance}"

    @property
    def key(self) -> tuple[object, ...]:
        return (self.graph.title, self.rules, self.daemon_word(), self.seed, str(self.disturbance))

    def daemon_word(self) -> str:
        return (
            self.daemon if isinstance(self.daemon, str) else getattr(self.daemon, "__name__", None) or repr(self.daemon)
        )

    def run(self) -> Row:
        """Plays the experiment, and makes its row from the transcript, which the program judges."""
        began = time.perf_counter()
        return self.measured(self.played(), began)

    def played(self) -> Played:
        drawn, wanted = random.Random(self.seed), self.disturbance
        nodes = list(self.graph.nodes)
        drawn.shuffle(nodes)
        joining = self.joining(nodes)
        names = wanted.names_in(self.graph)
        with Network(self.rules, names, present=len(nodes), program=self.program) as net:
            self.begin(net, joining)
            daemon = daemons.named(self.daemon, self.seed) if isinstance(self.daemon, str) else self.daemon
            events = Events(wanted, self.graph, joining, drawn)
            quiet = None
            if not wanted.is_nothing:
                net.settle(daemons.Seeded(self.seed))
                quiet = net._session.entries
                if not wanted.is_one_by_one:
                    disturb_at_once(net, events, self.seed)
            before, player = net.status(), Player(net, daemon)
            if wanted.is_one_by_one:
                disturb_one_by_one(net, events, self.seed, player)
            player.settle()
            after = net.status()
        changes = None if wanted.any_value and wanted.faults else events.changes
        quiet = before.entry if quiet is None else quiet
        return Played(net.transcript(), before, after, player.steps, player.moves, names, changes, quiet)

    def joining(self, nodes: list[Name]) -> set[Name]:
        """The nodes that join, the first of these or of random groups."""
        wanted = self.disturbance
        if not wanted.racks:
            return set(nodes[: wanted.joins])
        units = units_of(wanted, self.graph)
        places = {name: place for place, name in enumerate(nodes)}
        found = sorted(units, key=lambda unit: places[self.graph.nodes[unit[0] - 1]])[: wanted.joins]
        return {self.graph.nodes[number - 1] for unit in found for number in unit}

    def measured(self, played: Played, began: float) -> Row:
        """The row of a run, whose transcript is judged here.

        Raises `RudekpiError` if the transcript has other moves than its daemon made.
        """
        before, after = played.before, played.after
        epochs = judged_epochs(played.transcript, program=self.program)
        if self.partners:
            watch, counts = read_after(played.transcript, played.quiet, epochs)
        else:
            watch, counts = watch_after(played.transcript, before.entry), None
        later = [epoch for epoch in epochs if epoch.start is not None and epoch.start > before.entry]
        moves, last = sum(watch.moves.values()), epochs[-1]
        told = sum(epoch.moves for epoch in later) if later else last.moves - before.spent
        # without a disturbance the daemon moves only in an epoch that had no move before
        rounds = sum(epoch.rounds for epoch in later) if later else last.rounds if told else 0
        is_of_daemon = moves == told == played.moves and last.moves == after.spent
        if not is_of_daemon or (later and not self.disturbance.is_one_by_one):
            raise RudekpiError(f"{self.told()}: the daemon itself disturbed the network")
        charge, bound = before.charge, last.bound
        if self.disturbance.is_one_by_one:
            # from silence to silence all moves are within the costs
            cost = sum(epoch.cost or 0 for epoch in later)
            charge += cost
            left = len(LEFT.findall("\n".join(played.transcript.splitlines()[before.entry + 1 :])))
            bound = bound_of_costs(self.rules, cost, after.pairs - before.pairs, left)
        return Row(
            self.graph.title,
            self.rules,
            last.nodes,
            last.edges,
            self.daemon_word(),
            self.seed,
            str(self.disturbance),
            watch.steps,
            moves,
            rounds,
            watch.moves["update"],
            watch.moves["marry"],
            watch.moves["seduce"],
            watch.moves["abandon"],
            charge,
            bound,
            after.pairs,
            round(time.perf_counter() - began, 6),
            played.changes,
            self.graph.digest,
            maximum_matchings.size_of(watch.state.edges()) if self.maximum else None,
            **(asdict(counts) if counts else {}),
        )

    def begin(self, net: Network, joining: set[Name]) -> None:
        with net.batch() as batch:
            for node in self.graph.nodes:
                if node in joining:
                    batch.leave(node)
            for a, b in self.graph.edges:
                if a not in joining and b not in joining:
                    batch.link(a, b)


def run_all(experiments: Sequence[Experiment]) -> list[Row]:
    return [experiment.run() for experiment in experiments]


def experiments_of(
    graphs: Iterable[Any],
    rules: Iterable[str],
    daemons: Iterable[AnyDaemon],
    seeds: Iterable[int],
    disturbances: Iterable[Union[int, Disturbance]],
    program: Program = None,
    maximum: bool = False,
    partners: bool = False,
) -> list[Experiment]:
    """All experiments of a sweep.

    The rules `hh` have no flags, and one node moves at a time. So experiments on flags are left out under
    `hh`, and those with a daemon that moves several nodes: `synchronous`, `local`, `probability:P`. Raises
    `ValueError` for wrong words or numbers, for two graphs with one title, and for more than 1,000,000
    experiments, which are counted before any is made.
    """
    of = [it if isinstance(it, Disturbance) else Disturbance(it) for it in disturbances]
    lists = [first_of(it) for it in (graphs, rules, daemons, seeds, of)]
    lists[0] = [from_networkx(graph) if is_networkx(graph) else graph for graph in lists[0]]
    if math.prod(map(len, lists)) > MOST_EXPERIMENTS:
        raise ValueError(f"a sweep has at most {MOST_EXPERIMENTS} experiments: fewer seeds, graphs or disturbances")
    check_titles(lists[0])
    every = itertools.product(*lists)
    lawful = (
        words for words in every if not (words[1] == "hh" and (is_of_manne(words[2]) or words[4].registers == "flag"))
    )
    return [
        Experiment(graph, rule_set, daemon, seed, disturbance, program, maximum, partners)
        for graph, rule_set, daemon, seed, disturbance in lawful
    ]


def first_of(given: Iterable[Any]) -> Sequence[Any]:
    """The first of these, at most one more than a sweep may have experiments."""
    if isinstance(given, range):
        return given[: MOST_EXPERIMENTS + 1]
    return list(itertools.islice(given, MOST_EXPERIMENTS + 1))


def check_titles(graphs: Sequence[Any]) -> None:
    """Raises `ValueError` if two different graphs share a title: rows and plots tell graphs by titles."""
    known: dict[str, Graph] = {}
    for graph in graphs:
        if isinstance(graph, Graph) and known.setdefault(graph.title, graph) != graph:
            raise ValueError(f"two graphs have the title {graph.title!r}: networkx.Graph(name=..) gives one")


def is_of_manne(daemon: AnyDaemon) -> bool:
    """Whether a daemon lets several nodes move at once. Raises `ValueError` for an unknown word."""
    return isinstance(daemons.named(daemon) if isinstance(daemon, str) else daemon, daemons.OF_MANNE)


def sweep(
    graphs: Iterable[Any],
    rules: Iterable[str] = ("manne",),
    daemons: Iterable[AnyDaemon] = ("seeded",),
    seeds: Iterable[int] = (0,),
    faults: Iterable[Union[int, Disturbance]] = (0,),
    *,
    executor: Optional[Executor] = None,
    program: Program = None,
    processes: Optional[int] = None,
    there: Iterable[Row] = (),
    maximum: bool = False,
    partners: bool = False,
) -> Rows[Row]:
    """A row for each graph, rules, daemon, seed and disturbance, in the order of completion.

    A graph may be one of networkx. A disturbance is a `Disturbance`, or a number of faults. The executor is
    any of `concurrent.futures`, or that of a cluster whose workers have this package and the program
    (`distributed.Client().get_executor()`, `mpi4py.futures`). By default `processes` processes of this
    machine play, or one for each processor. Experiments whose rows are in `there` are not played. With
    `maximum` each row has the size of a maximum matching, by networkx, and with `partners` what happened to the
    pairs: see `PartnerCounts`. Raises `ValueError` for wrong
    arguments, and `ImportError` if networkx is missing.

    Experiments are handed out in tasks of about a second. If a task's worker dies, the task is tried once
    more. If the second worker dies too, the other tasks are done, and `LostExperiments` is raised at the end.
    The caller's own process pool breaks if one of its processes dies: the pool is not replaced, and raises
    its `BrokenExecutor`. An error of an experiment is raised unchanged. If the caller stops, no more tasks
    are handed out, and processes started here are ended.
    """
    if processes is not None and processes < 1:
        raise ValueError(f"there is one process or more, and not {processes}")
    known = {row.key for row in there}
    if maximum:
        maximum_matchings.check()
    every = experiments_of(graphs, rules, daemons, seeds, faults, program, maximum, partners)
    experiments, played = [it for it in every if it.key not in known], {it.graph.title: it.graph for it in every}
    for graph in played.values():
        _ = graph.digest  # found once, before it goes to workers
    if executor is not None:
        return Rows(rows_of(experiments, executor), played.values(), columns_of(maximum, partners))
    # built and named once, before any worker looks for it
    found_program(program)
    workers = max(1, min(processes or os.cpu_count() or 1, len(experiments)))
    return Rows(rows_of(experiments, workers), played.values(), columns_of(maximum, partners))


class Tasks:
    """Tasks of about a second, judged by the rows so far; each at most one worker's share of what is left."""

    def __init__(self, experiments: Iterable[Experiment], workers: int) -> None:
        self.experiments, self.workers = deque(experiments), workers
        self.count, self.seconds = 0, 0.0

    def __iter__(self) -> Tasks:
        return self

    def __next__(self) -> list[Experiment]:
        if not self.experiments:
            raise StopIteration
        size = min(self.size(), -(-len(self.experiments) // self.workers))
        return [self.experiments.popleft() for _ in range(size)]

    def size(self) -> int:
        return max(1, int(TASK_SECONDS * self.count / self.seconds)) if self.seconds else 1

    def add(self, rows: list[Row]) -> None:
        self.count, self.seconds = self.count + len(rows), self.seconds + sum(row.seconds for row in rows)


def rows_of(experiments: list[Experiment], workers: Union[Executor, int]) -> Generator[Row, None, None]:
    tasks, lost = Tasks(experiments, count_of(workers)), []
    handing: Handing[list[Experiment]] = Handing(tasks, lambda task: (run_all, task), workers)
    with contextlib.closing(handing.done()) as done:
        for task, future in done:
            if not future:
                lost += task
                continue
            rows = future.result()
            tasks.add(rows)
            yield from rows
    if lost:
        raise LostExperiments(lost)


def natural(word: str) -> list[tuple[int, str]]:
    """The sort key of a word: 5 comes before 10."""
    parts = re.split("([0-9]+)", word)
    return [(int(part), "") if place % 2 else (0, part) for place, part in enumerate(parts)]


def frame_of(rows: Iterable[Row]) -> Any:
    """The rows as a `pandas.DataFrame`. Needs pandas, else raises `ImportError`."""
    try:
        import pandas
    except ImportError:
        raise ImportError("a frame wants pandas, which is not there") from None
    found = [asdict(row) for row in rows]
    has_maximum, has_partners = (any(row[name] is not None for row in found) for name in ("maximum", "broken"))
    return pandas.DataFrame(found, columns=list(columns_of(has_maximum, has_partners)))
