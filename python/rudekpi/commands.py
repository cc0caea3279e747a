"""The bench's commands: `python3 -m rudekpi sweep`, `compare`, `worst`, `check`, `shell` and others.

The others are `json`, `conform`, `explain`, `bursts` and `again`.
"""

from __future__ import annotations

import argparse
import contextlib
import math
import re
import socket
import sys
import warnings
from concurrent.futures import Executor
from typing import Any, Callable, Iterable, Iterator, Optional, Sequence

from . import (
    again_commands,
    burst_commands,
    daemons,
    json_lines,
    log_commands,
    outputs,
    page_commands,
    script_words,
    shell,
    sweeps,
    tables,
)
from .audits import audit
from .errors import Damaged
from .given import read_whole
from .graphs import Graph, decimal, graph_of, is_path
from .labels import visible
from .name_files import write_names
from .schedules import Longest, longest
from .network import Network
from .numbers import counted
from .plans import read_plan
from .progress import shown
from .racks import read_racks
from .resumption import RowTarget, is_row_file, rows_of_file
from .disturbances import REGISTERS, Disturbance
from .sweeps import Row
from .traces import read_trace

DONE, FAILED, BAD_WORDS, INTERRUPTED = 0, 1, 2, 130
REACHED_SECONDS = 5
# how many names are told in a line
MOST_TOLD = 5
IN_PLAN = (
    *("--graph", "--undirected", "--rules", "--daemon", "--seeds", "--first-seed", "--faults", "--registers"),
    *("--joins", "--leaves", "--cut", "--add", "--rewire", "--move", "--every", "--any-value"),
    *("--trace", "--racks"),
)
# the flags of a sweep that plays, in addition to those of a plan
IN_SWEEP = ("--csv", "--resume", "--force", "--maximum", "--partners", "--processes", "--dask", "--program")
# graphs, rules, daemons, seeds and disturbances
Words = tuple[Sequence[Graph], Sequence[str], Sequence[str], Sequence[int], Sequence[Disturbance]]
MADE = (
    "a file (edge list, .csv, .col, .metis, .graphml, .json), or path:N ring:N star:N complete:N grid:RxC gnp:N,P,SEED "
    "regular:N,D,SEED disk:N,R,SEED"
)


def read(path: str) -> bytes:
    return sys.stdin.buffer.read() if path == "-" else read_whole(path)


def listed(text: str) -> list[str]:
    words = [word for word in text.split(",") if word]
    if not words:
        raise argparse.ArgumentTypeError("no word is given")
    return words


def least(fewest: int) -> Callable[[str], int]:
    """A reader of whole numbers from `fewest` on."""

    def read(text: str) -> int:
        if not (text.isascii() and text.isdigit()) or int(text) < fewest:
            raise argparse.ArgumentTypeError(f"{text!r} is no number from {fewest} on")
        return int(text)

    return read


def counts(text: str) -> list[int]:
    return [least(0)(word) for word in listed(text)]


def graph_given(parser: argparse.ArgumentParser, text: str, undirected: bool) -> Graph:
    """The graph that a word names; prints warnings about it. If there is none, the parser exits."""
    try:
        with warnings.catch_warnings(record=True) as told:
            warnings.simplefilter("always")
            made = graph_of(text, undirected=undirected)
    except (OSError, ValueError) as error:
        parser.error(f"argument --graph: {error}")
    for warning in told:
        print(f"! {warning.message}", file=sys.stderr)
    return made


def words_of_graph(parser: argparse.ArgumentParser) -> None:
    parser.add_argument(
        "--undirected", action="store_true", help="takes a directed graph of a file without its directions"
    )
    parser.set_defaults(parser=parser)


def read_graphs(arguments: argparse.Namespace) -> None:
    """Turns the words of --graph into graphs, once the whole command line is read."""
    if arguments.graph is None:
        if arguments.plan is None and arguments.trace is None:
            arguments.parser.error("the following arguments are required: --graph, --trace, or a plan")
        return
    words = arguments.graph if isinstance(arguments.graph, list) else [arguments.graph]
    made = [graph_given(arguments.parser, text, arguments.undirected) for text in words]
    arguments.graph = made if isinstance(arguments.graph, list) else made[0]


def words_of_sweep(parser: argparse.ArgumentParser, rules: str) -> None:
    parser.add_argument(
        "plan", nargs="?", help="a file with what to play, .toml or .json; or rows that are there, .csv"
    )
    parser.add_argument("--graph", action="append", help=f"{MADE}; may be given again")
    words_of_graph(parser)
    parser.add_argument("--rules", type=listed, default=rules, help="hh, manne or hh,manne (%(default)s)")
    parser.add_argument(
        "--daemon",
        type=listed,
        default="seeded",
        help=f"some of {','.join([*daemons.WORDS, 'probability:P'])} (%(default)s)",
    )
    parser.add_argument("--seeds", type=least(1), default=10, help="how many seeds (%(default)s)")
    parser.add_argument("--first-seed", type=least(0), default=0, help="the first seed (%(default)s)")
    parser.add_argument(
        "--faults",
        type=counts,
        default="0",
        help="how many faults hit the silent network, as 10,50; 0: it settles from the start (%(default)s)",
    )
    parser.add_argument(
        "--registers",
        choices=REGISTERS,
        default="any",
        help="which registers the faults write; flags only under manne (%(default)s)",
    )
    parser.add_argument(
        "--any-value",
        action="store_true",
        help="faults write any value, also the one that is held; else each changes its register",
    )
    parser.add_argument("--joins", type=least(0), default=0, help="how many nodes join, with their edges (%(default)s)")
    parser.add_argument("--leaves", type=least(0), default=0, help="how many nodes leave (%(default)s)")
    words_of_links(parser)
    parser.add_argument("--csv", help="a file for the rows, written one by one (standard output)")
    parser.add_argument("--resume", action="store_true", help="makes only the rows that the file of --csv lacks")
    parser.add_argument("--force", action="store_true", help="begins the file of --csv anew if it is there")
    parser.add_argument(
        "--maximum", action="store_true", help="adds a column with the size of a maximum matching; needs networkx"
    )
    parser.add_argument(
        "--partners", action="store_true", help="adds columns: pairs broken and remade, nodes without a partner"
    )
    parser.add_argument("--plot", help="a file for a plot, .svg, .png or .pdf; needs matplotlib")
    parser.add_argument("--plotted", choices=("moves", "rounds"), default="moves", help="what it draws (%(default)s)")
    parser.add_argument("--processes", type=least(1), help="how many processes (one a processor)")
    parser.add_argument(
        "--dask", metavar="tcp://HOST:PORT", help="a Dask scheduler, whose workers play; needs distributed"
    )
    parser.add_argument("--program", help="the program that plays")


def words_of_links(parser: argparse.ArgumentParser) -> None:
    parser.add_argument("--cut", type=least(0), default=0, help="how many links are cut (%(default)s)")
    parser.add_argument("--add", type=least(0), default=0, help="how many links are added (%(default)s)")
    parser.add_argument("--rewire", type=least(0), default=0, help="how many links are moved at one end (%(default)s)")
    parser.add_argument(
        "--move",
        type=length,
        default=0,
        metavar="R",
        help="how far each node of a disk graph walks; its links come and go by distance (%(default)s)",
    )
    parser.add_argument(
        "--every",
        type=least(0),
        default=0,
        metavar="M",
        help="how many moves come between two disturbances; 0: all come at once (%(default)s)",
    )
    parser.add_argument(
        "--trace", metavar="FILE", help="a file of links and nodes that come and go at times, as CSV or JSON Lines"
    )
    parser.add_argument(
        "--racks", metavar="FILE", help="a file of groups of nodes; each fault, join or leave hits a whole group"
    )


def length(text: str) -> float:
    try:
        found = decimal(text)
    except ValueError:
        found = -1
    if not 0 <= found < math.inf:
        raise argparse.ArgumentTypeError(f"{text!r} is no length from 0 on")
    return found


def disturbances_of(arguments: argparse.Namespace) -> list[Disturbance]:
    counts = (
        arguments.joins,
        arguments.leaves,
        arguments.cut,
        arguments.add,
        arguments.rewire,
        arguments.move,
        arguments.every,
    )
    trace = read_trace(arguments.trace) if arguments.trace is not None else None
    racks = read_racks(arguments.racks) if arguments.racks is not None else None
    return [
        Disturbance(count, arguments.registers, *counts, arguments.any_value, trace=trace, racks=racks)
        for count in arguments.faults
    ]


def reach(address: str) -> None:
    """Raises `OSError` at once if no scheduler answers at the address; distributed would wait silently."""
    kind, host, port = re.fullmatch(r"(?:(\w+)://)?(.*?)(?::([0-9]+))?", address).groups()  # type: ignore[union-attr]
    if kind not in (None, "tcp", "tls") or not port:
        return
    try:
        socket.create_connection((host.strip("[]"), int(port)), REACHED_SECONDS).close()
    except (OSError, OverflowError) as error:
        raise OSError(f"no scheduler at {address}: {error}") from None


@contextlib.contextmanager
def executor_of(arguments: argparse.Namespace) -> Iterator[Optional[Executor]]:
    if arguments.dask:
        try:
            import distributed
        except ImportError:
            raise ImportError("--dask wants distributed, which is not there") from None
        reach(arguments.dask)
        client_of: Any = distributed.Client
        with client_of(arguments.dask) as client:
            yield client.get_executor()
    else:
        yield None


def words_to_play(arguments: argparse.Namespace) -> Words:
    if arguments.plan is None:
        seeds, hits = range(arguments.first_seed, arguments.first_seed + arguments.seeds), disturbances_of(arguments)
        graphs = [hits[0].trace.start()] if arguments.graph is None and hits[0].trace else arguments.graph
        return graphs, arguments.rules, arguments.daemon, seeds, hits
    refuse_beside(arguments, IN_PLAN, "stands in the plan, and not beside it")
    plan = read_plan(arguments.plan)
    return plan.graphs, plan.rules, plan.daemons, plan.seeds, plan.disturbances


def refuse_beside(arguments: argparse.Namespace, flags: Iterable[str], why: str) -> None:
    """Raises `ValueError` if one of these flags is given."""
    for flag in flags:
        name = flag[2:].replace("-", "_")
        is_usual = getattr(arguments, name) in (None, arguments.parser.get_default(name))
        # argparse converts defaults that are texts
        if not is_usual and getattr(arguments, name) != usual_of(arguments.parser, name):
            raise ValueError(f"{flag} {why}")


def usual_of(parser: argparse.ArgumentParser, name: str) -> object:
    [action] = (it for it in parser._actions if it.dest == name)
    return parser._get_value(action, action.default) if isinstance(action.default, str) else action.default


def experiments_given(arguments: argparse.Namespace, words: Words) -> list[sweeps.Experiment]:
    """The experiments to play; tells of those that are left out. Raises `ValueError` if there are none."""
    experiments = sweeps.experiments_of(*words)
    most = math.prod(map(len, words))
    if len(experiments) < most:
        why = "under hh no two nodes move at once, and there are no flags"
        if not experiments:
            raise ValueError(f"there is nothing to play: {why}")
        print(f"! left out: {counted(most - len(experiments), 'experiment')}, since {why}", file=sys.stderr)
    if arguments.plot:
        from . import plots

        plots.check(arguments.plot, len(words[0]) * len(words[4]))
    return experiments


def refuse_clashes(
    arguments: argparse.Namespace, graphs: Sequence[Graph] = (), hits: Sequence[Disturbance] = ()
) -> None:
    """Raises `ValueError` if rows or a plot would be written over a file that is read."""
    files = [it.title for hit in hits for it in (hit.trace, hit.racks) if it]
    outputs.refuse_clashes(
        [arguments.csv, arguments.plot], [arguments.plan, *map(path_of, graphs), *files, arguments.program]
    )


def path_of(graph: Graph) -> Optional[str]:
    """The path of the file of a graph that was read."""
    return graph.title if is_path(graph.title) else None


def play_sweep(arguments: argparse.Namespace, rows: list[Row], is_written: bool) -> int:
    """Plays a sweep, and writes each row as it comes unless it goes nowhere; returns the exit status."""
    words = words_to_play(arguments)
    refuse_clashes(arguments, words[0], words[4])
    target = RowTarget(arguments.csv, arguments.resume, arguments.force)
    experiments = experiments_given(arguments, words)
    target.check({it.graph.title: it.graph for it in experiments}, arguments.maximum, arguments.partners, words[4])
    rows += target.rows
    with executor_of(arguments) as executor:
        found = sweeps.sweep(
            *words,
            executor=executor,
            program=arguments.program,
            processes=arguments.processes,
            there=rows,
            maximum=arguments.maximum,
            partners=arguments.partners,
        )
        left = len(experiments) - len({row.key for row in rows} & {it.key for it in experiments})
        try:
            found.wait()
            with target.opened() if is_written else contextlib.nullcontext() as file:
                written: Iterable[Row] = sweeps.write_csv(found, file, bool(target.columns)) if file else found
                rows.extend(shown(written, left))
        except KeyboardInterrupt:
            print(f"! cut short: {target.count(rows)} of {counted(len(experiments), 'row')} are there", file=sys.stderr)
            return INTERRUPTED
    target.sort(rows, (it.key for it in experiments), found.columns)
    return DONE


def rows_given(arguments: argparse.Namespace) -> Optional[list[Row]]:
    """The rows of a file that is given instead of a plan; None if it is none of rows."""
    if arguments.plan is None or not is_row_file(arguments.plan):
        return None
    refuse_beside(arguments, (*IN_PLAN, *IN_SWEEP), f"is for rows that are to be played, and {arguments.plan} has rows")
    refuse_clashes(arguments)
    if arguments.plot:
        from . import plots

        plots.check(arguments.plot)
    return rows_of_file(arguments.plan)


def run_sweep(arguments: argparse.Namespace) -> int:
    there = rows_given(arguments)
    if there is not None and not arguments.plot:
        raise ValueError(
            f"the rows of {arguments.plan} are there: --plot draws them, and `compare {arguments.plan}` prints a table"
        )
    rows = there or []
    status = DONE if there is not None else play_sweep(arguments, rows, True)
    plot_rows(arguments, rows)
    return status


def plot_rows(arguments: argparse.Namespace, rows: list[Row]) -> None:
    if arguments.plot and rows:
        from . import plots

        plots.of_rows(rows, arguments.plot, arguments.plotted)


def run_compare(arguments: argparse.Namespace) -> int:
    there = rows_given(arguments)
    rows = there or []
    status = DONE if there is not None else play_sweep(arguments, rows, arguments.csv is not None)
    print("\n".join(tables.table_of(rows, arguments.markdown)))
    plot_rows(arguments, rows)
    return status


def run_worst(arguments: argparse.Namespace) -> int:
    """Writes the longest schedule as a script, after the script was played and its transcript judged."""
    names = outputs.names_file(arguments.output)
    outputs.refuse_clashes([arguments.output, names], [path_of(arguments.graph), arguments.program])
    found = longest(arguments.graph, arguments.rules, seconds=arguments.seconds, seed=arguments.seed)
    transcript = found.play(program=arguments.program)
    known = (
        f"the longest of all, in {found.states} states"
        if found.is_proved
        else f"the longest found, in {found.states} tries"
    )
    print(
        f"{found.graph.title}, {found.rules}: {found.moves} moves, {known}; the bound is {found.bound}"
        f"{'' if arguments.transcript else f'; to play it: rudekpi run {found.setting}'}{nodes_told(found, names)}",
        file=sys.stderr,
    )
    outputs.write(arguments.output, transcript if arguments.transcript else found.script())
    if names and not found.has_own_numbers and outputs.is_file(arguments.output):
        write_names(names, found.graph.nodes)
    return DONE


def nodes_told(found: Longest, names: Optional[str]) -> str:
    """Which nodes the numbers of a schedule are, if these are not their names."""
    if found.has_own_numbers:
        return ""
    count = len(found.graph.nodes)
    first = ", ".join(visible(node) for node in found.graph.nodes[:MOST_TOLD])
    return f"; the nodes 1 to {count} are {first}{', ..' if count > MOST_TOLD else ''}{f': {names}' if names else ''}"


def run_check(arguments: argparse.Namespace) -> int:
    outputs.refuse_clashes([], [arguments.script])
    script = read(arguments.script)
    count = 0
    for count, (number, why) in enumerate(script_words.faults_of(script), 1):
        print(f"line {number}: {why}")
    if not count:
        lines = script.count(b"\n") + (not script.endswith(b"\n") and bool(script))
        print(
            f"each of {counted(lines, 'line')} is a command, or empty"
            if lines != 1
            else "the line is a command, or empty"
        )
    return FAILED if count else DONE


def run_shell(arguments: argparse.Namespace) -> int:
    with Network(arguments.rules, arguments.nodes, present=arguments.present, program=arguments.program) as net:
        return shell.talk(net)


def run_json(arguments: argparse.Namespace) -> int:
    outputs.refuse_clashes([], [arguments.transcript, arguments.names])
    transcript = read(arguments.transcript)
    try:
        audit(transcript, program=arguments.program)
    except Damaged as damaged:
        print(damaged, file=sys.stderr)
        return FAILED
    for line in json_lines.lines_of(transcript.decode(), log_commands.names_given(arguments)):
        print(line)
    return DONE


def parser_of() -> argparse.ArgumentParser:
    parser = argparse.ArgumentParser(allow_abbrev=False, prog="rudekpi", description=__doc__)
    commands = parser.add_subparsers(dest="command", required=True)

    def command(name: str, run: Callable[[argparse.Namespace], int], text: str) -> argparse.ArgumentParser:
        made = commands.add_parser(name, help=text, description=text, allow_abbrev=False)
        made.set_defaults(run=run)
        return made

    words_of_sweep(command("sweep", run_sweep, "plays networks by the thousand and writes a CSV row for each"), "manne")
    compare = command("compare", run_compare, "prints a table of the moves under both rule sets, with the bound")
    words_of_sweep(compare, "hh,manne")
    compare.add_argument("--markdown", action="store_true", help="writes the table in Markdown")
    worst = command("worst", run_worst, "writes the longest schedule of a network as a script")
    worst.add_argument("--graph", required=True, help=MADE)
    words_of_graph(worst)
    worst.add_argument("--rules", choices=("hh", "manne"), default="manne", help="the rules (%(default)s)")
    worst.add_argument(
        "--seconds",
        type=least(0),
        default=10,
        help="seconds of a search, if there are too many states to look at all (%(default)s)",
    )
    worst.add_argument("--seed", type=least(0), default=0, help="the seed of that search (%(default)s)")
    worst.add_argument("--transcript", action="store_true", help="writes the transcript instead of the script")
    worst.add_argument("--output", help="a file (standard output)")
    worst.add_argument("--program", help="the program that plays")
    check = command("check", run_check, "explains which lines of a script are no commands, and why")
    check.add_argument("script", nargs="?", default="-", help="a file (standard input)")
    session = command("shell", run_shell, "plays a network line by line, and explains typing errors")
    session.add_argument(
        "--rules",
        choices=("hh", "manne"),
        default="manne",
        help="the rules (%(default)s)",
    )
    session.add_argument(
        "--nodes",
        type=int,
        required=True,
        help="how many nodes there may be, at most 65535",
    )
    session.add_argument("--present", type=int, help="how many of them are present at the start (all)")
    session.add_argument("--program", help="the program that plays")
    objects = command("json", run_json, "writes a transcript as JSON Lines, an object for each entry")
    objects.add_argument("transcript", nargs="?", default="-", help="a file (standard input)")
    log_commands.words_of_names(objects)
    objects.add_argument("--program", help="the program that judges")
    log_commands.add_commands(command)
    burst_commands.add_commands(command)
    again_commands.add_commands(command)
    page_commands.add_commands(command)
    return parser


def run(words: Optional[Sequence[str]] = None) -> int:
    arguments = parser_of().parse_args(words)
    if hasattr(arguments, "graph"):
        read_graphs(arguments)
    status: int = arguments.run(arguments)
    return status
