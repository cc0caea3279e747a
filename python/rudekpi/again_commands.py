"""The command `again`, which plays a row of a sweep once more."""

from __future__ import annotations

import argparse
from typing import Callable, Optional

from . import drawings, outputs
from .graphs import graph_of, is_path
from .kept_graphs import folder_of, kept_graph, path_of
from .name_files import write_names
from .names import names_for
from .numbers import number_within
from .plans import file_in, play_again, row_in
from .rows import lines_of_file
from .simple_graph import Graph
from .sweeps import MOST_EXPERIMENTS

DONE = 0
Command = Callable[[str, Callable[[argparse.Namespace], int], str], argparse.ArgumentParser]


def run_again(arguments: argparse.Namespace) -> int:
    with open(arguments.rows, "rb") as file:
        found = row_in(
            lines_of_file(file),
            arguments.rows,
            number_within(arguments.number, MOST_EXPERIMENTS, "the number of a row"),
        )
    title = found.row.graph
    reads = [arguments.rows, title if is_path(title) else None, path_of(arguments.rows, title), arguments.program]
    reads.append(file_in(found.row.disturbance))
    outputs.refuse_clashes([arguments.output, outputs.names_file(arguments.output), arguments.page], reads)
    graph = graph_in(arguments, title)
    try:
        played = play_again(found.row, program=arguments.program, graph=graph)
    except ValueError as error:
        raise ValueError(f"{arguments.rows}: line {found.line}: {error}") from None
    has_numbers = played.nodes == tuple(range(1, len(played.nodes) + 1))
    if arguments.page is not None:
        names = None if has_numbers else names_for(played.transcript, played.nodes)
        drawings.write_page(played.transcript, arguments.page, arguments.program, names)
    outputs.write(arguments.output, played.transcript)
    if outputs.is_file(arguments.output) and not has_numbers:
        write_names(f"{arguments.output}.names", played.nodes)
    return DONE


def graph_in(arguments: argparse.Namespace, title: str) -> Optional[Graph]:
    """The graph of a row: kept next to the rows, made again by its word, or read again from its file.

    None if it is that of a trace, which is read later.
    """
    try:
        kept = kept_graph(arguments.rows, title)
        return kept if kept or title.startswith("trace ") else graph_of(title, undirected=arguments.undirected)
    except FileNotFoundError as error:
        raise FileNotFoundError(f"{error}; and {folder_of(arguments.rows)} keeps no graph of this title") from None


def add_commands(command: Command) -> None:
    again = command("again", run_again, "plays a row of a sweep again, and writes its transcript")
    again.add_argument("rows", help="a file that sweep wrote")
    again.add_argument("number", type=int, help="the row to play; the first is 1")
    again.add_argument("--output", help="a file for the transcript (standard output); own names go to FILE.names")
    again.add_argument("--page", help="a file for a page that plays the transcript")
    again.add_argument(
        "--undirected", action="store_true", help="takes a directed graph of a file without its directions"
    )
    again.add_argument("--program", help="the program that plays")
