"""The command `bursts`, which lists what happened from silence to silence."""

from __future__ import annotations

import argparse
import csv
import sys
from typing import Callable

from . import outputs
from .bursts import bursts, head_of, row_of
from .errors import Damaged
from .log_commands import names_given, read, words_of_names

DONE, FAILED = 0, 1
Command = Callable[[str, Callable[[argparse.Namespace], int], str], argparse.ArgumentParser]


def run_bursts(arguments: argparse.Namespace) -> int:
    outputs.refuse_clashes([], [arguments.transcript, arguments.names])
    try:
        found = bursts(
            read(arguments.transcript),
            names=names_given(arguments),
            program=arguments.program,
            partners=arguments.partners,
        )
    except Damaged as damaged:
        print(damaged, file=sys.stderr)
        return FAILED
    has_nodes = not arguments.no_nodes
    print(head_of(has_nodes, arguments.partners))
    csv.writer(sys.stdout, lineterminator="\n").writerows(row_of(burst, has_nodes) for burst in found)
    return DONE


def add_commands(command: Command) -> None:
    of_bursts = command("bursts", run_bursts, "lists moves and summed costs from silence to silence, as CSV")
    of_bursts.add_argument("transcript", nargs="?", default="-", help="a file (standard input)")
    words_of_names(of_bursts)
    of_bursts.add_argument("--no-nodes", action="store_true", help="leaves out the two columns that list nodes")
    of_bursts.add_argument(
        "--partners", action="store_true", help="adds columns: pairs broken and remade, nodes without a partner"
    )
    of_bursts.add_argument("--program", help="the program that judges")
