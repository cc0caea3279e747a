"""The commands `page`, which makes a page that plays a transcript, and `picture`, with own names."""

from __future__ import annotations

import argparse
import sys
from typing import Callable

from . import audits, drawings, outputs
from .errors import Damaged
from .log_commands import names_given, read, words_of_names
from .names import names_for

DONE, FAILED = 0, 1
Command = Callable[[str, Callable[[argparse.Namespace], int], str], argparse.ArgumentParser]


def run_page(arguments: argparse.Namespace) -> int:
    refuse_clashes(arguments)
    transcript, names = read(arguments.transcript), names_given(arguments)
    try:
        audits.audit(transcript, program=arguments.program)
    except Damaged as damaged:
        print(damaged, file=sys.stderr)
        return FAILED
    text = transcript.decode()
    drawings.write_page(text, arguments.output, arguments.program, names_for(text, names))
    return DONE


def refuse_clashes(arguments: argparse.Namespace) -> None:
    outputs.refuse_clashes([arguments.output], [arguments.transcript, arguments.names, arguments.program])


def run_picture(arguments: argparse.Namespace) -> int:
    refuse_clashes(arguments)
    try:
        text = audits.picture(
            read(arguments.transcript), arguments.entry, names=names_given(arguments), program=arguments.program
        )
    except Damaged as damaged:
        print(damaged)
        return FAILED
    outputs.write(arguments.output, text)
    return DONE


def add_commands(command: Command) -> None:
    page = command("page", run_page, "a page that plays a transcript in a browser")
    page.add_argument("transcript", nargs="?", default="-", help="a file (standard input)")
    page.add_argument("--output", required=True, help="a file for the page")
    words_of_names(page)
    page.add_argument("--program", help="the program that judges")
    picture = command("picture", run_picture, "draws a network for Graphviz, by the names of a file")
    picture.add_argument("transcript", nargs="?", default="-", help="a file (standard input)")
    picture.add_argument("--entry", type=int, help="after which entry (the last one)")
    picture.add_argument("--output", help="a file (standard output)")
    words_of_names(picture)
    picture.add_argument("--program", help="the program that draws")
