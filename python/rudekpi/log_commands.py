"""The commands `conform`, which judges your own log, and `explain`, for a refused transcript."""

from __future__ import annotations

import argparse
import pathlib
import sys
from typing import Callable, Optional, Sequence, Union

from . import log_lines, outputs
from .ages import csv_text, table_lines
from .audits import audit
from .conformance import AGE, Conformance, LogJudge, judge_blocks
from .divergences import Divergence
from .errors import BadLine, Ended
from .explanations import explain
from .findings import EARLY, UNLOCKED, Finding
from .given import read_whole
from .liveness import Waiting
from .log_inputs import Input, opened_input
from .log_merging import Merged, merged
from .log_places import where
from .move_tallies import tally_lines
from .name_files import names_in, read_names
from .numbers import counted
from .replies import Name

DONE, FAILED, BAD_WORDS, FULL, STUCK, INTERRUPTED = 0, 1, 2, 4, 5, 130
# how many rows of a table, and differences of a view, are printed
LISTED, DIFFERENCES = 20, 12
# what a divergence is, by its kind
KINDS = {
    "rule": "and broke the rule on what it saw",
    "view": "and no state shows what it saw",
    "stale": "which the rule allows on what it saw, and that was stale",
}
# makes the parser of a command: its name, what runs it, and its help
Command = Callable[[str, Callable[[argparse.Namespace], int], str], argparse.ArgumentParser]


def say(text: str) -> None:
    """Prints at once; a letter that the output's encoding lacks is escaped."""
    encoding = sys.stdout.encoding or "utf-8"
    print(text.encode(encoding, "backslashreplace").decode(encoding), flush=True)


def divergence_text(found: Divergence) -> str:
    kind = KINDS.get(found.kind, "and the rules do not allow it")
    lines = [f"{where(found.line, found.file)}: {found.wrote}, {kind}", f"    {found.event}"]
    if found.kind == "stale":
        lines += [f"  {it.text}" for it in found.differences[:DIFFERENCES]]
        more = len(found.differences) - DIFFERENCES
        lines += [f"  and {more} more"] if more > 0 else []
    lines += [f"  {text}" for text in (found.why, found.hint) if text]
    return "\n".join([*lines, *(f"    {held}" for held in found.around)])


def views_text(found: Conformance) -> list[str]:
    """What the views of moves showed, and the nodes and pairs of nodes that are worst."""
    lines = []
    if found.viewed:
        lines.append(
            f"on what the nodes saw: {counted(found.viewed, 'move')}, {found.wrong_views} wrong, "
            f"{found.stale_moves} by stale views"
        )
    lines += worst_text("nodes and rules", tally_lines(found.tallies[:LISTED], log_lines.shown), len(found.tallies))
    lines += findings_text(found)
    return lines + worst_text("stale reads", table_lines(found.ages[:LISTED], log_lines.shown), len(found.ages))


def worst_text(head: str, rows: Sequence[str], count: int) -> list[str]:
    worst = f", the worst {LISTED} of {count}" if count > LISTED else ""
    return [f"{head}{worst}:", *(f"  {row}" for row in rows)] if count else []


def findings_text(found: Conformance) -> list[str]:
    """What explains the wrong moves, or the stale reads, of each node."""
    more = len(found.findings) - LISTED
    lines = [finding_text(it) for it in found.findings[:LISTED]] + ([f"and {more} more nodes"] if more > 0 else [])
    return ["what explains them:", *(f"  {line}" for line in lines)] if lines else []


def finding_text(found: Finding) -> str:
    what = "stale read" if found.cause in (UNLOCKED, EARLY) else "wrong move"
    return f"{log_lines.shown(found.node)}, {counted(found.count, what)}: {found.text}"


def verdict_text(found: Conformance) -> str:
    moves = ", ".join(f"{count} {rule}" for rule, count in found.moves.items())
    wrong = [counted(found.divergences, "divergence")] if found.divergences else []
    wrong += [counted(found.bad_lines, "bad line")] if found.bad_lines else []
    verdict = f"not accepted, {', '.join(wrong)}" if wrong else "accepted"
    events = (
        f"{counted(found.events, 'event')}, {counted(found.edits, 'edit')}, {counted(found.faults, 'fault')}, "
        f"{counted(sum(found.moves.values()), 'move')}: {moves}"
    )
    stand = found.stand
    at_end = (
        f"at the end: {counted(stand.nodes, 'node')}, {counted(stand.edges, 'edge')}, {counted(stand.pairs, 'pair')}, "
        f"{stand.enabled} enabled; spent {stand.spent}, charge {stand.charge}, bound {found.bound}"
    )
    ended = [f"ended: {found.stopped}"] if found.stopped else []
    rest = [*skipped_lines(found), at_end, *waiting_lines(found), *views_text(found)]
    return "\n".join([*ended, f"{verdict}: {events}", *rest])


def skipped_lines(found: Conformance) -> list[str]:
    """What was skipped and is no bad line, in one line or none."""
    skipped = [counted(found.twice, "link line") + " of the other end"] if found.twice else []
    skipped += [counted(found.crossed, "pointer") + " across a removed link"] if found.crossed else []
    return [f"skipped: {', '.join(skipped)}"] if skipped else []


def waiting_lines(found: Conformance) -> list[str]:
    """The nodes that wait longest, and how many more there are."""
    if not found.waiting:
        return []
    more = found.stand.enabled - len(found.waiting)
    lines = ["enabled without a move, the longest first:", *(f"    {waiting_text(it)}" for it in found.waiting)]
    return lines + ([f"    and {more} more"] if more > 0 else [])


def waiting_text(found: Waiting) -> str:
    since = "since" if found.is_exact else "at least since"
    at = "" if found.time is None else f", time {found.time:.15g}"
    return f"{log_lines.shown(found.node)} by {found.rule}, {since} {where(found.line, found.file)}{at}"


def log_of(paths: Sequence[str]) -> Union[log_lines.Log, Merged]:
    if len(paths) > 1:
        found = merged(paths)
        return Merged({**found.logs, "-": sys.stdin.buffer}) if "-" in found.logs else found
    return sys.stdin.buffer if not paths or paths[0] == "-" else pathlib.Path(paths[0])


def seconds(text: str) -> float:
    found = float(text)
    if not 0 < found < float("inf"):
        raise ValueError(text)
    return found


def run_conform(arguments: argparse.Namespace) -> int:
    if arguments.output == "-":
        raise ValueError("a transcript goes to a file, since the verdict goes to standard output")
    if arguments.ages is not None and not arguments.views:
        raise ValueError("--ages needs --views: without it no ages are counted")
    written = [arguments.output, outputs.names_file(arguments.output), arguments.ages]
    outputs.refuse_clashes(written, [*(arguments.log or ["-"]), arguments.program])
    judge = LogJudge(
        arguments.rules,
        resync=arguments.resync,
        views=arguments.views,
        age=arguments.age,
        ignore_extra=arguments.ignore_extra,
        keeps=arguments.output is not None,
        stuck=arguments.stuck,
        on_divergence=lambda found: say(divergence_text(found)),
        on_note=lambda note: say(str(note)),
        program=arguments.program,
    )
    with opened_input(log_of(arguments.log)) as source:
        try:
            status = judged(judge, source, arguments.output, arguments.ages)
            if not arguments.stop:
                source.drain()
            return status
        except KeyboardInterrupt:
            if judge.so_far is not None:
                say(verdict_text(judge.so_far))
            print(f"! cut short after {counted(judge.events, 'event')}", file=sys.stderr)
            return INTERRUPTED


def judged(judge: LogJudge, source: Input, output: Optional[str], ages: Optional[str]) -> int:
    """Prints the verdict on a log; returns the exit status."""
    try:
        found = judge_blocks(judge, source, output)
    except BadLine as bad:
        print(f"! {bad}", file=sys.stderr, flush=True)
        return BAD_WORDS
    except Ended as ended:
        if ended.status != FULL:
            raise
        print(f"! {ended.last_line.lstrip('! ')} after {counted(judge.events, 'event')}", file=sys.stderr, flush=True)
        return FULL
    say(verdict_text(found))
    if ages is not None:
        outputs.write(ages, csv_text(found.ages, log_lines.shown))
    if found.divergences:
        return FAILED
    return BAD_WORDS if found.bad_lines else STUCK if found.stuck else DONE


def read(path: str) -> bytes:
    return sys.stdin.buffer.read() if path == "-" else read_whole(path)


def words_of_names(parser: argparse.ArgumentParser) -> None:
    parser.add_argument("--names", help="a file of the nodes' names, of which line K is that of node K")


def names_given(arguments: argparse.Namespace) -> Optional[list[Name]]:
    if arguments.names != "-":
        return None if arguments.names is None else read_names(arguments.names)
    if arguments.transcript == "-":
        raise ValueError("standard input has the transcript or the names, and not both")
    return names_in(sys.stdin.buffer.read(), "standard input")


def run_explain(arguments: argparse.Namespace) -> int:
    outputs.refuse_clashes([], [arguments.transcript, arguments.names])
    transcript = read(arguments.transcript)
    found = explain(transcript, names=names_given(arguments), program=arguments.program)
    if found is None:
        has = audit(transcript, program=arguments.program)
        say(
            f"accepted: {counted(has.entries, 'entry', 'entries')}, {counted(has.epochs, 'epoch')}, "
            f"{counted(has.moves, 'move')}"
        )
        return DONE
    say(str(found))
    return FAILED


def lines_back(text: str) -> int:
    if not text.isdecimal() or len(text) > 9:
        raise argparse.ArgumentTypeError(f"how many lines back is a whole number, and not {text!r}")
    return int(text)


def add_commands(command: Command) -> None:
    conform = command("conform", run_conform, "judges whether the rules allow the moves in the log of your own nodes")
    conform.add_argument(
        "log", nargs="*", help="files of JSON Lines; several are merged by their clocks (standard input)"
    )
    conform.add_argument("--rules", choices=("hh", "manne"), required=True, help="the rules that your nodes implement")
    conform.add_argument(
        "--resync", action="store_true", help="goes on after a divergence, taking it for a fault, and after bad lines"
    )
    conform.add_argument("--views", action="store_true", help="judges moves by what their nodes saw, and goes on")
    conform.add_argument("--ages", metavar="FILE", help="a CSV file for the ages of stale reads, with --views")
    conform.add_argument(
        "--age", type=lines_back, default=AGE, metavar="N", help=f"how many lines back stale copies are guessed ({AGE})"
    )
    conform.add_argument("--ignore-extra", action="store_true", help="ignores keys that the judge does not know")
    conform.add_argument(
        "--stop", action="store_true", help="ends at the first divergence, also if a pipe has more to read"
    )
    conform.add_argument(
        "--stuck", type=seconds, metavar="SECONDS", help="reports each node that is enabled so long without a move"
    )
    conform.add_argument("--output", help="a file for the transcript; the names go to FILE.names")
    conform.add_argument("--program", help="the program that plays")
    why = command("explain", run_explain, "explains why audit refuses a transcript")
    why.add_argument("transcript", nargs="?", default="-", help="a file (standard input)")
    words_of_names(why)
    why.add_argument("--program", help="the program that plays")
