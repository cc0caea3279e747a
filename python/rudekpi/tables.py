"""The table of `compare`: moves and rounds under both rule sets, with their bounds."""

from __future__ import annotations

import random
import statistics
from typing import Sequence

from .partners import NAMES as PARTNERS
from .sweeps import Row, natural

HEAD = (
    *("graph", "disturbance", "daemon", "rules", "runs", "min", "mean", "median", "95% of median", "95th", "max"),
    *("bound", "steps", "rounds", "rounds bound"),
)
# of rows with what happened to the pairs: medians, and the most of one node in any run
PARTNER_HEAD = (
    *("broken", "remade", "remade same", "steps alone", "most steps alone", "rounds alone", "most rounds alone"),
    "lost untouched",
)
# how many columns have words
WORDS = 4
RESAMPLES, SEED = 2000, 0


def interval(numbers: Sequence[float]) -> tuple[float, float]:
    """The 95 % bootstrap interval of the median of at least one number.

    The interval contains 95 % of the medians of 2,000 resamples; the seed is fixed. After Efron, "Bootstrap
    methods", 1979. No resample is made: its median is drawn as an order statistic of uniform numbers.
    """
    known, drawn = sorted(numbers), random.Random(SEED)
    medians = sorted(resampled_median(known, drawn) for _ in range(RESAMPLES))
    return medians[RESAMPLES // 40 - 1], medians[-(RESAMPLES // 40)]


def resampled_median(known: Sequence[float], drawn: random.Random) -> float:
    """The median of a resample of sorted numbers: as many draws from them, with replacement."""
    count, low = len(known), (len(known) + 1) // 2
    # the place of the lower middle draw; then, if two draws are in the middle, the place of the next one
    place = drawn.betavariate(low, count - low + 1)
    middle = known[min(count - 1, int(place * count))]
    if count % 2:
        return middle
    place += (1 - place) * (1 - drawn.random() ** (1 / (count - low)))
    return (middle + known[min(count - 1, int(place * count))]) / 2


def groups_of(rows: Sequence[Row]) -> list[tuple[tuple[str, ...], list[Row]]]:
    groups: dict[tuple[str, ...], list[Row]] = {}
    for row in rows:
        groups.setdefault((row.graph, row.disturbance, row.daemon, row.rules), []).append(row)
    return sorted(groups.items(), key=lambda item: [natural(word) for word in item[0]])


def partner_figures(group: Sequence[Row]) -> list[str]:
    """Medians of the runs' sums, and the most of one node in any run; `-` if a row lacks them."""
    figures = []
    for name in PARTNERS:
        found = [getattr(row, name) for row in group]
        is_most = name.startswith("most_") or name == "lost_untouched"
        figures.append("-" if None in found else f"{max(found) if is_most else statistics.median(found):g}")
    return figures


def rounds_bound(group: Sequence[Row]) -> str:
    """The most rounds that any of these runs may have; `-` if no bound is known."""
    bounds = [row.most_rounds for row in group]
    known = [bound for bound in bounds if bound is not None]
    return str(max(known)) if len(known) == len(bounds) else "-"


def figures_of(group: Sequence[Row]) -> list[str]:
    moves = sorted(row.moves for row in group)
    low, high = interval(moves)
    figures = [
        len(moves),
        min(moves),
        f"{statistics.mean(moves):.1f}",
        f"{statistics.median(moves):g}",
        f"{low:g}-{high:g}",
        moves[(len(moves) * 95 + 99) // 100 - 1],
        max(moves),
        max(row.bound for row in group),
        f"{statistics.median(row.steps for row in group):g}",
        f"{statistics.median(row.rounds for row in group):g}",
        rounds_bound(group),
    ]
    return [str(figure) for figure in figures]


def table_of(rows: Sequence[Row], is_markdown: bool = False) -> list[str]:
    """The lines of the table, in columns or in Markdown."""
    lines = [HEAD, *((*key, *figures_of(group)) for key, group in groups_of(rows))]
    if any(row.broken is not None for row in rows):
        more = [PARTNER_HEAD, *(partner_figures(group) for _, group in groups_of(rows))]
        lines = [(*line, *counts) for line, counts in zip(lines, more)]
    if is_markdown:
        return markdown_of(lines)
    widths = [max(map(len, column)) for column in zip(*lines)]
    return [
        "  ".join(
            text.ljust(width) if at < WORDS else text.rjust(width) for at, (text, width) in enumerate(zip(line, widths))
        )
        for line in lines
    ]


def markdown_of(lines: Sequence[Sequence[str]]) -> list[str]:
    rule = ["---" if at < WORDS else "---:" for at in range(len(lines[0]))]
    escaped = [[text.replace("\\", "\\\\").replace("|", "\\|") for text in line] for line in lines]
    return [f"| {' | '.join(line)} |" for line in (escaped[0], rule, *escaped[1:])]
