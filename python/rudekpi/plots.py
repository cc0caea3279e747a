"""Pictures of experiments. They need matplotlib, and raise `ImportError` if it is missing."""

from __future__ import annotations

import io
import math
import os
import textwrap
from collections import Counter
from typing import Any, Callable, Iterable, NamedTuple, Optional, Sequence, Union

from . import rules as rule_sets
from .files import write_whole
from .given import Given, bytes_of
from .graphs import family_of
from .replays import parts_of
from .state import State
from .sweeps import Row, natural

Path = Union[str, "os.PathLike[str]"]
# a graph and a disturbance, or a daemon and rules
Pair = tuple[str, str]
COLOURS = ("#0072b2", "#e69f00", "#009e73", "#cc79a7", "#56b4e9", "#d55e00", "#000000")
OF_RULES = {"hh": COLOURS[0], "manne": COLOURS[5]}
BOUND = "#777777"
MOST_PANELS, ACROSS = 60, 4
# the height of the legend, in inches
LEGEND = 0.6
# a bound above this multiple of a panel's moves is written at the top, not drawn, so that the moves can be seen
MOST_ABOVE = 4
ABOVE = "bound \u2191: above the axis"
NO_BOUND = "no bound: disturbances came one by one"
# a sign for each daemon, as they come in natural order
SIGNS = "os^Dv<>pXP*hd"
# sizes that differ by more than this factor are on a logarithmic axis
MOST_LINEAR = 4


class Figures(NamedTuple):
    """What a plot draws of each run: a count, and the proved bound on it, None if there is none."""

    word: str
    of: Callable[[Row], int]
    bound: Callable[[Row], Optional[int]]


PLOTTED = {
    "moves": Figures("moves", lambda row: row.moves, lambda row: row.bound),
    "rounds": Figures("rounds", lambda row: row.rounds, lambda row: row.most_rounds),
}
MOVES = PLOTTED["moves"]


def figures_named(word: str) -> Figures:
    """The figures with this name. Raises `ValueError` for another word than those of `PLOTTED`."""
    if word not in PLOTTED:
        raise ValueError(f"a plot draws one of {', '.join(PLOTTED)}, and not {word!r}")
    return PLOTTED[word]


def figure_of(width: float, height: float) -> Any:
    """An empty figure of matplotlib, in inches, that needs no screen."""
    try:
        from matplotlib.figure import Figure
    except ImportError:
        raise ImportError("a plot needs matplotlib, which is not there") from None
    return Figure(figsize=(width, height), layout="constrained")


def check(path: Path, panels: int = 1) -> None:
    """Checks that a picture can be made, before long work for it begins.

    Raises `ImportError` if matplotlib is missing, `ValueError` for an unknown file extension or too many
    panels, and `FileNotFoundError` if there is no such folder.
    """
    known = figure_of(1, 1).canvas.get_supported_filetypes()
    end = os.path.splitext(path)[1][1:].lower()
    if end not in known:
        raise ValueError(f"{os.fspath(path)!r} is no name of a picture: it ends in one of {', '.join(sorted(known))}")
    folder = os.path.dirname(os.path.abspath(path))
    if not os.path.isdir(folder):
        raise FileNotFoundError(f"there is no folder {folder}")
    check_panels(panels)


def check_panels(count: int) -> None:
    if count > MOST_PANELS:
        raise ValueError(
            f"{count} panels, one for each graph and disturbance; a picture has at most {MOST_PANELS}: plot fewer"
        )


def panels_of(rows: Sequence[Row]) -> dict[Pair, dict[Pair, list[Row]]]:
    """The rows by graph and disturbance, then by daemon and rules, in natural order."""
    if not rows:
        raise ValueError("no rows, no plot")
    found: dict[Pair, dict[Pair, list[Row]]] = {}
    for row in rows:
        found.setdefault((row.graph, row.disturbance), {}).setdefault((row.daemon, row.rules), []).append(row)
    return {key: in_order(found[key]) for key in in_order(found)}


def groups_of(panels: dict[Pair, dict[Pair, list[Row]]]) -> list[Pair]:
    return list(in_order({key: None for panel in panels.values() for key in panel}))


def in_order(found: dict[Pair, Any]) -> dict[Pair, Any]:
    return {key: found[key] for key in sorted(found, key=lambda pair: [natural(word) for word in pair])}


def of_rows(rows: Sequence[Row], path: Path, plotted: str = "moves") -> None:
    """Writes a picture of each run's moves, with a panel and its bounds for each graph and disturbance.

    In a panel each daemon with its rules has a place on the axis. Runs with equal moves are side by side, and
    a line shows the median. A bound of at most four times the panel's moves is drawn; any other is a number
    at the top, with an arrow. With `plotted="rounds"` the picture has each run's rounds, with their bounds;
    runs whose disturbances came one by one have none, and the picture says so. Raises `ValueError` if there
    are no rows, more than 60 panels, or another word is given.
    """
    save(panels_figure(rows, figures_named(plotted)), path)


def save(figure: Any, path: Path) -> None:
    """Writes a picture, whole or not at all. Raises `OSError`, and `ValueError` for an unknown extension."""
    made = io.BytesIO()
    figure.savefig(made, format=os.path.splitext(path)[1][1:].lower(), metadata=date_of(path))
    write_whole(path, made.getvalue())


def panels_figure(rows: Sequence[Row], what: Figures = MOVES) -> Any:
    panels = panels_of(rows)
    check_panels(len(panels))
    groups = groups_of(panels)
    tops = tops_of(panels, what)
    columns = columns_of(list(panels))
    lines = -(-len(panels) // columns)
    width = max(2.4, 0.9 + 0.55 * len(groups))
    figure = figure_of(max(4.5, columns * width), LEGEND + lines * 2.9)
    drawn = {fits(group, panel, what) for panel in panels.values() for group in panel.values()}
    body = below_legend(figure, what, {row.rules for row in rows}, bounds=drawn)
    axes = body.subplots(lines, columns, squeeze=False).flatten()
    titles = titles_of({graph for graph, _ in panels})
    for place, ((graph, disturbance), panel) in enumerate(panels.items()):
        draw_panel(axes[place], panel, groups, tops[graph, disturbance], what)
        axes[place].set_title(f"{titles[graph]}\n{plain(disturbance)}", fontsize="small")
        if place % columns == 0:
            axes[place].set_ylabel(what.word)
    for unused in axes[len(panels) :]:
        unused.set_axis_off()
    return figure


def columns_of(panels: Sequence[Pair]) -> int:
    """How many panels a row has: with several disturbances one for each, and a row for each graph."""
    graphs, disturbances = {graph for graph, _ in panels}, {disturbance for _, disturbance in panels}
    is_table = len(panels) == len(graphs) * len(disturbances) and len(disturbances) > 1
    if is_table and len(disturbances) <= ACROSS:
        return len(disturbances)
    return min(len(panels), ACROSS)


def most_of(panel: dict[Pair, list[Row]], what: Figures) -> int:
    """The most moves, or rounds, of a run in a panel, at least 1."""
    return max([1, *(what.of(row) for group in panel.values() for row in group)])


def bounds_of(group: Iterable[Row], what: Figures) -> list[int]:
    """The bounds of the runs that have one."""
    return [bound for bound in map(what.bound, group) if bound is not None]


def fits(group: Sequence[Row], panel: dict[Pair, list[Row]], what: Figures) -> Optional[bool]:
    """Whether the bounds of some runs are near enough to be drawn in their panel; None if they have none."""
    bounds = bounds_of(group, what)
    return max(bounds) <= MOST_ABOVE * most_of(panel, what) if bounds else None


def tops_of(panels: dict[Pair, dict[Pair, list[Row]]], what: Figures = MOVES) -> dict[Pair, float]:
    """How far each panel's axis reaches: to its most moves, and to each bound that is drawn.

    Panels of one disturbance share an axis if theirs differ at most by a factor of two.
    """
    reach = {}
    for key, panel in panels.items():
        groups = [group for group in panel.values() if fits(group, panel, what)]
        bounds = [bound for group in groups for bound in bounds_of(group, what)]
        reach[key] = float(max([most_of(panel, what), *bounds]))
    tops = {}
    for key in panels:
        like = [reach[other] for other in panels if other[1] == key[1]]
        tops[key] = max(like) if max(like) <= 2 * min(like) else reach[key]
    return tops


def draw_panel(axes: Any, panel: dict[Pair, list[Row]], groups: Sequence[Pair], top: float, what: Figures) -> None:
    """The runs of one network, a place for each group; the axis reaches to `top`."""
    axes.set_ylim(-0.04 * top, top * (1.08 if all(fits(group, panel, what) for group in panel.values()) else 1.25))
    axes.set_xlim(-0.6, len(groups) - 0.4)
    for place, key in enumerate(groups):
        if key in panel:
            draw_runs(axes, place, panel[key], 0.8, what)
            draw = draw_bounds if fits(panel[key], panel, what) else tell_bounds
            draw(axes, place, bounds_of(panel[key], what), 0.9)
    axes.set_xticks(range(len(groups)), [f"{plain(daemon)}\n{rules}" for daemon, rules in groups], fontsize="x-small")
    if max(len(daemon) for daemon, _ in groups) > 9:
        axes.tick_params(axis="x", labelrotation=60)
    axes.locator_params(axis="y", integer=True, nbins=6)
    axes.tick_params(axis="y", labelsize="x-small")


def draw_runs(axes: Any, place: float, group: Sequence[Row], width: float, what: Figures, sign: str = "o") -> None:
    """A dot for each run, and a line at the median."""
    at, colour = sorted(map(what.of, group)), OF_RULES[group[0].rules]
    across = [place + aside for aside in asides(at, width)]
    axes.scatter(across, at, s=9, alpha=0.6, color=colour, linewidths=0, marker=sign)
    middle = (at[(len(at) - 1) // 2] + at[len(at) // 2]) / 2
    axes.plot([place - width / 3, place + width / 3], [middle, middle], color="#000000", linewidth=1)


def asides(numbers: Sequence[int], width: float) -> list[float]:
    """How far aside each dot is, so that equal numbers can be counted."""
    counts, seen = Counter(numbers), Counter[int]()
    step = min(width / 12, width / max(counts.values()))
    found = []
    for number in numbers:
        found.append((seen[number] - (counts[number] - 1) / 2) * step)
        seen[number] += 1
    return found


def draw_bounds(axes: Any, place: float, bounds: Sequence[int], width: float) -> None:
    """The bounds at one place: a line; or two lines with a band between them, if the bounds differ."""
    if not bounds:
        return
    low, high = min(bounds), max(bounds)
    ends = [place - width / 2, place + width / 2]
    for bound in {low, high}:
        axes.plot(ends, [bound, bound], color=BOUND, linewidth=1.2)
    if low < high:
        axes.fill_between(ends, low, high, color=BOUND, alpha=0.2, linewidth=0)


def tell_bounds(axes: Any, place: float, bounds: Sequence[int], _: float) -> None:
    """The bounds at one place, as numbers at the top, since they are above it; or that there are none."""
    low, high = min(bounds, default=0), max(bounds, default=0)
    text = f"bound\n\u2191 {low}" if low == high else f"bound\n\u2191 {low} to\n{high}"
    text = text if bounds else "no\nbound"
    axes.annotate(
        text, (place, 0.99), xycoords=("data", "axes fraction"), ha="center", va="top", fontsize=6, color=BOUND
    )


def over_graphs(rows: Sequence[Row], path: Path, plotted: str = "moves") -> None:
    """Writes a picture of the moves of each run over graphs of growing size, or of the rounds, as `of_rows`.

    Graphs of one family, such as `ring:N`, are at their numbers of nodes, on an axis that is logarithmic if
    these differ by more than a factor of four. Other graphs, and several disturbances of a graph, have a place
    each, without a scale, in the order of their sizes; the axis says which. The sign shows the daemon. The axis
    of the moves is logarithmic, but linear below 1 if a run has no moves. Raises `ValueError` if there are no
    rows, or another word is given.
    """
    save(growth_figure(rows, figures_named(plotted)), path)


def growth_figure(rows: Sequence[Row], what: Figures = MOVES) -> Any:
    found = panels_of(rows)
    panels = dict(sorted(found.items(), key=lambda item: max(row.n for rows in item[1].values() for row in rows)))
    groups = groups_of(panels)
    daemons = list(dict.fromkeys(daemon for daemon, _ in groups))
    signs = {daemon: SIGNS[at % len(SIGNS)] for at, daemon in enumerate(daemons)}
    # as wide as the legend at least
    figure = figure_of(max(4.5 + len(signs), 1 + len(panels) * (0.3 + 0.4 * len(groups))), 4.4)
    has_bounds = {None if what.bound(row) is None else True for row in rows}
    axes = below_legend(figure, what, {row.rules for row in rows}, signs, has_bounds).subplots()
    axes.set_ylabel(what.word)
    set_heights(axes, rows, what)
    places = set_places(axes, list(panels))
    gap = min([after - before for before, after in zip(places, places[1:])], default=1.0)
    width = 0.8 * gap / len(groups)
    for at, panel in zip(places, panels.values()):
        for number, key in enumerate(groups):
            if key in panel:
                place = at + (number - (len(groups) - 1) / 2) * width
                draw_runs(axes, place, panel[key], width * 0.8, what, signs[key[0]])
                draw_bounds(axes, place, bounds_of(panel[key], what), width)
    axes.set_xlim(places[0] - 0.55 * gap, places[-1] + 0.55 * gap)
    return figure


def set_heights(axes: Any, rows: Sequence[Row], what: Figures) -> None:
    """The axis of the moves, with all runs and bounds inside it, also those at 0."""
    counts = [what.of(row) for row in rows]
    least, most = min(counts), max([1, *counts, *bounds_of(rows, what)])
    if least:
        axes.set_yscale("log")
        axes.set_ylim(least / 3, 1.3 * most)
    else:
        axes.set_yscale("symlog", linthresh=1)
        axes.set_ylim(-0.4, 1.3 * most)
    axes.yaxis.set_major_formatter("{x:g}")


def set_places(axes: Any, panels: Sequence[Pair]) -> list[float]:
    """Puts the panels on an axis, by size if they are of one family; returns their places, ascending."""
    sizes = sizes_of(panels)
    if sizes is None:
        titles = titles_of({graph for graph, _ in panels})
        names = [f"{titles[graph]}\n{plain(disturbance)}" for graph, disturbance in panels]
        axes.set_xticks(range(len(panels)), names, fontsize="x-small")
        axes.set_xlabel("graphs in the order of their sizes, without a scale", fontsize="x-small")
        return [float(place) for place in range(len(panels))]
    family, numbers = sizes
    is_wide = max(numbers) > MOST_LINEAR * max(1, min(numbers))
    places = [math.log2(max(1, number)) if is_wide else float(number) for number in numbers]
    hits = [plain(disturbance) for _, disturbance in panels]
    names = [f"{number}\n{hit}" if len(set(hits)) > 1 else str(number) for number, hit in zip(numbers, hits)]
    axes.set_xticks(places, names, fontsize="x-small")
    after = "" if len(set(hits)) > 1 else f" after {hits[0]}" if hits[0] != "start" else " from the start"
    axes.set_xlabel(f"nodes N of {plain(family)}{after}{', logarithmic' if is_wide else ''}", fontsize="x-small")
    return places


def sizes_of(panels: Sequence[Pair]) -> Optional[tuple[str, list[int]]]:
    """The family and the sizes of graphs, ascending; None if they are of several, or two have one size."""
    found = [family_of(graph) for graph, _ in panels]
    known = [it for it in found if it is not None]
    numbers = [size for _, size in known]
    if len(known) < len(panels) or len({family for family, _ in known}) > 1 or len(set(numbers)) < len(numbers):
        return None
    return (known[0][0], numbers) if numbers == sorted(numbers) else None


def below_legend(
    figure: Any,
    what: Figures,
    rules: Iterable[str],
    signs: Optional[dict[str, str]] = None,
    bounds: Iterable[Optional[bool]] = (True,),
) -> Any:
    """The part of a figure below the legend of its colours, signs and lines.

    `bounds` has True if bounds are drawn, False if some are numbers at the top, and None if some are missing.
    """
    from matplotlib.lines import Line2D

    marks = [
        Line2D([], [], linestyle="", marker="o", markersize=4, color=OF_RULES[name], label=f"a run, {name}")
        for name in sorted(rules)
    ]
    marks += [
        Line2D([], [], linestyle="", marker=sign, markersize=4, color="#000000", fillstyle="none", label=plain(daemon))
        for daemon, sign in (signs or {}).items()
    ]
    marks += [Line2D([], [], color="#000000", linewidth=1, label="median")]
    found = set(bounds)
    marks += [Line2D([], [], color=BOUND, linewidth=1.2, label="bound")] * (True in found)
    marks += [Line2D([], [], linestyle="", label=ABOVE)] * (False in found)
    height = figure.get_figheight()
    head, body = figure.subfigures(2, 1, height_ratios=[LEGEND, height - LEGEND])
    title = f"{what.word} until silence" + f"; {NO_BOUND}" * (None in found)
    size = "small" if None in found else None
    head.legend(
        handles=marks,
        loc="center",
        ncols=len(marks),
        fontsize="x-small",
        frameon=False,
        title=title,
        title_fontsize=size,
    )
    return body


def plain(text: str) -> str:
    """A text without formulas for matplotlib."""
    return text.replace("$", r"\$")


def titles_of(graphs: Iterable[str]) -> dict[str, str]:
    """A short title for each graph: the end of a long one, or all of it in lines if two ends are equal."""
    cut = {title: title if len(title) <= 32 else f"..{title[-30:]}" for title in graphs}
    if len(set(cut.values())) < len(cut):
        cut = {title: "\n".join(textwrap.wrap(title, 32)) for title in cut}
    return {title: plain(short) for title, short in cut.items()}


def charges_of(transcript: str) -> list[tuple[int, int, bool]]:
    """For each state after a disturbance or a step: moves so far, charge, and whether it was no step."""
    state, moves, found = State(), 0, []
    for part in parts_of(transcript):
        state.follow(part)
        words = part[0].split(" ", 2)
        is_step = words[1] == "step" and " = refused " not in part[0]
        if is_step:
            moves += len(part[0].partition(" = ")[2].split(" "))
        if is_step or part[0].endswith(" = ok") or len(part) > 1:
            found.append((moves, rule_sets.charge(state), not is_step))
    return found


def of_run(transcript: Given, path: Path) -> None:
    """Writes a picture of the charge over the moves of a single run; a disturbance lets the charge rise."""
    figure = figure_of(7, 4.2)
    axes = figure.add_subplot(title="the charge of a run", xlabel="moves", ylabel="charge")
    charges = charges_of(bytes_of(transcript).decode())
    axes.step([moves for moves, _, _ in charges], [charge for _, charge, _ in charges], where="post", color=COLOURS[0])
    disturbed = [(moves, charge) for moves, charge, is_disturbed in charges if is_disturbed]
    if disturbed:
        axes.scatter(*zip(*disturbed), s=10, color=COLOURS[1], label="edit, fault or base")
        axes.legend(fontsize="small")
    save(figure, path)


def date_of(path: Path) -> Any:
    """Metadata that leave the date out of an SVG, so that the same rows make the same picture."""
    return {"Date": None} if os.fspath(path).lower().endswith(".svg") else None
