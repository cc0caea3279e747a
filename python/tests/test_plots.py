"""Plots of sweeps: each run is in its place, each bound with the runs that it holds for."""

from __future__ import annotations

import itertools
import math
import os
import pathlib
import unittest
from typing import Any

from rudekpi import plots
from rudekpi.graphs import family_of
from rudekpi.sweeps import Row
from support import Timed

try:
    import matplotlib
except ImportError:
    matplotlib = None


def row(
    graph: str = "ring:9",
    rules: str = "hh",
    daemon: str = "seeded",
    seed: int = 0,
    hit: str = "5 faults",
    n: int = 9,
    moves: int = 4,
    bound: int = 27,
    rounds: int = 1,
) -> Row:
    return Row(graph, rules, n, 9, daemon, seed, hit, 1, moves, rounds, 0, 0, moves, 0, 9, bound, 4, 0.1)


def named(figure: Any) -> dict[str, Any]:
    return {axes.get_title(): axes for axes in figure.get_axes() if axes.get_title()}


def runs_of(axes: Any) -> list[tuple[float, ...]]:
    """The place on the axis, and the moves."""
    return [tuple(map(float, point)) for dots in axes.collections[:] if is_dots(dots) for point in dots.get_offsets()]


def is_dots(drawn: object) -> bool:
    return type(drawn).__name__ == "PathCollection"


def bounds_of(axes: Any) -> list[tuple[float, ...]]:
    """Each bound's ends and height."""
    lines = [line for line in axes.get_lines() if line.get_color() == plots.BOUND]
    return sorted((*map(float, line.get_xdata()), float(line.get_ydata()[0])) for line in lines)


def notes_of(axes: Any) -> list[str]:
    return [it.get_text() for it in axes.texts if "bound" in it.get_text()]


def legend_of(figure: Any) -> list[str]:
    """The legend's title and words."""
    [legend] = [it for part in figure.subfigs for it in part.legends]
    return [legend.get_title().get_text(), *(it.get_text() for it in legend.get_texts())]


@unittest.skipUnless(matplotlib, "no matplotlib")
class Panels(Timed):
    engines = ("program",)

    def test_a_panel_for_each_graph_and_disturbance(self) -> None:
        words = itertools.product(("ring:9", "gnp:9,0.5,1"), ("5 faults", "10 faults"), ("hh", "manne"))
        rows = [row(graph, rules, hit=hit) for graph, hit, rules in words]
        figure = plots.panels_figure(rows)
        # graphs of equal size differ, 5 comes before 10, and each graph has its own line
        self.assertEqual(
            list(named(figure)),
            ["gnp:9,0.5,1\n5 faults", "gnp:9,0.5,1\n10 faults", "ring:9\n5 faults", "ring:9\n10 faults"],
        )
        self.assertEqual(plots.columns_of(list(plots.panels_of(rows))), 2)
        for axes in named(figure).values():
            self.assertEqual(len(runs_of(axes)), 2)

    def test_each_run_stands_by_its_daemon_and_rules(self) -> None:
        rows = [
            row(rules=rules, daemon=daemon, seed=seed, moves=10 * place + seed % 3)
            for place, (daemon, rules) in enumerate([("age", "hh"), ("age", "manne"), ("seeded", "hh")])
            for seed in range(60)
        ]
        [axes] = named(plots.panels_figure(rows)).values()
        self.assertEqual([it.get_text() for it in axes.get_xticklabels()], ["age\nhh", "age\nmanne", "seeded\nhh"])
        runs = runs_of(axes)
        self.assertEqual(sorted(moves for _, moves in runs), sorted(float(it.moves) for it in rows))
        for at, moves in runs:
            self.assertEqual(round(at), moves // 10)
            self.assertLess(abs(at - round(at)), 0.45)
        # no two hide each other
        self.assertEqual(len(set(runs)), len(rows))

    def test_bounds_are_drawn_where_they_hold(self) -> None:
        rows = [row("ring:9", moves=8, bound=27), row("ring:9", "manne", moves=9, bound=45)]
        rows += [row("ring:8", n=8, moves=7, bound=24), row("ring:8", "manne", n=8, moves=9, bound=40, seed=1)]
        rows += [row("ring:8", "manne", n=8, moves=9, bound=36, seed=2)]
        # four times the most moves of each panel is 36: only the bounds under hh are drawn
        panels = named(plots.panels_figure(rows))
        self.assertEqual(bounds_of(panels["ring:9\n5 faults"]), [(-0.45, 0.45, 27.0)])
        self.assertEqual(bounds_of(panels["ring:8\n5 faults"]), [(-0.45, 0.45, 24.0)])
        self.assertEqual(notes_of(panels["ring:9\n5 faults"]), ["bound\n\u2191 45"])
        self.assertEqual(notes_of(panels["ring:8\n5 faults"]), ["bound\n\u2191 36 to\n40"])
        near = [row(it.graph, it.rules, moves=3 * it.moves, bound=it.bound, seed=it.seed) for it in rows]
        panels = named(plots.panels_figure(near))
        wide = [(place - 0.45, place + 0.45) for place in range(2)]
        self.assertEqual(bounds_of(panels["ring:9\n5 faults"]), [(*wide[0], 27.0), (*wide[1], 45.0)])
        self.assertEqual(bounds_of(panels["ring:8\n5 faults"]), [(*wide[0], 24.0), (*wide[1], 36.0), (*wide[1], 40.0)])
        self.assertEqual([notes_of(axes) for axes in panels.values()], [[], []])

    def test_the_axis_reaches_as_far_as_what_is_drawn(self) -> None:
        for moves, bound, least, most in [
            (0, 0, 1, 2),
            (3, 5000, 3, 4),
            (900, 1000, 1000, 1100),
            (900, 9000, 900, 1200),
        ]:
            [axes] = named(plots.panels_figure([row(moves=moves, bound=bound)])).values()
            low, high = axes.get_ylim()
            with self.subTest(moves=moves, bound=bound):
                self.assertLess(low, 0)
                self.assertTrue(least < high < most, high)

    def test_panels_of_one_disturbance_have_one_axis_if_they_are_near(self) -> None:
        rows = [row("ring:9", moves=20, bound=900), row("ring:8", moves=30, bound=900)]
        rows += [
            row("ring:9", moves=200, bound=900, hit="90 faults"),
            row("ring:8", moves=30, bound=900, hit="90 faults"),
        ]
        tops = plots.tops_of(plots.panels_of(rows))
        self.assertEqual(
            tops,
            {
                ("ring:8", "5 faults"): 30,
                ("ring:9", "5 faults"): 30,
                ("ring:8", "90 faults"): 30,
                ("ring:9", "90 faults"): 200,
            },
        )

    def test_rounds_with_their_bounds(self) -> None:
        rounds = plots.PLOTTED["rounds"]
        rows = [row(rounds=3), row(rounds=5, seed=1), row(rules="manne", rounds=8, moves=40)]
        figure = plots.panels_figure(rows, rounds)
        [axes] = named(figure).values()
        self.assertEqual(sorted(height for _, height in runs_of(axes)), [3, 5, 8])
        # nine nodes: 9 under hh, 2 * 9 - 1 under manne
        self.assertEqual(bounds_of(axes), [(-0.45, 0.45, 9.0), (0.55, 1.45, 17.0)])
        self.assertEqual((notes_of(axes), axes.get_ylabel()), ([], "rounds"))
        self.assertEqual(legend_of(figure), ["rounds until silence", "a run, hh", "a run, manne", "median", "bound"])
        figure = plots.panels_figure([row(rounds=2), row(rules="manne", rounds=1)], rounds)
        self.assertEqual(notes_of(named(figure)["ring:9\n5 faults"]), ["bound\n\u2191 9", "bound\n\u2191 17"])
        self.assertEqual(legend_of(figure)[-1], plots.ABOVE)

    def test_rounds_without_a_bound_are_named(self) -> None:
        rounds = plots.PLOTTED["rounds"]
        rows = [row(rounds=30, hit="5 faults, every 2 moves"), row(rounds=4)]
        for figure in (plots.panels_figure(rows, rounds), plots.growth_figure(rows, rounds)):
            title, *words = legend_of(figure)
            self.assertEqual(title, "rounds until silence; no bound: disturbances came one by one")
            self.assertEqual(words[-1], "bound")
        panels = named(plots.panels_figure(rows, rounds))
        self.assertEqual(notes_of(panels["ring:9\n5 faults, every 2 moves"]), ["no\nbound"])
        self.assertEqual(bounds_of(panels["ring:9\n5 faults, every 2 moves"]), [])
        self.assertEqual(bounds_of(panels["ring:9\n5 faults"]), [(-0.45, 0.45, 9.0)])
        # moves have a bound there
        self.assertEqual(legend_of(plots.panels_figure(rows))[-1], plots.ABOVE)

    def test_what_makes_no_plot(self) -> None:
        path = os.path.join(self.folder(), "a.svg")
        for plot in (plots.of_rows, plots.over_graphs):
            self.assertRaisesRegex(ValueError, "no rows", plot, [], path)
        many = [row(f"ring:{n}") for n in range(3, 64)]
        self.assertRaisesRegex(ValueError, "61 panels", plots.of_rows, many, path)
        self.assertRaisesRegex(ValueError, "61 panels", plots.check, path, 61)
        self.assertRaisesRegex(ValueError, "no name of a picture", plots.check, path + ".txt")
        for plot in (plots.of_rows, plots.over_graphs):
            self.assertRaisesRegex(ValueError, "one of moves, rounds, and not 'steps'", plot, many[:6], path, "steps")
        self.assertEqual(os.listdir(os.path.dirname(path)), [])
        plots.check(path, 60)
        plots.of_rows(many[:6], path)
        self.assertIn("<svg", pathlib.Path(path).read_text(encoding="utf-8"))

    def test_titles_are_shown_as_they_are(self) -> None:
        long = "/a/folder/with/$x^{$/and/a/long/name/of/its/own/net.txt"
        panels = named(plots.panels_figure([row(long), row("ring:9")]))
        self.assertIn("..a/long/name/of/its/own/net.txt\n5 faults", panels)
        two = plots.titles_of([f"/one{long}", f"/two{long}"])
        self.assertEqual(
            {title: text.replace("\n", "") for title, text in two.items()}, {it: plots.plain(it) for it in two}
        )
        # matplotlib would take this title for a formula
        plots.of_rows([row("$\\frac{$")], os.path.join(self.folder(), "a.png"))


@unittest.skipUnless(matplotlib, "no matplotlib")
class Growth(Timed):
    engines = ("program",)

    def test_graphs_near_in_size_do_not_mingle(self) -> None:
        words = itertools.product((49, 50), ("age", "seeded"), ("hh", "manne"))
        rows = [
            row(f"ring:{n}", rules, daemon, n=n, moves=n, bound=n * (3 if rules == "hh" else 5))
            for n, daemon, rules in words
        ]
        [axes] = plots.growth_figure(rows).get_axes()
        runs = runs_of(axes)
        self.assertEqual(len(runs), 8)
        for at, moves in runs:
            self.assertEqual(round(at), moves)
        self.assertEqual([it.get_text() for it in axes.get_xticklabels()], ["49", "50"])
        self.assertEqual(axes.get_xlabel(), "nodes N of ring:N after 5 faults")
        for begin, end, bound in bounds_of(axes):
            self.assertEqual(round(begin + 0.01), round(end - 0.01))
            self.assertIn(bound / round(begin + 0.01), (3, 5))
        self.assertEqual(len(bounds_of(axes)), 8)

    def test_graphs_of_one_family_are_at_their_sizes(self) -> None:
        sizes = (10, 20, 45, 30)
        rows = [row(f"regular:{n},4,{n}", daemon=daemon, n=n, moves=n) for n in sizes for daemon in ("age", "least")]
        [axes] = plots.growth_figure(rows).get_axes()
        # more than a factor of four apart: by the logarithm to the base 2
        self.assertEqual(axes.get_xlabel(), "nodes N of regular:N,4 after 5 faults, logarithmic")
        self.assertEqual([it.get_text() for it in axes.get_xticklabels()], ["10", "20", "30", "45"])
        for at, moves in runs_of(axes):
            self.assertAlmostEqual(at, math.log2(moves), delta=0.25)
        # ten more nodes are half as far as twenty more
        [axes] = plots.growth_figure([row(f"ring:{n}", n=n, moves=n) for n in (20, 30, 50)]).get_axes()
        self.assertEqual([at for at, _ in runs_of(axes)], [20.0, 30.0, 50.0])

    def test_other_graphs_are_categories_and_the_axis_says_so(self) -> None:
        for titles in (
            ("ring:9", "path:10"),
            ("a.txt", "b.txt"),
            ("gnp:9,0.5,1", "gnp:10,0.25,1"),
            ("ring:9", "ring:9"),
        ):
            hits = ("1 fault", "2 faults")
            rows = [row(title, n=9 + at, hit=hits[at]) for at, title in enumerate(titles)]
            [axes] = plots.growth_figure(rows).get_axes()
            self.assertEqual(axes.get_xlabel(), "graphs in the order of their sizes, without a scale")
            self.assertEqual([at for at, _ in runs_of(axes)], [0.0, 1.0])
            named = [it.get_text() for it in axes.get_xticklabels()]
            self.assertEqual(named, [f"{title}\n{hit}" for title, hit in zip(titles, hits)])

    def test_no_name_covers_a_point(self) -> None:
        rows = [row(daemon=daemon, moves=moves) for daemon in ("age", "seeded") for moves in (0, 9)]
        figure = plots.growth_figure(rows)
        [axes] = figure.get_axes()
        self.assertEqual(list(axes.texts), [])
        legends = [text.get_text() for part in figure.subfigs for legend in part.legends for text in legend.get_texts()]
        self.assertEqual(legends, ["a run, hh", "age", "seeded", "median", "bound"])

    def test_a_bound_that_is_not_drawn_is_named(self) -> None:
        def told(*bounds: int) -> list[str]:
            figure = plots.panels_figure([row(f"ring:{9 + at}", bound=it) for at, it in enumerate(bounds)])
            texts = [text.get_text() for part in figure.subfigs for it in part.legends for text in it.get_texts()]
            return [text for text in texts if "bound" in text]

        # each panel has four moves, and draws bounds up to 16
        self.assertEqual(told(16), ["bound"])
        self.assertEqual(told(17), ["bound \u2191: above the axis"])
        self.assertEqual(told(16, 17), ["bound", "bound \u2191: above the axis"])

    def test_families(self) -> None:
        for title, family in (
            ("ring:9", ("ring:N", 9)),
            ("grid:3x4", ("grid:RxC", 12)),
            ("regular:8,3,1", ("regular:N,3", 8)),
            ("disk:60,0.25,1", ("disk:N,0.25", 60)),
            ("edges.txt", None),
            ("my:9", None),
            ("ring:x", None),
        ):
            self.assertEqual(family_of(title), family)

    def test_runs_without_moves_are_seen(self) -> None:
        [axes] = plots.growth_figure([row(moves=0), row("ring:90", n=90, moves=100, bound=270)]).get_axes()
        self.assertEqual(axes.get_yscale(), "symlog")
        self.assertTrue(-1 < axes.get_ylim()[0] < 0, "the dot and the median at 0 are inside")
        self.assertIn(0.0, [float(line.get_ydata()[0]) for line in axes.get_lines()])
        [axes] = plots.growth_figure([row(moves=30), row("ring:90", n=90, moves=100, bound=270)]).get_axes()
        self.assertEqual(axes.get_yscale(), "log")
        self.assertTrue(0 < axes.get_ylim()[0] < 30 and axes.get_ylim()[1] > 270)


if __name__ == "__main__":
    unittest.main()
