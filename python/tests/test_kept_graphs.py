"""Graphs that a sweep got from Python are kept with its rows, so that each row plays again."""

from __future__ import annotations

import contextlib
import io
import json
import os
import pathlib
import subprocess
import sys
import unittest
import warnings
from collections.abc import Iterator
from typing import Any, Optional

from rudekpi import graphs, kept_graphs, read_names, sweep, sweeps
from rudekpi.disturbances import Disturbance
from rudekpi.plans import play_again
from rudekpi.simple_graph import Graph
from support import TOP, Timed

# names of three kinds, one without links, and edges in no order
MIXED = Graph("mine/λ", ("zoe", 7, ("a", (1, "b")), "7"), ((7, "zoe"), (("a", (1, "b")), "zoe")))


def rudekpi(*words: str, folder: Optional[str] = None) -> subprocess.CompletedProcess[str]:
    environment = dict(os.environ, PYTHONPATH=os.path.join(TOP, "python"))
    command = [sys.executable, "-m", "rudekpi", *words]
    return subprocess.run(command, cwd=folder, env=environment, capture_output=True, encoding="utf-8")


class Networkx:
    """What `from_networkx` asks of a graph."""

    name = ""

    def __init__(self, nodes: list[Any], edges: list[tuple[Any, Any]]) -> None:
        self.nodes, self.edges = nodes, edges

    def is_directed(self) -> bool:
        return False

    def is_multigraph(self) -> bool:
        return False


def swept(path: str, given: list[Any], **more: Any) -> list[sweeps.Row]:
    words: Any = given, ["hh", "manne"], ["seeded", "least"], [3], [0, Disturbance(cut=1, joins=1, every=1)]
    with open(path, "w", newline="", encoding="utf-8") as file:
        return list(sweeps.write_csv(sweep(*words, processes=1, **more), file))


class Kept(Timed):
    def setUp(self) -> None:
        super().setUp()
        self.path = os.path.join(self.folder(), "rows.csv")

    def test_each_row_plays_again(self) -> None:
        edges = [("ann", "bob"), ("bob", "cleo")]
        rows = swept(self.path, [MIXED, Networkx(["ann", "bob", "cleo", "dan"], edges), graphs.ring(5)])
        self.assertEqual(len(rows), 3 * 2 * 2 * 2)
        # a colon is %3A in a file's name
        of_networkx = "%3A".join(["networkx", "4,2.json"])
        self.assertEqual(sorted(os.listdir(self.path + ".graphs")), ["mine%2F%CE%BB.json", of_networkx], "no ring:5")
        self.assertEqual(kept_graphs.kept_graph(self.path, "mine/λ"), MIXED)
        for row in rows:
            graph = kept_graphs.kept_graph(self.path, row.graph)
            self.assertEqual(graph is None, row.graph == "ring:5")
            # it compares the row that comes of it
            play_again(row, graph=graph)

    def test_again_by_the_command(self) -> None:
        folder = os.path.dirname(self.path)
        swept(self.path, [MIXED])
        done = rudekpi("again", "rows.csv", "2", "--output", "t", "--page", "p.html", folder=folder)
        self.assertEqual((done.returncode, done.stdout, done.stderr), (0, "", ""))
        self.assertEqual(read_names(os.path.join(folder, "t.names")), ["zoe", 7, "('a', (1, 'b'))", "7"])
        self.assertIn('["zoe", "zoe"]', pathlib.Path(folder, "p.html").read_text(encoding="utf-8"))
        self.assertEqual(
            rudekpi("again", "rows.csv", "2", folder=folder).stdout,
            pathlib.Path(folder, "t").read_text(encoding="utf-8"),
        )
        kept = pathlib.Path(self.path + ".graphs", "mine%2F%CE%BB.json")
        whole = kept.read_text(encoding="utf-8")
        for text, why in (
            ("{", "no JSON of a graph"),
            ("[]", "no graph that a sweep has kept"),
            ('{"nodes": [{"id": {}}], "links": []}', "no graph that a sweep has kept"),
            ('{"nodes": [{"id": 1}, {"id": 1}], "links": []}', "a node is there twice"),
        ):
            kept.write_text(text, encoding="utf-8")
            done = rudekpi("again", "rows.csv", "2", folder=folder)
            self.assertEqual((done.returncode, done.stdout), (2, ""))
            self.assertIn(why, done.stderr)
        kept.write_text(whole.replace('"links":[', '"links":[{"source":"zoe","target":"7"},'), encoding="utf-8")
        done = rudekpi("again", "rows.csv", "2", folder=folder)
        self.assertEqual(done.returncode, 1)
        self.assertIn("is the graph another one?", done.stderr)
        kept.unlink()
        done = rudekpi("again", "rows.csv", "2", folder=folder)
        self.assertEqual((done.returncode, done.stdout), (3, ""))
        self.assertRegex(done.stderr, "^! no file 'mine/λ'; .*; and rows.csv.graphs keeps no graph of this title\n$")

    def test_what_is_kept(self) -> None:
        read = os.path.join(os.path.dirname(self.path), "edges")
        pathlib.Path(read).write_text("a b\n", encoding="utf-8")
        # a word's, a file's
        swept(self.path, [graphs.grid(2, 2), graphs.read(read)])
        self.assertFalse(os.path.exists(self.path + ".graphs"))
        # a title that is another graph's word
        swept(self.path, [Graph("ring:4", ("a", "b"), (("a", "b"),))])
        self.assertEqual(os.listdir(self.path + ".graphs"), ["ring%3A4.json"])
        self.assertEqual(kept_graphs.kept_graph(self.path, "ring:4"), Graph("ring:4", ("a", "b"), (("a", "b"),)))
        for title in ("..", "x" * 500, "a/../../b", "\x00"):
            path = kept_graphs.path_of(self.path, title)
            self.assertEqual(os.path.dirname(path), self.path + ".graphs")
            self.assertLess(len(os.path.basename(path)), 200)
        self.assertNotEqual(*(kept_graphs.path_of(self.path, "x" * 500 + end) for end in "ab"))

    def test_names_that_no_file_has(self) -> None:
        odd = Graph("odd", (frozenset((1,)), "b"), ())
        with warnings.catch_warnings(record=True) as told:
            warnings.simplefilter("always")
            rows = sweep([odd], ["hh"], ["least"], processes=1, executor=None)
            with open(self.path, "w", newline="", encoding="utf-8") as file, contextlib.suppress(Exception):
                next(iter(sweeps.write_csv(rows, file)))
        self.assertIn("odd: the graph is not kept, and its rows do not play again", str(told[0].message))
        self.assertFalse(os.path.exists(self.path + ".graphs"))

    def test_rows_that_go_on(self) -> None:
        made = swept(self.path, [MIXED])
        before = os.stat(kept_graphs.path_of(self.path, MIXED.title)).st_size
        with open(self.path, "a", newline="", encoding="utf-8") as file:
            more = list(sweeps.write_csv(sweep([MIXED], seeds=[9], processes=1, there=made), file, True))
            self.assertEqual([row.seed for row in more], [9])
            other = Graph(MIXED.title, MIXED.nodes, MIXED.edges[:1])
            with self.assertRaisesRegex(ValueError, "another graph has the title 'mine/λ', and rows of it are there"):
                list(sweeps.write_csv(sweep([other], processes=1), file, True))
        self.assertEqual(os.stat(kept_graphs.path_of(self.path, MIXED.title)).st_size, before)

    def test_rows_that_go_to_no_file(self) -> None:
        out = io.StringIO()
        rows = sweep([MIXED], ["hh"], processes=1)
        self.assertIsInstance(rows, Iterator)
        self.assertEqual(len(list(sweeps.write_csv(rows, out))), 1)
        # what is no row of a sweep has no graphs
        self.assertEqual(list(sweeps.write_csv([], io.StringIO())), [])
        with contextlib.closing(sweep([MIXED], ["hh"], seeds=range(50), processes=2)) as rows:
            next(rows)
        self.assertEqual(list(rows), [])

    def test_names_of_edge_lists_in_sweeps(self) -> None:
        folder = os.path.dirname(self.path)
        pathlib.Path(folder, "named.txt").write_text("# who meets whom\nann bob\nbob cleo\ncleo dan\nalone\n", "utf-8")
        for command in ("sweep", "compare"):
            words = "--graph named.txt --rules hh,manne --daemon least --seeds 2 --cut 1 --csv rows.csv --force"
            done = rudekpi(command, *words.split(), folder=folder)
            self.assertEqual((done.returncode, done.stderr), (0, ""))
            self.assertEqual(json.dumps(os.listdir(folder).count("rows.csv.graphs")), "0")
            with open(self.path, newline="", encoding="utf-8") as file:
                self.assertEqual({(row.graph, row.n, row.m) for row in sweeps.read_csv(file)}, {("named.txt", 5, 2)})
            done = rudekpi("again", "rows.csv", "1", "--output", "t", folder=folder)
            self.assertEqual(done.returncode, 0, done.stderr)
            self.assertEqual(read_names(os.path.join(folder, "t.names")), ["ann", "bob", "cleo", "dan", "alone"])
        # a graph with numbers needs no names
        os.unlink(os.path.join(folder, "t.names"))
        self.assertEqual(rudekpi("sweep", *"--graph ring:4 --seeds 1 --csv r".split(), folder=folder).returncode, 0)
        self.assertEqual(rudekpi("again", "r", "1", "--output", "t", folder=folder).returncode, 0)
        self.assertFalse(os.path.exists(os.path.join(folder, "t.names")))


if __name__ == "__main__":
    unittest.main()
