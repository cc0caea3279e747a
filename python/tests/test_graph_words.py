"""Graphs on the command line: messages and exit statuses."""

from __future__ import annotations

import os
import pathlib
import unittest

from rudekpi import graphs
from support import Timed
from test_commands import rudekpi

DIRECTED = '{"directed": true, "nodes": [{"id": 1}, {"id": 2}], "links": [{"source": 1, "target": 2}]}'


class Words(Timed):
    engines = ("program",)

    def file(self, name: str, text: str) -> str:
        path = os.path.join(self.folder(), name)
        pathlib.Path(path).write_text(text, encoding="utf-8")
        return path

    def expect_refused(self, why: str, *words: str) -> None:
        for command in ("sweep", "compare", "worst"):
            with self.subTest(command=command, words=words):
                done = rudekpi(command, *words)
                self.assertEqual((done.returncode, done.stdout), (2, ""))
                self.assertEqual(done.stderr.splitlines()[-1], f"rudekpi {command}: error: argument --graph: {why}")
                self.assertNotIn("Traceback", done.stderr)

    def test_each_word_is_a_function(self) -> None:
        for word, (make, _, _) in graphs.MADE.items():
            self.assertEqual((make.__name__, getattr(graphs, word)), (word, make))
            self.assertIn(word, graphs.__all__)
        self.assertIs(graphs.unit_disk, graphs.disk)
        self.assertEqual(graphs.graph_of("disk:60,0.25,1"), graphs.disk(60, 0.25, 1))
        self.assertEqual(graphs.disk(60, 0.25, 1).title, "disk:60,0.25,1")

    def test_files_that_are_no_graphs(self) -> None:
        path = self.file("a.txt", "1 2\n1,2\n")
        self.expect_refused(
            f"{path}: line 2: expected names, and no ',' as in '1,2'; a file with commas is named .csv", "--graph", path
        )
        path = self.file("a.json", "[" * 100_000)
        self.expect_refused(f"{path}: no JSON of a graph: it is nested too deeply", "--graph", path)
        why = "'ring:99999999999' makes no graph: a network has at most 65535 nodes"
        self.expect_refused(why, "--graph", "ring:99999999999")

    def test_directed_graphs(self) -> None:
        path = self.file("a.json", DIRECTED)
        why = f"{path}: a directed graph: --undirected takes its edges without directions"
        self.expect_refused(why, "--graph", path)
        for words in (["--graph", path, "--undirected"], ["--undirected", "--graph", path]):
            done = rudekpi("sweep", *words, "--seeds", "1", "--processes", "1")
            self.assertEqual((done.returncode, done.stderr), (0, ""))
            self.assertEqual(done.stdout.splitlines()[1].split(",")[1:4], ["manne", "2", "1"])
        self.assertEqual(rudekpi("worst", *words, "--rules", "hh").returncode, 0)

    def test_weights_are_told_once(self) -> None:
        path = self.file("a.txt", "1 2 0.5\n2 3 1.5\n")
        done = rudekpi("compare", "--graph", path, "--graph", "ring:4", "--seeds", "2", "--processes", "1")
        self.assertEqual((done.returncode, done.stderr), (0, f"! {path}: its weights are left out\n"))

    def test_names_of_files_with_other_digits(self) -> None:
        # these bytes in every locale
        path = self.file(os.fsdecode("a\u00b210.txt".encode()), "1 2\n")
        done = rudekpi("compare", "--graph", path, "--seeds", "1", "--processes", "1")
        shown = path.encode("utf-8", "surrogateescape").decode()
        self.assertEqual((done.returncode, done.stderr, done.stdout.count(shown)), (0, "", 2))

    def test_a_sweep_of_too_many_experiments(self) -> None:
        for seeds in ("99999999999", "9" * 40):
            done = rudekpi("sweep", "--graph", "ring:5", "--seeds", seeds)
            self.assertEqual((done.returncode, done.stdout), (2, ""))
            self.assertTrue(done.stderr.startswith("! a sweep has at most 1000000 experiments"), done.stderr)


if __name__ == "__main__":
    unittest.main()
