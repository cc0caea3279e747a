"""Damaged graph files are refused, or read as an independent reader reads them."""

from __future__ import annotations

import pathlib
import unittest
import unittest.mock
import warnings
from typing import Optional

import graph_fuzz
from rudekpi import graphs
from support import Timed

try:
    import networkx
except ImportError:
    networkx = None


class Damaged(Timed):
    engines = ("program",)

    @unittest.skipUnless(networkx, "no networkx")
    def test_damaged_files(self) -> None:
        for end in graph_fuzz.SAMPLES:
            with self.subTest(end):
                counts, wrong = graph_fuzz.fuzz(end, 400, 11, self.folder())
                self.assertEqual(wrong, [])
                self.assertGreater(counts["refused"], 40)
                self.assertGreater(counts["read"], 20)

    @unittest.skipUnless(networkx, "no networkx")
    def test_the_fuzz_sees_another_graph(self) -> None:
        path = pathlib.Path(self.folder(), "a.txt")
        self.assertEqual(graph_fuzz.fault_of(path, b"1 2\n", False), ("read", ""))
        with unittest.mock.patch.object(graphs, "read", lambda *_, **__: graphs.path(3)):
            self.assertIn("independently as", graph_fuzz.fault_of(path, b"1 2\n", False)[1])
        with unittest.mock.patch.object(graphs, "read", side_effect=KeyError):
            self.assertIn("KeyError", graph_fuzz.fault_of(path, b"1 2\n", False)[1])

    def test_files_named_as_another_format(self) -> None:
        for own, samples in graph_fuzz.SAMPLES.items():
            for text in samples:
                wanted = self.edges_of(own, text)
                for end in graph_fuzz.SAMPLES:
                    with self.subTest(own=own, end=end, text=text[:40]):
                        self.assertIn(self.edges_of(end, text), (None, wanted))

    def edges_of(self, end: str, text: str) -> Optional[tuple[set[str], set[frozenset[str]]]]:
        """Read under a name with this extension, as texts; None if refused."""
        path = pathlib.Path(self.folder(), f"a{end}")
        path.write_text(text, encoding="utf-8")
        with warnings.catch_warnings():
            warnings.simplefilter("ignore")
            try:
                made = graphs.read(path, undirected=True)
            except ValueError:
                return None
        return set(map(str, made.nodes)), {frozenset(map(str, edge)) for edge in made.edges}


if __name__ == "__main__":
    unittest.main()
