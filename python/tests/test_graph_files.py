"""Graphs read from files: each format as it is written, and what is refused."""

from __future__ import annotations

import itertools
import json
import os
import pathlib
import unittest
import unittest.mock
from typing import Iterable, Sequence, Union

from rudekpi import graph_builder, graphs
from rudekpi.replies import Name
from support import Timed

try:
    import networkx
except ImportError:
    networkx = None


def as_sets(edges: Iterable[tuple[Name, Name]]) -> set[frozenset[Name]]:
    return {frozenset(edge) for edge in edges}


class Read(Timed):
    engines = ("program",)

    def path(self, name: str, text: Union[str, bytes]) -> str:
        path = os.path.join(self.folder(), name)
        pathlib.Path(path).write_bytes(text if isinstance(text, bytes) else text.encode())
        return path

    def read(
        self, name: str, text: Union[str, bytes], **how: bool
    ) -> tuple[Sequence[Name], Sequence[tuple[Name, Name]]]:
        graph = graphs.graph_of(self.path(name, text), **how)
        return graph.nodes, graph.edges

    def expect_refused(self, name: str, text: Union[str, bytes], why: str, **how: bool) -> None:
        """A file is refused with its path, then exactly this text."""
        path = self.path(name, text)
        with self.subTest(name=name, text=text[:60]):
            with self.assertRaises(ValueError) as caught:
                graphs.graph_of(path, **how)
            self.assertTrue(str(caught.exception).startswith(f"{path}: {why}"), str(caught.exception))

    def test_edge_lists(self) -> None:
        self.assertEqual(self.read("a.txt", "# two\n2 10\n10 1\n\n7\n1 10\n"), ((1, 2, 7, 10), ((2, 10), (1, 10))))
        self.assertEqual(
            self.read("a.edges", "ann bob\nbob\tcleo # late\r\n"),
            (("ann", "bob", "cleo"), (("ann", "bob"), ("bob", "cleo"))),
        )
        self.assertEqual(self.read("a", ""), ((), ()))
        self.assertEqual(self.read("a", "7\n8\n"), ((7, 8), ()))
        self.assertEqual(self.read("a", b"\xef\xbb\xbf1 2\n"), ((1, 2), ((1, 2),)))
        # no ASCII digits, so names; and no canonical number
        self.assertEqual(self.read("a", "\u00b2 1\n"), (("\u00b2", "1"), (("\u00b2", "1"),)))
        self.assertEqual(self.read("a", "01 1\n"), (("01", "1"), (("01", "1"),)))
        self.assertEqual(self.read("a.csv", "1,2\n2 , 3\n"), ((1, 2, 3), ((1, 2), (2, 3))))
        self.assertEqual(self.read("a.csv", "a,b # c\n"), (("a", "b"), (("a", "b"),)))

    def test_weights_are_left_out_and_told(self) -> None:
        for name, text in [("a.txt", "1 2 0.5\n3 2 -1e-3\n"), ("a.csv", "1,2,0.5\n3,2,-1e-3\n")]:
            path = self.path(name, text)
            with self.assertWarnsRegex(UserWarning, f"{path}: its weights are left out"):
                graph = graphs.read(path)
            self.assertEqual((graph.nodes, graph.edges), ((1, 2, 3), ((1, 2), (2, 3))))

    def test_edge_lists_that_are_none(self) -> None:
        wrong: list[tuple[Union[str, bytes], str]] = [
            ("# one\n1,2\n2,3\n", "line 2: expected names, and no ',' as in '1,2'; a file with commas is named .csv"),
            ("1;2\n", "line 1: expected names, and no ';'"),
            ("1 2\n2 2\n", "line 2: '2' is linked with itself"),
            ("1 2 3\n2 3\n3\n", "line 2: expected a weight in each line or in none"),
            ("1 2 3\n2\n3\n", "line 2: expected a weight"),
            ("2\n1 2 3\n", "line 2: expected no weight, since a line before has a node alone"),
            ("1 2 3\n2 1 3\n3 1 2\n", "line 1: an adjacency list?"),
            ("1 2 3\n2 1 4\n", "line 2: another weight than line 1 has"),
            ("1 2\n2 3 4 5\n", "line 2: expected two names, and at most one number as a weight"),
            ("a b c\n", "line 1: expected two names, and at most one number"),
            ("a b nan\n", "line 1: expected two names, and at most one number"),
            ("1 2\n3 4\n1 2\n", "line 3: the edge of '1' and '2' is there already, by line 1"),
            ("1 2\n2 1\n1 2\n", "line 3: the edge of '1' and '2' is there already, by line 1"),
            ("1 2\n2 1\n2 1\n", "line 3: the edge of '2' and '1' is there already, by line 1"),
            ("1-2\n2-3\n", "line 1: expected two names, and not '1-2' alone: no line has an edge"),
            ("1: 2\n", "line 1: expected names, and no ':'"),
            ("*Vertices 3\n", "line 1: expected names, and no '*'"),
            ("%%MatrixMarket x\n", "line 1: expected names, and no '%'"),
            ("graph {\n", "line 1: expected names, and no '{'"),
            ("a -> b\n", "line 1: expected names, and no '>'"),
            ("a#b c\n", "line 1: no name has a `#`"),
            ("from to\n1 2\n2 3\n", "line 1: are 'from' and 'to' titles?"),
            ("5 4\n1 2\n2 3\n3 4\n4 5\n", "line 1: are these the numbers of nodes and edges?"),
            ("3 2\n2\n1 3\n2\n", "line 1: are these the numbers of nodes and edges?"),
            ("1 2\n1\u00a02\n", r"line 2: '\xa0' stands in no graph of text"),
            ("1\x002\n", r"line 1: '\x00' stands in no graph of text"),
            ("1 2\r3 4\n", r"line 1: '\r' stands in no graph of text"),
            (b"1 2\n\xff\xfe1 2\n", "line 2: no UTF-8: byte 0xff"),
            ("a" * 1_048_577, "line 1: it has more than 1048576 bytes"),
            ("".join(f"{name}\n" for name in range(65_536)), "line 65536: a network has at most 65535 nodes"),
        ]
        for text, why in wrong:
            self.expect_refused("a.txt", text, why)
        for text, why in [
            ("1 2\n", "line 1: expected names with one ',' between them, and not '1 2'"),
            ("a,b\n,c\n", "line 2: expected names with one ',' between them, and not ',c'"),
            ('"a","b"\n', "line 1: expected names, and no '\"'"),
            ("source,target\n1,2\n", "line 1: are 'source' and 'target' titles?"),
        ]:
            self.expect_refused("a.csv", text, why)

    def test_more_edges_than_a_network_has(self) -> None:
        self.assertEqual(getattr(graph_builder, "MOST_EDGES"), 1_048_576)
        text = "".join(f"{a} {b}\n" for a, b in itertools.combinations(range(9), 2))
        with unittest.mock.patch.object(graph_builder, "MOST_EDGES", 35):
            self.expect_refused("a.txt", text, "line 36: a network has at most 35 edges")
            self.assertEqual(len(self.read("a.txt", text[:-4])[1]), 35)

    def test_dimacs(self) -> None:
        self.assertEqual(
            self.read("a.col", "c a comment\np edge 4 3\ne 1 2\ne 4 2\ne 2 1\n"), ((1, 2, 3, 4), ((1, 2), (2, 4)))
        )
        # the first line's number of lines, or of edges
        self.assertEqual(self.read("a.col", "p col 2 1\nn 1 3\ne 1 2\ne 2 1\n"), ((1, 2), ((1, 2),)))
        paths = "p sp 3 3\na 1 2 7\na 2 1 7\na 2 3 1\n"
        self.assertEqual(self.read("a.dimacs", paths, undirected=True), ((1, 2, 3), ((1, 2), (2, 3))))
        for text, why in [
            ("e 1 2\n", "line 1: expected the line p first"),
            ("", "expected one line p"),
            ("cat\np edge 0 0\n", "line 1: expected the line p first"),
            ("p edge 2 1\ne 1 3\n", "line 2: expected nodes 1 to 2, and not 3"),
            ("p edge 2 1\ne 0 1\n", "line 2: expected nodes 1 to 2, and not 0"),
            ("p edge 2 1\ne 1 1\n", "line 2: 1 is linked with itself"),
            ("p edge 2 1\ne 1 2 7\n", "line 2: expected `e A B`, and not 'e 1 2 7'"),
            ("p edge 2 1\ne 1\n", "line 2: expected `e A B`, and not 'e 1'"),
            ("p edge 2 1\na 1 2\n", "line 2: expected `e A B`, and not 'a'"),
            ("p edge 2 1\n\n1 2\n", "line 3: expected `e A B`, and not '1'"),
            ("p edge 2 2\ne 1 2\ne 1 2\n", "line 3: the edge of 1 and 2 is there already, by line 2"),
            ("p edge 3 3\ne 1 2\n", "line 1: it has 3 edges, and 1 lines with edges follow"),
            ("c\np edge -5 0\n", "line 2: expected `p edge N M`, two numbers from 0 on, and not 'p edge -5 0'"),
            ("p edge x 1\n", "line 1: expected `p edge N M`"),
            ("p edge \u00b2 1\n", "line 1: expected `p edge N M`"),
            ("p max 3 1\n", "line 1: expected `p edge N M`"),
            ("p edge 1 0\np edge 1 0\n", "line 2: expected one line p, and line 1 is one"),
            ("p edge 99999999999 0\n", "line 1: 99999999999 nodes; a network has at most 65535 nodes"),
            (paths, "line 1: `p sp` is of a directed graph: --undirected"),
        ]:
            self.expect_refused("a.col", text, why)

    def test_metis(self) -> None:
        self.assertEqual(self.read("a.graph", "% a comment\n4 2\n2\n1 3\n2\n\n"), ((1, 2, 3, 4), ((1, 2), (2, 3))))
        self.assertEqual(self.read("a.graph", "2 1 000\n2\n%\n1\n\n"), ((1, 2), ((1, 2),)))
        for text, why in [
            ("2 1 11\n2 1\n1 1\n", "line 1: expected a METIS graph without weights"),
            ("", "expected a line `N M`"),
            ("\n1 0\n\n", "line 1: expected `N M`"),
            ("x y\n", "line 1: expected `N M`"),
            ("2 -1\n", "line 1: expected `N M`"),
            ("4 2\n2\n1 3\n2\n", "line 1: it has 4 nodes, and 3 lines follow"),
            ("3 3\n2\n1 3\n2\n", "line 1: it has 3 edges, and there are 2"),
            ("2 1\n2\n1\n1\n", "line 4: expected the end, behind 2 lines of nodes"),
            ("2 1\n2\n\n", "line 2: node 1 names 2, and 2 does not name 1"),
            ("2 1\n1 2\n1\n", "line 2: 1 is linked with itself"),
            ("2 1\n2 2\n1\n", "line 2: the edge of 1 and 2 is there already, by line 2"),
            ("2 1\n3\n1\n", "line 2: expected neighbours 1 to 2, and not '3'"),
            ("2 1\n2.0\n1\n", "line 2: expected neighbours 1 to 2, and not '2.0'"),
            ("99999999999 0\n", "line 1: 99999999999 nodes; a network has at most 65535 nodes"),
        ]:
            self.expect_refused("a.metis", text, why)

    def test_graphml(self) -> None:
        node, edge = '<node id="{}"/>', '<edge source="{}" target="{}"/>'
        some = "".join(map(node.format, "abc"))

        def whole(inner: str, default: str = "undirected") -> str:
            return f'<?xml version="1.0"?>\n<graphml>\n<graph edgedefault="{default}">\n{inner}</graph>\n</graphml>\n'

        wanted = (("a", "b", "c"), (("a", "b"), ("b", "c")))
        self.assertEqual(self.read("a.graphml", whole(edge.format("a", "b") + some + edge.format("c", "b"))), wanted)
        latin = whole(node.format("\u00e9")).replace('"1.0"', '"1.0" encoding="ISO-8859-1"').encode("latin-1")
        self.assertEqual(self.read("a.graphml", latin), (("\u00e9",), ()))
        arcs = whole(some + "".join(edge.format(*it) for it in ("ab", "cb", "ba")), "directed")
        self.assertEqual(self.read("a.graphml", arcs, undirected=True), wanted)
        arc = '<edge source="a" target="b" directed="true"/>'
        self.assertEqual(self.read("a.graphml", whole(some + arc), undirected=True), (wanted[0], (("a", "b"),)))
        wrong: list[tuple[Union[str, bytes], str]] = [
            (arcs, "line 3: a directed graph: --undirected"),
            (whole(some + "\n" + arc), "line 5: a directed graph: --undirected"),
            (whole(some + "\n" + edge.format("a", "a")), "line 5: 'a' is linked with itself"),
            (
                whole(some + edge.format("a", "b") + "\n" + edge.format("b", "a")),
                "line 5: the edge of 'b' and 'a' is there",
            ),
            (whole(some + "\n" + edge.format("a", "d")), "line 5: the edge names 'd', and no node has that id"),
            (whole(some + "\n" + node.format("a")), "line 5: a node 'a' is there already"),
            (whole("<node/>"), "line 4: expected an id"),
            (whole('<edge source="a"/>'), "line 4: expected a source and a target"),
            (whole("<hyperedge/>"), "line 4: a hypergraph"),
            (whole('<node id="a"><graph edgedefault="undirected"/></node>'), "line 4: a second or a nested graph"),
            (whole("<nodes/>"), "line 4: expected node or edge or data or desc or locator, and not `nodes`"),
            (whole("1 2"), "line 4: expected elements, and not the text '1 2'"),
            (whole("", "both"), "line 3: expected edgedefault directed or undirected, and not 'both'"),
            (whole("").replace("</graph>", "</graph>\n<graph/>"), "line 5: a second or a nested graph"),
            ("<graphml/>", "expected a graph, and there is none"),
            ("<x/>", "line 1: expected graphml, and not `x`"),
            ("<?xml version='1.0' encoding='utf-7'?><graphml/>", "line 1: expected one of the encodings utf-8, "),
            ("<?xml version='1.0' encoding='big5'?><graphml/>", "line 1: expected one of the encodings utf-8, "),
            (b"<graphml>\xff</graphml>", "no XML: not well-formed"),
            ("<x", "no XML: unclosed token: line 1, column 0"),
            ('<!DOCTYPE a [<!ENTITY b "c">]><a/>', "line 1: expected no DOCTYPE"),
        ]
        for text, why in wrong:
            self.expect_refused("a.graphml", text, why)

    def test_node_link(self) -> None:
        def text(nodes: Sequence[object], links: Sequence[tuple[object, object]], **more: object) -> str:
            return json.dumps({"nodes": nodes, "links": [dict(source=a, target=b) for a, b in links], **more})

        some, wanted = [{"id": 1}, {"id": "x", "directed": True}], ((1, "x"), ((1, "x"),))
        self.assertEqual(self.read("a.json", text(some, [("x", 1)])), wanted)
        self.assertEqual(self.read("a.json", text(some, [("x", 1)]).replace("links", "edges")), wanted)
        self.assertEqual(self.read("a.json", text(some, [("x", 1), (1, "x")], directed=True), undirected=True), wanted)
        self.assertEqual(self.read("a.json", text([{}, {}], [(0, 1)])), ((0, 1), ((0, 1),)))
        self.assertEqual(self.read("a.json", text([{"id": [0, 1]}, {"id": [0, 2]}], [])), (((0, 1), (0, 2)), ()))
        wrong: list[tuple[Union[str, bytes], str]] = [
            (text(some, [], directed=True), "a directed graph: --undirected"),
            (text(some, [], multigraph=True), "a multigraph"),
            (text(some, [(1, "x"), (1, "x")]), "edge 2: the edge of 1 and 'x' is there already, by edge 1"),
            (text(some, [(1, "x"), ("x", 1)]), "edge 2: the edge of 'x' and 1 is there already, by edge 1"),
            (text(some, [(1, 1)]), "edge 1: 1 is linked with itself"),
            (text(some, [(1, 2)]), "edge 1: its target is 2, and no node has that id"),
            (text(some, [("1", 1)]), "edge 1: its source is '1', and no node has that id"),
            (text(some, [(True, "x")]), "edge 1: its source is True"),
            (text([{"id": 1}, {"id": 1}], []), "node 2: a node 1 is there already"),
            (text([{"id": 1}, {}], []), "node 2: expected an id, a text or a whole number, and not None"),
            (text([{"id": 1.0}], []), "node 1: expected an id"),
            (text(some, [], edges=[]), "expected links or edges, and not both"),
            (text(some, [], directed="no"), "expected directed true or false, and not 'no'"),
            (text([1], []), "expected nodes, a list of objects"),
            ("{}", "expected nodes, a list of objects"),
            ('{"nodes": []}', "expected links, a list of objects"),
            ("[]", "expected an object with nodes and links"),
            ("{", "no JSON of a graph: Expecting property name"),
            ('{"nodes": [], "nodes": [], "links": []}', "no JSON of a graph: an object has 'nodes' twice"),
            ("[" * 100_000, "no JSON of a graph: it is nested too deeply"),
            (b"\xff", "no JSON of a graph: "),
        ]
        for data, why in wrong:
            self.expect_refused("a.json", data, why)

    @unittest.skipUnless(networkx, "no networkx")
    def test_what_networkx_writes(self) -> None:
        graph = networkx.gnp_random_graph(40, 0.1, seed=3)
        names = networkx.relabel_nodes(graph, {node: f"n{node}" for node in graph})
        path = os.path.join(self.folder(), "a")
        for write, end, written in [
            (networkx.write_graphml, ".graphml", names),
            (networkx.write_edgelist, ".txt", graph.edge_subgraph(graph.edges)),
            (
                lambda made, to: pathlib.Path(to).write_text(
                    json.dumps(networkx.node_link_data(made)), encoding="utf-8"
                ),
                ".json",
                graph,
            ),
        ]:
            with self.subTest(end):
                data = {"data": False} if end == ".txt" else {}
                write(written, path + end, **data)
                made = graphs.read(path + end)
                self.assertEqual((set(made.nodes), as_sets(made.edges)), (set(written), as_sets(written.edges)))

    @unittest.skipUnless(networkx, "no networkx")
    def test_what_networkx_writes_of_graphs_that_are_not_simple(self) -> None:
        path = os.path.join(self.folder(), "a")
        for kind, why in [
            (networkx.DiGraph, "directed"),
            (networkx.MultiGraph, "multigraph|already"),
            (networkx.MultiDiGraph, "directed|multi|already"),
        ]:
            graph = kind([("a", "b"), ("a", "b"), ("b", "c")])
            networkx.write_graphml(graph, path + ".graphml")
            pathlib.Path(path + ".json").write_text(json.dumps(networkx.node_link_data(graph)), encoding="utf-8")
            for end in (".graphml", ".json"):
                with self.subTest(kind=kind.__name__, end=end):
                    self.assertRaisesRegex(ValueError, why, graphs.read, path + end)
                    if kind is networkx.DiGraph:
                        made = graphs.read(path + end, undirected=True)
                        self.assertEqual(made.edges, (("a", "b"), ("b", "c")))

    def test_files_that_are_not_there(self) -> None:
        self.assertRaises(FileNotFoundError, graphs.graph_of, "/no/such/graph.txt")
        self.assertRaisesRegex(FileNotFoundError, "no file 'rng:5'.* ring:N", graphs.graph_of, "rng:5")
        self.assertRaises(IsADirectoryError, graphs.graph_of, self.folder())


if __name__ == "__main__":
    unittest.main()
