"""Graphs in GraphML and in node-link JSON, read by the standard library's parsers.

A directed graph is refused unless it is taken without its directions. Multigraphs, hypergraphs and nested
graphs are always refused.
"""

from __future__ import annotations

import json
from collections import Counter
from typing import Any, Optional
from xml.parsers import expat

from .graph_builder import GraphBuilder
from .numbers import MOST_EDGES
from .replies import Name
from .simple_graph import Graph

GRAPHML = "http://graphml.graphdrawing.org/xmlns"
# the elements inside each element; those in `SKIPPED` are not read
CHILDREN = {
    "": ("graphml",),
    "graphml": ("key", "graph", "data", "desc"),
    "graph": ("node", "edge", "data", "desc", "locator"),
    "node": ("data", "desc", "port", "locator"),
    "edge": ("data", "desc"),
}
SKIPPED = ("key", "data", "desc", "port", "locator")
REFUSED = {"hyperedge": "a hypergraph", "graph": "a second or a nested graph"}
# the encodings that the parser reads itself
ENCODINGS = ("utf-8", "utf-16", "iso-8859-1", "us-ascii")
MOST_XML, MOST_JSON, PIECE = 2**30, 2**28, 2**16
DIRECTED = "a directed graph: --undirected takes its edges without directions"


class GraphmlReader:
    """Reads one graph; an edge may precede its nodes."""

    def __init__(self, path: str, undirected: bool) -> None:
        self.made, self.undirected = GraphBuilder(path), undirected
        self.open: list[str] = [""]
        self.skipped, self.graphs, self.is_directed = 0, 0, False
        self.edges: list[tuple[str, str, bool, int]] = []
        self.parser = parser = expat.ParserCreate(namespace_separator=" ")
        parser.StartElementHandler = self.begin
        parser.EndElementHandler = self.end
        parser.CharacterDataHandler = self.take_text
        parser.StartDoctypeDeclHandler = self.refuse_doctype
        parser.XmlDeclHandler = self.check_encoding

    def read(self) -> Graph:
        read = 0
        with open(self.made.path, "rb") as file:
            while piece := file.read(PIECE):
                read += len(piece)
                if read > MOST_XML:
                    raise self.made.error(None, f"it has more than {MOST_XML} bytes")
                self.parse(piece, False)
            self.parse(b"", True)
        if not self.graphs:
            raise self.made.error(None, "expected a graph, and there is none")
        for a, b, is_directed, at in self.edges:
            for name in (a, b):
                if not self.made.has_node(name):
                    raise self.made.error(at, f"the edge names {name!r}, and no node has that id")
            self.made.add_edge(a, b, at, both_ways=is_directed)
        return self.made.graph()

    def parse(self, piece: bytes, is_last: bool) -> None:
        try:
            self.parser.Parse(piece, is_last)
        except (expat.ExpatError, LookupError) as error:
            raise self.made.error(None, f"no XML: {error}") from None

    def error(self, why: str) -> ValueError:
        return self.made.error(self.parser.CurrentLineNumber, why)

    def refuse_doctype(self, *_: Any) -> None:
        raise self.error("expected no DOCTYPE, whose entities may stand for anything")

    def check_encoding(self, _: str, encoding: Optional[str], __: int) -> None:
        if encoding and encoding.lower() not in ENCODINGS:
            raise self.error(f"expected one of the encodings {', '.join(ENCODINGS)}, and not {encoding!r}")

    def take_text(self, text: str) -> None:
        if not self.skipped and text.strip():
            raise self.error(f"expected elements, and not the text {text.strip()[:40]!r}")

    def begin(self, element: str, given: dict[str, str]) -> None:
        if self.skipped:
            self.skipped += 1
            return
        space, _, name = element.rpartition(" ")
        inside = self.open[-1]
        if name not in CHILDREN[inside] or (space and not space.startswith(GRAPHML)):
            raise self.error(REFUSED.get(name) or f"expected {' or '.join(CHILDREN[inside])}, and not `{name}`")
        if name in SKIPPED:
            self.skipped = 1
            return
        self.open.append(name)
        if name == "graph":
            self.begin_graph(given)
        elif name == "node":
            self.take_node(given)
        elif name == "edge":
            self.take_edge(given)

    def end(self, _: str) -> None:
        if self.skipped:
            self.skipped -= 1
        else:
            self.open.pop()

    def begin_graph(self, given: dict[str, str]) -> None:
        self.graphs += 1
        if self.graphs > 1:
            raise self.error(REFUSED["graph"])
        default = given.get("edgedefault")
        if default not in ("directed", "undirected"):
            raise self.error(f"expected edgedefault directed or undirected, and not {default!r}")
        self.is_directed = default == "directed"
        if self.is_directed and not self.undirected:
            raise self.error(DIRECTED)

    def take_node(self, given: dict[str, str]) -> None:
        name = given.get("id")
        if name is None:
            raise self.error("expected an id of the node")
        if self.made.has_node(name):
            raise self.error(f"a node {name!r} is there already")
        self.made.add_node(name, self.parser.CurrentLineNumber)

    def take_edge(self, given: dict[str, str]) -> None:
        source, target = given.get("source"), given.get("target")
        said = given.get("directed", "true" if self.is_directed else "false")
        if source is None or target is None or said not in ("true", "false"):
            raise self.error("expected a source and a target of the edge, and directed true or false if it is said")
        if said == "true" and not self.undirected:
            raise self.error(DIRECTED)
        # each edge may be there once in each direction
        if len(self.edges) == 2 * MOST_EDGES:
            raise self.error(f"a network has at most {MOST_EDGES} edges")
        self.edges.append((source, target, said == "true", self.parser.CurrentLineNumber))


def graphml(path: str, undirected: bool = False) -> Graph:
    """The graph of a GraphML file, its nodes named by their ids."""
    return GraphmlReader(path, undirected).read()


def once(pairs: list[tuple[str, Any]]) -> dict[str, Any]:
    """Raises `ValueError` if the object has a key twice."""
    found = dict(pairs)
    if len(found) != len(pairs):
        counts = Counter(name for name, _ in pairs)
        raise ValueError(f"an object has {next(name for name, _ in pairs if counts[name] > 1)!r} twice")
    return found


def json_of(path: str) -> Any:
    """The value of a JSON file.

    Raises `ValueError` if the file is no JSON, repeats a key, is nested too deeply, or has more than 256 MB.
    """
    with open(path, "rb") as file:
        text = file.read(MOST_JSON + 1)
    if len(text) > MOST_JSON:
        raise ValueError(f"{path}: it has more than {MOST_JSON} bytes")
    try:
        # a number of more than 18 digits is no name, and is slow to read
        return json.loads(
            text.decode("utf-8-sig"),
            object_pairs_hook=once,
            parse_int=lambda digits: int(digits) if len(digits) <= 18 else float(digits),
        )
    except RecursionError:
        raise ValueError(f"{path}: no JSON of a graph: it is nested too deeply") from None
    except ValueError as error:
        raise ValueError(f"{path}: no JSON of a graph: {error}") from None


class NodeLinkReader:
    """Reads `nodes` with `id`, and `links` or `edges` with `source` and `target`.

    This is the form of networkx and d3.js.
    """

    def __init__(self, path: str, undirected: bool) -> None:
        self.made, self.undirected, self.data = (GraphBuilder(path, "edge {}".format), undirected, json_of(path))

    def error(self, why: str) -> ValueError:
        return self.made.error(None, why)

    def read(self) -> Graph:
        if not isinstance(self.data, dict):
            raise self.error("expected an object with nodes and links")
        is_directed = self.switch("directed")
        if is_directed and not self.undirected:
            raise self.error(DIRECTED)
        if self.switch("multigraph"):
            raise self.error("a multigraph")
        nodes = self.listed("nodes")
        if "links" in self.data and "edges" in self.data:
            raise self.error("expected links or edges, and not both")
        self.take_nodes(nodes)
        for at, edge in enumerate(self.listed("edges" if "edges" in self.data else "links"), 1):
            a, b = (self.end_of(edge, key, at) for key in ("source", "target"))
            self.made.add_edge(a, b, at, both_ways=is_directed)
        return self.made.graph()

    def switch(self, key: str) -> bool:
        """A switch of the graph, false if it is absent."""
        value = self.data.get(key, False)
        if not isinstance(value, bool):
            raise self.error(f"expected {key} true or false, and not {value!r}")
        return value

    def listed(self, key: str) -> list[dict[str, Any]]:
        found = self.data.get(key)
        if not isinstance(found, list) or not all(isinstance(it, dict) for it in found):
            raise self.error(f"expected {key}, a list of objects")
        return found

    def take_nodes(self, nodes: list[dict[str, Any]]) -> None:
        """Reads the nodes, named by their ids. If no node has an id, their places from 0 on are the names."""
        has_ids = any("id" in node for node in nodes)
        for at, node in enumerate(nodes, 1):
            name = name_of(node.get("id") if has_ids else at - 1)
            if name is None:
                raise self.error(f"node {at}: expected an id, a text or a whole number, and not {node.get('id')!r}")
            if self.made.has_node(name):
                raise self.error(f"node {at}: a node {name!r} is there already")
            self.made.add_node(name, at)

    def end_of(self, edge: dict[str, Any], key: str, at: int) -> Name:
        name = name_of(edge.get(key))
        if name is None or not self.made.has_node(name):
            raise self.made.error(at, f"its {key} is {edge.get(key)!r}, and no node has that id")
        return name


def name_of(given: Any) -> Optional[Name]:
    """A node's name: a text, a whole number, or a tuple of names for a list; None for anything else."""
    if isinstance(given, (str, int)) and not isinstance(given, bool):
        return given
    if not isinstance(given, list):
        return None
    names = tuple(map(name_of, given))
    return None if None in names else names


def node_link(path: str, undirected: bool = False) -> Graph:
    return NodeLinkReader(path, undirected).read()
