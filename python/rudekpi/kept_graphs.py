"""Graphs of a sweep that no word makes and no file has: kept next to the rows, so that the rows play again.

The graphs of `rows.csv` are in the folder `rows.csv.graphs`. Each is a node-link JSON file, named by its
title.
"""

from __future__ import annotations

import contextlib
import hashlib
import itertools
import json
import os
import warnings
from typing import Any, Generator, Iterable, Optional, TextIO, TypeVar
from urllib.parse import quote

from .files import write_whole
from .graph_documents import json_of
from .graphs import MADE, graph_of
from .replies import Name
from .simple_graph import Graph, written_name

Item = TypeVar("Item")
FOLDER = ".graphs"
# how long the name of a file may be before its end
LONGEST = 120


def folder_of(rows: str) -> str:
    return rows + FOLDER


def path_of(rows: str, title: str) -> str:
    name = quote(title, safe=" ,()+=@")
    if len(name) > LONGEST:
        name = f"{name[:LONGEST]}-{hashlib.sha256(title.encode('utf-8', 'surrogatepass')).hexdigest()[:16]}"
    return os.path.join(folder_of(rows), f"{name}.json")


def is_known(graph: Graph) -> bool:
    """Whether a graph's title makes the same graph again, or is the path of a file."""
    if graph.title.partition(":")[0] not in MADE:
        return os.path.exists(graph.title)
    with contextlib.suppress(ValueError, OSError):
        return graph_of(graph.title) == graph
    return False


def read_name(given: Any) -> Name:
    return tuple(map(read_name, given)) if isinstance(given, list) else given


def keep_graphs(rows: str, graphs: Iterable[Graph], goes_on: bool = False) -> None:
    """Keeps graphs next to the file of rows at a path.

    Warns of a graph with a name that JSON cannot have: the rows of this graph do not play again. Raises
    `OSError`, and `ValueError` if the file has rows already (`goes_on`) and another graph of that title is
    kept.
    """
    for graph in graphs:
        if is_known(graph):
            continue
        try:
            nodes = [{"id": written_name(node)} for node in graph.nodes]
            links = [{"source": written_name(a), "target": written_name(b)} for a, b in graph.edges]
        except TypeError:
            warnings.warn(
                f"{graph.title}: the graph is not kept, and its rows do not play again: a name is neither a text, a "
                "number nor a tuple of them",
                stacklevel=2,
            )
            continue
        path = path_of(rows, graph.title)
        if goes_on and os.path.exists(path) and read_graph(path, graph.title) != graph:
            raise ValueError(f"{path}: another graph has the title {graph.title!r}, and rows of it are there")
        os.makedirs(folder_of(rows), exist_ok=True)
        made = {"directed": False, "multigraph": False, "graph": {"name": graph.title}, "nodes": nodes, "links": links}
        write_whole(path, (json.dumps(made, separators=(",", ":")) + "\n").encode())


def read_graph(path: str, title: str) -> Graph:
    """Raises `ValueError` if the file has no graph, and `OSError`."""
    found = json_of(path)
    try:
        nodes = tuple(read_name(node["id"]) for node in found["nodes"])
        edges = tuple((read_name(edge["source"]), read_name(edge["target"])) for edge in found["links"])
        return Graph(title, nodes, edges)
    except (TypeError, KeyError):
        raise ValueError(f"{path}: no graph that a sweep has kept") from None


def kept_graph(rows: str, title: str) -> Optional[Graph]:
    """The kept graph of a title; None if there is none. Raises `ValueError` and `OSError`."""
    path = path_of(rows, title)
    return read_graph(path, title) if os.path.exists(path) else None


def keep_beside(file: TextIO, graphs: Iterable[Graph], goes_on: bool) -> None:
    path = getattr(file, "name", None)
    if isinstance(path, str) and os.path.isfile(path):
        keep_graphs(path, graphs, goes_on)


class Rows(Generator[Item, None, None]):
    """The rows of a sweep, as they come, with the sweep's graphs and the columns that the rows have."""

    def __init__(self, rows: Generator[Item, None, None], graphs: Iterable[Graph], columns: tuple[str, ...]) -> None:
        self._rows, self.graphs, self.columns = rows, tuple(graphs), columns
        self._first: list[Item] = []

    def wait(self) -> None:
        """Waits for the first row, or raises what prevents it; nothing needs to be written before."""
        self._first += itertools.islice(self._rows, 1)

    def send(self, value: None) -> Item:
        return self._first.pop() if self._first else self._rows.send(value)

    def throw(self, *given: Any) -> Item:
        return self._rows.throw(*given)

    def close(self) -> None:
        self._rows.close()
