"""Graphs to experiment on: generated, or read from files."""

from __future__ import annotations

import os
import re
from typing import Any, Callable, Optional, Tuple, Union

from .generators import complete, disk, gnp, grid, path, regular, ring, star, unit_disk
from .graph_documents import graphml, node_link
from .graph_text import dimacs, edge_list, metis
from .numbers import MOST_SEED
from .simple_graph import Graph

__all__ = [
    "Graph",
    "complete",
    "disk",
    "from_networkx",
    "gnp",
    "graph_of",
    "grid",
    "path",
    "read",
    "regular",
    "ring",
    "star",
    "unit_disk",
]

NUMBER = re.compile(r"-?(?:[0-9]{1,20}|[0-9]*\.[0-9]+|[0-9]+\.)(?:[eE][+-]?[0-9]{1,3})?")


def whole_number(text: str) -> int:
    """The number in ASCII digits, perhaps with a minus."""
    if not re.fullmatch("-?[0-9]{1,20}", text):
        raise ValueError(text)
    return int(text)


def decimal(text: str) -> float:
    """The number in ASCII digits, perhaps with a point or an exponent."""
    if not NUMBER.fullmatch(text):
        raise ValueError(text)
    return float(text)


# the generators by word, with the form and the kinds of the numbers after the colon
MADE: dict[str, tuple[Callable[..., Graph], str, tuple[Callable[[str], Any], ...]]] = {
    "path": (path, "N", (whole_number,)),
    "ring": (ring, "N", (whole_number,)),
    "star": (star, "N", (whole_number,)),
    "complete": (complete, "N", (whole_number,)),
    "grid": (grid, "RxC", (whole_number, whole_number)),
    "gnp": (gnp, "N,P,SEED", (whole_number, decimal, whole_number)),
    "regular": (regular, "N,DEGREE,SEED", (whole_number, whole_number, whole_number)),
    "disk": (disk, "N,RADIUS,SEED", (whole_number, decimal, whole_number)),
}

# the readers by file extension, and whether each takes `undirected`
READERS: dict[str, tuple[Callable[..., Graph], bool]] = {
    ".col": (dimacs, True),
    ".dimacs": (dimacs, True),
    ".metis": (metis, False),
    ".graph": (metis, False),
    ".graphml": (graphml, True),
    ".json": (node_link, True),
}


def is_path(words: str) -> bool:
    """Whether `graph_of` takes these words for the path of a file."""
    word, colon, _ = words.partition(":")
    return not colon or word not in MADE


def graph_of(words: str, *, undirected: bool = False) -> Graph:
    """The graph that a word of the command line names: `ring:100`, `gnp:100,0.05,7` or a file's path.

    Raises `FileNotFoundError` if there is no such file, and `ValueError` if the word or the file gives no
    graph.
    """
    word, colon, rest = words.partition(":")
    if is_path(words):
        if not os.path.exists(words):
            made = ", ".join(f"{name}:{of}" for name, (_, of, _) in MADE.items())
            raise FileNotFoundError(f"no file {words!r}; graphs that are made: {made}")
        return read(words, undirected=undirected)
    make, of, kinds = MADE[word]
    given = (rest.replace("x", ",") if word == "grid" else rest).split(",")
    try:
        if not len(kinds) - ("SEED" in of) <= len(given) <= len(kinds):
            raise ValueError
        numbers = [kind(text) for kind, text in zip(kinds, given)]
    except ValueError:
        raise ValueError(f"{words!r} makes no graph: it is {word}:{of}") from None
    try:
        if min(numbers) < 0:
            raise ValueError("no number is below 0")
        if len(numbers) == 3 and numbers[2] > MOST_SEED:
            raise ValueError(f"a seed is 0 to {MOST_SEED}")
        return make(*numbers)
    except ValueError as error:
        raise ValueError(f"{words!r} makes no graph: {str(error).rpartition(': ')[2]}") from None


def family_of(title: str) -> Optional[Tuple[str, int]]:
    """The family of a made graph, as `ring:N` or `regular:N,4`, and its number of nodes; None for others.

    The seed of a random graph makes no difference.
    """
    word, colon, rest = title.partition(":")
    if is_path(title):
        return None
    numbers = rest.split("x" if word == "grid" else ",")
    try:
        if word == "grid":
            return "grid:RxC", int(numbers[0]) * int(numbers[1])
        return ",".join([f"{word}:N", *numbers[1:2]]), int(numbers[0])
    except (ValueError, IndexError):
        return None


def read(path: Union[str, "os.PathLike[str]"], *, undirected: bool = False) -> Graph:
    """The graph in a file; the file's extension gives the format.

    `.col` or `.dimacs` is DIMACS, `.metis` or `.graph` METIS, `.graphml` GraphML, and `.json` node-link. Any
    other file is an edge list; its names are separated by blanks, or in a `.csv` file by commas. `undirected`
    takes a directed graph without its directions.

    Raises `ValueError`, with the line and what was expected, if the file breaks its format, and `OSError` if
    the file cannot be read. Warns if weights are left out.
    """
    end = os.path.splitext(path)[1].lower()
    reader, takes_undirected = READERS.get(end, (edge_list, False))
    return reader(os.fspath(path), undirected) if takes_undirected else reader(os.fspath(path))


def from_networkx(graph: Any, title: Optional[str] = None) -> Graph:
    """The graph of a simple undirected `networkx.Graph`, with its nodes in their order.

    The graph's title is `title`, else its name, else its numbers of nodes and edges. Raises `TypeError` if
    `graph` is no graph of networkx, and `ValueError` for a directed graph, a multigraph or a loop.
    """
    if not is_networkx(graph):
        raise TypeError(f"{graph!r} is no graph of networkx")
    if graph.is_directed() or graph.is_multigraph():
        raise ValueError("a simple undirected graph is wanted: see to_undirected and networkx.Graph")
    nodes, edges = tuple(graph.nodes), tuple((a, b) for a, b in graph.edges)
    named = title or getattr(graph, "name", "") or f"networkx:{len(nodes)},{len(edges)}"
    return Graph(str(named), nodes, edges)


def is_networkx(graph: Any) -> bool:
    """Whether this is a graph of networkx; does not import networkx."""
    return all(hasattr(graph, name) for name in ("nodes", "edges", "is_directed", "is_multigraph"))
