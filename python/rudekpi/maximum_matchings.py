"""The size of a maximum matching, to compare a network's pairs with. By networkx."""

from __future__ import annotations

import functools
from typing import Any, Sequence


def networkx() -> Any:
    try:
        import networkx as found
    except ImportError:
        raise ImportError("a maximum matching needs networkx, which is not there") from None
    return found


def check() -> None:
    """Raises `ImportError` if networkx is missing, before long work begins."""
    networkx()


def size_of(edges: Sequence[tuple[int, int]]) -> int:
    """How many edges a maximum matching of these edges has. Raises `ImportError` without networkx.

    Takes time in proportion to the edges and the root of the nodes if the graph is bipartite (Hopcroft and
    Karp), else to the cube of the nodes (Edmonds).
    """
    return size_of_edges(tuple(edges))


@functools.lru_cache(maxsize=16)
def size_of_edges(edges: tuple[tuple[int, int], ...]) -> int:
    module = networkx()
    graph = module.Graph(edges)
    if not module.is_bipartite(graph):
        return len(module.max_weight_matching(graph, maxcardinality=True))
    side = {node for node, colour in module.bipartite.color(graph).items() if colour}
    return len(module.bipartite.hopcroft_karp_matching(graph, side)) // 2
