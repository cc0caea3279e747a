"""Graphs: paths, rings, stars, complete graphs, grids, and three kinds of random graphs.

Each function checks the limits of a network before it builds anything, and takes time proportional to nodes
and edges. A seed gives the same graph on every machine.
"""

from __future__ import annotations

import itertools
import math
import random
from dataclasses import replace
from typing import Iterable, Iterator

from .numbers import MOST_EDGES
from .simple_graph import Disk, Graph, check_sizes

Edge = tuple[int, int]
# how often a regular graph is begun anew, and up to how many ends
SMALL_TRIES, SMALL_ENDS = 10, 10_000


def numbered(title: str, count: int, edges: Iterable[Edge]) -> Graph:
    """A graph of the nodes 1 to `count`; takes at most one edge more than a network can have."""
    check_sizes(title, count, 0)
    return Graph(title, tuple(range(1, count + 1)), tuple(itertools.islice(edges, MOST_EDGES + 1)))


def climbing(edges: Iterable[Edge]) -> list[Edge]:
    """The edges in ascending order; at most one more than a network can have."""
    return sorted(itertools.islice(edges, MOST_EDGES + 1))


def path(n: int) -> Graph:
    """`n` nodes in a row."""
    return numbered(f"path:{n}", n, ((a, a + 1) for a in range(1, n)))


def ring(n: int) -> Graph:
    """Three or more nodes in a ring."""
    if n < 3:
        raise ValueError(f"a ring has 3 nodes or more, and not {n}")
    return numbered(f"ring:{n}", n, itertools.chain(((a, a + 1) for a in range(1, n)), [(1, n)]))


def star(n: int) -> Graph:
    """Node 1, linked with all others."""
    return numbered(f"star:{n}", n, ((1, a) for a in range(2, n + 1)))


def complete(n: int) -> Graph:
    """All nodes, linked with each other."""
    title = f"complete:{n}"
    check_sizes(title, n, n * (n - 1) // 2)
    return numbered(title, n, pairs(n))


def grid(rows: int, columns: int) -> Graph:
    """Rows of nodes, each linked with the next in its row and in its column."""
    title = f"grid:{rows}x{columns}"
    if min(rows, columns) < 0:
        raise ValueError(f"{title}: no number is below 0")
    across = ((a, a + 1) for a in range(1, rows * columns) if a % columns)
    down = ((a, a + columns) for a in range(1, (rows - 1) * columns + 1))
    return numbered(title, rows * columns, itertools.chain(across, down))


def gnp(n: int, p: float, seed: int = 0) -> Graph:
    """Each edge with probability `p`, 0 to 1, after Gilbert, 1959.

    Skips absent edges, after Batagelj and Brandes, "Efficient generation of large random networks", 2005.
    """
    title = f"gnp:{n},{shortest(p)},{seed}"
    if not 0 <= p <= 1:
        raise ValueError(f"a chance is 0 to 1, and not {p:g}")
    check_sizes(title, n, n * (n - 1) // 2 if p == 1 else 0)
    return numbered(title, n, climbing(drawn_pairs(n, p, random.Random(seed))))


def drawn_pairs(n: int, p: float, drawn: random.Random) -> Iterator[Edge]:
    """Each pair of the nodes 1 to `n` with probability `p`, by the higher node, then by the lower."""
    if p == 1:
        yield from pairs(n)
    if not 0 < p < 1:
        return
    # pairs of indices from 0 on, (0, 1), (0, 2), (1, 2), (0, 3) ..; the gap between two present ones is
    # geometric
    low, high, scale = -1, 1, math.log1p(-p)
    while high < n:
        gap = math.log(1.0 - drawn.random()) / scale
        if gap > n * n:
            return
        low += 1 + int(gap)
        while low >= high and high < n:
            low -= high
            high += 1
        if high < n:
            yield low + 1, high + 1


def regular(n: int, degree: int, seed: int = 0) -> Graph:
    """A graph whose nodes each have `degree` neighbours.

    Free ends of edges are joined at random, after Steger and Wormald, "Generating random regular graphs
    quickly", 1999. If that fails, edges are switched, after McKay and Wormald, "Uniform generation of random
    regular graphs of moderate degree", 1990. If `degree` is more than half of the possible neighbours, the
    complement is drawn.
    """
    title = f"regular:{n},{degree},{seed}"
    if n < 0:
        raise ValueError(f"{title}: no number is below 0")
    if n * degree % 2 or not 0 <= degree < n:
        raise ValueError(f"no graph of {n} nodes has {degree} neighbours at each")
    check_sizes(title, n, n * degree // 2)
    drawn, rest = random.Random(seed), n - 1 - degree
    if rest < degree:
        left_out = joined(n, rest, drawn)
        return numbered(title, n, (pair for pair in pairs(n) if pair not in left_out))
    return numbered(title, n, sorted(joined(n, degree, drawn)))


def joined(n: int, degree: int, drawn: random.Random) -> set[Edge]:
    """The edges of a regular graph whose degree is at most half of the possible neighbours.

    Before edges are switched, a small graph is begun anew up to nine times, a large one never.
    """
    for _ in range(SMALL_TRIES if n * degree <= SMALL_ENDS else 1):
        made = EndJoiner(n, degree, drawn)
        made.join_free_ends()
        if not made.ends:
            return made.edges
    made.switch_edges()
    while made.ends:
        made = EndJoiner(n, degree, drawn)
        made.join_free_ends()
        made.switch_edges()
    return made.edges


class EndJoiner:
    """One try to join the edge ends of a regular graph; `ends` has the node of each free end."""

    def __init__(self, n: int, degree: int, drawn: random.Random) -> None:
        self.ends = [node for node in range(1, n + 1) for _ in range(degree)]
        self.edges: set[Edge] = set()
        self.misses, self.drawn = 100 * degree + 100, drawn

    def may_join(self, a: int, b: int) -> bool:
        return a != b and (min(a, b), max(a, b)) not in self.edges

    def join_free_ends(self) -> None:
        """Joins two free ends at a time, until none is free or too many tries failed."""
        ends = self.ends
        while ends and self.misses:
            a, b = sorted(self.drawn.sample(range(len(ends)), 2))
            if not self.may_join(ends[a], ends[b]):
                self.misses -= 1
                continue
            self.edges.add((min(ends[a], ends[b]), max(ends[a], ends[b])))
            for place in (b, a):
                ends[place] = ends[-1]
                ends.pop()

    def switch_edges(self) -> None:
        """Joins the remaining ends: for free ends a and b, the edges a-x and b-y replace an edge x-y."""
        edges, misses = sorted(self.edges), 100 * len(self.ends) + 100
        self.drawn.shuffle(self.ends)
        while self.ends and edges and misses:
            (a, b), place = self.ends[-2:], self.drawn.randrange(len(edges))
            x, y = edges[place] if self.drawn.random() < 0.5 else edges[place][::-1]
            if not (self.may_join(a, x) and self.may_join(b, y)):
                misses -= 1
                continue
            del self.ends[-2:]
            self.edges.remove(edges[place])
            edges[place] = (min(a, x), max(a, x))
            edges.append((min(b, y), max(b, y)))
            self.edges.update((edges[place], edges[-1]))


def disk(n: int, radius: float, seed: int = 0) -> Graph:
    """Random points in a square of side 1, linked if they are within the radius of each other."""
    title = f"disk:{n},{shortest(radius)},{seed}"
    if not 0 <= radius < math.inf:
        raise ValueError(f"{title}: a radius is a number from 0 on; no number is below 0")
    check_sizes(title, n, 0)
    drawn = random.Random(seed)
    at = [(drawn.random(), drawn.random()) for _ in range(n)]
    return replace(numbered(title, n, near_pairs(at, radius)), disk=Disk(radius, tuple(at)))


# the name in the literature
unit_disk = disk


def near_pairs(at: list[tuple[float, float]], radius: float) -> Iterator[Edge]:
    """The pairs of points, numbered from 1, within the radius of each other, ascending.

    A point is compared with those in the nine cells around it; a cell's side is more than the radius.
    """
    most = math.isqrt(len(at))
    side = max(1, most if radius * (most + 1) < 1 else int(1 / radius) - 1)
    cells: dict[tuple[int, int], list[int]] = {}
    for node, (x, y) in enumerate(at, 1):
        cells.setdefault((int(x * side), int(y * side)), []).append(node)
    for a, (x, y) in enumerate(at, 1):
        across, up = int(x * side), int(y * side)
        around = (cells.get((i, j), ()) for i in (across - 1, across, across + 1) for j in (up - 1, up, up + 1))
        near = (b for cell in around for b in cell if b > a and math.dist((x, y), at[b - 1]) <= radius)
        yield from ((a, b) for b in sorted(near))


def pairs(n: int) -> Iterator[Edge]:
    return ((a, b) for a in range(1, n + 1) for b in range(a + 1, n + 1))


def shortest(number: float) -> str:
    """The text of a number in a title: different numbers have different texts."""
    return f"{number:g}" if float(f"{number:g}") == number else repr(number)
