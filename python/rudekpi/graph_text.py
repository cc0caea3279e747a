"""Graphs in text files with an edge or a node a line: edge lists, DIMACS and METIS.

A line that breaks the format is refused; the error has the line's number and what was expected. So a file of
another format gives no wrong graph.
"""

from __future__ import annotations

import itertools
import re
from typing import Iterator, Optional

from .graph_builder import DECIMAL, GraphBuilder, whole
from .simple_graph import Graph

# a node of a METIS file may have 65,534 neighbours
MOST_LINE = 1_048_576
# characters that no name has: signs of other formats (CSV, JSON, XML, DOT, GML, Pajek), and quotes
FOREIGN = re.compile(r"""[,;|<>={}\[\]()"'`]|^[*%]|:$""")
PLAIN = re.compile(r"\w+")
KINDS = ("edge", "edges", "col", "sp")
ADJACENCY = "an adjacency list? each third word may be a node too; if they are weights, write them as 1.0"


def lines_of(path: str) -> Iterator[tuple[int, str]]:
    """Each line with its number.

    Raises `ValueError` for a line that has more than 1,048,576 bytes or is not UTF-8.
    """
    with open(path, "rb") as file:
        for number in itertools.count(1):
            line = file.readline(MOST_LINE + 1)
            if not line:
                return
            if len(line) > MOST_LINE:
                raise ValueError(f"{path}: line {number}: it has more than {MOST_LINE} bytes")
            try:
                text = line.decode("utf-8-sig" if number == 1 else "utf-8")
            except UnicodeDecodeError as error:
                raise ValueError(f"{path}: line {number}: no UTF-8: byte {line[error.start]:#04x}") from None
            yield number, text.rstrip("\r\n")


def words_of(made: GraphBuilder, at: int, line: str, separator: str = "") -> list[str]:
    """The words of a line: between blanks, or between separators with blanks around them.

    Raises `ValueError` for characters that are not printable, and for a word that is empty or contains a
    blank.
    """
    line = line.replace("\t", " ")
    if not line.isprintable():
        odd = next(char for char in line if not char.isprintable())
        raise made.error(at, f"{odd!r} stands in no graph of text")
    if not separator:
        return [word for word in line.split(" ") if word]
    words = [word.strip(" ") for word in line.split(separator)] if line.strip(" ") else []
    for word in words:
        if not word or " " in word:
            raise made.error(at, f"expected names with one {separator!r} between them, and not {line.strip()!r}")
    return words


class EdgeListReader:
    """Reads two names a line, perhaps followed by a number, the weight. A line with one name adds a node."""

    def __init__(self, path: str) -> None:
        self.made = GraphBuilder(path)
        self.separator = "," if path.lower().endswith(".csv") else ""
        self.is_weighted: Optional[bool] = None
        # the first line with a name that is more than letters, digits and `_`
        self.odd: Optional[tuple[int, str]] = None
        self.first: Optional[tuple[int, list[str]]] = None
        self.edge_lines, self.node_lines = 0, 0
        # the first words, and the weights that might be third words of an adjacency list, until the lines
        # rule one out
        self.sources: set[str] = set()
        self.thirds: set[str] = set()
        self.may_be_adjacency = True

    def read(self) -> Graph:
        for at, line in lines_of(self.made.path):
            words = words_of(self.made, at, self.without_comment(at, line), self.separator)
            if words:
                self.check_words(at, words)
                self.take(at, words)
        if self.odd and not self.made.edge_count:
            raise self.made.error(
                self.odd[0], f"expected two names, and not {self.odd[1]!r} alone: no line has an edge"
            )
        if self.is_weighted and self.may_be_adjacency and all(map(self.made.has_node, self.thirds)):
            raise self.made.error(self.first[0] if self.first else None, ADJACENCY)
        is_numbered = all(whole(name) is not None and str(int(name)) == name for name in self.made.nodes)
        self.check_heading(is_numbered)
        return self.made.numbered_graph() if is_numbered else self.made.graph()

    def without_comment(self, at: int, line: str) -> str:
        """The line up to a `#`, which begins a comment at the line's start or after a blank."""
        begun = line.find("#")
        if begun > 0 and line[begun - 1] not in " \t,":
            raise self.made.error(at, "no name has a `#`, which begins a comment behind a blank")
        return line if begun < 0 else line[:begun]

    def check_words(self, at: int, words: list[str]) -> None:
        for word in words:
            found = FOREIGN.search(word)
            if found:
                more = "; a file with commas is named .csv" if "," in word else ""
                raise self.made.error(at, f"expected names, and no {found[0]!r} as in {word!r}{more}")
        if len(words) > 3 or len(words) == 3 and not DECIMAL.fullmatch(words[2]):
            raise self.made.error(
                at, f"expected two names, and at most one number as a weight behind them, and not {' '.join(words)!r}"
            )
        has_weight = len(words) == 3
        if self.is_weighted not in (None, has_weight) and len(words) > 1 or self.is_weighted and len(words) == 1:
            raise self.made.error(at, "expected a weight in each line or in none: an adjacency list?")

    def take(self, at: int, words: list[str]) -> None:
        for word in words[:2]:
            self.made.add_node(word, at)
            if not self.odd and not PLAIN.fullmatch(word):
                self.odd = at, word
        self.first = self.first or (at, words)
        if len(words) == 1:
            self.node_lines += 1
            return
        if self.is_weighted is None and len(words) == 3 and self.node_lines:
            raise self.made.error(at, "expected no weight, since a line before has a node alone: an adjacency list?")
        self.is_weighted, self.edge_lines = len(words) == 3, self.edge_lines + 1
        weight = float(words[2]) if self.is_weighted else None
        self.look_for_adjacency(words)
        self.made.add_edge(words[0], words[1], at, both_ways=True, weight=weight)

    def look_for_adjacency(self, words: list[str]) -> None:
        """Notes whether the lines may be an adjacency list, where a node begins only one line."""
        if self.may_be_adjacency and self.is_weighted:
            self.may_be_adjacency = words[0] not in self.sources and words[2] not in words[:2]
            self.sources.add(words[0])
            self.thirds.add(words[2])

    def check_heading(self, is_numbered: bool) -> None:
        """Raises `ValueError` if the first line may be a heading: titles, or numbers of nodes and edges."""
        if not self.first or len(self.first[1]) < 2:
            return
        at, words = self.first
        if not is_numbered:
            rest = [name for name in self.made.nodes if name not in words[:2]]
            if rest and all(map(is_number, rest)) and not any(map(is_number, words[:2])):
                raise self.made.error(at, f"are {words[0]!r} and {words[1]!r} titles? then begin the line with `#`")
            return
        nodes, count = int(words[0]), int(words[1])
        names = [int(name) for name in self.made.nodes]
        follow = self.edge_lines - 1
        is_counts = count == follow or (bool(self.node_lines) and nodes == follow + self.node_lines)
        if is_counts and follow and max(names) <= nodes:
            raise self.made.error(
                at,
                "are these the numbers of nodes and edges? then begin the line with `#`; "
                f"else write `{words[1]} {words[0]}`",
            )


def is_number(name: str) -> bool:
    return whole(name) is not None


def edge_list(path: str) -> Graph:
    """The graph of an edge list, whose names are separated by blanks or tabs; in a `.csv` file by commas."""
    return EdgeListReader(path).read()


class DimacsReader:
    """Reads a line `p edge N M`, then a line `e A B` for each edge; or `p sp N M` and `a A B W`, directed."""

    def __init__(self, path: str, undirected: bool) -> None:
        self.made, self.undirected = GraphBuilder(path), undirected
        self.kind, self.nodes, self.told, self.lines, self.heading = "", 0, 0, 0, 0

    def read(self) -> Graph:
        for at, line in lines_of(self.made.path):
            if line == "c" or line.startswith(("c ", "c\t")):
                continue
            words = words_of(self.made, at, line)
            if words:
                self.take(at, words)
        if not self.heading:
            raise self.made.error(None, "expected one line p, as `p edge 4 3`, and there is none")
        if self.told not in (self.lines, self.made.edge_count):
            raise self.made.error(self.heading, f"it has {self.told} edges, and {self.lines} lines with edges follow")
        return self.made.graph()

    def take(self, at: int, words: list[str]) -> None:
        if words[0] == "p":
            self.begin(at, words)
        elif not self.heading:
            raise self.made.error(at, f"expected the line p first, as `p edge 4 3`, and not {' '.join(words)[:60]!r}")
        elif words[0] == ("a" if self.kind == "sp" else "e"):
            self.take_edge(at, words)
        elif self.kind == "sp" or words[0] not in ("n", "d", "v", "x"):
            # these lines are weights of nodes and sizes of geometric graphs, and no edge depends on them
            raise self.made.error(at, f"expected `{'a A B W' if self.kind == 'sp' else 'e A B'}`, and not {words[0]!r}")

    def begin(self, at: int, words: list[str]) -> None:
        if self.heading:
            raise self.made.error(at, f"expected one line p, and line {self.heading} is one")
        numbers = [whole(word) for word in words[2:]]
        if len(words) != 4 or words[1] not in KINDS or None in numbers:
            raise self.made.error(at, f"expected `p edge N M`, two numbers from 0 on, and not {' '.join(words)[:60]!r}")
        if words[1] == "sp" and not self.undirected:
            raise self.made.error(at, "`p sp` is of a directed graph: --undirected takes its edges without directions")
        self.kind, self.heading = words[1], at
        self.nodes, self.told = (number or 0 for number in numbers)
        self.made.add_nodes(range(1, self.nodes + 1), self.nodes, at)

    def take_edge(self, at: int, words: list[str]) -> None:
        most = 4 if self.kind == "sp" else 3
        a, b = (whole(word) if len(words) == most else None for word in (words + ["", ""])[1:3])
        if a is None or b is None or (most == 4 and not DECIMAL.fullmatch(words[3])):
            raise self.made.error(at, f"expected `{'a A B W' if most == 4 else 'e A B'}`, and not {' '.join(words)!r}")
        for node in (a, b):
            if not 1 <= node <= self.nodes:
                raise self.made.error(at, f"expected nodes 1 to {self.nodes}, and not {node}")
        self.lines += 1
        self.made.add_edge(a, b, at, both_ways=True)


def dimacs(path: str, undirected: bool = False) -> Graph:
    """The graph of a DIMACS file; an edge may be named once from each of its nodes."""
    return DimacsReader(path, undirected).read()


class MetisReader:
    """Reads a line `N M`, then a line for each node with its neighbours; `%` begins a comment line."""

    def __init__(self, path: str) -> None:
        self.made = GraphBuilder(path)
        self.nodes, self.told, self.node, self.heading = 0, 0, 0, 0

    def read(self) -> Graph:
        for at, line in lines_of(self.made.path):
            if line.startswith("%"):
                continue
            words = words_of(self.made, at, line)
            if not self.heading:
                self.begin(at, words)
            else:
                self.take(at, words)
        if not self.heading:
            raise self.made.error(None, "expected a line `N M`, with which a METIS graph begins")
        if self.node < self.nodes:
            raise self.made.error(self.heading, f"it has {self.nodes} nodes, and {self.node} lines follow")
        self.check_edges()
        return self.made.graph()

    def begin(self, at: int, words: list[str]) -> None:
        numbers = [whole(word) for word in words]
        if len(numbers) == 3 and numbers[2]:
            raise self.made.error(at, f"expected a METIS graph without weights, and not of the kind {words[2]}")
        if len(numbers) not in (2, 3) or None in numbers:
            raise self.made.error(
                at, f"expected `N M`, with which a METIS graph begins, and not {' '.join(words)[:60]!r}"
            )
        self.heading, self.nodes, self.told = at, numbers[0] or 0, numbers[1] or 0
        self.made.add_nodes(range(1, self.nodes + 1), self.nodes, at)

    def take(self, at: int, words: list[str]) -> None:
        """Reads the line of the next node; blank lines may follow the last one."""
        if self.node == self.nodes:
            if words:
                raise self.made.error(at, f"expected the end, behind {self.nodes} lines of nodes")
            return
        self.node += 1
        for word in words:
            other = whole(word)
            if other is None or not 1 <= other <= self.nodes:
                raise self.made.error(at, f"expected neighbours 1 to {self.nodes}, and not {word!r}")
            self.made.add_edge(self.node, other, at, both_ways=True)

    def check_edges(self) -> None:
        """Raises `ValueError` unless both ends name each edge, and the first line has the number of edges."""
        lone = self.made.one_sided()
        if lone:
            raise self.made.error(lone[2], f"node {lone[0]} names {lone[1]}, and {lone[1]} does not name {lone[0]}")
        if self.made.edge_count != self.told:
            raise self.made.error(self.heading, f"it has {self.told} edges, and there are {self.made.edge_count}")


def metis(path: str) -> Graph:
    """The graph of a METIS file without weights."""
    return MetisReader(path).read()
