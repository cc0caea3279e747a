#!/usr/bin/env python3
"""Damages graph files at random, and compares what is read with an independent reading.

usage: python/tests/graph_fuzz.py [--count N] [--seed S] [FORMAT ..]

N files of each format are read (10,000 by default). A file passes if a `ValueError` that begins with its path
refuses it, or if networkx reads the same graph. networkx has no readers for DIMACS and METIS; these are
compared with a reading that looks only for edges. Each line names a format, the number of files refused and
read, and the seconds. A file that fails is printed, and the exit status is 1. Needs networkx.
"""

from __future__ import annotations

import argparse
import collections
import dataclasses
import inspect
import io
import json
import os
import pathlib
import random
import re
import sys
import tempfile
import time
import warnings
from typing import Any, Callable, Optional
from xml.etree import ElementTree

sys.path.insert(0, os.path.join(os.path.dirname(os.path.realpath(__file__)), ".."))
from rudekpi import graphs  # noqa: E402

EDGES = [(1, 2), (2, 3), (3, 4), (4, 1), (2, 5), (5, 6)]
GRAPHML = """<?xml version='1.0' encoding='utf-8'?>
<graphml xmlns="http://graphml.graphdrawing.org/xmlns">
  <key id="d0" for="edge" attr.name="weight" attr.type="double" />
  <graph edgedefault="undirected">
    <node id="1" />
    <node id="2"><data key="d0">2</data></node>
    <node id="3" />
    <node id="4" />
    <edge source="1" target="2" />
    <edge source="2" target="3"><data key="d0">0.5</data></edge>
    <edge id="e3" source="3" target="4" directed="false" />
  </graph>
</graphml>
"""
SAMPLES: dict[str, list[str]] = {
    ".txt": [
        "# a ring and a tail\n" + "".join(f"{a} {b}\n" for a, b in EDGES) + "7\n",
        "ann bob\nbob cleo\ncleo dora # late\nann dora\n",
        "1 2 0.5\n2 3 1.5\n3\t1\t-2e3\n1 4 7\n",
    ],
    ".csv": ["".join(f"{a},{b}\n" for a, b in EDGES), "ann, bob\nbob, cleo\n", "1,2,0.5\n2,3,1.5\n1,4,0.25\n"],
    ".col": [
        "c a ring and a tail\np edge 6 6\n" + "".join(f"e {a} {b}\n" for a, b in EDGES),
        "p col 3 4\nn 1 5\ne 1 2\ne 2 1\ne 2 3\ne 3 2\n",
        "p sp 4 3\na 1 2 7\na 2 1 7\na 3 4 1\n",
    ],
    ".metis": ["% a comment\n6 6\n2 4\n1 3 5\n2 4\n3 1\n2 6\n5\n", "4 2 000\n2\n1 3\n2\n\n"],
    ".graphml": [GRAPHML, GRAPHML.replace("undirected", "directed")],
    ".json": [
        json.dumps(
            {
                "directed": False,
                "multigraph": False,
                "graph": {},
                "nodes": [{"id": node} for node in range(1, 7)],
                "links": [{"source": a, "target": b, "weight": 1} for a, b in EDGES],
            },
            indent=1,
        ),
        '{"directed": true, "nodes": [{"id": "a"}, {"id": "b"}, {"id": [0, 1]}],\n'
        ' "edges": [{"source": "a", "target": "b"}, {"source": "b", "target": "a"}]}\n',
    ],
}
WORDS = [
    *"1 2 3 7 0 -1 -5 99999999999 65536 1.0 1e3 1e400 nan inf 01 \u00b2 \u0663 1-2 a:b a: #x x# True".split(" "),
    *"e a p c n x edge col sp % # * : , ; | \t \\ { } [ ] ( ) < > & = -- -> ,, '".split(" "),
    *'directed undirected true false null id source target node edges links nodes graph " "1" <x/> &amp;'.split(" "),
    *("\n", "\r\n", "\r", "\x00", "\ufeff", "\u00a0", "\u2028", "", " ", "  "),
]
SPLIT = re.compile(r"(\s+|[,<>\"=:{}\[\]])")


@dataclasses.dataclass
class Reading:
    """A graph as an independent reader has it; nodes are texts."""

    nodes: set[str]
    edges: set[frozenset[str]]
    is_directed: bool = False
    is_multiple: bool = False


def mutated(drawn: random.Random, text: str) -> bytes:
    """A text with one to four damages, perhaps also one to a byte."""
    for _ in range(drawn.choice((1, 1, 1, 2, 4))):
        text = drawn.choice((of_words, of_words, of_lines, of_characters))(drawn, text)
    made = bytearray(text.encode())
    if made and drawn.random() < 0.1:
        made[drawn.randrange(len(made))] = drawn.randrange(256)
    return bytes(made)


def of_words(drawn: random.Random, text: str) -> str:
    words = SPLIT.split(text)
    place = drawn.randrange(len(words))
    words[place] = drawn.choice((drawn.choice(WORDS), "", words[place] * 2, drawn.choice(words)))
    return "".join(words)


def of_lines(drawn: random.Random, text: str) -> str:
    lines = text.splitlines(keepends=True) or [""]
    place, other = drawn.randrange(len(lines)), drawn.randrange(len(lines))
    way = drawn.randrange(5)
    if way == 0:
        del lines[place]
    elif way == 1:
        lines.insert(other, lines[place])
    elif way == 2:
        lines[place], lines[other] = lines[other], lines[place]
    elif way == 3:
        return "".join(lines)[: drawn.randrange(len(text) + 1)]
    else:
        lines.insert(place, drawn.choice(drawn.choice(SAMPLES[drawn.choice(list(SAMPLES))]).splitlines(keepends=True)))
    return "".join(lines)


def of_characters(drawn: random.Random, text: str) -> str:
    place = drawn.randrange(len(text) + 1)
    new = drawn.choice(
        (chr(drawn.randrange(32, 127)), drawn.choice("0123456789"), drawn.choice("\n\t ,.#-\u00b2\u00a0"))
    )
    return text[:place] + drawn.choice((new, new, "")) + text[place + drawn.randint(0, 1) :]


def of_graph(graph: Any) -> Reading:
    ends = [edge[:2] for edge in graph.edges]
    edges = {frozenset(map(str, edge)) for edge in ends}
    # in a directed graph an edge may be there in each direction
    is_multiple = graph.is_multigraph() and len(set(ends) if graph.is_directed() else edges) < len(ends)
    return Reading(set(map(str, graph.nodes)), edges, graph.is_directed(), is_multiple)


def of_edge_list(text: str, delimiter: Optional[str] = None) -> Reading:
    import networkx

    lines = [line.partition("#")[0].strip() for line in text.removeprefix("\ufeff").split("\n")]
    lines = [re.sub(r"\s*,\s*", ",", line) for line in lines if line]
    found = of_graph(networkx.parse_edgelist(lines, delimiter=delimiter, data=(("weight", float),)))
    # which networkx leaves out
    found.nodes |= {line for line in lines if len(line.split(delimiter)) == 1}
    return found


def of_dimacs(text: str) -> Reading:
    heads = re.findall(r"^[ \t]*p[ \t]+\w+[ \t]+([0-9]+)", text.removeprefix("\ufeff"), re.MULTILINE)
    edges = re.findall(r"^[ \t]*(e|a)[ \t]+([0-9]+)[ \t]+([0-9]+)\b", text.removeprefix("\ufeff"), re.MULTILINE)
    [count] = map(int, heads)
    arcs = {kind for kind, _, _ in edges}
    ends = {frozenset((str(int(a)), str(int(b)))) for _, a, b in edges}
    return Reading({str(node) for node in range(1, count + 1)}, ends, "a" in arcs)


def of_metis(text: str) -> Reading:
    rows = [line.split() for line in text.removeprefix("\ufeff").split("\n") if not line.startswith("%")]
    count = int(rows[0][0])
    edges = {frozenset((str(node), str(int(it)))) for node, row in enumerate(rows[1:], 1) for it in row}
    return Reading({str(node) for node in range(1, count + 1)}, edges)


def of_graphml(text: bytes) -> Reading:
    """networkx's reading; if it fails, as for unknown keys, that of the elements alone."""
    import networkx

    elements = list(ElementTree.parse(io.BytesIO(text)).iter())
    named = [(element.tag.rpartition("}")[2], element) for element in elements]
    ids = [str(it.get("id")) for name, it in named if name == "node"]
    ends = [(str(it.get("source")), str(it.get("target"))) for name, it in named if name == "edge"]
    ways = [it.get("edgedefault") for name, it in named if name == "graph"]
    is_directed = "directed" in ways or any(it.get("directed") == "true" for name, it in named if name == "edge")
    edges = [frozenset(edge) for edge in ends]
    is_multiple = len(set(ends)) < len(ends) or (not is_directed and len(set(edges)) < len(edges))
    found = Reading(set(ids), set(edges), is_directed, is_multiple)
    try:
        other = of_graph(networkx.read_graphml(io.BytesIO(text)))
    except Exception:
        return found
    if (other.nodes, other.edges) != (found.nodes, found.edges) and not is_directed:
        raise AssertionError("two independent readings differ")
    return found


def of_json(text: str) -> Reading:
    import networkx

    data = json.loads(text.removeprefix("\ufeff"))
    # the parameter has another name since networkx 3.4
    names = inspect.signature(networkx.node_link_graph).parameters
    key = {"edges" if "edges" in names else "link": "edges" if "edges" in data else "links"}
    found = of_graph(networkx.node_link_graph(data, **key))
    found.is_multiple |= bool(data.get("multigraph"))
    return found


READINGS: dict[str, Callable[[bytes], Reading]] = {
    ".txt": lambda text: of_edge_list(text.decode()),
    ".csv": lambda text: of_edge_list(text.decode(), ","),
    ".col": lambda text: of_dimacs(text.decode()),
    ".metis": lambda text: of_metis(text.decode()),
    ".graphml": of_graphml,
    ".json": lambda text: of_json(text.decode()),
}


def fault_of(path: pathlib.Path, text: bytes, undirected: bool) -> tuple[str, str]:
    """`refused` or `read`, and what is wrong with that, if anything."""
    path.write_bytes(text)
    with warnings.catch_warnings():
        warnings.simplefilter("ignore")
        try:
            made = graphs.read(path, undirected=undirected)
        except ValueError as error:
            return "refused", "" if str(error).startswith(f"{path}: ") else f"no path in {error}"
        except Exception as error:
            return "refused", f"raises {error!r}"
        try:
            wanted = READINGS[path.suffix](text)
        except Exception as error:
            return "read", f"the independent reading raises {error!r}"
    if wanted.is_directed and not undirected or wanted.is_multiple:
        return "read", "it is directed, or a multigraph"
    edges = {frozenset((str(a), str(b))) for a, b in made.edges}
    if len(made.nodes) != len(wanted.nodes) or set(map(str, made.nodes)) != wanted.nodes or edges != wanted.edges:
        return "read", f"read as {made.nodes} {made.edges}, and independently as {wanted}"
    return "read", ""


def fuzz(end: str, count: int, seed: int, folder: str) -> tuple[collections.Counter[str], list[str]]:
    """How many files were refused and read, and what is wrong, each with its file."""
    drawn, counts, wrong = random.Random(f"{end} {seed}"), collections.Counter[str](), []
    for number in range(count):
        text = mutated(drawn, drawn.choice(SAMPLES[end]))
        outcome, why = fault_of(pathlib.Path(folder, f"a{end}"), text, drawn.random() < 0.5)
        counts[outcome] += 1
        if why:
            wrong.append(f"{end} {number}: {why}: {text!r}")
    return counts, wrong


def main() -> int:
    words = argparse.ArgumentParser(allow_abbrev=False, usage=(__doc__ or "").split("\n\n")[1][7:])
    words.add_argument("--count", type=int, default=10_000)
    words.add_argument("--seed", type=int, default=0)
    words.add_argument("formats", nargs="*", default=list(SAMPLES), metavar="FORMAT")
    given = words.parse_args()
    failed = False
    with tempfile.TemporaryDirectory() as folder:
        for end in given.formats:
            begun = time.perf_counter()
            counts, wrong = fuzz(end, given.count, given.seed, folder)
            seconds = time.perf_counter() - begun
            print(f"{end}: {counts['refused']} refused, {counts['read']} read, {len(wrong)} wrong, {seconds:.1f} s")
            print("".join(f"  {line}\n" for line in wrong[:20]), end="", flush=True)
            failed |= bool(wrong)
    return 1 if failed else 0


if __name__ == "__main__":
    sys.exit(main())
