"""Files of experiments: plans of sweeps, in JSON or TOML, and rows, which can be played again."""

from __future__ import annotations

import importlib
import json
import re
from dataclasses import dataclass, fields, replace
from typing import Any, Callable, Iterable, Optional, Sequence

from . import daemons
from .disturbances import FILED, Disturbance
from .errors import RudekpiError
from .graphs import graph_of
from .program import Program
from .racks import read_racks
from .rows import COLUMNS, EARLIER, OPTIONAL, FoundRow, Row, RowFile
from .simple_graph import Graph
from .sweeps import Experiment, Played
from .traces import read_trace

# the parts of a disturbance that are files, and what reads them
FILES: dict[str, Callable[[str], Any]] = {"trace": read_trace, "racks": read_racks}
KEYS = ("graphs", "undirected", "rules", "daemons", "seeds", "first_seed", "disturbances")
# the parts of a disturbance in a row, and how each is read
PARTS: tuple[tuple[str, Callable[[re.Match[str]], dict[str, Any]]], ...] = (
    (
        r"([0-9]{1,20}) faults?(?: of (pointer|flag)s)?( with any value)?",
        lambda it: {"faults": int(it[1]), "registers": it[2] or "any", "any_value": bool(it[3])},
    ),
    (r"([0-9]{1,20}) joins?", lambda it: {"joins": int(it[1])}),
    (r"([0-9]{1,20}) leaves?", lambda it: {"leaves": int(it[1])}),
    (r"nodes walk ([0-9]+(?:\.[0-9]+)?(?:e[+-]?[0-9]{1,3})?)", lambda it: {"move": float(it[1])}),
    (r"([0-9]{1,20}) links? cut", lambda it: {"cut": int(it[1])}),
    (r"([0-9]{1,20}) links? added", lambda it: {"add": int(it[1])}),
    (r"([0-9]{1,20}) links? rewired", lambda it: {"rewire": int(it[1])}),
    (r"every ([0-9]{1,20}) moves?", lambda it: {"every": int(it[1])}),
)


@dataclass(frozen=True)
class Plan:
    """What a sweep plays: each graph under all rules, daemons, seeds and disturbances."""

    graphs: tuple[Graph, ...]
    rules: tuple[str, ...]
    daemons: tuple[str, ...]
    seeds: range
    disturbances: tuple[Disturbance, ...]


def read_plan(path: str) -> Plan:
    """The plan in a file: TOML if its name ends in `.toml`, else JSON.

    Raises `ValueError`, with the path, if the file is no plan, or is TOML and Python is older than 3.11.
    Raises `OSError` if the file can't be read.
    """
    with open(path, "rb") as file:
        data = file.read()
    try:
        return plan_of(toml_of(data) if path.endswith(".toml") else json.loads(data))
    except (ValueError, FileNotFoundError) as error:
        raise ValueError(f"{path}: {error}") from None


def toml_of(data: bytes) -> Any:
    try:
        reader = importlib.import_module("tomllib")
    except ImportError:
        raise ValueError("a plan in TOML needs Python 3.11 or later: write it in JSON") from None
    return reader.loads(data.decode())


def plan_of(given: Any) -> Plan:
    """The plan of an object. Raises `ValueError` for an unknown key or a wrong value."""
    if not isinstance(given, dict):
        raise ValueError("a plan is an object with the keys " + ", ".join(KEYS))
    odd = next((key for key in given if key not in KEYS), None)
    if odd is not None:
        raise ValueError(f"a plan has no key {odd!r}: its keys are {', '.join(KEYS)}")
    undirected = given.get("undirected", False)
    if undirected is not True and undirected is not False:
        raise ValueError(f"undirected is true or false, and not {undirected!r}")
    first = number_of(given, "first_seed", 0, 0)
    hits = tuple(map(disturbance_of, list_of(given, "disturbances", [{}])))
    if "graphs" in given:
        made = tuple(graph_of(word, undirected=undirected) for word in words_of(given, "graphs", []))
    else:
        made = (start_of(hits),)
    return Plan(
        made,
        words_of(given, "rules", ["manne"]),
        words_of(given, "daemons", ["seeded"]),
        range(first, first + number_of(given, "seeds", 10, 1)),
        hits,
    )


def start_of(hits: Sequence[Disturbance]) -> Graph:
    """The graph of a plan without one: that of its trace. Raises `ValueError` without a trace."""
    traces = {it.trace.title if it.trace else "": it.trace for it in hits}
    [trace, *others] = traces.values()
    if not trace or others:
        raise ValueError("a plan names its graphs, as graphs = ['ring:12', 'edges.txt'], unless it has one trace alone")
    return trace.start()


def list_of(given: dict[str, Any], key: str, usual: list[Any]) -> list[Any]:
    found = given.get(key, usual)
    if not isinstance(found, list) or not found:
        raise ValueError(f"{key} is a list with one item or more, and not {found!r}")
    return found


def words_of(given: dict[str, Any], key: str, usual: list[Any]) -> tuple[str, ...]:
    found = list_of(given, key, usual)
    odd = [word for word in found if not isinstance(word, str)]
    if odd:
        raise ValueError(f"{key} is a list of words, and {odd[0]!r} is none")
    return tuple(found)


def number_of(given: dict[str, Any], key: str, usual: int, fewest: int) -> int:
    found = given.get(key, usual)
    if type(found) is not int or found < fewest:
        raise ValueError(f"{key} is a whole number from {fewest} on, and not {found!r}")
    return found


def disturbance_of(given: Any) -> Disturbance:
    if type(given) is int:
        return Disturbance(given)
    known = {it.name: it.type for it in fields(Disturbance)}
    if not isinstance(given, dict):
        raise ValueError(f"a disturbance is a number of faults, or has the keys {', '.join(known)}, and not {given!r}")
    for key, value in given.items():
        if key not in known:
            raise ValueError(f"a disturbance has no key {key!r}: its keys are {', '.join(known)}")
        kinds: dict[Any, tuple[type, ...]] = {"str": (str,), "float": (int, float), "bool": (bool,)}
        wanted = (str,) if key in FILES else kinds.get(known[key], (int,))
        if type(value) not in wanted:
            raise ValueError(f"{key} of a disturbance is not {value!r}")
    return Disturbance(**{key: FILES[key](value) if key in FILES else value for key, value in given.items()})


def file_in(text: str) -> Optional[str]:
    """The path of the file that the disturbance of a row names; None if it names none."""
    found = FILED.search(text)
    return found[2] if found else None


def disturbance_in(text: str) -> Disturbance:
    """The disturbance that a row names; the file of a trace or of groups is read again.

    Raises `ValueError` if the text names none, `OSError` if the file can't be read, and `RudekpiError` if it
    has changed since.
    """
    if text == "start":
        return Disturbance()
    words: dict[str, Any] = {}
    if found_file := FILED.search(text):
        kind, path, digest = found_file.groups()
        key = "trace" if kind == "trace" else "racks"
        words[key] = FILES[key](path)
        if words[key].digest != digest:
            raise RudekpiError(f"another row comes of it: {path} has changed, its digest is {words[key].digest}")
        text = (text[: found_file.start()] + text[found_file.end() :]).removeprefix(", ")
    for part in text.split(", ") if text else ():
        found = next(((made, it) for of, made in PARTS if (it := re.fullmatch(of, part))), None)
        if not found:
            raise ValueError(f"{text[:80]!r} is no disturbance of a row")
        words.update(found[0](found[1]))
    return Disturbance(**words)


def experiment_of(
    row: Row, undirected: bool = False, program: Program = None, graph: Optional[Graph] = None
) -> Experiment:
    """The experiment of a row. Its graph is the one given, else it is made or read again by its title.

    The faults of a row of an earlier version have any value. Raises `ValueError` if the daemon is the
    caller's own function, or there is no such graph, and `RudekpiError` if the graph has another digest.
    """
    try:
        daemons.named(row.daemon)
    except ValueError:
        raise ValueError(f"the daemon {row.daemon[:80]!r} is none that has a word: they are {daemons.TOLD}") from None
    hit = disturbance_in(row.disturbance)
    if graph is None and hit.trace and row.graph == (start := hit.trace.start()).title:
        graph = start
    graph = graph or graph_of(row.graph, undirected=undirected)
    if row.digest not in ("", graph.digest):
        raise RudekpiError(
            f"another row comes of it: the digest of {row.graph} is {graph.digest}, and not {row.digest}; is the graph "
            "another one?"
        )
    if not row.digest:
        hit = replace(hit, any_value=True)
    asked = row.maximum is not None, row.broken is not None
    return Experiment(graph, row.rules, row.daemon, row.seed, hit, program, *asked)


def play_again(row: Row, undirected: bool = False, program: Program = None, graph: Optional[Graph] = None) -> Played:
    """The run of a row, played again; `kept_graphs.kept_graph` returns a graph that was given in Python.

    Raises `RudekpiError` if the run gives another row, for example because a file changed.
    """
    experiment = experiment_of(row, undirected, program, graph)
    played = experiment.played()
    made = experiment.measured(played, 0.0)
    known = COLUMNS if row.digest else EARLIER
    for name in (*known, *OPTIONAL):
        was, now = getattr(row, name), getattr(made, name)
        is_said_otherwise = name == "disturbance" and not row.digest
        if name != "seconds" and was != now and not is_said_otherwise:
            raise RudekpiError(f"another row comes of it: {name} is {now}, and not {was}; is the graph another one?")
    return played


def row_in(lines: Iterable[str], title: str, number: int) -> FoundRow:
    """A row of a file that a sweep wrote, from 1 on. What follows the row is not read.

    Raises `ValueError`, with the file's title, if there is no such row, or one up to it is not whole.
    """
    file, count = RowFile(lines, title), 0
    for count, found in enumerate(file, 1):
        if count == number:
            return found
    torn = f", and line {file.torn} is torn" if file.torn else ""
    raise ValueError(f"there is no row {number}: {title} has {f'rows 1 to {count}' if count else 'no rows'}{torn}")
