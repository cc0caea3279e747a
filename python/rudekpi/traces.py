"""Churn from a file: links and nodes that come and go at times, in the order of time."""

from __future__ import annotations

import difflib
import hashlib
import json
import math
import os
import re
from dataclasses import dataclass, field
from functools import cached_property
from typing import Any, Optional, Union

from .graph_builder import DECIMAL
from .labels import visible
from .log_lines import spelled
from .numbers import MOST_EDGES, MOST_NODES
from .records import check_keys, fault, key_of, name_in, numbers_of, records_of
from .replies import Name
from .simple_graph import Graph

# the events of a trace, and how many names each has
WORDS = {"link": 2, "unlink": 2, "join": 1, "leave": 1}
WHOLE = re.compile(r"[+-]?[0-9]{1,18}")
EXPECTED = "expected TIME,EVENT,NAME.."
Path = Union[str, "os.PathLike[str]"]


@dataclass(frozen=True)
class TraceEvent:
    """An event: its time, its word (`link`, `unlink`, `join` or `leave`), its names, and its line."""

    time: float
    word: str
    names: tuple[Name, ...]
    line: int = 0


@dataclass(frozen=True)
class Scripted:
    """A trace in a graph: all names, those of the graph first, and the events by number."""

    nodes: tuple[Name, ...]
    events: tuple[tuple[str, tuple[int, ...]], ...]


@dataclass(frozen=True)
class Trace:
    """The events of a file in their order, which is that of time; the title is the file's path.

    7 and "7" are the same name. Raises `ValueError`, with title and line, if a time is before the last one.
    """

    title: str
    events: tuple[TraceEvent, ...] = field(repr=False)

    def __post_init__(self) -> None:
        if not self.events:
            raise ValueError(f"{self.title}: a trace has an event at least, and this has none")
        for before, event in zip(self.events, self.events[1:]):
            if event.time < before.time:
                why = f"the time {event.time} is before {before.time}, that of line {before.line}: times never go back"
                raise fault(self.title, event.line, why)

    def __str__(self) -> str:
        return f"trace {self.title} {self.digest}"

    def __getstate__(self) -> dict[str, Any]:
        # what was found for graphs is found again
        return {key: value for key, value in self.__dict__.items() if key != "known"}

    @cached_property
    def digest(self) -> str:
        """16 hexadecimal digits of the SHA-256 of the events in their order, without title and lines."""
        made = hashlib.sha256()
        for event in self.events:
            made.update(json.dumps([repr(event.time), event.word, *map(str, event.names)]).encode() + b"\n")
        return made.hexdigest()[:16]

    @cached_property
    def known(self) -> dict[tuple[str, str], Scripted]:
        """The trace in graphs that were asked for."""
        return {}

    def start(self) -> Graph:
        """The graph that a trace begins with if none is given: its nodes without edges.

        A node whose first event is `join` is not in it. Nodes are in ascending order if all names are whole
        numbers, else in the order of the trace.
        """
        first: dict[str, tuple[Name, bool]] = {}
        for event in self.events:
            for name in event.names:
                first.setdefault(str(name), (name, event.word == "join"))
        names = [name for name, is_later in first.values() if not is_later]
        if all(type(name) is int for name, _ in first.values()):
            names.sort()
        return Graph(f"trace {self.title}", tuple(names), ())

    def on(self, graph: Graph) -> Scripted:
        """The trace by numbers in a network that begins as this graph. Takes time once for each graph.

        Raises `ValueError`, with title and line, for an event that the network would refuse.
        """
        key = key_of(graph)
        if key not in self.known:
            topology = Followed(graph)
            events = []
            for event in self.events:
                try:
                    events.append((event.word, topology.follow(event)))
                except ValueError as error:
                    raise fault(self.title, event.line, str(error)) from None
            self.known[key] = Scripted(tuple(topology.names), tuple(events))
        return self.known[key]


class Followed:
    """The nodes and links of a network through the events of a trace."""

    def __init__(self, graph: Graph) -> None:
        self.names: list[Name] = list(graph.nodes)
        self.numbers = numbers_of(graph.nodes, graph.title)
        self.near: dict[int, set[int]] = {number: set() for number in self.numbers.values()}
        self.links = 0
        for a, b in graph.edges:
            self.link(self.numbers[str(a)], self.numbers[str(b)])

    def follow(self, event: TraceEvent) -> tuple[int, ...]:
        """The numbers of an event's names. Raises `ValueError` if the network would refuse the event."""
        if event.word == "join":
            [name] = event.names
            return (self.join(name),)
        numbers = tuple(map(self.number_of, event.names))
        getattr(self, event.word)(*numbers)
        return numbers

    def number_of(self, name: Name) -> int:
        number = self.numbers.get(str(name))
        if number is None or number not in self.near:
            why = "is not there at that time" if number else "is no node of the graph, and has not joined"
            raise ValueError(f"{visible(name)} {why}")
        return number

    def told(self, number: int) -> str:
        return visible(self.names[number - 1])

    def join(self, name: Name) -> int:
        number = self.numbers.get(str(name))
        if number is None:
            if len(self.names) == MOST_NODES:
                raise ValueError(f"a network has at most {MOST_NODES} nodes")
            self.names.append(name)
            number = self.numbers[str(name)] = len(self.names)
        if number in self.near:
            raise ValueError(f"{visible(name)} is there already, and can't join")
        self.near[number] = set()
        return number

    def leave(self, node: int) -> None:
        for other in self.near.pop(node):
            self.near[other].remove(node)
            self.links -= 1

    def link(self, a: int, b: int) -> None:
        if a == b:
            raise ValueError(f"{self.told(a)} can't be linked with itself")
        if b in self.near[a]:
            raise ValueError(f"{self.told(a)} and {self.told(b)} are linked already")
        if self.links == MOST_EDGES:
            raise ValueError(f"a network has at most {MOST_EDGES} edges")
        self.near[a].add(b)
        self.near[b].add(a)
        self.links += 1

    def unlink(self, a: int, b: int) -> None:
        if b not in self.near[a]:
            raise ValueError(f"{self.told(a)} and {self.told(b)} are not linked")
        self.near[a].remove(b)
        self.near[b].remove(a)
        self.links -= 1


def read_trace(path: Path) -> Trace:
    """The trace in a file: `TIME,EVENT,NAME..` as CSV, or JSON Lines as `{"time": 1.5, "link": ["a", "b"]}`.

    A first row of CSV that begins with `time` is a heading. Raises `ValueError`, with file and line, for a
    line that is no event and for a time before the last one, and `OSError` if the file can't be read.
    """
    title, events, is_first = os.fspath(path), [], True
    for line, record in records_of(title):
        is_heading = is_first and isinstance(record, list) and record[:1] and record[0].lower() == "time"
        is_first = False
        if is_heading:
            continue
        try:
            events.append(event_of_row(record, line) if isinstance(record, list) else event_of_object(record, line))
        except ValueError as error:
            raise fault(title, line, str(error)) from None
    return Trace(title, tuple(events))


def event_of_row(fields: list[str], line: int) -> TraceEvent:
    if len(fields) < 2:
        raise ValueError(f"{EXPECTED}, and not {spelled(','.join(fields))}")
    time, word, *names = fields
    if not DECIMAL.fullmatch(time):
        raise ValueError(f"{spelled(time)} is no time: that is a number, as 7 or 1.5")
    return event_of(int(time) if WHOLE.fullmatch(time) else float(time), checked_word(word), names, line)


def event_of_object(given: dict[str, Any], line: int) -> TraceEvent:
    found = [key for key in given if key in WORDS]
    if len(found) != 1:
        has = f", and this has {' and '.join(found)}" if found else close_to([key for key in given if key != "time"])
        raise ValueError(f"an event is one of {', '.join(WORDS)}{has}")
    [word] = found
    check_keys(given, ["time", word])
    time, names = given["time"], given[word]
    if type(time) not in (int, float):
        raise ValueError(f"{spelled(time)} is no time: that is a number, as 7 or 1.5")
    return event_of(time, word, names if isinstance(names, list) else [names], line)


def event_of(time: float, word: str, names: list[Any], line: int) -> TraceEvent:
    if isinstance(time, float) and not math.isfinite(time):
        raise ValueError("a time is a finite number")
    if len(names) != WORDS[word]:
        wanted = "two names" if WORDS[word] == 2 else "one name"
        raise ValueError(f"{word} has {wanted}, and this line has {len(names)}")
    return TraceEvent(time, word, tuple(map(name_in, names)), line)


def checked_word(word: str) -> str:
    if word not in WORDS:
        raise ValueError(f"{spelled(word)} is no event: they are {', '.join(WORDS)}{close_to([word])}")
    return word


def close_to(words: list[Any]) -> str:
    """What was meant, if that is likely."""
    near: Optional[str] = next(
        (close for word in words for close in difflib.get_close_matches(str(word), WORDS, 1)), None
    )
    return f"; {near!r} may be meant" if near else ""
