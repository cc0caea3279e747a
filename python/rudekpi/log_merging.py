"""Several logs as one: each machine of a running system writes its own, with a clock on each line."""

from __future__ import annotations

import contextlib
import heapq
import itertools
import os
import pathlib
import re
from typing import Any, Iterable, Iterator, List, Mapping, Optional, Tuple, Union

from .errors import BadLine
from .log_inputs import BACKWARDS, Flaw, Input, Pause, input_of
from .log_lines import Block, Log, shown, spelled, value_of
from .log_places import Place

Path = Union[str, "os.PathLike[str]"]
# the clock of a line in the spelling of most writers
CLOCK = re.compile(rb'\{(?:"time": ?[-+.0-9eE]+, ?)?"clock": ?(-?(?:0|[1-9][0-9]{0,17}))[,}]')
# how many lines of files come at once
TOGETHER = 256
# a line in its place: the clock that it counts by, the log's place by name, the line's place there, its
# number and the line
Keyed = Tuple[float, int, int, int, Any]


class Merged:
    """Logs that are read as one: give it to `conform`. Iterating yields the lines, or their values, in order."""

    def __init__(self, logs: Mapping[str, Log]) -> None:
        self.logs = dict(logs)

    def opened_log(self) -> Input:
        """Opens all logs. Raises `OSError`."""
        parts: List[Part] = []
        opened = contextlib.ExitStack()
        try:
            for rank, (name, log) in enumerate(sorted(self.logs.items())):
                source = input_of(log, name)
                opened.callback(source.close)
                parts.append(Part(rank, shown(name), source))
        except BaseException:
            opened.close()
            raise
        return Several(parts, opened)

    def __iter__(self) -> Iterator[Any]:
        with contextlib.closing(self.opened_log()) as source:
            for block in source.blocks():
                for number, line in block:
                    if isinstance(line, Flaw):
                        raise BadLine(number, line.why or "the line is cut")
                    yield line


def merged(logs: Union[Iterable[Path], Mapping[str, Any]]) -> Merged:
    """Several logs as one for `conform`: the lines by their `clock`, then by the names of the logs.

    `logs` are paths, or a dict from names to logs, each given in any way that `conform` takes. Each line but
    the first has a `clock`, a whole number that does not fall from line to line of a log. The first line comes
    from the first log, by name, that has one; other logs may repeat it. Nothing is read before `conform` does,
    and memory holds a piece of each log. Raises `ValueError` if a path is there twice, and `TypeError`.
    """
    if isinstance(logs, Mapping):
        return Merged(logs)
    if isinstance(logs, (str, bytes, os.PathLike)):
        raise TypeError(f"the logs are several paths, or a dict from names to logs, and not {logs!r}")
    paths = [os.fsdecode(path) for path in logs]
    twice = next((path for path in paths if paths.count(path) > 1), None)
    if twice is not None:
        raise ValueError(f"{shown(twice)} is given twice, and would be merged with itself")
    return Merged({path: pathlib.Path(path) for path in paths})


class Part:
    """One of the logs: its name and its lines. The first line may name the nodes."""

    def __init__(self, rank: int, name: str, source: Input) -> None:
        self.rank, self.name, self.source = rank, name, source
        self.lines: Iterator[tuple[int, Any]] = itertools.chain.from_iterable(source.blocks())

    def head(self) -> Optional[tuple[int, Any]]:
        """The first line if it names the nodes, which is then taken out of the lines."""
        first = next(self.lines, None)
        if first is None:
            return None
        number, line = first
        with contextlib.suppress(BadLine):
            value = None if isinstance(line, Flaw) else value_of(number, line)
            if isinstance(value, dict) and "nodes" in value:
                return number, value
        self.lines = itertools.chain([first], self.lines)
        return None

    def keyed(self) -> Iterator[Keyed]:
        """The lines with their clocks. After a clock that runs backwards a line keeps its place in the log."""
        last = float("-inf")
        order = itertools.count()
        for number, line in self.lines:
            clock, line = clock_of(number, line)
            if clock is not None and clock < last:
                why = f"the clock runs backwards, from {last} to {clock}"
                yield last, self.rank, next(order), number, Flaw(why, BACKWARDS)
            elif clock is not None:
                last = clock
            yield last, self.rank, next(order), number, line


def clock_of(number: int, line: Any) -> tuple[Optional[int], Any]:
    """A line's clock, and the line, its value, or what is wrong with it; no clock if something is wrong."""
    if isinstance(line, bytes):
        found = CLOCK.match(line)
        if found:
            return int(found[1]), line
    if isinstance(line, Flaw):
        return None, line
    try:
        value = value_of(number, line)
    except BadLine as bad:
        return None, Flaw(bad.why)
    if not isinstance(value, dict):
        return None, value
    if "clock" not in value:
        return None, Flaw("the line has no clock, and merged logs need one")
    clock = value["clock"]
    if type(clock) is not int:
        return None, Flaw(f"clock is a whole number, and not {spelled(clock)}")
    return clock, value


class Several(Input):
    """Open logs that are merged."""

    def __init__(self, parts: List[Part], opened: contextlib.ExitStack) -> None:
        self.parts, self.opened = parts, opened
        self.is_live = any(part.source.is_live for part in parts)
        self.order = 0

    def blocks(self, pause: Optional[Pause] = None) -> Iterator[Block]:
        """As for one log; there are no pauses."""
        yield [*self.heads()]
        lines = self.lines()
        # of what is being written each line comes at once
        size = 1 if self.is_live else TOGETHER
        while block := [*itertools.islice(lines, size)]:
            yield block

    def place(self, part: Part, number: int) -> Place:
        self.order += 1
        return Place(self.order, part.name, number)

    def heads(self) -> Iterator[tuple[int, Any]]:
        """The first line that names the nodes, and what is wrong with others."""
        first: Optional[tuple[Part, Any]] = None
        for part in self.parts:
            found = part.head()
            if found is None:
                continue
            number, value = found
            if first is None:
                first = part, value
                yield self.place(part, number), value
            elif meaning(value) != meaning(first[1]):
                why = f"the first line names other nodes than that of {first[0].name}"
                yield self.place(part, number), Flaw(why)
        if first is None and self.parts:
            why = 'none of the logs begins with {"nodes": ["a", "b", ..], "capacity": N}'
            yield self.place(self.parts[0], 1), Flaw(why)

    def lines(self) -> Iterator[tuple[int, Any]]:
        for _, rank, _, number, line in heapq.merge(*(part.keyed() for part in self.parts)):
            yield self.place(self.parts[rank], number), line

    def drain(self) -> None:
        for part in self.parts:
            part.source.drain()

    def close(self) -> None:
        self.opened.close()


def meaning(head: Mapping[str, Any]) -> tuple[Any, ...]:
    """What two first lines have to have in common."""
    nodes = head["nodes"]
    size = len(nodes) if isinstance(nodes, (list, tuple)) else 0
    return nodes, head.get("capacity", size), head.get("absent", [])
