"""Groups of nodes that fail together, as the machines of a rack: read from a file."""

from __future__ import annotations

import hashlib
import json
import os
from dataclasses import dataclass, field
from functools import cached_property
from typing import Any, Union

from .labels import visible
from .log_lines import spelled
from .records import check_keys, fault, key_of, name_in, numbers_of, records_of
from .replies import Name
from .simple_graph import Graph

HEADINGS = (["name", "group"], ["node", "group"])
Path = Union[str, "os.PathLike[str]"]
# the numbers of the nodes of a group, ascending
Group = tuple[int, ...]


@dataclass(frozen=True)
class Member:
    """A node and its group, with the line that says so."""

    name: Name
    group: str
    line: int = 0


@dataclass(frozen=True)
class Racks:
    """Which nodes belong together; the title is the file's path. Nodes that are in no group are groups alone.

    Raises `ValueError`, with title and line, if a node is there twice.
    """

    title: str
    members: tuple[Member, ...] = field(repr=False)

    def __post_init__(self) -> None:
        lines: dict[str, int] = {}
        for member in self.members:
            if str(member.name) in lines:
                why = f"{visible(member.name)} is in a group already, by line {lines[str(member.name)]}"
                raise fault(self.title, member.line, why)
            lines[str(member.name)] = member.line
        if not self.members:
            raise ValueError(f"{self.title}: no node has a group")

    def __str__(self) -> str:
        return f"by groups of {self.title} {self.digest}"

    def __getstate__(self) -> dict[str, Any]:
        # what was found for graphs is found again
        return {key: value for key, value in self.__dict__.items() if key != "known"}

    @cached_property
    def digest(self) -> str:
        """16 hexadecimal digits of the SHA-256 of the names and groups in their order, without the title."""
        rows = "".join(f"{json.dumps([str(it.name), it.group])}\n" for it in self.members)
        return hashlib.sha256(rows.encode()).hexdigest()[:16]

    @cached_property
    def known(self) -> dict[tuple[str, str], tuple[Group, ...]]:
        """The groups in graphs that were asked for."""
        return {}

    def on(self, graph: Graph) -> tuple[Group, ...]:
        """The groups of a graph's nodes by number, in the order of their least numbers.

        Takes time once for each graph. Raises `ValueError`, with title and line, for a name that is no node.
        """
        key = key_of(graph)
        if key not in self.known:
            numbers, group_of = numbers_of(graph.nodes, graph.title), dict[int, str]()
            for member in self.members:
                number = numbers.get(str(member.name))
                if number is None:
                    raise fault(self.title, member.line, f"{visible(member.name)} is no node of {graph.title}")
                group_of[number] = member.group
            groups: dict[object, list[int]] = {}
            for number in range(1, len(graph.nodes) + 1):
                # a node without a group has its number, which is no text, as its own
                groups.setdefault(group_of.get(number, number), []).append(number)
            self.known[key] = tuple(map(tuple, groups.values()))
        return self.known[key]


def read_racks(path: Path) -> Racks:
    """The groups in a file: rows `NAME,GROUP` of CSV, or JSON Lines as `{"name": "a", "group": "r1"}`.

    A line of two words without a comma is a row too, and a first row `name,group` is a heading. Raises
    `ValueError`, with file and line, for any other line, and `OSError` if the file can't be read.
    """
    title, members, is_first = os.fspath(path), [], True
    for line, record in records_of(title):
        is_heading = is_first and isinstance(record, list) and [it.lower() for it in record] in HEADINGS
        is_first = False
        if is_heading:
            continue
        try:
            members.append(member_of_row(record, line) if isinstance(record, list) else member_of_object(record, line))
        except ValueError as error:
            raise fault(title, line, str(error)) from None
    return Racks(title, tuple(members))


def member_of_row(fields: list[str], line: int) -> Member:
    words = fields[0].split() if len(fields) == 1 else fields
    if len(words) != 2:
        raise ValueError(f"expected NAME,GROUP, and not {spelled(','.join(fields))}")
    return Member(name_in(words[0]), group_in(words[1]), line)


def member_of_object(given: dict[str, Any], line: int) -> Member:
    check_keys(given, ["name", "group"])
    return Member(name_in(given["name"]), group_in(given["group"]), line)


def group_in(given: object) -> str:
    if not (isinstance(given, str) and given.strip()) and type(given) is not int:
        raise ValueError(f"a group is a text or a whole number, and not {spelled(given)}")
    return str(given)
