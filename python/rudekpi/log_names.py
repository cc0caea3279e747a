"""The names of a log's nodes, and their numbers in the transcript."""

from __future__ import annotations

import json
from typing import Any

from . import log_lines
from .errors import BadLine
from .log_lines import shown, spelled
from .numbers import MOST_NODES


class Named:
    """The names of a log's nodes, and their numbers in the transcript."""

    def __init__(self, number: int, head: Any, ignores_extra: bool = False) -> None:
        if not isinstance(head, dict) or "nodes" not in head:
            raise BadLine(
                number, 'a log begins with {"nodes": ["a", "b", ..], "capacity": N}' + f", not {spelled(head)}"
            )
        odd = next((key for key in head if key not in ("nodes", "capacity", "absent", *log_lines.FREE)), None)
        if odd is not None and not ignores_extra:
            raise BadLine(number, f"the first line has nodes, capacity and absent, and no key {spelled(odd)}")
        nodes = head["nodes"]
        if not isinstance(nodes, (list, tuple)):
            raise BadLine(number, f"nodes is a list of names, and not {spelled(nodes)}")
        self.numbers: dict[Any, int] = {}
        self.all: list[Any] = []
        self.texts: set[str] = set()
        self.raw: dict[bytes, int] = {b"null": 0}
        self.capacity = head.get("capacity", len(nodes))
        if type(self.capacity) is not int or not len(nodes) <= self.capacity <= MOST_NODES:
            raise BadLine(
                number,
                f"capacity is a number from {len(nodes)}, how many nodes there are, to {MOST_NODES}, "
                f"and not {spelled(self.capacity)}",
            )
        for name in nodes:
            self.add(number, name)
        self.present = self.present_ones(number, head.get("absent", ()))

    def present_ones(self, number: int, absent: Any) -> list[int]:
        """The nodes that are there at the start, ascending. Raises `BadLine`."""
        if not isinstance(absent, (list, tuple)):
            raise BadLine(number, f"absent is a list of names, and not {spelled(absent)}")
        gone: set[int] = set()
        for name in absent:
            found = self.numbers.get(name) if type(name) in (str, int) else None
            if not found:
                raise BadLine(number, f"a name in absent is one of nodes, and not {spelled(name)}")
            if found in gone:
                raise BadLine(number, f"absent names {shown(name)} twice")
            gone.add(found)
        return [node for node in range(1, len(self.all) + 1) if node not in gone]

    def add(self, number: int, name: Any) -> int:
        """Gives a new name the next number. Raises `BadLine`."""
        if type(name) not in (str, int) or name == "":
            raise BadLine(
                number, f"a node's name is a text that is not empty, or a whole number, and not {spelled(name)}"
            )
        if str(name) in self.texts:
            raise BadLine(number, f"two nodes have the name {shown(name)}")
        if len(self.all) == self.capacity:
            raise BadLine(
                number,
                f"{shown(name)} is one name more than the capacity, which is {self.capacity}: raise it in line 1",
            )
        self.texts.add(str(name))
        self.all.append(name)
        self.numbers[name] = len(self.all)
        raw = json.dumps(name, ensure_ascii=False).encode("utf-8", "backslashreplace")
        if b"\\" not in raw:
            self.raw[raw] = len(self.all)
        return len(self.all)

    def number(self, line: int, name: Any) -> int:
        kind = type(name)
        if kind is str or kind is int:
            found = self.numbers.get(name)
            if found:
                return found
        raise BadLine(line, self.why_unknown(name))

    def why_unknown(self, name: Any) -> str:
        if type(name) not in (str, int):
            return f"a node's name is a text or a whole number, and not {spelled(name)}"
        other = str(name) if type(name) is int else int(name) if name.isdecimal() and len(name) < 20 else None
        if other is not None and other in self.numbers:
            return f"no node has the name {spelled(name)}: in this log it is {spelled(other)}"
        return f"no node has the name {spelled(name)}: nodes are those of line 1, and later ones come by join"

    def shown(self, number: int) -> str:
        return shown(self.all[number - 1]) if number <= len(self.all) else f"node {number}"
