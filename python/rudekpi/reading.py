"""Reads the texts of replies into their types. Any other text raises `ValueError` or `LookupError`."""

from __future__ import annotations

import re
from typing import TYPE_CHECKING, Any, Callable

from .answers import BASE
from .replies import Accepted, Base, Enabled, Fault, Fixed, Matching, Move, Moves, Name, Registers, Reply, Shown, Status

if TYPE_CHECKING:
    from .names import Names

MOVE = re.compile(r"([0-9]+):(?:(update|abandon)|(marry|seduce)>([0-9]+))")
FAULT = re.compile(r"(?:point ([0-9]+) ([0-9]+|-)|flag ([0-9]+) ([01]))")
STATUS = re.compile(r"nodes=([0-9]+) edges=([0-9]+) pairs=([0-9]+) enabled=([0-9]+) charge=([0-9]+) spent=([0-9]+)")
PLACE = re.compile(r"node ([0-9]+) ([0-9]+|-) ([01])")
EDGE = re.compile(r"edge ([0-9]+) ([0-9]+)")

# reads a reply, given the network's names, the entry's number, its event and its reply
Reader = Callable[["Names", int, str, str], Reply]


def read_accepted(names: Names, entry: int, event: str, text: str) -> Accepted:
    if text != "ok":
        raise ValueError
    return Accepted(entry)


def read_moves(names: Names, entry: int, event: str, text: str) -> Moves:
    moves = []
    for word in text.split(" "):
        found = MOVE.fullmatch(word)
        if not found or not event.startswith("step "):
            raise ValueError
        target = names.name_of(int(found[4])) if found[4] else None
        moves.append(Move(names.name_of(int(found[1])), found[2] or found[3], target))
    return Moves(tuple(moves), entry)


def read_shown(names: Names, entry: int, event: str, text: str) -> Shown:
    node = names.name_of(int(event.split(" ")[1]))
    return Shown(entry, node, None if text == "-" else names.name_of(int(text)))


def read_enabled(names: Names, entry: int, event: str, text: str) -> Enabled:
    rules = {}
    for word in text.split(" ") if text != "none" else []:
        number, rule = word.split(":")
        rules[names.name_of(int(number))] = rule
    return Enabled(entry, Fixed(rules))


def read_matching(names: Names, entry: int, event: str, text: str) -> Matching:
    pairs: list[tuple[Name, Name]] = []
    partners: dict[Name, Name] = {}
    for word in text.split(" ") if text != "none" else []:
        a, b = (names.name_of(int(number)) for number in word.split("-"))
        pairs.append((a, b))
        partners[a], partners[b] = b, a
    return Matching(entry, tuple(pairs), Fixed(partners))


def read_status(names: Names, entry: int, event: str, text: str) -> Status:
    found = STATUS.fullmatch(text)
    if not found:
        raise ValueError
    return Status(entry, *map(int, found.groups()))


def read_fault(names: Names, entry: int, event: str, text: str) -> Fault:
    found = FAULT.fullmatch(event)
    if not found or text != "ok":
        raise ValueError
    if found[3]:
        return Fault(entry, names.name_of(int(found[3])), "flag", found[4] == "1")
    return Fault(
        entry, names.name_of(int(found[1])), "pointer", None if found[2] == "-" else names.name_of(int(found[2]))
    )


def numbers_of(found: re.Match[str]) -> tuple[Any, ...]:
    """The numbers that a pattern found; None for a `-`."""
    return tuple(None if text == "-" else int(text) for text in found.groups())


def numbers_of_line(pattern: re.Pattern[str], line: str) -> tuple[Any, ...]:
    found = pattern.fullmatch(line)
    if not found:
        raise ValueError
    return numbers_of(found)


def rises(items: list[Any]) -> bool:
    return all(one < other for one, other in zip(items, items[1:]))


def numbers_of_base(lines: list[str]) -> tuple[int, list[Any], list[Any]]:
    """The moves spent at a base; the numbers of its nodes, pointers and flags; and those of its edges."""
    _, spent, count, _ = numbers_of_line(BASE, lines[1])
    places = [numbers_of_line(PLACE, line) for line in lines[2 : 2 + count]]
    edges = [numbers_of_line(EDGE, line) for line in lines[2 + count :]]
    if not rises([node for node, _, _ in places]) or not rises(edges) or any(a >= b for a, b in edges):
        raise ValueError
    return spent, places, edges


def read_base(names: Names, entry: int, event: str, text: str) -> Base:
    spent, places, edges = numbers_of_base(text.split("\n"))
    nodes = {}
    for node, pointer, flag in places:
        nodes[names.name_of(node)] = Registers(None if pointer is None else names.name_of(pointer), flag == 1)
    return Base(entry, spent, Fixed(nodes), tuple((names.name_of(a), names.name_of(b)) for a, b in edges))
