"""Networks that go on from the end of a transcript."""

from __future__ import annotations

import itertools
from typing import Iterable, Iterator, Optional, Union

from .answers import BASE, CHECKPOINT
from .audits import audit
from .given import Given, bytes_of
from .names import names_for
from .network import Network
from .program import Program
from .reading import MOVE, numbers_of_base, numbers_of_line
from .replies import Name


def replay(
    transcript: Given,
    *,
    names: Optional[Iterable[Name]] = None,
    program: Program = None,
    engine: Optional[str] = None,
) -> Network:
    """A network in the state at the end of a transcript, so that it can go on.

    The network's own transcript is the given one, but steps with other targets than the least have these
    targets as wishes. If the given transcript begins with a base, edits and faults lead to the state of the
    base; then the numbers of the entries differ, and moves before the base are not counted.
    `Network.resume` plays nothing again and keeps the numbers; its transcript begins at the end of this one.
    `names` are the caller's, in the order of the numbers, one for each node that was ever present.

    Raises `Damaged` if `audit` refuses the transcript, and `ValueError` if the number of names differs.
    """
    given = bytes_of(transcript)
    audit(given, program=program, engine=engine)
    text = given.decode()
    head, *parts = parts_of(text)
    _, rules, count, *rest = head[0].split(" ")
    present, edits = edits_to(head) if len(head) > 1 else (int((rest or [count])[0]), [])
    capacity = int(count)
    nodes: Union[int, list[Name]] = capacity if names is None else names_for(text, names).all()
    entries = [(CHECKPOINT, "") if len(part) > 1 else tuple(part[0].split(" ", 1)[1].split(" = ")) for part in parts]
    net = Network(rules, nodes, present=present, capacity=capacity, program=program, engine=engine)
    if len(head) == 1:
        if net._played(event for event, _ in entries) == text:
            return net
        net.close()
        net = Network(rules, nodes, present=present, capacity=capacity, program=program, engine=engine)
    net._played([*edits, *(wished(event, reply) for event, reply in entries)])
    return net


def parts_of(transcript: str) -> Iterator[list[str]]:
    """The lines of each part of an accepted transcript: its header, an entry, or a base."""
    lines = iter(transcript.splitlines())
    for line in lines:
        part = [line]
        if line.startswith("matching2 "):
            part.append(next(lines))
            _, _, nodes, edges = numbers_of_line(BASE, part[1])
            part.extend(itertools.islice(lines, nodes + edges))
        yield part


def edits_to(base: list[str]) -> tuple[int, list[str]]:
    """A run that leads to a base: how many nodes are present at first, and its edits and faults."""
    _, places, edges = numbers_of_base(base)
    # the numbers rise, so those that equal their places come first
    present = sum(number == place for place, (number, _, _) in enumerate(places, 1))
    joins = [f"join {number}" for number, _, _ in places[present:]]
    links = [f"link {a} {b}" for a, b in edges]
    points = [f"point {number} {pointer}" for number, pointer, _ in places if pointer is not None]
    flags = [f"flag {number} 1" for number, _, flag in places if flag]
    return present, [*joins, *links, *points, *flags]


def wished(event: str, reply: str) -> str:
    """A step that was carried out, with its targets as wishes; any other event unchanged."""
    if not event.startswith("step ") or reply.startswith("refused "):
        return event
    targets = {found[1]: found[4] for found in map(MOVE.fullmatch, reply.split(" ")) if found and found[4]}
    items = (item.split(">")[0] for item in event.split(" ")[1:])
    return " ".join(["step", *(f"{item}>{targets[item]}" if item in targets else item for item in items)])
