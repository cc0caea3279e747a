#!/usr/bin/env python3
"""A pairing layer without locks, whose nodes act on gossip: what a node knows of its neighbours may be old.

usage: examples/stale_nodes.py [--rules hh|manne] [--events N] [--seed S] [--mistake WORD] [--log FILE]

Each node sends its registers to its neighbours from time to time, and the messages take a while. A node
moves by the registers that it last received, and writes these into the log as `saw`. Meanwhile the world
cuts and adds links, and writes registers. The rules are written in this file.

`conform` judges the log by views. With --mistake node n17 breaks the rules in one way.

- guard: it abandons a neighbour that may still answer.
- low: it seduces a neighbour below it (manne).
- skip: it goes on without clearing its flag (manne).
- flag: its flag falls without a line (manne).
- twice: it moves twice by what it knew before the first move.
- unlogged: it makes some moves without a line.

The log is also written to FILE. If FILE is `-`, the log goes to standard output, and there is no verdict.
"""

from __future__ import annotations

import argparse
import heapq
import itertools
import json
import os
import random
import sys
from typing import Any, Callable, Optional

sys.path.insert(0, os.path.join(os.path.dirname(os.path.realpath(__file__)), "..", "python"))
from rudekpi import Conformance, conform  # noqa: E402

NODES = [f"n{number:02}" for number in range(1, 31)]
# the node that makes the mistake
ODD = "n17"
MISTAKES = ("guard", "low", "skip", "flag", "twice", "unlogged")
Held = tuple[Optional[str], bool]
Write = dict[str, Any]


class Clock:
    """What happens later, in the order of time."""

    def __init__(self) -> None:
        self.now, self.coming, self.order = 0.0, list[tuple[float, int, Callable[[], None]]](), itertools.count()

    def after(self, delay: float, act: Callable[[], None]) -> None:
        heapq.heappush(self.coming, (self.now + delay, next(self.order), act))

    def run(self, is_over: Callable[[], bool]) -> None:
        while not is_over():
            self.now, _, act = heapq.heappop(self.coming)
            act()


class Node:
    """A node's registers, and what it last received from its neighbours."""

    def __init__(self, name: str, net: Net) -> None:
        self.name, self.net, self.chance = name, net, random.Random(net.chance.randrange(1 << 32))
        self.pointer: Optional[str] = None
        self.flag = False
        self.neighbours: set[str] = set()
        # a new neighbour is unknown until it has sent something
        self.copies: dict[str, Held] = {}
        self.mistake = ""

    def wake(self) -> None:
        """Moves if its copies allow it, and sends its registers."""
        if self.mistake == "flag" and self.flag and self.chance.random() < 0.3:
            self.flag = False
        chosen = [self.choose(self.copies)]
        if self.mistake == "twice":
            chosen.append(self.choose(self.copies))
        for wrote in chosen:
            if wrote is not None:
                self.write(wrote)
        for name in sorted(self.neighbours):
            self.send(name)
        self.net.clock.after(self.chance.uniform(0.5, 1.5), self.wake)

    def write(self, wrote: Write) -> None:
        self.pointer, self.flag = wrote.get("pointer", self.pointer), wrote.get("flag", self.flag)
        if self.mistake != "unlogged" or self.chance.random() < 0.5:
            self.net.add(move=self.name, **wrote, saw=self.copies)

    def send(self, name: str) -> None:
        held, to = (self.pointer, self.flag), self.net.nodes[name]
        self.net.clock.after(self.chance.expovariate(2), lambda: to.receive(self.name, held))

    def receive(self, name: str, held: Held) -> None:
        if name in self.neighbours:
            self.copies[name] = held

    def choose(self, near: dict[str, Held]) -> Optional[Write]:
        """The register that the rules let the node write."""
        if self.pointer and self.pointer not in near:
            return None  # a new neighbour that has sent nothing yet
        there, flag = near[self.pointer] if self.pointer else (None, False)
        is_paired = self.pointer is not None and there == self.name
        has_flags = self.net.rules == "manne"
        if has_flags and self.flag != is_paired and not (self.flag and self.mistake == "skip"):
            return {"flag": is_paired}
        if self.pointer is not None:
            is_hopeless = flag or self.pointer < self.name if has_flags else there is not None
            is_wrong = self.mistake == "guard" and not is_paired
            return {"pointer": None} if not is_paired and (is_hopeless or is_wrong) else None
        wooing = [name for name, held in near.items() if held[0] == self.name]
        free = [name for name, held in near.items() if held == (None, False)]
        if wooing or not has_flags:
            return {"pointer": self.chance.choice(wooing or free)} if wooing or free else None
        if self.mistake == "low" and free and min(free) < self.name:
            return {"pointer": min(free)}
        above = [name for name in free if name > self.name]
        return {"pointer": max(above)} if above else None


class Net:
    def __init__(self, rules: str, seed: int, mistake: str, events: int) -> None:
        self.rules, self.events, self.clock, self.chance = rules, events, Clock(), random.Random(seed)
        self.lines = [json.dumps({"nodes": NODES})]
        self.nodes = {name: Node(name, self) for name in NODES}
        self.nodes[ODD].mistake = mistake
        for at, name in enumerate(NODES):
            for other in (NODES[at - 1], NODES[at - 7]):
                self.link(name, other)
        for node in self.nodes.values():
            self.clock.after(self.chance.random(), node.wake)
        self.clock.after(1, self.disturb)

    def run(self) -> list[str]:
        self.clock.run(lambda: len(self.lines) > self.events)
        return self.lines

    def add(self, **event: Any) -> None:
        self.lines.append(json.dumps({"time": round(self.clock.now, 3), **event}))

    def link(self, a: str, b: str) -> None:
        self.nodes[a].neighbours.add(b)
        self.nodes[b].neighbours.add(a)
        self.add(link=[a, b])

    def unlink(self, a: str, b: str) -> None:
        """Both ends know at once, and a pointer across the link is null."""
        for node, other in ((self.nodes[a], b), (self.nodes[b], a)):
            node.neighbours.remove(other)
            node.copies.pop(other, None)
            if node.pointer == other:
                node.pointer = None
        self.add(unlink=[a, b])

    def disturb(self) -> None:
        a, b = self.chance.sample(NODES, 2)
        near = sorted(self.nodes[ODD].neighbours)
        if near and self.chance.random() < 0.4:
            a = self.chance.choice(near)
        node = self.nodes[a]
        if self.chance.random() < 0.3:
            if b in node.neighbours:
                self.unlink(a, b)
            elif a != b and max(len(node.neighbours), len(self.nodes[b].neighbours)) < 6:
                self.link(a, b)
        elif a != ODD:
            node.pointer = self.chance.choice([None, *sorted(node.neighbours)])
            self.add(fault=a, pointer=node.pointer)
        self.clock.after(self.chance.expovariate(1.5), self.disturb)


def words_of(found: Conformance) -> list[str]:
    lines = [f"{found.events} events, {found.viewed} moves with a view, {found.stale_moves} refused for a stale view"]
    if found.first:
        lines.append(f"line {found.first.line}: {found.first.wrote}, and broke the rule on what it saw:")
        lines += [found.first.why, *([found.first.hint] if found.first.hint else [])]
    for row in found.tallies[:3]:
        lines.append(f"{row.node}, {row.rule}: {row.wrong} of {row.moves} wrong, {row.stale} by a stale view")
    for pair in found.ages[:3]:
        lines.append(f"{pair.reader} read {pair.read} {pair.reads} times: {pair.stale} stale, {pair.time}")
    return lines


def main() -> int:
    parser = argparse.ArgumentParser(
        allow_abbrev=False, description=__doc__, formatter_class=argparse.RawDescriptionHelpFormatter
    )
    parser.add_argument("--rules", choices=("hh", "manne"), default="manne")
    parser.add_argument("--events", type=int, default=3000)
    parser.add_argument("--seed", type=int, default=1)
    parser.add_argument("--mistake", choices=MISTAKES, default="")
    parser.add_argument("--log", metavar="FILE")
    given = parser.parse_args()
    lines = Net(given.rules, given.seed, given.mistake, given.events).run()
    if given.log:
        with open(1 if given.log == "-" else given.log, "w", encoding="utf-8") as file:
            file.write("".join(f"{line}\n" for line in lines))
    if given.log == "-":
        return 0
    found = conform(lines, given.rules, views=True)
    print("\n".join([*words_of(found), *([] if found.first else ["each node followed the rules on what it saw"])]))
    return 0 if found else 1


if __name__ == "__main__":
    sys.exit(main())
