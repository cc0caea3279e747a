#!/usr/bin/env python3
"""A pairing layer of your own, whose log is judged: its nodes know each other by messages alone.

Each node has its own registers and rules, while the world cuts links, removes nodes and writes registers.

usage: examples/own_nodes.py [--rules hh|manne] [--proved] [--saw] [--events N] [--seed S]
                             [--mistake low|stale|late] [--log FILE]

A node moves after all its neighbours, and the node itself, have granted it their locks. Each grant carries
the granter's registers. Then the node chooses its move by these copies, writes the move into the log, and
releases all locks with its new registers. The rules are written in this file; with --proved the nodes ask
rudekpi.local_rule, the proved rule of one node. With --mistake one node breaks the rules: with `low` it
seduces a neighbour below it, with `stale` it chooses by the copies that it had before it asked for the
locks, and with `late` it writes after it has released the locks. With --saw the log has what each node saw.
The log is also written to FILE. If FILE is `-`, the log goes to standard output, and there is no verdict.
"""

from __future__ import annotations

import argparse
import asyncio
import json
import os
import random
import sys
from typing import Any, Optional

sys.path.insert(0, os.path.join(os.path.dirname(os.path.realpath(__file__)), "..", "python"))
from rudekpi import conform  # noqa: E402

NODES = [f"n{number:02}" for number in range(1, 31)]
# the node that makes the mistake
ODD = "n17"
# how many turns it is late
LATE = 20
WORLD = "world"
Held = tuple[Optional[str], bool]
Message = tuple[str, str, Optional[Held]]


class Log:
    """What is observed, in order: a JSON object a line."""

    def __init__(self, most: int) -> None:
        self.most, self.lines = most, [json.dumps({"nodes": NODES, "capacity": len(NODES)})]
        self.is_full = asyncio.Event()

    def add(self, **event: Any) -> None:
        if len(self.lines) <= self.most:
            self.lines.append(json.dumps(event))
        if len(self.lines) > self.most:
            self.is_full.set()


class Peer:
    """Asks for locks in the order of the names, so that no circle of waiting arises."""

    def __init__(self, name: str, mail: dict[str, asyncio.Queue[Message]]) -> None:
        self.name, self.mail = name, mail
        mail[name] = asyncio.Queue()
        self.granted: asyncio.Queue[tuple[str, Optional[Held]]] = asyncio.Queue()

    def send(self, to: str, word: str, held: Optional[Held] = None) -> None:
        self.mail[to].put_nowait((word, self.name, held))

    async def lock(self, names: set[str]) -> dict[str, Held]:
        """Waits until these nodes have granted their locks; returns what each holds."""
        found: dict[str, Held] = {}
        for name in sorted(names):
            self.send(name, "ask")
            granter, held = await self.granted.get()
            assert granter == name and held is not None
            found[name] = held
        return found

    def let_go(self, names: set[str]) -> None:
        for name in sorted(names):
            self.send(name, "free")

    async def receive(self) -> None:
        while True:
            word, sender, held = await self.mail[self.name].get()
            self.take(word, sender, held)

    def take(self, word: str, sender: str, held: Optional[Held]) -> None:
        if word == "grant":
            self.granted.put_nowait((sender, held))


class Node(Peer):
    """A node's registers, its neighbours' last known ones, and the holder of its lock."""

    def __init__(
        self, name: str, mail: dict[str, asyncio.Queue[Message]], rules: str, log: Log, is_proved: bool, has_saw: bool
    ) -> None:
        super().__init__(name, mail)
        self.rules, self.log, self.is_proved, self.has_saw = rules, log, is_proved, has_saw
        self.pointer: Optional[str] = None
        self.flag = False
        self.copies: dict[str, Held] = {}
        self.waiting: list[str] = []
        self.is_locked = False
        # set when it, or what it knows of its neighbours, changes
        self.news = asyncio.Event()
        self.mistake = ""

    def take(self, word: str, sender: str, held: Optional[Held]) -> None:
        super().take(word, sender, held)
        if word == "ask":
            self.waiting.append(sender)
        elif word == "free":
            self.is_locked = False
        elif word == "told" and held is not None and sender in self.copies:
            self.copies[sender] = held
            self.news.set()
        if self.waiting and not self.is_locked:
            self.is_locked = True
            self.send(self.waiting.pop(0), "grant", (self.pointer, self.flag))

    def tell(self) -> None:
        """Sends its registers to its neighbours, without a lock: they see that they may move."""
        self.news.set()
        for name in self.copies:
            self.send(name, "told", (self.pointer, self.flag))

    async def live(self, chance: random.Random) -> None:
        """Makes moves, each some time after the node's copies allow one."""
        while True:
            await self.news.wait()
            self.news.clear()
            for _ in range(chance.randrange(1, 6)):
                await asyncio.sleep(0)
            seen = dict(self.copies)
            if self.choose(seen, chance) is None:
                continue
            names = {self.name, *seen}
            held = await self.lock(names)
            # a link that came meanwhile has an end that is not locked
            if set(self.copies) <= names:
                self.copies.update({name: held[name] for name in self.copies})
                near = seen if self.mistake == "stale" else dict(self.copies)
                chosen = self.choose(near, chance)
                own = self.pointer, self.flag, set(self.copies)
                if self.mistake == "late":
                    self.let_go(names)
                    await self.dawdle()
                # what else changed its registers or links meanwhile is no mistake of the node
                self.move(chosen if own == (self.pointer, self.flag, set(self.copies)) else None, near)
                if self.mistake == "late":
                    continue
            else:
                self.news.set()
            self.let_go(names)

    @staticmethod
    async def dawdle() -> None:
        """Lets the others take some turns; how many does not depend on the clock."""
        for _ in range(LATE):
            await asyncio.sleep(0)

    def move(self, chosen: Optional[dict[str, Any]], near: dict[str, Held]) -> None:
        if chosen is None:
            return
        self.pointer = chosen.get("pointer", self.pointer)
        self.flag = chosen.get("flag", self.flag)
        self.log.add(move=self.name, **chosen, **({"saw": near} if self.has_saw else {}))
        self.tell()

    def choose(self, near: dict[str, Held], chance: random.Random) -> Optional[dict[str, Any]]:
        """The register that the rules let the node write."""
        if self.is_proved and self.mistake != "low":
            return self.choose_proved(near)
        if self.rules == "hh":
            return self.choose_alone(near, chance)
        return self.choose_with_flag(near, chance)

    def choose_proved(self, near: dict[str, Held]) -> Optional[dict[str, Any]]:
        """By the proved rule of one node."""
        from rudekpi import local_rule

        made = local_rule(self.rules, me=self.name, pointer=self.pointer, flag=self.flag, neighbours=near)
        # a link that goes takes the pointers with it, so only old copies need a repair
        if made is None or made.rule == "repair":
            return None
        return {"flag": made.flag} if made.rule == "update" else {"pointer": made.pointer}

    def choose_alone(self, near: dict[str, Held], chance: random.Random) -> Optional[dict[str, Any]]:
        """By the rules of Hsu and Huang."""
        if self.pointer is not None:
            there = near[self.pointer][0] if self.pointer in near else None
            return {"pointer": None} if there not in (None, self.name) else None
        wooing = [name for name, (pointer, _) in near.items() if pointer == self.name]
        free = wooing or [name for name, (pointer, _) in near.items() if pointer is None]
        return {"pointer": chance.choice(free)} if free else None

    def choose_with_flag(self, near: dict[str, Held], chance: random.Random) -> Optional[dict[str, Any]]:
        """By the rules of Manne and others."""
        pointer, flag = near.get(self.pointer, (None, False)) if self.pointer else (None, False)
        is_paired = self.pointer is not None and pointer == self.name
        if self.flag != is_paired:
            return {"flag": is_paired}
        if self.pointer is not None:
            return {"pointer": None} if not is_paired and (flag or self.pointer < self.name) else None
        wooing = [name for name, held in near.items() if held[0] == self.name]
        if wooing:
            return {"pointer": chance.choice(wooing)}
        free = [name for name, held in near.items() if held == (None, False)]
        if self.mistake == "low" and free and min(free) < self.name:
            return {"pointer": min(free)}
        above = [name for name in free if name > self.name]
        return {"pointer": max(above)} if above else None


class World(Peer):
    def __init__(self, nodes: dict[str, Node], mail: dict[str, asyncio.Queue[Message]], log: Log) -> None:
        super().__init__(WORLD, mail)
        self.nodes, self.log, self.away = nodes, log, set[str]()

    def link(self, a: str, b: str) -> None:
        one, other = self.nodes[a], self.nodes[b]
        one.copies[b], other.copies[a] = (other.pointer, other.flag), (one.pointer, one.flag)
        one.news.set()
        other.news.set()

    def cut(self, a: str, b: str) -> None:
        """Removes a link, and the pointers that crossed it."""
        for node, other in ((self.nodes[a], b), (self.nodes[b], a)):
            del node.copies[other]
            if node.pointer == other:
                node.pointer = None
            node.tell()

    async def live(self, chance: random.Random) -> None:
        for at, name in enumerate(NODES):
            for other in (NODES[at - 1], NODES[at - 7]):
                self.link(name, other)
                self.log.add(link=[name, other])
        acts = [self.toggle, self.toggle, self.write, self.write, self.write, self.go]
        while True:
            for _ in range(chance.randrange(1, 40)):
                await asyncio.sleep(0)
            await chance.choice(acts)(chance)

    async def toggle(self, chance: random.Random) -> None:
        a, b = chance.sample([name for name in NODES if name not in self.away], 2)
        await self.lock({a, b})
        if b in self.nodes[a].copies:
            self.cut(a, b)
            self.log.add(unlink=[a, b])
        elif max(len(self.nodes[name].copies) for name in (a, b)) < 6:
            self.link(a, b)
            self.log.add(link=[a, b])
        self.let_go({a, b})

    async def write(self, chance: random.Random) -> None:
        name = chance.choice([name for name in NODES if name not in self.away])
        node = self.nodes[name]
        await self.lock({name})
        if node.rules == "manne" and chance.random() < 0.5:
            node.flag = not node.flag
            self.log.add(fault=name, flag=node.flag)
        else:
            node.pointer = chance.choice([None, *node.copies])
            self.log.add(fault=name, pointer=node.pointer)
        node.tell()
        self.let_go({name})

    async def go(self, chance: random.Random) -> None:
        """A node leaves, or one that had left returns, without a link."""
        name = chance.choice(NODES)
        node = self.nodes[name]
        names = {name, *node.copies}
        await self.lock(names)
        if name in self.away:
            self.away.remove(name)
            self.log.add(join=name)
        elif set(node.copies) <= names and len(self.away) < 5:
            for other in list(node.copies):
                self.cut(name, other)
            node.pointer, node.flag = None, False
            self.away.add(name)
            self.log.add(leave=name)
        self.let_go(names)


async def played(rules: str, events: int, seed: int, mistake: str, is_proved: bool, has_saw: bool) -> list[str]:
    mail: dict[str, asyncio.Queue[Message]] = {}
    log, chance = Log(events), random.Random(seed)
    nodes = {name: Node(name, mail, rules, log, is_proved, has_saw) for name in NODES}
    nodes[ODD].mistake = mistake
    world = World(nodes, mail, log)
    peers: list[Any] = [*nodes.values(), world]
    lives = [peer.live(random.Random(chance.randrange(1 << 32))) for peer in peers]
    tasks = [asyncio.create_task(it) for it in (*(peer.receive() for peer in peers), *lives)]
    full = asyncio.create_task(log.is_full.wait())
    done, _ = await asyncio.wait([full, *tasks], return_when=asyncio.FIRST_COMPLETED)
    for task in done:
        task.result()  # raises what a node has raised
    for task in tasks:
        task.cancel()
    return log.lines


def main() -> int:
    parser = argparse.ArgumentParser(
        allow_abbrev=False, description=__doc__, formatter_class=argparse.RawDescriptionHelpFormatter
    )
    parser.add_argument("--rules", choices=("hh", "manne"), default="manne")
    parser.add_argument("--proved", action="store_true")
    parser.add_argument("--saw", action="store_true")
    parser.add_argument("--events", type=int, default=10_000)
    parser.add_argument("--seed", type=int, default=1)
    parser.add_argument("--mistake", choices=("low", "stale", "late"), default="")
    parser.add_argument("--log", metavar="FILE")
    given = parser.parse_args()
    lines = asyncio.run(played(given.rules, given.events, given.seed, given.mistake, given.proved, given.saw))
    if given.log:
        with open(1 if given.log == "-" else given.log, "w", encoding="utf-8") as file:
            file.write("".join(f"{line}\n" for line in lines))
    if given.log == "-":
        return 0
    found = conform(lines, given.rules)
    moves = ", ".join(f"{count} {rule}" for rule, count in found.moves.items())
    print(f"{found.events} events, {found.edits} edits, {found.faults} faults, moves: {moves}")
    if found.first:
        print(f"line {found.first.line}: {found.first.wrote}, and the rules do not allow it: {found.first.why}")
        for text in (*(it.text for it in found.first.differences), found.first.hint):
            print(text, end="\n" if text else "")
    else:
        print("the rules allow all of it")
    return 0 if found else 1


if __name__ == "__main__":
    sys.exit(main())
