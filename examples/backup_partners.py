#!/usr/bin/env python3
"""Hosts that keep a copy of each other's data, in pairs of neighbours.

A host whose partner fails, or that returns, looks for a partner. Each failure's cost is printed with its
budget, the charge: no schedule can make it cost more.

usage: examples/backup_partners.py
"""

from __future__ import annotations

import os
import random
import sys
from typing import Any

sys.path.insert(0, os.path.join(os.path.dirname(os.path.realpath(__file__)), "..", "python"))
from rudekpi import Enabled, Network  # noqa: E402

HOSTS = [f"h{number:02}" for number in range(1, 13)]
# a ring whose every third host has a link to the host across it
LINKS = [(HOSTS[at], HOSTS[(at + 1) % 12]) for at in range(12)] + [(HOSTS[at], HOSTS[at + 6]) for at in (0, 3)]
EVENTS = [
    "fails h02",
    "fails h08",
    "returns h02",
    "fails h05",
    "fails h06",
    "returns h08",
    "returns h06",
    "returns h05",
]


def some(enabled: Enabled, drawn: random.Random = random.Random(7)) -> list[Any]:
    """Each enabled host moves with probability one half; at least one moves."""
    return [host for host in enabled if drawn.random() < 0.5] or [drawn.choice(list(enabled))]


def tell(net: Network, event: str, down: set[str]) -> int:
    """Lets the network settle, and prints the cost and who backs up whom. Returns the moves."""
    settled, pairs = net.settle(some), net.matching()
    alone = [host for host in HOSTS if pairs.partner(host) is None and host not in down]
    print(
        f"{event}: {settled.moves} moves of {settled.charge} at most;",
        *("-".join(pair) for pair in pairs),
        "alone:",
        *alone or "-",
    )
    return settled.moves


def main() -> None:
    down: set[str] = set()
    with Network(rules="manne", nodes=HOSTS) as net:
        with net.batch() as batch:
            for a, b in LINKS:
                batch.link(a, b)
        total = tell(net, "start", down)
        for event in EVENTS:
            word, host = event.split()
            edit = {"fails": net.unlink, "returns": net.link}[word]
            for a, b in LINKS:
                if host in (a, b) and not down & ({a, b} - {host}):
                    edit(a, b)
            down ^= {host}
            total += tell(net, event, down)
    print(f"{total} moves in all")


if __name__ == "__main__":
    main()
