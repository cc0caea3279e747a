#!/usr/bin/env python3
"""Gives each link of a changing mesh a slot.

In each round the links of a maximal matching get their slots, so that no host talks to two others at once.
The next round is for the links that still wait. Links come and go between the rounds.

usage: examples/link_schedule.py
"""

from __future__ import annotations

import itertools
import os
import sys
from typing import Any, Iterator

sys.path.insert(0, os.path.join(os.path.dirname(os.path.realpath(__file__)), "..", "python"))
from rudekpi import Network  # noqa: E402

ROWS, COLUMNS = "abcd", "12345"
# changes before a round: a link comes, or a link that still waits goes without its slot
COME = {2: [("a1", "b2"), ("b2", "c3")], 4: [("a1", "d5"), ("d1", "d3")]}
GO = {3: [("c2", "c3"), ("a4", "a5")]}


def mesh() -> Iterator[tuple[str, str]]:
    """A grid: each host is linked with the next in its row and in its column."""
    for row, next_row in itertools.zip_longest(ROWS, ROWS[1:]):
        for column, next_column in itertools.zip_longest(COLUMNS, COLUMNS[1:]):
            if next_column:
                yield row + column, row + next_column
            if next_row:
                yield row + column, next_row + column


def change(net: Network, waiting: set[Any], number: int) -> None:
    for link in COME.get(number, []):
        net.link(*link)
        waiting.add(link)
        print("comes", "-".join(link))
    for link in GO.get(number, []):
        if link in waiting:
            net.unlink(*link)
            waiting.remove(link)
            print("goes", "-".join(link))


def main() -> None:
    waiting = set(mesh())
    with Network(rules="manne", nodes=[row + column for row in ROWS for column in COLUMNS]) as net:
        with net.batch() as batch:
            for a, b in mesh():
                batch.link(a, b)
        print(f"{len(waiting)} links wait")
        number = 0
        while waiting:
            number += 1
            change(net, waiting, number)
            settled = net.settle(list)  # all enabled hosts move at once
            pairs = net.matching()
            print(
                f"round {number}:",
                *("-".join(pair) for pair in pairs),
                f"({settled.moves} moves of {settled.charge} at most)",
            )
            with net.batch() as batch:
                for pair in pairs:
                    batch.unlink(*pair)
            waiting.difference_update(pairs)
    print(f"all served after {number} rounds")


if __name__ == "__main__":
    main()
