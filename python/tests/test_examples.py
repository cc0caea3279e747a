"""The Python examples: their output is judged by its claims."""

from __future__ import annotations

import os
import re
import subprocess
import sys
import unittest
from typing import AbstractSet, Collection

from support import TOP, Timed


def printed(name: str, seed: str = "1") -> list[str]:
    words = [sys.executable, os.path.join(TOP, "examples", name)]
    done = subprocess.run(
        words, env=dict(os.environ, PYTHONHASHSEED=seed), cwd="/", capture_output=True, encoding="utf-8"
    )
    if done.returncode or done.stderr:
        raise AssertionError(f"{name} ended with status {done.returncode}: {done.stderr}")
    return done.stdout.splitlines()


def link_of(text: str) -> frozenset[str]:
    return frozenset(text.split("-"))


class Examples(Timed):
    def expect_maximal(self, pairs: Collection[frozenset[str]], links: AbstractSet[frozenset[str]], at: str) -> None:
        """Links are pairs without common hosts; each link shares a host with a pair."""
        self.assertLessEqual(set(pairs), links, at)
        hosts = [host for pair in pairs for host in pair]
        self.assertEqual(len(hosts), len(set(hosts)), at)
        self.assertEqual([set(link) for link in links if not link & set(hosts)], [], at)

    def expect_bounded(self, text: str, links: AbstractSet[frozenset[str]], nodes: int) -> int:
        """The moves are within the charge, and that within 2m + 3n."""
        found = re.search(r"(\d+) moves of (\d+) at most", text)
        assert found is not None, text
        moves, charge = map(int, found.groups())
        self.assertLessEqual(moves, charge, text)
        self.assertLessEqual(charge, 2 * len(links) + 3 * nodes, text)
        return moves

    def test_each_link_has_its_slot_once(self) -> None:
        lines = printed("link_schedule.py")
        across = [frozenset((row + str(column), row + str(column + 1))) for row in "abcd" for column in range(1, 5)]
        down = [frozenset((a + str(column), b + str(column))) for a, b in zip("abc", "bcd") for column in range(1, 6)]
        waiting = set(across + down)
        self.assertEqual(lines[0], "31 links wait")
        came, went, served, rounds, last_change = 31, 0, 0, 0, 0
        for line in lines[1:-1]:
            word, *rest = line.split(" ")
            if word == "comes":
                self.assertNotIn(link_of(rest[0]), waiting)
                waiting.add(link_of(rest[0]))
                came, last_change = came + 1, rounds
            elif word == "goes":
                waiting.remove(link_of(rest[0]))
                went += 1
            else:
                rounds += 1
                self.assertEqual(rest[0], f"{rounds}:")
                pairs = [link_of(pair) for pair in " ".join(rest[1:]).split(" (")[0].split(" ")]
                self.expect_bounded(line, waiting, 20)
                self.expect_maximal(pairs, waiting, line)
                waiting -= set(pairs)
                served += len(pairs)
        self.assertEqual((waiting, served, went), (set(), came - went, 1))
        self.assertEqual(came, 35, "two links come before each of two rounds")
        self.assertEqual(lines[-1], f"all served after {rounds} rounds")
        # in each round that a link waits, one next to it is served; at most 5 such links are at each end
        self.assertLessEqual(rounds, last_change + 2 * 5 + 1)

    def test_each_host_has_a_partner_or_no_free_neighbour(self) -> None:
        lines = printed("backup_partners.py")
        hosts = [f"h{number:02}" for number in range(1, 13)]
        links = {frozenset((hosts[at], hosts[at - 1])) for at in range(12)} | {
            frozenset(("h01", "h07")),
            frozenset(("h04", "h10")),
        }
        failed: set[str] = set()
        moves = 0
        for line in lines[:-1]:
            event, told = line.split(": ", 1)
            word, _, host = event.partition(" ")
            failed = failed | {host} if word == "fails" else failed - {host}
            there = {link for link in links if not link & failed}
            pairs = [link_of(pair) for pair in told.split("; ")[1].split(" alone: ")[0].split(" ")]
            moves += self.expect_bounded(told, there, 12)
            self.expect_maximal(pairs, there, line)
            alone = set(hosts) - failed - {host for pair in pairs for host in pair}
            self.assertEqual(told.split(" alone: ")[1].split(" "), sorted(alone) or ["-"])
        self.assertEqual([line.split(" ")[0] for line in lines[1:-1]].count("fails"), 4)
        self.assertEqual(lines[-1], f"{moves} moves in all")

    def test_they_print_the_same_again(self) -> None:
        for name in ("link_schedule.py", "backup_partners.py"):
            self.assertEqual(printed(name), printed(name, seed="2"))

    def test_the_page_prints_what_it_says(self) -> None:
        with open(os.path.join(TOP, "docs", "PYTHON.md"), encoding="utf-8") as file:
            found = re.search(r"```python\n(.*?)```.*?```\n(.*?)```", file.read(), re.DOTALL)
        assert found is not None
        code, said = found.groups()
        words = [sys.executable, "-c", code]
        paths = dict(os.environ, PYTHONPATH=os.path.join(TOP, "python"))
        done = subprocess.run(words, env=paths, cwd="/", capture_output=True, encoding="utf-8")
        self.assertEqual((done.returncode, done.stderr, done.stdout), (0, "", said))
        # by hand: 1 and 2 seduce, 3 marries 2, 2 and 3 update, and 1 abandons; 2 links and 3 nodes are a
        # charge of 7
        self.assertEqual(said.splitlines()[0], "6 moves of 7 at most: ('bob', 'cleo')")


if __name__ == "__main__":
    unittest.main()
