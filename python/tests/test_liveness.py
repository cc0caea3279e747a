"""Which nodes of a log are enabled and do not move: at the end, and during the run."""

from __future__ import annotations

import contextlib
import io
import json
import os
import random
import subprocess
import sys
import time
import unittest
from typing import Any
from unittest import mock

from rudekpi import Network, Note, Refused, Waiting, audit, conform
from support import TOP, Timed

HEAD = '{"nodes": ["a", "b", "c"]}'


def line(at: float, **event: Any) -> str:
    return json.dumps({"time": at, **event})


LOG = [
    HEAD,
    line(1, link=["a", "b"]),
    line(2, link=["b", "c"]),
    line(3, move="a", pointer="b"),
    line(4, fault="c", pointer="b"),
]


def simulated(dead: int, seed: int, rules: str = "manne") -> list[str]:
    """The log of ten nodes in a ring that moves and is hit by faults, while one node never moves."""
    chance, names = random.Random(seed), [f"n{node}" for node in range(1, 11)]
    log, at = [json.dumps({"nodes": names})], 0.0

    def add(**event: Any) -> None:
        nonlocal at
        at += 1
        log.append(line(at, **event))

    flags: set[int] = set()
    with Network(rules, 10) as net:
        for node in range(1, 11):
            net.link(node, node % 10 + 1)
            add(link=[f"n{node}", f"n{node % 10 + 1}"])
        if dead:
            # a flag that only the node itself can take back
            net.flag(dead, True)
            add(fault=f"n{dead}", flag=True)
        for turn in range(300):
            enabled = net.enabled()
            free = [node for node in enabled if node != dead]
            if not free or (turn < 200 and chance.random() < 0.2):
                if turn >= 200:
                    break
                # not near the dead node, so that it stays as it is
                node = chance.choice([it for it in range(1, 11) if (it - dead) % 10 not in (0, 1, 2, 8, 9)])
                net.point(node, None)
                add(fault=f"n{node}", pointer=None)
                continue
            node = chance.choice(free)
            (move,) = net.step([node])
            if move.rule == "update":
                flags ^= {node}
                add(move=f"n{node}", flag=node in flags)
            else:
                add(move=f"n{node}", pointer=move.target and f"n{move.target}")
    return log


class AtTheEnd(Timed):
    def test_who_is_enabled_and_since_when(self) -> None:
        # a and c point at b, which may marry: its view changed last in line 5, and it was enabled from line 2 on
        transcript = io.BytesIO()
        found = conform(LOG, "hh", transcript=transcript)
        self.assertEqual(found.waiting, (Waiting("b", "marry", 5, 4.0, False),))
        self.assertIn("enabled = 2:marry\n", transcript.getvalue().decode())
        audit(transcript.getvalue())
        found = conform(LOG, "hh", stuck=100)
        self.assertEqual(found.waiting, (Waiting("b", "marry", 2, 1.0, True),))
        self.assertEqual(found.stuck, 0)
        self.assertEqual(conform(LOG[:2], "hh").waiting[0], Waiting("a", "seduce", 2, 1.0, False))

    def test_the_longest_first_and_ten_at_most(self) -> None:
        names = [f"n{number:02}" for number in range(1, 27)]
        links = [json.dumps({"link": [a, b]}) for a, b in zip(names[::2], names[1::2])][::-1]
        lines = [json.dumps({"nodes": names}), *links]
        found = conform(lines, "hh")
        self.assertEqual(
            [it.node for it in found.waiting], ["n25", "n26", "n23", "n24", "n21", "n22", "n19", "n20", "n17", "n18"]
        )
        self.assertEqual([it.line for it in found.waiting], [2, 2, 3, 3, 4, 4, 5, 5, 6, 6])
        said = command("\n".join(lines).encode() + b"\n")[1].splitlines()
        self.assertEqual(
            said[2:4], ["enabled without a move, the longest first:", "    n25 by seduce, at least since line 2"]
        )
        self.assertEqual(said[-1], "    and 16 more")

    def test_nothing_of_a_log_that_is_not_judged_to_its_end(self) -> None:
        found = conform([*LOG, line(5, move="a", pointer="b")], "hh")
        self.assertEqual((found.divergences, found.waiting), (1, ()))


def command(given: bytes, *words: str) -> tuple[int, str, str]:
    """The status of `conform`, what it prints and what it reports."""
    run = [sys.executable, "-m", "rudekpi", "conform", "--rules", "hh", *words]
    paths = dict(os.environ, PYTHONPATH=os.path.join(TOP, "python"))
    done = subprocess.run(run, input=given, env=paths, capture_output=True)
    return done.returncode, done.stdout.decode(), done.stderr.decode()


class InTheRun(Timed):
    def stuck(self, lines: list[str], seconds: float, **words: Any) -> list[str]:
        notes: list[Note] = []
        found = conform(lines, "hh", stuck=seconds, on_note=notes.append, **words)
        self.assertEqual(found.stuck, sum(note.kind == "stuck" for note in notes))
        return [str(note) for note in notes]

    def test_a_node_that_waits_too_long_is_named_once(self) -> None:
        text = "line 2, time 1: b is enabled since then, by marry, and has not moved for 3 seconds"
        self.assertEqual(self.stuck(LOG, 3), [text])
        self.assertEqual(self.stuck([*LOG, line(90, fault="c", pointer=None)], 3), [text])
        self.assertEqual(self.stuck(LOG, 3.5), [])
        # a move begins a new wait, also one that comes too late
        moved = [*LOG[:4], line(3.5, move="b", pointer="a")]
        self.assertEqual(self.stuck(moved, 3), [])
        late = self.stuck([*LOG[:4], line(9, move="b", pointer="a")], 3)
        # c may point at b from line 3 on
        self.assertEqual([note.split(" is ")[0] for note in late], ["line 2, time 1: b", "line 3, time 2: c"])

    def test_what_ends_a_wait(self) -> None:
        # b is enabled from line 2 to 6, and from line 7 on
        gone = [
            *LOG,
            line(4.5, leave="b"),
            line(5, join="b"),
            line(6, link=["a", "b"]),
            line(7, fault="a", pointer=None),
        ]
        self.assertEqual(self.stuck(gone, 3.9), [])
        found = conform(gone, "hh", stuck=3.9)
        self.assertEqual([(it.node, it.line, it.time) for it in found.waiting], [("a", 8, 6.0), ("b", 8, 6.0)])
        # moves at once under manne: c sees one change, and stays enabled
        both = [line(3, moves=[{"move": "a", "pointer": "b"}, {"move": "b", "pointer": "c"}])]
        found = conform([*LOG[:3], *both], "manne", stuck=50)
        self.assertEqual([(it.node, it.rule, it.line) for it in found.waiting], [("c", "marry", 4)])

    def test_the_command(self) -> None:
        text = "".join(f"{it}\n" for it in LOG).encode()
        status, said, told = command(text, "--stuck", "3")
        self.assertEqual((status, told), (5, ""))
        self.assertTrue(said.startswith("line 2, time 1: b is enabled since then, by marry, and has not moved for 3 s"))
        self.assertTrue(said.endswith("    b by marry, since line 2, time 1\n"))
        self.assertEqual(command(text, "--stuck", "30")[0], 0)
        self.assertEqual(command(text + b"x\n", "--stuck", "3", "--resync")[0], 2)
        wrong = line(9, move="c", pointer=None).encode() + b"\n"
        self.assertEqual(command(text + wrong + wrong, "--stuck", "3")[0], 1)
        for word in ("0", "-1", "nan", "inf", "x"):
            status, said, _ = command(text, "--stuck", word)
            self.assertEqual((status, said), (2, ""))
        with self.assertRaises(ValueError):
            conform(LOG, "hh", stuck=0)

    def test_the_wall_clock_of_a_pipe(self) -> None:
        """Without times a node is named while nothing comes."""
        words = [sys.executable, "-m", "rudekpi", "conform", "--rules", "hh", "--stuck", "0.3"]
        paths = dict(os.environ, PYTHONPATH=os.path.join(TOP, "python"))
        run = subprocess.Popen(words, env=paths, stdin=subprocess.PIPE, stdout=subprocess.PIPE, bufsize=0)
        assert run.stdin and run.stdout
        self.addCleanup(run.stdout.close)
        self.addCleanup(run.kill)
        run.stdin.write(f'{HEAD}\n{{"link": ["a", "b"]}}\n'.encode())
        began, said = time.monotonic(), b""
        while said.count(b"\n") < 2:
            said += os.read(run.stdout.fileno(), 4096)
        self.assertGreater(time.monotonic() - began, 0.2)
        self.assertIn(b"line 2: a is enabled since then, by seduce, and has not moved for 0.3 seconds\n", said)
        run.stdin.close()
        self.assertEqual(run.wait(), 5)

    def test_a_file_without_times_can_not_be_measured(self) -> None:
        lines = [HEAD, '{"link": ["a", "b"]}']
        with mock.patch("rudekpi.liveness.time.monotonic", iter(range(0, 10**6, 100)).__next__):
            self.assertEqual(self.stuck(lines, 3), ["no line of this log has a time, so no wait was measured"])

    def test_times_that_begin_late_or_run_backwards(self) -> None:
        lines = [HEAD, '{"link": ["a", "b"]}', line(10, fault="c", pointer=None), line(7, fault="c", pointer=None)]
        self.assertEqual(self.stuck(lines, 3), [])
        notes = self.stuck([*lines, line(13, fault="c", pointer=None)], 3)
        self.assertEqual([note.split(":")[0] for note in notes], ["line 2, time 10"] * 2)


WORDS = ("link", "link", "unlink", "leave", "join", "point", "step", "step", "step", "step")


def acted(net: Network, word: str, a: int, b: int, flags: set[int]) -> str:
    """The line of an edit, a fault or a move. Raises `Refused`."""
    if word in ("link", "unlink"):
        getattr(net, word)(a, b)
        return json.dumps({word: [a, b]})
    if word in ("leave", "join"):
        getattr(net, word)(a)
        flags.discard(a)
        return json.dumps({word: a})
    if word == "point":
        net.point(a, b)
        return json.dumps({"fault": a, "pointer": b})
    (move,) = net.step([a])
    if move.rule == "update":
        flags ^= {a}
        return json.dumps({"move": a, "flag": a in flags})
    return json.dumps({"move": a, "pointer": move.target})


class Dead(Timed):
    def test_a_dead_node_is_named(self) -> None:
        for seed in range(20):
            dead = random.Random(seed).randrange(1, 11)
            lines = simulated(dead, seed)
            with self.subTest(seed=seed, dead=dead):
                notes: list[Note] = []
                found = conform(lines, "manne", stuck=60, on_note=notes.append)
                self.assertTrue(found)
                self.assertEqual(found.waiting[0].node, f"n{dead}")
                self.assertTrue(notes and all(f": n{dead} is enabled" in note.text for note in notes), notes)
                # without an index it is among those at the end too, from a later line on
                (last,) = [it for it in conform(lines, "manne").waiting if it.node == f"n{dead}"]
                self.assertGreaterEqual(last.line, found.waiting[0].line)

    def test_none_is_named_if_all_live(self) -> None:
        for seed in range(20):
            found = conform(simulated(0, seed), "manne", stuck=60)
            self.assertEqual((found.stuck, found.waiting), (0, ()))

    def test_the_index_agrees_with_the_machine(self) -> None:
        for rules in ("hh", "manne"):
            chance = random.Random(5)
            for _ in range(30):
                log, flags = [json.dumps({"nodes": [1, 2, 3, 4, 5]})], set[int]()
                with Network(rules, 5) as net:
                    for _ in range(chance.randrange(60)):
                        a, b = chance.sample(range(1, 6), 2)
                        with contextlib.suppress(Refused):
                            log.append(acted(net, chance.choice(WORDS), a, b, flags))
                    enabled = dict(net.enabled())
                found = conform(log, rules, stuck=10**6)
                self.assertTrue(found)
                self.assertEqual({it.node: it.rule for it in found.waiting}, enabled)
                self.assertTrue(all(it.is_exact for it in found.waiting))


if __name__ == "__main__":
    unittest.main()
