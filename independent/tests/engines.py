#!/usr/bin/env python3
"""Both engines: random scripts must give the same bytes and status from run2 as from ./console run. So must,
for every eighth script, the events of the transcript, as a script; and scripts that continue the transcript,
or its last base with a log that is almost full.

engines.py SEED SCRIPTS [NODES]"""

from __future__ import annotations

import random
import re
import sys
import tempfile
import time
from typing import Iterable, Iterator, Sequence

sys.dont_write_bytecode = True
import scripts  # noqa: E402

WRONG = [
    b"drive 1",
    b"drive 01 1",
    b"drive 1 1000001",
    b"drive 18446744073709551616 1",
    b"scramble 1 -1",
    b"scramble 00 1",
    b"scramble 1 1 1",
    b"drive 1 1 ",
    b"checkpoint 1",
    b"checkpoint ",
    b"link 1",
    b"step  1",
    b"flag 1 2",
    b"point 0 1",
    b"show 65536",
    b"\r",
    b"enabled\0",
]


def events(transcript: bytes) -> Iterator[bytes]:
    """The events of a transcript, one on each line: drive and scramble as what they did."""
    for line in transcript.split(b"\n")[1:-1]:
        if line.startswith(b"matching2"):
            yield b"checkpoint\n"
        elif not re.match(rb"base|node|edge", line):
            yield line.split(b" = ")[0].split(b" ", 1)[1] + b"\n"


def joined(chance: random.Random, commands: Iterable[str]) -> bytes:
    """A script: some have empty lines, no last line feed, or a line that is no command."""
    lines = [line.encode() for line in commands]
    for extra in (b"", chance.choice(WRONG)):
        if chance.random() < 0.2:
            lines.insert(chance.randint(0, len(lines)), extra)
    return b"\n".join(lines) + chance.choice([b"", b"\n", b"\n", b"\n\n"])


def nearly_full(chance: random.Random, transcript: bytes) -> bytes:
    """The last base of a transcript, with a number that leaves the log room for five entries at most; nothing
    without a base."""
    begun = max(transcript.rfind(b"matching2"), 0)
    base = re.match(rb"(?:(?:matching2|base|node|edge) .*\n)+", transcript[begun:])
    lines = base[0] if base else b""
    return re.sub(rb"^base \d+ ", b"base %d " % (16777216 - chance.randint(0, 5)), lines, flags=re.M)


class Comparison:
    """Counts the scripts and lines of which both engines made something, and how often it differs."""

    def __init__(self, seed: int, folder: str) -> None:
        self.seed, self.file = seed, folder + "/transcript"
        self.runs, self.lines, self.turns, self.full, self.different = 0, 0, 0, 0, 0

    def of(self, opening: Sequence[list[str]], text: bytes) -> bytes:
        """Runs both engines on a script, and gives the transcript of ./console."""
        due, told = [scripts.called(words, text) for words in opening]
        self.runs += 1
        self.lines += due[1].count(b"\n")
        self.turns += len(re.findall(rb"^(?:drive|scramble) ", text, re.M))
        self.full += due[0] == 4
        if told != due:
            self.different += 1
            scripts.differs(f"engines_{self.seed}_{self.runs}", text, opening[1], told[0], due[0], told[2], due[2])
        return due[1]

    def going_on(self, transcript: bytes, text: bytes) -> bytes:
        """What both engines write if they continue a transcript."""
        with open(self.file, "wb") as file:
            file.write(transcript)
        return self.of([words + ["--from", self.file] for words in ([scripts.CONSOLE, "run"], [scripts.RUN2])], text)


def one(chance: random.Random, compare: Comparison, sizes: list[int], more: bool) -> None:
    """A random script and what may come after it."""
    rules, nodes = chance.choice(["hh", "manne"]), chance.choice(sizes)
    opening = scripts.opening(rules, nodes, chance.choice([nodes, nodes, chance.randint(0, nodes)]))

    def lines() -> bytes:
        return joined(chance, scripts.script(chance, nodes, 8 * max(nodes, 5)))

    transcript = compare.of(opening, lines())
    if more:
        compare.of(opening, b"".join(events(transcript)))
        base = compare.going_on(transcript, b"checkpoint\n" + lines())
        compare.going_on(nearly_full(chance, base), lines())


def main(seed: int, count: int, sizes: list[int]) -> int:
    chance, start = random.Random(seed), time.time()
    with tempfile.TemporaryDirectory() as folder:
        compare = Comparison(seed, folder)
        for number in range(count):
            one(chance, compare, sizes, number % 8 == 0)
        compare.going_on(b"matching hh 2\n1 link 1 2 = 0k\n", b"show 1\n")
    print(
        f"engines, seed {seed}: {compare.runs} runs of {compare.lines} lines, {compare.turns} drives and scrambles, "
        f"{compare.full} full logs, {compare.different} differ, {time.time() - start:.0f} s"
    )
    return 1 if compare.different or not compare.turns or not compare.full else 0


if __name__ == "__main__":
    SIZES = [int(sys.argv[3])] if len(sys.argv) > 3 else [0, 1, 2, 3, 4, 5, 6, 8, 12, 20]
    sys.exit(main(int(sys.argv[1]), int(sys.argv[2]), SIZES))
