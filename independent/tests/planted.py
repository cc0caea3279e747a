#!/usr/bin/env python3
"""Shows that the comparison finds a wrong engine: three mistakes, each planted in an engine that is right.

usage: independent/tests/planted.py [--scripts N]

The engine is a copy of bench/plain_engine, which writes what `console run` writes; `console` itself cannot be
built with a mistake, as its proof would stop. First the copy is right: audit2 accepts its transcripts of N
random scripts, 40 without --scripts, and of two networks of small_networks.py, and run2 writes the same
bytes. Then it has a wrong guard, a wrong target, or a wrong refusal: of both kinds of scripts audit2 must
name a reply that is not the machine's, and run2 must differ. The last line is `N passed, N failed`; the exit
status is 0 if some passed and none failed, else 1.
"""

from __future__ import annotations

import argparse
import contextlib
import io
import itertools
import pathlib
import random
import re
import sys
from typing import Any

sys.dont_write_bytecode = True
HERE = pathlib.Path(__file__).resolve().parent
sys.path.insert(0, str(HERE))
import scripts  # noqa: E402
import small_networks  # noqa: E402

ENGINE = HERE.parent.parent / "bench" / "plain_engine"
# What the plain engine lacks; and long drives, which a wrong engine need not end.
LACKED = re.compile(r"join|leave|checkpoint|drive \d+ \d\d")
NOT_ITS_REPLY = b": not the machine's reply\n"
PLANTS = {
    "a wrong guard: under hh a node abandons a target that points nowhere": (
        "vain = self.pointers[w], self.pointers[w] if self.central",
        "vain = self.pointers[w], True if self.central",
    ),
    "a wrong target: under manne a node seduces the least neighbour that it may": ("found[-1:]", "found[:1]"),
    "a wrong refusal: a link of an unknown node to itself is a self-loop": (
        'return "self-loop" if self.known(a, b)',
        'return "self-loop" if a == b',
    ),
}
Run = tuple[str, int, bytes]


def random_runs(count: int) -> list[Run]:
    chance, found = random.Random(1), []
    for _ in range(count):
        rules, nodes = chance.choice(["hh", "manne"]), chance.choice([2, 3, 4, 5, 6, 8])
        lines = [line for line in scripts.script(chance, nodes, 60) if not LACKED.match(line)]
        found.append((rules, nodes, "\n".join(lines).encode() + b"\n"))
    return found


def small_runs() -> list[Run]:
    """The first lines of what small_networks.py tries on a node with two neighbours above it."""
    found = []
    for rules in ("hh", "manne"):
        network = small_networks.Network(rules, 3, (1, 2, 3), ((1, 2), (1, 3)))
        lines = [line for line in itertools.islice(network.script(), 20_000) if not LACKED.match(line)]
        found.append((rules, 3, "\n".join(lines).encode() + b"\n"))
    return found


def transcript(engine: dict[str, Any], run: Run) -> bytes:
    """What the engine writes of a script."""
    rules, nodes, script = run
    written = io.StringIO()
    with contextlib.redirect_stdout(written), io.StringIO(script.decode()) as sys.stdin:
        engine["run"](rules, nodes)
    return written.getvalue().encode()


def judged(engine: dict[str, Any], run: Run) -> tuple[bytes, bool]:
    """What audit2 says of the engine's transcript of a script, and whether run2 writes the same."""
    rules, nodes, _ = run
    text = transcript(engine, run)
    events = [entry.split(b" = ")[0].split(b" ", 1)[1] + b"\n" for entry in text.split(b"\n")[1:-1]]
    ours = scripts.called([scripts.RUN2, rules, str(nodes)], b"".join(events))
    return scripts.called([scripts.AUDIT2], text)[1], ours[1] == text


def check(name: str, text: str, runs: list[Run], is_right: bool) -> bool:
    engine: dict[str, Any] = {"__name__": "plain_engine"}
    exec(compile(text, str(ENGINE), "exec"), engine)
    found = [judged(engine, run) for run in runs]
    refused = sum(said.endswith(NOT_ITS_REPLY) for said, _ in found)
    differ = sum(not same for _, same in found)
    accepted = sum(said.startswith(b"accepted: ") for said, _ in found)
    print(f"{name}: of {len(runs)} transcripts audit2 refuses {refused}, and run2 differs in {differ}")
    if is_right:
        return accepted == len(runs) > 0 == differ
    return refused > 0 < differ


def main() -> int:
    parser = argparse.ArgumentParser(description=__doc__, usage=argparse.SUPPRESS)
    parser.formatter_class = argparse.RawDescriptionHelpFormatter
    parser.add_argument("--scripts", type=int, default=40, metavar="N", help="how many random scripts")
    text, good = ENGINE.read_text(encoding="utf-8"), []
    for kind, runs in {"random": random_runs(parser.parse_args().scripts), "small": small_runs()}.items():
        good.append(check(f"{kind}, no mistake", text, runs, True))
        for name, (old, new) in PLANTS.items():
            good.append(text.count(old) == 1 and check(f"{kind}, {name}", text.replace(old, new), runs, False))
    print(f"{good.count(True)} passed, {good.count(False)} failed")
    return 0 if all(good) else 1


if __name__ == "__main__":
    sys.exit(main())
