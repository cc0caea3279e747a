"""Thirty processes of examples/c/node.c, killed and restarted, and the verdict on their log."""

from __future__ import annotations

import json
import os
import pathlib
import random
import re
import subprocess
import sys
import time

from .places import TOP

NODES = 30
# each node is linked with those this far from it on a ring
STEPS = (1, 7)
END = re.compile(
    r"accepted: \d+ events, (\d+) edits, (\d+) faults, (\d+) moves: .*\nat the end: 30 nodes, .* 0 enabled; .*\n"
)


class Nodes:
    """The processes of a network, in a folder with their log."""

    def __init__(self, program: pathlib.Path, library: pathlib.Path, folder: pathlib.Path) -> None:
        self.program, self.library, self.folder = program, library, folder
        links = sorted({tuple(sorted((a, (a + far) % NODES + 1))) for a in range(1, NODES + 1) for far in STEPS})
        self.near = {a: sorted({b for link in links if a in link for b in link} - {a}) for a in range(1, NODES + 1)}
        self.edges, self.starts = len(links), 0
        lines = [{"nodes": list(self.near)}, *({"link": link} for link in links)]
        (folder / "log").write_text("".join(json.dumps(line) + "\n" for line in lines), encoding="utf-8")
        self.processes: dict[int, subprocess.Popen[bytes]] = {}

    def __enter__(self) -> Nodes:
        for name in self.near:
            self.start(name)
        return self

    def __exit__(self, *_: object) -> None:
        for process in self.processes.values():
            process.kill()
            process.wait()

    def start(self, name: int) -> None:
        words = [self.program, self.folder, name, *self.near[name]]
        self.processes[name] = subprocess.Popen([str(word) for word in words])
        self.starts += 1

    def kill(self, name: int) -> None:
        """Ends a process in whatever it does."""
        self.processes[name].kill()
        self.processes[name].wait()

    def judged(self) -> tuple[int, str]:
        """The status and the words of the client's judge on the log so far."""
        more = {"PYTHONPATH": str(TOP / "python"), "RUDEKPI_LIBRARY": str(self.library / "librudekpi.so")}
        words = [sys.executable, "-m", "rudekpi", "conform", "--rules", "manne", str(self.folder / "log")]
        done = subprocess.run(words, env={**os.environ, **more}, capture_output=True, encoding="utf-8")
        return done.returncode, done.stdout + done.stderr

    def has_settled(self, seconds: float) -> bool:
        """Waits until all that was killed is back and no rule is enabled, or the log is refused, or time is up."""
        end = time.monotonic() + seconds
        while time.monotonic() < end:
            status, said = self.judged()
            found = END.fullmatch(said)
            if status or (found and int(found[2]) >= NODES):
                return not status
            time.sleep(0.2)
        return False


def disturb(nodes: Nodes, kills: int, chance: random.Random) -> None:
    """Kills some nodes, often several at once, and restarts each a little later."""
    for _ in range(kills):
        time.sleep(chance.random() * 0.1)
        names = chance.sample(sorted(nodes.near), chance.choice((1, 1, 2, 5)))
        for name in names:
            nodes.kill(name)
        time.sleep(chance.choice((0.0, 0.05)))
        for name in names:
            nodes.start(name)


def settled(program: pathlib.Path, library: pathlib.Path, folder: pathlib.Path) -> str:
    """What is wrong with nodes that were killed and restarted, or nothing."""
    with Nodes(program, library, folder) as nodes:
        if not nodes.has_settled(120):
            return f"they do not settle: {nodes.judged()}"
        disturb(nodes, 20, random.Random(1))
        if not nodes.has_settled(120):
            return f"they do not settle after kills: {nodes.judged()}"
        status, said = nodes.judged()
        found, ended = END.fullmatch(said), [it.poll() for it in nodes.processes.values() if it.poll() is not None]
        if status or not found or ended:
            return f"{ended} ended; the judge says {status}: {said}"
        # a start that is killed before its neighbours answer writes no fault
        edits, faults, moves = map(int, found.groups())
        is_right = edits == nodes.edges and NODES < faults <= nodes.starts and moves > NODES
        return "" if is_right else f"after {nodes.starts} starts: {said}"
