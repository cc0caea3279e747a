"""Scripts whose transcripts are played in pages: the examples, and networks of both rule sets."""

from __future__ import annotations

import dataclasses
import pathlib
import random
from typing import Callable, Iterator

TOP = pathlib.Path(__file__).resolve().parent.parent


@dataclasses.dataclass
class Page:
    """A script with its rules, its names, and how many are present at the start; or a storm of several
    scripts. Its page plays all of the transcript, or from its first base on."""

    name: str
    rules: str
    nodes: int
    script: str = ""
    storm: tuple[str, ...] = ()
    present: int | None = None
    from_base: bool = False

    def words(self) -> list[str]:
        present = [] if self.present is None else ["--present", str(self.present)]
        return ["--rules", self.rules, "--nodes", str(self.nodes), *present]


def ring(nodes: int) -> list[str]:
    return [f"link {v} {v % nodes + 1}" for v in range(1, nodes + 1)]


def path(nodes: int) -> list[str]:
    return [f"link {v} {v + 1}" for v in range(1, nodes)]


def grid(width: int, height: int) -> list[str]:
    across = [f"link {y * width + x} {y * width + x + 1}" for y in range(height) for x in range(1, width)]
    return across + [f"link {v} {v + width}" for v in range(1, width * (height - 1) + 1)]


def graph(nodes: int, edges: int, seed: int) -> list[str]:
    pairs = [(v, w) for v in range(1, nodes + 1) for w in range(v + 1, nodes + 1)]
    return [f"link {v} {w}" for v, w in random.Random(seed).sample(pairs, edges)]


def mended(seed: int, faults: int = 6) -> list[str]:
    return [
        f"drive {seed} 10000",
        "status",
        f"scramble {seed + 1} {faults}",
        "enabled",
        f"drive {seed + 2} 10000",
        "matching",
    ]


def stirred(nodes: int, seed: int, events: int) -> list[str]:
    """Random edits, faults, steps and questions, many refused."""
    chance = random.Random(seed)

    def name() -> int:
        return chance.randint(1, nodes + 1)

    kinds: list[Callable[[], str]] = [
        lambda: f"link {name()} {name()}",
        lambda: f"unlink {name()} {name()}",
        lambda: f"point {name()} {name()}",
        lambda: f"point {name()} -",
        lambda: f"flag {name()} {chance.randint(0, 1)}",
        lambda: f"step {name()}",
        lambda: f"step {name()}>{name()}",
        lambda: f"step {name()} {name()}",
        lambda: "step",
        lambda: f"show {name()}",
        lambda: "enabled",
        lambda: "matching",
        lambda: "status",
        lambda: f"join {name()}",
        lambda: f"leave {name()}",
        lambda: f"drive {chance.randint(0, 99)} 3",
    ]
    return [chance.choice(kinds)() for _ in range(events)]


EVERY_REFUSAL = [
    "link 1 1",
    "link 1 9",
    "link 1 2",
    "link 2 1",
    "unlink 1 3",
    "unlink 9 9",
    "point 1 3",
    "point 9 -",
    "flag 9 1",
    "flag 1 1",
    "join 1",
    "join 9",
    "leave 9",
    "step",
    "step 9",
    "show 9",
    "step 1 1",
    "step 3",
    "step 2>3",
    "step 1>3",
    "drive 1 5",
    "enabled",
]


def examples() -> Iterator[Page]:
    for script in sorted((TOP / "examples").glob("*.script")):
        _, rules, _, nodes = script.with_suffix(".args").read_text(encoding="ascii").split()
        yield Page(f"the example {script.stem}", rules, int(nodes), script.read_text(encoding="ascii"))


def of_both() -> Iterator[Page]:
    wide = [f"step {' '.join(map(str, range(1, 13)))}", "step 12 3 7", "drive 4 9"]
    parted = [
        "link 1 2",
        "drive 1 9",
        "unlink 1 2",
        "link 2 3",
        "drive 2 9",
        "unlink 2 3",
        "unlink 2 3",
        "link 1 2",
        "status",
    ]
    scripts = {
        "no nodes": (0, ["enabled", "matching", "status", "link 1 2"]),
        "one node": (1, ["link 1 1", "step 1", "drive 1 5", "scramble 1 3", "status"]),
        "a pair that is parted": (3, parted),
        "hosts that leave and come back": (
            6,
            ring(6) + ["drive 3 99", "leave 2", "enabled", "drive 5 99", "leave 5", "join 2", "link 2 1", "drive 7 99"],
        ),
        "every refusal": (3, EVERY_REFUSAL),
        "a ring of seven": (7, ring(7) + mended(3)),
        "a ring of forty, with a chord": (
            40,
            ring(40) + mended(7, 12) + ["unlink 7 8", "link 7 20", "drive 9 99", "link 7 8"],
        ),
        "a ring of seventy": (70, ring(70) + mended(5, 20)),
        "a path of nine": (9, path(9) + mended(11)),
        "two rings and nodes alone": (14, ring(5) + [f"link {v + 5} {(v + 1) % 4 + 6}" for v in range(4)] + mended(2)),
        "a star": (12, [f"link 1 {v}" for v in range(2, 13)] + wide + mended(13)),
        "a grid": (36, grid(6, 6) + mended(17, 15)),
        "all with all": (12, graph(12, 66, 1) + wide + mended(19, 9)),
        "a graph of 25": (25, graph(25, 40, 2) + mended(23, 12) + stirred(25, 29, 60)),
        "a graph of 120": (120, graph(120, 260, 3) + mended(31, 40)),
        "stirred": (6, stirred(6, 37, 160)),
        "stirred more": (10, stirred(10, 41, 300)),
    }
    for name, (nodes, lines) in scripts.items():
        for rules in ("hh", "manne"):
            yield Page(f"{name} under {rules}", rules, nodes, "".join(f"{line}\n" for line in lines))


def scripts() -> list[Page]:
    storm = ("link 1 2\ndrive 7 100\nscramble 3 9\n", "link 3 4\nlink 2 3\nscramble 5 20\ndrive 2 9\n")
    joined = [f"join {v}" for v in range(7, 13)]
    grown = "".join(
        f"{line}\n" for line in [*grid(3, 2), "drive 3 40", *joined, *grid(3, 4), *mended(9), "leave 5", *mended(3)]
    )
    kept = "".join(
        f"{line}\n"
        for line in [
            "checkpoint",
            *grid(3, 3),
            "checkpoint",
            *mended(5),
            "checkpoint",
            "checkpoint",
            "leave 5",
            *mended(8),
        ]
    )
    begun = "".join(
        f"{line}\n"
        for line in [
            *grid(3, 3),
            "drive 3 5",
            "scramble 4 6",
            "leave 8",
            "drive 2 3",
            "checkpoint",
            *mended(8),
            "join 8",
            "link 7 8",
        ]
    )
    many = [f"link {v} {v + 7}" for v in range(1, 2_600)] + ["drive 3 60", "status"]
    return [
        *examples(),
        *of_both(),
        Page("a storm under manne", "manne", 4, storm=storm),
        Page("no entries under hh", "hh", 5),
        *[
            Page(f"a grid of which half is there under {rules}", rules, 12, grown, present=6)
            for rules in ("hh", "manne")
        ],
        *[Page(f"checkpoints under {rules}", rules, 9, kept) for rules in ("hh", "manne")],
        *[Page(f"a grid from a base on under {rules}", rules, 10, begun, from_base=True) for rules in ("hh", "manne")],
        Page("more nodes than are drawn", "manne", 2_607, "".join(f"{line}\n" for line in many)),
    ]


BY_NAME = {page.name: page for page in scripts()}
